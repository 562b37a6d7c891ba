"""Do a machine's boot log and measurement list account for the PCRs of its TPM 2.0?

A firmware event log (TCG, crypto-agile) and a binary measurement list of Linux IMA are replayed,
and the resulting PCRs are compared with a signed quote, or with expected values. Calls take the
bytes of /sys/kernel/security/tpm0/binary_bios_measurements and of
/sys/kernel/security/ima/binary_runtime_measurements, and expected PCRs as lines such as
`sha256 10 <64 hexadecimal digits>`. Memory that can be written may not change during a call, or
while its entries or events are gone through.

>>> import ima_verify
>>> from pathlib import Path
>>> names = "firmware.log", "ima.list", "expected.txt"
>>> log, measurements, expected = (Path(name).read_bytes() for name in names)
>>> verdict = ima_verify.verify(log, measurements, expected, require="sha256:0-10")
>>> verdict.matches, verdict.entries
(True, 99)

Each verdict takes `require`, the PCRs that it must cover, such as `sha256:0-10` or
`sha256:0-7,sha1:10`, with PCR 10 of some bank. There is no default: `NOTHING` requires none. A
verdict for which no PCR was compared is no match. With `require` an event of the log that extends
PCR 10, or an entry of the list that extends another, is no match.

Results have the members of the line of `ima-agent --json` (docs/schema.json), and the line itself
as `json`. All errors are `Error`; `str` of one says what is wrong, and what to do. An argument of
another type raises TypeError.

Calls from several threads run at once. Do not call in the forked child of a process with threads.
The library is the file that the environment variable IMA_VERIFY_LIBRARY names by a path, otherwise
`libima_verify.so` in this package's folder, otherwise the system's `libima_verify.so.1`. The first
call loads it, or raises `LoadError`."""

from ctypes import byref, c_size_t
from typing import overload

from . import _answers, _library
from ._errors import (
    Error, Kind, LibraryError, LoadError, Misuse, OutOfMemory, Refused, VersionError,
)
from ._inputs import (
    NOTHING, Known, Nothing, Quote, Required, Text, bound_log, bytes_of, confirming, judged, log_of,
    text_of,
)
from ._library import Buffer
from ._listings import Entries, Events
from ._results import (
    Alike, Attestation, Boot, BootVariable, Certificate, Changed, Claim, Clock, Command,
    ConvertedLog, Entry, Event, Fault, Header, Image, ImaPolicy, Key, ListVerdict, LogAlgorithm,
    Pcr, PlaceRow, Places, QuotedBank, Row, Specification, Stray, Verdict,
)
from ._session import Session

__version__ = "1.0.0"

__all__ = [
    "Alike", "Attestation", "Boot", "BootVariable", "Buffer", "Certificate", "Changed", "Claim",
    "Clock", "Command", "ConvertedLog", "Entries", "Entry", "Error", "Event", "Events", "Fault",
    "Header", "Image", "ImaPolicy", "Key", "Kind", "LibraryError", "ListVerdict", "LoadError",
    "LogAlgorithm", "Misuse", "NOTHING", "Nothing", "OutOfMemory", "Pcr", "PlaceRow", "Places",
    "Quote", "QuotedBank", "Refused", "Row", "Session", "Specification", "Stray", "Verdict",
    "VersionError", "attest", "boot", "convert_list", "convert_log", "entries", "events",
    "expected", "list_registers", "locate", "read_endorsement_key", "read_key", "registers",
    "replay", "show", "verify", "version",
]


def version() -> int:
    """The version of the library's interface. (The package's own is `__version__`.)

    >>> ima_verify.version() >= 1
    True
    """
    return int(_library.loaded().ima_verify_version())


def verify(
    log: Buffer, measurements: Buffer, expected: Text, *, require: Required,
    known: Known | None = None, hcrtm: bool = False, old_kernel: bool = False,
) -> Verdict:
    """The verdict on a firmware event log, a measurement list and expected PCRs.

    Args:
        require: The PCRs that must be among the expected ones, or `NOTHING`.
        known: Texts as sha256sum, sha384sum or sha512sum print them, by which each entry but the
            boot aggregate must be of a known file; `unknown` of the verdict has the others.
        hcrtm: Whether an event EV_EFI_HCRTM_EVENT in PCR 0 tells that PCR 0 began at 4, if no event
            of the log tells a locality (TPM 2.0 Library, part 1, 34.3).
        old_kernel: Whether a boot aggregate over PCRs 0 to 7 is taken, as kernels before 5.8 make
            it, if PCRs are required; `boot_aggregate` of the verdict is then "old_kernel".

    Raises:
        Refused: An input is not valid, or the template digest of an entry does not match.
        Misuse: `require` is not of its form, or it is `NOTHING` though `known` is given.

    >>> verdict = ima_verify.verify(log, measurements, expected, require="sha256:0-10,sha1:10")
    >>> [(row.bank, row.register) for row in verdict.registers if row.state == "missing"]
    [('sha1', 10)]
    >>> sums = Path("../known/SHA256SUMS").read_bytes()
    >>> ima_verify.verify(log, measurements, expected, require="sha256:0-10", known=[sums]).unknown
    (93, 94, 97)
    """
    given = judged(measurements, expected, require, known)
    answer = _library.call("verdict", **bound_log(log, hcrtm, old_kernel), **given)
    return _answers.read_verdict(Verdict, *answer)


def replay(
    measurements: Buffer, expected: Text, *, require: Required, known: Known | None = None
) -> ListVerdict:
    """The verdict on a measurement list without a log, and expected PCRs.

    The list is replayed from the PCRs' reset values, so a PCR that the firmware extends too
    differs. A list without entries is no match. Errors are as of `verify`.

    >>> tenth = next(line for line in expected.splitlines() if line.startswith(b"sha256 10 "))
    >>> ima_verify.replay(measurements, tenth, require="sha256:10").matches
    True
    """
    answer = _library.call("replay", **judged(measurements, expected, require, known))
    return _answers.read_verdict(ListVerdict, *answer)


def locate(
    log: Buffer, measurements: Buffer, expected: Text, *, require: Required, hcrtm: bool = False
) -> Places:
    """Where each expected PCR first has its value. Arguments and errors are as of `verify`.

    >>> places = ima_verify.locate(log, measurements, expected, require="sha256:0-10")
    >>> [(row.register, row.place, row.number) for row in places.registers[9:11]]
    [(9, 'event', 22), (10, 'entry', 98)]
    """
    given = judged(measurements, expected, require)
    answer = _library.call("locate", **log_of(log, hcrtm), **given)
    return _answers.read_places(*answer)


@overload
def attest(
    key: Text, quote: Buffer, signature: Buffer, log: Buffer, measurements: Buffer, *,
    nonce: Buffer | None = None, nonce_hex: str | None = None, require: str,
    allow_sha1: bool = False, known: Known | None = None, hcrtm: bool = False,
    old_kernel: bool = False,
) -> Attestation: ...


@overload
def attest(
    key: None, quote: Buffer, signature: None, log: Buffer, measurements: Buffer, *,
    nonce: Buffer | None = None, nonce_hex: str | None = None, require: str,
    allow_sha1: bool = False, known: Known | None = None, hcrtm: bool = False,
    old_kernel: bool = False, signature_checked: bool,
) -> Attestation: ...


def attest(
    key: Text | None, quote: Buffer, signature: Buffer | None, log: Buffer, measurements: Buffer, *,
    nonce: Buffer | None = None, nonce_hex: str | None = None, require: str,
    allow_sha1: bool = False, known: Known | None = None, hcrtm: bool = False,
    old_kernel: bool = False, signature_checked: bool | None = None,
) -> Attestation:
    """The verdict on a firmware event log and a measurement list by a quote with its signature.

    Args:
        key: The machine's attestation key, of RSA with 2048 to 4096 bits, or of P-256 or P-384:
            the public area for which a credential was activated, or the `pem` of `read_key`.
        quote: What the TPM signed: the file that `tpm2_quote -m` writes.
        signature: The file that `tpm2_quote -s` writes, with `-f plain` or without.
        nonce: The verifier's own nonce for this quote, used once: 16 bytes or more.
        nonce_hex: In place of `nonce`: its hexadecimal digits, as `openssl rand -hex 20` writes.
        require: The PCRs that must be quoted, at least 0 to 10, such as `sha256:0-10`.
        allow_sha1: Whether a PCR may be required in the SHA-1 bank alone.
        known, hcrtm, old_kernel: As for `verify`.
        signature_checked: For another key, such as one of P-521, in place of key and signature,
            which are then None: whether the caller has verified the signature of this message by
            the machine's key. If it is False, there is no match.

    Raises:
        Refused: An input is not valid, the key did not sign the quote, or its nonce is another.
        Misuse: `require` is not as above; or the nonce is too short, or not hexadecimal.

    >>> names = "AK.pem", "quote.msg", "quote.sig"
    >>> key, quote, signature = (Path("../quoted", name).read_bytes() for name in names)
    >>> given = {"nonce_hex": Path("../quoted/nonce").read_text(), "require": "sha256:0-10"}
    >>> found = ima_verify.attest(key, quote, signature, log, measurements, **given)
    >>> found.matches, found.entries, found.quoted[0].registers[-1], found.clock.resets
    (True, 99, 10, 1)
    """
    bytes_of("measurements", measurements)
    session = Session.by_quotes(log, known=known, hcrtm=hcrtm, old_kernel=old_kernel)
    return session._attest(Quote(
        key, quote, signature, measurements, nonce=nonce, nonce_hex=nonce_hex, require=require,
        allow_sha1=allow_sha1, signature_checked=signature_checked,
    ))


def boot(
    log: Buffer, *, expected: Text | None = None, quote: Quote | None = None,
    before: Buffer | None = None, hcrtm: bool = False, old_kernel: bool = False,
) -> Boot:
    """What a machine booted, by its firmware event log, as far as PCRs confirm it.

    Args:
        expected, quote: What confirms: expected PCRs, or those that a quote requires, which matches
            log and list. Without one, all is unknown.
        before: The log of an earlier boot, to compare with. Nothing confirms it.
        hcrtm, old_kernel: As for `verify`; `old_kernel` only with a quote.

    Errors are as of `verify` and `attest`.

    >>> names = "systemd-boot.log", "systemd-boot.expected", "secure-boot.log"
    >>> now, pcrs, earlier = (Path("../ovmf-boot", name).read_bytes() for name in names)
    >>> booted = ima_verify.boot(now, expected=pcrs, before=earlier)
    >>> booted.secure_boot, booted.ima_policy.ima_policy, booted.alike[0].alike
    ('off', 'asked', 1)
    """
    compared = {} if before is None else {"before": bytes_of("before", before), "compares": True}
    answer = _library.call(
        "boot", _library.PIECE_CAPACITY, **bound_log(log, hcrtm, old_kernel), json=True, **compared,
        **confirming(expected, quote, old_kernel),
    )
    return _answers.read_boot(*answer)


def read_key(area: Buffer) -> Key:
    """The attestation key of a public area.

    It is restricted, never leaves the TPM that made it, signs, and does not decrypt. Its area, the
    file that `tpm2_createak -u` writes or one without its size, does not say whose TPM it is in,
    and anyone can write one: take it, or its `pem`, for `attest` only after a credential for its
    `name` was activated, as `ima-enroll` does. `Refused` says if it is no area, or what the key
    lacks.

    >>> key = ima_verify.read_key(Path("../keys/ak-rsassa.pub").read_bytes())
    >>> key.type, key.bits, key.scheme, key.hash
    ('rsa', 2048, 'rsassa', 'sha256')
    >>> key.pem == Path("../keys/ak-rsassa.pem").read_text()
    True
    """
    return _answers.read_key(*_library.call("key", area=bytes_of("area", area), json=True))


def read_endorsement_key(area: Buffer) -> Key:
    """The endorsement key of a public area, to which credentials are made.

    It is restricted, never leaves the TPM that made it, decrypts, and does not sign. Its area, the
    file that `tpm2_createek -u` writes, does not say whose it is: compare its `pem` with the key of
    a certificate by the TPM's manufacturer.

    >>> key = ima_verify.read_endorsement_key(Path("../keys/ek-p256.pub").read_bytes())
    >>> key.type, key.bits, key.scheme, key.hash
    ('ecc', 256, 'none', None)
    """
    answer = _library.call("key", area=bytes_of("area", area), endorsement=True, json=True)
    return _answers.read_key(*answer)


def expected(printed: Text, registers: str | None = None) -> bytes:
    """The lines of expected PCRs that a text states which tpm2_pcrread or tpm2_checkquote printed.

    `registers` is a selection such as `sha256:0-10` or `0-7,10`; None selects all. The text does
    not say who wrote it, nor whether a quote holds. One that states no selected PCR is refused.

    >>> printed = Path("tpm2_pcrread.txt").read_bytes()
    >>> ima_verify.expected(printed, "0-10") == b"".join(expected.splitlines(True)[:11])
    True
    """
    if not isinstance(registers, (str, type(None))):
        raise TypeError(f"registers takes a str or None, and not {registers!r:.80}")
    given, selected = text_of("printed", printed), text_of("registers", registers or "")
    status, text = _library.call("expected", printed=given, registers=selected)
    if status != _library.DONE or not text.endswith(b"\n"):
        _library.unexpected(status, text)
    return text


def convert_list(text: Text) -> bytes:
    """The binary measurement list of a list as text, such as the kernel's
    ascii_runtime_measurements: exactly these lines are what `show` gives of it. `Refused` names the
    first line that is not that of a genuine entry.

    >>> ima_verify.convert_list(ima_verify.show(measurements)) == measurements
    True
    """
    return _converted(text_of("text", text), _library.CONVERT_LIST)[0]


def convert_log(log: Buffer) -> ConvertedLog:
    """A crypto-agile log of the same events, of a log in the SHA-1 form of TPM 1.2, or of one with
    zeros or bytes 0xFF behind its last event. A log by SHA-1 is worth nothing against whoever can
    make collisions.

    >>> found = ima_verify.convert_log(log + bytes(4))
    >>> found.log == log, found.padding
    (True, 4)
    """
    return ConvertedLog(*_converted(bytes_of("log", log), _library.CONVERT_LOG))


def _converted(given: Buffer, conversion: int) -> tuple[bytes, int]:
    padding = c_size_t(-1)
    status, made = _library.call(
        "convert", memoryview(given).nbytes + _library.PIECE_CAPACITY, bytes=given,
        conversion=conversion, padding=byref(padding),
    )
    if status != _library.DONE or padding.value > memoryview(given).nbytes:
        _library.unexpected(status, made)
    return made, padding.value


def registers(log: Buffer, *, hcrtm: bool = False) -> tuple[Pcr, ...]:
    """The PCRs that differ from their reset values after a firmware event log. (`hcrtm` is as for
    `verify`.)

    >>> first = ima_verify.registers(log)[0]
    >>> first.bank, first.register, first.value.hex()[:8]
    ('sha256', 0, '177e29c4')
    """
    given = log_of(log, hcrtm)
    given["bytes"] = given.pop("log")
    return _answers.read_pcrs(*_library.call("registers", **given, json=True))


def list_registers(measurements: Buffer) -> tuple[Pcr, ...]:
    """The PCRs, in banks of all algorithms, that differ from their reset values after a
    measurement list without a log.

    >>> [(pcr.bank, pcr.register) for pcr in ima_verify.list_registers(measurements)]
    [('sha1', 10), ('sha256', 10), ('sha384', 10), ('sha512', 10)]
    """
    listed = bytes_of("measurements", measurements)
    return _answers.read_pcrs(*_library.call("registers", bytes=listed, of_list=True, json=True))


def entries(measurements: Buffer) -> Entries:
    """The entries of a measurement list, one after another. They are never all in memory.

    >>> [entry.path for entry in ima_verify.entries(measurements) if not entry.violation][:2]
    ['boot_aggregate', '/init']
    """
    return Entries(measurements)


def events(
    log: Buffer, *, expected: Text | None = None, quote: Quote | None = None, hcrtm: bool = False,
    old_kernel: bool = False,
) -> Events:
    """The events of a firmware event log after its header, one after another. They are never all
    in memory.

    With expected PCRs or a quote, as for `boot`, each event has `confirmed`; the whole log is then
    read by this call, and otherwise its header. (`hcrtm` and `old_kernel` are as for `boot`.)

    >>> events = ima_verify.events(log)
    >>> [algorithm.name for algorithm in events.header.algorithms], next(events).type
    (['sha256'], 'EV_S_CRTM_VERSION')
    >>> next(ima_verify.events(log, expected=expected)).confirmed
    'data'
    """
    given = {"hcrtm": hcrtm, "old_kernel": old_kernel}
    return Events(log, expected=expected, quote=quote, **given)


def show(measurements: Buffer) -> bytes:
    """The entries of a measurement list, each in the kernel's form, as one text.

    Paths are as they are: they may have line feeds and control bytes.

    >>> ima_verify.show(measurements).splitlines()[1][-14:]
    b'51aabe89 /init'
    """
    listed = bytes_of("measurements", measurements)
    if not memoryview(listed).nbytes:
        return b""  # (a text without a line)
    return b"".join(_library.lines("entries", list=listed, json=False))
