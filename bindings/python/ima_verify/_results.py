"""What the library answers: the members of its lines of JSON (docs/schema.json), by their names.

Hexadecimal members are bytes. A word of the library, such as a state, is a string: a later library
may have others. What a line lacks is None, or an empty tuple."""

from dataclasses import dataclass, field
from typing import Any


@dataclass(frozen=True, slots=True, kw_only=True)
class Pcr:
    """A PCR, by its bank ("sha1", "sha256", "sha384" or "sha512") and its number from 0 to 23."""

    bank: str
    register: int
    value: bytes


@dataclass(frozen=True, slots=True, kw_only=True)
class Row:
    """An expected PCR, compared, or with the state "missing" a required one that is not expected.
    The value is that which log and list make, with the state "differ"."""

    bank: str
    register: int
    expected: bytes | None = None
    state: str
    value: bytes | None = None


@dataclass(frozen=True, slots=True, kw_only=True)
class PlaceRow:
    """Where an expected PCR first has its value: at the place "event" or "entry" the number is that
    of the event, from 1, or of the entry, from 0."""

    bank: str
    register: int
    expected: bytes | None = None
    place: str
    number: int | None = None


@dataclass(frozen=True, slots=True, kw_only=True)
class Stray:
    """An event of the log, from 1, that extends PCR 10, or an entry of the list, from 0, that
    extends another."""

    event: int | None = None
    entry: int | None = None
    register: int


@dataclass(frozen=True, slots=True, kw_only=True)
class Fault:
    """An error in a list after its confirmed entries, for which the list is not refused. Kind,
    number and message are as of `Refused`."""

    kind: str
    number: int | None = None
    event: int | None = None
    entry: int | None = None
    message: str


@dataclass(frozen=True, slots=True, kw_only=True)
class QuotedBank:
    """A bank of a quote, and its PCRs that are selected."""

    bank: str
    registers: tuple[int, ...]


@dataclass(frozen=True, slots=True, kw_only=True)
class Clock:
    """The clock of a TPM when it made a quote. For a key outside the endorsement and platform
    hierarchies the TPM adds a constant to `resets` and `restarts`, and to the version of its
    firmware: only differences mean something."""

    milliseconds: int
    resets: int
    restarts: int
    safe: bool


@dataclass(frozen=True, slots=True, kw_only=True, repr=False)
class _Judged:
    """What all verdicts have. As a condition, one is true exactly if it is a match."""

    matches: bool
    json: str
    entries: int
    extends: tuple[Stray, ...] = ()
    known_from: int | None = None
    unknown: tuple[int, ...] = ()
    verdict: str

    def __bool__(self) -> bool:
        return self.matches

    def __repr__(self) -> str:
        word = "match" if self.matches else "no match"
        return f"<{type(self).__name__}: {word}, {self.entries} entries>"


@dataclass(frozen=True, slots=True, kw_only=True, repr=False)
class Verdict(_Judged):
    """The verdict on a log, a list and expected PCRs.

    Attributes:
        locality: That from which the TPM was started.
        confirmed: How many first entries the verdict covers, from a session with `prefix`.
        unconfirmed: The first error after these.
        compared: How many expected PCRs were compared. Without one there is no match.
        boot_aggregate: "good", "old_kernel" (it is as `old_kernel` takes it), "wrong", "nobank" (it
            is by a bank that the log lacks), "missing".
        registers: The expected PCRs, compared, and then the required ones that are missing.
        extends: The first event of PCR 10, and the first entry of another, if PCRs are required.
        known_from: The first entry that was looked up among known files, if some were given.
        unknown: The entries from there on that are of no known file.
    """

    events: int
    locality: int
    confirmed: int | None = None
    unconfirmed: Fault | None = None
    compared: int
    boot_aggregate: str
    registers: tuple[Row, ...]


@dataclass(frozen=True, slots=True, kw_only=True, repr=False)
class ListVerdict(_Judged):
    """The verdict on a list without a log, and expected PCRs. The attributes are as of `Verdict`;
    `json` is the line of `ima-agent replay --json`."""

    compared: int
    registers: tuple[Row, ...]


@dataclass(frozen=True, slots=True, kw_only=True, repr=False)
class Attestation(_Judged):
    """The verdict on a log and a list by a quote. It covers the PCRs in `quoted`, and no others.

    Attributes:
        signer: The qualified name of the key that signed, as the quote states it.
        expected, registers: Of expected PCRs beside the quote, which no call takes.
        quote: "match" if log and list make the quoted values, otherwise "differ".
        signature: "valid": it is by the key; "checked" or "not checked": what the caller said.
    """

    quoted: tuple[QuotedBank, ...]
    signer: bytes
    clock: Clock
    firmware: int
    events: int
    locality: int
    confirmed: int | None = None
    unconfirmed: Fault | None = None
    boot_aggregate: str
    expected: str | None = None
    registers: tuple[Row, ...] = ()
    quote: str
    signature: str


@dataclass(frozen=True, slots=True, kw_only=True)
class Places:
    """Where each expected PCR first has its value; `located` is whether a PCR is expected, and each
    has a place. As a condition, it is true if `located` is."""

    json: str = field(repr=False)
    registers: tuple[PlaceRow, ...]
    located: bool

    def __bool__(self) -> bool:
        return self.located


@dataclass(frozen=True, slots=True)
class ConvertedLog:
    """A crypto-agile log, and how many bytes after the last event were left out of it."""

    log: bytes
    padding: int


@dataclass(frozen=True, slots=True, kw_only=True)
class Key:
    """What the public area of a key states. It does not say whose TPM the key is in.

    Attributes:
        name: The name by which TPMs know the key. (The `signer` of a quote is another.)
        pem: The public key as `openssl pkey -pubin` writes it, which `attest` takes.
    """

    json: str = field(repr=False)
    name: bytes
    type: str
    bits: int
    scheme: str
    hash: str | None = None
    pem: str


@dataclass(frozen=True, slots=True, kw_only=True)
class Entry:
    """An entry of a measurement list.

    Attributes:
        violation: Whether a file was open for writing while it was measured. No PCR confirms it.
        genuine: Whether the template digest is valid, or the entry is a violation.
        algorithm, digest, path, path_hex, signature: Those of the file, if the payload has the
            fields of ima, ima-ng or ima-sig. A path that is not UTF-8 is in `path_hex`.
        payload: The whole payload otherwise.
        fields: What the payload says, if the fields of another template fit (docs/formats.md).
    """

    json: str = field(repr=False)
    entry: int
    register: int
    template: str | None = None
    template_hex: bytes | None = None
    template_digest: bytes
    violation: bool
    genuine: bool
    algorithm: str | None = None
    digest: bytes | None = None
    path: str | None = None
    path_hex: bytes | None = None
    signature: bytes | None = None
    payload: bytes | None = None
    fields: dict[str, Any] | None = None

    @property
    def path_bytes(self) -> bytes | None:
        """The path as it is in the list, whether it is UTF-8 or not."""
        return self.path_hex if self.path is None else self.path.encode()


@dataclass(frozen=True, slots=True, kw_only=True)
class Certificate:
    """A certificate, by its bytes alone: their SHA-256, and how many they are."""

    sha256: bytes
    size: int


@dataclass(frozen=True, slots=True, kw_only=True)
class Event:
    """An event of a firmware event log.

    Attributes:
        register: The PCR that it names. An `EV_NO_ACTION` extends none, so no PCR confirms it.
        register_name: What systemd calls that PCR.
        measured: Which part of `data` was measured, by the banks in which one was: "data" (all),
            "value" (of a variable) or "command" (of GRUB). The rest, and the type, are claims.
        confirmed: Which part is confirmed, or "none", if `events` has expected PCRs or a quote.
        content: What the data says: one member, by its form (docs/event-data.md).
    """

    json: str = field(repr=False)
    event: int
    register: int
    register_name: str | None = None
    type: str | None = None
    type_number: int
    digests: dict[str, bytes]
    data: bytes
    measured: dict[str, str]
    confirmed: str | None = None
    content: dict[str, Any]

    @property
    def certificates(self) -> tuple[Certificate, ...]:
        """The certificates in the value of a variable. `ima_verify.x509` reads them."""
        variable = self.content.get("variable", {})
        lists = (listed.get("certificates", ()) for listed in variable.get("lists", ()))
        alone = variable.get("certificate") or variable.get("signature", {}).get("certificate")
        found = [*([alone] if alone else []), *(each for listed in lists for each in listed)]
        return tuple(
            Certificate(sha256=bytes.fromhex(each["sha256"]), size=each["size"]) for each in found
        )


@dataclass(frozen=True, slots=True, kw_only=True)
class LogAlgorithm:
    """An algorithm that a log's header declares: its name, if it is known, its number as the TCG
    assigns it, and the size of its digests in bytes."""

    name: str | None = None
    id: int
    size: int


@dataclass(frozen=True, slots=True, kw_only=True)
class Specification:
    """The platform class and the version of the specification that a log's header states."""

    platform_class: int
    major: int
    minor: int
    errata: int
    uintn_size: int
    vendor: bytes


@dataclass(frozen=True, slots=True, kw_only=True)
class Header:
    """The header of a log."""

    json: str = field(repr=False)
    algorithms: tuple[LogAlgorithm, ...]
    specification: Specification


@dataclass(frozen=True, slots=True, kw_only=True)
class Image:
    """A program that the firmware started: the number of the event, or "unknown", its digest in
    each bank that answers, and what the event's data claims."""

    image: int | str
    digests: dict[str, bytes] | None = None
    claimed: dict[str, Any] | None = None


@dataclass(frozen=True, slots=True, kw_only=True)
class Command:
    """A command that a boot loader measured: the number of the event, or "unknown" if texts of the
    PCR are not reported, from `event` on; the text, or its bytes if it is not valid in its
    encoding; and what the data claims of a command of GRUB."""

    command: int | str
    register: int
    register_name: str | None = None
    text: str | None = None
    text_hex: bytes | None = None
    claimed: dict[str, Any] | None = None
    event: int | None = None


@dataclass(frozen=True, slots=True, kw_only=True)
class ImaPolicy:
    """Whether a command asked Linux to measure files: "asked", "possible" (a command may set a
    policy) or "unknown", and the first event whose text did."""

    ima_policy: str
    event: int | None = None


@dataclass(frozen=True, slots=True, kw_only=True)
class BootVariable:
    """A variable of UEFI that says what to start: the number of the event, or "unknown", and what
    its data says."""

    boot_variable: int | str
    content: dict[str, Any] | None = None


@dataclass(frozen=True, slots=True, kw_only=True)
class Claim:
    """What an event claims, which nothing confirms: besides `event` the members of one kind."""

    event: int
    secure_boot: str | None = None
    firmware_version: dict[str, Any] | None = None
    digests: dict[str, bytes] | None = None
    image: dict[str, Any] | None = None
    register: int | None = None
    register_name: str | None = None
    command: dict[str, Any] | None = None
    boot_variable: dict[str, Any] | None = None


@dataclass(frozen=True, slots=True, kw_only=True)
class Alike:
    """A PCR of two boots: the first bank in which the logs differ, and how many first events have
    the same digests there; or "all", if each bank that answers has; or "unknown", if none does."""

    register: int
    register_name: str | None = None
    bank: str | None = None
    alike: int | str


@dataclass(frozen=True, slots=True, kw_only=True)
class Changed:
    """An event that one of two boots has: its number in the log or in the earlier log, its digest
    in the bank in which the logs differ, and what its data claims."""

    register: int
    register_name: str | None = None
    now: int | None = None
    before: int | None = None
    digest: bytes | None = None
    claimed: dict[str, Any]


@dataclass(frozen=True, slots=True, kw_only=True)
class Boot:
    """What a machine booted: the lines of `ima-agent boot --json` (docs/event-data.md).

    Attributes:
        quote_differs: Whether the verdict by the quote is no match: then all is unknown.
        secure_boot: "on", "off" or "unknown".
        firmware_version: The content that states the version, or "unknown".
        boot_variables: BootOrder and each Boot####.
        claimed: Without expected PCRs and quote, what events claim; all else is then unknown.
        alike: With an earlier log, each PCR that one of the logs extends.
        changed: With an earlier log, the events that one of both has.
    """

    quote_differs: bool
    json: str = field(repr=False)
    secure_boot: str
    firmware_version: dict[str, Any] | str
    images: tuple[Image, ...] = ()
    commands: tuple[Command, ...] = ()
    ima_policy: ImaPolicy
    boot_variables: tuple[BootVariable, ...] = ()
    claimed: tuple[Claim, ...] = ()
    alike: tuple[Alike, ...] = ()
    changed: tuple[Changed, ...] = ()
