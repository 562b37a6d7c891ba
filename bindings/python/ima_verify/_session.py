"""Verdicts on a list that grows."""

from typing import Any, TypeVar, overload

from . import _answers, _library
from ._inputs import (
    NOTHING, Known, Quote, Required, Text, bound_log, bytes_of, copy_of, flag_of, known_files,
    quoted, required, some_bytes,
)
from ._library import Buffer
from ._results import Attestation, Verdict

_Verdict = TypeVar("_Verdict", Verdict, Attestation)


class Session:
    """Verdicts on a measurement list that grows: each is on the whole list so far, but only what
    is new of it is given.

    Args:
        log, expected, require, hcrtm, old_kernel: As for `verify`.
        prefix: Whether the verdict is on the confirmed prefix, if there is one: as few first
            entries as make all PCRs match. What comes after them may be new, or damaged.
        state: The state of an earlier session, to continue from with a log of the same boot;
            `expected` may be another. A state is trusted: whoever can write it can choose the
            verdict. `more` refuses one that is damaged, or of another boot.
        known: As for `verify`. Entries that the state covers are not looked up again: if other
            files are known than then, begin a new session with the whole list.

    Use a session in one thread at a time.

    >>> session = ima_verify.Session(log, expected, require="sha256:0-10", prefix=True)
    >>> verdict = session.more(measurements + measurements[-95:])  # (an entry too much)
    >>> verdict.matches, verdict.confirmed, verdict.entries
    (True, 99, 100)
    >>> later = ima_verify.Session(log, expected, require="sha256:0-10", state=session.state)
    >>> later.more(measurements[later.offset:]).matches
    True
    """

    def __init__(
        self, log: Buffer, expected: Text, *, require: Required, prefix: bool = False,
        state: Buffer | None = None, known: Known | None = None, hcrtm: bool = False,
        old_kernel: bool = False,
    ) -> None:
        copied = memoryview(bytes_of("log", log)).tobytes()
        self._log = bound_log(copied, hcrtm, old_kernel)
        self._judged = {"expected": copy_of("expected", expected), "require": required(require)}
        self._options = {**known_files(known), "prefix": flag_of("prefix", prefix)}
        self._state = None if state is None else memoryview(bytes_of("state", state)).tobytes()

    @classmethod
    def by_quotes(
        cls, log: Buffer, *, prefix: bool = False, state: Buffer | None = None,
        known: Known | None = None, hcrtm: bool = False, old_kernel: bool = False,
    ) -> "Session":
        """A session for `attest` alone: no PCRs are expected, and `more` raises `Misuse`. The state
        must be that of a session that used `attest` last."""
        options: dict[str, Any] = {"prefix": prefix, "state": state, "known": known, "hcrtm": hcrtm}
        session = cls(log, b"", require=NOTHING, old_kernel=old_kernel, **options)
        session._judged["require"] = b""  # (which the library refuses)
        return session

    def more(self, data: Buffer) -> Verdict:
        """The verdict on the list that the state covers, followed by these bytes.

        After a match the state covers what the verdict is on: the confirmed prefix, or the whole
        list. After any other verdict, and after an error, the session is as it was: give these
        bytes again, with those that come next. Numbers of entries are those in the whole list.
        """
        return self._ask("more", Verdict, more=bytes_of("data", data), **self._judged)

    @overload
    def attest(
        self, key: Text, quote: Buffer, signature: Buffer, data: Buffer, *,
        nonce: Buffer | None = None, nonce_hex: str | None = None, require: str,
        allow_sha1: bool = False,
    ) -> Attestation: ...

    @overload
    def attest(
        self, key: None, quote: Buffer, signature: None, data: Buffer, *,
        nonce: Buffer | None = None, nonce_hex: str | None = None, require: str,
        allow_sha1: bool = False, signature_checked: bool,
    ) -> Attestation: ...

    def attest(
        self, key: Text | None, quote: Buffer, signature: Buffer | None, data: Buffer, *,
        nonce: Buffer | None = None, nonce_hex: str | None = None, require: str,
        allow_sha1: bool = False, signature_checked: bool | None = None,
    ) -> Attestation:
        """The verdict by a quote on the list that the state covers, followed by these bytes. The
        arguments and errors are as of the function `attest`.

        The next quote must be of the same boot, with the same `clock.resets` and `clock.restarts`,
        otherwise the state is refused. (A suspend counts as a restart: then begin a new session
        with the whole list.)
        """
        bytes_of("data", data)
        return self._attest(Quote(
            key, quote, signature, data, nonce=nonce, nonce_hex=nonce_hex, require=require,
            allow_sha1=allow_sha1, signature_checked=signature_checked,
        ))

    def _attest(self, quote: Quote) -> Attestation:
        return self._ask("attest", Attestation, more=quote.measurements, **quoted(quote))

    def _ask(self, name: str, kind: type[_Verdict], **given: Any) -> _Verdict:
        """The verdict of a function of the library, which moves the state if it is a match."""
        state = b"" if self._state is None else some_bytes(self._state)
        given = {**self._log, "state": state, **self._options, **given}
        status, text, following = _library.call_more(name, **given)
        verdict = _answers.read_verdict(kind, status, text)
        self._state = following or self._state
        return verdict

    @property
    def state(self) -> bytes | None:
        """What to keep, and to give another session as its `state`. None before the first match
        on a list from its beginning."""
        return self._state

    @property
    def offset(self) -> int:
        """How many bytes of the list the state covers: `more` takes those that follow. (0 for a
        state that does not say so, which `more` refuses.)"""
        for line in (self._state or b"").split(b"\n", 3)[:3]:
            name, _, number = line.partition(b" ")
            if name == b"bytes" and number.isdigit() and len(number) < 20:
                return int(number)
        return 0
