"""The verdict on one machine, on a worker, by the package `ima_verify`; and whether a process can give one."""

import base64
import hashlib
import os
import time
from dataclasses import dataclass
from typing import Any, Optional, Sequence, Tuple

from .reading import Fields, cause_of, read_inputs
from .wording import ABSENT

# The variable that may name the library.
LIBRARY = "IMA_VERIFY_LIBRARY"

# What `--require` says if it names nothing.
NONE = "none"

# Why a machine is refused whose inputs the library takes. Its own lines begin with `refused:`.
NOTHING_EXPECTED = "nothing to compare: no register is expected"

# Why a machine is refused before the library judges its quote.
NO_KEY = "no key: the verifier has none of this machine"
NO_NONCE = "no nonce: none was given out for this machine, or each is used or too old"
NO_QUOTE = "no quote: {}"

# Why a machine is unreadable whose quote answers no nonce of late.
USED = "stale: an earlier verdict used the nonce of its quote"

# The library's line on a checkpoint that is not as it was made, and why no verdict goes on from one of a longer list.
DAMAGED = "refused: checkpoint fault 1"
SHORTER = "list: it is shorter than at the checkpoint"

# How the text of a key begins that is no public area.
PEM = b"-----BEGIN"

# Its line on a quote with another nonce.
OTHER_NONCE = "refused: quote fault 11"
ALL_USED = "Each nonce that was given out for this machine is used. Give out a new one with `fleet-verify nonces`, and collect a quote for it."
NOT_ANSWERED = "The quote answers no nonce that was given out for this machine. Collect a new quote of the nonce that was given out last."

# What may come of a machine besides a verdict: the worker lacks the library or a driver, or an error that none foresaw.
UNFIT, TROUBLED = "unfit", "troubled"

# The verdicts that have a report.
REPORTED = ("match", "differ")

Inputs = Sequence[Optional[bytes]]


@dataclass(frozen=True)
class Asked:
    """What a run asks of each machine.

    Attributes:
        require: The text of `--require`.
        is_poll: Whether a match leaves a checkpoint, and may go on from one.
        is_quoted: Whether the machine's quote is judged, and not its expected registers.
        deadline: In how many seconds its files are read.
        known: By which name the workers keep the text of known files, if there are some.
        max_age: How many seconds old its files may be, if that is limited. (The age of a quote is judged where its nonce is taken.)
        hcrtm: Whether the event of an H-CRTM tells that PCR 0 began at 4.
        old_kernel: Whether a boot aggregate over PCRs 0 to 7 is taken.
        prefix: Whether a match may cover the confirmed prefix of a list, and not all of it.
    """

    require: str
    is_poll: bool
    is_quoted: bool
    deadline: float
    known: Optional[str] = None
    max_age: Optional[float] = None
    hcrtm: bool = False
    old_kernel: bool = False
    prefix: bool = False

    @property
    def on_boot(self) -> Fields:
        """What is asked of a machine's boot, as the library's package takes it."""
        return {"hcrtm": self.hcrtm, "old_kernel": self.old_kernel}


@dataclass(frozen=True)
class Given:
    """What the verifier has of a machine.

    Attributes:
        checkpoint: Where its last match stopped, by Latin-1.
        key: The public area or the PEM of its attestation key, by Latin-1.
        nonces: Those that were given out for it, in hexadecimal digits, each with whether an earlier verdict used it.
        no_key: Why its key was not taken, if there is one.
    """

    checkpoint: Optional[str] = None
    key: Optional[str] = None
    nonces: Sequence[Tuple[str, bool]] = ()
    no_key: Optional[str] = None


def required(require: str) -> Any:
    """What the library is asked to require, by the text of `--require`."""
    from ima_verify import NOTHING

    return NOTHING if require == NONE else require


def known_texts(text: Optional[bytes]) -> Fields:
    """What the library is given of known files, if there are some: one text of them all."""
    return {} if text is None else {"known": [text]}


def require_fitness(require: str, is_poll: bool, known: Optional[bytes] = None, is_quoted: bool = False) -> None:
    """Makes sure that this process has the library, whose verdicts tell what log and list extend, with sessions for a poll, and which verifies
    the signatures of quotes; and that it takes this text for what is required, and this one of known files.

    Otherwise there is an ImportError, or a ValueError, and no error of a class of `ima_verify`: the client may lack the package. The library
    reads these texts before the log. A ValueError of known files has the number of the fault, the line and the words."""
    if "/" not in (os.environ.get(LIBRARY) or "/"):
        raise ImportError(f"{LIBRARY} is to be a path: a name alone would be that of a file in the folder of the call")
    import ima_verify
    from ima_verify import Kind

    if not hasattr(ima_verify, "convert_log"):
        raise ImportError("the package ima_verify is of an earlier version")
    if is_quoted:
        require_quotes(require)
    try:
        ima_verify.verify(b"", b"", b"", require=required(require), **known_texts(known))
    except ima_verify.Misuse:
        raise ValueError(f"--require {require!r} is no selection with register 10, as sha256:0-10 or sha256:0-7,10, nor {NONE}") from None
    except ima_verify.Refused as fault:
        if fault.kind is Kind.KNOWN:
            raise ValueError(fault.number, fault.place, fault.text) from None
        # (no log is empty)
    except ima_verify.Error as fault:
        raise ImportError(str(fault)) from None


def require_quotes(require: str) -> None:
    """Makes sure that this process can judge quotes, and that they may be required to select these registers."""
    import ima_verify

    try:
        ima_verify.attest(b"", b"", b"", b"", b"", nonce=bytes(32), require=require)
    except ima_verify.Misuse:
        raise ValueError(
            f"--require {require!r} is no selection with each register from 0 to 10 in a bank other than sha1, as sha256:0-10: a quote has to "
            "select these (--unquoted takes others)"
        ) from None
    except ima_verify.Refused:
        pass  # (no key is empty)
    except ima_verify.Error as fault:
        raise ImportError(str(fault)) from None


def list_start(checkpoint: Optional[bytes]) -> int:
    """How many bytes the list had at the checkpoint; 0 without one, and of what is none, which the verdict then refuses."""
    if checkpoint is None:
        return 0
    import ima_verify

    return int(ima_verify.Session(b"", b"", require=ima_verify.NOTHING, state=checkpoint).offset)


def verdict_fields(verdict: Any) -> Fields:
    return {
        "verdict": "match" if verdict.matches else "differ",
        "events": verdict.events,
        "locality": verdict.locality,
        "entries": verdict.entries,
        "boot_aggregate": verdict.boot_aggregate,
        "report": verdict.json,
    }


def reached(session: Any, verdict: Any) -> Fields:
    """The next checkpoint, after a match."""
    if not verdict.matches:
        return {}
    assert session.state is not None
    return {"checkpoint": session.state.decode()}


def has_compared(verdict: Any) -> bool:
    """Whether the machine expects a register: those that are required, and missing, have no value."""
    return any(row.state != "missing" for row in verdict.registers)


def judge_registers(inputs: Inputs, checkpoint: Optional[bytes], asked: Asked, known: Optional[bytes]) -> Fields:
    """The verdict by the registers that the machine expects."""
    import ima_verify

    log, measurements, expected = inputs
    assert log is not None and expected is not None
    given = {"require": required(asked.require), **asked.on_boot, **known_texts(known)}
    if not asked.is_poll and not asked.prefix:
        assert measurements is not None
        verdict: Any = ima_verify.verify(log, measurements, expected, **given)
        return verdict_fields(verdict) if has_compared(verdict) else {"verdict": "refused", "cause": NOTHING_EXPECTED}
    session = ima_verify.Session(log, expected, state=checkpoint, prefix=asked.prefix, **given)
    verdict = session.more(measurements or b"")
    if not has_compared(verdict):
        return {"verdict": "refused", "cause": NOTHING_EXPECTED}
    return {**verdict_fields(verdict), **(reached(session, verdict) if asked.is_poll else {})}


def judge_quote(inputs: Inputs, checkpoint: Optional[bytes], given: Given, asked: Asked, known: Optional[bytes]) -> Fields:
    """The verdict by the machine's quote, whose signature has to be by its key. One with a nonce that an earlier verdict used proves nothing
    of late."""
    import ima_verify

    message, signature = inputs[2:]
    assert message is not None and signature is not None and given.key is not None
    key = given.key.encode("latin-1")
    unused = [nonce for nonce, is_used in given.nonces if not is_used]
    # (a quote has the bytes of its nonce: of the others one is asked for, to learn what else is wrong with it)
    for nonce in [nonce for nonce in unused if bytes.fromhex(nonce) in message] or unused[:1]:
        try:
            judged = judge_attested(inputs, checkpoint, key, nonce, asked, known)
            return {"signer": signer_of(key), "nonce": nonce, **judged}
        except ima_verify.Refused as fault:
            if fault.message != OTHER_NONCE:
                raise
    if not unused:
        require_signed(key, message, signature, asked.require)
    return by_no_unused_nonce(message, given, asked)


def require_signed(key: bytes, message: bytes, signature: bytes, require: str) -> None:
    """Refuses the key, or a signature that is not by it and on this message. (The library judges these before all else.)"""
    import ima_verify

    try:
        ima_verify.attest(key, message, signature, b"", b"", nonce=bytes(32), require=require)
    except ima_verify.Refused as fault:
        if fault.kind in (ima_verify.Kind.KEY, ima_verify.Kind.SIGNATURE):
            raise


def by_no_unused_nonce(message: bytes, given: Given, asked: Asked) -> Fields:
    """What comes of a quote that has none of the machine's unused nonces."""
    if any(has_nonce(message, nonce, asked.require) for nonce, is_used in given.nonces if is_used):
        return {"verdict": "unreadable", "cause": USED}
    if all(is_used for _, is_used in given.nonces):
        return {"verdict": "refused", "cause": NO_NONCE, "reason": ALL_USED}
    return {"verdict": "refused", "cause": OTHER_NONCE, "reason": NOT_ANSWERED}


def judge_attested(inputs: Inputs, checkpoint: Optional[bytes], key: bytes, nonce: str, asked: Asked, known: Optional[bytes]) -> Fields:
    """The verdict by a quote and its signature by this key, and the counts of the TPM's clock."""
    import ima_verify

    log, measurements, message, signature = inputs
    assert log is not None and message is not None and signature is not None
    quoted, require, options = (key, message, signature), asked.require, {**asked.on_boot, **known_texts(known)}
    if asked.is_poll or asked.prefix:
        session = ima_verify.Session.by_quotes(log, state=checkpoint, prefix=asked.prefix, **options)
        found = session.attest(*quoted, measurements or b"", nonce_hex=nonce, require=require)
        fields = reached(session, found) if asked.is_poll else {}
    else:
        assert measurements is not None
        found, fields = ima_verify.attest(*quoted, log, measurements, nonce_hex=nonce, require=require, **options), {}
    return {**verdict_fields(found), **fields, "resets": found.clock.resets, "restarts": found.clock.restarts}


def has_nonce(message: bytes, nonce: str, require: str) -> bool:
    """Whether this is a quote with this nonce. (The library judges the quote before the log, and takes no log that is empty.)"""
    import ima_verify

    try:
        ima_verify.attest(None, message, None, b"", b"", nonce_hex=nonce, require=require, signature_checked=False)
    except ima_verify.Refused as fault:
        return fault.kind is not ima_verify.Kind.QUOTE
    return False


def signer_of(key: bytes) -> str:
    """The SHA-256 of a key's SubjectPublicKeyInfo, which is what its PEM has between its lines."""
    import ima_verify

    pem = key.decode() if key.startswith(PEM) else ima_verify.read_key(key).pem
    return hashlib.sha256(base64.b64decode(pem.split("-----")[2])).hexdigest()


def without_quote(fields: Fields) -> Fields:
    """The row of a machine of which an input was not read: refused, if it is one of its quote, and not there."""
    absent = tuple(f"{part}: {ABSENT}" for part in ("quote", "signature"))
    if fields["cause"] not in absent:
        return fields
    return {**fields, "verdict": "refused", "cause": NO_QUOTE.format(fields["cause"])}


def verdict_on(
    paths: Sequence[str], given: Given, asked: Asked, known: Optional[bytes], limit: float, checkpoint: Optional[bytes] = None
) -> Fields:
    """The fields of the row of a machine with these paths, in a poll, if it matches, with the next checkpoint. Of the list only what follows
    the checkpoint is read, if there is one."""
    import ima_verify

    fields, inputs = read_inputs(paths, limit, list_start(checkpoint), asked.is_quoted, asked.max_age)
    fields["interface_version"] = ima_verify.version()
    if not inputs:
        return without_quote(fields)
    try:
        if asked.is_quoted:
            judged = judge_quote(inputs, checkpoint, given, asked, known)
        else:
            judged = judge_registers(inputs, checkpoint, asked, known)
    except ima_verify.Refused as fault:
        # (an empty checkpoint is a damaged one: the machine is refused until --whole)
        kept = {"checkpoint": ""} if fault.message == DAMAGED else {}
        return {**fields, "verdict": "refused", "cause": fault.message, "reason": fault.text, **kept}
    if inputs[1] is None:
        return {**fields, "verdict": "unreadable", "cause": SHORTER}
    return {**fields, **judged}


def polled_verdict(paths: Sequence[str], given: Given, asked: Asked, known: Optional[bytes], limit: float) -> Fields:
    """The fields of the row of a machine, from its checkpoint on only if that gives a match.

    Else the verdict is that on the whole list, which may be of another boot. No damaged checkpoint is passed over."""
    if given.checkpoint is not None:
        fields = verdict_on(paths, given, asked, known, limit, given.checkpoint.encode("latin-1"))
        if fields["verdict"] == "match" or fields.get("cause") == DAMAGED:
            return fields
    return verdict_on(paths, given, asked, known, limit)


def lacking(given: Given) -> Optional[str]:
    """What the verifier lacks to judge a quote of the machine, if it lacks something."""
    if given.key is None:
        return given.no_key or NO_KEY
    return None if given.nonces else NO_NONCE


def answer_on(paths: Sequence[str], given: Given, asked: Asked, known: Optional[bytes] = None) -> Fields:
    """The fields of the row of a machine; or UNFIT or TROUBLED in place of a verdict, and why."""
    limit = time.monotonic() + asked.deadline
    cause = lacking(given) if asked.is_quoted else None
    if cause is not None:
        return {"verdict": "refused", "cause": cause}
    try:
        if asked.is_poll:
            return polled_verdict(paths, given, asked, known, limit)
        return verdict_on(paths, given, asked, known, limit)
    except ImportError as fault:  # of the package, the library, or the driver of an object store: no verdict on the machine
        return {"verdict": UNFIT, "cause": cause_of(fault)}
    except Exception as fault:
        return {"verdict": TROUBLED, "cause": cause_of(fault)}
