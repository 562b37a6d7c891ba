"""What is wrong, in words: with a file or a call of the system, and why a machine does not match. A cause is what scripts match; a reason is
what people read, and says what to do."""

import errno
import json
import re
from typing import Any, Callable, Dict, Iterable, List, Mapping, Optional, Sequence, Tuple

from .schema import GOOD_AGGREGATES

MOST_CHARACTERS = 1000

# Why a file is not read, or not to its end.
ABSENT, DENIED, LATE = "it is not there", "permission denied", "no answer in time"
NOT_REGULAR, LINK, MEMORY = "it is no regular file", "it is a symbolic link", "memory ran out"

# What an error of the system says, by its number. Of any other it is the system's own text.
_OF_SYSTEM = {
    errno.ENOENT: ABSENT, errno.ENOTDIR: ABSENT, errno.EACCES: DENIED, errno.EPERM: DENIED, errno.ELOOP: "too many symbolic links lead to it",
    errno.EISDIR: "it is a folder", errno.ENAMETOOLONG: "its name is too long", errno.EFBIG: "the file is too large", errno.ETIMEDOUT: LATE,
    errno.EIO: "the device or its connection failed", errno.ENOSPC: "the disk is full", errno.EROFS: "its file system is read only",
    errno.EPIPE: "nobody reads the output", errno.EBADF: "the output is closed", errno.ENOMEM: MEMORY, errno.EMFILE: "too many files are open",
    errno.ECONNREFUSED: "nothing listens there", errno.EEXIST: "it exists already",
}
# What an exception without such a number says, by its class; of these one with a text of its own says that.
_OF_CLASS: Sequence[Tuple[type, str]] = (
    (FileNotFoundError, ABSENT), (NotADirectoryError, ABSENT), (PermissionError, DENIED), (TimeoutError, LATE), (MemoryError, MEMORY),
)
_SPEAKING = (OSError, ImportError)

# What to do, by how a cause begins. These causes are words, and so are part of the reason.
_ADVICE = (
    ("nothing to compare", "Collect expected.txt again, or judge the machine by a quote."),
    ("no key", "Enroll the machine with ima-enroll, and name its folder of keys with --keys."),
    ("no nonce", "Give out a nonce with `fleet-verify nonces`, and collect a quote for it with `ima-collect --nonce`."),
    ("no quote", "Run `ima-collect --nonce` on the machine, and copy what it collected."),
    ("stale: the nonce", "Give out a new nonce, and collect a quote for it in time."),
    ("stale: an", "Give out a new nonce, and collect a quote for it."),
    ("stale: list", "Copy the machine's files again."),
    ("refused: too long", "Copy it again. If it is still that long, reboot the machine: its list begins again."),
    ("list: it is shorter", "Copy the list again. If the machine did not reboot, do not trust it."),
    ("log: ", "Copy the machine's files again."), ("list: ", "Copy the machine's files again."),
    ("expected: ", "Copy the machine's files again."), ("quote: ", "Copy the machine's files again."),
    ("signature: ", "Copy the machine's files again."),
    (LATE, "See whether its files can be reached, or give it more time with --deadline."),
    ("each worker that verified it died", "Look at the machine's files: they may be hostile. Judge them separately, with ima-agent."),
    (MEMORY, "Start fewer workers, or give them more memory."),
)
# What a cause is in a reason, where the cause itself is for scripts.
_WORDS = (
    ("stale: list", "the list was last changed longer ago than --max-age, or at a time in the future"),
    ("refused: too long ", "more than 64 MiB: the "), ("log: ", "the firmware log cannot be read: "),
    ("list: it is shorter", "the measurement list is shorter"),
    ("list: ", "the measurement list cannot be read: "), ("expected: ", "the expected PCRs cannot be read: "),
    ("quote: ", "the quote cannot be read: "), ("signature: ", "the signature cannot be read: "),
    ("no quote: quote: ", "there is no quote: quote.msg: "), ("no quote: signature: ", "there is no quote: quote.sig: "),
    ("no key: the verifier has none of this machine", "the folder of keys has no key for this machine"),
    ("no nonce: none was given out for this machine, or each is used or too old", "no nonce was given out for this machine, or it is too old"),
    ("stale: the nonce", "the nonce"), ("stale: an", "an"),
    ("nothing to compare: no register is expected", "nothing to compare: expected.txt states no PCR"),
)
_AGGREGATES = {
    "wrong": "the boot aggregate is not the log's", "nobank": "the boot aggregate uses a bank that the log lacks",
    "missing": "there is no boot aggregate",
}
_PLACE = re.compile(r" at (event|entry|line) \d+(?=:)")
_STATES = {"absent": "the log does not have", "missing": "no value is expected for", "differ": ""}


def words_of(fault: BaseException, clean: Callable[[str], str] = str) -> str:
    """An exception in words, of which those that are not of these tables are cleaned. One that is not foreseen has its class, by which its cause
    can be found."""
    if isinstance(fault, OSError) and fault.errno is not None:
        return _OF_SYSTEM.get(fault.errno) or clean(str(fault.strerror or fault))
    text = clean(str(fault))
    for kind, told in _OF_CLASS:
        if isinstance(fault, kind):
            return told
    if text and isinstance(fault, _SPEAKING):
        return text
    return f"unexpected error, {type(fault).__name__}{f': {text}' if text else ''}"


def printable(text: str) -> str:
    """A text of which each character can be shown on a terminal, and that is not too long."""
    return "".join(letter if letter.isprintable() else "?" for letter in text[:MOST_CHARACTERS])


def reason_of(cause: str) -> str:
    """A cause as a sentence, and what to do."""
    words = next((told + cause.removeprefix(begin) for begin, told in _WORDS if cause.startswith(begin)), cause)
    advice = next((told for begin, told in _ADVICE if cause.startswith(begin)), "")
    return f"{words[:1].upper()}{words[1:]}.{f' {advice}' if advice else ''}"


def without_place(reason: str) -> str:
    """A reason without the number of an event, an entry or a line: what machines have in common."""
    return _PLACE.sub("", reason, 1)


def bank_name(bank: str) -> str:
    """A bank's name in prose."""
    return re.sub(r"^sha(?=\d)", "SHA-", bank)


def ranges(numbers: Iterable[int]) -> str:
    """Numbers as a person lists them: 0-7, 10."""
    runs: List[List[int]] = []
    for number in sorted(set(numbers)):
        if runs and number == runs[-1][-1] + 1:
            runs[-1].append(number)
        else:
            runs.append([number])
    return ", ".join(str(run[0]) if len(run) == 1 else f"{run[0]}-{run[-1]}" for run in runs)


def reason_of_report(report: str, boot_aggregate: Optional[str] = None, unknown: Optional[int] = None) -> str:
    """Why the verdict of a report is `differ`, as far as machines have that in common: the places are in the report. What that has of the boot
    aggregate, and how many entries are for unknown files, comes beside it."""
    told: Mapping[str, Any] = json.loads(report)
    parts = _register_words(told.get("registers", []))
    if boot_aggregate is not None and boot_aggregate not in GOOD_AGGREGATES:
        parts.append(_AGGREGATES.get(boot_aggregate, f"the boot aggregate is {boot_aggregate}"))
    if told.get("quote") == "differ":
        parts.append("log and list do not make the quoted PCRs")
    if unknown:
        parts.append("entries are for unknown files")
    for row in told.get("extends", []):
        parts.append(f"{'an event of the log' if 'event' in row else 'an entry of the list'} extends PCR {row['register']}")
    text = "; ".join(dict.fromkeys(parts)) or "the report does not say why"
    return printable(f"{text[:1].upper()}{text[1:]}.")


def _register_words(rows: Sequence[Mapping[str, Any]]) -> List[str]:
    """What is to be said of the PCRs that do not match, by bank and state."""
    found: Dict[Tuple[str, str], List[int]] = {}
    for row in rows:
        if row["state"] != "match":
            found.setdefault((row["bank"], row["state"]), []).append(row["register"])
    parts = []
    for (bank, state), numbers in found.items():
        pcrs = f"{bank_name(bank)} {'PCR' if len(numbers) == 1 else 'PCRs'} {ranges(numbers)}"
        if state == "absent" and len(numbers) == sum(row["bank"] == bank for row in rows):
            parts.append(f"the log has no {bank_name(bank)} bank")
        elif state == "differ":
            parts.append(f"{pcrs} {'differs' if len(numbers) == 1 else 'differ'}")
        else:
            parts.append(f"{_STATES.get(state, state)} {pcrs}")
    return parts


def row_reason(answer: Mapping[str, Any]) -> Optional[str]:
    """What the row of an answer says in words: nothing of a match, what the library told of a refusal, or what is known here of its cause."""
    told, cause, report = (answer.get(name) for name in ("reason", "cause", "report"))
    if answer["verdict"] == "match":
        return None
    if told:
        return printable(told)
    if cause is not None:
        return printable(reason_of(cause))
    return None if report is None else reason_of_report(report, answer.get("boot_aggregate"), answer.get("unknown"))
