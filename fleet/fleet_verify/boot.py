"""What a page shows of one boot: the program's replies on copies of its files."""

import hashlib
import os
from dataclasses import dataclass, field
from pathlib import Path
from typing import Dict, FrozenSet, List, NamedTuple, Optional, Sequence, Tuple

from .program import REFUSED, STOPPED, Line, Output, Reply, ask
from .reading import FILES, QUOTED_FILES, read_file
from .verdict import NOTHING_EXPECTED
from .wording import words_of

LOG, LIST, EXPECTED = FILES
QUOTE, SIGNATURE = QUOTED_FILES[2:]
KEY, BEFORE, QUOTED, SIGNED, NO_LIST = "key", "before.log", "quoted.txt", "signed.txt", "no.list"
OF_LIST = 10
# Which errors are the list's, after log, quote or expected registers were taken (docs/errors.txt).
_OF_BROKEN_LIST = ("list", "replay")
_AT_RESET = "at reset"
# How the error after a confirmed prefix is named by the report, and by commands that take no prefix.
_END_OF_PREFIX = ("unconfirmed: ", "refused: ")
EARLIER_EVENTS = f"events {BEFORE}"


@dataclass(frozen=True)
class Criteria:
    """What a boot is judged by, and how much of it is shown. With a key and a nonce that is a quote, else expected registers."""

    program: str
    require: Optional[str]
    known: Sequence[str]
    before: Optional[str]
    key: Optional[str]
    nonce: Optional[str]
    prefix: bool
    sha1: bool
    hcrtm: bool
    old_kernel: bool
    most: int
    seconds: float

    @property
    def is_quoted(self) -> bool:
        return self.key is not None

    @property
    def signed(self) -> List[str]:
        """The arguments by which a quote has to be signed, with the nonce."""
        return [f"--key={KEY}", f"--signature={SIGNATURE}", f"--nonce={self.nonce}", *(["--sha1"] if self.sha1 else [])]

    @property
    def requirement(self) -> List[str]:
        return [] if self.require is None else [f"--require={self.require}"]

    @property
    def replayed(self) -> List[str]:
        """The argument of each command that replays a log, if the event of an H-CRTM tells where PCR 0 began."""
        return ["--hcrtm"] if self.hcrtm else []

    @property
    def bound(self) -> List[str]:
        """The argument of each command that compares a boot aggregate where registers are required, if an older kernel's is taken."""
        return ["--old-kernel"] if self.old_kernel else []


class Input(NamedTuple):
    """A file as it was read: its name, size and SHA-256, or why it was not; and whether the machine that is judged sent it."""

    name: str
    size: int
    sha256: str
    fault: str
    is_sent: bool = False


class Reached(NamedTuple):
    """A register: what was expected, what came of it, and where log and list first come to that value: after how many entries, if with one."""

    bank: str
    number: int
    state: str
    expected: str
    value: str
    place: str
    entries: int = 0

    @property
    def is_match(self) -> bool:
        return self.state == "match"

    @property
    def is_at_reset(self) -> bool:
        """Whether this is a match of a register that nothing extended: it confirms nothing."""
        return self.is_match and self.place == _AT_RESET


class Judgement(NamedTuple):
    """A verdict of the program: its reply, and the report in that."""

    reply: Reply

    @property
    def report(self) -> Line:
        reply = self.reply
        return reply.lines[0] if reply.is_whole and reply.total == 1 and reply.lines else {}

    @property
    def word(self) -> str:
        """`match` or `differ`, if status and report agree on that; else `refused` or `failed`."""
        word = str(self.report.get("verdict"))
        if (self.reply.status, word) in ((0, "match"), (1, "differ")):
            return word
        return "refused" if self.reply.status in (2, 4) and not self.reply.is_whole else "failed"

    @property
    def is_on_prefix(self) -> bool:
        """Whether entries follow those that the report is on, or bytes that are not an entry."""
        report = self.report
        return "unconfirmed" in report or report.get("confirmed", report.get("entries")) != report.get("entries")

    @property
    def is_list_broken(self) -> bool:
        """Whether log and quote or expected registers were read, and only the list is refused."""
        return self.word == "refused" and self.reply.kind in _OF_BROKEN_LIST


@dataclass
class Boot:
    """All that a page shows of one boot.

    Attributes:
        inputs: The files, as they were read.
        judgement: The verdict.
        proof: The verdict without known files, by which log and list are confirmed: what is unknown was measured all the same.
        is_required: Whether registers were required, so that log and list are apart.
        has_other_quote: Whether there is a quote by which the boot was not judged.
        replies: What else the program says, by the command's name.
        is_confirming: Whether `events` and `boot` were asked for what is confirmed.
        alone: A report on the log and no entry, where the list is broken; or the registers that the log makes, where nothing is compared.
    """

    inputs: List[Input]
    judgement: Judgement
    proof: Judgement
    is_required: bool
    has_other_quote: bool
    replies: Dict[str, Reply] = field(default_factory=dict)
    is_confirming: bool = False
    alone: Line = field(default_factory=dict)

    @property
    def verdict(self) -> Reply:
        return self.judgement.reply

    @property
    def report(self) -> Line:
        """The report, if there is a verdict."""
        return self.judgement.report if self.word in ("match", "differ") else {}

    @property
    def word(self) -> str:
        return self.judgement.word

    @property
    def look(self) -> str:
        """As what the verdict is shown: a match of all by a quote, one that nobody signed or that is not of the whole list, or no match."""
        if self.word != "match" or self.faults:
            return ""
        return "match" if self.report.get("signature") == "valid" and not self.judgement.is_on_prefix else "unquoted"

    @property
    def unread(self) -> List[Input]:
        """The files that were not read."""
        return [each for each in self.inputs if each.fault]

    @property
    def faults(self) -> Dict[str, str]:
        """Why a reply is not whole, by the command's name. That a list ends where the report says so is no error of a reply."""
        end = str(self.report.get("unconfirmed", {}).get("message", "")).replace(*_END_OF_PREFIX, 1)
        return {name: reply.fault for name, reply in self.replies.items() if not reply.is_whole and reply.fault != end}

    @property
    def failures(self) -> Dict[str, List[str]]:
        """Besides the error for which there is no verdict, why replies are not whole, each with the names of their commands."""
        found: Dict[str, List[str]] = {}
        for name, fault in self.faults.items():
            if fault != self.verdict.fault:
                found.setdefault(fault, []).append(name)
        return found

    @property
    def status(self) -> int:
        """The program's: of its verdict, or if all is well there, of the first reply that is not whole."""
        if self.word not in ("match", "differ"):
            return self.verdict.status if self.verdict.status > 1 else STOPPED
        failed = [self.replies[name].status for name in self.faults]
        return failed[0] if failed and self.word == "match" else self.verdict.status

    @property
    def unknown(self) -> Sequence[int]:
        return [int(number) for number in self.report.get("unknown", [])]

    @property
    def confirmed(self) -> int:
        """How many entries are confirmed: those of a match by a value of register 10, which is the list's alone, in a bank other than SHA-1."""
        report = self.proof.report
        rows = [(row["bank"], row["register"]) for row in report.get("registers", [])]
        rows += [(row["bank"], number) for row in report.get("quoted", []) for number in row["registers"]]
        if self.proof.word != "match" or not self.is_required or all(bank == "sha1" for bank, number in rows if number == OF_LIST):
            return 0
        return int(report.get("confirmed", report["entries"]))

    @property
    def registers(self) -> List[Reached]:
        """The registers of the report, or those that the log makes alone: register 10, which is the list's, is none of these."""
        report = self.report or self.alone
        lines = self.replies["locate"].lines if "locate" in self.replies else []
        places = {(row["bank"], row["register"]): row for line in lines for row in line["registers"]}
        rows = {(row["bank"], row["register"]): row for row in report.get("registers", []) if self.report or row["register"] != OF_LIST}
        count = report.get("entries", 0)
        if "unconfirmed" in report:  # (`locate` takes no such list, and had an empty one)
            end: Line = {"place": "entry", "number": report["confirmed"] - 1} if report["confirmed"] else {}
            places.update({name: end if row["state"] == "match" else {} for name, row in rows.items() if name[1] == OF_LIST})
        return [
            Reached(*name, row.get("state", ""), row.get("expected", ""), row.get("value", ""), *_place(places.get(name, {}), count))
            for name, row in rows.items()
        ]


def known_name(number: int) -> str:
    """The name of the copy of a file of known digests."""
    return f"known{number}"


def covered(count: int, total: int) -> str:
    """How many entries of a list, from the first one on, something is said of."""
    if count == total:
        return "the only entry" if total == 1 else f"all {total} entries"
    return {0: f"none of {total} entries", 1: f"the first of {total} entries"}.get(count, f"the first {count} of {total} entries")


def _place(row: Line, entries: int) -> Tuple[str, int]:
    """Where a register has its value first, and after how many entries, if with one."""
    place, number = str(row.get("place", "")), row.get("number", 0)
    if place == "entry":
        return f"after {covered(number + 1, entries)}", number + 1
    return {"reset": _AT_RESET, "event": f"after event {number}"}.get(place, place), 0


def copy(path: Path, place: Path, is_sent: bool, name: str = "") -> Input:
    """Copies a regular file, of which no more is read than the program takes: all replies then are on the same bytes. One that a machine sent
    is no link, as that could be to any file of this computer."""
    try:
        data = read_file(str(path), follow_symlinks=not is_sent)
    except OSError as fault:
        return Input(name or path.name, 0, "", words_of(fault))
    assert data is not None
    place.write_bytes(data)
    return Input(name or path.name, len(data), hashlib.sha256(data).hexdigest(), "")


def _copied(folder: Path, criteria: Criteria, work: Path) -> Tuple[List[Input], List[Input]]:
    """Copies the machine's files and the operator's into the folder `work`."""
    sent = list(QUOTED_FILES if criteria.is_quoted else FILES)
    if criteria.is_quoted and os.path.lexists(folder / EXPECTED):
        sent.append(EXPECTED)
    own = [] if criteria.key is None else [copy(Path(criteria.key), work / KEY, False)]
    own += [] if criteria.before is None else [_copied_earlier(Path(criteria.before), work / BEFORE)]
    own += [copy(Path(path), work / known_name(number), False) for number, path in enumerate(criteria.known)]
    return [copy(folder / name, work / name, True)._replace(is_sent=True) for name in sent], own


def _copied_earlier(path: Path, place: Path) -> Input:
    """Copies the log of an earlier boot: a file that the operator names, or that of a folder, which a machine sent."""
    if not path.is_dir():
        return copy(path, place, False)
    return copy(path / LOG, place, True, f"{Path(os.path.abspath(path)).name}/{LOG}")


def boot_of(folder: Path, criteria: Criteria, work: Path) -> Boot:
    """The boot whose files this folder has; all is done in the folder `work`, where only this user writes."""
    sent, own = _copied(folder, criteria, work)
    unread = [f"{each.name} is not read: {each.fault}" for each in sent if each.fault]
    judgement = proof = _judged(criteria, work, len(criteria.known), unread)
    if judgement.word == "differ" and criteria.known:
        proof = _judged(criteria, work, 0, unread)
    has_other_quote = not criteria.is_quoted and os.path.lexists(folder / QUOTE)
    boot = Boot([*sent, *own], judgement, proof, criteria.require is not None, has_other_quote)
    _confirm(boot, criteria, work)
    return boot


def _judged(criteria: Criteria, work: Path, known: int, unread: Sequence[str]) -> Judgement:
    """What the program judges, by so many known files. As in a run, nothing is no match; and neither is a boot of which a file is not read."""
    words = [*criteria.requirement, *criteria.replayed, *criteria.bound, *(f"--known={known_name(number)}" for number in range(known))]
    words += ["--prefix"] if criteria.prefix else []
    command, names = ["verify"], [LOG, LIST, EXPECTED]
    if criteria.is_quoted:
        command, names = ["attest", *criteria.signed], [LOG, LIST, QUOTE, *([EXPECTED] if (work / EXPECTED).exists() else [])]
    reply = ask([criteria.program, *command, *words, "--json", "--explain", "--", *names], work, criteria.seconds, Output(), (0, 1))
    if reply.is_whole and unread:
        reply = Reply(STOPPED, [], 0, unread[0])
    elif reply.is_whole and not criteria.is_quoted and not all(line.get("registers") for line in reply.lines):
        reply = Reply(REFUSED, [], 0, NOTHING_EXPECTED)
    return Judgement(reply)


def _confirming(boot: Boot, criteria: Criteria, work: Path) -> List[str]:
    """The arguments by which `events` and `boot` say what is confirmed: of expected registers that the program took, or of a quote that holds.
    A quote that holds for a prefix of the list signs the values in the report's rows, if there are some: of these the required ones confirm."""
    if not criteria.is_quoted:
        return [f"--expected={EXPECTED}"] if boot.word in ("match", "differ") or boot.judgement.is_list_broken else []
    report = boot.proof.report
    if boot.proof.word != "match":
        return []
    if not boot.proof.is_on_prefix:
        return [f"--quote={QUOTE}", f"--list={LIST}", *criteria.signed, *criteria.bound, *criteria.requirement]
    if report.get("expected") != "confirmed":
        return []
    required = _required(report["registers"], criteria, work)
    if not required.is_whole:
        boot.replies["expected"] = required
        return []
    (work / SIGNED).write_text("".join(f"{row['bank']} {row['register']} {row['value']}\n" for row in required.lines[0]["registers"]))
    return [f"--expected={SIGNED}"]


def _required(rows: Sequence[Line], criteria: Criteria, work: Path) -> Reply:
    """The registers of these rows that are required, by the program. The machine chose what else is quoted: it may be a bank that its firmware
    does not extend."""
    (work / QUOTED).write_text("".join(f"  {row['bank']}:\n    {row['register']:<2}: 0x{row['expected']}\n" for row in rows))
    return ask([criteria.program, "expected", "--json", f"--registers={criteria.require}", "--", QUOTED], work, criteria.seconds, Output())


def _confirm(boot: Boot, criteria: Criteria, work: Path) -> None:
    """Asks the program for all that the page shows besides the verdict."""

    def asking(command: str, *words: str, output: Optional[Output] = None, statuses: Sequence[int] = (0,)) -> Reply:
        reply = ask([criteria.program, command, "--json", *words], work, criteria.seconds, output or Output(), statuses)
        boot.replies[command] = reply
        return reply

    confirming, listed = _confirming(boot, criteria, work), LIST
    boot.is_confirming = bool(confirming)
    if boot.proof is not boot.judgement and not boot.proof.reply.is_whole:
        boot.replies["verify"] = boot.proof.reply
    if boot.judgement.is_list_broken or "unconfirmed" in boot.report:
        listed = NO_LIST
        (work / NO_LIST).touch()
    if not boot.report:
        command, *names = "registers", LOG
        if boot.judgement.is_list_broken:
            command, *names = (command, *names) if criteria.is_quoted else ("verify", LOG, NO_LIST, EXPECTED)
        boot.alone = Judgement(asking(command, *criteria.replayed, "--", *names, statuses=(0, 1))).report
    if not criteria.is_quoted or boot.report.get("expected") == "confirmed":
        asking("locate", *criteria.requirement, *criteria.replayed, "--", LOG, listed, EXPECTED, statuses=(0, 1))
    before = [] if criteria.before is None else [f"--before={BEFORE}"]
    confirming += criteria.replayed
    asking("boot", *confirming, *before, "--", LOG, output=Output(criteria.most, lambda line: "register" in line and "command" not in line))
    asking("events", *confirming, "--", LOG, output=Output(criteria.most + 1))
    if (work / BEFORE).exists():
        words = [criteria.program, "events", "--json", "--", BEFORE]
        boot.replies[EARLIER_EVENTS] = ask(words, work, criteria.seconds, Output(criteria.most + 1))
    unknown = frozenset(boot.unknown)
    asking("show", "--", LIST, output=Output(criteria.most, lambda line: _is_notable(line, unknown), is_counted=True))


def _is_notable(entry: Line, unknown: FrozenSet[int]) -> bool:
    """Whether an entry is shown although many came before it."""
    return entry.get("entry") in unknown or bool(entry.get("violation")) or not entry.get("genuine")
