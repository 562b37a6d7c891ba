"""What a page says first: why the verdict is what it is, and what a person does next, with the command to type."""

import shlex
from typing import Dict, Iterator, List, NamedTuple, Sequence, Set, Tuple

from .boot import KEY, OF_LIST, Boot, Criteria, Reached, covered, known_name
from .field_names import pcrs
from .schema import GOOD_AGGREGATES
from .wording import ABSENT

# What is wrong, by the kind of an error (docs/errors.txt), where the program says no more.
ERRORS = {
    "command_line": "the arguments are wrong, or there are 2^32 FILEs or more", "log": "a log is not valid", "list": "a list is not valid",
    "replay": "an entry's template digest does not match", "expected": "EXPECTED or PCRREAD is not valid", "known": "a FILE of --known is not valid",
    "quote": "QUOTE is not a quote, or not the requested one", "signature": "QUOTE is not signed by the key in KEY, or not as SIG states",
    "key": "FILE or KEY is not a public area, or its key lacks something", "too_long": "the input has more than 64 MiB",
    "read": "the input cannot be read", "gather": "an error of the program itself", "memory": "memory ran out, or an argument is not UTF-8",
}
_CODES = ("refused: ", "failed: ")
_ARGUMENTS = "refused: command line"
_NOT_STARTED = "cannot be started"

_AGGREGATES = {
    "wrong": "The boot aggregate is wrong: log and list are from different boots, or one of them was changed.",
    "nobank": "The boot aggregate is not checked: the log has no bank for it, so nothing says that log and list are from one boot.",
    "missing": "The boot aggregate is missing: the list does not begin with one.",
}
_STATES = {
    "differ": ("differs", "differ", "log and list make a value other than the expected one"),
    "missing": ("is missing", "are missing", "required, but expected.txt has no value"),
    "absent": ("is absent", "are absent", "the log has no such bank or PCR"),
}
# Of which errors the input comes from the machine's kernel and firmware, and not from who collects.
_MACHINE_S = ("log", "list", "replay")
_ON_THE_MACHINE = "FOLDER  # on the machine, as root"
_COLLECT = (f"ima-collect {_ON_THE_MACHINE}",)
_SIGN = ("openssl rand -hex 20  # the nonce, in HEX", f"ima-collect --nonce HEX {_ON_THE_MACHINE}")


class Step(NamedTuple):
    """What to do next: a sentence, commands to type, and the part of the page to look at, if there are some."""

    text: str
    commands: Sequence[str] = ()
    part: str = ""


class Call(NamedTuple):
    """A call of `ima-report`, by its arguments."""

    words: Sequence[str]

    def again(self, *more: str) -> str:
        """The same call with more options, as a shell takes it. The page goes to no name in the folder, where the machine may have sent a link."""
        return f"{shlex.join(['ima-report', *more, *self.words])} > ~/report.html"


def is_coded(fault: str) -> bool:
    """Whether an error of the program is a line for programs, and no sentence."""
    return fault.startswith(_CODES)


def reasons(boot: Boot, criteria: Criteria) -> List[str]:
    """Why the verdict is what it is, in sentences."""
    if boot.word == "match":
        by = "The given key signed the quoted PCRs. Log and list make them." if criteria.is_quoted else "Log and list make the expected PCRs."
        return [by.replace("list", "the list's first part") if boot.judgement.is_on_prefix else by]
    return [*_differences(boot)] if boot.word == "differ" else [*_errors(boot, criteria)]


def _differences(boot: Boot) -> Iterator[str]:
    """Why a verdict is `differ`, by its report."""
    groups: Dict[Tuple[str, str], List[int]] = {}
    for row in boot.registers:
        if row.state != "match":
            groups.setdefault((row.bank, row.state), []).append(row.number)
    for (bank, state), numbers in groups.items():
        one, many, why = _STATES.get(state, (state, state, "ima-agent says so"))
        yield f"{bank} {pcrs(numbers)} {one if len(numbers) == 1 else many}: {why}."
    aggregate = str(boot.report.get("boot_aggregate", "good"))
    if aggregate not in GOOD_AGGREGATES:
        yield _AGGREGATES.get(aggregate, f"The boot aggregate is {aggregate}.")
    if boot.report.get("quote") == "differ":
        yield "Log and list do not make the quoted PCRs."
    if boot.unknown:
        count, first = len(boot.unknown), boot.unknown[0]
        yield f"Entry {first} is unknown." if count == 1 else f"Unknown entries: {count}, the first is entry {first}."
    for each in boot.report.get("extends", []):
        kind, own, other = ("event", "log", "list") if "event" in each else ("entry", "list", "log")
        yield f"{kind.capitalize()} {each[kind]} of the {own} extends PCR {each['register']}, which only the {other} may extend."


def _errors(boot: Boot, criteria: Criteria) -> Iterator[str]:
    """Why there is no verdict: which files were not read, and what the program says in words."""
    fault = boot.verdict.fault
    yield from (f"{each.name} is not read: {each.fault}." for each in boot.inputs if each.fault)
    said = [_named(line, criteria) for line in boot.verdict.said.splitlines() if line and line not in fault and not boot.unread]
    if not fault:
        yield f"The program's status {boot.verdict.status} is not that of its report."
    elif fault in [f"{each.name} is not read: {each.fault}" for each in boot.unread]:
        return  # (that is said)
    elif not is_coded(fault):
        begin = fault[:1] if _NOT_STARTED in fault else fault[:1].upper()  # (a program's name stays as it is)
        yield from (line for line in f"{begin}{fault[1:]}.".splitlines() if line)
    elif not said and not boot.unread:
        kind = "command_line" if fault == _ARGUMENTS else boot.verdict.kind
        yield f"ima-agent gives no verdict: {ERRORS.get(kind, 'it says no more')}."
    yield from said


def _named(line: str, criteria: Criteria) -> str:
    """What the program says of a copy of the operator's file, with the file's own name."""
    copies = {KEY: criteria.key, **{known_name(number): path for number, path in enumerate(criteria.known)}}
    copy, colon, rest = line.partition(": ")
    return f"{copies[copy]}: {rest}" if colon and copies.get(copy) else line


def next_steps(boot: Boot, criteria: Criteria, call: Call) -> List[Step]:
    """What a person does next. No command is there twice."""
    after = {"match": _after_match, "differ": _after_difference}.get(boot.word, _after_error)
    steps: List[Step] = []
    seen: Set[str] = set()
    for step in after(boot, criteria, call):
        steps.append(step._replace(commands=[each for each in step.commands if each not in seen]))
        seen.update(step.commands)
    return steps


def _collecting(criteria: Criteria) -> Sequence[str]:
    """How a machine's files are collected again: a nonce is for one quote."""
    return _SIGN if criteria.is_quoted else _COLLECT


def _after_match(boot: Boot, criteria: Criteria, call: Call) -> Iterator[Step]:
    if not criteria.is_quoted and boot.has_other_quote:
        yield Step("The folder has a quote. Judge by it, with the key of the machine's TPM and the nonce that you gave out:", (_quoting(call),))
    elif not criteria.is_quoted:
        yield Step("Have the machine's TPM sign its PCRs with a nonce from you, and judge by that quote:", (*_SIGN, _quoting(call)))
    if boot.judgement.is_on_prefix:
        yield Step("Nothing confirms the later entries. Collect again:", _collecting(criteria))
    if not criteria.known:
        yield Step("Which files are unknown? Compare with digests that you know:", (call.again("--known", "/PATH/OF/SHA256SUMS"),))
    if criteria.before is None:
        yield Step("What changed since an earlier boot? Compare with its folder:", (call.again("--before", "EARLIER_FOLDER"),))
    else:
        yield Step("Look at what differs from the earlier boot", part="before")


def _quoting(call: Call) -> str:
    return call.again("--key", "KEY", "--nonce", "HEX")


def _after_difference(boot: Boot, criteria: Criteria, call: Call) -> Iterator[Step]:
    differing = [row for row in boot.registers if row.state == "differ"]
    yield from _about_list([row for row in differing if row.number == OF_LIST], boot, criteria, call)
    others = sorted({row.number for row in differing if row.number != OF_LIST})
    if others:
        yield _about_log(others, criteria, call)
    if boot.report.get("boot_aggregate", "good") not in GOOD_AGGREGATES:
        yield Step("Log and list must be from one boot. Collect both again:", _collecting(criteria))
    missing = [row for row in boot.registers if row.state == "missing"]
    if missing and all(row.bank == "sha256" and row.number <= OF_LIST for row in missing):
        yield Step("Collect the required PCRs, or require others with --require:", _collecting(criteria))
    elif missing:  # (`ima-collect` takes no others)
        yield Step("Collect the required PCRs, or require others with --require.")
    if any(row.state == "absent" for row in boot.registers):
        yield Step("Require a bank that the log has, with --require.")
    if boot.unknown:
        yield Step("Look at the unknown files", part="unknown")
        yield Step("Add the digests of those that you know:", (call.again("--known", "/PATH/OF/MORE_SHA256SUMS"),))
    if boot.report.get("extends"):
        part = "events" if any("event" in each for each in boot.report["extends"]) else "entries"
        yield Step("Log and list may hide what ran there. Look at this event or entry", part=part)


def _about_list(rows: Sequence[Reached], boot: Boot, criteria: Criteria, call: Call) -> Iterator[Step]:
    """What is to be done if PCR 10 differs, or a quote, which does not say which PCR does."""
    prefix = () if criteria.prefix else (call.again("--prefix"),)
    grown = rows if rows and rows[0].entries and all(row.entries == rows[0].entries for row in rows) else []
    if grown:
        part = covered(grown[0].entries, boot.report["entries"])
        yield Step(
            f"PCR 10 has its expected value after {part}: the list grew after the PCR was read, or the value is old. Judge that part, "
            "or collect again:", (*prefix, *_collecting(criteria)),
        )
    elif rows and all(row.place == "nowhere" for row in rows):
        yield Step(
            "No part of the list makes the expected value of PCR 10: entries are missing, or were added or changed. Collect again:",
            _collecting(criteria),
        )
    elif rows:
        yield Step("PCR 10 differs. Collect again:", _collecting(criteria))
    elif boot.report.get("quote") == "differ" and not boot.registers:
        yield Step(
            "A quote does not say which PCR differs: expected.txt beside it does. If the list grew, judge the part that the quote covers. "
            "Otherwise ask for a new quote:", (*prefix, *_collecting(criteria)),
        )


def _about_log(numbers: Sequence[int], criteria: Criteria, call: Call) -> Step:
    text = f"{pcrs(numbers)}: the log is from another boot, incomplete or changed."
    if criteria.before is None:
        return Step(f"{text} Compare with an earlier boot:", (call.again("--before", "EARLIER_FOLDER"),))
    return Step(f"{text} Look at what differs from the earlier boot", part="before")


def _after_error(boot: Boot, criteria: Criteria, call: Call) -> Iterator[Step]:
    fault, kind, again = boot.verdict.fault, boot.verdict.kind, _collecting(criteria)
    sent = [each for each in boot.inputs if each.is_sent]
    if sent and all(each.fault == ABSENT for each in sent):
        yield Step("Is this the right folder? It has no file of a boot. If it is, collect them:", again)
    elif any(each.fault for each in sent):
        yield Step("Collect the files again:", again)
    elif boot.unread:
        yield Step("Check the file names in the command.")
    elif _NOT_STARTED in fault:
        yield Step("Install ima-agent, or name its file with --program.")
    elif "did not end within" in fault:
        yield Step("Give the program more time, with --seconds.")
    elif kind == "quote":
        yield Step("Ask for a new quote with a new nonce, and judge by that nonce:", again)
    elif kind in ("key", "signature"):
        yield Step("Give the key that you enrolled for this machine, with --key.")
    elif kind == "known":
        yield Step("Give --known the unchanged output of sha256sum.")
    elif fault == _ARGUMENTS or kind == "command_line":
        yield Step("See the usage:", ("ima-report --help",))
    elif boot.word == "refused":
        yield Step("If the files were not copied whole, or at different times, collect again:", again)
        if kind in _MACHINE_S:
            yield Step("If the error persists, the machine sends a changed or damaged file: do not trust the machine.")
    else:
        yield Step("Run the same command again. If the error persists, keep the folder, and report a bug in ima-agent.")
