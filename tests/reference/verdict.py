"""The verdict on a log, a list and expected registers (docs/verdict.md), or on a list alone, and where each has its value ('Where a value is made')."""

from __future__ import annotations

from typing import NamedTuple

from .checkpoint import before_a_list
from .faults import Fault
from .known_files import Unknown
from .measurement_list import IMA_REGISTER, require_genuine
from .registers import ALGORITHMS, REGISTERS, Registers


OLD_KERNEL = "old_kernel"
# The states of a boot aggregate with which a list may match.
GOOD = ("good", OLD_KERNEL)
MATCH = ("match",)
# The PCRs whose reset value has all bits set; that of others is zero.
ONES_AT_RESET = range(17, 23)


class Report(NamedTuple):
    """What stands before the rows, by its names; the rows, each an expected register and its state; where registers are required those that
    are missing, else None, and what extends a register that is not its own; whether the verdict is `match`; and with known files the entries
    that are not known."""

    counts: dict
    rows: list
    missing: list | None
    strays: list
    matches: bool
    unknown: Unknown | None = None

    def looked_at(self, unknown):
        """The report where these entries are not known, or None without known files."""
        return self._replace(unknown=unknown, matches=self.matches and not (unknown and unknown.numbers))

    @property
    def word(self):
        return "match" if self.matches else "differ"

    def text(self, for_terminal=False):
        """The report's lines; for a terminal those of PCRs at reset come after the others, and say so."""
        counts = dict(self.counts)
        resting = [each for each in self.rows if for_terminal and is_at_reset(*each)]
        lines = [f"events {counts.pop('events')} locality {counts.pop('locality')}"] if "events" in counts else []
        entries, confirmed, unconfirmed = (counts.pop(name, None) for name in ("entries", "confirmed", "unconfirmed"))
        lines.append(f"entries {entries}")
        lines += [] if confirmed is None else [f"confirmed {confirmed} of {entries} entries"]
        lines += [] if unconfirmed is None else [unconfirmed["message"]]
        lines += [] if self.missing is None else [f"compared {len(self.rows)}"]
        lines += [f"{name} {value}" for name, value in counts.items()]
        lines += [f"{row.algorithm.name} {row.register} {' '.join(state)}" for row, state in self.rows if (row, state) not in resting]
        lines += [f"{algorithm.name} {register} missing" for algorithm, register in self.missing or []]
        lines += [f"{row.algorithm.name} {row.register} match at reset" for row, _ in resting]
        lines += [f"{word} {number} extends {register}" for word, number, register in self.strays]
        lines += self.unknown.lines() if self.unknown else []
        return "".join(f"{line}\n" for line in [*lines, f"verdict {self.word}"])

    def reason(self):
        """The first reason why the verdict is no match, in words; none if there is none."""
        entries, aggregate = self.counts["entries"], self.counts.get("boot_aggregate")
        differing = [(row.algorithm, row.register) for row, state in self.rows if state != MATCH]
        is_unbound = entries == 0 if aggregate is None else aggregate not in GOOD
        reasons = [
            (differing, lambda: f"{in_words(*differing[0])} is not as expected"),
            (self.missing, lambda: f"{in_words(*self.missing[0])} is required, but not in EXPECTED"),
            (is_unbound, lambda: UNBOUND if entries else NO_ENTRIES),
            (self.strays, lambda: STRAYS),
            (self.unknown and self.unknown.numbers, lambda: UNKNOWN),
            (not self.rows, lambda: "no PCR was compared"),
        ]
        return [] if self.matches else [words() for holds, words in reasons if holds][:1]

    def summary(self):
        """The report in one line."""
        matching = sum(state == MATCH for _, state in self.rows)
        return summary_line(self.word, self.reason(), matching, len(self.rows), self)

    def as_json(self):
        """The report as JSON."""
        rows = [named_row(row, ("state", "value"), state) for row, state in self.rows]
        missing = [named(*register, state="missing") for register in self.missing or []]
        strays = [{word: number, "register": register} for word, number, register in self.strays]
        told = ({"extends": strays} if strays else {}) | (self.unknown.members() if self.unknown else {})
        before = {name: count for name, count in self.counts.items() if name != "boot_aggregate"}
        return {**before, "compared": len(self.rows), **self.counts, "registers": [*rows, *missing], **told, "verdict": self.word}


# Reasons in words.
UNBOUND = "the list does not record the boot aggregate of the log"
NO_ENTRIES = "the list is empty"
STRAYS = "an event extends PCR 10, or an entry another PCR"
UNKNOWN = "an entry is of no known file"


def in_words(algorithm, register):
    return f"PCR {register} in the {algorithm.name} bank"


def summary_line(word, reasons, matching, compared, report):
    """A verdict in one line: reasons are none or one."""
    entries = report.counts["entries"]
    judged = report.counts.get("confirmed", entries)
    unknown = len(report.unknown.numbers) if report.unknown else 0
    said = f"{entries} {'entry' if entries == 1 else 'entries'}" if judged == entries else f"{judged} of {entries} entries judged"
    counts = [f"{matching} of {compared} PCRs agree", said, *([f"{unknown} unknown"] if unknown else [])]
    return f"{word}: {''.join(f'{reason}; ' for reason in reasons)}{', '.join(counts)}\n"


def is_at_reset(row, state):
    """Whether a PCR matches at its reset value."""
    byte = b"\xff" if row.register in ONES_AT_RESET else b"\0"
    return state == MATCH and row.value == byte * len(row.value)


def named(algorithm, register, **told):
    """A register as JSON, with what is told of it."""
    return {"bank": algorithm.name, "register": register, **told}


def named_row(row, names, told):
    """An expected register as JSON, with its value and what is told of it by these names."""
    return named(row.algorithm, row.register, expected=row.value.hex(), **dict(zip(names, told)))


class Rule(NamedTuple):
    """By which rule the boot aggregate is taken ('The boot aggregate'): whether the first entry may have another of the kernel's templates, and whether
    the aggregate may be that of a kernel before 5.8."""

    takes_others: bool = False
    takes_old: bool = False


def rule_beside(required, takes_old=False):
    """The rule where these registers are required, or None: only beside them more is taken."""
    return Rule() if required is None else Rule(True, takes_old)


def verdict_report(log, entries, expected, required=None):
    return report_at(log, before_a_list(log.registers()).following(entries), expected, required, rule=rule_beside(required))


def report_at(log, end, expected, required=None, entries=None, told=None, rule=Rule()):
    """The report on the list of a checkpoint; of a confirmed prefix, how many entries the whole list has, and what else is told."""
    aggregate = boot_aggregate_state(end, rule)
    counts = {"events": len(log.events), "locality": log.locality, "entries": end.entries if entries is None else entries}
    counts |= {**(told or {}), "boot_aggregate": aggregate}
    return report(counts, end.after, expected, required, aggregate in GOOD, strays_in(log.events, end.stray))


def confirmed_prefix(start, entries, is_sought):
    """The checkpoint of the shortest prefix that is sought, of those that a checkpoint and entries after it have; or None ('The confirmed
    prefix')."""
    prefix = start
    for entry in entries:
        if is_sought(prefix):
            return prefix
        if not entry.is_genuine:
            return None
        prefix = prefix.following([entry])
    return prefix if is_sought(prefix) else None


def prefix_that_matches(log, start, entries, expected, required=None, rule=Rule()):
    """The shortest prefix on which the verdict is `match`, with nothing required missing; or None, also where no register is expected. What
    extends a register that is not its own is told by the report."""
    if not expected or missing_rows(expected, required):
        return None
    return confirmed_prefix(start, entries, lambda prefix: report_at(log, prefix, expected, rule=rule).matches)


def prefix_report(log, prefix, start, entries, fault, expected, required=None, rule=Rule()):
    """The report on a confirmed prefix of the list that a checkpoint and entries after it have, and that a fault may end."""
    try:
        start.following(entries)
    except Fault as found:
        fault = fault or found
    told = {"confirmed": prefix.entries, **({"unconfirmed": fault.unconfirmed()} if fault else {})}
    return report_at(log, prefix, expected, required, start.entries + len(entries), told, rule)


def list_report(entries, expected, required=None):
    """The same of a list alone, which never matches without an entry or an expected register ('A list alone')."""
    end = before_a_list(Registers(ALGORITHMS)).following(entries)
    return report({"entries": len(entries)}, end.after, expected, required, bool(entries) and bool(expected), strays_in([], end.stray))


def strays_in(events, stray):
    """What extends a register that is not its own: the first event of a log, and the first entry of a list as its checkpoint tells it. Each is a
    word, its number and the register."""
    extending = [number for number, event in enumerate(events, 1) if event.is_extended and event.register == IMA_REGISTER]
    return [("event", number, IMA_REGISTER) for number in extending[:1]] + ([("entry", *stray)] if stray else [])


def report(counts, registers, expected, required, is_well, strays):
    """The report: the verdict is `match` if all is well before the rows and in them, and where registers are required after them, too."""
    rows = [(row, row_state(registers.value(row.algorithm, row.register), row.value)) for row in expected]
    matches = is_well and all(state == ("match",) for _, state in rows)
    if required is None:
        return Report(counts, rows, None, [], matches)
    missing = missing_rows(expected, required)
    return Report(counts, rows, missing, strays, matches and not missing and not strays)


def verdict(log, entries, expected, required=None):
    """The text of the report, and whether the verdict is `match`. Without `--require`, `required` is None."""
    told = verdict_report(log, entries, expected, required)
    return told.text(), told.matches


def missing_rows(expected, required):
    """Each register that is required, but not expected ('Required PCRs')."""
    lacking = (required or set()) - {(row.algorithm, row.register) for row in expected}
    everywhere = ((algorithm, register) for algorithm in ALGORITHMS for register in range(REGISTERS))
    return [register for register in everywhere if register in lacking]


def boot_aggregate_state(end, rule):
    """How what the first entry of a checkpoint's list states compares by a rule with the registers after the log."""
    stated = end.stated or (end.told if rule.takes_others else None)
    if stated is None:
        return "missing"
    algorithm, digest = stated
    if algorithm not in end.before.banks:
        return "nobank"
    if digest == end.before.boot_aggregate(algorithm):
        return "good"
    return OLD_KERNEL if rule.takes_old and digest == end.before.old_boot_aggregate(algorithm) else "wrong"


def row_state(value, expected):
    """A word, and the value where it differs."""
    if value is None:
        return ("absent",)
    return ("match",) if value == expected else ("differ", value.hex())


class Places(NamedTuple):
    """Expected registers with their places, each a word and for an event or an entry its number; required registers that are missing."""

    rows: list
    missing: list

    @property
    def are_located(self):
        return bool(self.rows) and not self.missing and all(place[0] not in ("nowhere", "absent") for _, place in self.rows)

    def text(self):
        lines = [f"{row.algorithm.name} {row.register} {place_text(*place)}" for row, place in self.rows]
        lines += [f"{algorithm.name} {register} missing" for algorithm, register in self.missing]
        return "".join(f"{line}\n" for line in [*lines, "located" if self.are_located else "not located"])

    def as_json(self):
        """The places as JSON."""
        rows = [named_row(row, ("place", "number"), place) for row, place in self.rows]
        missing = [named(*register, place="missing") for register in self.missing]
        return {"registers": [*rows, *missing], "located": self.are_located}


def place_text(word, number=None):
    if number is None:
        return "at reset" if word == "reset" else word
    return f"after {word} {number}"


def places(log, entries, expected, required=None):
    require_genuine(entries)
    registers = log.at_reset()
    found = [None if row.algorithm in registers.banks else ("absent",) for row in expected]

    def look(changed, *point):
        for place, row in enumerate(expected):
            is_open = found[place] is None and row.register in changed
            if is_open and registers.value(row.algorithm, row.register) == row.value:
                found[place] = point

    look(range(REGISTERS), "reset")
    for number, event in enumerate(log.events, 1):
        if event.is_extended:
            registers.extend(event.register, event.digest_of)
            look((event.register,), "event", number)
    for number, entry in enumerate(entries):
        registers.extend(entry.register, entry.digest_of)
        look((entry.register,), "entry", number)
    rows = [(row, place or ("nowhere",)) for row, place in zip(expected, found)]
    return Places(rows, missing_rows(expected, required))


def locate(log, entries, expected, required=None):
    """The text of places, and whether some register is expected, each value was reached and none is missing."""
    told = places(log, entries, expected, required)
    return told.text(), told.are_located
