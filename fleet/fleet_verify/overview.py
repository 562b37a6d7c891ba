"""What a page shows of a table of verdicts: read at one moment, also while a run writes, and nothing is written."""

import json
import re
import sqlite3
from collections import Counter
from contextlib import closing, contextmanager
from dataclasses import dataclass, field
from datetime import datetime, timedelta, timezone
from typing import Any, Dict, Iterable, Iterator, List, NamedTuple, Optional, Sequence, Tuple

from .opening import BadVerdicts, open_snapshot
from .plot import Bar, bars_of
from .rendering import text_of_bytes, time_span
from .schema import VERDICTS
from .wording import bank_name, without_place

_SECONDS = 60
_MOST_CHANGES = 500
_MOST_GROUPS = 50
_MOST_NAMES = 10
# Of how many PCRs a machine's row shows the values.
_MOST_VALUES = 3
_AGES = ((60, "less than a minute"), (600, "less than 10 minutes"), (3600, "less than an hour"), (86400, "less than a day"))

_PROBLEMS = """
SELECT machine, verdict, cause, reason, unknown, first_unknown, time, matched, poll, json_extract(report, '$.extends') AS extends
FROM verdicts WHERE verdict <> 'match'
"""
_REGISTERS = """
SELECT machine, algorithm, register, state, expected, value FROM registers
WHERE state <> 'match' AND machine IN (SELECT machine FROM verdicts WHERE verdict = 'differ') ORDER BY machine, algorithm, register
"""
_PREFIXES = "SELECT machine, confirmed, entries FROM prefixes"
_MATCHING = "SELECT machine, matched, signer IS NULL FROM verdicts WHERE verdict = 'match'"
_UNQUOTED = "SELECT count(*) FROM verdicts WHERE verdict = 'match' AND signer IS NULL"
_RETIRED = "SELECT machine, retired FROM retired ORDER BY retired"
_LATE = "SELECT count(*) FROM verdicts WHERE poll IS NOT ? AND (poll IS NULL OR poll < ?)"
_SINCE = "SELECT machine, time, max(number) FROM changes WHERE kind = 'verdict' GROUP BY machine"
# (the first row of a machine is no change: it had no verdict before. Once old rows are gone, that cannot be told.)
_BY_POLL = """
SELECT poll, CASE kind WHEN 'verdict' THEN verdict ELSE kind END, count(*) FROM changes
WHERE kind <> 'verdict' OR (SELECT min(number) > 1 FROM changes)
    OR number NOT IN (SELECT min(number) FROM changes WHERE kind = 'verdict' GROUP BY machine) GROUP BY 1, 2
"""
_ALIKE = """
SELECT list_sha256, machine FROM verdicts
WHERE list_from = 0 AND list_sha256 IN (SELECT list_sha256 FROM verdicts WHERE list_from = 0 GROUP BY 1 HAVING count(*) > 1)
"""
_SIGNERS = """
SELECT signer, machine FROM verdicts
WHERE signer IN (SELECT signer FROM verdicts GROUP BY 1 HAVING count(*) > 1)
"""


def natural(name: str) -> Tuple[Any, str]:
    """By what names are sorted as people do: host-2 comes before host-10."""
    return tuple(int(part) if part.isdecimal() else part for part in re.split(r"(\d+)", name)), name


class Register(NamedTuple):
    """A register of a report."""

    bank: str
    number: int
    state: str
    expected: Optional[str]
    value: Optional[str]


@dataclass
class Problem:
    """A machine that does not match, with what its report says."""

    machine: str
    verdict: str
    cause: Optional[str]
    reason: str
    time: str
    matched: Optional[str]
    poll: Optional[int]
    facts: List[str] = field(default_factory=list)
    registers: List[Register] = field(default_factory=list)
    since: Optional[str] = None

    @property
    def why(self) -> str:
        """What it has in common with other machines: its reason, without what is only this machine's."""
        return without_place(self.reason)

    @property
    def line(self) -> Optional[str]:
        """The line of a refusal, by which errors.txt has it."""
        return self.cause if self.cause is not None and self.cause.startswith("refused: ") else None

    @property
    def values(self) -> Sequence[Register]:
        """The PCRs of which another value than the expected one is shown."""
        return [row for row in self.registers if row.value][:_MOST_VALUES]

    @property
    def more_values(self) -> int:
        return sum(row.value is not None for row in self.registers) - len(self.values)


class Group(NamedTuple):
    """What several machines have in common, and the first of them by name."""

    verdict: str
    title: str
    machines: Sequence[str]

    @property
    def first(self) -> Sequence[str]:
        return self.machines[:_MOST_NAMES]


class Prefix(NamedTuple):
    """A match that does not cover the whole list: how many first entries it does, and of how many."""

    machine: str
    confirmed: int
    entries: int


class Change(NamedTuple):
    machine: str
    poll: int
    kind: str
    verdict: str
    cause: Optional[str]
    time: str


class Quote(NamedTuple):
    machine: str
    age: float
    signer: str
    resets: int
    restarts: int


@dataclass(frozen=True)
class Quotes:
    """Of the machines with a quote: how old these were at the verdict, the oldest, and keys that signed for several machines."""

    count: int
    ages: Dict[str, int]
    oldest: List[Quote]
    shared: List[Group]


@dataclass(frozen=True)
class State:
    """Whether the table can be relied on: when its last run ended, what it requires, and what speaks against it."""

    ended: Optional[str]
    poll: Optional[int]
    required: List[str]
    warnings: List[str]


@dataclass(frozen=True)
class Overview:
    """All that a page shows."""

    state: State
    counts: Dict[str, int]
    unquoted: int
    retired: List[Tuple[str, str]]
    problems: List[Problem]
    reasons: List[Group]
    registers: List[Group]
    quotes: Optional[Quotes]
    alike: List[Group]
    changes: List[Change]
    bars: List[Bar]
    matching: List[Tuple[str, Optional[str], bool]]
    prefixes: List[Prefix]

    @property
    def machines(self) -> int:
        return sum(self.counts.values())

    @property
    def is_good(self) -> bool:
        """Whether every machine matches, by a run that has ended lately."""
        return 0 < self.machines == self.counts["match"] and not self.state.warnings


@contextmanager
def snapshot_of(path: str) -> Iterator[sqlite3.Connection]:
    """A table of verdicts as it is at one moment."""
    with closing(open_snapshot(path)) as connection:
        connection.text_factory = text_of_bytes
        yield connection


def overview_of(connection: sqlite3.Connection, most_age: int) -> Overview:
    """What the table shows. The last run is to have ended in so many seconds."""
    counts = dict.fromkeys(VERDICTS, 0) | dict(connection.execute("SELECT verdict, count(*) FROM verdicts GROUP BY verdict"))
    _require_verdicts(counts)
    problems = _problems(connection)
    return Overview(
        _state(connection, counts, most_age), counts, _number(connection, _UNQUOTED), _by_name(connection.execute(_RETIRED)), problems,
        _reasons(problems), _registers(problems), _quotes(connection), _groups("", connection.execute(_ALIKE)),
        _changes(connection),
        bars_of(list(connection.execute("SELECT number, time FROM polls ORDER BY number")), connection.execute(_BY_POLL)),
        _by_name(connection.execute(_MATCHING)), [Prefix(*row) for row in _by_name(connection.execute(_PREFIXES))],
    )


def _by_name(rows: Iterable[Any]) -> List[Any]:
    """Rows of machines, by their names."""
    return sorted(rows, key=lambda row: natural(row[0]))


def _require_verdicts(verdicts: Iterable[str]) -> None:
    """Refuses a table with a verdict that is none."""
    others = sorted(set(verdicts) - set(VERDICTS))
    if others:
        raise BadVerdicts(f"it is damaged: {others[0]!r} is no verdict")


def _changes(connection: sqlite3.Connection) -> List[Change]:
    """The last changes, from the last one on."""
    rows = connection.execute(f"SELECT machine, poll, kind, verdict, cause, time FROM changes ORDER BY number DESC LIMIT {_MOST_CHANGES}")
    changes = [Change(*row) for row in rows]
    _require_verdicts(change.verdict for change in changes)
    return changes


def _number(connection: sqlite3.Connection, query: str, *values: object) -> int:
    return int(connection.execute(query, values).fetchone()[0])


def _state(connection: sqlite3.Connection, counts: Dict[str, int], most_age: int) -> State:
    """What is to be said of the table as a whole."""
    ended, poll = connection.execute("SELECT time, poll FROM ends ORDER BY rowid DESC LIMIT 1").fetchone() or (None, None)
    warnings = [] if any(counts.values()) else ["No machine has a verdict."]
    warnings += ["No run has ended: verdicts may still come."] if ended is None else _since_end(connection, ended, poll, most_age)
    required = [name for name, in connection.execute("SELECT DISTINCT required FROM verdicts ORDER BY 1")]
    return State(ended, poll, required, warnings)


def _since_end(connection: sqlite3.Connection, ended: str, poll: Optional[int], most_age: int) -> List[str]:
    """What speaks against the counts that a run gave at its end: that was long ago, verdicts are older, or another run began."""
    warnings, moment = [], _moment_of(ended)
    if not timedelta(seconds=-_SECONDS) <= datetime.now(timezone.utc) - moment <= timedelta(seconds=most_age):
        warnings.append(f"The last run did not end within {time_span(most_age)} before this page was made.")
    last = connection.execute("SELECT max(number) FROM polls").fetchone()[0]
    if last != poll:
        warnings.append(f"Poll {last} has not ended: it is running, or was stopped.")
    late = _number(connection, _LATE, poll, poll) if poll is not None else 0
    if late:
        warnings.append(f"{late} {'verdict is' if late == 1 else 'verdicts are'} older than poll {poll}, the last one that ended.")
    # (a worker's clock may differ from the client's)
    later = (moment + timedelta(seconds=_SECONDS)).isoformat(timespec="milliseconds")
    if last == poll and _number(connection, "SELECT count(*) FROM verdicts WHERE time > ?", later):
        warnings.append("Verdicts came after the last run ended: another is running, or was stopped.")
    return warnings


def _moment_of(time: str) -> datetime:
    try:
        return datetime.fromisoformat(time).astimezone(timezone.utc)
    except (TypeError, ValueError):
        raise BadVerdicts(f"it is damaged: {time!r} is no time") from None


def _problems(connection: sqlite3.Connection) -> List[Problem]:
    """The machines that do not match, with their reasons."""
    since = {machine: time for machine, time, _ in connection.execute(_SINCE)}
    problems = {}
    for machine, verdict, cause, reason, unknown, first, time, matched, poll, extends in connection.execute(_PROBLEMS):
        told = reason or cause or "No reason is known."
        problems[machine] = Problem(machine, verdict, cause, told, time, matched, poll, _facts(extends, unknown, first), since=since.get(machine))
    for machine, *row in connection.execute(_REGISTERS):
        problems[machine].registers.append(Register(*row))
    return sorted(problems.values(), key=lambda problem: (VERDICTS.index(problem.verdict), natural(problem.machine)))


def _facts(extends: Optional[str], unknown: Optional[int], first: Optional[int]) -> List[str]:
    """Where a report finds what its machine's reason says."""
    facts = [f"unknown entries: {unknown}, the first is entry {first}"] if unknown else []
    for row in json.loads(extends or "[]"):
        kind = "event" if "event" in row else "entry"
        facts.append(f"{kind} {row[kind]} extends PCR {row['register']}")
    return facts


def _groups(verdict: str, rows: Iterator[Tuple[str, str]]) -> List[Group]:
    """The machines of each title, the largest group first."""
    machines: Dict[str, List[str]] = {}
    for title, machine in rows:
        machines.setdefault(title, []).append(machine)
    groups = [Group(verdict, title, sorted(names, key=natural)) for title, names in machines.items()]
    return sorted(groups, key=lambda group: (-len(group.machines), natural(group.machines[0])))


def _reasons(problems: Sequence[Problem]) -> List[Group]:
    """The machines of each verdict and reason."""
    groups = []
    for verdict in VERDICTS:
        groups += _groups(verdict, ((problem.why, problem.machine) for problem in problems if problem.verdict == verdict))
    return groups


def _registers(problems: Sequence[Problem]) -> List[Group]:
    """The machines of each register that does not match, with the value that it has instead."""
    return _groups("differ", (
        (f"{bank_name(row.bank)} PCR {row.number}: {row.value}", problem.machine) for problem in problems for row in problem.registers if row.value
    ))[:_MOST_GROUPS]


def _quotes(connection: sqlite3.Connection) -> Optional[Quotes]:
    """What is to be said of quotes, if there are some."""
    quotes = [Quote(*row) for row in connection.execute(
        "SELECT machine, quote_age, signer, resets, restarts FROM verdicts WHERE signer IS NOT NULL AND quote_age IS NOT NULL ORDER BY 2 DESC, 1"
    )]
    if not quotes:
        return None
    ages = Counter(next((title for most, title in _AGES if quote.age < most), "a day or more") for quote in quotes)
    return Quotes(len(quotes), dict(ages), quotes[:_MOST_NAMES], _groups("", connection.execute(_SIGNERS)))
