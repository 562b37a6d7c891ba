"""The table of verdicts: a file of SQLite, with one row for each machine that has a verdict. Polls also keep there each machine's
checkpoint, and each change of a verdict."""

import re
import sqlite3
from itertools import chain
from typing import Any, Collection, Dict, List, NamedTuple, Optional, Sequence, Set, Tuple

from . import quotes
from .machines import Machine
from .opening import BadVerdicts, open_table
from .reading import PARTS, QUOTED_PARTS, Fields, now
from .schema import FOUND, GIVEN, NO_CLOCK, VERDICTS
from .verdict import Given
from .wording import row_reason

__all__ = ["VERDICTS", "BadVerdicts", "Quoting", "Verdicts"]

_PLACES = ("log", "list", "expected", "quote", "signature")

# Of a quote's report: the clock, which is the first object of this name.
_CLOCK = re.compile(r'"clock":(\{[^{}]*\})')


def _assigned(columns: Sequence[str]) -> Tuple[str, str]:
    """The columns, and the values that a row gives them, as rows of SQL. (Which boot was the last, and when the last match, is kept where a verdict
    does not say.)"""
    values = (f"ifnull(?{number}, {column})" if column in ("boot", "matched") else f"?{number}" for number, column in enumerate(columns, 1))
    return f"({', '.join(columns)})", f"({', '.join(values)})"


_FOUND, _FOUND_VALUES = _assigned(FOUND)
_GIVEN, _GIVEN_VALUES = _assigned(GIVEN)
_UPDATE_FOUND = (
    f"UPDATE found SET {_FOUND} = {_FOUND_VALUES} WHERE machine = ?{len(FOUND) + 1} AND {_FOUND} IS NOT {_FOUND_VALUES}"
)
_UPDATE_GIVEN = f"UPDATE given SET {_GIVEN} = {_GIVEN_VALUES} WHERE number = (SELECT number FROM found WHERE machine = ?{len(GIVEN) + 1})"
_CHANGED_VERDICT = """
INSERT INTO changes (machine, poll, kind, verdict, cause, time) SELECT :machine, :poll, 'verdict', :verdict, :cause, :time
WHERE NOT EXISTS (SELECT 1 FROM found WHERE machine = :machine AND verdict = :verdict)
"""
_CHANGED_BOOT = """
INSERT INTO changes (machine, poll, kind, verdict, cause, time) SELECT :machine, :poll, 'reboot', :verdict, :boot, :time
WHERE EXISTS (SELECT 1 FROM found WHERE machine = :machine AND boot <> :boot)
"""
_OF_CHANGE = ("machine", "poll", "verdict", "cause", "time", "boot")
_REACHED = """
INSERT INTO checkpoints VALUES (?1, ?2, ?3) ON CONFLICT (machine) DO UPDATE
SET (checkpoint, known_sha256) = (?2, ?3) WHERE (checkpoint, known_sha256) IS NOT (?2, ?3)
"""
# The verdicts by quotes of the last poll, if that never ended, of machines without a nonce for another.
_TAKEN_OVER = """
SELECT found.number, machine FROM found JOIN given USING (number) JOIN nonces USING (machine, nonce)
WHERE poll = (SELECT max(number) FROM polls) AND NOT EXISTS (SELECT 1 FROM ends WHERE ends.poll = given.poll) AND known_sha256 IS :known
    AND (list_from = 0 OR NOT :is_whole)
    AND (julianday(:time) - julianday(given_out)) * 86400 BETWEEN 0 AND min(max_age, :age)
    AND NOT EXISTS (SELECT 1 FROM nonces AS other WHERE other.machine = found.machine AND other.used IS NULL)
"""
# So many rows are added by one statement, which takes half the time of as many statements. (Each SQLite takes 999 values in one.)
_ROWS = 36

# What is older than a time goes, but for what the rest refers to.
_FORGET = (
    "DELETE FROM changes WHERE poll IN (SELECT number FROM polls WHERE time < :oldest AND number < (SELECT max(number) FROM polls))",
    "DELETE FROM ends WHERE time < :oldest AND rowid < (SELECT max(rowid) FROM ends)",
    "DELETE FROM retired WHERE retired < :oldest",
    """DELETE FROM polls WHERE time < :oldest AND number < (SELECT max(number) FROM polls) AND number NOT IN (
        SELECT poll FROM given WHERE poll IS NOT NULL UNION SELECT poll FROM changes UNION SELECT poll FROM ends WHERE poll IS NOT NULL)""",
)


class Quoting(NamedTuple):
    """The folder of the machines' keys, and how old in seconds a quote's nonce may be, if that is less than its own age."""

    keys: str
    max_age: float


def _places(machine: Machine) -> Tuple[Optional[str], ...]:
    """The paths of a machine, in the order of their columns."""
    paths = dict(zip(QUOTED_PARTS if machine.is_quoted else PARTS, machine.paths))
    return tuple(map(paths.get, _PLACES))


def _boot(answer: Fields) -> Optional[str]:
    """By what the boot that an answer's report is on is told from another: a TPM's counts, or else the log."""
    if answer.get("report") is None:
        return None
    if answer.get("resets") is not None:
        return f"resets {answer['resets']}, restarts {answer['restarts']}"
    return f"log {answer['log_sha256']}"


class Verdicts:
    """An open table of verdicts, all with the registers `required`, by the known files with this digest and by quotes, if there are some. Only
    the process that has it open writes it, a transaction at a time. `poll` is the number of the poll that it is open for, once that has begun."""

    def __init__(
        self, path: str, required: str, known_sha256: Optional[str] = None, quoting: Optional[Quoting] = None, hcrtm: bool = False,
        old_kernel: bool = False, prefix: bool = False,
    ):
        self.required, self.known_sha256, self.quoting = required, known_sha256, quoting
        self.hcrtm, self.old_kernel, self.prefix = hcrtm, old_kernel, prefix
        self.poll: Optional[int] = None
        self.connection = open_table(path)

    def close(self) -> None:
        """Ends the use of the table, which then is one file again if nobody else has it open."""
        self.connection.close()

    def gone(self, machines: Sequence[Machine]) -> List[str]:
        """The names of the machines that have a verdict, and are not these, or have other paths."""
        places = {machine.name: _places(machine) for machine in machines}
        rows = self.connection.execute(f"SELECT machine, {', '.join(_PLACES)} FROM verdicts ORDER BY machine")
        return [name for name, *recorded in rows if places.get(name) != tuple(recorded)]

    def retire(self, names: Sequence[str], time: str) -> None:
        """Puts away the rows of these machines, with this time, and drops their checkpoints: they have no verdict any longer."""
        values = [{"machine": name, "time": time} for name in names]
        with self.connection:
            for statement in (
                "INSERT INTO retired SELECT :time, * FROM verdicts WHERE machine = :machine",
                "DELETE FROM checkpoints WHERE machine = :machine",
                "DELETE FROM given WHERE number = (SELECT number FROM found WHERE machine = :machine)",
                "DELETE FROM found WHERE machine = :machine",
            ):
                self.connection.executemany(statement, values)

    def recorded(self, machines: Sequence[Machine], is_poll: bool, leaving: Collection[str] = ()) -> Dict[str, str]:
        """The verdict of each machine that has one, by name, but for those that leave. All rows must be of these machines, with the same paths,
        and given with the same requirement, all by polls or none. Without polls verdicts stand, so all must be by the same known files, too."""
        places = {machine.name: _places(machine) for machine in machines}
        verdicts = {}
        columns = ", ".join(("machine", "verdict", "required", "known_sha256", "poll", "hcrtm", "old_kernel", "prefix", *_PLACES))
        rows = self.connection.execute(f"SELECT {columns} FROM verdicts")
        for name, verdict, required, known, poll, hcrtm, old_kernel, prefix, *recorded in rows:
            if name in leaving:
                continue
            if (poll is not None) != is_poll:
                raise BadVerdicts(f"its verdicts were given {'without' if is_poll else 'with'} --poll: take another TABLE")
            if required != self.required:
                raise BadVerdicts(f"its verdict of {name!r} was given with --require {required}: take another TABLE")
            for option, was, is_now in (
                ("--hcrtm", hcrtm, self.hcrtm), ("--old-kernel", old_kernel, self.old_kernel), ("--prefix", prefix, self.prefix),
            ):
                if was != is_now:
                    raise BadVerdicts(f"its verdict of {name!r} was given {'without' if is_now else 'with'} {option}: take another TABLE")
            if not is_poll and known != self.known_sha256:
                raise BadVerdicts(f"its verdict of {name!r} was given with other files of --known, or without: take another TABLE")
            if name not in places:
                raise BadVerdicts(f"it has a verdict of {name!r}, which the table of machines lacks: --prune retires it")
            if places[name] != tuple(recorded):
                paths = ", ".join(path for path in recorded if path is not None)
                raise BadVerdicts(f"its verdict of {name!r} is of other files: {paths}: --prune retires it")
            verdicts[name] = verdict
        return verdicts

    def require_whole(self) -> None:
        """Refuses a table that is written by halves: a poll goes on from what it has."""
        orphan = self.connection.execute("PRAGMA foreign_key_check").fetchone()
        if orphan is not None:
            raise BadVerdicts(f"it is damaged: a row of {orphan[0]} lacks that of {orphan[2]}")

    def begin_poll(self, time: str, is_whole: bool = False) -> Set[str]:
        """Begins a poll: an earlier one that still runs records no more. Gives the names of the machines whose verdicts it takes over from the
        poll before, as that never ended: verdicts by quotes, if their nonces are valid still, and are the last that were given out. So no machine
        could have another until it answers a new nonce. (Of `is_whole` such a verdict is one on the whole list.)"""
        with self.connection:
            self.connection.execute("BEGIN IMMEDIATE")
            values = {"time": time, "known": self.known_sha256, "is_whole": is_whole, "age": self.quoting and self.quoting.max_age}
            taken = self.connection.execute(_TAKEN_OVER, values).fetchall()
            self.poll = self.connection.execute("INSERT INTO polls (time) VALUES (?)", (time,)).lastrowid
            self.connection.executemany("UPDATE given SET poll = ? WHERE number = ?", [(self.poll, number) for number, _ in taken])
        return {name for _, name in taken}

    def given(self, machine: Machine, has_checkpoint: bool) -> Given:
        """What the verifier has of a machine: for a poll its checkpoint, whatever bytes that is, or None, also if its entries were judged by
        other known files; of quotes its key and nonces."""
        checkpoint = self._checkpoint(machine) if has_checkpoint else None
        if self.quoting is None:
            return Given(checkpoint)
        key, fault = quotes.key_of(self.quoting.keys, machine.name)
        return Given(checkpoint, key, quotes.nonces_of(self.connection, machine.name), fault)

    def _checkpoint(self, machine: Machine) -> Optional[str]:
        query = "SELECT CAST(checkpoint AS BLOB) FROM checkpoints WHERE machine = ? AND known_sha256 IS ?"
        found = self.connection.execute(query, (machine.name, self.known_sha256)).fetchone()
        return None if found is None else found[0].decode("latin-1")

    def record(self, answers: Sequence[Tuple[Machine, Fields]], again: Collection[str]) -> None:
        """Records answers, each with its machine, in one transaction, and takes their nonces. What the machines of `again` had is replaced."""
        with self.connection:
            self.connection.execute("BEGIN IMMEDIATE")
            if self.poll != self.connection.execute("SELECT max(number) FROM polls").fetchone()[0]:
                raise BadVerdicts("a later poll has begun")
            if self.quoting is not None:
                quotes.take(self.connection, answers, self.quoting.max_age, now())
            rows = [self._row(machine, answer) for machine, answer in answers]
            if self.poll is not None:
                for statement in (_CHANGED_VERDICT, _CHANGED_BOOT):
                    self.connection.executemany(statement, [{field: row.get(field) for field in _OF_CHANGE} for row in rows])
            self._update([row for row in rows if row["machine"] in again])
            self._insert([row for row in rows if row["machine"] not in again])
            reached = [(row["machine"], row["checkpoint"].encode(), self.known_sha256) for row in rows if row.get("checkpoint") is not None]
            self.connection.executemany(_REACHED, reached)

    def _row(self, machine: Machine, answer: Fields) -> Fields:
        """The values of a machine's columns that are not NULL, by their names."""
        parts = QUOTED_PARTS if machine.is_quoted else PARTS
        row: Fields = {
            **answer, **dict(zip(parts, machine.paths)), "machine": machine.name, "required": self.required, "hcrtm": self.hcrtm,
            "old_kernel": self.old_kernel, "prefix": self.prefix, "known_sha256": self.known_sha256, "poll": self.poll,
            "boot": None if self.poll is None else _boot(answer), "matched": answer["time"] if answer["verdict"] == "match" else None,
            "reason": row_reason(answer),
        }
        clock = _CLOCK.search(row["report"]) if row.get("nonce") and row.get("report") else None
        if clock is not None:
            row["clock"], row["report"] = clock[1], row["report"].replace(clock[0], NO_CLOCK, 1)
        return row

    def _update(self, rows: Sequence[Fields]) -> None:
        """Replaces the rows of machines, but for what is as it was: of an unchanged one little is written."""
        self.connection.executemany(_UPDATE_FOUND, [(*map(row.get, FOUND), row["machine"]) for row in rows])
        count = self.connection.executemany(_UPDATE_GIVEN, [(*map(row.get, GIVEN), row["machine"]) for row in rows]).rowcount
        if rows and count != len(rows):
            raise BadVerdicts("rows of machines are gone")
        left = [(row["machine"],) for row in rows if row.get("checkpoint") is None]
        self.connection.executemany("DELETE FROM checkpoints WHERE machine = ?", left)

    def _insert(self, rows: Sequence[Fields]) -> None:
        """Adds a row for each machine, which has none."""
        last = self.connection.execute("SELECT ifnull(max(number), 0) FROM found").fetchone()[0]
        numbered = list(enumerate(rows, last + 1))
        self._insert_into("found", ("machine", *FOUND), [(number, row["machine"], *map(row.get, FOUND)) for number, row in numbered])
        self._insert_into("given", GIVEN, [(number, *map(row.get, GIVEN)) for number, row in numbered])

    def _insert_into(self, table: str, columns: Sequence[str], rows: List[Tuple[Any, ...]]) -> None:
        """Adds these rows, of a number and the values of these columns."""
        values = f"({', '.join('?' * (1 + len(columns)))})"
        statement = f"INSERT INTO {table} (number, {', '.join(columns)}) VALUES {values}"
        rest = len(rows) % _ROWS
        for start in range(rest, len(rows), _ROWS):
            self.connection.execute(statement + f", {values}" * (_ROWS - 1), list(chain.from_iterable(rows[start:start + _ROWS])))
        self.connection.executemany(statement, rows[:rest])

    def standing(self, again: Sequence[str]) -> Tuple[int, Optional[str]]:
        """How many verdicts are of none of these kinds, and when the first of them was given."""
        query = f"SELECT count(*), min(time) FROM verdicts WHERE verdict NOT IN ({', '.join('?' * len(again))})"
        count, first = self.connection.execute(query, again).fetchone()
        return count, first

    def require_no_end(self) -> None:
        """Refuses a table whose run has ended: none of its verdicts may pass for one of a later run unasked."""
        ended = self.connection.execute("SELECT max(time) FROM ends").fetchone()[0]
        if ended is not None:
            raise BadVerdicts(
                f"its run ended at {ended}: take another TABLE, with --poll to run again and again; or name with --again which verdicts "
                f"to give again ({','.join(VERDICTS)}; none keeps all)"
            )

    def end(self, time: str, oldest: str) -> None:
        """Notes that a run has given its counts, and forgets changes, polls and what was retired before this time."""
        with self.connection:
            self.connection.execute("INSERT INTO ends VALUES (?, ?)", (time, self.poll))
            for statement in _FORGET:
                self.connection.execute(statement, {"oldest": oldest})

    def counts(self) -> Dict[str, int]:
        """How many machines have each verdict, of this poll if it is one."""
        query = "SELECT verdict, count(*) FROM verdicts WHERE required = ? AND known_sha256 IS ? AND poll IS ? GROUP BY verdict"
        return dict.fromkeys(VERDICTS, 0) | dict(self.connection.execute(query, (self.required, self.known_sha256, self.poll)))
