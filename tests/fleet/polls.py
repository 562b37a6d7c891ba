"""Tests of --poll, for tests/fleet/test: machines whose lists grow from poll to poll.

The lists are made. What must come of each machine is known from how its files and its checkpoint were changed before the third
poll; one client is killed in the middle of that."""

import hashlib
import re
import shutil
import sys
from collections import Counter
from dataclasses import dataclass
from functools import lru_cache
from pathlib import Path
from typing import Optional

from cluster import ROOT, SECONDS, until
from tables import change, query, rows_of

sys.path.append(str(ROOT / "tools/bench"))
import inputs  # noqa: E402
from reference.log import Event  # noqa: E402
from reference.measurement_list import list_spelling  # noqa: E402
from reference.registers import SHA256  # noqa: E402

MACHINES = 200
MOST_ENTRIES = 80
FORMS = ("{0}", "{0}/log\t{0}/list\t{0}/expected", "file://{0}/log\tfile://{0}/list\tfile://{0}/expected")
FILES = (("firmware.log", "ima.list", "expected.txt"), ("log", "list", "expected"), ("log", "list", "expected"))
GONE = "list: it is not there"
DAMAGED = "refused: checkpoint fault 1"
NOTHING = "nothing to compare: no register is expected"
HIDDEN = '[{"event":25,"register":10}]'  # what is told of HIDING
ROWS = "SELECT machine, verdict, cause, json_extract(report, '$.extends'), list_from, list_sha256 FROM verdicts"
CHECKPOINTS = "SELECT machine, checkpoint FROM checkpoints"
FIRST = "number = (SELECT number FROM found WHERE machine = 'machine 0')"

# Reads a list in an object store that is a class of fsspec, from some bytes on, and prints the ranges that it is asked for.
RANGES = """
import fsspec, math
from fleet_verify.reading import read_input
from fsspec.spec import AbstractBufferedFile, AbstractFileSystem
DATA = bytes(range(251)) * 80_000
class Object(AbstractBufferedFile):
    def _fetch_range(self, start, end):
        asked.append((start, end))
        return DATA[start:end]
class Store(AbstractFileSystem):
    def _open(self, path, mode, **given):
        return Object(self, path, mode, size=len(DATA))
fsspec.register_implementation("store", Store)
for start in (0, 1_000_003, len(DATA) - 1, len(DATA), len(DATA) + 1):
    asked = []
    data = read_input("store://list", math.inf, start)
    assert data == (None if start > len(DATA) else DATA[start:])
    print(*asked)
"""

# Makes a table of verdicts.
EMPTY = """
import sys
from fleet_verify.verdicts import Verdicts
Verdicts(sys.argv[1], "sha256:0-10")
"""

# The number of the one machine of each kind. All others only grow.
KINDS = {
    10: "restarted, shorter", 20: "restarted, longer", 30: "restarted, other log", 40: "tampered before", 50: "tampered after",
    60: "gone", 70: "ahead", 80: "damaged", 90: "damaged, shorter", 100: "other version", 110: "no text", 120: "lost",
    130: "still", 140: "emptied", 150: "expects nothing", 160: "cut", 170: "hiding", 180: "hiding later", 190: "other register",
    5: "expects less",
}


class Boot:
    """A log, and the entries that follow it; `first` tells apart boots with the same log. In one that hides entries the log has one of
    these as an event."""

    def __init__(self, events, first, hides=False):
        log = inputs.made_log([SHA256], events)
        if hides:
            log.events.append(Event(10, inputs.EV_EVENT_TAG, {SHA256.identifier: SHA256.hash(b"hidden")}, b""))
        measurements = list(inputs.made_measurements(first + MOST_ENTRIES))[first:]
        self.read_log, self.log, self.entries = log, log.spelling(), inputs.made_entries(log, measurements)

    def list(self, count):
        return list_spelling(self.entries[:count])

    @lru_cache(maxsize=None)
    def expected(self, count):
        return inputs.expected_text(inputs.expected_after(self.read_log, self.entries[:count]))

    def with_other_register(self, start, count):
        """A list whose entries are of another register than IMA's after the first ones, and the registers that it makes."""
        entries = self.entries[:start] + [entry._replace(register=11) for entry in self.entries[start:count]]
        return list_spelling(entries), inputs.expected_text(inputs.expected_after(self.read_log, entries))


BOOT, AGAIN, OTHER, HIDING = Boot(24, 0), Boot(24, 1000), Boot(25, 2000), Boot(24, 0, hides=True)


@dataclass
class Growing:
    """A machine by its number, and the files that it has at each poll, which are counted from 1."""

    number: int
    folder: Path

    @property
    def name(self):
        return f"machine {self.number}"

    @property
    def kind(self):
        return KINDS.get(self.number, "grows")

    @property
    def paths(self):
        return [self.folder / file for file in FILES[self.number % 3]]

    def line(self):
        return f"{self.name}\t{FORMS[self.number % 3].format(self.folder)}\n"

    @property
    def replay_fault(self):
        return f"refused: replay fault 1 at entry {self.changed}"

    @property
    def changed(self):
        """The entry that is changed, if one is: before the checkpoint of the second poll, or the first after it."""
        return 3 if self.kind == "tampered before" else self.count(2)

    def count(self, poll):
        """How many entries its list has, if it is not restarted."""
        more = (0, self.number % 7, 0 if self.kind == "still" else 1 + self.number % 11)
        return 30 + self.number % 20 + sum(more[:poll])

    def start(self, poll):
        """How many bytes its list had at the poll before."""
        return len(BOOT.list(self.count(poll - 1))) if poll > 1 else 0

    def files(self, poll):
        """The log, the list and the expected registers at a poll."""
        boot, count = BOOT, self.count(poll)
        if poll == 3 and "shorter" in self.kind:
            boot, count = AGAIN, 5
        elif poll == 3 and self.kind.startswith("restarted"):
            boot, count = (OTHER if "log" in self.kind else AGAIN), MOST_ENTRIES
        elif self.kind == "hiding" or poll == 3 and self.kind == "hiding later":
            boot = HIDING
        measurements, expected = boot.list(count), boot.expected(count)
        if poll == 3 and self.kind == "cut":  # (while the registers stay as they were at the checkpoint)
            measurements, expected = boot.list(self.count(2) - 1), boot.expected(self.count(2))
        if poll == 2 and self.kind == "ahead":
            expected = boot.expected(count - 1)
        if poll == 3 and self.kind.startswith("tampered"):
            at = len(boot.list(self.changed + 1)) - 5
            measurements = measurements[:at] + b"?" + measurements[at + 1:]
        if poll == 3 and self.kind == "emptied":
            measurements = b""
        if poll == 3 and self.kind == "expects nothing":
            expected = b""
        if poll == 3 and self.kind == "expects less":
            expected = b"".join(expected.splitlines(keepends=True)[:10])
        if poll == 3 and self.kind == "other register":
            measurements, expected = boot.with_other_register(self.count(2), count)
        return boot.log, measurements, expected + self.number * b"\n"

    def write(self, poll):
        self.folder.mkdir(exist_ok=True)
        for path, data in zip(self.paths, self.files(poll)):
            path.write_bytes(data)
        if poll == 3 and self.kind == "gone":
            self.paths[1].unlink()

    def row(self, verdict="match", cause=None, start: Optional[int] = 0, poll=3, extends=None):
        """A row in the form of ROWS: with this verdict, on the list from this byte on; None if the list is not read."""
        data = self.files(poll)[1]
        found = (0, None) if start is None else (start, hashlib.sha256(data[start:]).hexdigest())
        return (self.name, verdict, cause, extends, *found)

    def early_row(self, poll):
        """What must come of it at the first or the second poll."""
        if self.kind == "hiding":
            return self.row("differ", poll=poll, extends=HIDDEN)
        if poll == 2 and self.kind == "ahead":
            return self.row("differ", poll=poll)
        return self.row(start=self.start(poll), poll=poll)

    def third_row(self):
        """What must come of it at the third poll."""
        before = self.start(3)
        refused = {
            "tampered after": (self.replay_fault, 0), "damaged": (DAMAGED, before),
            "damaged, shorter": (DAMAGED, before), "no text": (DAMAGED, 0), "expects nothing": (NOTHING, 0),
        }
        if self.kind in refused:
            cause, start = refused[self.kind]
            row = self.row("refused", cause, start)
            return (*row[:-1], None) if self.kind == "damaged, shorter" else row
        if self.kind == "gone":
            return self.row("unreadable", GONE, None)
        if self.kind in ("hiding", "hiding later"):
            return self.row("differ", extends=HIDDEN)
        if self.kind == "other register":
            return self.row("differ", extends=f'[{{"entry":{self.count(2)},"register":11}}]')
        if self.kind in ("emptied", "cut", "expects less"):
            return self.row("differ")
        is_whole = self.kind.startswith("restarted") or self.kind in ("other version", "lost", "ahead")
        return self.row(start=0 if is_whole else before)

    @property
    def has_other_log(self):
        """Whether its log at the third poll is not that of the second."""
        return self.files(3)[0] != self.files(2)[0]

    def whole_row(self):
        """What must come of it after the third poll, if its list is there, and read from the beginning."""
        if self.kind.startswith("tampered"):
            return self.row("refused", self.replay_fault)
        if self.kind == "expects nothing":
            return self.row("refused", NOTHING)
        if self.kind in ("hiding", "hiding later", "other register", "emptied", "cut", "expects less"):
            return self.third_row()
        return self.row()


@dataclass
class Polls:
    """The tests of polls of these machines, by a scheduler at this address."""

    tools: object
    address: str
    machines: list

    @property
    def check(self):
        return self.tools.check

    @property
    def table(self):
        return self.tools.folder / "polls.tsv"

    def write(self, poll):
        for machine in self.machines:
            machine.write(poll)

    def words(self, verdicts, *words):
        return ("--scheduler", self.address, "--in-flight", 24, "--poll", *words, self.table, verdicts)

    def check_poll(self, title, verdicts, rows, *words):
        """A poll gives these rows, of which each match and no other gives status 0, and counts them."""
        status, output, errors = self.tools.verify(*self.words(verdicts, *words))
        counts = Counter(verdict for _, verdict, *_ in rows)
        lines = "".join(f"{kind} {counts[kind]}\n" for kind in ("match", "differ", "refused", "unreadable", "failed"))
        told = errors if status > 1 else ""
        self.check(f"{title}: status and counts", (status, output, told), (0 if counts["match"] == len(rows) else 1, lines, ""))
        self.check(f"{title}: verdicts, and what was read of the lists", dict(keyed(query(verdicts, ROWS))), dict(keyed(rows)))
        kept = {name for name, verdict, cause, *_ in rows if verdict == "match" or cause == DAMAGED}
        self.check(f"{title}: who has a checkpoint", {name for name, _ in query(verdicts, CHECKPOINTS)}, kept)

    def check_changes(self, title, verdicts, wanted):
        """The last poll noted these changes, and no others."""
        text = "SELECT machine, verdict, cause FROM changes WHERE kind = 'verdict' AND poll = (SELECT max(number) FROM polls)"
        self.check(f"{title}: changes", dict(keyed(query(verdicts, text))), dict(keyed(wanted)))

    def check_reboots(self, title, verdicts, wanted):
        """The last poll noted that these machines had another boot, and no others."""
        text = "SELECT machine FROM changes WHERE kind = 'reboot' AND poll = (SELECT max(number) FROM polls) ORDER BY machine"
        self.check(f"{title}: reboots", [name for name, in query(verdicts, text)], sorted(wanted))


def keyed(rows):
    return ((name, tuple(row)) for name, *row in rows)


def damage(verdicts):
    """Changes checkpoints by another hand."""
    other = "UPDATE checkpoints SET checkpoint = CAST(replace(checkpoint, 'sha256 10 ', 'sha256 10 0') AS BLOB)"
    for kind, text, *values in (
        ("damaged", other), ("damaged, shorter", other),
        ("other version", "UPDATE checkpoints SET checkpoint = CAST('ima-agent checkpoint 4' || x'0a' AS BLOB)"),
        ("no text", "UPDATE checkpoints SET checkpoint = ?", "\udcff".encode(errors="surrogateescape")),
        ("lost", "DELETE FROM checkpoints"),
    ):
        number = next(number for number, each in KINDS.items() if each == kind)
        change(verdicts, f"{text} WHERE machine = ?", *values, f"machine {number}")


def test_polls(tools, noted):
    """Three polls of lists that grow, and what comes after them."""
    folder = tools.folder / "growing"
    folder.mkdir()
    machines = [Growing(number, folder / str(number)) for number in range(MACHINES)]
    with tools.cluster("polls", 4, *noted, NOTED_CALLS=str(tools.folder / "polls.calls")) as (address, _):
        polls = Polls(tools, address, machines)
        polls.table.write_text("".join(machine.line() for machine in machines))
        verdicts = tools.folder / "polls.db"
        test_ranges(polls)
        test_growth(polls, verdicts)
        damage(verdicts)
        undisturbed = shutil.copyfile(verdicts, tools.folder / "undisturbed.db")
        polls.write(3)
        test_third_poll(polls, undisturbed)
        test_killed_poll(polls, verdicts, undisturbed)
        test_whole(polls, verdicts)
        test_stale(polls, verdicts)
        test_two_polls(polls, verdicts)
        test_damaged_table(polls, verdicts)


def test_ranges(polls):
    """Of a list in an object store no byte before the checkpoint is asked for."""
    told = polls.tools.start(["-c", RANGES], PYTHONPATH=str(ROOT / "fleet")).communicate(timeout=SECONDS)[0]
    size = 251 * 80_000
    lines = [f"(0, {size})", f"(1000003, {size})", f"({size - 1}, {size})", "", ""]
    polls.check("an object store: the ranges that are asked for", told.splitlines(), lines)


def test_growth(polls, verdicts):
    polls.write(1)
    first = [machine.early_row(1) for machine in polls.machines]
    polls.check_poll("the first poll", verdicts, first)
    polls.check_changes("the first poll", verdicts, [row[:3] for row in first])
    polls.write(2)
    polls.check_poll("the second poll", verdicts, [machine.early_row(2) for machine in polls.machines])
    (ahead,) = (machine for machine in polls.machines if machine.kind == "ahead")
    polls.check_changes("the second poll", verdicts, [(ahead.name, "differ", None)])


def test_third_poll(polls, verdicts):
    """Machines that are restarted, tampered with, gone, and what else there may be."""
    before = {name: row[0] for name, row in rows_of(verdicts).items()}
    rows = [machine.third_row() for machine in polls.machines]
    polls.check_poll("the third poll", verdicts, rows)
    polls.check_changes("the third poll", verdicts, [row[:3] for row in rows if row[1] != before[row[0]]])
    polls.check_reboots("the third poll", verdicts, [machine.name for machine in polls.machines if machine.has_other_log])
    entries = {name: row[3] for name, row in rows_of(verdicts).items() if row[0] == "match"}
    wanted = {}
    for machine in polls.machines:
        if machine.name in entries:
            count = machine.count(3)
            if machine.kind.startswith("restarted"):
                count = 5 if "shorter" in machine.kind else MOST_ENTRIES
            wanted[machine.name] = count
    polls.check("the third poll: how many entries the lists have", entries, wanted)


def test_killed_poll(polls, verdicts, undisturbed):
    """The client is killed in the middle of the third poll: the next gives what an undisturbed one gave, and changes are noted once."""
    done = "SELECT 1 FROM verdicts WHERE poll = 3"
    with polls.tools.gate(MACHINES // 2):
        client = polls.tools.client(*polls.words(verdicts))
        until("the middle", lambda: len(query(verdicts, done)) >= MACHINES // 3, client)
        client.kill()
        client.wait()
    polls.check("a poll was killed in the middle", MACHINES // 3 <= len(query(verdicts, done)) < MACHINES, True)
    text = "SELECT machine, verdict, checkpoint FROM verdicts LEFT JOIN checkpoints USING (machine) WHERE poll = 3"
    done = query(verdicts, text)
    polls.check("a poll killed: each verdict has its own checkpoint", set(done) <= set(query(undisturbed, text)), True)
    polls.check("a poll killed: status of the next", polls.tools.verify(*polls.words(verdicts))[0], 1)
    changes = "SELECT machine, kind, verdict, cause FROM changes ORDER BY machine, number"
    found, wanted = (
        (rows_of(table), dict(query(table, CHECKPOINTS)), query(table, changes)) for table in (verdicts, undisturbed)
    )
    for title, *pair in zip(("verdicts", "checkpoints", "changes"), found, wanted):
        polls.check(f"a poll killed: the next gives the {title} of an undisturbed one", *pair)


def test_whole(polls, verdicts):
    """Bytes that are changed before the checkpoint are seen by --whole, and by a run without --poll, and not by a poll."""
    (tampered,) = (machine for machine in polls.machines if machine.kind == "tampered before")
    cause = tampered.replay_fault
    text = f"SELECT verdict, cause FROM verdicts WHERE machine = '{tampered.name}'"
    polls.check("tampered before the checkpoint: a poll cannot see it", query(verdicts, text), [("match", None)])
    without = polls.tools.folder / "without polls.db"
    polls.tools.verify("--scheduler", polls.address, polls.table, without)
    polls.check("tampered before the checkpoint: a run without --poll", query(without, text), [("refused", cause)])
    for machine in polls.machines:
        if machine.kind == "gone":
            machine.paths[1].write_bytes(machine.files(3)[1])
    polls.check_poll("--whole", verdicts, [machine.whole_row() for machine in polls.machines], "--whole")
    polls.tools.verify(*polls.words(verdicts))
    polls.check("tampered before the checkpoint: a poll after --whole", query(verdicts, text), [("refused", cause)])
    test_other_kind(polls, verdicts, without)


def test_stale(polls, verdicts):
    """The query of docs/fleet.md for what is not well: also what is not of the last poll, and everything if that has not ended of late. It
    is empty only if there is something that is well."""
    text = re.findall(r"```sql\n(.*?)```", (ROOT / "docs/fleet.md").read_text(), re.DOTALL)[2]
    bad = {name for name, in query(verdicts, "SELECT machine FROM verdicts WHERE verdict <> 'match'")}
    names = {machine.name for machine in polls.machines}
    found = {row[0] for row in query(verdicts, text)}
    polls.check("the query of what is not well", (found, 0 < len(bad) < MACHINES), (bad, True))
    stale = {None, *names}
    for title, script, wanted in (
        ("all is well", "UPDATE found SET verdict = 'match'", set()),
        ("a machine that the last poll lacks", f"UPDATE given SET poll = 1 WHERE {FIRST}", {*bad, "machine 0"}),
        ("the last poll ended long ago", "UPDATE ends SET time = '2020-01-01T00:00:00.000+00:00'", stale),
        ("the last poll ended at no time", "UPDATE ends SET time = 'now and then'", stale),
        ("no poll ended", "DELETE FROM ends", stale),
        ("a poll that runs", "INSERT INTO polls (time) VALUES ('now')", bad),
        ("a machine of a poll that runs", f"UPDATE given SET poll = poll + 1 WHERE {FIRST}", bad),
        ("a run that is no poll ended", "UPDATE ends SET poll = NULL", stale),
        ("a poll that recorded nothing ended", "DELETE FROM found", {None}),
    ):
        table = shutil.copyfile(verdicts, polls.tools.folder / f"{title}.db")
        change(table, script)
        polls.check(f"the query of what is not well: {title}", {row[0] for row in query(table, text)}, wanted)
    empty = polls.tools.folder / "empty.db"
    polls.tools.start(["-c", EMPTY, empty], PYTHONPATH=str(ROOT / "fleet")).communicate(timeout=SECONDS)
    polls.check("the query of what is not well: an empty table", [row[0] for row in query(empty, text)], [None])


def test_other_kind(polls, verdicts, without):
    """A table is of polls or of other runs, and no run takes the other's."""
    for title, words, table in (
        ("verdicts of polls", ("--again", "none"), verdicts), ("verdicts of no poll", ("--poll",), without),
    ):
        status, output, errors = polls.tools.verify("--scheduler", polls.address, *words, polls.table, table)
        polls.check(f"refused: {title}", (status, output, "--poll: take another TABLE" in errors), (2, "", True))
    for words in (("--whole",), ("--poll", "--again", "match")):
        status, output, _ = polls.tools.verify("--scheduler", polls.address, *words, polls.table, verdicts)
        polls.check(f"refused: the arguments {words}", (status, output), (2, ""))


def test_two_polls(polls, verdicts):
    """Another poll begins while one runs: that stops, and records nothing after it."""
    before = query(verdicts, "SELECT max(number) FROM polls")[0][0]
    with polls.tools.gate(MACHINES // 2):
        client = polls.tools.client(*polls.words(verdicts))
        until("a verdict", lambda: query(verdicts, "SELECT 1 FROM verdicts WHERE poll > ?", before), client)
        change(verdicts, "INSERT INTO polls (time) VALUES ('now')")
        recorded = query(verdicts, "SELECT machine FROM verdicts WHERE poll = ?", before + 1)
    client.communicate(timeout=SECONDS)
    polls.check("another poll: status", client.returncode, 3)
    polls.check("another poll came in the middle", 0 < len(recorded) < MACHINES, True)
    now = query(verdicts, "SELECT machine FROM verdicts WHERE poll = ?", before + 1)
    polls.check("another poll: nothing is recorded after it began", now, recorded)
    words, library = ("--workers", 1, "--poll", polls.table, verdicts), str(polls.tools.folder / "none.so")
    status, *_ = polls.tools.verify(*words, IMA_VERIFY_LIBRARY=library)
    last = query(verdicts, "SELECT max(number) FROM polls")[0][0]
    polls.check("a poll whose workers cannot verify is not begun, and stops none", (status, last), (3, before + 2))


def test_damaged_table(polls, verdicts):
    """A table that is damaged, or lacks a half, is refused: no verdict in it stands."""
    half, other, cut = (polls.tools.folder / f"{name}.db" for name in ("half", "other half", "cut"))
    change(shutil.copyfile(verdicts, half), f"DELETE FROM found WHERE {FIRST}")
    change(shutil.copyfile(verdicts, other), f"DELETE FROM given WHERE {FIRST}")
    whole = verdicts.read_bytes()
    cut.write_bytes(whole[: len(whole) // 2])
    for title, table in (("half of a machine's rows", half), ("the other half of them", other), ("half of a file", cut)):
        status, output, errors = polls.tools.verify(*polls.words(table))
        polls.check(f"refused: a table with {title}", (status, output, "refused: " in errors), (2, "", True))
