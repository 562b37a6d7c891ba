"""Tests of what runs record, for tests/fleet/test: a table that is read, written by another hand, or that refuses to be written; what stops a run
in place of a verdict; the paths of verdicts that stand; that nothing is left beside the table; and which versions fit."""

import re
import shutil
from pathlib import Path

from cluster import ROOT, SECONDS, until
from fleet_verify.versions import FIRST, TOO_LATE, misfits
from tables import change, counted, query, record_beside, rows_of

# Records a verdict while a reader is in the middle of a query, and prints what that and another see; then how many
# machines match by a later poll.
READER = """
import sqlite3, sys
from fleet_verify import opening, verdicts
from fleet_verify.machines import Machine
opening.SECONDS = 1
table = verdicts.Verdicts(sys.argv[1], "none")
table.begin_poll("now")
table.record([(Machine("a", ("/a",)), {"verdict": "match", "time": "now"})], ())
QUERY = "SELECT machine FROM verdicts"
reader = sqlite3.connect(sys.argv[1])
reader.execute("BEGIN")
print(reader.execute(QUERY).fetchall())
table.record([(Machine("b", ("/b",)), {"verdict": "match", "time": "now"})], ())
print(reader.execute(QUERY).fetchall(), sqlite3.connect(sys.argv[1]).execute(QUERY).fetchall())
table.begin_poll("later")
print(table.counts()["match"])
"""
READER_WANTED = ["[('a',)]", "[('a',)] [('a',), ('b',)]", "0"]

# Runs on a machine of which a batch ends by an error: one of Dask, of the network, of the worker's function, or an answer that is none; then
# on two, of which one has an answer when the other's batch ends so. Prints how the run ends, and what is recorded.
ERRORS = """
import asyncio, itertools, sys
from types import SimpleNamespace
from distributed import KilledWorker
from fleet_verify.cluster import ClusterAnswer
from fleet_verify.ledger import Ledger
from fleet_verify.machines import Machine
from fleet_verify.run import Run
from fleet_verify.verdicts import Verdicts
class Killed(KilledWorker):  # (each version of Dask makes it of other things)
    __init__, __str__ = Exception.__init__, Exception.__str__
class Future:
    def __init__(self, status, fault):
        self.status, self.fault = status, fault
    def __await__(self):
        yield from asyncio.sleep(0).__await__()
        if isinstance(self.fault, Exception):
            raise self.fault
        return self.fault
    def done(self):
        return True
class Workers:
    threads, known = {"here": 1}, None
    def __init__(self, *ended):
        self.ended = itertools.cycle(ended)
    def submit(self, request, is_patient):
        return ClusterAnswer(Future(*next(self.ended)))
    def lost(self):
        return None
    async def look(self):
        pass
SECOND = '{"worker": "here", "answers": [{"places": ["/b"], "verdict": "refused", "time": "now"}], "seconds": 1}'
async def run(table, *ended):
    verdicts = Verdicts(table, "none")
    options = SimpleNamespace(
        in_flight=2, poll=False, require="none", unquoted=True, max_age=None, patience=600, deadline=60, hcrtm=False, old_kernel=False, prefix=False
    )
    ledger = Ledger(verdicts, [Machine(name, (f"/{name}",)) for name in "ab"[:len(ended)]], {}, False, lambda *_: None)
    try:
        await asyncio.wait_for(Run(Workers(*ended), ledger, SimpleNamespace(show=lambda *_: None), options).verify(), 20)
        print("done", end=" ")
    except Exception as fault:
        print(type(fault).__name__, end=" ")
    print(verdicts.connection.execute("SELECT verdict, cause FROM verdicts").fetchall())
for number, ended in enumerate((
    ("error", RuntimeError("an error of the function")), ("error", OSError(28, "No space left on device")),
    ("lost", RuntimeError("lost")), ("cancelled", Killed()), ("finished", "no answer"),
    ("finished", '{"worker": "here", "answers": [], "seconds": 1}'), ("error", Killed()),
)):
    asyncio.run(run(f"{sys.argv[1]} {number}.db", ended))
asyncio.run(run(f"{sys.argv[1]} both.db", ("error", RuntimeError("lost")), ("finished", SECOND)))
"""
ERRORS_WANTED = [
    *["CannotGoOn []"] * 6, "done [('failed', 'each worker that verified it died')]", "CannotGoOn [('refused', None)]",
]

# By these a table refuses to be written: by an error of SQLite that is none of its constraints, and by one that is.
REFUSING = {
    "lacks a table": "DROP TABLE checkpoints",
    "has a trigger": "CREATE TRIGGER refusing BEFORE UPDATE ON given BEGIN SELECT RAISE(ABORT, 'refused'); END",
}


def test_records(tools, fleet):
    """By a cluster of its own, with machines that all match."""
    check_script(tools, "a reader holds up no writer", READER, READER_WANTED)
    with tools.cluster("records", 1, "--preload", ROOT / "tests/fleet/noted_calls.py") as (address, _):
        words = ("--scheduler", address, fleet.table)
        check_script(tools, "an error of a batch is no verdict", ERRORS, ERRORS_WANTED)
        test_unwritable(tools, fleet, words)
        test_unended(tools, fleet, words)
        test_other_paths(tools, fleet)
    test_nothing_left(tools, fleet)
    test_versions(tools, fleet)


def check_script(tools, title, script, wanted):
    """A script prints these lines, with a file of its own."""
    modules = {"PYTHONPATH": f"{ROOT / 'bindings/python'}:{ROOT / 'fleet'}"}
    said = tools.start(["-c", script, tools.folder / title], **modules).communicate(timeout=SECONDS)[0]
    tools.check(title, said.splitlines(), wanted)


def test_unwritable(tools, fleet, words):
    """A table that refuses what is to be recorded stops the run, and no earlier match passes for a new one."""
    table = tools.folder / "all match.db"
    tools.check("a table to be refused: status", tools.verify(*words, table)[0], 0)
    for title, script in REFUSING.items():
        refusing, notes = shutil.copyfile(table, tools.folder / f"{title}.db"), Path(tools.environment["NOTED_CALLS"])
        ends, before = query(refusing, "SELECT * FROM ends"), len(notes.read_text())
        with tools.gate(0):
            client = tools.client("--again", "match", *words, refusing)
            until("the gate", lambda: len(notes.read_text()) > before, client)
            change(refusing, script)
        output = client.communicate(timeout=SECONDS)[0]
        tools.check(f"a table that {title}: status and output", (client.returncode, output), (3, ""))
        found = (query(refusing, "SELECT * FROM ends"), rows_of(refusing))
        tools.check(f"a table that {title}: the run has no end, and all stands", found, (ends, fleet.rows))


def test_unended(tools, fleet, words):
    """A run whose counts are wrong, or cannot be told, has no end in the table."""
    table = tools.folder / "stranger.db"
    with tools.gate(1):
        client = tools.client("--in-flight", 1, *words, table)
        until("a verdict", lambda: counted(table), client)
        record_beside(table, "a stranger", "match")
    output = client.communicate(timeout=SECONDS)[0]
    tools.check("a stranger's verdict: status and output", (client.returncode, output), (3, ""))
    found = (counted(table), query(table, "SELECT * FROM ends"))
    tools.check("a stranger's verdict: the run has no end", found, (len(fleet.rows) + 1, []))
    table = tools.folder / "untold.db"
    with open("/dev/full", "w") as full:
        client = tools.client(*words, table, output=full)
        client.wait(SECONDS)
    tools.check("counts that cannot be told: no success", client.returncode in (0, 1), False)
    tools.check("counts that cannot be told: the run has no end", (rows_of(table), query(table, "SELECT * FROM ends")), (fleet.rows, []))


def test_other_paths(tools, fleet):
    """Verdicts of which a path is another are refused, whichever of the three."""
    table, machines = tools.folder / "all match.db", tools.folder / "moved.tsv"
    *lines, last = fleet.table.read_text().splitlines()
    name, *paths = last.split("\t")
    for part in range(3):
        moved = [f"{path}.other" if number == part else path for number, path in enumerate(paths)]
        machines.write_text("".join(f"{line}\n" for line in (*lines, "\t".join([name, *moved]))))
        status, output, errors = tools.verify("--scheduler", "tcp://127.0.0.1:1", "--again", "none", machines, table)
        tools.check(f"refused: verdicts of another {Path(paths[part]).name}", (status, output, "of other files" in errors), (2, "", True))


def test_nothing_left(tools, fleet):
    """After a run by workers of its own its folder for temporary files is empty, and the table is one file."""
    folder = tools.folder / "temporary"
    (folder / "files").mkdir(parents=True)
    given = {"TMPDIR": str(folder / "files")}
    for title, words, status in (("all match", (), 0), ("no library", ("--again", "match"), 3)):
        library = {} if status == 0 else {"IMA_VERIFY_LIBRARY": str(folder / "none.so")}
        found, *_ = tools.verify("--workers", 1, *words, fleet.table, folder / "verdicts.db", **given, **library)
        left = sorted(path.name for path in (*folder.iterdir(), *(folder / "files").iterdir()))
        tools.check(f"{title}: status, and what is left", (found, left), (status, ["files", "verdicts.db"]))


def told_by(distributed, python="3.11.2.final.0"):
    """What a process of Dask tells of its versions."""
    return {"host": {"python": python}, "packages": {"distributed": distributed}}


def test_versions(tools, fleet):
    """Versions that do not fit are named, those of this computer before anything starts."""
    scheduler, workers = told_by("2022.12.1"), {"tls://a:1": told_by("2022.12.1+ds.1"), "tls://b:1": told_by("2022.12.1", "3.11.9.final.0")}
    told = {"client": told_by("2022.12.1+ds.1"), "scheduler": scheduler, "workers": workers}
    tools.check("versions of a cluster that fit", misfits(told), {})
    here = "and this computer distributed 2022.12.1 by Python 3.11"
    for title, name, other, wanted in (
        ("another Dask", "tls://b:1", told_by("2023.1.0"), "it has distributed 2023.1.0 by Python 3.11"),
        ("another Python", "tls://b:1", told_by("2022.12.1", "3.9.2.final.0"), "it has distributed 2022.12.1 by Python 3.9"),
        ("no version", "tls://b:1", told_by(None), "it has distributed  by Python 3.11"),
    ):
        found = misfits({**told, "workers": {**workers, name: other}})
        tools.check(f"versions of a worker: {title}", {name: str(fault) for name, fault in found.items()}, {name: f"{wanted}, {here}"})
        tools.check(f"versions of a scheduler: {title}", list(misfits({**told, "scheduler": other})), ["(the scheduler)"])
    bounds = re.search(r'"distributed>=([0-9.]+),<([0-9.]+)"', (ROOT / "fleet/pyproject.toml").read_text())
    tools.check("the versions that the package asks for", bounds and bounds.groups(), (FIRST, TOO_LATE))
    for installed, is_taken in (("2022.12.1+x", True), ("2022.12.0", False), ("2023.1.0", False), ("", False)):
        folder = tools.folder / f"distributed {installed}"
        information = folder / f"distributed-{installed or 0}.dist-info"
        information.mkdir(parents=True)
        (information / "METADATA").write_text(f"Metadata-Version: 2.1\nName: distributed\nVersion: {installed}\n")
        status, _, errors = tools.verify(
            "--scheduler", "tls://127.0.0.1:1", fleet.table, folder / "never.db", PYTHONPATH=f"{folder}:{ROOT / 'bindings/python'}",
            DASK_DISTRIBUTED__COMM__TIMEOUTS__CONNECT="1s",
        )
        found = (status, f"its version is {installed}, " in errors)
        tools.check(f"version {installed!r} of distributed: status", found, (3, False) if is_taken else (2, True))
