"""Tests of what a table of verdicts keeps, for tests/fleet/test: what an unchanged poll writes, machines that left or moved, and how long changes
are kept."""

import hashlib
import json
import shutil
import time
from contextlib import closing, redirect_stderr
from io import StringIO
from pathlib import Path
from types import SimpleNamespace

from cluster import REQUIRE, ROOT, SECONDS
from fleet_verify.machines import Machine
from fleet_verify.nonces import give_out
from fleet_verify.reading import now
from fleet_verify.summary import Summary
from fleet_verify.verdicts import BadVerdicts, Quoting, Verdicts
from fleet_verify.verifying import recorded_in
from quoted import give_quotes
from tables import change, query, rows_of

SAMPLE = ROOT / "samples/real-boot"
FILES = ("firmware.log", "ima.list", "expected.txt")
MACHINES = 2000
TURN = 250  # (so many answers are recorded at once)
MEBIBYTE = 1024 * 1024
PAGE, MOST_PAGES = 4096, 32
LONG_AGO = "2020-01-01T00:00:00.000+00:00"

# Prints the report of the library on the quote in each folder, which has a key before it, and the nonce after it.
ATTESTED = """
import sys
from pathlib import Path
import ima_verify
require, *words = sys.argv[1:]
for key, folder, nonce in zip(words[::3], words[1::3], words[2::3]):
    names = "quote.msg", "quote.sig", "firmware.log", "ima.list"
    files = (Path(folder, name).read_bytes() for name in names)
    found = ima_verify.attest(Path(key).read_bytes(), *files, nonce_hex=nonce, require=require)
    print(found.json)
"""
COLUMNS = (
    "verdict", "entries", "boot_aggregate", "report", "log_sha256", "list_sha256", "expected_sha256", "quote_sha256", "signature_sha256",
    "list_from", "nonce", "resets", "time", "worker",
)


def test_keeping(tools):
    test_unchanged(tools)
    test_unchanged_quotes(tools)
    test_unchanged_files(tools)
    test_own_columns(tools)
    test_pruned_beside(tools)
    test_prune(tools)
    test_pruned_polls(tools)
    test_retention(tools)
    test_kept_poll(tools)
    test_quoted_report(tools)


def written():
    """How many bytes this process has written."""
    with open("/proc/self/io") as file:
        return next(int(line.split()[1]) for line in file if line.startswith("wchar"))


def report_of(entries, clock):
    """A report of some thousand bytes, by a quote if there is a clock."""
    rows = [{"bank": bank, "register": number, "state": "match"} for bank in ("sha1", "sha256", "sha384") for number in range(24)]
    quoted = {"quoted": [{"bank": "sha256", "registers": [*range(11)]}], "signer": "000b" + 64 * "a", "clock": clock} if clock else {}
    told = {**quoted, "events": 24, "locality": 0, "entries": entries, "boot_aggregate": "good", "registers": rows, "verdict": "match"}
    return json.dumps(told, separators=(",", ":"))


def answer_of(machine, start=0, entries=99, clock=None, nonce=None):
    """What a worker answers on a machine whose list it reads from this byte on."""
    by_quote = {"nonce": nonce, "resets": clock["resets"], "restarts": clock["restarts"], "signer": 64 * "b"} if clock else {}
    parts = {"log": "", "list": start, **({"quote": nonce, "signature": nonce} if clock else {"expected": ""})}
    digests = {f"{part}_sha256": hashlib.sha256(f"{machine.name} {part} {of}".encode()).hexdigest() for part, of in parts.items()}
    return {
        "verdict": "match", "events": 24, "locality": 0, "entries": entries, "boot_aggregate": "good", "report": report_of(entries, clock),
        **digests, "list_from": start, "interface_version": 7, "worker": "tcp://127.0.0.1:40123", "time": now(),
        "checkpoint": f"ima-agent checkpoint 4\n{machine.name}\n{entries}\n" + 2000 * "0", **by_quote,
    }


def poll(table, machines, answers):
    """Records a poll with these answers, on the first of the machines; gives how many bytes were written for it."""
    before = written()
    table.begin_poll(now())
    recorded = table.recorded(machines, True)
    for start in range(0, len(machines), TURN):
        table.record(list(zip(machines, answers))[start:start + TURN], recorded)
    table.connection.execute("PRAGMA wal_checkpoint(TRUNCATE)")
    return written() - before


def shown(table):
    """By name, what the view has of each machine, and its poll."""
    rows = table.connection.execute(f"SELECT machine, poll, {', '.join(COLUMNS)} FROM verdicts")
    return {name: row for name, *row in rows}


def wanted(table, machines, answers):
    return {machine.name: [table.poll, *map(answer.get, COLUMNS)] for machine, answer in zip(machines, answers)}


def check_poll(tools, title, table, machines, answers, most):
    """A poll with these answers writes at most so many bytes, and the view has all that they say."""
    given = [dict(answer) for answer in answers]
    count = poll(table, machines, answers)
    tools.check(f"{title}: what is written", count if count > most else 0, 0)
    tools.check(f"{title}: the view has what was answered", shown(table) == wanted(table, machines, given), True)


def test_unchanged(tools):
    """A poll that finds a machine as it was writes no report and no checkpoint again; one that finds another report does."""
    machines = [Machine(f"host-{number}.example.com", (f"/srv/boot/host-{number}",)) for number in range(MACHINES)]
    with closing(Verdicts(str(tools.folder / "unchanged.db"), "sha256:0-10")) as table:
        first = [answer_of(machine) for machine in machines]
        check_poll(tools, "the first poll", table, machines, first, 60 * MEBIBYTE)
        for title in ("lists that are read from checkpoints", "lists that are as they were"):
            answers = [answer_of(machine, 5000) for machine in machines]
            check_poll(tools, f"an unchanged poll, {title}", table, machines, answers, MEBIBYTE)
        answers = [answer_of(machine, 5000, 99 if number else 100) for number, machine in enumerate(machines)]
        check_poll(tools, "a poll of one list that grew", table, machines, answers, MEBIBYTE)
        reached = table.connection.execute("SELECT machine, checkpoint FROM checkpoints").fetchall()
        found = {machine.name: answer["checkpoint"].encode() for machine, answer in zip(machines, answers)}
        tools.check("polls of lists of which one grew: the checkpoints", dict(reached) == found, True)
        changes = table.connection.execute("SELECT poll, count(*) FROM changes GROUP BY poll").fetchall()
        tools.check("unchanged polls: the changes", changes, [(1, MACHINES)])


def test_unchanged_quotes(tools):
    """So it is by quotes, of which each has another nonce and another clock. A boot that a quote tells is a change."""
    machines = [Machine(f"host-{number}.example.com", (f"/srv/boot/host-{number}",), True) for number in range(MACHINES)]
    with closing(Verdicts(str(tools.folder / "unchanged quotes.db"), "sha256:0-10", quoting=Quoting("/nowhere", 3600))) as table:
        for number, resets, most in ((1, 41, 60 * MEBIBYTE), (2, 41, 5 * MEBIBYTE), (3, 42, 60 * MEBIBYTE)):
            nonces = give_out(table.connection, machines, 3600)
            clock = {"milliseconds": 1000 * number, "resets": resets, "restarts": 0, "safe": True}
            answers = [answer_of(machine, 0, 99, clock, nonces[machine.name]) for machine in machines]
            check_poll(tools, f"poll {number} by quotes", table, machines, answers, most)
        changes = table.connection.execute("SELECT kind, poll, cause, count(*) FROM changes GROUP BY kind, poll, cause").fetchall()
        tools.check("polls by quotes: the changes", changes, [("reboot", 3, "resets 42, restarts 0", MACHINES), ("verdict", 1, None, MACHINES)])
        missed = {"verdict": "unreadable", "cause": "log: gone", "worker": "here"}
        for number, clock in ((4, None), (5, {"milliseconds": 1, "resets": 43, "restarts": 0, "safe": True})):
            nonces = give_out(table.connection, machines, 3600)
            answer = answer_of(machines[0], 0, 99, clock, nonces[machines[0].name]) if clock else {**missed, "time": now()}
            poll(table, machines, [answer])
        changes = table.connection.execute("SELECT poll, kind, verdict FROM changes WHERE poll > 3 ORDER BY number").fetchall()
        tools.check("a boot after a poll that missed it", changes, [(4, "verdict", "unreadable"), (5, "verdict", "match"), (5, "reboot", "match")])


def test_quoted_report(tools):
    """The report by a quote in the table is that of the library, to the last byte, though its clock is kept apart."""
    tools.needs_modules("cryptography")
    folder = tools.folder / "quoted report"
    machines, table = make_machines(folder, 2), folder / "verdicts.db"
    keys = give_quotes(tools, machines, table, SAMPLE / "expected.txt")
    status, *_ = tools.verify("--workers", 1, "--poll", machines, table, by=("--keys", keys))
    rows = query(table, "SELECT machine, log, nonce, report FROM verdicts ORDER BY machine")
    tools.check("reports by quotes: status, and the clock that is kept apart", (status, query(table, "SELECT count(clock) FROM given")), (0, [(2,)]))
    words = [word for name, log, nonce, _ in rows for word in (keys / f"{name}.pub", Path(log).parent, nonce)]
    said = tools.start(["-c", ATTESTED, REQUIRE, *words]).communicate(timeout=SECONDS)[0]
    tools.check("reports by quotes are those of the library", [report for *_, report in rows], said.splitlines())


def test_own_columns(tools):
    """Whatever a worker answers: whose verdict it is, of which files, and by what, is as the run knows it."""
    told = {"machine": "b", "log": "/b", "list": "/b", "expected": "/b", "required": "none", "hcrtm": 1, "old_kernel": 1,
            "prefix": 1, "known_sha256": "aa", "matched": "then"}
    with closing(Verdicts(str(tools.folder / "own columns.db"), REQUIRE)) as table:
        machine = Machine("a", ("/log", "/list", "/expected"))
        table.record([(machine, {**answer_of(machine), **told, "time": "now"})], ())
        found = table.connection.execute(f"SELECT {', '.join(told)} FROM verdicts").fetchall()
    tools.check("a worker that answers what only the run knows", found, [("a", "/log", "/list", "/expected", REQUIRE, 0, 0, 0, None, "now")])


def test_pruned_beside(tools):
    """A machine that another run retires has no verdict by a poll that still runs: that stops, and records none of what it had at once."""
    machines = [Machine(name, (f"/srv/{name}",)) for name in ("left", "stays")]
    path = str(tools.folder / "pruned beside.db")
    with closing(Verdicts(path, "sha256:0-10")) as table, closing(Verdicts(path, "sha256:0-10")) as other:
        poll(table, machines, [answer_of(machine) for machine in machines])
        table.begin_poll(now())
        other.retire(["left"], now())
        before = shown(table)
        try:
            table.record([(machine, answer_of(machine, 5000)) for machine in machines], {machine.name: "match" for machine in machines})
            fault = None
        except BadVerdicts as found:
            fault = str(found)
        tools.check("a machine that another run retires: the poll stops", fault, "rows of machines are gone")
        tools.check("a machine that another run retires: nothing is recorded", (list(before), shown(table)), (["stays"], before))


def make_machines(folder, count):
    """The table of so many machines, each with the files of the sample."""
    for number in range(count):
        (folder / str(number)).mkdir(parents=True)
        for file in FILES:
            shutil.copyfile(SAMPLE / file, folder / str(number) / file)
    table = folder / "machines.tsv"
    table.write_text("".join(f"machine {number}\t{folder / str(number)}\n" for number in range(count)))
    return table


def test_unchanged_files(tools):
    """Of the file of a table only a few pages are others after an unchanged poll."""
    folder = tools.folder / "unchanged files"
    machines, table = make_machines(folder, 300), folder / "verdicts.db"
    pages = []
    for number in range(3):
        status, *_ = tools.verify("--workers", 2, "--poll", machines, table)
        tools.check(f"poll {number} of machines that stay as they are: status", status, 0)
        data = table.read_bytes()
        pages.append([data[start:start + PAGE] for start in range(0, len(data), PAGE)])
    before, after = pages[-2:]
    others = sum(old != new for old, new in zip(before, after)) + len(after) - len(before)
    tools.check("machines that stay as they are: how many pages are others", others if others > MOST_PAGES or len(after) < 10 * MOST_PAGES else 0, 0)
    tools.check("machines that stay as they are: the poll of each", query(table, "SELECT DISTINCT poll FROM verdicts"), [(3,)])


def test_prune(tools):
    """A machine that left, or has other paths, stops a run, unless that retires it: then its row is kept, and no longer counted."""
    folder = tools.folder / "pruned"
    machines, table = make_machines(folder, 4), folder / "verdicts.db"
    words = ("--workers", 1, "--again", "none", machines, table)
    (folder / "3/ima.list").unlink()
    tools.check("four machines: status", tools.verify("--workers", 1, machines, table)[0], 4)
    before, lines = rows_of(table), machines.read_text().splitlines(keepends=True)
    machines.write_text("".join([lines[0], lines[1], f"machine 2\t{SAMPLE}\n"]))
    status, output, errors = tools.verify(*words)
    tools.check("refused: a machine that left", (status, output, "--prune retires it" in errors), (2, "", True))
    tools.check("refused: a machine that left: all stands", (rows_of(table), query(table, "SELECT * FROM retired")), (before, []))
    status, output, errors = tools.verify("--prune", "--workers", 1, machines, table)
    tools.check("ended, and --prune: the same command is refused", (status, output, query(table, "SELECT * FROM retired")), (2, "", []))
    status, output, errors = tools.verify("--prune", *words)
    said = "2 retired, as MACHINES lacks them or has other paths: machine 2, machine 3\n"
    tools.check("--prune: status and counts", (status, output.split("\n")[0], said in errors), (0, "match 3", True))
    places = {name: Path(path).parent for name, path in query(table, "SELECT machine, log FROM verdicts")}
    tools.check("--prune: the machines with a verdict", places, {"machine 0": folder / "0", "machine 1": folder / "1", "machine 2": SAMPLE})
    kept = query(table, "SELECT machine, verdict, log, report IS NOT NULL FROM retired ORDER BY machine")
    wanted_rows = [("machine 2", "match", str(folder / "2/firmware.log"), 1), ("machine 3", "unreadable", str(folder / "3/firmware.log"), 0)]
    tools.check("--prune: the rows of what is retired are kept", kept, wanted_rows)
    status, _, errors = tools.verify("--prune", *words)
    tools.check("--prune with nothing to retire", (status, "retired" in errors, len(query(table, "SELECT 1 FROM retired"))), (0, False, 2))
    test_named(tools, folder)


def test_named(tools, folder):
    """Ten of the machines that are retired are named, and that there are more."""
    names, options = [f"machine {number:02}" for number in range(11)], SimpleNamespace(poll=False, prune=True, again=())
    for count, end in ((10, ""), (11, ", ..")):
        with closing(Verdicts(str(folder / f"{count}.db"), REQUIRE)) as table, redirect_stderr(StringIO()) as said:
            table.record([(Machine(name, (f"/{name}",)), {"verdict": "failed", "time": "now"}) for name in names[:count]], ())
            recorded_in(table, [], options, Summary())
        wanted = f"fleet-verify: {count} retired, as MACHINES lacks them or has other paths: {', '.join(names[:10])}{end}\n"
        tools.check(f"--prune of {count} machines: who is named", said.getvalue(), wanted)


def test_pruned_polls(tools):
    """Polls: a machine that comes back is a new one, and its list is read whole."""
    folder = tools.folder / "pruned polls"
    machines, table = make_machines(folder, 2), folder / "verdicts.db"
    words, lines = ("--workers", 1, "--poll", "--prune", machines, table), machines.read_text().splitlines(keepends=True)
    starts = "SELECT machine, list_from > 0 FROM verdicts ORDER BY machine"
    for title, text, found in (
        ("the first", lines, [("machine 0", 0), ("machine 1", 0)]), ("the second", lines, [("machine 0", 1), ("machine 1", 1)]),
        ("one left", lines[:1], [("machine 0", 1)]), ("it is back", lines, [("machine 0", 1), ("machine 1", 0)]),
        ("it stays", lines, [("machine 0", 1), ("machine 1", 1)]),
    ):
        machines.write_text("".join(text))
        status, output, _ = tools.verify(*words)
        tools.check(f"polls that prune: {title}", (status, output.split("\n")[0], query(table, starts)), (0, f"match {len(found)}", found))
    changes = query(table, "SELECT machine, poll, verdict FROM changes ORDER BY number")
    tools.check("polls that prune: the changes", changes, [("machine 0", 1, "match"), ("machine 1", 1, "match"), ("machine 1", 4, "match")])
    tools.check("polls that prune: the checkpoints", len(query(table, "SELECT 1 FROM checkpoints")), 2)


def test_kept_poll(tools):
    """A poll that began before all that is kept, and ended since, stays with its end; its changes go."""
    machine = Machine("a", ("/a",))
    with closing(Verdicts(str(tools.folder / "kept poll.db"), REQUIRE)) as table:
        for oldest in (LONG_AGO, "2021-01-01T00:00:00.000+00:00"):
            poll(table, [machine], [answer_of(machine)])
            table.end(now(), oldest)
            with table.connection:
                table.connection.execute("UPDATE polls SET time = ?", (LONG_AGO,))
        texts = ("SELECT number FROM polls", "SELECT poll FROM ends", "SELECT poll FROM changes")
        found = [table.connection.execute(text).fetchall() for text in texts]
    tools.check("a poll that began long ago, and ended since, is kept", found, [[(1,), (2,)], [(1,), (2,)], []])


def test_retention(tools):
    """Changes, polls and what is retired are kept for a time, and a table that a poll goes on from stays whole."""
    folder = tools.folder / "kept"
    machines, table = make_machines(folder, 3), folder / "verdicts.db"
    words, lines = ("--workers", 1, "--poll", "--prune"), machines.read_text().splitlines(keepends=True)
    tools.verify(*words, machines, table)
    machines.write_text("".join(lines[:2]))
    shutil.rmtree(folder / "1")
    tools.verify(*words, machines, table)
    counts = "SELECT (SELECT count(*) FROM changes), (SELECT count(*) FROM polls), (SELECT count(*) FROM ends), (SELECT count(*) FROM retired)"
    tools.check("what is young is kept", query(table, counts), [(4, 2, 2, 1)])
    for text in ("UPDATE polls SET time = ?", "UPDATE ends SET time = ?", "UPDATE retired SET retired = ?"):
        change(table, text, LONG_AGO)
    old = shutil.copyfile(table, folder / "old.db")
    tools.verify(*words, machines, table)
    tools.check("what is old is gone by default", query(table, counts), [(0, 1, 1, 0)])
    tools.check("the poll that is left", query(table, "SELECT DISTINCT number, poll FROM polls, verdicts"), [(3, 3)])
    tools.check("--keep for long", (tools.verify(*words, "--keep", "36500d", machines, old)[0], query(old, counts)), (4, [(4, 3, 3, 1)]))
    time.sleep(1.1)
    tools.verify(*words, "--keep", "1s", machines, old)
    tools.check("--keep for a second", query(old, counts), [(0, 1, 1, 0)])
    tools.check("then another poll", tools.verify(*words, machines, old)[0], 4)
    for text in ("0", "1w", "", "-1", "1.5h", "36501d", "9999999999d", "h"):
        status, output, _ = tools.verify(*words, f"--keep={text}", machines, table)
        tools.check(f"refused: --keep {text!r}", (status, output), (2, ""))
