"""Tests of how runs begin and end, for tests/fleet/test: workers of the client's own, which are killed, die at their start or lack the
library, and clients that signals stop. Whatever comes, a run says why it ends in a line, and never by a traceback."""

import os
import re
import signal
import socket
import time
from pathlib import Path

from cluster import REQUIRE, ROOT, SECONDS, UNQUOTED, children_of, preloading, until
from fleet_verify.versions import FIRST
from tables import counted, noted_calls, query, rows_of, times_of

NOTES = Path(__file__).with_name("noted_calls.py")
# A line beside the counts of a run: a reason, and how many machines have it.
CAUSE = re.compile(r"fleet-verify: ((match|differ|refused|unreadable|failed) \d+: |\d+ more reasons: )")

# Preloaded by workers: each of the first ones, as many as the file DEATHS has bytes, ends at its start.
DYING = """
import os, signal
with open(os.environ["DEATHS"], "r+b") as file:
    left = os.path.getsize(file.fileno())
    if left:
        file.truncate(left - 1)
        os.kill(os.getpid(), signal.SIGKILL)
"""
# Preloaded by workers: each ends itself when few threads are left waiting.
LEAVING = f"""
import sys
sys.path.append({str(NOTES.parent)!r})
import noted_calls
import fleet_verify.work
fleet_verify.work.MOST_LEFT = 6
"""
# Preloaded by workers: each may have few threads.
LIMITED = f"""
import sys, threading
sys.path.append({str(NOTES.parent)!r})
import noted_calls
start = threading.Thread.start
def limited(self):
    if threading.active_count() >= 8:
        raise RuntimeError("can't start new thread")
    start(self)
threading.Thread.start = limited
"""
# A client that waits no longer for an answer than all that a machine may take.
IMPATIENT = """
import sys
from fleet_verify import local
from fleet_verify.main import main
local.SPARE_SECONDS = 0
sys.exit(main())
"""
GATE, BATCH = 30, 2


class Ends:
    """The tests, of these machines, by workers that load these modules first."""

    def __init__(self, tools, fleet):
        self.tools, self.check, self.fleet = tools, tools.check, fleet
        self.dying = tools.folder / "dying.py"
        self.dying.write_text(DYING)
        self.count = 0

    def words(self, name):
        return ["--workers", 2, "--in-flight", 2 * BATCH, self.fleet.table, self.tools.folder / f"{name}.db"]

    def preload(self, module):
        return preloading(self.tools.folder / f"with {module.stem}", module)

    def client(self, name, module=NOTES, **given):
        """A client, whose standard error goes to a file of this name."""
        return self.tools.client(*self.words(name), said=name, **self.preload(module), **given)

    def check_said(self, title, name, wanted):
        """The last line that a client wrote to standard error, before causes beside the counts, has these words, and nothing was a traceback."""
        said = (self.tools.folder / name).read_text()
        *_, last = ["", *(line for line in said.splitlines() if not CAUSE.match(line))]
        is_right = wanted in last and "Traceback" not in said
        self.check(f"{title}: what is said", said if not is_right else wanted, wanted)

    def check_rest(self, title, name, recorded):
        """The same command goes on, and what was recorded stays."""
        self.check(f"{title}: status of the same command", self.tools.verify(*self.words(name))[0], 1)
        table = self.tools.folder / f"{name}.db"
        self.check(f"{title}: each machine has its verdict", rows_of(table), self.fleet.rows)
        times = times_of(table)
        self.check(f"{title}: what was recorded stays", {each: times[each] for each in recorded}, recorded)

    def noted(self):
        """The numbers of the machines of all calls."""
        return [number for number, _ in noted_calls(Path(self.tools.environment["NOTED_CALLS"]))]


def test_ends(tools, fleet):
    ends = Ends(tools, fleet)
    test_signals(ends)
    test_early_signals(ends)
    test_own_worker_killed(ends)
    test_own_client_killed(ends)
    test_deaths_at_start(ends)
    test_deadly_machines(ends)
    test_left_threads(ends)
    test_stopped_worker(ends)
    test_no_library(ends)
    test_no_dask(ends)
    test_no_certificates(ends)


def test_signals(ends):
    """Ctrl-C, which a terminal sends to all processes of its group, and SIGTERM, in the middle."""
    for name, send in (("SIGINT", os.killpg), ("SIGTERM", os.kill)):
        table = ends.tools.folder / f"{name}.db"
        with ends.tools.gate(GATE):
            client = ends.client(name)
            until("a verdict", lambda: counted(table), client)
            send(client.pid, signal.Signals[name])
            output = client.communicate(timeout=SECONDS)[0]
        recorded = times_of(table)
        ends.check(f"{name}: status and output", (client.returncode, output), (3, ""))
        ends.check(f"{name} came in the middle", 0 < len(recorded) < len(ends.fleet.rows), True)
        ends.check_said(name, name, "stopped: by a signal; run the same command again to resume")
        ends.check_rest(name, name, recorded)


def test_early_signals(ends):
    """Signals at different times of the start."""
    begun = []
    with ends.tools.gate(0):
        for number, delay in enumerate((0, 0.3, 0.6, 0.9, 1.2, 1.5)):
            name = f"early {number}"
            client = ends.client(name)
            until("a table", (ends.tools.folder / f"{name}.db").exists, client)
            time.sleep(delay)
            client.send_signal((signal.SIGINT, signal.SIGTERM)[number % 2])
            begun.append((name, client))
        for name, client in begun:
            output = client.communicate(timeout=SECONDS)[0]
            ends.check(f"{name}: status and output", (client.returncode, output), (3, ""))
            ends.check_said(name, name, "stopped: by a signal; run the same command again to resume")


def test_own_worker_killed(ends):
    """A worker of the client's own is killed in the middle: another takes its place, and its batch."""
    before, table = len(ends.noted()), ends.tools.folder / "own.db"
    with ends.tools.gate(GATE):
        client = ends.client("own")
        until("the gate", lambda: len([number for number in ends.noted()[before:] if int(number) >= GATE]) == 2, client)
        workers = children_of(client.pid)
        os.kill(workers[0], signal.SIGKILL)
        until("another worker", lambda: len(set(children_of(client.pid)) - set(workers)) == 1, client)
    client.communicate(timeout=SECONDS)
    ends.check("an own worker killed: status", client.returncode, 1)
    ends.check_said("an own worker killed", "own", "done")
    ends.check("an own worker killed: each machine has its verdict", rows_of(table), ends.fleet.rows)
    calls = ends.noted()[before:]
    more = len(calls) - len(set(calls))
    ends.check("an own worker killed: its batch was done again, and no other", more in range(1, BATCH + 1) or more, True)
    until("the end of its workers", lambda: not any(map(is_running, workers)))


def is_running(process):
    return Path(f"/proc/{process}").exists()


def test_own_client_killed(ends):
    """A client is killed in the middle: its workers end, and nothing is left in its folder for temporary files."""
    table, rest = ends.tools.folder / "killed.db", ends.tools.folder / "killed rest"
    rest.mkdir()
    with ends.tools.gate(GATE):
        client = ends.client("killed", TMPDIR=str(rest))
        until("a verdict", lambda: counted(table), client)
        workers = children_of(client.pid)
        ends.check("a client: it has its workers", len(workers), 2)
        test_no_door(ends, (client.pid, *workers))
        client.kill()
        client.wait()
        until("the end of its workers", lambda: not any(map(is_running, workers)))
    recorded = times_of(table)
    ends.check("a client killed: what is left in the folder for temporary files", list(rest.iterdir()), [])
    ends.check_rest("a client killed", "killed", recorded)


def test_no_door(ends, processes):
    """None of these processes has a socket to which an address, a name or a file leads."""
    with socket.create_server(("127.0.0.1", 0)) as server, socket.socket(socket.AF_UNIX) as named:
        named.bind("\0fleet-verify-test")
        found = [reachable_sockets() & sockets_of(os.getpid(), each.fileno()) for each in (server, named)]
        ends.check("sockets that can be reached are found", all(found), True)
    ends.check("no door", set.union(*map(sockets_of, processes)) & reachable_sockets(), set())


def reachable_sockets():
    """The inodes of all sockets to which an address, a name or a file leads."""
    found = set()
    for table in Path("/proc/net").glob("[tu][cd]p*"):
        found.update(line.split()[9] for line in table.read_text().splitlines()[1:])
    fields = [line.split() for line in Path("/proc/net/unix").read_text().splitlines()[1:]]
    return found | {inode for *_, inode, _ in (each[:8] for each in fields if len(each) > 7)}


def sockets_of(process, number="*"):
    """The inodes of the sockets that a process has open, or of the one of this number."""
    files = [os.readlink(file) for file in Path(f"/proc/{process}/fd").glob(str(number))]
    return {name[8:-1] for name in files if name.startswith("socket:")}


def test_deaths_at_start(ends):
    """Workers that die at their start are replaced; if all do, the run says so."""
    deaths = ends.tools.folder / "deaths"
    all_died = "workers, one after another, ended before they had started"
    for name, count, status, said in (("some die", 3, 1, "done"), ("all die", 1000, 3, all_died)):
        deaths.write_bytes(bytes(count))
        client = ends.client(name, module=ends.dying, DEATHS=str(deaths))
        client.communicate(timeout=SECONDS)
        ends.check(f"{name} at the start: status", client.returncode, status)
        ends.check_said(f"{name} at the start", name, said)
        wanted = ends.fleet.rows if status == 1 else {}
        ends.check(f"{name} at the start: verdicts", rows_of(ends.tools.folder / f"{name}.db"), wanted)
    count = re.search(rf"(\d+) {all_died}", (ends.tools.folder / "all die").read_text())
    ends.check("all die at the start: how many", count and count[1] in ("10", "11"), True)  # (the other worker may end meanwhile)


def test_deadly_machines(ends):
    """Each of many machines kills the one worker as soon as that has started: these fail, and the run goes on."""
    deadly = [f"machine {number}" for number in range(12)]
    given = {"DEADLY": ",".join(name.split()[1] for name in deadly)}
    table = ends.tools.folder / "deadly machines.db"
    status, _, errors = ends.tools.verify("--workers", 1, ends.fleet.table, table, **ends.preload(NOTES), **given)
    ends.check("deadly machines: status", (status, errors if status == 3 else ""), (1, ""))
    rows = rows_of(table)
    reached = [name for name in deadly if ends.fleet.kinds[name] != "missing"]  # (of one that lacks a file none is verified)
    ends.check("deadly machines fail", {rows.pop(name)[0] for name in reached}, {"failed"})
    ends.check("deadly machines: the others have their verdicts", rows, {name: ends.fleet.rows[name] for name in rows})
    ends.check("deadly machines: no other fails", len(rows), len(ends.fleet.rows) - len(reached))


def test_left_threads(ends):
    """A worker with many threads that wait for files, or without a thread any longer, starts anew, and no machine fails for it."""
    machines = ends.tools.folder / "leaving.tsv"
    lines, wanted = ends.fleet.table.read_text().splitlines(keepends=True)[:24], dict(list(ends.fleet.rows.items())[:24])
    for number in range(0, 24, 2):
        name = f"machine {number}"
        lines[number] = f"{name}\tstuck://log\tstuck://list\tstuck://expected\n"
        wanted[name] = ("unreadable", "no answer in time", None, None, None, None, [])
    machines.write_text("".join(lines))
    for title, text in (("leaving", LEAVING), ("limited", LIMITED)):
        module, table = (ends.tools.folder / f"{title}.{kind}" for kind in ("py", "db"))
        module.write_text(text)
        status, _, errors = ends.tools.verify("--workers", 1, "--deadline", 4, machines, table, **ends.preload(module))
        ends.check(f"threads that are left, {title}: status and verdicts", (status, rows_of(table), errors if status == 3 else ""), (1, wanted, ""))
        ((workers,),) = query(table, "SELECT count(DISTINCT worker) FROM verdicts")
        ends.check(f"threads that are left, {title}: workers started anew", workers > 1, True)


def test_stopped_worker(ends):
    """A worker that does not go on is killed after a while, and its batch given to another."""
    table, given = ends.tools.folder / "stopped.db", {"STOPPING": "10", "NOTED_CALLS": str(ends.tools.folder / "stopped.calls")}
    given.update(ends.preload(NOTES))
    given["PYTHONPATH"] += f":{ROOT / 'fleet'}"
    words = [*UNQUOTED, "--require", REQUIRE, *ends.words("stopped"), "--deadline", 3]
    client = ends.tools.start(["-c", IMPATIENT, *words], said="stopped", **given)
    client.communicate(timeout=SECONDS)
    ends.check("a worker is stopped: status", client.returncode, 1)
    ends.check("a worker is stopped: each machine has its verdict", rows_of(table), ends.fleet.rows)
    ends.check("a worker is stopped: it had a machine", [number for number, _ in noted_calls(ends.tools.folder / "stopped.calls")].count("10"), 2)


def test_no_library(ends):
    """Workers without the library give no verdict."""
    table = ends.tools.folder / "none.db"
    given = {"IMA_VERIFY_LIBRARY": str(ends.tools.folder / "none.so")}
    status, _, errors = ends.tools.verify("--workers", 1, ends.fleet.table, table, **given)
    found = (status, "is not there, or not the library" in errors, "same command" in errors, "Traceback" in errors)
    ends.check("no library: status and cause", found, (3, True, False, False))
    ends.check("no library: nothing is recorded", counted(table), 0)


def test_no_dask(ends):
    """Without Dask there are workers of this computer, and a run by a scheduler is refused."""
    lacking, table = ends.tools.folder / "no dask", ends.tools.folder / "no dask.db"
    for name in ("dask", "distributed"):
        (lacking / name).mkdir(parents=True)
        (lacking / name / "__init__.py").write_text("raise ImportError('it is not there')\n")
    (lacking / f"distributed-{FIRST}.dist-info").mkdir()  # (of a version that fits, which may be the only one)
    (lacking / f"distributed-{FIRST}.dist-info/METADATA").write_text(f"Metadata-Version: 2.1\nName: distributed\nVersion: {FIRST}\n")
    given = {"PYTHONPATH": f"{lacking}:{ends.tools.environment['PYTHONPATH']}"}
    status, output, errors = ends.tools.verify("--scheduler", "tls://127.0.0.1:1", ends.fleet.table, table, **given)
    found = (status, output, "--scheduler needs the package distributed: it is not there" in errors, "same command" in errors)
    ends.check("no Dask: a scheduler", found, (2, "", True, False))
    status, _, _ = ends.tools.verify("--workers", 1, ends.fleet.table, table, **given)
    ends.check("no Dask: workers", (status, rows_of(table)), (1, ends.fleet.rows))


def test_no_certificates(ends):
    """A run by TLS without certificates is refused, and does not go on without encryption."""
    ends.tools.needs_dask()
    table, given = ends.tools.folder / "no certificates.db", {"DASK_DISTRIBUTED__COMM__TLS__CA_FILE": ""}
    for address in ("tls://127.0.0.1:1", "wss://127.0.0.1:1"):
        status, output, errors = ends.tools.verify("--scheduler", address, ends.fleet.table, table, **given)
        ends.check(f"no certificates: {address}", (status, output, "an address by TLS needs certificates" in errors), (2, "", True))
