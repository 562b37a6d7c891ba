#!/usr/bin/env python3
"""Loads fleet-verify: many machines by four workers, of which one is killed every ten seconds, and among the machines some that are hostile.

fleet/bench/load.py LIBRARY_DIR [MACHINES] [ENTRIES] [SECONDS] [--cluster] [--quotes]

LIBRARY_DIR has libima_verify.so. There are MACHINES machines (by default 20000), links to a made log, a list of ENTRIES entries (5000) and
the registers that these make; a worker is killed every SECONDS (10). Every fiftieth is followed by a machine whose files are none, never end
or never come (tests/fleet/hostile.py). With --quotes each machine is judged by a quote, by keys of RSA 2048 that are made for it, and every
fiftieth has the quote of another. The workers are those of `--workers`, or with --cluster those of a scheduler, with nannies: processes
of their own, which listen on 127.0.0.1 alone, with the settings by which docs/fleet.md has a scheduler keep little. It ends by itself, after
half an hour at the latest.

It prints how much memory the client and the scheduler, or all workers, have from tenth to tenth of the machines, and at the end what was killed
and what was verified twice. The status is 0 if workers were killed and others took their places, every machine has the verdict that it must
have, and the client wrote no traceback."""

import os
import re
import shutil
import signal
import sys
import tempfile
import time
from collections import Counter
from pathlib import Path

sys.dont_write_bytecode = True  # (beside the programs nothing is written)
sys.path[:0] = [str(Path(__file__).resolve().parents[2] / "tests/fleet")]

from cluster import UNQUOTED, Processes, children_of, environment_of, preloading, python_with_dask, until  # noqa: E402
from hostile import hostile_machines  # noqa: E402
from measure import large_files, make_table, with_folders  # noqa: E402
from quoted import give_quotes  # noqa: E402
from tables import query  # noqa: E402

WORKERS = 4
LOOK_SECONDS = 0.2
MOST_SECONDS = 1800
DEADLINE = 10
NOTES = Path(__file__).resolve().parents[2] / "tests/fleet/noted_calls.py"
PARTS = 10
EACH = 50  # (so many good machines there are for a hostile one)
OF_EXPECTED = "a terminal"  # (the hostile machine of which the expected registers are no file)
SETTINGS = dict(re.findall(r"`(DASK_\w+)=(\w+)`", (Path(__file__).resolve().parents[2] / "docs/fleet.md").read_text()))


def memory(process):
    """How many MiB a process has in memory; 0 if it has ended."""
    try:
        lines = Path(f"/proc/{process}/status").read_text().splitlines()
    except (FileNotFoundError, ProcessLookupError):
        return 0
    return next((int(line.split()[1]) / 1024 for line in lines if line.startswith("VmRSS:")), 0)


class Load:
    """A run under load: which workers were killed, and what memory was taken when. `parents` are the processes whose children are workers, and
    `others`, by their numbers, those whose memory is shown beside the client's; if there are none, the workers' is."""

    def __init__(self, client, parents, others, table, count, seconds):
        self.client, self.parents, self.others, self.table = client, parents, others, table
        self.count, self.seconds, self.kills, self.shown = count, seconds, 0, 0

    def workers(self):
        return [worker for parent in self.parents for worker in children_of(parent)]

    def watch(self):
        """Until the client ends: shows the memory, and kills."""
        start = killed = time.monotonic()
        while self.client.poll() is None:
            time.sleep(LOOK_SECONDS)
            now = time.monotonic()
            self.show(now - start)
            if now - killed > self.seconds:
                self.kill()
                killed = now
            if now - start > MOST_SECONDS:
                self.client.kill()
        return time.monotonic() - start

    def show(self, seconds):
        """Shows the memory when another part of the machines is done."""
        ((done,),) = query(self.table, "SELECT count(*) FROM verdicts") or [(0,)]
        if done * PARTS // self.count > self.shown:
            self.shown = done * PARTS // self.count
            sizes = memory(self.client.pid), sum(map(memory, self.others or self.workers()))
            print(f"| {done:,} | {seconds:.0f} | {sizes[0]:.0f} | {sizes[1]:.0f} | {self.kills} |", flush=True)

    def kill(self):
        """Kills a worker, one after another in turn."""
        workers = self.workers()
        if workers:
            os.kill(workers[self.kills % len(workers)], signal.SIGKILL)
            self.kills += 1


def with_hostile(table, made):
    """The table with hostile machines among its own, and by name the verdict of each machine."""
    lines, wanted = [], {}
    for number, line in enumerate(table.read_text().splitlines(keepends=True)):
        lines.append(line)
        wanted[line.split("\t")[0]] = "match"
        if number % EACH == 0:
            name, home, verdict, _ = made[number // EACH % len(made)]
            lines.append(f"{name} {number}\t{home}\n")
            wanted[f"{name} {number}"] = verdict
    table.write_text("".join(lines))
    return wanted


def give_all_quotes(processes, good, table, verdicts, wanted):
    """Gives the good machines quotes for one run, some of them that of another machine, and all machines of the table keys. Gives the options of
    that run, and changes what is wanted."""
    folders = [line.rstrip("\n").split("\t") for line in good.read_text().splitlines()]
    keys = give_quotes(processes, table, verdicts, Path(folders[0][1]) / "expected.txt", good)
    for (_, home), (name, other) in zip(folders[::EACH], folders[1::EACH]):
        for file in ("quote.msg", "quote.sig"):
            shutil.copy(Path(home, file), other)
        wanted[name] = "refused"
    pem = (keys / f"{folders[0][0]}.pem").read_bytes()
    for name in wanted.keys() - {name for name, _ in folders}:
        (keys / f"{name}.pem").write_bytes(pem)
        if name.startswith(OF_EXPECTED):
            wanted[name] = "refused"  # (it is read no more, and there is no quote)
    return "--keys", keys


def load_workers(processes, words, seconds, count, by):
    """Loads workers of the client's own."""
    client = processes.client("--workers", WORKERS, *words, by=by, **preloading(processes.folder / "noting", NOTES))
    print("| Done | Seconds | Client, MiB | Workers, MiB | Killed |\n|---:|---:|---:|---:|---:|", flush=True)
    load = Load(client, [client.pid], [], words[-1], count, seconds)
    return load, load.watch()


def load_cluster(processes, words, seconds, count, by):
    """Loads a scheduler, and workers with nannies."""
    with processes.cluster("load", WORKERS, "--nanny", "--preload", NOTES, **SETTINGS) as (address, started):
        *nannies, scheduler = [process.pid for process in started]
        until("the workers", lambda: all(map(children_of, nannies)))
        print("| Done | Seconds | Client, MiB | Scheduler, MiB | Killed |\n|---:|---:|---:|---:|---:|", flush=True)
        load = Load(processes.client("--scheduler", address, *words, by=by), nannies, [scheduler], words[-1], count, seconds)
        return load, load.watch()


def run(processes, count, entries, seconds, load_those, is_quoted):
    """Whether a run under load ends as it should."""
    table = with_folders(make_table(processes.folder / "machines", count, large_files(entries), is_linked=True))
    good, verdicts = Path(shutil.copy(table, processes.folder / "good.tsv")), processes.folder / "verdicts.db"
    with hostile_machines(processes.folder / "hostile", processes.folder / "machines/0") as made:
        wanted = with_hostile(table, made)
        by = give_all_quotes(processes, good, table, verdicts, wanted) if is_quoted else UNQUOTED
        load, took = load_those(processes, ("--deadline", DEADLINE, table, verdicts), seconds, len(wanted), by)
    found = dict(query(verdicts, "SELECT machine, verdict FROM verdicts"))
    calls = (processes.folder / "calls").read_text().split()
    ((workers,),) = query(verdicts, "SELECT count(DISTINCT worker) FROM verdicts")
    wrong = sorted(name for name in wanted if found.get(name) != wanted[name])
    twice = len(calls) - list(wanted.values()).count("match")
    print(f"\n{len(wanted):,} machines of {entries:,} entries in {took:.0f} seconds: status {load.client.returncode}, "
          f"{dict(Counter(found.values()))}; {load.kills} workers killed, {workers} workers gave verdicts, {twice} machines were "
          f"verified twice; {len(wrong)} verdicts are not as they must be: {[(name, found.get(name)) for name in wrong[:10]]}")
    said = (processes.folder / "clients").read_text()
    if "Traceback" in said or load.client.returncode != 1:
        print(said[-3000:])
    return load.client.returncode == 1 and not wrong and len(found) == len(wanted) and workers > WORKERS and "Traceback" not in said


def main():
    words = [word for word in sys.argv[1:] if word not in ("--cluster", "--quotes")]
    library = Path(words[0]).resolve()
    count, entries, seconds = (int(word) for word in (*words[1:4], *("20000", "5000", "10")[len(words) - 1 :]))
    load_those = load_cluster if "--cluster" in sys.argv else load_workers
    with tempfile.TemporaryDirectory() as name:
        processes = Processes(python_with_dask(), Path(name), environment_of(library, Path(name)))
        try:
            return 0 if run(processes, count, entries, seconds, load_those, "--quotes" in sys.argv) else 1
        finally:
            processes.end()


if __name__ == "__main__":
    sys.exit(main())
