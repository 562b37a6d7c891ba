#!/usr/bin/env python3
"""Measures how many verdicts a second fleet-verify gives by 1 to 4 workers on this computer, beside plain loops over the same machines.

fleet/bench/measure.py LIBRARY_DIR [SMALL] [LARGE] [ROUNDS]

LIBRARY_DIR has libima_verify.so. There are SMALL machines (by default 12000; with few, the end of a run weighs too much) that are copies of
samples/real-boot, with a list of 99 entries, and LARGE machines (400) with a made list of 20,000 entries, links to one copy. A plain loop is a
process that reads and verifies one machine after another by `ima_verify`, and records nothing. As what else the computer does changes, each round
(there are 3) of a number of workers runs one loop, the fleet, the fleet by quotes (RSA of 2048 bits), and as many loops at once as there are
workers; a row has the round's medians. `start, stop` is what the whole command takes but for the time in which it gives verdicts: before, its
workers are not there yet, as a loop's clock starts once its library is loaded. Every machine must match.

The status is 1 if the fleet has less than 0.7 of so many workers times a loop, or by quotes less than 0.7 of these 0.7."""

import os
import re
import statistics
import subprocess
import sys
import tempfile
import time
from pathlib import Path

sys.dont_write_bytecode = True  # (beside the programs nothing is written)
sys.path[:0] = [str(Path(__file__).resolve().parents[2] / "tests/fleet")]

from cluster import REQUIRE, ROOT, UNQUOTED, Processes, environment_of, python_with_dask  # noqa: E402
from quoted import give_quotes  # noqa: E402

sys.path.append(str(ROOT / "tools/bench"))
import inputs  # noqa: E402
from reference.measurement_list import list_spelling  # noqa: E402
from reference.registers import SHA256  # noqa: E402

FILES = ("firmware.log", "ima.list", "expected.txt")
WORKERS = (1, 2, 3, 4)
ENTRIES = 20_000
SECONDS = 600
# How much of so many workers times a loop the fleet must have, and by quotes.
LEAST, LEAST_BY_QUOTES = 0.7, 0.7 * 0.7
HEAD = (
    "Machines", "Workers", "One loop", "Fleet", "By quotes", "So many loops", "Fleet / (workers × loop)", "Fleet / loops", "By quotes / fleet",
    "Start, stop", "Load",
)

# Reads and verifies the machines of a table in this process alone, and prints the seconds that it took.
LOOP = """
import sys, time, ima_verify
machines, require = sys.argv[1:]
paths = [line.rstrip("\\n").split("\\t")[1:] for line in open(machines)]
ima_verify.version()
start = time.perf_counter()
for log, measurements, expected in paths:
    assert ima_verify.verify(*(open(path, "rb").read() for path in (log, measurements, expected)), require=require)
print(time.perf_counter() - start)
"""


def sample_files():
    return [(ROOT / "samples/real-boot" / file).read_bytes() for file in FILES]


def large_files(count=ENTRIES):
    """A log, a list of many entries, and the registers that they make."""
    log = inputs.made_log([SHA256], 24)
    entries = inputs.made_entries(log, inputs.made_measurements(count - 1))
    return [log.spelling(), list_spelling(entries), inputs.expected_text(inputs.expected_after(log, entries))]


def make_table(folder, count, contents, is_linked):
    """Makes `count` machines with these contents of their files, and their table."""
    lines = []
    for number in range(count):
        home = folder / str(number)
        home.mkdir(parents=True)
        for file, data in zip(FILES, contents):
            if is_linked and number:
                os.link(folder / "0" / file, home / file)
            else:
                (home / file).write_bytes(data)
        lines.append("\t".join([f"machine {number}", *(str(home / file) for file in FILES)]) + "\n")
    table = folder.with_suffix(".tsv")
    table.write_text("".join(lines))
    return table


def with_folders(table):
    """A table of the same machines by their folders."""
    folders = table.with_suffix(".folders.tsv")
    lines = [line.split("\t")[:2] for line in table.read_text().splitlines()]
    folders.write_text("".join(f"{name}\t{Path(log).parent}\n" for name, log in lines))
    return folders


def rate_by_quotes(processes, folders, workers):
    """The verdicts a second of this number of workers by new quotes of the machines, which have their folders in this table."""
    verdicts = processes.folder / f"{time.monotonic_ns()}.db"
    first = folders.read_text().split("\n")[0].split("\t")[1]
    keys = give_quotes(processes, folders, verdicts, Path(first) / "expected.txt")
    return rate_of_fleet(processes, folders, workers, verdicts, ("--keys", str(keys)))[0]


def rate_of_fleet(processes, table, workers, verdicts=None, by=UNQUOTED):
    """The verdicts a second of this number of workers, and what starting and stopping took."""
    verdicts = verdicts or processes.folder / f"{time.monotonic_ns()}.db"
    start = time.perf_counter()
    status, output, errors = processes.verify("--workers", workers, table, verdicts, by=by, seconds=SECONDS)
    seconds = time.perf_counter() - start
    if status != 0:
        raise SystemExit(f"status {status}: {output}{errors}")
    done, rate = re.search(r"(\d+) of \d+ done: .*, ([0-9.]+) a second", errors.splitlines()[-1]).groups()
    return float(rate), seconds - int(done) / float(rate)


def rate_of_loops(processes, table, count, loops):
    """The verdicts a second of so many plain loops at once, of all together."""
    words = [processes.python, "-c", LOOP, table, REQUIRE]
    started = [subprocess.Popen(words, env=processes.environment, stdout=subprocess.PIPE, text=True) for _ in range(loops)]
    return sum(count / float(loop.communicate(timeout=SECONDS)[0]) for loop in started)


def measure(processes, name, count, contents, is_linked, rounds):
    """Prints the rows of these machines, and gives for each whether the fleet is as fast as it must be."""
    table = make_table(processes.folder / name, count, contents, is_linked)
    folders = with_folders(table)
    for workers in WORKERS:
        found = []
        for _ in range(rounds):
            before = rate_of_loops(processes, table, count, 1)
            fleet, rest = rate_of_fleet(processes, table, workers)
            loop = (before + rate_of_loops(processes, table, count, 1)) / 2
            quoted = rate_by_quotes(processes, folders, workers)
            loops = rate_of_loops(processes, table, count, workers)
            ratios = fleet / workers / loop, fleet / loops, quoted / fleet
            found.append((loop, fleet, quoted, loops, *ratios, rest, os.getloadavg()[0]))
        loop, fleet, quoted, loops, *ratios, rest, load = map(statistics.median, zip(*found))
        rates = " | ".join([*(f"{rate:,.0f}" for rate in (loop, fleet, quoted, loops)), *(f"{ratio:.2f}" for ratio in ratios)])
        print(f"| {count:,} of {name} | {workers} | {rates} | {rest:.1f} s | {load:.1f} |", flush=True)
        yield ratios[0] >= LEAST and quoted / workers / loop >= LEAST_BY_QUOTES


def main():
    library = Path(sys.argv[1]).resolve()
    small, large, rounds = (int(word) for word in (*sys.argv[2:5], *("12000", "400", "3")[len(sys.argv) - 2 :]))
    with tempfile.TemporaryDirectory() as name:
        processes = Processes(python_with_dask(), Path(name), environment_of(library, Path(name)))
        print(f"{os.cpu_count()} processors\n\n| {' | '.join(HEAD)} |\n|---{'|---:' * (len(HEAD) - 1)}|")
        try:
            fast = [*measure(processes, "99 entries", small, sample_files(), is_linked=False, rounds=rounds)]
            fast += measure(processes, f"{ENTRIES} entries", large, large_files(), is_linked=True, rounds=rounds)
            return 0 if all(fast) else 1
        finally:
            processes.end()


if __name__ == "__main__":
    sys.exit(main())
