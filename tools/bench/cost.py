"""Runs a command, and says what it cost, with all that it started: for `check`."""

import os
import subprocess
import threading
import time
from dataclasses import dataclass
from pathlib import Path

SECONDS_BETWEEN_LOOKS = 3


@dataclass(frozen=True)
class Ran:
    """What came of a command: its exit status and the lines of its output; minutes of processor time, and from start to end; and the most
    memory in GB, as looked at every few seconds, where what processes share counts once."""

    status: int
    lines: list
    processor: float
    minutes: float
    memory: float


def children():
    """The processes below each process, by its number."""
    below = {}
    for stat in Path("/proc").glob("[0-9]*/stat"):
        try:
            parent = stat.read_bytes().rpartition(b")")[2].split()[1]
        except OSError:
            continue  # it ended meanwhile
        below.setdefault(int(parent), []).append(int(stat.parent.name))
    return below


def memory_of(process):
    """The memory of a process in KB, with its share of what several map, or 0 if it ended."""
    try:
        lines = Path(f"/proc/{process}/smaps_rollup").read_text().splitlines()
    except OSError:
        return 0
    return sum(int(line.split()[1]) for line in lines if line.startswith("Pss:"))


def memory_below(process):
    """The memory in KB of a process and of all below it."""
    below = children()
    reached = [process]
    for each in reached:
        reached += below.get(each, [])
    return sum(map(memory_of, reached))


def measured(words, show=None):
    """Runs a command, and shows each line of its output as it comes."""
    started, looks, ended = time.monotonic(), [0], threading.Event()
    command = subprocess.Popen(words, stdin=subprocess.DEVNULL, stdout=subprocess.PIPE, stderr=subprocess.STDOUT, text=True, errors="replace")

    def look():
        while not ended.wait(SECONDS_BETWEEN_LOOKS):
            looks.append(memory_below(command.pid))

    watch = threading.Thread(target=look)
    watch.start()
    try:
        lines = []
        for line in command.stdout:
            lines.append(line.rstrip("\n"))
            if show:
                show(lines[-1])
        _, status, used = os.wait4(command.pid, 0)
    finally:
        ended.set()
        watch.join()
    command.returncode = os.waitstatus_to_exitcode(status)
    minutes = (time.monotonic() - started) / 60
    return Ran(command.returncode, lines, (used.ru_utime + used.ru_stime) / 60, minutes, max(looks) / 1e6)
