"""Shows how far a run is, on standard error: a bar on a terminal, else a line from time to time."""

import os
import time
from collections import Counter
from typing import Iterable, Optional, Sequence, TextIO

BAR = 20
BAR_SECONDS = 0.2
COLUMNS = 80  # of a terminal that does not tell


def clock(seconds: float) -> str:
    """A time as `1:02:03`."""
    minutes, seconds = divmod(round(seconds), 60)
    hours, minutes = divmod(minutes, 60)
    return f"{hours}:{minutes:02}:{seconds:02}" if hours else f"{minutes}:{seconds:02}"


class Progress:
    """What is done of `total` machines, those of `verdicts` (by earlier runs) included."""

    def __init__(self, total: int, verdicts: Iterable[str], kinds: Sequence[str], stream: TextIO, seconds: float):
        self.total, self.kinds, self.stream = total, kinds, stream
        self.counts = Counter(verdicts)
        self.is_terminal = stream.isatty()
        self.seconds = BAR_SECONDS if self.is_terminal else seconds
        self.started = self.shown = time.monotonic()
        self.done_now = 0

    def begin(self) -> None:
        """Counts the time from now on: the workers are there."""
        self.started = time.monotonic()

    def count(self, verdict: str, before: Optional[str] = None) -> None:
        """Counts a verdict, in place of the one that the machine had before, if any."""
        self.counts[verdict] += 1
        if before is not None:
            self.counts[before] -= 1
        self.done_now += 1

    def line(self, left: int, workers: int) -> str:
        """The state as a line: `left` machines are still to be done by this run, and `workers` are connected."""
        seconds = time.monotonic() - self.started
        rate = self.done_now / seconds if seconds else 0
        kinds = ", ".join(f"{kind} {self.counts[kind]}" for kind in self.kinds)
        time_left = clock(left / rate) if rate else "unknown"
        done = f"{self.total - left} of {self.total} done"
        return f"{done}: {kinds}; workers {workers}, {rate:.1f} a second, time left {time_left}"

    def show(self, left: int, workers: int, is_last: bool = False) -> None:
        """Shows the state, if it was not shown within the last seconds."""
        now = time.monotonic()
        if now - self.shown < self.seconds and not is_last:
            return
        self.shown = now
        line = self.line(left, workers)
        if self.is_terminal:
            columns = os.get_terminal_size(self.stream.fileno()).columns or COLUMNS
            line = "\r" + (self._bar(left) + line)[: columns - 1] + "\x1b[K"
        end = "" if self.is_terminal and not is_last else "\n"
        print(line, end=end, file=self.stream, flush=True)

    def _bar(self, left: int) -> str:
        full = BAR * (self.total - left) // self.total
        return f"[{'#' * full}{'.' * (BAR - full)}] "
