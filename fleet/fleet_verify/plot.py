"""Lays out a plot of the changes of verdicts, by poll: a bar for each poll, or for several of them where there are many."""

from typing import Dict, Iterable, List, NamedTuple, Sequence, Tuple

from .verdicts import VERDICTS

REBOOT = "reboot"
KINDS = (*VERDICTS, REBOOT)
_MOST_BARS = 60


class Bar(NamedTuple):
    """Polls from one number to another, when the first of them began, and how many changes of each kind they have."""

    first: int
    last: int
    time: str
    counts: Dict[str, int]

    @property
    def total(self) -> int:
        return sum(self.counts.values())


class Piece(NamedTuple):
    """A part of a bar: its kind, and where it is."""

    kind: str
    top: float
    height: float


class Place(NamedTuple):
    """A bar with its place."""

    bar: Bar
    left: float
    width: float
    pieces: Sequence[Piece]


class Plot(NamedTuple):
    """A plot in its own units: its bars, and the lines of its scale with their heights."""

    width: int
    height: int
    left: int
    bottom: int
    bars: Sequence[Place]
    scale: Sequence[Tuple[int, float]]


def bars_of(polls: Sequence[Tuple[int, str]], changes: Iterable[Tuple[int, str, int]]) -> List[Bar]:
    """The bars of these polls, given in order, by the changes of each poll and kind."""
    each = max(-(-len(polls) // _MOST_BARS), 1)
    bars = [
        Bar(polls[start][0], polls[min(start + each, len(polls)) - 1][0], polls[start][1], dict.fromkeys(KINDS, 0))
        for start in range(0, len(polls), each)
    ]
    bar_of = {number: bars[place // each] for place, (number, _) in enumerate(polls)}
    for poll, kind, count in changes:
        if poll in bar_of and kind in KINDS:
            bar_of[poll].counts[kind] += count
    return bars


def plot_of(bars: Sequence[Bar]) -> Plot:
    """The plot of these bars, of which there is one at least."""
    width, height, left, top, bottom = 900, 220, 56, 10, 190
    most = _round_up(max(bar.total for bar in bars))
    unit, step = (bottom - top) / most, (width - left) / len(bars)
    places = [
        Place(bar, round(left + number * step + step * 0.1, 1), round(min(step * 0.8, 40), 1), _pieces(bar, bottom, unit))
        for number, bar in enumerate(bars)
    ]
    marks = sorted({0, most // 2, most})
    return Plot(width, height, left, bottom, places, [(mark, round(bottom - mark * unit, 1)) for mark in marks])


def _pieces(bar: Bar, bottom: float, unit: float) -> List[Piece]:
    """The parts of a bar, one above another."""
    pieces, top = [], bottom
    for kind in KINDS:
        if bar.counts[kind]:
            top -= bar.counts[kind] * unit
            pieces.append(Piece(kind, round(top, 2), round(bar.counts[kind] * unit, 2)))
    return pieces


def _round_up(number: int) -> int:
    """The next of 2, 5, 10, 20, 50, 100 and so on."""
    power = 1
    while True:
        for step in (2, 5, 10):
            if step * power >= number:
                return step * power
        power *= 10
