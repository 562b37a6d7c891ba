"""Goes through the entries of a list, or the events of a log, a piece of the library's text at a
time."""

from collections.abc import Iterator
from typing import TypeVar

from . import _library
from ._answers import read_entry, read_line
from ._errors import LibraryError
from ._inputs import Quote, Text, bound_log, bytes_of, confirming
from ._library import Buffer
from ._results import Entry, Event, Header

_Item = TypeVar("_Item")


class Listing(Iterator[_Item]):
    """What an input has, one item after another.

    A damaged input gives the items before the damage, and then raises `Refused`. A loop that stops
    early does not come to it. Iterating may also raise OutOfMemory, and LibraryError if the
    library's answer is not as its header says. After an error there are no items."""

    def __init__(self, items: Iterator[_Item]) -> None:
        self._items = items

    def __next__(self) -> _Item:
        return next(self._items)


class Entries(Listing[Entry]):
    """The entries of a measurement list."""

    def __init__(self, measurements: Buffer) -> None:
        listed = bytes_of("measurements", measurements)
        super().__init__(_entries_in(_library.lines("entries", list=listed, json=True)))


def _entries_in(lines: Iterator[bytes]) -> Iterator[Entry]:
    """The entries of lines, of which the last says how many there are: without it the answer was
    cut."""
    count = 0
    for entry in map(read_entry, lines):
        if isinstance(entry, int):
            if entry == count and next(lines, None) is None:
                return
            break
        yield entry
        count += 1
    raise LibraryError(f"libima_verify gave {count} entries, and says otherwise")


class Events(Listing[Event]):
    """The events of a firmware event log.

    Attributes:
        header: What the log's header states.
        quote_differs: Whether the verdict by the quote is no match: then nothing is confirmed.
    """

    def __init__(
        self, log: Buffer, *, expected: Text | None = None, quote: Quote | None = None,
        hcrtm: bool = False, old_kernel: bool = False,
    ) -> None:
        given, by = bound_log(log, hcrtm, old_kernel), confirming(expected, quote, old_kernel)
        status, matching = _library.DONE, b""
        if by:
            status, matching = _library.call("matching", **given, **by)
        if status not in (_library.DONE, _library.DIFFERS):
            _library.unexpected(status, matching)
        self.quote_differs = status == _library.DIFFERS
        matched = {"matching": matching, "matching_given": bool(by)}
        lines = _library.lines("events", log=given["log"], **matched)
        self.header = read_line(Header, next(lines))
        super().__init__(read_line(Event, line) for line in lines)
