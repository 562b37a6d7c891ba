"""Reads the table of machines: a text in UTF-8, with one machine on each line.

A line has two or more fields, with one tab between. The first is the machine's name; then comes the folder that has its
`firmware.log`, `ima.list`, `quote.msg` and `quote.sig`, or the paths of these four. Without quotes `expected.txt` takes the place of the
last two.

A name has 1 to 255 printable characters, and no space at its front or end. No two lines have the same name. A folder or a path is
absolute on the workers' computers, or a URL as `s3://bucket/key`, and has no control characters. A line feed ends each line; the
last one may lack it. There are no empty lines, no comments, and no other form: the first wrong line refuses the whole table."""

import re
from pathlib import Path
from typing import Dict, List, NamedTuple, Tuple

from .reading import FILES, QUOTED_FILES, paths_of

MOST_CHARACTERS = 255

# (fsspec chains its file systems with `::`)
_PLACE = re.compile(r"(?:/|[a-z][a-z0-9+.-]*(?:::[a-z][a-z0-9+.-]*)*://(?!$))[^\x00-\x1f\x7f-\x9f]*", re.IGNORECASE)


class BadTable(Exception):
    """The table of machines is refused; the text says at which line and why."""


class Machine(NamedTuple):
    """A machine's name, its folder or its paths, and whether it has a quote and not expected registers."""

    name: str
    places: Tuple[str, ...]
    is_quoted: bool = False

    @property
    def paths(self) -> Tuple[str, ...]:
        """The paths of its log, its list, and its expected registers or the message and the signature of its quote."""
        return tuple(paths_of(self.places, self.is_quoted))


def read_machines(path: str, is_quoted: bool = False) -> List[Machine]:
    """The machines that the table names, in its order, all with quotes or none."""
    machines: List[Machine] = []
    numbers: Dict[str, int] = {}
    with open(Path(path), "rb") as file:
        for number, line in enumerate(file, 1):
            try:
                machine = _machine_of(line.decode().removesuffix("\n"), is_quoted)
            except ValueError as fault:
                raise BadTable(f"line {number}: {fault}") from None
            first = numbers.setdefault(machine.name, number)
            if first != number:
                raise BadTable(f"line {number}: line {first} has the same name {machine.name!r}")
            machines.append(machine)
    if not machines:
        raise BadTable("there is no line")
    return machines


def _machine_of(line: str, is_quoted: bool) -> Machine:
    name, *places = line.split("\t")
    paths = len(QUOTED_FILES if is_quoted else FILES)
    if not (1 <= len(name) <= MOST_CHARACTERS and name.isprintable() and name.strip() == name):
        raise ValueError(f"{name[:MOST_CHARACTERS]!r} is no name of a machine")
    if len(places) not in (1, paths):
        raise ValueError(f"{1 + len(places)} fields, and not 2 or {1 + paths}, with a tab between")
    for place in places:
        if not _PLACE.fullmatch(place):
            raise ValueError(f"{place!r} is neither an absolute path nor a URL")
    return Machine(name, tuple(places), is_quoted)
