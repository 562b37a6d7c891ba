"""What differs from an earlier boot, PCR by PCR, side by side. Which events differ the program says; here they are only put in order."""

from itertools import zip_longest
from typing import Any, Dict, Iterator, List, NamedTuple, Optional, Sequence

from .program import Line, Reply

_NO_ACTION = 3  # EV_NO_ACTION, which extends nothing


class Event(NamedTuple):
    """An event of one of the logs: its number, type and digest, what its data claims, and which part of that is confirmed."""

    number: int
    type: str
    digest: str
    claimed: Any
    mark: str


class Pair(NamedTuple):
    """Events side by side, of which one may be missing."""

    before: Optional[Event]
    now: Optional[Event]


class Compared(NamedTuple):
    """A PCR in which the logs differ.

    Attributes:
        register: The PCR.
        bank: In which bank the logs were compared.
        alike: How many of the first events are the same.
        pairs: The events that only one of the logs has; side by side, if they follow the same events.
        moved: The events that both have, by their digest, but in another order, or too late to be compared.
        same: The other events that both have, where all events of both logs are there.
    """

    register: int
    bank: str
    alike: int
    pairs: List[Pair]
    moved: List[Pair]
    same: List[Pair]


class Comparison(NamedTuple):
    """The PCRs that are the same, those that no value confirms, and those that differ."""

    same: List[int]
    unconfirmed: List[int]
    differing: List[Compared]


class _Order(NamedTuple):
    """Of a log's events of one PCR those that are in both logs, and how many of these come before each of the others."""

    common: List[Event]
    places: Dict[int, int]


def compare(lines: Sequence[Line], now: Reply, before: Reply) -> Comparison:
    """What the lines of `ima-agent boot --before` on PCRs say, with the events of both logs."""
    found: Dict[int, List[Line]] = {}
    for line in lines:
        found.setdefault(line["register"], []).append(line)
    heads = {register: each[0].get("alike") for register, each in found.items()}
    return Comparison(
        [register for register, alike in heads.items() if alike == "all"],
        [register for register, alike in heads.items() if alike == "unknown"],
        [_compared(each, now, before) for register, each in found.items() if heads[register] not in ("all", "unknown")],
    )


def _compared(lines: Sequence[Line], now: Reply, before: Reply) -> Compared:
    head, *others = lines
    register, bank = head["register"], str(head.get("bank", ""))
    old, new = _listed(others, "before", before), _listed(others, "now", now)
    moved = [*_moved(old, new)]
    orders = _order(register, bank, old, before), _order(register, bank, new, now)
    old, new = _without(old, [pair.before for pair in moved]), _without(new, [pair.now for pair in moved])
    if orders[0] is None or orders[1] is None or [each.digest for each in orders[0].common] != [each.digest for each in orders[1].common]:
        return Compared(register, bank, head["alike"], [Pair(*each) for each in zip_longest(old, new)], moved, [])
    same = [Pair(*each) for each in zip(orders[0].common, orders[1].common)]
    return Compared(register, bank, head["alike"], [*_aligned(old, new, orders[0].places, orders[1].places)], moved, same)


def _listed(lines: Sequence[Line], when: str, reply: Reply) -> List[Event]:
    """The events of one of the logs that differ."""
    told = {line["event"]: line for line in reply.lines if "event" in line}
    return [_event(told.get(line[when], {}), line[when], line.get("digest"), line.get("claimed")) for line in lines if when in line]


def _event(line: Line, number: int, digest: Any, claimed: Any) -> Event:
    return Event(number, str(line.get("type", line.get("type_number", ""))), str(digest or ""), claimed, str(line.get("confirmed", "none")))


def _without(events: Sequence[Event], others: Sequence[Optional[Event]]) -> List[Event]:
    """The events that are none of these others."""
    numbers = {each.number for each in others if each is not None}
    return [each for each in events if each.number not in numbers]


def _moved(old: Sequence[Event], new: Sequence[Event]) -> Iterator[Pair]:
    """The events of one digest in both, each once."""
    left: Dict[str, List[Event]] = {}
    for each in old:
        left.setdefault(each.digest, []).append(each)
    for each in new:
        if each.digest and left.get(each.digest):
            yield Pair(left[each.digest].pop(0), each)


def _order(register: int, bank: str, differing: Sequence[Event], reply: Reply) -> Optional[_Order]:
    """The order of a PCR's events, if the page has all of them."""
    if not reply.is_whole or reply.total > len(reply.lines):
        return None
    numbers, order = {each.number for each in differing}, _Order([], {})
    for line in reply.lines:
        if line.get("register") == register and "event" in line and line["type_number"] != _NO_ACTION:
            order.places[line["event"]] = len(order.common)
            if line["event"] not in numbers:
                order.common.append(_event(line, line["event"], line["digests"].get(bank), None))
    return order


def _aligned(old: Sequence[Event], new: Sequence[Event], before: Dict[int, int], now: Dict[int, int]) -> Iterator[Pair]:
    """The events side by side that follow as many events that are in both logs."""
    sides: Dict[int, List[List[Event]]] = {}
    for index, (events, places) in enumerate(((old, before), (new, now))):
        for each in events:
            sides.setdefault(places[each.number], [[], []])[index].append(each)
    for place in sorted(sides):
        yield from (Pair(*each) for each in zip_longest(*sides[place]))
