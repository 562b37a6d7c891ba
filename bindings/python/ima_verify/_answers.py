"""Reads the library's lines of JSON. A line that lacks a member, or has one of another type, is a
LibraryError; members and words that this package does not know are not."""

import dataclasses
import functools
import json
import types
import typing
from collections.abc import Callable, Sequence
from typing import Any, TypeVar

from ._library import DIFFERS, DONE, unexpected
from ._results import Attestation, Boot, Entry, Key, ListVerdict, Pcr, Places, Verdict

_Result = TypeVar("_Result")
_Verdict = TypeVar("_Verdict", Verdict, ListVerdict, Attestation)
_Converter = Callable[[Any], Any]
_WRONG = ValueError, KeyError, TypeError, RecursionError

# The members of `Boot` that gather lines, by the member that each of these lines has.
_GATHERED = {
    "image": "images", "command": "commands", "boot_variable": "boot_variables", "alike": "alike",
    "now": "changed", "before": "changed",
}
# What of a boot is confirmed where all lines are claims.
_UNKNOWN = "unknown"
_CLAIMED = {"secure_boot": _UNKNOWN, "firmware_version": _UNKNOWN,
            "ima_policy": {"ima_policy": _UNKNOWN}}


def read_verdict(kind: type[_Verdict], status: int, text: bytes) -> _Verdict:
    """The verdict of a report. Whether it is a match is the library's status alone."""
    try:
        report = _object_in(text)
        _require(status in (DONE, DIFFERS) and (status == DONE) == (report["verdict"] == "match"))
        return _made(kind, report, matches=status == DONE, json=_line(text))
    except _WRONG:
        unexpected(status, text)


def read_places(status: int, text: bytes) -> Places:
    """The places of an answer to `locate`."""
    try:
        places = _made(Places, _object_in(text), json=_line(text))
        _require(status in (DONE, DIFFERS) and places.located == (status == DONE))
        return places
    except _WRONG:
        unexpected(status, text)


def read_boot(status: int, text: bytes) -> Boot:
    """What was booted, by lines of several kinds. Of a kind that is not known a line is ignored."""
    try:
        _require(status in (DONE, DIFFERS) and text.endswith(b"\n"))
        found: dict[str, Any] = {name: [] for name in (*_GATHERED.values(), "claimed")}
        for line in text.splitlines(keepends=True):
            members = _object_in(line)
            for name in members.keys() & _GATHERED.keys():
                found[_GATHERED[name]].append(members)
            for name in members.keys() & {"secure_boot", "firmware_version"}:
                found[name] = members[name]
            if "ima_policy" in members:
                found["ima_policy"] = members
            if members.get("claimed") == "all":
                found.update(_CLAIMED)
            elif members.keys() & {"image", "command", "register", "claimed"} == {"claimed"}:
                found["claimed"].append(members["claimed"])
        return _made(Boot, found, quote_differs=status == DIFFERS, json=_line(text))
    except _WRONG:
        unexpected(status, text)


def read_pcrs(status: int, text: bytes) -> tuple[Pcr, ...]:
    """The PCRs of an answer."""
    try:
        _require(status == DONE)
        return tuple(_made(Pcr, row) for row in _list(_object_in(text)["registers"]))
    except _WRONG:
        unexpected(status, text)


def read_key(status: int, text: bytes) -> Key:
    """The key of an answer."""
    if status != DONE:
        unexpected(status, text)
    return read_line(Key, text)


def read_line(kind: type[_Result], line: bytes) -> _Result:
    """The result of a line that is all of an answer, or one of a listing."""
    try:
        return _made(kind, _object_in(line), json=_line(line))
    except _WRONG:
        unexpected(DONE, line)


def read_entry(line: bytes) -> Entry | int:
    """The entry of a line; or from the line after all entries, how many there are."""
    try:
        members = _object_in(line)
        if "entry" in members:
            return _made(Entry, members, json=_line(line))
        return int(_exactly(int)(members["entries"]))
    except _WRONG:
        unexpected(DONE, line)


def _line(text: bytes) -> str:
    return text[:-1].decode()


def _object_in(text: bytes) -> dict[str, Any]:
    """The object of a text that is one line."""
    _require(text.find(b"\n") == len(text) - 1)
    value: dict[str, Any] = _dict(json.loads(text.decode()))
    return value


def _made(kind: type[_Result], value: Any, **given: Any) -> _Result:
    """A result with the members of an object, and what is given besides. What is absent has the
    default of its field; a field without one has to be there."""
    members, of_kind = _dict(value), typing.cast(Any, kind)
    for name, convert in _converters(of_kind).items():
        if name in members and name not in given:
            given[name] = convert(members[name])
    return kind(**given)


@functools.lru_cache(maxsize=None)
def _converters(kind: type[Any]) -> dict[str, _Converter]:
    """For each field of a result, what makes its value of a member of JSON."""
    hints = typing.get_type_hints(kind)
    return {field.name: _converter(hints[field.name]) for field in dataclasses.fields(kind)}


def _converter(hint: Any) -> _Converter:
    """What makes a value of this type, or raises a ValueError or a TypeError."""
    origin, arguments = typing.get_origin(hint), typing.get_args(hint)
    if origin is types.UnionType:  # (null is no value of a type or None)
        return _one_of([_converter(kind) for kind in arguments if kind is not types.NoneType])
    if origin is tuple:
        item = _converter(arguments[0])
        return lambda value: tuple([item(each) for each in _list(value)])
    if origin is dict:
        return functools.partial(_members, arguments[1])
    if dataclasses.is_dataclass(hint):
        return functools.partial(_made, hint)
    if hint is bytes:
        return bytes.fromhex
    return (lambda value: value) if hint is Any else _exactly(hint)


def _members(kind: Any, value: Any) -> dict[str, Any]:
    """The members of an object by their names. (If they are words or bytes, one that is no string
    is of a later library.)"""
    convert, members = _converter(kind), _dict(value).items()
    return {name: convert(each) for name, each in members if kind is Any or isinstance(each, str)}


def _one_of(converters: Sequence[_Converter]) -> _Converter:
    """What makes a value of the first type that takes it."""
    *others, last = converters

    def convert(value: Any) -> Any:
        for converter in others:
            try:
                return converter(value)
            except (ValueError, TypeError):
                pass
        return last(value)

    return convert


def _exactly(kind: type) -> _Converter:
    """What takes a value of this type alone. (In Python true is an int, too.)"""

    def convert(value: Any) -> Any:
        if type(value) is not kind:
            raise TypeError(value)
        return value

    return convert


_list, _dict = _exactly(list), _exactly(dict)


def _require(condition: bool) -> None:
    if not condition:
        raise ValueError
