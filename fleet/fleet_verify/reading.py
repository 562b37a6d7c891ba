"""Reads a machine's files on a worker, and tells why one cannot be read."""

import hashlib
import math
import os
import re
import stat
import time
from datetime import datetime, timezone
from functools import partial
from typing import Any, Callable, Dict, List, Optional, Sequence, Tuple

from .wording import LATE, LINK, NOT_REGULAR, printable, words_of

# What is read of a machine, and the files of these in its folder: without a quote, and with one.
PARTS = ("log", "list", "expected")
FILES = ("firmware.log", "ima.list", "expected.txt")
QUOTED_PARTS = ("log", "list", "quote", "signature")
QUOTED_FILES = ("firmware.log", "ima.list", "quote.msg", "quote.sig")
MOST_BYTES = 64 * 1024 * 1024
PIECE = 64 * 1024

# Why a list is not read.
STALE = "stale: list"

Fields = Dict[str, Any]


def now() -> str:
    return datetime.now(timezone.utc).isoformat(timespec="milliseconds")


def paths_of(places: Sequence[str], is_quoted: bool = False) -> Sequence[str]:
    """The paths of what is read of a machine, by its folder or these paths."""
    if len(places) > 1:
        return places
    protocol, mark, folder = places[0].rpartition("://")
    return [f"{protocol}{mark}{folder.rstrip('/')}/{file}" for file in (QUOTED_FILES if is_quoted else FILES)]


def cause_of(fault: BaseException, path: str = "") -> str:
    """An exception in words that SQLite takes and a terminal shows: what a store answers may be hostile. The path is in the machine's row:
    without it, one cause reads the same everywhere."""
    return printable(words_of(fault, partial(without_path, path=path)))


def without_path(text: str, path: str) -> str:
    """A text with `..` in place of a path, however much of it a driver writes: all, what follows a protocol, or the key in a bucket."""
    inner = path.rpartition("::")[2]
    place = inner.rpartition("://")[2]
    bare = place.strip("/")
    for written in (path, inner, place, bare, bare.partition("/")[2]):
        if written.strip("/"):
            text = re.sub(rf"(?<!\w){re.escape(written)}(?!\w)", "..", text)
    return text


def is_young(path: str, max_age: float) -> bool:
    """Whether a file was changed at most so many seconds ago, by the clocks of this computer and of what has the file."""
    seconds = changed_at(path)
    return seconds is not None and abs(time.time() - seconds) <= max_age


def changed_at(path: str) -> Optional[float]:
    """When a file was changed, in seconds since 1970, if that can be had. Of a link it is when that was made."""
    local, place = located(path)
    if local is not None:
        return os.stat(local, follow_symlinks=False).st_mtime
    try:
        changed: datetime = place.fs.modified(place.path)
    except NotImplementedError:
        return None
    return None if changed.tzinfo is None else changed.timestamp()


def located(path: str) -> Tuple[Optional[str], Any]:
    """The path of a local file, or what fsspec has of another."""
    if path.startswith("/"):
        return path, None
    import fsspec
    from fsspec.implementations.local import LocalFileSystem

    place = fsspec.open(path, "rb")
    return place.path if isinstance(place.fs, LocalFileSystem) else None, place


def read_input(path: str, limit: float, start: int = 0) -> Optional[bytes]:
    """The bytes of an input from this one on, but at most one more than are allowed; None if there are fewer before. A local file is read as
    one that the machine sent."""
    local, place = located(path)
    if local is not None:
        return read_file(local, limit, start)
    with place as file:
        if start:
            file.seek(0, os.SEEK_END)
            if file.tell() < start:
                return None
            file.seek(start)
        return read_rest(file.read, MOST_BYTES + 1, limit)


def read_file(path: str, limit: float = math.inf, start: int = 0, *, follow_symlinks: bool = False) -> Optional[bytes]:
    """What `read_input` gives of a local file, which must be a regular one: to open another may take for ever. A machine may send a link to
    any file of this computer; only a file that the operator names may be one.

    (By calls of the system: to make the objects of `open` takes longer than to read a short file. Memory is asked for by the file's size, and
    more only of one that grew, or has none.)"""
    require_regular(os.stat(path, follow_symlinks=follow_symlinks))  # (to open a device may do something)
    flags = os.O_RDONLY | os.O_CLOEXEC | os.O_NONBLOCK | os.O_NOCTTY
    file = os.open(path, flags if follow_symlinks else flags | os.O_NOFOLLOW)
    try:
        about = os.fstat(file)
        require_regular(about)
        rest = about.st_size - start
        if start:
            if rest < 0:
                return None
            os.lseek(file, start, os.SEEK_SET)
        return read_rest(partial(os.read, file), min(max(rest, 0), MOST_BYTES) + 1, limit)
    finally:
        os.close(file)


def require_regular(about: os.stat_result) -> None:
    if not stat.S_ISREG(about.st_mode):
        raise OSError(LINK if stat.S_ISLNK(about.st_mode) else NOT_REGULAR)


def read_rest(read: Callable[[int], bytes], first: int, limit: float) -> bytes:
    """What a file gives, of which one call may read less than it asks for, until it ends; but at most one byte more than is allowed. The
    first call asks for so many bytes, and none comes after this time."""
    pieces = [read(first)]
    left = MOST_BYTES + 1 - len(pieces[0])
    while pieces[-1] and left > 0:
        if time.monotonic() > limit:
            raise TimeoutError(LATE)
        pieces.append(read(min(left, PIECE)))
        left -= len(pieces[-1])
    return b"".join(pieces)


def read_inputs(
    paths: Sequence[str], limit: float, start: int, is_quoted: bool = False, max_age: Optional[float] = None
) -> Tuple[Fields, List[Optional[bytes]]]:
    """What a machine's row says of its inputs, of the list from this byte on, and the bytes of each; or a row that says which is none.

    There is None in place of a list that has fewer bytes before. One that was changed more than so many seconds ago is not read."""
    fields: Fields = {"list_from": start}
    inputs: List[Optional[bytes]] = []
    for part, path in zip(QUOTED_PARTS if is_quoted else PARTS, paths):
        try:
            if part == "list" and max_age is not None and not is_young(path, max_age):
                return {**fields, "verdict": "unreadable", "cause": STALE}, []
            data = read_input(path, limit, start if part == "list" else 0)
        except (MemoryError, ImportError):
            raise
        except Exception as fault:  # whatever the driver of an object store raises
            return {**fields, "verdict": "unreadable", "cause": f"{part}: {cause_of(fault, path)}"}, []
        if data is not None and len(data) > MOST_BYTES:
            return {**fields, "verdict": "refused", "cause": f"refused: too long {part}"}, []
        fields[f"{part}_sha256"] = None if data is None else hashlib.sha256(data).hexdigest()
        inputs.append(data)
    return fields, inputs
