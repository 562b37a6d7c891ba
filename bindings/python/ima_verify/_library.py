"""Finds the shared library, and calls its raw functions, as ima_verify.h declares them."""

import ctypes
import functools
import os
import sys
from collections.abc import Iterator
from ctypes import POINTER, byref, c_bool, c_char, c_int32, c_size_t, c_uint32, c_uint64, c_void_p
from pathlib import Path
from typing import TYPE_CHECKING, Any, NoReturn, Protocol, TypeAlias

from ._errors import Error, Kind, LibraryError, LoadError, Misuse, OutOfMemory, Refused
from ._errors import VersionError


if TYPE_CHECKING:
    from _typeshed import ReadableBuffer

    Buffer: TypeAlias = ReadableBuffer
else:

    class Buffer(Protocol):
        """Bytes, or what has memory, such as a bytearray or mmap (`collections.abc.Buffer`, which
        Python has from 3.12 on)."""


VERSION = 1
FILE_NAME, SYSTEM_NAME = "libima_verify.so", "libima_verify.so.1"
VARIABLE = "IMA_VERIFY_LIBRARY"

DONE, DIFFERS, REFUSED, OUT_OF_MEMORY, TOO_SHORT, MORE = range(6)

# The kinds of errors, by their numbers; `NO_PLACE` is the place of an error that has none.
NO_ERROR = 0
KINDS = {
    1: Kind.ARGUMENT, 2: Kind.LOG, 3: Kind.LIST, 4: Kind.REPLAY, 5: Kind.EXPECTED,
    6: Kind.CHECKPOINT, 7: Kind.MEMORY, 8: Kind.QUOTE, 9: Kind.KEY, 10: Kind.KNOWN,
    11: Kind.SIGNATURE, 12: Kind.TEXT_LIST, 13: Kind.LOG_FORM,
}
NO_PLACE = c_uint64(-1).value
# By what `boot` and `matching` tell which PCRs match.
BY_EXPECTED, BY_QUOTE = 1, 2
# What `convert` takes.
CONVERT_LIST, CONVERT_LOG = 1, 2

# A report on all 96 PCRs of 4 banks has less, even if all values differ.
REPORT_CAPACITY = 32 * 1024
# Of entries and events so much text comes at once, or one line that is longer.
PIECE_CAPACITY = 64 * 1024
# A checkpoint is shorter.
CHECKPOINT_CAPACITY = 20_000


class ErrorInfo(ctypes.Structure):
    """`struct ima_verify_info`: the size of the text, and the error. A function that sets nothing
    leaves a size that cannot be."""

    _fields_ = [("size", c_size_t), ("error_kind", c_uint32), ("error_number", c_uint32),
                ("error_place", c_uint64)]

    def __init__(self) -> None:
        super().__init__(c_size_t(-1).value, NO_ERROR, 0, NO_PLACE)


# The arguments of each raw function before those of its answer.
_QUOTED = "message key signature nonce nonce_hex require"
_BY = f"by expected list {_QUOTED} allow_sha1 signature_checked"
FUNCTIONS = {name: arguments.split() for name, arguments in {
    "verdict": "log hcrtm old_kernel list expected require known checks_known json numbers",
    "locate": "log hcrtm list expected require json",
    "replay": "list expected require known checks_known json numbers",
    "more": "log hcrtm old_kernel state more expected require known checks_known prefix json "
            "numbers next",
    "attest": f"log hcrtm old_kernel state more {_QUOTED} known checks_known allow_sha1 "
              "signature_checked prefix json numbers next",
    "expected": "printed registers json",
    "registers": "bytes of_list hcrtm json",
    "key": "area endorsement json",
    "matching": f"log hcrtm old_kernel {_BY}",
    "boot": f"log hcrtm old_kernel before compares {_BY} json",
    "events": "log matching matching_given offset number",
    "entries": "list offset number json",
    "convert": "bytes conversion padding",
    "error_text": "error_kind error_number error_place",
}.items()}

# Their types: those of bytes, if they are not among these. No numbers of a verdict are asked for.
_BYTES = c_void_p, c_size_t
_OUTPUT = POINTER(c_char), c_size_t
_FLAGS = ("checks_known", "hcrtm", "old_kernel", "json", "prefix", "allow_sha1",
          "signature_checked", "of_list", "endorsement", "compares", "matching_given")
TYPES: dict[str, tuple[Any, ...]] = {
    **dict.fromkeys(_FLAGS, (c_bool,)), "by": (c_uint32,), "conversion": (c_uint32,),
    "numbers": (POINTER(c_uint64), c_size_t), "next": (*_OUTPUT, POINTER(c_size_t)),
    **dict.fromkeys(("offset", "number", "padding"), (POINTER(c_size_t),)),
    "error_kind": (c_uint32,), "error_number": (c_uint32,), "error_place": (c_uint64,),
}


def types_of(name: str) -> list[Any]:
    """The types of a raw function's arguments."""
    types = [kind for argument in FUNCTIONS[name] for kind in TYPES.get(argument, _BYTES)]
    return [*types, *_OUTPUT, POINTER(ErrorInfo)]


def _file() -> str:
    """The library's file: the one that the environment names by a path, otherwise the one beside
    this module, otherwise the system's. (A name alone might be looked for in any folder.)"""
    named = os.environ.get(VARIABLE)
    if named and os.sep not in named:
        raise LoadError(f"{VARIABLE} is not a path, which has a {os.sep}: {named}")
    if named:
        return os.path.abspath(named)
    beside = Path(__file__).resolve().with_name(FILE_NAME)
    return str(beside) if beside.exists() else SYSTEM_NAME


def load() -> ctypes.CDLL:
    """The library, with the types of its functions, or a LoadError."""
    file = _file()
    try:
        library = ctypes.CDLL(file)
        library.ima_verify_version.argtypes = []
        library.ima_verify_version.restype = c_uint32
        found = library.ima_verify_version()
        if found < VERSION:
            raise VersionError(f"{file} has version {found} of the interface: {VERSION} is needed")
        for name in FUNCTIONS:
            function = getattr(library, f"ima_verify_raw_{name}")
            function.argtypes, function.restype = types_of(name), c_int32
    except (OSError, AttributeError) as error:
        hint = f"is not there, or not the library (name it in {VARIABLE})"
        raise LoadError(f"{file} {hint}: {error}") from error
    return library


@functools.lru_cache(maxsize=None)
def loaded() -> ctypes.CDLL:
    """The library, which the first call loads. After an error the next call tries again."""
    return load()


def call(name: str, capacity: int = REPORT_CAPACITY, **given: Any) -> tuple[int, bytes]:
    """The status and the text of a raw function for these arguments. Others are no bytes, or
    False. A text that is longer than `capacity` gets as much as it needs."""
    status, info, out = _answered(name, given, capacity)
    if info.size > len(out):
        raise LibraryError(f"libima_verify returned {status}, with {info.size} of {len(out)} bytes")
    if status not in (DONE, DIFFERS, MORE) or info.error_kind != NO_ERROR:
        raise _error_of(status, info)
    with memoryview(out) as whole:
        return status, bytes(whole[:info.size])


def _answered(name: str, given: dict[str, Any], size: int) -> tuple[int, ErrorInfo, bytearray]:
    """What a raw function returns, and what it wrote. (This raises no error of the library: a
    traceback would keep the inputs' memory.)"""
    function = getattr(loaded(), f"ima_verify_raw_{name}")
    words = [word for argument in FUNCTIONS[name] for word in _words(argument, given)]
    info, out = ErrorInfo(), bytearray(size)
    status = function(*words, byref(c_char.from_buffer(out)), len(out), byref(info))
    while status == TOO_SHORT and len(out) < info.size <= sys.maxsize:
        out = bytearray(info.size)
        status = function(*words, byref(c_char.from_buffer(out)), len(out), byref(info))
    return status, info, out


def _words(argument: str, given: dict[str, Any]) -> tuple[Any, ...]:
    """What crosses to the library for an argument."""
    if argument == "numbers":
        return byref(c_uint64()), 0
    if argument not in TYPES:
        return _pointer_and_size(given.get(argument, b""))
    value = given.get(argument, False)
    return value if isinstance(value, tuple) else (value,)


def call_more(name: str, **given: Any) -> tuple[int, bytes, bytes]:
    """What `call` gives of the raw function `more` or `attest`, and the next checkpoint, which
    only a match has."""
    state, size = bytearray(CHECKPOINT_CAPACITY), c_size_t(-1)
    following = byref(c_char.from_buffer(state)), len(state), byref(size)
    status, text = call(name, **given, json=True, next=following)
    if status != DONE:
        return status, text, b""
    if not 0 < size.value <= len(state):
        raise LibraryError(f"libima_verify returned a checkpoint of size {size.value}")
    return status, text, bytes(state[:size.value])


def _error_of(status: int, info: ErrorInfo) -> Error:
    """The error that the library reports."""
    kind, number, place = info.error_kind, info.error_number, info.error_place
    word = KINDS.get(kind, kind)
    is_memory = word is Kind.MEMORY
    if kind == NO_ERROR or status != (OUT_OF_MEMORY if is_memory else REFUSED):
        return LibraryError(f"libima_verify returned {status} and error {number} of kind {kind}")
    error = OutOfMemory if is_memory else Misuse if word is Kind.ARGUMENT else Refused
    text = _text_of(kind, number, place)
    return error(text, word, number, None if place == NO_PLACE else place)


def _text_of(kind: int, number: int, place: int) -> str:
    """What the library says of an error; without memory for that, its numbers."""
    given = {"error_kind": kind, "error_number": number, "error_place": place}
    status, info, out = _answered("error_text", given, 1024)
    if status != DONE or info.size > len(out):
        return f"error {number} of kind {kind} (docs/errors.txt)"
    return out[:info.size].decode(errors="replace").rstrip("\n")


def unexpected(status: int, text: bytes) -> NoReturn:
    """Raises the LibraryError for a text that is not as the header says."""
    raise LibraryError(f"libima_verify returned {status} and {len(text)} bytes: {text[:200]!r}")


def lines(name: str, **given: Any) -> Iterator[bytes]:
    """The lines that `entries` or `events` of the library give for an input, which come in pieces.
    Until the end the input's memory stays where it is."""
    for argument in given.keys() - TYPES.keys():
        given[argument] = _pinned(given[argument])
    offset, number, status = c_size_t(0), c_size_t(0), MORE
    while status == MORE:
        position = {"offset": byref(offset), "number": byref(number)}
        status, text = call(name, PIECE_CAPACITY, **given, **position)
        if status == DIFFERS or not text.endswith(b"\n"):
            unexpected(status, text)
        yield from text.splitlines(keepends=True)


def _pinned(data: Buffer) -> bytes | memoryview:
    """These bytes in one piece, to which ctypes gives a pointer, and which stay where they are
    while this is kept.

    They are copied only if they are not in one piece, or if ctypes gives no pointer to them: then
    they are neither writable nor all of a `bytes`."""
    view = memoryview(data)
    if view.c_contiguous and view.nbytes:
        if not view.readonly:
            return view
        if isinstance(view.obj, bytes) and view.nbytes == bytes.__len__(view.obj):
            return view.obj
    return view.tobytes()


def _pointer_and_size(data: Buffer) -> tuple[Any, int]:
    """A pointer to these bytes, which is never null, and their number."""
    pinned = _pinned(data)
    if isinstance(pinned, bytes):
        return pinned, bytes.__len__(pinned)
    return byref(c_char.from_buffer(pinned)), pinned.nbytes
