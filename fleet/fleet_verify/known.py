"""The files of `--known`: texts that list known files by their digests."""

import hashlib
from typing import NamedTuple, Sequence, Tuple

from .reading import MOST_BYTES, cause_of, read_file


class BadKnown(Exception):
    """A file of `--known` is refused; the text says why."""


class Known(NamedTuple):
    """Texts of known files, one after another, each with a line feed at its end; and the file of each with how many lines come before it."""

    text: bytes
    starts: Tuple[Tuple[str, int], ...]

    @property
    def sha256(self) -> str:
        """The digest of the texts: with others a machine is judged from the beginning of its list."""
        return hashlib.sha256(self.text).hexdigest()

    def place(self, line: int) -> str:
        """The file and the line in it of a line of all texts, which counts from 1."""
        name, before = next((name, before) for name, before in reversed(self.starts) if before < line)
        return f"{name}: line {line - before}"


def read_known(paths: Sequence[str]) -> Known:
    """The texts of these files, which are read once."""
    text, starts = b"", []
    for path in paths:
        starts.append((path, text.count(b"\n")))
        text += _lines_of(path)
    return Known(text, tuple(starts))


def _lines_of(path: str) -> bytes:
    try:
        text = read_file(path, follow_symlinks=True)
    except OSError as fault:
        raise BadKnown(f"{path}: {cause_of(fault)}") from None
    assert text is not None
    if len(text) > MOST_BYTES:
        raise BadKnown(f"{path}: it has more than {MOST_BYTES} bytes")
    return text if not text or text.endswith(b"\n") else text + b"\n"
