"""What the package raises."""

import enum

_PLACES = {"log": "event", "list": "entry", "replay": "entry", "expected": "line", "known": "line",
           "text_list": "line", "log_form": "event"}


class Kind(str, enum.Enum):
    """What an error of the library is about. Each equals its name: `refused.kind == "log"`."""

    ARGUMENT = "argument"
    LOG = "log"
    LIST = "list"
    REPLAY = "replay"  # (an entry's template digest does not match)
    EXPECTED = "expected"  # (the expected PCRs, or what tpm2-tools printed)
    CHECKPOINT = "checkpoint"  # (a session's state)
    MEMORY = "memory"
    QUOTE = "quote"
    KEY = "key"
    KNOWN = "known"
    SIGNATURE = "signature"  # (also a key by which signatures are not verified here)
    TEXT_LIST = "text_list"  # (what `convert_list` takes)
    LOG_FORM = "log_form"  # (what `convert_log` takes)


class Error(Exception):
    """The base of all errors of this package.

    Attributes:
        text: What is wrong, and what to do. This is also the `str` of the error.
        kind: What the error is about. A kind that only a later library has is its number. None if
            the library does not report the error.
        number: The error's number among those of its kind, by docs/errors.txt; 0 without one.
        place: The number of the event (LOG, LOG_FORM; the header is 0), the entry (LIST, REPLAY;
            from 0) or the line (EXPECTED, TEXT_LIST, KNOWN; from 1, through all texts of known
            files), or None.
    """

    def __init__(
        self, text: str, kind: Kind | int | None = None, number: int = 0, place: int | None = None
    ) -> None:
        super().__init__(text, kind, number, place)
        self.text, self.kind, self.number, self.place = text, kind, number, place

    def __str__(self) -> str:
        return self.text


class Refused(Error):
    """An input is refused. `kind` says which."""

    @property
    def message(self) -> str:
        """The line that `ima-agent` prints, such as `refused: replay fault 1 at entry 5`."""
        word = self.kind.value if isinstance(self.kind, Kind) else str(self.kind)
        place = "" if self.place is None else f" at {_PLACES.get(word, 'place')} {self.place}"
        return f"refused: {word.replace('_', ' ')} fault {self.number}{place}"


class OutOfMemory(Error, MemoryError):
    """The library got no memory."""


class Misuse(Error, ValueError):
    """An argument has no meaning, such as an empty `require`, or a nonce that is too short."""


class LoadError(Error, ImportError):
    """The shared library cannot be used: it is not there, or is another file."""


class VersionError(LoadError):
    """The shared library is of an earlier version than this package needs."""


class LibraryError(Error, RuntimeError):
    """The library's answer is not as its header says, so nothing is known of the inputs."""
