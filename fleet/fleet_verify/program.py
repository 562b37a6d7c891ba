"""Finds and calls the program `ima-agent`, and takes its output as lines of JSON. What it says is not judged here,
but nothing passes for a success that is not whole."""

import json
import os
import shutil
import signal
import subprocess
import tempfile
import threading
import time
from contextlib import ExitStack, contextmanager, suppress
from pathlib import Path
from typing import IO, Any, Callable, Dict, Iterator, List, NamedTuple, Optional, Sequence

from .ending import SIGNALS
from .rendering import text_of_bytes

REFUSED, STOPPED = 2, 3
_MOST_TOLD = 2000
_MOST_BYTES = 16 * 1024 * 1024

Line = Dict[str, Any]


class NoProgram(Exception):
    """The program is not there; the text says what to do."""


class Reply(NamedTuple):
    """What a command gave: its status, the lines that were kept, how many there were, and why it failed, if it did; of which kind that error
    is, if the program names one (docs/errors.txt); and what it wrote to standard error."""

    status: int
    lines: List[Line]
    total: int
    fault: str
    kind: str = ""
    said: str = ""

    @property
    def is_whole(self) -> bool:
        return not self.fault


def search_path() -> str:
    """PATH without the entries that depend on the current folder, such as an empty one: that folder may be a machine's, with programs in it."""
    return os.pathsep.join(folder for folder in os.environ.get("PATH", os.defpath).split(os.pathsep) if os.path.isabs(folder))


def program_of(name: str) -> Path:
    """The program of this name, looked for on `search_path` alone; or with a slash in the name, the file that it names.

    Raises:
        NoProgram: None of these folders has it.
    """
    if "/" in name:
        return Path(name).absolute()
    found = shutil.which(name, path=search_path())
    if found is None:
        raise NoProgram(f"{name} is not on PATH: install it, or name its file with --program")
    return Path(found)


class Output:
    """Lines of output, of which so many are kept, and so many bytes; of the others as many if they are notable. If they are counted, the last line
    is how many entries there are, and none of them."""

    def __init__(self, most: int = 1000, is_notable: Callable[[Line], bool] = lambda line: False, is_counted: bool = False):
        self.lines: List[Line] = []
        self.total, self.fault, self.kind, self.is_notable = 0, "", "", is_notable
        self.is_counted = is_counted
        self.count: Optional[int] = None
        self.left = {False: (most, _MOST_BYTES), True: (most, _MOST_BYTES)}

    def take(self, text: bytes) -> None:
        line = _line(text)
        if "fault" in line:
            self.fault, self.kind = str(line["fault"]["message"]), str(line["fault"].get("kind", ""))
            return
        if self.count is not None:
            self.fault = "a line after the one that counts the entries"
            return
        if self.is_counted and line.keys() == {"entries"} and type(line["entries"]) is int:  # (True equals 1)
            self.count = line["entries"]
            return
        self.total += 1
        if self._has_room(False, len(text)) or (self.is_notable(line) and self._has_room(True, len(text))):
            self.lines.append(line)

    @property
    def lack(self) -> str:
        """Why this is not all output, as what was written, or an empty text."""
        if self.fault or not self.is_counted:
            return self.fault or ("" if self.total else "nothing")
        return "" if self.count == self.total else f"{self.total} entries, and no line that counts them"

    def _has_room(self, is_notable: bool, size: int) -> bool:
        count, room = self.left[is_notable]
        if count < 1 or room < size:
            self.left[is_notable] = (0, 0)
            return False
        self.left[is_notable] = (count - 1, room - size)
        return True


def ask(words: Sequence[str], folder: Path, seconds: float, output: Output, statuses: Sequence[int] = (0,)) -> Reply:
    """The reply of a command that runs in this folder, for so many seconds at most.

    Each of `statuses` says that all output was written: without a line, or with one that is no JSON or a fault, it is not believed."""
    started = time.monotonic()
    with tempfile.TemporaryFile() as told:
        try:
            with _running(words, folder, seconds, told) as process:
                assert process.stdout is not None
                for text in process.stdout:
                    output.take(text)
        except OSError as fault:
            return Reply(STOPPED, [], 0, f"{Path(words[0]).name} cannot be started: {fault.strerror}")
        told.seek(0)
        said = text_of_bytes(told.read(_MOST_TOLD)).strip()
    if process.returncode < 0 and time.monotonic() - started >= seconds:
        return Reply(STOPPED, output.lines, output.total, f"the program did not end within {seconds} seconds")
    return _outcome(process.returncode, statuses, output, said)


@contextmanager
def _running(words: Sequence[str], folder: Path, seconds: float, told: IO[bytes]) -> Iterator["subprocess.Popen[bytes]"]:
    """A process, which is ended with all that it started after so many seconds, or where this is left early, be it as it starts."""
    with ExitStack() as ending:
        with _without_signals():
            process = subprocess.Popen(
                words, cwd=folder, env={**os.environ, "PATH": search_path()}, stdin=subprocess.DEVNULL, stdout=subprocess.PIPE, stderr=told,
                start_new_session=True,
            )
            ending.callback(_end, process)
        watch = threading.Timer(seconds, _kill, [process])
        ending.callback(watch.cancel)
        watch.start()
        yield process
        process.wait()


@contextmanager
def _without_signals() -> Iterator[None]:
    """Has signals that come meanwhile come at the end. (To block them would do so for the process that is started, too.)"""
    came: List[int] = []
    handlers = {number: signal.signal(number, lambda number, _: came.append(number)) for number in SIGNALS}
    try:
        yield
    finally:
        for number, handler in handlers.items():
            signal.signal(number, handler)
    for each in came:
        signal.raise_signal(each)


def _kill(process: "subprocess.Popen[bytes]") -> None:
    with suppress(ProcessLookupError):
        os.killpg(process.pid, signal.SIGKILL)


def _end(process: "subprocess.Popen[bytes]") -> None:
    if process.returncode is None:
        _kill(process)
    process.communicate()


def _line(text: bytes) -> Line:
    """A line of output; what is none is as a fault."""
    try:
        line = json.loads(text)
    except ValueError:
        line = None
    if isinstance(line, dict) and text.endswith(b"\n"):
        return line
    return {"fault": {"message": text_of_bytes(text[:_MOST_TOLD]).strip()}}


def _outcome(status: int, statuses: Sequence[int], output: Output, said: str) -> Reply:
    """What comes of a command that ended with this status, and wrote this to standard error."""
    if status < 0:
        status, kind, fault = STOPPED, "", f"the program was ended by signal {-status}"
    elif status not in statuses:
        kind, fault = output.kind, output.fault or said or f"the program ended with status {status}"
        status = status or STOPPED
    elif output.lack:
        kind, fault = "", f"the program ended with status {status}, and wrote {output.lack}"
        status = STOPPED
    else:
        kind = fault = ""
    return Reply(status, output.lines, output.total, fault, kind, said)
