"""Reports on machines that do not match, beside the page of a fleet: each is the page of `ima-report` on the machine's files as they are now."""

import hashlib
import os
import re
import signal
import sqlite3
import subprocess
import sys
import time
from concurrent.futures import ThreadPoolExecutor
from contextlib import suppress
from dataclasses import dataclass
from pathlib import Path
from tempfile import mkstemp
from typing import Dict, List, NamedTuple, Optional, Sequence
from urllib.parse import quote

from .modules import elsewhere
from .quotes import key_path
from .reading import FILES, QUOTED_FILES

# The verdict of `ima-report`, by its status.
_WORDS = {0: "match", 1: "differ", 2: "refused", 3: "failed", 4: "refused"}
_COMMAND = "import sys; sys.path[:] = filter(None, sys.path); from fleet_verify.report import main; sys.exit(main())"
_AT_ONCE = 4
_END_SECONDS = 3.0
# How much of a machine's name is in the name of its file, beside a digest: that alone tells files apart.
_MOST_NAME, _DIGITS = 40, 24

# What a report needs of a machine: its files, and what it was judged by. Where a file was not there or took too long, or workers died, there is none.
_ROWS = """
SELECT machine, log, list, expected, quote, signature, required, hcrtm, old_kernel, prefix, known_sha256, ifnull(nonce, (
    SELECT nonce FROM nonces WHERE nonces.machine = verdicts.machine AND used IS NULL ORDER BY given_out DESC LIMIT 1
)) FROM verdicts WHERE verdict IN ('differ', 'refused')
"""


class Link(NamedTuple):
    """Where a report is, from the folder of the page, and its verdict."""

    path: str
    word: str


@dataclass(frozen=True)
class Wanted:
    """Which reports are made.

    Attributes:
        folder: Where they are written, which is there.
        keys: The folder of keys, for machines that are judged by a quote.
        known, known_sha256: The files of known digests, and the digest of their texts, as a run has it.
        program: The path of `ima-agent`.
        most: How many are made at most.
        seconds: After how many seconds no other is begun, and those that are not done are given up.
    """

    folder: Path
    keys: Optional[str]
    known: Sequence[str]
    known_sha256: Optional[str]
    program: str
    most: int
    seconds: float


def file_of(machine: str) -> str:
    """The name of a machine's report: whatever the machine's name has, this is a file of one folder, and no other machine's."""
    shown = re.sub("[^A-Za-z0-9_-]", "-", machine)[:_MOST_NAME]
    digest = hashlib.sha256(machine.encode(errors="surrogateescape")).hexdigest()
    return f"{shown}-{digest[:_DIGITS]}.html"


def link_of(folder: Path, file: str) -> str:
    """The address of a report from the current folder, where the page is written. It begins with a dot, and has no character that means something."""
    return quote(f"./{os.path.relpath(folder)}/{file}", safe="/")


class Judged(NamedTuple):
    """What a machine was judged by: its paths, of which those of a quote or of expected PCRs are None; and what the run required."""

    machine: str
    log: str
    list: str
    expected: Optional[str]
    quote: Optional[str]
    signature: Optional[str]
    required: str
    hcrtm: int
    old_kernel: int
    prefix: int
    known_sha256: Optional[str]
    nonce: Optional[str]

    @property
    def folder(self) -> Optional[str]:
        """The local folder that has all its files by the names that a report takes, if there is one."""
        paths = [path for path in (self.log, self.list, self.expected, self.quote, self.signature) if path is not None]
        folder = os.path.dirname(self.log)
        names = FILES if self.quote is None else QUOTED_FILES
        return folder if folder.startswith("/") and paths == [f"{folder.rstrip('/')}/{name}" for name in names] else None


def judged_machines(connection: sqlite3.Connection) -> Dict[str, Judged]:
    """By name the machines of a table that may have a report."""
    return {row[0]: Judged(*row) for row in connection.execute(_ROWS)}


def arguments_of(judged: Judged, wanted: Wanted) -> Optional[List[str]]:
    """The arguments of `ima-report` for a machine, or None if something is lacking: its files are not in one local folder, or its key, its nonce
    or the known files are not there."""
    if judged.folder is None:
        return None
    words = [f"--require={judged.required}", f"--title={judged.machine}", f"--program={wanted.program}", f"--seconds={max(int(wanted.seconds), 1)}"]
    options = ("--hcrtm", judged.hcrtm), ("--old-kernel", judged.old_kernel), ("--prefix", judged.prefix)
    words += [option for option, is_set in options if is_set]
    if judged.quote is not None:
        key = None if wanted.keys is None else key_path(wanted.keys, judged.machine)
        if key is None or judged.nonce is None:
            return None
        words += [f"--key={key}", f"--nonce={judged.nonce}"]
    if judged.known_sha256 is not None:
        if judged.known_sha256 != wanted.known_sha256:
            return None
        words += [f"--known={os.path.abspath(path)}" for path in wanted.known]
    return [*words, "--", judged.folder]


def make_reports(machines: Sequence[Judged], wanted: Wanted) -> Dict[str, Link]:
    """Makes the reports on the first of these machines that can have one, and gives their links."""
    asked: Dict[str, List[str]] = {}
    for judged in machines:
        words = arguments_of(judged, wanted) if len(asked) < wanted.most else None
        if words is not None:
            asked[judged.machine] = words
    limit = time.monotonic() + wanted.seconds

    def made(machine: str) -> Optional[Link]:
        return _make(machine, asked[machine], wanted.folder, limit)

    with ThreadPoolExecutor(max_workers=_AT_ONCE) as pool:
        links = dict(zip(asked, pool.map(made, asked)))
    return {machine: link for machine, link in links.items() if link is not None}


def _make(machine: str, words: Sequence[str], folder: Path, limit: float) -> Optional[Link]:
    """Makes a report until this time. Without one there is no link: an earlier report says nothing of now."""
    left = limit - time.monotonic()
    if left <= 0:
        return None
    try:
        status, page = _reported(words, left)
    except (OSError, ValueError, subprocess.TimeoutExpired):  # (no name or path of a machine keeps the page from being made)
        return None
    if status not in _WORDS or not page.rstrip().endswith(b"</html>"):
        return None
    _write(folder / file_of(machine), page)
    return Link(link_of(folder, file_of(machine)), _WORDS[status])


def _reported(words: Sequence[str], seconds: float) -> "tuple[int, bytes]":
    """The status and the page of a call of `ima-report`, which is ended after so many seconds."""
    environment = {**os.environ, "PYTHONPATH": os.pathsep.join(elsewhere(sys.path))}
    process = subprocess.Popen(
        [sys.executable, "-B", "-c", _COMMAND, *words], env=environment, stdin=subprocess.DEVNULL,
        stdout=subprocess.PIPE, stderr=subprocess.DEVNULL,
    )
    try:
        page, _ = process.communicate(timeout=seconds)
    finally:
        if process.returncode is None:
            _end(process)
    return process.wait(), page


def _end(process: "subprocess.Popen[bytes]") -> None:
    """Ends a report, which then ends what it started; and kills it if need be, without waiting for a file that never comes."""
    for number in (signal.SIGTERM, signal.SIGKILL):
        with suppress(ProcessLookupError):
            process.send_signal(number)
        with suppress(subprocess.TimeoutExpired):
            process.wait(_END_SECONDS)
            return


def _write(path: Path, page: bytes) -> None:
    """Writes a file, which is whole whenever it is read, and takes the place of a link. Who may read it is as for the page."""
    file, new = mkstemp(dir=path.parent, prefix=".")
    try:
        with open(file, "wb") as opened:
            opened.write(page)
            os.fchmod(opened.fileno(), 0o666 & ~_mask())
        os.replace(new, path)
    finally:
        with suppress(FileNotFoundError):
            os.unlink(new)


def _mask() -> int:
    """What a new file of this process may not be read by. (Python has no call that only asks.)"""
    text = Path("/proc/self/status").read_text()
    found = re.search(r"^Umask:\s*([0-7]+)$", text, re.MULTILINE)
    return int(found[1], 8) if found else 0o077
