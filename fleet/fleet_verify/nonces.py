"""`fleet-verify nonces`: gives out nonces for quotes, and keeps them in the table of verdicts."""

import argparse
import os
import secrets
import sqlite3
from contextlib import closing, suppress
from datetime import datetime, timedelta
from pathlib import Path
from tempfile import mkstemp
from typing import Dict, List, Sequence

from .ending import NotStarted, complain, telling
from .machines import BadTable, Machine, read_machines
from .opening import BadVerdicts, open_table
from .options import Once, Parser, duration
from .reading import cause_of, now

ABOUT = """Gives out a nonce to each machine in MACHINES, for its next quote.

fleet-verify nonces [OPTION].. MACHINES TABLE

MACHINES lists the machines, and TABLE is the table of verdicts, which is created if it is missing. It keeps each nonce and how long that
is valid. A run with this TABLE accepts a quote of one of these nonces, and each nonce once. A machine keeps a nonce that is unused and
recent enough. Without --folder each machine's name and nonce go to standard output, separated by a tab."""

BYTES = 32
# How many seconds after its nonce was given out a quote may come, unless --max-age says otherwise.
MAX_AGE = 3600.0

# Those that are too old, or from the future, go; but not the last that a machine used, by which its quote is known as an old one.
FORGET = """
DELETE FROM nonces WHERE (julianday(:time) - julianday(given_out)) * 86400 NOT BETWEEN 0 AND max_age
    AND (used IS NULL OR used < (SELECT max(last.used) FROM nonces AS last WHERE last.machine = nonces.machine))
"""
YOUNG = "SELECT machine, nonce FROM nonces WHERE used IS NULL AND max_age = :age AND given_out > :half_ago ORDER BY given_out"


def options_of(words: Sequence[str]) -> argparse.Namespace:
    parser = Parser("fleet-verify nonces", ABOUT)
    parser.add_argument(
        "--folder", metavar="FOLDER", action=Once, help="write each machine's nonce to a file in FOLDER with the machine's name",
    )
    parser.add_argument(
        "--max-age", metavar="AGE", action=Once, type=duration,
        help="how long each nonce is valid, such as 3600, 90m, 1h or 2d; after half that time a new one is given out (default: 1h)",
    )
    parser.add_argument("machines", metavar="MACHINES", help="the list of machines")
    parser.add_argument("table", metavar="TABLE", help="the table of verdicts")
    return parser.parse(words)


def earlier(time: str, seconds: float) -> str:
    """The time that is so many seconds before this one."""
    return (datetime.fromisoformat(time) - timedelta(seconds=seconds)).isoformat(timespec="milliseconds")


def give_out(connection: sqlite3.Connection, machines: Sequence[Machine], max_age: float) -> Dict[str, str]:
    """By name the latest nonce of each machine: one that it has, if it is unused, as long valid and young enough, or a new one."""
    with connection:
        connection.execute("BEGIN IMMEDIATE")
        time = now()
        connection.execute(FORGET, {"time": time})
        kept = dict(connection.execute(YOUNG, {"age": max_age, "half_ago": earlier(time, max_age / 2)}).fetchall())
        given = {machine.name: kept[machine.name] if machine.name in kept else secrets.token_hex(BYTES) for machine in machines}
        new = [(name, nonce, time, max_age) for name, nonce in given.items() if name not in kept]
        connection.executemany("INSERT INTO nonces (machine, nonce, given_out, max_age) VALUES (?, ?, ?, ?)", new)
    return given


def require_files(machines: Sequence[Machine]) -> None:
    """Refuses machines whose names are no names of files."""
    for machine in machines:
        if "/" in machine.name or machine.name in (".", "..") or len(machine.name.encode()) > 255:
            raise NotStarted(f"no file has the name {machine.name!r}")


def write_files(folder: Path, given: Dict[str, str]) -> List[str]:
    """Writes each nonce that its file does not have yet, and tells those that could not be written. A file is whole whenever it is read, and this
    user alone may read it."""
    folder.mkdir(mode=0o700, exist_ok=True)
    faults = []
    for name, nonce in given.items():
        try:
            write_file(folder / name, f"{nonce}\n")
        except OSError as fault:
            faults.append(f"{name}: {cause_of(fault)}")
    return faults


def write_file(path: Path, text: str) -> None:
    if path.is_file() and path.read_text(errors="replace") == text:
        return
    file, new = mkstemp(dir=path.parent, prefix=".")
    try:
        with open(file, "w") as opened:
            opened.write(text)
        os.replace(new, path)
    finally:
        with suppress(FileNotFoundError):
            os.unlink(new)


def hand_out(words: Sequence[str]) -> int:
    """Gives out nonces by these words."""
    options = options_of(words)
    try:
        machines = read_machines(options.machines, is_quoted=True)
    except (OSError, BadTable) as fault:
        told = cause_of(fault) if isinstance(fault, OSError) else fault
        raise NotStarted(f"{options.machines}: {told}") from None
    if options.folder is not None:
        require_files(machines)
    try:
        connection = open_table(options.table)
    except (OSError, sqlite3.Error, BadVerdicts) as fault:
        told = cause_of(fault) if isinstance(fault, OSError) else fault
        raise NotStarted(f"{options.table}: {told}") from None
    with closing(connection):
        given = give_out(connection, machines, options.max_age or MAX_AGE)
    if options.folder is None:
        with telling() as output:
            output.write("".join(f"{name}\t{nonce}\n" for name, nonce in given.items()))
        return 0
    faults = write_files(Path(options.folder), given)
    return complain(f"stopped: {len(faults)} nonces could not be written; the first: {faults[0]}", 3) if faults else 0


def main(words: Sequence[str]) -> int:
    """The exit status of a call with these words."""
    try:
        return hand_out(words)
    except NotStarted as fault:
        return complain(f"refused: {fault}", 2)
    except Exception as fault:
        return complain(f"stopped: {cause_of(fault)}", 3)
