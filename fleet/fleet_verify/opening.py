"""Opens tables of verdicts. Anybody may have made a file in place of one: it is refused before its views, triggers or rows are used."""

import os
import sqlite3
from contextlib import closing, suppress
from pathlib import Path
from typing import FrozenSet, Tuple

from . import quotes
from .reading import require_regular
from .schema import APPLICATION, FORM, TABLES
from .wording import ABSENT, words_of

# How long the lock of another is waited for.
SECONDS = 60

# The files that SQLite opens for a table.
_ENDINGS = ("", "-journal", "-wal", "-shm")

# Statements on a table that is not looked at yet stop after so many steps of SQLite's machine: those on a good one take some hundreds.
_MOST_STEPS = 100_000
# How a table of verdicts, or of other programs, is told from a new file.
_MARKS = ("PRAGMA application_id", "PRAGMA user_version", "SELECT count(*) FROM sqlite_master")
_SCHEMA = "SELECT type, name, tbl_name, sql FROM sqlite_master LIMIT ?"


class BadVerdicts(Exception):
    """The file is no table of verdicts, or not one that this run may go on with."""


def connected(path: str, mode: str) -> sqlite3.Connection:
    """A connection to this file, which must be a regular one: SQLite would wait for a pipe for ever."""
    place = Path(os.path.realpath(path))
    try:
        for ending in _ENDINGS:
            with suppress(FileNotFoundError):
                require_regular(os.stat(f"{place}{ending}"))
    except OSError as fault:
        raise BadVerdicts(words_of(fault)) from None
    return sqlite3.connect(f"{place.as_uri()}?mode={mode}", uri=True, timeout=SECONDS, check_same_thread=False)


def own_schema() -> FrozenSet[Tuple[str, ...]]:
    """What a table of verdicts has in its schema."""
    with closing(sqlite3.connect(":memory:")) as made:
        made.executescript(f"{TABLES}; {quotes.TABLES}")
        return frozenset(made.execute(_SCHEMA, (-1,)))


def is_new(connection: sqlite3.Connection) -> bool:
    """Whether there is nothing in a file yet. One that is no table of verdicts is refused, after a time that its size bounds: a table has the
    schema of one to the letter, and each page once."""
    connection.execute("BEGIN")
    connection.set_progress_handler(lambda: 1, _MOST_STEPS)
    try:
        if not has_schema(connection):
            return True
    except sqlite3.OperationalError as fault:
        raise BadVerdicts("its schema is too large" if str(fault) == "interrupted" else str(fault)) from None
    finally:
        connection.set_progress_handler(None, 0)
    damage = connection.execute("PRAGMA quick_check(1)").fetchone()[0]
    if damage != "ok":
        raise BadVerdicts(f"it is damaged: {damage}")
    return False


def has_schema(connection: sqlite3.Connection) -> bool:
    """Whether a file has the schema of a table of verdicts, or none. Any other is refused."""
    application, form, tables = (connection.execute(query).fetchone()[0] for query in _MARKS)
    if (application, form, tables) == (0, 0, 0):
        return False
    if application != APPLICATION:
        raise BadVerdicts("it is another file of SQLite, and no table of verdicts")
    if form != FORM:
        raise BadVerdicts("another version of this program made it: take another TABLE")
    schema = own_schema()
    if set(connection.execute(_SCHEMA, (len(schema) + 1,))) != schema:
        raise BadVerdicts("it has other tables, views or triggers than a table of verdicts")
    return True


def open_table(path: str) -> sqlite3.Connection:
    """The table of verdicts in this file, which is made if it is not there."""
    connection = connected(path, "rwc")
    try:
        is_to_be_made = is_new(connection)
        connection.rollback()
        connection.execute("PRAGMA journal_mode = WAL")  # (else who reads the table holds up who writes it)
        if is_to_be_made:
            connection.executescript(f"BEGIN IMMEDIATE; {TABLES}; {quotes.TABLES}; COMMIT")
        connection.execute("PRAGMA foreign_keys = ON")
    except BaseException:
        connection.close()
        raise
    return connection


def open_snapshot(path: str) -> sqlite3.Connection:
    """The table of verdicts in this file as it is at one moment, to be read only."""
    if not os.path.exists(path):
        raise BadVerdicts(f"{ABSENT}: a run, or `fleet-verify nonces`, makes it")
    connection = connected(path, "ro")
    try:
        connection.execute("PRAGMA query_only = ON")
        if is_new(connection):
            raise BadVerdicts("it is empty, and no table of verdicts")
    except BaseException:
        connection.close()
        raise
    return connection
