"""What the verifier has for quotes: the machines' keys, and the nonces that it gave out, each for one verdict."""

import os
import sqlite3
from datetime import datetime
from typing import Optional, Sequence, Tuple

from .machines import Machine
from .reading import Fields, cause_of, read_file
from .verdict import REPORTED

TABLES = """
CREATE TABLE nonces (
    machine TEXT NOT NULL,
    nonce TEXT NOT NULL, -- hexadecimal digits
    given_out TEXT NOT NULL, -- by the clock of the computer that has this table
    max_age REAL NOT NULL, -- how many seconds after that a verdict may use it
    used TEXT, -- when a verdict by it was recorded, or by one that was given out later
    PRIMARY KEY (machine, nonce)
) WITHOUT ROWID;
"""

# How many of its nonces a machine is asked with: those that are unused first, of which few are young enough.
MOST_NONCES = 8
MOST_KEY_BYTES = 16 * 1024
# Where a machine's key may be: its public area, or else its PEM, which does not say what the key may sign. A PEM that was left counts for nothing
# beside an area.
KEY_FILES = ("NAME.pub", "NAME/NAME.pub", "NAME.pem", "NAME/NAME.pem")

# Why an answer by a quote is not recorded as it came.
TOO_OLD = "stale: the nonce of its quote is older than --max-age, or from the future"
NO_LONGER = "stale: another verdict used the nonce of its quote, or it is given out no longer"

_OF_VERDICT = (
    "report", "checkpoint", "events", "locality", "entries", "confirmed", "boot_aggregate", "unknown", "first_unknown", "signer", "nonce", "resets",
    "restarts",
)


def key_of(folder: str, name: str) -> Tuple[Optional[str], Optional[str]]:
    """The key of the machine of this name, by Latin-1, if the folder of keys has it, or why it is not taken: the first that is there of KEY_FILES,
    those in a folder as `ima-enroll` keeps them. No name leads out of the folder."""
    if "/" in name or name in (".", ".."):
        return None, None
    for shown in KEY_FILES:
        path = f"{folder}/{shown.replace('NAME', name)}"
        try:
            text = read_file(path, follow_symlinks=True)
        except (FileNotFoundError, NotADirectoryError):
            continue
        except OSError as fault:
            return None, f"no key: {shown} cannot be read: {cause_of(fault, path)}"
        if text is None or len(text) > MOST_KEY_BYTES:
            return None, f"no key: {shown} has more than {MOST_KEY_BYTES} bytes"
        return text.decode("latin-1"), None
    return None, None


def key_path(folder: str, name: str) -> Optional[str]:
    """Where `key_of` finds the key of the machine of this name, if the folder has it."""
    if "/" in name or name in (".", ".."):
        return None
    paths = (os.path.abspath(f"{folder}/{shown.replace('NAME', name)}") for shown in KEY_FILES)
    return next((path for path in paths if os.path.lexists(path)), None)


def nonces_of(connection: sqlite3.Connection, name: str) -> Tuple[Tuple[str, bool], ...]:
    """The nonces that were given out for a machine, each with whether it is used: the unused ones first, and the latest first."""
    rows = connection.execute(
        "SELECT nonce, used IS NOT NULL FROM nonces WHERE machine = ? ORDER BY used IS NOT NULL, given_out DESC LIMIT ?", (name, MOST_NONCES)
    )
    return tuple((nonce, bool(is_used)) for nonce, is_used in rows)


def take(connection: sqlite3.Connection, answers: Sequence[Tuple[Machine, Fields]], most_age: float, time: str) -> None:
    """Uses the nonces of these answers, at this time, in the transaction that records them. A verdict whose nonce is not to be used any longer,
    by this age or its own, is none: its answer is changed."""
    for machine, answer in answers:
        if answer["verdict"] in REPORTED:
            cause = _take_nonce(connection, machine.name, answer, most_age, time)
            if cause is not None:
                for field in _OF_VERDICT:
                    answer.pop(field, None)
                answer.update(verdict="unreadable", cause=cause)


def _take_nonce(connection: sqlite3.Connection, name: str, answer: Fields, most_age: float, time: str) -> Optional[str]:
    """Uses the nonce of an answer, and those of its machine that were given out before; or says why it is not to be used."""
    unused = connection.execute(
        "SELECT given_out, max_age FROM nonces WHERE machine = ? AND nonce = ? AND used IS NULL", (name, answer.get("nonce"))
    ).fetchone()
    if unused is None:
        return NO_LONGER
    given_out, own_age = unused
    age = (datetime.fromisoformat(time) - datetime.fromisoformat(given_out)).total_seconds()
    if not 0 <= age <= min(most_age, own_age):
        return TOO_OLD
    answer["quote_age"] = age
    connection.execute("UPDATE nonces SET used = ? WHERE machine = ? AND given_out <= ? AND used IS NULL", (time, name, given_out))
    return None
