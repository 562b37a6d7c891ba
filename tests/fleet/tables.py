"""What a table of verdicts has, and the files of machines with an H-CRTM or an older kernel, for the tests."""

import sqlite3
from contextlib import closing

import inputs
from cluster import REQUIRE, SECONDS
from reference.log import STARTUP_LOCALITY, Event
from reference.measurement_list import BOOT_AGGREGATE, IMA_NG, entry_of, list_spelling
from reference.registers import SHA256

EV_EFI_HCRTM_EVENT = 0x80000010


def files_after_hcrtm():
    """The log of a machine whose H-CRTM measured before its firmware, without an event that tells so; its list and its registers."""
    made = inputs.made_log([SHA256], 12)
    events = [Event(0, EV_EFI_HCRTM_EVENT, {SHA256.identifier: SHA256.hash(b"H-CRTM")}, b"HCRTM"), *made.events[1:]]
    told = made._replace(events=[made.events[0]._replace(data=STARTUP_LOCALITY + b"\4"), *events])
    entries = inputs.made_entries(told, inputs.made_measurements(2))
    expected = inputs.expected_text(inputs.expected_after(told, entries)[:11])
    return made._replace(events=events).spelling(), list_spelling(entries), expected


def files_of_an_older_kernel():
    """A log, the list of a kernel before 5.8, whose boot aggregate is over PCRs 0 to 7 alone, and the registers."""
    log = inputs.made_log([SHA256], 12)
    aggregate = entry_of(IMA_NG, SHA256, log.registers().old_boot_aggregate(SHA256), BOOT_AGGREGATE)
    entries = [aggregate, *inputs.made_entries(log, inputs.made_measurements(2))[1:]]
    return log.spelling(), list_spelling(entries), inputs.expected_text(inputs.expected_after(log, entries)[:11])


def noted_calls(file):
    """The calls that workers noted in a file: of each the machine's number and the worker's process."""
    return [(number, int(process)) for number, process in map(str.split, file.read_text().splitlines())] if file.exists() else []


def query(table, text, *values):
    """The answer of SQLite; an empty one, if there is no such table yet."""
    with closing(sqlite3.connect(table, timeout=SECONDS)) as connection:
        try:
            return connection.execute(text, values).fetchall()
        except sqlite3.OperationalError:
            return []


def change(table, text, *values):
    """Changes a table by another hand than that of fleet/verify.py."""
    with closing(sqlite3.connect(table, timeout=SECONDS)) as connection, connection:
        connection.execute(text, values)


def record_beside(table, name, verdict):
    """Records a verdict by another hand."""
    with closing(sqlite3.connect(table, timeout=SECONDS)) as connection, connection:
        connection.execute("BEGIN IMMEDIATE")
        (number,) = connection.execute("SELECT ifnull(max(number), 0) + 1 FROM found").fetchone()
        columns = "number, machine, verdict, required, hcrtm, old_kernel, prefix, log, list, expected"
        connection.execute(f"INSERT INTO found ({columns}) VALUES (?, ?, ?, ?, 0, 0, 0, '', '', '')", (number, name, verdict, REQUIRE))
        connection.execute("INSERT INTO given (number, time) VALUES (?, 'now')", (number,))


def rows_of(table):
    """By name, the verdict, cause, events, entries, boot aggregate, what is told as `extends`, and the registers."""
    registers = {}
    for name, *row in query(table, "SELECT machine, algorithm, register, state, value FROM registers ORDER BY 1, 2, 3"):
        registers.setdefault(name, []).append(tuple(row))
    rows = query(table, "SELECT machine, verdict, cause, events, entries, boot_aggregate, json_extract(report, '$.extends') FROM verdicts")
    return {name: (*row, registers.get(name, [])) for name, *row in rows}


def hashes_of(table):
    rows = query(table, "SELECT machine, log_sha256, list_sha256, expected_sha256 FROM verdicts")
    return {name: hashes for name, *hashes in rows}


def times_of(table):
    return dict(query(table, "SELECT machine, time FROM verdicts"))


def counted(table):
    return len(query(table, "SELECT 1 FROM verdicts"))
