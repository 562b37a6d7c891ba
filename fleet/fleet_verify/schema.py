"""The form of a table of verdicts: its tables and views, in SQLite."""

VERDICTS = ("match", "differ", "refused", "unreadable", "failed")
# What a report says of a boot aggregate with which a verdict may be match.
GOOD_AGGREGATES = ("good", "old_kernel")

# These mark a file as a table of verdicts, and say which form its tables have: a file whose schema differs by a letter is refused, and so any
# change below, be it of a comment, has another form.
APPLICATION = 0x494D4156
FORM = 11

# What of a machine's row stays as it is while a poll finds the same, and what each verdict writes.
FOUND = (
    "verdict", "cause", "reason", "required", "hcrtm", "old_kernel", "prefix", "known_sha256", "events", "locality", "entries", "confirmed",
    "boot_aggregate", "unknown", "first_unknown", "log", "list", "expected", "quote", "signature", "log_sha256", "expected_sha256", "signer", "resets",
    "restarts", "interface_version", "report", "boot",
)
GIVEN = (
    "poll", "time", "matched", "worker", "list_from", "list_sha256", "quote_sha256", "signature_sha256", "nonce", "quote_age", "clock",
)

# In place of the clock of a quote, which is another in each report.
NO_CLOCK = '"clock":{}'

TABLES = f"""
CREATE TABLE polls ( -- when each poll began, by the clock of the computer that has this table
    number INTEGER PRIMARY KEY, time TEXT NOT NULL
);
CREATE TABLE ends ( -- when a run, or which poll, had given its counts
    time TEXT NOT NULL, poll INTEGER REFERENCES polls
);
CREATE TABLE found (
    number INTEGER PRIMARY KEY REFERENCES given DEFERRABLE INITIALLY DEFERRED,
    machine TEXT NOT NULL UNIQUE,
    verdict TEXT NOT NULL CHECK (verdict IN {VERDICTS}),
    cause TEXT, -- the line of a refusal, or why there is no verdict, for programs
    reason TEXT, -- what is wrong, where, and what to do, for people; NULL for a match
    required TEXT NOT NULL, -- as `--require` named it
    hcrtm INTEGER NOT NULL, -- 1 with `--hcrtm`, else 0
    old_kernel INTEGER NOT NULL, -- 1 with `--old-kernel`, else 0
    prefix INTEGER NOT NULL, -- 1 with `--prefix`, else 0
    known_sha256 TEXT, -- of the texts of `--known`, one after another; NULL without
    events INTEGER, locality INTEGER, entries INTEGER, boot_aggregate TEXT, -- what the report says
    confirmed INTEGER, -- with `--prefix`: how many first entries the verdict covers; nothing confirms those that follow
    unknown INTEGER, first_unknown INTEGER, -- how many entries are of no known file, and the number of the first
    log TEXT NOT NULL, list TEXT NOT NULL, expected TEXT, quote TEXT, signature TEXT, -- the paths
    log_sha256 TEXT, expected_sha256 TEXT, -- of the bytes that were read
    signer TEXT, -- SHA-256 of the key of a quote (SubjectPublicKeyInfo)
    resets INTEGER, restarts INTEGER, -- of the TPM, by its quote
    interface_version INTEGER, -- of the library
    report TEXT CHECK (report IS NULL OR json_valid(report)), -- as the program prints it, but for a quote's clock
    boot TEXT -- by what the machine's last boot that came to a report is told from another
);
CREATE TABLE given (
    number INTEGER PRIMARY KEY REFERENCES found,
    poll INTEGER REFERENCES polls, -- which poll gave the verdict; NULL if none did
    time TEXT NOT NULL, worker TEXT, -- when the verdict was given, and by whom
    matched TEXT, -- when the machine's last match was given
    list_from INTEGER, -- from which byte on the list was read: that of the checkpoint, or 0
    list_sha256 TEXT, quote_sha256 TEXT, signature_sha256 TEXT, -- of the bytes that were read
    nonce TEXT, quote_age REAL, -- of a quote: its nonce, and how old that was in seconds
    clock TEXT -- of a quote, as the report has it
);
CREATE VIEW verdicts AS SELECT -- a row for each machine; its columns are those of `found` and `given`
    machine, verdict, cause, reason, required, hcrtm, old_kernel, prefix, known_sha256, unknown, first_unknown, events, locality, entries, confirmed,
    boot_aggregate,
    CASE WHEN clock IS NULL THEN report ELSE replace(report, '{NO_CLOCK}', '"clock":' || clock) END AS report,
    log, list, expected, quote, signature, log_sha256, list_sha256, expected_sha256, quote_sha256, signature_sha256, list_from,
    signer, resets, restarts, nonce, quote_age, interface_version, worker, time, matched, poll
    FROM found JOIN given USING (number);
CREATE VIEW registers (machine, algorithm, register, expected, state, value) AS SELECT
    -- the states are match, differ, absent and missing; the value is what log and list make instead of the expected one
    machine, json_extract(row.value, '$.bank'), json_extract(row.value, '$.register'), json_extract(row.value, '$.expected'),
    json_extract(row.value, '$.state'), json_extract(row.value, '$.value') FROM found, json_each(report, '$.registers') AS row;
CREATE VIEW reasons (verdict, why, machines, reason) AS SELECT -- (the numbers of entries, events and lines do not tell reasons apart)
    verdict, CASE WHEN place IS NULL THEN cause ELSE rtrim(cause, '0123456789') END, count(*), CASE WHEN place IS NULL THEN reason ELSE
    replace(replace(replace(reason, ' at event' || place, ':'), ' at entry' || place, ':'), ' at line' || place, ':') END
    FROM (
        SELECT *, CASE WHEN cause LIKE '% fault % at %' THEN ' ' || substr(cause, length(rtrim(cause, '0123456789')) + 1) || ':' END AS place
        FROM found
    ) GROUP BY 1, 2, 4;
CREATE VIEW prefixes AS SELECT -- matches that do not cover all of their lists: nothing confirms what follows, be it entries or bytes that are none
    machine, confirmed, entries, entries - confirmed AS unconfirmed FROM found
    WHERE verdict = 'match' AND (confirmed < entries OR confirmed IS NOT NULL AND instr(report, '"unconfirmed":') > 0);
CREATE VIEW differences AS SELECT -- of machines that differ: the registers that do not match, and which event or entry extends one that it may not
    machine, boot_aggregate, json_extract(report, '$.extends') AS extends, algorithm, register, expected_value AS expected, state, value
    FROM found LEFT JOIN (
        SELECT machine, algorithm, register, expected AS expected_value, state, value FROM registers WHERE state <> 'match'
    ) USING (machine) WHERE verdict = 'differ';
CREATE TABLE checkpoints (
    machine TEXT NOT NULL PRIMARY KEY REFERENCES found(machine),
    checkpoint BLOB NOT NULL,
    known_sha256 TEXT -- by which known files its entries were judged, as in `found`
);
CREATE TABLE changes ( -- by polls
    number INTEGER PRIMARY KEY,
    machine TEXT NOT NULL,
    poll INTEGER NOT NULL REFERENCES polls,
    kind TEXT NOT NULL CHECK (kind IN ('verdict', 'reboot')), -- what is not as it was before
    verdict TEXT NOT NULL,
    cause TEXT, -- of the verdict, or by what the boot is told from another
    time TEXT NOT NULL
);
CREATE TABLE retired ( -- the last rows of machines that left or moved, and since when; its other columns are those of `verdicts`
    retired, machine, verdict, cause, reason, required, hcrtm, old_kernel, prefix, known_sha256, unknown, first_unknown, events, locality, entries,
    confirmed, boot_aggregate, report, log, list, expected, quote, signature, log_sha256, list_sha256, expected_sha256, quote_sha256,
    signature_sha256, list_from,
    signer, resets, restarts, nonce, quote_age, interface_version, worker, time, matched, poll
);
PRAGMA application_id = {APPLICATION};
PRAGMA user_version = {FORM};
"""
