"""What a person may do next (docs/cli.md, 'On standard error'): after an answer that something differs, or a match with which nothing was compared,
and of a refused input that is another."""

import json
import os
import re
import stat
from typing import NamedTuple

from .command_line import HelpAsked, VersionAsked, read_words
from .faults import Fault
from .measurement_list import IMA_REGISTER, read_prefix, stated_boot_aggregate, told_boot_aggregate
from .program import (
    MOST_BYTES,
    Inputs,
    judged_prefix,
    known_by,
    list_of,
    read_boot,
    replayed,
    report_by_quote,
    required_by,
    unknown_up_to,
)
from .known_files import unknown_entries
from .log import read_log
from .log_forms import log_of
from .registers import BY_NAME, SHA1
from .texts import read_expected
from .verdict import list_report, places, prefix_that_matches, rule_beside, strays_in

MOST_LINES = 3
HEAD = 4096

OTHER_BOOT = "LOG is from another boot or was changed; ima-agent events --explain --expected shows its events"
APART = "log and list cannot be told apart"
AGGREGATES = {
    "wrong": "the boot aggregate does not match LOG: log and list are from different boots, or one of them was changed",
    "nobank": "LOG has no bank for the boot aggregate, so nothing shows that log and list are from the same boot",
    "missing": "entry 0 is not a boot aggregate: the list lacks its beginning, has another template, or was changed; with --require, the boot "
               "aggregate may also have the template ima-ngv2, ima-sigv2 or ima-modsig",
}
OLD_AGGREGATE = ("the boot aggregate covers only PCRs 0 to 7, as some kernels before 5.8 record it: it does not bind PCRs 8 and 9 to the list; "
                 "with --require, --old-kernel accepts it")
OLD_REGISTERS = range(8)
NO_ENTRIES = "LIST is empty: copy the kernel's list with cat, since the kernel reports its size as 0"
NO_EXPECTED = "EXPECTED has no PCR, so no PCR was compared: give the values read with LIST"
NOT_GIVEN = "add EXPECTED, the values read with the quote: its rows show which PCR differs"
UNCONFIRMED = "EXPECTED is not what the TPM signed: give the values read with the quote"
BY_HCRTM = "LOG has an H-CRTM event, which means that PCR 0 started at 4: add --hcrtm, with which less differs"
ONLY_SHA1 = ("PCR {} is required only in the SHA-1 bank: anyone who can make collisions can make another log or list with its value; require another "
             "bank too, if there is one")
PADDED = "a kernel before 5.8 extended it with zero-padded SHA-1 digests, or "

# A report without rows, as text.
BARE_MATCH = re.compile(rb"(?:events \d+ locality \d+\n)?entries \d+\n(?:boot_aggregate good\n)?verdict match\n|match: 0 of 0 PCRs agree, [^\n]*\n")

EMPTY = "it is empty: copy the kernel's files with cat, since the kernel reports their size as 0"
NOTHING_PRINTED = "it is empty: the tool printed nothing"
LIST_FOR_LOG = "it is a measurement list, not a firmware event log"
OLD_LOG = ("it is in the SHA-1 form of TPM 1.2: ima-agent log converts it to a LOG with only the SHA-1 bank, which stops nobody who can make "
           "collisions")
LOG_FOR_LIST = "it is a firmware event log, not a measurement list"
TEXT_FOR_LIST = "it is the list as text: give binary_runtime_measurements, which is beside it, or convert the text with ima-agent list"
LIST_FOR_TEXT = "it is the binary list, which needs no conversion: give it to the other commands"
PRINTED_FOR_EXPECTED = "it is tpm2-tools output: convert it to EXPECTED with ima-agent expected"
EXPECTED_FOR_PRINTED = "it is EXPECTED already: give it to ima-agent verify as it is"
CAPITALS = "its banks are in capital letters: write sha256, not SHA256"
PEM_FOR_AREA = "it is PEM text: give the public area as tpm2_createak -u writes it, or this text to attest --key"
BANKS = tuple(f"{name} ".encode() for name in BY_NAME)
PRINTED = (b"  sha", b"  sm3", b"pcrs:", b"sha1:", b"sha256:", b"sha384:", b"sha512:")


class Seen(NamedTuple):
    """What a second look finds: how many entries were judged, the states of expected registers, those that are missing, what extends a register
    that is not its own, the first entry that is not known, how the boot aggregate compares, and what came of the values beside a quote."""

    entries: int | None
    rows: list
    missing: list
    strays: list = []
    unknown: int | None = None
    aggregate: str | None = None
    beside: str | None = None
    is_bare: bool = False
    is_old: bool = False

    def first(self, words, of_list=None):
        """The first expected register in one of these states, of the list or of the log alone."""
        for row, state in self.rows:
            if state[0] in words and of_list in (None, row.register == IMA_REGISTER):
                return row
        return None


def first_of(unknown):
    return unknown.numbers[0] if unknown and unknown.numbers else None


def records_old(inputs, log, listed):
    """Whether the first entry of the list, or of what follows a checkpoint, records the hash of PCRs 0 to 7 after the log."""
    entries, registers = read_prefix(inputs.load(listed), 0)[0], log.registers()
    stated = stated_boot_aggregate(entries) or told_boot_aggregate(entries)
    if stated is None or stated[0] not in registers.banks:
        return False
    algorithm, digest = stated
    return digest == algorithm.hash(b"".join(registers.value(algorithm, register) for register in OLD_REGISTERS))


def load_log(inputs, values, log):
    """The bytes that are replayed of a log."""
    return replayed(values, inputs.load(log))


def seen_by_verify(inputs, values, log, listed, expected):
    required = required_by(values)
    log, expected = load_log(inputs, values, log), read_expected(inputs.load(expected))
    log, known, start, entries, fault = read_boot(inputs, values, log, listed)
    rule = rule_beside(required, values["--old-kernel"])
    prefix = prefix_that_matches(log, start, entries, expected, required, rule) if values["--prefix"] else None
    end, report = judged_prefix(log, start, entries, fault, prefix, expected, required, rule)
    report = report.looked_at(unknown_up_to(end, known, start, entries))
    seen = Seen(end.entries, report.rows, report.missing or [], strays_in(log.events, end.stray), first_of(report.unknown),
                report.counts["boot_aggregate"], is_bare=not expected, is_old=records_old(inputs, log, listed))
    return seen, report


def seen_by_attest(inputs, values, log, listed, message, expected=None):
    told = report_by_quote(inputs, values, lambda: load_log(inputs, values, log), listed, message, expected)
    beside = None if told.is_quoted else {None: "not given", True: "confirmed", False: "unconfirmed"}[told.is_confirmed]
    report, is_old = told.report, records_old(inputs, read_log(load_log(inputs, values, log)), listed)
    seen = Seen(told.end.entries, report.rows, [], report.strays, first_of(report.unknown), report.counts["boot_aggregate"], beside, is_old=is_old)
    return seen, report


def seen_by_locate(inputs, values, log, listed, expected):
    required, log = required_by(values), load_log(inputs, values, log)
    expected, read = read_expected(inputs.load(expected)), inputs.opened(listed)
    told = places(read_log(log), list_of(*read()), expected, required)
    return Seen(None, told.rows, told.missing, is_bare=not expected), None


def seen_by_replay(inputs, values, listed, expected):
    required, expected = required_by(values), read_expected(inputs.load(expected))
    known, entries = known_by(inputs, values), list_of(*inputs.opened(listed)())
    report = list_report(entries, expected, required or set())
    return Seen(len(entries), report.rows, report.missing, report.strays, first_of(unknown_entries(known, entries, 0)), is_bare=not expected), report


SEEN_BY = {"verify": seen_by_verify, "attest": seen_by_attest, "locate": seen_by_locate, "replay": seen_by_replay}


def grown(inputs, asked):
    """Of how many entries of how many the values are, if all is well with a prefix of a list that was judged as a whole; or None."""
    if asked.command not in ("verify", "attest") or asked.values["--prefix"]:
        return None
    try:
        _, report = SEEN_BY[asked.command](inputs, {**asked.values, "--prefix": True, "--known": []}, *asked.names)
    except Fault:
        return None
    return (report.counts["confirmed"], report.counts["entries"]) if report.matches and "confirmed" in report.counts else None


def differs_less(before, after, command):
    """Whether a cause that is of where the machine started is gone: a register of the log, the quote, or the boot aggregate."""
    differs = ("nowhere",) if command == "locate" else ("differ",)
    return any(was and not now for was, now in (
        (before.first(differs, False), after.first(differs, False)),
        (before.beside, after.beside),
        (before.aggregate == "wrong", after.aggregate == "wrong"),
    ))


def is_by_hcrtm(inputs, asked, seen):
    """Whether less differs where the H-CRTM's event of the log tells where the machine started."""
    if asked.values.get("--hcrtm", True):
        return False
    try:
        told, _ = SEEN_BY[asked.command](inputs, {**asked.values, "--hcrtm": True, "--known": []}, *asked.names)
    except Fault:
        return False
    return differs_less(seen, told, asked.command)


def lines_on(command, seen, counts):
    """What to do about what was seen, where these are the counts of a list that grew, or None."""
    differs = ("nowhere",) if command == "locate" else ("differ",)
    of_list = seen.first(differs, True)
    if counts and not seen.strays and (of_list or seen.beside):
        confirmed, entries = counts
        yield (f"PCR 10 covers the first {confirmed} of {entries} entries: the list grew after PCR 10 was read; collect again, or add --prefix to "
               f"judge only the first {confirmed}")
    elif seen.entries == 0:
        yield NO_ENTRIES
    elif seen.aggregate == "wrong" and seen.is_old:
        yield OLD_AGGREGATE
    elif seen.aggregate in AGGREGATES:
        yield AGGREGATES[seen.aggregate]
    elif of_list:
        older = "" if of_list.algorithm is SHA1 else PADDED
        again = "read it and LIST again at the same time; if it still differs, "
        yield f"{of_list.algorithm.name} PCR 10 differs: {again}{older}an entry is missing or was changed"
    if seen.beside == "unconfirmed" or seen.beside == "not given" and not counts:
        yield UNCONFIRMED if seen.beside == "unconfirmed" else NOT_GIVEN
    for word, number, register in seen.strays:
        if word == "event":
            yield f"event {number} extends PCR 10, which only the list should: {APART}"
        elif command == "replay":
            yield (f"entry {number} extends PCR {register}, as a policy rule with pcr= requests; replay accepts only lists whose entries all extend "
                   "PCR 10")
        else:
            yield f"entry {number} extends PCR {register}, which only the log should: {APART}"
    if row := seen.first(differs, False):
        place = f"{row.algorithm.name} PCR {row.register}"
        if command == "replay":
            yield f"{place} differs: replay reads no log; ima-agent verify does"
        else:
            yield f"{place} {'never has the expected value' if command == 'locate' else 'differs'}: {OTHER_BOOT}"
    if seen.missing:
        algorithm, register = seen.missing[0]
        yield f"EXPECTED lacks {algorithm.name} PCR {register}: read it with the others"
    elif seen.is_bare:
        yield NO_EXPECTED
    if row := seen.first(("absent",)):
        yield f"{row.algorithm.name} is not a bank of LOG, so its PCRs cannot be judged: LOG is from another machine or was changed"
    if seen.unknown is not None:
        yield (f"entry {seen.unknown} is the first that matches no known digest: ima-agent show names its file; compare that with the file in "
               "its package")


def next_steps(words, folder, standard_input=b"", has_prefix=True):
    """The lines for words whose answer is that something differs; where a prefix of the list cannot be judged, without `has_prefix`."""
    asked, inputs = read_words(words), Inputs(folder, standard_input, MOST_BYTES)
    try:
        seen, _ = SEEN_BY[asked.command](inputs, asked.values, *asked.names)
        if is_by_hcrtm(inputs, asked, seen):
            return [BY_HCRTM]
        counts = grown(inputs, asked) if has_prefix else None
    finally:
        inputs.close()
    return list(lines_on(asked.command, seen, counts))[:MOST_LINES]


def said_anyway(words, text):
    """The lines after this output that come even where there is no terminal: of a match with which no PCR was compared."""
    if words[:1] not in (["verify"], ["replay"]):
        return []
    is_bare = BARE_MATCH.fullmatch(text) or (text.startswith(b"{") and json.loads(text).get("compared") == 0)
    return [NO_EXPECTED] if is_bare else []


def asked_by(words):
    """What words ask to be done with inputs; None for no words, and for help and the version."""
    try:
        return read_words(words) if words else None
    except (HelpAsked, VersionAsked):
        return None


def said_of_match(words):
    """The lines that a terminal gets after all is well, beside those that come anyway: of the first PCR that is required in the SHA-1 bank alone."""
    asked = asked_by(words)
    if asked is None or asked.command not in ("verify", "locate", "replay") or asked.values["--require"] is None:
        return []
    required = required_by(asked.values)
    others = {register for algorithm, register in required if algorithm is not SHA1}
    weak = sorted(register for algorithm, register in required if algorithm is SHA1 and register not in others)
    return [ONLY_SHA1.format(weak[0])] if weak else []


def said_of_padding(words, folder, standard_input=b""):
    """The line that comes anyway where a log is given without its padding."""
    asked, inputs = asked_by(words), Inputs(folder, standard_input, MOST_BYTES)
    try:
        if asked is None or asked.command != "log":
            return []
        _, padding = log_of(inputs.load_argument(*asked.names))
    finally:
        inputs.close()
    return [f"padding cut: {padding} bytes after the last event"] if padding else []


def are_regular(words, folder, standard_input=None):
    """Whether each input of these words is a regular file, which is what a second look reads; standard input is one if that is a file."""
    asked = read_words(words)
    names = [*asked.names, *asked.values.get("--known", []), *filter(None, [asked.values.get("--resume")])]
    return all(is_regular(name, folder, standard_input) for name in names)


def is_regular(name, folder, standard_input=None):
    if name == "/dev/stdin":
        return standard_input is not None
    try:
        return stat.S_ISREG(os.stat(os.path.join(folder, name)).st_mode)
    except (OSError, ValueError):
        return False


def is_old_log(head):
    """Whether a log of TPM 1.2 begins so: by its signature, or by an event that is extended, whose PCR, type and size are small numbers."""
    if head[32:48] in (b"Spec ID Event00\0", b"Spec ID Event02\0"):
        return True
    kind, size = head[4:8], head[28:32]
    return len(size) == 4 and head[1:4] == kind[1:] == bytes(3) and kind[0] not in (0, 3) and size[2:] == bytes(2)


def mistake_in(kind, data):
    """What the bytes of an input are in place of a log, a list, what is converted to one, expected registers, what tpm2-tools printed or the public
    area of a key; or None."""
    head = data[:HEAD]
    if kind == "key":
        return PEM_FOR_AREA if head.startswith(b"-----BEGIN ") else None
    if not data:
        return EMPTY if kind in ("log", "list", "form", "text") else NOTHING_PRINTED
    if kind == "form":
        return LIST_FOR_LOG if head[28:31] == b"ima" else None
    if kind == "text":
        return LIST_FOR_TEXT if head[28:31] == b"ima" else LOG_FOR_LIST if head[32:48] == b"Spec ID Event03\0" else None
    if kind == "log":
        return LIST_FOR_LOG if head[28:31] == b"ima" else OLD_LOG if is_old_log(head) else None
    if kind == "list":
        is_text = head[:3] == b"10 " and head[43:47] == b" ima"
        return LOG_FOR_LIST if head[32:48] == b"Spec ID Event03\0" else TEXT_FOR_LIST if is_text else None
    return mistake_in_values(kind, head)


def mistake_in_values(kind, head):
    """The same of expected registers, or of what tpm2-tools printed."""
    if kind == "printed":
        return EXPECTED_FOR_PRINTED if head.startswith(BANKS) else None
    if head.startswith(PRINTED):
        return PRINTED_FOR_EXPECTED
    return CAPITALS if head.startswith(tuple(bank.upper() for bank in BANKS)) else None
