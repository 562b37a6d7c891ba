"""Asks the library for C what a command of the program does, by the functions that it exports.

A call that has too little room must write nothing, and say how much it needs; the error that a call tells must be that of its text. Files of
known digests are given as one text, and the line of an error in it is then counted in its file, as the program does. Entries and events
are asked for by pieces: with room for single lines and for many, which must give the same lines. The numbers of a verdict must be those that its
line of JSON has. A verdict with which nothing is compared is no match for the library; the program's is given for it."""

import copy
import ctypes
import json
import os
import re
import sys
from dataclasses import dataclass
from typing import NamedTuple, Optional

from form import ROOT

sys.path[1:1] = [str(ROOT / "dist"), str(ROOT / "tests")]
from header import constants_of, exports_of  # noqa: E402
from reference.command_line import KNOWN, HelpAsked, VersionAsked, is_hexadecimal, read_words  # noqa: E402
from reference.faults import Fault  # noqa: E402

# What the program takes; the library takes more.
MOST_BYTES = 64 << 20
# The option of a command that a function takes as a text after the files.
OPTIONS = {"verify": "--require", "locate": "--require", "replay": "--require", "expected": "--registers"}
# For a command, with how many files, the function without `ima_verify_raw_`.
FUNCTIONS = {
    ("verify", 3): "verdict",
    ("locate", 3): "locate",
    ("replay", 2): "replay",
    ("replay", 1): "registers",
    ("expected", 1): "expected",
    ("registers", 1): "registers",
    ("show", 1): "entries",
    ("events", 1): "events",
    ("list", 1): "convert",
    ("log", 1): "convert",
}
# The flag of commands that replay a log, and the functions that take it after the log. (`events` shows it as an event, too.)
HCRTM, REPLAYING = "--hcrtm", ("verify", "attest", "locate", "registers", "boot")
REPLAYED = ("verdict", "locate", "more", "attest", "matching", "boot")
# The flag of commands that compare a boot aggregate with what is required, the option beside which they have it, and the functions that take it
# after that.
OLD_KERNEL, BINDING = "--old-kernel", {"verify": "--require", "attest": "--require", "boot": "--quote", "events": "--quote"}
BOUND = ("verdict", "more", "attest", "matching", "boot")
# What requires that some PCR is compared: the command has no such word.
NONE_REQUIRED = "none"
# Those that take a text of their command's option each time, and which if there is none.
TEXTS = {"verdict": NONE_REQUIRED, "locate": NONE_REQUIRED, "replay": NONE_REQUIRED, "expected": ""}
# Those that take a text of known digests after it, and whether it is given; and those that give numbers, too.
KNOWING = ("verdict", "replay")
NUMBERED = (*KNOWING, "more", "attest")
# What `verify` of a list that grows has, of which `ima_verify_more` answers.
MORE_OPTIONS, MORE_FLAGS = ("--require", "--resume", "--save"), ("--json", "--prefix")
# What `attest` has beside it, of which `ima_verify_attest_more` answers.
QUOTED_OPTIONS, QUOTED_FLAGS = ("--nonce", "--key", "--signature", *MORE_OPTIONS), ("--sha1", "--signature-checked", *MORE_FLAGS)
# What `boot` and `events --json` have, of which `ima_verify_raw_boot`, `matching` and `events` answer: the options that name files come first.
BOOT_FILES = ("--before", "--expected", "--list", "--quote", "--key", "--signature")
BOOT_OPTIONS, BOOT_FLAGS = (*BOOT_FILES, "--nonce", "--require"), ("--sha1", "--signature-checked", "--json")
# What `key` has, of which `ima_verify_raw_key` answers: it gives all that there is.
KEY_OPTIONS, KEY_FLAGS, WHOLE_KEY = ("--print",), ("--json", "--endorsement"), "all"
# The status of the program where the quote or its signature is refused, or nobody says that this was checked. The library has none of its own for
# these.
NOT_ATTESTED = 4
ROOM = 16 * 1024
# The rooms of pieces, of which the first has none for a line: then single lines are asked for. It is for inputs of so many bytes alone.
ROOMS, SMALL_BYTES = (1, 4096, 1 << 20), 32 * 1024
# No checkpoint is longer.
CHECKPOINT_ROOM = 20000
FILL = b"\xa7"

CONSTANTS = {name.removeprefix("IMA_VERIFY_"): int(number) for name, number in constants_of(ROOT).items()}
DONE, DIFFERS, REFUSED, OUT_OF_MEMORY, TOO_SHORT, MORE = (
    CONSTANTS[name] for name in ("DONE", "DIFFERS", "REFUSED", "OUT_OF_MEMORY", "TOO_SHORT", "MORE")
)
NO_ERROR, NO_PLACE = (CONSTANTS["NO_ERROR"], 0, (1 << 64) - 1), (1 << 64) - 1
KIND_NAMES = ("LOG", "LIST", "REPLAY", "EXPECTED", "CHECKPOINT", "QUOTE", "KEY", "KNOWN", "SIGNATURE", "TEXT_LIST", "LOG_FORM")
KINDS = {"command line": "ARGUMENT", **{name.lower().replace("_", " "): name for name in KIND_NAMES}}
FAULT = re.compile(r"refused: (command line|text list|log form|\w+)(?: fault (\d+))?(?: at \w+ (\d+))?")
KNOWN_LINE = re.compile(rb"(refused: known fault \d at line )(\d+)")


# What has the verdict in numbers, in their order.
SUMMARY = ("verdict", "reason", "compared", "matching", "bank", "pcr", "missing", "entries", "judged", "unknown")
VERDICTS, BANKS = {"match": 1, "differ": 2}, {"sha1": 1, "sha256": 2, "sha384": 3, "sha512": 4}
NO_VERDICT = {**dict.fromkeys(SUMMARY, 0), "pcr": NO_PLACE}
# The reason where nothing is compared, and more numbers than there are, which must be 0.
NOTHING_COMPARED, MORE_NUMBERS = 8, 2


class Info(ctypes.Structure):
    _fields_ = [("size", ctypes.c_size_t), ("kind", ctypes.c_uint32), ("number", ctypes.c_uint32), ("place", ctypes.c_uint64)]

    @property
    def error(self):
        return self.kind, self.number, self.place


class Unlike(Exception):
    """A call does not answer as the header says."""


TYPES = {
    "const uint8_t *": ctypes.c_void_p,
    "uint8_t *": ctypes.c_void_p,
    "size_t ": ctypes.c_size_t,
    "size_t *": ctypes.POINTER(ctypes.c_size_t),
    "bool ": ctypes.c_bool,
    "uint32_t ": ctypes.c_uint32,
    "uint64_t ": ctypes.c_uint64,
    "uint64_t *": ctypes.POINTER(ctypes.c_uint64),
    "struct ima_verify_info *": ctypes.POINTER(Info),
}


class Numbers:
    """Room for the numbers of a verdict, and for some that a newer header would have."""

    def __init__(self):
        self.room = (ctypes.c_uint64 * (1 + len(SUMMARY) + MORE_NUMBERS))(*[7] * (1 + len(SUMMARY) + MORE_NUMBERS))

    def words(self):
        return self.room, len(self.room)

    def summary(self):
        """The numbers by their names. The first must be as it was, and those that there are not 0."""
        first, *numbers = self.room
        if first != 7 or any(numbers[len(SUMMARY) :]):
            raise Unlike(f"the numbers {list(self.room)}")
        return dict(zip(SUMMARY, numbers))


def wanted_summary(report):
    """The numbers that a report as JSON has."""
    rows = report.get("registers", [])
    missing, wrong = ([row for row in rows if row["state"] in states] for states in (("missing",), ("differ", "absent")))
    first = next(iter([*wrong, *missing]), None)
    compared, matching = len(rows) - len(missing), len(rows) - len(missing) - len(wrong)
    if "quote" in report:
        compared = sum(len(bank["registers"]) for bank in report["quoted"])
        matching = compared if report["quote"] == "match" else 0
    return {
        "verdict": VERDICTS.get(report["verdict"], 0),
        "reason": 0 if report["verdict"] == "match" else wanted_reason(report, wrong, missing),
        "compared": compared,
        "matching": matching,
        "bank": BANKS[first["bank"]] if first else 0,
        "pcr": first["register"] if first else NO_PLACE,
        "missing": len(missing),
        "entries": report["entries"],
        "judged": report.get("confirmed", report["entries"]),
        "unknown": len(report.get("unknown", [])),
    }


def wanted_reason(report, wrong, missing):
    """The number of the first reason against a match that a report has."""
    is_bound = report["boot_aggregate"] in ("good", "old_kernel") if "boot_aggregate" in report else report["entries"] > 0
    against = {
        1: report.get("signature") == "not checked",
        2: bool(wrong) and "quote" not in report,
        3: bool(missing),
        4: report.get("quote") == "differ",
        5: not is_bound,
        6: "extends" in report,
        7: bool(report.get("unknown")),
        NOTHING_COMPARED: report.get("compared") == 0,
    }
    return next(number for number, holds in against.items() if holds)


def look_at_numbers(status, text, summary):
    """Sees that the numbers are those of the text: for a report as text, that they have its verdict."""
    if status not in (DONE, DIFFERS):
        wanted = NO_VERDICT
    elif text.startswith(b"{"):
        wanted = wanted_summary(json.loads(text))
    else:
        words = text.decode(errors="surrogateescape").splitlines()[-1].removeprefix("verdict ")
        wanted = {**summary, "verdict": VERDICTS.get(words, 0)}
    if summary != wanted or (summary["verdict"] == VERDICTS["match"]) != (status == DONE):
        raise Unlike(f"the numbers {summary}, and not {wanted}")


class Library:
    """The library for C, by the functions that it exports; whether the event of an H-CRTM tells where a log began, and whether an older kernel's
    boot aggregate is taken."""

    hcrtm = old_kernel = False

    def __init__(self, file):
        functions = ctypes.CDLL(os.path.abspath(file))
        self.functions = {}
        for name, (_, parameters) in exports_of(ROOT).items():
            function = getattr(functions, name)
            function.argtypes = [TYPES[re.sub(r"\w+$", "", each)] for each in parameters if each != "void"]
            function.restype = ctypes.c_int32
            self.functions[name.removeprefix("ima_verify_raw_")] = function

    def takes(self, words, folder, most_bytes=MOST_BYTES):
        """Whether there is a function for a command, and it is given files of at most so many bytes, texts of options and nothing else; and
        a file that it saves can be written."""
        words, *_ = without_flags(words)
        call = more_of(words) or by_quote_of(words) or key_of(words) or boot_of(words) or call_of(words)
        if call is None or not all(is_input(file, folder, most_bytes) for file in call.inputs()):
            return False
        if isinstance(call, (ByQuote, Boot)) and not all(os.path.getsize(folder / file) for file in call.signers):
            # (the library takes no bytes as no key or signature)
            return False
        return not isinstance(call, More) or call.save is None or is_writable(call.save, folder)

    def answer(self, words, folder):
        """What the function for a command answers. The checkpoint that the command saves is written as there."""
        asked = copy.copy(self)
        words, asked.hcrtm, asked.old_kernel = without_flags(words)
        return asked.answer_plain(words, folder)

    def answer_plain(self, words, folder):
        """The same, of words without these flags."""
        try:
            more, by_quote, key, boot = more_of(words), by_quote_of(words), key_of(words), boot_of(words)
            if key:
                return self.ask_for_key((folder / key.file).read_bytes(), key.is_endorsement, key.is_json)
            if boot:
                return self.answer_on_boot(boot, folder)
            call = by_quote or more or call_of(words)
            answer = self.answer_by_quote if by_quote else self.answer_more if more else self.answer_to
            status, text = answer(call, folder)
            return status, KNOWN_LINE.sub(lambda found: found[1] + b"%d" % call.line_of_file(folder, int(found[2])), text)
        except Unlike as cause:
            return None, f"not answered: {cause}".encode()

    def answer_to(self, call, folder):
        inputs = [(folder / file).read_bytes() for file in call.files]
        if call.function in ("entries", "events"):
            return self.answer_by_pieces(call, inputs[0])
        if call.function == "convert":
            conversion = CONSTANTS["CONVERT_LIST" if call.is_of_list else "CONVERT_LOG"]
            return self.ask_with_room("convert", inputs, [conversion, ctypes.byref(ctypes.c_size_t())])[:2]
        flags = [call.is_of_list, self.hcrtm] if call.function == "registers" else []
        texts = [] if call.text is None else [encoded(call.text)]
        if call.function in KNOWING:
            texts, flags = [*texts, call.known_text(folder)], [bool(call.known)]
        status, text, info = self.ask_with_room(call.function, [*inputs, *texts], [*flags, call.is_json])
        if call.function == "verdict" and call.text == NONE_REQUIRED and info.summary["reason"] == NOTHING_COMPARED:
            # (the command does not require that something is compared)
            return DONE, b"match".join(text.rsplit(b"differ", 1))
        return status, text

    def answer_by_quote(self, call, folder):
        log, listed, message = ((folder / file).read_bytes() for file in call.files)
        key, signature = [(folder / file).read_bytes() for file in call.signers] or [b"", b""]
        inputs = [log, call.state(folder), listed, message, key, signature, *call.nonces(), call.require, call.known_text(folder)]
        status, text, checkpoint = self.ask_by_quote(inputs, bool(call.known), call.allows_sha1, call.is_checked, call.prefix, call.is_json)
        call.keep(status, checkpoint, folder)
        return status, text

    def ask_by_quote(self, inputs, checks_known, allows_sha1, is_checked, prefix, is_json):
        """What the function for a quote gives: the status that the program has, the text, and the checkpoint."""
        status, text, info, checkpoint = self.ask_more("attest", inputs, [checks_known, allows_sha1, is_checked, prefix, is_json])
        key = inputs[4]
        is_unsigned = status == DIFFERS and not is_checked and not key
        is_refused = info.kind in (CONSTANTS["QUOTE"], CONSTANTS["SIGNATURE"])
        return NOT_ATTESTED if is_unsigned or is_refused else status, text, checkpoint

    def answer_on_boot(self, boot, folder):
        """What the functions for a boot answer, or for its events: these by what the function for matching PCRs gives."""
        log, before = (folder / boot.log).read_bytes(), boot.bytes_of("--before", folder)
        texts, flags = boot.evidence(folder)
        if boot.is_of_events:
            status, text, info = self.ask_with_room("matching", [log], [boot.by, *pairs(texts), *flags])
            if status in (REFUSED, OUT_OF_MEMORY):
                return boot.status(status, info), text
            ended, lines = self.answer_by_pieces(Call("events", [], None, True, False), log, text)
            return (boot.status(status, info), lines) if ended == DONE else (ended, lines)
        compares = "--before" in boot.values
        status, text, info = self.ask_with_room("boot", [log, before], [compares, boot.by, *pairs(texts), *flags, boot.is_json])
        return boot.status(status, info), text

    def ask_for_key(self, area, is_endorsement, is_json):
        """The status and the text of the function for a key."""
        return self.ask_with_room("key", [area], [is_endorsement, is_json])[:2]

    def ask_with_room(self, function, inputs, between):
        """The status, the text, and what else is told, of a call, which is made again if there was too little room."""
        room = ROOM
        while True:
            status, text, info = self.ask(function, inputs, between, room)
            if status != TOO_SHORT:
                return status, text, info
            room = info.size

    def given(self, function, inputs):
        """The inputs as a function takes them."""
        flags = [*([self.hcrtm] if function in REPLAYED else []), *([self.old_kernel] if function in BOUND else [])]
        return [*pairs(inputs[:1]), *flags, *pairs(inputs[1:])]

    def ask(self, function, inputs, between, room):
        """The status, the text, and what else is told, of one call with this much room."""
        out, info, numbers = ctypes.create_string_buffer(FILL * room, max(room, 1)), Info(), Numbers()
        counted = numbers.words() if function in NUMBERED else ()
        status = self.functions[function](*self.given(function, inputs), *between, *counted, out, room, ctypes.byref(info))
        return self.looked_at(status, out, room, info, numbers if counted else None)

    def looked_at(self, status, out, room, info, numbers=None):
        """The same, once it is seen that it is as the header says."""
        text = b"" if status == TOO_SHORT else out.raw[: info.size]
        if numbers is not None:
            info.summary = numbers.summary()
            look_at_numbers(status, text, info.summary)
        if status == TOO_SHORT:
            if out.raw[:room].strip(FILL) or info.size <= room or info.error != NO_ERROR:
                raise Unlike("too short")
            return status, text, info
        if out.raw[info.size : room].strip(FILL):
            raise Unlike("more than the text is written")
        wanted = error_in(text) if status in (REFUSED, OUT_OF_MEMORY) else NO_ERROR
        if info.error != wanted:
            raise Unlike(f"the error {info.error}, and not {wanted}")
        return status, text, info

    def answer_by_pieces(self, call, data, matching=None):
        """What a command shows: where it does not show the lines before a fault, these are left out."""
        rooms = ROOMS if len(data) <= SMALL_BYTES else ROOMS[-1:]
        answer, *others = [self.pieces(call, data, room, matching) for room in rooms]
        if any(other != answer for other in others):
            raise Unlike("other lines with another room")
        return answer.status, answer.fault if answer.fault and not call.is_json else answer.lines + answer.fault

    def pieces(self, call, data, room, matching=None):
        """What the calls for all lines come to: of events with this text of matching PCRs, if there is one."""
        offset, number, lines = ctypes.c_size_t(), ctypes.c_size_t(), []
        given = [matching or b"", len(matching or b""), matching is not None]
        before_it, form = ([], [call.is_json]) if call.function == "entries" else (given, [])
        asked = room
        while True:
            before = offset.value, number.value
            status, text, info = self.ask(call.function, [data], [*before_it, ctypes.byref(offset), ctypes.byref(number), *form], asked)
            if status == TOO_SHORT:
                if (offset.value, number.value) != before:
                    raise Unlike("a piece that is too short moves the position")
                asked = info.size
                continue
            asked = room
            if status != MORE:
                break
            if not text.endswith(b"\n") or offset.value <= before[0]:
                raise Unlike(f"a piece of {len(text)} bytes at {before}, and then {offset.value}")
            lines.append(text)
        has_count = call.function == "entries" and call.is_json  # (a line behind the bytes of the list)
        if status == DONE and offset.value != len(data) + has_count:
            raise Unlike(f"the last position is {offset.value} of {len(data)}")
        if status == REFUSED and call.function == "entries" and info.place != number.value:
            raise Unlike(f"an error at {info.place} after {number.value} entries")
        is_fault = status in (REFUSED, OUT_OF_MEMORY)
        return Pieces(status, b"".join([*lines, b"" if is_fault else text]), text if is_fault else b"", offset.value)

    def answer_more(self, more, folder):
        log, listed, expected = ((folder / file).read_bytes() for file in more.files)
        inputs = [log, more.state(folder), listed, expected, more.require, more.known_text(folder)]
        status, text, _, checkpoint = self.ask_more("more", inputs, [bool(more.known), more.prefix, more.is_json])
        more.keep(status, checkpoint, folder)
        return status, text

    def ask_more(self, function, inputs, flags):
        """The status, the text, what else is told and the checkpoint of a function that gives one; asked once more if there was too little room,
        which must leave the buffers as they were. What follows the checkpoint must stay as it was, too."""
        room, next_room = ROOM, CHECKPOINT_ROOM // 4
        while True:
            out, following = (ctypes.create_string_buffer(FILL * size, size) for size in (room, next_room))
            info, next_size, numbers = Info(), ctypes.c_size_t(), Numbers()
            words = [*self.given(function, inputs), *flags, *numbers.words(), following, next_room, ctypes.byref(next_size), out, room, ctypes.byref(info)]
            status = self.functions[function](*words)
            if status != TOO_SHORT:
                if following.raw[next_size.value :].strip(FILL):
                    raise Unlike("more than the checkpoint is written")
                return *self.looked_at(status, out, room, info, numbers), following.raw[: next_size.value]
            look_at_numbers(status, b"", numbers.summary())
            if (out.raw + following.raw).strip(FILL) or (info.size <= room and next_size.value <= next_room) or info.error != NO_ERROR:
                raise Unlike("too short")
            room, next_room = max(room, info.size), max(next_room, next_size.value)


def pairs(inputs):
    return [word for data in inputs for word in (data, len(data))]


def encoded(text):
    return text.encode("utf-8", "surrogateescape")


def error_in(text):
    """The error that a line says, as the library tells it."""
    line = text.decode(errors="surrogateescape").removesuffix("\n")
    if line.startswith("{"):
        line = json.loads(line)["fault"]["message"]
    if line == "failed: memory":
        return CONSTANTS["MEMORY"], 0, NO_PLACE
    found = FAULT.fullmatch(line)
    if found is None or found[1] not in KINDS:
        raise Unlike(f"no line of a fault: {line[:200]!r}")
    return CONSTANTS[KINDS[found[1]]], int(found[2] or 0), NO_PLACE if found[3] is None else int(found[3])


class Pieces(NamedTuple):
    """What the last call for lines returns, all lines, the line of a fault if there is one, and how many bytes come before it, or in all."""

    status: int
    lines: bytes
    fault: bytes
    offset: int


class Knowing:
    """A call that may have files of known digests."""

    def texts(self, folder):
        return [(folder / name).read_bytes() for name in self.known]

    def known_text(self, folder):
        """The text of all these files, each line of which ends."""
        return b"".join(text + (b"" if text.endswith(b"\n") or not text else b"\n") for text in self.texts(folder))

    def line_of_file(self, folder, line):
        """The number that a line of this text has in its file."""
        for text in self.texts(folder):
            lines = text.count(b"\n") + (not text.endswith(b"\n") and text != b"")
            if line <= lines:
                return line
            line -= lines
        raise Unlike(f"a fault {line} lines behind the text of known digests")


@dataclass(frozen=True)
class Call(Knowing):
    """A function of the library without `ima_verify_raw_`, its files, the text after them if it takes one, whether JSON is asked for, and files of
    known digests."""

    function: str
    files: list
    text: Optional[str]
    is_json: bool
    is_of_list: bool
    known: tuple = ()

    def inputs(self):
        return [*self.files, *self.known]


@dataclass(frozen=True)
class More(Knowing):
    """A call of the function for a list that grows: files of known digests; the files of log, list and expected registers, what is required,
    whether a prefix is asked for, the file to go on from and the one to save, and whether JSON is asked for."""

    known: tuple
    files: list
    require: bytes
    prefix: bool
    resume: Optional[str]
    save: Optional[str]
    is_json: bool

    def inputs(self):
        return [*self.files, *self.known, *([] if self.resume is None else [self.resume])]

    def state(self, folder):
        """The checkpoint to go on from. (No bytes are no checkpoint for the command, and for the function the list's beginning.)"""
        return b"" if self.resume is None else (folder / self.resume).read_bytes() or b"\n"

    def keep(self, status, checkpoint, folder):
        """Saves a checkpoint as the command does. There is one with a match, and only then."""
        if (status == DONE) != bool(checkpoint):
            raise Unlike(f"status {status} and a checkpoint of {len(checkpoint)} bytes")
        if self.save is not None and checkpoint:
            (folder / self.save).write_bytes(checkpoint)


@dataclass(frozen=True)
class ByQuote(More):
    """A call of the function for a quote: with a message in place of expected registers, the nonce as the command has it, whether a register may
    be in the SHA-1 bank alone, whether the signature was checked, and the files of the key and the signature, or none."""

    nonce: str
    allows_sha1: bool
    is_checked: bool
    signers: tuple

    def inputs(self):
        return [*super().inputs(), *self.signers]

    def nonces(self):
        """The nonce as bytes, or for JSON as the digits of the command."""
        return (b"", self.nonce.encode()) if self.is_json else (bytes.fromhex(self.nonce), b"")


@dataclass(frozen=True)
class Boot:
    """A call of the functions for a boot, or for its events: the log, and the options of the command with their values."""

    is_of_events: bool
    log: str
    values: dict
    flags: tuple

    def inputs(self):
        return [self.log, *(self.values[option] for option in BOOT_FILES if option in self.values)]

    @property
    def signers(self):
        return tuple(self.values[option] for option in ("--key", "--signature") if option in self.values)

    @property
    def is_json(self):
        return "--json" in self.flags

    @property
    def by(self):
        """What tells which PCRs match, by its number."""
        return CONSTANTS["BY_QUOTE" if "--quote" in self.values else "BY_EXPECTED" if "--expected" in self.values else "BY_NOTHING"]

    def bytes_of(self, option, folder):
        return (folder / self.values[option]).read_bytes() if option in self.values else b""

    def evidence(self, folder):
        """What tells it, as the library takes it: texts, and then flags. The nonce is bytes, or for a boot as JSON digits."""
        texts = [self.bytes_of(option, folder) for option in ("--expected", "--list", "--quote", "--key", "--signature")]
        digits = self.values.get("--nonce", "")
        nonces = (b"", digits.encode()) if self.is_json and not self.is_of_events else (bytes.fromhex(digits), b"")
        flags = ["--sha1" in self.flags, "--signature-checked" in self.flags]
        return [*texts, *nonces, encoded(self.values.get("--require", ""))], flags

    def status(self, status, info):
        """The status that the program has."""
        is_unsigned = status == DIFFERS and not self.signers and "--signature-checked" not in self.flags
        is_refused = info.kind in (CONSTANTS["QUOTE"], CONSTANTS["SIGNATURE"])
        return NOT_ATTESTED if is_unsigned or is_refused else status


@dataclass(frozen=True)
class Key:
    """A call of the function for a key: the file of its public area, whether it is to be an endorsement key, and whether JSON is asked for."""

    file: str
    is_endorsement: bool
    is_json: bool

    def inputs(self):
        return [self.file]


def without_flags(words):
    """The words without the flags of a log and its list, and whether they have each, where their command has it."""
    name, options = words[0] if words else "", {word.partition("=")[0] for word in words}
    replays, binds = name in REPLAYING and words.count(HCRTM) == 1, BINDING.get(name) in options and words.count(OLD_KERNEL) == 1
    taken = {flag for flag, is_there in ((HCRTM, replays), (OLD_KERNEL, binds)) if is_there}
    return [word for word in words if word not in taken], replays, binds


def given_in(words, options, flag_names, count=3):
    """Of words after a command the files, the values of these options and these flags; or None if they are not so many files, or one of the
    others has no value or comes twice."""
    files, values, flags, rest = [], {}, [], iter(words)
    for word in rest:
        option, has_value, value = word.partition("=")
        if option in options and option not in values:
            values[option] = value if has_value else next(rest, "")
        elif word in flag_names:
            flags.append(word)
        else:
            files.append(word)
    is_form = len(files) == count and "" not in values.values() and len(set(flags)) == len(flags)
    return (files, values, flags) if is_form else None


def known_in(words):
    """The words without files of known digests, and the names of these, of which the last may be none."""
    others, names, rest = [], [], iter(words)
    for word in rest:
        option, has_value, value = word.partition("=")
        if option == KNOWN:
            names.append(value if has_value else next(rest, ""))
        else:
            others.append(word)
    return others, tuple(names)


def by_quote_of(words):
    """The call that answers `attest` without EXPECTED, or None."""
    words, known = known_in(words)
    name, *rest = words or [""]
    given = given_in(rest, QUOTED_OPTIONS, QUOTED_FLAGS) if name == "attest" else None
    if given is None or not {"--nonce", "--require"} <= set(given[1]) or not is_hexadecimal(given[1]["--nonce"]):
        # (the library refuses it as the command does, but as JSON, too)
        return None
    files, values, flags = given
    signers = tuple(values[option] for option in ("--key", "--signature") if option in values)
    if len(signers) == 1 or (signers and "--signature-checked" in flags):
        # (the command refuses its words, and the library is misused)
        return None
    more = (encoded(values["--require"]), "--prefix" in flags, values.get("--resume"), values.get("--save"), "--json" in flags)
    return ByQuote(known, files, *more, values["--nonce"], "--sha1" in flags, "--signature-checked" in flags, signers)


def key_of(words):
    """The call that answers `key`, or None."""
    name, *rest = words or [""]
    given = given_in(rest, KEY_OPTIONS, KEY_FLAGS, 1) if name == "key" else None
    if given is None or given[1].get("--print", WHOLE_KEY) != WHOLE_KEY:
        return None
    [file], _, flags = given
    return Key(file, "--endorsement" in flags, "--json" in flags)


def boot_of(words):
    """The call that answers `boot`, or `events --json` with what confirms them; or None."""
    name, *rest = words or [""]
    given = given_in(rest, BOOT_OPTIONS, BOOT_FLAGS, 1) if name in ("boot", "events") else None
    if given is None or not is_well_formed(words) or (name == "events" and not {"--expected", "--quote"} & given[1].keys()):
        return None
    [log], values, flags = given
    return Boot(name == "events", log, values, tuple(flags))


def is_well_formed(words):
    """Whether the command takes its arguments."""
    try:
        read_words(words)
    except (Fault, HelpAsked, VersionAsked):
        return False
    return True


def more_of(words):
    """The call that answers `verify` of a list that grows, or None."""
    words, known = known_in(words)
    name, *rest = words or [""]
    given = given_in(rest, MORE_OPTIONS, MORE_FLAGS) if name == "verify" else None
    if given is None:
        return None
    files, values, flags = given
    is_growing = "--prefix" in flags or "--resume" in values or "--save" in values
    if not is_growing or values.get("--require") == NONE_REQUIRED or (known and "--json" in flags and "--require" not in values):
        # (the command has no such word, or refuses its words and does not say that as JSON)
        return None
    require = encoded(values.get("--require", NONE_REQUIRED))
    return More(known, files, require, "--prefix" in flags, values.get("--resume"), values.get("--save"), "--json" in flags)


def call_of(words):
    """The call that answers what a command does, or None."""
    words, known = known_in(words)
    name, *rest = words or [""]
    option, files, values, rest = OPTIONS.get(name), [], [], (word for word in rest if word != "--json")
    for word in rest:
        if option and word.partition("=")[0] == option:
            values.append(word.partition("=")[2] if "=" in word else next(rest, ""))
        else:
            files.append(word)
    function, is_json = FUNCTIONS.get((name, len(files))), "--json" in words
    if function is None or len(values) > 1 or "" in values or words.count("--json") > 1 or (known and function not in KNOWING):
        return None
    if known and is_json and not values:
        # (the command then refuses its words, and does not say that as JSON)
        return None
    if (values and function not in TEXTS) or (function != "expected" and NONE_REQUIRED in values) or (function == "events" and not is_json):
        # (the command has no such option or word, or the function no such form)
        return None
    if function == "convert" and is_json:
        return None
    return Call(function, files, values[0] if values else TEXTS.get(function), is_json, name in ("replay", "list"), known)


def is_input(name, folder, most_bytes):
    """Whether this names a file below the folder that has at most so many bytes. (A `Path` would drop a slash at the end of a name.)"""
    is_name = name == "-" or not name.startswith(("-", "/"))
    file = os.path.join(folder, name)
    return is_name and os.path.isfile(file) and os.path.getsize(file) <= most_bytes


def is_writable(name, folder):
    """Whether a file below the folder can have this name."""
    file = os.path.join(folder, name)
    is_name = not name.startswith(("-", "/")) and not name.endswith("/")
    return is_name and os.path.isdir(os.path.dirname(file)) and not os.path.isdir(file)
