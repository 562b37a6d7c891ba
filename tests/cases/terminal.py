#!/usr/bin/env python3
"""Tries what a terminal gets beside the output: why a run failed, what to do next, and how far a measurement is.

tests/cases/terminal.py [PROGRAM]: by default the program that was built in this tree.

Each command of the cases whose files have at most 4 MiB runs with a terminal as its standard error. Status and output must be what the
case wants. After a fault standard error must get what said.py makes of the fault's line, by the tables of docs/errors.txt, and where the input is not
what it should be the line of tests/reference/hints.py that says so. After a verdict `differ`, or values that are not located, a terminal must get the
lines of that reference, and none if an input is no regular file. After a success it must get nothing, but after a match with which nothing was
compared the line that says so; and after a refused command line some text of clap's: `USAGES` has some. Where the output goes to the same terminal,
the sentence must come after the line. Further commands have names with bytes that a terminal acts upon, are out of memory, have an output that fails
or a standard stream that is closed, or measure for more than a second. Each of these runs without a terminal too, and standard error must then get
the same of a fault, and nothing else; with `--quiet` nothing. Pipes that are closed one after another show when which number is due, and none if the
clock fails. The script counts commands."""

import json
import os
import pty
import re
import resource
import select
import shutil
import subprocess
import sys
import tempfile
import threading
import time
import tty
from pathlib import Path
from typing import NamedTuple

sys.path.insert(0, str(Path(__file__).resolve().parents[1]))
import form  # noqa: E402
import harness  # noqa: E402
import reference  # noqa: E402
from answers import Answer, fault_of  # noqa: E402
from reference.faults import Fault  # noqa: E402
from reference.hints import (  # noqa: E402
    AGGREGATES,
    APART,
    BY_HCRTM,
    CAPITALS,
    EMPTY,
    EXPECTED_FOR_PRINTED,
    LIST_FOR_LOG,
    LIST_FOR_TEXT,
    LOG_FOR_LIST,
    NO_ENTRIES,
    NO_EXPECTED,
    NOT_GIVEN,
    NOTHING_PRINTED,
    OLD_AGGREGATE,
    OLD_LOG,
    OLD_REGISTERS,
    ONLY_SHA1,
    OTHER_BOOT,
    PEM_FOR_AREA,
    PRINTED_FOR_EXPECTED,
    SEEN_BY,
    TEXT_FOR_LIST,
    UNCONFIRMED,
    are_regular,
    next_steps,
    said_anyway,
    said_of_match,
    said_of_padding,
)
from reference.log import Event, Log, read_log  # noqa: E402
from reference.log_forms import EV_EFI_HCRTM_EVENT, told_log  # noqa: E402
from reference.measurement_list import BOOT_AGGREGATE, IMA_NG, entry_of, read_prefix, replay  # noqa: E402
from reference.registers import SHA1, SHA256  # noqa: E402
from said import (  # noqa: E402
    EXPECTED,
    FORM,
    KEY,
    KNOWN,
    LIST,
    LOG,
    NOT_WRITTEN,
    NO_AREA,
    OUT_OF_MEMORY,
    SIGNATURE,
    SIGNATURE_HINTS,
    TEXT,
    TOO_LONG,
    UNSIGNED,
    fault_line_of,
    is_of_usage,
    said_of_error,
)

PROGRAM = harness.argument()
SAMPLES = Path(__file__).resolve().parents[2] / "samples"
NONCE_GIVEN = (SAMPLES / "quoted" / "nonce").read_text().strip()
WAITING = b"reading a firmware event log in hexadecimal from standard input; ima-agent --help lists the commands\n"
SECONDS = 180  # (beside the other parts of the gate)
MEBIBYTE = 1 << 20
MOST_BYTES = 4 * MEBIBYTE
LARGE_FILES, LARGE_BYTES = 16, 48 * MEBIBYTE
ADDRESS_SPACE = 64 * MEBIBYTE
# For how many seconds each of some pipes stays open: the first number is due after more than a second, the next after a tenth of one.
PACES = (1.2, 0.3, 0.3)
INTERVAL = 0.1
# The first of these holds up those that follow: the numbers that were due meanwhile are not made up for.
LATE_PACES = (2.5, *15 * [0])
ATTEMPTS = 5
MANY_CALLS = 1_000_000
# Stands before the C library: so many calls of the clock succeed, and none after them.
CLOCK = """
#define _GNU_SOURCE
#include <errno.h>
#include <stdatomic.h>
#include <stdlib.h>
#include <sys/syscall.h>
#include <time.h>
#include <unistd.h>
static atomic_int calls;
int clock_gettime(clockid_t clock, struct timespec *now) {
    if (atomic_fetch_add(&calls, 1) < atoi(getenv("CLOCK_CALLS")))
        return (int)syscall(SYS_clock_gettime, clock, now);
    errno = EINVAL;
    return -1;
}
"""

# What clap says of wrong arguments, or the program in its form where clap takes them.
MORE = "\nFor more information, try '--help'.\n"
REQUIRE, REGISTERS, NONCE = "--require <SELECTION>", "--registers <SELECTION>", "--nonce <HEX>"
GRAMMAR = "items, separated by , or +: [BANK:]PCR, [BANK:]FIRST-LAST or [BANK:]all. An item without BANK uses the previous item's"
UNBOUND = "PCR 10 is not selected in any bank, so the list would not be checked: add it, as in sha256:0-10, or sha256:10 for a list alone"
SHORT_NONCE = "a nonce has at least 16 bytes, which is 32 hexadecimal digits: give all of the nonce that was sent"
UNQUOTED = "PCR {} is not selected in any bank: a quote needs PCRs 0 to 10, as in sha256:0-10"
WEAK = "PCR {} is selected only in the SHA-1 bank, which can be forged: require another bank, or add --sha1"


def malformed(place, part):
    return f"'{part}' at byte {place} is wrong. Write {GRAMMAR}. PCRs are 0 to 23"


USAGES = [
    (["nothing"], f"error: unrecognized subcommand 'nothing'\n\nUsage: ima-agent [COMMAND]\n{MORE}"),
    (["show"], f"error: the following required arguments were not provided:\n  <LIST>\n\nUsage: ima-agent show <LIST>\n{MORE}"),
    (["show", "L", "M"], f"error: unexpected argument 'M' found\n\nUsage: ima-agent show [OPTIONS] <LIST>\n{MORE}"),
    (["measure", "--workers", "9", "L"], f"error: invalid value '9' for '--workers <THREADS>': 9 is not in 1..=8\n{MORE}"),
    (["measure", "--alg", "sm3", "L"],
     f"error: invalid value 'sm3' for '--alg <HASH>'\n  [possible values: sha1, sha256, sha384, sha512]\n{MORE}"),
    (["measure", "--json", "--print", "binary", "L"], "error: the argument '--print binary' cannot be used with '--json'\n"),
    *((["events", "--explain", other, "L"], f"error: the argument '--explain' cannot be used with '{other}'\n") for other in ("--data", "--json")),
    *((["events", *more, "--expected", "E", "L"],
       "error: the argument '--expected <EXPECTED>' cannot be used without '--explain' or '--json'\n") for more in ([], ["--data"])),
    *(([*words, "--known", "K"], "error: the argument '--known <FILE>' cannot be used without '--require', such as --require sha256:0-10\n")
      for words in (["verify", "L", "M", "N"], ["replay", "L", "M"], ["replay", "L"])),
    (["key", "--print", "ascii", "L"],
     f"error: invalid value 'ascii' for '--print <PART>'\n  [possible values: all, name, pem]\n{MORE}"),
    *(([command, "--json", "L"], "error: unexpected argument '--json' found\n\n  tip: to pass '--json' as a value, use '-- --json'\n\n"
       f"Usage: ima-agent {command} [OPTIONS] <FILE>\n{MORE}") for command in ("list", "log")),
    *(([command, *more, "--expected", "-", "-"], "error: '<LOG>' and '--expected <EXPECTED>' cannot both be '-'\n")
      for command, more in (("boot", []), ("events", ["--explain"]), ("events", ["--json"]))),
    (["boot", "--before", "-", "L"], "error: invalid value '-' for '--before <OLD_LOG>': it must be a file\n"),
    (["\x1b[31m\nred"], f"error: unrecognized subcommand '\\x1b[31m\\x0ared'\n\nUsage: ima-agent [COMMAND]\n{MORE}"),
    *(([*words, "--require", text, *names], f"error: invalid value '{text}' for '{REQUIRE}': {malformed(place, part)}\n")
      for words, names, text, place, part in (
          (["verify"], ["L", "M", "N"], "sha256", 1, "sha256"),
          (["verify"], ["L", "M", "N"], "sha256:0-7,99", 12, "99"),
          (["locate"], ["L", "M", "N"], "sha256:0-7+sha1:,10", 12, "sha1:"),
          (["verify"], ["L", "M", "N"], "sha256:0-7+x,1+2", 12, "x"),
          (["verify"], ["L", "M", "N"], "sha256:x+10,1", 1, "sha256:x"),
          (["locate"], ["L", "M", "N"], "sha256:10,", 11, ""),
          (["replay"], ["L", "M"], "sha256:9-8", 1, "sha256:9-8"),
      )),
    (["locate", "--require=\x9b2J", "L", "M", "N"],
     f"error: invalid value '\\xc2\\x9b2J' for '{REQUIRE}': {malformed(1, chr(92) + 'xc2' + chr(92) + 'x9b2J')}\n"),
    (["verify", "--require", "sha256:0-9", "L", "M", "N"], f"error: invalid value 'sha256:0-9' for '{REQUIRE}': {UNBOUND}\n"),
    (["expected", "--registers", "24", "L"], f"error: invalid value '24' for '{REGISTERS}': {malformed(1, '24')}\n"),
    (["expected", "--registers", "0-7+all,", "L"], f"error: invalid value '0-7+all,' for '{REGISTERS}': {malformed(9, '')}\n"),
    *((["verify", "--require", text, "L", "M", "N"],
       f"error: invalid value '{text}' for '{REQUIRE}': unknown bank '{bank}': use sha1, sha256, sha384 or sha512\n")
      for text, bank in (("sha265:0-10", "sha265"), ("SHA256:0-10", "SHA256"), ("sha256:0-10+sm3:10", "sm3"), (":10", ""))),
    *((["attest", "--nonce", nonce, "--require", "sha256:0-10", "L", "M", "Q"], f"error: invalid value '{shown}' for '{NONCE}': {cause}\n")
      for nonce, shown, cause in (
          ("xy", "xy", "it must be hexadecimal, two digits per byte"),
          ("000", "000", "it must be hexadecimal, two digits per byte"),
          ("\x1b[2J", r"\x1b[2J", "it must be hexadecimal, two digits per byte"),
          ("00", "00", SHORT_NONCE),
          ("0" * 30, "0" * 30, SHORT_NONCE),
      )),
    *(([*command, *words, *names], f"error: the argument '{shown}' cannot be used {why}\n")
      for command, names in (
          (["attest", "--nonce", "0" * 32, "--require", "sha256:0-10"], ["L", "M", "Q"]),
          (["boot", "--quote", "Q", "--list", "M", "--nonce", "0" * 32, "--require", "sha256:0-10"], ["L"]),
          (["events", "--explain", "--quote", "Q", "--list", "M", "--nonce", "0" * 32, "--require", "sha256:0-10"], ["L"]),
      )
      for words, shown, why in (
          (["--key", "K"], "--key <KEY>", "without '--signature'"),
          (["--signature", "S"], "--signature <SIG>", "without '--key'"),
          (["--key", "K", "--signature", "S", "--signature-checked"], "--key <KEY>", "with '--signature-checked'"),
          (["--key", "K", "--signature-checked"], "--key <KEY>", "without '--signature'"),
          (["--signature", "S", "--signature-checked"], "--signature <SIG>", "without '--key'"),
      )),
    *(([*command, "--key", "K", "--signature", "S", "L"], "error: the argument '--key <KEY>' cannot be used without '--quote'\n")
      for command in (["boot"], ["events", "--json"], ["events"])),
    (["boot", "--signature", "S", "L"], "error: the argument '--signature <SIG>' cannot be used without '--quote'\n"),
    (["boot", "--old-kernel", "L"], "error: the argument '--old-kernel' cannot be used without '--quote'\n"),
    (["verify", "--old-kernel", "L", "M", "E"], "error: the argument '--old-kernel' cannot be used without '--require', such as --require sha256:0-10\n"),
    (["attest", "--nonce", "00", "L", "M", "Q"],
     f"error: the following required arguments were not provided:\n  {REQUIRE}\n\n"
     f"Usage: ima-agent attest {NONCE} {REQUIRE} <LOG> <LIST> <QUOTE> [EXPECTED]\n{MORE}"),
    (["attest", "--nonce", "00", "--require", "sha256", "L", "M", "Q"],
     f"error: invalid value 'sha256' for '{REQUIRE}': {malformed(1, 'sha256')}\n"),
    (["attest", "--nonce", "xy", "--require", "sha256", "L", "M", "Q"],
     f"error: invalid value 'xy' for '{NONCE}': it must be hexadecimal, two digits per byte\n"),
    *((["attest", "--nonce", "0" * 32, "--require", text, "L", "M", "Q"], f"error: invalid value '{text}' for '{REQUIRE}': {cause}\n")
      for text, cause in (
          ("sha256", malformed(1, "sha256")),
          ("sha256:0-9", UNBOUND),
          ("sha256:10", UNQUOTED.format(0)),
          ("sha256:0-2,sha384:4-10", UNQUOTED.format(3)),
          ("sha1:0-10", WEAK.format(0)),
          ("sha256:0-10,sha1:16", WEAK.format(16)),
      )),
]

# The type of an event that no H-CRTM leaves.
EV_S_CRTM_VERSION = 8

# After how many seconds a command that reads a pipe once more is ended: it would wait for ever.
PIPE_SECONDS = 60

# Names with bytes that a terminal acts upon (C0, DEL, C1, and a mark that turns the writing), or that are not ASCII, as they are shown.
NAMES = [
    ("a\x1b[2Jb", r"a\x1b[2Jb"),
    ("a\nverdict match", r"a\x0averdict match"),
    ("a\r\t\x07\x08b", r"a\x0d\x09\x07\x08b"),
    ("a\x7fb", r"a\x7fb"),
    ("a\x9b31mb", r"a\xc2\x9b31mb"),
    ("a\u202eb", r"a\xe2\x80\xaeb"),
    ("\u00e4 ~", r"\xc3\xa4 ~"),
]


class Ended(NamedTuple):
    """What a command left: its status, its output, and what the terminal, or else standard error, got."""

    status: int
    output: bytes
    said: bytes


class Command(NamedTuple):
    """A command beside the cases: what it shows, its words, what it shall leave on a terminal, and what is made of its process first."""

    title: str
    words: list
    wanted: Ended
    settle: object = None


def run_on_terminal(words, folder, given, output, settle=None, seconds=SECONDS, settings=None):
    """Runs the program with a terminal as its standard error, and returns its status and what that got."""
    ours, theirs = pty.openpty()
    tty.setraw(theirs)
    try:
        process = subprocess.Popen([PROGRAM, *words], stdin=given, stdout=output, stderr=theirs, cwd=folder, env=settings or {}, preexec_fn=settle)
    finally:
        os.close(theirs)
    said, end = b"", time.monotonic() + seconds
    try:
        while piece := read_piece(ours, end):
            said += piece
        return process.wait(max(1, end - time.monotonic())), said
    finally:
        process.kill()
        process.wait()
        os.close(ours)


def read_piece(terminal, end):
    """What the terminal gets next; nothing once the process has closed it, or after the end of its time."""
    if not select.select([terminal], [], [], max(0, end - time.monotonic()))[0]:
        return b""
    try:
        return os.read(terminal, MEBIBYTE)
    except OSError:  # EIO: the other side is closed
        return b""


def hints_due(words, folder, given):
    """What a terminal is to get after an answer to these words that something differs, where standard input has these bytes, if it is a file."""
    if words[0] not in SEEN_BY or not are_regular(words, folder, given):
        return b""
    return "".join(f"{line}\n" for line in next_steps(words, folder, given or b"")).encode()


def without_progress(said):
    """The same without the progress of a measurement, which a busy machine may show, if that is erased at the end."""
    return re.sub(rb"(?:\r\d+ of \d+ files\x1b\[K)+\r\x1b\[K", b"", said)


def case_fault(command, folder, output):
    """What is wrong with what a command of a case leaves on a terminal, or None."""
    try:
        with open(folder / command.input if command.input else os.devnull, "rb") as given, open(output, "wb") as sink:
            status, said = run_on_terminal(command.words, folder, given, sink)
        said = without_progress(said)
        text = output.read_bytes()
    except (OSError, subprocess.TimeoutExpired) as error:
        return str(error)
    line = fault_line_of(command.words, text) if status >= 2 else None
    given = (folder / command.input).read_bytes() if command.input else None
    lines = [*said_anyway(command.words, text), *said_of_padding(command.words, folder, given or b"")] if status == 0 else []
    anyway = "".join(f"{line}\n" for line in lines).encode()
    # (a case shows what comes elsewhere: of a difference only that no PCR was compared, which a terminal gets among the reasons)
    alone = f"{NO_EXPECTED}\n".encode() if status == 1 and NO_EXPECTED in command.wanted else b""
    # (this may move the output away)
    fault = fault_of(command, Answer(status, output, said if status >= 2 else anyway or alone), folder)
    if fault is not None:
        return f"the answer is another one:\n    {fault}"
    try:
        told = anyway + "".join(f"{line}\n" for line in said_of_match(command.words)).encode() if status == 0 else b""
        wanted = hints_due(command.words, folder, given) if status == 1 else told if line is None else said_of_error(command.words, line, folder, given)
        wanted = f"{UNSIGNED}\n".encode() if status == 4 and line is None else wanted
    except (Fault, KeyError, ValueError) as error:
        return f"no table has the words of {text!r}: {error!r}"
    if is_of_usage(said) if wanted is None else said == wanted:
        return None
    return f"the terminal got {said!r}, and not {'a text of clap' if wanted is None else wanted!r}"


def case_results():
    """Each command of the cases with small files, and what is wrong with what it leaves, or None."""
    shared = form.read_shared()
    for path in form.case_files():
        case = form.read_case(path)
        if not case.has_at_most(MOST_BYTES, shared):
            continue
        with tempfile.TemporaryDirectory() as name:
            folder, output = Path(name, "case"), Path(name, "output")
            folder.mkdir()
            case.lay(folder, shared)
            for command in case.commands:
                yield f"{case.name}: {command.text}", case_fault(command, folder, output)


def further_commands():
    """Commands whose words, process or output are such as no case can have."""
    refused = b"refused: command line\n"
    for words, text in USAGES:
        yield Command(f"clap's text: {words}", words, Ended(2, refused, text.encode()))
    for name, escaped in NAMES:
        unread = b"failed: read %s\n" % name.encode()
        yield Command(f"a name: {escaped}", ["show", name], Ended(3, unread, f"cannot read {escaped}: No such file or directory\n".encode()))
        empty = f"{name} is empty"
        said = f"{escaped} is empty: event 0: it is cut short\n{escaped} is empty: {EMPTY}\n".encode()
        yield Command(f"an empty log: {escaped}", ["events", empty], Ended(2, b"refused: log fault 1 at event 0\n", said))
    memory = b"failed: memory\n"
    yield Command("an argument that is not UTF-8", ["show", b"\xff"], Ended(3, memory, b"an argument is not UTF-8: rename the file, or give a link to it\n"))
    yield Command("little memory", ["registers", "large 0"], Ended(3, memory, OUT_OF_MEMORY), limit_memory)
    yield Command("a folder as standard input", [], Ended(3, b"failed: read -\n", b"cannot read standard input: Is a directory\n"),
                  lambda: give("."))
    endless = f"standard input is longer than 64 MiB\n{TOO_LONG}\n".encode()
    yield Command("standard input without an end", [], Ended(2, b"refused: too long -\n", endless),
                  lambda: give("/dev/zero"))
    yield Command("a folder as the standard input of events", ["events", "-"], Ended(3, b"failed: read -\n", b"cannot read standard input: Is a directory\n"),
                  lambda: give("."))
    yield Command("standard input of list without an end", ["list", "-"],
                  Ended(2, b"refused: too long -\n", endless), lambda: give("/dev/zero"))
    yield Command("a file of the name of standard input", ["show", "-"], Ended(3, b"failed: read -\n", b"cannot read -: here it is the name of a file: give /dev/stdin for standard input\n"))
    yield Command("a folder", ["show", "."], Ended(3, b"failed: read .\n", b"cannot read .: Is a directory\n"))
    for title, settle in (
        ("a full device", fill_output), ("a pipe that nobody reads", break_output), ("no standard output", lambda: os.close(1)),
    ):
        yield Command(title, ["registers", "L"], Ended(3, b"", NOT_WRITTEN), settle)
    yield Command("no standard input", [], Ended(3, b"failed: read -\n", b"cannot read standard input: Bad file descriptor\n"),
                  lambda: os.close(0))
    yield Command("no standard error", ["show", "none"], Ended(3, b"failed: read none\n", b""), lambda: os.close(2))


def hinted_commands():
    """Commands of which something differs, or of which an input is not what it should be; their status, and what to do next."""
    judged, quoted = ["firmware.log", "ima.list", "expected.txt"], ["--nonce", NONCE_GIVEN, "--signature-checked"]
    changed, lacks = f"sha256 PCR 4 differs: {OTHER_BOOT}", "EXPECTED lacks {} PCR {}: read it with the others"
    grown = ("PCR 10 covers the first 99 of 100 entries: the list grew after PCR 10 was read; collect again, or add --prefix to judge only the "
             "first 99")
    earlier = ("sha256 PCR 10 differs: read it and LIST again at the same time; if it still differs, a kernel before 5.8 extended it with zero-padded "
               "SHA-1 digests, or an entry is missing or was changed")
    other = AGGREGATES["wrong"]
    yield "all matches", ["verify", "--require=sha256:0-10", *judged], 0, []
    yield "a list that grew", ["verify", "firmware.log", "longer.list", "expected.txt"], 1, [grown]
    yield "a list that grew, in JSON", ["verify", "--json", "--require=sha256:0-10", "firmware.log", "longer.list", "expected.txt"], 1, [grown]
    yield "its prefix", ["verify", "--prefix", "firmware.log", "longer.list", "expected.txt"], 0, []
    yield "a quoted list that grew", ["attest", *quoted, "--require=sha256:0-10", "firmware.log", "longer.list", "quote.msg"], 1, [grown]
    yield "a list without its end", ["verify", "firmware.log", "shorter.list", "expected.txt"], 1, [earlier]
    yield "where its value is", ["locate", "firmware.log", "shorter.list", "expected.txt"], 1, [earlier]
    yield "a quoted list without its end", ["attest", *quoted, "--require=sha256:0-10", "firmware.log", "shorter.list", "quote.msg"], 1, [
        NOT_GIVEN]
    yield "the same with EXPECTED", [
        "attest", *quoted, "--require=sha256:0-10", "firmware.log", "shorter.list", "quote.msg", "expected.txt"], 1, [earlier]
    yield "the same with other values", [
        "attest", *quoted, "--require=sha256:0-10", "firmware.log", "shorter.list", "quote.msg", "changed.txt"], 1, [
        UNCONFIRMED]
    yield "another value", ["verify", "firmware.log", "ima.list", "changed.txt"], 1, [changed]
    yield "a value that is missing", ["verify", "--require=sha256:10-10", "firmware.log", "ima.list", "four.txt"], 1, [lacks.format("sha256", 10)]
    yield "nothing expected", ["replay", "ima.list", "empty"], 1, [NO_EXPECTED]
    yield "nothing to locate", ["locate", "firmware.log", "ima.list", "empty"], 1, [NO_EXPECTED]
    yield "a value of the log", ["replay", "ima.list", "four.txt"], 1, [
        "sha256 PCR 4 differs: replay reads no log; ima-agent verify does"]
    yield "no bank", ["verify", "firmware.log", "ima.list", "sha1.txt"], 1, [
        "sha1 is not a bank of LOG, so its PCRs cannot be judged: LOG is from another machine or was changed"]
    yield "an empty list", ["verify", "firmware.log", "empty", "expected.txt"], 1, [
        NO_ENTRIES]
    yield "another boot", ["verify", "firmware.log", "other.list", "empty"], 1, [
        other, NO_EXPECTED]
    yield "an aggregate of PCRs 0 to 7", ["verify", "firmware.log", "eight.list", "expected.txt"], 1, [OLD_AGGREGATE]
    yield "an aggregate of PCRs 0 to 7, by a quote", [
        "attest", *quoted, "--require=sha256:0-10", "firmware.log", "eight.list", "quote.msg"], 1, [OLD_AGGREGATE, NOT_GIVEN]
    yield "an entry alone", ["verify", "firmware.log", "end.list", "changed.txt"], 1, [
        AGGREGATES["missing"], changed]
    zero, event = changed.replace("PCR 4", "PCR 0"), f"event 1 extends PCR 10, which only the list should: {APART}"
    yield "an event of PCR 10", ["verify", "--require=sha256:10", "ten.log", "ima.list", "expected.txt"], 1, [other, event, zero]
    yield "more than three causes", ["verify", "--require=sha256:10+sha1:9", "ten.log", "ima.list", "expected.txt"], 1, [other, event, zero]
    yield "an entry of another PCR", ["replay", "--require=sha256:10", "nine.list", "ten.txt"], 1, [
        earlier, "entry 98 extends PCR 9, as a policy rule with pcr= requests; replay accepts only lists whose entries all extend PCR 10"]
    # (its prefix without that entry matches)
    eleven = f"entry 99 extends PCR 11, which only the log should: {APART}"
    yield "a list with an entry of PCR 11", ["verify", "firmware.log", "eleven.list", "expected.txt"], 1, [
        eleven, changed.replace("PCR 4", "PCR 11")]
    yield "what PCR 11 hides", ["verify", "--prefix", "firmware.log", "eleven.list", "expected.txt"], 0, []
    yield "PCR 11 where PCR 10 is required", ["verify", "--require=sha256:0-10", "firmware.log", "eleven.list", "expected.txt"], 1, [
        eleven, changed.replace("PCR 4", "PCR 11")]
    yield "PCR 11 by a quote", [
        "attest", *quoted, "--require=sha256:0-10", "firmware.log", "eleven.list", "quote.msg"], 1, [eleven]
    yield "a longer list with an entry of PCR 11", ["verify", "firmware.log", "both.list", "expected.txt"], 1, [
        earlier, eleven, changed.replace("PCR 4", "PCR 11")]
    yield "where a value of the log is", ["locate", "firmware.log", "ima.list", "changed.txt"], 1, [
        f"sha256 PCR 4 never has the expected value: {OTHER_BOOT}"]
    sha1 = re.sub("a kernel .* digests, or ", "", earlier.replace("sha256", "sha1"))
    yield "another value of SHA-1", ["replay", "ima.list", "sha1.ten.txt"], 1, [sha1]
    unknown = ("entry 93 is the first that matches no known digest: ima-agent show names its file; compare that with the file in its package")
    yield "files that are not known", ["verify", "--require=sha256:0-10", "--known=known", *judged], 1, [unknown]
    yield "files that are not known, by a quote", [
        "attest", *quoted, "--require=sha256:0-10", "--known=known", "firmware.log", "ima.list", "quote.msg"], 1, [unknown]
    yield "files that are not known, in a list alone", ["replay", "--require=sha256:10", "--known=known", "ima.list", "ten.txt"], 1, [unknown]
    yield "a list that grew by files that are not known", [
        "verify", "--require=sha256:0-10", "--known=known", "firmware.log", "longer.list", "expected.txt"], 1, [grown, unknown]
    started = ["hcrtm.log", "hcrtm.list"]
    yield "a machine that an H-CRTM started", ["verify", *started, "hcrtm.txt"], 1, [BY_HCRTM]
    yield "the same, told", ["verify", "--hcrtm", *started, "hcrtm.txt"], 0, []
    yield "its PCR 10 alone", ["verify", "--require=sha256:10", *started, "hcrtm.ten.txt"], 1, [BY_HCRTM]
    yield "its PCR 4, which differs, too", ["verify", *started, "hcrtm.four.txt"], 1, [BY_HCRTM]
    yield "that PCR 4, told", ["verify", "--hcrtm", *started, "hcrtm.four.txt"], 1, [changed]
    yield "where its values are", ["locate", *started, "hcrtm.txt"], 1, [BY_HCRTM]
    yield "its quote", ["attest", *quoted, "--require=sha256:0-10", *started, "hcrtm.msg"], 1, [BY_HCRTM]
    yield "its quote, told", ["attest", "--hcrtm", *quoted, "--require=sha256:0-10", *started, "hcrtm.msg"], 0, []
    yield "an option that tells nothing of this log", ["verify", "--hcrtm", "firmware.log", "ima.list", "changed.txt"], 1, [changed]
    yield "a list that is piped", ["verify", "firmware.log", "/dev/stdin", "expected.txt"], 1, []
    yield "a device as list", ["verify", "firmware.log", "/dev/null", "expected.txt"], 1, []
    links = [f"link to {name}" for name in ("firmware.log", "longer.list", "expected.txt")]
    yield "a list that grew, by links", ["verify", *links], 1, [grown]
    yield "a quoted list that grew, by links", ["attest", *quoted, "--require=sha256:0-10", *links[:2], "link to quote.msg"], 1, [grown]


def shown_commands():
    """Commands that leave nothing but their output on a terminal, and those that leave the same in a file."""
    verified = ["firmware.log", "ima.list", "expected.txt"]
    quoted = ["--quiet", "--nonce", NONCE_GIVEN, "--require", "sha256:0-10", "firmware.log", "ima.list", "quote.msg", "expected.txt"]
    judged = (["verify", *verified], ["verify", "--quiet", "firmware.log", "ima.list", "changed.txt"], ["verify", "--", *verified],
              ["verify", "--quiet", "--prefix", "--require", "sha256:0-10", "firmware.log", "longer.list", "expected.txt"],
              ["replay", "--quiet", "ima.list", "expected.txt"], ["replay", "ima.list"], ["attest", *quoted])
    for command, *rest in judged:
        yield [command, *rest], [command, "--terminal", *rest]
        yield [command, "--terminal", *rest], [command, "--terminal", *rest]
        yield [command, "--json", *rest], [command, "--json", *rest]
        if rest != ["ima.list"]:
            yield [command, "--summary", *rest], [command, "--summary", *rest]
    for words in (["show", "ima.list"], ["locate", "--quiet", *verified], ["registers", "firmware.log"], ["verify", "--quiet", "--summary", "firmware.log"]):
        yield words, words


def mistaken_commands():
    """Commands whose input is not what it should be, what is refused, and what is said: the row of the fault, and what the input is."""
    head, line, cut = LOG[2], EXPECTED[1].at("line", 1), LOG[1].at("event", "0")
    register, no_list = LIST[2].at("entry", "0"), TEXT[1].at("line", 1)
    for words, refused, name, row, mistake in (
        (["verify", "firmware.log", "ima.list", "tpm2_pcrread.txt"], "expected fault 1 at line 1", "tpm2_pcrread.txt", line, PRINTED_FOR_EXPECTED),
        (["events", "--explain", "--expected", "tpm2_pcrread.txt", "firmware.log"], "expected fault 1 at line 1", "tpm2_pcrread.txt", line,
         PRINTED_FOR_EXPECTED),
        (["verify", "firmware.log", "ima.list", "capital bank"], "expected fault 1 at line 1", "capital bank", line, CAPITALS),
        (["verify", "firmware.log", "ima.list", "short value"], "expected fault 1 at line 1", "short value", line, None),
        (["expected", "expected.txt"], "expected fault 1 at line 1", "expected.txt", line, EXPECTED_FOR_PRINTED),
        (["key", "AK.pem"], "key fault 1", "AK.pem", KEY[1].as_sentence(), PEM_FOR_AREA),
        (["key", "--json", "--print=pem", "empty"], "key fault 1", "empty", KEY[1].as_sentence(), None),
        (["verify", "firmware.log", "ima.ascii", "expected.txt"], "list fault 2 at entry 0", "ima.ascii", register, TEXT_FOR_LIST),
        (["verify", "ima.list", "firmware.log", "expected.txt"], "log fault 2", "ima.list", head, LIST_FOR_LOG),
        (["events", "ima.list"], "log fault 2", "ima.list", head, LIST_FOR_LOG),
        (["registers", "old.log"], "log fault 2", "old.log", head, OLD_LOG),
        (["registers", "empty"], "log fault 1 at event 0", "empty", cut, EMPTY),
        (["expected", "empty"], "expected fault 6", "empty", EXPECTED[6], NOTHING_PRINTED),
        (["registers", "L cut"], "log fault 1 at event 0", "L cut", cut, None),
        (["list", "ima.list"], "text list fault 1 at line 1", "ima.list", no_list, LIST_FOR_TEXT),
        (["list", "firmware.log"], "text list fault 1 at line 1", "firmware.log", no_list, LOG_FOR_LIST),
        (["log", "ima.list"], "log form fault 13", "ima.list", FORM[13], LIST_FOR_LOG),
        (["log", "empty"], "log form fault 1 at event 0", "empty", cut, EMPTY),
        (["log", "L cut"], "log form fault 1 at event 0", "L cut", cut, None),
        *((["registers", f"{name} is a list"], "log fault 2", f"{escaped} is a list", head, LIST_FOR_LOG) for name, escaped in NAMES),
        (["verify", "firmware.log", "link to ima.ascii", "expected.txt"], "list fault 2 at entry 0", "link to ima.ascii", register, TEXT_FOR_LIST),
        (["registers", "link to old.log"], "log fault 2", "link to old.log", head, OLD_LOG),
        (["registers", "/dev/null"], "log fault 1 at event 0", "/dev/null", cut, None),
        (["verify", "--require=sha256:0-10", "--known=known", "--known=ten.txt", "firmware.log", "ima.list", "expected.txt"],
         "known fault 2 at line 1", "ten.txt", KNOWN[2].at("line", 1), None),
    ):
        said = [f"{name}: {row.wrong}", f"{name}: {mistake}" if mistake else row.advice]
        line_of_fault = f"refused: {refused}\n"
        if "--json" in words:
            line_of_fault = json.dumps({"fault": {"kind": "key", "number": 1, "message": line_of_fault[:-1]}}, separators=(",", ":")) + "\n"
        yield f"{mistake or 'no mistake'}: {words}", words, line_of_fault.encode(), said


def weak_commands():
    """Commands whose answer is a match, or located values, and what a terminal gets where a PCR is required in the SHA-1 bank alone."""
    log, listed = "weak.log", "weak.list"
    yield ["verify", log, listed, "weak.txt"], []
    yield ["verify", "--require=sha1:0-10", log, listed, "weak.txt"], [ONLY_SHA1.format(0)]
    yield ["verify", "--json", "--require=sha1:10,4", log, listed, "weak.txt"], [ONLY_SHA1.format(4)]
    yield ["locate", "--require=sha1:10", log, listed, "weak.txt"], [ONLY_SHA1.format(10)]
    yield ["replay", "--require=sha1:10", listed, "weak.ten.txt"], [ONLY_SHA1.format(10)]
    yield ["verify", "--require=sha256:10", "firmware.log", "ima.list", "expected.txt"], []


def signed_commands():
    """Commands by a quote whose signature or key is refused, or at whose signature nobody looked; status, last line and what a terminal gets."""
    asked, quoted = ["--nonce", NONCE_GIVEN, "--require=sha256:0-10"], ["firmware.log", "ima.list", "quote.msg"]
    boot = ["boot", *asked, "--quote=quote.msg", "--list=ima.list"]
    yield "nobody looked", ["attest", *asked, *quoted], 4, b"signature not checked\n", [UNSIGNED]
    longer = ["firmware.log", "longer.list", "quote.msg"]
    yield "nobody looked, of a list that grew", ["attest", *asked, *longer], 4, b"signature not checked\n", [UNSIGNED]
    yield "nobody looked, as JSON", ["attest", "--json", *asked, *quoted], 4, b'"verdict":"signature not checked"}\n', [UNSIGNED]
    yield "nobody looked, of a boot", [*boot, "firmware.log"], 4, b"boot_variable unknown\n", [UNSIGNED]
    yield "the caller did", ["attest", "--signature-checked", *asked, *quoted], 0, b"verdict match\n", []
    yield "a valid signature", ["attest", "--key=AK.pem", "--signature=quote.sig", *asked, *quoted], 0, b"signature valid\nverdict match\n", []
    for key, signature, status, line, name, sentence, hint in (
        ("AK.pem", "empty", 4, "signature fault 1", "empty", SIGNATURE[1].as_sentence().wrong, SIGNATURE_HINTS[1]),
        ("AK.pem", "quote.msg", 4, "signature fault 2", "quote.msg", SIGNATURE[2].as_sentence().wrong, SIGNATURE_HINTS[2]),
        ("AK.pem", "changed.sig", 4, "signature fault 7", "changed.sig", SIGNATURE[7].as_sentence().wrong, SIGNATURE_HINTS[7]),
        ("short.pem", "quote.sig", 4, "signature fault 9", "short.pem", SIGNATURE[9].as_sentence().wrong, SIGNATURE_HINTS[9]),
        ("quote.msg", "quote.sig", 2, "key fault 1", "quote.msg", KEY[1].as_sentence().wrong, NO_AREA),
        ("empty", "quote.sig", 2, "key fault 1", "empty", KEY[1].as_sentence().wrong, NO_AREA),
    ):
        words, said = [f"--key={key}", f"--signature={signature}"], [f"{name}: {sentence}", hint]
        yield f"{line}, of {name}", ["attest", *words, *asked, *quoted], status, f"refused: {line}\n".encode(), said
        yield f"{line}, of {name} and a boot", [*boot, *words, "firmware.log"], status, f"refused: {line}\n".encode(), said
    for name in ("firmware.log", "ima.list", "quote.msg", "AK.pem", "quote.sig"):
        words = ["attest", "--key=AK.pem", "--signature=quote.sig", *asked, *quoted]
        piped = [each.replace(name, "pipe") for each in words]
        yield f"a pipe in place of {name}", piped, 3, b"failed: read pipe\n", ["cannot read pipe: it is not a regular file: copy it to one"]
    signed = [*asked, "--quote=quote.msg", "--key=AK.pem", "--signature=quote.sig"]
    for title, words in (
        ("as the log of a boot", ["boot", *signed, "--list=ima.list", "pipe"]),
        ("as the list of a boot", ["boot", *signed, "--list=pipe", "firmware.log"]),
        ("as the log of an earlier boot", ["boot", *signed, "--list=ima.list", "--before=pipe", "firmware.log"]),
        ("as the log of events", ["events", "--explain", *signed, "--list=ima.list", "pipe"]),
        ("as the list of events", ["events", "--explain", *signed, "--list=pipe", "firmware.log"]),
    ):
        yield f"a pipe {title}", words, 3, b"failed: read pipe\n", ["cannot read pipe: it is not a regular file: copy it to one"]


def piped_commands():
    """Commands with an input that is a pipe, of which something differs, or that refuse it: what to do next would be said of a file."""
    differs, quoted = ["firmware.log", "shorter.list", "expected.txt"], ["--nonce", NONCE_GIVEN, "--signature-checked", "--require=sha256:0-10"]
    attested = [*differs[:2], "quote.msg", "expected.txt"]
    for piped, words in (
        *((piped, ["verify", *differs]) for piped in differs),
        *((piped, ["locate", *differs]) for piped in differs),
        *((piped, ["replay", *differs[1:]]) for piped in differs[1:]),
        *((piped, ["attest", *quoted, *attested]) for piped in attested),
        ("saved", ["verify", "--resume", "saved", "firmware.log", "end.list", "changed.txt"]),
        ("saved.quoted", ["attest", *quoted, "--resume", "saved.quoted", "firmware.log", "end.list", "quote.msg"]),
        ("known", ["verify", "--require=sha256:0-10", "--known", "known", "firmware.log", "ima.list", "expected.txt"]),
        ("known", ["attest", *quoted, "--known", "known", "firmware.log", "ima.list", "quote.msg"]),
        ("known", ["replay", "--require=sha256:10", "--known", "known", "ima.list", "ten.txt"]),
    ):
        yield piped, words, 1
    for piped, words in (
        ("L cut", ["verify", "L cut", "ima.list", "expected.txt"]),
        ("ima.ascii", ["verify", "firmware.log", "ima.ascii", "expected.txt"]),
        ("ima.list", ["verify", "ima.list", "firmware.log", "expected.txt"]),
        ("tpm2_pcrread.txt", ["verify", "firmware.log", "ima.list", "tpm2_pcrread.txt"]),
        ("tpm2_pcrread.txt", ["attest", *quoted, "firmware.log", "ima.list", "quote.msg", "tpm2_pcrread.txt"]),
    ):
        yield piped, words, 2


def left_with_pipe(words, piped, folder, run):
    """What `run` leaves of these words, where one of their inputs is a pipe, which is filled once; None for its status if it reads that again."""
    file, kept = folder / piped, folder / "kept"
    data = file.read_bytes()
    file.rename(kept)
    os.mkfifo(file)
    filler = subprocess.Popen([sys.executable, "-c", "import sys; open(sys.argv[1], 'wb').write(open(sys.argv[2], 'rb').read())", file, kept],
                              stderr=subprocess.DEVNULL)
    try:
        return run(words, folder)
    except subprocess.TimeoutExpired:
        return Ended(None, data[:0], b"(it does not end)")
    finally:
        filler.kill()
        filler.wait()
        kept.replace(file)


def ended_elsewhere(words, folder):
    ran = subprocess.run([PROGRAM, *words], stdin=subprocess.DEVNULL, capture_output=True, cwd=folder, env={}, timeout=PIPE_SECONDS)
    return Ended(ran.returncode, ran.stdout, ran.stderr)


def ended_on_terminal(words, folder):
    with tempfile.TemporaryFile() as sink:
        status, said = run_on_terminal(words, folder, subprocess.DEVNULL, sink, seconds=PIPE_SECONDS)
        sink.seek(0)
        return Ended(status, sink.read(), said)


def limit_memory():
    resource.setrlimit(resource.RLIMIT_AS, (ADDRESS_SPACE, ADDRESS_SPACE))


def give(file):
    os.dup2(os.open(file, os.O_RDONLY), 0)


def pipe_list():
    """Gives the longer list in a pipe as standard input."""
    end, begin = os.pipe()
    if os.fork() == 0:
        os.close(end)
        with open("longer.list", "rb") as listed, open(begin, "wb") as pipe:
            pipe.write(listed.read())
        os._exit(0)
    os.close(begin)
    os.dup2(end, 0)


def fill_output():
    os.dup2(os.open("/dev/full", os.O_WRONLY), 1)


def break_output():
    end, begin = os.pipe()
    os.close(end)
    os.dup2(begin, 1)


def make_files(folder):
    (folder / "L").write_bytes(Log({SHA256.identifier: SHA256.size}, []).spelling() + bytes.fromhex(
        # (an event that extends register 4, so that there is a line to write)
        "04000000 04000000 01000000 0b00" + "11" * 32 + "00000000"))
    for name, _ in NAMES:
        (folder / f"{name} is empty").touch()
        shutil.copy(SAMPLES / "real-boot" / "ima.list", folder / f"{name} is a list")
    for number in range(LARGE_FILES):
        with open(folder / f"large {number}", "wb") as file:
            file.truncate(LARGE_BYTES)


def make_samples(folder):
    """The sample boot, what differs from it, and what is taken for it by mistake."""
    for name in ("firmware.log", "ima.list", "ima.ascii", "expected.txt", "tpm2_pcrread.txt"):
        shutil.copy(SAMPLES / "real-boot" / name, folder)
    for name in ("quote.msg", "quote.sig", "AK.pem"):
        shutil.copy(SAMPLES / "quoted" / name, folder)
    signature = (folder / "quote.sig").read_bytes()
    (folder / "changed.sig").write_bytes(signature[:-1] + bytes([signature[-1] ^ 1]))
    (folder / "short.pem").write_text((folder / "AK.pem").read_text().rstrip("\n"))
    os.mkfifo(folder / "pipe")
    shutil.copy(SAMPLES / "ovmf-boot" / "secure-boot.list", folder / "other.list")
    listed, values = (folder / "ima.list").read_bytes(), (folder / "expected.txt").read_text()
    (folder / "longer.list").write_bytes(listed + listed[-95:])
    (folder / "shorter.list").write_bytes(listed[:-95])
    (folder / "end.list").write_bytes(listed[-95:])
    registers, first = read_log((folder / "firmware.log").read_bytes()).registers(), read_prefix(listed, 0)[0][0]
    joined = b"".join(registers.value(SHA256, register) for register in OLD_REGISTERS)
    of_eight = entry_of(IMA_NG, SHA256, SHA256.hash(joined), BOOT_AGGREGATE)
    (folder / "eight.list").write_bytes(of_eight.spelling() + listed[len(first.spelling()):])
    (folder / "changed.txt").write_text(re.sub("^sha256 4 .*", f"sha256 4 {'ab' * 32}", values, flags=re.MULTILINE))
    (folder / "four.txt").write_text(re.search("^sha256 4 .*", values, re.MULTILINE)[0])
    (folder / "ten.txt").write_text(re.search("^sha256 10 .*", values, re.MULTILINE)[0])
    eleven = b"\x0b" + listed[-94:]
    (folder / "eleven.list").write_bytes(listed + eleven)
    (folder / "both.list").write_bytes(listed + eleven + listed[-95:])
    (folder / "nine.list").write_bytes(listed[:-95] + b"\x09" + listed[-94:])
    (folder / "ten.log").write_bytes((folder / "L").read_bytes().replace(bytes.fromhex("04000000 04000000"), bytes.fromhex("0a000000 04000000")))
    (folder / "sha1.ten.txt").write_text(f"sha1 10 {'ab' * 20}\n")
    shutil.copy(SAMPLES / "known" / "SHA256SUMS", folder / "known")
    (folder / "capital bank").write_text(values.replace("sha256", "SHA256"))
    (folder / "short value").write_text("sha256 0 00\n")
    (folder / "sha1.txt").write_text(values + f"sha1 10 {'00' * 20}\n")
    (folder / "empty").touch()
    (folder / "L cut").write_bytes((folder / "L").read_bytes()[:40])
    # (an event of TPM 1.2: register, type, SHA-1, size and data)
    (folder / "old.log").write_bytes(bytes.fromhex("00000000 08000000" + "11" * 20 + "02000000 0000"))
    make_boot(folder, "hcrtm", SHA256, Event(0, EV_EFI_HCRTM_EVENT, {SHA256.identifier: SHA256.hash(b"HCRTM")}, b"HCRTM"))
    make_boot(folder, "weak", SHA1, Event(0, EV_S_CRTM_VERSION, {SHA1.identifier: SHA1.hash(b"1")}, b"1"))
    for name in ("firmware.log", "longer.list", "expected.txt", "quote.msg", "ima.ascii", "old.log"):
        (folder / f"link to {name}").symlink_to(name)


def make_boot(folder, name, algorithm, event):
    """A log of this event and a list, with the values that they make where an H-CRTM's event tells where the machine started, and a quote of these."""
    log = Log({algorithm.identifier: algorithm.size}, [event]).spelling()
    registers = read_log(told_log(log)).registers()
    entry = entry_of(IMA_NG, algorithm, registers.boot_aggregate(algorithm), BOOT_AGGREGATE)
    replay(registers, [entry])
    values = {register: registers.value(algorithm, register) for register in range(11)}
    rows = {register: f"{algorithm.name} {register} {value.hex()}\n" for register, value in values.items()}
    (folder / f"{name}.log").write_bytes(log)
    (folder / f"{name}.list").write_bytes(entry.spelling())
    (folder / f"{name}.txt").write_text("".join(rows.values()))
    (folder / f"{name}.ten.txt").write_text(rows[10])
    (folder / f"{name}.four.txt").write_text("".join({**rows, 4: f"{algorithm.name} 4 {'ab' * algorithm.size}\n"}.values()))
    (folder / f"{name}.msg").write_bytes(quote_of(algorithm, SHA256.hash(b"".join(values.values()))))


def quote_of(algorithm, digest):
    """A quote of PCRs 0 to 10 of a bank, for the nonce that is given (docs/layouts.txt)."""
    nonce = bytes.fromhex(NONCE_GIVEN)
    head = b"\xffTCG\x80\x18" + bytes(2) + len(nonce).to_bytes(2, "big") + nonce
    clock = bytes(8 + 4 + 4) + b"\x01" + bytes(8)
    selection = (1).to_bytes(4, "big") + algorithm.identifier.to_bytes(2, "big") + b"\x03\xff\x07\x00"
    return head + clock + selection + len(digest).to_bytes(2, "big") + digest


def left_on_terminal(command, folder):
    with tempfile.TemporaryFile() as sink:
        status, said = run_on_terminal(command.words, folder, subprocess.DEVNULL, sink, command.settle)
        sink.seek(0)
        return Ended(status, sink.read(), said)


def left_elsewhere(command, folder):
    ran = subprocess.run([PROGRAM, *command.words], stdin=subprocess.DEVNULL, capture_output=True, cwd=folder, env={}, timeout=SECONDS,
                         preexec_fn=command.settle)
    return Ended(ran.returncode, ran.stdout, ran.stderr)


def progress_fault(said, count, end):
    """What is wrong with the progress of so many files, or None: numbers that rise, each over the one before, erased before the end."""
    found = re.fullmatch(rb"((?:\r\d+ of %d files\x1b\[K)+)\r\x1b\[K(.*)" % count, said, re.DOTALL)
    if found is None or found[2] != end:
        return f"the terminal got {said!r}"
    numbers = [int(number) for number in re.findall(rb"\r(\d+) of", found[1])]
    rises = all(first < second for first, second in zip(numbers, numbers[1:]))
    return None if len(numbers) > 1 and rises and numbers[-1] <= count else f"the numbers are {numbers}"


def paced(folder, names, paces, settings=None):
    """What a terminal gets of a measurement of pipes that are closed after these times, how long it took, and for how long it went on after the
    first of these times."""
    passed = []

    def close_in_turn():
        for name, pace in zip(names, paces):
            with open(folder / name, "wb"):
                time.sleep(pace)
                passed.append(time.monotonic())

    thread, begun = threading.Thread(target=close_in_turn, daemon=True), time.monotonic()
    thread.start()
    words = ["measure", "--workers", "1", "L", *names]
    status, said = run_on_terminal(words, folder, subprocess.DEVNULL, subprocess.DEVNULL, settings=settings)
    end = time.monotonic()
    return said if status == 0 else f"status {status}, {said}", end - begun, end - passed[0]


class Cases(harness.TestCase):
    """Commands of the cases."""

    def test_cases(self):
        results = list(case_results())
        faults = [f"{title!r}: {fault}" for title, fault in results if fault is not None]
        self.check_all("commands of the cases, on a terminal", len(results) - len(faults), faults)


class Further(harness.TestCase):
    """Commands that no case can have, in a folder with their files."""

    def setUp(self):
        self.room = self.folder()
        make_files(self.room)

    def test_commands(self):
        for command in further_commands():
            self.check(f"{command.title}, on a terminal", left_on_terminal(command, self.room), command.wanted)
            self.check(f"{command.title}, elsewhere", left_elsewhere(command, self.room), command.wanted)

    def test_hints(self):
        """What to do next comes on a terminal, and elsewhere only by --explain, but that nothing was compared; status and output are those without."""
        make_samples(self.room)
        for title, words, status, hints in hinted_commands():
            said = "".join(f"{hint}\n" for hint in hints).encode()
            command = Command(title, words, None, pipe_list if "/dev/stdin" in words else None)
            explained = command._replace(words=[words[0], "--explain", *words[1:]])
            plain = left_elsewhere(command, self.room)
            anyway = f"{NO_EXPECTED}\n".encode() if NO_EXPECTED in hints else b""
            self.check(f"{title}, elsewhere", (plain.status, plain.said), (status, anyway))
            self.check(f"{title}, on a terminal", left_on_terminal(command, self.room), plain._replace(said=said))
            self.check(f"{title}, explained", left_elsewhere(explained, self.room), plain._replace(said=said))
            self.check(f"{title}, explained on a terminal", left_on_terminal(explained, self.room), plain._replace(said=said))

    def test_nothing_compared(self):
        """That a match compared nothing is told everywhere, but not with --quiet."""
        make_samples(self.room)
        quiet = left_elsewhere(Command(None, ["verify", "firmware.log", "ima.list", "empty", "-q"], None), self.room)
        self.check("nothing compared, and silence", (quiet.status, quiet.said), (0, b""))
        for words in ([], ["--json"], ["--explain"]):
            command = Command(None, ["verify", *words, "firmware.log", "ima.list", "empty"], None)
            for place, leave in {"on a terminal": left_on_terminal, "elsewhere": left_elsewhere}.items():
                ended = leave(command, self.room)
                self.check(f"nothing compared {words}, {place}", (ended.status, ended.said), (0, f"{NO_EXPECTED}\n".encode()))

    def test_matches(self):
        """That PCRs were required in the SHA-1 bank alone is told on a terminal, and nowhere else."""
        make_samples(self.room)
        for words, lines in weak_commands():
            command, said = Command(None, words, None), "".join(f"{line}\n" for line in lines).encode()
            plain = left_elsewhere(command, self.room)
            self.check(f"{words}, elsewhere", (plain.status, plain.said), (0, b""))
            self.check(f"{words}, on a terminal", left_on_terminal(command, self.room), plain._replace(said=said))
            explained = command._replace(words=[words[0], "--explain", *words[1:]])
            self.check(f"{words}, explained", left_elsewhere(explained, self.room), plain)

    def test_signatures(self):
        """What to do about a signature or a key comes everywhere; no pipe is read where a signature is verified."""
        make_samples(self.room)
        for title, words, status, end, lines in signed_commands():
            said = "".join(f"{line}\n" for line in lines).encode()
            plain = ended_elsewhere(words, self.room)
            self.check(f"{title}, elsewhere", (plain.status, plain.output[-len(end):], plain.said), (status, end, said))
            self.check(f"{title}, on a terminal", ended_on_terminal(words, self.room), plain._replace(said=said))
            if words[0] == "attest":
                self.check(f"{title}, explained", ended_elsewhere(["attest", "--explain", *words[1:]], self.room), plain._replace(said=said))

    def test_pipes(self):
        """An input that is a pipe is read once, so that a command ends, and nothing is said of what to do next."""
        make_samples(self.room)
        quoted = ["attest", "--nonce", NONCE_GIVEN, "--signature-checked", "--require=sha256:0-10"]
        for words in (["verify", "--save=saved", "firmware.log", "ima.list", "expected.txt"],
                      [*quoted, "--save=saved.quoted", "firmware.log", "ima.list", "quote.msg"]):
            self.check(f"a checkpoint: {words}", ended_elsewhere(words, self.room).status, 0)
        for piped, words, status in piped_commands():
            plain = ended_elsewhere(words, self.room)
            sentence = b"" if status == 1 else said_of_error(words, plain.output[:-1], self.room, None, is_piped=True)
            said = b"" if status == 1 else said_of_error(words, plain.output[:-1], self.room, None)
            self.check(f"{words}, elsewhere", (plain.status, plain.said), (status, said))
            wanted, title = plain._replace(said=sentence), f"{words}, {piped} a pipe"
            explained = [words[0], "--explain", *words[1:]]
            self.check(f"{title}, explained", left_with_pipe(explained, piped, self.room, ended_elsewhere), wanted)
            self.check(f"{title}, on a terminal", left_with_pipe(words, piped, self.room, ended_on_terminal), wanted)

    def test_mistakes(self):
        """An input that is not what it should be is told everywhere, but not with --quiet."""
        make_samples(self.room)
        for title, words, line, lines in mistaken_commands():
            command, said = Command(title, words, None), "".join(f"{each}\n" for each in lines).encode()
            self.check(f"{title}, on a terminal", left_on_terminal(command, self.room), Ended(2, line, said))
            self.check(f"{title}, elsewhere", left_elsewhere(command, self.room), Ended(2, line, said))
            for option in ("-q", "--quiet"):
                quiet = command._replace(words=[words[0], option, *words[1:]])
                self.check(f"{title}, {option}", left_elsewhere(quiet, self.room), Ended(2, line, b""))
                self.check(f"{title}, {option}, on a terminal", left_on_terminal(quiet, self.room), Ended(2, line, b""))

    def test_waiting(self):
        """Without arguments a terminal that is standard input, too, is told what is read, and nothing else is."""
        ours, theirs = pty.openpty()
        try:
            os.write(ours, b"\x04")  # the end of what is typed
            status, said = run_on_terminal([], self.room, theirs, subprocess.DEVNULL)
            os.write(ours, b"\x04")
            elsewhere = subprocess.run([PROGRAM], stdin=theirs, stdout=subprocess.DEVNULL, stderr=subprocess.PIPE, env={}, timeout=SECONDS)
        finally:
            os.close(theirs)
            os.close(ours)
        sentence = b"standard input: event 0: it is cut short\nCopy the log again.\n"
        self.check("nothing typed", (status, said), (2, WAITING + sentence))
        self.check("nothing typed, elsewhere", (elsewhere.returncode, elsewhere.stderr), (2, sentence))
        status, said = run_on_terminal([], self.room, subprocess.DEVNULL, subprocess.DEVNULL)
        self.check("nothing given", (status, said), (2, sentence))

    def test_order(self):
        """Where the output and standard error are one terminal, the line of a refusal comes before the sentence."""
        found = run_on_terminal(["show", "none"], self.room, subprocess.DEVNULL, subprocess.DEVNULL, lambda: os.dup2(2, 1))
        wanted = (3, b"failed: read none\ncannot read none: No such file or directory\n")
        self.check("a refusal, all on one terminal", found, wanted)

    def test_looks(self):
        """Where the output is a terminal, a report has PCRs at reset last, unless another form is asked for."""
        make_samples(self.room)
        for words, like in shown_commands():
            found = run_on_terminal(words, self.room, subprocess.DEVNULL, subprocess.DEVNULL, lambda: os.dup2(2, 1))
            self.check(f"{words}, its output on a terminal", found, reference.answer(like, self.room))
        names = "<LOG> <LIST> <EXPECTED>"
        lacking = "".join(f"  {name}\n" for name in names.split())
        text = f"error: the following required arguments were not provided:\n{lacking}\nUsage: ima-agent verify {names}\n{MORE}"
        found = run_on_terminal(["verify"], self.room, subprocess.DEVNULL, subprocess.DEVNULL, lambda: os.dup2(2, 1))
        self.check("a refusal, all on one terminal, of the arguments as they were given", found, (2, b"refused: command line\n" + text.encode()))

    def test_pace(self):
        """Measurements of pipes show each number in turn, from 1 on, after more than a second, and none before."""
        names = [f"pipe {number}" for number, _ in enumerate(PACES)]
        for name in names:
            os.mkfifo(self.room / name)
        said, *_ = paced(self.room, names, PACES)
        wanted = b"".join(b"\r%d of %d files\x1b[K" % (number + 1, len(names)) for number, _ in enumerate(names)) + b"\r\x1b[K"
        self.check("a measurement of pipes", said, wanted)
        for _ in range(ATTEMPTS):
            said, seconds, _ = paced(self.room, names[:1], (0.5,))
            if seconds < 1:
                break
        self.check("a measurement of less than a second", (said, seconds < 1), (b"", True))

    def test_pace_after_a_wait(self):
        """After a file that took seconds the next numbers come no faster than others."""
        names = [f"late pipe {number}" for number, _ in enumerate(LATE_PACES)]
        for name in names:
            os.mkfifo(self.room / name)
        said, _, seconds = paced(self.room, names, LATE_PACES)
        shown = len(re.findall(rb"\r\d+ of", said))
        is_slow = 0 < shown <= 1 + seconds / INTERVAL
        self.check("a measurement that was held up", None if is_slow else f"{shown} numbers in {seconds} seconds: {said!r}", None)

    def test_clock(self):
        """Where the clock fails, at once or later, a measurement shows no number from then on, and ends as ever."""
        self.needs("cc")
        clock, source, pipe = self.room / "clock.so", self.room / "clock.c", self.room / "clock's pipe"
        source.write_text(CLOCK)
        subprocess.run(["cc", "-shared", "-fPIC", "-o", clock, source], check=True)
        os.mkfifo(pipe)
        for calls, wanted in ((0, b""), (1, b""), (MANY_CALLS, b"\r1 of 1 files\x1b[K\r\x1b[K")):
            said, *_ = paced(self.room, [pipe.name], PACES[:1], {"LD_PRELOAD": str(clock), "CLOCK_CALLS": str(calls)})
            self.check(f"a clock that gives the time {calls} times", said, wanted)

    def test_progress(self):
        """Measurements that last: of files that are all there, and with one at the end that is not."""
        files = [f"large {number}" for number in range(LARGE_FILES)]
        for title, names, end in (
            ("a long measurement", files, b""),
            ("a long measurement that fails", [*files, "none"], b"cannot read none: No such file or directory\n"),
        ):
            command = Command(title, ["measure", "--workers", "1", "L", *names], None)
            found, plain = left_on_terminal(command, self.room), left_elsewhere(command, self.room)
            self.check(f"{title}, on a terminal", progress_fault(found.said, len(names), end), None)
            is_same = found[:2] == plain[:2] and (found.status == 0) == (end == b"")
            self.check(f"{title}, elsewhere", None if is_same and plain.said == end else f"{found[:2]} on a terminal, and {plain}", None)


if __name__ == "__main__":
    sys.exit(harness.main())
