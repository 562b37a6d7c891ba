#!/usr/bin/env python3
"""Asks the program about inputs near its limit of 64 MiB, and about inputs of very many parts, which are more than a case can hold.

tests/cases/limits.py [--library FILE] [PROGRAM]: by default the program that was built in this tree, and no library for C.

The program must answer what `tests/reference/` answers: to the same inputs, to these without lines and names that are skipped, or of parts
that come again and again, which the reference need not read. What the program must refuse goes by docs/cli.md ('Input').
The library for C is asked too, wherever it has the function of a command. It takes longer inputs. Memory is ample: up to 2 GB are used.
The script counts commands."""

import argparse
import os
import select
import subprocess
import sys
from contextlib import nullcontext
from dataclasses import dataclass
from pathlib import Path
from typing import Callable, Optional

sys.path.insert(0, str(Path(__file__).resolve().parents[1]))
import harness  # noqa: E402
import reference  # noqa: E402
from c_library import MOST_BYTES, Library  # noqa: E402
from harness import ROOT  # noqa: E402
from reference.boot_answers import Boot  # noqa: E402
from reference.event_data import brief  # noqa: E402
from reference.event_texts import guid_text  # noqa: E402
from reference.fields import number  # noqa: E402
from reference.json_texts import json_text  # noqa: E402
from reference.keys import PEM_LINE  # noqa: E402
from reference.known_files import Unknown  # noqa: E402
from reference.log import Event, Log  # noqa: E402
from reference.log_forms import EV_EFI_HCRTM_EVENT  # noqa: E402
from reference.measurement_list import BOOT_AGGREGATE, IMA_NG, Entry, entry_of, list_spelling, list_text, replay  # noqa: E402
from reference.registers import ALGORITHMS, SHA1, SHA256, Registers, register_line, register_words  # noqa: E402
from reference.texts import Expected, pcrread_text  # noqa: E402
from reference.verdict import locate, verdict, verdict_report  # noqa: E402
from said import said_of_end  # noqa: E402

parser = argparse.ArgumentParser(usage="tests/cases/limits.py [--library FILE] [PROGRAM]")
parser.add_argument("--library", type=Library)
parser.add_argument("program", nargs="?", type=Path, default=harness.PROGRAM)
ASKED = parser.parse_args()
SECONDS = 240  # after which a command hangs, however busy the machine is
MEBIBYTE = 1 << 20
SIZES = (63 * MEBIBYTE, MOST_BYTES, MOST_BYTES + 1, 65 * MEBIBYTE)
# (the two in the middle are of no concern to the library)
LIBRARY_SIZES = (SIZES[0], SIZES[-1])
FILES = 250_000
MISSING = 8_000_000
CONTENT_BYTES = 16 * MEBIBYTE
# (nearly as many as the system takes)
WORDS = 200_000
# (an argument is shorter than 128 KiB)
RANGES, REGISTERS_MORE = 10_900, 65_000
MOST_SHOWN = 200
BANKS = {algorithm.identifier: algorithm.size for algorithm in ALGORITHMS}
BANK = {SHA256.identifier: SHA256.size}
REQUIRE = ",".join(f"{algorithm.name}:0-23" for algorithm in ALGORITHMS)


# Inputs of a size.


def separator_of(size, banks=BANKS):
    """An event with so many bytes of data that extends register 4."""
    return Event(4, 4, {identifier: bytes(digest) for identifier, digest in banks.items()}, b"\xab" * size)


def payload_of(size):
    """An entry of an unknown template with a payload of a size."""
    payload = b"\xab" * size
    return Entry(10, SHA1.hash(payload), b"ima-xx", payload)


def log_of_size(size):
    return Log(BANKS, [separator_of(size - len(LOG.spelling()))]).spelling()


def started_of_size(size):
    """A log of a machine that an H-CRTM started."""
    hcrtm = separator_of(0)._replace(register=0, type=EV_EFI_HCRTM_EVENT)
    return Log(BANKS, [hcrtm, separator_of(size - len(Log(BANKS, [hcrtm, separator_of(0)]).spelling()))]).spelling()


def list_of_size(size):
    """The sample list, and one more entry."""
    return list_spelling([*ENTRIES, payload_of(size - len(list_spelling([*ENTRIES, payload_of(0)])))])


def bytes_of_size(size):
    """Bytes in which no prefix comes again at a power of two."""
    return (bytes(range(251)) * (size // 251 + 1))[:size]


def with_empty_lines(text, end=b"\n"):
    return lambda size: end * (size - len(text)) + text


def with_bytes_after(data):
    return lambda size: data + bytes(size - len(data))


def printed_of_size(size):
    """What tpm2_pcrread prints, after a bank that is not known, with very many lines."""
    line, text = b"    0 : 0x00\n", PRINTED.encode()
    head = b"  sm3_256:\n"
    count, rest = divmod(size - len(head) - len(text), len(line))
    return b"\n" * rest + head + line * count + text


def known_of_size(size):
    """Known digests, of which one has very many lines, and one line a long name."""
    line = f"{'0' * 64}  \n".encode()
    count, rest = divmod(size - len(KNOWN), 2 * len(line))
    return KNOWN[:-1] + b"a" * (rest + count * len(line)) + b"\n" + line * count


def pem_of_size(size):
    """PEM of very many lines, which is no key's."""
    begin, end = (b"-----%s PUBLIC KEY-----\n" % word for word in (b"BEGIN", b"END"))
    count, rest = divmod(size - len(begin) - len(end), PEM_LINE + 1)
    return begin + (b"A" * PEM_LINE + b"\n") * count + b"A" * rest + end


def hexadecimal_of_size(size):
    """A log of half as many bytes, after a space if the size is odd."""
    return b" " * (size % 2) + log_of_size(size // 2).hex().encode()


# A log of each bank and a list, with the registers after both.
LOG = Log(BANKS, [separator_of(0)])
REGISTERS = LOG.registers()
ENTRIES = [
    entry_of(IMA_NG, SHA256, REGISTERS.boot_aggregate(SHA256), BOOT_AGGREGATE),
    entry_of(IMA_NG, SHA256, SHA256.hash(b"abc"), b"/bin/sh"),
]
replay(REGISTERS, ENTRIES)
EXPECTED = "".join(register_line(*row) for row in REGISTERS.rows())
PRINTED = pcrread_text(REGISTERS)
NAMES = b"f\nL\n"
# The digest of a file that the list has.
KNOWN = f"{SHA256.hash(b'abc').hex()}  sh\n".encode()
# The message of the sample's quote, but of the registers after this log and list.
SAMPLE = ROOT / "samples/quoted"
QUOTE = (SAMPLE / "quote.msg").read_bytes()[: -SHA256.size] + SHA256.hash(b"".join(REGISTERS.value(SHA256, register) for register in range(11)))
AREA = (ROOT / "samples/keys/ak-rsassa.pub").read_bytes()
# A key that signed the sample's quote, and so not this one, and signatures by it, in both forms.
KEY, SIGNATURE, TPM_SIGNATURE = ((SAMPLE / name).read_bytes() for name in ("AK.pem", "quote.sig", "quote.tpmt"))
BY_QUOTE = f"attest --nonce {(SAMPLE / 'nonce').read_text().strip()} --require sha256:0-10"
ATTEST = f"{BY_QUOTE} --signature-checked"


@dataclass(frozen=True)
class Input:
    """What the program reads as `input`, or as its standard input if no command names that; the commands that read it; and, if the
    reference would take long, what has the same answers."""

    title: str
    of_size: Callable
    commands: tuple
    short: Optional[bytes] = None


INPUTS = (
    Input("log of one event", log_of_size, (
        "registers input", "events input", "events --data input", "events --explain input", "verify input list expected", "locate input list expected",
        "measure input f", f"{ATTEST} input list quote", "boot --expected expected input", "boot --before input --expected expected L",
        "log input",
    )),
    Input("log of a machine that an H-CRTM started", started_of_size, ("registers --hcrtm input", "events --hcrtm input")),
    Input("list with a long payload", list_of_size, (
        "show input", "replay input", f"replay --require {REQUIRE} input expected", "verify L input expected",
        "locate L input expected", f"{ATTEST} L input quote", f"{ATTEST} --prefix L input quote",
    )),
    Input("message that goes on after a quote", with_bytes_after(QUOTE), (
        f"{ATTEST} L list input", f"{BY_QUOTE} --key key --signature signature L list input",
    ), QUOTE + b"\0"),
    Input("public area and bytes after it", with_bytes_after(AREA), (
        "key input", "key --endorsement input", f"{BY_QUOTE} --key input --signature signature L list quote",
    ), AREA + b"\0"),
    Input("PEM and bytes after it", with_bytes_after(KEY), (f"{BY_QUOTE} --key input --signature signature L list quote",), KEY + b"\0"),
    Input("PEM of very many lines", pem_of_size, (f"{BY_QUOTE} --key input --signature signature L list quote",), pem_of_size(1000)),
    Input("signature and bytes after it", with_bytes_after(TPM_SIGNATURE), (
        f"{BY_QUOTE} --key key --signature input L list quote",
    ), TPM_SIGNATURE + b"\0"),
    Input("96 expected registers after empty lines", with_empty_lines(EXPECTED.encode()), (
        "verify L list input", f"verify --require {REQUIRE} L list input", "locate L list input", f"replay --require {REQUIRE} list input",
        "events --explain --expected input L", "boot --expected input L",
    ), EXPECTED.encode()),
    Input("known digests", known_of_size, (
        f"verify --require {REQUIRE} --known input L list expected", f"replay --require {REQUIRE} --known input --known short list expected",
        f"{ATTEST} --known input L list quote", f"verify --require {REQUIRE} --prefix --known input L list expected",
    ), KNOWN),
    Input("96 registers of tpm2_pcrread after empty lines", with_empty_lines(PRINTED.encode()), ("expected input",), PRINTED.encode()),
    Input("96 registers of tpm2_pcrread after another bank", printed_of_size, (
        "expected input", "expected --registers 0-10 input",
    ), PRINTED.encode()),
    Input("two names after empty lines", with_empty_lines(NAMES), ("measure --workers 1 L --files-from input",), NAMES),
    Input("two names after NULs", with_empty_lines(NAMES.replace(b"\n", b"\0"), b"\0"), (
        "measure --workers 1 --null L --files-from input",
    ), NAMES.replace(b"\n", b"\0")),
    Input("file", bytes_of_size, tuple(f"measure --alg {algorithm.name} L input" for algorithm in ALGORITHMS)),
    Input("log in hexadecimal", hexadecimal_of_size, ("",)),
    Input("log in hexadecimal after spaces", with_empty_lines(LOG.spelling().hex().encode(), b" "), ("",)),
)


def many_events(size, event):
    """A log of an event again and again, with at most so many bytes, and these bytes."""
    head, spelling = Log(BANK, []).spelling(), event.spelling()
    count = (size - len(head)) // len(spelling)
    return Log(BANK, [event] * count), head + spelling * count


def variable(vendor, name, value):
    """The data of a variable."""
    name = name.encode("utf-16-le")
    return vendor + number(len(name) // 2, 8) + number(len(value), 8) + name + value


def contents(size):
    """Data with as many parts as some bytes can have: what these are, a type that has this form, the data, and what it says."""
    nodes, image = size // 4, {"location": "0x0", "size": "0x0", "link_address": "0x0"}
    path = "/".join(["Path(1,7)"] * nodes)
    yield "nodes", 0x80000003, bytes(24) + number(4 * nodes, 8) + b"\1\7\4\0" * nodes, {"image": {**image, "path": path}}
    listed, vendor = bytes(16) + number(28) + number(0) + number(16), bytes.fromhex("cbb219d73a3d9645a3bcdad00e67656f")
    value, lists = listed * (size // 28), [{"type": guid_text(bytes(16)), "count": 0, "owners": []}] * (size // 28)
    says = {"guid": guid_text(vendor), "name": "db", "value": value.hex(), "lists": lists}
    yield "lists of signatures", 0x80000001, variable(vendor, "db", value), {"variable": says}
    entry = bytes(56) + "a".encode("utf-16-le") * 36
    partition = {"type": guid_text(bytes(16)), "guid": guid_text(bytes(16)), "first": "0x0", "last": "0x0", "attributes": "0x0", "name": "a" * 36}
    table = b"EFI PART" + bytes(76) + number(128) + bytes(4) + number(size // 128, 8) + entry * (size // 128)
    yield "partitions", 0x80000006, table, {"gpt": {"disk": guid_text(bytes(16)), "partitions": [partition] * (size // 128)}}
    yield "characters", 5, b"\1" * size, {"text": "\1" * size}
    yield "units", 5, b"\xff\0" * (size // 2) + b"\0\0", {"text": "\xff" * (size // 2)}


def many_entries(size, entry, file):
    """An entry again and again, with at most so many bytes, which the file gets."""
    count = size // len(entry.spelling())
    file.write_bytes(entry.spelling() * count)
    return [entry] * count


def add_to(file, data):
    with open(file, "ab") as stream:
        stream.write(data)


def booted(log, event, matching):
    """What `boot` answers on a log of an event again and again."""
    lines = [line.text for line in Boot(log._replace(events=[event]), matching).lines()]
    return "".join(f"{again}\n" for line in lines for again in (
        (line.replace("image 1 ", f"image {number} ", 1) for number in range(1, len(log.events) + 1)) if line.startswith("image 1 ") else [line]))


def answer_of(judged):
    """The answer to a command that judges, of its text and whether that is well."""
    text, is_well = judged
    return 0 if is_well else 1, text


class Limits(harness.TestCase):
    """Asks the program, and the library for C if there is one, in a folder of each test."""

    def setUp(self):
        self.room = self.folder()

    def ask(self, title, words, wanted, given=None):
        """Wants a status and a text, a str or bytes, of the program, where `given` names its standard input."""
        with open(self.room / given, "rb") if given else nullcontext(subprocess.DEVNULL) as stream:
            try:
                ran = subprocess.run([ASKED.program.resolve(), *words], cwd=self.room, env={}, stdin=stream, capture_output=True, timeout=SECONDS)
                found, errors = (ran.returncode, ran.stdout), ran.stderr
                if found[0] > 1 and errors == said_of_end(words, *found, self.room, None):
                    errors = b""  # (these words are due)
            except subprocess.TimeoutExpired:
                found, errors = (None, b""), f"more than {SECONDS} seconds".encode()
        self.compare(f"{title}: {' '.join(words)[:MOST_SHOWN]}", found, wanted, errors)

    def has_function(self, words):
        """Whether the library has a function for this command."""
        return ASKED.library is not None and ASKED.library.takes(words, self.room, 2 * MOST_BYTES)

    def ask_library(self, title, words, wanted):
        """Wants the same of the library, which has a function for this."""
        self.compare(f"the library, {title}: {' '.join(words)[:MOST_SHOWN]}", ASKED.library.answer(words, self.room), wanted)

    def compare(self, title, found, wanted, errors=b""):
        (status, text), (wanted_status, wanted_text) = found, wanted
        wanted_text = wanted_text.encode() if isinstance(wanted_text, str) else wanted_text
        is_wanted = (status, text, errors) == (wanted_status, wanted_text, b"")
        self.check(title, None if is_wanted else f"status {status}, {len(text)} bytes that end in {(text + errors)[-200:]!r}", None)

    def ask_of_parts(self, title, wanted):
        for command, answer in wanted.items():
            words = command.split()
            self.ask(title, words, answer)
            if self.has_function(words):
                self.ask_library(title, words, answer)

    def ask_of_size(self, title, words, short, is_asked):
        """One command, which the reference answers in the folder `short`; of the program only if that is asked."""
        size = (self.room / "input").stat().st_size
        name = "input" if words else "-"
        is_taken, has_function = size <= MOST_BYTES, size in LIBRARY_SIZES and self.has_function(words)
        if is_taken or has_function:
            try:
                unlimited = reference.answer(words, short, b"" if words else (short / "input").read_bytes(), 2 * MOST_BYTES)
            except reference.LacksCryptography:
                with self.subTest(title=title):
                    self.lacks("cryptography for Python")
                return
        if is_asked:
            self.ask(title, words, unlimited if is_taken else (2, f"refused: too long {name}\n"), None if words else "input")
        if has_function:
            self.ask_library(title, words, unlimited)

    def test_sizes(self):
        """Each input by each command, of sizes up to the limit and just above it; a longer one by one command alone, but by each function."""
        shorter = self.folder()
        for each in (self.room, shorter):
            files = {"L": LOG.spelling(), "list": list_spelling(ENTRIES), "expected": EXPECTED.encode(), "f": b"abc", "quote": QUOTE,
                     "short": KNOWN, "key": KEY, "signature": SIGNATURE}
            for name, data in files.items():
                (each / name).write_bytes(data)
        for size in SIZES:
            for it in INPUTS:
                (self.room / "input").write_bytes(it.of_size(size))
                if it.short is not None:
                    (shorter / "input").write_bytes(it.short)
                for command in it.commands:
                    is_asked = size <= MOST_BYTES + 1 or command == it.commands[0]
                    self.ask_of_size(f"{it.title}, {size} bytes", command.split(), self.room if it.short is None else shorter, is_asked)

    def test_events(self):
        """Logs with an event again and again: the shortest, which is not extended, and one that is, also in hexadecimal."""
        (self.room / "list").write_bytes(b"")
        for size, event in ((60 * MEBIBYTE, Event(0, 3, {}, b"")), (24 * MEBIBYTE, separator_of(4, BANK))):
            log, spelling = many_events(size, event)
            (self.room / "log").write_bytes(spelling)
            registers = log.registers()
            rows = [Expected(SHA256, 4, registers.value(SHA256, 4)), Expected(SHA256, 0, registers.value(SHA256, 0))]
            (self.room / "expected").write_text("".join(row.line() for row in rows))
            line, numbers = event.line("{}", False), range(1, len(log.events) + 1)
            self.ask_of_parts(f"{len(log.events)} events", {
                "registers log": (0, registers.text()),
                "events log": (0, Log(BANK, []).text() + "".join(map(line.format, numbers))),
                "verify log list expected": answer_of(verdict(log, [], rows)),
                "boot --expected expected log": (0, booted(log, event, {(SHA256, row.register) for row in rows})),
            })
        log, spelling = many_events(30 * MEBIBYTE, event)
        (self.room / "hexadecimal").write_bytes(spelling.hex().encode())
        self.ask(f"{len(log.events)} events in hexadecimal", [], (0, log.registers().text()), "hexadecimal")

    def test_contents(self):
        """Events whose data has very many parts, with what it says."""
        for title, kind, data, content in contents(CONTENT_BYTES):
            event = Event(5, kind, {SHA256.identifier: bytes(SHA256.size)}, data)
            (self.room / "log").write_bytes(Log(BANK, [event]).spelling())
            self.ask_of_parts(f"very many {title}", {
                "events --explain log": (0, f"{Log(BANK, []).text()}1 {register_words(5)} {event.type_name} claimed\n  {json_text(brief('content', content))}\n"),
            })

    def test_entries(self):
        """Lists with an entry again and again: one with a payload of a MiB, a measurement, and, for three commands, the shortest violation, which is
        no known file's."""
        log = Log(BANK, [])
        (self.room / "L").write_bytes(log.spelling())
        for size, entry in ((63 * MEBIBYTE, payload_of(MEBIBYTE - 100)), (24 * MEBIBYTE, ENTRIES[1])):
            entries, registers = many_entries(size, entry, self.room / "list"), Registers(ALGORITHMS)
            replay(registers, entries)
            rows = [Expected(SHA256, 10, registers.value(SHA256, 10)), Expected(SHA256, 23, registers.value(SHA256, 23))]
            (self.room / "expected").write_text("".join(row.line() for row in rows))
            self.ask_of_parts(f"{len(entries)} entries", {
                "show list": (0, entry.line() * len(entries)),
                "replay list": (0, registers.text()),
                "verify L list expected": answer_of(verdict(log, entries, rows)),
                "locate L list expected": answer_of(locate(log, entries, rows)),
            })
        violation = Entry(10, bytes(20), b"", b"")
        entries = many_entries(63 * MEBIBYTE, violation, self.room / "list")
        row = Expected(SHA256, 10, bytes(SHA256.size))
        (self.room / "expected").write_text(row.line())
        (self.room / "known").write_bytes(KNOWN)
        unknown = verdict_report(log, entries, [row], {(SHA256, 10)}).looked_at(Unknown(0, range(len(entries))))
        self.ask_of_parts(f"{len(entries)} entries", {
            "show list": (0, violation.line() * len(entries)),
            "verify L list expected": answer_of(verdict(log, entries, [row])),
            "verify --require sha256:10 --known known L list expected": answer_of((unknown.text(), unknown.matches)),
        })

    def test_changed_list(self):
        """A list that another process changes once its lines come: what was read of it then counts, and a fault comes after these."""
        file, entry = self.room / "list", ENTRIES[1]
        size, line = len(entry.spelling()), entry.line()
        for title, change, lines, last, status in (
            ("is cut within an entry", lambda half: os.truncate(file, half * size + 1), 0.5, "refused: list fault 1 at entry {}\n", 2),
            ("is cut after an entry", lambda half: os.truncate(file, half * size), 0.5, "", 0),
            ("grows", lambda _: add_to(file, entry.spelling()), 1, "", 0),
            ("is removed", lambda _: file.unlink(), 1, "", 0),
        ):
            count = len(many_entries(24 * MEBIBYTE, entry, file))
            lines = int(count * lines) + (title == "grows")
            with subprocess.Popen([ASKED.program.resolve(), "show", "list"], cwd=self.room, env={}, stdout=subprocess.PIPE) as process:
                # (its pipe holds 64 KiB, and 24 MiB are read twice)
                select.select([process.stdout], [], [], SECONDS)
                change(count // 2)
                text, _ = process.communicate(timeout=SECONDS)
            self.compare(f"a list that {title} while it is shown", (process.returncode, text), (status, line * lines + last.format(lines).encode()))

    def test_files(self):
        """Very many names of one file, by folders that are this one: more than `--limit` is by default; and a book that is full just then. And
        many more of a file that is not there."""
        for digit in range(10):
            (self.room / str(digit)).symlink_to(".")
        names = ["/".join(f"{number:06}") + "/f" for number in range(FILES)]
        (self.room / "L").write_bytes(LOG.spelling())
        (self.room / "f").write_bytes(b"abc")
        (self.room / "names").write_text("".join(f"{name}\n" for name in names))
        opening, digest = entry_of(IMA_NG, SHA256, LOG.registers().boot_aggregate(SHA256), BOOT_AGGREGATE), SHA256.hash(b"abc")
        entries = [opening, *(entry_of(IMA_NG, SHA256, digest, name.encode()) for name in names)]
        registers = LOG.registers()
        replay(registers, entries)
        for limit, options, answer in (
            (FILES + 1, "", (0, list_text(entries))),
            (FILES + 1, " --print registers", (0, registers.text())),
            (FILES + 1, " --print binary", (0, list_spelling(entries))),
            (FILES, "", (2, f"refused: job {FILES - 1} book fault 7\n")),
        ):
            words = f"measure --workers 1 --limit {limit}{options} L --files-from names".split()
            self.ask(f"{FILES} names", words, answer)
        (self.room / "names").write_bytes(b"x\n" * MISSING)
        self.ask(f"{MISSING} names", "measure L --files-from names".split(), (3, "failed: read x\n"))

    def test_words(self):
        """Very many words, and words as long as the system takes: a file named again and again before another one, a selection, and names in
        the lines of faults."""
        files = {"L": LOG.spelling(), "list": list_spelling(ENTRIES), "expected": EXPECTED.encode(), "f": b"abc", "g": b"abc",
                 "printed": PRINTED.encode()}
        for name, data in files.items():
            (self.room / name).write_bytes(data)
        entries = [ENTRIES[0], *(entry_of(IMA_NG, SHA256, SHA256.hash(b"abc"), name) for name in (b"f", b"g"))]
        for workers in "28":
            words = ["measure", "--workers", workers, "--limit", str(2 * WORDS), "L", *["f"] * (WORDS - 1), "g"]
            self.ask(f"{WORDS} names as words", words, (0, list_text(entries)))
        for command in ("verify L list expected", "locate L list expected", "replay list expected"):
            word, *names = command.split()
            wanted = reference.answer([word, "--require", "sha256:0-23", *names], self.room)
            for text in (",".join(["sha256:0-23"] * RANGES), "sha256:all" + "+9" * REGISTERS_MORE):
                self.ask_of_parts("very many parts", {f"{word} --require {text} {' '.join(names)}": wanted})
        for first, more in (("sha512:4", "+4"), ("4", ",4")):
            wanted = reference.answer(["expected", "--registers", first, "printed"], self.room)
            self.ask_of_parts("very many parts", {f"expected --registers {first}{more * REGISTERS_MORE} printed": wanted})
        longest = "./" * 2045 + "names"
        for data, command, fault in (
            (b"\xff" + bytes(MOST_BYTES), f"show {longest}", (2, f"refused: too long {longest}\n")),
            (b"\xff", f"measure L --files-from {longest}", (2, f"refused: not UTF-8 {longest}\n")),
            (b"", f"show {longest[:-1]}", (3, f"failed: read {longest[:-1]}\n")),
        ):
            (self.room / "names").write_bytes(data)
            self.ask("a name of 4,095 bytes", command.split(), fault)


if __name__ == "__main__":
    sys.exit(harness.main())
