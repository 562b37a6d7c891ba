#!/usr/bin/env python3
"""Refuses each allocation in turn, in the tests made for it and in the program; and measures large files in little memory.

tests/faults/sweep.py [ROOT]: the tree with the test binaries and the program that `rt ci` made; by default the one that this file is in.

Each test whose name contains `each_allocation_refused`, and a command of each kind that the cases have, runs again and again. In the
Nth run its Nth allocation is refused (tests/faults/refuse.c), until a run ends with none refused. A test must pass each time. A command must
answer as its case wants, or with `failed: memory`, which `--json` has as JSON, and status 3. `show`, `events --json` and `events --explain` may
print lines that are due before that. A test or command without a refused allocation fails, and so does a run that crashes or takes longer than a minute.
Allocations of a test's binary that runs no test do not count: a test makes as many before it begins. What a test allocates to prepare its
call does count, since nothing outside shows where that begins.

Each crate of crates.txt that has such tests in its sources must have its binary, which must list just these. The public calls of the libraries
must have their tests (tests/faults/calls.py). The help of the program and
of each command must be among the commands, with a file of its case that it has to be, and so must each command with `--json`.

Commands are of one kind if they have the same word, options and status, as many names (three or more are alike) and files of known digests (two or
more are alike), the same fault where they are refused, and both or neither ask for help or the version, name a sample, or have a text with more
names. Of each kind the first runs, in the order of the cases, that names no file of the system, in a case whose files have at most 64 KiB.

Before that, the program measures 50 files of 40 MiB within 64 MiB of address space. It shows a list of 64 MiB as text and as JSON, with a peak of
memory at most 8 MiB above that of an empty list. It replays a log of 64 MiB, of events of 16 bytes, and shows its events, with a peak at most as
much above the log's size."""

import json
import os
import re
import resource
import shutil
import subprocess
import sys
import tempfile
from concurrent.futures import ThreadPoolExecutor
from dataclasses import dataclass
from pathlib import Path

HERE = Path(__file__).resolve().parent
sys.path[:0] = [str(HERE.parent), str(HERE.parent / "cases")]

import calls  # noqa: E402
import form  # noqa: E402
import harness  # noqa: E402
import reference  # noqa: E402
from answers import answer_of, fault_of, given_to  # noqa: E402
import said  # noqa: E402
from calls import REFUSED, TEST  # noqa: E402
from reference.command_line import COMMANDS, HelpAsked, asks_for_help, asks_for_version, read_arguments  # noqa: E402
from reference.faults import Fault  # noqa: E402
from reference.log import EV_NO_ACTION, Event, Log, read_log  # noqa: E402
from reference.measurement_list import BOOT_AGGREGATE, IMA_NG, entry_of, list_text  # noqa: E402
from reference.registers import SHA256  # noqa: E402

SECONDS = 60
MOST_REFUSALS = 100_000
MOST_BYTES = 64 * 1024
NO_TEST = "no test has this name"
CRATE = re.compile(r"^(\w+)[^:#\n]*:", re.MULTILINE)
OUT_OF_MEMORY = (3, b"failed: memory\n", said.OUT_OF_MEMORY)
OUT_OF_MEMORY_AS_JSON = (3, b'{"fault":{"kind":"memory","message":"failed: memory"}}\n', said.OUT_OF_MEMORY)
FAULT = re.compile(r"(?:refused|failed): (?:job \d+ )?(?:(.* fault \d+)|(read|write|too long|not UTF-8|[a-z ]+))")
MEBIBYTE = 1 << 20
LARGE_FILES = 50
LARGE_FILE_BYTES = 40 * MEBIBYTE
ADDRESS_SPACE = 64 * MEBIBYTE
LARGE_SECONDS = 600
LARGE_LIST_BYTES = 64 * MEBIBYTE
LARGE_LOG_BYTES = 64 * MEBIBYTE
MOST_ABOVE_EMPTY = 8 * MEBIBYTE


@dataclass(frozen=True)
class TestRun:
    """A test that is made for refused allocations, and how many its binary makes before it runs one."""

    binary: Path
    name: str
    before: int = 0

    def title(self):
        return f"{self.binary.name}: {self.name}"

    def fault(self, settings, met):
        """What is wrong with a run under these settings, or None."""
        try:
            ran = subprocess.run([self.binary, self.name], stdin=subprocess.DEVNULL, capture_output=True, timeout=SECONDS,
                                 env={**os.environ, **settings})
        except subprocess.TimeoutExpired:
            return f"more than {SECONDS} seconds"
        return None if ran.returncode == 0 else f"status {ran.returncode}, {(ran.stdout + ran.stderr)[-500:]!r}"


@dataclass(frozen=True)
class CommandRun:
    """A command of a case, whose files are in a folder."""

    program: Path
    case: form.Case
    command: form.Command
    folder: Path
    before = 0  # (that it cannot obtain its arguments is an answer of the program, too)

    def title(self):
        return f"{self.case.name}:{self.command.line}: {self.command.text}"

    def wants_of_memory(self):
        """The answers of which one is due out of memory: with `--json` the plain one while the arguments are read."""
        return (OUT_OF_MEMORY, OUT_OF_MEMORY_AS_JSON) if "--json" in self.command.words else (OUT_OF_MEMORY,)

    def lacks_line(self, found):
        """Whether an answer is that of a fault whose words were said, and whose line as JSON lacked memory."""
        if self.command.status < 2 or "--json" not in self.command.words or found[:2] != OUT_OF_MEMORY_AS_JSON[:2]:
            return False
        text = "".join(f"{line}\n" for line in self.command.wanted).encode()
        due = said.said_of_end(self.command.words, self.command.status, text, self.folder, given_to(self.command, self.folder))
        return said.is_of_usage(found[2]) if due is None else found[2] == due

    def output_of_memory(self, output):
        """What is due out of memory, of an output: of a list's lines, or a log's lines of JSON or of events that are explained, the last, if
        those before it are the first that the case wants."""
        is_sent = self.command.words[:1] == ["show"] or self.command.words[:1] == ["events"] and {"--json", "--explain"} & set(self.command.words)
        if not is_sent:
            return output
        *lines, last = output.splitlines(keepends=True) or [b""]
        file = self.folder / (self.command.output or "")
        wanted = file.read_bytes().splitlines(keepends=True) if file.is_file() else [line.encode() + b"\n" for line in self.command.wanted]
        return last if lines == wanted[: len(lines)] else output

    def fault(self, settings, met):
        """What is wrong with a run under these settings, in which an allocation was refused if the file `met` is there, or None."""
        with tempfile.TemporaryDirectory() as name:
            answer = answer_of(self.program, self.command, self.folder, Path(name, "output"), settings)
            output = self.output_of_memory(answer.output.read_bytes())
            found = answer.status, output, answer.errors
            if met.exists() and (found in self.wants_of_memory() or self.lacks_line(found)):
                return None
            return fault_of(self.command, answer, self.folder, is_short_of_memory=met.exists())


def is_explained(command):
    """Whether standard error has what to do next, and why the command failed. (Events are explained in the output.)"""
    return "--explain" in command.words and command.words[0] != "events"


def request_of(command, folder):
    """What a command with a word asks for: its options, how many names it has, three or more being alike, and whether a text in its
    folder has more."""
    names, given = read_arguments(COMMANDS[command.words[0]], command.words[1:])
    listed = folder / given.pop("--files-from", "")
    has_listed = listed.is_file() and listed.stat().st_size > 0
    given |= {name: True for name in ("--save", "--resume", "--nonce", "--expected", "--quote", "--list", "--before") if name in given}
    given |= {name: len(values) for name, values in given.items() if isinstance(values, list)}
    options = frozenset((name, value if isinstance(value, str) else value == 1) for name, value in given.items())
    return options, min(len(names), 3), has_listed


def kind_of(command, folder):
    """What a command, which is run in this folder, has in common with those of its kind."""
    word = command.words[0] if command.words else ""
    names_sample = any(it and it.startswith(form.SAMPLES) for it in (*command.words, command.input))
    try:
        request = request_of(command, folder) if word in COMMANDS else (asks_for_help(word), asks_for_version(word))
    except (Fault, HelpAsked) as cause:
        request = type(cause)
    fault = FAULT.search(command.wanted[-1]) if command.status > 1 and command.wanted else None
    return word if word in COMMANDS else "", request, command.status, fault and fault.groups(), names_sample


def command_runs(program, folder):
    """A run of a command of each kind; and what is wrong with cases."""
    if not program.is_file():
        raise FileNotFoundError(program)
    shared, runs, faults = form.read_shared(), {}, []
    for number, path in enumerate(form.case_files()):
        try:
            case = form.read_case(path)
            if case.has_at_most(MOST_BYTES, shared):
                home = folder / f"case-{number}"
                home.mkdir()
                case.lay(home, shared)
                for command in case.commands:
                    run = CommandRun(program, case, command, home)
                    if any(name and not (home / name).exists() for name in (command.output, command.saved)):
                        run.fault({}, home / "none")  # (it makes a file for those after it)
                    kind = kind_of(command, home)
                    if kind not in runs and not any(word.startswith("/") for word in command.words):
                        if command.saved:  # (nothing else then runs where it saves)
                            own = folder / f"case-{number}-{command.line}"
                            run = CommandRun(program, case, command, shutil.copytree(home, own, symlinks=True))
                        runs[kind] = run
        except form.Malformed as fault:
            faults.append(f"{path}:{fault}")
    return list(runs.values()), faults + json_faults(runs.values())


def help_faults(runs):
    """What is wrong if not each help is among the runs, with a file that it has to be."""
    asked = {run.command.words[0] if run.command.words[1:] else "" for run in runs if run.command.output and
             any(map(asks_for_help, run.command.words))}
    return [f"no case has the help of {word or 'the program'} as a file" for word in ("", *COMMANDS) if word not in asked]


def json_faults(runs):
    """What is wrong if not each command that has JSON is among the runs with an output as JSON."""
    shown = {run.command.words[0] for run in runs if "--json" in run.command.words and run.command.status < 2}
    return [f"no case has {word} --json" for word, command in COMMANDS.items() if "--json" in command.options and word not in shown]


def tests_in(crate):
    """The names of the tests in a crate's sources that are made for refused allocations, without their modules."""
    for file in sorted(crate.glob("src/**/*.rt")):
        is_named = REFUSED in file.relative_to(crate).as_posix()
        yield from (name for name in TEST.findall(file.read_text()) if is_named or REFUSED in name)


def tests_of(binary):
    """The tests that a binary lists and that are made for refused allocations."""
    listing = subprocess.run([binary, "--list"], capture_output=True, timeout=SECONDS, check=True)
    names = (line.removesuffix(": test").strip() for line in listing.stdout.decode().splitlines())
    return [name for name in names if REFUSED in name]


def test_runs(root, library, folder):
    """The tests of every crate that are made for refused allocations; and what is wrong with crates."""
    runs, faults = [], []
    for name in CRATE.findall((root / "crates.txt").read_text()):
        crate = root / "crates" / name
        binary, wanted = crate / "out" / f"{name}_tests", sorted(tests_in(crate))
        if not wanted:
            continue
        try:
            found = tests_of(binary)
            before = allocations_of(TestRun(binary, NO_TEST), library, folder)
            runs += [TestRun(binary, test, before) for test in found]
            if sorted(test.split("::")[-1] for test in found) != wanted:
                faults.append(f"{name}: of the tests {wanted} the binary has {found}")
        except (OSError, subprocess.SubprocessError) as error:
            faults.append(f"{name}: {error}")
    return runs, faults


def faults_of(run, library, folder):
    """What is wrong with a run in which allocation 1 is refused, then 2, and so on as long as one is refused; then of one with none."""
    for number in range(1, MOST_REFUSALS):
        met = folder / f"met-{os.urandom(8).hex()}"
        yield run.fault({"LD_PRELOAD": str(library), "REFUSED_ALLOCATION": str(number), "REFUSAL_MET": str(met)}, met)
        if not met.exists():
            return
        met.unlink()
    yield "there is no end to it"


def allocations_of(run, library, folder):
    """How many allocations can be refused in a run, whatever comes of it."""
    return sum(1 for _ in faults_of(run, library, folder)) - 1


def sweep(run, library, folder):
    """How many allocations were refused, but for those before it begins, and what was wrong with the first wrong run, or None."""
    number = 0
    for number, fault in enumerate(faults_of(run, library, folder), 1):
        if fault is not None:
            return number, f"allocation {number}: {fault}"
    refusals = number - 1 - run.before
    return refusals, None if refusals > 0 else "no allocation was refused"


def check_runs(test, runs, tried, counted):
    """Checks runs side by side. Of each, which has a title, `tried` says how many calls were counted, and what is wrong, or None."""
    total = 0
    with ThreadPoolExecutor(os.cpu_count()) as pool:
        for run, (count, fault) in zip(runs, pool.map(tried, runs)):
            total += count
            test.check(f"{run.title()}: {count} {counted}", fault, None)
    print(f"{total} {counted}", flush=True)


def peak_of(words, folder, output):
    """The exit status of a command, whose output goes to a file, and its peak memory in bytes."""
    with open(output, "wb") as sink:
        told = subprocess.run([sys.executable, "-S", "-E", HERE.parents[1] / "tools/bench/peak.py", *words], cwd=folder, stdin=subprocess.DEVNULL,
                              stdout=sink, stderr=subprocess.PIPE, timeout=LARGE_SECONDS).stderr
    status, kibibytes = map(int, told.split())
    return status, kibibytes * 1024


class Sweep(harness.TestCase):
    def setUp(self):
        self.root, self.room = harness.argument(harness.ROOT), self.folder()
        self.program = self.root / harness.PROGRAM.relative_to(harness.ROOT)

    def test_large_files(self):
        """50 files of 40 MiB measured within 64 MiB of address space"""
        log = self.root / "samples/real-boot/firmware.log"
        names = [f"large-{number:02}" for number in range(LARGE_FILES)]
        with open(self.room / names[0], "wb") as file:
            file.truncate(LARGE_FILE_BYTES)
        for name in names[1:]:
            os.link(self.room / names[0], self.room / name)
        digest = SHA256.hash(bytes(LARGE_FILE_BYTES))
        aggregate = read_log(log.read_bytes()).registers().boot_aggregate(SHA256)
        files = [(BOOT_AGGREGATE, aggregate), *((name.encode(), digest) for name in names)]
        wanted = list_text(entry_of(IMA_NG, SHA256, digest, name) for name, digest in files)
        ended = subprocess.run(
            [self.program, "measure", "--workers", "2", log, *names],
            cwd=self.room, stdin=subprocess.DEVNULL, capture_output=True, timeout=LARGE_SECONDS,
            preexec_fn=lambda: resource.setrlimit(resource.RLIMIT_AS, (ADDRESS_SPACE, ADDRESS_SPACE)),
        )
        if ended.returncode != 0 or sorted(ended.stdout.splitlines()) != sorted(wanted.splitlines()):
            self.fail(f"status {ended.returncode}, {(ended.stdout + ended.stderr)[-500:]!r}")

    def test_large_list(self):
        """a list of 64 MiB as text and as JSON within 8 MiB more than an empty one"""
        entry = entry_of(IMA_NG, SHA256, SHA256.hash(b""), b"/usr/bin/program")
        count = LARGE_LIST_BYTES // len(entry.spelling())
        (self.room / "empty-list").write_bytes(b"")
        (self.room / "large-list").write_bytes(entry.spelling() * count)
        wanted = json.dumps({**entry.as_json(0), "entry": "N"}, separators=(",", ":")).replace('"N"', "%d").encode() + b"\n"
        output = self.room / "large-list.shown"
        for options, line_of, last in (([], lambda _: entry.line(), b""), (["--json"], lambda number: wanted % number, b'{"entries":%d}\n' % count)):
            (empty_status, least), (status, peak) = (
                peak_of([self.program, "show", *options, name], self.room, output) for name in ("empty-list", "large-list"))
            with open(output, "rb") as lines:
                wrong = next((number for number in range(count) if lines.readline() != line_of(number)), None)
                rest = lines.read()
            self.assertEqual((empty_status, status), (0, 0))
            self.assertIsNone(wrong, "a wrong line")
            self.assertEqual(rest, last)
            self.assertLessEqual(peak, least + MOST_ABOVE_EMPTY)

    def test_large_log(self):
        """a log of 64 MiB of small events within its size and 8 MiB"""
        small = Event(0, EV_NO_ACTION, {}, b"")
        header, event = Log({SHA256.identifier: SHA256.size}, []).spelling(), small.spelling()
        count = (LARGE_LOG_BYTES - len(header)) // len(event)
        (self.room / "empty-list").write_bytes(b"")
        (self.room / "empty-log").write_bytes(header)
        (self.room / "large-log").write_bytes(header + event * count)
        (self.room / "expected").write_text(f"sha256 0 {bytes(SHA256.size).hex()}\n")
        output = self.room / "large-log.text"
        line = small.line("%d", False).encode()
        lines = b"".join(line % number for number in range(1, count + 1))
        for words, more in ((["registers", "LOG"], b""), (["events", "LOG"], lines), (["verify", "LOG", "empty-list", "expected"], b""),
                            (["locate", "LOG", "empty-list", "expected"], b""), (["measure", "LOG", "empty-list"], b"")):
            empty, large = ([name if word == "LOG" else word for word in words] for name in ("empty-log", "large-log"))
            wanted_status, wanted = reference.answer(empty, self.room, b"")
            _, least = peak_of([self.program, *empty], self.room, output)
            status, peak = peak_of([self.program, *large], self.room, output)
            text = output.read_bytes()
            if (status, text) != (wanted_status, wanted.replace(b"events 0 ", b"events %d " % count) + more):
                self.fail(f"{words[0]}: status {status}, {text[:200]!r}")
            self.assertLessEqual(peak, least + len(header) + len(event) * count + MOST_ABOVE_EMPTY, words[0])

    def test_allocations(self):
        library = self.room / "refuse.so"
        subprocess.run(["cc", "-O2", "-shared", "-fPIC", "-o", library, HERE / "refuse.c", "-ldl"], check=True)
        (tests, faults), (commands, wrong_cases) = test_runs(self.root, library, self.room), command_runs(self.program, self.room)
        faults += calls.faults_of(self.root) + wrong_cases + help_faults(commands)
        faults += [f"no {what} is made to have an allocation refused" for what, runs in (("test", tests), ("case", commands)) if not runs]
        for fault in faults:
            self.check("the tests and cases", fault, None)
        check_runs(self, [*tests, *commands], lambda run: sweep(run, library, self.room), "allocations refused")


if __name__ == "__main__":
    sys.exit(harness.main())
