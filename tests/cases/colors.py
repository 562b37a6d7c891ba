#!/usr/bin/env python3
"""Tries the colours of reports: which words have them, and where a report has them.

tests/cases/colors.py [PROGRAM]: by default the program that was built in this tree.

Each command of the cases whose report may have colours, and whose files have at most 4 MiB, runs with `--color always`, too. It must then end as
without, with the colours of tests/reference/colors.py, and JSON with none. Other commands on the sample boot show where a report has colours: on
which terminal, with which environment, and by which arguments."""

import os
import pty
import subprocess
import sys
import tempfile
import tty
from pathlib import Path

sys.path.insert(0, str(Path(__file__).resolve().parents[1]))
import form  # noqa: E402
import harness  # noqa: E402
from answers import answer_of  # noqa: E402
from reference.colors import GREEN, RESET, SEQUENCE, colored, without_colors  # noqa: E402
from reference.command_line import COMMANDS  # noqa: E402

PROGRAM = harness.argument()
BOOT = harness.ROOT / "samples/real-boot"
SECONDS = 60
MOST_BYTES = 4 << 20
FEWEST = 100  # (commands with colours, so that none is passed over)
ALWAYS = "--color=always"
FILES = ["firmware.log", "ima.list", "expected.txt"]
JUDGED = ["verify", *FILES]
# An argument that ends the options, or one that is not whole: then there are no others.
NO_ROOM = ("--help", "-h", "--version", "-V")


def may_color(words):
    return bool(words) and "--color" in COMMANDS.get(words[0], COMMANDS["show"]).options and not any(word in NO_ROOM for word in words)


def case_results():
    """Each command of the cases whose report may have colours, and what is wrong with its answer with colours, or None."""
    shared = form.read_shared()
    for path in form.case_files():
        case = form.read_case(path)
        commands = [command for command in case.commands if may_color(command.words)]
        if not commands or not case.has_at_most(MOST_BYTES, shared):
            continue
        with tempfile.TemporaryDirectory() as name:
            folders = [Path(name, each) for each in ("plain", "colored")]
            for folder in folders:
                folder.mkdir()
                case.lay(folder, shared)
            for command in commands:
                yield f"{case.name}: {command.text}", *answers_fault(command, *folders, Path(name, "output"))


def answers_fault(command, bare, folder, output):
    """Whether a command's answer has colours, and what is wrong with it, or None. Without them it runs in a folder of its own: it may save."""
    plain = answer_of(PROGRAM, command, bare, output)
    text = output.read_bytes()
    always = Colored(command, [command.words[0], ALWAYS, *command.words[1:]])
    answer = answer_of(PROGRAM, always, folder, output)
    found, wanted = output.read_bytes(), text if "--json" in command.words else colored(text)
    is_same = (answer.status, without_usage(answer.errors)) == (plain.status, without_usage(plain.errors))
    if found == wanted and without_colors(found) == without_colors(text) and is_same:
        return found != text, None
    return False, f"{answer.status}: {found!r}, and not {plain.status}: {wanted!r}"


def without_usage(errors):
    """What is said, but for the usage of a wrong call, in which clap repeats the given options."""
    return [line for line in errors.splitlines() if not line.startswith(b"Usage: ")]


class Colored:
    """A command of a case with other words."""

    def __init__(self, command, words):
        self.words, self.input = words, command.input


def on_terminal(words, settings):
    """What a terminal gets that is the program's standard output."""
    ours, theirs = pty.openpty()
    tty.setraw(theirs)
    with open(ours, "rb", buffering=0) as terminal:
        process = subprocess.Popen([PROGRAM, *words], stdin=subprocess.DEVNULL, stdout=theirs, stderr=subprocess.DEVNULL, cwd=BOOT, env=settings)
        os.close(theirs)
        pieces = []
        try:
            while piece := terminal.read(MOST_BYTES):
                pieces.append(piece)
        except OSError:  # EIO: the other side is closed
            pass
        process.wait(SECONDS)
    return b"".join(pieces)


def in_pipe(words, settings):
    return subprocess.run([PROGRAM, *words], cwd=BOOT, env=settings, stdin=subprocess.DEVNULL, capture_output=True, timeout=SECONDS).stdout


class Colors(harness.TestCase):
    def test_cases(self):
        passed, faults, count = 0, [], 0
        for title, has_colors, fault in case_results():
            passed, count = passed + (fault is None), count + has_colors
            faults += [] if fault is None else [f"{title}\n    {fault}"]
        self.check_all("commands of cases", passed, faults)
        self.check("how many answers have colours", count >= FEWEST or count, True)

    def test_where(self):
        """A terminal gets colours, unless its environment or the arguments say otherwise; anything else gets them if these do."""
        plain, on_one = in_pipe(JUDGED, {}), in_pipe(["verify", "--terminal", *FILES], {})
        self.check("a verdict without colours", SEQUENCE.search(plain) is None and plain.endswith(b"verdict match\n"), True)
        self.check("a verdict with colours", in_pipe(["verify", ALWAYS, *FILES], {}).endswith(b"verdict %smatch%s\n" % (GREEN, RESET)), True)
        terms = {"TERM": "xterm-256color"}
        for title, show, settings, words, has_colors in (
            ("a terminal", on_terminal, terms, [], True),
            ("a pipe", in_pipe, terms, [], False),
            ("NO_COLOR", on_terminal, {**terms, "NO_COLOR": "1"}, [], False),
            ("NO_COLOR that is not UTF-8", on_terminal, {**terms, "NO_COLOR": b"\xff"}, [], False),
            ("NO_COLOR with nothing", on_terminal, {**terms, "NO_COLOR": ""}, [], True),
            ("a terminal without a name", on_terminal, {}, [], False),
            ("a terminal with an empty name", on_terminal, {"TERM": ""}, [], False),
            ("a dumb terminal", on_terminal, {"TERM": "dumb"}, [], False),
            ("never", on_terminal, terms, ["--color", "never"], False),
            ("never, after =", on_terminal, terms, ["--color=never"], False),
            ("auto", on_terminal, terms, ["--color", "auto"], True),
            ("auto, in a pipe", in_pipe, terms, ["--color=auto"], False),
            ("always", in_pipe, {}, ["--color", "always"], True),
            ("always, and NO_COLOR", in_pipe, {"NO_COLOR": "1"}, [ALWAYS], True),
        ):
            text = on_one if show is on_terminal else plain
            self.check(title, show(["verify", *words, *FILES], settings), colored(text) if has_colors else text)
            self.check(f"{title}, after the names", show(["verify", *FILES, *words], settings), colored(text) if has_colors else text)
        json = in_pipe(["verify", "--json", *FILES], {})
        for words in (["--json", ALWAYS], [ALWAYS, "--json"]):
            self.check(f"JSON: {words}", in_pipe(["verify", *words, *FILES], terms), json)
        self.check("JSON on a terminal", on_terminal(["verify", "--json", *FILES], terms), json)

    def test_other_commands(self):
        """Commands that show what a machine wrote have no colours, on a terminal either."""
        for words in (["show", "ima.list"], ["events", "firmware.log"], ["boot", "firmware.log"], ["registers", "firmware.log"], ["verify", "--help"]):
            self.check(f"{words}", on_terminal(words, {"TERM": "xterm"}), in_pipe(words, {}))
        refused = b"refused: command line\n"
        for words in (["show", ALWAYS, "ima.list"], ["verify", "--color", *FILES], ["verify", "--color=red", *FILES], ["verify", ALWAYS, ALWAYS, *FILES]):
            self.check(f"{words}", without_colors(in_pipe(words, {})), refused)
        self.check("a name after --", in_pipe(["verify", "--", ALWAYS, *FILES[1:]], {}), b"failed: read --color=always\n")
        self.check("a name with a sequence", in_pipe(["verify", "\x1b[2J", *FILES[1:]], {"TERM": "xterm"}), b"failed: read \x1b[2J\n")
        self.check("a name with a line like a verdict", GREEN in in_pipe(["verify", ALWAYS, "none\nverdict match", *FILES[1:]], {}), False)
        self.check("a name with a sequence, with colours", in_pipe(["verify", ALWAYS, "\x1b[2J", *FILES[1:]], {}), colored(b"failed: read \x1b[2J\n"))


if __name__ == "__main__":
    sys.exit(harness.main())
