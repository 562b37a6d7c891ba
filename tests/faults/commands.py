#!/usr/bin/env python3
"""Tries ./ima-agent, ./try and dist/library with a stand-in for the kit: a copy of the tree in which `rt` proves nothing, counts its builds,
and makes a program that answers as its arguments ask; how ./check counts, with stand-ins for its parts; and which edits tools/edits refuses.

tests/faults/commands.py

The program that answers must always be made of the present sources by the present kit. Its status and its output must reach the caller.
Nothing but a program's own answer may have one of its statuses."""

import io
import os
import re
import shutil
import signal
import stat
import subprocess
import sys
import tempfile
from contextlib import redirect_stdout
from importlib.machinery import SourceFileLoader
from importlib.util import module_from_spec, spec_from_loader
from pathlib import Path
from unittest import mock

sys.path[:0] = [str(Path(__file__).resolve().parents[1]), str(Path(__file__).resolve().parents[2] / "dist")]
import harness  # noqa: E402
from harness import ROOT  # noqa: E402
from header import exports_of  # noqa: E402
from sources import crates_below  # noqa: E402

PROGRAM = Path("crates/ima_agent_program")
MAIN = PROGRAM / "src/main.rt"
NOT_BUILT = 125
SECONDS = 240  # after which a call hangs, however busy the machine is
SONAME = "libima_verify.so.1"
# What dist/library makes.
MADE = {SONAME: "-rwxr-xr-x", "libima_verify.so": "lrwxrwxrwx", "libima_verify.a": "-rw-r--r--", "ima_verify.h": "-rw-r--r--"}
# Scripts in tests/ that try nothing by themselves.
NO_PARTS = {"tests/attest/emulated.py", "tests/bindings/answers.py", "tests/bindings/newer/build.py", "tests/cases/signing.py",
            "tests/faults/error_tables.py", "tests/fleet/quoted.py"}

# What stands in for rt. `ci` works in the copy that ./ima-agent makes, whose program writes its source and its arguments, and ends with
# the status that its first argument names. FAIL has it fail, and NOTHING make nothing; DURING is a command that it runs meanwhile; `try` takes
# so many seconds, says something, and that a run ended so. The program and `try` write what they are given, which a build must not take.
STAND_IN = """#!/bin/sh
case $1 in
version) cat "${0%/bin/rt}/KIT-ID" ;;
ci)
    echo built >>"$BUILDS"
    cat >/dev/null
    sh -c "${DURING:-:}"
    [ -z "${FAIL:-}" ] || { echo 'the proof of main is open'; exit 1; }
    [ -z "${NOTHING:-}" ] || exit 0
    mkdir -p crates/ima_agent_program/out crates/ima_agent/out/rlib
    { printf '%s\\n' '#!/bin/sh' '[ "$1" != --help ] || exit 0' 'printf "<%s>\\n" "$@"' cat
        sed 's/^/# /' crates/ima_agent_program/src/main.rt; echo 'exit "$1"'; } \\
        >crates/ima_agent_program/out/ima_agent_program
    chmod +x crates/ima_agent_program/out/ima_agent_program
    printf '%s\\n' 'rt: byte_fields is kept: as it was' 'rt: byte_fields tested' 'rt: ima_agent_program proved'
    echo '1 passed, 0 failed'
    ;;
lib)
    echo built >>"$BUILDS"
    cat >/dev/null
    sh -c "${DURING:-:}"
    [ -z "${FAIL:-}" ] || { echo 'the proof of ima_verify_verdict is open'; exit 1; }
    cp "${0%/bin/rt}/archive.a" out/libima_verify_c.a
    ;;
try)
    shift
    sleep "${TAKING:-0}"
    printf '<%s>\\n' "$@"
    cat
    [ -z "${SAID:-}" ] || printf '%s\\n' "$SAID" >&2
    echo "$ENDED" >&2
    ;;
esac
"""


class Tree:
    """A copy of the tree, with a kit of its own."""

    def __init__(self, room):
        self.root, self.kit, self.builds = room / "tree", room / "kit", room / "builds"
        leave = shutil.ignore_patterns("out", "__pycache__")
        for name in ("crates", "dist", "tools"):
            shutil.copytree(ROOT / name, self.root / name, ignore=leave)
        for name in ("ima-agent", "try", "crates.txt", "HANDLES"):
            shutil.copy2(ROOT / name, self.root / name)
        (self.kit / "bin").mkdir(parents=True)
        (self.kit / "bin/rt").write_text(STAND_IN)
        (self.kit / "bin/rt").chmod(0o755)
        self.name_kit("first kit")
        self.builds.touch()

    def name_kit(self, name):
        (self.kit / "KIT-ID").write_text(name + "\n")

    def start(self, *words, command="ima-agent", folder=None, umask=-1, **settings):
        """Begins a call of a command."""
        path = os.pathsep.join([str(self.kit / "bin"), os.environ["PATH"]])
        environment = {**os.environ, "PATH": path, "BUILDS": str(self.builds), **settings}
        return subprocess.Popen([self.root / command, *words], cwd=folder, env=environment, umask=umask, stdin=subprocess.PIPE,
                                stdout=subprocess.PIPE, stderr=subprocess.PIPE, text=True)

    def call(self, *words, given="", **settings):
        """The status of a call that is given this, what it writes, and what it says beside that."""
        process = self.start(*words, **settings)
        answer, said = process.communicate(given, timeout=SECONDS)
        return process.returncode, answer, said


def edit(file, old_time=False):
    """Changes a file, which then is newer than all else, or older."""
    file.write_text(file.read_text() + "// changed\n")
    if old_time:
        os.utime(file, (1, 1))


class Commands(harness.TestCase):
    """Tests of one tree: each begins with what the one before it left."""

    @classmethod
    def setUpClass(cls):
        room = tempfile.TemporaryDirectory()
        cls.addClassCleanup(room.cleanup)
        cls.tree = Tree(Path(room.name))

    def builds_for(self, *words, **settings):
        """How many builds a call makes that the program answers."""
        before = len(self.tree.builds.read_text().splitlines())
        status, answer, _ = self.tree.call("0", *words, **settings)
        self.check("  and the program answers", (status, answer), (0, "".join(f"<{word}>\n" for word in ("0", *words))))
        return len(self.tree.builds.read_text().splitlines()) - before

    def test_answers(self):
        for status in range(5):
            answer = self.tree.call(str(status), "a b", "*")
            self.check(f"status {status} and the arguments reach the caller", answer[:2], (status, f"<{status}>\n<a b>\n<*>\n"))
        self.check("the program that was built is run again", self.builds_for("again"), 0)
        link = self.folder() / "a link"
        link.symlink_to(self.tree.root / "ima-agent")
        self.check("and so it is by a link to the script", self.builds_for("again", command=link), 0)
        edit(self.tree.root / MAIN)
        for title in ("standard input is the program's, and no build's", "without a build, too"):
            self.check(title, self.tree.call("0", given="a log\n")[:2], (0, "<0>\na log\n"))

    def test_planted_programs(self):
        """No program in the caller's folder, which may be a machine's, is run."""
        folder = self.folder()
        for name in ("rt", "bash", "env", "python3", "readlink", "git", "sed", "cat", "tail", "grep", "mktemp", "mkdir", "rm", "flock", "cc", "ar"):
            (folder / name).write_text(f'#!/bin/sh\n: >"{folder}/ran"\nexit 0\n')
            (folder / name).chmod(0o755)
        path = f".::{self.tree.kit / 'bin'}:{os.environ['PATH']}:"
        calls = (("ima-agent", "", 0), ("try", "run=ended status=0 ", 0), ("dist/make", "", 1), ("dist/library", "", 1))
        for command, ended, status in calls:
            words = [folder / "ran/made"] if command.startswith("dist") else ["0"]
            found = self.tree.call(*words, command=command, folder=folder, PATH=path, ENDED=ended)[0]
            self.check(f"{command}: only programs of whole paths are run", (found, (folder / "ran").exists()), (status, False))

    def test_changes(self):
        """After each change the program is built anew, and once."""
        source, table = self.tree.root / "crates/byte_fields/src/fields.rt", self.tree.root / "crates.txt"

        def rename():
            source.rename(source.with_name("renamed.rt"))

        changes = {
            "a source is edited": lambda: edit(source),
            "a source comes with an older time": lambda: edit(source, old_time=True),
            "a definition comes with an older time": lambda: edit(self.tree.root / "crates/pcr_banks/specs/Hashing.antt", old_time=True),
            "a source has another name": rename,
            "a source is gone": lambda: source.with_name("renamed.rt").unlink(),
            "a crate stands on others": lambda: table.write_text(table.read_text().replace("program: ", "program: itoa ")),
            "the handles are others": lambda: edit(self.tree.root / "HANDLES", old_time=True),
            "the kit is another": lambda: self.tree.name_kit("second kit"),
            "the program is another": lambda: edit(self.tree.root / PROGRAM / "out/ima_agent_program"),
            "the program is gone": lambda: (self.tree.root / PROGRAM / "out/ima_agent_program").unlink(),
            "what is kept beside it is gone": lambda: (self.tree.root / PROGRAM / "out/ima_agent_program.made").unlink(),
        }
        for title, change in changes.items():
            change()
            self.check(f"built where {title}", self.builds_for(), 1)
            self.check("  and not again", self.builds_for(), 0)
        for name in ("crates/format_tests/src/lib.rt", "crates/pcr_banks/further-edits/extend_digest_first.edit"):
            edit(self.tree.root / name)
            self.check(f"not built where {name} is edited", self.builds_for(), 0)

    def test_builds(self):
        main = self.tree.root / MAIN
        edit(main)
        status, answer, said = self.tree.call("1", FAIL="1")
        self.check("a failed build has a status of its own, and no answer", (status, answer), (NOT_BUILT, ""))
        self.check("and what rt said is shown", "the proof of main is open" in said)
        self.check("the program is built by the next call", self.builds_for(), 1)
        edit(main)
        self.check("edited while it is built", self.builds_for(DURING=f"echo '// meanwhile' >>'{main}'"), 1)
        self.check("it is built again by the next call", self.builds_for(), 1)
        built = (self.tree.root / PROGRAM / "out/ima_agent_program").read_text()
        self.check("of the sources as they are then", "# // meanwhile\n" in built)
        edit(main)
        before = self.tree.builds.read_text()
        calls = [self.tree.start("2", DURING="sleep 1") for _ in range(3)]
        answers = [(call.communicate(timeout=SECONDS)[0], call.returncode) for call in calls]
        self.check("three calls at once are answered", answers, 3 * [("<2>\n", 2)])
        self.check("by one build", self.tree.builds.read_text().removeprefix(before), "built\n")
        edit(main)
        left = self.tree.root.parent / "left"
        self.builds_for(DURING=f"sleep 1000 >/dev/null 2>&1 & echo $! >'{left}'")
        edit(main)
        self.check("built while something runs that a build left", self.builds_for(), 1)
        os.kill(int(left.read_text()), signal.SIGKILL)  # (which raises an error if it runs no longer: then a call has waited for it)

    def test_ends(self):
        """Of a build stay the program and the libraries below it, and of one that fails nothing."""
        scratch, jobs, old = self.folder(), self.tree.root.parent / "jobs", self.tree.root / "crates/ima_agent/out/rlib/old"
        old.parent.mkdir(parents=True, exist_ok=True)
        old.touch()
        edit(self.tree.root / MAIN)
        for title, settings, status in (("a failed build", {"FAIL": "1"}, NOT_BUILT), ("a build", {"DURING": f"echo $RT_JOBS >'{jobs}'"}, 0)):
            ended, _, said = self.tree.call("0", TMPDIR=str(scratch), RT_JOBS="", **settings)
            self.check(f"{title} leaves no copy", (ended, [*scratch.iterdir()]), (status, []))
        self.check("its libraries take the place of earlier ones", [*old.parent.iterdir()], [])
        self.check("rt is told how many proofs to make at once", jobs.read_text().strip().isdigit())
        count = str(len(crates_below("ima_agent_program", self.tree.root)))
        told = re.findall(r"^ima-agent: (\d+) of (\d+) crates proved after 0 min \d+ s: (\w+)$", said, re.MULTILINE)
        self.check("each crate that is proved is told", told, [("1", count, "byte_fields"), ("2", count, "ima_agent_program")])

    def test_unbuilt(self):
        """What keeps a program from being built or kept is said, and its status is none of the program's."""
        root, out, main = self.tree.root, self.tree.root / PROGRAM / "out", self.tree.root / MAIN
        below, table = root / "crates/ima_agent/out", root / "crates.txt"
        lines, failing = table.read_text(), self.folder()

        def without(tool):
            """Settings with a tool that does its work and then fails."""
            (failing / tool).mkdir()
            (failing / tool / tool).write_text(f'#!/bin/sh\n{shutil.which(tool)} "$@"\nexit 1\n')
            (failing / tool / tool).chmod(0o755)
            return {"PATH": os.pathsep.join([str(failing / tool), str(self.tree.kit / "bin"), os.environ["PATH"]])}

        for title, change, settings, said in (
            ("a file in the place of out", lambda: (shutil.rmtree(out), out.touch()), {}, "out cannot be made"),
            ("a folder in the place of the lock", lambda: (out / "ima-agent.lock").mkdir(parents=True), {}, "the build cannot be locked"),
            ("no folder for temporary files", lambda: None, {"TMPDIR": "/none"}, "no folder for the build"),
            ("a table without the program", lambda: table.write_text(lines.replace("ima_agent_program", "other")), {}, "crates.txt was not read"),
            ("a crate without its folder", lambda: table.write_text(lines.replace("program: ", "program: none ") + "none:\n"), {},
             "the sources were not copied"),
            ("a build that makes nothing", lambda: edit(main), {"NOTHING": "1"}, "the sources were not read"),
            ("a file in the place of a library's folder", lambda: (shutil.rmtree(below, ignore_errors=True), below.touch()), {},
             "the library ima_agent was not kept"),
            ("tar fails", lambda: None, without("tar"), "the sources were not copied"),
            ("cp fails", lambda: None, without("cp"), "the program was not kept"),
            ("mv fails", lambda: None, without("mv"), "was not kept"),
        ):
            change()
            edit(main)
            status, answer, errors = self.tree.call("0", **settings)
            self.check(f"unbuilt: {title}", (status, answer, said in errors or errors), (NOT_BUILT, "", True))
            table.write_text(lines)
            for path in (out, below):
                path.unlink() if path.is_file() else shutil.rmtree(path, ignore_errors=True)
        self.check("what is not kept is built by the next call", self.builds_for(), 1)

    def test_left(self):
        """What another build left in a crate is not in the copy that is built."""
        left, seen = self.tree.root / "crates/byte_fields/out/left", self.tree.root.parent / "seen"
        left.parent.mkdir(exist_ok=True)
        left.touch()
        edit(self.tree.root / MAIN)
        self.check("built where a crate has what was left", self.builds_for(DURING=f"find crates -name left >'{seen}'"), 1)
        self.check("and nothing of it is in the copy", seen.read_text(), "")

    def test_library(self):
        """The library has an archive that was built of the present sources by the present kit, and no other."""
        self.needs("cc", "ar", "nm")
        tree, folder, archive = self.tree, self.folder(), self.tree.root / "crates/ima_verify_c/out/libima_verify_c.a"
        shutil.copytree(ROOT / "bindings/c", tree.root / "bindings/c")
        (folder / "verifier.c").write_text("".join(f"int {name}(void) {{ return 0; }}\n" for name in exports_of(ROOT)))
        (tree.kit / "c").mkdir()
        (folder / "planted.c").write_text("int planted;\n")
        for words in (["cc", "-fPIC", "-c", "verifier.c", "planted.c"], ["ar", "rc", tree.kit / "archive.a", "verifier.o"],
                      ["ar", "rc", tree.kit / "c/liblibc_c.a"]):
            subprocess.run(words, cwd=folder, check=True)

        def builds():
            before = len(tree.builds.read_text().splitlines())
            status = tree.call(folder / "made", command="dist/library")[0]
            self.check("  and the library is made", (status, (folder / "made/libima_verify.so").exists()), (0, True))
            return len(tree.builds.read_text().splitlines()) - before

        self.builds_for()
        changes = {
            "there is no archive": lambda: None,
            "a source is edited": lambda: edit(tree.root / "crates/ima_verify_c/src/lib.rt", old_time=True),
            "the archive is another": lambda: subprocess.run(["ar", "q", archive, folder / "planted.o"], check=True),
            "what is kept beside it is gone": lambda: archive.with_name("libima_verify_c.a.made").unlink(),
        }
        for title, change in changes.items():
            change()
            self.check(f"the library is built where {title}", builds(), 1)
            self.check("  and not again", builds(), 0)
        source = tree.root / "crates/ima_verify_c/src/lib.rt"
        edit(source)
        before = tree.builds.read_text()
        calls = [tree.start(folder / f"made {number}", command="dist/library", DURING="sleep 1") for number in range(3)]
        answers = [(call.communicate(timeout=SECONDS)[0], call.returncode, (folder / f"made {number}/{SONAME}").exists())
                   for number, call in enumerate(calls)]
        self.check("three calls at once make libraries, by one build",
                   (answers, tree.builds.read_text().removeprefix(before)), (3 * [("", 0, True)], "built\n"))
        edit(source)
        status, answer, said = tree.call(folder / "unmade", command="dist/library", FAIL="1")
        told = [line in said for line in ("the proof of ima_verify_verdict is open\n", "dist/library: the build failed\n")]
        self.check("a library that is not proved is not made", (status, answer, told, (folder / "unmade").exists()), (1, "", [True] * 2, False))
        tree.call(folder / "made", command="dist/library", DURING=f"echo '// meanwhile' >>'{source}'")
        self.check("and it is built again where a source was edited during the build", builds(), 1)

    def test_archives(self):
        """Of an archive that is named there are libraries, if it has all that the header declares, and needs nothing else."""
        self.needs("cc", "ar", "nm")
        tree, folder, place = self.tree, self.folder(), self.folder()
        functions, (first, *_) = [f"int {name}(void) {{ return 0; }}\n" for name in exports_of(ROOT)], exports_of(ROOT)
        archives = {"-all": functions, "-one less": functions[1:], "-one more": [*functions, "int other(void) { return 0; }\n"],
                    "-others": [f"int nowhere(void);\nint {first}(void) {{ return nowhere(); }}\n", *functions[1:]]}
        for name, lines in archives.items():
            (folder / "verifier.c").write_text("".join(lines))
            for words in (["cc", "-fPIC", "-c", "verifier.c"], ["ar", "rc", place / name, "verifier.o"]):
                subprocess.run(words, cwd=folder, check=True)
        for name, said in (("-all", ""), ("-one more", ""), ("-others", "nowhere"),
                           ("-one less", "the shared library exports other functions than the header declares")):
            status, answer, errors = tree.call(f"{name} made", name, command="dist/library", folder=place, umask=0o077)
            made = {path.name: stat.filemode(path.lstat().st_mode) for path in (place / f"{name} made").glob("*")}
            wanted = (1, {}) if said else (0, MADE)
            self.check(f"of the archive {name}: {said or 'libraries'}", (min(status, 1), made, answer, said in errors or errors), (*wanted, "", True))

    def test_try(self):
        folder = self.tree.root.parent / "inputs"
        (folder / "below").mkdir(parents=True)
        (folder / "log").touch()
        (folder / "below/file").touch()
        (folder / "names").write_text("below/file\n")

        def tried(*words, ended="run=ended status=0 runners=1"):
            return self.tree.call(*words, command="try", folder=folder, ENDED=ended)

        for status in range(5):
            found = tried("show", ended=f"run=ended status={status} runners=1")
            self.check(f"try: status {status} reaches the caller", found[:2], (status, "<-->\n<show>\n"))
        others = (f"run=ended status={status} runners=1" for status in (5, 10, 40))
        told = ("run=ended status=0 runners=1\nrun=no-answer proved=no", "no file is named run=ended status=0 runners=1")
        for ended in ("run=no-answer proved=no", *others, *told, "run=none", ""):
            self.check(f"try: no answer where the kit says {ended!r}", tried("show", ended=ended)[0], NOT_BUILT)
        given = f"<--data>\n<log={folder}/log>\n"
        self.check("try: a file of the caller's folder is given", tried("show", "log")[1], f"{given}<-->\n<show>\n<log>\n")
        listed = f"<--data>\n<below/file={folder}/below/file>\n"
        named = tried("measure", "--files-from", "names")[1]
        self.check("try: and those that a text of names has", listed in named and f"<names={folder}/names>\n" in named)
        (folder / "zeros").write_text("below/file\0log")
        data = "".join(f"<--data>\n<{name}={folder}/{name}>\n" for name in ("zeros", "below/file", "log"))
        self.check("try: names that end in zeros, and the last in nothing", tried("measure", "--files-from=zeros")[1],
                   f"{data}<-->\n<measure>\n<--files-from=zeros>\n")
        for title, words in (("a file that is named twice, and in one word with its option", ("log", "--list=log")),
                             ("a folder, and a file of a whole path", ("below", f"{folder}/log", "log"))):
            wanted = "".join(f"<{word}>\n" for word in ("--", "show", *words))
            self.check(f"try: {title}", tried("show", *words)[1], given + wanted)
        scratch = self.folder()
        status, _, said = self.tree.call("show", command="try", folder=folder, ENDED="run=none", TMPDIR=str(scratch))
        self.check("try: why there is no answer, and that nothing is proved", [line in said for line in (
            "run=none\n", "try: there is no answer\n", "try: nothing is proved of the program that answers now")], [True] * 3)
        self.check("try: nothing is left", [*scratch.iterdir()], [])
        found = self.tree.call("show", command="try", folder=folder, given="a log\n", ENDED="run=ended status=0 ", TMPDIR=str(scratch))
        self.check("try: standard input is the program's", (found[:2], [*scratch.iterdir()]), ((0, "<-->\n<show>\na log\n"), []))
        found = self.tree.call("show", command="try", folder=folder, ENDED="run=ended status=0 ", TMPDIR="/none")
        self.check("try: no file for what rt says", (found[:2], "no file for what rt says" in found[2]), ((NOT_BUILT, ""), True))
        link = folder / "a link"
        link.symlink_to(self.tree.root / "try")
        (folder / "-a file").touch()
        found = self.tree.call("show", "-a file", command=link, folder=folder, ENDED="run=ended status=0 ")[:2]
        self.check("try: by a link to the script, and a file of an odd name", found,
                   (0, f"<--data>\n<-a file={folder}/-a file>\n<-->\n<show>\n<-a file>\n"))
        self.check("try: a file above the folder is refused", tried("show", "../inputs/log")[0], NOT_BUILT)
        for words in (("--save", "x"), ("--save=x",)):
            self.check(f"try: {words[0]} is refused", tried("verify", *words)[0], NOT_BUILT)

    def test_try_says(self):
        """What ./try says on standard error: what the program says, and not how the kit ends."""
        first, ended = "try: nothing is proved of the program that answers now; ./ima-agent proves it first\n", "run=ended status=2 runners=1 proved=no"
        lacking, checked = "interpreter: no-answer: a call", "checked: ended status=2\nraces: not looked for"

        def said(text, ended=ended, **settings):
            status, _, errors = self.tree.call("show", command="try", SAID=text, ENDED=ended, **settings)
            return status, errors.removeprefix(first)

        sentence = "ima.list: entry 39: it is cut short"
        for title, text, wanted in (
            ("nothing", "", ""), ("a sentence", sentence, f"{sentence}\n"), ("nothing but the kit's lines", checked, ""),
            ("a sentence, and the kit's lines", f"{sentence}\n{checked}", f"{sentence}\n"),
            ("all lines of the kit", f"{sentence}\n{lacking}\n{checked}", f"{sentence}\n"),
            ("two sentences", f"a\n\n{sentence}\n{checked}", f"a\n\n{sentence}\n"),
            ("a sentence that begins as the kit's line", f"races: a\n{sentence}\n{checked}", f"races: a\n{sentence}\n"),
            ("words for a format", f"%s \\n *\n{checked}", "%s \\n *\n"),
        ):
            self.check(f"try: passed on: {title}", said(text), (2, wanted))
        self.check("try: without an answer all is shown", said(f"{sentence}\n{checked}", "run=none"),
                   (NOT_BUILT, f"{sentence}\n{checked}\nrun=none\ntry: there is no answer\n"))
        times = re.compile(r"try: compiling the program, then running it: (\d+) s so far, some 2 minutes on an idle computer\n")
        status, errors = said(f"{sentence}\n{checked}", TAKING="11")
        found = [int(seconds) for seconds in times.findall(errors)]
        self.check("try: it says each 10 seconds what it does", (status, found[:1] in ([10], [11]), times.sub("", errors)), (2, True, f"{sentence}\n"))

    def test_try_alone(self):
        """Without arguments ./try shows at once what to begin with: README's first two commands."""
        calls = re.findall(r"^    (?:\$ )?(\./(?:try|check) .*)$", (ROOT / "README.md").read_text(), re.MULTILINE)
        self.check("README has two commands to begin with", [call.split()[:2] for call in calls], [["./try", "verify"], ["./check", "--quick"]])
        for path in (os.environ["PATH"], "/none"):
            status, answer, said = self.tree.call(command="try", PATH=path, SAID="started", ENDED="run=ended status=0 ")
            self.check("try: no arguments", (status, answer, said.splitlines()[2:], "started" in said), (NOT_BUILT, "", calls, False))
        words = calls[0].split()[1:]
        found = self.tree.call(*words, command="try", folder=ROOT, ENDED="run=ended status=0 ")[:2]
        given = "".join(f"<--data>\n<{word}={ROOT}/{word}>\n" for word in words if word.startswith("samples/"))
        self.check("try: README's first command", found, (0, given + "".join(f"<{word}>\n" for word in ("--", *words))))
        self.check("try: it names samples", given.count("--data"), 3)


class Gates(harness.TestCase):
    """How ./check counts its parts, for which scripts stand in."""

    @classmethod
    def setUpClass(cls):
        loader = SourceFileLoader("gate", str(ROOT / "check"))
        cls.gates = sys.modules["gate"] = module_from_spec(spec_from_loader("gate", loader))
        loader.exec_module(cls.gates)

    def setUp(self):
        self.room = self.folder()
        self.gate = self.gates.Gate(str(self.room))

    def part(self, name, *lines, end="exit 0"):
        """A part that notes that it began, writes these lines, and ends by this command."""
        script = self.room / name
        script.write_text("\n".join(["#!/bin/sh", f"cd '{self.room}'", f"echo {name} >>begun", *(f"echo '{line}'" for line in lines), end]))
        script.chmod(0o755)
        return f"FOLDER/{name}"

    def check_end(self, title, run, begun, status, last):
        """Checks which parts began, and what ./check ends with after them."""
        self.gate.parts.clear()
        with redirect_stdout(io.StringIO()) as told:
            run()
            found = self.gate.close()
        names = (self.room / "begun").read_text().split()
        (self.room / "begun").unlink()
        self.check(f"./check: {title}", (names, found, told.getvalue().splitlines()[-1]), (begun, status, last))

    def test_counts(self):
        """What a part counts for"""
        good = "2 passed, 0 failed"
        for title, lines, end, counts in (
            ("all passed", [good], "exit 0", (2, 0)), ("one failed", ["2 passed, 1 failed"], "exit 1", (2, 1)),
            ("one failed, and status 0", ["2 passed, 1 failed"], "exit 0", (2, 1)), ("all passed, and status 1", [good], "exit 1", (2, 1)),
            ("all passed, and a signal", [good], "kill -KILL $$", (2, 1)), ("counts before another line", [good, "Traceback"], "exit 0", (0, 1)),
            ("no counts", ["done"], "exit 0", (0, 1)), ("nothing is said", [], "exit 0", (0, 1)),
        ):
            ran = self.gate.run(self.part("part", *lines, end=end))
            self.check(f"./check: {title}", (ran.passed, ran.failed), counts)
        for status in (0, 1):
            ran = self.gate.run(self.part("part", "made", end=f"exit {status}"), is_counted=False)
            self.check(f"./check: a part without counts, and status {status}", (ran.passed, ran.failed), (0, status))

    def test_order(self):
        """After a failure no part begins, and none without the program that it needs"""
        self.gates.TRIAL = self.part("made", "1 passed, 0 failed", end="touch program")
        needing = [f"{self.part('needing', '2 passed, 0 failed', end='test -e program')} PROGRAM", self.gates.TRIAL]
        self.check_end("a part that needs the program", lambda: self.gate.side_by_side(needing, 2), ["made", "needing"], 0, "3 passed, 0 failed")
        parts = [self.part("wrong", "4 passed, 1 failed"), self.part("never", "1 passed, 0 failed")]
        for title, run in (("one by one", self.gate.one_by_one), ("side by side", lambda parts: self.gate.side_by_side(parts, 1))):
            self.check_end(f"after a failure, {title}", lambda run=run: run(parts), ["wrong"], 1, "4 passed, 1 failed")

    def test_parts(self):
        """Each script of tests/ is a part, and each part is there"""
        named = {part.split()[0] for parts in (self.gates.ALONE, self.gates.BESIDE, self.gates.QUICK, self.gates.EVERY_EDIT) for part in parts}
        there = {str(path.relative_to(ROOT)) for path in (ROOT / "tests").rglob("*") if path.is_file() and os.access(path, os.X_OK)}
        self.check("./check: its parts are the scripts of tests/, and tools/edits", named, there - NO_PARTS | {"tools/edits"})

    def test_stages(self):
        """What comes after what, and whose program it is that the proofs left"""
        good, jobs, program = "2 passed, 0 failed", self.room / "jobs", self.room / "program"
        made = Path(f"{program}.made")

        def check(title, begun, status, last, every_edit=False, lanes="4", after="sources", **ends):
            """A run of which some parts end otherwise, and after whose proofs the sources are these."""
            parts = {name: self.part(name, good, end=ends.get(name, "exit 0")) for name in ("alone", "proofs", "beside", "edits")}
            library, said = self.part("library", "made", end=ends.get("library", "exit 0")), iter([lanes, "sources", after, "both"])
            settings = {"ALONE": [parts["alone"]], "PROOFS": [parts["proofs"]], "BESIDE": [parts["beside"]], "EVERY_EDIT": [parts["edits"]],
                        "LIBRARY": library, "PROGRAM": str(program), "said_by": lambda *words: next(said)}
            made.unlink(missing_ok=True)
            with mock.patch.multiple(self.gates, **settings), mock.patch.dict(os.environ):
                self.check_end(title, lambda: self.gates.check(self.gate, every_edit), begun, status, last)

        stages = ["alone", "proofs", "library", "beside"]
        check("all parts", stages, 0, "6 passed, 0 failed", proofs="echo $RT_JOBS >jobs")
        self.check("./check: the program is that of the sources", (made.read_text(), jobs.read_text()), ("both", "3\n"))
        check("every edit, on one processor", [*stages, "edits"], 0, "8 passed, 0 failed", every_edit=True, lanes="1", proofs="echo $RT_JOBS >jobs")
        self.check("./check: one proof at once", jobs.read_text(), "1\n")
        check("a source was edited", stages, 0, "6 passed, 0 failed", after="others")
        self.check("./check: the program is not that of the sources", made.exists(), False)
        check("no proofs", ["alone", "proofs"], 1, "4 passed, 1 failed", proofs="exit 1")
        self.check("./check: there is no program of a failed proof", made.exists(), False)
        check("no library", stages[:3], 1, "4 passed, 1 failed", library="exit 1", every_edit=True)

    def test_statuses(self):
        """./check ends as its parts do, and what it is asked for is what it does"""
        self.addCleanup(os.chdir, os.getcwd())
        for status, line in ((0, "1 passed, 0 failed"), (1, "1 passed, 1 failed")):
            quick = [self.part("quick", line).replace("FOLDER", str(self.room))]
            with mock.patch.multiple(self.gates, QUICK=quick, check=None), mock.patch.dict(os.environ), \
                    mock.patch.object(sys, "argv", ["check", "--quick"]), redirect_stdout(io.StringIO()) as told:
                found = self.gates.main()
            self.check(f"./check --quick: status {status}", (found, told.getvalue().splitlines()[-1]), (status, line))
            self.check("  and it says that nothing was proved", "\nNothing was proved. " in told.getvalue())
        for words, every_edit in (([], False), (["--every-edit"], True)):
            with mock.patch.object(self.gates, "check") as asked, mock.patch.dict(os.environ), mock.patch.object(sys, "argv", ["check", *words]), \
                    redirect_stdout(io.StringIO()):
                self.gates.main()
            self.check(f"./check {' '.join(words)}: whether every edit is refused", [call.args[1] for call in asked.call_args_list], [every_edit])


CODE = """//! Numbers.

/// One.
pub fn first() -> u8 {
    1
}

/// Two.
pub fn second() -> u8 {
    2
}
"""
GOOD = ["Turns `first` to three.", "everyday: first", "file: src/lib.rt", "old:     1", "new:     3"]
GOAL, NAMED = "note: src/lib.rt:4:1: the result is 1", "proofs/first/One.antt:1:1: `one` is not in scope"


class Edits(harness.TestCase):
    """Which edits tools/edits refuses, of a crate of its own, and which verdicts of the prover, for which a script stands in."""

    @classmethod
    def setUpClass(cls):
        loader = SourceFileLoader("edits", str(ROOT / "tools/edits"))
        cls.edits = sys.modules["edits"] = module_from_spec(spec_from_loader("edits", loader))
        loader.exec_module(cls.edits)

    def setUp(self):
        self.room = self.folder()
        for name in ("crates/a/src", "crates/a/specs", "crates/a/further-edits", "bin"):
            (self.room / name).mkdir(parents=True)
        (self.room / "crates/a/src/lib.rt").write_text(CODE)
        (self.room / "crates/a/specs/A.antt").write_text("1")
        for name, text in (("crates.txt", "a:\n"), ("HANDLES", "")):
            (self.room / name).write_text(text)
        patched = mock.patch.multiple(self.edits, ROOT=self.room, kit_folder=lambda: self.room)
        patched.start()
        self.addCleanup(patched.stop)

    def told_of(self, *words, name="one.edit", lines=GOOD):
        """What tools/edits ends with and says of an edit of these lines."""
        path = self.room / "crates/a/further-edits" / name
        path.write_text("".join(f"{line}\n" for line in lines))
        with mock.patch.object(sys, "argv", ["edits", *words]), redirect_stdout(io.StringIO()) as told:
            status = self.edits.main()
        path.unlink()
        return status, told.getvalue().splitlines()

    def test_unfit(self):
        """Edits that do not apply"""
        self.check("tools/edits: an edit that applies", self.told_of(), (0, ["1 passed, 0 failed"]))
        first, _, file, old, new = GOOD
        for title, lines, said in (
            ("no first line", GOOD[1:], "it does not begin with a line"), ("an empty first line", ["", *GOOD], "it does not begin with a line"),
            ("no item", ["Three for one.", *GOOD[1:]], "its first line has no"), ("no file", [first, old, new], "a new text stands before a file"),
            ("no old text", [first, file, new], "a new text stands before a file or an old text"),
            ("two new texts of one old", [*GOOD, "new:     4"], "a new text stands before a file or an old text"),
            ("no new text", [first, file, old], "it has no old and new text"),
            ("a file that is not there", [first, "file: src/no.rt", old, new], "there is no file src/no.rt of src/"),
            ("a file of specs/", [first, "file: specs/A.antt", "old: 1", "new: 2"], "there is no file specs/A.antt of src/"),
            ("an old text that is there twice", [first, file, "old: pub fn", "new: fn"], "its old text stands 2 times in src/lib.rt"),
            ("an old text that is not there", [first, file, "old:     3", "new:     1"], "its old text stands 0 times in src/lib.rt"),
            ("no change", [first, file, old, "new:     1"], "it changes nothing"),
            ("another item", ["Turns `second` to three.", *GOOD[1:]], "it says that it turns second, and turns first"),
        ):
            status, told = self.told_of(lines=lines)
            self.check(f"tools/edits: {title}", (status, told[0].startswith(f"a/one: {said}") or told, told[-1]), (1, True, "0 passed, 1 failed"))
        self.check("tools/edits: a file of another name", self.told_of(name="one.txt")[1][0], "a/one: it is no file NAME.edit")
        with mock.patch.object(sys, "argv", ["edits"]), redirect_stdout(io.StringIO()) as told:
            self.check("tools/edits: no edits", (self.edits.main(), told.getvalue()), (1, "0 passed, 1 failed\n"))

    def stand_in(self, name, lines, status):
        script = self.room / "bin" / name
        script.write_text("\n".join(["#!/bin/sh", *(f"echo '{line}'" for line in lines), f"exit {status}"]))
        script.chmod(0o755)

    def test_everyday(self):
        """What counts as an edit that its function refuses"""
        for title, lines, status, said in (
            ("refused", [GOAL, "fn a::first: no proof"], 1, None), ("refused in other words", [GOAL, "fn a::first: not proved"], 1, None),
            ("refused in its own file of proofs/", ["proofs/first/One.antt:1:1: the result is 1", "fn a::first: no proof"], 1, None),
            ("proved", [GOAL, "fn a::first: proved"], 0, "first is proved with it"),
            ("refused for a name", [NAMED, "fn a::first: no proof"], 1, "first refuses it for a name alone"),
            ("refused by another", [GOAL, "fn a::second: no proof", "fn a::first: no proof"], 1, "first refuses it for a name alone"),
            ("refused by another alone", [GOAL, "fn a::second: no proof"], 1, "there is no verdict on first"),
            ("not ended", [GOAL, "fn a::first: no proof"], 2, "there is no verdict on first"),
            ("nothing said", [], 1, "there is no verdict on first: the prover said nothing"),
        ):
            self.stand_in("rattle", lines, status)
            found, told = self.told_of("--everyday")
            self.check(f"tools/edits --everyday: {title}", (found, said is None or said in told[0] or told), (int(said is not None), True))

    def test_proved(self):
        """What counts as an edit that `rt must-fail` refuses"""
        path = f"{self.room / 'bin'}{os.pathsep}{os.environ['PATH']}"
        for result, status in (("refused, as it must be", 0), ("refused, as it must be (only a name is gone)", 1), ("proved", 1), (None, 1)):
            self.stand_in("rt", [f"rt: must-fail a/one.edit: {result}"] if result else [], 0)
            with mock.patch.dict(os.environ, PATH=path):
                found, told = self.told_of("--prove")
            self.check(f"tools/edits --prove: {result}", (found, told[-1]), (status, f"{1 - status} passed, {status} failed"))


if __name__ == "__main__":
    sys.exit(harness.main())
