#!/usr/bin/env python3
"""Has the files and the output of the program be slow, or fail, as real devices do.

tests/faults/devices.py [PROGRAM]: by default the program that was built in this tree.

A command of each kind (those of `tests/faults/sweep.py`) runs again and again, with tests/faults/devices.c before the C library:

- Each read gives one byte at most, and each write takes one. The answer, and the checkpoint that is saved, must be the same.
- Each opening of a file fails in turn, and each read, even the one at the end of a file. The answer must be `failed: read` with the name of
  that file, which `--json` has as JSON, and status 3. Lines of entries that `show` wrote while it read may come before it. A command
  that is refused in any case may be refused as it is then.
- Where a checkpoint is saved, its file must be synced before it is renamed. The opening, each write, the syncing and the renaming of that
  file fail in turn. The answer must be `failed: write` with its name, and what has that name must stay as it was.
- Each write fails in turn, or takes no byte. What was written must be a prefix of the output, with nothing after it, and the status 3.

Standard error must have that the file or the output cannot be read or written. If a call fails in the second look at inputs, the answer must be the
same, and standard error that of an input, or of a prefix of the list, which is not looked at again.

For each command the script prints how many calls failed. It counts commands."""

import errno
import json
import os
import subprocess
import sys
import tempfile
from dataclasses import dataclass
from pathlib import Path

HERE = Path(__file__).resolve().parent
sys.path[:0] = [str(HERE.parent), str(HERE.parent / "cases"), str(HERE)]

import harness  # noqa: E402
from answers import answer_of, saved_by  # noqa: E402
from said import ADVICE, NOT_WRITABLE, NOT_WRITTEN, shown  # noqa: E402
from reference.hints import next_steps  # noqa: E402
from sweep import check_runs, command_runs, is_explained  # noqa: E402

MOST_CALLS = 10_000
FAILED = 3
# Which calls fail, with which errors (of a write, 0 is none: it takes no byte), and how many bytes a call moves at most.
FAILING = (
    ("open", (errno.EACCES, errno.EMFILE), 0),
    ("read", (errno.EIO, errno.EINTR), 0),
    ("write", (errno.ENOSPC, errno.EINTR, 0), 40),
    ("save", (errno.ENOSPC, errno.EIO), 400),
)


@dataclass(frozen=True)
class Devices:
    """Runs a command, with the library before the C library."""

    library: Path
    run: object

    def answer(self, settings):
        """The status, the output and what stands on standard error, under these settings; and the name of the file that failed, or None."""
        with tempfile.TemporaryDirectory() as name:
            met, output = Path(name, "met"), Path(name, "output")
            settings = {"LD_PRELOAD": str(self.library), "FAILURE_MET": str(met), **settings}
            answer = answer_of(self.run.program, self.run.command, self.run.folder, output, settings)
            return (answer.status, output.read_bytes(), answer.errors), met.read_bytes() if met.exists() else None

    def tried(self):
        """How many calls failed, and the first thing that is wrong with the command's answers, or None."""
        wanted, unsynced = self.answer({})
        if unsynced is not None:
            return 0, f"{unsynced!r} is renamed before it is synced"
        saved = saved_by(self.run.command, self.run.folder)
        short, _ = self.answer({"MOST_BYTES": "1"})
        beside = self.run.folder / f"{self.run.command.saved}.0.new"
        faults, count = [] if short == wanted else [f"a byte at a time: {short}"], 0
        if saved_by(self.run.command, self.run.folder) != saved:
            faults.append(f"a byte at a time, and {self.run.command.saved} is another")
        for kind, errors, most in FAILING:
            for error in errors:
                for number in range(1, MOST_CALLS):
                    before = saved_by(self.run.command, self.run.folder)
                    failing = {"FAILING_CALL": kind, "FAILING_NUMBER": str(number), "FAILING_ERROR": str(error), "MOST_BYTES": str(most)}
                    found, name = self.answer(failing)
                    if name is None:
                        break
                    count += 1
                    if not (is_cut if kind == "write" else is_told)(found, wanted, name, self.run):
                        faults.append(f"{kind} {number} of {name!r} fails with error {error}: {found}")
                    if kind != "write" and saved_by(self.run.command, self.run.folder) != before:
                        faults.append(f"{kind} {number} of {name!r} fails with error {error}, and {self.run.command.saved} is another")
                    if beside.exists():
                        faults.append(f"{kind} {number} of {name!r} fails with error {error}, and leaves {beside.name}")
        return count, faults[0] if faults else None


def is_told(found, wanted, name, run):
    """Whether an answer tells that this file failed, or is the refusal that is wanted in any case, or one that was explained."""
    command, words, kind = run.command, run.command.words, "read"
    is_looked_at = wanted[0] > 1 or is_explained(command)
    if found == wanted and wanted[0] > 1 or found[:2] == wanted[:2] and is_looked_at and found[2] in second_looks(wanted, run):
        return True
    if command.saved and name == f"{command.saved}.0.new".encode():
        kind, name = "write", command.saved.encode()
    line = b"failed: %s %s\n" % (kind.encode(), name)
    if "--json" in words:
        line = json.dumps({"fault": {"kind": kind, "message": line[:-1].decode()}}, separators=(",", ":"), ensure_ascii=False).encode() + b"\n"
    status, text, errors = found
    before = text.removesuffix(line)
    said = b"cannot %s %s\n" % (kind.encode(), b"standard input" if name == b"-" else shown(name))
    is_said = status == FAILED and errors == said + (shown(NOT_WRITABLE) + b"\n" if kind == "write" else b"")
    return is_said and text != before and (not before or not is_explained(command) and is_read_before(before, wanted[1], words))


def second_looks(wanted, run):
    """What standard error may have after a second look of which a call failed. A refusal keeps its first line, and then has what the table advises.
    Why a file cannot be read is asked again."""
    status, _, errors = wanted
    if status == 1:
        steps = next_steps(run.command.words, run.folder, has_prefix=False)
        return {errors, b"", "".join(f"{line}\n" for line in steps).encode()}
    if status == FAILED:
        about, _, _ = errors.rpartition(b": ")
        return {errors, *(b"%s: %s\n" % (about, os.strerror(error).encode()) for _, causes, _ in FAILING for error in causes if error)}
    first = b"".join(errors.splitlines(keepends=True)[:1])
    return {errors, first, *(first + shown(advice) + b"\n" for advice in ADVICE)}


def is_read_before(text, wanted, words):
    """Whether a text is the lines of the first entries that these words show of a list."""
    lines = text.splitlines(keepends=True)
    are_entries = words[0] == "show" and ("--json" not in words or all(line.startswith(b'{"entry":') for line in lines))
    return are_entries and wanted.splitlines(keepends=True)[: len(lines)] == lines


def is_cut(found, wanted, _name, run):
    """Whether an answer is a prefix of the one wanted, and no more, and this is said, or what is wrong, whose line could not be written."""
    status, text, errors = found
    is_due = errors == NOT_WRITTEN or wanted[0] > 1 and errors == wanted[2]
    return status == FAILED and is_due and text != wanted[1] and wanted[1].startswith(text)


class FailingDevices(harness.TestCase):
    def test_commands(self):
        folder = self.folder()
        library = folder / "devices.so"
        subprocess.run(["cc", "-O2", "-shared", "-fPIC", "-o", library, HERE / "devices.c", "-ldl"], check=True)
        runs, wrong = command_runs(harness.argument(), folder)
        for fault in wrong:
            self.check("the cases", fault, None)
        check_runs(self, runs, lambda run: Devices(library, run).tried(), "calls failed")


if __name__ == "__main__":
    sys.exit(harness.main())
