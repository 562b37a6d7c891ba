"""Runs the commands of cases, and tells whether what they answer is what the cases want."""

import filecmp
import os
import re
import subprocess
from dataclasses import dataclass
from pathlib import Path
from typing import Optional

import form
from reference.hints import NO_EXPECTED
from said import OUT_OF_MEMORY, is_heard, is_of_usage, said_of_end

SECONDS = 60
MOST_LINES = 40


@dataclass(frozen=True)
class Answer:
    """What a command answers: its status, or why there is none, the file of its output, and what it says on standard error."""

    status: Optional[int]
    output: Path
    errors: bytes


def answer_of(program, command, folder, output, settings=None):
    """The answer of a command, run in its case's folder with nothing but these settings in its environment."""
    try:
        with open(folder / command.input if command.input else os.devnull, "rb") as given, open(output, "wb") as sink:
            ran = subprocess.run([program, *command.words], stdin=given, stdout=sink, stderr=subprocess.PIPE,
                                 cwd=folder, env=settings or {}, timeout=SECONDS)
    except subprocess.TimeoutExpired:
        return Answer(None, output, f"(more than {SECONDS} seconds)\n".encode())
    except OSError as error:
        return Answer(None, output, f"({error})\n".encode())
    return Answer(ran.returncode, output, ran.stderr)


def fault_of(command, answer, folder, is_short_of_memory=False):
    """What an answer shows, if it is not what the command shall answer, or None. Output that makes a file is then there. Why a run failed is not shown
    in a case: the tables say what standard error gets of it, or less if memory is short."""
    errors = unexplained(command, answer, folder, is_short_of_memory)
    left = output_left(answer.output, command.output, folder) if command.output else answer.output.read_bytes()
    lines, unsaved = lines_of(left + errors), unsaved_of(command, folder)
    is_silent = is_short_of_memory and not errors and command.wanted[-1:] == [NO_EXPECTED]  # (this was to be said beside an answer)
    if answer.status == command.status and agrees(command.wanted[:-1] if is_silent else command.wanted, lines) and not unsaved:
        return None
    lines += unsaved
    more = [f"({len(lines) - MOST_LINES} lines more)"] if len(lines) > MOST_LINES else []
    status = [f"[{answer.status}]"] if answer.status else []
    return "\n    ".join([*lines[:MOST_LINES], *more, *status]) or "(nothing)"


def unexplained(command, answer, folder, is_short_of_memory):
    """What an answer says on standard error beside its error in words. If these are not those that are due, all of it, with what is due."""
    if answer.status is None or answer.status < 2 or not is_heard(command.words):
        return answer.errors
    given = given_to(command, folder, answer.status)
    due = said_of_end(command.words, answer.status, answer.output.read_bytes(), folder, given)
    if due is None:
        is_due = is_of_usage(answer.errors)
    else:
        is_due = answer.errors == due or is_short_of_memory and due.startswith(answer.errors)
    if is_due or is_short_of_memory and answer.errors == OUT_OF_MEMORY:
        return b""
    return answer.errors + b"(not on standard error: %r)\n" % due


def given_to(command, folder, status=2):
    """The bytes on standard input, if that is a file; no bytes, if the command ended with status 3."""
    return (folder / command.input).read_bytes() if command.input and status != 3 else b"" if command.input else None


def output_left(output, name, folder):
    """The output that a command's `> name` leaves to show: none, if it is the bytes of that file, or if it now makes the file."""
    file = folder / name
    if not file.exists() and not name.startswith(form.SAMPLES):
        output.rename(file)
        return b""
    if file.is_file() and filecmp.cmp(output, file, shallow=False):
        return b""
    return output.read_bytes() + f"(not the bytes of {name})\n".encode()


def saved_by(command, folder):
    """The bytes of the file that a command saves, or None where there is no such file."""
    file = folder / command.saved if command.saved else None
    return file.read_bytes() if file and file.is_file() else None


def unsaved_of(command, folder):
    """A line that says so, if a file of the case has the bytes that a command shall save, and they are not there."""
    wanted = folder / form.wanted_of(command.saved) if command.saved else None
    if wanted is None or not wanted.is_file() or saved_by(command, folder) == wanted.read_bytes():
        return []
    return [f"({command.saved} has not the bytes of {wanted.name})"]


def lines_of(text):
    """The lines of what is written."""
    lines = text.decode(errors="backslashreplace").replace("\0", "\\0").split("\n")
    return lines[:-1] if lines[-1] == "" else [*lines[:-1], f"{lines[-1]}(no line end)"]


def agrees(wanted, lines):
    """Whether the lines are those wanted, where `...` stands for any number of lines, and a `...` within a line for any text."""
    if not any("..." in line for line in wanted):
        return wanted == lines
    rows = (r"(?:[^\n]*\n)*" if line == "..." else re.escape(line).replace(r"\.\.\.", r"[^\n]*") + r"\n" for line in wanted)
    return re.fullmatch("".join(rows), "".join(f"{line}\n" for line in lines)) is not None
