#!/usr/bin/env python3
"""Tries wrong calls of the program: what standard error gets of each, which is no terminal, and that --quiet silences it.

tests/cases/wrong_calls.py [PROGRAM]: by default the program that was built in this tree.

wrong_calls.txt has the calls, with what is wanted of each, by hand."""

import re
import shlex
import shutil
import subprocess
import sys
from pathlib import Path
from typing import NamedTuple

HERE = Path(__file__).resolve().parent
sys.path.insert(0, str(HERE.parent))
import harness  # noqa: E402

PROGRAM = harness.argument()
SAMPLES = harness.ROOT / "samples"
FEWEST = 60
SECONDS = 60
CALL = re.compile(r"^\$ (?P<words>.*)\n(?:\[(?P<status>\d)\]\n)?(?P<said>(?:(?!\$ |[A-Z][^\n]*:\n\n\$ ).*\n)*)", re.MULTILINE)


class Call(NamedTuple):
    """A call: its arguments, the status, and what standard error gets."""

    words: list
    status: int
    said: str


def calls():
    for found in CALL.finditer((HERE / "wrong_calls.txt").read_text()):
        yield Call(shlex.split(found["words"]), int(found["status"] or 2), found["said"].strip("\n") + "\n")


def make_files(folder):
    """The sample boot, its quote, and what is damaged or taken for another."""
    for name in ("firmware.log", "ima.list", "ima.ascii", "expected.txt", "tpm2_pcrread.txt"):
        shutil.copy(SAMPLES / "real-boot" / name, folder)
    for name in ("quote.msg", "quote.sig", "AK.pem"):
        shutil.copy(SAMPLES / "quoted" / name, folder)
    shutil.copy(SAMPLES / "known" / "SHA256SUMS", folder)
    log, listed, values = (folder / "firmware.log").read_bytes(), (folder / "ima.list").read_bytes(), (folder / "expected.txt").read_text()
    (folder / "empty").touch()
    (folder / "cut.log").write_bytes(log[:1000])
    (folder / "cut.list").write_bytes(listed[:5000])
    (folder / "changed.list").write_bytes(listed[:4] + bytes([listed[4] ^ 1]) + listed[5:])
    (folder / "capitals").write_text(values.upper())
    (folder / "twice.txt").write_text(2 * values.splitlines(keepends=True)[0])
    (folder / "SHA1SUMS").write_text(f"{'ab' * 20}  file\n")


def ended(words, folder):
    """The status of a call, and what standard error gets."""
    ran = subprocess.run([PROGRAM, *words], cwd=folder, env={}, stdin=subprocess.DEVNULL, capture_output=True, text=True, timeout=SECONDS)
    return ran.returncode, ran.stderr


class WrongCalls(harness.TestCase):
    def test_calls(self):
        folder, wrong = self.folder(), list(calls())
        make_files(folder)
        self.check("how many calls there are", len(wrong) >= FEWEST or len(wrong), True)
        for call in wrong:
            self.check(shlex.join(call.words), ended(call.words, folder), (call.status, call.said))

    def test_silence(self):
        """`--quiet` and `-q`, after the command and before `--`, silence standard error, and leave the status."""
        folder = self.folder()
        make_files(folder)
        for call in calls():
            command, *names = call.words
            for option in ("-q", "--quiet") if command[0] != "-" else ():
                self.check(f"{option}: {shlex.join(call.words)}", ended([command, option, *names], folder), (call.status, ""))
        self.check("a name after --", ended(["show", "--", "-q"], folder), (3, "cannot read -q: No such file or directory\n"))

    def test_grammar(self):
        """A selection's grammar is that of the help."""
        said = next(call.said for call in calls() if "separated by" in call.said)
        grammar = said.partition("Write ")[2].partition(". PCRs are")[0]
        shown = subprocess.run([PROGRAM, "verify", "--help"], env={}, capture_output=True, text=True, timeout=SECONDS).stdout
        self.check("the help has the grammar", grammar[1:] in " ".join(shown.split()) and grammar != "", True)


if __name__ == "__main__":
    sys.exit(harness.main())
