#!/usr/bin/env python3
"""Measures files by the thousand, which are more than a case can hold, named by words and by texts of names.

tests/cases/many.py [PROGRAM]: by default the program that was built in this tree.

Every file holds its own name, which is short or long, or another one's with `.new` after it. One name is as long as the system takes. The
program must answer what `tests/reference/` answers to the same words in the same folder. With several workers the lines may come in any
order, but for the first. The script counts commands."""

import os
import subprocess
import sys
from dataclasses import dataclass
from pathlib import Path

sys.path.insert(0, str(Path(__file__).resolve().parents[1]))
import harness  # noqa: E402
import reference  # noqa: E402
from reference.log import Log  # noqa: E402
from reference.registers import SHA256  # noqa: E402

SECONDS = 60
FILES = 10_000
LONG = "usr/lib/modules/6.12.38-generic/kernel/drivers/measured/boot/agent"
# (4,095 bytes, in folders whose names are as long as the system takes)
LONGEST = "/".join(["n" * 255] * 16)


@dataclass(frozen=True)
class Measurement:
    """The words of a measurement, but for its workers, and the text of names that these name as `names`, if any."""

    title: str
    words: list
    names: str = ""


def names_of(first, end):
    return [(f"f{number}", f"f{number - 1}.new", f"{LONG}/module_{number}.ko")[number % 3] for number in range(first, end)]


def make_files(folder):
    (folder / LONG).mkdir(parents=True)
    (folder / "L").write_bytes(Log({SHA256.identifier: SHA256.size}, []).spelling())
    for name in names_of(0, FILES):
        (folder / name).write_text(name)
    make_longest(folder)


def make_longest(folder):
    """Makes the file whose path is as long as the system takes, folder by folder."""
    *parents, name = LONGEST.split("/")
    place = os.open(folder, os.O_RDONLY)
    for parent in parents:
        os.mkdir(parent, dir_fd=place)
        inner = os.open(parent, os.O_RDONLY, dir_fd=place)
        os.close(place)
        place = inner
    with open(name, "w", opener=lambda path, flags: os.open(path, flags, dir_fd=place)) as file:
        file.write(LONGEST)
    os.close(place)


def measurements():
    """By words alone; then all files, of which the words name some and the text the others, with what stands between its names and after
    the last: line feeds or NULs, one of them or several, and none after the last."""
    registers = ["--print", "registers", "L"]
    yield Measurement("995 files, 1,001 words", [*registers, *names_of(0, 995)])
    yield Measurement("the lines of 4,996 files, 5,000 words", ["L", *names_of(0, 4_996)])
    yield Measurement("the lines of 10,001 files", ["L", LONGEST, "--files-from", "names"], "\n".join([*names_of(0, FILES), LONGEST]))
    for named, options, between, end in (
        (0, ["--files-from", "names"], "\n", "\n"),
        (0, ["--files-from", "names"], "\n", ""),
        (3, ["--files-from=names"], "\n\n\n", "\n\n"),
        (0, ["--null", "--files-from", "names"], "\0", "\0"),
        (0, ["--files-from", "names", "--null"], "\0", ""),
        (2_500, ["--files-from", "names", "--null"], "\0\0", "\0\0\0"),
    ):
        title = f"10,000 files, {named} by words, {' '.join(options)}, {between!r} between names and {end!r} after the last"
        yield Measurement(title, [*registers, *names_of(0, named), *options], between.join(names_of(named, FILES)) + end)


def fault_of(program, measurement, workers, folder):
    """What is wrong with the program's answer, or None."""
    (folder / "names").write_text(measurement.names)
    wanted = reference.answer(["measure", "--workers", "1", *measurement.words], folder)
    try:
        ran = subprocess.run([program, "measure", "--workers", workers, *measurement.words], cwd=folder, env={},
                             stdin=subprocess.DEVNULL, capture_output=True, timeout=SECONDS)
    except subprocess.TimeoutExpired:
        return f"more than {SECONDS} seconds"
    found = ran.returncode, ran.stdout
    if workers != "1":
        wanted, found = (in_any_order(answer) for answer in (wanted, found))
    if found == wanted and wanted[0] == 0:
        return None
    return f"status {ran.returncode}, {len(ran.stdout)} bytes that end in {(ran.stdout + ran.stderr)[-200:]!r}"


def in_any_order(answer):
    status, text = answer
    first, *rest = text.splitlines()
    return status, first, sorted(rest)


class Many(harness.TestCase):
    def test_measurements(self):
        program, folder = harness.argument(), self.folder()
        make_files(folder)
        for measurement in measurements():
            # (with more workers the value of a register depends on their order)
            for workers in ("1",) if "registers" in measurement.words else ("1", "8"):
                fault = fault_of(program, measurement, workers, folder)
                self.check(f"{measurement.title}, --workers {workers}", fault, None)


if __name__ == "__main__":
    sys.exit(harness.main())
