#!/usr/bin/env python3
"""Compares what the program and `tests/reference/` say of lists that are made at random, with files of known digests that are made at random, too.

tests/faults/known.py [--lists N] [PROGRAM]: 400 lists, or so many, and by default the program that was built in this tree.

A list has entries of all templates, of few contents and paths, with violations, other registers, later boot aggregates, digests that do not
fit and payloads that are cut. Files list some of the contents, in lines of each form, and now and then a line that is refused. Each list is
judged by `verify`, `replay` and `attest`, from a checkpoint or from the beginning, up to a confirmed prefix or not. Each answer and each
file that is saved must be the reference's. Each kind of answer must be among them. The script counts lists."""

import argparse
import os
import random
import re
import subprocess
import sys
import tempfile
from collections import Counter
from concurrent.futures import ProcessPoolExecutor
from pathlib import Path

sys.path.insert(0, str(Path(__file__).resolve().parents[1]))
import boots  # noqa: E402
import harness  # noqa: E402
from growing import QUOTED, SAVED, Boot, Room, Wrong, checkpoint_of  # noqa: E402
from reference.fields import with_length  # noqa: E402
from reference.measurement_list import BOOT_AGGREGATE, IMA, IMA_NG, IMA_SIG, VIOLATION, Entry, entry_of  # noqa: E402
from reference.registers import ALGORITHMS, SHA1, SHA256, SHA384, SHA512, register_line  # noqa: E402

parser = argparse.ArgumentParser(usage="tests/faults/known.py [--lists N] [PROGRAM]")
parser.add_argument("--lists", type=int, default=400)
parser.add_argument("program", nargs="?", type=Path, default=harness.PROGRAM)
CHUNKS = 16
LOG = b"".join(boots.WHOLE.events)
FIRST = boots.read_list(boots.WHOLE.entries[0])[0]
CONTENTS, PATHS = (b"a", b"b", b"c"), (b"/a", b"/b", b"", BOOT_AGGREGATE, b"boot_aggregate ", b"\xff\n")
HASHES = (SHA256, SHA256, SHA256, SHA384, SHA512, SHA1)
NAMES = (b"", b"a", b"/bin/a b", b"a\r", b"\xff", b"*", b"\0")
# Answers that have to be there, without their numbers.
ANSWERS = {"match", "differ", "differ, unknown", "refused: known fault 1", "refused: known fault 2", "refused: replay fault 1",
           "refused: checkpoint fault 4", "signature not checked", "signature not checked, unknown", "match, later", "differ, unknown, later",
           "match, prefix", "differ, unknown, prefix"}


def stated(algorithm, content, kind=b""):
    """The field of a digest, with its kind before it."""
    return kind + algorithm.name.encode() + b":\0" + algorithm.hash(content)


def other_payload(drawn, template, algorithm, content, path):
    """The payload of one of the kernel's other templates."""
    kind = drawn.choice((b"ima:", b"ima:", b"verity:", b"")) if template in (b"ima-ngv2", b"ima-sigv2") else b""
    fields = {b"ima-ngv2": [], b"ima-sigv2": [b"sig"], b"ima-buf": [b"buffer"], b"ima-modsig": [b"", drawn.choice((b"", stated(SHA1, b"d"))), b"m"],
              b"evm-sig": [b"", b"", bytes(4), b"", bytes(4), b"", bytes(drawn.choice((0, 2, 3)))]}[template]
    return b"".join(map(with_length, [stated(algorithm, content, kind), path + b"\0", *fields]))


def random_entry(drawn):
    """An entry, of which now and then the payload is cut, or longer."""
    template = drawn.choice((IMA, IMA_NG, IMA_NG, IMA_NG, IMA_SIG, b"ima-ngv2", b"ima-sigv2", b"ima-buf", b"ima-modsig", b"evm-sig", b"other"))
    algorithm, content, path = SHA1 if template == IMA else drawn.choice(HASHES), drawn.choice(CONTENTS), drawn.choice((b"/a", b"/a", *PATHS))
    if template in (IMA, IMA_NG, IMA_SIG):
        payload = entry_of(template, algorithm, algorithm.hash(content), path).payload
    elif template == b"other":
        payload = entry_of(IMA_NG, algorithm, algorithm.hash(content), path).payload
    else:
        payload = other_payload(drawn, template, algorithm, content, path)
    if template != IMA and drawn.random() < 0.05:
        payload = drawn.choice((payload[:-1], payload + b"\0"))
    entry = Entry(drawn.choice((10,) * 30 + (11,)), VIOLATION, template, payload)
    is_violation = drawn.random() < 0.05
    return entry if is_violation else entry._replace(template_digest=SHA1.hash(entry.hashed))


def random_list(drawn):
    """A boot with a list of few entries, of which one may not be genuine; most contents are ones that a file may list."""
    entries = [] if drawn.random() < 0.05 else [FIRST if drawn.random() < 0.95 else random_entry(drawn)]
    entries += [plain(drawn) if drawn.random() < 0.7 else random_entry(drawn) for _ in range(drawn.choice((0, 1, 2, 3, 6)))]
    if entries and drawn.random() < 0.05:
        place = drawn.randrange(len(entries))
        entries[place] = entries[place]._replace(template_digest=bytes([7] * 20))
    return Boot(LOG, entries)


def plain(drawn):
    """An entry of a file that a file lists often."""
    return entry_of(IMA_NG, SHA256, SHA256.hash(drawn.choice(CONTENTS[:2])), b"/bin/a")


def random_line(drawn, content):
    """A line of a file of digests, without its line feed."""
    algorithm = drawn.choice((SHA256, SHA256, SHA384, SHA512) * 10 + (SHA1,))
    digits = algorithm.hash(content).hex().encode()
    shown = drawn.choice((digits, digits, digits.upper(), digits[:9].upper() + digits[9:]))
    line = drawn.choice((b"", b"", b"\\")) + shown + drawn.choice((b"  ", b"  ", b" *")) + drawn.choice(NAMES)
    return boots.changed_bytes(drawn, line) if drawn.random() < 0.01 else line


def random_text(drawn):
    """A file of digests: of some contents by all algorithms, and of others."""
    listed = [content for content in (*CONTENTS, b"z") if drawn.random() < (0.2 if content in (b"c", b"z") else 0.8)]
    lines = [random_line(drawn, content) for content in listed for _ in range(drawn.choice((1, 4)))]
    drawn.shuffle(lines)
    return b"".join(line + b"\n" for line in lines)[: drawn.choice((None, None, -1))]


def known_files(room, drawn):
    """The options of some files that are made."""
    texts = {f"known{number}": random_text(drawn) for number in range(drawn.choice((1, 1, 2, 3)))}
    room.put(**texts)
    return [word for name in texts for word in drawn.choice((["--known", name], [f"--known={name}"]))]


def rows(boot, entries):
    """Expected registers after so many entries."""
    values = boots.values_after(LOG, b"".join(entry.spelling() for entry in boot.entries[:entries])) or boots.values_after(LOG, b"")
    return "".join(register_line(*register, value) for register, value in values.items() if register[0] is SHA256 or register[1] == 10).encode()


def judged(room, seed):
    """The answers on one list: the kind of each."""
    drawn = random.Random(seed)
    boot = random_list(drawn)
    whole = len(boot.entries)
    start, end = sorted((drawn.randrange(whole + 1), drawn.choice((whole, whole, drawn.randrange(whole + 1)))))
    options = [*known_files(room, drawn), *drawn.choice(([], [], ["--json"]))]
    growing = [*drawn.choice(([], ["--prefix"])), *drawn.choice(([], [f"--save={SAVED}"]))]
    room.restore(None)
    room.put(log=LOG, list=boot.list, expected=rows(boot, end), quote=quote_of(boot, end))
    required = ["--require", drawn.choice(("sha256:10", boots.REQUIRE, "sha256:0-7,10+sha1:10"))]
    yield kind_of(room.answer(*required, *options, *growing, "log", "list", "expected"), growing)
    yield kind_of(room.answer(*required, *options, "list", "expected", command=("replay",)), [])
    signed = QUOTED if drawn.random() < 0.8 else [word for word in QUOTED if word != "--signature-checked"]
    expected = drawn.choice(([], ["expected"]))
    yield kind_of(room.answer(*options, *growing, "log", "list", "quote", *expected, command=("attest", *signed)), growing)
    if all(entry.is_genuine for entry in boot.entries[:start]):
        room.restore(None)
        checkpoint = checkpoint_of(boot, start)._replace(boot=drawn.choice(((0, 0), (0, 0), (0, 0), None)))
        room.put(state=checkpoint.text(), list=boot.list[boot.ends[start] :])
        later = ["--resume", "state", *growing]
        yield kind_of(room.answer(*required, *options, *later, "log", "list", "expected"), later)
        yield kind_of(room.answer(*options, *later, "log", "list", "quote", command=("attest", *signed)), later)


def quote_of(boot, end):
    """The quote of an honest TPM after so many entries, or that of another boot where these are not genuine."""
    return boots.quoted(LOG, b"".join(entry.spelling() for entry in boot.entries[:end])) or boots.WHOLE.message


def kind_of(answer, options):
    """An answer without its numbers."""
    status, text = answer
    told = text.decode(errors="replace")
    if "refused: " in told and "unconfirmed" not in told:
        return re.search(r"refused: [a-z ]+\d?", told)[0]
    word = {0: "match", 1: "differ", 4: "signature not checked"}[status]
    unknown = ", unknown" if "unknown entry" in told or re.search(r'"unknown":\[\d', told) else ""
    has_prefix = re.search(r'^confirmed |"confirmed":\d', told, re.MULTILINE)
    return word + unknown + (", later" if "--resume" in options else ", prefix" if has_prefix else "")


def outcomes(program, seeds):
    """How often the lists of some seeds had which answers, and what is wrong with the others."""
    counts, wrong = Counter(), []
    with tempfile.TemporaryDirectory() as folder:
        room = Room(program, folder)
        for seed in seeds:
            try:
                counts.update(judged(room, seed))
            except (Wrong, OSError, subprocess.TimeoutExpired) as fault:
                wrong.append(f"seed {seed}: {fault}")
    return counts, wrong


class Known(harness.TestCase):
    def test_lists(self):
        asked = parser.parse_args()
        program, seeds, counts, wrong = asked.program.resolve(), range(asked.lists), Counter(), []
        with ProcessPoolExecutor(os.cpu_count()) as pool:
            for found in pool.map(outcomes, [program] * CHUNKS, [seeds[start::CHUNKS] for start in range(CHUNKS)]):
                counts, wrong = counts + found[0], wrong + found[1]
        answers = ", ".join(f"{answer} {times}" for answer, times in sorted(counts.items()))
        self.check_all(f"lists with known files: {answers}", len(seeds) - len(wrong), wrong)
        self.check("each kind of answer is among these", ANSWERS - set(counts), set())


if __name__ == "__main__":
    sys.exit(harness.main())
