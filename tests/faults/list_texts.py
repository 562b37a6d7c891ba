#!/usr/bin/env python3
"""Compares what the program and `tests/reference/` make of lists as text that are made and changed at random.

tests/faults/list_texts.py [--texts N] [PROGRAM]: 20,000 texts, or so many, and by default the program that was built in this tree.

A text has lines of entries of all of the kernel's templates, as the kernel prints them: with violations, without signatures, paths with spaces, line
feeds and other bytes. In most texts one line is changed: bytes, spaces, digits, numbers, cases, names, the line's end; or a whole line is gone,
doubled, or of an entry whose digest does not match. The binary list or the fault must be the reference's; so must be the list of all texts that have
one, joined. Each kind of answer must be among them. The script counts texts."""

import argparse
import os
import random
import subprocess
import sys
import tempfile
from collections import Counter
from concurrent.futures import ProcessPoolExecutor
from pathlib import Path

sys.path.insert(0, str(Path(__file__).resolve().parents[1]))
import harness  # noqa: E402
from reference.faults import Fault  # noqa: E402
from reference.list_texts import LONGEST_LINE, MOST_LINE_FEEDS, ROWS, list_of, payload_of  # noqa: E402
from reference.measurement_list import IMA, VIOLATION, Entry  # noqa: E402
from reference.registers import ALGORITHMS, SHA1  # noqa: E402

parser = argparse.ArgumentParser(usage="tests/faults/list_texts.py [--texts N] [PROGRAM]")
parser.add_argument("--texts", type=int, default=20_000)
parser.add_argument("program", nargs="?", type=Path, default=harness.PROGRAM)
CHUNKS = 32
PATHS = (b"/a", b"/bin/sh", b"boot_aggregate", b"", b" ", b"/a b", b"/a  b ", b"/\xff", b"/a\n", b"\n/b\nc", b"\n10 ", b"/x:y", b"/" + b"p" * 254, b"/" + b"p" * 255,
         b"/\n" * MOST_LINE_FEEDS, b"/\n" * (MOST_LINE_FEEDS + 1), b"/\0b", b"kexec-cmdline")
NUMBERS = (b"", b"0", b"1", b"33188", b"65535", b"65536", b"4294967295", b"4294967296", b"007", b"-1")
OTHERS = (b"other", b"ima-ng2", b"IMA", b"", b"d-ng|n-ng", b"ima-")
# Answers that have to be there, without their lines.
ANSWERS = {"list", "text list fault 1", "text list fault 2", "text list fault 3", "text list fault 4"}
# How many texts are longer than the longest line.
EACH_LONG = 300


def digits(drawn, count):
    return drawn.randbytes(count).hex().encode()


def named_digest(drawn):
    algorithm = drawn.choice(ALGORITHMS)
    return algorithm.name.encode() + b":" + digits(drawn, algorithm.size)


def field(drawn, kind):
    """The text of a field of this kind, most often one that the kernel prints."""
    if kind == "d":
        return digits(drawn, SHA1.size)
    if kind == "d-ng":
        return named_digest(drawn)
    if kind == "d-ngv2":
        return drawn.choice((b"ima:", b"verity:")) + named_digest(drawn)
    if kind == "d-modsig":
        return drawn.choice((b"", named_digest(drawn)))
    if kind in ("n", "n-ng"):
        return drawn.choice(PATHS[:3] if drawn.random() < 0.6 else PATHS)
    if kind == "xattrnames":
        return drawn.choice((b"", b"security.selinux", b"security.selinux|security.ima"))
    if kind == "xattrlengths":
        return digits(drawn, drawn.choice((0, 4, 8, 8, 8, 7)))
    if kind in ("iuid", "igid", "imode"):
        return drawn.choice(NUMBERS[:4] if drawn.random() < 0.9 else NUMBERS)
    return digits(drawn, drawn.choice((0, 0, 1, 40)))


def line(drawn, template=None):
    """A line whose digest matches, if some entry has such fields, or which is one of a violation."""
    template = template or drawn.choice(list(ROWS))
    fields = b" ".join(field(drawn, kind) for kind in ROWS[template])
    register = drawn.choice((10,) * 20 + (0, 9, 11, 23, 24))
    digest = VIOLATION
    if drawn.random() < 0.9:
        try:
            digest = SHA1.hash(Entry(register, VIOLATION, template, payload_of(template, fields)).hashed)
        except Exception:
            digest = drawn.randbytes(20)
    return b"%2d %s %s %s\n" % (register, digest.hex().encode(), template, fields)


def at_a_place(drawn, text, change):
    place = drawn.randrange(len(text))
    return text[:place] + change(text[place : place + 1]) + text[place + 1 :]


def words_changed(drawn, text, change):
    words = text.split(b" ")
    place = drawn.randrange(len(words))
    return b" ".join([*words[:place], *change(words[place]), *words[place + 1 :]])


def changed(drawn, text):
    """A line that is changed somehow."""
    template = text.split(b" ")[2 + text.startswith(b" ")]
    return drawn.choice((
        lambda: at_a_place(drawn, text, lambda byte: bytes([byte[0] ^ 1 << drawn.randrange(8)])),
        lambda: at_a_place(drawn, text, lambda byte: b""),
        lambda: at_a_place(drawn, text, lambda byte: byte + drawn.choice((b" ", b"\n", b"\0", b"0", b":", b"\t", byte))),
        lambda: at_a_place(drawn, text, bytes.upper),
        lambda: text.upper(),
        lambda: words_changed(drawn, text, lambda word: []),
        lambda: words_changed(drawn, text, lambda word: [word, word]),
        lambda: words_changed(drawn, text, lambda word: [word, b""]),
        lambda: words_changed(drawn, text, lambda word: [b"0" * len(word)]),
        lambda: words_changed(drawn, text, lambda word: [drawn.choice(NUMBERS)]),
        lambda: words_changed(drawn, text, lambda word: [word[:-2]]),
        lambda: text.replace(template, drawn.choice((*OTHERS, *ROWS)), 1),
        lambda: text[: drawn.randrange(len(text))],
        lambda: text[:-1] + drawn.choice((b"", b" \n", b"\r\n", b"\n\n")),
        lambda: b"\n" + text,
        lambda: text + text,
        lambda: text[text.index(b" ", 3) :],
        lambda: text[1:],
    ))()


def long_line(drawn):
    """A line of about the longest length."""
    text = line(drawn, drawn.choice((b"ima-buf", b"ima-sig")))
    return text[:-1] + b"0" * (drawn.choice((-1, 0, 0, 1, 2, 70)) + LONGEST_LINE - len(text)) + drawn.choice((b"\n", b"\n", b""))


def random_text(drawn, seed):
    """A text of a few lines."""
    lines = [line(drawn) for _ in range(drawn.choice((0, 1, 1, 2, 3, 6)))]
    if lines and drawn.random() < 0.7:
        place = drawn.randrange(len(lines))
        lines[place] = changed(drawn, lines[place])
    if seed % EACH_LONG == 0:
        lines.insert(drawn.randrange(len(lines) + 1), long_line(drawn))
    return b"".join(lines)


def wanted(text):
    """What the command `list` answers by the reference: the status, and the output."""
    try:
        return 0, list_of(text)
    except Fault as fault:
        return fault.status, fault.line.encode() + b"\n"


def found(program, path, text):
    """What it answers."""
    path.write_bytes(text)
    ran = subprocess.run([program, "list", path.name], cwd=path.parent, env={}, stdout=subprocess.PIPE, stderr=subprocess.PIPE, timeout=60)
    return ran.returncode, ran.stdout


def kind_of(answer):
    status, output = answer
    return "list" if status == 0 else output.decode(errors="replace").removeprefix("refused: ").partition(" at line")[0].strip()


def outcomes(program, seeds):
    """How often the texts of some seeds had which answers, and what is wrong with the others."""
    counts, wrong, lists = Counter(), [], []
    with tempfile.TemporaryDirectory() as folder:
        path = Path(folder, "text")
        for seed in seeds:
            drawn = random.Random(seed)
            text = random_text(drawn, seed)
            one, other = found(program, path, text), wanted(text)
            counts[kind_of(other)] += 1
            if one != other:
                wrong.append(f"seed {seed}: {one[0]} {one[1][:99]!r}, and not {other[0]} {other[1][:99]!r}, for {text[:999]!r}")
            elif one[0] == 0:
                lists.append((text, one[1]))
        texts, spelled = (b"".join(parts) for parts in zip(*lists)) if lists else (b"", b"")
        if found(program, path, texts) != (0, spelled):
            wrong.append(f"seeds {seeds}: the texts that have lists, joined")
    return counts, wrong


class ListTexts(harness.TestCase):
    def test_texts(self):
        asked = parser.parse_args()
        program, seeds, counts, wrong = asked.program.resolve(), range(asked.texts), Counter(), []
        with ProcessPoolExecutor(os.cpu_count()) as pool:
            for part in pool.map(outcomes, [program] * CHUNKS, [seeds[start::CHUNKS] for start in range(CHUNKS)]):
                counts, wrong = counts + part[0], wrong + part[1]
        answers = ", ".join(f"{answer} {times}" for answer, times in sorted(counts.items()))
        self.check_all(f"lists as text: {answers}", len(seeds) - len(wrong), wrong)
        self.check("each kind of answer is among these", ANSWERS - set(counts), set())


if __name__ == "__main__":
    sys.exit(harness.main())
