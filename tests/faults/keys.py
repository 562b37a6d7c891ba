#!/usr/bin/env python3
"""Compares what the library for C and `tests/reference/` answer on public areas of keys that are changed at random (areas.py): turned bits, cut
and lengthened ones, fields that were exchanged, numbers at boundaries, attributes at random, and whole keys of many forms and sizes, each with its
size before it or bare.

tests/faults/keys.py [--areas N] [LIBRARY]: 5,000 areas, or so many, and a libima_verify.so; without it `dist/library` makes one, which builds
what is not up to date.

Each area is asked for as text or as JSON. Each fault must be among the answers, and a key of each kind. Python's
cryptography reads back each PEM, and must find the numbers of the area. The script counts areas."""

import argparse
import json
import os
import random
import subprocess
import sys
from collections import Counter
from concurrent.futures import ProcessPoolExecutor
from importlib.util import find_spec
from pathlib import Path

sys.path[:0] = [str(Path(__file__).resolve().parents[1]), str(Path(__file__).resolve().parents[1] / "cases")]
import areas  # noqa: E402
import harness  # noqa: E402
from c_library import Library, Unlike  # noqa: E402
from harness import ROOT  # noqa: E402
from reference.faults import KEY_FAULTS, Fault  # noqa: E402
from reference.keys import read_key  # noqa: E402
from reference.program import json_lines  # noqa: E402

parser = argparse.ArgumentParser(usage="tests/faults/keys.py [--areas N] [LIBRARY]")
parser.add_argument("--areas", type=int, default=5000)
parser.add_argument("library", nargs="?", type=Path)
ASKED = parser.parse_args()
AREAS_OF_A_SEED = 500
KINDS = {("rsa", 2048), ("rsa", 4096), ("ecc", 256), ("ecc", 384), ("ecc", 521)}


def wanted(data, is_endorsement, is_json):
    """The status and the text that the reference answers, and the area, or the fault's number."""
    try:
        area = read_key(data, is_endorsement)
    except Fault as fault:
        text = json_lines([fault.as_json()]) if is_json else f"{fault.line}\n"
        return (fault.status, text.encode()), fault.number
    return (0, (json_lines([area.as_json()]) if is_json else area.text()).encode()), area


def found(library, data, is_endorsement, is_json):
    """The status and the text that the library answers."""
    try:
        return library.ask_for_key(data, is_endorsement, is_json)
    except Unlike as cause:
        return None, f"not answered: {cause}".encode()


def pem_in(text, is_json):
    return json.loads(text)["pem"].encode() if is_json else text[text.index(b"-----BEGIN") :]


def fault_of_pem(pem, key):
    """What is wrong with the PEM of a key, as Python's cryptography reads it, or None. (It takes no point off its curve.)"""
    from cryptography.hazmat.primitives.serialization import load_pem_public_key

    is_on_curve = key.type == "rsa" or is_point(key)
    try:
        numbers = load_pem_public_key(pem).public_numbers()
    except ValueError as cause:
        return f"no PEM: {cause}" if is_on_curve else None
    if key.type == "rsa":
        return None if (numbers.n, numbers.e) == (key.modulus, 65537) else "a PEM of another RSA key"
    return None if (numbers.x, numbers.y, numbers.curve.key_size) == (*point_of(key), key.bits) else "a PEM of another point"


def point_of(key):
    return int.from_bytes(key.x, "big"), int.from_bytes(key.y, "big")


def is_point(key):
    """Whether the point of a key is one of its curve."""
    curve = next(curve for curve in areas.CURVES if curve.size == key.curve.size)
    x, y = point_of(key)
    return max(x, y) < curve.p and (y * y - x**3 + 3 * x - curve.b) % curve.p == 0


def compared(file, seed):
    """How often there was which answer of areas from this seed on, how many PEMs were read back, and what is wrong."""
    library, chance = Library(file), random.Random(seed)
    answers, read_back, wrong = Counter(), 0, []
    for place in range(AREAS_OF_A_SEED):
        data, is_endorsement = areas.random_area(chance)
        is_json = chance.random() < 0.3
        (status, text), read = wanted(data, is_endorsement, is_json)
        answers[read if status else (read.key.type, read.key.bits)] += 1
        answer = found(library, data, is_endorsement, is_json)
        if answer != (status, text):
            wrong.append(f"seed {seed}, area {place}, {data[:40].hex()}..: {answer[0]}, {answer[1][-200:]!r}, not {status}, {text[-200:]!r}")
        elif status == 0 and find_spec("cryptography"):
            read_back += 1
            wrong += [f"seed {seed}, area {place}: {fault}" for fault in [fault_of_pem(pem_in(answer[1], is_json), read.key)] if fault]
    return answers, read_back, wrong


class Keys(harness.TestCase):
    def test_answers(self):
        file, seeds = self.library(), range(-(-ASKED.areas // AREAS_OF_A_SEED))
        answers, read_back, wrong = Counter(), 0, []
        with ProcessPoolExecutor(os.cpu_count()) as pool:
            for run in pool.map(compared, [str(file)] * len(seeds), seeds):
                answers, read_back, wrong = answers + run[0], read_back + run[1], wrong + run[2]
        faults = {number: count for number, count in answers.items() if isinstance(number, int)}
        told = ", ".join(f"fault {number} {faults[number]}" for number in sorted(faults))
        taken = sum(answers.values()) - sum(faults.values())
        self.check_all(f"public areas: {taken} taken, {told}", sum(answers.values()) - len(wrong), wrong)
        self.check("each fault is among the answers", sorted(faults), list(range(1, len(KEY_FAULTS) + 1)))
        self.check("a key of each kind is among them", KINDS <= set(answers))
        if not find_spec("cryptography"):
            self.lacks("cryptography for Python")
        self.check("PEMs were read back", read_back > 0)
        print(f"{read_back} PEMs were read back")

    def library(self):
        """The library that is asked, which is made if the script has no argument."""
        if ASKED.library:
            return ASKED.library.resolve()
        folder = self.folder()
        subprocess.run([ROOT / "dist/library", folder], check=True)
        return folder / "libima_verify.so"


if __name__ == "__main__":
    sys.exit(harness.main())
