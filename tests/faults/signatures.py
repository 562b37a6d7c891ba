#!/usr/bin/env python3
"""Compares what the crates of signatures and Python's cryptography say: of valid signatures by keys of many sizes, of forgeries of each kind that is
known (forgeries.py), and of signatures, messages and keys that are changed at random.

tests/faults/signatures.py [PROGRAM]: what answers questions on signatures, by default the program of crates/signature_lines that was built here.

What is wanted of a forgery is known by how it was made, and cryptography must agree wherever it takes the same keys. Signatures as a TPM gives them
are read by a few lines here. The script counts questions."""

import hashlib
import os
import random
import subprocess
import sys
from collections import Counter
from concurrent.futures import ThreadPoolExecutor
from pathlib import Path

sys.path.insert(0, str(Path(__file__).resolve().parents[1]))
import harness  # noqa: E402
from reference.fields import Cut, Fields  # noqa: E402

try:
    import forgeries
    from forgeries import GROUPS, HASHES, EcdsaQuestion, RsaKey, RsaQuestion
except ModuleNotFoundError as cause:
    if cause.name.partition(".")[0] != "cryptography":
        raise
    forgeries = None

CRATE = harness.ROOT / "crates/signature_lines"
PROGRAM = harness.argument(CRATE / "out/signature_lines")
SEED, SECONDS = 20, 600
# How many questions are changed at random. A point takes the program some 30 ms on P-256, and 80 ms on P-384.
CHANGED = {"rsassa": 8000, "rsapss": 8000, "ecdsa": 1500, "tpmt": 4000}
RSA_BITS, PKCS1_BITS, UNTAKEN_BITS = (2048, 2056, 3072, 4096), (2042, 2046, 2050), (2040, 4104)
MESSAGE_SIZES = (0, 1, 55, 56, 63, 64, 65, 111, 112, 127, 128, 129, 1000, 100_000)
SCHEMES = {0x14: "rsassa", 0x16: "rsapss", 0x18: "ecdsa"}
TPM_HASHES = {0x4: "sha1", 0xB: "sha256", 0xC: "sha384", 0xD: "sha512"}
IDENTIFIERS = (*range(0x200), *(number << 8 for number in range(2, 0x100)), 0xFFFF)


def answers(lines):
    """What the program answers. It runs side by side as often as there are processors, each time on a part of the lines."""
    lanes = os.cpu_count()

    def asked(part):
        given = "".join(f"{line}\n" for line in part)
        said = subprocess.run([PROGRAM], input=given, stdout=subprocess.PIPE, text=True, check=True, timeout=SECONDS).stdout.splitlines()
        if len(said) != len(part):
            raise ValueError(f"{len(said)} answers to {len(part)} questions")
        return said

    with ThreadPoolExecutor(lanes) as pool:
        said = list(pool.map(asked, [lines[lane::lanes] for lane in range(lanes)]))
    return [said[place % lanes][place // lanes] for place in range(len(lines))]


def shown(line):
    return " ".join(word if len(word) < 1200 else f"{word[:1200]}.." for word in line.split(" "))


def tpmt(scheme, hash, *numbers):
    """A TPMT_SIGNATURE (TPM 2.0 Library, part 2, section 11.3)."""
    return b"".join(number.to_bytes(2, "big") for number in (scheme, hash)) + b"".join(len(number).to_bytes(2, "big") + number for number in numbers)


def read_tpmt(data):
    """The answer to a TPMT_SIGNATURE, read field by field."""
    fields = Fields(data, "big")
    try:
        scheme = SCHEMES.get(fields.number(2))
        if scheme is None:
            return "fault 2"
        hash = TPM_HASHES.get(fields.number(2))
        if hash is None:
            return "fault 3"
        numbers = [fields.with_length(2) for _ in range(2 if scheme == "ecdsa" else 1)]
    except Cut:
        return "fault 1"
    return "fault 4" if fields.left() else " ".join([scheme, hash, *(number.hex() or "-" for number in numbers)])


def changed(chance, data):
    """Bytes of which bits are turned, or of which some are cut off, come twice, or were added."""
    data, place, count = bytearray(data), chance.randrange(len(data) + 1), chance.choice((1, 1, 1, 2, 8))
    change = chance.choice(("turn", "turn", "turn", "cut", "add", "front", "end"))
    if change == "turn" and data:
        for _ in range(count):
            data[chance.randrange(len(data))] ^= 1 << chance.randrange(8)
    elif change == "cut":
        del data[place : place + count]
    elif change == "front":
        data[:0] = chance.choice((bytes(count), chance.randbytes(count)))
    elif change == "end":
        data = chance.choice((data[:-count], data + bytes(count), data + chance.randbytes(count)))
    else:
        data[place:place] = chance.choice((bytes(count), data[place : place + count], chance.randbytes(count)))
    return bytes(data)


class Signatures(harness.TestCase):
    @classmethod
    def setUpClass(cls):
        if forgeries is None:
            cls.lacks("cryptography for Python")
        cls.chance = random.Random(SEED)
        cls.keys = {bits: RsaKey(bits) for bits in (*RSA_BITS, *PKCS1_BITS, *UNTAKEN_BITS)}

    def compare(self, title, lines, wanted):
        """Counts the lines that are answered as is wanted."""
        found = answers(lines)
        wrong = [f"{one}, and not {other}: {shown(line)}" for line, one, other in zip(lines, found, wanted) if one != other]
        self.check_all(title, len(lines) - len(wrong), wrong)

    def ask(self, title, questions, wanted):
        """Counts the questions to which this is the answer, and to which cryptography agrees if it takes the same keys."""
        others = [f"cryptography says otherwise: {shown(question.line)}" for question in questions
                  if question.is_taken() and question.is_verified() != wanted]
        self.check(f"{title}: cryptography agrees", others, [])
        self.compare(title, [question.line for question in questions], ["valid" if wanted else "invalid"] * len(questions))

    def ask_kinds(self, kinds, wanted):
        for title, questions in kinds.items():
            self.ask(title, questions, wanted)

    def message(self):
        return self.chance.randbytes(self.chance.choice(MESSAGE_SIZES[:-1]))

    def valid_questions(self, scheme, bits):
        return [self.keys[size].valid(scheme, hash, self.chance.randbytes(length)) for size in bits for hash in HASHES for length in MESSAGE_SIZES]

    def test_valid_rsa(self):
        self.ask("valid by RSASSA", self.valid_questions("rsassa", (*RSA_BITS, *PKCS1_BITS)), True)
        self.ask("valid by PSS", self.valid_questions("rsapss", RSA_BITS), True)

    def test_sizes(self):
        """Keys that are not taken"""
        self.ask("RSASSA: moduli of 255 and 513 bytes", self.valid_questions("rsassa", UNTAKEN_BITS), False)
        self.ask("PSS: moduli of 255 and 513 bytes, and of other bits", self.valid_questions("rsapss", (*UNTAKEN_BITS, *PKCS1_BITS)), False)
        for scheme in ("rsassa", "rsapss"):
            valid = self.valid_questions(scheme, RSA_BITS)
            self.ask(f"{scheme}: a zero before modulus and number", [
                one._replace(modulus=b"\0" + one.modulus, signature=zero + one.signature) for one in valid for zero in (b"", b"\0")], False)
            self.ask(f"{scheme}: no modulus, or a part", [
                one._replace(modulus=modulus) for one in valid[:2] for modulus in (b"", bytes(256), one.modulus[1:])], False)

    def test_salts(self):
        """Salts of each length"""
        for bits in (2048, 2056):
            key = self.keys[bits]
            for hash in HASHES:
                message, most = self.message(), key.size - HASHES[hash].digest_size - 2
                made = [forgeries.encoded_pss(key.size, hash, message, self.chance.randbytes(length)) for length in range(most + 1)]
                self.ask(f"PSS: salts of 0 to {most} bytes, {bits} bits, {hash}",
                         [key.asked("rsapss", hash, message, key.signed(encoded)) for encoded in made], True)

    def test_rsa_forgeries(self):
        for scheme, name in (("rsassa", "RSASSA"), ("rsapss", "PSS")):
            kinds = {}
            for bits in (2048, 2056):
                self.check(f"{name}, {bits} bits: what is encoded here is valid", self.is_encoded(scheme, self.keys[bits]))
                for hash in HASHES:
                    for title, questions in forgeries.rsa_forgeries(self.chance, self.keys[bits], scheme, hash, self.message() + b"m"):
                        kinds.setdefault(f"{name}: {title}", []).extend(questions)
            self.ask_kinds(kinds, False)

    def is_encoded(self, scheme, key):
        """Whether cryptography takes what is encoded here without a change."""
        digest = hashlib.sha256(b"m").digest()
        encoded = forgeries.padded(key.size, forgeries.digest_info("sha256", digest)) if scheme == "rsassa" else forgeries.encoded_pss(
            key.size, "sha256", b"m", b"salt")
        return key.asked(scheme, "sha256", b"m", key.signed(encoded)).is_verified()

    def test_ecdsa(self):
        self.ask("valid by ECDSA", self.valid_ecdsa(MESSAGE_SIZES), True)
        for maker, wanted in ((forgeries.rare_signatures, True), (forgeries.ecdsa_forgeries, False)):
            kinds = {}
            for group in GROUPS.values():
                for hash in HASHES:
                    for title, questions in maker(self.chance, group, hash, self.message() + b"m"):
                        kinds.setdefault(f"ECDSA: {title}", []).extend(questions)
            self.ask_kinds(kinds, wanted)

    def valid_ecdsa(self, sizes):
        return [group.signed(hash, self.chance.randbytes(size), self.chance.randrange(1, group.n), self.chance.randrange(1, group.n))
                for group in GROUPS.values() for hash in HASHES for size in sizes]

    def test_changed(self):
        """Signatures, messages and keys that are changed at random"""
        made = {"rsassa": self.valid_questions("rsassa", (*RSA_BITS, *PKCS1_BITS)), "rsapss": self.valid_questions("rsapss", RSA_BITS),
                "ecdsa": self.valid_ecdsa(MESSAGE_SIZES[:-1])}
        for scheme, valid in made.items():
            small = [question for question in valid if len(question.message) < 2000]
            questions = [self.with_change(self.chance.choice(small)) for _ in range(CHANGED[scheme])]
            wanted = ["valid" if question.is_taken() and question.is_verified() else "invalid" for question in questions]
            told = ", ".join(f"{answer} {count}" for answer, count in sorted(Counter(wanted).items()))
            self.compare(f"{scheme}, changed at random: {told}", [question.line for question in questions], wanted)

    def with_change(self, question):
        part = self.chance.choice(question.PARTS)
        return question._replace(**{part: changed(self.chance, getattr(question, part))})

    def test_tpmt(self):
        """Signatures as a TPM gives them"""
        wholes = {}
        for scheme, name in SCHEMES.items():
            for hash, called in TPM_HASHES.items():
                for size in (0, 1, 32, 256, 512, 65535):
                    numbers = [self.chance.randbytes(length) for length in ((size, size // 2) if name == "ecdsa" else (size,))]
                    wholes[tpmt(scheme, hash, *numbers)] = " ".join([name, called, *(number.hex() or "-" for number in numbers)])
        self.compare_tpmt("signatures of a TPM", wholes)
        small = [whole for whole in wholes if len(whole) < 2000]
        self.compare_tpmt("cut", {whole[:size]: "fault 1" for whole in small for size in (*range(6), len(whole) // 2, len(whole) - 1)})
        self.compare_tpmt("bytes after it", {whole + more: "fault 4" for whole in small for more in (b"\0", b"\xff", bytes(40), whole)})
        self.compare_tpmt("other schemes", {tpmt(scheme, 0xB, b"1"): "fault 2" for scheme in IDENTIFIERS if scheme not in SCHEMES})
        self.compare_tpmt("other hashes", {tpmt(0x14, hash, b"1"): "fault 3" for hash in IDENTIFIERS if hash not in TPM_HASHES})
        self.compare_tpmt("the first fault", {tpmt(0x15, 5): "fault 2", tpmt(0x15, 5)[:2]: "fault 2", tpmt(0, 0, b"") + b"\0": "fault 2",
                                              tpmt(0x18, 5): "fault 3", tpmt(0x18, 5)[:3]: "fault 1", tpmt(0x16, 0xB, b"1")[:-1]: "fault 1"})
        turned = [changed(self.chance, self.chance.choice(small)[: self.chance.choice((None, 6, 12))]) for _ in range(CHANGED["tpmt"])]
        self.compare_tpmt("changed at random", {data: read_tpmt(data) for data in turned})

    def compare_tpmt(self, title, wanted):
        self.compare(f"TPMT_SIGNATURE: {title}", [f"tpmt {data.hex() or '-'}" for data in wanted], list(wanted.values()))

    def test_lines(self):
        """Lines that are no questions"""
        valid = self.valid_questions("rsassa", (2048,))[0].line
        lines = ["", "valid", "RSASSA" + valid[6:], valid + " 00", valid.rpartition(" ")[0], valid + "0", valid + "0g", valid + " ",
                 valid.replace(" ", "  ", 1), valid.replace("sha256", "sha1"), "ecdsa p521 sha256 00 00 00 00 00", "ecdsa p256 sha1 00 00 00 00 00",
                 "ecdsa p256 sha256 00 00 00 00", "ecdsa p256 sha256 00 00 00 00 00 00", "tpmt", "tpmt 00 00", "tpmt 0"]
        self.compare("lines that are no questions", lines, ["not a question"] * len(lines))

    def test_crate(self):
        """What `rt ci` has the program answer"""
        lines, wanted = ((CRATE / name).read_text().splitlines() for name in ("stdin", "stdout"))
        self.check("as many answers as questions", len(lines), len(wanted))
        for number, (line, answer) in enumerate(zip(lines, wanted), 1):
            self.check(f"stdin, line {number}", answer, said_of(line))


def said_of(line):
    """What cryptography says of a question, and of a TPM's signature the few lines here."""
    scheme, *words = line.split(" ")
    values = [bytes.fromhex("" if word == "-" else word) for word in words if word not in (*HASHES, *GROUPS)]
    if scheme == "tpmt":
        return read_tpmt(*values)
    question = EcdsaQuestion(*words[:2], *values) if scheme == "ecdsa" else RsaQuestion(scheme, words[0], *values)
    return "valid" if question.is_taken() and question.is_verified() else "invalid"


if __name__ == "__main__":
    sys.exit(harness.main())
