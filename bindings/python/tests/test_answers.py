"""How the package reads what a library answers: real lines, those of a later library, damage, and
errors."""

import dataclasses
import json
import pickle
import re
import subprocess
import sys
import unittest
from unittest.mock import patch

from samples import ROOT, TABLE, of_kind

import ima_verify
from ima_verify import Kind, _answers, _library

SCHEMA = json.loads((ROOT / "docs/schema.json").read_text())["$defs"]
LINES = {
    "verify": ima_verify.Verdict, "attest": ima_verify.Attestation,
    "replay": ima_verify.ListVerdict, "places": ima_verify.Places, "key": ima_verify.Key,
    "header": ima_verify.Header, "event": ima_verify.Event, "entry": ima_verify.Entry,
}
PARTS = {
    "pcr": ima_verify.Pcr, "report_row": ima_verify.Row, "place_row": ima_verify.PlaceRow,
    "stray": ima_verify.Stray, "fault": ima_verify.Fault, "quoted_bank": ima_verify.QuotedBank,
    "clock": ima_verify.Clock, "declared_algorithm": ima_verify.LogAlgorithm,
    "specification": ima_verify.Specification, "image": ima_verify.Image,
    "command": ima_verify.Command, "ima_policy": ima_verify.ImaPolicy,
    "boot_variable": ima_verify.BootVariable, "alike": ima_verify.Alike,
    "changed": ima_verify.Changed, "claim_data": ima_verify.Claim,
    "certificate": ima_verify.Certificate,
}
VERDICTS = "verify", "attest", "replay"
DONE, DIFFERS, REFUSED, OUT_OF_MEMORY, TOO_SHORT, MORE, MISUSED = range(7)
NO_PLACE = 2**64 - 1
# A line of each kind of a boot.
BOOT = [
    '{"secure_boot":"off"}', '{"firmware_version":{"text":""}}', '{"image":"unknown"}',
    '{"command":25,"register":12,"text":"quiet"}', '{"ima_policy":"asked","event":25}',
    '{"boot_variable":"unknown"}', '{"register":0,"bank":"sha256","alike":1}',
    '{"register":0,"now":2,"digest":"f4f0","claimed":{"unknown":true}}',
]


def read(answer, line=None, status=None):
    """What the package makes of an answer, or of another line or status in its place."""
    kind, text = answer["kind"], (answer["line"] if line is None else line).encode() + b"\n"
    status = answer["status"] if status is None else status
    if kind in VERDICTS:
        return _answers.read_verdict(LINES[kind], status, text)
    if kind in ("places", "key", "pcrs"):
        return getattr(_answers, f"read_{kind}")(status, text)
    if kind in ("entry", "end"):
        return _answers.read_entry(text)
    return _answers.read_line(LINES[kind], text)


def read_boot(lines, status=DONE):
    return _answers.read_boot(status, "".join(f"{line}\n" for line in lines).encode())


def fields_of(kind):
    return [field for field in dataclasses.fields(kind) if field.name not in ("matches", "quote_differs", "json")]


def members(found):
    """A result as the object of a line, without what is absent or empty."""
    if dataclasses.is_dataclass(found):
        found = {field.name: getattr(found, field.name) for field in fields_of(found)}
    if isinstance(found, dict):
        named = {name: members(value) for name, value in found.items()}
        return {name: value for name, value in named.items() if value not in (None, [], {})}
    if isinstance(found, (list, tuple)):
        return [members(value) for value in found]
    return found.hex() if isinstance(found, bytes) else found


def with_more(line):
    """The line with one more member in each object."""
    more = {"novel": {"a": [1]}}
    return json.dumps(json.loads(line, object_hook=lambda found: {**more, **found}))


class Answers(unittest.TestCase):
    """The table that the packages of all languages read."""

    def test_table_is_that_of_the_cases(self):
        script = ROOT / "tests/bindings/answers.py"
        ended = subprocess.run([sys.executable, "-B", script], stdout=subprocess.PIPE)
        self.assertEqual(ended.stdout, script.with_suffix(".jsonl").read_bytes())

    def test_names_are_those_of_the_schema(self):
        for name, kind in {**LINES, **PARTS}.items():
            names = {field.name for field in fields_of(kind)}
            self.assertEqual(names, set(SCHEMA[name]["properties"]))
            needed = {each.name for each in fields_of(kind) if each.default is dataclasses.MISSING}
            self.assertEqual(needed, set(SCHEMA[name]["required"]))

    def test_each_answer_is_read(self):
        for answer in of_kind(*LINES):
            found = read(answer)
            self.assertEqual(members(found), members(json.loads(answer["line"])))
            self.assertEqual(found.json, answer["line"])
            if answer["kind"] in VERDICTS:
                self.assertEqual((found.matches, bool(found)), (answer["status"] == DONE,) * 2)
                self.assertRegex(repr(found), r"^<\w+: (no )?match, \d+ entries>$")
        for answer in of_kind("pcrs", "end"):
            (value,) = json.loads(answer["line"]).values()
            self.assertEqual(members(read(answer)), value)
        self.assertGreater(len(TABLE), 50)

    def test_lines_of_a_boot_are_read(self):
        found = read_boot(BOOT, DIFFERS)
        self.assertEqual((found.quote_differs, found.json), (True, "\n".join(BOOT)))
        self.assertEqual((found.secure_boot, found.firmware_version), ("off", {"text": ""}))
        parts = (*found.images, *found.commands, found.ima_policy, *found.boot_variables,
                 *found.alike, *found.changed)
        self.assertEqual(members(parts), [json.loads(line) for line in BOOT[2:]])

    def test_claims_are_read(self):
        claim = {"event": 3, "register": 8, "register_name": "x", "command": {"text": "quiet"}}
        lines = ['{"claimed":"all"}', json.dumps({"claimed": claim}), BOOT[6]]
        found = read_boot(lines)
        self.assertEqual((members(found.claimed), len(found.alike)), ([claim], 1))
        self.assertEqual((found.secure_boot, found.ima_policy.ima_policy), ("unknown", "unknown"))
        with self.assertRaises(ima_verify.LibraryError):
            read_boot(lines[1:])


class Later(unittest.TestCase):
    """A later library may say more."""

    def test_other_members_and_lines_are_ignored(self):
        for answer in of_kind(*LINES):
            found, more = members(read(answer)), members(read(answer, with_more(answer["line"])))
            for name in found.keys() - {"content", "fields"}:  # (which are as the line has them)
                self.assertEqual(more[name], found[name])
        for answer in of_kind("pcrs", "end"):
            self.assertEqual(read(answer, with_more(answer["line"])), read(answer))
        found, again = read_boot(BOOT), read_boot([*map(with_more, BOOT), '{"novel":1}'])
        for name in ("secure_boot", "images", "commands", "ima_policy", "boot_variables", "alike"):
            self.assertEqual(getattr(again, name), getattr(found, name))

    def test_other_reasons_to_differ_are_the_librarys(self):
        """It is the status that says whether there is a match, and nothing else."""
        for answer in of_kind(*VERDICTS):
            whole = json.loads(answer["line"])
            if answer["status"] == DONE:
                line = json.dumps({**whole, "verdict": "differ", "too_old": True})
                self.assertFalse(read(answer, line, DIFFERS))
            else:
                self.assertTrue(read(answer, json.dumps({**whole, "verdict": "match"}), DONE))

    def test_other_words_are_kept(self):
        for kind, name in (("verify", "boot_aggregate"), ("key", "type"), ("attest", "signature")):
            answer = of_kind(kind)[0]
            line = json.dumps({**json.loads(answer["line"]), name: "later"})
            self.assertEqual(getattr(read(answer, line), name), "later")


class Damaged(unittest.TestCase):
    """A damaged answer is a LibraryError, and never a match."""

    def check_wrong(self, *answer, **more):
        with self.assertRaises(ima_verify.LibraryError, msg=f"{answer} {more}"):
            read(*answer, **more)

    def test_status_and_word_agree(self):
        for answer in of_kind(*VERDICTS, "places"):
            for status in {*range(-1, MISUSED + 1)} - {answer["status"]}:
                self.check_wrong(answer, status=status)
        for answer in of_kind("pcrs", "key"):
            self.check_wrong(answer, status=DIFFERS)

    def test_answer_is_one_object_with_its_members(self):
        for answer in of_kind(*LINES, "pcrs", "end"):
            line, whole = answer["line"], json.loads(answer["line"])
            for wrong in ("", "{}", "[]", "null", f"[{line}]", line + line, f"{line}\n", line[:-1],
                          f"\n{line}", line[1:], line[:len(line) // 2], 100_000 * "[",
                          *(json.dumps({**whole, name: 1.5}) for name in whole)):
                self.check_wrong(answer, wrong)
            for name in SCHEMA[answer["kind"]]["required"]:
                without = {key: whole[key] for key in whole if key != name}
                self.check_wrong(answer, json.dumps(without))
        for at in (0, 1, 4):
            with self.assertRaises(ima_verify.LibraryError):
                read_boot(BOOT[:at] + BOOT[at + 1:])


class Errors(unittest.TestCase):
    """What a library may report, and what not."""

    ARGUMENT, MEMORY, IN_LIST = (1, 0, NO_PLACE), (7, 0, NO_PLACE), (3, 1, 2)

    def raised(self, status, error, words=b""):
        """The error that is raised of an answer. The library has these words for it, or none."""
        def answer(name, given, capacity):
            info = _library.ErrorInfo()
            info.size = len(words)
            if name == "error_text":
                self.assertEqual(tuple(given.values()), error)
                return DONE if words else OUT_OF_MEMORY, info, bytearray(words)
            info.error_kind, info.error_number, info.error_place = error
            return status, info, bytearray(len(words))

        with patch.object(_library, "_answered", answer):
            with self.assertRaises(ima_verify.Error, msg=f"{status} {error}") as caught:
                ima_verify.registers(b"x")
        return caught.exception

    def test_refusals_are_those_of_the_table(self):
        numbers = {kind: number for number, kind in _library.KINDS.items()}
        for answer in of_kind("error"):
            fault = json.loads(answer["line"])["fault"]
            kind, number, message = Kind(fault["kind"]), fault["number"], fault["message"]
            digits = re.search(r" at \w+ (\d+)$", message)
            place = int(digits[1]) if digits else None
            error = numbers[kind], number, NO_PLACE if place is None else place
            found = self.raised(REFUSED, error, "W\u00f6rter.".encode())
            self.assertIs(type(found), ima_verify.Refused)
            self.assertEqual((found.kind, found.number, found.place), (kind, number, place))
            self.assertEqual((found.message, str(found)), (message, "W\u00f6rter."))
            self.assertEqual(pickle.loads(pickle.dumps(found)).args, found.args)

    def test_errors_have_words_or_numbers(self):
        for status, error, kind in ((REFUSED, self.ARGUMENT, ima_verify.Misuse),
                                    (OUT_OF_MEMORY, self.MEMORY, ima_verify.OutOfMemory),
                                    (REFUSED, (99, 7, 2**64 - 2), ima_verify.Refused)):
            found = self.raised(status, error, b"Words.\n")
            self.assertEqual((type(found), str(found), found.number), (kind, "Words.", error[1]))
        self.assertEqual((found.kind, found.place), (99, 2**64 - 2))  # (of a later library)
        found = self.raised(REFUSED, self.IN_LIST)
        self.assertEqual(str(found), "error 1 of kind 3 (docs/errors.txt)")

    def test_failures_are_of_their_status(self):
        for status, error in (
            *((status, self.IN_LIST) for status in (DONE, DIFFERS, MORE, OUT_OF_MEMORY, TOO_SHORT)),
            *((status, (0, 0, NO_PLACE)) for status in (REFUSED, OUT_OF_MEMORY, MISUSED, -1)),
            (REFUSED, self.MEMORY), (OUT_OF_MEMORY, self.ARGUMENT),
        ):
            self.assertIs(type(self.raised(status, error)), ima_verify.LibraryError)
