#!/usr/bin/env python3
"""Writes answers.jsonl, from which the tests of all packages read the same answers of the library.

tests/bindings/answers.py > tests/bindings/answers.jsonl

The answers are lines of the cases of `--json` (tests/cases/*/*.case): one after another that which shows most members, values of enumerations, and
absent members of docs/schema.json, and statuses, that none before it shows. A line of answers.jsonl is an object with the members

    kind       which definition of docs/schema.json the answer has, such as `verify`, or `error`
    status     what the library returns with it: 0 (IMA_VERIFY_DONE) or 1 (IMA_VERIFY_DIFFERS); an `error` has 2 (IMA_VERIFY_REFUSED)
    matches    for a verdict and for places: whether a package says that all match, which is the status alone
    line       the answer, without its line feed
"""

import json
import sys
from pathlib import Path

TESTS = Path(__file__).resolve().parents[1]
sys.path[:0] = [str(TESTS), str(TESTS / "cases")]
import form  # noqa: E402
from line_kinds import DEFINED, kinds_of, visited  # noqa: E402

VERDICTS = "verify", "attest", "replay", "places"
LINES = "pcrs", "key", "header", "event", "entry", "end", "error"
REFUSED_KINDS = "log", "list", "replay", "expected", "checkpoint", "quote", "key", "known", "signature"
DONE, DIFFERS, REFUSED = 0, 1, 2
LONGEST = 6000


def lines_of_cases():
    """The lines of JSON that the cases show in full, shorter ones first, with the statuses of the commands."""
    found = {}
    for case in map(form.read_case, form.case_files()):
        for command in case.commands:
            if "--json" in command.words:
                found.update((line, command.status) for line in command.wanted if line.startswith("{") and len(line) <= LONGEST)
    return sorted(found.items(), key=lambda item: (len(item[0]), item[0]))


def object_in(line):
    """The object of a line, or None if the case leaves out a part of it."""
    try:
        return json.loads(line)
    except ValueError:
        return None


def is_of_library(value, kind):
    """Whether a library gives such a line: its errors are refused inputs, and its verdicts match only if a PCR was compared."""
    if kind == "error":
        return value["fault"]["kind"] in REFUSED_KINDS
    return kind in (*VERDICTS, *LINES) and (value.get("compared"), value.get("verdict")) != (0, "match")


def features_of(value, kind):
    """What of the schema a value shows: members that it has or lacks, values that the schema names, and whether an array has items."""
    for name, part, inner in visited(DEFINED[kind], value, kind):
        if "const" in part or "enum" in part:
            yield name, str(inner)
        if isinstance(inner, list):
            yield name, bool(inner)
        if isinstance(inner, dict):
            yield from ((name, member, member in inner) for member in part.get("properties", {}))


def answer_of(kind, status, line):
    """The line of the table for an answer."""
    if kind == "error":
        return {"kind": kind, "status": REFUSED, "line": line}
    if kind not in VERDICTS:
        return {"kind": kind, "status": DONE, "line": line}
    return {"kind": kind, "status": DIFFERS if status else DONE, "matches": not status, "line": line}


def answers():
    """The lines of the table, by their kinds."""
    left = [(answer_of(kind, status, line), {*features_of(value, kind), (kind, bool(status))}) for line, status in lines_of_cases()
            for value in [object_in(line)] for kind in kinds_of(value) if is_of_library(value, kind)]
    shown, chosen, order = set(), [], [*VERDICTS, *LINES]
    while left := [(answer, features) for answer, features in left if features - shown]:
        answer, features = max(left, key=lambda each: len(each[1] - shown))  # (of several the first, which is the shortest)
        shown |= features
        chosen.append(answer)
    return sorted(chosen, key=lambda answer: order.index(answer["kind"]))


if __name__ == "__main__":
    sys.stdout.writelines(json.dumps(answer, separators=(",", ":"), ensure_ascii=False) + "\n" for answer in answers())
