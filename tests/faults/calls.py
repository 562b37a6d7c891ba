#!/usr/bin/env python3
"""Sees that the public calls of the libraries have the tests that no contract makes up for.

tests/faults/calls.py [ROOT]: the tree; by default the one that this file is in.

The table `calls.txt` must have a row of each public call that takes memory or that works on a source or a sink, and no others; and each test of
a row must be there. Then each row is taken out in turn, and each test, which must be told. Sources are read, and nothing is built or run: that
the tests of a built tree are those of its sources is seen by `sweep.py`, which asks for this table too. The script counts rows."""

import re
import sys
from dataclasses import dataclass
from pathlib import Path

HERE = Path(__file__).resolve().parent
sys.path.insert(0, str(HERE.parent))

import harness  # noqa: E402

# The crates whose calls take memory by themselves: those above are reached by commands, of which `sweep.py` runs each kind.
LIBRARIES = ("byte_streams", "tpm_keys", "signed_messages", "boot_log", "log_imports", "ima_list", "measure_book", "hash_workers", "pcr_values",
             "boot_verdict", "known_files", "list_imports", "growing_lists", "attestations", "agent_inputs")
WITH_DEVICES = (*LIBRARIES, "terminal_colors", "event_lines", "answers", "ima_agent")
REFUSED = "each_allocation_refused"
SWEEPS = ("tests/faults/sweep.py:test_allocations", "tests/faults/library.py:test_allocations")
# How many groups of tests a row has, by what it begins with.
GROUPS_OF = {"memory": 2, "device": 1}

TEST = re.compile(r"^ *#\[test\]\n(?: *#\[.*\]\n)* *(?:pub )?fn (\w+)", re.MULTILINE)
CALL = re.compile(r"^impl(?:<.*?>)? (?P<type>.*) \{$|^(?P<indent> *)pub fn (?P<name>\w+)(?P<generic><[^>]*>)?(?P<given>[^{]*?)"
                  r"(?: -> (?P<result>.*))?$(?=\n *(?:ensures|requires|//|\{))|^(?P<other>impl|trait)", re.MULTILINE)
ENUM = re.compile(r"^pub enum (\w+) \{$(.*?)^\}$", re.MULTILINE | re.DOTALL)
VARIANT = re.compile(r"^    (\w+)(?:\((?:\w+: )?(\w+)\))?,$", re.MULTILINE)
DEVICE = re.compile(r": (?:Sink|Source)\b")
SCRIPT_TEST = re.compile(r"^    def (test_\w+)", re.MULTILINE)


@dataclass(frozen=True)
class Row:
    """A call, by what it is told of, and its tests, in groups."""

    kind: str
    call: str
    groups: tuple

    def tests(self):
        return [test for group in self.groups for test in group]

    def __str__(self):
        return f"{self.kind} {self.call}"


def read_table(text):
    """The rows, and what is wrong with lines."""
    rows, faults = [], []
    for number, line in enumerate(text.splitlines(), 1):
        kind, *words = line.split("#")[0].split() or ("",)
        if kind and len(words) == GROUPS_OF.get(kind, -1) + 1:
            rows.append(Row(kind, words[0], tuple(tuple(word.split(",")) for word in words[1:])))
        elif kind:
            faults.append(f"calls.txt:{number}: {line}")
    return rows, faults


def sources_of(root, crate):
    return {file: file.read_text() for file in sorted((root / "crates" / crate / "src").glob("**/*.rt"))}


def wants_of_memory(texts):
    """The types that may say that memory ran out: those with that variant, and those that have one of these."""
    variants = {name: VARIANT.findall(body) for text in texts for name, body in ENUM.findall(text)}
    wants, before = {"AllocError"}, set()
    while wants != before:
        before = set(wants)
        wants |= {name for name, those in variants.items() if any(variant == "Memory" or of in wants for variant, of in those)}
    return wants


def calls_in(text, wants):
    """The public calls of a source, each with its kinds, without those of traits."""
    owner, borrows = "", False
    for it in CALL.finditer(text):
        if not it["name"]:
            owner, borrows = re.sub(r"<.*|.* for .*", "", it["type"] or ""), "<'" in (it["type"] or "")
            continue
        given, said = it["given"] + (it["generic"] or ""), set(re.findall(r"\w+", it["result"] or ""))
        takes = "alloc: Global" in given or "AllocError" in said or ("&mut self" in given and not borrows)
        name = f"{owner}::{it['name']}" if it["indent"] else it["name"]
        if takes and said & wants:
            yield "memory", name
        if DEVICE.search(given):
            yield "device", name


def all_calls(root):
    """Each kind and public call of the libraries."""
    texts = {crate: sources_of(root, crate) for crate in WITH_DEVICES}
    wants = wants_of_memory(text for of in texts.values() for text in of.values()) | {"Loaded", "Hashed"}
    calls = {(kind, f"{crate}::{name}") for crate, of in texts.items() for text in of.values() for kind, name in calls_in(text, wants)}
    return {(kind, call) for kind, call in calls if kind == "device" or call.startswith(LIBRARIES)}


def all_tests(root):
    """The names of all tests: those in Rattle, those in scripts, and cases."""
    tests = set()
    for crate in sorted(path.name for path in (root / "crates").iterdir()):
        for file, text in sources_of(root, crate).items():
            module = "::".join(file.relative_to(root / "crates" / crate / "src").with_suffix("").parts)
            tests |= {f"{crate}::{module}::{name}" for name in TEST.findall(text)}
    for file in (root / "tests").glob("**/*.py"):
        tests |= {f"{file.relative_to(root)}:{name}" for name in SCRIPT_TEST.findall(file.read_text())}
    return tests | {str(file.relative_to(root)) for file in (root / "tests/cases").glob("**/*.case")}


def is_swept(test):
    """Whether each allocation of the test is refused in turn."""
    return REFUSED in test or test in SWEEPS


def row_faults(rows, calls, tests):
    """What is wrong with these rows, where these are the calls and the tests that there are."""
    named = [(row.kind, row.call) for row in rows]
    yield from (f"no row of {kind} {call}" for kind, call in sorted(calls - set(named)))
    yield from (f"no call {kind} {call}" for kind, call in sorted(set(named) - calls))
    yield from (f"two rows of {kind} {call}" for kind, call in sorted(set(named)) if named.count((kind, call)) > 1)
    for row in rows:
        yield from (f"{row}: no test {test}" for test in row.tests() if test not in tests)
        if row.kind == "memory":
            yield from (f"{row}: {test} is no test whose allocations are refused" for test in row.groups[0] if not is_swept(test))


def faults_of(root):
    """What is wrong with the table of this tree."""
    rows, faults = read_table((root / "tests/faults/calls.txt").read_text())
    return faults + list(row_faults(rows, all_calls(root), all_tests(root)))


class Calls(harness.TestCase):
    def setUp(self):
        self.root = harness.argument(harness.ROOT)
        self.rows, self.faults = read_table((self.root / "tests/faults/calls.txt").read_text())
        self.calls, self.tests = all_calls(self.root), all_tests(self.root)

    def told(self, rows, calls, tests):
        return list(row_faults(rows, calls, tests))

    def test_table(self):
        faults = self.faults + self.told(self.rows, self.calls, self.tests)
        self.check_all("rows", len(self.rows) - min(len(faults), len(self.rows)), faults)

    def test_tests_that_are_gone(self):
        """Without a test each row of it is told."""
        for test in sorted({test for row in self.rows for test in row.tests()}):
            told = self.told(self.rows, self.calls, self.tests - {test})
            self.assertEqual(told, [f"{row}: no test {test}" for row in self.rows if test in row.tests()])

    def test_rows_that_are_gone(self):
        """Without its row a call is told."""
        for row in self.rows:
            told = self.told([other for other in self.rows if other != row], self.calls, self.tests)
            self.assertEqual(told, [f"no row of {row}"])

    def test_calls(self):
        """A call that the table lacks, one that there is not, one that stands twice, and a first test without refused allocations."""
        memory = next(row for row in self.rows if row.kind == "memory")
        self.assertEqual(self.told(self.rows, self.calls | {("memory", "new")}, self.tests), ["no row of memory new"])
        self.assertEqual(self.told(self.rows, self.calls - {("memory", memory.call)}, self.tests), [f"no call {memory}"])
        self.assertEqual(self.told([*self.rows, memory], self.calls, self.tests), [f"two rows of {memory}"])
        turned = Row("memory", memory.call, memory.groups[::-1])
        told = self.told([turned, *(row for row in self.rows if row != memory)], self.calls, self.tests)
        self.assertEqual(told, [f"{memory}: {test} is no test whose allocations are refused" for test in memory.groups[1]])


if __name__ == "__main__":
    sys.exit(harness.main())
