#!/usr/bin/env python3
"""Compares the sentence of each fault in the sources with the pages.

tests/faults/words.py [ROOT]: the tree whose crates are read, or else the one that this file is in.

The tables of docs/errors.txt must be those of crates/error_texts, as error_tables.py writes them.

A fault is displayed by its `#[error("..")]`. The faults with a number must have the sentences of the tables of docs/errors.txt, or others that
words.txt has by table and number. All others, and the texts of `agent_inputs/src/fault.rt` and of `hints` that put sentences together, must be those of
words.txt, by crate and fault.

A row of a table that begins with 'it' or 'its' says what is wrong at a place, which its sentence names first."""

import re
import sys
from pathlib import Path

HERE = Path(__file__).resolve().parent
sys.path[:0] = [str(HERE.parent), str(HERE.parent / "cases")]
import error_tables  # noqa: E402
import harness  # noqa: E402
from form import displayed_of, sentences_of  # noqa: E402

# The table of each type of faults with numbers, and the place that its rows call 'it'. Two types may share a table.
NUMBERED = {
    "boot_log LogFault": ("Log", "event"),
    "ima_list ListFault": ("List", "entry"),
    "ima_list ReplayFault": ("Replay", "entry"),
    "list_imports ListImportFault": ("Text", "line"),
    "log_imports LogImportFault": ("Form", "event"),
    "pcr_values ExpectFault": ("Expected", "line"),
    "known_files KnownFault": ("Known", "line"),
    "tpm_quotes QuoteFault": ("Quote", None),
    "attestations QuoteRefusal": ("Quote", None),
    "tpm_signatures SignatureFault": ("Signature", None),
    "signed_messages SignatureRefusal": ("Signature", None),
    "tpm_keys KeyFault": ("Key", None),
    "agent_inputs NotResumed": ("Checkpoint", None),
    "measure_book BookFault": ("Book", None),
    "measure_book GatherFault": ("Gather", None),
}
MEMORY = "out of memory"  # (which no table has)
ANOTHER = "{0}"  # the sentence of a fault that holds one of another type
FAULT = re.compile(
    r"pub enum (?P<type>\w+)"
    r'|(?:/// (?P<number>\d+): .*\n(?:\s+///.*\n)*\s+)?#\[error\((?:"\{\}", (?P<other>\w+::\w+)|"(?P<words>[^"]*)")\)\]\s+'
    r"(?:pub struct (?P<unit>\w+)|(?P<name>\w+))"
    r"|(?P<unread>#\[error)"
)
TEXT = re.compile(r'(?:const|fn) (?P<function>\w+)|^ +(?P<fault>RunFault::\w+)[^=\n]*=>|"(?P<words>[^"]*)"', re.MULTILINE)
NOT_READ = "its sentence is not read"
# The name of a fault in words.txt that has another sentence than its table.
BY_NUMBER = re.compile(r"([A-Z][a-z]+) (\d+)")
# What stands in a table for a number that a sentence has.
NUMBERS = {"{index}": "I", "{group}": "G", "{place}": "R", "{register}": "R"}


def texts_in(file):
    """The texts of a file of src/, without white space around them, by its crate and the constant, the function or the fault before them."""
    found, name = {}, ""
    crate = file.parents[1].name
    for each in TEXT.finditer(re.sub(r"#\[error\(.*\)\]", "", file.read_text())):
        name = each["function"] or each["fault"] or name
        if each["words"]:
            texts = sum(known.split()[1] == name for known in found)
            found[f"{crate} {name}" + (f" {texts + 1}" if texts else "")] = each["words"].strip()
    return found


def faults_in(root):
    """The number, if it has one, and the sentence of each fault, by its name. An `#[error]` in another form counts as one more fault.

    A fault that is displayed as another has its sentence, and the other is not among these."""
    found = {}
    for file in sorted((root / "crates").glob("*/src/**/*.rt")):
        crate, kind = file.relative_to(root / "crates").parts[0], ""
        for each in FAULT.finditer(file.read_text()):
            kind = each["type"] or kind
            if each["unread"]:
                found[f"{crate} {kind} in another form"] = None, NOT_READ
            elif each["words"] is not None or each["other"]:
                name = each["unit"] or f"{kind}::{each['name']}"
                found[f"{crate} {name}"] = each["number"], each["other"] or each["words"]
    cited = {name: sentence for name, (_, sentence) in found.items() if any(name.endswith(f" {other}") for _, other in found.values())}
    by_fault = {name.split()[1]: sentence for name, sentence in cited.items()}
    return {name: (number, by_fault.get(sentence, sentence)) for name, (number, sentence) in found.items() if name not in cited}


def kind_of(name):
    """The crate and the type of a fault."""
    return name.split("::")[0]


def is_numbered(name):
    """Whether a table has the faults of this type."""
    return kind_of(name) in NUMBERED


def in_table(sentence):
    """A sentence with the letters by which a table names its numbers."""
    return re.sub(r"\{\w+\}", lambda number: NUMBERS.get(number[0], number[0]), sentence)


def of_row(row, place):
    """The sentence of a table's row."""
    return f"{place} {{{place}}}: {row}" if place and re.match("its? ", row) else row


class Words(harness.TestCase):
    root = Path(sys.argv[1]).resolve() if len(sys.argv) > 1 else harness.ROOT
    words = dict(line.split(": ", 1) for line in (HERE / "words.txt").read_text().splitlines())

    def test_tables(self):
        self.check("the tables of errors.txt", error_tables.PAGE.read_text(), error_tables.made(self.root))

    def test_other_sentences(self):
        """A sentence of words.txt is another than that of its table."""
        for name, sentence in self.words.items():
            if found := BY_NUMBER.fullmatch(name):
                self.check(f"{name}, in the table", sentences_of(found[1])[int(found[2])] != sentence, True)

    def test_numbered_faults(self):
        found = {table: {} for table, _ in NUMBERED.values()}
        for name, (number, sentence) in faults_in(self.root).items():
            if is_numbered(name) and name.endswith("::Memory"):
                self.check(name, sentence, MEMORY)
            elif is_numbered(name) and sentence != ANOTHER:
                table, _ = NUMBERED[kind_of(name)]
                found[table].setdefault(int(number or 0), []).append(in_table(sentence))
        for table, place in dict(NUMBERED.values()).items():
            wanted = {number: [of_row(row, place)] for number, row in displayed_of(table).items()}
            for number in sorted({*found[table], *wanted}):
                self.check(f"{table}, {number}", found[table].get(number), wanted.get(number))

    def test_other_words(self):
        found = {name: sentence for name, (_, sentence) in faults_in(self.root).items() if not is_numbered(name)}
        for file in ("agent_inputs/src/fault.rt", *(f"hints/src/{name}.rt" for name in ("explanations", "fault_lines", "selections", "task_inputs"))):
            found |= texts_in(self.root / "crates" / file)
        wanted = {name: sentence for name, sentence in self.words.items() if not BY_NUMBER.fullmatch(name)}
        for name in sorted({*found, *wanted}):
            self.check(name, found.get(name), wanted.get(name))


if __name__ == "__main__":
    sys.exit(harness.main())
