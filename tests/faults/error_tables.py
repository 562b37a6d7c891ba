#!/usr/bin/env python3
"""Writes the rows of the tables of errors in docs/errors.txt, as crates/error_texts has them.

tests/faults/error_tables.py

Each error has there what is wrong, and what to do, which rows in a row with the same advice have once, after the last of them. The headings of
the tables are those of the file. words.py compares the rows."""

import itertools
import re
import sys
import textwrap
from pathlib import Path
from typing import NamedTuple

sys.path.insert(0, str(Path(__file__).resolve().parents[1]))
from harness import ROOT  # noqa: E402

WIDTH = 150
# A table's function, a constant with what to do, and a row.
FUNCTION = re.compile(r"fn (\w+)_sentence\(number")
CONSTANT = re.compile(r'const (\w+): &str =\s*"(.*)";')
ROW = re.compile(r'(\d+) => row\(\s*"(.*)",\s*(?:"(.*)"|(\w+)),?\s*\)')
# Tables that are parts of others.
WHOLES = {"asked": "quote", "purpose": "key"}
PAGE = ROOT / "docs/errors.txt"
# One of its tables.
SECTION = re.compile(r"^([A-Z][a-z]+) faults \(.*\n((?: +.*\n)+)", re.MULTILINE)


class Sentence(NamedTuple):
    """What is wrong, and what to do."""

    wrong: str
    action: str


def tables_in(root):
    """The sentences of errors by their numbers, by the first word of their table's heading."""
    tables = {}
    for file in sorted((root / "crates/error_texts/src").glob("*.rt")):
        text = file.read_text()
        constants = dict(CONSTANT.findall(text))
        names = [(found.start(), found[1]) for found in FUNCTION.finditer(text)]
        for row in ROW.finditer(text):
            name = next(name for start, name in reversed(names) if start < row.start())
            number, wrong, action, constant = row.groups()
            rows = tables.setdefault(WHOLES.get(name, name).capitalize(), {})
            rows[int(number)] = Sentence(wrong[0].lower() + wrong[1:], action or constants[constant])
    return {name: dict(sorted(rows.items())) for name, rows in tables.items()}


def lines_of(rows):
    """The rows of a table."""
    indent = " " * 5
    for action, group in itertools.groupby(rows.items(), lambda row: row[1].action):
        yield from (f"{number:>3}  {row.wrong}\n" for number, row in group)
        lines = textwrap.wrap(action, WIDTH, initial_indent=indent, subsequent_indent=indent, break_on_hyphens=False)
        yield from (f"{line}\n" for line in lines)


def made(root):
    """The text that docs/errors.txt should have. A table that it or the sources lack is an error."""
    text, tables = PAGE.read_text(), tables_in(root)
    names = [found[1] for found in SECTION.finditer(text)]
    if sorted(names) != sorted(tables):
        raise ValueError(f"tables {names}, and not {[*tables]}")
    parts, end = [], 0
    for found in SECTION.finditer(text):
        parts += [text[end : found.start(2)], *lines_of(tables[found[1]])]
        end = found.end(2)
    return "".join([*parts, text[end:]])


if __name__ == "__main__":
    PAGE.write_text(made(ROOT))
