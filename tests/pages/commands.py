#!/usr/bin/env python3
"""Requires that a test runs each block of commands, and each example, of the pages, or that this table says why none does.

tests/pages/commands.py [ROOT]: the tree whose pages are read, by default the one that this file is in.

A block is fenced, and its kind is the language, or it is indented after an empty line, and its kind is `$` if that begins its first line. A row
names the page, the kind, a mark that its blocks have, and the test that runs them. Each block must have one row, and each row a block. The test
must be there, and name the page."""

import re
import sys
from pathlib import Path

sys.path.insert(0, str(Path(__file__).resolve().parents[1]))
import harness  # noqa: E402

RECIPES, TPM, COLLECTING = "tests/pages/recipes.py", "tests/attest/tpm.py", "tests/attest/collecting.py"
FLEET, BINDINGS, LIBRARY = "tests/fleet/recipes.py", "tests/bindings/pages.py", "tests/bindings/library_page.py"

RUN = [
    ("README.md", "$", "", RECIPES),
    ("README.md", "sh", "", RECIPES),  # (each is a block of attest.md)
    ("README.md", "python", "", "tests/bindings/test"),
    ("docs/attest.md", "$", "", RECIPES),
    ("docs/attest.md", "indented", "quote match", "tests/attest/quotes.py"),
    ("docs/attest.md", "sh", "ima-collect --enroll", TPM),
    ("docs/attest.md", "sh", "ima-enroll", TPM),
    ("docs/attest.md", "sh", "ima-collect --credential", TPM),
    ("docs/attest.md", "sh", "openssl rand", TPM),
    ("docs/attest.md", "sh", "ima-collect --nonce", TPM),
    ("docs/attest.md", "sh", "ima-attest", TPM),
    ("docs/attest.md", "sh", "ima-collect evidence", COLLECTING),
    ("docs/attest.md", "sh", "tpm2_pcrread", COLLECTING),
    ("docs/attest.md", "sh", "pcr-sha256/10", COLLECTING),
    ("docs/attest.md", "sh", "ima-agent verify --require sha256:0-10 firmware.log", RECIPES),
    ("docs/attest.md", "sh", "ima-agent expected", RECIPES),
    ("docs/attest.md", "sh", "--known", RECIPES),
    ("docs/attest.md", "sh", "--argjson confirmed", RECIPES),
    ("docs/attest.md", "sh", "ima-agent replay", RECIPES),
    ("docs/attest.md", "sh", "--arg aggregate", RECIPES),
    ("docs/investigate.md", "$", "", RECIPES),
    ("docs/investigate.md", "sh", "ima-agent locate", RECIPES),
    ("docs/investigate.md", "sh", "diff before.events", RECIPES),
    ("docs/cli.md", "$", "", RECIPES),
    ("docs/cli.md", "sh", "ima-agent measure", RECIPES),
    ("docs/json.md", "$", "", RECIPES),
    ("docs/json.md", "sh", "pcclient_std", RECIPES),
    ("docs/calls.md", "rust", "", "tests/pages/quotes.py"),  # (what `./check` proves)
    *(("docs/library.md", language, "", LIBRARY) for language in ("python", "go", "rust", "c")),
    ("docs/fleet.md", "sh", "", FLEET),  # (which sees that it runs each, but for the one of a system's packages, which is of tests/dist/test)
    ("docs/fleet.md", "sql", "", "tests/fleet/test"),
    ("bindings/go/README.md", "go", "", BINDINGS),
    ("bindings/python/README.md", "python", "", BINDINGS),
    ("bindings/rust/README.md", "rust,no_run", "", BINDINGS),
]
# Blocks that no test takes from the page: why.
NOT_RUN = [
    ("README.md", "indented", "./check --quick", "it runs the tests; tests/faults/commands.py tries it with stand-ins"),
    ("docs/fleet.md", "indented", "/srv/boot", "a table of machines"),
    ("docs/performance.md", "indented", "tools/bench/run", "it measures for minutes, by hand"),
    ("bindings/go/README.md", "indented", "go mod edit", "tests/bindings/test gives the same arguments, with its own paths"),
    ("bindings/python/README.md", "indented", "pip install", "it needs a network, or a build backend"),
    ("dist/release.md", "$", "verify", "a release has other paths: tests/dist/test verifies its sample there"),
    ("dist/release.md", "indented", "./install", "tests/dist/test installs into folders of its own"),
]
PATTERNS = "*.md", "bindings/*/*.md", "dist/*.md", "docs/*.md"
BLOCK = re.compile(r"^```(\S*)\n((?:.*\n)*?)```$|(?<=\n\n)((?:    .*\n)+)", re.MULTILINE)


def blocks_of(page):
    """The blocks of a page: where each begins, its kind and its text."""
    text = page.read_text()
    for found in BLOCK.finditer(text):
        language, fenced, indented = found.groups()
        kind = ("$" if indented.startswith("    $ ") else "indented") if indented else language
        yield text.count("\n", 0, found.start()) + 1, kind, indented or fenced


class Commands(harness.TestCase):
    def test_rows(self):
        """each block has one row, and each row a block"""
        root, used = harness.argument(harness.ROOT), set()
        for page in sorted(page for pattern in PATTERNS for page in root.glob(pattern)):
            name = str(page.relative_to(root))
            for line, kind, block in blocks_of(page):
                rows = [row for row in [*RUN, *NOT_RUN] if row[:2] == (name, kind) and row[2] in block]
                used.update(rows)
                self.check(f"{name}:{line}: rows for {block.splitlines()[0].strip()[:60]}", len(rows), 1)
        for row in [*RUN, *NOT_RUN]:
            self.check(f"{' '.join(row[:3])}: there is such a block", row in used)

    def test_tests(self):
        """each test is there, and names the page"""
        root = harness.argument(harness.ROOT)
        for page, test in sorted({(page, test) for page, _, _, test in RUN}):
            name = page.split("/")[-1] if test != "tests/pages/quotes.py" else "docs/*.md"
            self.check(f"{test} names {page}", (root / test).is_file() and name in (root / test).read_text())


if __name__ == "__main__":
    sys.exit(harness.main())
