#!/usr/bin/env python3
"""Requires that the pages quote proved callers to the letter, that links lead to what is there, and that the picture is what its script makes.

tests/pages/quotes.py [ROOT]: the tree whose README.md and docs/*.md are read, by default the one that this file is in.

Each block that begins with ```rust must be in one file of crates/uses/src, as whole lines in a row: as they are in that file, or with
contracts, doc comments or both left out. A contract is what is between the signature of a function and the line `{` of its body. Where it
is left out, the `{` ends the signature's last line. A doc comment is a line that begins with `///`. There must be at least one block. Those of
docs/library.md are of the package for Rust: tests/bindings/library_page.py has them run.

Each link to a file of the tree must lead to one, and if it names a heading of a page, to that. The links of CONTRIBUTING.md and of the READMEs
of dist/, samples/, tests/cases/ and each folder of bindings/ are checked too. docs/trust.svg must be what tools/picture.py prints.

Where a file of tests/ names headings of a page, as docs/verdict.md, 'Checkpoints' does, the page must have them.

For a block that is not found, the script prints the lines in which it differs from what is nearest to it."""

import difflib
import re
import subprocess
import sys
from collections import Counter
from pathlib import Path

sys.path.insert(0, str(Path(__file__).resolve().parents[1]))
import harness  # noqa: E402

BLOCK = re.compile(r"^```rust\n(.*?)^```$", re.MULTILINE | re.DOTALL)
CONTRACT = re.compile(r"\n(?:    (?:requires|ensures|//) ?.*\n(?:        .*\n)*)+\{\n")
DOC_COMMENT = re.compile(r"^ *///.*\n", re.MULTILINE)
FENCED = re.compile(r"^```.*?^```$", re.MULTILINE | re.DOTALL)
HEADING = re.compile(r"^#{1,6} (.*)$", re.MULTILINE)
QUOTED = r"(?:'[A-Z][^']*'|\"[A-Z][^\"]*\")"
CITATION = re.compile(rf"(docs/[\w-]+\.md)(?:,\s+|\s+\()({QUOTED}(?:,\s+{QUOTED})*)")
LINK = re.compile(r"\]\((?!https?://)([^)#\s]*)(?:#([^)\s]*))?\)")


def without_contracts(text):
    return CONTRACT.sub(" {\n", text)


def without_doc_comments(text):
    return DOC_COMMENT.sub("", text)


def readings(text):
    """The lines of a source: as they are, and with contracts, doc comments or both left out."""
    bare = without_contracts(text)
    return [each.splitlines() for each in (text, bare, without_doc_comments(text), without_doc_comments(bare))]


def stands_in(block, lines):
    """Whether the lines of a block follow one another among these."""
    return any(lines[start : start + len(block)] == block for start in range(len(lines) - len(block) + 1))


def nearest(block, sources):
    """The lines, as many as the block has, that are most like it."""
    windows = (lines[start : start + len(block)] for lines in sources for start in range(max(1, len(lines) - len(block) + 1)))
    return max(windows, key=lambda lines: difflib.SequenceMatcher(None, block, lines).ratio())


def difference(block, sources):
    """The lines in which a block differs from the nearest lines of these sources."""
    return "\n    ".join(difflib.unified_diff(block, nearest(block, sources), "page", "source", lineterm="", n=1))


def headings(page):
    """What a link may name of a page: its headings in lower case, spaces as dashes, without other marks, and numbered if one comes again."""
    seen = Counter()
    for title in HEADING.findall(FENCED.sub("", page.read_text())):
        name = re.sub(r"[^\w\- ]", "", title.strip().lower()).replace(" ", "-")
        yield f"{name}-{seen[name]}" if seen[name] else name
        seen[name] += 1


class Quotes(harness.TestCase):
    def setUp(self):
        self.root = harness.argument(harness.ROOT)
        self.pages = [self.root / "README.md", *sorted((self.root / "docs").glob("*.md"))]

    def blocks(self, pattern):
        """The blocks of the pages that match: the place and the text of each."""
        for page in self.pages:
            text = page.read_text()
            for found in pattern.finditer(text):
                line = text.count("\n", 0, found.start()) + 1
                yield f"{page.relative_to(self.root)}:{line}", found[1]

    def test_callers(self):
        files = sorted((self.root / "crates/uses/src").glob("**/*.rt"))
        sources = [lines for file in files for lines in readings(file.read_text())]
        blocks = [block for block in self.blocks(BLOCK) if not block[0].startswith("docs/library.md:")]
        for place, text in blocks:
            block = text.splitlines()
            is_there = block and any(stands_in(block, lines) for lines in sources)
            self.check(f"{place}: the block is in crates/uses/src", None if is_there else difference(block, sources), None)
        self.assertTrue(blocks, "no block to look for in README.md and docs/*.md")

    def test_links(self):
        passed, faults = 0, []
        others = [self.root / "CONTRIBUTING.md", *(self.root / name / "README.md" for name in ("dist", "samples", "tests/cases"))]
        for page in [*self.pages, *others, *sorted((self.root / "bindings").glob("*/README.md"))]:
            for name, heading in LINK.findall(FENCED.sub("", page.read_text())):
                target = page.parent / name if name else page
                if target.exists() and (not heading or heading in headings(target)):
                    passed += 1
                else:
                    faults.append(f"{page.relative_to(self.root)}: no {name}{heading and '#' + heading}")
        self.check_all("links", passed, faults)

    def cited(self):
        """The headings that files of the tests name: the place, the page and the heading."""
        files = [file for file in sorted((self.root / "tests").glob("**/*")) if file.suffix in (".case", ".files", ".md", ".py")]
        for file, (page, titles) in ((file, found) for file in files for found in CITATION.findall(file.read_text())):
            yield from ((file.relative_to(self.root), page, " ".join(title[1:-1].split())) for title in re.findall(QUOTED, titles))

    def test_citations(self):
        pages = {f"docs/{page.name}": set(HEADING.findall(FENCED.sub("", page.read_text()))) for page in (self.root / "docs").glob("*.md")}
        cited = list(self.cited())
        faults = [f"{place}: no {page}, '{title}'" for place, page, title in cited if title not in pages.get(page, ())]
        self.check_all("headings that tests name", len(cited) - len(faults), faults)
        self.assertTrue(cited, "no heading that tests name")

    def test_picture(self):
        made = subprocess.run([sys.executable, self.root / "tools/picture.py"], stdout=subprocess.PIPE, check=True).stdout
        self.check("docs/trust.svg is what tools/picture.py prints", made == (self.root / "docs/trust.svg").read_bytes())


if __name__ == "__main__":
    sys.exit(harness.main())
