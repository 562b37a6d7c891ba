#!/usr/bin/env python3
"""Requires that each page keeps to its size.

tests/pages/words.py [ROOT]: the tree whose pages are counted, by default the one that this file is in.

Words are counted as `wc -w` counts them: all that white space separates, in prose, tables and code alike, and the macros of a manual page. A page
is a file *.md, docs/*.txt, or a manual page. Each has a bound here, and each bound a page. CHANGELOG.md has none, since it grows with each release.
"""

import sys
from pathlib import Path

sys.path.insert(0, str(Path(__file__).resolve().parents[1]))
import harness  # noqa: E402

BOUNDS = {
    "README.md": 750,
    "CONTRIBUTING.md": 2450,
    "bindings/go/README.md": 350,
    "bindings/python/README.md": 350,
    "bindings/rust/README.md": 350,
    "dist/README.md": 400,
    "dist/release.md": 400,
    "docs/assurance.md": 1800,
    "docs/attest.md": 1300,
    "docs/calls.md": 1350,
    "docs/cli.md": 1800,
    "docs/decisions.md": 1900,
    "docs/definitions.md": 1450,
    "docs/errors.txt": 2550,
    "docs/event-data.md": 1500,
    "docs/examples.txt": 480,
    "docs/fleet.md": 1500,
    "docs/formats.md": 2750,
    "docs/investigate.md": 1400,
    "docs/json.md": 600,
    "docs/layouts.txt": 2000,
    "docs/library.md": 1100,
    "docs/man/fleet-verify.1": 1850,
    "docs/man/ima-agent.1": 3800,
    "docs/man/ima-attest.1": 1050,
    "docs/man/ima-collect.1": 650,
    "docs/man/ima-enroll.1": 850,
    "docs/man/ima-report.1": 650,
    "docs/man/ima_verify.3": 1300,
    "docs/performance.md": 600,
    "docs/performance.txt": 750,
    "docs/reports.txt": 620,
    "docs/standards.txt": 180,
    "docs/trust.md": 700,
    "docs/verdict.md": 1150,
    "samples/README.md": 650,
    "tests/cases/README.md": 850,
}
MOST_OF_DOCS = 40_000  # (README.md, CONTRIBUTING.md and docs/ together)
UNBOUND = "CHANGELOG.md"
PATTERNS = "*.md", "bindings/*/*.md", "dist/*.md", "docs/*.md", "docs/*.txt", "docs/man/*", "samples/*.md", "tests/*/*.md"


class Words(harness.TestCase):
    def setUp(self):
        self.root = harness.argument(harness.ROOT)
        found = {str(page.relative_to(self.root)): page for pattern in PATTERNS for page in self.root.glob(pattern)}
        self.words = {name: len(page.read_text().split()) for name, page in sorted(found.items()) if name != UNBOUND}

    def test_pages(self):
        for name, words in self.words.items():
            fault = None if words <= BOUNDS.get(name, -1) else f"{words} words, and its bound is {BOUNDS.get(name, 'missing')}"
            self.check(f"{name}: {words} words", fault, None)
        for name in BOUNDS.keys() - self.words.keys():
            self.check(f"{name}: there is such a page", False)

    def test_all(self):
        """README.md, CONTRIBUTING.md and docs/ together"""
        words = sum(count for name, count in self.words.items() if name in ("README.md", "CONTRIBUTING.md") or name.startswith("docs/"))
        fault = None if words <= MOST_OF_DOCS else f"{words} words, and the bound is {MOST_OF_DOCS}"
        self.check(f"README.md, CONTRIBUTING.md and docs/ together: {words} words", fault, None)


if __name__ == "__main__":
    sys.exit(harness.main())
