#!/usr/bin/env python3
"""Makes the pages of a release of those of the repository, and sees that they speak of nothing that a release lacks.

dist/pages.py RELEASE          puts them into a release that has everything else
dist/pages.py --check FOLDER   looks at those of a release, or of a prefix; each fault is printed, and the status is 1 if there is one

A link to what the release lacks becomes its words, or goes if it stands in brackets of its own."""

import re
import sys
from pathlib import Path

ROOT = Path(__file__).resolve().parent.parent
DOCS, FLEET_DOCS, SAMPLES = "share/doc/ima-agent", "share/doc/fleet-verify", "share/ima-agent/samples"
PAGES = ("attest.md", "investigate.md", "library.md", "cli.md", "reports.txt", "errors.txt", "json.md", "schema.json", "verdict.md", "formats.md", "layouts.txt",
         "examples.txt", "standards.txt", "event-data.md", "trust.md", "trust.svg")
FLEET_PAGE, FLEET = "fleet.md", "share/ima-agent/python/fleet_verify-*.whl"

LINK = re.compile(r"(!?)\[((?:[^][]|\[[^][]*\])*)\]\(([^()\s]+)\)")
BRACKETED = re.compile(rf" \((?:in |by )?{LINK.pattern}\)")

# What the repository's pages say of the repository, and what it becomes.
RULES = (
    (re.compile(r"(?<![\w/])\./ima-agent\b"), "ima-agent"),
    (re.compile(r" \(here \[`attest/`\]\(\.\./attest/collect\) has them, and calls the `ima-agent` on PATH\)"), ""),
    (re.compile(r"(?:(?<=\$PWD/)|(?<![\w/]))samples/"), f"{SAMPLES}/"),
    (re.compile(r"(?<![\w/])bindings/c/ima_verify\.h"), "include/ima_verify.h"),
    # of the page of the fleet
    (re.compile(r"\nIn this repository the command is `fleet/verify\.py`\."), ""),
    (re.compile(r"\[`fleet/grafana/`\]\(\.\./fleet/grafana\)"), "`share/ima-agent/grafana/`"),
)

# What only the repository has: its scripts, and its folders.
SCRIPTS = re.compile(r"(?<![\w/.])\./(?:ima-agent|try|check)\b")


def anchors(text):
    """The anchors of a page's headings, as they are made of them."""
    titles = re.findall(r"^#+ (.*)$", without_code(text), re.MULTILINE)
    return {re.sub(r"[^\w\- ]", "", title.lower()).replace(" ", "-") for title in titles}


def without_code(text):
    return re.sub(r"^```.*?^```$", "", text, flags=re.MULTILINE | re.DOTALL)


def leads_somewhere(target, page, texts):
    """Whether a link of a page leads to a page, a heading or a file of the release. `texts` has the pages by their paths."""
    if re.match(r"https?://", target):
        return True
    path, _, anchor = target.partition("#")
    file = (page.parent / path).resolve() if path else page
    if anchor:
        return file in texts and anchor in anchors(texts[file])
    return file in texts or file.exists()


def unlinked(text, page, texts):
    """The text without links that lead nowhere."""
    def kept(found):
        return found[0] if leads_somewhere(found[3], page, texts) else found[2]

    bare = BRACKETED.sub(lambda found: found[0] if leads_somewhere(found[3], page, texts) else "", text)
    return LINK.sub(kept, bare)


def filled(text, release):
    """The release's own page, with its version and the glibc that it needs."""
    from binary import least_glibc

    libraries = [release / "bin/ima-agent", *sorted((release / "lib").glob("*.so.*"))]
    return text.replace("@VERSION@", (ROOT / "VERSION").read_text().strip()).replace("@GLIBC@", least_glibc(libraries))


def put_pages(release):
    folder = release.resolve() / DOCS
    folder.mkdir(parents=True, exist_ok=True)
    (folder / "CHANGELOG.md").write_text((ROOT / "CHANGELOG.md").read_text())
    pages = [*PAGES, FLEET_PAGE] if list(release.glob(FLEET)) else PAGES
    texts = {folder / name: (ROOT / "docs" / name).read_text() for name in pages if (ROOT / "docs" / name).exists()}
    texts[release.resolve() / "README.md"] = filled((ROOT / "dist/release.md").read_text(), release)
    for page, text in texts.items():
        if page.parent == folder:
            for pattern, words in RULES:
                text = pattern.sub(words, text)
        texts[page] = text
    for page, text in texts.items():
        page.write_text(unlinked(text, page, texts) if page.suffix == ".md" else text)


def check_pages(folder):
    pages = sorted([*folder.glob("README.md"), *(folder / DOCS).glob("*.md"), *(folder / FLEET_DOCS).glob("*.md")])
    texts = {page.resolve(): page.read_text() for page in pages}
    lacking = sorted(path.name for path in ROOT.iterdir() if path.is_dir() and not (folder / path.name).exists() and path.name[0] != ".")
    folders = re.compile(rf"(?<![\w./-])(?:{'|'.join(lacking)})/")
    others = {file: file.read_text() for file in (folder / "include/ima_verify.h", folder / "share/ima-agent/example.c") if file.exists()}
    for page, text in (*texts.items(), *others.items()):
        for number, line in enumerate(text.splitlines(), 1):
            for pattern in (SCRIPTS, folders):
                yield from (f"{page.name}:{number}: there is no {found[0]}" for found in pattern.finditer(line))
    for page, text in texts.items():
        for found in LINK.finditer(without_code(text)):
            if not leads_somewhere(found[3], page, texts):
                yield f"{page.name}: {found[3]} leads nowhere"
    if not pages:
        yield f"{folder}: there are no pages"


def main():
    if sys.argv[1] != "--check":
        put_pages(Path(sys.argv[1]))
        return 0
    found = list(check_pages(Path(sys.argv[2])))
    print("\n".join(found), end="\n" if found else "")
    return bool(found)


if __name__ == "__main__":
    sys.exit(main())
