#!/usr/bin/env python3
"""Requires that each place that states the version of the project states that of the file VERSION.

dist/versions.py [ROOT]. Each difference is printed, and the status is 1 if there is one."""

import re
import subprocess
import sys
from contextlib import suppress
from pathlib import Path

NUMBER = r"(\d+\.\d+(?:\.\d+)*)"

# Files, what states the version in them, and whether it must be there.
PLACES = (
    ("bindings/c/ima_verify.h", rf'^#define IMA_VERIFY_PACKAGE_VERSION "{NUMBER}"$', True),
    ("CHANGELOG.md", rf"\A(?:(?!^## \[\d).*\n)*## \[{NUMBER}\] - \d{{4}}-\d\d-\d\d$", True),
    ("*.rt", rf"ima-agent {NUMBER}", True),
    ("*.case", rf"ima-agent {NUMBER}", True),
    ("*.antt", rf"ima-agent {NUMBER}", False),
    ("*.py", rf"ima-agent {NUMBER}", False),
    ("fleet/fleet_verify/__init__.py", rf'^__version__ = "{NUMBER}"$', True),
    ("bindings/python/ima_verify/__init__.py", rf'^__version__ = "{NUMBER}"$', True),
    ("*.md", rf"(?:ima-agent |ima-agent-|ima_verify-|bindings/go/v|\bgo get \S+@v){NUMBER}", False),
)

# Tables of TOML that state it, unless they leave it to the tool.
TABLES = (("pyproject.toml", "project"), ("Cargo.toml", "package"))
TABLE = re.compile(r"^\[([\w.-]+)\]\n(.*?)(?=^\[|\Z)", re.MULTILINE | re.DOTALL)
LEFT = re.compile(r"^(?:version\.workspace = true|dynamic = \[.*\"version\".*\])$", re.MULTILINE)


def files_of(root):
    """The files of the tree, without what is made and never committed. (A copy may be no repository, and a machine may have no git.)"""
    listed = b""
    with suppress(FileNotFoundError):
        listed = subprocess.run(["git", "ls-files", "-z", "--cached", "--others", "--exclude-standard"], cwd=root, stdout=subprocess.PIPE,
                                stderr=subprocess.DEVNULL).stdout
    if listed:
        return [root / name for name in listed.decode().split("\0") if name and (root / name).is_file()]
    return [file for file in root.rglob("*") if file.is_file() and "out" not in file.parts]


def is_named(file, root, pattern):
    return file.relative_to(root).match(pattern)


def check_places(root, files, version):
    for pattern, place, is_needed in PLACES:
        found = [(file, number) for file in files if is_named(file, root, pattern)
                 for number in re.findall(place, file.read_text(), re.MULTILINE)]
        if is_needed and not found:
            yield f"{pattern}: no version is stated"
        yield from (f"{file.relative_to(root)}: {number}, and not {version}" for file, number in found if number != version)


def check_tables(root, files, version):
    """The versions of packages, and those by which one of ours asks for another by its folder."""
    for pattern, name in TABLES:
        for file in files:
            if not is_named(file, root, pattern):
                continue
            text = file.read_text()
            table = dict(TABLE.findall(text)).get(name, "")
            stated = re.findall(r'^version = "(.*)"$', table, re.MULTILINE)
            if table and not stated and not LEFT.search(table):
                yield f"{file.relative_to(root)}: [{name}] states no version"
            asked = [one for line in re.findall(r"^.*\bpath = .*$", text, re.MULTILINE) for one in re.findall(r'version = "=?(.*?)"', line)]
            yield from (f"{file.relative_to(root)}: {one}, and not {version}" for one in stated + asked if one != version)


def main():
    root = Path(sys.argv[1] if len(sys.argv) > 1 else Path(__file__).parent.parent).resolve()
    version, files = (root / "VERSION").read_text().strip(), files_of(root)
    found = [*check_places(root, files, version), *check_tables(root, files, version)]
    if not re.fullmatch(r"\d+\.\d+\.\d+", version):
        found.append(f"VERSION: {version!r} is not like 1.0.0")
    print("\n".join(found), end="\n" if found else "")
    return bool(found)


if __name__ == "__main__":
    sys.exit(main())
