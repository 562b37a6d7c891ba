#!/usr/bin/env python3
"""Tells what a crate of this tree is built of, so that nothing that was built of other sources, or with another kit, is taken for it.

dist/sources.py list CRATE: the crate and those that it stands on, the lowest first, each as its line of crates.txt.
dist/sources.py digest CRATE [BUILT] [--tree TREE]: a SHA-256 over the kit's version, HANDLES, these lines, and the name and bytes of each
file of these crates in TREE (this tree, if not said); and over the bytes of the file BUILT, if there is one.

What `rt` makes, and the mutants that the prover must refuse, are no sources. Dates of files say nothing here."""

import argparse
import hashlib
import os
import shutil
import subprocess
import sys
from pathlib import Path

ROOT = Path(__file__).resolve().parent.parent
NO_SOURCES = {"out", "further-edits"}


def kit_version():
    """The kit's one-line identity, as `rt version` prints it. The current folder, which may be a machine's, has no kit for this."""
    folders = filter(os.path.isabs, os.environ.get("PATH", os.defpath).split(os.pathsep))
    rt = Path(shutil.which("rt", path=os.pathsep.join(folders)) or "/opt/rattle/bin/rt").resolve()
    identity = rt.parent.parent / "KIT-ID"
    return identity.read_bytes() if identity.is_file() else subprocess.run([rt, "version"], stdout=subprocess.PIPE, check=True).stdout


def crates_below(crate, tree):
    """The lines of crates.txt of a crate and of those that it stands on, by their names, the lowest first."""
    lines = [line for line in (tree / "crates.txt").read_text().splitlines() if ":" in line and not line.startswith("#")]
    named = {line.split(":")[0].split()[0]: line for line in lines}
    found = {}

    def look(name):
        if name in named and name not in found:
            for below in named[name].split(":")[1].split():
                look(below)
            found[name] = named[name]

    look(crate)
    return found


def sources_of(crate, tree):
    """The files of a crate, in the order of their names."""
    for folder, folders, names in os.walk(tree / "crates" / crate):
        folders[:] = sorted(set(folders) - NO_SOURCES)
        yield from (Path(folder, name) for name in sorted(names))


def digest_of(crate, tree, built):
    """The hash of what a crate of a tree is built of, and of the file that was built."""
    crates = crates_below(crate, tree)
    files = [tree / "HANDLES", *(file for name in crates for file in sources_of(name, tree))]
    hashed = hashlib.sha256(kit_version())
    parts = [("crates.txt", "\n".join(crates.values()).encode())]
    parts += [(str(file.relative_to(tree)), file.read_bytes()) for file in files]
    parts += [("", Path(built).read_bytes())] if built else []
    for name, data in parts:
        hashed.update(f"{name}\0{len(data)}\0".encode() + data)
    return hashed.hexdigest()


def main():
    parser = argparse.ArgumentParser()
    commands = parser.add_subparsers(dest="command", required=True)
    for command in ("list", "digest"):
        commands.add_parser(command).add_argument("crate")
    commands.choices["digest"].add_argument("built", nargs="?")
    commands.choices["digest"].add_argument("--tree", type=Path, default=ROOT)
    words = parser.parse_args()
    if words.crate not in crates_below(words.crate, ROOT):
        parser.error(f"crates.txt has no crate {words.crate}")
    if words.command == "list":
        print(*crates_below(words.crate, ROOT).values(), sep="\n")
    else:
        print(digest_of(words.crate, words.tree, words.built))
    return 0


if __name__ == "__main__":
    sys.exit(main())
