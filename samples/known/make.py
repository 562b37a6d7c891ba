#!/usr/bin/env python3
"""Lists the files of the real boot by their digests, and the registers before its first violation.

    samples/known/make.py [DIR]

Writes the files of this folder, anew, into DIR (by default this folder): SHA256SUMS has a line for each digest of a file in the list of
`real-boot`, as `sha256sum` prints it (one is by SHA-512); `before-violations.expected` has the registers of SHA-256 after the log and the
entries before the first violation."""

import sys
from pathlib import Path

HERE = Path(__file__).resolve().parent
sys.path.append(str(HERE.parents[1] / "tests"))
from reference.known_files import file_of  # noqa: E402
from reference.log import read_log  # noqa: E402
from reference.measurement_list import read_list, replay  # noqa: E402
from reference.registers import SHA256, register_line  # noqa: E402

ESCAPES = {b"\\": b"\\\\", b"\n": b"\\n", b"\r": b"\\r"}


def line(digest, path):
    """The line of a file, whose name is escaped where it has a backslash or a line end."""
    escaped = b"".join(ESCAPES.get(path[at : at + 1], path[at : at + 1]) for at in range(len(path)))
    return (b"" if escaped == path else b"\\") + digest.hex().encode() + b"  " + escaped + b"\n"


def main():
    into, boot = Path(sys.argv[1] if len(sys.argv) > 1 else HERE), HERE.parent / "real-boot"
    entries = read_list((boot / "ima.list").read_bytes())
    violation = next(place for place, entry in enumerate(entries) if entry.is_violation)
    paths = {}
    for _, digest, path in (file_of(entry) for entry in entries[1:] if not entry.is_violation):
        paths.setdefault(digest, path)
    (into / "SHA256SUMS").write_bytes(b"".join(line(*file) for file in paths.items()))
    registers = read_log((boot / "firmware.log").read_bytes()).registers()
    replay(registers, entries[:violation])
    rows = (register_line(SHA256, number, registers.value(SHA256, number)) for number in range(11))
    (into / "before-violations.expected").write_text("".join(rows))


main()
