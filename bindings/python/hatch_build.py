"""Packs the library into the wheel, and names in the wheel's tag the machines on which it runs. The
library is the file whose path is in IMA_VERIFY_LIBRARY, otherwise that in the package's folder."""

import os
import re
from pathlib import Path

from hatchling.builders.hooks.plugin.interface import BuildHookInterface

PACKAGE = "ima_verify"
LIBRARY = "libima_verify.so"
VARIABLE = "IMA_VERIFY_LIBRARY"
# A shared object of ELF for x86-64, in little endian: the first 6 bytes, and those from 16 to 20.
ELF_64_LITTLE, SHARED_X86_64 = b"\x7fELF\x02\x01", b"\x03\x00\x3e\x00"
# What a library asks of glibc is among its strings: versions, such as 2.2.5.
GLIBC = re.compile(rb"\0GLIBC_([^\0]+)(?=\0)")
VERSION = re.compile(rb"(\d+)\.(\d+)(?:\.\d+)?")
FIRST_MANYLINUX = (2, 5)


def library_in(folder):
    """The file to pack, with its bytes; a message ends the build if there is none."""
    named = os.environ.get(VARIABLE)
    if named and os.sep not in named:
        raise SystemExit(f"{PACKAGE}: {VARIABLE} is not a path, which has a {os.sep}: {named}")
    file = Path(named).resolve() if named else Path(folder, PACKAGE, LIBRARY)
    try:
        data = file.read_bytes()
    except OSError as error:
        hint = f"Name {LIBRARY} in {VARIABLE}, or copy it to {PACKAGE}/."
        raise SystemExit(f"{PACKAGE}: no library to pack: {error}. {hint}") from error
    if not data.startswith(ELF_64_LITTLE) or data[16:20] != SHARED_X86_64:
        raise SystemExit(f"{PACKAGE}: {file} is no shared library for x86-64 Linux.")
    return file, data


def platform_of(library):
    """The platform of a wheel with this library: a glibc with what it asks for (PEP 600)."""
    asked = [VERSION.fullmatch(word) for word in GLIBC.findall(library)]
    if not asked or None in asked:
        return "linux_x86_64"
    major, minor = max(FIRST_MANYLINUX, *((int(version[1]), int(version[2])) for version in asked))
    return f"manylinux_{major}_{minor}_x86_64"


class LibraryHook(BuildHookInterface):
    """ctypes calls the library, so the wheel is for each Python 3, and for one kind of machine."""

    def initialize(self, version, build_data):
        if version == "editable":
            return
        file, data = library_in(self.root)
        build_data["pure_python"] = False
        build_data["tag"] = f"py3-none-{platform_of(data)}"
        build_data["force_include"][str(file)] = f"{PACKAGE}/{LIBRARY}"
