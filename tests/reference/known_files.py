"""Known files: the texts that list their digests, and the entries of a list that are not of such files ('Known files')."""

import re
from typing import NamedTuple

from .faults import KnownFault
from .kernel_fields import kernel_fields
from .measurement_list import BOOT_AGGREGATE, IMA_REGISTER
from .registers import ALGORITHMS, SHA1

LINE = re.compile(rb"\\?([0-9a-fA-F]+) [ *].*", re.DOTALL)


class Unknown(NamedTuple):
    """The entries that are not known, of those from the first that was looked at on: their numbers."""

    first: int
    numbers: list

    def lines(self):
        return [f"known_from {self.first}", *(f"unknown entry {number}" for number in self.numbers)]

    def members(self):
        return {"known_from": self.first, "unknown": self.numbers}


def lines_of(text):
    """The lines of a text, of which the last may lack its line feed."""
    lines = text.split(b"\n")
    return lines if lines[-1] else lines[:-1]


def digest_on(line):
    """The algorithm and the digest that a line says, or None."""
    match = LINE.fullmatch(line)
    algorithm = next((it for it in ALGORITHMS if match and len(match[1]) == 2 * it.size), None)
    return algorithm and (algorithm, bytes.fromhex(match[1].decode()))


def read_known(text):
    """The digests that a text lists, each with its algorithm, or the fault of its first wrong line."""
    known = set()
    for number, line in enumerate(lines_of(text), 1):
        found = digest_on(line)
        if found is None:
            raise KnownFault.MALFORMED.at(number)
        if found[0] is SHA1:
            raise KnownFault.WEAK_HASH.at(number)
        known.add(found)
    return known


def file_of(entry):
    """The algorithm, the digest and the path of a file's content that an entry states, or None."""
    fields = entry.fields()
    if fields:
        return fields.algorithm, fields.digest, fields.path
    told = kernel_fields(entry.template, entry.payload)
    if told is None or told.get("digest_type") == "verity":
        return None
    algorithm = next(it for it in ALGORITHMS if it.name == told["algorithm"])
    path = told["path"].encode() if "path" in told else bytes.fromhex(told["path_hex"])
    return algorithm, bytes.fromhex(told["digest"]), path


def is_known(entry, known):
    """Whether an entry is of a known file."""
    file = file_of(entry)
    is_of_a_file = entry.is_genuine and not entry.is_violation and entry.register == IMA_REGISTER and file is not None
    return is_of_a_file and file[2] != BOOT_AGGREGATE and file[:2] in known


def is_of_the_boot(entry):
    """Whether an entry has the path of the boot aggregate, and is no violation."""
    file = file_of(entry)
    return file is not None and file[2] == BOOT_AGGREGATE and not entry.is_violation


def unknown_entries(known, entries, first):
    """Those of some entries that are not known, where the first has this number; or None without known files. The first entry of a list may be that
    of the boot aggregate."""
    if known is None:
        return None
    is_passed = first == 0 and bool(entries) and is_of_the_boot(entries[0])
    return Unknown(first, [number for number, entry in enumerate(entries, first) if not (is_passed and number == 0 or is_known(entry, known))])
