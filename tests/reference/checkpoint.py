"""Where a verification stopped, and its text ('A checkpoint', 'Checkpoints')."""

from __future__ import annotations

import re
from typing import NamedTuple

from .faults import CheckpointFault
from .measurement_list import IMA_REGISTER, replay, stated_boot_aggregate, told_boot_aggregate
from .registers import ALGORITHMS, BY_NAME, REGISTERS, SHA256, Registers, register_line

NAME = b"ima-agent checkpoint "
VERSION = b"3\n"
NUMBER = "(0|[1-9][0-9]*)"
MOST_INPUT = 64 << 20
# The fewest bytes of an entry.
ENTRY_BYTES = 32


class Checkpoint(NamedTuple):
    """How many entries and bytes the list had; the boot aggregate that it states, as its algorithm and its digest, or None; the registers before
    and after it; the first entry that extends another register than that of the list, as its number and the register, or None; the resets and
    restarts of the TPM that a quote told, or None; and the boot aggregate that a first entry of another of the kernel's templates states, or
    None."""

    entries: int
    bytes: int
    stated: tuple | None
    before: Registers
    after: Registers
    stray: tuple | None
    boot: tuple | None = None
    told: tuple | None = None

    def following(self, entries):
        """The same after entries that follow the list, which no quote confirms, or the fault of the first that is not genuine."""
        after = self.after.copy()
        replay(after, entries, self.entries)
        stated = stated_boot_aggregate(entries) if self.entries == 0 else self.stated
        told = told_boot_aggregate(entries) if self.entries == 0 else self.told
        size = sum(len(entry.spelling()) for entry in entries)
        strays = ((number, entry.register) for number, entry in enumerate(entries, self.entries) if entry.register != IMA_REGISTER)
        stray = self.stray or next(strays, None)
        return Checkpoint(self.entries + len(entries), self.bytes + size, stated, self.before, after, stray, told=told)

    @property
    def leaves_room(self):
        """Whether a whole input fits between its bytes and 2^63."""
        return self.bytes + MOST_INPUT < 2**63

    @property
    def is_of_a_list(self):
        """Whether its data are such as a list leaves."""
        is_empty = self.bytes == 0 and self.stated is None and self.told is None and self.before.banks == self.after.banks
        is_long = self.entries * ENTRY_BYTES <= self.bytes
        is_within = not self.stray or self.stray[0] < self.entries and self.stray[1] < REGISTERS
        is_counted = not self.boot or max(self.boot) < 2**32
        return self.leaves_room and is_long and is_within and is_counted and self.before.banks.keys() == self.after.banks.keys() and (self.entries > 0 or is_empty)

    def text(self):
        told = f"boot_aggregate_told {stated_words(self.told)}\n" if self.told else ""
        counts = f"entries {self.entries}\nbytes {self.bytes}\nboot_aggregate {stated_words(self.stated)}\n{told}"
        entry, register = self.stray or (0, IMA_REGISTER)
        banks = f"before\n{banks_text(self.before)}after\n{banks_text(self.after)}"
        boot = "resets {}\nrestarts {}\n".format(*self.boot) if self.boot else "boot none\n"
        body = NAME + VERSION + f"{counts}{banks}register {register}\nentry {entry}\n{boot}".encode()
        return body + f"sha256 {SHA256.hash(body).hex()}\n".encode()


def before_a_list(registers):
    """The checkpoint of no entries, from these registers."""
    return Checkpoint(0, 0, None, registers, registers, None)


def stated_words(stated):
    """A boot aggregate as a checkpoint has it."""
    return f"{stated[0].name}:{stated[1].hex()}" if stated else "none"


def banks_text(registers):
    return "".join(bank_text(algorithm, registers.banks.get(algorithm)) for algorithm in ALGORITHMS)


def bank_text(algorithm, values):
    if values is None:
        return f"{algorithm.name} none\n"
    return "".join(register_line(algorithm, register, value) for register, value in enumerate(values))


def digits(algorithm):
    return f"[0-9a-f]{{{2 * algorithm.size}}}"


def bank_form(algorithm):
    rows = "".join(f"{algorithm.name} {register} {digits(algorithm)}\n" for register in range(REGISTERS))
    return f"(?:{algorithm.name} none\n|{rows})"


BANKS = "(" + "".join(map(bank_form, ALGORITHMS)) + ")"
STATED = "|".join(f"{algorithm.name}:{digits(algorithm)}" for algorithm in ALGORITHMS)
FORM = re.compile(
    f"{(NAME + VERSION).decode()}entries {NUMBER}\nbytes {NUMBER}\nboot_aggregate (none|{STATED})\n"
    f"(?:boot_aggregate_told ({STATED})\n)?"
    f"before\n{BANKS}after\n{BANKS}register {NUMBER}\nentry {NUMBER}\n(?:boot none|resets {NUMBER}\nrestarts {NUMBER})\nsha256 ({digits(SHA256)})\n".encode()
)


def read_checkpoint(text):
    """The checkpoint whose text this is, or the fault."""
    if not text.startswith(NAME):
        raise CheckpointFault.DAMAGED.fault()
    if not text.startswith(NAME + VERSION):
        raise CheckpointFault.VERSION.fault()
    match = FORM.fullmatch(text)
    if not match or SHA256.hash(text[: match.start(11) - len("sha256 ")]).hex().encode() != match[11]:
        raise CheckpointFault.DAMAGED.fault()
    entries, size, stated, told, before, after, register, entry = ((part or b"").decode() for part in match.groups()[:8])
    boot = (int(match[9]), int(match[10])) if match[9] else None
    stray = None if int(register) == IMA_REGISTER else (int(entry), int(register))
    checkpoint = Checkpoint(int(entries), int(size), stated_in(stated), registers_in(before), registers_in(after), stray, boot, stated_in(told))
    if not checkpoint.is_of_a_list or checkpoint.text() != text:
        raise CheckpointFault.DAMAGED.fault()
    return checkpoint


def stated_in(words):
    name, _, value = words.partition(":")
    return (BY_NAME[name], bytes.fromhex(value)) if value else None


def registers_in(lines):
    """The registers that the lines of four banks have."""
    registers = Registers(())
    for line in lines.splitlines():
        name, _, value = line.partition(" ")
        if value != "none":
            registers.banks.setdefault(BY_NAME[name], []).append(bytes.fromhex(value.partition(" ")[2]))
    return registers
