"""The texts that the program reads: expected registers, what tpm2-tools print, names of files, a log in hexadecimal."""

import re
from typing import NamedTuple, Optional

from .faults import NOT_HEXADECIMAL, ExpectedFault
from .measurement_list import IMA_REGISTER
from .registers import ALGORITHMS, BY_NAME, REGISTERS, Algorithm, register_line

REGISTER = rb"(0|[1-9]|1[0-9]|2[0-3])"
EXPECTED = re.compile(rb"(\w+) " + REGISTER + rb" ([0-9a-fA-F]+)")
BANK = re.compile(rb"  ([A-Za-z0-9_]+):")
VALUE = re.compile(rb"    (?:" + REGISTER + rb")( ?): 0x([0-9a-fA-F]+)")
SIGNATURE = re.compile(rb"sig: [0-9a-fA-F]+")
SEPARATOR = re.compile("[,+]")
PART = re.compile(f"(?:({'|'.join(BY_NAME)}):)?(?:all|{REGISTER.decode()}(?:-{REGISTER.decode()})?)")
WHITE_SPACE = b" \t\r\n"
HEXADECIMAL = b"0123456789abcdefABCDEF"


class Expected(NamedTuple):
    """A register, and the value that it shall have."""

    algorithm: Algorithm
    register: int
    value: bytes

    def line(self):
        return register_line(*self)


class States:
    """The registers that a text states, in its order."""

    def __init__(self):
        self.rows = []

    def add(self, algorithm, register, digits, line):
        """Takes what a line states, if it has the form that it should have."""
        if algorithm is None or len(digits) != 2 * algorithm.size:
            raise ExpectedFault.BAD_LINE.at(line)
        if any((row.algorithm, row.register) == (algorithm, int(register)) for row in self.rows):
            raise ExpectedFault.DOUBLE_LINE.at(line)
        self.rows.append(Expected(algorithm, int(register), bytes.fromhex(digits.decode())))


def lines_of(text):
    """The lines that are not empty, with their numbers, which count from 1."""
    for number, line in enumerate(text.split(b"\n"), 1):
        line = line[:-1] if line.endswith(b"\r") else line
        if line:
            yield number, line


def read_expected(text):
    """The expected registers of a text ('Expected PCRs')."""
    states = States()
    for number, line in lines_of(text):
        match = EXPECTED.fullmatch(line)
        if not match:
            raise ExpectedFault.BAD_LINE.at(number)
        name, register, digits = match.groups()
        states.add(BY_NAME.get(name.decode()), register, digits, number)
    return states.rows


def read_printed(text):
    """The registers that a text of tpm2_pcrread or tpm2_checkquote states ('What tpm2-tools print')."""
    if text.startswith(b"quoted:"):
        raise ExpectedFault.NOT_CHECKED.of_text()
    states, bank, is_quote, is_signed = States(), None, False, False
    for number, line in lines_of(text):
        of_bank, of_value = BANK.fullmatch(line), VALUE.fullmatch(line)
        if is_signed:
            raise ExpectedFault.BAD_LINE.at(number)
        if line == b"pcrs:" and bank is None and not is_quote:
            is_quote = True
        elif is_quote and SIGNATURE.fullmatch(line):
            is_signed = True
        elif of_bank:
            bank = of_bank[1].decode()
        elif bank is not None and bank not in BY_NAME and line.startswith(b"    "):
            continue
        elif bank in BY_NAME and of_value and len(of_value[1] + of_value[2]) == 2:
            states.add(BY_NAME[bank], of_value[1], of_value[3], number)
        else:
            raise ExpectedFault.BAD_LINE.at(number)
    if is_quote and not is_signed:
        raise ExpectedFault.NOT_SIGNED.of_text()
    if not states.rows:
        raise ExpectedFault.NO_REGISTER.of_text()
    return states.rows


def pcrread_text(registers):
    """What tpm2_pcrread prints of these registers."""
    lines = []
    for algorithm, values in registers.banks.items():
        lines.append(f"  {algorithm.name}:")
        lines += [f"    {register:<2}: 0x{value.hex().upper()}" for register, value in enumerate(values)]
    return "".join(f"{line}\n" for line in lines)


class Part(NamedTuple):
    """A part of a selection: the algorithm of its bank, or None for every bank, and the registers."""

    algorithm: Optional[Algorithm]
    registers: range

    def members(self):
        """Each register, by its algorithm and its number."""
        algorithms = ALGORITHMS if self.algorithm is None else (self.algorithm,)
        return {(algorithm, register) for algorithm in algorithms for register in self.registers}


def read_parts(text):
    """The parts of a selection ('Selections'), or None if the text is none."""
    parts, algorithm = [], None
    for match in map(PART.fullmatch, SEPARATOR.split(text)):
        if match is None:
            return None
        name, first, last = match.groups()
        algorithm = algorithm if name is None else BY_NAME[name]
        registers = range(REGISTERS) if first is None else range(int(first), int(last or first) + 1)
        if not registers:
            return None
        parts.append(Part(algorithm, registers))
    return parts


def selected_by(parts):
    return set().union(*(part.members() for part in parts))


def read_selection(text):
    """The registers that a text selects, each by its algorithm and its number, or None if the text is no selection."""
    parts = read_parts(text)
    return None if parts is None else selected_by(parts)


def read_requirement(text):
    """The registers that a text requires, or None if it is no selection, its first part names no bank, or it selects that of the list in
    no bank."""
    parts = read_parts(text)
    if parts is None or parts[0].algorithm is None:
        return None
    required = selected_by(parts)
    return required if any(register == IMA_REGISTER for _, register in required) else None


def read_names(text, has_nul_ends):
    """The names in a text of UTF-8."""
    return [name for name in text.decode().split("\0" if has_nul_ends else "\n") if name]


def read_hexadecimal(text):
    """The bytes that a text spells."""
    digits = text.translate(None, WHITE_SPACE)
    if len(digits) % 2 or digits.translate(None, HEXADECIMAL):
        raise NOT_HEXADECIMAL
    return bytes.fromhex(digits.decode())
