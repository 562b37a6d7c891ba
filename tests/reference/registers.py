"""Algorithms, and banks of registers ('Algorithms', 'PCRs', 'The boot aggregate')."""

import hashlib
from typing import Callable, NamedTuple

REGISTERS = 24
RESET_TO_ONES = range(17, 23)


class Algorithm(NamedTuple):
    identifier: int
    size: int
    name: str
    hasher: Callable

    def hash(self, data):
        return self.hasher(data).digest()


SHA1 = Algorithm(0x0004, 20, "sha1", hashlib.sha1)
SHA256 = Algorithm(0x000B, 32, "sha256", hashlib.sha256)
SHA384 = Algorithm(0x000C, 48, "sha384", hashlib.sha384)
SHA512 = Algorithm(0x000D, 64, "sha512", hashlib.sha512)

# In the order of algorithms.
ALGORITHMS = (SHA1, SHA256, SHA384, SHA512)
BY_IDENTIFIER = {algorithm.identifier: algorithm for algorithm in ALGORITHMS}
BY_NAME = {algorithm.name: algorithm for algorithm in ALGORITHMS}


def reset_value(algorithm, register, locality):
    """A register's value after a start from a locality."""
    if register == 0:
        return bytes(algorithm.size - 1) + bytes([locality])
    return (b"\xff" if register in RESET_TO_ONES else b"\0") * algorithm.size


class Registers:
    """The registers of some banks, by algorithm, which begin at their reset values."""

    def __init__(self, algorithms, locality=0):
        self.locality = locality
        self.banks = {
            algorithm: [reset_value(algorithm, register, locality) for register in range(REGISTERS)]
            for algorithm in ALGORITHMS
            if algorithm in algorithms
        }

    def copy(self):
        """The same registers, apart from these."""
        copied = Registers((), self.locality)
        copied.banks = {algorithm: list(values) for algorithm, values in self.banks.items()}
        return copied

    def extend(self, register, digest_of):
        """Extends a register in each bank by the digest that `digest_of` gives for its algorithm."""
        for algorithm, values in self.banks.items():
            values[register] = algorithm.hash(values[register] + digest_of(algorithm))

    def value(self, algorithm, register):
        """A register's value, or None without its bank."""
        return self.banks[algorithm][register] if algorithm in self.banks else None

    def boot_aggregate(self, algorithm):
        """The boot aggregate of a bank that is there."""
        return algorithm.hash(b"".join(self.banks[algorithm][: 8 if algorithm is SHA1 else 10]))

    def old_boot_aggregate(self, algorithm):
        """The same as kernels before 5.8 make it."""
        return algorithm.hash(b"".join(self.banks[algorithm][:8]))

    def rows(self):
        """Each register, as its algorithm, its number and its value."""
        return [(algorithm, register, value) for algorithm, values in self.banks.items() for register, value in enumerate(values)]

    def changed(self):
        """Each register that does not have its reset value."""
        return [row for row in self.rows() if row[2] != reset_value(row[0], row[1], self.locality)]

    def text(self):
        return "".join(register_line(*row) for row in self.changed())

    def as_json(self):
        """These registers as JSON (docs/schema.json)."""
        return registers_value(self.changed())


def registers_value(rows):
    registers = [{"bank": algorithm.name, "register": register, "value": value.hex()} for algorithm, register, value in rows]
    return {"registers": registers}


def register_line(algorithm, register, value):
    return f"{algorithm.name} {register} {value.hex()}\n"


# What systemd calls the registers, where it has a name (systemd-analyze(1), 'pcrs').
REGISTER_NAMES = {
    0: "platform-code",
    1: "platform-config",
    2: "external-code",
    3: "external-config",
    4: "boot-loader-code",
    5: "boot-loader-config",
    6: "host-platform",
    7: "secure-boot-policy",
    9: "kernel-initrd",
    10: "ima",
    11: "kernel-boot",
    12: "kernel-config",
    13: "sysexts",
    14: "shim-policy",
    15: "system-identity",
    16: "debug",
    23: "application-support",
}


def register_members(register):
    """A register as JSON, with its name if it has one."""
    named = {"register_name": REGISTER_NAMES[register]} if register in REGISTER_NAMES else {}
    return {"register": register, **named}


def register_words(register):
    """A register as text, with its name if it has one."""
    return f"{register} ({REGISTER_NAMES[register]})" if register in REGISTER_NAMES else str(register)
