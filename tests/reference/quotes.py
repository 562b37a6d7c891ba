"""Quotes of a TPM: the message that it signs, and of which registers that is (TPM 2.0 Library, part 2, 'Attestation Structures', and part 3,
'TPM2_Quote'). Who signed a message is not looked at here."""

from typing import NamedTuple

from .fields import Cut, Fields
from .registers import ALGORITHMS, BY_IDENTIFIER, REGISTERS, SHA256, SHA384, SHA512

# TPM_GENERATED_VALUE, with which a restricted key signs only what its TPM made, and TPM_ST_ATTEST_QUOTE.
HEAD = bytes.fromhex("ff5443478018")
HASHES = {algorithm.size: algorithm for algorithm in (SHA256, SHA384, SHA512)}


class QuoteFault(Exception):
    """The first fault of a message that is no quote, from left to right: its name."""


class Quote(NamedTuple):
    """What a quote states. The selected registers are pairs of an algorithm and a number, in the order in which their values are hashed."""

    signer: bytes
    nonce: bytes
    clock: int
    resets: int
    restarts: int
    is_safe: bool
    firmware: int
    selected: tuple
    digest: bytes

    def covers(self, required):
        """Whether each of these registers is selected."""
        return set(required) <= set(self.selected)

    def is_of(self, value_of):
        """Whether it is of these registers: each that is selected has a value, and the hash of the values is the digest."""
        values = [value_of(*register) for register in self.selected]
        return None not in values and HASHES[len(self.digest)].hash(b"".join(values)) == self.digest


def refuse_unless(holds, fault):
    if not holds:
        raise QuoteFault(fault)


def read_selections(fields):
    """The selected registers: known banks, none twice, and registers below 24."""
    selected, banks = [], []
    count = fields.number()
    refuse_unless(count <= len(ALGORITHMS), "ManyBanks")
    for _ in range(count):
        bank = BY_IDENTIFIER.get(fields.number(2))
        refuse_unless(bank, "UnknownBank")
        refuse_unless(bank not in banks, "BankTwice")
        banks.append(bank)
        bits = int.from_bytes(fields.with_length(1), "little")
        refuse_unless(bits < 1 << REGISTERS, "BadRegister")
        selected += [(bank, register) for register in range(REGISTERS) if bits >> register & 1]
    refuse_unless(selected, "NothingSelected")
    return tuple(selected)


def read_fields(fields):
    refuse_unless(fields.take(len(HEAD)) == HEAD, "NotQuote")
    signer, nonce = fields.with_length(2), fields.with_length(2)
    clock, resets, restarts, flag = fields.number(8), fields.number(), fields.number(), fields.number(1)
    refuse_unless(flag in (0, 1), "BadClock")
    firmware, selected, digest = fields.number(8), read_selections(fields), fields.with_length(2)
    refuse_unless(len(digest) in HASHES, "DigestSize")
    refuse_unless(not fields.left(), "Trailing")
    return Quote(signer, nonce, clock, resets, restarts, flag == 1, firmware, selected, digest)


def read_quote(message):
    """What a message states, to its last byte."""
    try:
        return read_fields(Fields(message, "big"))
    except Cut:
        raise QuoteFault("Truncated") from None
