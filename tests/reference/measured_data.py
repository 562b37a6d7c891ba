"""Which part of an event's data was measured, and is confirmed ('Measured data')."""

from .event_data import command_in, variable_in
from .registers import ALGORITHMS, SHA1

# The one register in which a variable's value alone is measured, and that in which a command's text alone is.
SETTINGS_REGISTER = 1
COMMANDS_REGISTER = 8


def parts_of(event):
    """The parts of an event's data that may be measured, by name."""
    yield "data", event.data
    variable = variable_in(event.data) if event.register == SETTINGS_REGISTER else None
    if variable:
        yield "value", variable.value
    command = command_in(event.data) if event.register == COMMANDS_REGISTER else None
    if command:
        yield "command", command.hashed


def is_measured(event, bank, part):
    """Whether the event is extended, and has a digest for the bank that is the part's hash."""
    return event.is_extended and bank.identifier in event.digests and event.digest_of(bank) == bank.hash(part)


def measured_parts(event):
    """The first part of the event's data that is measured, by the bank in which it is, in the order of algorithms."""
    parts = {bank: [name for name, part in parts_of(event) if is_measured(event, bank, part)] for bank in ALGORITHMS}
    return {bank: names[0] for bank, names in parts.items() if names}


def matching_registers(registers, expected):
    """The registers, each with its bank, that have the expected value, and that no bank other than SHA-1 refutes by another value."""
    matching = {(row.algorithm, row.register) for row in expected if registers.value(row.algorithm, row.register) == row.value}
    strong = {(row.algorithm, row.register) for row in expected if row.algorithm is not SHA1}
    refuted = {register for bank, register in strong - matching}
    return {(bank, register) for bank, register in matching if register not in refuted}


def confirmed_part(event, matching):
    """The first part of the event's data that is measured in every bank other than SHA-1 whose register of the event matches, or None; None
    also where there is no such bank."""
    banks = [bank for bank in ALGORITHMS if bank is not SHA1 and (bank, event.register) in matching]
    names = (name for name, part in parts_of(event) if all(is_measured(event, bank, part) for bank in banks))
    return next(names, None) if banks else None
