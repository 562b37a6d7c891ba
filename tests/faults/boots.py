"""Small boots that are changed at random: a log, a list, and the message of a quote, which is as it was, or changed too, or that which an honest
TPM would sign of the changed log and list; and expected registers for them."""

from typing import NamedTuple

from reference.checkpoint import before_a_list
from reference.faults import Fault
from reference.fields import number
from reference.log import Event, Log, read_log
from reference.measurement_list import BOOT_AGGREGATE, IMA, IMA_NG, Entry, entry_of, list_spelling, read_list
from reference.quotes import HEAD
from reference.registers import SHA1, SHA256, register_line

NONCE = bytes(range(20))
REQUIRE = "sha256:0-10"
SELECTED = ((SHA1, (10,)), (SHA256, (*range(11), 14)))
BANKS = {SHA1.identifier: SHA1.size, SHA256.identifier: SHA256.size}
EV_NO_ACTION, EV_SEPARATOR, EV_ACTION, EV_IPL = 3, 4, 5, 13
NUMBERS = (0, 1, 2, 3, 10, 11, 23, 24, 255, 1 << 16, (1 << 32) - 1)


class Boot(NamedTuple):
    """The bytes of each event, the header first; those of each entry; and the message."""

    events: list
    entries: list
    message: bytes

    def inputs(self):
        return b"".join(self.events), b"".join(self.entries), self.message


def event(register, kind, data):
    return Event(register, kind, {SHA1.identifier: SHA1.hash(data), SHA256.identifier: SHA256.hash(data)}, data)


# An event of a register that is selected, and that the boot aggregate does not cover.
LAST_EVENT = event(14, EV_IPL, b"shim")


def message_of(digest, counts=(0, 0), selected=SELECTED):
    """The message of a quote of these registers, with the TPM's counts of resets and restarts."""
    signer, times = bytes.fromhex("000b") + bytes(range(32)), b"".join(count.to_bytes(4, "big") for count in counts)
    clock = bytes(range(8)) + times + b"\1" + bytes(8)
    maps = ((bank, sum(1 << register for register in registers).to_bytes(3, "little")) for bank, registers in selected)
    selections = b"".join(bank.identifier.to_bytes(2, "big") + b"\3" + bits for bank, bits in maps)
    sized = (len(each).to_bytes(2, "big") + each for each in (signer, NONCE))
    return HEAD + b"".join(sized) + clock + len(selected).to_bytes(4, "big") + selections + len(digest).to_bytes(2, "big") + digest


def values_after(log, listed):
    """The values of the selected registers after a log and a list, by bank and number; none where these have faults, or the log lacks a bank."""
    try:
        end = before_a_list(read_log(log).registers()).following(read_list(listed))
    except Fault:
        return {}
    values = {(bank, register): end.after.value(bank, register) for bank, registers in SELECTED for register in registers}
    return {} if None in values.values() else values


def quoted(log, listed, counts=(0, 0)):
    """The message that an honest TPM signs after a log and a list; or None where there are no values."""
    values = values_after(log, listed)
    return message_of(SHA256.hash(b"".join(values.values())), counts) if values else None


def whole_boot():
    """The boot from which all others are made."""
    locality = Event(0, EV_NO_ACTION, {SHA1.identifier: bytes(20), SHA256.identifier: bytes(32)}, b"StartupLocality\0\3")
    events = [locality, event(0, 8, b"version"), event(4, EV_ACTION, b"boot"), event(4, EV_SEPARATOR, bytes(4)), LAST_EVENT]
    log = Log(BANKS, events)
    digest, sum_of_a = SHA256.hash(b"abc"), SHA1.hash(b"a")
    violation = Entry(10, bytes(20), IMA_NG, entry_of(IMA_NG, SHA256, bytes(32), b"/etc/x").payload)
    entries = [entry_of(IMA_NG, SHA256, log.registers().boot_aggregate(SHA256), BOOT_AGGREGATE), entry_of(IMA_NG, SHA256, digest, b"/bin/sh"),
               violation, entry_of(IMA, SHA1, sum_of_a, b"/a"), entry_of(b"ima-sig", SHA256, digest, b"/bin/sh")]
    message = quoted(log.spelling(), list_spelling(entries))
    return Boot([Log(BANKS, []).spelling(), *(each.spelling() for each in events)], [each.spelling() for each in entries], message)


WHOLE = whole_boot()


def with_byte_changed(random, data, place):
    return data[:place] + bytes([data[place] ^ random.choice((1, 2, 128, random.randrange(1, 256)))]) + data[place + 1 :]


def with_number(random, data, place):
    """Bytes in which a number, of either order, stands at a place."""
    value = number(random.choice(NUMBERS))[: random.choice((1, 2, 4))]
    return data[:place] + random.choice((value, value[::-1])) + data[place + len(value) :]


def with_part_again(random, data, place):
    """Bytes of which a part comes again at a place, or is dropped."""
    size = random.randrange(1, 9)
    return data[:place] + random.choice((b"", data[place : place + size] * 2)) + data[place + size :]


def changed_bytes(random, data):
    """Some bytes, of which there is at least one, with one change or a few."""
    for _ in range(random.choice((1, 1, 1, 2, 3))):
        change = random.choice((with_byte_changed, with_byte_changed, with_number, with_part_again))
        data = change(random, data, random.randrange(len(data))) or b"\0"
    return data


def changed_parts(random, parts, first):
    """Events or entries, of which one from the first on is dropped, comes again or elsewhere, or has another register."""
    place, parts = random.randrange(first, len(parts)), list(parts)
    part = parts.pop(place)
    kept = random.choice(("none", "twice", "elsewhere", "register"))
    if kept == "register":
        part = number(random.choice(NUMBERS[:8])) + part[4:]
    if kept in ("twice", "register"):
        parts.insert(place, part)
    if kept in ("twice", "elsewhere"):
        parts.insert(random.randrange(first, len(parts) + 1), part)
    return parts


def crossed(random, boot):
    """The same where an entry is hidden as an event of register 10, or the last event as an entry, whose register then has the value that it
    had."""
    if random.random() < 0.5:
        entry = random.choice(WHOLE.entries)
        digests = {bank.identifier: read_list(entry)[0].digest_of(bank) for bank, _ in SELECTED}
        hidden = Event(10, EV_ACTION, digests, b"").spelling()
        return boot._replace(events=[*boot.events, hidden], entries=[each for each in boot.entries if each != entry])
    hidden = Entry(LAST_EVENT.register, SHA1.hash(LAST_EVENT.data), b"event", LAST_EVENT.data).spelling()
    events = [each for each in boot.events if each != LAST_EVENT.spelling()]
    return boot._replace(events=events, entries=[*boot.entries, hidden])


def changed(random):
    """A boot that is changed in one way or several."""
    boot = WHOLE
    for _ in range(random.choice((1, 1, 2))):
        what = random.choice(("message", "events", "entries", "log", "list", "crossed"))
        if what == "message":
            boot = boot._replace(message=changed_bytes(random, boot.message))
        elif what == "events" and len(boot.events) > 1:
            boot = boot._replace(events=changed_parts(random, boot.events, 1))
        elif what == "entries" and boot.entries:
            boot = boot._replace(entries=changed_parts(random, boot.entries, 0))
        elif what == "log":
            boot = boot._replace(events=[changed_bytes(random, b"".join(boot.events))])
        elif what == "list":
            boot = boot._replace(entries=[changed_bytes(random, b"".join(boot.entries) or b"\0")])
        elif what == "crossed":
            boot = crossed(random, boot)
    return boot


def random_boot(random):
    """The log, the list and the message of a changed boot. Of two messages one is what a TPM signs of that very log and list."""
    boot = changed(random)
    log, listed, message = boot.inputs()
    honest = quoted(log, listed) if random.random() < 0.5 else None
    return log, listed, honest or message


def random_expected(random, log, listed):
    """A text of expected registers, in any order: the values after this log and list, or after those from which all boots are made, of which one
    may be changed or missing; perhaps with a register that no quote selects; or a changed text."""
    values = random.choice((values_after(log, listed), {})) or values_after(*WHOLE.inputs()[:2])
    bank, register = random.choice(list(values))
    what = random.choice(("right", "right", "right", "changed", "fewer", "text"))
    if what == "changed":
        values[bank, register] = with_byte_changed(random, values[bank, register], random.randrange(bank.size))
    if what == "fewer":
        del values[bank, register]
    if random.random() < 0.5:
        values[SHA1, random.choice((0, 11))] = bytes(SHA1.size)
    text = "".join(register_line(*each, value) for each, value in random.sample(list(values.items()), len(values))).encode()
    return changed_bytes(random, text) if what == "text" else text
