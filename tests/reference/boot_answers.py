"""What a log and registers that match tell of a boot ('What a machine booted'). Each answer is one that all banks that answer for a register
give."""

import re
from typing import NamedTuple

from .event_data import UNKNOWN, command_in, content_of, read_variable, variable_in
from .event_texts import decoded, guid_text, read_front, text_member, wide_member
from .fields import number
from .json_texts import json_text, unsteered
from .measured_data import COMMANDS_REGISTER, SETTINGS_REGISTER, is_measured
from .registers import ALGORITHMS, REGISTERS, SHA1, register_members, register_words
from .variable_values import GLOBAL, OPTION_NAME

EV_S_CRTM_VERSION, EV_IPL, EV_EFI_VARIABLE_BOOT = 8, 0xD, 0x80000002
FIRMWARE_REGISTER, IMAGES_REGISTER, POLICY_REGISTER = 0, 4, 7
# How many events of each log are compared after the first in which they differ.
MOST_COMPARED = 256
COMMAND_REGISTERS = (COMMANDS_REGISTER, 12)
SEPARATORS = [number(value) for value in (0, 1, 0xFFFFFFFF)]
# How options of Linux begin that may set a policy, and what may stand before one; and those that ask to measure, up to a quote or `--`.
POLICY_OPTION = re.compile(rb"(?:^|[\x09-\x0d \xa0\x22])(?:ima[_-]policy=|ima[_-]tcb|ima[_-]appraise[_-]tcb)")
MEASURING_OPTION = re.compile(rb"(?:^| )(?P<option>ima_tcb(?: |\Z)|ima_policy=tcb(?:[ |]|\Z))")
STOP = re.compile(rb"\"|--")


class Line(NamedTuple):
    """A line of an answer, as text and as JSON."""

    text: str
    value: dict


class Told(NamedTuple):
    """A text that an event told: the bytes of the text, its encoding, and what is claimed of it."""

    data: bytes
    encoding: str
    claimed: dict

    def members(self):
        return text_member("text", self.data) if self.encoding == "utf-8" else wide_member("text", self.data)

    @property
    def ascii(self):
        """The bytes of the text, where it is ASCII by its encoding or any UTF-8, else None."""
        text = decoded(self.data, self.encoding)
        return None if text is None or (self.encoding != "utf-8" and not text.isascii()) else text.encode()


def shown(value):
    """JSON as it stands in a text."""
    return unsteered(json_text(value))


class Boot(NamedTuple):
    """A log, and the registers that match, each with its bank."""

    log: object
    matching: set

    def banks(self, register):
        """The banks that answer for a register."""
        return [bank for bank in ALGORITHMS if bank is not SHA1 and (bank, register) in self.matching]

    def events(self, register):
        return extended_events(self.log, register)

    def is_answered(self, register):
        """Whether a bank answers for a register that the log extends."""
        return bool(self.banks(register) and self.events(register))

    def lines(self):
        """The lines of all answers."""
        secure_boot = self.secure_boot()
        yield Line(f"secure_boot {secure_boot}", {"secure_boot": secure_boot})
        yield self.version_line()
        yield from self.image_lines()
        for register in COMMAND_REGISTERS:
            yield from self.command_lines(register)
        yield self.policy_line()
        yield from self.variable_lines()

    def secure_boot(self):
        answers = {secure_boot_by(bank, self.events(POLICY_REGISTER)) for bank in self.banks(POLICY_REGISTER)}
        return answers.pop() if len(answers) == 1 else "unknown"

    def version_line(self):
        event = next((event for _, event in self.events(FIRMWARE_REGISTER)), None)
        banks = self.banks(FIRMWARE_REGISTER)
        is_told = event is not None and banks and all(is_whole(event, bank) for bank in banks) and event.data not in SEPARATORS
        content = content_of(EV_S_CRTM_VERSION, event.data) if is_told else UNKNOWN
        if content == UNKNOWN:
            return Line("firmware_version unknown", {"firmware_version": "unknown"})
        return Line(f"firmware_version {shown(content)}", {"firmware_version": content})

    def image_lines(self):
        banks = self.banks(IMAGES_REGISTER)
        if not self.is_answered(IMAGES_REGISTER):
            yield Line("image unknown", {"image": "unknown"})
        for place, event in self.events(IMAGES_REGISTER):
            if any(may_be_image(event, bank) for bank in banks):
                digests = {bank.name: event.digest_of(bank).hex() for bank in banks}
                content = content_of(event.type, event.data)
                words = " ".join(f"{name} {digest}" for name, digest in digests.items())
                yield Line(f"image {place} {words} claimed {shown(content)}", {"image": place, "digests": digests, "claimed": content})

    def texts(self, register):
        """The texts that the first events of a register told, each with the number of its event; and the number of the first event that told
        none, or None."""
        told = []
        for place, event in self.events(register):
            texts = [text_by(bank, event) for bank in self.banks(register)]
            if not texts or None in texts or any(text != texts[0] for text in texts):
                return told, place
            told.append((place, texts[0]))
        return told, None

    def command_lines(self, register):
        told, ended = self.texts(register)
        if not self.is_answered(register):
            yield Line(f"command unknown {register_words(register)}", {"command": "unknown", **register_members(register)})
            return
        for place, text in told:
            members = text.members()
            claimed = {"claimed": text.claimed} if text.claimed else {}
            value = {"command": place, **register_members(register), **members, **claimed}
            yield Line(f"command {place} {register_words(register)} {shown(members)}", value)
        if ended is not None:
            yield Line(f"command unknown {register_words(register)} {ended}", {"command": "unknown", **register_members(register), "event": ended})

    def policy_line(self):
        texts = [(place, text.ascii) for register in COMMAND_REGISTERS for place, text in self.texts(register)[0]]
        asked = [place for place, text in texts if text is not None and asks_to_measure(text)]
        possible = [place for place, text in texts if text is None or POLICY_OPTION.search(text)]
        word, places = ("asked", asked) if asked else ("possible", possible)
        if not places:
            return Line("ima_policy unknown", {"ima_policy": "unknown"})
        return Line(f"ima_policy {word} {places[0]}", {"ima_policy": word, "event": places[0]})

    def variable_lines(self):
        banks = self.banks(SETTINGS_REGISTER)
        if not self.is_answered(SETTINGS_REGISTER):
            yield Line("boot_variable unknown", {"boot_variable": "unknown"})
            return
        for place, event in self.events(SETTINGS_REGISTER):
            if any(may_be_separator(event, bank) for bank in banks):
                return
            variable = variable_in(event.data)
            if variable and is_of_boot(variable) and all(is_whole(event, bank) or is_measured(event, bank, variable.value) for bank in banks):
                content = content_of(EV_EFI_VARIABLE_BOOT, event.data)
                yield Line(f"boot_variable {place} {shown(content)}", {"boot_variable": place, "content": content})

    def differences(self, before):
        """The lines that tell where an earlier log has other events."""
        for register in range(REGISTERS):
            yield from self.register_lines(register, before)

    def register_lines(self, register, before):
        now, earlier, banks = self.events(register), extended_events(before, register), self.banks(register)
        words, members = f"register {register_words(register)}", register_members(register)
        if not (now or earlier):
            return
        if not banks:
            yield Line(f"{words} alike unknown", {**members, "alike": "unknown"})
            return
        places = ((bank, first_difference(bank, now, earlier)) for bank in banks)
        bank, alike = next(((bank, place) for bank, place in places if place is not None), (None, None))
        if bank is None:
            yield Line(f"{words} alike all", {**members, "alike": "all"})
            return
        yield Line(f"{words} {bank.name} alike {alike}", {**members, "bank": bank.name, "alike": alike})
        for name, events in zip(("now", "before"), differing(bank, now[alike:], earlier[alike:])):
            yield from (event_line(register, name, bank, *numbered) for numbered in events)


def claim_lines(log):
    """What the events of a log claim of a boot, each in a line: nothing confirms it."""
    claims = [(place, claim) for place, event in enumerate(log.events, 1) for claim in claims_of(event)]
    lines = [Line(f"claimed {place} {claim.text}", {"claimed": {"event": place, **claim.value}}) for place, claim in claims]
    return [Line("claimed all", {"claimed": "all"}), *lines]


def claims_of(event):
    """What an event claims: one claim, or none."""
    content = content_of(event.type, event.data)
    if content == UNKNOWN:
        return
    variable, _rest = read_front(read_variable, event.data) if "variable" in content else (None, b"")
    if variable and (guid_text(variable.guid), decoded(variable.name, "utf-16-le")) == (GLOBAL, "SecureBoot"):
        state = {b"\1": "on", b"\0": "off"}.get(variable.value)
        if state:
            yield Line(f"secure_boot {state}", {"secure_boot": state})
    elif variable and is_of_boot(variable):
        yield Line(f"boot_variable {shown(content)}", {"boot_variable": content})
    elif "image" in content:
        digests = {bank.name: event.digest_of(bank).hex() for bank in ALGORITHMS if bank.identifier in event.digests}
        words = "".join(f"{name} {digest} " for name, digest in digests.items())
        yield Line(f"image {words}{shown(content)}", {"digests": digests, "image": content})
    elif event.type == EV_S_CRTM_VERSION:
        yield Line(f"firmware_version {shown(content)}", {"firmware_version": content})
    elif event.type == EV_IPL and event.register in COMMAND_REGISTERS:
        yield Line(f"command {register_words(event.register)} {shown(content)}", {**register_members(event.register), "command": content})


def event_line(register, name, bank, place, event):
    """The line of an event that one of two logs has."""
    content = content_of(event.type, event.data)
    digest = event.digests[bank.identifier].hex() if bank.identifier in event.digests else None
    words = [f"register {register_words(register)} {name} {place}", *([digest] if digest else []), f"claimed {shown(content)}"]
    return Line(" ".join(words), {**register_members(register), name: place, **({"digest": digest} if digest else {}), "claimed": content})


def extended_events(log, register):
    """The events that are extended into a register, with their numbers."""
    return [(place, event) for place, event in enumerate(log.events, 1) if event.is_extended and event.register == register]


def is_whole(event, bank):
    """Whether all of the event's data is measured in the bank."""
    return is_measured(event, bank, event.data)


def secure_boot_by(bank, events):
    """What the events of a register tell by a bank."""
    for _, event in events:
        if not is_whole(event, bank) or len(event.data) == 4:
            return "unknown"
        variable = variable_in(event.data)
        if variable and (guid_text(variable.guid), decoded(variable.name, "utf-16-le")) == (GLOBAL, "SecureBoot"):
            return {b"\1": "on", b"\0": "off"}.get(variable.value, "unknown")
    return "unknown"


def may_be_image(event, bank):
    """Whether an event of the images' register is none that is measured whole as a separator or a text."""
    text = decoded(event.data.removesuffix(b"\0"), "utf-8")
    is_other = len(event.data) == 4 or (text is not None and "\0" not in text)
    return not (is_whole(event, bank) and is_other)


def text_by(bank, event):
    """The text that an event told by a bank: a command of GRUB, or a text in units of two bytes; or None."""
    command = command_in(event.data) if event.register == COMMANDS_REGISTER else None
    if command and is_measured(event, bank, command.hashed):
        return Told(command.text, "utf-8", {"kind": command.kind})
    is_wide = len(event.data) % 2 == 0 and event.data.endswith(b"\0\0")
    return Told(event.data[:-2], "utf-16-le", {}) if is_wide and is_whole(event, bank) else None


def asks_to_measure(text):
    """Whether a text asks Linux to measure files, before what nothing is read after."""
    option, stop = MEASURING_OPTION.search(text), STOP.search(text)
    return bool(option) and not (stop and stop.start() <= option.start("option"))


def may_be_separator(event, bank):
    return any(event.digest_of(bank) == bank.hash(data) for data in SEPARATORS)


def is_of_boot(variable):
    """Whether a variable has the vendor and the name of one that says what is to be started."""
    name = decoded(variable.name, "utf-16-le") or ""
    return guid_text(variable.guid) == GLOBAL and (name == "BootOrder" or OPTION_NAME.fullmatch(name) is not None)


def first_difference(bank, events, others):
    """For how many events both have the same digest, or None where they have the same for all."""
    digests, other_digests = ([event.digests.get(bank.identifier) for _, event in each] for each in (events, others))
    pairs = enumerate(zip(digests, other_digests))
    shorter = min(len(digests), len(other_digests))
    place = next((place for place, (one, other) in pairs if one is None or one != other), shorter)
    return None if place == len(digests) == len(other_digests) else place


def differing(bank, events, others):
    """The events of both but those of a longest common subsequence of the first that are compared. Of several it is the one that is found from
    the start, where an event of the log is passed over rather than one of the other log."""
    digests, other_digests = ([event.digests.get(bank.identifier) for _, event in each[:MOST_COMPARED]] for each in (events, others))
    common, other_common = set(), set()
    lengths = lengths_left(digests, other_digests)
    place = other_place = 0
    while lengths[place][other_place]:
        if digests[place] == other_digests[other_place] is not None:
            common.add(place)
            other_common.add(other_place)
            place, other_place = place + 1, other_place + 1
        elif lengths[place + 1][other_place] == lengths[place][other_place]:
            place += 1
        else:
            other_place += 1
    return [[event for i, event in enumerate(each) if i not in left_out] for each, left_out in ((events, common), (others, other_common))]


def lengths_left(digests, others):
    """How long a longest common subsequence is of what is left after so many of each."""
    rows = [[0] * (len(others) + 1)]
    for digest in reversed(digests):
        row = [0]
        for other, without_both, without_first in zip(reversed(others), reversed(rows[-1]), reversed(rows[-1][:-1])):
            row.append(without_both + 1 if digest == other is not None else max(without_first, row[-1]))
        rows.append(row[::-1])
    return rows[::-1]
