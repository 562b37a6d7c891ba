"""Logs in other forms ('Logs in other forms'), turned into a crypto-agile log; and a log that states where the machine started after an H-CRTM."""

from .event_data import STARTUP_LOCALITY
from .faults import LogFault, LogFormFault
from .fields import Cut, Fields
from .log import EV_NO_ACTION, Event, Log, read_log_prefix
from .registers import REGISTERS, SHA1

EV_EFI_HCRTM_EVENT = 0x80000010
# The locality by which PCR 0 starts after an H-CRTM.
AFTER_HCRTM = 4
PADDING = (b"\xff", b"\0")


def is_padding(data):
    """Whether the bytes are all 0xFF or all zeros; there may be none."""
    return any(data == byte * len(data) for byte in PADDING)


def padding_size(data):
    """How many bytes at the end are padding, at most."""
    return max(len(data) - len(data.rstrip(byte)) for byte in PADDING)


def log_of(data):
    """The crypto-agile log that the bytes are, and how many bytes of padding follow it; or the first fault."""
    log, fault = read_log_prefix(data)
    if fault is None:
        return data, 0
    if fault.number == LogFault.NOT_CRYPTO_AGILE:
        return sha1_log_of(data)
    size = None if log is None else size_of(log, data)
    if size is None or not is_padding(data[size:]):
        raise LogFormFault.of_log(fault)
    return data[:size], len(data) - size


def size_of(log, data):
    """How many bytes the header and the events take, which the bytes begin with."""
    fields = Fields(data)
    fields.take(28)
    fields.with_length()
    for _ in log.events:
        skip_event(fields, log.declared)
    return fields.place


def skip_event(fields, declared):
    fields.take(8)
    for _ in range(fields.number()):
        fields.take(declared[fields.number(2)])
    fields.with_length()


def sha1_log_of(data):
    """Likewise of bytes in the SHA-1 form."""
    fields, events, padding = Fields(data), [], padding_size(data)
    while fields.left() > padding:
        events.append(read_sha1_event(fields, len(events) + 1))
    if not events:
        raise LogFormFault.NOT_A_LOG.fault()
    return Log({SHA1.identifier: SHA1.size}, events).spelling(), fields.left()


def read_sha1_event(fields, place):
    """The event with this number; where the first one is missing, the bytes are no log."""
    try:
        register, type, digest, data = fields.number(), fields.number(), fields.take(SHA1.size), fields.with_length()
    except Cut:
        raise LogFormFault.OLD_TRUNCATED.at(place) from None
    if type != EV_NO_ACTION and register >= REGISTERS:
        raise LogFormFault.OLD_REGISTER.at(place)
    return Event(register, type, {SHA1.identifier: digest}, data)


def starts_after_hcrtm(log):
    """Whether the log has an H-CRTM event of PCR 0, and states no locality."""
    stated = any(not event.is_extended and event.register == 0 and event.data.startswith(STARTUP_LOCALITY)
                 and len(event.data) > len(STARTUP_LOCALITY) for event in log.events)
    return not stated and any(event.type == EV_EFI_HCRTM_EVENT and event.register == 0 for event in log.events)


def told_log(data):
    """The bytes; of a log that starts after an H-CRTM with an event behind it that states the locality."""
    log, fault = read_log_prefix(data)
    if fault or not starts_after_hcrtm(log):
        return data
    return data + Event(0, EV_NO_ACTION, {}, STARTUP_LOCALITY + bytes([AFTER_HCRTM])).spelling()


def in_sha1_form(event):
    """The bytes of an event that has a SHA-1 digest, in the SHA-1 form."""
    spelled = Event(event.register, event.type, {}, event.data).spelling()
    return spelled[:8] + event.digest_of(SHA1) + spelled[12:]
