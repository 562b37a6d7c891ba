"""Makes logs, lists and files to benchmark with, by `tests/reference/`, which also says what the program must answer for them."""

import hashlib
import sys
from pathlib import Path

sys.path.append(str(Path(__file__).resolve().parents[2] / "tests"))

from reference.log import EV_NO_ACTION, STARTUP_LOCALITY, Event, Log  # noqa: E402
from reference.measurement_list import BOOT_AGGREGATE, IMA_NG, entry_of, replay  # noqa: E402
from reference.registers import SHA256  # noqa: E402
from reference.texts import Expected  # noqa: E402

EV_EVENT_TAG = 6
LOCALITY = 3


def made_log(algorithms, count):
    """A firmware log with banks of these algorithms and this many events, the first of which states the locality."""
    digests = {algorithm.identifier: bytes(algorithm.size) for algorithm in algorithms}
    events = [Event(0, EV_NO_ACTION, digests, STARTUP_LOCALITY + bytes([LOCALITY]))]
    for number in range(1, count):
        data = b"made event %029d" % number
        digests = {algorithm.identifier: algorithm.hash(data) for algorithm in algorithms}
        events.append(Event(number % 10, EV_EVENT_TAG, digests, data))
    return Log({algorithm.identifier: algorithm.size for algorithm in algorithms}, events)


def made_entries(log, measurements):
    """The entries of the boot aggregate after a log, and of these measurements, each a path and the SHA-256 of a content."""
    aggregate = log.registers().boot_aggregate(SHA256)
    return [entry_of(IMA_NG, SHA256, digest, path) for path, digest in [(BOOT_AGGREGATE, aggregate), *measurements]]


def made_measurements(count):
    for number in range(count):
        path = b"/usr/lib/modules/6.12.0/kernel/drivers/made-%07d.ko" % number
        yield path, hashlib.sha256(path).digest()


def expected_after(log, entries):
    """All registers after a log and a list."""
    registers = log.registers()
    replay(registers, entries)
    return [Expected(*row) for row in registers.rows()]


def expected_text(expected):
    return "".join(row.line() for row in expected).encode()


def hexadecimal(data):
    """Bytes as hexadecimal text in lines of 60 digits, as `xxd -p` writes them."""
    text = data.hex()
    return "".join(text[at:at + 60] + "\n" for at in range(0, len(text), 60)).encode()
