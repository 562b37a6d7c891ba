#!/usr/bin/env python3
"""Compares what `ima-agent log` and `tests/reference/` make of logs in the SHA-1 form and of logs with padding, made and damaged at random.

tests/faults/log_forms.py [--logs N] [PROGRAM]: 4,000 logs, or so many (50,000 take a few minutes of processor time), and by default the program that was
built in this tree.

Output, status and what is said of the padding must be those of the reference, and each fault and each form must be among the answers. What
tpm2_eventlog of tpm2-tools reads of whole logs in the SHA-1 form, events and PCRs, it must read of the logs that are made of them. The script counts
logs."""

import argparse
import os
import random
import re
import subprocess
import sys
import tempfile
from collections import Counter
from concurrent.futures import ProcessPoolExecutor
from pathlib import Path

sys.path[:0] = [str(Path(__file__).resolve().parents[1]), str(Path(__file__).resolve().parents[1] / "cases")]
import harness  # noqa: E402
from boots import EV_NO_ACTION, changed_bytes  # noqa: E402
from harness import ROOT  # noqa: E402
from reference.faults import Fault  # noqa: E402
from reference.log import Event, Log, read_log  # noqa: E402
from reference.log_forms import EV_EFI_HCRTM_EVENT, in_sha1_form, log_of  # noqa: E402
from reference.registers import ALGORITHMS, SHA1  # noqa: E402
from said import said_of_error  # noqa: E402

parser = argparse.ArgumentParser(usage="tests/faults/log_forms.py [--logs N] [PROGRAM]")
parser.add_argument("--logs", type=int, default=4000)
parser.add_argument("program", nargs="?", type=Path, default=harness.PROGRAM)
ASKED = parser.parse_args()
LOGS_OF_A_SEED = 100
MOST_EVENTS, MOST_PADDING = 6, 80
# An algorithm that nobody knows, with the size of its digests.
UNKNOWN = (0x1234, 7)
TYPES = (0, 1, 4, 5, 8, 13, 0x80000001, 0x80000008, EV_EFI_HCRTM_EVENT, EV_NO_ACTION, EV_NO_ACTION)
OLDER_HEADER = b"Spec ID Event02\0" + bytes(9)
DATA = (b"", b"\0", bytes(4), b"\xff" * 4, b"data", b"data" + bytes(40), OLDER_HEADER, b"StartupLocality\0\3")
# The numbers of all faults but memory's; and that of a log that is not crypto-agile, which is then one in the SHA-1 form.
FAULTS = {1, 3, 4, 5, 6, 7, 8, 9, 11, 12, 13}
WHOLE = {f"{form}, {end}" for form in ("crypto-agile", "SHA-1 form") for end in ("padding", "no padding")}
TOOL = "tpm2_eventlog"
TOOL_EVENT = re.compile(r'PCRIndex: (\d+)\s+EventType: (\S+)\s+DigestCount: 1\s+Digests:\s+- AlgorithmId: sha1\s+Digest: "(\w+)"\s+EventSize: (\d+)')
SAMPLE = ROOT / "samples/ovmf-boot/secure-boot.log"


def random_event(chance, declared):
    """An event with a digest of each of these algorithms; one of type EV_NO_ACTION may have any register."""
    kind, data = chance.choice(TYPES), chance.choice(DATA) + chance.choice((b"", b"", chance.randbytes(chance.randrange(50))))
    register = chance.choice((0, 0, 1, 4, 7, 23)) if kind != EV_NO_ACTION else chance.choice((0, 0, 24, (1 << 32) - 1))
    digests = {identifier: chance.choice((bytes(size), chance.randbytes(size))) for identifier, size in declared.items()}
    return Event(register, kind, digests, data)


def random_agile(chance):
    """A crypto-agile log."""
    banks = chance.sample(ALGORITHMS, chance.randrange(1, len(ALGORITHMS) + 1))
    declared = {it.identifier: it.size for it in banks} | dict(chance.choice(([], [UNKNOWN])))
    return Log(declared, [random_event(chance, declared) for _ in range(chance.randrange(MOST_EVENTS))]).spelling()


def random_sha1(chance):
    """A log in the SHA-1 form. Some of its events are 32 zeros."""
    declared = {SHA1.identifier: SHA1.size}
    events = [in_sha1_form(random_event(chance, declared)) for _ in range(chance.randrange(1, MOST_EVENTS))]
    return b"".join(event if chance.random() < 0.95 else bytes(32) for event in events)


def random_padding(chance):
    """Padding, or bytes that are nearly padding."""
    if chance.random() < 0.4:
        return b""
    padding = chance.choice((b"\0", b"\xff")) * chance.randrange(MOST_PADDING)
    other = chance.choice((b"", b"", b"", b"\0", b"\xff", b"\1", b"\xfe"))
    return padding + other if chance.random() < 0.5 else other + padding


def random_form(chance):
    """A log in one of the forms, whole or damaged."""
    data = chance.choice((random_agile, random_sha1))(chance)
    damage = chance.random()
    if damage < 0.4:
        data = changed_bytes(chance, data)
    elif damage < 0.55:
        data = data[: chance.randrange(len(data))]
    return data + random_padding(chance)


def wanted_of(data, file):
    """What is answered by the reference of the data in this file, as status, output and what is said beside it; and which kind of answer it is."""
    try:
        log, padding = log_of(data)
    except Fault as fault:
        line = fault.line.encode()
        return (fault.status, line + b"\n", said_of_error(["log", str(file)], line, file.parent, None)), fault.number
    told = f"padding cut: {padding} bytes after the last event\n".encode() if padding else b""
    form = "crypto-agile" if data.startswith(log) else "SHA-1 form"
    return (0, log, told), f"{form}, {'padding' if padding else 'no padding'}"


def found_of(file):
    """What the program answers."""
    ran = subprocess.run([ASKED.program.resolve(), "log", file], env={}, stdout=subprocess.PIPE, stderr=subprocess.PIPE)
    return ran.returncode, ran.stdout, ran.stderr


def compared(seed):
    """How many logs made from this seed have which answer, and what is wrong with the others."""
    chance, told, wrong = random.Random(seed), Counter(), []
    with tempfile.TemporaryDirectory() as folder:
        file = Path(folder, "log")
        for place in range(LOGS_OF_A_SEED):
            data = random_form(chance)
            file.write_bytes(data)
            found, (wanted, kind) = found_of(file), wanted_of(data, file)
            told[kind] += 1
            wrong += [f"seed {seed}, log {place}: {found}, and not {wanted}: {data.hex()}"] if found != wanted else []
    return told, wrong


def tool_says(file):
    """The events with one SHA-1 digest that the tool reads of a log, and the PCRs after it; or None if it refuses the log."""
    settings = {**os.environ, "LC_ALL": "C.UTF-8"}
    ran = subprocess.run([TOOL, file], stdout=subprocess.PIPE, stderr=subprocess.PIPE, env=settings)
    text = ran.stdout.decode(errors="replace")
    return (TOOL_EVENT.findall(text), text.rpartition("\npcrs:")[2]) if ran.returncode == 0 else None


class LogForms(harness.TestCase):
    def test_answers(self):
        with ProcessPoolExecutor(os.cpu_count()) as pool:
            found = [*pool.map(compared, range(-(-ASKED.logs // LOGS_OF_A_SEED)))]
        told, wrong = sum((each for each, _ in found), Counter()), [fault for _, faults in found for fault in faults]
        shown = ", ".join(f"{kind} {count}" for kind, count in sorted(told.items(), key=str))
        self.check_all(f"logs and faults: {shown}", sum(told.values()) - len(wrong), wrong)
        self.check("each fault and each form is among the answers", (FAULTS | WHOLE) - set(told), set())

    def test_tool(self):
        """What tpm2_eventlog reads of a log in the SHA-1 form, it reads of the log that is made of it"""
        self.needs(TOOL)
        folder = self.folder()
        old, made = folder / "old", folder / "made"
        events = [event for event in read_log(SAMPLE.read_bytes()).events if SHA1.identifier in event.digests]
        old.write_bytes(b"".join(in_sha1_form(event) for event in events))
        status, output, _ = found_of(old)
        made.write_bytes(output)
        self.check("the log is made", status, 0)
        self.check("the tool reads each event", len(tool_says(old)[0]), len(events))
        self.check("and the same of the log that is made", tool_says(made), tool_says(old))


if __name__ == "__main__":
    sys.exit(harness.main())
