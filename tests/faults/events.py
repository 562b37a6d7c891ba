#!/usr/bin/env python3
"""Compares what the program and `tests/reference/` say of events that are made and damaged at random (event_forms.py): data of each form, whole or
with turned, missing and other bytes and numbers at boundaries; types that fit or not; digests that are hashes of parts of the data or not.

tests/faults/events.py [--events N] [PROGRAM]: 5,000 events, or so many, in logs of 100, and by default the program that was built in this tree.

Each log is shown with `--json` and `--explain`, without expected registers and with some that match, or with a quote; and `boot` answers on it. Each form of content,
and each mark, must be among the answers. So must be each answer of `boot` on short logs with the events of a boot, and on an earlier log. What
tpm2_eventlog of tpm2-tools prints of events that are not damaged, and of the samples, must be what the program says of them, where both read the
data. The script counts events and boots."""

import argparse
import json
import os
import random
import re
import subprocess
import sys
import tempfile
from collections import Counter
from concurrent.futures import ProcessPoolExecutor
from importlib.util import find_spec
from itertools import groupby
from pathlib import Path

sys.path[:0] = [str(Path(__file__).resolve().parents[1])]
import harness  # noqa: E402
import reference  # noqa: E402
from boots import NONCE  # noqa: E402
from event_forms import random_boots, random_expected, random_log, random_quote  # noqa: E402
from harness import ROOT  # noqa: E402
from reference.event_texts import guid_text  # noqa: E402
from reference.json_texts import json_text  # noqa: E402
from reference.variable_values import OPTION_NAME  # noqa: E402

parser = argparse.ArgumentParser(usage="tests/faults/events.py [--events N] [PROGRAM]")
parser.add_argument("--events", type=int, default=5000)
parser.add_argument("program", nargs="?", type=Path, default=harness.PROGRAM)
ASKED = parser.parse_args()
EVENTS_OF_A_LOG, LEAST_WHOLE_LOGS = 100, 10
EVENTS_OF_A_BOOT, BOOTS_OF_A_LOG = 12, 10
SAMPLES = [ROOT / "samples" / name for name in ("real-boot/firmware.log", "ovmf-boot/secure-boot.log", "ovmf-boot/systemd-boot.log")]
EXPECTED = ["--expected", "expected"]
QUOTED = ["--quote", "quote", "--list", "list", "--nonce", NONCE.hex(), "--sha1", "--require"]
# What has to be among the answers: members of contents and of variables, and marks of explained events.
MEMBERS = {"separator", "text", "text_hex", "guid", "command", "variable", "image", "gpt", "blob", "tagged", "locality", "technology", "handoff",
           "unknown", "name", "name_hex", "flag", "order", "option", "lists", "signature", "certificate", "certificates", "level", "rest", "tables",
           "address", "path", "path_hex", "description", "description_hex"}
MARKS = {"claimed", "confirmed data", "confirmed value", "confirmed command", "measured"}
MARK = re.compile(r"^\d+ \d+(?: \([a-z-]+\))? \w+ (claimed|confirmed \w+|measured)", re.MULTILINE)
# What has to be among the answers of `boot`, without their numbers, digests and JSON.
ANSWERS = {"secure_boot on", "secure_boot off", "secure_boot unknown", "firmware_version", "firmware_version unknown", "image N", "image unknown",
           "command N N", "command unknown N", "command unknown N N", "ima_policy asked N", "ima_policy possible N",
           "ima_policy unknown", "boot_variable N", "boot_variable unknown", "register N alike all", "register N alike unknown",
           "register N alike N", "register N now N", "register N before N", "claimed all", "claimed N secure_boot on", "claimed N secure_boot off",
           "claimed N firmware_version", "claimed N image", "claimed N command N", "claimed N boot_variable"}
TOOL = "tpm2_eventlog"
TOOL_TYPES = {"EV_EFI_VARIABLE_DRIVER_CONFIG", "EV_EFI_VARIABLE_BOOT", "EV_EFI_VARIABLE_BOOT2", "EV_EFI_VARIABLE_AUTHORITY",
              "EV_EFI_BOOT_SERVICES_APPLICATION", "EV_EFI_BOOT_SERVICES_DRIVER", "EV_EFI_RUNTIME_SERVICES_DRIVER", "EV_EFI_GPT_EVENT",
              "EV_EFI_PLATFORM_FIRMWARE_BLOB"}


def answer_of(words, folder):
    """The program's status and output."""
    ran = subprocess.run([ASKED.program.resolve(), *words], cwd=folder, env={}, stdout=subprocess.PIPE, stderr=subprocess.PIPE)
    return ran.returncode, ran.stdout


def difference(found, wanted):
    """The first line in which two answers differ."""
    lines = zip([f"status {found[0]}", *found[1].splitlines(), "the end"], [f"status {wanted[0]}", *wanted[1].splitlines(), "the end"])
    return next((f"{one!r}, and not {other!r}" for one, other in lines if one != other), "other line ends")


def members_in(value):
    """The names of all members of a value."""
    if isinstance(value, list):
        return {name for item in value for name in members_in(item)}
    return set(value) | members_in(list(value.values())) if isinstance(value, dict) else set()


def told_in(words, text):
    """The members of contents, or the marks, that an answer has."""
    if "--explain" in words:
        return MARK.findall(text.decode())
    return [name for line in text.splitlines()[1:] for name in members_in(json.loads(line)["content"])]


def answers_in(text):
    """The answers of `boot` in its text, without their numbers, banks, digests and JSON."""
    lines = (re.sub(r" (?:sha\d+ )?[0-9a-f]{40,}| sha\d+(?= alike)| \([a-z-]+\)| claimed.*| {.*", "", line) for line in text.decode().splitlines())
    return [re.sub(r"\b\d+\b", "N", line) for line in lines]


def answers(commands, folder, told_by, seed):
    """How often the answers of commands have what, and what is wrong with them."""
    told, wrong = Counter(), []
    for words in commands:
        found, wanted = answer_of(words, folder), reference.answer(words, folder)
        told.update(told_by(words, wanted[1]))
        wrong += [f"seed {seed}, {' '.join(words)}: {difference(found, wanted)}"] if found != wanted else []
    return told, wrong


def events_by(required):
    """The commands that show events, where a quote has to be of these registers."""
    return [["events", form, *confirming, "log"] for form in ("--json", "--explain") for confirming in ([], EXPECTED, *by_quote(required))]


def boots_by(required):
    """Those of `boot`."""
    return [["boot", *form, *confirming, *before, "log"] for form in ([], ["--json"]) for confirming in ([], EXPECTED, *by_quote(required))
            for before in ([], ["--before", "before"])]


def by_quote(required):
    return [[*QUOTED, required, *checked] for checked in ([], ["--signature-checked"])]


def compared(seed):
    """How often a log made from this seed has which members and marks, how often short ones have which answers, and what is wrong with either."""
    chance = random.Random(seed)
    log = random_log(chance, EVENTS_OF_A_LOG)
    with tempfile.TemporaryDirectory() as folder:
        earlier = log._replace(events=[event for event in log.events if chance.random() < 0.99])
        required = put(folder, chance, log, earlier)
        told, wrong = answers(events_by(required), folder, told_in, seed)
        wrong += answers(boots_by(required), folder, lambda *_: [], seed)[1]
        boots, others = Counter(), []
        for _ in range(BOOTS_OF_A_LOG):
            log, earlier = random_boots(chance, EVENTS_OF_A_BOOT)
            required = put(folder, chance, log, earlier, 0.9)
            found = answers(boots_by(required), folder, lambda words, text: [] if "--json" in words else answers_in(text), seed)
            boots, others = boots + found[0], others + found[1]
    return (told, wrong), (boots, others)


def put(folder, chance, log, earlier, share=0.7):
    """Makes the files that the commands name, and returns which registers the quote has to be of."""
    listed, message, required = random_quote(chance, log)
    Path(folder, "log").write_bytes(log.spelling())
    Path(folder, "before").write_bytes(earlier.spelling())
    Path(folder, "expected").write_text(random_expected(chance, log, share))
    Path(folder, "list").write_bytes(listed)
    Path(folder, "quote").write_bytes(message)
    return required


def tool_events(file):
    """The events after the header that tpm2_eventlog reads of a log, or None if it refuses the log, or prints no YAML."""
    import yaml

    settings = {**os.environ, "LC_ALL": "C.UTF-8"}
    ran = subprocess.run([TOOL, "--eventlog-version=2", file], stdout=subprocess.PIPE, stderr=subprocess.PIPE, env=settings)
    try:
        return yaml.load(ran.stdout.decode(), yaml.BaseLoader)["events"][1:] if ran.returncode == 0 else None
    except (UnicodeDecodeError, yaml.YAMLError):
        return None


def tool_says(event):
    """What the tool says of an event, in the members of `events --json` that it has too."""
    digests = {row["AlgorithmId"]: row["Digest"] for row in event["Digests"]}
    head = {"register": int(event["PCRIndex"]), "type": event["EventType"], "digests": digests, "size": int(event["EventSize"])}
    return head, tool_content(event["EventType"], event.get("Event", ""))


def tool_content(kind, told):
    """What the tool says of data of the forms that both read, or None."""
    if not isinstance(told, dict):
        return None
    if "VARIABLE" in kind and isinstance(told.get("VariableData"), (list, dict)):
        return {"guid": told["VariableName"], "name": told["UnicodeName"], **tool_value(told)}
    if "BOOT_SERVICES" in kind or "RUNTIME_SERVICES" in kind:
        numbers = {"location": "ImageLocationInMemory", "size": "ImageLengthInMemory", "link_address": "ImageLinkTimeAddress"}
        return {name: int(told[key], 0) for name, key in numbers.items()}
    if kind == "EV_EFI_GPT_EVENT":
        names = {"type": "PartitionTypeGUID", "guid": "UniquePartitionGUID"}
        numbers = {"first": "StartingLBA", "last": "EndingLBA", "attributes": "Attributes"}
        rows = told.get("Partitions") or []
        partitions = [{**{n: row[k] for n, k in names.items()}, **{n: int(row[k], 0) for n, k in numbers.items()}} for row in rows]
        return {"disk": told["Header"]["DiskGUID"], "partitions": partitions}
    if kind == "EV_EFI_PLATFORM_FIRMWARE_BLOB":
        return {"base": int(told["BlobBase"], 0), "length": int(told["BlobLength"], 0)}
    return None


def tool_value(told):
    """What the tool says of the value of a variable, as the members that it has too."""
    value, name = told["VariableData"], told["UnicodeName"]
    if name == "Shim":
        return {}  # (the tool takes an owner from its first bytes)
    if name == "BootOrder":
        return {"order": [entry.removeprefix("Boot").lower() for entry in value]}
    if "Description" in value and not OPTION_NAME.fullmatch(name):
        return {}  # (the tool takes lower case digits, too)
    if "Description" in value:
        return {"option": {"is_active": value["Enabled"] == "Yes", "description": value["Description"]}}
    if isinstance(value, list) and value and "SignatureType" in value[0]:
        return {"lists": [tool_list(row["SignatureType"], [key["SignatureOwner"] for key in row["Keys"] or []]) for row in value]}
    if isinstance(value, list) and value and "SignatureOwner" in value[0]:
        return {"signature": {"owner": value[0]["SignatureOwner"], "data": value[0]["SignatureData"]}}
    return {"flag": 1 if value.get("Enabled") == "Yes" else 0} if "Enabled" in value else {}


def tool_list(kind, owners):
    return {"type": kind, "count": len(owners), "owners": [owner for owner, _ in groupby(owners)]}


def program_says(line):
    """The same of a line of `events --json`, with the numbers of strings."""
    head = {name: line[name] for name in ("register", "type", "digests")} | {"size": len(line["data"]) // 2}
    [(form, says)] = line["content"].items()
    says = numbers_of(says)
    if form == "variable":
        value, is_certificate = bytes.fromhex(says["value"]), "certificate" in says
        says = {name: says[name] for name in says if name not in ("value", "rest", "level", "certificate")}
        says.get("signature", {}).pop("certificate", None)
        for each in says.get("lists", []):
            each.pop("certificates", None)
        if is_certificate and says["name"] != "Shim":  # (the tool takes an owner from its first bytes)
            says["signature"] = {"owner": guid_text(value[:16]), "data": value[16:].hex()}
        if "flag" in says:
            says["flag"] = min(says["flag"], 1)
        if "option" in says:
            says["option"] = {"is_active": says["option"]["attributes"] % 2 == 1, "description": says["option"].get("description")}
    if form == "image":
        says = {name: says[name] for name in ("location", "size", "link_address")}
    if form == "gpt":
        rows = [{name: row[name] for name in row if not name.startswith("name")} for row in says["partitions"]]
        says = {"disk": says["disk"], "partitions": rows}
    return head, says


def numbers_of(value):
    """A value whose strings that are numbers of 64 bits are numbers."""
    if isinstance(value, dict):
        return {name: numbers_of(item) for name, item in value.items()}
    if isinstance(value, list):
        return [numbers_of(item) for item in value]
    return int(value, 0) if isinstance(value, str) and value.startswith("0x") else value


def lines_of(file):
    """The lines of `events --json` of a log, after that of the algorithms."""
    return [json.loads(line) for line in answer_of(["events", "--json", file], ROOT)[1].splitlines()[1:]]


def compared_with_tool(file, lines):
    """How many events of each type both read, and what is wrong with the others; nothing where the tool does not read the log."""
    told, wrong = Counter(), []
    for event, line in zip(tool_events(file) or [], lines):
        (head, says), wanted = tool_says(event), program_says(line)
        told.update([line["type"]] if says else [])
        if head != wanted[0] or (says and says != wanted[1]):
            wrong.append(f"{file.name}, event {line['event']}: {TOOL} has {head}, {says}, and not {wanted}")
    return told, wrong


def is_plain(line):
    """Whether the tool prints all texts of an event as they are: letters and the like, no key of the tool's."""
    texts = re.findall(r'"(?:name|description)(?:_hex)?":"([^"]*)"', json_text(line["content"]))
    return all(re.fullmatch("[A-Za-z0-9/]*", text) for text in texts) and "_hex" not in json_text(line["content"])


class Events(harness.TestCase):
    def test_answers(self):
        seeds = range(-(-ASKED.events // EVENTS_OF_A_LOG))
        with ProcessPoolExecutor(os.cpu_count()) as pool:
            found = [*pool.map(compared, seeds)]
        self.of_all("events", [events for events, _ in found], len(seeds) * EVENTS_OF_A_LOG, MEMBERS | MARKS)
        self.of_all("boots", [boots for _, boots in found], len(seeds) * BOOTS_OF_A_LOG, ANSWERS)

    def of_all(self, what, found, count, needed):
        """Counts what was found of all that was made, among which each of these has to be."""
        told, wrong = sum((each for each, _ in found), Counter()), [fault for _, faults in found for fault in faults]
        shown = ", ".join(f"{name} {told[name]}" for name in sorted(needed))
        self.check_all(f"{what}: {shown}", count - len(wrong), wrong)
        self.check(f"{what}: each answer that there is is among these", needed - set(told), set())

    def test_tool(self):
        """What tpm2_eventlog reads is what the program says"""
        self.needs(TOOL)
        self.lacks(*([] if find_spec("yaml") else ["yaml for Python"]))
        told, wrong = Counter(), []
        for file in SAMPLES:
            found = compared_with_tool(file, lines_of(file))
            told, wrong = told + found[0], wrong + found[1]
        for found in self.whole_events(self.folder()):
            told, wrong = told + found[0], wrong + found[1]
        shown = ", ".join(f"{name} {told[name]}" for name in sorted(told))
        self.check_all(f"events that {TOOL} reads too: {shown}", sum(told.values()) - len(wrong), wrong)
        self.check("each type that the tool reads is among them", TOOL_TYPES - set(told), set())

    @staticmethod
    def whole_events(folder):
        """What is found of events that are not damaged, each in a log of its own for the tool."""
        for seed in range(max(LEAST_WHOLE_LOGS, ASKED.events // 10 // EVENTS_OF_A_LOG)):
            log, file = random_log(random.Random(seed), EVENTS_OF_A_LOG, is_whole=True), folder / "log"
            file.write_bytes(log.spelling())
            for event, line in zip(log.events, lines_of(file)):
                if line.get("type") in TOOL_TYPES and is_plain(line):
                    file.write_bytes(log._replace(events=[event]).spelling())
                    yield compared_with_tool(file, [line])


if __name__ == "__main__":
    sys.exit(harness.main())
