#!/usr/bin/env python3
"""Reads back what the program shows with `--json`, by Python's own json.

tests/cases/json_lines.py [PROGRAM [ENTRIES]]: by default the program that was built in this tree, and a long list of 12,000 entries.

The lines of a command must be of the kinds that docs/schema.json has for it, and each object must have members of the schema alone, in its order.

Each line must be one value of ASCII or UTF-8 that json writes in the same way, without white space, and has no byte below 32. All lines must
be what `tests/reference/` answers, and each must say what the same command's text says. The commands read the sample, lists of all templates
whose paths and payloads are hostile, damaged lists and logs, and the long list. The script counts commands."""

import json
import random
import subprocess
import sys
from pathlib import Path

sys.path.insert(0, str(Path(__file__).resolve().parents[1]))
import harness  # noqa: E402
import reference  # noqa: E402
from harness import ROOT  # noqa: E402
from line_kinds import fault_of_output  # noqa: E402
from reference.log import EV_NO_ACTION, STARTUP_LOCALITY, TYPE_NAMES, Event, Log, Specification, read_log  # noqa: E402
from reference.measurement_list import IMA, IMA_NG, IMA_SIG, VIOLATION, Entry, entry_of, list_spelling  # noqa: E402
from reference.registers import ALGORITHMS, SHA1, SHA256  # noqa: E402

SECONDS = 60
ENTRIES = int(sys.argv[2]) if len(sys.argv) > 2 else 12_000
HOSTILE = [
    *(bytes([byte]) for byte in range(1, 256)),
    b"\n\n", b'"', b"\\", b'\\"', b"\x1b[2J\x1b[31m", b"\r\n", b"/bin/x 030204", "\u2028\u202e\ufeff".encode(), "\U0001f600".encode(),
    b"\xed\xa0\x80", b"\xc0\x80", b"\xf4\x90\x80\x80", b"\xff", b"a" * 255, b"",
]  # fmt: skip
LONG = [b"a" * 4095, b"\n" * 4095, b"\x1b" * 4095, "\u2028".encode() * 1365, b"\xff" * 4095]
SIGNING_KEYS = ("rsassa", "rsapss", "rsa3072", "p521")


def log_of_all_banks():
    """A log with events of each type that has a name and of some without, of all banks and one of an algorithm without a name."""
    sizes = {0x12: 32, **{it.identifier: it.size for it in reversed(ALGORITHMS)}}
    digests = {identifier: bytes(range(size)) for identifier, size in sizes.items()}
    named = (Event(number % 24, kind, digests, bytes(range(256))) for number, kind in enumerate([*TYPE_NAMES, 0x13FF, 0xFFFFFFFF]))
    unnamed = [Event(0, EV_NO_ACTION, {}, STARTUP_LOCALITY + b"\xff"), Event(0xFFFFFFFF, EV_NO_ACTION, {0x12: bytes(32)}, b"")]
    return Log(sizes, [*named, *unnamed], Specification(2**32 - 1, 1, 2, 3, 255, bytes(range(255))))


def hostile_entries():
    """Entries of each template with each path, and payloads and names of templates that have no fields."""
    for template in (IMA, IMA_NG, IMA_SIG):
        for path in HOSTILE + (LONG if template != IMA else []):
            yield entry_of(template, SHA1 if template == IMA else SHA256, bytes(SHA1.size if template == IMA else SHA256.size), path)
    for name in (*HOSTILE, b"ima-modsig", b"", IMA_NG, IMA_SIG):
        for payload in (b"", b"\0\n\x1b", bytes(range(256))):
            yield Entry(23, bytes(range(20)), name, payload)
            yield Entry(0, VIOLATION, name, payload)


def many_entries():
    drawn = random.Random(1)
    for number in range(ENTRIES):
        algorithm = drawn.choice(ALGORITHMS)
        path = drawn.randbytes(drawn.randrange(1, 40)).replace(b"\0", b"/") + b" %d" % number
        entry = entry_of(drawn.choice((IMA_NG, IMA_SIG)), algorithm, drawn.randbytes(algorithm.size), path)
        yield entry._replace(template_digest=drawn.choice((entry.template_digest, VIOLATION, drawn.randbytes(20))))


def damaged_logs(log):
    """The sample's log cut within its header and each event and between them, and with a register, an algorithm, a digest or a header that
    is refused, each with a name."""
    read = read_log(log)
    header = len(log) - sum(len(event.spelling()) for event in read.events)
    ends = [header]
    for event in read.events:
        ends.append(ends[-1] + len(event.spelling()))
    for size in (0, 31, header - 1, *(end + more for end in ends[:-1] for more in (0, 1, 12, 40)), len(log) - 1):
        yield f"damaged-cut-{size}", log[:size]
    extended = [number for number, event in enumerate(read.events) if event.is_extended]
    for number in (extended[0], extended[-1]):
        start = ends[number]
        yield f"damaged-register-{number}", log[:start] + (24).to_bytes(4, "little") + log[start + 4 :]
        yield f"damaged-undeclared-{number}", log[: start + 12] + b"\x04\0" + log[start + 14 :]
        yield f"damaged-no-digest-{number}", log[: start + 8] + bytes(8) + log[start:]
        yield f"damaged-twice-{number}", log[: start + 8] + b"\2\0\0\0" + 2 * log[start + 12 : start + 46] + log[start + 46 :]
    yield "damaged-signature", log.replace(b"Spec ID Event03", b"Spec ID Event02", 1)
    yield "damaged-no-bank", read._replace(declared={0x12: 32}).spelling()
    yield "damaged-size", read._replace(declared={SHA256.identifier: 20}).spelling()


def commands(folder):
    """Words, and files that they name in the folder."""
    sample = ROOT / "samples/real-boot"
    for name in ("firmware.log", "ima.list", "expected.txt", "tpm2_pcrread.txt"):
        (folder / name).write_bytes((sample / name).read_bytes())
    (folder / "hostile").write_bytes(list_spelling(hostile_entries()))
    (folder / "many").write_bytes(list_spelling(many_entries()))
    (folder / "cut").write_bytes((folder / "many").read_bytes()[:-1])
    for name, log in damaged_logs((folder / "firmware.log").read_bytes()):
        (folder / name).write_bytes(log)
    (folder / "forged").write_bytes((folder / "ima.list").read_bytes()[:-2] + b"v\0")
    (folder / "longer").write_bytes((folder / "ima.list").read_bytes() + (folder / "forged").read_bytes()[11834:])
    (folder / "crossed").write_bytes((folder / "ima.list").read_bytes() + b"\x0b" + (folder / "ima.list").read_bytes()[11835:])
    (folder / "quote.msg").write_bytes((ROOT / "samples/quoted/quote.msg").read_bytes())
    (folder / "none").write_bytes(b"")
    (folder / "firmware's").write_bytes(b"".join((sample / "expected.txt").read_bytes().splitlines(True)[:10]))
    (folder / "few").write_text("sha256 10 " + "00" * 32 + "\nsha384 1 " + "11" * 48 + "\n")
    (folder / "banks.log").write_bytes(log_of_all_banks().spelling())
    evidence = ["firmware.log", "ima.list"]
    yield from (["show", "ima.list"], ["show", "hostile"], ["show", "many"], ["show", "cut"], ["show", "firmware.log"])
    yield from (["registers", "firmware.log"], ["events", "firmware.log"], ["events", "--data", "firmware.log"])
    yield from (["events", path.name] for path in sorted(folder.glob("damaged-*")))
    yield from (["replay", "ima.list"], ["replay", "many"], ["replay", "ima.list", "few"], ["expected", "tpm2_pcrread.txt"])
    yield from (["replay", "--require", "sha1:0-23", "ima.list", "few"], ["expected", "--registers", "4-4", "tpm2_pcrread.txt"])
    for command in ("verify", "locate"):
        yield from ([command, *evidence, "expected.txt"], [command, *evidence, "few"], [command, "--require", "sha1:0-23", *evidence, "few"])
    yield from (["verify", "--prefix", *evidence, "expected.txt"], ["verify", "--prefix", *evidence, "few"])
    yield from (["verify", "--prefix", "firmware.log", name, "firmware's"] for name in ("many", "forged", "cut"))
    yield from (["verify", "--prefix", *evidence, "none"], ["verify", "--save", "kept", *evidence, "none"])
    (folder / "known").write_bytes((ROOT / "samples/known/SHA256SUMS").read_bytes())
    for known in (["--known", "known"], ["--known", "none"], ["--known", "known", "--known", "few"]):
        yield from (["verify", "--require", "sha256:10", *known, *evidence, "few"], ["replay", "--require", "sha256:10", *known, "many", "few"])
        yield ["verify", "--require", "sha256:10", "--prefix", *known, "firmware.log", "crossed", "expected.txt"]
    quoted = ["attest", "--nonce", (ROOT / "samples/quoted/nonce").read_text().strip(), "--require", "sha256:0-10"]
    yield from ([*quoted, *evidence, "quote.msg"], [*quoted, "--signature-checked", *evidence, "quote.msg"], [*quoted, *evidence, "none"])
    yield from ([*quoted, "--signature-checked", "--prefix", "firmware.log", name, "quote.msg"] for name in ("many", "forged", "longer"))
    yield from ([*quoted, "--signature-checked", log, "crossed", "quote.msg"] for log in ("firmware.log", "banks.log"))
    yield from ([*quoted, "--signature-checked", "--known", known, *evidence, "quote.msg"] for known in ("known", "none", "few"))
    yield from signed_commands(folder, quoted, evidence)
    for name in ("secure-boot", "systemd-boot"):
        for path in (ROOT / "samples/ovmf-boot").glob(f"{name}.*"):
            (folder / path.name).write_bytes(path.read_bytes())
        yield from (["boot", f"{name}.log"], ["boot", "--expected", f"{name}.expected", f"{name}.log"])
    for log, before in (("systemd-boot", "secure-boot"), ("secure-boot", "systemd-boot"), ("secure-boot", "secure-boot")):
        yield ["boot", "--expected", f"{log}.expected", "--before", f"{before}.log", f"{log}.log"]
    yield from (["boot", "banks.log"], ["boot", "--expected", "few", "banks.log"], ["boot", "--before", "banks.log", "firmware.log"], ["boot", "none"])
    yield from (["boot", "--expected", "known", "firmware.log"], ["boot", "--before", "none", "firmware.log"])
    for area in sorted((ROOT / "samples/keys").glob("*.pub")):
        (folder / area.name).write_bytes(area.read_bytes())
        yield from (["key", *purpose, "--print", part, area.name] for purpose in ([], ["--endorsement"]) for part in ("all", "name", "pem"))
    yield ["measure", "--workers", "1", "firmware.log", "many", "few", "ima.list"]
    yield ["measure", "--workers", "1", "--print", "registers", "firmware.log", "many"]
    yield from (["registers", "banks.log"], ["events", "banks.log"], ["verify", "--require", "sha512:0-23", "banks.log", "many", "few"])


def signed_commands(folder, quoted, evidence):
    """Words of commands by quotes whose signatures are verified, and their files in the folder."""
    for path in (ROOT / "samples/signed").glob("*.*"):
        (folder / path.name).write_bytes(path.read_bytes())
    for key in SIGNING_KEYS:
        for ends in (("pub", "tpmt"), ("pem", "sig"), ("pem", "msg"), ("sig", "tpmt")):
            yield [*quoted, "--key", f"{key}.{ends[0]}", "--signature", f"{key}.{ends[1]}", *evidence, f"{key}.msg"]
    rsa = ["--key", "rsapss.pub", "--signature", "rsapss.tpmt"]
    yield from ([*quoted, *rsa, "--prefix", "firmware.log", name, "rsapss.msg"] for name in ("longer", "forged"))
    yield from ([*quoted, *rsa, "--known", known, *evidence, "rsapss.msg"] for known in ("known", "none"))
    yield ["boot", *quoted[1:], *rsa, "--list", "ima.list", "--quote", "rsapss.msg", "firmware.log"]


def run(program, words, folder):
    done = subprocess.run([program, *words], cwd=folder, stdin=subprocess.DEVNULL, capture_output=True, timeout=SECONDS)
    return done.returncode, done.stdout


def fault_of_line(line):
    """What is wrong with a line, or None."""
    if any(byte < 32 for byte in line):
        return "a byte below 32"
    try:
        value = json.loads(line.decode())
    except ValueError as cause:
        return f"not JSON: {cause}"
    written = json.dumps(value, separators=(",", ":"), ensure_ascii=False).encode()
    return None if written == line else f"json writes it as {written[:100]!r}"


def known_rows(value):
    """The lines of a report with known files."""
    first = [f"known_from {value['known_from']}"] if "known_from" in value else []
    return first + [f"unknown entry {number}" for number in value.get("unknown", [])]


def rows_by_quote(value):
    """The lines of the text that a report by a quote has."""
    clock, verdict = value["clock"], value["verdict"]
    rows = [f"quoted {row['bank']} {' '.join(map(str, row['registers']))}" for row in value["quoted"]]
    rows += [f"signer {value['signer']}", f"clock {clock['milliseconds']} resets {clock['resets']} restarts {clock['restarts']} "
             f"{'safe' if clock['safe'] else 'unsafe'}", f"firmware {value['firmware']}"]
    rows += [f"events {value['events']} locality {value['locality']}", f"entries {value['entries']}"]
    rows += [f"confirmed {value['confirmed']} of {value['entries']} entries"] if "confirmed" in value else []
    rows += [value["unconfirmed"]["message"]] if "unconfirmed" in value else []
    rows += [f"boot_aggregate {value['boot_aggregate']}"]
    rows += [f"{word} {number} extends {register}" for (word, number), (_, register) in (row.items() for row in value.get("extends", []))]
    concluded = {"not checked": [verdict], "checked": [f"verdict {verdict}"], "valid": ["signature valid", f"verdict {verdict}"]}
    return [*rows, *known_rows(value), f"quote {value['quote']}", *concluded[value["signature"]]]


def rows_of_key(value):
    """The lines of the text that a key has, or a part of it."""
    if len(value) == 1:
        return "".join(value.values()).splitlines()
    scheme = f"{value['scheme']} {value['hash']}" if "hash" in value else value["scheme"]
    return [f"name {value['name']}", f"key {value['type']} {value['bits']}", f"scheme {scheme}", *value["pem"].splitlines()]


def is_answer(value, row):
    """Whether a line of text has the words of a value of `boot`, and at its end the JSON of what these say, whose characters may be escaped."""
    words, brace, told = row.partition("{")
    kind = words.split()[0]
    if kind == "claimed" and isinstance(value["claimed"], dict):
        kind, value = words.split()[2], value["claimed"]
    said = [found for name, found in value.items() if isinstance(found, dict) and name != "digests"]
    texts = {name: value[name] for name in ("text", "text_hex") if name in value}
    plain = [f"({found})" if name == "register_name" else str(found) for name, found in value.items() if name not in texts and not isinstance(found, dict)]
    has_words = kind in value and {*plain, *value.get("digests", {}).values()} <= set(words.split())
    return has_words and ([json.loads(brace + told)] if brace else []) == ([texts] if texts else said)


def is_told(words, values, text):
    """Whether values tell what the text without `--json` does: as many entries and events, the same words of registers."""
    rows = text.decode(errors="surrogateescape").splitlines()
    if "fault" in values[-1]:
        return values[-1]["fault"]["message"] == rows[0]
    if words[0] == "attest":
        return rows_by_quote(values[0]) == rows
    if words[0] == "key":
        return rows_of_key(values[0]) == rows
    if words[0] in ("registers", "expected") or words[0] == "replay" and "registers" in values[0] and "verdict" not in values[0]:
        return [f"{row['bank']} {row['register']} {row['value']}" for row in values[0]["registers"]] == rows
    if words[0] == "verify" or "verdict" in values[0]:
        told = [" ".join(str(word) for name, word in row.items() if name != "expected") for row in values[0]["registers"]]
        told += [f"{word} {number} extends {register}" for (word, number), (_, register) in (row.items() for row in values[0].get("extends", []))]
        told += known_rows(values[0])
        return rows[-1] == f"verdict {values[0]['verdict']}" and told == rows[-1 - len(told) : -1]
    if words[0] == "locate":
        return (rows[-1] == "located") == values[0]["located"] and len(rows) - 1 == len(values[0]["registers"])
    if words[0] == "boot":
        return len(rows) == len(values) and all(is_answer(value, row) for value, row in zip(values, rows))
    if words[0] == "events":
        return len(rows) == len(values) and all(row.split()[0] == str(value["event"]) for row, value in zip(rows[1:], values[1:]))
    return words[0] != "show" or values[-1] == {"entries": len(values) - 1}


def fault_of_command(program, words, folder):
    as_json = [words[0], "--json", *words[1:]]
    status, output = run(program, as_json, folder)
    if (status, output) != reference.answer(as_json, folder):
        return "not what the reference answers"
    if not output.endswith(b"\n"):
        return "no line end"
    lines = output[:-1].split(b"\n")
    for number, line in enumerate(lines):
        if fault := fault_of_line(line):
            return f"line {number}: {fault}"
    values = [json.loads(line) for line in lines]
    if fault := fault_of_output(as_json, values):
        return fault
    plain_status, text = run(program, words, folder)
    if plain_status != status:
        return f"status {status}, and {plain_status} without --json"
    return None if is_told(words, values, text) else "not what the text tells"


class JsonLines(harness.TestCase):
    def test_commands(self):
        program, folder = harness.argument(), self.folder()
        for words in commands(folder):
            title = f"ima-agent {' '.join(words)}"
            try:
                self.check(title, fault_of_command(program, words, folder), None)
            except reference.LacksCryptography:
                with self.subTest(title=title):
                    self.lacks("cryptography for Python")


if __name__ == "__main__":
    sys.exit(harness.main())
