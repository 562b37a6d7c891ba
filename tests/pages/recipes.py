#!/usr/bin/env python3
"""Runs the recipes of attest.md, investigate.md, cli.md and json.md, as they are on the pages, on lists and logs that try to evade them; and the
examples of these pages, json.md and README, which must print what is below them.

tests/pages/recipes.py PROGRAM: the program that is installed as `ima-agent`. A recipe must show what is due as JSON, by `tests/reference/`. It
must fail with an empty, a cut and a missing input, and with a program that dies after its last line. Each runs in a folder in which a machine
left an `ima-agent` and a `known.txt` of its own."""

import json
import os
import re
import shutil
import subprocess
import sys
from pathlib import Path

TESTS = Path(__file__).resolve().parents[1]
sys.path[:0] = [str(TESTS)]

import harness  # noqa: E402
from harness import ROOT  # noqa: E402
from reference.fields import with_length  # noqa: E402
from reference.log import EV_NO_ACTION, read_log  # noqa: E402
from reference.measurement_list import IMA, IMA_NG, IMA_SIG, VIOLATION, Entry, entry_of, list_spelling, replay  # noqa: E402
from reference.registers import ALGORITHMS, BY_NAME, SHA1  # noqa: E402

[PROGRAM] = (Path(name).resolve() for name in sys.argv[1:])
PAGES = "docs/attest.md", "docs/investigate.md", "docs/cli.md", "docs/json.md"
BLOCK = re.compile(r"^```sh\n(.*?)^```$", re.MULTILINE | re.DOTALL)
EXAMPLES = re.compile(r"(?:^    \$ .*\n(?:^    .*\n)*)", re.MULTILINE)
EXAMPLE = re.compile(r"^\$ ((?:.*\\\n)*.*)\n((?:(?!\$ ).*\n)*)", re.MULTILINE)
# What only the recipe's block has.
JUDGE, TAKE, EVENTS = '--known "$known"', "--argjson confirmed", "diff before.events"
AGGREGATE, RECORDS = "--arg aggregate", "pcclient_std"
JUDGED, MEASURED = "ima-agent verify --require sha256:0-10 firmware.log ima.list expected.txt", "--files-from names"
ALONE, LOCATED, CONVERTED = "ima-agent replay", "ima-agent locate", "ima-agent expected"

SAMPLE = ROOT / "samples/real-boot"
LOG = read_log((SAMPLE / "firmware.log").read_bytes())
SHA256 = BY_NAME["sha256"]
KNOWN, UNKNOWN = SHA256.hash(b"known"), SHA256.hash(b"unknown")
WEAK, LONG = SHA1.hash(b"known"), BY_NAME["sha512"].hash(b"known")
SUMS = "".join(f"{digest.hex()}  /usr/bin/ls\n" for digest in (KNOWN, LONG)).encode()
SAYS_KNOWN = b"ima-ng sha256:%s" % KNOWN.hex().encode()
FIRST = entry_of(IMA_NG, SHA256, SHA256.hash(b"registers"), b"boot_aggregate")


def measured(digest, path=b"/usr/bin/ls", template=IMA_NG, algorithm=SHA256):
    return entry_of(template, algorithm, digest, path)


def of_template(name, payload):
    """A genuine entry of this template, whose payload is any bytes."""
    return Entry(10, SHA1.hash(payload), name, payload)


UNKNOWN_PAYLOAD = measured(UNKNOWN).payload

# Entries that say of a file that it is known, and others.
PASSED_OVER = {
    "a known digest": measured(KNOWN),
    "a known digest in ima-sig": measured(KNOWN, template=IMA_SIG),
    "a known digest, and an empty path": measured(KNOWN, b""),
    "a known digest, and a path with a space": measured(KNOWN, b"/usr/bin/ls " + UNKNOWN.hex().encode()),
    "a known digest, and a path with a line feed": measured(KNOWN, b'/x\n{"judged":2}'),
    "a known digest, and a path that is not UTF-8": measured(KNOWN, b"/\xff"),
    "a known digest by SHA-512": measured(LONG, algorithm=BY_NAME["sha512"]),
}
SHOWN = {
    "an unknown digest": measured(UNKNOWN),
    "an unknown digest, and a path with lines of JSON": measured(UNKNOWN, b'/x"}\n{"judged":2}\n{"entry":1,"path":"'),
    "an unknown digest, and a path that is not UTF-8": measured(UNKNOWN, b"/\xff\n"),
    "an unknown digest, and a path that a terminal obeys": measured(UNKNOWN, "/\x1b[2J\x7f\u009b\u2028\u202e".encode()),
    "an unknown digest in ima": entry_of(IMA, SHA1, SHA1.hash(b"unknown"), b"/usr/bin/ls"),
    "a known digest by SHA-1": measured(WEAK, algorithm=SHA1),
    "a known digest by SHA-1 in ima": entry_of(IMA, SHA1, WEAK, b"/usr/bin/ls"),
    "a known digest by SHA-1 in ima-sig": measured(WEAK, template=IMA_SIG, algorithm=SHA1),
    "a known digest in register 1": measured(KNOWN)._replace(register=1),
    "a known digest in register 11": measured(KNOWN)._replace(register=11),
    "a known digest in an entry that is not genuine": measured(UNKNOWN)._replace(payload=measured(KNOWN).payload),
    "a violation that states a known digest": measured(KNOWN)._replace(template_digest=VIOLATION),
    "a violation without fields": of_template(b"x", b"/usr/bin/ls")._replace(template_digest=VIOLATION),
    "a violation with a path that is not UTF-8": measured(KNOWN, b"/\xff")._replace(template_digest=VIOLATION),
    "a renamed template": of_template(b"ima-xg", UNKNOWN_PAYLOAD),
    "a renamed template, and a known digest": of_template(b"ima-xg", measured(KNOWN).payload),
    "a template without a name": of_template(b"", UNKNOWN_PAYLOAD),
    "a template whose name is not UTF-8": of_template(b"ima-ng\xff", UNKNOWN_PAYLOAD),
    "a template whose name has a NUL": of_template(b"ima-ng\0", UNKNOWN_PAYLOAD),
    "a known digest in a template's name": of_template(SAYS_KNOWN + b" /usr/bin/ls", UNKNOWN_PAYLOAD),
    "a template's name of two lines": of_template(SAYS_KNOWN + b'\n{"judged":2}\n', UNKNOWN_PAYLOAD),
    "a payload without fields": of_template(IMA_NG, b"/usr/bin/ls"),
    "an empty payload": of_template(IMA_NG, b""),
}


def makes_known(number, entry):
    """Whether the digest of an entry is confirmed, that of a file, and one that no two files can be made to have."""
    is_confirmed = number > 0 and entry.is_genuine and not entry.is_violation and entry.register == 10
    return bool(is_confirmed and entry.fields() and entry.fields().algorithm is not SHA1)


def of_list(*entries):
    return {"ima.list": list_spelling(entries)}


def of_verdict(log, entries):
    """A log, a list, and the values that both give the registers, but for entries that are not genuine."""
    now = log.registers()
    replay(now, [entry for entry in entries if entry.is_genuine])
    values = "".join(f"sha256 {register} {now.value(SHA256, register).hex()}\n" for register in range(11))
    return {"firmware.log": log.spelling(), "expected.txt": values.encode()} | of_list(*entries)


def damaged_lists():
    whole = list_spelling([FIRST, measured(KNOWN)])
    yield from (("a list that is cut short", {"ima.list": whole[:-1]}), ("a list cut after its first bytes", {"ima.list": whole[:3]}))
    yield from (("a list with register 24", {"ima.list": whole + b"\x18\0\0\0"}), ("no list", {}))


DYING = "\nkill -9 $$"
FOREIGN = " | sed 's/.*/{}/'"


def pattern_of(lines):
    """What an example shows: `...` is any part of a line, or any lines where it is one."""
    return "".join(r"(?:.*\n)*" if line == "..." else ".*".join(map(re.escape, line.split("..."))) + r"\n" for line in lines.splitlines())


def printed_by(commands, folder):
    """What each command prints, where one shell runs all."""
    end = "end of an example"
    script = "".join(f"{command}\nprintf '%s\\n' '{end}'\n" for command in commands)
    done = subprocess.run(["bash", "-c", script], cwd=folder, env={**os.environ, "PATH": f"{folder}:{os.environ['PATH']}"},
                          stdin=subprocess.DEVNULL, stdout=subprocess.PIPE, timeout=120)
    return done.stdout.decode().split(f"{end}\n")


def lay_out(folder):
    """Makes a folder with the program, also in the place of `./try`, the samples, and what a reader of attest.md has of the sample boot."""
    for name in ("ima-agent", "try"):
        folder.joinpath(name).symlink_to(PROGRAM)
    folder.joinpath("samples").symlink_to(ROOT / "samples")
    for sample in SAMPLE.iterdir():
        shutil.copy(sample, folder)


class Recipes(harness.TestCase):
    """Runs recipes in a folder with what a machine sent. What the verifier keeps, and what is installed, are elsewhere."""

    def setUp(self):
        self.needs("bash", "jq")
        top = self.folder()
        self.sent, self.kept, self.installed = top / "sent", top / "kept", top / "bin"
        self.blocks = [block for page in PAGES for block in BLOCK.findall((ROOT / page).read_text())]
        for made in (self.sent, self.kept, self.installed):
            made.mkdir()

    def block(self, mark):
        [block] = [block for block in self.blocks if mark in block]
        return block

    def put(self, files):
        """These files alone, those of `kept/` where the verifier keeps them, beside what a machine left to be taken for another's."""
        for path in (*self.sent.iterdir(), *self.kept.iterdir()):
            path.unlink()
        left = {"ima-agent": b"#!/bin/sh\nexit 0\n", "known.txt": b"%s  /usr/bin/ls\n" % UNKNOWN.hex().encode()}
        for name, data in (left | files).items():
            if data is None:
                continue
            path = self.kept / name[5:] if name.startswith("kept/") else self.sent / name
            path.write_bytes(data)
        self.sent.joinpath("ima-agent").chmod(0o755)

    def ran(self, mark, files, agent="", **settings):
        """The status and the output of the recipe with this mark, of these files; `agent` is what the program's output passes through,
        `settings` what the environment has beside the caller's."""
        block = self.block(mark)
        self.put(files)
        script = self.installed / "ima-agent"
        script.write_text(f'#!/bin/sh\n"{PROGRAM}" "$@"{agent}\n')
        script.chmod(0o755)
        own = {"PATH": f"{self.installed}:{os.environ['PATH']}", "known": str(self.kept / "known.txt"), "before": str(self.kept)}
        done = subprocess.run(["bash", "-c", block], cwd=self.sent, env={**os.environ, **own, **settings}, stdin=subprocess.DEVNULL,
                              capture_output=True, timeout=60)
        return done.returncode, done.stdout

    def fails(self, mark, files, agent="", **settings):
        """Whether the recipe fails, and with another status than those of answers (4: no entry, of jq)."""
        return self.ran(mark, files, agent, **settings)[0] not in (0, 1, 4)

    def compared(self, sums, *entries, **how):
        """The status of the recipe on the sample's log, these entries and these sums, and what it says of entries, where all registers have the
        values of log and list; or else the line of a fault."""
        first = entry_of(IMA_NG, SHA256, LOG.registers().boot_aggregate(SHA256), b"boot_aggregate")
        entries = [first if entry is FIRST else entry for entry in entries]
        status, output = self.ran(JUDGE, of_verdict(LOG, entries) | {"kept/known.txt": sums}, **how)
        return status, [line for line in output.decode().splitlines() if "unknown" in line or "known_from" in line or "refused" in line]

    def test_judged(self):
        """the recipe for known digests"""
        passed, differs = (0, ["known_from 0"]), (1, ["known_from 0", "unknown entry 1"])
        for what, entry in PASSED_OVER.items():
            self.check(what, self.compared(SUMS, FIRST, entry), passed)
        for what, entry in SHOWN.items():
            wanted = differs if entry.is_genuine else (2, ["refused: replay fault 1 at entry 1"])
            self.check(what, self.compared(SUMS, FIRST, entry), wanted)
        known = measured(KNOWN)
        self.check("a known digest as the first entry", self.compared(SUMS, known, known)[1], ["known_from 0"])
        self.check("an unknown digest as the first entry", self.compared(SUMS, measured(UNKNOWN), known)[1], ["known_from 0", "unknown entry 0"])
        self.check("two that are unknown", self.compared(SUMS, FIRST, *[measured(UNKNOWN)] * 2), (1, ["known_from 0", "unknown entry 1", "unknown entry 2"]))
        for what, text, wanted in (
            ("no sums", b"", differs), ("sums that are not UTF-8", b"%s  \xff\n" % UNKNOWN.hex().encode() + SUMS, passed),
            ("sums of white space", b" \n\n  \n", (2, ["refused: known fault 2 at line 1"])),
            ("a sum without a name", KNOWN.hex().encode(), (2, ["refused: known fault 2 at line 1"])),
            ("a part of a sum", SUMS[1:], (2, ["refused: known fault 2 at line 1"])),
            ("a known digest as a name", b"0  %s\n" % KNOWN.hex().encode(), (2, ["refused: known fault 2 at line 1"])),
            ("a sum by SHA-1", SUMS + b"%s  /usr/bin/ls\n" % WEAK.hex().encode(), (2, ["refused: known fault 1 at line 3"])),
        ):
            self.check(what, self.compared(text, FIRST, known), wanted)
        self.check("an empty list", self.compared(SUMS), (1, ["known_from 0"]))
        whole = of_verdict(LOG, [FIRST, known])
        for what, files in damaged_lists():
            self.check(what, self.fails(JUDGE, whole | {"ima.list": None} | files | {"kept/known.txt": SUMS}))
        self.check("no file of sums", self.fails(JUDGE, whole))
        self.check("no name of sums", self.fails(JUDGE, whole | {"kept/known.txt": SUMS}, known=""))
        self.check("a program that dies", self.fails(JUDGE, whole | {"kept/known.txt": SUMS}, DYING))

    def test_taken(self):
        """the digests of an earlier boot"""
        entries = [FIRST, *PASSED_OVER.values(), *SHOWN.values()]
        whole = {"confirmed": str(len(entries))}
        known = [entry.as_json(0) for number, entry in enumerate(entries) if makes_known(number, entry)]
        is_done = self.ran(TAKE, {"kept/ima.list": list_spelling(entries)}, **whole) == (0, b"")
        sums = (self.kept / "known.txt").read_bytes()
        *lines, end = [line.split("  ", 1) for line in sums.decode().split("\n")]
        found = [[digest, json.loads(f'"{path}"')] for digest, path in lines]
        wanted = [[line["digest"], line.get("path", line.get("path_hex"))] for line in known]
        self.check("an earlier list", is_done and end == [""] and found == wanted)
        genuine = [entry for entry in entries if entry.is_genuine]
        rest = [f"unknown entry {number}" for number, entry in enumerate(genuine) if number and not makes_known(number, entry)]
        self.check("what an earlier list makes known", self.compared(sums, *genuine), (1, ["known_from 0", *rest]))
        for what, files in damaged_lists():
            self.check(what, self.fails(TAKE, {"kept/ima.list": data for data in files.values()}, **whole))
        for what, agent in (("that dies", DYING), ("with other JSON", FOREIGN)):
            self.check(f"a program {what}", self.fails(TAKE, {"kept/ima.list": list_spelling(entries)}, agent, **whole))
        grown = {"kept/ima.list": list_spelling([FIRST, measured(KNOWN), measured(UNKNOWN)])}
        for what, confirmed, wanted in (
            ("an entry after the confirmed prefix", "2", [KNOWN.hex()]), ("a prefix of one entry", "1", []), ("a prefix of none", "0", []),
            ("no verdict with a prefix", "null", []), ("the whole list", "3", [KNOWN.hex(), UNKNOWN.hex()]),
        ):
            is_done = self.ran(TAKE, grown, confirmed=confirmed) == (0, b"")
            sums = (self.kept / "known.txt").read_text()
            self.check(what, is_done and [line.split("  ")[0] for line in sums.splitlines()] == wanted)
        for what, confirmed in (("no prefix", ""), ("a line of a report", "confirmed 2 of 3 entries"), ("words", "2 of 3")):
            is_refused = self.fails(TAKE, grown, confirmed=confirmed)
            self.check(what, is_refused and not (self.kept / "known.txt").read_bytes())

    def judged(self, log, entries):
        """What the verdict of attest.md on a log and entries says of registers that are not theirs, where all registers have their values."""
        first = entry_of(IMA_NG, SHA256, log.registers().boot_aggregate(SHA256), b"boot_aggregate")
        entries = [first if entry is FIRST else entry for entry in entries]
        status, output = self.ran(JUDGED, of_verdict(log, entries))
        return status, [line for line in output.decode().splitlines() if "extends" in line or "refused" in line]

    def test_extended(self):
        """whether log and list keep to their own registers"""
        event, entries, count = LOG.events[0]._replace(register=10, type=6), [FIRST, measured(KNOWN)], len(LOG.events)
        for what, events, wanted in (
            ("no such event", LOG.events, (0, [])), ("such an event", [*LOG.events, event], (1, [f"event {count + 1} extends 10"])),
            ("two", [*LOG.events, event, event], (1, [f"event {count + 1} extends 10"])),
            ("one before the others", [event, *LOG.events], (1, ["event 1 extends 10"])),
            ("an event that extends nothing", [*LOG.events, event._replace(type=EV_NO_ACTION)], (0, [])),
            ("an event of register 1, with a line as data", [*LOG.events, event._replace(register=1, data=b"\n1 10 x\n")], (0, [])),
        ):
            self.check(what, self.judged(LOG._replace(events=events), entries), wanted)
        other = measured(KNOWN)._replace(register=9)
        for what, wanted, *listed in (
            ("an entry of register 9", (1, ["entry 1 extends 9"]), FIRST, other),
            ("a first entry of another", (1, ["entry 0 extends 9"]), other, FIRST),
            ("one between others", (1, ["entry 1 extends 9"]), FIRST, other, FIRST),
            ("an entry of register 0", (1, ["entry 1 extends 0"]), FIRST, other._replace(register=0)),
            ("of register 11", (1, ["entry 1 extends 11"]), FIRST, other._replace(register=11)),
            ("a violation of register 9", (1, ["entry 1 extends 9"]), FIRST, other._replace(template_digest=VIOLATION)),
            ("no entry", (1, [])),
            ("an entry of register 9 that is not genuine", (2, ["refused: replay fault 1 at entry 1"]), FIRST, other._replace(payload=UNKNOWN_PAYLOAD)),
            ("an entry that says 10 in its path", (1, ["entry 1 extends 9"]), FIRST, measured(KNOWN, b'/x","register":10}')._replace(register=9)),
        ):
            self.check(what, self.judged(LOG, listed), wanted)
        whole = {"firmware.log": LOG.spelling(), "expected.txt": b"sha256 10 %s\n" % (b"00" * 32)}
        for what, files in damaged_lists():
            self.check(what, self.fails(JUDGED, whole | files))
        for what, data in (("no log", None), ("an empty log", b""), ("a cut log", LOG.spelling()[:-1]),
                           ("a log cut after its header", LOG.spelling()[:40]), ("another file", b"10 10 10\n")):
            left = {name: data for name, data in (whole | {"firmware.log": data}).items() if data is not None}
            self.check(what, self.fails(JUDGED, left | of_list(*entries)))
        self.check("a program that dies", self.fails(JUDGED, whole | of_list(*entries), DYING))

    def test_sample(self):
        """the blocks of one command, on the sample boot"""
        whole = {path.name: path.read_bytes() for path in SAMPLE.iterdir()}
        lines = whole["expected.txt"].splitlines(keepends=True)
        grown = {"ima.list": whole["ima.list"] + measured(KNOWN).spelling()}
        for mark, last, expected in ((ALONE, b"verdict match\n", lines[10]), (LOCATED, b"\nlocated\n", whole["expected.txt"])):
            files = whole | {"expected.txt": expected}
            status, output = self.ran(mark, files)
            self.check(f"{mark}: the sample", (status, output.endswith(last)), (0, True))
            self.check(f"{mark}: another value", self.ran(mark, files | {"expected.txt": b"sha256 10 %s\n" % (b"0" * 64)})[0], 1)
            for what, changed in damaged_lists():
                self.check(f"{mark}: {what}", self.fails(mark, files | {"ima.list": None} | changed))
            self.check(f"{mark}: a program that dies", self.fails(mark, files, DYING))
            self.check(f"{mark}: a list that grew", self.ran(mark, files | grown)[0], int(mark == ALONE))
        printed = whole["tpm2_pcrread.txt"]
        status, output = self.ran(CONVERTED, {"pcrread.txt": printed})
        self.check(f"{CONVERTED}: PCRs 0 to 10", (status, output, (self.sent / "expected.txt").read_bytes()), (0, b"", b"".join(lines[:11])))
        for what, text in (("an empty file", b""), ("a cut line", printed[:-20]), ("no file", None)):
            self.check(f"{CONVERTED}: {what}", self.fails(CONVERTED, {"pcrread.txt": text}))
        self.check(f"{CONVERTED}: a program that dies", self.fails(CONVERTED, {"pcrread.txt": printed}, DYING))

    def test_measures(self):
        """the list of a file tree, here of a folder with two files"""
        log = {"firmware.log": LOG.spelling()}
        block = self.block(MEASURED)
        tree = self.folder()
        self.blocks[self.blocks.index(block)] = block.replace("/usr/bin", str(tree))
        aggregate = entry_of(IMA_NG, SHA256, LOG.registers().boot_aggregate(SHA256), b"boot_aggregate").line()
        lines = {aggregate}
        for name in ("one", "two"):
            (tree / name).write_text(name)
            lines.add(entry_of(IMA_NG, SHA256, SHA256.hash(name.encode()), f"{tree}/{name}".encode()).line())
        self.check("two files", self.ran(MEASURED, log), (0, aggregate))
        found = (self.sent / "measured.txt").read_bytes().splitlines(keepends=True)
        self.check("the list of two files", found[:1] == [aggregate] and len(found) == 3 and set(found) == lines)
        for what, files in (("no log", {}), ("an empty log", {"firmware.log": b""}), ("a cut log", {"firmware.log": LOG.spelling()[:-1]})):
            self.check(what, self.fails(MEASURED, files))
        self.check("a program that dies", self.fails(MEASURED, log, DYING))

    def test_compared(self):
        """the events of two boots"""
        whole, more = LOG.spelling(), LOG._replace(events=[LOG.events[0], *LOG.events]).spelling()
        lines = [f"> {json.dumps({k: v for k, v in LOG.events[0].as_json(1).items() if k != 'event'}, separators=(',', ':'))}"]
        self.check("the same events", self.ran(EVENTS, {"kept/firmware.log": whole, "firmware.log": whole}), (0, b""))
        status, output = self.ran(EVENTS, {"kept/firmware.log": whole, "firmware.log": more})
        self.check("one event more", status == 1 and [line for line in output.decode().splitlines() if line[0] in "<>"] == lines)
        status, output = self.ran(EVENTS, {"kept/firmware.log": more, "firmware.log": whole})
        self.check("one event less", status == 1 and output.count(b"\n< ") == 1)
        for what, before, after in (
            ("a cut log", whole, whole[:-1]), ("a cut log before", whole[:-1], whole), ("two cut logs", whole[:-1], whole[:-1]),
            ("two empty logs", b"", b""), ("no log", whole, None), ("no log before", None, whole),
        ):
            logs = {"kept/firmware.log": before, "firmware.log": after}
            files = {name: data for name, data in logs.items() if data is not None}
            self.check(what, self.fails(EVENTS, files))
            self.check(f"{what}, and events that a machine sent", self.fails(EVENTS, files | {"before.events": b"", "firmware.events": b""}))
        self.check("a program that dies", self.fails(EVENTS, {"kept/firmware.log": whole, "firmware.log": whole}, DYING))

    def test_records(self):
        """the events as a TCG Canonical Event Log (CEL 1.0, JSON), and as records of systemd-pcrlock(8)"""
        two_banks = read_log((ROOT / "samples/ovmf-boot/secure-boot.log").read_bytes())
        silent = LOG.events[0]._replace(type=EV_NO_ACTION, register=77)
        for what, log in (("the sample", LOG), ("two banks", two_banks), ("no event", LOG._replace(events=[])),
                          ("an event that extends nothing", LOG._replace(events=[LOG.events[0], silent, *LOG.events[1:]]))):
            extended = [event for event in log.events if event.is_extended]
            records = [{"pcr": event.register, "digests": [{"hashAlg": it.name, "digest": event.digest_of(it).hex()} for it in ALGORITHMS
                                                           if it.identifier in event.digests]} for event in extended]
            contents = [{"event_type": event.type, "event_data": event.data.hex()} for event in extended]
            logged = [{"recnum": number, **record, "content_type": "pcclient_std", "content": content}
                      for number, (record, content) in enumerate(zip(records, contents))]
            done = self.ran(RECORDS, {"firmware.log": log.spelling()})
            made = [json.loads((self.sent / f"firmware.{name}").read_text()) for name in ("cel", "pcrlock")]
            self.check(what, (done, made), ((0, b""), [logged, {"records": records}]))
        left = {"events.json": b"{}\n{}\n", "firmware.cel": b"[]", "firmware.pcrlock": b"{}"}
        for what, data in (("a cut log", LOG.spelling()[:-1]), ("an empty log", b""), ("no log", None)):
            files = {} if data is None else {"firmware.log": data}
            self.check(what, self.fails(RECORDS, files))
            self.check(f"{what}, and files that a machine sent", self.fails(RECORDS, files | left))
        self.check("a program that dies", self.fails(RECORDS, {"firmware.log": LOG.spelling()}, DYING))

    def test_aggregated(self):
        """whether the first entry of a list of another template states the boot aggregate of a log"""
        log, stated = {"firmware.log": LOG.spelling()}, LOG.registers().boot_aggregate(SHA256)
        path, wrong = with_length(b"boot_aggregate\0"), bytes([stated[0] ^ 1]) + stated[1:]
        good = of_template(b"ima-modsig", with_length(b"sha256:\0" + stated) + path + with_length(b""))
        for what, entry, is_good in (
            ("of ima-modsig", good, True),
            ("of ima-sigv2", of_template(b"ima-sigv2", with_length(b"ima:sha256:\0" + stated) + path + with_length(b"")), True),
            ("of other registers", of_template(b"ima-modsig", with_length(b"sha256:\0" + wrong) + path), False),
            ("of another path", of_template(b"ima-modsig", with_length(b"sha256:\0" + stated) + with_length(b"/boot_aggregate\0")), False),
            ("of fs-verity", of_template(b"ima-sigv2", with_length(b"verity:sha256:\0" + stated) + path), False),
            ("a violation", good._replace(template_digest=VIOLATION), False),
            ("not genuine", good._replace(template_digest=SHA1.hash(b"")), False),
            ("of register 11", good._replace(register=11), False),
        ):
            wanted = (0, b"true\n") if is_good else (1, b"false\n")
            self.check(f"a boot aggregate {what}", self.ran(AGGREGATE, of_list(entry, FIRST) | log), wanted)
        self.check("a boot aggregate as the second entry", self.ran(AGGREGATE, of_list(FIRST, good) | log), (1, b"false\n"))
        self.check("an empty list", self.ran(AGGREGATE, of_list() | log), (1, b"false\n"))
        for what, files in damaged_lists():
            self.check(what, self.fails(AGGREGATE, files | log))
        for what, data in (("a cut log", {"firmware.log": log["firmware.log"][:-1]}), ("no log", {})):
            self.check(what, self.fails(AGGREGATE, of_list(good) | data))
        self.check("a program that dies", self.fails(AGGREGATE, of_list(good) | log, DYING))

    def test_quick_start(self):
        """the commands of README's quick start"""
        blocks = BLOCK.findall((ROOT / "README.md").read_text())
        self.check("README has some", len(blocks) > 2)
        for block in blocks:
            self.check(f"attest.md has it, where tests run it: {block.strip()}", block in self.blocks)

    def test_examples(self):
        """an example of a page"""
        for page in ("README.md", *PAGES):
            blocks = [re.sub("^    ", "", block, flags=re.MULTILINE) for block in EXAMPLES.findall((ROOT / page).read_text())]
            folder, found = self.folder(), EXAMPLE.findall("".join(blocks))
            lay_out(folder)
            printed = printed_by([command for command, _ in found], folder)
            self.check(f"each of {page} is run", len(printed) == len(found) + 1 and len(found) > 3)
            for (command, lines), output in zip(found, printed):
                is_right = not lines or re.fullmatch(pattern_of(lines), output)
                self.check(command, None if is_right else f"printed {output!r}", None)


if __name__ == "__main__":
    sys.exit(harness.main())
