"""Tests of `ima-report`, for tests/fleet/test: the page of a boot has the program's verdict and status, and what the program says.

The program is the one that is built, or `tests/reference/` in its place."""

import hashlib
import os
import re
import resource
import shutil
import signal
import struct
import subprocess
import sys
import time
from collections import Counter
from concurrent.futures import ThreadPoolExecutor
from contextlib import suppress
from pathlib import Path

import inputs
import tables
from cluster import ROOT, SECONDS, until
from harness import PROGRAM
from page_tree import Reader, folded, foreign, hostile_texts, lacks_jinja, rows_below, state_of, tables_below
from reference.event_data import command_in, variable_in
from reference.log import Event, read_log
from reference.measurement_list import IMA_NG, Entry, entry_of, list_spelling, read_list
from reference.registers import SHA1, SHA256, register_words, reset_value
from report_parts import test_comparison, test_guidance, test_words

SAMPLES = ROOT / "samples"
REAL, QUOTED = SAMPLES / "real-boot", SAMPLES / "quoted"
FILES = ("firmware.log", "ima.list", "expected.txt")
EV_ACTION, EV_EFI_VARIABLE_BOOT = 5, 0x80000002
# Takes ten lines of 3 MB, of which the last two are notable. Prints which are kept, and how many there were.
BOUNDS = """
import json
from fleet_verify.program import Output
output = Output(10, lambda line: line["number"] > 7)
for number in range(10):
    output.take(json.dumps({"number": number, "text": "x" * 3_000_000}).encode() + bytes([10]))
print([line["number"] for line in output.lines], output.total)
"""
BOUNDS_WANTED = "[0, 1, 2, 3, 4, 8, 9] 10"
# Prints how much is kept of what a program says on standard error, and of a line that is none.
SAID = """
from pathlib import Path
from fleet_verify.program import Output, ask
for command in ("printf %05000d 0 >&2; exit 3", "printf %05000d 0"):
    reply = ask(["sh", "-c", command], Path("."), 60, Output())
    print(reply.status, len(reply.said), reply.fault.count("0" * 2000), reply.fault.count("0" * 2001))
"""
SAID_WANTED = ["3 2000 1 0", "3 0 1 0"]
# Prints how much of a list is said to be covered.
COVERED = """
from fleet_verify.boot import covered
for count, total in ((0, 1), (1, 1), (0, 2), (1, 2), (2, 2), (2, 99), (98, 99)):
    print(covered(count, total))
"""
COVERED_WANTED = [
    "none of 1 entries", "the only entry", "none of 2 entries", "the first of 2 entries", "all 2 entries", "the first 2 of 99 entries",
    "the first 98 of 99 entries",
]
# Prints of texts whether they are folded, how much of them a page has, and whether they are cut.
FOLDS = """
from fleet_verify.rendering import _environment
text = _environment().get_template("parts.html").module.text
for size in (400, 401, 16384, 16385):
    shown = str(text(size * "n"))
    print(size, "<details>" in shown, shown.rpartition(">n")[2].count("n") + 1, "cut here" in shown)
"""
FOLDS_WANTED = ["400 False 400 False", "401 True 401 False", "16384 True 16384 False", "16385 True 16384 True"]
# Reads names from a certificate of a log of which each byte in turn is another, or which is cut there, and then says that it is done.
DAMAGED = """
import sys
from pathlib import Path
from fleet_verify.certificates import names_in, with_names
log = Path(sys.argv[1]).read_bytes()
place = log.index(b"\\x30\\x82")
whole = log[place : place + 4 + int.from_bytes(log[place + 2 : place + 4], "big")]
assert isinstance(names_in(whole), (dict, str))
for place in range(len(whole)):
    for damaged in (whole[:place], whole[:place] + bytes([whole[place] ^ 0x81]) + whole[place + 1 :]):
        names_in(damaged)
        with_names({"variable": {"value": damaged.hex(), "lists": []}})
print("done")
"""
# Have a process be slow where it starts a program, and where it begins to watch its time.
LINGERING = {
    ", as the program starts": """
import subprocess, time
execute = subprocess.Popen._execute_child
subprocess.Popen._execute_child = lambda *words: (execute(*words), time.sleep(2))
""",
    ", as its time begins": """
import threading, time
start = threading.Timer.start
threading.Timer.start = lambda watch: (start(watch), time.sleep(5))
""",
}
# Register 10 of samples/real-boot, and after its longer list.
TEN = "e8ed95b94e8d66f42e5b9be4d794dc0c7701e2360f03537fe59e9ba861a8024f"
LONGER = "a2bcf779880ae33077f9e7992851299f30cea5f6cffc6512de6cd10aa457a7f3"


def is_built():
    """Whether the program is there, which says in words what the reference does not."""
    return Path(os.environ.get("IMA_AGENT", PROGRAM)).exists()


def program_of(tools):
    """The folder with `ima-agent`, which is the program that is built, or the reference in its place."""
    folder = tools.folder / "program"
    folder.mkdir(exist_ok=True)
    built = Path(os.environ.get("IMA_AGENT", PROGRAM))
    reference = f'PYTHONDONTWRITEBYTECODE=1 PYTHONPATH={ROOT / "tests"} exec {sys.executable} -m reference "$@"'
    write_program(folder / "ima-agent", f'exec {built} "$@"' if is_built() else reference)
    return folder


def write_program(path, commands):
    path.write_text(f"#!/bin/sh\n{commands}\n")
    path.chmod(0o755)
    return path


def report_text(tools, folder, *words):
    """The status of `ima-report`, its output, and what it told."""
    return called(tools, "--program", tools.folder / "program/ima-agent", *words, folder)


def called(tools, *words, cwd=None, **environment):
    """The same with these arguments alone, in this folder, where the environment is changed so."""
    ended = subprocess.run(
        [tools.python, ROOT / "fleet/report.py", *map(str, words)], env={**tools.environment, **environment}, cwd=cwd or tools.folder,
        capture_output=True, timeout=SECONDS,
    )
    return ended.returncode, ended.stdout.decode(), ended.stderr.decode()


def report_of(tools, folder, *words):
    """The same with the page as a tree."""
    status, text, errors = report_text(tools, folder, *words)
    return status, read(text), errors


def read(text):
    """A page as a tree. No page has anything foreign, whatever is on it, nor an exception of Python."""
    page = Reader(text).top
    assert not text or (foreign(page) == [] and "[Errno" not in text and "Error:" not in text), foreign(page)
    return page


def texts_of(tools, calls):
    """What `report_text` gives for each of these calls, several at once."""
    with ThreadPoolExecutor(max_workers=4) as pool:
        return list(pool.map(lambda call: report_text(tools, *call), calls))


def reports_of(tools, calls):
    """The same with the pages as trees."""
    return [(status, read(text), errors) for status, text, errors in texts_of(tools, calls)]


OTHER_VALUE = "log and list make a value other than the expected one"
WRONG_AGGREGATE = "The boot aggregate is wrong: log and list are from different boots, or one of them was changed."
# How a head looks: a match that is signed, one that is not, and no match.
SIGNED, UNSIGNED, BAD = "state match", "state unquoted", "state"
NOBODY = "not quoted: nobody signed the PCRs"


def judged(page):
    """The verdict in the page's head, and how that looks. A match that nobody signed, or not of the whole list, is called so there and in the title,
    and no other verdict is."""
    text, is_good = state_of(page)
    (look,) = [each.attributes["class"] for each in page.all("div") if each.attributes.get("class", "").split()[:1] == ["state"]]
    verdict = re.search(r"Verdict: (\w+)", text)[1]
    is_unsigned = verdict == "match" and "Not quoted: nobody signed the expected PCRs." in text
    is_part, title = verdict == "match" and "Nothing confirms what follows." in text, next(page.all("title")).text
    looks = (BAD, UNSIGNED if is_unsigned or is_part else SIGNED)
    begins = f"{verdict}{', not quoted' if is_unsigned else ''}{', not the whole list' if is_part else ''}: "
    found = (NOBODY in text, "not the whole list" in text, title.startswith(begins), is_good, look in looks)
    assert found == (is_unsigned, is_part, True, look != BAD, True), (verdict, look, found)
    plain = ["unsigned"] if "Not quoted: nobody signed the expected PCRs." in text else [""]
    assert [each.attributes.get("class", "") for each in page.all("main")] == plain, plain
    return verdict, look


def pcr_rows(page, title="PCRs"):
    """The rows on PCRs, those at reset last, each with its PCR as a number: its name is that of the reference."""
    rows = [row for table in tables_below(page, title) for row in table]
    numbers = [row[1].partition(" ")[0] for row in rows]
    assert [row[1] for row in rows] == [register_words(int(number)) for number in numbers], rows
    return [[row[0], number, *row[2:]] for row, number in zip(rows, numbers)]


def make_boot(folder, **changes):
    """A folder with the files of samples/real-boot, some of them changed, or left out if they are None."""
    folder.mkdir()
    for file in FILES:
        data = changes.get(file.partition(".")[0], (REAL / file).read_bytes())
        if data is not None:
            (folder / file).write_bytes(data)
    return folder


def make_quoted(folder, **changes):
    """The same with the files of samples/quoted."""
    make_boot(folder, **changes)
    for file in ("quote.msg", "quote.sig"):
        shutil.copy(QUOTED / file, folder)
    return folder


def quoted_by_nonce():
    """The arguments by which a boot is judged by the quote of samples/quoted."""
    return ("--key", QUOTED / "AK.pem", "--nonce", (QUOTED / "nonce").read_text().strip())


def test_report(tools):
    """The page of a boot has the program's verdict and status, and what the program says."""
    lacks_jinja(tools)
    tools.needs("bash")
    test_guidance(tools)
    test_words(tools)
    test_comparison(tools)
    program_of(tools)
    folder = tools.folder / "boots"
    folder.mkdir()
    test_whole_report(tools, folder)
    test_report_states(tools, folder)
    test_report_by_quote(tools, folder)
    test_unknown_entries(tools, folder)
    test_broken_list(tools, folder)
    test_prefixes(tools, folder)
    test_differences(tools, folder)
    test_other_templates(tools, folder)
    test_own_links(tools, folder)
    test_own_unread(tools, folder)
    test_heads(tools, folder)
    test_full_disk(tools, folder)
    test_failing_program(tools, folder)
    test_planted_program(tools, folder)
    test_planted_modules(tools, folder)
    test_stopped_report(tools, folder)
    test_sent_files(tools, folder)
    test_exchanged_file(tools, folder)
    test_hostile_boot(tools, folder)


def test_whole_report(tools, folder):
    """All parts of the page of a boot that matches, with unknown entries in another."""
    boot = make_boot(folder / "whole")
    status, page, errors = report_of(tools, boot)
    tools.check("a boot that matches", (status, judged(page), errors), (0, ("match", UNSIGNED), ""))
    found = (next(page.all("h1")).text, "Required: sha256:0-10." in state_of(page)[0])
    tools.check("a boot: the title, and what is required, by default", found, (f"Boot: {boot}", True))
    log, measurements = read_log((boot / "firmware.log").read_bytes()), read_list((boot / "ima.list").read_bytes())
    rows, values = pcr_rows(page), [line.split() for line in (boot / "expected.txt").read_text().splitlines()]
    tools.check("its registers, with their values", sorted(([*row[:2], row[3]] for row in rows), key=lambda row: int(row[1])), values)
    test_resting(tools, page, rows)
    places = {int(row[1]): row[4] for row in rows}
    last = max(number for number, event in enumerate(log.events, 1) if event.register == 0 and event.type != inputs.EV_NO_ACTION)
    wanted = (f"after event {last}", "at reset", f"after all {len(measurements)} entries")
    tools.check("where their values are reached", (places[0], places[8], places[10]), wanted)
    events = rows_below(page, "Events of the firmware log")
    tools.check("its events", [row[:2] for row in events], [[str(number), register_words(event.register)] for number, event in enumerate(log.events, 1)])
    first = next(row for row in events if "SecureBoot" in row[4])
    tools.check("what an event says, and what of it is confirmed", ("confirmed data" in first[3], "flag0" in first[4]), (True, True))
    tools.check("what is only claimed", {row[3] for row in events if row[2] == "EV_EFI_BOOT_SERVICES_APPLICATION"}, {"claimed"})
    answers = rows_below(page, "What the machine booted")
    booted = {row[0]: row[1:3] for row in answers}
    tools.check("what it booted", (booted["secure boot"][0], booted["ima policy"]), ("off", ["unknown", ""]))
    tools.check("an image's path is claimed", "kernel" in booted["image"][1] and "kernel" not in booted["image"][0], True)
    entries = rows_below(page, "Entries of the measurement list")
    tools.check("its entries", [row[0] for row in entries], [str(number) for number in range(len(measurements))])
    tools.check("an entry", entries[1][2:], ["confirmed", "/init", f"sha256 {measurements[1].payload[12:44].hex()}", "ima-ng"])
    tools.check("its violations", [row[0] for row in entries if "violation" in row[2]], ["93", "94", "97"])
    tools.check("a boot: nothing foreign", foreign(page), [])
    test_unknown_first(tools, folder, boot)
    test_most(tools, boot, len(answers), len(log.events))


def test_unknown_first(tools, folder, boot):
    """Unknown entries come first, and are shown besides the first entries of a list."""
    status, page, _ = report_of(tools, boot, "--known", SAMPLES / "known/SHA256SUMS", "--most", 50)
    rows = rows_below(page, "Entries of the measurement list")
    unknown = [row[0] for row in rows if "unknown" in row[2]]
    tools.check("unknown entries", (status, judged(page), unknown), (1, ("differ", BAD), ["93", "94", "97"]))
    first, *_ = [each.text for each in page.all("h2")]
    tools.check("unknown entries come first", (first, rows_below(page, first)), ("Unknown files", [row for row in rows if "unknown" in row[2]]))
    test_two_known(tools, folder, boot)
    test_notable(tools, folder, boot)
    tools.check("unknown entries are shown besides the first ones", [row[0] for row in rows[48:]], ["48", "49", "93", "94", "97"])
    tools.check("how many are not shown", any("46 more entries are not shown" in each.text for each in page.all("p")), True)


def test_most(tools, boot, answers, events):
    """So many rows each part of a page has at most, and it says how many more there are."""
    _, page, _ = report_of(tools, boot, "--known", SAMPLES / "known/SHA256SUMS", "--most", 2)
    found = [row[0] for row in rows_below(page, "Unknown files")], [each.text for each in page.all("p") if "more unknown" in each.text]
    tools.check("--most: unknown entries, and how many more there are", found, (["93", "94"], ["1 more unknown entry is not shown."]))
    _, page, _ = report_of(tools, boot, "--most", 5)
    shown = [len(rows_below(page, title)) for title in ("What the machine booted", "Events of the firmware log")]
    told = re.findall(r"(\d+) more (?:lines|events) are not shown", " ".join(each.text for each in page.all("p")))
    tools.check("--most: answers and events, and how many more there are", (shown, told), ([5, 5], [str(answers - 5), str(events - 5)]))


def test_resting(tools, page, rows):
    """PCRs at their reset values come after the others, are folded, do not look like a match, and are said to confirm nothing."""
    resting = [row for row in rows if bytes.fromhex(row[3]) == reset_value(SHA256, int(row[1]), 0)]
    tools.check("PCRs at reset: they come last", rows[-len(resting):], resting)
    called = {row[1]: row[2] for row in rows if "reset" in row[2]}
    tools.check("PCRs at reset: no other is called so", called, {row[1]: "match, at reset" for row in resting})
    (part,) = [each for each in page.all("details") if each.attributes.get("class") == "reset"]
    told = (next(part.all("summary")).text, len(list(part.all("tr"))) - 1, "open" in part.attributes)
    tools.check("PCRs at reset: folded", told, (f"{len(resting)} PCRs at reset confirm nothing", len(resting), False))
    good = [row for row in page.all("tr") if any(each.attributes.get("class") == "good" for each in row.all("span"))]
    tools.check("PCRs at reset: none has the colour of a match", [row for row in good if "at reset" in row.text], [])


def test_notable(tools, folder, boot):
    """Besides the first entries each has a row that is unknown, or a violation, or not of its digest, be it one of these alone."""
    changed = make_boot(folder / "changed beyond", ima=(REAL / "ima.list").read_bytes().replace(b"/bin/helper", b"/bin/helpex"))
    first = [str(number) for number in range(4)]
    cases = (
        ("violations", (boot,), [*first, "93", "94", "97"]),
        ("an entry that is unknown, and violations", (boot, "--known", most_known(folder)), [*first, "7", "93", "94", "97"]),
        ("an entry that was changed, and violations", (changed,), [*first, "5", "93", "94", "97"]),
    )
    for (title, _, wanted), (_, page, _) in zip(cases, reports_of(tools, [(*call, "--most", len(first)) for _, call, _ in cases])):
        rows, kinds = rows_below(page, "Entries of the measurement list"), ("unknown", "violation", "does not match")
        tools.check(f"shown besides the first entries: {title}", [row[0] for row in rows], wanted)
        marked = [row[0] for row in rows if any(kind in row[2] for kind in kinds)]
        tools.check(f"marked besides the first entries: {title}", marked, wanted[len(first):])


def test_two_known(tools, folder, boot):
    """Each of two files of known digests counts. (The first entries are of the first file, and the others of the second.)"""
    lines, paths = (SAMPLES / "known/SHA256SUMS").read_bytes().splitlines(keepends=True), []
    for number, part in enumerate((lines[::2], lines[1::2])):
        paths.append(folder / f"known {number}")
        paths[-1].write_bytes(b"".join(part))
    _, page, _ = report_of(tools, boot, "--known", paths[0], "--known", paths[1], "--title", "a title")
    unknown = [row[0] for row in rows_below(page, "Entries of the measurement list") if "unknown" in row[2]]
    tools.check("unknown entries, by two files", unknown, ["93", "94", "97"])
    files = [row[0] for row in rows_below(page, "The verdict")]
    tools.check("the files that were read", files, [*FILES, "known 0", "known 1"])
    tools.check("the title of a report", [each.text for each in page.all("h1")], ["Boot: a title"])


def test_report_states(tools, folder):
    """The status is the program's, and only a match looks like one."""
    log, measurements, _ = ((REAL / file).read_bytes() for file in FILES)
    hcrtm, older = (dict(zip(("firmware", "ima", "expected"), files)) for files in (tables.files_after_hcrtm(), tables.files_of_an_older_kernel()))
    calls, wanted = [], []
    for title, changes, words, status, verdict, told in (
        ("a longer list", {"ima": measurements + measurements[-95:]}, (), 1, "differ", f"sha256 PCR 10 (ima) differs: {OTHER_VALUE}."),
        ("a longer list, and its prefix", {"ima": measurements + measurements[-95:]}, ("--prefix",), 0, "match", "Verdict"),
        ("an H-CRTM", hcrtm, ("--hcrtm",), 0, "match", "Verdict"),
        ("an H-CRTM that nobody asked for", hcrtm, (), 1, "differ", f"sha256 PCR 0 (platform-code) differs: {OTHER_VALUE}."),
        ("an older kernel", older, ("--old-kernel",), 0, "match", "Verdict"),
        ("an older kernel that nobody asked for", older, (), 1, "differ", WRONG_AGGREGATE),
        ("a register that is missing", {}, ("--require", "sha256:0-10,sha1:10"), 1, "differ", "sha1 PCR 10 (ima) is missing: required, "),
        ("a changed entry", {"ima": measurements.replace(b"/bin/helper", b"/bin/helpex")}, (), 2, "refused", "replay fault 1 at entry 5"),
        ("a log that is cut", {"firmware": log[:-1]}, (), 2, "refused", "log fault 1 at event 24"),
        ("no expected registers", {"expected": b""}, ("--require", "none"), 2, "refused", "Nothing to compare"),
        ("no list", {"ima": None}, (), 3, "failed", "failed: read ima.list"),
        ("no files", {"ima": None, "firmware": None, "expected": None}, (), 3, "failed", "failed: read"),
        ("what is required is wrong", {}, ("--require", "sha256:0-9"), 2, "refused", "refused: command line"),
    ):
        wanted.append((title, told, (status, verdict, UNSIGNED if status == 0 else BAD, True)))
        calls.append((make_boot(folder / title, **changes), *words))
    pages = {}
    for (title, told, right), (status, page, _) in zip(wanted, reports_of(tools, calls)):
        tools.check(f"a boot: {title}", (status, *judged(page), told in state_of(page)[0]), right)
        pages[title] = page
    test_partial(tools, pages)
    os.mkfifo(folder / "no list/ima.list")
    found, page, _ = report_of(tools, folder / "no list")
    told = any("it is no regular file" in cell.text for cell in page.all("td"))
    tools.check("a boot: a pipe in place of the list", (found, judged(page), told), (3, ("failed", BAD), True))
    ten = next(row for row in pcr_rows(report_of(tools, folder / "a longer list")[1]) if row[1] == "10")
    tools.check("a boot: what is expected of a PCR that differs, and its value", ten[2:4], ["differ", TEN + LONGER])
    changed = rows_below(report_of(tools, folder / "a changed entry")[1], "Entries of the measurement list")
    tools.check("a boot: which entry was changed", [row[0] for row in changed if "does not match" in row[2]], ["5"])
    test_unconfirmed_entries(tools, folder)
    test_claims(tools, folder)
    tools.check("a boot: nothing is confirmed where it is refused", [row[0] for row in changed if "confirmed" in row[2]], [])


def test_partial(tools, pages):
    """Of what is not whole a page shows what comes before the error, or what the log makes, and says that nothing confirms it."""
    log, cut = read_log((REAL / "firmware.log").read_bytes()), pages["a log that is cut"]
    events = rows_below(cut, "Events of the firmware log")
    tools.check("a log that is cut: events before the error", [row[0] for row in events], [str(number) for number in range(1, len(log.events))])
    told = "This part is incomplete: it ends with the last event before the error. Nothing confirms what is here."
    found = (told in [each.text for each in cut.all("div")], {row[3] for row in events})
    tools.check("a log that is cut: what is said of them", found, (True, {"claimed"}))
    entries = pages["a changed entry"]
    tools.check("a changed entry: nothing is said to be cut", [each for each in entries.all("div") if "ends with the last entry" in each.text], [])
    made = {(str(row.register), row.value.hex()) for row in inputs.expected_after(log, []) if row.register in {each.register for each in log.events}}
    told = "There is no verdict. These are the PCRs that the log makes: nothing is compared, and nothing confirms them."
    for title in ("no list", "no expected registers"):
        rows = pcr_rows(pages[title])
        found = (told in [each.text for each in pages[title].all("p")], {row[2] for row in rows}, {(row[1], row[3]) for row in rows})
        tools.check(f"{title}: the PCRs that the log makes", found, (True, {"not compared"}, made))


def test_claims(tools, folder):
    """Where nothing confirms, what the log claims is only claimed. The names in certificates are those that these say, and damaged ones have none."""
    log = (SAMPLES / "ovmf-boot/secure-boot.log").read_bytes()
    status, page, _ = report_of(tools, make_boot(folder / "claims", firmware=log, expected=None))
    rows = rows_below(page, "What the machine booted")
    found = (status, judged(page), rows[0], {row[1] for row in rows}, [row[2:] for row in rows if row[0] == "secure boot"])
    tools.check("a boot of claims", found, (3, ("failed", BAD), ["all of this", "", "confirmed by nothing", ""], {""}, [["on", "4"]]))
    named = [row[0] for row in rows_below(page, "Events of the firmware log") if "CN=Debian Secure Boot CA" in row[4] or "not installed" in row[4]]
    tools.check("a boot of claims: names in certificates", named in (["30"], ["5", "6", "7", "23", "30"]), True)
    test_certificates(tools, page, read_log(log))
    said = tools.start(["-c", DAMAGED, str(SAMPLES / "ovmf-boot/secure-boot.log")], PYTHONPATH=str(ROOT / "fleet")).communicate(timeout=SECONDS)[0]
    tools.check("damaged certificates", said.split(), ["done"])


# The certificates of samples/ovmf-boot/secure-boot.log: the variable, the event, and what is part of the subject.
CERTIFICATES = [
    ("PK", 5, "Debian UEFI Secure Boot"), ("KEK", 6, "Debian UEFI Secure Boot"), ("KEK", 6, "Microsoft Corporation KEK CA 2011"),
    ("db", 7, "Microsoft Windows Production PCA 2011"), ("db", 7, "Microsoft Corporation UEFI CA 2011"),
    ("db", 23, "Microsoft Corporation UEFI CA 2011"), ("MokListRT", 30, "Debian Secure Boot CA"),
]


def slices(data):
    """What may be certificates in the data of an event, by their SHA-256: a SEQUENCE with a size of two bytes (X.690, 8.9)."""
    places = [place for place in range(len(data)) if data[place:place + 2] == b"\x30\x82"]
    found = [data[place:place + 4 + int.from_bytes(data[place + 2:place + 4], "big")] for place in places]
    return {hashlib.sha256(each).hexdigest(): each for each in found}


def test_certificates(tools, page, log):
    """Which certificates the log has, each with its variable, subject and fingerprint; where nothing confirms, they are claimed."""
    rows = rows_below(page, "Certificates in the log")
    tools.check("certificates: variables and events", [(row[0], int(row[6])) for row in rows], [(name, event) for name, event, _ in CERTIFICATES])
    for row, (name, event, subject) in zip(rows, CERTIFICATES):
        found = slices(log.events[event - 1].data).get(row[2], b"")
        is_told = subject in row[1] or "not installed" in row[1]
        told = (is_told, subject.encode() in found, row[3], row[5])
        tools.check(f"certificates: {name}, {subject}", told, (True, True, register_words(7), "claimed"))


def test_unconfirmed_entries(tools, folder):
    """Entries are confirmed by register 10 alone, and not by that of the SHA-1 bank."""
    log, measurements = read_log((REAL / "firmware.log").read_bytes()), read_list((REAL / "ima.list").read_bytes())
    both = log._replace(
        declared={SHA1.identifier: SHA1.size, **log.declared},
        events=[event._replace(digests={**event.digests, SHA1.identifier: bytes(20)}) for event in log.events],
    )
    texts = inputs.expected_text(inputs.expected_after(both, measurements)).splitlines(keepends=True)
    low, weak = (
        b"".join(line for line in texts if line.startswith(bank) and int(line.split()[1]) <= last) for bank, last in ((b"sha256", 9), (b"sha1", 10))
    )
    *calls, of_both = (
        (make_boot(folder / "low", firmware=both.spelling(), expected=low), "--require", "none"),
        (make_boot(folder / "weak", firmware=both.spelling(), expected=weak), "--require", "sha1:0-10"),
        (make_boot(folder / "of both", firmware=both.spelling(), expected=b"".join(texts)), "--require", "sha256:0-10,sha1:0-10"),
    )
    *found, (status, page, _) = reports_of(tools, [*calls, of_both])
    states = {row[2] for row in rows_below(page, "Entries of the measurement list")}
    tools.check("entries that registers of both banks confirm", (status, states), (0, {"confirmed", "violation"}))
    for call, (status, page, _) in zip(calls, found):
        states = {row[2] for row in rows_below(page, "Entries of the measurement list")}
        tools.check(f"entries that {call[0].name} registers do not confirm", (status, states), (0, {"claimed", "violation"}))


def test_report_by_quote(tools, folder):
    """A boot that is judged by a quote."""
    boot, other = make_quoted(folder / "quoted"), make_quoted(folder / "other", expected=None, ima=(REAL / "ima.list").read_bytes() * 2)
    *asked, nonce = quoted_by_nonce()
    good, *refused, longer, unasked = reports_of(tools, [
        (boot, *asked, nonce), (boot, *asked, "00" * 20), (boot, "--key", SAMPLES / "keys/ak-p256.pem", "--nonce", nonce), (other, *asked, nonce),
        (boot,),
    ])
    test_quoted_report(tools, good)
    test_unsafe_clock(tools, folder, boot, quoted_by_nonce())
    for title, (status, page, _) in zip(("another nonce", "another key"), refused):
        marks = {row[3] for row in rows_below(page, "Events of the firmware log")}
        tools.check(f"a quote with {title}", (status, judged(page), marks), (4, ("refused", BAD), {"claimed"}))
    told = (longer[0], judged(longer[1]), "quoted PCRs" in state_of(longer[1])[0])
    tools.check("a quote of another list", told, (1, ("differ", BAD), True))
    weak = [(boot, *asked, nonce, "--require", "sha1:0-10", *words) for words in ((), ("--sha1",))]
    found = [(status, judged(page)[0]) for status, page, _ in reports_of(tools, weak)]
    tools.check("a quote of SHA-1 alone is asked for only with --sha1", found, [(2, "refused"), (4, "refused")])
    text, _ = state_of(unasked[1])
    tools.check("a quote that is not looked at", ("Not quoted" in text, "was not used" in text), (True, True))
    calls = [(boot, *words) for words in (("--nonce", nonce), tuple(asked[:2]), ("--sha1",), ("--frobnicate",), ("--require", "a", "--require", "b"))]
    for (_, word, *_), (status, page, errors) in zip(calls, reports_of(tools, calls)):
        tools.check(f"refused arguments: {word}", (status, page.inner, "usage" in errors), (64, [], True))


def test_quoted_report(tools, given):
    """The page of a boot whose quote holds, with expected registers beside it."""
    status, page, _ = given
    told = [each.text for each in page.all("dd")][:4]
    tools.check("a quote that holds", (status, judged(page), told[0]), (0, ("match", SIGNED), "sha256: 0, 1, 2, 3, 4, 5, 6, 7, 8, 9, 10"))
    tools.check("the quote's counts", told[3], "626 ms, 1 reset, 0 restarts")
    tools.check("its registers are the quoted ones", sorted(int(row[1]) for row in pcr_rows(page)), [*range(11)])
    marks = {row[3] for row in rows_below(page, "Events of the firmware log")}
    tools.check("events that the quote confirms", marks, {"claimed", "confirmed data", "confirmed value"})


def test_unsafe_clock(tools, folder, boot, quoted):
    """A clock that may have shown a later time before is not safe, and the page says so. (The program is one that says so of any quote.)"""
    programs = folder / "of an unsafe clock"
    programs.mkdir()
    good, clock = tools.folder / "program/ima-agent", '"resets":1,"restarts":0,"safe":true'
    other = clock.replace("1", "2").replace("0", "1").replace("true", "false")
    program = program_that(programs / "ima-agent", "attest", f"""'{good}' "$@" | sed 's/{clock}/{other}/'""", good)
    status, page, _ = report_of(tools, boot, "--program", program, *quoted)
    found = (status, judged(page), [each.text for each in page.all("dd")][3])
    tools.check("a quote whose clock is not safe", found, (0, ("match", SIGNED), "626 ms, 2 resets, 1 restart; not safe"))


def confirmed_in(page):
    """What a page shows as confirmed: rows on what was booted, and on events, and the numbers of entries; then how many rows are of that kind."""
    booted = [row for row in rows_below(page, "What the machine booted") if row[1] not in ("", "unknown")]
    events = [row for row in rows_below(page, "Events of the firmware log") if "confirmed" in row[3]]
    entries = [row[0] for row in rows_below(page, "Entries of the measurement list") if "confirmed" in row[2]]
    return booted, events, entries, sum("confirmed" in row.attributes.get("data-kind", "").split() for row in page.all("tr"))


NOTHING = ([], [], [], 0)


def most_known(folder):
    """A file of known digests that lacks that of entry 7 of samples/real-boot, besides those of its three violations."""
    digest, known = read_list((REAL / "ima.list").read_bytes())[7].payload[12:44].hex().encode(), folder / "most known"
    known.write_bytes(b"".join(line for line in (SAMPLES / "known/SHA256SUMS").read_bytes().splitlines(True) if digest not in line))
    return known


def test_unknown_entries(tools, folder):
    """What a quote or expected registers confirm stays confirmed, whatever is unknown."""
    boot, quoted, known = make_quoted(folder / "wanting"), quoted_by_nonce(), ("--known", most_known(folder))
    entries, expected = read_list((REAL / "ima.list").read_bytes())[:93], (SAMPLES / "known/before-violations.expected").read_bytes()
    few = make_boot(folder / "few", ima=list_spelling(entries), expected=expected)
    *found, (status, one, _) = reports_of(tools, [(boot, *quoted), (boot, *quoted, *known), (boot,), (boot, *known), (few, *known)])
    tools.check("one entry is unknown", (status, judged(one), "Entry 7 is unknown." in state_of(one)[0]), (1, ("differ", BAD), True))
    for title, (_, whole, _), (status, page, _) in (("a quote", *found[:2]), ("expected registers", *found[2:])):
        tools.check(f"unknown entries: what {title} confirm", confirmed_in(page), confirmed_in(whole))
        tools.check(f"unknown entries: how much {title} confirm", confirmed_in(page)[-1], 120)
        states = {row[0]: row[2] for row in rows_below(page, "Entries of the measurement list") if "unknown" in row[2]}
        denied = re.findall("[Nn]othing (?:is )?confirm.*", "\n".join(each.text for each in page.all("p")))
        found = (status, judged(page), states, "Unknown entries: 4, the first is entry 7." in state_of(page)[0], denied)
        wanted = {"7": "unknown confirmed", **{number: "violation unknown" for number in ("93", "94", "97")}}
        tools.check(f"unknown entries, and {title}", found, (1, ("differ", BAD), wanted, True, []))
    test_unknown_and_unconfirmed(tools, folder, boot, known)
    all_known = ("--known", SAMPLES / "known/SHA256SUMS")
    other = make_boot(folder / "few, and other PCRs", ima=list_spelling(entries))
    told = "None: each entry that was checked is for a known file."
    for says, (status, page, _) in zip(("", " Nothing confirms these entries."), reports_of(tools, [(few, *all_known), (other, *all_known)])):
        found = (status, [each.text for each in page.all("p") if each.text.startswith("None: ")])
        tools.check(f"no unknown entries.{says}", found, (int(bool(says)), [told + says]))


def test_unknown_and_unconfirmed(tools, folder, boot, known):
    """Where quote or registers do not hold, unknown entries make nothing confirmed. (Registers that match still confirm events.)"""
    log, entries = read_log((REAL / "firmware.log").read_bytes()), read_list((REAL / "ima.list").read_bytes())
    quoted, good, again = quoted_by_nonce(), tools.folder / "program/ima-agent", entries[5]
    hiding = log._replace(events=[*log.events, Event(10, EV_ACTION, {SHA256.identifier: bytes(32)}, b"")])
    grown, first = list_spelling([*entries, again]), entry_of(IMA_NG, SHA256, bytes(32), b"boot_aggregate")

    def of_its_own(name, log, entries):
        return make_boot(folder / name, firmware=log.spelling(), ima=list_spelling(entries),
                         expected=inputs.expected_text(inputs.expected_after(log, entries)))

    failing = program_that(folder / "fails", "verify", f"""case "$*" in *--known*) exec '{good}' "$@";; esac; exit 3""", good)
    cases = (
        ("a quote with another nonce", (boot, *quoted[:-1], "00" * 20), 4, "refused", slice(4)),
        ("a quote with another key", (boot, "--key", SAMPLES / "keys/ak-p256.pem", *quoted[2:]), 4, "refused", slice(4)),
        ("a quote of another list", (make_quoted(folder / "quoted before", ima=grown), *quoted), 1, "differ", slice(4)),
        ("no required register", (boot, "--require", "none"), 2, "refused", slice(4)),
        ("a list that grew", (make_boot(folder / "grown", ima=grown),), 1, "differ", slice(2, 3)),
        ("an entry of another register", (of_its_own("moved", log, [*entries, again._replace(register=9)]),), 1, "differ", slice(2, 3)),
        ("an event of register 10", (of_its_own("hiding", hiding, entries),), 1, "differ", slice(2, 3)),
        ("a program that fails without known files", (boot, "--program", failing), 1, "differ", slice(2, 3)),
        ("another boot aggregate", (of_its_own("aggregate", log, [first, *entries[1:]]),), 1, "differ", slice(2, 3)),
    )
    reasons = {
        "a quote of another list": "Log and list do not make the quoted PCRs.", "another boot aggregate": WRONG_AGGREGATE,
        "an entry of another register": "Entry 99 of the list extends PCR 9, which only the log may extend.",
        "an event of register 10": "Event 25 of the log extends PCR 10, which only the list may extend.",
    }
    for (title, _, status, word, parts), (found, page, _) in zip(cases, reports_of(tools, [(*call, *known) for _, call, *_ in cases])):
        tools.check(f"unknown entries, and {title}", (found, judged(page)), (status, (word, BAD)))
        tools.check(f"unknown entries, and {title}: nothing is confirmed", confirmed_in(page)[parts], NOTHING[parts])
        told = [each.text for each in page.all("div") if each.text in reasons.values()]
        tools.check(f"unknown entries, and {title}: the reasons", told, [reasons[title]] if title in reasons else [])


def list_fault(number):
    """The words in which the program says what is wrong with a list: those of docs/errors.txt."""
    text = (ROOT / "docs/errors.txt").read_text()
    return re.search(rf"^ +{number}  (.*)$", text[text.index("List faults"):], re.MULTILINE)[1]


def test_broken_list(tools, folder):
    """With a broken list the page shows the entries before that, and what the log alone makes and expected registers confirm; and says in words
    where the list breaks."""
    entries, data, quoted = read_list((REAL / "ima.list").read_bytes()), (REAL / "ima.list").read_bytes(), quoted_by_nonce()
    wrong = list_spelling([*entries[:7], entries[7]._replace(register=24), *entries[8:]])
    seven = (REAL / "expected.txt").read_bytes().replace(b"sha256 7 65", b"sha256 7 56")
    _, whole, _ = report_of(tools, make_boot(folder / "unbroken"))
    cases = (
        ("cut", {"ima": data[:5000]}, 49, 1), ("cut at once", {"ima": data[:5]}, 0, 1), ("of a register that is none", {"ima": wrong}, 7, 2),
        ("cut, and another PCR 7", {"ima": data[:5000], "expected": seven}, 49, 1),
    )
    calls = [(make_boot(folder / f"list {title}", **changes),) for title, changes, *_ in cases]
    for (title, changes, count, fault), (status, page, _) in zip(cases, reports_of(tools, calls)):
        text, rows = state_of(page)[0], rows_below(page, "Entries of the measurement list")
        found = (status, judged(page), f"refused: list fault {fault} at entry {count}" in text, [row[0] for row in rows], confirmed_in(page)[2])
        tools.check(f"a list {title}", found, (2, ("refused", BAD), True, [str(number) for number in range(count)], []))
        if is_built():
            tools.check(f"a list {title}: in words", f"ima.list: entry {count}: {list_fault(fault)}" in text, True)
        registers = [row[:4] for row in pcr_rows(whole) if row[1] != "10"]
        if "expected" not in changes:
            tools.check(f"a list {title}: what log and registers confirm", confirmed_in(page)[:2], confirmed_in(whole)[:2])
            tools.check(f"a list {title}: PCRs by the log alone", [row[:4] for row in pcr_rows(page)], registers)
            continue
        differing = [[*row[1:3], row[4]] for row in pcr_rows(page) if not row[2].startswith("match")]
        booted = {row[0]: row[1] for row in rows_below(page, "What the machine booted")}
        seventh = {row[3] for row in rows_below(page, "Events of the firmware log") if row[1] == register_words(7)}
        found = (differing, booted["secure boot"], seventh)
        tools.check(f"a list {title}: it confirms nothing", found, ([["7", "differ", "nowhere"]], "unknown", {"claimed"}))
    test_broken_and_quoted(tools, folder, data, quoted)


def test_broken_and_quoted(tools, folder, data, quoted):
    """A quote, which is of the whole list, confirms nothing beside a broken one: the page shows what the log makes."""
    log = read_log((REAL / "firmware.log").read_bytes())
    changed = {event.register for event in log.events if event.type != inputs.EV_NO_ACTION}
    wanted = {(str(row.register), row.value.hex()) for row in inputs.expected_after(log, []) if row.register in changed}
    calls = [(make_quoted(folder / f"broken and quoted {expected is None}", ima=data[:5000], expected=expected), *quoted)
             for expected in ((REAL / "expected.txt").read_bytes(), None)]
    for status, page, _ in reports_of(tools, calls):
        rows = pcr_rows(page)
        found = ({row[2] for row in rows}, {(row[1], row[3]) for row in rows})
        tools.check("a quote, and a list that is cut", (status, judged(page), confirmed_in(page)), (2, ("refused", BAD), NOTHING))
        tools.check("a quote, and a list that is cut: PCRs of the log", found, ({"not compared"}, wanted))


def test_prefixes(tools, folder):
    """How much of a list is covered is said in one way: the first so many of so many entries."""
    data, quoted = (REAL / "ima.list").read_bytes(), quoted_by_nonce()
    boot = make_quoted(folder / "longer", ima=data + data[-95:])
    bare = make_quoted(folder / "longer, without expected registers", ima=data + data[-95:], expected=None)
    cases = (((boot, "--prefix"), 1), ((boot, "--prefix", *quoted), 1), ((bare, "--prefix", *quoted), 0))
    *found, (_, differing, _), (_, whole, _) = reports_of(tools, [*(call for call, _ in cases), (boot,), (make_boot(folder / "no longer"),)])
    first = "the first 99 of 100 entries"
    for (call, is_confirming), (status, page, _) in zip(cases, found):
        title = f"a prefix, of {call[0].name}, {len(call)} arguments"
        text, paragraphs = state_of(page)[0], [each.text for each in page.all("p")]
        told = (f"The verdict covers {first}. Nothing confirms what follows." in text, f"PCR 10 covers {first}." in paragraphs)
        tools.check(title, (status, judged(page), told), (0, ("match", UNSIGNED), (True, True)))
        booted, events, entries, _ = confirmed_in(whole)
        tools.check(f"{title}: confirmed", confirmed_in(page)[:3], (booted, events, entries) if is_confirming else ([], [], entries))
        denied = [each for each in paragraphs if each.startswith("No event is confirmed")]
        tools.check(f"{title}: why no event is", [first in each for each in denied], [] if is_confirming else [True])
    for title, script, wanted in (("how much of a list is covered", COVERED, COVERED_WANTED), ("long texts", FOLDS, FOLDS_WANTED)):
        said = tools.start(["-c", script], PYTHONPATH=str(ROOT / "fleet")).communicate(timeout=SECONDS)[0]
        tools.check(title, said.splitlines(), wanted)
    for page in (found[0][1], differing):
        tools.check("where PCR 10 is reached", [row[4] for row in pcr_rows(page) if row[1] == "10"], [f"after {first}"])
    (first_row, *_) = pcr_rows(differing)
    tools.check("PCRs that differ come first", first_row[1:3], ["10", "differ"])
    test_cut_prefix(tools, folder, data, pcr_rows(whole))


def test_cut_prefix(tools, folder, data, whole):
    """Bytes that are not an entry, after the confirmed ones, are said to be that, and make nothing else of the page incomplete."""
    status, page, _ = report_of(tools, make_boot(folder / "prefix and bytes", ima=data + data[-95:-40]), "--prefix")
    text, paragraphs = state_of(page)[0], [each.text for each in page.all("p")]
    said = ("The verdict covers all 99 entries. Nothing confirms what follows." in text, "incomplete" in next(page.all("body")).text)
    tools.check("a prefix before bytes that are not an entry", (status, judged(page), said), (0, ("match", UNSIGNED), (True, False)))
    told = "PCR 10 covers all 99 entries. Bytes that are not an entry follow the last one here."
    tools.check("a prefix before bytes that are not an entry: PCRs, and entries", (pcr_rows(page), told in paragraphs), (whole, True))


def test_differences(tools, folder):
    """What differs from an earlier boot, by its log or its folder, is side by side, PCR by PCR, and no digest is there both as earlier and as now."""
    ovmf, boot, earlier = SAMPLES / "ovmf-boot", folder / "with secure boot", folder / "earlier"
    for home, name in ((boot, "secure-boot"), (earlier, "systemd-boot")):
        home.mkdir()
        for file, ending in zip(FILES, ("log", "list", "expected")):
            shutil.copy(ovmf / f"{name}.{ending}", home / file)
    lines = (boot / "expected.txt").read_text().splitlines(keepends=True)
    (boot / "expected.txt").write_text("".join(line for line in lines if line.split()[1] != "14"))
    (status, page, _), (folder_status, by_folder, _) = reports_of(
        tools, [(boot, "--before", ovmf / "systemd-boot.log"), (boot, "--before", earlier)],
    )
    logs = [read_log((ovmf / f"{name}.log").read_bytes()) for name in ("secure-boot", "systemd-boot")]
    sentences, sides = compared_in(page)
    wanted = {register_words(register): said_of(*(digests_of(log, register) for log in logs)) for register in range(24) if register != 14}
    wanted = {**{register: text for register, text in wanted.items() if text}, "14 (shim-policy)": "unknown"}
    tools.check("differences from an earlier boot", (status, sentences), (0, wanted))
    tools.check("differences from an earlier boot: each kind of sentence", len(set(wanted.values())), 5)
    tools.check("differences from an earlier boot: the events of both", sides, events_apart(*logs))
    same = [each.text for each in page.all("details") if each.attributes.get("class") == "same"]
    tools.check("differences from an earlier boot: which are the same", folded_events(same, logs[0]), events_alike(*logs))
    tools.check("differences from an earlier boot, by its folder", (folder_status, compared_in(by_folder)), (0, (sentences, sides)))
    names = [row[0] for row in rows_below(by_folder, "The verdict")]
    tools.check("the earlier log is among the files", names, [*FILES, "earlier/firmware.log"])
    marks = {cell.text.strip() for each in page.all("td") if each.attributes.get("data-label") == "Earlier" for cell in each.all("span") if
             cell.attributes["class"] in ("good", "kind")}
    tools.check("the earlier log is only claimed", marks, {"claimed"})
    test_earlier_folders(tools, folder, boot)
    test_booted(tools, page, logs[0])


def test_earlier_folders(tools, folder, boot):
    """The log of an earlier folder is one that a machine sent: no link is followed; and one that is not there is said."""
    linked, gone = folder / "linked earlier", folder / "empty earlier"
    linked.mkdir()
    gone.mkdir()
    (linked / "firmware.log").symlink_to(SAMPLES / "ovmf-boot/systemd-boot.log")
    cases = ((linked, "it is a symbolic link"), (gone, "it is not there"))
    for (home, cause), (status, page, _) in zip(cases, reports_of(tools, [(boot, "--before", home) for home, _ in cases])):
        found = (status in (0, 1), judged(page)[1], f"{home.name}/firmware.log is not read: {cause}." in state_of(page)[0], compared_in(page))
        tools.check(f"an earlier folder: {cause}", found, (False, BAD, True, ({}, [])))


def compared_in(page):
    """What a page says of each PCR beside that of an earlier boot, and which events it has only on one side: a PCR, the side, and a digest."""
    heading = next(each for each in page.all("h2") if each.text == "What differs from the earlier boot")
    part, sentences, sides, name = heading.parent.inner[heading.parent.inner.index(heading) + 1:], {}, [], None
    for each in part:
        if isinstance(each, str):
            continue
        if each.tag == "h2":
            break
        if each.tag == "h3":
            name = each.text.removeprefix("PCR ")
        elif found := re.match("(The same|Unknown, because no value confirms them): PCRs? (.*)\\.$", each.text):
            said = {"The same": "no difference"}.get(found[1], "unknown")
            sentences.update({register: said for register in registers_in(found[2])})
        elif each.tag == "p" and name:
            sentences[name] = each.text.rstrip(".")
        elif each.tag == "div":
            for cell in (cell for cell in each.all("td") if "(no event)" not in cell.text):
                digest = next(text.text for text in cell.all("p") if text.attributes.get("class") == "digest")
                sides.append((name, cell.attributes["data-label"], digest))
    return sentences, sorted(sides)


def registers_in(text):
    """The PCRs that a selection names, or the one with its name."""
    for part in [text] if " (" in text else text.split(", "):
        first, _, last = part.partition(" ")[0].partition("-")
        yield from map(register_words, range(int(first), int(last or first) + 1))


def folded_events(texts, now):
    """How many events are said to be the same, and of each the number in the earlier log, the digest, if it is that of the other number, and
    whether two types are told."""
    counts = [int(re.match(r"(\d+) events? (?:is|are) the same", text)[1]) for text in texts]
    found = [each for text in texts for each in re.findall(r"event (\d+) earlier, (\d+) now: \w+ (\(earlier \w+\) )?([0-9a-f]{64})", text)]
    return sum(counts), sorted(
        (int(old), digest, bool(types)) for old, new, types, digest in found if now.events[int(new) - 1].digests[SHA256.identifier].hex() == digest
    )


def compared_registers(now, before):
    """The PCRs of which both logs are compared, and differ. (No value confirms PCR 14.)"""
    return [number for number in range(24) if number != 14 and digests_of(now, number) != digests_of(before, number)]


def events_apart(now, before):
    """The events that one of the logs has more often: the PCR, the side, and the digest. (None comes in another order here.)"""
    found = []
    for register in compared_registers(now, before):
        for side, log, other in (("Now", now, before), ("Earlier", before, now)):
            more = Counter(digests_of(log, register)) - Counter(digests_of(other, register))
            found += [(register_words(register), side, digest.hex()) for digest in more.elements()]
    return sorted(found)


def events_alike(now, before):
    """How many events are in both logs, of PCRs that differ, and of each the number in the earlier log, the digest, and whether the types differ."""
    pairs = []
    for register in compared_registers(now, before):
        left = numbered(before, register)
        for _, event in numbered(now, register):
            same = next((each for each in left if each[1].digests[SHA256.identifier] == event.digests[SHA256.identifier]), None)
            if same:
                pairs.append((same[0], event.digests[SHA256.identifier].hex(), event.type != same[1].type))
                left.remove(same)
    return len(pairs), sorted(pairs)


def test_booted(tools, page, log):
    """What was booted: the texts of commands and the values of boot variables are confirmed, and what a command is of, which policy it asks for, and
    the names of variables are only claimed."""
    rows, named = rows_below(page, "What the machine booted"), ("command, PCR 8", "command, PCR 12 (kernel-config)", "ima policy")
    commands = [(number, command_in(event.data)) for number, event in numbered(log, 8)]
    wanted = [["command, PCR 8", command.text.decode(), f"kind{command.kind}", str(number)] for number, command in commands]
    asking = next(number for number, command in commands if b"ima_policy=tcb" in command.text)
    wanted += [["command, PCR 12 (kernel-config)", "unknown", "", ""], ["ima policy", "", "asked", str(asking)]]
    tools.check("what it booted: commands", [row for row in rows if row[0] in named], wanted)
    rows = [row[1:] for row in rows if row[0] == "boot variable"]
    variables = [(str(number), variable_in(event.data)) for number, event in numbered(log, 1) if event.type == EV_EFI_VARIABLE_BOOT]
    found = [(number, claimed.partition("name")[2], "guid" in confirmed or "name" in confirmed) for confirmed, claimed, number in rows]
    tools.check("what it booted: names of variables", found, [(number, each.name.decode("utf-16-le"), False) for number, each in variables])
    order = ", ".join(f"{number:04x}" for (number,) in struct.iter_unpack("<H", variables[0][1].value))
    tools.check("what it booted: the boot order", rows[0][0], f"order{order}")


def numbered(log, register):
    """The events that extend a PCR, by their numbers."""
    return [(number, event) for number, event in enumerate(log.events, 1) if event.register == register and event.type != inputs.EV_NO_ACTION]


def digests_of(log, register):
    return [event.digests[SHA256.identifier] for _, event in numbered(log, register)]


def said_of(now, before):
    """How much of two sequences of digests is the same, in words; nothing if both are empty."""
    same = next((count for count, pair in enumerate(zip(now, before)) if pair[0] != pair[1]), min(len(now), len(before)))
    if now == before:
        return "no difference" if now else None
    sentence = {0: "The logs differ at the first event", 1: "The first event is the same"}.get(same, f"The first {same} events are the same")
    return f"{sentence} in bank sha256"


def test_other_templates(tools, folder):
    """An entry of another template: what its fields say, or else all of its bytes."""
    log, digest, raw = read_log((REAL / "firmware.log").read_bytes()), bytes(range(32)), b"raw"

    def of_fields(*fields):
        return b"".join(len(field).to_bytes(4, "little") + field for field in (b"sha256:\0" + digest, *fields))

    payloads = {b"ima-sig": of_fields(b"/a\0", b"\3"), b"ima-buf": of_fields(b"b\0", b"c"), b"x": raw, b"caf\xe9": raw}
    others = [Entry(10, SHA1.hash(payload), template, payload) for template, payload in payloads.items()]
    entries = [entry_of(IMA_NG, SHA256, log.registers().boot_aggregate(SHA256), b"boot_aggregate"), *others]
    expected = inputs.expected_text(inputs.expected_after(log, entries))
    status, page, _ = report_of(tools, make_boot(folder / "other templates", ima=list_spelling(entries), expected=expected))
    rows = [row[2:] for row in rows_below(page, "Entries of the measurement list")[1:]]
    said = f"algorithmsha256digest{digest.hex()}pathbbuffer{b'c'.hex()}"
    tools.check("entries of other templates", (status, rows), (0, [
        ["confirmed", "/a", f"sha256 {digest.hex()}", "ima-sig"], ["confirmed", said, "", "ima-buf"], ["confirmed", raw.hex(), "", "x"],
        ["confirmed", raw.hex(), "", "caf\\xe9"],
    ]))


def test_own_links(tools, folder):
    """A file that the operator names may be a link. (Only what a machine sent may not.)"""
    own, words = {"key": QUOTED / "AK.pem", "before": REAL / "firmware.log", "known": SAMPLES / "known/SHA256SUMS"}, []
    for name, file in own.items():
        (folder / f"own {name}").symlink_to(file)
        words += [f"--{name}", folder / f"own {name}"]
    status, page, _ = report_of(tools, make_quoted(folder / "own links"), *words, *quoted_by_nonce()[2:])
    read = {row[0]: row[2] for row in rows_below(page, "The verdict") if row[0].startswith("own ")}
    wanted = {f"own {name}": hashlib.sha256(file.read_bytes()).hexdigest() for name, file in own.items()}
    tools.check("links that the operator names", (status, judged(page), read), (1, ("differ", BAD), wanted))


def test_own_unread(tools, folder):
    """A file that the operator names and that cannot be read is told by its name, and no page then looks like a match."""
    boot, quoted = make_quoted(folder / "own unread"), quoted_by_nonce()
    os.mkfifo(folder / "own pipe")
    gone, pipe = "it is not there", "it is no regular file"
    cases = (
        ("known", (boot, "--known", folder / "not there"), "not there", gone),
        ("before", (boot, "--before", folder / "not there"), "not there", gone),
        ("key", (boot, "--key", folder / "own pipe", *quoted[2:]), "own pipe", pipe),
        ("a second known", (boot, "--known", most_known(folder), "--known", folder / "own pipe"), "own pipe", pipe),
    )
    for (title, _, name, cause), (status, page, _) in zip(cases, reports_of(tools, [call for _, call, *_ in cases])):
        told, rows = [each.text for each in page.all("div")], [row for row in rows_below(page, "The verdict") if row[0] == name]
        found = (status in (0, 1), judged(page)[1], f"{name} is not read: {cause}." in told, rows)
        tools.check(f"a file of the operator that is not read: {title}", found, (False, BAD, True, [[name, "", cause]]))


def test_heads(tools, folder):
    """The head says by what a boot was judged, and what its page does not tell; and hostile titles are text."""
    boot, quoted, known = make_quoted(folder / "heads"), quoted_by_nonce(), ("--known", SAMPLES / "known/SHA256SUMS")
    by_quote = f"Judged by a quote, with the given key and the nonce {quoted[3]}."
    unquoted, compared = "Not quoted: nobody signed", "Files were not compared"
    title = "<b>\x1b[31m</b>"
    plain, signed, free = reports_of(tools, [(boot,), (boot, *quoted, *known, "--title", title), (boot, "--require", "none")])
    for name, (_, page, _), wanted in (
        ("by registers", plain, (False, True, True, True, False)), ("by a quote and known files", signed, (True, False, False, True, False)),
        ("by any registers", free, (False, True, True, False, True)),
    ):
        text = state_of(page)[0]
        told = tuple(each in text for each in (by_quote, unquoted, compared, "Required: sha256:0-10.", "Required: nothing."))
        tools.check(f"the head of a report {name}", told, wanted)
    bodies = [next(page.all("main")).text for _, page, _ in (plain, signed)]
    backed = [[kind for kind in ("expected", "quoted") if f"a PCR that has its {kind} value" in body] for body in bodies]
    tools.check("what confirms events", backed, [["expected"], ["quoted"]])
    page = signed[1]
    names = [each for each in next(page.all("title")).inner if not isinstance(each, str)]
    found = (next(page.all("title")).text, names, next(page.all("h1")).text, foreign(page))
    tools.check("a hostile title of a report", found, (r"differ: <b>\x1b[31m</b>", [], r"Boot: <b>\x1b[31m</b>", []))
    message = (QUOTED / "quote.msg").read_bytes()
    signer = message[8:8 + int.from_bytes(message[6:8], "big")].hex()  # (TPM 2.0 Part 2, TPMS_ATTEST: after its magic and type)
    said = dict(zip((each.text for each in page.all("dt")), (each.text for each in page.all("dd"))))
    wanted = {"Quote": "log and list make the quoted PCRs; signature valid", "Key": signer, "Unknown entries": "3 (entries checked from 0)"}
    tools.check("what a report says of a quote", {name: said[name] for name in wanted}, wanted)


def test_full_disk(tools, folder):
    """A page of which the last byte cannot be written is none."""
    boot, page = make_boot(folder / "full disk"), folder / "full disk.html"
    size = len(report_text(tools, boot)[1].encode()) - 1
    words = [tools.python, ROOT / "fleet/report.py", "--program", tools.folder / "program/ima-agent", boot]
    with open(page, "wb") as output:
        done = subprocess.run(
            words, env={**tools.environment, "PYTHONUNBUFFERED": ""}, stdout=output, stderr=subprocess.PIPE, text=True, timeout=SECONDS,
            preexec_fn=lambda: resource.setrlimit(resource.RLIMIT_FSIZE, (size, size)),
        )
    wanted = (3, "ima-report: no page: the file is too large\n", size)
    tools.check("a page whose last byte cannot be written", (done.returncode, done.stderr, page.stat().st_size), wanted)


def test_failing_program(tools, folder):
    """A program that fails, or whose output and status do not agree, never gives a page that looks like a match."""
    boot, programs = make_boot(folder / "failing"), tools.folder / "programs"
    programs.mkdir()
    good = tools.folder / "program/ima-agent"
    calls, wanted = [], []
    rows = '[{"bank":"sha256","register":10,"state":"match"}]'
    report = f'{{"events":1,"locality":0,"entries":1,"boot_aggregate":"good","registers":{rows},"verdict":"match"}}'
    differing, fault = report.replace('"verdict":"match"', '"verdict":"differ"'), '{"fault":{"kind":"log","message":"refused: log fault 1"}}'
    for title, command, commands, status, told in (
        ("it is not there", "", None, 3, "cannot be started"),
        ("it is killed", "verify", "kill -9 $$", 3, "was ended by signal 9"),
        ("it writes nothing", "verify", "exit 0", 3, "wrote nothing"),
        ("it writes no JSON", "verify", "echo verdict match", 3, "wrote verdict match"),
        ("it writes two reports", "verify", f"echo '{report}'; echo '{report}'", 3, "is not that of its report"),
        ("its line is cut", "verify", f"printf %s '{report}'", 3, "status 0"),
        ("its status is of another verdict", "verify", f"echo '{report}'; exit 1", 3, "is not that of its report"),
        ("its verdict is of another status", "verify", f"echo '{differing}'", 3, "is not that of its report"),
        ("a report, but a strange status", "verify", f"echo '{report}'; exit 125", 125, "ended with status 125"),
        ("a fault with status 0", "verify", """echo '{"fault":{"kind":"memory","message":"failed: memory"}}'""", 3, "failed: memory"),
        ("its events fail", "events", "echo 'out of <b>luck</b>' >&2; exit 3", 3, "out of <b>luck</b>"),
        ("its events fail with words", "events", f"echo 'the log is <b>cut</b>' >&2; echo '{fault}'; exit 2", 2, "the log is <b>cut</b>"),
        ("its entries are cut", "show", f'"{good}" "$@" 2>/dev/null | head -n 5; exit 2', 2, "ended with status 2"),
        ("its entries are not counted", "show", f'"{good}" "$@" | head -n 5', 3, "5 entries, and no line that counts them"),
        ("its entries are counted twice", "show", f"""'{good}' "$@"; echo '{{"entries":99}}'""", 3, "a line after the one that counts"),
        ("its entries are counted first", "show", f"""echo '{{"entries":99}}'; '{good}' "$@" | sed '$d'""", 3, "a line after the one that counts"),
        ("its count is none", "show", f"""'{good}' "$@" | sed 1q; echo '{{"entries":true}}'""", 3, "no line that counts them"),
        ("an entry is left out", "show", f'"{good}" "$@" | sed 3d', 3, "98 entries, and no line that counts them"),
        ("what was booted is not there", "boot", "exit 0", 3, "wrote nothing"),
        ("it does not end", "events", "sleep 1000", 3, "did not end within 2 seconds"),
    ):
        words = ("--seconds", 2) if command == "events" and "sleep" in commands else ()
        calls.append((boot, "--program", program_that(programs / title, command, commands, good), *words))
        wanted.append((title, told, status))
    started = time.monotonic()
    for (title, told, right), (status, page, errors) in zip(wanted, reports_of(tools, calls)):
        text, is_good = state_of(page)
        tools.check(f"a program that fails: {title}", (status, is_good, told in text, errors), (right, False, True, ""))
    tools.check("a program that does not end is not waited for", time.monotonic() - started < 1000, True)
    said = tools.start(["-c", BOUNDS], PYTHONPATH=str(ROOT / "fleet")).communicate(timeout=SECONDS)[0].strip()
    tools.check("of long lines 16 MiB are kept, and as much of those that are notable", said, BOUNDS_WANTED)
    said = tools.start(["-c", SAID], PYTHONPATH=str(ROOT / "fleet")).communicate(timeout=SECONDS)[0]
    tools.check("of what a program says 2000 bytes are kept", said.splitlines(), SAID_WANTED)
    lacking = program_that(programs / "it leaves out members", "events", """echo '{"event":1}'""", good)
    status, text, errors = report_text(tools, boot, "--program", lacking)
    told = "ima-report: no page: an error of ima-report itself: unexpected error, KeyError"
    tools.check("a program that leaves out members: no page", (status, text, errors[:len(told)]), (3, "", told))


def program_that(path, command, commands, good):
    """A program that does this in place of a command, and otherwise what the good one does; without anything to do it is not there."""
    return path if commands is None else write_program(path, f'case $1 in {command}) {commands};; *) exec "{good}" "$@";; esac')


def test_planted_program(tools, folder):
    """A program in the folder that is judged is not run, though that is the current folder, and PATH has it by another name than its whole path;
    unless its name is given with a slash."""
    boot, ran = make_boot(folder / "planted", ima=(REAL / "ima.list").read_bytes().replace(b"/bin/helper", b"/bin/helpex")), folder / "ran"
    rows = '[{"bank":"sha256","register":10,"state":"match"}]'
    report = f'{{"events":1,"locality":0,"entries":1,"boot_aggregate":"good","registers":{rows},"verdict":"match"}}'
    answers = {"show": '{"entries":0}', "events": '{"algorithms":[]}', "boot": '{"secure_boot":"on"}', "locate": '{"registers":[],"located":true}'}
    cases = "".join(f"{command}) echo '{answer}';; " for command, answer in answers.items())
    for name in ("ima-agent", "ima-attest"):
        write_program(boot / name, f": >'{ran}'; case $1 in {cases} *) echo '{report}';; esac")
    for file in ("quote.msg", "quote.sig"):
        shutil.copy(QUOTED / file, boot)
    quoted = ("--key", QUOTED / "AK.pem", "--nonce", "00" * 20)
    told = "ima-report: ima-agent is not on PATH: install it, or name its file with --program\n"
    for path in ("", "/none", ":/none", "/none:", "/none::/none", ".:/none", "/none:./", "../planted"):
        for words in ((), quoted):
            found = (*called(tools, *words, ".", cwd=boot, PATH=path), ran.exists())
            tools.check(f"a program in the judged folder, with PATH={path!r}, {len(words)} arguments", found, (3, "", told, False))
    found = called(tools, "--program", "no\x1b[31m", ".", cwd=boot)
    tools.check("a program whose name has control characters", found, (3, "", told.replace("ima-agent", r"no\x1b[31m")))
    good = f".::{tools.folder / 'program'}:{os.environ['PATH']}:."
    for words, right in (((), 2), (quoted, 4)):
        found = (called(tools, *words, ".", cwd=boot, PATH=good)[0], ran.exists())
        tools.check(f"a program in the judged folder, and one on PATH, {len(words)} arguments", found, (right, False))
    found = (called(tools, "--program", "./ima-agent", ".", cwd=boot)[0], ran.exists())
    tools.check("a program whose name is given with a slash", found, (0, True))


# Calls `ima-report` where Python would load modules from the current folder before all others.
FROM_HERE = "import sys; del sys.path[0]; from fleet_verify.report import main; sys.path[:0] = ['', '.']; sys.exit(main())"


def test_planted_modules(tools, folder):
    """No module in the folder that is judged is loaded, though that is the current folder, and one where Python looks for modules."""
    boot, loaded, program = make_boot(folder / "with modules"), folder / "loaded", tools.folder / "program/ima-agent"
    for name in ("argparse", "ima_verify", "jinja2", "json", "sqlite3", "subprocess", "tempfile"):
        (boot / f"{name}.py").write_text(f"open({str(loaded)!r}, 'a').write('{name} ')\n")
    (folder / "linked").symlink_to(boot)
    modules = f"{ROOT / 'bindings/python'}:{ROOT / 'fleet'}"
    for title, call, path in (
        ("a file", [ROOT / "fleet/report.py"], f":{modules}"), ("a module", ["-c", FROM_HERE], modules),
        ("a file, and a link to the folder", [ROOT / "fleet/report.py"], f"{folder / 'linked'}:{modules}"),
    ):
        done = subprocess.run(
            [tools.python, *call, "--program", program, "."], env={**tools.environment, "PYTHONPATH": path}, cwd=boot, capture_output=True,
            text=True, timeout=SECONDS,
        )
        found = (done.returncode, done.stderr, loaded.read_text() if loaded.exists() else "")
        tools.check(f"modules in the judged folder, by a call of {title}", found, (0, "", ""))


def test_stopped_report(tools, folder):
    """A signal ends a report with status 3, and its program; and no copy of the machine's files is left."""
    boot, rest, begun = make_boot(folder / "stopped"), folder / "temporary", folder / "begun"
    rest.mkdir()
    slow = write_program(folder / "slow", f"echo $$ >'{begun} too early'; mv '{begun} too early' '{begun}'; exec sleep 1000")
    for number, title in ((signal.SIGTERM, ""), (signal.SIGINT, ""), *((signal.SIGTERM, title) for title in LINGERING)):
        words, given = [tools.python, ROOT / "fleet/report.py", "--program", slow, boot], {**tools.environment, "TMPDIR": str(rest)}
        if title:
            (folder / title).mkdir()
            (folder / title / "sitecustomize.py").write_text(LINGERING[title])
            given["PYTHONPATH"] = f"{folder / title}:{given['PYTHONPATH']}"
        process = subprocess.Popen(words, env=given, stdout=subprocess.DEVNULL, stderr=subprocess.DEVNULL)
        until("the program", begun.exists, process)
        process.send_signal(number)
        status, program = process.wait(SECONDS), int(begun.read_text())
        with suppress(ProcessLookupError):
            os.kill(program, signal.SIGKILL)
            status = "its program is left"
        tools.check(f"a report that is stopped by {number.name}{title}", (status, list(rest.iterdir())), (3, []))
        begun.unlink()


def sent_as(kind, target):
    """What puts another kind of file into the place of a machine's file."""
    return {
        "a link to a file": lambda path: path.symlink_to(target), "a link to its own file": lambda path: path.symlink_to(REAL / path.name),
        "a link to nowhere": lambda path: path.symlink_to("nowhere"), "a device": lambda path: path.symlink_to("/dev/zero"),
        "a pipe": os.mkfifo, "a folder": Path.mkdir,
    }[kind]


def test_sent_files(tools, folder):
    """A file of the machine that is a link, a pipe, a device or a folder ends with an error, at once, and nothing of another file is shown."""
    secret, data = folder / "secret", b"of the verifier alone"
    secret.write_bytes(data)
    traces = (hashlib.sha256(data).hexdigest(), f'<td class="number">{len(data)}</td>', data.decode())
    calls, reasons = [], []
    for number, (kind, file) in enumerate([
        *(("a link to a file", file) for file in FILES), *(("a link to its own file", file) for file in ("ima.list", "quote.msg", "quote.sig")),
        ("a link to nowhere", "expected.txt"), ("a device", "ima.list"), ("a device", "expected.txt"), *(("a pipe", file) for file in FILES),
        ("a folder", "firmware.log"),
    ]):
        for words in ((), quoted_by_nonce())[file.startswith("quote"):][:1 + (file == "expected.txt")]:
            boot = make_quoted(folder / f"sent {number} {len(words)}")
            path = boot / file
            path.rename(folder / f"{boot.name} {file}")
            sent_as(kind, secret)(path)
            calls.append((boot, *words))
            reasons.append((kind, file, "it is a symbolic link" if path.is_symlink() else "it is no regular file"))
    started = time.monotonic()
    for (kind, file, reason), (status, text, errors) in zip(reasons, texts_of(tools, calls)):
        page = Reader(text).top
        seen = [row[1:] for row in rows_below(page, "The verdict") if row[0] == file]
        found = (status, judged(page), f"{file} is not read: {reason}." in state_of(page)[0], seen, [each for each in traces if each in text])
        tools.check(f"{kind} in place of {file}", found, (3, ("failed", BAD), True, [["", reason]], []))
        marks = {row[3] for row in rows_below(page, "Events of the firmware log")}
        tools.check(f"{kind} in place of {file}: nothing is confirmed", marks <= {"claimed"}, True)
    tools.check("what is no file is not waited for", time.monotonic() - started < SECONDS / 2, True)


def test_exchanged_file(tools, folder):
    """Whatever becomes of the machine's files later, all of the page is on those that were read first."""
    boot, good = make_boot(folder / "exchanged"), tools.folder / "program/ima-agent"
    changes = f"echo changed > '{boot}/ima.list'; rm '{boot}/firmware.log'; ln -sf /dev/zero '{boot}/expected.txt'"
    exchange = f'''{changes}; exec '{good}' "$@"'''
    status, page, _ = report_of(tools, boot, "--program", program_that(folder / "exchanging", "verify", exchange, good))
    shown = {row[0]: row[1:] for row in rows_below(page, "The verdict")}
    wanted = {file: [str((REAL / file).stat().st_size), hashlib.sha256((REAL / file).read_bytes()).hexdigest()] for file in FILES}
    found = (status, judged(page), shown, len(rows_below(page, "Entries of the measurement list")), (boot / "ima.list").read_text())
    tools.check("files that are exchanged after they were read", found, (0, ("match", UNSIGNED), wanted, 99, "changed\n"))


def hostile_boot(folder, port):
    """A boot that matches, whose entries and events have hostile texts."""
    texts = [text for text, _ in hostile_texts(port)]
    log, measurements = read_log((REAL / "firmware.log").read_bytes()), read_list((REAL / "ima.list").read_bytes())
    events = [Event(5, EV_ACTION, {SHA256.identifier: SHA256.hash(text.encode())}, text.encode()) for text in texts]
    log = log._replace(events=[*log.events, *events])
    (first, *_), paths = measurements, [*(text.replace("\0", "").encode() for text in texts), b"caf\xe9<b>"]
    digest = log.registers().boot_aggregate(SHA256)
    entries = [entry_of(IMA_NG, SHA256, digest, b"boot_aggregate"), *(entry_of(IMA_NG, SHA256, SHA256.hash(path), path) for path in paths)]
    return make_boot(
        folder, firmware=log.spelling(), ima=list_spelling(entries), expected=inputs.expected_text(inputs.expected_after(log, entries))
    )


def test_hostile_boot(tools, folder):
    """Hostile paths and texts of events are shown as text."""
    status, page, _ = report_of(tools, hostile_boot(folder / "hostile", 9))
    tools.check("a boot with hostile texts", (status, judged(page), foreign(page)), (0, ("match", UNSIGNED), []))
    shown = [folded(text) for _, text in hostile_texts(9)]
    paths = [row[3] for row in rows_below(page, "Entries of the measurement list")][1:]
    said = [row[4] for row in rows_below(page, "Events of the firmware log")][-len(shown):]
    for number, text in enumerate(shown):
        tools.check(f"hostile path {number} is shown", paths[number], text)
        tools.check(f"hostile event {number} is shown", said[number], f"text{text}")
    tools.check("a path that is not UTF-8 is shown by its bytes", paths[-1], "caf\\xe9<b>")
    status, page, _ = report_of(tools, folder / "hostile", *hostile_words())
    unknown, (_, sides) = [row[3] for row in rows_below(page, "Unknown files")], compared_in(page)
    found = (status, judged(page), unknown[-1 - len(shown):-1], [each for each in sides if each[1] == "Earlier"], len(sides))
    tools.check("hostile unknown files, and events that the earlier log lacks", found, (1, ("differ", BAD), shown, [], len(shown)))


def hostile_words():
    """The arguments by which the entries of `hostile_boot` are unknown, and its events are compared with an earlier log."""
    return "--before", REAL / "firmware.log", "--known", SAMPLES / "known/SHA256SUMS"
