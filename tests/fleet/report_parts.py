"""Tests of the parts of `ima-report` that need no program, for tests/fleet/test: what a page says first, and its words for numbers."""

import json
import re

from cluster import ROOT, SECONDS
from reference.registers import register_words

# Prints of boots, each given as JSON, the reasons and the steps that a page has.
GUIDANCE = """
import json, sys
from fleet_verify.boot import Boot, Criteria, Input, Judgement
from fleet_verify.guidance import Call, next_steps, reasons
from fleet_verify.program import Reply
for line in json.loads(sys.argv[1]):
    verdict = Judgement(Reply(line["status"], line.get("reports", []), len(line.get("reports", [])), *line.get("fault", [""])))
    files = [Input(*each) for each in line.get("unread", [])]
    boot = Boot(files, verdict, verdict, True, line.get("other", False))
    if "places" in line:
        boot.replies["locate"] = Reply(0, [{"registers": line["places"]}], 1, "")
    given = {"key": None, "nonce": None, "known": [], "before": None, "prefix": False, **line.get("given", {})}
    criteria = Criteria(program="p", require="sha256:0-10", sha1=False, hcrtm=False, old_kernel=False, most=1, seconds=1, **given)
    steps = next_steps(boot, criteria, Call(["a folder"]))
    print(json.dumps([reasons(boot, criteria), [[step.text, *step.commands, step.part] for step in steps]]))
"""
AGAIN = "ima-report {}'a folder' > ~/report.html"
KNOWN, BEFORE, PREFIX, QUOTED = (AGAIN.format(f"{words} ") for words in (
    "--known /PATH/OF/SHA256SUMS", "--before EARLIER_FOLDER", "--prefix", "--key KEY --nonce HEX",
))
COLLECT = "ima-collect FOLDER  # on the machine, as root"
NONCE, SIGN = "openssl rand -hex 20  # the nonce, in HEX", "ima-collect --nonce HEX FOLDER  # on the machine, as root"
ASK_KNOWN = ["Which files are unknown? Compare with digests that you know:", KNOWN, ""]
ASK_BEFORE = ["What changed since an earlier boot? Compare with its folder:", BEFORE, ""]
AGGREGATES = {
    "wrong": "wrong: log and list are from different boots, or one of them was changed",
    "nobank": "not checked: the log has no bank for it, so nothing says that log and list are from one boot",
    "missing": "missing: the list does not begin with one",
}
BY_KEY, ALL = {"key": "k", "nonce": "00"}, {"known": ["k"], "before": "b"}


def report(verdict, *rows, **more):
    """A reply with a report of these rows: a number, a state and a value, or a bank before these."""
    registers = [dict(zip(("bank", "register", "state", "value"), row if isinstance(row[0], str) else ("sha256", *row))) for row in rows]
    return {
        "status": int(verdict == "differ"),
        "reports": [{"entries": 100, "boot_aggregate": "good", "registers": registers, "verdict": verdict, **more}],
    }


def error(status, *fault, **more):
    return {"status": status, "fault": fault, **more}


def test_guidance(tools):
    """What a page says first: why, and what to do next, with commands."""
    cases = {**matches(), **differences(), **errors()}
    words = ["-c", GUIDANCE, json.dumps([given for given, *_ in cases.values()])]
    said = tools.start(words, PYTHONPATH=str(ROOT / "fleet")).communicate(timeout=SECONDS)[0].splitlines()
    for (title, (_, reasons, steps)), line in zip(cases.items(), said, strict=True):
        tools.check(f"said first: {title}", json.loads(line), [reasons, steps])


def matches():
    good, signed = report("match", (10, "match")), "The given key signed the quoted PCRs. Log and list make them."
    plain, ask = "Log and list make the expected PCRs.", "Have the machine's TPM sign its PCRs with a nonce from you, and judge by that quote:"
    there = "The folder has a quote. Judge by it, with the key of the machine's TPM and the nonce that you gave out:"
    part, look = report("match", (10, "match"), confirmed=99), ["Look at what differs from the earlier boot", "before"]
    return {
        "a match": (good, [plain], [[ask, NONCE, SIGN, QUOTED, ""], ASK_KNOWN, ASK_BEFORE]),
        "a match beside a quote": ({**good, "other": True}, [plain], [[there, QUOTED, ""], ASK_KNOWN, ASK_BEFORE]),
        "a match by a quote": ({**good, "given": BY_KEY}, [signed], [ASK_KNOWN, ASK_BEFORE]),
        "a match by a quote, of known files, compared": ({**good, "given": {**BY_KEY, **ALL}}, [signed], [look]),
        "a match of a prefix": (
            {**part, "given": {**BY_KEY, **ALL}}, ["The given key signed the quoted PCRs. Log and the list's first part make them."],
            [["Nothing confirms the later entries. Collect again:", NONCE, SIGN, ""], look],
        ),
        "a match of all entries, before bytes that are none": (
            report("match", (10, "match"), confirmed=100, unconfirmed={"kind": "list"}), ["Log and the list's first part make the expected PCRs."],
            [[ask, NONCE, SIGN, QUOTED, ""], ["Nothing confirms the later entries. Collect again:", COLLECT, ""], ASK_KNOWN, ASK_BEFORE],
        ),
    }


def differences():
    other, lacks = "log and list make a value other than the expected one", "the log has no such bank or PCR"
    grown = ("PCR 10 has its expected value after the first 99 of 100 entries: the list grew after the PCR was read, or the value is old. Judge that "
             "part, or collect again:")
    nowhere = "No part of the list makes the expected value of PCR 10: entries are missing, or were added or changed. Collect again:"
    unsaid = ("A quote does not say which PCR differs: expected.txt beside it does. If the list grew, judge the part that the quote covers. "
              "Otherwise ask for a new quote:")
    log = "the log is from another boot, incomplete or changed."
    at = {"places": [{"bank": "sha256", "register": 10, "place": "entry", "number": 98}]}
    gone = {"places": [{"bank": "sha256", "register": 10, "place": "nowhere"}]}
    ten, quoted = report("differ", (10, "differ", "00")), report("differ", quote="differ")
    ten_says = f"sha256 PCR {register_words(10)} differs: {other}."
    return {
        "a list that grew": ({**ten, **at}, [ten_says], [[grown, PREFIX, COLLECT, ""]]),
        "a list that grew, by --prefix": ({**ten, **at, "given": {"prefix": True}}, [ten_says], [[grown, COLLECT, ""]]),
        "another list": ({**ten, **gone}, [ten_says], [[nowhere, COLLECT, ""]]),
        "a list that nobody looked through": (ten, [ten_says], [["PCR 10 differs. Collect again:", COLLECT, ""]]),
        "PCRs of the log": (
            report("differ", (0, "differ", "00"), (1, "differ", "00"), (4, "differ", "00"), (5, "match")), [f"sha256 PCRs 0-1, 4 differ: {other}."],
            [[f"PCRs 0-1, 4: {log} Compare with an earlier boot:", BEFORE, ""]],
        ),
        "a PCR of the log, compared": (
            {**report("differ", (7, "differ", "00")), "given": {"before": "b"}}, [f"sha256 PCR {register_words(7)} differs: {other}."],
            [[f"PCR {register_words(7)}: {log} Look at what differs from the earlier boot", "before"]],
        ),
        "a PCR that is missing": (
            report("differ", (3, "missing")), [f"sha256 PCR {register_words(3)} is missing: required, but expected.txt has no value."],
            [["Collect the required PCRs, or require others with --require:", COLLECT, ""]],
        ),
        "PCRs that are missing, and that ima-collect does not take": (
            report("differ", (3, "missing"), ("sha1", 3, "missing")),
            [f"{bank} PCR {register_words(3)} is missing: required, but expected.txt has no value." for bank in ("sha256", "sha1")],
            [["Collect the required PCRs, or require others with --require.", ""]],
        ),
        "a bank that is absent": (
            report("differ", *(("sha1", number, "absent") for number in range(24))), [f"sha1 PCRs 0-23 are absent: {lacks}."],
            [["Require a bank that the log has, with --require.", ""]],
        ),
        "a quote of other values": ({**quoted, "given": BY_KEY}, ["Log and list do not make the quoted PCRs."], [[unsaid, PREFIX, NONCE, SIGN, ""]]),
        **other_differences(gone, ten_says, nowhere),
    }


def other_differences(gone, ten_says, nowhere):
    """Cases in which more than values of PCRs differs."""
    boots, more = "Log and list must be from one boot. Collect both again:", AGAIN.format("--known /PATH/OF/MORE_SHA256SUMS ")
    return {
        "unknown entries": (
            report("differ", unknown=[7]), ["Entry 7 is unknown."],
            [["Look at the unknown files", "unknown"], ["Add the digests of those that you know:", more, ""]],
        ),
        "an event of the list's PCR": (
            report("differ", extends=[{"event": 25, "register": 10}]), ["Event 25 of the log extends PCR 10, which only the list may extend."],
            [["Log and list may hide what ran there. Look at this event or entry", "events"]],
        ),
        "an entry of the log's PCR": (
            report("differ", extends=[{"entry": 7, "register": 9}]), ["Entry 7 of the list extends PCR 9, which only the log may extend."],
            [["Log and list may hide what ran there. Look at this event or entry", "entries"]],
        ),
        "two reasons to collect": (
            {**report("differ", (10, "differ", "00"), boot_aggregate="wrong"), **gone}, [ten_says, f"The boot aggregate is {AGGREGATES['wrong']}."],
            [[nowhere, COLLECT, ""], [boots, ""]],
        ),
        **{
            f"a boot aggregate: {state}": (report("differ", boot_aggregate=state), [f"The boot aggregate is {why}."], [[boots, COLLECT, ""]])
            for state, why in AGGREGATES.items()
        },
    }


def errors():
    copied = ["If the files were not copied whole, or at different times, collect again:", COLLECT, ""]
    stays = ["If the error persists, the machine sends a changed or damaged file: do not trust the machine.", ""]
    cut, gone, there = "refused: list fault 1 at entry 49", ["ima.list", 0, "", "it is not there", True], ["expected.txt", 9, "00", "", True]
    again = ["Run the same command again. If the error persists, keep the folder, and report a bug in ima-agent.", ""]
    new = ["Ask for a new quote with a new nonce, and judge by that nonce:", NONCE, SIGN, ""]
    return {
        "an error in words": (
            error(2, cut, "list", "entry 49: it is cut\nCopy it again."), ["entry 49: it is cut", "Copy it again."], [copied, stays],
        ),
        "an error of expected PCRs": (error(2, "refused: expected fault 2 at line 25", "expected", "twice"), ["twice"], [copied]),
        "an error without words": (error(2, cut, "list"), ["ima-agent gives no verdict: a list is not valid."], [copied, stays]),
        "an error of no known kind": (error(3, "failed: otherwise", "x"), ["ima-agent gives no verdict: it says no more."], [again]),
        "wrong arguments": (
            error(2, "refused: command line"), ["ima-agent gives no verdict: the arguments are wrong, or there are 2^32 FILEs or more."],
            [["See the usage:", "ima-report --help", ""]],
        ),
        "a file that is not there": (error(3, "failed: read ima.list", "read", "cannot read ima.list", unread=[gone, there]),
                                     ["ima.list is not read: it is not there."], [["Collect the files again:", COLLECT, ""]]),
        "a folder without files of a boot": (
            error(3, "failed: read ima.list", "read", "cannot read ima.list", unread=[gone]), ["ima.list is not read: it is not there."],
            [["Is this the right folder? It has no file of a boot. If it is, collect them:", COLLECT, ""]],
        ),
        "a file of the operator": (error(2, "failed: read known0", "read", unread=[["k", *gone[1:4]]]), ["k is not read: it is not there."],
                                   [["Check the file names in the command.", ""]]),
        "no program": (error(3, "p cannot be started: no"), ["p cannot be started: no."], [["Install ima-agent, or name its file with --program.", ""]]),
        "a program that fails in lines": (error(3, "one\n\ntwo", "", "one\n\ntwo"), ["One", "two."], [again]),
        "a program that takes too long": (error(3, "the program did not end within 1 seconds"), ["The program did not end within 1 seconds."],
                                          [["Give the program more time, with --seconds.", ""]]),
        "another nonce": (error(4, "refused: quote fault 11", "quote", "another", given=BY_KEY), ["another"], [new]),
        "another key": (error(4, "refused: signature fault 9", "signature", "not signed", given=BY_KEY), ["not signed"],
                        [["Give the key that you enrolled for this machine, with --key.", ""]]),
        "no digests": (
            error(2, "refused: known fault 2 at line 1", "known", "known1: no digest", given={"known": ["a", "b/c"]}), ["b/c: no digest"],
            [["Give --known the unchanged output of sha256sum.", ""]],
        ),
        "a status of another verdict": ({**report("differ"), "status": 0}, ["The program's status 0 is not that of its report."], [again]),
    }


# Prints the words of the package: of PCRs, GUIDs and errors, of attributes, and of a file that is not read.
WORDS = """
import errno, json, os
from fleet_verify.guidance import ERRORS
from fleet_verify.field_names import GUIDS, attributes, in_words, pcr, pcrs
from fleet_verify.wording import words_of
print(json.dumps([[pcr(number) for number in range(24)], GUIDS, ERRORS]))
print(json.dumps([pcrs([each]) for each in (8, 10)] + [pcrs(each) for each in ([0, 1], [9, 0, 2, 1, 7, 8], [3, 5])]))
print(json.dumps([attributes(each) for each in (0, 1, 0x109, 0x40000003, 0x300)]))
faults = [OSError(number, os.strerror(number)) for number in (errno.ENOENT, errno.EACCES, errno.EISDIR, errno.ELOOP, errno.ESTALE)]
print(json.dumps([words_of(each) for each in (*faults, OSError("it is no regular file"))]))
named, owner = "8be4df61-93ca-11d2-aa0d-00e098032b8c", "77fa9abd-0359-4d32-bd60-28f4e78f784b"
told = in_words({"variable": {"guid": named, "name": named, "option": {"attributes": 8, "path": owner}, "lists": [{"owners": [owner, "x"]}]}})
print(json.dumps(told))
"""


def test_words(tools):
    """Words for numbers are those of docs/layouts.txt and docs/errors.txt; no other text is taken for a GUID."""
    said = tools.start(["-c", WORDS], PYTHONPATH=str(ROOT / "fleet")).communicate(timeout=SECONDS)[0].splitlines()
    (names, guids, kinds), several, attributes, unread, told = map(json.loads, said)
    tools.check("words: PCRs", names, [register_words(number) for number in range(24)])
    layouts, text = (ROOT / "docs/layouts.txt").read_text(), (ROOT / "docs/errors.txt").read_text()
    vendors = re.findall(r"^  (?:global|security|shim) +([0-9a-f-]{36}) ", layouts, re.MULTILINE)
    vendors += ["a5c059a1-94e4-4aa7-87b5-ab155c2bf072"]
    tools.check("words: vendors of variables, and X.509", [each for each in vendors if each not in guids], [])
    lines = text[:text.index("Log faults")]
    wanted = dict(re.findall(r"^  (?:refused|failed): .*? +([a-z_0-9]+) +[234]  (.*)$", lines, re.MULTILINE))
    tools.check("words: errors", kinds, {kind: what for kind, what in wanted.items() if kind in kinds})
    tools.check("words: several PCRs", several, ["PCR 8", f"PCR {register_words(10)}", "PCRs 0-1", "PCRs 0-2, 7-9", "PCRs 3, 5"])
    tools.check("words: attributes of load options (UEFI, 'Load Options')", attributes, [
        "0: not active, a boot option", "1: active, a boot option", "265: active, hidden, an application",
        "1073741827: active, reconnects all drivers, a boot option, 0x40000000", "768: not active, category 0x300",
    ])
    tools.check("words: files that are not read", unread, [
        "it is not there", "permission denied", "it is a folder", "too many symbolic links lead to it", "Stale file handle",
        "it is no regular file",
    ])
    named, owner = "8be4df61-93ca-11d2-aa0d-00e098032b8c", "77fa9abd-0359-4d32-bd60-28f4e78f784b"
    tools.check("words: GUIDs", told, {"variable": {
        "guid": f"{named} (variables that UEFI defines)", "name": named,
        "option": {"attributes": "8: not active, hidden, a boot option", "path": owner},
        "lists": [{"owners": [f"{owner} (the GUID that Microsoft uses)", "x"]}],
    }})


# Prints how two logs are put side by side.
COMPARED = """
import json, sys
from fleet_verify.comparison import compare
from fleet_verify.program import Reply
lines, now, before, is_whole = json.loads(sys.argv[1])
replies = [Reply(0, each, len(each) + (not is_whole), "") for each in (now, before)]
found = compare(lines, *replies)
def numbers(pairs):
    return [[each and [each.number, each.digest] for each in pair] for pair in pairs]
print(json.dumps([found.same, found.unconfirmed, [[each.register, each.bank, each.alike, *map(numbers, each[3:])] for each in found.differing]]))
"""


def test_comparison(tools):
    """Two logs side by side: no digest of a PCR is there as one of the earlier log and one of now, and nothing is the same that is not in both."""

    def event(number, digest, register=4):
        return {"event": number, "register": register, "type": "EV_ACTION", "type_number": 5, "digests": {"sha256": digest}}

    now = [event(1, "a"), event(2, "n"), event(3, "c"), event(4, "b"), event(5, "d"), event(6, "z", 5)]
    before = [event(1, "a"), event(2, "o"), event(3, "b"), event(4, "c"), event(5, "p"), event(6, "d"), event(7, "q")]
    listed = [("now", 2, "n"), ("now", 4, "b"), ("before", 2, "o"), ("before", 3, "b"), ("before", 5, "p"), ("before", 7, "q")]
    lines = [{"register": 4, "bank": "sha256", "alike": 1}, *({"register": 4, when: number, "digest": digest} for when, number, digest in listed)]
    lines += [{"register": 5, "alike": "all"}, {"register": 6, "alike": "unknown"}]
    moved, same = [[[3, "b"], [4, "b"]]], [[[1, "a"], [1, "a"]], [[4, "c"], [3, "c"]], [[6, "d"], [5, "d"]]]
    o, n, p, q = [2, "o"], [2, "n"], [5, "p"], [7, "q"]
    other = [*now[:2], event(3, "x"), *now[3:]]
    for title, given, pairs, both in (
        ("whole logs", (lines, now, before, True), [[o, n], [p, None], [q, None]], same),
        ("a log that is cut", (lines, now, before, False), [[o, n], [p, None], [q, None]], []),
        ("logs of which other events differ", (lines, other, before, True), [[o, n], [p, None], [q, None]], []),
    ):
        words = ["-c", COMPARED, json.dumps(given)]
        said = json.loads(tools.start(words, PYTHONPATH=str(ROOT / "fleet")).communicate(timeout=SECONDS)[0])
        tools.check(f"side by side: {title}", said, [[5], [6], [[4, "sha256", 1, pairs, moved, both]]])
