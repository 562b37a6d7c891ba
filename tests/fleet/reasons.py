"""Tests of what is said in words, for tests/fleet/test: of errors of the system, of causes, and of why machines differ."""

import json
from contextlib import closing

from cluster import ROOT, SECONDS, REQUIRE
from fleet_verify.machines import Machine
from fleet_verify.summary import Summary
from fleet_verify.verdict import NO_KEY, NO_NONCE, NO_QUOTE, NOTHING_EXPECTED, SHORTER, USED
from fleet_verify.quotes import NO_LONGER, TOO_OLD
from fleet_verify.reading import STALE
from fleet_verify.run import KILLED
from fleet_verify.verdicts import Verdicts
from fleet_verify.wording import ranges, reason_of, reason_of_report, without_place
from tables import query

COPY = "Copy the machine's files again."
NONCE = "Give out a nonce with `fleet-verify nonces`, and collect a quote for it with `ima-collect --nonce`."
# Of each cause what is wrong, and what to do.
CAUSES = {
    NOTHING_EXPECTED: "Nothing to compare: expected.txt states no PCR. Collect expected.txt again, or judge the machine by a quote.",
    NO_KEY: "The folder of keys has no key for this machine. Enroll the machine with ima-enroll, and name its folder of keys with --keys.",
    NO_NONCE: f"No nonce was given out for this machine, or it is too old. {NONCE}",
    NO_QUOTE.format("quote: it is not there"):
        "There is no quote: quote.msg: it is not there. Run `ima-collect --nonce` on the machine, and copy what it collected.",
    NO_QUOTE.format("signature: it is not there"):
        "There is no quote: quote.sig: it is not there. Run `ima-collect --nonce` on the machine, and copy what it collected.",
    USED: "An earlier verdict used the nonce of its quote. Give out a new nonce, and collect a quote for it.",
    NO_LONGER: "Another verdict used the nonce of its quote, or it is given out no longer. Give out a new nonce, and collect a quote for it.",
    TOO_OLD: "The nonce of its quote is older than --max-age, or from the future. Give out a new nonce, and collect a quote for it in time.",
    STALE: f"The list was last changed longer ago than --max-age, or at a time in the future. {COPY}",
    SHORTER: "The measurement list is shorter than at the checkpoint. Copy the list again. If the machine did not reboot, do not trust it.",
    KILLED: "Each worker that verified it died. Look at the machine's files: they may be hostile. Judge them separately, with ima-agent.",
    "refused: too long list": "More than 64 MiB: the list. Copy it again. If it is still that long, reboot the machine: its list begins again.",
    "no answer in time": "No answer in time. See whether its files can be reached, or give it more time with --deadline.",
    "log: permission denied": f"The firmware log cannot be read: permission denied. {COPY}",
    "list: it is no regular file": f"The measurement list cannot be read: it is no regular file. {COPY}",
    "expected: it is not there": f"The expected PCRs cannot be read: it is not there. {COPY}",
    "quote: it is a symbolic link": f"The quote cannot be read: it is a symbolic link. {COPY}",
    "signature: no answer in time": f"The signature cannot be read: no answer in time. {COPY}",
    "the worker's answer is on other files": "The worker's answer is on other files.",
}
# Prints exceptions in words.
ERRORS = """
import errno, os
from fleet_verify.reading import cause_of
for number in (errno.ENOENT, errno.ENOTDIR, errno.EACCES, errno.EPERM, errno.ELOOP, errno.ENAMETOOLONG, errno.EFBIG, errno.ENOSPC, errno.ENOTCONN):
    print(cause_of(OSError(number, os.strerror(number), "/there/log"), "/there/log"))
print(cause_of(TimeoutError("the read timed out")))
print(cause_of(ModuleNotFoundError("No module named 'ocifs'")))
print(cause_of(KeyError("x")), cause_of(RuntimeError()), sep="; ")
"""
ERRORS_WANTED = [
    *2 * ["it is not there"], *2 * ["permission denied"], "too many symbolic links lead to it", "its name is too long", "the file is too large",
    "the disk is full", "Transport endpoint is not connected", "no answer in time", "No module named 'ocifs'",
    "unexpected error, KeyError: 'x'; unexpected error, RuntimeError",
]


def rows_of_bank(bank, states, first=0):
    """Rows of a report of this bank, in these states."""
    return [{"bank": bank, "register": number, "state": state} for number, state in enumerate(states, first)]


def test_reasons(tools):
    said = tools.start(["-c", ERRORS], PYTHONPATH=f"{ROOT / 'bindings/python'}:{ROOT / 'fleet'}").communicate(timeout=SECONDS)[0]
    tools.check("errors of the system in words", said.splitlines(), ERRORS_WANTED)
    tools.check("causes in words", {cause: reason_of(cause) for cause in CAUSES}, CAUSES)
    tools.check("numbers as people list them", [ranges(each) for each in ([5], [2, 1], [7, 0, 1, 2, 9], [])], ["5", "1-2", "0-2, 7, 9", ""])
    test_differing(tools)
    test_places(tools)


def test_differing(tools):
    """Why machines differ, in one sentence, without what is only one machine's."""
    match = rows_of_bank("sha256", 24 * ["match"])
    for title, given, wanted in (
        ("a bank that the log lacks", {"registers": [*match, *rows_of_bank("sha1", 24 * ["absent"])]}, "The log has no SHA-1 bank."),
        ("PCRs that a bank lacks", {"registers": [*rows_of_bank("sha1", ["match", "absent"])]}, "The log does not have SHA-1 PCR 1."),
        ("a PCR", {"registers": rows_of_bank("sha384", ["differ"], 10)}, "SHA-384 PCR 10 differs."),
        ("PCRs", {"registers": rows_of_bank("sha256", ["differ", "differ", "match", "differ"])}, "SHA-256 PCRs 0-1, 3 differ."),
        ("what is not expected", {"registers": rows_of_bank("sha1", ["missing"], 10)}, "No value is expected for SHA-1 PCR 10."),
        ("two banks", {"registers": [*rows_of_bank("sha1", ["differ"]), *rows_of_bank("sha256", ["differ"])]},
         "SHA-1 PCR 0 differs; SHA-256 PCR 0 differs."),
        ("a quote", {"quote": "differ"}, "Log and list do not make the quoted PCRs."),
        ("what extends", {"registers": match, "extends": [{"event": 25, "register": 10}, {"entry": 99, "register": 9}]},
         "An event of the log extends PCR 10; an entry of the list extends PCR 9."),
        ("nothing", {"registers": match}, "The report does not say why."),
    ):
        tools.check(f"why a machine differs: {title}", reason_of_report(json.dumps(given)), wanted)
    for aggregate, wanted in (
        ("wrong", "The boot aggregate is not the log's."), ("nobank", "The boot aggregate uses a bank that the log lacks."),
        ("missing", "There is no boot aggregate."), ("good", "Entries are for unknown files."), ("old_kernel", "Entries are for unknown files."),
    ):
        unknown = 2 if aggregate in ("good", "old_kernel") else 0
        tools.check(f"why a machine differs: boot aggregate {aggregate}", reason_of_report("{}", aggregate, unknown), wanted)


def test_places(tools):
    """Machines with one error at several places have one reason, in the view and in the summary; each has its own place."""
    texts = {
        "refused: log fault 1 at event {}": "The firmware event log is damaged at event {}: it is cut short. Copy the log again.",
        "refused: replay fault 1 at entry {}": "The measurement list is damaged at entry {}: its template digest is wrong. Copy the list again.",
        "refused: expected fault 2 at line {}": "The PCR values are wrong at line {}: it repeats a PCR of its bank. State each PCR of a bank once.",
        "refused: key fault 17": "The key cannot be used: the key does not sign. Give the attestation key, not the endorsement key.",
    }
    answers = {
        f"{number} {place}": {"verdict": "refused", "cause": cause.format(place), "reason": text.format(place), "time": "now"}
        for number, (cause, text) in enumerate(texts.items()) for place in (1, 11, 7)
    }
    path = tools.folder / "places.db"
    summary = Summary()
    with closing(Verdicts(str(path), REQUIRE)) as table:
        table.record([(Machine(name, (f"/{name}",)), answer) for name, answer in answers.items()], ())
        summary.look(table)
    found = {name: (cause, reason) for name, cause, reason in query(path, "SELECT machine, cause, reason FROM verdicts")}
    tools.check("each machine has its own place", found, {name: (answer["cause"], answer["reason"]) for name, answer in answers.items()})
    common = [text.replace(" at event {}", "").replace(" at entry {}", "").replace(" at line {}", "") for text in texts.values()]
    rows = query(path, "SELECT verdict, machines, reason FROM reasons ORDER BY reason")
    tools.check("machines with one error at several places", rows, [("refused", 3, text) for text in sorted(common)])
    tools.check("the same by the page", sorted({without_place(answer["reason"]) for answer in answers.values()}), sorted(common))
    tools.check("the most frequent reasons are in words", [line.partition(": ")[2] in common for line in summary.lines], [True, True, True, False])
