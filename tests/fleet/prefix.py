"""Tests of --prefix, for tests/fleet/test: machines whose lists grew after their PCRs were read match, and it is said that what follows is not
confirmed."""

import json
import shutil

from cluster import REQUIRE, ROOT, has
from fleet_verify.answers import read_answers
from fleet_verify.machines import Machine
from fleet_verify.verdict import Asked
from keeping import make_machines
from page_tree import Reader, rows_below, state_of
from pages import page_of
from quoted import give_quotes
from tables import query

SAMPLE = ROOT / "samples/real-boot"
ENTRY = 95  # bytes: the last entry of the sample
ENTRIES, CUT = 99, 7
LONGER = "a2bcf779880ae33077f9e7992851299f30cea5f6cffc6512de6cd10aa457a7f3"  # register 10 after the longer list, in README
AS_EXPECTED = "e8ed95b94e8d66f42e5b9be4d794dc0c7701e2360f03537fe59e9ba861a8024f"  # and of the sample
ROWS = "SELECT machine, verdict, prefix, confirmed, entries, list_from FROM verdicts ORDER BY machine"
WHOLE, GROWN, OTHER = ("machine 0", "machine 1", "machine 2")
TOLD = "fleet-verify: match 1: of the list only a prefix is confirmed, and nothing after it"


def make_grown(folder):
    """The table of three machines: one whose list is that of its PCRs, one whose list grew by an entry and a part of one, and one whose PCRs are of no prefix of its list."""
    machines = make_machines(folder, 3)
    grown, other = folder / "1/ima.list", folder / "2/expected.txt"
    measurements = grown.read_bytes()
    grown.write_bytes(measurements + measurements[-ENTRY:] + measurements[-ENTRY:][:CUT])
    other.write_text(other.read_text().replace(AS_EXPECTED, 64 * "a"))
    return machines, len(measurements)


def test_prefix(tools):
    folder = tools.folder / "prefix"
    folder.mkdir()
    test_lies(tools)
    test_refused(tools, folder)
    test_runs(tools, folder)
    test_cut(tools, folder)
    test_polls(tools, folder)
    test_quoted(tools, folder)


def rows(is_asked, grown=("match", ENTRIES, ENTRIES + 1), start=0):
    """What ROWS must give."""
    verdict, confirmed, entries = grown
    return [
        (WHOLE, "match", is_asked, ENTRIES if is_asked else None, ENTRIES, start), (GROWN, verdict, is_asked, confirmed, entries, start),
        (OTHER, "differ", is_asked, None, ENTRIES, 0),
    ]


def test_runs(tools, folder):
    """With --prefix a list that grew matches as far as its PCRs go, and its row, the summary and the page say how far. Without, it is refused."""
    machines, _ = make_grown(folder / "runs")
    plain, table = folder / "plain.db", folder / "prefix.db"
    tools.verify("--workers", 1, machines, plain)
    cause = query(plain, "SELECT cause, confirmed FROM verdicts WHERE machine = ?", GROWN)
    tools.check("a list that grew, without --prefix", cause, [(f"refused: list fault 1 at entry {ENTRIES + 1}", None)])
    status, output, errors = tools.verify("--workers", 1, "--prefix", machines, table)
    tools.check("--prefix: status and counts", (status, output.splitlines()[:2]), (1, ["match 2", "differ 1"]))
    tools.check("--prefix: verdicts, and how many entries are confirmed", query(table, ROWS), rows(1, ("match", ENTRIES, ENTRIES + 1)))
    tools.check("--prefix: the summary says that a prefix matches", TOLD in errors.splitlines(), True)
    tools.check("--prefix: the view of prefixes", query(table, "SELECT * FROM prefixes"), [(GROWN, ENTRIES, ENTRIES + 1, 1)])
    for title, words, where in (("without", (), table), ("with", ("--prefix",), plain)):
        status, _, errors = tools.verify("--workers", 1, "--again", "none", *words, machines, where)
        tools.check(f"--prefix: verdicts of the other kind, {title}", (status, "--prefix: take another TABLE" in errors), (2, True))
    status, output, _ = tools.verify("--workers", 1, "--prefix", "--json", machines, folder / "as json.db")
    tools.check("--prefix: JSON has how many prefixes match", json.loads(output)["matching_prefixes"], 1)
    if has(tools.python, "jinja2"):
        page = Reader(page_of(tools, table)[1]).top
        found = rows_below(page, "Matches that confirm only the first entries")
        tools.check("--prefix: the page has how much is confirmed", found, [[GROWN, str(ENTRIES), str(ENTRIES + 1), "1"]])
        tools.check("--prefix: the page says so first", "Nothing confirms the entries after them." in state_of(page)[0], True)


def test_cut(tools, folder):
    """A list that continues with bytes that are not an entry: all its entries are confirmed, and what follows is told all the same."""
    machines = make_machines(folder / "cut", 1)
    cut, table = folder / "cut/0/ima.list", folder / "cut.db"
    cut.write_bytes(cut.read_bytes() + cut.read_bytes()[-ENTRY:][:CUT])
    tools.verify("--workers", 1, "--prefix", machines, table)
    tools.check("--prefix: bytes that are not an entry: the verdict", query(table, ROWS), [(WHOLE, "match", 1, ENTRIES, ENTRIES, 0)])
    tools.check("--prefix: bytes that are not an entry: the view", query(table, "SELECT * FROM prefixes"), [(WHOLE, ENTRIES, ENTRIES, 0)])


def test_polls(tools, folder):
    """A poll's checkpoint is at the end of the confirmed prefix: what was not confirmed is read again."""
    machines, size = make_grown(folder / "polls")
    table, expected, grown = folder / "polls.db", folder / "polls/1/expected.txt", folder / "polls/1/ima.list"

    def check(title, *wanted):
        tools.verify("--workers", 1, "--poll", "--prefix", machines, table)
        tools.check(f"polls by --prefix: {title}", query(table, ROWS)[1], (GROWN, *wanted))

    check("the list grew", "match", 1, ENTRIES, ENTRIES + 1, 0)
    check("the same again, from the end of the prefix", "match", 1, ENTRIES, ENTRIES + 1, size)
    grown.write_bytes(grown.read_bytes()[:-CUT])
    expected.write_text(expected.read_text().replace(AS_EXPECTED, LONGER))
    check("the PCRs are of the longer list", "match", 1, ENTRIES + 1, ENTRIES + 1, size)
    expected.write_text(expected.read_text().replace(LONGER, 64 * "b"))
    check("the PCRs are of no prefix", "differ", 1, None, ENTRIES + 1, 0)
    matched = query(table, "SELECT matched < time FROM verdicts WHERE machine = ?", GROWN)
    tools.check("polls by --prefix: the last match is before the verdict", matched, [(1,)])
    status, _, errors = tools.verify("--workers", 1, "--poll", machines, table)
    tools.check("polls by --prefix: one without", (status, "--prefix: take another TABLE" in errors), (2, True))


def test_quoted(tools, folder):
    """By a quote of the PCRs before the list grew: a match of the prefix with --prefix, and none without."""
    tools.needs_modules("cryptography")
    machines, _ = make_grown(folder / "quoted")
    for title, words, wanted in (("without", (), [("refused", None)]), ("with", ("--prefix",), [("match", ENTRIES)])):
        for kind, more in (("run", ()), ("poll", ("--poll",))):
            table = folder / f"{kind} quoted {title}.db"
            keys = give_quotes(tools, machines, table, SAMPLE / "expected.txt")
            tools.verify("--workers", 1, *words, *more, machines, table, by=("--keys", keys))
            found = query(table, "SELECT verdict, confirmed FROM verdicts WHERE machine = ?", GROWN)
            tools.check(f"a quote and a list that grew: a {kind} {title} --prefix", found, wanted)
            shutil.rmtree(machines.with_suffix(".nonces"))


def test_refused(tools, folder):
    """Where nothing is required, a prefix of no entry would match: --prefix is refused there."""
    machines = make_machines(folder / "refused", 1)
    status, output, errors = tools.verify("--workers", 1, "--prefix", machines, folder / "never.db", require="none")
    tools.check("--prefix where nothing is required", (status, output, "--prefix needs required PCRs" in errors), (2, "", True))


def test_lies(tools):
    """A worker whose report is on a prefix that nobody asked for, or is a match on none where it was asked for, gives no verdict; and how much is
    confirmed is what the report says."""
    machine = Machine("a", ("/a",))
    on_all = '{{"events":24,"locality":0,"entries":100,"compared":24,"registers":[],"verdict":"{}"}}'
    on_prefix = '{{"events":24,"locality":0,"entries":100,"confirmed":99,"compared":24,"registers":[],"verdict":"{}"}}'
    for title, report, verdict, is_asked, wanted in (
        ("asked for, and given", on_prefix, "match", True, ("match", 99)), ("not asked for", on_prefix, "match", False, ("troubled", None)),
        ("asked for, and a match of all", on_all, "match", True, ("troubled", None)),
        ("asked for, and no match", on_all, "differ", True, ("differ", None)),
        ("not asked for, nor given", on_all, "match", False, ("match", None)), ("a prefix that differs", on_prefix, "differ", True, ("differ", 99)),
    ):
        told = {"worker": "here", "answers": [{"places": ["/a"], "verdict": verdict, "confirmed": 7}], "seconds": 1}
        asked = Asked(REQUIRE, False, False, 60, prefix=is_asked)
        (answer,) = read_answers(f"{json.dumps(told)}\n{report.format(verdict)}", [machine], asked).answers
        tools.check(f"a prefix: {title}", (answer["verdict"], answer.get("confirmed")), wanted)
