"""Tests of --known, for tests/fleet/test: machines whose lists have entries of no known file.

The machines are made from samples/real-boot, whose list has three violations, and no other entry of no known file. One has the list before
the first of these."""

import os
import shutil
from unittest import mock

from cluster import ROOT, SECONDS, until
from fleet_verify import known
from tables import query

from reference.measurement_list import list_spelling, read_list

SAMPLE, KNOWN = ROOT / "samples/real-boot", ROOT / "samples/known"
VIOLATIONS = (93, 94, 97)
ROWS = "SELECT machine, verdict, unknown, first_unknown, list_from, json_extract(report, '$.unknown') FROM verdicts ORDER BY machine"


def make_machines(folder):
    """The table of two machines: one with the list before its violations, and one with the whole list."""
    log, measurements = ((SAMPLE / name).read_bytes() for name in ("firmware.log", "ima.list"))
    clean = list_spelling(read_list(measurements)[: VIOLATIONS[0]])
    expected, whole = (KNOWN / "before-violations.expected").read_bytes(), (SAMPLE / "expected.txt").read_bytes()
    for name, files in (("clean", (log, clean, expected)), ("violated", (log, measurements, whole))):
        (folder / name).mkdir(parents=True)
        for file, data in zip(("firmware.log", "ima.list", "expected.txt"), files):
            (folder / name / file).write_bytes(data)
    table = folder / "machines.tsv"
    table.write_text("".join(f"{name}\t{folder / name}\n" for name in ("clean", "violated")))
    return table, len(clean)


def rows(clean=(), violated=VIOLATIONS, start=0):
    """What ROWS must give, where these entries are of no known file, and of the clean list so many bytes were read before."""
    numbers = [f"[{','.join(map(str, unknown))}]" for unknown in (clean, violated)]
    return [
        ("clean", "differ" if clean else "match", len(clean), clean[0] if clean else None, start, numbers[0]),
        ("violated", "differ", len(violated), violated[0], 0, numbers[1]),
    ]


def test_known(tools):
    folder = tools.folder / "known"
    table, size = make_machines(folder)
    sums = (KNOWN / "SHA256SUMS").read_bytes()
    first, rest = (folder / name for name in ("first", "rest"))
    head, line, tail = sums.partition(b"\n")
    first.write_bytes(head), rest.write_bytes(tail)  # (the first file lacks its last line feed)
    test_refused(tools, folder, table, first)
    test_texts(tools, folder)
    test_runs(tools, table, first, rest)
    test_changes(tools, table, size, first, rest)


def test_refused(tools, folder, table, first):
    """Known files that are wrong, or not there, or need what is not required, are refused before anything starts."""
    verdicts, wrong, weak, fifo = (folder / name for name in ("never.db", "wrong", "weak", "a fifo"))
    wrong.write_bytes(64 * b"a" + b"  /a\nx\n")
    weak.write_bytes(40 * b"a" + b"  /a\n")
    os.mkfifo(fifo)
    for title, words, told in (
        ("a wrong line", ["--known", wrong], f"{wrong}: line 2: known fault 2"),
        ("a wrong line of a later file", ["--known", first, "--known", first, "--known", wrong], f"{wrong}: line 2: known fault 2"),
        ("a wrong line at the end of a file, and a later file", ["--known", wrong, "--known", first], f"{wrong}: line 2: known fault 2"),
        ("a digest by SHA-1", ["--known", first, "--known", weak], f"{weak}: line 1: known fault 1"),
        ("no file", ["--known", folder / "none"], "it is not there"),
        ("no regular file", ["--known", fifo], "it is no regular file"),
        ("a folder", ["--known", folder], "it is no regular file"),
    ):
        status, output, errors = tools.verify("--workers", 1, *words, table, verdicts)
        tools.check(f"refused known files: {title}", (status, output, told in errors, verdicts.exists()), (2, "", True, False))
    status, output, errors = tools.verify("--workers", 1, "--known", first, table, verdicts, require="none")
    told = "--known needs required PCRs" in errors
    tools.check("refused known files: nothing is required", (status, output, told, verdicts.exists()), (2, "", True, False))


def test_texts(tools, folder):
    """The longest file, whose last line has no end, and an empty one, and how many bytes are too many."""
    texts, paths = (b"0123456789", b"", b"x\ny\n", b"0123456789\n"), []
    for number, text in enumerate(texts):
        paths.append(str(folder / f"text {number}"))
        (folder / f"text {number}").write_bytes(text)
    (folder / "text 0").rename(folder / "text")
    (folder / "text 0").symlink_to("text")  # (what the operator names may be a link)
    with mock.patch.object(known, "MOST_BYTES", 10):
        found = known.read_known(paths[:3])
        places = [found.place(line) for line in (1, 2, 3)]
        try:
            said = known.read_known(paths)
        except known.BadKnown as fault:
            said = str(fault)
    wanted = [f"{paths[0]}: line 1", f"{paths[2]}: line 1", f"{paths[2]}: line 2"]
    tools.check("known files: their text, and the places of its lines", (found.text, places), (b"0123456789\nx\ny\n", wanted))
    tools.check("known files: one that is too long", said, f"{paths[3]}: it has more than 10 bytes")


def test_runs(tools, table, first, rest):
    """Runs by known files, by workers of this computer, and by one that comes to a scheduler later."""
    verdicts, words = tools.folder / "known.db", ["--known", first, "--known", rest]
    status, output, _ = tools.verify("--workers", 2, *words, table, verdicts)
    tools.check("known files: status and counts", (status, output.splitlines()[:2]), (1, ["match 1", "differ 1"]))
    tools.check("known files: verdicts", query(verdicts, ROWS), rows())
    empty = shutil.copyfile("/dev/null", tools.folder / "empty")
    none = tools.folder / "known none.db"
    tools.verify("--workers", 1, "--known", empty, table, none)
    tools.check("no file is known", query(none, ROWS), rows(tuple(range(1, 93)), tuple(range(1, 99))))
    without = tools.folder / "known without.db"
    status, _, _ = tools.verify("--workers", 1, table, without)
    found = query(without, "SELECT verdict, known_sha256, unknown, first_unknown FROM verdicts")
    tools.check("without known files", (status, found), (0, 2 * [("match", None, None, None)]))
    for title, table_of, given in (
        ("with other known files", verdicts, ["--known", rest]), ("without known files", verdicts, []), ("with known files", without, words),
    ):
        status, output, errors = tools.verify("--workers", 1, "--again", "differ", *given, table, table_of)
        told = "was given with other files of --known" in errors
        tools.check(f"verdicts that stand are refused {title}", (status, output, told), (2, "", True))
    test_later_worker(tools, table, words)


def test_later_worker(tools, table, words):
    """A worker that comes after the run began has the known files, and a scheduler that goes on has them no longer."""
    later = tools.folder / "known later.db"
    asking = "import sys; from distributed import Client; print(len(Client(sys.argv[1]).run_on_scheduler(kept)))"
    kept = "kept = lambda dask_scheduler: list(dask_scheduler.worker_plugins)"
    with tools.cluster("known", 0) as (address, _):
        client = tools.client("--scheduler", address, *words, table, later, said="known client")
        until("the wait for a worker", lambda: "waiting for a worker" in (tools.folder / "known client").read_text(), client)
        tools.start(["-m", "distributed.cli.dask_worker", "--host", "127.0.0.1", "--no-dashboard", "--nthreads", "1", "--no-nanny",
                     "--local-directory", tools.folder / "known worker", address])
        client.communicate(timeout=SECONDS)
        left = tools.start(["-c", f"{kept}\n{asking}", address]).communicate(timeout=SECONDS)[0].strip()
        tools.check("a worker that comes later: status, and what the scheduler keeps", (client.returncode, left), (1, "0"))
    tools.check("a worker that comes later: verdicts", query(later, ROWS), rows())


def test_changes(tools, table, size, first, rest):
    """Polls: after a match only what is new is read, unless the known files are others than they were."""
    verdicts = tools.folder / "known polls.db"
    both, one = ["--known", first, "--known", rest], ["--known", rest]
    whole = shutil.copyfile(KNOWN / "SHA256SUMS", tools.folder / "whole")
    for title, words, wanted in (
        ("the first poll", both, rows()),
        ("the known files stay", both, rows(start=size)),
        ("they are in another file", ["--known", whole], rows(start=size)),
        ("one is no longer known", one, rows((1,), (1, *VIOLATIONS))),
        ("it is known again", both, rows()),
        ("more are listed", [*both, "--known", rest], rows()),
        ("then they stay", [*both, "--known", rest], rows(start=size)),
    ):
        tools.verify("--workers", 1, "--poll", *words, table, verdicts)
        tools.check(f"polls by known files: {title}", query(verdicts, ROWS), wanted)
    for title, words in (("none are named", ()), ("some are named again", both)):
        tools.verify("--workers", 1, "--poll", *words, table, verdicts)
        found = query(verdicts, "SELECT verdict, list_from, unknown FROM verdicts WHERE machine = 'clean'")
        tools.check(f"polls by known files: {title}", found, [("match", 0, 0 if words else None)])
