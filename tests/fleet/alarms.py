"""Tests of what people and alarms are told, for tests/fleet/test: exit statuses, --json, --metrics, and how old files may be."""

import errno
import io
import json
import math
import os
import re
import stat
import subprocess
import time
from contextlib import closing, redirect_stderr
from datetime import datetime, timezone
from tempfile import NamedTemporaryFile
from unittest import mock

from cluster import REQUIRE, ROOT, SECONDS, has
from fleet_verify import metrics
from fleet_verify.machines import Machine
from fleet_verify.main import noted
from fleet_verify.summary import Summary
from fleet_verify.verdicts import Verdicts
from keeping import make_machines
from tables import change, query

KINDS = ("match", "differ", "refused", "unreadable", "failed")
MOST_NAMED = 100
HOUR = 3600
TABLE_NAME, TABLE_LABEL = 'a "table" of \\ verdicts.db', r"a \"table\" of \\ verdicts.db"

# Prints what prometheus_client reads of metrics: each metric's type, and each sample's name, labels and value.
PARSER = """
import sys
from prometheus_client.parser import text_string_to_metric_families
for family in text_string_to_metric_families(open(sys.argv[1]).read()):
    assert family.documentation
    for sample in family.samples:
        assert sample.labels["table"] == sys.argv[2]
        print(family.type, sample.labels.get("verdict", sample.name), repr(sample.value))
"""


REASONS = {
    "differ": "SHA-256 PCR 10 differs.",
    "refused": "Nothing to compare: expected.txt states no PCR. Collect expected.txt again, or judge the machine by a quote.",
    "unreadable": "The measurement list cannot be read: it is not there. Copy the machine's files again.",
}


# What the library says of a log that is cut short, and what is said of a machine that differs in several ways.
CUT = "The firmware event log is damaged at event {}: it is cut short. Copy it."
DIFFERING = (
    "No value is expected for SHA-256 PCR 4; the boot aggregate is not the log's; log and list do not make the quoted PCRs; entries are for unknown "
    "files; an entry of the list extends PCR 9."
)


def spoil(folder, number, kind):
    """Has a machine differ, be refused, or not be readable."""
    path = folder / str(number) / ("ima.list" if kind == "unreadable" else "expected.txt")
    if kind == "unreadable":
        path.unlink()
    elif kind == "refused":
        path.write_text("")
    elif kind == "differ":
        path.write_text(re.sub(r"(?m)^(sha256 10 )..", r"\g<1>00", path.read_text()))


def test_alarms(tools):
    test_arguments(tools)
    test_statuses(tools)
    test_json(tools)
    test_ages(tools)
    test_outputs(tools)
    test_keys(tools)


def test_arguments(tools):
    """A run says whether it takes quotes, and by which keys."""
    folder = tools.folder / "arguments"
    machines, never = make_machines(folder, 1), folder / "never.db"
    for title, by, told in (
        ("neither", (), "--keys is missing"), ("both", ("--unquoted", "--keys", folder), "--unquoted takes none"),
        ("two folders of keys", ("--keys", folder, "--keys", folder), "--keys is given twice"),
        ("two ages", ("--unquoted", "--max-age", "1m", "--max-age", "365d"), "--max-age is given twice"),
    ):
        status, output, errors = tools.verify("--workers", 1, machines, never, by=by)
        tools.check(f"refused: quotes or not, {title}", (status, output, told in errors, never.exists()), (2, "", True, False))


# Starts a command without standard output.
CLOSED = ("sh", "-c", 'exec "$@" >&-', "sh")


def test_outputs(tools):
    """What cannot be told is no success: on a full disk, in a pipe that nobody reads, and without standard output."""
    folder = tools.folder / "outputs"
    machines = make_machines(folder, 1)
    run, buffered = ("--workers", "1", "--unquoted", "--require", REQUIRE, machines), {**tools.environment, "PYTHONUNBUFFERED": ""}
    for title, number, reason in (
        ("a full disk", errno.ENOSPC, "the disk is full"), ("a pipe that nobody reads", errno.EPIPE, "nobody reads the output"),
        ("no output", errno.EBADF, "the output is closed"),
    ):
        table = folder / f"{title}.db"
        calls = {
            "a run": ("verify.py", *run, table), "a run, as JSON": ("verify.py", "--json", *run, folder / f"{title}, as JSON.db"),
            "nonces": ("verify.py", "nonces", machines, table),
        }
        if has(tools.python, "jinja2"):
            calls.update({"a page": ("verify.py", "page", table), "a report": ("report.py", "--program", "/nowhere/ima-agent", folder / "0")})
        for name, (script, *words) in calls.items():
            reading, writing = os.pipe()
            os.close(reading)
            with open("/dev/full", "wb") as full, open(writing, "wb") as pipe:
                done = subprocess.run(
                    [*map(str, (*(CLOSED if number == errno.EBADF else ()), tools.python, ROOT / "fleet" / script, *words))], text=True,
                    env=buffered, cwd=tools.folder, stdout=full if number == errno.ENOSPC else pipe, stderr=subprocess.PIPE, timeout=SECONDS,
                )
            told = [line for line in done.stderr.splitlines() if " done: " not in line]
            found = (done.returncode, len(told), told[-1].partition("; run")[0].endswith(reason) if told else False)
            tools.check(f"{name}, and {title}", found, (3, 1, True))
        found = query(table, "SELECT (SELECT count(*) FROM verdicts), (SELECT count(*) FROM ends)")
        tools.check(f"a run, and {title}: it has no end", found, [(1, 0)])


def test_keys(tools):
    """A run that takes quotes, of a machine that has neither a quote nor a key."""
    tools.needs_modules("cryptography")
    folder = tools.folder / "quotes or not"
    machines, never = make_machines(folder, 1), folder / "never.db"
    status, output, errors = tools.verify("--workers", 1, machines, never, by=("--keys", folder), require="none")
    found = (status, output, "--require 'none'" in errors, never.exists())
    tools.check("refused: quotes that need not cover anything", found, (2, "", True, False))
    status, output, _ = tools.verify("--workers", 1, machines, never, by=("--keys", folder))
    found = (status, query(never, "SELECT verdict, report FROM verdicts"))
    tools.check("a machine without a quote and without a key", found, (1, [("refused", None)]))


def test_statuses(tools):
    """The status tells whether a machine differs or is refused, or whether some only were not judged."""
    for number, (kinds, wanted) in enumerate((
        ((), 0), (("unreadable",), 4), (("differ",), 1), (("refused",), 1), (("unreadable", "differ"), 1), (("unreadable", "refused"), 1),
        (("unreadable",) * 3, 4),
    )):
        folder = tools.folder / f"status {number}"
        machines, table = make_machines(folder, 3), folder / "verdicts.db"
        for place, kind in enumerate(kinds):
            spoil(folder, place, kind)
        counts = {kind: kinds.count(kind) for kind in KINDS} | {"match": 3 - len(kinds)}
        status, output, errors = tools.verify("--workers", 1, machines, table)
        lines = "".join(f"{kind} {count}\n" for kind, count in counts.items())
        tools.check(f"the status with {kinds}", (status, output), (wanted, lines))
        told = [line for line in errors.splitlines() if line.startswith("fleet-verify: ")]
        reasons = [f"fleet-verify: {kind} {counts[kind]}: {reason}" for kind, reason in REASONS.items() if counts[kind]]
        tools.check(f"the reasons with {kinds}", told, reasons)
        change(table, "UPDATE found SET verdict = 'failed' WHERE verdict = 'unreadable'")
        tools.check(f"the status with {kinds}, and failed", tools.verify("--workers", 1, "--again", "none", machines, table)[0], wanted)


def test_json(tools):
    """--json prints one object, which names the machines that do not match, up to a bound."""
    folder = tools.folder / "as json"
    machines, table = make_machines(folder, 4), folder / "verdicts.db"
    for number, kind in enumerate(("unreadable", "refused", "differ")):
        spoil(folder, number, kind)
    begun = datetime.now(timezone.utc)
    status, output, errors = tools.verify("--workers", 1, "--poll", "--json", machines, table, TZ="Asia/Kolkata")
    told = json.loads(output)
    found = (status, output.count("\n"), told["status"], "fleet-verify: " in errors)
    tools.check("--json: one line, and no reasons beside it", found, (1, 1, 1, False))
    found = {name: told[name] for name in ("poll", "machines", "verdicts", "retired", "not_matching_more")}
    counts = dict(zip(KINDS, (1, 1, 1, 1, 0)))
    tools.check("--json: counts", found, {"poll": 1, "machines": 4, "verdicts": counts, "retired": 0, "not_matching_more": 0})
    end, now = datetime.fromisoformat(told["time"]), datetime.now(timezone.utc)
    tools.check("--json: the end", begun <= end <= now, True)
    recorded = query(table, "SELECT time FROM given UNION ALL SELECT time FROM polls UNION ALL SELECT time FROM ends")
    times = [told["time"], *(time for time, in recorded)]
    are_right = [begun <= datetime.fromisoformat(time) <= now and time.endswith("+00:00") for time in times]
    tools.check("times are in UTC, whatever the time zone", are_right, 7 * [True])  # (of the end, four machines, a poll and its end)
    tools.check("--json: ages", 0 <= told["oldest_match_seconds"] <= told["seconds"] <= (now - begun).total_seconds(), True)
    tools.check("--json: the rate", abs(told["machines_a_second"] - 4 / told["seconds"]) < 0.1, True)
    gone, nothing = "list: it is not there", "nothing to compare: no register is expected"
    [(expected, value)] = query(table, "SELECT expected, value FROM registers WHERE machine = 'machine 2' AND state = 'differ'")
    differing = {
        "machine": "machine 2", "verdict": "differ", "cause": None, "reason": REASONS["differ"], "boot_aggregate": "good",
        "registers": [{"bank": "sha256", "register": 10, "expected": expected, "state": "differ", "value": value}], "extends": [], "quote": None,
        "unknown": None, "first_unknown": None,
    }
    named = [
        differing, {"machine": "machine 1", "verdict": "refused", "cause": nothing, "reason": REASONS["refused"]},
        {"machine": "machine 0", "verdict": "unreadable", "cause": gone, "reason": REASONS["unreadable"]},
    ]
    tools.check("--json: who does not match", told["not_matching"], named)
    reasons = {(row["verdict"], row["cause"], row["machines"], row["reason"]) for row in told["reasons"]}
    causes = {"match": None, "differ": None, "refused": nothing, "unreadable": gone}
    tools.check("--json: why", reasons, {(verdict, cause, 1, REASONS.get(verdict)) for verdict, cause in causes.items()})
    status, output, _ = tools.verify("--workers", 1, "--json", machines, table)
    tools.check("--json of a run that is refused: nothing", (status, output), (2, ""))
    test_standing(tools, folder)
    test_told(tools)
    test_bound(tools)


def test_standing(tools, folder):
    """A run with nothing to do says how many verdicts stand and since when, gives none, and tells what it retires and counts it no longer."""
    machines, table = folder / "machines.tsv", folder / "standing.db"
    status, _, errors = tools.verify("--workers", 1, machines, table)
    change(table, "UPDATE given SET time = '2026-01-01T00:00:00.000+00:00' WHERE number = 2")
    machines.write_text("".join(machines.read_text().splitlines(keepends=True)[1:]))
    status, output, errors = tools.verify("--workers", 1, "--again", "none", "--prune", "--json", machines, table)
    told = json.loads(output)
    found = {name: told[name] for name in ("poll", "machines", "retired", "machines_a_second", "verdicts")}
    counts = dict(zip(KINDS, (1, 1, 1, 0, 0)))
    wanted = {"poll": None, "machines": 3, "retired": 1, "machines_a_second": 0, "verdicts": counts}
    tools.check("--json: a run with nothing to do", (status, found), (1, wanted))
    said = "verdicts that stand from earlier runs: 3, the oldest since 2026-01-01T00:00:00.000+00:00; --again gives new ones"
    tools.check("verdicts that stand: how many, and since when", said in errors, True)
    change(table, "INSERT INTO ends VALUES ('2026-01-01T00:00:00.000+00:00', NULL)")
    status, _, errors = tools.verify("--workers", 1, machines, table)
    tools.check("a run that has ended: when", (status, f"its run ended at {told['time']}:" in errors), (2, True))
    status, _, errors = tools.verify("--workers", 1, "--again", "refused,differ", machines, table)
    last = [line.partition(";")[0] for line in errors.splitlines() if " done: " in line][-1]
    wanted = "3 of 3 done: match 1, differ 1, refused 1, unreadable 0, failed 0"
    tools.check("verdicts that are given anew: progress counts each machine once", (status, last), (1, wanted))


def test_told(tools):
    """Those that do not match are told in the order of their verdicts, with all that a report says; and the three most frequent reasons."""
    row, strays = {"bank": "sha256", "register": 4, "state": "missing"}, [{"entry": 7, "register": 9}]
    report = {"registers": [{**row, "register": 3, "state": "match"}, row], "extends": strays, "quote": "differ", "verdict": "differ"}
    answers = {
        "g": {"verdict": "differ", "boot_aggregate": "wrong", "unknown": 2, "first_unknown": 7, "report": json.dumps(report)},
        "a": {"verdict": "match"}, "b": {"verdict": "unreadable", "cause": "w"}, "c": {"verdict": "failed", "cause": "x"},
        "d": {"verdict": "failed", "cause": "x"}, "f": {"verdict": "refused", "cause": "z"}, "e": {"verdict": "refused", "cause": "y"},
    }
    with closing(Verdicts(str(tools.folder / "told.db"), REQUIRE)) as table:
        table.record([(Machine(name, (f"/{name}",)), {**answer, "time": "now"}) for name, answer in answers.items()], ())
        summary, faults = Summary(), Summary()
        summary.look(table)
        causes = {f"h{number}": (f"refused: log fault 1 at event {number}", CUT.format(number)) for number in range(9)}
        cut = {name: {"verdict": "refused", "cause": cause, "reason": reason} for name, (cause, reason) in causes.items()}
        table.record([(Machine(name, (f"/{name}",)), {**answer, "time": "now"}) for name, answer in cut.items()], ())
        faults.look(table)
    first, *others = summary.named
    tools.check("--json: what a report says", first, {
        "machine": "g", "verdict": "differ", "cause": None, "reason": DIFFERING, "boot_aggregate": "wrong", "registers": [row], "extends": strays,
        "quote": "differ",
        "unknown": 2, "first_unknown": 7,
    })
    tools.check("--json: the order of those without a report", [each["machine"] for each in others], ["e", "f", "c", "d", "b"])
    more = "2 more reasons: see the view `reasons`, or `fleet-verify page`"
    tools.check("the most frequent reasons", summary.lines, ["failed 2: X.", f"differ 1: {DIFFERING}", "refused 1: Y.", more])
    wanted = "refused 9: The firmware event log is damaged: it is cut short. Copy it."
    tools.check("the most frequent reason, at several places", faults.lines[0], wanted)
    for age, wanted in ((math.inf, None), (None, None), (90.04, 90.0)):
        told = json.loads(Summary(counts={"match": 1}, oldest_match=age).json, parse_constant=lambda name: f"{name} is no JSON")
        tools.check(f"--json: an age of {age} seconds", told["oldest_match_seconds"], wanted)


def test_bound(tools):
    """Of many machines the first are named, and those that differ come before others."""
    folder = tools.folder / "many as json"
    machines, table = make_machines(folder, MOST_NAMED + 2), folder / "verdicts.db"
    for number in range(MOST_NAMED + 2):
        spoil(folder, number, "differ" if number == MOST_NAMED + 1 else "refused")
    told = json.loads(tools.verify("--workers", 1, "--json", machines, table)[1])
    named = [row["machine"] for row in told["not_matching"]]
    found = (len(named), named[0], told["not_matching_more"])
    tools.check("--json of many: how many are named", found, (MOST_NAMED, f"machine {MOST_NAMED + 1}", 2))


def change_lists(folder):
    """Has the list of each machine be as old as it is to be."""
    now = time.time()
    for number, age in enumerate((0, 30 * 60, 2 * HOUR, -2 * HOUR, 2 * HOUR)):
        os.utime(folder / str(number) / "ima.list", (now - age, now - age))


def test_ages(tools):
    """Lists that were changed too long ago, or at a time in the future, are not taken where --max-age says so."""
    folder = tools.folder / "ages"
    machines = make_machines(folder, 5)
    lines = machines.read_text().splitlines()
    paths = [f"file://{folder / '4' / file}" for file in ("firmware.log", "ima.list", "expected.txt")]
    machines.write_text("".join(f"{line}\n" for line in [*lines[:4], "\t".join(["machine 4", *paths])]))
    for title, words, stale in (
        ("without --max-age", (), ()), ("--max-age 1h", ("--max-age", "1h"), (2, 3, 4)), ("--max-age in minutes", ("--max-age", "60m"), (2, 3, 4)),
        ("--max-age in seconds", ("--max-age", 3 * HOUR), ()), ("--max-age of a minute", ("--max-age", "1m"), (1, 2, 3, 4)),
    ):
        for kind, more in (("run", ()), ("poll", ("--poll",))):
            table = folder / f"{title} {kind}.db"
            change_lists(folder)  # (a busy computer is a minute about the runs before)
            status, *_ = tools.verify("--workers", 1, *more, *words, machines, table)
            found = query(table, "SELECT machine, verdict, cause FROM verdicts WHERE verdict <> 'match' ORDER BY machine")
            wanted = [(f"machine {number}", "unreadable", "stale: list") for number in stale]
            tools.check(f"{title}, of a {kind}: status, and what is stale", (status, found), (4 if stale else 0, wanted))
    for text in ("0", "1w", "-1h", "1.5h", ""):
        status, output, _ = tools.verify("--workers", 1, f"--max-age={text}", machines, folder / "never.db")
        tools.check(f"refused: --max-age {text!r}", (status, output), (2, ""))


def samples_of(path):
    """The samples of metrics, by their names, or those of machines by their verdicts; each metric has its help and its type before it."""
    samples, told = {}, set()
    for line in path.read_text().splitlines():
        comment = re.fullmatch(r"# (?:HELP (\w+) .+|TYPE (\w+) gauge)", line)
        if comment:
            told.add(comment[1] or comment[2])
            continue
        sample = re.fullmatch(r'(\w+)\{table="((?:[^"\\]|\\.)*)"(?:,verdict="(\w+)")?\} (\S+)', line)
        assert sample and sample[1] in told and sample[2] == TABLE_LABEL, line
        samples[sample[3] or sample[1]] = float(sample[4])
    return samples


def machines_of(samples):
    """How many machines have each verdict, by metrics."""
    return {name: count for name, count in samples.items() if name in (*KINDS, "none")}


def test_metrics(tools):
    """--metrics writes what came of a run, however it ends, whole and for others to read."""
    folder = tools.folder / "metrics"
    machines, table, file = make_machines(folder, 3), TABLE_NAME, folder / "out/fleet.prom"
    file.parent.mkdir()
    spoil(folder, 0, "unreadable")
    begun = time.time()
    words = ("--workers", 1, "--poll", "--metrics", file, machines, table)
    tools.check("--metrics: status", tools.verify(*words)[0], 4)
    samples = samples_of(file)
    counts = {**dict.fromkeys(KINDS, 0), "match": 2, "unreadable": 1, "none": 0}
    tools.check("--metrics: counts and status", (machines_of(samples), samples["ima_fleet_status"]), (counts, 4))
    end, age, seconds = (samples[f"ima_fleet_{name}_seconds"] for name in ("end_timestamp", "oldest_match_age", "duration"))
    tools.check("--metrics: times", begun <= end + 0.001 <= time.time() and 0 <= age <= seconds < time.time() - begun, True)
    tools.check("--metrics: the rate", abs(samples["ima_fleet_machines_per_second"] - 3 / seconds) < 0.01, True)
    tools.check("--metrics: others may read it", stat.S_IMODE(file.stat().st_mode), 0o644)
    tools.check("--metrics: nothing is left beside it", os.listdir(file.parent), ["fleet.prom"])
    change(tools.folder / table, "UPDATE given SET time = '2026-01-01T00:00:00.000+00:00' WHERE number = 3")
    status, *_ = tools.verify("--workers", 1, "--poll", "--metrics", file, machines, table, IMA_VERIFY_LIBRARY=str(folder / "none.so"))
    samples, counts = samples_of(file), {**dict.fromkeys(KINDS, 0), "none": 3}
    tools.check("--metrics of a run that cannot go on", (status, samples["ima_fleet_status"], machines_of(samples)), (3, 3, counts))
    age = (datetime.now(timezone.utc) - datetime(2026, 1, 1, tzinfo=timezone.utc)).total_seconds()
    tools.check("--metrics of a run that cannot go on: the oldest match", abs(samples["ima_fleet_oldest_match_age_seconds"] - age) < 60, True)
    test_refused_metrics(tools, folder, machines, table, file)
    test_labels(tools)
    test_unwritten(tools, folder)
    test_swapped(tools, folder)
    test_parsed(tools, file)


def test_refused_metrics(tools, folder, machines, table, file):
    """A run that is refused says so in the metrics, and one whose metrics cannot be written is refused."""
    wrong = folder / "wrong.tsv"
    wrong.write_text("x\n")
    status, *_ = tools.verify("--workers", 1, "--poll", "--metrics", file, wrong, table)
    samples = samples_of(file)
    tools.check("--metrics of a run that is refused", (status, samples["ima_fleet_status"], machines_of(samples)), (2, 2, {}))
    never = tools.folder / TABLE_NAME
    never.unlink()
    for title, path in (("no folder", folder / "none/fleet.prom"), ("a folder", folder), ("a folder that takes no file", "/proc/fleet.prom")):
        status, output, errors = tools.verify("--workers", 1, "--metrics", path, machines, never)
        tools.check(f"refused: --metrics in {title}", (status, output, "refused: " in errors, never.exists()), (2, "", True, False))
    link, target = folder / "out/link.prom", folder / "target"
    target.write_text("untouched")
    link.symlink_to(target)
    tools.verify("--workers", 1, "--metrics", link, machines, TABLE_NAME)
    found = (target.read_text(), link.is_symlink(), samples_of(link)["ima_fleet_status"])
    tools.check("--metrics takes the place of a link", found, ("untouched", False, 4))


def test_labels(tools):
    """A name of a table with what the format gives a meaning, and one that is not UTF-8; and an age of which nothing is known."""
    summary = Summary(machines=3, counts={"match": 1}, oldest_match=math.inf)
    summary.end(4)
    label, names = r'table="a\n\"b\"\\?"', ("ima_fleet_status{", "ima_fleet_oldest_match_age_seconds{", "ima_fleet_machines{")
    found = [line for line in metrics.metrics_of(summary, 'a\n"b"\\\udcff').splitlines() if line.startswith(names)]
    machines = [f'{names[2]}{label},verdict="{verdict}"}} {count}' for verdict, count in (("match", 1), ("none", 2))]
    tools.check("--metrics: labels, and what is infinite", found, [f"{names[0]}{label}}} 4", f"{names[1]}{label}}} +Inf", *machines])


def test_unwritten(tools, folder):
    """A run whose metrics cannot be written at its end is no success."""
    for status, wanted in ((0, 3), (1, 1), (4, 4)):
        summary, said = Summary(machines=1), io.StringIO()
        summary.end(status)
        with redirect_stderr(said):
            found = noted(str(folder / "gone/fleet.prom"), summary, TABLE_NAME)
        tools.check(f"--metrics into a folder that is gone, after status {status}", (found, "are not written" in said.getvalue()), (wanted, True))


def test_swapped(tools, folder):
    """Who has the folder of the metrics, and puts a link in place of the new file, has another file neither written nor opened to others."""
    target, file = folder / "of another", folder / "out/swapped.prom"
    target.write_text("untouched")
    target.chmod(0o600)
    summary = Summary(machines=1)
    summary.end(0)

    def swapped(*words, **given):
        made = NamedTemporaryFile(*words, **given)
        os.unlink(made.name)
        os.symlink(target, made.name)
        return made

    # (no file comes from another folder, which may be in another file system)
    with mock.patch("tempfile.tempdir", "/none"), mock.patch.object(metrics, "NamedTemporaryFile", swapped):
        metrics.write_metrics(str(file), summary, TABLE_NAME)
    tools.check("--metrics: a link in place of the new file", (target.read_text(), stat.S_IMODE(target.stat().st_mode)), ("untouched", 0o600))


def test_parsed(tools, file):
    """Prometheus's own library reads the same."""
    tools.needs_modules("prometheus_client")
    for path in (file, file.with_name("link.prom")):
        done = subprocess.run([tools.python, "-c", PARSER, path, TABLE_NAME], capture_output=True, text=True, timeout=SECONDS)
        lines = [line.split(" ") for line in done.stdout.splitlines()]
        tools.check(f"prometheus_client reads the metrics in {path.name}", {name: float(value) for _, name, value in lines}, samples_of(path))
        tools.check(f"the types of the metrics in {path.name}", {kind for kind, *_ in lines}, {"gauge"})
