"""Tests of the page of a table of verdicts, for tests/fleet/test: what it counts and lists, what it warns of, what it refuses, and that hostile names
are shown as text."""

import hashlib
import json
import re
import resource
import sqlite3
import subprocess
import sys
from concurrent.futures import ThreadPoolExecutor
from contextlib import closing
from importlib.util import find_spec

from cluster import ROOT, SECONDS
from fleet_verify.machines import Machine
from fleet_verify.plot import bars_of, plot_of
from fleet_verify.reading import now
from fleet_verify.verdicts import VERDICTS, Verdicts
from page_tree import Reader, folded, foreign, hostile_texts, lacks_jinja, rows_below, state_of
from tables import change, query

TEMPLATES = ROOT / "fleet/fleet_verify/templates"
GOOD = "e8ed95b94e8d66f42e5b9be4d794dc0c7701e2360f03537fe59e9ba861a8024f"
OTHER = "a2bcf779880ae33077f9e7992851299f30cea5f6cffc6512de6cd10aa457a7f3"
MOMENT_AGO = "UPDATE ends SET time = strftime('%Y-%m-%dT%H:%M:%f+00:00', 'now', '-5 seconds')"

CUT = "The firmware event log is damaged{}: it is cut short. Copy the log again."
AHEAD = "UPDATE {} SET time = strftime('%Y-%m-%dT%H:%M:%f+00:00', 'now', '+30 seconds')"


def registers_of(others=()):
    """Rows of a report, of which these registers have another value."""
    rows = [
        {"bank": "sha256", "register": number, "expected": GOOD, "state": "differ" if number in others else "match"} for number in range(11)
    ]
    return [{**row, "value": OTHER} if row["state"] == "differ" else row for row in rows]


def answer_of(verdict, number=0, cause=None, others=(), **given):
    """What a worker answers on a machine."""
    fields = {"worker": "here", "time": now(), "list_from": 0, "verdict": verdict, "cause": cause}
    if verdict in ("match", "differ"):
        report = {"registers": registers_of(others), "verdict": verdict, **given.pop("told", {})}
        fields.update(boot_aggregate="good", report=json.dumps(report), log_sha256="a" * 64, list_sha256=f"{number:064x}")
    return {**fields, **given}


def make_table(path, polls, has_end=True, names=()):
    """A table of verdicts of these polls, each a dictionary of answers by machine; of one run, if it is given alone."""
    table, had = Verdicts(str(path), "sha256:0-10"), {}
    try:
        for answers in polls if isinstance(polls, list) else [polls]:
            if isinstance(polls, list):
                table.begin_poll(now())
            table.record([(Machine(name, (f"/{number}",)), answer) for number, (name, answer) in enumerate(answers.items())], had)
            had.update({name: answer["verdict"] for name, answer in answers.items()})
            if has_end or answers is not polls[-1]:
                table.end(now(), "2000")
    finally:
        table.close()
    return path


def page_of(tools, *words):
    """The status of `fleet-verify page`, its output and what it told."""
    ended = subprocess.run(
        [tools.python, ROOT / "fleet/verify.py", "page", *map(str, words)], env=tools.environment, cwd=tools.folder, capture_output=True,
        timeout=SECONDS,
    )
    return ended.returncode, ended.stdout.decode(), ended.stderr.decode()


def shown_page(tools, *words):
    status, text, errors = page_of(tools, *words)
    tools.check(f"a page is written: {errors[-300:]}", status, 0)
    return Reader(text).top


def test_pages(tools):
    """The page of a table: what it counts and lists, what it warns of, what it refuses."""
    lacks_jinja(tools)
    folder = tools.folder / "pages"
    folder.mkdir()
    test_listed(tools, folder)
    test_names(tools, folder)
    test_last_match(tools, folder)
    test_prefixes(tools, folder)
    test_size(tools, folder)
    test_parts_of(tools, folder)
    test_times(tools, folder)
    test_bars(tools, folder)
    test_plot(tools)
    test_bounds(tools, folder)
    test_states(tools, folder)
    test_refused_pages(tools, folder)
    test_many(tools, folder)
    test_quoted_table(tools, folder)
    test_hostile_table(tools, folder)
    test_templates(tools)
    test_moment(tools, make_table(folder / "moment.db", {"a": answer_of("match")}))


def listed_table(path):
    """A table of two polls with machines of each verdict, one of which started anew, and one that is retired."""
    strays = [{"event": 25, "register": 10}]
    first = {
        "good": answer_of("match", 1), "late": answer_of("match", 2), "ten": answer_of("match", 3),
        "two": answer_of("differ", 4, others=(0, 10)), "moved": answer_of("differ", 5, boot_aggregate="wrong", told={"extends": strays}),
        "strange": answer_of("differ", 6, unknown=3, first_unknown=93),
        "cut": answer_of("refused", cause="refused: log fault 1 at event 24", reason=CUT.format(" at event 24")),
        "cut too": answer_of("refused", cause="refused: log fault 1 at event 3", reason=CUT.format(" at event 3")),
        "left": answer_of("differ", 9, others=(10,)), "anew": answer_of("match", 10, resets=1, restarts=0),
        "gone": answer_of("unreadable", cause="list: it is not there"),
    }
    second = {
        **first, "anew": answer_of("match", 10, resets=2, restarts=0), "late": answer_of("differ", 2, others=(10,)),
        "ten": answer_of("differ", 3, others=(10,)),
    }
    table = Verdicts(str(make_table(path, [first, second])), "sha256:0-10")
    table.retire(["left"], "2026-11-29T10:00:00.000+00:00")
    table.close()
    return path


def test_listed(tools, folder):
    """Counts, machines that do not match with their reasons and registers, and machines by name."""
    table = listed_table(folder / "listed.db")
    page = shown_page(tools, "--title", "a title", table)
    text, is_good = state_of(page)
    told = [each in text for each in ("2 of 10 machines match", "poll 2, ended at", "sha256:0-10")]
    tools.check("a page: its head", (told, is_good), ([True] * 3, False))
    titles = [each.text for page_ in (page, shown_page(tools, table)) for each in page_.all("h1")]
    tools.check("a page: its title", titles, ["Fleet: a title", f"Fleet: {table}"])
    counts = [each.text.split() for each in next(page.all("ul")).all("li")]
    tools.check("a page: the title of its window", next(page.all("title")).text, "2 of 10 machines match")
    tools.check("a page: counts", counts, [
        ["2", "match"], ["5", "differ"], ["2", "refused"], ["1", "unreadable"], ["0", "failed"], ["1", "retired"],
    ])
    kinds = {(row.attributes["data-kind"], cell.text) for row in page.all("tr") for cell in row.all("td") if cell.text in VERDICTS}
    tools.check("a page: each row can be found by its verdict", kinds, {(kind, kind) for kind in VERDICTS[:4]})
    rows = {row[0]: row[1:] for row in rows_below(page, "Machines that do not match")}
    tools.check("a page: who does not match", list(rows), ["late", "moved", "strange", "ten", "two", "cut", "cut too", "gone"])
    values = "".join(f"PCR {number} {OTHER}, expected {GOOD}" for number in (0, 10))
    tools.check("a page: registers with their values", rows["two"][1], f"SHA-256 PCRs 0, 10 differ.{values}")
    wanted = "The boot aggregate is not the log's; an event of the log extends PCR 10.event 25 extends PCR 10"
    tools.check("a page: what extends", rows["moved"][1], wanted)
    tools.check("a page: unknown entries", rows["strange"][1], "Entries are for unknown files.unknown entries: 3, the first is entry 93")
    tools.check("a page: a cause", rows["cut"][:2], ["refused", f"{CUT.format(' at event 24')} refused: log fault 1 at event 24"])
    names = [[each.text for each in group.all("li")] for group in page.all("ul") if group.attributes.get("class") == "names"]
    times = dict(query(table, "SELECT machine, substr(replace(time, 'T', ' '), 1, 19) FROM verdicts"))
    wanted = [[f"{name} {times[name]}" for name in ("anew", "good")], ["left 2026-11-29 10:00:00"]]
    tools.check("a page: who matches, and who is retired", names, wanted)
    tools.check("a page: nothing foreign", foreign(page), [])
    test_shared(tools, page)
    test_changes(tools, table, page)


def test_parts_of(tools, folder):
    """Which parts a page has, and what it says where one is empty."""
    good, bad, quoted = answer_of("match", 1), answer_of("differ", 2, others=(4,)), {"signer": "d" * 64, "quote_age": 1.0, "nonce": "00"}
    always = ["Reasons", "Changes over time", "Machines that do not match", "Machines that match"]
    no_reason, no_poll, nobody, none = (
        "No machine has a verdict other than match.", "This table has no polls, so there are no changes.", "None: no machine has a verdict.", "None.",
    )
    for title, polls, more, told in (
        ("no machine", {}, [], [no_reason, no_poll, nobody, none]), ("a match", {"a": good}, [], [no_reason, no_poll, none]),
        ("a match by a poll", [{"a": good}], [], [no_reason, none]), ("a refusal", {"a": answer_of("refused", cause="x")}, [], [no_poll, none]),
        ("a register", {"a": good, "b": bad}, [(3, "PCRs that do not match")], [no_poll]),
        ("a quote", {"a": {**good, **quoted}}, [(3, "Quotes")], [no_reason, no_poll, none]),
        ("the same list", {"a": good, "b": good}, [(3, "Machines with the same list")], [no_reason, no_poll, none]),
    ):
        page, wanted = shown_page(tools, make_table(folder / f"parts {title}.db", polls)), [*always]
        for place, name in more:
            wanted.insert(place, name)
        said = [each.text for each in page.all("p") if each.text in (no_reason, no_poll, nobody, none)]
        tools.check(f"the parts of a page: {title}", ([each.text for each in page.all("h2")], said), (wanted, told))


def test_shared(tools, page):
    """What several machines have in common is said once."""
    reasons = rows_below(page, "Reasons")
    tools.check("a page: reasons, the same of several machines once", reasons[0], ["2", "differ", "SHA-256 PCR 10 differs.", "late, ten"])
    wanted = ["2", "refused", CUT.format(""), "cut, cut too"]
    tools.check("a page: faults at different places are one reason", wanted in reasons, True)
    wanted = ["3", f"SHA-256 PCR 10: {OTHER}", "late, ten, two"]
    tools.check("a page: a value that several have", rows_below(page, "PCRs that do not match")[0], wanted)


def test_changes(tools, table, page):
    """The plot of changes, and its numbers, also when old changes are gone."""
    rows = rows_below(page, "Changes over time")
    tools.check("a page: changes by poll, without first verdicts", [row[:1] + row[2:] for row in rows], [
        ["poll 1", "0", "0", "0", "0", "0", "0"], ["poll 2", "0", "2", "0", "0", "0", "1"],
    ])
    heights = [each.attributes["height"] for each in page.all("rect") if each.attributes["class"] == "differ"]
    tools.check("a page: the plot has them", heights, ["72.0"])
    change(table, "DELETE FROM changes WHERE poll = 1")
    rows = rows_below(shown_page(tools, table), "Changes over time")
    tools.check("a page: changes that are left when older ones are gone", rows[1][2:], ["0", "2", "0", "0", "0", "1"])


def test_times(tools, folder):
    """Since when a machine has its verdict, which it keeps when it starts anew; the last changes; and ten names of more."""
    names = [f"m{number:02}" for number in range(12)]
    polls = [
        {name: answer_of("differ", 1, others=(4,), resets=resets, restarts=0, time=f"2026-11-0{resets}T10:00:00.000+00:00") for name in names}
        for resets in (1, 2)
    ]
    page = shown_page(tools, make_table(folder / "times.db", polls))
    first, second = "2026-11-01 10:00:00", "2026-11-02 10:00:00"
    rows = rows_below(page, "Machines that do not match")
    tools.check("a page: since when", [row[3:] for row in rows], len(names) * [[first, "never", f"{second}, poll 2"]])
    tools.check("a page: ten names of more", rows_below(page, "Reasons")[0][3], f"{', '.join(names[:10])} and 2 more")
    (part,) = [each for each in page.all("details") if next(each.all("summary")).text == "The last 24 changes"]
    rows = [[cell.text for cell in row.inner if not isinstance(cell, str)] for row in next(part.all("tbody")).all("tr")]
    tools.check("a page: the last changes, from the last one on", rows, [
        *([name, "reboot, differ", "resets 2, restarts 0", "2", second] for name in reversed(names)),
        *([name, "differ", "", "1", first] for name in reversed(names)),
    ])


def named(page):
    """The texts of the lists of names, one after another."""
    return [each.text for group in page.all("ul") if group.attributes.get("class") == "names" for each in group.all("li")]


def test_names(tools, folder):
    """Names are in the order in which people count, wherever they are listed."""
    names = ["host-1", "host-2", "host-10", "host-10a", "host-100", "hosts", "x\u0663", "x12"]  # (\u0663 is the digit 3)
    for title, kind, words in (("do not match", "differ", {"others": (4,)}), ("match", "match", {})):
        answers = {name: answer_of(kind, number, **words) for number, name in enumerate(reversed(names))}
        page = shown_page(tools, make_table(folder / f"names that {title}.db", answers))
        if kind == "match":
            found = [text[: -len(" 2026-11-29 10:00:00")] for text in named(page)]
        else:
            found = [row[0] for row in rows_below(page, "Machines that do not match")]
            tools.check("names of a reason", rows_below(page, "Reasons")[0][3], ", ".join(names))
        tools.check(f"names of machines that {title}", found, names)


def test_last_match(tools, folder):
    """When each machine last matched: by the poll before, by one long before, or never."""
    def of_day(day, kind):
        return answer_of(kind, 1, others=() if kind == "match" else (4,), time=f"2026-11-0{day}T10:00:00.000+00:00")

    match, differ = "match", "differ"
    kinds = {"late": (match, match, differ), "long": (match, differ, differ), "never": 3 * (differ,), "good": (differ, match, match)}
    table = make_table(folder / "last match.db", [{name: of_day(poll + 1, kind[poll]) for name, kind in kinds.items()} for poll in range(3)])
    page = shown_page(tools, table)
    found = {row[0]: row[4] for row in rows_below(page, "Machines that do not match")}
    tools.check("a page: the last match", found, {"late": "2026-11-02 10:00:00", "long": "2026-11-01 10:00:00", "never": "never"})
    good = "good 2026-11-03 10:00:00"
    tools.check("a page: the last match of one that matches", named(page), [good])
    wanted = ["long differ, matched 2026-11-01 10:00:00", "never differ, never matched", good]
    tools.check("a page: the last match of those that are only named", named(shown_page(tools, "--most", 1, table)), wanted)


def test_prefixes(tools, folder):
    """A match that covers only the first entries of a list is told from one of the whole list, in the head and by its numbers."""
    def of(entries, confirmed, **more):
        told = {"entries": entries, **({} if confirmed is None else {"confirmed": confirmed}), **more}
        return answer_of("match", entries, entries=entries, confirmed=confirmed, told=told)

    after = {"kind": "list", "number": 1, "entry": 97, "message": "unconfirmed: list fault 1 at entry 97"}
    answers = {"grown": of(100, 99), "still": of(99, 99), "whole": of(98, None), "cut": of(97, 97, unconfirmed=after)}
    table = make_table(folder / "prefixes.db", answers)
    page = shown_page(tools, table)
    text, _ = state_of(page)
    told = "2 of these matches cover only the first entries of a list. Nothing confirms the entries after them."
    tools.check("a page: a prefix is told in its head", told in text, True)
    rows = rows_below(page, "Matches that confirm only the first entries")
    tools.check("a page: how much of a list is confirmed", rows, [["cut", "97", "97", "bytes that are not an entry"], ["grown", "99", "100", "1"]])
    tools.check("the view of prefixes", query(table, "SELECT * FROM prefixes ORDER BY 1"), [("cut", 97, 97, 0), ("grown", 99, 100, 1)])
    del answers["grown"], answers["cut"]
    page = shown_page(tools, make_table(folder / "no prefixes.db", answers))
    found = ("first entries" in state_of(page)[0], [each.text for each in page.all("h2") if "first entries" in each.text])
    tools.check("a page: matches of whole lists", found, (False, []))


def test_size(tools, folder):
    """The page of 5,000 machines of which none matches, each by all PCRs with values of its own, is a page that a browser opens."""
    def of(number):
        value = f"{number:064x}"
        rows = [{"bank": "sha256", "register": place, "expected": value, "state": "differ", "value": value[::-1]} for place in range(24)]
        return answer_of("differ", number, told={"registers": rows})

    status, text, _ = page_of(tools, make_table(folder / "large.db", {f"host-{number}.example.com": of(number) for number in range(5000)}))
    rows = rows_below(Reader(text).top, "Machines that do not match")
    tools.check("the page of 5,000 machines: its size", (status, len(text.encode()) < 2_000_000), (0, True))
    found = (len(rows), rows[0][2].count("expected"), rows[0][2][-11:])
    tools.check("the page of 5,000 machines: its rows, and the values of one", found, (1000, 3, "and 21 more"))
    names = re.findall(r"<bdi class=.text.>(host-\d+\.example\.com)</bdi>", text)
    tools.check("the page of 5,000 machines: each is there", len(set(names)), 5000)


def test_bars(tools, folder):
    """Of more polls than the plot has room for several have one bar, with their changes."""
    match, differ = {"a": answer_of("match", 1)}, {"a": answer_of("differ", 1, others=(4,))}
    page = shown_page(tools, make_table(folder / "bars.db", [*3 * [match], differ, *57 * [match]]))
    rows = [[row[0], *row[2:4]] for row in rows_below(page, "Changes over time")]
    found = (len(rows), rows[:3], rows[-1])
    tools.check("a page: 61 polls", found, (31, [["polls 1 to 2", "0", "0"], ["polls 3 to 4", "0", "1"], ["polls 5 to 6", "1", "0"]], ["poll 61", "0", "0"]))


def test_plot(tools):
    """How many bars polls have, each beside the next one; and the scale up to the next of 2, 5 and 10, or these times 10, 100 and so on."""
    for count, bars, last in ((1, 1, (1, 1)), (60, 60, (60, 60)), (120, 60, (119, 120)), (121, 41, (121, 121))):
        made = bars_of([(number, "") for number in range(1, count + 1)], ())
        places = plot_of(made).bars
        beside = [one.left + one.width <= other.left for one, other in zip(places, places[1:])]
        found = (len(made), made[-1][:2], all(beside), places[-1].left + places[-1].width <= plot_of(made).width)
        tools.check(f"a plot of {count} polls", found, (bars, last, True, True))
    for most, marks in (
        (0, [0, 1, 2]), (2, [0, 1, 2]), (3, [0, 2, 5]), (5, [0, 2, 5]), (6, [0, 5, 10]), (11, [0, 10, 20]), (21, [0, 25, 50]), (101, [0, 100, 200]),
    ):
        plot = plot_of(bars_of([(1, ""), (2, "")], [(1, "differ", most), (2, "match", 1)]))
        highest = min(piece.top for place in plot.bars for piece in place.pieces)
        found = ([mark for mark, _ in plot.scale], plot.scale[0][1], plot.scale[-1][1] <= highest)
        tools.check(f"a plot of {most} changes in a poll", found, (marks, plot.bottom, True))


def test_bounds(tools, folder):
    """The last 500 changes, the 50 largest groups of a value, and as many reasons and lists as machines are listed."""
    def of_value(value):
        row = {"bank": "sha256", "register": 10, "expected": GOOD, "state": "differ", "value": f"{value:064x}"}
        return answer_of("differ", value, told={"registers": [row]})

    answers = {f"m{number:03}": of_value(min(number, 50)) for number in range(52)}  # (the last two have the same value)
    answers.update({f"n{number:03}": answer_of("match", 99) for number in range(449)})
    answers.update(a=answer_of("match", 98), b=answer_of("match", 98), c=answer_of("refused", cause="x"))
    table = make_table(folder / "bounds.db", [answers])
    page = shown_page(tools, table)
    rows = rows_below(page, "PCRs that do not match")
    tools.check("a page: how many values are listed, the most frequent first", (len(rows), rows[0][0], rows[0][2]), (50, "2", "m050, m051"))
    (part,) = [each for each in page.all("details") if next(each.all("summary")).text.startswith("The last")]
    rows = [[cell.text for cell in row.inner if not isinstance(cell, str)] for row in next(part.all("tbody")).all("tr")]
    found = (next(part.all("summary")).text, len(rows), rows[0][0], rows[-1][0])
    tools.check("a page: how many changes are listed", found, ("The last 500 changes", 500, "c", "m004"))
    page = shown_page(tools, "--most", 1, table)
    found = [len(rows_below(page, title)) for title in ("Reasons", "Machines that do not match", "Machines with the same list")]
    tools.check("a page: --most", found, [1, 1, 1])


def test_states(tools, folder):
    """Only a table of which the last run has ended lately, and every verdict is a match of it, has the colour of a match."""
    match = {"a": answer_of("match", 1), "b": answer_of("match", 2)}
    differ = {**match, "b": answer_of("differ", 2, others=(4,))}
    old, to_come = "2026-01-01T00:00:00.000+00:00", "2999-01-01T00:00:00.000+00:00"
    earlier = "1 verdict is older than poll 2, the last one that ended."
    calls, wanted = [], []
    for title, polls, edit, words, told, is_wanted in (
        ("all match", match, None, (), "All 2 machines match", True),
        ("all match by polls", [match, match], None, (), "All 2 machines match", True),
        ("matches without a quote", match, None, (), "2 of these matches rest on unsigned PCR values: a compromised kernel can state any.", True),
        ("one differs", differ, None, (), "1 of 2 machines match", False),
        ("no verdict", {}, None, (), "No machine has a verdict", False),
        ("a poll that has not ended", [match, match], "DELETE FROM ends WHERE poll = 2", (), "Poll 2 has not ended", False),
        ("no end", match, "DELETE FROM ends", (), "No run has ended", False),
        ("an old end", match, f"UPDATE ends SET time = '{old}'", (), "did not end within", False),
        ("an end of a moment ago", match, MOMENT_AGO, ("--max-age", "1s"), "did not end within 1 s", False),
        ("an end of a moment ago, which may be older", match, MOMENT_AGO, ("--max-age", "60m"), "All 2 machines match", True),
        ("an end by a clock that is 30 s ahead", match, AHEAD.format("ends"), (), "All 2 machines match", True),
        ("verdicts by a clock that is 30 s ahead", match, AHEAD.format("given"), (), "All 2 machines match", True),
        ("an end to come", match, f"UPDATE ends SET time = '{to_come}'", (), "did not end within", False),
        ("a verdict of an earlier poll", [match, match], "UPDATE given SET poll = 1 WHERE rowid = 1", (), earlier, False),
        ("verdicts after the end", match, f"UPDATE given SET time = '{to_come}'", (), "after the last run ended", False),
    ):
        table = make_table(folder / f"{title}.db", polls)
        if edit:
            change(table, edit)
        wanted.append((title, told, is_wanted))
        calls.append((*words, table))
    with ThreadPoolExecutor(max_workers=4) as pool:
        pages = list(pool.map(lambda call: page_of(tools, *call), calls))
    for (title, told, is_wanted), (status, page, _) in zip(wanted, pages):
        text, is_good = state_of(Reader(page).top)
        tools.check(f"a page: {title}", (status, told in text, is_good), (0, True, is_wanted))


def test_refused_pages(tools, folder):
    """What is no table of verdicts is refused, without a page; and nothing is written to one that is."""
    table, other, damaged = make_table(folder / "whole.db", {"a": answer_of("match")}), folder / "other.db", folder / "damaged.db"
    change(other, "CREATE TABLE verdicts (machine)")
    (folder / "text.db").write_text("machine\tmatch\n")
    make_table(damaged, [{"a": answer_of("match")}])
    change(damaged, "UPDATE changes SET verdict = 'fine'")
    with closing(sqlite3.connect(make_table(folder / "form.db", {"a": answer_of("match")}))) as connection:
        connection.execute("PRAGMA user_version = 1")
    for title, path, told in (
        ("no file", folder / "none.db", "none.db: it is not there"), ("a folder", folder, f"refused: {folder}: "),
        ("another file", other, "no table of verdicts"), ("a text", folder / "text.db", "file is not a database"),
        ("a verdict that is none", damaged, "it is damaged"), ("another version", folder / "form.db", "another version"),
        ("a name with control characters", folder / "no\x1b[31m\n.db", "/no?[31m?.db: "),
    ):
        status, output, errors = page_of(tools, path)
        tools.check(f"no page: {title}", (status, output, told in errors, errors.count("\n"), "Traceback" in errors), (2, "", True, 1, False))
    tools.check("no page: no file was made", (folder / "none.db").exists(), False)
    before = hashlib.sha256(table.read_bytes()).hexdigest()
    with closing(sqlite3.connect(table)) as writer:
        writer.execute("BEGIN IMMEDIATE")
        writer.execute("UPDATE found SET verdict = 'differ'")
        text, is_good = state_of(shown_page(tools, table))
        tools.check("a page while a run writes: what was recorded before", ("The only machine matches" in text, is_good), (True, True))
        writer.rollback()
    tools.check("a page leaves the table as it was", hashlib.sha256(table.read_bytes()).hexdigest(), before)


def processor_seconds():
    """What this process's children took, as far as they have ended. (A busy computer gives them less at a time, and takes no more.)"""
    spent = resource.getrusage(resource.RUSAGE_CHILDREN)
    return spent.ru_utime + spent.ru_stime


def test_many(tools, folder):
    """Of 20,000 machines that do not match, some are listed with their reasons, and all by name; of those that match, all by name."""
    count, listed = 20000, 500
    answers = {
        f"host {number}": answer_of("differ", number, others=(10,)) if number % 2 else answer_of("match", number) for number in range(count)
    }
    table, before = make_table(folder / "many.db", answers), processor_seconds()
    status, text, _ = page_of(tools, "--most", listed, table)
    seconds = processor_seconds() - before
    names = re.findall(r"(?:<th scope=.row. class=.name.>|<li data-kind=.\w+.>)<bdi class=.text.>(host \d+)</bdi>", text)
    tools.check("20,000 machines: each is there once", (status, sorted(names)), (0, sorted(answers)))
    tools.check("20,000 machines: the page says what it lists", f"Of 10000 machines {listed} are listed" in text, True)
    tools.check("20,000 machines: the page is short, and soon there", (len(text) < 3_000_000, seconds < 20), (True, True))


def test_quoted_table(tools, folder):
    """Ages of quotes, the oldest first, and keys that signed for two machines."""
    quote = {"quote_sha256": "b" * 64, "signature_sha256": "c" * 64, "resets": 3, "restarts": 1}
    answers = {
        name: answer_of("match", number, signer=signer, quote_age=age, nonce=f"{number:040x}", **quote)
        for number, (name, signer, age) in enumerate((("a", "d" * 64, 4.0), ("b", "e" * 64, 3000.0), ("c", "e" * 64, 90.5)))
    }
    told = {"quote": "differ", "extends": [{"event": 25, "register": 10}, {"entry": 7, "register": 9}]}
    answers.update(e=answer_of("match", 4), f=answer_of("match", 5))
    answers["d"] = answer_of("differ", 3, signer="f" * 64, quote_age=1.0, nonce="ff", told=told, **quote)
    page = shown_page(tools, make_table(folder / "quoted.db", answers))
    rows = rows_below(page, "Quotes")
    wanted = [["b", "50 min", "3", "1"], ["c", "90 s", "3", "1"], ["a", "4 s", "3", "1"], ["d", "1 s", "3", "1"]]
    tools.check("quotes: the oldest first", [row[:4] for row in rows], wanted)
    tools.check("quotes: keys", [row[4] for row in rows], [letter * 64 for letter in "eedf"])
    unsigned = "2 of these matches rest on unsigned PCR values:" in state_of(page)[0]
    found = ("4 of 6 machines were judged by a quote." in next(page.all("main")).text, unsigned)
    tools.check("quotes: how many machines have one", found, (True, True))
    facts = [each.text for each in next(page.all("main")).all("li") if "PCR" in each.text]
    tools.check("quotes: where a machine differs", facts, ["event 25 extends PCR 10", "entry 7 extends PCR 9"])
    wanted = "Log and list do not make the quoted PCRs; an event of the log extends PCR 10; an entry of the list extends PCR 9."
    tools.check("quotes: why a machine differs", rows_below(page, "Reasons")[0][2], wanted)
    told = [each.text for each in page.all("div") if each.text.startswith("One key signed for 2 machines: b, c")]
    tools.check("quotes: one key of two machines is told", len(told), 1)
    found = [text.endswith(", unsigned") for text in named(page)]
    tools.check("quotes: which matches have none", found, [False, False, False, True, True])
    test_signed_look(tools, folder, answers)
    test_quote_ages(tools, folder, quote)
    alike = make_table(folder / "alike.db", {
        "a": answer_of("match", 7), "b": answer_of("match", 7), "c": answer_of("match", 8),
        "d": answer_of("match", 8, list_from=95), "e": answer_of("match", 7, list_from=95),  # (of these the rest of a list was read)
    })
    rows = rows_below(shown_page(tools, alike), "Machines with the same list")
    tools.check("machines with the same list are told", rows, [["2", "a, b", f"{7:064x}"]])


def test_signed_look(tools, folder, answers):
    """Where all machines match, the page has the colour of a match only if each match rests on a quote."""
    signed = {name: answers[name] for name in "abc"}
    for title, given, look in (("all", signed, "state match"), ("all but one", {**signed, "e": answers["e"]}, "state unquoted")):
        page = shown_page(tools, make_table(folder / f"signed {title}.db", given))
        looks = [each.attributes["class"] for each in page.all("div") if each.attributes.get("class", "").startswith("state")]
        tools.check(f"quotes: how a page looks where {title} have one", looks, [look])


def test_quote_ages(tools, folder, quote):
    """How many quotes are how old, and the ten oldest, each with its age in the unit of which it has two or more."""
    ages = (0, 59.5, 60, 119, 120, 599, 600, 3599, 3600, 7199, 7200, 86399, 86400, 172800)
    answers = {
        f"m{number:02}": answer_of("match", number, signer=f"{number:064x}", quote_age=age, nonce=f"{number:040x}", **quote)
        for number, age in enumerate(ages)
    }
    page = shown_page(tools, make_table(folder / "quote ages.db", answers))
    oldest = [[row[0], row[1]] for row in rows_below(page, "Quotes")]
    tools.check("quotes: the ten oldest", oldest, [
        ["m13", "2 days"], ["m12", "24 h"], ["m11", "24 h"], ["m10", "2 h"], ["m09", "120 min"], ["m08", "60 min"], ["m07", "60 min"], ["m06", "10 min"],
        ["m05", "10 min"], ["m04", "2 min"],
    ])
    (part,) = page.all("dl")
    tools.check("quotes: how many are how old", [each.text for each in part.inner if not isinstance(each, str)], [
        "a day or more", "2", "less than a day", "4", "less than an hour", "2", "less than 10 minutes", "4", "less than a minute", "2",
    ])


def hostile_table(folder, port):
    """A table whose machines and causes have hostile names, and one name that is not UTF-8."""
    answers = {text: answer_of("refused", cause=f"cause {text}") for text, _ in hostile_texts(port)}
    table = make_table(folder / "hostile.db", [{**answers, "bytes": answer_of("unreadable", cause="x")}])
    change(table, "UPDATE found SET machine = CAST(x'636166e93c623e' AS TEXT) WHERE machine = 'bytes'")
    change(table, "UPDATE found SET reason = cause")  # (by another hand, which cleans nothing)
    return table


def test_hostile_table(tools, folder):
    """Hostile names are text: each is shown, and none is markup."""
    status, text, _ = page_of(tools, hostile_table(folder, 9))
    page = Reader(text).top
    rows = {row[0]: row[2] for row in rows_below(page, "Machines that do not match")}
    for number, (_, shown) in enumerate(hostile_texts(9)):
        tools.check(f"hostile name {number} is shown, and its cause", rows.get(folded(shown)), folded(f"cause {shown}"))
    tools.check("a name that is not UTF-8 is shown by its bytes", [name for name in rows if name.startswith("caf")], ["caf\\xe9<b>"])
    tools.check("hostile names: nothing foreign", (status, foreign(page)), (0, []))
    tools.check("hostile names: no character without a glyph is left", sorted({letter for letter in text if not letter.isprintable()}), ["\n"])


def test_moment(tools, table):
    """A page has a table as it is at one moment, whatever is recorded meanwhile. (Here this Python reads it, and not that of the processes.)"""
    tools.lacks(*([] if find_spec("jinja2") else [f"jinja2 for {sys.executable}"]))
    from fleet_verify.overview import snapshot_of

    with snapshot_of(str(table)) as connection:
        change(table, "UPDATE found SET verdict = 'differ'")
        found = connection.execute("SELECT verdict FROM verdicts").fetchall()
    tools.check("a page has a table as it is at one moment, whatever is recorded meanwhile", found, [("match",)])


def test_templates(tools):
    """No template prints a text in an attribute, nor lets anything pass unescaped; and all colours can be read on their grounds. (The address of a
    report has no character that means something: `page_reports.py` tries that.)"""
    allowed = {
        "policy", "made", "verdict", "links[each.machine].path",
        "each.verdict", "each.kind", "state", "place.left", "place.width", "piece.top", "piece.height", "plot.width",
        "plot.height", "plot.left", "plot.bottom - 1", "top", "top + 4", "plot.left - 8", "plot.height - 8", "class", "classes[piece.kind]",
        # (words of the template and of `Boot` alone, and a number)
        "label", "name", "kinds or state", "step.part", "boot.look", "boot.look if boot.word == 'match' else boot.word", "each.register",
    }
    for file in sorted(TEMPLATES.glob("*.html")):
        text = file.read_text()
        values = re.findall(r'[a-z]="[^"]*?\{\{ (.*?) \}\}', text)
        others = {value for value in values if value not in allowed and not re.fullmatch(r"'\w+' if [^|]* else '\w+'", value)}
        tools.check(f"{file.name}: attributes have no text", others, set())
        tools.check(f"{file.name}: nothing passes unescaped", re.findall(r"\|\s*safe|autoescape|Markup", text), [])
    palettes = re.findall(r":root \{(.*?)\}", (TEMPLATES / "page.css").read_text(), re.DOTALL)[:2]
    for title, palette in zip(("light", "dark"), palettes):
        colours = dict(re.findall(r"--(\w+): (#\w{6})", palette))
        grounds = [colours.pop(name) for name in ("ground", "raised")]
        del colours["line"]
        ratios = {name: min(contrast(colour, ground) for ground in grounds) for name, colour in colours.items()}
        tools.check(f"the {title} colours can be read", {name: ratio for name, ratio in ratios.items() if ratio < 4.5}, {})


def contrast(one, other):
    """The contrast of two colours (WCAG 2.1, 'contrast ratio')."""
    def luminance(colour):
        parts = [int(colour[at:at + 2], 16) / 255 for at in (1, 3, 5)]
        linear = [part / 12.92 if part <= 0.03928 else ((part + 0.055) / 1.055) ** 2.4 for part in parts]
        return 0.2126 * linear[0] + 0.7152 * linear[1] + 0.0722 * linear[2]

    lower, higher = sorted((luminance(one), luminance(other)))
    return (higher + 0.05) / (lower + 0.05)
