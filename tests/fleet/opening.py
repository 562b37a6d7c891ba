"""Tests of files in place of a table of verdicts, for tests/fleet/test: each ends each command soon, refused, and stays as it is."""

import os
import shutil
import sqlite3
import subprocess
from concurrent.futures import ThreadPoolExecutor
from contextlib import closing
from pathlib import Path

from cluster import REQUIRE, ROOT, SECONDS, has
from fleet_verify.machines import Machine
from fleet_verify.opening import open_snapshot, open_table
from fleet_verify.verdicts import Verdicts
from hostile import listening_socket
from tables import query

AT_ONCE = 4
PAGE = 4096
# A tree of so many levels, of which each has its pages from the next one, hundreds of times: SQLite takes no more.
LEVELS = 17
INNER, LEAF = 5, 13  # (kinds of pages)

ENDLESS = "WITH RECURSIVE counted (machine) AS (SELECT 1 UNION ALL SELECT machine + 1 FROM counted)"
COLUMNS = "machine, 'match' AS verdict, NULL AS cause, NULL AS poll, '' AS required, NULL AS signer, NULL AS time, NULL AS known_sha256"

# Names of tables to which a URI gives another meaning, and one that is not UTF-8.
NAMES = ("a?b.db", "a#b.db", "100%41.db", "caf\udce9.db")

# What is done to a table that is one, by SQL.
EDITED = {
    "a view that never ends": f"DROP VIEW verdicts; CREATE VIEW verdicts AS {ENDLESS} SELECT {COLUMNS} FROM counted",
    "a view in place of a table": "ALTER TABLE ends RENAME TO other; CREATE VIEW ends AS SELECT * FROM other",
    "a view that never ends in place of a table": f"DROP TABLE nonces; CREATE VIEW nonces AS {ENDLESS} SELECT machine, '' AS nonce FROM counted",
    "a trigger": "CREATE TRIGGER matching AFTER INSERT ON given BEGIN UPDATE found SET verdict = 'match'; END",
    "another table": "CREATE TABLE other (machine)",
    "another index": "CREATE INDEX other ON found (verdict)",
    "a table of other columns": "DROP TABLE polls; CREATE TABLE polls (number INTEGER PRIMARY KEY, time TEXT NOT NULL DEFAULT (randomblob(1000000)))",
    "no index of its own": "PRAGMA writable_schema = ON; DELETE FROM sqlite_master WHERE name = 'sqlite_autoindex_found_1'",
    "a huge schema": "PRAGMA writable_schema = ON; INSERT INTO sqlite_master WITH RECURSIVE counted (x) AS (SELECT 1 UNION ALL SELECT x + 1 "
    "FROM counted WHERE x < 50000) SELECT 'view', 'v' || x, 'v' || x, 0, 'CREATE VIEW v' || x || ' AS SELECT 1' FROM counted",
    "another form": "PRAGMA user_version = 8",
    "another program": "PRAGMA application_id = 0",
}


def make_table(path):
    """A table of verdicts with a machine that matches, and one that has a nonce; it is one file."""
    with closing(Verdicts(str(path), REQUIRE)) as table:
        answer = {"verdict": "match", "time": "2026-11-29T10:00:00.000+00:00", "worker": "here", "report": '{"registers":[],"verdict":"match"}'}
        table.record([(Machine("a", ("/a",)), answer)], ())
    with closing(open_table(str(path))) as connection:
        connection.execute("PRAGMA journal_mode = DELETE")
    return path


def interior(child, first=None):
    """An inner page of a tree, all of whose children are the same page, but for the first, if that is another."""
    count = 500
    cells = [(first if number == 0 and first else child).to_bytes(4, "big") + b"\x01" for number in range(count)]
    start = PAGE - 5 * count
    head = bytes([INNER]) + b"\0\0" + count.to_bytes(2, "big") + start.to_bytes(2, "big") + b"\0" + child.to_bytes(4, "big")
    upper = head + b"".join((start + 5 * number).to_bytes(2, "big") for number in range(count))
    return upper + bytes(start - len(upper)) + b"".join(cells)


def with_levels(pages, leaf):
    """Adds the levels above a leaf, and the leaf. Gives the number of the topmost page."""
    top = len(pages) + 1
    pages += [interior(top + level + 1) for level in range(LEVELS)] + [leaf]
    return top


def with_endless_table(pages, roots):
    """The tree of `given` has its one leaf 500^17 times."""
    leaf = pages[roots["given"] - 1]
    pages[roots["given"] - 1] = interior(with_levels(pages, leaf))


def with_endless_schema(pages, roots):
    """The schema is that of a table of verdicts, but says 500^17 times more which index `found` has."""
    cell = next(cell for page in pages[1:] if page[0] == LEAF for cell in cells_of(page) if b"sqlite_autoindex_found_1" in cell[:60])
    start = (PAGE - len(cell)).to_bytes(2, "big")
    head = bytes([LEAF]) + b"\0\0\0\1" + start + b"\0" + start
    top = with_levels(pages, head + bytes(PAGE - len(head) - len(cell)) + cell)
    pages.append(interior(top, first=int.from_bytes(pages[0][108:112], "big")))
    pages[0] = pages[0][:108] + len(pages).to_bytes(4, "big") + pages[0][112:]


def cells_of(page):
    """The cells of a leaf."""
    count = int.from_bytes(page[3:5], "big")
    starts = sorted(int.from_bytes(page[8 + 2 * number:10 + 2 * number], "big") for number in range(count))
    return [page[start:end] for start, end in zip(starts, [*starts[1:], PAGE])]


def rewritten(path, change):
    """Changes the pages of a table that SQLite would not make."""
    with closing(sqlite3.connect(path)) as connection:
        roots = dict(connection.execute("SELECT name, rootpage FROM sqlite_master"))
    data = path.read_bytes()
    pages = [data[start:start + PAGE] for start in range(0, len(data), PAGE)]
    change(pages, roots)
    pages[0] = pages[0][:28] + len(pages).to_bytes(4, "big") + pages[0][32:]
    path.write_bytes(b"".join(pages))


def made_files(folder, good):
    """The files, each by what it is."""
    for title, script in EDITED.items():
        path = Path(shutil.copyfile(good, folder / f"{title}.db"))
        with closing(sqlite3.connect(path)) as connection:
            connection.executescript(script)
        yield title, path
    for title, change in (("a tree without end", with_endless_table), ("a schema without end", with_endless_schema)):
        path = Path(shutil.copyfile(good, folder / f"{title}.db"))
        rewritten(path, change)
        yield title, path
    for title, make in (("a pipe", os.mkfifo), ("a folder", Path.mkdir), ("a socket", listening_socket)):
        make(folder / title)
        yield title, folder / title
    (folder / "a text").write_text("machine\tmatch\n")
    (folder / "a link to a pipe").symlink_to("a pipe")
    yield from ((title, folder / title) for title in ("a text", "a link to a pipe"))
    yield "a device", Path("/dev/zero")
    for ending in ("wal", "journal"):
        path = Path(shutil.copyfile(good, folder / f"beside a pipe {ending}.db"))
        os.mkfifo(f"{path}-{ending}")
        yield f"beside a pipe, {ending}", path
        link = folder / f"a link beside a pipe {ending}"
        link.symlink_to(path)
        yield f"a link to a table beside a pipe, {ending}", link


def test_opening(tools):
    """By each command that opens a table."""
    folder = tools.folder / "opening"
    folder.mkdir()
    good, machines = make_table(folder / "good.db"), folder / "machines.tsv"
    machines.write_text("a\t/a\n")
    run = ("--workers", "1", "--unquoted", "--require", REQUIRE)
    commands = {
        **({"page": ("page",)} if has(tools.python, "jinja2") else {}), "nonces": ("nonces", machines), "run": (*run, machines), "poll": (*run, "--poll", machines),
        "metrics": (*run, "--prune", "--again", "none", "--metrics", folder / "metrics", machines),
    }
    files = list(made_files(folder, good))
    before = {path: path.read_bytes() for _, path in files if path.is_file()}

    def called(words):
        words = [tools.python, ROOT / "fleet/verify.py", *words]
        ended = subprocess.run([str(word) for word in words], env=tools.environment, cwd=folder, capture_output=True, text=True, timeout=SECONDS)
        return ended.returncode, ended.stdout, ended.stderr

    with ThreadPoolExecutor(AT_ONCE) as pool:
        calls = [(title, name, pool.submit(called, (*words, path)), path) for title, path in files for name, words in commands.items()]
        for title, name, call, path in calls:
            status, output, errors = call.result()
            is_told = f"fleet-verify: refused: {path}: " in errors
            tools.check(f"refused by {name}: {title}", (status, output, is_told or errors), (2, "", True))
    tools.check("what is refused stays as it is", [path for path, data in before.items() if path.read_bytes() != data], [])
    test_names(tools, folder)
    tools.needs_modules("jinja2")
    tools.check("the table that these were made of is one", called(("page", good))[0], 0)


def test_names(tools, folder):
    """A table is the file of the name that was given, or that a link of this name leads to, to be written and to be read."""
    for number, name in enumerate(NAMES):
        home = folder / f"names {number}"
        home.mkdir()
        (home / "link").symlink_to(name)
        make_table(home / "link")
        found = [query(home / name, "SELECT machine FROM found")]
        for path in (home / name, home / "link"):
            with closing(open_snapshot(str(path))) as table:
                found.append(table.execute("SELECT machine FROM found").fetchall())
        tools.check(f"a table of the name {name!r}", (sorted(os.listdir(home)), found), (sorted([name, "link"]), 3 * [[("a",)]]))
