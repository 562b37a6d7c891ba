"""Tests of quotes, for tests/fleet/test: machines that have emulated TPMs, with keys of their own, answer nonces.

What must come of each is known from what was done to it: its list grew, it started anew, another machine's TPM answered for it."""

import hashlib
import os
import random
import re
import shutil
import sqlite3
import subprocess
import sys
import time
from collections import Counter
from concurrent.futures import ThreadPoolExecutor
from contextlib import closing, suppress
from dataclasses import dataclass, field
from pathlib import Path
from unittest import mock

from cluster import REQUIRE, ROOT, SECONDS, children_of, until
from quoted import CLOCK, HEAD, SELECTED, sized
from tables import change, query
from tpms import LOW, NEEDED, Tpm

sys.path.append(str(ROOT / "tools/bench"))
import inputs  # noqa: E402
from reference.measurement_list import list_spelling  # noqa: E402
from reference.registers import SHA256  # noqa: E402

MACHINES = 20
MOST_ENTRIES = 60
KEYS = ("rsa2048:rsassa-sha256:null", "rsa2048:rsassa-sha256:null", "ecc256:ecdsa-sha256:null", "rsa2048:rsapss-sha256:null")
AT_ONCE = 6
EVIDENCE = ("firmware.log", "ima.list", "quote.msg", "quote.sig")
PLACES = ("{0}", "\t".join(f"{{0}}/{file}" for file in EVIDENCE), "\t".join(f"file://{{0}}/{file}" for file in EVIDENCE))
VERDICTS = ("match", "differ", "refused", "unreadable", "failed")
MOST_BYTES = 64 * 1024 * 1024
ADD_NONCE = "INSERT INTO nonces (machine, nonce, given_out, max_age) VALUES (?, ?, ?, ?)"
OLD = "stale: the nonce of its quote is older than --max-age, or from the future"
USED = "stale: an earlier verdict used the nonce of its quote"
NO_NONCE = "no nonce: none was given out for this machine, or each is used or too old"
OTHER_NONCE, LESS_QUOTED = "refused: quote fault 11", "refused: quote fault 12"
CUT_SIGNATURE, NO_SCHEME, BAD_SIGNATURE, BAD_PEM = (f"refused: signature fault {number}" for number in (1, 2, 7, 9))
NO_AREA, UNRESTRICTED = "refused: key fault 1", "refused: key fault 15"
RSASSA, RSAPSS = (bytes.fromhex(f"{scheme}000b0100") for scheme in ("0014", "0016"))  # how a TPMT_SIGNATURE begins, by SHA-256, of 256 bytes
ABSENT = "no quote: {}: it is not there"

# What happens before the second poll. All other machines' lists grow, but for those of an even number.
STARTED_ANEW, SUSPENDED = (4, 9, 14), (7,)


@dataclass
class Quoted:
    """A machine by its number: its TPM, what was measured since it started, and the folder of its evidence."""

    number: int
    tpm: Tpm
    folder: Path
    boots: int = 0
    count: int = 0
    log: object = None
    entries: list = field(default_factory=list)

    @property
    def name(self):
        return f"machine {self.number}"

    @property
    def measurements(self):
        """The made files that it measures in this boot, each a path and a digest."""
        first = 1000 * self.number + 100 * self.boots
        return list(inputs.made_measurements(first + MOST_ENTRIES))[first:]

    def line(self):
        """Its line in the table of machines, of each form in turn: a folder, four paths, four URLs."""
        return f"{self.name}\t{PLACES[self.number % len(PLACES)].format(self.folder)}\n"

    @property
    def list(self):
        return list_spelling(self.entries[: self.count])

    def boot(self):
        """Starts anew, with a log and a list of its own."""
        self.boots += 1
        log = inputs.made_log([SHA256], 12 + self.number % 5)
        self.log = log._replace(events=log.events[1:])  # (that states another locality than swtpm starts in)
        self.entries, self.count = inputs.made_entries(self.log, self.measurements), 0
        self.tpm.boot(self.log)
        self.grow(10 + self.number % 7)

    def grow(self, more):
        self.tpm.measure(self.entries[self.count : self.count + more])
        self.count += more

    def answer(self, nonce, *selection):
        """Gives evidence: its log and its list, and a quote with this nonce."""
        self.folder.mkdir(exist_ok=True)
        for file in EVIDENCE:
            with suppress(FileNotFoundError):
                (self.folder / file).unlink()
        (self.folder / "firmware.log").write_bytes(self.log.spelling())
        (self.folder / "ima.list").write_bytes(self.list)
        self.tpm.quote(nonce, self.folder, *selection)

    def counted(self):
        """How often its TPM was reset and restarted, as tpm2_print reads its quote."""
        printed = self.tpm.tool("tpm2_print", "-t", "TPMS_ATTEST", self.folder / "quote.msg")
        return tuple(int(re.search(rf"{name}: (\d+)", printed)[1]) for name in ("resetCount", "restartCount"))

    def signer(self):
        """The SHA-256 of its key as openssl writes it."""
        written = subprocess.run(["openssl", "pkey", "-pubin", "-in", self.tpm.key, "-outform", "DER"], check=True, capture_output=True)
        return hashlib.sha256(written.stdout).hexdigest()


@dataclass
class Quotes:
    """The tests of quotes of these machines: the verifier's folder, with keys and nonces."""

    tools: object
    folder: Path
    machines: list

    @property
    def check(self):
        return self.tools.check

    @property
    def table(self):
        return self.folder / "machines.tsv"

    @property
    def keys(self):
        return self.folder / "keys"

    def keep_key(self, machine):
        """The verifier has a machine's key: the public area, or of every other machine only the PEM."""
        for form in ("pub", "pem"):
            (self.keys / f"{machine.name}.{form}").unlink(missing_ok=True)
        kept = machine.tpm.key if machine.number % 2 else machine.tpm.area
        shutil.copy(kept, self.keys / f"{machine.name}{kept.suffix}")

    def call(self, *words, seconds=SECONDS):
        """The status of a call of fleet-verify, and what it printed on both streams."""
        words = [self.tools.python, ROOT / "fleet/verify.py", *words]
        ended = subprocess.run([str(word) for word in words], env=self.tools.environment, text=True, capture_output=True, timeout=seconds)
        return ended.returncode, ended.stdout, ended.stderr

    def run_words(self, verdicts, *words, by=("--workers", 2)):
        return *by, "--require", REQUIRE, "--keys", self.keys, *words, self.table, verdicts

    def give_out(self, verdicts):
        """The nonces that are given out now, by the machines' names."""
        status, output, errors = self.call("nonces", self.table, verdicts)
        self.check("nonces are given out", (status, errors), (0, ""))
        return dict(line.split("\t") for line in output.splitlines())

    def each(self, do, machines=None):
        """Does something with each machine, some at once."""
        with ThreadPoolExecutor(AT_ONCE) as pool:
            return list(pool.map(do, self.machines if machines is None else machines))

    def answer(self, given):
        """Each machine answers its nonce."""
        self.each(lambda machine: machine.answer(given[machine.name]))

    def check_run(self, title, words, wanted):
        """A run gives these verdicts and causes by name, and tells how many of each; the status is theirs."""
        status, output, errors = self.call(*words)
        found = {name: tuple(row) for name, *row in query(words[-1], "SELECT machine, verdict, cause FROM verdicts")}
        self.check(f"{title}: verdicts", found, wanted)
        counts = Counter(verdict for verdict, _ in wanted.values())
        due = 0 if counts["match"] == len(wanted) else 1 if counts["differ"] + counts["refused"] else 4
        lines = "".join(f"{kind} {counts[kind]}\n" for kind in VERDICTS)
        self.check(f"{title}: status and counts", (status, output, errors if status in (2, 3) else ""), (due, lines, ""))

    def all(self, verdict="match", cause=None):
        return {machine.name: (verdict, cause) for machine in self.machines}


# What the library says of a wrong argument, by its table of errors (crates/error_texts).
SHORT_NONCE = (
    "unexpected error, Misuse: An argument is wrong. Write PCRs as in sha256:0-10. Require at least PCR 10; with a quote, require PCRs 0 to 10, and not "
    "only in the SHA-1 bank. A nonce has at least 16 bytes. Known files need required PCRs."
)


def test_quotes(tools):
    """Machines with quotes, from poll to poll; and what comes of quotes that prove nothing."""
    test_taking(tools)
    test_taking_alone(tools)
    test_ages(tools)
    test_nonce_files(tools)
    test_taking_over(tools)
    test_keys(tools)
    tools.needs(*NEEDED)
    tools.needs_modules("cryptography")
    folder = tools.folder / "quotes"
    folder.mkdir()
    machines = [
        Quoted(number, Tpm(folder / f"tpm {number}", KEYS[number % len(KEYS)]), folder / str(number)) for number in range(MACHINES)
    ]
    quotes = Quotes(tools, folder, machines)
    try:
        quotes.each(start)
        quotes.keys.mkdir()
        for machine in machines:
            quotes.keep_key(machine)
        quotes.table.write_text("".join(machine.line() for machine in machines))
        verdicts = folder / "verdicts.db"
        test_nonces(quotes, verdicts)
        test_growing(quotes, verdicts)
        test_bad_quotes(quotes, verdicts)
        test_stopped_poll(quotes, verdicts)
        test_killed(quotes)
        test_refused(quotes, verdicts)
    finally:
        for machine in machines:
            machine.tpm.stop()


def start(machine):
    machine.tpm.start("--clear")
    machine.tpm.make_key()
    machine.boot()


def test_taking(tools):
    """A nonce is used by the verdict that is recorded with it, and only then; and with it those that were given out before."""
    from fleet_verify.machines import Machine
    from fleet_verify.quotes import nonces_of, take
    from fleet_verify.opening import open_table

    def time_of(minute):
        return f"2026-01-01T00:{minute:02}:00.000+00:00"

    def taken(nonce, minute, name="a", verdict="match"):
        answer = {"verdict": verdict, "nonce": nonce, "time": "now", **dict.fromkeys(of_verdict, "x"), "report": "{}"}
        take(connection, [(Machine(name, ("/",), True), answer)], 1800, time_of(minute))
        return answer["verdict"], answer.get("cause", "")[:9], answer.get("quote_age"), sorted(answer)

    many = 12  # (more than a machine is asked with)

    of_verdict = (
        "boot_aggregate", "checkpoint", "entries", "events", "first_unknown", "locality", "resets", "restarts", "signer", "unknown",
    )
    plain = sorted([*of_verdict, "nonce", "quote_age", "report", "time", "verdict"])
    stale = ("unreadable", "stale: th", None, ["cause", "time", "verdict"])
    gone = ("unreadable", "stale: an", None, ["cause", "time", "verdict"])
    with closing(open_table(str(tools.folder / "taking.db"))) as connection:
        rows = [("a", "11", 0), ("a", "22", 5), ("a", "33", 10), ("b", "44", 5), ("b", "55", 50)]
        connection.executemany(ADD_NONCE, [(name, nonce, time_of(minute), 7200) for name, nonce, minute in rows])
        connection.executemany(ADD_NONCE, [("c", "77", time_of(5), 600)])
        connection.commit()
        tools.check("a nonce is used", taken("22", 20), ("match", "", 900.0, plain))
        connection.rollback()
        tools.check("a verdict that is not recorded uses none", {is_used for _, is_used in nonces_of(connection, "a")}, {False})
        for title, found, wanted in (
            ("a nonce is used by a verdict that differs", taken("22", 20, verdict="differ"), ("differ", "", 900.0, plain)),
            ("a nonce is used twice", taken("22", 20), gone),
            ("a nonce that was given out before", taken("11", 20), gone),
            ("a nonce of another machine", taken("44", 20), gone),
            ("a nonce that nobody gave out", taken("66", 20), gone),
            ("no nonce", taken(None, 20), gone),
            ("a nonce that was given out later", taken("33", 20), ("match", "", 600.0, plain)),
            ("a nonce that is too old", taken("44", 36, "b"), stale),
            ("a nonce of a time to come", taken("55", 20, "b"), stale),
            ("a nonce that is too old by its own age", taken("77", 16, "c"), stale),
            ("a nonce that is as old as it may be", taken("77", 15, "c"), ("match", "", 600.0, plain)),
        ):
            tools.check(f"taking: {title}", found, wanted)
        connection.executemany(ADD_NONCE, [("d", f"{number:02}", time_of(number), 7200) for number in range(many)])
        connection.execute("UPDATE nonces SET used = ? WHERE machine = 'd' AND nonce > '01'", (time_of(20),))
        first = nonces_of(connection, "d")
        tools.check("nonces of a machine: the unused first, then the latest", (first[:3], len(first) < many), (
            (("01", False), ("00", False), ("11", True)), True))
        tools.check("taking: what is used", (nonces_of(connection, "a"), nonces_of(connection, "b")), (
            (("33", True), ("22", True), ("11", True)), (("55", False), ("44", False))))


def test_taking_alone(tools):
    """Nobody else writes between the look at a nonce and its use: no two runs take one quote."""
    from fleet_verify import quotes
    from fleet_verify.machines import Machine
    from fleet_verify.reading import now
    from fleet_verify.verdicts import Quoting, Verdicts

    path, found = str(tools.folder / "taking alone.db"), []

    def write_beside(*_):
        try:
            other.execute("BEGIN IMMEDIATE")
            other.rollback()
        except sqlite3.OperationalError as fault:
            found.append(str(fault))

    with closing(Verdicts(path, REQUIRE, None, Quoting("/keys", 3600))) as table, closing(sqlite3.connect(path, timeout=0)) as other:
        with mock.patch.object(quotes, "take", write_beside):
            table.record([(Machine("a", ("/a",), True), {"verdict": "unreadable", "cause": "", "time": now()})], ())
    tools.check("a nonce is taken while no other writes", found, ["database is locked"])


def test_ages(tools):
    """A nonce is kept for half of its age, and none takes the place of one that is to be valid for another time."""
    from fleet_verify.machines import Machine
    from fleet_verify.nonces import give_out
    from fleet_verify.opening import open_table

    machines = [Machine("a", ("/",), True)]
    guessed = []
    for number in range(2):
        random.seed(1)
        with closing(open_table(str(tools.folder / f"guessed {number}.db"))) as connection:
            guessed.append(give_out(connection, machines, 3600)["a"])
    tools.check("nonces: none can be told beforehand", guessed[0] == guessed[1], False)
    with closing(open_table(str(tools.folder / "ages.db"))) as connection:
        first, same, other, last = (give_out(connection, machines, age)["a"] for age in (3600, 3600, 60, 60))
        tools.check("nonces: another for another --max-age", (first == same, first == other, other == last), (True, False, True))
        connection.execute("UPDATE nonces SET given_out = ?", (ago(70),))
        connection.commit()
        give_out(connection, machines, 86400)
        ages = [age for (age,) in connection.execute("SELECT max_age FROM nonces ORDER BY max_age")]
        tools.check("nonces: each is forgotten by its own age", ages, [3600.0, 86400.0])
        used = [("b", "11", ago(90), ago(80)), ("b", "22", ago(80), ago(70))]
        connection.executemany("INSERT INTO nonces (machine, nonce, given_out, max_age, used) VALUES (?, ?, ?, 60, ?)", used)
        connection.commit()
        give_out(connection, machines, 86400)
        kept = connection.execute("SELECT nonce FROM nonces WHERE machine = 'b'").fetchall()
        tools.check("nonces: the last that a machine used is kept, as its quote is known by it", kept, [("22",)])


def test_nonce_files(tools):
    """A file of a nonce takes the place of a link, in a folder that this user alone may enter."""
    from fleet_verify.ending import NotStarted
    from fleet_verify.machines import Machine
    from fleet_verify.nonces import require_files, write_files

    folder, target, mask = tools.folder / "nonce files", tools.folder / "of another", os.umask(0)
    try:
        write_files(folder, {})
    finally:
        os.umask(mask)
    tools.check("nonces: their folder is this user's", folder.stat().st_mode & 0o777, 0o700)
    target.write_text("untouched")
    (folder / "a").symlink_to(target)
    with mock.patch("tempfile.tempdir", "/none"):  # (a file comes from no other folder, which may be in another file system)
        faults = write_files(folder, {"a": "11"})
    found = (faults, (folder / "a").is_symlink(), (folder / "a").read_text(), target.read_text())
    tools.check("nonces: a file in place of a link", found, ([], False, "11\n", "untouched"))
    longest, refused = "b" * 255, []
    for name in (longest, "\u00fc" * 127, "b" * 256, "\u00fc" * 128, ".", "..", "b/c", "..."):
        try:
            require_files([Machine("a", ("/",), True), Machine(name, ("/",), True)])
        except NotStarted:
            refused.append(name)
    tools.check("nonces: which names are none of files", refused, ["b" * 256, "\u00fc" * 128, ".", "..", "b/c"])
    found = (write_files(folder, {longest: "22"}), (folder / longest).read_text(), len(list(folder.iterdir())))
    tools.check("nonces: a file with the longest name", found, ([], "22\n", 2))
    (folder / "c").mkdir()
    (folder / "d").write_bytes(b"\xff")
    before = (folder / "a").stat().st_ino
    faults = write_files(folder, {"a": "11", "c": "33", "d": "44"})
    found = ([fault.partition(":")[0] for fault in faults], (folder / "d").read_text(), sorted(path.name for path in folder.iterdir()))
    tools.check("nonces: one file that cannot be written holds up no other", found, (["c"], "44\n", ["a", longest, "c", "d"]))
    tools.check("nonces: a file that has its nonce is not written again", (folder / "a").stat().st_ino, before)


def test_taking_over(tools):
    """A poll takes over from one that never ended what machines have that lack a nonce for another verdict."""
    from fleet_verify.machines import Machine
    from fleet_verify.nonces import give_out
    from fleet_verify.reading import now
    from fleet_verify.verdicts import Quoting, Verdicts

    machines = [Machine(name, (f"/{name}",), True) for name in "abcd"]
    quoted = {"verdict": "match", "report": "{}", "resets": 1, "restarts": 0, "checkpoint": "x"}
    missed = {"verdict": "unreadable", "cause": ""}

    def polled(is_whole=False, known=None, age=7200.0):
        """What another poll takes over, and no verdict then has an earlier one."""
        with closing(Verdicts(path, REQUIRE, known, Quoting("/keys", age))) as table:
            taken = table.begin_poll(now(), is_whole)
            polls = dict(table.connection.execute("SELECT machine, poll FROM verdicts"))
            return sorted(taken), sorted(name for name, poll in polls.items() if poll == table.poll)

    path = str(tools.folder / "taking over.db")
    with closing(Verdicts(path, REQUIRE, None, Quoting("/keys", 7200.0))) as table:
        given = give_out(table.connection, machines, 3600)
        table.begin_poll(now())
        answers = [{**quoted, "nonce": given["a"], "list_from": 0}, {**quoted, "nonce": given["b"], "list_from": 7}, missed]
        table.record([(machine, {**answer, "time": now()}) for machine, answer in zip(machines, answers)], ())
    for title, given, wanted in (
        ("by quotes, and no others", {}, ["a", "b"]), ("again", {}, ["a", "b"]), ("by whole lists", {"is_whole": True}, ["a"]),
    ):
        tools.check(f"a poll takes over verdicts {title}", polled(**given), (wanted, wanted))
    for title, statement, given in (
        ("by other known files", "", {"known": "ab"}), ("by nonces that are too old", "", {"age": 0.0}),
        ("where a nonce was given out since", "INSERT INTO nonces VALUES ('a', 'ef', 'now', 3600, NULL)", {}),
        ("of a poll that ended", "INSERT INTO ends SELECT 'now', max(number) FROM polls", {}),
    ):
        copy, path = path, shutil.copy(path, tools.folder / "copy.db")
        change(path, statement) if statement else None
        tools.check(f"a poll takes over no verdicts {title}", polled(**given), ([], []))
        path = copy


def test_keys(tools):
    """Where a machine's key is found, and where it is not."""
    from fleet_verify.quotes import key_of
    from fleet_verify.verdict import NO_KEY, Asked, Given, answer_on

    folder = tools.folder / "found keys"
    for name in ("a", "b", "c", "d", "e"):
        (folder / name).mkdir(parents=True)
        (folder / name / f"{name}.pem").write_text(f"{name} in a folder")
    (folder / "a.pem").write_text("a")
    os.mkfifo(folder / "c.pem")
    (folder / "d.pem").symlink_to("d.pem")
    (folder / "e.pem").write_bytes(bytes(16 * 1024 + 1))
    (folder / "j.pem").write_bytes(16 * 1024 * b"j")  # (the longest)
    (tools.folder / "out.pem").write_text("out")
    for name in ("h.pem", "h"):  # (the folder of one machine has the name of the other's file)
        (folder / name).mkdir()
        (folder / name / f"{name}.pem").write_text(name)
    (folder / "i").mkdir()
    (folder / "i/i.pem").symlink_to("../a.pem")
    for name in ("k.pub", "k.pem", "l/l.pub", "l/l.pem", "m.pem", "m/m.pub", "n.pem", "o.pem", "o/o.pem"):
        (folder / name).parent.mkdir(exist_ok=True)
        (folder / name).write_text(f"{name[-3:]} of {name[0]}")
    os.mkfifo(folder / "n.pub")
    (folder / "p").mkdir()
    os.mkfifo(folder / "p/p.pub")
    (folder / "p.pem").write_text("p")
    wanted = {
        "a": ("a", None), "b": ("b in a folder", None), "c": (None, "no key: NAME.pem cannot be read: it is no regular file"),
        "d": (None, "no key: NAME.pem cannot be read: too many symbolic links lead to it"),
        "e": (None, "no key: NAME.pem has more than 16384 bytes"), "h": (None, "no key: NAME.pem cannot be read: it is no regular file"),
        "h.pem": ("h.pem", None), "i": ("a", None), "j": (16 * 1024 * "j", None), **dict.fromkeys(("f", "../out", "..", ".", "", "a.pem", "h/h", "i/i", "x" * 251), (None, None)),
        "x" * 255: (None, "no key: NAME.pub cannot be read: its name is too long"),
        "k": ("pub of k", None), "l": ("pub of l", None), "m": ("pub of m", None), "o": ("pem of o", None),
        "n": (None, "no key: NAME.pub cannot be read: it is no regular file"),
        "p": (None, "no key: NAME/NAME.pub cannot be read: it is no regular file"),
    }
    tools.check("keys that are found: none in place of one that cannot be read", {name: key_of(str(folder), name) for name in wanted}, wanted)
    asked = Asked(REQUIRE, False, True, 60)
    found = [answer_on(("/none",) * 4, Given(None, *key_of(str(folder), name)[:1], (), key_of(str(folder), name)[1]), asked) for name in "hf"]
    tools.check("keys that are not found: the cause", [answer["cause"] for answer in found], [wanted["h"][1], NO_KEY])


def test_nonces(quotes, verdicts):
    """Each machine has a nonce, which stays as long as it is unused and young, and comes into a file that this user alone may read."""
    given, folder = quotes.give_out(verdicts), quotes.folder / "given"
    is_good = all(re.fullmatch(r"[0-9a-f]{64}", nonce) for nonce in given.values())
    names = [machine.name for machine in quotes.machines]
    quotes.check("nonces: each machine has its own", (list(given), len(set(given.values())), is_good), (names, MACHINES, True))
    words = ("nonces", "--folder", folder, quotes.table, verdicts)
    quotes.check("nonces: into files", quotes.call(*words), (0, "", ""))
    check_files(quotes, folder, given)
    again = "UPDATE nonces SET given_out = ? WHERE machine = ?"
    change(verdicts, again, ago(1900), "machine 0")
    change(verdicts, again, ago(3700), "machine 1")
    change(verdicts, again, ago(-600), "machine 2")
    later = quotes.give_out(verdicts)
    quotes.check("nonces: into files again", quotes.call(*words), (0, "", ""))
    check_files(quotes, folder, later)
    (folder / "machine 0").unlink()
    (folder / "machine 0").mkdir()
    (folder / "machine 1").unlink()
    status, _, errors = quotes.call(*words)
    told = "1 nonces could not be written; the first: machine 0: it is a folder" in errors
    quotes.check("nonces: a file that cannot be written", (status, told), (3, True))
    (folder / "machine 0").rmdir()
    (folder / "machine 0").write_text("")
    quotes.check("nonces: into files once more", quotes.call(*words), (0, "", ""))
    check_files(quotes, folder, later)
    changed = {name for name in given if later[name] != given[name]}
    quotes.check("nonces: another, where one is older than half an hour, or from the future", changed, {"machine 0", "machine 1", "machine 2"})
    kept = {name for (name,) in query(verdicts, "SELECT machine FROM nonces GROUP BY machine HAVING count(*) > 1")}
    quotes.check("nonces: one that is too old, or from the future, is forgotten", kept, {"machine 0"})
    odd = quotes.folder / "odd.tsv"
    odd.write_text("../a\t/a\n")
    status, _, errors = quotes.call("nonces", "--folder", folder, odd, quotes.folder / "odd.db")
    quotes.check("nonces: a name that is none of a file", (status, "no file has the name '../a'" in errors), (2, True))
    quotes.check("nonces: another file as TABLE", quotes.call("nonces", quotes.table, quotes.table)[0], 2)


def check_files(quotes, folder, given):
    files = {path.name: (path.read_text(), path.stat().st_mode & 0o777) for path in folder.iterdir()}
    wanted = {name: (f"{nonce}\n", 0o600) for name, nonce in given.items()}
    quotes.check("nonces: a file of each machine, with the nonce that it has", files, wanted)


def ago(seconds):
    """A time so many seconds ago, as the table writes it."""
    return time.strftime("%Y-%m-%dT%H:%M:%S.000+00:00", time.gmtime(time.time() - seconds))


def test_growing(quotes, verdicts):
    """Two polls, of which the second reads on where the first stopped, unless the machine started anew."""
    given, began = quotes.give_out(verdicts), time.time() - 60
    quotes.answer(given)
    quotes.check_run("quotes: the first poll", quotes.run_words(verdicts, "--poll"), quotes.all())
    check_columns(quotes, verdicts, given, time.time() - began)
    sizes = {machine.name: len(machine.list) for machine in quotes.machines}
    used = shutil.copy(verdicts, quotes.folder / "used.db")
    quotes.check_run("quotes: the poll again, without new quotes", quotes.run_words(used, "--poll"), quotes.all("unreadable", USED))
    quotes.each(move_on)
    quotes.answer(quotes.give_out(verdicts))
    quotes.check_run("quotes: the second poll", quotes.run_words(verdicts, "--poll"), quotes.all())
    others = (*STARTED_ANEW, *SUSPENDED)
    starts = {name: 0 if int(name.split()[1]) in others else size for name, size in sizes.items()}
    quotes.check("quotes: from where the second poll read the lists", dict(query(verdicts, "SELECT machine, list_from FROM verdicts")), starts)
    told = query(verdicts, "SELECT machine, verdict, cause FROM changes WHERE kind = 'reboot' ORDER BY machine")
    wanted = []
    for number in others:
        resets, restarts = quotes.machines[number].counted()
        wanted.append((f"machine {number}", "match", f"resets {resets}, restarts {restarts}"))
    quotes.check("quotes: which machines started anew, as changes", told, sorted(wanted))
    changes = query(verdicts, "SELECT count(*) FROM changes WHERE kind = 'verdict' AND poll = (SELECT max(number) FROM polls)")
    quotes.check("quotes: no verdict is another for that", changes, [(0,)])


def move_on(machine):
    """What happens to a machine between two polls."""
    if machine.number in STARTED_ANEW:
        machine.boot()
    elif machine.number in SUSPENDED:
        machine.tpm.suspend()
    if machine.number % 2:
        machine.grow(3)


def check_columns(quotes, verdicts, given, seconds):
    """What the table has of quotes is what other tools say of them."""
    rows = query(verdicts, "SELECT machine, signer, resets, restarts, nonce FROM verdicts ORDER BY machine")
    wanted = quotes.each(lambda machine: (machine.name, machine.signer(), *machine.counted(), given[machine.name]))
    quotes.check("quotes: signer, resets, restarts, nonce", rows, sorted(wanted))
    ages = [age for (age,) in query(verdicts, "SELECT quote_age FROM verdicts")]
    quotes.check("quotes: their ages", [age for age in ages if not 0 <= age <= seconds], [])
    hashes = query(verdicts, "SELECT machine, log_sha256, list_sha256, quote_sha256, signature_sha256 FROM verdicts ORDER BY machine")
    files = [(machine.name, *(hashlib.sha256((machine.folder / file).read_bytes()).hexdigest() for file in EVIDENCE))
             for machine in quotes.machines]
    quotes.check("quotes: hashes of what was read", hashes, sorted(files))
    unused = query(verdicts, "SELECT count(*) FROM nonces WHERE used IS NULL")
    quotes.check("quotes: their nonces are used", unused, [(0,)])


def turned(data):
    return data[:-1] + bytes([data[-1] ^ 1])


@dataclass
class Case:
    """A machine that has answered its nonce, before something is done to it, and the verifier's table."""

    quotes: Quotes
    machine: Quoted
    given: dict
    verdicts: Path

    @property
    def folder(self):
        return self.machine.folder

    @property
    def nonce(self):
        return self.given[self.machine.name]

    @property
    def key(self):
        """Its key, as the verifier has it."""
        area = self.quotes.keys / f"{self.machine.name}.pub"
        return area if area.exists() else area.with_suffix(".pem")

    def quote(self, nonce, *selection):
        """Its TPM makes another quote."""
        self.machine.tpm.quote(nonce, self.folder, *selection)

    def quote_as_another(self):
        """The first machine's TPM makes its quote."""
        self.quotes.machines[0].tpm.quote(self.nonce, self.folder)

    def quote_for(self, number):
        """It answers the nonce of another machine."""
        self.quote(self.given[f"machine {number}"])

    def change(self, file, changed):
        path = self.folder / file
        path.write_bytes(changed(path.read_bytes()))

    def remove(self, file):
        (self.folder / file).unlink()

    def change_nonce(self, assigned, value):
        """Changes its unused nonce in the table."""
        change(self.verdicts, f"UPDATE nonces SET {assigned} = ? WHERE machine = ? AND used IS NULL", value, self.machine.name)

    def forget_nonces(self):
        change(self.verdicts, "DELETE FROM nonces WHERE machine = ?", self.machine.name)

    def replay(self):
        """It gives the quote of the poll before."""
        for file in EVIDENCE[2:]:
            shutil.copy(self.quotes.folder / "before" / str(self.machine.number) / file, self.folder)

    def grow(self):
        """Its list goes on after the quote."""
        self.machine.grow(1)
        (self.folder / "ima.list").write_bytes(self.machine.list)

    def tamper(self):
        """The entry that it measures is another in its list."""
        self.machine.grow(1)
        (self.folder / "ima.list").write_bytes(turned(self.machine.list))
        self.quote(self.nonce)

    def hide(self):
        """It measures an entry, which its list lacks from then on."""
        self.machine.tpm.measure(self.machine.entries[-1:])
        self.quote(self.nonce)

    def have_two(self):
        """It has another nonce meanwhile, and answers the earlier one, which is still good."""
        change(self.verdicts, ADD_NONCE, self.machine.name, "ab" * 32, ago(0), 3600)

    def make_fifo(self):
        self.remove("quote.msg")
        os.mkfifo(self.folder / "quote.msg")

    def enroll(self):
        """Its key is where `ima-enroll` keeps it."""
        (self.quotes.keys / self.machine.name).mkdir()
        self.key.rename(self.quotes.keys / self.machine.name / self.key.name)

    def empty_nonce(self):
        self.change_nonce("nonce", "")
        self.quote("")

    def sign(self, message, bits=2048):
        """A key of openssl, which signs anything, is its key, and signs this message."""
        secret, public = self.quotes.folder / "secret.key", self.quotes.keys / f"{self.machine.name}.pem"
        self.key.unlink()
        message_file, signature = (self.folder / name for name in EVIDENCE[2:])
        message_file.write_bytes(message)
        for words in (
            ["genrsa", "-out", secret, bits], ["rsa", "-in", secret, "-pubout", "-out", public],
            ["dgst", "-sha256", "-sign", secret, "-out", signature, message_file],
        ):
            subprocess.run(["openssl", *map(str, words)], check=True, capture_output=True)

    def sign_changed(self, changed, bits=2048):
        self.sign(changed((self.folder / "quote.msg").read_bytes()), bits)

    def sign_other_registers(self):
        nonce = sized(bytes.fromhex(self.nonce))
        self.sign(HEAD + sized(b"") + nonce + CLOCK + bytes(8) + SELECTED + sized(bytes(32)))


# What is done to machines, by their numbers, and what must come of it: quotes that prove nothing of their machine, or nothing of late.
BAD_QUOTES = {
    1: (Case.quote_as_another, "refused", BAD_SIGNATURE),
    2: (lambda case: case.quote_for(0), "refused", OTHER_NONCE),
    3: (Case.replay, "unreadable", USED),
    4: (lambda case: case.change_nonce("given_out", ago(3700)), "unreadable", OLD),
    5: (lambda case: case.change_nonce("given_out", ago(-600)), "unreadable", OLD),
    6: (lambda case: case.change("quote.msg", turned), "refused", BAD_SIGNATURE),
    7: (lambda case: case.change("quote.sig", turned), "refused", BAD_SIGNATURE),
    8: (lambda case: case.change("quote.msg", lambda data: data[:-1]), "refused", BAD_SIGNATURE),
    9: (lambda case: case.change("quote.sig", lambda data: b"\xff" + data[1:-1]), "refused", NO_SCHEME),  # (as a TPM has it, no scheme)
    10: (lambda case: case.remove("quote.msg"), "refused", ABSENT.format("quote")),
    11: (lambda case: case.remove("quote.sig"), "refused", ABSENT.format("signature")),
    12: (lambda case: case.key.unlink(), "refused", "no key: the verifier has none of this machine"),
    13: (lambda case: case.key.write_text("key"), "refused", NO_AREA),
    14: (Case.forget_nonces, "refused", NO_NONCE),
    15: (lambda case: case.quote(""), "refused", OTHER_NONCE),
    16: (lambda case: case.quote(case.nonce, f"sha256:{LOW[:-3]}"), "refused", LESS_QUOTED),
    17: (Case.grow, "differ", None),
    18: (Case.tamper, "refused", "refused: replay fault 1 at entry 14"),  # (before it has 10 + 18 % 7)
    19: (Case.hide, "differ", None),
}

# Quotes of odd forms, and nonces of others.
ODD_QUOTES = {
    1: (lambda case: case.quote_for(2), "refused", OTHER_NONCE),
    2: (lambda case: case.quote_for(1), "refused", OTHER_NONCE),
    3: (lambda case: case.change("quote.sig", lambda data: RSASSA + data), "refused", BAD_SIGNATURE),
    4: (lambda case: case.change("quote.msg", lambda _: b""), "refused", BAD_SIGNATURE),
    5: (lambda case: case.change("quote.sig", lambda _: b""), "refused", CUT_SIGNATURE),
    6: (Case.make_fifo, "unreadable", "quote: it is no regular file"),
    7: (lambda case: os.truncate(case.folder / "quote.sig", MOST_BYTES + 1), "refused", "refused: too long signature"),
    8: (lambda case: case.quote(case.nonce, f"sha1:{LOW}"), "refused", LESS_QUOTED),
    9: (lambda case: case.sign_changed(lambda data: data[:-1]), "refused", "refused: quote fault 1"),
    10: (lambda case: case.sign_changed(lambda data: bytes(1) + data[1:]), "refused", "refused: quote fault 2"),
    11: (lambda case: case.sign_changed(lambda data: data, 1024), "refused", BAD_PEM),
    12: (Case.have_two, "match", None),
    13: (Case.empty_nonce, "failed", SHORT_NONCE),
    14: (Case.enroll, "match", None),
    15: (lambda case: case.quote("cd" * 32), "refused", OTHER_NONCE),
    16: (Case.sign_other_registers, "differ", None),
    17: (lambda case: case.change("quote.sig", lambda data: RSASSA + data), "match", None),
    18: (lambda case: shutil.copy(ROOT / "samples/keys/unrestricted.pub", case.key), "refused", UNRESTRICTED),
    19: (lambda case: case.change("quote.sig", lambda data: RSAPSS + data), "match", None),
}


def check_cases(quotes, title, verdicts, cases):
    """What comes of machines after something was done to each, by number, of which the others match."""
    given = quotes.give_out(verdicts)
    quotes.answer(given)
    wanted = quotes.all()
    for number, (do, *row) in cases.items():
        do(Case(quotes, quotes.machines[number], given, verdicts))
        wanted[f"machine {number}"] = tuple(row)
    quotes.check_run(title, quotes.run_words(verdicts, "--poll"), wanted)
    with_nonce = query(verdicts, "SELECT machine, nonce FROM verdicts WHERE nonce IS NOT NULL")
    used = query(verdicts, "SELECT machine, nonce FROM nonces WHERE used IS NOT NULL")
    with_report = {name for name, row in wanted.items() if row[0] in ("match", "differ")}
    quotes.check(f"{title}: who has a nonce", {name for name, _ in with_nonce}, with_report)
    quotes.check(f"{title}: these nonces are used", set(with_nonce) <= set(used), True)
    for machine in quotes.machines:
        quotes.keep_key(machine)


def test_bad_quotes(quotes, verdicts):
    """What comes of quotes that are no good, one by one."""
    for machine in quotes.machines:
        shutil.copytree(machine.folder, quotes.folder / "before" / str(machine.number))
    check_cases(quotes, "bad quotes", verdicts, BAD_QUOTES)
    quotes.machines[19].boot()
    check_cases(quotes, "odd quotes", verdicts, ODD_QUOTES)
    change(verdicts, "DELETE FROM nonces WHERE nonce = ''")


def test_stopped_poll(quotes, verdicts):
    """A poll stops in the middle: what it recorded has used its nonces. The next poll takes that over, unless new nonces were given out; and the
    one after it takes all quotes for old ones. With new quotes all is well."""
    quotes.answer(quotes.give_out(verdicts))
    with closing(sqlite3.connect(verdicts)) as holder:
        holder.execute("BEGIN IMMEDIATE")  # (the poll cannot begin)
        client = quotes.tools.start([ROOT / "fleet/verify.py", *quotes.run_words(verdicts, "--poll", "--in-flight", 4)], "clients")
        until("workers", lambda: children_of(client.pid), client)
        holder.execute("CREATE TRIGGER stop BEFORE UPDATE ON nonces WHEN new.machine = 'machine 15' BEGIN SELECT RAISE(ABORT, 'stop'); END")
        holder.commit()
    client.communicate(timeout=SECONDS)
    status = client.returncode
    change(verdicts, "DROP TRIGGER stop")
    recorded = {name for (name,) in query(verdicts, "SELECT machine FROM verdicts WHERE poll = (SELECT max(number) FROM polls)")}
    quotes.check("quotes: a poll stops in the middle", (status, 0 < len(recorded) < MACHINES), (3, True))
    used = {name for (name,) in query(verdicts, "SELECT machine FROM nonces GROUP BY machine HAVING count(*) = count(used)")}
    quotes.check("quotes: what it recorded has used its nonces", used, recorded)
    times = dict(query(verdicts, "SELECT machine, time FROM verdicts"))
    anew = shutil.copy(verdicts, quotes.folder / "nonces anew.db")
    quotes.check_run("quotes: the poll after it", quotes.run_words(verdicts, "--poll"), quotes.all())
    kept = {name for name, time in query(verdicts, "SELECT machine, time FROM verdicts") if times[name] == time}
    quotes.check("quotes: the poll after it keeps what was recorded", kept, recorded)
    quotes.give_out(anew)
    wanted = {**quotes.all(), **dict.fromkeys(recorded, ("unreadable", USED))}
    quotes.check_run("quotes: the poll after it, with new nonces and no new quotes", quotes.run_words(anew, "--poll"), wanted)
    quotes.check_run("quotes: the second poll after it", quotes.run_words(verdicts, "--poll"), quotes.all("unreadable", USED))
    quotes.answer(quotes.give_out(verdicts))
    quotes.check_run("quotes: the third poll after it, with new quotes", quotes.run_words(verdicts, "--poll"), quotes.all())


def test_killed(quotes):
    """A run that is no poll is killed before it records: it has used no nonce. The next, by a cluster, takes them, once."""
    verdicts = quotes.folder / "killed.db"
    quotes.answer(quotes.give_out(verdicts))
    with closing(sqlite3.connect(verdicts)) as holder:
        holder.execute("BEGIN IMMEDIATE")  # (nothing can be recorded)
        kill_in_the_middle(quotes, quotes.run_words(verdicts, "--progress", 1))
        holder.rollback()
    used = "SELECT count(*) FROM nonces WHERE used IS NOT NULL"
    quotes.check("quotes: a run was killed before it recorded", (query(verdicts, used), query(verdicts, "SELECT * FROM verdicts")), ([(0,)], []))
    change(verdicts, "UPDATE nonces SET given_out = ? WHERE machine = 'machine 3'", ago(1500))
    known = "--known", known_files(quotes, unknown=quotes.machines[6])
    wanted = {**quotes.all(), "machine 6": ("differ", None)}
    with quotes.tools.cluster("quotes", 2) as (address, _):
        words = quotes.run_words(verdicts, "--max-age", "1400s", *known, by=("--scheduler", address))
        quotes.check_run("quotes: the run after it, by a cluster", words, {**wanted, "machine 3": ("unreadable", OLD)})
    unknown = query(verdicts, "SELECT machine, unknown, first_unknown FROM verdicts WHERE unknown > 0")
    quotes.check("quotes: which entry is not known", unknown, [("machine 6", 1, 1)])
    quotes.check("quotes: each nonce of a verdict is used", query(verdicts, used), [(MACHINES - 1,)])
    quotes.check_run("quotes: one that was too old for that run", quotes.run_words(verdicts, "--again", "unreadable", *known), wanted)
    words = quotes.run_words(verdicts, "--again", "match,differ", *known)
    quotes.check_run("quotes: all anew, without new quotes", words, quotes.all("unreadable", USED))
    other = quotes.folder / "other.db"
    quotes.give_out(other)
    wanted = quotes.all("refused", OTHER_NONCE)
    quotes.check_run("quotes: with another table, which gave out other nonces", quotes.run_words(other), wanted)


def known_files(quotes, unknown):
    """A file of the digests of all that the machines measured, but for the first entry of one machine after its boot aggregate."""
    measured = [measurement for machine in quotes.machines for measurement in machine.measurements[machine is unknown :]]
    known = quotes.folder / "SHA256SUMS"
    known.write_text("".join(f"{digest.hex()}  {path.decode()}\n" for path, digest in measured))
    return known


def kill_in_the_middle(quotes, words):
    """Kills a run by these words after it has begun, and after its machines are answered, if they are soon."""
    said = quotes.folder / "killed"
    words = [quotes.tools.python, ROOT / "fleet/verify.py", *words]
    with open(said, "w") as errors:
        client = subprocess.Popen([str(word) for word in words], env=quotes.tools.environment, stdout=subprocess.DEVNULL, stderr=errors)
    until("a line of progress", lambda: f"0 of {MACHINES} done" in said.read_text(), client)
    client.kill()
    client.wait()


def test_refused(quotes, verdicts):
    """Runs that are not begun."""
    plain = ("--workers", 1, "--require", REQUIRE)
    for title, words in (
        ("neither keys nor --unquoted", (*plain, quotes.table, verdicts)),
        ("keys and --unquoted", (*plain, "--keys", quotes.keys, "--unquoted", quotes.table, verdicts)),
        ("registers that are too few", ("--workers", 1, "--require", "sha256:0-7,sha256:10", "--keys", quotes.keys, quotes.table, verdicts)),
        ("no registers", ("--workers", 1, "--require", "none", "--keys", quotes.keys, quotes.table, verdicts)),
        ("registers of sha1 alone", ("--workers", 1, "--require", "sha1:0-10", "--keys", quotes.keys, quotes.table, verdicts)),
        ("a table of verdicts by quotes, without", (*plain, "--unquoted", "--poll", quotes.table, verdicts)),
        ("no folder of keys", (*plain, "--keys", quotes.folder / "none", quotes.table, verdicts)),
    ):
        status, output, errors = quotes.call(*words)
        quotes.check(f"quotes: refused: {title}", (status, output, errors != ""), (2, "", True))
    unquoted = quotes.folder / "unquoted.tsv"
    unquoted.write_text("a\t/log\t/list\t/expected\n")
    status, output, errors = quotes.call(*plain, "--keys", quotes.keys, unquoted, quotes.folder / "unquoted.db")
    wanted = "line 1: 4 fields, and not 2 or 5, with a tab between"
    quotes.check("quotes: refused: a machine with expected registers", (status, output, wanted in errors), (2, "", True))
