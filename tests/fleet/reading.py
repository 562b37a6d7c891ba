"""Tests of how a worker reads files, for tests/fleet/test: those that come in pieces, are too long, or have no size, those that are no regular
files, and those of which nothing comes. An object store that is a class of fsspec has the objects."""

import os
import time

from cluster import ROOT, SECONDS

# The object store: what an object gives is told by its name.
STORE = """
import io, json, math, os, sys, threading, time
import fsspec
from fleet_verify.reading import MOST_BYTES, read_input, read_inputs
from fleet_verify.verdict import Asked, Given, answer_on
from fleet_verify.work import verify_batch, written_place, written_request
from fsspec.spec import AbstractFileSystem
DATA = bytes(range(251)) * 8_000
LET_GO = threading.Event()
class Pieces(io.BytesIO):
    def read(self, size=-1):
        return super().read(min(size, 100_000))
class Drops(io.BytesIO):
    def read(self, size=-1):
        time.sleep(0.05)
        return b"?"
class Stuck(io.BytesIO):
    def read(self, size=-1):
        LET_GO.wait()
        return b""
class NoMemory(io.BytesIO):
    def read(self, size=-1):
        raise MemoryError
class Store(AbstractFileSystem):
    def _open(self, path, mode, **given):
        kinds = {"pieces": Pieces, "long pieces": Pieces, "drops": Drops, "stuck": Stuck, "no memory": NoMemory}
        long = {"most": MOST_BYTES, "long": MOST_BYTES + 5, "long pieces": MOST_BYTES + 5}
        return kinds.get(path, io.BytesIO)(bytes(long[path]) if path in long else DATA)
fsspec.register_implementation("store", Store)
def asked(deadline, is_poll=False):
    return Asked(require="none", is_poll=is_poll, is_quoted=False, deadline=deadline)
"""

# Prints whether inputs are read whole, and what is said of those that are not read.
WHOLE = STORE + """
print(read_input("store://pieces", math.inf) == DATA, read_input("store://pieces", math.inf, 1_000_003) == DATA[1_000_003:])
print(*(len(read_input(f"store://{name}", math.inf)) - MOST_BYTES for name in ("long", "long pieces")))
for log in ("pieces", "most"):
    print(read_inputs([f"store://{log}", "store://long", "store://pieces"], math.inf, 0)[0]["cause"])
with open("/proc/version", "rb") as file:
    print(read_input("/proc/version", math.inf) == file.read() != b"")
for path in sys.argv[1:]:
    print(answer_on([path] * 3, Given(), asked(60))["cause"])
told = answer_on(["store://no memory"] * 3, Given(), asked(60))
print(told["verdict"], told["cause"])
"""
NO_FILE = "log: it is no regular file"
WHOLE_WANTED = [
    "True True", "1 1", *["refused: too long list"] * 2, "True", *[NO_FILE] * 4, "log: the device or its connection failed", "troubled memory ran out",
]

# Prints what is read of files in a folder, and of links there, by a path, and by a URL: a link is the machine's, and one to the folder not.
# Whoever names a file may have it read though it is a link.
LINKS = """
import math, os, sys
from fleet_verify.reading import read_file, read_input
folder = sys.argv[1]
os.mkdir(folder)
os.symlink(folder, f"{folder} linked")
with open(f"{folder}/file", "wb") as file:
    file.write(b"read")
for name, target in (("link", "file"), ("to nowhere", "nowhere"), ("to a folder", "."), ("to a device", "/dev/zero"), ("circle", "circle")):
    os.symlink(target, f"{folder}/{name}")
for name in sorted(os.listdir(folder)):
    for home in (folder, f"{folder} linked", f"file://{folder}", f"file://{folder} linked"):
        try:
            print(name, read_input(f"{home}/{name}", math.inf))
        except OSError as fault:
            print(name, fault)
print(read_file(f"{folder}/link", follow_symlinks=True))
"""
LINKED = "it is a symbolic link"
FOUND = {"circle": LINKED, "file": "b'read'", "link": LINKED, "to a device": LINKED, "to a folder": LINKED, "to nowhere": LINKED}
LINKS_WANTED = [*(f"{name} {found}" for name, found in FOUND.items() for _ in range(4)), "b'read'"]

# Prints what is read of a file, in whose place a link to another's comes, or a pipe, when it was looked at, and is to be opened.
SWAPPED = """
import os, sys
from fleet_verify.reading import read_file
path, secret = sys.argv[1:]
look = os.stat
def swapping(path, **given):
    about = look(path, **given)
    os.unlink(path)
    make(path)
    return about
os.stat = swapping
for make in (lambda path: os.symlink(secret, path), os.mkfifo):
    with open(path, "wb"):
        pass
    try:
        print(read_file(path))
    except OSError as fault:
        print(fault.strerror or fault)
    os.unlink(path)
"""
SWAPPED_WANTED = ["Too many levels of symbolic links", "it is no regular file"]

# Prints the answers on machines of which nothing, or not enough, comes in time, in batches that are patient, and in those that are not, where
# the deadline is near, and where it is far; then whether the threads that they left keep this process from its end.
LATE = STORE + """
from fleet_verify import work
work.SLOW_SECONDS = work.GRACE_SECONDS = 6  # (so that a busy computer has the time for all else)
print(answer_on(["store://pieces", "store://drops", "store://pieces"], Given(), asked(4))["cause"])
slow = [["store://pieces", f"store://{name}", "store://pieces"] for name in ("drops", "stuck")]
for is_poll, is_patient, deadline in ((False, True, 4), (True, True, 4), (False, False, 4), (False, False, 60)):
    lines = [written_place(paths, Given()) for paths in (["/none"] * 3, *slow, ["/none"] * 3)]
    told = json.loads(verify_batch(written_request(asked(deadline, is_poll), is_patient, 1000, lines), "here", None))
    answers = [(answer["verdict"], answer["cause"], answer["places"][1][-5:]) for answer in told["answers"]]
    print(answers, 1 < told["seconds"] < 55)
threads = [thread.daemon for thread in threading.enumerate()]
LET_GO.set()
while threading.active_count() > 1:
    time.sleep(0.01)
print(threads)
"""
NONE = ("unreadable", "log: it is not there", "/none")
DROPS, STUCK = "list: no answer in time", "no answer in time"
UNREADABLE = [NONE, ("unreadable", DROPS, "drops"), ("unreadable", STUCK, "stuck")]
SLOW = [NONE, ("slow", STUCK, "drops")]
LATE_WANTED = [DROPS, *[f"{UNREADABLE} True"] * 3, f"{SLOW} True", str([False, *[True] * 4])]

# Prints which lists are young enough, by their paths: one that was changed now, one long ago, one in a future, one that is not there, an old
# link to one that was changed now; and objects, of which one has no time.
AGES = STORE + """
from datetime import datetime, timedelta, timezone
class Aged(Store):
    def modified(self, path):
        times = {"new": datetime.now(timezone.utc), "old": datetime.now(timezone.utc) - timedelta(hours=2), "of no zone": datetime.now()}
        return times[path]
fsspec.register_implementation("aged", Aged)
for path in (*sys.argv[1:], "aged://new", "aged://old", "aged://of no zone", "store://pieces"):
    print(read_inputs(["/proc/version", path, "/none"], math.inf, 0, max_age=3600)[0]["cause"])
"""
READ, STALE = "expected: it is not there", "stale: list"
AGES_WANTED = [READ, STALE, STALE, READ.replace("expected", "list"), STALE, READ, *[STALE] * 3]


def test_reading(tools):
    """Files and objects that are read whole, refused, or left."""
    modules = {"PYTHONPATH": f"{ROOT / 'bindings/python'}:{ROOT / 'fleet'}"}
    fifo = tools.folder / "fifo"
    os.mkfifo(fifo)
    lists = [tools.folder / name for name in ("new list", "old list", "list of the future", "no list")]
    for path, age in zip(lists[:-1], (0, 7200, -7200)):
        path.write_bytes(b"")
        os.utime(path, (time.time(), time.time() - age))
    link = tools.folder / "old link"
    link.symlink_to(lists[0])
    os.utime(link, (time.time(), time.time() - 7200), follow_symlinks=False)
    for title, script, words, wanted in (
        ("files and objects are read until they end", WHOLE, (fifo, f"file://{fifo}", "/dev/zero", tools.folder, "/proc/self/mem"), WHOLE_WANTED),
        ("no link in a machine's folder is followed", LINKS, (tools.folder / "sent",), LINKS_WANTED),
        ("a file that becomes another as it is opened", SWAPPED, (tools.folder / "swapped", lists[0]), SWAPPED_WANTED),
        ("a machine of which nothing comes in time", LATE, (), LATE_WANTED),
        ("the age of lists", AGES, [*lists, link], AGES_WANTED),
    ):
        said = tools.start(["-c", script, *words], **modules).communicate(timeout=SECONDS)[0]
        tools.check(title, said.splitlines(), wanted)
