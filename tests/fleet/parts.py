"""Tests of parts, for tests/fleet/test: batches, answers, the end of a run, causes, the units of systemd, the types and the wheel."""

import ast
import re
import shutil
import subprocess
import zipfile
from pathlib import Path

from cluster import REQUIRE, ROOT, SECONDS, has, python_with

# Prints how many machines of a batch are answered in so many seconds, for each, and their verdicts.
BATCHES = """
import json, sys
from fleet_verify.verdict import Asked, Given
from fleet_verify.work import verify_batch, written_place, written_request
folder, require = sys.argv[1:]
paths = [f"{folder}/{file}" for file in ("firmware.log", "ima.list", "expected.txt")]
asked = Asked(require=require, is_poll=False, is_quoted=False, deadline=360_000)  # (so that no machine is slow, however busy the computer)
for seconds in (0, 1_000_000):
    request = written_request(asked, False, seconds, [written_place(paths, Given())] * 5)
    told, *reports = verify_batch(request, "here", None).split("\\n")
    print([answer["verdict"] for answer in json.loads(told)["answers"]], len(reports))
"""

BATCHES_WANTED = [f"{['match'] * 1} 1", f"{['match'] * 5} 5"]

# Prints what is taken of answers on two machines, of which the second is not as it should be, or why nothing is.
ANSWERS = """
import json
from fleet_verify.answers import BadAnswers, read_answers
from fleet_verify.machines import Machine
from fleet_verify.verdict import Asked
MACHINES = [Machine("a", ("/a",)), Machine("b", ("/b", "/c", "/d"))]
MATCH, DIFFER = '{"registers":[],"verdict":"match"}', '{"registers":[],"verdict":"differ"}'
KNOWN = '{{"registers":[],"known_from":0,"unknown":[{}],"verdict":"{}"}}'
QUOTED = '{{"registers":[],"quote":"{}","signature":"{}","verdict":"{}"}}'
def asked(is_quoted=False, known=None):
    return Asked("sha256:0-10", False, is_quoted, 60, known)
first = {"places": ["/a"], "verdict": "match"}
second = {"places": ["/b", "/c", "/d"], "verdict": "match"}
for others, reports in (
    ([second], [MATCH, MATCH]),
    ([], [MATCH]),
    ([second], [MATCH, DIFFER]),
    ([second], [MATCH, MATCH + " "]),
    ([second], [MATCH, ""]),
    ([{**second, "verdict": "differ"}], [MATCH, MATCH]),
    ([{**second, "verdict": "matches"}], [MATCH]),
    ([{**second, "places": ["/a"]}], [MATCH, MATCH]),
    ([{**second, "verdict": "refused", "cause": "refused: log fault 1 at event 0"}], [MATCH]),
    ([second, second], [MATCH, MATCH, MATCH]),
    ([second], [MATCH]),
    ([second], [MATCH, MATCH, MATCH]),
    ([{**second, "verdict": "refused"}], [MATCH, MATCH]),
    ([second], [MATCH, KNOWN.format("", "match")]),
    ([second], [MATCH, QUOTED.format("match", "valid", "match")]),
    ([{**second, "nonce": "00"}], [MATCH, MATCH]),
    ([{**second, "verdict": "slow"}], [MATCH]),
):
    text = "\\n".join([json.dumps({"worker": "here", "answers": [first, *others], "seconds": 1}), *reports])
    try:
        print([(answer["verdict"], answer.get("cause")) for answer in read_answers(text, MACHINES, asked()).answers])
    except BadAnswers as fault:
        print(fault)
for verdict, report in (
    ("match", KNOWN.format("", "match")), ("differ", KNOWN.format("17,40", "differ")), ("differ", KNOWN.format("0", "differ")),
    ("match", MATCH), ("differ", DIFFER), ("match", KNOWN.format("17", "match")), ("match", KNOWN.format("x", "match")),
):
    text = "\\n".join([json.dumps({"worker": "here", "answers": [{**first, "verdict": verdict}], "seconds": 1}), report])
    (answer,) = read_answers(text, MACHINES, asked(known="files")).answers
    print(answer["verdict"], answer.get("unknown"), answer.get("first_unknown"), answer.get("cause"))
for verdict, report, given in (
    ("match", QUOTED.format("match", "valid", "match"), {"nonce": "00"}), ("match", MATCH, {"nonce": "00"}),
    ("match", QUOTED.format("match", "valid", "match"), {}), ("match", QUOTED.format("differ", "valid", "match"), {"nonce": "00"}),
    ("match", QUOTED.format("match", "not checked", "match"), {"nonce": "00"}), ("match", QUOTED.format("match", "checked", "match"), {"nonce": "00"}),
    ("differ", QUOTED.format("match", "valid", "match"), {"nonce": "00"}),
):
    text = "\\n".join([json.dumps({"worker": "here", "answers": [{**first, "verdict": verdict, **given}], "seconds": 1}), report])
    (answer,) = read_answers(text, MACHINES, asked(is_quoted=True)).answers
    print(answer["verdict"], answer.get("cause"))
"""
TAKEN = [("match", None)]
FAULTS = [
    *[("troubled", "the worker's verdict is not that of its report")] * 4,
    ("troubled", "the worker's answer is no verdict: 'matches'"), ("troubled", "the worker's answer is on other files"),
    ("refused", "refused: log fault 1 at event 0"),
]
ANSWERS_WANTED = [
    str(TAKEN * 2), str(TAKEN), *(str([*TAKEN, fault]) for fault in FAULTS),
    "worker here gave 3 answers on 2 machines", "worker here gave 1 reports on 2 machines", "worker here gave 3 reports on 2 machines",
    "worker here gave 2 reports on 1 machines", str([*TAKEN, ("troubled", "the worker's report is by known files")]),
    *[str([*TAKEN, ("troubled", "the worker's report is by a quote")])] * 2, str([*TAKEN, ("slow", None)]),
    "match 0 None None", "differ 2 17 None", "differ 1 0 None", *2 * ["troubled None None the worker's report is not by the known files"],
    "troubled None None the worker's verdict is a match with unknown entries",
    "troubled None None the worker's verdict is not that of its report",
    "match None", *["troubled the worker's report is not by a quote"] * 2, "troubled the worker's verdict is a match by a quote that differs",
    *["troubled the worker's verdict is not that of its report"] * 3,
]

# Stops runs of three machines, of which two are in flight: the first is answered at that moment, the second not, or a moment later. Prints
# which verdicts are recorded.
STOPPED = """
import asyncio, json, sys
from types import SimpleNamespace
from fleet_verify import run
from fleet_verify.ledger import Ledger
from fleet_verify.machines import Machine
from fleet_verify.run import Run
from fleet_verify.verdicts import Verdicts
run.CLOSE_SECONDS = 100
MACHINES = [Machine(name, (f"/{name}",)) for name in "abc"]
class Future:
    def __init__(self, machine):
        told = {"places": machine.places, "verdict": "refused", "cause": "", "time": "now"}
        self.text = json.dumps({"worker": "here", "answers": [told], "seconds": 1})
        self.answer, self.status = asyncio.get_running_loop().create_future(), "pending"
    def __await__(self):
        return self.answer.__await__()
    def done(self):
        return self.status == "finished"
    def end(self, seconds):
        self.status = "finished"
        set_answer = lambda: self.answer.set_result(self.text)
        asyncio.get_running_loop().call_later(seconds, set_answer) if seconds else set_answer()
class Workers:
    threads, known = {"here": 1}, None
    def __init__(self):
        self.futures = []
    def submit(self, request, is_patient):
        self.futures.append(Future(MACHINES[len(self.futures)]))
        return self.futures[-1]
    def lost(self):
        return None
    async def look(self):
        pass
async def stop(table, seconds):
    workers, verdicts = Workers(), Verdicts(table, "none")
    options = SimpleNamespace(
        in_flight=2, poll=False, require="none", unquoted=True, max_age=None, patience=600, deadline=60, hcrtm=False, old_kernel=False, prefix=False
    )
    show = SimpleNamespace(show=lambda *_: None)
    ledger = Ledger(verdicts, MACHINES, {}, False, lambda *_: None)
    running = asyncio.create_task(Run(workers, ledger, show, options).verify())
    while len(workers.futures) < 2:
        await asyncio.sleep(0.01)
    workers.futures[0].end(0)
    if seconds:
        workers.futures[1].end(seconds)
    running.cancel()
    await asyncio.wait([running])
    print(running.cancelled(), *(name for name, in verdicts.connection.execute("SELECT machine FROM verdicts ORDER BY 1")))
for seconds in (0, 0.2):
    asyncio.run(stop(f"{sys.argv[1]} {seconds}.db", seconds))
"""
STOPPED_WANTED = ["True a", "True a b"]

# Ends a run while a worker of it ends: that has closed its output, and takes a second more. Prints whether it has ended when the run has, and what
# asyncio logs of one that ends later.
ENDING = """
import asyncio, logging, os, sys, time
from types import SimpleNamespace
from fleet_verify import local
logging.basicConfig(stream=sys.stdout)
started = []
async def start():
    pipes = dict.fromkeys(("stdin", "stdout"), asyncio.subprocess.PIPE)
    started.append(await asyncio.create_subprocess_exec("/bin/sh", "-c", "exec >&-; sleep 1; exit 0", **pipes))
    return started[-1]
async def run():
    options = SimpleNamespace(require="none", poll=False, unquoted=True, max_age=None, deadline=60, hcrtm=False, old_kernel=False, prefix=False)
    async with local.LocalWorkers(1, options, None) as workers:
        while not any(worker.has_ended for worker in workers.running):
            await asyncio.sleep(0.01)
local.start = start
asyncio.run(run())
print([process.returncode for process in started])
time.sleep(2)
"""
ENDING_WANTED = ["[0]"]

# Has a worker, which is none, answer two requests one after another. Prints whether it is killed: the first takes nearly as long as it may, then
# the second as long as both together, and a moment more.
TURNS = """
import asyncio, time
from types import SimpleNamespace
from fleet_verify import local
from fleet_verify.worker import FIRST, Message
killed = []
process = SimpleNamespace(pid=1, stdin=SimpleNamespace(write=lambda data: None), kill=lambda: killed.append(True))
async def run():
    options = SimpleNamespace(require="none", poll=False, unquoted=True, max_age=None, deadline=60, hcrtm=False, old_kernel=False, prefix=False)
    workers, worker = local.LocalWorkers(1, options, None), local.Worker(process, has_begun=True)
    workers.running.append(worker)
    for _ in range(2):
        workers.submit("", False)
    most = 2 * options.deadline + local.SPARE_SECONDS
    for seconds in (most - 1, 2 * most - 2, 2 * most):
        local.time = SimpleNamespace(monotonic=lambda: began + seconds)
        await workers.look()
        print(len(killed))
        if seconds < most:
            worker.take(Message(FIRST, b""))
began = time.monotonic()
local.time = SimpleNamespace(monotonic=lambda: began)
asyncio.run(run())
"""
TURNS_WANTED = ["0", "0", "1"]

# Starts workers: of the first 30 nine of ten cannot be started, and each tenth ends when it has begun; no later one can. Prints how many were tried
# until there are no workers any longer, and why.
STARTS = """
import asyncio, sys
from types import SimpleNamespace
from fleet_verify import local
local.RETRY_SECONDS = 0
BEGINS = '''import sys
from fleet_verify.worker import BEGINNING, HEAD, messages
told = messages(sys.stdin.buffer)
next(told), next(told)
sys.stdout.buffer.write(HEAD.pack(BEGINNING, 4) + b"null")'''
started = []
async def start():
    started.append(None)
    if len(started) % 10 or len(started) > 30:
        raise OSError
    pipes = dict.fromkeys(("stdin", "stdout"), asyncio.subprocess.PIPE)
    return await asyncio.create_subprocess_exec(sys.executable, "-c", BEGINS, **pipes)
async def run():
    options = SimpleNamespace(require="none", poll=False, unquoted=True, max_age=None, deadline=60, hcrtm=False, old_kernel=False, prefix=False)
    async with local.LocalWorkers(1, options, None) as workers:
        while workers.lost() is None:
            await asyncio.sleep(0.01)
        print(len(started), workers.lost())
local.start = start
asyncio.run(run())
"""
STARTS_WANTED = ["40 10 workers, one after another, could not be started: unexpected error, OSError"]

# Asks a worker whether it can verify, where this process would load modules from the folder of the call, which has some.
ELSEWHERE = """
import sys
sys.path[:] = filter(None, sys.path)
import asyncio, os
from types import SimpleNamespace
from fleet_verify import local
async def run():
    options = SimpleNamespace(require="none", poll=False, unquoted=True, max_age=None, deadline=60, hcrtm=False, old_kernel=False, prefix=False)
    async with local.LocalWorkers(1, options, None) as workers:
        while not workers.threads and workers.lost() is None:
            await asyncio.sleep(0.01)
        print(list((await workers.faults(workers.asked)).values()), workers.lost())
sys.path[:0] = ["", ".", os.getcwd(), os.path.join(os.getcwd(), "")]
asyncio.run(run())
"""
ELSEWHERE_WANTED = ["[None] None"]

# Prints the causes that exceptions of drivers have.
CAUSES = """
from fleet_verify.reading import cause_of
path = "s3://bucket/host-1/log"
print(cause_of(FileNotFoundError(path), path))
print(cause_of(FileNotFoundError("bucket/host-1/log"), path))
print(cause_of(PermissionError(13, "Permission denied", "/srv/log"), "/srv/log"))
print(cause_of(RuntimeError("no answer from bucket/host-1/log?"), path))
print(cause_of(MemoryError()))
print(cause_of(OSError(22, "Bad request: s3://bucket/x"), "s3://bucket/x"))
print(cause_of(RuntimeError("the key x does not exist"), "s3://bucket/x"))
print(cause_of(RuntimeError("s3://bucket/x is gone"), "simplecache::s3://bucket/x"))
print(cause_of(RuntimeError("no answer"), "file:///"))
print(cause_of(RuntimeError("no answer"), "/"))
for path in ("/srv/boot (1/log", "/srv/c++/[a]*", "/srv/a.b/log", r"/srv/a\\1/log"):
    print(cause_of(RuntimeError(f"{path} is gone, and not /srv/a/b/log"), path))
print(cause_of(RuntimeError(chr(27) + "]0;x" + chr(7) + chr(10) + chr(0xdc80))))
print(len(cause_of(RuntimeError(2000 * "x"))))
"""
CAUSES_WANTED = [
    "it is not there", "it is not there", "permission denied", "unexpected error, RuntimeError: no answer from ..?", "memory ran out",
    "Bad request: ..", *(f"unexpected error, RuntimeError: {text}" for text in (
        "the key .. does not exist", ".. is gone", "no answer", "no answer", *4 * [".. is gone, and not /srv/a/b/log"], "?]0;x???",
    )), "1000",
]

# Prints the paths of machines in folders, and what is said of the last, which has no such file.
FOLDERS = """
import math
from fleet_verify.machines import Machine
from fleet_verify.reading import read_inputs
for folder in ("/", "/srv/boot/", "s3://bucket/", "s3://bucket/x", "file:///"):
    machine = Machine("machine", (folder,))
    print(machine.paths[0])
print(read_inputs(machine.paths, math.inf, 0)[0]["cause"])
"""
FOLDERS_WANTED = [
    "/firmware.log", "/srv/boot/firmware.log", "s3://bucket/firmware.log", "s3://bucket/x/firmware.log", "file:///firmware.log",
    "log: it is not there",
]

# Prints what a worker says of itself with the library, of what may be required and what not, and then without it. A client that lacks
# `ima_verify` has to read each error, so none is of a class of that package.
FITNESS = """
import os
import ima_verify
from fleet_verify.verdict import require_fitness, required
def judge(require):
    for is_poll in (False, True):
        try:
            require_fitness(require, is_poll)
            print("fit")
        except Exception as fault:
            print(type(fault).__module__, type(fault).__name__, str(fault).startswith(f"--require {require!r} is no selection"))
for require in ("sha256:0-10", "none", "", "sha256:24", "sha256:0-9", "None"):
    judge(require)
digest = 64 * b"a"
for text in (b"", digest + b"  /a", digest + b"  /a" + bytes([10]) + b"x", 40 * b"a" + b"  /a"):
    try:
        require_fitness("sha256:0-10", True, text)
        print("fit")
    except Exception as fault:
        print(type(fault).__module__, type(fault).__name__, *fault.args[:2], *(isinstance(each, str) and len(each) > 20 for each in fault.args[2:]))
print(required("none"), required("sha256:0-10"), repr(required("")))
os.environ["IMA_VERIFY_LIBRARY"] = "/nowhere/libima_verify.so"
ima_verify._library.loaded.cache_clear()
judge("sha256:0-10")
os.environ["IMA_VERIFY_LIBRARY"] = "libima_verify.so"
try:
    require_fitness("none", False)
except ImportError as fault:
    print(type(fault).__name__, fault)
"""
BARE = "IMA_VERIFY_LIBRARY is to be a path: a name alone would be that of a file in the folder of the call"
FITNESS_WANTED = [
    *4 * ["fit"], *8 * ["builtins ValueError True"], *2 * ["fit"], "builtins ValueError 2 2 True", "builtins ValueError 1 1 True",
    "Nothing.NOTHING sha256:0-10 ''", *2 * ["builtins ImportError False"], f"ImportError {BARE}",
]

# Prints the defaults of the options of commands, those that say otherwise in their help, and those that may be given once alone.
DEFAULTS = """
import argparse, re, sys
from importlib import import_module
from fleet_verify.options import Once
class Made(Exception):
    pass
def stop(parser, *_):
    raise Made(parser)
argparse.ArgumentParser.parse_args = stop
for name in sys.argv[1:]:
    module = import_module(f"fleet_verify.{name}")
    try:
        (module.main if name == "page" else module.options_of)([])
    except Made as made:
        (parser,) = made.args
    options = [each for each in parser._actions if each.option_strings and each.nargs != 0]
    given = [each for each in options if each.default is not None]
    told = [(each, re.search("default: ([^,);]+)", each.help)) for each in given]
    others = [each.dest for each, found in told if found and (each.type or str)(found[1]) != each.default]
    print(name, *(f"{each.dest}={each.default}" for each in given), *others)
    print(name, *(each.dest for each in options if isinstance(each, Once)))
"""
PAGE_DEFAULTS = f"page most=1000 max_age={24 * 60 * 60} known=[] most_reports=100 report_seconds=600 program=ima-agent"
DEFAULTS_WANTED = [
    f"options in_flight=16000 deadline=60 patience=600 progress=10 keep={400 * 24 * 60 * 60}", "options require keys max_age again metrics",
    "nonces", "nonces folder max_age", PAGE_DEFAULTS, "page reports keys", "reporting known=[] most=10000 seconds=600 program=ima-agent",
    "reporting require before key nonce title",
]

# Prints times, and the progress of a run with verdicts from before, and how many lines of it come, by a clock that this script turns.
PROGRESS = """
import io, time
from fleet_verify.progress import Progress, clock
from fleet_verify.verdicts import VERDICTS
print(*map(clock, (0, 0.4, 59.4, 59.6, 3599.4, 3599.6, 3725, 360000)))
time.monotonic = lambda: now
now, stream = 100, io.StringIO()
progress = Progress(12, ["match", "match", "failed"], VERDICTS, stream, 10)
print(progress.line(10, 1))
now = 150
progress.begin()
now = 152
progress.count("match")
progress.count("differ")
progress.count("match", "failed")
print(progress.line(7, 2))
for now, is_last in ((152, False), (161.9, False), (162, False), (163, False), (163, True)):
    progress.show(7, 2, is_last)
    print(stream.getvalue().count(chr(10)), end=" ")
"""
PROGRESS_WANTED = [
    "0:00 0:00 0:59 1:00 59:59 1:00:00 1:02:05 100:00:00",
    "2 of 12 done: match 2, differ 0, refused 0, unreadable 0, failed 1; workers 1, 0.0 a second, time left unknown",
    "5 of 12 done: match 4, differ 1, refused 0, unreadable 0, failed 0; workers 2, 1.5 a second, time left 0:05", "1 1 2 2 3 ",
]


def test_parts(tools):
    commands = ("options", "nonces", *(("page", "reporting") if has(tools.python, "jinja2") else ()))
    modules = {"PYTHONPATH": f"{ROOT / 'bindings/python'}:{ROOT / 'fleet'}"}
    for title, script, words, wanted in (
        ("a batch ends at its time, after one machine at least", BATCHES, (ROOT / "samples/real-boot", REQUIRE), BATCHES_WANTED),
        ("answers are on the machines that were asked for, and do not contradict themselves", ANSWERS, (), ANSWERS_WANTED),
        ("a run that is stopped records what is answered", STOPPED, (tools.folder / "stopped",), STOPPED_WANTED),
        ("causes without the paths", CAUSES, (), CAUSES_WANTED),
        ("the files of folders", FOLDERS, (), FOLDERS_WANTED),
        ("what a worker says of itself", FITNESS, (), FITNESS_WANTED),
        ("the defaults of options, and which are given once", DEFAULTS, commands, DEFAULTS_WANTED[:2 * len(commands)]),
        ("progress", PROGRESS, (), PROGRESS_WANTED),
        ("a run waits for a worker that ends, and asyncio warns of none", ENDING, (), ENDING_WANTED),
        ("a worker has its whole time for each request", TURNS, (), TURNS_WANTED),
        ("only workers that fail one after another end a run", STARTS, (), STARTS_WANTED),
    ):
        said = tools.start(["-c", script, *words], **modules).communicate(timeout=SECONDS)[0]
        tools.check(title, said.splitlines(), wanted)
    test_folder_of_call(tools)
    test_tree(tools)
    test_version(tools)


def test_folder_of_call(tools):
    """No module of the folder of the call is loaded: it may have a machine's files."""
    folder = tools.folder / "folder of the call"
    folder.mkdir()
    for name in ("ima_verify", "json", "struct", "signal", "threading", "queue", "fcntl", "fsspec", "sqlite3", "asyncio", "argparse"):
        (folder / f"{name}.py").write_text(f"open({str(folder / 'loaded')!r}, 'a').write('{name} ')\n")
    home = ROOT / "samples/real-boot"
    (folder / "machines.tsv").write_text(f"a\t{home}\n")
    words = ["--unquoted", "--require", REQUIRE, "--workers", "1", folder / "machines.tsv", folder / "verdicts.db"]
    modules = f"{ROOT / 'bindings/python'}:{ROOT / 'fleet'}"
    for title, call, path in (
        ("a run", [ROOT / "fleet/verify.py", *words], ROOT / "bindings/python"),
        ("its workers", ["-c", ELSEWHERE], modules),
        ("a run as a module", ["-c", f"import sys; sys.path[:] = sys.path[1:]; from fleet_verify import main; sys.path[:0] = ['', {str(folder)!r}]; "
                               "sys.exit(main.main(sys.argv[1:]))", *words[:-1], folder / "module.db"], modules),
    ):
        done = subprocess.run(
            [tools.python, *map(str, call)], env={**tools.environment, "PYTHONPATH": str(path)}, cwd=folder, capture_output=True, text=True,
            timeout=SECONDS,
        )
        found = (folder / "loaded").read_text() if (folder / "loaded").exists() else ""
        tools.check(f"modules of the folder of the call: {title}", (done.returncode, done.stderr * (done.returncode != 0), found), (0, "", ""))
        if call[1:2] == [ELSEWHERE]:
            tools.check("a worker of a call in such a folder can verify", done.stdout.splitlines(), ELSEWHERE_WANTED)


def test_tree(tools):
    """What is called where it lies, also from its own folder, finds the binding beside it, unless one is installed, and writes nothing there."""
    tree, installed = tools.folder / "tree", tools.folder / "installed"
    for path in ("fleet", "bindings/python"):
        shutil.copytree(ROOT / path, tree / path, ignore=shutil.ignore_patterns("__pycache__"))
    (installed / "ima_verify").mkdir(parents=True)
    (installed / "ima_verify/__init__.py").write_text("raise ImportError('the installed one')\n")
    machines, before = tree / "machines.tsv", sorted(tree.rglob("*"))
    machines.write_text(f"a\t{ROOT / 'samples/real-boot'}\n")
    given = {name: text for name, text in tools.environment.items() if name not in ("PYTHONPATH", "PYTHONDONTWRITEBYTECODE")}
    words = ["--unquoted", "--require", REQUIRE, "--workers", "1", machines]
    for title, call, cwd, more, wanted in (
        ("a run", ["verify.py", *words, tools.folder / "tree.db"], tools.folder, {}, (0, False)),
        ("a run in its own folder", ["verify.py", *words, tools.folder / "own tree.db"], tree / "fleet", {}, (0, False)),
        ("an installed binding", ["verify.py", *words, tools.folder / "no tree.db"], tree, {"PYTHONPATH": str(installed)}, (3, True)),
        ("a report", ["report.py", "--help"], tree / "fleet", {}, (0, False)),
    ):
        command = [tools.python, tree / "fleet" / call[0], *call[1:]]
        done = subprocess.run([*map(str, command)], env={**given, **more}, cwd=cwd, capture_output=True, text=True, timeout=SECONDS)
        tools.check(f"called where it lies: {title}", (done.returncode, "the installed one" in done.stderr), wanted)
    tools.check("called where it lies: nothing is written there", sorted(set(tree.rglob("*")) - {machines}), before)


def test_version(tools):
    """The version is that of the project."""
    said = tools.start([ROOT / "fleet/verify.py", "--version"]).communicate(timeout=SECONDS)[0]
    tools.check("--version", said, f"fleet-verify {(ROOT / 'VERSION').read_text().strip()}\n")


# What the service may not do without a reason: its exposure, as systemd-analyze has it, times ten; and what that does not look at.
MOST_EXPOSED = 5
LIMITS = (
    "MemoryMax=4G", "OOMPolicy=continue", "TasksMax=4096", "Nice=10", "PrivateNetwork=yes", "RestrictAddressFamilies=none", "ProtectHome=yes",
    "PrivateUsers=yes", "IPAddressDeny=any", "ProtectSystem=strict", "SystemCallErrorNumber=EPERM", "RemoveIPC=yes", "NoNewPrivileges=yes",
)
# What else it may not do. (Of any one of these that is lost, the exposure does not tell.)
HARDENED = (
    "PrivateTmp=yes", "PrivateIPC=yes", "ProtectProc=invisible", "ProcSubset=pid", "ProtectClock=yes", "ProtectControlGroups=yes",
    "ProtectHostname=yes", "ProtectKernelLogs=yes", "ProtectKernelModules=yes", "ProtectKernelTunables=yes", "LockPersonality=yes",
    "MemoryDenyWriteExecute=yes", "RestrictRealtime=yes", "RestrictSUIDSGID=yes", "SystemCallArchitectures=native",
)
# Where its settings are, how it ends, who reads what it leaves, and for how long that stays; and when a poll begins that a stopped computer missed.
SET = (
    "After=remote-fs.target", "Type=oneshot", "EnvironmentFile=/etc/fleet-verify/poll.conf", "TimeoutStartSec=1h", "KillMode=mixed", "User=fleet-verify",
    "UMask=0077",
)
KEPT = ("StateDirectory=fleet-verify", "StateDirectoryMode=0700", "RuntimeDirectory=fleet-verify", "RuntimeDirectoryPreserve=yes")
TIMED = ("OnCalendar=*:0/15", "RandomizedDelaySec=1min", "Persistent=yes", "WantedBy=timers.target")


def test_units(tools):
    """The units of systemd, with a program that is there; it says of what it does not know."""
    tools.needs("systemd-analyze")
    folder = tools.folder / "units"
    shutil.copytree(ROOT / "fleet/systemd", folder)
    service, timer = folder / "fleet-poll.service", folder / "fleet-poll.timer"
    text = re.sub(r"^(Exec\w+=)fleet-verify ", r"\1/bin/true ", service.read_text(), flags=re.MULTILINE)
    for title, settings, said in (
        ("its limits", (*LIMITS, *HARDENED), text), ("its settings", SET, text), ("what it leaves", KEPT, text), ("its times", TIMED, timer.read_text()),
    ):
        tools.check(f"the service: {title}", [setting for setting in settings if setting not in said.splitlines()], [])
    exposed = ["systemd-analyze", "security", "--offline=true", "--no-pager", f"--threshold={MOST_EXPOSED}", service]
    for title, edited, is_right in (
        ("its units", text, True), ("an unknown setting", text.replace("PrivateNetwork=", "PrivateNetwork2="), False),
    ):
        service.write_text(edited)
        words = ["systemd-analyze", "verify", "--man=no", service, timer]
        done = subprocess.run(words, capture_output=True, text=True, timeout=SECONDS)
        tools.check(f"systemd-analyze verify: {title}", (done.returncode, "fleet-poll" in done.stdout + done.stderr), (0, not is_right))
        done = subprocess.run(exposed, capture_output=True, text=True, timeout=SECONDS)
        tools.check(f"systemd-analyze security: {title}", done.returncode == 0, is_right)


def test_unit_user(tools):
    """The user of the service, as systemd-sysusers makes it, has its home where the service has its state."""
    tools.needs("systemd-sysusers")
    file = ROOT / "fleet/systemd/fleet-verify.conf"
    root = tools.folder / "of users"
    (root / "etc").mkdir(parents=True)
    done = subprocess.run(["systemd-sysusers", f"--root={root}", file], capture_output=True, text=True, timeout=SECONDS)
    tools.check("systemd-sysusers makes the service's user", (done.returncode, done.stderr if done.returncode else ""), (0, ""))
    users = [line.split(":") for line in (root / "etc/passwd").read_text().splitlines()]
    found = [(name, home, Path(shell).name) for name, *_, home, shell in users]
    tools.check("the service's user", found, [("fleet-verify", "/var/lib/fleet-verify", "nologin")])


def unit_words(setting, values):
    """The words of this setting of the service, with the values of settings: `${X}` is a part of a word, `$X` words."""
    [line] = re.findall(rf"^{setting}=fleet-verify (.*)$", (ROOT / "fleet/systemd/fleet-poll.service").read_text(), re.MULTILINE)
    for word in line.split():
        if word.startswith("$") and word[1:] in values:
            yield from values[word[1:]].split()
        else:
            yield re.sub(r"\$\{(\w+)\}", lambda found: values[found[1]], word)


def test_unit_commands(tools, fleet):
    """What the service runs: a poll, and then nonces."""
    folder = tools.folder / "service"
    folder.mkdir()
    machines = folder / "machines.tsv"
    machines.write_text("".join(f"{name}\t{paths[0].parent}\n" for name, paths in fleet.files.items()))
    settings = dict(re.findall(r"^(\w+)=(.*)$", (ROOT / "fleet/systemd/poll.conf").read_text(), re.MULTILINE))
    given = {**settings, "STATE_DIRECTORY": str(folder), "RUNTIME_DIRECTORY": str(folder), "MACHINES": str(machines)}
    lacking = [*unit_words("ExecStart", {**given, "OPTIONS": ""})]
    tools.check("the service without its options is refused", tools.verify(*lacking, require=None, by=())[0], 2)
    words = [*unit_words("ExecStart", {**given, "OPTIONS": "--unquoted", "MAX_AGE": "9999d"})]
    status, output, _ = tools.verify(*words, require=None, by=())
    tools.check("the service polls", (status, output.partition("\n")[0]), (0, f"match {len(fleet.rows)}"))
    counts = re.findall(r'^ima_fleet_machines\{.*verdict="match"\} (.*)$', (folder / "fleet.prom").read_text(), re.MULTILINE)
    tools.check("the service's metrics", [float(count) for count in counts], [len(fleet.rows)])
    done = tools.start([ROOT / "fleet/verify.py", *unit_words("ExecStopPost", given)])
    done.communicate(timeout=SECONDS)
    tools.check("the service gives out nonces", (done.returncode, {path.name for path in (folder / "nonces").iterdir()}), (0, set(fleet.rows)))


def untyped(file):
    """The functions of a file that lack a type."""
    for each in ast.walk(ast.parse(file.read_text())):
        if isinstance(each, (ast.FunctionDef, ast.AsyncFunctionDef)):
            given = [*each.args.posonlyargs, *each.args.args, *each.args.kwonlyargs, each.args.vararg, each.args.kwarg]
            if (each.returns is None and each.name != "__init__") or any(one and one.annotation is None and one.arg not in ("self", "cls") for one in given):
                yield f"{file.name}: {each.name}"


def test_types(tools):
    """The package is typed: each function says its types, and where there is mypy, they are right."""
    files = sorted((ROOT / "fleet/fleet_verify").glob("*.py"))
    tools.check("functions without types", [name for file in files for name in untyped(file)], [])
    python = python_with("mypy")
    lacking = ["jinja2 beside mypy"] if python and not has(python, "jinja2") else []
    tools.lacks(*([] if python else ["mypy: whether the types of fleet_verify are right"]), *lacking)
    words = [python, "-m", "mypy", "--cache-dir", "/dev/null"]
    done = subprocess.run(words, cwd=ROOT / "fleet", capture_output=True, text=True, timeout=4 * SECONDS)
    tools.check("mypy --strict", (done.returncode, done.stdout if done.returncode else ""), (0, ""))


def test_wheel(tools):
    """The wheel has the package and its command, which runs."""
    tools.needs_modules("hatchling")
    source = shutil.copytree(ROOT / "fleet", tools.folder / "source", ignore=shutil.ignore_patterns("__pycache__"))
    words = [tools.python, "-m", "hatchling", "build", "-t", "wheel", "-d", tools.folder / "wheel"]
    subprocess.run(words, cwd=source, check=True, capture_output=True, timeout=SECONDS)
    (wheel,) = (tools.folder / "wheel").glob("*.whl")
    with zipfile.ZipFile(wheel) as packed:
        names = set(packed.namelist())
        (entry,) = (packed.read(name).decode() for name in names if name.endswith("entry_points.txt"))
    files = [file for file in (ROOT / "fleet/fleet_verify").rglob("*") if file.is_file() and file.suffix != ".pyc"]
    modules = {str(file.relative_to(ROOT / "fleet")) for file in files}
    tools.check("the wheel has the package, and nothing of the tests", {name for name in names if ".dist-info/" not in name}, modules)
    commands = {"fleet-verify": "fleet_verify.main:main", "ima-report": "fleet_verify.report:main"}
    tools.check("the wheel has the commands", dict(re.findall(r"^(\S+) = (\S+)$", entry, re.MULTILINE)), commands)
    done = subprocess.run([tools.python, "-m", "fleet_verify", "--help"], env={"PYTHONPATH": str(wheel)}, capture_output=True, text=True)
    tools.check("the command's help", (done.returncode, "--require SELECTION" in done.stdout), (0, True))
