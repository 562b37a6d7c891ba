"""Starts clients, schedulers and workers as processes on 127.0.0.1, for tests/fleet/test and fleet/bench."""

import os
import shutil
import signal
import subprocess
import sys
import time
import unittest
from contextlib import contextmanager, suppress
from dataclasses import dataclass, field
from pathlib import Path
from typing import Optional, Sequence, Tuple

ROOT = Path(__file__).resolve().parents[2]
NO_DASK = "this machine has no python3 with Dask's distributed"
SECONDS = 240  # (a limit for what is to come: the computer may have much else to do)
REQUIRE = "sha256:0-10"  # of all runs that ask for nothing else
UNQUOTED = ("--unquoted",)  # of all runs that say nothing of quotes
# A machine may wait at a gate, and is not slow meanwhile: after a sixtieth of its deadline a machine is asked again.
SHARED = ("--progress", "1", "--deadline", str(60 * SECONDS))
# Waits until a scheduler has so many workers.
WORKERS_ARE_THERE = "import sys; from distributed import Client; Client(sys.argv[1]).wait_for_workers(int(sys.argv[2]))"


def has(python, module):
    return subprocess.run([python, "-c", f"import {module}"], capture_output=True, timeout=SECONDS).returncode == 0


def python_with(module):
    """A Python that has this module, or None."""
    pythons = (sys.executable, shutil.which("python3"), "/usr/bin/python3")
    return next((python for python in pythons if python and shutil.which(python) and has(python, module)), None)


def python_with_dask():
    return python_with("distributed")


def until(what, condition, client=None):
    """Waits until the condition holds, for as long as the client runs, if one is given."""
    limit = time.monotonic() + SECONDS
    while not condition():
        if time.monotonic() > limit or client is not None and client.poll() is not None:
            raise TimeoutError(f"{what} did not come")
        time.sleep(0.02)


def environment_of(library, folder):
    """The environment of all processes: the binding, the library in this folder, and no settings of Dask from elsewhere, but for keys by which
    schedulers, workers and clients know each other."""
    return {
        **tls_settings(folder),
        **os.environ, "PYTHONPATH": str(ROOT / "bindings/python"), "IMA_VERIFY_LIBRARY": str(library / "libima_verify.so"),
        "DASK_CONFIG": str(folder / "dask"), "PYTHONDONTWRITEBYTECODE": "1",
        "NOTED_CALLS": str(folder / "calls"), "GATE": str(folder / "gate"),
    }


def tls_settings(folder):
    """The settings of Dask for `tls://`, with a new key, whose certificate all take; none where there is no `openssl`."""
    key, certificate = folder / "tls-key.pem", folder / "tls.pem"
    words = ["openssl", "req", "-x509", "-newkey", "rsa:2048", "-nodes", "-days", "2", "-subj", "/CN=fleet", "-keyout", key, "-out", certificate]
    if shutil.which("openssl") is None:
        return {}
    subprocess.run(words, check=True, capture_output=True)
    parts = {"CERT": certificate, "KEY": key}
    settings = {f"{who}__{part}": file for who in ("SCHEDULER", "WORKER", "CLIENT") for part, file in parts.items()}
    return {f"DASK_DISTRIBUTED__COMM__TLS__{name}": str(file) for name, file in {"CA_FILE": certificate, **settings}.items()}


def preloading(folder, module):
    """The environment in which the workers of `--workers` load this module before all else, and no other process does."""
    folder.mkdir(exist_ok=True)
    (folder / "sitecustomize.py").write_text(
        "import sys\nwith open('/proc/self/cmdline') as file:\n    is_worker = 'fleet_verify.worker' in file.read()\n"
        f"if is_worker:\n    sys.path.append({str(module.parent)!r})\n    import {module.stem}\n    sys.path.pop()\n"
    )
    return {"PYTHONPATH": f"{folder}:{ROOT / 'bindings/python'}"}


def children_of(process):
    """The processes that a process started, by their numbers, but for the one by which Python's `multiprocessing` cleans up."""
    found = []
    with suppress(FileNotFoundError):
        for thread in Path(f"/proc/{process}/task").iterdir():
            found += map(int, (thread / "children").read_text().split())
    return [child for child in found if b"resource_tracker" not in command_of(child)]


def command_of(process):
    """The arguments of a process, of which one that has ended has none."""
    try:
        return Path(f"/proc/{process}/cmdline").read_bytes()
    except FileNotFoundError:
        return b""


@dataclass
class Processes:
    """The Python to run, the environment of the processes, and a folder for all that they write."""

    python: str
    folder: Path
    environment: dict
    has_dask: bool = True
    started: list = field(default_factory=list)

    def __post_init__(self):
        """A SIGTERM ends this program as an error does, so that it ends what it started."""
        signal.signal(signal.SIGTERM, lambda *_: sys.exit(1))

    def needs_modules(self, *modules):
        """Skips the test if this Python lacks one of these modules."""
        self.lacks(*(f"{module} for Python" for module in modules if not has(self.python, module)))

    def needs_dask(self):
        """Skips the test, or the rest of it, without Dask."""
        if not self.has_dask:
            raise unittest.SkipTest(NO_DASK)

    def start(self, words, said="errors", output=subprocess.PIPE, **given):
        """Starts a process of this Python. What it writes to standard error goes to the file of the name `said`, and its output there."""
        with open(self.folder / said, "a") as errors:
            process = subprocess.Popen(
                [self.python, *map(str, words)], env={**self.environment, **given}, cwd=self.folder, text=True,
                stdin=subprocess.DEVNULL, stdout=output, stderr=errors, start_new_session=True,
            )
        self.started.append(process)
        return process

    @contextmanager
    def gate(self, number):
        """Has the machines from this number on wait, where the workers note their calls."""
        gate = Path(self.environment["GATE"])
        gate.write_text(str(number))
        yield
        gate.unlink()

    def client(self, *words, said="clients", output=subprocess.PIPE, by=UNQUOTED, **given):
        return self.start([ROOT / "fleet/verify.py", "--require", REQUIRE, *SHARED, *by, *words], said, output, **given)

    def verify(
        self, *words, require: Optional[str] = REQUIRE, by: Sequence[str] = UNQUOTED, seconds: float = SECONDS, **given: str
    ) -> Tuple[int, str, str]:
        """The status of a run, and what it printed on both streams. It has no `--require` if that is None."""
        words = [*by, *words, *([] if require is None else [f"--require={require}"])]
        ended = subprocess.run(
            [self.python, ROOT / "fleet/verify.py", *SHARED, *map(str, words)],
            env={**self.environment, **given}, cwd=self.folder, text=True, capture_output=True, timeout=seconds,
        )
        with open(self.folder / "clients", "a") as clients:
            clients.write(ended.stderr)
        return ended.returncode, ended.stdout, ended.stderr

    @contextmanager
    def cluster(self, name, workers, *words, protocol="tls", **given):
        """A scheduler and workers, by TLS, unless the protocol is another. Gives the scheduler's address, and the processes, of which the
        scheduler's is the last. Without Dask the rest of the test is skipped."""
        self.needs_dask()
        file = self.folder / f"{name}.json"
        common = ["--protocol", protocol, "--host", "127.0.0.1", "--no-dashboard"]
        scheduler = ["-m", "distributed.cli.dask_scheduler", *common, "--port", "0", "--scheduler-file", file]
        worker = ["-m", "distributed.cli.dask_worker", *common, "--scheduler-file", file, "--nthreads", "1"]
        worker += ["--local-directory", self.folder / name, *words]
        last = self.start(scheduler, **given)
        processes = [self.start(worker, **given) for _ in range(workers)] + [last]
        until("a scheduler", file.exists)
        until("its address", lambda: file.read_text().endswith("}"))
        address = next(word for word in file.read_text().split('"') if word.startswith(f"{protocol}://"))
        self.start(["-c", WORKERS_ARE_THERE, address, workers]).communicate(timeout=SECONDS)
        yield address, processes
        for process in processes:
            process.terminate()

    def end(self):
        """Ends what is still running."""
        for process in self.started:
            if process.poll() is None:
                process.kill()
            process.wait()
