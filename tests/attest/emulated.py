#!/usr/bin/env python3
"""Runs a command beside an emulated TPM (swtpm) into which the sample boot was extended, for tpm2-tools to talk to.

    tests/attest/emulated.py COMMAND [ARGUMENT]..

The TPM has a bank of each of the four algorithms. What extends them is what `samples/four-banks` says, event by event of the log, then
entry by entry of the list. Keys and clocks differ from run to run. The exit status is that of the command."""

import os
import shutil
import socket
import subprocess
import sys
import tempfile
import time
from contextlib import contextmanager
from pathlib import Path

ROOT = Path(__file__).resolve().parents[2]
BOOT = ROOT / "samples/real-boot"
sys.path.append(str(ROOT / "tests"))

from reference.log import read_log  # noqa: E402
from reference.measurement_list import read_list  # noqa: E402
from reference.registers import ALGORITHMS, SHA256  # noqa: E402

# Those that leave an object in the TPM.
TOOLS = ("tpm2_createek", "tpm2_createak", "tpm2_createprimary", "tpm2_create", "tpm2_evictcontrol", "tpm2_quote", "tpm2_sign", "tpm2_hash",
         "tpm2_certify", "tpm2_certifycreation", "tpm2_gettime", "tpm2_nvcertify", "tpm2_getcommandauditdigest")
SECONDS, TRIES = 120, 5
# Makes room for the next objects first, as Linux does at /dev/tpmrm0.
ROOMY = """#!/bin/sh
tpm2_flushcontext --transient-object && exec {tool} "$@"
"""


def extension(register, digest_of):
    """A word of tpm2_pcrextend."""
    return f"{register}:" + ",".join(f"{algorithm.name}={digest_of(algorithm).hex()}" for algorithm in ALGORITHMS)


def event_extensions():
    """The words of tpm2_pcrextend for the events of the sample's log."""
    for event in read_log((BOOT / "firmware.log").read_bytes()).events:
        own = event.digest_of(SHA256)
        if event.is_extended:
            yield extension(event.register, lambda algorithm, own=own: own if algorithm is SHA256 else algorithm.hash(own))


def entry_extensions(measurements):
    """The same for the entries of a list."""
    return [extension(entry.register, entry.digest_of) for entry in read_list(measurements)]


def free_ports():
    """Two ports in a row that nobody listens to: of commands, and of control."""
    while True:
        with socket.socket() as first, socket.socket() as second:
            first.bind(("127.0.0.1", 0))
            port = first.getsockname()[1]
            try:
                second.bind(("127.0.0.1", port + 1))
            except OSError:
                continue
            return port, port + 1


def started(folder):
    """The emulator, in the foreground of a process of its own, and the environment of tools that talk to it."""
    port, control = free_ports()
    words = ["swtpm", "socket", "--tpm2", "--tpmstate", f"dir={folder}", "--flags", "not-need-init,startup-clear"]
    words += ["--server", f"type=tcp,bindaddr=127.0.0.1,port={port}", "--ctrl", f"type=tcp,bindaddr=127.0.0.1,port={control}"]
    tools = Path(folder, "tools")
    tools.mkdir()
    for tool in TOOLS:
        tools.joinpath(tool).write_text(ROOMY.format(tool=shutil.which(tool)))
        tools.joinpath(tool).chmod(0o755)
    settings = {"TPM2TOOLS_TCTI": f"swtpm:host=127.0.0.1,port={port}", "PATH": f"{tools}:{os.environ['PATH']}"}
    return subprocess.Popen(words), {**os.environ, **settings}


def answers(emulator, environment):
    """Whether the emulator answers, once it does. It ends if another process took one of its ports meanwhile."""
    end = time.monotonic() + SECONDS
    while emulator.poll() is None and time.monotonic() < end:
        if subprocess.run(["tpm2_pcrread", "sha256:0"], env=environment, capture_output=True).returncode == 0:
            return emulator.poll() is None
        time.sleep(0.1)
    return False


@contextmanager
def answering():
    """The environment of tools that talk to an emulator, which answers."""
    for _ in range(TRIES):
        with tempfile.TemporaryDirectory() as folder:
            emulator, environment = started(folder)
            try:
                if answers(emulator, environment):
                    yield environment
                    return
            finally:
                emulator.terminate()
                emulator.wait()
    raise RuntimeError("swtpm does not answer")


@contextmanager
def emulated(measurements=None):
    """An emulated TPM with the sample boot, or another list after its log: the environment of tools that talk to it."""
    if measurements is None:
        measurements = (BOOT / "ima.list").read_bytes()
    with answering() as environment:
        words = [*event_extensions(), *entry_extensions(measurements)]
        subprocess.run(["tpm2_pcrextend", *words], env=environment, check=True)
        yield environment


def main():
    if len(sys.argv) < 2:
        sys.exit("usage: tests/attest/emulated.py COMMAND [ARGUMENT]..")
    with emulated() as environment:
        return subprocess.run(sys.argv[1:], env=environment).returncode


if __name__ == "__main__":
    sys.exit(main())
