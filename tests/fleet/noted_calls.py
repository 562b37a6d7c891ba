"""Preloaded by the workers of tests/fleet/test: notes each call of `ima_verify.verify` or `attest` on a log, and each of a session's `more`, in the
file NOTED_CALLS, a line each: the machine's number, and the worker's process.

A machine is known by its number, that of the empty lines at the end of its expected registers. The machines DEADLY kill their
worker, the machine STOPPING stops the first that verifies it, the machine LARGE gets no memory, and on the machine LYING the worker answers
that it matches, whatever the report says. While there is a file GATE, the machines from the number that it has on wait. Of an object
`stuck://` nothing ever comes."""

import dataclasses
import os
import signal
import threading
import time
from pathlib import Path

import fsspec
import ima_verify
from fsspec.spec import AbstractFileSystem

SECONDS = 0.01
if not hasattr(ima_verify, "unnoted"):  # (Dask may load this twice)
    ima_verify.unnoted, ima_verify.Unnoted, ima_verify.unnoted_attest = ima_verify.verify, ima_verify.Session, ima_verify.attest


def noted(log, measurements, expected, **given):
    """Notes the call, unless it only asks what may be required, and does it."""
    if log:
        note(number_of(expected))
    verdict = ima_verify.unnoted(log, measurements, expected, **given)
    return dataclasses.replace(verdict, matches=True) if number_of(expected) == os.environ.get("LYING") else verdict


def noted_attest(key, message, signature, log, measurements, **given):
    """Notes the call, of a machine without a number, unless it only asks what may be required, and does it."""
    if log:
        note("0")
    return ima_verify.unnoted_attest(key, message, signature, log, measurements, **given)


class Noted(ima_verify.Unnoted):
    """A session that notes its calls."""

    def __init__(self, log, expected, **given):
        super().__init__(log, expected, **given)
        self.number = number_of(expected)

    def more(self, data):
        note(self.number)
        return super().more(data)


def number_of(expected):
    return str(len(expected) - len(expected.rstrip(b"\n")) - 1)


def is_open(number):
    """Whether a machine of this number may go on."""
    try:
        return int(number) < int(Path(os.environ["GATE"]).read_text())
    except FileNotFoundError:
        return True


def count_of(number):
    """How often a machine's call is noted."""
    return sum(line.startswith(f"{number} ") for line in Path(os.environ["NOTED_CALLS"]).read_text().splitlines())


def note(number):
    """Notes a call on the machine of this number."""
    with open(os.environ["NOTED_CALLS"], "a") as calls:
        calls.write(f"{number} {os.getpid()}\n")
    while not is_open(number):
        time.sleep(SECONDS)
    if number in os.environ.get("DEADLY", "").split(","):
        os.kill(os.getpid(), signal.SIGKILL)
    if number == os.environ.get("STOPPING") and count_of(number) == 1:
        os.kill(os.getpid(), signal.SIGSTOP)
    if number == os.environ.get("LARGE"):
        raise MemoryError


class Stuck(AbstractFileSystem):
    """An object store that never answers."""

    def _open(self, path, mode, **given):
        threading.Event().wait()


ima_verify.verify, ima_verify.Session, ima_verify.attest = noted, Noted, noted_attest
fsspec.register_implementation("stuck", Stuck, clobber=True)
