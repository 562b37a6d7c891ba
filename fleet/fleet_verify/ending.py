"""How a call ends that has no verdicts to give: why, in a line on standard error, and its status. (It loads little: signals come early.)"""

import errno
import os
import signal
import sys
from contextlib import contextmanager
from typing import Any, Iterator, TextIO

SIGNALS = (signal.SIGINT, signal.SIGTERM)
STOPPED = "stopped: {}; run the same command again to resume"
SIGNALLED = "by a signal"


class CannotGoOn(Exception):
    """The run cannot go on; the text says why."""


class CannotVerify(CannotGoOn):
    """A worker lacks something that the same command does not bring; the text says what."""


class NotStarted(Exception):
    """What is required, or one of the tables, is refused; the text says why."""


def complain(text: str, status: int) -> int:
    shown = "".join(letter if letter.isprintable() else "?" for letter in text)
    print(f"fleet-verify: {shown}", file=sys.stderr, flush=True)
    return status


def stop(cause: str, fault: BaseException) -> int:
    """The status of a run that stopped for this cause, which it complains of."""
    goes_on = not isinstance(fault, (CannotVerify, ImportError))
    return complain(STOPPED.format(cause) if goes_on else f"stopped: {cause}", 3)


@contextmanager
def telling() -> Iterator[TextIO]:
    """Standard output, where all that is written meanwhile is written at the end; or there is an OSError. (Where it is closed Python has none, and
    `print` says nothing of that. What could not be written Python would write once more as it ends, and end with a status of its own.)"""
    if sys.stdout is None:
        raise OSError(errno.EBADF, os.strerror(errno.EBADF))
    try:
        yield sys.stdout
        sys.stdout.flush()
    except OSError:
        nothing = os.open(os.devnull, os.O_WRONLY)
        os.dup2(nothing, sys.stdout.fileno())
        os.close(nothing)
        raise


def stop_at_once(*_: Any) -> None:
    """What a signal does where nothing is in flight: all that is recorded is so by transactions, which are whole."""
    os.write(sys.stderr.fileno(), f"fleet-verify: {STOPPED.format(SIGNALLED)}\n".encode())  # (another line may be half written)
    os._exit(3)


def stop_simply() -> None:
    """Has the signals do so."""
    for number in SIGNALS:
        signal.signal(number, stop_at_once)
