"""A worker of `--workers`: a process of this computer, which the run reaches by its standard input and output alone.

On standard input come messages: what is asked of all batches, the text of known files, then requests of `verify_batch`. On standard
output goes whether it can verify, then the answer to each request. The process ends when its input does, also if the run was killed."""

import json
import os
import signal
import struct
import threading
from contextlib import suppress
from fcntl import fcntl
from queue import SimpleQueue
from typing import BinaryIO, Iterator, NamedTuple, Optional

from .verdict import Asked, require_fitness
from .work import NoThread, has_many_left, start_thread, verify_batch

# How many bytes of answers may be on their way, for Linux: with fewer a worker and the run wait for each other more often. (Python 3.9 has no
# name for the command.)
F_SETPIPE_SZ, PIPE = 1031, 1024 * 1024

# The head of a message: the number of a request, and how many bytes follow.
HEAD = struct.Struct("!QQ")
# The numbers of what is no request: how a worker begins; and that it ends itself, to be rid of threads that are left. Then come those of
# requests, of which the odd ones are patient.
BEGINNING, LEAVING, FIRST = 0, 1, 2


class Message(NamedTuple):
    """A request or an answer by its number."""

    number: int
    text: bytes


def messages(stream: BinaryIO) -> Iterator[Message]:
    """The messages of a stream, until it ends."""
    while True:
        head = stream.read(HEAD.size)
        if len(head) < HEAD.size:
            return
        number, size = HEAD.unpack(head)
        text = stream.read(size)
        if len(text) < size:
            return
        yield Message(number, text)


class Answers:
    """What goes to the run, by several threads."""

    def __init__(self, stream: BinaryIO, known: Optional[bytes]):
        self.stream, self.known, self.lock = stream, known, threading.Lock()

    def write(self, number: int, text: bytes) -> None:
        with self.lock:
            self.stream.write(HEAD.pack(number, len(text)) + text)
            self.stream.flush()

    def answer(self, request: Message) -> None:
        """Answers a request. A fault that is not foreseen ends the process, and the run then knows which requests it had."""
        try:
            told = verify_batch(request.text.decode(), f"process {os.getpid()}", self.known)
            self.write(request.number, told.encode())
            if has_many_left():
                self.leave(b"")
        except NoThread as fault:
            self.leave(str(fault).encode())
        except BaseException:
            os._exit(1)

    def answer_all(self, requests: "SimpleQueue[Message]") -> None:
        """Answers one request after another."""
        while True:
            self.answer(requests.get())

    def leave(self, why: bytes) -> None:
        """Ends this process, and so the threads that it left: the run gives others what it had. It says why, if it has no thread any longer."""
        self.write(LEAVING, why)
        os._exit(0)


def fault_of(asked: Asked, known: Optional[bytes]) -> bytes:
    """Why this process cannot verify, as JSON: the kind of the exception, and its arguments."""
    try:
        require_fitness(asked.require, asked.is_poll, known, asked.is_quoted)
    except ValueError as fault:
        return json.dumps(["ValueError", *fault.args]).encode()
    except ImportError as fault:
        return json.dumps(["ImportError", str(fault)]).encode()
    return b"null"


def serve(requests: BinaryIO, answers: BinaryIO) -> None:
    """Answers what comes, until no more does."""
    coming = messages(requests)
    asked = Asked(**json.loads(next(coming).text))
    text = next(coming).text
    told = Answers(answers, None if asked.known is None else text)
    told.write(BEGINNING, fault_of(asked, told.known))
    waiting: "SimpleQueue[Message]" = SimpleQueue()
    try:
        start_thread(told.answer_all, waiting)
        for request in coming:
            if request.number % 2:
                start_thread(told.answer, request)
            else:
                waiting.put(request)
    except NoThread as fault:
        told.leave(str(fault).encode())


def main() -> None:
    """Serves by the pipes that are there; no library reads or writes in them. The run alone ends this process, and not a terminal."""
    signal.signal(signal.SIGINT, signal.SIG_IGN)
    signal.signal(signal.SIGTERM, signal.SIG_IGN)
    requests, answers = os.fdopen(os.dup(0), "rb"), os.fdopen(os.dup(1), "wb")
    with suppress(OSError):
        fcntl(answers, F_SETPIPE_SZ, PIPE)
    nothing = os.open(os.devnull, os.O_RDWR)
    os.dup2(nothing, 0)
    os.dup2(nothing, 1)
    try:
        serve(requests, answers)
    finally:
        os._exit(0)
