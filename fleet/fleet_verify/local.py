"""Workers that are processes of this computer. Each is reached by its standard input and output alone, of which no other has an end."""

import asyncio
import dataclasses
import itertools
import json
import os
import sys
import time
from collections import deque
from contextlib import suppress
from dataclasses import dataclass, field
from operator import itemgetter
from types import TracebackType
from typing import Deque, Dict, Iterator, List, Optional, Type

from .modules import elsewhere
from .options import Options
from .reading import cause_of
from .verdict import Asked
from .worker import BEGINNING, FIRST, HEAD, LEAVING, Message
from .workers import Killed, asked_of

# (Python puts the folder of the call before all others)
COMMAND = "import sys; sys.path[:] = filter(None, sys.path); from fleet_verify.worker import main; main()"
KNOWN = "known"

# How many requests a worker has: one that it answers, and one that is there when that ends.
AT_ONCE = 2
# How many patient requests a worker has at most. If one has no thread for these, each is given half as many, and one more for each answer.
MOST_BESIDE = 32
# A request is given to so many workers, if each dies.
MOST_DEATHS = 4
# So many workers may end one after another before they have begun. Then no other is started.
MOST_FAILED_STARTS = 10
# How much longer than all that a machine may take is an answer waited for, before its worker is killed.
SPARE_SECONDS = 30.0
END_SECONDS, KILLED_SECONDS = 3.0, 30.0
RETRY_SECONDS = 0.2
PIECE = 1024 * 1024
BUFFER = 4 * 1024 * 1024


@dataclass(eq=False)
class Request:
    """A request by its number, what is answered to it, and how many workers died that had begun it."""

    number: int
    text: bytes
    answer: "asyncio.Future[str]"
    deaths: int = 0
    begun: float = 0.0

    @property
    def is_patient(self) -> bool:
        return self.number % 2 == 1


@dataclass(eq=False)
class Worker:
    """A process, with the requests that it answers one after another, of which it has begun the first, and those that it answers beside them."""

    process: asyncio.subprocess.Process
    given: Deque[Request] = field(default_factory=deque)
    beside: Dict[int, Request] = field(default_factory=dict)
    has_begun: bool = False
    has_answered: bool = False
    is_leaving: bool = False
    has_ended: bool = False
    fault: Optional[Exception] = None

    @property
    def name(self) -> str:
        return f"process {self.process.pid}"

    @property
    def is_ready(self) -> bool:
        return self.has_begun and not self.is_leaving and not self.has_ended

    @property
    def begun(self) -> List[Request]:
        """The requests that it has begun."""
        return [*itertools.islice(self.given, 1), *self.beside.values()]

    def give(self, request: Request) -> None:
        assert self.process.stdin is not None
        request.begun = time.monotonic()
        if request.is_patient:
            self.beside[request.number] = request
        else:
            self.given.append(request)
        self.process.stdin.write(HEAD.pack(request.number, len(request.text)))
        self.process.stdin.write(request.text)

    def take(self, message: Message) -> None:
        """Takes the answer to a request that it has begun."""
        request = next((each for each in self.begun if each.number == message.number), None)
        if request is None:
            raise ConnectionError(f"{self.name} answered what it was not asked")
        if request.is_patient:
            del self.beside[request.number]
        else:
            self.given.popleft()
            if self.given:
                self.given[0].begun = time.monotonic()
        self.has_answered = True
        if not request.answer.done():
            request.answer.set_result(message.text.decode())

    async def tell(self, asked: Asked, known: Optional[bytes]) -> None:
        """Tells it what is asked of all requests."""
        for text in (json.dumps(dataclasses.asdict(asked)).encode(), known or b""):
            await self._write(HEAD.pack(BEGINNING, len(text)))
            for start in range(0, len(text), PIECE):
                await self._write(text[start : start + PIECE])

    async def _write(self, data: bytes) -> None:
        assert self.process.stdin is not None
        self.process.stdin.write(data)
        await self.process.stdin.drain()

    async def hear(self) -> Message:
        assert self.process.stdout is not None
        number, size = HEAD.unpack(await self.process.stdout.readexactly(HEAD.size))
        return Message(number, await self.process.stdout.readexactly(size))


class LocalWorkers:
    """So many processes, each with another in its place when it ends, and the requests that wait for one."""

    def __init__(self, count: int, options: Options, known: Optional[bytes]):
        self.count, self.text = count, known
        self.known = None if known is None else KNOWN
        self.asked = asked_of(options, self.known)
        self.running: List[Worker] = []
        self.waiting: Deque[Request] = deque()
        self.most_beside = MOST_BESIDE
        self.failed_starts = 0
        self.cause = ""
        self._numbers: Iterator[int] = itertools.count(FIRST, 2)
        self._keepers: "List[asyncio.Task[None]]" = []
        self._endings: "List[asyncio.Task[None]]" = []

    async def __aenter__(self) -> "LocalWorkers":
        self._keepers = [asyncio.create_task(self._keep()) for _ in range(self.count)]
        return self

    async def __aexit__(self, kind: Optional[Type[BaseException]], fault: Optional[BaseException], trace: Optional[TracebackType]) -> None:
        for keeper in self._keepers:
            keeper.cancel()
        await asyncio.wait(self._keepers)
        await asyncio.gather(*self._endings, return_exceptions=True)

    @property
    def threads(self) -> Dict[str, int]:
        return {worker.name: 1 for worker in self.running if worker.is_ready}

    async def look(self) -> None:
        """Kills each worker that has not answered for longer than it may take: it does not go on by itself."""
        latest = time.monotonic() - 2 * self.asked.deadline - SPARE_SECONDS
        for worker in self.running:
            if any(request.begun < latest for request in worker.begun):
                with suppress(ProcessLookupError):
                    worker.process.kill()

    def lost(self) -> Optional[str]:
        if self.threads or self.failed_starts < MOST_FAILED_STARTS:
            return None
        return f"{self.failed_starts} workers, one after another, {self.cause}"

    def submit(self, request: str, is_patient: bool) -> "asyncio.Future[str]":
        given = Request(next(self._numbers) + is_patient, request.encode(), asyncio.get_running_loop().create_future())
        self.waiting.append(given)
        self._give()
        return given.answer

    async def faults(self, asked: Asked) -> Dict[str, Optional[Exception]]:
        return {worker.name: worker.fault for worker in self.running if worker.is_ready}

    def _give(self) -> None:
        """Gives what waits to the workers that have least to do."""
        waiting, self.waiting = self.waiting, deque()
        for request in waiting:
            worker = self._idlest(request)
            if worker is None:
                self.waiting.append(request)
            else:
                worker.give(request)

    def _idlest(self, request: Request) -> Optional[Worker]:
        """The worker to give a request to, if one may have it."""
        loads = [(len(worker.beside if request.is_patient else worker.given), worker) for worker in self.running if worker.is_ready]
        least, worker = min(loads, key=itemgetter(0), default=(0, None))
        return worker if least < (self.most_beside if request.is_patient else AT_ONCE) else None

    async def _keep(self) -> None:
        """Keeps a worker running, until too many have ended before they had begun."""
        while self.lost() is None:
            cause = "ended before they had started"
            try:
                worker = Worker(await start())
                await self._run(worker)
                self._give_again(worker)
                if worker.has_begun:
                    self.failed_starts = 0
                    await asyncio.sleep(RETRY_SECONDS if worker.is_leaving and not worker.has_answered else 0)
                    continue
            except OSError as fault:
                cause = f"could not be started: {cause_of(fault)}"
            self.failed_starts, self.cause = self.failed_starts + 1, cause
            await asyncio.sleep(RETRY_SECONDS)

    async def _run(self, worker: Worker) -> None:
        """Runs a worker until it ends. One that is not understood is killed."""
        self.running.append(worker)
        try:
            with suppress(Exception):
                await worker.tell(self.asked, self.text)
                await self._hear(worker)
        finally:
            worker.has_ended = True
            await self._end(worker)
            self.running.remove(worker)

    async def _end(self, worker: Worker) -> None:
        """Ends a worker. Where the run ends meanwhile, that waits for it: no process is left behind."""
        ending = asyncio.create_task(end(worker.process))
        self._endings.append(ending)
        await asyncio.shield(ending)
        self._endings.remove(ending)

    async def _hear(self, worker: Worker) -> None:
        """Takes what a worker tells, until it ends."""
        worker.fault = fault_of(await worker.hear())
        worker.has_begun = True
        self._give()
        while True:
            message = await worker.hear()
            if message.number == LEAVING:
                worker.is_leaving = True
                self.most_beside = max(self.most_beside // 2, 1) if message.text else self.most_beside
            else:
                worker.take(message)
                self.most_beside = min(self.most_beside + message.number % 2, MOST_BESIDE)
            self._give()

    def _give_again(self, worker: Worker) -> None:
        """Gives to others what a worker had that has ended. A request that was begun by too many of these is Killed."""
        for request in [] if worker.is_leaving else worker.begun:
            request.deaths += 1
            if request.deaths >= MOST_DEATHS and not request.answer.done():
                request.answer.set_exception(Killed())
        given = [*worker.given, *worker.beside.values()]
        self.waiting.extendleft(request for request in reversed(given) if not request.answer.done())
        self._give()


async def start() -> asyncio.subprocess.Process:
    """Starts a process, which takes no signals of a terminal, and says no word."""
    environment = {**os.environ, "PYTHONPATH": os.pathsep.join(elsewhere(sys.path))}
    return await asyncio.create_subprocess_exec(
        sys.executable, "-B", "-c", COMMAND, env=environment, start_new_session=True, limit=BUFFER,
        stdin=asyncio.subprocess.PIPE, stdout=asyncio.subprocess.PIPE, stderr=asyncio.subprocess.DEVNULL,
    )


async def end(process: asyncio.subprocess.Process) -> None:
    """Ends a process, and kills it if need be. It is waited for, but not for ever: one that waits for a file may take as long."""
    assert process.stdin is not None
    process.stdin.close()
    try:
        await asyncio.wait_for(ended(process), END_SECONDS)
    except asyncio.TimeoutError:
        with suppress(ProcessLookupError):
            process.kill()
        with suppress(asyncio.TimeoutError):
            await asyncio.wait_for(ended(process), KILLED_SECONDS)


async def ended(process: asyncio.subprocess.Process) -> None:
    """Waits until a process has ended, and its input with it. (Otherwise asyncio complains that nobody asked how that ended.)"""
    assert process.stdin is not None
    await process.wait()
    with suppress(ConnectionError):
        await process.stdin.wait_closed()


def fault_of(message: Message) -> Optional[Exception]:
    """Why a worker cannot verify, if so, by how it begins."""
    told = json.loads(message.text)
    if told is None:
        return None
    kind, *words = told
    return ValueError(*words) if kind == "ValueError" else ImportError(*words)
