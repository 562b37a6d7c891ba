"""A run: batches of machines go to the workers, and their answers to the table of verdicts."""

import asyncio
import math
import time
from bisect import bisect_right
from collections import Counter, deque
from contextlib import suppress
from dataclasses import dataclass, field
from itertools import accumulate
from typing import Deque, Dict, List, Optional

from .answers import Answered, read_answers
from .ending import CannotGoOn, CannotVerify
from .ledger import Ledger, Task
from .options import Options
from .progress import Progress
from .reading import Fields, cause_of, now
from .verdict import UNFIT, Asked
from .verdicts import VERDICTS
from .work import SLOW, TRIES, written_place, written_request
from .workers import Answer, Killed, Workers, asked_of

# A batch is as many machines as a worker is expected to verify in this time, and a quarter more: what it does not do comes back.
BATCH_SECONDS = 0.2
SPARE = 1.25
# How many batches there are for each thread: one that it verifies, and one that is there when that ends.
AT_ONCE = 2
FIRST_BATCH = 256
MOST_BATCH = 1000
# (Dask warns of requests that are twice as large)
MOST_CHARACTERS = 500_000
# How many machines that are slow are asked again at once, for each thread, beside the batches.
MOST_SLOW = 32
# At the end of a run a batch is what is left divided by the threads, and by this, so that all threads end at about the same time; but no
# batch is less than this part of a whole one.
SHARES = 1.5
LEAST_PART = 16
TICK_SECONDS = 0.2
LOOK_SECONDS = 1.0
# How long a run that stops waits for answers that a worker has given, and that are on their way.
CLOSE_SECONDS = 1.0

# Why a machine failed that was verified with no other in flight.
KILLED = "each worker that verified it died"


@dataclass(eq=False)
class Flight:
    """Machines that one worker verifies, and what came of it: answers on the first of them, or why there are none. One machine has a patient
    batch of its own if it is slow, or if workers died that had it."""

    tasks: List[Task]
    is_patient: bool
    answer: Answer
    following: "Optional[asyncio.Task[None]]" = None
    answered: Optional[Answered] = None
    is_killed: bool = False
    fault: str = ""


@dataclass
class Run:
    """A run: its batches are in flight, some for each thread of the workers. `ledger` has the machines and the table, and `sizes` by the
    workers' names how many machines each may do in a batch."""

    workers: Workers
    ledger: Ledger
    progress: Progress
    options: Options
    slow: Deque[Task] = field(default_factory=deque)
    suspects: List[Task] = field(default_factory=list)
    is_alone: bool = False
    tries: "Counter[str]" = field(default_factory=Counter)
    in_flight: List[Flight] = field(default_factory=list)
    ended: List[Flight] = field(default_factory=list)
    sizes: Dict[str, int] = field(default_factory=dict)
    arrived: asyncio.Event = field(default_factory=asyncio.Event)
    heard: float = field(default_factory=time.monotonic)
    looked: float = -LOOK_SECONDS
    looking: "Optional[asyncio.Task[None]]" = None

    @property
    def asked(self) -> Asked:
        return asked_of(self.options, self.workers.known)

    async def verify(self) -> None:
        """Verifies the machines. Those of a batch whose workers died again and again are tried once more at the end, each with no other
        in flight: so none is called failed because of another that ran beside it."""
        try:
            await self._verify()
            self.ledger.give_back(self.suspects)
            self.is_alone = True
            await self._verify()
        finally:
            await self._close()

    async def _close(self) -> None:
        """Records all that is answered, whatever ends the run."""
        arriving = [batch.following for batch in self.in_flight if batch.following and batch.answer.done()]
        if arriving:
            await asyncio.wait(arriving, timeout=CLOSE_SECONDS)
        with suppress(CannotGoOn):
            self._take()
        await self.ledger.close()
        for task in (*(batch.following for batch in self.in_flight), self.looking):
            if task is not None:
                task.cancel()

    async def _verify(self) -> None:
        while True:
            self._look()
            self.ledger.take_turn(max(self._most, AT_ONCE * FIRST_BATCH) * self._threads, self.arrived)
            self._submit()
            if self.ledger.is_done and not self.slow and not self.in_flight:
                return
            await self._hear()
            self._take()
            self.progress.show(self.ledger.left, len(self.workers.threads))

    def _look(self) -> None:
        """Looks now and then which workers are there, beside all else: the scheduler may be slow to tell."""
        if self.looking is not None and self.looking.done():
            self.looking.result()
            self.looking = None
        if self.looking is None and time.monotonic() - self.looked > LOOK_SECONDS:
            self.looking, self.looked = asyncio.create_task(self.workers.look()), time.monotonic()

    @property
    def _threads(self) -> int:
        return sum(self.workers.threads.values())

    @property
    def _most(self) -> int:
        """How many machines the fastest worker may do in a batch."""
        return max((self.sizes.get(name, 0) for name in self.workers.threads), default=0) or FIRST_BATCH

    def _submit(self) -> None:
        """Gives as many batches as there may be. (Those that wait come to no harm when a worker dies.)"""
        while tasks := self._next():
            self._send(tasks, is_patient=False)
        while tasks := self._next_patient():
            self._send(tasks, is_patient=True)

    def _next(self) -> List[Task]:
        """Machines for a worker, if one may have a batch."""
        count = sum(not batch.is_patient for batch in self.in_flight)
        if self.is_alone or count >= AT_ONCE * self._threads:
            return []
        return [self.ledger.next.popleft() for _ in range(min(self._size(), len(self.ledger.next)))]

    def _next_patient(self) -> List[Task]:
        """A machine for a batch of its own, if there may be one."""
        source, most = (self.ledger.next, 1) if self.is_alone else (self.slow, MOST_SLOW * self._threads)
        count = sum(batch.is_patient for batch in self.in_flight)
        return [source.popleft()] if source and count < most else []

    def _size(self) -> int:
        """How many machines to give to a worker."""
        batches, most = AT_ONCE * self._threads, self.options.in_flight
        share = math.ceil(self.ledger.remaining / self._threads / SHARES)
        least = math.ceil(self._most / LEAST_PART) if self.sizes else 1
        given = sum(len(batch.tasks) for batch in self.in_flight) + self.ledger.unrecorded
        return min(self._most, max(share, least), max(most // batches, 1), max(most - given, 0))

    def _send(self, tasks: List[Task], is_patient: bool) -> None:
        """Gives these machines to a worker, or the first of them, if a request would be too long."""
        lines = [written_place(machine.places, given) for machine, given in tasks]
        count = max(bisect_right(list(accumulate(map(len, lines))), MOST_CHARACTERS), 1)
        self.ledger.give_back(tasks[count:])
        request = written_request(self.asked, is_patient, BATCH_SECONDS, lines[:count])
        batch = Flight(tasks[:count], is_patient, self.workers.submit(request, is_patient))
        batch.following = asyncio.create_task(self._follow(batch))
        self.in_flight.append(batch)

    async def _follow(self, batch: Flight) -> None:
        """Waits for a batch's answers, and keeps them."""
        try:
            batch.answered = read_answers(await batch.answer, [machine for machine, _ in batch.tasks], self.asked)
        except Killed:
            batch.is_killed = True
        except Exception as fault:
            batch.fault = cause_of(fault)
        self.ended.append(batch)
        self.arrived.set()

    async def _hear(self) -> None:
        """Waits until a batch or a turn of the table ends, but not long."""
        # (`asyncio.wait_for` may swallow that the task is cancelled)
        timer = asyncio.get_running_loop().call_later(TICK_SECONDS, self.arrived.set)
        await self.arrived.wait()
        timer.cancel()
        self.arrived.clear()
        if self.ended:
            self.heard = time.monotonic()
        elif time.monotonic() - self.heard > self.options.patience:
            raise CannotGoOn(f"no machine is done since {self.options.patience} seconds, by {len(self.workers.threads)} workers")
        lost = self.workers.lost()
        if lost is not None:
            raise CannotGoOn(lost)

    def _take(self) -> None:
        """Sorts what came of the batches that ended, of all of them before one stops the run."""
        ended, self.ended = self.ended, []
        faults = []
        for batch in ended:
            self.in_flight.remove(batch)
            try:
                self._take_batch(batch)
            except CannotGoOn as fault:
                faults.append(fault)
        if faults:
            raise faults[0]

    def _take_batch(self, batch: Flight) -> None:
        """Sorts what came of a batch. What is no verdict stops the run, unless the machine is tried again."""
        if batch.answered is not None:
            self._take_answers(batch, batch.answered)
        elif not batch.is_killed:
            raise CannotGoOn(f"no answer came on {batch.tasks[0][0].name} and {len(batch.tasks) - 1} more: {batch.fault}")
        elif self.is_alone:
            self._fail(batch.tasks[0], KILLED)
        else:
            self.suspects.extend(batch.tasks)

    def _take_answers(self, batch: Flight, answered: Answered) -> None:
        for task, answer in zip(batch.tasks, answered.answers):
            if answer["verdict"] in VERDICTS:
                self.ledger.answers.append((task[0], answer))
            elif answer["verdict"] == SLOW and not batch.is_patient:
                self.slow.append(task)
            elif answer["verdict"] == UNFIT:
                raise CannotVerify(f"worker {answered.worker} cannot verify: {answer['cause']}")
            else:
                self._try_again(task, answer)
        done = len(answered.answers)
        self.ledger.give_back(batch.tasks[done:])
        if not batch.is_patient:
            size = math.ceil(SPARE * BATCH_SECONDS * done / max(answered.seconds, BATCH_SECONDS / MOST_BATCH))
            self.sizes[answered.worker] = min(size, MOST_BATCH)

    def _try_again(self, task: Task, answer: Fields) -> None:
        """A machine on which a worker met an error is tried twice more."""
        self.tries[task[0].name] += 1
        if self.tries[task[0].name] < TRIES:
            self.ledger.give_back([task])
        else:
            self._fail(task, answer["cause"], answer["worker"])

    def _fail(self, task: Task, cause: str, worker: Optional[str] = None) -> None:
        self.ledger.answers.append((task[0], {"verdict": "failed", "cause": cause, "worker": worker, "time": now()}))
