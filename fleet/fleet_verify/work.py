"""Batches of machines on a worker, which needs no file of this folder, but the package `ima_verify`."""

import dataclasses
import json
import threading
import time
from dataclasses import dataclass
from typing import Any, Callable, Iterable, List, Optional, Sequence, Tuple

from .reading import Fields, now, paths_of
from .verdict import REPORTED, UNFIT, Asked, Given, answer_on
from .wording import LATE

# After this part of its deadline, or at least so many seconds, a machine is slow: its worker turns to others. Beside these the machine is asked
# again, for as long as its deadline says.
SLOW_PART = 1 / 60
SLOW_SECONDS = 1.0
# How much longer than a machine may take its answer is waited for: where a file is only slow, that says which.
GRACE_SECONDS = 1.0
# How often a worker tries what ends by an error that none foresaw.
TRIES = 3

# What comes of a machine that is slow.
SLOW = "slow"

# The name of a thread that is left waiting for a file, and how many of these a process may have before it starts anew.
LEFT, MOST_LEFT = "left", 200

# A machine's folder or paths, and what the verifier has of it.
Place = Tuple[Sequence[str], Given]


class NoThread(Exception):
    """No thread can be started: too many wait for files."""


def start_thread(target: Callable[..., None], *words: Any) -> threading.Thread:
    """Starts a thread which does not keep the process from its end."""
    thread = threading.Thread(target=target, args=words, daemon=True)
    try:
        thread.start()
    except RuntimeError as fault:
        raise NoThread(str(fault)) from None
    return thread


def has_many_left() -> bool:
    """Whether so many threads of this process are left waiting for files that it is to start anew."""
    return sum(thread.name == LEFT for thread in threading.enumerate()) >= MOST_LEFT


@dataclass(frozen=True)
class Batch:
    """What a worker is asked. A patient batch gives each machine its whole time, and any other begins none after so many seconds.

    (Dask cannot send a NamedTuple whole.)"""

    asked: Asked
    is_patient: bool
    seconds: float
    machines: List[Place]

    @property
    def machine_seconds(self) -> float:
        """How long it waits for a machine."""
        deadline = self.asked.deadline
        return deadline if self.is_patient else min(deadline, max(SLOW_SECONDS, SLOW_PART * deadline))

    @property
    def has_more_time(self) -> bool:
        """Whether a machine that is late is asked again."""
        return self.machine_seconds < self.asked.deadline

    @property
    def most_seconds(self) -> float:
        """How long its answer is waited for."""
        return self.machine_seconds + (0 if self.has_more_time else GRACE_SECONDS)


def written_place(places: Sequence[str], given: Given) -> str:
    """A machine as a line of a request."""
    return json.dumps([places, [given.checkpoint, given.key, given.nonces, given.no_key]])


def written_request(asked: Asked, is_patient: bool, seconds: float, machines: Iterable[str]) -> str:
    """A request of `verify_batch` on machines, which are lines. The first line is what is asked of all."""
    return "\n".join([json.dumps([dataclasses.asdict(asked), is_patient, seconds]), *machines])


def read_request(request: str) -> Batch:
    first, *machines = request.split("\n")
    asked, is_patient, seconds = json.loads(first)
    return Batch(Asked(**asked), is_patient, seconds, [(places, Given(*given)) for places, given in map(json.loads, machines)])


class Answering:
    """A thread that answers on the first machines of a batch: on one at least, and begins none after the batch's time.

    It is looked at when all are answered, or one may be late, and not for each machine: two threads that take turns cost a quarter of a verdict
    on a short list."""

    def __init__(self, batch: Batch, known: Optional[bytes]):
        self.batch, self.known = batch, known
        self.answers: List[Fields] = []
        self._begun: List[float] = []  # (when each machine was)
        self._has_ended = threading.Event()
        self._thread = start_thread(self._answer)

    def _answer(self) -> None:
        asked = dataclasses.replace(self.batch.asked, deadline=self.batch.machine_seconds)
        for places, given in self.batch.machines:
            self._begun.append(time.monotonic())
            answer = answer_on(paths_of(places, asked.is_quoted), given, asked, self.known)
            answer.update(places=places, time=now())
            self.answers.append(answer)
            if answer["verdict"] == UNFIT or time.monotonic() - self._begun[0] > self.batch.seconds:
                break
        self._has_ended.set()

    def wait(self) -> List[Fields]:
        """The answers. A machine on which none comes in time is the last: no thread can be stopped, so this one is left, and what it answers
        later is dropped."""
        while not self._has_ended.is_set():
            answers = list(self.answers)
            begun = self._begun[len(answers)] if len(answers) < len(self._begun) else time.monotonic()
            left = begun + self.batch.most_seconds - time.monotonic()
            if left <= 0:
                self._thread.name = LEFT
                return [*answers, self._late(len(answers))]
            self._has_ended.wait(left)
        return self.answers

    def _late(self, number: int) -> Fields:
        places, _ = self.batch.machines[number]
        return {"verdict": "unreadable", "cause": LATE, "places": places, "time": now()}


def is_late(answer: Fields) -> bool:
    """Whether a machine's files were not there in time."""
    return answer["verdict"] == "unreadable" and (answer["cause"] == LATE or str(answer["cause"]).endswith(f": {LATE}"))


def answers_in_time(batch: Batch, known: Optional[bytes]) -> List[Fields]:
    """The answers on the first machines of a batch. One that is late is slow, if there is more time for it."""
    answers = Answering(batch, known).wait()
    for answer in answers:
        if batch.has_more_time and is_late(answer):
            answer["verdict"] = SLOW
    return answers


def verify_batch(request: str, worker: str, known: Optional[bytes]) -> str:
    """The answers of a worker of this name on the first machines of a batch: on one at least, and on no other after the time that the request
    gives.

    The first line is JSON, where `seconds` is what they took. Each other line is a report, in the order of the answers that have one."""
    start = time.monotonic()
    answers = answers_in_time(read_request(request), known)
    reports = [answer.pop("report") for answer in answers if answer["verdict"] in REPORTED]
    told = {"worker": worker, "answers": answers, "seconds": time.monotonic() - start}
    return "\n".join([json.dumps(told), *reports])
