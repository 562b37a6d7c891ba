"""The table of verdicts beside a run: records what is answered, and tells what the verifier has of the machines that come next."""

import asyncio
import sqlite3
import time
from collections import deque
from concurrent.futures import ThreadPoolExecutor
from typing import Callable, Deque, Dict, List, Optional, Sequence, Tuple

from .ending import CannotGoOn
from .machines import Machine
from .reading import Fields
from .verdict import Given
from .verdicts import BadVerdicts, Verdicts

# A machine with what the verifier has of it, and with what a worker answers.
Task = Tuple[Machine, Given]
Answer = Tuple[Machine, Fields]

# A turn begins so long after the one before, or earlier if a run may wait for it: each writes whole pages.
TURN_SECONDS = 0.2


class Ledger:
    """The machines that are not given to workers yet, and the answers that are not recorded yet. A thread of its own uses the table, in
    turns: each records all answers that there are, in one transaction, and reads what there is of the machines that come next, if there may
    be something."""

    def __init__(
        self, table: Verdicts, machines: Sequence[Machine], before: Dict[str, str], has_checkpoints: bool,
        count: Callable[[str, Optional[str]], None],
    ):
        self.table, self.before, self.has_checkpoints, self.count = table, before, has_checkpoints, count
        is_read = has_checkpoints or table.quoting is not None
        self.later: Deque[Machine] = deque(machines if is_read else ())
        self.next: Deque[Task] = deque(() if is_read else ((machine, Given()) for machine in machines))
        self.answers: List[Answer] = []
        self.left = len(machines)
        self._recording: List[Answer] = []
        self._turn: Optional[asyncio.Future[List[Task]]] = None
        self._begun = -TURN_SECONDS
        self._is_broken = False
        self._thread = ThreadPoolExecutor(max_workers=1)

    @property
    def unrecorded(self) -> int:
        return len(self.answers) + len(self._recording)

    @property
    def remaining(self) -> int:
        """How many machines are still to be given to workers."""
        return len(self.later) + len(self.next)

    @property
    def is_done(self) -> bool:
        return not (self.remaining or self.answers or self._turn)

    def give_back(self, tasks: Sequence[Task]) -> None:
        """Machines that a worker had, and that come next."""
        self.next.extendleft(reversed(tasks))

    def take_turn(self, ahead: int, arrived: asyncio.Event) -> None:
        """Begins a turn, if there is enough to do, and none is running: so many machines are to be ready. Sets `arrived` at its end."""
        if not self._ends_turn():
            return
        count = min(max(ahead - len(self.next), 0), len(self.later))
        if (count or self.answers) and self._is_due(count > 0 and 2 * len(self.next) <= ahead):
            self._begin_turn(count).add_done_callback(lambda _: arrived.set())

    def _is_due(self, is_short: bool) -> bool:
        """Whether a turn is to begin: few machines are ready, half of those that are given to workers are answered, or time has passed."""
        is_answered = 2 * len(self.answers) >= self.left - self.remaining
        return is_short or is_answered or time.monotonic() - self._begun >= TURN_SECONDS

    def _begin_turn(self, count: int) -> "asyncio.Future[List[Task]]":
        """Begins a turn, which records all answers, and reads what there is of so many machines."""
        self._begun = time.monotonic()
        machines = [self.later.popleft() for _ in range(count)]
        self._recording, self.answers = self.answers, []
        self._turn = asyncio.get_running_loop().run_in_executor(self._thread, self._use_table, machines)
        return self._turn

    def _ends_turn(self) -> bool:
        """Whether no turn is running. Counts what the one that is done recorded. If it failed, no other is taken."""
        if self._turn is None:
            return True
        if not self._turn.done():
            return False
        turn, self._turn = self._turn, None
        try:
            self.next.extend(turn.result())
        except Exception as fault:
            self._is_broken = True
            if isinstance(fault, (sqlite3.IntegrityError, BadVerdicts)):
                raise CannotGoOn(f"another run records in this table: {fault}") from None
            raise
        for machine, answer in self._recording:
            self.count(answer["verdict"], self.before.get(machine.name))
        self.left -= len(self._recording)
        self._recording = []
        return True

    def _use_table(self, machines: Sequence[Machine]) -> List[Task]:
        if self._recording:
            self.table.record(self._recording, self.before)
        return [(machine, self.table.given(machine, self.has_checkpoints)) for machine in machines]

    async def close(self) -> None:
        """Records what is answered, unless the table could not be written before."""
        try:
            while not self._is_broken and (self._turn is not None or self.answers):
                if self._ends_turn() and self.answers:
                    self._begin_turn(0)
                if self._turn is not None:
                    await asyncio.wait([self._turn])
        finally:
            self._thread.shutdown()
