"""What a run asks of its workers, be they processes of this computer or those of a cluster."""

import asyncio
import sys
import time
from contextlib import asynccontextmanager
from typing import Any, AsyncIterator, Dict, Generator, Mapping, Optional, Protocol

from .ending import CannotGoOn, CannotVerify
from .options import Options
from .reading import cause_of
from .verdict import Asked

LOOK_SECONDS = 0.05
START_SECONDS = 1.0


class Killed(Exception):
    """The workers that had a batch died, one after another."""


class Answer(Protocol):
    """What a worker is to answer on a batch: a text, or Killed, or what else went wrong."""

    def done(self) -> bool:
        """Whether a worker has answered. (The text may still be on its way.)"""

    def __await__(self) -> Generator[Any, Any, str]:
        """Waits for the text."""


class Workers(Protocol):
    """The workers of a run."""

    @property
    def threads(self) -> Mapping[str, int]:
        """The workers that are there, as was found last, and how many batches each verifies at once."""

    @property
    def known(self) -> Optional[str]:
        """By which name they keep the text of known files, if they do."""

    async def look(self) -> None:
        """Finds which workers are there."""

    def lost(self) -> Optional[str]:
        """Why there are no workers any longer, and none will come, if so."""

    def submit(self, request: str, is_patient: bool) -> Answer:
        """Gives a request of `verify_batch` to a worker. One that is patient holds up no other."""

    async def faults(self, asked: Asked) -> Dict[str, Optional[Exception]]:
        """Why each worker cannot verify what is asked; None if it can."""


def asked_of(options: Options, known: Optional[str]) -> Asked:
    """What a run asks of workers that keep known files by this name."""
    return Asked(
        require=options.require, is_poll=options.poll, is_quoted=not options.unquoted, deadline=options.deadline, known=known,
        max_age=options.max_age if options.unquoted else None, hcrtm=options.hcrtm, old_kernel=options.old_kernel,
        prefix=options.prefix,
    )


@asynccontextmanager
async def connect(options: Options, known: Optional[bytes]) -> AsyncIterator[Workers]:
    """The workers that a run asks for, which keep this text of known files, if there is one."""
    if options.workers is not None:
        from .local import LocalWorkers

        async with LocalWorkers(options.workers, options, known) as processes:
            yield processes
        return
    from .cluster import connect_cluster

    assert options.scheduler is not None
    async with connect_cluster(options.scheduler, options.insecure, known) as cluster:
        yield cluster


async def wait_for_workers(workers: Workers, options: Options) -> None:
    """Waits until a worker is there, and a moment more until all are that this process has started."""
    await workers.look()
    if not workers.threads and options.workers is None:
        print("waiting for a worker", file=sys.stderr, flush=True)
    begun, first = time.monotonic(), None
    while True:
        if workers.threads:
            first = first or time.monotonic()
            if len(workers.threads) >= (options.workers or 1) or time.monotonic() - first > START_SECONDS:
                return
        elif time.monotonic() - begun > options.patience:
            raise CannotGoOn(f"no worker came in {options.patience} seconds")
        lost = workers.lost()
        if lost is not None:
            raise CannotGoOn(lost)
        await asyncio.sleep(LOOK_SECONDS)
        await workers.look()


async def require_fit(workers: Workers, options: Options) -> None:
    """Waits for a worker, and makes sure that those that are there can verify.

    Raises ValueError, as `require_fitness` does, if they take not what is required, or a line of known files."""
    while True:
        await wait_for_workers(workers, options)
        faults = await workers.faults(asked_of(options, workers.known))
        await workers.look()
        for worker, fault in faults.items():
            if isinstance(fault, ValueError):
                raise fault
            if fault is not None and (worker in workers.threads or not isinstance(fault, OSError)):  # of the worker, or of Dask
                raise CannotVerify(f"worker {worker} cannot verify: {cause_of(fault)}")
        if any(fault is None for fault in faults.values()):
            return
