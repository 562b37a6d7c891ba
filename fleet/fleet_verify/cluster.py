"""The workers of a cluster, which a scheduler of Dask has."""

import dataclasses
import logging
import re
import sys
import uuid
from contextlib import asynccontextmanager, suppress
from typing import Any, AsyncIterator, Dict, Generator, Optional

from .ending import NotStarted
from .verdict import Asked, require_fitness
from .versions import misfits, require_version
from .work import TRIES, has_many_left, verify_batch
from .workers import Killed

# What Dask is told in this process. Its clocks go off seldom.
SETTINGS = {
    "distributed.worker.profile.enabled": False,
    "distributed.admin.tick.interval": "1s",
    "distributed.admin.system-monitor.interval": "10s",
    "distributed.comm.compression": None,
    # (for each submission Dask would look up the text of the code that called it, which takes longer than the rest)
    "distributed.diagnostics.computations.ignore-modules": [".*"],
}
ENCRYPTED = re.compile(r"(tls|wss)://")


def kept_text(name: Optional[str]) -> Optional[bytes]:
    """The text of known files that this worker keeps by that name, as an extension of Dask, if there is one."""
    if name is None:
        return None
    from distributed import get_worker

    text: bytes = get_worker().plugins[name].text
    return text


def require_fit_worker(told: Dict[str, Any]) -> None:
    """What `require_fitness` makes sure of in a worker, which is told what is asked as it needs no module for it."""
    asked = Asked(**told)
    require_fitness(asked.require, asked.is_poll, kept_text(asked.known), asked.is_quoted)


def verify_on_worker(request: str, known: Optional[str], is_patient: bool) -> str:
    """What `verify_batch` answers, by a worker that keeps known files by this name. A patient request leaves its place to another. A worker with
    many threads that are left has its nanny, if there is one, start it anew."""
    from distributed import get_worker, secede

    worker, text = get_worker(), kept_text(known)
    if is_patient:
        secede()
    told = verify_batch(request, worker.address, text)
    if worker.nanny and has_many_left():
        worker.loop.add_callback(worker.close_gracefully, restart=True)
    return told


class ClusterAnswer:
    """What Dask has of a request."""

    def __init__(self, future: Any):
        self.future = future

    def done(self) -> bool:
        return bool(self.future.done())

    def __await__(self) -> Generator[Any, Any, str]:
        from distributed import KilledWorker

        try:
            text: str = yield from self.future.__await__()
        except KilledWorker as fault:
            if self.future.status == "error":
                raise Killed from None
            raise RuntimeError(str(fault)) from None
        return text


class ClusterWorkers:
    """A client of a scheduler, and the workers that this has, as it told last."""

    def __init__(self, client: Any):
        self.client = client
        self.threads: Dict[str, int] = {}
        self.known: Optional[str] = None
        self._name, self._count = f"verify-{uuid.uuid4().hex}", 0

    async def look(self) -> None:
        self.threads = dict(await self.client.nthreads())

    def lost(self) -> Optional[str]:
        return None

    def submit(self, request: str, is_patient: bool) -> ClusterAnswer:
        self._count += 1
        words = verify_on_worker, request, self.known, is_patient
        return ClusterAnswer(self.client.submit(*words, key=f"{self._name}-{self._count}", retries=TRIES - 1, pure=False))

    async def faults(self, asked: Asked) -> Dict[str, Optional[Exception]]:
        others: Dict[str, Optional[Exception]] = misfits(await self.client.get_versions())
        return others or dict(await self.client.run(require_fit_worker, dataclasses.asdict(asked), on_error="return"))

    @asynccontextmanager
    async def keeping(self, text: Optional[bytes]) -> "AsyncIterator[None]":
        """Has each worker keep the text of known files meanwhile, if there is one: it is given to them once, and to a later one when it comes,
        before its first batch."""
        if text is None:
            yield
            return
        from distributed import WorkerPlugin

        plugin, name = WorkerPlugin(), f"known-{uuid.uuid4().hex}"
        plugin.text = text
        try:
            await self.client.register_worker_plugin(plugin, name=name)
            self.known = name
            yield
        finally:
            self.known = None
            with suppress(Exception):  # (a scheduler that is gone keeps nothing)
                await self.client.unregister_worker_plugin(name)


def send_whole() -> None:
    """Has Dask send the functions of this package whole, and not by their names: its workers need no file of this package."""
    import cloudpickle

    package = __package__ or ""
    for module in [each for name, each in sys.modules.items() if name == package or name.startswith(f"{package}.")]:
        cloudpickle.register_pickle_by_value(module)


def prepare(is_encrypted: bool) -> None:
    """Tells Dask, which is not loaded yet, what it is told. It writes nothing to standard error: a run says itself why it stops."""
    import dask

    logging.disable(logging.CRITICAL)  # (levels would not do: Dask sets one for each of its parts)
    dask.config.set(SETTINGS)
    dask.config.set({"distributed.comm.require-encryption": is_encrypted})
    if is_encrypted and not dask.config.get("distributed.comm.tls.ca-file", None):
        raise NotStarted("an address by TLS needs certificates, which the setting distributed.comm.tls of Dask names")
    send_whole()


@asynccontextmanager
async def opened(client: Any) -> AsyncIterator[Any]:
    """A client, which is closed in the end, also if a signal comes before it has reached its scheduler."""
    try:
        yield await client
    finally:
        await client.close()


@asynccontextmanager
async def connect_cluster(address: str, is_insecure: bool, known: Optional[bytes]) -> AsyncIterator[ClusterWorkers]:
    """The workers of the scheduler at this address, which keep this text of known files, if there is one."""
    is_encrypted = ENCRYPTED.match(address) is not None
    if not is_encrypted and not is_insecure:
        raise NotStarted(f"{address}: whoever reaches such a port can run code there: take tls://, or say --insecure")
    try:
        require_version()
        prepare(is_encrypted)
        from distributed import Client
    except ImportError as fault:
        raise NotStarted(f"--scheduler needs the package distributed: {fault}") from None
    async with opened(Client(address, asynchronous=True)) as client:
        workers = ClusterWorkers(client)
        async with workers.keeping(known):
            yield workers
