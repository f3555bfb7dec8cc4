"""What runs the workers of an archive: threads of concurrent.futures here, or Dask."""

from __future__ import annotations

import importlib
import logging
import os
import pickle
import threading
from concurrent.futures import FIRST_COMPLETED, Executor, Future, ThreadPoolExecutor, wait
from typing import Any, Callable, Dict, Iterator, List, Optional, Tuple

from ._fax import Done, Job, NoEngine, NoWorker, Waiting
from ._worker import Worker, packed, unpacked

# Every so many seconds the run has its turn, whether something has come or not.
_TURN = 1.0


class Batches:
    """The faxes that are due, some at a time: as many as are done in half a second, by what was measured so far."""

    _SECONDS, _MOST, _FIRST = 0.5, 64, 4

    def __init__(self, take: Callable[[int], List[Waiting]]) -> None:
        self._take = take
        self._left: List[Waiting] = []
        self._each: Optional[float] = None

    def next(self) -> Optional[List[Waiting]]:
        """Some faxes, or None where no more are due."""
        count = self._FIRST if self._each is None else int(self._SECONDS / max(self._each, 1e-6))
        count = min(self._MOST, max(1, count))
        if not self._left:
            return self._take(count) or None
        batch, self._left = self._left[:count], self._left[count:]
        return batch

    def hand_back(self, faxes: List[Waiting]) -> None:
        """Takes back what was not done in time."""
        self._left += faxes

    def measured(self, done: List[Done]) -> None:
        """Learns how long faxes take, the last ones most."""
        for one in done:
            seconds = one.found.seconds or 0.0
            self._each = seconds if self._each is None else 0.9 * self._each + 0.1 * seconds


class _Kept(threading.local):
    """The worker of a thread."""

    def __init__(self) -> None:
        super().__init__()
        self.told: "Optional[Tuple[Job, Optional[float]]]" = None
        self.worker: Optional[Worker] = None


_kept = _Kept()
# All workers of this process.
_workers: List[Worker] = []


def run_batch(job: Job, timeout: Optional[float], batch: List[Waiting]) -> List[Done]:
    """What came of these faxes, or of the first ones of them, by the worker of this thread."""
    if _kept.worker is None or _kept.told != (job, timeout):
        _kept.told, _kept.worker = (job, timeout), Worker(job, timeout)
        _workers.append(_kept.worker)
    return _kept.worker.run(batch)


def run_packed(job: Job, timeout: Optional[float], batch: bytes) -> bytes:
    """The same by bytes, into which Dask does not look."""
    done = run_batch(job, timeout, [Waiting._make(fax) for fax in pickle.loads(batch)])
    return pickle.dumps([packed(one) for one in done])


Run = Callable[[List[Waiting]], "Future[Any]"]


def _made(done: Any) -> List[Done]:
    """What came of some faxes, of what an engine has handed back."""
    if isinstance(done, bytes):
        return [unpacked(it) for it in pickle.loads(done)]
    return list(done)


def _done(run: Run, batches: Batches, most: int) -> Iterator[List[Done]]:
    """What came of all batches, as it comes, and nothing each time that nothing came within a turn. Never more than so
    many batches are with the engine."""
    pending: Dict["Future[Any]", List[Waiting]] = {}
    while True:
        batch = batches.next() if len(pending) < most else None
        if batch is not None:
            pending[run(batch)] = batch
            continue
        if not pending:
            return
        ended, _ = wait(pending, _TURN, FIRST_COMPLETED)
        found: List[Done] = []
        for one in ended:
            done, asked = _made(one.result()), pending.pop(one)
            batches.hand_back(asked[len(done):])
            found += done
        batches.measured(found)
        yield found


def by_processes(job: Job, timeout: Optional[float], batches: Batches, count: int) -> Iterator[List[Done]]:
    """By so many workers of this machine, each led by a thread."""
    pool = ThreadPoolExecutor(count)
    try:
        yield from _done(lambda batch: pool.submit(run_batch, job, timeout, batch), batches, 2 * count)
        # What they took of the processor counts as that of this process once they have ended.
        for worker in _workers:
            worker.close()
        _workers.clear()
    finally:
        pool.shutdown(wait=False)


def by_dask(job: Job, timeout: Optional[float], batches: Batches, address: Optional[str],
            count: Optional[int]) -> Iterator[List[Done]]:
    """By Dask: on the scheduler at this address, or on a cluster of this machine with so many processes."""
    # It takes as long to load as a hundred faxes to check, and all other engines do without it.
    import asyncio

    try:
        distributed: Any = importlib.import_module("distributed")
    except ImportError:
        raise NoEngine("Dask is not installed: Debian has it as python3-distributed") from None
    # What it has to say is told in one line.
    for name in ("distributed", "tornado", "asyncio"):
        logging.getLogger(name).setLevel(logging.CRITICAL + 1)
    try:
        with _client(distributed, address, count) as client:
            pool: Executor = client.get_executor(pure=False)
            threads = sum(client.nthreads().values())
            if not threads:
                raise NoEngine("Dask has no worker")
            yield from _done(
                lambda batch: pool.submit(run_packed, job, timeout, pickle.dumps([tuple(fax) for fax in batch])),
                batches, 4 * threads)
    except (NoEngine, NoWorker, GeneratorExit):
        raise
    except (Exception, asyncio.CancelledError) as error:
        raise NoEngine(f"Dask: {type(error).__name__}: {str(error).partition(chr(10))[0]}") from None


def _client(distributed: Any, address: Optional[str], count: Optional[int]) -> Any:
    """A client of Dask. Each process of a local cluster has one thread, and no page that shows it, and takes no module
    from the current folder."""
    if address is not None:
        return distributed.Client(address)
    os.environ["PYTHONSAFEPATH"] = "1"
    os.chdir("/")
    return distributed.Client(n_workers=count, threads_per_worker=1, dashboard_address=None)
