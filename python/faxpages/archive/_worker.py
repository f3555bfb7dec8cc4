"""Processes that do the faxes of an archive. Where one dies, or takes too long, its fax has a row that says so, and
another goes on.

A worker loads this very package and nothing else but Python's own modules, whatever the current folder and the
variables of Python name. It ends by itself when the process that started it has ended, however that ended."""

from __future__ import annotations

import os
import pickle
import select
import signal
import subprocess
import sys
import threading
import time
from multiprocessing.connection import Connection, Pipe
from typing import Any, List, Optional, Tuple

from ._fax import Done, Found, Job, NoWorker, Waiting, not_read
from ._files import Seen, Stood

# The seconds in which a worker has to start, also on a machine that has much else to do, since one that fails ends at
# once; and in which one that is killed has to end.
_START, _END = 900.0, 2.0
# How long a worker is waited for at a time, where a fax may not take longer than so much.
_SLICE = 0.1
# After so many seconds a batch is handed back with what is done of it.
_BATCH = 0.5
_CODE = """
import importlib.util, sys
spec = importlib.util.spec_from_file_location("faxpages", sys.argv[1])
sys.modules["faxpages"] = module = importlib.util.module_from_spec(spec)
spec.loader.exec_module(module)
from faxpages.archive import _worker
_worker.main(int(sys.argv[2]))
"""


class Worker:
    """A process that does faxes, started where the first one comes. It is for one thread."""

    def __init__(self, job: Job, timeout: Optional[float]) -> None:
        self._job, self._timeout = job, timeout
        self._process: "Optional[subprocess.Popen[bytes]]" = None
        self._pipe: Optional[Connection] = None

    def run(self, batch: List[Waiting]) -> List[Done]:
        """What came of these faxes, or of the first ones of them, where they take long. A fax that took too long is
        not tried again; one whose worker died is, once."""
        found: List[Done] = []
        tried = 0
        until = time.monotonic() + _BATCH
        while len(found) < len(batch) and (not found or time.monotonic() < until):
            left = batch[len(found):]
            got, ended = self._some(left, until)
            found += got
            if ended:
                late = self._end()
                tried = 1 if got else tried + 1
                if late or tried > 1:
                    fault = "Timeout" if late else "WorkerDied"
                    found.append(Done(not_read(left[len(got)], fault, seconds=self._timeout if late else None)))
                    tried = 0
        return found

    def close(self) -> None:
        """Ends the process, which has nothing to do."""
        if self._process is not None and self._pipe is not None:
            self._pipe.close()
            try:
                self._process.wait(_END)
            except subprocess.TimeoutExpired:
                self._process.kill()
        self._process = self._pipe = None

    def _some(self, batch: List[Waiting], until: float) -> Tuple[List[Done], bool]:
        """What came of these faxes up to the end of the time, or to the one whose worker died or was too slow; and
        whether one was."""
        pipe = self._started()
        got: List[Done] = []
        try:
            _put(pipe, ([tuple(fax) for fax in batch], until - time.monotonic()))
            for _ in batch:
                if not self._answers(pipe):
                    return got, True
                done = _take(pipe)
                if done is None:
                    return got, False
                got.append(unpacked(done))
        except (EOFError, OSError):
            return got, True
        return got, False

    def _answers(self, pipe: Connection) -> bool:
        """Whether an answer, or an end, comes in time. Time in which this process or the worker is stopped does not
        count, so that no fax is called slow which nobody was reading."""
        if self._timeout is None:
            return True  # who takes the answer waits for it
        left = self._timeout
        while True:
            wait = min(_SLICE, max(left, 0.001))
            if pipe.poll(wait):
                return True
            left -= 0 if self._is_stopped() else wait
            if left <= 0:
                return pipe.poll(0)

    def _is_stopped(self) -> bool:
        """Whether the worker is stopped by a signal."""
        try:
            with open(f"/proc/{self._process.pid if self._process else 0}/stat", "rb") as file:
                return file.read().rpartition(b") ")[2][:1] in (b"T", b"t")
        except OSError:
            return False

    def _started(self) -> Connection:
        """The way to the process, which is ready."""
        if self._pipe is not None:
            return self._pipe
        pipe, its = Pipe()
        package = os.path.join(os.path.dirname(os.path.dirname(os.path.abspath(__file__))), "__init__.py")
        with its:
            self._process = subprocess.Popen(
                [sys.executable, "-I", "-c", _CODE, package, str(its.fileno())], stdin=subprocess.DEVNULL,
                pass_fds=[its.fileno()])
        self._pipe = pipe
        try:
            _put(pipe, self._job)
            if pipe.poll(_START) and _take(pipe):
                return pipe
        except (EOFError, OSError):
            pass
        self._end()
        raise NoWorker("a worker cannot be started")

    def _end(self) -> bool:
        """Ends the process; whether it was still at work."""
        process, pipe = self._process, self._pipe
        self._process = self._pipe = None
        if process is None or pipe is None:
            return False
        late = not _closed(pipe)
        pipe.close()
        process.kill()
        try:
            process.wait(_END)
        except subprocess.TimeoutExpired:  # it waits for a disk that does not answer
            pass
        return late


def packed(done: Done) -> Tuple[Any, ...]:
    """What came of a fax as plain tuples, which are pickled in a third of the time."""
    return tuple(tuple(it) if isinstance(it, tuple) else it for it in done)


def unpacked(told: Tuple[Any, ...]) -> Done:
    """What came of a fax, of plain tuples."""
    found, copy, fields, seen, copy_seen, fields_seen, digest = told
    return Done(Found._make(found), copy and Stood._make(copy), fields and Stood._make(fields),
                seen and Seen._make(seen), copy_seen and Seen._make(copy_seen),
                fields_seen and Seen._make(fields_seen), digest)


def _put(pipe: Connection, value: Any) -> None:
    """Sends a value by pickle's own code: that of multiprocessing knows more, and takes three times as long."""
    pipe.send_bytes(pickle.dumps(value, pickle.HIGHEST_PROTOCOL))


def _take(pipe: Connection) -> Any:
    """The next value that is sent."""
    return pickle.loads(pipe.recv_bytes())


def _closed(pipe: Connection) -> bool:
    """Whether the other end of a pipe is closed, so that the process has died by itself."""
    try:
        return pipe.poll(0) and not pipe.recv_bytes()
    except (EOFError, OSError):
        return True


def _end_with(pipe: Connection) -> None:
    """Ends this process as soon as nobody holds the other end, whatever it is waiting for."""
    watched = select.poll()
    watched.register(pipe.fileno(), 0)
    watched.poll()
    os._exit(0)


def _serve(pipe: Connection) -> None:
    """Takes the job, and then faxes, until nobody asks any more."""
    job: Job = _take(pipe)
    _put(pipe, True)
    while True:
        asked: Tuple[List[Tuple[Any, ...]], float] = _take(pipe)
        batch, seconds = asked
        until = time.monotonic() + seconds
        for number, fax in enumerate(batch):
            if number and time.monotonic() > until:
                _put(pipe, None)
                break
            _put(pipe, packed(job.do(Waiting._make(fax))))


def main(number: int) -> None:
    """A worker, which is asked by this open file."""
    # A terminal and Slurm send these to all processes: the one that started this one says what comes of them.
    for ignored in (signal.SIGINT, signal.SIGTERM, signal.SIGHUP):
        signal.signal(ignored, signal.SIG_IGN)
    pipe = Connection(number)
    threading.Thread(target=_end_with, args=(pipe,), daemon=True).start()
    try:
        _serve(pipe)
    except (EOFError, BrokenPipeError, ConnectionResetError):
        pass
