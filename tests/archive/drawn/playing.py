"""Runs faxpages-archive in a forked process, whose calls of the system can be ended, refused, or have something happen
amid them."""

from __future__ import annotations

import contextlib
import errno
import importlib
import io
import os
import random
import resource
import signal
import sys
import time
import traceback
from typing import Callable, Iterator, List, NamedTuple, Optional, Tuple

from tests.waiting import PATIENCE

# The calls that change something on the disk: where one is made a run may be killed, or be refused it.
CALLS = ["open", "mkdir", "link", "replace", "unlink", "fsync", "utime", "fchmod", "setxattr", "removexattr", "write",
         "dup", "stat", "getxattr"]
OTHER = 65534
# A run by the Python that has Dask, which this process is not: how far the clock jumps, the module, and the words. The
# clock jumps for the table alone, since Dask waits by it. What came while Python started ends it now, as it would a
# moment later, and not with Python's own KeyboardInterrupt.
_BY_DASK = """
import signal, sys, time, types
signal.signal(signal.SIGINT, signal.SIG_DFL)
signal.pthread_sigmask(signal.SIG_UNBLOCK, [signal.SIGINT])
sys.path.insert(0, sys.argv[2])
from faxpages import archive
from faxpages.archive import _table
jump = float(sys.argv[1])
_table.time = types.SimpleNamespace(time=lambda: time.time() + jump, monotonic=time.monotonic)
sys.exit(archive.main(sys.argv[3:]))
"""


class Event(NamedTuple):
    """A file that comes, or changes, amid a run: in place of what stands there, or only where nothing does."""

    path: bytes
    data: bytes
    replaces: bool

    def __repr__(self) -> str:
        return f"Event({self.path!r}, {len(self.data)} bytes, {self.replaces})"

    def happen(self, room: str) -> None:
        """Has it be so, and says in the file amid that it is."""
        if not self.replaces and os.path.lexists(self.path):
            return
        try:
            with open(self.path + b".new", "wb") as file:
                file.write(self.data)
            os.replace(self.path + b".new", self.path)
        except OSError:
            return
        with open(os.path.join(room, "amid"), "wb"):
            pass


class Trouble(NamedTuple):
    """What happens amid a run: at which call, what; how large a file may be; whether the clock jumps; and who runs."""

    at: int = 0
    kill: Optional[int] = None
    error: Optional[int] = None
    event: Optional[Event] = None
    largest: Optional[int] = None
    clock: float = 0.0
    other_user: bool = False


class Engine(NamedTuple):
    """What does the faxes: its words, none for this very process; the Python that has Dask, where it is for that; and
    within how many seconds a signal comes."""

    words: Tuple[str, ...] = ()
    python: Optional[str] = None
    seconds: float = 0.5


INLINE = Engine()


class Ran(NamedTuple):
    """How a run ended."""

    status: int
    out: str
    error: str


def _hook(trouble: Trouble, room: str) -> None:
    """Counts the calls, and has the trouble come at one of them."""
    seen = [0]

    def wrapped(call: Callable[..., object]) -> Callable[..., object]:
        def instead(*words: object, **more: object) -> object:
            seen[0] += 1
            if seen[0] == trouble.at:
                if trouble.kill is not None:
                    os.kill(os.getpid(), trouble.kill)
                elif trouble.error is not None:
                    raise OSError(trouble.error, os.strerror(trouble.error))
                elif trouble.event is not None:
                    trouble.event.happen(room)
            return call(*words, **more)
        return instead

    class Hooked:
        """os, as the modules that change files see it."""

        def __getattr__(self, name: str) -> object:
            found = getattr(os, name)
            return wrapped(found) if name in CALLS else found

    import faxpages.archive._files as files
    import faxpages.archive._marks as marks
    import faxpages.archive._renewing as renewing

    hooked = Hooked()
    for module in (files, marks, renewing):
        setattr(module, "os", hooked)


def _inline() -> None:
    """Has faxes be done in this very process, which is fast."""
    import faxpages.archive._engine as engine
    from faxpages.archive import _fax

    def by_this(job: _fax.Job, _timeout: object, batches: engine.Batches,
                _count: object) -> Iterator[list[_fax.Done]]:
        while True:
            batch = batches.next()
            if batch is None:
                return
            done = [job.do(fax) for fax in batch]
            batches.measured(done)
            yield done

    setattr(engine, "by_processes", by_this)


class Started:
    """A run of the command in a forked process; where it is by workers, what kills it comes at some time."""

    def __init__(self, words: List[str], room: str, trouble: Trouble, engine: Engine = INLINE,
                 rng: Optional[random.Random] = None, name: str = "") -> None:
        self._names = [os.path.join(room, kind + name) for kind in ("out", "error")]
        with contextlib.suppress(FileNotFoundError):
            os.unlink(os.path.join(room, "amid"))
        # Where it is killed before it says anything, it has said nothing.
        for said in self._names:
            open(said, "wb").close()
        # The child has an interrupt wait until it is ready for one.
        signal.pthread_sigmask(signal.SIG_BLOCK, [signal.SIGINT])
        self._process = os.fork()
        if not self._process:
            _child([*words, *engine.words], room, self._names, trouble, engine)
        signal.pthread_sigmask(signal.SIG_UNBLOCK, [signal.SIGINT])
        if engine.words and rng is not None and trouble.kill is not None:
            time.sleep(rng.random() * engine.seconds)
            os.kill(self._process, trouble.kill)

    def ended(self) -> Ran:
        """How it ended."""
        _, status = os.waitpid(self._process, 0)
        texts = []
        for name in self._names:
            with open(name, encoding="utf-8", errors="surrogateescape", newline="") as file:
                texts.append(file.read())
        return Ran(os.waitstatus_to_exitcode(status), *texts)


def run(words: List[str], room: str, trouble: Trouble, engine: Engine = INLINE,
        rng: Optional[random.Random] = None) -> Ran:
    """Runs the command to its end."""
    return Started(words, room, trouble, engine, rng).ended()


def _child(words: List[str], room: str, names: List[str], trouble: Trouble, engine: Engine) -> None:
    try:
        for number, name in enumerate(names, 1):
            opened = os.open(name, os.O_WRONLY)
            os.dup2(opened, number)
            os.close(opened)
        sys.stdout = io.TextIOWrapper(io.FileIO(1, "w", closefd=False), "utf-8", "surrogateescape", write_through=True)
        sys.stderr = io.TextIOWrapper(io.FileIO(2, "w", closefd=False), "utf-8",
                                      "backslashreplace", write_through=True)
        os.chdir(room)
        signal.alarm(PATIENCE)
        # What the command loads only where it needs it another user may not read.
        for name in ("csv", *(f"faxpages.archive._{it}" for it in ("engine", "merge", "verify", "renewing"))):
            importlib.import_module(name)
        if trouble.other_user:
            os.setgroups([])
            os.setgid(OTHER)
            os.setuid(OTHER)
        if not engine.words:
            _inline()
        if trouble.at and not engine.words:
            _hook(trouble, room)
        if trouble.largest is not None:
            resource.setrlimit(resource.RLIMIT_FSIZE, (trouble.largest, trouble.largest))
        _main(words, trouble.clock, engine)
    except SystemExit as ended:
        os._exit(ended.code if isinstance(ended.code, int) else 99)
    except BaseException:
        traceback.print_exc()
        os._exit(98)


def _main(words: List[str], clock: float, engine: Engine) -> None:
    """Is the command, and ends as it does."""
    from faxpages import archive

    if engine.python is not None:
        module = os.path.dirname(os.path.dirname(os.path.dirname(os.path.abspath(archive.__file__))))
        # By this all that it starts is known as the cluster's.
        os.environ["CLUSTER"] = os.path.join(os.getcwd(), "dask")
        os.execv(engine.python, [engine.python, "-I", "-c", _BY_DASK, str(clock), module, *words])
    signal.signal(signal.SIGINT, signal.SIG_DFL)
    signal.pthread_sigmask(signal.SIG_UNBLOCK, [signal.SIGINT])
    now = time.time
    if clock:
        time.time = lambda: now() + clock
    code = archive.main(words)
    sys.stdout.flush()
    os._exit(code)


def drawn_trouble(rng: random.Random) -> Trouble:
    """Mostly none."""
    way = rng.random()
    at = int(1 + rng.expovariate(1 / 25))
    clock = rng.choice([0.0, 0.0, 0.0, 4e8, -4e8])
    if way < 0.15:
        return Trouble(at, kill=rng.choice(
            [signal.SIGKILL, signal.SIGKILL, signal.SIGTERM, signal.SIGINT]), clock=clock)
    if way < 0.22:
        return Trouble(at, error=rng.choice([errno.ENOSPC, errno.EIO, errno.EACCES]), clock=clock)
    if way < 0.28:
        # A table has some 60,000 bytes at first.
        return Trouble(largest=rng.choice([200, 1000, 60000, 65000, 70000, 80000]), clock=clock)
    return Trouble(clock=clock)
