"""Dask for the drawn operator: the Python that has it, and a scheduler with two workers."""

import contextlib
import functools
import os
import sys
from typing import List, Optional

from tests.archive import engines, room
from tests.waiting import wait_for

import faxpages

MODULE = os.path.dirname(os.path.dirname(os.path.abspath(faxpages.__file__)))


@functools.lru_cache(maxsize=None)
def python() -> Optional[str]:
    """The Python that has Dask, or None, which is said once."""
    found = next(filter(room.has_dask, dict.fromkeys([sys.executable, "/usr/bin/python3"])), None)
    if found is None:
        print("SKIPPED: Dask (python3-distributed) is not installed, so: no episode runs by it", flush=True)
    return found


class Cluster:
    """A scheduler with two workers, which are started where the first run needs them."""

    def __init__(self, folder: str) -> None:
        self._folder = folder
        self._stack = contextlib.ExitStack()
        self._address: Optional[str] = None
        self.dask, self.library = python(), os.environ["FAXPAGES_LIBRARY"]

    def __call__(self, name: str) -> str:
        return os.path.join(self._folder, name)

    def address(self) -> str:
        """The address of the scheduler."""
        if self._address is None:
            os.makedirs(self._folder, exist_ok=True)
            self._address = self._stack.enter_context(
                engines.scheduler(self, PYTHONPATH=MODULE, CLUSTER=self._folder))
        return self._address

    def end(self) -> None:
        """Ends it, and waits until none of its workers does a fax any more."""
        self._stack.close()
        if not wait_for(lambda: not started_for(self._folder)):
            raise RuntimeError(f"workers of Dask are left: {started_for(self._folder)}")
        with contextlib.suppress(FileNotFoundError):
            os.unlink(self("scheduler.json"))
        self._address = None


def started_for(folder: str) -> List[int]:
    """The processes of the cluster of a folder, and those that they have started."""
    found = []
    for process in filter(str.isdecimal, os.listdir("/proc")):
        with contextlib.suppress(OSError), open(f"/proc/{process}/environ", "rb") as file:
            if f"CLUSTER={folder}".encode() in file.read().split(b"\0"):
                found.append(int(process))
    return found
