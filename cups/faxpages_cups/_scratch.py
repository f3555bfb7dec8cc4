"""A folder for temporary files of one process, which the next one takes away if this one is killed."""

from __future__ import annotations

import contextlib
import fcntl
import os
import shutil
import stat
import tempfile
import time
from typing import Iterator

_PREFIX, _LOCK = "faxpages-job-", "lock"
# A folder without a lock is of a process that has just made it, or was killed then: so many seconds ago.
_FRESH = 3600


@contextlib.contextmanager
def scratch() -> Iterator[str]:
    """A new folder. What processes have left that were killed goes first."""
    _sweep(tempfile.gettempdir())
    with tempfile.TemporaryDirectory(prefix=_PREFIX) as folder:
        lock = os.open(os.path.join(folder, _LOCK), os.O_WRONLY | os.O_CREAT | os.O_EXCL | os.O_CLOEXEC, 0o600)
        try:
            fcntl.flock(lock, fcntl.LOCK_EX)
            yield folder
        finally:
            os.close(lock)


def _sweep(place: str) -> None:
    """Takes away the folders of this user's that no process has."""
    with contextlib.suppress(OSError):
        for name in os.listdir(place):
            path = os.path.join(place, name)
            if name.startswith(_PREFIX) and _is_left(path):
                shutil.rmtree(path, ignore_errors=True)


def _is_left(path: str) -> bool:
    """Whether a folder is this user's, and no process has it."""
    try:
        told = os.lstat(path)
        if not stat.S_ISDIR(told.st_mode) or told.st_uid != os.geteuid():
            return False
        lock = os.open(os.path.join(path, _LOCK), os.O_RDONLY | os.O_NOFOLLOW | os.O_CLOEXEC)
    except FileNotFoundError:
        return time.time() - told.st_mtime > _FRESH
    except OSError:
        return False
    try:
        fcntl.flock(lock, fcntl.LOCK_EX | fcntl.LOCK_NB)
        return True
    except OSError:
        return False
    finally:
        os.close(lock)
