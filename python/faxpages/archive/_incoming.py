"""Whether a fax is still coming in, so that nobody takes it away: it changed within the last minute, or another program
has it open to write, or has locked it. The scripts have the same rule, incoming in recipes/faxpages-shared.sh."""

from __future__ import annotations

import contextlib
import fcntl
import os
import signal
import time
from typing import Iterator, List, Optional, Set, Tuple

YOUNG = "Young: it changed within the last minute"
IN_USE = "InUse: another program has it open to write, or has locked it"
_MINUTE = 60.0
# The flags of an open file that say whether it is open to write.
_ACCESS = os.O_WRONLY | os.O_RDWR
# For so many seconds a list of what is open to write is good: what is written later is young.
_FRESH = 1.0


def why_incoming(file: int) -> Optional[str]:
    """Why a file that is open may still be coming in; None where it is not. A time of change that is less than a minute
    in the future is one of the last minute too, by the clock of another machine."""
    if abs(time.time() - os.fstat(file).st_mtime) < _MINUTE:
        return YOUNG
    return IN_USE if _is_locked(file) or _has_writer(file) else None


def _is_locked(file: int) -> bool:
    """Whether another program has locked a file for itself, as those of HylaFAX do."""
    try:
        fcntl.flock(file, fcntl.LOCK_SH | fcntl.LOCK_NB)
        fcntl.flock(file, fcntl.LOCK_UN)
    except BlockingIOError:
        return True
    except OSError:  # a file system without locks
        pass
    return False


def _has_writer(file: int) -> bool:
    """Whether another program has a file open to write: then the system grants no lease. Where this user may have none,
    or the file system has none, the open files of all processes are looked at that may be."""
    try:
        # Where a writer comes just then this signal says so, and it ends nothing.
        fcntl.fcntl(file, fcntl.F_SETSIG, signal.SIGURG)
        fcntl.fcntl(file, fcntl.F_SETLEASE, fcntl.F_RDLCK)
    except BlockingIOError:
        return True
    except OSError:
        told = os.fstat(file)
        return (told.st_dev, told.st_ino) in _written.files()
    fcntl.fcntl(file, fcntl.F_SETLEASE, fcntl.F_UNLCK)
    return False


class _Written:
    """The files that processes have open to write."""

    def __init__(self) -> None:
        self._files: Set[Tuple[int, int]] = set()
        self._until = 0.0

    def files(self) -> Set[Tuple[int, int]]:
        """The devices and numbers of these files."""
        if time.monotonic() >= self._until:
            self._files = set(_open_to_write())
            self._until = time.monotonic() + _FRESH
        return self._files


_written = _Written()


def _open_to_write() -> Iterator[Tuple[int, int]]:
    """The files that processes have open to write, as far as this user may see them."""
    for process in filter(str.isdecimal, _names("/proc")):
        for number in _names(f"/proc/{process}/fd"):
            # It may be closed meanwhile.
            with contextlib.suppress(OSError, IndexError, ValueError):
                with open(f"/proc/{process}/fdinfo/{number}", encoding="ascii") as file:
                    flags = int(file.read().partition("flags:")[2].split()[0], 8)
                if flags & _ACCESS:
                    told = os.stat(f"/proc/{process}/fd/{number}")
                    yield told.st_dev, told.st_ino


def _names(folder: str) -> List[str]:
    try:
        return os.listdir(folder)
    except OSError:
        return []
