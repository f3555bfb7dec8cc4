"""Ends the filters before the backend for CUPS, where one of them never ends by itself. Only _fax imports this."""

from __future__ import annotations

import contextlib
import os
import signal
from typing import Iterator, List, Optional, Set, Tuple

Pipe = Tuple[int, int]


def end_filters() -> None:
    """Ends those processes of this user that write what this one would read, those that write what they would, and what
    these have started, since a filter may be a script, which waits for the program that never ends. CUPS would wait for
    them, for hours, with the queue."""
    mine = _above(os.getpid())
    found: List[int] = []
    pipes = {it for it in [_pipe(os.getpid(), 0)] if it}
    while True:
        new = [process for process, written in _writers() if process not in mine and process not in found
               and (written & pipes or _above(process) & set(found))]
        if not new:
            break
        # One that is stopped starts no more, and does not see the others end, as by the end of what it reads.
        for process in new:
            _send(process, signal.SIGSTOP)
        pipes |= {it for it in (_pipe(process, 0) for process in new) if it}
        found += new
    for process in found:
        _send(process, signal.SIGKILL)


def _send(process: int, number: int) -> None:
    with contextlib.suppress(ProcessLookupError):
        os.kill(process, number)


def _above(process: int) -> Set[int]:
    """A process, and those that it comes from."""
    found: Set[int] = set()
    while process > 1 and process not in found:
        found.add(process)
        with contextlib.suppress(OSError, ValueError, IndexError), open(f"/proc/{process}/stat", "rb") as file:
            # After the name, in brackets, stand the state and the number of the one above.
            process = int(file.read().rpartition(b")")[2].split()[1])
    return found


def _writers() -> Iterator[Tuple[int, Set[Pipe]]]:
    """The processes of this user, with the pipes that they write into."""
    for name in os.listdir("/proc"):
        with contextlib.suppress(OSError, ValueError):
            if os.stat(f"/proc/{int(name)}").st_uid == os.geteuid():
                numbers = [int(number) for number in os.listdir(f"/proc/{name}/fd")]
                found = {_pipe(int(name), number) for number in numbers if _is_written(int(name), number)}
                yield int(name), {it for it in found if it}


def _pipe(process: int, number: int) -> Optional[Pipe]:
    """What the pipe is known by that a process has open under a number; none where it is no pipe."""
    path = f"/proc/{process}/fd/{number}"
    with contextlib.suppress(OSError):
        if os.readlink(path).startswith("pipe:"):
            told = os.stat(path)
            return told.st_dev, told.st_ino
    return None


def _is_written(process: int, number: int) -> bool:
    """Whether a process may write into what it has open under a number."""
    with contextlib.suppress(OSError, ValueError, IndexError), open(f"/proc/{process}/fdinfo/{number}") as file:
        flags = next(line.split()[1] for line in file if line.startswith("flags:"))
        return int(flags, 8) & os.O_ACCMODE != os.O_RDONLY
    return False
