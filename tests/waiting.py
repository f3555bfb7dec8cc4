"""Waits for events in tests, and finds what runs in a folder."""

from __future__ import annotations

import contextlib
import os
import time
from typing import Callable

# The end of each wait for an event, in seconds: no machine is so loaded.
PATIENCE = 900


def wait_for(holds: Callable[[], object], seconds: float = PATIENCE) -> bool:
    """Waits until something holds; whether it does in the end."""
    until = time.monotonic() + seconds
    while not holds():
        if time.monotonic() > until:
            return False
        time.sleep(0.02)
    return True


def there_in(folder: str) -> list[int]:
    """The processes that run in a folder, or below it."""
    found = []
    for process in filter(str.isdecimal, os.listdir("/proc")):
        with contextlib.suppress(OSError):
            if f"{os.readlink(f'/proc/{process}/cwd')}/".startswith(f"{folder}/"):
                found.append(int(process))
    return found


def left_of(leader: int) -> list[int]:
    """The processes of a session that have not ended."""
    found = []
    for process in filter(str.isdecimal, os.listdir("/proc")):
        with contextlib.suppress(OSError):
            with open(f"/proc/{process}/stat", "rb") as file:
                state, _, _, session = file.read().rpartition(b") ")[2].split()[:4]
            if int(session) == leader and state not in (b"Z", b"X"):
                found.append(int(process))
    return found
