"""Has the workers of an archive break: each fax whose last bytes ask for it, by what BROKEN says. For tests
alone, which add it to a copy of the module (Room.broken)."""

from __future__ import annotations

import contextlib
import os
import signal
import sqlite3
import time
from typing import Callable

import faxpages

WAYS = os.environ.get("BROKEN", "").split()
check = faxpages.check
convert: Callable[..., bytes] = faxpages.convert


def wait_at_gate() -> None:
    """Notes a fax in the file GATE, and waits as long as that file is there with more of them than AFTER says."""
    try:
        gate = os.open(os.environ["GATE"], os.O_WRONLY | os.O_APPEND)
        os.write(gate, b".")
        os.close(gate)
        while os.path.getsize(os.environ["GATE"]) > int(os.environ["AFTER"]):
            time.sleep(0.02)
    except FileNotFoundError:
        pass


def note_nap() -> None:
    """Notes in the file NAPS which process begins to sleep, and how many rows the table TABLE has by then."""
    with contextlib.closing(sqlite3.connect(f"file:{os.environ['TABLE']}?mode=ro", uri=True)) as base:
        rows = base.execute("SELECT count(*) FROM faxes").fetchone()[0]
    with open(os.environ["NAPS"], "a", encoding="ascii") as file:
        file.write(f"{os.getpid()} {rows}\n")


def broken_check(data: bytes) -> faxpages.Report:
    if "slow" in WAYS:
        time.sleep(0.004)
    if "stops" in WAYS:
        wait_at_gate()
    if "naps" in WAYS and data.endswith(b"naps"):
        if "NAPS" in os.environ:
            note_nap()
        time.sleep(3)
    if "dies" in WAYS and data.endswith(b"dies"):
        os.kill(os.getpid(), signal.SIGSEGV)
    if "raises" in WAYS and data.endswith(b"raises"):
        raise RuntimeError("broken for a test")
    if "hangs" in WAYS and data.endswith(b"hangs"):
        if "MARK" in os.environ:
            os.close(os.open(os.environ["MARK"], os.O_CREAT))
        time.sleep(1000)
    if "memory" in WAYS and data.endswith(b"memory"):
        raise MemoryError
    return check(data)


def broken_convert(data: bytes, *words: str) -> bytes:
    """A row less, or more, of some faxes."""
    if "lies" in WAYS and data.endswith(b"lies"):
        with open(os.environ["OTHER"], "rb") as other:
            data = other.read()
    return convert(data, *words)


if WAYS:
    setattr(faxpages, "check", broken_check)
    setattr(faxpages, "convert", broken_convert)
if "minutes" in WAYS:
    import faxpages.archive._progress

    faxpages.archive._progress._MINUTE = 0.2
