"""Interrupts that come to faxpages-archive while it starts: it ends by them, and prints no traceback.

    interrupted.py starts|begins|loads COMMAND

starts: at times from its first instant on, also while Python itself starts. begins: at times from the first instant of
Python on. loads: while it loads modules, as pip's own commands can have it. FAXPAGES_RUNS says how many runs. Ends with status 0 where each run has ended so, and an interrupt has met each kind of time."""

from __future__ import annotations

import os
import signal
import subprocess
import sys
import time
from functools import partial
from typing import Callable

RUNS = int(os.environ.get("FAXPAGES_RUNS", "60"))
# How long Python takes to begin with the command's own lines, and some more.
BEGINS = 0.03
PATIENCE = 900


def maps(process: subprocess.Popen[str]) -> str:
    """What the process has loaded; nothing where it has ended."""
    try:
        with open(f"/proc/{process.pid}/maps", encoding="utf-8", errors="replace") as file:
            return file.read()
    except OSError:
        return ""


def interrupted(command: str, when: Callable[[subprocess.Popen[str]], object]) -> tuple[int, str]:
    """The status of a run that is interrupted at some time, and what it says."""
    process = subprocess.Popen([command, "--help"], stdin=subprocess.DEVNULL, stdout=subprocess.DEVNULL,
                               stderr=subprocess.PIPE, text=True)
    when(process)
    process.send_signal(signal.SIGINT)
    return process.wait(PATIENCE), process.communicate()[1]


def loading(process: subprocess.Popen[str]) -> None:
    """Waits until a module is loaded, before which the command's first line has run."""
    while process.poll() is None and "/_ctypes." not in maps(process):
        pass


def beginning(seconds: float, process: subprocess.Popen[str]) -> None:
    """Waits until the process is Python's, and then for so long."""
    while process.poll() is None and not program_of(process).startswith("python"):
        pass
    time.sleep(seconds)


def program_of(process: subprocess.Popen[str]) -> str:
    """The name of the program that a process runs; nothing where it has ended."""
    try:
        return os.path.basename(os.readlink(f"/proc/{process.pid}/exe"))
    except OSError:
        return ""


def sleeping(seconds: float, _: subprocess.Popen[str]) -> None:
    """Waits for so long."""
    time.sleep(seconds)


def seconds_of(command: str) -> float:
    """How long a whole run takes, the least of three."""
    found = []
    for _ in range(3):
        began = time.monotonic()
        subprocess.run([command, "--help"], stdout=subprocess.DEVNULL, stderr=subprocess.DEVNULL, check=False)
        found.append(time.monotonic() - began)
    return min(found)


def main() -> int:
    way, command = sys.argv[1], os.path.abspath(sys.argv[2])
    whole = seconds_of(command)
    if way == "loads":
        got = [interrupted(command, loading) for _ in range(RUNS)]
    elif way == "begins":
        got = [interrupted(command, partial(beginning, BEGINS * at / RUNS)) for at in range(RUNS)]
    else:
        got = [interrupted(command, partial(sleeping, whole * at / RUNS)) for at in range(RUNS)]
    # One that comes after its end finds it ended; so does one that has nothing to be printed any more.
    wrong = [it for it in got if it not in ((-signal.SIGINT, ""), (0, ""))]
    ended = sum(status == -signal.SIGINT for status, _ in got)
    print(f"{way}: {ended} of {RUNS} runs were ended; wrong: {wrong[:2]}")
    return 1 if wrong or ended < RUNS // 4 else 0


if __name__ == "__main__":
    sys.exit(main())
