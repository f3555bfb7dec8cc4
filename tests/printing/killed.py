"""The backend's folder, with a process killed, cancelled or out of room at each call of the system in turn, for
operated.py:

    killed.py FOLDER

What was killed is begun again, also after somebody has taken the fax; a job in doubt is looked at, as its message
says. Each fax is handed on once. Prints a line for each that is not, and at last how many were tried and how many were
in doubt."""

from __future__ import annotations

import errno
import itertools
import os
import signal
import sys
from typing import Callable

from faxpages_cups import _job, _spool

CALLS = ["open", "link", "rename", "unlink", "fsync", "mkdir", "fchmod", "close"]
# Calls for which a disk has no room; others free some, or need none.
GROWING = {"open", "link", "fsync", "mkdir"}
DONE, CANCELLED, HELD, DOUBT, KILLED = "done", "cancelled", "held", "in doubt", "killed"


def stop(*_: object) -> None:
    raise SystemExit(5)


def fail_at(at: int, how: str) -> None:
    """Has the call of the system with this number fail, or something happen just before it."""
    numbers = itertools.count()

    def counted(name: str, call: Callable[..., object]) -> Callable[..., object]:
        def made(*words: object, **more: object) -> object:
            if next(numbers) == at:
                if how == "full" and name in GROWING:
                    raise OSError(errno.ENOSPC, "No space left on device")
                if how != "full":
                    os.kill(os.getpid(), signal.SIGKILL if how == "kill" else signal.SIGTERM)
            return call(*words, **more)

        return made

    for name in CALLS:
        setattr(os, name, counted(name, getattr(os, name)))


def in_child(folder: str, name: str, at: int | None, how: str) -> int:
    """Puts the fax into the folder, as the backend does; the status tells what came of it."""
    signal.signal(signal.SIGTERM, stop)
    if at is not None:
        fail_at(at, how)
    try:
        with _spool.Spool(folder, name, f"older-{name}") as spool:
            if not spool.is_done():
                spool.put(f"fax {name}".encode(), {"number": "1", "fax": f"{name}.tif"})
    except _job.Refused as refused:
        return 4 if "may be on its way" in str(refused) else 3
    except OSError:
        return 3
    return 0


def attempt(folder: str, name: str, at: int | None = None, how: str = "kill") -> str:
    """What came of putting a fax."""
    child = os.fork()
    if child == 0:
        status = 9
        try:
            status = in_child(folder, name, at, how)
        except SystemExit:
            status = 5
        finally:
            os._exit(status)
    status = os.waitpid(child, 0)[1]
    if os.WIFSIGNALED(status):
        return KILLED
    return {0: DONE, 3: HELD, 4: DOUBT, 5: CANCELLED}.get(os.WEXITSTATUS(status), f"status {status}")


def take(folder: str, name: str) -> int:
    """Takes a fax, as who sends it does, by its job file; tells how many there were."""
    if not os.path.exists(f"{folder}/{name}.job"):
        return 0
    with open(f"{folder}/{name}.tif", "rb") as file:
        if file.read() != f"fax {name}".encode():
            raise ValueError(f"{name} is not whole")
    os.remove(f"{folder}/{name}.job")
    os.remove(f"{folder}/{name}.tif")
    return 1


def play(folder: str, name: str, at: int, how: str, takes: bool) -> tuple[int, list[str], list[str]]:
    """One fax with one failure: how often it was handed on, what is left of it, and what came of it by and by."""
    said = [attempt(folder, name, at, how)]
    taken = take(folder, name) if takes else 0
    if said[0] in (KILLED, HELD):
        said.append(attempt(folder, name))
        if said[-1] == DOUBT and not taken and not os.path.exists(f"{folder}/{name}.job"):
            os.remove(f"{folder}/.faxpages/{name}.begun")
            said.append(attempt(folder, name))
    taken += take(folder, name)
    left = [it for it in os.listdir(folder) + os.listdir(f"{folder}/.faxpages") if name in it]
    return taken, left, said


def main() -> None:
    folder = sys.argv[1]
    attempt(folder, "first")
    tried = doubts = failed = 0
    for how, takes in itertools.product(("kill", "full", "cancel"), (False, True)):
        for at in range(80):
            name = f"{how}-{takes}-{at}"
            taken, left, said = play(folder, name, at, how, takes)
            wanted = 0 if said == [CANCELLED] else 1
            ends = [f"{name}.begun"] if said[-1] == DOUBT else [f"{name}.done"] if wanted else []
            tried, doubts = tried + 1, doubts + (DOUBT in said)
            if taken != wanted or left != ends or said[-1] not in (DONE, DOUBT, CANCELLED):
                failed += 1
                print(f"{name}: handed on {taken} times, left {left}: {', '.join(said)}")
    print(f"tried {tried}, in doubt {doubts}, failed {failed}")


if __name__ == "__main__":
    main()
