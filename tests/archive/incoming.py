"""A fax that is still coming in stays, and so does what else may not be deleted; all else goes."""

from __future__ import annotations

import contextlib
import errno
import fcntl
import json
import os
import shutil
import signal
import subprocess
import sys
import time
from typing import Callable, Iterator
from unittest import mock

from tests.archive.converting import files_below
from tests.archive.drawn import playing
from tests.archive.keeping import drawn, put
from tests.archive.only import two, words_of
from tests.archive.room import Part, Room
from tests.waiting import PATIENCE

YOUNG, IN_USE = "it changed within the last minute", "another program has it open to write, or has locked it"
# So many calls of the system are made after the last look at who writes a fax.
AFTER = 6
# A program that has a fax open, or locked, until its input ends.
HOLDER = """
import fcntl, os, sys
file = os.open(sys.argv[2], os.O_RDONLY if sys.argv[1] == "locked" else os.O_WRONLY | os.O_APPEND)
if sys.argv[1] == "locked":
    fcntl.flock(file, fcntl.LOCK_EX)
print("held", flush=True)
sys.stdin.read()
"""


@contextlib.contextmanager
def held(path: str, way: str) -> Iterator[None]:
    """Another program has a fax open to write, or locked."""
    words = [sys.executable, "-I", "-c", HOLDER, way, path]
    with subprocess.Popen(words, stdin=subprocess.PIPE, stdout=subprocess.PIPE) as process:
        assert process.stdout is not None
        process.stdout.readline()
        yield
        process.communicate(timeout=PATIENCE)


def no_lease(file: int, command: int, word: int = 0, call: Callable[..., int] = fcntl.fcntl) -> int:
    """The system grants no lease to who is not the file's owner, and some file systems have none."""
    if command == fcntl.F_SETLEASE:
        raise PermissionError(errno.EACCES, os.strerror(errno.EACCES))
    return call(file, command, word)


def cases(path: str) -> dict[str, tuple[contextlib.AbstractContextManager[object], str]]:
    """The ways in which a fax may be coming in, and what is said of each."""
    now = time.time_ns()
    return {"young": (touched(path, now), f"Young: {YOUNG}"),
            "of the next half minute": (touched(path, now + 30 * 10**9), f"Young: {YOUNG}"),
            "open": (held(path, "open"), f"InUse: {IN_USE}"), "locked": (held(path, "locked"), f"InUse: {IN_USE}"),
            "far in the future": (touched(path, now + 90 * 10**9), "")}  # fmt: skip


@contextlib.contextmanager
def touched(path: str, when: int) -> Iterator[None]:
    """A fax has another time of change."""
    os.utime(path, ns=(when, when))
    yield


def incoming(room: Room, *_given: object) -> None:
    """A fax that is young, open to write or locked stays, and is told, also by the table; the others go. Once it is
    whole it goes too, with all its pages."""
    one, other = two()
    place = room("incoming")
    fax = f"{place}/tree/b.tif"
    for leases in (True, False):
        for way in ("young", "of the next half minute", "open", "locked", "far in the future"):
            shutil.rmtree(place, ignore_errors=True)
            for name in "ab":
                put(f"{place}/tree/{name}.tif", one)
            holder, why = cases(fax)[way]
            with holder, mock.patch.object(fcntl, "fcntl", fcntl.fcntl if leases else no_lease):
                ran = playing.run(words_of(place, "--delete"), place, playing.Trouble())
                rows = {os.path.basename(path): row["why"] for path, row in room.rows(f"{place}/t.sqlite").items()}
                told = why.replace(": ", ": b.tif: ") in ran.error if why else not ran.error
                room.claim(f"a fax that is {way}, leases {leases}: {ran.error}", (
                    ran.status, os.path.exists(fax), rows, told, "deleted 1 faxes; 1 kept, as said above" in ran.out,
                    os.path.exists(f"{place}/tree/a.tif")), (3, True, {b"b.tif": why}, True, True, False) if why else (
                        0, False, {}, True, False, False))  # fmt: skip
            if why:
                put(fax, other)
                ran = playing.run(words_of(place, "--delete"), place, playing.Trouble())
                import faxpages

                room.claim(f"a fax that was {way}: {ran.error}", (ran.status, os.listdir(f"{place}/tree"), files_below(
                    f"{place}/copies")[b"b.tif"]), (0, [], faxpages.convert(other, "mmr")))  # fmt: skip


def whole(room: Room, *_given: object) -> None:
    """By --all-or-nothing nothing goes where one fax is coming in."""
    one, _ = two()
    place = room("whole")
    for name in "ab":
        put(f"{place}/tree/{name}.tif", one)
    with held(f"{place}/tree/b.tif", "open"):
        ran = playing.run(words_of(place, "--delete", "--all-or-nothing"), place, playing.Trouble())
    said = "InUse: b.tif" in ran.error, "nothing is deleted" in ran.error
    room.claim(f"all or nothing: {ran.error}", (ran.status, sorted(os.listdir(f"{place}/tree")), *said),
               (3, ["a.tif", "b.tif"], True, True))
    ran = playing.run(words_of(place, "--delete", "--all-or-nothing"), place, playing.Trouble())
    room.claim("all", (ran.status, os.listdir(f"{place}/tree")), (0, []))


class Opens(playing.Event):
    """Another program opens a fax to write, and has it open until it is killed."""

    def happen(self, room: str) -> None:
        """Has it be so, and says in the file amid that it is."""
        if not os.path.exists(self.path):
            return
        process = os.fork()
        if not process:
            os.open(self.path, os.O_WRONLY)
            with open(os.path.join(room, "amid.new"), "w", encoding="ascii") as file:
                file.write(str(os.getpid()))
            os.rename(file.name, os.path.join(room, "amid"))
            signal.pause()
        while not os.path.exists(os.path.join(room, "amid")):
            time.sleep(0.001)


def opened_at_each_call(room: Room, *_given: object) -> None:
    """A writer comes at each call of the run: the fax stays but where it comes in the instant after the last look."""
    one, _ = two()
    place, gone, met = room("opened"), list[int](), 0
    put(f"{place}/tree/a.tif", one)
    playing.run(words_of(place), place, playing.Trouble())
    os.rename(place, f"{place}-before")
    for at in range(1, 200):
        shutil.rmtree(place, ignore_errors=True)
        shutil.copytree(f"{place}-before", place)
        event = Opens(os.fsencode(f"{place}/tree/a.tif"), b"", True)
        playing.run(words_of(place, "--delete"), place, playing.Trouble(at, event=event))
        if not os.path.exists(f"{place}/amid"):
            break
        with open(f"{place}/amid", encoding="ascii") as file:
            os.kill(int(file.read()), signal.SIGKILL)
        met = at
        if not os.path.exists(f"{place}/tree/a.tif"):
            gone.append(at)
    # After the last look at who writes come those at the copy and at the fax.
    room.claim(f"a writer comes at each call: {met}, {gone}", (met > 20, len(gone) <= AFTER), (True, True))


def changes_while_read(room: Room, *_given: object) -> None:
    """A fax that changes while it is read is not good, and not deleted; the next run reads it."""
    import faxpages
    from faxpages.archive import _fax

    one, other = two()
    path = room("reading/tree/a.tif")
    put(path, one)
    told = os.stat(path)
    job = _fax.Job(os.fsencode(room("reading/tree")), os.fsencode(room("reading/copies")))
    os.mkdir(room("reading/copies"))
    fstat = os.fstat

    def late(file: int) -> os.stat_result:
        found = fstat(file)
        if os.path.samestat(found, told) and found.st_size == len(one):
            with open(path, "ab") as fax:
                fax.write(b"more")
        return found

    with mock.patch.object(os, "fstat", late):
        found = job.do(_fax.Waiting(b"a.tif", told.st_size, told.st_mtime)).found
    room.claim("it changed while it was read", (found.status, found.fault, found.why),
               (3, "Changed", "it changed while it was read"))
    put(path, other)
    status = room.run("check", "reading/tree", "--table", "reading/t.sqlite")[0]
    room.claim("the next run reads it", status, 0)
    room.claim("no copy of half a fax", files_below(room("reading/copies")), {})


def some_are_bad(room: Room, *_given: object) -> None:
    """Where one fax is faulty, another has no copy and one is no fax that is read here, the others go, and the status
    is that of the run; by --all-or-nothing none goes."""
    one, _ = two()
    bad = {"faulty": (b"", 1), "of another kind": (b"no fax at all", 1), "without a copy": (one, 3)}
    for name, (data, status) in bad.items():
        for words in (["--all-or-nothing"], list[str]()):
            place = room(f"bad {name} {len(words)}")
            put(f"{place}/tree/a.tif", one)
            put(f"{place}/tree/b.tif", data)
            if status == 3:
                put(f"{place}/copies/b.tif", b"of somebody else")
            ran = playing.run(words_of(place, "--delete", *words), place, playing.Trouble())
            left = ["a.tif", "b.tif"] if words else ["b.tif"]
            said = "nothing is deleted" in ran.error if words else (
                "deleted 1 faxes; 1 kept, since they are not good and copied" in ran.out)
            room.claim(f"one is {name}, {words}: {ran.error}", (ran.status, sorted(os.listdir(f"{place}/tree")), said),
                       (status, left, True))
            deleted = json.loads(room.run("table", f"{place}/t.sqlite", "--summary")[1])["deleted"]
            room.claim(f"one is {name}, {words}: deleted", deleted, 2 - len(left))
    links_of_bad(room, one)


def links_of_bad(room: Room, one: bytes) -> None:
    """What a link leads to that stays, since it has no copy, stays too."""
    place = room("bad links")
    put(f"{place}/tree/a.tif", one)
    put(f"{place}/tree/b.tif", drawn()[""])
    os.symlink("a.tif", f"{place}/tree/l.tif")
    put(f"{place}/copies/l.tif", b"of somebody else")
    ran = playing.run(words_of(place, "--follow", "--delete"), place, playing.Trouble())
    room.claim(f"a link without a copy: {ran.error}", (ran.status, sorted(os.listdir(f"{place}/tree")),
               "Linked: a.tif" in ran.error), (3, ["a.tif", "l.tif"], True))  # fmt: skip


PARTS: list[Part] = [incoming, whole, opened_at_each_call, changes_while_read, some_are_bad]
