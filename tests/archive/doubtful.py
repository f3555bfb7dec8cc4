"""What is in doubt: folders that may not be mounted, files that others change or make large meanwhile, and times that
are the same though the bytes are not."""

from __future__ import annotations

import os
import shutil
import sqlite3
import stat
import struct
import subprocess
import time
from unittest import mock

import faxpages
from tests.archive.drawn import playing
from tests.archive.keeping import CALLS, drawn, put
from tests.archive.only import words_of
from tests.archive.room import Part, Room
from tests.archive.verifying import figures, kept, verify

# Beyond all that an archive may write.
LARGE = 1 << 40
# Seconds of the processor that many values may take, of which no two are looked at twice.
SECONDS = 5.0


def table_of(place: str) -> list[tuple[object, ...]]:
    """All that a table says of faxes and of copies."""
    with sqlite3.connect(f"{place}/t.sqlite") as base:
        return [row for name in ("faxes", "copies", "only_copies", "runs")
                for row in base.execute(f"SELECT * FROM {name} ORDER BY 1")]


def convert(place: str, *more: str) -> playing.Ran:
    """Converts, but for what --gone allows."""
    return playing.run([*(it for it in words_of(place) if it != "--gone"), *more], place, playing.Trouble())


def unmounted(room: Room, *_given: object) -> None:
    """A TARGET that is empty, though copies are known there, is a disk that is not mounted: nothing is written there,
    and nothing is forgotten; --gone of convert goes on."""
    place = room("unmounted")
    for name in ("a.tif", "b.tif"):
        put(f"{place}/tree/{name}", drawn()[""])
    convert(place)
    os.rename(f"{place}/copies", f"{place}/disk")
    for way in ("an empty folder", "no folder"):
        before = table_of(place)
        if way == "an empty folder":
            os.mkdir(f"{place}/copies")
        ran = convert(place, "--delete")
        room.claim(f"{way}: what is said", (ran.status, ran.out, ran.error), (
            3, "", f"faxpages-archive: no copy stands in {place}/copies, which is empty; nothing is changed "
            "(--gone allows it)\n"))
        room.claim(f"{way}: nothing is written", (os.listdir(f"{place}/copies"), len(os.listdir(f"{place}/tree")),
                                                  table_of(place) == before), ([], 2, True))
        os.rmdir(f"{place}/copies")
    ran = convert(place, "--gone")
    room.claim("--gone makes them again", (ran.status, len(os.listdir(f"{place}/copies"))), (0, 2))
    only_unmounted(room)


def only_unmounted(room: Room) -> None:
    """The only copies, whose faxes were deleted, are forgotten neither."""
    place = room("only-unmounted")
    kept(place)
    os.rename(f"{place}/copies", f"{place}/disk")
    os.mkdir(f"{place}/copies")
    before = table_of(place)
    options: list[list[str]] = [[], ["--gone"]]
    for words in options:
        ran = verify(place, *words)
        room.claim(f"verify {words}", (ran.status, ran.out, "which is empty; nothing is changed" in ran.error,
                                       table_of(place) == before), (3, "", True, True))
    put(f"{place}/tree/a.tif", drawn()["data"])
    ran = convert(place)
    room.claim("a new fax", (ran.status, os.listdir(f"{place}/copies")), (3, []))
    os.rmdir(f"{place}/copies")
    os.rename(f"{place}/disk", f"{place}/copies")
    room.claim("once it is mounted", (verify(place).status, figures(room, place)), (0, {"good": 3}))
    room.claim("a new fax of the name of one that was deleted", convert(place).status, 3)


def read_meanwhile(room: Room, *_given: object) -> None:
    """A table that a run writes to while it is looked at is not called damaged."""
    from faxpages.archive import _database, _table

    place = room("meanwhile")
    put(f"{place}/tree/a.tif", drawn()[""])
    room.run("check", f"{place}/tree", "--table", f"{place}/t.sqlite")
    real, at_work, said = _database.Database._job, list[int](), list[str]()

    def job(self: _database.Database) -> list[tuple[str, str]]:
        if not at_work:
            at_work.append(1)
            writer.begin_run(2, "check", "[]")
            if not writer.commit():
                base.execute("ROLLBACK")
        return real(self)

    with _table.Table(f"{place}/t.sqlite") as writer:
        base: sqlite3.Connection = getattr(writer, "_base")
        with mock.patch.object(_database.Database, "_job", job):
            try:
                with _table.Table(f"{place}/t.sqlite", new=False) as reader:
                    said.append(str(reader.count()))
            except _database.Damaged as error:
                said.append(str(error))
    room.claim("what a reader says", (len(at_work), said), (1, ["1"]))


def large_copies(room: Room, *_given: object) -> None:
    """A file that is larger than any copy is not read, be it in the place of a copy or of an only one."""
    place = room("large")
    put(f"{place}/tree/a.tif", drawn()[""])
    put(f"{place}/copies/a.tif", b"")
    os.truncate(f"{place}/copies/a.tif", LARGE)
    status, _, _ = room.run(*words_of(place, "--timeout", "20"))
    (row,) = room.rows(f"{place}/t.sqlite").values()
    room.claim("in the place of a copy", (status, row["fault"], row["why"]), (
        3, "Exists", "not written by this archive"))
    kept(place)
    os.truncate(f"{place}/copies/b.tif", LARGE)
    status, out, _ = room.run("verify", f"{place}/copies", "--table", f"{place}/t.sqlite", "--timeout", "20")
    room.claim("an only copy", (status, out.decode().partition(";")[0]), (
        1, "only copies 3: 2 good, 1 changed or gone, 0 not read"))
    shutil.rmtree(place)


def many_fields(room: Room, *_given: object) -> None:
    """What many fields that share their values come to is bounded: how long it is looked at, and what tiffdump prints
    of them."""
    from faxpages.archive import _fax, _lacks

    size, count = 1000000, 60000
    entries = b"".join(struct.pack("<HHII", 305, 2, size, 8) for _ in range(count))
    data = struct.pack("<2sHI", b"II", 42, 8 + size) + b"x" * size + struct.pack("<H", count) + entries + bytes(4)
    began = time.process_time()
    found = _lacks.lacks(data, "", "mmr", True)
    room.claim("fields that share a value", (time.process_time() - began < SECONDS, "Fields" in found), (True, True))
    place = room("endless")
    put(f"{place}/tree/a.tif", drawn()["fields"])
    put(f"{place}/bin/tiffdump", b"#!/bin/sh\nexec yes\n", 0o755)
    path = os.pathsep.join([f"{place}/bin", os.environ["PATH"]])
    ran = subprocess.run(
        ["bash", "-c", 'ulimit -v 4000000; exec "$@"', "bash", "python3", "-c", MOST_FIELDS, place],
        env=dict(os.environ, PATH=path, PYTHONPATH=os.path.dirname(os.path.dirname(faxpages.__file__))),
        capture_output=True, text=True, check=False)
    room.claim(f"a tiffdump that prints for ever: {ran.stderr[-300:]}", ran.stdout,
               f"3 Fields more than {_fax._MOST_FIELDS} bytes\n")


# One fax is converted with its fields.
MOST_FIELDS = """
import os, sys
from faxpages.archive import _fax
place = os.fsencode(sys.argv[1])
told = os.stat(place + b"/tree/a.tif")
os.mkdir(place + b"/copies")
job = _fax.Job(place + b"/tree", place + b"/copies", fields=True)
found = job.do(_fax.Waiting(b"a.tif", told.st_size, told.st_mtime)).found
print(found.status, found.fault, found.why)
"""


def same_step(room: Room, *_given: object) -> None:
    """A fax that is read in the moment in which it is written is read once what follows has another time, since its row
    would else be taken for that of the whole fax for ever."""
    from faxpages.archive import _fax

    place, fax = room("step"), drawn()[""]
    put(f"{place}/a.tif", bytes(8) + fax[8:], mtime=time.time_ns() + 5_000_000_000)
    told = os.stat(f"{place}/a.tif")

    def written(_seconds: float) -> None:
        with open(f"{place}/a.tif", "r+b") as file:
            file.write(fax[:8])
        os.utime(f"{place}/a.tif", ns=(told.st_mtime_ns, told.st_mtime_ns))

    with mock.patch.object(time, "sleep", written), mock.patch.object(time, "time", lambda: told.st_mtime + 0.001):
        done = _fax.Job(os.fsencode(place)).do(_fax.Waiting(b"a.tif", len(fax), told.st_mtime))
    room.claim("a fax whose end is written at the same time", (done.found.status, done.found.fault), (0, None))


def like_the_tree(room: Room, *_given: object) -> None:
    """TARGET, where it is made, lets nobody in whom TREE does not let in; one that is there stays as it is."""
    for mode in (0o700, 0o750, 0o755):
        place = room(f"like-{mode:o}")
        put(f"{place}/tree/a.tif", drawn()[""])
        os.chmod(f"{place}/tree", mode)
        status = room.run(*words_of(place))[0]
        room.claim(f"a tree of mode {mode:o}", (status, stat.S_IMODE(os.stat(f"{place}/copies").st_mode)), (0, mode))
    os.chmod(f"{place}/copies", 0o777)
    room.claim("a TARGET that is there", (room.run(*words_of(place))[0], stat.S_IMODE(
        os.stat(f"{place}/copies").st_mode)), (0, 0o777))


def swapped(room: Room, *_given: object) -> None:
    """Where a stranger's file takes the place of a copy, at whatever call of a run that has nothing to write, it keeps
    its mode and its time, and has no mark."""
    place, wrong = room("swapped"), list[object]()
    put(f"{place}/tree/a.tif", drawn()[""], 0o600)
    convert(place)
    copy, at = f"{place}/copies/a.tif", 0
    for at in range(1, CALLS):
        event = playing.Event(os.fsencode(copy), b"a stranger's", True)
        playing.run([*words_of(place), "--again", "all"], place, playing.Trouble(at, event=event))
        if not os.path.exists(f"{place}/amid"):
            break
        told = os.stat(copy)
        if time.time() - told.st_mtime > 600 or told.st_mode & 0o777 == 0o600 or os.listxattr(copy):
            wrong.append((at, oct(told.st_mode), told.st_mtime, os.listxattr(copy)))
        os.unlink(copy)
        convert(place, "--gone")
    room.claim(f"all {at - 1} calls are met", 10 < at < CALLS - 1)
    room.claim("a stranger's file is touched", wrong, [])


PARTS: list[Part] = [unmounted, read_meanwhile, large_copies, many_fields, same_step, like_the_tree, swapped]
