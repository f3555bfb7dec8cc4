"""A copy that cannot be marked as the only one of its fax: its fax is told with its name, all else is done, and the
copy is not replaced."""

from __future__ import annotations

import contextlib
import errno
import json
import os
import shutil
import subprocess
from typing import Iterator
from unittest import mock

import faxpages
from tests.archive.drawn import playing
from tests.archive.keeping import put
from tests.archive.older import only_copies
from tests.archive.only import MARKS, refused, two, words_of
from tests.archive.room import Part, Room
from tests.archive.verifying import verify

NAME = "b.tif"
# With the ending of the mark beside it, it is longer than a name may be.
LONG = "b" * 246 + ".tif"


@contextlib.contextmanager
def unmarkable(path: str, error: int) -> Iterator[None]:
    """The system does not let the marks of one file be changed."""
    setxattr = os.setxattr

    def refuse(file: int, attribute: str, value: bytes) -> None:
        if os.readlink(f"/proc/self/fd/{file}") == path:
            raise OSError(error, os.strerror(error))
        setxattr(file, attribute, value)

    with mock.patch.object(os, "setxattr", refuse):
        yield


def made(place: str, one: bytes, name: str = NAME) -> str:
    """Three faxes are copied, and go, and another one comes. The copy of one of them, by its path."""
    shutil.rmtree(place, ignore_errors=True)
    for each in ("a.tif", name, "c.tif"):
        put(f"{place}/tree/{each}", one)
    playing.run(words_of(place), place, playing.Trouble())
    for each in ("a.tif", name, "c.tif"):
        os.unlink(f"{place}/tree/{each}")
    put(f"{place}/tree/d.tif", one)
    return os.path.realpath(f"{place}/copies/{name}")


def told(room: Room, place: str) -> tuple[dict[str, tuple[str, str, str]], dict[str, int]]:
    """The rows of a table, and its faults."""
    rows = {os.path.basename(path).decode(): (row["status"], row["fault"], row["why"])
            for path, row in room.rows(f"{place}/t.sqlite").items()}
    return rows, json.loads(room.run("table", f"{place}/t.sqlite", "--summary")[1])["faults"]


def unmarked(room: Room, *_given: object) -> None:
    """The fax of a copy that cannot be marked is told, by its name and in the table, by each run, until it can be."""
    one, _ = two()
    for error in (errno.EPERM, errno.EROFS, errno.EACCES):
        place, why = room(f"unmarked-{error}"), os.strerror(error)
        copy = made(place, one)
        with unmarkable(copy, error):
            for again in (False, True):
                # The faxes have gone already, so that the second run needs no --gone.
                words = [it for it in words_of(place) if not (again and it == "--gone")]
                ran = playing.run(words, place, playing.Trouble())
                wanted = {"b.tif": ("3", "NoMark", why), "d.tif": ("0", "", "")}
                room.claim(f"not marked: {why}, {again}: {ran.error}{ran.out}", (
                    ran.status, f"NoMark: b.tif: {why}\n" in ran.error, told(room, place), only_copies(place),
                    "faxes 2: 1 good, 0 faulty, 1 not read" in ran.out),
                    (3, True, (wanted, {"NoMark": 1}), ["a.tif", "c.tif"], True))  # fmt: skip
        ran = playing.run(words_of(place), place, playing.Trouble())
        room.claim(f"it can be marked again: {ran.error}", (ran.status, only_copies(place), told(room, place)), (
            0, ["a.tif", "b.tif", "c.tif"], ({"d.tif": ("0", "", "")}, {})))  # fmt: skip


def not_replaced(room: Room, *_given: object) -> None:
    """Another fax of that name does not replace a copy that could not be marked, neither before it can be nor later."""
    one, other = two()
    place = room("unmarked-replaced")
    copy = made(place, one)
    with unmarkable(copy, errno.EPERM):
        playing.run(words_of(place), place, playing.Trouble())
    put(f"{place}/tree/b.tif", other)
    for way in ("it cannot be marked", "it can be", "it is"):
        with unmarkable(copy if way == "it cannot be marked" else "", errno.EPERM):
            ran = playing.run(words_of(place), place, playing.Trouble())
        with open(copy, "rb") as file:
            same = file.read() == faxpages.convert(one, "mmr")
        fault = "NoMark" if way == "it cannot be marked" else "Exists"
        row = told(room, place)[0]["b.tif"]
        room.claim(f"another fax, {way}: {ran.error}", (ran.status, same, row[1]), (3, True, fault))
    only = verify(place).out.partition(":")[0]
    room.claim("it is looked at as an only copy, once it is marked", only, "only copies 3")


def long_name(room: Room, *_given: object) -> None:
    """A name with which no file beside the copy can be named, where attributes are not kept."""
    one, _ = two()
    place = room("unmarked-long")
    with refused(errno.ENOTSUP, *MARKS):
        made(place, one, LONG)
        ran = playing.run(words_of(place), place, playing.Trouble())
    room.claim(f"a long name: {ran.error}", (ran.status, f"NoMark: {LONG}: File name too long" in ran.error,
               only_copies(place)), (3, True, ["a.tif", "c.tif"]))  # fmt: skip
    put(f"{place}/tree/{LONG}", one)
    with refused(errno.ENOTSUP, *MARKS):
        ran = playing.run(words_of(place, "--delete"), place, playing.Trouble())
    room.claim(f"a long name stays: {ran.error}", (ran.status, os.listdir(f"{place}/tree")), (3, [LONG]))
    back(room, one)


def back(room: Room, one: bytes) -> None:
    """A fax that comes back as it was has its copy again, which nobody has marked."""
    place = room("unmarked-back")
    copy = made(place, one)
    put(f"{place}/tree/b.tif", one, mtime=os.stat(copy).st_mtime_ns)
    os.rename(f"{place}/tree/b.tif", f"{place}/b.tif")
    with unmarkable(copy, errno.EPERM):
        playing.run(words_of(place), place, playing.Trouble())
        os.rename(f"{place}/b.tif", f"{place}/tree/b.tif")
        ran = playing.run(words_of(place), place, playing.Trouble())
    room.claim(f"it came back: {ran.error}{ran.out}", (ran.status, told(room, place)[0]["b.tif"], only_copies(place)), (
        0, ("0", "", ""), ["a.tif", "c.tif"]))  # fmt: skip


def immutable(room: Room, *_given: object) -> None:
    """A copy that nobody may change, as by `chattr +i`."""
    one, _ = two()
    place = room("unmarked-immutable")
    copy = made(place, one)
    if not shutil.which("chattr") or subprocess.run(
            ["chattr", "+i", copy], capture_output=True, check=False).returncode:
        print("SKIPPED: no file can be made immutable here (e2fsprogs), so: no such copy is tried")
        return
    try:
        status, _, error = room.run(*words_of(place))
        room.claim(f"an immutable copy: {error}", (status, "NoMark: b.tif: Operation not permitted" in error,
                   only_copies(place)), (3, True, ["a.tif", "c.tif"]))  # fmt: skip
    finally:
        subprocess.run(["chattr", "-i", copy], check=True)
    status = room.run(*words_of(place))[0]
    room.claim("it can be changed", (status, only_copies(place)), (0, ["a.tif", "b.tif", "c.tif"]))


PARTS: list[Part] = [unmarked, not_replaced, long_name, immutable]
