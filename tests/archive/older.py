"""Tables of version 1.5.2, which deleted faxes and marked no copy as the only one."""

from __future__ import annotations

import contextlib
import errno
import hashlib
import os
import shutil
import sqlite3

from tests.archive.converting import files_below
from tests.archive.drawn import playing
from tests.archive.keeping import put
from tests.archive.kinds import make_older
from tests.archive.only import MARKS, refused, two, words_of
from tests.archive.room import Part, Room

# The number of a part of an array, of which a table was merged.
PART = "0123456789abcdef"


def before(place: str, *words: str) -> None:
    """Three faxes, of which 1.5.2 has deleted two: the copy of one has no mark; that of the other one has the mark of a
    part, which 1.5.2 did not take away. A table out of a backup knows of no deletion."""
    one, _ = two()
    shutil.rmtree(place, ignore_errors=True)
    for name in "ab":
        put(f"{place}/tree/{name}.tif", one)
    playing.run(words_of(place, *words), place, playing.Trouble())
    shutil.copy(f"{place}/t.sqlite", f"{place}/backup.sqlite")
    playing.run(words_of(place, "--delete", *words), place, playing.Trouble())
    put(f"{place}/tree/c.tif", one)
    playing.run(words_of(place, *words), place, playing.Trouble())
    for table in ("t.sqlite", "backup.sqlite"):
        make_older(f"{place}/{table}")
        with contextlib.closing(sqlite3.connect(f"{place}/{table}")) as base:
            base.execute("UPDATE times SET origin = ?", (PART,))
            base.commit()
    for name in os.listdir(f"{place}/copies"):
        unmark(f"{place}/copies/{name}")


def unmark(copy: str) -> None:
    """A copy as 1.5.2 left it."""
    if copy.endswith(".only"):
        os.unlink(copy)
        return
    for attribute in os.listxattr(copy):
        os.removexattr(copy, attribute)
    if os.path.basename(copy).startswith("b.tif"):
        with open(copy, "rb") as file, contextlib.suppress(OSError):
            os.setxattr(copy, "user.faxpages.copy", f"{PART} {hashlib.sha256(file.read()).hexdigest()}".encode())


def only_copies(place: str) -> list[str]:
    """The copies that are marked as the only ones."""
    names = sorted(it for it in os.listdir(f"{place}/copies") if not it.endswith(".only"))
    return [it for it in names if os.path.exists(f"{place}/copies/.faxpages-{it}.only")
            or "user.faxpages.only" in os.listxattr(f"{place}/copies/{it}")]


def deleted_before(room: Room, *_given: object) -> None:
    """The first run over a table of 1.5.2 marks the copies of what that deleted: faxes with their names replace none of
    them, whatever a table says, with attributes and without."""
    _, other = two()
    for way, error in (("with attributes", None), ("without attributes", errno.ENOTSUP)):
        for words in (list[str](), ["--fields"]):
            place = room(f"older-{error}")
            with refused(error or 0, *(MARKS if error else ())):
                before(place, *words)
                kept = {name: data for name, data in files_below(f"{place}/copies").items() if name[:1] in b"ab"}
                for name in "ab":
                    put(f"{place}/tree/{name}.tif", other)
                for table in ("its own", "one out of a backup"):
                    if table != "its own":
                        shutil.copy(f"{place}/backup.sqlite", f"{place}/t.sqlite")
                    ran = playing.run(words_of(place, *words), place, playing.Trouble())
                    left = files_below(f"{place}/copies")
                    same = {name: left.get(name) == data for name, data in kept.items()}
                    wanted = (3, dict.fromkeys(same, True))
                    room.claim(f"{way}, {table}, {words}: {ran.out}", (ran.status, same), wanted)
            names = [name + more for name in ("a.tif", "b.tif") for more in (["", ".fields"] if words else [""])]
            room.claim(f"{way}, {words}: the only copies", only_copies(place), names)


def merged_before(room: Room, *_given: object) -> None:
    """So does the first run over a table that is merged of one of 1.5.2, whatever that table has marked before."""
    place = room("older-merged")
    before(place)
    merge = ["merge", f"{place}/merged.sqlite", f"{place}/t.sqlite"]
    words = [it.replace("/t.sqlite", "/merged.sqlite") for it in words_of(place)]
    playing.run(merge, place, playing.Trouble())
    for _ in range(2):
        playing.run(words, place, playing.Trouble())
        room.claim("a table that is merged of one of 1.5.2", only_copies(place), ["a.tif", "b.tif"])
        for name in "ab":
            unmark(f"{place}/copies/{name}.tif")
        playing.run(merge, place, playing.Trouble())


def strangers(room: Room, *_given: object) -> None:
    """What stands in the place of such a copy and is none is not marked. A copy that cannot be marked is told, until it
    can."""
    place = room("older-strangers")
    before(place)
    put(f"{place}/copies/a.tif", b"of somebody else")
    os.unlink(f"{place}/copies/b.tif")
    os.mkdir(f"{place}/copies/b.tif")
    ran = playing.run(words_of(place), place, playing.Trouble())
    room.claim(f"what is no copy: {ran.error}", (ran.status, only_copies(place)), (0, []))
    place = room("older-refused")
    before(place)
    for error, wanted in ((errno.EROFS, (3, True, [])), (None, (0, False, ["a.tif", "b.tif"]))):
        with refused(error or 0, *(("setxattr",) if error else ())):
            ran = playing.run(words_of(place), place, playing.Trouble())
        said = "NoMark: a.tif: Read-only file system" in ran.error
        room.claim(f"a copy that cannot be marked: {ran.error}", (ran.status, said, only_copies(place)), wanted)


PARTS: list[Part] = [deleted_before, merged_before, strangers]
