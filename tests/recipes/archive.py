"""The recipes of archives, by the module for Python and the library beside the program."""

from __future__ import annotations

import csv
import io
import os
import shutil
import time
from typing import Iterator

from tests import Claim
from tests.recipes.recipes import ROOT
from tests.recipes.room import Room, Tests

COMMAND = """#!/bin/sh
FAXPAGES_LIBRARY={library} PYTHONPATH={root}/python PYTHONDONTWRITEBYTECODE=1 exec python3 -m faxpages.archive "$@"
"""
# tiffdump, where it is not installed.
DUMP = """#!/bin/sh
echo "$3:"
echo "Magic: 0x4949"
"""


def with_archive(room: Room) -> bool:
    """Puts the command on the path, where there is a library; whether there is."""
    library = os.path.join(os.path.dirname(os.path.realpath(room.program)), "libfaxpages.so.1")
    if not os.path.exists(library):
        return False
    room.tool("faxpages-archive", COMMAND.format(library=library, root=ROOT))
    return True


def table(room: Room, commands: str) -> Iterator[Claim]:
    if not with_archive(room):
        print("not run: A table of an archive: no library beside the program")
        return
    given = room.faxes("faxes")
    status, out, _ = room.bash(commands)
    yield "it ends well", (status, f"faxes {len(given)}: " in out.decode()), (0, True)
    rows = rows_of(room.get("faxes.csv"))
    yield "a row for each fax", sorted(rows), given
    for name in given:
        yield f"the status of {name}", rows[name]["status"], str(room.run("check", name=f"faxes/{name}")[0])
    again = room.bash(commands)
    yield "nothing is done twice", b"; 0 done now, %d before" % len(given) in again[1], True


def rows_of(printed: bytes) -> dict[str, dict[str, str]]:
    """The rows of a table as CSV, by the names of their faxes."""
    text = printed.decode("utf-8", "surrogateescape")
    return {os.path.basename(row["path"]): row for row in csv.DictReader(io.StringIO(text, newline=""))}


def mirror(room: Room, commands: str) -> Iterator[Claim]:
    if not with_archive(room):
        print("not run: A mirror of an archive: no library beside the program")
        return
    if not shutil.which("tiffdump"):
        room.tool("tiffdump", DUMP)
    given = room.faxes("archive")
    os.symlink("../disk", room("archive/disk"))
    room.fax("disk/e.tif", "mh", "all")
    # One that changed within the last minute may still be coming in, and stays.
    before = time.time() - 120
    for name in (*(f"archive/{name}" for name in given), "disk/e.tif"):
        os.utime(room(name), (before, before))
    yield "a fault", room.bash(commands)[0], 1
    good = [name for name in given if name != "faulty.tif"]
    wanted = sorted(["disk", *(name + more for name in good for more in ("", ".fields"))])
    yield "copies", room.names("copies"), wanted
    yield "rows", [room.rows(f"copies/{name}") for name in good], [room.rows(f"archive/{name}") for name in good]
    yield "what a link leads to", room.rows("copies/disk/e.tif"), room.rows("disk/e.tif")
    said = room.get("copies/a.tif.fields")
    yield "fields", said.startswith(b"%s:\nMagic: 0x4949" % room("archive/a.tif").encode()), True
    yield "delete, with a fault", room.bash(commands.rstrip("\n") + " --delete --all-or-nothing")[0], 1
    yield "delete, with a fault: all stays", room.names("archive"), sorted([*given, "disk"])
    os.remove(room("archive/faulty.tif"))
    yield "delete", room.bash(commands.rstrip("\n") + " --gone --delete")[0], 0
    left = room.names("archive"), room.names("disk"), room.names("copies")
    yield "delete: what is left", left, (["disk"], ["e.tif"], wanted)


TESTS: Tests = {"A table of an archive": (["python3"], table), "A mirror of an archive in MMR": (["python3"], mirror)}
