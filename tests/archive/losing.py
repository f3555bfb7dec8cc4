"""--lost: how many rows of a faulty fax are left, and lost, as the program's salvage has it."""

from __future__ import annotations

import json
import os
import shutil
import subprocess

from tests import TOP
from tests.archive.keeping import drawn, put
from tests.archive.room import Part, Room

SAMPLES = ["damaged-fourth-page.tif", "received/over-a-noisy-line.tif", "second-row-missing.tif", "three-pages.tif",
           "return-to-control.tif"]  # fmt: skip


def by_program(room: Room, path: bytes) -> tuple[int, int]:
    """The rows that are found and lost, by the program's lines."""
    with open(path, "rb") as file:
        ran = subprocess.run([room.program, "salvage"], stdin=file, capture_output=True, check=False)
    lines = [line.split() for line in ran.stdout.decode().splitlines()]
    return (sum(line[0] == "row" for line in lines), sum(int(line[3]) for line in lines if line[0] == "lost" and len(line) == 5))


def lost(room: Room, *_given: object) -> None:
    """Faulty faxes have both numbers, and no others; those that were checked before are counted too, once."""
    for name in SAMPLES:
        put(room(f"lost/tree/{os.path.basename(name)}"), open(os.path.join(TOP, "samples", name), "rb").read())
    put(room("lost/tree/cut.tif"), drawn()[""][:-20])
    put(room("lost/tree/text.tif"), b"Dear Anna\n")
    os.makedirs(room("lost/bin"))
    os.symlink(room.program, room("lost/bin/faxpages"))
    path = {"PATH": f"{room('lost/bin')}:{os.environ['PATH']}"}
    words = ["check", "lost/tree", "--table", "lost/t.sqlite"]
    room.run(*words)
    before = room.rows("lost/t.sqlite")
    room.claim("without --lost nothing is counted", {(row["found"], row["lost"]) for row in before.values()}, {("", "")})
    faulty = [it for it, row in before.items() if row["status"] == "1"]
    status, out, error = room.run(*words, "--lost", "--names", **path)
    room.claim("--lost counts what was checked before", (status, f"; {len(faulty)} done now, " in out.decode()), (1, True))
    rows = room.rows("lost/t.sqlite")
    wanted = {it: by_program(room, it) for it in faulty}
    got = {it: (row["found"], row["lost"]) for it, row in rows.items()}
    room.claim("found and lost, as by salvage", got, {
        it: tuple(map(str, wanted[it])) if it in wanted else ("", "") for it in rows})  # fmt: skip
    room.claim("all else is as before", {it: dict(row, found="", lost="") for it, row in rows.items()} == before)
    room.claim("--names says them", all(f"; {wanted[it][0]} rows are left, {wanted[it][1]} are lost\n" in error for it in faulty))
    room.claim("no fax is counted twice", "; 0 done now, " in room.run(*words, "--lost", **path)[1].decode())
    summary = json.loads(room.run("table", "lost/t.sqlite", "--summary")[1])
    sums = [sum(wanted[it][at] for it in faulty) for at in (0, 1)]
    room.claim("--summary has the sums", ([summary["found"], summary["lost"]], min(sums) > 0), (sums, True))
    figures = room.run("table", "lost/t.sqlite", "--prometheus")[1].decode()
    room.claim("--prometheus has them", [f"}} {it}\n" in figures.partition(f"# TYPE faxpages_archive_{name} ")[2].partition("#")[0]
                                         for name, it in zip(("found", "lost"), sums)], [True, True])  # fmt: skip
    new = room.run("check", "lost/tree", "--table", "lost/new.sqlite", "--lost", "--processes", "2", **path)[0]
    room.claim("--lost from the first", (new, room.rows("lost/new.sqlite") == rows), (1, True))
    not_counted(room, words, path)


def not_counted(room: Room, words: list[str], path: dict[str, str]) -> None:
    """Where there is no program that is said at once; where it fails, in the rows."""
    if not shutil.which("faxpages"):
        status, _, error = room.run(*words, "--lost")
        room.claim("no program", (status, "faxpages is not on the PATH" in error), (3, True))
    os.unlink(room("lost/bin/faxpages"))
    put(room("lost/bin/faxpages"), b"#!/bin/sh\nexit 3\n", 0o755)
    status, _, _ = room.run("check", "lost/tree", "--table", "lost/failed.sqlite", "--lost", **path)
    told = {(row["lost"], row["why"]) for row in room.rows("lost/failed.sqlite").values() if row["status"] == "1"}
    room.claim("a program that fails", (status, told), (1, {("", "`faxpages salvage` ended with status 3")}))


PARTS: list[Part] = [lost]
