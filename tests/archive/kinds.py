"""Sound files that are no faxes read here: nobody calls them faulty, and a table of an older version that did is mended."""

from __future__ import annotations

import contextlib
import json
import os
import shutil
import sqlite3
import subprocess

from tests import TOP
from tests.archive.checking import ask
from tests.archive.keeping import drawn, put
from tests.archive.room import Part, Room

SAMPLE = os.path.join(TOP, "samples", "one-mh-page.tif")
# How each is made of a sample, and what is said of it.
KINDS = {
    "lzw": (["-c", "lzw"], "a picture of another kind"), "packbits": (["-c", "packbits"], "a picture of another kind"),
    "none": (["-c", "none"], "a picture of another kind"),
    "tiles": (["-t", "-w", "16", "-l", "16", "-c", "g4"], "a picture in tiles"),
    "big": (["-8"], "a BigTIFF file, or none in TIFF"),
}  # fmt: skip
# The columns that versions before 1.15 did not keep, and those of a table of version 1.5.
NEW_COLUMNS = ("bad_rows", "lost_rows", "salvaged")
OLD = ("path, size, mtime, status, pages, rows, width, x, y, codings, notes, fault, fault_page, fault_row, fault_tag, why, "
       "lacks, seconds")


def make(room: Room) -> dict[str, str]:
    """A tree of all of them, with a good fax and a faulty one; what is said of each."""
    said = {}
    os.makedirs(room("kinds/tree"))
    for name, (words, kind) in KINDS.items():
        subprocess.run(["tiffcp", "-s", *words, SAMPLE, room(f"kinds/tree/{name}.tif")], check=True)
        said[name] = kind
    put(room("kinds/tree/pdf.tif"), b"%PDF-1.4\n%%EOF\n")
    put(room("kinds/tree/text.tif"), b"Dear Anna\n")
    put(room("kinds/tree/good.tif"), drawn()[""])
    put(room("kinds/tree/faulty.tif"), drawn()[""][:-20])
    return {**said, "pdf": "a PDF", "text": "no TIFF file"}


def kinds(room: Room, *_given: object) -> None:
    """They have a status and a count of their own, and the table says what they are."""
    if not shutil.which("tiffcp"):
        print("SKIPPED: tiffcp (libtiff-tools) is not installed, so: no TIFF files of other kinds are looked at")
        return
    said = make(room)
    check = ["check", "kinds/tree", "--table", "kinds/t.sqlite"]
    status, out, error = room.run(*check, "--names")
    count = len(said)
    room.claim("other kinds: the summary", (status, out.decode().partition("; ")[0]), (
        1, f"faxes {count + 2}: 1 good, 1 faulty, 0 not read, {count} of other kinds"))  # fmt: skip
    rows = {os.path.basename(path).decode()[:-4]: row for path, row in room.rows("kinds/t.sqlite").items()}
    found = {name: row["why"] for name, row in rows.items() if row["status"] == "2"}
    room.claim("other kinds: the table", found, said)
    named = all(f"{name}.tif: no fax that is read here, but {kind}: fault page 0 row 0: " in error
                for name, kind in said.items())  # fmt: skip
    room.claim(f"other kinds: named: {error}", named)
    room.claim("other kinds: --faults-ok", room.run(*check, "--faults-ok")[0], 0)
    told(room, said)
    kept(room, said)
    older(room, check, rows)


def told(room: Room, said: dict[str, str]) -> None:
    """What a summary and Prometheus have of them."""
    summary = json.loads(room.run("table", "kinds/t.sqlite", "--summary")[1])
    counts = {kind: list(said.values()).count(kind) for kind in said.values()}
    got = [summary[name] for name in ("good", "faulty", "other", "not_read", "kinds")]
    room.claim("other kinds: --summary", (got, len(summary["faults"])), ([1, 1, len(said), 0, counts], 1))
    figures = room.run("table", "kinds/t.sqlite", "--prometheus")[1].decode()
    lines = [line.rpartition("status=")[2] for line in figures.splitlines() if line.startswith("faxpages_archive_faxes{")]
    room.claim("other kinds: --prometheus", (lines, "Unsupported" in figures), (
        ['"good"} 1', '"faulty"} 1', f'"other"}} {len(said)}', '"not_read"} 0'], False))  # fmt: skip


def kept(room: Room, said: dict[str, str]) -> None:
    """They are not copied, and by --all-or-nothing nothing is deleted beside them."""
    before = sorted(os.listdir(room("kinds/tree")))
    os.rename(room("kinds/tree/faulty.tif"), room("kinds/faulty.tif"))
    words = ["convert", "kinds/tree", "kinds/copies", "--to", "mmr", "--table", "kinds/c.sqlite", "--delete",
             "--all-or-nothing"]
    status, _, error = room.run(*words)
    os.rename(room("kinds/faulty.tif"), room("kinds/tree/faulty.tif"))
    room.claim("other kinds: nothing is deleted", (status, "not all is copied; nothing is deleted" in error), (1, True))
    there = sorted(os.listdir(room("kinds/tree"))), os.listdir(room("kinds/copies"))
    room.claim("other kinds: they are not copied", there, (before, ["good.tif"]))


def make_older(table: str) -> None:
    """Makes a table as version 1.5 wrote it."""
    with contextlib.closing(sqlite3.connect(table)) as base:
        base.execute("ALTER TABLE faxes RENAME TO new")
        base.execute(f"CREATE TABLE faxes ({OLD.replace('path', 'path PRIMARY KEY NOT NULL', 1)})")
        base.execute(f"INSERT INTO faxes SELECT {OLD} FROM new")
        base.execute("UPDATE faxes SET status = 1, why = NULL WHERE status = 2")
        base.execute("DROP TABLE new")
        base.execute("DELETE FROM job WHERE name IN ('only', 'parts')")
        for table in ("originals", "only_copies"):
            base.execute(f"DROP TABLE IF EXISTS {table}")
        base.execute("DELETE FROM job WHERE name IN ('only copies', 'verification', 'sum')")
        base.execute("PRAGMA user_version = 2")
        base.commit()


def older(room: Room, check: list[str], rows: dict[str, dict[str, str]]) -> None:
    """A table of version 1.5, which called them faulty, is read, and goes on."""
    make_older(room("kinds/t.sqlite"))
    wanted = {name: "2" if row["status"] == "2" and name != "tiles" else row["status"].replace("2", "1")
              for name, row in rows.items()}
    for way in ("as it stands", "brought up to date"):
        found = {os.path.basename(path).decode()[:-4]: row["status"] for path, row in room.rows("kinds/t.sqlite").items()}
        room.claim(f"a table of 1.5, {way}", found, wanted)
        version = 2 if way == "as it stands" else 5
        room.claim(f"a table of 1.5, {way}: its version", ask(room, "kinds/t.sqlite", "PRAGMA user_version"), [(version,)])
        out = room.run(*check)[1].decode()
        room.claim(f"a table of 1.5, {way}: goes on", f"; 0 done now, {len(rows)} before, 0 gone" in out)
    room.run(*check, "--again", "all")
    whole = {os.path.basename(path).decode()[:-4]: dict(row) for path, row in room.rows("kinds/t.sqlite").items()}
    room.claim("a table of 1.5: looked at again", whole, rows)


PARTS: list[Part] = [kinds]
