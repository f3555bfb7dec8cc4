"""bad_rows and lost_rows: what receivers counted, and what salvage does not find, beside what the module and the
program say of the same faxes; and tables of versions that did not keep them."""

from __future__ import annotations

import contextlib
import csv
import io
import json
import os
import shutil
import sqlite3
import struct
import subprocess
import zlib

from tests import TOP
from tests.archive import made
from tests.archive.checking import ask
from tests.archive.drawn.contents import with_number
from tests.archive.keeping import drawn, put
from tests.archive.kinds import NEW_COLUMNS, make_older
from tests.archive.room import Part, Room, Rows

SAMPLES = ["damaged-fourth-page.tif", "received/over-a-noisy-line.tif", "second-row-missing.tif", "three-pages.tif"]
BAD_ROWS, CLEAN = 326, 327
# Fields of a received page, by their tags; and what bad_rows then is.
FIELDS: list[tuple[dict[int, int], int]] = [
    ({BAD_ROWS: 23, CLEAN: 1}, 23), ({BAD_ROWS: 0, CLEAN: 0}, 0), ({CLEAN: 2}, 1), ({BAD_ROWS: 0, CLEAN: 1}, 1),
    ({BAD_ROWS: 7}, 7), ({CLEAN: 0}, 0)]  # fmt: skip


def make(room: Room, tree: str) -> list[bytes]:
    """A tree of good, damaged, received and refused faxes."""
    import faxpages

    for number, (fields, _) in enumerate(FIELDS):
        fax = drawn()[""]
        for tag, value in fields.items():
            fax = with_number(fax, tag, value)
        put(room(f"{tree}/received-{number}.tif"), fax)
        place = bytearray(fax)
        place[8:14] = bytes(6)
        put(room(f"{tree}/received-and-damaged-{number}.tif"), bytes(place))
    for name in SAMPLES:
        put(room(f"{tree}/{os.path.basename(name)}"), open(os.path.join(TOP, "samples", name), "rb").read())
    for number, fax in enumerate(made.originals(faxpages, 60)):
        put(room(f"{tree}/{number}.tif"), fax)
    put(room(f"{tree}/text.tif"), b"Dear Anna\n")
    put(room(f"{tree}/cut.tif"), drawn()[""][:-20])
    return [os.fsencode(os.path.join(room(tree), name)) for name in sorted(os.listdir(room(tree)))]


def by_module(path: bytes, status: str) -> tuple[str, str]:
    """The two columns by the module's pages: those of the pages before the first refused one."""
    import faxpages

    bad, lost = list[int](), list[int]()
    try:
        for page in faxpages.open(os.fsdecode(path)).pages:
            it = page.received
            bad.append(it.bad_rows if it.bad_rows else int(bool(it.clean)))
            lost.append(sum(stretch.rows for stretch in page.salvaged().lost))
    except faxpages.FaxError:
        lost.clear()
    return str(sum(bad)) if bad else "", str(sum(lost)) if lost and status in "01" else ""


def is_noted(room: Room, path: bytes) -> bool:
    """Whether the program's check prints a note of bad rows."""
    with open(path, "rb") as file:
        ran = subprocess.run([room.program, "check", "--received"], stdin=file, capture_output=True, check=False)
    return b": N6 " in ran.stdout


def row_counts(room: Room, *_given: object) -> None:
    """All rows have both numbers, however they are printed, and the sums are those of the rows."""
    paths = make(room, "received/tree")
    room.run("check", "received/tree", "--table", "received/t.sqlite")
    rows = room.rows("received/t.sqlite")
    got = {path: (rows[path]["bad_rows"], rows[path]["lost_rows"]) for path in paths}
    room.claim("bad_rows and lost_rows", got, {path: by_module(path, rows[path]["status"]) for path in paths})
    received = [os.fsencode(room(f"received/tree/received-{number}.tif")) for number in range(len(FIELDS))]
    counted = [int(rows[path]["bad_rows"]) for path in received]
    room.claim("bad_rows of fields", counted, [count for _, count in FIELDS])
    mended = [path for path in paths if is_noted(room, path)]
    room.claim("bad_rows, and the notes of check", [path for path in paths if got[path][0] not in ("", "0")] == mended)
    printed(room, mended, rows)
    damaged = [row for row in rows.values() if row["status"] == "1"]
    room.claim("damaged faxes of all kinds", {(row["lost_rows"] == "", row["lost_rows"] == "0") for row in damaged} >= {
        (True, False), (False, False)})  # fmt: skip
    sums(room, rows)


def printed(room: Room, mended: list[bytes], rows: Rows) -> None:
    """What --mended prints."""
    table = ["table", "received/t.sqlite", "--mended"]
    names = [os.path.basename(path).decode() for path in mended]
    counts = [int(rows[path]["bad_rows"]) for path in mended]
    status, out, error = room.run(*table)
    room.claim("--mended", (status, error, out.decode().splitlines()), (0, "", [
        f"{name}: mended by the receiver: {count} row{'s' * (count != 1)}" for name, count in zip(names, counts)]))
    out = room.run(*table, "--csv")[1]
    room.claim("--mended --csv", [row["path"] for row in csv.DictReader(io.StringIO(out.decode()))], names)
    told = [json.loads(line) for line in room.run(*table, "--json")[1].splitlines()]
    room.claim("--mended --json", [(it["path"], it["bad_rows"]) for it in told], list(zip(names, counts)))
    for words in (["--faulty"], ["--summary"], ["--prometheus"]):
        room.claim(f"--mended {words}", room.run(*table, *words)[0], 2)


def sums(room: Room, rows: Rows) -> None:
    """What the summary and Prometheus have of both."""
    summary = json.loads(room.run("table", "received/t.sqlite", "--summary")[1])
    figures = room.run("table", "received/t.sqlite", "--prometheus")[1].decode()
    for name in ("bad_rows", "lost_rows"):
        known = [int(row[name]) for row in rows.values() if row[name]]
        read = [row for row in rows.values() if (row["status"] in "01" if name == "lost_rows" else row["width"])]
        unknown = sum(not row[name] for row in read)
        wanted = {name: sum(known), f"{name}_faxes": sum(map(bool, known)), f"{name}_unknown": unknown}
        room.claim(f"--summary: {name}", {key: summary[key] for key in wanted}, wanted)
        lines = {line.split("{")[0]: line.rpartition(" ")[2] for line in figures.splitlines()}
        room.claim(f"--prometheus: {name}", {key: lines[f"faxpages_archive_{key}"] for key in wanted}, {
            key: str(value) for key, value in wanted.items()})


def make_late(table: str) -> None:
    """Makes a table as versions 1.12 to 1.14 wrote it, with their sums."""
    with contextlib.closing(sqlite3.connect(table)) as base:
        for name in NEW_COLUMNS:
            base.execute(f"ALTER TABLE faxes DROP COLUMN {name}")
        columns = [row[1] for row in base.execute("PRAGMA table_info(faxes)")]
        rows = base.execute(
            f"SELECT path, {', '.join(f'faxes.{name}' for name in columns[1:])}, since, checked, run, origin, "
            "copies.size, copies.mtime, copies.digest, copies.ours, fields_size, fields_mtime, fields_digest, fields_ours, "
            "originals.size, originals.mtime, originals.digest FROM faxes LEFT JOIN times USING (path) "
            "LEFT JOIN copies USING (path) LEFT JOIN originals USING (path)").fetchall()
        base.executemany("UPDATE originals SET sum = ? WHERE path = ?", ((sum_of(*row), row[0]) for row in rows))
        job = base.execute("SELECT name, value FROM job WHERE name != 'sum' ORDER BY +name").fetchall()
        run = base.execute("SELECT * FROM runs ORDER BY number DESC LIMIT 1").fetchall()
        tables = base.execute("SELECT type, name, tbl_name, sql FROM sqlite_master ORDER BY rowid").fetchall()
        base.execute("UPDATE job SET value = ? WHERE name = 'sum'", (str(sum_of(*job, *run, *tables)),))
        base.execute("PRAGMA user_version = 4")
        base.commit()


def sum_of(*values: object) -> int:
    """The sum of a row."""
    return zlib.crc32(repr(values).encode("utf-8", "surrogatepass"))


def make_middle(table: str) -> None:
    """Makes a table as versions 1.6 to 1.11 wrote it, without sums."""
    with contextlib.closing(sqlite3.connect(table)) as base:
        for name in NEW_COLUMNS:
            base.execute(f"ALTER TABLE faxes DROP COLUMN {name}")
        for name in ("originals", "only_copies"):
            base.execute(f"DROP TABLE {name}")
        base.execute("DELETE FROM job WHERE name IN ('only copies', 'verification', 'sum')")
        base.execute("PRAGMA user_version = 3")
        base.commit()


EARLIER = {"1.5": make_older, "1.11": make_middle, "1.14": make_late}


def earlier(room: Room, *_given: object) -> None:
    """Of rows of an earlier version neither number is known, which --mended says, until they are read again."""
    make(room, "earlier/tree")
    room.run("check", "earlier/tree", "--table", "earlier/new.sqlite")
    rows = room.rows("earlier/new.sqlite")
    for version, make_it in EARLIER.items():
        # 1.5 did not say what files of other kinds are.
        lacking = (*NEW_COLUMNS, "why") if version == "1.5" else NEW_COLUMNS
        empty = {path: dict(row, **dict.fromkeys(lacking, "")) for path, row in rows.items()}
        table = f"earlier/{version}.sqlite"
        shutil.copy(room("earlier/new.sqlite"), room(table))
        make_it(room(table))
        room.claim(f"{version}: read as it stands", room.rows(table), empty)
        not_known(room, version, table)
        room.run("merge", f"{table}-merged", table)
        room.claim(f"{version}: merged", room.rows(f"{table}-merged"), empty)
        words = ["check", "earlier/tree", "--table", table]
        status, out, _ = room.run(*words)
        room.claim(f"{version}: goes on", (status, "; 0 done now, " in out.decode()), (1, True))
        room.claim(f"{version}: its version", ask(room, table, "PRAGMA user_version"), [(5,)])
        room.claim(f"{version}: brought up to date", room.rows(table), empty)
        not_known(room, version, table)
        room.run(*words, "--again", "all")
        room.claim(f"{version}: read again", room.rows(table), rows)
        room.claim(f"{version}: --mended", room.run("table", table, "--mended")[::2], (0, ""))
        room.run("merge", f"{table}-merged", table)
        room.claim(f"{version}: merged again", room.rows(f"{table}-merged"), rows)
    turned(room)


def not_known(room: Room, version: str, table: str) -> None:
    """What is said of a table that does not have both numbers."""
    summary = json.loads(room.run("table", table, "--summary")[1])
    listed = sum(bool(row["width"]) for row in room.rows(table).values())
    got = [summary[key] for key in ("bad_rows", "bad_rows_faxes", "bad_rows_unknown", "lost_rows")]
    room.claim(f"{version}: what is not known", got, [None, 0, listed, None])
    status, out, error = room.run("table", table, "--mended")
    said = f"{listed} faxes were read by a version before 1.15" in error and "--again all" in error
    room.claim(f"{version}: --mended: {error}", (status, out, said), (3, b"", True))


def turned(room: Room) -> None:
    """A row of 1.14 that is not as it was written is not brought up to date; nor is a table of 1.15 that says that it
    is one of 1.14."""
    shutil.copy(room("earlier/new.sqlite"), room("earlier/turned.sqlite"))
    make_late(room("earlier/turned.sqlite"))
    with contextlib.closing(sqlite3.connect(room("earlier/turned.sqlite"))) as base:
        base.execute("UPDATE faxes SET status = 0 WHERE path = 'cut.tif'")
        base.commit()
    shutil.copy(room("earlier/new.sqlite"), room("earlier/version.sqlite"))
    with open(room("earlier/version.sqlite"), "r+b") as file:
        file.seek(60)
        file.write(struct.pack(">I", 4))
    for name, why in (("turned", "as that of cut.tif"), ("version", "its version is another one")):
        for words in (["check", "earlier/tree", "--table"], ["table", "--csv"]):
            status, _, error = room.run(*words, f"earlier/{name}.sqlite")
            room.claim(f"a table that has turned: {name}, {words[0]}: {error}", (status, why in error), (3, True))


PARTS: list[Part] = [row_counts, earlier]
