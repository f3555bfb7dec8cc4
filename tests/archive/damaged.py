"""Tables that are damaged: no row of one is believed, whatever bytes have turned, and what can be made anew is."""

from __future__ import annotations

import contextlib
import os
import random
import re
import shutil
import signal
import sqlite3

import faxpages
from tests.archive.converting import files_below
from tests.archive.drawn import playing
from tests.archive.keeping import TIME, drawn, put
from tests.archive.kinds import make_older
from tests.archive.only import two, words_of
from tests.archive.room import Part, Room, Rows
from tests.archive.verifying import turn, verify

NAMES = [f"{number}.tif" for number in range(40)]
# How many tables are damaged.
DRAWS = 120
SAID = "t.sqlite is damaged: "


def made(place: str, *words: str, names: list[str] | None = None) -> None:
    """Faxes, of which some have been deleted after they were copied, and a table of those that are there."""
    shutil.rmtree(place, ignore_errors=True)
    for name in NAMES[:6]:
        put(f"{place}/tree/{name}", drawn()[""], mtime=TIME)
    playing.run(words_of(place, "--delete", *words), place, playing.Trouble())
    for name in (names or NAMES)[6:]:
        put(f"{place}/tree/{name}", drawn()[""], mtime=TIME)
    playing.run(words_of(place, *words), place, playing.Trouble())


def all_of(table: str) -> dict[str, list[tuple[object, ...]]]:
    """All that a table says of faxes and of copies."""
    with contextlib.closing(sqlite3.connect(table)) as base:
        return {name: sorted(base.execute(f"SELECT * FROM {name}"), key=repr) for name in (
            "faxes", "times", "copies", "originals")}  # fmt: skip


def both(place: str) -> list[dict[bytes, bytes]]:
    """The faxes and the copies."""
    return [files_below(f"{place}/{name}") for name in ("tree", "copies")]


def believed(room: Room, *_given: object) -> None:
    """Bytes of a table are turned, many times: where a command believes it all rows are as they were, and else it
    says so, with status 3, and nothing is changed."""
    place = room("damaged-drawn")
    made(place)
    table, rng = f"{place}/t.sqlite", random.Random("damaged")
    with open(table, "rb") as file:
        whole = file.read()
    rows, files, counts = all_of(table), both(place), {True: 0, False: 0}
    for draw in range(DRAWS):
        data = bytearray(whole)
        for _ in range(rng.choice([1, 1, 4, 30])):
            data[rng.randrange(100, len(data))] ^= 1 << rng.randrange(8)
        with open(table, "wb") as file:
            file.write(data)
        for words in (["table", table, "--csv"], words_of(place)):
            ran = playing.run(words, place, playing.Trouble())
            named = "is damaged: " in ran.error or "another program" in ran.error
            said = ran.status == 3 and ran.error.count("\n") == 1 and named
            counts[said] += 1
            if not said:
                now = all_of(table)
                other = [(now[name], rows[name]) for name in rows if now[name] != rows[name]] if now != rows else ""
                said_of = f"draw {draw}, {words[0]}: {ran.error} {str(other)[:3000]}"
                room.claim(said_of, (ran.status, now == rows), (0, True))
            elif words[0] == "convert":
                room.claim(f"draw {draw}: nothing is changed", both(place) == files)
    room.claim(f"damage that is said, and that which is none: {counts}", counts[True] > DRAWS // 2)


def one_value(room: Room, *_given: object) -> None:
    """Each value of a row, changed by itself, is found."""
    place = room("damaged-value")
    made(place)
    with contextlib.closing(sqlite3.connect(f"{place}/t.sqlite")) as base:
        columns = [(name, row[1]) for name in ("faxes", "times", "copies", "originals", "only_copies")
                   for row in base.execute(f"PRAGMA table_info({name})")]  # fmt: skip
    free = {("only_copies", it) for it in ("fault", "why", "verified", "run", "sum")}
    for table, column in columns:
        shutil.copy(f"{place}/t.sqlite", f"{place}/copy.sqlite")
        with contextlib.closing(sqlite3.connect(f"{place}/copy.sqlite")) as base:
            base.execute(f"UPDATE {table} SET {column} = CAST('other' AS BLOB) "
                         f"WHERE rowid = (SELECT max(rowid) FROM {table})")
            base.commit()
        if (table, column) in free:
            continue
        status, _, error = room.run("table", f"{place}/copy.sqlite", "--csv")
        room.claim(f"{table}.{column}: {error}", (status, "damaged" in error), (3, True))


def renewed(room: Room, *_given: object) -> None:
    """--renew keeps the damaged table, and makes one with the same rows; the copies are known by their marks, and so
    are the only ones, with their digests. Without it nothing is done."""
    _, other = two()
    for way in ("a row", "many rows", "the last pages", "what says which are the only copies"):
        place = room(f"renewed {len(way)}")
        made(place)
        before = rows_of(room, place)
        hurt(f"{place}/t.sqlite", way)
        with open(f"{place}/t.sqlite", "rb") as file:
            damaged = file.read()
        ran = playing.run(words_of(place), place, playing.Trouble())
        room.claim(f"{way}: {ran.error}", (ran.status, SAID in ran.error, "--renew makes it anew" in ran.error,
                   os.path.exists(f"{place}/t.sqlite-damaged")), (3, True, True, False))  # fmt: skip
        put(f"{place}/t.sqlite-damaged", b"of somebody else")
        put(f"{place}/t.sqlite-new", b"of somebody else")
        put(f"{place}/.t.sqlite.new-letters", b"of somebody else")
        copies = files_below(f"{place}/copies")
        ran = playing.run(words_of(place, "--renew"), place, playing.Trouble())
        with open(f"{place}/t.sqlite-damaged-2", "rb") as file:
            kept = file.read() == damaged
        same = rows_of(room, place) == before, files_below(f"{place}/copies") == copies
        others = [os.path.getsize(f"{place}/{name}") for name in ("t.sqlite-new", ".t.sqlite.new-letters")]
        room.claim(f"{way}: renewed: {ran.error}{ran.out}", (ran.status, kept, *same, others), (
            0, True, True, True, [16, 16]))
        put(f"{place}/tree/9.tif", other)
        put(f"{place}/tree/3.tif", other)
        ran = playing.run(words_of(place, "--names"), place, playing.Trouble())
        with open(f"{place}/copies/9.tif", "rb") as file:
            room.claim(f"{way}: the copies are ours, and the only ones stay: {ran.error}", (
                ran.status, "3.tif: not read: Exists: the only copy of a fax that is gone\n" in ran.error,
                ran.error.count("\n"), file.read()), (3, True, 1, faxpages.convert(other, "mmr")))  # fmt: skip
        turn(f"{place}/copies/4.tif")
        ran = verify(place, "--names")
        room.claim(f"{way}: the only copies: {ran.error}", (ran.status, ran.out.partition(":")[0],
                   "4.tif: the only copy: Changed" in ran.error), (1, "only copies 6", True))  # fmt: skip


def rows_of(room: Room, place: str) -> Rows:
    """The rows of a table."""
    return room.rows(f"{place}/t.sqlite")


def hurt(table: str, way: str) -> None:
    """Damages a table."""
    if way == "the last pages":
        with open(table, "r+b") as file:
            file.seek(os.path.getsize(table) * 3 // 4 // 4096 * 4096)
            file.write(b"\xff" * (os.path.getsize(table) - file.tell()))
        return
    if way == "many rows":
        with contextlib.closing(sqlite3.connect(table)) as base:
            base.execute("UPDATE faxes SET status = 1")
            base.execute("DELETE FROM times WHERE path > '2'")
            base.commit()
        return
    statement = "UPDATE faxes SET rows = rows + 1 WHERE path = '20.tif'"
    if way == "what says which are the only copies":
        statement = "UPDATE only_copies SET digest = '0' || substr(digest, 2)"
    with contextlib.closing(sqlite3.connect(table)) as base:
        base.execute(statement)
        if way == "what says which are the only copies":
            base.execute("DELETE FROM deleted")
        base.commit()


def found_at_each(room: Room, name: str, pattern: bytes, after: int, bit: int, is_older: bool = False) -> int:
    """Turns one bit at each place where a table has these bytes, one at a time: each is found. Answers how many."""
    place = room(name)
    made(place)
    if is_older:
        make_older(f"{place}/t.sqlite")
        with contextlib.closing(sqlite3.connect(f"{place}/t.sqlite")) as base:
            base.execute("VACUUM")
    with open(f"{place}/t.sqlite", "rb") as file:
        whole = file.read()
    places = [match.start() + after for match in re.finditer(pattern, whole)]
    for at in places:
        data = bytearray(whole)
        data[at] ^= bit
        with open(f"{place}/copy.sqlite", "wb") as file:
            file.write(data)
        status, _, error = room.run("table", f"{place}/copy.sqlite", "--csv")
        room.claim(f"{name}, byte {at}: {error}", (status, "copy.sqlite is damaged: " in error), (3, True))
    return len(places)


def unreadable(room: Room, *_given: object) -> None:
    """Where the names of tables, or what makes them, are no text any more, this is damage like any other."""
    count = found_at_each(room, "damaged-schema", rb"CREATE TABLE|tablefaxes", 7, 0x80)
    room.claim("the tables are named", count > 3)
    place = room("damaged-schema")
    shutil.copy(f"{place}/copy.sqlite", f"{place}/t.sqlite")
    ran = playing.run(words_of(place, "--renew"), place, playing.Trouble())
    room.claim(f"and such a table is made anew: {ran.error}", (ran.status, "kept as" in ran.error), (0, True))
    count = found_at_each(room, "damaged-columns", rb"deleted REAL|unread INTEGER|digest TEXT|words TEXT", 1, 0x02)
    room.claim("the columns are named", count > 3)


def other_paths(room: Room, *_given: object) -> None:
    """Where one bit turns the path 20.tif into 28.tif, in a table or in its index alone, the row is found."""
    count = found_at_each(room, "damaged-path", rb"20\.tif", 1, 0x08)
    room.claim("the path stands in four tables and their indexes", count >= 8)
    count = found_at_each(room, "damaged-deleted", rb"(?<!\d)3\.tif", 0, 0x04)
    room.claim("so does that of one that was deleted, in two", count >= 4)
    count = found_at_each(room, "damaged-older", rb"20\.tif", 1, 0x08, is_older=True)
    room.claim("of version 1.5, which kept no sums, it stands in three", count >= 6)


def header(room: Room, *_given: object) -> None:
    """Each bit of what says which version a table is of, and how it is written, is found where it has turned, or
    changes nothing."""
    place = room("damaged-header")
    made(place)
    table, rows = f"{place}/t.sqlite", all_of(f"{place}/t.sqlite")
    with open(table, "rb") as file:
        whole = file.read()
    said = 0
    for bit in [8 * byte + bit for byte in (18, 19, 47, *range(60, 64)) for bit in range(8)]:
        data = bytearray(whole)
        data[bit // 8] ^= 1 << bit % 8
        with open(table, "wb") as file:
            file.write(data)
        ran = playing.run(words_of(place), place, playing.Trouble())
        if ran.status == 3 and any(it in ran.error for it in ("is damaged: ", "another program, or of a later")):
            said += 1
            error = playing.run(["table", table, "--csv"], place, playing.Trouble()).error
            room.claim(f"header, bit {bit}, as table says it: {error}", "makes it one" in error, False)
            continue
        with contextlib.suppress(sqlite3.Error):
            room.claim(f"header, bit {bit}: {ran.error}", (ran.status, all_of(table) == rows), (0, True))
    room.claim("what is said of headers", said > 30)


def of_itself(room: Room, *_given: object) -> None:
    """What a table says of itself, and of its last run, is not believed where it has turned, in the table or in its
    index alone."""
    place = room("damaged-itself")
    made(place)
    verify(place)
    copy = f"{place}/copy.sqlite"
    with contextlib.closing(sqlite3.connect(f"{place}/t.sqlite")) as base:
        names = [str(name) for (name,) in base.execute("SELECT name FROM job")]
    room.claim("what a table says of itself", {"job", "table", "where", "only", "verification", "sum"} <= set(names))
    for statement in (*(f"UPDATE job SET value = value || ' ' WHERE name = '{name}'" for name in names),
                      *(f"DELETE FROM job WHERE name = '{name}'" for name in names if name != "sum"),
                      "UPDATE runs SET number = number + 1 WHERE number = (SELECT max(number) FROM runs)",
                      "UPDATE runs SET ended = NULL", "UPDATE runs SET words = '[]'"):
        shutil.copy(f"{place}/t.sqlite", copy)
        with contextlib.closing(sqlite3.connect(copy)) as base:
            base.execute(statement)
            base.commit()
        status, _, error = room.run("table", copy, "--csv")
        room.claim(f"{statement}: {error}", (status, "copy.sqlite is damaged: " in error), (3, True))
    count = found_at_each(room, "damaged-job", rb"only(?!_)", 1, 0x08)
    room.claim("its names stand in the table and in its index", count >= 2)
    count = found_at_each(room, "damaged-sum", rb"(?<![a-z_ ])sum(?![ a-z_])", 1, 0x04)
    room.claim("its sum stands in the table and in its index", count >= 2)


def renewed_amid(room: Room, *_given: object) -> None:
    """--renew that is killed at each call, and then done again, knows all that it had known at once: whose the copies
    are, and which are the only ones."""
    _, other = two()
    place = room("renewed-amid")
    made(place, names=NAMES[:8])
    hurt(f"{place}/t.sqlite", "many rows")
    os.rename(place, f"{place}-before")
    wrong, at = [], 0
    for at in range(1, 200, 2):
        shutil.rmtree(place, ignore_errors=True)
        shutil.copytree(f"{place}-before", place)
        first = playing.run(words_of(place, "--renew"), place, playing.Trouble(at, kill=signal.SIGKILL))
        put(f"{place}/tree/7.tif", other)
        ran = playing.run(words_of(place, "--renew"), place, playing.Trouble())
        only = verify(place)
        with open(f"{place}/copies/7.tif", "rb") as file:
            same = file.read() == faxpages.convert(other, "mmr")
        left = [name for name in os.listdir(place) if ".new-" in name or "-damaged-" in name]
        if (ran.status, only.status, only.out.partition(":")[0], same, left) != (0, 0, "only copies 6", True, []):
            wrong.append((at, ran, only, left))
        if first.status != -signal.SIGKILL or len(wrong) > 2:
            break
    room.claim(f"--renew is killed at each of {at} calls", (wrong, 60 < at < 199), ([], True))


PARTS: list[Part] = [believed, one_value, renewed, unreadable, other_paths, header, of_itself, renewed_amid]
