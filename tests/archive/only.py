"""The only copies of faxes: what --delete leaves is never replaced, whatever a table says; and a fax goes only where its
copy stands right before."""

from __future__ import annotations

import contextlib
import errno
import fcntl
import json
import os
import re
import shutil
import signal
import sqlite3
import subprocess
from unittest import mock
from typing import Callable, Iterator

from tests.archive.converting import files_below
from tests.archive.drawn import going, playing
from tests.archive.keeping import CALLS, TIME, drawn, put
from tests.archive.room import Part, Room

# At two calls for each of three faxes, TARGET gone and renamed, a fax may go with its copy.
LEAST = 12
MARKS = ("setxattr", "getxattr", "removexattr")


def two() -> tuple[bytes, bytes]:
    """Two faxes with other rows."""
    import faxpages

    one, other = (faxpages.convert(b"P4 8 %d\n" % rows + bytes([24]) * rows, "mh") for rows in (1, 2))
    return one, other


def words_of(place: str, *more: str) -> list[str]:
    return ["convert", f"{place}/tree", f"{place}/copies", "--to", "mmr", "--table", f"{place}/t.sqlite", "--gone", *more]


@contextlib.contextmanager
def refused(error: int, *names: str) -> Iterator[None]:
    """Calls of the system that are refused in runs that are begun now."""
    kept = {name: getattr(os, name) for name in names}

    def refuse(*_given: object) -> None:
        raise OSError(error, os.strerror(error))

    try:
        for name in names:
            setattr(os, name, refuse)
        yield
    finally:
        for name, call in kept.items():
            setattr(os, name, call)


def backup(room: Room, *_given: object) -> None:
    """A table out of a backup does not have the only copies be written over, with attributes and without."""
    one, other = two()
    for way, error in (("with attributes", None), ("without attributes", errno.ENOTSUP)):
        place = room(f"backup-{error}")
        for fields in (list[str](), ["--fields"]):
            shutil.rmtree(place, ignore_errors=True)
            put(f"{place}/tree/a.tif", one)
            put(f"{place}/tree/b.tif", one)
            with refused(error or 0, *(MARKS if error else ())):
                playing.run(words_of(place, *fields), place, playing.Trouble())
                shutil.copy(f"{place}/t.sqlite", f"{place}/backup.sqlite")
                ran = playing.run(words_of(place, "--delete", *fields), place, playing.Trouble())
                room.claim(f"{way}: deleted: {ran.error}", (ran.status, os.listdir(f"{place}/tree")), (0, []))
                before = files_below(f"{place}/copies")
                shutil.copy(f"{place}/backup.sqlite", f"{place}/t.sqlite")
                put(f"{place}/tree/a.tif", other)
                put(f"{place}/tree/b.tif", one)
                ran = playing.run(words_of(place, *fields), place, playing.Trouble())
            room.claim(f"{way}: a fax with an old name: {ran.out}", ran.status, 3)
            room.claim(f"{way}: no copy is written over", files_below(f"{place}/copies") == before)
            (why,) = {row["why"] for row in room.rows(f"{place}/t.sqlite").values() if row["fault"]}
            room.claim(f"{way}: told", why, "the only copy of a fax that is gone")
    gone_by_hand(room, one, other)


def gone_by_hand(room: Room, one: bytes, other: bytes) -> None:
    """The same where somebody else deleted the fax."""
    place = room("gone-by-hand")
    put(f"{place}/tree/a.tif", one)
    playing.run(words_of(place), place, playing.Trouble())
    shutil.copy(f"{place}/t.sqlite", f"{place}/backup.sqlite")
    os.unlink(f"{place}/tree/a.tif")
    playing.run(words_of(place), place, playing.Trouble())
    shutil.copy(f"{place}/backup.sqlite", f"{place}/t.sqlite")
    copy_stays(room, "a fax that somebody deleted", place, other)


def copy_stays(room: Room, name: str, place: str, other: bytes) -> None:
    """Where a fax with other rows comes under an old name the copy that is there is not replaced, and that is told."""
    before = files_below(f"{place}/copies")
    put(f"{place}/tree/a.tif", other)
    ran = playing.run(words_of(place), place, playing.Trouble())
    room.claim(name, (ran.status, files_below(f"{place}/copies") == before), (3, True))


def adopted(room: Room, *_given: object) -> None:
    """Two tables with one TARGET: what one has adopted, and deleted the faxes of, the other does not replace."""
    one, other = two()
    place = room("adopted")
    put(f"{place}/tree/a.tif", one)
    second = [*words_of(place)]
    second[second.index(f"{place}/t.sqlite")] = f"{place}/second.sqlite"
    playing.run(words_of(place), place, playing.Trouble())
    playing.run([*second, "--adopt"], place, playing.Trouble())
    copy_stays(room, "what another table has adopted", place, other)
    put(f"{place}/tree/a.tif", one)
    ran = playing.run([*second, "--delete"], place, playing.Trouble())
    room.claim("and deleted the fax of", (ran.status, os.listdir(f"{place}/tree")), (0, []))
    copy_stays(room, "is not replaced", place, other)


def merged(room: Room, *_given: object) -> None:
    """The copies of parts are those of the table that is merged of them."""
    one, other = two()
    place = room("merged-copies")
    for name in "abcd":
        put(f"{place}/tree/{name}.tif", one)
    for part in (0, 1):
        words = words_of(place, "--share", f"{part}/2")
        words[words.index(f"{place}/t.sqlite")] = f"{place}/{part}.sqlite"
        playing.run(words, place, playing.Trouble())
    playing.run(["merge", f"{place}/t.sqlite", f"{place}/0.sqlite", f"{place}/1.sqlite"], place, playing.Trouble())
    playing.run(words_of(place, "--again", "copies"), place, playing.Trouble())
    for name in "abcd":
        put(f"{place}/tree/{name}.tif", other)
    ran = playing.run(words_of(place), place, playing.Trouble())
    room.claim("a merged table follows its faxes", (ran.status, len(set(files_below(f"{place}/copies").values()))), (0, 1))


def merged_deletions(room: Room, *_given: object) -> None:
    """What the parts of an array have deleted is counted by the table that is merged of them, however often it is."""
    one, _ = two()
    place = room("merged-deletions")
    for name in "abcdefgh":
        put(f"{place}/tree/{name}.tif", one)
    parts_of = [f"{place}/{part}.sqlite" for part in (0, 1)]
    deleted = []
    for part, table in enumerate(parts_of):
        words = words_of(place, "--share", f"{part}/2", "--delete")
        words[words.index(f"{place}/t.sqlite")] = table
        playing.run(words, place, playing.Trouble())
        deleted.append(json.loads(room.run("table", table, "--summary")[1])["deleted"])
    room.claim("the parts delete all", (sum(deleted), all(deleted), os.listdir(f"{place}/tree")), (8, True, []))
    for _ in range(2):
        status, _, error = room.run("merge", f"{place}/t.sqlite", *parts_of)
        told = json.loads(room.run("table", f"{place}/t.sqlite", "--summary")[1])
        room.claim(f"deletions are merged: {error}", (status, told["faxes"], told["deleted"]), (0, 0, 8))
        with contextlib.closing(sqlite3.connect(f"{place}/t.sqlite")) as base:
            noted = base.execute("SELECT value FROM job WHERE name = 'parts'").fetchone()
        room.claim("parts without a row are noted", len(json.loads(noted[0])) if noted else 0, 2)
    about_to_be_merged(room, place, parts_of)


def about_to_be_merged(room: Room, place: str, parts_of: list[str]) -> None:
    """A fax that a part was only about to delete is not counted, until the part knows that it is gone."""
    with contextlib.closing(sqlite3.connect(parts_of[0])) as base:
        base.execute("INSERT INTO deleted SELECT 'late.tif', size, mtime, digest, 0 FROM deleted LIMIT 1")
        base.commit()
    for deleted, wanted in ((0, 8), (1, 9), (0, 9)):
        with contextlib.closing(sqlite3.connect(parts_of[0])) as base:
            base.execute("UPDATE deleted SET deleted = ? WHERE path = 'late.tif'", (deleted,))
            base.commit()
        room.run("merge", f"{place}/t.sqlite", *parts_of)
        told = json.loads(room.run("table", f"{place}/t.sqlite", "--summary")[1])
        room.claim(f"about to be deleted, {deleted}", told["deleted"], wanted)


def target_goes(room: Room, *_given: object) -> None:
    """TARGET goes at each call of a run that deletes: all faxes that are left then stay, but for one, whose copy went in
    the instant after the last look at it, which is two calls of the system."""
    fax, place, lost = drawn()[""], room("target-goes"), []
    for name in "abc":
        put(f"{place}/tree/{name}.tif", fax)
    playing.run(words_of(place), place, playing.Trouble())
    os.rename(place, f"{place}-before")
    for replaces in (True, False):
        for at in range(1, 2 * CALLS):
            shutil.rmtree(place, ignore_errors=True)
            shutil.copytree(f"{place}-before", place)
            event = going.Goes(os.fsencode(f"{place}/copies"), os.fsencode(f"{place}/tree"), replaces)
            playing.run(words_of(place, "--delete"), place, playing.Trouble(at, event=event))
            if not os.path.exists(f"{place}/amid"):
                break
            with open(f"{place}/amid", encoding="utf-8") as file:
                gone = set(json.load(file)) - set(os.listdir(f"{place}/tree"))
            # Early in the run the copies are made again.
            copies = set(os.listdir(f"{place}/copies")) if os.path.exists(f"{place}/copies") else set()
            if gone - copies:
                lost.append((at, sorted(gone - copies)))
        room.claim(f"TARGET goes: all {at - 1} calls are met", 40 < at < 2 * CALLS - 1)
    room.claim("TARGET goes: one fax at most, at two calls for each", (
        [it for it in lost if len(it[1]) > 1], lost[LEAST:]), ([], []))  # fmt: skip


def other_names(room: Room, *_given: object) -> None:
    """A folder that folds case leads by two names to one copy, as hard links do: the second fax is told, each time."""
    one, other = two()
    place = room("folded")
    put(f"{place}/tree/a.tif", one)
    playing.run(words_of(place), place, playing.Trouble())
    put(f"{place}/tree/A.TIF", other)
    os.link(f"{place}/copies/a.tif", f"{place}/copies/A.TIF")
    before = files_below(f"{place}/copies")
    for _ in range(3):
        ran = playing.run(words_of(place), place, playing.Trouble())
        rows = {os.path.basename(path): row["why"] for path, row in room.rows(f"{place}/t.sqlite").items()}
        room.claim("two names of one copy", (ran.status, rows, files_below(f"{place}/copies") == before), (
            3, {b"a.tif": "", b"A.TIF": "the copy of a fax with another name"}, True))  # fmt: skip


def linked(room: Room, *_given: object) -> None:
    """Hard links of a fax go by one run, and so do links to faxes of the tree, which never lead nowhere."""
    one, _ = two()
    place = room("hard")
    put(f"{place}/tree/a.tif", one)
    for name in "bcd":
        os.link(f"{place}/tree/a.tif", f"{place}/tree/{name}.tif")
    ran = playing.run(words_of(place, "--delete"), place, playing.Trouble())
    room.claim(f"hard links: {ran.error}", (ran.status, os.listdir(f"{place}/tree")), (0, []))
    for first, last in (("a", "z"), ("z", "a")):
        place = room(f"links-{first}")
        put(f"{place}/tree/{first}.tif", one)
        os.symlink(f"{first}.tif", f"{place}/tree/{last}.tif")
        os.symlink(f"{last}.tif", f"{place}/tree/m.tif")
        ran = playing.run(words_of(place, "--follow", "--delete"), place, playing.Trouble())
        room.claim(f"links: {ran.error}", (ran.status, os.listdir(f"{place}/tree")), (0, []))
        place = room(f"kept-links-{first}")
        put(f"{place}/tree/{first}.tif", one)
        os.symlink(f"{first}.tif", f"{place}/tree/{last}.tif")
        put(f"{place}/copies/{last}.tif", b"x")
        playing.run(words_of(place, "--follow"), place, playing.Trouble())
        import faxpages

        put(f"{place}/copies/{last}.tif", faxpages.convert(one, "mmr"))
        ran = playing.run(words_of(place, "--follow", "--delete"), place, playing.Trouble())
        left = sorted(os.listdir(f"{place}/tree"))
        room.claim(f"what a link leads to that stays: {ran.error}", (ran.status, left), (3, ["a.tif", "z.tif"]))


def odd(room: Room, *_given: object) -> None:
    """A fax of a year that no table of before could keep; a copy that is the fax; and what cannot be deleted."""
    one, _ = two()
    place = room("late-year")
    put(f"{place}/tree/a.tif", one, mtime=10_000_000_000 * 10**9)
    if os.stat(f"{place}/tree/a.tif").st_mtime_ns >= 1 << 63:
        for more in (list[str](), ["--again", "copies"], ["--delete"]):
            ran = playing.run(words_of(place, *more), place, playing.Trouble())
            room.claim(f"the year 2286 {more}: {ran.error}", ran.status, 0)
    else:
        print("SKIPPED: no time after 2262 can be kept here, so: no fax of such a time is copied")
    place = room("itself")
    import faxpages

    put(f"{place}/tree/a.tif", faxpages.convert(one, "mmr"), 0o600)
    os.makedirs(f"{place}/copies")
    os.link(f"{place}/tree/a.tif", f"{place}/copies/a.tif")
    ran = playing.run(words_of(place, "--adopt", "--delete"), place, playing.Trouble())
    marks = [it for it in os.listxattr(f"{place}/tree/a.tif") if "faxpages" in it]
    room.claim("a copy that is the fax", (ran.status, marks, os.path.exists(f"{place}/tree/a.tif")), (3, [], True))
    not_deleted(room, one)


def not_deleted(room: Room, one: bytes) -> None:
    """What cannot be deleted is told, and is not counted as deleted."""
    place = room("not-deleted")
    for name in "ab":
        put(f"{place}/tree/{name}.tif", one)
    unlink = os.unlink

    def refuse(path: bytes, dir_fd: int | None = None) -> None:
        if path == b"b.tif":
            raise OSError(errno.EROFS, os.strerror(errno.EROFS))
        unlink(path, dir_fd=dir_fd)

    with mock.patch.object(os, "unlink", refuse):
        ran = playing.run(words_of(place, "--delete"), place, playing.Trouble())
    room.claim("what cannot be deleted", (ran.status, "NotDeleted: b.tif: Read-only file system" in ran.error,
                                          "deleted 1 faxes" in ran.out), (3, True, True))  # fmt: skip
    for wanted in (1, 2):
        told = json.loads(room.run("table", f"{place}/t.sqlite", "--summary")[1])
        out = room.run("table", f"{place}/t.sqlite", "--prometheus")[1].decode()
        room.claim("counted are those that are gone", (told["deleted"], f"}} {wanted}\n" in out.partition(
            "# TYPE faxpages_archive_deleted")[2]), (wanted, True))  # fmt: skip
        ran = playing.run(words_of(place, "--delete"), place, playing.Trouble())
    room.claim("it goes once it can", (ran.status, os.listdir(f"{place}/tree")), (0, []))
    killed_amid(room, one)


def staying(room: Room, *_given: object) -> None:
    """What is not deleted stays in the table, as what it is, with the reason, and is done again; what has gone
    otherwise has no row. What goes later needs no --gone."""
    one, other = two()
    place = room("staying")
    tree, copies, table = f"{place}/tree", f"{place}/copies", f"{place}/t.sqlite"
    cases = {"NotDeleted: Read-only file system": lambda: None, "NoMark: Read-only file system": lambda: None,
             "Changed": lambda: put(f"{tree}/b.tif", other), "NoCopy": lambda: os.unlink(f"{copies}/b.tif"),
             "": lambda: os.unlink(f"{tree}/b.tif")}  # fmt: skip
    for why, happens in cases.items():
        shutil.rmtree(place, ignore_errors=True)
        for name in "ab":
            put(f"{tree}/{name}.tif", one, mtime=TIME)
        with not_going(why.partition(":")[0], happens):
            ran = playing.run(words_of(place, "--delete"), place, playing.Trouble())
        told = json.loads(room.run("table", table, "--summary")[1])
        wanted = [int(bool(why)), int(bool(why)), 1, True]
        room.claim(f"what stays, {why!r}: {ran.error}", (
            ran.status, [told[it] for it in ("faxes", "good", "deleted", "finished")]), (3, wanted))  # fmt: skip
        rows = {os.path.basename(path): (row["status"], row["why"]) for path, row in room.rows(table).items()}
        room.claim(f"what stays, {why!r}: its row", rows, {b"b.tif": ("0", why)} if why else {})
        went_later(room, why, place)


def stopped(room: Room, *_given: object) -> None:
    """Where a run is stopped right before it deletes, or after the first fax, those that are left stay in the table."""
    one, _ = two()
    place = room("stopped")
    for left, why in ((["a.tif", "b.tif"], ""), (["b.tif"], "stop")):
        shutil.rmtree(place, ignore_errors=True)
        for name in "ab":
            put(f"{place}/tree/{name}.tif", one)
        with not_going(why, lambda: None if why else os.kill(os.getpid(), signal.SIGTERM)):
            ran = playing.run(words_of(place, "--delete"), place, playing.Trouble())
        rows = sorted(os.path.basename(path).decode() for path in room.rows(f"{place}/t.sqlite"))
        deleted = json.loads(room.run("table", f"{place}/t.sqlite", "--summary")[1])["deleted"]
        room.claim(f"stopped, {why!r}: {ran.error}", ("stopped; the same words go on" in ran.error,
                   sorted(os.listdir(f"{place}/tree")), rows, deleted), (True, left, left, 2 - len(left)))  # fmt: skip
        ran = playing.run(words_of(place, "--delete"), place, playing.Trouble())
        room.claim(f"stopped, {why!r}: the same words go on", (ran.status, os.listdir(f"{place}/tree")), (0, []))


def went_later(room: Room, why: str, place: str) -> None:
    """The run after one that could not delete a fax does it again; or counts it, where somebody deleted it."""
    words = [it for it in words_of(place) if it != "--gone"]
    if why.startswith("Not"):
        os.unlink(f"{place}/tree/b.tif")
    ran = playing.run(words, place, playing.Trouble())
    told = json.loads(room.run("table", f"{place}/t.sqlite", "--summary")[1])
    wanted = {"NoMark": (0, 1, 1), "NoCopy": (0, 1, 1), "Changed": (3, 1, 1)}.get(why.partition(":")[0], (0, 0, 2))
    room.claim(f"after {why!r}: {ran.error}", (ran.status, told["faxes"], told["deleted"]), wanted)
    whys = [row["why"] for row in room.rows(f"{place}/t.sqlite").values()]
    said = {"Changed": ["the only copy of a fax that is gone"], "NoMark": [""], "NoCopy": [""]}
    room.claim(f"after {why!r}: its row", whys, said.get(why.partition(":")[0], []))


@contextlib.contextmanager
def not_going(why: str, happens: Callable[[], object]) -> Iterator[None]:
    """Has the fax b.tif not be deleted by a run that is begun now, for this reason, or have something happen right
    before it is to be."""
    unlink, setxattr, sync = os.unlink, os.setxattr, os.sync
    refused = OSError(errno.EROFS, os.strerror(errno.EROFS))

    def refuse(path: bytes, dir_fd: int | None = None) -> None:
        if why == "NotDeleted" and path == b"b.tif":
            raise refused
        if why == "stop" and path == b"b.tif":
            os.kill(os.getpid(), signal.SIGTERM)
        unlink(path, dir_fd=dir_fd)

    def refuse_mark(file: int, attribute: str, value: bytes) -> None:
        if why == "NoMark" and attribute.endswith("only") and os.readlink(f"/proc/self/fd/{file}").endswith("b.tif"):
            raise refused
        setxattr(file, attribute, value)

    def happen() -> None:
        happens()
        sync()

    with mock.patch.object(os, "unlink", refuse), mock.patch.object(os, "setxattr", refuse_mark), (
            mock.patch.object(os, "sync", happen)):  # fmt: skip
        yield


def killed_amid(room: Room, one: bytes) -> None:
    """Faxes that were deleted by a run that was killed then are counted by the next one."""
    place = room("killed-amid")
    put(f"{place}/tree/a.tif", one)
    playing.run(words_of(place, "--delete"), place, playing.Trouble())
    with contextlib.closing(sqlite3.connect(f"{place}/t.sqlite")) as base:
        base.execute("UPDATE deleted SET deleted = 0")
        base.commit()
    playing.run(words_of(place), place, playing.Trouble())
    told = json.loads(room.run("table", f"{place}/t.sqlite", "--summary")[1])
    room.claim("deleted by a run that was killed", told["deleted"], 1)


def foreign(room: Room, *_given: object) -> None:
    """A database of another program is no table, and stays as it is, byte for byte."""
    put(room("foreign/tree/a.tif"), drawn()[""])
    cases = {"tables": "CREATE TABLE faxes (number)", "a view": "CREATE VIEW job AS SELECT 1",
             "a version": "PRAGMA user_version = 7"}  # fmt: skip
    for name, change in cases.items():
        path = room(f"foreign/{len(name)}.sqlite")
        with contextlib.closing(sqlite3.connect(path)) as base:
            base.execute(change)
            base.commit()
        with open(path, "rb") as file:
            before = file.read()
        for words in (["check", "foreign/tree", "--table", path], ["merge", path, path + "-part"],
                      ["table", path, "--csv"]):
            if words[0] == "merge":
                room.run("check", "foreign/tree", "--table", path + "-part")
            status, _, error = room.run(*words)
            with open(path, "rb") as file:
                same = file.read() == before
            room.claim(f"a database with {name}: {words[0]}", (status, "of another program" in error, same), (3, True, True))


def parts(room: Room, *_given: object) -> None:
    """Parts of arrays of different sizes, or of different trees, are refused, and the table stays."""
    for tree in ("one", "two"):
        for number in range(6):
            put(room(f"parts/{tree}/{number}.tif"), drawn()[""])
    made = {"0-2": "one", "1-2": "one", "1-3": "one", "1-2-two": "two"}
    for name, tree in made.items():
        share = "/".join(name.split("-")[:2])
        room.run("check", f"parts/{tree}", "--share", share, "--gone", "--table", f"parts/{name}.sqlite")
    whole = ["merge", "parts/whole.sqlite", "parts/0-2.sqlite"]
    room.claim("parts of one array", room.run(*whole, "parts/1-2.sqlite")[0], 0)
    rows = room.rows("parts/whole.sqlite")
    for other, said in (("1-3", "one of 3"), ("1-2-two", "/two")):
        status, _, error = room.run(*whole, f"parts/{other}.sqlite")
        room.claim(f"a part {other}: {error}", (status, said in error, room.rows("parts/whole.sqlite") == rows), (3, True, True))
    os.symlink("whole.sqlite", room("parts/linked.sqlite"))
    with open(room("parts/whole.sqlite-lock"), "rb") as held:
        fcntl.flock(held, fcntl.LOCK_EX)
        status, _, error = room.run("merge", "parts/linked.sqlite", "parts/0-2.sqlite", "parts/1-2.sqlite")
    room.claim("a table by two names has one lock", (status, "another run writes to" in error), (3, True))


def figures(room: Room, *_given: object) -> None:
    """What is told to Prometheus is what it reads, whatever the tree is called."""
    for number, name in enumerate(("p\u00e4ge", 'a "quote\\"', "a\nline", b"\xff".decode("utf-8", "surrogateescape"))):
        put(room(f"figures/{number}/{name}/a.tif"), drawn()[""])
        room.run("check", f"figures/{number}/{name}", "--table", f"figures/{number}.sqlite")
        status, out, _ = room.run("table", f"figures/{number}.sqlite", "--prometheus")
        escapes = set(re.findall(rb"\\(.)", out))
        room.claim(f"figures of {name!a}", (status, escapes <= {b'"', b"\\", b"n"}), (0, True))
        if shutil.which("promtool"):
            ran = subprocess.run(["promtool", "check", "metrics"], input=out, capture_output=True, check=False)
            room.claim(f"promtool reads {name!a}: {ran.stderr[-200:]!r}", ran.returncode in (0, 3))
    if not shutil.which("promtool"):
        print("SKIPPED: promtool (prometheus) is not installed, so: it does not read the figures of an archive")


PARTS: list[Part] = [parts, figures, foreign, backup, adopted, merged, merged_deletions, target_goes, other_names, linked,
                     odd, staying, stopped]  # fmt: skip
