"""What nobody reads in passing is looked at again: the only copies of faxes, by verify, and faxes whose bits have
turned."""

from __future__ import annotations

import contextlib
import errno
import json
import os
import shutil
import signal
import sqlite3
from typing import Callable

import faxpages
from tests.archive.drawn import contents, playing
from tests.archive.keeping import TIME, drawn, put
from tests.archive.kinds import make_older
from tests.archive.only import MARKS, refused, two, words_of
from tests.archive.room import Part, Room

NAMES = ("a.tif", "b.tif", "c.tif")
SINCE = "changed since it was written"


def kept(place: str, *words: str) -> None:
    """Three faxes are copied and deleted."""
    shutil.rmtree(place, ignore_errors=True)
    for name in NAMES:
        put(f"{place}/tree/{name}", drawn()[""])
    playing.run(words_of(place, "--delete", *words), place, playing.Trouble())


def verify(place: str, *words: str, trouble: playing.Trouble = playing.Trouble()) -> playing.Ran:
    """Looks at the only copies."""
    return playing.run(["verify", f"{place}/copies", "--table", f"{place}/t.sqlite", *words], place, trouble)


def turn(path: str) -> None:
    """A bit turns, and nothing else changes."""
    told = os.stat(path)
    with open(path, "r+b") as file:
        file.seek(told.st_size // 2)
        bits = file.read(1)[0]
        file.seek(told.st_size // 2)
        file.write(bytes([bits ^ 4]))
    os.utime(path, ns=(told.st_atime_ns, told.st_mtime_ns))


def figures(room: Room, place: str) -> dict[str, int]:
    """What Prometheus reads of the only copies."""
    out = room.run("table", f"{place}/t.sqlite", "--prometheus")[1].decode()
    lines = [line for line in out.splitlines() if line.startswith("faxpages_archive_only_copies{")]
    return {line.partition('result="')[2].partition('"')[0]: int(line.split()[-1]) for line in lines}


def linked(path: str) -> None:
    """A link to a file with the same bytes has the place of a copy."""
    os.rename(path, f"{path}-moved")
    os.symlink(f"{path}-moved", path)


def verified(room: Room, *_given: object) -> None:
    """An only copy that has changed, was cut or is gone is found, with attributes and without: by the status, on the
    error stream, in the table and in its figures, until it is right again."""
    cases: dict[str, tuple[Callable[[str], object], str, str]] = {
        "turned": (turn, "Changed", SINCE), "cut": (lambda it: os.truncate(it, 20), "Changed", SINCE),
        "gone": (os.unlink, "NoCopy", ""),
        "a link": (linked, "NoCopy", "Too many levels of symbolic links")}  # fmt: skip
    for error in (0, errno.ENOTSUP):
        place = room(f"verified-{error}")
        for way, (damage, fault, why) in cases.items():
            with refused(error, *(MARKS if error else ())):
                kept(place)
                ran = verify(place)
                room.claim(f"only copies: {ran.error}", (ran.status, ran.out), (
                    0, "only copies 3: 3 good, 0 changed or gone, 0 not read; 3 looked at now\n"))  # fmt: skip
                shutil.copytree(f"{place}/copies", f"{place}/backup")
                damage(f"{place}/copies/b.tif")
                ran = verify(place, "--names")
            line = f"b.tif: the only copy: {fault}" + (f": {why}" if why else "") + "\n"
            room.claim(f"{way}: {ran.error}", (ran.status, ran.error, ran.out), (
                1, f"faxpages-archive: {line}",
                "only copies 3: 2 good, 1 changed or gone, 0 not read; 3 looked at now\n"))
            told = json.loads(room.run("table", f"{place}/t.sqlite", "--summary")[1])
            got = [told[it] for it in ("only_copies", "only_copies_good", "only_copies_faults")]
            room.claim(f"{way}: the table", (got, told["verified"] is not None, figures(room, place),
                       room.run("table", f"{place}/t.sqlite", "--faulty")[1].decode()), (
                           [3, 2, {fault: 1}], True, {"good": 2, fault: 1}, line))  # fmt: skip
            shutil.rmtree(f"{place}/copies")
            os.rename(f"{place}/backup", f"{place}/copies")
            room.claim(f"{way}: out of a backup", (verify(place).status, figures(room, place)), (0, {"good": 3}))
    accepted(room, place)


def accepted(room: Room, place: str) -> None:
    """Copies that somebody has deleted for good are forgotten by --gone, and those that changed are not."""
    kept(place)
    os.unlink(f"{place}/copies/a.tif")
    turn(f"{place}/copies/b.tif")
    out = [verify(place, *words).out.partition(";")[0] for words in (["--gone"], list[str](), list[str]())]
    room.claim("--gone", out, ["only copies 2: 1 good, 1 changed or gone, 0 not read"] * 3)
    os.rename(f"{place}/copies", f"{place}/elsewhere")
    ran = verify(place)
    room.claim("no TARGET", (ran.status, "there is no folder" in ran.error, figures(room, place)), (3, True, {
        "good": 1, "Changed": 1}))  # fmt: skip
    words = ["verify", place, "--table", f"{place}/none.sqlite"]
    room.claim("no table", (room.run(*words)[0], os.path.exists(f"{place}/none.sqlite")), (3, False))
    room.run("check", f"{place}/tree", "--table", f"{place}/check.sqlite", "--gone")
    room.claim("a table of a check", room.run("verify", place, "--table", f"{place}/check.sqlite")[0], 3)


def verified_fields(room: Room, *_given: object) -> None:
    """The fields beside a copy are looked at too."""
    if not shutil.which("tiffdump"):
        print("SKIPPED: tiffdump (libtiff-tools) is not installed, so: no fields are looked at again")
        return
    place = room("verified-fields")
    kept(place, "--fields")
    turn(f"{place}/copies/b.tif.fields")
    os.unlink(f"{place}/copies/c.tif.fields")
    ran = verify(place, "--names")
    room.claim("fields", (ran.status, ran.error.splitlines()), (1, [
        f"faxpages-archive: b.tif: the only copy: Changed: {SINCE}", "faxpages-archive: c.tif: the only copy: NoCopy"]))


def only_ones(room: Room, *_given: object) -> None:
    """Which copies are looked at: those of faxes that somebody deleted too, if they stand; not those whose faxes are
    there again."""
    place = room("verified-which")
    kept(place)
    for name in ("d.tif", "e.tif"):
        put(f"{place}/tree/{name}", drawn()[""])
    playing.run(words_of(place), place, playing.Trouble())
    for name in ("tree/d.tif", "tree/e.tif", "copies/e.tif"):
        os.unlink(f"{place}/{name}")
    playing.run(words_of(place), place, playing.Trouble())
    room.claim("one that somebody deleted", verify(place).out.partition(":")[0], "only copies 4")
    put(f"{place}/tree/a.tif", drawn()[""], mtime=os.stat(f"{place}/copies/a.tif").st_mtime_ns)
    ran = playing.run(words_of(place), place, playing.Trouble())
    room.claim(f"one that came again: {ran.out}", verify(place).out.partition(":")[0], "only copies 3")
    put(f"{place}/tree/b.tif", two()[1])
    ran = playing.run(words_of(place), place, playing.Trouble())
    count = verify(place).out.partition(":")[0]
    room.claim(f"another one of that name: {ran.out}", (ran.status, count), (3, "only copies 3"))


def verified_amid(room: Room, *_given: object) -> None:
    """A verification that is killed at each call goes on where it was, and finds all."""
    place = room("verified-amid")
    kept(place)
    turn(f"{place}/copies/c.tif")
    os.rename(place, f"{place}-before")
    wrong, at = [], 0
    for at in range(1, 40):
        shutil.rmtree(place, ignore_errors=True)
        shutil.copytree(f"{place}-before", place)
        first = verify(place, trouble=playing.Trouble(at, kill=signal.SIGKILL))
        ran = verify(place)
        if (ran.status, ran.out.partition(";")[0]) != (1, "only copies 3: 2 good, 1 changed or gone, 0 not read"):
            wrong.append((at, ran))
        if first.status == 1:
            break
    room.claim(f"verify is killed at each of {at} calls", (wrong, 3 < at < 39), ([], True))


def verified_older(room: Room, *_given: object) -> None:
    """Copies of faxes that versions before 1.12 deleted are looked at too, and those of parts by the table that is
    merged of them."""
    place = room("verified-older")
    kept(place)
    make_older(f"{place}/t.sqlite")
    turn(f"{place}/copies/b.tif")
    ran = verify(place, "--names")
    said = f"faxpages-archive: b.tif: the only copy: Changed: {SINCE}\n"
    room.claim("a table of before", (ran.status, ran.error), (1, said))
    for table in ("t.sqlite", "older.sqlite"):
        if table == "older.sqlite":
            shutil.copy(f"{place}/t.sqlite", f"{place}/{table}")
            make_older(f"{place}/{table}")
        playing.run(["merge", f"{place}/merged-{table}", f"{place}/{table}"], place, playing.Trouble())
        words = ["verify", f"{place}/copies", "--names", "--table", f"{place}/merged-{table}"]
        ran = playing.run(words, place, playing.Trouble())
        room.claim(f"a table that is merged of {table}", (ran.status, ran.error, ran.out.partition(":")[0]),
                   (1, said, "only copies 3"))


def other_rows(fax: bytes) -> bytes:
    """A fax one bit of which has turned, so that it has other rows, and no fault."""
    rows = [row.runs() for page in faxpages.Fax(fax).pages for row in page]
    for bit in range(8 * len(fax)):
        data = fax[:bit // 8] + bytes([fax[bit // 8] ^ 1 << bit % 8]) + fax[bit // 8 + 1:]
        with contextlib.suppress(faxpages.FaxError):
            if faxpages.check(data).ok and rows != [row.runs() for page in faxpages.Fax(data).pages for row in page]:
                return data
    raise ValueError("no bit makes other rows")


def turned(room: Room, *_given: object) -> None:
    """A fax whose bits have turned, with the size and the time that it had, is found by --again all, also where it
    has no fault, and is not called good until it has its bytes again, or another time. Its copy stays."""
    fax = drawn()[""]
    wrong = other_rows(fax)
    for job in ("check", "convert"):
        place = room(f"turned-{job}")
        words = ["check", f"{place}/tree", "--table", f"{place}/t.sqlite"] if job == "check" else words_of(place)
        put(f"{place}/tree/a.tif", fax, mtime=TIME)
        put(f"{place}/tree/b.tif", fax, mtime=TIME)
        room.claim(f"{job}: first", playing.run(words, place, playing.Trouble()).status, 0)
        for way, data, again, wanted in (
                ("turned", wrong, list[str](), 0), ("turned", wrong, ["--again", "all"], 1),
                ("turned still", wrong, ["--again", "all"], 1),
                ("turned still", wrong, list[str](), 1), ("cut", fax[:4] + bytes(len(fax) - 4), ["--again", "all"], 1),
                ("turned after that", wrong, ["--again", "all"], 1), ("right", fax, ["--again", "faulty"], 0),
                ("turned again", wrong, ["--again", "all"], 1)):
            put(f"{place}/tree/a.tif", data, mtime=TIME)
            ran = playing.run([*words, *again], place, playing.Trouble())
            (row,) = [row for path, row in room.rows(f"{place}/t.sqlite").items() if path.endswith(b"a.tif")]
            room.claim(f"{job}, {way}: {ran.error}{row}", (ran.status, row["fault"] == "Changed", row["status"]), (
                wanted, bool(wanted) and way != "cut", str(wanted)))  # fmt: skip
        if job == "convert":
            with open(f"{place}/copies/a.tif", "rb") as file:
                room.claim("the copy stays", file.read(), faxpages.convert(fax, "mmr"))
            ran = playing.run([*words, "--delete"], place, playing.Trouble())
            room.claim("it is not deleted", (ran.status, os.listdir(f"{place}/tree")), (1, ["a.tif"]))
        put(f"{place}/tree/a.tif", wrong, mtime=TIME + 10**9)
        room.claim(f"{job}: another time", playing.run(words, place, playing.Trouble()).status, 0)
    merged(room, fax, wrong)


def merged(room: Room, fax: bytes, wrong: bytes) -> None:
    """The table that is merged of others knows their digests; that of a version before does not, and then does."""
    place = room("turned-merged")
    put(f"{place}/tree/a.tif", fax, mtime=TIME)
    words = ["check", f"{place}/tree", "--table"]
    room.run(*words, f"{place}/part.sqlite")
    room.run("merge", f"{place}/whole.sqlite", f"{place}/part.sqlite")
    shutil.copy(f"{place}/part.sqlite", f"{place}/older.sqlite")
    make_older(f"{place}/older.sqlite")
    for table, data, wanted in (("whole", wrong, 1), ("older", fax, 0), ("older", wrong, 1)):
        put(f"{place}/tree/a.tif", data, mtime=TIME)
        room.claim(f"{table}", room.run(*words, f"{place}/{table}.sqlite", "--again", "all")[0], wanted)
    with contextlib.closing(sqlite3.connect(f"{place}/older.sqlite")) as base:
        room.claim("one digest", base.execute("SELECT count(*) FROM originals").fetchone(), (1,))


def turned_before_delete(room: Room, *_given: object) -> None:
    """A fax whose bits have turned since it was read is not deleted, also where its rows and its fields are as those of
    its copy, and is named."""
    fax = contents.with_field(drawn()[""], 270, b"a description\0")
    wrong = fax.replace(b"a description", b"a descriptioo")
    for words in (list[str](), ["--give-up", "fields"]):
        place = room(f"turned-deleted-{len(words)}")
        for name in NAMES:
            put(f"{place}/tree/{name}", fax, mtime=TIME)
        given = words_of(place, *([] if words else ["--fields"]))
        playing.run(given, place, playing.Trouble())
        put(f"{place}/tree/b.tif", wrong, mtime=TIME)
        ran = playing.run([*given, "--delete", *words], place, playing.Trouble())
        room.claim(f"{words}: {ran.error}", (ran.status, os.listdir(f"{place}/tree"),
                   "Changed: b.tif: it has other bytes" in ran.error), (3, ["b.tif"], True))  # fmt: skip
        told = json.loads(room.run("table", f"{place}/t.sqlite", "--summary")[1])
        room.claim("it is counted", told["stays"], {"Changed": 1})


def written_amid(room: Room, *_given: object) -> None:
    """A copy that a run has written which was killed before its row was, and whose fax has gone by the next run, is
    right, as it was written last."""
    _, other = two()
    place = room("verified-written")
    for name in NAMES:
        put(f"{place}/tree/{name}", drawn()[""], mtime=TIME)
    playing.run(words_of(place), place, playing.Trouble())
    put(f"{place}/tree/b.tif", other)
    os.rename(place, f"{place}-before")
    wrong, at, written = [], 0, 0
    for at in range(8, 60):
        shutil.rmtree(place, ignore_errors=True)
        shutil.copytree(f"{place}-before", place)
        first = playing.run(words_of(place), place, playing.Trouble(at, kill=signal.SIGKILL))
        with open(f"{place}/copies/b.tif", "rb") as file:
            written += file.read() == faxpages.convert(other, "mmr")
        os.unlink(f"{place}/tree/b.tif")
        playing.run(words_of(place), place, playing.Trouble())
        ran = verify(place, "--names")
        if (ran.status, ran.out.partition(":")[0]) != (0, "only copies 1"):
            wrong.append((at, ran))
        if first.status != -signal.SIGKILL:
            break
    room.claim(f"a run is killed at each of {at} calls, {written} of them late", (wrong, written > 1), ([], True))


def not_opened(room: Room, *_given: object) -> None:
    """A folder of copies that may not be opened is named, and nothing is said of the copies."""
    if os.geteuid() != 0:
        print("SKIPPED: only root can be another user, so: no folder of copies that may not be opened is tried")
        return
    place = room("verified-closed")
    kept(place)
    for folder, folders, names in os.walk(place):
        for name in (".", *folders, *names):
            os.chown(os.path.join(folder, name), playing.OTHER, playing.OTHER)
    os.chmod(f"{place}/copies", 0)
    before = os.stat(room.folder).st_mode
    os.chmod(room.folder, 0o755)
    ran = verify(place, "--names", trouble=playing.Trouble(other_user=True))
    os.chmod(room.folder, before & 0o777)
    named = f"{place}/copies: Permission denied" in ran.error
    room.claim("closed", (ran.status, ran.out, ran.error.count("\n"), named), (3, "", 1, True))
    room.claim("nothing is said of them", figures(room, place), {"good": 0, "NotVerified": 3})


def stays(room: Room, *_given: object) -> None:
    """Faxes that stay though they were to be deleted are counted, by the reason, and named."""
    place = room("stays")
    for name in NAMES:
        put(f"{place}/tree/{name}", drawn()[""])
    os.utime(f"{place}/tree/b.tif")
    playing.run(words_of(place, "--delete"), place, playing.Trouble())
    told = json.loads(room.run("table", f"{place}/t.sqlite", "--summary")[1])
    out = room.run("table", f"{place}/t.sqlite", "--prometheus")[1].decode()
    said = room.run("table", f"{place}/t.sqlite", "--faulty")[1].decode()
    lines = room.run("table", f"{place}/t.sqlite", "--faulty", "--csv")[1].decode().splitlines()
    figure = f'",why="Young"}} 1\n' in out.partition("archive_stays{")[2]
    room.claim("what stays is counted", (told["stays"], figure, said, [line.partition(",")[0] for line in lines]), (
        {"Young": 1}, True, "b.tif: not deleted: Young: it changed within the last minute\n",
        ["path", "b.tif"]))  # fmt: skip


PARTS: list[Part] = [verified, verified_fields, only_ones, verified_amid, verified_older, turned, turned_before_delete,
                     written_amid, not_opened, stays]
