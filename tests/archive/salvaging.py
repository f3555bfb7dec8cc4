"""convert --salvage: copies of damaged faxes. Whatever comes, their originals and whole copies stay, and no salvaged
copy counts as a copy."""

from __future__ import annotations

import errno
import json
import os
import shutil
import signal
import stat
import subprocess

from tests.archive.converting import files_below
from tests.archive.drawn import playing
from tests.archive.drawn.contents import damaged
from tests.archive.keeping import put
from tests.archive.only import MARKS, refused, two, words_of
from tests.archive.room import Part, Room

# More calls of the system than such a run makes.
CALLS = 60
WAYS = [["mh", "--align"], ["mr", "--k", "2"], ["mmr", "--strip", "3"], ["mmr", "--order", "2"], ["pbm"]]
NO_FORM = {"cut.tif": b"II*\0\x08\0\0\0", "short.tif": b"II", "empty.tif": b""}


def of(room: Room, data: bytes, *to: str) -> bytes:
    """What the program salvages of a fax."""
    given = [room.program, "salvage", "-o", *(to or ["mmr"])]
    return subprocess.run(given, input=data, stdout=subprocess.PIPE, stderr=subprocess.DEVNULL, check=False).stdout


def faxes() -> dict[str, bytes]:
    """Damaged faxes with something to salvage."""
    import faxpages

    return {f"{number}.tif": data for number, data in enumerate(damaged(faxpages))}


def column(room: Room, place: str, name: str) -> dict[str, str]:
    """A column of the rows of a table."""
    return {os.path.basename(path).decode(): row[name] for path, row in room.rows(f"{place}/t.sqlite").items()}


def run(place: str, *words: str, trouble: playing.Trouble = playing.Trouble()) -> playing.Ran:
    """A conversion in a place."""
    return playing.run(words_of(place, *words), place, trouble)


def both(place: str) -> list[dict[bytes, bytes]]:
    """The faxes and the copies."""
    return [files_below(f"{place}/{name}") for name in ("tree", "copies")]


def salvaged(room: Room, *_given: object) -> None:
    """The copies are what the program salvages, with the mode and time of their faxes; the rows stay faulty, and say
    so; nothing is done twice; and without the option nothing is done."""
    for way in WAYS:
        place = room(f"salvaged-{'-'.join(way)}")
        for name, data in {**faxes(), **NO_FORM}.items():
            put(f"{place}/tree/{name}", data, 0o640)
        put(f"{place}/tree/good.tif", two()[0])
        given = ["convert", f"{place}/tree", f"{place}/copies", "--to", *way, "--table", f"{place}/t.sqlite"]
        room.claim(f"{way}: without it", (room.run(*given)[0], len(os.listdir(f"{place}/copies"))), (1, 1))
        status, _, error = room.run(*given, "--salvage", "--names")
        ending = ".pbm" if way == ["pbm"] else ""
        found = both(place)[1]
        wanted = {os.fsencode(name + ending): of(room, data, *way) for name, data in faxes().items()}
        room.claim(f"{way}: the same bytes", {name: found.get(name) for name in wanted} == wanted)
        room.claim(f"{way}: no others", (status, set(found) - set(wanted)), (1, {os.fsencode(f"good.tif{ending}")}))
        told = [os.stat(f"{place}/{folder}/0.tif{more}") for folder, more in (("tree", ""), ("copies", ending))]
        room.claim(f"{way}: mode and time", [(stat.S_IMODE(it.st_mode), it.st_mtime_ns) for it in told][::-1] == [
            (0o640, told[0].st_mtime_ns)] * 2)
        states = column(room, place, "status"), column(room, place, "salvaged")
        faulty = {**dict.fromkeys(faxes(), "1"), **dict.fromkeys(NO_FORM, "1")}
        room.claim(f"{way}: the rows", states, ({**faulty, "good.tif": "0"}, {
            **dict.fromkeys(faxes(), "1"), **dict.fromkeys(NO_FORM, "0"), "good.tif": ""}))  # fmt: skip
        room.claim(f"{way}: it is said", error.count("; its copy is a salvaged one\n"), len(faxes()))
        for words in (list[str](), ["--salvage"]):
            out = room.run(*given, *words)[1].decode()
            room.claim(f"{way}: once more {words}: {out}", "; 0 done now, " in out and both(place)[1] == found)
    counted(room, place)


def counted(room: Room, place: str) -> None:
    """What tables print of them."""
    count = len(faxes())
    room.claim("--summary", json.loads(room.run("table", f"{place}/t.sqlite", "--summary")[1])["salvaged"], count)
    figures = room.run("table", f"{place}/t.sqlite", "--prometheus")[1].decode()
    room.claim("--prometheus", f"faxpages_archive_salvaged{{tree=\"{place}/tree\"}} {count}\n" in figures)
    room.claim("merge", room.run("merge", f"{place}/merged.sqlite", f"{place}/t.sqlite")[0], 1)
    merged = [room.run("table", f"{place}/{name}.sqlite", "--csv")[1] for name in ("t", "merged")]
    room.claim("merge carries it", merged[0] == merged[1])


def never_deleted(room: Room, *_given: object) -> None:
    """No option deletes the original of a salvaged copy, nor is it an only copy where somebody else does."""
    place = room("salvaged-deleted")
    for name, data in faxes().items():
        put(f"{place}/tree/{name}", data)
    put(f"{place}/tree/good.tif", two()[0])
    before = both(place)[0]
    del before[b"good.tif"]
    every = ["--salvage", "--delete", "--give-up", "data,fields,private,bytes,resolution"]
    for words in (every, [*every, "--adopt"], [*every, "--again", "all"], every[1:]):
        ran = run(place, *words)
        room.claim(f"{words}: {ran.error}", (ran.status, both(place)[0]), (1, before))
    copies = both(place)[1]
    for name in faxes():
        os.unlink(f"{place}/tree/{name}")
    run(place)
    verify = ["verify", f"{place}/copies", "--table", f"{place}/t.sqlite"]
    said = playing.run(verify, place, playing.Trouble()).out
    room.claim("faxes that are gone", (both(place)[1] == copies, said.partition(";")[0]), (
        True, "only copies 1: 1 good, 0 changed or gone, 0 not read"))  # fmt: skip
    for name in faxes():
        put(f"{place}/tree/{name}", two()[1])
    ran = run(place, "--salvage")
    room.claim("other faxes with their names", (ran.status, both(place)[1] == copies), (3, True))
    with open(f"{place}/t.sqlite", "r+b") as file:
        file.truncate(5000)
    run(place, "--renew")
    said = playing.run(verify, place, playing.Trouble()).out
    room.claim("a new table", said.partition(";")[0], "only copies 1: 1 good, 0 changed or gone, 0 not read")


def whole_stays(room: Room, *_given: object) -> None:
    """A whole copy of a fax that is damaged later stays, with attributes and without, and with any table; and so does
    what is not ours. What the fax has lost without a new time changes no salvaged copy."""
    name, data = next(iter(faxes().items()))
    for error in (0, errno.ENOTSUP):
        place = room(f"salvaged-whole-{error}")
        with refused(error, *(MARKS if error else ())):
            for other in (f"{place}/tree/{name}", f"{place}/tree/strange.tif"):
                put(other, two()[0])
            run(place)
            copies = both(place)[1]
            put(f"{place}/tree/{name}", data)
            ran = run(place, "--salvage", "--names")
            got = ran.status, both(place)[1] == copies, column(room, place, "salvaged")[name]
            room.claim(f"a whole copy, {error}: {ran.error}", got, (1, True, ""))
            room.claim(f"a whole copy, {error}: it is said", "; its copy of before stays\n" in ran.error)
            out = run(place, "--salvage").out
            room.claim(f"a whole copy, {error}: it is not done again", "; 0 done now, " in out)
            os.unlink(f"{place}/copies/{name}")
            run(place, "--salvage")
            room.claim(f"a whole copy, {error}: it has gone", both(place)[1][os.fsencode(name)], of(room, data))
            put(f"{place}/tree/strange.tif", data)
            put(f"{place}/copies/strange.tif", b"of somebody else")
            ran = run(place, "--salvage")
            kept = both(place)[1][b"strange.tif"] == b"of somebody else"
            room.claim(f"a stranger's, {error}: {ran.error}", (ran.status in (1, 3), kept), (True, True))
    copies, told = both(place)[1], os.stat(f"{place}/tree/{name}")
    put(f"{place}/tree/{name}", data[:-1] + bytes([data[-1] ^ 1]), mtime=told.st_mtime_ns)
    run(place, "--salvage", "--again", "all")
    room.claim("a bit of a damaged fax has turned", both(place)[1] == copies)


def repaired(room: Room, *_given: object) -> None:
    """A fax that is good again has a copy in place of what was salvaged; wherever a run is killed, the next does it.
    With --delete it goes then."""
    convert = [room.program, "convert", "-o", "mmr"]
    copy = subprocess.run(convert, input=two()[0], capture_output=True, check=True).stdout
    name, data = next(iter(faxes().items()))
    for error in (0, errno.ENOTSUP):
        place = room(f"salvaged-repaired-{error}")
        with refused(error, *(MARKS if error else ())):
            put(f"{place}/tree/{name}", data)
            run(place, "--salvage")
            shutil.copytree(place, f"{place}-before", symlinks=True)
            put(f"{place}/tree/{name}", two()[0])
            ran = run(place, "--salvage", "--delete")
            left, copies = both(place)
            copies.pop(b".faxpages-%s.only" % os.fsencode(name), None)
            wanted = {os.fsencode(name): copy}
            room.claim(f"repaired, {error}: {ran.error}", (ran.status, left, copies), (0, {}, wanted))
    place = room("salvaged-killed")
    for call in range(1, CALLS):
        shutil.rmtree(place, ignore_errors=True)
        put(f"{place}/tree/{name}", data)
        killed = run(place, "--salvage", trouble=playing.Trouble(call, kill=signal.SIGKILL))
        room.claim(f"killed at {call}: the fax", both(place)[0], {os.fsencode(name): data})
        ran = run(place, "--salvage")
        made = {os.fsencode(name): of(room, data)}
        room.claim(f"killed at {call}: the copy: {ran.error}", (ran.status, both(place)[1]), (1, made))
        if killed.status == 1:
            break
        put(f"{place}/tree/{name}", two()[0])
        run(place, trouble=playing.Trouble(call, kill=signal.SIGKILL))
        ran = run(place)
        room.claim(f"repaired, killed at {call}: {ran.error}", (ran.status, both(place)[1]), (0, wanted))


PARTS: list[Part] = [salvaged, never_deleted, whole_stays, repaired]
