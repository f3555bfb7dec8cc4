"""An archive that is converted: each copy has the rows of its fax, none is of a faulty one, and none is half."""

from __future__ import annotations

import os
import shutil
import signal
import subprocess

from tests.archive.room import Part, Room, Rows
from tests.archive import made

OPTIONS: dict[str, list[str]] = {"mmr": [], "mr": ["--k", "2", "--strip", "3", "--order", "2"], "mh": ["--align"], "pbm": []}


def files_below(folder: str) -> dict[bytes, bytes]:
    """All files below a folder, by their names there, with their bytes."""
    found = {}
    for base, _, names in os.walk(os.fsencode(folder)):
        for name in names:
            path = os.path.join(base, name)
            with open(path, "rb") as file:
                found[os.path.relpath(path, os.fsencode(folder))] = file.read()
    return found


def wanted(room: Room, tree: str, paths: list[bytes], rows: Rows, to: str) -> dict[bytes, bytes]:
    """The copies as the program writes them."""
    found = {}
    for path in paths:
        if rows[path]["status"] == "0":
            with open(path, "rb") as file:
                ran = subprocess.run([room.program, "convert", "-o", to, *OPTIONS[to]], stdin=file, capture_output=True,
                                     check=True)
            found[os.path.relpath(path, os.fsencode(room(tree))) + (b".pbm" if to == "pbm" else b"")] = ran.stdout
    return found


def converted(room: Room, *_given: object) -> None:
    """In each coding, and then resumed."""
    import faxpages

    paths = made.make(faxpages, room("given"), 120, 120)
    for to, options in OPTIONS.items():
        words = ["convert", "given", f"to-{to}", "--to", to, *options, "--table", f"{to}.sqlite", "--processes", "2"]
        status, _, error = room.run(*words)
        room.claim(f"{to}: status", (status, error), (1, ""))
        rows = room.rows(f"{to}.sqlite")
        copies = wanted(room, "given", paths, rows, to)
        room.claim(f"{to}: the copies", files_below(room(f"to-{to}")) == copies)
        room.claim(f"{to}: nothing is done twice", room.summary(*words)[1].partition("; ")[2],
                   "0 done now, 120 before, 0 gone")
        os.unlink(os.path.join(os.fsencode(room(f"to-{to}")), sorted(copies)[5]))
        room.claim(f"{to}: a copy that is gone is written again", room.summary(*words)[1].partition("; ")[2],
                   "1 done now, 119 before, 0 gone")
        room.claim(f"{to}: all copies again", files_below(room(f"to-{to}")) == copies)
    room.run("check", "given", "--table", "given.sqlite")
    room.claim("rows of a conversion are those of a check", without_lacks(
        room, "mmr.sqlite") == room.rows("given.sqlite"))


def without_lacks(room: Room, table: str) -> dict[bytes, dict[str, str]]:
    """The rows of a conversion, but for what the copies lack, which a check does not ask."""
    return {path: dict(row, lacks="") for path, row in room.rows(table).items()}


def lied(room: Room, *_given: object) -> None:
    """A copy with other rows is not written."""
    import faxpages

    paths = made.make(faxpages, room("lied"), 20, 20)
    with open(paths[2], "ab") as file:
        file.write(b"lies")
    before = open(paths[3], "rb").read()
    other = room("other.tif")
    with open(other, "wb") as file:
        file.write(before)
    words = ["convert", "lied", "lies", "--to", "mmr", "--table", "lied.sqlite"]
    status, _, _ = room.run(*words, broken="lies", OTHER=other)
    row = room.rows("lied.sqlite")[paths[2]]
    room.claim("a copy with other rows", (status, row["status"], row["fault"]), (3, "3", "RowsDiffer"))
    name = os.path.relpath(paths[2], os.fsencode(room("lied")))
    there = files_below(room("lies"))
    room.claim("is not written", name in there or any(it.endswith(b".part") for it in there), False)
    os.makedirs(room("full"))
    with open(room("full/0"), "wb"):
        pass
    room.run("convert", "lied", "full", "--to", "mmr", "--table", "full.sqlite")
    faults = {row["fault"] for path, row in room.rows("full.sqlite").items() if b"/lied/0/" in path} - {""}
    room.claim("where nothing can be written", faults >= {"Write"})


def deleted(room: Room, *_given: object) -> None:
    """By --all-or-nothing faxes are deleted once all are copied and compared, and none before."""
    import faxpages

    paths = made.make(faxpages, room("from"), 60, 60)
    words = ["convert", "from", "mirror", "--to", "mmr", "--table", "mirror.sqlite", "--processes", "2", "--follow",
             "--delete", "--all-or-nothing", "--give-up", "fields,bytes,data,private"]
    kept = files_below(room("from"))
    status, _, error = room.run(*words)
    room.claim("a faulty fax: nothing is deleted", (status, "nothing is deleted" in error), (1, True))
    room.claim("a faulty fax: all are there", files_below(room("from")) == kept)
    rows = room.rows("mirror.sqlite")
    good = [path for path in paths if rows[path]["status"] == "0"]
    for path in set(paths) - set(good):
        os.unlink(path)
    kept, copies = files_below(room("from")), files_below(room("mirror"))
    spoilt = os.path.join(os.fsencode(room("mirror")), os.path.relpath(good[3], os.fsencode(room("from"))))
    with open(spoilt, "wb") as file:
        file.write(b"no fax")
    status, _, error = room.run(*words)
    row = room.rows("mirror.sqlite")[good[3]]
    room.claim("a wrong copy: nothing is deleted", (status, row["fault"], row["why"], "nothing is deleted" in error),
               (3, "Exists", "changed since it was written", True))
    room.claim("a wrong copy: all are there", files_below(room("from")) == kept)
    os.unlink(spoilt)
    status, out, error = room.run(*words)
    room.claim("all are deleted", (status, f"deleted {len(good) + 1} faxes" in out.decode(), error), (0, True, ""))
    room.claim("what is left", list(files_below(room("from"))), [b"other.txt"])
    room.claim("the copies", files_below(room("mirror")) == copies)
    taken(room, words, good, copies)


def taken(room: Room, words: list[str], good: list[bytes], copies: dict[bytes, bytes]) -> None:
    """Another fax comes under the name of a deleted one: the copy that is there is not written over."""
    with open(good[4], "wb") as file:
        file.write(made.other())
    status, _, error = room.run(*words)
    row = room.rows("mirror.sqlite")[good[4]]
    room.claim("a copy that is there", (status, row["fault"], "nothing is deleted" in error), (3, "Exists", True))
    room.claim("a copy that is there stays", (files_below(room("mirror")) == copies, os.path.exists(good[4])),
               (True, True))


def followed(room: Room, *_given: object) -> None:
    """Links lead on, but not to a folder above them, nor into the copies; one that leads nowhere cannot be read."""
    import faxpages

    paths = made.make(faxpages, room("linked/tree"), 12, 12)
    made.make(faxpages, room("linked/disk"), 12, 12)
    os.makedirs(room("linked/copies"))
    for name, leads in (("disk", "../disk"), ("0/round", ".."), ("gone.tif", "nowhere")):
        os.symlink(leads, room(f"linked/tree/{name}"))
    os.symlink("../../tree", room("linked/disk/0/tree"))
    words = ["linked/tree", "linked/copies", "--to", "mmr", "--table", "linked.sqlite"]
    room.run("convert", *words, "--follow")
    rows = room.rows("linked.sqlite")
    tree = os.fsencode(room("linked/tree"))
    there = {os.path.relpath(path, tree) for path in paths}
    wanted = there | {os.path.join(b"disk", name) for name in there} | {b"link.tif", b"disk/link.tif", b"gone.tif"}
    room.claim("links lead on", {os.path.relpath(path, tree) for path in rows}, wanted)
    room.claim("a link that leads nowhere", rows[os.path.join(tree, b"gone.tif")]["fault"], "Open")
    good = {os.path.relpath(path, tree) for path in rows if rows[path]["status"] == "0"}
    room.claim("copies of what links lead to", set(files_below(room("linked/copies"))), good)
    room.claim(
        "what cannot be opened alone is tried again",
        " 1 done now, " in room.summary(
            "convert",
            *words,
            "--follow")[1])
    room.claim("another job without links", room.run("convert", *words)[0], 2)
    for leads in ("../copies", "../copies/0", ".."):
        os.symlink(leads, room("linked/tree/into"))
        room.claim(f"a link to {leads} leads to the copies: refused", room.run("convert", *words, "--follow")[0], 2)
        os.unlink(room("linked/tree/into"))
    room.run("check", "linked/tree", "--table", "unlinked.sqlite")
    room.claim("without --follow no link is gone through", set(room.rows("unlinked.sqlite")), set(paths))


def with_fields(room: Room, *_given: object) -> None:
    """The fields of a fax are beside its copy, as tiffdump prints them, or as what stands for it here."""
    import faxpages

    paths = made.make(faxpages, room("fields"), 9, 9)
    words = ["convert", "fields", "told", "--to", "mh", "--table", "fields.sqlite", "--fields"]
    os.makedirs(room("tools"))
    lacking = room.run(*words, PATH=room("tools"))
    room.claim("without tiffdump", (lacking[0], "libtiff-tools" in lacking[2]), (3, True))
    with open(room("tools/tiffdump"), "w", encoding="utf-8") as tool:
        tool.write('#!/bin/sh\necho "$1 $2"; cat -- "$3"; [ ! -e "$0.fails" ]\n')
    os.chmod(room("tools/tiffdump"), 0o755)
    path = f"{room('tools')}:{os.environ['PATH']}"
    with open(room("tools/tiffdump.fails"), "wb"):
        room.run(*words, PATH=path)
    rows = room.rows("fields.sqlite")
    good = [path for path in paths if rows[path]["status"] == "3"]
    room.claim("tiffdump fails", {rows[path]["fault"] for path in good}, {"Fields"})
    room.claim("tiffdump fails: nothing is written", files_below(room("told")), {})
    os.unlink(room("tools/tiffdump.fails"))
    room.run(*words, "--again", "unread", PATH=path)
    told = {name: data for name, data in files_below(room("told")).items() if name.endswith(b".fields")}
    names = {path: os.path.relpath(path, os.fsencode(room("fields"))) + b".fields" for path in good}
    room.claim("fields", told, {names[path]: b"-m 1000000\n" + open(path, "rb").read() for path in good})
    os.unlink(os.path.join(os.fsencode(room("told")), names[good[0]]))
    room.claim("fields that are gone are written again",
               " 1 done now, " in room.summary(*words, PATH=path)[1] and len(good) > 5)
    really_dumped(room, good)


def really_dumped(room: Room, good: list[bytes]) -> None:
    if not shutil.which("tiffdump"):
        print("SKIPPED: tiffdump (libtiff-tools) is not installed, so: its own fields are not looked at")
        return
    room.run("convert", "fields", "dumped", "--to", "mmr", "--table", "dumped.sqlite", "--fields")
    told = files_below(room("dumped"))
    wanted = {os.path.relpath(path, os.fsencode(room("fields"))) + b".fields": subprocess.run(
        [b"tiffdump", b"-m", b"1000000", path], capture_output=True, check=True).stdout for path in good}
    room.claim("fields by tiffdump", {name: told.get(name) for name in wanted}, wanted)


def interrupted(room: Room, paths: list[bytes], reference: Rows) -> None:
    """Killed in the middle: each file is whole, and in the end all are there."""
    words = ["convert", "tree", "copies", "--to", "mmr", "--table", "copies.sqlite", "--processes", "3"]
    for number in (signal.SIGKILL, signal.SIGTERM):
        count, status = room.interrupt(number, "copies.sqlite", *words)
        room.claim(f"{number.name} of a conversion: {count}", 0 < count < len(paths) and status == -number)
        parts = [name for name, copy in files_below(room("copies")).items()
                 if not name.endswith(b".part") and not whole(copy)]
        room.claim(f"{number.name}: no copy is half", parts, [])
    room.run(*words)
    there = files_below(room("copies"))
    good = {os.path.relpath(path, os.fsencode(room("tree"))) for path in paths if reference[path]["status"] == "0"}
    room.claim("all copies of good faxes, and nothing else", set(there) == good and all(map(whole, there.values())))
    room.claim("the table is that of a check", without_lacks(room, "copies.sqlite") == reference)


def whole(copy: bytes) -> bool:
    import faxpages

    return faxpages.check(copy).ok


PARTS: list[Part] = [converted, lied, deleted, followed, with_fields, interrupted]
