"""What is never lost: what a copy does not have, what is not ours, what stands elsewhere, modes and times; and that no
module of the current folder runs."""

from __future__ import annotations

import contextlib
import fcntl
import hashlib
import json
import os
import shutil
import signal
import sqlite3
import stat
import subprocess
import sys
import time
from unittest import mock

from tests.archive.room import Part, Room
from tests import MODULE
from tests.archive import made
from tests.archive.converting import files_below
from tests.archive.drawn import contents, playing
from tests.archive.room import CONNECT

# More calls of the system than such a run makes.
CALLS = 130

TIME = 1_560_000_000_123_456_789
# A fax that is younger than a minute may still be coming in.
HOUR = 3_600_000_000_000


def put(path: str, data: bytes, mode: int = 0o644, mtime: int | None = None) -> None:
    """Writes a file with this time of change, or one of an hour ago."""
    os.makedirs(os.path.dirname(path), exist_ok=True)
    with open(path, "wb") as file:
        file.write(data)
    os.chmod(path, mode)
    when = time.time_ns() - HOUR if mtime is None else mtime
    os.utime(path, ns=(when, when))


def drawn() -> dict[str, bytes]:
    """Faxes by what their copies lack."""
    import faxpages

    found: dict[str, bytes] = {}
    for content in contents.drawn(faxpages, 1):
        found.setdefault(" ".join(sorted(content.lacks)), content.data)
    return found


def convert(room: Room, name: str, *words: str, **more: str) -> tuple[int, bytes, str]:
    """Converts the tree of this name; the status, the output and the error stream."""
    return room.run("convert", f"{name}/tree", f"{name}/copies", "--to",
                    "mmr", "--table", f"{name}/t.sqlite", *words, **more)


def lacking(room: Room, *_given: object) -> None:
    """A fax stays whose copy lacks something, unless that is given up."""
    faxes = drawn()
    names = {"data": "DataAfterEnd", "fields": "Fields", "private": "PrivateFields", "bytes": "OtherBytes",
             "resolution": "Resolution"}
    for kind, told in names.items():
        put(room(f"lacking-{kind}/tree/a.tif"), faxes[kind])
        put(room(f"lacking-{kind}/tree/b.tif"), faxes[""])
        status, out, error = convert(room, f"lacking-{kind}", "--delete")
        room.claim(f"{kind}: is kept, and told", (status, f"kept: a.tif: {told}" in error, b"deleted 1 faxes" in out),
                   (3, True, True))
        room.claim(f"{kind}: is there", os.listdir(room(f"lacking-{kind}/tree")), ["a.tif"])
        summary = json.loads(room.run("table", f"lacking-{kind}/t.sqlite", "--summary")[1])
        room.claim(f"{kind}: it is counted", summary["lacks"], {told: 1})
        rows = room.rows(f"lacking-{kind}/t.sqlite").values()
        room.claim(f"{kind}: the table tells it", [row["lacks"] for row in rows],
                   [told])
        others = ",".join(it for it in names if it != kind)
        room.claim(
            f"{kind}: others are given up",
            convert(
                room,
                f"lacking-{kind}",
                "--delete",
                "--give-up",
                others)[0],
            3)
        status = convert(room, f"lacking-{kind}", "--delete", "--give-up", kind)[0]
        room.claim(f"{kind}: is given up", (status, os.listdir(room(f"lacking-{kind}/tree"))), (0, []))
    if not shutil.which("tiffdump"):
        print("SKIPPED: tiffdump (libtiff-tools) is not installed, so: no fax is deleted whose fields are beside its "
              "copy")
        return
    put(room("lacking-dumped/tree/a.tif"), faxes["fields"])
    status = convert(room, "lacking-dumped", "--delete", "--fields")[0]
    room.claim("fields that are beside the copy", (status, os.listdir(room("lacking-dumped/tree"))), (0, []))


def not_ours(room: Room, *_given: object) -> None:
    """What is in the place of a copy, or of its fields, and is not ours is left: a file, a link, a pipe."""
    fax = drawn()[""]
    for kind in ("a.tif", "a.tif.fields"):
        if kind.endswith(".fields") and not shutil.which("tiffdump"):
            continue
        for way in ("file", "link", "pipe", "folder"):
            name = f"not-ours-{kind}-{way}"
            place = room(f"{name}/copies/{kind}")
            put(room(f"{name}/tree/a.tif"), fax)
            put(room(f"{name}/else"), b"somebody's")
            os.makedirs(os.path.dirname(place))
            if way == "file":
                put(place, b"somebody's")
            elif way == "link":
                os.symlink(room(f"{name}/else"), place)
            else:
                (os.mkfifo if way == "pipe" else os.mkdir)(place)
            before = os.lstat(place)
            status, _, error = convert(room, name, "--fields" if kind.endswith(".fields") else "--follow", "--delete")
            (row,) = room.rows(f"{name}/t.sqlite").values()
            room.claim(f"{way} in the place of {kind}", (status, row["fault"], bool(row["why"])), (3, "Exists", True))
            room.claim(f"{way} in the place of {kind} is left", (stat.S_IFMT(os.lstat(place).st_mode), os.path.exists(
                room(f"{name}/tree/a.tif")), os.lstat(place).st_ino, open(room(f"{name}/else"), "rb").read()), (
                stat.S_IFMT(before.st_mode), True, before.st_ino, b"somebody's"))


def mirrored(room: Room, *_given: object) -> None:
    """A mirror follows its faxes: good, faulty, good again with other content; and after a kill between the copy and
    the row. Two trees that are converted into one folder do not write over one another."""
    import faxpages

    one, two = (faxpages.convert(b"P4 8 %d\n" % rows + bytes([24]) * rows, "mh") for rows in (1, 2))
    tree, copy = room("mirrored/tree/a.tif"), room("mirrored/copies/a.tif")
    put(room("mirrored/tree/b.tif"), one)
    put(tree, one)
    for data, status in ((one, 0), (b"no fax", 1), (two, 0)):
        put(tree, data)
        room.claim("a mirror follows", convert(room, "mirrored")[0], status)
    with open(copy, "rb") as file:
        room.claim("the copy is of the last one", file.read(), faxpages.convert(two, "mmr"))
    with contextlib.closing(sqlite3.connect(room("mirrored/t.sqlite"))) as base:
        for table in ("faxes", "times", "copies", "originals"):
            base.execute(f"DELETE FROM {table} WHERE path = 'a.tif'")
        base.commit()
    put(tree, one)
    status = convert(room, "mirrored")[0]
    with open(copy, "rb") as file:
        room.claim("a copy without a row, as after a kill, is known by its mark", (status, file.read()),
                   (0, faxpages.convert(one, "mmr")))
    put(room("mirrored/other/a.tif"), two)
    words = ["convert", "mirrored/other", "mirrored/copies", "--to", "mmr", "--table", "mirrored/other.sqlite"]
    room.claim("another tree's copy is left", (room.run(*words)[0], open(copy, "rb").read()),
               (3, faxpages.convert(one, "mmr")))
    os.unlink(tree)
    room.claim("a fax that is gone", convert(room, "mirrored", "--gone")[0], 0)
    put(tree, two)
    room.claim("the last copy of a fax that is gone is left", (convert(room, "mirrored")[0], open(copy, "rb").read()),
               (3, faxpages.convert(one, "mmr")))
    os.unlink(copy)
    room.claim("it is made once the place is free", convert(room, "mirrored")[0], 0)


def two_writers(room: Room, *_given: object) -> None:
    """A copy that another run is writing is left, and told; what a run has left that was killed goes. At whatever call
    another run takes the place of what is written, what comes of it is no copy."""
    fax, copies = drawn()[""], room("writers/copies")
    put(room("writers/tree/a.tif"), fax)
    part = f"{copies}/.faxpages-{hashlib.sha256(b'a.tif').hexdigest()[:32]}.part"
    put(part, b"begun")
    with open(part, "rb") as held:
        fcntl.flock(held, fcntl.LOCK_EX)
        status = convert(room, "writers")[0]
    (row,) = room.rows("writers/t.sqlite").values()
    room.claim("a copy that another run writes", (status, row["fault"], row["why"], list(files_below(copies).values())),
               (3, "Exists", "another run writes it", [b"begun"]))
    room.claim("once that run is ended it is made", (convert(room, "writers")[0], list(files_below(copies))),
               (0, [b"a.tif"]))
    taken_away(room, fax, os.path.basename(part))
    others_come(room, fax, part)


def taken_away(room: Room, fax: bytes, part: str) -> None:
    """Another run takes what is begun for something that a run has left, before the run that begins it holds it."""
    import faxpages
    from faxpages.archive import _fax

    put(room("taken/tree/a.tif"), fax)
    os.mkdir(room("taken/copies"))
    flock, taken = fcntl.flock, list[str]()

    def late(file: int, way: int) -> None:
        if not taken:
            taken.append(part)
            os.unlink(room(f"taken/copies/{part}"))
        flock(file, way)

    job = _fax.Job(os.fsencode(room("taken/tree")), os.fsencode(room("taken/copies")))
    with mock.patch.object(fcntl, "flock", late):
        done = job.do(_fax.Waiting(b"a.tif", len(fax), os.stat(room("taken/tree/a.tif")).st_mtime))
    room.claim("a copy that is taken away before it is held is begun again",
               (len(taken), done.found.status, files_below(room("taken/copies"))),
               (1, 0, {b"a.tif": faxpages.convert(fax, "mmr")}))


def others_come(room: Room, fax: bytes, part: str) -> None:
    """Another run begins a copy at each call of the one that writes it."""
    import faxpages

    place, wrong = room("writers"), []
    words = ["convert", f"{place}/tree", f"{place}/copies", "--to", "mmr", "--table", f"{place}/t.sqlite"]
    for at in range(1, CALLS):
        shutil.rmtree(place)
        put(f"{place}/tree/a.tif", fax)
        os.mkdir(f"{place}/copies")
        event = playing.Event(os.fsencode(part), b"x", True)
        status = playing.run(words, place, playing.Trouble(at, event=event)).status
        there = files_below(f"{place}/copies").get(b"a.tif")
        if not os.path.exists(f"{place}/amid"):
            break
        if (status, there) not in ((0, faxpages.convert(fax, "mmr")), (3, None)):
            wrong.append((at, status, there))
    room.claim(f"all {at - 1} calls are met", 15 < at < CALLS - 1)
    # The instant between the last look at it and its move is one call.
    room.claim("another run begins the copy at each call", wrong[1:], [])


def one_in_the_other(room: Room, *_given: object) -> None:
    """Below TARGET no link is followed, and TREE and TARGET that hold one another are refused."""
    fax = drawn()["data"]
    put(room("links/tree/sub/a.tif"), fax)
    put(room("links/tree/b.tif"), fax)
    os.makedirs(room("links/copies"))
    os.symlink("../tree/sub", room("links/copies/sub"))
    status = convert(room, "links")[0]
    rows = {os.path.basename(path): row["fault"] for path, row in room.rows("links/t.sqlite").items()}
    room.claim("a link below TARGET", (status, rows), (3, {b"a.tif": "Write", b"b.tif": ""}))
    room.claim("a link below TARGET: the fax is as it was", open(room("links/tree/sub/a.tif"), "rb").read() == fax)
    os.symlink("tree", room("links/same"))
    os.symlink("tree/sub", room("links/inside"))
    for tree, target in (("tree", "same"), ("same", "tree/new"),
                         ("inside", "tree"), ("tree", "inside/new"), ("tree", ".")):
        words = ["convert", f"links/{tree}", f"links/{target}", "--to", "mmr", "--table", "links/new.sqlite"]
        room.claim(f"{tree} and {target}", room.run(*words)[0], 2)
    room.claim("nothing is written", files_below(room("links/tree")), {b"sub/a.tif": fax, b"b.tif": fax})


def attributes(room: Room, *_given: object) -> None:
    """A copy has the mode, the time and the owner of its fax, and so has its folder, but for the time; after --delete
    the table has the time still."""
    fax = drawn()[""]
    put(room("kept/tree/closed/a.tif"), fax, 0o600, TIME)
    os.chmod(room("kept/tree/closed"), 0o700)
    if os.geteuid() == 0:
        os.chown(room("kept/tree/closed/a.tif"), 1234, 4321)
    was = os.stat(room("kept/tree/closed/a.tif"))
    status = convert(room, "kept", "--delete")[0]
    now = os.stat(room("kept/copies/closed/a.tif"))
    room.claim("mode, time and owner", (status, oct(now.st_mode), now.st_mtime_ns, now.st_uid, now.st_gid),
               (0, oct(was.st_mode), TIME, was.st_uid, was.st_gid))
    room.claim("the folder", oct(os.stat(room("kept/copies/closed")).st_mode & 0o777), oct(0o700))
    with contextlib.closing(sqlite3.connect(room("kept/t.sqlite"))) as base:
        room.claim("the table keeps the time", base.execute("SELECT path, mtime FROM deleted").fetchall(),
                   [("closed/a.tif", was.st_mtime)])


def outside(room: Room, *_given: object) -> None:
    """--follow --delete deletes what stands in the tree, and nothing that a linked folder leads to."""
    fax = drawn()[""]
    put(room("outside/tree/a.tif"), fax)
    put(room("outside/disk/b.tif"), fax)
    put(room("outside/c.tif"), fax)
    os.symlink("../disk", room("outside/tree/disk"))
    os.symlink("../c.tif", room("outside/tree/c.tif"))
    status, out, _ = convert(room, "outside", "--follow", "--delete")
    room.claim("what stands elsewhere is told",
               (status, b"deleted 2 faxes; 1 kept, since they stand outside" in out), (0, True))
    left = [os.path.exists(room(f"outside/{name}")) for name in ("tree/a.tif", "tree/c.tif", "disk/b.tif", "c.tif")]
    room.claim("what stands elsewhere is there", left, [False, False, True, True])


def changed_copies(room: Room, *_given: object) -> None:
    """A copy that was cut later is made again; one that was changed is told; one that rotted is found by --again
    copies."""
    fax = drawn()[""]
    for name in ("a", "b", "c"):
        put(room(f"rot/tree/{name}.tif"), fax)
    convert(room, "rot")
    with open(room("rot/copies/a.tif"), "r+b") as file:
        whole = file.read()
        file.truncate(20)
    room.claim(
        "a copy that was cut", (convert(
            room, "rot")[0], open(
            room("rot/copies/a.tif"), "rb").read()), (0, whole))
    put(room("rot/copies/b.tif"), whole + b"more")
    status = convert(room, "rot")[0]
    room.claim("a copy that was changed", (status, open(room("rot/copies/b.tif"), "rb").read()), (3, whole + b"more"))
    put(room("rot/copies/b.tif"), whole)
    room.claim("status 3 goes with its cause", convert(room, "rot")[0], 0)
    told = os.stat(room("rot/copies/c.tif"))
    put(room("rot/copies/c.tif"), whole[:50] + bytes([whole[50] ^ 1]) + whole[51:], 0o644, told.st_mtime_ns)
    room.claim("a copy that rotted is not read", convert(room, "rot")[0], 0)
    room.claim("but by --again copies", convert(room, "rot", "--again", "copies")[0], 3)
    changed_before_it_is_read(room)


def changed_before_it_is_read(room: Room) -> None:
    """A fax that changes after it was found and before it is read: its copy is not that of the fax as it was."""
    import faxpages
    from faxpages.archive import _fax

    one, two = (faxpages.convert(b"P4 8 %d\n" % rows + bytes([24]) * rows, "mh") for rows in (1, 2))
    put(room("late/tree/a.tif"), one)
    job = _fax.Job(os.fsencode(room("late/tree")), os.fsencode(room("late/copies")))
    os.mkdir(room("late/copies"))
    found = _fax.Waiting(b"a.tif", len(one), os.stat(room("late/tree/a.tif")).st_mtime)
    done = job.do(found)
    put(room("late/tree/a.tif"), two, 0o644, TIME)
    assert done.copy is not None
    job.do(found._replace(copy=done.copy.digest, proven=True))
    with open(room("late/copies/a.tif"), "rb") as file:
        room.claim("a fax that changed before it was read", file.read(), faxpages.convert(two, "mmr"))


PLANTED = """import os
open(os.environ["PLANTED"], "a").write(__name__ + "\\n")
raise SystemExit("planted")
"""


def planted(room: Room, *_given: object) -> None:
    """Modules of the current folder run nowhere: in the command, its workers, Dask's, and in a task of an array."""
    put(room("planted/tree/a.tif"), drawn()[""])
    for name in ("fractions", "faxpages", "sqlite3", "pickle", "signal", "distributed", "tqdm", "_planted"):
        put(room(f"planted/{name}.py"), PLANTED.encode())
    script = room("installed/faxpages-archive")
    put(script, f"""#!{sys.executable}
import sys

sys.path.append({MODULE!r})

from faxpages.archive import main

if __name__ == "__main__":
    sys.exit(main())
""".encode(), 0o755)
    told = {"PLANTED": room("planted/ran"), "FAXPAGES_LIBRARY": room.library, "PATH": os.environ["PATH"],
            "HOME": room.folder, "TMPDIR": room.folder, "PYTHONDONTWRITEBYTECODE": "1", CONNECT: os.environ[CONNECT]}
    array = {f"SLURM_ARRAY_TASK_{name}": value for name, value in (
        ("ID", "0"), ("COUNT", "1"), ("MIN", "0"), ("STEP", "1"))}
    calls: list[tuple[str, list[str], list[str], dict[str, str]]] = [
        ("the command and its workers", [script], [], {}), ("a task of an array", [script], [], array)]
    if room.dask:
        calls.append(("Dask's workers", [room.dask, script], ["--dask", "--processes", "1"], {}))
    else:
        print("SKIPPED: Dask (python3-distributed) is not installed, so: nothing is planted for its workers")
    for number, (what, command, words, more) in enumerate(calls):
        ran = subprocess.run([*command, "check", "tree", "--table", f"{number}.sqlite", *words], cwd=room("planted"),
                             env=told | more, capture_output=True, check=False)
        room.claim(f"{what}: nothing that is planted runs",
                   (ran.returncode, os.path.exists(room("planted/ran"))), (0, False))
    words = ["check", room("planted/tree"), "--table", room("planted/m.sqlite")]
    words = [sys.executable, "-m", "faxpages.archive", *words]
    ran = subprocess.run(words, cwd=room("planted/tree"), env=told | {"PYTHONPATH": MODULE}, capture_output=True,
                         check=False)
    room.claim("by python3 -m elsewhere", ran.returncode, 0)


def two_faxes(place: str, data: bytes) -> None:
    """A new tree of two faxes."""
    shutil.rmtree(place, ignore_errors=True)
    for name in ("a.tif", "b.tif"):
        put(f"{place}/tree/{name}", data)
    os.chmod(f"{place}/tree/a.tif", 0o400)


def at_each_call(room: Room, *_given: object) -> None:
    """A run that copies and deletes two faxes is killed at each of its calls of the system, and given again; and at
    each call a fax changes, which then stays, or has a copy of what it became."""
    import faxpages

    one, two = (faxpages.convert(b"P4 8 %d\n" % rows + bytes([24]) * rows, "mh") for rows in (1, 2))
    copies = {faxes: faxpages.convert(faxes, "mmr") for faxes in (one, two)}
    left, lost = [], []
    place = room("calls")
    words = ["convert", f"{place}/tree", f"{place}/copies", "--to", "mmr", "--table", f"{place}/t.sqlite", "--delete",
             "--gone"]
    for at in range(1, CALLS):
        event = playing.Event(os.fsencode(f"{place}/tree/b.tif"), two, True)
        two_faxes(place, one)
        playing.run(words, place, playing.Trouble(at, event=event))
        there = files_below(f"{place}/tree").get(b"b.tif"), files_below(f"{place}/copies").get(b"b.tif")
        if not os.path.exists(f"{place}/amid"):
            break
        if there[0] != two and there != (None, copies[two]):
            lost.append((at, there))
        if at % 2:
            two_faxes(place, one)
            playing.run(words, place, playing.Trouble(at, kill=signal.SIGKILL))
            status = playing.run(words, place, playing.Trouble()).status
            both = files_below(f"{place}/tree"), files_below(f"{place}/copies")
            if (status, *both) != (0, {}, {b"a.tif": copies[one], b"b.tif": copies[one]}):
                left.append((at, status, both))
    room.claim(f"all {at - 1} calls are met", 30 < at < CALLS - 1)
    room.claim("killed at each call: the next run does what is left", left, [])
    # The instant between the last look at a fax and its deletion is one call.
    room.claim("changed at each call: no fax is lost", lost[1:], [])


PARTS: list[Part] = [at_each_call, lacking, not_ours, two_writers, mirrored, one_in_the_other, attributes, outside, changed_copies,
         planted]
