"""Resumed runs, names of any bytes, faxes that break a worker, and words."""

from __future__ import annotations

import contextlib
import json
import os
import pty
import re
import shutil
import sqlite3
import subprocess
import sys
from typing import Any, NamedTuple

from tests.archive.room import Part, Room, Rows
from tests import TOP
from tests.archive import engines, made
from tests.waiting import PATIENCE, wait_for

# Who runs what root must not, by a number that no account has to have.
OTHER_USER = 65534
FEW = 40
# What is said of faxes that break a worker, and why.
BROKEN = [("WorkerDied", ""), ("WorkerDied", "RuntimeError: broken for a test"), ("Timeout", ""), ("Memory", ""),
          (None, ""),
          ("Read", "more than 268435456 bytes")]
LARGEST = 268435456


def few(room: Room, name: str) -> list[bytes]:
    """A small tree, and the paths of its faxes."""
    import faxpages

    return made.make(faxpages, room(name), FEW, FEW)


def ask(room: Room, table: str, query: str) -> list[Any]:
    with contextlib.closing(sqlite3.connect(room(table))) as base:
        return base.execute(query).fetchall()


def since_in(room: Room) -> dict[bytes, float]:
    """Since when each fax of the tree resumed is as it is, by its whole path."""
    tree = os.fsencode(room("resumed"))
    found = ask(room, "resumed.sqlite", "SELECT CAST(path AS BLOB), since FROM times")
    return {os.path.join(tree, path): since for path, since in found}


def add(path: bytes, data: bytes) -> None:
    with open(path, "ab") as file:
        file.write(data)


def resumed(room: Room, *_given: object) -> None:
    """New, changed and gone faxes, and those that are asked for again."""
    paths = few(room, "resumed")
    words = ["check", "resumed", "--table", "resumed.sqlite"]
    room.run(*words)
    before = room.rows("resumed.sqlite")
    since = since_in(room)
    room.claim(
        "nothing is done twice",
        room.summary(
            *words)[1].partition("; ")[2],
        f"0 done now, {FEW} before, 0 gone")
    os.unlink(paths[3])
    add(paths[20], b"more")
    shutil.copy(paths[21], os.path.join(os.path.dirname(paths[21]), b"new.tif"))
    room.claim("what is new or changed is done", room.summary(*words)[1].partition("; ")[2],
               f"2 done now, {FEW - 2} before, 1 gone")
    rows = room.rows("resumed.sqlite")
    room.claim("what is gone is out", set(before) - set(rows), {paths[3]})
    times = since_in(room)
    room.claim("times go too", set(times), set(rows))
    room.claim("since when", [times[path] == since[path] for path in paths[20:22]], [True, True])
    faulty = sum(row["status"] in ("1", "2") for row in rows.values())
    for again, count in (("unread", 0), ("faulty", faulty), ("all", FEW)):
        got = room.summary(*words, "--again", again)[1].partition("; ")[2]
        room.claim(f"again: {again}", got, f"{count} done now, {FEW - count} before, 0 gone")
    with open(paths[21], "wb") as file:
        file.write(b"II*\0")
    room.run(*words)
    query = "SELECT fault, since > checked - 1 FROM faxes JOIN times USING (path) WHERE size = 4"
    room.claim("which are faulty now, since when", ask(room, "resumed.sqlite", query), [("ShortHeader", 1)])


def names(room: Room, paths: list[bytes], reference: Rows) -> None:
    """CSV and JSON have each name, with all its bytes."""
    status, out, _ = room.run("table", "one.sqlite", "--json")
    lines = [json.loads(line) for line in out.decode("ascii").splitlines()]
    tree = os.fsencode(room("tree"))
    room.claim("JSON has each name", (status, [
        os.path.join(tree, line["path"].encode("utf-8", "surrogateescape")) for line in lines]), (0, sorted(paths)))
    wanted = ("path size mtime status pages rows width x y codings notes fault fault_page fault_row fault_tag why "
              "lacks found lost seconds bad_rows lost_rows salvaged")
    room.claim("JSON has the columns", {tuple(line) for line in lines}, {tuple(wanted.split())})
    room.claim("CSV has the columns", room.run("table", "one.sqlite", "--csv")[1].split(b"\n")[0].decode().split(","),
               wanted.split())
    texts = {os.path.join(tree, line["path"].encode("utf-8", "surrogateescape")): line for line in lines}
    room.claim("JSON says what CSV says", {path: str(line["pages"]) for path, line in texts.items()},
               {path: line["pages"] for path, line in reference.items()})
    mtimes = [(os.lstat(path).st_size, os.lstat(path).st_mtime) for path in paths]
    room.claim("sizes and mtimes", [(texts[path]["size"], texts[path]["mtime"]) for path in paths], mtimes)
    columns = [row[1] for row in ask(room, "one.sqlite", "PRAGMA table_info(faxes)")]
    room.claim("SQLite has the columns", columns, wanted.split())
    closed = subprocess.run(f"{sys.executable} -m faxpages.archive table one.sqlite --csv | head -n 1", shell=True,
                            cwd=room.folder, capture_output=True, check=False, env=dict(
                                os.environ, PYTHONPATH=os.path.join(os.path.dirname(made.HERE), "..", "python")))
    room.claim("a pipe that closes", (closed.stderr, closed.stdout.decode().strip()), (b"", wanted.replace(" ", ",")))


def broken(room: Room, *_given: object) -> None:
    """A fax that breaks a worker, hangs, or cannot be read is a row; all others are as before."""
    paths = few(room, "broken")
    room.run("check", "broken", "--table", "whole.sqlite")
    for path, how in zip(paths[10:], (b"dies", b"raises", b"hangs", b"memory")):
        add(path, how)
    with open(paths[15], "wb") as large:
        large.truncate(LARGEST + 1)
    with open(paths[16], "wb") as large:
        large.truncate(2000)
    room.run("check", "broken", "--table", "added.sqlite")
    wanted = room.rows("added.sqlite")
    for path, fault, why in zip(paths[10:], *zip(*BROKEN)):
        if fault:
            wanted[path] = dict.fromkeys(wanted[path], "") | {
                "status": "3", "fault": fault, "why": why, "size": str(os.stat(path).st_size),
                "mtime": str(os.stat(path).st_mtime)}
    ways = {"three workers": (["--processes", "3"], sys.executable)}
    if room.dask:
        ways["Dask"] = ["--dask", "--processes", "2"], room.dask
    for name, (words, python) in ways.items():
        table = f"broken-{len(words)}.sqlite"
        words = ["check", "broken", "--table", table, "--timeout", "6", *words]
        status, out, _ = room.run(*words, broken="dies raises hangs memory", python=python)
        room.claim(f"{name}: broken faxes are rows", (status, b" 5 not read, " in out), (3, True))
        rows = room.rows(table)
        differ = {path: rows.get(path) for path in wanted if rows.get(path) != wanted[path]}
        room.claim(f"{name}: all others are as before", differ, {})
        got = room.summary(*words[:4], "--again", "unread", broken="")
        room.claim(f"{name}: they are done again where it is asked", got[1].partition("; ")[2],
                   f"5 done now, {FEW - 5} before, 0 gone")
        room.claim(f"{name}: and then are as ever", room.rows(table) == room.rows("added.sqlite"))


def closed(room: Room, *_given: object) -> None:
    """A fax that cannot be opened. Root opens each, so there the command runs as another user, with copies of the
    module and of the library that this user can read."""
    paths = few(room, "closed/tree")
    os.chmod(paths[20], 0)
    shutil.copytree(os.path.join(TOP, "python", "faxpages"), room("closed/python/faxpages"))
    shutil.copy(room.library, room("closed/libfaxpages.so.1"))
    told = dict(os.environ, PYTHONPATH=room("closed/python"), FAXPAGES_LIBRARY=room("closed/libfaxpages.so.1"),
                PYTHONDONTWRITEBYTECODE="1", HOME="/")
    user = None
    if os.geteuid() == 0:
        os.chmod(room.folder, 0o755)
        os.chown(room("closed"), OTHER_USER, OTHER_USER)
        user = OTHER_USER
    other = Caller(room("closed"), told, user)
    python = other.python()
    if python is None:
        print("SKIPPED: another user cannot call Python here, so: no fax that cannot be opened is tried")
        return
    words = [python, "-m", "faxpages.archive", "check", "tree", "--table", "closed.sqlite"]
    ran = other.run(words)
    room.claim("a fax that cannot be opened: status", (ran.returncode, ran.stderr), (3, b""))
    rows = room.rows("closed/closed.sqlite")
    room.claim("a fax that cannot be opened", [path for path in paths if rows[path]["fault"] == "Open"], [paths[20]])
    os.chmod(paths[20], 0o644)
    again = room.summary("check", "closed/tree", "--table", "closed/closed.sqlite", "--again", "unread")
    room.claim("it is done once it can be", again[1].partition("; ")[2], f"1 done now, {FEW - 1} before, 0 gone")


class Caller(NamedTuple):
    """Who calls the command: where, with which variables, and as another user or as this one."""

    folder: str
    environment: dict[str, str]
    user: int | None

    def run(self, words: list[str]) -> subprocess.CompletedProcess[bytes]:
        """Runs a program."""
        return subprocess.run(words, cwd=self.folder, env=self.environment, user=self.user, group=self.user,
                              extra_groups=None if self.user is None else [], capture_output=True, check=False)

    def python(self) -> str | None:
        """A Python by which the module can be called, if there is one."""
        return next((it for it in dict.fromkeys([sys.executable, "/usr/bin/python3"]) if self.has_module(it)), None)

    def has_module(self, python: str) -> bool:
        """Whether the module can be called by this Python."""
        try:
            return self.run([python, "-c", "import sqlite3, faxpages.archive"]).returncode == 0
        except OSError:
            return False


def orphaned(room: Room, *_given: object) -> None:
    """A worker that hangs ends by itself where the run was killed."""
    paths = few(room, "orphaned")
    add(paths[0], b"hangs")
    mark = room("mark")
    process = room.start(
        "check",
        "orphaned",
        "--table",
        "orphaned.sqlite",
        "--timeout",
        "3",
        broken="hangs",
        MARK=mark)
    wait_for(lambda: os.path.exists(mark) or process.poll() is not None)
    process.kill()
    process.wait()
    room.claim("no worker is left that hangs", engines.left_in(room.folder), [])


def wrong(room: Room, *_given: object) -> None:
    """Words that are refused, and tables that are none."""
    few(room, "wrong")
    check = ["check", "wrong", "--table", "wrong.sqlite"]
    room.run(*check)
    for words in (check[:0], ["chek"], ["check", "wrong"], [*check, "--processes", "0"], [*check, "--timeout", "-1"],
                  [*check, "--dask", "--scheduler", "x"], [*check, "--share", "3/3"], [*check, "--proc", "2"],
                  ["table", "wrong.sqlite"], ["table", "wrong.sqlite", "--csv", "--json"], ["merge", "new.sqlite"],
                  [*check, "--scheduler", "tcp://127.0.0.1:1", "--processes", "2"], [*check, "--share", "0/2"],
                  ["convert", "wrong", "out", "--to", "gif", "--table", "wrong.sqlite"],
                  ["convert", "wrong", "out", "--to", "mmr", "--align", "--table", "wrong.sqlite"],
                  ["convert", "wrong", "wrong/out", "--to", "mmr", "--table", "new.sqlite"],
                  ["convert", "wrong", ".", "--to", "mmr", "--table", "new.sqlite"],
                  ["convert", "wrong", "out", "--to", "mmr", "--table", "wrong.sqlite"]):
        status, out, error = room.run(*words)
        room.claim(f"refused: {words}", (status, out, bool(error), "Traceback" in error), (2, b"", True, False))
    with open(room("text.sqlite"), "w", encoding="utf-8") as file:
        file.write("no table of SQLite, and long enough to be seen as none\n" * 40)
    for words in (["check", "nowhere", "--table", "new.sqlite"], ["check", "wrong", "--table", "text.sqlite"],
                  ["check", "tree", "--table", "wrong.sqlite"],
                  ["check", "wrong", "--table", "nowhere/x.sqlite"], ["table", "nowhere.sqlite", "--csv"],
                  ["table", "text.sqlite", "--json"], ["merge", "new.sqlite", "text.sqlite"]):
        status, out, error = room.run(*words)
        room.claim(f"cannot be: {words}", (status, out, error.count("\n"), "Traceback" in error), (3, b"", 1, False))
    gate = room("gate")
    with open(gate, "wb"):
        pass
    running = room.start("check", "tree", "--table", "locked.sqlite", broken="stops", GATE=gate, AFTER="0")
    wait_for(lambda: os.path.getsize(gate) or running.poll() is not None)
    status, _, error = room.run("check", "tree", "--table", "locked.sqlite")
    running.kill()
    running.communicate()
    os.unlink(gate)
    room.claim("one run at a time", (status, "another run" in error), (3, True))


def documented(room: Room, *_given: object) -> None:
    """faxpages-archive(1) has the options and columns of the command, and no other option."""
    with open(os.path.join(made.HERE, "..", "..", "man", "faxpages-archive.1"), encoding="utf-8") as file:
        manual = file.read()
    commands: list[list[str]] = [[], ["check"], ["convert"], ["table"], ["merge"]]
    said = "".join(room.run(*command, "--help")[1].decode() for command in commands)
    options = set(re.findall(r"--[a-z]+(?:-[a-z]+)*", said)) - {"--help"}
    found = {f"-{it}" for it in re.findall(r"(?:Fl |\| )(-[a-z]+(?:-[a-z]+)*)", manual)}
    room.claim("the manual page has the options", found, options)
    for name in ("check", "convert", "table", "merge"):
        room.claim(f"the manual page and the help have {name}", f".Cm {name}\n" in manual and f"  {name} " in said)
    listed = " ".join(re.findall(r"^\.It (.*)$", manual, re.M)).replace(" ,", "").split()
    with contextlib.closing(sqlite3.connect(room("one.sqlite"))) as base:
        columns = [row[1] for row in base.execute("PRAGMA table_info(faxes)")]
    for column in columns:
        room.claim(f"the manual page has the column {column}", column in listed)


def read_terminal(ours: int) -> bytes:
    """What a terminal shows next; nothing once nobody writes to it."""
    try:
        return os.read(ours, 65536)
    except OSError:
        return b""


def progress(room: Room, paths: list[bytes], _: dict[bytes, dict[str, str]]) -> None:
    """A line now and then, or a bar on a terminal."""
    error = room.run("check", "tree", "--table", "said.sqlite", "--processes", "4", broken="slow minutes")[2]
    room.claim("a line a minute", f" of {len(paths)} faxes, " in error and " minutes left" in error)
    if not room.dask or subprocess.run([room.dask, "-c", "from tqdm import tqdm"],
                                       capture_output=True, check=False).returncode:
        print("SKIPPED: tqdm (python3-tqdm) is not installed, so: no bar is drawn")
        return
    ours, its = pty.openpty()
    environment = dict(os.environ, PYTHONPATH=os.path.join(os.path.dirname(os.path.dirname(made.HERE)), "python"))
    words = [room.dask, "-m", "faxpages.archive", "check", "resumed", "--table", "bar.sqlite"]
    with subprocess.Popen(words, stderr=its, stdout=subprocess.DEVNULL, cwd=room.folder, env=environment) as process:
        os.close(its)
        said = b"".join(iter(lambda: read_terminal(ours), b"")).decode(errors="replace")
        process.wait(PATIENCE)
    os.close(ours)
    room.claim("a bar with the rate", f"{FEW}/{FEW}" in said and " faxes/s" in said)


PARTS: list[Part] = [resumed, names, broken, closed, orphaned, wrong, documented, progress]
