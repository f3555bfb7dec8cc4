"""Faxes that are still coming in: faxpages-receive leaves them, faxpages-sweep passes them, and the archive has the
same rule."""

from __future__ import annotations

import contextlib
import os
import shlex
import subprocess
import sys
import time
from typing import Iterator

from tests import Claim, MODULE
from tests.recipes.recipes import SCRIPTS
from tests.recipes.room import PATIENCE, Room, Tests

YOUNG, IN_USE = "it changed within the last minute", "another program has it open to write, or has locked it"
# A program that has a fax open in a way until its input ends.
HOLDER = """
import fcntl, os, sys
file = os.open(sys.argv[2], os.O_WRONLY | os.O_APPEND if sys.argv[1] == "written" else os.O_RDONLY)
if sys.argv[1] == "locked":
    fcntl.flock(file, fcntl.LOCK_EX)
print("held", flush=True)
sys.stdin.read()
"""
WAYS = ("free", "read", "written", "locked")
# Ages of a fax in seconds, below 0 in the future, and whether it is young.
AGES = {0: True, 50: True, 70: False, 86400: False, -50: True, -70: False}
# The archive's rule, of a file by its name.
RULE = """
import os, sys
from faxpages.archive._incoming import why_incoming
print(why_incoming(os.open(sys.argv[1], os.O_RDONLY)) or "")
"""
OTHER_DISK = "/dev/shm"


@contextlib.contextmanager
def held(path: str, way: str) -> Iterator[None]:
    """Another program has a fax open to be read or written, or locked; or nobody has."""
    if way == "free":
        yield
        return
    words = [sys.executable, "-I", "-c", HOLDER, way, path]
    with subprocess.Popen(words, stdin=subprocess.PIPE, stdout=subprocess.PIPE) as process:
        assert process.stdout is not None
        process.stdout.readline()
        yield
        process.communicate(timeout=PATIENCE)


def aged(path: str, seconds: float) -> None:
    """A fax changed last so many seconds ago."""
    when = time.time() - seconds
    os.utime(path, (when, when))


def wanted(way: str, young: bool) -> str:
    """Why a fax may be coming in; nothing where it is not."""
    return YOUNG if young else IN_USE if way in ("written", "locked") else ""


def one_rule(room: Room) -> Iterator[Claim]:
    """The scripts and the archive have one rule, with a lease and without."""
    room.others("fax.tif")
    words = f". {shlex.quote(SCRIPTS)}/faxpages-shared.sh; incoming fax.tif $0 || [ $? = 1 ]"
    for way in WAYS:
        for age, young in AGES.items():
            aged(room("fax.tif"), age)
            with held(room("fax.tif"), way):
                for perl in (None, "#!/bin/sh\nexit 1\n"):
                    if perl is not None:
                        room.tool("perl", perl)
                    said = [room.call("sh", "-c", words, more)[1].decode().strip() for more in ("", "--whole")]
                    yield f"{way}, {age} s, perl {perl is None}", said, [wanted(way, young), wanted(way, False)]
                os.remove(f"{room.path}/bin/perl")
                told = room.call(sys.executable, "-c", RULE, "fax.tif", PYTHONPATH=MODULE, **room.module)[1].decode()
                yield f"{way}, {age} s: the archive", told.strip().partition(": ")[2], wanted(way, young)


def received(room: Room) -> Iterator[Claim]:
    """A fax that another program writes, or has locked, stays where it is; so does a young one that would be copied,
    unless --whole says that it is whole. Nothing of it is in the folders."""
    folders = {"here": "sorted"}
    if os.path.isdir(OTHER_DISK) and os.stat(OTHER_DISK).st_dev != os.stat(room("")).st_dev:
        folders["on another disk"] = f"{OTHER_DISK}/faxpages-test-{os.getpid()}"
    else:
        print("not run: a fax that is coming in, and folders on another file system: there is none")
    for where, folder in folders.items():
        for way in WAYS:
            for age, young in ((0, True), (70, False)):
                for whole in (list[str](), ["--whole"]):
                    room.others("fax.tif")
                    aged(room("fax.tif"), age)
                    why = wanted(way, False) or wanted(way, young and where != "here" and not whole)
                    with held(room("fax.tif"), way):
                        status, _, said = room.call("faxpages-receive", *whole, "fax.tif", folder)
                    there = os.path.exists(os.path.join(room(""), folder, "good", "fax.tif"))
                    told = (status, said, os.path.exists(room("fax.tif")), there)
                    yield f"{where}, {way}, {age} s, {whole}", told, (
                        3, f"faxpages-receive: ./fax.tif stays: {why}\n", True, False) if why else (0, "", False, True)
                    room.call("rm", "-rf", folder, "fax.tif")
    yield "nothing of it is left", room.left(), []


# The program, but a writer comes once it has read the fax, and is there until the gate is gone.
LATE = """#!/bin/sh
{program} "$@"; status=$?
sh -c 'echo here >held; while [ -e gate ]; do sleep 0.05; done' 9>>fax.tif >/dev/null 2>&1 &
until [ -e held ]; do sleep 0.05; done
exit $status
"""


def written_late(room: Room) -> Iterator[Claim]:
    """A writer comes while the fax is read, and writes nothing yet: a fax that would be copied stays."""
    room.tool("ln", "#!/bin/sh\nexit 1\n")
    room.tool("faxpages", LATE.format(program=room.program))
    room.others("fax.tif")
    room.put("gate", b"")
    status, _, said = room.call("faxpages-receive", "--whole", "fax.tif", "sorted")
    yield "a writer comes late", (status, said), (3, f"faxpages-receive: ./fax.tif stays: {IN_USE}\n")
    there = os.path.exists(room("fax.tif")), room.names("sorted/good")
    yield "a writer comes late: it is not copied", there, (True, [])
    os.remove(room("gate"))
    os.remove(f"{room.path}/bin/ln")
    room.tool("faxpages", f'#!/bin/sh\nexec {room.program} "$@"\n')


def swept(room: Room) -> Iterator[Claim]:
    """A sweep passes a fax that is coming in, without a word, and looks at it once it is not."""
    room.others("tree/fax.tif")
    words = ["faxpages-sweep", "tree", "state"]
    for way in WAYS:
        for age, young in AGES.items():
            aged(room("tree/fax.tif"), age)
            with held(room("tree/fax.tif"), way):
                said = room.call(*words)
            looked = (0, b"new: 1 faxes, 1 good, 0 faulty, 0 not read; in all: 1\n", "")
            yield f"swept, {way}, {age} s", said, looked if not wanted(way, young) else (0, b"", "")
    aged(room("tree/fax.tif"), 80)
    yield "swept: once it is whole", room.call(*words)[1], b"new: 1 faxes, 1 good, 0 faulty, 0 not read; in all: 1\n"


def incoming(room: Room, _: str) -> Iterator[Claim]:
    """All of these."""
    yield from one_rule(room)
    yield from received(room)
    yield from written_late(room)
    yield from swept(room)


EXTRA: Tests = {"Faxes that are coming in": (["flock", "perl"], incoming)}
