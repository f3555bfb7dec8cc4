"""Who may read what the scripts make of a fax, and what becomes of the folders that killed calls have left."""

from __future__ import annotations

import fcntl
import os
import stat
from typing import Iterator

from tests import Claim
from tests.recipes.room import Room, Tests

# The modes of a fax, and of a file and a folder that are made of it, where the mask of modes is 022.
MODES = [(0o600, 0o600, 0o700), (0o640, 0o640, 0o750), (0o644, 0o644, 0o755), (0o400, 0o600, 0o700)]
# Each script that writes files of a fax, with what it makes.
CALLS: list[tuple[list[str], list[str]]] = [
    (["salvage", "fax.tif", "made"], ["lost.txt", "pages.pdf", "pages.tif", "page-3.png"]),
    (["compare", "fax.tif", "other.tif", "made"], []),
    (["from-pdf", "fax.pdf", "made"], []),
    (["hylafax", "--salvage", "fax.tif", "made"], ["fax-salvaged.pdf", "fax-salvaged.tif"]),
]
# In which folders a script works: in that of temporary files, and where it writes.
USES = {"receive": [0, 2], "salvage": [0, 1], "compare": [0, 1], "from-pdf": [0, 1], "sweep": [1]}
AN_HOUR_AGO = "touch -d '2 hours ago'"


def mode_of(path: str) -> int:
    """The permissions of a file or a folder."""
    return stat.S_IMODE(os.stat(path).st_mode)


def private(room: Room, _: str) -> Iterator[Claim]:
    """By `as_private_as`, nobody may read what is made of a fax who may not read the fax."""
    before = os.umask(0o022)
    try:
        for mode, of_file, of_folder in MODES:
            yield from made(room, mode, of_file, of_folder)
            yield from received(room, mode, of_file)
    finally:
        os.umask(before)


def made(room: Room, mode: int, of_file: int, of_folder: int) -> Iterator[Claim]:
    """What scripts make of a fax or a PDF of this mode."""
    room.sample("damaged-fourth-page.tif", "fax.tif")
    room.sample("received/as-it-was-sent.tif", "whole.tif")
    room.sample("one-mh-page.tif", "other.tif")
    room.bash("tiff2pdf -o fax.pdf whole.tif")
    for name in ("fax.tif", "fax.pdf"):
        os.chmod(room(name), mode)
    for (script, *words), names in CALLS:
        status, told = room.call(f"faxpages-{script}", *words)[::2]
        found = mode_of(room("made")), {mode_of(room(f"made/{name}")) for name in names}
        wanted = (of_folder, {of_file}) if names else (of_file, set())
        yield f"{script} of a fax of mode {mode:o}: {told}", (status in (0, 1), found), (True, wanted)
        room.call("rm", "-rf", "made")


def received(room: Room, mode: int, of_file: int) -> Iterator[Claim]:
    """The report of a fax that is received; the fax keeps its mode, and the folders are for others too."""
    room.sample("one-mh-page.tif", "fax.tif")
    os.chmod(room("fax.tif"), mode)
    status = room.call("faxpages-receive", "fax.tif", "sorted")[0]
    found = [mode_of(room(f"sorted/{name}")) for name in ("good/fax.tif", "good/fax.tif.report", "good")]
    yield f"receive of a fax of mode {mode:o}", (status, found), (0, [mode, of_file, 0o755])
    room.call("rm", "-rf", "sorted")


def left(room: Room, _: str) -> Iterator[Claim]:
    """What killed calls have left goes by the next call, but not what a call has locked, and nothing of other names."""
    room.sample("damaged-fourth-page.tif", "fax.tif")
    room.sample("one-mh-page.tif", "other.tif")
    room.bash("tiff2pdf -o fax.pdf other.tif; mkdir tree; cp other.tif tree; touch -d '1 hour ago' tree/*")
    calls = {
        "salvage": ["fax.tif", "out/made"], "compare": ["fax.tif", "other.tif", "out/made"],
        "from-pdf": ["fax.pdf", "out/made"], "mail": ["fax.tif", "a@b.c"], "html": ["fax.tif"], "picture": ["fax.tif", "0"], "sweep": ["tree", "out"],
        "receive": ["other.tif", "sorted"], "hylafax": ["--salvage", "fax.tif", "out/made"],
    }  # fmt: skip
    for script, words in calls.items():
        places = [f"tmp/faxpages-{script}", f"work/out/.faxpages-{script}", f"work/sorted/good/.faxpages-{script}"]
        for place in places:
            for name in ("killed", "locked", "young1", "longername"):
                os.makedirs(f"{room.path}/{place}.{name}")
        room.bash(f"find .. -name '*faxpages-{script}.*' ! -name '*young1' -exec {AN_HOUR_AGO} {{}} +")
        locks = [os.open(f"{room.path}/{place}.locked", os.O_RDONLY) for place in places]
        for lock in locks:
            fcntl.flock(lock, fcntl.LOCK_EX)
        status, told = room.call(f"faxpages-{script}", *words, SENDMAIL="/bin/true")[::2]
        for lock in locks:
            os.close(lock)
        gone = [place for place in places if not os.path.exists(f"{room.path}/{place}.killed")]
        stay = [name for place in places for name in ("locked", "young1", "longername")
                if not os.path.exists(f"{room.path}/{place}.{name}")]
        uses = USES.get(script, [0])
        yield f"{script}: {told}: what goes", (status in (0, 1), gone), (True, [places[it] for it in uses])
        yield f"{script}: what does not stay", stay, []
        room.bash("rm -rf ../tmp/* out sorted")


def pipes(room: Room, _: str) -> Iterator[Claim]:
    """A pipe in the place of a file of the sweep's own: it is said, and nothing waits for its other end."""
    os.makedirs(room("tree"))
    for name in ("lock", "seen"):
        os.makedirs(room("state"))
        os.mkfifo(room(f"state/{name}"))
        status, said = room.call("timeout", "60", "faxpages-sweep", "tree", "state")[::2]
        yield f"a pipe as {name}", (status, said), (3, f"faxpages-sweep: state/{name} is not a regular file\n")
        room.call("rm", "-r", "state")


EXTRA: Tests = {
    "The scripts and confidential faxes": (["tiff2pdf", "tiffcp", "pnmtopng", "pdftoppm"], private),
    "The scripts, and what killed calls have left": (["tiff2pdf", "tiffcp", "pnmtopng", "pdftoppm"], left),
    "A sweep over pipes": (["mkfifo"], pipes),
}
