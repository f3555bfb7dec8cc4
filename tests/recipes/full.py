"""The scripts of the recipes with a full disk, and with files that cannot be read; and the example in Python. The full
disk is a small file system of memory, for the temporary files and what is written."""

from __future__ import annotations

import os
import subprocess
import sys
from typing import Iterator

from tests import Claim
from tests.convert import files, pages
from tests.recipes.manual import manual
from tests.recipes.recipes import ROOT, SCRIPTS
from tests.recipes.room import UNREADABLE, WIDTH, Room, Tests

SIZE = "64k"
# A terabyte, of which the disk has no block.
LARGE = 1 << 40


def cannot_mount(room: Room) -> str:
    """Lets the folder of temporary files be small: why it cannot be."""
    ran = subprocess.run(
        ["mount", "-t", "tmpfs", "-o", f"size={SIZE}", "tmpfs", f"{room.path}/tmp"], capture_output=True, text=True
    )
    return ran.stderr.strip()


def noise(room: Room, name: str) -> None:
    """Writes a fax of two pages that takes more than the file system has."""
    image = b"P4\n%d 1000\n" % WIDTH + pages.seeded("full").randbytes(WIDTH // 8 * 1000)
    room.put(name, pages.coded(room.program, ["-o", "mmr"], image * 2))


def full_disk(room: Room, _: str) -> Iterator[Claim]:
    why = cannot_mount(room)
    if why:
        print(f"not run: a full disk: {why}")
        return
    try:
        yield from refused(room)
    finally:
        subprocess.run(["umount", f"{room.path}/tmp"], check=True)


def refused(room: Room) -> Iterator[Claim]:
    """Each script says so, answers 3 (that of a PDF 1), writes nothing, and leaves what it was given."""
    noise(room, "archive/fax.tif")
    room.tool("sendmail", '#!/bin/sh\ncat >"$HOME/mailed"\n')
    mailer = {"SENDMAIL": f"{room.path}/bin/sendmail"}
    small, before = f"{room.path}/tmp", room.contents("archive")
    fax = "archive/fax.tif"
    calls = [
        ["picture", fax, "0"],
        ["html", fax],
        ["mail", fax, "a@b.c"],
        ["salvage", fax, "salvaged"],
        ["salvage", fax, f"{small}/salvaged"],
        ["receive", fax, f"{small}/faxes"],
        ["from-pdf", "letter.pdf", "letter.tif"],
    ]
    room.bash("img2pdf --output letter.pdf archive/fax.tif")
    for name, *words in calls:
        status, output, said = room.call(f"faxpages-{name}", *words, **mailer)
        yield f"{name}: status", status, 1 if name == "from-pdf" else 3
        yield f"{name}: it says so", said != "", True
        yield f"{name}: output", output, b""
        yield f"{name}: all is as before", (room.contents("archive"), room.names()), (
            before,
            ["archive", "letter.pdf"],
        )
        left = [place for place, _, names in os.walk(small) if names]
        yield f"{name}: nothing is left", left, []
        room.bash(f"rm -rf {small}/*")
    said = room.call("faxpages-salvage", fax, "salvaged")[2]
    yield "salvage: what has no room", said, "faxpages-salvage: no room for the pages\n"
    room.bash(f"rm -rf {small}/*")
    yield "compare", room.call("faxpages-compare", fax, fax)[::2], (0, "")
    room.bash("touch -d '1 hour ago' archive/fax.tif")
    room.bash(f"mkdir {small}/state; head -c 1M /dev/zero >{small}/fill")
    yield "sweep", room.call("faxpages-sweep", "archive", f"{small}/state", f"{small}/figures")[0], 3
    yield "sweep: no figures", sorted(os.listdir(small)), ["fill", "state"]
    os.remove(f"{small}/fill")
    yield "sweep, with room", room.call("faxpages-sweep", "archive", f"{small}/state", f"{small}/figures")[0], 0
    yield "sweep, with room: figures", b'faxpages_faxes{result="good"} 1\n' in files.get(f"{small}/figures"), True


def unread(room: Room, _: str) -> Iterator[Claim]:
    """Of a file that cannot be read each script gives the reason, and status 3."""
    os.mkdir(room("folder.tif"))
    os.symlink(UNREADABLE, room("unread.tif"))
    # Of so many bytes none may be read, if all is to end today.
    room.put("large.tif", b"")
    os.truncate(room("large.tif"), LARGE)
    room.fax("good.tif", "mh", "marks")
    reasons = {
        "none.tif": "No such file or directory",
        "folder.tif": "not a regular file",
        "unread.tif": "fault: Read: Input/output error",
        "large.tif": "fault: Read: larger than 256 MiB",
    }
    for name, reason in reasons.items():
        for script, *words in (["html"], ["picture", "0"], ["salvage", "salvaged"], ["mail", "a@b.c"]):
            said = f"faxpages-{script}: {name}: {reason}\n"
            status, output, told = room.call(f"faxpages-{script}", name, *words, SENDMAIL="/bin/false")
            yield f"{script} {name}", (status, output, told), (3, b"", said)
        for words in ([name, "good.tif"], ["good.tif", name]):
            yield f"compare {words}", room.call("faxpages-compare", *words), (
                3,
                b"",
                f"faxpages-compare: {name}: {reason}\n",
            )
        fax = UNREADABLE if name == "unread.tif" else name  # a link stays for another reason
        said = f"faxpages-receive: {fax if fax == UNREADABLE else f'./{fax}'} stays: {reason}\n"
        yield f"receive {name}", room.call("faxpages-receive", fax, "sorted"), (3, b"", said)
    room.bash("mkdir tree; touch -d '1 hour ago' large.tif; ln large.tif tree")
    yield "sweep", room.call("faxpages-sweep", "tree", "state")[:2], (
        1,
        b"not read: ./tree/large.tif: fault: Read: larger than 256 MiB\n"
        b"new: 1 faxes, 0 good, 0 faulty, 1 not read; in all: 0\n",
    )
    yield "nothing is left", (room.left(), room.names("sorted/good"), room.names("sorted/faulty")), ([], [], [])


def example(room: Room, _: str) -> Iterator[Claim]:
    """examples/sweep.py as it stands in the sources, where the library is as ./install puts it."""
    library = f"{os.path.dirname(room.program)}/libfaxpages.so.1"
    if not os.path.exists(library):
        print("not run: examples/sweep.py: there is no library beside the program")
        return
    sweep = [sys.executable, "-B", f"{ROOT}/examples/sweep.py"]
    for name in room.faxes("faxes"):
        room.put(f"faxes/in/{name}", room.get(f"faxes/{name}"))
    status, output, said = room.call(*sweep, "faxes", PYTHONPATH="", FAXPAGES_LIBRARY="nowhere")
    yield "no library", (status, said.startswith("sweep.py: libfaxpages.so.1 is not installed"), said.count("\n")), (
        1,
        True,
        1,
    )
    room.put(".local/lib/libfaxpages.so.1", files.get(library))
    fault = room.rows("faxes/faulty.tif")[1].decode().replace("fault ", "", 1)
    os.symlink(UNREADABLE, room("faxes/unread.tif"))
    os.symlink("nowhere", room("faxes/gone.tif"))
    status, output, said = room.call(*sweep, "faxes", PYTHONPATH="")
    lines = output.decode().splitlines()
    yield "status", (status, said), (1, "")
    # What a fault means stands after its name.
    named = [": ".join(it.split(": ")[:3]) for it in lines[:4]]
    yield "named", sorted(named), sorted(
        [
            "faxes/gone.tif: No such file or directory",
            "faxes/unread.tif: Input/output error",
            *(f"faxes/{it}faulty.tif: {fault}".strip() for it in ("", "in/")),
        ]
    )
    yield "counts", [it for it in lines[4:] if it.endswith(("damaged", "faxes", "not read", "of other kinds"))], [
        "2 damaged",
        "8 faxes",
        "2 not read",
        "0 of other kinds",
    ]
    room.put("kinds/pdf.tif", b"%PDF-1.4\n%%EOF\n")
    status, output, _ = room.call(*sweep, "kinds", PYTHONPATH="")
    yield "a PDF is not damaged", (status, {b"0 damaged", b"1 of other kinds"} <= set(output.splitlines())), (1, True)
    for name in ("faxes/gone.tif", "faxes/unread.tif", "faxes/faulty.tif", "faxes/in/faulty.tif"):
        os.remove(room(name))
    yield "all are whole", room.call(*sweep, "faxes", PYTHONPATH="")[::2], (0, "")
    yield "no folder", room.call(*sweep, "nowhere", PYTHONPATH="")[:2], (
        1,
        b"nowhere: No such file or directory\n1 not read\n",
    )
    yield "no words", room.call(*sweep, PYTHONPATH="")[0], 2


def checked(room: Room, _: str) -> Iterator[Claim]:
    """The scripts as shellcheck sees them; `a && b || c` is meant as it stands."""
    for name in sorted(os.listdir(SCRIPTS)):
        yield name, room.call("shellcheck", "--exclude=SC2015", f"{SCRIPTS}/{name}"), (0, b"", "")


EXTRA: Tests = {
    "The manual page of the scripts": (["img2pdf", "pnmtopng", "pdfimages", "fax2tiff", "tiff2pdf", "tiffcp"], manual),
    "The example in Python": (["python3"], example),
    "The scripts, by shellcheck": (["shellcheck"], checked),
    "The scripts and files that cannot be read": (["pnmtopng", "tiff2pdf", "tiffcp"], unread),
    "The scripts on a full disk": (["mount", "img2pdf", "pdftoppm", "tiff2pdf", "tiffcp", "pnmtopng"], full_disk),
}
