"""Files that are made to take long, or much memory: the scripts end within their bounds, say which, and leave nothing."""

from __future__ import annotations

import os
import shutil
import struct
from typing import Iterator

from tests import Claim
from tests.recipes.room import Room, Tests

# A row of 1728 white pels in MH, after an EOL.
WHITE = "000000000001" + "010011011" + "00110101"
SECONDS = 1
TOO_SLOW = f"it takes more than {SECONDS} seconds of the processor; FAXPAGES_CPU_SECONDS can allow more\n"
# What a script may take beside the programs that it bounds.
BESIDE = 3.0
# A program that never ends, in the place of one of poppler's.
ENDLESS = "#!/bin/bash\nwhile :; do :; done\n"
# The program, but for a file of a damaged fax's pages, which it never ends.
ENDLESS_FILE = """#!/bin/bash
while [ "$1 $2" = 'salvage -o' ]; do :; done
exec {program} "$@"
"""
Entry = tuple[int, int, int, int]


def directory(entries: list[Entry], following: int) -> bytes:
    """A directory of a TIFF file."""
    fields = b"".join(struct.pack("<HHII", *it) for it in entries)
    return struct.pack("<H", len(entries)) + fields + struct.pack("<I", following)


def shared_strips(count: int, size: int) -> bytes:
    """A page of so many strips of a row, which all are the same bytes: `salvage` looks for a row in each."""
    places, counts = 8 + 2 + 8 * 12 + 4, 8 + 2 + 8 * 12 + 4 + 4 * count
    entries = [(256, 4, 1, 1728), (257, 4, 1, count), (258, 3, 1, 1), (259, 3, 1, 3), (262, 3, 1, 0),
               (273, 4, count, places), (278, 4, 1, 1), (279, 4, count, counts)]  # fmt: skip
    return (b"II*\0" + struct.pack("<I", 8) + directory(entries, 0) + struct.pack("<I", counts + 4 * count) * count
            + struct.pack("<I", size) * count + bytes(size))  # fmt: skip


def shared_fill(count: int, size: int) -> bytes:
    """So many pages of a row, which all have the same strip, of as many bytes of fill: `check` reads it for each."""
    bits = WHITE + "0" * (-len(WHITE) % 8)
    strip = bytes(size) + bytes(int(bits[it:it + 8], 2) for it in range(0, len(bits), 8))
    each = 2 + 8 * 12 + 4
    place = 8 + count * each
    entries = [(256, 4, 1, 1728), (257, 4, 1, 1), (258, 3, 1, 1), (259, 3, 1, 3), (262, 3, 1, 0), (273, 4, 1, place),
               (278, 4, 1, 1), (279, 4, 1, len(strip))]  # fmt: skip
    return (b"II*\0" + struct.pack("<I", 8) + b"".join(
        directory(entries, 8 + (page + 1) * each if page + 1 < count else 0) for page in range(count)) + strip)


def timed(room: Room, *words: str, **more: str) -> tuple[int, str, float]:
    """The status of a script, what it says, and the seconds of the processor that it and its programs took."""
    before = os.times()
    status, said = room.call(*words, **more)[::2]
    after = os.times()
    return status, said, after.children_user + after.children_system - before.children_user - before.children_system


def seconds(room: Room, _: str) -> Iterator[Claim]:
    """Each script ends soon after the seconds that it may take, says so, and makes nothing."""
    room.put("strips.tif", shared_strips(100_000, 1 << 16))
    room.put("fill.tif", shared_fill(20_000, 1 << 20))
    room.put("endless.pdf", b"%PDF-1.4\n%%EOF\n")
    for name in ("pdfinfo", "pdftoppm"):
        room.tool(name, ENDLESS)
    names = room.names()
    calls = {
        "salvage": (["strips.tif", "made"], "faxpages-salvage: "), "html": (["strips.tif"], "faxpages-html: "),
        "mail": (["fill.tif", "a@b.c"], "faxpages-mail: "),
        "receive": (["fill.tif", "."], "faxpages-receive: ./fill.tif stays: "),
        "compare": (["fill.tif", "fill.tif"], "faxpages-compare: fill.tif: fault "),
        "from-pdf": (["endless.pdf", "made"], "faxpages-from-pdf: "),
        "hylafax": (["--salvage", "fill.tif", "made"], "faxpages-hylafax: "),
    }  # fmt: skip
    for script, (words, said) in calls.items():
        bound = {"FAXPAGES_CPU_SECONDS": str(SECONDS), "SENDMAIL": "/bin/false"}
        status, told, took = timed(room, f"faxpages-{script}", *words, **bound)
        wanted = 1 if script == "from-pdf" else 3
        # What is compared is read twice, side by side.
        most = SECONDS * (2 if script == "compare" else 1) + BESIDE
        yield f"{script}: {took:.1f} s", (status, told, took < most), (wanted, said + TOO_SLOW, True)
        room.bash("rmdir good faulty")
        yield f"{script}: what is there", (room.names(), room.left()), (names, [])
    for name in ("pdfinfo", "pdftoppm"):
        os.remove(f"{room.path}/bin/{name}")
    room.sample("damaged-fourth-page.tif", "fax.tif")
    room.tool("faxpages", ENDLESS_FILE.format(program=room.program))
    status, told, took = timed(room, "faxpages-salvage", "fax.tif", "made", FAXPAGES_CPU_SECONDS=str(SECONDS))
    ended = 3, "faxpages-salvage: " + TOO_SLOW, True
    yield f"salvage, and pages.tif: {took:.1f} s", (status, told, took < SECONDS + BESIDE), ended
    yield "salvage, and pages.tif: what is there", (room.names(), room.left()), (sorted([*names, "fax.tif"]), [])


def swept(room: Room, _: str) -> Iterator[Claim]:
    """A sweep reads a fax that takes too long once, until it may take longer."""
    room.put("tree/fill.tif", shared_fill(20_000, 1 << 20))
    room.sample("one-mh-page.tif", "tree/good.tif")
    room.bash("touch -d '1 hour ago' tree/*")
    told = "not read: ./tree/fill.tif: " + TOO_SLOW
    summed = "new: {} faxes, {} good, 0 faulty, 1 not read; in all: 2\n"
    for allowed, wanted in (("1", (1, told + summed.format(2, 1))), ("1", (0, "")),
                            ("2", (1, told.replace("than 1", "than 2") + summed.format(1, 0)))):  # fmt: skip
        status, output, _said = room.call("faxpages-sweep", "tree", "state", "figures", FAXPAGES_CPU_SECONDS=allowed)
        yield f"{allowed} seconds", (status, output.decode()), wanted
        yield "the figures", b'{result="not_read"} 1\n' in room.get("figures"), True


def memory(room: Room, _: str) -> Iterator[Claim]:
    """A fax that takes more memory than is allowed; one that takes less; and bounds that are none."""
    room.sample("one-mh-page.tif", "small.tif")
    room.put("large.tif", room.get("small.tif") + bytes(40 << 20))
    said = "fault: Memory, where FAXPAGES_MEMORY_MIB allows 20\n"
    for script, *words in (["salvage", "large.tif", "made"], ["html", "large.tif"], ["mail", "large.tif", "a@b.c"],
                           ["picture", "large.tif", "0"]):  # fmt: skip
        told = room.call(f"faxpages-{script}", *words, FAXPAGES_MEMORY_MIB="20", SENDMAIL="/bin/false")[::2]
        yield f"{script}: memory", told, (3, f"faxpages-{script}: {said}")
    told = room.call("faxpages-receive", "large.tif", ".", FAXPAGES_MEMORY_MIB="20")[::2]
    yield "receive: memory", told, (3, f"faxpages-receive: ./large.tif stays: {said}")
    yield "less memory", room.call("faxpages-receive", "small.tif", ".", FAXPAGES_MEMORY_MIB="20")[::2], (0, "")
    shutil.move(room("good/small.tif"), room("small.tif"))
    # A limit of the caller's own that is lower stays.
    told = room.bash("ulimit -v 20480; faxpages-receive large.tif .")[::2]
    yield "a lower limit", told, (3, "faxpages-receive: ./large.tif stays: " + said.replace("20", "2048"))
    for value in ("", "0", "x", "1x", "-1", "010", "1e3", "12345678"):
        for name in ("FAXPAGES_CPU_SECONDS", "FAXPAGES_MEMORY_MIB"):
            told = room.call("faxpages-html", "small.tif", **{name: value})[::2]
            yield f"{name}={value}", told, (
                3,
                "faxpages-html: FAXPAGES_CPU_SECONDS and FAXPAGES_MEMORY_MIB are numbers from 1 to 9999999, "
                f"and not '{value}'\n",
            )


EXTRA: Tests = {
    "The scripts and faxes that take long": (["tiff2pdf", "tiffcp", "pnmtopng"], seconds),
    "A sweep over a fax that takes long": (["flock"], swept),
    "The scripts and faxes that take much memory": (["tiff2pdf", "tiffcp", "pnmtopng"], memory),
}
