"""spandsp, the library that Asterisk and FreeSWITCH fax with, of Debian's `libspandsp-dev`, by `spandsp.c`.

It decodes the strips that `convert` writes, in fill order 2, to the same raster. After a strip of MH or MR
comes the return to control, which TIFF-F leaves out and spandsp waits for. It receives the pages of a document
into a TIFF file, as a gateway does, and what it sends is framed as it stands: both must be converted to the same
PBM. Of a file that it keeps `check` has no note. What it sends in MH and MR ends with a return to control,
note N2, and its last byte is filled with ones, note N3, where T.6 has zeros. It sends pages of any width, but
receives those alone whose rows are whole bytes: of other widths it does not read its own pages either."""

from __future__ import annotations

import os
import shutil
import subprocess
from typing import Iterator

from tests import Claim
from tests.convert import pages
from tests.convert.files import directories_of, framed, put, read, strips_of

WIDTHS = [1, 7, 8, 9, 31, 32, 33, 64, 864, 1728, 2048, 2432, 2560, 2624, 4864, 65528, 65535]
COMPARISONS = 2538
CODINGS = ["mh", "mr", "mmr"]
SEED = 3
# Codings, and whether EOLs are aligned.
WAYS: list[tuple[str, list[str]]] = [("mh", []), ("mh", ["--align"]), ("mr", []), ("mr", ["--align"]), ("mmr", [])]
SOURCE = os.path.join(os.path.dirname(os.path.abspath(__file__)), "spandsp.c")
# Later versions name the codings otherwise.
PROBE = b"#include <spandsp.h>\nint coding = T4_COMPRESSION_ITU_T4_1D;\n"
BUILT = ""


def missing(room: str) -> str:
    """What is missing, or nothing: then the program is built."""
    global BUILT
    if not shutil.which("cc"):
        return "cc missing"
    looked = ["cc", "-fsyntax-only", "-x", "c", "-"]
    if subprocess.run(looked, input=PROBE, capture_output=True).returncode:
        return "spandsp.h of version 0.0.6 missing (libspandsp-dev)"
    BUILT = f"{room}/spandsp"
    subprocess.run(["cc", "-O1", "-Wall", "-Wextra", "-o", BUILT, SOURCE, "-lspandsp"], check=True)
    return ""


def spandsp(*words: str) -> bytes | tuple[int, bytes]:
    """What the program prints; what it has to say otherwise stands in its place."""
    ran = subprocess.run([BUILT, *words], capture_output=True, timeout=900)
    return ran.stdout if (ran.returncode, ran.stderr) == (0, b"") else (ran.returncode, ran.stderr)


def end_of(coding: str) -> str:
    """The bits that end a page: the return to control, six EOLs, or the end of the facsimile block, two."""
    eol = "000000000001"
    return {"mh": 6 * eol, "mr": 6 * (eol + "1"), "mmr": 2 * eol}[coding]


def ended(coding: str, strip: bytes) -> bytes:
    """A strip in fill order 2 as it comes over the line: with the return to control."""
    bits = "" if coding == "mmr" else end_of(coding)
    bits += "0" * (-len(bits) % 8)
    return strip + bytes(int(bits[at : at + 8][::-1], 2) for at in range(0, len(bits), 8))


def notes_of(coding: str, line: bytes) -> str:
    """The notes of a page that spandsp sent: N2, and N3 where a 1 follows the end."""
    bits = "".join(f"{byte:08b}"[::-1] for byte in line)
    _, _, rest = bits.rpartition(end_of(coding))
    notes = [] if coding == "mmr" else ["N2 ReturnToControl"]
    notes += ["N3 DataAfterEnd"] if "1" in rest else []
    return "".join(f"note page 0 strip 0: {note}\n" for note in notes)


def lines_of(room: str, coding: str, data: bytes) -> list[str]:
    """The names of files with the strips of a TIFF file, each as it comes over the line."""
    strips = [strip for fields in directories_of(data) for strip in strips_of(data, fields)]
    return [put(f"{room}/line{at}", ended(coding, strip)) for at, strip in enumerate(strips)]


def decoded(program: str, room: str, width: int, source: bytes, rasters: bytes) -> Iterator[Claim]:
    """What spandsp decodes of the strips that `convert` writes."""
    rng = pages.seeded(SEED, width, source)
    for coding, aligned in WAYS:
        numbers = ["--k", str(rng.randint(1, 5)), "--strip", str(rng.randint(1, 13))]
        words = ["-o", coding, "--order", "2", *numbers, *aligned]
        lines = lines_of(room, coding, pages.coded(program, words, source))
        yield f"{' '.join(words)}: spandsp decodes", spandsp("decode", coding, str(width), f"{room}/unused.tif", *lines), rasters


def received(program: str, room: str, width: int, drawn: list[list[int]], source: bytes) -> Iterator[Claim]:
    """What comes of the files that spandsp keeps of pages as `convert` codes them."""
    file = f"{room}/kept.tif"
    for coding in CODINGS:
        lines = lines_of(room, coding, pages.coded(program, ["-o", coding, "--order", "2"], source))
        for kept in CODINGS:
            said = spandsp("receive", coding, str(width), kept, file, *lines)
            name = f"spandsp receives {coding}, keeps {kept} {str(said) if said else ''}"
            yield from read(program, file if said == b"" else b"", name, drawn, source)


def sent(program: str, room: str, width: int, rows: list[int], source: bytes) -> Iterator[Claim]:
    """What comes of a page that spandsp sends, without fill and with it."""
    page = put(f"{room}/page.tif", framed(width, len(rows), 1, "plain", raster_of(width, rows)))
    for coding in CODINGS:
        for least in ("0", "500"):
            line = spandsp("send", coding, least, page, "0")
            name = f"spandsp sends {coding}, at least {least} bits a row"
            if not isinstance(line, bytes):
                yield name, line, b""
                continue
            data = framed(width, len(rows), 2, coding, line)
            yield from read(program, data, name, [rows], source, notes_of(coding, line))


def raster_of(width: int, rows: list[int]) -> bytes:
    """The raster of a page, without the header of its image."""
    return pages.image(width, rows).split(b"\n", 2)[2]


def compare(program: str, room: str, width: int, drawn: list[list[int]], source: bytes) -> Iterator[Claim]:
    """The comparisons of a document: a name, what came, and what is wanted."""
    rasters = b"".join(raster_of(width, rows) for rows in drawn)
    if width % 8 == 0:
        yield from decoded(program, room, width, source, rasters)
        yield from received(program, room, width, drawn, source)
    if len(drawn) == 1:
        yield from sent(program, room, width, drawn[0], source)
