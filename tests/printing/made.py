"""Faxes that other programs make, and damaged ones."""

from __future__ import annotations

import os
import random
import re
import subprocess
from typing import Iterator

from tests.finding import found

# Pages of text in which each line is another.
SHEETS = """%%!PS
/Helvetica findfont 10 scalefont setfont
1 1 %(pages)d { /page exch def << /PageSize [595 842] >> setpagedevice
1 1 62 { /n exch def n 40 mod 3 mul 40 add n 12 mul 40 add moveto (fax ) show
n page mul %(seed)d mul 9973 mod 12 string cvs show } for
100 page 60 mul 50 add moveto 400 300 lineto 3 setlinewidth stroke showpage } for
"""


def run(folder: str, *words: str) -> None:
    subprocess.run(words, cwd=folder, check=True, timeout=900, stdout=subprocess.DEVNULL, stderr=subprocess.DEVNULL)


def sheets(folder: str, name: str, pages: int, seed: int = 7) -> str:
    """A file of PostScript with so many pages."""
    with open(f"{folder}/{name}", "w") as file:
        file.write(SHEETS % {"pages": pages, "seed": seed})
    return name


def pdf(folder: str, name: str, pages: int, seed: int = 7) -> str:
    """A PDF with so many pages of text."""
    sheets(folder, f"{name}.ps", pages, seed)
    run(folder, "gs", "-q", "-dNOPAUSE", "-dBATCH", "-sDEVICE=pdfwrite", "-o", name, f"{name}.ps")
    return f"{folder}/{name}"


def by_ghostscript(folder: str) -> Iterator[str]:
    for device in ("tiffg3", "tiffg32d", "tiffg4"):
        for lines, pages in ((196, 1), (98, 1), (196, 3), (98, 2)):
            name = f"gs-{device}-{lines}-{pages}.tif"
            run(folder, "gs", "-q", "-dNOPAUSE", "-dBATCH", f"-sDEVICE={device}", f"-r204x{lines}", "-o", name,
                sheets(folder, "drawn.ps", pages, lines + pages))  # fmt: skip
            yield name


def by_libtiff(folder: str) -> Iterator[str]:
    """Those of tiffcp, and of fax2tiff out of raw data, and of netpbm's pnmtotiff."""
    source = "gs-tiffg4-196-3.tif"
    for name, words in {"g3": ["-c", "g3:1d"], "g3-fill": ["-c", "g3:1d:fill"], "g3-2d": ["-c", "g3:2d:fill"],
                        "g4-strips": ["-c", "g4", "-r", "64"], "g4-order": ["-c", "g4", "-f", "lsb2msb"],
                        "g4-big-endian": ["-c", "g4", "-B"]}.items():  # fmt: skip
        run(folder, "tiffcp", *words, source, f"tiffcp-{name}.tif")
        yield f"tiffcp-{name}.tif"
    run(folder, "gs", "-q", "-dNOPAUSE", "-dBATCH", "-sDEVICE=pbmraw", "-r204x196", "-o", "drawn.pbm", "drawn.ps")
    for form in ("-g3", "-g4"):
        with open(f"{folder}/pnmtotiff{form}.tif", "wb") as file:
            subprocess.run(["pnmtotiff", form, "-xresolution", "204", "-yresolution", "196", "drawn.pbm"], cwd=folder,
                           check=True, stdout=file, stderr=subprocess.DEVNULL, timeout=900)  # fmt: skip
        yield f"pnmtotiff{form}.tif"


def others(folder: str) -> list[str]:
    """The paths of 20 faxes that other programs make."""
    names = [*by_ghostscript(folder), *by_libtiff(folder)]
    return [f"{folder}/{name}" for name in names]


def damaged(path: str, program: str, seed: int) -> tuple[str, str]:
    """A copy of a fax with a byte of it changed, so that it has a fault; and the fault's line."""
    with open(path, "rb") as file:
        data = bytearray(file.read())
    rng = random.Random(seed)
    while True:
        at = rng.randrange(8, len(data))
        tried = data[:at] + bytes([data[at] ^ rng.randrange(1, 256)]) + data[at + 1 :]
        ran = subprocess.run([program, "check"], input=tried, capture_output=True, timeout=900)
        said = ran.stderr.decode().strip()
        # Where the first page's fields say that it is another picture, it is no fax.
        if ran.returncode == 1 and not said.startswith("fault page 0 row 0: Unsupported"):
            name = f"{path[:-4]}-damaged.tif"
            with open(name, "wb") as file:
                file.write(tried)
            return name, said


def pages_of(program: str, path: str) -> list[tuple[int, list[bytes]]]:
    """The pages of a fax as `convert` writes them: of each its width, and its rows."""
    ran = subprocess.run([program, "convert", "-o", "pbm", path], capture_output=True, check=True, timeout=900)
    return pictures_of(ran.stdout)


def pictures_of(data: bytes) -> list[tuple[int, list[bytes]]]:
    """The pictures of a raw PBM, which may have a comment: of each its width, and its rows."""
    pictures = []
    while data:
        head = found(rb"\AP4\n(?:#[^\n]*\n)?(\d+) (\d+)\n", data)
        width, height, at = int(head.group(1)), int(head.group(2)), head.end()
        stride = (width + 7) // 8
        rows = [data[at + i * stride : at + (i + 1) * stride] for i in range(height)]
        pictures.append((width, [whole_pels(width, row) for row in rows]))
        data = data[at + height * stride :]
    return pictures


def whole_pels(width: int, row: bytes) -> bytes:
    """A row with no bits after its last pel."""
    return row[:-1] + bytes([row[-1] & 0xFF << -width % 8 & 0xFF])


def images_of(folder: str, path: str) -> list[tuple[int, list[bytes]]]:
    """The images of a PDF's pages: of each its width, and its rows."""
    room = f"{folder}/images"
    os.makedirs(room, exist_ok=True)
    for name in os.listdir(room):
        os.remove(f"{room}/{name}")
    run(folder, "pdfimages", path, f"{room}/image")
    found = []
    for name in sorted(os.listdir(room)):
        with open(f"{room}/{name}", "rb") as file:
            found += pictures_of(file.read())
    return found
