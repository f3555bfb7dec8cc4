"""What other programs read of a file that `faxpages salvage -o` wrote: libtiff's `tiffinfo` and `tiffcp`, Pillow, and
Ghostscript by way of `tiff2pdf`, of Debian's `libtiff-tools`, `python3-pil` and `ghostscript`.

Each answers with the sizes of the pages, or with their images as raw PBM, or with what it said. Each has to end with
status 0, without a word."""

from __future__ import annotations

import importlib.util
import io
import re
import shutil
import struct
import subprocess
import warnings
from typing import Callable, Iterator

from tests.convert import libtiff
from tests.convert.files import get, put, tool

# A page: its width and its rows, each a number with the first pel in its highest bit, 1 for black.
Page = tuple[int, list[int]]
# What a reader answers of a file: images, sizes, or what it said.
Answer = bytes | list[tuple[int, int]] | tuple[int, str] | str

TIFF = ["mh", "mr", "mmr"]
# ResolutionUnit.
UNIT = 296


def sizes_of(images: bytes) -> Iterator[tuple[int, int, int]]:
    """Of each raw PBM image its width, its height, and where its rows begin."""
    at = 0
    while at < len(images):
        head = re.compile(rb"P4\n(\d+) (\d+)\n").match(images, at)
        if head is None:
            raise ValueError(f"no image at byte {at} of {len(images)}")
        width, height = int(head[1]), int(head[2])
        yield width, height, head.end()
        at = head.end() + -(-width // 8) * height


def by_tiffinfo(file: str, _: str) -> Answer:
    """The sizes of the pages, whose rows it reads too."""
    ran = subprocess.run(["tiffinfo", "-D", file], capture_output=True, text=True, timeout=900)
    if ran.returncode or ran.stderr:
        return ran.returncode, ran.stderr
    found = re.findall(r"Image Width: (\d+) Image Length: (\d+)", ran.stdout)
    return [(int(width), int(length)) for width, length in found]


def by_tiffcp(file: str, room: str) -> Answer:
    """The images of an uncompressed copy."""
    return tool(["tiffcp", "-c", "none", file, f"{room}/raster.tif"]) or libtiff.images_of(get(f"{room}/raster.tif"))


def by_pillow(file: str, _: str) -> Answer:
    """The images of all pages; a warning is an error."""
    from PIL import Image, ImageSequence

    data = get(file)
    starts = [start for *_, start in sizes_of(data)] if data[:2] == b"P4" else []
    made = []
    with warnings.catch_warnings():
        warnings.simplefilter("error")
        try:
            # Of a stream of PBM images it opens the first one.
            for part in images_apart(data, starts) if starts else [data]:
                with Image.open(io.BytesIO(part)) as image:
                    for page in ImageSequence.Iterator(image):
                        made.append(b"P4\n%d %d\n" % page.size + page.convert("1").tobytes("raw", "1;I"))
        except Exception as error:
            return repr(error)
    return b"".join(made)


def images_apart(data: bytes, starts: list[int]) -> Iterator[bytes]:
    """The raw PBM images of a stream, each with its head."""
    heads = [data.rindex(b"P4\n", 0, start) for start in starts]
    for head, end in zip(heads, [*heads[1:], len(data)]):
        yield data[head:end]


READERS: dict[str, Callable[[str, str], Answer]] = {
    "tiffinfo": by_tiffinfo, "tiffcp": by_tiffcp, "Pillow": by_pillow}


def in_inches(data: bytes) -> bytes:
    """A file with resolutions in pels to the inch: where the unit is none, tiff2pdf's pages are 72 times as small."""
    made, at = bytearray(data), struct.unpack_from("<I", data, 4)[0]
    while at:
        (entries,) = struct.unpack_from("<H", data, at)
        for entry in range(at + 2, at + 2 + 12 * entries, 12):
            if struct.unpack_from("<H", data, entry) == (UNIT,):
                struct.pack_into("<H", made, entry + 8, 2)
        (at,) = struct.unpack_from("<I", data, at + 2 + 12 * entries)
    return bytes(made)


def as_pdf(file: str, pdf: str) -> Answer | None:
    """Writes a PDF with the pages' codes as they are, of as many points as there are pels; answers what it said."""
    words = ["tiff2pdf", "-u", "i", "-r", "o", "-x", "72", "-y", "72", "-o", pdf]
    return tool([*words, put(f"{file}.inches", in_inches(get(file)))])


def by_ghostscript(pdfs: list[str], room: str) -> Answer:
    """The images of the pages of many PDFs, one after another."""
    out = put(f"{room}/drawn.pbm", b"")
    words = ["gs", "-q", "-dSAFER", "-dBATCH", "-dNOPAUSE", "-r72", "-sDEVICE=pbmraw", f"-sOutputFile={out}", *pdfs]
    ran = subprocess.run(words, capture_output=True, text=True, timeout=900)
    said = ran.stdout + ran.stderr
    return (ran.returncode, said) if ran.returncode or said else without_comments(get(out))


def without_comments(images: bytes) -> bytes:
    """Ghostscript's images, in whose heads it has a comment, with heads as they are here."""
    return re.sub(rb"(?s)P4\n#[^\n]*\n(\d+) (\d+)\n", rb"P4\n\1 \2\n", images)


def lacking() -> dict[str, str]:
    """The readers that are not installed, each with the package that has it."""
    found = {name: "libtiff-tools" for name in ("tiffinfo", "tiffcp") if not shutil.which(name)}
    if importlib.util.find_spec("PIL") is None:
        found["Pillow"] = "python3-pil"
    if not shutil.which("gs") or not shutil.which("tiff2pdf"):
        found["Ghostscript"] = "ghostscript, libtiff-tools"
    return found
