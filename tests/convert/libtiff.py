"""libtiff's tools and netpbm, of Debian's `libtiff-tools` and `netpbm`.

What `convert` writes is copied by `tiffcp -c none` and must have the same raster then; neither it nor
`tiffdump` may have a word to say on the error stream. What `tiffcp`, `pnmtotiff` and `pbmtog3` write must be
converted to the same PBM. Of what `tiffcp` and `pnmtotiff` write `check` has no note: they leave out the
return to control, end an MMR strip with the end of the facsimile block and choose the codes that T.4
chooses. `pbmtog3` ends a page with seven EOLs: that of the last row and a return to control after it. The
first six are the return to control for `check`, note N2, and the seventh is data after the end, note N3."""

from __future__ import annotations

import shutil
from typing import Iterator

from tests import Claim
from tests.convert import pages
from tests.convert.files import directories_of, framed, get, put, read, strips_of, tool

WIDTHS = [1, 7, 8, 9, 31, 32, 33, 64, 1728, 2560, 2624, 65535]
COMPARISONS = 4200
TOOLS = ["tiffcp", "tiffdump", "pnmtotiff", "pbmtog3"]
SEED = 2
# Codings, and whether EOLs are aligned.
WAYS: list[tuple[str, list[str]]] = [("mh", []), ("mh", ["--align"]), ("mr", []), ("mr", ["--align"]), ("mmr", [])]
SEVEN_EOLS = "note page 0 strip 0: N2 ReturnToControl\nnote page 0 strip 0: N3 DataAfterEnd\n"


def missing(_: str) -> str:
    """What is missing, or nothing."""
    names = [name for name in TOOLS if not shutil.which(name)]
    return f"{', '.join(names)} missing (libtiff-tools, netpbm)" if names else ""


def images_of(data: bytes) -> bytes:
    """The raw PBM images of the pages of an uncompressed file."""
    images = []
    for fields in directories_of(data):
        (width,), (length,) = fields[256], fields[257]
        raster = b"".join(strips_of(data, fields))
        if fields.get(266, (1,)) == (2,):
            raster = bytes(int(f"{byte:08b}"[::-1], 2) for byte in raster)
        size = -(-width // 8)
        assert fields[259] == (1,) and len(raster) == size * length
        black = 0 if fields[262] == (0,) else (1 << width) - 1
        rows = (int.from_bytes(raster[row : row + size], "big") for row in range(0, len(raster), size))
        images.append(pages.image(width, [row >> 8 * size - width ^ black for row in rows]))
    return b"".join(images)


def most_runs(width: int, drawn: list[list[int]]) -> bool:
    """Whether a row has the most runs of all: one of no white pels, and then each pel is a run."""
    return any(row == sum(1 << at for at in range(width - 1, -1, -2)) for rows in drawn for row in rows)


def written(program: str, room: str, width: int, drawn: list[list[int]], uncoded: list[str]) -> Iterator[Claim]:
    """What the tools have of what `convert` writes: a name, what came, and what is wanted."""
    source = b"".join(pages.image(width, rows) for rows in drawn)
    rng = pages.seeded(SEED, width, len(drawn), source)
    for coding, aligned in WAYS:
        for order in ("1", "2"):
            numbers = ["--k", str(rng.randint(1, 5)), "--strip", str(rng.randint(1, 13))]
            words = ["-o", coding, "--order", order, *numbers, *aligned]
            data = pages.converted(program, words, source)
            file = put(f"{room}/written.tif", data if isinstance(data, bytes) else b"")
            name, out = " ".join(words), f"{room}/raster.tif"
            yield f"{name}: tiffdump", tool(["tiffdump", file]), None
            said = tool(["tiffcp", "-c", "none", file, out])
            # libtiff 4.5 has no room for so many runs of an MH row, not in its own files either.
            if said and coding == "mh" and width % 32 == 0 and most_runs(width, drawn):
                own = f"{room}/own.tif"
                wrote = tool(["tiffcp", "-c", "g3:1d", *uncoded, own])
                refused = tool(["tiffcp", "-c", "none", own, out])
                yield f"{name}: tiffcp refuses its own", (wrote, refused is not None), (None, True)
            else:
                yield f"{name}: tiffcp", said or images_of(get(out)), source


def from_tiffcp(program: str, room: str, drawn: list[list[int]], source: bytes,
                uncoded: list[str]) -> Iterator[Claim]:
    out = f"{room}/out.tif"
    for coding in ("g3:1d", "g3:2d", "g3:1d:fill", "g3:2d:fill", "g4"):
        for form in (["-f", "msb2lsb", "-L"], ["-f", "lsb2msb", "-B", "-r", "2"]):
            words = ["tiffcp", "-c", coding, *form]
            said = tool([*words, *uncoded, out])
            yield from read(program, b"" if said else out, f"{' '.join(words)} {said or ''}", drawn, source)


def from_netpbm(program: str, room: str, width: int, rows: list[int]) -> Iterator[Claim]:
    source, out = pages.image(width, rows), f"{room}/out.tif"
    image = put(f"{room}/image.pbm", source)
    for coding in (["-g3"], ["-g3", "-2d"], ["-g3", "-fill"], ["-g4"]):
        for white in ("-miniswhite", "-minisblack"):
            words = ["pnmtotiff", *coding, white]
            tool([*words, image], out)
            yield from read(program, out, " ".join(words), [rows], source)
    orders: list[tuple[int, list[str]]] = [(1, []), (2, ["-reversebits"]), (1, ["-align8"])]
    for order, more in orders:
        words = ["pbmtog3", "-nofixedwidth", *more]
        tool([*words, image], out)
        data = framed(width, len(rows), order, "mh", get(out))
        yield from read(program, data, " ".join(words), [rows], source, SEVEN_EOLS)


def compare(program: str, room: str, width: int, drawn: list[list[int]], source: bytes) -> Iterator[Claim]:
    """The comparisons of a document: a name, what came, and what is wanted."""
    uncoded = []
    for number, rows in enumerate(drawn):
        image = put(f"{room}/image.pbm", pages.image(width, rows))
        uncoded.append(f"{room}/uncoded{number}.tif")
        tool(["pnmtotiff", "-none", ["-miniswhite", "-minisblack"][width % 2], image], uncoded[-1])
    yield from written(program, room, width, drawn, uncoded)
    yield from from_tiffcp(program, room, drawn, source, uncoded)
    if len(drawn) == 1:
        yield from from_netpbm(program, room, width, drawn[0])
