#!/usr/bin/env python3
"""Reads whole pages by the Python module, and writes them, beside the program.

    pages.py PROGRAM FILE..

FAXPAGES_LIBRARY names the library. Ends with 'pages: N passed, N failed'."""

from __future__ import annotations

import operator
import array
import io
import itertools
import mmap
import os
import pathlib
import struct
import subprocess
import sys
import tempfile
import tracemalloc
from functools import partial
from typing import Any, List
from fractions import Fraction

from tests.library.counted import Claims
from tests import TOP
from tests.library.counted import SMALL, Claims, until_fault
from tests.plain.strips import file_of

import faxpages

PROGRAM = sys.argv[1]
# More than a page that is refused or empty may take.
MEMORY = 8 << 20


def said(*words: str, data: bytes) -> subprocess.CompletedProcess[bytes]:
    """What the program prints."""
    return subprocess.run([PROGRAM, *words], input=data, capture_output=True, check=False, timeout=900)


def packed_by_program(data: bytes) -> dict[int, bytes]:
    """The packed rows of each page, as the program prints their runs, by the number of the page."""
    pages: dict[int, bytes] = {}
    for line in said("rows", data=data).stdout.decode().splitlines():
        if line.startswith("row "):
            page, _, *runs = map(int, line.split()[1:])
            pels = "".join("01"[number % 2] * run for number, run in enumerate(runs))
            pels += "0" * (-len(pels) % 8)
            pages[page] = pages.get(page, b"") + int(pels, 2).to_bytes(len(pels) // 8, "big")
    return pages


def whole_pages(claims: Claims, name: str, data: bytes) -> None:
    """Each page in one piece is its rows, as far as the program reads them, and what is lost is told."""
    wanted, report = packed_by_program(data), faxpages.check(data)
    for page in itertools.islice(faxpages.open(data), report.pages):
        whole = page.raster()
        claims.see(f"page {page.number} of {name}", wanted[page.number] == page.packed() == whole.packed)
        claims.see(f"its raster of {name}", page.raster(partial=True) == whole
                   and (whole.lost, whole.fault) == (0, None) and (whole.width, whole.rows) == (page.width, page.rows)
                   and (whole.x, whole.y, whole.unit) == (page.x, page.y, page.unit))
    try:
        damaged = faxpages.open(data).page(report.pages)
    except (faxpages.Fault, faxpages.OutsideError):
        return
    part = damaged.raster(partial=True)
    claims.see(f"the damaged page of {name}", part.packed == wanted.get(report.pages, b"") == damaged.packed(True)
               and part.rows + part.lost == damaged.rows and part.lost > 0 and part.fault == report.fault)
    claims.raises(f"the whole of a damaged page of {name}", type(report.fault) if report.fault else Exception, damaged.packed)


def as_sequence(claims: Claims, name: str, data: bytes) -> None:
    """A fax is a sequence of its pages."""
    fax, (pages, fault) = faxpages.open(data), until_fault(faxpages.open(data))
    claims.see(f"a fax is true, {name}", bool(fax))
    for number, page in enumerate(pages):
        claims.see(f"{name}[{number}]", fax[number] == page == fax.page(number)
                   and fax[:number + 1] == pages[:number + 1])
    if fault:
        end = len(pages) + 1
        for what in (lambda: len(fax), lambda: fax[-1], lambda: fax[0:], lambda: fax[:end], lambda: list(fax)):
            claims.raises(f"all pages of {name}", type(fault), what)
        return
    claims.see(f"len of {name}", len(fax) == len(pages) == len(fax))
    claims.see(f"lists of {name}", list(fax) == pages and list(reversed(fax)) == pages[::-1] and fax[:] == pages
               and (not pages or pages[-1] in fax and fax.index(pages[-1]) == len(pages) - 1))
    bounds = [None, 0, 1, 2, len(pages), 2 ** 70, -1, -2, -2 ** 70]
    for start, stop, step in itertools.product(bounds, bounds, [None, 1, 2, -1, -2]):
        claims.see(f"{name}[{start}:{stop}:{step}]", fax[start:stop:step] == pages[start:stop:step])
    for number in (len(pages), -len(pages) - 1, 2 ** 32, -2 ** 70):
        claims.raises(f"{name}[{number}]", faxpages.OutsideError, partial(operator.getitem, fax, number))
    claims.raises(f"{name}['0']", TypeError, partial(operator.getitem, fax, "0"))
    claims.raises(f"{name}[::0]", ValueError, lambda: fax[::0])


def written(claims: Claims, name: str, data: bytes) -> None:
    """A file that is written page by page has the bytes of the program's, and the same pages."""
    fax = faxpages.open(data)
    ways = itertools.product(("mh", "mr", "mmr"), (1, 2), (1, 3), (None, 2), (False, True))
    for coding, order, k, strip, align in ways:
        words = ["-o", coding, "--order", str(order), "--k", str(k)] + (["--strip", str(strip)] if strip else [])
        if align and coding == "mmr":
            claims.raises(f"{name} in mmr, aligned", ValueError, lambda: faxpages.encode(fax, align=True))
            continue
        made = faxpages.encode(fax, coding, order, k, strip, align)
        wanted = said("convert", *words, *(["--align"] if align else []), data=data).stdout
        claims.see(f"{name} by {coding} {order} {k} {strip} {align}", made == wanted != b"")
        counted_last = faxpages.encode(iter(fax), coding, order, k, strip, align)
        claims.see(f"{name} by {coding} {order} {k} {strip} {align}, page by page", counted_last == wanted)
        again = faxpages.open(made)
        claims.see(f"{name} written and read", [page.packed() for page in again] == [page.packed() for page in fax])
    claims.see(f"{name} by rows", faxpages.encode([list(page) for page in fax], dpi=(204, 196))
               == faxpages.encode((page.raster() for page in fax), dpi=(204, 196)))


def resolutions(claims: Claims) -> None:
    """A page keeps its resolution and its unit, and another one can be said."""
    page = faxpages.open(faxpages.convert(SMALL, "mmr"))[0]
    raster = faxpages.Raster(page.width, page.rows, page.packed(), Fraction(77), Fraction(38.5), 3)
    again = faxpages.open(faxpages.encode([raster, raster, page]))
    claims.see("centimetres", [(float(it.x), float(it.y), it.unit) for it in again] == [(77, 38.5, 3)] * 2 + [(204, 196, 2)])
    claims.see("inches", again[0].dpi == raster.dpi == (77 * 2.54, 38.5 * 2.54) and again[2].dpi == (204, 196))
    no_unit = faxpages.open(faxpages.encode([faxpages.Raster(8, 1, b"1", unit=1)]))[0]
    claims.see("no unit", no_unit.unit == 1 and no_unit.dpi is None)
    asked: list[tuple[Any, tuple[float, float]]] = [
        (200, (200, 200)), ((203.2, 195.58), (203.2, 195.58)), ((0.5, 2 ** 31), (0.5, 2 ** 31))]
    for dpi, wanted in asked:
        found = faxpages.open(faxpages.encode([page], dpi=dpi))[0]
        claims.see(f"dpi {dpi}", found.dpi == wanted and found.unit == 2)
    wrongs: list[Any] = ["200", b"200", (200, None), 1j, (1, 2, 3)]
    for dpi in wrongs:
        claims.raises(f"dpi {dpi}", ValueError if dpi == (1, 2, 3) else TypeError,
                      partial(faxpages.encode, [page], dpi=dpi))
    for dpi in (0, -1, (200, 0), 2 ** 32, float("nan"), float("inf"), 1e-30):
        claims.raises(f"dpi {dpi}", ValueError, partial(faxpages.encode, [page], dpi=dpi))


def given(claims: Claims) -> None:
    """Whether a file gives a page's resolution, beside what the library reads of it."""
    whole = faxpages.encode([faxpages.Raster(8, 2, b"12", Fraction(98), Fraction(98))] * 2)
    claims.see("given", [page.resolution_given for page in faxpages.open(whole)] == [True, True])
    cases = {"no XResolution": (282, 0, "H", 60000), "no YResolution": (283, 0, "H", 60000), "another type": (282, 2, "H", 4),
             "no value": (283, 4, "I", 0), "outside": (282, 8, "I", len(whole) - 7), "unit 4": (296, 8, "H", 4),
             "two units": (296, 4, "I", 2), "units outside": (296, 4, "I", 3), "no unit field": (296, 0, "H", 60000), "a unit of LONG": (296, 2, "H", 4)}  # fmt: skip
    places = directories(whole)
    for number in range(2):
        for name, (tag, at, form, value) in cases.items():
            data = bytearray(whole)
            struct.pack_into(f"<{form}", data, entry_at(data, places[number], tag) + at, value)
            told_rightly(claims, f"{name}, page {number}", bytes(data), number)
        for tag, half in itertools.product((282, 283), (0, 4)):
            data = bytearray(whole)
            (place,) = struct.unpack_from("<I", data, entry_at(data, places[number], tag) + 8)
            struct.pack_into("<I", data, place + half, 0)
            told_rightly(claims, f"0 in {tag}, page {number}", bytes(data), number)


def told_rightly(claims: Claims, name: str, data: bytes, number: int) -> None:
    """98 by 98 are given; 204 by 196 are what the library takes where nothing can be read."""
    for page in faxpages.open(data):
        is_usual = (page.x, page.y, page.unit) == (Fraction(204), Fraction(196), 2)
        claims.see(f"{name}: page {page.number}", page.resolution_given == (not is_usual) and (
            page.number == number or page.resolution_given))


def directories(data: bytes) -> list[int]:
    """Where the directories of a file of little-endian bytes stand."""
    found, (at,) = [], struct.unpack_from("<I", data, 4)
    while at:
        found.append(at)
        (count,) = struct.unpack_from("<H", data, at)
        (at,) = struct.unpack_from("<I", data, at + 2 + 12 * count)
    return found


def entry_at(data: bytearray, directory: int, tag: int) -> int:
    """Where the field of a tag stands."""
    (count,) = struct.unpack_from("<H", data, directory)
    places = [directory + 2 + 12 * number for number in range(count)]
    return next(at for at in places if struct.unpack_from("<H", data, at) == (tag,))


def refused(claims: Claims) -> None:
    """What is no page, or no file of pages, is refused, and nothing is written."""
    page = faxpages.open(faxpages.convert(SMALL, "mmr"))[0]
    row = next(iter(page))
    wider = faxpages.Row(0, 1, 65, bytes(9))
    wrongs: list[Any] = ["page", b"page", 1, None, [row, 1], [b"row"], memoryview(b"page"), array.array("I", [1])]
    for wrong in wrongs:
        claims.raises(f"a page {wrong!r:.20}", TypeError, partial(faxpages.encode, [wrong]))
    of_no_form: list[Any] = [[], [row, wider], faxpages.Raster(8, 0, b"")]
    for wrong in of_no_form:
        claims.raises(f"a page {wrong!r:.20}", ValueError, partial(faxpages.encode, [wrong]))
    claims.raises("no pages", ValueError, lambda: faxpages.encode([]))
    claims.raises("no pages that come", ValueError, lambda: faxpages.encode(iter([])))
    claims.raises("no coding", ValueError, lambda: faxpages.encode([page], "pbm"))
    claims.raises("no resolution of a raster", ValueError, lambda: faxpages.Raster(8, 1, b"1", x=Fraction(0)))
    for width, rows, packed in ((0, 0, b""), (65536, 1, bytes(8192)), (8, 2, b"1"), (8, 1, b"12"), (8, -1, b"")):
        claims.raises(f"a raster {width} {rows}", ValueError, partial(faxpages.Raster, width, rows, packed))
    damaged = faxpages.open(f"{TOP}/samples/damaged-fourth-page.tif")
    with tempfile.TemporaryDirectory() as folder:
        name = os.path.join(folder, "out.tif")
        claims.raises("a damaged page", faxpages.OutOfRow, lambda: faxpages.write(damaged, name))
        claims.see("nothing is written", os.listdir(folder) == [])
        faxpages.write(damaged[:3], name, coding="mr")
        faxpages.write(damaged[:3], pathlib.Path(folder, "other.tif"), coding="mr")
        with open(os.path.join(folder, "third.tif"), "wb") as out:
            faxpages.write(damaged[:3], out, coding="mr")
        made = [faxpages.open(f"{folder}/{name}.tif") for name in ("out", "other", "third")]
        claims.see("paths and file objects", len(set(made)) == 1 and len(made[0]) == 3)
    claims.raises("a file of another kind", TypeError, partial(faxpages.write, [page], 1))


class Miscounted(List[faxpages.Raster]):
    """A list that says another length."""

    def __len__(self) -> int:
        return 2


def limits(claims: Claims) -> None:
    """Files that are too large, and lengths that are wrong."""
    one = faxpages.Raster(8, 1, b"1")
    claims.see("65,535 pages", len(faxpages.open(faxpages.encode([one] * 65535))) == 65535)
    claims.see("65,535 pages that come", faxpages.encode(iter([one] * 65535)) == faxpages.encode([one] * 65535))
    claims.raises("65,536 pages", faxpages.OutputTooLarge, lambda: faxpages.encode([one] * 65536))
    claims.raises("65,536 pages that come", faxpages.OutputTooLarge, lambda: faxpages.encode(iter([one] * 65536)))
    for pages in ([one], [one] * 3):
        claims.raises(f"{len(pages)} pages for 2", ValueError, partial(faxpages.encode, Miscounted(pages)))
    page = faxpages.Raster(65535, 400, bytes([0x55]) * 8192 * 400)
    most = (1 << 28) // len(faxpages.encode_strip(page, "mh"))
    claims.raises("a file of over 256 MB", faxpages.OutputTooLarge, lambda: faxpages.encode([page] * (most + 1), "mh"))


def sources(claims: Claims) -> None:
    """What a file is opened by."""
    name = f"{TOP}/samples/three-pages.tif"
    with open(name, "rb") as file, open(name, "rb", buffering=0) as raw:
        data = file.read()
        file.seek(0)
        mapped = mmap.mmap(file.fileno(), 0, access=mmap.ACCESS_READ)
        mapped.seek(7)
        twice = memoryview(bytes(itertools.chain(*zip(data, data))))
        lent: list[Any] = [data, bytearray(data), memoryview(data), mapped, array.array("H", data), twice[::2], name,
                pathlib.Path(name), io.BytesIO(data), file, raw]
        claims.see("sources", all(faxpages.open(source) == faxpages.Fax(data) for source in lent))
        mapped.close()
    skipped = io.BytesIO(b"skipped" + data)
    skipped.seek(7)
    claims.see("a file object from where it stands", faxpages.open(skipped) == faxpages.Fax(data))
    claims.see("other calls", faxpages.check(io.BytesIO(data)) == faxpages.check(data))
    claims.raises("a file of text", TypeError, partial(faxpages.open, io.StringIO("II*")))
    for wrong in (1, None, [data], 1.5):
        claims.raises(f"the file {wrong!r:.20}", TypeError, partial(faxpages.open, wrong))
    claims.raises("a file that is not there", FileNotFoundError, lambda: faxpages.open("/nonexistent/fax.tif"))


def rasters(claims: Claims) -> None:
    """A raster lends its rows."""
    page = faxpages.open(f"{TOP}/samples/three-pages.tif")[1]
    raster = page.raster()
    interface = raster.__array_interface__
    claims.see("an array interface", (interface["shape"], interface["typestr"]) == ((3, 1), "|u1")
               and interface["data"] is raster.packed)
    rows: object = raster.__buffer__(0).tolist()
    claims.see("a buffer", rows == [[byte] for byte in raster.packed])
    if sys.version_info >= (3, 12):
        claims.see("a buffer that is lent", memoryview(raster).shape == (3, 1) and bytes(raster) == raster.packed)
    claims.see("own bytes", faxpages.Raster(8, 3, bytearray(raster.packed)) == raster)
    pels = memoryview(bytes([0, 1, 1, 0, 0, 1, 0, 0, 1, 1])).cast("B").cast("?", (2, 5))
    claims.see("bools", faxpages.open(faxpages.encode([pels]))[0].packed() == bytes([0b01100000, 0b10011000]))
    claims.raises("no bools", TypeError, lambda: faxpages.encode([pels.cast("B").cast("B", (2, 5))]))


def small_room(claims: Claims) -> None:
    """A page of which few rows stand in the file takes little room, and many rows are read piece by piece."""
    hostile = file_of("mmr", 1, 65535, 1000000, b"\xff\x00")
    tracemalloc.start()
    raster = faxpages.open(hostile)[0].raster(partial=True)
    claims.raises("a page of many rows", faxpages.DataEnds, lambda: faxpages.open(hostile)[0].packed())
    strip = faxpages.strip(b"\xff\x00", 65535, 1000000, partial=True)
    claims.see("rows before the fault", raster.rows == strip.rows == 8 and raster.lost == strip.lost == 999992)
    claims.see("a page of which few rows stand there", tracemalloc.get_traced_memory()[1] < MEMORY)
    tracemalloc.stop()
    long = faxpages.Raster(3000, 20000, (bytes(370) + b"wheat") * 20000)
    fax = faxpages.open(faxpages.encode([long, long]))
    claims.see("long pages", [page.packed() for page in fax] == [long.packed] * 2 and fax[1].packed() == long.packed)
    claims.see("a long strip", faxpages.strip(faxpages.encode_strip(long), 3000).packed == long.packed)


def command(claims: Claims) -> None:
    """The module says its version."""
    words, place = [sys.executable, "-m", "faxpages"], {**os.environ, "PYTHONPATH": f"{TOP}/python"}
    ran = subprocess.run([*words, "--version"], env=place, capture_output=True, check=False, timeout=900)
    claims.see("the version", (ran.returncode, ran.stdout.decode()) == (0, f"faxpages {faxpages.version()}\n"))
    ran = subprocess.run(words, env=place, capture_output=True, check=False, timeout=900)
    claims.see("no words", (ran.returncode, ran.stdout) == (2, b"") and ran.stderr.startswith(b"usage: "))


def main() -> int:
    claims = Claims()
    for name in sys.argv[2:]:
        with open(name, "rb") as file:
            data = file.read()
        name = os.path.basename(name)
        whole_pages(claims, name, data)
        as_sequence(claims, name, data)
        if faxpages.check(data).ok and len(data) < 3000:
            written(claims, name, data)
    for part in (resolutions, given, refused, limits, sources, rasters, small_room, command):
        part(claims)
    return claims.ends("pages")


if __name__ == "__main__":
    sys.exit(main())
