"""Drawn PDFs of pages that are turned, cut by a crop box, of many sizes and of other units: faxpages-from-pdf draws
each as Ghostscript shows it."""

from __future__ import annotations

import os
import random
import re
import subprocess
from typing import Iterator, NamedTuple

from tests import Claim
from tests.recipes.room import Room

Box = tuple[float, float, float, float]
# How many documents are drawn, of how many pages, and into how many cells across and down a page is cut to be compared.
DOCUMENTS, PAGES, CELLS = int(os.environ.get("FAXPAGES_DOCUMENTS", "8")), 5, 16
# How much darker or lighter a cell may be, of one that is black: a halftone is no grey, and an edge is some pels wide.
CELL, ALL = 0.2, 0.06
# Paper, in points: A4, Letter, A5, and what no paper is.
SIZES = [(595.28, 841.89), (612.0, 792.0), (420.0, 595.0), (842.0, 1191.0), (300.0, 900.0), (1000.0, 420.0)]


class Picture(NamedTuple):
    """How wide and high a page is, and how dark each of its cells is, from 0 to 1."""

    width: int
    height: int
    cells: list[float]


def shape(rng: random.Random) -> bytes:
    """A rectangle, black or grey."""
    return b"%.2f g %d %d %d %d re f" % (rng.choice([0, 0, 0.5]), rng.randrange(-100, 1100), rng.randrange(-100, 1300),
                                         rng.randrange(20, 300), rng.randrange(20, 300))


def document(rng: random.Random, pages: list[bytes]) -> bytes:
    """A PDF of pages with these words in their dictionaries, and black and grey rectangles on them."""
    objects = [b"<< /Type /Catalog /Pages 2 0 R >>", b""]
    for words in pages:
        text = b"\n".join(shape(rng) for _ in range(12))
        contents = b"/Contents %d 0 R /Resources << >>" % (len(objects) + 2)
        objects.append(b"<< /Type /Page /Parent 2 0 R %s %s >>" % (words, contents))
        objects.append(b"<< /Length %d >>\nstream\n%s\nendstream" % (len(text), text))
    kids = b" ".join(b"%d 0 R" % number for number in range(3, len(objects) + 1, 2))
    objects[1] = b"<< /Type /Pages /Kids [%s] /Count %d >>" % (kids, len(pages))
    made, places = b"%PDF-1.6\n", []
    for number, text in enumerate(objects, 1):
        places.append(len(made))
        made += b"%d 0 obj\n%s\nendobj\n" % (number, text)
    table = b"".join(b"%010d 00000 n \n" % place for place in places)
    ends = b"trailer << /Size %d /Root 1 0 R >>\nstartxref\n%d\n%%%%EOF\n" % (len(objects) + 1, len(made))
    return made + b"xref\n0 %d\n0000000000 65535 f \n" % (len(objects) + 1) + table + ends


def numbers(box: Box) -> bytes:
    return b"[%s]" % b" ".join(b"%.2f" % number for number in box)


def drawn_page(rng: random.Random) -> bytes:
    """The words of a page: its boxes, its unit, and how it is turned."""
    wide, high = rng.choice(SIZES)
    left, below = rng.choice([(0, 0), (0, 0), (-50, 30)])
    words = b"/MediaBox " + numbers((left, below, left + wide, below + high))
    if rng.random() < 0.4:
        # One that is inside, or goes beyond the page at a side.
        edge = left + rng.choice([-20, 40])
        words += b" /CropBox " + numbers((edge, below + 60, left + wide - 70, below + high - 90))
    if rng.random() < 0.2:
        words += b" /UserUnit 1.5"
    turn = rng.choice([0, 0, 90, 180, 270, -90, 450])
    return words + (b" /Rotate %d" % turn if turn else b"")


def of_bits(data: bytes, width: int, height: int) -> Picture:
    """A picture of rows of packed bytes, 1 for black."""
    stride, dark = (width + 7) // 8, [0] * (CELLS * CELLS)
    edges = [it * width // CELLS for it in range(CELLS + 1)]
    for row in range(height):
        bits = format(int.from_bytes(data[row * stride:(row + 1) * stride], "big"), f"0{8 * stride}b")
        first = row * CELLS // height * CELLS
        for cell in range(CELLS):
            dark[first + cell] += bits.count("1", edges[cell], edges[cell + 1])
    area = width * height / CELLS / CELLS
    return Picture(width, height, [it / area for it in dark])


def of_greys(data: bytes, width: int, height: int) -> Picture:
    """A picture of rows of a byte a pel, 0 for black."""
    light = [0] * (CELLS * CELLS)
    edges = [it * width // CELLS for it in range(CELLS + 1)]
    for row in range(height):
        line = data[row * width:(row + 1) * width]
        first = row * CELLS // height * CELLS
        for cell in range(CELLS):
            light[first + cell] += sum(line[edges[cell]:edges[cell + 1]])
    area = 255 * width * height / CELLS / CELLS
    return Picture(width, height, [1 - it / area for it in light])


def by_fax(room: Room, name: str) -> list[Picture]:
    """The pages of a fax."""
    data, pictures = room.run("convert", "-o", "pbm", name=name)[1], []
    while data:
        head = re.match(rb"P4\n(\d+) (\d+)\n", data)
        assert head
        width, height = int(head[1]), int(head[2])
        size = (width + 7) // 8 * height
        pictures.append(of_bits(data[head.end():], width, height))
        data = data[head.end() + size:]
    return pictures


def by_ghostscript(path: str, page: int) -> Picture:
    """A page of a PDF as Ghostscript shows it."""
    words = ["gs", "-q", "-dNOPAUSE", "-dBATCH", "-dSAFER", "-sDEVICE=pgmraw", "-r72", "-dGraphicsAlphaBits=4",
             "-dUseCropBox", f"-dFirstPage={page}", f"-dLastPage={page}", "-sOutputFile=-", path]  # fmt: skip
    data = subprocess.run(words, stdout=subprocess.PIPE, check=True).stdout
    head = re.match(rb"P5\s+(?:#.*\n)*(\d+) (\d+)\s+255\s", data)
    assert head
    return of_greys(data[head.end():], int(head[1]), int(head[2]))


def pages_are_as_shown(room: Room) -> Iterator[Claim]:
    """Each page of each document has the width of the fax, its own proportions, and what is shown of it."""
    turned = 0
    for seed in range(DOCUMENTS):
        rng = random.Random(f"shown {seed}")
        words = [drawn_page(rng) for _ in range(PAGES)]
        turned += sum(bool(re.search(rb"/Rotate (90|270|-90|450)", it)) for it in words)
        room.put("shown.pdf", document(rng, words))
        lines, more = (98, ["--standard"]) if seed % 4 == 3 else (196, [])
        width = (1728, 2048, 2432)[seed % 3]
        ran = room.call("faxpages-from-pdf", "--replace", *more, "--width", str(width), "shown.pdf", "shown.tif")
        yield f"document {seed}: drawn", ran, (0, b"", "")
        pictures = by_fax(room, "shown.tif")
        yield f"document {seed}: pages", len(pictures), PAGES
        for page, (got, told) in enumerate(zip(pictures, words), 1):
            wanted, name = by_ghostscript(room("shown.pdf"), page), f"document {seed}, page {page} ({told.decode()})"
            shape = (got.height / lines) / (got.width / 204) / (wanted.height / wanted.width)
            yield f"{name}: its width", got.width, width
            yield f"{name}: its proportions, {shape:.3f}", 0.94 < shape < 1.06, True
            differ = [abs(one - other) for one, other in zip(got.cells, wanted.cells)]
            yield f"{name}: its picture differs by {max(differ):.2f}, {sum(differ) / len(differ):.3f}", (
                max(differ) < CELL and sum(differ) / len(differ) < ALL), True
        os.remove(room("shown.pdf"))
        os.remove(room("shown.tif"))
    yield f"pages that are turned by 90 or 270 degrees: {turned}", turned > DOCUMENTS, True
