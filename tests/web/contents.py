"""What a file may hold that the page opens, and what the page has to say and to show of it: by the program, and by
plain counting."""

from __future__ import annotations

import dataclasses
import math
import random

from tests.convert import pages
from tests.convert.files import directories_of, get, strips_of
from tests.finding import found
from tests.web import faxes, receiving, verdicts
from tests.web.verdicts import counted

# The size of a thumbnail, how much darker ink is drawn in it, and the grey of rows that are lost.
SMALL, INK, GREY = 112, 1.6, 168
# How much wider than high a pel is, in the files that the program writes.
SHAPE = 204 / 196
# A width, a height, and 0, 1 or 2 a pel: white, black, lost.
Picture = tuple[int, int, bytes]


@dataclasses.dataclass
class Content:
    """Bytes of a file; the verdict on them, how they look in the list of files, and the pictures of the first pages."""

    data: bytes
    verdict: str
    look: str
    count: int = 0
    pictures: list[Picture] = dataclasses.field(default_factory=list)
    # What is found wrong, as the page lists it.
    found: list[str] = dataclasses.field(default_factory=list)
    # How much wider than high a pel is.
    shape: float = SHAPE

    def small(self, page: int) -> Picture:
        return small(self.pictures[page], self.shape)


def small(picture: Picture, shape: float) -> Picture:
    """The picture in cells: as many bytes across, and rows down, as fit into a thumbnail; a grey for each."""
    wide, high, pels = picture
    stride = -(-wide // 8)
    scale = min(1, SMALL / max(wide, high * shape))
    across = max(1, min(stride, rounded(wide * scale)))
    down = max(1, min(high, rounded(high * shape * scale)))
    columns = [range(8 * (at * stride // across), min(wide, 8 * ((at + 1) * stride // across))) for at in range(across)]
    bits = [8 * ((at + 1) * stride // across - at * stride // across) for at in range(across)]
    lines = [[row for row in range(high) if row * down // high == line] for line in range(down)]
    cells = bytearray()
    for rows in lines:
        for column, size in zip(columns, bits):
            black = sum(pels[row * wide + column.start:row * wide + column.stop].count(1) for row in rows)
            found = sum(pels[row * wide] != 2 for row in rows)
            cells.append(rounded(255 * (1 - min(1, INK * black / (size * found)))) if found else GREY)
    return across, down, bytes(cells)


def rounded(number: float) -> int:
    """As JavaScript rounds."""
    return math.floor(number + 0.5)


def whole(program: str, data: bytes) -> Content:
    """A fax, or raw PBM, that is whole."""
    image = faxes.convert(program, data, "-o", "pbm") if data[:2] != b"P4" else data
    pictures = faxes.pels_of_pbm(image)
    rows = sum(high for _, high, _ in pictures)
    verdict = f"This fax is whole: {counted(len(pictures), 'page')}, {counted(rows, 'row')}."
    return Content(data, verdict, "whole", len(pictures), pictures[:9])


def bare(program: str) -> Content:
    """T.6 data alone, whose coding is guessed; a page of so few rows has the standard resolution."""
    image = pages.image(1728, [pages.draw_row(random.Random(row), "marks", 1728, row, 0) for row in range(123)])
    it = whole(program, faxes.convert(program, image, "-o", "mmr"))
    (strip,) = strips_of(it.data, next(directories_of(it.data)))
    return dataclasses.replace(it, data=strip, shape=204 / 98)


def mended(program: str, data: bytes) -> Content:
    """A fax of which the receiver mended rows of the first page."""
    it = whole(program, data)
    verdict = it.verdict.replace("This fax is whole", "All rows are there") + " The receiver mended 23 rows of page 1."
    fields: list[dict[int, int]] = [{} for _ in range(it.count)]
    fields[0] = {receiving.BAD: 23, receiving.CLEAN: 1}
    return dataclasses.replace(it, data=receiving.counted(data, fields), verdict=verdict, look="mended")


def damaged(program: str, path: str) -> Content | None:
    """A fax with rows that are lost, if each of its pages has something that can be read, in the usual resolution."""
    listed = faxes.said(program, "list", path).splitlines()
    told = [line.split() for line in faxes.said(program, "salvage", path).splitlines() if line.startswith("lost ")]
    notes = [line for line in faxes.said(program, "check", path).splitlines() if line.startswith("note ")]
    lost = {page for _, page, *_ in told}
    count = sum(line.startswith("page ") for line in listed)
    drawn = [faxes.picture(program, path, page) for page in range(count)]
    if not lost or not count or None in drawn or any(line.startswith("fault") for line in listed):
        return None
    rows, missing = verdicts.rows_of_pages(program, path), verdicts.lost_of_pages(program, path)
    sizes = [[str(it[0]), str(it[1])] for it in drawn if it]
    if sizes != [line.split()[2:4] for line in listed if line.startswith("page ")]:
        # A resolution is damaged: pels are repeated in the picture, and the thumbnail has another shape.
        return None
    lines = [lost_line(int(page), int(row), int(rows), name) for _, page, row, rows, name, *_ in told]
    return Content(get(path), verdicts.missing(rows, missing), verdicts.look(rows, missing), count,
                   [it[:3] for it in drawn if it], lines + [note_line(line) for line in notes])


def lost_line(page: int, row: int, rows: int, name: str) -> str:
    """What the page says of rows that are lost."""
    where = f"row {row + 1:,} is" if rows == 1 else f"rows {row + 1:,} to {row + rows:,} are"
    return f"Page {page + 1}, {where} missing: {name}"


def note_line(line: str) -> str:
    """What the page says of a note that the program prints."""
    page, strip, name = found(r"note page (\d+)(?: strip (\d+))?: N\d (\w+)", line).groups()
    return f"Page {int(page) + 1}{f', strip {int(strip) + 1}' if strip else ''}: {name}"


def all_contents(program: str, room: str) -> list[Content]:
    """Faxes that are whole, all of one length, so that none is known by it; damaged ones; one that takes long to be
    read; and what is no fax. No two have the same verdict."""
    faxes_drawn = [faxes.drawn(program, 500 + number, 1 + number % 5) for number in range(10)]
    most = max(map(len, faxes_drawn))
    marks = [pages.draw_row(random.Random(row), "marks", 40, row, 0) for row in range(30)]
    long = faxes.convert(program, pages.image(40, marks) * 2000, "-o", "mmr")
    images = b"".join(pages.image(96, [pages.draw_row(random.Random(row), "noise", 96, row, 0) for row in range(rows)])
                      for rows in (31, 17))
    kinds = {b"%PDF-1.4\n%": "a PDF. A PDF viewer opens it.", b"Dear all,\n" * 9: "text. A text editor opens it.",
             b"": "an empty file. Ask for it again."}
    known = [whole(program, data.ljust(most, b"\0")) for data in faxes_drawn]
    known += [whole(program, long), whole(program, images), bare(program)]
    known.append(mended(program, faxes.drawn(program, 520, 3)))
    known += [it for path in faxes.damaged(program, room) if (it := damaged(program, path))]
    known += [Content(data, f"This is no fax that is read here, but {kind}", "other") for data, kind in kinds.items()]
    return list({it.verdict: it for it in known}.values())
