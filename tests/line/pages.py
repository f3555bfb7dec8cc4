"""Pages to send: a margin of white rows, and then rows of which no two are the same, so that each row that is received
says which one it was."""

from __future__ import annotations

import random
import struct
from typing import Dict, List

from tests.plain import drawing, notes
from tests.plain.tables import EOL

WIDTH, ROWS, MARGIN = 1728, 300, 24
WHITE = "W" * WIDTH
SHORT, LONG, RATIONAL = 3, 4, 5


def number_pels(number: int) -> str:
    """Marks of 24 pels that spell a row's number, the lowest bit first."""
    return "".join(("B" if number >> bit & 1 else "W") * 24 for bit in range(10))


def letters(rng: random.Random) -> str:
    """Strokes as a row of text has them, between margins."""
    row, colour = "", "W"
    while len(row) < 1000:
        row += colour * (rng.randrange(2, 9) if colour == "B" else rng.choice([3, 5, 8, 14, 40]))
        colour = "W" if colour == "B" else "B"
    return row[:1000]


def draw_page(seed: int) -> List[str]:
    """A page: below the margin letters that stay for some rows, beside the row's number."""
    rng, rows, text = random.Random(f"page {seed}"), [WHITE] * MARGIN, ""
    for number in range(MARGIN, ROWS):
        if number % 7 == 0:
            text = letters(rng) if number % 21 else "W" * 1000
        rows.append(("W" * 100 + number_pels(number) + "W" * 60 + text).ljust(WIDTH, "W"))
    return rows


def numbers_of(rows: List[str]) -> Dict[str, int]:
    """The number of each row of a page below its margin."""
    return {row: number for number, row in enumerate(rows) if row != WHITE}


def strip_of(rows: List[str]) -> bytes:
    """The rows in MH, with a return to control, as fax programs read them."""
    return drawing.to_bytes("".join(EOL + notes.chosen_one_dimensional(row) for row in rows) + EOL * 6, 1)


def file_of(rows: List[str]) -> bytes:
    """A TIFF-F file of a page of standard resolution."""
    strip = strip_of(rows)
    resolution = 8 + len(strip) + len(strip) % 2
    fields = [(256, LONG, WIDTH), (257, LONG, len(rows)), (258, SHORT, 1), (259, SHORT, 3), (262, SHORT, 0),
              (266, SHORT, 1), (273, LONG, 8), (277, SHORT, 1), (278, LONG, len(rows)), (279, LONG, len(strip)),
              (282, RATIONAL, resolution), (283, RATIONAL, resolution + 8), (292, LONG, 0), (296, SHORT, 2)]
    entries = b"".join(struct.pack("<HHII", tag, kind, 1, value) for tag, kind, value in fields)
    data = b"II*\0" + struct.pack("<I", resolution + 16) + strip + bytes(len(strip) % 2)
    data += struct.pack("<4I", 204, 1, 98, 1)
    return data + struct.pack("<H", len(fields)) + entries + bytes(4)
