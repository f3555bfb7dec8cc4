"""What the lines of drawn.py and of ends.py have in common: rows that are drawn, and how they are printed."""

from __future__ import annotations

import os
import random
import sys

sys.dont_write_bytecode = True
TESTS = os.path.join(os.path.dirname(os.path.abspath(__file__)), os.pardir)

from tests.calls import plain  # noqa: E402
from tests.plain import drawing  # noqa: E402

CODINGS = {"mh": 1, "mr": 2, "mmr": 3}
FAULTS = ["DataEnds", "BadCode", "Extension", "RunTooLong", "OutOfRow", "MissingEol", "EndMarker", "TooManyRows"]


def number_of(fault: object) -> int:
    """The number of a fault by its name, 0 of none."""
    return 101 + FAULTS.index(str(fault)) if fault else 0


def digits(data: bytes) -> str:
    return data.hex() or "-"


def packed(row: str) -> str:
    return digits(plain.to_bytes(row.replace("W", "0").replace("B", "1")))


def draw_width(rng: random.Random) -> int:
    return rng.choice([1, 2, 7, 8, 9, 63, 64, 65, rng.randrange(1, 70), rng.randrange(1, 300)])


def draw_rows(rng: random.Random, width: int, least: int, most: int) -> list[str]:
    """Some rows, each near the one before."""
    rows, row = [], "W" * width
    for _ in range(rng.randrange(least, most)):
        row = drawing.draw_row(rng, width, row)
        rows.append(row)
    return rows
