"""Strips by rule: each mode in each place over each short reference row, each code of runs, and a
sample of strips cut at each bit and with each bit flipped."""

from __future__ import annotations

import itertools
import random
from typing import Iterator

from tests.plain.drawing import (
    MAKE_UP,
    MODE_CODES,
    TERMINATING,
    Builder,
    code_rows,
    code_strip,
    code_two_dimensional,
    draw_row,
    end_mark,
    to_bytes,
)
from tests.plain.reading import next_changing, other
from tests.plain.tables import EOL


def file_of(coding: str, order: int, width: int, rows: int, data: bytes) -> bytes:
    """A file of one page with one strip."""
    builder = Builder(random.Random(0))
    place, put = builder.put(data), builder.numbers
    entries = [put(256, [width]), put(257, [rows]), put(259, [4 if coding == "mmr" else 3]), put(262, [0])]
    entries += [put(266, [order]), put(273, [place]), put(279, [len(data)])]
    entries.append(put(292, [1 if coding == "mr" else 0]))
    builder.put_directory(entries, 0)
    return bytes(builder.data)


def steps_at(reference: str, a0: int, colour: str) -> Iterator[tuple[str, tuple[int, str] | None]]:
    """Each step that may be tried at a place, and whence it leads, if it does."""
    width, s = len(reference), max(a0, 0)
    b1 = next_changing(reference, a0, colour)
    yield MODE_CODES["pass"], (next_changing(reference, b1), colour)
    for d in range(-3, 4):
        yield MODE_CODES[d], (b1 + d, other(colour)) if a0 < b1 + d <= width else None
    for first, second in itertools.product(range(width - s + 2), repeat=2):
        codes = TERMINATING[colour][first] + TERMINATING[other(colour)][second]
        at = (s + first + second, colour) if s + first + second <= width else None
        yield MODE_CODES["horizontal"] + codes, at
    yield MODE_CODES["extension"], None


def places_of(reference: str) -> dict[tuple[int, str], str]:
    """Each place that steps lead to, with the codes of one way there."""
    ways, due = {(-1, "W"): ""}, [(-1, "W")]
    while due:
        a0, colour = due.pop(0)
        for codes, at in steps_at(reference, a0, colour):
            if at and at not in ways and at[0] < len(reference):
                ways[at] = ways[a0, colour] + codes
                due.append(at)
    return ways


def mode_strips() -> Iterator[bytes]:
    """Strips of MMR: a reference row, a row with each step in each place, and one more row."""
    rng = random.Random(1)
    for width in range(1, 6):
        for pels in itertools.product("WB", repeat=width):
            reference = "".join(pels)
            first = code_two_dimensional(random.Random(2), "W" * width, reference)
            for (a0, colour), way in places_of(reference).items():
                for codes, at in steps_at(reference, a0, colour):
                    rest = ""
                    if at and at[0] < width:
                        rest = MODE_CODES["horizontal"] + TERMINATING[at[1]][width - max(at[0], 0)]
                        rest += TERMINATING[other(at[1])][0]
                    bits = first + way + codes + rest + rng.choice(["1" * 8, "011", "00011", "0001"]) + "1" * 8
                    order = rng.choice([1, 2])
                    yield file_of("mmr", order, width, 3, to_bytes(bits, order))


def run_strips() -> Iterator[bytes]:
    """Strips of MH: each code of each colour."""
    for colour, length in itertools.product("WB", [*range(64), *range(64, 2561, 64)]):
        codes = TERMINATING["W"][0] if colour == "B" else ""
        if length >= 64:
            codes += MAKE_UP[colour][length]
        codes += TERMINATING[colour][length % 64]
        for order in (1, 2):
            yield file_of("mh", order, max(length, 1), 1, to_bytes(EOL + codes, order))


def damaged_strips(coding: str) -> Iterator[bytes]:
    """Strips of a coding, cut at each bit, and with each bit flipped."""
    rng = random.Random(coding)
    for number in range(60):
        order, width = 1 + number % 2, rng.choice([8, 13, 32, 70])
        rows = [draw_row(rng, width, "W" * width)]
        for _ in range(2):
            rows.append(draw_row(rng, width, rows[-1]))
        bits = code_strip(rng, coding, rows)
        for place in range(len(bits)):
            flipped = bits[:place] + ("1" if bits[place] == "0" else "0") + bits[place + 1 :]
            yield file_of(coding, order, width, 3, to_bytes(flipped, order))
            yield file_of(coding, order, width, 3, to_bytes(bits[:place], order))


def marked_strips(coding: str) -> Iterator[bytes]:
    """Strips of a coding that end where a row is due: with the mark of an end, or cut."""
    rng = random.Random(coding)
    for number in range(240):
        width = rng.choice([8, 13, 32])
        rows = [draw_row(rng, width, "W" * width) for _ in range(1 + number % 3)]
        bits = code_rows(rng, coding, rows) + (end_mark(coding) if number % 4 else "")
        yield file_of(coding, 1 + number % 2, width, len(rows) + 1, to_bytes(bits, 1 + number % 2))
