"""drawn.py COUNT: draws strips and prints, a line each, what the plain reading says of them, for the caller strips.c:

read CODING ORDER WIDTH ROWS DATA ROW BITS RUNS FAULT COUNT {PACKED BITS}: the rows from a place on, over a row of these
    runs, each with the bits before the next one, and the number of the fault that ends them, or 0
notes CODING ORDER WIDTH ROWS DATA READ FAULT NOTE NOTE NOTE NOTE: how many rows are read, and notes 1 to 4
code CODING ORDER ALIGNED K WIDTH DATA COUNT {PACKED}: the strip of these rows

Nothing is written as `-`. The plain readers and coders share no code with the library.
"""

from __future__ import annotations

import random
import sys

from tests.calls import plain
from tests.library.lines import CODINGS, digits, draw_rows, draw_width, number_of, packed
from tests.plain import drawing, notes
from tests.plain.reading import bits_of, read_lines, runs_of


def damaged(rng: random.Random, bits: str) -> str:
    """The bits with one flipped, or cut, or as they are."""
    at, way = rng.randrange(len(bits)), rng.randrange(4)
    if way == 0:
        return bits[:at] + "10"[int(bits[at])] + bits[at + 1 :]
    return bits[:at] if way == 1 else bits


def draw_place(rng: random.Random, lines: list[tuple[str, int]], width: int, bits: str) -> tuple[int, str | None, int]:
    """A place to read from: the beginning, after a row, or any."""
    way = rng.randrange(4)
    if way == 0 or way == 1 and not lines:
        return 0, None, 0
    if way == 1:
        number = rng.randrange(len(lines))
        return number + 1, *lines[number]
    row = drawing.draw_row(rng, width, "W" * width) if rng.random() < 0.7 else None
    return rng.randrange(10), row, rng.randrange(len(bits) + 1)


def read_line(rng: random.Random, coding: str, order: int, width: int, rows: int, bits: str) -> str | None:
    data = drawing.to_bytes(bits, order)
    bits = bits_of(data, order)
    lines, _ = read_lines(coding, 0, rows, "W" * width, bits, 0)
    number, row, at = draw_place(rng, lines, width, bits)
    if number >= rows:
        return None
    lines, fault = read_lines(coding, number, rows, row or "W" * width, bits, at)
    runs = ",".join(map(str, runs_of(row))) if row else "-"
    words = ["read", CODINGS[coding], order, width, rows, digits(data), number, at, runs, number_of(fault), len(lines)]
    for row, after in lines:
        words += [packed(row), after]
    return " ".join(map(str, words))


def notes_line(coding: str, order: int, width: int, rows: int, bits: str) -> str:
    data = drawing.to_bytes(bits, order)
    lines, fault = read_lines(coding, 0, rows, "W" * width, bits_of(data, order), 0)
    names = [] if fault else notes.notes_of_strip(coding, order, width, rows, data)
    told = [int(name in names) for name in notes.NAMES[:4]]
    words = ["notes", CODINGS[coding], order, width, rows, digits(data), len(lines), number_of(fault), *told]
    return " ".join(map(str, words))


def code_line(rng: random.Random, coding: str, order: int, width: int, rows: list[str]) -> str:
    aligned, k = coding != "mmr" and rng.random() < 0.5, rng.randrange(1, 6)
    data = plain.to_bytes(plain.strip_bits(coding, k, aligned, rows), order)
    words = ["code", CODINGS[coding], order, int(aligned), k, width, digits(data), len(rows), *map(packed, rows)]
    return " ".join(map(str, words))


def main() -> None:
    rng = random.Random(64)
    for _ in range(int(sys.argv[1])):
        coding, order = rng.choice(list(CODINGS)), rng.choice([1, 2])
        width = draw_width(rng)
        if rng.random() < 0.02:
            width = rng.choice([1728, 2560, 5000])
        rows = draw_rows(rng, width, 1, 9)
        bits = damaged(rng, drawing.code_strip(rng, coding, rows, coding != "mmr" and rng.random() < 0.3))
        asked = len(rows) if rng.random() < 0.6 else rng.choice([max(len(rows) - 1, 1), len(rows) + 1, 1000000])
        read = read_line(rng, coding, order, width, asked, bits)
        if read:
            print(read)
        print(notes_line(coding, order, width, asked, bits))
        print(code_line(rng, coding, order, width, rows))


main()
