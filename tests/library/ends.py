"""ends.py COUNT: draws strips whose rows nobody counted, and prints, a line each, what the plain reading says of them, for
the caller ends.c:

whole CODING ORDER WIDTH DATA STATUS FAULT COUNT {PACKED BITS}: the rows, each with the bits before the next one, the
    status that ends them, and the number of the fault, or 0
notes STATUS ROWS FAULT NOTE NOTE NOTE NOTE: what a check of the same strip reports
cut STATUS FAULT COUNT: the same strip without its last bytes: a line for each of its lengths, from 0 on
part ROWS STATUS FAULT COUNT: how many rows of so many, or of those that nobody counted if ROWS is 0, are settled by its
    first bytes: a line for each length, for each of the two

Nothing is written as `-`. The plain readers and coders share no code with the library.
"""

from __future__ import annotations

import random
import sys
from typing import Iterator

from tests.library.lines import CODINGS, digits, draw_rows, draw_width, number_of, packed
from tests.plain import drawing, notes, uncounted
from tests.plain.reading import bits_of
from tests.plain.tables import EOL

STATUSES = {None: 1, uncounted.MARKED: 1, uncounted.DATA_END: 9, uncounted.MORE: 10}


def told(read: uncounted.Read) -> list[int]:
    """The status, the number of the fault and the number of rows."""
    if read.end in STATUSES:
        return [STATUSES[read.end], 0, len(read.lines)]
    return [2, number_of(read.end), len(read.lines)]


def line(*words: object) -> str:
    return " ".join(map(str, words))


def draw_end(rng: random.Random, coding: str) -> str:
    """What stands after the last row: an end mark, some of one, fill, or something else."""
    mark = drawing.end_mark(coding)
    if coding != "mmr" and rng.random() < 0.3:
        mark = "".join("0" * rng.randrange(20) + EOL + ("1" if coding == "mr" else "") for _ in range(rng.randrange(1, 8)))
    return rng.choice(["", mark, mark, mark[:rng.randrange(len(mark))], "0" * rng.randrange(40), mark + "1", "1", "01"])


def damaged(rng: random.Random, bits: str) -> str:
    """The bits with one flipped, or cut, or as they are."""
    if not bits or rng.random() < 0.5:
        return bits
    at = rng.randrange(len(bits))
    return bits[:at] if rng.random() < 0.5 else bits[:at] + "10"[int(bits[at])] + bits[at + 1:]


def notes_line(coding: str, order: int, width: int, data: bytes, read: uncounted.Read) -> str:
    status, fault, count = told(read)
    names = [] if fault else notes.notes_of_strip(coding, order, width, count, data)
    return line("notes", status, count, fault, *(int(name in names) for name in notes.NAMES[:4]))


def lines_of(rng: random.Random) -> Iterator[str]:
    """All lines of one strip."""
    coding, order = rng.choice(list(CODINGS)), rng.choice([1, 2])
    width = draw_width(rng)
    rows = draw_rows(rng, width, 0, 6)
    bits = drawing.code_rows(rng, coding, rows, coding != "mmr" and rng.random() < 0.3) if rows else ""
    bits += draw_end(rng, coding)
    data = drawing.to_bytes(damaged(rng, bits), order)
    bits = bits_of(data, order)
    read = uncounted.read_rows(coding, width, bits)
    status, fault, count = told(read)
    rest = [word for row, after in read.lines for word in (packed(row), after)]
    yield line("whole", CODINGS[coding], order, width, digits(data), status, fault, count, *rest)
    yield notes_line(coding, order, width, data, read)
    for length in range(len(data) + 1):
        yield line("cut", *told(uncounted.read_rows(coding, width, bits[:8 * length])))
    for number in (0, max(1, count - rng.randrange(2))):
        for length in range(len(data) + 1):
            yield line("part", number, *told(uncounted.read_part(coding, width, number, bits[:8 * length])))


def main() -> None:
    rng = random.Random(int(sys.argv[2]) if len(sys.argv) > 2 else 74)
    for _ in range(int(sys.argv[1])):
        print(*lines_of(rng), sep="\n")


main()
