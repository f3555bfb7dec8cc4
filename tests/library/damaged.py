"""damaged.py COUNT [SEED]: draws damaged strips and files and prints, a line each, what the plain reading finds of them,
for the callers left.c, left.py and left.rs:

strip CODING ORDER WIDTH ROWS DATA {PACKED} COUNT {FIRST ROWS FAULT}: each row of a strip, white where it is lost, and the
    stretches of lost rows, each with the number of its fault
uncounted CODING ORDER WIDTH DATA STATUS FAULT ROWS {PACKED} COUNT {FIRST ROWS FAULT}: the same of a strip whose rows
    nobody counted, with the status and the fault with which they end, or 0
page NUMBER WIDTH ROWS DATA {PACKED} COUNT {FIRST ROWS FAULT}: the same of a page of a file
refused NUMBER FAULT DATA: a page whose form is refused

Nothing is written as `-`. The plain reading shares no code with the library.
"""

from __future__ import annotations

import random
import sys
from typing import Iterator, List

from tests.library.lines import CODINGS, digits, draw_rows, draw_width, number_of, packed
from tests.plain import drawing, salvaging, spoiling
from tests.plain.reading import bits_of
from tests.plain.tables import EOL
from tests.plain.uncounted import DATA_END, MARKED

# One line in so many is of a file.
FILES = 8
FIELD_FAULTS = {"MissingField": 7, "BadField": 8, "Unsupported": 9, "OutOfLimits": 10}
STRIP_OUTSIDE = "StripOutside", 11
STATUS_END, STATUS_FAULT, STATUS_DATA_END = 1, 2, 9


def fault_of(name: str) -> int:
    """The number of a fault for which a row is lost."""
    return STRIP_OUTSIDE[1] if name == STRIP_OUTSIDE[0] else number_of(name)


def left_words(width: int, rows: List[salvaging.Row]) -> Iterator[str]:
    """The rows, white where they are lost, and the stretches."""
    for row in rows:
        yield packed(row.pels or "W" * width)
    lost = salvaging.stretches(rows)
    yield str(len(lost))
    for stretch in lost:
        yield f"{stretch.first} {stretch.rows} {fault_of(stretch.name)}"


def strip_line(rng: random.Random) -> str:
    """A strip that is damaged, of which as many rows are asked for as it had, or others."""
    coding, order, width = rng.choice(["mh", "mh", "mr", "mr", "mmr"]), rng.choice([1, 2]), draw_width(rng)
    rows = draw_rows(rng, width, 1, 12)
    bits, _ = spoiling.spoiled(rng, drawing.code_strip(rng, coding, rows, coding != "mmr" and rng.random() < 0.3))
    data = drawing.to_bytes(bits, order)
    asked = len(rows) if rng.random() < 0.7 else rng.choice([1, max(1, len(rows) - 1), len(rows) + 1, len(rows) + 20])
    left = salvaging.strip_rows(coding, width, asked, bits_of(data, order))
    return " ".join(["strip", f"{CODINGS[coding]} {order} {width} {asked} {digits(data)}", *left_words(width, left)])


def uncounted_line(rng: random.Random) -> str:
    """A strip that is damaged, whose rows nobody counted: with an end mark or without one, and with data after it."""
    coding, order, width = rng.choice(["mh", "mh", "mr", "mr", "mmr"]), rng.choice([1, 2]), draw_width(rng)
    rows = draw_rows(rng, width, 1, 12)
    bits = drawing.code_strip(rng, coding, rows, coding != "mmr" and rng.random() < 0.3)
    if coding != "mmr" and rng.random() < 0.6:
        bits += (EOL + ("1" if coding == "mr" else "")) * 6
    bits += rng.choice(["", "", "0" * rng.randrange(40), "1", EOL + "1"])
    if rng.random() < 0.8:
        bits, _ = spoiling.spoiled(rng, bits)
    data = drawing.to_bytes(bits, order)
    left, end = salvaging.uncounted_rows(coding, width, bits_of(data, order))
    status = {MARKED: STATUS_END, DATA_END: STATUS_DATA_END}.get(end, STATUS_FAULT)
    fault = fault_of(end) if status == STATUS_FAULT else 0
    head = f"uncounted {CODINGS[coding]} {order} {width} {digits(data)} {status} {fault} {len(left)}"
    return " ".join([head, *left_words(width, left)])


def file_lines(rng: random.Random) -> Iterator[str]:
    """The pages of a file that is damaged."""
    data, _ = spoiling.draw_file(rng)
    for number, page in enumerate(salvaging.pages_of(data)):
        if page.form is None:
            yield f"refused {number} {FIELD_FAULTS[page.refused.split()[0]]} {digits(data)}"
            continue
        width = page.form.width
        yield " ".join([f"page {number} {width} {len(page.rows)} {digits(data)}", *left_words(width, page.rows)])


def main() -> None:
    seed = sys.argv[2] if len(sys.argv) > 2 else "1"
    for number in range(int(sys.argv[1])):
        rng = random.Random(f"damaged {seed} {number}")
        if number % FILES == 0:
            lines = list(file_lines(rng))
        else:
            lines = [uncounted_line(rng) if number % FILES % 3 == 0 else strip_line(rng)]
        for line in lines:
            print(line)


main()
