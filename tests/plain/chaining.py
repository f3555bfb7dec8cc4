"""Long pages, and runs of one row each over them, from the long cursor that the run before it printed."""

from __future__ import annotations

import functools
import random
import sys

sys.dont_write_bytecode = True

from tests.plain import drawing, notes, reading, running, strips  # noqa: E402
from tests.plain.tables import EOL  # noqa: E402

WIDTH, ROWS = 1728, 2292
# The coding of each page, and its order of bits.
PAGES = [("mh", 1), ("mr", 2), ("mmr", 1)]


def draw_rows(rng: random.Random) -> list[str]:
    """Rows of short runs, which take long to read, from a deck of a few."""
    runs = ["W", "WW", "WWW", "B", "BB", "BBB"]
    deck = ["".join(rng.choices(runs, k=WIDTH))[:WIDTH] for _ in range(20)]
    return rng.choices(deck, k=ROWS)


@functools.lru_cache(None)
def code_line(coding: str, is_one_dimensional: bool, reference: str, row: str) -> str:
    """A row in T.4's own choice of codes."""
    codes = notes.chosen_one_dimensional(row) if is_one_dimensional else notes.chosen_two_dimensional(reference, row)
    if coding == "mr":
        return EOL + ("1" if is_one_dimensional else "0") + codes
    return codes if coding == "mmr" else EOL + codes


def file_of(coding: str, order: int, rows: list[str]) -> bytes:
    """The file of a page of these rows in one strip; in MR each fourth row is one-dimensional."""
    bits, reference = "", "W" * WIDTH
    for number, row in enumerate(rows):
        bits += code_line(coding, coding == "mh" or coding == "mr" and number % 4 == 0, reference, row)
        reference = row
    return strips.file_of(coding, order, WIDTH, ROWS, drawing.to_bytes(bits, order))


def page_of(coding: str, order: int) -> tuple[list[str], bytes]:
    """The rows of a page, and its file."""
    rows = draw_rows(random.Random(coding))
    return rows, file_of(coding, order, rows)


def chain(program: str, data: bytes, rows: list[str]) -> tuple[str | None, list[str]]:
    """How the runs differ from the page's rows, if they do, and the cursors that they began with."""
    cursors = ["1:0:0"]
    for number, row in enumerate(rows):
        words = ["rows", f"--cursor={cursors[-1]}", "--max=1", "--long"]
        output, error, status = running.run(program, words, data)
        line, _, last = output.partition("\n")
        if (line, error, status) != (reading.row_line(0, number, row), "", 0) or not last.startswith("next "):
            return f"the run from {cursors[-1]}: {output} {error}, status {status}"[:1500], cursors
        cursors.append(last[5:-1])
    if running.run(program, ["rows", f"--cursor={cursors.pop()}", "--long"], data) != ("end\n", "", 0):
        return "the run from the last cursor is not the end", cursors
    return None, cursors
