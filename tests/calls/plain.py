"""A plain coder of rows by the wording of T.4 (4.1.1 and 4.2.1.3.3), over the places where the colour changes and codes
as text. It shares no code with the libraries, which are compared with it."""

from __future__ import annotations

import functools
import sys
from typing import Sequence

sys.dont_write_bytecode = True

from tests.plain.tables import EOL, MODES, RUNS  # noqa: E402

LONGEST = 2560
CODES = {colour: {meaning: code for code, meaning in RUNS[colour].items() if not isinstance(meaning, str)}
         for colour in "WB"}
MODE_CODES = {meaning: code for code, meaning in MODES.items()}
OTHER = {"W": "B", "B": "W"}


@functools.lru_cache(4096)
def changes_of(row: str) -> list[int]:
    """The changing elements of a row: each pel of another colour than the one before it, a white one before the
    first."""
    places, edge = [], "B"
    place = row.find(edge)
    while place >= 0:
        places.append(place)
        edge = OTHER[edge]
        place = row.find(edge, place + 1)
    return places


def runs_of(row: str) -> list[int]:
    """The lengths of its runs, the first of them white."""
    places = [0, *changes_of(row), len(row)]
    return [after - before for before, after in zip(places, places[1:])]


def run_codes(colour: str, length: int) -> str:
    """The codes of a run: the longest make-up code as often as it fits, at most one other, and a terminating code."""
    codes, table = "", CODES[colour]
    while length >= LONGEST:
        codes, length = codes + table["more", LONGEST], length - LONGEST
    if length >= 64:
        codes += table["more", length // 64 * 64]
    return codes + table["end", length % 64]


def one_dimensional(row: str) -> str:
    return "".join(run_codes("WB"[number % 2], length) for number, length in enumerate(runs_of(row)))


def two_dimensional(reference: str, row: str) -> str:
    """The codes of a row over its reference row. The changes of even number are black; after the last stands the
    width, as often as it is looked at."""
    width = len(row)
    above, here = changes_of(reference) + [width] * 3, changes_of(row) + [width] * 2
    codes: list[str] = []
    a0, b, a, is_black = -1, 0, 0, False
    while a0 < width:
        # a1 is the next change of the row, b1 the next one above it that is not of a0's colour.
        while here[a] <= a0 and here[a] < width:
            a += 1
        b -= b > 0
        while above[b] < width and (above[b] <= a0 or b % 2 != is_black):
            b += 1
        a1, b1, b2 = here[a], above[b], above[b + 1] if above[b] < width else width
        if b2 < a1:
            codes.append(MODE_CODES["pass"])
            a0 = b2
        elif -3 <= a1 - b1 <= 3:
            codes.append(MODE_CODES[a1 - b1])
            a0, is_black = a1, not is_black
        else:
            a2 = here[a + 1] if a1 < width else width
            colour = "WB"[is_black]
            codes.append(MODE_CODES["horizontal"])
            codes.append(run_codes(colour, a1 - max(a0, 0)) + run_codes(OTHER[colour], a2 - a1))
            a0 = a2
    return "".join(codes)


def strip_bits(coding: str, k: int, aligned: bool, rows: Sequence[str]) -> str:
    """The bits of a strip by the wording of T.4 (4.1.2, 4.1.3, 4.2.1.1 and 4.2.2) and of T.6 (2.2.1, and the end of the
    facsimile block)."""
    parts: list[str] = []
    length, reference = 0, "W" * len(rows[0])
    for number, row in enumerate(rows):
        is_one_dimensional = coding == "mh" or coding == "mr" and number % k == 0
        fill = "0" * (-(length + len(EOL)) % 8) if aligned else ""
        start = "" if coding == "mmr" else fill + EOL
        tag = "01"[is_one_dimensional] if coding == "mr" else ""
        codes = one_dimensional(row) if is_one_dimensional else two_dimensional(reference, row)
        parts.append(start + tag + codes)
        length += len(parts[-1])
        reference = row
    return "".join(parts) + (2 * EOL if coding == "mmr" else "")


def to_bytes(bits: str, order: int = 1) -> bytes:
    """The bytes of bits, filled with zeros; 1 where the highest bit is first, 2 where the lowest is."""
    bits += "0" * (-len(bits) % 8)
    if order == 2:
        bits = "".join(bits[at : at + 8][::-1] for at in range(0, len(bits), 8))
    return int(bits or "0", 2).to_bytes(len(bits) // 8, "big")
