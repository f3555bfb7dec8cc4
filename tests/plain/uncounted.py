"""How rows end that nobody counted, by a plain reading of bits: at an end mark, with the data, or at a fault; and what is
settled of it while more bits may come."""

from __future__ import annotations

import re
from typing import List, NamedTuple, Optional, Tuple

from tests.plain.notes import after_mark
from tests.plain.reading import read_lines
from tests.plain.tables import EOL

MOST_ROWS = 1000000
MARKED, DATA_END, MORE = "Marked", "DataEnd", "More"


class Read(NamedTuple):
    """The rows of bits, each with the place after it, and how they end: one of the words above, None after all rows that
    were asked for, or the name of a fault."""

    lines: List[Tuple[str, int]]
    end: Optional[str]


def read_rows(coding: str, width: int, bits: str, number: int = 0, reference: str = "", at: int = 0) -> Read:
    """The rows from a place on, where no more bits come."""
    lines, fault = read_lines(coding, number, MOST_ROWS, reference or "W" * width, bits, at)
    left = bits[lines[-1][1] if lines else at:]
    if after_mark(coding, left) is not None:
        return Read(lines, MARKED)
    if number + len(lines) > 0 and "1" not in left:
        return Read(lines, DATA_END)
    return Read(lines, str(fault) if fault else "TooManyRows")


# EOLs of a return to control as far as they are whole, and what may become one more (T.4, sections 4.1.4 and 4.2.4).
WHOLE = {"mh": re.compile(r"(?:0{11,}1)*"), "mr": re.compile(r"(?:0{11,}11)*")}
CUT = {"mh": re.compile(r"0*"), "mr": re.compile(r"0*|0{11,}1")}


def may_be_mark(coding: str, left: str) -> bool:
    """Whether bits that follow these may make an end mark of them."""
    if coding == "mmr":
        return (2 * EOL).startswith(left[:2 * len(EOL)])
    whole = re.match(WHOLE[coding], left)
    return whole is not None and CUT[coding].fullmatch(left, whole.end()) is not None


def read_part(coding: str, width: int, rows: int, bits: str) -> Read:
    """The rows from the first on that are the same whatever bits follow, of so many, or of those that nobody counted if
    rows is 0."""
    lines, fault = read_lines(coding, 0, rows or MOST_ROWS, "W" * width, bits, 0)
    left = bits[lines[-1][1] if lines else 0:]
    if not fault:
        return Read(lines, None)
    if not rows and after_mark(coding, left) is not None:
        return Read(lines, MARKED)
    may_end = not rows and (lines and "1" not in left or str(fault) == "EndMarker" and may_be_mark(coding, left))
    is_open = str(fault) == "DataEnds" or may_end
    return Read(lines, MORE if is_open else str(fault))
