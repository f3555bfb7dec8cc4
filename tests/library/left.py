#!/usr/bin/env python3
"""left.py <LINES: reads what damaged.py prints, and sees that the Python module finds the same of each strip and page.
Prints how many strips and pages were tried, and how many pages are refused. FAXPAGES_LIBRARY names the library."""

from __future__ import annotations

import collections
import sys
from typing import Dict, List

import tests  # noqa: F401  which says where it is

import faxpages

# The status of rows after which an end mark stands.
END = 1
CODINGS = {1: "mh", 2: "mr", 3: "mmr"}
NAMES: Dict[int, str] = {number: kind.__name__ for number, kind in faxpages.faults.BY_NUMBER.items()}


def bytes_of(word: str) -> bytes:
    return b"" if word == "-" else bytes.fromhex(word)


def see(left: faxpages.Salvaged, rows: int, words: List[str], line: str) -> None:
    """That these are the rows and the stretches of a line."""
    packed, (_, *numbers) = b"".join(map(bytes_of, words[:rows])), map(int, words[rows:])
    lost = [faxpages.Stretch(first, count, NAMES[fault])
            for first, count, fault in zip(numbers[::3], numbers[1::3], numbers[2::3])]
    if (left.raster.rows, left.raster.packed, list(left.lost)) != (rows, packed, lost):
        sys.exit(f"left: {left} {left.raster.packed.hex()}: {line}")
    if left.found != rows - sum(stretch.rows for stretch in lost) or left.ok == bool(lost):
        sys.exit(f"left: another number of rows is found: {line}")


def see_pieces(page: faxpages.Page, line: str) -> None:
    """That the same is left of a page row by row."""
    left, stride = page.salvaged(), (page.width + 7) // 8
    wanted = {stretch.first: stretch for stretch in left.lost}
    row = 0
    for found in page.salvaged_rows():
        if isinstance(found, faxpages.Stretch):
            same, row = found == wanted.get(row), row + found.rows
        else:
            packed = left.raster.packed[row * stride:(row + 1) * stride]
            same, row = found == faxpages.Row(page.number, row, page.width, packed), row + 1
        if not same:
            sys.exit(f"left: row by row {found} is left: {line}")
    if row != page.rows:
        sys.exit(f"left: row by row {row} rows are left: {line}")


def see_uncounted(words: List[str], line: str) -> None:
    """The same of a strip whose rows nobody counted, and how they end."""
    coding, order, width = map(int, words[:3])
    status, fault, rows = map(int, words[4:7])
    left = faxpages.salvage_strip(bytes_of(words[3]), width, coding=CODINGS[coding], order=order)
    if (left.end_mark, left.fault) != (status == END, NAMES[fault] if fault else None):
        sys.exit(f"left: rows end otherwise: {left}: {line}")
    see(left, rows, words[7:], line)


def see_line(line: str) -> str:
    """That a line is so. Answers of what it is."""
    kind, *words = line.split()
    if kind == "strip":
        coding, order, width, rows = map(int, words[:4])
        see(faxpages.salvage_strip(bytes_of(words[4]), width, rows=rows, coding=CODINGS[coding], order=order), rows,
            words[5:], line)
    elif kind == "uncounted":
        see_uncounted(words, line)
    elif kind == "page":
        number, width, rows = map(int, words[:3])
        page = faxpages.open(bytes_of(words[3])).page(number)
        if (page.width, page.rows) != (width, rows):
            sys.exit(f"left: a form is another: {line}")
        see(page.salvaged(), rows, words[4:], line)
        see_pieces(page, line)
    else:
        number, fault = map(int, words[:2])
        try:
            faxpages.open(bytes_of(words[2])).page(number)
            sys.exit(f"left: a page is not refused: {line}")
        except faxpages.Fault as told:
            if (told.page, told.name) != (number, NAMES[fault]):
                sys.exit(f"left: a page is refused for {told}: {line}")
    return kind


def main() -> None:
    kinds = collections.Counter(see_line(line) for line in sys.stdin)
    print(f"{kinds['strip'] + kinds['uncounted']} strips, {kinds['page']} pages, {kinds['refused']} refused")


if __name__ == "__main__":
    main()
