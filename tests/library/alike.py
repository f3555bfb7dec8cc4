#!/usr/bin/env python3
"""alike.py <LINES: reads what ends.py prints, and sees that the Python module tells the same of strips whose rows nobody
counted: in one piece, by a check, and as their bytes come in. Prints how many strips, and how many beginnings of them, were
tried. FAXPAGES_LIBRARY names the library."""

from __future__ import annotations

import sys
from typing import List, NamedTuple, Optional

import tests  # noqa: F401  which says where it is

import faxpages

CODINGS = {1: "mh", 2: "mr", 3: "mmr"}
END, FAULT, DATA_END, MORE = 1, 2, 9, 10
NOTES = ("NoEndOfBlock", "ReturnToControl", "DataAfterEnd", "NotT4Choice")


class Strip(NamedTuple):
    """A strip of a line, and its rows."""

    coding: str
    order: int
    width: int
    data: bytes
    rows: List[bytes]


class Wanted(NamedTuple):
    """How rows are wanted to end: the status, the number of a fault or 0, and the number of rows."""

    status: int
    fault: int
    rows: int


def need(is_so: bool, what: str, strip: Strip) -> None:
    if not is_so:
        sys.exit(f"alike: {what}: {strip}")


def number_of(fault: Optional[faxpages.Fault]) -> int:
    """The number of a fault, as of faxpages.h, or 0."""
    return next(number for number, kind in faxpages.faults.BY_NUMBER.items() if type(fault) is kind) if fault else 0


def bytes_of(word: str) -> bytes:
    return b"" if word == "-" else bytes.fromhex(word)


def whole_of(words: List[str]) -> Strip:
    coding, order, width = map(int, words[:3])
    wanted = Wanted(*map(int, words[4:7]))
    strip = Strip(CODINGS[coding], order, width, bytes_of(words[3]), [bytes_of(word) for word in words[7::2]])
    raster = faxpages.strip(strip.data, width, None, strip.coding, order, partial=True)
    need(raster.packed == b"".join(strip.rows) and raster.rows == wanted.rows, "rows are others", strip)
    need(number_of(raster.fault) == wanted.fault, "rows end otherwise", strip)
    return strip


def see_report(strip: Strip, words: List[str]) -> None:
    status, rows, fault, *noted = map(int, words)
    report = faxpages.check_strip(strip.data, strip.width, None, strip.coding, strip.order)
    need((report.rows, number_of(report.fault)) == (rows, fault), "a check finds something else", strip)
    need([note.name for note in report.notes] == [name for name, is_so in zip(NOTES, noted) if is_so], "notes", strip)
    need(report.end_mark == (status == END), "the end mark is told otherwise", strip)


class Growing:
    """A reader that is fed a byte at a time."""

    def __init__(self, strip: Strip, rows: int) -> None:
        self._strip, self._found, self._length = strip, 0, 0
        self._reader = faxpages.StripReader(strip.width, strip.coding, strip.order, rows or None)
        self.rows = rows

    def see(self, wanted: Wanted) -> None:
        """What is there by the first bytes, of which the last is fed now."""
        self._reader.feed(self._strip.data[self._length - 1:self._length] if self._length else b"")
        self._length += 1
        fault = None
        try:
            for row in self._reader:
                need(row.packed == self._strip.rows[self._found], "a row is another", self._strip)
                self._found += 1
        except faxpages.Fault as error:
            fault = error
        need((self._found, number_of(fault)) == (wanted.rows, wanted.fault), "another row or fault is there", self._strip)
        need(self._reader.ended == (wanted.status == END or wanted.fault != 0), "the reader has ended, or not", self._strip)


def main() -> None:
    strips = beginnings = 0
    strip: Optional[Strip] = None
    growing: Optional[Growing] = None
    for line in sys.stdin:
        kind, *words = line.split()
        if kind == "whole":
            strip, growing = whole_of(words), None
            strips += 1
        elif kind == "notes" and strip:
            see_report(strip, words)
        elif kind == "part" and strip:
            rows, *told = map(int, words)
            if not growing or growing.rows != rows:
                growing = Growing(strip, rows)
            growing.see(Wanted(*told))
            beginnings += 1
    print(f"{strips} strips, {beginnings} beginnings of them")


if __name__ == "__main__":
    main()
