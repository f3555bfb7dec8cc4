#!/usr/bin/env python3
"""Hands numbers and texts to the Python module that are out of range, or none.

    ranges.py FILE

FILE has two pages or more, and FAXPAGES_LIBRARY names the library. Ends with 'ranges: N passed, N failed'."""

from __future__ import annotations

import dataclasses
import sys
from typing import Any, Callable, Iterator
from functools import partial

from tests.library.counted import Claims
from tests.library.counted import SMALL, Claims

import faxpages

MOST = 2 ** 32 - 1
TOO_MANY = [-1, -2 ** 32, -2 ** 64, 2 ** 32, 2 ** 32 + 1, 2 ** 64, 10 ** 5000]
NO_NUMBERS: list[Any] = [0.0, 1.5, "0", b"0", [], float("nan"), 1j]


class Index:
    """A number of another type, as numpy has them."""

    def __init__(self, number: int) -> None:
        self.number = number

    def __index__(self) -> int:
        return self.number


def numbers(fax: faxpages.Fax) -> Iterator[tuple[str, Callable[[Any], object], int, int]]:
    """What takes a number, by its name, with the least and the greatest that it takes."""
    yield "a page", fax.page, 0, MOST
    yield "a cursor's page", faxpages.Cursor, 0, MOST
    yield "a cursor's row", lambda number: faxpages.Cursor(0, number), 0, MOST
    yield "how many rows", lambda number: fax.read_rows(faxpages.Cursor(), number), 0, sys.maxsize
    yield "order", lambda number: faxpages.convert(SMALL, "mh", order=number), 1, 2
    yield "k", lambda number: faxpages.convert(SMALL, "mr", k=number), 1, MOST
    yield "strip", lambda number: faxpages.convert(SMALL, "mh", strip=number), 1, MOST
    yield "order of a fax", lambda number: fax.convert("mh", number), 1, 2
    yield "k of a fax", lambda number: fax.convert("mr", 1, number), 1, MOST
    yield "strip of a fax", lambda number: fax.convert("mr", 1, 2, number), 1, MOST
    yield "order of pages", lambda number: faxpages.encode(fax, "mh", order=number), 1, 2
    yield "k of pages", lambda number: faxpages.encode(fax, "mr", k=number), 1, MOST
    yield "strip of pages", lambda number: faxpages.encode(fax, "mh", strip=number), 1, MOST
    yield "order of a strip", lambda number: faxpages.encode_strip(fax[0], "mh", order=number), 1, 2
    yield "k of a strip", lambda number: faxpages.encode_strip(fax[0], "mr", k=number), 1, MOST


def out_of_range(claims: Claims, fax: faxpages.Fax) -> None:
    """What is out of range is a ValueError, what is no number a TypeError, and what can be an index is a number."""
    for name, work, least, most in numbers(fax):
        for number in TOO_MANY + [least - 1, most + 1]:
            if not least <= number <= most:
                shown = str(number) if abs(number) < 2 ** 80 else "a long number"
                claims.raises(f"{name}, {shown}", ValueError, partial(work, number))
                claims.raises(f"{name}, {shown} as an index", ValueError,
                              partial(work, Index(number)))
        for no_number in NO_NUMBERS + ([None] if "strip" not in name else []):
            claims.raises(f"{name}, {no_number!r}", TypeError, partial(work, no_number))
        claims.see(f"{name}, 1", work(1) == work(True) == work(Index(1)))


def in_range(claims: Claims, fax: faxpages.Fax) -> None:
    """The greatest numbers are taken as they are."""
    claims.raises("the greatest page", faxpages.OutsideError, lambda: fax.page(MOST))
    cursor = faxpages.Cursor(MOST, MOST)
    claims.see("the greatest cursor", (cursor.page, cursor.row, str(cursor)) == (MOST, MOST, f"1:{MOST}:{MOST}"))
    claims.raises("rows from the greatest cursor", faxpages.OutsideError, lambda: next(fax.rows(cursor)))
    claims.raises("a batch from the greatest cursor", faxpages.OutsideError, lambda: fax.read_rows(cursor, 1))
    wanted = fax.convert("mr", k=1000000, strip=1000000)
    claims.see("the greatest strip and k", fax.convert("mr", k=MOST, strip=MOST) == wanted)
    rows, after = fax.read_rows(faxpages.Cursor(1), 0)
    for number in (-1, MOST + 1):
        page = dataclasses.replace(fax.page(0), number=number)
        claims.raises(f"the rows of a page {number}", ValueError, partial(list, page))
    claims.see("no rows", rows == [] and after == faxpages.Cursor(1, 0))
    claims.see("all rows", fax.read_rows(faxpages.Cursor(), sys.maxsize)[0] == list(fax.rows()))


def others(claims: Claims, fax: faxpages.Fax) -> None:
    """What is no number is looked at too."""
    claims.raises("a target", ValueError, lambda: fax.convert("tiff"))
    for target in ("mmr", "pbm"):
        claims.raises(f"align in {target}", ValueError, partial(fax.convert, target, align=True))
    two: Any = 2
    claims.see("align", fax.convert("mh", align=True) == fax.convert("mh", align=two) != fax.convert("mh"))
    for text in ("", "1:0", "1:00:0", "1:-1:0", "1:0:4294967296", "2:0:1:4294967296:8", "2:0:1:1:4294967296",
                 "2:0:1:1:-1", "2:0:1:1:" + "1," * 70000 + "1", "2:0:1:1:", "1:0:0\0", "\udc80", "1:\u0661:0"):
        claims.raises(f"the cursor {text[:30]!r}", faxpages.NotACursorError,
                      partial(faxpages.Cursor.parse, text))
    no_texts: list[Any] = [b"1:0:0", None, 1, ["1:0:0"]]
    for no_text in no_texts:
        claims.raises(f"the cursor {no_text!r}", TypeError, partial(faxpages.Cursor.parse, no_text))
    places = [faxpages.Cursor.parse(text) for text in ("2:0:1:5:4,4", "2:0:1:6:4,4", "2:0:1:5:8", "1:0:1", "1:1:1")]
    claims.see("cursors that differ are not equal", len(set(places)) == len({str(place) for place in places}) == 5)


def main() -> int:
    claims, fax = Claims(), faxpages.open(sys.argv[1])
    out_of_range(claims, fax)
    in_range(claims, fax)
    others(claims, fax)
    return claims.ends("ranges")


if __name__ == "__main__":
    sys.exit(main())
