"""Where to go on."""

from __future__ import annotations

import ctypes
from typing import Any, SupportsIndex, Tuple

from . import _library as _c
from ._told import number_of, refusal
from .faults import NotACursorError


def a_cursor(given: object) -> "Cursor":
    """What is handed in as a cursor."""
    if not isinstance(given, Cursor):
        raise TypeError(f"a cursor is a Cursor, which Cursor.parse makes of a text, not {type(given).__name__}")
    return given


class Cursor:
    """Where to go on: a page and a row, or a place inside a strip, after which no row is read again.

    str(cursor) is its text, as the program faxpages prints it after `next`, and Cursor.parse reads it. A cursor never
    changes, and is pickled as its text.

    >>> str(faxpages.Cursor(page=3, row=7))
    '1:3:7'
    """

    def __init__(self, page: SupportsIndex = 0, row: SupportsIndex = 0) -> None:
        self._row = number_of("page", page), number_of("row", row)
        # Inside a strip, how many bits are before the place, and the runs of the row before it, as numbers of C.
        self._bits, self._runs = 0, b""

    @classmethod
    def parse(cls, text: str) -> "Cursor":
        """The cursor of a text `1:P:R` or `2:P:R:B:n,n,..`. Raises NotACursorError.

        >>> faxpages.Cursor.parse("1:3:7") == faxpages.Cursor(3, 7)
        True
        """
        place, runs, data = _c.Place(), (_c.U32 * _c.RUNS)(), str.encode(text, "utf-8", "surrogatepass")
        status = _c.library.faxpages_place_parse(data, len(data), place, runs, _c.RUNS)
        if status in (_c.NOT_A_PLACE, _c.NO_ROOM):
            raise NotACursorError(f"not a cursor: {text!r}")
        if status != _c.DONE:
            raise refusal(status)
        return cls._of(place, runs)

    @classmethod
    def _of(cls, place: _c.Place, runs: "ctypes.Array[_c.U32]") -> "Cursor":
        """The cursor of a place, whose runs stand first in a buffer that has room for those of any row."""
        cursor = cls(place.page, place.row)
        if place.runs:
            cursor._bits, cursor._runs = place.bits, ctypes.string_at(runs, place.runs * _c.U32_BYTES)
        return cursor

    def _place(self) -> "Tuple[_c.Place, ctypes.Array[_c.U32]]":
        """Its place and its runs, with room for those of any row, in new memory that is the caller's own."""
        count = len(self._runs) // _c.U32_BYTES
        runs = (_c.U32 * _c.RUNS)()
        ctypes.memmove(runs, self._runs, len(self._runs))
        return _c.Place(self._row[0], self._row[1], self._bits, count), runs

    @property
    def page(self) -> int:
        """The page of the next row.

        >>> faxpages.Cursor.parse("1:3:7").page
        3
        """
        return self._row[0]

    @property
    def row(self) -> int:
        """The next row.

        >>> faxpages.Cursor.parse("1:3:7").row
        7
        """
        return self._row[1]

    @property
    def inside_strip(self) -> bool:
        """Whether it is a place inside a strip.

        >>> faxpages.Cursor.parse("2:1:1:10:3,2,3").inside_strip
        True
        """
        return bool(self._runs)

    def __str__(self) -> str:
        place, runs = self._place()
        length, room = _c.SIZE(), 64 + 11 * place.runs
        text = ctypes.create_string_buffer(room)
        status = _c.library.faxpages_place_text(place, runs, _c.RUNS, text, room, ctypes.byref(length))
        if status != _c.DONE:
            raise refusal(status)
        return ctypes.string_at(text, length.value).decode()

    def __repr__(self) -> str:
        return f"Cursor.parse({str(self)!r})"

    def __eq__(self, other: object) -> bool:
        return isinstance(other, Cursor) and (
            (self._row, self._bits, self._runs) == (other._row, other._bits, other._runs))

    def __hash__(self) -> int:
        return hash((self._row, self._bits, self._runs))

    def __reduce__(self) -> Tuple[Any, ...]:
        return type(self).parse, (str(self),)
