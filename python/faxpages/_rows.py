"""Rows, read many at a time."""

from __future__ import annotations

import ctypes
import struct
from dataclasses import dataclass
from typing import Any, Iterator, List, NamedTuple, Optional, Tuple

from . import _library as _c
from ._cursor import Cursor
from ._told import stopped
from .faults import OutsideError

# How many rows and bytes are read at a time, at most, and the longest row.
ROWS, _BYTES, _ROW_BYTES = 8192, 1 << 20, 8192
# In a file of very many pages more bytes are read at a time, this many for each page before them: each call follows the
# directories up to its page.
_BYTES_A_PAGE, _MOST_BYTES = 256, 1 << 24
# A row's place in the buffer and on its page, as _c.Row.
_ROW = struct.Struct("@N4I")


@dataclass(frozen=True)
class Row:
    """A row: its page and its number there, its pels, and its packed bytes, the highest bit first, 1 for black.

    >>> row = next(faxpages.open("samples/three-mmr-rows.tif").rows())
    >>> row
    Row(page=0, number=0, width=8, packed=b'\\x18')
    >>> len(row)
    8
    """

    page: int
    number: int
    width: int
    packed: bytes

    def runs(self) -> List[int]:
        """The lengths in pels of its runs, white first: the first is 0 where the row begins black.

        >>> faxpages.Row(page=0, number=0, width=8, packed=b"\\xf2").runs()
        [0, 4, 2, 1, 1]
        """
        number = int.from_bytes(self.packed, "big") | 1 << 8 * len(self.packed)
        pels = bin(number)[3:3 + self.width]
        found, colour, at = [], "0", 0
        while at < self.width:
            other = "1" if colour == "0" else "0"
            end = pels.find(other, at)
            end = self.width if end < 0 else end
            found.append(end - at)
            at, colour = end, other
        return found

    def __len__(self) -> int:
        return self.width


# So that threads may share a Fax, what is read stands in memory of one call, and what is kept in one tuple that never
# changes: a place and its runs, or a buffer and its length, never come from two readings.


class Batch(NamedTuple):
    """Rows that one call has read: how many, their packed bytes one after another, the table of where each lies, the
    cursor after them, and whether and why no more follow."""

    size: int
    packed: bytes
    table: bytes
    after: Cursor
    ended: bool
    stopped: Optional[Exception]

    def rows(self, first: int = 0, end: Optional[int] = None) -> List[Row]:
        """Those from one of them on, up to another."""
        table, packed = self.table[first * _ROW.size:None if end is None else end * _ROW.size], self.packed
        return [Row(page, row, width, packed[at:at + length])
                for at, length, page, row, width in _ROW.iter_unpack(table)]

    def bytes_of(self, first: int, end: int) -> bytes:
        """The bytes of those."""
        if first == end:
            return b""
        begin = _ROW.unpack_from(self.table, first * _ROW.size)[0]
        at, length = _ROW.unpack_from(self.table, (end - 1) * _ROW.size)[:2]
        return self.packed[begin:at + length]

    def find(self, page: int, row: int) -> int:
        """How many of them stand before a row of a page."""
        low, high = 0, self.size
        while low < high:
            middle = (low + high) // 2
            its_page, its_row = _ROW.unpack_from(self.table, middle * _ROW.size)[2:4]
            low, high = (middle + 1, high) if (its_page, its_row) < (page, row) else (low, middle)
        return low

    def begins(self, number: int, page: int, row: int) -> bool:
        """Whether one of them, by its number here, is this row of a page."""
        return number < self.size and _ROW.unpack_from(self.table, number * _ROW.size)[2:4] == (page, row)


def read(data: bytes, cursor: Cursor, most: int) -> Batch:
    """Rows from a cursor on, over pages, at most as many as are asked for."""
    most = min(most, ROWS)
    room = min(most * _ROW_BYTES, max(_BYTES, min(_MOST_BYTES, cursor.page * _BYTES_A_PAGE)))
    (place, runs), told = cursor._place(), _c.Told()
    rows, out = (_c.Row * most)(), ctypes.create_string_buffer(room)
    status = _c.library.faxpages_rows_from(data, len(data), place, runs, _c.RUNS, rows, most, out, room, told)
    return Batch(
        told.count, ctypes.string_at(out, told.used), ctypes.string_at(rows, told.count * _ROW.size),
        Cursor._of(place, runs), status not in (_c.DONE, _c.NO_ROOM), stopped(status, told.fault))


class Span(NamedTuple):
    """Rows of a batch, from one on up to another."""

    batch: Batch
    first: int
    end: int


class _Window(NamedTuple):
    """A batch that was read ahead, the page that was asked for, and how many rows were."""

    batch: Batch
    page: int
    asked: int


class Ahead:
    """Rows of pages, read ahead over pages: twice as many each time, while pages are asked for in order. Iterators
    share what was read last. A copy keeps nothing."""

    def __init__(self) -> None:
        self._window = _Window(Batch(0, b"", b"", Cursor(), False, None), -1, 0)

    def spans(self, data: bytes, page: int, count: int) -> Iterator[Span]:
        """The rows of a page, which has so many. A fault is raised after the rows before it."""
        window, left = self._window, count
        first = window.batch.find(page, 0)
        if not window.batch.begins(first, page, 0):
            most = 2 * window.asked if page > window.page else 0
            window, first = self._go_on(data, Cursor(page, 0), page, max(count, most)), 0
        while True:
            end = window.batch.find(page, count)
            yield Span(window.batch, first, end)
            left -= end - first
            if left <= 0:
                return
            window, first = self._go_on(data, window.batch.after, page, max(left, 2 * window.asked)), 0

    def rows_of(self, data: bytes, page: int, count: int) -> Iterator[Row]:
        """The same, row by row."""
        for batch, first, end in self.spans(data, page, count):
            yield from batch.rows(first, end)

    def _go_on(self, data: bytes, cursor: Cursor, page: int, asked: int) -> _Window:
        """Reads rows from a cursor on, which is on this page."""
        asked = min(asked, ROWS)
        batch = read(data, cursor, asked)
        if batch.find(page + 1, 0) == 0 or batch.find(page, 0) > 0:
            raise batch.stopped or OutsideError("the file has no such row")
        window = _Window(batch, page, asked)
        self._window = window
        return window

    def __reduce__(self) -> Tuple[Any, ...]:
        return Ahead, ()
