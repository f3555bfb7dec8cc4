"""Salvages damaged pages piece by piece: each found row, and each stretch of lost rows."""

from __future__ import annotations

import ctypes
from typing import Iterator, Sequence, Union

from . import _library as _c
from ._rows import Row
from ._salvaged import Stretch
from ._told import name_of, refusal

# How many rows, and how many stretches, are read at a time, at most.
_ROWS = 2048


def salvaged_rows(data: bytes, page: int, width: int) -> Iterator[Union[Row, Stretch]]:
    """The found rows and lost stretches of a page of a file, with rows of so many pels, in order."""
    stride, first = (width + 7) // 8, 0
    place, runs, told = _c.Place(page, 0, 0, 0), (_c.U32 * _c.RUNS)(), _c.Told()
    out, lost = ctypes.create_string_buffer(_ROWS * stride), (_c.Lost * _ROWS)()
    while True:
        status = _c.library.faxpages_salvage_from(
            data, len(data), place, runs, _c.RUNS, out, _ROWS * stride, stride, lost, _ROWS, told)
        if status not in (_c.DONE, _c.END):
            raise refusal(status)
        stretches = [Stretch(it.row, it.rows, name_of(it.fault)) for it in lost[:told.used]]
        yield from _in_order(page, width, ctypes.string_at(out, told.count * stride), stretches, first, told.row)
        if status == _c.END:
            return
        first = told.row


def _in_order(page: int, width: int, packed: bytes, stretches: Sequence[Stretch], first: int, end: int
              ) -> Iterator[Union[Row, Stretch]]:
    """The rows of one piece, from one on up to another: those in no stretch are found."""
    stride, at = (width + 7) // 8, 0
    for stretch in [*stretches, None]:
        for number in range(first, stretch.first if stretch else end):
            yield Row(page, number, width, packed[at:at + stride])
            at += stride
        if stretch:
            yield stretch
            first = stretch.first + stretch.rows
