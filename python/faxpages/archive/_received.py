"""What a row says of the rows of a fax that are not as they were sent: how many bad ones the receivers of its pages
counted, and how many are lost. The library follows the directories of a file again for each page that it is asked for;
here that is done once, or for a limited number of pages."""

from __future__ import annotations

import ctypes
import struct
from typing import Any, Optional

from .. import _library as _c
from .._directory import Directories, first_of
from .._told import refusal

_BAD_ROWS, _CLEAN = 326, 327
# By the order of bytes: what reads a SHORT and a LONG, and how fields with the two tags begin.
_READERS = {
    order: (struct.Struct(order + "H").unpack_from, struct.Struct(order + "I").unpack_from,
            struct.pack(order + "H", _BAD_ROWS), struct.pack(order + "H", _CLEAN)) for order in "<>"}
# The lost rows of a fax with more pages are not counted, since each page takes longer than the one before it.
_MOST_PAGES = 4096
# How many rows, stretches of lost rows and bytes one call writes at most.
_STRETCHES, _BYTES = 2048, 1 << 20


def bad_rows(data: bytes, pages: int) -> int:
    """How many bad rows the receivers of the first so many pages counted, which can all be listed. A page whose
    CleanFaxData alone says that it had some counts as one row, so that this is above 0 where `check --received` prints
    a note."""
    short, long, bad, clean = _READERS["<" if data[:2] == b"II" else ">"]
    total = 0
    (at,) = long(data, 4)
    for _ in range(pages):
        (count,) = short(data, at)
        end = at + 2 + 12 * count
        if data.find(bad, at, end) >= 0 or data.find(clean, at, end) >= 0:
            total += _of_page(data, at)
        (at,) = long(data, end)
    return total


def _of_page(data: bytes, at: int) -> int:
    """The same of one page, by the place of its directory."""
    file = Directories(data)
    fields = first_of(file.entries_at(at))
    counted, clean = (file.first_value(fields[tag]) if tag in fields else None for tag in (_BAD_ROWS, _CLEAN))
    return counted or int(bool(clean))


def lost_rows(data: bytes, first: int, pages: int) -> Optional[int]:
    """How many rows of a fax salvage does not find, from its first damaged page on. It has so many pages, which can all
    be listed; where these are too many that is not known."""
    if pages > _MOST_PAGES:
        return None
    forms, told = (_c.Form * (pages - first))(), _c.Told()
    status = _c.library.faxpages_forms(data, len(data), first, forms, pages - first, told)
    if told.count != pages - first:
        raise refusal(status)
    sizes = [(form.width + 7) // 8 for form in forms]
    room = ctypes.create_string_buffer(min(_BYTES, max(form.rows * size for form, size in zip(forms, sizes))))
    stretches = (_c.Lost * _STRETCHES)()
    return sum(_lost_of(data, first + number, size, room, stretches) for number, size in enumerate(sizes))


def _lost_of(data: bytes, page: int, size: int, room: Any, stretches: Any) -> int:
    """How many rows of a page, of so many bytes each, salvage does not find."""
    place, runs, told = _c.Place(page, 0, 0, 0), (_c.U32 * _c.RUNS)(), _c.Told()
    count, status = 0, _c.DONE
    while status == _c.DONE:
        status = _c.library.faxpages_salvage_from(
            data, len(data), place, runs, _c.RUNS, room, len(room), size, stretches, _STRETCHES, told)
        if status not in (_c.DONE, _c.END):
            raise refusal(status)
        count += sum(stretch.rows for stretch in stretches[:told.used])
    return count
