"""Files that are written page by page, and strips that are coded."""

from __future__ import annotations

import ctypes
import errno
import io
import os
from typing import Collection, Iterable, NoReturn, Optional, Protocol, SupportsIndex, Tuple, Union, runtime_checkable

from . import _library as _c
from ._pages import Writable, raster_of, with_dpi
from ._raster import Number, Raster
from ._source import Path
from ._told import choice_of, number_of, refusal
from .faults import OutputTooLarge

Dpi = Union[None, Number, Tuple[Number, Number]]
CODINGS = {"mh": 1, "mr": 2, "mmr": 3}
# The most pages of a file, and the most bytes.
_PAGES, _MOST = 65535, 1 << 28
# Room for a page's directory, and so much for each row at first.
_DIRECTORY, _ROOM_A_ROW = 1024, 24


@runtime_checkable
class Writer(Protocol):
    """A file that is open for writing bytes."""

    def write(self, data: bytes, /) -> object:
        """Takes bytes, and says how many; or says nothing, and takes them all."""


class _File:
    """A file that is written page by page, in memory: of so many pages, or of 0, where nobody knows how many."""

    def __init__(self, pages: int) -> None:
        self._room = 4096
        self._file = ctypes.create_string_buffer(self._room)
        self._written = _c.Written(0, 0, pages, 0)

    def add(self, form: _c.Form, k: int, raster: Raster) -> None:
        """Adds a page."""
        self._make_room(self._written.len + _DIRECTORY + raster.rows * min(_ROOM_A_ROW, 4 * raster.stride))
        while True:
            status = _c.library.faxpages_add_page(
                form, k, raster.packed, len(raster.packed), raster.stride, self._file, self._room, self._written)
            if status != _c.NO_ROOM or self._room == _MOST:
                break
            self._make_room(self._room + 1)
        if status != _c.DONE:
            _refuse(_c.TOO_LARGE if status == _c.NO_ROOM else status)

    def _make_room(self, room: int) -> None:
        """Makes room for so many bytes: at least twice as much each time."""
        if room <= self._room:
            return
        self._room = min(max(room, 2 * self._room), _MOST)
        larger = ctypes.create_string_buffer(self._room)
        ctypes.memmove(larger, self._file, self._written.len)
        self._file = larger

    def ends(self) -> bytes:
        """The file, which has all its pages."""
        added, total = self._written.added, self._written.total
        if total == 0:
            if added == 0:
                raise ValueError("a file has at least one page")
            status = _c.library.faxpages_end_pages(self._file, self._room, self._written)
            if status != _c.DONE:
                _refuse(status)
        elif added != total:
            raise ValueError(f"there are {added} pages, but their length said {total}")
        return ctypes.string_at(self._file, self._written.len)


def encode(pages: Iterable[Writable], coding: str = "mmr", order: SupportsIndex = 1, k: SupportsIndex = 4,
           strip: Optional[SupportsIndex] = None, align: bool = False, dpi: Dpi = None) -> bytes:
    """The bytes of a TIFF-F file of these pages, in order.

    A page is a Page of any file, a Raster, an image of Pillow in mode 1, an array of bools (rows by pels, True for
    black), or a list of rows of one width. coding is "mh", "mr" or "mmr"; order, k, strip and align are as for convert.
    dpi is a number, or a pair: pels of a row and rows in an inch. Without it a page keeps its own resolution, and an
    image the one in its info; otherwise it is 204 by 196.

    Pages are taken one by one, from an iterator too; their number is written into each after the last. More than
    268,435,456 bytes or 65,535 pages are OutputTooLarge. A page that is damaged raises its fault.

    >>> fax = faxpages.open("samples/three-pages.tif")
    >>> data = faxpages.encode([fax[1], fax[2].raster(partial=True), list(fax[0])], coding="mr", dpi=200)
    >>> [(page.coding, page.rows, page.dpi) for page in faxpages.open(data)]
    [('mr', 3, (200.0, 200.0)), ('mr', 1, (200.0, 200.0)), ('mr', 1, (200.0, 200.0))]
    """
    order, k = number_of("order", order, 1, 2), number_of("k", k, 1)
    rows = None if strip is None else number_of("strip", strip, 1)
    number = _number_of_coding(coding, align)
    count = len(pages) if isinstance(pages, Collection) else None
    if count == 0:
        raise ValueError("a file has at least one page")
    _see_few(count or 0)
    file = _File(count or 0)
    for added, page in enumerate(pages):
        if added == count:
            raise ValueError(f"there are more pages than the {count} that their length said")
        _see_few(added + 1)
        raster = with_dpi(raster_of(page), dpi)
        file.add(_form_of(raster, number, order, bool(align), rows), k, raster)
    return file.ends()


def write(pages: Iterable[Writable], file: Union[str, Path, Writer], coding: str = "mmr",
          order: SupportsIndex = 1, k: SupportsIndex = 4, strip: Optional[SupportsIndex] = None, align: bool = False,
          dpi: Dpi = None) -> None:
    """Writes a TIFF-F file of these pages: see encode. file is a path, or a file object that is open for bytes, of
    which all are written: an unbuffered file that takes none now is a BlockingIOError, which says how many it has
    taken. Where a page cannot be written, nothing is.

    >>> import io
    >>> out = io.BytesIO()
    >>> faxpages.write(faxpages.open("samples/three-mmr-rows.tif"), out, coding="mh", strip=2)
    >>> page = faxpages.open(out.getvalue())[0]
    >>> page.coding, page.rows, page.strips
    ('mh', 3, 2)
    """
    if isinstance(file, io.TextIOBase) or not isinstance(file, (str, os.PathLike, Writer)):
        raise TypeError(f"a file is a path, or a file object that is open for bytes, not {type(file).__name__}")
    data = encode(pages, coding, order, k, strip, align, dpi)
    if isinstance(file, (str, os.PathLike)):
        with io.open(file, "wb") as out:
            out.write(data)
    else:
        _write_all(file, data)


def _write_all(file: Writer, data: bytes) -> None:
    """Writes all bytes, of which an unbuffered file may take a part at a time."""
    view, done = memoryview(data), 0
    while done < len(data):
        taken = file.write(view[done:] if done else data)
        if type(taken) is not int:
            # A file that says nothing has taken all, but one of Python's own that is unbuffered none.
            if not isinstance(file, io.RawIOBase):
                return
            taken = 0
        if taken <= 0:
            raise BlockingIOError(errno.EAGAIN, "the file takes no more bytes now", done)
        done += taken


def encode_strip(page: Writable, coding: str = "mmr", order: SupportsIndex = 1, k: SupportsIndex = 4,
                 align: bool = False) -> bytes:
    """The rows of a page as T.4 or T.6 data without a file around it, as on a line or in a PDF: see encode. After the
    last row stands the end of the block (EOFB) in "mmr", and nothing in "mh" and "mr".

    >>> page = faxpages.open("samples/three-mmr-rows.tif")[0]
    >>> data = faxpages.encode_strip(page, coding="mmr")
    >>> faxpages.strip(data, width=8).packed == page.packed()
    True
    """
    raster, length = raster_of(page), _c.SIZE()
    order, k, number = number_of("order", order, 1, 2), number_of("k", k, 1), _number_of_coding(coding, align)
    form = _c.Strip(raster.width, _rows_of(raster), number, order, bool(align))
    room = 64 + raster.rows * min(_ROOM_A_ROW, 4 * raster.stride)
    while True:
        out = ctypes.create_string_buffer(room)
        status = _c.library.faxpages_strip_code(
            form, k, raster.packed, len(raster.packed), raster.stride, out, room, ctypes.byref(length))
        if status != _c.NO_ROOM:
            break
        room = length.value
    if status != _c.DONE:
        _refuse(status)
    return ctypes.string_at(out, length.value)


def _see_few(pages: int) -> None:
    """Raises where these are more pages than a file has."""
    if pages > _PAGES:
        raise OutputTooLarge(f"a file has at most {_PAGES} pages")


def _number_of_coding(coding: str, align: bool) -> int:
    number = choice_of("coding", coding, CODINGS)
    if align and coding == "mmr":
        raise ValueError("align is for codings with EOLs: mh and mr")
    return number


def _rows_of(raster: Raster) -> int:
    """The rows of a raster, which a page has at least one of."""
    if raster.rows == 0:
        raise ValueError("a page has at least one row")
    return raster.rows


def _form_of(raster: Raster, coding: int, order: int, align: bool, strip: Optional[int]) -> _c.Form:
    rows = _rows_of(raster)
    height = rows if strip is None else min(strip, rows)
    return _c.Form(
        raster.width, rows, coding, order, align, 0, height, -(-rows // height), raster.x.numerator,
        raster.x.denominator, raster.y.numerator, raster.y.denominator, raster.unit)


def _refuse(status: int) -> NoReturn:
    """Raises why nothing is written."""
    if status == _c.TOO_LARGE:
        raise OutputTooLarge("the output is too large")
    raise refusal(status)
