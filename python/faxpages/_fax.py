"""Files of fax pages, and their pages."""

from __future__ import annotations

import itertools
import operator
import sys
import threading
from dataclasses import dataclass, field
from fractions import Fraction
from typing import (
    TYPE_CHECKING, Any, Iterator, List, NamedTuple, NoReturn, Optional, Sequence, SupportsIndex, Tuple, Union, overload)

from . import _library as _c
from ._array import Array
from ._convert import convert, salvaged_file
from ._cursor import Cursor, a_cursor
from ._directory import Directories, first_of
from ._image import Image
from ._raster import Raster, dpi_of
from ._received import Received, received
from ._report import Report, check
from ._rows import ROWS, Ahead, Row, read
from ._salvaged import Salvaged, Stretch, salvage_page
from ._salvaged_rows import salvaged_rows
from ._source import ReadableBuffer, Source, bytes_of, own
from ._told import MOST, fraction, number_of, stopped
from .faults import Fault, FaxError, OutsideError

# How many forms are read at a time, at most.
_FORMS = 65536
CODINGS = {1: "mh", 2: "mr", 3: "mmr"}
# What is looked for in a Fax, and which call has it.
_GUESSED = {
    "width": "each page has its own, as fax[0].width", "height": "each page has its rows, as fax[0].rows",
    "n_frames": "len(fax) is how many pages it has", "close": "nothing is open: a file is read whole, and closed",
    "read": "fax.rows() has its rows, and fax[0].packed() the bytes of a page",
    "runs": "each row has them: [row.runs() for row in fax.rows()]",
    "salvage": "each page has it, as fax[0].salvaged()", "salvaged": "each page has it, as fax[0].salvaged()",
    "image": "each page has one, as fax[0].image()", "array": "each page has one, as fax[0].array()",
    "save": "faxpages.write(fax, path) writes it", "write": "faxpages.write(fax, path) writes it",
    "received": "each page has it, as fax[0].received"}


class _Listed(NamedTuple):
    """Forms of pages in order from a page on, that one call has read, how many were asked for, and why no more came."""

    first: int
    asked: int
    forms: List[_c.Form]
    stopped: Optional[Exception]


class _Forms:
    """The forms of pages: more at a time, twice as many each, where they are asked for in order."""

    def __init__(self, data: bytes) -> None:
        self._data = data
        self._listed = _Listed(0, 0, [], None)

    def at(self, page: int) -> Tuple[Optional[_c.Form], Optional[Exception]]:
        """The form of a page; or None, and why there is none, which is None too after the file's last page."""
        listed = self._listed
        if not 0 <= page - listed.first < len(listed.forms):
            in_order = listed.forms and page >= listed.first + len(listed.forms)
            listed = self._read(page, min(2 * listed.asked, _FORMS) if in_order else 1)
            self._listed = listed
        return (listed.forms[page - listed.first], None) if listed.forms else (None, listed.stopped)

    def _read(self, page: int, asked: int) -> _Listed:
        forms, told = (_c.Form * asked)(), _c.Told()
        status = _c.library.faxpages_forms(self._data, len(self._data), page, forms, asked, told)
        return _Listed(page, asked, forms[:told.count], stopped(status, told.fault))


def _count(data: bytes) -> int:
    """How many pages a file has. They are listed twice as many each time."""
    count, asked, told = 0, 64, _c.Told()
    while True:
        status = _c.library.faxpages_forms(data, len(data), count, (_c.Form * asked)(), asked, told)
        count += told.count
        if status != _c.DONE:
            break
        asked = count
    why = stopped(status, told.fault)
    if why:
        raise why
    return count


class _ByNumber(threading.local):
    """What a thread keeps of the pages that it asked for by their numbers."""

    def __init__(self, data: bytes) -> None:
        super().__init__()
        self.forms, self.ahead, self.directories = _Forms(data), Ahead(), Directories(data)


@dataclass(frozen=True)
class Page:
    """A page: its form, and its rows by iteration.

    coding is "mh", "mr" or "mmr"; order is 1 where the highest bit of a byte is first, and 2 where the lowest is;
    x and y are the resolution, in pels of a row and rows in a unit: 1 none, 2 inch, 3 centimetre. Where the file gives
    none they are 204, 196 and 2, and resolution_given is False. Threads may share a page, each with an iterator of its
    own.

    A page that is asked for whole, as packed(), raster(), array() or image(), raises the fault where it is damaged.
    With partial=True it is what stands before the fault, which may be no row.

    >>> page = faxpages.open("samples/three-pages.tif").page(1)
    >>> page.width, page.rows, page.coding, page.x, page.unit
    (8, 3, 'mmr', Fraction(204, 1), 2)
    >>> [row.runs() for row in page]
    [[3, 2, 3], [0, 6, 2], [8]]
    """

    fax: "Fax"
    number: int
    width: int
    rows: int
    coding: str
    order: int
    aligned: bool
    exchanged: bool
    rows_per_strip: int
    strips: int
    x: Fraction
    y: Fraction
    unit: int
    _ahead: Ahead = field(default_factory=Ahead, init=False, repr=False, compare=False)

    def __iter__(self) -> Iterator[Row]:
        return self._ahead.rows_of(self.fax._data, self.number, self.rows)

    def __len__(self) -> int:
        return self.rows

    @property
    def dpi(self) -> Optional[Tuple[float, float]]:
        """The pels of a row and the rows in an inch; None where the page has no unit.

        >>> faxpages.open("samples/three-pages.tif").page(0).dpi
        (204.0, 196.0)
        """
        return dpi_of(self.x, self.y, self.unit)

    @property
    def resolution_given(self) -> bool:
        """Whether the file gives the page's resolution, in fields that can be read; else x, y and unit are the usual
        ones, and the page may have been meant for others.

        >>> faxpages.open("samples/three-pages.tif").page(0).resolution_given
        True
        """
        return self.fax._gives_resolution(self.number)

    @property
    def received(self) -> Received:
        """What the receiver of the page counted of bad rows. The file's directories are followed up to the page each time
        that it is asked for; no row is looked at.

        >>> faxpages.open("samples/received/over-a-noisy-line.tif").page(0).received.bad_rows is None
        True
        """
        return received(self.fax._data, self.number)

    def packed(self, partial: bool = False) -> bytes:
        """The bytes of all rows, one after another, each (width + 7) // 8 long.

        >>> faxpages.open("samples/three-pages.tif").page(1).packed()
        b'\\x18\\xfc\\x00'
        """
        return self._read(partial)[0]

    def raster(self, partial: bool = False) -> Raster:
        """The rows in one block of bytes, with the page's resolution. Where it is damaged and partial is True, lost
        says how many rows it lacks, and fault why.

        >>> damaged = faxpages.open("samples/three-pages.tif").page(2).raster(partial=True)
        >>> damaged.rows, damaged.lost, damaged.packed, damaged.fault
        (1, 1, b'\\x18', DataEnds('page 2 row 1: DataEnds'))
        """
        packed, fault = self._read(partial)
        rows = len(packed) // ((self.width + 7) // 8)
        return Raster(self.width, rows, packed, self.x, self.y, self.unit, self.rows - rows, fault)

    def array(self, partial: bool = False) -> Array:
        """The rows as an array of numpy, which has to be installed: see Raster.array. numpy.asarray(page) is the same.

        >>> faxpages.open("samples/three-pages.tif").page(1).array().shape
        (3, 1)
        """
        return self.raster(partial).array()

    def __array__(self, dtype: Any = None, copy: Optional[bool] = None) -> Any:
        found: Any = self.array()
        return found.astype(dtype or found.dtype, copy=bool(copy))

    def image(self, partial: bool = False) -> Image:
        """The page as an image of Pillow, which has to be installed: see Raster.image. Of a damaged page it has the
        rows before the fault alone, and info["lost"] says how many it lacks.

        >>> fax = faxpages.open("samples/three-pages.tif")
        >>> fax.page(1).image().size
        (8, 3)
        >>> image = fax.page(2).image(partial=True)
        >>> image.size, image.info["lost"]
        ((8, 1), 1)
        """
        raster = self.raster(partial)
        image = raster.image()
        if raster.lost:
            image.info["lost"] = raster.lost
        return image

    def salvaged(self) -> Salvaged:
        """The readable rows of a damaged page, those between two EOLs, and each stretch of lost rows, with the name of
        its fault. It takes memory for all rows that the form says.

        >>> [stretch.first for stretch in faxpages.open("samples/damaged-fourth-page.tif")[3].salvaged().lost]
        [5]
        """
        like = Raster(self.width, 0, b"", self.x, self.y, self.unit)
        return salvage_page(self.fax._data, self.number, self.rows, like)

    def salvaged_rows(self) -> Iterator[Union[Row, Stretch]]:
        """The same, one after another from the top down: a Row for each row that is found, and a Stretch for those that
        are lost. It takes memory for some thousand rows, however many the form says, and no row is read twice.

        >>> for left in faxpages.open("samples/three-pages.tif").page(2).salvaged_rows():
        ...     print(left)
        Row(page=2, number=0, width=8, packed=b'\\x18')
        Stretch(first=1, rows=1, name='DataEnds')
        """
        return salvaged_rows(self.fax._data, self.number, self.width)

    def _read(self, partial: bool) -> Tuple[bytes, Optional[Fault]]:
        """The bytes of the rows before a fault, and the fault, if it is not to be raised."""
        pieces: List[bytes] = []
        try:
            for batch, first, end in self._ahead.spans(self.fax._data, self.number, self.rows):
                pieces.append(batch.bytes_of(first, end))
        except Fault as fault:
            if not partial:
                raise
            return b"".join(pieces), fault
        return b"".join(pieces), None


class Fax(Sequence[Page]):
    """A file of fax pages, in memory. open makes one.

    It is a sequence of its pages: an iteration reads the directories as it goes, and len(), a negative index and a
    slice without an end read them all. A fault is raised after the pages before it; a page that is not there is an
    OutsideError, which is an IndexError too.

    Its bytes never change, and threads may share it, each with iterators of its own. Two are equal where their bytes
    are; it is pickled with them.

    >>> fax = faxpages.open("samples/damaged-fourth-page.tif")
    >>> len(fax), fax[-1].number, [page.number for page in fax[1:3]]
    (4, 3, [1, 2])
    >>> fax[4]
    Traceback (most recent call last):
    faxpages.faults.OutsideError: the file has no page 4
    >>> fax.n_frames
    Traceback (most recent call last):
    AttributeError: a Fax has no 'n_frames': len(fax) is how many pages it has
    """

    def __init__(self, data: ReadableBuffer) -> None:
        self._data = own(data)
        self._by_number = _ByNumber(self._data)
        self._length: Optional[int] = None

    def __enter__(self) -> "Fax":
        return self

    def __exit__(self, *_: object) -> None:
        self._by_number = _ByNumber(self._data)

    def __eq__(self, other: object) -> bool:
        return isinstance(other, Fax) and self._data == other._data

    def __hash__(self) -> int:
        return hash(self._data)

    def __repr__(self) -> str:
        return f"<faxpages.Fax of {len(self._data)} bytes>"

    def __reduce__(self) -> Tuple[Any, ...]:
        return type(self), (self._data,)

    def __bool__(self) -> bool:
        """Always true: a fax has a page, or a fault in its place. Nothing is read for this."""
        return True

    def __len__(self) -> int:
        if self._length is None:
            self._length = _count(self._data)
        return self._length

    def _gives_resolution(self, page: int) -> bool:
        """Whether the directory of a page gives a resolution."""
        kept = self._by_number.directories
        return kept.gives_resolution(first_of(kept.entries(page)))

    def __iter__(self) -> Iterator[Page]:
        return self.pages

    @overload
    def __getitem__(self, index: SupportsIndex) -> Page: ...

    @overload
    def __getitem__(self, index: slice) -> List[Page]: ...

    def __getitem__(self, index: Union[SupportsIndex, slice]) -> Union[Page, List[Page]]:
        if isinstance(index, slice):
            return self._slice(index)
        number = operator.index(index)
        if number < 0:
            number += len(self)
        if not 0 <= number <= MOST:
            raise OutsideError(f"the file has no page {operator.index(index)}")
        return self.page(number)

    def _slice(self, wanted: slice) -> List[Page]:
        """The pages of a slice; where it has an end, and goes from the front, the pages after it are not looked at."""
        bounds = [0 if bound is None else operator.index(bound) for bound in (wanted.start, wanted.stop, wanted.step)]
        from_front = min(bounds) >= 0 and wanted.stop is not None
        found: List[Page] = []
        for number in range(bounds[1] if from_front else len(self))[wanted]:
            try:
                found.append(self.page(number))
            except OutsideError:
                break
        return found

    @property
    def pages(self) -> Iterator[Page]:
        """The pages in order, each time by an iterator of its own. A fault is raised after the pages before it.

        >>> [page.coding for page in faxpages.open("samples/three-pages.tif").pages]
        ['mh', 'mmr', 'mh']
        """
        forms, ahead = _Forms(self._data), Ahead()
        for number in itertools.count():
            form, why = forms.at(number)
            if form is None:
                if why:
                    raise why
                return
            yield self._page(number, form, ahead)

    @property
    def forms(self) -> Iterator[Page]:
        """The pages in order, as pages: each says its form, and no row is read for that.

        >>> [(form.width, form.rows) for form in faxpages.open("samples/three-pages.tif").forms]
        [(8, 1), (8, 3), (8, 2)]
        """
        return self.pages

    if not TYPE_CHECKING:
        def __getattr__(self, name: str) -> NoReturn:
            hint = _GUESSED.get(name)
            raise AttributeError(f"a Fax has no {name!r}{': ' + hint if hint else ''}")

    def page(self, number: SupportsIndex) -> Page:
        """A page by its number. The file's directories are followed up to it, unless it comes soon after the last one
        that this thread has asked for.

        >>> faxpages.open("samples/three-pages.tif").page(2).rows
        2
        """
        number, kept = number_of("number", number), self._by_number
        form, why = kept.forms.at(number)
        if form is None:
            if why is None or isinstance(why, OutsideError):
                raise OutsideError(f"the file has no page {number}")
            raise why
        return self._page(number, form, kept.ahead)

    def _page(self, number: int, form: _c.Form, ahead: Ahead) -> Page:
        if form.coding not in CODINGS:
            raise FaxError(f"libfaxpages answered with the unknown coding {form.coding}")
        made = Page(
            self, number, form.width, form.rows, CODINGS[form.coding], form.order, bool(form.aligned),
            bool(form.exchanged), form.rows_per_strip, form.strips, fraction(form.x_numerator, form.x_denominator),
            fraction(form.y_numerator, form.y_denominator), form.unit)
        object.__setattr__(made, "_ahead", ahead)
        return made

    def rows(self, cursor: Optional[Cursor] = None) -> Iterator[Row]:
        """All rows from a cursor on, page by page. A fault is raised after the rows before it.

        >>> fax = faxpages.open("samples/three-pages.tif")
        >>> [(row.page, row.number) for row in fax.rows(faxpages.Cursor(1, 2))]
        Traceback (most recent call last):
        faxpages.faults.DataEnds: page 2 row 1: DataEnds: A strip ends before its rows do: the sender ...
        """
        return self._rows_from(a_cursor(Cursor() if cursor is None else cursor))

    def _rows_from(self, after: Cursor) -> Iterator[Row]:
        ended = False
        while not ended:
            batch = read(self._data, after, ROWS)
            after, ended = batch.after, batch.ended
            yield from batch.rows()
            if batch.stopped:
                raise batch.stopped

    def read_rows(self, cursor: Cursor, most: SupportsIndex) -> Tuple[List[Row], Cursor]:
        """At most as many rows as are asked for, from a cursor on, and the cursor after them, from which no row is
        read again. A fault is raised if no row was read before it.

        >>> fax = faxpages.open("samples/three-pages.tif")
        >>> rows, after = fax.read_rows(faxpages.Cursor(1, 2), 10)
        >>> [(row.page, row.number) for row in rows], after.page, after.row
        ([(1, 2), (2, 0)], 2, 1)
        """
        found: List[Row] = []
        cursor = a_cursor(cursor)
        left, ended = number_of("most", most, most=sys.maxsize), False
        while left and not ended:
            batch = read(self._data, cursor, left)
            cursor, ended = batch.after, batch.ended
            found += batch.rows()
            left -= batch.size
            if batch.stopped and not found:
                raise batch.stopped
        return found, cursor

    def check(self) -> Report:
        """Reads all rows, and reports on the file: see the function check.

        >>> faxpages.open("samples/one-mh-page.tif").check().rows
        1
        """
        return check(self._data)

    def convert(self, target: str, order: SupportsIndex = 1, k: SupportsIndex = 4,
                strip: Optional[SupportsIndex] = None, align: bool = False) -> bytes:
        """The file turned into another: see the function convert.

        >>> faxpages.open("samples/one-mh-page.tif").convert("pbm")
        b'P4\\n8 1\\n\\x18'
        """
        return convert(self._data, target, order, k, strip, align)

    def salvaged_file(self, target: str, order: SupportsIndex = 1, k: SupportsIndex = 4,
                      strip: Optional[SupportsIndex] = None, align: bool = False) -> Optional[bytes]:
        """A damaged file as a new one, as by `faxpages salvage -o`: the rows that are found, and white ones in place
        of lost rows, which TIFF-F counts in the fields 326 to 328. Pages without a form are left out; if none has one
        it is None. The words are those of convert.

        >>> damaged = faxpages.open("samples/three-pages.tif")
        >>> mended = faxpages.open(damaged.salvaged_file("mmr"))
        >>> mended[2].packed(), mended[2].received.bad_rows
        (b'\\x18\\x00', 1)
        """
        return salvaged_file(self._data, target, order, k, strip, align)


def open(source: Source) -> Fax:  # pylint: disable=redefined-builtin
    """Opens a file of fax pages, by its path; by its bytes, or whatever lends them, such as a mmap or an array; or by a
    file object that is open for bytes, which is read from its current position on. The file is read whole.

    >>> with faxpages.open("samples/one-mh-page.tif") as fax:
    ...     len(fax)
    1
    >>> import io
    >>> faxpages.open(io.BytesIO(b"II*"))[0]
    Traceback (most recent call last):
    faxpages.faults.ShortHeader: page 0 row 0: ShortHeader: The file has fewer than eight bytes.
    """
    return Fax(bytes_of(source))
