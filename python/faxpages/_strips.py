"""Strips: rows of T.4 or T.6 data without a file around them."""

from __future__ import annotations

import collections
import ctypes
from dataclasses import dataclass
from typing import Any, Deque, Iterator, List, NamedTuple, NoReturn, Optional, SupportsIndex, Tuple

from . import _library as _c
from ._raster import MOST_ROWS, MOST_WIDTH, Raster
from ._report import Note
from ._rows import Row
from ._salvaged import Salvaged, salvaged, salvaged_uncounted
from ._source import ReadableBuffer, own
from ._told import choice_of, fault_of, note_name, number_of, refusal
from ._writing import CODINGS
from .faults import Fault

# The most bytes of a strip, and how many bytes of rows are read at a time.
MOST_BYTES, _BYTES = 536870911, 1 << 20
# This many bytes hold the codes of any row of an ordinary width: one that is not whole in so many is read again from its
# beginning as long as that reads no more bytes than _AGAIN for each that was fed, so that bytes that come one by one are
# read in a time in proportion to their number.
_TRIED, _AGAIN = 4096, 256
# How many bytes of zeros before an EOL are kept: it has eleven zeros, and any more are fill.
_FILL = 2
# The faults of a row that is cut, and of too many rows, as of faxpages.h.
_DATA_ENDS, _TOO_MANY_ROWS = 101, 108


def _form(width: SupportsIndex, rows: Optional[SupportsIndex], coding: str, order: SupportsIndex) -> _c.Strip:
    """The form of a strip, with 0 rows if the height is unknown."""
    return _c.Strip(
        number_of("width", width, 1, MOST_WIDTH), 0 if rows is None else number_of("rows", rows, 1, MOST_ROWS),
        choice_of("coding", coding, CODINGS), number_of("order", order, 1, 2), 0)


class _Read(NamedTuple):
    """Rows that one call has read, and how it ended."""

    packed: bytes
    status: int
    fault: _c.Fault


class _Strip:
    """A strip that is read from a place on, which is kept. It is for one thread."""

    def __init__(self, form: _c.Strip, byte_align: bool, eols: bool) -> None:
        self.form, self.stride = form, (form.width + 7) // 8
        self.place, self._runs = _c.Place(), (_c.U32 * _c.RUNS)()
        self._out = ctypes.create_string_buffer(self.stride)
        # How many rows were read before this strip's rows are counted anew, which they are where they have no EOLs.
        self.due = 0
        self._byte_align, self._eols = byte_align, eols

    def read(self, data: bytes, more: bool = False) -> _Read:
        """The next rows, some thousands at most; where more data may follow, those that are the same whatever it is."""
        # A row has at least one bit.
        left = 8 * len(data) - self.place.bits + 1
        most = 1 if self._byte_align or not self._eols else max(1, min(left, _BYTES // self.stride))
        room = min(most, max(1, (self.form.rows or MOST_ROWS + 1) - self.due)) * self.stride
        if room > len(self._out):
            self._out = ctypes.create_string_buffer(room)
        told = _c.Told()
        if self._byte_align:
            self.place.bits += -self.place.bits % 8
        if not self._eols:
            self.place.row = 0
        call = _c.library.faxpages_strip_part if more else _c.library.faxpages_strip_rows
        status = call(data, len(data), self.form, self.place, self._runs, _c.RUNS, self._out, room, self.stride, told)
        if status not in (_c.DONE, _c.END, _c.FAULT, _c.DATA_END, _c.MORE):
            raise refusal(status)
        self.due += told.count
        told.fault.row = self.due
        if not self._eols:
            status = self._end_bare(data, status, told)
        if status == _c.DONE and self.due == self.form.rows:
            status = _c.END
        return _Read(ctypes.string_at(self._out, told.used), status, told.fault)

    def read_all(self, data: bytes) -> Tuple[bytes, _Read]:
        """All rows, and the last reading, which says why no more follow."""
        packed: List[bytes] = []
        while True:
            read = self.read(data)
            packed.append(read.packed)
            if read.status != _c.DONE:
                return b"".join(packed), read

    def _end_bare(self, data: bytes, status: int, told: _c.Told) -> int:
        """How a call ends for rows without EOLs, each of which the library takes for a strip's first."""
        if status == _c.FAULT and told.fault.number == _DATA_ENDS and not self.form.rows and self.due:
            return _c.DATA_END if self.is_blank(data) else status
        if self.due > MOST_ROWS:
            self.due -= 1
            told.used, told.fault = 0, _c.Fault(_TOO_MANY_ROWS, 0, 0, self.due)
            return _c.FAULT
        return status

    def is_blank(self, data: bytes) -> bool:
        """Whether no 1 stands in the data from the place on."""
        at, bits = divmod(self.place.bits, 8)
        if at >= len(data):
            return True
        first = data[at] & (0xFF >> bits if self.form.order == 1 else 0xFF << bits & 0xFF)
        return first == 0 and not data[at + 1:].strip(b"\0")


def strip(data: ReadableBuffer, width: SupportsIndex = 1728, rows: Optional[SupportsIndex] = None,
          coding: str = "mmr", order: SupportsIndex = 1, byte_align: bool = False, eols: bool = True,
          partial: bool = False) -> Raster:
    """The rows of T.4 or T.6 data that has no file around it, as on a line or in a PDF (CCITTFaxDecode).

    coding is "mh", "mr" or "mmr" (K 0, above 0, below 0 in a PDF); order is 1 if the highest bit of a byte is first,
    and 2 if the lowest is. If rows is None, there are up to 1,000,000 of them, which end at the end mark (EOFB, RTC), or
    with the data, if only zeros remain after a whole row: check_strip says which it is. Otherwise there
    must be as many as it says. eols=False says that rows in "mh" have no EOL before
    them (EndOfLine false), and byte_align that each row begins on a byte boundary (EncodedByteAlign). If rows have
    EOLs, byte_align changes nothing: zeros before an EOL are fill, however many, and the row begins right after it.
    Rows in "mmr" that are aligned, and those without EOLs, are read one a call, which takes longer.

    If the data are damaged the fault is raised, with page 0. With partial=True the raster reports it, whose rows are
    those before it; lost says how many are missing if rows is known.

    >>> raster = faxpages.strip(b"\\x80\\x08\\x00\\x80", width=8)
    >>> raster.rows, raster.packed
    (1, b'\\x00')
    >>> faxpages.strip(b"\\x80\\x08\\x00\\x80", width=8, rows=2)
    Traceback (most recent call last):
    faxpages.faults.EndMarker: page 0 row 1: EndMarker: Eleven zeros, as in an end mark, stand in place ...
    """
    if not eols and coding != "mh":
        raise ValueError("eols=False is for mh alone")
    own_data = own(data)
    if len(own_data) > MOST_BYTES:
        raise ValueError(f"a strip has at most {MOST_BYTES} bytes")
    has_eols = eols and coding != "mmr"
    reader = _Strip(_form(width, rows, coding, order), byte_align and not has_eols, eols)
    packed, read = reader.read_all(own_data)
    fault = None
    if read.status == _c.FAULT:
        fault = fault_of(read.fault)
        if not partial:
            raise fault
    return Raster(
        reader.form.width, reader.due, packed, lost=0 if rows is None else reader.form.rows - reader.due,
        fault=fault)


def salvage_strip(data: ReadableBuffer, width: SupportsIndex = 1728, *, rows: Optional[SupportsIndex] = None,
                  coding: str = "mr", order: SupportsIndex = 1) -> Salvaged:
    """Salvages T.4 or T.6 data that has no file around it. The arguments are those of strip. If the height is unknown,
    the rows go up to an end mark, to the end of the data, or to a lost row after which no EOL remains, and the raster
    has room for all of them: 3 MB of data can have 1,000,000 rows.

    >>> data = b"\\x00\\x19\\x80\\x0f\\x00\\x19\\x80"
    >>> faxpages.salvage_strip(data, width=8, rows=3, coding="mh").lost
    (Stretch(first=1, rows=1, name='BadCode'),)
    >>> left = faxpages.salvage_strip(data, width=8, coding="mh")
    >>> left.raster.rows, left.lost, left.end_mark, left.fault
    (3, (Stretch(first=1, rows=1, name='BadCode'),), False, None)
    """
    own_data = own(data)
    if len(own_data) > MOST_BYTES:
        raise ValueError(f"a strip has at most {MOST_BYTES} bytes")
    form = _form(width, rows, coding, order)
    like = Raster(form.width, 0, b"")

    def call(*rooms: Any) -> int:
        return int(_c.library.faxpages_salvage_strip(own_data, len(own_data), form, *rooms))

    return salvaged_uncounted(like, call) if rows is None else salvaged(like, form.rows, call)


class StripReader:
    """Reads T.4 or T.6 data that comes in pieces, as a server receives it. It is for one thread.

    feed takes bytes; an iteration returns the rows that are complete by then and were not returned before; close says
    that no more bytes come. An iteration raises the fault of the next row. If that row is cut, an iteration before
    close ends there, since more bytes may come; after close it raises DataEnds. A row of more than 4,096 bytes that
    come in pieces of less than a 256th of it may be returned so many bytes later, and so may the rows after it; without
    such bytes it is returned after close. width, coding, order and rows are as for strip.

    >>> data = faxpages.encode_strip(faxpages.open("samples/three-mmr-rows.tif")[0], coding="mr", order=2)
    >>> reader, found = faxpages.StripReader(width=8, coding="mr", order=2), []
    >>> for byte in data:
    ...     reader.feed(bytes([byte]))
    ...     found += [row.runs() for row in reader]
    >>> reader.close()
    >>> found + list(reader), reader.rows, reader.ended
    ([[3, 2, 3], [0, 6, 2], [8]], 3, True)
    """

    def __init__(self, width: SupportsIndex = 1728, coding: str = "mmr", order: SupportsIndex = 1,
                 rows: Optional[SupportsIndex] = None) -> None:
        self._strip = _Strip(_form(width, rows, coding, order), False, True)
        self._has_eols = coding != "mmr"
        self._ready: Deque[Row] = collections.deque()
        # What was fed and is not read yet; the beginning of it that is being read; how much was read that ends in a row;
        # and how many bytes more may be read again.
        self._fed, self._seen, self._tried, self._again = bytearray(), b"", 0, 0
        self._closed, self._ended, self._fault = False, False, None  # type: bool, bool, Optional[Fault]
        self._told = False
        self._given = 0

    @property
    def rows(self) -> int:
        """How many rows were given.

        >>> faxpages.StripReader().rows
        0
        """
        return self._given

    @property
    def ended(self) -> bool:
        """Whether the strip has ended: at its end mark, at the last of its rows, or after close, and its rows were
        given; or at a fault, which was raised.

        >>> reader = faxpages.StripReader(width=8)
        >>> reader.feed(b"\\x80\\x08\\x00\\x80")
        >>> [len(list(reader)), reader.ended]
        [1, True]
        """
        return (self._ended or self._told) and not self._ready

    def feed(self, data: ReadableBuffer) -> None:
        """Takes more bytes. What comes after the end of the strip, or after its fault, is left out.

        >>> faxpages.StripReader().feed(b"\\x00")
        """
        if self._closed:
            raise ValueError("the reader is closed")
        if not self._ended and not self._fault:
            piece = own(data)
            self._fed += piece
            self._again += _AGAIN * len(piece)
            self._read_on()

    def close(self) -> None:
        """Says that no more bytes come.

        >>> reader = faxpages.StripReader(width=8, coding="mh")
        >>> reader.feed(b"\\x00\\x13")
        >>> list(reader)
        []
        >>> reader.close()
        >>> list(reader)
        Traceback (most recent call last):
        faxpages.faults.DataEnds: page 0 row 0: DataEnds: A strip ends before its rows do: the sender ...
        """
        self._closed = True
        self._read_on()

    def __iter__(self) -> Iterator[Row]:
        self._read_on()
        while self._ready:
            self._given += 1
            row = self._ready.popleft()
            self._read_on()
            yield row
        if self._fault:
            self._told = True
            raise self._fault

    def __reduce__(self) -> NoReturn:
        raise TypeError("a StripReader cannot be copied, as an iterator cannot")

    def _read_on(self) -> None:
        """Reads rows of what was fed where none is ready, so that what has ended is known."""
        while not self._ready and not self._ended and not self._fault and self._may_read():
            self._read_fed()

    def _may_read(self) -> bool:
        """Whether there is something to read that was not read yet, and may be."""
        is_new = self._tried < len(self._fed) <= max(_TRIED, self._again)
        return bool(self._seen) or self._closed or is_new

    def _read_fed(self) -> None:
        """Reads rows of what was fed."""
        self._seen = self._seen or bytes(self._fed)
        first, width, stride = self._strip.due, self._strip.form.width, self._strip.stride
        read = self._strip.read(self._seen, not self._closed or len(self._seen) < len(self._fed))
        for at in range(0, len(read.packed), stride):
            self._ready.append(Row(0, first + at // stride, width, read.packed[at:at + stride]))
        if read.status == _c.MORE:
            self._drop_read()
        elif read.status != _c.DONE:
            self._fault = fault_of(read.fault) if read.status == _c.FAULT else None
            self._ended = not self._fault
            self._fed, self._seen = bytearray(), b""

    def _drop_read(self) -> None:
        """Drops the bytes that were read wholly."""
        used = self._strip.place.bits // 8
        del self._fed[:used]
        self._strip.place.bits -= 8 * used
        self._tried = max(0, len(self._seen) - used - self._drop_fill())
        if self._tried > _TRIED:
            self._again = max(0, self._again - self._tried)
        self._seen = b""

    def _drop_fill(self) -> int:
        """Drops zeros before an EOL that are more than it has. Answers how many bytes they were."""
        blank = len(self._fed) - 1 - len(self._fed[1:].lstrip(b"\0"))
        if not self._has_eols or blank <= _FILL or not self._strip.is_blank(bytes(self._fed[:1])):
            return 0
        del self._fed[1:1 + blank - _FILL]
        return blank - _FILL


@dataclass(frozen=True)
class StripReport:
    """What a check found in a strip: how many rows, whether its end mark stands after them, the notes, and the fault,
    which is not raised, or None.

    >>> faxpages.check_strip(b"\\x80\\x08\\x00\\x80", width=8)
    StripReport(rows=1, end_mark=True, notes=(), fault=None)
    """

    rows: int
    end_mark: bool
    notes: Tuple[Note, ...]
    fault: Optional[Fault]

    @property
    def ok(self) -> bool:
        """Whether there is no fault.

        >>> faxpages.check_strip(b"\\x00", width=8).ok
        False
        """
        return self.fault is None


def check_strip(data: ReadableBuffer, width: SupportsIndex = 1728, rows: Optional[SupportsIndex] = None,
                coding: str = "mmr", order: SupportsIndex = 1) -> StripReport:
    """Reads all rows of T.4 or T.6 data that has no file around it, and reports what stands after them. The words are
    those of strip. Where rows is None they are counted.

    >>> report = faxpages.check_strip(b"\\x80\\xff", width=8, rows=1)
    >>> [note.name for note in report.notes], report.end_mark
    (['NoEndOfBlock', 'DataAfterEnd'], False)
    """
    own_data, form, report = own(data), _form(width, rows, coding, order), _c.StripReport()
    if len(own_data) > MOST_BYTES:
        raise ValueError(f"a strip has at most {MOST_BYTES} bytes")
    status = _c.library.faxpages_strip_check(own_data, len(own_data), form, report)
    if status == _c.FAULT:
        return StripReport(report.rows, False, (), fault_of(report.fault))
    if status not in (_c.END, _c.DATA_END):
        raise refusal(status)
    kinds = report.no_end_of_block, report.return_to_control, report.data_after_end, report.not_t4_choice
    notes = tuple(Note(0, 0, number, note_name(number)) for number, noted in enumerate(kinds, 1) if noted)
    end_mark = not report.no_end_of_block if coding == "mmr" else bool(report.return_to_control)
    return StripReport(report.rows, end_mark, notes, None)
