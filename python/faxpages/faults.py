"""The exceptions of faxpages: one for each fault of a file."""

from __future__ import annotations

from typing import Any, Dict, Optional, Tuple, Type


# What each fault means, as docs/TROUBLESHOOTING.md has it: by its name, or by its name and the tag of its field.
_MEANINGS: Dict[str, str] = {
    "ShortHeader": "The file has fewer than eight bytes.",
    "ByteOrder": "It begins with neither II nor MM: not a TIFF file.",
    "Magic": "The number after the byte order is not 42: not a TIFF file, or BigTIFF.",
    "NoDirectory": "The header names no page.",
    "DirectoryOutside": "A page's directory lies outside the file: usually the end of the file is missing.",
    "DirectoryLoop": "A directory is followed by itself or an earlier one. All pages come before the fault.",
    "MissingField 273": "No strips are named: usually a page of tiles.",
    "MissingField": "The field with this tag is missing.",
    "BadField": "The field is neither SHORT nor LONG, has too few values in the file, or is a RowsPerStrip of 0.",
    "Unsupported 259": "Another compression than 3 (MH, MR) or 4 (MMR).",
    "Unsupported": "A field has a value that no fax page has.",
    "OutOfLimits": "The page is empty, wider than 65,535 pels or longer than 1,000,000 rows.",
    "StripOutside": "A strip lies outside the file: usually the end of the file is missing.",
    "DataEnds": "A strip ends before its rows do: the sender was cut off, or the page is shorter than it says.",
    "BadCode": "The next bits are neither a code nor the beginning of one.",
    "Extension": "An extension of T.4 or T.6, such as uncompressed mode, which is not read.",
    "RunTooLong": "A run passes the width of the page.",
    "OutOfRow": "A vertical mode leads out of the row, or back.",
    "MissingEol": "No EOL stands before the row, in MH or MR.",
    "EndMarker": "Eleven zeros, as in an end mark, stand in place of a row: the page may be shorter than it says.",
    "TooManyRows": "A strip of unknown height has more than 1,000,000 rows.",
}


class FaxError(Exception):
    """What faxpages raises, except for MemoryError, what Python raises when it reads or writes files, and the
    ValueError or TypeError of what is handed in.

    >>> try:
    ...     faxpages.open("samples/three-pages.tif")[2].packed()
    ... except faxpages.FaxError as error:
    ...     print(error)
    page 2 row 1: DataEnds: A strip ends before its rows do: the sender was cut off, or the page is shorter ...
    """


class OutsideError(FaxError, IndexError):
    """A page, a row or a cursor is outside the file.

    >>> faxpages.open("samples/one-mh-page.tif").page(1)
    Traceback (most recent call last):
    faxpages.faults.OutsideError: the file has no page 1
    """


class NotACursorError(FaxError, ValueError):
    """A text is not that of a cursor.

    >>> faxpages.Cursor.parse("1:2")
    Traceback (most recent call last):
    faxpages.faults.NotACursorError: not a cursor: '1:2'
    """


class ConversionError(FaxError):
    """A file is not converted, but not because its pages have a fault.

    >>> issubclass(faxpages.PbmFault, faxpages.ConversionError)
    True
    """


class UnknownInput(ConversionError):
    """The input is neither raw PBM nor TIFF.

    >>> faxpages.convert(b"GIF89a", "mmr")
    Traceback (most recent call last):
    faxpages.faults.UnknownInput: the input is neither raw PBM nor TIFF
    """


class OutputTooLarge(ConversionError):
    """The output would have more than 268,435,456 bytes, or a TIFF file more than 65,535 pages.

    >>> faxpages.encode([faxpages.Raster(8, 1, b"\\0")] * 65536)
    Traceback (most recent call last):
    faxpages.faults.OutputTooLarge: a file has at most 65535 pages
    """


class PbmFault(ConversionError):
    """An image of a raw PBM is refused.

    image is its number, from 0; name is the fault's. Two of one name and image are equal.

    >>> faxpages.convert(b"P4 8 2 \\0", "mmr")
    Traceback (most recent call last):
    faxpages.faults.PbmFault: image 0: ShortRaster
    """

    def __init__(self, name: str, image: int) -> None:
        super().__init__(f"image {image}: {name}")
        self.name = name
        self.image = image

    def _words(self) -> Tuple[Any, ...]:
        return self.name, self.image

    def __reduce__(self) -> Tuple[Any, ...]:
        return type(self), self._words(), self.__dict__

    def __eq__(self, other: object) -> bool:
        return isinstance(other, PbmFault) and (type(self), self._words()) == (type(other), other._words())

    def __hash__(self) -> int:
        return hash(self._words())


class Fault(FaxError):
    """The first fault of a file: no row after it is handed out. Each kind has a class of its own. Two of one kind,
    page, row and tag are equal.

    page and row, both from 0, are those that were due at the fault: row 0 for a fault of the header, of a directory
    or of a field. name is the fault's, and tag that of the field at fault (TIFF 6.0), or None. line has these as the
    program faxpages prints them after "fault", and explanation says in a sentence what the fault means; the text of the
    fault has both.

    >>> fault = faxpages.check(b"II*\\0\\x08\\0\\0\\0" + bytes(6)).fault
    >>> fault.name, fault.page, fault.row, fault.tag
    ('MissingField', 0, 0, 256)
    >>> fault.line, fault.explanation
    ('page 0 row 0: MissingField 256', 'The field with this tag is missing.')
    >>> print(fault)
    page 0 row 0: MissingField 256: The field with this tag is missing.
    """

    def __init__(self, name: str, page: int, row: int, tag: Optional[int] = None) -> None:
        super().__init__(f"page {page} row {row}: {name}" + (f" {tag}" if tag is not None else ""))
        self.name = name
        self.page = page
        self.row = row
        self.tag = tag

    @property
    def line(self) -> str:
        """Its page, row, name and tag, as the program faxpages prints them after "fault"."""
        return f"page {self.page} row {self.row}: {self.name}" + (f" {self.tag}" if self.tag is not None else "")

    @property
    def explanation(self) -> str:
        """What it means, in a sentence."""
        of_all = _MEANINGS.get(self.name, "A fault of a later version.")
        return _MEANINGS.get(f"{self.name} {self.tag}", of_all)

    def __str__(self) -> str:
        return f"{self.line}: {self.explanation}"

    def _words(self) -> Tuple[Any, ...]:
        return self.name, self.page, self.row, self.tag

    def __reduce__(self) -> Tuple[Any, ...]:
        return type(self), self._words(), self.__dict__

    def __eq__(self, other: object) -> bool:
        return isinstance(other, Fault) and (type(self), self._words()) == (type(other), other._words())

    def __hash__(self) -> int:
        return hash(self._words())


class FileFault(Fault):
    """A fault of the header, of a directory, of a field or of a strip's place.

    >>> isinstance(faxpages.check(b"").fault, faxpages.FileFault)
    True
    """


class StripFault(Fault):
    """A fault of the data of a strip.

    >>> isinstance(faxpages.check_strip(b"").fault, faxpages.StripFault)
    True
    """


class ShortHeader(FileFault):
    """The file has fewer than eight bytes.

    >>> faxpages.open(b"II*").page(0)
    Traceback (most recent call last):
    faxpages.faults.ShortHeader: page 0 row 0: ShortHeader: The file has fewer than eight bytes.
    """


class ByteOrder(FileFault):
    """It begins with neither II nor MM: not a TIFF file.

    >>> faxpages.open(b"GIF89a..").page(0)
    Traceback (most recent call last):
    faxpages.faults.ByteOrder: page 0 row 0: ByteOrder: It begins with neither II nor MM: not a TIFF file.
    """


class Magic(FileFault):
    """The number after the byte order is not 42: not a TIFF file, or BigTIFF.

    >>> faxpages.open(b"II+\\0\\x08\\0\\0\\0").page(0)
    Traceback (most recent call last):
    faxpages.faults.Magic: page 0 row 0: Magic: The number after the byte order is not 42: not a TIFF file, or BigTIFF.
    """


class NoDirectory(FileFault):
    """The header names no page.

    >>> faxpages.open(b"II*\\0\\0\\0\\0\\0").page(0)
    Traceback (most recent call last):
    faxpages.faults.NoDirectory: page 0 row 0: NoDirectory: The header names no page.
    """


class DirectoryOutside(FileFault):
    """A page's directory lies outside the file: usually the end of the file is missing.

    >>> faxpages.open(b"II*\\0\\x08\\0\\0\\0").page(0)
    Traceback (most recent call last):
    faxpages.faults.DirectoryOutside: page 0 row 0: DirectoryOutside: A page's directory lies outside the file: ...
    """


class DirectoryLoop(FileFault):
    """A directory is followed by itself or an earlier one. All pages come before the fault.

    >>> damaged = bytearray(open("samples/one-mh-page.tif", "rb").read())
    >>> damaged[206] = 12
    >>> len(faxpages.open(damaged))
    Traceback (most recent call last):
    faxpages.faults.DirectoryLoop: page 1 row 0: DirectoryLoop: A directory is followed by itself or an ...
    """


class MissingField(FileFault):
    """The field with this tag is missing.

    >>> faxpages.open(b"II*\\0\\x08\\0\\0\\0" + bytes(6)).page(0)
    Traceback (most recent call last):
    faxpages.faults.MissingField: page 0 row 0: MissingField 256: The field with this tag is missing.
    """


class BadField(FileFault):
    """The field is neither SHORT nor LONG, has too few values in the file, or is a RowsPerStrip of 0.

    >>> damaged = bytearray(open("samples/one-mh-page.tif", "rb").read())
    >>> damaged[136] = 2
    >>> faxpages.open(damaged).page(0)
    Traceback (most recent call last):
    faxpages.faults.BadField: page 0 row 0: BadField 279: The field is neither SHORT nor LONG, has too ...
    """


class Unsupported(FileFault):
    """A field has a value that no fax page has. 259 is another compression.

    >>> damaged = bytearray(open("samples/one-mh-page.tif", "rb").read())
    >>> damaged[70] = 5
    >>> faxpages.open(damaged).page(0)
    Traceback (most recent call last):
    faxpages.faults.Unsupported: page 0 row 0: Unsupported 259: Another compression than 3 (MH, MR) or 4 (MMR).
    """


class OutOfLimits(FileFault):
    """The page is empty, wider than 65,535 pels or longer than 1,000,000 rows.

    >>> damaged = bytearray(open("samples/one-mh-page.tif", "rb").read())
    >>> damaged[34] = 0
    >>> faxpages.open(damaged).page(0)
    Traceback (most recent call last):
    faxpages.faults.OutOfLimits: page 0 row 0: OutOfLimits 256: The page is empty, wider than 65,535 pels or ...
    """


class StripOutside(FileFault):
    """A strip lies outside the file: usually the end of the file is missing.

    >>> damaged = bytearray(open("samples/one-mh-page.tif", "rb").read())
    >>> damaged[107] = 1
    >>> faxpages.open(damaged)[0].packed()
    Traceback (most recent call last):
    faxpages.faults.StripOutside: page 0 row 0: StripOutside: A strip lies outside the file: usually the end of ...
    """


class DataEnds(StripFault):
    """A strip ends before its rows do: the sender was cut off, or the page is shorter than it says.

    >>> faxpages.strip(b"\\x80", width=8, rows=9)
    Traceback (most recent call last):
    faxpages.faults.DataEnds: page 0 row 1: DataEnds: A strip ends before its rows do: the sender was ...
    """


class BadCode(StripFault):
    """The next bits are neither a code nor the beginning of one.

    >>> faxpages.strip(b"\\x01", width=8)
    Traceback (most recent call last):
    faxpages.faults.BadCode: page 0 row 0: BadCode: The next bits are neither a code nor the beginning of one.
    """


class Extension(StripFault):
    """An extension of T.4 or T.6, such as uncompressed mode, which is not read.

    >>> faxpages.strip(b"\\x03\\x80", width=8)
    Traceback (most recent call last):
    faxpages.faults.Extension: page 0 row 0: Extension: An extension of T.4 or T.6, such as uncompressed mode, ...
    """


class RunTooLong(StripFault):
    """A run passes the width of the page.

    >>> faxpages.strip(b"\\x27\\x80", width=8)
    Traceback (most recent call last):
    faxpages.faults.RunTooLong: page 0 row 0: RunTooLong: A run passes the width of the page.
    """


class OutOfRow(StripFault):
    """A vertical mode leads out of the row, or back.

    >>> faxpages.strip(b"\\x60", width=8)
    Traceback (most recent call last):
    faxpages.faults.OutOfRow: page 0 row 0: OutOfRow: A vertical mode leads out of the row, or back.
    """


class MissingEol(StripFault):
    """No EOL stands before the row, in MH or MR.

    >>> faxpages.strip(b"\\x9a\\x68", width=8, coding="mh", rows=2)
    Traceback (most recent call last):
    faxpages.faults.MissingEol: page 0 row 1: MissingEol: No EOL stands before the row, in MH or MR.
    """


class EndMarker(StripFault):
    """Eleven zeros, as in an end mark, stand in place of a row: the page may be shorter than it says.

    >>> faxpages.strip(b"\\0\\x10\\x01", width=8, rows=1)
    Traceback (most recent call last):
    faxpages.faults.EndMarker: page 0 row 0: EndMarker: Eleven zeros, as in an end mark, stand in place ...
    """


class TooManyRows(StripFault):
    """A strip of unknown height has more than 1,000,000 rows.

    >>> faxpages.strip(bytes([255] * 125001), width=8)
    Traceback (most recent call last):
    faxpages.faults.TooManyRows: page 0 row 1000000: TooManyRows: A strip of unknown height has more than ...
    """


# The faults by their numbers, which never change.
BY_NUMBER: Dict[int, Type[Fault]] = {
    1: ShortHeader,
    2: ByteOrder,
    3: Magic,
    4: NoDirectory,
    5: DirectoryOutside,
    6: DirectoryLoop,
    7: MissingField,
    8: BadField,
    9: Unsupported,
    10: OutOfLimits,
    11: StripOutside,
    101: DataEnds,
    102: BadCode,
    103: Extension,
    104: RunTooLong,
    105: OutOfRow,
    106: MissingEol,
    107: EndMarker,
    108: TooManyRows,
}
