"""Fax pages in TIFF-F files: read, checked, converted and written, through libfaxpages.

    import faxpages

    with faxpages.open("fax.tif") as fax:
        print(len(fax))
        for page in fax:
            print(page.number, page.width, page.rows, page.coding, page.dpi)
            for row in page:
                print(row.number, row.runs())

A file is read whole when it is opened, by its path, by its bytes or whatever lends them, or by a file object. Pages and
rows are numbered from 0, and a Fax is a sequence of its pages. Everything returned before a fault is right; the fault
is raised when you ask for what comes next, each kind as its own exception, with the page, the row, its name, the tag of
the field at fault, and a sentence that says what it means:

    try:
        rows = sum(1 for row in fax.rows())
    except faxpages.DataEnds as fault:
        print(fault.explanation, "It is page", fault.page, "row", fault.row)
    except faxpages.Fault as fault:
        print(fault.name)

A page in one piece is bytes, a Raster that lends them, an array of numpy without a copy, or an image of Pillow;
everything else works without numpy and Pillow. A damaged page raises its fault, or with partial=True has the rows
before it:

    page.packed(); page.raster(); page.array(); page.image()
    part = page.raster(partial=True)
    print(part.rows, "rows, and", part.lost, "are lost:", part.fault)

Rows after the fault are salvaged if they are between two EOLs, as by `faxpages salvage`; lost rows are white in the
raster, grey in the image, and listed:

    left = page.salvaged()
    for stretch in left.lost:
        print("rows", stretch.first, "to", stretch.last, "are lost:", stretch.name)
    left.image().save("page.png")

All pages so, in a new file, as by `faxpages salvage -o`:

    mended = fax.salvaged_file("mmr")

The bad rows that the receiver of a page counted are in fields of the page, if it wrote them:

    if page.received.bad_rows:
        print(page.received.bad_rows, "rows of page", page.number, "were bad when it was received")

Files are written from pages, rasters, images, arrays or rows, and T.4 or T.6 data with no file around it is read, at
once or as it comes, coded and checked:

    faxpages.write(fax[1:], "copy.tif", coding="mh")
    data = faxpages.encode([image, array], dpi=(204, 98))
    image = faxpages.strip(data_of_a_pdf, width=1728, rows=2292).image()

After faxpages.register() Pillow works as before, but a damaged fax in a TIFF file is an error.

A number that is out of range is a ValueError, and anything but a number, or a text, where one is needed is a TypeError.
A number is whatever can be an index of a list, so True is 1.

Threads may share everything that the module returns, except iterators and a StripReader, and read at the same time: the
library does not hold Python's lock. An iterator is for one thread: a shared one may raise a ValueError, as Python's own
do, and never harms memory. So give each thread its own iterator, or pass pages to threads:

    with concurrent.futures.ThreadPoolExecutor() as pool:
        counts = list(pool.map(count_black, fax))

Everything else can be pickled and copied, faults too, and sent to other processes and back: what comes back is equal
to what was sent. A Fax is pickled with all bytes of its file, whether it was opened by a path or by bytes, and a Page
with its Fax: to save that, send a path and the number of a page. Instead of an iterator, send a Cursor. A process that
has threads should start others by spawn or forkserver, not by fork.

With files from strangers: a page takes memory for the rows that were read, whatever its form says, so check page.rows
and page.width before you ask for it whole. check and convert read all rows of all pages.
"""

from __future__ import annotations

import ctypes

from . import _library as _c
from ._convert import convert
from ._cursor import Cursor
from ._fax import Fax, Page, open
from ._pages import Writable
from ._plugin import register
from ._raster import Raster
from ._received import Received
from ._report import Note, Report, check
from ._rows import Row
from ._salvaged import Salvaged, Stretch
from ._source import Source
from ._strips import StripReader, StripReport, check_strip, salvage_strip, strip
from ._writing import encode, encode_strip, write
from .faults import (
    BadCode, BadField, ByteOrder, ConversionError, DataEnds, DirectoryLoop, DirectoryOutside, EndMarker, Extension,
    Fault, FaxError, FileFault, Magic, MissingEol, MissingField, NoDirectory, NotACursorError, OutOfLimits, OutOfRow,
    OutputTooLarge, OutsideError, PbmFault, RunTooLong, ShortHeader, StripFault, StripOutside, TooManyRows,
    UnknownInput, Unsupported)

__version__ = "1.15.0"
__all__ = [
    "open", "check", "convert", "write", "encode", "strip", "check_strip", "encode_strip", "salvage_strip", "register",
    "version",
    "Source", "Writable", "Fax", "Page", "Row", "Raster", "Cursor", "Note", "Received", "Report", "Salvaged",
    "Stretch", "StripReader", "StripReport",
    "FaxError", "Fault", "FileFault", "StripFault", "OutsideError", "NotACursorError", "ConversionError", "PbmFault",
    "UnknownInput", "OutputTooLarge",
    "BadCode", "BadField", "ByteOrder", "DataEnds", "DirectoryLoop", "DirectoryOutside", "EndMarker", "Extension",
    "Magic", "MissingEol", "MissingField", "NoDirectory", "OutOfLimits", "OutOfRow", "RunTooLong", "ShortHeader",
    "StripOutside", "TooManyRows", "Unsupported"]


def version() -> str:
    """The version of libfaxpages, as "1.15.0". That of this module is faxpages.__version__.

    >>> faxpages.version().count(".")
    2
    """
    text = ctypes.create_string_buffer(32)
    length = _c.library.faxpages_version_text(text, 32)
    return text.raw[:length].decode()
