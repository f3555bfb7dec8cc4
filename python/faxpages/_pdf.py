# mypy: disable-error-code="import,attr-defined"
# pyright: reportMissingImports=false
"""Pages of a PDF that are images of T.4 or T.6 data, for faxpages-from-pdf --as-is: it has poppler's pdfimages take out
the data and the pictures, and pikepdf tells the entries of the PDF. Only that script imports this: it needs pikepdf."""

from __future__ import annotations

import sys
from fractions import Fraction
from typing import Any, List, NamedTuple, Sequence, Tuple, Union, overload

import pikepdf

from ._convert import convert
from ._fax import Fax
from ._raster import Raster
from ._strips import strip
from ._writing import write
from .faults import FaxError, MissingEol

# Black and white exchanged.
_EXCHANGED = bytes(255 - byte for byte in range(256))


class Refused(Exception):
    """Why a PDF is not taken as it is."""


class _Image(NamedTuple):
    """An image, as pdfimages -list has it: its page from 1, its number from 0, its rows, and the object that it is, or
    none where it stands in the page's text; its resolution in pels of a row and rows in an inch."""

    page: int
    number: int
    rows: int
    is_fax: bool
    at: Tuple[int, ...]
    dpi: Tuple[int, int]


class _Entries(NamedTuple):
    """The entries of CCITTFaxDecode that say how rows are coded."""

    k: int
    columns: int
    rows: int
    has_eols: bool
    is_aligned: bool
    has_end_mark: bool

    @classmethod
    def of(cls, told: Any) -> _Entries:
        """Those of an image, where what is absent has the value that PDF gives it."""
        return cls(
            int(told.get("/K", 0)), int(told.get("/Columns", 1728)), int(told.get("/Rows", 0)),
            bool(told.get("/EndOfLine", False)), bool(told.get("/EncodedByteAlign", False)),
            bool(told.get("/EndOfBlock", True)))

    @property
    def coding(self) -> str:
        """The coding by K."""
        return "mmr" if self.k < 0 else "mr" if self.k else "mh"

    @property
    def not_taken(self) -> str:
        """The kind that is not read as it is, or nothing."""
        if self.coding == "mmr" and self.has_eols:
            return "MMR with EOLs (K below 0, EndOfLine true)"
        return "MR without EOLs (K above 0, EndOfLine false)" if self.coding == "mr" and not self.has_eols else ""


def images_of(listed: str) -> List[_Image]:
    """The images that pdfimages -list prints, after two lines."""
    found = []
    for line in listed.splitlines()[2:]:
        page, number, _, _, rows, _, _, _, kind, _, *rest = line.split()
        at = () if rest[0] == "[inline]" else (int(rest[0]), int(rest[1]))
        across, down = rest[len(at) or 1:][:2]
        found.append(_Image(int(page), int(number), int(rows), kind == "ccitt", at, (int(across), int(down))))
    return found


class Pages(Sequence[Raster]):
    """The pages of a PDF, each read when it is asked for, of what pdfimages has written into a folder: list, data and
    image."""

    def __init__(self, pdf: Any, folder: str) -> None:
        with open(f"{folder}/list", encoding="utf-8", errors="replace") as listed:
            self._images = images_of(listed.read())
        self._pdf, self._folder = pdf, folder
        pages = [image.page if image.is_fax else 0 for image in self._images]
        for page in range(1, max(len(pages), len(pdf.pages)) + 1):
            if page > len(pdf.pages) or pages[page - 1:page] != [page]:
                raise Refused(f"page {page} is not one image of fax data")

    def __len__(self) -> int:
        return len(self._images)

    @overload
    def __getitem__(self, index: int) -> Raster: ...

    @overload
    def __getitem__(self, index: slice) -> Sequence[Raster]: ...

    def __getitem__(self, index: Union[int, slice]) -> Union[Raster, Sequence[Raster]]:
        if isinstance(index, slice):
            return [self[number] for number in range(len(self))[index]]
        image = self._images[index]
        entries = _Entries.of(self._parameters_of(image))
        try:
            return self._raster(image, entries)
        except FaxError as error:
            if entries.not_taken and (entries.coding == "mmr" or isinstance(error, MissingEol)):
                raise Refused(
                    f"page {image.page} is {entries.not_taken}, which is not taken as it is: leave out --as-is, and it "
                    "is drawn") from error
            raise Refused(f"page {image.page} does not show the rows of its data: {error}") from error

    def _raster(self, image: _Image, entries: _Entries) -> Raster:
        """The rows of an image. Which of its pels are black is told by its picture, for BlackIs1 and all else."""
        if not entries.has_end_mark and 0 < entries.rows < image.rows:
            raise Refused(f"page {image.page} shows {image.rows} rows, and its data have {entries.rows}")
        data, picture = self._read(f"data-{image.number:03}.ccitt"), self._read(f"image-{image.number:03}.pbm")
        read = strip(data, entries.columns, image.rows, entries.coding, byte_align=entries.is_aligned,
                     eols=entries.coding != "mh" or entries.has_eols)
        shown = _raster_of(picture)
        if read not in (shown, _raster_of(picture, True)):
            raise Refused(f"page {image.page} does not show the rows of its data")
        # pdfimages prints 0 where a pel has no size.
        (x, y), unit = (image.dpi, 2) if all(image.dpi) else ((1, 1), 1)
        return Raster(shown.width, shown.rows, shown.packed, Fraction(x), Fraction(y), unit)

    def _read(self, name: str) -> bytes:
        with open(f"{self._folder}/{name}", "rb") as file:
            return file.read()

    def _parameters_of(self, image: _Image) -> Any:
        """What stands in the PDF beside the filter of the data."""
        if image.at:
            found = [pikepdf.PdfImage(self._pdf.get_object(image.at))]
        else:
            drawn = pikepdf.parse_content_stream(self._pdf.pages[image.page - 1])
            found = [it.iimage for it in drawn if isinstance(it, pikepdf.ContentStreamInlineImage)]
        if len(found) != 1 or not found[0].decode_parms:
            raise Refused(f"page {image.page} is not one image of fax data")
        return found[0].filter_decodeparms[-1][1] or {}


def _raster_of(picture: bytes, exchanged: bool = False) -> Raster:
    """The pels of a raw PBM, as they are, or with black and white exchanged."""
    head, size, pels = picture.split(b"\n", 2)
    return Fax(convert(b"\n".join([head, size, pels.translate(_EXCHANGED) if exchanged else pels]), "mmr"))[0].raster()


def main(words: Sequence[str]) -> int:
    """Writes the pages of a PDF as a fax: PDF, the folder of what pdfimages has written, and the fax."""
    pdf, folder, fax = words
    try:
        # By a file, as pikepdf takes no name that is not UTF-8.
        with open(pdf, "rb") as file, pikepdf.open(file) as opened:
            write(Pages(opened, folder), fax)
    except (Refused, FaxError, OSError, pikepdf.PdfError) as error:
        print(error, file=sys.stderr)
        return 1
    return 0
