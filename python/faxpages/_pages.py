"""What can be written as a page: pages, rasters, images of Pillow, arrays, and rows."""

from __future__ import annotations

import sys
from fractions import Fraction
from typing import Any, Iterable, List, Optional, Sequence, Tuple, Union

from ._fax import Page
from ._image import Image
from ._raster import Number, Raster, resolution
from ._rows import Row
from ._salvaged import Salvaged
from ._source import ArrayLike, ReadableBuffer

# A page to be written: a page of a file, what is left of one, a raster, an image of Pillow in mode 1, an array of two
# dimensions whose items are bools (rows by pels, True for black), or its rows.
Writable = Union[Page, Salvaged, Raster, Image, ReadableBuffer, ArrayLike, Sequence[Row]]
# The digits of a row's pels, by its bools, each of which is a byte: what is not 0 is true.
_DIGITS = b"0" + 255 * b"1"


def raster_of(page: Writable) -> Raster:
    """The raster of what is written as a page. A damaged page raises its fault."""
    if isinstance(page, Page):
        return page.raster()
    if isinstance(page, Salvaged):
        return page.raster
    if isinstance(page, Raster):
        return page
    if _is_image(page):
        return _of_image(page)
    if _is_array(page):
        return _of_bools(page)
    if isinstance(page, Iterable) and not isinstance(page, (str, bytes, bytearray)):
        rows = list(page)
        if all(isinstance(row, Row) for row in rows):
            return _of_rows(rows)
    raise TypeError("a page is a Page, a Salvaged, a Raster, an image of Pillow, an array of bools, or rows of one "
                    f"width, not {type(page).__name__}")


def with_dpi(raster: Raster, dpi: Union[None, Number, Tuple[Number, Number]]) -> Raster:
    """A raster with another resolution, in pels of a row and rows in an inch; or as it is."""
    if dpi is None:
        return raster
    x, y = dpi if isinstance(dpi, tuple) else (dpi, dpi)
    return Raster(raster.width, raster.rows, raster.packed, resolution(x), resolution(y), 2)


def _of_rows(rows: List[Row]) -> Raster:
    widths = {row.width for row in rows}
    if len(widths) != 1:
        raise ValueError("the rows of a page must have one width" if widths else "a page has at least one row")
    return Raster(widths.pop(), len(rows), b"".join(row.packed for row in rows))


def _is_image(page: object) -> bool:
    """Whether it is an image of Pillow: then that is imported."""
    pillow = sys.modules.get("PIL.Image")
    return pillow is not None and isinstance(page, pillow.Image)


def _of_image(image: Any) -> Raster:
    if image.mode != "1":
        raise ValueError(f'an image must have mode 1, not {image.mode}: see its method convert("1")')
    width, rows = image.size
    return with_dpi(Raster(width, rows, image.tobytes("raw", "1;I")), _dpi_of(image))


def _dpi_of(image: Any) -> Optional[Tuple[Fraction, Fraction]]:
    """The resolution that an image says, if it is one."""
    try:
        x, y = image.info["dpi"]
        return resolution(x), resolution(y)
    except (KeyError, TypeError, ValueError, ZeroDivisionError, OverflowError):
        return None


def _is_array(page: Any) -> bool:
    """Whether it lends items in two dimensions, as an array of numpy does."""
    try:
        with memoryview(page) as view:
            return view.ndim == 2
    except (TypeError, ValueError, BufferError):
        return False


def _of_bools(array: Any) -> Raster:
    with memoryview(array) as view:
        if view.format != "?":
            raise TypeError(
                f"an array must be of bools, True for black, not of format {view.format!r}; packed bytes are a Raster")
        shape: Any = view.shape
        rows, width = shape
        numpy = sys.modules.get("numpy")
        if numpy is not None:
            return Raster(width, rows, numpy.packbits(numpy.asarray(array), axis=1).tobytes())
        return Raster(width, rows, _packed(view.tobytes(), width))


def _packed(items: bytes, width: int) -> bytes:
    """Rows of pels, each a byte, as packed bytes."""
    stride, packed = (width + 7) // 8, bytearray()
    for at in range(0, len(items), width):
        digits = items[at:at + width].translate(_DIGITS)
        packed += (int(digits, 2) << 8 * stride - width).to_bytes(stride, "big")
    return bytes(packed)
