"""Rows in one block of bytes."""

from __future__ import annotations

from dataclasses import dataclass, field
from fractions import Fraction
from numbers import Rational, Real
from typing import Dict, Optional, Tuple, Union

from ._array import Array, array_of
from ._image import Image, image_of
from ._source import own
from ._told import MOST, number_of
from .faults import Fault

MOST_WIDTH, MOST_ROWS = 65535, 1000000
_CENTIMETRES = 2.54
# Pels or rows in a unit.
Number = Union[int, float, Rational]


def resolution(number: Number) -> Fraction:
    """A fraction of numbers that TIFF has room for."""
    if not isinstance(number, Real):
        raise TypeError(f"a resolution must be a number, not {type(number).__name__}")
    try:
        found = Fraction(number if isinstance(number, Rational) else float(number))
    except OverflowError:
        raise ValueError("a resolution must be above 0, and below 2 ** 32") from None
    if found.numerator > MOST or found.denominator > MOST:
        found = found.limit_denominator(1000000)
    if not 0 < found <= MOST or found.numerator > MOST:
        raise ValueError("a resolution must be above 0, and below 2 ** 32")
    return found


def dpi_of(x: Fraction, y: Fraction, unit: int) -> Optional[Tuple[float, float]]:
    """The pels of a row and the rows in an inch, where the unit is a length."""
    if unit not in (2, 3):
        return None
    factor = 1 if unit == 2 else _CENTIMETRES
    return float(x) * factor, float(y) * factor


@dataclass(frozen=True)
class Raster:
    """Rows of one width, one after another in one block of bytes.

    Each row has stride bytes, which are (width + 7) // 8: the highest bit first, 1 for black, with zeros after the last
    pel. width is 1 to 65,535, and rows 0 to 1,000,000. x and y are the resolution, in pels of a row and rows in a unit:
    1 none, 2 inch, 3 centimetre; where none is given it is 204 by 196 an inch, that of a fine fax. Where a page was
    read with partial=True, lost says how many rows it lacks after these, and fault why, or None.

    numpy.asarray(raster) is an array of the packed bytes, rows by stride, without a copy; and so is memoryview(raster)
    from Python 3.12 on.

    >>> raster = faxpages.Raster(width=12, rows=2, packed=bytes([0xFF, 0xF0, 0x80, 0x10]))
    >>> raster.stride, raster.dpi, raster.lost
    (2, (204.0, 196.0), 0)
    >>> faxpages.Raster(12, 2, b"")
    Traceback (most recent call last):
    ValueError: 2 rows of 12 pels have 4 bytes, not 0
    """

    width: int
    rows: int
    packed: bytes = field(repr=False)
    x: Fraction = Fraction(204)
    y: Fraction = Fraction(196)
    unit: int = 2
    lost: int = 0
    fault: Optional[Fault] = None

    def __post_init__(self) -> None:
        kept = {
            "width": number_of("width", self.width, 1, MOST_WIDTH), "rows": number_of("rows", self.rows, 0, MOST_ROWS),
            "unit": number_of("unit", self.unit, 1, 3), "x": resolution(self.x), "y": resolution(self.y),
            "packed": own(self.packed)}
        for name, value in kept.items():
            object.__setattr__(self, name, value)
        wanted, found = self.rows * self.stride, len(self.packed)
        if found != wanted:
            raise ValueError(f"{self.rows} rows of {self.width} pels have {wanted} bytes, not {found}")

    @property
    def stride(self) -> int:
        """The bytes of a row.

        >>> faxpages.Raster(1728, 0, b"").stride
        216
        """
        return (self.width + 7) // 8

    @property
    def dpi(self) -> Optional[Tuple[float, float]]:
        """The pels of a row and the rows in an inch; None where there is no unit.

        >>> faxpages.Raster(8, 0, b"", x=100, y=50, unit=3).dpi
        (254.0, 127.0)
        """
        return dpi_of(self.x, self.y, self.unit)

    @property
    def __array_interface__(self) -> Dict[str, object]:
        return {"version": 3, "typestr": "|u1", "shape": (self.rows, self.stride), "data": self.packed}

    def __buffer__(self, _flags: int) -> memoryview:
        view = memoryview(self.packed)
        return view.cast("B", (self.rows, self.stride)) if self.rows else view

    def array(self) -> Array:
        """The packed bytes as an array of numpy, which has to be installed: rows by stride, not to be written, without
        a copy. numpy.unpackbits(array, axis=1, count=width) are the pels, 1 for black.

        >>> faxpages.open("samples/three-mmr-rows.tif").page(0).raster().array().tolist()
        [[24], [252], [0]]
        """
        return array_of(self)

    def image(self) -> Image:
        """An image of Pillow, which has to be installed: mode 1, black on white, with its resolution as info["dpi"].

        >>> image = faxpages.open("samples/three-mmr-rows.tif").page(0).raster().image()
        >>> image.mode, image.size, image.info["dpi"]
        ('1', (8, 3), (204.0, 196.0))
        """
        return image_of(self)
