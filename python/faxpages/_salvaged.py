"""The readable rows of damaged pages and strips, those between two EOLs, and the stretches of lost rows."""

from __future__ import annotations

import ctypes
from dataclasses import dataclass
from typing import Any, NamedTuple, Optional, Tuple

from . import _library as _c
from ._array import Mask, mask_of
from ._image import Image, salvaged_image_of
from ._raster import Raster
from ._told import fault_of, name_of, refusal


class Stretch(NamedTuple):
    """Rows that are lost one after another: the first one's number, how many they are, and the name of the first one's
    fault.

    >>> faxpages.Stretch(first=3, rows=2, name="BadCode").last
    4
    """

    first: int
    rows: int
    name: str

    @property
    def last(self) -> int:
        """The number of the last one.

        >>> faxpages.Stretch(0, 1, "MissingEol").last
        0
        """
        return self.first + self.rows - 1

    @property
    def fault(self) -> str:
        """The name of the first one's fault, as name.

        >>> faxpages.Stretch(0, 1, "MissingEol").fault
        'MissingEol'
        """
        return self.name


@dataclass(frozen=True)
class Salvaged:
    """A salvaged page or strip: a raster of all its rows, with lost ones white, and the stretches of lost rows, from
    the top down. No row is invented, copied or guessed.

    >>> left = faxpages.open("samples/three-pages.tif").page(2).salvaged()
    >>> left.raster.packed, left.lost
    (b'\\x18\\x00', (Stretch(first=1, rows=1, name='DataEnds'),))
    """

    raster: Raster
    lost: Tuple[Stretch, ...]
    # At unknown height: whether an end mark follows the rows, and the name of the fault with which they end, if any.
    end_mark: bool = False
    fault: Optional[str] = None

    @property
    def width(self) -> int:
        """The pels of a row, as those of the raster.

        >>> faxpages.open("samples/three-pages.tif").page(2).salvaged().width
        8
        """
        return self.raster.width

    @property
    def packed(self) -> bytes:
        """The bytes of all rows, as those of the raster.

        >>> faxpages.open("samples/three-pages.tif").page(2).salvaged().packed
        b'\\x18\\x00'
        """
        return self.raster.packed

    def is_lost(self, row: int) -> bool:
        """Whether a row is lost, by its number.

        >>> left = faxpages.open("samples/three-pages.tif").page(2).salvaged()
        >>> left.is_lost(0), left.is_lost(1)
        (False, True)
        """
        return any(stretch.first <= row <= stretch.last for stretch in self.lost)

    @property
    def found(self) -> int:
        """How many rows are found.

        >>> faxpages.open("samples/three-pages.tif").page(2).salvaged().found
        1
        """
        return self.raster.rows - sum(stretch.rows for stretch in self.lost)

    @property
    def ok(self) -> bool:
        """Whether no row is lost.

        >>> faxpages.open("samples/three-pages.tif").page(1).salvaged().ok
        True
        """
        return not self.lost

    def mask(self) -> Mask:
        """Which rows are lost, as an array of numpy, which has to be installed: a bool for each row of raster.array().

        >>> faxpages.open("samples/three-pages.tif").page(2).salvaged().mask().tolist()
        [False, True]
        """
        return mask_of(self.raster.rows, self.lost)

    def image(self) -> Image:
        """An image of Pillow, which has to be installed: mode L, black on white, with grey where rows are lost.

        >>> image = faxpages.open("samples/three-pages.tif").page(2).salvaged().image()
        >>> image.mode, list(image.tobytes())[3:9]
        ('L', [0, 0, 255, 255, 255, 170])
        """
        return salvaged_image_of(self.raster, self.lost)


def salvage_page(data: bytes, page: int, rows: int, like: Raster) -> Salvaged:
    """Salvages a page of a file, whose form has so many rows and is otherwise like this raster."""
    return salvaged(
        like, rows,
        lambda *rooms: _c.library.faxpages_salvage(data, len(data), page, _c.Form(), *rooms))


def salvaged(like: Raster, rows: int, call: Any) -> Salvaged:
    """What a call leaves in a raster of so many rows, and in a table that has room for all stretches that these can
    have."""
    left = _Left(like.stride, rows, call)
    if left.status == _c.FAULT:
        raise fault_of(left.told.fault)
    if left.status != _c.DONE:
        raise refusal(left.status)
    return Salvaged(left.raster(like), left.stretches())


def salvaged_uncounted(like: Raster, call: Any) -> Salvaged:
    """The same at unknown height: a call without room says how many rows there are."""
    left = _Left(like.stride, 0, call)
    if left.status == _c.NO_ROOM:
        left = _Left(like.stride, left.told.row, call)
    if left.status not in (_c.END, _c.DATA_END, _c.FAULT):
        raise refusal(left.status)
    fault = name_of(left.told.fault.number) if left.status == _c.FAULT else None
    return Salvaged(left.raster(like), left.stretches(), left.status == _c.END, fault)


class _Left:
    """What one call left in rooms for so many rows, and how it ended."""

    def __init__(self, stride: int, rows: int, call: Any) -> None:
        size, most = rows * stride, (rows + 1) // 2
        self._rows, self._out, self._lost = rows, ctypes.create_string_buffer(size), (_c.Lost * most)()
        self.told = _c.Told()
        self.status = call(self._out, size, stride, self._lost, most, self.told)

    def raster(self, like: Raster) -> Raster:
        return Raster(like.width, self._rows, self._out.raw, like.x, like.y, like.unit)

    def stretches(self) -> Tuple[Stretch, ...]:
        lost = self._lost[:self.told.used]
        names = {it.fault: name_of(it.fault) for it in lost}
        return tuple(Stretch(it.row, it.rows, names[it.fault]) for it in lost)
