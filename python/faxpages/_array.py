# mypy: disable-error-code="import"
# pyright: reportMissingImports=false
"""Rasters as arrays of numpy, which is looked for only where one is made."""

from __future__ import annotations

from typing import TYPE_CHECKING, Any, Iterable

if TYPE_CHECKING:
    import numpy
    from numpy.typing import NDArray

    from ._raster import Raster
    from ._salvaged import Stretch

    Array = NDArray[numpy.uint8]
    Mask = NDArray[numpy.bool_]
else:
    Array = Mask = Any


def array_of(raster: Raster) -> Array:
    """The array of a raster, without a copy."""
    import numpy

    return numpy.frombuffer(raster.packed, numpy.uint8).reshape(raster.rows, raster.stride)


def mask_of(rows: int, lost: Iterable[Stretch]) -> Mask:
    """An array of a bool for each of so many rows: whether it is lost."""
    import numpy

    mask = numpy.zeros(rows, numpy.bool_)
    for stretch in lost:
        mask[stretch.first:stretch.last + 1] = True
    return mask
