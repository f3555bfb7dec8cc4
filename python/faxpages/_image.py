# mypy: disable-error-code="import"
# pyright: reportMissingImports=false
"""Rasters as images of Pillow, which is looked for only where one is made."""

from __future__ import annotations

from typing import TYPE_CHECKING, Any, Iterable

if TYPE_CHECKING:
    from PIL.Image import Image as Image

    from ._raster import Raster
    from ._salvaged import Stretch
else:
    Image = Any

# What a row that is lost is drawn with, of 0 for black to 255 for white.
GREY = 170


def image_of(raster: Raster) -> Image:
    """The image of a raster, black on white."""
    from PIL.Image import frombytes, new

    size = raster.width, raster.rows
    # Pillow makes no image of no bytes before 9.5.
    image = frombytes("1", size, raster.packed, "raw", "1;I") if raster.rows else new("1", size)
    if raster.dpi is not None:
        image.info["dpi"] = raster.dpi
    return image


def salvaged_image_of(raster: Raster, lost: Iterable[Stretch]) -> Image:
    """The image of a raster of which rows are lost: black on white, and these grey."""
    black_on_white = image_of(raster)
    image = black_on_white.convert("L")
    image.info.update(black_on_white.info)
    for stretch in lost:
        image.paste(GREY, (0, stretch.first, raster.width, stretch.last + 1))
    return image
