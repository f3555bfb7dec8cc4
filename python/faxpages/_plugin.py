"""Pillow refuses damaged faxes, where it is asked to."""

from __future__ import annotations

import importlib
from typing import Any


def register() -> None:
    """Has Pillow, which has to be installed, refuse damaged faxes in TIFF files from now on.

    Files are opened, decoded and saved by Pillow's own reader of TIFF, as before, and only where a frame is a fax
    (Compression 2, 3 or 4, in strips, up to 65,535 pels wide and 1,000,000 rows high) faxpages reads its data first.
    Damage is an OSError that names the page, the row and the fault. load, and whatever loads, raises it for its frame;
    n_frames, and seek to a frame that is not there, raise it if a directory is damaged; and verify reads all pages, and
    raises it for any of them. What takes the data out of the file without Pillow, as img2pdf does, is not checked: call
    verify before. PIL.TiffImagePlugin.TiffImageFile(name) asks for Pillow's reader alone.

    >>> faxpages.register()
    >>> from PIL import Image
    >>> image = Image.open("samples/damaged-fourth-page.tif")
    >>> image.format, image.n_frames, image.mode, image.info["dpi"]
    ('TIFF', 4, '1', (204.0, 196.0))
    >>> image.seek(3)
    >>> image.load()
    Traceback (most recent call last):
    OSError: page 3 row 5: OutOfRow: A vertical mode leads out of the row, or back.
    """
    pillow, reader = _module("PIL.Image"), _module("PIL.TiffImagePlugin")
    _, accepts = pillow.OPEN[reader.TiffImageFile.format]
    pillow.register_open(reader.TiffImageFile.format, _module("faxpages._tiff").TiffImageFile, accepts)


def _module(name: str) -> Any:
    """A module that needs Pillow."""
    return importlib.import_module(name)
