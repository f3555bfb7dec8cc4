"""Conversions."""

from __future__ import annotations

import ctypes
from typing import Callable, Optional, SupportsIndex, Tuple

from . import _library as _c
from ._source import Source, bytes_of
from ._told import choice_of, name_of, number_of, stopped
from .faults import FaxError, OutputTooLarge, PbmFault, UnknownInput

# The greatest output of a conversion.
_OUTPUT = 1 << 28
_TARGETS = {"pbm": 0, "mh": 1, "mr": 2, "mmr": 3}


def convert(source: Source, target: str, order: SupportsIndex = 1, k: SupportsIndex = 4,
            strip: Optional[SupportsIndex] = None, align: bool = False) -> bytes:
    """Turns a file of pages, TIFF-F or raw PBM, into another: target is "pbm", "mh", "mr" or "mmr".

    order is 1 to write the highest bit of a byte first, and 2 to write the lowest first; in "mr" one row in every k is
    coded by itself; strip is the number of rows in a strip, and with None a page is one strip; align ends each EOL of
    "mh" and "mr" on a byte boundary.

    >>> faxpages.convert("samples/one-mh-page.tif", "pbm")
    b'P4\\n8 1\\n\\x18'
    >>> faxpages.open(faxpages.convert(b"P4 8 2\\n8\\xff", "mmr", strip=1)).page(0).strips
    2
    """
    options = _options(target, order, k, strip, align)
    status, converted, output = _written(_c.library.faxpages_convert, bytes_of(source), options)
    if status != _c.DONE:
        raise _not_converted(status, converted)
    return output


def salvaged_file(data: bytes, target: str, order: SupportsIndex, k: SupportsIndex, strip: Optional[SupportsIndex],
                  align: bool) -> Optional[bytes]:
    """The pages of a damaged file, as a new file; None where no page has a form."""
    options = _options(target, order, k, strip, align)
    status, converted, output = _written(_c.library.faxpages_salvage_convert, data, options)
    if status not in (_c.DONE, _c.END):
        raise _not_converted(status, converted)
    return output if status == _c.DONE else None


def _options(target: str, order: SupportsIndex, k: SupportsIndex, strip: Optional[SupportsIndex],
             align: bool) -> _c.Options:
    return _c.Options(
        choice_of("target", target, _TARGETS), number_of("order", order, 1, 2), number_of("k", k, 1),
        0 if strip is None else number_of("strip", strip, 1), bool(align))


def _written(call: Callable[..., int], data: bytes, options: _c.Options) -> Tuple[int, _c.Converted, bytes]:
    """The status of a call that writes a file, what it says of it, and the file's bytes."""
    converted = _c.Converted()
    room = min(2 * len(data) + 4096, _OUTPUT)
    while True:
        out = ctypes.create_string_buffer(room)
        status = call(data, len(data), options, out, room, converted)
        if status != _c.NO_ROOM:
            return status, converted, ctypes.string_at(out, converted.len)
        room = converted.len


def _not_converted(status: int, converted: _c.Converted) -> Exception:
    if status == _c.BAD_OPTIONS:
        return ValueError("align is for targets with EOLs: mh and mr")
    number = converted.fault.number
    if number == 301:
        return UnknownInput("the input is neither raw PBM nor TIFF")
    if number == 302:
        return OutputTooLarge("the output is too large")
    if number > 200:
        return PbmFault(name_of(number), converted.image)
    return stopped(status, converted.fault) or FaxError("libfaxpages converted nothing")
