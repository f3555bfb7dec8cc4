"""What the receivers of pages counted of bad rows."""

from __future__ import annotations

from dataclasses import dataclass
from typing import Optional

from . import _library as _c
from ._told import stopped
from .faults import OutsideError


@dataclass(frozen=True)
class Received:
    """What the receiver of a page counted of bad rows, those that it could not read, by three fields of TIFF-F (RFC
    2306). A number is None where the page has no such field, or one that is neither SHORT nor LONG, or whose first value
    lies outside the file.

    bad_rows is how many rows were bad (326, BadFaxLines); clean is 0 where no row was bad, 1 where some were and the
    receiver put other rows in their places, and 2 where bad rows stand in the data (327, CleanFaxData); consecutive is
    how many bad rows came one after another, at most (328, ConsecutiveBadFaxLines). Receivers need not count, and may
    count too few.

    >>> faxpages.open("samples/three-pages.tif").page(0).received
    Received(bad_rows=None, clean=None, consecutive=None)
    """

    bad_rows: Optional[int]
    clean: Optional[int]
    consecutive: Optional[int]


def received(data: bytes, page: int) -> Received:
    """What the receiver of a page of a file counted."""
    its = _c.Received()
    status = _c.library.faxpages_received(data, len(data), page, its)
    if status != _c.DONE:
        raise stopped(status, its.fault) or OutsideError(f"the file has no page {page}")
    return Received(
        its.bad_rows if its.has_bad_rows else None, its.clean if its.has_clean else None,
        its.consecutive if its.has_consecutive else None)
