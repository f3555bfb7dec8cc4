"""Checks, and what they find."""

from __future__ import annotations

from dataclasses import dataclass
from typing import Optional, Tuple

from . import _library as _c
from ._source import Source, bytes_of
from ._told import fault_of, note_name, refusal
from .faults import Fault


@dataclass(frozen=True)
class Note:
    """What may trouble other readers of a page, or of one of its strips if strip is not None. The name is 'Unknown' where
    a later library reports a note by a number that it has no name for.

    >>> note = faxpages.check("samples/return-to-control.tif").notes[0]
    >>> note
    Note(page=0, strip=0, number=2, name='ReturnToControl')
    >>> print(note)
    page 0 strip 0: N2 ReturnToControl
    """

    page: int
    strip: Optional[int]
    number: int
    name: str

    def __str__(self) -> str:
        strip = "" if self.strip is None else f" strip {self.strip}"
        return f"page {self.page}{strip}: N{self.number} {self.name}"


@dataclass(frozen=True)
class Report:
    """What a check found up to the first fault: how many pages were read wholly, how many rows, the notes, and the
    fault, which is not raised, or None.

    >>> faxpages.check("samples/three-pages.tif")
    Report(pages=2, rows=5, notes=(), fault=DataEnds('page 2 row 1: DataEnds'))
    """

    pages: int
    rows: int
    notes: Tuple[Note, ...]
    fault: Optional[Fault]

    @property
    def ok(self) -> bool:
        """Whether there is no fault.

        >>> faxpages.check("samples/one-mh-page.tif").ok
        True
        """
        return self.fault is None


def check(source: Source) -> Report:
    """Reads all rows of a file up to its first fault, and reports what may trouble other readers.

    >>> report = faxpages.check("samples/damaged-fourth-page.tif")
    >>> report.pages, report.rows, report.fault.line
    (3, 38, 'page 3 row 5: OutOfRow')
    """
    data, report = bytes_of(source), _c.Report()
    notes = (_c.Note * 64)()
    status = _c.library.faxpages_check(data, len(data), notes, len(notes), report)
    if status in (_c.END, _c.FAULT) and report.notes > len(notes):
        notes = (_c.Note * report.notes)()
        status = _c.library.faxpages_check(data, len(data), notes, len(notes), report)
    if status not in (_c.END, _c.FAULT):
        raise refusal(status)
    found = tuple(
        Note(note.page, None if note.strip == _c.NO_STRIP else note.strip, note.kind, note_name(note.kind))
        for note in notes[:report.notes])
    return Report(report.pages, report.rows, found, fault_of(report.fault) if status == _c.FAULT else None)
