#!/usr/bin/env python3
# mypy: disallow-any-expr
"""Uses every public name of the Python module, for readers of types: mypy --strict finds nothing, and nothing is Any.

    typed.py FILE OTHER

FILE is whole, and OTHER damaged; FAXPAGES_LIBRARY names the library. Ends with 'typed: N passed, N failed', and says
which names are not used."""

from __future__ import annotations

import io
import sys
from fractions import Fraction
from typing import Callable, Dict, Iterator, List, Optional, Set, Tuple, Type

import faxpages

FAULTS: Dict[str, Type[faxpages.Fault]] = {
    "BadCode": faxpages.BadCode, "BadField": faxpages.BadField, "ByteOrder": faxpages.ByteOrder,
    "DataEnds": faxpages.DataEnds, "DirectoryLoop": faxpages.DirectoryLoop,
    "DirectoryOutside": faxpages.DirectoryOutside, "EndMarker": faxpages.EndMarker, "Extension": faxpages.Extension,
    "Magic": faxpages.Magic, "MissingEol": faxpages.MissingEol, "MissingField": faxpages.MissingField,
    "NoDirectory": faxpages.NoDirectory, "OutOfLimits": faxpages.OutOfLimits, "OutOfRow": faxpages.OutOfRow,
    "RunTooLong": faxpages.RunTooLong, "ShortHeader": faxpages.ShortHeader, "StripOutside": faxpages.StripOutside,
    "TooManyRows": faxpages.TooManyRows, "Unsupported": faxpages.Unsupported,
}


class Index:
    """What can be an index is a number."""

    def __index__(self) -> int:
        return 1


def of_page(page: faxpages.Page) -> Tuple[int, ...]:
    """The numbers of a page, and of its rows."""
    rows: List[faxpages.Row] = list(page)
    x: Fraction = page.x
    y: Fraction = page.y
    flags: Tuple[bool, bool] = page.aligned, page.exchanged
    coding: str = page.coding
    packed: bytes = page.packed()
    whole = packed == b"".join(row.packed for row in rows) and [row.page for row in rows] == len(page) * [page.number]
    fax: faxpages.Fax = page.fax
    received: faxpages.Received = page.received
    counted: List[Optional[int]] = [received.bad_rows, received.clean, received.consecutive]
    if counted != [None, None, None]:
        raise AssertionError("another receiver")
    return (page.number, page.width, page.rows, page.order, page.rows_per_strip, page.strips, page.unit, len(coding),
            sum(flags), int(x + y), int(whole), sum(row.number + row.width + len(row) for row in rows),
            sum(run for row in rows for run in row.runs()), len(fax.convert("mh")))


def of_cursors(fax: faxpages.Fax) -> faxpages.Cursor:
    """The cursor after a row, through its text."""
    batch: Tuple[List[faxpages.Row], faxpages.Cursor] = fax.read_rows(faxpages.Cursor(), 1)
    rows, cursor = batch
    again: faxpages.Cursor = faxpages.Cursor.parse(str(cursor))
    where: Tuple[int, int, bool] = again.page, again.row, again.inside_strip
    rest: Iterator[faxpages.Row] = fax.rows(cursor=again)
    if again != cursor or hash(again) != hash(cursor) or where[:2] == (0, 0) or len(rows) != 1 or next(rest) in rows:
        raise AssertionError("another cursor")
    return faxpages.Cursor(page=Index(), row=0)


def of_report(report: faxpages.Report) -> Optional[faxpages.Fault]:
    """The fault of a report."""
    counts: Tuple[int, int, bool] = report.pages, report.rows, report.ok
    notes: Tuple[faxpages.Note, ...] = report.notes
    lines: List[Tuple[int, Optional[int], int, str, str]] = [
        (note.page, note.strip, note.number, note.name, str(note)) for note in notes]
    if not counts[2] and report.fault is None or len(lines) > 1000:
        raise AssertionError("another report")
    return report.fault


def of_fault(fault: faxpages.Fault) -> Tuple[str, int, int, Optional[int]]:
    """What a fault tells."""
    kinds: Tuple[Type[faxpages.Fault], Type[faxpages.Fault]] = faxpages.FileFault, faxpages.StripFault
    if not isinstance(fault, kinds) or type(fault) is not FAULTS[fault.name]:
        raise AssertionError("another kind")
    return fault.name, fault.page, fault.row, fault.tag


def refused(work: Callable[[], object]) -> str:
    """Why something is refused."""
    try:
        work()
    except faxpages.PbmFault as fault:
        return f"{fault.name} {fault.image + 0}"
    except (faxpages.UnknownInput, faxpages.OutputTooLarge) as error:
        converts: faxpages.ConversionError = error
        return str(converts)
    except (faxpages.OutsideError, faxpages.NotACursorError) as error:
        any_error: faxpages.FaxError = error
        return str(any_error)
    return ""


def of_raster(raster: faxpages.Raster) -> bytes:
    """A raster, and what is coded of it."""
    size: Tuple[int, int, int] = raster.width, raster.rows, raster.stride
    resolution: Tuple[Fraction, Fraction, int] = raster.x, raster.y, raster.unit
    dpi: Optional[Tuple[float, float]] = raster.dpi
    lost: Tuple[int, Optional[faxpages.Fault]] = raster.lost, raster.fault
    again: faxpages.Raster = faxpages.Raster(*size[:2], packed=raster.packed, x=resolution[0], y=resolution[1])
    view: memoryview = raster.__buffer__(0)
    if again.dpi != dpi or lost != (0, None) or view.nbytes != size[1] * size[2]:
        raise AssertionError("another raster")
    return faxpages.encode_strip(again, coding="mr", order=2, k=Index(), align=True)


def of_salvaged(page: faxpages.Page, coded: bytes) -> int:
    """What is left of a page, and of a strip of as many rows in MR."""
    left: faxpages.Salvaged = page.salvaged()
    lost: Tuple[faxpages.Stretch, ...] = left.lost
    told: List[Tuple[int, int, int, str]] = [(it.first, it.rows, it.last, it.name) for it in lost]
    again: faxpages.Salvaged = faxpages.salvage_strip(
        coded, page.width, rows=left.raster.rows, coding="mr", order=2)
    ok: Tuple[bool, bool] = left.ok, again.ok
    if told or ok != (True, True) or again.found != left.found or again.raster.packed != left.raster.packed:
        raise AssertionError("something is lost")
    return left.found


def of_strips(raster: faxpages.Raster) -> int:
    """A strip that is coded, read at once and in pieces, and checked."""
    data: bytes = of_raster(raster)
    read: faxpages.Raster = faxpages.strip(data, raster.width, raster.rows, coding="mr", order=2, partial=True)
    part: bytes = faxpages.strip(memoryview(data), width=raster.width, coding="mr", order=2).packed
    reader: faxpages.StripReader = faxpages.StripReader(width=raster.width, coding="mr", order=2, rows=None)
    reader.feed(bytearray(data))
    reader.close()
    rows: List[faxpages.Row] = list(reader)
    report: faxpages.StripReport = faxpages.check_strip(data, width=raster.width, coding="mr", order=2)
    found: Tuple[int, bool, bool, Tuple[faxpages.Note, ...]] = report.rows, report.end_mark, report.ok, report.notes
    fault: Optional[faxpages.Fault] = report.fault
    ended: Tuple[int, bool] = reader.rows, reader.ended
    if read.packed != part or fault or ended != (len(rows), True) or found[0] != raster.rows:
        raise AssertionError("another strip")
    return len(rows)


def of_pages(fax: faxpages.Fax) -> int:
    """A fax as a sequence, and what is written of it."""
    first: faxpages.Page = fax[0]
    rest: List[faxpages.Page] = fax[1:]
    writable: List[faxpages.Writable] = [first, *rest, first.raster(), list(first)]
    data: bytes = faxpages.encode(writable, coding="mh", order=1, k=1, strip=Index(), align=True, dpi=(200, 100.5))
    out = io.BytesIO()
    faxpages.write(fax, out, coding="mr", dpi=Fraction(200))
    written: faxpages.Fax = faxpages.open(io.BytesIO(out.getvalue()))
    dpi: Optional[Tuple[float, float]] = written[0].dpi
    registers: Callable[[], None] = faxpages.register
    pages: int = len(faxpages.open(data)) + len(written)
    if of_salvaged(first, of_raster(first.raster())) != first.rows:
        raise AssertionError("another number of rows")
    if dpi != (200.0, 200.0) or not callable(registers) or first not in fax or of_strips(first.raster()) != first.rows:
        raise AssertionError("another file of pages")
    return pages


def whole(source: faxpages.Source) -> int:
    """Goes over a file that is whole."""
    with faxpages.open(source) as fax:
        if of_pages(fax) != 2 * len(fax) + 2:
            raise AssertionError("other pages")
        pages: Iterator[faxpages.Page] = fax.pages
        forms = [of_page(page) for page in pages]
        second: faxpages.Page = fax.page(of_cursors(fax).page)
        made: bytes = faxpages.convert(source, "mr", order=2, k=Index(), strip=None, align=True)
        reasons: List[str] = [
            refused(lambda: faxpages.convert(b"P4\n8 1\n", target="mmr")), refused(lambda: fax.page(1000)),
            refused(lambda: faxpages.convert(b"GIF", "pbm")), refused(lambda: faxpages.Cursor.parse("1"))]
        if of_report(fax.check()) or not made or "" in reasons or second.number != 1:
            raise AssertionError("another file")
        return len(forms)


def unused() -> Set[str]:
    """The public names that do not stand here."""
    with open(__file__, encoding="utf-8") as file:
        text = file.read()
    return {name for name in faxpages.__all__ if f"faxpages.{name}" not in text}


def main() -> int:
    """Uses them on two files."""
    fault = of_report(faxpages.check(sys.argv[2]))
    fine = whole(sys.argv[1]) > 1 and fault is not None and of_fault(fault)[1] > 0
    fine = fine and faxpages.version() >= faxpages.__version__ > ""
    fine = fine and not unused() and set(FAULTS) <= set(faxpages.__all__)
    print(*(f"FAILED: {name} is not used" for name in sorted(unused())), sep="\n", end="")
    print(f"typed: {int(fine)} passed, {int(not fine)} failed")
    return 0 if fine else 1


if __name__ == "__main__":
    sys.exit(main())
