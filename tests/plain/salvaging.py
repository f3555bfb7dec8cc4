#!/usr/bin/env python3
"""What is left of a damaged fax, by a plain reading: each row that stands between its EOLs, and the rows that are lost.

    salvaging.py salvage [FILE]

prints what `faxpages salvage` prints of a file, or of the standard input. Fields, and the codes of a row, are read by
`reading.py`; which rows are found or lost, and where the next one is due, is said here."""

from __future__ import annotations

import sys
from typing import List, NamedTuple, Optional, Tuple

sys.dont_write_bytecode = True

from tests.plain import reading  # noqa: E402
from tests.plain.notes import after_mark  # noqa: E402
from tests.plain.reading import Fault  # noqa: E402
from tests.plain.tables import EOL  # noqa: E402
from tests.plain.uncounted import DATA_END, MARKED, MOST_ROWS  # noqa: E402


class Row(NamedTuple):
    """A row of a strip: its pels if it is found, or the name for which it is lost; and the bits that it takes, from its
    EOL to the place after its codes, if it is found."""

    pels: Optional[str]
    lost: str = ""
    begin: int = -1
    after: int = -1


def is_ended(bits: str, at: int) -> bool:
    """Whether an EOL, with any fill, or nothing but zeros stands at a place."""
    one = bits.find("1", at)
    return one < 0 or one - at >= 11


def own_start(coding: str, number: int, bits: str, at: int) -> Tuple[Optional[bool], int, str]:
    """What stands before the codes of row `number`: whether it is one-dimensional, and the place of its first code; or
    none, the place after its first bit, or the end where the data end after its own EOL, and why it cannot be read."""
    try:
        return (*reading.read_start(coding, number, bits, at), "")
    except Fault as fault:
        return None, len(bits) if str(fault) == "DataEnds" else at + 1, str(fault)


def row_at(coding: str, width: int, number: int, reference: Optional[str], bits: str, at: int, is_last: bool) -> Row:
    """Row `number` of a strip, which is due at a place, over the row before it, or over one that is lost."""
    is_one_dimensional, _, why = own_start(coding, number, bits, at)
    if is_one_dimensional is None:
        return Row(None, why)
    try:
        over = "W" * width if is_one_dimensional else reference
        if over is None:
            return Row(None, "OverLostRow")
        pels, after = reading.read_row(coding, number, over, bits, at)
    except Fault as fault:
        return Row(None, str(fault))
    if coding != "mmr" and not is_last and not is_ended(bits, after):
        return Row(None, "MissingEol")
    return Row(pels, "", at, after)


def strip_rows(coding: str, width: int, rows: int, bits: str) -> List[Row]:
    """The rows of a strip, found or lost."""
    done: List[Row] = []
    reference: Optional[str] = "W" * width
    at = 0
    while len(done) < rows:
        number = len(done)
        row = row_at(coding, width, number, reference, bits, at, number + 1 == rows)
        done.append(row)
        reference = row.pels
        if row.pels is not None:
            at = row.after
            continue
        at = -1 if coding == "mmr" else bits.find(EOL, own_start(coding, number, bits, at)[1])
        if at < 0:
            done += [Row(None, "NoEolLeft")] * (rows - len(done))
    return done


def uncounted_rows(coding: str, width: int, bits: str) -> Tuple[List[Row], str]:
    """The rows that nobody counted, found or lost, and how they end: with an end mark, with the data, or with the fault of
    the last row, after which none is due."""
    done: List[Row] = []
    reference: Optional[str] = "W" * width
    at, why = 0, ""
    while len(done) < MOST_ROWS:
        number, left = len(done), bits[at:]
        if after_mark(coding, left) is not None:
            return done, MARKED
        if number > 0 and "1" not in left:
            return done, DATA_END
        row = row_at(coding, width, number, reference, bits, at, number + 1 == MOST_ROWS)
        done.append(row)
        reference = row.pels
        if row.pels is not None:
            at = row.after
            continue
        why = why if row.lost == "OverLostRow" else row.lost
        at = -1 if coding == "mmr" else bits.find(EOL, own_start(coding, number, bits, at)[1])
        if at < 0:
            return done, why
    return done, why if done[-1].pels is None else "TooManyRows"


class Stretch(NamedTuple):
    """Rows that are lost one after another: the number of the first, how many, and the name of the first."""

    first: int
    rows: int
    name: str


def page_rows(file: reading.File, form: reading.Form) -> List[Row]:
    """The rows of a page, found or lost, as they are handed out."""
    done: List[Row] = []
    for strip in range(form.strips):
        offset, count = form.offsets[strip], form.counts[strip]
        height = min(form.height, form.rows - strip * form.height)
        bits = reading.bits_of(file.data[offset : offset + count], form.order)
        rows = strip_rows(form.coding, form.width, height, bits)
        if not file.has(offset, count):
            rows = [row if row.pels is not None else Row(None, "StripOutside") for row in rows]
        done += [row if row.pels is None else row._replace(pels=reading.shown(form, row.pels)) for row in rows]
    return done


def stretches(rows: List[Row]) -> List[Stretch]:
    """The stretches of lost rows of a page."""
    done: List[Stretch] = []
    for number, row in enumerate(rows):
        if row.pels is not None:
            continue
        if done and done[-1].first + done[-1].rows == number:
            done[-1] = done[-1]._replace(rows=done[-1].rows + 1)
        else:
            done.append(Stretch(number, 1, row.lost))
    return done


class Page(NamedTuple):
    """A page of a file: its form and its rows, or why its form is refused."""

    form: Optional[reading.Form]
    rows: List[Row]
    refused: str = ""


def pages_of(data: bytes) -> List[Page]:
    """The pages of a file, those after a refused one too; none where the header is bad."""
    try:
        file = reading.File(data)
    except Fault:
        return []
    done = []
    for entries in reading.chain(file)[0]:
        try:
            form = reading.read_form(file, entries)
        except Fault as fault:
            done.append(Page(None, [], " ".join(map(str, fault.args))))
        else:
            done.append(Page(form, page_rows(file, form)))
    return done


def lines_of(number: int, page: Page) -> List[str]:
    """The lines of a page: its rows and its stretches, in order."""
    if page.form is None:
        return [f"lost {number} {page.refused}"]
    lost = {stretch.first: stretch for stretch in stretches(page.rows)}
    done = []
    for place, row in enumerate(page.rows):
        if row.pels is not None:
            done.append(reading.row_line(number, place, row.pels))
        elif place in lost:
            done.append(f"lost {number} {place} {lost[place].rows} {lost[place].name}")
    return done


def text_of(data: bytes, pages: Optional[List[Page]] = None) -> Tuple[str, str, int]:
    """What `salvage` writes of a file: its output, and the error line and status of `rows`."""
    told = pages_of(data) if pages is None else pages
    lines = [line for number, page in enumerate(told) for line in lines_of(number, page)]
    _, error, status = reading.text_of(*reading.lines_from("rows", data, *reading.START), reading.START, None)
    return "\n".join([*lines, "end", ""]), error, status


def main() -> int:
    if sys.argv[1:2] != ["salvage"] or len(sys.argv) > 3:
        sys.stderr.write("usage: salvaging.py salvage [FILE]\n")
        return 2
    with open(sys.argv[2] if len(sys.argv) == 3 else 0, "rb") as file:
        output, error, status = text_of(file.read())
    sys.stdout.write(output)
    sys.stderr.write(error)
    return status


if __name__ == "__main__":
    sys.exit(main())
