# mypy: disable-error-code="import,attr-defined"
# pyright: reportMissingImports=false
"""A fax as a PDF, for the filter faxtopdf of CUPS: MMR data on pages of their true size. Only cups/faxtopdf
imports this: it needs pikepdf."""

from __future__ import annotations

import os
import re
import shutil
import sys
import tempfile
from fractions import Fraction
from typing import IO, Any, Dict, Iterator, List, NamedTuple, Sequence, Tuple, Union

import pikepdf

from faxpages import Fault, Fax, OutsideError, Page, Raster, Stretch, check, encode_strip
from faxpages._directory import kind_of

from ._job import Job, Other, Refused, say, say_why, seconds_of, within

# The most seconds, pages, and pels of a page and of all.
SECONDS, PAGES, PELS, ALL_PELS = 120, 5000, 100_000_000, 40_000_000_000
# What a fax is drawn with where its fields say nothing that can be, and the least and most that they may say.
_DPI, _LEAST_DPI, _MOST_DPI = (204.0, 196.0), 20.0, 3000.0
# The largest side of a page of PDF, the height of a line of text, and the width of a letter at most, in points.
_SIDE, _LINE, _LETTER = 14400.0, 14.0, 5.0
# How many lines a page has about what it lacks, before the rest is counted.
_LINES = 6
# The line after those.
_UNSEEN = "faxpages: a row above missing ones may be wrong too: no reader sees damage that makes other codes"
# CleanFaxData where bad rows stand in the data, and what the receiver has done with them, by whether they do.
_LEFT = 2
_DONE = {False: "mended", True: "left bad"}
# Fields by which a TIFF file is another picture, and no fax: BitsPerSample, Compression, SamplesPerPixel.
_NO_FAX = (258, 259, 277)
# Options that pdftopdf sees to, after a filter that would too.
_LATER = ("page-ranges", "page-set", "number-up", "number-up-layout", "page-border", "outputorder", "mirror", "collate",
          "multiple-document-handling", "orientation-requested", "landscape", "sides")


class Sheet(NamedTuple):
    """A page as it is printed: its pels, of which there are none if its form cannot be read, and what it lacks."""

    raster: Raster
    lost: List[Stretch]
    lines: List[str]


def is_other(data: bytes) -> bool:
    """Whether a TIFF file is another picture than a fax, by the fields of its first page."""
    try:
        Fax(data).page(0)
    except Fault as fault:
        return fault.name == "Unsupported" and fault.tag in _NO_FAX
    return False


def sheets(data: bytes, salvage: bool) -> Iterator[Sheet]:
    """The pages of a fax. Refuses one that has a fault, unless it is to be salvaged."""
    fax = Fax(data)
    bound(fax)
    if not salvage:
        fault = check(data).fault
        kind = kind_of(data, fault) if fault else None
        if fault and kind:
            raise Refused(f"fault {fault.line}: it is no fax that is read here, but {kind}, and not printed")
        if fault:
            raise Refused(f"fault {fault.line}: the fax is damaged, and not printed; with -o faxpages=salvage what can be "
                          "read of it is printed")
        for page in forms(fax):
            yield Sheet(page.raster(), [], [])
        return
    for page in forms(fax):
        yield salvaged(page)


def forms(fax: Fax) -> Iterator[Union[Page, Any]]:
    """The pages in order, and the fault of each whose form cannot be read; after the chain of pages breaks, no more."""
    number = 0
    while True:
        try:
            yield fax.page(number)
        except OutsideError:
            return
        except Fault as fault:
            if fault.page < number:
                return
            yield fault
        number += 1


def received(fax: Fax) -> Iterator[str]:
    """What the receiver counted of bad rows (RFC 2306, BadFaxLines and CleanFaxData), in a line for those that it mended
    and one for those that it left, with pages numbered from 1."""
    said: Dict[bool, List[Tuple[int, int]]] = {False: [], True: []}
    for page in forms(fax):
        its = None if isinstance(page, Fault) else page.received
        if its and (its.bad_rows or its.clean):
            said[its.clean == _LEFT].append((its.bad_rows or 0, page.number + 1))
    for left, pages in said.items():
        if len(pages) > 2:
            yield f"{_DONE[left]} by the receiver: {rows_of(sum(count for count, _ in pages))} of {len(pages)} pages"
        elif pages:
            yield f"{_DONE[left]} by the receiver: " + " and ".join(
                f"{rows_of(count)} of page {page}" for count, page in pages)


def rows_of(count: int) -> str:
    """A count of rows, of which a receiver need not say how many there are."""
    return "rows" if count == 0 else "1 row" if count == 1 else f"{count} rows"


def bound(fax: Fax) -> None:
    """Refuses a fax of too many pages or pels."""
    pels = 0
    for number, page in enumerate(forms(fax)):
        if number == PAGES:
            raise Refused(f"it has more than {PAGES} pages")
        if isinstance(page, Fault):
            continue
        pels += page.width * page.rows
        if page.width * page.rows > PELS:
            raise Refused(f"page {number} has more than {PELS} pels")
        if pels > ALL_PELS:
            raise Refused(f"its pages have more than {ALL_PELS} pels")


def salvaged(page: Union[Page, Fault]) -> Sheet:
    """What is left of a page, with lines that say what is lost: they number pages and rows from 1, as people count."""
    if isinstance(page, Fault):
        blank = Raster(1728, 1143, bytes(216 * 1143), y=Fraction(98))
        where = f"page {page.page + 1}" if page.row == 0 else f"page {page.page + 1} row {page.row + 1}"
        return Sheet(blank, [Stretch(0, blank.rows, page.name)], [f"{where} is missing: {page.name}"])
    try:
        return Sheet(page.raster(), [], [])
    except Fault:
        pass
    left = page.salvaged()
    lines = [f"page {page.number + 1} rows {it.first + 1} to {it.last + 1} are missing: {it.name}" for it in left.lost]
    return Sheet(left.raster, list(left.lost), lines)


def dpi_of(raster: Raster) -> Tuple[float, float]:
    """The pels and rows in an inch with which a page is drawn: its own, if they can be, or else 204 across."""
    across, down = raster.dpi or (_DPI[0], _DPI[0] * float(raster.y / raster.x))
    if not all(_LEAST_DPI <= number <= _MOST_DPI for number in (across, down)):
        return _DPI
    return across, down


def size_of(raster: Raster) -> Tuple[float, float]:
    """The size of a page in points: its true one, but for a page that PDF has no room for, which is made smaller."""
    across, down = dpi_of(raster)
    width, height = 72 * raster.width / across, 72 * raster.rows / down
    factor = min(1.0, (_SIDE - _LINE * (_LINES + 3)) / max(width, height))
    return max(3.0, width * factor), max(3.0, height * factor)


def lines_of(sheet: Sheet) -> List[str]:
    """The lines of a page about what it lacks."""
    lines = sheet.lines[:_LINES]
    if len(sheet.lines) > _LINES:
        lines.append(f"and {len(sheet.lines) - _LINES} more stretches of rows are missing")
    told = [f"faxpages: {line}" for line in lines]
    return told + [_UNSEEN] if sheet.lost and told else told


def content_of(sheet: Sheet, width: float, height: float) -> bytes:
    """What is drawn on a page: its image, grey over the rows that it lacks, and the lines below it."""
    lines = lines_of(sheet)
    foot = _LINE * len(lines)
    drawn = [f"q {width:.4f} 0 0 {height:.4f} 0 {foot:.4f} cm /I Do Q"]
    for lost in sheet.lost:
        top, deep = height * (1 - lost.first / sheet.raster.rows), height * lost.rows / sheet.raster.rows
        drawn.append(f"q 0.75 g 0 {foot + top - deep:.4f} {width:.4f} {deep:.4f} re f Q")
    for number, line in enumerate(lines, 1):
        text = re.sub(r"([\\()])", r"\\\1", line)
        drawn.append(f"BT /F 9 Tf 9 {foot - _LINE * number + 4:.4f} Td ({text}) Tj ET")
    return "\n".join(drawn).encode("ascii", "replace")


def add_page(pdf: Any, font: Any, sheet: Sheet) -> None:
    """Adds a page to a PDF; its rows are MMR data."""
    name, dictionary, raster = pikepdf.Name, pikepdf.Dictionary, sheet.raster
    width, height = size_of(raster)
    lines = lines_of(sheet)
    box = [0, 0, round(max([width] + [_LETTER * len(line) + 18 for line in lines]), 4),
           round(height + _LINE * len(lines), 4)]
    image = pikepdf.Stream(
        pdf, encode_strip(raster, "mmr"), Type=name.XObject, Subtype=name.Image, Width=raster.width,
        Height=raster.rows, ColorSpace=name.DeviceGray, BitsPerComponent=1, Filter=name.CCITTFaxDecode,
        DecodeParms=dictionary(K=-1, Columns=raster.width, Rows=raster.rows))
    content = pikepdf.Stream(pdf, content_of(sheet, width, height))
    pdf.pages.append(pikepdf.Page(dictionary(
        Type=name.Page, MediaBox=box, Contents=content,
        Resources=dictionary(XObject=dictionary(I=image), Font=dictionary(F=font)))))


def write_pdf(data: bytes, file: IO[bytes], salvage: bool) -> None:
    """Writes a PDF of a fax. What is lost, and what its receiver mended, is said in lines too."""
    pdf, read = pikepdf.new(), 0
    font = pdf.make_indirect(pikepdf.Dictionary(
        Type=pikepdf.Name.Font, Subtype=pikepdf.Name.Type1, BaseFont=pikepdf.Name.Helvetica))
    for sheet in sheets(data, salvage):
        read += sheet.raster.rows - sum(lost.rows for lost in sheet.lost)
        for line in sheet.lines[:_LINES]:
            say("WARNING", line)
        add_page(pdf, font, sheet)
    if read == 0:
        raise Refused("no row of the fax can be read")
    for line in received(Fax(data)):
        say("WARNING", line)
    pdf.save(file, compress_streams=False)
    file.flush()


def hand_on(job: Job, file: IO[bytes]) -> None:
    """Has the filter of cups-filters print a TIFF file that is no fax; pdftopdf sees to the rest after it."""
    left = [f"{name}={quoted(value)}" for name, value in job.options.items() if is_named() or name not in _LATER]
    become("imagetopdf", file, job, job.copies if is_named() else "1", " ".join(left))


def is_named() -> bool:
    """Whether the client named the format: then no pdftopdf comes after this filter."""
    return os.environ.get("CONTENT_TYPE") == "image/tiff"


def become(name: str, file: IO[bytes], job: Job, copies: str, options: str) -> None:
    """Runs a filter of CUPS over a file, in place of this one."""
    path = os.path.join(os.environ.get("CUPS_SERVERBIN", "/usr/lib/cups"), "filter", name)
    if not os.access(path, os.X_OK):
        raise Refused(f"there is no {path}, which is needed for this file: the package cups-filters has it")
    file.flush()
    file.seek(0)
    os.dup2(file.fileno(), 0)
    sys.stderr.flush()
    os.execv(path, [path, job.number, job.user, job.title, copies, options])


def quoted(value: str) -> str:
    """A value as a text of options has it."""
    return re.sub(r"([\\'\"\s{}])", r"\\\1", value)


def work(job: Job, file: IO[bytes], salvage: bool) -> None:
    """Writes a job's fax as a PDF; or a picture that is no fax, as it is."""
    data = job.read()
    if is_other(data):
        file.write(data)
        file.flush()
        raise Other("it is another picture than a fax")
    write_pdf(data, file, salvage)


def main(words: Sequence[str]) -> int:
    """The filter: all of a PDF on the standard output, or nothing."""
    try:
        job = Job.of(words)
        salvage = salvage_of(job)
        with tempfile.TemporaryFile() as file:
            try:
                within(seconds_of(SECONDS), lambda: work(job, file, salvage))
            except Other:
                hand_on(job, file)
            if is_named():
                become("pdftopdf", file, job, job.copies, words[5])
            file.seek(0)
            shutil.copyfileobj(file, sys.stdout.buffer)
            sys.stdout.buffer.flush()
    except Refused as refused:
        say_why(str(refused))
        return 1
    except BrokenPipeError:
        os.dup2(os.open(os.devnull, os.O_WRONLY), sys.stdout.fileno())
        return 1
    except OSError as error:
        say_why(error.strerror or str(error))
        return 1
    return 0


def salvage_of(job: Job) -> bool:
    """Whether a damaged fax is to be salvaged."""
    how = job.options.get("faxpages", "whole")
    if how not in ("salvage", "whole"):
        raise Refused("faxpages is salvage or whole")
    return how == "salvage"
