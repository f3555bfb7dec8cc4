"""A plain reading of strips and of whole files, over text of bits and lists of rows, written from
docs/FORMAT.md. It shares no code with the program, and takes its time."""

from __future__ import annotations

import functools
import itertools
import re
from typing import Literal, NamedTuple, TypeVar, Union

from tests.plain.tables import EXTENSION, MODES, RUNS

Meaning = TypeVar("Meaning")
# Of a row of a strip: a place inside the strip is the bits before it, and the runs of the row before it.
Place = tuple[int, list[int]]
Lines = tuple[list[tuple[str, int]], Union["Fault", None]]
# What is written: the output, the error line and the status.
Text = tuple[str, str, int]


class Fault(Exception):
    """Why a row, a page or a file cannot be read: a name, with the tag of the field at fault."""


def other(colour: str) -> str:
    return "B" if colour == "W" else "W"


# Rows. A row is text of W and B.


def read_code(table: dict[str, Meaning], bits: str, at: int) -> tuple[Meaning, int]:
    """The meaning of the code at a place, and the place after it."""
    for length in range(1, 14):
        code = bits[at : at + length]
        if len(code) == length and code in table:
            return table[code], at + length
    left = bits[at : at + 13]
    if any(len(left) < len(code) and code.startswith(left) for code in table):
        raise Fault("DataEnds")
    raise Fault("BadCode")


def read_run(colour: str, bits: str, at: int, most: int) -> tuple[int, int]:
    """The length of a run of at most so many pels, and the place after it."""
    length = 0
    while True:
        meaning, at = read_code(RUNS[colour], bits, at)
        if isinstance(meaning, str):
            raise Fault("Extension")
        length += meaning[1]
        if length > most:
            raise Fault("RunTooLong")
        if meaning[0] == "end":
            return length, at


def read_one_dimensional(width: int, bits: str, at: int) -> tuple[str, int]:
    row, colour = "", "W"
    while True:
        length, at = read_run(colour, bits, at, width - len(row))
        row += colour * length
        if len(row) == width:
            return row, at
        colour = other(colour)


def next_changing(row: str, place: int, colour: str | None = None) -> int:
    """The next changing element right of a place, of another colour than this one if one is given:
    a pel after one of the other colour, where a white one stands before the first."""
    edges = ["WB", "BW"] if colour is None else [colour + other(colour)]
    found = [("W" + row).find(edge, place + 1) for edge in edges]
    return min((place for place in found if place >= 0), default=len(row))


def read_two_dimensional(reference: str, bits: str, at: int) -> tuple[str, int]:
    width, row, a0, colour = len(reference), "", -1, "W"
    while a0 != width:
        mode, at = read_code(MODES, bits, at)
        if mode == EXTENSION:
            raise Fault("Extension")
        b1 = next_changing(reference, a0, colour)
        if mode == "pass":
            a0 = next_changing(reference, b1)
            row += colour * (a0 - len(row))
        elif mode == "horizontal":
            first, at = read_run(colour, bits, at, width - len(row))
            row += colour * first
            second, at = read_run(other(colour), bits, at, width - len(row))
            row += other(colour) * second
            a0 = len(row)
        elif isinstance(mode, int):
            a1 = b1 + mode
            if not a0 < a1 <= width:
                raise Fault("OutOfRow")
            row += colour * (a1 - len(row))
            a0, colour = a1, other(colour)
    return row, at


# Strips. A form has the coding ('mh', 'mr' or 'mmr'), the fill order and the width.


def bits_of(data: bytes, order: int) -> str:
    eight = [format(byte, "08b") for byte in data]
    return "".join(eight if order == 1 else [byte[::-1] for byte in eight])


def read_start(coding: str, number: int, bits: str, at: int) -> tuple[bool, int]:
    """Whether row `number` of a strip is one-dimensional, and the place of its first code."""
    if coding == "mmr":
        return False, at
    one = bits.find("1", at)
    if one < 0:
        raise Fault("DataEnds")
    if one - at >= 11:
        at = one + 1
    elif coding == "mr" or number > 0:
        raise Fault("MissingEol")
    if coding == "mh":
        return True, at
    if at == len(bits):
        raise Fault("DataEnds")
    return bits[at] == "1", at + 1


def read_row(coding: str, number: int, reference: str, bits: str, at: int) -> tuple[str, int]:
    is_one_dimensional, at = read_start(coding, number, bits, at)
    if bits.startswith("0" * 11, at):
        raise Fault("EndMarker")
    if "1" not in bits[at:]:
        raise Fault("DataEnds")
    if is_one_dimensional:
        return read_one_dimensional(len(reference), bits, at)
    return read_two_dimensional(reference, bits, at)


def read_lines(coding: str, number: int, rows: int, reference: str, bits: str,
               at: int) -> Lines:
    """The rows of a strip of so many from this number on, each with the place after it, and the fault that
    ends them, if one does."""
    done: list[tuple[str, int]] = []
    for due in range(number, rows):
        try:
            reference, at = read_row(coding, due, reference, bits, at)
        except Fault as fault:
            return done, fault
        done.append((reference, at))
    return done, None


@functools.lru_cache(64)
def read_whole(coding: str, order: int, width: int, rows: int, data: bytes) -> tuple[list[tuple[str, int]],
               Fault | None]:
    """The lines of a strip, read from its beginning: commands that read the same strip share them."""
    return read_lines(coding, 0, rows, "W" * width, bits_of(data, order), 0)


def read_strip(coding: str, order: int, width: int, rows: int, data: bytes) -> tuple[list[str], Fault | None]:
    """The rows of a strip, and the fault that ends them, if one does."""
    lines, fault = read_whole(coding, order, width, rows, data)
    return [row for row, _ in lines], fault


# Files.

SHORT, LONG, RATIONAL = 3, 4, 5
SIZES = {SHORT: 2, LONG: 4, RATIONAL: 8}


class Entry(NamedTuple):
    """What a directory has of a field: its type, how many values, and where they are."""

    kind: int
    held: int
    at: int


Entries = dict[int, Entry]


class File:
    """A file with a good header."""

    def __init__(self, data: bytes) -> None:
        self.data = data
        if len(data) < 8:
            raise Fault("ShortHeader")
        letters = bytes(data[:2])
        if letters not in (b"II", b"MM"):
            raise Fault("ByteOrder")
        self.endian: Literal["little", "big"] = "little" if letters == b"II" else "big"
        if self.number(2, 2) != 42:
            raise Fault("Magic")
        self.first = self.number(4, 4)
        if self.first == 0:
            raise Fault("NoDirectory")

    def number(self, place: int, size: int) -> int:
        return int.from_bytes(self.data[place : place + size], self.endian)

    def has(self, place: int, size: int) -> bool:
        return place + size <= len(self.data)

    def directory(self, offset: int) -> tuple[Entries, int]:
        """The first entry of each tag, and the offset of the next directory."""
        if not self.has(offset, 2):
            raise Fault("DirectoryOutside")
        count = self.number(offset, 2)
        if not self.has(offset, 6 + 12 * count):
            raise Fault("DirectoryOutside")
        entries: Entries = {}
        for place in range(offset + 2, offset + 2 + 12 * count, 12):
            tag, kind = self.number(place, 2), self.number(place + 2, 2)
            size = SIZES.get(kind, 0) * self.number(place + 4, 4)
            at = place + 8 if size <= 4 else self.number(place + 8, 4)
            entries.setdefault(tag, Entry(kind, self.number(place + 4, 4), at))
        return entries, self.number(offset + 2 + 12 * count, 4)


def values(file: File, entries: Entries, tag: int, count: int) -> list[int]:
    """The first so many numbers of a field of numbers."""
    if tag not in entries:
        raise Fault("MissingField", tag)
    kind, held, at = entries[tag]
    size = SIZES.get(kind, 0)
    if kind not in (SHORT, LONG) or held < count or not file.has(at, size * count):
        raise Fault("BadField", tag)
    return [file.number(at + size * i, size) for i in range(count)]


def scalar(file: File, entries: Entries, tag: int, default: int | None = None) -> int:
    if default is not None and tag not in entries:
        return default
    return values(file, entries, tag, 1)[0]


def check(is_so: bool, name: str, tag: int) -> None:
    if not is_so:
        raise Fault(name, tag)


def rational(file: File, entries: Entries, tag: int) -> tuple[int, int]:
    kind, held, at = entries[tag]
    if kind != RATIONAL or held < 1 or not file.has(at, 8):
        raise Fault("BadField", tag)
    parts = file.number(at, 4), file.number(at + 4, 4)
    check(0 not in parts, "BadField", tag)
    return parts


# Across, down, and the unit.
Resolution = tuple[tuple[int, int], tuple[int, int], int]


def resolution(file: File, entries: Entries) -> Resolution:
    try:
        unit = scalar(file, entries, 296, 2)
        check(1 <= unit <= 3, "BadField", 296)
        return rational(file, entries, 282), rational(file, entries, 283), unit
    except (Fault, KeyError):
        return (204, 1), (196, 1), 2


class Form(NamedTuple):
    """The form of a page: numbers of its fields, where each strip is, and its resolution."""

    width: int
    rows: int
    photometric: int
    order: int
    height: int
    strips: int
    coding: str
    aligned: bool
    offsets: list[int]
    counts: list[int]
    resolution: Resolution


def read_form(file: File, entries: Entries) -> Form:
    """The form of a page, by its fields in the order of their checks."""
    width = scalar(file, entries, 256)
    check(1 <= width <= 65_535, "OutOfLimits", 256)
    rows = scalar(file, entries, 257)
    check(1 <= rows <= 1_000_000, "OutOfLimits", 257)
    check(scalar(file, entries, 258, 1) == 1, "Unsupported", 258)
    compression = scalar(file, entries, 259)
    check(compression in (3, 4), "Unsupported", 259)
    photometric = scalar(file, entries, 262)
    check(photometric in (0, 1), "Unsupported", 262)
    order = scalar(file, entries, 266, 1)
    check(order in (1, 2), "Unsupported", 266)
    check(scalar(file, entries, 277, 1) == 1, "Unsupported", 277)
    height = scalar(file, entries, 278, 2**32 - 1)
    check(height > 0, "BadField", 278)
    height = min(height, rows)
    strips = -(-rows // height)
    coding, aligned = "mmr", False
    if compression == 3:
        options = scalar(file, entries, 292, 0)
        coding, aligned = "mr" if options % 2 == 1 else "mh", options & 4 > 0
    offsets = values(file, entries, 273, strips)
    counts = values(file, entries, 279, strips)
    return Form(width, rows, photometric, order, height, strips, coding, aligned, offsets, counts,
                resolution(file, entries))


def row_of(runs: list[int], width: int) -> str | None:
    """The row of this width that has these longest runs, or none."""
    if sum(runs) != width:
        return None
    row = "".join(colour * length for colour, length in zip(itertools.cycle("WB"), runs))
    return row if runs_of(row) == runs else None


def read_from_place(form: Form, strip: int, rows: int, data: bytes, due: int, inside: Place) -> Lines | None:
    """The lines of a strip of so many rows, from this place inside it on, before the row of the page that is due,
    with their fault; or none where the strip has no such place."""
    bits, (at, runs) = bits_of(data, form.order), inside
    reference = row_of(runs, form.width)
    if at > len(bits) or reference is None:
        return None
    return read_lines(form.coding, due - strip * form.height, rows, reference, bits, at)


def shown(form: Form, row: str) -> str:
    """A row as it is handed out."""
    return "".join(other(pel) for pel in row) if form.photometric == 1 else row


def read_page(file: File, form: Form, due: int, inside: Place | None) -> tuple[list[tuple[int, str, Place | None]],
              str | tuple[int, Fault] | None]:
    """The rows of a page from one row on, or from a place inside its strip before it, as (row's number, row,
    place after it, which is none after a strip's last row), and the end: the row that was due and its fault,
    or none, or that there is no such place. A place is the bits before it, and the runs of the row before it."""
    done: list[tuple[int, str, Place | None]] = []
    height = form.height
    for strip in range(due // height, form.strips):
        offset, count = form.offsets[strip], form.counts[strip]
        first, after = strip * height, min((strip + 1) * height, form.rows)
        if not file.has(offset, count):
            return done, (first, Fault("StripOutside"))
        data = file.data[offset : offset + count]
        if inside and strip == due // height:
            first, read = due, read_from_place(form, strip, after - strip * height, data, due, inside)
            if read is None:
                return [], OUTSIDE
            lines, fault = read
        else:
            lines, fault = read_whole(form.coding, form.order, form.width, after - first, data)
        for number, (row, at) in enumerate(lines, first):
            if number >= due:
                done.append((number, shown(form, row), (at, runs_of(row)) if number + 1 < after else None))
        if fault:
            return done, (first + len(lines), fault)
    return done, None


def chain(file: File) -> tuple[list[Entries], Fault | None]:
    """The directories of a file in order, and the fault that ends them, if one does."""
    offset = file.first
    seen: set[int] = set()
    done: list[Entries] = []
    while offset != 0:
        if offset in seen:
            return done, Fault("DirectoryLoop")
        seen.add(offset)
        try:
            entries, offset = file.directory(offset)
        except Fault as fault:
            return done, fault
        done.append(entries)
    return done, None


# What follows a cursor, which is a page and a row, or a long one: a page, a row and a place inside the row's
# strip. An end is none after the last page, a fault with the place that was due, or that the cursor names no
# place of the file.

class Cursor(NamedTuple):
    """A page and a row, and in a long one a place inside the row's strip."""

    page: int
    row: int
    inside: Place | None = None


class Line(NamedTuple):
    """A line that is printed, with the cursor after it, and the long one, which is the same where there is none."""

    text: str
    short: Cursor
    long: Cursor


End = Union[str, tuple[int, int, Fault], None]
START = Cursor(0, 0)
OUTSIDE = "CursorOutside"


def names_row(form: Form, row: int, inside: Place | None) -> bool:
    """Whether a cursor may name this row of a page: with a place, one that is not its strip's first."""
    if inside is None:
        return row <= form.rows
    return row < form.rows and row % form.height > 0


def pages_from(data: bytes, page: int, row: int,
               inside: Place | None = None) -> tuple[list[tuple[File, int, Form]], End]:
    """The pages from the one that a cursor names, as (file, number, form), and the end after them. A
    page whose fields are refused is such an end, and so is a cursor that names no place."""
    try:
        file = File(data)
    except Fault as bad:
        return [], (0, 0, bad)
    directories, fault = chain(file)
    count = len(directories)
    found: list[tuple[File, int, Form]] = []
    if page > count and not fault or page == count and row > 0 and not fault:
        return [], OUTSIDE
    for number in range(page, count):
        try:
            form = read_form(file, directories[number])
        except Fault as refused:
            return found, (number, 0, refused)
        if number == page and not names_row(form, row, inside):
            return [], OUTSIDE
        found.append((file, number, form))
    return found, (count, 0, fault) if fault else None


def rows_from(data: bytes, page: int, row: int,
              inside: Place | None = None) -> tuple[list[tuple[int, int, str, Place | None]], End]:
    """The rows from a cursor on, as (page, row, row's text, place after it or none), and their end."""
    pages, end = pages_from(data, page, row, inside)
    done: list[tuple[int, int, str, Place | None]] = []
    for file, number, form in pages:
        due, place = (row, inside) if number == page else (0, None)
        if due == form.rows:
            continue
        rows, stop = read_page(file, form, due, place)
        done += [(number, *item) for item in rows]
        if stop:
            return done, stop if isinstance(stop, str) else (number, *stop)
    return done, end


def forms_from(data: bytes, page: int, row: int) -> tuple[list[tuple[int, Form]], End]:
    """The pages from a cursor on, as (page, form), and their end."""
    pages, end = pages_from(data, page, row)
    return [(number, form) for _, number, form in pages if number > page or row == 0], end


# What is printed.


def runs_of(row: str) -> list[int]:
    """The lengths of the longest runs of a row, white first."""
    lengths = [len(run) for run in re.findall("W+|B+", row)]
    return lengths if row.startswith("W") else [0, *lengths]


def row_line(page: int, number: int, row: str) -> str:
    return " ".join(["row", str(page), str(number), *map(str, runs_of(row))])


def page_line(page: int, form: Form) -> str:
    over, under, unit = form.resolution
    words = ["page", page, form.width, form.rows, form.coding, form.order, form.photometric, form.strips]
    return " ".join(map(str, [*words, f"{over[0]}/{over[1]}", f"{under[0]}/{under[1]}", unit]))


def cursor_text(page: int, row: int, inside: Place | None = None) -> str:
    if inside is None:
        return f"1:{page}:{row}"
    bits, runs = inside
    return f"2:{page}:{row}:{bits}:{','.join(map(str, runs))}"


def cursor_of(text: str) -> Cursor | None:
    """The cursor that has this text, or none."""
    number = "(?:0|[1-9][0-9]{0,9})"
    if not re.fullmatch(f"1:{number}:{number}|2:{number}:{number}:{number}:{number}(?:,{number})*", text):
        return None
    version, *numbers = map(int, re.split("[:,]", text))
    if max(numbers) >= 2**32:
        return None
    page, row, *place = numbers
    return Cursor(page, row) if version == 1 else Cursor(page, row, (place[0], place[1:]))


def lines_from(command: str, data: bytes, page: int, row: int,
               inside: Place | None = None) -> tuple[list[Line], End]:
    """The lines of a command from a cursor on, each with the cursor after it and the long cursor after it,
    which is the same where there is none, and their end."""
    if command == "list":
        forms, end = forms_from(data, page, row)
        return [Line(page_line(*item), Cursor(item[0] + 1, 0), Cursor(item[0] + 1, 0)) for item in forms], end
    rows, end = rows_from(data, page, row, inside)
    lines = []
    for of_page, number, text, place in rows:
        after = Cursor(of_page, number + 1)
        lines.append(Line(row_line(of_page, number, text), after, Cursor(*after[:2], place)))
    return lines, end


def fault_line(page: int, row: int, fault: Fault) -> str:
    return f"fault page {page} row {row}: {' '.join(map(str, fault.args))}\n"


def text_of(lines: list[Line], end: End, cursor: Cursor, limit: int | None, is_long: bool = False) -> Text:
    """What is written of these lines and their end, with long cursors or without: the output, the error line
    and the status."""
    is_cut = limit is not None and len(lines) >= limit
    if is_cut:
        lines = lines[:limit]
    elif isinstance(end, str):
        return "", "fault cursor: CursorOutside\n", 1
    _, short, long = lines[-1] if lines else Line("", Cursor(*cursor[:2]), cursor)
    last = "end" if end is None and not is_cut else f"next {cursor_text(*(long if is_long else short))}"
    output = "\n".join([*(text for text, *_ in lines), last, ""])
    if is_cut or end is None or isinstance(end, str):
        return output, "", 0
    return output, fault_line(*end), 1


NOT_A_CURSOR = "", "fault cursor: NotACursor\n", 2
