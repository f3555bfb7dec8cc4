"""What a check reports of a file, by a plain reading of its strips and of what stands after their rows."""

from __future__ import annotations

import itertools

from tests.plain.drawing import MAKE_UP, MODE_CODES, TERMINATING
from tests.plain.reading import (
    Entries, Fault, File, Text, bits_of, chain, fault_line, next_changing, other, read_form, read_one_dimensional,
    read_start, read_strip, read_two_dimensional, runs_of, scalar,
)
from tests.plain.tables import EOL

NAMES = ["NoEndOfBlock", "ReturnToControl", "DataAfterEnd", "NotT4Choice", "EntriesOutOfOrder", "BadFaxLines"]


# What T.4 chooses.


def chosen_run(colour: str, length: int) -> str:
    codes = MAKE_UP[colour][2560] * (length // 2560) if length >= 2560 else ""
    length %= 2560
    if length >= 64:
        codes += MAKE_UP[colour][length // 64 * 64]
    return codes + TERMINATING[colour][length % 64]


def chosen_one_dimensional(row: str) -> str:
    return "".join(map(chosen_run, itertools.cycle("WB"), runs_of(row)))


def chosen_two_dimensional(reference: str, row: str) -> str:
    codes, a0 = "", -1
    while a0 < len(row):
        colour = "W" if a0 < 0 else row[a0]
        a1 = next_changing(row, a0)
        b1 = next_changing(reference, a0, colour)
        b2 = next_changing(reference, b1)
        if b2 < a1:
            codes, a0 = codes + MODE_CODES["pass"], b2
        elif abs(a1 - b1) <= 3:
            codes, a0 = codes + MODE_CODES[a1 - b1], a1
        else:
            a2 = next_changing(row, a1)
            runs = chosen_run(colour, a1 - max(a0, 0)) + chosen_run(other(colour), a2 - a1)
            codes, a0 = codes + MODE_CODES["horizontal"] + runs, a2
    return codes


# What stands after the last row.


def after_mark(coding: str, left: str) -> str | None:
    """What stands after the end mark at the front of the bits, or None where there is none."""
    if coding == "mmr":
        return left[24:] if left.startswith(EOL * 2) else None
    for _ in range(6):
        zeros = left.find("1")
        if zeros < 11:
            return None
        left = left[zeros + 1 :]
        if coding == "mr":
            if not left.startswith("1"):
                return None
            left = left[1:]
    return left


def notes_of_strip(coding: str, order: int, width: int, rows: int, data: bytes) -> list[str]:
    """The names of the notes on a strip of which all rows can be read."""
    bits, at, reference, is_choice = bits_of(data, order), 0, "W" * width, True
    for number in range(rows):
        is_one_dimensional, at = read_start(coding, number, bits, at)
        if is_one_dimensional:
            row, after = read_one_dimensional(width, bits, at)
            chosen = chosen_one_dimensional(row)
        else:
            row, after = read_two_dimensional(reference, bits, at)
            chosen = chosen_two_dimensional(reference, row)
        is_choice = is_choice and bits[at:after] == chosen
        reference, at = row, after
    left = bits[at:]
    marked = after_mark(coding, left)
    holds = [
        coding == "mmr" and marked is None,
        coding != "mmr" and marked is not None,
        "1" in (left if marked is None else marked),
        not is_choice,
    ]
    return list(itertools.compress(NAMES, holds))


# What the receiver of a page counted of bad rows.


def received_number(file: File, entries: Entries, tag: int) -> int | None:
    """The number of a field that a page may have."""
    try:
        return scalar(file, entries, tag)
    except Fault:
        return None


def received_lines(file: File, entries: Entries, page: int) -> list[str]:
    """The line of a page of which the receiver says that rows were bad."""
    bad, clean, consecutive = (received_number(file, entries, tag) for tag in (326, 327, 328))
    if not bad and not clean:
        return []
    numbers = " ".join("-" if number is None else str(number) for number in (bad, consecutive, clean))
    return [f"{note_line(page, None, 'BadFaxLines')} {numbers}"]


# Files.


def note_line(page: int, strip: int | None, name: str) -> str:
    place = f"page {page}" if strip is None else f"page {page} strip {strip}"
    return f"note {place}: N{NAMES.index(name) + 1} {name}"


def is_in_order(file: File, offset: int) -> bool:
    """Whether the tags of a directory ascend."""
    places = range(offset + 2, offset + 2 + 12 * file.number(offset, 2), 12)
    tags = [file.number(place, 2) for place in places]
    return all(first < second for first, second in zip(tags, tags[1:]))


def check_page(file: File, offset: int, entries: Entries, page: int,
               received: bool) -> tuple[list[str], int, Fault | None]:
    """The note lines of a page, its rows that can be read, and the fault after them, if there is one."""
    try:
        form = read_form(file, entries)
    except Fault as refused:
        return [], 0, refused
    lines, read = [] if is_in_order(file, offset) else [note_line(page, None, "EntriesOutOfOrder")], 0
    if received:
        lines += received_lines(file, entries, page)
    for strip in range(form.strips):
        place, count = form.offsets[strip], form.counts[strip]
        if not file.has(place, count):
            return lines, read, Fault("StripOutside")
        left = min(form.height, form.rows - strip * form.height)
        told = form.coding, form.order, form.width, left, file.data[place : place + count]
        rows, fault = read_strip(*told)
        read += len(rows)
        if fault:
            return lines, read, fault
        lines += [note_line(page, strip, name) for name in notes_of_strip(*told)]
    return lines, read, None


def check_pages(data: bytes, received: bool) -> tuple[list[str], int, int, tuple[int, int, Fault] | None]:
    """The note lines of a file, how many pages and rows were read, and the fault with its place, if there is one."""
    try:
        file = File(data)
    except Fault as refused:
        return [], 0, 0, (0, 0, refused)
    directories, fault = chain(file)
    lines: list[str] = []
    rows, offset = 0, file.first
    for page, entries in enumerate(directories):
        own, read, stop = check_page(file, offset, entries, page, received)
        lines += own
        rows += read
        if stop:
            return lines, page, rows, (page, read, stop)
        _, offset = file.directory(offset)
    count = len(directories)
    return lines, count, rows, (count, 0, fault) if fault else None


def report_of(data: bytes, received: bool = False) -> Text:
    """What a check writes, with what receivers counted or without: the output, the error line and the status."""
    lines, pages, rows, fault = check_pages(data, received)
    output = "\n".join([*lines, f"pages {pages} rows {rows}", ""])
    return output, fault_line(*fault) if fault else "", 1 if fault else 0
