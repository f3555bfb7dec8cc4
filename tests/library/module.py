#!/usr/bin/env python3
"""Compares the Python module with the program over files, and over damaged ones that it makes.

    module.py PROGRAM FILE..

FAXPAGES_LIBRARY names the library. Ends with 'module: N passed, N failed'."""

from __future__ import annotations

import ctypes
import concurrent.futures
import os
import random
import subprocess
import sys
from typing import Callable, Iterable, Iterator, TypeVar

from tests import TOP

import faxpages

PROGRAM = sys.argv[1]
# How many damaged files are made.
DAMAGED = 2000
# How many pages a file of many has.
MANY = 10000
TARGETS: list[tuple[str, list[str]]] = [("pbm", []), ("mh", ["--order", "2"]), ("mr", ["--k", "2", "--strip", "3"]), ("mmr", [])]


def said(*words: str, data: bytes) -> tuple[bytes, str, int]:
    """What the program says: its output, its error stream, its status."""
    ran = subprocess.run([PROGRAM, *words], input=data, capture_output=True, check=False, timeout=900)
    return ran.stdout, ran.stderr.decode(), ran.returncode


def rows_by_module(data: bytes) -> tuple[bytes, str, int]:
    """The same by the module."""
    lines, error, last = [], "", faxpages.Cursor()
    try:
        for row in faxpages.open(data).rows():
            lines.append(f"row {row.page} {row.number} {' '.join(map(str, row.runs()))}\n")
            last = faxpages.Cursor(row.page, row.number + 1)
        lines.append("end\n")
    except faxpages.Fault as fault:
        lines.append(f"next {last}\n")
        error = f"fault {fault.line}\n"
    return "".join(lines).encode(), error, 1 if error else 0


def pages_by_module(data: bytes) -> tuple[list[str], str]:
    """The rows, by pages one after another, and each once more by itself."""
    fax, lines, error = faxpages.open(data), [], ""
    try:
        for page in fax.pages:
            once = [f"row {row.page} {row.number} {' '.join(map(str, row.runs()))}\n" for row in page]
            lines += once
            if len(once) != page.rows or list(fax.page(page.number)) != list(page):
                return ["another page"], ""
    except faxpages.Fault as fault:
        error = f"fault {fault.line}\n"
    return lines, error


def check_by_module(data: bytes) -> tuple[bytes, str, int]:
    """The report, as the program prints it."""
    report = faxpages.check(data)
    lines = [f"note {note}\n" for note in report.notes] + [f"pages {report.pages} rows {report.rows}\n"]
    error = f"fault {report.fault.line}\n" if report.fault else ""
    return "".join(lines).encode(), error, 0 if report.ok else 1


def is_converted(data: bytes, target: str, words: list[str]) -> bool:
    """Whether the module converts as the program does, or refuses where it does."""
    output, error, status = said("convert", "-o", target, *words, data=data)
    options = dict(zip(words[::2], words[1::2]))
    try:
        made = faxpages.convert(
            data, target, order=int(options.get("--order", 1)), k=int(options.get("--k", 4)),
            strip=int(options["--strip"]) if "--strip" in options else None)
    except faxpages.FaxError as fault:
        return status == 1 and (not isinstance(fault, faxpages.Fault) or error == f"fault {fault.line}\n")
    return status == 0 and made == output


def is_salvaged(data: bytes, target: str, words: list[str]) -> bool:
    """Whether the module rewrites a damaged file as the program does, or nothing where that writes nothing."""
    output, error, status = said("salvage", "-o", target, *words, data=data)
    options = dict(zip(words[::2], words[1::2]))
    made = faxpages.open(data).salvaged_file(
        target, order=int(options.get("--order", 1)), k=int(options.get("--k", 4)),
        strip=int(options["--strip"]) if "--strip" in options else None)
    return (made or b"") == output and error in ("", *fault_lines(data)) and status == (error != "")


def fault_lines(data: bytes) -> list[str]:
    """The line of a file's fault, if it has one."""
    fault = faxpages.check(data).fault
    return [f"fault {fault.line}\n"] if fault else []


def batches(data: bytes) -> list[faxpages.Row]:
    """All rows in batches of three, each from the cursor of the one before, through its text."""
    fax, cursor, found = faxpages.open(data), faxpages.Cursor(), list[faxpages.Row]()
    try:
        while True:
            rows, cursor = fax.read_rows(faxpages.Cursor.parse(str(cursor)), 3)
            if not rows:
                return found
            found += rows
    except faxpages.Fault:
        return found


def claims(name: str, data: bytes) -> Iterator[tuple[str, bool]]:
    """What is claimed of a file: whether it is so, and a name."""
    wanted = said("rows", data=data)
    yield f"rows of {name}", rows_by_module(data) == wanted
    lines = [line + "\n" for line in wanted[0].decode().splitlines() if line.startswith("row ")]
    by_pages = pages_by_module(data)
    yield f"pages of {name}", by_pages[1:] == (wanted[1],) and lines[:len(by_pages[0])] == by_pages[0]
    yield f"report on {name}", check_by_module(data) == said("check", data=data)


class Counted:
    """A library whose calls are counted."""

    def __init__(self, library: ctypes.CDLL) -> None:
        self.library, self.calls = library, 0

    def __getattr__(self, name: str) -> object:
        self.calls += 1
        return getattr(self.library, name)


Item = TypeVar("Item")


def in_threads(work: Callable[[], int]) -> int:
    """What four threads find together, each of which does the same."""
    return by_pool(lambda _: work(), range(4))


def by_pool(work: Callable[[Item], int], items: Iterable[Item]) -> int:
    """What four threads find together, which share the items."""
    with concurrent.futures.ThreadPoolExecutor(4) as pool:
        return sum(pool.map(work, items))


def many_pages() -> Iterator[tuple[str, bool]]:
    """All pages of a file of many, and their rows, are read by few calls, each by its number too; pages that are read
    in part, or two at once, are the same."""
    small = b"P4\n64 8\n" + bytes([0x0F, 0xF0, 0, 0, 0xFF, 0, 0xFF, 0]) * 8
    fax = faxpages.open(faxpages.convert(small * MANY, "mmr"))
    library = faxpages._c.library
    ways: dict[str, Callable[[], int]] = {
        "forms": lambda: sum(page.rows for page in fax.pages),
        "forms by number": lambda: sum(fax.page(number).rows for number in range(MANY)),
        "rows of pages": lambda: sum(1 for page in fax.pages for row in page),
        "packed pages": lambda: sum(len(page.packed()) // 8 for page in fax),
        "rasters of pages by number": lambda: sum(fax[number].raster().rows for number in range(len(fax))),
        "first rows of pages": lambda: 8 * sum(next(iter(page)).number == 0 for page in fax.pages),
        "rows": lambda: sum(1 for row in fax.rows()),
        "each second page": lambda: 2 * sum(1 for page in fax.pages if page.number % 2 for row in page),
        "rows of pages by four threads": lambda: in_threads(lambda: sum(1 for page in fax.pages for row in page)),
        "pages for four threads": lambda: 4 * by_pool(lambda page: sum(1 for row in page), fax.pages),
        "numbers for four threads": lambda: 4 * by_pool(lambda at: sum(1 for row in fax.page(at)), range(MANY)),
    }
    for name, way in ways.items():
        counted = Counted(library)
        setattr(faxpages._c, "library", counted)
        found = way()
        setattr(faxpages._c, "library", library)
        times = 4 if "four" in name else 1
        fine = found == times * 8 * MANY and counted.calls < times * 64
        yield f"{MANY} pages: {name} by {counted.calls} calls", fine
    first, second = fax.page(5), fax.page(6)
    both = list(zip(first, second))
    yield "two pages at once", [row for row, _ in both] == list(first) and [row for _, row in both] == list(second)


def long_page() -> Iterator[tuple[str, bool]]:
    """A page whose rows pass the room of a call several times is read whole, in each way."""
    raster = (bytes(240) + b"fax") * 6200
    raster = raster[:250 * 6000]
    fax = faxpages.open(faxpages.convert(b"P4\n2000 6000\n" + raster, "mmr"))
    yield "rows of a long page", b"".join(row.packed for row in fax.rows()) == raster
    yield "a long page", fax.page(0).packed() == raster
    first, after = fax.read_rows(faxpages.Cursor(), 4900)
    yield "a long page in two", b"".join(row.packed for row in first + list(fax.rows(after))) == raster


def damaged(files: list[bytes]) -> Iterator[tuple[str, bytes]]:
    """Files with a few bytes changed, or cut."""
    draw = random.Random(47)
    for number in range(DAMAGED):
        data = bytearray(draw.choice(files))
        for _ in range(draw.randrange(1, 4)):
            if data:
                data[draw.randrange(len(data))] = draw.randrange(256)
        yield f"damaged file {number}", bytes(data[:draw.randrange(len(data) + 1)] if draw.randrange(4) == 0 else data)


def main() -> int:
    files = {name: open(name, "rb").read() for name in sys.argv[2:]}
    passed, failed = 0, 0

    def see(name: str, fine: bool) -> None:
        nonlocal passed, failed
        passed, failed = passed + fine, failed + (not fine)
        if not fine:
            print(f"FAILED: {name}")

    for name, data in files.items():
        for claim in claims(name, data):
            see(*claim)
        see(f"batches of {name}", len(batches(data)) == said("rows", data=data)[0].count(b"row "))
        for target, words in TARGETS:
            see(f"{name} as {target}", is_converted(data, target, words))
            see(f"what is left of {name} as {target}", is_salvaged(data, target, words))
    for claim in [*many_pages(), *long_page()]:
        see(*claim)
    small = [data for data in files.values() if len(data) < 3000]
    for name, data in damaged(small):
        see(f"rows of {name}", rows_by_module(data) == said("rows", data=data))
        see(f"what is left of {name}", is_salvaged(data, "mmr", []))
    for text in ("", "1:0", "1:00:0", "2:0:0:0:", "3:0:0", "1:0:4294967296", "1:0:0 ", "é"):
        try:
            faxpages.Cursor.parse(text)
            see(f"cursor {text!r}", False)
        except faxpages.NotACursorError:
            see(f"cursor {text!r}", True)
    see("the version", faxpages.version() == open(os.path.join(TOP, "VERSION")).read().strip())
    print(f"module: {passed} passed, {failed} failed")
    return 1 if failed else 0


sys.exit(main())
