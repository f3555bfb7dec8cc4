#!/usr/bin/env python3
"""Reads faxes that threads share, switching between threads each microsecond.

    threaded.py SECONDS

Each thread has to find what one alone finds, and memory stays whole: one that is written over ends the process. An
iterator that is shared too may raise a ValueError, and hands out no wrong row. FAXPAGES_LIBRARY names the library. Ends
with 'threaded: N passed, N failed'."""

from __future__ import annotations

import itertools
import sys
import threading
import time
from typing import Any, Callable, Dict, Iterator, List, Sequence
from functools import partial

from tests.library.counted import Claims
from tests import TOP
from tests.library.counted import Claims, until_fault

import faxpages

THREADS = 6
# The rows of pages, of which some end amid what is read ahead, and how many rows are in a batch.
HEIGHTS, BATCH = [8, 5, 11] * 20, 7
DAMAGED = "damaged-fourth-page.tif"


def open_samples() -> list[faxpages.Fax]:
    """A fax of many small pages, and a damaged one, of which nothing is kept yet."""
    images = [b"P4\n64 %d\n" % rows + bytes(range(8 * rows)) for rows in HEIGHTS]
    return [faxpages.open(faxpages.convert(b"".join(images), "mmr")), faxpages.open(f"{TOP}/samples/{DAMAGED}")]


def by_pages(fax: faxpages.Fax) -> tuple[list[faxpages.Row], faxpages.Fault | None]:
    """The rows of pages in order."""
    return until_fault(row for page in fax.pages for row in page)


def by_rasters(fax: faxpages.Fax) -> tuple[list[faxpages.Row], faxpages.Fault | None]:
    """The rows of pages in one piece."""
    def rows() -> Iterator[faxpages.Row]:
        for page in fax:
            raster = page.raster(partial=True)
            for at in range(raster.rows):
                yield faxpages.Row(page.number, at, page.width, raster.packed[at * raster.stride:][:raster.stride])
            if raster.fault:
                raise raster.fault
    return until_fault(rows())


def by_numbers(fax: faxpages.Fax) -> tuple[list[faxpages.Row], faxpages.Fault | None]:
    """The forms and the rows of pages by their numbers."""
    def rows() -> Iterator[faxpages.Row]:
        for number in itertools.count():
            try:
                page = fax.page(number)
            except faxpages.OutsideError:
                return
            yield from page
    return until_fault(rows())


def by_rows(fax: faxpages.Fax) -> tuple[list[faxpages.Row], faxpages.Fault | None]:
    """The rows of all pages."""
    return until_fault(fax.rows())


def by_batches(fax: faxpages.Fax) -> tuple[list[faxpages.Row], faxpages.Fault | None]:
    """The rows by cursors that went through their text."""
    def rows() -> Iterator[faxpages.Row]:
        cursor = faxpages.Cursor()
        while True:
            found, after = fax.read_rows(cursor, BATCH)
            if not found:
                return
            yield from found
            cursor = faxpages.Cursor.parse(str(after))
    return until_fault(rows())


def by_calls(fax: faxpages.Fax) -> tuple[faxpages.Report, bytes | faxpages.Fault]:
    """A check, and a conversion."""
    try:
        return fax.check(), fax.convert("mr", k=2, strip=3)
    except faxpages.Fault as fault:
        return fax.check(), fault


Way = Callable[[faxpages.Fax], Any]
# What each way has of each sample.
Wanted = Dict[Way, List[Any]]
WAYS: list[Way] = [by_pages, by_rasters, by_numbers, by_rows, by_batches, by_calls]


def together(works: Sequence[Callable[[], Any]]) -> list[Any]:
    """Does each work in a thread of its own, at the same time, and answers what they gave or raised."""
    found: list[Any] = [None] * len(works)
    begin = threading.Barrier(len(works))

    def work(number: int) -> None:
        begin.wait()
        try:
            found[number] = works[number]()
        except BaseException as raised:  # pylint: disable=broad-except
            found[number] = raised

    threads = [threading.Thread(target=work, args=(number,)) for number in range(len(works))]
    for thread in threads:
        thread.start()
    for thread in threads:
        thread.join()
    return found


def share_faxes(claims: Claims, wanted: Wanted) -> None:
    """Threads that each go over one fax, in the same way, and in several."""
    for way in WAYS:
        for fax, right in zip(open_samples(), wanted[way]):
            found = together([partial(way, fax)] * THREADS)
            claims.see(f"a fax that is shared, {way.__name__}", found == [right] * THREADS)
    for number, fax in enumerate(open_samples()):
        found = together([partial(way, fax) for way in WAYS])
        claims.see("a fax that is shared, in all ways", found == [wanted[way][number] for way in WAYS])


def share_pages(claims: Claims, wanted: Wanted) -> None:
    """Threads that share pages and a cursor, each with an iterator of its own."""
    rows = wanted[by_pages][0][0]
    fax = open_samples()[0]
    pages = list(fax.pages)
    found = together([lambda: [row for page in pages for row in page]] * THREADS)
    claims.see("pages that are shared", found == [rows] * THREADS)
    after = fax.read_rows(faxpages.Cursor(), BATCH)[1]
    found = together([lambda: list(fax.rows(after))] * THREADS)
    claims.see("a cursor that is shared", found == [rows[BATCH:]] * THREADS)


def take_all(shared: Iterator[Any], found: list[Any], count: int) -> None:
    """Takes so many items of an iterator that others take of too."""
    for _ in range(count):
        try:
            found.append(next(shared))
        except (ValueError, StopIteration):
            pass


def share_iterators(claims: Claims, wanted: Wanted) -> None:
    """Threads that share an iterator: each row is right, and none is handed out twice."""
    rows = wanted[by_pages][0][0]
    for name in ("rows", "pages"):
        fax = open_samples()[0]
        shared: Iterator[Any] = fax.rows() if name == "rows" else fax.pages
        found: list[Any] = []
        ended = together([partial(take_all, shared, found, len(rows))] * THREADS)
        if name == "pages":
            numbers = [page.number for page in found]
            fine = all(page.rows == HEIGHTS[page.number] for page in found) and len(numbers) == len(set(numbers))
        else:
            fine = set(found) <= set(rows) and len(found) == len(set(found))
        claims.see(f"an iterator of {name} that is shared", fine and ended == [None] * THREADS)


def take_turns(claims: Claims) -> None:
    """An iterator goes on where it was, after others have read other pages: also in a page that was read in part."""
    fax = open_samples()[0]
    pages = list(fax.pages)
    for page in pages[3:]:
        for before in range(page.number - 3, page.number):
            whole = list(fax.page(page.number))
            _, _, rows = list(pages[0]), list(pages[before]), iter(page)
            found = [next(rows), *pages[0], *rows]
            claims.see(f"page {page.number} in turns", found == whole[:1] + list(fax.page(0)) + whole[1:])


def main() -> int:
    claims = Claims()
    wanted: Wanted = {way: [way(fax) for fax in open_samples()] for way in WAYS}
    claims.see("the ways are one", all(wanted[way][0] == wanted[by_pages][0] for way in WAYS[:5]))
    claims.see("rows are there", len(wanted[by_pages][0][0]) == sum(HEIGHTS) and wanted[by_rows][1][1] is not None)
    take_turns(claims)
    sys.setswitchinterval(1e-6)
    end = time.monotonic() + float(sys.argv[1])
    while time.monotonic() < end:
        for share in (share_faxes, share_pages, share_iterators):
            share(claims, wanted)
    return claims.ends("threaded")


if __name__ == "__main__":
    sys.exit(main())
