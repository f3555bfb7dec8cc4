#!/usr/bin/env python3
"""Pickles and copies all that is public, and sends it through processes.

    copied.py FOLDER

FOLDER has the samples, and FAXPAGES_LIBRARY names the library. Ends with 'copied: N passed, N failed'."""

from __future__ import annotations

import concurrent.futures
import copy
import mmap
import multiprocessing
import os
import pickle
import sys
from typing import Any, Callable, Iterator
from functools import partial
from multiprocessing.context import BaseContext

from tests.library.counted import Claims
from tests.library.counted import SMALL, Claims

import faxpages

# So many seconds a pool may take: one that hangs is ended.
SECONDS = 900
FAULTS = [getattr(faxpages, name) for name in faxpages.__all__
          if isinstance(getattr(faxpages, name), type) and issubclass(getattr(faxpages, name), faxpages.Fault)]


def values(folder: str) -> Iterator[tuple[str, Any]]:
    """A value of each public type, by its name; each is equal to what comes back of it."""
    fax = faxpages.open(f"{folder}/damaged-fourth-page.tif")
    yield "Fax", fax
    yield "Page", fax.page(1)
    yield "Page that was read ahead", next(page for page in fax.pages if next(iter(page)))
    yield "Row", next(fax.rows())
    yield "Raster", fax.page(1).raster()
    yield "Raster of a damaged page", fax.page(3).raster(partial=True)
    yield "StripReport", faxpages.check_strip(b"\xff", 8, rows=1)
    yield "Received", fax.page(1).received
    yield "Cursor", faxpages.Cursor(3, 4)
    yield "Cursor inside a strip", fax.read_rows(faxpages.Cursor(1, 0), 2)[1]
    yield "Report", fax.check()
    report = faxpages.check(f"{folder}/return-to-control.tif")
    yield "Report with notes", report
    yield "Note", report.notes[0]
    for kind in FAULTS:
        yield kind.__name__, kind("AName", 1, 2, 258)
    yield "Fault with no tag", faxpages.BadCode("BadCode", 4294967295, 0)
    yield "PbmFault", faxpages.PbmFault("ShortRaster", 1 << 40)


def errors() -> Iterator[tuple[str, Exception]]:
    """The other exceptions, which are equal in their types and words."""
    for kind in (faxpages.FaxError, faxpages.OutsideError, faxpages.NotACursorError, faxpages.ConversionError,
                 faxpages.UnknownInput, faxpages.OutputTooLarge):
        yield kind.__name__, kind("some words")


def by_pickle(protocol: int, value: object) -> Any:
    return pickle.loads(pickle.dumps(value, protocol))


def ways() -> Iterator[tuple[str, Callable[[Any], Any]]]:
    """Ways to copy, by their names."""
    for protocol in range(pickle.HIGHEST_PROTOCOL + 1):
        yield f"by pickle {protocol}", partial(by_pickle, protocol)
    yield "by copy", copy.copy
    yield "by deepcopy", copy.deepcopy


def same(one: object, other: object) -> bool:
    """Whether a copy has the type, the words and all the attributes of the other."""
    if isinstance(one, BaseException) and isinstance(other, BaseException):
        return (type(one), str(one), one.args, vars(one)) == (type(other), str(other), other.args, vars(other))
    return (type(one), str(one), hash(one)) == (type(other), str(other), hash(other))


def copies(claims: Claims, folder: str) -> None:
    """Each value, in each way."""
    for name, copied in ways():
        for what, value in values(folder):
            try:
                claims.see(f"{what} {name}", same(copied(value), value) and copied(value) == value)
            except Exception as raised:  # pylint: disable=broad-except
                claims.see(f"{what} {name}: {raised!r}", False)
        for what, value in errors():
            claims.see(f"{what} {name}", same(copied(value), value))
    fault = faxpages.BadCode("BadCode", 1, 2)
    setattr(fault, "note", "mine")
    claims.see("a fault's own attributes", pickle.loads(pickle.dumps(fault)).note == "mine")
    claims.see("other faults are not equal", fault != faxpages.BadCode("BadCode", 1, 3) and fault != "BadCode" and
               fault != faxpages.DataEnds("BadCode", 1, 2) and faxpages.PbmFault("A", 1) != faxpages.PbmFault("A", 2))
    page = pickle.loads(pickle.dumps(next(values(folder))[1])).page(1)
    claims.see("a copy is read", list(copy.deepcopy(page)) == list(copy.copy(page)) == list(page) != [])


def not_copied(claims: Claims, folder: str) -> None:
    """Iterators and readers are not copied."""
    claims.raises("a reader by pickle", TypeError, lambda: pickle.dumps(faxpages.StripReader()))
    claims.raises("a reader by copy", TypeError, lambda: copy.copy(faxpages.StripReader()))
    fax = faxpages.open(f"{folder}/three-pages.tif")
    iterators: dict[str, object] = {"rows": fax.rows(), "pages": fax.pages, "rows of a page": iter(fax.page(0))}
    for name, iterator in iterators.items():
        claims.raises(f"an iterator of {name} by pickle", TypeError, partial(pickle.dumps, iterator))
        claims.raises(f"an iterator of {name} by copy", TypeError, partial(copy.copy, iterator))


def first_fault(name: str) -> int:
    """Reads all rows of a file, and raises its fault."""
    return sum(1 for _ in faxpages.open(name).rows())


def rows_of(page: faxpages.Page) -> list[faxpages.Row]:
    """The rows of a page, in another process."""
    return list(page)


def rows_after(fax: faxpages.Fax, cursor: faxpages.Cursor) -> list[faxpages.Row]:
    """The rows after a cursor, in another process."""
    return list(fax.rows(cursor))


def through_futures(claims: Claims, folder: str, context: BaseContext) -> None:
    """Faults, reports, pages and cursors go through processes."""
    names = sorted(os.path.join(folder, name) for name in os.listdir(folder) if name.endswith(".tif"))
    fax = faxpages.open(f"{folder}/three-mmr-rows.tif")
    cursor = fax.read_rows(faxpages.Cursor(), 1)[1]
    with concurrent.futures.ProcessPoolExecutor(2, mp_context=context) as pool:
        damaged = pool.submit(first_fault, f"{folder}/damaged-fourth-page.tif")
        claims.raises("a fault by futures", faxpages.OutOfRow, lambda: damaged.result(SECONDS))
        found = list(pool.map(faxpages.check, names, timeout=SECONDS))
        claims.see("reports by futures", found == [faxpages.check(name) for name in names])
        claims.see("some are damaged", any(not report.ok for report in found) and any(report.ok for report in found))
        rows = list(pool.map(rows_of, fax.pages, timeout=SECONDS))
        claims.see("pages by futures", rows == [list(page) for page in fax.pages] != [])
        after = pool.submit(rows_after, fax, cursor).result(SECONDS)
        claims.see("a cursor by futures", cursor.inside_strip and after == list(fax.rows(cursor)) != [])


def through_pool(claims: Claims, folder: str, context: BaseContext) -> None:
    """The same by a pool, which hangs where an exception cannot be unpickled."""
    names = [f"{folder}/one-mh-page.tif", f"{folder}/damaged-fourth-page.tif"]
    pool = context.Pool(2)
    try:
        found = pool.map_async(faxpages.check, names).get(SECONDS)
        claims.see("reports by a pool", found == [faxpages.check(name) for name in names])
        claims.raises("a fault by a pool", faxpages.OutOfRow,
                      lambda: pool.apply_async(first_fault, names[1:]).get(SECONDS))
        refused = pool.apply_async(faxpages.convert, (SMALL[:-1], "mh"))
        claims.raises("a fault of a PBM by a pool", faxpages.PbmFault, lambda: refused.get(SECONDS))
    finally:
        pool.terminate()


def own_bytes(claims: Claims, folder: str) -> None:
    """A fax has bytes of its own, whatever it is opened over."""
    name = f"{folder}/three-pages.tif"
    with open(name, "rb") as file:
        data = file.read()
        with mmap.mmap(file.fileno(), 0, access=mmap.ACCESS_READ) as mapped:
            faxes = [faxpages.open(mapped), faxpages.open(memoryview(mapped))]
    changed = bytearray(data)
    faxes += [faxpages.open(changed), faxpages.open(name), faxpages.Fax(memoryview(changed)), faxpages.open(data)]
    changed[:] = bytes(len(changed))
    claims.see("faxes have bytes of their own", len(set(faxes)) == 1 and all(fax == faxes[-1] for fax in faxes))
    claims.see("other bytes are another fax", faxpages.open(data[:-1]) != faxes[0] and faxes[0] != data)
    claims.raises("a number is no file", TypeError, partial(faxpages.open, 0))


def main() -> int:
    claims, folder = Claims(), sys.argv[1]
    for method in ("fork", "spawn"):
        through_pool(claims, folder, multiprocessing.get_context(method))
        through_futures(claims, folder, multiprocessing.get_context(method))
    copies(claims, folder)
    not_copied(claims, folder)
    own_bytes(claims, folder)
    return claims.ends("copied")


if __name__ == "__main__":
    sys.exit(main())
