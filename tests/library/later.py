#!/usr/bin/env python3
"""The Python module over a library as a later version may be (later.c): notes, faults and statuses that the module does
not know are reported by their numbers, and nothing passes for whole.

    later.py

FAXPAGES_LIBRARY names the library. Ends with 'later: N passed, N failed'."""

from __future__ import annotations

import os
import pickle
import subprocess
import sys
from typing import Callable

import tests
from tests.library.counted import Claims

import faxpages

FAX = os.path.join(tests.TOP, "samples", "one-mh-page.tif")
# A page whose form was read before the library answers otherwise.
PAGE = faxpages.open(FAX).page(0)
# A strip of one row of eight white pels in MMR.
STRIP = b"\x80"
LINE = "page 0 row 0: Unknown 99 300"
# What reads a fax or a strip, by a name.
CALLS: dict[str, Callable[[], object]] = {
    "how many pages": lambda: len(faxpages.open(FAX)),
    "a page": lambda: faxpages.open(FAX).page(0),
    "rows": lambda: list(faxpages.open(FAX).rows()),
    "a strip": lambda: faxpages.strip(STRIP, width=8, rows=1),
    "a strip of unknown height": lambda: faxpages.strip(STRIP, width=8),
    "what is left of a page": lambda: PAGE.salvaged(),
    "a conversion": lambda: faxpages.convert(FAX, "mmr"),
    "a damaged file, rewritten": lambda: faxpages.open(FAX).salvaged_file("mmr"),
}


def later(what: str) -> None:
    """Has the library answer so from now on."""
    os.environ["FAXPAGES_LATER"] = what


def notes(claims: Claims) -> None:
    """A note has the library's own name, or none."""
    later("notes")
    found = faxpages.check(FAX).notes
    claims.see(f"notes: {found}", found == (
        faxpages.Note(0, 0, 98, "LaterNote"), faxpages.Note(0, None, 99, "Unknown")))
    said = [str(note) for note in found]
    claims.see(f"notes in words: {said}", said == ["page 0 strip 0: N98 LaterNote", "page 0: N99 Unknown"])
    claims.see("notes that are pickled", pickle.loads(pickle.dumps(found)) == found)
    environment = {**os.environ, "PYTHONPATH": os.path.join(tests.TOP, "python")}
    words = [sys.executable, os.path.join(tests.TOP, "examples", "sweep.py"), os.path.dirname(FAX)]
    ran = subprocess.run(words, env=environment, stdout=subprocess.PIPE, stderr=subprocess.STDOUT, text=True,
                         check=False)
    for name in ("N98 LaterNote", "N99 Unknown"):
        claims.see(f"the example in Python counts {name}: {ran.stdout}", f" {name}\n" in ran.stdout)


def faults(claims: Claims) -> None:
    """A fault has its number for a name, and its tag."""
    later("fault")
    reports: dict[str, faxpages.Report | faxpages.StripReport] = {
        "check": faxpages.check(FAX), "check_strip": faxpages.check_strip(STRIP, width=8)}
    for name, report in reports.items():
        claims.see(f"{name}: {report}", report.fault is not None and not report.ok and report.fault.line == LINE)
    fault = reports["check"].fault
    assert fault is not None
    claims.see(f"its parts: {fault!r}", (type(fault), fault.name, fault.tag) == (faxpages.Fault, "Unknown 99", 300))
    claims.see(f"its words: {fault}", str(fault) == f"{LINE}: A fault of a later version.")
    claims.see("a fault that is pickled", pickle.loads(pickle.dumps(fault)) == fault)
    for name, call in CALLS.items():
        claims.raises(f"{name}, an unknown fault", faxpages.Fault, call)


def statuses(claims: Claims) -> None:
    """A status that is not known is an error, whatever was asked."""
    later("status")
    calls = {**CALLS, "check": lambda: faxpages.check(FAX), "check_strip": lambda: faxpages.check_strip(STRIP, width=8),
             "a cursor": lambda: faxpages.Cursor.parse("1:0:0")}
    for name, call in calls.items():
        claims.raises(f"{name}, an unknown status", faxpages.FaxError, call)


def unchanged(claims: Claims) -> None:
    """Otherwise it answers as the library of today."""
    later("")
    report = faxpages.check(FAX)
    claims.see(f"a library of today: {report}", report.ok and report.pages == 1 and not report.notes)


def main() -> int:
    claims = Claims()
    for part in (notes, faults, statuses, unchanged):
        part(claims)
    return claims.ends("later")


if __name__ == "__main__":
    sys.exit(main())
