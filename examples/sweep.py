#!/usr/bin/env python3
"""Sweeps an archive of faxes: says of each damaged one where and how, and counts the rest.

    sweep.py FOLDER

A fax or a folder that cannot be read is named with the reason. The status is 0 if all faxes were read and are whole,
and otherwise 1. After ./install this runs as it stands here, with the module of these sources; elsewhere the module
has to be installed, by the package python3-faxpages or by pip."""

import collections
import os
import sys
from typing import Counter, Iterator

sys.path.append(os.path.join(os.path.dirname(os.path.abspath(__file__)), "..", "python"))  # if none is installed

try:
    import faxpages
except ImportError as missing:
    sys.exit(f"sweep.py: {missing}")


# Faults of files that are no faxes which are read here, as a PDF or one with another compression: they need not be
# damaged.
OTHERS = (faxpages.Unsupported, faxpages.ByteOrder, faxpages.Magic)


def faxes(folder: str, counts: Counter[str]) -> Iterator[str]:
    """The names of all faxes below a folder. A folder that cannot be read is counted."""
    for base, _, names in sorted(os.walk(folder, onerror=lambda error: not_read(error, counts))):
        for name in sorted(names):
            if name.lower().endswith((".tif", ".tiff")):
                yield os.path.join(base, name)


def not_read(error: OSError, counts: Counter[str]) -> None:
    """Says what cannot be read, and why."""
    print(f"{error.filename}: {error.strerror}")
    counts.update(["not read"])


def sweep(name: str, counts: Counter[str]) -> None:
    """Checks one fax."""
    try:
        report = faxpages.check(name)
    except OSError as error:
        error.filename = name  # a read that failed does not name its file
        not_read(error, counts)
        return
    other = isinstance(report.fault, OTHERS)
    counts.update(faxes=1, pages=report.pages, rows=report.rows, damaged=int(not report.ok and not other))
    counts.update({"of other kinds": int(other)})
    counts.update(f"N{note.number} {note.name}" for note in report.notes)
    if not report.ok:
        print(f"{name}: {report.fault}")


def main() -> int:
    if len(sys.argv) != 2:
        print("usage: sweep.py FOLDER", file=sys.stderr)
        return 2
    counts: Counter[str] = collections.Counter()
    for name in faxes(sys.argv[1], counts):
        sweep(name, counts)
    for what, count in sorted(counts.items()):
        print(f"{count} {what}")
    return 1 if counts["damaged"] or counts["of other kinds"] or counts["not read"] else 0


if __name__ == "__main__":
    sys.exit(main())
