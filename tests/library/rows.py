#!/usr/bin/env python3
"""Prints a file's rows as `faxpages rows` does, through libfaxpages by ctypes.

    rows.py LIBRARY FILE.."""

from __future__ import annotations

import ctypes
import sys

DONE, END, FAULT, OUTSIDE, MEMORY, NO_ROOM = range(6)
U32, SIZE = ctypes.c_uint32, ctypes.c_size_t
ROWS, ROOM = 100, 1 << 18


class Fault(ctypes.Structure):
    _fields_ = [(name, U32) for name in ("number", "tag", "page", "row")]


class Told(ctypes.Structure):
    _fields_ = [("count", SIZE), ("used", SIZE), ("page", U32), ("row", U32), ("fault", Fault)]


class Row(ctypes.Structure):
    _fields_ = [("at", SIZE)] + [(name, U32) for name in ("len", "page", "row", "width")]


class Place(ctypes.Structure):
    _fields_ = [(name, U32) for name in ("page", "row", "bits", "runs")]


def name_of(library: ctypes.CDLL, number: int) -> str:
    """The name of a fault."""
    name = ctypes.create_string_buffer(16)
    count = library.faxpages_fault_name(U32(number), name, SIZE(16))
    return name.raw[:count].decode()


def print_rows(library: ctypes.CDLL, data: bytes) -> int:
    """Prints the runs of all rows, some rows a call, and answers a status."""
    rows, out, told, place = (Row * ROWS)(), (U32 * ROOM)(), Told(), Place()
    runs = (U32 * 65536)()
    while True:
        status = library.faxpages_runs_from(data, SIZE(len(data)), ctypes.byref(place), runs, SIZE(len(runs)), rows,
                                            SIZE(ROWS), out, SIZE(ROOM), ctypes.byref(told))
        for row in rows[:told.count]:
            print("row", row.page, row.row, *out[row.at:row.at + row.len])
        if status not in (DONE, NO_ROOM):
            break
    if status == END:
        print("end")
        return 0
    if status != FAULT:
        sys.exit(f"status {status}")
    print(f"next 1:{told.page}:{told.row}", flush=True)
    fault = told.fault
    tag = f" {fault.tag}" if fault.tag else ""
    print(f"fault page {fault.page} row {fault.row}: {name_of(library, fault.number)}{tag}", file=sys.stderr)
    return 1


def main() -> None:
    library = ctypes.CDLL(sys.argv[1])
    library.faxpages_fault_name.restype = SIZE
    with open(sys.argv[2], "rb") as file:
        sys.exit(print_rows(library, file.read()))


main()
