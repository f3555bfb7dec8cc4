"""libfaxpages by ctypes: its structs and its calls, as faxpages.h has them."""

from __future__ import annotations

import ctypes
import os

DONE, END, FAULT, OUTSIDE, MEMORY, NO_ROOM, NOT_A_PLACE, BAD_OPTIONS, TOO_LARGE, DATA_END, MORE = range(11)
NO_STRIP = 0xFFFFFFFF
RUNS = 65536

U32 = ctypes.c_uint32
U64 = ctypes.c_uint64
SIZE = ctypes.c_size_t
U32_BYTES = 4


class Fault(ctypes.Structure):
    number: int
    tag: int
    page: int
    row: int
    _fields_ = [("number", U32), ("tag", U32), ("page", U32), ("row", U32)]


class Told(ctypes.Structure):
    count: int
    used: int
    page: int
    row: int
    fault: Fault
    _fields_ = [("count", SIZE), ("used", SIZE), ("page", U32), ("row", U32), ("fault", Fault)]


class Form(ctypes.Structure):
    width: int
    rows: int
    coding: int
    order: int
    aligned: int
    exchanged: int
    rows_per_strip: int
    strips: int
    x_numerator: int
    x_denominator: int
    y_numerator: int
    y_denominator: int
    unit: int
    _fields_ = [(name, U32) for name in (
        "width", "rows", "coding", "order", "aligned", "exchanged", "rows_per_strip", "strips", "x_numerator",
        "x_denominator", "y_numerator", "y_denominator", "unit")]


class Row(ctypes.Structure):
    at: int
    len: int
    page: int
    row: int
    width: int
    _fields_ = [("at", SIZE), ("len", U32), ("page", U32), ("row", U32), ("width", U32)]


class Place(ctypes.Structure):
    page: int
    row: int
    bits: int
    runs: int
    _fields_ = [("page", U32), ("row", U32), ("bits", U32), ("runs", U32)]


class Lost(ctypes.Structure):
    row: int
    rows: int
    fault: int
    _fields_ = [("row", U32), ("rows", U32), ("fault", U32)]


class Received(ctypes.Structure):
    has_bad_rows: int
    bad_rows: int
    has_clean: int
    clean: int
    has_consecutive: int
    consecutive: int
    fault: Fault
    _fields_ = [(name, U32) for name in (
        "has_bad_rows", "bad_rows", "has_clean", "clean", "has_consecutive", "consecutive")] + [("fault", Fault)]


class Note(ctypes.Structure):
    page: int
    strip: int
    kind: int
    _fields_ = [("page", U32), ("strip", U32), ("kind", U32)]


class Report(ctypes.Structure):
    pages: int
    rows: int
    notes: int
    fault: Fault
    _fields_ = [("pages", U64), ("rows", U64), ("notes", SIZE), ("fault", Fault)]


class Options(ctypes.Structure):
    _fields_ = [("target", U32), ("order", U32), ("k", U32), ("strip", U32), ("aligned", U32)]


class Converted(ctypes.Structure):
    len: int
    image: int
    fault: Fault
    _fields_ = [("len", SIZE), ("image", U64), ("fault", Fault)]


class Strip(ctypes.Structure):
    width: int
    rows: int
    coding: int
    order: int
    aligned: int
    _fields_ = [(name, U32) for name in ("width", "rows", "coding", "order", "aligned")]


class StripReport(ctypes.Structure):
    rows: int
    no_end_of_block: int
    return_to_control: int
    data_after_end: int
    not_t4_choice: int
    fault: Fault
    _fields_ = [(name, U32) for name in (
        "rows", "no_end_of_block", "return_to_control", "data_after_end", "not_t4_choice")] + [("fault", Fault)]


class Written(ctypes.Structure):
    len: int
    link: int
    total: int
    added: int
    _fields_ = [("len", SIZE), ("link", U32), ("total", U32), ("added", U32)]


FILE = [ctypes.c_char_p, SIZE]
NUMBERS = [ctypes.c_void_p, SIZE]
CALLS = {
    "faxpages_forms": (U32, FILE + [U32, ctypes.c_void_p, SIZE, ctypes.POINTER(Told)]),
    "faxpages_rows_from": (U32, FILE + [ctypes.POINTER(Place)] + NUMBERS * 3 + [ctypes.POINTER(Told)]),
    "faxpages_runs_from": (U32, FILE + [ctypes.POINTER(Place)] + NUMBERS * 3 + [ctypes.POINTER(Told)]),
    "faxpages_changes_from": (U32, FILE + [ctypes.POINTER(Place)] + NUMBERS * 3 + [ctypes.POINTER(Told)]),
    "faxpages_salvage": (
        U32, FILE + [U32, ctypes.POINTER(Form)] + NUMBERS + [SIZE] + NUMBERS + [ctypes.POINTER(Told)]),
    "faxpages_salvage_from": (
        U32, FILE + [ctypes.POINTER(Place)] + NUMBERS * 2 + [SIZE] + NUMBERS + [ctypes.POINTER(Told)]),
    "faxpages_salvage_strip": (
        U32, FILE + [ctypes.POINTER(Strip)] + NUMBERS + [SIZE] + NUMBERS + [ctypes.POINTER(Told)]),
    "faxpages_received": (U32, FILE + [U32, ctypes.POINTER(Received)]),
    "faxpages_check": (U32, FILE + [ctypes.c_void_p, SIZE, ctypes.POINTER(Report)]),
    "faxpages_convert": (U32, FILE + [ctypes.POINTER(Options), ctypes.c_void_p, SIZE, ctypes.POINTER(Converted)]),
    "faxpages_salvage_convert": (
        U32, FILE + [ctypes.POINTER(Options), ctypes.c_void_p, SIZE, ctypes.POINTER(Converted)]),
    "faxpages_strip_rows": (
        U32, FILE + [ctypes.POINTER(Strip), ctypes.POINTER(Place)] + NUMBERS * 2 + [SIZE, ctypes.POINTER(Told)]),
    "faxpages_strip_part": (
        U32, FILE + [ctypes.POINTER(Strip), ctypes.POINTER(Place)] + NUMBERS * 2 + [SIZE, ctypes.POINTER(Told)]),
    "faxpages_strip_check": (U32, FILE + [ctypes.POINTER(Strip), ctypes.POINTER(StripReport)]),
    "faxpages_strip_code": (
        U32, [ctypes.POINTER(Strip), U32] + FILE + [SIZE] + NUMBERS + [ctypes.POINTER(SIZE)]),
    "faxpages_add_page": (
        U32, [ctypes.POINTER(Form), U32] + FILE + [SIZE] + NUMBERS + [ctypes.POINTER(Written)]),
    "faxpages_end_pages": (U32, NUMBERS + [ctypes.POINTER(Written)]),
    "faxpages_place_text": (U32, [ctypes.POINTER(Place)] + NUMBERS * 2 + [ctypes.POINTER(SIZE)]),
    "faxpages_place_parse": (U32, FILE + [ctypes.POINTER(Place)] + NUMBERS),
    "faxpages_fault_name": (SIZE, [U32] + NUMBERS),
    "faxpages_note_name": (SIZE, [U32] + NUMBERS),
    "faxpages_version": (U32, []),
    "faxpages_version_text": (SIZE, NUMBERS),
}


def _load() -> ctypes.CDLL:
    """The library: the one that FAXPAGES_LIBRARY names, one beside this module, or an installed one."""
    named = os.environ.get("FAXPAGES_LIBRARY")
    name = "libfaxpages.so.1"
    here = os.path.join(os.path.dirname(os.path.abspath(__file__)), name)
    tried = [named] if named else [here, name, os.path.expanduser(f"~/.local/lib/{name}"), f"/usr/local/lib/{name}"]
    for path in tried:
        try:
            library = ctypes.CDLL(path)
            break
        except OSError:
            continue
    else:
        raise ImportError(f"{name} is not installed; FAXPAGES_LIBRARY can name it. Tried: {', '.join(tried)}")
    for call, (result, arguments) in CALLS.items():
        try:
            function = getattr(library, call)
        except AttributeError:
            raise ImportError(f"{path} is older than this module: it lacks {call}") from None
        function.restype, function.argtypes = result, arguments
    return library


library = _load()
