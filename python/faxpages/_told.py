"""What calls of libfaxpages tell, as exceptions and names; and the numbers that are handed to them."""

from __future__ import annotations

import ctypes
import functools
import operator
from fractions import Fraction
from typing import Any, Mapping, Optional, SupportsIndex

from . import _library as _c
from .faults import BY_NUMBER, Fault, FaxError, OutsideError

# The greatest number of the library.
MOST = 0xFFFFFFFF
# Room for the name of a fault or of a note, also of a later library.
_NAME = 64

# Pages of a file have few resolutions.
fraction = functools.lru_cache(maxsize=64)(Fraction)


def number_of(name: str, value: SupportsIndex, least: int = 0, most: int = MOST) -> int:
    """A number that is handed in. It is checked before the library has it, which would take it modulo 2 ** 32. It is an
    int, and not of a type that is made of int."""
    number = int(operator.index(value))
    if not least <= number <= most:
        raise ValueError(f"{name} must be from {least} to {most}")
    return number


def choice_of(name: str, value: str, choices: Mapping[str, int]) -> int:
    """The number of a word that is handed in."""
    if value not in choices:
        raise ValueError(f"no {name}: {value!r}; there are {', '.join(choices)}")
    return choices[value]


def _named(call: Any, number: int) -> str:
    """The name that a call of the library has for a number, or an empty text."""
    name = ctypes.create_string_buffer(_NAME)
    length: int = call(number, name, _NAME)
    return name.raw[:length].decode() if length <= _NAME else ""


def name_of(number: int) -> str:
    """The name of a fault by its number: 'Unknown 99', where the library has none."""
    return _named(_c.library.faxpages_fault_name, number) or f"Unknown {number}"


@functools.lru_cache(maxsize=64)
def note_name(number: int) -> str:
    """The name of a note by its number: 'Unknown', where the library has none."""
    return _named(_c.library.faxpages_note_name, number) or "Unknown"


def fault_of(fault: _c.Fault) -> Fault:
    """The exception of a fault."""
    kind = BY_NUMBER.get(fault.number, Fault)
    return kind(name_of(fault.number), fault.page, fault.row, fault.tag or None)


def stopped(status: int, fault: _c.Fault) -> Optional[Exception]:
    """What is raised after what a call has written, or None at the file's end, or if the call may go on."""
    if status in (_c.DONE, _c.END, _c.NO_ROOM):
        return None
    if status == _c.FAULT:
        return fault_of(fault)
    if status == _c.OUTSIDE:
        return OutsideError("the cursor is outside the file")
    return refusal(status)


def refusal(status: int) -> Exception:
    """Why a call wrote nothing, where it is no fault."""
    if status == _c.MEMORY:
        return MemoryError("libfaxpages was refused memory")
    return FaxError(f"libfaxpages answered with status {status}")
