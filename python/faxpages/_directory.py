"""Directories of a TIFF file, as its bytes have them: what fields a page has, whatever the library makes of them."""

from __future__ import annotations

import struct
from typing import Dict, Iterator, List, NamedTuple, Optional, Tuple

from .faults import Fault

RESOLUTIONS, UNIT, RATIONAL, SHORT = (282, 283), 296, 5, 3
_LONG = 4
SIZES = {1: 1, 2: 1, 3: 2, 4: 4, 5: 8, 6: 1, 7: 1, 8: 2, 9: 4, 10: 8, 11: 4, 12: 8, 13: 4}
_STRIPS, _TILES = 273, (322, 324)


class Entry(NamedTuple):
    """A field: its tag, its type, how many values it has, and where they stand."""

    tag: int
    kind: int
    values: int
    at: int

    def size(self) -> int:
        """How many bytes its values have."""
        return SIZES.get(self.kind, 0) * self.values


class Directories:
    """The directories of a file, one after another, each looked for once. struct.error: one is not in the file."""

    def __init__(self, data: bytes) -> None:
        self.data = data
        self._order = "<" if data[:2] == b"II" else ">"
        self._places: List[int] = []

    def numbers(self, form: str, at: int) -> Tuple[int, ...]:
        """Numbers at a place."""
        return struct.unpack_from(self._order + form, self.data, at)

    def all(self) -> Iterator[Tuple[int, List[Entry]]]:
        """Where each directory stands, and its fields, of a file whose chain has been followed to its end."""
        number = 0
        while self._place(number):
            yield self._places[number], self.entries(number)
            number += 1

    def entries(self, number: int) -> List[Entry]:
        """The fields of a directory, of which all before have been found good."""
        return self.entries_at(self._place(number))

    def entries_at(self, at: int) -> List[Entry]:
        """The fields of the directory in a place."""
        (count,) = self.numbers("H", at)
        # One look at all fields takes a third of the time of one at each.
        told = struct.iter_unpack(self._order + "HHII", self._piece(at + 2, 12 * count))
        return [Entry(tag, kind, values, value if SIZES.get(kind, 0) * values > 4 else at + 10 + 12 * place)
                for place, (tag, kind, values, value) in enumerate(told)]

    def _piece(self, at: int, count: int) -> bytes:
        """So many bytes at a place."""
        piece = self.data[at:at + count]
        if len(piece) < count:
            raise struct.error(f"the file has no {count} bytes at {at}")
        return piece

    def _place(self, number: int) -> int:
        """Where a directory stands; 0 after the last one."""
        while len(self._places) <= number:
            at = 4
            if self._places:
                (count,) = self.numbers("H", self._places[-1])
                at = self._places[-1] + 2 + 12 * count
            self._places += self.numbers("I", at)
        return self._places[number]

    def values(self, entry: Entry) -> Tuple[int, ...]:
        """The values of a field of SHORT or LONG."""
        return self.numbers(f"{entry.values}{'H' if entry.kind == SHORT else 'I'}", entry.at)

    def gives_resolution(self, found: Dict[int, Entry]) -> bool:
        """Whether a page, by the first field of each tag, says its resolution; else the library takes 204 by 196 to the
        inch."""
        for tag in RESOLUTIONS:
            entry = found.get(tag)
            if entry is None or entry.kind != RATIONAL or not entry.values or entry.at + 8 > len(self.data):
                return False
            if 0 in self.numbers("II", entry.at):
                return False
        unit = found.get(UNIT)
        return unit is None or self.first_value(unit) in (1, 2, 3)

    def first_value(self, entry: Entry) -> Optional[int]:
        """The first value of a field of SHORT or LONG, where it is in the file."""
        if entry.kind not in (SHORT, _LONG) or not entry.values or entry.at + SIZES[entry.kind] > len(self.data):
            return None
        return self.values(entry._replace(values=1))[0]


def first_of(entries: List[Entry]) -> Dict[int, Entry]:
    """The first field of each tag."""
    return {entry.tag: entry for entry in reversed(entries)}


def kind_of(data: bytes, fault: Fault) -> Optional[str]:
    """What a file with a fault is, if it is no fax that is read here, and so need not be damaged."""
    if fault.name == "ByteOrder":
        return "a PDF" if data[:5] == b"%PDF-" else "no TIFF file"
    if fault.name == "MissingField":
        return "a picture in tiles" if fault.tag == _STRIPS and _is_tiled(data, fault.page) else None
    return {"Unsupported": "a picture of another kind", "Magic": "a BigTIFF file, or none in TIFF"}.get(fault.name)


def _is_tiled(data: bytes, page: int) -> bool:
    try:
        return any(entry.tag in _TILES for entry in Directories(data).entries(page))
    except struct.error:
        return False
