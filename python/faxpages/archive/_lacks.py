"""What a fax has that its copy has not, told by its bytes. In doubt it is told."""

from __future__ import annotations

import struct
from typing import Dict, List, Tuple

from .._directory import RESOLUTIONS, SHORT, SIZES, UNIT, Directories, Entry, first_of

# What can be given up, by the word for it and the name in the table.
NAMES = {"data": "DataAfterEnd", "fields": "Fields", "private": "PrivateFields", "bytes": "OtherBytes",
         "resolution": "Resolution"}
# The fields that a converted file has too, but for those whose values are looked at.
_KEPT = frozenset([256, 257, 258, 259, 262, 266, 273, 277, 278, 279, 282, 283, 292, 293, 296])
_NOT_IN_PBM = frozenset([*RESOLUTIONS, UNIT])
_KIND, _OFFSETS, _COUNTS, _FOLDERS, _NUMBER = 254, 273, 279, 330, 297
_PRIVATE = 32768
# Fields of faxes that are registered, and that tiffdump prints whole.
_KNOWN = frozenset([34908, 34909, 34910, 34911])
_ASCII = 2
# How many values of a field tiffdump is told to print; and of how many values in a file it is looked whether they are
# printed, since many fields may share them.
PRINTED, _LOOKED = 1000000, 1 << 24
Span = Tuple[int, int]


def lacks(data: bytes, notes: str, to: str, fields: bool) -> str:
    """The names of what a copy lacks: data after the end of a page, fields if they are not written beside it, private
    fields, bytes that are of no page, and that nobody gave a resolution, which a copy in TIFF then has as if it was
    given."""
    found = {"DataAfterEnd"} & set(notes.split())
    try:
        file = Directories(data)
        directories = list(file.all())
        total = len(directories)
        fields = fields and sum(entry.values for _, entries in directories for entry in entries) <= _LOOKED
        for number, (_, entries) in enumerate(directories):
            found |= _lacking(file, entries, (number, total), to, fields)
        if _other_bytes(file, directories):
            found.add("OtherBytes")
    except struct.error:
        found |= {"Fields", "OtherBytes"}
    return " ".join(sorted(found))


def _lacking(file: Directories, entries: List[Entry], place: Span, to: str, fields: bool) -> "set[str]":
    """What is lacking of one page."""
    found = set()
    first = first_of(entries)
    if to != "pbm" and not file.gives_resolution(first):
        found.add("Resolution")
    if len(first) < len(entries) and not fields:
        found.add("Fields")
    for entry in entries:
        if entry.tag == _FOLDERS or entry.kind not in SIZES or entry.tag >= _PRIVATE and entry.tag not in _KNOWN:
            found.add("PrivateFields")
        elif "Fields" not in found and not _is_kept(file, entry, place, to) and not (
                fields and _is_printed(file, entry)):
            found.add("Fields")
    return found


def _is_kept(file: Directories, entry: Entry, place: Span, to: str) -> bool:
    """Whether a converted file says the same."""
    if to == "pbm":
        return entry.tag in _KEPT - _NOT_IN_PBM
    if entry.tag == _KIND:
        return entry.values == 1 and entry.kind in (3, 4) and file.values(entry)[0] in (0, 2)
    if entry.tag == _NUMBER:
        number, total = place
        return entry.values == 2 and entry.kind == SHORT and file.values(entry) in ((number, total), (number, 0))
    return entry.tag in _KEPT


def _is_printed(file: Directories, entry: Entry) -> bool:
    """Whether tiffdump prints all of a field: a text up to its first NUL alone."""
    if entry.values > PRINTED:
        return False
    end = entry.at + entry.values
    nul = file.data.find(b"\0", entry.at, end) if entry.kind == _ASCII else -1
    return nul < 0 or not file.data[nul:end].strip(b"\0")


def _other_bytes(file: Directories, directories: List[Tuple[int, List[Entry]]]) -> bool:
    """Whether bytes that are no zeros stand outside the directories, their values and the strips."""
    spans: List[Span] = [(0, 8)]
    for at, entries in directories:
        spans.append((at, at + 6 + 12 * len(entries)))
        spans += [(entry.at, entry.at + entry.size()) for entry in entries]
        spans += _strips(file, first_of(entries))
    end = 0
    for first, after in sorted(spans):
        if first > end and file.data[end:first].strip(b"\0"):
            return True
        end = max(end, after)
    return bool(file.data[end:].strip(b"\0"))


def _strips(file: Directories, entries: Dict[int, Entry]) -> List[Span]:
    """Where the bytes of the strips stand."""
    if _OFFSETS not in entries or _COUNTS not in entries:
        return []
    pairs = zip(file.values(entries[_OFFSETS]), file.values(entries[_COUNTS]))
    return [(first, first + count) for first, count in pairs]
