"""Every field of a page refused in every way, once in each byte order, with the fault that is wanted."""

from __future__ import annotations

from typing import Iterator, Literal, Union

from tests.plain.drawing import to_bytes
from tests.plain.reading import Text
from tests.plain.tables import EOL

BYTE, ASCII, SHORT, LONG, RATIONAL = 1, 2, 3, 4, 5
# Type, count and value.
Field = tuple[int, int, Union[int, list[int]]]

# A page of 8 pels by 2 rows, WWWBBWWW, in MH and in two strips: type, count and value of each field. A
# value that is a list of numbers stands after the directory.
FIELDS: dict[int, Field] = {
    256: (LONG, 1, 8),
    257: (LONG, 1, 2),
    258: (SHORT, 1, 1),
    259: (SHORT, 1, 3),
    262: (SHORT, 1, 0),
    266: (SHORT, 1, 1),
    273: (LONG, 2, [8, 12]),
    277: (SHORT, 1, 1),
    278: (LONG, 1, 1),
    279: (LONG, 2, [3, 3]),
    292: (LONG, 1, 0),
}

ABSENT = None

# The end of any file that is made here lies before this place.
OUTSIDE = 1_000_000

READ = "read"


def scalar_ways(tag: int) -> Iterator[tuple[Field, str]]:
    """How any field of one number is refused."""
    yield (ASCII, 1, FIELDS[tag][2]), f"BadField {tag}"
    yield (RATIONAL, 1, 8), f"BadField {tag}"
    yield (BYTE, 1, FIELDS[tag][2]), f"BadField {tag}"
    yield (LONG, 0, FIELDS[tag][2]), f"BadField {tag}"
    yield (LONG, 2, OUTSIDE), f"BadField {tag}"
    yield (SHORT, 3, OUTSIDE), f"BadField {tag}"


def ways() -> Iterator[tuple[int, Field | None, str]]:
    """Each change of a field, with the fault that is wanted, or that the page is read."""
    absent = dict.fromkeys([256, 257, 259, 262, 273, 279], "MissingField")
    for tag in FIELDS:
        wanted = f"{absent[tag]} {tag}" if tag in absent else READ
        # Without RowsPerStrip there is one strip, and of two places the first is taken.
        if tag != 278:
            yield tag, ABSENT, wanted
        if tag not in (273, 279):
            for change, fault in scalar_ways(tag):
                yield tag, change, fault
    for tag, name, values in [
        (256, "OutOfLimits", [0, 65_536, 2**32 - 1]),
        (257, "OutOfLimits", [0, 1_000_001, 2**32 - 1]),
        (258, "Unsupported", [0, 2, 8]),
        (259, "Unsupported", [0, 1, 2, 5, 32_773]),
        (262, "Unsupported", [2, 3, 5]),
        (266, "Unsupported", [0, 3]),
        (277, "Unsupported", [0, 2, 3]),
        (278, "BadField", [0]),
    ]:
        for value in values:
            yield tag, (LONG, 1, value), f"{name} {tag}"
    for tag in (273, 279):
        yield tag, (LONG, 1, 8), f"BadField {tag}"
        yield tag, (LONG, 0, 0), f"BadField {tag}"
        yield tag, (LONG, 2, OUTSIDE), f"BadField {tag}"
        yield tag, (SHORT, 3, OUTSIDE), f"BadField {tag}"
        for kind in (BYTE, ASCII, RATIONAL):
            yield tag, (kind, 2, FIELDS[tag][2]), f"BadField {tag}"
    yield 292, (LONG, 1, 6), READ
    yield 278, (LONG, 1, 1), READ


def file_of(endian: Literal["little", "big"], tag: int, change: Field | None) -> bytes:
    """The file of the page with one field changed."""

    def number(value: int, size: int) -> bytes:
        return value.to_bytes(size, endian)

    strip = to_bytes(EOL + "1000" + "11" + "1000", 1)
    data = (b"II" if endian == "little" else b"MM") + number(42, 2) + number(16, 4)
    data += strip + b"\0" + strip + b"\0"
    fields = {name: field for name, field in FIELDS.items() if name != tag}
    if change is not None:
        fields[tag] = change
    entries, after, place = b"", b"", len(data) + 6 + 12 * len(fields)
    for tag, (kind, count, value) in sorted(fields.items()):
        if isinstance(value, list):
            more = b"".join(number(one, 4) for one in value)
            value, after = place + len(after), after + more
        size = 2 if kind == SHORT and count == 1 else 4
        entries += number(tag, 2) + number(kind, 2) + number(count, 4) + number(value, size).ljust(4, b"\0")
    return data + number(len(fields), 2) + entries + number(0, 4) + after


def refused_fields() -> Iterator[tuple[bytes, Text]]:
    """Each file, with what `rows` writes of it: its output, its error line and its status."""
    endians: list[Literal["little", "big"]] = ["little", "big"]
    for endian in endians:
        for tag, change, wanted in ways():
            text = "row 0 0 3 2 3\nrow 0 1 3 2 3\nend\n", "", 0
            if wanted != READ:
                text = "next 1:0:0\n", f"fault page 0 row 0: {wanted}\n", 1
            yield file_of(endian, tag, change), text
