"""Draws damaged faxes: strips whose bits are turned, put in and taken out, with EOLs destroyed and made; and files with
pages that are refused, strips that lie partly outside, and chains that break off."""

from __future__ import annotations

import random
from typing import Callable, Dict, List, NamedTuple, Tuple

from tests.plain import drawing
from tests.plain.tables import EOL

Rng = random.Random


# Bits. Each kind of damage takes the bits of a strip, and answers others.


def some_place(rng: Rng, bits: str) -> int:
    return rng.randrange(len(bits) + 1)


def some_eol(rng: Rng, bits: str) -> int:
    """The place of an EOL, or of the end where there is none."""
    places, at = [], bits.find(EOL)
    while at >= 0:
        places.append(at)
        at = bits.find(EOL, at + 1)
    return rng.choice(places) if places else len(bits)


def noise(rng: Rng, most: int) -> str:
    return "".join(rng.choice("01") for _ in range(rng.randrange(1, most + 1)))


def turned(rng: Rng, bits: str) -> str:
    """A few bits are others."""
    told = list(bits)
    for _ in range(rng.randrange(1, 5)):
        if told:
            place = rng.randrange(len(told))
            told[place] = "1" if told[place] == "0" else "0"
    return "".join(told)


def hit(rng: Rng, bits: str) -> str:
    """Noise stands in the place of as many bits."""
    at, other = some_place(rng, bits), noise(rng, 200)
    return (bits[:at] + other)[: len(bits)] + bits[at + len(other) :]


def put_in(rng: Rng, bits: str) -> str:
    at = some_place(rng, bits)
    return bits[:at] + noise(rng, 12) + bits[at:]


def taken_out(rng: Rng, bits: str) -> str:
    at = some_place(rng, bits)
    return bits[:at] + bits[at + rng.randrange(1, 30) :]


def zeros_put_in(rng: Rng, bits: str) -> str:
    at = some_place(rng, bits)
    return bits[:at] + "0" * rng.randrange(1, 40) + bits[at:]


def eol_destroyed(rng: Rng, bits: str) -> str:
    """An EOL loses a bit, has one that is another, or is gone."""
    at = some_eol(rng, bits)
    place = at + rng.randrange(len(EOL))
    way = rng.randrange(3)
    if way == 0 or place >= len(bits):
        return bits[:at] + bits[at + len(EOL) :]
    if way == 1:
        return bits[:place] + bits[place + 1 :]
    return bits[:place] + ("1" if bits[place] == "0" else "0") + bits[place + 1 :]


def eol_made(rng: Rng, bits: str) -> str:
    """An EOL stands anywhere, with a tag or without."""
    at = some_place(rng, bits)
    return bits[:at] + EOL + rng.choice(["", "0", "1"]) + bits[at:]


def eol_doubled(rng: Rng, bits: str) -> str:
    at = some_eol(rng, bits)
    return bits[:at] + EOL + rng.choice(["", "0", "1"]) + bits[at:]


def more_before_eol(rng: Rng, bits: str) -> str:
    """Something stands between a row and the EOL after it."""
    at = some_eol(rng, bits)
    return bits[:at] + rng.choice(["1", "11", "0001", "00000001", "000000001", noise(rng, 9)]) + bits[at:]


def tag_turned(rng: Rng, bits: str) -> str:
    """The bit after an EOL is another, which in MR is its tag."""
    place = some_eol(rng, bits) + len(EOL)
    return bits[:place] + ("1" if bits[place : place + 1] == "0" else "0") + bits[place + 1 :]


def control_returned(rng: Rng, bits: str) -> str:
    """A return to control stands before a row, or the end of a facsimile block."""
    at = some_eol(rng, bits) if rng.random() < 0.7 else some_place(rng, bits)
    return bits[:at] + rng.choice([EOL * 6, (EOL + "1") * 6, EOL * 2]) + bits[at:]


def cut(rng: Rng, bits: str) -> str:
    return bits[: some_place(rng, bits)]


def rows_exchanged(rng: Rng, bits: str) -> str:
    """What stands between two EOLs stands there twice, or not at all."""
    first, second = sorted([some_eol(rng, bits), some_eol(rng, bits)])
    return bits[:second] + bits[first:second] * rng.randrange(2) + bits[second:]


DAMAGE: Dict[str, Callable[[Rng, str], str]] = {
    "bits turned": turned,
    "a hit": hit,
    "bits put in": put_in,
    "bits taken out": taken_out,
    "zeros put in": zeros_put_in,
    "an EOL destroyed": eol_destroyed,
    "an EOL made": eol_made,
    "an EOL doubled": eol_doubled,
    "more before an EOL": more_before_eol,
    "a tag turned": tag_turned,
    "control returned": control_returned,
    "a strip cut": cut,
    "rows exchanged": rows_exchanged,
}


def spoiled(rng: Rng, bits: str) -> Tuple[str, List[str]]:
    """The bits of a strip with damage of up to three kinds, and these kinds."""
    kinds = rng.sample(sorted(DAMAGE), rng.choice([0, 1, 1, 1, 2, 3]))
    for kind in kinds:
        bits = DAMAGE[kind](rng, bits)
    return bits, kinds


# Pages.


class Page(NamedTuple):
    """A page before it is laid out: its numbers by field, its strips as bytes, and what is wrong with it."""

    fields: Dict[int, int]
    strips: List[bytes]
    kinds: List[str]


REFUSED = [(256, 0), (256, 65_536), (257, 0), (257, 1_000_001), (259, 5), (262, 2), (266, 3), (277, 2), (278, 0)]


def draw_rows(rng: Rng, width: int, count: int) -> List[str]:
    rows: List[str] = []
    for _ in range(count):
        rows.append(drawing.draw_row(rng, width, rows[-1] if rows else "W" * width))
    return rows


def draw_page(rng: Rng) -> Page:
    width, coding, order = drawing.draw_width(rng), rng.choice(["mh", "mh", "mr", "mr", "mmr"]), rng.choice([1, 2])
    count = rng.choice([1, 2, rng.randrange(3, 9), rng.randrange(3, 9), rng.randrange(9, 30)])
    height = rng.choice([count, count, count, 1, 2, rng.randrange(1, count + 3)])
    rows, aligned = draw_rows(rng, width, count), coding != "mmr" and rng.random() < 0.3
    strips, kinds = [], [f"{coding} in order {order}"]
    for first in range(0, count, height):
        bits, met = spoiled(rng, drawing.code_strip(rng, coding, rows[first : first + height], aligned))
        strips.append(drawing.to_bytes(bits, order))
        kinds += met
    options = (1 if coding == "mr" else 0) | (4 if aligned else 0)
    fields = {256: width, 257: count, 259: 4 if coding == "mmr" else 3, 262: rng.randrange(2), 266: order, 278: height}
    if coding != "mmr":
        fields[292] = options
    if rng.random() < 0.08:
        fields.update([rng.choice(REFUSED)])
        kinds.append("a page refused")
    return Page(fields, strips, kinds + (["several strips"] if len(strips) > 1 else []))


# Files: the header, the directories with their fields, and then all strips, so that a file that is cut has strips
# outside.


class Layout:
    """The bytes of a file in one byte order."""

    def __init__(self, rng: Rng, pages: List[Page]) -> None:
        self.endian = rng.choice(["little", "big"])
        self.counts = [[len(strip) for strip in page.strips] for page in pages]
        if rng.random() < 0.05:
            counts = rng.choice(self.counts)
            counts[rng.randrange(len(counts))] += rng.choice([1, 7, 1000, 2**31])
        self.pages = pages
        self.data = (b"II" if self.endian == "little" else b"MM") + self.number(42, 2) + self.number(8, 4)

    def number(self, value: int, size: int) -> bytes:
        return value.to_bytes(size, "little" if self.endian == "little" else "big")

    def size_of(self, page: Page) -> int:
        """The size of a page's directory and of what its fields point to."""
        return 6 + 12 * (len(page.fields) + 2) + 8 * len(page.strips)

    def put_directory(self, page: Page, counts: List[int], place: int, after: int) -> None:
        """A page's directory, with its strips from a place on; another follows at `after`, or none."""
        many, begin = len(page.strips), len(self.data) + 6 + 12 * (len(page.fields) + 2)
        offsets = [place + sum(map(len, page.strips[:number])) for number in range(many)]
        entries = {tag: (1, value) for tag, value in page.fields.items()}
        entries[273] = many, offsets[0] if many == 1 else begin
        entries[279] = many, counts[0] if many == 1 else begin + 4 * many
        self.data += self.number(len(entries), 2)
        for tag, (count, value) in sorted(entries.items()):
            self.data += self.number(tag, 2) + self.number(4, 2) + self.number(count, 4) + self.number(value, 4)
        self.data += self.number(after, 4)
        self.data += b"".join(self.number(value, 4) for value in [*offsets, *counts])

    def put(self, last: int) -> bytes:
        """All of the file, whose last directory is followed by this one."""
        place = len(self.data) + sum(map(self.size_of, self.pages))
        for number, page in enumerate(self.pages):
            after = len(self.data) + self.size_of(page) if number + 1 < len(self.pages) else last
            self.put_directory(page, self.counts[number], place, after)
            place += sum(map(len, page.strips))
        return self.data + b"".join(strip for page in self.pages for strip in page.strips)


def draw_file(rng: Rng) -> Tuple[bytes, List[str]]:
    """A file of one to four pages, and what is wrong with it."""
    pages = [draw_page(rng) for _ in range(rng.choice([1, 1, 2, 3, 4]))]
    kinds = [kind for page in pages for kind in page.kinds]
    last = rng.choice([0] * 12 + [8, 3, 2**31])
    if last:
        kinds.append("a chain broken")
    data = Layout(rng, pages).put(last)
    if rng.random() < 0.15:
        kinds.append("a file cut")
        data = data[: -rng.randrange(1, len(data) if rng.random() < 0.1 else 1 + min(60, len(data) - 1))]
    elif rng.random() < 0.05:
        kinds.append("bits of the file turned")
        data = drawing.flip_bits(rng, data, rng.randrange(1, 4), 0, len(data))
    return data, kinds
