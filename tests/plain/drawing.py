"""Draws files of fax pages: rows coded in any way that the standards allow, in any layout that TIFF
allows, and damaged in some."""

from __future__ import annotations

import random
from typing import Literal

from tests.plain.reading import Cursor, Line, next_changing, other, runs_of
from tests.plain.tables import EOL, MODES, RUNS


def codes_of(kind: str) -> dict[str, dict[int, str]]:
    """Of each colour, the code of each length of this kind."""
    return {colour: {meaning[1]: code for code, meaning in table.items() if not isinstance(meaning, str) and
                     meaning[0] == kind} for colour, table in RUNS.items()}


TERMINATING, MAKE_UP = codes_of("end"), codes_of("more")
MODE_CODES = {mode: code for code, mode in MODES.items()}


def draw_row(rng: random.Random, width: int, reference: str) -> str:
    kind = rng.randrange(6)
    if kind == 0:
        return rng.choice("WB") * width
    if kind == 1:
        return "".join(rng.choice("WB") for _ in range(width))
    if kind == 2:
        # The row before, some pels to one side.
        shift = rng.randrange(-4, 5)
        moved = ("W" * 4 + reference + "W" * 4)[4 + shift :][:width]
        return moved
    row, colour = "", rng.choice("WB")
    while len(row) < width:
        row += colour * rng.choice([1, 2, 3, 8, 63, 64, 65, rng.randrange(1, width + 1)])
        colour = other(colour)
    return row[:width]


def code_run(rng: random.Random, colour: str, length: int) -> str:
    """A run: mostly T.4's own choice of codes, else other make-up codes in any order."""
    codes = ""
    if rng.random() < 0.1:
        while length >= 64 and rng.random() < 0.7:
            step = 64 * rng.randrange(1, min(length // 64, 40) + 1)
            codes += MAKE_UP[colour][step]
            length -= step
    while length >= 2560:
        codes += MAKE_UP[colour][2560]
        length -= 2560
    if length >= 64:
        codes += MAKE_UP[colour][length // 64 * 64]
    return codes + TERMINATING[colour][length % 64]


def code_one_dimensional(rng: random.Random, row: str) -> str:
    codes, colour = "", "W"
    for length in runs_of(row):
        if length > 1 and rng.random() < 0.05:
            # A run of 0 of the other colour within the run.
            part = rng.randrange(1, length)
            codes += code_run(rng, colour, part) + code_run(rng, other(colour), 0)
            length -= part
        codes += code_run(rng, colour, length)
        colour = other(colour)
    return codes


def end_of_run(row: str, place: int, colour: str) -> int:
    """The first pel at or right of a place that is not of this colour."""
    found = row.find(other(colour), place)
    return len(row) if found < 0 else found


def code_two_dimensional(rng: random.Random, reference: str, row: str) -> str:
    codes, a0, colour, width = "", -1, "W", len(row)
    while a0 != width:
        s = max(a0, 0)
        # The next pel of the other colour; at a0 itself where runs of 0 led there.
        a1 = end_of_run(row, s, colour)
        b1 = next_changing(reference, a0, colour)
        b2 = next_changing(reference, b1)
        ways: list[int | str] = ["horizontal"]
        if b2 < a1 or b2 == a1 == width:
            ways += ["pass"] * 8
        if abs(a1 - b1) <= 3 and a1 > a0:
            ways += [a1 - b1] * 12
        way = rng.choice(ways)
        codes += MODE_CODES[way]
        if way == "pass":
            a0 = b2
        elif way == "horizontal":
            a2 = end_of_run(row, a1, other(colour))
            codes += code_run(rng, colour, a1 - s) + code_run(rng, other(colour), a2 - a1)
            a0 = a2
        else:
            a0, colour = a1, other(colour)
    return codes


def code_rows(rng: random.Random, coding: str, rows: list[str], aligned: bool = False) -> str:
    """The bits of a strip up to its last row, each EOL with a drawn fill, or with the fewest zeros that make it
    end on a byte boundary."""
    bits, reference = "", "W" * len(rows[0])
    for number, row in enumerate(rows):
        if rng.random() < 0.02:
            # A mark, an extension or a code that no table has, where a row is due.
            bits += rng.choice([EOL * 6, EOL * 2, "000000001", "0000001", "00000001"])
        one_dimensional = coding == "mh" or coding == "mr" and rng.random() < 0.4
        if coding != "mmr" and not (coding == "mh" and number == 0 and rng.random() < 0.3):
            fill = -(len(bits) + len(EOL)) % 8 if aligned else rng.choice([0, 0, 0, 1, 5, 13])
            bits += "0" * fill + EOL
        if coding == "mr":
            bits += "1" if one_dimensional else "0"
        if one_dimensional:
            bits += code_one_dimensional(rng, row)
        else:
            bits += code_two_dimensional(rng, reference, row)
        reference = row
    return bits


def end_mark(coding: str) -> str:
    """A return to control (T.4), or the end of the facsimile block (T.6)."""
    return EOL * 2 if coding == "mmr" else (EOL + ("1" if coding == "mr" else "")) * 6


def code_strip(rng: random.Random, coding: str, rows: list[str], aligned: bool = False) -> str:
    """The bits of a strip, and what stands after its last row."""
    tail = rng.choice(["", "", EOL * 2, end_mark(coding), EOL, "0" * 11, "1"])
    return code_rows(rng, coding, rows, aligned) + tail


def to_bytes(bits: str, order: int) -> bytes:
    bits += "0" * (-len(bits) % 8)
    eight = [bits[i : i + 8] for i in range(0, len(bits), 8)]
    return bytes(int(byte if order == 1 else byte[::-1], 2) for byte in eight)


def draw_width(rng: random.Random) -> int:
    return rng.choice([1, 2, 3, 7, 8, 9, 16, 63, 64, 65, 100, 1728, rng.randrange(1, 70), rng.randrange(1, 5000)])


class Builder:
    """A file that grows: strips, values and directories, with the places that are patched later."""

    def __init__(self, rng: random.Random) -> None:
        self.rng = rng
        self.endian: Literal["little", "big"] = rng.choice(["little", "big"])
        self.data = bytearray(b"II" if self.endian == "little" else b"MM")
        self.data += self.number(42, 2) + self.number(0, 4)
        self.link = 4
        self.directories: list[int] = []

    def number(self, value: int, size: int) -> bytes:
        return (value % (1 << 8 * size)).to_bytes(size, self.endian)

    def put(self, data: bytes) -> int:
        """Bytes somewhere after the file, and their place."""
        self.data += bytes(self.rng.choice([0, 0, 1, 2]))
        self.data += data
        return len(self.data) - len(data)

    def patch(self, place: int, data: bytes) -> None:
        self.data[place : place + len(data)] = data

    def numbers(self, tag: int, values: list[int], kind: int | None = None) -> bytes:
        """A field of numbers: SHORT where they fit, or LONG."""
        if kind is None:
            kind = self.rng.choice([3, 4]) if max(values) < 65_536 else 4
        size = 2 if kind == 3 else 4
        data = b"".join(self.number(value, size) for value in values)
        value = data.ljust(4, b"\0") if len(data) <= 4 else self.number(self.put(data), 4)
        return self.number(tag, 2) + self.number(kind, 2) + self.number(len(values), 4) + value

    def rational(self, tag: int, parts: tuple[int, int]) -> bytes:
        place = self.put(self.number(parts[0], 4) + self.number(parts[1], 4))
        return self.number(tag, 2) + self.number(5, 2) + self.number(1, 4) + self.number(place, 4)

    def put_directory(self, entries: list[bytes], next_offset: int) -> None:
        rng = self.rng
        if rng.random() < 0.2:
            rng.shuffle(entries)
        if rng.random() < 0.1:
            entries.insert(rng.randrange(len(entries) + 1), self.numbers(rng.choice([254, 297, 700]), [rng.randrange(9)]))
        if rng.random() < 0.05:
            # A second entry of a tag, which does not count.
            entries.append(self.numbers(256, [rng.randrange(70_000)]))
        data = self.number(len(entries), 2) + b"".join(entries) + self.number(next_offset, 4)
        place = self.put(data)
        self.patch(self.link, self.number(place, 4))
        self.link = place + len(data) - 4
        self.directories.append(place)


def draw_page(rng: random.Random, builder: Builder) -> None:
    width, coding, order = draw_width(rng), rng.choice(["mh", "mr", "mmr"]), rng.choice([1, 1, 2])
    rows = rng.choice([1, 2, 3, rng.randrange(2, 12)])
    height = rng.choice([rows, rows, rows, 1, 2, rng.randrange(1, rows + 3)])
    aligned = coding != "mmr" and rng.random() < 0.4
    pels, reference = [], "W" * width
    for _ in range(rows):
        reference = draw_row(rng, width, reference)
        pels.append(reference)
    strips = []
    for first in range(0, rows, height):
        data = to_bytes(code_strip(rng, coding, pels[first : first + height], aligned), order)
        strips.append(damage_strip(rng, data) if rng.random() < 0.15 else data)
    places = [builder.put(data) for data in strips]
    put, entries = builder.numbers, list[bytes]()
    entries += [put(256, [width]), put(257, [rows])]
    if rng.random() < 0.7:
        entries.append(put(258, [1]))
    entries += [put(259, [4 if coding == "mmr" else 3]), put(262, [rng.choice([0, 0, 1])])]
    if order == 2 or rng.random() < 0.5:
        entries.append(put(266, [order]))
    entries.append(put(273, places))
    if rng.random() < 0.7:
        entries.append(put(277, [1]))
    if height < rows or rng.random() < 0.7:
        entries.append(put(278, [height]))
    counts = [len(data) for data in strips]
    if rng.random() < 0.04:
        counts[rng.randrange(len(counts))] += rng.choice([1, 200, 70_000, 2**31])
    entries.append(put(279, counts))
    if rng.random() < 0.7:
        entries += [builder.rational(282, (rng.choice([204, 0]), 1)), builder.rational(283, (196, rng.choice([1, 0, 2])))]
    options = (1 if coding == "mr" else 0) | (4 if aligned else rng.choice([0, 2, 4]))
    if coding == "mr" or aligned or rng.random() < 0.5:
        entries.append(put(292, [options]))
    if rng.random() < 0.5:
        entries.append(put(296, [rng.choice([1, 2, 3, 4])]))
    builder.put_directory(entries, 0)


def damage_strip(rng: random.Random, data: bytes) -> bytes:
    kind = rng.randrange(3)
    if kind == 0 or not data:
        return data[: rng.randrange(len(data) + 1)]
    return flip_bits(rng, data, 1 if kind == 1 else rng.randrange(1, 9), 0, len(data))


def flip_bits(rng: random.Random, data: bytes, count: int, start: int, end: int) -> bytes:
    damaged = bytearray(data)
    for _ in range(count):
        damaged[rng.randrange(start, end)] ^= 1 << rng.randrange(8)
    return bytes(damaged)


def damage_file(rng: random.Random, builder: Builder) -> bytes:
    data = bytes(builder.data)
    kind = rng.randrange(6)
    if kind == 0:
        return data[: rng.randrange(rng.choice([9, len(data) + 1]))]
    if kind == 1 and rng.random() < 0.2:
        return data[:4] + bytes(4) + data[8:]
    if kind == 1:
        return flip_bits(rng, data, 1, 0, 8)
    if kind == 2:
        place = rng.choice(builder.directories)
        return flip_bits(rng, data, rng.randrange(1, 4), place, min(place + 180, len(data)))
    if kind == 3:
        return flip_bits(rng, data, rng.randrange(1, 6), 0, len(data))
    if kind == 4:
        builder.patch(builder.link, builder.number(rng.choice(builder.directories + [len(data), 1]), 4))
    return bytes(builder.data)


def draw_file(rng: random.Random, most_pages: int) -> bytes:
    """A file of up to so many pages, damaged or not."""
    builder = Builder(rng)
    for _ in range(rng.randrange(1, most_pages + 1)):
        draw_page(rng, builder)
    return damage_file(rng, builder) if rng.random() < 0.5 else bytes(builder.data)


def draw_cursor(rng: random.Random, lines: list[Line], pages: list[int]) -> Cursor:
    """A cursor: one that a run over these lines prints, or a forged one near the pages of a file, which
    are as many rows each, or far from all."""
    kind = rng.randrange(4)
    if kind == 0 and lines:
        return rng.choice(lines).short
    if kind == 1:
        return Cursor(rng.randrange(len(pages) + 2), rng.choice([0, 0, 1, 2**32 - 1]))
    if kind == 2 and rng.random() < 0.1:
        return Cursor(rng.choice([2**16, 2**32 - 1]), rng.choice([0, 1, 2**32 - 1]))
    if pages:
        page = rng.randrange(len(pages))
        return Cursor(page, rng.randrange(pages[page] + 2))
    return Cursor(rng.randrange(3), rng.randrange(3))


def limit_near(rng: random.Random, lines: int) -> int:
    """A limit on the number of lines, where there are so many."""
    return rng.choice([1, max(lines, 1), lines + 1, rng.randrange(1, lines + 2), 2**32 - 1])


def draw_limit(rng: random.Random, lines: int) -> int | None:
    """None, or a limit on the number of lines, where there are so many."""
    return None if rng.random() < 0.3 else limit_near(rng, lines)
