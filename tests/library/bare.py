#!/usr/bin/env python3
"""Reads, codes and checks bare strips by the Python module, beside the plain readers and the plain coder.

    bare.py

FAXPAGES_LIBRARY names the library. Ends with 'bare: N passed, N failed'."""

from __future__ import annotations

import ctypes
import random
import sys
from functools import partial
from typing import Any, Callable, NamedTuple

from tests.library.counted import Claims
from tests import TOP
from tests.calls import plain
from tests.library.counted import Claims, until_fault
from tests.plain import drawing, notes, uncounted
from tests.plain.reading import bits_of, read_lines
from tests.plain.tables import EOL

import faxpages

DRAWN = 1500
MOST_ROWS = 1000000


class Words(NamedTuple):
    """How a strip is read."""

    width: int
    coding: str
    order: int


def packed(rows: list[str]) -> bytes:
    """The packed bytes of rows of W and B."""
    return b"".join(plain.to_bytes(row.replace("W", "0").replace("B", "1")) for row in rows)


def draw_rows(rng: random.Random, width: int) -> list[str]:
    """Some rows, each near the one before."""
    rows, row = [], "W" * width
    for _ in range(rng.randrange(1, 9)):
        row = drawing.draw_row(rng, width, row)
        rows.append(row)
    return rows


def draw(rng: random.Random) -> tuple[str, int, int, int, bytes]:
    """A strip: its coding, fill order, width, rows and bytes; some have a bit flipped, and some are cut."""
    coding, order, width = rng.choice(["mh", "mr", "mmr"]), rng.choice([1, 2]), drawing.draw_width(rng)
    rows = draw_rows(rng, width)
    bits, way = drawing.code_strip(rng, coding, rows), rng.randrange(4)
    at = rng.randrange(len(bits))
    if way == 0:
        bits = bits[:at] + "10"[int(bits[at])] + bits[at + 1:]
    elif way == 1:
        bits = bits[:at]
    return coding, order, width, len(rows), drawing.to_bytes(bits, order)


def by_plain(coding: str, order: int, width: int, rows: int | None, data: bytes) -> tuple[list[str], str | None]:
    """The rows by the plain reader, and the name of the fault that ends them, or None."""
    if rows is None:
        lines, end = uncounted.read_rows(coding, width, bits_of(data, order))
        return [row for row, _ in lines], None if end in (uncounted.MARKED, uncounted.DATA_END) else end
    lines, fault = read_lines(coding, 0, rows, "W" * width, bits_of(data, order), 0)
    return [row for row, _ in lines], str(fault) if fault else None


def agrees(raster: faxpages.Raster, rows: list[str], fault: str | None) -> bool:
    """Whether a raster has these rows, and this fault at the one after them."""
    told = raster.fault and (raster.fault.name, raster.fault.page, raster.fault.row)
    return raster.packed == packed(rows) and raster.rows == len(rows) and told == (fault and (fault, 0, len(rows)))


def taken(reader: faxpages.StripReader) -> tuple[list[faxpages.Row], tuple[str, int] | None]:
    """The rows that a reader gives, and its fault."""
    rows, fault = until_fault(reader)
    return rows, (fault.name, fault.row) if fault else None


def in_pieces(rng: random.Random, data: bytes,
              reader: faxpages.StripReader) -> tuple[list[faxpages.Row], dict[int, int], tuple[str, int] | None]:
    """The rows of data that comes in pieces, how many were there by each of its lengths, and the fault."""
    rows, counts, at = [], {}, 0
    most = rng.choice([1, 3, 50, len(data) + 1])
    while at < len(data):
        size = rng.randrange(1, most + 1)
        reader.feed(rng.choice([bytes, bytearray, memoryview])(data[at:at + size]))
        at += size
        more, fault = taken(reader)
        rows += more
        counts[min(at, len(data))] = len(rows)
        if fault:
            return rows, counts, fault
    reader.close()
    more, fault = taken(reader)
    return rows + more, counts, fault


def drawn_strips(claims: Claims) -> None:
    """Drawn strips, whole, cut and damaged, in each way of reading."""
    rng = random.Random(64)
    for number in range(DRAWN):
        coding, order, width, count, data = draw(rng)
        words = Words(width, coding, order)
        found = by_plain(coding, order, width, count, data)
        raster = faxpages.strip(data, width, count, coding, order, partial=True)
        claims.see(f"strip {number}", agrees(raster, *found) and raster.lost == count - raster.rows)
        every = by_plain(coding, order, width, None, data)
        raster = faxpages.strip(data, width, None, coding, order, partial=True)
        claims.see(f"strip {number} up to its end", agrees(raster, *every) and raster.lost == 0)
        for rows, wanted in ((count, found), (None, every)):
            reader = faxpages.StripReader(width, coding, order, rows)
            got, counts, why = in_pieces(rng, data, reader)
            claims.see(f"strip {number} in pieces, {rows}",
                       b"".join(row.packed for row in got) == packed(wanted[0]) and reader.rows == len(got)
                       and [row.number for row in got] == list(range(len(got)))
                       and why == (wanted[1] and (wanted[1], len(wanted[0]))) and reader.ended)
            for length in rng.sample(sorted(counts), min(2, len(counts))):
                claims.see(f"strip {number} by {length} bytes", counts[length] == min(
                    len(by_plain(coding, order, width, MOST_ROWS, data[:length])[0]), rows or MOST_ROWS))
        checked(claims, number, words, count, data, found)
        checked(claims, number, words, None, data, every)


def checked(claims: Claims, number: int, words: Words, count: int | None, data: bytes,
            found: tuple[list[str], str | None]) -> None:
    """What a check of a strip reports."""
    report = faxpages.check_strip(data, words.width, count, words.coding, words.order)
    count = len(found[0]) if count is None else count
    if found[1]:
        claims.see(f"report on strip {number}", not report.ok and not report.end_mark and report.notes == ()
                   and report.fault is not None and (report.rows, report.fault.name, report.fault.row) == (len(found[0]), found[1], len(found[0])))
        return
    wanted = notes.notes_of_strip(words.coding, words.order, words.width, count, data)
    claims.see(f"report on strip {number}", report.ok and report.rows == count
               and [note.name for note in report.notes] == [name.split()[-1] for name in wanted]
               and report.end_mark == ("NoEndOfBlock" not in str(wanted) if words.coding == "mmr"
                                       else "ReturnToControl" in str(wanted)))


def counted_rows(claims: Claims) -> None:
    """A check of a strip whose rows are not known."""
    for coding in ("mh", "mr", "mmr"):
        rows = ["WBBW" * 5, "W" * 20, "B" * 20]
        bits = plain.strip_bits(coding, 2, False, rows)
        ends = {"": coding == "mmr", drawing.end_mark(coding): True, "0" * 20: coding == "mmr"}
        for end, mark in ends.items():
            report = faxpages.check_strip(plain.to_bytes(bits + ("" if coding == "mmr" else end)), 20, coding=coding)
            claims.see(f"{coding} {end!r:.20}", (report.ok, report.rows, report.end_mark) == (True, 3, mark))
    cut = faxpages.check_strip(plain.to_bytes(EOL + plain.one_dimensional("WB" * 10))[:-1], 20, coding="mh")
    claims.see("a strip that is cut", (cut.rows, cut.fault) == (0, faxpages.DataEnds("DataEnds", 0, 0)))
    two = plain.strip_bits("mh", 1, False, ["WB" * 10] * 2)
    cut = faxpages.check_strip(plain.to_bytes(two[:-9]), 20, coding="mh")
    claims.see("a row that is cut", (cut.rows, cut.fault) == (1, faxpages.DataEnds("DataEnds", 0, 1)))


def coded(claims: Claims) -> None:
    """Strips that are coded are those of the plain coder."""
    rng = random.Random(65)
    for number in range(DRAWN // 3):
        width = drawing.draw_width(rng)
        rows = draw_rows(rng, width)
        coding, order, k = rng.choice(["mh", "mr", "mmr"]), rng.choice([1, 2]), rng.choice([1, 2, 4])
        align = coding != "mmr" and rng.random() < 0.5
        raster = faxpages.Raster(width, len(rows), packed(rows))
        wanted = plain.to_bytes(plain.strip_bits(coding, k, align, rows), order)
        made = faxpages.encode_strip(raster, coding, order, k, align)
        claims.see(f"coded strip {number}", made == wanted)
        claims.see(f"coded strip {number}, read", faxpages.strip(made, width, coding=coding, order=order) == raster)


def at_bytes(claims: Claims) -> None:
    """Rows that begin on a byte boundary, and rows that have no EOLs."""
    rng = random.Random(66)
    for number in range(DRAWN // 5):
        width, order = drawing.draw_width(rng), rng.choice([1, 2])
        rows = draw_rows(rng, width)
        aligned, joined, above = "", "", "W" * width
        in_mmr, from_bytes = "", ""
        for row in rows:
            codes = plain.one_dimensional(row)
            joined, aligned = joined + codes, aligned + codes + "0" * (-len(codes) % 8)
            from_bytes += (EOL + codes).ljust(len(EOL + codes) + -len(EOL + codes) % 8, "0")
            in_mmr += plain.two_dimensional(above, row)
            in_mmr, above = in_mmr + "0" * (-len(in_mmr) % 8), row
        for name, bits, words in (
                ("mmr", in_mmr, {"byte_align": True}), ("mmr", in_mmr + 2 * EOL, {"byte_align": True}),
                ("mh", joined, {"eols": False}), ("mh", aligned, {"eols": False, "byte_align": True}),
                ("mh", from_bytes, {"byte_align": True}), ("mh", from_bytes + 6 * EOL, {"byte_align": True}),
                ("mh", plain.strip_bits("mh", 1, True, rows), {"byte_align": True}),
                ("mr", plain.strip_bits("mr", 3, True, rows), {"byte_align": True})):
            data = plain.to_bytes(bits, order)
            for count in (len(rows), None):
                raster = faxpages.strip(data, width, count, name, order, partial=True, **words)
                claims.see(f"rows {number} in {name} {words} {count}", agrees(raster, rows, None))
            raster = faxpages.strip(data[:-1], width, len(rows) + 1, name, order, partial=True, **words)
            claims.see(f"rows {number} in {name} {words}, too few",
                       raster.rows <= len(rows) and packed(rows).startswith(raster.packed)
                       and raster.lost == len(rows) + 1 - raster.rows
                       and raster.fault is not None and raster.fault.row == raster.rows)


class Lengths:
    """A library that adds up how many bytes it is handed."""

    def __init__(self, library: ctypes.CDLL) -> None:
        self.library, self.total, self.calls = library, 0, 0

    def __getattr__(self, name: str) -> Any:
        call = getattr(self.library, name)

        def counting(data: bytes, length: int, *words: object) -> Any:
            self.total, self.calls = self.total + length, self.calls + 1
            return call(data, length, *words)

        return counting if name in ("faxpages_strip_rows", "faxpages_strip_part") else call


def many_pieces(claims: Claims) -> None:
    """Bytes that come one by one are read in a time in proportion to their number: fill, and ordinary rows."""
    library = faxpages._c.library
    row = EOL + plain.one_dimensional("WB" * 8)
    for name, data, most in (
            ("fill", bytes(60000) + plain.to_bytes(row), 20 << 20), ("rows", plain.to_bytes(row * 2000), 4 << 20)):
        counting = Lengths(library)
        setattr(faxpages._c, "library", counting)
        reader, rows = faxpages.StripReader(16, "mh"), 0
        for byte in data:
            reader.feed(bytes([byte]))
            rows += sum(1 for _ in reader)
        reader.close()
        rows += sum(1 for _ in reader)
        setattr(faxpages._c, "library", library)
        claims.see(f"{name} byte by byte: {counting.total} bytes are read", rows == (2000 if name == "rows" else 1)
                   and counting.total < most)
    reader, whole = faxpages.StripReader(16, "mh"), []
    reader.feed(bytes(100000) + plain.to_bytes(row)[:1])
    for byte in plain.to_bytes(row * 40)[1:]:
        reader.feed(bytes([byte]))
        whole.append(sum(1 for _ in reader))
    claims.see("rows after much fill, each when it is whole", max(whole) == 1 and sum(whole) == 40)
    reader = faxpages.StripReader(8)
    reader.feed(b"\xff" * 50000)
    claims.see("many rows at once", sum(1 for _ in reader) == 400000 and len(reader._fed) == 0 and not reader.ended)


def ends_of_readers(claims: Claims) -> None:
    """A reader after its end, after its fault, and rows that are left."""
    reader = faxpages.StripReader(8, rows=2)
    reader.feed(b"\xff\xff")
    first = next(iter(reader))
    claims.see("rows that are left", [first.number] + [row.number for row in reader] == [0, 1] and reader.ended)
    reader.feed(b"more")
    reader.close()
    claims.see("after the end", list(reader) == [] and reader.ended and reader.rows == 2)
    claims.raises("bytes after close", ValueError, lambda: reader.feed(b"more"))
    reader = faxpages.StripReader(8)
    reader.feed(b"\xb0")
    claims.see("a row before a fault", next(iter(reader)).number == 0)
    for _ in range(2):
        claims.raises("a fault, again", faxpages.OutOfRow, lambda: next(iter(reader)))
    claims.see("it has ended, once the fault was raised", reader.ended and reader.rows == 1)


def long_rows(claims: Claims) -> None:
    """A row is given when its last byte was fed, however long it is; and the reader ends with the last byte of an end mark
    with much fill."""
    for width, piece, fill in ((9600, 1000, 5000), (9600, 200, 5000), (65528, 1000, 9000), (65528, 256, 5000), (4000, 1, 99)):
        data = plain.to_bytes(plain.one_dimensional("WB" * (width // 2)))
        reader, early = faxpages.StripReader(width, "mh"), 0
        for at in range(0, len(data), piece):
            early += sum(1 for _ in reader)
            reader.feed(data[at:at + piece])
        claims.see(f"a row of {len(data)} bytes by {piece}", (early, [row.runs() for row in reader]) == (0, [[1] * width]))
        mark, early = (bytes(fill) + b"\x01") * 6, 0
        for at in range(0, len(mark), piece):
            early += reader.ended
            reader.feed(mark[at:at + piece])
        claims.see(f"an end mark of {len(mark)} bytes by {piece}", (early, reader.ended, list(reader)) == (0, True, []))


def closed(claims: Claims) -> None:
    """What a reader says after close: it has ended if all its rows were given, and if its fault was raised."""
    row = plain.to_bytes(plain.one_dimensional("WB" * 4))
    for cut in (b"", b"\x01"):
        reader = faxpages.StripReader(8, "mh")
        reader.feed(row + cut)
        claims.see("one row, and more may come", len(list(reader)) == 1 and not reader.ended)
        reader.close()
        claims.see("it is closed", reader.ended == (not cut))
        if cut:
            claims.raises("its fault", faxpages.DataEnds, partial(list, reader))
        claims.see("it is closed, and its fault was raised", reader.ended)
    reader = faxpages.StripReader(8, "mh")
    reader.feed(row)
    reader.close()
    claims.see("closed with a row that is due", not reader.ended and len(list(reader)) == 1 and reader.ended)


def row_without_end(claims: Claims) -> None:
    """A row of runs of no pels is read again in proportion to what was fed; and after its fault nothing is kept."""
    library = faxpages._c.library
    counting = Lengths(library)
    setattr(faxpages._c, "library", counting)
    reader, fed = faxpages.StripReader(1728, "mh"), 0
    # No white pel, no black pel, four times in nine bytes.
    piece = bytes([0x35, 0x0D, 0xCD, 0x43, 0x73, 0x50, 0xDC, 0xD4, 0x37]) * 12
    for _ in range(2000):
        reader.feed(piece)
        fed += len(piece)
    claims.see("it is read again, and not each time", 100 * fed < counting.total < 400 * fed)
    setattr(faxpages._c, "library", library)
    reader.close()
    claims.raises("it is cut", faxpages.DataEnds, lambda: list(reader))
    claims.see("nothing is kept", len(reader._fed) == len(reader._seen) == 0 and reader.ended)
    reader = faxpages.StripReader(8)
    reader.feed(b"\xb0")
    next(iter(reader))
    for _ in range(3):
        reader.feed(bytes(1000))
    claims.see("nothing is kept after a fault that was not raised yet", len(reader._fed) == 0 and not reader.ended)


def refused(claims: Claims) -> None:
    """Numbers that are out of range."""
    reads: list[Callable[..., object]] = [faxpages.strip, faxpages.check_strip]
    wrong: list[dict[str, Any]] = [
        {"width": 0}, {"width": 65536}, {"rows": 0}, {"rows": MOST_ROWS + 1}, {"order": 0}, {"order": 3},
        {"coding": "pbm"}, {"width": -2 ** 70}]
    for words in wrong:
        for call in reads:
            claims.raises(f"{call.__name__} {words}", ValueError, partial(call, b"\xff", **words))
        claims.raises(f"a reader {words}", ValueError, partial(faxpages.StripReader, **words))
    of_other_types: list[dict[str, Any]] = [{"width": "8"}, {"rows": 1.5}, {"order": None}]
    for words in of_other_types:
        claims.raises(f"a strip {words}", TypeError, partial(faxpages.strip, b"\xff", **words))
    claims.raises("rows without EOLs in mmr", ValueError, lambda: faxpages.strip(b"\xff", 8, eols=False))
    reader = faxpages.StripReader(8, rows=2)
    reader.feed(memoryview(b"\xff\x00\xff")[::2])
    claims.see("bytes that lie apart", [row.packed for row in reader] == [b"\0", b"\0"])
    for data in ("text", 1, None, [255]):
        claims.raises(f"the strip {data!r}", TypeError, partial(faxpages.strip, data, 8))
        claims.raises(f"the piece {data!r}", TypeError, partial(faxpages.StripReader(8).feed, data))


def main() -> int:
    claims = Claims()
    for part in (drawn_strips, counted_rows, coded, at_bytes, many_pieces, ends_of_readers, long_rows, closed,
                 row_without_end, refused):
        part(claims)
    return claims.ends("bare")


if __name__ == "__main__":
    sys.exit(main())
