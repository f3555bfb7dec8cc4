"""Files that are made to be slow to read."""

import struct
from typing import Iterator, Tuple

MH, MMR = 3, 4
WIDEST = 65535


def tiff(width: int, rows: int, compression: int, strip: bytes, options: int = 0) -> bytes:
    """A file of one page, of one strip, with these T4Options."""
    at = 8 + len(strip) + len(strip) % 2
    fields = [(256, 4, width), (257, 4, rows), (258, 3, 1), (259, 3, compression), (262, 3, 0), (266, 3, 1),
              (273, 4, 8), (277, 3, 1), (278, 4, rows), (279, 4, len(strip)), (282, 5, 0), (283, 5, 8), (296, 3, 2)]
    if options:
        fields.insert(-1, (292, 4, options))
    values = at + 2 + 12 * len(fields) + 4
    directory = struct.pack("<H", len(fields))
    for tag, kind, value in fields:
        directory += struct.pack("<HHII", tag, kind, 1, values + value if kind == 5 else value)
    head = b"II" + struct.pack("<HI", 42, at)
    return head + strip + bytes(len(strip) % 2) + directory + bytes(4) + struct.pack("<IIII", 204, 1, 196, 1)


def packed(bits: str) -> bytes:
    """The bytes of bits, the first one highest, with zeros after them."""
    whole = bits + "0" * (-len(bits) % 8)
    return int(whole, 2).to_bytes(len(whole) // 8, "big")


def most_changes(rows: int) -> bytes:
    """Rows that begin black and change at every pel: the codes of white 0, then black 1 and white 1 in turn."""
    row = "00110101" + ("010" + "000111") * (WIDEST // 2) + "010"
    return tiff(WIDEST, rows, MH, packed(("000000000001" + row) * rows))


def most_changes_again(rows: int) -> bytes:
    """The same rows in T.6: the first by horizontal mode, and the others by a bit for each change."""
    first = "001" + "00110101" + "010" + ("001" + "000111" + "010") * (WIDEST // 2)
    return tiff(WIDEST, rows, MMR, packed(first + "1" * (WIDEST + 1) * (rows - 1)))


def passes(rows: int) -> bytes:
    """Rows that change at every pel and are white in turn, by pass mode alone."""
    first = "001" + "00110101" + "010" + ("001" + "000111" + "010") * (WIDEST // 2)
    white = "0001" * (WIDEST // 2 + 1) + "1"
    return tiff(WIDEST, 2 * rows, MMR, packed((first + white) * rows))


def shared(strips: int) -> bytes:
    """A page of strips of two rows that are all the same 64 KB, without an EOL."""
    data = b"\xff" * 65536
    offsets = 8 + len(data)
    counts = offsets + 4 * strips
    at = counts + 4 * strips
    fields = [(256, 4, 1, 1728), (257, 4, 1, 2 * strips), (258, 3, 1, 1), (259, 3, 1, MH), (262, 3, 1, 0), (266, 3, 1, 1),
              (273, 4, strips, offsets), (277, 3, 1, 1), (278, 4, 1, 2), (279, 4, strips, counts)]
    directory = struct.pack("<H", len(fields)) + b"".join(struct.pack("<HHII", *field) for field in fields)
    tables = struct.pack("<I", 8) * strips + struct.pack("<I", len(data)) * strips
    return b"II" + struct.pack("<HI", 42, at) + data + tables + directory + bytes(4)


def files() -> Iterator[Tuple[str, str, bytes]]:
    """The files with their names, and with the command that reads them."""
    yield "65,535 changes a row, T.4", "rows", most_changes(20)
    yield "65,535 changes a row, T.6", "rows", most_changes_again(100)
    yield "65,535 changes, passed", "rows", passes(20)
    yield "a million rows of one bit", "rows", tiff(8, 1000000, MMR, b"\xff" * 125000)
    yield "a strip of fill", "rows", tiff(8, 2, MH, packed("000000000001" + "10011") + bytes(8000000) + b"\x19\x80")
    yield "a strip of zeros", "rows", tiff(8, 2, MH, bytes(8000000))
    yield "strips that share 64 KB", "salvage", shared(1000)
