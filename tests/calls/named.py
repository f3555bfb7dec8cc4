"""Files that the tables name, as the standards lay them out, and changes of them."""

from __future__ import annotations

import struct

# An entry of a directory: tag, type, count, and the value or its place.
Entry = tuple[int, int, int, int]
# A page that is written: its coding, its width, its rows, the rows of a strip, and its strips.
Page = tuple[str, int, int, int, list[bytes]]

MARKS = {2: "<H", 4: "<I"}


class File(bytes):
    """The bytes of a file."""

    def put(self, place: int, digits: str) -> File:
        """The file with these bytes in place of its own from a place on."""
        new = bytes.fromhex(digits)
        return File(self[:place] + new + self[place + len(new) :])

    def cut(self, count: int) -> File:
        """Its first bytes."""
        return File(self[:count])

    def big(self) -> File:
        """A file of one page in the layout of `one_page`, with the highest byte of each number first."""
        data = bytearray(self)
        if data[:2] != b"II":
            return self
        data[:2] = b"MM"
        # One SHORT or two stand in an entry; all else there is a LONG or a place.
        places = [(2, 2), (4, 4), (12, 2), *((place, 4) for place in range(210, 226, 4)), (206, 4)]
        for at in range(14, 206, 12):
            shorts = data[at + 2] == 3 and data[at + 4] <= 2
            places += [(at, 2), (at + 2, 2), (at + 4, 4)]
            places += [(at + 8, 2), (at + 10, 2)] if shorts else [(at + 8, 4)]
        for place, size in places:
            data[place : place + size] = data[place : place + size][::-1]
        return File(data)


def directory(entries: list[Entry], next_offset: int = 0) -> bytes:
    """A directory of entries."""
    packed = b"".join(struct.pack("<HHII", *entry) for entry in entries)
    return struct.pack("<H", len(entries)) + packed + struct.pack("<I", next_offset)


def small(strips: bytes, *fields: Entry) -> File:
    """A file of 8 pels to a row: a header, these bytes, and a directory of the fields that are needed."""
    entries = [(256, 3, 1, 8), *fields]
    return File(b"II*\0" + struct.pack("<I", 8 + len(strips)) + strips + directory(entries))


def written(*pages: Page) -> File:
    """A file of pages as it is written. A page is its strips, a zero byte where they end at an odd place, its directory, the two
    resolutions, and the strips' offsets and byte counts where there are more than one."""
    data = bytearray(b"II*\0")
    link = 4
    data += bytes(4)
    for number, (coding, width, rows, of_strip, strips) in enumerate(pages):
        offsets = []
        for strip in strips:
            offsets.append(len(data))
            data += strip
        data += bytes(len(data) % 2)
        data[link : link + 4] = struct.pack("<I", len(data))
        after = len(data) + 2 + 16 * 12 + 4
        counts = [len(strip) for strip in strips]
        many = len(strips) > 1
        places = (after + 16, after + 16 + 4 * len(strips)) if many else (offsets[0], counts[0])
        entries = [
            (254, 4, 1, 2), (256, 4, 1, width), (257, 4, 1, rows), (258, 3, 1, 1),
            (259, 3, 1, 4 if coding == "mmr" else 3), (262, 3, 1, 0), (266, 3, 1, 1),
            (273, 4, len(strips), places[0]), (277, 3, 1, 1), (278, 4, 1, of_strip),
            (279, 4, len(strips), places[1]), (282, 5, 1, after), (283, 5, 1, after + 8),
            (293, 4, 1, 0) if coding == "mmr" else (292, 4, 1, int(coding == "mr")),
            (296, 3, 1, 2), (297, 3, 2, number | len(pages) << 16),
        ]  # fmt: skip
        data += directory(entries)
        link = after - 4
        data += struct.pack("<4I", 204, 1, 196, 1)
        if many:
            data += struct.pack(f"<{2 * len(strips)}I", *offsets, *counts)
    return File(data)


# One page of one MH row, WWWBBWWW. Its entries stand from 14 on, each of 12 bytes.
one_page = written(("mh", 8, 1, 1, [bytes.fromhex("0018E0")]))

# One page of two MMR rows, white and WWWBBWWW, in strips of one row.
two_strips = written(("mmr", 8, 2, 1, [bytes.fromhex("80080080"), bytes.fromhex("31C0040040")]))

# Three pages, one of each coding: WWWBBWWW; the same twice; a white row and WWWBBWWW.
three_pages = written(
    ("mh", 8, 1, 1, [bytes.fromhex("0018E0")]),
    ("mr", 8, 2, 2, [bytes.fromhex("001C70002E")]),
    ("mmr", 8, 2, 2, [bytes.fromhex("98E0020020")]),
)

# One page of two MH rows: WWWBBWWW without an EOL; after it an EOL, and the same row up to its black run.
cut_row = small(
    bytes.fromhex("8E00018C"),
    (257, 3, 1, 2), (259, 3, 1, 3), (262, 3, 1, 0), (273, 3, 1, 8), (279, 3, 1, 4),
)  # fmt: skip

# One page of two MMR rows in strips of one row: WWWBBWWW and white, each with an end of block. The strips' offsets
# stand at 108, their byte counts at 116.
mmr = File(
    small(
        bytes.fromhex("31C0040040 80080080 00"),
        (257, 3, 1, 2), (259, 3, 1, 4), (262, 3, 1, 0), (273, 4, 2, 108), (278, 3, 1, 1), (279, 4, 2, 116),
    )
    + struct.pack("<4I", 8, 13, 5, 4)
    + bytes(2)
)  # fmt: skip

# One page of six MMR rows in three strips of two rows, white and WWWBBWWW, each with an end of block. The strips'
# offsets stand at 114, their byte counts at 126.
three_strips = File(
    small(
        bytes.fromhex("98E0020020" * 3 + "00"),
        (257, 3, 1, 6), (259, 3, 1, 4), (262, 3, 1, 0), (273, 4, 3, 114), (278, 3, 1, 2), (279, 4, 3, 126),
    )
    + struct.pack("<6I", 8, 13, 18, 5, 5, 5)
)  # fmt: skip

# One page of two MMR rows in one strip, with black as 0: WWWBBWWW twice, before any exchange. The first has ten bits.
one_strip = small(
    bytes.fromhex("31F80000"),
    (257, 3, 1, 2), (259, 3, 1, 4), (262, 3, 1, 1), (273, 4, 1, 8), (278, 3, 1, 2), (279, 4, 1, 4),
)  # fmt: skip

# One page of one MMR row, white, of which the receiver counted 3 bad rows and put others in their places; 2 of them came
# one after the other. Its entries stand from 12 on, the one of 326 at 84, of 327 at 96, of 328 at 108, and the file ends
# at 124.
counted = small(
    bytes.fromhex("8000"),
    (257, 3, 1, 1), (259, 3, 1, 4), (262, 3, 1, 0), (273, 3, 1, 8), (279, 3, 1, 1), (326, 4, 1, 3), (327, 3, 1, 1),
    (328, 3, 1, 2),
)  # fmt: skip

# Two images: 9 pels by 3 rows, and 8 pels by 1 row.
images = b"P4\n9 3\n\x18\x00\xFF\x80\x0F\x00P4\n8 1\n\x18"
