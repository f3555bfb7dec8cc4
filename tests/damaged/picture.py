#!/usr/bin/env python3
"""Draws what is left of a fax that a server received over a noisy line: above what libtiff's `tiffcp` makes of it, below
the rows that `faxpages salvage` finds, with those that are lost in grey.

    tests/damaged/picture.py PROGRAM PNG

PROGRAM is `faxpages`. The picture is a part of samples/received/over-a-noisy-line.tif, each
row twice, since there are half as many to an inch as pels."""

from __future__ import annotations

import itertools
import os
import struct
import subprocess
import sys
import tempfile
import zlib
from typing import Dict, List

HERE = os.path.dirname(os.path.abspath(__file__))
SAMPLE = os.path.join(HERE, os.pardir, os.pardir, "samples", "received", "over-a-noisy-line.tif")
FIRST, AFTER, LEFT, RIGHT = 182, 308, 190, 1050
WHITE, GREY, BLACK = 255, 176, 0


def pels_of(runs: List[int]) -> bytes:
    """The part of a row that is shown, by its runs."""
    row = b"".join(bytes([colour]) * length for colour, length in zip(itertools.cycle([WHITE, BLACK]), runs))
    return row[LEFT:RIGHT]


def rows_of(program: str, command: str, file: str) -> List[bytes]:
    """The rows that are shown of a file's first page; a row that is not printed is grey."""
    printed = subprocess.run([program, command, file], stdout=subprocess.PIPE, stderr=subprocess.DEVNULL, check=False).stdout
    found: Dict[int, bytes] = {}
    for line in printed.decode().splitlines():
        word, *numbers = line.split()
        if word == "row" and numbers[0] == "0":
            found[int(numbers[1])] = pels_of([int(number) for number in numbers[2:]])
    return [found.get(number, bytes([GREY]) * (RIGHT - LEFT)) for number in range(FIRST, AFTER)]


def copied(folder: str) -> str:
    """What libtiff copies of the sample; its warnings are left out."""
    copy = os.path.join(folder, "copy.tif")
    subprocess.run(["tiffcp", SAMPLE, copy], stderr=subprocess.DEVNULL, check=True)
    return copy


def drawn(program: str) -> List[bytes]:
    """The rows of the picture: what `rows` prints of libtiff's copy, a line, and what `salvage` prints."""
    with tempfile.TemporaryDirectory() as folder:
        above = rows_of(program, "rows", copied(folder))
    below = rows_of(program, "salvage", SAMPLE)
    space, line = [bytes([WHITE]) * (RIGHT - LEFT)] * 5, [bytes([BLACK]) * (RIGHT - LEFT)]
    return [row for row in [*above, *space, *line, *space, *below] for _ in range(2)]


def chunk(name: bytes, data: bytes) -> bytes:
    return struct.pack(">I", len(data)) + name + data + struct.pack(">I", zlib.crc32(name + data))


def png_of(rows: List[bytes]) -> bytes:
    head = struct.pack(">IIBBBBB", len(rows[0]), len(rows), 8, 0, 0, 0, 0)
    data = zlib.compress(b"".join(b"\0" + row for row in rows), 9)
    return b"\x89PNG\r\n\x1a\n" + chunk(b"IHDR", head) + chunk(b"IDAT", data) + chunk(b"IEND", b"")


def rows_of_png(data: bytes) -> List[bytes]:
    """The rows of a picture that was written here."""
    width, height = struct.unpack_from(">II", data, 16)
    length = struct.unpack_from(">I", data, 33)[0]
    raw = zlib.decompress(data[41 : 41 + length])
    return [raw[(width + 1) * number + 1 : (width + 1) * (number + 1)] for number in range(height)]


def main() -> None:
    with open(sys.argv[2], "wb") as file:
        file.write(png_of(drawn(os.path.abspath(sys.argv[1]))))


if __name__ == "__main__":
    main()
