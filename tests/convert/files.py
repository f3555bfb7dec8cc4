"""Files and tools for the comparisons with other programs."""

from __future__ import annotations

import os
import struct
import subprocess
from typing import Iterator

from tests import Claim
from tests.convert import pages

# The numbers of each field, by its tag.
Fields = dict[int, tuple[int, ...]]
# The number of Compression, and the entry of T4Options where there is one.
FORMS: dict[str, tuple[int, list[tuple[int, int, int]]]] = {
    "plain": (1, []), "mh": (3, [(292, 4, 0)]), "mr": (3, [(292, 4, 1)]), "mmr": (4, []),
}


def tool(words: list[str], output: str | None = None) -> tuple[int, str] | None:
    """What a tool has to say; its output goes into a file where one is named."""
    with open(output, "wb") if output else open(os.devnull, "wb") as out:
        ran = subprocess.run(words, stdout=out, stderr=subprocess.PIPE, timeout=900)
    return (ran.returncode, ran.stderr.decode()) if ran.returncode or ran.stderr else None


def put(path: str, data: bytes) -> str:
    with open(path, "wb") as file:
        file.write(data)
    return path


def get(path: str) -> bytes:
    with open(path, "rb") as file:
        return file.read()


def fields_of(data: bytes, at: int) -> tuple[Fields, int]:
    """The fields of a directory of a little-endian file, by their tags, and the place of the next one."""
    fields: Fields = {}
    (entries,) = struct.unpack_from("<H", data, at)
    for entry in range(at + 2, at + 2 + 12 * entries, 12):
        tag, kind, count = struct.unpack_from("<HHI", data, entry)
        if kind in (3, 4):
            values = f"<{count}{'H' if kind == 3 else 'I'}"
            place = entry + 8
            if struct.calcsize(values) > 4:
                (place,) = struct.unpack_from("<I", data, place)
            fields[tag] = struct.unpack_from(values, data, place)
    return fields, struct.unpack_from("<I", data, at + 2 + 12 * entries)[0]


def directories_of(data: bytes) -> Iterator[Fields]:
    """The fields of each page of a little-endian file."""
    at = struct.unpack_from("<I", data, 4)[0]
    while at:
        fields, at = fields_of(data, at)
        yield fields


def strips_of(data: bytes, fields: Fields) -> list[bytes]:
    """The strips of a page, each its bytes."""
    return [data[place : place + size] for place, size in zip(fields[273], fields[279])]


def framed(width: int, length: int, order: int, form: str, strip: bytes) -> bytes:
    """A TIFF file of one page with this strip, in a form of FORMS: some tools write a strip alone."""
    compression, options = FORMS[form]
    after = 8 + 2 + 12 * (13 + len(options)) + 4
    values = [
        (256, 4, width), (257, 4, length), (258, 3, 1), (259, 3, compression), (262, 3, 0), (266, 3, order),
        (273, 4, after + 16), (277, 3, 1), (278, 4, length), (279, 4, len(strip)), (282, 5, after),
        (283, 5, after + 8), *options, (296, 3, 2),
    ]  # fmt: skip
    entries = b"".join(struct.pack("<HHII", tag, kind, 1, value) for tag, kind, value in values)
    directory = struct.pack("<H", len(values)) + entries + bytes(4)
    return struct.pack("<2sHI", b"II", 42, 8) + directory + struct.pack("<4I", 204, 1, 196, 1) + strip


def read(program: str, file: bytes | str, name: str, drawn: list[list[int]], source: bytes,
         notes: str = "") -> Iterator[Claim]:
    """What `convert` and `check` have of a file that a tool wrote: a name, what came, and what is wanted."""
    data = file if isinstance(file, bytes) else get(file)
    yield f"{name}: convert", pages.converted(program, ["-o", "pbm"], data), source
    yield f"{name}: check", pages.told(program, "check", data), pages.report(drawn, notes)
