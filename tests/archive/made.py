"""Makes a tree of faxes for the tests of archives, some with names that are no UTF-8, a tenth of them damaged."""

from __future__ import annotations

import glob
import os
import random
import struct
import sys
from typing import Iterator
from types import ModuleType

HERE = os.path.dirname(os.path.abspath(__file__))

from tests.convert import pages  # noqa: E402

# A time of change that is long ago.
OLD = 1_700_000_000
HOSTILE = [b"caf\xe9.tif", b"a\nline.tif", b"a 'quote\", and more.TIFF", b"-o.tif", b"\xff\xfe.Tif",
           "päge.tif".encode()]


def originals(faxpages: ModuleType, count: int) -> Iterator[bytes]:
    """Some drawn faxes, in each coding and fill order, of one page and of five, and damaged ones."""
    rng = pages.seeded("archive")
    for number in range(count):
        drawn = pages.draw_document(number, pages.DOCUMENTS[number % len(pages.DOCUMENTS)], rng.choice([8, 100, 1728]))
        width = max(8, max(row.bit_length() for page in drawn for row in page))
        image = b"".join(pages.image(width, rows) for rows in drawn)
        target = ["mh", "mr", "mmr"][number % 3]
        fax = faxpages.convert(image, target, rng.choice([1, 2]), strip=rng.choice([None, 2]))
        yield damaged(rng, fax) if number % 10 == 9 else fax


def damaged(rng: random.Random, fax: bytes) -> bytes:
    """A fax with a bit changed, or cut."""
    if rng.random() < 0.3:
        return fax[:rng.randrange(len(fax))]
    at = rng.randrange(len(fax))
    return fax[:at] + bytes([fax[at] ^ 1 << rng.randrange(8)]) + fax[at + 1:]


def centimetres(fax: bytes) -> bytes:
    """A fax of little-endian bytes, whose resolution is to the centimetre."""
    unit = struct.pack("<HHIH", 296, 3, 1, 2)
    assert unit in fax
    return fax.replace(unit, struct.pack("<HHIH", 296, 3, 1, 3))


def other() -> bytes:
    """A sample that is none of the drawn faxes."""
    with open(os.path.join(HERE, "..", "..", "samples", "row-begins-black.tif"), "rb") as file:
        return file.read()


def inputs() -> Iterator[bytes]:
    """The files that the runs of the program are tried with."""
    for name in sorted(glob.glob(os.path.join(HERE, "..", "runs", "inputs", "*.tif"))):
        with open(name, "rb") as file:
            yield file.read()


def make(faxpages: ModuleType, tree: str, count: int, of: int = 300,
         first: list[bytes] | tuple[()] = ()) -> list[bytes]:
    """Writes so many faxes into folders below the tree, first these, and what is none. The paths of the faxes."""
    top, paths = os.fsencode(tree), list[bytes]()
    kinds = [*first, *originals(faxpages, of)]
    for number in range(count):
        folder = os.path.join(top, b"%d" % (number % 7), b"sub" * (number % 3) or b".")
        name = HOSTILE[number] if number < len(HOSTILE) else b"%d.tif" % number
        paths.append(os.path.normpath(os.path.join(folder, name)))
        os.makedirs(folder, exist_ok=True)
        with open(paths[-1], "wb") as file:
            file.write(kinds[number % len(kinds)])
        # None is so young that it may still be coming in.
        os.utime(paths[-1], (OLD, OLD))
    os.symlink(paths[0], os.path.join(top, b"link.tif"))
    os.makedirs(os.path.join(top, b"folder.tif"))
    with open(os.path.join(top, b"other.txt"), "wb") as file:
        file.write(b"no fax")
    return paths


if __name__ == "__main__":
    import faxpages as module

    random.seed(0)
    make(module, sys.argv[1], int(sys.argv[2]))
