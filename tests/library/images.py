#!/usr/bin/env python3
"""Pages as images of Pillow and as arrays of numpy, and such as pages; and Pillow's reader of faxes.

    images.py FILE..

What is not installed is named and left out. FAXPAGES_LIBRARY names the library. Ends with 'images: N passed, N failed'.
"""

from __future__ import annotations

import contextlib
import io
import itertools
import os
import pickle
import struct
import sys
import warnings
from functools import partial
from typing import Any, Callable

from tests import TOP
from tests.library.counted import SMALL, Claims
from tests.plain.strips import file_of

import faxpages

with contextlib.suppress(ImportError):
    import numpy
with contextlib.suppress(ImportError):
    from PIL import Image, ImageFile, ImageSequence, TiffImagePlugin


# Files that libtiff 4.5 cannot read, so that Pillow says; in the last three no EOL stands in Group 3 data.
NOT_BY_LIBTIFF = ("image-width-twice.tif", "rows-mr-zero-length-run.tif", "receiver-counted-bad-rows.tif",
                  "receiver-counted-no-bad-row.tif", "receiver-says-data-are-not-clean.tif")


def pages_of(data: bytes) -> list[faxpages.Page]:
    """The pages of a file that are whole."""
    return list(itertools.islice(faxpages.open(data), faxpages.check(data).pages))


def arrays(claims: Claims, name: str, data: bytes) -> None:
    """A page as an array is its rows, and no copy of them; and an array of its pels is written as the page."""
    for page in pages_of(data):
        raster = page.raster()
        array = numpy.asarray(raster)
        claims.see(f"an array of {name}", array.tobytes() == raster.packed and array.dtype == numpy.uint8
                   and array.shape == (page.rows, raster.stride) and (page.array() == array).all())
        at, lent = array.ctypes.data, numpy.frombuffer(raster.packed, numpy.uint8).ctypes.data
        claims.see(f"no copy of {name}", at == lent and not array.flags.writeable)
        claims.see(f"no copy by array() of {name}", raster.array().ctypes.data == lent)
        pels = numpy.unpackbits(array, axis=1, count=page.width).astype(bool)
        for written in (pels, numpy.asfortranarray(pels), pels[:, ::-1][:, ::-1]):
            claims.see(f"an array of pels of {name}",
                       faxpages.open(faxpages.encode([written]))[0].packed() == raster.packed)
    wrongs: list[Any] = [numpy.zeros((2, 2), numpy.uint8), numpy.zeros((2, 2)), numpy.zeros((2, 2, 2), bool),
                         numpy.zeros(8, bool)]
    for wrong in wrongs:
        claims.raises(f"an array {wrong.shape} {wrong.dtype}", TypeError, partial(faxpages.encode, [wrong]))
    for wrong in (numpy.zeros((0, 8), bool), numpy.zeros((8, 0), bool)):
        claims.raises(f"an array {wrong.shape}", ValueError, partial(faxpages.encode, [wrong]))


def images(claims: Claims, name: str, data: bytes) -> None:
    """A page as an image has its pels and its resolution, and the image is written as the page."""
    pages = pages_of(data)
    for page in pages:
        image = page.image()
        claims.see(f"an image of {name}", (image.mode, image.size, image.info.get("dpi")) ==
                   ("1", (page.width, page.rows), page.dpi) and image.tobytes("raw", "1;I") == page.packed())
    if pages:
        again = faxpages.open(faxpages.encode([page.image() for page in pages], "mr"))
        claims.see(f"images of {name}, written", [page.packed() for page in again] == [page.packed() for page in pages]
                   and all(one.dpi in (None, other.dpi) for one, other in zip(pages, again)))


def partial_pages(claims: Claims) -> None:
    """A damaged page as an image has its rows before the fault."""
    page = faxpages.open(f"{TOP}/samples/damaged-fourth-page.tif")[3]
    claims.raises("a damaged page", faxpages.OutOfRow, page.image)
    image = page.image(partial=True)
    claims.see("its rows", image.size == (page.width, 5) and image.info["lost"] == page.rows - 5)
    none = faxpages.open(file_of("mmr", 1, 8, 3, b"\0"))[0]
    claims.see("no rows", none.image(partial=True).size == (8, 0) and none.image(partial=True).info["lost"] == 3)


def other_images(claims: Claims) -> None:
    """Images with another resolution, or none, and of another mode."""
    for dpi, wanted in (((100, 100), (100, 100)), (None, (204, 196)), ((0, 0), (204, 196)), ("72", (204, 196))):
        image = Image.new("1", (9, 2), 1)
        if dpi:
            image.info["dpi"] = dpi
        claims.see(f"an image of {dpi}", faxpages.open(faxpages.encode([image]))[0].dpi == wanted)
    claims.see("white is 0", faxpages.open(faxpages.encode([image]))[0].packed() == bytes(4))
    claims.see("another resolution", faxpages.open(faxpages.encode([image], dpi=300))[0].dpi == (300, 300))
    for mode in ("L", "RGB"):
        claims.raises(f"an image of mode {mode}", ValueError,
                      partial(faxpages.encode, [Image.new(mode, (8, 8))]))


def opened(data: bytes) -> tuple[Any, Any]:
    """The file by Pillow: its format and its frames, or the error."""
    warnings.simplefilter("ignore")
    try:
        image = Image.open(io.BytesIO(data))
        return image.format, [(frame.size, frame.tobytes("raw", "1;I")) for frame in ImageSequence.Iterator(image)]
    except OSError as error:
        return "error", str(error)
    except Exception as error:  # pylint: disable=broad-except
        return "another error", str(error)


def by_pillow(claims: Claims, name: str, data: bytes) -> None:
    """Pillow's reader has the rows of a fax, or none, and refuses a damaged one."""
    report, found = faxpages.check(data), opened(data)
    if report.ok:
        wanted = [((page.width, page.rows), page.packed()) for page in faxpages.open(data)]
        is_refused = found[0] == "error" and found[1].startswith(("-2", "page 0 row 0: BadField 256: "))
        is_not_read = is_refused and name in NOT_BY_LIBTIFF
        claims.see(f"{name} by Pillow", found == ("TIFF", wanted) or is_not_read)
    elif isinstance(report.fault, faxpages.StripFault):
        claims.see(f"{name} by Pillow is refused: {found}", found in (("error", str(report.fault)), ("error", "-2")))


def plugin(claims: Claims) -> None:
    """What a fax is as an image of Pillow, and where damage is refused."""
    name = f"{TOP}/tests/runs/inputs/three-whole-pages.tif"
    fax = faxpages.open(name)
    image = Image.open(name)
    claims.see("a fax", (image.format, image.n_frames, image.is_animated, image.tell()) == ("TIFF", 3, True, 0)
               and (image.mode, image.size, image.info["dpi"]) == ("1", (fax[0].width, fax[0].rows), fax[0].dpi))
    for number in (2, 0, 1, 1):
        image.seek(number)
        claims.see(f"frame {number}", image.tell() == number and image.size == (fax[number].width, fax[number].rows)
                   and image.tobytes("raw", "1;I") == fax[number].packed() == image.copy().tobytes("raw", "1;I"))
    damaged = Image.open(f"{TOP}/samples/damaged-fourth-page.tif")
    damaged.seek(3)
    for _ in range(2):
        claims.raises("a damaged page", OSError, damaged.load)
    claims.raises("a damaged page that is pickled", OSError, lambda: pickle.dumps(damaged))
    damaged.seek(0)
    claims.see("a page before it", damaged.tobytes("raw", "1;I") == faxpages.open(damaged.filename)[0].packed())
    claims.raises("a file that is verified", OSError, Image.open(damaged.filename).verify)
    claims.see("Pillow's own", TiffImagePlugin.TiffImageFile(damaged.filename).verify() is None)


def links(data: bytes) -> list[int]:
    """Where a file says the places of its directories, the last of which is 0."""
    found, at = [4], struct.unpack_from("<L", data, 4)[0]
    while at:
        found.append(at + 2 + 12 * struct.unpack_from("<H", data, at)[0])
        (at,) = struct.unpack_from("<L", data, found[-1])
    return found


def all_frames(image: Image.Image) -> list[Image.Image]:
    """The frames of an image."""
    return list(ImageSequence.Iterator(image))


def directories(claims: Claims) -> None:
    """A fax whose directories do not end is refused where a frame after them is asked for; those before are read."""
    with open(f"{TOP}/tests/runs/inputs/three-whole-pages.tif", "rb") as file:
        data = file.read()
    first, wanted = data[4:8], faxpages.open(data)[0].packed()
    for name, link, place, frames in (("cut", 1, b"\xff\xff\0\0", 1), ("loop", -1, first, 3)):
        at = links(data)[link]
        damaged = data[:at] + place + data[at + 4:]
        image = Image.open(io.BytesIO(damaged))
        for _ in range(2):
            claims.raises(f"{name}: how many frames", OSError, partial(getattr, image, "n_frames"))
            claims.raises(f"{name}: one frame more", OSError, partial(image.seek, frames))
        image.seek(frames - 1)
        image.seek(0)
        claims.see(f"{name}: the first frame", image.tobytes("raw", "1;I") == wanted)
        claims.raises(f"{name}: all frames", OSError, partial(all_frames, image))
        claims.raises(f"{name}: verify", OSError, Image.open(io.BytesIO(damaged)).verify)


def fields(claims: Claims) -> None:
    """A fax whose strips cannot be found by its fields is refused; Pillow reads numbers below 0 too."""
    with open(f"{TOP}/samples/one-mh-page.tif", "rb") as file:
        data = file.read()
    for tag, kind, value in ((278, 3, 0), (278, 8, -1), (278, 2, 0), (273, 9, -1), (279, 9, -1), (279, 4, 1 << 31)):
        at = data.index(struct.pack("<H", tag), links(data)[0])
        damaged = data[:at + 2] + struct.pack("<HLl" if value < 0 else "<HLL", kind, 1, value) + data[at + 12:]
        what, why = opened(damaged)
        claims.see(f"{tag} of {kind} is {value}: {what}, {why}", what == "error" and why.startswith(
            (f"page 0 row 0: BadField {tag}: ", "page 0 row 0: StripOutside: ")))


def in_pieces(claims: Claims) -> None:
    """Pillow's Parser, which gets the bytes in pieces or at once, refuses damage too."""
    for name, size in itertools.product(("three-mmr-rows", "second-row-missing"), (100, 1 << 20)):
        parser = ImageFile.Parser()
        with open(f"{TOP}/samples/{name}.tif", "rb") as file:
            for piece in iter(partial(file.read, size), b""):
                parser.feed(piece)
        if name == "second-row-missing":
            claims.raises(f"{name} by {size} bytes", OSError, parser.close)
        else:
            claims.see(f"{name} by {size} bytes", parser.close().tobytes("raw", "1;I") ==
                       faxpages.open(f"{TOP}/samples/{name}.tif")[0].packed())


def main() -> int:
    claims, files = Claims(), dict[str, bytes]()
    for name in sys.argv[1:]:
        with open(name, "rb") as file:
            files[os.path.basename(name)] = file.read()
    tests: list[tuple[str, str, list[Callable[[Claims, str, bytes], None]]]] = [
        ("numpy", "numpy", [arrays]), ("Pillow", "PIL", [images, by_pillow])]
    for what, module, parts in tests:
        if module not in sys.modules:
            print(f"SKIPPED: {what} is not installed, so: {', '.join(part.__name__ for part in parts)}")
            continue
        for part in parts:
            if part is by_pillow:
                for _ in range(2):
                    faxpages.register()
            for name, data in files.items():
                part(claims, name, data)
    if "PIL" in sys.modules:
        for of_pillow in (partial_pages, other_images, plugin, directories, fields, in_pieces):
            of_pillow(claims)
    return claims.ends("images")


if __name__ == "__main__":
    sys.exit(main())
