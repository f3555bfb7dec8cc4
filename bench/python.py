#!/usr/bin/env python3
"""Measures the Python module beside Pillow: pages a second, from memory.

    bench/python.py

FAXPAGES_LIBRARY names the library; Pillow and numpy have to be installed, and the fonts of bench/pages.py, which draws
the page: dense text of 1,728 by 2,292 pels. Each job is done for a fax of 20 pages in MMR, in turn by both, some times;
the number is that of the best time, of the processor. Prints a line a job."""

from __future__ import annotations

import io
import os
import sys
import tempfile
import time
from typing import Callable

import numpy
from PIL import Image, ImageSequence

import tests  # noqa: F401  which says where faxpages is

import faxpages
import measure

Job = Callable[[], object]
PAGES, TIMES, SEED = 20, 15, 1


def draw() -> bytes:
    """The bytes of a page of text, as raw PBM."""
    with tempfile.TemporaryDirectory() as room:
        measure.draw(SEED, room)
        with open(f"{room}/text.pbm", "rb") as file:
            return file.read()


def written_by_pillow(images: list[Image.Image]) -> bytes:
    """A file of images by Pillow, through libtiff."""
    out = io.BytesIO()
    images[0].save(out, format="TIFF", save_all=True, append_images=images[1:], compression="group4", dpi=(204, 196))
    return out.getvalue()


def frames(data: bytes) -> list[Image.Image]:
    """The pages as images by Pillow."""
    return [frame.copy() for frame in ImageSequence.Iterator(Image.open(io.BytesIO(data), formats=["TIFF"]))]


def jobs(data: bytes) -> dict[str, tuple[Job, Job | None]]:
    """Each job by its name: what faxpages does, and what Pillow does, or None."""
    images = [page.image() for page in faxpages.open(data)]
    return {
        "packed": (lambda: [page.packed() for page in faxpages.open(data)],
                   lambda: [frame.tobytes("raw", "1;I") for frame in frames(data)]),
        "array": (lambda: [page.array() for page in faxpages.open(data)],
                  lambda: [numpy.asarray(frame) for frame in frames(data)]),
        "image": (lambda: [page.image() for page in faxpages.open(data)], lambda: frames(data)),
        "rows": (lambda: [list(page) for page in faxpages.open(data)], None),
        "write images": (lambda: faxpages.encode(images), lambda: written_by_pillow(images)),
        "write pages": (lambda: faxpages.encode(faxpages.open(data)), None),
    }


def seconds(job: Job) -> float:
    """The seconds of the processor that a job takes."""
    begin = time.process_time()
    job()
    return time.process_time() - begin


def main() -> None:
    data = faxpages.convert(PAGES * draw(), "mmr")
    print(f"pages a second    faxpages   Pillow {Image.__version__}")
    for name, ways in jobs(data).items():
        best = [min(seconds(way) for _ in range(TIMES)) if way else None for way in ways]
        print(f"{name:16}" + "".join(f"{PAGES / it:10.0f}" if it else "         -" for it in best), flush=True)


if __name__ == "__main__":
    main()
