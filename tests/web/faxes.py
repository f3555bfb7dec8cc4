"""The files that the page is tried with, and what the program says of each."""

from __future__ import annotations

import glob
import os
import random
import re
import subprocess

from tests import TOP
from tests.convert import pages
from tests.convert.files import put
from tests.finding import found

CODINGS = ["mh", "mr", "mmr"]
DAMAGED = 40


def image(kind: str, rows: int) -> bytes:
    """An image of rows of 40 pels that are drawn, each by itself."""
    return pages.image(40, [pages.draw_row(random.Random(at), kind, 40, 0, 0) for at in range(rows)])


def convert(program: str, image: bytes, *words: str) -> bytes:
    return subprocess.run([program, "convert", *words], input=image, capture_output=True, check=True).stdout


def drawn(program: str, seed: int, count: int = 3) -> bytes:
    """A fax of so many pages that are drawn, in strips."""
    rng = random.Random(seed)
    images = []
    for page in range(count):
        width, rows, row = rng.choice([8, 100, 217]), [], 0
        for number in range(rng.randint(20, 60)):
            row = pages.draw_row(rng, rng.choice(["marks", "marks", "noise"]), width, number, row)
            rows.append(row)
        images.append(pages.image(width, rows))
    coding, strip = CODINGS[seed % 3], str(rng.choice([5, 16, 1000]))
    return convert(program, b"".join(images), "-o", coding, "--strip", strip, "--order", str(1 + seed % 2))


def damaged(program: str, room: str) -> list[str]:
    """Forty faxes that are drawn and then damaged, each so that the program names a fault."""
    names, seed = list[str](), 0
    while len(names) < DAMAGED:
        seed += 1
        rng = random.Random(f"damage {seed}")
        data = bytearray(drawn(program, seed))
        for _ in range(rng.randint(1, 3)):
            data[rng.randrange(8, len(data))] ^= 1 << rng.randrange(8)
        if rng.random() < 0.1:
            del data[rng.randrange(8, len(data)):]
        name = put(f"{room}/damaged-{seed}.tif", bytes(data))
        if subprocess.run([program, "check", name], capture_output=True, check=False).returncode == 1:
            names.append(name)
    return names


def all_files(program: str, room: str) -> list[str]:
    """Samples, the inputs of the cases, and damaged faxes."""
    there = sorted(glob.glob(f"{TOP}/samples/*.tif")) + sorted(glob.glob(f"{TOP}/tests/runs/inputs/*.tif"))
    return there + damaged(program, room)


def said(program: str, *words: str) -> str:
    """What a command prints, with its fault after it."""
    ran = subprocess.run([program, *words], capture_output=True, check=False)
    return ran.stdout.decode() + ran.stderr.decode()


def picture(program: str, name: str, page: int) -> tuple[int, int, bytes, str] | None:
    """The page as faxpages-picture draws it: width, height, and 0, 1 or 2 a pel: white, black, grey."""
    script = os.path.join(TOP, "recipes", "faxpages-picture")
    path = os.pathsep.join([os.path.dirname(os.path.abspath(program)), os.environ["PATH"]])
    ran = subprocess.run([script, name, str(page)], env=dict(os.environ, PATH=path), capture_output=True, check=False)
    return (*pels_of_png(ran.stdout), ran.stderr.decode()) if ran.stdout else None


def pels_of_png(data: bytes) -> tuple[int, int, bytes]:
    """The width, the height and the pels of a picture of black, white and grey, by netpbm."""
    plain = subprocess.run(["pngtopnm"], input=data, capture_output=True, check=True).stdout
    raw = subprocess.run(["pgmtopgm"], input=plain, capture_output=True, check=True).stdout
    kind, width, height, most, raster = found(rb"\A(P5)\s+(\d+)\s+(\d+)\s+(\d+)\s(.*)", raw, re.S).groups()
    names = {0: 1, int(most): 0}
    return int(width), int(height), bytes(names.get(value, 2) for value in raster)


def pels_of_pbm(data: bytes) -> list[tuple[int, int, bytes]]:
    """The same of each image of a raw PBM."""
    images = []
    while data:
        head = found(rb"\AP4\n(\d+) (\d+)\n", data)
        width, height = map(int, head.groups())
        stride, at = (width + 7) // 8, head.end()
        rows = [data[at + row * stride:at + (row + 1) * stride] for row in range(height)]
        bits = b"".join(f"{int.from_bytes(row, 'big'):0{8 * stride}b}"[:width].encode() for row in rows)
        images.append((width, height, bits.translate(bytes.maketrans(b"01", b"\0\1"))))
        data = data[at + height * stride:]
    return images
