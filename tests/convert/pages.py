"""Drawn pages as raw PBM images, and runs of programs over them."""

from __future__ import annotations

import random
import subprocess
from typing import Sequence

KINDS = ["black", "white", "noise", "marks", "stripes"]
DOCUMENTS = [*KINDS, "all"]
NARROW = range(1, 71)
WIDE = [100, 1728, 2432, 2560, 2623, 2624, 5200, 32768, 65535]


def draw_row(rng: random.Random, kind: str, width: int, number: int, before: int) -> int:
    """The pels of a row as a number, the first pel in its highest bit, 1 for black."""
    every = (1 << width) - 1
    if kind == "black":
        return every
    if kind == "white":
        return 0
    if kind == "noise":
        return rng.getrandbits(width)
    if kind == "stripes":
        run = 1 + number % 3
        return sum(1 << at for at in range(width) if at // run % 2)
    # Marks change a little from row to row, as letters do, so that all modes are met.
    row = before
    for _ in range(rng.randint(0, 3)):
        at = rng.randrange(width)
        row ^= (1 << rng.randint(1, min(width - at, 40))) - 1 << at
    return row


def draw_page(rng: random.Random, kind: str, width: int) -> list[int]:
    """The rows of a page."""
    rows, before = [], 0
    for number in range(rng.randint(1, 12 if width < 2000 else 6)):
        before = draw_row(rng, kind, width, number, before)
        rows.append(before)
    return rows


def draw_document(seed: int, kind: str, width: int) -> list[list[int]]:
    """The pages of a document: one of this kind, or one of each."""
    rng = seeded(seed, kind, width)
    return [draw_page(rng, of, width) for of in (KINDS if kind == "all" else [kind])]


def report(drawn: list[list[int]], notes: str = "") -> str:
    """The report of `check` on these pages, with these notes."""
    return f"{notes}pages {len(drawn)} rows {sum(map(len, drawn))}\n"


def image(width: int, rows: list[int], spare: int = 0) -> bytes:
    """The raw PBM image of these rows, with these bits (ones or none) after the last pel of each."""
    size = -(-width // 8)
    pad = 8 * size - width
    fill = spare & (1 << pad) - 1
    raster = b"".join((row << pad | fill).to_bytes(size, "big") for row in rows)
    return b"P4\n%d %d\n" % (width, len(rows)) + raster


def converted(program: str, words: Sequence[str], data: bytes) -> bytes | tuple[int, bytes]:
    """What `convert` writes with these words; a fault is told in its place."""
    ran = subprocess.run([program, "convert", *words], input=data, capture_output=True, timeout=900)
    return ran.stdout if (ran.returncode, ran.stderr) == (0, b"") else (ran.returncode, ran.stderr)


def coded(program: str, words: Sequence[str], data: bytes) -> bytes:
    """What `convert` writes with these words, where a fault is the end of the test."""
    made = converted(program, words, data)
    assert isinstance(made, bytes), made
    return made


def told(program: str, command: str, data: bytes) -> str | tuple[int, bytes]:
    """What `check`, `list` or `rows` prints; a fault is told in its place."""
    ran = subprocess.run([program, command], input=data, capture_output=True, timeout=900)
    return ran.stdout.decode() if (ran.returncode, ran.stderr) == (0, b"") else (ran.returncode, ran.stderr)


def seeded(*names: bytes | int | str) -> random.Random:
    return random.Random(" ".join(map(str, names)))
