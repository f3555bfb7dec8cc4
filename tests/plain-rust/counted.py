"""Counts the instructions of the crate for Rust, and the growths of memory, in each way that it returns rows, for
tests/plain-rust/instructions."""

from __future__ import annotations

import math
import os
import shutil
import struct
import subprocess
from typing import Callable

from tests import TOP
from tests.finding import found

HERE = os.path.dirname(os.path.abspath(__file__))
REGISTRY = "/usr/share/cargo/registry"
# What the others are compared with, the walk of the plain crates, and how many times as many instructions a way may take
# in the mean: rows that are lent are the walk's own; others are copied, packed, or found in packed bytes again.
WALK = "walk"
LENT, OWNED, PACKED, FOUND = 1.1, 1.45, 1.9, 3.6
OF_RUNS = {"fax.lend_rows": LENT, "strip.lend_rows": LENT, "reader.next": OWNED, "fax.next_row.runs": OWNED,
           "fax.runs": OWNED, "strip.runs": OWNED, "strip.next_row": OWNED, "reader.next_runs": PACKED,
           "row.runs": FOUND, "strip.row.runs": FOUND, "reader.lend_row.runs": FOUND}
WAYS = {**OF_RUNS, "fax.lend_rows.pack": OWNED, "fax.next_row": PACKED, "fax.rows": PACKED}
# Of these, how many growths of memory a page of 2,292 rows may have: as many as one of few rows.
NONE_A_ROW = ("fax.lend_rows", "fax.lend_rows.pack", "strip.lend_rows")
FEW = 40
CODINGS = ["mh", "mr", "mmr"]


def build(room: str) -> str:
    """The program that reads in each way."""
    for name in ("plain", "rust"):
        shutil.copytree(os.path.join(TOP, name), os.path.join(room, name), ignore=shutil.ignore_patterns("target", "Cargo.lock"))
    shutil.copy(os.path.join(HERE, "crate.rs"), os.path.join(room, "rust", "examples"))
    profile = {f"CARGO_PROFILE_RELEASE_{name}": value
               for name, value in (("LTO", "fat"), ("CODEGEN_UNITS", "1"), ("PANIC", "abort"), ("OVERFLOW_CHECKS", "true"))}
    offline = ["--config", 'source.crates-io.replace-with="debian"', "--config", f'source.debian.directory="{REGISTRY}"']
    subprocess.run(["cargo", "build", "--release", "--offline", "--quiet", *offline, "--example", "crate"], check=True,
                   cwd=os.path.join(room, "rust"),
                   env={**os.environ, **profile, "CARGO_TARGET_DIR": os.path.join(room, "target")})
    return os.path.join(room, "target", "release", "examples", "crate")


def strip_of(path: str) -> str:
    """The one strip of a file of one page that the program wrote: its offset and its bytes are in the first directory."""
    with open(path, "rb") as file:
        data = file.read()
    # The program writes the least significant byte first.
    begin, = struct.unpack_from("<I", data, 4)
    count, = struct.unpack_from("<H", data, begin)
    entries = [struct.unpack_from("<HHII", data, begin + 2 + 12 * entry) for entry in range(count)]
    fields = {tag: value for tag, _, _, value in entries}
    with open(f"{path}.strip", "wb") as out:
        out.write(data[fields[273]:fields[273] + fields[279]])
    return f"{path}.strip"


def told(program: str, words: list[str]) -> int:
    """How many numbers a run counts."""
    return int(subprocess.run([program, *words], capture_output=True, check=True).stdout)


def growths(program: str, words: list[str]) -> int:
    """How many times a run asks for memory."""
    said = subprocess.run(["valgrind", program, *words], capture_output=True, text=True, check=True).stderr
    return int(found(r"total heap usage: ([\d,]+) allocs", said)[1].replace(",", ""))


def mean(numbers: list[float]) -> float:
    return math.exp(sum(map(math.log, numbers)) / len(numbers))


def compare(room: str, files: dict[tuple[str, str, int], str], pages: list[str],
            instructions: Callable[[list[str]], int]) -> int:
    """Prints how many times as many instructions as the walk each way takes; answers how many bounds do not hold: those of
    means are one, and those of growths another."""
    program, too_many, grows = build(os.path.join(room, "crate")), False, False
    ratios: dict[str, list[float]] = {way: [] for way in WAYS}
    for page in pages:
        for coding in CODINGS:
            words = [files[page, coding, 1], strip_of(files[page, coding, 1])]
            assert len({told(program, [way, *words]) for way in (WALK, *OF_RUNS)}) == 1, words
            base, *taken = [instructions([program, way, *words]) for way in ("nothing", WALK, *WAYS)]
            nothing, *asked = [growths(program, [way, *words]) for way in ("nothing", *NONE_A_ROW)]
            grows = grows or max(asked) > nothing + FEW
            for way, count in zip(WAYS, taken[1:]):
                ratios[way].append((count - base) / (taken[0] - base))
    print(f"{'the crate':20} ratio to the {WALK}, least, most")
    for way, numbers in ratios.items():
        print(f"{way:20} {mean(numbers):6.3f} {min(numbers):6.3f} {max(numbers):6.3f}", flush=True)
        too_many = too_many or mean(numbers) > WAYS[way]
    return too_many + grows
