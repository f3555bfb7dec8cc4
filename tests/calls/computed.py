"""Lines of tables that are computed, by a plain coder: too many or too long to be written by hand."""

from __future__ import annotations

import functools
import itertools
import os
import random
import re
import sys
from multiprocessing.pool import Pool
from typing import Callable, Iterator

sys.dont_write_bytecode = True

from tests.calls import named  # noqa: E402
from tests.calls.plain import (  # noqa: E402
    CODES, MODE_CODES, OTHER, one_dimensional, runs_of, strip_bits, to_bytes, two_dimensional,
)
from tests.plain.tables import EOL  # noqa: E402

HERE = os.path.dirname(os.path.abspath(__file__))

ORDERS = {1: "msb", 2: "lsb"}
MOST_PELS = 10
LISTS = 60
MOST_K = 5
PELS = str.maketrans("01", "WB")


def line(call: str, wanted: object, why: str) -> str:
    return f"{call} = {wanted} # {why}"


def digits(data: bytes) -> str:
    return f"x{bytes(data).hex().upper()}"


def pels_of_runs(data: bytes, width: int) -> str:
    """The pels of packed bytes."""
    return "".join(f"{byte:08b}" for byte in data)[:width].translate(PELS)


def packed(pels: str) -> str:
    """A row in a call: its width and its bytes."""
    bits = "".join("01"[pel == "B"] for pel in pels)
    return f"{len(pels)}:{digits(to_bytes(bits))}"


def numbers(values: list[int]) -> str:
    return ",".join(map(str, values))


# Bits.


def codes(_pool: Pool) -> Iterator[str]:
    """Bytes of each count up to 67 that are turned round: a lane has 8, and a step of lanes 64."""
    for count in range(68):
        data = bytes((37 * i + count) % 256 for i in range(count))
        turned = bytes(int(f"{byte:08b}"[::-1], 2) for byte in data)
        yield line(f"reverse_bits {digits(data)}", digits(turned), f"{count} bytes")


# Rows.


def others(pels: str, colour: str) -> str:
    """For each place up to the end the first one from there on that is not of this colour."""
    due, found = len(pels), [len(pels)]
    for place in reversed(range(len(pels))):
        due = place if pels[place] != colour else due
        found.append(due)
    return " ".join(map(str, reversed(found)))


def first_others() -> Iterator[str]:
    """White bytes with one black pel in the last, and black ones with some white pels, of each count up to 67."""
    for count in range(68):
        white = bytes(16 if i == count - 1 else 0 for i in range(count))
        black = bytes(0xA5 if i % 19 == 7 else 0xFF for i in range(count))
        for data, colour in itertools.product((white, black), ("white", "black")):
            wanted = others(pels_of_runs(data, 8 * count), colour[0].upper())
            yield line(f"first_others {colour} {digits(data)}", wanted, f"{count} bytes")


def noise(seed: int, count: int) -> Iterator[int]:
    for _ in range(count):
        seed = (seed * 1_664_525 + 1_013_904_223) % 2**32
        yield seed >> 24


def marks(kind: str, seed: int, width: int) -> str:
    """Pels of a kind."""
    count = -(-width // 8)
    kinds = {
        "white": bytes(count),
        "black": b"\xff" * count,
        "in turn": b"\x55" * count,
        "thin marks": bytes(0x18 if i % 7 == 3 else 0 for i in range(count)),
        "noise": bytes(noise(seed, count)),
    }
    return pels_of_runs(kinds[kind], width)


def read_and_put(reference: str, row: str, why: str) -> Iterator[str]:
    """A row is written in both codings, and read back."""
    runs = numbers(runs_of(row))
    one, two = one_dimensional(row), two_dimensional(reference, row)
    yield line(f"put_1d {packed(row)}", one, why)
    yield line(f"put_2d {packed(reference)} {packed(row)}", two, why)
    yield line(f"read_1d {len(row)} {digits(to_bytes(one))}", f"{runs} {len(one)}", why)
    yield line(f"read_2d {packed(reference)} {digits(to_bytes(two))}", f"{runs} {len(two)}", why)


def marked_rows() -> Iterator[str]:
    """Rows of each kind over rows of each kind, and the rows of most changes."""
    kinds = "white", "black", "in turn", "thin marks", "noise"
    for width, over, kind in itertools.product((1, 2, 7, 8, 9, 64, 1728), kinds, kinds):
        reference, row = marks(over, 40_503, width), marks(kind, 1_664_525, width)
        yield from read_and_put(reference, row, f"{kind} over {over}")
    white, changing = "W" * 65535, ("WB" * 32768)[:65535]
    yield from read_and_put(white, changing, "the row of most changes")
    black_first = ("BW" * 32768)[:65535]
    assert len(one_dimensional(black_first)) == 294_914
    yield from read_and_put(white, black_first, "the row of most runs, the first of which has no pels")


def coded_run(colour: str, make_up: list[int], last: int) -> tuple[str, int]:
    """A run of these make-up codes, and how many pels it has."""
    table = CODES[colour]
    return "".join(table["more", pels] for pels in make_up) + table["end", last], sum(make_up) + last


def long_codes() -> Iterator[str]:
    """Rows in horizontal mode, over a white row or one that is black after ten white pels, whose runs have several
    make-up codes: as T.4 chooses them, or others. They stand near the end of the bytes, and far from it."""
    width, lists = 12_000, [[2560, 64], [2560, 2560], [64, 64], [64, 2560], [64] * 40]
    for first, white, after in itertools.product(lists, (0, 10), (0, 200)):
        colour = "WB"[white > 0]
        one, length = coded_run(colour, first, 5)
        for second in lists:
            two, more = coded_run(OTHER[colour], second, 7)
            bits = (MODE_CODES[0] if white else "") + MODE_CODES["horizontal"] + one + two + MODE_CODES[0]
            reference = "W" * (white or width) + "B" * (width - (white or width))
            runs = numbers(([white] if white else []) + [length, more, width - white - length - more])
            data = to_bytes(bits) + bytes(after)
            yield line(f"read_2d {packed(reference)} {digits(data)}", f"{runs} {len(bits)}", "several make-up codes")


def rows_of_width(width: int) -> list[str]:
    return ["".join(pels) for pels in itertools.product("WB", repeat=width)]


def each_over(reference: str) -> str:
    """Every row over a reference row, written and read back."""
    bits = [two_dimensional(reference, row) for row in rows_of_width(len(reference))]
    return line(f"put_each {reference}", "".join(f"{of_row}." for of_row in bits), "every row over it")


def each_row(pool: Pool) -> Iterator[str]:
    """Every row of few pels, alone and over every reference row: 1,398,100 pairs."""
    references = [row for width in range(1, MOST_PELS + 1) for row in rows_of_width(width)]
    assert sum(2 ** len(row) for row in references) == 1_398_100
    for row in references:
        bits = one_dimensional(row)
        yield line(f"put_1d {row}", bits, "every row of few pels")
        yield line(f"read_1d {len(row)} {bits}", f"{numbers(runs_of(row))} {len(bits)}", "every row of few pels")
    yield from pool.imap(each_over, references, 16)


def rows(pool: Pool) -> Iterator[str]:
    yield from first_others()
    yield from marked_rows()
    yield from long_codes()
    yield from each_row(pool)


# Strips.


def ways() -> Iterator[tuple[str, int, bool]]:
    """Each coding, with and without aligned EOLs, and in MR each k."""
    yield "mmr", 1, False
    for aligned in (False, True):
        yield "mh", 1, aligned
        for k in range(1, MOST_K + 1):
            yield "mr", k, aligned


def draw_row(rng: random.Random, width: int) -> str:
    turns, pels = rng.random() < 0.25, list[str]()
    for _ in range(width):
        pels.append("WB"[turns])
        turns ^= rng.random() < 0.2
    return "".join(pels)


def draw_rows(rng: random.Random, width: int) -> list[str]:
    """One to twelve rows, of which some are the one before."""
    drawn = [draw_row(rng, width)]
    for _ in range(rng.randrange(12)):
        drawn.append(drawn[-1] if rng.random() < 0.25 else draw_row(rng, width))
    return drawn


def drawn_strips() -> Iterator[str]:
    """Drawn rows in each way and order of bits: 1,560 strips."""
    rng = random.Random(10)
    for number in range(LISTS):
        drawn = draw_rows(rng, rng.randint(1, 3000 if number % 10 == 9 else 70))
        words = " ".join(map(packed, drawn))
        for (coding, k, aligned), order in itertools.product(ways(), ORDERS):
            wanted = digits(to_bytes(strip_bits(coding, k, aligned, drawn), order))
            call = f"write_strip {coding} {ORDERS[order]} {'aligned' if aligned else 'plain'} {k} {words}"
            yield line(call, wanted, f"list {number} of drawn rows")


def eight_pels(row: int, at: int) -> int:
    """Eight pels of a page of real size: rules, a dithered patch, and lines of marks like text."""
    strokes = [0x00, 0x18, 0x60, 0x3C, 0x66, 0x0C, 0x7E, 0x42]
    if row % 500 < 3:
        return 0xFF
    if row >= 1500 and 100 <= at < 132:
        return 0xAA if row % 2 else 0x55
    if row % 40 >= 24 or at < 12 or at >= 204:
        return 0
    return strokes[(row // 40 * 131 + at * 7) % 8]


@functools.cache
def page_row(row: int) -> str:
    return pels_of_runs(bytes(eight_pels(row, at) for at in range(216)), 1728)


def real_strips() -> Iterator[str]:
    """A page at the usual resolution, 1,728 pels by 2,292 rows, written and read back in each coding."""
    drawn = [page_row(row) for row in range(2292)]
    words = " ".join(map(packed, drawn))
    for coding in ("mh", "mr", "mmr"):
        bits = strip_bits(coding, 4, False, drawn)
        strip = digits(to_bytes(bits))
        yield line(f"write_strip {coding} msb plain 4 {words}", strip, "a page of real size")
        runs = " ".join(numbers(runs_of(row)) for row in drawn)
        yield line(f"read_rows {coding} msb 1728x2292 {strip}", runs, "a page of real size")


def strips(_pool: Pool) -> Iterator[str]:
    yield from drawn_strips()
    yield from real_strips()


# Files.


def files(_pool: Pool) -> Iterator[str]:
    """The file of each fault of `files.txt` again, with the highest byte of each number first."""
    with open(os.path.join(HERE, "files.txt")) as table:
        faults = re.findall(r"^(strip \$\{one_page\.put.*)\} = ([^$]*) # (.*)$", table.read(), re.MULTILINE)
    assert len(faults) == 52
    for call, fault, why in faults:
        yield expanded(line(f"{call}.big()}}", fault, why))


# Walks.


def walks(_pool: Pool) -> Iterator[str]:
    """A walk over a million rows of one white pel, and as many pages as a file cannot have."""
    rows = 1_000_000
    strip = to_bytes("1" * rows + 2 * EOL)
    million = named.written(("mmr", 1, rows, rows, [strip]))
    yield line(f"count {digits(million)}", f"{rows} next 1:0:{rows} - read {rows}", "a million rows")
    images = b"P4\n1 1\n\x80" * 65_536
    usual = "msb 4 whole plain"
    yield line(f"convert mh {usual} {digits(images)}", "OutputTooLarge", "one page more than a file can have")
    fault = "Pbm { image: 65536, fault: BadHeader }"
    yield line(f"convert mh {usual} {digits(images + b'P')}", fault, "a fault of the source comes first")
    yield line(f"convert pbm {usual} {digits(images)}", digits(images), "PBM has no such limit")


def expanded(text: str) -> str:
    """A line with the bytes of each `${..}` in its place."""
    return re.sub(r"\$\{(.*?)\}", lambda found: digits(eval(found[1], vars(named))), text)


COMPUTED: dict[str, Callable[[Pool], Iterator[str]]] = {
    "codes": codes, "rows": rows, "strips": strips, "files": files, "walks": walks,
}


def written_lines(subject: str) -> list[str]:
    """The lines of a table as they were written by hand, with bytes in place of names."""
    with open(os.path.join(HERE, f"{subject}.txt")) as table:
        return [expanded(text.rstrip("\n")) for text in table]


def computed_lines(subject: str, pool: Pool) -> list[str]:
    return list(COMPUTED[subject](pool)) if subject in COMPUTED else []
