"""faxpages-salvage over drawn damaged faxes: what it writes is what a plain reading of the fax says is left."""

from __future__ import annotations

import os
import random
import re
import shutil
import subprocess
from typing import Iterator

from tests import Claim
from tests.plain.salvaging import Page
from tests.recipes.room import Room
from tests.plain import reading, salvaging, spoiling

DRAWN = 60
# The fewest pages that are whole, in part, and lost, in all faxes.
LEASTS = (20, 45, 25)
# What else is said of a page.
BESIDE = "too large"


def lost_of(data: bytes, pages: list[Page]) -> Iterator[str]:
    """The lines of lost.txt about a fax."""
    for number, page in enumerate(pages):
        if page.form is None:
            yield f"page {number}: {page.refused}"
        for stretch in salvaging.stretches(page.rows):
            yield f"page {number} rows {stretch.first} to {stretch.first + stretch.rows - 1}: {stretch.name}"
    try:
        fault = reading.chain(reading.File(data))[1]
    except reading.Fault as bad:
        fault = bad
    if fault:
        yield f"page {len(pages)}: {' '.join(map(str, fault.args))}"


def images_of(room: Room, name: str) -> int:
    """How many images a PDF has; none where it is not there."""
    if not os.path.exists(room(name)):
        return 0
    listed = subprocess.run(["pdfimages", "-list", room(name)], capture_output=True, check=True).stdout
    return len(listed.splitlines()) - 2


def rows_of(pages: list[Page]) -> Iterator[str]:
    """The rows of pages.tif, as `rows` prints them: those that are found at their numbers, and white ones."""
    formed = [(page.form, page.rows) for page in pages if page.form]
    for number, (form, rows) in enumerate(formed):
        for place, row in enumerate(rows):
            yield reading.row_line(number, place, "W" * form.width if row.pels is None else row.pels)
    yield "end"


def bad_rows(lines: list[str], pages: list[Page]) -> Iterator[str]:
    """What `check --received` says of the pages of pages.tif, by the lines of lost.txt."""
    lost: dict[int, list[range]] = {}
    for page, first, last in re.findall(r"(?m)^page (\d+) rows (\d+) to (\d+):", "\n".join(lines)):
        stretches = lost.setdefault(int(page), [])
        if stretches and stretches[-1].stop == int(first):
            first = stretches.pop().start
        stretches.append(range(int(first), int(last) + 1))
    formed = [number for number, page in enumerate(pages) if page.form]
    for place, number in enumerate(formed):
        if number in lost:
            counts = [len(stretch) for stretch in lost[number]]
            yield f"note page {place}: N6 BadFaxLines {sum(counts)} {max(counts)} 1"


def copied(room: Room, lines: list[str], pages: list[Page]) -> Iterator[Claim]:
    """pages.tif has all rows that are found, says how many are not, and is a fax of which nothing is lost."""
    if not any(page.form for page in pages):
        yield "no pages.tif", "pages.tif" in room.names("drawn"), False
        return
    yield "rows", room.rows("drawn/pages.tif")[0].decode().splitlines(), list(rows_of(pages))
    notes = room.run("check", "--received", name="drawn/pages.tif")[1].decode().splitlines()
    yield "bad rows", [line for line in notes if " N6 " in line], list(bad_rows(lines, pages))
    formed = sum(page.form is not None for page in pages)
    again = room.call("faxpages-salvage", "drawn/pages.tif", "again")
    yield "again", again, (0, f"{formed} pages whole, 0 in part\n".encode(), "")
    yield "again: pages.tif", room.get("again/pages.tif") == room.get("drawn/pages.tif"), True
    shutil.rmtree(room("again"))


def written(room: Room, data: bytes, pages: list[Page]) -> Iterator[Claim]:
    """What faxpages-salvage writes of a fax, and what it has to."""
    status, _, said = room.call("faxpages-salvage", "drawn.tif", "drawn")
    lines = room.get("drawn/lost.txt").decode().splitlines()
    others = [line for line in lines if BESIDE in line]
    whole = [number for number, page in enumerate(pages) if page.form and all(row.pels for row in page.rows)]
    found = [number for number, page in enumerate(pages) if any(row.pels for row in page.rows)]
    yield "status", (status, said), (1 if lines else 0, "")
    yield "lost", [line for line in lines if line not in others], list(lost_of(data, pages))
    yield from copied(room, lines, pages)
    yield "pages of the PDF", images_of(room, "drawn/pages.pdf"), len(found)
    pictures = sorted(f"page-{number}.png" for number in found if number not in whole)
    yield "pictures", sorted(name for name in room.names("drawn") if name.endswith(".png")), pictures


def drawn(room: Room) -> Iterator[Claim]:
    """Faxes with bits turned, put in and taken out, EOLs destroyed and made, pages refused, strips and chains cut."""
    counts = [0, 0, 0]
    for seed in range(DRAWN):
        data = spoiling.draw_file(random.Random(f"recipes {seed}"))[0]
        pages = salvaging.pages_of(data)
        room.put("drawn.tif", data)
        shutil.rmtree(room("drawn"), ignore_errors=True)
        for name, got, wanted in written(room, data, pages):
            yield f"drawn {seed}: {name}", got, wanted
        for page in pages:
            found = sum(row.pels is not None for row in page.rows)
            counts[2 if not found else 1 if found < len(page.rows) else 0] += 1
    enough = [count >= least for count, least in zip(counts, LEASTS)]
    yield f"drawn: pages that are whole, in part and lost: {counts}", enough, [True] * 3
