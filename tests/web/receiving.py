"""What the receiver of a fax counted of bad rows, by fields of TIFF-F: the page says of which pages it mended them, or
left them, and how many they are."""

from __future__ import annotations

import struct
from typing import Any, Generator

from tests import Claim
from tests.convert.files import put
from tests.web import faxes, missing
from tests.web.browser import Browser
from tests.web.speaking import SPEAK

BAD, CLEAN, CONSECUTIVE = 326, 327, 328
# How many rows each page has.
ROWS = 60
# By pages, the numbers of their fields; then what is said, and how it looks.
SAID: list[tuple[list[dict[int, int]], str, str]] = [
    ([{BAD: 23, CLEAN: 1, CONSECUTIVE: 4}],
     "All rows are there: 1 page, 60 rows. The receiver mended 23 rows of page 1.", "mended"),
    ([{}, {BAD: 1, CLEAN: 1}],
     "All rows are there: 2 pages, 120 rows. The receiver mended 1 row of page 2.", "mended"),
    ([{CLEAN: 1}],
     "All rows are there: 1 page, 60 rows. The receiver mended rows of page 1, but does not say how many.", "mended"),
    ([{BAD: 5, CLEAN: 1}, {BAD: 0, CLEAN: 0}, {BAD: 1200}],
     "All rows are there: 3 pages, 180 rows. The receiver mended 1,205 rows on 2 pages.", "mended"),
    ([{BAD: 4, CLEAN: 2}], "All rows are there: 1 page, 60 rows. The receiver left 4 rows of page 1 that are bad.",
     "mended"),
    ([{BAD: 0, CLEAN: 0, CONSECUTIVE: 0}, {CONSECUTIVE: 9}], "This fax is whole: 2 pages, 120 rows.", "whole"),
]
GERMAN = "Alle Zeilen sind da: 1 Seite, 60 Zeilen. Das Empfangsgerät hat 23 Zeilen von Seite 1 ausgebessert."


def counted(data: bytes, numbers: list[dict[int, int]]) -> bytes:
    """A little-endian file with these fields in the directories of its pages, which stand at its end then."""
    out, link = bytearray(data) + bytes(len(data) % 2), 4
    for at, more in zip(list(missing.places(data)), numbers):
        (count,) = struct.unpack_from("<H", data, at)
        entries = [data[at + 2 + 12 * it:at + 14 + 12 * it] for it in range(count)]
        entries += [struct.pack("<HHII", tag, 3 if tag == CLEAN else 4, 1, number) for tag, number in more.items()]
        out[link:link + 4] = struct.pack("<I", len(out))
        entries.sort(key=lambda it: struct.unpack("<H", it[:2]))
        out += struct.pack("<H", len(entries)) + b"".join(entries)
        link = len(out)
        out += bytes(4)
    return bytes(out)


def mended(browser: Browser, program: str, room: str) -> Generator[Claim, None, None]:
    """What is said of pages that a receiver mended, in the verdict, in the list and below the small pictures."""
    for at, (numbers, said, look) in enumerate(SAID):
        images = b"".join(missing.lines(seed, ROWS) for seed in range(len(numbers)))
        path = put(f"{room}/mended-{at}.tif", counted(faxes.convert(program, images, "-o", "mmr"), numbers))
        yield f"{numbers}: what is said", missing.verdict_of(browser, path), (said, look)
        yield f"{numbers}: in the list", browser.run("Files.lookOf(app.fax)"), look
        wanted = ["mended" if it.get(BAD) or it.get(CLEAN) else "whole" for it in numbers]
        yield f"{numbers}: each page", browser.run(
            "Array.from(app.fax.forms, (_, page) => app.fax.stateOf(page))"), wanted
        if len(numbers) > 1:
            browser.until("document.querySelectorAll('#thumbs-all > div').length > 0")
            yield f"{numbers}: below the small pictures", browser.run(
                '[...document.querySelectorAll("#thumbs-all span")].map((it) => it.textContent)'), [
                    f"{page + 1}: mended by the receiver" if it == "mended" else str(page + 1)
                    for page, it in enumerate(wanted)]
    missing.verdict_of(browser, f"{room}/mended-0.tif")
    browser.run(SPEAK % "de")
    yield "in German", browser.run('document.getElementById("verdict").textContent'), GERMAN
    browser.run(SPEAK % "en")
    browser.run("localStorage.clear()")


def with_noise(browser: Browser, program: str, room: str) -> Generator[Claim, None, None]:
    """Rows that are missing come first; those that a receiver left bad are not counted twice."""
    data = missing.noisy(program, 32, [200, 200], [0, 2])
    path = put(f"{room}/plain.tif", data)
    said, look = missing.verdict_of(browser, path)
    left = " The receiver left 7 rows of page 1 that are bad."
    noisy: list[tuple[list[dict[int, int]], str]] = [
        ([{BAD: 7, CLEAN: 1}, {}], " The receiver mended 7 rows of page 1."),
        ([{}, {BAD: 7, CLEAN: 2}], ""), ([{BAD: 7, CLEAN: 2}, {BAD: 3, CLEAN: 2}], left),
    ]
    for numbers, more in noisy:
        path = put(f"{room}/noisy.tif", counted(data, numbers))
        yield f"{numbers}: what is said", missing.verdict_of(browser, path), (said + more, look)


def many_pages(browser: Browser, program: str, room: str) -> Generator[Claim, None, None]:
    """What very many receivers counted is looked for in time that is bounded, and calls come in between."""
    count = 3000
    image = faxes.image("marks", 3)
    data = counted(faxes.convert(program, image * count, "-o", "mmr"), [{BAD: 1, CLEAN: 1}] * count)
    said, look = missing.verdict_of(browser, put(f"{room}/many.tif", data))
    yield "many pages", (said, look), (
        "All rows are there: 3,000 pages, 9,000 rows. The receiver mended 3,000 rows on 3,000 pages.", "mended")
    browser.run("while (app.fax) app.close()")


PARTS: list[Any] = [mended, with_noise, many_pages]
