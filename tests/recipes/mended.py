"""What receivers say that they mended: faxpages-receive, faxpages-mail and faxpages-html say it, and a limit has a fax
be sorted as faulty."""

from __future__ import annotations

import os
import re
import time
from typing import Iterator

from tests import Claim
from tests.recipes.room import Room, Tests
from tests.web import faxes, missing
from tests.web.receiving import BAD, CLEAN, CONSECUTIVE, counted

ROWS = 60
# By pages, the numbers of their fields, and what is said.
SAID: list[tuple[list[dict[int, int]], str]] = [
    ([{BAD: 23, CLEAN: 1, CONSECUTIVE: 4}], "mended by the receiver: 23 rows of page 1"),
    ([{BAD: 1, CLEAN: 1}, {}, {CLEAN: 1}], "mended by the receiver: 1 row of page 1 and rows of page 3"),
    ([{BAD: 5, CLEAN: 1}] * 3, "mended by the receiver: 15 rows of 3 pages"),
    ([{BAD: 5, CLEAN: 1}, {BAD: 2, CLEAN: 2}],
     "mended by the receiver: 5 rows of page 1; left bad by the receiver: 2 rows of page 2"),
    ([{BAD: 0, CLEAN: 0}], ""),
]


def fax_of(program: str, numbers: list[dict[int, int]]) -> bytes:
    """A fax of pages whose receiver says these numbers."""
    images = b"".join(missing.lines(seed, ROWS) for seed in range(len(numbers)))
    return counted(faxes.convert(program, images, "-o", "mmr"), numbers)


def received(room: Room, name: str, numbers: list[dict[int, int]]) -> None:
    """Such a fax in a file, an hour old."""
    room.put(name, fax_of(room.program, numbers))
    os.utime(room(name), (time.time() - 3600,) * 2)


def mended(room: Room, _commands: str) -> Iterator[Claim]:
    for at, (numbers, said) in enumerate(SAID):
        received(room, f"{at}.tif", numbers)
        status, page, _ = room.call("faxpages-html", f"{at}.tif")
        yield f"{numbers}: faxpages-html", (status, said.encode() in page), (0, True)
        status, _, error = room.call("faxpages-mail", f"{at}.tif", "a@example.org", SENDMAIL=room("../bin/mailed"))
        subject = re.findall(r"^Subject: .*", room.get("mail").decode(), re.M)
        rows = f"{ROWS * len(numbers)} rows"
        wanted = f"all {rows} are there; {said}" if said else f"whole, {rows}"
        pages = f"{len(numbers)} page{'s' * (len(numbers) > 1)}"
        yield f"{numbers}: faxpages-mail", (status, error, subject), (0, "", [f"Subject: Fax of {pages}: {wanted}"])
        status, _, error = room.call("faxpages-receive", f"{at}.tif", f"sorted-{at}")
        yield f"{numbers}: faxpages-receive", (status, error), (
            0, f"faxpages-receive: ./{at}.tif: {said}\n" if said else "")
        report = room.get(f"sorted-{at}/good/{at}.tif.report").decode()
        yield f"{numbers}: its report", report.count(": N6 BadFaxLines "), sum(
            1 for it in numbers if it.get(BAD) or it.get(CLEAN))


def limited(room: Room, _commands: str) -> Iterator[Claim]:
    for percent, status, folder in (("0", 1, "faulty"), ("38", 1, "faulty"), ("39", 0, "good"), ("100", 0, "good")):
        received(room, "a.tif", SAID[0][0])
        got, _, _ = room.call("faxpages-receive", "--mended", percent, "a.tif", f"at-{percent}")
        yield f"23 of 60 rows, at most {percent} percent", (got, os.path.exists(room(f"at-{percent}/{folder}/a.tif"))), (
            status, True)
    for words in (("--mended", "a.tif", "b"), ("--mended", "-1", "a.tif", "b"), ("--mended", "1000", "a.tif", "b")):
        yield f"{words}: the usage", room.call("faxpages-receive", *words)[0], 2


def all_of(room: Room, commands: str) -> Iterator[Claim]:
    room.tool("mailed", '#!/bin/sh\ncat >"$HOME/mail"\n')
    yield from mended(room, commands)
    yield from limited(room, commands)


EXTRA: Tests = {"What receivers mended": (["awk", "tiff2pdf", "pnmtopng"], all_of)}
