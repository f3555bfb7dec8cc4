"""What came of a page: which of its rows were found, in which order, and where rows are lost, by the text of
`faxpages salvage`."""

from __future__ import annotations

import itertools
from typing import Dict, List, NamedTuple, Tuple

from tests.line import pages

# How many rows a program puts at the head of each page that it sends: efax has a white band there, over rows of the
# page's margin, and ones before the first EOL.
OWN_ROWS = 16


class Lost(NamedTuple):
    first: int
    rows: int


class Told(NamedTuple):
    """A page as it came: its rows that were found, each with its place, and the stretches that are lost."""

    found: List[Tuple[int, str]]
    lost: List[Lost]


def told_by(text: str) -> Told:
    """The first page of the output of `salvage`."""
    told = Told([], [])
    for line in text.splitlines():
        word, *numbers = line.split()
        if word == "row" and numbers[0] == "0":
            runs = [int(number) for number in numbers[2:]]
            row = "".join(colour * length for colour, length in zip(itertools.cycle("WB"), runs))
            told.found.append((int(numbers[1]), row))
        elif word == "lost" and numbers[0] == "0" and len(numbers) == 4:
            told.lost.append(Lost(int(numbers[1]), int(numbers[2])))
    return told


class Count(NamedTuple):
    """How many rows of a page were sent below its margin, found, and lost."""

    sent: int
    found: int
    lost: int


def faults(told: Told, sent: Dict[str, int]) -> List[str]:
    """What is wrong with a page that came: rows that are not as sent, or out of order, and stretches where no row is
    missing. Of stretches before the first row and after the last one it is not asked: programs send ones there, and count
    a return to control as rows."""
    wrong: List[str] = []
    places: Dict[int, int] = {place: sent[row] for place, row in told.found if row in sent}
    others = [place for place, row in told.found if row not in sent and row != pages.WHITE]
    wrong += [f"row {place} is no row that was sent" for place in others if place >= OWN_ROWS]
    numbers = [places[place] for place in sorted(places)]
    wrong += [f"row {after} follows row {before}" for before, after in zip(numbers, numbers[1:]) if after <= before]
    for stretch in told.lost:
        before = max((number for place, number in places.items() if place < stretch.first), default=None)
        after = min((number for place, number in places.items() if place >= stretch.first), default=None)
        if before is not None and after is not None and after - before < 2:
            wrong.append(f"no row is missing where {stretch.rows} from {stretch.first} on are lost")
    return wrong


def counted(told: Told, sent: Dict[str, int]) -> Count:
    found = sum(row in sent for _, row in told.found)
    return Count(len(sent), found, sum(stretch.rows for stretch in told.lost))


class Mended(NamedTuple):
    """Of a page whose receiver put rows in place of bad ones: how many rows are none that was sent, or come twice, and
    how many sent ones it lacks."""

    wrong: int
    missing: int


def mended(told: Told, sent: Dict[str, int]) -> Mended:
    numbers = [sent.get(row) for place, row in told.found if place >= OWN_ROWS and row != pages.WHITE]
    there = set(numbers) - {None}
    return Mended(len(numbers) - len(there), len(sent) - len(there))
