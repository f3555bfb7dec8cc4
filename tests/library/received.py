#!/usr/bin/env python3
"""received.py <LINES: reads what receivers.py prints, and sees that the Python module tells the same of what the receiver
of each page counted. Prints how many pages were tried, how many of them are there, and how many numbers these have.
FAXPAGES_LIBRARY names the library."""

from __future__ import annotations

import sys
from typing import List, Optional

import tests  # noqa: F401  which says where it is

import faxpages

# The status of a page that is there, and of one after the last.
DONE, FAULT = 0, 2


def number_of(word: str) -> Optional[int]:
    return None if word == "-" else int(word)


def why_none(data: bytes, page: int) -> faxpages.Fault | faxpages.OutsideError | None:
    """Why a file has no such page."""
    try:
        faxpages.open(data).page(page)
    except (faxpages.Fault, faxpages.OutsideError) as why:
        return why
    return None


def see_line(words: List[str], line: str) -> int:
    """That a line is so. Answers how many numbers its page has, or -1 where there is no page."""
    page, status, fault, tag = map(int, words[:4])
    wanted = faxpages.Received(*map(number_of, words[4:7]))
    data = b"" if words[7] == "-" else bytes.fromhex(words[7])
    if status != DONE:
        why = why_none(data, page)
        if status == FAULT:
            same = isinstance(why, faxpages.faults.BY_NUMBER[fault]) and why.tag == (tag or None)
        else:
            same = isinstance(why, faxpages.OutsideError)
        if not same:
            sys.exit(f"received: {why!r}: {line}")
        return -1
    found = faxpages.open(data).page(page).received
    if found != wanted:
        sys.exit(f"received: {found}: {line}")
    return sum(number is not None for number in (found.bad_rows, found.clean, found.consecutive))


def main() -> None:
    found = [see_line(line.split(), line) for line in sys.stdin]
    there = [count for count in found if count >= 0]
    print(f"{len(found)} pages, {len(there)} there, {sum(there)} numbers")


if __name__ == "__main__":
    main()
