"""What the page has to say of the rows that are missing of a fax, by counting what `faxpages salvage` prints."""

from __future__ import annotations

from tests.web import faxes


def counted(count: int, name: str) -> str:
    return f"{count:,} {name}{'' if count == 1 else 's'}"


def rows_of_pages(program: str, path: str) -> list[int]:
    """How many rows each page has."""
    lines = [line.split() for line in faxes.said(program, "list", path).splitlines()]
    return [int(words[3]) for words in lines if words[0] == "page"]


def lost_of_pages(program: str, path: str) -> dict[int, int]:
    """How many rows are lost of each page of which some are."""
    lost: dict[int, int] = {}
    for line in faxes.said(program, "salvage", path).splitlines():
        words = line.split()
        if words[0] == "lost":
            lost[int(words[1])] = lost.get(int(words[1]), 0) + int(words[3])
    return lost


def look(rows: list[int], lost: dict[int, int]) -> str:
    """How a fax looks in the list of files: a page is readable with a tenth of its rows missing."""
    return "damaged" if any(10 * lost[page] > rows[page] for page in lost) else "slight" if lost else "whole"


def missing(rows: list[int], lost: dict[int, int]) -> str:
    """The verdict on a fax of pages with so many rows, of which so many are lost."""
    most = [page for page in lost if 2 * lost[page] > rows[page]]
    said = mostly([(page, lost[page], rows[page]) for page in most]) if most else ""
    few = sum(lost[page] for page in lost if page not in most)
    of = sum(count for page, count in enumerate(rows) if page not in most)
    numbers = f"{few:,} of {of:,} rows {'is' if few == 1 else 'are'} missing"
    if few == 0:
        return said
    if most:
        return f"{said} Of the other pages {numbers}."
    where = "" if len(rows) == 1 else f", on page {min(lost) + 1}" if len(lost) == 1 else f", on {len(lost)} pages"
    is_part = any(10 * lost[page] > rows[page] for page in lost)
    return f"Readable{' in part' if is_part else ''}. {numbers}{where}."


def mostly(pages: list[tuple[int, int, int]]) -> str:
    """What is said of pages of which most rows are lost, each with how many and of how many."""
    (first, *_), lost, rows = pages[0], sum(it[1] for it in pages), sum(it[2] for it in pages)
    if len(pages) == 1 and lost == rows:
        return f"Page {first + 1} is missing all of its {rows:,} rows."
    if len(pages) == 1:
        return f"Page {first + 1} is missing most of its rows ({lost:,} of {rows:,})."
    if len(pages) > 5:
        return (f"{len(pages):,} pages, the first of them page {first + 1}, are missing most of their rows "
                f"({lost:,} of {rows:,}).")
    names = [str(page + 1) for page, *_ in pages]
    named = " and ".join(names) if len(names) == 2 else f"{', '.join(names[:-1])}, and {names[-1]}"
    return f"Pages {named} are missing most of their rows ({lost:,} of {rows:,})."
