"""Which sections of which standards a text cites."""

from __future__ import annotations

import re
from typing import Iterator

STANDARD = re.compile(r"T\.4|T\.6|TIFF 6\.0|RFC 2306|netpbm format")
NUMBER = r"\d+(?:\.\d+)*[a-z]?"
RANGE = re.compile(rf"({NUMBER}) to ({NUMBER})")
NAMED = re.compile(r"End-of-facsimile block|\b[A-Z][A-Za-z0-9]*[a-z][A-Za-z0-9]*\b")


def ends_of(low: str, high: str) -> list[str]:
    """The numbers from one to another that differ in their last part alone, as 4.1.2 and 4.1.4."""
    *front, first = low.split(".")
    last = high.split(".")[-1]
    return [".".join([*front, str(i)]) for i in range(int(first), int(last) + 1)]


def numbers_in(piece: str) -> set[str]:
    """The numbers of a list, as 4.1.1 and 4.2.1 to 4.2.3."""
    found = set()
    for low, high in RANGE.findall(piece):
        found.update(ends_of(low, high))
    return found | set(re.findall(rf"(?<![\w.]){NUMBER}(?![\w.])", RANGE.sub("", piece)))


def parts_of(piece: str) -> set[str]:
    """The sections, tables and fields that stand after the name of a standard: by number, or by name."""
    sections, *tables = re.split(r"tables? ", NAMED.sub("", piece))
    found = set(NAMED.findall(piece)) | numbers_in(sections)
    return found | {f"table {number}" for each in tables for number in numbers_in(each)}


def cited(text: str) -> set[tuple[str, str]]:
    """The citations of a text, as pairs of a standard and a section, a table or a field; of those within one
    another the inner ones. A standard that is named alone counts as such."""
    found: dict[str, set[str]] = {}
    at = [*STANDARD.finditer(text)]
    for match, following in zip(at, [*at[1:], None]):
        piece = text[match.end():following.start() if following else len(text)]
        piece = re.split(r"[;:)]|\. |, (?:that|since|the) ", piece)[0]
        found.setdefault(match.group(), set()).update(parts_of(piece))
    pairs: set[tuple[str, str]] = set()
    for standard, sections in found.items():
        inner = {each for each in sections if not any(other.startswith(each + ".") for other in sections)}
        pairs.update((standard, each) for each in inner or {""})
    return pairs


def comments(text: str) -> Iterator[str]:
    """The comments of a file, lines that follow one another as one."""
    block = []
    for line in [*text.split("\n"), ""]:
        if line.lstrip().startswith("--"):
            block.append(line.strip()[2:].strip())
        elif block:
            yield " ".join(block)
            block = []


def cited_in(text: str) -> set[tuple[str, str]]:
    """What the comments of a file of definitions cite, in parentheses. Where its head says that sections without a
    standard are T.4's, they are."""
    found = []
    is_of_t4 = False
    for comment in comments(text):
        is_of_t4 = is_of_t4 or "sections below are those of T.4" in comment
        for group in re.findall(r"\(([^()]*)\)", comment):
            if is_of_t4:
                group = re.sub(r"^(?=sections? )", "T.4, ", group)
            found.append(group)
    return cited(" ; ".join(found))
