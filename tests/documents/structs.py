#!/usr/bin/env python3
"""Where each member of the structs of faxpages.h lies, for callers that are not C.

    tests/documents/structs.py --write    writes docs/STRUCTS.md anew
    tests/documents/structs.py --asserts  prints a source in C that a compiler takes only if it lays them out so

tests/documents/run compares the document, and tests/library/run has compilers of 64 and of 32 bits take the source."""

from __future__ import annotations

import os
import re
import sys
from typing import Iterator, NamedTuple

sys.dont_write_bytecode = True

from tests import TOP  # noqa: E402

# How many bytes each type has where size_t has 8, and where it has 4.
WIDTHS = {"uint32_t": (4, 4), "uint64_t": (8, 8), "size_t": (8, 4)}
PLACE = os.path.join("docs", "STRUCTS.md")
HEAD = """<!-- Made by tests/documents/structs.py of include/faxpages.h: change that. -->

# The structs of faxpages.h

For callers in other languages: the offset of each member in bytes, for pointers of 64 bits and of 32, as in WebAssembly. Numbers are in the order of the machine. `tests/documents/structs.py` makes this page from the header, and compilers for C confirm it.

- No pointer may be null: where a length is 0, pass the address of any byte.
- A name that a call writes has no 0 at its end; the call returns how many bytes it has.
- A call that goes on from a place takes room for 65,536 runs, which are 256 KB, whatever the file.
- Where size_t has 32 bits, as in WebAssembly, each length has 4 bytes.
"""


class Member(NamedTuple):
    kind: str
    name: str
    offsets: tuple[int, int]


class Struct(NamedTuple):
    name: str
    members: list[Member]
    sizes: tuple[int, int]


def aligned(at: int, width: int) -> int:
    return -(-at // width) * width


def structs() -> Iterator[Struct]:
    """The structs of the header, in order, each after those that it has inside."""
    with open(os.path.join(TOP, "include", "faxpages.h"), encoding="utf-8") as file:
        header = re.sub(r"/\*.*?\*/", "", file.read(), flags=re.S)
    # Of each type its bytes, and on how many it is aligned.
    known = {kind: (widths, widths) for kind, widths in WIDTHS.items()}
    for name, body in re.findall(r"^struct (\w+) \{(.*?)^\};", header, re.S | re.M):
        at, most, members = (0, 0), (1, 1), []
        for kind, names in re.findall(r"(?:struct )?(\w+) ([\w, ]+);", body):
            bytes_of, alignments = known[kind]
            most = (max(most[0], alignments[0]), max(most[1], alignments[1]))
            for member in names.split(", "):
                at = (aligned(at[0], alignments[0]), aligned(at[1], alignments[1]))
                members.append(Member(kind, member, at))
                at = (at[0] + bytes_of[0], at[1] + bytes_of[1])
        sizes = (aligned(at[0], most[0]), aligned(at[1], most[1]))
        known[name] = (sizes, most)
        yield Struct(name, members, sizes)


def document() -> str:
    """The page."""
    parts = [HEAD]
    for struct in structs():
        parts.append(f"\n## struct {struct.name}\n\n| Member | Type | 64 bits | 32 bits |\n|---|---|---|---|\n")
        for kind, name, (wide, narrow) in struct.members:
            parts.append(f"| `{name}` | {kind} | {wide} | {narrow} |\n")
        parts.append(f"| all | | {struct.sizes[0]} | {struct.sizes[1]} |\n")
    return "".join(parts)


def asserts() -> str:
    """A source in C that says the same."""
    lines = ["#include <faxpages.h>", "enum { WIDE = sizeof(void *) == 8 };"]
    for struct in structs():
        kind = f"struct {struct.name}"
        for member in struct.members:
            wide, narrow = member.offsets
            lines.append(f'_Static_assert(offsetof({kind}, {member.name}) == (WIDE ? {wide} : {narrow}), "{member.name}");')
        lines.append(f'_Static_assert(sizeof({kind}) == (WIDE ? {struct.sizes[0]} : {struct.sizes[1]}), "{struct.name}");')
    return "\n".join(lines) + "\n"


def claims() -> Iterator[tuple[str, bool]]:
    """The document is as the header has it, and names each struct."""
    with open(os.path.join(TOP, PLACE), encoding="utf-8") as file:
        yield f"{PLACE} is of this header, or else tests/documents/structs.py --write writes it", file.read() == document()
    with open(os.path.join(TOP, "include", "faxpages.h"), encoding="utf-8") as file:
        names = re.findall(r"^struct (\w+) \{", file.read(), re.M)
    yield "each struct has its place there", names == [struct.name for struct in structs()] and len(names) > 10


def write() -> None:
    with open(os.path.join(TOP, PLACE), "w", encoding="utf-8") as file:
        file.write(document())


if __name__ == "__main__":
    if sys.argv[1:] == ["--write"]:
        write()
    else:
        sys.stdout.write(asserts())
