#!/usr/bin/env python3
"""Prints the public calls of a crate, with their contracts, as its sources have them:

    tests/documents/contracts.py CRATE
"""

from __future__ import annotations

import os
import re
import sys
from typing import Iterator

TOP = os.path.dirname(os.path.dirname(os.path.dirname(os.path.abspath(__file__))))


def read(*parts: str) -> str:
    with open(os.path.join(TOP, *parts), encoding="utf-8") as file:
        return file.read()


def sources(crate: str) -> Iterator[str]:
    """The crate's source files in the order in which its root names them, the root first, without tests."""
    root = read("crates", crate, "src", "lib.rt")
    modules = re.findall(r"^(?:pub )?mod (\w+);", root, re.M)
    folder = os.path.join("crates", crate, "src")
    yield os.path.join(folder, "lib.rt")
    for name in modules:
        if name not in ("laws", "tests"):
            yield os.path.join(folder, f"{name}.rt")


def exported(crate: str) -> set[str]:
    """The names that the crate's root shows of its own modules, or defines itself."""
    root = read("crates", crate, "src", "lib.rt")
    names = set(re.findall(r"^pub (?:struct|enum|trait|fn) (\w+)", root, re.M))
    for group, one in re.findall(r"^pub use \w+::(?:\{([^}]*)\}|(\w+));", root, re.M):
        names.update(re.findall(r"\w+", group + one))
    return names


def head(lines: list[str], start: int) -> list[str]:
    """A call's signature and clauses: what stands before its body, which begins in a line of its own if there
    are clauses."""
    indent = lines[start][: len(lines[start]) - len(lines[start].lstrip(" "))]
    taken = []
    for line in lines[start:]:
        if line == indent + "{":
            break
        if line:
            taken.append(line[len(indent):])
        if line.endswith(";"):
            break
        if line.endswith(" {") and (len(taken) == 1 or line.startswith(indent + ")")):
            taken[-1] = taken[-1][:-2]
            break
    return taken


def calls(crate: str) -> Iterator[tuple[str | None, list[str]]]:
    """For each public call the name of its type (none for a function) and its lines."""
    names = exported(crate)
    for path in sources(crate):
        lines = read(path).split("\n")
        owner = None
        for at, line in enumerate(lines):
            opened = re.match(r"impl(?:<[^>]*>)? (\w+)(?:<[^>]*>)? \{|pub trait (\w+)", line)
            if opened:
                owner = opened.group(1) or opened.group(2)
                is_trait = opened.group(2) is not None
            elif line == "}" or re.match(r"impl", line):
                owner = None
            elif (function := re.match(r"pub (?:const )?fn (\w+)", line)) and function.group(1) in names:
                yield None, head(lines, at)
            elif owner in names and re.match(r"    (pub )?fn ", line) and ("pub" in line or is_trait):
                yield owner, head(lines, at)


def quoted(crate: str) -> str:
    """The text of all public calls, those of a type after its name."""
    parts, last = [], None
    for owner, lines in calls(crate):
        if owner is not None and owner != last:
            parts.append(f"// {owner}")
        elif owner is None and last is not None:
            parts.append("// functions")
        last = owner
        parts.append("\n".join(lines))
    return "\n".join(parts)


if __name__ == "__main__":
    print(quoted(sys.argv[1]))
