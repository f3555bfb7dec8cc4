"""Which numbers are kept in bench/numbers.txt, and what they say of themselves: version, day and load."""

from __future__ import annotations

import os
import re

TOP = os.path.dirname(os.path.dirname(os.path.abspath(__file__)))
# Numbers are kept where the load is below this.
MOST_LOAD = 1.0
LOADED = " (other programs ran)"


def version_of(program: str) -> str:
    """The version that a program says of itself, as `strings` would find it."""
    with open(program, "rb") as file:
        found = re.search(rb'"name":"faxpages","version":"([^"]*)"', file.read())
    return found.group(1).decode() if found else "unknown"


def version_here() -> str:
    """The version of these sources."""
    with open(os.path.join(TOP, "VERSION"), encoding="utf-8") as file:
        return file.read().strip()


def head(version: str, day: str, load: float) -> str:
    """The first line of the numbers."""
    return f"faxpages {version}, measured on {day} at a load of {load:.2f}" + (LOADED if load >= MOST_LOAD else "")


def refusal(version: str, wanted: str, load: float, loaded: bool) -> str:
    """Why numbers are not kept; empty where they are."""
    if version != wanted:
        return f"the program's version is {version}, and that of these sources {wanted}"
    if load >= MOST_LOAD and not loaded:
        return f"the load is {load:.2f}: wait until it is below {MOST_LOAD:g}, or keep them all the same by --loaded"
    return ""
