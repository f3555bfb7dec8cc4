"""The recipes of docs/RECIPES.md."""

from __future__ import annotations

import os
import re

ROOT = os.path.abspath(os.path.join(os.path.dirname(os.path.abspath(__file__)), "..", ".."))
SCRIPTS = os.path.join(ROOT, "recipes")


def recipes() -> dict[str, str]:
    """The commands of each recipe, by its heading: a recipe has one block of them."""
    with open(f"{ROOT}/docs/RECIPES.md") as document:
        sections = re.split(r"^## ", document.read(), flags=re.MULTILINE)[1:]
    found = {}
    for section in sections:
        heading, _, text = section.partition("\n")
        (found[heading],) = re.findall(r"^```(?:sh|ini)\n(.*?)^```$", text, flags=re.MULTILINE | re.DOTALL)
    return found
