"""Finds in a text what has to be in it, and shows of a long one what says most."""

from __future__ import annotations

import re
from typing import AnyStr


def found(pattern: AnyStr, text: AnyStr, flags: int = 0) -> re.Match[AnyStr]:
    """Where a pattern stands in a text that has to have it."""
    match = re.search(pattern, text, flags)
    if match is None:
        raise ValueError(f"there is no {pattern!r}")
    return match


def shown(what: object, most: int = 600) -> str:
    """A value as a text, or of a long one its beginning and its end: of a traceback the exception is the last line."""
    text = str(what)
    return text if len(text) <= most else f"{text[: most // 2]} .. {text[-(most // 2) :]}"
