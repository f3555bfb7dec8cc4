"""The header of the library, as the manual page faxpages(3) has it: its calls, and what its statuses mean."""

from __future__ import annotations

import re
import textwrap
from typing import Iterator

from tests.documents.contracts import read

# How many characters a line of the manual page's synopsis has at most.
WIDTH = 76


def declared() -> list[str]:
    """What include/faxpages.h declares between its guards, piece by piece, without the comments outside of types."""
    text = read("include", "faxpages.h").split('extern "C" {\n#endif\n')[1].split("#ifdef __cplusplus")[0]
    return re.findall(r"^(?:(?:enum|struct) \w+ \{.*?^\};|#define .*?$|\w[^{}#]*?\);)", text, re.M | re.S)


def calls() -> list[str]:
    """The declaration of each call, on one line."""
    return [re.sub(r"\s+", " ", piece) for piece in declared() if piece.endswith(");")]


def types() -> list[str]:
    """Each enum, struct and constant, as it stands."""
    return [piece for piece in declared() if not piece.endswith(");")]


def call_lines(call: str) -> Iterator[str]:
    """A call in the synopsis. No line ends within a parameter."""
    joined = re.sub(r"(?<!,) ", "\0", call)
    for line in textwrap.wrap(joined, WIDTH, subsequent_indent="    ", break_long_words=False):
        yield line.replace("\0", " ")


def synopsis() -> str:
    """The calls as the manual page has them."""
    return "\n.sp\n".join("\n".join(call_lines(call)) for call in calls()) + "\n"


def statuses() -> str:
    """What each status means, as the manual page has it."""
    body = next(piece for piece in types() if piece.startswith("enum faxpages_status {"))
    found = re.findall(r"(FAXPAGES_\w+) = \d+,?\s+/\*(.*?)\*/", body, re.S)
    said = ((name, " ".join(re.sub(r"(?m)^ *[*]", "", text).split())) for name, text in found)
    return "".join(f".TP\n.B {name}\n{textwrap.fill(text, 80)}\n" for name, text in said)
