"""The documents of a job for the backend: CUPS starts one backend for all files of a job, and hands it their PDFs one
after another. Only _fax imports this."""

from __future__ import annotations

import importlib
import re
from typing import Any, List

from ._job import Job, Refused

# Where one PDF ends and the next one begins.
_BETWEEN = re.compile(rb"%%EOF[\0\t\n\f\r ]*(?=%PDF-)")
_COUNT = "number-of-documents"


def count_of(job: Job) -> int:
    """How many documents CUPS has of a job, banners among them: of one whose filter was killed nothing comes, and only
    CUPS knows of it."""
    unknown = "it is not known how many documents the job has"
    try:
        cups: Any = importlib.import_module("cups")
    except ImportError:
        raise Refused(f"{unknown}: python3-cups is not installed") from None
    try:
        return int(cups.Connection().getJobAttributes(int(job.number), requested_attributes=[_COUNT])[_COUNT])
    except (RuntimeError, ValueError, KeyError, cups.IPPError, cups.HTTPError) as error:
        raise Refused(f"{unknown}: CUPS does not tell it: {error!r}") from None


def documents_of(data: bytes, count: int) -> List[bytes]:
    """The PDFs of a job, each whole, in order."""
    if not data.lstrip()[:5] == b"%PDF-":
        raise Refused("what is printed is no PDF" if data else "nothing is printed")
    # CUPS goes on with a job whose filter was killed, and poppler guesses at what is missing.
    if b"%%EOF" not in data[-1024:]:
        raise Refused("the PDF is cut short")
    if count == 1:
        return [data]
    places = [0, *(found.end() for found in _BETWEEN.finditer(data)), len(data)]
    if len(places) != count + 1:
        raise Refused(f"the job has {count} documents, and {len(places) - 1} came whole: print each by itself")
    return [data[first:after] for first, after in zip(places, places[1:])]
