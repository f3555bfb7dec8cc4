"""The worst and the geometric mean of a table's ratios, for bench/run and bench/plot.

A table has a line for each page and job, and each counts once. The worst is that with the greatest ratio."""

from __future__ import annotations

import math
import sys
from typing import Iterator, List, NamedTuple, Tuple

# Where a table of pages and jobs begins; it ends at an empty line.
BEGINS = "page        job "
ALL = "all"
GROUPS = [ALL, "rows", "check", "to PBM", "conversions", "from PBM", "one image"]
# What is compared, and in which columns it stands: ours, the other's, and the ratio.
KINDS = {"seconds": (5, 6, 7), "instructions": (0, 1, 2), "third": (5, 8, 9)}
HEAD = [f"{'ratios:':19}{'to libtiff, by seconds':34}{'to libtiff, by instructions':34}to the third, by seconds",
        f"{'jobs':11} count " + f" worst {'page':11} {'job':9} mean " * len(KINDS)]


# By how much the two least times of a run differ at most, where the least is believed.
SETTLED = 1.01


def is_settled(times: List[float]) -> bool:
    """Whether the least of a run's times came twice, as nearly as it matters: one that came once may be of a moment that
    was less slow than others, and no more."""
    least = sorted(times)[:2]
    return len(least) == 2 and least[1] <= SETTLED * least[0]


class Line(NamedTuple):
    """A line of the table: the page, the job, and its numbers as they are printed."""

    page: str
    job: str
    numbers: List[str]


class Found(NamedTuple):
    """Of some lines: the one whose ratio is greatest, that ratio, and the geometric mean of all."""

    worst: Line
    ratio: str
    mean: float


def lines(table: List[str]) -> List[Line]:
    """The lines of the pages and jobs, of which none may stand there twice."""
    begin = next(number for number, line in enumerate(table) if line.startswith(BEGINS)) + 1
    found: List[Line] = []
    for line in table[begin:]:
        if not line:
            break
        found.append(Line(line[:11].strip(), line[12:21].strip(), line[21:].split()))
    if len({(line.page, line.job) for line in found}) != len(found):
        sys.exit("bench: a page and job stand in the table twice")
    return found


def group(job: str) -> str:
    """The group of a job by its name."""
    if " " in job:
        return job.split()[0]
    source, target = job.split("-")
    return "to PBM" if target == "pbm" else {"pbm": "from PBM", "one": "one image"}.get(source, "conversions")


def mean(ratios: List[float]) -> float:
    """The geometric mean."""
    return math.exp(sum(math.log(ratio) for ratio in ratios) / len(ratios))


def of_group(found: List[Line], name: str) -> List[Line]:
    """The lines of a group."""
    return [line for line in found if name in (ALL, group(line.job))]


def compared(found: List[Line], kind: str) -> List[Tuple[float, Line]]:
    """The ratio of each line that has one of this kind, by the numbers that are printed."""
    ours, other, _ = KINDS[kind]
    return [(float(line.numbers[ours]) / float(line.numbers[other]), line)
            for line in found if line.numbers[other] != "-"]


def find(found: List[Line], kind: str) -> List[Found]:
    """The worst and the mean of lines, or nothing where none has a ratio of this kind."""
    ratios = compared(found, kind)
    if not ratios:
        return []
    _, worst = max(ratios, key=lambda it: (float(it[1].numbers[KINDS[kind][2]]), it[0]))
    return [Found(worst, worst.numbers[KINDS[kind][2]], mean([ratio for ratio, _ in ratios]))]


def summary(table: List[str]) -> Iterator[str]:
    """The lines of the summary of a table."""
    yield from (line.rstrip() for line in HEAD)
    every = lines(table)
    for name in GROUPS:
        here = of_group(every, name)
        said = f"{name:11} {len(here):5} "
        for kind in KINDS:
            parts = [f" {it.ratio:>5} {it.worst.page:11} {it.worst.job:9}{it.mean:5.2f} " for it in find(here, kind)]
            said += parts[0] if parts else f" {'-':>5} {'-':11} {'-':9}{'-':>5} "
        if here:
            yield said.rstrip()
