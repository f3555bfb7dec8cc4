"""What the documents say of speed, by what was measured (bench/numbers.txt): which version, on which day, at which
load, and the worst and mean ratios. It counts these itself, and not as bench/summary.py does."""

from __future__ import annotations

import datetime
import os
import re
from typing import Dict, Iterator, List, NamedTuple, Optional, Tuple

TOP = os.path.dirname(os.path.dirname(os.path.dirname(os.path.abspath(__file__))))
FIRST = re.compile(
    r"faxpages (\S+), measured on (\d{4}-\d\d-\d\d) at a load of (\d+(?:\.\d+)?)( \(other programs ran\))?")
LINE = re.compile(r"(\w+) +((?:rows|check) m\w+|\w+-\w+) +((?:[\d.-]+ +){9}[\d.-]+)")
GROUP = re.compile(r"(all|rows|check|to PBM|conversions|from PBM|one image) +(\d+)(?= )")
# A line of memory of one job, and the heading of the lines of pages and jobs.
JOB = re.compile(r"usual +(?:rows|check|\w+-\w+) .*\d$")
PAGES_AND_JOBS = """
                    1000 instructions      1000 mispredicted  milliseconds a page
page        job      faxpages libtiff ratio faxpages libtiff  faxpages libtiff ratio     third ratio
"""
LISTED = re.compile(r"(\w+) +list +(\d+) +([\d.]+) +([\d.]+) +([\d.]+) +([\d.]+)")
# Where the blocks of the summary stand in its lines, and in which columns of a page and job their numbers: ours, the
# other's, the ratio.
BLOCKS = {18: (5, 6, 7), 52: (0, 1, 2), 86: (5, 8, 9)}
# What `tests/documents/run --write` puts into the documents.
README = re.compile(r"^()(Of \d+ pages and jobs .*\n\nThe geometric mean .* at a load of [\d.]*\d"
                    r"(?:, beside other programs)?\.)()", re.M)
BENCH = re.compile(r"^()(Measured with version .* at a load of [\d.]*\d(?:, beside other programs)?)()(?=, )", re.M)
NUMBERS = re.compile(r"(<!-- numbers: tests/documents/run --write -->\n```text\n)(.*?\n)(```\n)", re.S)
GOALS = re.compile(r"(<!-- goals: tests/documents/run --write -->\n)(.*?\n)(<!-- end -->\n)", re.S)
# The goals of seconds: how it is called, the job, the goal beside libtiff and that beside the third.
SECONDS: List[Tuple[str, str, Optional[float], Optional[float]]] = [
    ("`rows`", "rows mmr", 0.40, 0.65), ("`check`", "check mmr", 0.36, 0.55), ("to PBM", "mmr-pbm", 0.55, None),
    ("from PBM, of spandsp's", "pbm-mmr", None, 0.55)]
LETTERS = ["text", "form", "usual", "japanese"]
# Those of instructions on the nearly blank page.
SPARSE = {"`rows`": (["rows mh", "rows mr", "rows mmr"], 0.45),
          "`check`": (["check mh", "check mr", "check mmr"], 0.28),
          "to PBM": (["mh-pbm", "mr-pbm", "mmr-pbm"], 0.50)}


# What the pages are, by bench/pages.py; `strips` is the first one in strips of one row.
DRAWN = {"text": "dense text", "usual": "a letter", "cyrillic": "a letter in Cyrillic",
         "japanese": "Japanese", "handwriting": "a letter by hand", "form": "a form",
         "photograph": "a photograph in dots", "halftone": "a photograph by a screen",
         "speckle": "a letter with specks", "sparse": "a nearly blank page", "blank": "a blank page",
         "strips": "dense text in strips of one row"}


class Block(NamedTuple):
    """A block of a line of the summary: the worst ratio, where it is, and the mean."""

    ratio: str
    page: str
    job: str
    mean: str


def read(*parts: str) -> str:
    with open(os.path.join(TOP, *parts), encoding="utf-8") as file:
        return file.read()


def numbers() -> str:
    return read("bench", "numbers.txt")


def lines() -> List[Tuple[str, str, List[str]]]:
    """The lines of the pages and jobs: page, job, numbers."""
    found = [LINE.fullmatch(line) for line in numbers().splitlines()]
    return [(it[1], it[2], it[3].split()) for it in found if it]


def summary() -> Dict[str, Tuple[int, List[Block]]]:
    """The lines of the summary: how many pages and jobs, and the blocks, of which the third may have nothing."""
    found = {}
    for line in numbers().splitlines():
        group = GROUP.match(line)
        if group:
            parts = [line[at:at + 34] for at in BLOCKS]
            found[group[1]] = int(group[2]), [
                Block(it[:6].strip(), it[7:18].strip(), it[19:28].strip(), it[28:33].strip()) for it in parts]
    return found


def measured() -> str:
    """What was measured, when, and at which load, as the documents say it."""
    first = FIRST.fullmatch(numbers().splitlines()[0])
    if not first:
        return "at no time"
    day = datetime.date.fromisoformat(first[2])
    beside = ", beside other programs" if first[4] else ""
    return f"Measured with version {first[1]} on {day.day} {day:%B %Y} at a load of {first[3]}{beside}"


def in_words(block: Block) -> str:
    """A page and job, as the README names it."""
    if " " in block.job:
        command, coding = block.job.split()
        return f"`{command}` of {coding.upper()} on {DRAWN[block.page]}"
    source, target = block.job.upper().replace("ONE", "PBM").split("-")
    return f"{source} to {target} on {DRAWN[block.page]}"


def peer(block: Block, third: bool) -> str:
    """Whose time a page and job is compared with."""
    one = ", which reads one image where faxpages reads all" if block.job.startswith("one-") else ""
    if not third:
        return f"libtiff{one}"
    return "a libtiff that only decodes" if " " in block.job else f"spandsp{one}"


def listed() -> List[Tuple[str, int, float, float, str]]:
    """The large files that are listed: the page, how many, milliseconds of faxpages and of tiffinfo, and the ratio."""
    found = [LISTED.fullmatch(line) for line in numbers().splitlines()]
    return [(it[1], int(it[2]), float(it[4]), float(it[5]), it[6]) for it in found if it]


def for_readme() -> str:
    """The README's sentences: the worst beside any peer, and each mean."""
    count, (libtiff, _, third) = summary()["all"]
    worst, is_third = max((libtiff, False), (third, True), key=lambda it: float(it[0].ratio))
    page, pages, _, _, ratio = max(listed(), key=lambda it: float(it[4]))
    return (f"Of {count} pages and jobs the worst, {in_words(worst)}, takes {worst.ratio} of the time of "
            f"{peer(worst, is_third)}. `list` of {pages} pages, each {DRAWN[page]}, takes {ratio} times as long as tiffinfo.\n\n"
            f"The geometric mean is {libtiff.mean} of libtiff's time, and {third.mean} of that of spandsp and a libtiff that "
            f"only decodes. {measured()}.")


def shown(ratio: str, goal: Optional[float]) -> str:
    """A ratio, in bold where it misses its goal."""
    return f"**{ratio}**" if goal is not None and ratio != "-" and float(ratio) > goal else ratio


def tables() -> str:
    """The tables of bench/numbers.txt but for the lines of each job, and of memory all but the worst and the mean."""
    kept = [line for line in numbers().splitlines() if not LINE.fullmatch(line) and not JOB.match(line)]
    return "\n".join(kept).replace(PAGES_AND_JOBS, "") + "\n"


def goals() -> str:
    """The tables of goals, and of what was measured."""
    found = {(page, job): columns for page, job, columns in lines()}
    said = "\n| MMR, seconds | Goal | text | form | usual | Japanese |\n|---|---|---|---|---|---|\n"
    for name, job, libtiff, third in SECONDS:
        wanted = f"{libtiff:.2f}" + (f" ({third:.2f})" if third else "") if libtiff else f"{third:.2f}"
        cells = []
        for page in LETTERS:
            columns = found[page, job]
            beside = shown(columns[9], third)
            cells.append(beside if libtiff is None else shown(columns[7], libtiff) + (f" ({beside})" if third else ""))
        said += f"| {name} | {wanted} | {' | '.join(cells)} |\n"
    said += "\n| A nearly blank page, instructions | Goal | MH | MR | MMR |\n|---|---|---|---|---|\n"
    for name, (jobs, goal) in SPARSE.items():
        said += f"| {name} | {goal:.2f} | {' | '.join(shown(found['sparse', job][2], goal) for job in jobs)} |\n"
    return said + "\n"


# What is put into which document.
PARTS = [(README, for_readme, ["README.md"]), (BENCH, measured, ["bench", "README.md"]),
         (NUMBERS, tables, ["bench", "README.md"]), (GOALS, goals, ["bench", "README.md"])]


def picture() -> Tuple[str, List[str]]:
    """The title and the ratios of docs/speed.svg as they have to be: of the summary, and of each job on two pages."""
    ratios = []
    for place in range(len(BLOCKS)):
        blocks = [it[place] for _, it in summary().values() if it[place].ratio != "-"]
        ratios += [it.ratio for it in blocks] + [it.mean for it in blocks]
    for page in ("text", "photograph"):
        ratios += [columns[column] for column in (2, 7) for at, _, columns in lines() if at == page]
    return numbers().splitlines()[0], ratios


def summary_is_of_the_lines() -> Iterator[Tuple[str, bool]]:
    """The summary has of each group the greatest ratio, where it is, and the geometric mean, and each page and job
    counts once."""
    every = lines()
    groups = {"all": r".*", "rows": r"rows .*", "check": r"check .*", "to PBM": r"m\w+-pbm",
              "conversions": r"m\w+-m\w+", "from PBM": r"pbm-m\w+", "one image": r"one-m\w+"}
    yield "bench/numbers.txt has each page and job once", len({it[:2] for it in every}) == len(every) >= 215
    yield "bench/numbers.txt has a summary of each group", list(summary()) == list(groups)
    for name, (count, blocks) in summary().items():
        here = [line for line in every if re.fullmatch(groups[name], line[1])]
        yield f"bench/numbers.txt: {name}: {count} pages and jobs, of {len(here)}", count == len(here)
        for block, (ours, other, ratio) in zip(blocks, BLOCKS.values()):
            there = [line for line in here if line[2][ratio] != "-"]
            worst = max((float(line[2][ratio]) for line in there), default=None)
            said = f"bench/numbers.txt: {name}: the worst is {worst}: {' '.join(block)}"
            yield said, (block.ratio == "-") if worst is None else (
                float(block.ratio) == worst and (block.page, block.job) in [
                    line[:2] for line in there if float(line[2][ratio]) == worst])
            if there:
                mean = 1.0
                for line in there:
                    mean *= (float(line[2][ours]) / float(line[2][other])) ** (1 / len(there))
                yield f"bench/numbers.txt: {name}: the mean is {mean:.4f}: {block.mean}", abs(
                    mean - float(block.mean)) < 0.0051


def lists_are_divided() -> Iterator[Tuple[str, bool]]:
    """The ratios of the large files are those of their milliseconds."""
    found = listed()
    yield f"bench/numbers.txt has large files that are listed: {len(found)}", len(found) >= 3
    for page, pages, ours, its, ratio in found:
        yield f"bench/numbers.txt: list of {pages} pages, {page}: {ratio}", abs(ours / its / float(ratio) - 1) < 0.02


def archive_has_its_versions() -> Iterator[Tuple[str, bool]]:
    """Each section of ARCHIVE.md with a table of what was measured, or of what follows, begins with the version."""
    for section in read("docs", "ARCHIVE.md").split("\n## ")[1:]:
        heading, _, text = section.partition("\n")
        before, table, _ = text.partition("\n|")
        if table and re.search(r"(?m)^\|.*(?:\| Seconds \||\| From \|)", text):
            said = re.search(r"(?i)\bwith version \d+\.\d+\.\d+", before)
            yield f"docs/ARCHIVE.md, {heading}: the version is said", said is not None


def claims() -> Iterator[Tuple[str, bool]]:
    """Nothing but what was measured stands in the documents and in the picture."""
    first = FIRST.fullmatch(numbers().splitlines()[0])
    yield "bench/numbers.txt says version, day and load, and from a load of 1 on that other programs ran", (
        first is not None and (float(first[3]) >= 1) == (first[4] is not None))
    for pattern, made, name in PARTS:
        stands = pattern.findall(read(*name))
        yield (f"{'/'.join(name)} has this of bench/numbers.txt, or else tests/documents/run --write writes it: {made()[:150]}",
               [it[1] for it in stands] == [made()])
    part = read("README.md").partition("\n## Speed\n")[2].partition("\n## ")[0]
    versions = re.findall(r"\b\d+\.\d+\.\d+\b", part)
    yield f"README.md, Speed, names only the version that was measured: {versions}", first is not None and (
        versions == [first[1]])
    yield from summary_is_of_the_lines()
    yield from lists_are_divided()
    yield from archive_has_its_versions()
    drawn = read("docs", "speed.svg")
    title, ratios = picture()
    yield f"docs/speed.svg has the title {title}", title in re.sub(r"<[^>]*>", "", drawn)
    yield "docs/speed.svg has the ratios of bench/numbers.txt", len(ratios) > 20 and (
        re.findall(r">(\d+\.\d\d)<", drawn) == ratios)


def note() -> str:
    """Says where the numbers are of another version than these sources; else nothing."""
    first, version = FIRST.match(numbers()), read("VERSION").strip()
    of = first[1] if first else "none"
    return "" if of == version else f"numbers are of {of}, the version is {version}"
