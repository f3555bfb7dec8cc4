"""Makes one table of the parts of an array."""

from __future__ import annotations

import argparse
import itertools
import json
import os
from typing import Any, Dict, List, Optional, Set, Tuple

from . import _walk as walk
from ._database import TableError
from ._fax import FAULTY, GOOD, NOT_READ, OTHER, Found
from ._run import counted, say, shown, state_of
from ._table import Look, Table
from ._verify import sides_of

# How many rows are taken over at a time.
_BATCH = 1000


def merge(words: argparse.Namespace) -> int:
    """One table of the parts, whose job is one but for the share. The status is that of all faxes, or says that a part
    is missing, or has not finished."""
    if os.path.realpath(words.name) in map(os.path.realpath, words.parts):
        raise TableError(f"{words.name} cannot be a part of itself")
    parts = [Table(name, new=False) for name in words.parts]
    _refuse_others(parts)
    with Table(words.name) as table:
        shares = [_job_of(table, part) for part in parts]
        lacking = _lacking(parts, shares)
        number = table.next_run("merge", "[]")
        table.begin_run(number, "merge", "[]")
        there = _take(table, parts)
        if not lacking:
            table.forget([row.path for row in table.rows() if row.path not in there])
            table.end_run(number, 0)
        counts = table.counts()
        print(counted(counts))
        table.commit_all()
        if lacking:
            print(state_of(table))
    for line in lacking:
        say(line)
    return NOT_READ if counts[NOT_READ] or lacking else FAULTY if counts[FAULTY] + counts[OTHER] else GOOD


def _refuse_others(parts: List[Table]) -> None:
    """Refuses parts that are of arrays of different sizes, or of different trees: each fax is in one part of an array,
    and may be in another one of another."""
    first = parts[0]
    for part in parts:
        jobs = [it.job() or {} for it in (first, part)]
        counts = [job.get("share", [0, 0])[1] for job in jobs]
        trees = [it.where().get("tree") for it in (first, part)]
        if None not in trees and trees[0] != trees[1]:
            raise TableError(f"{first.name} is of {shown(trees[0])}, and {part.name} of {shown(trees[1])}")
        if 0 not in counts and counts[0] != counts[1]:
            raise TableError(f"{first.name} is a part of {counts[0]}, and {part.name} one of {counts[1]}")


def _job_of(table: Table, part: Table) -> walk.Share:
    """The share of a part, whose job becomes that of the table."""
    job = part.job()
    if job is None:
        raise TableError(f"{part.name} is no table of faxpages-archive")
    share = job.pop("share")
    before = table.where()
    where = part.where()
    if before and before.get("tree") != where.get("tree"):
        say(f"{part.name} is of {where.get('tree')}, and not of {before.get('tree')}")
    told: Dict[str, Any] = dict(job=job.pop("job"), share=list(walk.WHOLE), **job)
    table.set_job(told, where)
    return share[0], share[1]


def _lacking(parts: List[Table], shares: List[walk.Share]) -> List[str]:
    """What is missing for a whole: parts, and parts of parts."""
    lines = []
    count = shares[0][1]
    there = {share[0] for share in shares if share[1] == count}
    missing = sorted(set(range(count)) - there)
    if missing:
        lines.append(f"no part of share {', '.join(f'{it}/{count}' for it in missing)}")
    for part in parts:
        last = part.last_run()
        if last is None or not last.finished():
            lines.append(f"{part.name}: {state_of(part)}")
    return lines


def _take(table: Table, parts: List[Table]) -> Set[bytes]:
    """Takes over the rows of parts, but where a newer one is here, and what was deleted. The paths of all faxes of the
    parts."""
    there: Set[bytes] = set()
    for part in parts:
        if not part.are_marked():
            table.set_marked(False)
        deletions = part.deletions()
        while some := list(itertools.islice(deletions, _BATCH)):
            table.put_deletions(some)
        looks = part.looks()
        while batch := list(itertools.islice(looks, _BATCH)):
            table.put_looks([it for it in batch if _is_newer(*it[:2], table.look(it[0].path), it[0].path in there)])
            there.update(row.path for row, *_ in batch)
        table.put_only_copies(part)
        table.take_parts_of(part)
    return there


def _is_newer(row: Found, look: Look, mine: Optional[Tuple[float, int, Look]], from_part: bool) -> bool:
    """Whether a row of a part is newer than mine. Of one table, the later run is newer. Else the fax that is newer by
    its own time is, then the later run, then the worse one of two parts; no clock counts."""
    if mine is None:
        return True
    mtime, status, its = mine
    if its.origin == look.origin:
        return look.run > its.run or (look.run == its.run and not from_part)
    if row.mtime != mtime:
        return row.mtime > mtime
    if look.run != its.run:
        return look.run > its.run
    return not from_part or row.status > status


def summary(table: Table) -> Dict[str, Any]:
    """What a table comes to."""
    counts, last, where = table.counts(), table.last_run(), table.where()
    found, lost = table.rows_left()
    job = table.job() or {}
    only = table.only_copies()
    good, bad, unread = sides_of(only)
    return {
        "tree": where.get("tree"), "target": where.get("target"), "job": job.get("job"), "share": job.get("share"),
        "run": last.number if last else None, "began": last.began if last else None,
        "ended": last.ended if last else None, "finished": bool(last and last.finished()),
        "unread_folders": last.unread if last else None, "faxes": sum(counts.values()), "good": counts[GOOD],
        "faulty": counts[FAULTY], "other": counts[OTHER], "not_read": counts[NOT_READ],
        "deleted": table.count_deleted(), "faults": table.faults(), "kinds": table.kinds(), "lacks": table.lacks(),
        "found": found, "lost": lost, **table.row_counts(), "salvaged": table.salvaged(),
        "stays": table.stays(), "only_copies": good + bad + unread,
        "only_copies_good": good, "only_copies_faults": {name: count for name, count in only.items() if name},
        "verified": table.verified()}


def _label(text: str) -> str:
    """A value of a label, in which Prometheus knows three escapes. A byte of a name that is no UTF-8 is shown as
    one."""
    shown_bytes = text.encode("utf-8", "surrogateescape").decode("utf-8", "backslashreplace")
    return shown_bytes.replace("\\", "\\\\").replace('"', '\\"').replace("\n", "\\n")


def prometheus(told: Dict[str, Any]) -> str:
    """A summary in Prometheus' text format."""
    lines = ["# HELP faxpages_archive_faxes Faxes of the archive, by their status.",
             "# TYPE faxpages_archive_faxes gauge"]
    labels = f'tree="{_label(str(told["tree"]))}"'
    if told["share"] and told["share"][1] > 1:
        labels += f',share="{told["share"][0]}/{told["share"][1]}"'
    for name in ("good", "faulty", "other", "not_read"):
        lines.append(f'faxpages_archive_faxes{{{labels},status="{name}"}} {told[name]}')
    lines += ["# HELP faxpages_archive_faults Faxes that are not good, by their fault.",
              "# TYPE faxpages_archive_faults gauge"]
    lines += [f'faxpages_archive_faults{{{labels},fault="{name}"}} {count}' for name, count in told["faults"].items()]
    lines += ["# HELP faxpages_archive_stays Good faxes that were to be deleted and are there, by the reason.",
              "# TYPE faxpages_archive_stays gauge"]
    lines += [f'faxpages_archive_stays{{{labels},why="{name}"}} {count}' for name, count in told["stays"].items()]
    lines += ["# HELP faxpages_archive_only_copies Copies of faxes that have gone, by what the last verify found.",
              "# TYPE faxpages_archive_only_copies gauge"]
    lines += [f'faxpages_archive_only_copies{{{labels},result="{name}"}} {count}'
              for name, count in (("good", told["only_copies_good"]), *told["only_copies_faults"].items())]
    for name, help_text in (("verified", "When the last verify of all only copies ended, in seconds since 1970."),
                            ("began", "When the last run began, in seconds since 1970."),
                            ("ended", "When the last run ended, in seconds since 1970."),
                            ("finished", "Whether the last run went to its end."),
                            ("deleted", "Faxes that were deleted after they had been copied."),
                            ("found", "Rows of faulty faxes that are left."),
                            ("lost", "Rows of faulty faxes that are lost."),
                            ("salvaged", "Faulty faxes with a salvaged copy."),
                            ("bad_rows", "Bad rows that receivers counted."),
                            ("bad_rows_faxes", "Faxes whose receiver counted bad rows."),
                            ("bad_rows_unknown", "Faxes of which it is not known what their receiver counted."),
                            ("lost_rows", "Rows that salvage does not find."),
                            ("lost_rows_faxes", "Faxes with rows that salvage does not find."),
                            ("lost_rows_unknown", "Faxes of which it is not known how many rows are lost.")):
        if told[name] is not None:
            lines += [f"# HELP faxpages_archive_{name} {help_text}", f"# TYPE faxpages_archive_{name} gauge",
                      f"faxpages_archive_{name}{{{labels}}} {told[name] + 0}"]
    return "\n".join(lines) + "\n"
