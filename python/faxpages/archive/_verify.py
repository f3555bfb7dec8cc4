"""Looks whether the only copies of faxes are as they were written: those whose faxes have gone."""

from __future__ import annotations

import argparse
import contextlib
import os
from typing import Dict, List, Tuple

from . import _engine as engine
from . import _files as files
from ._database import TableError
from ._fax import FAULTY, GOOD, NOT_READ, Done, Job
from ._progress import Progress
from ._run import done_of, say, shown, signals, told
from ._table import Table


def verify(words: argparse.Namespace) -> int:
    """Compares each only copy below TARGET with its digest. The status is 1 where one has changed or is not there,
    and 3 where one cannot be read."""
    target = os.path.abspath(os.fsencode(words.target))
    if not os.path.isdir(target):
        raise TableError(f"there is no folder {shown(target)}")
    if not os.path.exists(words.table):
        raise TableError(f"there is no table {words.table}")
    words.table = os.path.abspath(words.table)
    with Table(words.table) as table:
        kept = table.job() or {}
        if kept.get("job") != "convert":
            raise TableError(f"{words.table} is of no conversion, and knows of no copies")
        root = files.root_of(target)
        due = table.begin_verification()
        if due and root.is_empty():
            raise TableError(f"no copy stands in {shown(target)}, which is empty; nothing is changed")
        table.commit_all()
        _do_all(words, Job(b"", target, str(kept["to"]), verify=True), table, due)
        if words.gone:
            table.forget_only_copies()
        table.end_verification()
        table.commit_all()
        return _sum_up(table, due)


def _do_all(words: argparse.Namespace, job: Job, table: Table, due: int) -> None:
    """Looks at all copies that are due."""
    progress = Progress(due)
    try:
        for done in done_of(words, job, engine.Batches(table.taker())) if due else ():
            _put(words, table, done)
            progress.add(len(done))
    except BaseException:
        with contextlib.suppress(Exception):  # what went wrong is told by the exception that came first
            table.commit()
        raise
    finally:
        progress.close()


def _put(words: argparse.Namespace, table: Table, done: List[Done]) -> None:
    with signals.held():
        if done:
            table.put_verified([one.found for one in done])
        table.turn()
    for one in done:
        if words.names and one.found.status != GOOD:
            say(f"{shown(one.found.path)}: the only copy: {told(one.found).partition(': ')[2]}")


def _sum_up(table: Table, due: int) -> int:
    """Says what the only copies come to; the status."""
    found = table.only_copies()
    good, bad, unread = sides_of(found)
    print(f"only copies {good + bad + unread}: {good} good, {bad} changed or gone, {unread} not read; "
          f"{due} looked at now")
    return NOT_READ if unread else FAULTY if bad else GOOD


def sides_of(found: Dict[str, int]) -> Tuple[int, int, int]:
    """How many only copies are good, changed or gone, and not read or looked at, by how many have each fault."""
    good, bad = found.get("", 0), found.get("NoCopy", 0) + found.get("Changed", 0)
    return good, bad, sum(found.values()) - good - bad
