"""Tables, and what they wrote, as version 1.5.2 left them: it kept no digests, put no mark at an only copy, and no name
into a mark."""

from __future__ import annotations

import contextlib
import os
import sqlite3
from typing import TYPE_CHECKING, Iterator, Tuple

from tests.archive.drawn.hurting import COPY, ONLY, numbers_in
from tests.archive.drawn.kept import KeptOnes
from tests.archive.drawn.model import WITH_OTHERS, Job, about_to_go, version_of
from tests.archive.drawn.world import snapshot
from tests.archive.kinds import make_older

if TYPE_CHECKING:
    from tests.archive.drawn.operating import Episode

# The rows that 1.5.2 never had: of a fax that was to be deleted and stays, and of one whose copy cannot be marked.
_NOT_YET = "status = 0 AND why IS NOT NULL OR fault = 'NoMark'"


def make(episode: Episode, job: Job) -> None:
    """Makes a table, its backup and its copies older."""
    name = os.path.join(os.fsdecode(episode.world.tables), job.table)
    numbers, about = numbers_in(name) or set(), about_to_go(name)
    for table in (name, name + "-backup"):
        if os.path.exists(table) and version_of(table) >= WITH_OTHERS:
            _make(table)
    if not job.to:
        return
    model, kept = episode.model, episode.model.kept_by(job.table)
    for path, its in kept.sure.items():
        if its.deleted:
            model.left.setdefault(job.table, {})[path] = job.copy_of(path), its.data
    for ones in filter(None, (kept, episode.backed.get(job.table))):
        _forget(ones)
        # What an earlier run was about to delete passes for deleted there, also if it stays.
        for path in about - set(ones.sure):
            ones.doubt(path)
    for copy in list(_unmark(episode, numbers)):
        model.only.pop(copy, None)
    # 1.5.2 wrote no salvaged copies: from now on it is not known whose they are.
    left = {copy for copy, entry in snapshot(episode.world.target).items() if entry.data in model.teller.pieces}
    for table in (it.table for it in episode.jobs[1:]):
        model.maybe.setdefault(table, set()).update(left)
    if job.folds:
        # No mark has a name by now.
        for table in (it.table for it in episode.jobs[1:]):
            model.maybe.setdefault(table, set()).update(snapshot(episode.world.target))


def _make(table: str) -> None:
    with contextlib.closing(sqlite3.connect(table)) as base:
        paths = base.execute(f"SELECT path FROM faxes WHERE {_NOT_YET}").fetchall()
        for name in ("faxes", "times", "copies"):
            base.executemany(f"DELETE FROM {name} WHERE path = ?", paths)
        base.execute("DELETE FROM copies WHERE path IN (SELECT path FROM faxes WHERE salvaged = 1)")
        base.execute("UPDATE deleted SET deleted = 1 WHERE deleted = 0")
        base.commit()
    make_older(table)


def _forget(kept: KeptOnes) -> None:
    """What a table of 1.5.2 does not say of only copies: their fields, and those whose faxes somebody deleted."""
    for path, its in list(kept.sure.items()):
        if its.deleted:
            kept.keep(path, its._replace(fields=None, perhaps=False))
        else:
            kept.doubt(path)
    kept.looked.clear()


def _unmark(episode: Episode, numbers: set[str]) -> Iterator[bytes]:
    """Takes away what 1.5.2 did not put at the copies of the tables with these numbers: which were the only ones."""
    for name, entry in snapshot(episode.world.target).items():
        path = os.path.join(episode.world.target, name)
        if entry.kind != "file":
            continue
        for attribute, words in list(_marks(path)):
            if words[0] not in numbers:
                continue
            if words[-1] == "salvaged":
                os.removexattr(path, attribute)
                yield name
            elif attribute == ONLY:
                os.removexattr(path, attribute)
                yield name
            else:
                os.setxattr(path, attribute, " ".join(words[:2]).encode())


def _marks(path: bytes) -> Iterator[Tuple[str, list[str]]]:
    for attribute in (ONLY, COPY):
        with contextlib.suppress(OSError):
            yield attribute, os.getxattr(path, attribute).decode().split()
