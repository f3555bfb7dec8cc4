"""The only copies of faxes, as the model knows them: those that a table has to know, and what verify has to find of
each."""

from __future__ import annotations

import copy
from typing import TYPE_CHECKING, Dict, List, NamedTuple, Optional, Set, Tuple

from tests.archive.drawn.world import Entry

if TYPE_CHECKING:
    from tests.archive.drawn.comparing import Comparison
    from tests.archive.drawn.model import Job

RIGHT, CHANGED, NO_COPY, NOT_OPEN = "", "Changed", "NoCopy", "Open"


class Kept(NamedTuple):
    """An only copy: its bytes, and those of its fields, where they are known to be looked at; whether they may be, of
    which it is not known what is wanted; and whether its fax was deleted by a run, and not by somebody else."""

    data: bytes
    fields: Optional[bytes] = None
    perhaps: bool = False
    deleted: bool = True

    def results(self, job: Job, path: bytes, target: Dict[bytes, Entry], other_user: bool) -> Set[str]:
        """What verify may say of it."""
        name, beside = job.copies_of(path)
        found = result_of(target, name, self.data, other_user)
        if found != RIGHT:
            return {found}
        if self.fields is not None:
            found = result_of(target, beside, self.fields, other_user)
        return {found, RIGHT, CHANGED, NO_COPY, NOT_OPEN} if self.perhaps else {found}


def result_of(target: Dict[bytes, Entry], name: bytes, data: bytes, other_user: bool) -> str:
    """What stands in the place of a file that was written with these bytes."""
    parts = name.split(b"/")
    ways = [b"/".join(parts[:count]) for count in range(1, len(parts))]
    if any(way not in target or target[way].kind != "folder" for way in ways):
        return NO_COPY
    there = target.get(name)
    if there is None or there.kind != "file":
        return NO_COPY
    if other_user and not there.mode & 0o400:
        return NOT_OPEN
    return RIGHT if there.data == data else CHANGED


class KeptOnes:
    """The only copies that one table has to know, by the paths of their faxes; the faxes whose copies it may know; and
    what a verification that was stopped may have found of each."""

    def __init__(self) -> None:
        self.sure: Dict[bytes, Kept] = {}
        self.perhaps: Set[bytes] = set()
        self.looked: Dict[bytes, Set[str]] = {}
        # Whether it may know others too, as by marks.
        self.others = False

    def copied(self) -> "KeptOnes":
        """What is known now."""
        return copy.deepcopy(self)

    def keep(self, path: bytes, kept: Kept) -> None:
        """Notes a copy that the table has to know."""
        self.sure[path] = kept
        self.perhaps.discard(path)

    def doubt(self, path: bytes) -> None:
        """Notes that it is not known whether the table knows a copy."""
        self.sure.pop(path, None)
        self.perhaps.add(path)

    def note(self, run: Comparison, deleted: Set[bytes]) -> None:
        """Notes what a run has made the only copies: those of the faxes that it has deleted, which the table knew
        before they went, and of those that it has found gone, where a copy stood."""
        for path in deleted:
            self.keep(path, _of_deleted(run, path))
        for path in set(run.before.rows) - set(run.after.rows) - deleted:
            kept = _of_gone(run, path)
            if kept is not None and kept.data in run.model.teller.pieces:
                # A salvaged copy is none.
                continue
            if kept is not None:
                self.keep(path, kept)
            elif path in self.sure or _may_be_kept(run, path):
                self.doubt(path)
        # One that an earlier run was about to delete, and did not, and that is gone now, passes for deleted; and so does
        # one that this run was about to delete, if it was killed.
        late = run.before.about_to_go - set(run.before.seen.faxes)
        for path in (late | run.after.about_to_go) - set(self.sure):
            self.doubt(path)
        calm = not run.troubled and run.beside is None
        for path in set(self.sure) - deleted:
            row = run.after.rows.get(path)
            back = path in run.before.seen.faxes
            # Where a fax is there again, its copy may be that of this one.
            if back and not calm or row is not None and not row.verdict.status:
                self.doubt(path)


def _of_deleted(run: Comparison, path: bytes) -> Kept:
    """The copy of a fax that was deleted, which was right then."""
    fax, target = run.before.seen.faxes[path], run.after.target
    (name, data), *_ = run.model.wanted(run.world, run.job, path, fax).items()
    beside = target.get(name + b".fields") if run.job.fields else None
    there = beside is not None and beside.kind == "file"
    return Kept(data, beside.data if beside is not None and there else None, run.job.fields and not there)


def _of_gone(run: Comparison, path: bytes) -> Optional[Kept]:
    """The copy of a fax that was found gone, where it is known what the table knew of it."""
    job, model = run.job, run.model
    if run.troubled or run.beside is not None or run.ran.status not in (0, 1, 3) or job.folds:
        return None
    stood = model.stood.setdefault(job.table, {})
    unsure = model.maybe.setdefault(job.table, set()) | run.unsure
    name, beside = job.copies_of(path)
    if name in unsure or name not in stood or name not in run.after.target or (
            model.owned(job, name) != stood[name].data):
        return None
    known = job.fields and beside in stood and beside not in unsure
    return Kept(stood[name].data, stood[beside].data if known else None, job.fields and not known, False)


def _may_be_kept(run: Comparison, path: bytes) -> bool:
    """Whether a table may know the copy of a fax that was found gone."""
    name = run.job.copy_of(path)
    unsure = run.model.maybe.setdefault(run.job.table, set()) | run.unsure
    return run.job.folds or name in unsure or name in run.model.ours.setdefault(run.job.table, {}) or run.troubled or (
        run.beside is not None)


def right_of(kept: Kept, job: Job, path: bytes) -> List[Tuple[bytes, bytes]]:
    """The files of an only copy as they are to be, by their names."""
    name, beside = job.copies_of(path)
    return [(name, kept.data)] + ([(beside, kept.fields)] if kept.fields is not None else [])
