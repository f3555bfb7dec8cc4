"""TARGET that goes amid a run: it is deleted, or another folder has its name."""

import json
import os
import shutil
from typing import Set

from tests.archive.drawn import playing
from tests.archive.drawn.comparing import Comparison
from tests.archive.drawn.world import snapshot


class Goes(playing.Event):
    """TARGET, whose place is the event's path, goes: it is deleted with all that it holds, or only renamed. What is left
    then of TREE, whose place is the event's data, is noted."""

    def happen(self, room: str) -> None:
        """Has it be so, and says in the file amid that it is."""
        left = sorted(map(os.fsdecode, snapshot(self.data)))
        if self.replaces:
            shutil.rmtree(self.path)
        else:
            os.rename(self.path, moved_of(room))
            os.mkdir(self.path)
        with open(os.path.join(room, "amid"), "w", encoding="utf-8", errors="surrogateescape") as file:
            json.dump(left, file)


def moved_of(room: str) -> str:
    """Where TARGET is once it is renamed."""
    return os.path.join(room, "moved")


def left_at(room: str) -> Set[bytes]:
    """What was left of TREE when TARGET went."""
    with open(os.path.join(room, "amid"), encoding="utf-8", errors="surrogateescape") as file:
        return set(map(os.fsencode, json.load(file)))


class Gone(Comparison):
    """What a run has done of which TARGET went amid: no fax is lost but one, whose copy went in the instant after the
    last look at it."""

    def all(self) -> None:
        """Compares all, has TARGET be there again, and notes that nobody knows what is whose."""
        room = os.fsdecode(self.world.folder)
        self.claim(self.ran.status not in (98, 99) and "Traceback" not in self.ran.error, "a traceback")
        self.claim(self.before.outside == self.after.outside, "something outside changed")
        before, after = self.before.tree, self.after.tree
        self.claim(set(after) <= set(before), f"new in the tree: {set(after) - set(before)}")
        self.claim(all(before[name] == entry for name, entry in after.items()), "changed in the tree")
        moved = os.fsencode(moved_of(room))
        there = set(self.after.target)
        # Where TARGET was only renamed all copies are there still, but for those that were made again.
        self.after.target = {**(snapshot(moved) if os.path.isdir(moved) else {}), **self.after.target}
        deleted = set(before) - set(after)
        self.model.kept_by(self.job.table).note(self, deleted)
        # Where it went before the run opened it, the copies were made again in the folder that has its name.
        late = {name for name in deleted & left_at(room) if not there.issuperset(self.job.copies_of(name)[:1])}
        self.claim(len(late) <= 1, f"deleted once the copies were gone: {late}")
        if self.amid is not None and self.amid.replaces:
            deleted = set()
        for name in deleted:
            self._may_be_deleted(name)
        self._come_back(moved)

    def _come_back(self, moved: bytes) -> None:
        """The folder that was TARGET before is it again, where nothing stands in the new one."""
        target = self.world.target
        if os.path.isdir(moved) and not os.listdir(target):
            os.rmdir(target)
            os.rename(moved, target)
        shutil.rmtree(moved, ignore_errors=True)
        names = {*self.before.target, *self.after.target, *self.wanted}
        names.update(name for path in {*self.before.rows, *self.after.rows} for name in self.job.copies_of(path))
        # What the run wrote into TARGET before it went, or after, is a copy of its table.
        for name, its in self.wanted.items():
            self.model.written.setdefault(name, set()).update(data for _, _, data in its)
        for job in self.episode.jobs[1:]:
            self.model.maybe.setdefault(job.table, set()).update(names)
        for name in names:
            self.model.holder.pop(name, None)
            self.model.only.pop(name, None)
