"""What a run has done, beside what the model says."""

from __future__ import annotations

import hashlib
import json
import os
import re
import zlib
from typing import TYPE_CHECKING, Dict, FrozenSet, List, Optional, Set, Tuple

from tests.archive.drawn.contents import Verdict, digest
from tests.archive.drawn.model import (
    FAULTY, GOOD, NOT_READ, Fax, Job, Model, Original, Row, Stood, Words, about_to_go, deleted_in, has_turned,
    knows_copies, originals_of, rows_of, see, status_of, where_in,
)
from tests.archive.drawn.playing import Ran, Trouble
from tests.archive.drawn.world import Entry, World, folded, snapshot

if TYPE_CHECKING:
    from tests.archive.drawn.operating import Episode


# The row of a fax that has gone, and whose copy is not marked as the only one.
NOT_MARKED = Verdict(NOT_READ, "NoMark")


# What was written later changed amid a run.
AMID = 1_600_000_000


class Difference(Exception):
    """What was done is not what the model says."""


class Before:
    """All that stood when a run began; where a table is named, what that one says is taken for what its own says."""

    def __init__(self, world: World, job: Job, other_user: bool, table: Optional[str] = None) -> None:
        self.tree, self.target, self.outside = (snapshot(it) for it in (world.tree, world.target, world.outside))
        if world.folds:
            self.target = {folded(name): entry for name, entry in self.target.items()}
        table = os.path.join(os.fsdecode(world.tables), job.table) if table is None else table
        self.rows, self.last = rows_of(table)
        self.originals = originals_of(table)
        self.deleted, self.about_to_go, self.where = deleted_in(table), about_to_go(table), where_in(table)
        self.seen = see(world, job, other_user)
        # Whether TARGET looks as if it was not mounted.
        self.unmounted = bool(job.to) and not self.target and knows_copies(table)


class Comparison:
    """What a run has done, beside what the model says."""

    def __init__(self, episode: Episode, job: Job, words: Words, trouble: Trouble, before: Before, ran: Ran) -> None:
        self.episode, self.job, self.words, self.trouble = episode, job, words, trouble
        self.before: Before = before
        self.ran: Ran = ran
        self.beside: Optional[Comparison] = None
        # Of which copies it was not known before whose they are.
        self.unsure: FrozenSet[bytes] = frozenset(episode.model.maybe.setdefault(job.table, set()))
        self.world: World = episode.world
        self.model: Model = episode.model
        self.after: Before = Before(self.world, job, episode.other_user)
        self.troubled: bool = bool(trouble.at) or trouble.largest is not None
        # The faxes that have other bytes than the table knows, with the same sizes and times.
        self.turned = {path for path, fax in before.seen.faxes.items() if has_turned(fax, before.originals.get(path))}
        self.amid = trouble.event if os.path.exists(os.path.join(self.world.folder, b"amid")) else None
        self._accept_amid()
        # Of each name below the target the faxes whose copy, or whose fields, may stand there: where case is folded,
        # there may be several.
        self.wanted: Dict[bytes, List[Tuple[bytes, Fax, bytes]]] = {}
        for path, fax in before.seen.faxes.items():
            if job.to and (path not in self.turned or path == self.changed_amid):
                for name, data in self._made_of(path, fax).items():
                    self.wanted.setdefault(name, []).append((path, fax, data))
        self.outcomes = {path: self.model.outcome(self.world, job, words, path, fax, before.target, path in self.turned)
                         for path, fax in self._share().items()}
        last, said = before.last, json.dumps([words.again, job.fields, *(["salvage"] if words.salvage else [])])
        number = 1 if last is None else last[0] + (last[1] != said or bool(last[3]))
        self.due = [path for path, fax in self._share().items() if self.model.is_due(
            self.world, job, words, path, fax, before.rows.get(path), number, before.target)]

    def _made_of(self, path: bytes, fax: Fax) -> Dict[bytes, bytes]:
        """What may be written for a fax, by its names: its copy, or what is salvaged of it."""
        if fax.data is not None and not self.model.teller.verdict(fax.data).status:
            return self.model.wanted(self.world, self.job, path, fax)
        return self.model.salvaged(self.job, path, fax) if self.words.salvage else {}

    def _accept_amid(self) -> None:
        """What came amid the run has to be there still, and then counts as if it had been there before."""
        event = self.amid
        if event is None:
            return
        for root, before, after in ((self.world.tree, self.before.tree, self.after.tree),
                                    (self.world.target, self.before.target, self.after.target)):
            if event.path.startswith(root + b"/"):
                name = event.path[len(root) + 1:]
                self.changed_amid = name
                there = after.get(name)
                if there is None and event.replaces and self.words.delete:
                    # It changed before it was read, and was copied and deleted so: another file, which nobody writes.
                    self.before.seen.faxes[name] = self.before.seen.faxes[name]._replace(data=event.data, written=False)
                    continue
                self.claim(there is not None and there.data == event.data, f"what came amid is gone: {name!r}")
                assert there is not None
                before[name] = there

    changed_amid: Optional[bytes] = None
    # Whether two runs by this table came one after the other.
    twice = False

    def claim(self, holds: bool, what: str) -> None:
        if not holds:
            raise Difference(what)

    def all(self) -> None:
        """Compares all."""
        self.files()
        self.rows()

    def files(self) -> None:
        """Compares what stands in the folders."""
        self.claim(self.ran.status not in (98, 99), "a traceback")
        # Dask's own processes say what they like where the run that started them is killed, sooner or later.
        if self.episode.cluster is None or self.trouble.kill is None:
            self.claim("Traceback" not in self.ran.error, "a traceback")
        self.claim(self.before.outside == self.after.outside, "something outside changed")
        refused = self._refused()
        if refused is not None and not self.troubled:
            self.claim(self.ran.status == refused, f"status {self.ran.status}, refused is {refused}")
        self._tree()
        self._target(refused is not None)

    def safe(self) -> None:
        """Compares what stands in the folders where it is not known what the table knows."""
        self._tree()
        for name in set(self.before.target) | set(self.after.target):
            if self.before.target.get(name) != self.after.target.get(name):
                self.model.maybe.setdefault(self.job.table, set()).add(name)
                self._written(name, False)

    def rows(self) -> None:
        """Notes what is whose now, and compares the rows and what was told."""
        refused = self._refused()
        self._ours()
        if refused is not None:
            self.claim(self.before.rows == self.after.rows, "rows changed where nothing was to be")
            return
        self._rows()
        self._originals()
        if not self.troubled or (self.ran.status in (0, 1) and self.amid is None):
            self._finished()
            self._folded()

    def _share(self) -> Dict[bytes, Fax]:
        part, count = self.job.share
        return {path: fax for path, fax in self.before.seen.faxes.items() if zlib.crc32(b"/" + path) % count == part}

    def _refused(self) -> Optional[int]:
        """With which status nothing is to be done."""
        seen, before = self.before.seen, self.before
        if seen.into_target:
            return 2
        if self.words.gone:
            return None
        faxes = self._share()
        gone = 0 if seen.failed else len(set(before.rows) - set(faxes) - before.about_to_go - {
            path for path, row in before.rows.items() if row.verdict == NOT_MARKED})
        if not seen.faxes and not before.rows and not seen.failed and not before.deleted:
            return 3
        if gone * 10 > len(before.rows):
            return 3
        changed = sum(path in before.rows and (before.rows[path].size, before.rows[path].mtime) != (fax.size, fax.mtime)
                      for path, fax in faxes.items())
        if self._moved() and (gone + changed) * 10 > len(before.rows):
            return 3
        return 3 if before.unmounted else None

    def _moved(self) -> bool:
        """Whether the tree stood elsewhere when this table was used before."""
        told = self.before.where
        return self.before.last is not None and told is not None and told != self.world.tree

    def _tree(self) -> None:
        """Nothing is written in the tree, and a fax is deleted only where its copy has all that was promised."""
        before, after = self.before.tree, self.after.tree
        self.claim(set(after) <= set(before), f"new in the tree: {set(after) - set(before)}")
        for name, entry in before.items():
            if name in after:
                self.claim(after[name] == entry, f"changed in the tree: {name!r}")
            else:
                self._may_be_deleted(name)

    def _may_be_deleted(self, name: bytes) -> None:
        fax = self.before.seen.faxes.get(name)
        self.claim(self.words.delete and fax is not None and fax.inside, f"deleted: {name!r}")
        assert fax is not None
        self.claim(not fax.written, f"deleted, and another program writes it: {name!r}")
        self.claim(name not in self.turned or name == self.changed_amid, f"deleted, and a bit has turned: {name!r}")
        self.claim(
            fax.data is not None and not self.model.teller.verdict(
                fax.data).status,
            f"deleted, faulty: {name!r}")
        assert fax.data is not None
        for copy, data in self.model.wanted(self.world, self.job, name, fax).items():
            there = self.after.target.get(copy)
            self.claim(there is not None and there.kind == "file", f"deleted, no copy: {name!r}")
            assert there is not None
            right = there.data == data or (copy.endswith(b".fields") and self._are_fields(name, fax, there.data))
            self.claim(right, f"deleted, copy has other bytes: {name!r}")
        lacks = set(self.episode.lacks[fax.data])
        if self.job.fields:
            lacks.discard("fields")
        elif self.job.to[0] == "pbm":
            lacks.add("fields")
        if self.job.to[0] == "pbm":
            # No image says a resolution.
            lacks.discard("resolution")
        self.claim(lacks <= set(self.words.give_up), f"deleted, copy lacks {lacks}: {name!r}")

    def _are_fields(self, name: bytes, fax: Fax, there: bytes) -> bool:
        """Whether these are the fields of a fax: of one whose digest no table knows a bit may have turned since."""
        assert fax.data is not None
        known = self.before.originals.get(name)
        others = self.world.turned.get(fax.data, ()) if known is None or known[:2] != (fax.size, fax.mtime) else ()
        path = os.path.join(self.world.tree, name)
        return any(_same_but_name(self.model.teller.fields(data, path), there) for data in (fax.data, *others))

    def _target(self, refused: bool) -> None:
        """What is written is a right copy where none was, or where ours was; nothing else is touched."""
        before, after = self.before.target, self.after.target
        for name in set(before) | set(after):
            if before.get(name) == after.get(name):
                continue
            try:
                self._written(name, refused)
            except Difference:
                if self.beside is None:
                    raise
                self.beside._written(name, self.beside._refused() is not None)

    def _written(self, name: bytes, refused: bool) -> None:
        """One name below the target under which something else stands than before."""
        was, now = self.before.target.get(name), self.after.target.get(name)
        part = os.path.basename(name).startswith(b".faxpages-") and name.endswith(b".part")
        if part and (now is None or self.trouble.kill or self.trouble.error):
            return
        self.claim(now is not None, f"gone from the target: {name!r}")
        assert now is not None
        if now.kind == "folder" and was is None:
            self._folder(name, now)
            return
        if self.trouble.kill and was is not None and was._replace(mode=was.mode | 0o200) == now:
            return  # killed while the mark of a copy was taken away into which its owner may not write
        self.claim(not refused, f"written though refused: {name!r}")
        self._copy(name, was, now)

    def _folder(self, name: bytes, now: Entry) -> None:
        """A new folder leads to a copy, and is as the one of the tree."""
        amid = self.changed_amid is not None and self.changed_amid.startswith(name + b"/")
        self.claim(amid or any(copy.startswith(name + b"/")
                   for copy in self.wanted), f"a folder for nothing: {name!r}")
        names = [name] if not self.world.folds else [
            it for all_of in self.wanted.values() for path, _, _ in all_of for it in _folders_of(path) if folded(it) == name]
        modes = {os.stat(os.path.join(self.world.tree, it)).st_mode & 0o777 | 0o300 for it in names}
        wider = all(now.mode & ~mode for mode in modes)
        self.claim(not wider, f"a folder is wider: {name!r}: {now.mode:o}, wanted {modes}")
        self.claim(now.mode in modes or self.trouble.at > 0, f"a folder: {name!r}: {now.mode:o}, wanted {modes}")

    def _copy(self, name: bytes, was: Optional[Entry], now: Entry) -> None:
        if self._is_copy_amid(name, now):
            return
        self.claim(name in self.wanted, f"no copy of a good fax: {name!r}")
        right = [it for it in self.wanted[name] if now.kind == "file" and now.data == it[2]]
        self.claim(bool(right), f"a copy is wrong: {name!r}")
        for path, fax, data in right:
            try:
                self._copy_of(name, was, now, path, fax, data)
                return
            except Difference:
                if path == right[-1][0]:
                    raise

    def _copy_of(self, name: bytes, was: Optional[Entry], now: Entry, path: bytes, fax: Fax, data: bytes) -> None:
        """The copy of this fax, or its fields, under a name under which something else stood before."""
        self.claim(name not in self.model.only or self.model.only[name] == data, f"an only copy is replaced: {name!r}")
        wider = now.mode & ~(fax.mode & 0o777) and not (self.trouble.at and was is not None and was.mode == now.mode)
        self.claim(not wider, f"a copy is wider: {name!r}: {now.mode:o}, of {fax.mode:o}")
        self.claim(now.mtime == fax.mtime_ns or self.trouble.at > 0, f"a copy has another time: {name!r}")
        if os.geteuid() == 0 and not self.episode.other_user and not self.trouble.at:
            self.claim(now.owner == fax.owner, f"a copy has another owner: {name!r}: {now.owner}, wanted {fax.owner}")
        maybe = name in self.model.maybe.setdefault(self.job.table, set())
        pieces = self.model.teller.pieces
        whole = was is not None and was.data not in pieces and not any(it.startswith(was.data) for it in pieces)
        self.claim(not whole or data not in pieces, f"a whole copy is replaced: {name!r}")
        same = was is not None and was.kind == "file" and was.data == data
        held = was is not None and not self._holds(name, path) and not (same and self.words.adopt)
        self.claim(not held or maybe, f"the copy of a fax with another name is replaced: {name!r}")
        if same:
            owned = self.model.owned(self.job, name) == data or self.words.adopt
            self.claim(owned or maybe, f"another's file is touched: {name!r}")
        else:
            right = self.model.may_replace(self.job, name, was, data) or maybe and self.model.was_copy(name, was, data)
            self.claim(right, f"another's file is replaced: {name!r}")

    def _ours(self) -> None:
        """What is ours now."""
        job, model = self.job, self.model
        ours, maybe = model.ours.setdefault(job.table, {}), model.maybe.setdefault(job.table, set())
        if not job.to:
            return
        self._note_holders()
        for name, data in ((name, data) for name, its in self.wanted.items() for _, _, data in its):
            was, now = self.before.target.get(name), self.after.target.get(name)
            if now is not None and now.kind == "file" and now.data == data and (was != now or self.words.adopt):
                model.written.setdefault(name, set()).add(data)
            if self.beside is not None and name in self.beside.wanted and was != now:
                # Which of two runs wrote it is not known.
                maybe.add(name)
                model.maybe.setdefault(self.beside.job.table, set()).add(name)
            elif now is not None and now.kind == "file" and now.data == data and (was is None or was != now):
                ours[name] = data
                maybe.discard(name)
            elif self.words.adopt and was is not None and was.kind == "file" and was.data == data:
                maybe.add(name)
            if now is not None and now.kind == "file" and now.data == data and (name in ours or name in maybe):
                self._mark_may_be_ours(name)
        deleted = {path for path in self.before.seen.faxes if path in self.before.tree and path not in self.after.tree}
        self._note_only(deleted)
        if self.troubled:
            # The copy of a fax that is gone is marked as the only one before its row goes.
            for path in (set(self.before.rows) & set(self.after.rows)) - set(self.after.tree):
                maybe.update(job.copies_of(path))
        # A fax that was about to be deleted and stays has no row, or one that says so, and its copy is marked as the
        # only one.
        stays = set(self._share()) if self.words.delete else set[bytes]()
        noted = {path for path, row in self.after.rows.items() if not row.stays}
        for path in (set(self.before.rows) | deleted | stays) - noted:
            for name in job.copies_of(path):
                # Where case is folded, it may be the copy of one that stays.
                stay = job.folds and any(name in job.copies_of(it) for it in self.after.rows)
                if path in self.after.tree or self.trouble.at or stay:
                    maybe.add(name)
                if self._holds(name, path):
                    ours.pop(name, None)
                    model.stood.setdefault(job.table, {}).pop(name, None)

    def _note_holders(self) -> None:
        """Notes whose copy stands in each place that was written, or may have been taken over."""
        model, maybe = self.model, self.model.maybe.setdefault(self.job.table, set())
        for name, its in self.wanted.items():
            was, now = self.before.target.get(name), self.after.target.get(name)
            paths = {path for path, _, data in its if now is not None and now.kind == "file" and now.data == data}
            if not paths or (was == now and not self.words.adopt):
                continue
            if len(paths) > 1 or (was == now and not self._holds(name, *paths)):
                maybe.add(name)
                model.holder.pop(name, None)
            else:
                (model.holder[name],) = paths

    def _holds(self, name: bytes, path: bytes) -> bool:
        """Whether a copy may be that of this fax, by its name."""
        return self.model.holder.get(name, path) == path

    def _has_others(self, path: bytes) -> bool:
        """Whether the copy of a fax has the name of another one's too."""
        return any(len(self.wanted.get(name, ())) > 1 or not self._holds(name, path) for name in self._copies(path))

    def _note_only(self, deleted: Set[bytes]) -> None:
        """Notes the copies whose faxes this run has deleted, or found gone, where it is sure that they were ours."""
        only, target = self.model.only, self.after.target
        for name in [name for name, data in only.items() if name not in target or target[name].data != data]:
            del only[name]
        self.model.kept_by(self.job.table).note(self, deleted)
        if self.troubled or self.beside is not None or self.ran.status not in (0, 1, 3):
            return
        if self._refused() is None:
            # What versions before 1.6 deleted, whose copies they did not mark.
            for path, (name, data) in self.model.left.pop(self.job.table, {}).items():
                there = target.get(name)
                same = there is not None and (there.kind, there.data) == ("file", data)
                if path not in self.before.seen.faxes and same:
                    only[name] = data
        gone = set(self.before.rows) - set(self.after.rows) - set(self.after.tree)
        for path in deleted | gone:
            for name in self.job.copies_of(path):
                owned, there = self.model.owned(self.job, name), target.get(name)
                sure = self._holds(name, path) and name not in self.model.maybe.setdefault(self.job.table, set())
                if sure and there is not None and there.kind == "file" and there.data == owned:
                    only[name] = there.data

    def _mark_may_be_ours(self, name: bytes) -> None:
        """A copy has the mark of one table: another that wrote it and was killed may have known it by that alone."""
        for table, theirs in self.model.ours.items():
            if table != self.job.table and name in theirs:
                self.model.maybe.setdefault(table, set()).add(name)

    def _rows(self) -> None:
        """Each row is as it was, or says what is so; none is lost but those of faxes that are gone."""
        faxes = self._share()
        for path, row in self.after.rows.items():
            if self.before.rows.get(path) == row and not self._is_done_alike(path):
                continue
            if self._is_amid(path):
                self._forget_amid(path)
                continue
            if self._is_not_marked(path):
                continue
            self.claim(path in faxes, f"a row of no fax: {path!r}")
            if self._leads_nowhere_now(path):
                self.claim(row.verdict == Verdict(NOT_READ, "Open"), f"a link that leads nowhere: {path!r}: {row}")
                continue
            fax = faxes[path]
            self.claim((row.size, row.mtime) == (fax.size, fax.mtime), f"a row has another size or time: {path!r}")
            if self._is_sure(path):
                wanted = self.outcomes[path]
                self.claim(row.verdict == wanted, f"{path!r}: {row.verdict}, wanted {wanted}{self._about(path)}")
            self._counted(path, row, fax)
            if row.verdict.status == GOOD and not row.stays:
                self.claim(row.salvaged is None, f"good, and its copy is a salvaged one: {path!r}")
                self._note_good(path, fax)
            elif row.salvaged == 1:
                self._note_salvaged(path)
        for path in set(self.before.rows) - set(self.after.rows):
            self.claim(path not in faxes or self.words.delete, f"a row is lost: {path!r}")

    def _counted(self, path: bytes, row: Row, fax: Fax) -> None:
        """A row that this run has written of a fax that it has read has the numbers of its bad and lost rows."""
        was = self.before.rows.get(path)
        written = was is None or was.run != row.run
        if written and fax.data is not None and row.verdict.status in (GOOD, FAULTY) and self.beside is None:
            wanted = self.model.teller.counts(fax.data)
            self.claim(row.counts == wanted, f"the rows of {path!r}: {row.counts}, wanted {wanted}")

    def _originals(self) -> None:
        """The digest of each fax that was read is kept; of one whose bits have turned, that of what it was."""
        before, after = self.before.originals, self.after.originals
        perhaps = self._perhaps_due()
        for path, row in self.after.rows.items():
            fax = self._share().get(path)
            if fax is None or fax.data is None or self.beside is not None or self._is_amid(path) or row.stays:
                continue
            now = Original(fax.size, fax.mtime, hashlib.sha256(fax.data).digest())
            was = before.get(path) if path in self.before.rows else None
            done = path in self.due and path not in perhaps and not self.troubled
            wanted = {was, now} if path not in self.turned else {was}
            if done and _was_read(row) and path not in self.turned:
                wanted = {now}
            self.claim(after.get(path) in wanted, f"the digest of {path!r}: {after.get(path)}, wanted {wanted}")

    def _is_not_marked(self, path: bytes) -> bool:
        """Whether the copy of a fax that had gone was not marked, since a call was refused, now or in a run before.
        Then it is not known whose it is."""
        if self.after.rows[path].verdict != NOT_MARKED:
            return False
        before = self.before.rows.get(path)
        was = before is not None and before.verdict == NOT_MARKED
        self.claim(self.trouble.error is not None or was, f"not marked: {path!r}")
        self.model.maybe.setdefault(self.job.table, set()).update(self._copies(path))
        return True

    def _is_done_alike(self, path: bytes) -> bool:
        """Whether a fax was done though its row is as it was, since a run that goes on has the number that it had.
        Where it is not known, nothing is sure of its copy."""
        sure = path in self.due and not self.troubled and path not in self._perhaps_due()
        if path in self.due and not sure:
            self.model.maybe.setdefault(self.job.table, set()).update(self._copies(path))
        return sure

    def _leads_nowhere_now(self, path: bytes) -> bool:
        """Whether this is a link to a fax that the first of two runs deleted, so that the second one found it so."""
        whole = os.path.join(self.world.tree, path)
        return self.twice and self.words.delete and os.path.islink(whole) and not os.path.exists(whole)

    def _about(self, path: bytes) -> str:
        """What is known of the copies of a fax, for whoever looks for the reason of a difference."""
        lines = []
        for name, its, data in ((name, it[0], it[2]) for name, all_of in self.wanted.items() for it in all_of):
            if its == path:
                there, owned = self.before.target.get(name), self.model.owned(self.job, name)
                stands = there and (there.kind, digest(there.data))
                lines.append(f"\n    {name!r}: wanted {digest(data)}, there {stands}, ours "
                             f"{digest(owned) if owned else owned!r}")
        return "".join(lines)

    def _is_amid(self, path: bytes) -> bool:
        """Whether a fax, or the place of its copy, changed amid the run, so that it is as it was, or as it became."""
        return self.changed_amid is not None and self.changed_amid in (
            path, self.job.copy_of(path) if self.job.to else path)

    def _is_copy_amid(self, name: bytes, now: Entry) -> bool:
        """Whether this is a right copy of a fax that changed amid the run, as it was or as it became."""
        path = self.changed_amid
        if path is None or self.amid is None or not self.amid.replaces or name not in self.job.copies_of(path):
            return False
        fax = self.before.seen.faxes[path]
        both = [data for data in (fax.data, self.amid.data) if data is not None]
        rights = [self._made_of(path, fax._replace(data=data)).get(name) for data in both]
        self.claim(now.kind == "file" and now.data in rights, f"a copy of what changed amid is wrong: {name!r}")
        return True

    def _forget_amid(self, path: bytes) -> None:
        """From now on nothing is sure of the copies of a fax that changed amid a run."""
        if self.job.to:
            for name in self.job.copies_of(path):
                self.model.maybe.setdefault(self.job.table, set()).add(name)
                now = self.after.target.get(name)
                if now is not None and now.kind == "file" and self.changed_amid == path:
                    self.model.stood.setdefault(self.job.table, {})[name] = Stood(len(now.data), now.mtime, now.data)
                    self.model.ours.setdefault(self.job.table, {})[name] = now.data
                    self.model.written.setdefault(name, set()).add(now.data)

    def _is_sure(self, path: bytes) -> bool:
        """Whether only one outcome is right."""
        maybe = self.model.maybe.setdefault(self.job.table, set()) | self.unsure
        unsure = self._copies(path) & maybe or self._has_others(path)
        return not (self.trouble.error or self.trouble.largest is not None or unsure)

    def _note_good(self, path: bytes, fax: Fax) -> None:
        if not self.job.to:
            return
        stood = self.model.stood.setdefault(self.job.table, {})
        for name, data in self.model.wanted(self.world, self.job, path, fax).items():
            now = self.after.target.get(name)
            if now is not None and now.kind == "file":
                right = now.data == data or (name.endswith(b".fields") and _same_but_name(now.data, data))
                right = right or self._is_of_before(path, name, fax, now.data)
                self.claim(right, f"good, and its copy is wrong: {name!r}")
                stood[name] = Stood(len(now.data), now.mtime, now.data)
                if self.words.adopt:
                    self.model.ours[self.job.table][name] = now.data

    def _note_salvaged(self, path: bytes) -> None:
        """A row that says that the copy of its fax is a salvaged one: what it knows of it."""
        name = self.job.copy_of(path)
        now, was = self.after.target.get(name), self.before.rows.get(path)
        if now is not None and now.kind == "file" and now != self.before.target.get(name):
            self.claim(now.data in self.model.teller.pieces, f"said to be salvaged, and is not: {name!r}")
            self.model.stood.setdefault(self.job.table, {})[name] = Stood(len(now.data), now.mtime, now.data)
        elif was is None or was.salvaged != 1:
            self.model.maybe.setdefault(self.job.table, set()).add(name)

    def _is_of_before(self, path: bytes, name: bytes, fax: Fax, data: bytes) -> bool:
        """Whether a copy that stays is that of a fax before a bit of it turned, and no table knows the fax's digest."""
        before, known = self.before.target.get(name), self.before.originals.get(path)
        if before is None or before.data != data or (known is not None and known[:2] == (fax.size, fax.mtime)):
            return False
        assert fax.data is not None
        others = [it for it in self.world.turned.get(fax.data, ()) if not self.model.teller.verdict(it).status]
        return any(self.model.wanted(self.world, self.job, path, fax._replace(data=it)).get(name) == data
                   for it in others)

    def _finished(self) -> None:
        """A run that went to its end: all rows are there, the status is the worst, and no more was done than was
        due."""
        faxes, seen = self._share(), self.before.seen
        deleted = set(faxes) - {path for path in faxes if path in self.after.rows}
        if not self.words.delete:
            self.claim(not deleted, f"no row of {deleted}")
        kept = set(self.before.rows) - set(faxes) if seen.failed else set()
        kept |= {path for path, row in self.after.rows.items() if row.verdict == NOT_MARKED} - set(faxes)
        self.claim(set(self.after.rows) - set(faxes) == kept, "rows of faxes that are gone")
        worst = status_of([row.verdict.status for row in self.after.rows.values()] + [3 if seen.failed else 0])
        if self.words.delete:
            self._deleted(worst)
        else:
            wanted = 0 if self.words.faults_ok and worst == 1 else worst
            self.claim(self.ran.status == wanted, f"status {self.ran.status}, wanted {wanted}")
        done = re.search(r"; (\d+) done now, (\d+) before, (\d+) gone;", self.ran.out)
        self.claim(done is not None, f"no summary: {self.ran.out!r}")
        assert done is not None
        # Where a call was refused a copy may not have been seen, and is looked at again.
        more = int(done.group(1)) > len(self.due) and self.trouble.error is not None
        unsure = self._perhaps_due()
        least, most = len(set(self.due) - unsure), len(set(self.due) | unsure)
        self.claim(more or least <= int(done.group(1)) <= most, f"done {done}, wanted {self.due}, perhaps {unsure}")

    def _deleted(self, worst: int) -> None:
        """All that may be deleted is, or nothing, where the words ask for that; the status is 3 where a good fax
        stays."""
        good = [path for path, row in self.after.rows.items() if row.verdict.status == GOOD]
        faxes = self._share()
        left = [path for path in good if path in self.after.tree and path in faxes and faxes[path].inside]
        self.claim(self.ran.status in (worst, NOT_READ), f"status {self.ran.status}, wanted {worst} or 3")
        self.claim(self.ran.status == NOT_READ or bool(self.words.whole and worst) or not left, f"not deleted: {left}")
        gone = set(self.before.tree) - set(self.after.tree)
        self.claim(not (self.words.whole and worst and gone), f"all or nothing: deleted {gone}")
        if not self.words.whole and not self.job.follow and self.beside is None and not self.trouble.at:
            stay = [path for path in left if self._may_go(path)]
            self.claim(not stay or self.before.seen.failed > 0, f"not deleted, and may be: {stay}")

    def _may_go(self, path: bytes) -> bool:
        """Whether it is sure that nothing keeps a good fax."""
        fax = self._share()[path]
        # One that changed amid a run may be young; all others are of some years ago.
        if path in self.turned or fax.data is None or fax.mtime > AMID or self.model.teller.verdict(fax.data).status:
            return False
        lacks = set(self.episode.lacks[fax.data]) - set(self.words.give_up)
        wanted = self.model.wanted(self.world, self.job, path, fax)
        # A copy that was changed without a trace before is seen where it is compared.
        ours = all(self.model.owned(self.job, name) == data and not self._has_rotted(name)
                   for name, data in wanted.items())
        return self._is_sure(path) and not lacks and not fax.written and ours and self.job.to[0] != "pbm"

    def _folded(self) -> None:
        """Of faxes whose copies have one name in a folder that folds case those are good whose copy stands there; and
        it is not turned over."""
        for name, its in self.wanted.items():
            was, now = self.before.target.get(name), self.after.target.get(name)
            if len(its) < 2 or name in self.unsure or name.endswith(b".fields") or self.beside is not None:
                continue
            good = [data for path, _, data in its
                    if path in self.after.rows and self.after.rows[path].verdict.status == GOOD]
            is_right = all(now is not None and now.data == data for data in good)
            self.claim(is_right or (was == now and self._has_rotted(name)), f"good, and another's copy: {name!r}")
            stood = [path for path, fax, data in its if self._was_good(path, fax) and was is not None and was.data == data]
            if len(stood) == 1 and self.model.stands(self.job, name, self.before.target):
                self.claim(was is not None and now is not None and now.data == was.data, f"turned over: {name!r}")

    def _has_rotted(self, name: bytes) -> bool:
        """Whether a copy had other bytes than its table knows, with the size and the time that it knows: then only a
        run that reads copies tells."""
        known, there = self.model.stood.setdefault(self.job.table, {}).get(name), self.before.target.get(name)
        return known is not None and there is not None and there.data != known.data and (
            self.model.stands(self.job, name, self.before.target))

    def _was_good(self, path: bytes, fax: Fax) -> bool:
        """Whether a fax was good before this run, and has not changed since."""
        row = self.before.rows.get(path)
        return row is not None and row.verdict.status == GOOD and (row.size, row.mtime) == (fax.size, fax.mtime)

    def _perhaps_due(self) -> Set[bytes]:
        """The faxes that may be due or not: those whose copies another run wrote when both were at work, since they may
        have been seen or not, and it is not known which table knows them; and links that lead nowhere by then."""
        names = set(self.unsure)
        if self.beside is not None:
            before, after = self.before.target, self.after.target
            names.update(name for name in set(before) | set(after) if before.get(name) != after.get(name))
        return {path for path in self._share() if names & self._copies(path) or self._leads_nowhere_now(path)
                or self._has_others(path)}

    def _copies(self, path: bytes) -> Set[bytes]:
        """The names of what a run writes of a fax."""
        return set(self.job.copies_of(path)) if self.job.to else set()


def compare_two(comparisons: List[Comparison]) -> None:
    """Compares two runs by two tables that were at work at once: what is written is right by one of them."""
    one, other = comparisons
    one.beside, other.beside = other, one
    # What stood there before is compared by what was whose before.
    for it in comparisons:
        it.files()
    for it in comparisons:
        it.rows()


def done_by(ran: Ran) -> int:
    """How many faxes a run says that it has done."""
    found = re.search(r"; (\d+) done now, ", ran.out)
    return int(found.group(1)) if found is not None else -1


def _folders_of(path: bytes) -> List[bytes]:
    """The folders that a path goes through."""
    return [path[:at] for at, letter in enumerate(path) if letter == ord("/")]


def _was_read(row: Row) -> bool:
    """Whether a fax with this row was read."""
    return row.verdict.status != NOT_READ or row.verdict.fault in ("Exists", "Write", "Fields", "RowsDiffer")


def _same_but_name(one: bytes, other: bytes) -> bool:
    """Whether two texts of tiffdump differ by the name of the file alone."""
    return one.partition(b":\nMagic")[2] == other.partition(b":\nMagic")[2]
