"""One run over a tree: what is due is noted first, then done, and then, where it is asked for, deleted."""

from __future__ import annotations

import argparse
import contextlib
import json
import os
import signal
import sys
import time
from typing import TYPE_CHECKING, Any, Dict, Iterator, List, Optional, Set, Tuple

from . import _files as files
from . import _walk as walk
from ._database import text_of
from ._fax import FAULTY, FIELDS, GOOD, NOT_READ, OTHER, WHOLE, Done, Found, Job, Waiting
from ._files import Seen, Stood
from ._lacks import NAMES
from ._progress import Gathering, Progress
from ._table import Compared, Copied, Known, Look, Table

if TYPE_CHECKING:
    from . import _engine as engine

# Of how many rows one may be gone at once.
_TENTH = 10
# The signals that ask for the end.
_ENDING = (signal.SIGTERM, signal.SIGINT)
_LEAST = {None: NOT_READ, "unread": NOT_READ, "faulty": FAULTY, "copies": GOOD, "all": GOOD}


class Stopped(BaseException):
    """A signal asks for the end."""


class Signals:
    """Signals that ask for the end. They wait while rows are written, so that no row is half there."""

    def __init__(self) -> None:
        self._held, self._came = False, 0

    def begin(self) -> None:
        """Has them ask for the end from now on."""
        for number in _ENDING:
            signal.signal(number, self._stop)

    def end(self) -> None:
        """Has them end the process at once, as they do of themselves."""
        for number in _ENDING:
            signal.signal(number, signal.SIG_DFL)

    def _stop(self, number: int, _: object) -> None:
        """What a signal calls. One that comes after it ends the process at once."""
        if not self._held:
            self.end()
            raise Stopped(number)
        self._came = number

    @contextlib.contextmanager
    def held(self) -> Iterator[None]:
        """Has signals wait."""
        self._held = True
        try:
            yield
        finally:
            self._held = False
        if self._came:
            raise Stopped(self._came)


signals = Signals()


def shown(path: Any) -> str:
    """A path in a line of text, whatever its bytes."""
    return ascii(os.fsdecode(path))[1:-1] if path is not None else "?"


def told(row: Found) -> str:
    """What a row says of a fax that is not good."""
    if row.status in (FAULTY, OTHER) and row.fault_page is not None:
        tag = f" {row.fault_tag}" if row.fault_tag is not None else ""
        kind = f"no fax that is read here, but {row.why or 'something else'}: " if row.status == OTHER else ""
        left = f"; {row.found} rows are left, {row.lost} are lost" if row.lost is not None else ""
        copy = "; its copy is a salvaged one" if row.salvaged else f"; {WHOLE}" if row.why == WHOLE else ""
        return f"{kind}fault page {row.fault_page} row {row.fault_row}: {row.fault}{tag}{left}{copy}"
    why = f": {shown(row.why)}" if row.why else ""
    if row.status == GOOD:
        return f"not deleted: {shown(row.why)}"
    return f"not read: {row.fault}{why}" if row.status == NOT_READ else f"fault: {row.fault}{why}"


def say(line: str) -> None:
    """A line on the error stream."""
    print(f"faxpages-archive: {line}", file=sys.stderr, flush=True)


class Run:
    """One run over a tree."""

    def __init__(self, words: argparse.Namespace, job: Job, table: Table) -> None:
        self._words, self._job, self._table = words, job, table
        self._counts = {GOOD: 0, FAULTY: 0, OTHER: 0, NOT_READ: 0}
        self._kept = self._due = self._gone = self._left = self._failed = self._changed = self._unmarked = 0
        self._began = time.monotonic()
        self._target = job.target_root() if job.target is not None else None
        # When the hard links of deleted faxes changed; and the faxes to which links lead that stay.
        self._links = files.Links()
        self._linked: Set[Tuple[int, int]] = set()
        # Why faxes stay that were to be deleted.
        self._whys: Dict[bytes, str] = {}
        more = [word for word, asked in (("lost", job.lost), ("salvage", job.salvage)) if asked]
        self._run_words = json.dumps([words.again, bool(job.fields), *more])
        self._number = table.next_run(words.command, self._run_words)

    def do(self) -> int:
        """The status of the run."""
        before = self._table.count()
        rows_seen, empty = self._note()
        unseen = [] if self._failed else list(self._table.unseen(rows_seen))
        # A fax that stayed though it was to be deleted may go later.
        unmarked = [path for path in self._table.not_marked() if not self._is_back(path)]
        gone = set(unseen).difference(self._table.about_to_be_deleted(), unmarked)
        refused = self._refused(before, len(gone), empty)
        if refused:
            say(f"{refused}; nothing is changed (--gone allows it)")
            return NOT_READ
        self._settle()
        self._mark_left()
        self._forget(dict.fromkeys(unseen), dict.fromkeys(unmarked))
        self._begin()
        self._do_all()
        self._table.end_run(self._number, self._failed)
        self._table.commit_all()
        self._sum_up()
        status = self._status()
        if self._words.command == "convert" and self._words.delete:
            return self._delete(status)
        return GOOD if status == FAULTY and self._words.faults_ok else status

    def _refused(self, before: int, gone: int, empty: bool) -> str:
        """Why nothing is done, where the tree, or the folder of copies, does not look as if it was there."""
        if self._words.gone:
            return ""
        if empty and not before and not self._failed and not self._table.count_deleted():
            return f"no fax stands below {shown(self._job.tree)}"
        if gone * _TENTH > before:
            return f"{gone} of {before} faxes are gone from {shown(self._job.tree)}"
        if self._is_moved() and (gone + self._changed) * _TENTH > before:
            return f"{gone + self._changed} of {before} faxes are gone or others below {shown(self._job.tree)}"
        if self._target is not None and self._table.knows_copies() and self._target.is_empty():
            return f"no copy stands in {shown(self._job.target)}, which is empty"
        return ""

    def _is_moved(self) -> bool:
        """Whether the tree of the table stood elsewhere."""
        return self._table.where().get("tree", text_of(self._job.tree)) != text_of(self._job.tree)

    def _settle(self) -> None:
        """Notes which faxes are gone that were about to be deleted when a run was killed."""
        if not self._failed and self._target is not None:
            self._table.are_deleted([path for path in self._table.about_to_be_deleted()
                                     if not os.path.lexists(os.path.join(self._job.tree, path))])

    def _mark_left(self) -> None:
        """Marks the copies of faxes that a version before 1.6 deleted as the only ones, once for each table. Where one
        cannot be marked it is told, and tried again by the next run."""
        if self._target is None or self._table.are_marked():
            return
        looked = False
        for path, mtime, digest in self._table.left_copies():
            looked, name = True, self._job.copy_of(path)
            for each, known in ((name, digest), (name + FIELDS, None)):
                why = files.mark_left(self._target, each, self._job.owner, mtime, known)
                if why is not None:
                    self._unmarked += 1
                    say(f"NoMark: {shown(each)}: {why}")
        if looked:
            # The marks are on the disk before it is noted.
            os.sync()
        if not self._unmarked:
            self._table.set_marked(True)

    def _begin(self) -> None:
        """Notes in the table that this run is at work."""
        table, job = self._table, self._job
        where = {"tree": text_of(job.tree)}
        if job.target is not None:
            where["target"] = text_of(job.target)
        kept = table.job()
        assert kept is not None
        table.set_job(kept, where)
        table.begin_run(self._number, self._words.command, self._run_words)
        table.commit_all()

    def _note(self) -> Tuple[bytearray, bool]:
        """Notes which faxes are due. The rows that were seen, by their numbers, and whether the tree has no fax."""
        table = self._table
        seen = bytearray(table.last() + 1)
        way = walk.Way(self._words.share, self._job.follow, self._job.target)
        tree = walk.Walk(self._job.tree, way, self._fail)
        gathering = Gathering()
        for fax in tree.faxes():
            gathering.add(1)
            known = table.known(fax.path)
            if known is not None:
                seen[known.number] = 1
            due = self._due_now(fax, known)
            if due is None:
                assert known is not None
                self._counts[known.status] += 1
                self._kept += 1
            else:
                table.wait(due)
                self._due += 1
        gathering.close()
        return seen, not tree.all

    def _due_now(self, fax: Waiting, known: Optional[Known]) -> Optional[Waiting]:
        """A fax that is to be done, with what is known of its copy; or None."""
        copied = self._table.copied(fax.path) if self._target is not None and known is not None else None
        same = known is not None and (known.size, known.mtime) == (fax.size, fax.mtime)
        if known is not None:
            self._changed += not same
            if same and not self._is_asked(fax.path, known) and self._is_copied(fax.path, known, copied):
                return None
            fax = fax._replace(digest=self._table.digest(fax), salvaged=known.salvaged == 1)
        if copied is None:
            if self._target is not None and self._table.was_deleted(fax):
                # It was about to be deleted, and is there: its copy is ours, if it is this one.
                return fax._replace(copy=files.NOT_KEPT, fields=files.NOT_KEPT)
            return fax
        copy, fields = copied.known()
        proven = same and known is not None and known.status == GOOD and self._words.again != "all" and bool(copy)
        return fax._replace(copy=copy, fields=fields, proven=proven)

    def _is_asked(self, path: bytes, known: Known) -> bool:
        """Whether a fax that is as it was is to be done again: one that could not be read, but for one that took too
        long and may take no longer now; or one that the words ask for. What this very run has done is not."""
        words = self._words
        if self._job.lost and known.status == FAULTY and not self._table.is_counted(path):
            return self._table.why(path)[2] != self._number
        if words.again == "copies" and known.status in (FAULTY, OTHER) and not (self._job.salvage and known.salvaged):
            return False
        if known.status < _LEAST[words.again]:
            return False
        fault, seconds, run = self._table.why(path)
        if run == self._number:
            return False
        if words.again is None and fault == "Timeout":
            return words.timeout is None or words.timeout > (seconds or 0)
        return True

    def _is_copied(self, path: bytes, known: Known, copied: Optional[Copied]) -> bool:
        """Whether the copy of a good fax, and its fields, are there as they were written, by their sizes and times; of
        a faulty one that is to be salvaged, whether its copy is, salvaged or whole. Of some nothing can be salvaged."""
        name = self._job.copy_of(path)
        if self._job.salvage and known.status == FAULTY and known.salvaged != 0:
            stands = copied is not None and self._stands(name, copied.copy)
            return stands or self._table.why(path)[2] == self._number
        if self._target is None or known.status != GOOD:
            return True
        if copied is None or not self._stands(name, copied.copy):
            return False
        return not self._job.fields or (copied.fields is not None and self._stands(name + FIELDS, copied.fields))

    def _stands(self, name: bytes, stood: Stood) -> bool:
        assert self._target is not None
        now = self._target.look(name)
        return now is not None and (now.st_size, files.time_of(now.st_mtime_ns)) == (
            stood.size, stood.mtime)

    def _fail(self, error: OSError) -> None:
        self._failed += 1
        say(f"not read: {shown(error.filename)}: {error.strerror}")

    def _is_back(self, path: bytes) -> bool:
        """Whether a fax that had gone is there again, as it was."""
        known = self._table.known(path)
        try:
            told = os.stat(os.path.join(self._job.tree, path), follow_symlinks=self._job.follow)
        except OSError:
            return False
        return known is not None and (known.size, known.mtime) == (told.st_size, told.st_mtime)

    def _forget(self, gone: Dict[bytes, None], unmarked: Dict[bytes, None]) -> None:
        """Takes the rows of faxes that are gone out of the table. Their copies stay, and are replaced by no other: they
        are marked as the only ones. Where one cannot be marked the row stays and says why, no fax of that name is done,
        and the next run tries it again, as this one those that were left so."""
        whys: Dict[bytes, str] = {}
        if self._target is not None:
            for path in {**gone, **unmarked}:
                why = self._disown(path, self._is_salvaged(path))
                if why is not None:
                    whys[path] = why
        marked = [path for path in gone if path not in whys]
        if self._target is not None:
            self._table.keep_only([(path, *self._noted(path)) for path in {**gone, **unmarked} if path not in whys
                                   and self._target.look(self._job.copy_of(path)) is not None
                                   and not self._is_salvaged(path)])
        self._table.forget(marked)
        self._table.forget_copies([path for path in unmarked if path not in whys])
        self._due -= self._table.are_not_marked(whys, self._number, self._job.owner.number)
        self._table.commit_all()
        self._left = len(gone.keys() & whys.keys())
        self._gone = len(gone) - self._left
        self._counts[NOT_READ] += len(whys)

    def _is_salvaged(self, path: bytes) -> bool:
        """Whether the copy of a fax is a salvaged one, which stays as any other, and does not count as a copy: by its
        marks, since a run that was killed may have written it; without marks, by the table."""
        assert self._target is not None
        noted, known = files.noted_salvaged(self._target, self._job.copy_of(path)), self._table.known(path)
        return noted if noted is not None else known is not None and known.salvaged == 1

    def _disown(self, path: bytes, salvaged: bool) -> Optional[str]:
        """Marks the copy of a fax that is gone, and its fields; why they cannot be marked, which is said."""
        assert self._target is not None
        name, copied = self._job.copy_of(path), self._table.copied(path)
        known = (copied.copy, copied.fields) if copied is not None else (None, None)
        for each, stood in zip((name, name + FIELDS), known):
            why = files.disown(self._target, each, self._job.owner, stood, salvaged and each == name)
            if why is not None:
                say(f"NoMark: {shown(each)}: {why}")
                return why
        return None

    def _noted(self, path: bytes) -> Tuple[Optional[str], Optional[str]]:
        """The digests that the marks at the copy of a fax and at its fields have."""
        assert self._target is not None
        name = self._job.copy_of(path)
        return files.noted_digest(self._target, name), files.noted_digest(self._target, name + FIELDS)

    def _do_all(self) -> None:
        """Does what is due."""
        progress = Progress(self._due)
        try:
            for done in self._done() if self._due else ():
                self._put(done)
                progress.add(len(done))
        except BaseException:
            with contextlib.suppress(Exception):  # what went wrong is told by the exception that came first
                self._table.commit()
            raise
        finally:
            progress.close()
        self._table.commit_all()

    def _done(self) -> Iterator[List[Done]]:
        """What comes of the faxes that are due, by the engine that was chosen."""
        # What it loads takes as long as a hundred faxes to check, and a run where nothing is due does without it.
        from . import _engine as engine

        return done_of(self._words, self._job, engine.Batches(self._table.taker()))

    def _put(self, done: List[Done]) -> None:
        with signals.held():
            if done:
                self._table.put(done, self._number, self._job.owner.number)
            self._table.turn()
        for one in done:
            self._counts[one.found.status] += 1
            if self._words.names and one.found.status != GOOD:
                say(f"{shown(one.found.path)}: {told(one.found)}")

    def _sum_up(self) -> None:
        seconds = time.monotonic() - self._began
        print(f"{counted(self._counts)}; {self._due} done now, {self._kept} before, {self._gone} gone; "
              f"{seconds:.1f} s, {self._due / max(seconds, 1e-9):.0f} faxes a second")
        print(state_of(self._table))

    def _status(self) -> int:
        if self._failed or self._unmarked or self._counts[NOT_READ]:
            return NOT_READ
        return FAULTY if self._counts[FAULTY] + self._counts[OTHER] else GOOD

    def _delete(self, status: int) -> int:
        """Deletes the good faxes of the table, once each is compared with its copy once more; or none, if the words ask
        for all or nothing and one is not good and copied. What a copy lacks keeps its fax, unless the words give it up.
        The status."""
        whole = self._words.all_or_nothing
        if self._failed or whole and status != GOOD:
            say(f"not all is {'read' if self._failed else 'copied'}; nothing is deleted")
            return status
        self._table.wait_for_good()
        if self._job.follow:
            for path in self._table.not_good():
                self._note_link(path)
        lacking, kept = self._compare()
        if lacking and whole:
            say("not all copies are right; nothing is deleted")
            return NOT_READ
        count = changed = outside = 0
        for batch in self._table.all_compared():
            gone, others, away = self._delete_some(batch)
            count, changed, outside = count + gone, changed + others, outside + away
        self._note_whys()
        print(f"deleted {count} faxes{self._told_kept(lacking + changed, outside, kept)}")
        return NOT_READ if lacking or changed or kept else status

    def _told_kept(self, others: int, outside: int, lacking: int) -> str:
        """How many faxes are kept, and why."""
        bad = sum(self._counts.values()) - self._counts[GOOD] - self._left
        reasons = ((bad, "since they are not good and copied"), (outside, "since they stand outside TREE"),
                   (lacking, "since their copies lack something"), (others, "as said above"))
        return "".join(f"; {count} kept, {why}" for count, why in reasons if count)

    def _compare(self) -> Tuple[int, int]:
        """How many faxes have not the rows of their copy, or are not as they were; and how many are kept, since their
        copy lacks something. Each is named."""
        self._job = self._job._replace(compare=True)
        given_up = {NAMES[it] for it in self._words.give_up}
        tree = files.root_of(self._job.tree)
        lacking = kept = 0
        for done in self._done():
            for row, copy, _, seen, copy_seen, fields_seen, _ in done:
                if row.status != GOOD or copy is None or seen is None or copy_seen is None:
                    lacking += 1
                    self._stays(row.path, f"{row.fault}: {row.why}" if row.why else str(row.fault))
                    self._note_link(row.path)
                    continue
                missed = set((row.lacks or "").split()) - given_up
                copied = self._table.copied(row.path)
                if copied is None or not copied.copy.ours or (copied.fields is not None and not copied.fields.ours):
                    missed.add("NotOurs")
                if missed and files.stays(tree, row.path, seen, self._links) != "OutsideTree":
                    kept += 1
                    say(f"kept: {shown(row.path)}: {' '.join(sorted(missed))}")
                    self._note_link(row.path)
                else:
                    self._table.compared(Compared(row.path, seen, copy_seen, fields_seen, self._depth(row.path)))
        return lacking, kept

    def _note_link(self, path: bytes) -> None:
        """Notes what the name of a fax that stays leads to, if it is a link."""
        if self._depth(path):
            with contextlib.suppress(OSError):
                seen = files.seen_of(os.stat(os.path.join(self._job.tree, path)))
                self._linked.add((seen.device, seen.inode))

    def _depth(self, path: bytes) -> int:
        """How many links lead from the name of a fax to a file."""
        return files.depth_of(os.path.join(self._job.tree, path)) if self._job.follow else 0

    def _delete_some(self, batch: List[Compared]) -> Tuple[int, int, int]:
        """Deletes some faxes: how many are deleted, how many are not, and how many stand outside. Their rows go
        first, since a row that is left would have the next fax of this name be written over the copy. Then the copies
        are marked as the only ones; and right before a fax goes its copy is looked at once more. The row of one that
        stays is put back, and says why."""
        tree = files.root_of(self._job.tree)
        ready: List[Compared] = []
        outside = 0
        assert self._target is not None
        self._target.forget()
        for it in batch:
            why = files.stays(tree, it.path, it.fax, self._links) or self._lost(it)
            outside += why == "OutsideTree"
            if why is None:
                ready.append(it)
            elif why != "OutsideTree":
                self._keep(it, why)
        rows = self._table.forget_deleted([it.path for it in ready])
        gone: List[bytes] = []
        try:
            marked = [it for it in ready if self._is_marked(it)]
            # Now all copies are on the disk, with their marks and the folders that they stand in.
            os.sync()
            for it in marked:
                if self._is_gone(tree, it):
                    gone.append(it.path)
        finally:
            # Also where a signal asks for the end.
            self._note_deleted(rows, gone)
        return len(gone), len(batch) - len(gone) - outside, outside

    def _note_deleted(self, rows: List[Tuple[Found, Look]], gone: List[bytes]) -> None:
        """Notes which faxes are deleted, and puts back the rows of those that stay, not of what has gone otherwise."""
        self._table.are_deleted(gone)
        away = set(gone)
        left = [row for row in rows if row[0].path not in away
                and os.path.lexists(os.path.join(self._job.tree, row[0].path))]
        if left:
            self._table.put_back(left)
        self._note_whys()

    def _note_whys(self) -> None:
        """Notes in the table why faxes are not deleted."""
        if self._whys:
            self._table.stay(self._whys)
            self._whys.clear()

    def _keep(self, it: Compared, why: str) -> None:
        """Says why a fax is not deleted, and notes what a link leads to that stays."""
        self._stays(it.path, why)
        if it.depth:
            self._linked.add((it.fax.device, it.fax.inode))

    def _stays(self, path: bytes, why: str) -> None:
        """Says why a fax is not deleted, for the table too."""
        self._whys[path] = why
        name, _, more = why.partition(": ")
        say(f"{name}: {shown(path)}" + (f": {more}" if more else ""))

    def _lost(self, it: Compared) -> Optional[str]:
        """Whether a copy has gone, or changed, since it was compared; or a link leads to the fax, and stays."""
        assert self._target is not None
        if not it.depth and (it.fax.device, it.fax.inode) in self._linked:
            return "Linked"
        return None if all(files.is_as(self._target, *each) for each in self._copies(it)) else "NoCopy"

    def _is_marked(self, it: Compared) -> bool:
        """Whether the copy of a fax is marked as the only one."""
        assert self._target is not None
        for name, seen in self._copies(it):
            why = files.keep_only(self._target, name, seen, self._job.owner)
            if why is not None:
                self._keep(it, why)
                return False
        return True

    def _is_gone(self, tree: files.Root, it: Compared) -> bool:
        """Deletes a fax; whether it is gone."""
        why = files.delete(tree, it.path, it.fax, self._links, lambda: self._is_kept(it))
        if why is not None:
            self._keep(it, why)
        return why is None

    def _is_kept(self, it: Compared) -> bool:
        """Whether the copy of a fax stands, and is as it was compared."""
        assert self._target is not None
        return all(files.is_kept(self._target, *each) for each in self._copies(it))

    def _copies(self, it: Compared) -> List[Tuple[bytes, Seen]]:
        """The copy of a fax, and its fields, by their names below TARGET."""
        name = self._job.copy_of(it.path)
        return [(name, it.copy)] + ([(name + FIELDS, it.fields)] if it.fields is not None else [])


def done_of(words: argparse.Namespace, job: Job, batches: "engine.Batches") -> Iterator[List[Done]]:
    """What comes of all batches, by the engine that the words choose."""
    from . import _engine as engine

    if words.dask or words.scheduler is not None:
        return engine.by_dask(job, words.timeout, batches, words.scheduler, words.processes)
    return engine.by_processes(job, words.timeout, batches, words.processes or 1)


def counted(counts: Dict[int, int]) -> str:
    """How many faxes there are, by their statuses."""
    others = f", {counts[OTHER]} of other kinds" if counts[OTHER] else ""
    return (f"faxes {sum(counts.values())}: {counts[GOOD]} good, {counts[FAULTY]} faulty, "
            f"{counts[NOT_READ]} not read{others}")


def state_of(table: Table) -> str:
    """What a table says of itself: its job, its share, and its last run."""
    job, where, last = table.job() or {}, table.where(), table.last_run()
    share = job.get("share", [0, 1])
    part = f", share {share[0]}/{share[1]}" if share[1] > 1 else ""
    tree = shown(where.get("tree", "?"))
    if last is None:
        return f"no run of {job.get('job')} {tree}{part}"
    began = time.strftime("%Y-%m-%d %H:%M:%S", time.gmtime(last.began))
    return f"run {last.number}, {last.command} of {tree}{part}, began {began} UTC, {last.told()}"
