"""What a verification has done, beside what the model says."""

from __future__ import annotations

import hashlib
import os
import re
from typing import TYPE_CHECKING, Dict, List, NamedTuple, Optional, Set

from tests.archive.drawn.comparing import Before, Difference
from tests.archive.drawn.kept import CHANGED, NO_COPY, RIGHT
from tests.archive.drawn.model import FAULTY, GOOD, NOT_READ, Job, answers
from tests.archive.drawn.playing import Ran, Trouble

if TYPE_CHECKING:
    from tests.archive.drawn.operating import Episode

# What a refused call may have it say of a copy.
REFUSED = {"Read", "Open", NO_COPY, "WorkerDied"}


class Only(NamedTuple):
    """What a table says of an only copy: its digest and that of its fields, and what was found."""

    digest: Optional[str]
    fields: Optional[str]
    fault: str


def only_in(table: str) -> Dict[bytes, Only]:
    """The only copies that a table knows, by the paths of their faxes."""
    return {path: Only(*rest) for path, *rest in answers(
        table, "SELECT CAST(path AS BLOB), digest, fields_digest, iif(run = 0, 'NotVerified', ifnull(fault, '')) "
               "FROM only_copies")}


class Verification:
    """One verification: all that stood before it, its words, and how it ended."""

    def __init__(self, episode: Episode, job: Job, words: List[str], trouble: Trouble, before: Before,
                 ran: Ran) -> None:
        self.episode, self.job, self.words, self.trouble, self.before, self.ran = (
            episode, job, words, trouble, before, ran)
        self.kept = episode.model.kept_by(job.table)
        self.table = os.path.join(os.fsdecode(episode.world.tables), job.table)

    def claim(self, holds: bool, what: str) -> None:
        if not holds:
            raise Difference(f"verify: {what}")

    def all(self) -> None:
        """Compares all, and notes what was looked at."""
        self._nothing_else()
        if self.before.where is None or not self.job.to:
            self.claim(self.ran.status == NOT_READ or bool(self.trouble.at), f"status {self.ran.status} of no copies")
            return
        results = {path: kept.results(self.job, path, self.before.target, self.episode.other_user)
                   for path, kept in self.kept.sure.items()}
        if self.trouble.at or self.trouble.largest is not None:
            self._note_looked(results)
            return
        if not self.before.target and self._is_refused():
            return
        for path, before in self.kept.looked.items():
            results.setdefault(path, set()).update(before)
        found = only_in(self.table)
        self._known(found, results)
        self._told(found)
        if "--gone" in self.words:
            for path in set(self.kept.sure) - set(found):
                del self.kept.sure[path]
            self.kept.perhaps &= set(found)
        self.kept.looked.clear()

    def _is_refused(self) -> bool:
        """Whether nothing is looked at, since TARGET is empty, as one that is not mounted; not where nothing is due."""
        refused = self.ran.status == NOT_READ and "which is empty; nothing is changed" in self.ran.error
        known = bool(self.kept.sure or self.kept.perhaps or self.kept.others)
        self.claim(known if refused else set(self.kept.sure) <= set(self.kept.looked), f"an empty TARGET: {refused}")
        return refused

    def _nothing_else(self) -> None:
        """Nothing but the table has changed, and of that no row of a fax."""
        after, before = Before(self.episode.world, self.job, self.episode.other_user), self.before
        self.claim(self.ran.status not in (98, 99) and "Traceback" not in self.ran.error, "a traceback")
        for name in ("tree", "target", "outside", "rows", "originals", "deleted"):
            self.claim(getattr(before, name) == getattr(after, name), f"{name} changed")

    def _note_looked(self, results: Dict[bytes, Set[str]]) -> None:
        """What is not looked at again may be as it was found by now."""
        more = REFUSED if self.trouble.error is not None else set[str]()
        for path, found in results.items():
            self.kept.looked.setdefault(path, set()).update(found | more)
        if "--gone" in self.words:
            for path, found in results.items():
                if NO_COPY in found | more:
                    self.kept.doubt(path)

    def _known(self, found: Dict[bytes, Only], results: Dict[bytes, Set[str]]) -> None:
        """The table knows all only copies, with their digests and what is true of them, and no others."""
        gone = "--gone" in self.words
        for path, kept in self.kept.sure.items():
            forgotten = gone and NO_COPY in results[path]
            self.claim(path in found or forgotten, f"not looked at: {path!r}, of {sorted(found)}")
            if path not in found:
                continue
            its = found[path]
            self.claim(its.digest == hashlib.sha256(kept.data).hexdigest(), f"the digest of {path!r}")
            if kept.fields is not None:
                self.claim(its.fields == hashlib.sha256(kept.fields).hexdigest(), f"the digest of {path!r}.fields")
            self.claim(its.fault in results[path], f"{path!r} is {its.fault!r}, wanted {results[path]}")
        others = set(found) - set(self.kept.sure) - self.kept.perhaps
        self.claim(not others or self.kept.others, f"no only copies: {others}")
        self.claim(not gone or all(it.fault != NO_COPY for it in found.values()), "what is gone is not forgotten")

    def _told(self, found: Dict[bytes, Only]) -> None:
        """The status, the last line and the lines on the error stream say what the table says."""
        faults = [it.fault for it in found.values()]
        good, bad = faults.count(RIGHT), faults.count(CHANGED) + faults.count(NO_COPY)
        unread = len(faults) - good - bad
        wanted = NOT_READ if unread else FAULTY if bad else GOOD
        self.claim(self.ran.status == wanted, f"status {self.ran.status}, wanted {wanted}")
        line = re.escape(f"only copies {len(faults)}: {good} good, {bad} changed or gone, {unread} not read; ")
        done = re.fullmatch(line + r"(\d+) looked at now\n", self.ran.out)
        self.claim(done is not None, f"said {self.ran.out!r}, wanted {line}")
        assert done is not None
        most = len(found) if "--gone" not in self.words else len(set(self.kept.sure) | self.kept.perhaps)
        least = len(set(self.kept.sure) - set(self.kept.looked))
        self.claim(least <= int(done.group(1)) and (int(done.group(1)) <= most or self.kept.others),
                   f"{done.group(1)} looked at, wanted {least} to {most}")
        said = {} if "--names" not in self.words else dict(
            re.findall(r"^faxpages-archive: (.*): the only copy: (\w+)", self.ran.error, re.M))
        for path, its in found.items():
            name = ascii(os.fsdecode(path))[1:-1]
            self.claim(name not in said or said[name] == its.fault, f"said {name} is {said.get(name)}, not {its.fault}")
            told = name in said or its.fault == RIGHT or path in self.kept.looked or "--names" not in self.words
            self.claim(told, f"{name} is {its.fault}, and not said")
