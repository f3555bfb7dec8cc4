"""Tables whose bytes turn: a command says so and does nothing, or nothing of what it takes from them has changed; and
what is made anew knows what the copies and what is left of the table say."""

from __future__ import annotations

import contextlib
import hashlib
import json
import os
import random
import signal
import sqlite3
from typing import TYPE_CHECKING, Any, Dict, List, Optional, Set, Tuple

from tests.archive.drawn import playing
from tests.archive.drawn.comparing import Before, Comparison, Difference
from tests.archive.drawn.model import NOT_READ, WITH_SUMS, Job, Words, version_of
from tests.archive.drawn.playing import Ran, Trouble
from tests.archive.drawn.verified import Verification
from tests.archive.drawn.world import snapshot

if TYPE_CHECKING:
    from tests.archive.drawn.operating import Episode

# What sums say of a table, and what they do not.
COVERED = {"faxes": "*", "times": "*", "copies": "*", "originals": "*", "job": "*",
           "only_copies": "path, digest, fields_digest", "runs": "max(number), command, words, began, ended, unread",
           "sqlite_master": "type, name, tbl_name, sql"}
OTHERS = {"runs": "*", "deleted": "*", "only_copies": "*"}
# The bytes at the beginning that are of the file and not of a table.
HEAD = 100
# What is said of a table that is no more what it was.
SAID = ("is damaged: ", "is a database of another program, or of a later version", "file is not a database")
ONLY, COPY = "user.faxpages.only", "user.faxpages.copy"
Rows = Dict[str, List[str]]


def turned(rng: random.Random, data: bytes) -> bytes:
    """A table some bits of which have turned, mostly of bytes that are not 0, as those are that nothing uses."""
    found, used = bytearray(data), [place for place, byte in enumerate(data) if byte]
    for _ in range(rng.choice([1, 1, 1, 4, 30])):
        way = rng.random()
        place = rng.randrange(HEAD) if way < 0.1 else rng.randrange(len(found)) if way < 0.3 else rng.choice(used)
        found[place] ^= 1 << rng.randrange(8)
    return bytes(found)


def all_of(table: str, what: Dict[str, str]) -> Optional[Rows]:
    """All rows of some tables; nothing where they cannot be read, or an index says something else."""
    try:
        with contextlib.closing(sqlite3.connect(f"file:{table}?mode=ro&immutable=1", uri=True)) as base:
            base.text_factory = bytes
            if base.execute("PRAGMA integrity_check").fetchone()[0] != b"ok":
                return None
            return {name: sorted(map(repr, base.execute(f"SELECT {columns} FROM {name} NOT INDEXED")))
                    for name, columns in what.items() if name == "sqlite_master" or _has(base, name)}
    except (sqlite3.Error, UnicodeDecodeError):
        return None


def _has(base: sqlite3.Connection, name: str) -> bool:
    return base.execute("SELECT 1 FROM sqlite_master WHERE name = ?", (name,)).fetchone() is not None


def numbers_in(table: str) -> Optional[Set[str]]:
    """The number of a table, and of those that it was merged of; nothing where they cannot be read."""
    try:
        with contextlib.closing(sqlite3.connect(f"file:{table}?mode=ro&immutable=1", uri=True)) as base:
            found: Dict[str, Any] = dict(base.execute("SELECT name, value FROM job NOT INDEXED"))
            return {str(found["table"]), *json.loads(found.get("parts", "[]"))}
    except (sqlite3.Error, UnicodeDecodeError, KeyError, ValueError, TypeError):
        return None


def put(path: str, data: bytes) -> None:
    with open(path, "wb") as file:
        file.write(data)


class Damage:
    """A table some of whose bits turn, a command over it, and what an administrator does then."""

    def __init__(self, episode: Episode, job: Job) -> None:
        self.episode, self.job, self.rng = episode, job, episode.rng
        self.world, self.model = episode.world, episode.model
        self.name = os.path.join(os.fsdecode(self.world.tables), job.table)
        with open(self.name, "rb") as file:
            self.whole = file.read()
        self.before = Before(self.world, job, episode.other_user)
        self.hurt = turned(self.rng, self.whole)
        self.rows, self.others = all_of(self.name, COVERED), all_of(self.name, OTHERS)
        self.numbers = numbers_in(self.name)
        # A table of 1.5.2 keeps no sums: of what turns in one, that is found by which it is no whole database.
        self.has_sums = version_of(self.name) >= WITH_SUMS

    def claim(self, holds: bool, what: str) -> None:
        if not holds:
            raise Difference(f"damaged table: {what}")

    def do(self) -> None:
        """Has it be so, and compares what comes of it."""
        put(self.name, self.hurt)
        rows, others = all_of(self.name, COVERED), all_of(self.name, OTHERS)
        same = self.rows == rows, self.others == others
        if not self.has_sums and rows is not None:
            same = True, all(same)
        readable = numbers_in(self.name) == self.numbers and self.numbers is not None
        way = self.rng.choice(["table", "run", "run"] + (["verify"] if self.job.to else []))
        words = self.episode.words(self.job)
        given = {"table": ["table", self.name, "--csv"], "run": self.episode.given(self.job, words),
                 "verify": self.episode.verifying(self.job)}[way]
        ran = self._run(given, Trouble(other_user=self.episode.other_user))
        if ran.status == NOT_READ and any(it in ran.error for it in SAID):
            self._nothing_done(ran)
            if SAID[0] not in ran.error or way == "table" or self.rng.random() < 0.5:
                put(self.name, self.whole)
            else:
                self._renew(words._replace(gone=True), readable)
            return
        self.claim(same[0], f"{way}: it is believed: status {ran.status}, {ran.error!r}")
        if not same[1]:
            self._others_believed(way, words, ran)
        elif way == "table":
            wanted = 0 if self.before.last is not None and self.before.last[2] else NOT_READ
            self.claim(ran.status == wanted, f"table: status {ran.status}, wanted {wanted}: {ran.error!r}")
            put(self.name, self.whole)
        elif way == "verify":
            Verification(self.episode, self.job, given, Trouble(), self.before, ran).all()
        else:
            Comparison(self.episode, self.job, words, Trouble(), self.before, ran).all()

    def _run(self, given: List[str], trouble: Trouble) -> Ran:
        self.episode.log.append(f"over a table that has turned: {' '.join(map(ascii, given))} {trouble}")
        ran = playing.run(given, os.fsdecode(self.world.folder), trouble)
        self.episode.log.append(f"    {ran.status} {ran.out!r} {ran.error!r}")
        return ran

    def _nothing_done(self, ran: Ran) -> None:
        """A command that says that a table is damaged has changed nothing, and says it in a line."""
        world, before = self.world, self.before
        self.claim(ran.error.count("\n") == 1 and not ran.out, f"said {ran.error!r}")
        with open(self.name, "rb") as file:
            self.claim(file.read() == self.hurt, "the table was written")
        for name, folder in (("tree", world.tree), ("outside", world.outside)):
            self.claim(getattr(before, name) == snapshot(folder), f"{name} changed")
        self.claim(before.target == Before(world, self.job, False, "").target, "the target changed")

    def _others_believed(self, way: str, words: Words, ran: Ran) -> None:
        """What no sum says has turned: whatever a run makes of it, it deletes and replaces nothing that it may not. The
        table is put back, and what is whose since is not known."""
        self.claim(ran.status not in (98, 99) and "Traceback" not in ran.error, "a traceback")
        if way == "run":
            comparison = Comparison(self.episode, self.job, words, Trouble(at=1), self.before, ran)
            comparison.safe()
        put(self.name, self.whole)
        self.episode.forget_whose(self.job)

    def _renew(self, words: Words, readable: bool) -> None:
        """Has the table be made anew, at times by a run that is killed and another one."""
        self._take_over(readable)
        given = [*self.episode.given(self.job, words), "--renew"]
        nothing = Before(self.world, self.job, self.episode.other_user, "")
        if self.rng.random() < 0.4:
            trouble = Trouble(self.rng.randint(1, 20), kill=signal.SIGKILL, other_user=self.episode.other_user)
            ran = self._run(given, trouble)
            with open(self.name, "rb") as file:
                still = file.read() == self.hurt
            if not still:
                Comparison(self.episode, self.job, words, trouble, nothing, ran).all()
                nothing = Before(self.world, self.job, self.episode.other_user)
        trouble = Trouble(other_user=self.episode.other_user)
        ran = self._run(given, trouble)
        Comparison(self.episode, self.job, words, trouble, nothing, ran).all()
        folder, left = os.path.dirname(self.name), f"{self.job.table}-damaged"
        with open(os.path.join(folder, left), "rb") as file:
            self.claim(file.read() == self.hurt, "what is kept of it is another")
        os.unlink(os.path.join(folder, left))
        known = {self.job.table + end for end in ("", "-lock", "-backup", "-journal", "-damaged-journal")}
        others = {it for it in os.listdir(folder) if it.startswith(self.job.table)} - known
        self.claim(not others, f"left: {others}")

    def _take_over(self, readable: bool) -> None:
        """What the new table knows: whose the copies are, and which are the only ones, by their marks."""
        job, model, target = self.job, self.model, snapshot(self.world.target)
        model.stood[job.table] = {}
        if not job.to:
            return
        ours, maybe = model.ours.setdefault(job.table, {}), model.maybe.setdefault(job.table, set())
        for name in {*target, *ours}:
            number, digest = self._mark(name, COPY)
            same = name in ours and hashlib.sha256(ours[name]).hexdigest() == digest
            if not readable or not same or number not in (self.numbers or ()) or job.folds:
                maybe.add(name)
        kept = model.kept_by(job.table)
        kept.others = kept.others or not readable or job.folds
        kept.looked.clear()
        for path, its in list(kept.sure.items()):
            number, digest = self._mark(job.copy_of(path), ONLY)
            marked = number in (self.numbers or ()) and digest == hashlib.sha256(its.data).hexdigest()
            if readable and marked and not job.folds:
                kept.keep(path, its._replace(fields=None, perhaps=True))
            else:
                kept.doubt(path)

    def _mark(self, name: bytes, attribute: str) -> Tuple[str, str]:
        """The number and the digest that a mark at a file below the target has."""
        try:
            path = os.path.join(self.world.target, name)
            words = os.getxattr(path, attribute, follow_symlinks=False).decode().split()
            return words[0], words[1] if len(words) > 1 else ""
        except OSError:
            return "", ""
