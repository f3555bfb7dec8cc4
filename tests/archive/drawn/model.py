"""What faxpages-archive promises, as a plain model: which faxes there are, what comes of each, what may be written and
deleted. It looks at folders and at the rows of tables, and knows nothing of how the command does it."""

import contextlib
import hashlib
import json
import os
import sqlite3
import stat
from typing import Any, Dict, Iterable, List, NamedTuple, Optional, Set, Tuple

from tests.archive.drawn.contents import OTHER, OTHER_KINDS, Teller, Verdict
from tests.archive.drawn.kept import KeptOnes
from tests.archive.drawn.world import Entry, World, folded

ENDINGS = (b".tif", b".tiff")
GOOD, FAULTY, NOT_READ = 0, 1, 3
# The first version of tables that knows files of other kinds.
WITH_OTHERS = 3
# The first one that keeps sums of its rows; and the first one that knows salvaged copies.
WITH_SUMS, WITH_SALVAGED = 4, 5
# The row of a fax that has other bytes than before, and the same size and time.
TURNED = Verdict(FAULTY, "Changed")


class Job(NamedTuple):
    """A table, and what it is of."""

    table: str
    to: Tuple[str, ...] = ()
    follow: bool = False
    fields: bool = False
    share: Tuple[int, int] = (0, 1)
    folds: bool = False

    def copy_of(self, path: bytes) -> bytes:
        """The name of a copy; in a folder that folds case it is the copy of other names too."""
        return (folded(path) if self.folds else path) + (b".pbm" if self.to[0] == "pbm" else b"")

    def copies_of(self, path: bytes) -> Tuple[bytes, bytes]:
        """The names of a copy and of its fields."""
        return self.copy_of(path), self.copy_of(path) + b".fields"


class Words(NamedTuple):
    """The words of one run beside the job."""

    again: Optional[str] = None
    gone: bool = False
    delete: bool = False
    give_up: Tuple[str, ...] = ()
    adopt: bool = False
    faults_ok: bool = False
    whole: bool = False
    salvage: bool = False


class Fax(NamedTuple):
    """A fax as a run sees it: its bytes, or None where it cannot be opened; its size and times, its mode and owner,
    whether it stands in the tree itself, and whether another program writes it."""

    data: Optional[bytes]
    size: int
    mtime: float
    mtime_ns: int
    mode: int
    owner: Tuple[int, int]
    inside: bool
    written: bool = False


class Row(NamedTuple):
    """A row of a table, which run wrote it, and whether it is of a fax that stays though it was to be deleted, so that
    the table knows of no copy; whether its copy is a salvaged one, or nothing can be salvaged; and how many bad and
    lost rows it has."""

    size: int
    mtime: float
    verdict: Verdict
    lacks: Optional[str]
    run: int
    stays: bool = False
    salvaged: Optional[int] = None
    counts: Tuple[Optional[int], Optional[int]] = (None, None)


class Original(NamedTuple):
    """What a table keeps of a fax as it was read: its size, its time, and the digest of its bytes."""

    size: int
    mtime: float
    digest: bytes


class Stood(NamedTuple):
    """A copy and its fields as a table knows them: size, time, and bytes."""

    size: int
    mtime: int
    data: bytes


class Seen(NamedTuple):
    """A tree as a run sees it."""

    faxes: Dict[bytes, Fax]
    failed: int
    into_target: bool


def see(world: World, job: Job, other_user: bool) -> Seen:
    """The faxes of the tree, as root sees them, or as the other user, who owns all, and opens what its owner may."""
    faxes: Dict[bytes, Fax] = {}
    failed, into = 0, False
    target = os.path.realpath(world.target)
    waiting: List[Tuple[bytes, List[bytes], bool]] = [(b"", [], True)]
    while waiting:
        folder, above, inside = waiting.pop()
        whole = os.path.join(world.tree, folder)
        real = os.path.realpath(whole)
        if job.to and (real + b"/").startswith(target + b"/"):
            into = True
            continue
        if real in above:
            continue
        if other_user and os.stat(whole).st_mode & 0o500 != 0o500:
            failed += 1
            continue
        for name in os.listdir(whole):
            path = os.path.join(folder, name)
            kind = _kind(os.path.join(world.tree, path), job.follow)
            if kind == "folder":
                linked = os.path.islink(os.path.join(world.tree, path))
                waiting.append((path, above + [real] if job.follow else [], inside and not linked))
            elif kind == "lost" and not name.lower().endswith(ENDINGS):
                failed += 1
            elif kind in ("file", "lost") and name.lower().endswith(ENDINGS):
                faxes[path] = _fax(world, os.path.join(world.tree, path), kind, other_user, inside)
    return Seen(faxes, failed, into)


def _kind(path: bytes, follow: bool) -> str:
    told = os.lstat(path)
    if stat.S_ISLNK(told.st_mode):
        if not follow:
            return "link"
        try:
            told = os.stat(path)
        except OSError:
            return "lost"
    return "folder" if stat.S_ISDIR(told.st_mode) else "file" if stat.S_ISREG(told.st_mode) else "pipe"


def _fax(world: World, path: bytes, kind: str, other_user: bool, inside: bool) -> Fax:
    told = os.lstat(path) if kind == "lost" else os.stat(path)
    data = None
    if kind == "file" and not (other_user and not told.st_mode & 0o400):
        with open(path, "rb") as file:
            data = file.read()
    return Fax(data, told.st_size, told.st_mtime, told.st_mtime_ns,
               stat.S_IMODE(told.st_mode), (told.st_uid, told.st_gid), inside, world.is_written(told))


# The rows of a table by their paths, and its last run: its number, its words, whether all was read by then, and whether it
# has ended.
Table = Tuple[Dict[bytes, Row], Optional[Tuple[int, str, bool, bool]]]


def answers(table: str, query: str) -> List[Tuple[Any, ...]]:
    """The rows of a query; none where there is no table, or it has none of what is asked for."""
    if not os.path.exists(table):
        return []
    with contextlib.closing(sqlite3.connect(table)) as base, contextlib.suppress(sqlite3.OperationalError):
        return base.execute(query).fetchall()
    return []


def rows_of(table: str) -> Table:
    """What a table says."""
    later = "salvaged, bad_rows, lost_rows" if version_of(table) >= WITH_SALVAGED else "NULL, NULL, NULL"
    found = answers(table, "SELECT CAST(path AS BLOB), size, mtime, status, fault, fault_page, fault_row, fault_tag, "
                         f"lacks, run, status = 0 AND path NOT IN (SELECT path FROM copies), {later} "
                         "FROM faxes JOIN times USING (path)")
    last = answers(table, "SELECT number, words, ended IS NOT NULL AND NOT unread, ended IS NOT NULL FROM runs "
                        "ORDER BY number DESC LIMIT 1")
    rows = {row[0]: Row(row[1], row[2], Verdict(*row[3:8]), row[8], row[9], bool(row[10]), row[11],
                        (row[12], row[13])) for row in found}
    if version_of(table) < WITH_OTHERS:
        rows = {path: row._replace(verdict=_of_other_kinds(row.verdict)) for path, row in rows.items()}
    return rows, (last[0][0], last[0][1], bool(last[0][2]), bool(last[0][3])) if last else None


def _of_other_kinds(verdict: Verdict) -> Verdict:
    """What a later version makes of the verdict of an earlier one, which called files of other kinds faulty."""
    return verdict._replace(status=OTHER) if verdict.status == FAULTY and verdict.fault in OTHER_KINDS else verdict


def version_of(table: str) -> int:
    """Which version of tables a table is of."""
    found = answers(table, "PRAGMA user_version")
    return int(found[0][0]) if found else 0


def originals_of(table: str) -> Dict[bytes, Original]:
    """What a table keeps of faxes as they were read."""
    return {path: Original(size, mtime, bytes(digest)) for path, size, mtime, digest in answers(
        table, "SELECT CAST(path AS BLOB), size, mtime, digest FROM originals WHERE digest IS NOT NULL")}


def deleted_in(table: str) -> int:
    """How many faxes a table says were deleted."""
    found = answers(table, "SELECT count(*) FROM deleted")
    return int(found[0][0]) if found else 0


def about_to_go(table: str) -> Set[bytes]:
    """The faxes of which a table says that they were to be deleted, and not that they are gone."""
    return {path for (path,) in answers(table, "SELECT CAST(path AS BLOB) FROM deleted WHERE deleted = 0")}


def knows_copies(table: str) -> bool:
    """Whether a table knows copies of its own, be their faxes there or not."""
    return any(answers(table, f"SELECT 1 FROM {rows} LIMIT 1") for rows in ("copies WHERE ours", "only_copies"))


def where_in(table: str) -> Optional[bytes]:
    """Where a table says that its tree stands."""
    found = answers(table, "SELECT value FROM job WHERE name = 'where'")
    return json.loads(found[0][0])["tree"].encode("utf-8", "surrogateescape") if found else None


def has_turned(fax: Fax, known: Optional[Original]) -> bool:
    """Whether a fax has other bytes than are known of it, though it has the same size and time of change."""
    return known is not None and fax.data is not None and known[:2] == (fax.size, fax.mtime) and (
        hashlib.sha256(fax.data).digest() != known.digest)


def status_of(statuses: Iterable[int]) -> int:
    """The status of a run over faxes with these."""
    worst = max(statuses, default=GOOD)
    return FAULTY if worst == OTHER else worst


class Model:
    """What is known of one episode: what each table wrote and still owns, and the copies as its rows know them."""

    def __init__(self, teller: Teller) -> None:
        self.teller = teller
        self.ours: Dict[str, Dict[bytes, bytes]] = {}
        self.maybe: Dict[str, Set[bytes]] = {}
        self.stood: Dict[str, Dict[bytes, Stood]] = {}
        # The copies whose faxes are gone for sure: nothing replaces them, whatever a table says.
        self.only: Dict[bytes, bytes] = {}
        # The fax whose copy stands in a place, which others have too whose names differ by case alone.
        self.holder: Dict[bytes, bytes] = {}
        # All that was written into a place, or taken over, by any table.
        self.written: Dict[bytes, Set[bytes]] = {}
        # The only copies that each table knows; and those that the next run has to mark, since a version before 1.6 did
        # not: the names of the copies, and their bytes, by the paths of the faxes.
        self.kept: Dict[str, KeptOnes] = {}
        self.left: Dict[str, Dict[bytes, Tuple[bytes, bytes]]] = {}

    def kept_by(self, table: str) -> KeptOnes:
        """The only copies that a table knows."""
        return self.kept.setdefault(table, KeptOnes())

    def owned(self, job: Job, name: bytes) -> Optional[bytes]:
        return self.ours.setdefault(job.table, {}).get(name)

    def wanted(self, world: World, job: Job, path: bytes, fax: Fax) -> Dict[bytes, bytes]:
        """What is to stand below the target for a good fax, by its names."""
        assert fax.data is not None
        name = job.copy_of(path)
        found = {name: self.teller.copy(fax.data, job.to)}
        if job.fields:
            found[name + b".fields"] = self.teller.fields(fax.data, os.path.join(world.tree, path))
        return found

    def salvaged(self, job: Job, path: bytes, fax: Fax) -> Dict[bytes, bytes]:
        """What is to stand below the target for a faulty fax that is salvaged, by its name; nothing of some."""
        if not job.to or fax.data is None or self.teller.verdict(fax.data).status != FAULTY:
            return {}
        data = self.teller.salvaged(fax.data, job.to)
        return {job.copy_of(path): data} if data is not None else {}

    def is_whole(self, job: Job, name: bytes) -> bool:
        """Whether a table has written a copy that is no salvaged one into a place."""
        owned = self.owned(job, name)
        return owned is not None and owned not in self.teller.pieces

    def may_replace(self, job: Job, name: bytes, there: Optional[Entry], wanted: bytes) -> bool:
        """Whether what stands in a place may be replaced."""
        if there is None:
            return True
        if there.kind != "file":
            return False
        owned = self.owned(job, name)
        return owned is not None and (there.data == owned or (
            len(there.data) < len(wanted) and wanted.startswith(there.data)))

    def was_copy(self, name: bytes, there: Optional[Entry], wanted: bytes) -> bool:
        """Whether what stands in a place was written there by a table, or is the first bytes of what is wanted."""
        return there is not None and there.kind == "file" and (
            there.data in self.written.get(name, ()) or wanted.startswith(there.data))

    def stands(self, job: Job, name: bytes, target: Dict[bytes, Entry]) -> bool:
        """Whether a copy has the size and the time that its row knows."""
        known, there = self.stood.setdefault(job.table, {}).get(name), target.get(name)
        return known is not None and there is not None and there.kind == "file" and (
            (len(there.data), there.mtime) == (known.size, known.mtime))

    def is_due(self, world: World, job: Job, words: Words, path: bytes, fax: Fax, row: Optional[Row], number: int,
               target: Dict[bytes, Entry]) -> bool:
        """Whether a fax is done by a run of this number."""
        if row is None or (row.size, row.mtime) != (fax.size, fax.mtime):
            return True
        least = {None: 3, "unread": 3, "faulty": 1, "copies": 0, "all": 0}[words.again]
        spared = words.again == "copies" and row.verdict.status in (FAULTY, OTHER)
        spared = spared and not (words.salvage and row.salvaged)
        if row.verdict.status >= least and not spared and row.run != number:
            return True
        name = job.copy_of(path) if job.to else b""
        if words.salvage and row.verdict.status == FAULTY and row.salvaged != 0:
            return not self.stands(job, name, target) and row.run != number
        if not job.to or row.verdict.status != GOOD:
            return False
        return not self.stands(job, name, target) or (
            job.fields and not self.stands(job, name + b".fields", target))

    def outcome(self, world: World, job: Job, words: Words, path: bytes, fax: Fax, target: Dict[bytes, Entry],
                turned: bool) -> Verdict:
        """What comes of a fax that is done; of one whose bits have turned nothing is written. Of a faulty one something
        is if it is salvaged, and no whole copy stands there."""
        if fax.data is None:
            return Verdict(NOT_READ, "Open")
        verdict = self.teller.verdict(fax.data)
        if turned and not verdict.status:
            return TURNED
        wanted = self.wanted(world, job, path, fax) if job.to and not verdict.status else dict[bytes, bytes]()
        if words.salvage and not turned and not self.is_whole(job, job.copy_of(path)):
            wanted.update(self.salvaged(job, path, fax))
        if not wanted:
            return verdict
        folder = os.path.dirname(job.copy_of(path))
        while folder:
            if folder in target and target[folder].kind != "folder":
                return Verdict(NOT_READ, "Write")
            folder = os.path.dirname(folder)
        for name, data in wanted.items():
            there = target.get(name)
            same = there is not None and there.kind == "file" and there.data == data
            if not same and not self.may_replace(job, name, there, data):
                return Verdict(NOT_READ, "Exists")
        return verdict

    def is_proven(self, job: Job, words: Words, path: bytes, fax: Fax, row: Optional[Row],
                  target: Dict[bytes, Entry]) -> bool:
        """Whether a copy is as it was written, so that it is left as it stands."""
        if row is None or (row.size, row.mtime, row.verdict.status) != (
                fax.size, fax.mtime, GOOD) or words.again == "all":
            return False
        names = [job.copy_of(path)] + ([job.copy_of(path) + b".fields"] if job.fields else [])
        return all(self._is_as_written(job, name, target) for name in names)

    def _is_as_written(self, job: Job, name: bytes, target: Dict[bytes, Entry]) -> bool:
        there = target.get(name)
        return there is not None and there.kind == "file" and there.data == self.owned(job, name) and (
            name in self.stood.setdefault(job.table, {}))
