"""The table of an archive, in SQLite: a row for each fax, what is known of its copy, and the runs that were at it."""

from __future__ import annotations

import heapq
import json
import os
import time
from typing import Any, Callable, Dict, Iterator, List, NamedTuple, Optional, Sequence, Set, Tuple

from ._database import COLUMNS, PUT_COPY, Path, WrongTable, bytes_of, kept_path, sum_of, text_of
from ._fax import FAULTY, GOOD, NOT_READ, OTHER, Done, Found, Job, Waiting
from ._files import Seen, Stood
from ._marks import Owner
from ._only_copies import COPIED, OnlyCopies

# How many rows are read at a time.
_READ = 1000
# How many faxes are deleted at a time, with one commit before.
_DELETED = 512
# Its values are path, since, checked, run, origin, status, fault, fault_page and fault_row.
_PUT_TIME = """
INSERT INTO times VALUES (?1, ?2, ?3, ?4, ?5) ON CONFLICT (path) DO UPDATE SET
    checked = excluded.checked, run = excluded.run, origin = excluded.origin,
    since = CASE WHEN EXISTS (
        SELECT 1 FROM faxes WHERE path = ?1 AND status IS ?6 AND fault IS ?7
            AND fault_page IS ?8 AND fault_row IS ?9) THEN min(since, excluded.since)
    ELSE excluded.since END
"""
_PUT_ORIGINAL = ("INSERT INTO originals VALUES (?, ?, ?, ?, 0) ON CONFLICT (path) DO UPDATE SET "
                 "size = excluded.size, mtime = excluded.mtime, digest = excluded.digest")
_PUT = (f"INSERT INTO faxes VALUES ({', '.join('?' * len(COLUMNS))}) ON CONFLICT (path) DO UPDATE SET "
        + ", ".join(f"{name} = excluded.{name}" for name in COLUMNS[1:]))


class Known(NamedTuple):
    """What a table knows of a fax."""

    number: int
    size: int
    mtime: float
    status: int
    salvaged: Optional[int]


class Look(NamedTuple):
    """When a fax was looked at last, by which run of which table, and since when it is as it is."""

    since: float
    checked: float
    run: int
    origin: str


class Copied(NamedTuple):
    """What a table knows of the copy of a fax, and of the copy's fields."""

    copy: Stood
    fields: Optional[Stood]

    def known(self) -> Tuple[str, str]:
        """The digests of what may be written over."""
        return (self.copy.digest if self.copy.ours else "",
                self.fields.digest if self.fields is not None and self.fields.ours else "")


class Compared(NamedTuple):
    """A fax that was compared with its copy: its path, what it, the copy and the copy's fields are known by, and how
    many links lead from its name to a file."""

    path: bytes
    fax: Seen
    copy: Seen
    fields: Optional[Seen]
    depth: int = 0


# A row, when its fax was looked at, and the values of what is known of its copy and of its digest.
Whole = Tuple[Found, Look, Optional[Tuple[Any, ...]], Optional[Tuple[Any, ...]]]


class Runs(NamedTuple):
    """A run: its number, its command and words, when it began and ended, and how many folders it could not read."""

    number: int
    command: str
    words: str
    began: float
    ended: Optional[float]
    unread: int

    def finished(self) -> bool:
        """Whether it went to its end, and read all folders."""
        return self.ended is not None and not self.unread

    def told(self) -> str:
        """How it ended."""
        if self.ended is None:
            return "not finished"
        return "finished" if not self.unread else f"{self.unread} folders or parts not read"


class Table(OnlyCopies):
    """A table that is open."""

    def __enter__(self) -> "Table":
        return self

    def number(self) -> str:
        """The number of the table, by which its rows and its copies are known."""
        return self._value("table") or ""

    def owner(self) -> Owner:
        """Whose copies are ours: those of this table, and of the parts that it was merged of, which its rows name until
        they are noted. A row is of this table once it has been looked at again."""
        noted = self._value("parts")
        found = set(json.loads(noted or "[]")) | {
            str(it) for (it,) in self._base.execute("SELECT DISTINCT origin FROM times") if it}
        parts = sorted(found - {self.number()})
        if json.dumps(parts) != noted:
            self.begin()
            self._base.execute("INSERT OR REPLACE INTO job VALUES ('parts', ?)", (json.dumps(parts),))
        return Owner(self.number(), frozenset(parts))

    def take_parts(self, numbers: Set[str]) -> None:
        """Notes that the copies of the tables with these numbers are ours."""
        self.begin()
        self._base.execute("INSERT OR REPLACE INTO job VALUES ('parts', ?)", (json.dumps(sorted(numbers)),))

    def take_parts_of(self, part: "Table") -> None:
        """Notes the number of a part, and those of its own parts, also where none of its rows is left."""
        noted = {str(it) for table in (self, part) for it in json.loads(table._value("parts") or "[]")}
        self.take_parts((noted | {part.number()}) - {self.number(), ""})

    def job(self) -> Optional[Dict[str, Any]]:
        """Which job the table is of, or None where it is new."""
        told = self._value("job")
        return dict(json.loads(told)) if told is not None else None

    def where(self) -> Dict[str, str]:
        """The tree of the table, and its target, as they were named last."""
        return dict(json.loads(self._value("where") or "{}"))

    def set_job(self, job: Dict[str, Any], where: Dict[str, str]) -> None:
        """Notes which job the table is of, and refuses another one than before; and where the tree stands now."""
        before = self.job()
        if before is not None and before != job:
            raise WrongTable(f"{self.name} is of another job: {json.dumps(before)}, not {json.dumps(job)}")
        self.begin()
        self._base.executemany("INSERT OR REPLACE INTO job VALUES (?, ?)", [
            ("job", json.dumps(job)), ("where", json.dumps(where))])

    def last_run(self) -> Optional[Runs]:
        """The last run."""
        for row in self._base.execute("SELECT * FROM runs ORDER BY number DESC LIMIT 1"):
            return Runs(*row)
        return None

    def next_run(self, command: str, words: str) -> int:
        """The number of a run by these words: that of the last one, if it was by these and has not finished."""
        last = self.last_run()
        if last is None:
            return 1
        return last.number + ((last.command, last.words) != (command, words) or last.ended is not None)

    def begin_run(self, number: int, command: str, words: str) -> None:
        """Notes that a run is at work, or again."""
        self.begin()
        self._base.execute("INSERT OR IGNORE INTO runs VALUES (?, ?, ?, ?, NULL, 0)",
                           (number, command, words, time.time()))

    def end_run(self, number: int, unread: int) -> None:
        """Notes that a run went to its end."""
        self.begin()
        self._base.execute("UPDATE runs SET ended = ?, unread = ? WHERE number = ?", (time.time(), unread, number))

    def known(self, path: bytes) -> Optional[Known]:
        """What the table knows of a fax."""
        query = "SELECT rowid, size, mtime, status, salvaged FROM faxes WHERE path = ?"
        for row in self._base.execute(query, (kept_path(path),)):
            return Known(*row)
        return None

    def why(self, path: bytes) -> Tuple[Optional[str], Optional[float], int]:
        """The fault of a fax, how long it took, and which run looked at it last."""
        found = self._base.execute("SELECT fault, seconds, run FROM faxes JOIN times USING (path) WHERE path = ?",
                                   (kept_path(path),))
        for fault, seconds, run in found:
            return fault, seconds, run
        return None, None, 0

    def is_counted(self, path: bytes) -> bool:
        """Whether it is known how many rows of a fax are lost."""
        found = self._base.execute("SELECT lost FROM faxes WHERE path = ?", (kept_path(path),)).fetchone()
        return found is not None and found[0] is not None

    def rows_left(self) -> Tuple[Optional[int], Optional[int]]:
        """How many rows of all faulty faxes are left, and lost; of none nothing is known."""
        found, lost = self._base.execute("SELECT sum(found), sum(lost) FROM faxes").fetchone()
        return found, lost

    def row_counts(self) -> Dict[str, Optional[int]]:
        """How many bad rows receivers counted, and how many rows are lost; how many faxes have such rows; and of how
        many faxes that is not known. Where it is known of none, there is no sum."""
        told: Dict[str, Optional[int]] = {}
        for name, where in (("bad_rows", "width IS NOT NULL"), ("lost_rows", f"status IN ({GOOD}, {FAULTY})")):
            rows, faxes, unknown = self._base.execute(
                f"SELECT iif(count({name}), CAST(total({name}) AS INTEGER), NULL), count(nullif({name}, 0)), "
                f"ifnull(sum({name} IS NULL AND {where}), 0) FROM faxes").fetchone()
            told.update({name: rows, f"{name}_faxes": faxes, f"{name}_unknown": unknown})
        return told

    def copied(self, path: bytes) -> Optional[Copied]:
        """What the table knows of the copy of a fax."""
        for row in self._base.execute("SELECT * FROM copies WHERE path = ?", (kept_path(path),)):
            fields = Stood(row[5], row[6], row[7], bool(row[8])) if row[7] is not None else None
            return Copied(Stood(row[1], row[2], row[3], bool(row[4])), fields)
        return None

    def digest(self, fax: Waiting) -> bytes:
        """The digest of a fax as it was read before with this size and time; nothing where none is known."""
        found = self._base.execute("SELECT digest FROM originals WHERE path = ? AND size = ? AND mtime = ?",
                                   (kept_path(fax.path), fax.size, fax.mtime)).fetchone()
        return bytes(found[0] or b"") if found is not None else b""

    def last(self) -> int:
        """The greatest number of a row."""
        (last,) = self._base.execute("SELECT ifnull(max(rowid), 0) FROM faxes").fetchone()
        return int(last)

    def count(self) -> int:
        """How many rows there are."""
        (count,) = self._base.execute("SELECT count(*) FROM faxes").fetchone()
        return int(count)

    def count_deleted(self) -> int:
        """How many faxes were deleted after they had been copied."""
        (count,) = self._base.execute("SELECT count(*) FROM deleted WHERE deleted > 0").fetchone()
        return int(count)

    def was_deleted(self, fax: Waiting) -> bool:
        """Whether a fax of this name, size and time was deleted, or was about to be."""
        found = self._base.execute("SELECT 1 FROM deleted WHERE path = ? AND size = ? AND mtime = ?",
                                   (kept_path(fax.path), fax.size, fax.mtime)).fetchone()
        return found is not None

    def put(self, done: List[Done], run: int, origin: str) -> None:
        """Writes what came of faxes, each in place of an older row of its path. A copy that is known stays known where
        none is written."""
        now = time.time()
        look = Look(now, now, run, origin)
        self._put([(one.found, look) for one in done], not self._is_new)
        if self._is_new:
            self._base.executemany("INSERT INTO originals VALUES (?, ?, ?, ?, ?)", (
                (*_original(one), _sum_of(one, look)) for one in done))
        else:
            self._base.executemany(_PUT_ORIGINAL, (_original(one) for one in done if one.digest))
        copies = [one for one in done if one.copy is not None]
        self.drop_only([one.found.path for one in copies if one.copy is not None and one.copy.ours
                        and not one.found.salvaged])
        self._base.executemany(PUT_COPY, (
            (kept_path(one.found.path), *(one.copy or ()), *(one.fields or (None,) * 4)) for one in copies))

    def _put(self, rows: List[Tuple[Found, Look]], touched: bool = True) -> None:
        self.begin()
        self._base.executemany(_PUT_TIME, (
            (kept_path(row.path), *look, row.status, row.fault, row.fault_page, row.fault_row) for row, look in rows))
        if touched:
            self._is_new = False
            self.touch(kept_path(row.path) for row, _ in rows)
        self._base.executemany(_PUT, ((kept_path(row.path), *row[1:]) for row, _ in rows))

    def unseen(self, seen: bytearray) -> Iterator[bytes]:
        """The faxes whose rows, by their numbers, were not seen."""
        for number, path in self._base.execute("SELECT rowid, path FROM faxes WHERE rowid < ?", (len(seen),)):
            if not seen[number]:
                yield bytes_of(path)

    def forget(self, paths: List[bytes]) -> None:
        """Takes out the rows of these faxes, and what is known of their copies."""
        self.begin()
        kept = [(kept_path(path),) for path in paths]
        for name in ("faxes", "times", "copies", "originals"):
            self._base.executemany(f"DELETE FROM {name} WHERE path = ?", kept)

    def forget_copies(self, paths: List[bytes]) -> None:
        """Takes out what is known of the copies of these faxes."""
        self.begin()
        for change in ("DELETE FROM copies", "UPDATE faxes SET salvaged = NULL"):
            self._base.executemany(f"{change} WHERE path = ?", ((kept_path(path),) for path in paths))
        self.touch(map(kept_path, paths))

    def not_marked(self) -> List[bytes]:
        """The faxes that have gone, and whose copies could not be marked as the only ones."""
        found = self._base.execute("SELECT path FROM faxes WHERE status = ? AND fault = 'NoMark'", (NOT_READ,))
        return [bytes_of(path) for (path,) in found]

    def are_not_marked(self, whys: Dict[bytes, str], run: int, origin: str) -> int:
        """Notes of these faxes that they have gone, and why their copies cannot be marked. How many of them were due,
        since others have their names, and are so no more."""
        now = time.time()
        rows = [(row._replace(status=NOT_READ, fault="NoMark", fault_page=None, fault_row=None, fault_tag=None,
                              why=whys[path]), Look(now, now, run, origin))
                for path in whys for row, _ in self._row(path)]
        self._put(rows)
        return sum(self._base.execute("DELETE FROM waiting WHERE path = ?", (path,)).rowcount for path in whys)

    def forget_deleted(self, paths: List[bytes]) -> List[Tuple[Found, Look]]:
        """Takes out the rows of faxes that are about to be deleted, and keeps their sizes and times. Committed. The
        time of their deletion is 0 until it is known that they are gone. The rows, to be put back where a fax
        stays."""
        self.begin()
        rows = [row for path in paths for row in self._row(path)]
        self._base.executemany(
            "DELETE FROM deleted WHERE (path, size, mtime) IN (SELECT path, size, mtime FROM faxes WHERE path = ?)",
            ((kept_path(path),) for path in paths))
        self._base.executemany(
            "INSERT INTO deleted SELECT path, faxes.size, faxes.mtime, digest, ? FROM faxes JOIN copies USING (path) "
            "WHERE path = ?", ((0, kept_path(path)) for path in paths))
        self.keep_only((path, None, None) for path in paths)
        self.forget(paths)
        self.commit_all()
        return rows

    def _row(self, path: bytes) -> Iterator[Tuple[Found, Look]]:
        """The row of a fax, if there is one, with the look at it."""
        names = ", ".join(COLUMNS[1:])
        query = f"SELECT since, checked, run, origin, {names} FROM faxes JOIN times USING (path) WHERE path = ?"
        for row in self._base.execute(query, (kept_path(path),)):
            yield Found(path, *row[4:]), Look(*row[:4])

    def put_back(self, rows: List[Tuple[Found, Look]]) -> None:
        """Puts back the rows of faxes that were about to be deleted and stay. What was known of the copies is not put
        back: they may be marked as the only ones, and are looked at anew. Committed."""
        self._put(rows)
        self.drop_only([row.path for row, _ in rows])
        self.commit_all()

    def stay(self, whys: Dict[bytes, str]) -> None:
        """Notes why faxes stay that were to be deleted. Committed."""
        self.begin()
        self._base.executemany("UPDATE faxes SET why = ? WHERE path = ?",
                               ((why, kept_path(path)) for path, why in whys.items()))
        self.touch(map(kept_path, whys))
        self.commit_all()

    def stays(self) -> Dict[str, int]:
        """How many good faxes were to be deleted and are there, by the reason."""
        return dict(self._base.execute(
            "SELECT substr(why, 1, instr(why || ':', ':') - 1), count(*) FROM faxes "
            "WHERE status = ? AND why IS NOT NULL GROUP BY 1 ORDER BY 1", (GOOD,)))

    def about_to_be_deleted(self) -> List[bytes]:
        """The faxes that were about to be deleted, and of which it is not known whether they are gone."""
        return [bytes_of(path) for (path,) in self._base.execute("SELECT path FROM deleted WHERE deleted = 0")]

    def are_deleted(self, paths: List[bytes]) -> None:
        """Notes that faxes are gone that were about to be deleted. Committed."""
        self.begin()
        self._base.executemany("UPDATE deleted SET deleted = ? WHERE path = ? AND deleted = 0",
                               ((time.time(), kept_path(path)) for path in paths))
        self.commit_all()

    def are_marked(self) -> bool:
        """Whether all copies of faxes that were deleted are known to be marked as the only ones, as versions before 1.6
        did not mark them."""
        return self._value("only") is not None

    def set_marked(self, marked: bool) -> None:
        """Notes whether they are."""
        self.begin()
        self._base.execute("DELETE FROM job WHERE name = 'only'")
        if marked:
            self._base.execute("INSERT INTO job VALUES ('only', 'marked')")

    def left_copies(self) -> Iterator[Tuple[bytes, Optional[float], Optional[str]]]:
        """The faxes that were deleted and have no copy of their own again: the path of each, its time, and the digest
        of its copy."""
        found = self._base.execute(
            "SELECT path, mtime, digest FROM deleted WHERE path NOT IN (SELECT path FROM copies WHERE ours)")
        for path, mtime, digest in found:
            yield bytes_of(path), mtime, digest

    def deletions(self) -> Iterator[Tuple[Any, ...]]:
        """The faxes that were deleted, or were about to be: the values of their rows."""
        return self._base.execute("SELECT path, size, mtime, digest, deleted FROM deleted")

    def put_deletions(self, rows: List[Tuple[Any, ...]]) -> None:
        """Takes over deletions that another table knows. Of one fax the later one counts; of one that was only about to
        be deleted the time is 0."""
        self.begin()
        for path, size, mtime, digest, deleted in rows:
            fax = (path, size, mtime)
            self._base.execute(
                "DELETE FROM deleted WHERE path = ? AND size IS ? AND mtime IS ? AND deleted < ?", (*fax, deleted))
            self._base.execute(
                "INSERT INTO deleted SELECT ?1, ?2, ?3, ?4, ?5 WHERE NOT EXISTS "
                "(SELECT 1 FROM deleted WHERE path = ?1 AND size IS ?2 AND mtime IS ?3)", (*fax, digest, deleted))

    def wait(self, fax: Waiting) -> None:
        """Notes that a fax is due. It is kept outside the table, and goes with this process."""
        self._base.execute("INSERT INTO waiting VALUES (?, ?, ?, ?, ?, ?, ?, ?)", fax)

    def wait_for_good(self) -> None:
        """Notes that all good faxes of the table are due, with what is known of their copies, and that none is known to
        stay."""
        self.begin()
        self.touch(path for (path,) in self._base.execute(
            "SELECT path FROM faxes WHERE status = ? AND why IS NOT NULL", (GOOD,)))
        self._base.execute("UPDATE faxes SET why = NULL WHERE status = ? AND why IS NOT NULL", (GOOD,))
        self._base.execute("DELETE FROM waiting")
        self._base.execute(
            "INSERT INTO waiting SELECT CAST(path AS BLOB), faxes.size, faxes.mtime, ifnull(copies.digest, ''), "
            "ifnull(fields_digest, ''), ifnull(ours, 0) AND ifnull(fields_ours, 1), iif(originals.size = faxes.size "
            "AND originals.mtime = faxes.mtime, ifnull(originals.digest, x''), x''), 0 FROM faxes LEFT JOIN copies "
            "USING (path) LEFT JOIN originals USING (path) WHERE status = ?", (GOOD,))

    def not_good(self) -> Iterator[bytes]:
        """The faxes that are not good."""
        for (path,) in self._base.execute("SELECT path FROM faxes WHERE status != ?", (GOOD,)):
            yield bytes_of(path)

    def taker(self) -> Callable[[int], List[Waiting]]:
        """What hands out the faxes that are due, in order, so many at a time."""
        last = 0

        def take(count: int) -> List[Waiting]:
            nonlocal last
            found = self._base.execute(
                "SELECT rowid, * FROM waiting WHERE rowid > ? ORDER BY rowid LIMIT ?", (last, count)).fetchall()
            last = found[-1][0] if found else last
            return [Waiting._make((*row[1:6], bool(row[6]), row[7], bool(row[8]))) for row in found]

        return take

    def compared(self, it: Compared) -> None:
        """Notes that a fax was compared with its copy, and what both are known by."""
        self._base.execute(f"INSERT INTO compared VALUES ({', '.join('?' * 17)})",
                           (it.path, *it.fax, *it.copy, *(it.fields or (None,) * 5), it.depth))

    def all_compared(self) -> Iterator[List[Compared]]:
        """The faxes that were compared, some at a time. A link in the tree to a fax of the tree comes before it:
        alone it would lead nowhere."""
        for (depth,) in self._base.execute("SELECT DISTINCT depth FROM compared ORDER BY depth DESC").fetchall():
            last = 0
            while True:
                found = self._base.execute(
                    "SELECT rowid, * FROM compared WHERE depth = ? AND rowid > ? ORDER BY rowid LIMIT ?",
                    (depth, last, _DELETED)).fetchall()
                if not found:
                    break
                last = found[-1][0]
                yield [_compared(row[1:]) for row in found]

    def rows(self) -> Iterator[Found]:
        """All rows in order of their paths' bytes. Some are read at a time, so that whoever takes them slowly keeps no
        run from its table."""
        names = ", ".join(COLUMNS)
        # A BLOB comes after each text.
        query = f"SELECT {names} FROM faxes WHERE path {{}} ? %s ORDER BY path LIMIT {_READ}"
        texts, others = self._paged(query % "AND path < x''", ""), self._paged(query % "", b"")
        for path, *rest in heapq.merge(texts, others, key=lambda row: bytes_of(row[0])):
            yield Found(bytes_of(path), *rest)

    def _paged(self, query: str, first: Path) -> Iterator[Tuple[Any, ...]]:
        """The rows of a query, some at a time."""
        found = self._base.execute(query.format(">="), (first,)).fetchall()
        while found:
            yield from found
            found = self._base.execute(query.format(">"), (found[-1][0],)).fetchall()

    def looks(self) -> Iterator[Whole]:
        """All rows with the looks at their faxes, what is known of their copies, and their digests, in no order."""
        names = ", ".join(f"faxes.{name}" for name in COLUMNS)
        copies = ("copies.digest, copies.size, copies.mtime, copies.ours, fields_size, fields_mtime, fields_digest, "
                  "fields_ours, originals.size, originals.mtime, originals.digest")
        found = self._base.execute(f"SELECT {names}, since, checked, run, origin, {copies} FROM faxes JOIN times "
                                   "USING (path) LEFT JOIN copies USING (path) LEFT JOIN originals USING (path)")
        size = len(COLUMNS)
        for path, *rest in found:
            copy, original = rest[size + 3:-3], rest[-3:]
            kept = (copy[1], copy[2], copy[0], *copy[3:]) if copy[0] is not None else None
            yield (Found(bytes_of(path), *rest[:size - 1]), Look(*rest[size - 1:size + 3]), kept,
                   tuple(original) if original[2] is not None else None)

    def look(self, path: bytes) -> Optional[Tuple[float, int, Look]]:
        """The mtime and the status of a fax, and when it was looked at."""
        query = "SELECT mtime, status, since, checked, run, origin FROM faxes JOIN times USING (path) WHERE path = ?"
        found = self._base.execute(query, (kept_path(path),))
        for mtime, status, *look in found:
            return mtime, status, Look(*look)
        return None

    def put_looks(self, looks: List[Whole]) -> None:
        """Writes rows of another table. Where it has no copy, the copy that is known here stays so."""
        self._put([(row if copy is not None else self._with_copy(row), look) for row, look, copy, _ in looks])
        self._base.executemany(PUT_COPY, (
            (kept_path(row.path), *copy) for row, _, copy, _ in looks if copy is not None))
        self._base.executemany(_PUT_ORIGINAL, (
            (kept_path(row.path), *original) for row, _, _, original in looks if original is not None))

    def _with_copy(self, row: Found) -> Found:
        """A row of another table that knows no copy, with what is known here of a salvaged one."""
        known = self.known(row.path)
        mine = known is not None and known.salvaged == 1
        return row._replace(salvaged=1 if mine else None if row.salvaged == 1 else row.salvaged)

    def put_only_copies(self, part: "Table") -> None:
        """Takes over the only copies that a part knows, and what it found of them, but for what has a copy here."""
        self.begin()
        self._base.executemany(
            "INSERT OR IGNORE INTO only_copies SELECT ?1, ?2, ?3, ?4, ?5, ?6, 0, row_sum(?1, ?2, ?3) "
            f"WHERE NOT EXISTS ({COPIED} AND path = ?1)",
            part._base.execute("SELECT path, digest, fields_digest, fault, why, verified FROM only_copies"))
        if part._value("only copies") is None:
            self._base.execute("DELETE FROM job WHERE name = 'only copies'")

    def counts(self) -> Dict[int, int]:
        """How many rows have each status."""
        found = {GOOD: 0, FAULTY: 0, OTHER: 0, NOT_READ: 0}
        found.update(self._base.execute("SELECT status, count(*) FROM faxes GROUP BY status"))
        return found

    def lacks(self) -> Dict[str, int]:
        """How many copies lack each thing."""
        found: Dict[str, int] = {}
        for names, count in self._base.execute("SELECT lacks, count(*) FROM faxes WHERE lacks != '' GROUP BY lacks"):
            for name in str(names).split():
                found[name] = found.get(name, 0) + int(count)
        return dict(sorted(found.items()))

    def salvaged(self) -> int:
        """How many faxes have a salvaged copy."""
        (count,) = self._base.execute("SELECT count(*) FROM faxes WHERE salvaged = 1").fetchone()
        return int(count)

    def faults(self) -> Dict[str, int]:
        """How many rows have each fault, but for those of what is no fax that is read here."""
        return dict(self._base.execute(
            "SELECT fault, count(*) FROM faxes WHERE fault IS NOT NULL AND status != ? GROUP BY fault ORDER BY fault",
            (OTHER,)))

    def kinds(self) -> Dict[str, int]:
        """How many rows are of what is no fax that is read here, by what it is."""
        return dict(self._base.execute(
            "SELECT ifnull(why, 'something else'), count(*) FROM faxes WHERE status = ? GROUP BY 1 ORDER BY 1", (OTHER,)))


def _original(one: Done) -> Tuple[Any, ...]:
    """What is kept of a fax as it was read."""
    if not one.digest:
        return kept_path(one.found.path), None, None, None
    return kept_path(one.found.path), one.found.size, one.found.mtime, one.digest


def _sum_of(one: Done, look: Look) -> int:
    """The sum of the first row of a fax, as the table makes it."""
    none = (None,) * 4
    path, *original = _original(one)
    return sum_of(path, *one.found[1:], *look, *_kept(one.copy or none), *_kept(one.fields or none), *original)


def _kept(stood: Sequence[Any]) -> Tuple[Any, ...]:
    """What is known of a copy, as SQLite keeps it: it has no truth values."""
    return tuple(int(it) if isinstance(it, bool) else it for it in stood)


def _compared(row: Tuple[Any, ...]) -> Compared:
    """A fax that was compared, of its row."""
    fields = Seen(*row[11:16]) if row[11] is not None else None
    return Compared(row[0], Seen(*row[1:6]), Seen(*row[6:11]), fields, row[16])


def job_of(job: Job, share: Tuple[int, int]) -> Dict[str, Any]:
    """A job as a table keeps it, wherever its folders stand: of a check the share, and whether links are followed. A
    table is of one."""
    kept = ("to", "order", "k", "strip", "align") if job.target is not None else ()
    told = {name: getattr(job, name) for name in kept}
    told.update({"follow": True} if job.follow else {})
    return {"job": "check" if job.target is None else "convert", "share": list(share), **told}


def where_of(job: Job) -> Dict[str, str]:
    """Where the folders of a job stand."""
    told = {"tree": text_of(job.tree)}
    if job.target is not None:
        told["target"] = text_of(job.target)
    return told
