"""The database of a table: its tables, those of earlier versions, and transactions."""

from __future__ import annotations

import json
import os
import sqlite3
import sys
import time
import urllib.parse
import zlib
from typing import Any, Iterable, List, Optional, Sequence, Set, Tuple, Union

from . import _files as files
from ._fax import FAULTY, OTHER, Found

COLUMNS = Found._fields
# Those that versions before 1.15 did not keep. In their rows they are empty, which says that this is not known.
_NEW_COLUMNS = ("bad_rows", "lost_rows", "salvaged")
# A commit waits for the disk: at most one a second.
_COMMIT = 1.0
# How long a commit waits for a reader before the run goes on, and how long all else waits for a writer.
_WAIT, _LONG = 0.25, 60.0
# Of versions before 1.6, 1.12 and 1.15, whose tables are read as they stand, and brought up to date where they are
# written.
_BEFORE, _BEFORE_DIGESTS, _BEFORE_RECEIVED, _FORMAT = 2, 3, 4, 5
_WITH_SUMS = (_BEFORE_RECEIVED, _FORMAT)
_SCHEMA = """
CREATE TABLE IF NOT EXISTS faxes (
    path PRIMARY KEY NOT NULL, size INTEGER, mtime REAL, status INTEGER NOT NULL, pages INTEGER, rows INTEGER,
    width INTEGER, x REAL, y REAL, codings TEXT, notes TEXT, fault TEXT, fault_page INTEGER, fault_row INTEGER,
    fault_tag INTEGER, why TEXT, lacks TEXT, found INTEGER, lost INTEGER, seconds REAL, bad_rows INTEGER,
    lost_rows INTEGER, salvaged INTEGER);
CREATE TABLE IF NOT EXISTS times (
    path PRIMARY KEY NOT NULL, since REAL NOT NULL, checked REAL NOT NULL, run INTEGER NOT NULL, origin TEXT NOT NULL);
CREATE TABLE IF NOT EXISTS copies (
    path PRIMARY KEY NOT NULL, size INTEGER, mtime INTEGER, digest TEXT NOT NULL, ours INTEGER NOT NULL,
    fields_size INTEGER, fields_mtime INTEGER, fields_digest TEXT, fields_ours INTEGER);
CREATE TABLE IF NOT EXISTS deleted (
    path NOT NULL, size INTEGER, mtime REAL, digest TEXT, deleted REAL NOT NULL);
CREATE INDEX IF NOT EXISTS deleted_paths ON deleted (path);
CREATE TABLE IF NOT EXISTS runs (
    number INTEGER PRIMARY KEY, command TEXT NOT NULL, words TEXT NOT NULL, began REAL NOT NULL, ended REAL,
    unread INTEGER NOT NULL);
CREATE TABLE IF NOT EXISTS job (name TEXT PRIMARY KEY NOT NULL, value TEXT NOT NULL);
"""
# What versions before 1.12 did not keep: the digests of faxes as they were read; the only copies of faxes that have
# gone, and what was found of each by which verification; and a sum of each row, which says whether it is damaged.
_SINCE = """
CREATE TABLE IF NOT EXISTS {0}originals (
    path PRIMARY KEY NOT NULL, size INTEGER, mtime REAL, digest BLOB, sum INTEGER NOT NULL);
CREATE TABLE IF NOT EXISTS {0}only_copies (
    path PRIMARY KEY NOT NULL, digest TEXT, fields_digest TEXT, fault TEXT, why TEXT, verified REAL,
    run INTEGER NOT NULL, sum INTEGER);
"""


def _sum_with(columns: Sequence[str]) -> str:
    """The sum of a row with these columns, and with what is known of its fax and of its copy."""
    return "row_sum({})".format(", ".join(["path", *(f"faxes.{name}" for name in columns[1:]), *(
        "since", "checked", "run", "origin"), *(f"copies.{name}" for name in (
            "size", "mtime", "digest", "ours", "fields_size", "fields_mtime", "fields_digest", "fields_ours")), *(
                "originals.size", "originals.mtime", "originals.digest")]))


_SUM, _OLD_SUM = _sum_with(COLUMNS), _sum_with([name for name in COLUMNS if name not in _NEW_COLUMNS])
_JOINED = ("faxes LEFT JOIN times USING (path) LEFT JOIN copies USING (path) LEFT JOIN originals USING (path)")
# The rows of a table whose path is not the one by which its index finds them: of a row that is found by the index, SQLite
# takes the path from there.
_UNLIKE_ITS_INDEX = ("{0} AS it NOT INDEXED WHERE NOT EXISTS "
                     "(SELECT 1 FROM {0} AS same WHERE same.path = it.path AND +same.rowid = it.rowid)")
# The sum of what is known of an only copy.
ONLY_SUM = "row_sum(path, digest, fields_digest)"
_TEMPORARY = """
CREATE TEMP TABLE waiting (
    path BLOB NOT NULL, size INTEGER NOT NULL, mtime REAL NOT NULL, copy TEXT NOT NULL, fields TEXT NOT NULL,
    proven INTEGER NOT NULL, digest BLOB NOT NULL, salvaged INTEGER NOT NULL);
CREATE TEMP TABLE compared (
    path BLOB NOT NULL, device, inode, size, mtime, ctime, copy_device, copy_inode, copy_size, copy_mtime, copy_ctime,
    fields_device, fields_inode, fields_size, fields_mtime, fields_ctime, depth);
CREATE INDEX temp.compared_depths ON compared (depth DESC);
"""
_EMPTY = {name: f"NULL AS {name}" for name in _NEW_COLUMNS}
# The rows of a table before 1.15; and before 1.6, where what is no fax that is read here was called faulty.
_LATE_ROWS = ", ".join(_EMPTY.get(name, name) for name in COLUMNS)
_OF_OTHERS = f"status = {FAULTY} AND fault IN ('Unsupported', 'Magic', 'ByteOrder')"
_OLD_ROWS = ", ".join({
    "status": f"CASE WHEN {_OF_OTHERS} THEN {OTHER} ELSE status END AS status", "found": "NULL AS found",
    "lost": "NULL AS lost", **_EMPTY}.get(name, name) for name in COLUMNS)
PUT_COPY = "INSERT OR REPLACE INTO copies VALUES (?, ?, ?, ?, ?, ?, ?, ?, ?)"

# What SQLite says of a database with tables or texts that are none.
_OF_DAMAGE = ("no such", "decode", "user-defined", "malformed", "unsupported file format")
_BEGINNING = b"SQLite format 3\0"
# Where a database says by which journal it is written.
_WAY = 18

Path = Union[str, bytes]


class TableError(Exception):
    """A table is of another job, in use, or none."""


class Damaged(TableError):
    """A table is damaged."""


class WrongTable(TableError):
    """A table is of another job than the words ask for."""


def kept_path(path: bytes) -> Path:
    """A path as it is kept: a text where it is UTF-8, else its bytes as a BLOB."""
    try:
        return path.decode()
    except UnicodeDecodeError:
        return path


def bytes_of(path: Path) -> bytes:
    """The bytes of a path that was kept."""
    return path.encode() if isinstance(path, str) else path


def text_of(path: bytes) -> str:
    """A path in JSON: a byte that is no UTF-8 is a lone surrogate."""
    return path.decode("utf-8", "surrogateescape")


class Database:
    """A database that is open. Rows are committed each second, and where it is closed without an exception."""

    def __init__(self, name: str, new: bool = True) -> None:
        self.name = name
        if not new and not os.path.exists(name):
            raise TableError(f"there is no table {name}")
        self._lock = self._locked() if new else None
        self._began: Optional[float] = None
        # The rows whose sums are to be made anew.
        self._touched: Set[Path] = set()
        # Nothing but a commit has to wait for readers.
        self._base = sqlite3.connect(address(name, new), timeout=_LONG, isolation_level=None, uri=True)
        try:
            self._base.create_function("row_sum", -1, sum_of, deterministic=True)
            self._base.execute("PRAGMA cache_spill = 0")
            self._look()
            if new:
                self._make()
            else:
                self._read_as_it_stands()
            # Of rows that are the first ones of their faxes the sums are known without reading them.
            self._is_new = self._base.execute("SELECT 1 FROM faxes LIMIT 1").fetchone() is None
        except sqlite3.DatabaseError as error:
            self._close()
            # One that is locked, or cannot be read, need not be damaged.
            refused = isinstance(error, sqlite3.OperationalError) and not any(it in str(error) for it in _OF_DAMAGE)
            if refused or not _is_database(self.name):
                raise
            raise Damaged(f"{self.name} is damaged: {error}") from None
        except BaseException:
            self._close()
            raise

    def _read_as_it_stands(self) -> None:
        """Has a table of an earlier version be read."""
        self._refuse_foreign()
        if self._format() not in (_BEFORE, _BEFORE_DIGESTS, _BEFORE_RECEIVED, _FORMAT):
            raise TableError(f"{self.name} is none of this version's tables; a run of check or convert makes it one")
        if self._format() not in _WITH_SUMS:
            self._base.executescript(_SINCE.format("temp."))
        if self._format() != _FORMAT:
            rows = _OLD_ROWS if self._format() == _BEFORE else _LATE_ROWS
            self._base.execute(f"CREATE TEMP VIEW faxes AS SELECT {rows} FROM main.faxes")

    def _look(self) -> None:
        """Looks whether the database is whole, and each of its rows as it was written. Damaged: it is not."""
        try:
            # A table of a version before 1.12 has no sums, so that its indexes are looked at here.
            check = "quick_check" if self._format() in _WITH_SUMS else "integrity_check"
            (said,) = self._base.execute(f"PRAGMA {check}(1)").fetchone()
            damage = [] if said == "ok" else [str(said).replace("\n", " ")]
            if not damage and not _may_be_written(self.name):
                damage = ["it says that it cannot be written"]
            if not damage:
                version = self._format()
                damage = self._not_of_its_version() or self._damaged_rows()
                if damage and self._format() != version:
                    # A run has just brought it up to date.
                    damage = self._damaged_rows()
        except UnicodeDecodeError:
            # SQLite names what it cannot read, by bytes that Python cannot show.
            damage = ["what says which tables it has is no text"]
        if damage:
            raise Damaged(f"{self.name} is damaged: {damage[0]}")

    def _not_of_its_version(self) -> List[str]:
        """What is said of a table that has what only later versions than its own kept; nothing where it has none."""
        later = {0: "copies", _BEFORE: "originals", _BEFORE_DIGESTS: "originals"}.get(self._format())
        found = self._base.execute("SELECT 1 FROM sqlite_master WHERE name = ?", (later,)).fetchone()
        if self._format() == _BEFORE_RECEIVED:
            found = self._base.execute("SELECT 1 FROM pragma_table_info('faxes') WHERE name = ?",
                                       _NEW_COLUMNS[:1]).fetchone()
        return ["its version is another one than it was written by"] if found is not None else []

    def _damaged_rows(self) -> List[str]:
        """What is said of rows that are not as they were written; nothing where all are, or no sums are kept."""
        if self._format() not in _WITH_SUMS:
            return []
        if not self._is_job_right():
            return ["what it says of itself is not as it was written"]
        right = _SUM if self._format() == _FORMAT else _OLD_SUM
        for rows in (f"{_JOINED} WHERE originals.sum IS NOT {right}",
                     *(f"{name} NOT INDEXED WHERE path NOT IN (SELECT path FROM faxes)"
                       for name in ("times", "copies", "originals")),
                     *(_UNLIKE_ITS_INDEX.format(name)
                       for name in ("faxes", "times", "copies", "originals", "only_copies", "deleted")),
                     f"only_copies WHERE sum IS NOT {ONLY_SUM}"):
            count, path = self._base.execute(f"SELECT count(*), min(path) FROM {rows}").fetchone()
            if count:
                name = ascii(text_of(bytes_of(path)))[1:-1]
                return [f"{count} of its rows are not as they were written, as that of {name}"]
        return []

    def _is_job_right(self) -> bool:
        """Whether what the table says of itself is as it was written, all of it as of one moment: a run may write it
        meanwhile."""
        self._base.execute("BEGIN")
        try:
            (noted,) = self._base.execute("SELECT max(value) FROM job NOT INDEXED WHERE name = 'sum'").fetchone()
            by_index = {name: self._value(name) for name, _ in self._job()}
            right = noted in (None, str(self._sum_of_job())) and self._value("sum") == noted
            return right and by_index == dict(self._job())
        finally:
            self._base.execute("COMMIT")

    def _job(self) -> List[Tuple[str, str]]:
        """What the table says of itself, but for the sum of it."""
        return [(str(name), str(value)) for name, value in self._base.execute(
            "SELECT name, value FROM job NOT INDEXED WHERE name != 'sum' ORDER BY +name")]

    def _sum_of_job(self) -> int:
        """The sum of what the table says of itself, of its last run, and of what tables it has."""
        return sum_of(*self._job(), *self._base.execute("SELECT * FROM runs ORDER BY number DESC LIMIT 1"),
                      *self._base.execute("SELECT type, name, tbl_name, sql FROM sqlite_master ORDER BY rowid"))

    def touch(self, paths: Iterable[Path]) -> None:
        """Notes that these rows change, so that their sums are made anew before they are committed."""
        self._touched.update(paths)

    def _make_sums(self) -> None:
        """Makes the sums of the rows that have changed anew."""
        query = (f"INSERT INTO originals (path, sum) SELECT path, {_SUM} FROM {_JOINED} WHERE path = ? "
                 "ON CONFLICT (path) DO UPDATE SET sum = excluded.sum")
        self._base.executemany(query, ((path,) for path in self._touched))
        self._touched.clear()

    def __exit__(self, kind: object, *_: object) -> None:
        if kind is None:
            self.commit_all()
        self._close()

    def _close(self) -> None:
        self._base.close()
        if self._lock:
            self._lock.close()

    def _locked(self) -> Any:
        try:
            # A table by two names, as by a link, has one lock.
            return files.lock(f"{os.path.realpath(self.name)}-lock")
        except BlockingIOError:
            raise TableError(f"another run writes to {self.name}") from None

    def _format(self) -> int:
        return int(self._base.execute("PRAGMA user_version").fetchone()[0])

    def _refuse_foreign(self) -> None:
        """Refuses a database whose tables are not those of an archive, or of a version that is not known."""
        tables = {str(name) for (name,) in self._base.execute("SELECT name FROM sqlite_master")}
        known = self._format() in (0, _BEFORE, _BEFORE_DIGESTS, _BEFORE_RECEIVED, _FORMAT)
        if not known or tables and not {"faxes", "times", "job"} <= tables:
            raise TableError(f"{self.name} is a database of another program, or of a later version, and stays as it is")

    def _make(self) -> None:
        """Makes the tables, and brings those of an earlier version up to date."""
        self._refuse_foreign()
        self._base.executescript(_TEMPORARY)
        if self._format() == _FORMAT:
            return
        self.begin()
        self._put_tables(_SINCE.format(""))
        if self._format() == _BEFORE:
            self._renew()
        elif self._format() == 0:
            self._begin_anew()
        else:
            for name in _NEW_COLUMNS:
                self._base.execute(f"ALTER TABLE faxes ADD COLUMN {name} INTEGER")
        for name in ("times", "copies"):
            self._base.execute(f"DELETE FROM {name} WHERE path NOT IN (SELECT path FROM faxes)")
        self._base.execute(f"INSERT INTO originals (path, sum) SELECT path, {_SUM} FROM {_JOINED} WHERE true "
                           "ON CONFLICT (path) DO UPDATE SET sum = excluded.sum")
        self._base.execute(f"PRAGMA user_version = {_FORMAT}")
        self.commit_all()

    def _begin_anew(self) -> None:
        """Makes a new table, or takes over the rows of version 1.4."""
        old = [row[1] for row in self._base.execute("PRAGMA table_info(faxes)")]
        if old:
            for name in ("faxes", "times"):
                self._base.execute(f"ALTER TABLE {name} RENAME TO old_{name}")
        self._put_tables(_SCHEMA)
        if old:
            self._upgrade(old)
        number = os.urandom(8).hex()
        self._base.execute("INSERT OR REPLACE INTO job VALUES ('table', ?)", (number,))
        self._base.execute("UPDATE times SET origin = ?", (number,))

    def _put_tables(self, statements: str) -> None:
        for statement in filter(str.strip, statements.split(";")):
            self._base.execute(statement)

    def _renew(self) -> None:
        """Brings the rows of the version before up to date."""
        self._base.execute("ALTER TABLE faxes RENAME TO old_faxes")
        self._base.execute(_SCHEMA.split(";")[0])
        self._base.execute(f"INSERT INTO faxes SELECT {_OLD_ROWS} FROM old_faxes")
        self._base.execute("DROP TABLE old_faxes")

    def _upgrade(self, columns: List[str]) -> None:
        """Takes over the rows of version 1.4, whose paths were whole. What it wrote is known without a digest."""
        told = json.loads(self._value("job") or "{}")
        tree = os.path.join(str(told.get("tree", "")).encode("utf-8", "surrogateescape"), b"")
        names = ", ".join(columns)
        for path, *rest in self._base.execute(f"SELECT {names} FROM old_faxes").fetchall():
            whole = bytes_of(path)
            if not whole.startswith(tree):
                continue
            below = kept_path(whole[len(tree):])
            marks = ", ".join("?" * len(columns))
            self._base.execute(f"INSERT INTO faxes ({names}) VALUES ({marks})", (below, *rest))
            self._base.execute("INSERT INTO times SELECT ?, since, checked, 0, '' FROM old_times WHERE path = ?",
                               (below, path))
            if told.get("job") == "convert" and rest[columns.index("status") - 1] == 0:
                unknown = (None, None, files.NOT_KEPT, 1)
                self._base.execute(PUT_COPY, (below, *unknown, *unknown))
        self._base.execute(f"UPDATE faxes SET status = {OTHER} WHERE {_OF_OTHERS}")
        for name in ("old_faxes", "old_times"):
            self._base.execute(f"DROP TABLE {name}")
        where = {name: told.pop(name) for name in ("tree", "target") if name in told}
        self._base.executemany("INSERT OR REPLACE INTO job VALUES (?, ?)", [
            ("job", json.dumps(told)), ("where", json.dumps(where))])

    def begin(self) -> None:
        """Begins a transaction, where there is none."""
        if self._began is None:
            self._base.execute("BEGIN IMMEDIATE")
            self._began = time.monotonic()

    def commit(self) -> bool:
        """Ends the transaction, where there is one; not where a reader has the table meanwhile. Whether it is ended."""
        if self._began is None or not self._base.in_transaction:
            self._began = None
            return True
        if self._touched:
            self._make_sums()
        self._base.execute("INSERT OR REPLACE INTO job VALUES ('sum', ?)", (str(self._sum_of_job()),))
        try:
            self._base.execute(f"PRAGMA busy_timeout = {int(_WAIT * 1000)}")
            self._base.execute("COMMIT")
            self._began = None
            return True
        except sqlite3.OperationalError as error:
            if "locked" not in str(error):
                raise
            self._began = time.monotonic()
            return False
        finally:
            self._base.execute(f"PRAGMA busy_timeout = {int(_LONG * 1000)}")

    def commit_all(self) -> None:
        """Ends the transaction, however long a reader has the table."""
        said = False
        while not self.commit():
            if not said:
                print(f"faxpages-archive: another program reads {self.name}: waiting for it", file=sys.stderr,
                      flush=True)
            said = True

    def turn(self) -> None:
        """Commits, where that is due."""
        if self._began is not None and time.monotonic() - self._began >= _COMMIT:
            self.commit()

    def _value(self, name: str) -> Optional[str]:
        for (value,) in self._base.execute("SELECT value FROM job WHERE name = ?", (name,)):
            return str(value)
        return None


def sum_of(*values: object) -> int:
    """The sum of values."""
    return zlib.crc32(repr(values).encode("utf-8", "surrogatepass"))


def _is_database(name: str) -> bool:
    """Whether a file begins as one of SQLite, so that it is one that is damaged."""
    try:
        with open(name, "rb") as file:
            return file.read(len(_BEGINNING)) == _BEGINNING
    except OSError:
        return False


def _may_be_written(name: str) -> bool:
    """Whether a file says that SQLite may write to it, by a rollback journal or by another one."""
    try:
        with open(name, "rb") as file:
            head = file.read(_WAY + 1)
            return len(head) <= _WAY or head[_WAY] in (1, 2)
    except OSError:
        return True


def address(name: str, new: bool) -> str:
    """How SQLite is told a file, whatever its name. It makes none where there has to be one."""
    return f"file:{urllib.parse.quote(os.fsencode(os.path.abspath(name)))}?mode={'rwc' if new else 'rw'}"
