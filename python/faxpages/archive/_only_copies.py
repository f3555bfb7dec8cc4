"""What a table knows of the only copies: those of faxes that have gone, and what was found of each when all were
looked at last."""

from __future__ import annotations

import json
import time
from typing import Any, Dict, Iterable, Iterator, List, Optional, Tuple

from . import _files as files
from ._database import ONLY_SUM, Database, bytes_of, kept_path
from ._fax import FAULTY, Found


# The faxes of which we have a whole copy.
COPIED = "SELECT path FROM copies JOIN faxes USING (path) WHERE ours AND ifnull(salvaged, 0) = 0"


class OnlyCopies(Database):
    """The only copies."""

    _verified = 0

    def keep_only(self, copies: Iterable[Tuple[bytes, Optional[str], Optional[str]]]) -> None:
        """Notes that our copies of these faxes are the only ones, with the digests that are given of them and of their
        fields, and else with those that are known."""
        self.begin()
        digest, fields = "ifnull(?2, digest)", "iif(fields_digest IS NULL, NULL, ifnull(?3, fields_digest))"
        self._base.executemany(
            f"INSERT OR REPLACE INTO only_copies SELECT path, {digest}, {fields}, NULL, NULL, NULL, 0, "
            f"row_sum(path, {digest}, {fields}) FROM copies WHERE path = ?1 AND ours",
            ((kept_path(path), *digests) for path, *digests in copies))

    def put_only(self, rows: List[Tuple[Any, ...]]) -> None:
        """Notes only copies, with their digests and those of their fields, but for what is known of."""
        self.begin()
        self._base.executemany(
            "INSERT OR IGNORE INTO only_copies SELECT ?1, ?2, ?3, NULL, NULL, NULL, 0, row_sum(?1, ?2, ?3)",
            ((kept_path(bytes_of(path)), *rest) for path, *rest in rows))

    def drop_only(self, paths: List[bytes]) -> None:
        """Notes that the copies of these faxes are the only ones no more."""
        self._base.executemany("DELETE FROM only_copies WHERE path = ?", ((kept_path(path),) for path in paths))

    def knows_copies(self) -> bool:
        """Whether copies of ours are known, be their faxes there or not."""
        (found,) = self._base.execute(
            "SELECT EXISTS (SELECT 1 FROM copies WHERE ours) OR EXISTS (SELECT 1 FROM only_copies)").fetchone()
        return bool(found)

    def begin_verification(self) -> int:
        """Begins to look at all only copies, or goes on where that was stopped. How many are due, which is noted."""
        told = self._verification()
        self.begin()
        if self._value("only copies") is None:
            # Versions before 1.12 kept the digests with what they deleted.
            self._base.execute(
                "INSERT OR IGNORE INTO only_copies "
                "SELECT path, digest, NULL, NULL, NULL, NULL, 0, row_sum(path, digest, NULL) "
                "FROM (SELECT path, digest, max(rowid) FROM deleted WHERE deleted > 0 GROUP BY path) "
                f"WHERE path NOT IN ({COPIED})")
            self._base.execute("INSERT INTO job VALUES ('only copies', 'noted')")
        if told is None or told[2] is not None:
            self._put_verification((told[0] + 1 if told else 1, time.time(), None))
        (self._verified, _, _) = self._verification() or (1, 0.0, None)
        self._base.execute("DELETE FROM waiting")
        self._base.execute(
            "INSERT INTO waiting "
            "SELECT CAST(path AS BLOB), 0, 0, ifnull(digest, ?), ifnull(fields_digest, ''), 0, x'', 0 "
            "FROM only_copies WHERE run != ?", (files.NOT_KEPT, self._verified))
        return int(self._base.execute("SELECT count(*) FROM waiting").fetchone()[0])

    def end_verification(self) -> None:
        """Notes that all only copies were looked at."""
        told = self._verification()
        if told is not None:
            self._put_verification((*told[:2], time.time()))

    def _put_verification(self, told: Tuple[int, float, Optional[float]]) -> None:
        self.begin()
        self._base.execute("INSERT OR REPLACE INTO job VALUES ('verification', ?)", (json.dumps(told),))

    def _verification(self) -> Optional[Tuple[int, float, Optional[float]]]:
        """The number of the last verification, when it began, and when it ended."""
        value = self._value("verification")
        if value is None:
            return None
        number, began, ended = json.loads(value)
        return number, began, ended

    def verified(self) -> Optional[float]:
        """When the last verification ended; nothing where there was none, or it has not ended."""
        told = self._verification()
        return told[2] if told is not None else None

    def put_verified(self, rows: List[Found]) -> None:
        """Writes what was found of only copies."""
        self.begin()
        self._base.executemany(
            "UPDATE only_copies SET fault = ?, why = ?, verified = ?, run = ? WHERE path = ?",
            ((row.fault, row.why, time.time(), self._verified, kept_path(row.path)) for row in rows))

    def forget_only_copies(self) -> None:
        """Takes out the only copies that are gone."""
        self.begin()
        self._base.execute("DELETE FROM only_copies WHERE fault = 'NoCopy'")

    def only_copies(self) -> Dict[str, int]:
        """How many only copies have each fault, or none, or were not looked at."""
        return dict(self._base.execute(
            "SELECT iif(run = 0, 'NotVerified', ifnull(fault, '')), count(*) FROM only_copies GROUP BY 1 ORDER BY 1"))

    def damaged_copies(self) -> Iterator[Found]:
        """The only copies that are not good, in no order."""
        for path, fault, why in self._base.execute(
                "SELECT path, fault, why FROM only_copies WHERE fault IS NOT NULL ORDER BY path"):
            yield Found(bytes_of(path), 0, 0, FAULTY, fault=fault, why=why)
