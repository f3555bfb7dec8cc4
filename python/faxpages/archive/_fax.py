"""One fax of an archive: checked, or converted, into a row of the table."""

from __future__ import annotations

import contextlib
import ctypes
import hashlib
import itertools
import os
import stat
import subprocess
import time
from typing import Any, Callable, Dict, Iterator, List, NamedTuple, Optional, Tuple

import faxpages

from . import _files as files
from .. import _library as _c
from ._files import Seen, Stood
from ._incoming import why_incoming
from ._lacks import PRINTED, lacks
from ._marks import Owner, Place
from ._received import bad_rows, lost_rows
from .._directory import kind_of
from .._fax import CODINGS
from .._told import refusal

# The largest fax, as of the program faxpages; and the most bytes of its fields.
_MOST = _MOST_FIELDS = 268435456
# So many pages are listed at first, and then at a time at most.
_FORMS, _MOST_FORMS = 16, 65536
# What comes of a fax: it is good, it has a fault, it is no fax that is read here, or it cannot be read or written.
GOOD, FAULTY, OTHER, NOT_READ = 0, 1, 2, 3
_TURNED = "it has other bytes than before, and the same size and time of change"
# Why a faulty fax has no salvaged copy, though one is asked for.
WHOLE = "its copy of before stays"
# What the name of a copy's fields ends with.
FIELDS = b".fields"
# A system counts the times of files in steps, of a hundredth of a second at most: what is written in one has one time.
_STEP = 0.02


class NoEngine(Exception):
    """An engine is not installed, or does not answer."""


class NoWorker(Exception):
    """No worker can be started."""


class Waiting(NamedTuple):
    """A fax that is due: its path below the tree, its size and mtime when it was found, the digests that the table
    knows of its copy and of the copy's fields, whether the copy is of this fax as it is, so that a copy which has
    that digest need not be made again, the digest of its own bytes as they were read before, with that size and
    mtime, and whether the copy is a salvaged one."""

    path: bytes
    size: int
    mtime: float
    copy: str = ""
    fields: str = ""
    proven: bool = False
    digest: bytes = b""
    salvaged: bool = False


class Found(NamedTuple):
    """What was found of a fax: a row of the table, by its columns."""

    path: bytes
    size: int
    mtime: float
    status: int
    pages: Optional[int] = None
    rows: Optional[int] = None
    width: Optional[int] = None
    x: Optional[float] = None
    y: Optional[float] = None
    codings: Optional[str] = None
    notes: Optional[str] = None
    fault: Optional[str] = None
    fault_page: Optional[int] = None
    fault_row: Optional[int] = None
    fault_tag: Optional[int] = None
    why: Optional[str] = None
    lacks: Optional[str] = None
    found: Optional[int] = None
    lost: Optional[int] = None
    seconds: Optional[float] = None
    bad_rows: Optional[int] = None
    lost_rows: Optional[int] = None
    salvaged: Optional[int] = None


class Done(NamedTuple):
    """What came of a fax: its row; its copy and the copy's fields, if they stand; of a fax that was compared with its
    copy, what it is known by, and what these are; and the digest of its bytes, if it is to be kept."""

    found: Found
    copy: Optional[Stood] = None
    fields: Optional[Stood] = None
    seen: Optional[Seen] = None
    copy_seen: Optional[Seen] = None
    fields_seen: Optional[Seen] = None
    digest: Optional[bytes] = None


class Job(NamedTuple):
    """What is done with each fax below a tree: a check; or, where a target is named, a conversion; or a comparison
    with the copy that is there; or only a look at its copy, where it was deleted. owner is whose copies are ours;
    adopt takes over copies that have the right bytes; lost counts the rows of faulty faxes, and salvage copies them."""

    tree: bytes
    target: Optional[bytes] = None
    to: str = "mmr"
    order: int = 1
    k: int = 4
    strip: Optional[int] = None
    align: bool = False
    fields: bool = False
    follow: bool = False
    compare: bool = False
    owner: Owner = Owner("")
    adopt: bool = False
    lost: bool = False
    verify: bool = False
    salvage: bool = False

    def copy_of(self, path: bytes) -> bytes:
        """The file below the target that a fax is converted into."""
        return path + (b".pbm" if self.to == "pbm" else b"")

    def target_root(self) -> files.Root:
        """The folder of copies."""
        assert self.target is not None
        return files.root_of(self.target, self.tree)

    def do(self, fax: Waiting) -> Done:
        """What comes of a fax."""
        began = time.perf_counter()
        done = self._done(fax)
        return done._replace(found=done.found._replace(seconds=round(time.perf_counter() - began, 6)))

    def _done(self, fax: Waiting) -> Done:
        try:
            if self.verify:
                return self._verified(fax)
            data, told, incoming = _read(os.path.join(self.tree, fax.path), self.follow, self.compare)
            if incoming is not None:
                fault, _, why = incoming.partition(": ")
                return Done(not_read(fax, fault, why))
            same = (told.st_size, told.st_mtime) == (fax.size, fax.mtime)
            # What is known of the copy is of the fax as it was found.
            now = fax._replace(size=told.st_size, mtime=told.st_mtime, proven=fax.proven and same)
            if self.compare:
                return self._compared(data, fax, now, told)
            return self._looked_at(data, now, told, fax.digest if same else b"")
        except _NotRead as error:
            return Done(not_read(fax, *error.args))
        except MemoryError:
            return Done(not_read(fax, "Memory"))
        except Exception as error:  # whatever it is, it is of this fax alone
            return Done(not_read(fax, "WorkerDied", why=f"{type(error).__name__}: {error}"))

    def _looked_at(self, data: bytes, fax: Waiting, told: os.stat_result, known: bytes) -> Done:
        """What comes of a fax that is checked, or converted if it is good. One with other bytes than are known of it,
        though it has the same size and time of change, is not good, and what is known stays."""
        digest = hashlib.sha256(data).digest()
        found = _checked(data, fax)
        if known and digest != known:
            if found.status == GOOD:
                found = found._replace(status=FAULTY, fault="Changed", why=_TURNED)
            digest = b""
        if self.lost and found.status == FAULTY:
            found = _counted(data, found)
        done = Done(found)
        if self.target is not None and found.status == GOOD:
            done = self._converted(found, lambda row: self._copied(data, fax, told, row))
        elif self.salvage and found.status == FAULTY and digest:
            done = self._converted(found, lambda row: self._salvaged(data, fax, told, row))
        return done._replace(digest=digest or None)

    def _verified(self, fax: Waiting) -> Done:
        """Whether the only copy of a fax that was deleted, and its fields, are as they were written."""
        assert self.target is not None
        name, target = self.copy_of(fax.path), files.root_of(self.target)
        for each, digest in ((name, fax.copy), (name + FIELDS, fax.fields)):
            fault, why = files.damage(target, each, digest) if digest else ("", None)
            if fault:
                status = FAULTY if fault in ("NoCopy", "Changed") else NOT_READ
                return Done(Found(*fax[:3], status, fault=fault, why=why))
        return Done(Found(*fax[:3], GOOD))

    def _copied(self, data: bytes, fax: Waiting, told: os.stat_result, found: Found) -> Done:
        """What comes of a good fax: its copy is written."""
        found = found._replace(lacks=lacks(data, found.notes or "", self.to, self.fields))
        try:
            copy, fields = self._written(data, fax, told)
            return Done(found._replace(salvaged=None), copy, fields)
        except faxpages.OutputTooLarge:
            none = found.salvaged or (0 if self.salvage else None)
            return Done(found._replace(status=FAULTY, fault="OutputTooLarge", salvaged=none))

    def _salvaged(self, data: bytes, fax: Waiting, told: os.stat_result, found: Found) -> Done:
        """What comes of a faulty fax: what can be salvaged of it is written, unless a whole copy stands there. It stays
        faulty, and no fields are written."""
        made = _salvaged_file(data, self)
        if made is None:
            # What is known of a copy stays.
            return Done(found if found.salvaged else found._replace(salvaged=0))
        name = self.copy_of(fax.path)
        copy = files.Copy(made, told, name, fax.copy, self.owner, self.adopt, True, fax.salvaged)
        try:
            with self.target_root().place(name, self.tree) as place:
                stood = files.put(place, copy, lambda written: written == made)
            return Done(found._replace(salvaged=1), stood)
        except files.Whole:
            return Done(found._replace(why=WHOLE))

    def _converted(self, found: Found, write: Callable[[Found], Done]) -> Done:
        """What comes of a fax whose copy is to be written; why it is not, where it is not."""
        try:
            return write(found)
        except _NotWritten as error:
            return Done(_not_copied(found, *error.args))
        except files.NotOurs as error:
            return Done(_not_copied(found, "Exists", str(error)))
        except files.NotRight:
            return Done(_not_copied(found, "RowsDiffer"))
        except OSError as error:
            return Done(_not_copied(found, "Write", error.strerror))

    def _written(self, data: bytes, fax: Waiting, told: os.stat_result) -> Tuple[Stood, Optional[Stood]]:
        """The copy of a fax, and its fields where they are asked for, as they stand in the end."""
        name = self.copy_of(fax.path)
        with self.target_root().place(name, self.tree) as place:
            beside = place._replace(name=place.name + FIELDS)
            kept = self._kept(place, beside, fax)
            if kept is not None:
                return kept
            copy = files.Copy(faxpages.convert(data, self.to, self.order, self.k, self.strip, self.align), told,
                              name, fax.copy, self.owner, self.adopt)
            if not self.fields:
                return files.put(place, copy, lambda written: _has_rows(written, data)), None
            fields = files.Copy(_fields_of(os.path.join(self.tree, fax.path), data), told, name + FIELDS,
                                fax.fields, self.owner, self.adopt)
            # Nothing is written where one of the two places is another's.
            files.stands(place, copy)
            stood = files.put(beside, fields, None)
            return files.put(place, copy, lambda written: _has_rows(written, data)), stood

    def _kept(self, place: Place, beside: Place, fax: Waiting) -> Optional[Tuple[Stood, Optional[Stood]]]:
        """The copy and its fields where they are of this fax, and still have their digests."""
        if not fax.proven or self.fields != bool(fax.fields):
            return None
        copy = _as_known(place, fax.copy)
        fields = _as_known(beside, fax.fields) if self.fields else None
        return (copy, fields) if copy is not None and (fields is not None or not self.fields) else None

    def _compared(self, data: bytes, fax: Waiting, now: Waiting, told: os.stat_result) -> Done:
        """A good row of a fax whose copy has its rows, and which is as it was found; else one that says why not."""
        if now != fax:
            return Done(not_read(fax, "Changed"))
        if fax.digest and hashlib.sha256(data).digest() != fax.digest:
            return Done(not_read(fax, "Changed", _TURNED))
        fields, fields_seen = None, None
        try:
            with self.target_root().place(self.copy_of(fax.path)) as place:
                copy, copy_seen, written = _stands(place, fax.copy, told)
                if self.fields:
                    fields, fields_seen, _ = _stands(place._replace(name=place.name + FIELDS), fax.fields, told)
                # The names of the copies have to be on the disk, wherever this runs.
                os.fsync(place.folder)
        except _NotWritten as error:
            return Done(not_read(fax, *error.args))
        except OSError as error:
            return Done(not_read(fax, "NoCopy", why=error.strerror))
        report = faxpages.check(data)
        # What is salvaged of a faulty fax is no copy, whatever rows it has.
        if report.fault or not _has_rows(written, data):
            return Done(not_read(fax, "RowsDiffer"))
        notes = " ".join(note.name for note in report.notes)
        row = Found(*fax[:3], GOOD, lacks=lacks(data, notes, self.to, self.fields))
        return Done(row, copy, fields, files.seen_of(told), copy_seen, fields_seen)


class _NotRead(Exception):
    """A fax cannot be read: Open or Read, as the program says it, and why."""


class _NotWritten(Exception):
    """A copy is not there, or is not written: its fields cannot be told; and why."""


def not_read(fax: Waiting, fault: str, why: Optional[str] = None, seconds: Optional[float] = None) -> Found:
    """The row of a fax that was not read, and why."""
    return Found(fax.path, fax.size, fax.mtime, NOT_READ, fault=fault, why=why, seconds=seconds,
                 salvaged=1 if fax.salvaged else None)


def _not_copied(found: Found, fault: str, why: Optional[str] = None) -> Found:
    """The row of a fax whose copy is not written, and why."""
    return found._replace(status=NOT_READ, fault=fault, fault_page=None, fault_row=None, fault_tag=None, why=why)


def _as_known(place: Place, digest: str) -> Optional[Stood]:
    """A file that has this digest."""
    try:
        with files.opened(place) as file:
            if file is None or files.digest_of(file) != digest:
                return None
            told = os.fstat(file)
            return Stood(told.st_size, files.time_of(told.st_mtime_ns), digest, True)
    except files.NotOurs:
        return None


def _stands(place: Place, digest: str, fax: os.stat_result) -> Tuple[Stood, Seen, bytes]:
    """A copy that has the digest that the table knows, and is not the fax itself under another name; what it is known
    by, and its bytes."""
    try:
        data, told = files.read(place, files.MOST)
    except files.NotOurs as error:
        raise _NotWritten("NoCopy", str(error)) from None
    if (told.st_dev, told.st_ino) == (fax.st_dev, fax.st_ino):
        raise _NotWritten("NoCopy", "the copy is the fax itself")
    if hashlib.sha256(data).hexdigest() != digest:
        raise _NotWritten("RowsDiffer", "changed since it was written")
    return Stood(told.st_size, files.time_of(told.st_mtime_ns), digest, True), files.seen_of(told), data


def _read(path: bytes, follow: bool, looks: bool) -> Tuple[bytes, os.stat_result, Optional[str]]:
    """The bytes of a fax, what the system told of it before they were read, and, where that is to be looked at, why it
    may still be coming in. One that changes meanwhile is not read."""
    way = os.O_RDONLY | os.O_NONBLOCK | os.O_CLOEXEC | (0 if follow else os.O_NOFOLLOW)
    try:
        file = os.open(path, way)
    except OSError as error:
        raise _NotRead("Open", error.strerror) from None
    try:
        told = _settled(file)
        if not stat.S_ISREG(told.st_mode):
            raise _NotRead("Read", "no regular file")
        if told.st_size > _MOST:
            raise _NotRead("Read", f"more than {_MOST} bytes")
        data, now = _all_of(file, told.st_size), os.fstat(file)
        if (len(data), now.st_size, now.st_mtime_ns) != (told.st_size, told.st_size, told.st_mtime_ns):
            raise _NotRead("Changed", "it changed while it was read")
        return data, told, why_incoming(file) if looks else None
    except OSError as error:
        raise _NotRead("Read", error.strerror) from None
    finally:
        os.close(file)


def _settled(file: int) -> os.stat_result:
    """What the system tells of a file, once what is written to it from now on gets another time."""
    told = os.fstat(file)
    if 0 <= time.time() - told.st_mtime < _STEP:
        time.sleep(_STEP)
        told = os.fstat(file)
    return told


def _all_of(file: int, size: int) -> bytes:
    """The bytes of a file that has so many; one more where it has grown."""
    pieces, left = [os.read(file, size + 1)], size
    left -= len(pieces[0])
    while left > 0 and pieces[-1]:
        pieces.append(os.read(file, left + 1))
        left -= len(pieces[-1])
    return b"".join(pieces) if len(pieces) > 1 else pieces[0]


def _checked(data: bytes, fax: Waiting) -> Found:
    """The row of a fax by its bytes."""
    report = faxpages.check(data)
    notes = sorted({(note.number, note.name) for note in report.notes})
    (width, x, y, codings), listed, whole = _described(data)
    found = Found(*fax[:3], GOOD, report.pages, report.rows, width, x, y, codings,
                  " ".join(name for _, name in notes), bad_rows=bad_rows(data, listed) if listed else None, lost_rows=0,
                  salvaged=1 if fax.salvaged else None)
    if report.fault:
        kind = kind_of(data, report.fault)
        lost = lost_rows(data, report.fault.page, listed) if whole and not kind else None
        return found._replace(status=OTHER if kind else FAULTY, fault=report.fault.name, fault_page=report.fault.page,
                              fault_row=report.fault.row, fault_tag=report.fault.tag, why=kind, lost_rows=lost)
    return found


def _salvaged_file(data: bytes, job: Job) -> Optional[bytes]:
    """What can be salvaged of a damaged fax, in the coding of copies; nothing where no page has a form, or it would be
    too large."""
    try:
        return faxpages.Fax(data).salvaged_file(job.to, job.order, job.k, job.strip, job.align)
    except faxpages.OutputTooLarge:
        return None


def _counted(data: bytes, found: Found) -> Found:
    """The row of a faulty fax, with how many of its rows are left, and lost; or why that is not known."""
    # What this loads takes as long as some hundred faxes, and most runs do not ask for it.
    from .._rows_left import NotSalvaged, rows_left

    try:
        left, lost = rows_left(data)
        return found._replace(found=left, lost=lost)
    except NotSalvaged as error:
        return found._replace(why=str(error))


def _described(data: bytes) -> Tuple[Tuple[Optional[int], Optional[float], Optional[float], str], int, bool]:
    """The width and the resolution of the first page, and the codings of all that can be listed; how many these are,
    and whether there are no others."""
    codings: Dict[str, None] = {}
    first: Tuple[Optional[int], Optional[float], Optional[float]] = (None, None, None)
    told, number, asked, status = _c.Told(), 0, _FORMS, _c.DONE
    while status == _c.DONE:
        forms = (_c.Form * asked)()
        status = _c.library.faxpages_forms(data, len(data), number, forms, asked, told)
        if not number and told.count:
            form = forms[0]
            first = (form.width, _to_the_inch(form.x_numerator, form.x_denominator, form.unit),
                     _to_the_inch(form.y_numerator, form.y_denominator, form.unit))
        codings.update((CODINGS[form.coding], None) for form in forms[:told.count])
        # Each call follows the chain of pages from its beginning.
        number, asked = number + told.count, min(2 * asked, _MOST_FORMS)
    if status not in (_c.END, _c.FAULT):
        raise refusal(status)
    return (*first, " ".join(codings)), number, status == _c.END


def _to_the_inch(numerator: int, denominator: int, unit: int) -> float:
    """A resolution to the inch; where it has no unit, as it stands."""
    return numerator * 254 / (denominator * 100) if unit == 3 else numerator / denominator


def _fields_of(path: bytes, data: bytes) -> bytes:
    """The fields of a fax, as libtiff's tiffdump prints them: of the bytes that were read, under the fax's name."""
    file = os.memfd_create("fax")
    try:
        with open(os.dup(file), "wb") as whole:
            whole.write(data)
        name = b"/dev/fd/%d" % file
        with subprocess.Popen([b"tiffdump", b"-m", b"%d" % PRINTED, name], stdin=subprocess.DEVNULL,
                              stdout=subprocess.PIPE, stderr=subprocess.DEVNULL, pass_fds=[file]) as process:
            assert process.stdout
            printed = process.stdout.read(_MOST_FIELDS + 1)
            if len(printed) > _MOST_FIELDS:
                process.kill()
                raise _NotWritten("Fields", f"more than {_MOST_FIELDS} bytes")
    except OSError as error:
        raise _NotWritten("Fields", error.strerror) from None
    finally:
        os.close(file)
    if process.returncode:
        raise _NotWritten("Fields", f"tiffdump ended with status {process.returncode}")
    head = name + b":\n"
    return path + b":\n" + printed[len(head):] if printed.startswith(head) else printed


def _has_rows(copy: bytes, original: bytes) -> bool:
    """Whether a copy can be read and has the rows of an original."""
    try:
        return same_rows(original, copy)
    except faxpages.FaxError:
        return False


def same_rows(one: bytes, other: bytes) -> bool:
    """Whether two files have the same pages with the same rows. The second one may be raw PBM."""
    if other[:2] == b"P4":
        other = faxpages.convert(other, "mmr")
    return all(mine == its for mine, its in itertools.zip_longest(_batches(one), _batches(other)))


class _Rooms:
    """Room for the rows of a call, which takes longer to make than a small fax to read: it is made once, and lent."""

    ROWS, BYTES = 8192, 1 << 20

    def __init__(self) -> None:
        self._free: List[Tuple[Any, Any, Any]] = []

    @contextlib.contextmanager
    def lent(self) -> Iterator[Tuple[Any, Any, Any]]:
        """Room for the runs of a row, for the lines of so many rows, and for so many of their bytes, which nobody else
        has meanwhile."""
        try:
            room = self._free.pop()
        except IndexError:
            room = (_c.U32 * _c.RUNS)(), (_c.Row * self.ROWS)(), ctypes.create_string_buffer(self.BYTES)
        try:
            yield room
        finally:
            self._free.append(room)


_rooms = _Rooms()


def _batches(data: bytes) -> Iterator[Tuple[int, bytes, bytes]]:
    """The rows of a file, some thousands at a time: how the call ended, a line for each row, and their bytes."""
    place, told = _c.Place(), _c.Told()
    status = _c.DONE
    with _rooms.lent() as (runs, rows, out):
        while status in (_c.DONE, _c.NO_ROOM):
            status = _c.library.faxpages_rows_from(data, len(data), place, runs, _c.RUNS, rows, _Rooms.ROWS, out,
                                                   _Rooms.BYTES, told)
            if status == _c.MEMORY:
                raise MemoryError("libfaxpages was refused memory")
            yield status, ctypes.string_at(rows, told.count * ctypes.sizeof(_c.Row)), ctypes.string_at(out, told.used)
