# Pillow has no types here, or those of python3-typeshed, in which some calls have none.
# mypy: disable-error-code="import,misc,no-untyped-call,override"
# pyright: reportMissingImports=false
"""Pillow's image of a TIFF file, which refuses a damaged fax. Only _plugin imports it, since it imports Pillow."""

from __future__ import annotations

import io
import struct
from typing import Any, Iterator, NamedTuple, NoReturn, Optional, Set, Tuple

import PIL.TiffImagePlugin as pillow

from ._raster import MOST_ROWS, MOST_WIDTH
from ._strips import MOST_BYTES, check_strip, strip
from ._told import MOST
from .faults import BadField, DirectoryLoop, DirectoryOutside, Fault, MissingField, StripOutside

_T4_OPTIONS, _TILE_OFFSETS = 292, 324
_CLASSIC = (b"II*\0", b"MM\0*")
# Compression: rows of T.4 without EOLs, each from a byte on; T.4; T.6.
_BARE, _T4, _T6 = 2, 3, 4
# Fields of a fax that have one number. Of one with more, or that stands twice, Pillow, libtiff and faxpages take another.
_SINGLE = frozenset((pillow.IMAGEWIDTH, pillow.IMAGELENGTH, pillow.BITSPERSAMPLE, pillow.COMPRESSION,
                     pillow.PHOTOMETRIC_INTERPRETATION, pillow.FILLORDER, pillow.SAMPLESPERPIXEL, pillow.ROWSPERSTRIP,
                     _T4_OPTIONS))
# The types SHORT and LONG of a field.
_KINDS = {3: "H", 4: "L"}


class _Form(NamedTuple):
    """The form of a frame that is a fax."""

    width: int
    rows: int
    compression: int
    order: int


class TiffImageFile(pillow.TiffImageFile):
    """Pillow's own image of a TIFF file; but if its frame is a fax, faxpages reads the data before Pillow decodes them,
    and a damaged fax is an OSError that names the page, the row and the fault."""

    fp: Any
    tag_v2: Any
    tile: Any
    mode: str
    _seeks = False
    _chain: Optional[Tuple[int, Optional[Fault]]] = None

    def load(self) -> Any:
        """Loads the pels of the frame."""
        if self.tile and self.fp is not None:
            self._check()
        return super().load()

    def verify(self) -> None:
        """Reads all pages of a file whose frame is a fax; Pillow's own reads nothing."""
        try:
            if self.fp is not None and _form_of(self):
                self._check_pages()
        except (IndexError, KeyError, SyntaxError, TypeError, struct.error) as error:
            raise OSError(f"a directory is damaged: {error}") from error
        super().verify()

    @property
    def n_frames(self) -> int:
        """How many frames there are."""
        # Pillow's seek asks for it too, and frames before the damage can be gone to.
        if self._seeks:
            return int(super().n_frames)
        self._refuse_lost(MOST)
        frames: int = super().n_frames
        self._refuse_dropped(frames)
        return frames

    def seek(self, frame: int) -> None:
        """Goes to a frame."""
        self._refuse_lost(frame)
        self._seeks = True
        try:
            super().seek(frame)
        except EOFError:
            self._refuse_dropped(frame)
            raise
        finally:
            self._seeks = False

    @property
    def load_seek(self) -> Any:
        """Pillow's Parser decodes by itself what has no such attribute, and loads all else."""
        if _form_of(self) is None:
            raise AttributeError("load_seek")
        return self.fp.seek

    def __reduce_ex__(self, _protocol: Any) -> Tuple[Any, ...]:
        """It is pickled as Pillow's own, with its pels, so that faxpages is not needed to load it."""
        make, (_, *words), state = super().__reduce_ex__(1)
        return make, (pillow.TiffImageFile, *words), state

    def _check(self) -> None:
        """Reads the data of the frame, if it is a fax."""
        form = _form_of(self)
        if form is None:
            return
        at, page = self.fp.tell(), self.tell()
        try:
            self._follow_chain()
            _see_single(self)
            coding = "mmr" if form.compression == _T6 else "mr" if _t4_options(self) & 1 else "mh"
            for first, rows, data in _strips_of(self, form):
                fault = _fault_of(data, rows, form, coding)
                if fault:
                    raise type(fault)(fault.name, page, first + fault.row)
        except Fault as fault:
            _refuse(fault)
        finally:
            self.fp.seek(at)

    def _check_pages(self) -> None:
        """Reads the data of all frames that are faxes."""
        for frame in range(self.n_frames):
            self.seek(frame)
            self._check()

    def _refuse_lost(self, frame: int) -> None:
        """Whether a fax has a damaged directory before a frame or there."""
        count, fault = self._follow_chain()
        if fault and frame >= count:
            _refuse(fault)

    def _refuse_dropped(self, frame: int) -> None:
        """Whether a fax has this frame, which Pillow has not: it drops those after a field that it cannot read."""
        count, _ = self._follow_chain()
        if 0 <= frame < count:
            raise OSError(f"page {frame} of {count} is not read by Pillow, since a field before it is damaged")

    def _follow_chain(self) -> Tuple[int, Optional[Fault]]:
        """How many directories the file has, if it begins with a fax, and why no more can be read. Pillow may close the
        file, so they are counted once, at the first frame."""
        if self._chain is None and self.fp is not None:
            at = self.fp.tell()
            self._chain = _chain_of(self.fp) if _form_of(self) else (0, None)
            self.fp.seek(at)
        return self._chain or (0, None)


def _refuse(fault: Fault) -> NoReturn:
    raise OSError(str(fault)) from fault


def _form_of(image: TiffImageFile) -> Optional[_Form]:
    """The form of the frame before an image, or None where it is no fax that faxpages reads, as one too wide."""
    tags = image.tag_v2
    width, rows = tags.get(pillow.IMAGEWIDTH), tags.get(pillow.IMAGELENGTH)
    compression, order = tags.get(pillow.COMPRESSION), tags.get(pillow.FILLORDER, 1)
    numbers = width, rows, compression, order
    if image.mode != "1" or _TILE_OFFSETS in tags or not all(isinstance(number, int) for number in numbers):
        return None
    if compression not in (_BARE, _T4, _T6) or not (0 < width <= MOST_WIDTH and 0 < rows <= MOST_ROWS):
        return None
    return _Form(width, rows, compression, order)


def _strips_of(image: TiffImageFile, form: _Form) -> Iterator[Tuple[int, int, bytes]]:
    """The strips of a fax: the first row of each, its rows and its bytes. Raises the fault of the next one."""
    (height,) = _numbers(image, pillow.ROWSPERSTRIP, 1, form.rows)
    firsts = range(0, form.rows, height)
    offsets, sizes = (_numbers(image, tag, len(firsts)) for tag in (pillow.STRIPOFFSETS, pillow.STRIPBYTECOUNTS))
    image.fp.seek(0, io.SEEK_END)
    end = image.fp.tell()
    for first, offset, size in zip(firsts, offsets, sizes):
        if offset + size > end:
            raise StripOutside("StripOutside", image.tell(), first)
        image.fp.seek(offset)
        yield first, min(height, form.rows - first), image.fp.read(min(size, MOST_BYTES))


def _numbers(image: TiffImageFile, tag: int, count: int, absent: Optional[int] = None) -> Tuple[int, ...]:
    """The numbers of a field that has at least so many, none of which is below 0; that of rows is above 0."""
    found = image.tag_v2.get(tag, absent)
    if found is None:
        raise MissingField("MissingField", image.tell(), 0, tag)
    numbers: Tuple[Any, ...] = found if isinstance(found, tuple) else (found,)
    least = 0 if absent is None else 1
    if len(numbers) < count or not all(isinstance(number, int) and number >= least for number in numbers):
        raise BadField("BadField", image.tell(), 0, tag)
    return numbers


def _fault_of(data: bytes, rows: int, form: _Form, coding: str) -> Optional[Fault]:
    """The fault of a strip, or None."""
    if form.compression == _BARE:
        return strip(data, form.width, rows, "mh", form.order, byte_align=True, eols=False, partial=True).fault
    return check_strip(data, form.width, rows, coding, form.order).fault


class _Directory(NamedTuple):
    """The entries of a directory, and where the next one is, which is 0 after the last."""

    entries: bytes
    after: int


def _directory_at(file: Any, at: int, order: str) -> Optional[_Directory]:
    """The directory at a place, or None where it is not all in the file."""
    file.seek(at)
    (count,) = struct.unpack(order + "H", file.read(2).rjust(2, b"\0"))
    entries, after = file.read(12 * count), file.read(4)
    return _Directory(entries, *struct.unpack(order + "L", after)) if len(after) == 4 else None


def _order_of(file: Any) -> Tuple[str, int]:
    """The order of bytes of a TIFF-F file, and where its first directory is; of a BigTIFF it is nowhere."""
    file.seek(0)
    header = file.read(8)
    order = "<" if header[:2] == b"II" else ">"
    return order, struct.unpack(order + "L", header[4:])[0] if header[:4] in _CLASSIC else 0


def _chain_of(file: Any) -> Tuple[int, Optional[Fault]]:
    """How many directories a file has, and why no more can be read."""
    seen: Set[int] = set()
    order, at = _order_of(file)
    while at:
        directory = _directory_at(file, at, order)
        if at in seen or directory is None:
            kind = DirectoryLoop if at in seen else DirectoryOutside
            return len(seen), kind(kind.__name__, len(seen), 0)
        seen.add(at)
        at = directory.after
    return len(seen), None


def _see_single(image: TiffImageFile) -> None:
    """Looks whether each field of one number stands once, and has one."""
    order, first = _order_of(image.fp)
    directory = _directory_at(image.fp, image.tag_v2.offset, order) if first else None
    seen: Set[int] = set()
    for tag, _, count, _ in struct.iter_unpack(order + "HHL4s", directory.entries if directory else b""):
        if tag in _SINGLE and (tag in seen or count != 1):
            raise BadField("BadField", image.tell(), 0, tag)
        seen.add(tag)


def _t4_options(image: TiffImageFile) -> int:
    """The field T4Options, which Pillow drops where a value before it is not in the file."""
    found = image.tag_v2.get(_T4_OPTIONS)
    order, first = _order_of(image.fp)
    directory = _directory_at(image.fp, image.tag_v2.offset, order) if found is None and first else None
    for tag, kind, count, value in struct.iter_unpack(order + "HHL4s", directory.entries if directory else b""):
        if tag == _T4_OPTIONS:
            found = struct.unpack_from(order + _KINDS[kind], value)[0] if kind in _KINDS and count == 1 else b""
    if found is not None and not isinstance(found, int):
        raise BadField("BadField", image.tell(), 0, _T4_OPTIONS)
    return found or 0
