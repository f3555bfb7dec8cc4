"""The faxes that the drawn operator puts into its trees: what each is by construction, and what the program says."""

import functools
import hashlib
import os
import re
import struct
import subprocess
from typing import FrozenSet, Iterable, Iterator, List, NamedTuple, Optional, Set, Tuple
from types import ModuleType

from tests.convert import files, pages
from tests.finding import found

ENTRY = 12
# What stands in the fields of some faxes.
WORDS = [b"a description", b"a sub address", b"what nobody knows"]
OTHER, OTHER_KINDS = 2, ("Unsupported", "Magic", "ByteOrder")


class Content(NamedTuple):
    """The bytes of a fax, what a converted copy of it lacks, by how it was made, and the same with a bit that has
    turned: so that it has other rows, other fields, or a fault."""

    data: bytes
    lacks: FrozenSet[str] = frozenset()
    turned: Tuple[bytes, ...] = ()


class Verdict(NamedTuple):
    """What the program says of a fax; of a fault that files of other kinds have, its status is 2."""

    status: int
    fault: Optional[str] = None
    page: Optional[int] = None
    row: Optional[int] = None
    tag: Optional[int] = None


def with_field(fax: bytes, tag: int, value: bytes) -> bytes:
    """A fax of one page with one more field of bytes. Where its directory stood are zeros."""
    return _with_entry(fax, tag, 2, value)


def with_number(fax: bytes, tag: int, value: int) -> bytes:
    """The same with one more field of one LONG."""
    return _with_entry(fax, tag, 4, struct.pack("<I", value))


def _with_entry(fax: bytes, tag: int, kind: int, value: bytes) -> bytes:
    """The same with a field of bytes, which stand before the directory, or of one number, which it has itself."""
    (at,) = struct.unpack_from("<I", fax, 4)
    (count,) = struct.unpack_from("<H", fax, at)
    end = at + 2 + ENTRY * count
    entries = [fax[at + 2 + ENTRY * number:at + 2 + ENTRY * (number + 1)] for number in range(count)]
    whole = bytearray(fax)
    whole[at:end + 4] = bytes(end + 4 - at)
    whole += bytes(len(whole) % 2)
    said = struct.pack("<I", 1) + value if kind == 4 else struct.pack("<II", len(value), len(whole))
    whole += value + bytes(len(value) % 2) if kind != 4 else b""
    place = len(whole)
    entries.append(struct.pack("<HH", tag, kind) + said)
    entries.sort(key=lambda entry: struct.unpack_from("<H", entry))
    whole[4:8] = struct.pack("<I", place)
    return bytes(whole + struct.pack("<H", count + 1) + b"".join(entries) + bytes(4))


def with_value(fax: bytes, tags: Iterable[int], value: int) -> bytes:
    """A fax of one page whose fields of these tags have another value."""
    whole = bytearray(fax)
    (at,) = struct.unpack_from("<I", fax, 4)
    (count,) = struct.unpack_from("<H", fax, at)
    for number in range(count):
        (tag,) = struct.unpack_from("<H", fax, at + 2 + ENTRY * number)
        if tag in tags:
            struct.pack_into("<I", whole, at + 2 + ENTRY * number + 8, value)
    return bytes(whole)


def without_resolution(fax: bytes) -> bytes:
    """A fax of one page whose horizontal resolution has 0 below the line."""
    whole = bytearray(fax)
    (at,) = struct.unpack_from("<I", fax, 4)
    (count,) = struct.unpack_from("<H", fax, at)
    for number in range(count):
        tag, _, _, place = struct.unpack_from("<HHII", whole, at + 2 + ENTRY * number)
        if tag == 282:
            struct.pack_into("<I", whole, place + 4, 0)
    return bytes(whole)


def drawn(faxpages: ModuleType, seed: int) -> List[Content]:
    """Some faxes: good ones in each coding, some with what a copy lacks, and damaged ones."""
    rng = pages.seeded("operator", seed)
    image = pages.image(40, [pages.draw_row(rng, "noise", 40, number, 0) for number in range(8)])
    second = pages.image(16, pages.draw_page(rng, "marks", 16))
    plain = [faxpages.convert(image, to, order) for to, order in (("mh", 1), ("mr", 2), ("mmr", 1))]
    found = [Content(data) for data in plain]
    found.append(Content(faxpages.convert(image + second, "mmr")))
    found.append(Content(faxpages.convert(second, "mh")))
    found.append(Content(with_value(plain[2], (257, 278), 3), frozenset(["data"])))
    for fax, tag, words, lacks in zip(plain, (270, 34909, 65000), WORDS, ("fields", "fields", "private")):
        found.append(Content(with_field(fax, tag, words + b"\0"), frozenset([lacks])))
    found.append(Content(without_resolution(plain[2]), frozenset(["resolution"])))
    found.append(Content(plain[0] + b"\0\0\0\0more of it", frozenset(["bytes"])))
    found += [Content(data) for data in damaged(faxpages)]
    found.append(Content(plain[0][:-20]))
    found.append(Content(with_value(plain[2], (259,), 5)))
    found.append(Content(b""))
    found.append(Content(b"no fax at all"))
    return [it._replace(turned=turned(faxpages, it.data)) for it in found]


def damaged(faxpages: ModuleType) -> List[bytes]:
    """Damaged faxes of which rows can be salvaged: of one page whose receiver counted bad rows, in MH and MMR; and of
    two pages, of which the second one is damaged."""
    rng = pages.seeded("damaged", 1)
    image = pages.image(40, [pages.draw_row(rng, "noise", 40, number, 0) for number in range(8)])
    found = []
    for to, tag, value in (("mh", 326, 3), ("mmr", 327, 1)):
        fax = with_number(faxpages.convert(image, to), tag, value)
        found.append(next(it for it in (with_bit(fax, bit) for bit in bits_of_strips(fax))
                          if faxpages.check(it).fault and faxpages.check(it).rows > 2))
    two = faxpages.convert(image + image, "mh")
    found.append(next(it for it in (with_bit(two, bit) for bit in reversed(list(bits_of_strips(two))))
                      if faxpages.check(it).fault and faxpages.check(it).pages == 1))
    return found


def with_bit(data: bytes, bit: int) -> bytes:
    """The same bytes, one bit of which has turned."""
    return data[:bit // 8] + bytes([data[bit // 8] ^ 1 << bit % 8]) + data[bit // 8 + 1:]


@functools.lru_cache(maxsize=None)
def turned(faxpages: ModuleType, fax: bytes) -> Tuple[bytes, ...]:
    """A good fax with a bit that has turned: one each with other rows and the same notes, with other words in a field,
    and with a fault; of what is no good fax nothing."""
    report = faxpages.check(fax)
    if report.fault:
        return ()
    rows, found = rows_of(faxpages, fax), dict[str, bytes]()
    places = [fax.index(words) for words in WORDS if words in fax]
    if places:
        found["fields"] = with_bit(fax, 8 * places[0])
    for bit in bits_of_strips(fax):
        data = with_bit(fax, bit)
        now = faxpages.check(data)
        if now.fault:
            found.setdefault("fault", data)
        elif now.notes == report.notes and rows_of(faxpages, data) != rows:
            found.setdefault("rows", data)
        if {"fault", "rows"} <= set(found):
            break
    return tuple(found.values())


def bits_of_strips(fax: bytes) -> Iterator[int]:
    """The places of the bits of all strips."""
    for fields in files.directories_of(fax):
        for place, size in zip(fields[273], fields[279]):
            yield from range(8 * place, 8 * (place + size))


def rows_of(faxpages: ModuleType, fax: bytes) -> List[List[Tuple[int, ...]]]:
    """The rows of a whole fax, page by page."""
    return [[tuple(row.runs()) for row in page] for page in faxpages.Fax(fax).pages]


class Teller:
    """What the program and the library say of bytes, each asked once."""

    def __init__(self, faxpages: ModuleType, program: str) -> None:
        self._faxpages, self._program = faxpages, program
        self.verdict = functools.lru_cache(maxsize=None)(self._verdict)
        self.copy = functools.lru_cache(maxsize=4096)(self._copy)
        self.salvaged = functools.lru_cache(maxsize=4096)(self._salvaged)
        self.fields = functools.lru_cache(maxsize=4096)(self._fields)
        self.counts = functools.lru_cache(maxsize=None)(self._counts)
        # All that was salvaged.
        self.pieces: Set[bytes] = set()

    def _verdict(self, data: bytes) -> Verdict:
        ran = subprocess.run([self._program, "check"], input=data, capture_output=True, check=False)
        if ran.returncode == 0:
            return Verdict(0)
        page, row, name, _, tag = found(r"\Afault page (\d+) row (\d+): (\w+)( (\d+))?", ran.stderr.decode()).groups()
        status = OTHER if name in OTHER_KINDS and ran.returncode == 1 else ran.returncode
        return Verdict(status, name, int(page), int(row), int(tag) if tag else None)

    def _copy(self, data: bytes, words: Tuple[str, ...]) -> bytes:
        """The copy as the program writes it."""
        ran = subprocess.run([self._program, "convert", "-o", *words], input=data, capture_output=True, check=True)
        return ran.stdout

    def _salvaged(self, data: bytes, words: Tuple[str, ...]) -> Optional[bytes]:
        """What the program salvages of a damaged fax, if a page has a form."""
        ran = subprocess.run([self._program, "salvage", "-o", *words], input=data, capture_output=True, check=False)
        self.pieces.update([ran.stdout] if ran.stdout else [])
        return ran.stdout or None

    def _counts(self, data: bytes) -> Tuple[Optional[int], Optional[int]]:
        """How many bad rows receivers counted on the pages that can be listed; and how many rows are lost, where all
        pages can be listed."""
        counted, lost = list[int](), 0
        try:
            for page in self._faxpages.Fax(data).pages:
                counted.append(page.received.bad_rows or int(bool(page.received.clean)))
                lost += sum(stretch.rows for stretch in page.salvaged().lost)
        except self._faxpages.FaxError:
            return sum(counted) if counted else None, None
        return sum(counted), lost

    def _fields(self, data: bytes, name: bytes) -> bytes:
        """The fields as tiffdump prints them, under a name."""
        file = os.memfd_create("fields")
        with os.fdopen(file, "wb") as whole:
            whole.write(data)
            whole.flush()
            path = b"/dev/fd/%d" % file
            said = subprocess.run([b"tiffdump", b"-m", b"1000000", path], capture_output=True, check=True,
                                  pass_fds=[file]).stdout
        return name + said[len(path):]


def digest(data: bytes) -> str:
    return hashlib.sha256(data).hexdigest()[:12]


