"""receivers.py COUNT [SEED]: draws files whose pages have the fields of bad rows, or some of them, good and bad, and prints
what the plain reading finds, a line a page, for the callers received.c, received.py and received.rs:

PAGE STATUS FAULT TAG BAD_ROWS CLEAN CONSECUTIVE DATA: the page, the status of the call with the fault and its tag, or 0,
    and the three numbers, of which one that the page has not is `-`

Each file's last line is of the page after its last one, or of the one after that. The plain reading shares no code with
the library.
"""

from __future__ import annotations

import random
import sys
from typing import Iterator

from tests.library.lines import digits
from tests.plain import drawing, reading
from tests.plain.reading import Fault

TAGS = {"bad_rows": 326, "clean": 327, "consecutive": 328}
FAULTS = {
    "ShortHeader": 1, "ByteOrder": 2, "Magic": 3, "NoDirectory": 4, "DirectoryOutside": 5, "DirectoryLoop": 6,
    "MissingField": 7, "BadField": 8, "Unsupported": 9, "OutOfLimits": 10}
DONE, END, FAULT, OUTSIDE = range(4)
# SHORT and LONG, and types that no number of these has: BYTE, ASCII, RATIONAL, SLONG and one that is none.
GOOD, BAD = [3, 4], [1, 2, 5, 9, 99]
NUMBERS = [0, 0, 1, 2, 23, 65_535, 65_536, 2**32 - 1]


class Receiver(drawing.Builder):
    """A file of a receiver that counted bad rows, or did not."""

    def put_directory(self, entries: list[bytes], next_offset: int) -> None:
        for tag in TAGS.values():
            for _ in range(self.rng.choice([0, 1, 1, 1, 1, 2])):
                entries.insert(self.rng.choice([0, len(entries)]), self.field(tag))
        super().put_directory(entries, next_offset)

    def field(self, tag: int) -> bytes:
        """A field of one number, mostly as it should be."""
        rng = self.rng
        if rng.random() < 0.5:
            return self.numbers(tag, [rng.choice(NUMBERS)])
        kind = rng.choice(GOOD * 3 + BAD)
        count = rng.choice([0, 1, 1, 2, 3, 2**31, 2**32 - 1])
        end = len(self.data)
        place = rng.choice([0, rng.randrange(end), end + rng.randrange(-4, 400), 2**32 - 1, rng.randrange(2**32)])
        return self.number(tag, 2) + self.number(kind, 2) + self.number(count, 4) + self.number(place, 4)


def draw_file(rng: random.Random) -> bytes:
    builder = Receiver(rng)
    for _ in range(rng.choice([1, 1, 2, 3])):
        drawing.draw_page(rng, builder)
    data = bytes(builder.data)
    if rng.random() < 0.2:
        data = drawing.flip_bits(rng, data, rng.randrange(1, 6), 0, len(data))
    return data[:rng.randrange(len(data))] if rng.random() < 0.05 else data


def number_at(file: reading.File, entries: reading.Entries, tag: int) -> str:
    """The number of a field, or `-`."""
    try:
        return str(reading.scalar(file, entries, tag))
    except Fault:
        return "-"


def fault_words(fault: Fault) -> str:
    """The status, the fault and its tag, and no numbers."""
    name, tag = (*fault.args, 0)[:2]
    return f"{FAULTS[str(name)]} {tag} - - -"


def lines_of(rng: random.Random, data: bytes) -> Iterator[str]:
    """The pages of a file, without its bytes."""
    try:
        file = reading.File(data)
    except Fault as fault:
        yield f"{rng.randrange(3)} {FAULT} {fault_words(fault)}"
        return
    pages, ended = reading.chain(file)
    for number, entries in enumerate(pages):
        try:
            reading.read_form(file, entries)
        except Fault as fault:
            yield f"{number} {FAULT} {fault_words(fault)}"
        else:
            numbers = [number_at(file, entries, tag) for tag in TAGS.values()]
            yield " ".join([f"{number} {DONE} 0 0", *numbers])
    after = rng.randrange(2)
    if ended is not None:
        yield f"{len(pages) + after} {FAULT} {fault_words(ended)}"
    else:
        yield f"{len(pages) + after} {OUTSIDE if after else END} 0 0 - - -"


def main() -> None:
    seed = sys.argv[2] if len(sys.argv) > 2 else "1"
    for number in range(int(sys.argv[1])):
        rng = random.Random(f"receivers {seed} {number}")
        data = draw_file(rng)
        for line in lines_of(rng, data):
            print(line, digits(data))


if __name__ == "__main__":
    main()
