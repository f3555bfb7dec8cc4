"""sent.py SEED DAMAGED: prints a page of 1,728 pels as it is sent over the line, in MR of k 4, the lowest bit of a byte
first, and a return to control after it; and on the error stream its rows, as `faxpages rows` prints them. Where DAMAGED is
1, a row that is not coded by itself cannot be read, and it and those after it stand as the one above them, up to the next
that is. Where it is 2, one EOL too many stands before that row, which is then read as one row more that is lost."""

from __future__ import annotations

import os
import random
import sys

sys.dont_write_bytecode = True
TESTS = os.path.join(os.path.dirname(os.path.abspath(__file__)), os.pardir)

from tests.calls import plain  # noqa: E402
from tests.plain import drawing  # noqa: E402
from tests.plain.reading import runs_of  # noqa: E402
from tests.plain.tables import EOL  # noqa: E402

WIDTH, ROWS, K, DAMAGED = 1728, 60, 4, 17


def draw_rows(rng: random.Random) -> list[str]:
    rows, row = [], "W" * WIDTH
    for _ in range(ROWS):
        row = drawing.draw_row(rng, WIDTH, row)
        rows.append(row)
    return rows


def main() -> None:
    rng, damage = random.Random(int(sys.argv[1])), sys.argv[2]
    rows = draw_rows(rng)
    bits = plain.strip_bits("mr", K, False, rows)
    if damage != "0":
        before = len(plain.strip_bits("mr", K, False, rows[:DAMAGED]))
        after = len(plain.strip_bits("mr", K, False, rows[: DAMAGED + 1]))
        # The extension code; or an EOL before the row's own.
        damaged = EOL + "0" + "0000001111" + "1" * 20 if damage == "1" else EOL + "1" + bits[before:after]
        bits = bits[:before] + damaged + bits[after:]
        last = DAMAGED + K - DAMAGED % K
        rows[DAMAGED:last] = [rows[DAMAGED - 1]] * (last - DAMAGED + (damage == "2"))
    sys.stdout.buffer.write(plain.to_bytes(bits + 6 * (EOL + "1"), 2))
    for number, row in enumerate(rows):
        print("row 0", number, *runs_of(row), file=sys.stderr)
    print("end", file=sys.stderr)


main()
