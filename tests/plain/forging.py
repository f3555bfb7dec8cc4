"""Draws forged long cursors of each kind: texts that no run over the file needs to have printed."""

from __future__ import annotations

import random

from tests.plain.drawing import draw_row
from tests.plain.reading import End, Form, Place, cursor_text, runs_of

# A long cursor: a page, a row, and a place inside the row's strip.
Long = tuple[int, int, Place]
GREATEST = 2**32 - 1


def inner_rows(form: Form) -> list[int]:
    """The first rows of a page that are not the first of their strip, which long cursors may name."""
    return [row for row in range(1, min(form.rows, 40)) if row % form.height]


def bits_of_strip(form: Form, row: int) -> int:
    """How many bits the strip of a row has, as its page says; no more than a cursor can have."""
    return min(8 * form.counts[row // form.height], GREATEST)


def draw_runs(rng: random.Random, form: Form) -> list[int]:
    """The runs of any row of a page's width."""
    return runs_of(draw_row(rng, form.width, "W" * form.width))


def draw_base(rng: random.Random, forms: list[Form], printed: list[Long]) -> tuple[Long, Form | None]:
    """A long cursor to be changed, and the form of its page or none: one that a run prints, or one of any bits and
    runs at a row that may be named, where there is such a row."""
    if printed and rng.random() < 0.7:
        cursor = rng.choice(printed)
        return cursor, forms[cursor[0]]
    inner = [page for page, form in enumerate(forms) if inner_rows(form)]
    if not inner:
        return (rng.randrange(len(forms) + 2), rng.randrange(1, 4), (rng.randrange(40), [rng.randrange(1, 9)])), None
    page = rng.choice(inner)
    form = forms[page]
    row = rng.choice(inner_rows(form))
    return (page, row, (rng.randrange(bits_of_strip(form, row) + 1), draw_runs(rng, form))), form


# Each kind is made from a cursor of a page with this form.


def another_row(rng: random.Random, form: Form, cursor: Long) -> Long:
    page, row, place = cursor
    rows = [other for other in inner_rows(form) if other != row]
    return page, rng.choice(rows or [row]), place


def first_row(rng: random.Random, form: Form, cursor: Long) -> Long:
    page, _, place = cursor
    return page, form.height * rng.randrange(form.strips), place


def row_after(rng: random.Random, form: Form, cursor: Long) -> Long:
    page, _, place = cursor
    return page, rng.choice([form.rows, form.rows + 1, form.rows + form.height + 1, GREATEST]), place


def bits_after(rng: random.Random, form: Form, cursor: Long) -> Long:
    page, row, (_, runs) = cursor
    bits = bits_of_strip(form, row)
    return page, row, (rng.choice([min(bits + 1, GREATEST), min(bits + 8, GREATEST), GREATEST]), runs)


def any_bits(rng: random.Random, form: Form, cursor: Long) -> Long:
    page, row, (bits, runs) = cursor
    most = bits_of_strip(form, row)
    near = min(max(bits + rng.randrange(-12, 13), 0), most)
    return page, row, (rng.choice([near, rng.randrange(most + 1)]), runs)


def no_bits(rng: random.Random, form: Form, cursor: Long) -> Long:
    page, row, (_, runs) = cursor
    return page, row, (bits_of_strip(form, row), runs)


def zero_inside(rng: random.Random, form: Form, cursor: Long) -> Long:
    page, row, (bits, runs) = cursor
    at = rng.randrange(len(runs))
    first = rng.randrange(runs[at] + 1)
    return page, row, (bits, [*runs[:at], first, 0, runs[at] - first, *runs[at + 1 :]])


def another_sum(rng: random.Random, form: Form, cursor: Long) -> Long:
    page, row, (bits, runs) = cursor
    at = rng.randrange(len(runs))
    ways = [
        [*runs[:at], runs[at] + 1, *runs[at + 1 :]],
        [*runs[:at], max(runs[at] - 1, 0), *runs[at + 1 :]],
        [*runs, 1],
        runs[:-1] or [0],
        [*runs, GREATEST],
        [*runs, 2**31, 2**31],
        [GREATEST - form.width, *runs],
    ]
    return page, row, (bits, rng.choice(ways))


def another_reference(rng: random.Random, form: Form, cursor: Long) -> Long:
    page, row, (bits, _) = cursor
    return page, row, (bits, draw_runs(rng, form))


KINDS = {
    "another row": another_row,
    "first row of a strip": first_row,
    "row after the page": row_after,
    "bits after the strip": bits_after,
    "any bits": any_bits,
    "no bits left": no_bits,
    "run of zero": zero_inside,
    "another sum of runs": another_sum,
    "another reference": another_reference,
}


# Kinds of their own.


def draw_changed(rng: random.Random, kind: str, forms: list[Form], printed: list[Long]) -> Long:
    """A cursor of a kind that changes one."""
    cursor, form = draw_base(rng, forms, printed)
    return KINDS[kind](rng, form, cursor) if form else cursor


def draw_page_after(rng: random.Random, forms: list[Form], printed: list[Long]) -> Long:
    """A cursor after the last page that can be read, or far after."""
    (_, row, place), _ = draw_base(rng, forms, printed)
    return rng.choice([len(forms), len(forms), len(forms) + 1, GREATEST]), rng.choice([0, row]), place


def draw_damaged(rng: random.Random, forms: list[Form], printed: list[Long], end: End) -> Long | None:
    """A cursor in the strip at fault of a file that ends at one, with any bits or those before the fault; none
    where the file has no such strip."""
    if not isinstance(end, tuple) or end[0] >= len(forms):
        return None
    page, due, _ = end
    form = forms[page]
    strip = due // form.height
    rows = [row for row in inner_rows(form) if row // form.height == strip]
    if not rows:
        return None
    row = rng.choice(rows)
    own = [place for other, before, place in printed if other == page and before // form.height == strip]
    if own and rng.random() < 0.5:
        return page, row, own[-1]
    return page, row, (rng.randrange(bits_of_strip(form, row) + 1), draw_runs(rng, form))


# Each kind of text is made from a cursor's text.


def number_at(rng: random.Random, text: str) -> int:
    """The place of one of the numbers of a cursor's text after its version."""
    return rng.choice([place for place, mark in enumerate(text) if mark in ":,"]) + 1


def no_runs(rng: random.Random, text: str) -> str:
    return text.rsplit(":", 1)[0]


def empty_run(rng: random.Random, text: str) -> str:
    at = rng.randrange(text.rindex(":") + 1, len(text) + 1)
    return rng.choice([text.rsplit(":", 1)[0] + ":", text + ",", text[:at] + ",," + text[at:].lstrip(",")])


def leading_zero(rng: random.Random, text: str) -> str:
    at = number_at(rng, text)
    return text[:at] + "0" + text[at:]


def great_number(rng: random.Random, text: str) -> str:
    """A number of 33 bits, or the greatest of 32."""
    at = number_at(rng, text)
    return text[:at] + rng.choice(["4294967296", "4294967295", "9999999999"]) + text[at:].lstrip("0123456789")


def another_version(rng: random.Random, text: str) -> str:
    return rng.choice(["0", "1", "3", "22", "-2", "+2", " 2", ""]) + text[1:]


def another_mark(rng: random.Random, text: str) -> str:
    """A mark too many, another one, or one that is missing."""
    at, mark = rng.randrange(len(text)), rng.choice("0123456789:,,- +x٣\n")
    ways = [text[:at] + text[at + 1 :], text[:at] + mark + text[at:], text[:at] + mark + text[at + 1 :], text + mark]
    return rng.choice(ways)


TEXT_KINDS = {
    "no runs": no_runs,
    "empty run": empty_run,
    "leading zero": leading_zero,
    "great number": great_number,
    "another version": another_version,
    "another mark": another_mark,
}

ALL_KINDS = [*KINDS, "page after the last", *TEXT_KINDS, "list"]


def draw_cursor_text(rng: random.Random, kind: str, forms: list[Form], printed: list[Long]) -> str:
    """The text of a forged cursor of a kind; for `list` it is one that `rows` may take."""
    if kind == "page after the last":
        return cursor_text(*draw_page_after(rng, forms, printed))
    if kind in KINDS:
        return cursor_text(*draw_changed(rng, kind, forms, printed))
    text = cursor_text(*draw_base(rng, forms, printed)[0])
    return TEXT_KINDS[kind](rng, text) if kind in TEXT_KINDS else text
