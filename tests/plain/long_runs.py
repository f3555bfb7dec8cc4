"""Runs of `rows` with long cursors over drawn files, and what a plain reading says of them."""

from __future__ import annotations

import random
from typing import Iterator

from tests.plain.drawing import draw_limit, limit_near
from tests.plain.forging import ALL_KINDS, draw_cursor_text, draw_damaged
from tests.plain.reading import (
    NOT_A_CURSOR, START, Cursor, End, Form, Line, Text, cursor_of, cursor_text, lines_from, text_of,
)

# What is read, with its end and the cursor that it follows.
Read = tuple[list[Line], End, Cursor]
# A run: the part that it belongs to, its words, what is wanted, and traits of the file.
Run = tuple[str, list[str], Text, list[str]]


def words_of(command: str, text: str | None, limit: int | None, is_long: bool) -> list[str]:
    words = [command]
    if text is not None:
        words.append(f"--cursor={text}")
    if is_long:
        words.append("--long")
    if limit is not None:
        words.append(f"--max={limit}")
    return words


def traits_of(form: Form) -> list[str]:
    """How the page of a cursor is written."""
    names = {"exchanged": form.photometric == 1, "second order": form.order == 2, "aligned": form.aligned}
    return [form.coding, *(name for name, holds in names.items() if holds)]


def printing_runs(rng: random.Random, whole: Read, part: Read) -> Iterator[Run]:
    """A run that prints long cursors, from the file's start or from a cursor: these are its lines, their end and
    its cursor."""
    lines, end, cursor = rng.choice([whole, part])
    limit = draw_limit(rng, len(lines))
    words = words_of("rows", None if cursor == START else cursor_text(*cursor), limit, True)
    yield "rows --long", words, text_of(lines, end, cursor, limit, True), []


def resumed_runs(rng: random.Random, data: bytes, whole: Read, forms: list[Form]) -> Iterator[Run]:
    """Runs from a long cursor that a run over the file prints, where it prints one: with such cursors and
    without, with a limit and without. One is compared with what follows the cursor's row in the whole run, the
    others with what is read from the cursor's place."""
    lines, end, _ = whole
    places = [number for number, (_, short, long) in enumerate(lines) if long != short]
    if not places:
        return
    number = rng.choice(places)
    cursor = lines[number].long
    text, traits = cursor_text(*cursor), traits_of(forms[cursor[0]])
    left, stop = lines_from("rows", data, *cursor)
    rest = text_of(lines[number + 1 :], end, cursor, None)
    yield "printed", words_of("rows", text, None, False), rest, traits
    yield "printed, --long", words_of("rows", text, None, True), text_of(left, stop, cursor, None, True), traits
    for is_long, part in [(False, "printed, --max"), (True, "printed, --long --max")]:
        limit = limit_near(rng, len(left))
        yield part, words_of("rows", text, limit, is_long), text_of(left, stop, cursor, limit, is_long), traits


def forged_run(rng: random.Random, data: bytes, kind: str, text: str) -> Run:
    """A run from a forged long cursor with this text."""
    is_long, part = rng.random() < 0.5, f"forged: {kind}"
    if kind == "list":
        return part, words_of("list", text, None, False), NOT_A_CURSOR, []
    cursor = cursor_of(text)
    if cursor is None:
        return part, words_of("rows", text, None, is_long), NOT_A_CURSOR, []
    left, stop = lines_from("rows", data, *cursor)
    limit = draw_limit(rng, len(left))
    return part, words_of("rows", text, limit, is_long), text_of(left, stop, cursor, limit, is_long), []


def forged_runs(rng: random.Random, data: bytes, whole: Read, forms: list[Form]) -> Iterator[Run]:
    """Runs from forged long cursors of some kinds, and from one in the strip at fault, where there is one."""
    lines, end, _ = whole
    printed = [(long.page, long.row, long.inside) for _, _, long in lines if long.inside]
    for kind in rng.sample(ALL_KINDS, 3):
        yield forged_run(rng, data, kind, draw_cursor_text(rng, kind, forms, printed))
    damaged = draw_damaged(rng, forms, printed, end)
    if damaged:
        yield forged_run(rng, data, "damaged strip", cursor_text(*damaged))


def long_runs(rng: random.Random, data: bytes, whole: Read, part: Read, forms: list[Form]) -> Iterator[Run]:
    """All runs with long cursors over a file, as (part, words, what is wanted, traits): `whole` and `part` are
    lines, their end and the cursor that they follow, and `forms` its pages' forms."""
    yield from printing_runs(rng, whole, part)
    yield from resumed_runs(rng, data, whole, forms)
    yield from forged_runs(rng, data, whole, forms)
