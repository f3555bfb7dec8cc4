"""Leaves out of sources that are erased what only proofs had a use for: fields, functions, imports and labels.
Parameters that are left without a use get a name with an underscore. rustc then warns of nothing that is unused."""

from __future__ import annotations

import re
from collections.abc import Iterator

from erasing import CLOSING, Eraser, Refused, Token

# The fields that only proofs read, by their crate and their struct; of a variant the number of those that stay.
FIELDS: dict[str, dict[str, str | int]] = {
    "fax_files": {"Cycle": "start"},
    "fax_walk": {"Salvage": "file", "SalvagePage": "form", "Strip": 1, "Uncounted": 1},
}

# The functions that only laws call, by their crate and their module.
FUNCTIONS: dict[str, dict[str, str]] = {"fax_walk": {"pages": "lemma_forms_left", "walk": "lemma_items_left"}}


def counts(token: Token) -> bool:
    return token.kind not in ("space", "comment")


def step(tokens: list[Token], at: int, by: int) -> int:
    """The place of the next token that counts, or of the one before, or one that is none."""
    at += by
    while 0 <= at < len(tokens) and not counts(tokens[at]):
        at += by
    return at


def text_at(tokens: list[Token], at: int) -> str:
    return tokens[at].text if 0 <= at < len(tokens) else ""


def end_of_group(tokens: list[Token], at: int) -> int:
    """The place after the bracket that closes the one here."""
    depth = 0
    while at < len(tokens):
        depth += (tokens[at].text in CLOSING) - (tokens[at].text in CLOSING.values())
        at += 1
        if depth == 0:
            break
    return at


def end_of_generics(tokens: list[Token], at: int) -> int:
    """The place after <..>, if that is what is here."""
    depth = 0
    while text_at(tokens, at) == "<" or depth:
        depth += (tokens[at].text == "<") - (tokens[at].text == ">" and text_at(tokens, at - 1) not in ("-", "="))
        at = step(tokens, at, 1)
    return at


def parts_of(tokens: list[Token], begin: int, end: int) -> list[tuple[int, int]]:
    """What stands between the commas of a group, each with the comma after it."""
    parts, depth, since = [], 0, begin + 1
    for at in range(begin + 1, end - 1):
        text = tokens[at].text
        depth += (text in CLOSING or text == "<") - (text in CLOSING.values())
        depth -= text == ">" and text_at(tokens, at - 1) not in ("-", "=")
        if depth == 0 and text == ",":
            parts.append((since, at + 1))
            since = at + 1
    if any(counts(token) for token in tokens[since : end - 1]):
        parts.append((since, end - 1))
    return parts


def is_type(tokens: list[Token], at: int) -> bool:
    """Whether the name of a struct stands here as a type, and not before its fields."""
    before = step(tokens, at, -1)
    arrow = text_at(tokens, before) == ">" and text_at(tokens, before - 1) != "="
    return text_at(tokens, before) in ("impl", "for") or arrow


def is_field(part: list[Token], name: str) -> bool:
    """Whether this declares or sets the field of a name."""
    words = [token.text for token in part if counts(token)]
    return re.match(rf"(?:pub(?:\((?:crate|super)\))?)?{name}(?:[:,]|$)", "".join(words)) is not None


def takes_effect(part: list[Token]) -> bool:
    """Whether more than names and types is here, as a call is."""
    return any(token.text in ("(", "?", "!") for token in part if counts(token) and token.text != "pub")


def without_field(eraser: Eraser, struct: str, field: str | int) -> bool:
    """Leaves a field out, where its struct is declared and made, or all after so many of a variant."""
    tokens, found, at = eraser.out, False, 0
    opening = "(" if isinstance(field, int) else "{"
    while at < len(tokens):
        begin = step(tokens, at, 1)
        begin = end_of_generics(tokens, begin) if text_at(tokens, step(tokens, at, -1)) == "struct" else begin
        if tokens[at].text == struct and text_at(tokens, begin) == opening and not is_type(tokens, at):
            parts = parts_of(tokens, begin, end_of_group(tokens, begin))
            left_out = [part for number, part in enumerate(parts)
                        if (number >= field if isinstance(field, int) else is_field(tokens[slice(*part)], field))]
            for part in reversed(left_out):
                if takes_effect(tokens[slice(*part)]):
                    raise Refused(f"{eraser.path}:{tokens[at].line}: more than a name is set in what is left out")
                found = True
                del tokens[slice(*part)]
            close = end_of_group(tokens, begin) - 1
            if left_out and opening == "(" and text_at(tokens, close - 1) == ",":
                del tokens[close - 1]
        at += 1
    return found


def traits_of(erasers: list[Eraser]) -> set[str]:
    """The traits that sources declare."""
    return {text_at(eraser.out, step(eraser.out, at, 1)) for eraser in erasers
            for at, token in enumerate(eraser.out) if token.kind == "word" and token.text == "trait"}


def without_imports(eraser: Eraser, traits: set[str]) -> None:
    """Leaves out each import whose name only what is erased has, or nothing. A trait needs no name to be used."""
    tokens, at = eraser.out, 0
    uses = [at for at, token in enumerate(tokens)
            if token.text == "use" and text_at(tokens, step(tokens, at, -1)) != "pub"]
    ends = {at: next(end for end in range(at, len(tokens)) if tokens[end].text == ";") for at in uses}
    inside = {place for at in uses for place in range(at, ends[at])}
    used = {token.text for place, token in enumerate(tokens) if counts(token) and place not in inside}
    for at in reversed(uses):
        said = "".join(token.text for token in tokens[at : ends[at]] if token.kind != "comment")
        names = re.findall(r"(\w+)\s*(?=[,}]|$)", said)
        seen = eraser.erased | (set(names) if re.match(r"use (?:crate|fax_\w+)::", said) else set()) - {"self"}
        idle = [name for name in names if name not in used | traits and name in seen]
        if idle and idle == names:
            del tokens[at : ends[at] + (2 if text_at(tokens, ends[at] + 1).count("\n") == 1 else 1)]
        elif idle:
            kept = [part for part in re.split(r"\s*,\s*", said[said.index("{") + 1 : said.rindex("}")].strip())
                    if part and part not in idle]
            group = kept[0] if len(kept) == 1 else f"{{{', '.join(kept)}}}"
            tokens[at : ends[at]] = [Token("word", said[: said.index("{")] + group, tokens[at].line)]


def functions(tokens: list[Token]) -> Iterator[tuple[int, int, int, int]]:
    """Of each function with a body where its parameters begin and end, and its body."""
    for at, token in enumerate(tokens):
        if token.text == "fn" and token.kind == "word" and re.match(r"\w", text_at(tokens, step(tokens, at, 1))):
            begin = end_of_generics(tokens, step(tokens, step(tokens, at, 1), 1))
            end = body = end_of_group(tokens, begin)
            while text_at(tokens, body) not in ("{", ";"):
                body = step(tokens, body, 1)
            if text_at(tokens, body) == "{":
                yield begin, end, body, end_of_group(tokens, body)


def is_of_value(tokens: list[Token], at: int) -> bool:
    """Whether the name here is a field or a method, after a point that is none of a range."""
    return text_at(tokens, at - 1) == "." and text_at(tokens, at - 2) != "."


def without_function(eraser: Eraser, name: str) -> bool:
    """Leaves a function out, with the comments above it."""
    tokens = eraser.out
    for begin, _, _, end in functions(tokens):
        at = step(tokens, begin, -1)
        if tokens[at].text == name:
            while at > 0 and tokens[at - 1].text != "{" and tokens[at - 1].text.count("\n") < 2:
                at -= 1
            del tokens[at:end]
            return True
    return False


def name_parameters(eraser: Eraser) -> None:
    """Gives each parameter without a use a name with an underscore."""
    tokens = eraser.out
    for begin, end, body, body_end in functions(tokens):
        inside = range(body, body_end)
        used = {tokens[at].text for at in inside if tokens[at].kind == "word" and not is_of_value(tokens, at)}
        texts = "".join(tokens[at].text for at in inside if tokens[at].kind == "text")
        for first, last in parts_of(tokens, begin, end):
            at = first if counts(tokens[first]) else step(tokens, first, 1)
            name = tokens[at].text
            is_named = at < last and text_at(tokens, step(tokens, at, 1)) == ":" and tokens[at].kind == "word"
            if is_named and name not in used and not name.startswith("_") and f"{{{name}" not in texts:
                tokens[at] = Token("word", f"_{name}", tokens[at].line)


def without_labels(eraser: Eraser) -> None:
    """Leaves out each label of a loop that nothing in the loop names."""
    tokens = eraser.out
    for at in reversed(range(len(tokens))):
        colon = step(tokens, at, 1)
        loop = step(tokens, colon, 1)
        is_loop = text_at(tokens, colon) == ":" and text_at(tokens, loop) in ("loop", "while", "for")
        if tokens[at].kind != "lifetime" or not is_loop:
            continue
        begin = next(place for place in range(loop, len(tokens)) if tokens[place].text == "{")
        named = [token for token in tokens[begin : end_of_group(tokens, begin)] if token.text == tokens[at].text]
        if not named:
            del tokens[at:loop]


def leave_out(crate: str, erasers: list[Eraser], traits: set[str]) -> None:
    """Leaves out of the sources of a crate what only its proofs use. The traits are those of the crates below; its
    own are added."""
    for struct, field in FIELDS.get(crate, {}).items():
        if not [eraser for eraser in erasers if without_field(eraser, struct, field)]:
            raise Refused(f"{crate}: no field {field} of {struct}, which tools/only_proofs.py leaves out")
    for module, name in FUNCTIONS.get(crate, {}).items():
        if not [eraser for eraser in erasers if eraser.module == module and without_function(eraser, name)]:
            raise Refused(f"{crate}: no function {name} in {module}, which tools/only_proofs.py leaves out")
    traits |= traits_of(erasers)
    for eraser in erasers:
        without_imports(eraser, traits)
        name_parameters(eraser)
        without_labels(eraser)
