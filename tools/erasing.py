"""Takes out of a source what only its proofs need: tools/plain-rust calls this."""

from __future__ import annotations

import dataclasses
import re
from pathlib import Path

# What the kit calls std, as one of the crates that are made.
STD = "kit_std"
# Names that the kit has every source see, with the marks after them that tell them from others of Rust.
SEEN = {"HostRuntime": "", "String": "", "Vec": "", "prove": "!", "str": "::", "vec": "!"}
PROOF_ATTRIBUTES = {"cycle", "tactic"}
PROOF_DERIVES = {"Drop"}
CLOSING = {"(": ")", "[": "]", "{": "}"}

TOKEN = re.compile(
    r"""
    (?P<space>\s+)
  | (?P<comment>//[^\n]*)
  | (?P<text>b?"(?:[^"\\]|\\.)*"|b?r(?P<hashes>\#*)".*?"(?P=hashes))
  | (?P<char>b?'(?:[^'\\\n]|\\(?:x..|u\{[^}]*\}|.))')
  | (?P<lifetime>'\w+)
  | (?P<word>\w+)
  | (?P<mark>[^"])
    """,
    re.X | re.S,
)


class Refused(Exception):
    """A source that this cannot take: a file and a line, and why."""


@dataclasses.dataclass(frozen=True)
class Token:
    kind: str
    text: str
    line: int


@dataclasses.dataclass(frozen=True)
class Call:
    """A function that C calls: its parameters are pairs of a name and a type."""

    place: str
    module: str
    name: str
    parameters: list[tuple[str, str]]
    result: str


def tokens_of(path: Path, text: str) -> list[Token]:
    """All tokens of a source, spaces and comments among them."""
    tokens, at, line = [], 0, 1
    while at < len(text):
        found = TOKEN.match(text, at)
        if text.startswith("/*", at):
            raise Refused(f"{path}:{line}: a comment of more than one line")
        if not found:
            raise Refused(f"{path}:{line}: a text without an end")
        kind = "text" if found.lastgroup == "hashes" else str(found.lastgroup)
        tokens.append(Token(kind, found[0], line))
        line += found[0].count("\n")
        at = found.end()
    return tokens


class Eraser:
    """Takes out of a source what only its proofs need."""

    def __init__(self, path: Path, module: str) -> None:
        self.path = path
        self.module = module
        self.tokens = tokens_of(path, path.read_text(encoding="utf-8"))
        self.at = 0
        self.out: list[Token] = []
        self.calls: list[Call] = []
        self.has_main = False
        # The words of what is erased, and the laws that the source imports by name.
        self.erased: set[str] = set()
        self.laws: set[str] = set()

    def refused(self, why: str, line: int) -> Refused:
        return Refused(f"{self.path}:{line}: {why}")

    def ahead(self, count: int) -> str:
        """The token so many after this one, where spaces and comments do not count."""
        at = self.at
        for _ in range(count):
            at += 1
            while at < len(self.tokens) and self.tokens[at].kind in ("space", "comment"):
                at += 1
        return self.tokens[at].text if at < len(self.tokens) else ""

    def next(self) -> Token:
        """Goes past a token that counts, and the spaces and comments after it."""
        token = self.tokens[self.at]
        self.at += 1
        while self.at < len(self.tokens) and self.tokens[self.at].kind in ("space", "comment"):
            self.at += 1
        return token

    def put(self, kind: str, text: str) -> None:
        self.out.append(Token(kind, text, self.tokens[self.at - 1].line))

    def keep(self) -> None:
        self.out.append(self.tokens[self.at])
        self.at += 1

    def skip_group(self, opening: str) -> None:
        """Goes past the next group in brackets of this kind."""
        line, depth = self.tokens[self.at].line, 0
        while self.at < len(self.tokens):
            text = self.tokens[self.at].text
            self.at += 1
            depth += (text == opening) - (text == CLOSING[opening])
            if depth == 0 and text == CLOSING[opening]:
                return
        raise self.refused(f"no {CLOSING[opening]} for its {opening}", line)

    def forget(self, begin: int) -> None:
        """Keeps the words of what was erased, from here on."""
        self.erased.update(token.text for token in self.tokens[begin : self.at] if token.kind == "word")

    def skip_item(self) -> None:
        """Goes past a ghost item: `ghost use ..;`, `ghost NAME = { .. };`, or `ghost NAME: { .. }`, after which a ; or a
        comma may stand, or the bracket in which it is the last."""
        begin, line, kind = self.at, self.tokens[self.at].line, self.ahead(2)
        if self.ahead(1) == "use":
            while self.at < len(self.tokens) and self.tokens[self.at].text != ";":
                self.at += 1
        elif kind in ("=", ":") and self.ahead(3) == "{":
            self.skip_group("{")
            self.forget(begin)
            while self.ahead(0).isspace():
                self.at += 1
            if kind == ":" and self.ahead(0) in CLOSING.values():
                return
        else:
            raise self.refused("a ghost item of another form", line)
        if self.ahead(0) not in ((";", ",") if kind == ":" else (";",)):
            raise self.refused("a ghost item without an end", line)
        self.at += 1

    def drop_before(self, *words: str) -> None:
        """Takes back what stands before and belongs to what is erased: these words, and comments right above."""
        while self.out:
            last = self.out[-1]
            is_blank = last.kind == "space" and last.text.count("\n") < 2
            is_comment = last.kind == "comment" and not last.text.startswith("//!")
            if not (is_blank or is_comment or last.text in words):
                return
            self.out.pop()
        return

    def plain(self) -> None:
        """Goes through the source."""
        while self.at < len(self.tokens):
            token = self.tokens[self.at]
            if token.kind == "word":
                self.word(token)
            elif token.text == "#":
                self.attribute()
            elif token.kind == "mark" and not token.text.isascii():
                raise self.refused(f"{token.text} outside of what is erased", token.line)
            else:
                self.keep()

    def word(self, token: Token) -> None:
        """A word, which begins something that is erased or changed, or stays."""
        if not token.text.isascii():
            raise self.refused(f"{token.text} outside of what is erased", token.line)
        if token.text in ("requires", "ensures"):
            self.clause(token)
        elif token.text == "ghost":
            self.drop_before("pub")
            self.skip_item()
        elif self.begins_statement() and self.law(token):
            self.skip_line()
        elif token.text == "std" and self.ahead(1) == self.ahead(2) == ":":
            self.at += 1
            self.put("word", STD)
        elif token.text == "collect" and self.ahead(1) == "(" and self.ahead(2) != ")":
            self.at += 1
            self.put("word", "collect_in")
        elif token.text == "extern":
            self.call(token)
        else:
            self.has_main |= token.text == "fn" and self.ahead(1) == "main" and self.ahead(3) != ")"
            self.keep()

    def begins_statement(self) -> bool:
        """Whether what comes next begins an item or a statement."""
        last = next((token.text for token in reversed(self.out) if token.kind not in ("space", "comment")), ";")
        return last in (";", "{", "}")

    def law(self, token: Token) -> bool:
        """Whether this begins the module of laws, an import from one, or the call of a law, which computes nothing."""
        end = self.at
        while end < len(self.tokens) and self.tokens[end].text not in (";", "{", "}") or self.is_import(token, end):
            end += 1
        said = "".join(part.text for part in self.tokens[self.at : end] if part.kind != "comment")
        imported = re.fullmatch(r"use (?:\w+::)+laws::(?:(\w+)|\{([\w\s,]+)\})", said)
        called = re.fullmatch(r"((?:\w+::)*)(\w+)(?:::<[\w:]+>)?\(\)", said)
        if imported:
            self.laws.update(re.findall(r"\w+", imported[1] or imported[2]))
        elif called:
            return called[1].endswith("laws::") or not called[1] and called[2] in self.laws
        return bool(imported) or said == "pub mod laws"

    def is_import(self, token: Token, end: int) -> bool:
        """Whether the brackets here are those of an import."""
        return token.text == "use" and end < len(self.tokens) and self.tokens[end].text in ("{", "}")

    def skip_line(self) -> None:
        """Goes past a statement, and what is left of its line."""
        while self.tokens[self.at].text != ";":
            self.at += 1
        self.at += 1
        is_last = self.ahead(1) == "}"
        if is_last or self.tokens[self.at].text.count("\n") > 1:
            self.drop_space()
        is_all = is_last and self.out[-1].text == "{"
        if is_all or not is_last and self.tokens[self.at].text.count("\n") == 1:
            self.at += 1

    def clause(self, token: Token) -> None:
        """A clause of a contract: it may have a star, and a name. It becomes a comment, as what stands above it is."""
        after = [self.ahead(count) for count in (1, 2, 3)]
        name = after[1:] if after[0] == "*" else after
        if name[0] != "{" and name[1] != "{":
            raise self.refused(f"{token.text} without a contract in brackets", token.line)
        above: list[Token] = []
        while self.out and self.out[-1].kind in ("space", "comment"):
            above.insert(0, self.out.pop())
        begin = self.at
        self.skip_group("{")
        self.forget(begin)
        self.put_above([token.text for token in above if token.kind == "comment"], self.tokens[begin : self.at])
        self.join_body()

    def put_above(self, above: list[str], clause: list[Token]) -> None:
        """Puts a clause, and the comments above it, as comments above the line of the function whose it is."""
        text = "".join(token.text for token in clause if token.kind != "comment")
        first, *others = [line.strip() for line in text.split("\n") if line.strip()]
        at = next(at for at in range(len(self.out) - 1, -1, -1) if self.out[at].text == "fn")
        while at > 0 and not (self.out[at - 1].kind == "space" and "\n" in self.out[at - 1].text):
            at -= 1
        indent = self.out[at - 1].text.rpartition("\n")[2] if at else ""
        for line in [*above, f"// {first}", *(f"//     {line}" for line in others)]:
            self.out[at:at] = [Token("comment", line, clause[0].line), Token("space", f"\n{indent}", clause[0].line)]
            at += 2

    def join_body(self) -> None:
        """Has the body of a function begin where its last clause was."""
        if self.ahead(1) == "{" and self.tokens[self.at].kind == "space":
            while self.tokens[self.at].text != "{":
                self.at += 1
            self.put("space", " ")

    def attribute(self) -> None:
        """An attribute: one of proofs, one for C, a list of derives, or another, which stays."""
        begin = self.at
        name = self.ahead(3) if self.ahead(1) == "!" else self.ahead(2)
        if name not in PROOF_ATTRIBUTES | {"derive", "unsafe"}:
            self.keep()
            return
        self.skip_group("[")
        inside = "".join(token.text for token in self.tokens[begin : self.at] if token.kind != "comment")
        words = [word.strip() for word in inside.partition("(")[2].rpartition(")")[0].split(",")]
        left = [word for word in words if word and word not in PROOF_DERIVES]
        if name == "unsafe" and words != ["no_mangle"]:
            raise self.refused(f"the attribute {name} of {' '.join(words)}", self.tokens[begin].line)
        if name == "derive" and left:
            self.put("mark", f"#[derive({', '.join(left)})]")
        else:
            self.drop_space()

    def drop_space(self) -> None:
        """Takes back the line break before a line that is erased."""
        while self.out and self.out[-1].kind == "space":
            self.out.pop()

    def call(self, extern: Token) -> None:
        """A function that C calls: it becomes one of Rust, which the call from C then calls."""
        if self.ahead(1) != '"C"' or self.ahead(2) != "fn":
            raise self.refused("extern without a function for C", extern.line)
        self.next()
        self.next()
        kept = self.at
        self.next()
        name = self.next().text
        begin = self.at
        self.skip_group("(")
        words = [token.text for token in self.tokens[begin + 1 : self.at - 1] if token.kind != "comment"]
        parts = [part.strip() for part in "".join(words).split(",") if part.strip()]
        pairs = [tuple(part.split(":", 1)) for part in parts]
        if any(len(pair) != 2 for pair in pairs):
            raise self.refused("a parameter without a type", extern.line)
        self.at -= 1
        self.next()
        result = self.ahead(2) if (self.ahead(0), self.ahead(1)) == ("-", ">") else ""
        parameters = [(pair[0].strip(), " ".join(pair[1].split())) for pair in pairs]
        self.calls.append(Call(f"{self.path}:{extern.line}", self.module, name, parameters, result))
        self.at = kept

    def names_seen(self) -> list[str]:
        """The names in use that the kit has every source see."""
        counted = [token.text for token in self.out if token.kind not in ("space", "comment")]
        names = {"CollectIn" for text in counted if text == "collect_in"}
        for text, *after in zip(counted, counted[1:], counted[2:]):
            if text in SEEN and "".join(after).startswith(SEEN[text]):
                names.add(text)
        return sorted(names, key=lambda name: (name.lower(), name))

    def head_end(self) -> int:
        """Where the comments and attributes of the whole source end."""
        at, end = 0, 0
        while at < len(self.out):
            token = self.out[at]
            if token.text == "#" and self.out[at + 1].text == "!":
                while self.out[at].text != "]":
                    at += 1
            elif token.kind != "space" and not token.text.startswith("//!"):
                break
            at += 1
            if token.kind != "space":
                end = at
        return end

    def text(self, attributes: str, items: str) -> str:
        """The source as plain Rust, with these attributes and items at its head. What is erased leaves blank lines, which
        go, but not in texts: a mark stands for each of them."""
        texts: list[str] = []

        def shown(token: Token) -> str:
            if token.kind != "text":
                return token.text
            texts.append(token.text)
            return f'"\0{len(texts) - 1}\0"'

        names = self.names_seen()
        braced = names[0] if len(names) == 1 else f"{{{', '.join(names)}}}"
        seen = f"use {STD}::prelude::{braced};\n" if names else ""
        end = self.head_end()
        head = "".join(map(shown, self.out[:end])).rstrip()
        body = "".join(map(shown, self.out[end:])).strip()
        parts = [head + ("\n" + attributes if attributes else ""), (items + seen).strip(), body]
        text = "\n\n".join(part.strip() for part in parts if part.strip()) + "\n"
        text = re.sub(r"[ \t]*\n(?:[ \t]*\n)+", "\n\n", text)
        text = re.sub(r"\n\n([ \t]*\})", r"\n\1", text)
        text = re.sub(r"(?m)^(impl\b.*)\{\s*\}", r"\1{}", re.sub(r"\{\n\s*\n", "{\n", text))
        return re.sub('"\0(\\d+)\0"', lambda found: texts[int(found[1])], text)


