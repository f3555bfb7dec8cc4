"""The lemmas of the proofs: which of them no answer reaches, by the names that they use, and how many lines of proof each
crate has. A name is resolved by its module and by the `use` lines of its file."""

from __future__ import annotations

import os
import re
from typing import Iterator

from tests import TOP
from tests.specs.names import Definition, Uses, uses_of

CRATES = os.path.join(TOP, "crates")

# Files whose definitions answer what the checker asks of a function; so do those of its folder.
ANSWERS = {"Answers.antt", "Invariants.antt"}

NOT_PROOF = ("use ", "pub use ", "unfoldable pub use ", "pub mod ", "mod ")
TOKEN = re.compile(r"[^\s(){}\[\],;|]+")
OPENS = re.compile(r" *(?:pub )?module _")
HEAD = re.compile(r" *(?:unfoldable )?(?:abbrev )?(?:pub )?(?:(?:record|data) )?([^\s(){}]+)(?= |$)")
TYPED = re.compile(r" *(?:unfoldable )?(?:abbrev )?(?:pub )?(?:(?:record|data) \S+|\S+ :(?: |$))")
LENT = re.compile(r"using\(([^)]*)\)")
WORD = re.compile(r"[A-Za-z_][\w-]*")


def proof_files(crate: str) -> Iterator[str]:
    """The files of a crate's proofs."""
    for base, _, files in os.walk(os.path.join(CRATES, crate, "proofs")):
        yield from (os.path.join(base, file) for file in sorted(files) if file.endswith(".antt"))


def is_proof(line: str) -> bool:
    """Whether a line counts: it is no import, no comment and not blank."""
    bare = line.strip()
    return bare != "" and not bare.startswith("--") and not bare.startswith(NOT_PROOF)


def lines_of_proof(crate: str) -> int:
    """How many lines of proof a crate has, without imports, comments and blanks."""
    count = 0
    for path in proof_files(crate):
        with open(path, encoding="utf-8") as file:
            count += sum(map(is_proof, file))
    return count


class Proofs:
    """A file of lemmas: what it imports, and the lines of each of its definitions, by name."""

    def __init__(self, crate: str, path: str) -> None:
        inner = os.path.relpath(path, os.path.join(CRATES, crate))[:-5].replace(os.sep, ".")
        self.module, self.path = f"Rattle.{crate}.{inner}", path
        with open(path, encoding="utf-8") as file:
            text = file.read()
        self.uses: Uses = uses_of(text)
        self.blocks: dict[str, list[str]] = {}
        # What stands outside of definitions, as the parameters of a module: it is used where any of them is.
        self.around: list[str] = []
        self.read(text.split("\n"))

    def read(self, lines: list[str]) -> None:
        current, levels = self.around, [0]
        for line in filter(is_proof, lines):
            indent = len(line) - len(line.lstrip())
            while len(levels) > 1 and indent < levels[-1]:
                levels.pop()
            if indent == levels[-1] and OPENS.match(line):
                levels.append(indent + 2)
                current = self.around
            elif indent == levels[-1] and TYPED.match(line) and (head := HEAD.match(line)):
                current = self.blocks.setdefault(head.group(1), [])
            current.append(line)

    def resolve(self, word: str) -> Definition | None:
        """What a word names here, if it is a definition."""
        if word in self.blocks:
            return self.module, word
        parts = word.split(".")
        for count in range(len(parts), 0, -1):
            if (key := ".".join(parts[:count])) in self.uses:
                place, name = self.uses[key]
                rest = name if name is not None else ".".join(parts[count:count + 1])
                return (place, rest) if rest else None
        return self.resolve(parts[0]) if len(parts) > 1 else None

    def operators(self) -> list[str]:
        """The names here that are operators."""
        return [name for name in [*self.uses, *self.blocks] if "◌" in name]

    def named_in(self, lines: list[str]) -> set[Definition]:
        """The definitions that lines name."""
        text = "\n".join(lines)
        words = {part for word in TOKEN.findall(text) for part in (word, word.lstrip("←."))}
        words.update(name for name in self.operators() if all(part in text for part in name.split("◌") if part))
        return {found for word in words if (found := self.resolve(word))}


def all_proofs() -> dict[str, Proofs]:
    """All files of proofs, by their modules."""
    found = [Proofs(crate, path) for crate in sorted(os.listdir(CRATES)) for path in proof_files(crate)]
    return {proofs.module: proofs for proofs in found}


def lent_names() -> set[str]:
    """The lemmas that sources give to a tactic."""
    found: set[str] = set()
    for crate in os.listdir(CRATES):
        folder = os.path.join(CRATES, crate, "src")
        for base, _, files in os.walk(folder):
            for name in files:
                with open(os.path.join(base, name), encoding="utf-8") as file:
                    found.update(word for text in LENT.findall(file.read()) for word in WORD.findall(text))
    return found


def unreached() -> list[Definition]:
    """The lemmas that no answer reaches."""
    files, lent = all_proofs(), lent_names()
    due = [(module, name) for module, proofs in files.items() for name in proofs.blocks
           if os.path.basename(proofs.path) in ANSWERS or name in lent]
    for module, proofs in files.items():
        if os.path.basename(proofs.path) in ANSWERS:
            due += proofs.named_in(proofs.around)
    seen: set[Definition] = set()
    entered: set[str] = set()
    while due:
        module, name = at = due.pop()
        if at in seen or module not in files or name not in files[module].blocks:
            continue
        seen.add(at)
        due += files[module].named_in(files[module].blocks[name])
        if module not in entered:
            entered.add(module)
            due += files[module].named_in(files[module].around)
    return [(module, name) for module, proofs in sorted(files.items()) for name in proofs.blocks
            if (module, name) not in seen]
