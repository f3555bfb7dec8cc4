"""Which definitions of the specs each contract of the sources reaches, by the names that they use."""

from __future__ import annotations

import os
import re
from typing import Iterator, Mapping, Union

from tests import TOP
from tests.documents import contracts

CRATES = ["fax_bits", "fax_rows", "fax_page", "fax_files", "fax_walk", "fax_tool", "fax_c"]

# The program has no callers: what it promises stands on these.
PROGRAM = "fax_tool"
PROGRAM_FILES = ["run", "program", "input", "words", "streams"]
PROGRAM_CALLS = {"run", "run_words", "parse_words", "WordsFault", "Input", "Source", "Sink"}

# The library for C: what it exports is called by no crate, and stands in modules of its own.
LIBRARY = "fax_c"
CALL = re.compile(r"pub (?:const |extern \"C\" )?fn (\w+)")

# What is read by functions too: no contract reaches it, so its files stand where they are read.
FUNCTIONS = "fax_reads"

NAME = r"[A-Za-z_][\w-]*'?"
USED = re.compile(rf"(?<![\w.])({NAME}(?:\.{NAME})*)")
HEAD = re.compile(rf"^(?:unfoldable )?(?:abbrev )?(?:pub )?(?:record |data )?({NAME})(?= |$)")


# A definition: its module and its name.
Definition = tuple[str, str]
# What `use` lines bring in, by the name that stands for it: a module, and the name there or none.
Uses = dict[str, tuple[str, Union[str, None]]]


def used_names(line: str, found: Uses) -> None:
    """What one `use` line brings in: by the name that stands for it, the module and the name there, or the
    module alone."""
    line = line.strip().rstrip(";")
    listed = re.fullmatch(r"(?:ghost |unfoldable |pub )*use ([\w.]+)\.\{([^}]*)\}", line)
    if listed:
        for part in listed.group(2).split(","):
            words = part.split(" as ")
            found[words[-1].strip()] = (listed.group(1), words[0].strip())
        return
    whole = re.fullmatch(r"(?:ghost |pub )*use ([\w.]+?)(?: as (\w+))?", line)
    if whole:
        found[whole.group(2) or whole.group(1).split(".")[-1]] = (whole.group(1), None)


def uses_of(text: str) -> Uses:
    found: Uses = {}
    for line in text.split("\n"):
        if re.match(r"\s*(?:ghost |unfoldable |pub )*use ", line):
            used_names(line, found)
    return found


def resolve(word: str, uses: Uses, module: str, own: Mapping[str, object]) -> Definition | None:
    """The definition that a word names: its module and its name."""
    parts = word.split(".")
    if parts[0] in own:
        return module, parts[0]
    if parts[0] in uses:
        place, name = uses[parts[0]]
        if name is not None:
            return place, name
        if len(parts) > 1:
            return place, parts[1]
    return None


class Module:
    """A file of definitions."""

    def __init__(self, name: str, path: str) -> None:
        self.name, self.path = name, path
        text = open(path, encoding="utf-8").read()
        self.uses = uses_of(text)
        self.blocks: dict[str, list[str]] = {}
        self.public: set[str] = set()
        current = None
        for line in text.split("\n"):
            if line.startswith(("use ", "pub use ", "unfoldable pub use ", "--", "pub mod ", "mod ")):
                if not line.startswith("--"):
                    current = None
                continue
            head = HEAD.match(line) if not re.match(r" |infix|$", line) else None
            if head:
                current = head.group(1)
                if re.match(r"^(?:unfoldable )?(?:abbrev )?pub ", line):
                    self.public.add(current)
                self.blocks.setdefault(current, [])
            if current:
                self.blocks[current].append(line)

    def names_in(self, definition: str) -> Iterator[Definition]:
        for line in self.blocks.get(definition, []):
            for word in USED.findall(line):
                found = resolve(word, self.uses, self.name, self.blocks)
                if found and found != (self.name, definition):
                    yield found


def modules(crates: list[str] = CRATES) -> dict[str, Module]:
    found = {}
    for crate in crates:
        folder = os.path.join(TOP, "crates", crate, "specs")
        for base, _, files in os.walk(folder):
            for file in sorted(files):
                if file.endswith(".antt"):
                    path = os.path.join(base, file)
                    inner = os.path.relpath(path, folder)[:-5].replace(os.sep, ".")
                    name = f"Rattle.{crate}.specs.{inner}"
                    found[name] = Module(name, path)
    return found


def clause_names(text: str, uses: Uses) -> Iterator[Definition]:
    for word in USED.findall(text):
        found = resolve(word, uses, "", {})
        if found:
            yield found


def calls_from_c(paths: list[str]) -> set[str]:
    """The calls that these sources export to C."""
    return {name for path in paths for name in re.findall(r'^pub extern "C" fn (\w+)', contracts.read(path), re.M)}


def public_roots(crate: str) -> tuple[set[Definition], set[Definition]]:
    """What the public contracts of a crate name, and how its public types are seen; and what its laws say."""
    calls: set[Definition] = set()
    laws: set[Definition] = set()
    if crate == PROGRAM:
        names = PROGRAM_CALLS
        paths = [os.path.join("crates", crate, "src", f"{file}.rt") for file in PROGRAM_FILES]
    else:
        paths = list(contracts.sources(crate))
        names = calls_from_c(paths) if crate == LIBRARY else contracts.exported(crate)
    for path in paths + [os.path.join("crates", crate, "src", "laws.rt")]:
        if not os.path.exists(os.path.join(TOP, path)):
            continue
        text = contracts.read(path)
        uses = uses_of(text)
        law = path.endswith("laws.rt")
        lines = text.split("\n")
        owner, is_trait = None, False
        for at, line in enumerate(lines):
            opened = re.match(r"impl(?:<.*>)? (?:Model for )?(\w+)(?:<.*>)? \{|pub trait (\w+)", line)
            if opened:
                owner = opened.group(1) or opened.group(2)
                is_trait = opened.group(2) is not None
            elif line == "}":
                owner = None
            where = laws if law else calls
            if law and re.match(r"pub fn ", line):
                where.update(clause_names("\n".join(contracts.head(lines, at)), uses))
            elif (call := CALL.match(line)) and call.group(1) in names:
                where.update(clause_names("\n".join(contracts.head(lines, at)), uses))
            elif owner in names and re.match(r"    (pub )?(?:const )?fn ", line) and ("pub" in line or is_trait):
                where.update(clause_names("\n".join(contracts.head(lines, at)), uses))
            elif owner in names and re.match(r"    ghost Value = ", line):
                where.update(clause_names(line, uses))
            elif is_trait and owner in names and re.match(r"    ghost ", line):
                where.update(clause_names(line, uses))
    return calls, laws


def reached(roots: set[Definition], all_modules: dict[str, Module]) -> set[Definition]:
    """All definitions that these names stand on."""
    seen: set[Definition] = set()
    due = list(roots)
    while due:
        at = due.pop()
        if at in seen or at[0] not in all_modules:
            continue
        if at[1] not in all_modules[at[0]].blocks:
            again = all_modules[at[0]].uses.get(at[1])
            if again and again[1]:
                due.append((again[0], again[1]))
            continue
        seen.add(at)
        due.extend(all_modules[at[0]].names_in(at[1]))
    return seen
