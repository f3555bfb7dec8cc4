"""Edits that plant a wrong body, as files say them: the lines `file:`, `old:` and `new:`, and `why:` where one plants a
function beside the one that it changes. Those in crates/NAME/must-fail/ are tried by `rt ci`, one after another; those
in tests/edits/NAME/ by batches, many in one check."""

from __future__ import annotations

import glob
import os
import re
from dataclasses import dataclass, field

from tests import TOP

FUNCTION = re.compile(r"^\s*(?:pub(?:\([^)]*\))?\s+)?(?:const\s+)?(?:unsafe\s+)?(?:extern \"C\"\s+)?fn\s+(\w+)", re.M)
OWNER = re.compile(r"^(?:impl(?:<[^{]*?>)?\s+(?:[\w:<>, ']+\s+for\s+)?|(?:pub(?:\([^)]*\))?\s+)?trait\s+)(\w+)", re.M)


@dataclass(frozen=True)
class Function:
    """A function of a crate: the module that it stands in, the type whose method it is, if it is one, and its name."""

    module: str
    owner: str
    name: str

    def is_named(self, path: str) -> bool:
        """Whether a line of a check that names this path is about this function. A method stands there in the module of
        its type, and with its trait's name after that of the type, if it is of one."""
        path = path.split("#")[0]
        if not self.owner:
            return path == f"{self.module}::{self.name}"
        parts = path.split("::")
        return parts[-1] == self.name and len(parts) > 1 and parts[-2].startswith(self.owner)


@dataclass
class Edit:
    """An edit of a crate: its file, and the texts that it changes, each with the file of the crate that has it."""

    path: str
    crate: str
    changes: list[tuple[str, str, str]] = field(default_factory=list)
    why: str = ""
    faults: list[str] = field(default_factory=list)

    @property
    def name(self) -> str:
        """The crate and the name, as `rt` says them."""
        return f"{self.crate}/{os.path.basename(self.path).removesuffix('.edit')}"

    def is_of_functions(self, crate: str) -> bool:
        """Whether it changes bodies of functions alone: one of a definition or of a constant is tried by itself."""
        return (all(file.startswith("src/") for file, _, _ in self.changes)
                and all(function.name for function in functions_of(self, crate)))


def read_edit(path: str, crate: str) -> Edit:
    """What a file says."""
    edit = Edit(path, crate)
    file = old = ""
    with open(path, encoding="utf-8") as text:
        for line in text.read().splitlines():
            key, _, rest = line.partition(": ")
            if key == "file":
                file = rest
            elif key == "old":
                old = rest
            elif key == "new":
                edit.changes.append((file, old, rest))
            elif key == "why":
                edit.why = rest
            else:
                edit.faults.append(f"no line of an edit: '{line}'")
    return edit


def must_fail_edits() -> list[Edit]:
    """Those that `rt ci` tries."""
    paths = sorted(glob.glob(os.path.join(TOP, "crates", "*", "must-fail", "*.edit")))
    return [read_edit(path, path.split(os.sep)[-3]) for path in paths]


def batch_edits(crates: list[str] | None = None) -> list[Edit]:
    """Those that are tried by batches: all, or those of some crates."""
    paths = sorted(glob.glob(os.path.join(TOP, "tests", "edits", "*", "*.edit")))
    edits = [read_edit(path, path.split(os.sep)[-2]) for path in paths]
    return [edit for edit in edits if crates is None or edit.crate in crates]


def applied(edit: Edit, texts: dict[str, str], crate: str) -> str:
    """Applies an edit to the texts of a crate's files, which it reads where they are not there yet, or says why it does
    not fit, and then leaves them as they were."""
    found: dict[str, str] = {}
    for file, old, new in edit.changes:
        text = found.get(file, texts.get(file))
        if text is None:
            with open(os.path.join(crate, file), encoding="utf-8") as source:
                text = source.read()
        if text.count(old) != 1:
            return f"'{old}' stands {text.count(old)} times in {file}"
        if new == old:
            return f"'{old}' is not changed"
        found[file] = text.replace(old, new, 1)
    texts.update(found)
    return ""


def module_of(crate: str, file: str) -> str:
    """The path of the module that a file of sources is."""
    parts = file.removeprefix("src/").removesuffix(".rt").split("/")
    if parts[-1] in ("lib", "main"):
        parts.pop()
    return "::".join([crate, *parts])


def function_at(text: str, place: int) -> tuple[str, str]:
    """The type and the name of the function that stands at a place of a file of sources."""
    names = [match for match in FUNCTION.finditer(text) if match.start() <= place]
    if not names or is_after(text, names[-1], place):
        return "", ""
    owners = [match for match in OWNER.finditer(text) if match.start() <= names[-1].start()]
    is_method = names[-1][0].lstrip("\n").startswith(" ")
    return owners[-1][1] if owners and is_method else "", names[-1][1]


def is_after(text: str, function: re.Match[str], place: int) -> bool:
    """Whether a place stands after a function's end, which is the first brace that closes at its own indent."""
    indent = re.match(r"\n*( *)", function[0])
    end = text.find(f"\n{indent[1] if indent else ''}}}", function.end())
    return end != -1 and place > end


def functions_of(edit: Edit, crate: str) -> set[Function]:
    """The functions that an edit changes."""
    texts: dict[str, str] = {}
    found = set()
    for file, old, new in edit.changes:
        if file not in texts:
            with open(os.path.join(crate, file), encoding="utf-8") as source:
                texts[file] = source.read()
        owner, name = function_at(texts[file], texts[file].index(old) + len(old) // 2)
        found.add(Function(module_of(edit.crate, file), owner, name))
        texts[file] = texts[file].replace(old, new, 1)
    return found
