"""One name stands for one thing, over all crates.

- A module of the sources has its name in one crate, and once there.
- So has a file of specs or of proofs. The files of a crate in specs/ and in the folders below it may share a name: the
  subject is one, and the folder says for whom it is written.
- A type has its name alone in all crates, whoever sees it. So has a function that is no method within its crate; and one
  that is public, in all crates.
- A definition that a reader trusts (specs/ but for code/) has its name alone among those of all crates.
- A verb, which is a method that changes its value, means one thing on a row's way: where a type holds another, at any
  depth, no method of either has the name of a verb of the other, unless it does no more than call that. The methods of
  traits are the traits', and the names that begin with one of SAME say what is handed out or taken, of a page as of a
  strip.
- A word of WENT, which meant several things, is no part of a name."""

from __future__ import annotations

import dataclasses
import os
import re
from typing import Iterable, Iterator

from tests import TOP
from tests.specs import names

# A crate's roots and its laws, as in each crate that has them.
ROOTS = {"lib", "main", "laws", "tests"}
# Words that meant several things, and what stands in their place: docs/GLOSSARY.md has each concept's one word.
WENT = {"due": "upcoming", "dues": "upcoming"}
# What the checker asks to be called so, and what only lists the files of a folder.
LISTS = {"Answers", "Invariants", "Proof", "Lib", "code", "laws", "views", "reads"}
# What begins the names that say what is handed out or taken; and how each reader of strips goes to another strip.
SAME = ("next_", "put_", "restart")
# Functions that the language fixes.
FIXED = {"main"}
# How an operator is listed among definitions.
OPERATOR = "pub"

TYPE = re.compile(r"^(?:pub(?:\([a-z]+\))? )?(?:struct|enum|trait|type|union) (\w+)", re.M)
FUNCTION = re.compile(r'^(pub(?:\([a-z]+\))? )?(?:const )?(?:extern "C" )?fn (\w+)', re.M)
HOLDER = re.compile(r"^(?:pub(?:\([a-z]+\))? )?(?:struct|enum) (\w+)[^\n;]*?\{\n(.*?)^\}", re.M | re.S)
IMPL = re.compile(r"^impl(?:<[^{\n]*?>)? (\w+)(?:<[^{\n]*>)? \{\n(.*?)^\}", re.M | re.S)
METHOD = re.compile(r"^    (?:pub(?:\([a-z]+\))? )?(?:const )?fn (\w+)(.*?)^    \}", re.M | re.S)
BODY = re.compile(r"\{$", re.M)
COMMENT = re.compile(r"//.*")
WORD = re.compile(r"[A-Za-z_]\w*")
NAME = re.compile(r"[A-Za-z_][\w-]*")
# A word of a name, as `upcoming_row` and `UpcomingPage` have two each.
PART = re.compile(r"[A-Z]?[a-z]+|[A-Z]+")
REMARK = re.compile(r"(?://|--).*")

# A name, and where it stands.
Named = tuple[str, str]


@dataclasses.dataclass(frozen=True)
class Method:
    """A method of a type: whether it changes its value, and the lines of its body."""

    owner: str
    name: str
    place: str
    changes: bool
    body: tuple[str, ...]


def crates() -> list[str]:
    """The crates, as crates.txt lists them."""
    with open(os.path.join(TOP, "crates.txt"), encoding="utf-8") as file:
        return re.findall(r"^(\w+)[^:\n]*:", file.read(), re.M)


def files_in(crate: str, part: str, end: str) -> Iterator[str]:
    """The files of a part of a crate, from the top of the repository on."""
    for base, _, files in sorted(os.walk(os.path.join(TOP, "crates", crate, part))):
        yield from (os.path.relpath(os.path.join(base, file), TOP) for file in sorted(files) if file.endswith(end))


def text_of(path: str) -> str:
    with open(os.path.join(TOP, path), encoding="utf-8") as file:
        return file.read()


def sources() -> list[str]:
    return [path for crate in crates() for path in files_in(crate, "src", ".rt")]


def crate_of(path: str) -> str:
    return path.split(os.sep)[1]


def stem(path: str) -> str:
    return os.path.basename(path).rsplit(".", 1)[0]


def twice(named: Iterable[Named]) -> Iterator[str]:
    """Each name that stands in two places or more, as a sentence."""
    places: dict[str, list[str]] = {}
    for name, place in named:
        places.setdefault(name, []).append(place)
    for name, found in sorted(places.items()):
        if len(found) > 1:
            yield f"{name} stands for {len(found)} things: {', '.join(sorted(found))}"


def modules() -> Iterator[str]:
    """Modules of the sources."""
    return twice((stem(path), path) for path in sources() if stem(path) not in ROOTS)


def subjects() -> Iterator[Named]:
    """Each subject of a crate's specs, at its first file, and each file of lemmas."""
    for crate in crates():
        first: dict[str, str] = {}
        for path in files_in(crate, "specs", ".antt"):
            first.setdefault(stem(path), path)
        yield from first.items()
        yield from ((stem(path), path) for path in files_in(crate, "proofs", ".antt"))


def files() -> Iterator[str]:
    """Files of specs and of proofs."""
    return twice((name, path) for name, path in subjects() if name not in LISTS)


def types() -> Iterator[str]:
    """Types."""
    return twice((name, path) for path in sources() for name in TYPE.findall(text_of(path)))


def functions() -> Iterator[str]:
    """Functions that are no methods."""
    found = [(name, path, seen) for path in sources() for seen, name in FUNCTION.findall(text_of(path))]
    public = {name for name, _, seen in found if seen == "pub "}
    return twice((name if name in public else f"{name} of {crate_of(path)}", path) for name, path, _ in found
                 if name not in FIXED)


def definitions() -> Iterator[str]:
    """Definitions that a reader trusts."""
    found = names.modules(crates())
    return twice((name, module.name) for module in found.values() if ".specs.code." not in module.name
                 for name in module.public - {OPERATOR})


def held() -> dict[str, set[str]]:
    """The types that each type holds, at any depth."""
    fields = {name: set(WORD.findall(COMMENT.sub("", body)))
              for path in sources() for name, body in HOLDER.findall(text_of(path))}
    inner = {name: words & set(fields) for name, words in fields.items()}
    for _ in inner:
        inner = {name: found.union(*(inner[one] for one in found)) for name, found in inner.items()}
    return inner


def methods() -> Iterator[Method]:
    """All methods but those of traits."""
    for path in sources():
        for owner, text in IMPL.findall(text_of(path)):
            for name, rest in METHOD.findall(COMMENT.sub("", text)):
                head, *parts = BODY.split(rest, 1)
                body = tuple(line.strip() for line in "".join(parts).split("\n") if line.strip())
                yield Method(owner, name, path, "&mut self" in head, body)


def hands_on(method: Method) -> bool:
    """Whether a method does no more than call the one of its name."""
    return len(method.body) == 1 and re.fullmatch(rf"self\.\w+\.{method.name}\(.*\);?", method.body[0]) is not None


def verbs() -> Iterator[str]:
    """Verbs on a row's way."""
    inner = held()
    by_name: dict[str, list[Method]] = {}
    for method in methods():
        by_name.setdefault(method.name, []).append(method)
    for name, found in sorted(by_name.items()):
        if name.startswith(SAME):
            continue
        for outer in found:
            for one in found:
                if one.owner in inner.get(outer.owner, ()) and (outer.changes or one.changes) and not hands_on(outer):
                    yield f"{name} is a verb of {outer.owner} ({outer.place}) and of {one.owner} ({one.place})"


def words() -> Iterator[str]:
    """Words of names."""
    found: set[tuple[str, str]] = set()
    for crate in crates():
        for part, end in (("src", ".rt"), ("specs", ".antt"), ("proofs", ".antt")):
            for path in files_in(crate, part, end):
                found.update((name, path) for name in NAME.findall(REMARK.sub("", text_of(path)))
                             if WENT.keys() & {word.lower() for word in PART.findall(name)})
    for name, path in sorted(found):
        yield f"{name} ({path}) has a word that went, of {', '.join(sorted(WENT))}"


def faults() -> dict[str, list[str]]:
    """What is wrong of each kind of names, each as a sentence."""
    return {(kind.__doc__ or "").rstrip("."): list(kind())
            for kind in (modules, files, types, functions, definitions, verbs, words)}
