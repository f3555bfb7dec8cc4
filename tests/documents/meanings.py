"""What a fault and a note mean is one table, that of docs/TROUBLESHOOTING.md. These have its words, and no other names:
faxpages(1), the page for a browser (of which the package for Node takes them), Python and Rust by their documentation and
by the sentences that they return, the header for C, of which faxpages(3) is made, and the module for Go."""

from __future__ import annotations

import ast
import os
import re
from typing import Iterator

from tests import TOP

# The faults of images, whose names may be those of pages too, and those of the library alone.
IMAGES = "## Faults of images"
OF_THE_LIBRARY = {"TooManyRows"}
# What the program alone says, and not the page for a browser: it has cursors and the system's files.
OF_THE_PROGRAM = {"Open", "Read", "Write", "CursorOutside", "NotACursor"}
# Of Python these are no classes: faults of an image are one, and Python itself has the system's.
NO_CLASSES = OF_THE_PROGRAM | {"Memory", "BadHeader", "ShortRaster"}


def read(*name: str) -> str:
    with open(os.path.join(TOP, *name), encoding="utf-8") as file:
        return file.read()


def plain(text: str) -> str:
    """A text of Markdown without its signs."""
    return re.sub(r"\[([^\]]*)\]\([^)]*\)", r"\1", text).replace("`", "").strip()


def table() -> dict[str, str]:
    """What each name means: `Name`, `Name tag`, and `image Name` of faults of images."""
    found = {}
    for part in re.split(r"(?m)^(?=## )", read("docs", "TROUBLESHOOTING.md")):
        for names, means in re.findall(r"^\| (`(?:fault[^`]*: |N\d )?[A-Z]\w+(?: \d+)?`) \| ([^|]*) \|", part, re.M):
            name = re.sub(r"^(fault[^:]*: |N\d )", "", plain(names))
            found[f"image {name}" if part.startswith(IMAGES) and name == "OutOfLimits" else name] = plain(means)
    return found


def notes() -> set[str]:
    """The names that are of notes."""
    return set(re.findall(r"^\| `N\d (\w+)` \|", read("docs", "TROUBLESHOOTING.md"), re.M))


def in_manual() -> dict[str, str]:
    """What faxpages(1) says of each name."""
    text = read("man", "faxpages.1")
    found, part = {}, ""
    for piece in re.split(r"(?m)^(?=\.It Li |\.Ss |\.Sh )", text):
        head, _, rest = piece.partition("\n")
        part = head if head.startswith(".S") else part
        name = re.fullmatch(r"\.It Li (?:fault[^:]*: |N\d )?([A-Z]\w+)(?: Ar tag)?", head)
        if name:
            key = f"image {name[1]}" if "image" in part and name[1] == "OutOfLimits" else name[1]
            found[key] = words_of(rest)
    return found


def words_of(roff: str) -> str:
    """The words of some lines of the manual page."""
    lines = []
    for line in roff.splitlines():
        line = re.sub(r"^\.(?:Ql|Cm|Xr|Li|Pq|Fl|Ev|Pa) ", "", line)
        lines += [] if line.startswith(".") else [line]
    return re.sub(r" ([:;,.])(?= |$)", r"\1", " ".join(lines))


def in_page() -> dict[str, str]:
    """What the page for a browser says of each name."""
    text = read("web", "texts.js")
    faults = text.partition("    faults: {")[2].partition("    /** What is no fax")[0]
    pieces = re.findall(r"^        ([A-Z]\w+?)(\d*): \[\"((?:[^\"]|\" \+\s*\")*)\"", faults, re.M)
    return {f"{name} {tag}".strip(): re.sub(r'" \+\s*"', "", means) for name, tag, means in pieces}


def in_python() -> dict[str, str]:
    """How the docstring of each class of a fault begins."""
    tree = ast.parse(read("python", "faxpages", "faults.py"))
    return {it.name: " ".join((ast.get_docstring(it) or "").partition("\n\n")[0].split())
            for it in tree.body if isinstance(it, ast.ClassDef)}


def by_the_module() -> dict[str, str]:
    """What the module for Python says in a sentence of each fault of a file or a strip."""
    for node in ast.parse(read("python", "faxpages", "faults.py")).body:
        if isinstance(node, ast.AnnAssign) and node.value and ast.unparse(node.target) == "_MEANINGS":
            return {str(name): str(means) for name, means in ast.literal_eval(node.value).items()}
    return {}


def in_rust() -> dict[str, str]:
    """What the crate for Rust says of each fault of a file or a strip."""
    text = read("rust", "src", "error.rs")
    special = re.findall(r'^ +Fault::(\w+)\((\d+)\) => "(.*)",$', text, re.M)
    return {**of_rust_table(text), **{f"{name} {tag}": means for name, tag, means in special}}


def of_rust_table(text: str) -> dict[str, str]:
    """The faults of the crate's table, of which their documentation is made too."""
    return dict(re.findall(r'^        (\w+)(?:\(u32\))? = \d+,\s+"(.*)";$', text, re.M))


def in_rust_documentation() -> dict[str, str]:
    """What is written above each fault in the crate for Rust."""
    text = read("rust", "src", "error.rs")
    found = of_rust_table(text)
    for kind in ("PbmFault", "Error"):
        body = text.partition(f"pub enum {kind} {{\n")[2].partition("\n}\n")[0]
        for lines, name in re.findall(r"((?:^    ///.*\n)+)(?:    #.*\n)*^    (\w+)", body, re.M):
            found[place_of(name, kind == "PbmFault")] = " ".join(re.sub(r"(?m)^ *///", "", lines).split())
    return found


def in_header() -> dict[str, str]:
    """What is written above each number of a fault in the header."""
    body = read("include", "faxpages.h").partition("enum faxpages_fault_number {\n")[2].partition("\n};")[0]
    pieces = re.findall(r"/\*((?:(?!\*/).)*)\*/\s+FAXPAGES_(\w+) = \d+", body, re.S)
    return {name_of_constant(name): " ".join(re.sub(r"\n +\*", " ", text).split()) for text, name in pieces}


def in_go() -> dict[str, str]:
    """What is written above each number of a fault in the module for Go."""
    pieces = re.findall(r"((?:^\t//.*\n)+)\t\w+ +FaultNumber = C\.FAXPAGES_(\w+)$", read("go", "errors.go"), re.M)
    return {name_of_constant(name): " ".join(text.replace("\t//", " ").split()) for text, name in pieces}


def name_of_constant(constant: str) -> str:
    """The name in the table of a number of the header, as PBM_OUT_OF_LIMITS."""
    name = "".join(part.capitalize() for part in constant.removeprefix("PBM_").split("_"))
    return place_of(name, constant.startswith("PBM_"))


def place_of(name: str, is_image: bool) -> str:
    """The name in the table of a fault, of a page or of an image."""
    return f"image {name}" if is_image and name == "OutOfLimits" else name


def numbered(known: dict[str, str]) -> set[str]:
    """The faults that have a number, whatever the tag of their field."""
    return {name for name in known if " " not in name or name.startswith("image")} - OF_THE_PROGRAM - {"Memory"} - notes()


def claims() -> Iterator[tuple[str, bool]]:
    known = table()
    yield "meanings: there is a table", len(known) > 30
    manual, page, module, crate = in_manual(), in_page(), in_python(), in_rust()
    sentences = by_the_module()
    yield "meanings: Python explains each fault that Rust does", sentences.keys() == crate.keys()
    of_others = OF_THE_PROGRAM | notes() | {"Memory", "BadHeader", "ShortRaster", "UnknownInput", "OutputTooLarge"}
    yield "meanings: Rust explains each fault", crate.keys() == {
        name for name in known if not name.startswith("image")} - of_others
    yield "meanings: faxpages(1) has the same names", manual.keys() == {
        name for name in known if " " not in name or name.startswith("image")} - OF_THE_LIBRARY
    yield "meanings: web/texts.js has the same names", page.keys() == {
        name for name in known if not name.startswith("image")} - OF_THE_PROGRAM
    yield "meanings: Python has a class for each fault", known.keys() & module.keys() == {
        name for name in known if " " not in name} - NO_CLASSES - notes()
    header, go = in_header(), in_go()
    above = {name: text for name, text in in_rust_documentation().items() if name in numbered(known)}
    yield "meanings: faxpages.h has them above its numbers", header.keys() == numbered(known)
    yield "meanings: the module for Go has them above its numbers", go.keys() == numbered(known)
    yield "meanings: Rust has them above its faults", above.keys() == numbered(known)
    for name, means in known.items():
        for where, said, is_whole in (("faxpages(1)", manual, False), ("web/texts.js", page, True),
                                      ("faxpages.h", header, True), ("Go", go, True),
                                      ("Rust's documentation", above, True),
                                      ("Python", module, False), ("Rust", crate, True),
                                      ("Python's sentences", sentences, True)):
            if name in said:
                text = said[name] if is_whole else said[name][:len(means)]
                yield f"meanings: {where}: {name}: {said[name]}: {means}", text == means
