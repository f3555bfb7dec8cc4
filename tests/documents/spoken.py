#!/usr/bin/env python3
"""How each language calls the same thing.

    tests/documents/spoken.py --write    writes docs/NAMES.md anew

Each name in the table is one that the sources of its language declare, and each call and each struct of the headers that
reads, writes or says something is in it. tests/documents/run compares the document."""

from __future__ import annotations

import ast
import glob
import os
import re
import sys
from typing import Iterator

sys.dont_write_bytecode = True

from tests import TOP  # noqa: E402

PLACE = os.path.join("docs", "NAMES.md")
LANGUAGES = ["C", "Python", "Rust", "Go", "Java", "Node"]
HEAD = """<!-- Made by tests/documents/spoken.py: change that. -->

# The same things by their names

How each language calls what the library has, as that language spells it. A `-` is what it has not. The sources declare each of these names, and each call of `faxpages.h` stands here: a test compares.

Where names differ there is a reason: C has calls where others have methods of what they read; `number` is a row's own number in all but C and Node, which say `row`; a name that Python or Rust has as a property or a method of its own is a member elsewhere.
"""
# What a thing is; and its names in these languages.
TABLE = """
a file | - | open, Fax | Fax | Open, New, Fax | open, FaxPages | Faxpages, Faxpages.load
the forms of its pages | faxpages_forms | Fax.forms, Fax.pages | Fax::forms | Fax.Forms | - | Faxpages.list
a page's form | faxpages_form | Page | Form | Form | - | Page
its pels and its rows | width, rows | Page.width, Page.rows | width, rows | Width, Rows | - | Page.width, Page.rows
a page, whole | faxpages_page | Fax.page, Page.raster | Fax::page, Page | Fax.Page, Page | - | -
the bytes of its rows | out | Page.packed, Raster.packed | packed | Packed | - | Salvaged.raster
rows | faxpages_rows, faxpages_rows_from, faxpages_reader_next | Fax.rows, Row | Fax::rows, Fax::lend_rows, Row | Fax.Rows, Row | rows, Row | Faxpages.rows, Row
a row's page and number | page, row | Row.page, Row.number | page, number | Page, Number | page, number | Row.page, Row.row
runs | faxpages_runs, faxpages_runs_from | Row.runs | Fax::runs, runs, RowRuns | Fax.Runs, Row.Runs, RowRuns | runs | Faxpages.runs, Runs.runs
changing elements | faxpages_changes, faxpages_changes_from | - | Fax::changes, changes, RowChanges | - | - | -
where to go on | faxpages_place, faxpages_place_text, faxpages_place_parse | Cursor | Cursor | - | - | -
a page, salvaged | faxpages_salvage | Page.salvaged, Salvaged | Fax::salvaged, Salvaged | Fax.Salvage, Salvaged | salvage | Faxpages.salvage, Salvaged
the same, row by row | faxpages_salvage_from | Page.salvaged_rows | Fax::salvaged_rows, Left | Fax.SalvagedRows, Left | salvage, Left | -
rows that are lost | faxpages_lost | Stretch | Stretch | Stretch | Lost | Lost
the first of them, how many, and why | row, rows, fault | Stretch.first, Stretch.rows, Stretch.fault, Stretch.name | first, rows, fault | First, Rows, Fault | first, rows, fault | Lost.row, Lost.rows, Lost.name
whether a row is lost | - | Salvaged.is_lost | is_lost | Salvaged.IsLost | - | -
what the receiver counted | faxpages_received | Page.received, Received | Fax::received, Received | Fax.Received, Received | - | Faxpages.received, Received
a check | faxpages_check, faxpages_report | check, Report | Fax::check, Report | Fax.Check, Report | check, Report | Faxpages.check
a note | faxpages_note, faxpages_note_name | Note | Note, NoteKind | Note, NoteKind | Note | Note
a conversion | faxpages_convert, faxpages_options, faxpages_converted | convert | convert, Options | Convert, Options | - | Faxpages.convert
a damaged file, rewritten | faxpages_salvage_convert | Fax.salvaged_file | Fax::salvaged_file | Fax.SalvagedFile | - | Faxpages.salvagedFile
a file that is written | faxpages_add_page, faxpages_end_pages, faxpages_written | write, encode | Writer | Writer, NewWriter, Write | salvaged | Faxpages.write
bare T.4 or T.6 data | faxpages_strip, faxpages_strip_rows | strip | Strip, StripForm | Strip, StripForm | - | HowCoded
the same, as it comes | faxpages_strip_part | StripReader | StripReader | NewReader, Reader | - | -
the same, salvaged | faxpages_salvage_strip | salvage_strip | Strip::salvaged | SalvageStrip | - | Faxpages.bare, BareFax
a check of it | faxpages_strip_check, faxpages_strip_report | check_strip, StripReport | Strip::check, StripReport | - | - | -
rows coded as such data | faxpages_strip_code, faxpages_strip_code_runs | encode_strip | code_strip, code_strip_runs | Code | - | -
a fault | faxpages_fault, faxpages_fault_name | Fault | Error, Fault | Fault, FaultNumber | Fault | FaxFault
its number, its name, the tag of a field | number, tag | Fault.name, Fault.tag | number, name, tag | Number, Tag | number, tag | FaxFault.fault, FaxFault.tag
its page and row | page, row | Fault.page, Fault.row | page, row | Page, Row | page, row | FaxFault.page, FaxFault.row
what it means | - | Fault.explanation | explanation | - | - | FaxFault.explanation
the version | faxpages_version, faxpages_version_text | version | version | - | - | Faxpages.version
"""
# What of the headers is of no language but C: how a call ends, and the buffers of a caller.
OF_C = {"faxpages_told", "faxpages_row", "faxpages_status_name", "faxpages_reader", "faxpages_reader_row", "faxpages_reader_open",
        "faxpages_reader_fault", "faxpages_reader_close"}


def read(*place: str) -> str:
    with open(os.path.join(TOP, *place), encoding="utf-8") as file:
        return file.read()


def in_c() -> set[str]:
    """The calls, the structs, their members, and what calls take."""
    text = re.sub(r"/\*.*?\*/", "", read("include", "faxpages.h") + read("include", "faxpages_reader.h"), flags=re.S)
    return set(re.findall(r"\b(?:struct )?([a-z_]*[a-z])\b(?=[\[\],;({)])", text)) | set(re.findall(r"struct (\w+) \{", text))


def in_python() -> set[str]:
    """The public names, and those of the members of public classes."""
    names = set(re.findall(r'"(\w+)"', re.findall(r"(?s)^__all__ = \[(.*?)\]", read("python", "faxpages", "__init__.py"), re.M)[0]))
    for path in glob.glob(os.path.join(TOP, "python", "faxpages", "*.py")):
        for it in ast.parse(read(os.path.relpath(path, TOP))).body:
            if isinstance(it, ast.ClassDef) and it.name in names:
                names |= {f"{it.name}.{name}" for name in members(it)}
    return names


def members(kind: ast.ClassDef) -> Iterator[str]:
    for it in ast.walk(kind):
        if isinstance(it, ast.FunctionDef):
            yield it.name
        elif isinstance(it, ast.AnnAssign) and isinstance(it.target, (ast.Name, ast.Attribute)):
            yield it.target.id if isinstance(it.target, ast.Name) else it.target.attr
        elif isinstance(it, ast.Assign):
            targets = [each for target in it.targets for each in (target.elts if isinstance(target, ast.Tuple) else [target])]
            yield from (each.attr for each in targets if isinstance(each, ast.Attribute))


def in_rust() -> set[str]:
    """The public items and fields, and the methods of each type as Type::method."""
    names = set()
    for path in glob.glob(os.path.join(TOP, "rust", "src", "*.rs")):
        text = read(os.path.relpath(path, TOP))
        names |= set(re.findall(r"^ *pub (?:const )?(?:fn |struct |enum |trait )?(\w+)", text, re.M))
        names |= set(re.findall(r"^ {8}(\w+): u32,$", text, re.M))
        for kind, body in re.findall(r"^impl(?:<[^>]*>)? (\w+)(?:<[^>]*>)? \{\n(.*?)^\}", text, re.M | re.S):
            names |= {f"{kind}::{name}" for name in re.findall(r"^    pub (?:const )?fn (\w+)", body, re.M)}
    return names


def in_go() -> set[str]:
    """The exported types, functions, fields, and methods as Type.Method."""
    names = set()
    for path in glob.glob(os.path.join(TOP, "go", "*.go")):
        text = read(os.path.relpath(path, TOP))
        names |= set(re.findall(r"^(?:type|func) ([A-Z]\w*)", text, re.M))
        names |= {f"{kind}.{name}" for kind, name in re.findall(r"^func \(\w+ \*?(\w+)\) ([A-Z]\w*)", text, re.M)}
        fields = re.findall(r"^type \w+ struct \{(.*?)\}", text, re.M | re.S)
        names |= {name for body in fields for name in re.findall(r"\b([A-Z]\w*)\b", body)}
    return names


def in_java() -> set[str]:
    text = read("examples", "FaxPages.java")
    names = set(re.findall(r"public (?:static |final |sealed )*(?:class |record |interface )?[\w<>\[\]]*?\s?(\w+)[(; ]", text))
    names |= set(re.findall(r"public (?:static )?[\w<>\[\]]+ (\w+)\(", text)) | set(re.findall(r"(?:class|record|interface) (\w+)", text))
    records = re.findall(r"public record \w+\((.*?)\)", text) + re.findall(r"public final int (.*?);", text)
    return names | {part.split()[-1] for record in records for part in record.split(", ")}


def in_node() -> set[str]:
    """The exported types, and the members and the methods of each as Type.name."""
    text = re.sub(r"/\*\*.*?\*/", "", read("web", "npm", "types.d.ts"), flags=re.S)
    names = set(re.findall(r"^export (?:class|interface|type) (\w+)", text, re.M))
    for kind, body in re.findall(r"^export (?:class|interface) (\w+)[^{]*\{\n(.*?)^\}", text, re.M | re.S):
        names |= {f"{kind}.{name}" for name in re.findall(r"^    (?:static )?(\w+)[(?:]", body, re.M)}
    return names


DECLARED = {"C": in_c, "Python": in_python, "Rust": in_rust, "Go": in_go, "Java": in_java, "Node": in_node}


def rows() -> list[list[str]]:
    return [[cell.strip() for cell in line.split(" | ")] for line in TABLE.strip().splitlines()]


def document() -> str:
    lines = [f"| What | {' | '.join(LANGUAGES)} |", "|---" * (1 + len(LANGUAGES)) + "|"]
    for what, *cells in rows():
        spelled = ["-" if cell == "-" else ", ".join(f"`{name}`" for name in cell.split(", ")) for cell in cells]
        lines.append(f"| {what} | {' | '.join(spelled)} |")
    return HEAD + "\n" + "\n".join(lines) + "\n"


def claims() -> Iterator[tuple[str, bool]]:
    """Each name is declared in its language, each call and struct of the headers is there, and the document is this."""
    for number, language in enumerate(LANGUAGES, 1):
        declared = DECLARED[language]()
        for row in rows():
            for name in row[number].split(", ") if row[number] != "-" else []:
                yield f"names: {language} declares {name}, {row[0]}", name in declared
    header = read("include", "faxpages.h") + read("include", "faxpages_reader.h")
    wanted = set(re.findall(r"\b(faxpages_[a-z_]*[a-z])\(", header)) | set(re.findall(r"^struct (\w+) \{", header, re.M))
    listed = {name for row in rows() for name in row[1].split(", ")}
    yield f"names: each call and each struct has a row: {sorted(wanted - listed - OF_C)}", wanted <= listed | OF_C
    yield f"names: what is of C alone is there: {sorted(OF_C - wanted)}", OF_C <= wanted
    yield f"{PLACE} is made of the table: tests/documents/spoken.py --write writes it", read(*PLACE.split(os.sep)) == document()


def write() -> None:
    with open(os.path.join(TOP, PLACE), "w", encoding="utf-8") as file:
        file.write(document())


if __name__ == "__main__":
    if sys.argv[1:] != ["--write"]:
        sys.exit(__doc__)
    write()
