"""THIRD-PARTY names each part of other works that a linker put into what ships, and licences/ is made of it."""

from __future__ import annotations

import base64
import importlib.machinery
import importlib.util
import os
import re
import shutil
import subprocess
import sys
import tempfile
from typing import Any, Iterator

from tests import TOP
from tests.documents.contracts import read

# A function of the kit's compiler, or a file from which symbols come.
NAMED = re.compile(r"^\s*\d+: [0-9a-f]+ +\w+ (FUNC|FILE|OBJECT|NOTYPE) +(LOCAL|GLOBAL|WEAK) +\w+ +(\w+) (.+)$")
# What stands in front of a path in a symbol.
PATH = re.compile(r"(?:<|&|mut |dyn )*(\w+)(?:::|\+\+)")


def maker() -> Any:
    """tools/licences, as a module."""
    loader = importlib.machinery.SourceFileLoader("licences_of_parts", os.path.join(TOP, "tools", "licences"))
    spec = importlib.util.spec_from_loader(loader.name, loader)
    assert spec is not None
    module = importlib.util.module_from_spec(spec)
    sys.modules[loader.name] = module
    loader.exec_module(module)
    return module


def linked(path: str) -> tuple[set[str], set[str]]:
    """The first words of the symbols of a program or an archive that have paths, with the files that symbols come from;
    and all other symbols that are defined."""
    said = subprocess.run(["readelf", "-sW", path], stdout=subprocess.PIPE, text=True, check=True).stdout
    paths, others = set(), set()
    for line in said.splitlines():
        found = NAMED.match(line)
        if not found or found[3] == "UND":
            continue
        path_of = PATH.match(found[4])
        if found[1] == "FILE" or path_of:
            paths.add(path_of[1] if path_of else found[4])
        else:
            others.add(found[4])
    return paths, others


def own() -> set[str]:
    """What is of these sources in a program."""
    crates = re.findall(r"^(\w+)", read("crates.txt"), re.M)
    return {*crates, "large_blocks.c"}


def inside(artefact: str, path: str) -> Iterator[tuple[str, bool]]:
    """The parts that THIRD-PARTY names of what ships are those that are in it."""
    parts = [part for part in maker().parts() if artefact in part.words("Inside")]
    known = {word for part in parts for word in part.words("Symbols")}
    paths, others = linked(path)
    yield f"THIRD-PARTY: {path} has symbols", len(paths) > 3
    for name in sorted(paths - own()):
        yield f"THIRD-PARTY names the part of {path} with symbols of {name}", name in known
    for part in parts:
        words = part.words("Symbols")
        yield f"THIRD-PARTY: {part.name} is in {path}", not words or bool(set(words) & (paths | others))


def needed(artefact: str, top: str) -> Iterator[tuple[str, bool]]:
    """The crates of others that crates.txt names are the parts that THIRD-PARTY has."""
    lines = {line.split(":")[0].split()[0]: line.partition(":")[2].split() for line in read("crates.txt").splitlines()
             if ":" in line and not line.startswith("#")}
    crates = {name for line in [top, *lines[top]] for name in lines.get(line, [line])} - set(lines)
    known = {word for part in maker().parts() if artefact in part.words("Inside") for word in part.words("Crates")}
    yield f"THIRD-PARTY has the crates of {top}: {sorted(crates)}", crates == known and len(crates) > 2


def versions() -> Iterator[tuple[str, bool]]:
    """The versions are those that the texts beside what ships name."""
    text, script = read("shipped", "faxpages.txt"), read("web", "faxpages.wasm.js")[:1000]
    of = {part.name: part.fields["Version"] for part in maker().parts()}
    libc = re.search(r"^libc .*\(Debian GLIBC (\S+)\)", text, re.M)
    yield "THIRD-PARTY has the C library of the program", libc is None or of["GNU C Library"] == libc[1]
    gcc = re.search(r"^gcc \(Debian (\S+)\)", text, re.M)
    of_gcc = of["libgcc and the start files of GCC"]
    yield "THIRD-PARTY has gcc's version", gcc is None or f"{gcc[1]} of Debian" in of_gcc
    kit = re.search(r"^kit (\S+)", text, re.M)
    yield "THIRD-PARTY has the kit's version", kit is not None and of["std of the Rattle kit, with its C"] == kit[1]
    rust = re.search(r"^// rustc (\S+)$", script, re.M)
    yield "THIRD-PARTY has Rust's version", rust is not None and of["std of Rust"].startswith(f"{rust[1]} in web,")


def in_web() -> Iterator[tuple[str, bool]]:
    """The crates, with their versions, whose paths the module in WebAssembly has for its messages."""
    module = base64.b64decode(read("web", "faxpages.wasm.js").partition("`\n")[2].partition("`;")[0])
    there = {name.decode(): version.decode() for name, version in re.findall(rb"crates/([a-z_]+)-([0-9.]+)/", module)}
    parts = [part for part in maker().parts() if "web" in part.words("Inside")]
    known = {word: part.fields["Version"] for part in parts for word in part.words("Crates")}
    yield f"THIRD-PARTY: the module in WebAssembly has paths of crates: {there}", len(there) > 2
    for name, version in there.items():
        yield f"THIRD-PARTY has {name} {version} in web", known.get(name, "").startswith(f"{version} in web")


def made() -> Iterator[tuple[str, bool]]:
    """licences/ is made of THIRD-PARTY, and names what is inside each thing, and nothing else."""
    with tempfile.TemporaryDirectory() as room:
        subprocess.run([sys.executable, "-B", os.path.join(TOP, "tools", "licences"), room], check=True)
        texts = {name: open(os.path.join(room, name), encoding="utf-8").read() for name in sorted(os.listdir(room))}
    there = sorted(os.listdir(os.path.join(TOP, "licences")))
    yield f"licences/ has each text, or else tools/licences writes it: {there}", there == sorted(texts)
    for name, text in texts.items():
        is_that = name in there and text == read("licences", name)
        yield f"licences/{name} is of THIRD-PARTY, or else tools/licences writes it", is_that
    with_web = ["installed", "plain-installed", "plain-program", "program", "web"]
    for word, places in {"GNU C Library": ["installed", "program"], "dlmalloc": with_web,
                         "rustc_demangle": ["plain-installed", "plain-library", "plain-program"]}.items():
        yield f"what has {word} inside says so, and nothing else", [
            name for name in texts if f"\n{word}\n" in texts[name]] == [f"{name}.txt" for name in places]
    for part in maker().parts():
        named = part.words("License")[:1]
        yield f"THIRD-PARTY: {part.name} has a licence with a text here, or says why none", "Notice" in part.fields or (
            named[0] in maker().licences())


def claims() -> Iterator[tuple[str, bool]]:
    yield from made()
    yield from versions()
    yield from in_web()
    yield from needed("program", "fax_tool")
    yield from needed("library", "fax_c")
    if not shutil.which("readelf"):
        print("SKIPPED: readelf (binutils) is not installed, so: what the linker took is not compared with THIRD-PARTY")
        return
    yield from inside("program", os.path.join("shipped", "faxpages"))
    yield from inside("library", os.path.join("shipped", "libfaxpages.a"))
