"""The package of web/npm, as its user has it: packed by npm, installed into an empty folder without a network, and
called in Node. It says of samples, cases and damaged faxes what the program says, and its types are those that it says;
and so does what a bundler makes of it."""

from __future__ import annotations

import base64
import json
import os
import random
import re
import shutil
import subprocess
import sys
import tempfile
from typing import Generator

from tests import TOP, Claim
from tests.convert.files import get, put
from tests.documents import meanings
from tests.finding import found
from tests.plain import drawing
from tests.web import bundled, called, faxes, later

TYPED = """import { Faxpages, FaxFault } from "faxpages";
async function tried(): Promise<void> {
    const faxpages: Faxpages = await Faxpages.load(new Uint8Array(8));
    const widths: number[] = faxpages.list(new ArrayBuffer(0)).pages.map((page) => page.width);
    const fault: FaxFault | null = faxpages.check(new DataView(new ArrayBuffer(0))).fault;
    for (const { bytes } of faxpages.rows(new Uint8Array(0))) bytes.subarray(1);
    for (const { runs } of faxpages.runs(new Uint8Array(0))) runs.map((run) => run + 1);
    const bad: number | null = faxpages.received(new Uint8Array(0), 0).badRows;
    widths.push(bad ?? 0);
    for (const { lost } of faxpages.salvage(new Uint8Array(0))) lost.map((it) => it.rows + widths.length);
    const made: Uint8Array = faxpages.convert(new Uint8Array(0), "mmr");
    const mended: Uint8Array | null = faxpages.salvagedFile(made, "pbm");
    widths.push(mended === null ? 0 : mended.length);
    const written: Uint8Array = faxpages.write([...faxpages.salvage(made)].filter(({ form }) => form), "mr");
    const one: Uint8Array = faxpages.write([{ form: { width: 8, rows: 1, down: 98 }, raster: written }]);
    const data: Uint8ClampedArray = faxpages.rgba(one, 0, { square: false }).data;
    const coding: "mh" | "mr" | "mmr" = faxpages.bare(data, { coding: "mh", eols: false }).how.coding;
    const name: string = fault === null ? coding : fault.fault + fault.name;
    name.trim();
}
tried().then(() => Faxpages.TARGETS.indexOf("pbm"));
"""
# So many files are drawn.
DRAWN = 300
# Each line is refused by itself.
WRONG = """faxpages.convert(new Uint8Array(0), "gif")
faxpages.list("fax.tif")
faxpages.salvagedFile(new Uint8Array(0), "mmr").length
faxpages.check([1, 2, 3])
faxpages.bare(new Uint8Array(0), { width: 8 })
faxpages.write(faxpages.list(new Uint8Array(0)).pages)
faxpages.opened(new Uint8Array(0))
Faxpages.load("faxpages.wasm")
"""
# What a user sees of the package, and what of it is inside.
SEEN = ["BareFax", "Bytes", "FaxFault", "Faxpages", "HowCoded", "Lost", "Note", "Page", "PageToWrite", "Picture",
        "Received", "Row", "Runs", "Salvaged"]
INSIDE = re.compile(r"Library|Cursor|WebAssembly\.Memory|faultOf|takeFile")


def run(folder: str, *words: str) -> tuple[int, str]:
    ran = subprocess.run(words, cwd=folder, capture_output=True, check=False)
    return ran.returncode, (ran.stdout + ran.stderr).decode()


def claims(program: str) -> Generator[Claim, None, None]:
    missing = [name for name in ("node", "npm", "tsc") if not shutil.which(name)]
    if missing:
        print(f"SKIPPED: the package of web/npm ({', '.join(missing)})")
        return
    with tempfile.TemporaryDirectory() as room:
        shutil.copytree(f"{TOP}/web", f"{room}/sources/web")
        shutil.copytree(f"{TOP}/licences", f"{room}/sources/licences")
        os.mkdir(f"{room}/user")
        put(f"{room}/user/package.json", b'{"type": "module"}\n')
        packing = run(f"{room}/sources/web/npm", "npm", "pack", "--silent", "--offline", "--pack-destination", room)
        with open(f"{TOP}/VERSION", encoding="ascii") as version:
            name = f"faxpages-{version.read().strip()}.tgz"
        yield "npm: it is packed, with the version of the sources", packing, (0, f"{name}\n")
        yield "npm: it is installed without a network", run(
            f"{room}/user", "npm", "install", "--silent", "--offline", f"{room}/{name}")[0], 0
        yield "npm: nothing else comes along", [
            name for name in os.listdir(f"{room}/user/node_modules") if not name.startswith(".")], ["faxpages"]
        yield "npm: the module is that of the page", get(
            f"{room}/user/node_modules/faxpages/faxpages.wasm") == module_of_the_page(), True
        yield "npm: its licence names what is inside the module", get(
            f"{room}/user/node_modules/faxpages/LICENSE"), get(f"{TOP}/licences/web.txt").partition(b"\n")[2]
        yield from described(f"{room}/user")
        yield from types(f"{room}/user")
        yield from explains(f"{room}/user")
        yield from receives(f"{room}/user")
        yield from later.in_node(f"{room}/user", run)
        yield from readme_reads(program, f"{room}/user")
        yield from called.example(program, f"{room}/user", run)
        yield from called.claims(program, f"{room}/user", room, run)
        yield from called.shaken(f"{room}/user")
        yield from as_the_program(program, f"{room}/user", room)


def module_of_the_page() -> bytes:
    text = get(f"{TOP}/web/faxpages.wasm.js").decode()
    return base64.b64decode(text.partition("`\n")[2].partition("`;")[0])


def receives(folder: str) -> Generator[Claim, None, None]:
    """What the receivers of drawn pages counted is what the plain reading finds."""
    drawn = subprocess.run([sys.executable, f"{TOP}/tests/library/receivers.py", "500"], capture_output=True, check=True)
    put(f"{folder}/receivers", drawn.stdout)
    shutil.copy(f"{TOP}/tests/web/received-in-node.mjs", folder)
    pages = [line.split()[1:7] for line in drawn.stdout.decode().splitlines()]
    there = [numbers for status, _, _, *numbers in pages if status == "0"]
    found = sum(number != "-" for numbers in there for number in numbers)
    yield "npm: many receivers counted", len(there) > 500 and found > 1000, True
    yield "npm: what receivers counted is told", run(folder, "node", "received-in-node.mjs", "receivers"), (
        0, f"{len(pages)} pages, {len(there)} there, {found} numbers\n")


def explains(folder: str) -> Generator[Claim, None, None]:
    """A fault says in a sentence what it means, as docs/TROUBLESHOOTING.md has it."""
    names = meanings.in_page().keys() - meanings.notes()
    known = {name: means for name, means in meanings.table().items() if name in names}
    lines = [f"console.log(new FaxFault({name!r}, {{ number: 1, tag: {tag or 0}, page: 0, row: 0 }}).explanation);"
             for name, _, tag in (it.partition(" ") for it in [*known, "Later"])]
    put(f"{folder}/explains.mjs", "\n".join(['import { FaxFault } from "faxpages";', *lines]).encode())
    yield "npm: faults explain themselves", (len(known) > 20, run(folder, "node", "explains.mjs")), (
        True, (0, "\n".join([*known.values(), "A fault of a later version.", ""])))


def readme_reads(program: str, folder: str) -> Generator[Claim, None, None]:
    """The first lines of the README, fewer than ten, read a damaged fax."""
    lines = get(f"{TOP}/web/npm/README.md").decode().partition("```js\n")[2].partition("```")[0]
    yield "npm: the README's first lines are fewer than ten", lines.count("\n") < 10, True
    put(f"{folder}/main.mjs", lines.encode())
    shutil.copy(f"{TOP}/samples/damaged-fourth-page.tif", f"{folder}/fax.tif")
    status, said = run(folder, "node", "main.mjs")
    got = re.findall(r"(?m)^(row \d+ \d+) Uint8Array|^(fault .*)$", said)
    wanted = faxes.said(program, "rows", f"{folder}/fax.tif")
    yield "npm: they run", status, 0
    yield "npm: they read a damaged fax", ["".join(it) for it in got], re.findall(
        r"(?m)^(?:row \d+ \d+|fault .*$)", wanted)


def described(folder: str) -> Generator[Claim, None, None]:
    """The package says what it is, where its sources are and on which Node it was tried; its types have what a user
    calls, and nothing of what is inside."""
    about = json.loads(get(f"{folder}/node_modules/faxpages/package.json"))
    with open(f"{TOP}/rust/Cargo.toml", encoding="utf-8") as crate:
        place = found(r'(?m)^repository = "(.*)"$', crate.read())[1]
    yield "npm: its repository is the crate's", about["repository"], {"type": "git", "url": place}
    yield "npm: it has keywords, and nothing happens by loading it", (
        len(about["keywords"]) > 5, about["sideEffects"]), (True, False)
    yield "npm: on which Node it works", about["engines"], {"node": ">=18"}
    for name in ("faxpages.d.mts", "faxpages.d.cts"):
        text = get(f"{folder}/node_modules/faxpages/{name}").decode()
        yield f"npm: {name}: what is seen", sorted(re.findall(r"(?m)^export \w+ (\w+)", text)), SEEN
        yield f"npm: {name}: nothing of what is inside", INSIDE.findall(text), []


def types(folder: str) -> Generator[Claim, None, None]:
    """The types are there for both kinds of modules, without those of a browser, and refuse what is wrong."""
    wrong = [f'import {{ Faxpages }} from "faxpages";\nexport const tried = async () => {{\n    const faxpages = await '
             f"Faxpages.load();\n    {line};\n    return faxpages;\n}};\n" for line in WRONG.splitlines()]
    tried = [("right.mts", TYPED, True), ("right.cts", TYPED, True), *[
        (f"wrong-{at}.mts", text, False) for at, text in enumerate(wrong)]]
    for name, text, _ in tried:
        put(f"{folder}/{name}", text.encode())
    status, said = run(folder, "tsc", "--noEmit", "--strict", "--target", "es2022", "--module", "node16",
                       "--moduleResolution", "node16", "--lib", "es2022", *[name for name, _, _ in tried])
    yield "npm: types refuse something", status != 0, True
    for name, text, is_right in tried:
        yield f"npm: types of {name}: {text}: {said}", f"{name}(" in said, not is_right


def as_the_program(program: str, folder: str, room: str) -> Generator[Claim, None, None]:
    """Of each file it says, and converts, what the program does; and bundles of it do."""
    for name in ("said.mjs", "said-in-node.mjs"):
        shutil.copy(f"{TOP}/tests/web/{name}", folder)
    paths = faxes.all_files(program, room) + [f"{TOP}/tests/runs/inputs/{name}" for name in sorted(
        os.listdir(f"{TOP}/tests/runs/inputs")) if name.endswith(".pbm")]
    status, text = run(folder, "node", "said-in-node.mjs", *paths)
    yield "npm: it runs in Node", status, 0
    told = json.loads(text)
    print(f"(npm: Node {told['node']}, {len(paths)} files)")
    yield "npm: files were read", len(told["told"]) == len(paths) > 100, True
    for path, said in zip(paths, told["told"]):
        yield from bundled.is_the_programs(program, path, said, "npm")
    yield from drawn_as_the_program(program, folder, room)
    yield from bundled.claims(program, folder, paths[::bundled.EACH])


def drawn_as_the_program(program: str, folder: str, room: str) -> Generator[Claim, None, None]:
    """The same of drawn and damaged files."""
    paths = [put(f"{room}/npm-{number}.tif", drawing.draw_file(random.Random(f"npm {number}"), 4)) for number in range(DRAWN)]
    status, text = run(folder, "node", "said-in-node.mjs", *paths)
    yield "npm: it runs in Node over drawn files", status, 0
    said = json.loads(text)["told"]
    yield "npm: drawn files were read, whole ones and others", (len(said), DRAWN / 4 < sum(
        "fault" in it["rows"] for it in said) < 3 * DRAWN / 4), (DRAWN, True)
    for path, it in zip(paths, said):
        yield from bundled.is_the_programs(program, path, it, "npm")
