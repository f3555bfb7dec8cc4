"""What the page says of files is what the program says of each; and what canvases show is what the program converts."""

from __future__ import annotations

import base64
import json
import os
import random
import re
import shutil
import struct
from typing import Generator, Iterable

from tests import TOP, Claim
from tests.convert import pages
from tests.convert.files import get, put
from tests.web import faxes, verdicts
from tests.web.browser import Browser

# The pels of a page on the screen, from its canvases: 0, 1 or 2 a pel.
PELS_OF = """(({ form, tiles }) => {
    const pels = new Uint8Array(form.width * form.rows).fill(9);
    for (const [key, canvas] of tiles) {
        const [column, line, across, down] = key.split(" ").map(Number);
        if (across !== 1 || down !== 1 || !canvas.dataset.drawn) continue;
        const { data } = canvas.getContext("2d").getImageData(0, 0, canvas.width, canvas.height);
        for (let y = 0; y < canvas.height; y++) {
            for (let x = 0; x < canvas.width; x++) {
                const value = data[4 * (y * canvas.width + x)];
                pels[(y + line * Sheet.DOWN) * form.width + x + column * Sheet.ACROSS] = { 0: 1, 255: 0 }[value] ?? 2;
            }
        }
    }
    let text = "";
    for (let at = 0; at < pels.length; at += 8192) text += String.fromCharCode(...pels.subarray(at, at + 8192));
    return btoa(text);
})"""
PELS = f"{PELS_OF}(app.view.sheet)"
READ = "app.faxes.length === {} && app.faxes.every((fax) => !fax.isBusy())"
DRAWN = """app.fax.state === "done" && app.view.page === {} && app.view.sheet.shrinking().join() === "1,1" &&
    app.view.sheet.tiles.size > 0 && [...app.view.sheet.tiles.values()].every((tile) => tile.dataset.drawn)"""
# What is missing, and what is noted, with the names of faults and notes.
FINDINGS = """[...document.querySelectorAll("#findings .name, #notes-list li")].map((it) => it.className === "name"
    ? it.textContent : `${it.firstChild.textContent}: ${it.lastChild.textContent.split(":")[0]}`)"""


def close_all(browser: Browser) -> None:
    browser.run("while (app.fax) app.close()")


def texts(browser: Browser, program: str, room: str) -> Generator[Claim, None, None]:
    """Of each file: the list of pages, what check says, and that the page as a whole says whether it is damaged."""
    names = faxes.all_files(program, room)
    browser.drop(*names)
    browser.until(READ.format(len(names)))
    told = json.loads(browser.run("""JSON.stringify(app.faxes.map((fax) => ({ text: fax.text(), name: fax.file.name,
        verdict: fax.verdict(), lost: fax.lost.size + fax.refused.size + Number(Boolean(fax.end)),
        cut: fax.cut.size, rows: fax.lostRows, refused: fax.refused.size })))"""))
    yield f"{len(names)} files are read", len(told), len(names)
    for path, fax in zip(names, told):
        name = os.path.basename(path)
        listed, checked, lost = parts(fax["text"])
        wanted = re.sub("^next .*\n", "", faxes.said(program, "list", path), flags=re.M)
        yield f"{name}: the list", first_part(listed), wanted
        yield f"{name}: check", checked, faxes.said(program, "check", path)
        is_damaged = re.search("^fault", wanted + checked, re.M) is not None
        # What a receiver counted as bad is there, and the fax is not called whole.
        is_bad = " N6 " in faxes.said(program, "check", "--received", path)
        verdict = fax["verdict"].split(":")[0]
        yield f"{name}: damaged or whole", (
            fax["lost"] + fax["cut"] > 0, "whole" in verdict, verdict.startswith("All rows are there")), (
            is_damaged, fax["lost"] == 0 and not is_bad, fax["lost"] == 0 and is_bad)
        if not fax["refused"]:
            yield f"{name}: rows that are missing", fax["rows"], sum(verdicts.lost_of_pages(program, path).values())
        yield f"{name}: it says which rows are lost", (lost != "") <= is_damaged, True
    close_all(browser)


def lost(browser: Browser, program: str, room: str) -> Generator[Claim, None, None]:
    """The rows that are lost are those that `faxpages salvage` finds lost, in the words of faxpages-picture."""
    if not shutil.which("pngtopnm"):
        print("SKIPPED: lost rows beside faxpages-picture (netpbm)")
        return
    names = faxes.damaged(program, room)[:20]
    browser.choose("#choose", *names)
    browser.until(READ.format(len(names)))
    count = 0
    for path, text in zip(names, browser.run("app.faxes.map((fax) => fax.text())")):
        told = [faxes.picture(program, path, page) for page in range(3)]
        lines = [line for it in told if it for line in it[3].splitlines()]
        yield f"{os.path.basename(path)}: the rows that are lost", parts(text)[2].splitlines(), lines
        count += len(lines)
    yield "rows are lost", count > 10, True
    close_all(browser)


def parts(text: str) -> list[str]:
    """The list, the lines of check, and the rows that are lost, of a report."""
    _, _, rest = text.partition("\n\n")
    listed, checked, lost = (f"{rest}\n\n\n".split("\n\n") + ["", ""])[:3]
    return [listed + "\n", checked.strip("\n") + "\n", lost.strip("\n")]


def first_part(listed: str) -> str:
    """The lines up to the first fault, as the program lists them."""
    lines = listed.splitlines(keepends=True)
    for at, line in enumerate(lines):
        if line.startswith("fault"):
            return "".join(lines[:at + 1])
    return listed


def findings(browser: Browser, program: str, room: str) -> Generator[Claim, None, None]:
    """The faults, the notes and their words stand in the page, each once, and lead to where they are."""
    wanted: dict[str, tuple[list[str], int]] = {
        "damaged-fourth-page.tif": (["Page 4, rows 6 to 11 are missing: OutOfRow"], 3),
        "return-to-control.tif": (["Page 1, strip 1: ReturnToControl"], 0),
        "three-pages.tif": (["Page 3, row 2 is missing: DataEnds"], 2),
        "one-mh-page.tif": ([], 0),
    }
    for name, (lines, page) in wanted.items():
        browser.choose("#choose", f"{TOP}/samples/{name}")
        browser.until(f'app.fax && app.fax.state === "done" && document.getElementById("name").textContent === "{name}"'
                      f' && {FINDINGS}.length === {len(lines)}')
        yield f"{name}: findings", browser.run(FINDINGS), lines
        browser.run('document.getElementById("report").open = true')
        browser.until('document.getElementById("report-text").textContent === app.fax.text()')
        if lines:
            browser.run('document.querySelector("#findings button, #notes-list button").click()')
            yield f"{name}: the first leads there", browser.run("app.page"), page
        if "missing" in "".join(lines):
            browser.until('document.querySelector(".current .mark")')
            yield f"{name}: a mark beside the page", browser.run('document.querySelector(".current .mark").title'), (
                lines[0].split(": ")[0].split(", ")[1])
    close_all(browser)


def picture_of(*fields: tuple[int, int, int, int]) -> bytes:
    """A TIFF file of one page with these fields, each a tag, a type, a count and a value."""
    told = sorted([(256, 3, 1, 8), (257, 3, 1, 1), (262, 3, 1, 0), (277, 3, 1, 1), *fields])
    data = b"".join(struct.pack("<HHII", *it) for it in told)
    return struct.pack("<2sHIH", b"II", 42, 8, len(told)) + data + bytes(8)


def kinds(browser: Browser, _program: str, room: str) -> Generator[Claim, None, None]:
    """What is no fax that is read here is called so, by its name, and not damaged; the form for bare data waits."""
    strips = [(273, 4, 1, 8), (278, 3, 1, 1), (279, 4, 1, 1)]
    tiles = [(322, 3, 1, 16), (323, 3, 1, 16), (324, 4, 1, 8), (325, 4, 1, 1)]
    tried = {
        "a.pdf": (b"%PDF-1.4\n%", "a PDF"), "b.png": (b"\x89PNG\r\n\x1a\n" + bytes(9), "a PNG picture"),
        "big.tif": (b"II+\0\x08\0\0\0" + bytes(20), "a BigTIFF file"), "text.tif": (b"Dear all,\n" * 9, "text"),
        "empty.tif": (b"", "an empty file"), "photo.tif": (b"\xff\xd8\xff\xe0" + bytes(20), "a JPEG picture"),
        "lzw.tif": (picture_of((259, 3, 1, 5), (258, 3, 1, 1), *strips),
                    "a picture in TIFF with another compression (LZW)"),
        "grey.tif": (picture_of((259, 3, 1, 3), (258, 3, 1, 8), *strips), "a grey or coloured picture in TIFF"),
        "tiles.tif": (picture_of((259, 3, 1, 3), (258, 3, 1, 1), *tiles), "a picture in tiles"),
    }
    for name, (data, kind) in tried.items():
        browser.choose("#choose", put(f"{room}/{name}", data))
        browser.until(f"""app.fax && app.fax.state === "done" && app.fax.file.name === "{name}" &&
            document.getElementById("verdict").textContent === app.fax.verdict()""")
        told = browser.run("""[document.getElementById("verdict").textContent.replace(/\\..*/, ""),
            document.getElementById("verdict").className, document.getElementById("bare-part").hidden,
            app.fax.isWhole()]""")
        yield f"{name}: what is said", told, [f"This is no fax that is read here, but {kind}", "left", True, False]
        yield f"{name}: in the list", browser.run("Files.lookOf(app.fax)"), "other"
    browser.choose("#choose", put(f"{room}/mixed.tif", b"\x00\x01\xfe" * 30))
    browser.until('app.fax && app.fax.file.name === "mixed.tif" && app.fax.state === "done"')
    yield "other bytes are of no known kind", browser.run("app.fax.verdict()"), (
        "This file cannot be read as a fax: it is no TIFF file.")
    close_all(browser)


def canvases(browser: Browser, program: str, room: str) -> Generator[Claim, None, None]:
    """The pels of canvases at a pel a pel, of whole and of damaged pages."""
    wide = pages.image(3000, [pages.draw_row(random.Random(7), "noise", 3000, 0, 0)] * 5)
    long = faxes.image("noise", 2500)
    put(f"{room}/large.tif", faxes.convert(program, wide + long, "-o", "mmr"))
    samples = f"{TOP}/samples"
    whole = [f"{samples}/three-mmr-rows.tif", f"{samples}/return-to-control.tif", f"{room}/large.tif"]
    for path in whole:
        images = faxes.pels_of_pbm(faxes.convert(program, get(path), "-o", "pbm"))
        yield from shown(browser, path, enumerate(images))
    if not shutil.which("pngtopnm"):
        print("SKIPPED: pictures of damaged pages beside faxpages-picture (netpbm)")
        return
    picture = faxes.picture(program, f"{TOP}/samples/damaged-fourth-page.tif", 3)
    yield from shown(browser, f"{TOP}/samples/damaged-fourth-page.tif", [(3, picture[:3])] if picture else [])
    yield "damaged-fourth-page.tif: a picture", picture is not None, True
    for path in faxes.damaged(program, room)[:12]:
        drawn = [(page, faxes.picture(program, path, page)) for page in range(3)]
        yield from shown(browser, path, [(page, it[:3]) for page, it in drawn if it and it[3]][:1])


def shown(browser: Browser, path: str,
          wanted: Iterable[tuple[int, tuple[int, int, bytes]]]) -> Generator[Claim, None, None]:
    """The pels of pages of a file."""
    name = os.path.basename(path)
    browser.choose("#choose", path)
    browser.until(f'app.fax && app.fax.state === "done" && app.fax.file.name === "{name}"')
    browser.run("document.activeElement.blur()")
    for page, (width, height, pels) in wanted:
        browser.run(f"app.goTo({page})")
        browser.press("1")
        got = bytearray(b"\x09") * (width * height)
        for top in range(0, height, 400):
            browser.run(f"""(() => {{
                const {{ sheet, view }} = app.view;
                view.scrollTo(0, sheet.element.offsetTop - View.GAP +
                    Math.min({top}, Math.max(0, sheet.element.offsetHeight - view.clientHeight)));
            }})()""")
            for left in (0, 2000) if width > 1000 else (0,):
                browser.run(f"app.view.view.scrollLeft = {left}; app.view.fill()")
                browser.until(DRAWN.format(page))
                part = base64.b64decode(browser.run(PELS))
                got = bytearray(new if new != 9 else old for old, new in zip(got, part))
        yield f"{name}: the pels of page {page}", bytes(got) == pels, True
    close_all(browser)
