"""Large and hostile files: the page answers while they are read, they can be left, and what was read stays."""

from __future__ import annotations

import math
import os
import shutil
import struct
from typing import Generator

from tests import Claim
from tests.convert.files import put
from tests.web import faxes, saving
from tests.web.browser import Browser
from tests.web.chromium import Chromium

import hostile

# Milliseconds of the processor that a task of the page may take, and how often that is tried: a garbage collection
# falls where it will.
BOUND = 100
TRIES = 3
# Bytes of memory that the browser's process of the page may take beside the file.
SPARE = 64 * 2 ** 20


def close_all(browser: Browser) -> None:
    browser.run("while (app.fax) app.close()")


def directory(at: int, last: bool, place: int, size: int, width: int, rows: int) -> bytes:
    """A directory of one page of MH at a place of the file, with its strip elsewhere; and where the next one is."""
    fields = [(256, 4, width), (257, 4, rows), (258, 3, 1), (259, 3, 3), (262, 3, 0), (266, 3, 1), (273, 4, place),
              (277, 3, 1), (278, 4, rows), (279, 4, size)]
    length = 2 + 12 * len(fields) + 4
    data = struct.pack("<H", len(fields))
    data += b"".join(struct.pack("<HHII", tag, kind, 1, value) for tag, kind, value in fields)
    return data + struct.pack("<I", 0 if last else at + length)


def pages(count: int, strip: bytes, width: int = 8, rows: int = 1) -> bytes:
    """A file of so many pages, which share one strip."""
    at = 8 + len(strip) + len(strip) % 2
    head = b"II" + struct.pack("<HI", 42, at) + strip + bytes(len(strip) % 2)
    length = len(directory(0, False, 8, len(strip), width, rows))
    return head + b"".join(directory(at + number * length, number == count - 1, 8, len(strip), width, rows)
                           for number in range(count))


def answers(browser: Chromium, path: str, until: str) -> float:
    """How long the page did not answer while a file was opened and read, the best of some tries."""
    best = math.inf
    for _ in range(TRIES):
        close_all(browser)

        def opened() -> None:
            browser.choose("#choose", path)
            browser.until(until)

        took = browser.longest_task(opened)
        best = min(best, took)
        if best <= BOUND:
            break
    print(f"({os.path.basename(path)}: {best:.0f} ms)")
    return best


def leaves(browser: Chromium, _program: str, room: str) -> Generator[Claim, None, None]:
    """A file that would take minutes is left: what was read stays, and its pages can still be looked at."""
    strip = bytes(4000000) + hostile.packed("000000000001" + "10011")
    path = put(f"{room}/slow.tif", pages(60000, strip))
    took = answers(browser, path, 'app.fax && app.fax.state === "reads" && app.fax.page >= 3')
    yield f"it answers within {BOUND} ms while a slow file is read", took <= BOUND, True
    browser.until('!document.getElementById("stop").hidden')
    # In one turn of the page: what is drawn after that starts a worker anew.
    left = browser.run("""(() => {
        document.getElementById("stop").click();
        return [app.fax.state, app.fax.life.worker];
    })()""")
    yield "it is left", left, ["left", None]
    yield "what was read stays", browser.run("app.fax.pages === 60000 && app.fax.page >= 3 && app.fax.rows >= 3"), True
    browser.run("app.goTo(59999)")
    browser.until('document.querySelector(".current canvas[data-drawn]") && app.view.page === 59999')
    yield "its last page is drawn", browser.run("app.fax.form(59999).width"), 8
    said = "You stopped the reading. Of 60,000 pages, those before page "
    yield "the verdict says so", browser.run("app.fax.verdict()").startswith(said), True
    browser.until('!document.getElementById("save").hidden')
    yield "it can be read again", browser.run('document.getElementById("again").hidden'), False
    close_all(browser)


def many_pages(browser: Chromium, program: str, room: str) -> Generator[Claim, None, None]:
    """65,535 pages: the list has few elements, and the last page is reached by a key."""
    strip = hostile.packed("000000000001" + "10011")
    path = put(f"{room}/pages.tif", pages(65535, strip))
    took = answers(browser, path, 'app.fax && app.fax.state === "done"')
    yield f"65,535 pages: it answers within {BOUND} ms", took <= BOUND, True
    yield "65,535 pages: it is whole", browser.run("app.fax.verdict()"), "This fax is whole: 65,535 pages, 65,535 rows."
    browser.run("document.activeElement.blur()")
    browser.press("End", number=35)
    browser.until('app.view.page === 65534 && document.querySelector(".current canvas[data-drawn]")')
    browser.run("for (let at = 0; at < 50; at++) { app.goTo(1300 * at); app.thumbs.fill(); } app.goTo(65534)")
    items = browser.run('document.querySelectorAll("#thumbs [role=option]").length')
    yield "65,535 pages: few have an element", 0 < items < 40, True
    yield "65,535 pages: the last is in the list", browser.run('Boolean(document.getElementById("thumb-65534"))'), True
    listed = browser.run("app.fax.text()").split("\n\n")[1] + "\n"
    yield "65,535 pages: the list", listed == faxes.said(program, "list", path), True
    close_all(browser)


def whole_memory(browser: Chromium, program: str, room: str) -> Generator[Claim, None, None]:
    """A file of 256 MB, the first that the browser reads: it is in memory once, and is read as the program reads it."""
    at = 2 ** 28 - 200
    with open(f"{room}/large.tif", "wb") as file:
        file.write(b"II" + struct.pack("<HI", 42, at))
        file.seek(at - 2)
        file.write(hostile.packed("000000000001" + "10011")[-2:] + directory(at, True, 8, at - 8, 8, 1))
        file.truncate(2 ** 28)
    before = browser.most_memory()
    browser.choose("#choose", f"{room}/large.tif")
    browser.until('app.fax && app.fax.state === "done"')
    grown = browser.most_memory() - before
    print(f"(256 MB: {grown / 2 ** 20:.0f} MB of memory)")
    yield "256 MB: it is in memory once", 2 ** 27 < grown < 2 ** 28 + SPARE, True
    if browser.run("app.fax.isLong"):
        browser.until('!document.getElementById("notes").hidden')
        browser.run('document.getElementById("notes").click()')
        browser.until("app.fax.report")
    yield "256 MB: as the program reads it", browser.run("app.fax.text()").split("\n\n")[2].split("\n")[0], faxes.said(
        program, "check", f"{room}/large.tif").split("\n", maxsplit=1)[0]
    took = answers(browser, f"{room}/large.tif", 'app.fax && app.fax.state === "done"')
    yield f"256 MB: it answers within {BOUND} ms", took <= BOUND, True
    close_all(browser)


def million_rows(browser: Chromium, _program: str, room: str) -> Generator[Claim, None, None]:
    """A page of a million rows: few canvases, and the end is drawn."""
    path = put(f"{room}/rows.tif", hostile.tiff(1728, 1000000, hostile.MMR, b"\xff" * 125000))
    took = answers(browser, path, 'app.fax && app.fax.state === "done"')
    yield f"a million rows: it answers within {BOUND} ms", took <= BOUND, True
    yield "a million rows: they are counted", browser.run("app.fax.rows"), 1000000
    browser.run("app.view.setZoom('wide'); app.view.view.scrollTo(0, 1e9)")
    browser.until("""[...app.view.sheet.tiles].some(
        ([key, tile]) => key.split(" ")[1] === "976" && tile.dataset.drawn)""")
    yield "a million rows: few canvases", browser.run('document.querySelectorAll(".current canvas").length') <= 8, True
    close_all(browser)


def many_stretches(browser: Chromium, program: str, room: str) -> Generator[Claim, None, None]:
    """A page of which every second row is lost: each stretch is told, and some are listed."""
    strip = hostile.packed(("000000000001" + "10011" + "000000000001" + "111") * 20000)
    path = put(f"{room}/stretches.tif", pages(1, strip, rows=40000))
    took = answers(browser, path, 'app.fax && app.fax.state === "done"')
    yield f"20,000 stretches: it answers within {BOUND} ms", took <= BOUND, True
    told = faxes.said(program, "salvage", path)
    lines = [line.split() for line in told.splitlines() if line.startswith("lost ")]
    wanted = [f"page {page} rows {row} to {int(row) + int(rows) - 1}: {name}" for _, page, row, rows, name in lines]
    lost = browser.run("app.fax.text()").split("\n\n")[3].strip().split("\n")
    yield "20,000 stretches: the report has all", lost == wanted, True
    found = len([line for line in told.splitlines() if line.startswith("row ")])
    yield "20,000 stretches: rows are counted", browser.run("app.fax.rows"), found
    listed = browser.run('document.querySelectorAll("#findings li").length')
    yield "20,000 stretches: few are listed", 0 < listed < len(lines), True
    if shutil.which("pngtopnm"):
        got = saving.made(browser, "png")[0]
        is_lost = [bytes(pels) == bytes([2] * 8) for pels in zip(*[iter(faxes.pels_of_png(got)[2])] * 8)]
        grey = [False] * 40000
        for line in lines:
            grey[int(line[2]):int(line[2]) + int(line[3])] = [True] * int(line[3])
        yield "20,000 stretches: the picture has the same rows grey", is_lost == grey, True
    close_all(browser)


def many_notes(browser: Browser, program: str, room: str) -> Generator[Claim, None, None]:
    """Of 30,000 notes the first are listed, the others are counted, and the report that is saved has all."""
    strip = hostile.packed("000000000001" + "10011" + "000000000001" * 6)
    path = put(f"{room}/notes.tif", pages(30000, strip))
    browser.choose("#choose", path)
    browser.until('app.fax && app.fax.state === "done" && document.querySelectorAll("#notes-list li").length > 0')
    listed = browser.run('document.querySelectorAll("#notes-list li").length')
    yield "30,000 notes: the others are counted", browser.run(
        'document.getElementById("notes-more").textContent').split(".")[0], f"{30000 - listed:,} more are not shown"
    browser.run("""document.getElementById("save").elements.kind.value = "text";
        document.querySelector("#save button").click()""")
    browser.until('app.fax.making && app.fax.making.state === "ready"')
    text = browser.run("app.fax.making.blob.text()")
    yield "30,000 notes: the report has all", text.split("\n\n")[2] + "\n" == faxes.said(program, "check", path), True
    close_all(browser)


def many_files(browser: Browser, program: str, room: str) -> Generator[Claim, None, None]:
    """A hundred files at once: few keep a worker, and each can be gone back to."""
    names = [put(f"{room}/file-{number}.tif", faxes.drawn(program, 3000 + number)) for number in range(100)]
    browser.choose("#choose", *names)
    browser.until("app.faxes.length === 100 && app.faxes.every((fax) => fax.state === 'done')")
    browser.until("app.faxes.filter((fax) => fax.life.worker).length <= 6")
    yield "a hundred files: few workers", browser.run("app.faxes.filter((fax) => fax.life.worker).length <= 6"), True
    browser.run('document.querySelectorAll("#files-list button")[3].click()')
    browser.until('app.view.fax === app.faxes[3] && document.querySelector(".current canvas[data-drawn]")')
    name = browser.run('document.getElementById("name").textContent')
    yield "a hundred files: one of the first is drawn", name, "file-3.tif"
    close_all(browser)


def too_large(browser: Browser, _program: str, room: str) -> Generator[Claim, None, None]:
    """A file of more bytes than are read is refused, and takes nothing of the browser's memory."""
    with open(f"{room}/too-large.tif", "wb") as file:
        file.truncate(268435457)
    browser.choose("#choose", f"{room}/too-large.tif")
    browser.until('app.fax && app.fax.state === "tooLarge"')
    yield "a file that is too large", browser.run("app.fax.verdict()"), (
        "The file has more than 268,435,456 bytes, which is the most that is read.")
    os.remove(f"{room}/too-large.tif")
    close_all(browser)
