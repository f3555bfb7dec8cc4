"""What is printed of the page: all pages, or those that are chosen, each on a sheet of its own, as large as it was sent
or smaller where the sheet is, and turned as the sheet lies; or a PDF, where the browser prints one out of a frame."""

from __future__ import annotations

import os
import re
import shutil
import struct
import subprocess
from typing import Any, Generator

from tests import TOP, Claim
from tests.convert import pages
from tests.convert.files import get, put
from tests.finding import found
from tests.web import faxes
from tests.web.browser import Browser
from tests.web.headers import Served, named
from tests.web.screen import Printer

# Sheets in inches. Firefox's protocol, too, takes a width that is more than the height.
SHEETS = {"A4": (8.27, 11.69), "Letter": (8.5, 11), "A4, lying": (11.69, 8.27), "A3": (11.69, 16.54),
          "B4": (9.84, 13.9)}
# Dots to the inch at which what was printed is looked at.
DOTS = 30


def opened(browser: Browser, path: str) -> None:
    """Opens a fax, and has the page note that it asks the browser to print, which would show a dialog."""
    browser.run("while (app.fax) app.close(); window.asked = 0; window.print = () => { asked++; }")
    browser.choose("#choose", path)
    browser.until('app.fax && app.fax.state === "done" && !document.getElementById("printer").hidden')
    browser.run("document.activeElement.blur()")


def asked(browser: Browser) -> None:
    """Waits until the browser was asked to print."""
    browser.until("asked === 1 && !app.printing.working")
    browser.run("asked = 0")


def framed(width: int, height: int) -> bytes:
    """A page with a frame around it, whose upper left quarter is black."""
    full, edges = (1 << width) - 1, (0xff << (width - 8)) | 0xff
    black = edges | (((1 << (width // 2)) - 1) << (width - width // 2))
    rows = [full] * 8 + [black] * (height // 2 - 8) + [edges] * (height - height // 2 - 8) + [full] * 8
    return pages.image(width, rows)


def sheets(pdf: bytes, room: str) -> list[tuple[tuple[float, float], tuple[int, int, int, int]]]:
    """Of each sheet its size in inches, and where there is ink, in dots: left, top, right, bottom."""
    path = put(f"{room}/printed.pdf", pdf)
    subprocess.run(["pdftoppm", "-r", str(DOTS), "-gray", path, f"{room}/sheet"], check=True)
    count = int(found(r"Pages: +(\d+)", subprocess.run(
        ["pdfinfo", path], capture_output=True, check=True).stdout.decode())[1])
    told = []
    for number in range(1, count + 1):
        name = f"{room}/sheet-{number:0{len(str(count))}}.pgm"
        wide, high, raster = found(rb"\AP5\s+(\d+)\s+(\d+)\s+255\s(.*)", get(name), re.S).groups()
        os.remove(name)
        told.append(((int(wide) / DOTS, int(high) / DOTS), ink(int(wide), raster)))
    return told


def ink(wide: int, raster: bytes) -> tuple[int, int, int, int]:
    """Where there is ink: left, top, right, bottom."""
    rows = [raster[at:at + wide] for at in range(0, len(raster), wide)]
    inked = [at for at, row in enumerate(rows) if min(row) < 200]
    columns = [at for at in range(wide) if any(row[at] < 200 for row in rows)]
    return (columns[0], inked[0], columns[-1] + 1, inked[-1] + 1) if inked else (0, 0, 0, 0)


def lacks_poppler() -> bool:
    if not shutil.which("pdftoppm"):
        print("SKIPPED: what is printed of the page (poppler-utils)")
        return True
    return False


def all_pages(browser: Browser, _program: str, room: str) -> Generator[Claim, None, None]:
    """The button and Ctrl+P print all pages, and nothing of the page around them; pages can be chosen."""
    if lacks_poppler():
        return
    opened(browser, f"{TOP}/samples/received/over-a-noisy-line.tif")
    count = browser.run("app.fax.pages")
    for how in ("button", "key"):
        if how == "button":
            browser.run('document.getElementById("print").click()')
        else:
            browser.run("""document.body.dispatchEvent(new KeyboardEvent("keydown", { key: "p", ctrlKey: true,
                bubbles: true, cancelable: true }))""")
        asked(browser)
        made = put(f"{room}/printed.pdf", browser.printed())
        words = subprocess.run(["pdftotext", made, "-"], capture_output=True, check=True).stdout.decode().split()
        yield f"{how}: no word of the page is printed", words, []
        yield f"{how}: all pages", len(sheets(get(made), room)), count
    browser.until("document.getElementById('printed').childElementCount === 0")
    yield from chosen(browser, room)


def chosen(browser: Browser, room: str) -> Generator[Claim, None, None]:
    """Pages that are chosen are printed alone; what names no page is refused, and nothing is printed."""
    opened(browser, f"{TOP}/samples/three-pages.tif")
    for text, wanted in (("2", 1), ("1-2", 2), (" 3, 1 ", 2), ("1-3,2", 3), ("", 3)):
        browser.run(f"""document.getElementById("chosen").value = "{text}";
            document.getElementById("print").click()""")
        asked(browser)
        yield f"pages {text!r}", len(sheets(browser.printed(), room)), wanted
    for text in ("4", "0", "2-1", "all", "1-99999999999"):
        browser.run(f"""document.getElementById("chosen").value = "{text}";
            document.getElementById("print").click()""")
        yield f"pages {text!r} are refused", browser.run(
            '[document.getElementById("printing").textContent, asked]'), ["Say pages from 1 to 3, as 1-3, 5.", 0]
    browser.run('document.getElementById("chosen").value = ""')


def many(browser: Browser, program: str, room: str) -> Generator[Claim, None, None]:
    """More pages than have room in memory are not printed at once: it is said what to do."""
    opened(browser, put(f"{room}/many.tif", faxes.convert(program, faxes.image("marks", 3) * 301, "-o", "mmr")))
    browser.run('document.getElementById("print").click()')
    yield "301 pages are too many", browser.run('[document.getElementById("printing").textContent, asked]'), [
        "300 pages are printed at once at most. Say which, as 1-300, or save the fax as PDF, and print that.", 0]
    browser.run("""document.getElementById("chosen").value = "298-301"; document.getElementById("print").click()""")
    asked(browser)
    yield "some of them are printed", len(browser.printed()) > 0, True


def fitted(browser: Browser, program: str, room: str) -> Generator[Claim, None, None]:
    """On each sheet a page is as large as it was sent, or as large as the sheet, and lies as the sheet does."""
    if lacks_poppler():
        return
    # An A4 page of a fax, which is wider than A4; a small one; one that lies; a strip; and one of 17 inches.
    sizes = [(1728, 2292), (800, 900), (2292, 1728), (1728, 600), (1728, 3332)]
    path = put(f"{room}/sizes.tif", faxes.convert(program, b"".join(framed(*size) for size in sizes), "-o", "mmr"))
    opened(browser, path)
    for name, sheet in SHEETS.items():
        browser.run('document.getElementById("print").click()')
        asked(browser)
        told = sheets(browser.printed(*sheet), room)
        yield f"{name}: a page, a sheet", len(told), len(sizes)
        for (width, rows), ((across, down), (left, top, right, bottom)) in zip(sizes, told):
            yield f"{name}: the sheet's size", (abs(across - sheet[0]) < 0.1, abs(down - sheet[1]) < 0.1), (True, True)
            wide, high = (width / 204, rows / 196)
            wide, high = (high, wide) if (wide > high) != (across > down) else (wide, high)
            scale = min(1, across / wide, down / high)
            got = ((right - left) / DOTS, (bottom - top) / DOTS)
            yield f"{name}: a page of {width} by {rows} is {got}, and not {(wide * scale, high * scale)}", (
                abs(got[0] - wide * scale) < 0.12, abs(got[1] - high * scale) < 0.12), (True, True)


def whole(browser: Browser, program: str, room: str) -> Generator[Claim, None, None]:
    """All of a page is printed, also what is out of sight, dot for dot; and as it was turned."""
    if lacks_poppler():
        return
    data = faxes.convert(program, framed(1600, 2000), "-o", "mmr")
    data = data.replace(struct.pack("<2I", 196, 1), struct.pack("<2I", 204, 1))
    opened(browser, put(f"{room}/frame.tif", data))
    browser.run("app.view.setZoom('wide'); app.view.zoomBy(3); app.view.toTop()")
    for turns, quarter in ((0, (0, 0)), (2, (1, 1))):
        browser.run(f"app.view.turn({turns}); document.getElementById('print').click()")
        asked(browser)
        made = put(f"{room}/frame.pdf", browser.printed())
        images = subprocess.run(["pdfimages", "-list", made], capture_output=True, check=True).stdout.decode()
        # Firefox draws a picture a little larger than it is.
        dots = [tuple(int(it) for it in line.split()[3:5]) for line in images.splitlines()[2:]]
        yield f"turned by {turns}: its dots", [
            1600 <= wide < 1610 and 2000 <= high < 2010 for wide, high in dots], [True]
        subprocess.run(["pdftoppm", "-r", str(DOTS), "-gray", "-singlefile", made, f"{room}/frame"], check=True)
        wide, high, raster = found(rb"\AP5\s+(\d+)\s+(\d+)\s+255\s(.*)", get(f"{room}/frame.pgm"), re.S).groups()
        dark = [(across, down) for across in (0, 1) for down in (0, 1)
                if raster[int(wide) * (int(high) * (1 + 2 * down) // 4) + int(wide) * (1 + 2 * across) // 4] < 128]
        yield f"turned by {turns}: the black quarter", dark, [quarter]
    browser.run("app.view.setZoom('whole'); while (app.fax) app.close()")


def in_sight(browser: Browser, _program: str, room: str) -> Generator[Claim, None, None]:
    """By the browser's own menu, which nothing can be made ready for, the page that is in sight is printed, alone."""
    if lacks_poppler():
        return
    opened(browser, f"{TOP}/samples/received/over-a-noisy-line.tif")
    browser.until('document.querySelector(".current canvas[data-drawn]") && app.view.page === 0 && !app.view.isDue')
    made = browser.printed()
    told = sheets(made, room)
    yield "one sheet", len(told), 1
    yield "with ink", told[0][1] != (0, 0, 0, 0), True
    browser.run("while (app.fax) app.close()")


def papers(pdf: bytes, room: str) -> list[tuple[float, float]]:
    """The size of each page of a PDF as it is shown, in inches."""
    told = subprocess.run(["pdfinfo", "-f", "1", "-l", "9999", put(f"{room}/paper.pdf", pdf)], capture_output=True,
                          check=True).stdout.decode()
    sizes = re.findall(r"^Page +\d+ size: +([\d.]+) x ([\d.]+) pts", told, re.M)
    turns = re.findall(r"^Page +\d+ rot: +(\d+)", told, re.M)
    return [(float(down) / 72, float(across) / 72) if turn in ("90", "270") else (float(across) / 72, float(down) / 72)
            for (across, down), turn in zip(sizes, turns)]


def by_pdf(browser: Printer, program: str, room: str) -> Generator[Claim, None, None]:
    """Where the browser prints a PDF out of a frame, each page has its own size, as it is turned, and no other; pages
    can be chosen, and be very many; a server's rules that let no frame in have pictures be printed."""
    if lacks_poppler():
        return
    sizes = [(1728, 2292), (800, 900), (2292, 1728), (1728, 600), (2432, 3332)]
    path = put(f"{room}/sizes.tif", faxes.convert(program, b"".join(framed(*size) for size in sizes), "-o", "mmr"))
    wanted = [(wide / 204, rows / 196) for wide, rows in sizes]
    wanted[1] = wanted[1][::-1]
    rules: list[tuple[dict[str, str], bool]] = [({}, False), (named(), True)]
    for headers, isolated in rules:
        server = Served(headers)
        browser.go(server.address)
        yield f"rules of the server: {bool(headers)}", browser.run("crossOriginIsolated"), isolated
        opened(browser, path)
        browser.run("app.goTo(1); app.view.turn(1); document.getElementById('print').click()")
        pdf = browser.paper()
        yield "the size of each page", [near(one, other) for one, other in zip(papers(pdf, room), wanted)], [True] * 5
        yield "each page has ink", [it != (0, 0, 0, 0) for _, it in sheets(pdf, room)], [True] * 5
        yield "the page itself was not asked to print", browser.run("asked"), 0
        browser.run('document.getElementById("chosen").value = "4, 3"; document.getElementById("print").click()')
        yield "pages that are named", [near(one, other) for one, other in zip(
            papers(browser.paper(), room), wanted[2:4])], [True] * 2
        server.shutdown()
    server = Served({"Content-Security-Policy": named()["Content-Security-Policy"].replace("frame-src blob:", "")})
    browser.go(server.address)
    opened(browser, path)
    browser.run('document.getElementById("print").click()')
    asked(browser)
    yield "where no frame is let in, pictures are printed", browser.run(
        "[document.querySelectorAll('.paper-sheet').length, document.querySelectorAll('iframe').length]"), [5, 0]
    server.shutdown()
    yield from very_many(browser, program, room)


def very_many(browser: Printer, program: str, room: str) -> Generator[Claim, None, None]:
    """More pages than have room as pictures are printed at once."""
    server = Served({})
    browser.go(server.address)
    opened(browser, put(f"{room}/many.tif", faxes.convert(program, faxes.image("marks", 9) * 301, "-o", "mmr")))
    browser.run('document.getElementById("print").click()')
    yield "301 pages", len(papers(browser.paper(), room)), 301
    browser.run("while (app.fax) app.close()")
    server.shutdown()


def near(one: tuple[float, float], other: tuple[float, float]) -> bool:
    """Whether two sizes in inches are one."""
    return all(abs(mine - its) < 0.02 for mine, its in zip(one, other))


PARTS: list[Any] = [all_pages, many, fitted, whole, in_sight]
