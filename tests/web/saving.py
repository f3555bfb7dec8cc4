"""What the page saves is what the program makes, and shows what the program shows."""

from __future__ import annotations

import base64
import json
import os
import re
import shutil
import struct
import subprocess
from typing import Any, Generator

from tests import Claim
from tests.finding import found
from tests.web.browser import Browser
from tests import TOP
from tests.convert import files as parts_of
from tests.convert.files import get, put
from tests.web import faxes

BLOB = """app.fax.making.blob.arrayBuffer().then((buffer) => {
    const bytes = new Uint8Array(buffer);
    let text = "";
    for (let at = 0; at < bytes.length; at += 8192) text += String.fromCharCode(...bytes.subarray(at, at + 8192));
    return btoa(text);
})"""


def opened(browser: Browser, path: str) -> None:
    """Opens a file, and waits until it was read."""
    browser.choose("#choose", path)
    browser.until(f'app.fax && app.fax.state === "done" && app.fax.file.name === {json.dumps(os.path.basename(path))}')


def made(browser: Browser, kind: str) -> tuple[bytes, str, str]:
    """Has the page make a file, and takes it, with its name and what is said."""
    browser.until('!document.getElementById("save-make").disabled')
    browser.run(f"""app.fax.setMaking(null); document.getElementById("save").elements.kind.value = "{kind}";
        document.querySelector("#save button").click()""")
    browser.until('app.fax.making && app.fax.making.state !== "works"')
    browser.until('document.getElementById("saved").textContent.startsWith(app.fax.making.said)')
    said = browser.run('document.getElementById("saved").textContent')
    if browser.run("app.fax.making.state") != "ready":
        return b"", "", said
    return base64.b64decode(browser.run(BLOB)), browser.run("app.fax.making.name"), said


def close_all(browser: Browser) -> None:
    browser.run("while (app.fax) app.close()")


def whole(browser: Browser, program: str, room: str) -> Generator[Claim, None, None]:
    """Of a whole fax: as TIFF-F and PBM byte for byte what the program converts, as PDF image for image."""
    for number, size in enumerate(("204/196", "204/98", "none")):
        data = faxes.drawn(program, 1000 + number)
        if size == "204/98":
            data = data.replace(struct.pack("<2I", 196, 1), struct.pack("<2I", 98, 1))
        path = put(f"{room}/whole {number}.tif", data)
        opened(browser, path)
        for at, coding in enumerate(faxes.CODINGS, 1):
            got, name, said = made(browser, f"tiff{at}")
            yield f"{size}: {coding}", got == faxes.convert(program, data, "-o", coding), True
            yield f"{size}: {coding}: its name", name, f"whole {number}-{coding}.tif"
            yield f"{size}: {coding}: it says so", said.startswith(f"{name} was made, read again and compared"), True
        image = faxes.convert(program, data, "-o", "pbm")
        yield f"{size}: pbm", made(browser, "pbm")[0] == image, True
        yield f"{size}: text", made(browser, "text")[0].decode(), browser.run("app.fax.text()")
        yield from as_pdf(made(browser, "pdf")[0], image, room, size)
        close_all(browser)


def as_pdf(pdf: bytes, image: bytes, room: str, size: str) -> Generator[Claim, None, None]:
    """A PDF, as poppler reads it: its images, and how large its pages are."""
    if not shutil.which("pdfimages"):
        print("SKIPPED: PDFs of the page beside poppler (poppler-utils)")
        return
    path = put(f"{room}/made.pdf", pdf)
    subprocess.run(["pdfimages", path, f"{room}/image"], capture_output=True, check=True)
    names = sorted(name for name in os.listdir(room) if name.startswith("image-"))
    wanted = faxes.pels_of_pbm(image)
    got = [faxes.pels_of_pbm(get(f"{room}/{name}"))[0] for name in names]
    yield f"{size}: images of the PDF", got == wanted, True
    sizes = [re.findall(r"[\d.]+", line) for line in subprocess.run(
        ["pdfinfo", "-l", "9", path], capture_output=True, check=True).stdout.decode().splitlines()
        if re.match(r"Page +\d+ size", line)]
    down = 98 if size == "204/98" else 196
    yield f"{size}: sizes of the PDF's pages", [(float(it[1]), float(it[2])) for it in sizes], [
        (round(72 * wide / 204, 3), round(72 * high / down, 3)) for wide, high, _ in wanted]
    for name in names:
        os.remove(f"{room}/{name}")


def damaged(browser: Browser, program: str, room: str) -> Generator[Claim, None, None]:
    """Of damaged faxes: as TIFF-F all pages, row for row, with white in the place of lost ones; as PBM the pages that
    can be read wholly; and how many they are, or that rows are missing."""
    tried, white = 0, 0
    for path in faxes.damaged(program, room)[:15]:
        opened(browser, path)
        count, whole_ones = browser.run("[app.fax.pages, app.fax.wholePages()]")
        if count:
            widths = browser.run("app.fax.shownPages().map((page) => [page, app.fax.form(page).width])")
            pages = [page for page, _ in widths]
            got, name, said = made(browser, "tiff3")
            if pages:
                lines = faxes.said(program, "rows", put(f"{room}/saved.tif", got)).splitlines()
                yield f"{path}: rows", lines, [*left_of(program, path, dict(widths)), "end"]
                left = subprocess.run([program, "salvage", "-o", "mmr", path], capture_output=True, check=False).stdout
                yield f"{path}: as the program writes it", got == left, True
                lacks = len(whole_ones) < len(pages)
                yield f"{path}: it says so", ("missing rows are white" in said, "it is right" in said), (
                    lacks, not lacks)
                yield f"{path}: it says how many", f"has {len(pages)} of {count} page" in said, len(pages) < count
                white += lacks
                tried += 1
            else:
                yield f"{path}: nothing is made", (got, name, "nothing to save" in said), (b"", "", True)
            said = made(browser, "pbm")[2]
            yield f"{path}: PBM: it says how many", f"has {len(whole_ones)} of {count} page" in said, (
                0 < len(whole_ones) < count)
        close_all(browser)
    yield "some were saved, and rows of some are lost", tried > 5 and white > 5, True


def left_of(program: str, path: str, widths: dict[int, int]) -> list[str]:
    """The rows of pages of these widths as those of a file of them alone, as salvage prints them, with white for those
    that are lost."""
    lines: dict[int, list[str]] = {page: [] for page in widths}
    for line in faxes.said(program, "salvage", path).splitlines():
        kind, *words = line.split()
        if kind in ("row", "lost") and int(words[0]) in lines:
            page, row = int(words[0]), int(words[1])
            rows = [" ".join(words[2:])] if kind == "row" else [str(widths[page])] * int(words[2])
            lines[page] += [f"row {list(widths).index(page)} {at} {runs}" for at, runs in enumerate(rows, row)]
    return [line for page in widths for line in lines[page]]


def greys(browser: Browser, program: str, room: str) -> Generator[Claim, None, None]:
    """A PDF has all pages, and rows that are lost are grey, as in faxpages-picture; and it is turned as the page is."""
    if not shutil.which("pngtopnm") or not shutil.which("pdftoppm"):
        print("SKIPPED: damaged pages in PDFs beside faxpages-picture (netpbm, poppler-utils)")
        return
    count = 0
    for path in faxes.damaged(program, room)[:25]:
        # At 72 pels to the inch a pel of the PDF is a pel of the picture.
        data = get(path)
        data = data.replace(struct.pack("<2I", 204, 1), struct.pack("<2I", 72, 1))
        data = data.replace(struct.pack("<2I", 196, 1), struct.pack("<2I", 72, 1))
        opened(browser, put(f"{room}/grey.tif", data))
        shown = browser.run("app.fax.shownPages()")
        drawn = [faxes.picture(program, f"{room}/grey.tif", page) for page in shown]
        if drawn and all(drawn) and browser.run("app.fax.lost.size") and not browser.run("app.fax.end"):
            pdf = put(f"{room}/grey.pdf", made(browser, "pdf")[0])
            pages = subprocess.run(["pdftoppm", "-gray", "-r", "72", "-aa", "no", "-aaVector", "no", pdf],
                                   capture_output=True, check=True).stdout
            # Poppler shades images as it draws them, but no masks.
            for page, got, wanted in zip(shown, greys_of(pages), drawn):
                if wanted and browser.run(f"app.fax.lost.has({page})"):
                    yield f"{os.path.basename(path)}: page {page} of the PDF", got == wanted[:3], True
            yield f"{os.path.basename(path)}: all pages", len(greys_of(pages)), len(drawn)
            count += 1
        close_all(browser)
    yield "some were tried", count > 5, True
    yield from turned(browser, room)


def turned(browser: Browser, room: str) -> Generator[Claim, None, None]:
    """The PDF of a page that was turned says so."""
    opened(browser, f"{TOP}/samples/three-mmr-rows.tif")
    browser.run("app.view.turn(1)")
    put(f"{room}/turned.pdf", made(browser, "pdf")[0])
    said = subprocess.run(["pdfinfo", f"{room}/turned.pdf"], capture_output=True, check=True).stdout.decode()
    yield "turned right", found(r"Page rot: +(\d+)", said)[1], "90"
    close_all(browser)


def turned_pels(browser: Browser, program: str, room: str) -> Generator[Claim, None, None]:
    """A page that was turned, whole or damaged, is turned in the TIFF file and in the PNG too; the others are not."""
    drawn = put(f"{room}/turn.tif", faxes.drawn(program, 6))
    for path, at in (drawn, 1), (f"{TOP}/samples/damaged-fourth-page.tif", 3):
        before: dict[str, Any] = {}
        for turns in range(4):
            opened(browser, path)
            browser.run(f"app.goTo({at}); for (let turn = 0; turn < {turns}; turn++) app.view.turn(1)")
            png = faxes.pels_of_png(made(browser, "png")[0])
            image = faxes.convert(program, made(browser, "tiff2")[0], "-o", "pbm")
            pages = [(wide, high, bytes(raster)) for wide, high, raster in faxes.pels_of_pbm(image)]
            before.setdefault("png", png)
            before.setdefault("tiff", pages)
            name = f"{os.path.basename(path)}: {turns} quarters"
            yield f"{name}: PNG", png == rotated(before["png"], turns), True
            yield f"{name}: TIFF", pages == [
                rotated(page, turns) if number == at else page for number, page in enumerate(before["tiff"])], True
            close_all(browser)
        wide, high, _ = before["tiff"][at]
        yield f"{os.path.basename(path)}: a page that is no square was turned", wide != high, True


def rotated(picture: tuple[int, int, bytes], turns: int) -> tuple[int, int, bytes]:
    """A picture that is turned to the right by so many quarters."""
    wide, high, pels = picture
    for _ in range(turns):
        pels = b"".join(pels[at::wide][::-1] for at in range(wide))
        wide, high = high, wide
    return wide, high, pels


def greys_of(data: bytes) -> list[tuple[int, int, bytes]]:
    """The width, the height and the pels of each picture of a raw PGM: 0 white, 1 black, 2 grey."""
    images = []
    while data:
        head = found(rb"\AP5\n(\d+) (\d+)\n255\n", data)
        width, height = map(int, head.groups())
        raster = data[head.end():head.end() + width * height]
        images.append((width, height, bytes({0: 1, 255: 0}.get(value, 2) for value in raster)))
        data = data[head.end() + width * height:]
    return images


def rows_of(program: str, path: str, page: int, number: int) -> list[str]:
    """The rows of a page, as those of a page with this number."""
    form = faxes.said(program, "list", "--cursor", f"1:{page}:0", "--max", "1", path).split()
    lines = faxes.said(program, "rows", "--cursor", f"1:{page}:0", "--max", form[3], path).splitlines()
    return [re.sub(r"^row \d+", f"row {number}", line) for line in lines if line.startswith("row ")]


def pictures(browser: Browser, program: str, room: str) -> Generator[Claim, None, None]:
    """PNGs are what faxpages-picture draws, grey rows and repeated ones among them."""
    if not shutil.which("pngtopnm"):
        print("SKIPPED: PNGs of the page beside faxpages-picture (netpbm)")
        return
    fine = faxes.drawn(program, 77)
    tried = [f"{TOP}/samples/damaged-fourth-page.tif", put(f"{room}/fine.tif", fine)]
    for lines in (98, 391, 49):
        data = fine.replace(struct.pack("<2I", 196, 1), struct.pack("<2I", lines, 1))
        tried.append(put(f"{room}/{lines}.tif", data))
    for path in tried + faxes.damaged(program, room)[:8]:
        opened(browser, path)
        for page in range(min(4, browser.run("app.fax.pages"))):
            drawn = faxes.picture(program, path, page)
            if drawn:
                browser.run(f"app.goTo({page})")
                got, _, said = made(browser, "png")
                lacks = browser.run(f"app.fax.lost.has({page})")
                yield f"{os.path.basename(path)}: page {page}: grey is said", "missing rows are grey" in said, lacks
                yield f"{os.path.basename(path)}: page {page} as PNG", faxes.pels_of_png(got) == drawn[:3], True
                yield f"{os.path.basename(path)}: page {page}: its size", got.count(b"pHYs"), 1
        close_all(browser)


def images(browser: Browser, program: str, room: str) -> Generator[Claim, None, None]:
    """PBM is read as the program converts it; one that is cut is refused by name."""
    image = faxes.convert(program, faxes.drawn(program, 5), "-o", "pbm")
    opened(browser, put(f"{room}/images.pbm", image))
    fax = put(f"{room}/images.tif", faxes.convert(program, image, "-o", "mmr"))
    yield "PBM: the list", browser.run("app.fax.text()").split("\n\n")[1] + "\n", faxes.said(program, "list", fax)
    yield "PBM: as PBM", made(browser, "pbm")[0] == image, True
    close_all(browser)
    for data, name in ((image[:-5], "Its rows are not all there."), (b"P4 x", "does not begin as raw PBM does")):
        opened(browser, put(f"{room}/cut.pbm", data))
        fault = faxes.said(program, "convert", "-o", "mmr", f"{room}/cut.pbm")
        number = found(r"image (\d+):", fault).group(1)
        yield f"PBM: {fault}", name in browser.run("app.fax.verdict()"), True
        yield f"PBM: {fault}: the image", f"Image {int(number) + 1} " in browser.run("app.fax.verdict()"), True
        close_all(browser)


def bare(browser: Browser, program: str, room: str) -> Generator[Claim, None, None]:
    """Bare data, by the form: each coding and bit order, with and without EOLs, on bytes, cut, and counted."""
    image = faxes.image("marks", 30)
    rows = faxes.said(program, "rows", put(f"{room}/rows.tif", faxes.convert(program, image, "-o", "mmr")))
    for at, coding in enumerate(faxes.CODINGS, 1):
        for order in (1, 2):
            data = faxes.convert(program, image, "-o", coding, "--order", str(order))
            (strip,) = parts_of.strips_of(data, next(parts_of.directories_of(data)))
            words: dict[str, int] = {"coding": at, "order": order, "width": 40, "rows": 0}
            for number in (0, 30):
                yield from as_bare(browser, program, room, strip, {**words, "rows": number}, rows,
                                   "This fax is whole: 1 page, 30 rows.")
            half = strip[:len(strip) // 2]
            yield from as_bare(browser, program, room, half, {**words, "rows": 30}, None, "of 30 rows")
    bits = ["1000111000", "10011", "1000111000"]
    few = "row 0 0 3 2 3\nrow 0 1 8\nrow 0 2 3 2 3\nend\n"
    for aligned in (False, True):
        text = "".join(it + "0" * (-len(it) % 8 if aligned else 0) for it in bits)
        data = int(text + "0" * (-len(text) % 8), 2).to_bytes(-(-len(text) // 8), "big")
        words = {"coding": 1, "order": 1, "width": 8, "rows": 3, "eols": False, "aligned": aligned}
        yield from as_bare(browser, program, room, data, words, few, "This fax is whole: 1 page, 3 rows.")
        if aligned:
            yield from as_bare(browser, program, room, data, {**words, "rows": 0}, few,
                               "This fax is whole: 1 page, 3 rows.")
    words = {"coding": 1, "order": 1, "width": 8, "rows": 0}
    yield from as_bare(browser, program, room, b"\xff" * 40, words, "", "No row is found")
    yield "a wrong width is refused", browser.run("""(() => {
        const form = document.getElementById("bare");
        form.elements.width.removeAttribute("max");
        form.elements.width.value = "65536";
        form.querySelector("button").click();
        return document.getElementById("bare-said").textContent;
    })()""").startswith("Say a width"), True
    close_all(browser)


def as_bare(browser: Browser, program: str, room: str, data: bytes, words: dict[str, int], rows: str | None,
            verdict: str) -> Generator[Claim, None, None]:
    """Fills the form in, and compares the rows of the fax that it makes."""
    close_all(browser)
    opened(browser, put(f"{room}/bare.bin", data))
    name = f"bare {words}"
    browser.until('!document.getElementById("bare-open").hidden')
    browser.run('document.getElementById("bare-open").click()')
    browser.run(f"""(() => {{
        const form = document.getElementById("bare");
        for (const [name, value] of Object.entries({json.dumps({"eols": True, "aligned": False, **words})})) {{
            const field = form.elements[name];
            if (field.type === "checkbox") field.checked = value; else field.value = String(value);
        }}
        form.querySelector("button").click();
    }})()""")
    browser.until('app.fax.told && app.fax.state === "done"')
    yield f"{name}: what is said", verdict in browser.run("app.fax.verdict()"), True
    if rows:
        said = f"It is read as {faxes.CODINGS[words['coding'] - 1].upper()}, {words['width']} dots wide, as you said."
        yield f"{name}: how it is read is said", browser.until(
            f'document.getElementById("taken").textContent.endsWith("{said}")'), True
        saved = put(f"{room}/saved.tif", made(browser, "tiff3")[0])
        yield f"{name}: rows", faxes.said(program, "rows", saved), rows
