"""What the page says and shows of a fax of which rows are missing: how many, beside `faxpages salvage`; that nothing
which is found is hidden; bare data, whose coding is guessed; and files that are cut where no row is."""

from __future__ import annotations

import json
import os
import random
import struct
from typing import Any, Generator, Iterator

from tests import TOP, Claim
from tests.convert import files as parts_of
from tests.convert import pages
from tests.convert.files import put
from tests.web import faxes, saving, verdicts
from tests.web.browser import Browser

WIDTH = 1728
VERDICT = """(() => {
    const verdict = document.getElementById("verdict");
    return app.fax && app.fax.state === "done" && verdict.textContent === app.fax.verdict() &&
        document.getElementById("name").textContent === %s && [verdict.textContent, verdict.className];
})()"""


def close_all(browser: Browser) -> None:
    browser.run("while (app.fax) app.close()")


def verdict_of(browser: Browser, path: str) -> tuple[str, str]:
    """Opens a file, and answers what is said of it, and how that looks."""
    close_all(browser)
    browser.choose("#choose", path)
    text, look = browser.until(VERDICT % json.dumps(os.path.basename(path)))
    return str(text), str(look)


def lines(seed: int, rows: int) -> bytes:
    """An image of rows with marks, as wide as a fax."""
    rng, drawn, row = random.Random(seed), [], 0
    for number in range(rows):
        row = pages.draw_row(rng, "marks", WIDTH, number, row)
        drawn.append(row)
    return pages.image(WIDTH, drawn)


def places(data: bytes) -> Iterator[int]:
    """Where the directories of a file stand."""
    at = struct.unpack_from("<I", data, 4)[0]
    while at:
        yield at
        at = parts_of.fields_of(data, at)[1]


def strips(data: bytes) -> list[tuple[int, int]]:
    """Where the strips of a file stand, and how long they are."""
    return [pair for fields in parts_of.directories_of(data) for pair in zip(fields[273], fields[279])]


def noisy(program: str, seed: int, rows: list[int], hits: list[int], coding: str = "mr") -> bytes:
    """A fax of pages of one strip each, in each of which so many bytes were hit by noise."""
    image = b"".join(lines(seed + page, count) for page, count in enumerate(rows))
    data = bytearray(faxes.convert(program, image, "-o", coding))
    rng = random.Random(seed)
    for (place, size), count in zip(strips(bytes(data)), hits):
        for _ in range(count):
            data[place + rng.randrange(size // 8, size)] ^= 1 << rng.randrange(8)
    return bytes(data)


def counts(browser: Browser, program: str, room: str) -> Generator[Claim, None, None]:
    """The verdict counts rows as `faxpages salvage` does, and looks by how much is missing."""
    seen = set()
    hits = [[0], [1], [9], [2, 0, 1], [0, 5, 0], [0, 300], [60, 60], [400, 1], [500, 500, 500], [1] * 6, [600] * 7]
    for seed, each in enumerate(hits):
        data = noisy(program, 100 * seed, [120 + 7 * at for at in range(len(each))], each)
        path = put(f"{room}/noisy-{seed}.tif", data)
        rows, lost = verdicts.rows_of_pages(program, path), verdicts.lost_of_pages(program, path)
        look = verdicts.look(rows, lost)
        wanted = verdicts.missing(rows, lost) if lost else (
            f"This fax is whole: {verdicts.counted(len(rows), 'page')}, {verdicts.counted(sum(rows), 'row')}.")
        yield f"hits {each}: what is said", verdict_of(browser, path), (wanted, look)
        said = [f"Page {page + 1} of {len(rows)}: {state(count, lost.get(page, 0))}" for page, count in enumerate(rows)]
        told = browser.until("""(() => {
            const all = [...document.querySelectorAll("#thumbs-all [role=option]")];
            return all.length > 0 && all.map((it) => it.getAttribute("aria-label"));
        })()""")
        yield f"hits {each}: small pictures say so", told, said[:len(told)]
        seen.add(look)
    yield "each look was seen", seen, {"whole", "slight", "damaged"}
    close_all(browser)


def state(rows: int, lost: int) -> str:
    """What is said of a page."""
    return "whole" if not lost else "most is missing" if 2 * lost > rows else f"{verdicts.counted(lost, 'row')} missing"


def empty(fax: bytes) -> bytes:
    """A fax of two pages, as it is where the call was cut off before a row of the second one."""
    data, last = bytearray(fax), list(places(fax))[1]
    at = fax.index(struct.pack("<H", 257), last)
    data[at + 8:at + 12] = struct.pack("<I", 0)
    return bytes(data)


def reasons(browser: Browser, program: str, room: str) -> Generator[Claim, None, None]:
    """No verdict stands without its reason; each is for somebody who has never seen a fax's inside."""
    fax = faxes.convert(program, lines(1, 30) * 2, "-o", "mmr")
    last = list(places(fax))[1]
    mail = b"Received: from fax.example\r\nFrom: fax@example\r\nSubject: A fax\r\n\r\nAttached.\r\n"
    tried: dict[str, tuple[bytes, str, str]] = {
        "call.tif": (empty(fax), "Page 2 cannot be read: no row of it was received.", "damaged"),
        "cut.tif": (fax[:last + 20], "After page 1 nothing more is found: the end of the file is missing.", "damaged"),
        "other.bin": (b"\0\1\xfe" * 30, "This file cannot be read as a fax: it is no TIFF file.", "damaged"),
        "fax.eml": (mail, "This is no fax that is read here, but a mail. The fax may be attached to it: save it from "
                          "the mail first, and open what you saved.", "left"),
        "letter.txt": (b"Dear all,\n", "This is no fax that is read here, but text. A text editor opens it.", "left"),
    }
    for name, (data, said, look) in tried.items():
        yield f"{name}: what is said", verdict_of(browser, put(f"{room}/{name}", data)), (said, look)
    yield "nothing is offered for a text", browser.run(
        '["save", "printer", "view-part"].map((it) => document.getElementById(it).checkVisibility())'), [False] * 3
    verdict_of(browser, put(f"{room}/both.tif", empty(noisy(program, 3, [90, 90], [9]))))
    both = browser.run("[...app.fax.lost.keys(), ...app.fax.refused.keys()]")
    said = browser.run("document.getElementById('advice').textContent")
    yield f"what to do is said once: {said}", (both, said.count("ask the sender")), ([0, 1], 1)
    close_all(browser)


def folded(browser: Browser, program: str, room: str) -> Generator[Claim, None, None]:
    """What is missing is folded by page, names of faults stand under Details, and notes stand apart."""
    data = noisy(program, 7, [300, 300], [9, 4])
    path = put(f"{room}/folded.tif", data)
    verdict_of(browser, path)
    lost = [line.split() for line in faxes.said(program, "salvage", path).splitlines() if line.startswith("lost ")]
    wanted = []
    for page in ("0", "1"):
        each = [words for words in lost if words[1] == page]
        wanted.append(f"Page {int(page) + 1}: {verdicts.counted(len(each), 'place')}, "
                      f"{verdicts.counted(sum(int(words[3]) for words in each), 'row')}")
    yield "by page", browser.until("""document.querySelectorAll("#findings > li > details > summary").length === 2 &&
        [...document.querySelectorAll("#findings > li > details > summary")].map((it) => it.textContent)"""), wanted
    seen = browser.run("document.getElementById('about').innerText")
    yield "no name of a fault is seen", [words[4] for words in lost if words[4] in seen], []
    yield "no advice to save as TIFF", "TIFF" in browser.run("document.getElementById('advice').textContent"), False
    yield "folded", browser.run('[...document.querySelectorAll("#findings button")].some((it) => it.checkVisibility())'
                                ), False
    browser.run("document.querySelectorAll('#findings details').forEach((it) => { it.open = true; })")
    yield "names under Details", browser.run('document.querySelector("#findings .names .name").textContent').split(
        ": ")[1], lost[0][4]
    means = browser.run('document.querySelector("#findings .names").textContent')
    yield "what is counted is of this coding", ("in MR with" in means, "in MMR with" in means), (True, False)
    extension = browser.run("sayOfFault('Extension')[1] === sayOfFault('BadCode')[1]")
    yield "noise is no extension", extension, True
    verdict_of(browser, f"{TOP}/samples/return-to-control.tif")
    yield "a note is nothing that is missing", browser.run("""["findings-part", "notes-part"].map(
        (it) => document.getElementById(it).hidden).concat(document.getElementById("verdict").className)"""), [
            True, False, "whole"]
    close_all(browser)


def reached(browser: Browser, program: str, room: str) -> Generator[Claim, None, None]:
    """However much is missing, Print and Save stand in the bar above the page, some steps of the Tab key away."""
    verdict_of(browser, put(f"{room}/reached.tif", noisy(program, 9, [900, 900, 900], [200, 200, 200])))
    browser.until('document.getElementById("save").checkVisibility()')
    tops = browser.run("""["print", "save-make"].map((it) => {
        const box = document.getElementById(it).getBoundingClientRect();
        return box.top >= 0 && box.bottom <= document.getElementById("view").getBoundingClientRect().top;
    })""")
    yield "above the page, in sight", tops, [True, True]
    browser.run("document.getElementById('choose').focus()")
    steps: dict[str, int] = {}
    for step in range(1, 61):
        browser.press("Tab", number=9)
        steps.setdefault(browser.run("document.activeElement.id"), step)
    yield f"Print is near: {steps.get('print')}, {steps.get('save-make')}", (
        steps.get("print", 99) < 40, steps.get("save-make", 99) < 40), (True, True)
    yield "what cannot be made is not offered", browser.run(
        '[...document.querySelector("#save select").options].filter((it) => it.disabled).map((it) => it.value)'), [
            "tiff3", "tiff2", "tiff1", "pbm"]
    browser.run("window.focused = document.activeElement; document.querySelector('#save button').click()")
    browser.until('app.fax.making?.state === "ready" && document.querySelector("#saved a")')
    yield "one click saves it", browser.run("[app.fax.making.name, document.querySelector('#saved a').download]"), [
        "reached.pdf", "reached.pdf"]
    yield "no focus is stolen", browser.run("document.activeElement === focused"), True
    close_all(browser)


def marks(browser: Browser, program: str, room: str) -> Generator[Claim, None, None]:
    """Marks stand beside the page, as high as what is lost; none is over a row. They can be switched off."""
    path = put(f"{room}/marks.tif", noisy(program, 21, [700], [12]))
    verdict_of(browser, path)
    browser.run("document.activeElement.blur(); app.view.setZoom(1)")
    browser.until('document.querySelector(".current .mark")')
    told = browser.run("""[...document.querySelectorAll(".current .mark")].map((it) => {
        const [mark, sheet] = [it, app.view.sheet.element].map((one) => one.getBoundingClientRect());
        const rows = app.view.sheet.form.rows / sheet.height;
        return [mark.right <= sheet.left, Math.round((mark.top - sheet.top) * rows * 10) / 10,
            Math.max(mark.height, Sheet.LEAST_BAR) - Math.max(it.offsetHeight, Sheet.LEAST_BAR), mark.height * rows];
    })""")
    lost = [(int(words[2]), int(words[3])) for line in faxes.said(program, "salvage", path).splitlines()
            if (words := line.split())[0] == "lost"]
    yield "beside the page", {bool(it[0]) for it in told}, {True}
    yield "where the rows are", [any(abs(it[1] - row) < 2 for row, _ in lost) for it in told], [True] * len(told)
    most = max(count for _, count in lost)
    yield "as high as they are", abs(max(it[3] for it in told) - most) < 2.5, True
    for key, seen in (("m", False), ("m", True)):
        browser.press(key)
        yield f"{key}: marks are seen", browser.run('Boolean(document.querySelector(".current .mark"))'), seen
    browser.run("document.getElementById('marks').click()")
    yield "the button hides them", browser.run(
        '[document.querySelector(".mark"), document.getElementById("marks").getAttribute("aria-pressed")]'), [
            None, "false"]
    browser.run("document.getElementById('marks').click(); app.view.setZoom('whole')")
    close_all(browser)


def averaged(browser: Browser, program: str, room: str) -> Generator[Claim, None, None]:
    """A page that is made smaller shows all that is found: grey is only what is lost wholly."""
    full, rows = (1 << WIDTH) - 1, 800
    data = bytearray(faxes.convert(program, pages.image(WIDTH, [full if row % 8 < 4 else 0 for row in range(rows)]),
                                   "-o", "mh"))
    ((place, size),) = strips(bytes(data))
    rng = random.Random(5)
    for _ in range(60):
        data[place + rng.randrange(size)] ^= 1 << rng.randrange(8)
    path = put(f"{room}/averaged.tif", bytes(data))
    text, _ = verdict_of(browser, path)
    # Whether each row that is found is black.
    found = {int(words[2]): words[3] == "0" for line in faxes.said(program, "salvage", path).splitlines()
             if (words := line.split())[0] == "row"}
    yield f"{text}: rows are lost", len(found) < rows - 10, True
    for down in (2, 3, 7):
        got = browser.run(f"""app.fax.ask("part", {{ page: 0, x: 0, y: 0, width: 8, height: {rows}, across: 1,
            down: {down} }}).then(({{ pels }}) => [...pels].filter((_, at) => at % 8 === 0).map((it) => it & 255))""")
        wanted = []
        for top in range(0, rows, down):
            here = [found[row] for row in range(top, min(rows, top + down)) if row in found]
            wanted.append(int(255 * (1 - min(1, 1.4 * sum(here) / len(here))) + 0.5) if here else 168)
        yield f"{down} rows in one", got, wanted
    small = browser.run('app.fax.ask("small", { page: 0, most: 112 }).then((it) => [it.height, [...it.pels].length])')
    greys = browser.run('app.fax.ask("small", { page: 0, most: 112 }).then((it) => [...it.pels].filter('
                        '(pel) => pel === Drawing.GREY).length)')
    whole = sum(not any(row in found for row in range(rows) if row * small[0] // rows == line)
                for line in range(small[0]))
    yield "in small", greys, whole * (small[1] // small[0])
    close_all(browser)


def shaded(browser: Browser, program: str, room: str) -> Generator[Claim, None, None]:
    """Each pel of a part that is made smaller has the shade of all that it stands for, also at the ends of rows that
    end within a byte, and at the last rows."""
    rng, width, rows = random.Random(8), 1003, 41
    drawn = [rng.getrandbits(width) & rng.getrandbits(width) if row % 9 else 0 for row in range(rows)]
    path = put(f"{room}/shaded.tif", faxes.convert(program, pages.image(width, drawn), "-o", "mmr"))
    verdict_of(browser, path)
    black = [[row >> (width - 1 - pel) & 1 for pel in range(width)] for row in drawn]
    for across, down, x, wide, y in ((1, 1, 0, width, 0), (1, 1, 16, 500, 3), (2, 2, 0, width, 0), (3, 3, 0, width, 0),
                                     (5, 2, 16, 501, 4), (1, 3, 8, width - 8, 0), (40, 40, 0, width, 0)):
        got = browser.run(f"""app.fax.ask("part", {{ page: 0, x: {x}, y: {y}, width: {wide}, height: {rows - y},
            across: {across}, down: {down} }}).then(({{ pels }}) => [...pels].map((it) => it & 255))""")
        wanted = []
        for top in range(y, rows, down):
            for left in range(x, x + wide, across):
                here = [row[pel] for row in black[top:top + down] for pel in range(left, min(x + wide, left + across))]
                ink = sum(here) / len(here) * (1.4 if across * down > 1 else 1)
                wanted.append(int(255 * (1 - min(1, ink)) + 0.5))
        yield f"{across} by {down} from {x}, {y}: the shades", near(got, wanted), True
    close_all(browser)


def near(got: list[int], wanted: list[int]) -> bool:
    """Whether shades are the same, but for what rounding may make of one."""
    return len(got) == len(wanted) and all(abs(one - other) <= 1 for one, other in zip(got, wanted))


def fronted(program: str, images: list[bytes]) -> bytes:
    """A fax in MMR whose directories stand before its strips, so that its last bytes are those of its last strip."""
    singles = [faxes.convert(program, image, "-o", "mmr") for image in images]
    parts = [(data, next(places(data)), strips(data)[0]) for data in singles]
    heads, out = [], b""
    room = 8 + sum(len(directory_of(data, place)) + 16 for data, place, _ in parts)
    at = 8
    for number, (data, place, (strip, size)) in enumerate(parts):
        directory = bytearray(directory_of(data, place))
        count = struct.unpack_from("<H", directory)[0]
        end = at + len(directory)
        for entry in range(2, 2 + 12 * count, 12):
            tag, kind = struct.unpack_from("<2H", directory, entry)
            if tag == 273:
                struct.pack_into("<I", directory, entry + 8, room + len(out))
            elif kind == 5:
                struct.pack_into("<I", directory, entry + 8, end + (0 if tag == 282 else 8))
        struct.pack_into("<I", directory, len(directory) - 4, 0 if number == len(parts) - 1 else end + 16)
        heads.append(bytes(directory) + struct.pack("<4I", 204, 1, 196, 1))
        out += data[strip:strip + size]
        at = end + 16
    return b"II" + struct.pack("<HI", 42, 8) + b"".join(heads) + out


def directory_of(data: bytes, place: int) -> bytes:
    """The bytes of a directory."""
    return data[place:place + 2 + 12 * struct.unpack_from("<H", data, place)[0] + 4]


def cut(browser: Browser, program: str, room: str) -> Generator[Claim, None, None]:
    """A page of which all rows are found is whole, also where the file was cut: that is noted, and all are saved."""
    images = [lines(40 + page, 60) for page in range(4)]
    data = fronted(program, images)
    for less in (1, 2):
        path = put(f"{room}/cut-{less}.tif", data[:-less])
        yield f"cut by {less}: the program names a fault", "StripOutside" in faxes.said(program, "check", path), True
        yield f"cut by {less}: no row is lost", verdicts.lost_of_pages(program, path), {}
        yield f"cut by {less}: what is said", verdict_of(browser, path), (
            "This fax is whole: 4 pages, 240 rows. The end of the file is missing, but no row.", "whole")
        yield f"cut by {less}: it is noted", browser.run(
            'document.getElementById("notes-list").textContent').startswith("Page 4, the file ends before"), True
        for kind, coding in (("tiff3", "mmr"), ("tiff1", "mh")):
            got, _, said = saving.made(browser, kind)
            yield f"cut by {less}: all pages as {kind}: {said}", got == faxes.convert(
                program, b"".join(images), "-o", coding), True
        yield f"cut by {less}: as PBM", saving.made(browser, "pbm")[0] == b"".join(images), True
    path = put(f"{room}/cut-more.tif", data[:-200])
    lost = verdicts.lost_of_pages(program, path)
    yield "cut by more: rows are lost", verdict_of(browser, path)[0], verdicts.missing([60] * 4, lost)
    close_all(browser)


BARE = """[app.fax.rows, app.fax.lostRows, app.fax.coded && [app.fax.coded.coding, app.fax.coded.order,
    app.fax.coded.width, app.fax.coded.isFine], app.fax.isGuessed]"""


def bare(browser: Browser, program: str, room: str) -> Generator[Claim, None, None]:
    """Bare data are read without a question: how they are coded is guessed, and as many rows are found of them as in a
    TIFF file with the same bytes."""
    for seed, (width, rows) in enumerate([(1728, 2291), (1728, 1100), (2432, 300)]):
        rng = random.Random(seed)
        image = pages.image(width, [pages.draw_row(rng, "marks", width, 0, 0) for _ in range(rows)])
        for number, coding in enumerate(faxes.CODINGS, 1):
            for order, hits in ((1, 0), (2, 3), (1, 9)):
                data = bytearray(faxes.convert(program, image, "-o", coding, "--order", str(order)))
                ((place, size),) = strips(bytes(data))
                for _ in range(hits):
                    data[place + rng.randrange(size // 4, size)] ^= 1 << rng.randrange(8)
                name = f"bare {width} {coding} {order} {hits}"
                tiff = put(f"{room}/{name}.tif", bytes(data))
                said = faxes.said(program, "salvage", tiff).splitlines()
                found = sum(line.startswith("row ") for line in said)
                text, look = verdict_of(browser, put(f"{room}/{name}.bin", bytes(data)[place:place + size]))
                got = browser.run(BARE)
                # Nobody knows how long a page in MMR is of which the end is missing.
                is_fine = rows >= 1400 or (coding == "mmr" and found < rows)
                yield f"{name}: how it is read", got[2:], [[number, order, width, is_fine], True]
                yield f"{name}: as many rows as in a TIFF file", got[0], found
                yield f"{name}: {text}: whole, or not", ("whole" in text, look == "whole"), (
                    found == rows, found == rows)
                yield f"{name}: it is said how it is read", browser.until(
                    'document.getElementById("taken").textContent').startswith("This file has fax data alone"), True
    yield from asked(browser, program, room)
    close_all(browser)


def asked(browser: Browser, program: str, room: str) -> Generator[Claim, None, None]:
    """The form shows what was guessed, and can change it: read in another coding it is not called whole, nor right."""
    image = lines(77, 400)
    data = bytearray(faxes.convert(program, image, "-o", "mh"))
    ((place, size),) = strips(bytes(data))
    data[place + size // 2] ^= 16
    strip = bytes(data[place:place + size])
    text, look = verdict_of(browser, put(f"{room}/one bit.bin", strip))
    got, lost, *_ = browser.run(BARE)
    yield f"one bit: {text}", (got + lost >= 399, 0 < lost < 3, look, text), (
        True, True, "slight", f"Readable. {lost} of {got + lost} rows {'is' if lost == 1 else 'are'} missing.")
    yield "one bit: of the PDF nobody says that it is right", "right" in saving.made(browser, "pdf")[2], False
    yield "the form is folded, and shows the guess", browser.run("""(() => {
        const { elements } = document.getElementById("bare");
        return [document.getElementById("bare-part").open, elements.coding.value, elements.width.value];
    })()"""), [False, "1", "1728"]
    browser.run("""(() => {
        const form = document.getElementById("bare");
        form.elements.coding.value = "2";
        form.querySelector("button").click();
    })()""")
    browser.until('app.fax.state === "done" && app.fax.coded.coding === 2')
    said = browser.run("app.fax.verdict()")
    yield f"MH read as MR: {said}", ("whole" in said, said.startswith("No row is found as you said")), (False, True)
    yield "nothing is saved of it", browser.until('!app.isDue && document.getElementById("save").hidden'), True
    yield "more rows than a page may have are not called whole", verdict_of(
        browser, put(f"{room}/rows.g4", b"\1" + b"\xff" * 1000000)), (
            "The first 1,000,000 rows are found; what follows them is missing: it is longer than any fax page. How many "
            "rows that is, bare data do not say.", "damaged")
    for name, content in (("noise.bin", random.Random(3).randbytes(20000)), ("zeros.bin", bytes(5000))):
        yield f"{name} is taken for no fax", verdict_of(browser, put(f"{room}/{name}", content))[0], (
            "This file cannot be read as a fax: it is no TIFF file.")
        yield f"{name}: but somebody may know better", browser.run(
            'document.getElementById("bare-open").checkVisibility()'), True


def without_eols(browser: Browser, program: str, room: str) -> Generator[Claim, None, None]:
    """Bare data in MH without EOLs, whole and cut: each row that is found is the row that was sent, and what follows is
    said to be missing."""
    image = lines(81, 60)
    data = faxes.convert(program, image, "-o", "mh")
    ((place, size),) = strips(data)
    bits = "".join(f"{byte:08b}" for byte in data[place:place + size]).replace("000000000001", " ").split()
    sent = "".join(bits[:60])
    ((_, _, wanted),) = faxes.pels_of_pbm(image)
    for name, text in (("whole", sent), ("cut", sent[:len(sent) // 2])):
        count = -(-len(text) // 8)
        path = put(f"{room}/without-eols-{name}.bin", int(text.ljust(8 * count, "0"), 2).to_bytes(count, "big"))
        said, look = verdict_of(browser, path)
        found, lost, coded, is_guessed = browser.run(BARE)
        yield f"{name}: how it is read", (coded[:3], is_guessed), ([1, 1, WIDTH], True)
        _, high, pels = faxes.pels_of_png(saving.made(browser, "png")[0])
        # In standard resolution each row stands twice in the picture.
        times = high // (found + lost)
        rows = [pels[times * row * WIDTH:(times * row + 1) * WIDTH] for row in range(found + lost)]
        yield f"{name}: the rows that are found", b"".join(rows[:found]) == wanted[:found * WIDTH], True
        yield f"{name}: the others are grey", set(b"".join(rows[found:])), {2} if lost else set()
        yield f"{name}: the report says so", browser.run("app.fax.report.fault && app.fax.report.fault.row"), (
            found if lost else None)
        yield f"{name}: {said}", (found == 60, look, said.startswith(f"The first {found} rows are found")), (
            (True, "whole", False) if name == "whole" else (False, "damaged", True))
    close_all(browser)


PARTS: list[Any] = [counts, reasons, folded, reached, marks, averaged, shaded, cut, bare, without_eols]
