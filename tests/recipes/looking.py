"""Recipes that show pages, compare them, or make other files of them."""

from __future__ import annotations

import base64
import os
import re
import shutil
import struct
import subprocess
from typing import Iterator

from tests import Claim
from tests.finding import found
from tests.recipes.room import Room, Tests
from tests.convert import files, pages
from tests.recipes import spoiled
from tests.recipes.recipes import ROOT, SCRIPTS
from tests.recipes.room import HOSTILE, WIDTH, is_there

PNG = b"\x89PNG"
# What ends a strip in MMR.
EOFB = bytes.fromhex("001001")


def grey(data: bytes) -> tuple[int, int, int, list[bytes]]:
    """The pels of a PNG, as numbers: its width, its height, and a row of bytes after another."""
    plain = subprocess.run(["pngtopnm"], input=data, capture_output=True, check=True).stdout
    raw = subprocess.run(["pgmtopgm"], input=plain, capture_output=True, check=True).stdout
    kind, width, height, most, raster = found(rb"\A(P5)\s+(\d+)\s+(\d+)\s+(\d+)\s(.*)", raw, re.S).groups()
    size = int(width)
    return size, int(height), int(most), [raster[at : at + size] for at in range(0, len(raster), size)]


def look(room: Room, commands: str) -> Iterator[Claim]:
    images = room.fax("fax.tif", "mr", "all")
    yield "run", room.bash(commands)[:2], (0, b"")
    for page, image in enumerate(images):
        yield f"page {page}", room.bash(f"pngtopnm fax.pages/page-{page}.png")[1], image
    made = room.names("fax.pages")
    yield "pages", len([name for name in made if name.endswith(".png")]), len(images)
    room.fax("fax.tif", "mr", "marks")
    yield "the folder is there", room.bash(commands)[0] != 0, True
    yield "what is there stays", room.names("fax.pages"), made
    shutil.rmtree(room("fax.pages"))
    room.sample("damaged-fourth-page.tif", "fax.tif")
    status, _, said = room.bash(commands)
    yield "a fault", (status != 0, "fault page 3 row " in said), (True, True)
    yield "a fault: nothing is left", room.names(), ["fax.tif"]


def look_in_terminal(room: Room, commands: str) -> Iterator[Claim]:
    room.fax("fax.tif", "mr", "all")
    status, shown, said = room.bash(commands)
    yield "run", (status, said, len(shown) > 100), (0, "", True)
    if is_there("img2sixel", "a page as sixels"):
        sixels = room.bash(commands.split("chafa")[0] + "img2sixel -w 800")
        yield "sixels", (sixels[0], sixels[1][:2]), (0, b"\x1bP")


def look_at_low(room: Room, commands: str) -> Iterator[Claim]:
    images = room.fax("fax.tif", "mh", "all")
    yield "a fax of several pages", len(images) > 3, True
    yield "run", room.bash(commands), (0, b"", "")
    for page, image in enumerate(images):
        twice = [row for row in drawn(image) for _ in (1, 2)]
        yield f"page {page}", black(room.get(f"fax.pages/page-{page}.png")) == twice, True
    made = [name for name in room.names("fax.pages") if name.endswith(".png")]
    yield "pages", len(made), len(images)
    shutil.rmtree(room("fax.pages"))
    room.sample("damaged-fourth-page.tif", "fax.tif")
    status, _, said = room.bash(commands)
    yield "a fault", (status != 0, "fault page 3 row " in said, room.names()), (True, True, ["fax.tif"])


def pictures(html: bytes) -> list[bytes]:
    """The pictures in a page of HTML."""
    return [base64.b64decode(it) for it in re.findall(rb'src="data:image/png;base64,([^"]*)"', html)]


def browser(room: Room, commands: str) -> Iterator[Claim]:
    images = room.others("fax.tif")
    yield "run", room.bash(commands), (0, b"", "")
    html = room.get("fax.html")
    yield "pages", [black(it) for it in pictures(html)], [drawn(it) for it in images]
    room.sample("return-to-control.tif", "fax.tif")
    room.bash(commands)
    yield "a note", b"note strip 0: N2 ReturnToControl" in room.get("fax.html"), True
    room.sample("damaged-fourth-page.tif", "fax.tif")
    yield "a fault", room.bash(commands)[0], 1
    html = room.get("fax.html")
    yield "a fault: pages", len(pictures(html)), 4
    yield "a fault: rows", re.findall(rb"page 3 rows \d+ to 10: \w+", html) != [], True
    for name in HOSTILE:
        room.others(name)
        status, made, said = room.call("faxpages-html", name)
        title = re.search(rb"<title>(.*)</title>\n", made)
        yield f"{name!r}", (status, said, len(pictures(made)), title is not None), (0, "", 5, True)
        yield f"{name!r}: no mark-up", re.search(rb"[<>]", title.group(1)) if title else "", None
    yield from not_all_shown(room)
    yield from shapes(room)
    yield from in_narrow_window(room)
    yield "nothing is left", room.left(), []


def not_all_shown(room: Room) -> Iterator[Claim]:
    """What is left out of a long fax is told, in the file and beside it."""
    room.others("fax.tif")
    for most, left_out in (("4", True), ("5", False), ("6", False)):
        status, html, said = room.call("faxpages-html", "fax.tif", most)
        told = "the pages from 4 on are not shown"
        yield f"{most} of 5 pages", (status, len(pictures(html)), said), (
            0,
            min(int(most), 5),
            f"faxpages-html: {told}\n" if left_out else "",
        )
        yield f"{most} of 5 pages: told", told.encode() in html, left_out
    room.put("long.tif", pages.coded(room.program, ["-o", "mmr"], pages.image(8, [0]) * 201))
    room.tool("faxpages-picture", "#!/bin/sh\nexit 1\n")
    status, html, said = room.call("faxpages-html", "long.tif")
    yield "201 pages", (status, html.count(b"<h2>Page "), said), (
        0,
        200,
        "faxpages-html: the pages from 200 on are not shown\n",
    )
    os.remove(f"{room.path}/bin/faxpages-picture")
    os.symlink(f"{SCRIPTS}/faxpages-picture", f"{room.path}/bin/faxpages-picture")
    yield "no number of pages", [
        room.call("faxpages-html", "fax.tif", it)[0] for it in ("", "0", "x", "1x", "9999999999")
    ], [2] * 5


def shapes(room: Room) -> Iterator[Claim]:
    """A page whose resolution differs across and down is drawn in its shape: its size, and its rows and pels."""
    (image,) = room.fax("fine.tif", "mmr", "all", 3)[:1]
    fine = drawn(image)
    data = room.get("fine.tif")
    for lines, across, down in (
        ((98, 1), 1, 2),
        ((100, 1), 1, 2),
        ((196, 1), 1, 1),
        ((391, 1), 2, 1),
        ((1, 100), 1, 4),
        ((0, 1), 1, 1),
    ):
        room.put("shape.tif", data.replace(struct.pack("<2I", 196, 1), struct.pack("<2I", *lines)))
        status, made, _ = room.call("faxpages-picture", "shape.tif", "0")
        got = black(made) if made else None
        wanted = [[pel for pel in row for _ in range(across)] for row in fine for _ in range(down)]
        if room.run("list", name="shape.tif")[0]:
            yield f"lines {lines}: refused", status, 3
            continue
        yield f"lines {lines}", (status, got == wanted), (0, True)


def in_narrow_window(room: Room) -> Iterator[Claim]:
    """In a browser: the file is no wider than a narrow window, and its pages do not touch."""
    if not shutil.which("chromium"):
        print("not run: faxpages-html in a browser: chromium missing")
        return
    name = f"{'long-name' * 9}.tif"
    room.fax(name, "mmr", "all", 20)
    html = room.call("faxpages-html", name)[1]
    yield "viewport", b'<meta name="viewport" content="width=device-width' in html, True
    room.put("fax.html", html.replace(b"</html>", MEASURE))
    dom = room.bash("chromium --headless --no-sandbox --disable-gpu --window-size=360,600 --virtual-time-budget=2000 "
                    '--dump-dom "file://$PWD/fax.html"')[1]  # fmt: skip
    measured = re.search(rb"<title>measured (\d+) (\d+) (-?\d+)</title>", dom)
    yield "narrow: measured", measured is not None, True
    wide, window, apart = map(int, measured.groups() if measured else ())
    yield "narrow: it is no wider", (window <= 500, wide <= window), (True, True)
    yield "narrow: pages are apart", apart >= 10, True


# How wide the file is, how wide the window is, and how far the pages are from each other.
MEASURE = b"""<script>
const pages = [...document.querySelectorAll("section")].map(it => it.getBoundingClientRect());
const apart = Math.min(...pages.slice(1).map((it, at) => it.top - pages[at].bottom));
document.title = `measured ${document.documentElement.scrollWidth} ${innerWidth} ${Math.round(apart)}`;
</script></html>"""


def black(data: bytes) -> list[list[bool]]:
    """The rows of a PNG: for each pel, whether it is black."""
    return [[value == 0 for value in line] for line in grey(data)[3]]


def drawn(image: bytes) -> list[list[bool]]:
    """The same of a raw PBM."""
    _, size, raster = image.split(b"\n", 2)
    width, height = map(int, size.split())
    bits = f"{int.from_bytes(raster, 'big'):0{8 * len(raster)}b}"
    step = len(bits) // height
    return [[bit == "1" for bit in bits[at : at + width]] for at in range(0, len(bits), step)]


def compare_without_the_program(room: Room) -> Iterator[Claim]:
    """Where there is no program two faxes are neither the same nor different."""
    os.mkdir(room("alone"))
    os.symlink(f"{SCRIPTS}/faxpages-compare", room("alone/faxpages-compare"))
    os.symlink(shutil.which("readlink") or "", room("alone/readlink"))
    for words in (["sent.tif", "sent.tif"], ["sent.tif", "received.tif"]):
        ran = room.bash('PATH=$PWD/alone; "$@"', "faxpages-compare", *words)
        yield f"no program: {words}", ran, (3, b"", "faxpages-compare: faxpages is not on the PATH: the package faxpages has it\n")
    shutil.rmtree(room("alone"))


def compare(room: Room, commands: str) -> Iterator[Claim]:
    room.others("sent.tif", 0)
    room.others("received.tif", 1)
    yield "the same", (room.bash(commands)[::2], "difference.png" in room.names()), ((0, ""), False)
    room.fax("received.tif", "mh", "all")
    status, shown, said = room.bash(commands)
    lines = shown.decode().splitlines()
    yield "another", (status, said, len(lines)), (1, "", 3)
    mine, others = (room.rows(name)[0].decode().splitlines() for name in ("sent.tif", "received.tif"))
    a, b = next((a.split(), b.split()) for a, b in zip(mine, others) if a != b)
    at = next(at for at, (one, other) in enumerate(zip(a, b)) if one != other)
    if at > 2:
        pel = sum(map(int, a[3:at])) + min(int(a[at]), int(b[at]))
        yield "another: where", lines[0], f"first difference: page {a[1]} row {a[2]} pel {pel}"
    yield "another: its rows", [line.split()[:4] for line in lines[1:]], [
        [mark, "row", *it[1:3]] for mark, it in (("<", a), (">", b))
    ]
    yield from long_rows(room, commands)
    images = room.others("sent.tif")
    room.put("received.tif", pages.coded(room.program, ["-o", "mmr"], b"".join(images[:-1])))
    status, shown, _ = room.bash(commands)
    yield "a page less", (status, shown.splitlines()[0], shown.splitlines()[2]), (1, b"first difference:", b"> end")
    yield "a page less: picture", colours(room.get("difference.png"))[:2], size_of(room, "sent.tif", len(images) - 1)
    os.remove(room("difference.png"))
    room.sample("damaged-fourth-page.tif", "received.tif")
    shutil.copy(room("received.tif"), room("sent.tif"))
    status, _, said = room.bash(commands)
    yield "a fault in both", (status, "fault page 3 row" in said), (3, True)
    room.put("sent.tif", pages.coded(room.program, ["-o", "mh"], whole_page(room)))
    yield "a fault in one", room.bash(commands)[0], 3
    for name in HOSTILE:
        room.others(name)
        yield f"{name!r}", room.call("faxpages-compare", name, name)[::2], (0, "")
    yield "no file", room.call("faxpages-compare", "sent.tif", "none.tif")[:2], (3, b"")
    yield "nothing is left", room.left(), []


def long_rows(room: Room, commands: str) -> Iterator[Claim]:
    """Rows of many runs are cut to a line, from where they differ; and the picture of the page, in colours."""
    stripes, width = sum(1 << at for at in range(0, WIDTH, 2)), WIDTH
    changed = stripes ^ (0b11 << (WIDTH // 2))
    for name, rows in (("sent.tif", [0, stripes, 0]), ("received.tif", [0, changed, 0, stripes])):
        first = pages.image(width, [stripes] * 2)
        room.put(name, pages.coded(room.program, ["-o", "mmr"], first + pages.image(width, rows)))
    os.remove(room("difference.png"))
    status, shown, said = room.bash(commands)
    lines = shown.decode().splitlines()
    a, b = (room.rows(name)[0].decode().splitlines()[3].split() for name in ("sent.tif", "received.tif"))
    at = next(at for at, (one, other) in enumerate(zip(a, b)) if one != other)
    pel = sum(map(int, a[3:at])) + min(int(a[at]), int(b[at]))
    yield "long rows", (status, said, lines[0]), (1, "", f"first difference: page 1 row 1 pel {pel}")
    yield "long rows: each is a line", [len(line) < 80 for line in lines], [True] * 3
    yield "long rows: what differs", [line.split()[4] + line.split()[7] for line in lines[1:]], [
        f"..{it[at]}" for it in (a, b)
    ]
    wide, high, raster = colours(room.get("difference.png"))
    wanted = [row_of_colours(WIDTH, *rows) for rows in ((0, 0), (stripes, changed), (0, 0), (0, stripes))]
    yield "picture: size", (wide, high), (WIDTH, 4)
    yield "picture: colours", [row == it for row, it in zip(raster, wanted)], [True] * 4
    yield from pictures_that_are_there(room)
    os.remove(room("difference.png"))
    yield "no picture is asked for", room.call("faxpages-compare", "sent.tif", "received.tif")[:2], (1, shown)
    yield "picture: no folder for it", room.call("faxpages-compare", "sent.tif", "received.tif", "no/difference.png")[
        0
    ], 3
    yield "words", room.call("faxpages-compare", "a", "b", "c", "d")[0], 2
    yield from compare_without_the_program(room)


def pictures_that_are_there(room: Room) -> Iterator[Claim]:
    """No picture takes the place of a fax, nor, unless it is asked for, of any file."""
    words = ["sent.tif", "received.tif"]
    before, made = room.contents("."), room.get("difference.png")
    room.fax("third.tif", "mh", "marks")
    third = room.get("third.tif")
    for place in ("third.tif", "difference.png"):
        status, shown, said = room.call("faxpages-compare", *words, place)
        yield f"it is there: {place}", (status, shown, said), (
            3, b"", f"faxpages-compare: {place}: it is there already; --replace writes over it\n")  # fmt: skip
    os.symlink("nowhere", room("link"))
    yield "it is a link", room.call("faxpages-compare", *words, "link")[:2], (3, b"")
    os.remove(room("link"))
    for place in (*words, "./sent.tif", f"{room('')}received.tif"):
        status, shown, said = room.call("faxpages-compare", "--replace", *words, place)
        yield f"it is a fax: {place}", (status, shown, "is one of the faxes" in said), (3, b"", True)
    yield "all is as it was", (room.contents("."), room.get("third.tif")), (before | {"third.tif": third}, third)
    room.put("difference.png", b"another")
    yield "it is replaced", room.call("faxpages-compare", "--replace", *words, "difference.png")[0], 1
    yield "it is replaced: wholly", room.get("difference.png") == made, True
    os.remove(room("third.tif"))


def colours(data: bytes) -> tuple[int, int, list[list[int]]]:
    """The pels of a PNG: its width, its height, and three bytes a pel."""
    plain = subprocess.run(["pngtopnm"], input=data, capture_output=True, check=True).stdout
    raw = subprocess.run(["pnmtoplainpnm"], input=plain, capture_output=True, check=True).stdout.split()
    width, height = int(raw[1]), int(raw[2])
    values = [int(it) for it in raw[4:]]
    return width, height, [values[at : at + 3 * width] for at in range(0, len(values), 3 * width)]


def row_of_colours(width: int, one: int, other: int) -> list[int]:
    """Black where both rows are, red where only the one is, blue where only the other is, and else white."""
    shown = {(0, 0): [255] * 3, (1, 1): [0] * 3, (1, 0): [255, 0, 0], (0, 1): [0, 0, 255]}
    return [it for at in range(width - 1, -1, -1) for it in shown[one >> at & 1, other >> at & 1]]


def whole_page(room: Room) -> bytes:
    """The images of the damaged sample, with its first page in the place of the fourth."""
    status, image, _ = room.bash("faxpages-picture received.tif 0 | pngtopnm | pgmtopbm -threshold")
    assert status == 0
    return image * 4


def pdf(room: Room, commands: str) -> Iterator[Claim]:
    images = room.fax("fax.tif", "mh", "all", 100)
    yield "run", room.bash(commands), (0, b"", "")
    yield from strips_in_pdf(room, images)
    os.remove(room("fax.pdf"))
    yield "tiff2pdf", room.bash(commands[: commands.index("img2pdf")] + "tiff2pdf -o fax.pdf pages.tif"), (0, b"", "")
    yield from strips_in_pdf(room, images)


def strips_in_pdf(room: Room, images: list[bytes]) -> Iterator[Claim]:
    """Each strip of the TIFF file stands in the PDF as it is."""
    made, data = room.get("fax.pdf"), room.get("pages.tif")
    strips = [strip for fields in files.directories_of(data) for strip in files.strips_of(data, fields)]
    found = [len(re.findall(rb"stream\r?\n" + re.escape(strip), made)) for strip in strips]
    yield "strips", found, [1] * len(images)
    yield "pages", made.count(b"/CCITTFaxDecode"), len(images)


def salvage(room: Room, commands: str) -> Iterator[Claim]:
    images = room.others("fax.tif", 1)
    yield "whole", room.bash(commands), (0, b"5 pages whole, 0 in part\n", "")
    yield "whole: files", room.names("fax.salvaged"), ["lost.txt", "pages.pdf", "pages.tif"]
    yield "whole: rows", room.rows("fax.salvaged/pages.tif"), room.rows("fax.tif")
    yield "whole: nothing is lost", room.get("fax.salvaged/lost.txt"), b""
    yield "the folder is there", room.bash(commands)[0], 3
    yield "the folder stays", room.names("fax.salvaged"), ["lost.txt", "pages.pdf", "pages.tif"]
    yield from salvage_damaged(room, commands)
    yield from salvage_strips(room, images)
    yield from salvage_odd(room)
    yield from salvage_standard(room)
    yield from salvage_noisy(room)
    yield from salvage_chain(room)
    yield from salvage_many(room)
    yield from spoiled.drawn(room)
    for name in HOSTILE:
        room.others(name, 1)
        status, _, said = room.call("faxpages-salvage", name, f"{name}.d")
        yield f"{name!r}", (status, said), (0, "")
        yield f"{name!r}: rows", room.rows(f"{name}.d/pages.tif"), room.rows(name)
    for name, data in (("no.tif", b"no fax"), ("none.tif", b""), ("cut.tif", room.get("fax.tif")[:100])):
        room.put(name, data)
        status, _, _ = room.call("faxpages-salvage", name, f"{name}.d")
        yield f"{name}", (status, room.names(f"{name}.d"), len(room.get(f"{name}.d/lost.txt")) > 0), (
            1,
            ["lost.txt"],
            True,
        )
    yield "no file", room.call("faxpages-salvage", "no-such.tif", "d")[0], 3
    yield "the owner's modes", oct(os.stat(room("no.tif.d")).st_mode & 0o777), oct(0o777 & ~umask())
    yield "no folder is left", [name for name in room.names() if re.search(r"\.\w{6}$", name)], []
    yield "nothing is left", room.left(), []


def umask() -> int:
    mask = os.umask(0)
    os.umask(mask)
    return mask


def salvage_damaged(room: Room, commands: str) -> Iterator[Claim]:
    """The sample, whose fourth page is damaged: the rows before the fault are there."""
    shutil.rmtree(room("fax.salvaged"))
    room.sample("damaged-fourth-page.tif", "fax.tif")
    yield "damaged", room.bash(commands), (1, b"3 pages whole, 1 in part\n", "")
    yield "damaged: files", room.names("fax.salvaged"), ["lost.txt", "page-3.png", "pages.pdf", "pages.tif"]
    rows, fault = room.rows("fax.tif")
    row = int(found(rb"row (\d+)", fault).group(1))
    lost = re.fullmatch(rb"page 3 rows %d to 10: (\w+)\n" % row, room.get("fax.salvaged/lost.txt"))
    yield "damaged: lost", lost is not None and fault.endswith(lost.group(1) + b"\n"), True
    left = [line for line in rows.splitlines() if line.startswith(b"row ")]
    white = [b"row 3 %d 32" % it for it in range(row, 11)]
    yield "damaged: rows", room.rows("fax.salvaged/pages.tif")[0].splitlines(), [*left, *white, b"end"]
    said = room.run("check", "--received", name="fax.salvaged/pages.tif")[1].decode().splitlines()
    yield "damaged: bad rows", said[0], f"note page 3: N6 BadFaxLines {11 - row} {11 - row} 1"
    width, height, most, raster = grey(room.get("fax.salvaged/page-3.png"))
    yield "damaged: picture", (width, height), (32, 11)
    colours = [{value * 3 // most for value in line} for line in raster]
    yield "damaged: rows that are lost", [it == {2} for it in colours], [False] * row + [True] * (11 - row)
    yield "damaged: its first row", raster[1], raster_row(b"row 3 1", rows, most)


def raster_row(place: bytes, rows: bytes, most: int) -> bytes:
    """A row as bytes of a picture."""
    (line,) = [line for line in rows.splitlines() if line.startswith(place + b" ")]
    runs = [int(n) for n in line.split()[3:]]
    return b"".join(bytes([0 if at % 2 else most]) * n for at, n in enumerate(runs))


def salvage_strips(room: Room, images: list[bytes]) -> Iterator[Claim]:
    """A page of many strips, two of which are damaged: the others are read; and a page whose fields are refused."""
    room.put("strips.tif", pages.coded(room.program, ["-o", "mmr", "--strip", "1"], b"".join(images)))
    data = bytearray(room.get("strips.tif"))
    forms = list(files.directories_of(bytes(data)))
    number = max(range(len(forms)), key=lambda it: forms[it][257][0])
    for strip in (1, 3):
        place, size = forms[number][273][strip], forms[number][279][strip]
        data[place : place + size] = bytes(size)
    room.put("strips.tif", bytes(data))
    status, _, _ = room.call("faxpages-salvage", "strips.tif", "strips")
    wanted = [f"page {number} rows {row} to {row}: " for row in (1, 3)]
    found = [line.rsplit(" ", 1)[0] + " " for line in room.get("strips/lost.txt").decode().splitlines()]
    yield "strips", (status, found), (1, wanted)
    width, height, most, raster = grey(room.get(f"strips/page-{number}.png"))
    lost = [row for row, line in enumerate(raster) if {value * 3 // most for value in line} == {2}]
    yield "strips: picture", (width, height, lost), (WIDTH, forms[number][257][0], [1, 3])
    at = bytes(data).index(b"\x03\x01\x03\x00\x01\x00\x00\x00\x04\x00")  # Compression of the first page
    data[at + 8] = 5
    room.put("refused.tif", bytes(data))
    status, _, _ = room.call("faxpages-salvage", "refused.tif", "refused")
    lines = room.get("refused/lost.txt").decode().splitlines()
    yield "refused", (status, lines[0]), (1, "page 0: Unsupported 259")
    yield "refused: pages", len(room.run("list", name="refused/pages.tif")[1].splitlines()), 5


def pages_of_pdf(room: Room, name: str) -> list[tuple[int, int, int]]:
    """The images of a PDF, each the one of its page: width, height and bits of a pel."""
    listed = subprocess.run(["pdfimages", "-list", room(name)], capture_output=True, check=True).stdout.decode()
    images = [line.split() for line in listed.splitlines()[2:]]
    assert [int(image[0]) for image in images] == list(range(1, len(images) + 1)), listed
    return [(int(image[3]), int(image[4]), int(image[7])) for image in images]


def salvage_noisy(room: Room) -> Iterator[Claim]:
    """What a server received over a noisy line: all rows but eight are there, the PDF shows what the picture does, and
    `lost.txt` has a line for each stretch."""
    room.sample("received/over-a-noisy-line.tif", "noisy.tif")
    yield "noisy", room.call("faxpages-salvage", "noisy.tif", "noisy"), (1, b"0 pages whole, 1 in part\n", "")
    yield "noisy: files", room.names("noisy"), ["lost.txt", "page-0.png", "pages.pdf", "pages.tif"]
    said = room.run("salvage", name="noisy.tif")[1].decode().splitlines()
    words = [line.split() for line in said if line.startswith("lost ")]
    stretches = [(int(first), int(rows), name) for _, _, first, rows, name in words]
    lines = [f"page 0 rows {first} to {first + rows - 1}: {name}" for first, rows, name in stretches]
    yield "noisy: lost", (room.get("noisy/lost.txt").decode().splitlines(), len(lines)), (lines, 5)
    width, height, most, raster = grey(room.get("noisy/page-0.png"))
    lost = [row for first, rows, _ in stretches for row in range(first, first + rows)]
    yield "noisy: picture", (width, height), (WIDTH, 680)
    # Each row stands there twice, since the page is of standard resolution.
    colours = [{value * 3 // most for value in line} == {2} for line in raster]
    yield "noisy: grey rows", [at for at, it in enumerate(colours) if it], [at for row in lost for at in (2 * row, 2 * row + 1)]
    rows = [line for line in said if line.startswith("row ")]
    wanted = [raster_row(b"row 0 %d" % row, "\n".join(rows).encode(), most) for row in (0, 75, 197, 300, 339)]
    yield "noisy: rows", [bytes(raster[2 * row]) for row in (0, 75, 197, 300, 339)], wanted
    yield "noisy: PDF", pages_of_pdf(room, "noisy/pages.pdf"), [(WIDTH, 680, 2)]
    room.bash("pdfimages -png noisy/pages.pdf shown")
    yield "noisy: the PDF shows the picture", grey(room.get("shown-000.png"))[:2], (width, height)
    shown = grey(room.get("shown-000.png"))
    yield "noisy: pel by pel", [[v * 3 // shown[2] for v in line] for line in shown[3]] == [
        [v * 3 // most for v in line] for line in raster
    ], True
    yield "noisy: one picture", room.call("faxpages-picture", "noisy.tif", "0")[1:], (
        room.get("noisy/page-0.png"), "".join(f"{line}\n" for line in lines))  # fmt: skip


def page_of(name: str) -> tuple[dict[int, int], bytes]:
    """The fields and the strip of a sample of one page that a server received."""
    data = files.get(f"{ROOT}/samples/received/{name}")
    (fields,) = files.directories_of(data)
    return {tag: values[0] for tag, values in fields.items()}, files.strips_of(data, fields)[0]


def chained(made: list[tuple[dict[int, int], bytes]]) -> bytes:
    """A file of pages in one strip each, whose last directory is followed by the first."""
    data, link = b"II*\0" + bytes(4), 4
    for fields, strip in made:
        place = len(data)
        data += strip + bytes(len(strip) % 2) + struct.pack("<4I", 204, 1, 98, 1)
        told = {**{tag: fields[tag] for tag in (256, 257, 259, 262, 266)}, 273: place, 278: fields[257], 279: len(strip)}
        told |= {282: len(data) - 16, 283: len(data) - 8, 292: fields.get(292, 0), 296: 2}
        data = data[:link] + struct.pack("<I", len(data)) + data[link + 4 :] + struct.pack("<H", len(told))
        for tag, value in sorted(told.items()):
            data += struct.pack("<HHII", tag, 5 if tag in (282, 283) else 4, 1, value)
        link = len(data)
        data += bytes(4)
    return data[:link] + data[4:8] + data[link + 4 :]


def salvage_chain(room: Room) -> Iterator[Claim]:
    """Pages in their order: whole, refused, lost, in part, whole; and a chain that leads back after them."""
    sent, noisy = page_of("as-it-was-sent.tif"), page_of("over-a-noisy-line.tif")
    refused, gone = ({**sent[0], 256: 0}, sent[1]), ({**sent[0], 257: 10}, EOFB)
    room.put("chain.tif", chained([sent, refused, gone, noisy, sent]))
    yield "chain: status", room.call("faxpages-salvage", "chain.tif", "chain")[:2], (1, b"2 pages whole, 1 in part\n")
    first, second, *lines, last = room.get("chain/lost.txt").decode().splitlines()
    yield "chain: refused and broken", (first, last), ("page 1: OutOfLimits 256", "page 5: DirectoryLoop")
    yield "chain: the page that is lost", second, "page 2 rows 0 to 9: EndMarker"
    yield "chain: the page in part", {line.split(" rows ")[0] for line in lines}, {"page 3"}
    sizes = [(WIDTH, 360, 1), (WIDTH, 680, 2), (WIDTH, 360, 1)]
    yield "chain: PDF", pages_of_pdf(room, "chain/pages.pdf"), sizes
    yield "chain: files", room.names("chain"), ["lost.txt", "page-3.png", "pages.pdf", "pages.tif"]
    room.sample("received/as-it-was-sent.tif", "sent.tif")
    shown = room.bash("pdfimages -png chain/pages.pdf shown; for it in 0 2; do pngtopnm shown-00$it.png; done")[1]
    yield "chain: whole pages", shown == room.run("convert", "-o", "pbm", name="sent.tif")[1] * 2, True


def salvage_many(room: Room) -> Iterator[Claim]:
    """A fax of so many damaged pages that they are not drawn is refused at once; pages of which nothing is left are
    listed; and if pages.tif would be too large, the PDF has whole pages as pictures."""
    head = b"II*\0" + struct.pack("<I", 16) + bytes.fromhex("0018e000") + bytes(4)
    for coding, wanted in ((3, (3, ["more than 1000 pages are damaged, or there is no room for them"])), (4, (1, []))):
        fields = [(256, 8), (257, 1000000), (259, coding), (262, 0), (273, 8), (278, 1000000), (279, 3)]
        entries = b"".join(struct.pack("<HHII", tag, 4, 1, value) for tag, value in fields)
        directory, size = struct.pack("<H", len(fields)) + entries, 6 + len(entries)
        nexts = [16 + size * number for number in range(1, 20000)] + [0]
        room.put("many.tif", head + b"".join(directory + struct.pack("<I", place) for place in nexts))
        status, _, said = room.call("faxpages-salvage", "many.tif", f"many-{coding}")
        yield f"many: {coding}", (status, [line.split(": ", 1)[1] for line in said.splitlines()]), wanted
    lines = room.get("many-4/lost.txt").decode().splitlines()
    too_large = "pages.tif is not written: OutputTooLarge"
    yield "many: all are listed", (len(lines), lines[-2:]), (
        20001, ["page 19999 rows 0 to 999999: EndMarker", too_large])  # fmt: skip
    yield "many: no PDF", room.names("many-4"), ["lost.txt"]
    empty = {256: 8, 257: 1000000, 259: 4, 262: 0, 266: 1}, EOFB
    room.put("large.tif", chained([page_of("as-it-was-sent.tif"), page_of("over-a-noisy-line.tif"), *[empty] * 2200]))
    yield "large", room.call("faxpages-salvage", "large.tif", "large"), (1, b"1 pages whole, 1 in part\n", "")
    yield "large: files", room.names("large"), ["lost.txt", "page-0.png", "page-1.png", "pages.pdf"]
    yield "large: told", room.get("large/lost.txt").decode().splitlines()[-1], too_large
    yield "large: PDF", pages_of_pdf(room, "large/pages.pdf"), [(WIDTH, 720, 1), (WIDTH, 680, 2)]


def salvage_odd(room: Room) -> Iterator[Claim]:
    """A page that libtiff 4.5 cannot read, since its rows in MH have the most runs: the PDF has it too."""
    images = room.others("odd.tif", 0)
    yield "odd", room.call("faxpages-salvage", "odd.tif", "odd"), (0, b"5 pages whole, 0 in part\n", "")
    yield "odd: rows", room.rows("odd/pages.tif"), room.rows("odd.tif")
    room.bash("pdfimages -png odd/pages.pdf odd/shown")
    shown = [room.bash(f"pngtopnm odd/shown-00{page}.png")[1] for page in range(5)]
    yield "odd: the PDF", shown, images


def salvage_standard(room: Room) -> Iterator[Claim]:
    """A damaged page of standard resolution: its picture has twice its rows."""
    room.fax("standard.tif", "mmr", "marks", 5)
    data = room.get("standard.tif").replace(struct.pack("<2I", 196, 1), struct.pack("<2I", 98, 1))
    (fields,) = files.directories_of(data)
    (place,), (size,) = fields[273], fields[279]
    room.put("standard.tif", data[: place + size // 2] + bytes(size - size // 2) + data[place + size :])
    yield "standard: status", room.call("faxpages-salvage", "standard.tif", "standard")[0], 1
    width, height = size_of(room, "standard.tif", 0)
    yield "standard: picture", grey(room.get("standard/page-0.png"))[:2], (width, 2 * height)


def size_of(room: Room, name: str, page: int) -> tuple[int, int]:
    width, height = room.run("list", name=name)[1].splitlines()[page].split()[2:4]
    return int(width), int(height)


TESTS: Tests = {
    "Look at a page": (["pamsplit", "pnmtopng", "pngtopnm"], look),
    "Look at a page in a terminal": (["pampick", "pnmtopng", "chafa"], look_in_terminal),
    "Look at a page of standard resolution": (
        ["pamsplit", "pamenlarge", "pnmtopng", "pngtopnm", "pgmtopgm"],
        look_at_low,
    ),
    "Look at a fax in a browser": (["pnmtopng", "pngtopnm", "pgmtopgm"], browser),
    "The same picture?": (
        ["pnmtopng", "pngtopnm", "pgmtopbm", "pnmtoplainpnm", "pnmpad", "rgb3toppm", "tiffcp", "pnmtotiff"],
        compare,
    ),
    "A PDF of a fax": (["img2pdf", "tiff2pdf"], pdf),
    "Salvage a damaged fax": (
        ["tiffcp", "tiff2pdf", "pnmtopng", "pngtopnm", "pgmtopgm", "pnmtotiff", "pdfimages"],
        salvage,
    ),
}
