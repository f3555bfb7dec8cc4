"""Recipes that make faxes of other files."""

from __future__ import annotations

import itertools
import os
import re
import shutil
from typing import Iterator

from tests import Claim
from tests.recipes import shown
from tests.recipes.room import Room, Tests
from tests.convert import files, pages
from tests.recipes.room import HOSTILE, WIDTH, is_there

# A module of a stranger, which lies where a script is called and must not run.
STRANGER = b"open('ran', 'w').close()\nraise SystemExit('a stranger')\n"


def pdf_of(room: Room, name: str, count: int = 2) -> None:
    """A PDF of so many pages, made by img2pdf of a fax of 204 by 196 to the inch."""
    room.fax("source.tif", "mmr", "marks", 100)
    data = room.bash("img2pdf --pagesize letter " + "source.tif " * count)[1]
    room.put(name, data)
    os.remove(room("source.tif"))


def listed(room: Room, name: str) -> list[list[str]]:
    return [line.split() for line in room.run("list", name=name)[1].decode().splitlines() if line.startswith("page ")]


def from_pdf(room: Room, commands: str) -> Iterator[Claim]:
    pdf_of(room, "letter.pdf", 11)
    yield "run", room.bash(commands), (0, b"", "")
    for words, name, lines, rows in ((list[str](), "fine.tif", 196, 2156), (["--standard"], "standard.tif", 98, 1078)):
        form = ["1728", str(rows), "mh", "1", "0", "1", "204/1", f"{lines}/1", "2"]
        yield f"{name}: pages", [line[2:] for line in listed(room, name)], [form] * 11
        yield f"{name}: check", room.report(name), b"pages 11 rows %d\n" % (11 * rows)
        yield f"{name}: it is no white page", len(room.rows(name)[0].split()) > 12 * 11 * rows // 2, True
        for hostile in HOSTILE:
            pdf_of(room, f"{hostile}.pdf", 1)
            ran = room.call("faxpages-from-pdf", *words, "--replace", f"{hostile}.pdf", hostile)
            yield f"{hostile!r}", ran, (0, b"", "")
            yield f"{hostile!r}: page", [line[2:] for line in listed(room, hostile)], [form]
    before = room.get("fine.tif")
    yield from not_written_over(room, "letter.pdf", "fine.tif")
    yield from bounded(room)
    yield from shown.pages_are_as_shown(room)
    room.put("letter.pdf", b"no PDF")
    status = room.call("faxpages-from-pdf", "--replace", "letter.pdf", "fine.tif")[0]
    yield "no PDF", (status, room.get("fine.tif") == before), (1, True)
    yield "nothing is left", (room.left(), temporary(room)), ([], [])


# A program of poppler that asks for memory, or writes a file, of so many MiB before it does its work, and says nothing
# where that fails; and notes its limits.
GREEDY = """#!/bin/bash
echo "${{0##*/}} $(ulimit -v) $(ulimit -f)" >>"$HOME/limits"
{python} -c 'x = bytearray({memory} << 20)' 2>/dev/null &&
    head -c {file}M /dev/zero >"$HOME/greedy" 2>/dev/null && exec {program} "$@"
exit 1
"""


def bounded(room: Room) -> Iterator[Claim]:
    """Memory and files of each program of poppler are bounded: one that takes more fails, and nothing is written."""
    programs = {name: shutil.which(name) for name in ("pdfinfo", "pdftoppm", "pdfimages")}
    python = shutil.which("python3")
    cases = {"little": (512, 1, 0), "much memory": (3072, 1, 1), "a large file": (512, 300, 1)}
    ways: list[tuple[str, list[str]]] = [("pdfinfo", []), ("pdftoppm", []), ("pdfimages", ["--as-is"])]
    for name, words in ways:
        for case, (memory, size, wanted) in cases.items():
            room.tool(name, GREEDY.format(python=python, program=programs[name], memory=memory, file=size))
            pdf_of(room, "greedy.pdf", 1)
            status, _, said = room.call("faxpages-from-pdf", *words, "greedy.pdf", "greedy.tif", **room.module)
            there = os.path.exists(room("greedy.tif"))
            yield f"{name}: {case}: {said}", (status, there, bool(said)), (wanted, not wanted, bool(wanted))
            for made in {"greedy.tif", "greedy"} & set(room.names()):
                os.remove(room(made))
        os.remove(f"{room.path}/bin/{name}")
    limits = set(room.get("limits").decode().splitlines())
    yield "limits", limits, {f"{name} 2097152 262144" for name in programs}
    for made in ("greedy.pdf", "limits"):
        os.remove(room(made))


def temporary(room: Room) -> list[object]:
    """The files that were to become a fax."""
    return [name for name in room.names() if re.search(r"\.tif\.\w{6}$", name)]


def not_written_over(room: Room, pdf: str, fax: str, *how: str) -> Iterator[Claim]:
    """A fax that is there stays, but with --replace; and the PDF stays, also by another name of it."""
    script, before = ["faxpages-from-pdf", *how], (room.get(pdf), room.get(fax))
    said = f"faxpages-from-pdf: {fax} is there already: --replace writes over it\n"
    yield "a fax that is there", room.call(*script, pdf, fax, **room.module)[::2], (1, said)
    os.symlink(pdf, room("link.pdf"))
    os.link(room(pdf), room("hard.pdf"))
    os.symlink("nowhere", room("broken.tif"))
    os.mkdir(room("folder"))
    for name, *more in (
        [pdf], [pdf, "--replace"], ["link.pdf"], ["link.pdf", "--replace"], ["hard.pdf", "--replace"], ["folder"],
        ["folder", "--replace"], ["broken.tif"],
    ):  # fmt: skip
        status, _, said = room.call(*script, *more, pdf, name, **room.module)
        yield f"{name} {more}", (status, said.startswith(f"faxpages-from-pdf: {name} is ")), (1, True)
    yield "both are as before", (room.get(pdf), room.get(fax)), before
    room.put(fax, b"something else")
    yield "--replace", room.call(*script, "--replace", pdf, fax, **room.module), (0, b"", "")
    yield "it is written over", room.get(fax) == before[1], True
    room.put("with-modes", b"")
    yield "its modes", os.stat(room(fax)).st_mode, os.stat(room("with-modes")).st_mode
    for name in ("link.pdf", "hard.pdf", "broken.tif", "with-modes"):
        os.remove(room(name))
    os.rmdir(room("folder"))
    wrongs: list[list[str]] = [
        [], [pdf], ["--replace", pdf], ["--as-is", "--standard", pdf, fax], [pdf, fax, fax],
    ]
    for wrong in wrongs:
        yield f"words {wrong}", room.call("faxpages-from-pdf", *wrong)[0], 2


def out_of_pdf(room: Room, commands: str) -> Iterator[Claim]:
    """The PDFs that img2pdf, tiff2pdf and Ghostscript make of a fax, and ones made here with each coding; beside
    modules of a stranger."""
    for name in ("fractions", "ctypes", "struct", "os", "faxpages", "pikepdf"):
        room.put(f"{name}.py", STRANGER)
    room.put("source.tif", in_standard_resolution(room))
    once, commands = commands, commands.replace("--as-is", "--as-is --replace")
    makers = {"img2pdf": "img2pdf --output fax.pdf source.tif", "tiff2pdf": "tiff2pdf -o fax.pdf source.tif",
              "gs": "img2pdf --output other.pdf source.tif && gs -q -dNOPAUSE -dBATCH -sDEVICE=pdfwrite "
                    "-dMonoImageFilter=/CCITTFaxEncode -o fax.pdf other.pdf"}  # fmt: skip
    wanted = [[line[3], "mmr", line[8], line[9]] for line in listed(room, "source.tif")]
    for name, words in makers.items():
        yield f"{name}: made", room.bash(words)[0], 0
        yield f"{name}: run", room.bash(commands, **room.module), (0, b"", "")
        yield f"{name}: rows", room.rows("fax.tif"), room.rows("source.tif")
        yield f"{name}: forms", [[line[3], line[4], line[8], line[9]] for line in listed(room, "fax.tif")], wanted
        yield f"{name}: check", room.report("fax.tif"), room.report("source.tif").splitlines(True)[-1]
    yield from out_of_each_coding(room, commands)
    yield from out_of_twelve_kinds(room)
    yield from not_out_of_pdf(room, commands)
    for name in HOSTILE:
        shutil.copy(room("kept.pdf"), room(f"{name}.pdf"))
        yield f"{name!r}", room.call("faxpages-from-pdf", "--as-is", f"{name}.pdf", name, **room.module), (0, b"", "")
    shutil.copy(room("kept.pdf"), room("fax.pdf"))
    os.remove(room("fax.tif"))
    yield "the recipe", room.bash(once, **room.module), (0, b"", "")
    yield from not_written_over(room, "fax.pdf", "fax.tif", "--as-is")
    yield "no module of a stranger ran", "ran" in room.names(), False
    yield "nothing is left", (room.left(), temporary(room)), ([], [])


def out_of_twelve_kinds(room: Room) -> Iterator[Claim]:
    """The kinds of data that Ghostscript makes, in large images, which are objects of the PDF, and in small ones, which
    stand in the page's text: the pels are those that pdfimages shows. Four are refused by name."""
    room.fax("large.tif", "mmr", "marks", 100)
    room.fax("small.tif", "mmr", "marks")
    for size in ("large", "small"):
        room.bash(f"img2pdf --pagesize A4 --output {size}.pdf {size}.tif")
    taken = 0
    flags = ("true", "false")
    for k, eols, aligned, size in itertools.product((0, 4, -1), flags, flags, ("large", "small")):
        kind = f"/K {k} /EndOfLine {eols} /EncodedByteAlign {aligned}"
        made = room.bash("gs -q -dNOPAUSE -dBATCH -dSAFER -sDEVICE=pdfwrite -dMonoImageFilter=/CCITTFaxEncode "
                         '-dDownsampleMonoImages=false -o kind.pdf '
                         '-c "<< /MonoImageDict << $1 >> >> setdistillerparams" -f "$2.pdf"',
                         kind, size)[0]  # fmt: skip
        is_inline = b"[inline]" in room.bash("pdfimages -list kind.pdf")[1]
        yield f"{kind} {size}: made", (made, is_inline), (0, size == "small")
        room.bash("rm -f kept.tif drawn.tif shown-*")
        status, _, said = room.call("faxpages-from-pdf", "--as-is", "kind.pdf", "kept.tif", **room.module)
        if k != 0 and (k < 0) == (eols == "true"):
            words = "MMR with EOLs" if k < 0 else "MR without EOLs"
            told = f"page 1 is {words} (" in said and "--as-is" in said
            yield f"{kind} {size}: refused", (status, told), (1, True)
            # MR without EOLs poppler does not read either, and says so.
            status, _, said = room.call("faxpages-from-pdf", "kind.pdf", "drawn.tif")
            yield f"{kind} {size}: drawn", (status, "Syntax Error" in said), (0, False) if k < 0 else (3, True)
            continue
        shown = room.bash("pdfimages kind.pdf shown && cat shown-*.pbm")[1]
        yield f"{kind} {size}: taken", (status, said), (0, "")
        yield f"{kind} {size}: pels", room.run("convert", "-o", "pbm", name="kept.tif")[1] == shown != b"", True
        taken += 1
    yield "kinds that are taken", taken, 16


def in_standard_resolution(room: Room) -> bytes:
    """A fax of four pages and more, whose second one is in standard resolution, and the third one in MR."""
    images = [pages.image(WIDTH, rows * 30) for rows in pages.draw_document(4, "marks", WIDTH)]
    images += [pages.image(WIDTH, rows * 30) for rows in pages.draw_document(5, "marks", WIDTH)] * 4
    for number, coding in enumerate(["mmr", "mh", "mr"] + ["mmr"] * (len(images) - 3)):
        room.put(f"{number}.tif", pages.coded(room.program, ["-o", coding], images[number % len(images)]))
    room.bash("tiffset -s YResolution 98 1.tif && tiffcp [0-9].tif all.tif && rm [0-9].tif")
    return room.get("all.tif")


def pdf_with(data: bytes, rows: int, parameters: bytes) -> bytes:
    """A PDF of one page with this data of T.4 or T.6."""
    size = (WIDTH, rows)
    shown = b"q %d 0 0 %d 0 0 cm /I Do Q" % size
    objects = [b"<< /Type /Catalog /Pages 2 0 R >>", b"<< /Type /Pages /Kids [3 0 R] /Count 1 >>",
               b"<< /Type /Page /Parent 2 0 R /MediaBox [0 0 %d %d] /Contents 5 0 R "
               b"/Resources << /XObject << /I 4 0 R >> >> >>" % size,
               b"<< /Type /XObject /Subtype /Image /Width %d /Height %d /BitsPerComponent 1 "
               b"/ColorSpace /DeviceGray /Filter /CCITTFaxDecode /DecodeParms << %s /Columns %d >> /Length %d >>\n"
               b"stream\n%s\nendstream" % (*size, parameters, WIDTH, len(data), data),
               b"<< /Length %d >>\nstream\n%s\nendstream" % (len(shown), shown)]  # fmt: skip
    made, places = b"%PDF-1.4\n", []
    for number, text in enumerate(objects, 1):
        places.append(len(made))
        made += b"%d 0 obj\n%s\nendobj\n" % (number, text)
    table = b"".join(b"%010d 00000 n \n" % place for place in places)
    ends = b"trailer << /Size 6 /Root 1 0 R >>\nstartxref\n%d\n%%%%EOF\n" % len(made)
    return made + b"xref\n0 6\n0000000000 65535 f \n" + table + ends


def raw(room: Room, coding: str) -> tuple[bytes, int]:
    """The data of a page, as they stand in a strip, and how many rows it has."""
    image = pages.image(WIDTH, pages.draw_document(5, "marks", WIDTH)[0] * 30)
    room.put("source.tif", pages.coded(room.program, ["-o", coding], image))
    data = room.get("source.tif")
    (fields,) = files.directories_of(data)
    (strip,) = files.strips_of(data, fields)
    return strip, fields[257][0]


def out_of_each_coding(room: Room, commands: str) -> Iterator[Claim]:
    for coding, parameters in (("mh", b"/K 0 /EndOfLine true"), ("mr", b"/K 4 /EndOfLine true"), ("mmr", b"/K -1")):
        strip, rows = raw(room, coding)
        room.put("fax.pdf", pdf_with(strip, rows, parameters))
        yield f"{coding}: run", room.bash(commands, **room.module), (0, b"", "")
        yield f"{coding}: rows", room.rows("fax.tif"), room.rows("source.tif")
    shutil.copy(room("fax.pdf"), room("kept.pdf"))
    room.put("fax.pdf", pdf_with(strip, rows, parameters + b" /BlackIs1 true"))
    yield "black and white are exchanged: run", room.bash(commands, **room.module), (0, b"", "")
    shown = room.bash("pdfimages fax.pdf shown && cat shown-000.pbm")[1]
    yield "black and white are exchanged", room.bash("faxpages convert -o pbm fax.tif")[1] == shown, True
    damaged = bytearray(strip)
    damaged[len(strip) // 2] ^= 0x55
    room.put("fax.pdf", pdf_with(bytes(damaged), rows, parameters))
    before = room.get("fax.tif")
    status, _, said = room.bash(commands, **room.module)
    yield "damaged data", (status, said.startswith("faxpages-from-pdf: page 1 does not show the rows of its data"),
                           room.get("fax.tif") == before), (1, True, True)  # fmt: skip
    room.put("fax.pdf", pdf_with(strip, rows, parameters + b" /EndOfBlock false /Rows %d" % (rows - 1)))
    status, _, said = room.bash(commands, **room.module)
    yield "fewer rows than it shows", (status, said, room.get("fax.tif") == before), (
        1, f"faxpages-from-pdf: page 1 shows {rows} rows, and its data have {rows - 1}\n", True)  # fmt: skip


def not_out_of_pdf(room: Room, commands: str) -> Iterator[Claim]:
    """What is no PDF of a fax is refused, and the fax that is there stays."""
    before = room.get("fax.tif")
    pdf_of(room, "two.pdf", 2)
    room.bash("pbmmake 16 16 | pamdepth 255 | ppmtopgm | pnmtopng >grey.png; img2pdf --output grey.pdf grey.png")
    room.put("text.pdf", pdf_with(b"", 8, b"").replace(b"/I Do", b"     "))
    room.put("no.pdf", b"no PDF")
    for name in ("grey.pdf", "text.pdf", "no.pdf", "none.pdf"):
        if name != "none.pdf":
            shutil.copy(room(name), room("fax.pdf"))
        else:
            os.remove(room("fax.pdf"))
        status, _, said = room.bash(commands, **room.module)
        yield f"{name}", (status, said != "", room.get("fax.tif") == before), (1, True, True)


def raw_data(room: Room, commands: str) -> Iterator[Claim]:
    """Raw data with and without their end: neither a row too many nor too few."""
    forms = {"mh": "-3", "mr": "-3 -2", "mmr": "-4"}
    returns = {"mh": 6 * "000000000001", "mr": 6 * "0000000000011", "mmr": ""}  # RTC
    for coding, words in forms.items():
        strip, rows = raw(room, coding)
        for name, data in (("without its end", strip), ("with its end", ended(strip, returns[coding]))):
            room.put("page.g3", data)
            given = commands.replace("-8 -3 ", f"-8 {words} ").replace("1143", str(rows))
            yield f"{coding} {name}: run", room.bash(given)[0], 0
            yield f"{coding} {name}: rows", room.rows("fax.tif"), room.rows("source.tif")
            yield f"{coding} {name}: check", room.report("fax.tif"), b"pages 1 rows %d\n" % rows
        yield f"{coding}: too few rows", room.bash(given.replace(str(rows), str(rows + 900)))[0], 1


def ended(strip: bytes, bits: str) -> bytes:
    """Data with these bits at their end."""
    return strip + int(bits.ljust(-len(bits) % 8 + len(bits), "0") or "0", 2).to_bytes((len(bits) + 7) // 8, "big")


def ready(room: Room, commands: str) -> Iterator[Claim]:
    room.fax("fax.tif", "mh", "all", 3)
    yield "ready", room.bash(commands)[::2], (0, "")
    ways: list[tuple[str, list[str]]] = [("mr", []), ("mmr", []), ("mh", ["--strip", "1"])]
    for coding, more in ways:
        room.fax("source.tif", "mh", "noise", 3)
        data = room.run("convert", "-o", coding, *more, name="source.tif")[1]
        room.put("fax.tif", data)
        status, shown, _ = room.bash(commands)
        yield f"{coding} {more}", (status, b"not ready: page 0 " in shown), (1, True)
    room.sample("one-mh-page.tif", "fax.tif")
    yield "width", room.bash(commands)[0], 1
    room.cut("fax.tif")
    yield "a fault", room.bash(commands)[0], 1
    if is_there("tiffset", "a page of 98 and 100 lines to the inch"):
        for lines, wanted in (("98", 0), ("100", 1)):
            room.fax("fax.tif", "mh", "marks")
            room.bash(f"tiffset -s YResolution {lines} fax.tif")
            yield f"{lines} lines", room.bash(commands)[0], wanted


def others(room: Room, commands: str) -> Iterator[Claim]:
    """A BigTIFF file, one of tiles and one in another compression, as libtiff writes them: their faults, and the recipe."""
    room.others("plain.tif", 1)
    wanted = room.rows("plain.tif")
    kinds = {"BigTIFF": (["-8", "-c", "g4"], b"fault page 0 row 0: Magic\n"),
             "tiles": (["-t", "-w", "512", "-l", "512", "-c", "g4"], b"fault page 0 row 0: MissingField 273\n"),
             "another compression": (["-c", "lzw"], b"fault page 0 row 0: Unsupported 259\n"),
             "none": (["-c", "none"], b"fault page 0 row 0: Unsupported 259\n")}  # fmt: skip
    for kind, (words, fault) in kinds.items():
        for name in ("other.tif", "fax.tif"):
            if os.path.exists(room(name)):
                os.remove(room(name))
        made = room.call("tiffcp", *words, "plain.tif", "other.tif")
        yield f"{kind}: tiffcp", made[0], 0
        yield f"{kind}: its fault", room.run("rows", name="other.tif")[1:], (b"next 1:0:0\n", fault)
        yield f"{kind}: run", room.bash(commands)[0], 0
        yield f"{kind}: rows", room.rows("fax.tif"), wanted


TESTS: Tests = {
    "Send a PDF": (["pdftoppm", "img2pdf", "tiffset", "gs"], from_pdf),
    "A fax out of a PDF": (
        ["pdfimages", "pdftoppm", "tiffset", "tiffcp", "tiff2pdf", "img2pdf", "pnmtopng", "gs"],
        out_of_pdf,
    ),
    "Raw T.4 and T.6 data": (["fax2tiff", "tiffset"], raw_data),
    "Ready to be sent?": (["awk"], ready),
    "Tiles, BigTIFF and other compressions": (["tiffcp", "pnmtotiff"], others),
}
