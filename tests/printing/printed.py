"""Faxes that are printed: what the printers receive is what `convert` writes of the faxes, and of damaged ones
nothing, or with faxpages=salvage what can be read of them."""

from __future__ import annotations

import contextlib
import os
import re
import shutil
import subprocess

from tests.finding import found
from tests.printing.room import Room
from tests.printing.server import Told
from tests.printing import made, server
from tests.recipes.mended import SAID, fax_of

SAMPLES = f"{server.TOP}/samples"
# A page of this paper is larger than a fax, and the difference is even in pels: nothing is scaled, and no pel is cut.
PAPER = ["-o", "media=na_legal_8.5x14in", "-o", "print-scaling=none"]
# So many seconds CUPS is late.
LATE = 3
# A line about what is lost.
LINE = re.compile(r"faxpages: (page .*?) (?:is|are) missing: (\w+(?: \d+)?)")
PAPER_SIZE = (1734, {196: 2744, 98: 1372})


def sent(room: Room, jobs: list[tuple[str, list[str], str]]) -> tuple[dict[str, Told], dict[str, str]]:
    """Prints files, each with its title and options, on the printers in turn; and tells by title what came of each."""
    numbers = {}
    for number, (title, words, path) in enumerate(jobs):
        numbers[title] = room.server.print(f"printer{number % len(room.printers)}", "-t", title, *words, path)
    told = dict(zip(numbers, room.server.ended(*numbers.values())))
    return told, received(room)


def received(room: Room) -> dict[str, str]:
    """What the printers have kept, by the titles."""
    found = {}
    for printer in room.printers:
        for path in printer.received():
            found[os.path.basename(path).split("-", 1)[1].rsplit(".", 1)[0]] = path
    return found


def cut_out(paper: int, rows: list[bytes], width: int, count: int) -> list[bytes]:
    """So many rows of this width in the middle of a page of paper."""
    left, top, size = (paper - width) // 2, (len(rows) - count) // 2, (width + 7) // 8
    pels = [(int.from_bytes(row, "big") >> 8 * len(row) - left - width) & (1 << width) - 1 for row in rows]
    return [(row << 8 * size - width).to_bytes(size, "big") for row in pels[top : top + count]]


def rasterised(path: str, lines: int) -> list[tuple[int, list[bytes]]]:
    """The pages of a PDF, drawn by Ghostscript."""
    drawn = subprocess.run(
        ["gs", "-q", "-dNOPAUSE", "-dBATCH", "-dSAFER", "-sDEVICE=pbmraw", f"-r204x{lines}", "-o", "-", path],
        capture_output=True, check=True, timeout=server.PATIENCE)  # fmt: skip
    return made.pictures_of(drawn.stdout)


def whole(room: Room) -> list[str]:
    """Samples and faxes of other programs, of which all pels come to the printer, and the ink where it belongs."""
    faxes = made.others(room.folder + "/made")
    samples = [f"{SAMPLES}/{name}" for name in sorted(os.listdir(SAMPLES)) if name.endswith(".tif")]
    good = [it for it in samples if room.run(room.program, "check", it)[0] == 0] + faxes
    room.claim("faxes of other programs", len(faxes), 20)
    jobs: list[tuple[str, list[str], str]] = [(re.sub(r"\W", "_", os.path.basename(it)), PAPER, it) for it in good]
    told, got = sent(room, jobs)
    for title, _, path in jobs:
        wanted = room.pages(path)
        room.claim(f"{title}: printed", told[title].state, "completed")
        room.claim(f"{title}: pels", title in got and room.images(got[title]) == wanted)
        if path in faxes and title in got:
            lines = 98 if "-98-" in path else 196
            pages = rasterised(got[title], lines)
            room.claim(f"{title}: paper", {(w, len(r)) for w, r in pages}, {(PAPER_SIZE[0], PAPER_SIZE[1][lines])})
            drawn = [cut_out(*page, width, len(rows)) for page, (width, rows) in zip(pages, wanted)]
            room.claim(f"{title}: row by row", drawn == [rows for _, rows in wanted])
    return faxes


def as_they_are(room: Room) -> None:
    """MMR data that `check` has no note on are in the PDF as they are in the fax."""
    path = room.made("gs-tiffg4-196-3.tif")
    mmr = room.made("as-it-is.tif")
    with open(mmr, "wb") as file:
        file.write(room.run(room.program, "convert", "-o", "mmr", path)[1])
    status, pdf, said = room.run(
        f"{room.server.folder}/bin/filter/faxtopdf", "1", "user", "title", "1", "", mmr, env=environment(room))
    room.claim("the filter by hand", (status, said), (0, ""))
    with open(room.made("as-it-is.pdf"), "wb") as file:
        file.write(pdf)
    made.run(room.folder + "/made", "pdfimages", "-ccitt", "as-it-is.pdf", "as-it-is")
    with open(mmr, "rb") as file:
        data = file.read()
    strips = [open(room.made(f"as-it-is-{page:03}.ccitt"), "rb").read() for page in range(3)]
    room.claim("MMR data as they are", [strip in data and len(strip) > 1000 for strip in strips], [True] * 3)


def environment(room: Room) -> dict[str, str]:
    """What the filter has in its environment, when it is called by hand."""
    module = f"{room.server.folder}/module"
    return {"PATH": "/usr/bin:/bin", "FAXPAGES_MODULE": module, "FAXPAGES_LIBRARY": f"{module}/libfaxpages.so.1",
            "FAXPAGES_SECONDS": str(server.PATIENCE), "CUPS_SERVERBIN": f"{room.server.folder}/bin"}  # fmt: skip


def damaged(room: Room, faxes: list[str]) -> None:
    """Damaged faxes stop with the fault, and nothing is printed; with salvage what can be read is."""
    spoiled = [made.damaged(path, room.program, number) for number, path in enumerate(faxes)]
    spoiled += [(f"{SAMPLES}/{name}.tif", fault) for name, fault in
                (("damaged-fourth-page", "fault page 3 row 5: OutOfRow"),
                 ("three-pages", "fault page 2 row 1: DataEnds"),
                 ("received/over-a-noisy-line", "fault page 0 row 72: MissingEol"))]  # fmt: skip
    jobs: list[tuple[str, list[str], str]] = [(re.sub(r"\W", "_", os.path.basename(path)), [], path) for path, _ in spoiled]
    before = set(received(room))
    told, got = sent(room, jobs)
    log = room.server.get("log/error").decode(errors="replace")
    for (title, _, _), (_, fault) in zip(jobs, spoiled):
        room.claim(f"{title}: it stops", told[title].state, "processing-stopped")
        is_told = room.says(told[title], f"{fault}: the fax is damaged")
        room.claim(f"{title}: its message: {told[title].message}", is_told)
        room.claim(f"{title}: its line in the log", f"] {fault}: the fax is damaged" in log)
    room.claim("nothing damaged is printed", set(got) - before, set())
    salvaged(room, spoiled)


def read_late(room: Room) -> None:
    """CUPS says why a fax is not printed, also where it is so late that the filter could have ended before it reads
    its line; of one that has, it says 'Filter failed', and no more."""
    job = room.server.print("printer0", "-t", "read_late", f"{SAMPLES}/three-pages.tif")
    server.wait_for(lambda: filters_of(job), step=0.005)
    with room.server.stopped():
        with contextlib.suppress(TimeoutError):
            server.wait_for(lambda: not filters_of(job), LATE)
    (told,) = room.server.ended(job)
    room.claim("what is read late is said", told.message.partition(",")[0], "fault page 2 row 1: DataEnds: the fax is damaged")


def filters_of(job: int) -> list[int]:
    """The processes that run our filter for a job."""
    found = []
    for process in (it for it in os.listdir("/proc") if it.isdigit()):
        with contextlib.suppress(OSError), open(f"/proc/{process}/cmdline", "rb") as words:
            if b"/filter/faxtopdf\0%d\0" % job in words.read():
                found.append(int(process))
    return found


def salvaged(room: Room, spoiled: list[tuple[str, str]]) -> None:
    """With salvage a line says what each page lacks, and no row is another than the program finds."""
    jobs = [(f"salvaged_{number}", ["-o", "faxpages=salvage"], fax) for number, (fax, _) in enumerate(spoiled)]
    told, got = sent(room, jobs)
    for number, (title, _, fax) in enumerate(jobs):
        name = f"{title} {os.path.basename(fax)}"
        if title not in got:
            is_told = room.says(told[title], "no row of the fax can be read")
            room.claim(f"{name}: nothing can be read: {told[title].message}", is_told)
            continue
        room.claim(f"{name}: printed", told[title].state, "completed")
        said = room.run("pdftotext", "-layout", got[title], "-")[1].decode()
        lost = [f"{from_zero(where)}: {why}" for where, why in LINE.findall(said)]
        room.claim(f"{name}: lines", bool(lost) and fault_of(lost[0]), first_lost(room, fax, spoiled[number][1]))
        room.claim(f"{name}: rows", readable_rows(room, fax, got[title]))
        if number % 5 == 0:
            room.claim(f"{name}: as faxpages-salvage has it", lost, as_salvage_has_it(room, fax)[: len(lost)])
    without_the_program(room)


def from_zero(where: str) -> str:
    """A printed place, which is numbered from 1, as the program numbers it."""
    return re.sub(r"\d+", lambda number: str(int(number[0]) - 1), where)


def mended(room: Room) -> None:
    """A warning says what the receiver of a fax mended, or left bad; the fax is printed."""
    for number, (numbers, said) in enumerate(SAID):
        path = room.made(f"mended-{number}.tif")
        with open(path, "wb") as file:
            file.write(fax_of(room.program, numbers))
        status, pdf, lines = room.run(
            f"{room.server.folder}/bin/filter/faxtopdf", "1", "user", "title", "1", "", path, env=environment(room))
        room.claim(f"{numbers}: {said}", (status, pdf[:5], lines), (0, b"%PDF-", "".join(
            f"WARNING: {line}\n" for line in said.split("; ") if line)))


def without_the_program(room: Room) -> None:
    """The library salvages, and asks nothing of a `faxpages` on the PATH."""
    noisy = f"{SAMPLES}/received/over-a-noisy-line.tif"
    folder = room.made("broken")
    os.mkdir(folder)
    with open(f"{folder}/faxpages", "w") as file:
        file.write("#!/bin/sh\nexit 3\n")
    os.chmod(f"{folder}/faxpages", 0o755)
    words = [f"{room.server.folder}/bin/filter/faxtopdf", "1", "user", "title", "1", "faxpages=salvage", noisy]
    status, written, _ = room.run(*words, env={**environment(room), "PATH": folder})
    room.claim("no program is asked", (status, written[:5]), (0, b"%PDF-"))


def fault_of(line: str) -> tuple[int, int, str]:
    """The page, the first row and the name of a line about what is lost."""
    page, row, name = found(r"^page (\d+)(?: rows? (\d+))?.*?: (.*)", line).groups()
    return int(page), int(row or 0), name


def told_fault(fault: str) -> tuple[int, int, str]:
    """The same of the program's line."""
    page, row, name = found(r"^fault page (\d+) row (\d+): (.*)", fault).groups()
    return int(page), int(row), name


def as_salvage_has_it(room: Room, fax: str) -> list[str]:
    """The lines of faxpages-salvage."""
    path = f"{server.TOP}/recipes:{os.path.dirname(room.program)}:{os.environ['PATH']}"
    shutil.rmtree(room.made("lost"), ignore_errors=True)
    room.run("faxpages-salvage", fax, room.made("lost"), env={**os.environ, "PATH": path})
    with open(room.made("lost/lost.txt")) as file:
        return [line.strip() for line in file if " is not in pages.tif" not in line]


def readable_rows(room: Room, fax: str, path: str) -> bool | str:
    """Whether each row is the one that the program finds, and what it does not find has no ink."""
    told = what_is_left(room, fax)
    for page, (width, rows) in enumerate(room.images(path)):
        found = {int(line[2]): [int(it) for it in line[3:]] for line in told if line[:2] == ["row", str(page)]}
        if not found and not any(line[:2] == ["lost", str(page)] and len(line) == 5 for line in told):
            continue
        for number, row in enumerate(rows):
            if number in found and runs_of(width, row) != found[number]:
                return f"page {page}: row {number} is another"
            if number not in found and any(row):
                return f"page {page}: there is ink in row {number}"
    return True


def what_is_left(room: Room, fax: str) -> list[list[str]]:
    """The words of the lines that `salvage` prints."""
    return [line.split() for line in room.run(room.program, "salvage", fax)[1].decode().splitlines()]


def first_lost(room: Room, fax: str, fault: str) -> tuple[int, int, str]:
    """The page, the first row and the name of what is lost first; of a broken chain of pages the fault says it."""
    lost = [line for line in what_is_left(room, fax) if line[0] == "lost"]
    if not lost:
        return told_fault(fault)
    _, page, row, *rest = lost[0]
    return (int(page), int(row), rest[1]) if row.isdigit() else (int(page), 0, " ".join([row, *rest]))


def runs_of(width: int, row: bytes) -> list[int]:
    """The runs of a row, white first."""
    pels = bin(int.from_bytes(row, "big") | 1 << 8 * len(row))[3 : 3 + width]
    runs = [len(run) for run in re.findall(r"0+|1+", pels)]
    return runs if pels[0] == "0" else [0, *runs]


def grey(room: Room) -> None:
    """What is lost is grey on paper, and only that, and the page has its two lines below."""
    path, fault = made.damaged(room.made("gs-tiffg4-196-1.tif"), room.program, 5)
    row = int(found(r"row (\d+)", fault).group(1))
    told, got = sent(room, [("grey", ["-o", "faxpages=salvage", *PAPER], path)])
    drawn = subprocess.run(
        ["gs", "-q", "-dNOPAUSE", "-dBATCH", "-dSAFER", "-sDEVICE=pgmraw", "-r36", "-o", "-", got["grey"]],
        capture_output=True, check=True, timeout=server.PATIENCE).stdout  # fmt: skip
    width, height = map(int, found(rb"\n(\d+) (\d+)\n255\n", drawn).groups())
    column = [drawn[len(drawn) - width * height + width * line + 8] for line in range(height)]
    shades = [line for line, shade in enumerate(column) if 180 < shade < 200]
    # The page and its lines stand in the middle of the paper.
    top = (1008 - 2292 * 72 / 196 - 28) / 2 / 2
    room.claim("grey: from where", abs(shades[0] - (top + row * 36 / 196)) <= 1.5)
    room.claim("grey: to where", abs(shades[-1] - (top + 2292 * 36 / 196)) <= 1.5)
    room.claim("grey: all between", len(shades), shades[-1] - shades[0] + 1)


def asked_for(room: Room) -> None:
    """Pages, copies, paper, turned and fitted pages."""
    fax = room.made("gs-tiffg4-196-3.tif")
    pages = room.pages(fax)
    told, got = sent(room, [
        ("ranges", ["-o", "page-ranges=2-3"], fax), ("copies", ["-n", "2"], fax), ("a4", ["-o", "media=A4"], fax),
        ("standard", ["-o", "media=A4", "-o", "fit-to-page"], room.made("gs-tiffg3-98-1.tif")),
        ("landscape", ["-o", "media=A4", "-o", "landscape"], fax), ("two", ["-o", "number-up=2"], fax)])  # fmt: skip
    room.claim("options: printed", {it.state for it in told.values()}, {"completed"})
    room.claim("page-ranges", room.images(got["ranges"]) == pages[1:])
    room.claim("copies", room.images(got["copies"]) in (pages, 2 * pages))
    for title, sizes in (("a4", (595.276, 841.89)), ("landscape", (841.89, 595.276)), ("ranges", (612, 792))):
        shown = room.run("pdfinfo", got[title])[1].decode()
        size = tuple(float(it) for it in found(r"Page size: +([0-9.]+) x ([0-9.]+)", shown).groups())
        room.claim(f"{title}: paper", size in (sizes, sizes[::-1]))
    for title, ratio in (("a4", 204 / 196), ("standard", 204 / 98), ("two", 204 / 196)):
        across, down = listed(room, got[title])
        room.claim(f"{title}: proportions {across} by {down}", abs(across / down / ratio - 1) < 0.015)
    room.claim("two on a page", int(found(rb"Pages: +(\d+)", room.run("pdfinfo", got["two"])[1]).group(1)), 2)


def listed(room: Room, path: str) -> tuple[int, int]:
    """The pels to the inch of the first image."""
    line = room.run("pdfimages", "-list", path)[1].decode().splitlines()[2].split()
    return int(line[12]), int(line[13])


def what_it_is(room: Room) -> None:
    """A fax is one by what it is; another picture goes to imagetopdf; a fax whose format is named is checked too."""
    shutil.copy(room.made("gs-tiffg4-196-1.tif"), room.made("fax.txt"))
    spoiled, fault = made.damaged(room.made("gs-tiffg4-196-1.tif"), room.program, 3)
    shutil.copy(spoiled, room.made("spoiled.jpg"))
    with open(room.made("text.tif"), "w") as file:
        file.write("no fax, but text\n" * 30)
    with open(room.made("picture.tif"), "wb") as file:
        subprocess.run("pbmmake 60 40 | ppmchange white red | pnmtotiff", shell=True, check=True, stdout=file,
                       stderr=subprocess.DEVNULL)  # fmt: skip
    named = ["-o", "document-format=image/tiff"]
    told, got = sent(room, [
        ("text", [], room.made("fax.txt")), ("spoiled", [], room.made("spoiled.jpg")),
        ("other", [], room.made("text.tif")), ("picture", [], room.made("picture.tif")),
        ("named_picture", named, room.made("picture.tif")),
        ("named", [*named, "-o", "page-ranges=2-3"], room.made("gs-tiffg4-196-3.tif")),
        ("named_spoiled", named, spoiled), ("no_word", ["-o", "faxpages=some"], room.made("fax.txt"))])  # fmt: skip
    room.claim("fax.txt", room.images(got["text"]) == room.pages(room.made("fax.txt")))
    room.claim("spoiled.jpg", room.says(told["spoiled"], fault))
    room.claim("text.tif", room.says(told["other"], "fault page 0 row 0: ByteOrder"))
    for title in ("picture", "named_picture"):
        room.claim(f"{title}: printed", (told[title].state, title in got), ("completed", True))
        image = room.run("pdfimages", "-list", got[title])[1].decode().splitlines()[2].split()
        room.claim(f"{title}: its image", image[3:5], ["60", "40"])
    room.claim("named image/tiff", room.images(got["named"]) == room.pages(room.made("gs-tiffg4-196-3.tif"))[1:])
    room.claim("named image/tiff, damaged", room.says(told["named_spoiled"], fault))
    room.claim("another word", room.says(told["no_word"], "faxpages is salvage or whole"))


def as_raster(room: Room) -> None:
    """A printer that takes raster alone gets pages of a fax, and none of a damaged one, whether its format is named."""
    spoiled, fault = made.damaged(room.made("gs-tiffg4-98-1.tif"), room.program, 4)
    named, alone = ["-o", "document-format=image/tiff"], list[str]()
    jobs = [room.server.print("raster", "-t", title, *words, path) for title, words, path in (
        ("good", alone, room.made("gs-tiffg3-98-2.tif")), ("bad", alone, spoiled), ("named_bad", named, spoiled))]  # fmt: skip
    good, bad, named_bad = room.server.ended(*jobs)
    room.claim("raster: printed", good.state, "completed")
    room.claim("raster: damaged", [room.says(it, fault) for it in (bad, named_bad)], [True, True])
    # Four bytes begin PWG raster, and each page has more than 1796.
    sizes = [os.path.getsize(path) for path in room.for_raster.received()]
    room.claim(f"raster: pages {sizes}", (sizes[0] > 10000, [size > 4 for size in sizes[1:]]), (True, [False, False]))


def play(room: Room) -> None:
    faxes = whole(room)
    as_they_are(room)
    mended(room)
    damaged(room, faxes)
    read_late(room)
    grey(room)
    asked_for(room)
    what_it_is(room)
    as_raster(room)
