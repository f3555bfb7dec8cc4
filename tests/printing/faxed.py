"""What is printed to the queue Fax: TIFF-F that `check` passes without a note, with the pels that faxpages-from-pdf
draws; and jobs that are held, with the reason."""

from __future__ import annotations

import os
import random
import re
import shutil
import subprocess

from tests.printing.room import Room
from tests.printing import made, server
from tests.printing.strangers import by_hand, new_identity
from tests.recipes import shown

FORMS = [("MH", "Fine", "1728"), ("MR", "Standard", "1728"), ("MMR", "Fine", "2048"), ("MMR", "Standard", "2432")]


def told_of(path: str) -> dict[str, str]:
    """The lines of a job file."""
    with open(path, encoding="utf-8") as file:
        return dict(line.rstrip("\n").split(": ", 1) for line in file)


def spooled(folder: str) -> dict[str, tuple[dict[str, str], str]]:
    """The faxes of a folder, by their titles: what the job file says, and the fax's path."""
    found = {}
    for name in os.listdir(folder):
        if name.endswith(".job"):
            told = told_of(f"{folder}/{name}")
            found[told["title"]] = (told, f"{folder}/{told['fax']}")
    return found


def documents(room: Room) -> dict[str, str]:
    """Ten PDFs of several programs, by their names: the path, and whether each page is A4 and upright."""
    folder = f"{room.folder}/made"
    made.pdf(folder, "gs-1.pdf", 1)
    made.pdf(folder, "gs-4.pdf", 4, 11)
    sizes = ((595, 842), (842, 595), (420, 595), (842, 1191))
    with open(room.made("mixed.ps"), "w") as file:
        file.write("%!PS\n/Helvetica findfont 40 scalefont setfont\n" + "".join(
            f"<< /PageSize [{w} {h}] >> setpagedevice 50 {h // 2} moveto ({w} by {h}) show "
            f"20 20 {w - 40} {h - 40} rectstroke showpage\n" for w, h in sizes))  # fmt: skip
    made.run(folder, "gs", "-q", "-dNOPAUSE", "-dBATCH", "-sDEVICE=pdfwrite", "-o", "mixed.pdf", "mixed.ps")
    made.run(folder, "gs", "-q", "-dNOPAUSE", "-dBATCH", "-sDEVICE=pdfwrite", "-dCompatibilityLevel=1.2", "-o",
             "old.pdf", "gs-4.pdf")  # fmt: skip
    made.run(folder, "pdftocairo", "-pdf", "gs-4.pdf", "cairo.pdf")
    made.run(folder, "pdftocairo", "-ps", "gs-1.pdf", "cairo.ps")
    made.run(folder, "gs", "-q", "-dNOPAUSE", "-dBATCH", "-sDEVICE=pdfwrite", "-o", "by-way-of-ps.pdf", "cairo.ps")
    made.run(folder, "gs", "-q", "-dNOPAUSE", "-dBATCH", "-sDEVICE=tiffg4", "-r204x196", "-o", "scan.tif", "gs-4.pdf")
    made.run(folder, "tiff2pdf", "-p", "A4", "-F", "-o", "tiff2pdf.pdf", "scan.tif")
    made.run(folder, "img2pdf", "--pagesize", "A4", "--output", "img2pdf.pdf", "scan.tif")
    made.run(folder, "gs", "-q", "-dNOPAUSE", "-dBATCH", "-sDEVICE=pdfwrite", "-sOwnerPassword=o", "-dEncryptionR=3",
             "-dKeyLength=128", "-dPermissions=-4", "-o", "protected.pdf", "gs-1.pdf")  # fmt: skip
    made.run(folder, "gs", "-q", "-dNOPAUSE", "-dBATCH", "-sDEVICE=pdfimage8", "-r150", "-o", "grey.pdf", "gs-1.pdf")
    names = ["gs-1", "gs-4", "mixed", "old", "cairo", "by-way-of-ps", "tiff2pdf", "img2pdf", "protected", "grey"]
    return {name: room.made(f"{name}.pdf") for name in names}


def from_pdf(room: Room, path: str, form: tuple[str, str, str]) -> list[tuple[int, list[bytes]]]:
    """The rows that faxpages-from-pdf draws."""
    coding, resolution, width = form
    fax = room.made("drawn-here.tif")
    how = ["--standard"] if resolution == "Standard" else []
    scripts = f"{server.TOP}/recipes:{os.path.dirname(room.program)}:{os.environ['PATH']}"
    words = ["--replace", *how, "--coding", coding.lower(), "--width", width, path, fax]
    script = f"{server.TOP}/recipes/faxpages-from-pdf"
    status, _, said = room.run(script, *words, env={**os.environ, "PATH": scripts})
    if status:
        raise OSError(said)
    return room.pages(fax)


def as_cups_hands_it(room: Room, path: str, options: str = "") -> str:
    """The PDF that pdftopdf of cups-filters makes for the queue."""
    ran = subprocess.run(
        [f"{server.SERVER_BIN}/filter/pdftopdf", "1", "user", "title", "1", options, path], capture_output=True, check=True,
        env={"PPD": f"{server.TOP}/cups/fax.ppd", "PATH": "/usr/bin:/bin", "CONTENT_TYPE": "application/pdf",
             "FINAL_CONTENT_TYPE": "application/pdf"}, timeout=server.PATIENCE)  # fmt: skip
    handed = room.made("handed.pdf")
    with open(handed, "wb") as file:
        file.write(ran.stdout)
    return handed


def ten(room: Room) -> None:
    """Ten PDFs, each with a form and a number."""
    found = documents(room)
    jobs = {}
    for number, (name, path) in enumerate(found.items()):
        form = FORMS[number % len(FORMS)] if name != "mixed" else FORMS[0]
        pairs = zip(("FaxCoding", "FaxResolution", "FaxWidth"), form)
        words = [word for pair in pairs for word in ("-o", "=".join(pair))]
        jobs[name] = (room.server.print("Fax", "-t", name, "-o", f"FaxNumber=+49-30-{number}", *words, path), form)
    for it, name in zip(room.server.ended(*[job for job, _ in jobs.values()]), jobs):
        room.claim(f"{name}: {it.message}", it.state, "completed")
    got = spooled(room.spool)
    room.claim("ten faxes", len(got), 10)
    for number, (name, (_, form)) in enumerate(jobs.items()):
        told, fax = got[name]
        pages = room.pages(fax)
        wanted = {"number": f"+4930{number}", "title": name, "pages": str(len(pages)), "coding": form[0].lower(),
                  "resolution": form[1].lower(), "width": form[2], "queue": "Fax"}  # fmt: skip
        room.claim(f"{name}: job file", {word: told[word] for word in wanted}, wanted)
        check = room.run(room.program, "check", fax)
        report = b"pages %d rows %d\n" % (len(pages), sum(len(it) for _, it in pages))
        room.claim(f"{name}: check", check, (0, report, ""))
        forms = {(line.split()[2], line.split()[4], line.split()[9]) for line in
                 room.run(room.program, "list", fax)[1].decode().splitlines()[:-1]}  # fmt: skip
        room.claim(f"{name}: form", forms, {(form[2], form[0].lower(), {"Fine": "196/1", "Standard": "98/1"}[form[1]])})
        room.claim(f"{name}: pels", pages == from_pdf(room, as_cups_hands_it(room, found[name]), form))
        if name not in ("mixed", "tiff2pdf", "img2pdf", "grey"):
            room.claim(f"{name}: pels of the PDF itself", pages == from_pdf(room, found[name], form))


def proportions(room: Room) -> None:
    """What is drawn keeps its proportions, on paper of any size."""
    _, fax = spooled(room.spool)["mixed"]
    for page, (width, rows) in enumerate(room.pages(fax)):
        room.claim(f"mixed page {page}: as high as A4", abs(len(rows) - 2292) <= 24, True)
        ink = [number for number, row in enumerate(rows) if any(row)]
        room.claim(f"mixed page {page}: there is ink", len(ink) > 100)


def turned(room: Room) -> None:
    """Jobs whose pages CUPS turns, or puts beside each other, and a document with turned pages: each page is as wide as
    the fax, and has what Ghostscript shows of it."""
    with open(room.made("turned.pdf"), "wb") as file:
        rng = random.Random("turned")
        file.write(shown.document(rng, [b"/MediaBox [0 0 595 842]" + words for words in (
            b"", b" /Rotate 90", b" /Rotate 180 /CropBox [50 50 400 700]", b" /Rotate 270", b"")]))
    cases = {"four": ("gs-4.pdf", "landscape"), "two a page": ("gs-4.pdf", "number-up=2"),
             "upside down": ("gs-1.pdf", "orientation-requested=6"),
             "on its side": ("gs-1.pdf", "orientation-requested=5"),
             "turned pages": ("turned.pdf", ""), "turned again": ("turned.pdf", "landscape")}  # fmt: skip
    jobs = {name: room.server.print("Fax", "-t", f"{name} fax:1", *(("-o", option) if option else ()), room.made(path))
            for name, (path, option) in cases.items()}  # fmt: skip
    for it, name in zip(room.server.ended(*jobs.values()), jobs):
        room.claim(f"turned, {name}: {it.message}", it.state, "completed")
    got = spooled(room.spool)
    for name, (path, option) in cases.items():
        handed = as_cups_hands_it(room, room.made(path), option)
        pages = room.pages(got[f"{name} fax:1"][1]) if f"{name} fax:1" in got else []
        count = room.run("pdfinfo", handed)[1].decode().partition("Pages:")[2].split()[0]
        room.claim(f"turned, {name}: pages", (len(pages), {width for width, _ in pages}), (int(count), {1728}))
        for number, (width, rows) in enumerate(pages, 1):
            picture = shown.of_bits(b"".join(rows), width, len(rows))
            wanted = shown.by_ghostscript(handed, number)
            differ = [abs(one - other) for one, other in zip(picture.cells, wanted.cells)]
            room.claim(f"turned, {name}, page {number}: differs by {max(differ):.2f}", max(differ) < shown.CELL)


def held(room: Room) -> None:
    """Jobs whose number is none, or more than one, and jobs that are no document: they are held, and say why."""
    pdf = room.made("gs-1.pdf")
    none = "no number: print with -o FaxNumber=NUMBER, or with fax:NUMBER in the title"
    cases = {
        "no number": (["-t", "Letter of 2026"], none),
        "a number that says not that it is one": (["-t", "030 123456"], none),
        "fax 030 123456": (["-t", "fax 030 123456"], none),
        "telefax:030": (["-t", "telefax:030123"], none),
        "words": (["-t", "fax:anna"], "'anna' is no number"),
        "two": (["-t", "fax:030123 fax:030124"], "more than one number: 030123 and 030124"),
        "two options": (["-o", "FaxNumber=1", "-o", "phone=2"], "more than one number: 1 and 2"),
        "blanks": (["-o", "FaxNumber=+49 30 123"], "'123' is no option: write the number without blanks"),
        "(0)": (["-o", "FaxNumber=+49(0)30/123"], "'+49(0)30/123' is no number"),
        "an option": (["-o", "FaxNumber=-d12"], "'-d12' is no number"),
        "a command": (["-o", "FaxNumber=0`id`"], "'0`id`' is no number"),
        "coding": (["-o", "FaxNumber=1", "-o", "FaxCoding=JBIG"], "FaxCoding is mh, mr or mmr"),
        "width": (["-o", "FaxNumber=1", "-o", "FaxWidth=9"], "FaxWidth is 1728, 2048 or 2432"),
    }
    before = sorted(os.listdir(room.spool))
    jobs = {name: room.server.print("Fax", *words, pdf) for name, (words, _) in cases.items()}
    for it, name in zip(room.server.ended(*jobs.values()), jobs):
        room.claim(f"{name}: held", (it.state, it.message), ("pending-held", f"the fax is held: {cases[name][1]}"))
    room.claim("held: nothing is spooled", sorted(os.listdir(room.spool)), before)
    for number in jobs.values():
        room.server.do("cancel", str(number))


def numbers(room: Room) -> None:
    """Numbers as titles and options name them."""
    pdf = room.made("gs-1.pdf")
    cases: dict[str, tuple[list[str], str]] = {
             "Letter fax:+49-30-1234": ([], "+49301234"), "FAX: 0301235 to Anna": ([], "0301235"),
             "by phone": (["-o", "phone=030/1236"], "0301236"),
             "custom": (["-o", "FaxNumber=Custom.0301237"], "0301237"),
             "twice fax:1238 fax:12-38": ([], "1238"), "option fax:9": (["-o", "FaxNumber=(030)1239"], "0301239"),
             "None fax:1240": (["-o", "FaxNumber=None"], "1240")}  # fmt: skip
    jobs = [room.server.print("Fax", "-t", title, *words, pdf) for title, (words, _) in cases.items()]
    states = {it.state for it in room.server.ended(*jobs)}
    room.claim("numbers: done", states, {"completed"})
    got = spooled(room.spool)
    for title, (_, number) in cases.items():
        room.claim(f"{title}", got[title][0]["number"] if title in got else None, number)


def without_titles(room: Room) -> None:
    """A queue whose device does not ask for it takes no number of a title; and a policy hides numbers."""
    folder = room.new_spool("untitled")
    room.fax_queue("Untitled", folder)
    pdf = room.made("gs-1.pdf")
    job = room.server.print("Untitled", "-t", "Re: fax:0900999", pdf)
    (told,) = room.server.ended(job)
    said = "the fax is held: no number: print with -o FaxNumber=NUMBER"
    room.claim("a title names no number", (told.state, told.message), ("pending-held", said))
    room.server.do("lp", "-i", f"Untitled-{job}", "-o", "FaxNumber=0301262", "-H", "resume")
    server.wait_for(lambda: room.server.jobs()[job].state == "completed")
    room.claim("an option does", [told["number"] for told, _ in spooled(folder).values()], ["0301262"])
    ask = ("import cups, sys; cups.setUser('stranger'); "
           "print('FaxNumber' in cups.Connection().getJobAttributes(int(sys.argv[1])))")  # fmt: skip
    for policy, wanted in (("default", "True"), ("numbers", "False")):
        room.server.do("lpadmin", "-p", "Untitled", "-o", f"printer-op-policy={policy}")
        job = room.server.print("Untitled", "-o", "FaxNumber=0301263", pdf)
        room.server.ended(job)
        shown = room.server.do("/usr/bin/python3", "-Ic", ask, str(job)).strip()
        room.claim(f"policy {policy}: strangers see the number", shown, wanted)


def released(room: Room) -> None:
    """A job that was held is faxed, once, when it gets its number."""
    job = room.server.print("Fax", "-t", "released", room.made("gs-1.pdf"))
    room.server.ended(job)
    room.server.do("lp", "-i", f"Fax-{job}", "-o", "FaxNumber=0301241", "-H", "resume")
    server.wait_for(lambda: room.server.jobs()[job].state == "completed")
    room.claim("released", spooled(room.spool)["released"][0]["number"], "0301241")


def queue_says(room: Room) -> None:
    """What the queue's own settings say, where a job says nothing; page ranges, and copies, of which there are none."""
    room.server.do("lpadmin", "-p", "Fax", "-o", "FaxCoding=MMR", "-o", "FaxResolution=Standard")
    pdf = room.made("gs-4.pdf")
    jobs = [room.server.print("Fax", "-t", "settings fax:1", pdf),
            room.server.print("Fax", "-t", "ranges fax:1", "-n", "3", "-o", "page-ranges=2-3", pdf)]  # fmt: skip
    room.claim("settings: done", {it.state for it in room.server.ended(*jobs)}, {"completed"})
    got = spooled(room.spool)
    told = got["settings fax:1"][0]
    room.claim("settings", (told["coding"], told["resolution"], told["pages"]), ("mmr", "standard", "4"))
    wanted = from_pdf(room, pdf, ("MMR", "Standard", "1728"))[1:3]
    room.claim("ranges, and one copy", room.pages(got["ranges fax:1"][1]) == wanted)
    room.server.do("lpadmin", "-p", "Fax", "-o", "FaxCoding=MH", "-o", "FaxResolution=Fine")


def raster(room: Room) -> None:
    """PWG raster, as driverless clients send it, and text."""
    drawn = subprocess.run(
        [f"{server.SERVER_BIN}/filter/gstoraster", "1", "user", "title", "1", "media=A4", room.made("gs-1.pdf")],
        capture_output=True, check=True, timeout=server.PATIENCE,
        env={"PPD": f"{room.server.folder}/etc/ppd/printer0.ppd", "PATH": "/usr/bin:/bin",
             "CONTENT_TYPE": "application/pdf", "FINAL_CONTENT_TYPE": "image/pwg-raster"})  # fmt: skip
    room.claim("it is PWG raster", drawn.stdout[:13], b"RaS2PwgRaster")
    with open(room.made("page.pwg"), "wb") as file:
        file.write(drawn.stdout)
    with open(room.made("page.txt"), "w") as file:
        file.write("A line of text\n" * 20)
    named = ["-o", "document-format=image/pwg-raster"]
    jobs = [room.server.print("Fax", "-t", "raster fax:1", *named, room.made("page.pwg")),
            room.server.print("Fax", "-t", "text fax:1", room.made("page.txt"))]  # fmt: skip
    for it, name in zip(room.server.ended(*jobs), ("raster", "text")):
        room.claim(f"{name}: {it.message}", it.state, "completed")
        pages = room.pages(spooled(room.spool)[f"{name} fax:1"][1])
        room.claim(f"{name}: a page with ink", len(pages) == 1 and sum(map(any, pages[0][1])) > 100)


def a_fax_again(room: Room) -> None:
    """A fax that is printed to Fax is faxed on; a damaged one is not."""
    spoiled, fault = made.damaged(room.made("gs-tiffg4-196-1.tif"), room.program, 9) if os.path.exists(
        room.made("gs-tiffg4-196-1.tif")) else made.damaged(room.made("scan.tif"), room.program, 9)  # fmt: skip
    jobs = [room.server.print("Fax", "-t", "again fax:1", room.made("scan.tif")),
            room.server.print("Fax", "-t", "spoiled fax:1", spoiled)]  # fmt: skip
    good, bad = room.server.ended(*jobs)
    room.claim("a fax is faxed on", good.state, "completed")
    room.claim("with its pages", spooled(room.spool)["again fax:1"][0].get("pages"), "4")
    room.claim("a damaged one is not", bad.state in ("processing-stopped", "pending-held"))
    room.claim("a damaged one: its message", room.says(bad, fault))
    room.claim("nothing of it is spooled", "spoiled fax:1" in spooled(room.spool), False)


def several(room: Room) -> None:
    """The documents of one job are one fax, in order: PDFs, text, a fax in TIFF-F, and a banner at the end."""
    one, four, scan, text = (room.made(it) for it in ("gs-1.pdf", "gs-4.pdf", "scan.tif", "page.txt"))
    cases = {
        "two PDFs": [one, four], "the same twice": [four, four], "PDF and text": [four, text],
        "TIFF and PDF": [scan, one], "five": [one, one, scan, four, one], "a banner": ["-o", "job-sheets=none,standard", four],
    }  # fmt: skip
    for form in (FORMS[0], FORMS[3]):
        how = [word for pair in zip(("FaxCoding", "FaxResolution", "FaxWidth"), form) for word in ("-o", "=".join(pair))]
        jobs = [room.server.print("Fax", "-t", f"{form[0]} {name} fax:1", *how, *words) for name, words in cases.items()]
        room.claim(f"several, {form[0]}: done", {it.state for it in room.server.ended(*jobs)}, {"completed"})
        got = spooled(room.spool)
        for name, words in cases.items():
            wanted: list[object] = []
            for path in words:
                if path.endswith(".pdf"):
                    wanted += from_pdf(room, path, form)
                elif path.endswith(".txt"):
                    wanted.append(None)
            told, fax = got.get(f"{form[0]} {name} fax:1", ({"pages": "0"}, ""))
            pages = room.pages(fax) if fax else []
            count = len(wanted) + 4 * words.count(scan) + (name == "a banner")
            room.claim(f"several, {form[0]}, {name}: pages", (told["pages"], len(pages)), (str(count), count))
            if scan not in words and name != "PDF and text" and fax:
                room.claim(f"several, {form[0]}, {name}: pels, in order", pages[:len(wanted)] == wanted)
            report = room.run(room.program, "check", fax) if fax else (1, b"", "")
            room.claim(f"several, {form[0]}, {name}: check", report[0] == 0 and b"note" not in report[1])


def one_is_lost(room: Room) -> None:
    """A job of two documents of which one comes, as where its filter was killed or CUPS hands over a file, is held."""
    one, four = room.made("gs-1.pdf"), room.made("gs-4.pdf")
    told = room.server.ended(room.server.print(
        "Fax", "-t", "as it stands fax:1", "-o", "document-format=application/vnd.cups-pdf", one, four))  # fmt: skip
    said = "the fax is held: the job has 2 documents, and 1 came whole: print each by itself"
    # CUPS itself ends a job of several files whose backend ends before the last of them is due.
    room.claim("two files without a filter", (told[0].state, told[0].message), ("aborted", said))
    two = room.server.print("Fax", "-H", "hold", "-t", "fax:1", one, four)
    with open(one, "rb") as first, open(four, "rb") as second:
        pair = [first.read(), second.read()]
    cases = {"one": pair[0], "a cut one and one": pair[0][:-30] + pair[1], "one and a cut one": pair[1] + pair[0][:-30]}
    for name, data in cases.items():
        with open(room.made("pair.pdf"), "wb") as file:
            file.write(data)
        option, identity = new_identity(room)
        status, _, said = by_hand(room, True, option, room.made("pair.pdf"), number=two)
        room.claim(f"{name} of two: held: {said}", (status, os.listdir(room.spool).count(f"{identity}.tif")), (3, 0))
    option, identity = new_identity(room, two)
    with open(room.made("pair.pdf"), "wb") as file:
        file.write(b"\n".join(pair))
    status, _, said = by_hand(room, True, option, room.made("pair.pdf"), number=two)
    room.claim(f"both of two: {said}", (status, len(room.pages(f"{room.spool}/{identity}.tif"))), (0, 5))
    option, _ = new_identity(room)
    status, _, said = by_hand(room, True, option, one, {"CUPS_SERVER": "127.0.0.1:1"})
    room.claim(f"CUPS does not answer: held: {said}", (status, "it is not known how many documents" in said), (3, True))
    room.server.do("cancel", str(two))


def with_the_same_uuid(room: Room) -> None:
    """A job that has chosen the uuid of another one is a job of its own, and neither is dropped."""
    pdf = room.made("gs-1.pdf")
    victim = room.server.print("Fax", "-H", "hold", "-t", "victim fax:0301260", pdf)
    uuid = room.server.jobs()[victim].uuid
    other = room.server.print("Fax", "-t", "other fax:0301261", "-o", f"job-uuid=urn:uuid:{uuid}", pdf)
    room.server.ended(other)
    room.claim("a uuid can be chosen", room.server.jobs()[other].uuid, uuid)
    room.server.do("lp", "-i", f"Fax-{victim}", "-H", "resume")
    server.wait_for(lambda: room.server.jobs()[victim].state == "completed")
    got = spooled(room.spool)
    room.claim("one uuid, two faxes", [f"{who} fax:030126{number}" in got for number, who in enumerate(
        ("victim", "other"))], [True, True])  # fmt: skip
    for kind in ("done", "begun"):
        option, name = new_identity(room)
        older = f"{room.spool}/.faxpages/{name[-36:]}.{kind}"
        with open(older, "w"):
            pass
        status, _, said = by_hand(room, True, option, pdf)
        is_told = f"delete {older} and release" in said
        room.claim(f"{kind} by an earlier version: held: {said}", (status, is_told), (3, True))
        os.remove(older)
        room.claim(f"{kind} by an earlier version: released", by_hand(room, True, option, pdf)[0], 0)


def by_libreoffice(room: Room) -> None:
    """A letter that LibreOffice prints: by hand, with FAXPAGES_OFFICE set, since its package is large."""
    if not os.environ.get("FAXPAGES_OFFICE"):
        return
    office = shutil.which("soffice")
    linked = room.run("ldd", f"{os.path.dirname(os.path.realpath(office))}/libmergedlo.so")[1] if office else b""
    if b"libcups" not in linked:
        print("SKIPPED: libreoffice-writer is not installed, so: no letter is printed from LibreOffice")
        return
    with open(room.made("letter.txt"), "w") as file:
        file.write("Dear Anna,\n\nthis is a letter.\n" * 5)
    home = room.made("office")
    os.makedirs(home, exist_ok=True)
    before = room.server.jobs()
    ran = subprocess.run(
        [office or "", "--headless", f"-env:UserInstallation=file://{home}", "--pt", "Fax", room.made("letter.txt")],
        env=room.server.environment, capture_output=True, timeout=server.PATIENCE, check=False)  # fmt: skip
    new = sorted(set(room.server.jobs()) - set(before))
    room.claim(f"LibreOffice prints: {ran.stderr[-200:]!r}", (ran.returncode, len(new)), (0, 1))
    if new:
        (told,) = room.server.ended(*new)
        is_held = told.state == "pending-held" and "no number" in told.message
        room.claim("LibreOffice: held, as it names no number", is_held)
        room.server.do("lp", "-i", f"Fax-{new[0]}", "-o", "FaxNumber=77", "-H", "resume")
        server.wait_for(lambda: room.server.jobs()[new[0]].state == "completed")
        (fax,) = [fax for told, fax in spooled(room.spool).values() if told["number"] == "77"]
        room.claim("LibreOffice: a page with ink", sum(map(any, room.pages(fax)[0][1])) > 100)


def by_hylafax(room: Room) -> None:
    """A queue that hands faxes to sendfax, here a stand-in that keeps its words and the fax."""
    folder = room.new_spool("to-hylafax")
    taken = room.new_spool("taken")
    stand_in = room.made("sendfax")
    with open(stand_in, "w") as file:
        file.write(f'#!/bin/sh\nprintf "%s\\n" "$@" >{taken}/words.$$\nfor fax in "$@"; do :; done\n'
                   f'cp "$fax" {taken}/fax.$$\n'
                   f'[ ! -e {taken}/dies ] || kill -9 $$\n[ ! -e {taken}/alone ] || kill -9 $PPID\n'
                   f'[ ! -e {taken}/refuse ] || {{ echo "no such modem" >&2; exit 1; }}\n'
                   'echo "request id is 5 (group id 5) for host localhost (1 file)"\n')  # fmt: skip
    room.server.put("filter/sendfax", stand_in)
    room.fax_queue("HylaFAX", folder, "?sendfax&title")
    job = room.server.print("HylaFAX", "-t", "a; b fax:0301242", "-U", "-x; id", room.made("gs-1.pdf"))
    (told,) = room.server.ended(job)
    room.claim(f"sendfax: {told.message}", told.state, "completed")
    (words,) = [it for it in os.listdir(taken) if it.startswith("words")]
    with open(f"{taken}/{words}") as file:
        got = file.read().splitlines()
    room.claim("sendfax: words", got[:-1], ["-n", "-f", "x__id", "-d", "0301242"])
    room.claim("sendfax: the fax", room.pages(f"{taken}/{words.replace('words', 'fax')}") ==
               from_pdf(room, room.made("gs-1.pdf"), FORMS[0]))  # fmt: skip
    with open(f"{taken}/refuse", "w"):
        pass
    job = room.server.print("HylaFAX", "-t", "fax:0301243", room.made("gs-1.pdf"))
    (told,) = room.server.ended(job)
    said = "the fax is held: sendfax: no such modem"
    room.claim("sendfax refuses", (told.state, told.message), ("pending-held", said))
    os.remove(f"{taken}/refuse")
    room.server.do("lp", "-i", f"HylaFAX-{job}", "-H", "resume")
    server.wait_for(lambda: room.server.jobs()[job].state == "completed")
    room.claim("sendfax: none in the folder", [it for it in os.listdir(folder) if not it.startswith(".")], [])
    left = [it for it in os.listdir(f"{folder}/.faxpages") if not re.fullmatch(r"[0-9]+-[0-9]+-[0-9a-f-]{36}\.done", it)]
    not_known(room, folder, taken)
    room.claim("sendfax: nothing is left", (left, len(os.listdir(f"{folder}/.faxpages"))), ([], 2))


def not_known(room: Room, folder: str, taken: str) -> None:
    """A sendfax that is killed, or whose watcher is, may have queued the fax: the job is held, and its release hands
    nothing on."""
    for number, way in enumerate(("dies", "alone")):
        before = len(os.listdir(taken))
        with open(f"{taken}/{way}", "w"):
            pass
        job = room.server.print("HylaFAX", "-t", f"fax:030125{number}", room.made("gs-1.pdf"))
        (told,) = room.server.ended(job)
        os.remove(f"{taken}/{way}")
        wanted = "the fax is held: sendfax takes longer than "
        room.claim(f"{way}: {told}", (told.state, told.message.startswith(wanted)), ("pending-held", True))
        room.server.do("lp", "-i", f"HylaFAX-{job}", "-H", "resume")
        server.wait_for(lambda: "may be on its way" in room.server.jobs()[job].message)  # noqa: B023
        (told,) = room.server.ended(job)
        room.claim(f"{way}: sent once", (told.state, len(os.listdir(taken)) - before), ("pending-held", 2))
        room.server.do("cancel", str(job))
        for name in os.listdir(f"{folder}/.faxpages"):
            if name.endswith(".begun"):
                os.remove(f"{folder}/.faxpages/{name}")


def play(room: Room) -> None:
    ten(room)
    proportions(room)
    turned(room)
    held(room)
    numbers(room)
    without_titles(room)
    released(room)
    queue_says(room)
    raster(room)
    a_fax_again(room)
    several(room)
    one_is_lost(room)
    with_the_same_uuid(room)
    by_libreoffice(room)
    by_hylafax(room)
