"""What strangers send: words that a shell or CUPS could take for their own, files that are made to take long, and
folders that are not as they should be. The filter and the backend run as the user lp, with few rights."""

from __future__ import annotations

import contextlib
import os
import re
import signal
import struct
import subprocess
import uuid
from typing import IO, Iterator

from faxpages_cups import _job
from tests.printing import made, server
from tests.printing.room import Room

TITLE = "x\nATTR: job-state=9\nERROR: owned; $(touch {0}) `touch {0}` '\"\\ | touch {0} & fax:0301250"
USER = "-u; touch {0}"


def by_hand(room: Room, backend: bool, options: str, path: str | None, more: dict[str, str] | None = None, title: str = "fax:1",
            number: int | None = None, read: int | IO[bytes] | None = None) -> tuple[int, bytes, str]:
    """Runs the filter or the backend as CUPS does, as the user lp: its status, its output and what it says."""
    user, environment = room.server.user, environment_of(room, more)
    name = "backend/faxpages" if backend else "filter/faxtopdf"
    words = [f"{room.server.folder}/bin/{name}", str(number or room.job_of_one()), "user", title, "1", options, *([path] if path else [])]
    ran = subprocess.run(words, env=environment, user=user.pw_uid, group=user.pw_gid, extra_groups=[],
                         stdin=read, umask=0o077, capture_output=True, timeout=server.PATIENCE, check=False)  # fmt: skip
    return ran.returncode, ran.stdout, ran.stderr.decode(errors="replace")


def environment_of(room: Room, more: dict[str, str] | None = None) -> dict[str, str]:
    """The variables of a filter or a backend."""
    module = f"{room.server.folder}/module"
    return {
        "PATH": f"{room.server.folder}/bin/filter:/usr/bin:/bin", "FAXPAGES_MODULE": module,
        "FAXPAGES_LIBRARY": f"{module}/libfaxpages.so.1", "TMPDIR": f"{room.server.folder}/temporary",
        "CUPS_SERVERBIN": f"{room.server.folder}/bin", "PRINTER": "Fax", "DEVICE_URI": f"faxpages:{room.spool}?title",
        "CUPS_SERVER": room.server.environment["CUPS_SERVER"], "FAXPAGES_SECONDS": str(server.PATIENCE),
        **(more or {})}  # fmt: skip


def new_identity(room: Room, number: int | None = None) -> tuple[str, str]:
    """The option by which CUPS names a job, and the name that a fax gets of it."""
    name = str(uuid.uuid4())
    return f"job-uuid=urn:uuid:{name} time-at-creation=1700000000", f"{number or room.job_of_one()}-1700000000-{name}"


def words(room: Room) -> None:
    """A title, a user and options with words of a shell and lines of CUPS, on both ways."""
    owned = f"{room.server.folder}/temporary/owned"
    option, name = new_identity(room)
    pdf = room.made("gs-1.pdf") if os.path.exists(room.made("gs-1.pdf")) else made.pdf(room.made(""), "gs-1.pdf", 1)
    fax = room.made("plain.tif")
    with open(fax, "wb") as file:
        file.write(room.run(room.program, "convert", "-o", "mh", f"{server.TOP}/samples/three-mmr-rows.tif")[1])
    # CUPS takes no title of several lines.
    title, user = TITLE.format(owned).replace("\n", " "), USER.format(owned)
    jobs = [room.server.print("Fax", "-t", title, "-U", user, pdf),
            room.server.print("printer0", "-t", title, "-U", user, fax)]  # fmt: skip
    told = room.server.ended(*jobs)
    room.claim(f"words: done: {told[0].message}", [it.state for it in told], ["completed"] * 2)
    hostile = f"{option} x='a\nERROR: y' FaxCoding=`touch\\ {owned}`"
    status, _, said = by_hand(room, True, hostile, pdf, title=TITLE.format(owned))
    room.claim("words: an option", (status, said.count("\n")), (3, 1))
    status, _, said = by_hand(room, True, option, pdf, title=TITLE.format(owned))
    room.claim("words: by hand", (status, said.count("\n"), said.startswith("INFO: ")), (0, 1, True))
    with open(f"{room.spool}/{name}.job", encoding="utf-8") as file:
        lines = file.read().splitlines()
    room.claim("words: lines of the job file", [line.split(":")[0] for line in lines], [
        "number", "user", "title", "pages", "coding", "resolution", "width", "fax", "queue", "job"])  # fmt: skip
    room.claim("words: number", lines[0], "number: 0301250")
    status, _, said = by_hand(room, False, "faxpages=`id`\nERROR:x", fax)
    room.claim("words: the filter", (status, said), (1, "ERROR: faxpages is salvage or whole\n"))
    room.claim("no word was run", os.path.exists(owned), False)
    room.claim("the fax is the user's", os.stat(f"{room.spool}/{name}.tif").st_uid, room.server.user.pw_uid)
    room.claim("who may read it", os.stat(f"{room.spool}/{name}.tif").st_mode & 0o777, 0o660)


def repeated(pages: int, width: int, rows: int, strip: bytes) -> bytes:
    """A fax of so many pages that all have the same strip."""
    data, at = [b"II*\0" + struct.pack("<I", 8)], 8
    size = 2 + 12 * 8 + 4
    place = 8 + pages * size
    for page in range(pages):
        entries = [(256, 4, width), (257, 4, rows), (259, 3, 4), (262, 3, 0), (273, 4, place), (278, 4, rows),
                   (279, 4, len(strip)), (292, 4, 0)]  # fmt: skip
        at += size
        data.append(struct.pack("<H", 8) + b"".join(struct.pack("<HHII", tag, kind, 1, it) for tag, kind, it in entries)
                    + struct.pack("<I", at if page + 1 < pages else 0))  # fmt: skip
    return b"".join(data) + strip


def blanks(room: Room) -> None:
    """Numbers with blanks, as CUPS hands them on. No job has one: cupsd 2.4.2-3+deb12u10 of Debian ends at each option
    with a blank."""
    pdf = room.made("gs-1.pdf")
    for number, wanted in (("+49 30 1264", "+49301264"), ("(030) 1265", "0301265")):
        option, name = new_identity(room)
        status, _, said = by_hand(room, True, f"{option} FaxNumber={escaped(number)}", pdf)
        room.claim(f"{number}: done: {said}", status, 0)
        with open(f"{room.spool}/{name}.job", encoding="utf-8") as file:
            room.claim(f"{number}: number", file.readline(), f"number: {wanted}\n")
    option, _ = new_identity(room)
    status, _, said = by_hand(room, True, f"{option} FaxNumber={escaped('+49 (0)30 123')}", pdf)
    room.claim(f"(0), with blanks: held: {said}", (status, "'+49 (0)30 123' is no number" in said), (3, True))


def escaped(value: str) -> str:
    """A value of an option, as CUPS writes it."""
    return value.replace(" ", "\\ ")


def bounds(room: Room) -> None:
    """Files that are made to take long: pages, pels, strips and time are bounded."""
    # Each row as the row before, which is white at first.
    white = b"\xff" * 13000 + b"\0\x10\x01"
    cases = {
        "many pages": (repeated(60000, 1728, 8, white), None, "it has more than 5000 pages"),
        "large pages": (repeated(1, 65535, 100000, white), None, "page 0 has more than 100000000 pels"),
        "many large pages": (repeated(4999, 1000, 99999, white), None, "its pages have more than 40000000000 pels"),
        "slow": (repeated(200, 1000, 99999, white), {"FAXPAGES_SECONDS": "1"}, "it takes longer than 1 seconds"),
    }  # fmt: skip
    for name, (data, more, wanted) in cases.items():
        for option in ("", "faxpages=salvage"):
            with open(room.made("long.tif"), "wb") as file:
                file.write(data)
            status, out, said = by_hand(room, False, option, room.made("long.tif"), more)
            room.claim(f"{name} {option}", (status, out, said), (1, b"", f"ERROR: {wanted}\n"))
    with open(room.made("large.tif"), "wb") as file:
        file.truncate((1 << 28) + 1)
    for backend in (False, True):
        status, _, said = by_hand(room, backend, new_identity(room)[0], room.made("large.tif"))
        room.claim("many bytes", (status, "it has more than 268435456 bytes" in said), (3 if backend else 1, True))
    room.claim("2 GiB of memory", [taken(2 << 30), taken(1 << 30)], ["it takes too much memory", ""])


def taken(memory: int) -> str:
    """Why what reads a fax may not take so many bytes of memory, or nothing."""
    def take() -> None:
        bytearray(memory)

    try:
        _job.within(server.PATIENCE, take)
        return ""
    except _job.Refused as refused:
        return str(refused)


def kinds(room: Room) -> None:
    """Sound files that are no faxes read here are not printed as such, and nobody calls them damaged."""
    source = f"{server.TOP}/samples/one-mh-page.tif"
    for name, words, kind in (("tiles", ["-t", "-w", "16", "-l", "16", "-c", "g4"], "a picture in tiles"),
                              ("big", ["-8"], "a BigTIFF file, or none in TIFF")):  # fmt: skip
        made.run(room.made(""), "tiffcp", "-s", *words, source, f"kind-{name}.tif")
        status, out, said = by_hand(room, False, "", room.made(f"kind-{name}.tif"))
        told = f": it is no fax that is read here, but {kind}, and not printed\n" in said
        room.claim(f"{name}: {said}", (status, out, told, "damaged" in said), (1, b"", True, False))


def pdf_of(pages: int, content: bytes, size: tuple[int, int] = (595, 842)) -> bytes:
    """A PDF whose pages have this content."""
    kids = " ".join(f"{5 + number} 0 R" for number in range(pages))
    objects = [b"<< /Type /Catalog /Pages 2 0 R >>", f"<< /Type /Pages /Count {pages} /Kids [{kids}] >>".encode(),
               b"<< /Length %d >>\nstream\n%s\nendstream" % (len(content), content), b"<< >>"]  # fmt: skip
    page = b"<< /Type /Page /Parent 2 0 R /MediaBox [0 0 %d %d] /Contents 3 0 R /Resources 4 0 R >>" % size
    objects += [page] * pages
    made_of, places = b"%PDF-1.4\n", []
    for number, text in enumerate(objects, 1):
        places.append(len(made_of))
        made_of += b"%d 0 obj\n%s\nendobj\n" % (number, text)
    table = b"".join(b"%010d 00000 n \n" % place for place in places)
    count, at = len(objects) + 1, len(made_of)
    made_of += b"xref\n0 %d\n0000000000 65535 f \n" % count + table
    return made_of + b"trailer << /Size %d /Root 1 0 R >>\nstartxref\n%d\n%%%%EOF\n" % (count, at)


def damaged_page(pages: int, which: int) -> bytes:
    """A PDF of which one page has operators that there are none of."""
    data = pdf_of(pages, b"0 0 100 100 re f\n")
    at = [found.start() for found in re.finditer(rb"/Contents 3 0 R", data)][which - 1]
    return data[:at] + b"/Contents 9 0 R" + data[at + 15:]


def documents(room: Room) -> None:
    """PDFs that are none, or too large, or slow: they are held, and nothing is left."""
    drawing = "faxpages-from-pdf: faxpages-from-pdf: "
    slow = b"0 0 595 842 re 0 0 m " + b"595 842 l 3 8 l 590 1 l 1 800 l " * 30000 + b"f*\n"
    cases: dict[str, tuple[bytes, dict[str, str], str | tuple[str, ...]]] = {
        "empty": (b"", {}, "nothing is printed"),
        "no PDF": (b"\x1b%-12345X@PJL", {}, "what is printed is no PDF"),
        "broken PDF": (b"%PDF-1.4\nno more\n%%EOF\n", {}, "pdfinfo: "),
        "cut short": (pdf_of(3, b"0 0 100 100 re f\n")[:-20], {}, "the PDF is cut short"),
        "many pages": (pdf_of(501, b""), {}, "the PDF has 501 pages, and a fax from 1 to 500"),
        "narrow": (pdf_of(1, b"", (3, 14400)), {}, "faxpages-from-pdf: faxpages-from-pdf: a page is too narrow"),
        "a page as high as a tower": (pdf_of(1, b"", (595, 1000000)), {}, f"{drawing}page 1 has more than 100000000 pels"),
        "high pages": (pdf_of(30, b"", (595, 20000)), {}, f"{drawing}its pages have more than 2000000000 pels"),
        "a page that cannot be drawn": (damaged_page(10, 7), {}, f"{drawing}page 7 of the PDF: Syntax Error"),
        # On a slow machine that is so of the first program already.
        "slow": (pdf_of(40, slow), {"FAXPAGES_SECONDS": "1"}, ("it takes longer than 1 seconds",
                                                               "faxpages-from-pdf takes longer than 1 seconds",
                                                               "pdfinfo takes longer than 1 seconds")),
    }  # fmt: skip
    for name, (data, more, wanted) in cases.items():
        with open(room.made("hostile.pdf"), "wb") as file:
            file.write(data)
        option, identity = new_identity(room)
        status, _, said = by_hand(room, True, option, room.made("hostile.pdf"), more)
        start, _, why = said.splitlines()[-1].partition(" held: ")
        is_told = start == "ERROR: the fax is" and why.startswith(wanted)
        room.claim(f"{name}: held: {why}", (status, is_told), (3, True))
        left = [it for folder in (room.spool, f"{room.spool}/.faxpages") for it in os.listdir(folder) if identity in it]
        room.claim(f"{name}: nothing is left", left, [])
    left = [it for it in os.listdir(f"{room.server.folder}/temporary") if "faxpages" in it]
    room.claim("no temporary file is left", left, [])


def processes_of(session: int) -> Iterator[str]:
    """The processes of a session."""
    for name in filter(str.isdecimal, os.listdir("/proc")):
        with contextlib.suppress(OSError), open(f"/proc/{name}/stat") as file:
            if os.getsid(int(name)) == session and file.read().rpartition(")")[2].split()[0] != "Z":
                yield name


def endless(room: Room) -> None:
    """What comes from a filter that never ends holds the queue for no longer than a job's seconds; nothing is left of
    what was killed, once another job has come."""
    user, temporary = room.server.user, f"{room.server.folder}/temporary"
    never = room.made("never")
    os.mkfifo(never)
    os.chmod(never, 0o644)
    held = os.open(never, os.O_RDWR)
    try:
        option, _ = new_identity(room)
        status, _, said = by_hand(room, True, option, never, {"FAXPAGES_SECONDS": "1"})
    finally:
        os.close(held)
    room.claim(f"a document that never ends: {said}", (status, "it takes longer than 1 seconds" in said), (3, True))
    # A filter that waits for a program, and one after it: they end with the backend.
    first = subprocess.Popen(["sh", "-c", "sleep 900; :"], stdout=subprocess.PIPE, start_new_session=True,
                             user=user.pw_uid, group=user.pw_gid, extra_groups=[])  # fmt: skip
    second = subprocess.Popen(["cat"], stdin=first.stdout, stdout=subprocess.PIPE, user=user.pw_uid, group=user.pw_gid,
                              extra_groups=[])  # fmt: skip
    option, _ = new_identity(room)
    status, _, said = by_hand(room, True, option, None, {"FAXPAGES_SECONDS": "1"}, read=second.stdout)
    ended = (second.wait(server.PATIENCE), first.wait(server.PATIENCE))
    room.claim(f"filters that never end: {said}", (status, *ended), (3, -signal.SIGKILL, -signal.SIGKILL))
    # What is killed ends when the system has the time for it.
    room.claim("and what they have started", server.wait_for(lambda: not list(processes_of(first.pid))), True)
    option, _ = new_identity(room)
    with open(room.made("hostile.pdf"), "wb") as file:
        file.write(pdf_of(40, b"0 0 595 842 re 0 0 m " + b"595 842 l 3 8 l 590 1 l 1 800 l " * 30000 + b"f*\n"))
    before = set(os.listdir(temporary))
    ran = subprocess.Popen(
        [f"{room.server.folder}/bin/backend/faxpages", str(room.job_of_one()), "user", "fax:1", "1", option,
         room.made("hostile.pdf")], env=environment_of(room), user=user.pw_uid, group=user.pw_gid, extra_groups=[],
        stderr=subprocess.DEVNULL, start_new_session=True)  # fmt: skip
    server.wait_for(lambda: any(it.startswith("faxpages-job-") for it in os.listdir(temporary)))
    os.killpg(ran.pid, signal.SIGKILL)
    ran.wait()
    left = set(os.listdir(temporary)) - before
    room.claim("killed: something is left", any(it.startswith("faxpages-job-") for it in left))
    status, _, said = by_hand(room, True, new_identity(room)[0], room.made("gs-1.pdf"))
    room.claim(f"the next job: {said.splitlines()[-1:]}", status, 0)
    room.claim("the next job takes it away", set(os.listdir(temporary)) & left, set())
    for name in os.listdir(f"{room.spool}/.faxpages"):
        if name.endswith(".part.pdf"):
            os.remove(f"{room.spool}/.faxpages/{name}")


def kept_by_others(room: Room) -> None:
    """A folder .faxpages of another user, or that others may look into, is not used."""
    pdf = room.made("gs-1.pdf")
    for owner, mode in ((0, 0o2777), (0, 0o2770), (None, 0o2775), (None, 0o2771), (None, 0o2770)):
        folder = room.new_spool(f"kept-{owner}-{mode:o}")
        kept = f"{folder}/.faxpages"
        os.mkdir(kept)
        os.chown(kept, room.server.user.pw_uid if owner is None else owner, room.server.user.pw_gid)
        os.chmod(kept, mode)
        status, _, said = by_hand(room, True, new_identity(room)[0], pdf, {"DEVICE_URI": f"faxpages:{folder}?title"})
        right = owner is None and mode == 0o2770
        room.claim(f"kept by {owner}, {mode:o}: {said}", (status, "open to others" in said), (0 if right else 3, not right))


def readers(room: Room) -> None:
    """Who may read faxes: as the folder says where it is closed to others; others only where the device says so."""
    pdf = room.made("gs-1.pdf")
    for mode, words, wanted in ((0o2770, "title", 0o660), (0o750, "title", 0o640), (0o755, "title", 0o600),
                                (0o2775, "title", 0o600), (0o755, "title&public", 0o644),
                                (0o2770, "public&title", 0o660)):  # fmt: skip
        folder = room.new_spool(f"read-{mode:o}-{words}")
        os.chmod(folder, mode)
        option, name = new_identity(room)
        status, _, said = by_hand(room, True, option, pdf, {"DEVICE_URI": f"faxpages:{folder}?{words}"})
        modes = {os.stat(f"{folder}/{name}.{kind}").st_mode & 0o777 for kind in ("tif", "job")} if status == 0 else said
        room.claim(f"a folder of mode {mode:o}, ?{words}: {said}", modes, {wanted})


def folders(room: Room) -> None:
    """Folders that are not there, are not the user's, or are anyone's; and files in the way, which stay."""
    pdf, base = room.made("gs-1.pdf"), room.server.folder
    roots = f"{base}/roots"
    os.mkdir(roots, 0o755)
    anyones = room.new_spool("anyones")
    os.chmod(anyones, 0o777)
    linked = room.new_spool("linked")
    elsewhere = room.new_spool("elsewhere")
    os.symlink(elsewhere, f"{linked}/.faxpages")
    for path, wanted in ((f"{base}/none", "No such file"), (roots, "Permission denied"),
                         (anyones, "anyone may write into"), (linked, "Not a directory"),
                         ("relative", "the device is")):  # fmt: skip
        more = {"DEVICE_URI": f"faxpages:{path}?title"}
        status, _, said = by_hand(room, True, new_identity(room)[0], pdf, more)
        room.claim(f"{path}: {said.strip()}", (status, wanted in said), (3, True))
    room.claim("nothing is elsewhere", (os.listdir(elsewhere), os.listdir(roots)), ([], []))
    victim = f"{base}/temporary/victim"
    with open(victim, "w") as file:
        file.write("a victim")
    os.chown(victim, room.server.user.pw_uid, room.server.user.pw_gid)
    for kind in ("tif", "job"):
        option, name = new_identity(room)
        os.symlink(victim, f"{room.spool}/{name}.{kind}")
        status, _, _ = by_hand(room, True, option, pdf)
        with open(victim) as file:
            room.claim(f"a link in the way of {kind}", (status, file.read()), (3, "a victim"))
        room.claim(f"a link in the way of {kind}: it stays", os.path.islink(f"{room.spool}/{name}.{kind}"))
        left = sorted(it for it in os.listdir(room.spool) + os.listdir(f"{room.spool}/.faxpages") if name in it)
        room.claim(f"{kind}: nothing else is there", left, [f"{name}.{kind}"])
        os.remove(f"{room.spool}/{name}.{kind}")


def play(room: Room) -> None:
    words(room)
    blanks(room)
    bounds(room)
    kinds(room)
    documents(room)
    endless(room)
    kept_by_others(room)
    readers(room)
    folders(room)
