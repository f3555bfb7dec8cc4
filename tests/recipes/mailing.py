"""Recipes that mail faxes that come in: HylaFAX, Asterisk and a mail gateway."""

from __future__ import annotations

import email
import email.policy
import os
import re
import shutil
import struct
from typing import Iterator

from tests import Claim
from tests.finding import found
from tests.recipes.bounds import WHITE, directory
from tests.recipes.receiving import other_kinds
from tests.recipes.recipes import SCRIPTS
from tests.recipes.room import HOSTILE, Room, Tests

MAILER = """#!/bin/sh
cat >"$HOME/mailed"
echo "$*" >"$HOME/mailed-by"
"""
HYLAFAX = "/var/spool/hylafax"
NOISY = "received/over-a-noisy-line.tif"
# What Debian's faxsetup finds out, as far as faxrcvd asks for it.
SETUP = """AWK=awk
GREP=grep
SED=sed
SBIN={sbin}
SENDMAIL={room}/bin/sendmail
ENCODING=base64
TIFF2PDF=tiff2pdf
TTYCMD=false
"""


def hylafax(room: Room, commands: str) -> Iterator[Claim]:
    """Debian's faxrcvd, in a spooling area of its own, calls the FaxDispatch that the recipe makes."""
    spool = room("spool")
    shutil.copytree(f"{HYLAFAX}/bin", f"{spool}/bin", symlinks=False, ignore_dangling_symlinks=True)
    shutil.copytree("/etc/hylafax/templates", f"{spool}/etc/templates")
    room.tool("sendmail", MAILER.replace("mailed", 'mailed-$(ls "$HOME" | wc -l)', 1))
    room.put("spool/etc/setup.cache", SETUP.format(room=room.path, sbin=f"{room.path}/bin").encode())
    room.tool("faxinfo", f"#!/bin/sh\nexec {tool_of('faxinfo')} \"$@\"\n")
    room.put("spool/etc/FaxDispatch", b"SENDTO=office\nFILETYPE=pdf\n")
    room.others("spool/recvq/good.tif")
    before = [received_by_hylafax(room, "good", error) for error in ("", "No EOP")]
    commands = commands.replace(f"{HYLAFAX}/etc", room("spool/etc"))
    yield "run", room.bash(commands), (0, b"", "")
    yield "again", room.bash(commands), (0, b"", "")
    yield from mailed_as_before(room, before)
    for kind, sample in (("good", ""), ("faulty", "damaged-fourth-page.tif"), ("noisy", NOISY)):
        name = f"spool/recvq/{kind}.tif"
        if sample:
            room.sample(sample, name)
        data = room.get(name)
        status, mails = received_by_hylafax(room, kind)
        texts = [text_of(mail).replace("\r", "") for mail in mails]
        report = room.report(name).decode()
        yield f"{kind}: status and mails", (status, sorted(mail["To"] for mail in mails)), (0, ["FaxMaster", "office"])
        yield f"{kind}: the report is in each", [f"faxpages check:\n{report.rstrip()}" in it for it in texts], [
            True,
            True,
        ]
        yield f"{kind}: told as an error", told_as_errors(mails), int(sample != "")
        attached = [part.get_content_type() for mail in mails for part in mail.walk() if part.get_filename()]
        yield f"{kind}: the PDF is attached", attached, ["application/pdf"]
        yield f"{kind}: the fax stays", room.get(name), data
    yield from salvaged_by_hylafax(room)
    yield from not_salvaged_by_hylafax(room)
    yield from much_said_by_hylafax(room)
    yield from not_checked_by_hylafax(room)
    yield "nothing is left", room.left(), []


def mailed_as_before(room: Room, before: list[tuple[int, list[email.message.EmailMessage]]]) -> Iterator[Claim]:
    """Of a whole fax the mails are those without the recipe, and the report; also where HylaFAX reports an error."""
    report = room.report("spool/recvq/good.tif").decode()
    for error, (_, wanted) in zip(("", "No EOP"), before):
        _, got = received_by_hylafax(room, "good", error)
        yield f"whole, '{error}': mails", (len(got), len(wanted)), (2, 2)
        for mail, other in zip(got, wanted):
            to = f"whole, '{error}', {mail['To']}"
            yield f"{to}: head", (mail["To"], mail["Subject"]), (other["To"], other["Subject"])
            lines = [[line for line in text.splitlines() if line] for text in (text_of(mail), text_of(other), report)]
            yield f"{to}: text", lines[0], [*lines[1], "faxpages check:", *lines[2]]
            yield f"{to}: its head", text_of(mail)[:20], text_of(other)[:20]
            yield f"{to}: files", list(parts_of(mail)), list(parts_of(other))


def salvaged_by_hylafax(room: Room) -> Iterator[Claim]:
    """What the office is mailed of a damaged fax: first what is missing, and the salvaged files, in each form."""
    dispatch = room.get("spool/etc/FaxDispatch")
    room.put("spool/etc/FaxDispatch", dispatch.replace(b"FILETYPE=pdf", b'FILETYPE="pdf tif ps raw"'))
    os.chmod(room("spool/recvq/noisy.tif"), 0o600)
    _, mails = received_by_hylafax(room, "noisy")
    summed = "Fax of 1 page: readable, 8 of 340 rows are missing."
    for mail in mails:
        lines = text_of(mail).splitlines()
        yield f"{mail['To']}: subject", mail["Subject"].startswith(f"{summed} Fax received "), True
        yield f"{mail['To']}: text", (lines[:2], "page 1 rows 72 to 73: MissingEol" in lines), ([summed, ""], True)
    (office,) = [mail for mail in mails if mail["To"] == "office"]
    yield "office: which file is which", text_of(office).splitlines()[2:4], [
        "The attached file noisy-salvaged has each row that can be read.",
        "Missing rows are grey or white there. The fax as it came is recvq/noisy.tif."]  # fmt: skip
    said = ["attached" in text_of(mail) for mail in mails if mail["To"] == "FaxMaster"]
    yield "FaxMaster: nothing is said of files, since there are none", said, [False]
    parts = parts_of(office)
    names = [f"noisy-salvaged.{form}" for form in ("pdf", "tif", "ps")]
    yield "office: files", list(parts), [*names, "noisy.tif"]
    salvaged = room.run("salvage", "-o", "mmr", name="spool/recvq/noisy.tif")[1]
    yield "office: TIFF, and the fax", (parts.get("noisy-salvaged.tif"), parts.get("noisy.tif")), (
        salvaged, room.get("spool/recvq/noisy.tif"))  # fmt: skip
    yield "office: PostScript", parts.get("noisy-salvaged.ps", b"")[:4], b"%!PS"
    room.put("mailed.pdf", parts.get("noisy-salvaged.pdf", b""))
    listed = room.call("pdfimages", "-list", "mailed.pdf")[1].decode().splitlines()[2:]
    os.remove(room("mailed.pdf"))
    yield "office: lost rows of the PDF are grey", [line.split()[3:6] for line in listed], [["1728", "680", "gray"]]
    room.put("spool/etc/FaxDispatch", dispatch)


def not_salvaged_by_hylafax(room: Room) -> Iterator[Claim]:
    """A mail goes out with what there is, and says so: without the programs for a PDF, without the script, and of a fax
    that has no page; what is no fax that is supported is not called damaged."""
    room.sample(NOISY, "spool/recvq/bad.tif")
    room.tool("faxpages-salvage", "#!/bin/sh\necho 'no room' >&2\nexit 3\n")
    yield from mailed_first(room, "Fax, damaged: salvaged, missing rows are white.", "bad-salvaged.pdf", "no room")
    room.tool("faxpages-hylafax", "#!/bin/sh\necho 'no script' >&2\nexit 127\n")
    lost = "Fax, damaged: what is left of it cannot be shown."
    yield from mailed_first(room, lost, "bad.pdf", "no script", "made of the fax as it came. It may show wrong rows.")
    for name in ("faxpages-salvage", "faxpages-hylafax"):
        os.remove(f"{room.path}/bin/{name}")
        os.symlink(f"{SCRIPTS}/{name}", f"{room.path}/bin/{name}")
    room.put("spool/recvq/bad.tif", b"II*\0\0\0\0\0")
    yield from mailed_first(room, "Fax of 0 pages or more: nothing of it can be read.", "", "page 1: NoDirectory")
    for name, kind, status in other_kinds(room, "kinds"):
        if name.endswith("-lzw.tif"):
            shutil.move(room(name), room("spool/recvq/bad.tif"))
            yield from mailed_first(room, f"Not a fax that is read here: {kind}.", "bad.pdf", "Unsupported 259")
    shutil.rmtree(room("kinds"))


def mailed_first(room: Room, summed: str, attached: str, *said: str) -> Iterator[Claim]:
    """What the mails about bad.tif say first, what else, and which file the office gets."""
    status, mails = received_by_hylafax(room, "bad")
    firsts = [text_of(mail).splitlines()[0] for mail in mails]
    yield f"{summed}: first", (status, firsts), (0, [summed, summed])
    yield f"{summed}: subjects", [mail["Subject"].startswith(f"{summed} Fax received") for mail in mails], [True] * 2
    (office,) = [mail for mail in mails if mail["To"] == "office"]
    yield f"{summed}: file", list(parts_of(office)), [attached] if attached else []
    text = " ".join(text_of(office).split())
    yield f"{summed}: what else is said", [words in text for words in said], [True] * len(said)


def pages_of_widths(widths: list[int]) -> bytes:
    """A file of pages of these widths, which all have the same strip: a white row of 1728 pels, and an end mark."""
    bits = WHITE + "000000000001" * 6
    strip = int(bits + "0" * (-len(bits) % 8), 2).to_bytes(-(-len(bits) // 8), "big")
    each = 2 + 8 * 12 + 4
    data, place = b"II*\0" + struct.pack("<I", 8), 8 + len(widths) * each
    for number, width in enumerate(widths, 1):
        entries = [(256, 4, 1, width), (257, 4, 1, 1), (258, 3, 1, 1), (259, 3, 1, 3), (262, 3, 1, 0),
                   (273, 4, 1, place), (278, 4, 1, 1), (279, 4, 1, len(strip))]  # fmt: skip
        data += directory(entries, len(data) + each if number < len(widths) else 0)
    return data + strip


def much_said_by_hylafax(room: Room) -> Iterator[Claim]:
    """Mails go out, of which much would be said: more than the environment of a program can have, and a long list."""
    dispatch = room.get("spool/etc/FaxDispatch")
    room.put("spool/etc/FaxDispatch", dispatch.replace(b"FILETYPE=pdf", b"FILETYPE="))
    room.put("spool/recvq/noted.tif", pages_of_widths([1728] * 3200))
    report = room.report("spool/recvq/noted.tif").decode()
    yield "many notes", (len(report) > 1 << 17, report.splitlines()[-1]), (True, "pages 3200 rows 3200")
    _, mails = received_by_hylafax(room, "noted")
    yield "many notes: mails", [text_of(mail).endswith(report[-1000:]) for mail in mails], [True, True]
    room.put("spool/recvq/refused.tif", pages_of_widths([1728] + [0] * 300))
    _, mails = received_by_hylafax(room, "refused")
    lines = [text_of(mail).splitlines() for mail in mails]
    first = "Fax of 301 pages: 300 pages are missing."
    yield "many pages are refused", [(it[0], "page 200: OutOfLimits 256" in it, it[-1]) for it in lines], [
        (first, True, ".. and 104 lines more")] * 2  # fmt: skip
    room.put("spool/etc/FaxDispatch", dispatch)


def received_by_hylafax(room: Room, kind: str, error: str = "") -> tuple[int, list[email.message.EmailMessage]]:
    """Lets faxrcvd handle a fax, with an error of its own: its status, and the mails."""
    words = f"recvq/{kind}.tif ttyS0 000000001 '{error}' 12345 'A `caller`'"
    status = room.bash(f"cd spool && bash bin/faxrcvd {words}")[0]
    mails = [message(room.get(it)) for it in room.names() if it.startswith("mailed-") and it != "mailed-by"]
    for it in [it for it in room.names() if it.startswith("mailed")]:
        os.remove(room(it))
    return status, mails


def told_as_errors(mails: list[email.message.EmailMessage]) -> int:
    """How many mails tell the operator that a fax came with errors."""
    return len([mail for mail in mails if mail["To"] == "FaxMaster" and "with errors" in mail["Subject"]])


def not_checked_by_hylafax(room: Room) -> Iterator[Claim]:
    """A good fax that cannot be checked is none with an error, and the operator is told why."""
    tools: dict[int | str, str] = {
        status: f"#!/bin/sh\necho 'because of {status}' >&2\nexit {status}\n" for status in (2, 3, 70, 126, 127)}
    if not shutil.which("faxpages"):
        tools |= {"no program": ""}
    for status, text in tools.items():
        room.tool("faxpages", text)
        reason = f"because of {status}"
        if not text:
            os.remove(f"{room.path}/bin/faxpages")
            reason = "faxpages: command not found"
        ended, mails = received_by_hylafax(room, "good")
        yield f"{status}: status and mails", (ended, sorted(mail["To"] for mail in mails)), (
            0,
            ["FaxMaster", "FaxMaster", "office"],
        )
        yield f"{status}: none is told as an error", (
            told_as_errors(mails),
            "Errors" in "".join(map(text_of, mails)),
        ), (0, False)
        told = [mail for mail in mails if mail["Subject"] == "faxpages cannot check recvq/good.tif"]
        yield f"{status}: the operator is told", [reason in text_of(mail) for mail in told], [True]
        yield f"{status}: each mail says so", ["not checked: " in text_of(mail) for mail in mails], [True] * 3
    room.tool("faxpages", f'#!/bin/sh\nexec {room.program} "$@"\n')


def tool_of(name: str) -> str:
    """The place of one of HylaFAX's programs: in Debian that on the path is a script, which mounts a folder first."""
    inner = f"/usr/lib/hylafax/bin/{name}"
    return inner if os.path.exists(inner) else shutil.which(name, path="/usr/sbin:/usr/bin:/usr/local/sbin") or name


def message(data: bytes) -> email.message.EmailMessage:
    mail = email.message_from_bytes(data, policy=email.policy.default)
    assert isinstance(mail, email.message.EmailMessage)
    return mail


def text_of(mail: email.message.EmailMessage) -> str:
    body = mail.get_body(("plain",))
    assert isinstance(body, email.message.EmailMessage)
    return str(body.get_content())


def parts_of(mail: email.message.EmailMessage) -> dict[str, bytes]:
    """The files of a mail, by their names."""
    files = {}
    for part in mail.iter_attachments():
        assert isinstance(part, email.message.EmailMessage)
        files[str(part.get_filename())] = bytes(part.get_content())
    return files


def asterisk(room: Room, commands: str) -> Iterator[Claim]:
    """The words of each System, as Asterisk gives them to a shell, without Asterisk."""
    folder = found(r"Set\(FAX=(/var/spool/asterisk/fax)/\$\{UNIQUEID\}\.tif\)", commands).group(1)
    name = "pbx-1764060000.17.tif"
    calls = [words.replace("${FAX}", f"{folder}/{name}").replace(folder, room("fax"))
             for words in re.findall(r"System\((.*)\)", commands)]  # fmt: skip
    yield "all is replaced", ["${" in words or "/var" in words.replace(room(""), "") for words in calls], [False, False]
    room.tool("sendmail", MAILER)
    mailer = {"SENDMAIL": f"{room.path}/bin/sendmail"}
    for kind, wanted, files in (("good", 0, ["fax.pdf"]), ("faulty", 1, ["fax.pdf", "fax.tif"])):
        if kind == "good":
            room.others(f"fax/{name}")
        else:
            room.sample(NOISY, f"fax/{name}")
        data = room.get(f"fax/{name}")
        yield kind, [room.call("sh", "-c", words, **mailer) for words in calls], [(wanted, b"", "")] * 2
        yield f"{kind}: is there", room.contents(f"fax/{kind}").get(name), data
        yield f"{kind}: its report is", room.names(f"fax/{kind}"), [name, f"{name}.report"]
        mail = message(room.get("mailed"))
        first = "Fax of 1 page: readable, 8 of 340 rows are missing" if wanted else "Fax of 5 pages: whole, 29 rows"
        yield f"{kind}: mailed", (mail["Subject"], sorted(parts_of(mail))), (first, files)
        os.remove(room("mailed"))
    for words in calls:
        yield "no fax came in", room.call("sh", "-c", words, **mailer)[0], 3
    yield "no fax came in: no mail", os.path.exists(room("mailed")), False
    without = [words.replace(f"{room('fax')}/{name}", "") for words in calls]
    yield "the call had none", [room.call("sh", "-c", words, **mailer)[0] for words in without], [2, 2]


def mail_gateway(room: Room, commands: str) -> Iterator[Claim]:
    room.tool("sendmail", MAILER)
    mailer = {"SENDMAIL": f"{room.path}/bin/sendmail"}
    room.others("fax.tif")
    yield "good", room.bash(commands, **mailer), (0, b"", "")
    mail = message(room.get("mailed"))
    yield "good: to", (mail["To"], room.get("mailed-by")), ("office@example.org", b"-oi -t\n")
    rows = int(room.report("fax.tif").split()[-1])
    yield "good: subject", mail["Subject"], f"Fax of 5 pages: whole, {rows:,} rows"
    yield "good: text", text_of(mail).splitlines(), [f"{mail['Subject']}.", "", "File: fax.tif"]
    yield "good: files", [(it, data[:5]) for it, data in parts_of(mail).items()], [("fax.pdf", b"%PDF-")]
    yield "good: title", title_in(room, mail), "fax.tif"
    room.sample("damaged-fourth-page.tif", "fax.tif")
    yield "faulty", room.bash(commands, **mailer)[::2], (1, "")
    mail = message(room.get("mailed"))
    parts = parts_of(mail)
    yield "faulty: files", (sorted(parts), parts["fax.tif"]), (["fax.pdf", "fax.tif"], room.get("fax.tif"))
    yield "faulty: subject", mail["Subject"], "Fax of 4 pages: 6 of 44 rows are missing"
    yield "faulty: text", text_of(mail).splitlines()[:5], [
        f"{mail['Subject']}.", "", "File: fax.tif", "Missing, with pages and rows numbered from 1:",
        "page 4 rows 6 to 11: OutOfRow"]  # fmt: skip
    yield "faulty: no numbers from 0, and of another fax", re.findall("page 3|row 5|1,000|343", text_of(mail)), []
    yield "faulty: title", title_in(room, mail), "fax.tif"
    yield from mailed_without_pdf(room, commands, mailer)
    yield from summed_up(room, commands, mailer)
    yield from mailed_of_other_kinds(room, commands, mailer)
    for name in [*HOSTILE, "\nBcc: all@example.org\n\n.tif"]:
        room.others(name)
        os.remove(room("mailed"))
        yield f"{name!r}", room.call("faxpages-mail", name, "a@b.c", "Fax <fax@b.c>", **mailer), (0, b"", "")
        mail = message(room.get("mailed"))
        wanted = ["From", "To", "Subject", "Date", "MIME-Version", "Content-Type"]
        yield f"{name!r}: head", (mail.keys(), len(list(mail.iter_attachments()))), (wanted, 1)
    os.remove(room("mailed"))
    refused = room.call("faxpages-mail", "fax.tif", "a@b.c\nBcc: d@e.f", **mailer)[0]
    yield "an address of two lines", (refused, os.path.exists(room("mailed"))), (3, False)
    yield "no file", room.call("faxpages-mail", "none.tif", "a@b.c", **mailer)[0], 3
    yield "no mailer", room.call("faxpages-mail", "fax.tif", "a@b.c", SENDMAIL="/bin/false")[0], 3
    yield "nothing is left", room.left(), []


def title_in(room: Room, mail: email.message.EmailMessage) -> str:
    """The title of the PDF in a mail."""
    room.put("mailed.pdf", parts_of(mail)["fax.pdf"])
    ran = room.call("pdfinfo", "mailed.pdf")[1].decode()
    return found(r"Title: *(.*)", ran).group(1)


def mailed_without_pdf(room: Room, commands: str, mailer: dict[str, str]) -> Iterator[Claim]:
    """Where there can be no PDF of a damaged fax, the mail has a TIFF file of what is salvaged; else what there is."""
    fax, salvaged = room.get("fax.tif"), room.run("salvage", "-o", "mmr", name="fax.tif")[1]
    room.tool("faxpages-salvage", "#!/bin/sh\necho 'no room' >&2\nexit 3\n")
    damaged = "Fax, damaged: salvaged, missing rows are white"
    for first, files in ((damaged, {"salvaged.tif": salvaged, "fax.tif": fax}),
                         ("Fax, damaged: what is left of it cannot be shown", {"fax.tif": fax})):  # fmt: skip
        yield f"{first}: mailed", room.bash(commands, **mailer), (1, b"", "")
        mail = message(room.get("mailed"))
        lines = text_of(mail).splitlines()
        yield first, (mail["Subject"], lines[0], lines[3:]), (
            first, f"{first}.", ["no room", "pages 3 rows 38", "fault page 4 row 6: OutOfRow"])  # fmt: skip
        yield f"{first}: files", parts_of(mail), files
        room.tool("faxpages", f"#!/bin/sh\n[ \"$1 $2\" != 'salvage -o' ] || exit 3\nexec {room.program} \"$@\"\n")
    room.tool("faxpages", f'#!/bin/sh\nexec {room.program} "$@"\n')
    os.remove(f"{room.path}/bin/faxpages-salvage")
    os.symlink(f"{SCRIPTS}/faxpages-salvage", f"{room.path}/bin/faxpages-salvage")


def summed_up(room: Room, commands: str, mailer: dict[str, str]) -> Iterator[Claim]:
    """What the subject says of little damage, of a cut fax, and of one of which nothing is left; and notes, from 1."""
    notes = room.get("fax.tif")
    room.sample("received/over-a-noisy-line.tif", "noisy.tif")
    room.sample("damaged-fourth-page.tif", "cut.tif")
    room.put("cut.tif", room.get("cut.tif")[:300])
    room.put("nothing.tif", b"II*\0\0\0\0\0")
    room.sample("second-row-missing.tif", "missing.tif")
    wanted = {
        "noisy.tif": "Fax of 1 page: readable, 8 of 340 rows are missing",
        "cut.tif": "Fax of 1 page or more: readable, what follows is missing",
        "nothing.tif": "Fax of 0 pages or more: nothing of it can be read",
        "missing.tif": "Fax of 1 page: 1 of 2 rows is missing",
    }
    for name, subject in wanted.items():
        shutil.copy(room(name), room("fax.tif"))
        yield f"{name}: mailed", room.bash(commands, **mailer)[::2], (1, "")
        mail = message(room.get("mailed"))
        yield f"{name}: subject", (mail["Subject"], text_of(mail).splitlines()[0]), (subject, f"{subject}.")
    room.sample("return-to-control.tif", "fax.tif")
    yield "notes: mailed", room.bash(commands, **mailer)[::2], (0, "")
    noted = [line for line in room.report("fax.tif").decode().splitlines() if line.startswith("note ")]
    told = [line for line in text_of(message(room.get("mailed"))).splitlines() if line.startswith("note ")]
    counted = [re.sub(r"(?<=page |trip )(\d+)", lambda it: str(int(it.group()) + 1), line) for line in noted]
    yield "notes: from 1", (told, len(told) > 0), (counted, True)
    room.put("fax.tif", notes)


def mailed_of_other_kinds(room: Room, commands: str, mailer: dict[str, str]) -> Iterator[Claim]:
    """Sound files that are no faxes read here are mailed as they are, and nobody calls them faulty."""
    for name, kind, status in other_kinds(room, "kinds"):
        shutil.copy(room(name), room("fax.tif"))
        yield f"{name}: mailed", (status, room.bash(commands, **mailer)), (0, (1, b"", ""))
        mail = message(room.get("mailed"))
        (part,) = mail.iter_attachments()
        yield f"{name}: subject", mail["Subject"], f"Not a fax that is read here: {kind}"
        yield f"{name}: told", text_of(mail).startswith(f"Not a fax that is read here: {kind}."), True
        yield f"{name}: its fault, from 1", re.findall("fault page 1( row 1)?:", text_of(mail)) != [], True
        data = part.get_payload(decode=True)
        wanted = ("application/pdf" if kind == "a PDF" else "image/tiff", room.get(name))
        yield f"{name}: attached", (part.get_content_type(), data), wanted


TESTS: Tests = {
    "HylaFAX": (["tiff2pdf", f"{HYLAFAX}/bin/faxrcvd", tool_of("faxinfo") or "faxinfo"], hylafax),
    "Asterisk": ([], asterisk),
    "A mail gateway": (["tiff2pdf", "tiffcp", "pnmtopng", "base64", "pdfinfo"], mail_gateway),
}
