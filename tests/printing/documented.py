"""The recipes of docs/RECIPES.md whose headings begin with Print, as they stand there but for the printer's name and
two folders; in place of apt-get and systemctl stand programs that keep their words, and cupsd runs already."""

from __future__ import annotations

import os
import re
import shutil

from tests import finding
from tests.printing.room import Room
from tests.printing import made, server
from tests.printing.faxed import spooled


def recipes() -> dict[str, str]:
    """The commands of each recipe, by its heading."""
    with open(f"{server.TOP}/docs/RECIPES.md") as document:
        text = document.read()
    return dict(re.findall(r"^## (Print .*)\n(?:(?!^## |^```).*\n)*^```sh\n((?:.*\n)*?)^```$", text, re.MULTILINE))


def stand_ins(room: Room) -> None:
    """Programs that keep their words."""
    os.mkdir(room.made("bin"))
    for name in ("apt-get", "systemctl"):
        with open(room.made(f"bin/{name}"), "w") as file:
            file.write(f'#!/bin/sh\nprintf "%s\\n" {name} "$@" >>{room.made("words")}\n')
        os.chmod(room.made(f"bin/{name}"), 0o755)


def given(room: Room, folder: str, commands: str, replaced: dict[str, str]) -> tuple[int, bytes, str]:
    """Gives commands to a shell, in a folder with a fax and a letter."""
    for text, other in replaced.items():
        if text not in commands:
            raise ValueError(f"the recipe has no {text}")
        commands = commands.replace(text, other)
    path = f"{room.made('bin')}:{os.environ['PATH']}"
    return room.run("bash", "-ec", commands, cwd=folder, env={**room.server.environment, "PATH": path})


def scripts(room: Room) -> None:
    """The scripts as shellcheck sees them, and CUPS's own test of the queue's file, where they are here."""
    for name, words in (("shellcheck", [f"{server.TOP}/cups/{it}" for it in ("faxpages", "faxtopdf")]),
                        ("cupstestppd", ["-q", f"{server.TOP}/cups/fax.ppd"])):  # fmt: skip
        if shutil.which(name):
            room.claim(name, room.run(name, *words), (0, b"", ""))
        else:
            print(f"SKIPPED: {name} is not installed, so: it does not look at cups/")


def play(room: Room) -> None:
    scripts(room)
    found = recipes()
    room.claim("recipes", sorted(found), ["Print a fax", "Print to Fax"])
    stand_ins(room)
    folder = room.made("given")
    os.mkdir(folder)
    os.rename(made.pdf(folder, "drawn.pdf", 2), f"{folder}/letter.pdf")
    made.run(folder, "gs", "-q", "-dNOPAUSE", "-dBATCH", "-sDEVICE=tiffg3", "-r204x98", "-o", "fax.tif", "drawn.pdf.ps")
    printer = room.printers[-1]
    # CUPS has to have asked the printer first, so lp comes when the queue is there.
    before, last = found["Print a fax"].rsplit("lp ", 1)
    ran = given(room, folder, before, {"ipp://printer.example.org/ipp/print": printer.uri})
    room.claim("Print a fax: the queue", (ran[0], ran[2]), (0, ""))
    server.wait_for(lambda: b'Printer "office" is now available' in room.server.get("log/error"))
    status, said, _ = given(room, folder, "lp " + last, {})
    job = int(finding.found(rb"office-(\d+)", said).group(1))
    room.claim("Print a fax", (status, room.server.ended(job)[0].state), (0, "completed"))
    (path,) = [it for it in printer.received() if it.endswith("-fax_tif.pdf")]
    room.claim("Print a fax: pels", room.images(path) == room.pages(f"{folder}/fax.tif"))
    with open(room.made("words")) as file:
        words = file.read().split("\n")
    room.claim("apt-get and systemctl", (words[:4], words[-4:-1]), (["apt-get", "install", "-y", "cups"],
               ["systemctl", "restart", "cups"]))  # fmt: skip
    spool = f"{room.server.folder}/by-recipe"
    status, said, _ = given(room, folder, found["Print to Fax"], {
        "/var/spool/faxpages": spool, "/usr/share/ppd/faxpages": f"{server.TOP}/cups", "-p Fax ": "-p Fax2 ",
        "-d Fax ": "-d Fax2 "})  # fmt: skip
    job = int(finding.found(rb"Fax2-(\d+)", said).group(1))
    room.claim("Print to Fax", (status, room.server.ended(job)[0].state), (0, "completed"))
    told, fax = spooled(spool)["letter.pdf"]
    room.claim("Print to Fax: number", told["number"], "+49301234567")
    room.claim("Print to Fax: check", room.run(room.program, "check", fax)[0], 0)
