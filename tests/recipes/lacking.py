"""The scripts of recipes/ and cups/ without each of the programs that they call: they name it, and the package that has
it. Which programs these are is seen as the scripts run: on the PATH are just programs that note that they are called."""

from __future__ import annotations

import os
import re
import subprocess
from typing import Dict, Iterator, List, NamedTuple, Tuple

from tests import TOP, Claim
from tests.convert import files
from tests.recipes.recipes import SCRIPTS
from tests.recipes.room import Room, Tests

# Where Debian has programs that scripts may call.
FOLDERS = ("/usr/bin", "/bin")
# What a script calls before it knows what it lacks: the shell's own words name it.
EARLY = {"readlink"}
# What is taken from another place, where the PATH has none.
ELSEWHERE = {"python3"}
# Shells, which have the same path everywhere.
SHELLS = {"sh", "bash", "dash", "rbash"}
# A link, in whose place a copy is made; a file that is opened, of which `reason` is asked next; numbers of a cut file;
# by which signal a program ended, which `told` says.
SAID_ELSEWHERE = r"! ln |\{ true <|^od -A n |^exec 3>&2 |^elif is_written "
# Programs in whose place the scripts have another way.
INSTEAD = ("perl",)
NOTING = """#!/bin/sh
echo {name} >>"$CALLED"
exec {path} "$@"
"""
PYTHON = "/usr/bin/python3"
MAILER = '#!/bin/sh\n/usr/bin/cat >"$HOME/mailed"\n'


class Call(NamedTuple):
    """A script with its words, the status where a program is missing, and what it needs first."""

    script: str
    words: Tuple[str, ...]
    status: int
    before: str = ""


CALLS = {
    "a picture": Call("faxpages-picture", ("damaged.tif", "3"), 3),
    "a damaged fax as HTML": Call("faxpages-html", ("damaged.tif",), 3),
    "a damaged fax that is salvaged": Call("faxpages-salvage", ("damaged.tif", "folder"), 3, "rm -rf folder"),
    "two faxes": Call("faxpages-compare", ("good.tif", "damaged.tif"), 3),
    "two faxes, and a picture": Call("faxpages-compare", ("good.tif", "other.tif", "page.png"), 3, "rm -f page.png"),
    "a PDF": Call("faxpages-from-pdf", ("--standard", "good.pdf", "made.tif"), 1, "rm -f made.tif"),
    "a PDF as it is": Call("faxpages-from-pdf", ("--as-is", "good.pdf", "made.tif"), 1, "rm -f made.tif"),
    "a good fax by mail": Call("faxpages-mail", ("good.tif", "a@b.c"), 3),
    "a damaged fax by mail": Call("faxpages-mail", ("damaged.tif", "a@b.c"), 3),
    "a picture by mail": Call("faxpages-mail", ("picture.tif", "a@b.c"), 3),
    "a fax that came": Call("faxpages-receive", ("came.tif", "sorted"), 3, "rm -rf sorted; cp good.tif came.tif"),
    "a picture that came": Call("faxpages-receive", ("came.tif", "sorted"), 3, "rm -rf sorted; cp picture.tif came.tif"),
    "HylaFAX": Call("faxpages-hylafax", ("etc",), 3, "rm -rf etc; mkdir -p etc/templates/en; touch etc/templates/en/a.txt"),
    "HylaFAX again": Call("faxpages-hylafax", ("etc",), 3),
    "HylaFAX, taken back": Call("faxpages-hylafax", ("--remove", "etc"), 3, "faxpages-hylafax etc"),
    "HylaFAX, a damaged fax": Call("faxpages-hylafax", ("--salvage", "damaged.tif", "folder"), 3, "rm -rf folder"),
    "a sweep": Call("faxpages-sweep", ("tree", "state", "figures"), 3, "rm -rf state figures"),
}


def programs() -> Dict[str, str]:
    """The programs that scripts may call, by their names."""
    there: Dict[str, str] = {}
    for folder in FOLDERS:
        for name in os.listdir(folder):
            if name not in SHELLS and re.fullmatch(r"[a-z][\w.+-]*", name) and os.access(f"{folder}/{name}", os.X_OK):
                there.setdefault(name, f"{folder}/{name}")
    return there


class Noted:
    """A folder for the PATH, of programs that note that they are called."""

    def __init__(self, room: Room) -> None:
        self.room, self.folder, self.log = room, f"{room.path}/noted", f"{room.path}/called"
        os.mkdir(self.folder)
        self.paths = programs()
        self.paths["faxpages"] = room.program
        for name in os.listdir(SCRIPTS):
            if os.access(f"{SCRIPTS}/{name}", os.X_OK):
                self.paths[name] = f"{SCRIPTS}/{name}"
        for name in self.paths:
            self.put(name)

    def put(self, name: str) -> None:
        """Puts a program there."""
        files.put(f"{self.folder}/{name}", NOTING.format(name=name, path=self.paths[name]).encode())
        os.chmod(f"{self.folder}/{name}", 0o755)

    def run(self, call: Call) -> Tuple[int, str]:
        """The status of a script, and what it says, in a mail too."""
        self.room.bash(f"rm -f mailed; {call.before}")
        files.put(self.log, b"")
        status, shown, said = self.room.call("env", f"PATH={self.folder}", f"{SCRIPTS}/{call.script}", *call.words,
                                             CALLED=self.log, SENDMAIL=f"{self.room.path}/mailer", **self.room.module)
        mailed = self.room.get("mailed").decode() if os.path.exists(self.room("mailed")) else ""
        return status, said + mailed + (shown.decode() if is_mailed(call) else "")

    def called(self) -> List[str]:
        """The programs that the last script called, and those that it called."""
        return sorted(set(files.get(self.log).decode().split()))


def lay_out(room: Room) -> None:
    """A fax, another one, one that is damaged, a picture that is none, and a PDF."""
    room.sample("three-mmr-rows.tif", "good.tif")
    room.sample("one-mh-page.tif", "other.tif")
    room.sample("damaged-fourth-page.tif", "damaged.tif")
    room.put("picture.tif", b"MM\0\x2a\0\0\0\x08\0\1\1\x44\0\4\0\0\0\1\0\0\0\0\0\0\0\0")
    room.sample("one-mh-page.tif", "tree/fax.tif")
    room.sample("received/as-it-was-sent.tif", "sent.tif")
    room.bash("touch -d '1 hour ago' tree/fax.tif; tiff2pdf -o good.pdf sent.tif")
    files.put(f"{room.path}/mailer", MAILER.encode())
    os.chmod(f"{room.path}/mailer", 0o755)


def without_each(room: Room, _: str) -> Iterator[Claim]:
    lay_out(room)
    noted = Noted(room)
    for name, call in CALLS.items():
        whole = status, said = noted.run(call)
        called = noted.called()
        yield f"{name}: all is there: {said}", (status in (0, 1, 3), "not on the PATH" in said), (True, False)
        yield f"{name}: what it calls was noted: {called}", len(called) >= 5, True
        for program in [it for it in called if it not in ELSEWHERE]:
            os.remove(f"{noted.folder}/{program}")
            status, said = noted.run(call)
            noted.put(program)
            if program in INSTEAD:
                yield f"{name}, without {program}, in another way", (status, said), whole
                continue
            yield f"{name}, without {program}", (status, names(said, program)), (status_of(call, program), True)


def without_python(room: Room, _: str) -> Iterator[Claim]:
    """The same of /usr/bin/python3, which three scripts call by its path, and of what the backend for CUPS calls."""
    lay_out(room)
    files.put(room("none"), b"")
    hidden = f"mount --bind none {os.path.realpath(PYTHON)} || exit 77; exec "
    calls = {
        "the filter": (f"{TOP}/cups/faxtopdf 1 anna fax 1 '' good.tif", 1, "ERROR: faxtopdf needs"),
        "the backend": (f"{TOP}/cups/faxpages 1 anna fax 1 '' good.pdf", 3, "ERROR: the fax is held: faxpages needs"),
    }
    for name, (command, status, words) in calls.items():
        ran = room.call("unshare", "-m", "bash", "-c", hidden + command)
        if ran[0] == 77:
            print(f"not run: {name} without Python: nothing can be mounted here")
            continue
        yield f"{name} without Python", ran, (status, b"", f"{words} {PYTHON}: the package python3 has it\n")
    script = ("import os\nfrom faxpages_cups import _fax\n_fax._PLACES = os.environ['PATH'] = '/nowhere'\n"
              "for name in _fax._PACKAGES:\n    try: _fax.program(name)\n    except _fax.Refused as why: print(why)")
    printed = room.call(PYTHON, "-B", "-c", script, **room.module, PYTHONPATH=f"{TOP}/cups:{TOP}/python")
    told = dict(re.findall(r"there is no (\S+): the package (\S+) has it\n", printed[1].decode()))
    yield f"the backend's programs: {printed[2]}", told, {
        "faxpages-from-pdf": "faxpages", "pdfinfo": "poppler-utils", "sendfax": "hylafax-client"}
    with open(f"{TOP}/cups/faxpages_cups/_fax.py", encoding="utf-8") as file:
        yield "all that it calls are in its table", set(re.findall(r'program\("([\w-]+)"\)', file.read())), set(told)


def is_mailed(call: Call) -> bool:
    """Whether HylaFAX mails what a script prints."""
    return call.words[0] == "--salvage"


def status_of(call: Call, program: str) -> int:
    """The status that a script has without a program. If what it calls lacks something a mail is sent without its PDF."""
    with open(f"{SCRIPTS}/{call.script}", encoding="utf-8") as file:
        lists = re.findall(r"lacking=\$\(missing ([^)]*)\) \|\|", file.read())
    own = {*" ".join(lists[:1] if is_mailed(call) else lists).split(), *EARLY}
    is_damaged = call.script == "faxpages-mail" and "good.tif" not in call.words
    if (is_damaged or is_mailed(call)) and (program not in own or program == "tiff2pdf"):
        return 0 if is_mailed(call) else 1
    return call.status


def names(said: str, program: str) -> bool:
    """Whether a text names a program that is missing, and its package."""
    if program in EARLY:
        return re.search(rf"\b{program}: (command )?not found", said) is not None
    told = re.search(rf"(?m)(?:^|: ){re.escape(program)} is not on the PATH: the package (\S+) has it$", said)
    return told is not None and told[1] == package_of(program)


def package_of(program: str) -> str:
    """The package that has a program here, or ours."""
    if program.startswith("faxpages") or program == "awk":
        return "mawk" if program == "awk" else "faxpages"
    for path in (os.path.realpath(f"/usr/bin/{program}"), f"/usr/bin/{program}", f"/bin/{program}"):
        ran = subprocess.run(["dpkg", "-S", path], capture_output=True, text=True, check=False)
        if ran.returncode == 0:
            return ran.stdout.split(":")[0]
    return "no package"


def nothing_is_hidden(_: Room, __: str) -> Iterator[Claim]:
    """No script throws away what a program says, but where another way is tried, or the reason is asked for after it."""
    for folder in (SCRIPTS, f"{TOP}/cups"):
        for name in sorted(it for it in os.listdir(folder) if os.path.isfile(f"{folder}/{it}")):
            with open(f"{folder}/{name}", encoding="utf-8") as file:
                hidden = [line.strip() for line in file if "2>/dev/null" in line]
            yield f"{name}: what is thrown away", [line for line in hidden if not re.search(SAID_ELSEWHERE, line)], []


def nothing_to_compare(room: Room, _: str) -> Iterator[Claim]:
    """Where the rows of both faxes do not come, as where /dev/fd is missing, it is said, and at once."""
    lay_out(room)
    room.tool("paste", "#!/bin/sh\nexit 1\n")
    ran = room.bash("ulimit -v 1000000; exec timeout 60 faxpages-compare good.tif other.tif")
    yield "no rows come", ran, (3, b"", "faxpages-compare: good.tif: its rows cannot be compared\n")


EXTRA: Tests = {
    "The scripts without each program that they call": (
        ["dpkg", "pnmtopng", "tiffcp", "tiff2pdf", "pdftoppm", "pdfimages"], without_each),
    "The scripts, and what programs say": ([], nothing_is_hidden),
    "Two faxes of which no rows come": (["tiff2pdf", "timeout"], nothing_to_compare),
    "The scripts without the system's Python": (["unshare", PYTHON, "tiff2pdf"], without_python),
}  # fmt: skip
