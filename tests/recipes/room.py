"""A folder in which a recipe runs, with the program and the scripts on the path."""

from __future__ import annotations

import os
import shutil
import subprocess
from typing import Callable, Iterable

from tests import Claim
from tests.convert import files, pages
from tests.recipes.recipes import ROOT, SCRIPTS

WIDTH = 1728
# The end of each wait for an event, in seconds: no machine is so loaded.
PATIENCE = 900
# Names that shells, programs and formats stumble over: blanks, quotes, a newline, an option, a command, a pattern,
# tiffcp's list of pages, an assignment of awk, and bytes that are not UTF-8.
HOSTILE = [os.fsdecode(name) for name in (
    b"a b  c.tif", b"it's \"one\".tif", b"new\nline.tif", b"-o.tif", b"$(touch owned)`touch owned`;.tif", b"*[a]?.tif",
    b"a,1.tif", b"a=b %s\\n<&>.tif", b"caf\xe9 \xff.tif",
)]  # fmt: skip
# A file that anyone may open, and whose first byte cannot be read: the memory of this process.
UNREADABLE = f"/proc/{os.getpid()}/mem"


def is_there(name: str, what: str) -> bool:
    """Whether a program is installed; else what is not tried is said."""
    if shutil.which(name):
        return True
    print(f"not run: {what}: {name} missing")
    return False


class Room:
    def __init__(self, path: str, program: str) -> None:
        self.path, self.program = path, program
        os.mkdir(f"{path}/bin")
        os.symlink(program, f"{path}/bin/faxpages")
        for name in os.listdir(SCRIPTS):
            os.symlink(f"{SCRIPTS}/{name}", f"{path}/bin/{name}")
        # Where scripts find the module for Python, and it the library.
        library = f"{os.path.dirname(os.path.realpath(program))}/libfaxpages.so.1"
        self.module = {"FAXPAGES_MODULE": f"{ROOT}/python", "FAXPAGES_LIBRARY": library}
        os.mkdir(f"{path}/work")
        os.mkdir(f"{path}/tmp")

    def __call__(self, name: str) -> str:
        """The place of a file."""
        return os.path.join(self.path, "work", name)

    def environment(self, more: dict[str, str]) -> dict[str, str]:
        return dict(os.environ, PATH=f"{self.path}/bin:{os.environ['PATH']}", HOME=f"{self.path}/work",
                    TMPDIR=f"{self.path}/tmp", **more)  # fmt: skip

    def bash(self, commands: str, *words: str, **more: str) -> tuple[int, bytes, str]:
        """The status, output and error stream of commands of bash, with words as $1, $2.."""
        ran = subprocess.run(["bash", "-c", commands, "bash", *words], cwd=self(""), env=self.environment(more),
                             stdin=subprocess.DEVNULL, capture_output=True, timeout=PATIENCE)  # fmt: skip
        return ran.returncode, ran.stdout, ran.stderr.decode(errors="surrogateescape")

    def call(self, *words: str, **more: str) -> tuple[int, bytes, str]:
        return self.bash('"$@"', *words, **more)

    def start(self, *words: str, **more: str) -> subprocess.Popen[bytes]:
        """Starts a program as the leader of a session."""
        return subprocess.Popen(words, cwd=self(""), env=self.environment(more), stdin=subprocess.DEVNULL,
                                stdout=subprocess.DEVNULL, stderr=subprocess.DEVNULL, start_new_session=True)  # fmt: skip

    def put(self, name: str, data: bytes) -> None:
        os.makedirs(os.path.dirname(self(name)), exist_ok=True)
        files.put(self(name), data)

    def get(self, name: str) -> bytes:
        return files.get(self(name))

    def tool(self, name: str, text: str) -> None:
        """Puts a program of the test in the place of one on the path."""
        place = f"{self.path}/bin/{name}"
        if os.path.lexists(place):
            os.remove(place)
        files.put(place, text.encode())
        os.chmod(place, 0o755)

    def contents(self, folder: str) -> dict[str, bytes]:
        """What is in a folder: the names, and what each file holds."""
        return {name: self.get(f"{folder}/{name}") for name in self.names(folder)}

    def names(self, folder: str = ".") -> list[str]:
        return sorted(os.listdir(self(folder)))

    def left(self) -> list[str]:
        """What is left in the folder of temporary files."""
        return os.listdir(f"{self.path}/tmp")

    def sample(self, name: str, to: str) -> None:
        os.makedirs(os.path.dirname(self(to)), exist_ok=True)
        shutil.copy(f"{ROOT}/samples/{name}", self(to))

    def run(self, *words: str, name: str) -> tuple[int, bytes, bytes]:
        """What the program does with a file, which it reads as standard input: status, output, error stream."""
        with open(self(name), "rb") as file:
            ran = subprocess.run([self.program, *words], stdin=file, capture_output=True)
        return ran.returncode, ran.stdout, ran.stderr

    def rows(self, name: str) -> tuple[bytes, bytes]:
        """What `rows` prints of a fax, on both streams."""
        return self.run("rows", name=name)[1:]

    def report(self, name: str) -> bytes:
        """What `check` prints of a fax, both streams together."""
        _, output, error = self.run("check", name=name)
        return output + error

    def fax(self, name: str, coding: str, kind: str, times: int = 1) -> list[bytes]:
        """Writes a drawn document as a fax, whose pages have their rows so many times; its images."""
        drawn = pages.draw_document(4, kind, WIDTH)
        images = [pages.image(WIDTH, rows * times) for rows in drawn]
        self.put(name, pages.coded(self.program, ["-o", coding], b"".join(images)))
        return images

    def others(self, name: str, number: int = 0) -> list[bytes]:
        """Writes a fax as libtiff and netpbm write one, where they are installed: its images."""
        drawn = pages.draw_document(5, "all", WIDTH)
        images = [pages.image(WIDTH, rows) for rows in drawn]
        if not shutil.which("tiffcp") or not shutil.which("pnmtotiff"):
            self.put(name, pages.coded(self.program, ["-o", "mr"], b"".join(images)))
            return images
        uncoded: list[str] = []
        for image in images:
            files.put(f"{self.path}/image.pbm", image)
            uncoded.append(f"{self.path}/{len(uncoded)}.tif")
            files.tool(["pnmtotiff", "-none", "-miniswhite", f"{self.path}/image.pbm"], uncoded[-1])
        forms = [
            ["g3:1d"],
            ["g4", "-B"],
            ["g3:2d", "-f", "lsb2msb", "-r", "2"],
            ["g3:1d:fill", "-B"],
            ["g4", "-r", "3"],
        ]
        said = files.tool(["tiffcp", "-c", *forms[number % len(forms)], *uncoded, f"{self.path}/out.tif"])
        assert said is None, said
        self.put(name, files.get(f"{self.path}/out.tif"))
        return images

    def cut(self, name: str) -> None:
        """Writes a fax of one page whose strip is cut short: its first rows can be read."""
        drawn = pages.draw_document(4, "noise", WIDTH)[0]
        data = pages.coded(self.program, ["-o", "mh"], pages.image(WIDTH, drawn))
        (fields,) = files.directories_of(data)
        (strip,) = files.strips_of(data, fields)
        self.put(name, files.framed(WIDTH, len(drawn), 1, "mh", strip[: len(strip) // 2]))

    def faxes(self, folder: str) -> list[str]:
        """Writes a folder of three faxes, and one with a fault; their names."""
        for name, coding, kind in (("a", "mh", "all"), ("b c", "mr", "noise"), ("d", "mmr", "marks")):
            self.fax(f"{folder}/{name}.tif", coding, kind)
        self.cut(f"{folder}/faulty.tif")
        return self.names(folder)


def lines_of_rows(text: bytes) -> bytes:
    return b"".join(line for line in text.splitlines(True) if line.startswith(b"row "))


# Of a recipe, or of what is tried beside them, what it needs and the test, which is given the commands.
Tests = dict[str, tuple[list[str], Callable[[Room, str], Iterable[Claim]]]]
