"""What each part of this test has: the servers, the program, and claims that are counted."""

from __future__ import annotations

import os
import shutil
import subprocess

from tests.finding import shown
from tests.printing import made, server
from tests.printing.server import Bus, Printer, Server, Told


class Room:
    def __init__(self, folder: str, program: str, library: str) -> None:
        self.folder, self.program, self.library = folder, program, library
        self.counts = {True: 0, False: 0}
        os.makedirs(f"{folder}/made")
        self._server: Server | None = None
        self._bus: Bus | None = None
        self.printers: list[Printer] = []
        self._for_raster: Printer | None = None
        self._job: int | None = None

    @property
    def server(self) -> Server:
        """The server, which has been started."""
        assert self._server is not None
        return self._server

    @property
    def for_raster(self) -> Printer:
        """The printer that takes raster alone."""
        assert self._for_raster is not None
        return self._for_raster

    def start(self, queues: int) -> None:
        """Starts cupsd, and so many printers with a queue for each, one for faxes too."""
        self._server = server.Server(f"{self.folder}/cups", self.program, self.library)
        self.server.start()
        self._bus = bus = server.Bus(self.folder)
        for number in range(queues):
            self.printers.append(server.Printer(self.folder, f"printer{number}", bus))
            self.server.do("lpadmin", "-p", f"printer{number}", "-E", "-v", self.printers[-1].uri, "-m", "everywhere")
        # One that takes raster alone.
        self._for_raster = server.Printer(self.folder, "raster", bus, "image/pwg-raster")
        self.server.do("lpadmin", "-p", "raster", "-E", "-v", self.for_raster.uri, "-m", "everywhere")
        for name in [*(f"printer{number}" for number in range(queues)), "raster"]:
            self.is_there(name)
        self.spool = self.new_spool("faxes")
        self.fax_queue("Fax", self.spool, "?title")

    def is_there(self, name: str) -> None:
        """Waits until cupsd has asked a printer what it takes. It is not the log that tells: threads write into it, one
        for each printer, and a line of one may come out as that of another."""
        server.wait_for(lambda: "IPP Everywhere" in self.server.call("lpoptions", "-p", name)[1], step=0.2)

    def fax_queue(self, name: str, folder: str, more: str = "") -> None:
        self.server.do(
            "lpadmin", "-p", name, "-E", "-v", f"faxpages:{folder}{more}", "-P", f"{server.TOP}/cups/fax.ppd"
        )

    def job_of_one(self) -> int:
        """The number of a job of one document, which stays held: what is run by hand is given it, since CUPS is asked
        how many documents a job has."""
        if self._job is None:
            self._job = self.server.print("Fax", "-H", "hold", self.made(made.sheets(self.made(""), "one.ps", 1)))
        return self._job

    def new_spool(self, name: str) -> str:
        """A folder for faxes, into which the backend may write."""
        path = f"{self.folder}/cups/{name}"
        os.mkdir(path)
        os.chown(path, self.server.user.pw_uid, self.server.user.pw_gid)
        os.chmod(path, 0o2770)
        return path

    def stop(self) -> None:
        for it in [self._server, *self.printers, self._for_raster, self._bus]:
            if it:
                it.stop()

    def claim(self, name: str, got: object, wanted: object = True) -> None:
        self.counts[got == wanted] += 1
        if got != wanted:
            print(f"FAILED: {name}: {shown(got, 400)}, wanted {shown(wanted, 400)}".encode(errors="replace").decode())

    def says(self, told: Told, wanted: str) -> bool:
        """Whether a job's message begins so. CUPS keeps the first error alone: where a printer was slow to answer that
        is its backend's, and then the log has to say so of that job."""
        return told.message.startswith(wanted) or any(
            told.message in said and any(line.startswith(wanted) for line in said) for said in self.server.said())

    def made(self, name: str) -> str:
        return f"{self.folder}/made/{name}"

    def run(self, *words: str, env: dict[str, str] | None = None,
            cwd: str | None = None) -> tuple[int, bytes, str]:
        """Runs a program: its status, its output and what it says."""
        ran = subprocess.run(words, capture_output=True, timeout=server.PATIENCE, env=env, cwd=cwd)
        return ran.returncode, ran.stdout, ran.stderr.decode(errors="replace")

    def received(self) -> dict[str, str]:
        """What the printers have, by the number of its job and queue, as the title begins with these."""
        return {os.path.basename(it).split("-", 1)[1]: it for printer in self.printers for it in printer.received()}

    def pages(self, path: str) -> list[tuple[int, list[bytes]]]:
        return made.pages_of(self.program, path)

    def images(self, path: str) -> list[tuple[int, list[bytes]]]:
        return made.images_of(self.folder, path)


def lacks(names: list[str]) -> list[str]:
    """Which of these programs are not here."""
    path = f"{os.environ['PATH']}:/usr/sbin:/sbin"
    return [name for name in names if not shutil.which(name, path=path)]
