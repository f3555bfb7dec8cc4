"""A drawn operator: jobs that are printed to Fax, cancelled, and begun again after their backend, or cupsd itself, was
killed, while somebody takes faxes out of the folder and the disk is full now and then. Beside a plain model: each job
that is not cancelled is handed on once and whole; one that is cancelled, once or not at all. And jobs that are
printed, whose filter is killed or which are cancelled: the printer has all of them or nothing. SEED in the environment
draws another."""

from __future__ import annotations

import contextlib
import os
import random
import re
import signal
import subprocess
import sys
import time
from typing import Iterator

from tests.printing import made, server
from tests.printing.faxed import told_of
from tests.printing.room import Room
from tests.printing.strangers import by_hand, new_identity

JOBS, PRINTED = int(os.environ.get("JOBS", "24")), 8
# How often lp is asked where it reaches no cupsd.
TRIES = 5


def enumerated(room: Room, folder: str) -> None:
    """The folder, with a failure at each call of the system in turn."""
    module = f"{room.server.folder}/module"
    more = {"PYTHONPATH": module, "FAXPAGES_LIBRARY": f"{module}/libfaxpages.so.1"}
    status, out, said = room.run(sys.executable, "-B", f"{server.HERE}/killed.py", folder, env={**os.environ, **more})
    lines = out.decode().splitlines()
    room.claim(f"a failure at each call: {lines[:5]} {said[-300:]}", (status, len(lines)), (0, 1))
    tried = re.fullmatch(r"tried (\d+), in doubt (\d+), failed 0", lines[-1] if lines else "")
    room.claim("many calls, few in doubt", tried is not None and int(tried.group(1)) == 480 and 0 < int(tried.group(2)) < 24)


class Operator:
    """Acts on the queue as drawn, and keeps what is wanted of each number."""

    def __init__(self, room: Room, seed: str, folder: str) -> None:
        self.room, self.server, self.rng, self.folder = room, room.server, random.Random(seed), folder
        self.taken: list[str] = []
        self.cancelled: set[str] = set()
        self.numbers: dict[str, int] = {}
        self.pages: dict[str, int] = {}
        self.pdf, self.one = made.pdf(room.made(""), "drawn-4.pdf", 4), made.pdf(room.made(""), "drawn-1.pdf", 1, 5)
        room.fax_queue("Drawn", folder, "?title")
        self.server.do("lpadmin", "-p", "Drawn", "-o", "printer-error-policy=retry-current-job")

    def print(self) -> int:
        """Prints one document or several; now and then with the uuid of another job."""
        number = str(1000 + len(self.numbers))
        documents = self.rng.choice([[self.pdf], [self.pdf], [self.pdf, self.one], [self.one, self.pdf, self.one]])
        self.pages[number] = sum(4 if it == self.pdf else 1 for it in documents)
        more: list[str] = []
        if self.numbers and self.rng.random() < 0.2:
            with contextlib.suppress(KeyError):
                other = self.server.jobs()[self.rng.choice(list(self.numbers.values()))]
                more = ["-o", f"job-uuid=urn:uuid:{other.uuid}"]
        self.numbers[number] = self.printed("-t", f"drawn fax:{number}", *more, *documents)
        return self.numbers[number]

    def printed(self, *words: str) -> int:
        """Prints by lp. Where lp reaches no cupsd, as one that has just been started on a machine with much to do, it
        says that there is no queue, and has made no job: then it is asked again, and that is said."""
        for _ in range(TRIES):
            try:
                return self.server.print("Drawn", *words)
            except OSError as error:
                if "The printer or class does not exist" not in str(error):
                    raise
                print(f"operated: again: {error}; cupsd {self.server.state()}", flush=True)
                time.sleep(1)
        raise OSError("lp reaches no cupsd")

    def pause(self) -> None:
        time.sleep(self.rng.choice([0, 0.02, 0.1, 0.2, 0.3, 0.4, 0.5, 0.7]))

    def kill(self) -> None:
        """Kills one of the processes of a job: a filter, the one that watches the backend, the one that works, or one
        that draws. If the one that watches is gone, none more of this job is killed: CUPS has it as done."""
        found = list(processes(b"DEVICE_URI=faxpages:" + self.folder.encode()))
        if found and all(parent_of(it) != 1 for it in found):
            with contextlib.suppress(ProcessLookupError):
                os.kill(self.rng.choice(found), signal.SIGKILL)

    def cancel(self) -> None:
        number, job = self.rng.choice(list(self.numbers.items()))
        if self.server.call("cancel", str(job))[0] == 0:
            self.cancelled.add(number)

    def restart(self) -> None:
        """Kills cupsd, and starts it again; a backend that it has started may go on."""
        self.server.do("lpstat", "-r")
        self.server.stop(signal.SIGKILL)
        self.server.start()

    def take(self) -> None:
        """Takes what is there, as who sends it does: by the job file, which is gone then."""
        for name in sorted(os.listdir(self.folder)):
            if name.endswith(".job") and self.rng.random() < 0.7:
                told = told_of(f"{self.folder}/{name}")
                fax = f"{self.folder}/{told['fax']}"
                report = self.room.run(self.room.program, "check", fax)
                is_whole = report[0] == 0 and report[1].startswith(b"pages %d " % self.pages[told["number"]])
                self.room.claim(f"drawn {told['number']}: whole: {report}", is_whole)
                os.remove(f"{self.folder}/{name}")
                os.remove(fax)
                self.taken.append(told["number"])

    def settle(self) -> None:
        """Waits until all jobs have ended, and looks at those that are in doubt, as their message says."""
        end = time.monotonic() + server.PATIENCE
        while time.monotonic() < end:
            jobs = self.server.jobs()
            left = {number: jobs[job] for number, job in self.numbers.items()
                    if jobs[job].state not in ("completed", "canceled", "aborted")}  # fmt: skip
            if not left:
                return
            # Where nobody takes faxes, the disk is full by and by.
            self.take()
            for number, told in left.items():
                if told.state in ("pending-held", "processing-stopped"):
                    self.release(number, told)
            time.sleep(0.2)
        raise TimeoutError(f"jobs do not end: {left}")

    def release(self, number: str, told: server.Told) -> None:
        """Releases a job that is held; one in doubt is cancelled if the fax is there, or was taken."""
        doubt = re.search(r"delete (\S+) and release", told.message)
        seen = number in self.taken or any(
            told_of(f"{self.folder}/{it}")["number"] == number for it in os.listdir(self.folder) if it.endswith(".job"))
        if doubt and seen:
            self.server.call("cancel", str(self.numbers[number]))
            return
        if doubt:
            with contextlib.suppress(FileNotFoundError):
                os.remove(doubt.group(1))
        self.server.call("lp", "-i", f"Drawn-{self.numbers[number]}", "-H", "resume")

    def full(self) -> None:
        """A job while the disk is full: it is held, and goes on when there is room."""
        fill(self.folder)
        job = self.print()
        (told,) = self.server.ended(job)
        is_held = told.state == "pending-held" and "No space left" in told.message
        self.room.claim(f"a full disk: {told}", is_held)
        names = [it for it in os.listdir(self.folder) if it.endswith((".tif", ".job"))]
        whole = [it for it in names if it.endswith(".tif") and self.room.run(
            self.room.program, "check", f"{self.folder}/{it}")[0]]  # fmt: skip
        self.room.claim("a full disk: nothing half written", whole, [])
        os.remove(f"{self.folder}/filler")


def fill(folder: str) -> None:
    """Leaves no room on the disk of a folder. What a file kept to be written would have no room when it is closed."""
    with open(f"{folder}/filler", "wb", buffering=0) as file, contextlib.suppress(OSError):
        while True:
            file.write(b"x" * 65536)


def parent_of(process: int) -> int | None:
    """The number of the process that started this one, as long as it is there."""
    with contextlib.suppress(OSError, IndexError):
        with open(f"/proc/{process}/stat") as file:
            return int(file.read().rpartition(")")[2].split()[1])
    return None


def is_kept(room: Room, folder: str, job: int) -> bool:
    """Whether a job's documents are kept in the folder, whole."""
    kept = [it for it in os.listdir(f"{folder}/.faxpages") if it.startswith(f"{job}-") and it.endswith(".pdf")]
    return bool(kept) and all(room.run("pdfinfo", f"{folder}/.faxpages/{it}")[0] == 0 for it in kept)


def processes(told: bytes) -> Iterator[int]:
    """The processes that have this in their environment."""
    for name in os.listdir("/proc"):
        with contextlib.suppress(OSError, ValueError):
            with open(f"/proc/{int(name)}/environ", "rb") as file:
                if told in file.read().split(b"\0"):
                    yield int(name)


def full_temporary_folder(room: Room, folder: str) -> None:
    """A filter or a backend whose temporary files have no room: all of a PDF comes or nothing, and the job is held.
    Python takes another folder for temporary files, if there is one."""
    fax = room.made("gs-tiffg4-196-3.tif")
    if not os.path.exists(fax):
        made.others(room.made(""))
    pdf = made.pdf(room.made(""), "drawn-4.pdf", 4)
    fill(folder)
    status, out, said = by_hand(room, False, "", fax, {"TMPDIR": folder})
    is_whole = status == 0 and out.endswith(b"%%EOF\n")
    room.claim(f"no room for the filter: {said}", is_whole or (status, out) == (1, b""))
    status, _, said = by_hand(room, True, new_identity(room)[0], pdf, {"TMPDIR": folder})
    is_right = status == 0 or (status == 3 and ("room for temporary files?" in said or "No space left" in said))
    room.claim(f"no room for the backend: {status}, {said}", is_right)
    os.remove(f"{folder}/filler")
    left = [it for it in os.listdir(folder) if it != ".faxpages"]
    room.claim("no temporary file is left", left, [])


def drawn(room: Room, folder: str, is_small: bool) -> None:
    """The operator's jobs, and what is there at the end."""
    seed = os.environ.get("SEED", "20261127")
    operator = Operator(room, seed, folder)
    actions = [operator.kill, operator.kill, operator.cancel, operator.take, operator.restart]
    for number in range(JOBS):
        operator.print()
        operator.pause()
        if is_small and number in (5, 12):
            operator.settle()
            operator.full()
        else:
            operator.rng.choice(actions)()
    operator.settle()
    while any(name.endswith(".job") for name in os.listdir(folder)):
        operator.take()
    counts = {number: operator.taken.count(number) for number in operator.numbers}
    jobs = operator.server.jobs()
    absent = [operator.numbers[number] for number, count in counts.items()
              if count == 0 and number not in operator.cancelled]  # fmt: skip
    # Where all processes of a job were killed CUPS takes it as done: then the folder keeps what was to be faxed.
    lost = [it for it in absent if jobs[it].state != "completed" or not is_kept(room, folder, it)]
    room.claim(f"seed {seed}: nothing is lost", lost, [])
    room.claim(f"seed {seed}: nothing twice", [number for number, count in counts.items() if count > 1], [])
    left = [name for name in os.listdir(folder) if name != ".faxpages"]
    room.claim(f"seed {seed}: nothing half handed on", left, [])


def printed(room: Room) -> None:
    """Jobs on their way to a printer, of which the filter is killed, or which are cancelled."""
    rng = random.Random(7)
    source = room.made("long-one.tif")
    made.sheets(room.made(""), "long-one.ps", 60)
    made.run(room.made(""), "gs", "-q", "-dNOPAUSE", "-dBATCH", "-sDEVICE=tiffg4", "-r204x196", "-o", "long-one.tif",
             "long-one.ps")  # fmt: skip
    jobs = []
    for number in range(PRINTED):
        jobs.append(room.server.print(f"printer{number % len(room.printers)}", "-t", f"killed_{number}", source))
        time.sleep(rng.choice([0.05, 0.15, 0.3, 0.5]))
        if number % 4 == 3:
            room.server.call("cancel", str(jobs[-1]))
            continue
        found = [it for it in processes(b"CONTENT_TYPE=image/x-tiff-f") if is_of_filter(it, f"killed_{number}")]
        if found:
            with contextlib.suppress(ProcessLookupError):
                os.kill(rng.choice(found), signal.SIGKILL)
    states = [it.state for it in room.server.ended(*jobs)]
    pages = room.pages(source)
    for printer in room.printers:
        for path in printer.received():
            if "-killed_" not in path:
                continue
            with open(path, "rb") as file:
                is_cut = b"%%EOF" not in file.read()[-1024:]
            # What CUPS was sending to a printer when the job was cancelled is cut short.
            number = int(path.rpartition("_")[2].partition(".")[0])
            is_right = number % 4 == 3 if is_cut else room.images(path) == pages
            room.claim(f"{os.path.basename(path)} is whole", is_right)
    room.claim(f"killed: {states}", set(states) <= {"completed", "canceled", "processing-stopped", "aborted"})


def is_of_filter(process: int, title: str) -> bool:
    """Whether a process is the filter's, for a job with this title."""
    with contextlib.suppress(OSError):
        with open(f"/proc/{process}/cmdline", "rb") as file:
            told = file.read()
            return title.encode() in told and (b"/filter/faxtopdf" in told or b"faxpages_cups._pdf" in told)
    return False


def small_disk(room: Room) -> tuple[str, bool]:
    """A folder on a disk of its own, with little room, where one can be mounted."""
    folder = room.new_spool("small")
    mount = ["mount", "-t", "tmpfs", "-o", "size=1m,mode=2770", "none", folder]
    able = "OWN_MOUNTS" in os.environ and room.run(*mount)[0] == 0
    if able:
        os.chown(folder, room.server.user.pw_uid, room.server.user.pw_gid)
    else:
        print("SKIPPED: nothing can be mounted here, so: no fax meets a full disk")
    return folder, able


def play(room: Room) -> None:
    folder, is_small = small_disk(room)
    try:
        enumerated(room, folder)
        for name in [*os.listdir(folder), *(f".faxpages/{it}" for it in os.listdir(f"{folder}/.faxpages"))]:
            if name != ".faxpages":
                os.remove(f"{folder}/{name}")
        os.chown(f"{folder}/.faxpages", room.server.user.pw_uid, room.server.user.pw_gid)
        if is_small:
            full_temporary_folder(room, folder)
        drawn(room, folder, is_small)
        printed(room)
    finally:
        if is_small:
            subprocess.run(["umount", "-l", folder], check=False)
