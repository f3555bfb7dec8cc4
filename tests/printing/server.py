"""A cupsd and printers of ippeveprinter on loopback, in a folder of their own, each started and stopped here."""

from __future__ import annotations

import collections
import contextlib
import csv
import io
import os
import pwd
import re
import shutil
import signal
import socket
import subprocess
import time
from typing import Callable, Iterator, NamedTuple, Sequence, TypeVar

HERE = os.path.dirname(os.path.abspath(__file__))
TOP = os.path.dirname(os.path.dirname(HERE))
# The end of each wait for an event, in seconds: no machine is so loaded.
PATIENCE = 900
SERVER_BIN = "/usr/lib/cups"
FILES = """ServerRoot {folder}/etc
RequestRoot {folder}/jobs
CacheDir {folder}/cache
StateDir {folder}/state
TempDir {folder}/temporary
ServerBin {folder}/bin
AccessLog {folder}/log/access
ErrorLog {folder}/log/error
PageLog {folder}/log/page
User {user}
Group {group}
SystemGroup root
FileDevice No
SetEnv FAXPAGES_MODULE {folder}/module
SetEnv FAXPAGES_LIBRARY {folder}/module/libfaxpages.so.1
SetEnv FAXPAGES_SECONDS {patience}
"""
SETTINGS = """LogLevel debug
MaxLogSize 0
Listen 127.0.0.1:{port}
Browsing Off
WebInterface No
DefaultAuthType None
PreserveJobFiles Yes
MaxJobs 1000
DirtyCleanInterval 0
JobKillDelay 60
ErrorPolicy abort-job
<Location />
Order allow,deny
Allow all
</Location>
<Policy default>
JobPrivateAccess all
JobPrivateValues none
SubscriptionPrivateAccess all
SubscriptionPrivateValues none
<Limit All>
Order deny,allow
</Limit>
</Policy>
<Policy numbers>
JobPrivateValues default FaxNumber
<Limit All>
Order deny,allow
</Limit>
</Policy>
"""
# What a server says of a job: its state in words, its message, and the name that no other has.
class Told(NamedTuple):
    """What is told of a job: its state, its message, and its uuid."""

    state: str
    message: str
    uuid: str
BUS = """<busconfig><type>session</type><listen>{address}</listen><policy context="default">
<allow send_destination="*" eavesdrop="true"/><allow eavesdrop="true"/><allow own="*"/></policy></busconfig>
"""


Found = TypeVar("Found")


def free_port() -> int:
    with socket.socket() as at:
        at.bind(("127.0.0.1", 0))
        return int(at.getsockname()[1])


def wait_for(what: Callable[[], Found | None], seconds: int = PATIENCE, step: float = 0.05) -> Found:
    """Waits until this is true, and tells what it was."""
    end = time.monotonic() + seconds
    while True:
        found = what()
        if found:
            return found
        if time.monotonic() > end:
            raise TimeoutError(f"waited for {getattr(what, '__name__', what)}")
        time.sleep(step)


def answers(port: int) -> bool:
    with socket.socket() as at:
        at.settimeout(1)
        return at.connect_ex(("127.0.0.1", port)) == 0


class Server:
    """cupsd, run by hand, whose filters and backends are links to those that are installed and to ours."""

    def __init__(self, folder: str, program: str, library: str, scripts: Sequence[str] = ()) -> None:
        self.folder, self.port, self.user = folder, free_port(), pwd.getpwnam("lp")
        for name in ("etc", "jobs", "cache", "state", "temporary", "log", "module", "bin/filter", "bin/backend"):
            os.makedirs(f"{folder}/{name}")
        os.chmod(folder, 0o755)
        for name in ("jobs", "cache", "state", "temporary", "log"):
            os.chown(f"{folder}/{name}", 0, self.user.pw_gid)
            os.chmod(f"{folder}/{name}", 0o775)
        self._link_programs(program, scripts)
        self._copy_module(library)
        group = "lp"
        self._write("etc/cups-files.conf", FILES.format(folder=folder, user="lp", group=group, patience=PATIENCE))
        self._write("etc/cupsd.conf", SETTINGS.format(port=self.port))
        self._daemon: subprocess.Popen[bytes] | None = None
        self.environment = {**os.environ, "CUPS_SERVER": f"127.0.0.1:{self.port}", "HOME": folder, "LC_ALL": "C.UTF-8"}

    def _link_programs(self, program: str, scripts: Sequence[str]) -> None:
        for kind in ("filter", "backend", "daemon", "driver", "cgi-bin", "notifier", "monitor"):
            os.makedirs(f"{self.folder}/bin/{kind}", exist_ok=True)
            installed = f"{SERVER_BIN}/{kind}"
            for name in os.listdir(installed) if os.path.isdir(installed) else ():
                os.symlink(f"{installed}/{name}", f"{self.folder}/bin/{kind}/{name}")
        # Where this folder is, other users may not look, so what they run is copied.
        self.put("filter/faxtopdf", f"{TOP}/cups/faxtopdf")
        self.put("backend/faxpages", f"{TOP}/cups/faxpages")
        self.put("filter/faxpages", program)
        for name in ("faxpages-from-pdf", "faxpages-shared.sh", *scripts):
            self.put(f"filter/{name}", f"{TOP}/recipes/{name}")
        for name in ("faxpages.types", "faxpages.convs"):
            shutil.copy(f"{TOP}/cups/{name}", f"{self.folder}/etc")

    def put(self, name: str, path: str) -> None:
        """Copies a program to a name below ServerBin, in place of what is there."""
        place = f"{self.folder}/bin/{name}"
        if os.path.lexists(place):
            os.remove(place)
        shutil.copyfile(path, place)
        os.chmod(place, 0o755)

    def _copy_module(self, library: str) -> None:
        for name in ("python/faxpages", "cups/faxpages_cups"):
            shutil.copytree(f"{TOP}/{name}", f"{self.folder}/module/{os.path.basename(name)}",
                            ignore=shutil.ignore_patterns("__pycache__"))  # fmt: skip
        shutil.copy(library, f"{self.folder}/module/libfaxpages.so.1")

    def _write(self, name: str, text: str) -> None:
        with open(f"{self.folder}/{name}", "w") as file:
            file.write(text)

    def start(self) -> None:
        with open(f"{self.folder}/log/said", "ab") as said:
            self._daemon = daemon = subprocess.Popen(
                ["/usr/sbin/cupsd", "-f", "-c", f"{self.folder}/etc/cupsd.conf", "-s",
                 f"{self.folder}/etc/cups-files.conf"],
                stdin=subprocess.DEVNULL, stdout=said, stderr=said)  # fmt: skip
        wait_for(lambda: answers(self.port) or daemon.poll() is not None)
        if daemon.poll() is not None:
            raise OSError(f"cupsd ended: {self.get('log/said')[-500:]!r}")

    def state(self) -> str:
        """Whether the daemon is there and answers, its queues, and what it said last."""
        ended = self._daemon.poll() if self._daemon else "stopped"
        said = self.get("log/error").decode(errors="replace").splitlines()[-5:]
        return f"ended {ended}, answers {answers(self.port)}, {self.call('lpstat', '-e')[:2]}, {said}"

    def stop(self, number: signal.Signals = signal.SIGTERM) -> None:
        if self._daemon:
            self._daemon.send_signal(number)
            self._daemon.wait(PATIENCE)
            self._daemon = None

    @contextlib.contextmanager
    def stopped(self) -> Iterator[None]:
        """cupsd does nothing meanwhile."""
        assert self._daemon is not None
        self._daemon.send_signal(signal.SIGSTOP)
        try:
            yield
        finally:
            self._daemon.send_signal(signal.SIGCONT)

    def get(self, name: str) -> bytes:
        with open(f"{self.folder}/{name}", "rb") as file:
            return file.read()

    def call(self, *words: str) -> tuple[int, str, str]:
        """Runs a client of CUPS: its status, its output and what it says."""
        ran = subprocess.run(words, env=self.environment, cwd=self.folder, timeout=PATIENCE, capture_output=True,
                             stdin=subprocess.DEVNULL)  # fmt: skip
        return ran.returncode, ran.stdout.decode(errors="replace"), ran.stderr.decode(errors="replace")

    def do(self, *words: str) -> str:
        """The same, where it must go well."""
        status, output, said = self.call(*words)
        if status:
            raise OSError(f"{words}: {said}")
        return output

    def jobs(self, uri: str | None = None) -> dict[int, Told]:
        """All jobs of a server, by their numbers: the state, and what it says."""
        told = self.call("ipptool", "-c", uri or f"ipp://127.0.0.1:{self.port}/", f"{HERE}/jobs.test")[1]
        rows = list(csv.reader(io.StringIO(told)))[1:]
        return {int(number): Told(state, message, uuid.split(":")[-1]) for number, state, message, uuid in rows}

    def said(self) -> list[list[str]]:
        """What each job has said, as the log has it."""
        found: dict[str, list[str]] = collections.defaultdict(list)
        log = self.get("log/error").decode(errors="replace")
        for job, line in re.findall(r"^[A-Z] \[[^]]*\] \[Job (\d+)\] (.*)$", log, re.MULTILINE):
            found[job].append(line)
        return list(found.values())

    def ended(self, *numbers: int) -> list[Told]:
        """What came of jobs, when all have ended."""

        def all_ended() -> list[Told] | None:
            jobs = self.jobs()
            found = [jobs[number] for number in numbers]
            return found if all(it.state not in ("pending", "processing") for it in found) else None

        return wait_for(all_ended, step=0.2)

    def print(self, queue: str, *words: str) -> int:
        """Prints by lp, and tells the number of the job."""
        return int(self.do("lp", "-d", queue, *words).split(f"{queue}-")[1].split()[0])


class Bus:
    """A bus of D-Bus: ippeveprinter does not start without one on which Avahi could be, though it is told to announce
    nothing."""

    def __init__(self, folder: str) -> None:
        self.address = f"unix:path={folder}/bus"
        with open(f"{folder}/bus.conf", "w") as file:
            file.write(BUS.format(address=self.address))
        self._daemon = subprocess.Popen(
            ["dbus-daemon", f"--config-file={folder}/bus.conf", "--nofork", "--nopidfile"],
            stdin=subprocess.DEVNULL, stdout=subprocess.DEVNULL, stderr=subprocess.DEVNULL)  # fmt: skip
        wait_for(lambda: os.path.exists(f"{folder}/bus"))

    def stop(self) -> None:
        self._daemon.terminate()
        self._daemon.wait(PATIENCE)


class Printer:
    """A printer of ippeveprinter, which keeps what it receives in a folder."""

    def __init__(self, folder: str, name: str, bus: Bus, formats: str = "application/pdf") -> None:
        self.folder, self.name, self.port = f"{folder}/{name}", name, free_port()
        os.makedirs(self.folder)
        with open(f"{folder}/{name}.said", "wb") as said:
            self._daemon = subprocess.Popen(
                ["ippeveprinter", "-p", str(self.port), "-n", "localhost", "-k", "-d", self.folder, "-f", formats, "-r",
                 "off", "-c", "/bin/true", "-vv", name],
                env={**os.environ, "DBUS_SYSTEM_BUS_ADDRESS": bus.address}, stdin=subprocess.DEVNULL, stdout=said,
                stderr=said)  # fmt: skip
        wait_for(lambda: answers(self.port) or self._daemon.poll() is not None)
        if self._daemon.poll() is not None:
            raise OSError(f"ippeveprinter ended: {open(f'{folder}/{name}.said').read()[-500:]}")

    @property
    def uri(self) -> str:
        return f"ipp://localhost:{self.port}/ipp/print"

    def received(self) -> list[str]:
        """The documents, in the order of jobs."""
        names = [it for it in os.listdir(self.folder) if it.endswith((".pdf", ".pwg"))]
        return [f"{self.folder}/{it}" for it in sorted(names, key=lambda it: int(it.split("-")[0]))]

    def stop(self) -> None:
        self._daemon.terminate()
        self._daemon.wait(PATIENCE)
