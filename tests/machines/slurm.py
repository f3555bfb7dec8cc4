"""The recipe for Slurm under a real slurmctld and slurmd of this machine, on loopback ports, with a munged, settings
and folders of their own. Each call of sbatch has a folder of its own."""

from __future__ import annotations

import contextlib
import csv
import getpass
import io
import os
import shutil
import signal
import socket
import sqlite3
import subprocess
from typing import Iterator

from tests import Claim
from tests.archive.breaking import broken_module
from tests.convert import files
from tests.recipes.archive import COMMAND
from tests.recipes.recipes import ROOT, recipes
from tests.waiting import PATIENCE, there_in, wait_for

TOOLS = ["sbatch", "squeue", "scancel", "sinfo"]
SERVERS = ["munged", "slurmctld", "slurmd"]
# A cluster that is not up after so many seconds is none.
UP = 300
FAXES = 400
# With how many faxes begun by all tasks they wait, so that they are ended in the middle.
BEGUN = 300
SETTINGS = """ClusterName=faxpages
SlurmctldHost={host}(127.0.0.1)
SlurmUser={user}
SlurmdUser={user}
AuthType=auth/munge
AuthInfo=socket={room}/munge
CredType=cred/munge
CommunicationParameters=NoCtldInAddrAny,NoInAddrAny
SlurmctldPort={control}
SlurmdPort={node}
SlurmctldPidFile={room}/slurmctld.pid
SlurmdPidFile={room}/slurmd.pid
StateSaveLocation={room}/state
SlurmdSpoolDir={room}/spool
SlurmctldLogFile={room}/slurmctld.log
SlurmdLogFile={room}/slurmd.log
ProctrackType=proctrack/linuxproc
TaskPlugin=task/none
SwitchType=switch/none
MpiDefault=none
SelectType=select/cons_tres
SelectTypeParameters=CR_CPU
SchedulerParameters=sched_interval=1,batch_sched_delay=0
JobAcctGatherType=jobacct_gather/none
AccountingStorageType=accounting_storage/none
ReturnToService=2
MessageTimeout=100
BatchStartTimeout=600
SlurmdParameters=config_overrides
NodeName={host} NodeAddr=127.0.0.1 CPUs={processors}
PartitionName=all Nodes=ALL Default=YES MaxTime=INFINITE State=UP
"""
HEADING = "A Slurm array"


def found(name: str) -> str | None:
    """Where a server is."""
    return shutil.which(name, path="/usr/sbin:/usr/local/sbin:" + os.environ["PATH"])


def library_beside(program: str) -> str:
    return os.path.join(os.path.dirname(os.path.realpath(program)), "libfaxpages.so.1")


def lacking(program: str) -> str:
    """Why nothing can be tested, or nothing."""
    names = [name for name in TOOLS if not shutil.which(name)] + [name for name in SERVERS if not found(name)]
    if names:
        return f"{', '.join(names)} missing (slurm-wlm, munge)"
    return "" if os.path.exists(library_beside(program)) else "no library beside the program"


class Cluster:
    """A cluster of one machine, which runs as long as this is used by `with`."""

    def __init__(self, path: str, program: str, processors: int = 16) -> None:
        self.path, self.program = path, program
        self.servers: list[subprocess.Popen[bytes]] = []
        for name in ("bin", "state", "spool"):
            os.makedirs(f"{path}/{name}")
        os.symlink(program, f"{path}/bin/faxpages")
        with open(f"{path}/bin/faxpages-archive", "w") as command:
            command.write(COMMAND.format(library=library_beside(program), root=ROOT).replace(
                "PYTHONPATH=", 'PYTHONPATH="${BROKEN_PATH:+$BROKEN_PATH:}"'))  # fmt: skip
        os.chmod(f"{path}/bin/faxpages-archive", 0o755)
        with open(f"{path}/slurm.conf", "w") as settings:
            settings.write(SETTINGS.format(room=path, user=getpass.getuser(), host=socket.gethostname().split(".")[0],
                                           control=free_port(), node=free_port(), processors=processors))  # fmt: skip
        self.told = {name: value for name, value in os.environ.items() if not name.startswith(("SLURM", "SBATCH"))}
        self.told.update(PATH=f"{path}/bin:{os.environ['PATH']}", SLURM_CONF=f"{path}/slurm.conf", LC_ALL="C")

    def __enter__(self) -> Cluster:
        with open(f"{self.path}/key", "wb") as key:
            key.write(os.urandom(128))
        os.chmod(f"{self.path}/key", 0o400)
        at = self.path
        munged = [f"--socket={at}/munge", f"--key-file={at}/key", f"--pid-file={at}/munge.pid",
                  f"--log-file={at}/munge.log", f"--seed-file={at}/munge.seed"]  # fmt: skip
        words = {"munged": ["--force", "--foreground", *munged], "slurmctld": ["-D", "-c"], "slurmd": ["-D"]}
        try:
            for name in SERVERS:
                self.start([found(name) or name, *words[name]], f"{at}/{name}.said")
                if name == "munged":
                    wait_for(lambda: os.path.exists(f"{at}/munge") or self.servers[0].poll() is not None)
        except OSError:
            self.__exit__()
            raise
        return self

    def start(self, words: list[str], name: str) -> None:
        """Starts a server, whose words go to a file."""
        with open(name, "w") as said:
            self.servers.append(subprocess.Popen(words, env=self.told, stdin=subprocess.DEVNULL, stdout=said,
                                                 stderr=said, cwd="/"))  # fmt: skip

    def __exit__(self, *_: None) -> None:
        if self.runs():
            subprocess.run(["scancel", "--user", getpass.getuser()], env=self.told, capture_output=True)
            wait_for(lambda: not self.runs() or not self.ask("squeue", "-h"))
        for server in reversed(self.servers):
            server.terminate()
            try:
                server.wait(60)
            except subprocess.TimeoutExpired:
                server.send_signal(signal.SIGKILL)
                server.wait()
        for process in there_in(self.path):
            with contextlib.suppress(ProcessLookupError):
                os.kill(process, signal.SIGKILL)

    def runs(self) -> bool:
        """Whether all servers run."""
        return len(self.servers) == len(SERVERS) and all(server.poll() is None for server in self.servers)

    def ask(self, *words: str) -> str:
        return subprocess.run(words, env=self.told, capture_output=True, text=True).stdout.strip()

    def is_up(self) -> bool:
        """Whether the machine is idle, once it is known to the cluster."""
        wait_for(lambda: not self.runs() or self.ask("sinfo", "-h", "-o", "%T") == "idle", UP)
        return self.runs() and self.ask("sinfo", "-h", "-o", "%T") == "idle"

    def folder(self, name: str) -> str:
        """A folder from which sbatch is called, with faxes."""
        place = f"{self.path}/{name}"
        os.makedirs(f"{place}/faxes")
        for number in range(FAXES):
            sample = ("one-mh-page.tif", "three-pages.tif")[number % 8 == 5]
            shutil.copy(f"{ROOT}/samples/{sample}", f"{place}/faxes/{number} fax.tif")
        return place

    def give(self, place: str, commands: str, **more: str) -> tuple[int, str, str]:
        """Gives commands in a folder: their status, their output and their error stream."""
        ran = subprocess.run(["bash", "-c", commands], cwd=place, env=dict(self.told, **more), stdin=subprocess.DEVNULL,
                             capture_output=True, timeout=PATIENCE)  # fmt: skip
        return ran.returncode, ran.stdout.decode(), ran.stderr.decode(errors="replace")

    def table(self, place: str) -> list[str]:
        """The lines of the table there, but for the seconds and the folder."""
        printed = self.give(place, "faxpages-archive table faxes.sqlite --csv")[1]
        rows = csv.DictReader(io.StringIO(printed))
        return [",".join(value for name, value in row.items() if name != "seconds").removeprefix(f"{place}/")
                for row in rows]


def free_port() -> int:
    with socket.socket() as asked:
        asked.bind(("127.0.0.1", 0))
        return int(asked.getsockname()[1])


def leaders_in(room: str) -> list[int]:
    """The processes there that lead workers."""
    found = []
    for process in there_in(room):
        with contextlib.suppress(OSError):
            if b"faxpages.archive" in files.get(f"/proc/{process}/cmdline"):
                found.append(process)
    return found


def compare(cluster: Cluster) -> Iterator[Claim]:
    """The recipe as it stands, and in other ranges; a list, which is none; and tasks that are ended meanwhile."""
    recipe = recipes()[HEADING]
    place = cluster.folder("whole")
    alone = cluster.give(place, "faxpages-archive check faxes --table faxes.sqlite")
    yield "Slurm: one process", (alone[0], alone[2]), (1, "")
    wanted = [line.split(",") for line in cluster.table(place)]
    for array in (None, "1-7", "0-6:2", "5"):
        place = cluster.folder(f"array-{array}".replace(":", "-"))
        status = cluster.give(place, with_array(recipe, array))[0]
        got = [line.split(",") for line in cluster.table(place)]
        # The times of the copies differ.
        yield f"Slurm: {array}: the same table", (status, without(got)), (1, without(wanted))
    place = cluster.folder("list")
    status, _, error = cluster.give(place, with_array(recipe, "1,5,7"))
    yield "Slurm: 1,5,7: refused", (status, "no part of share 1/3, 2/3" in error), (3, True)
    yield from ended(cluster, recipe, wanted)


def with_array(recipe: str, array: str | None) -> str:
    """The recipe with another array."""
    return recipe if array is None else recipe.replace("sbatch ", f"sbatch --array={array} ")


def without(rows: list[list[str]]) -> list[list[str]]:
    """Rows without the times of their files."""
    return [row[:2] + row[3:] for row in rows]


def ended(cluster: Cluster, recipe: str, wanted: list[list[str]]) -> Iterator[Claim]:
    """Tasks that scancel ends in the middle, and the recipe given again."""
    place, gate = cluster.folder("ended"), f"{cluster.path}/gate"
    files.put(gate, b"")
    broken = {"BROKEN": "stops", "GATE": gate, "AFTER": str(BEGUN),
              "BROKEN_PATH": broken_module(cluster.path)}  # fmt: skip
    given = with_array(recipe, "0-1").replace("--wait", "--parsable").partition("faxpages-archive merge")[0]
    status, job, _ = cluster.give(place, given, **broken)
    yield "Slurm: ended: given", status, 0
    wait_for(lambda: count(place) > 0 or not cluster.ask("squeue", "-h", "-j", job.strip()))
    yield "Slurm: ended: some are done", count(place) > 0, True
    cluster.ask("scancel", job.strip())
    # Workers wait until those that lead them are gone, so that nothing more is done.
    yield "Slurm: ended: it is seen", wait_for(lambda: not leaders_in(place)), True
    os.remove(gate)
    yield "Slurm: ended: they are gone", wait_for(
        lambda: not cluster.ask("squeue", "-h", "-j", job.strip()) and not there_in(place)), True
    before = count(place)
    yield "Slurm: ended: in the middle", 0 < before < FAXES, True
    status = cluster.give(place, with_array(recipe, "0-1"))[0]
    got = [line.split(",") for line in cluster.table(place)]
    yield "Slurm: ended: all is done", (status, without(got)), (1, without(wanted))
    yield "Slurm: ended: what was done is not done again", said_before(place), before


def count(place: str) -> int:
    """How many rows the tables of the tasks have."""
    found = 0
    for name in os.listdir(f"{place}/parts") if os.path.isdir(f"{place}/parts") else []:
        if name.endswith(".sqlite"):
            with contextlib.suppress(sqlite3.Error):
                with contextlib.closing(sqlite3.connect(f"file:{place}/parts/{name}?mode=ro", uri=True)) as base:
                    found += base.execute("SELECT count(*) FROM faxes").fetchone()[0]
    return found


def said_before(place: str) -> int:
    """How many faxes were done before, as the tasks sum up."""
    texts = [files.get(f"{place}/{name}").decode() for name in os.listdir(place) if name.startswith("slurm-")]
    sums = [line for text in texts for line in text.splitlines() if line.startswith("faxes ")]
    return sum(int(line.split(" done now, ")[1].split()[0]) for line in sums)


def outcomes(cluster: Cluster) -> Iterator[Claim]:
    """What came of it all, an error among it."""
    try:
        yield from compare(cluster)
    except (OSError, ValueError, IndexError, subprocess.SubprocessError) as error:
        yield "Slurm: it is tried to its end", repr(error), ""
