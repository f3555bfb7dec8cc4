"""Calls over a line: who sends, who receives, and how noisy the line is; each with processes of its own, which are ended
by their ids."""

from __future__ import annotations

import os
import pathlib
import shutil
import subprocess
import time
from typing import Callable, List, NamedTuple, Optional

HERE = os.path.dirname(os.path.abspath(__file__))
EFAX, HYLAFAX, SPANDSP = "efax", "HylaFAX", "spandsp"
SPOOL = "/var/spool/hylafax"
FOLDERS = ["archive", "bin", "client", "config", "dev", "docq", "doneq", "etc", "info", "log", "pollq", "recvq", "sendq",
           "status", "tmp"]
# The end of each wait, in seconds; a call takes 25 to 40.
PATIENCE = 120
# How HylaFAX is set up. With 0 good and consecutive bad rows it keeps a page as it came in, whatever its rows; with 95 and 5,
# as it comes, it puts rows in place of bad ones.
SETTINGS = """CountryCode: 1
AreaCode: 1
FAXNumber: +1.1.1
LocalIdentifier: "faxpages"
SessionTracing: 0x0fff
RecvFileMode: 0644
LogFileMode: 0644
DeviceMode: 0666
RingsBeforeAnswer: 1
SpeakerVolume: off
UUCPLockDir: "{spool}/dev"
ModemType: Class1
ModemRate: 38400
ModemFlowControl: xonxoff
ModemNoFlowCmd: ""
ModemSetupDTRCmd: ""
ModemSetupDCDCmd: ""
ModemResetCmds: ""
ModemDTRDropDelay: 0
Class1Cmd: AT+FCLASS=1
Class1ECMSupport: no
Class1TCFRecvHack: no
PercentGoodLines: {good}
MaxConsecutiveBadLines: {bad}
"""


class Noise(NamedTuple):
    """White noise of so many dB below full scale, or 0 for none, and hits a minute."""

    white: int
    hits: int


class Call(NamedTuple):
    """A call: its name, the two programs, its noise, its seed, and whether its receiver mends a page: spandsp always does."""

    sender: str
    receiver: str
    noise: Noise
    seed: int
    mends: bool = False

    @property
    def name(self) -> str:
        line = f"noise {self.noise.white} dB, {self.noise.hits} hits a minute" if any(self.noise) else "a clean line"
        return f"{self.sender} to {self.receiver}{' that mends' if self.mends else ''} over {line}"

    def needs_hylafax(self) -> bool:
        return HYLAFAX in (self.sender, self.receiver)


class Room:
    """The folder of a call, and its processes."""

    def __init__(self, folder: pathlib.Path, call: Call, page: bytes) -> None:
        folder.mkdir(parents=True)
        self.folder, self.call = folder, call
        self.processes: List[subprocess.Popen[bytes]] = []
        (folder / "page.tif").write_bytes(page)

    def start(self, name: str, words: List[str]) -> subprocess.Popen[bytes]:
        with open(self.folder / f"{name}.log", "wb") as log:
            done = subprocess.Popen(words, stdin=subprocess.DEVNULL, stdout=log, stderr=log, cwd=self.folder)
        self.processes.append(done)
        return done

    def close(self) -> None:
        for process in reversed(self.processes):
            if process.poll() is None:
                process.terminate()
        for process in self.processes:
            try:
                process.wait(10)
            except subprocess.TimeoutExpired:
                process.kill()
                process.wait()

    def terminal(self, side: str) -> str:
        return str(self.folder / side)


def waited(holds: Callable[[], bool], process: subprocess.Popen[bytes]) -> bool:
    """Whether something comes to hold while the line is there."""
    end = time.monotonic() + PATIENCE
    while time.monotonic() < end:
        if holds():
            return True
        if process.poll() is not None:
            return holds()
        time.sleep(0.2)
    return False


def start_line(room: Room, program: str) -> subprocess.Popen[bytes]:
    """The line, with an end for each program."""
    call = room.call
    sender = "send:page.tif" if call.sender == SPANDSP else "modem:sender"
    receiver = "receive:received.tif" if call.receiver == SPANDSP else "modem:receiver"
    words = [program, sender, receiver, str(call.seed), str(call.noise.white), str(call.noise.hits), "13", "19"]
    line = room.start("line", words)
    ends = [side for side, end in (("sender", sender), ("receiver", receiver)) if end.startswith("modem:")]
    waited(lambda: all(os.path.islink(room.terminal(side)) for side in ends), line)
    return line


def start_hylafax(room: Room) -> None:
    """A faxgetty at the receiver's end, with its own spool in a mount namespace of its own. Its `faxrcvd` only says that
    the fax is there."""
    spool = room.folder / "spool"
    for name in FOLDERS:
        (spool / name).mkdir(parents=True)
    (spool / "dev" / "line").symlink_to(os.readlink(room.terminal("receiver")))
    config = "config." + f"{SPOOL}/dev/line".replace("/", "_")
    (spool / "etc" / config).write_text(SETTINGS.format(spool=SPOOL, good=95 if room.call.mends else 0, bad=5 if room.call.mends else 0))
    hook = spool / "bin" / "faxrcvd"
    hook.write_text('#!/bin/sh\nprintf "%s\\n" "$1" >>received\n')
    hook.chmod(0o755)
    for path in [spool, *spool.rglob("*")]:
        if not path.is_symlink():
            shutil.chown(path, "uucp", "uucp")
    mount = f'mount --bind "$1" {SPOOL} && PATH=$PATH:/usr/sbin exec faxgetty {SPOOL}/dev/line'
    room.start("hylafax", ["unshare", "-m", "--propagation", "private", "sh", "-c", mount, "-", str(spool)])
    time.sleep(6)


def start_receiver(room: Room) -> None:
    if room.call.receiver == HYLAFAX:
        start_hylafax(room)
    elif room.call.receiver == EFAX:
        words = ["efax", "-d", room.terminal("receiver"), "-v", "ewin", "-o1", "-q", "100000", "-iS0=1", "-w", "-r", "received"]
        room.start("receiver", words)
        time.sleep(2)


def received_file(room: Room) -> Optional[pathlib.Path]:
    """The file that was received, where it is whole."""
    if room.call.receiver == HYLAFAX:
        told = room.folder / "spool" / "received"
        return room.folder / "spool" / told.read_text().split()[0] if told.exists() else None
    path = room.folder / ("received.001" if room.call.receiver == EFAX else "received.tif")
    return path if path.exists() else None


def made(folder: pathlib.Path, call: Call, program: str, page: bytes) -> Optional[bytes]:
    """Makes a call, and answers the file that was received, if one was."""
    room = Room(folder, call, page)
    try:
        line = start_line(room, program)
        start_receiver(room)
        if call.sender == EFAX:
            words = ["efax", "-d", room.terminal("sender"), "-v", "ewin", "-o1", "-h", "", "-t", "T12345", "page.tif"]
            sender = room.start("sender", words)
            waited(lambda: sender.poll() is not None, line)
        if call.receiver == HYLAFAX:
            waited(lambda: received_file(room) is not None, line)
        else:
            waited(lambda: line.poll() is not None, line)
        path = received_file(room)
        return path.read_bytes() if path else None
    finally:
        room.close()


def build_line(folder: pathlib.Path) -> str:
    """The program of the line, built."""
    program = str(folder / "line")
    words = ["cc", "-O2", "-Wall", "-Wextra", "-Werror", "-o", program, os.path.join(HERE, "line.c")]
    subprocess.run([*words, "-lspandsp", "-ltiff", "-lm", "-lutil"], check=True)
    return program
