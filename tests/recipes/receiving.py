"""Recipes for faxes that come in, and for archives of them."""

from __future__ import annotations

import os
import re
import shlex
import shutil
import signal
import time
from typing import Iterator

from tests import Claim
from tests.recipes.room import Room, Tests
from tests.recipes.recipes import SCRIPTS
from tests.recipes.room import HOSTILE, PATIENCE, is_there

# cat, where the disk has no fax.
BAD_DISK = """#!/bin/sh
case ${1-} in
*.tif)
    echo "cat: $1: Input/output error" >&2
    exit 1
    ;;
esac
exec /bin/cat "$@"
"""
def receive(room: Room, commands: str) -> Iterator[Claim]:
    os.mkdir(room("faxes"))
    before = os.umask(0o027)
    try:
        yield from sorted_faxes(room, commands)
    finally:
        os.umask(before)


def sorted_faxes(room: Room, commands: str) -> Iterator[Claim]:
    for number, name in enumerate(["fax.tif", *HOSTILE]):
        room.others(name, number)
        data, wanted = room.get(name), room.report(name)
        ran = room.bash(commands) if name == "fax.tif" else room.call("faxpages-receive", name, f"{room('')}faxes")
        yield f"{name!r}", ran, (0, b"", "")
        got = [room.get(f"faxes/good/{it}") for it in (name, f"{name}.report")]
        yield f"{name!r}: is good", (got, os.path.exists(room(name))), ([data, wanted], False)
    yield "modes", {oct(os.stat(f"{room('faxes/good')}/{it}").st_mode) for it in room.names("faxes/good")}, {
        "0o100640"
    }
    room.cut("fax.tif")
    data, wanted = room.get("fax.tif"), room.report("fax.tif")
    yield "a fault", room.bash(commands), (1, b"", "")
    yield "a fault: is faulty", room.contents("faxes/faulty"), {"fax.tif": data, "fax.tif.report": wanted}
    before = room.contents("faxes/good")
    room.fax("fax.tif", "mh", "marks")
    status, _, said = room.bash(commands)
    yield "the name is taken", (status, "is another" in said), (3, True)
    yield "the name is taken: all stays", (room.contents("faxes/good"), room.names()), (before, ["fax.tif", "faxes"])
    room.put("fax.tif", before["fax.tif"])
    yield "it was killed before", (room.bash(commands), room.names()), ((0, b"", ""), ["faxes"])
    os.mkdir(room("folder.tif"))
    yield "a folder", room.call("faxpages-receive", "folder.tif", "faxes")[0], 3
    yield "no file", room.call("faxpages-receive", "none.tif", "faxes")[0], 3
    room.tool("faxpages", "#!/bin/sh\necho 'fault: Memory' >&2\nexit 3\n")
    room.put("fax.tif", before["fax.tif"])
    status, _, said = room.bash(commands)
    yield "memory", (status, "stays: fault: Memory, where FAXPAGES_MEMORY_MIB allows 2048\n" in said, room.names()), (
        3,
        True,
        ["fax.tif", "faxes", "folder.tif"],
    )
    room.tool("faxpages", f'#!/bin/sh\nexec {room.program} "$@"\n')
    yield from received_of_other_kinds(room)
    yield from received_at_once(room)
    yield from received_from_elsewhere(room)
    yield from received_without_links(room)
    yield from received_into_exfat(room)
    yield from left_is_swept(room)
    yield from received_again(room)
    yield from received_beside_others(room)
    yield from received_links(room)
    yield from received_while_it_changes(room)
    yield "nothing else is in the folders", room.names("faxes"), ["faulty", "good"]


SAMPLE = os.path.realpath(f"{os.path.dirname(__file__)}/../../samples/one-mh-page.tif")


# Sound files that are no faxes read here, by how they are made, and what is said of them.
KINDS = {
    "pdf": ("printf '%%PDF-1.4\\n%%%%EOF\\n' >{}", "a PDF"),
    "tiles": (f"tiffcp -s -t -w 16 -l 16 -c g4 {SAMPLE} {{}}", "a picture in tiles"),
    "big": (f"tiffcp -8 {SAMPLE} {{}}", "a BigTIFF file, or none in TIFF"),
    **{kind: (f"tiffcp -s -c {kind} {SAMPLE} {{}}", "a picture of another kind")
       for kind in ("lzw", "packbits", "zip", "none")},
}  # fmt: skip


def other_kinds(room: Room, folder: str) -> Iterator[Claim]:
    """Makes a file of each kind: its name, and what is said of it."""
    os.makedirs(room(folder), exist_ok=True)
    for kind, (command, said) in KINDS.items():
        yield f"{folder}/kind-{kind}.tif", said, room.bash(command.format(f"{folder}/kind-{kind}.tif"))[0]


def received_of_other_kinds(room: Room) -> Iterator[Claim]:
    """Sound files that are no faxes read here stay where they are, and nobody calls them faulty."""
    for name, kind, status in other_kinds(room, "."):
        name = os.path.basename(name)
        yield f"{name} is made", status, 0
        before = room.get(name)
        status, _, said = room.call("faxpages-receive", name, "faxes")
        told = f"faxpages-receive: ./{name} stays: it is no fax that is read here, but {kind}: fault " in said
        yield f"{name}: {said}", (status, told, room.get(name) == before), (3, True, True)
        there = [os.path.exists(room(f"faxes/{kind}/{name}")) for kind in ("good", "faulty")]
        yield f"{name}: it is in neither folder", there, [False, False]
        os.remove(room(name))


def received_at_once(room: Room) -> Iterator[Claim]:
    """Two faxes of one name at once: one of them is there with its own report, and the other one stays."""
    for number in range(10):
        room.others(f"a/{number}.tif", 1)
        room.fax(f"b/{number}.tif", "mh", "noise")
        reports = {room.get(f"{it}/{number}.tif"): room.report(f"{it}/{number}.tif") for it in "ab"}
        calls = [room.start("faxpages-receive", f"{it}/{number}.tif", "faxes") for it in "ab"]
        yield f"two at once {number}", sorted(it.wait() for it in calls), [0, 3]
        there = room.get(f"faxes/good/{number}.tif")
        yield f"two at once {number}: its report", room.get(f"faxes/good/{number}.tif.report"), reports.pop(there)
        (other,) = reports
        left = [room.get(f"{it}/{number}.tif") for it in "ab" if os.path.exists(room(f"{it}/{number}.tif"))]
        yield f"two at once {number}: the other stays", left, [other]
    shutil.rmtree(room("a"))
    shutil.rmtree(room("b"))


def received_from_elsewhere(room: Room) -> Iterator[Claim]:
    """A fax that is on another file system than the folders, where there is one; and no room for it there."""
    other = "/dev/shm"
    if not os.path.isdir(other) or os.stat(other).st_dev == os.stat(room("")).st_dev:
        print("not run: a fax from another file system: there is none")
        return
    place = f"{other}/faxpages-test-{os.getpid()}.tif"
    room.others("there.tif")
    shutil.move(room("there.tif"), place)
    os.utime(place, (time.time() - 120,) * 2)
    try:
        yield "from another file system", room.call("faxpages-receive", place, "faxes"), (0, b"", "")
        moved = (os.path.exists(place), os.path.exists(room(f"faxes/good/{os.path.basename(place)}")))
        yield "from another file system: moved", moved, (False, True)
    finally:
        if os.path.exists(place):
            os.remove(place)


def received_into(room: Room, folder: str, what: str) -> Iterator[Claim]:
    """Faxes come into a folder where there are no links, by copies, which is said; nothing is written over there."""
    for name in ("linkless.tif", "report-there.tif"):
        room.others(name)
        os.utime(room(name), (time.time() - 120,) * 2)
    data, wanted = room.get("linkless.tif"), room.report("linkless.tif")
    said = "".join(f"faxpages-receive: {folder}/good/linkless.tif{end} is a copy: there are no links\n" for end in ("", ".report"))
    yield f"{what}: received", room.call("faxpages-receive", "linkless.tif", folder), (0, b"", said)
    got = [room.get(f"{folder}/good/linkless.tif{end}") for end in ("", ".report")]
    yield f"{what}: is there", (got, os.path.exists(room("linkless.tif"))), ([data, wanted], False)
    room.fax("linkless.tif", "mh", "marks")
    room.put(f"{folder}/good/report-there.tif.report", b"somebody else's")
    for name in ("linkless.tif", "report-there.tif"):
        yield f"{what}: {name} is in the way", room.call("faxpages-receive", name, folder)[0], 3
        yield f"{what}: {name} stays", os.path.exists(room(name)), True
        os.remove(room(name))
    there = {name: room.get(f"{folder}/good/{name}") for name in sorted(os.listdir(room(f"{folder}/good")))}
    yield f"{what}: nothing else is there", there, {
        "linkless.tif": data, "linkless.tif.report": wanted, "report-there.tif.report": b"somebody else's"}


def received_without_links(room: Room) -> Iterator[Claim]:
    """A file system that has no links, here by an `ln` that says so."""
    room.tool("ln", "#!/bin/sh\necho 'ln: Operation not permitted' >&2\nexit 1\n")
    yield from received_into(room, f"{room('')}linkless", "no links")
    os.remove(f"{room.path}/bin/ln")
    shutil.rmtree(room("linkless"))


def received_into_exfat(room: Room) -> Iterator[Claim]:
    """The same over a real one, where one can be mounted."""
    image = f"{room.path}/exfat"
    with open(image, "wb") as file:
        file.truncate(16 << 20)
    os.mkdir(room("exfat"))
    mount = "PATH=$PATH:/usr/sbin:/sbin; mkfs.exfat {0} && disk=$(losetup -f --show {0}) && mount.exfat-fuse $disk {1} && echo $disk"
    status, shown, why = room.bash(mount.format(image, room("exfat")))
    if status:
        print(f"not run: faxes that come into exFAT: {why.splitlines()[-1:]} (exfat-fuse)")
        return
    disk = shown.decode().split()[-1]
    try:
        yield from received_into(room, f"{room('')}exfat/sorted", "exFAT")
    finally:
        room.bash(f"PATH=$PATH:/usr/sbin:/sbin; umount {room('exfat')}; losetup -d {disk}")
    os.rmdir(room("exfat"))


def left_is_swept(room: Room) -> Iterator[Claim]:
    """What a call has left that was killed goes by the next one; what may be at work stays, and all of other names."""
    good = "faxes/good"
    for name in (".faxpages-receive.AbCdEf", ".faxpages-receive.new000", ".faxpages-receive.longername", ".faxpages-mine"):
        room.put(f"{good}/{name}/file", b"half of a fax")
    room.put(f"{good}/.faxpages-receive.a_file", b"of somebody else")
    os.symlink("..", room(f"{good}/.faxpages-receive.a_link"))
    room.bash(f"find {good} -name '.faxpages*' ! -name '*new000' -exec touch -h -d '2 hours ago' {{}} +")
    room.others("next.tif")
    yield "swept: the next fax", room.call("faxpages-receive", "next.tif", "faxes"), (0, b"", "")
    left = [name for name in room.names(good) if name.startswith(".faxpages")]
    yield "swept: what is left", left, [".faxpages-mine", ".faxpages-receive.a_file", ".faxpages-receive.a_link",
                                        ".faxpages-receive.longername", ".faxpages-receive.new000"]  # fmt: skip
    room.bash(f"rm -rf {good}/.faxpages*")


def received_again(room: Room) -> Iterator[Claim]:
    """A fax that is where it belongs stays there, by whatever way that folder is reached, and gets its report."""
    room.others("again.tif")
    data, report = room.get("again.tif"), room.report("again.tif")
    yield "again: first", room.call("faxpages-receive", "again.tif", "faxes")[0], 0
    os.symlink("faxes/good", room("spool"))
    for fax in ("faxes/good/again.tif", "./faxes/good/again.tif", f"{room('')}faxes/good/again.tif", "spool/again.tif"):
        yield f"again: {fax}", room.call("faxpages-receive", fax, "faxes"), (0, b"", "")
        got = [room.get(f"faxes/good/again.tif{end}") for end in ("", ".report")]
        yield f"again: {fax}: is there", got, [data, report]
    os.remove(room("faxes/good/again.tif.report"))
    yield "again: its report", (room.call("faxpages-receive", "faxes/good/again.tif", "faxes")[0],
                                room.get("faxes/good/again.tif.report")), (0, report)  # fmt: skip
    os.mkdir(room("sorted"))
    os.symlink("../incoming", room("sorted/good"))
    room.others("incoming/again.tif")
    data = room.get("incoming/again.tif")
    yield "again: sorted into where it came from", room.call("faxpages-receive", "incoming/again.tif", "sorted")[0], 0
    yield "again: it is there", room.get("incoming/again.tif"), data
    room.sample("damaged-fourth-page.tif", "faxes/good/bad.tif")
    yield "again: sorted wrong", room.call("faxpages-receive", "faxes/good/bad.tif", "faxes")[0], 1
    yield "again: sorted right", ["bad.tif" in room.names(f"faxes/{it}") for it in ("good", "faulty")], [False, True]
    for place in ("spool", "sorted/good"):
        os.remove(room(place))


def received_beside_others(room: Room) -> Iterator[Claim]:
    """A fax and a report never take the place of anything else."""
    room.others("a.report", 1)
    room.fax("a", "mh", "marks")
    named = room.get("a.report")
    yield "named as a report", room.call("faxpages-receive", "a.report", "faxes")[0], 0
    status, _, said = room.call("faxpages-receive", "a", "faxes")
    yield "its report's place is taken", (status, said.endswith("faxes/good/a.report already\n")), (3, True)
    got = (room.get("faxes/good/a.report"), os.path.exists(room("a")), os.path.exists(room("faxes/good/a")))
    yield "its report's place is taken: all stays", got, (named, True, False)
    room.others("z.tif")
    for name, content in (("z.tif.report", b"somebody else's"), ("z.tif.report", None), ("z.tif", None)):
        place = room(f"faxes/good/{name}")
        room.put(place, content) if content else os.symlink("nowhere", place)
        yield f"{name} is there", room.call("faxpages-receive", "z.tif", "faxes")[0], 3
        yield f"{name} is there: it stays", (os.readlink(place) if content is None else room.get(place)), (
            content or "nowhere"
        )
        yield f"{name} is there: the fax stays", os.path.exists(room("z.tif")), True
        os.remove(place)
    for name in ("a", "z.tif"):
        os.remove(room(name))


def received_links(room: Room) -> Iterator[Claim]:
    """A symbolic link, which would lead nowhere from its new place, stays."""
    room.others("spool/linked.tif")
    os.symlink("spool/linked.tif", room("link.tif"))
    status, _, said = room.call("faxpages-receive", "link.tif", "faxes")
    yield "a link", (status, said), (3, "faxpages-receive: ./link.tif stays: it is a symbolic link\n")
    yield "a link: it stays", (os.readlink(room("link.tif")), "link.tif" in room.names("faxes/good")), (
        "spool/linked.tif",
        False,
    )
    os.remove(room("link.tif"))


# The program, but something writes on into the file meanwhile, or puts another in its place.
CHANGING = {
    "written on": """#!/bin/sh
{program} "$@"; status=$?
echo more >>changing.tif
exit $status
""",
    "replaced": """#!/bin/sh
{program} "$@"; status=$?
cp changing.tif other && mv other changing.tif
exit $status
""",
}


def received_while_it_changes(room: Room) -> Iterator[Claim]:
    for how, text in CHANGING.items():
        room.tool("faxpages", text.format(program=room.program))
        room.others("changing.tif")
        status, _, said = room.call("faxpages-receive", "changing.tif", "faxes")
        yield f"{how} meanwhile", (status, "it changed" in said, "changing.tif" in room.names("faxes/good")), (
            3, True, False)  # fmt: skip
        os.remove(room("changing.tif"))
    room.tool("faxpages", f'#!/bin/sh\nexec {room.program} "$@"\n')


def old(room: Room, folder: str) -> None:
    """Lets the files of a folder be two minutes old."""
    for place, _, names in os.walk(room(folder)):
        for name in names:
            os.utime(f"{place}/{name}", (time.time() - 120,) * 2)


def figures(room: Room) -> dict[str, float]:
    lines = [line.split(" ") for line in room.get("faxpages.prom").decode().splitlines() if line[0] != "#"]
    return {name: float(value) for name, value in lines}


# The program, but where three faxes are seen it waits, so that a sweep can be killed in the middle.
WAITING = """#!/bin/sh
while [ -n "$GATE" ] && [ "$({{ grep -c "^[0-9]" "$GATE"; }} 2>/dev/null)" -ge 3 ]; do sleep 0.05; done 2>/dev/null
exec {program} "$@"
"""


def swept_of_other_kinds(room: Room) -> Iterator[Claim]:
    """Sound files that are no faxes read here are named so, and count apart, also where an older version has seen them."""
    made = list(other_kinds(room, "kinds"))
    old(room, "kinds")
    words = ["faxpages-sweep", "kinds", ".kinds", "kinds.prom"]
    status, shown, said = room.call(*words)
    lines = shown.decode().splitlines()
    yield "other kinds", (status, said, [it[2] for it in made]), (1, "", [0] * len(made))
    yield "other kinds: named", sorted(lines[:-1]), sorted(
        f"no fax that is read here: ./{name}: {kind}: {room.report(name).decode().splitlines()[-1]}" for name, kind, _ in made)
    count = len(made)
    yield "other kinds: summary", lines[-1], (
        f"new: {count} faxes, 0 good, 0 faulty, 0 not read, {count} of other kinds; in all: {count}")
    counted = ['faxpages_faxes{result="good"} 0', 'faxpages_faxes{result="faulty"} 0',
               f'faxpages_faxes{{result="other"}} {count}', 'faxpages_faxes{result="not_read"} 0']  # fmt: skip
    for way in ("this version", "an older one"):
        found = [line for line in room.get("kinds.prom").decode().splitlines() if line.startswith("faxpages_fa")]
        least = found if way == "this version" else [it for it in found if "MissingField" not in it]
        yield f"other kinds: figures of {way}", (set(counted) <= set(found), any("faults" in it for it in least)), (
            way == "this version", False)
        room.bash("sed -i 's/^\\([0-9:.]* \\)other /\\1faulty /' .kinds/seen")
        room.call(*words)
    yield "other kinds: nothing is new", room.call(*words), (0, b"", "")
    shutil.rmtree(room(".kinds"))


def sweep(room: Room, commands: str) -> Iterator[Claim]:
    os.mkdir(room("faxes"))
    yield "an empty tree", room.bash(commands), (0, b"", "")
    yield "an empty tree: figures", figures(room)['faxpages_faxes{result="good"}'], 0
    for number, name in enumerate(HOSTILE):
        room.others(f"faxes/in/{name}", number)
    room.sample("return-to-control.tif", "faxes/noted.TIFF")
    room.sample("damaged-fourth-page.tif", "faxes/in/new\n'fault.tif")
    room.bash("find faxes -type f -exec touch {} +")
    yield "none is old enough", room.bash(commands), (0, b"", "")
    old(room, "faxes")
    status, shown, said = room.bash(commands)
    lines = shown.decode().splitlines()
    good = len(HOSTILE) + 1
    summary = f"new: {good + 1} faxes, {good} good, 1 faulty, 0 not read; in all: {good + 1}"
    yield "the first", (status, said, lines[1:]), (1, "", [summary])
    yield "the first: the fault", re.fullmatch(
        r"faulty: .*new\\n\\'fault\.tif'?: fault page 3 row \d+: \w+", lines[0]
    ) is not None, True
    found = figures(room)
    wanted = {'faxpages_faxes{result="good"}': good, 'faxpages_faxes{result="faulty"}': 1,
              'faxpages_faxes{result="not_read"}': 0, 'faxpages_noted{note="N2"}': 1, "faxpages_swept": good + 1,
              "faxpages_pages": 5 * len(HOSTILE) + 4}  # fmt: skip
    yield "figures", {name: found.get(name) for name in wanted}, wanted
    yield "figures: when", abs(found["faxpages_sweep_timestamp_seconds"] - time.time()) < PATIENCE, True
    if is_there("promtool", "the figures by Prometheus"):
        yield "promtool", room.bash("promtool check metrics <faxpages.prom")[0], 0
    yield "nothing is new", room.bash(commands), (0, b"", "")
    yield from swept_of_other_kinds(room)
    yield "nothing is new: figures", figures(room)["faxpages_swept"], 0
    os.remove(room(f"faxes/in/{HOSTILE[0]}"))
    room.cut("faxes/later.tif")
    old(room, "faxes")
    room.bash("touch -d '1 hour ago' faxes/later.tif")
    status, shown, _ = room.bash(commands)
    yield "one is new, one is gone", (status, shown.splitlines()[-1].endswith(b"in all: %d" % (good + 1))), (1, True)
    yield from swept_again(room, commands, good)
    yield from swept_gone(room, commands)
    yield from swept_others(room, commands)
    yield from swept_links(room, commands)
    yield from swept_forbidden(room, commands)
    yield "nothing is left", (room.left(), room.names(".faxpages-sweep")), ([], ["lock", "seen"])


def swept_again(room: Room, commands: str, good: int) -> Iterator[Claim]:
    """A file that cannot be read is looked at again by each sweep; a sweep that is killed goes on; two at once."""
    room.tool("faxpages", WAITING.format(program=room.program))
    shutil.rmtree(room(".faxpages-sweep"))
    state = room(".faxpages-sweep/seen")
    leader = room.start("faxpages-sweep", "faxes", ".faxpages-sweep", "faxpages.prom", GATE=state)
    until = time.monotonic() + PATIENCE
    while seen(room) < 3 and time.monotonic() < until:
        time.sleep(0.02)
    yield "another one is running", room.bash(commands), (0, b"", "")
    os.killpg(leader.pid, signal.SIGKILL)
    leader.wait()
    room.bash(f"flock -w {PATIENCE} .faxpages-sweep/lock true")  # until all that it started is gone
    before = seen(room)
    yield "it is killed", 3 <= before < good + 1, True
    files_of = [name for name in os.listdir(room.path + "/tmp")]
    for name in files_of:
        shutil.rmtree(os.path.join(room.path, "tmp", name))  # what SIGKILL leaves
    with open(room(".faxpages-sweep/seen"), "ab") as file:
        file.write(b"1:2:3")  # a line that is cut
    _, shown, _ = room.bash(commands)
    yield "it goes on", shown.splitlines()[-1].startswith(b"new: %d faxes" % (good + 1 - before)), True
    room.tool("faxpages", "#!/bin/sh\necho 'fault: Memory' >&2\nexit 3\n")
    room.others("faxes/again.tif")
    old(room, "faxes")
    room.call("rm", "-r", ".faxpages-sweep/seen")
    for _ in range(2):
        status, shown, _ = room.bash(commands)
        yield "not read", (status, shown.splitlines()[-1]), (
            1,
            b"new: %d faxes, 0 good, 0 faulty, %d not read; in all: 0" % (good + 2, good + 2),
        )


def swept_gone(room: Room, commands: str) -> Iterator[Claim]:
    """A tree that is not mounted, and one of which much is gone, change nothing; a fax of the future is looked at."""
    room.tool("faxpages", f'#!/bin/sh\nexec {room.program} "$@"\n')
    room.bash(commands)
    known, told = room.get(".faxpages-sweep/seen"), room.get("faxpages.prom")
    count = seen(room)
    os.rename(room("faxes"), room("unmounted"))
    os.mkdir(room("faxes"))
    said = f"faxpages-sweep: {count} of {count} faxes are gone from {room('')}faxes, and stay in"
    ran = room.bash(commands)
    yield "all is gone", (ran[:2], ran[2].startswith(said)), ((3, b""), True)
    yield "all is gone: nothing changes", [room.get(".faxpages-sweep/seen"), room.get("faxpages.prom")], [known, told]
    os.rmdir(room("faxes"))
    os.rename(room("unmounted"), room("faxes"))
    yield "it is mounted again", room.bash(commands), (0, b"", "")
    for number in range(30):
        room.sample("one-mh-page.tif", f"faxes/many/{number}.tif")
    old(room, "faxes/many")
    yield "many are new", room.bash(commands)[0], 0
    os.rename(room("faxes/many"), room("many"))
    known = room.get(".faxpages-sweep/seen")
    yield "much is gone", (room.bash(commands)[0], room.get(".faxpages-sweep/seen")), (3, known)
    gone = commands.replace("faxpages-sweep ", "faxpages-sweep --gone ", 1)
    yield "it is to go", (room.bash(gone), seen(room)), ((0, b"", ""), count)
    yield "it is to go: figures", figures(room)['faxpages_faxes{result="good"}'] < count + 1, True
    room.sample("one-mh-page.tif", "faxes/future.tif")
    os.utime(room("faxes/future.tif"), (time.time() + 30,) * 2)
    yield "of the next half minute", room.bash(commands), (0, b"", "")
    os.utime(room("faxes/future.tif"), (time.time() + 3600,) * 2)
    yield "of the future", room.bash(commands)[1].startswith(b"new: 1 faxes, 1 good"), True
    os.remove(room("faxes/future.tif"))


def swept_others(room: Room, commands: str) -> Iterator[Claim]:
    """What is in the places of the state and of the figures, and is not of a sweep, stays."""
    others = {"faxpages.prom": b"# HELP faxpages_archive_faxes Faxes of the archive\n", ".faxpages-sweep/seen": b"20261128\n"}
    for place, other in others.items():
        ours = room.get(place)
        for content in (b"of somebody else\n", b"\n", room.get("faxes/again.tif"), other):
            room.put(place, content)
            status, _, said = room.bash(commands)
            yield f"{place} of somebody else", (status, said.endswith("is not of a sweep, and stays\n")), (3, True)
            yield f"{place} of somebody else: it stays", room.get(place), content
        room.put(place, ours)
    yield "of sweeps again", room.bash(commands)[0], 0
    # A file of an earlier version has no first line of its own, and its last line may be cut.
    ours = room.get(".faxpages-sweep/seen")
    for content in (ours.partition(b"\n")[2], ours.partition(b"\n")[2][:20]):
        room.put(".faxpages-sweep/seen", content)
        yield "of an earlier version", room.bash(commands)[0] in (0, 1), True
        yield "of an earlier version: all is known", seen(room) == ours.count(b"\n") - 1, True
    for place in ("seen", "lock"):
        for figures_place in (f".faxpages-sweep/{place}", f"faxes/../.faxpages-sweep/{place}"):
            status, _, said = room.call("faxpages-sweep", "faxes", ".faxpages-sweep", figures_place)
            yield f"figures in {place}", (status, "is a file of the sweep's own" in said), (3, True)
    yield "the state stays", seen(room) == ours.count(b"\n") - 1, True
    real = os.path.realpath(f"{room.path}/bin/flock")
    room.tool("flock", "#!/bin/sh\necho 'flock: 5: No locks available' >&2\nexit 71\n")
    status, _, said = room.bash(commands)
    yield "no lock", (status, said.endswith("/lock cannot be locked: No locks available\n")), (3, True)
    os.remove(f"{room.path}/bin/flock")
    os.symlink(real, f"{room.path}/bin/flock")


def swept_links(room: Room, commands: str) -> Iterator[Claim]:
    """A tree, a folder in it and faxes that are reached by symbolic links; links that lead round, or nowhere."""
    room.tool("faxpages", f'#!/bin/sh\nexec {room.program} "$@"\n')
    shutil.rmtree(room("faxes"))
    shutil.rmtree(room(".faxpages-sweep"))
    room.others("disk/2025/one.tif")
    room.others("other/two.tif")
    room.others("third.tif")
    os.mkdir(room("disk/linked"))
    for to, name in (("disk", "faxes"), ("../other", "disk/2026"), ("../../third.tif", "disk/linked/three.tif"),
                     ("../2025/one.tif", "disk/linked/again.tif"), ("..", "disk/2025/round")):  # fmt: skip
        os.symlink(to, room(name))
    os.link(room("third.tif"), room("other/third.tif"))
    for folder in ("disk", "other"):
        old(room, folder)
    yield "links", room.bash(commands), (0, b"new: 3 faxes, 3 good, 0 faulty, 0 not read; in all: 3\n", "")
    yield "links: figures", figures(room)['faxpages_faxes{result="good"}'], 3
    yield "links: nothing is new", room.bash(commands), (0, b"", "")
    os.symlink("nowhere", room("disk/gone.tif"))
    room.bash("touch -h -d '1 hour ago' disk/gone.tif")
    there = f"{room('')}faxes"
    shown = f"not read: {there}/gone.tif: No such file or directory\n"
    shown += "new: 1 faxes, 0 good, 0 faulty, 1 not read; in all: 3\n"
    yield "not read", room.bash(commands), (1, shown.encode(), "")
    os.remove(room("disk/gone.tif"))
    room.fax("disk/bad.tif", "mh", "marks")
    old(room, "disk")
    room.tool("faxpages", "#!/bin/sh\necho 'fault: Read' >&2\nexit 3\n")
    room.tool("cat", BAD_DISK)
    shown = room.bash(commands)[1].decode().splitlines()[0]
    yield "a bad disk", shown, f"not read: {there}/bad.tif: fault: Read: Input/output error"
    for name in ("bin/cat", "work/disk/bad.tif"):
        os.remove(f"{room.path}/{name}")
    room.tool("faxpages", f'#!/bin/sh\nexec {room.program} "$@"\n')


def swept_forbidden(room: Room, commands: str) -> Iterator[Claim]:
    """A folder that may not be looked into, beside new faxes; root may look anywhere, and so becomes another user."""
    root = os.geteuid() == 0
    if root and room.call("setpriv", "--reuid", "nobody", "--clear-groups", "test", "-r", f"{SCRIPTS}/faxpages-sweep")[0]:
        print("not run: a folder that may not be looked into: another user cannot read the scripts here")
        return
    for name in ("disk/2025/new.tif", "disk/new.tif"):
        room.fax(name, "mh", "marks")
    os.mkdir(room("disk/closed"), 0)
    shutil.rmtree(room(".faxpages-sweep"))
    old(room, "disk")
    if root:
        os.chmod(room.path, 0o711)
        room.bash("chown -R nobody .; chown root disk/closed")
        commands = f"setpriv --reuid nobody --clear-groups bash -c {shlex.quote(commands)}"
    status, shown, said = room.bash(commands)
    lines = shown.decode().splitlines()
    yield "a closed folder", (status, said, lines[0].endswith("closed': Permission denied")), (1, "", True)
    yield "a closed folder: it is told", lines[1:], [
        f"not all of {room('')}faxes can be looked into",
        "new: 5 faxes, 5 good, 0 faulty, 1 not read; in all: 5",
    ]
    yield "a closed folder: figures", figures(room)['faxpages_faxes{result="not_read"}'], 1
    yield "a closed folder: again", room.bash(commands)[:2], (1, b"\n".join(shown.splitlines()[:2]) + b"\n")


def sweep_by_timer(room: Room, commands: str) -> Iterator[Claim]:
    """The units as systemd-analyze sees them, without systemd; and what the service calls."""
    room.tool("systemctl", '#!/bin/sh\necho "$*" >>"$HOME/asked"\n')
    yield "run", room.bash(commands), (0, b"", "")
    wanted = b"--user daemon-reload\n--user enable --now faxpages-sweep.timer\n"
    yield "systemctl", room.get("asked"), wanted
    units = [f".config/systemd/user/faxpages-sweep.{kind}" for kind in ("service", "timer")]
    for unit in units:
        checked = room.call("systemd-analyze", "verify", "--user", "--man=no", room(unit), XDG_RUNTIME_DIR=room(""))
        named = [line for line in checked[2].splitlines() if "faxpages" in line]
        yield f"systemd-analyze: {unit}", (checked[0], named), (0, [])
    when = room.bash(f'systemd-analyze calendar --iterations=3 "$(sed -n s/^OnCalendar=//p {units[1]})"')[1].decode()
    minutes = [int(hour) * 60 + int(minute) for hour, minute in re.findall(r"(\d\d):(\d\d):00 ", when)]
    yield "every ten minutes", {(b - a) % 1440 for a, b in zip(minutes, minutes[1:])}, {10}
    room.sample("damaged-fourth-page.tif", "faxes/bad.tif")
    old(room, "faxes")
    service = room.get(units[0]).decode().replace("%h", room("").rstrip("/"))
    (words,) = re.findall(r"^ExecStart=(.*)", service, re.M)
    (path,) = re.findall(r"^Environment=PATH=(.*)", service, re.M)
    os.makedirs(room(".local"))
    os.symlink(f"{room.path}/bin", room(".local/bin"))
    status, output, said = room.bash(f"PATH={path}; {words}")
    yield "the service", (status, output.splitlines()[-1:], said), (
        1,
        [b"new: 1 faxes, 0 good, 1 faulty, 0 not read; in all: 1"],
        "",
    )


def seen(room: Room) -> int:
    place = room(".faxpages-sweep/seen")
    return sum(line[:1].isdigit() for line in open(place, "rb")) if os.path.exists(place) else 0


TESTS: Tests = {
    "Sort faxes as they come in": (["cmp", "tiffcp"], receive),
    "Sweep an archive by cron": (["find", "flock"], sweep),
    "Sweep an archive by a systemd timer": (["systemd-analyze", "flock"], sweep_by_timer),
}
