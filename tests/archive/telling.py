"""What a run and a table say: whether a run has finished, which tree and share a table is of, what is gone or cannot be
read, and why; readers that pause; full disks; time that passes while processes are stopped."""

from __future__ import annotations

import contextlib
import csv
import io
import json
import os
import re
import resource
import shutil
import signal
import sqlite3
import subprocess
import sys
import time

from tests import MODULE
from tests.archive import made
from tests.archive.checking import OTHER_USER, Caller, add, few
from tests.archive.keeping import convert, drawn, put
from tests.archive.kinds import NEW_COLUMNS
from tests.archive.room import CONNECT, Part, Room, Rows, count
from tests.waiting import wait_for


def change(room: Room, table: str, *statements: str) -> None:
    with contextlib.closing(sqlite3.connect(room(table))) as base:
        for statement in statements:
            base.execute(statement)
        base.commit()


def unfinished(room: Room, paths: list[bytes], reference: Rows) -> None:
    """A table whose run was stopped says so; merge takes nothing out for it, and names it."""
    parts = ["part-0.sqlite", "part-1.sqlite"]
    for number, part in enumerate(parts):
        room.run("check", "tree", "--table", part, "--share", f"{number}/2")
    room.claim("two parts", room.run("merge", "unfinished.sqlite", *parts)[0], 1)
    os.unlink(room(parts[1]))
    there, _ = room.interrupt(signal.SIGKILL, parts[1], "check", "tree", "--table", parts[1], "--share", "1/2")
    for way in ("--csv", "--json", "--faulty"):
        status, _, error = room.run("table", parts[1], way)
        room.claim(f"table {way} of a run that was stopped", (status, "share 1/2" in error, "not finished" in error,
                                                              room("tree") in error), (3, True, True, True))
    told = json.loads(room.run("table", parts[1], "--summary")[1])
    room.claim("summary of a run that was stopped", (told["finished"], told["share"], told["tree"], told["ended"]),
               (False, [1, 2], room("tree"), None))
    status, _, error = room.run("merge", "unfinished.sqlite", *parts)
    said = f"{parts[1]}: run 1" in error, "not finished" in error
    room.claim("merge of a part that has not finished", (status, *said), (3, True, True))
    room.claim("merge of a part that has not finished: no row is lost", count(room("unfinished.sqlite")), len(paths))
    room.claim("the merged table says so", room.run("table", "unfinished.sqlite", "--csv")[0], 3)
    room.run("check", "tree", "--table", parts[1], "--share", "1/2")
    status = room.run("merge", "unfinished.sqlite", *parts)[0]
    room.claim("once all are whole", (status, room.rows("unfinished.sqlite") == reference),
               (1, True))
    room.claim("a table is no part of itself", room.run("merge", "unfinished.sqlite", "unfinished.sqlite")[0], 3)
    _, out, _ = room.run("check", "tree", "--table", parts[0], "--share", "0/2")
    wanted = rf"run \d+, check of {re.escape(room('tree'))}, share 0/2, began \d{{4}}-.* UTC, finished"
    room.claim("the summary says tree, share and when", re.search(wanted, out.decode()) is not None)


def clocks(room: Room, *_given: object) -> None:
    """Which row is newer is no matter of the clock: a part that was checked under next year's clock hides no fault."""
    paths = few(room, "clocks")
    for number in range(2):
        room.run("check", "clocks", "--table", f"clock-{number}.sqlite", "--share", f"{number}/2")
    # As a version before sums left it, so that its rows may be changed.
    change(room, "clock-0.sqlite", "UPDATE times SET checked = checked + 4e7, since = since + 4e7",
           "DROP TABLE originals", "DROP TABLE only_copies", "DELETE FROM job WHERE name = 'sum'",
           *(f"ALTER TABLE faxes DROP COLUMN {name}" for name in NEW_COLUMNS), "PRAGMA user_version = 3")
    parts = ["clock-0.sqlite", "clock-1.sqlite"]
    room.run("merge", "clock.sqlite", *parts)
    before = room.rows("clock.sqlite")
    path = next(path for path in paths if before[path]["status"] == "0" and path in room.rows("clock-0.sqlite"))
    told = os.stat(path)
    with open(path, "r+b") as file:
        file.write(b"??")
    os.utime(path, ns=(told.st_mtime_ns, told.st_mtime_ns))
    room.run("check", "clocks", "--table", "clock-0.sqlite", "--share", "0/2", "--again", "all")
    room.run("merge", "clock.sqlite", *parts)
    room.claim("a fault that is found later stands", room.rows("clock.sqlite")[path]["fault"], "ByteOrder")


def gone(room: Room, *_given: object) -> None:
    """Where more than a tenth is gone nothing is changed; a tree without a fax is told; a moved tree is the same
    job."""
    paths = few(room, "mounted")
    words = ["check", "mounted", "--table", "mounted.sqlite"]
    room.run(*words)
    rows = room.rows("mounted.sqlite")
    os.rename(room("mounted"), room("away"))
    os.mkdir(room("mounted"))
    status, _, error = room.run(*words)
    room.claim("a tree that is not mounted",
               (status, f"{len(paths)} of {len(paths)} faxes are gone" in error), (3, True))
    room.claim("the table is as it was", room.rows("mounted.sqlite") == rows)
    room.claim("a tree without a fax", room.run("check", "mounted", "--table", "none.sqlite")[0], 3)
    os.rmdir(room("mounted"))
    status, out, _ = room.run("check", "away", "--table", "mounted.sqlite")
    room.claim("a moved tree is the same job",
               (status, f"; 0 done now, {len(paths)} before, 0 gone" in out.decode()), (1, True))
    for path in paths[:4]:
        os.unlink(path.replace(b"/mounted/", b"/away/"))
    room.claim("a tenth may be gone", room.run("check", "away", "--table", "mounted.sqlite")[0], 1)
    for path in paths[4:8]:
        os.unlink(path.replace(b"/mounted/", b"/away/"))
    room.claim("more may not", room.run("check", "away", "--table", "mounted.sqlite")[0], 3)
    summary = room.summary("check", "away", "--table", "mounted.sqlite", "--gone")
    room.claim("but by --gone", summary[1].endswith(f"0 done now, {len(paths) - 8} before, 4 gone"))


def closed_folders(room: Room, *_given: object) -> None:
    """Folders that cannot be read are told, also behind links and before TARGET is there, and nothing is deleted."""
    import faxpages  # noqa: F401

    put(room("shut/tree/a.tif"), drawn()[""])
    put(room("shut/disk/inner/b.tif"), drawn()[""])
    os.symlink("../disk/inner", room("shut/tree/years"))
    shutil.copytree(os.path.join(MODULE, "faxpages"), room("shut/python/faxpages"))
    shutil.copy(room.library, room("shut/libfaxpages.so.1"))
    told = dict(os.environ, PYTHONPATH=room("shut/python"), FAXPAGES_LIBRARY=room("shut/libfaxpages.so.1"), HOME="/",
                PYTHONDONTWRITEBYTECODE="1")
    user = None
    if os.geteuid() == 0:
        os.chmod(room.folder, 0o755)
        for folder, _, names in os.walk(room("shut")):
            for name in (".", *names):
                os.chown(os.path.join(folder, name), OTHER_USER, OTHER_USER, follow_symlinks=False)
        user = OTHER_USER
    os.chmod(room("shut/disk"), 0)
    other = Caller(room("shut"), told, user)
    python = other.python()
    if python is None:
        print("SKIPPED: another user cannot call Python here, so: no folder that cannot be read is tried")
        return
    words = [python, "-m", "faxpages.archive", "convert", "tree", "copies", "--to", "mmr", "--table", "t.sqlite",
             "--follow", "--delete"]
    ran = other.run(words)
    said = b"not read: " in ran.stderr, os.path.exists(room("shut/tree/a.tif"))
    room.claim("a folder behind a link", (ran.returncode, *said), (3, True, True))
    os.chmod(room("shut/disk"), 0o755)
    ran = other.run(words)
    room.claim("status 3 goes with its cause", (ran.returncode, os.path.exists(room("shut/tree/a.tif"))), (0, False))


def again(room: Room, paths: list[bytes], _: Rows) -> None:
    """--again all goes on where it was stopped."""
    words = ["check", "tree", "--table", "again.sqlite"]
    room.run(*words)
    gate = room("gate")
    with open(gate, "wb"):
        pass
    process = room.start(*words, "--again", "all", broken="stops", GATE=gate, AFTER="400")

    def looked() -> int:
        return ask_count(room, "SELECT count(*) FROM times WHERE run > 1")

    wait_for(lambda: looked() or process.poll() is not None)
    process.kill()
    process.communicate()
    os.unlink(gate)
    done = looked()
    summary = room.summary(*words, "--again", "all")[1]
    room.claim(f"--again all resumes: {done}", 0 < done < len(paths) and summary.endswith(
        f"; {len(paths) - done} done now, {done} before, 0 gone"))
    room.claim("and begins anew once it has finished", room.summary(*words, "--again", "all")[1].endswith(
        f"; {len(paths)} done now, 0 before, 0 gone"))


def ask_count(room: Room, query: str) -> int:
    with contextlib.suppress(sqlite3.Error):
        with contextlib.closing(sqlite3.connect(f"file:{room('again.sqlite')}?mode=ro", uri=True)) as base:
            return int(base.execute(query).fetchone()[0])
    return 0


def pausing(room: Room, paths: list[bytes], reference: Rows) -> None:
    """Readers that pause do not end a run: table that nobody reads on, and another program with a query open."""
    room.run("check", "tree", "--table", "read.sqlite")
    reader = room.start("table", "read.sqlite", "--json")
    assert reader.stdout is not None
    reader.stdout.read(1)
    with contextlib.closing(sqlite3.connect(room("read.sqlite"))) as base:
        cursor = base.execute("SELECT * FROM faxes")  # it holds the table until it is closed
        cursor.fetchone()
        process = room.start("check", "tree", "--table", "read.sqlite", "--again", "all")
        assert process.stderr is not None
        said = next((line for line in process.stderr if b"another program reads" in line), b"")
        time.sleep(1)
        room.claim("a run waits for another program", (process.poll(), said != b""), (None, True))
        cursor.close()
    process.communicate()
    room.claim("and ends well", process.returncode, 1)
    room.claim("the table is the same", room.rows("read.sqlite") == reference)
    process = room.start("check", "tree", "--table", "read.sqlite", "--again", "all")
    room.claim("table that pauses does not lock", wait_for(lambda: process.poll() is not None))
    process.communicate()
    reader.kill()
    reader.communicate()


def in_time(room: Room, *_given: object) -> None:
    """Slow faxes go to all workers, and what is done is in the table soon; a worker that is stopped is not late."""
    for number in range(8):
        put(room(f"slow/tree/{number}.tif"), drawn()[""] + b"naps")
    room.run("check", "slow/tree", "--table", "slow.sqlite", "--processes", "4", broken="naps", NAPS=room("slow/naps"),
             TABLE=room("slow.sqlite"))
    with open(room("slow/naps"), encoding="ascii") as file:
        naps = [tuple(map(int, line.split())) for line in file]
    most = max((rows for _, rows in naps), default=0)
    room.claim(f"what is done is kept before all is: {naps}", (len(naps), most > 0), (8, True))
    # If nobody handed back what takes long, two would do all.
    room.claim(f"all workers are at work: {naps}", len({process for process, _ in naps}) > 2)
    add(os.fsencode(room("slow/tree/0.tif")), b"naps")
    process = room.start(
        "check",
        "slow/tree",
        "--table",
        "slow.sqlite",
        "--timeout",
        "9",
        "--again",
        "all",
        broken="naps")
    time.sleep(2)
    os.killpg(process.pid, signal.SIGSTOP)
    time.sleep(12)
    os.killpg(process.pid, signal.SIGCONT)
    process.communicate()
    faults = {row["fault"] for row in room.rows("slow.sqlite").values()}
    room.claim("who was stopped is not late", faults, {""})


def one_line(room: Room, *_given: object) -> None:
    """Whatever goes wrong is a line, and status 3: a full disk, a damaged table, a closed output, no scheduler."""
    few(room, "line")
    room.run("check", "line", "--table", "line.sqlite")
    words = [sys.executable, "-m", "faxpages.archive"]
    told = dict(os.environ, PYTHONPATH=MODULE, FAXPAGES_LIBRARY=room.library)
    for what, command, named in (
            ("a closed output", "table line.sqlite --csv >&-",
             "closed"), ("a closed error stream", "table line.sqlite --csv 2>&-", ""),
            ("a full output", "table line.sqlite --csv >/dev/full", "No space left"),
            ("a full output of a run", "check line --table line.sqlite >/dev/full", "No space left")):
        ran = subprocess.run(["sh", "-c", f'"$0" -m faxpages.archive {command}', *words[:1]], env=told, cwd=room.folder,
                             capture_output=True, text=True, check=False)
        room.claim(what, (ran.returncode, ran.stderr.count("\n"), named in ran.stderr), (3, 1 if named else 0, True))
    shutil.copy(room("line.sqlite"), room("hurt.sqlite"))
    change(room, "hurt.sqlite", "UPDATE job SET value = 'no JSON'")
    for asked in (["table", "hurt.sqlite", "--summary"], ["check", "line", "--table", "hurt.sqlite"]):
        status, _, error = room.run(*asked)
        room.claim(f"a damaged table: {asked[0]}", (status, error.count("\n")), (3, 1))
    with open(room("line.sqlite"), "r+b") as file:
        file.seek(8192)
        file.write(b"\xff" * 20000)
    status, _, error = room.run("table", "line.sqlite", "--csv")
    room.claim("a table that is damaged in the middle", (status, error.count("\n")), (3, 1))
    # An empty table has room, and few enough rows come that they are written when all is done.
    size = os.path.getsize(room("hurt.sqlite")) + 20000
    limit = lambda: resource.setrlimit(resource.RLIMIT_FSIZE, (size, size))  # noqa: E731
    ran = subprocess.run([*words, "check", "tree", "--table", "no-room.sqlite", "--share", "0/4"], env=told,
                         cwd=room.folder, capture_output=True, text=True, check=False, preexec_fn=limit)
    room.claim("no room for the table", (ran.returncode, ran.stderr.count("\n"), "no-room.sqlite: " in ran.stderr,
                                         "no transaction" in ran.stderr), (3, 1, True, False))
    if not room.dask:
        print("SKIPPED: Dask (python3-distributed) is not installed, so: no scheduler that is dead is tried")
        return
    status, _, error = room.run("check", "line", "--table", "dead.sqlite",
                                "--scheduler", "tcp://127.0.0.1:1", python=room.dask, **{CONNECT: "3s"})
    room.claim("a dead scheduler", (status, error.count("\n")), (3, 1))


def told(room: Room, *_given: object) -> None:
    """Names and reasons: --names, table --faulty, tags, what the system said, CSV of any name, Prometheus,
    --version."""
    import faxpages

    cr = room("told/tree/a\rb.tif")
    put(cr, drawn()[""])
    put(room("told/tree/c.tif"), contents_with_tag())
    put(room("told/copies/a\rb.tif/x"), b"")
    status, _, error = convert(room, "told", "--names")
    of_c = "c.tif: no fax that is read here, but a picture of another kind: fault page 0 row 0: Unsupported 259"
    said = of_c in error, r"a\rb.tif: not read: Exists" in error
    room.claim("--names", (status, *said), (3, True, True))
    _, out, _ = room.run("table", "told/t.sqlite", "--faulty")
    room.claim("table --faulty", out.decode(), f"a\\rb.tif: not read: Exists: no regular file\n{of_c}\n")
    _, out, _ = room.run("table", "told/t.sqlite", "--csv")
    rows = list(csv.reader(io.StringIO(out.decode(), newline="")))
    room.claim("CSV quotes a lone CR", ([row[0] for row in rows[1:]], rows[2][14]), (["a\rb.tif", "c.tif"], "259"))
    _, out, _ = room.run("table", "told/t.sqlite", "--prometheus")
    tree = json.dumps(room("told/tree"))
    room.claim("Prometheus", f'faxpages_archive_faxes{{tree={tree},status="other"}} 1\n' in out.decode())
    room.claim("--version", room.run("--version")[1].decode(), f"faxpages-archive {faxpages.version()}\n")
    status, _, _ = room.run("check", "told/tree", "--table", "told/ok.sqlite", "--faults-ok")
    room.claim("--faults-ok", status, 0)
    shutil.rmtree(room("told/copies"))
    put(room("told/copies"), b"")
    status, _, error = convert(room, "told")
    room.claim("a target that is a file", (status, error.count("\n")), (3, 1))


def contents_with_tag() -> bytes:
    """A fax whose compression is none."""
    from tests.archive.drawn import contents
    import faxpages

    faults = ((it.data, faxpages.check(it.data).fault) for it in contents.drawn(faxpages, 1) if b"II" == it.data[:2])
    return next(data for data, fault in faults if fault is not None and fault.tag == 259)


def upgraded(room: Room, *_given: object) -> None:
    """A table of version 1.4 becomes one of this version, with all that it knew."""
    paths = few(room, "older")
    room.run("check", "older", "--table", "new.sqlite")
    wanted = room.rows("new.sqlite")
    names = "size, mtime, status, pages, rows, width, x, y, codings, notes, fault, fault_page, fault_row, seconds"
    tree = room("older/").replace("'", "''")
    with contextlib.closing(sqlite3.connect(room("old.sqlite"))) as base:
        base.execute("ATTACH ? AS new", (room("new.sqlite"),))
        base.execute(f"CREATE TABLE faxes (path PRIMARY KEY NOT NULL, {names})")
        base.execute("CREATE TABLE times (path PRIMARY KEY NOT NULL, since, checked)")
        base.execute("CREATE TABLE job (name TEXT PRIMARY KEY NOT NULL, value TEXT NOT NULL)")
        whole = f"iif(typeof(path) = 'blob', CAST(CAST('{tree}' AS BLOB) || path AS BLOB), '{tree}' || path)"
        base.execute(f"INSERT INTO faxes SELECT {whole}, {names} FROM new.faxes")
        base.execute(f"INSERT INTO times SELECT {whole}, since, checked FROM new.times")
        base.execute("INSERT INTO job VALUES ('job', ?)", (json.dumps(
            {"job": "check", "share": [0, 1], "tree": room("older")}),))
        base.commit()
    room.claim("an older table alone", room.run("table", "old.sqlite", "--csv")[0], 3)
    summary = room.summary("check", "older", "--table", "old.sqlite")
    room.claim("an older table goes on", summary[1].endswith(f"0 done now, {len(paths)} before, 0 gone"))
    got = {path: dict(row, fault_tag="") for path, row in room.rows("old.sqlite").items()}
    # What that version did not keep is not known.
    unknown = {"fault_tag": "", "bad_rows": "", "lost_rows": ""}
    room.claim("an older table's rows", got == {path: {**row, **unknown} for path, row in wanted.items()})


def seed_of_these_files() -> str:
    """The commit, or the version where git does not know it: each has draws of its own, and the same ones again."""
    ran = subprocess.run(["git", "-C", made.HERE, "rev-parse", "--short=12", "HEAD"], capture_output=True, text=True,
                         check=False)
    if ran.returncode == 0:
        return ran.stdout.strip()
    with open(os.path.join(os.path.dirname(os.path.dirname(made.HERE)), "VERSION"), encoding="utf-8") as file:
        return file.read().strip()


def operated(room: Room, *_given: object) -> None:
    """Some hundred steps of the drawn operator, by a seed that is printed; some of them by Dask, and some with a second
    run at once, with a TARGET that goes or with strangers at work, of which the first ones may have none."""
    seed = seed_of_these_files()
    drawn = [["400", seed], ["100", seed, "workers=0", "dask=0", "second=100"],
             ["100", seed, "workers=0", "dask=0", "second=0", "folded=0", "going=100"],
             ["100", seed, "workers=0", "dask=0", "second=0", "folded=0", "going=0", "strangers=100"]]
    if room.dask:
        drawn.append(["25", seed, "workers=0", "dask=100", "second=0"])
    for words in drawn:
        ran = subprocess.run([os.path.join(made.HERE, "operator"), os.path.dirname(room.library), room.program, *words],
                             capture_output=True, text=True, errors="replace", check=False)
        print(*re.findall(r"^(?:operator: seed|SKIPPED: ).*", ran.stdout, re.M), sep="\n")
        if ran.returncode:
            # All of it, since what differs is drawn, and may not come again.
            print(ran.stdout, ran.stderr, sep="\n")
        room.claim(f"the drawn operator: {' '.join(words)}", ran.returncode, 0)


PARTS: list[Part] = [operated, unfinished, clocks, gone, closed_folders, again, pausing, in_time, one_line, told, upgraded]
