"""The drawn operator: worlds, commands, trouble, and a comparison with the model after each step."""

import csv
import io
import os
import random
import re
import shutil
import signal
import time
from typing import Callable, Dict, List, Set

from tests.archive.drawn import cluster, folding, going, hurting, older, playing
from tests.archive.drawn.comparing import Before, Comparison, Difference, compare_two, done_by
from tests.archive.drawn.contents import Content, Teller
from tests.archive.drawn.kept import KeptOnes, right_of
from tests.archive.drawn.model import (
    NOT_READ, Job, Model, Original, Row, Table, Words, originals_of, rows_of, status_of, where_in,
)
from tests.archive.drawn.playing import INLINE, Engine, Event, Ran, Started, Trouble
from tests.archive.drawn.verified import Verification
from tests.archive.drawn.world import Entry, World, put_in_place, put_other, snapshot
from tests.waiting import there_in, wait_for

_NONE = Entry("none", 0, (0, 0), 0, b"")
# What does the faxes of an episode: this very process; real workers; Dask; or the first two, with a second run at once;
# or this process, and the copies stand in a folder that folds case, or TARGET goes amid most runs, which delete, or
# strangers' files and links come below TARGET all the time.
PLAIN, WORKERS, DASK, SECOND, FOLDED, GOING = "plain", "workers", "dask", "second", "folded", "going"
STRANGERS = "strangers"
LACKING = ("data", "fields", "private", "bytes", "resolution")


class Episode:
    """One world, and what is done in it."""

    def __init__(self, folder: str, rng: random.Random, faxes: List[Content], teller: Teller, kind: str) -> None:
        self.rng, self.kind, self.teller = rng, kind, teller
        self.lacks = {data: content.lacks for content in faxes for data in (content.data, *content.turned)}
        self.other_user = kind == PLAIN and os.geteuid() == 0 and rng.random() < 0.2
        if kind == FOLDED:
            os.makedirs(os.path.join(folder, "target"))
            folding.mount(os.path.join(folder, "target"))
        # Where TARGET goes all faxes are good, since nothing is deleted where one is not.
        given = [it.data for it in faxes if kind != GOING or not teller.verdict(it.data).status]
        self.world = World(folder, rng, given, kind == FOLDED)
        for content in faxes:
            self.world.turned.update({content.data: content.turned} if content.turned else {})
            self.world.turned.update((data, (content.data,)) for data in content.turned)
        self.model = Model(teller)
        follow = not self.other_user and kind != GOING and rng.random() < 0.35
        dumps = shutil.which("tiffdump") is not None
        to = rng.choice([("mmr",), ("mmr",), ("mh", "--align"), ("mr", "--k", "2"), ("pbm",)])
        fields = (rng.random() < 0.4 or kind == STRANGERS) and dumps
        folds = kind == FOLDED
        self.jobs = [Job("check.sqlite", follow=follow), Job("copies.sqlite", to, follow, fields, folds=folds),
                     Job("others.sqlite", rng.choice([to, ("mmr",)]), follow, fields, folds=folds)]
        self.closed: Set[bytes] = set()
        # What the model knew of only copies when a table was copied to where backups are.
        self.backed: Dict[str, KeptOnes] = {}
        self.log: List[str] = []
        self.cluster = cluster.Cluster(os.path.join(folder, "dask")) if kind == DASK else None
        if self.other_user:
            self._hand_over()

    def end(self) -> None:
        """Ends what was started for the episode."""
        self.world.close_writers()
        if self.cluster is not None:
            self.cluster.end()
        if self.world.folds:
            folding.unmount(os.fsdecode(self.world.target))

    def _hand_over(self) -> None:
        """All belongs to the other user."""
        for folder, folders, names in os.walk(self.world.folder):
            for name in (b".", *folders, *names):
                os.chown(os.path.join(folder, name), playing.OTHER, playing.OTHER, follow_symlinks=False)
        os.chmod(self.world.folder, 0o755)

    def step(self) -> None:
        """Something happens, or a command is given."""
        if self.rng.random() < 0.45:
            happens = self.rng.choice(self._events())
            self.log.append(happens.__name__)
            happens()
            if self.other_user:
                self._hand_over()
            return
        way = self.rng.random()
        if way < 0.06:
            self._table()
        elif way < 0.12:
            self._array()
        elif way < 0.21:
            self._verify()
        elif way < 0.28:
            self._damage()
        elif way < 0.42:
            self._command(self.jobs[0])
        else:
            self._command(self.jobs[1] if self.rng.random() < 0.8 else self.jobs[2])

    def _events(self) -> List[Callable[[], None]]:
        world = self.world
        common = [world.change, world.touch, world.more, world.more, world.vanish, world.move, world.hurt_copy,
                  world.hard_link, world.write, world.turn, self._hurt_only]
        rare = [world.foreign, world.new_link, world.link_in_target, world.away, world.move_tree,
                self._back_up, self._restore, self._restore, self._older]
        if self.other_user:
            rare.append(self._close_or_open)
        if self.kind == STRANGERS:
            return common + [world.foreign] * 12 + [world.link_in_target] * 6 + [world.more] * 6
        # What TARGET took away with it comes again.
        return common * 3 + rare if self.kind != GOING else common + [world.more] * 20

    def _back_up(self) -> None:
        """A table is copied to where backups are."""
        for job in self.jobs[1:]:
            path = os.path.join(os.fsdecode(self.world.tables), job.table)
            if os.path.exists(path):
                shutil.copy(path, path + "-backup")
                self.backed[job.table] = self.model.kept_by(job.table).copied()

    def _restore(self) -> None:
        """Tables are those of the last backup again. What was whose since is not known."""
        for job in self.jobs[1:]:
            path = os.path.join(os.fsdecode(self.world.tables), job.table)
            if os.path.exists(path + "-backup"):
                shutil.copy(path + "-backup", path)
                self.model.kept[job.table] = self.backed[job.table].copied()
                self.forget_whose(job)

    def forget_whose(self, job: Job) -> None:
        """From now on it is not known what a table knows of any copy, but for the only ones."""
        path = os.path.join(os.fsdecode(self.world.tables), job.table)
        if job.to:
            names = {name for name, entry in snapshot(self.world.target).items() if entry.kind == "file"}
            names |= {name for path in rows_of(path)[0] for name in job.copies_of(path)}
            self.model.maybe.setdefault(job.table, set()).update(names)
            self.model.left.pop(job.table, None)

    def _older(self) -> None:
        """A table, and what it wrote, is as version 1.5.2 left it."""
        tables = [job for job in self.jobs if os.path.exists(os.path.join(self.world.tables, os.fsencode(job.table)))]
        if tables:
            older.make(self, self.rng.choice(tables))

    def _hurt_only(self) -> None:
        """An only copy, or its fields, changes without a trace, is cut, is gone, or something else has its place; or it
        is as it was again."""
        found = [(job, path) for job in self.jobs[1:] for path in sorted(self.model.kept_by(job.table).sure)]
        if not found:
            return
        job, path = self.rng.choice(found)
        name, data = self.rng.choice(right_of(self.model.kept_by(job.table).sure[path], job, path))
        place, way = os.path.join(self.world.target, name), self.rng.choice(["turned", "cut", "gone", "other", "right"])
        folder = os.path.dirname(place)
        if os.path.isdir(place) or self.world.blocked(folder) or not os.path.isdir(folder):
            return
        self.log.append(f"    {name!r}: {way}")
        if way in ("gone", "other"):
            if os.path.lexists(place):
                os.unlink(place)
            if way == "other":
                put_other(place, self.rng.choice(["folder", "pipe", "link"]))
        elif os.path.isfile(place) and not os.path.islink(place):
            turned = bytes([data[0] ^ 1]) + data[1:]
            put_in_place(place, {"turned": turned, "cut": data[:self.rng.randrange(len(data))], "right": data}[way])
        elif way == "right":
            # Out of a backup that keeps no attributes.
            self.world.put(place, data, 0o644)
            self.model.only.pop(name, None)
            for its in self.jobs[1:]:
                self.model.maybe.setdefault(its.table, set()).add(name)

    def _close_or_open(self) -> None:
        """A fax or a folder cannot be read any more, or can again."""
        if self.closed:
            for name in self.closed:
                path = os.path.join(self.world.tree, name)
                if os.path.lexists(path):
                    os.chmod(path, 0o755)
            self.closed.clear()
            return
        names = [name for name, entry in snapshot(self.world.tree).items() if entry.kind in ("file", "folder")]
        if names:
            name = self.rng.choice(sorted(names))
            os.chmod(os.path.join(self.world.tree, name), 0)
            self.closed.add(name)

    def words(self, job: Job) -> Words:
        rng = self.rng
        again = rng.choice([None] * 5 + ["unread", "faulty", "all"] + (["copies"] if job.to else []))
        # Where TARGET goes it is empty then, and nothing is copied without it.
        gone = rng.random() < (0.3 if self.kind != GOING else 0.7)
        if not job.to:
            return Words(again, gone, faults_ok=rng.random() < 0.1)
        delete = rng.random() < (0.3 if self.kind != GOING else 0.9)
        give_up = tuple(it for it in LACKING if delete and (self.kind == GOING or rng.random() < 0.3))
        return Words(again, gone, delete, give_up, rng.random() < 0.1, not delete and rng.random() < 0.1,
                     delete and rng.random() < 0.3, self.kind != GOING and rng.random() < 0.4)

    def given(self, job: Job, words: Words) -> List[str]:
        """The words of the command line."""
        folders = [os.fsdecode(self.world.tree)] + ([os.fsdecode(self.world.target)] if job.to else [])
        given = ["convert" if job.to else "check", *folders,
                 "--table", f"{os.fsdecode(self.world.tables)}/{job.table}"]
        given += ["--to", *job.to] if job.to else []
        flags = {"--follow": job.follow, "--fields": job.fields, "--gone": words.gone, "--delete": words.delete,
                 "--adopt": words.adopt, "--faults-ok": words.faults_ok, "--all-or-nothing": words.whole,
                 "--salvage": words.salvage}
        given += [flag for flag, said in flags.items() if said]
        given += ["--again", words.again] if words.again else []
        given += ["--give-up", ",".join(words.give_up)] if words.give_up else []
        given += ["--share", "{}/{}".format(*job.share)] if job.share[1] > 1 else []
        return given

    def _command(self, job: Job) -> None:
        """Gives check or convert, and compares."""
        if self.kind == SECOND and self.rng.random() < 0.5 and snapshot(self.world.target):
            self._two(job, self.rng.choice([job, *self.jobs]))
            return
        words = self.words(job)
        trouble = playing.drawn_trouble(self.rng)._replace(other_user=self.other_user)
        before = Before(self.world, job, self.other_user)
        often = 0.5 if words.delete or words.again == "copies" else 0.2
        calm = not (trouble.at or trouble.largest or before.unmounted) and self.kind in (PLAIN, SECOND, GOING)
        goes = {PLAIN: often / 4, GOING: 0.8}.get(self.kind, 0.0)
        if calm and job.to and goes and self.rng.random() < goes:
            trouble = self._target_goes(before, trouble)
        elif calm and self.rng.random() < often:
            trouble = self._amid(job, before, trouble)
        given, engine = self.given(job, words), self._engine()
        self.log.append(f"{' '.join(map(ascii, (*given, *engine.words)))} {trouble}")
        ran = playing.run(given, os.fsdecode(self.world.folder), trouble, engine, self.rng)
        self._say(ran)
        if engine.words:
            trouble = self._workers_ended(trouble)
        if isinstance(trouble.event, going.Goes) and os.path.exists(os.path.join(self.world.folder, b"amid")):
            os.makedirs(self.world.target, exist_ok=True)
            going.Gone(self, job, words, trouble, before, ran).all()
        else:
            Comparison(self, job, words, trouble, before, ran).all()

    def _verify(self) -> None:
        """Has the only copies be looked at, and compares."""
        known = [job for job in self.jobs if self.model.kept_by(job.table).sure]
        job = self.rng.choice(known if known and self.rng.random() < 0.8 else self.jobs)
        if self.rng.random() < 0.5:
            self._hurt_only()
        trouble = playing.drawn_trouble(self.rng)._replace(other_user=self.other_user)
        before = Before(self.world, job, self.other_user)
        given, engine = self.verifying(job), self._engine()
        self.log.append(f"{' '.join(map(ascii, (*given, *engine.words)))} {trouble}")
        ran = playing.run(given, os.fsdecode(self.world.folder), trouble, engine, self.rng)
        self._say(ran)
        if engine.words:
            trouble = self._workers_ended(trouble)
        Verification(self, job, given, trouble, before, ran).all()

    def verifying(self, job: Job) -> List[str]:
        """The words of a verification."""
        given = ["verify", os.fsdecode(self.world.target), "--table", f"{os.fsdecode(self.world.tables)}/{job.table}"]
        return given + [word for word, share in (("--names", 0.6), ("--gone", 0.2)) if self.rng.random() < share]

    def _damage(self) -> None:
        """Bits of a table turn."""
        there = [job for job in self.jobs if rows_of(
            os.path.join(os.fsdecode(self.world.tables), job.table))[1] is not None]
        if there:
            hurting.Damage(self, self.rng.choice(there)).do()

    def _target_goes(self, before: Before, trouble: Trouble) -> Trouble:
        """Has TARGET go at some call of the run."""
        if self.other_user:
            return trouble
        event = going.Goes(self.world.target, self.world.tree, self.rng.random() < 0.5)
        return trouble._replace(at=self.rng.randint(1, 20 + 30 * len(before.seen.faxes)), event=event)

    def _workers_ended(self, trouble: Trouble) -> Trouble:
        """Waits until no worker of the last run is left, since what it has in hand it would do while all is compared.
        Those of a run that could not write its table end with it, amid whatever they do: for them that is a kill."""
        if self.cluster is None:
            there = os.fsdecode(self.world.folder)
            if not wait_for(lambda: not there_in(there)):
                raise Difference("workers of a run that has ended are left")
        elif trouble.at or trouble.largest is not None:
            self.cluster.end()
        return trouble if trouble.largest is None else trouble._replace(at=1, kill=signal.SIGKILL)

    def _say(self, ran: Ran) -> None:
        self.log.append(f"    {ran.status} {ran.out!r} {ran.error!r}")

    def _two(self, job: Job, other: Job) -> None:
        """Two runs at once, by one table or by two; compares both."""
        words = [self.words(it) for it in (job, other)]
        if other == job:
            words[1] = words[0]
        else:
            # What one run deletes the other may have seen, or not.
            words = [it._replace(delete=False, give_up=(), whole=False) for it in words]
        befores = [Before(self.world, it, False) for it in (job, other)]
        trouble = Trouble(clock=self.rng.choice([0.0, 0.0, 4e8, -4e8]))
        engine = self.rng.choice([INLINE, self._workers()])
        started = []
        for each, its, name in zip((job, other), words, ("", "2")):
            given = self.given(each, its)
            self.log.append(f"at once: {' '.join(map(ascii, (*given, *engine.words)))} {trouble}")
            started.append(Started(given, os.fsdecode(self.world.folder), trouble, engine, name=name))
            time.sleep(self.rng.choice([0.0, 0.01, 0.03]))
        rans = [it.ended() for it in started]
        for ran in rans:
            self._say(ran)
        if other == job:
            self._compare_one_table(Comparison(self, job, words[0], trouble, befores[0], rans[0]), rans)
        else:
            compare_two([Comparison(self, *it) for it in zip((job, other), words, [trouble] * 2, befores, rans)])

    @staticmethod
    def _compare_one_table(comparison: "Comparison", rans: List[Ran]) -> None:
        """One run has the table, and the other is refused it; or one came after the other, which then had done all."""
        refused = [ran for ran in rans if ran.status == 3 and "another run writes to" in ran.error]
        others = sorted((ran for ran in rans if ran not in refused), key=done_by, reverse=True)
        comparison.claim(len(refused) < 2, "both runs are refused the table")
        comparison.ran, comparison.twice = others[0], len(others) == 2
        comparison.all()
        if len(others) == 2 and not comparison.words.delete:
            comparison.claim(others[0].status == others[1].status, f"two runs: {[it.status for it in others]}")

    def _amid(self, job: Job, before: Before, trouble: Trouble) -> Trouble:
        """Has a fax change amid the run, or a stranger's file come into the place of a copy."""
        rng = self.rng
        faxes = sorted(path for path in before.seen.faxes if before.tree.get(path, _NONE).kind == "file")
        if not faxes or self.other_user or job.follow:
            return trouble
        path = rng.choice(faxes)
        if self.world.blocked(os.path.dirname(os.path.join(self.world.target, path))):
            return trouble
        at = int(1 + rng.expovariate(1 / 60))
        if not job.to or rng.random() < 0.5:
            event = Event(os.path.join(self.world.tree, path), rng.choice(sorted(self.lacks)), True)
        else:
            event = Event(os.path.join(self.world.target, job.copy_of(path)), b"a stranger's, amid", False)
        return trouble._replace(at=at, event=event)

    def _workers(self) -> Engine:
        return Engine(self.rng.choice([("--processes", "1"), ("--processes", "4")]))

    def _engine(self) -> Engine:
        """What does the faxes of a run."""
        if self.cluster is None:
            return self._workers() if self.kind == WORKERS else INLINE
        if self.rng.random() < 0.1:
            return Engine(("--dask", "--processes", "2"), self.cluster.dask, 4.0)
        return Engine(("--scheduler", self.cluster.address()), self.cluster.dask, 1.5)

    def _table(self) -> None:
        """Reads a table, which changes nothing and says what is in it."""
        job = self.rng.choice(self.jobs)
        name = os.path.join(os.fsdecode(self.world.tables), job.table)
        rows, last = rows_of(name)
        ran = playing.run(["table", name, "--csv"], os.fsdecode(self.world.folder), Trouble())
        self.log.append(f"table {job.table}: {ran.status}")
        want = 3 if last is None or not last[2] else 0
        if ran.status != want:
            raise Difference(f"table: status {ran.status}, wanted {want}: {ran.error}")
        if os.path.exists(name) and last is not None:
            found = [line["path"] for line in csv.DictReader(io.StringIO(ran.out, newline=""))]
            if [os.fsencode(it) for it in found] != sorted(rows):
                raise Difference(f"table: {found} for {sorted(rows)}")

    def _array(self) -> None:
        """Tasks of an array, of which some are killed, and the merge of their parts."""
        count = self.rng.choice([2, 3])
        folder = os.fsdecode(self.world.tables)
        jobs = [Job(f"part-{number}-{count}.sqlite", share=(number, count), follow=self.jobs[0].follow)
                for number in range(count)]
        for job in jobs:
            if self.rng.random() < 0.9:
                self._command(job)
        parts = [f"{folder}/{job.table}" for job in jobs if os.path.exists(f"{folder}/{job.table}")]
        parts = [part for part in parts if rows_of(part)[1] is not None]
        if not parts:
            return
        merged = f"{folder}/merged-{count}.sqlite"
        before = rows_of(merged)[0]
        known = [originals_of(table) for table in (merged, *parts)]
        others = [f"{folder}/{name}" for name in sorted(os.listdir(folder)) if re.fullmatch(
            rf"part-\d-[^{count}]\.sqlite", name) and rows_of(f"{folder}/{name}")[1] is not None]
        if others and self.rng.random() < 0.5:
            self._merge_others(merged, [*parts, self.rng.choice(others)])
        ran = playing.run(["merge", merged, *parts], folder, Trouble(clock=self.rng.choice([0.0, 4e8, -4e8])))
        self.log.append(f"merge {parts}: {ran.status} {ran.out!r} {ran.error!r}")
        if len({where_in(part) for part in parts}) > 1:
            # The tree was moved between two tasks.
            if ran.status != NOT_READ or rows_of(merged)[0] != before:
                raise Difference(f"merge of two trees: status {ran.status}")
            return
        self._compare_merge(before, rows_of(merged), parts, count, ran)
        self._compare_originals(originals_of(merged), known)

    def _merge_others(self, merged: str, parts: List[str]) -> None:
        """A merge with a part of an array of another size is refused, and changes nothing."""
        before = rows_of(merged)
        self.rng.shuffle(parts)
        ran = playing.run(["merge", merged, *parts], os.path.dirname(merged), Trouble())
        self.log.append(f"merge of other sizes {parts}: {ran.status} {ran.out!r} {ran.error!r}")
        if ran.status != NOT_READ or ran.out or rows_of(merged) != before:
            raise Difference(f"merge of parts of other sizes: status {ran.status}")

    @staticmethod
    def _compare_originals(after: Dict[bytes, Original], before: List[Dict[bytes, Original]]) -> None:
        """What is known of a fax as it was read, by one of the tables, is known by the one that is merged of them."""
        for path, it in after.items():
            if it not in [known.get(path) for known in before]:
                raise Difference(f"merge: the digest of {path!r}")
        lost = {path for known in before for path in known} - set(after)
        if lost & set(before[-1]):
            raise Difference(f"merge: the digests of {lost} are lost")

    def _compare_merge(self, before: Dict[bytes, Row], after: Table, parts: List[str], count: int, ran: Ran) -> None:
        rows, _ = after
        tables = [rows_of(part) for part in parts]
        whole = len(parts) == count and all(last is not None and last[2] for _, last in tables)
        all_rows: Dict[bytes, Row] = {}
        for part_rows, _ in tables:
            all_rows.update(part_rows)
        for path, row in all_rows.items():
            if path not in rows:
                raise Difference(f"merge: {path!r} is lost")
            if rows[path].verdict != row.verdict or rows[path].size != row.size:
                raise Difference(f"merge: {path!r} is {rows[path]}, wanted {row}")
        if whole and set(rows) != set(all_rows):
            raise Difference(f"merge: rows that are in no part: {set(rows) - set(all_rows)}")
        if not whole and not set(before) <= set(rows):
            raise Difference(f"merge: rows are lost: {set(before) - set(rows)}")
        worst = status_of(row.verdict.status for row in rows.values())
        if ran.status != (worst if whole else 3):
            raise Difference(f"merge: status {ran.status}, wanted {worst if whole else 3}")
