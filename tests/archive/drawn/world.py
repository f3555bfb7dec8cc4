"""A drawn tree with all that stands around it, and what happens to it between and amid commands."""

import fcntl
import os
import random
import shutil
import stat
from typing import Dict, List, NamedTuple, Optional, Tuple

NAMES = [b"a.tif", b"b.TIFF", b"caf\xe9.tif", b"a\nline.tif", b"c\rr.tif", b"-o.tif", b"it's \"one\", or.tif",
         b"\xff.Tif",
         "p\u00e4ge.tif".encode(), b"x.tif.fields.tif", b"d.tif"]
FOLDERS = [b"", b"one", b"one/two", b"thr\xe9e", b"one/f.tif"]
# More of a tree whose copies are to stand in a folder that folds case.
FOLDED_NAMES = [b"A.TIF", b"A.tif", b"B.tiff", b"D.TIF", b"CAF\xe9.TIF", b"-O.tif", b"x.TIF.fields.tif"]
FOLDED_FOLDERS = [b"ONE", b"One/Two", b"ONE/F.tif"]
MODES = [0o644, 0o600, 0o640, 0o444, 0o755, 0o660]
FOLDER_MODES = [0o755, 0o700, 0o750, 0o711]


class Entry(NamedTuple):
    """What stands under a name."""

    kind: str
    mode: int
    owner: Tuple[int, int]
    mtime: int
    data: bytes


def entry_of(path: bytes) -> Entry:
    told = os.lstat(path)
    mode, owner = stat.S_IMODE(told.st_mode), (told.st_uid, told.st_gid)
    if stat.S_ISLNK(told.st_mode):
        return Entry("link", 0, owner, 0, os.readlink(path))
    if stat.S_ISDIR(told.st_mode):
        return Entry("folder", mode, owner, 0, b"")
    if stat.S_ISREG(told.st_mode):
        with open(path, "rb") as file:
            return Entry("file", mode, owner, told.st_mtime_ns, file.read())
    return Entry("pipe", mode, owner, told.st_mtime_ns, b"")


def put_in_place(path: bytes, data: bytes, later: int = 0) -> None:
    """Gives a file other bytes, and leaves all else as it is, also the time of change, or makes that so much later."""
    when = os.stat(path).st_mtime_ns + later
    with open(path, "r+b") as file:
        file.truncate(0)
        file.write(data)
    os.utime(path, ns=(when, when))


def put_other(path: bytes, kind: str) -> None:
    """What is no file comes into a place."""
    if kind == "folder":
        os.mkdir(path)
    elif kind == "pipe":
        os.mkfifo(path)
    else:
        os.symlink(b"nowhere", path)


def folded(name: bytes) -> bytes:
    """A name as it is known in a folder that folds case."""
    return name.lower()


def snapshot(folder: bytes) -> Dict[bytes, Entry]:
    """All that stands below a folder, by the names there; no link is followed."""
    found: Dict[bytes, Entry] = {}
    waiting = [b""]
    while waiting:
        below = waiting.pop()
        for name in os.listdir(os.path.join(folder, below)):
            path = os.path.join(below, name)
            found[path] = entry_of(os.path.join(folder, path))
            if found[path].kind == "folder":
                waiting.append(path)
    return found


class World:
    """The folders of one episode: tree, target, outside, and where the tables are."""

    def __init__(self, folder: str, rng: random.Random, contents: List[bytes], folds: bool = False) -> None:
        self.folder, self.rng, self.contents, self.folds = os.fsencode(folder), rng, contents, folds
        # What becomes of a fax where a bit turns, and, where it has turned, what it was.
        self.turned: Dict[bytes, Tuple[bytes, ...]] = {}
        self.names = NAMES + FOLDED_NAMES if folds else NAMES
        self.folders = FOLDERS + FOLDED_FOLDERS if folds else FOLDERS
        self.tree, self.target, self.outside, self.tables = (
            os.path.join(self.folder, name) for name in (b"tree", b"target", b"outside", b"tables"))
        for name in (self.tree, self.target, self.outside, self.tables):
            os.makedirs(name, exist_ok=True)
        self.clock = 1_500_000_000_000_000_000
        # The faxes that other programs have open to write, or have locked.
        self.writers: List[int] = []
        for _ in range(rng.randint(4, 14)):
            self.new_fax(self.tree)
        for _ in range(rng.randint(0, 3)):
            self.new_fax(self.outside)
        self.put(os.path.join(self.tree, b"other.txt"), b"no fax", 0o644)
        for _ in range(rng.randint(0, 3)):
            self.new_link()

    def put(self, path: bytes, data: bytes, mode: int, mtime: Optional[int] = None) -> None:
        """Writes a file with a time of its own, which is later than all before, or earlier than all."""
        os.makedirs(os.path.dirname(path), exist_ok=True)
        if os.path.lexists(path):
            os.unlink(path)
        with open(path, "wb") as file:
            file.write(data)
        os.chmod(path, mode)
        self.clock += self.rng.randrange(1, 10**12)
        late = self.clock if self.rng.random() < 0.8 else self.clock - 10**18
        when = late if mtime is None else mtime
        os.utime(path, ns=(when, when))

    def new_fax(self, root: bytes) -> None:
        folder = os.path.join(root, self.rng.choice(self.folders))
        path = os.path.join(folder, self.rng.choice(self.names))
        fresh = not os.path.isdir(folder)
        if os.path.isdir(path) or self.blocked(folder):
            return
        os.makedirs(folder, exist_ok=True)
        if fresh:
            os.chmod(folder, self.rng.choice(FOLDER_MODES))
        self.put(path, self.rng.choice(self.contents), self.rng.choice(MODES))
        if os.geteuid() == 0 and self.rng.random() < 0.3:
            os.chown(path, 1234, 4321)

    def blocked(self, folder: bytes) -> bool:
        """Whether a folder cannot be made, or is reached by a link."""
        while folder != self.folder:
            if os.path.lexists(folder) and (os.path.islink(folder) or not os.path.isdir(folder)):
                return True
            folder = os.path.dirname(folder)
        return False

    def new_link(self) -> None:
        """A link in the tree: to a fax, to a folder elsewhere, back, or to nowhere."""
        leads = [b"other.txt", os.path.join(self.outside, b""), b"..", b".", b"nowhere", b"one",
                 self.outside + b"/a.tif", b"../outside/one", b"one/two", self.tree + b"/b.TIFF"]
        path = os.path.join(self.tree, self.rng.choice([b"l.tif", b"link", b"m.tif", b"zlink", b"a link.tif"]))
        if not os.path.lexists(path):
            os.symlink(self.rng.choice(leads), path)

    def faxes(self) -> List[bytes]:
        """The regular faxes of the tree, by their names below it."""
        return sorted(name for name, entry in snapshot(self.tree).items()
                      if entry.kind == "file" and name.lower().endswith((b".tif", b".tiff")))

    def any_fax(self) -> Optional[bytes]:
        faxes = self.faxes()
        return self.rng.choice(faxes) if faxes else None

    def change(self) -> None:
        """A fax gets other bytes."""
        fax = self.any_fax()
        if fax is not None:
            self.put(os.path.join(self.tree, fax), self.rng.choice(self.contents), self.rng.choice(MODES))

    def touch(self) -> None:
        """A fax gets another time."""
        fax = self.any_fax()
        if fax is not None:
            path = os.path.join(self.tree, fax)
            self.put(path, entry_of(path).data, self.rng.choice(MODES))

    def turn(self) -> None:
        """A bit of a fax turns, or turns back: it keeps its size and its time of change."""
        faxes = [name for name in self.faxes() if entry_of(os.path.join(self.tree, name)).data in self.turned]
        if faxes:
            path = os.path.join(self.tree, self.rng.choice(faxes))
            put_in_place(path, self.rng.choice(self.turned[entry_of(path).data]))

    def vanish(self) -> None:
        fax = self.any_fax()
        if fax is not None:
            os.unlink(os.path.join(self.tree, fax))

    def move(self) -> None:
        """A fax goes to another name."""
        fax = self.any_fax()
        to = os.path.join(self.tree, self.rng.choice(self.folders[:2]), self.rng.choice(self.names))
        if fax is not None and not os.path.lexists(to) and not self.blocked(os.path.dirname(to)):
            os.makedirs(os.path.dirname(to), exist_ok=True)
            os.rename(os.path.join(self.tree, fax), to)

    def move_tree(self) -> None:
        """The whole archive goes to another folder."""
        to = self.tree + b"+"
        if not any(entry.kind == "link" for entry in snapshot(self.tree).values()) and len(to) < 200:
            os.rename(self.tree, to)
            self.tree = to

    def hard_link(self) -> None:
        """A fax gets a second name."""
        fax = self.any_fax()
        to = os.path.join(self.tree, self.rng.choice(self.folders[:2]), self.rng.choice(self.names))
        if fax is not None and not os.path.lexists(to) and os.path.isdir(os.path.dirname(to)) and (
                not self.blocked(os.path.dirname(to))):
            os.link(os.path.join(self.tree, fax), to)

    def write(self) -> None:
        """Another program opens a fax to write, or locks it; or all that have one close it."""
        fax = self.any_fax()
        if self.writers or fax is None:
            self.close_writers()
            return
        way = self.rng.choice([os.O_WRONLY, os.O_RDWR, os.O_RDONLY])
        self.writers.append(os.open(os.path.join(self.tree, fax), way))
        if way == os.O_RDONLY:
            fcntl.flock(self.writers[-1], fcntl.LOCK_EX)

    def close_writers(self) -> None:
        """The programs that have faxes open close them."""
        while self.writers:
            os.close(self.writers.pop())

    def is_written(self, told: os.stat_result) -> bool:
        """Whether another program has a file open to write, or has locked it."""
        return any(os.path.samestat(told, os.fstat(it)) for it in self.writers)

    def more(self) -> None:
        self.new_fax(self.tree)

    def copies(self) -> List[bytes]:
        """The files below the target."""
        return sorted(name for name, entry in snapshot(self.target).items() if entry.kind == "file")

    def hurt_copy(self) -> None:
        """A copy is cut, changed, changed without a trace, deleted, or gets another time."""
        copies = self.copies()
        if not copies:
            return
        path = os.path.join(self.target, self.rng.choice(copies))
        entry = entry_of(path)
        way = self.rng.choice(["cut", "changed", "rot", "gone", "time"])
        if way == "gone":
            os.unlink(path)
            return
        data = entry.data
        if way == "cut":
            data = data[:self.rng.randrange(len(data))] if data else data
        elif way in ("changed", "rot") and data:
            at = self.rng.randrange(len(data))
            data = data[:at] + bytes([data[at] ^ 1]) + data[at + 1:]
        put_in_place(path, data, 0 if way == "rot" else 1000)

    def foreign(self) -> None:
        """Something of somebody else comes into the place of a copy or of its fields, or of a folder on the way."""
        name = self.rng.choice([os.path.join(folder, name) for folder in self.folders[:4] for name in self.names])
        name += self.rng.choice([b"", b"", b".fields", b".pbm"])
        path = os.path.join(self.target, name)
        if os.path.lexists(path) or self.blocked(os.path.dirname(path)):
            return
        os.makedirs(os.path.dirname(path), exist_ok=True)
        way = self.rng.choice(["file", "file", "fax", "pipe", "link", "link to tree", "folder"])
        if way in ("file", "fax"):
            self.put(path, b"of somebody else" if way == "file" else self.rng.choice(self.contents), 0o640)
        elif way == "pipe":
            os.mkfifo(path)
        elif way == "folder":
            os.mkdir(path)
        else:
            os.symlink(self.outside + b"/a.tif" if way == "link" else os.path.join(self.tree, b"a.tif"), path)

    def link_in_target(self) -> None:
        """A folder on the way to a copy is a link back into the tree, or elsewhere."""
        path = os.path.join(self.target, self.rng.choice([b"one", self.folders[3], b"one/two"]))
        if not os.path.lexists(path) and os.path.isdir(os.path.dirname(path)
                                                       ) and not self.blocked(os.path.dirname(path)):
            os.symlink(self.rng.choice([os.path.join(self.tree, b"one"), self.outside, self.tree]), path)

    def away(self) -> None:
        """All faxes are gone, as if nothing was mounted; or half of them."""
        part = self.rng.choice([0.0, 0.5])
        for fax in self.faxes():
            if self.rng.random() >= part:
                os.unlink(os.path.join(self.tree, fax))

    def remove(self) -> None:
        shutil.rmtree(self.folder)
