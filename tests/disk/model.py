"""What a disk of tools/lossy has to have: by the rules of its header and of its man page, told once
more in Python.

A call is a tuple, its name first. `Model.do` does it on the model, and says whether it is allowed.
`draw` draws one that makes sense where the model is.
"""
import os

SECTOR = 4096
NAMES = "abcdef"
LONGEST = 255  # bytes of a name
PUNCH, ZERO, KEEP = 0x03, 0x10, 0x01  # modes of fallocate
DATA = ("write", "size", "zero")  # items of a file's own chain
SYNCED = ("dsync", "sync", "rwf_dsync", "msync")  # how a write is durable at once


class Node:
    """A file, folder or symbolic link: as users see it (`live`), and as the disk has it
    (`durable`)."""

    def __init__(self, kind, mode, target=""):
        self.kind, self.mode, self.target = kind, mode, target
        empty = dict if kind == "folder" else bytearray
        self.live, self.durable = empty(), empty()
        self.is_made = False  # whether the disk has the folder, or the file by some name
        self.links = 0  # how many names the disk has of a file


def poke(old, place, data):
    if data and place > len(old):
        old.extend(bytes(place - len(old)))
    old[place : place + len(data)] = data


def paged(contents, place, length):
    """What a kernel gives a disk of a write by mmap, which it has done in memory: whole pages, up
    to the file's end."""
    first, last = place // SECTOR * SECTOR, -(-(place + length) // SECTOR) * SECTOR
    return first, bytes(contents[first:last])


def resize(old, size):
    if size < len(old):
        del old[size:]
    old.extend(bytes(size - len(old)))


def below(folder):
    yield folder
    for node in folder.durable.values():
        if node.kind == "folder":
            yield from below(node)


class Model:
    def __init__(self, is_deaf=False, is_bounded=False):
        self.is_bounded = is_bounded  # whether draw bounds what its files may hold
        self.bound = None
        self.root = Node("folder", 0o755)
        self.root.is_made = True
        self.items = []
        self.is_deaf = is_deaf
        self.partly = set()  # files of which a kernel needs to have synced a part only
        self.lagging = []  # items on names that are durable, and on a kernel's disk perhaps not
        self.grown = {}  # the last item on names that was there when a file's size changed

    # ---- what is there ----

    def at(self, path):
        node = self.root
        for name in path.split("/") if path else []:
            node = node.live.get(name) if node.kind == "folder" else None
            if node is None:
                return None
        return node

    def parent(self, path):
        folder, _, name = path.rpartition("/")
        return self.at(folder), name

    def paths(self, node=None, path=""):
        """Each path and its node, the folder first."""
        node = node or self.root
        if path:
            yield path, node
        if node.kind == "folder":
            for name, it in node.live.items():
                yield from self.paths(it, f"{path}/{name}" if path else name)

    def folders(self):
        return ["", *(path for path, node in self.paths() if node.kind == "folder")]

    def tree(self):
        """What users see: each path with its kind, mode, links, and contents or target."""
        nodes = list(self.paths())
        links = {}
        for _, node in nodes:
            links[node] = links.get(node, 0) + 1
        found = {}
        for path, node in nodes:
            what = (
                b""
                if node.kind == "folder"
                else bytes(node.live)
                if node.kind == "file"
                else node.target.encode()
            )
            found[path] = (node.kind, node.mode, links[node] if node.kind == "file" else 0, what)
        return found

    def quiet(self):
        """The paths of which nothing is unsynced, up to the top: they survive each cut as they are.

        FUSE doesn't tell a disk which part an O_SYNC write or an msync is to sync, so ours syncs
        all of the file, and a kernel that part.
        """
        unsure = [*self.items, *self.lagging]
        moved = {part for it in unsure for part in it[1:2] if isinstance(part, Node)}
        moved |= {it[6] for it in unsure if it[0] == "exchange"} | self.partly

        def walk(node, path):
            if node in moved:
                return
            if path:
                yield path
            if node.kind == "folder":
                for name, it in node.live.items():
                    yield from walk(it, f"{path}/{name}" if path else name)

        return list(walk(self.root, ""))

    # ---- calls ----

    def do(self, call):
        """Why it is refused, if it is: an errno where the disk itself says so, else `kernel`."""
        return getattr(self, call[0])(*call[1:])

    def create(self, path, kind, mode, target=""):
        folder, name = self.parent(path)
        if len(name) > LONGEST:
            return "ENAMETOOLONG"
        if name in folder.live:
            return "kernel"
        node = folder.live[name] = Node(kind, mode, target)
        self.items.append(("make", node, folder, name))
        return None

    def held(self):
        files = {node for _, node in self.paths() if node.kind == "file"}
        return sum(len(node.live) for node in files)

    def room(self, more):
        self.bound = None if more is None else self.held() + more
        return None

    def has_room(self, node, size):
        more = size - len(node.live)
        return self.bound is None or more <= max(0, self.bound - self.held()) or more <= 0

    def write(self, path, place, data, how=""):
        node = self.at(path)
        place = len(node.live) if how == "append" else place
        if not self.has_room(node, place + len(data)):
            return "ENOSPC"
        if place + len(data) > len(node.live):
            self.note_growth(node)
        poke(node.live, place, data)
        had_unsynced = node in self.partly or any(
            it[0] in DATA and it[1] is node for it in self.items
        )
        if how == "msync":
            place, data = paged(node.live, place, len(data))
        self.items.append(("write", node, place, data))
        if how in SYNCED:
            self.sync(path, "" if how == "sync" else "data")
            if had_unsynced:
                self.partly.add(node)
        return None

    def resize(self, path, size, how=""):
        node = self.at(path)
        if not self.has_room(node, size):
            return "ENOSPC"
        if size != len(node.live):
            self.note_growth(node)
        resize(node.live, size)
        self.items.append(("size", node, size))
        return None

    def allocate(self, path, mode, place, length):
        node, end = self.at(path), place + length
        old = len(node.live)
        if not mode & KEEP and old < end and (why := self.resize(path, end)):
            return why
        if mode & ~KEEP and place < old:
            data = bytes(min(end, old) - place)
            poke(node.live, place, data)
            self.items.append(("zero", node, place, data))
        return None

    def chmod(self, path, mode):
        self.at(path).mode = mode
        return None

    def remove(self, path):
        folder, name = self.parent(path)
        node = folder.live[name]
        if node.kind == "folder" and node.live:
            return "ENOTEMPTY"
        del folder.live[name]
        self.items.append(("remove", node, folder, name))
        return None

    def link(self, path, to_path):
        node, (folder, name) = self.at(path), self.parent(to_path)
        if len(name) > LONGEST:
            return "ENAMETOOLONG"
        if name in folder.live or node.kind == "folder":
            return "kernel"
        folder.live[name] = node
        self.items.append(("make", node, folder, name))
        return None

    def rename(self, path, to_path, how=""):
        (folder, name), (to, to_name) = self.parent(path), self.parent(to_path)
        node, over = folder.live[name], to.live.get(to_name)
        if len(to_name) > LONGEST:
            return "ENAMETOOLONG"
        if f"{to_path}/".startswith(f"{path}/") and over is not node:
            return "kernel"
        if how == "exchange":
            return self.exchange(folder, name, to, to_name, path, to_path)
        if over and how == "noreplace":
            return "EEXIST"
        if over is node:
            return None
        if over and (node.kind == "folder") != (over.kind == "folder"):
            return "kernel"
        if over and over.kind == "folder" and over.live:
            return "kernel" if f"{path}/".startswith(f"{to_path}/") else "ENOTEMPTY"
        del folder.live[name]
        to.live[to_name] = node
        self.items.append(("rename", node, folder, name, to, to_name))
        return None

    def exchange(self, folder, name, to, to_name, path, to_path):
        node, over = folder.live[name], to.live.get(to_name)
        if over is None:
            return "ENOENT"
        if f"{path}/".startswith(f"{to_path}/") and over is not node:
            return "kernel"
        if over is not node:
            folder.live[name], to.live[to_name] = over, node
            self.items.append(("exchange", node, folder, name, to, to_name, over))
        return None

    # ---- what is durable ----

    def sync(self, path, how=""):
        node = self.at(path)
        if self.is_deaf:
            return None
        self.partly.discard(node)
        names = [it for it in self.items if it[0] not in DATA]
        last = max(
            (place for place, it in enumerate(names) if any(part is node for part in it)),
            default=-1,
        )
        data = [it for it in self.items if it[0] in DATA and it[1] is node]
        done = {id(it) for it in (*names[: last + 1], *data)}
        for it in [*names[: last + 1], *data]:
            self.perform(it)
        self.items = [it for it in self.items if id(it) not in done]
        self.note_names(node, names[: last + 1], is_data_only=how == "data")
        return None

    def note_growth(self, node):
        """With a file's new size a kernel makes the names before it durable."""
        names = [*self.lagging, *(it for it in self.items if it[0] not in DATA)]
        self.grown[node] = names[-1] if names else None

    def note_names(self, node, names, is_data_only):
        """Ours has synced names for a node, of which a kernel may leave those that an fdatasync
        doesn't need."""
        names, grown = [*self.lagging, *names], self.grown.pop(node, None)
        needed = [it is grown if is_data_only else any(part is node for part in it) for it in names]
        self.lagging = names[max((place for place, it in enumerate(needed, 1) if it), default=0) :]

    def sync_all(self):
        for it in self.items:
            self.perform(it)
        self.items = []

    def perform(self, item):
        """Does an item on the disk; after a torn cut what it needs may not be there."""
        deed, node, *more = item
        if deed in ("write", "zero"):
            place, data = more
            zeros = deed == "zero"  # a hole doesn't make a file longer
            poke(node.durable, place, data[: max(0, len(node.durable) - place)] if zeros else data)
        elif deed == "size":
            resize(node.durable, more[0])
        elif more[0].is_made and (deed in ("make", "remove") or more[2].is_made):
            getattr(self, f"durable_{deed}")(node, *more)

    def durable_make(self, node, folder, name):
        was_removed = node.kind == "file" and node.is_made and not node.links
        if name in folder.durable or was_removed:
            return
        folder.durable[name] = node
        node.is_made = True
        node.links += 1

    def durable_remove(self, node, folder, name):
        there = folder.durable.get(name)
        if there and (there.kind == "folder") == (node.kind == "folder"):
            self.durable_take(folder, name)

    def durable_take(self, folder, name):
        there = folder.durable[name]
        if there.kind == "folder":
            if there.durable:
                return False
            there.is_made = False
        there.links -= 1
        del folder.durable[name]
        return True

    def durable_rename(self, node, folder, name, to, to_name):
        there, over = folder.durable.get(name), to.durable.get(to_name)
        if there is None or there is over or (there.kind == "folder" and to in below(there)):
            return
        if over:
            if (over.kind == "folder") != (there.kind == "folder") or not self.durable_take(
                to, to_name
            ):
                return
        to.durable[to_name] = folder.durable.pop(name)

    def durable_exchange(self, node, folder, name, to, to_name, other):
        there, over = folder.durable.get(name), to.durable.get(to_name)
        if there is None or over is None:
            return
        if (there.kind == "folder" and to in below(there)) or (
            over.kind == "folder" and folder in below(over)
        ):
            return
        folder.durable[name], to.durable[to_name] = over, there

    # ---- a power cut ----

    def parts(self):
        """The unsynced items in order, a write as its sectors."""
        for it in self.items:
            if it[0] != "write":
                yield it
                continue
            _, node, place, data = it
            while data:
                size = SECTOR - place % SECTOR
                yield "write", node, place, data[:size]
                place, data = place + size, data[size:]

    def cut(self, tear):
        """What survives, as a line of the program says it."""
        parts = list(self.parts())
        kept = [it for place, it in enumerate(parts) if tear >> place % 64 & 1]
        for it in kept:
            self.perform(it)
        self.items = []
        self.bound = None
        self.settle()
        return f"{len(kept)} of {len(parts)} unsynced items survive"

    def settle(self):
        """What the disk has is what users see."""
        seen, todo = set(), [self.root]
        while todo:
            node = todo.pop()
            if node in seen:
                continue
            seen.add(node)
            node.live = type(node.durable)(node.durable)
            if node.kind == "folder":
                todo += node.live.values()


# ---- calls at random ----

WEIGHTS = {
    "write": 24,
    "resize": 5,
    "allocate": 6,
    "create": 8,
    "remove": 6,
    "link": 3,
    "rename": 9,
    "sync": 9,
    "chmod": 2,
    "cut": 1,
    "end": 0.4,
    "room": 2,
}
HOWS = ("", "", "", "", "append", "dsync", "sync", "rwf_dsync", "direct", "msync")


def draw(dice, model):
    """A call by chance."""
    deed = dice.choices(list(WEIGHTS), list(WEIGHTS.values()))[0]
    if deed == "room":
        more = dice.choice([None, 0, dice.randrange(60000)])
        return ("room", more) if model.is_bounded else None
    paths = [path for path, _ in model.paths()]
    files = [path for path in paths if model.at(path).kind == "file"]
    name = dice.choice(NAMES) * dice.choices([1, LONGEST, LONGEST + 1], [60, 1, 2])[0]
    fresh = f"{dice.choice(model.folders())}/{name}".lstrip("/")
    some = dice.choice(paths) if paths else None
    if deed == "cut":
        tears = [0, 2**64 - 1, dice.getrandbits(64), dice.getrandbits(64) | dice.getrandbits(64)]
        return "cut", dice.choice(tears)
    if deed == "end":
        return ("end",)
    if deed == "sync" and dice.random() < 0.2:
        return "sync", "", ""
    if some is None or (deed in ("write", "resize", "allocate") and not files) or deed == "create":
        kind = dice.choices(["file", "folder", "link"], [6, 3, 1])[0]
        return (
            "create",
            fresh,
            kind,
            0o777 if kind == "link" else dice.choice([0o600, 0o644, 0o755]),
        ) + (("to/x",) if kind == "link" else ())
    if deed in ("write", "resize", "allocate"):
        return draw_change(dice, model, deed, dice.choice(files))
    if deed == "chmod":
        return (
            None
            if model.at(some).kind == "link"
            else ("chmod", some, dice.choice([0o600, 0o640, 0o700, 0o755]))
        )
    if deed == "sync":
        return None if model.at(some).kind == "link" else ("sync", some, dice.choice(["", "data"]))
    if deed == "remove":
        return "remove", some
    if deed == "link":
        return None if model.at(some).kind == "link" else ("link", some, fresh)
    how = dice.choice(["", "", "exchange", "noreplace"])
    return "rename", some, dice.choice([fresh, dice.choice(paths)]), how


def draw_change(dice, model, deed, path):
    size = len(model.at(path).live)
    if deed == "resize":
        return "resize", path, dice.choice([0, dice.randrange(20000)]), dice.choice(["", "open"])
    if deed == "allocate":
        mode = dice.choice([0, KEEP, PUNCH, ZERO, ZERO | KEEP])
        return "allocate", path, mode, dice.randrange(16000), dice.randint(1, 12000)
    how = dice.choice(HOWS)
    if how == "direct":
        return (
            "write",
            path,
            SECTOR * dice.randrange(5),
            dice.randbytes(SECTOR * dice.randint(1, 3)),
            how,
        )
    if how == "msync":
        if not size:
            return None
        place = dice.randrange(size)
        return "write", path, place, dice.randbytes(dice.randint(1, size - place)), how
    if dice.random() < 0.02:
        return "write", path, dice.randrange(3000), dice.randbytes(300000), how
    return "write", path, dice.randrange(20000), dice.randbytes(dice.randint(1, 12000)), how


def tree_at(top):
    """What is below a folder, as Model.tree has it."""
    found = {}
    for folder, folders, files in os.walk(top):
        for name in folders + files:
            path = os.path.join(folder, name)
            st = os.lstat(path)
            mode, short = st.st_mode & 0o7777, os.path.relpath(path, top)
            if os.path.islink(path):
                found[short] = ("link", 0o777, 0, os.fsencode(os.readlink(path)))
            elif os.path.isdir(path):
                found[short] = ("folder", mode, 0, b"")
            else:
                with open(path, "rb") as file:
                    data = file.read()
                assert len(data) == st.st_size, (short, len(data), st.st_size)
                found[short] = ("file", mode, st.st_nlink, data)
    return found
