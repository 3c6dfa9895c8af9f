"""Damages the files of a process that doesn't run, as disks do: a word of 64 bits says how."""
import os
import shutil
import subprocess
from collections.abc import Callable, Iterator, Mapping, Sequence
from contextlib import suppress
from dataclasses import dataclass, replace
from pathlib import Path
from random import Random
from typing import Any, NamedTuple, TypeVar

# A process can see most of them by itself. Two look as if it had never got what came later, and no
# sum of its own tells them from a crash before a sync.
NOTICED = ("bits", "zeros", "swap", "misdirect", "missing", "error")
FORGETS = ("truncate", "rollback")
KINDS = (*NOTICED, *FORGETS)
PAGE, CHUNK = 4096, 1 << 20  # bytes
AIMED = 0.8  # how often something acknowledged is looked for
SOUGHT = 16  # records that are looked for then
MOST = 256  # pages by which a file counts, so that a large one doesn't get all
NEAR = 16  # bytes before and behind a damage, by which it is known again
SHOWN = 32  # bytes that an event has of what was there, and is
NOTHING = bytes(CHUNK)
Records = Mapping[str, str]
_T = TypeVar("_T")


class Pattern(NamedTuple):
    """Which files may be damaged, below a folder, and the size of their pages."""

    glob: str
    page: int = PAGE


EVERY = Pattern("**/*")


@dataclass(frozen=True)
class Aim:
    """A place in a file, and the record that stands there, if one was found."""

    path: Path
    place: int
    page: int
    record: str = ""

    @property
    def start(self) -> int:
        """Where its page begins."""
        return self.place - self.place % self.page


@dataclass(frozen=True)
class Damage:
    """What was done, of which the words of an event tell."""

    kind: str
    forgets: bool = False
    file: str = ""
    offset: int | None = None
    length: int | None = None
    was: bytes = b""
    now: bytes = b""
    around: tuple[int, bytes] = (0, b"")  # where that begins which stands around it, and what
    record: str = ""
    other: str = ""  # the file that took its place
    taken: float | None = None  # when the copy was made that was put back

    def told(self) -> dict[str, Any]:
        """As an event has it."""
        its: dict[str, Any] = {"kind": self.kind}
        its["class"] = "forgetting" if self.forgets else "noticed"
        for name in ("file", "record", "other", "taken", "offset", "length"):
            if (value := getattr(self, name)) not in ("", None):
                its[name] = value
        shown = {"was": self.was[:SHOWN].hex(), "now": self.now[:SHOWN].hex()}
        return its | (shown if self.was else {})

    def __str__(self) -> str:
        where = f" in {self.file}" if self.file else ""
        return f"{self.kind}{where}" + (f", where {self.record} stands" if self.record else "")

    def is_there(self, folder: Path) -> bool:
        """Whether the files of a process, which doesn't run, are known to have it still."""
        path = folder / self.file
        if self.kind == "missing":
            return not path.exists()
        if self.kind == "rollback" or self.offset is None or not path.is_file():
            return False
        if self.kind == "truncate":
            return path.stat().st_size == self.offset
        try:
            at, around = self.around
            return read_at(path, at, len(around)) == around
        except OSError:
            return self.kind == "error"


class Impossible(Exception):
    """A kind of damage that can't be done to these files."""


def kinds_of(text: str) -> list[str]:
    """The kinds of a word of the command line."""
    kinds = list(NOTICED[:-1]) if text == "noticed" else text.split(",")
    if not kinds or set(kinds) - set(KINDS):
        raise ValueError(text)
    return kinds


def patterns_of(text: str) -> list[Pattern]:
    """The lines `PATTERN [PAGE]` that the hook `files` prints; all files, where it prints none."""
    found = []
    for line in text.splitlines():
        glob, *page = line.split()
        is_below = not glob.startswith("/") and ".." not in glob.split("/")
        if not is_below or len(page) > 1 or not all(it.isdecimal() for it in page):
            raise ValueError(line)
        found.append(Pattern(glob, *map(int, page)))
    if any(it.page < 1 for it in found):
        raise ValueError("a page has a byte or more")
    return found or [EVERY]


def words_of(seed: int) -> Iterator[int]:
    """A word for each order that destroys, drawn apart, so that a seed has the same orders."""
    dice = Random(f"{seed}-damage")
    while True:
        yield dice.getrandbits(64)


# Which files there are, and where something stands in them.


def files_of(folder: Path, patterns: Sequence[Pattern]) -> dict[Path, int]:
    """The files that have something, in order, with the sizes of their pages."""
    found: dict[Path, int] = {}
    for pattern in patterns:
        for path in folder.glob(pattern.glob):
            if path.is_file() and not path.is_symlink() and path.stat().st_size:
                found.setdefault(path, pattern.page)
    return dict(sorted(found.items()))


def extents(path: Path) -> list[tuple[int, bytes]]:
    """What a file has but for its holes: where each part begins, and its bytes."""
    found, opened = [], os.open(path, os.O_RDONLY)
    try:
        at, end = 0, os.fstat(opened).st_size
        with suppress(OSError):  # there are no more data
            while at < end:
                at = os.lseek(opened, at, os.SEEK_DATA)
                until = os.lseek(opened, at, os.SEEK_HOLE)
                found.append((at, os.pread(opened, until - at, at)))
                at = until
    finally:
        os.close(opened)
    return found


def pages_of(parts: Sequence[tuple[int, bytes]], page: int) -> list[int]:
    """Where the pages begin that aren't all zero."""
    found = dict[int, None]()
    for begin, data in parts:
        for first in range(0, len(data), CHUNK):
            chunk = data[first : first + CHUNK]
            if chunk == NOTHING[: len(chunk)]:
                continue
            for at in range(0, len(chunk), page):
                if chunk[at : at + page].strip(b"\0"):
                    place = begin + first + at
                    found[place - place % page] = None
    return [*found]


def place_of(parts: Sequence[tuple[int, bytes]], value: str) -> int:
    """Where a value stands last in a file, or -1."""
    for begin, data in reversed(parts):
        if (at := data.rfind(value.encode())) >= 0:
            return begin + at
    return -1


def drawn(share: float, its: Sequence[_T]) -> _T:
    """One of some, by a share of them below 1."""
    return its[int(share * len(its))]


def aim(dice: Random, files: Mapping[Path, int], records: Records) -> Aim:
    """Most often where something acknowledged stands; else at any page that has something.

    All is drawn as a share, so that a replay strikes nearly the same where it has a few records
    more.
    """
    parts, keys = {path: extents(path) for path in files}, [*records]
    aimed, which, *shares = (dice.random() for _ in range(2 + SOUGHT))
    for key in [drawn(share, keys) for share in shares if aimed < AIMED and keys]:
        places = {path: place_of(parts[path], records[key]) for path in files}
        if found := [path for path, place in places.items() if place >= 0]:
            path = drawn(which, found)
            place = places[path] + dice.randrange(len(records[key]))
            return Aim(path, place, files[path], key)
    pages = {path: pages_of(parts[path], page) for path, page in files.items()}
    files = {path: page for path, page in files.items() if pages[path]}
    if not files:
        raise Impossible
    path = dice.choices([*files], [min(len(pages[it]), MOST) for it in files])[0]
    place = drawn(dice.random(), pages[path]) + dice.randrange(files[path])
    return Aim(path, min(place, path.stat().st_size - 1), files[path])


# What is done.


def damage(
    word: int,
    number: int,
    kinds: Sequence[str],
    folder: Path,
    patterns: Sequence[Pattern],
    records: Records,
    copies: Sequence[Path] = (),
) -> Damage | None:
    """Damages the folder of a process as a word says; what was done, if anything could be.

    Of `error` it only says where: it is the disk's to do.
    """
    dice, files = Random(f"{word}-{number}"), files_of(folder, patterns)
    for kind in dice.sample([*kinds], len(kinds)):
        with suppress(Impossible):
            if kind == "rollback":
                return rolled_back(dice, folder, copies)
            found = aim(dice, files, records)
            done = DEEDS[kind](dice, found, files)
            # Where nothing is left at all, a process has nothing to see it by.
            forgets = done.forgets or not files_of(folder, [EVERY])
            name = str(found.path.relative_to(folder))
            return replace(done, file=name, record=found.record, forgets=forgets)
    return None


def flip(dice: Random, aim: Aim, files: Mapping[Path, int]) -> Damage:
    """Turns a bit. In a value, which is text, one of the lower three: it stays a text."""
    old = read_at(aim.path, aim.place, 1)
    new = bytes([old[0] ^ 1 << dice.randrange(3 if aim.record else 8)])
    return overwritten("bits", aim.path, aim.place, new)


def zero(dice: Random, aim: Aim, files: Mapping[Path, int]) -> Damage:
    """A page that was never written, or lost."""
    return overwritten("zeros", aim.path, aim.start, bytes(aim.page))


def misdirect(dice: Random, aim: Aim, files: Mapping[Path, int]) -> Damage:
    """A page of the file that was written to the place of another."""
    other = other_page(dice, aim)
    return overwritten("misdirect", aim.path, aim.start, read_at(aim.path, other, aim.page))


def swap(dice: Random, aim: Aim, files: Mapping[Path, int]) -> Damage:
    """Two files of a folder have each other's name; of one alone two pages each other's place."""
    path = aim.path
    near = [it for it in files if it.parent == path.parent and it != path]
    alike = [it for it in near if it.suffix == path.suffix] or near
    if alike:
        other, third = dice.choice(alike), path.with_name(f"{path.name}.swap")
        for one, two in ((path, third), (other, path), (third, other)):
            os.rename(one, two)
        sync(path.parent)
        return Damage("swap", other=other.name)
    at = other_page(dice, aim)
    here, there = read_at(path, aim.start, aim.page), read_at(path, at, aim.page)
    overwritten("swap", path, at, here)
    return overwritten("swap", path, aim.start, there)


def truncate(dice: Random, aim: Aim, files: Mapping[Path, int]) -> Damage:
    """Cuts a file off: what stands from there on is gone."""
    os.truncate(aim.path, aim.place)
    sync(aim.path)
    return Damage("truncate", forgets=True, offset=aim.place)


def remove(dice: Random, aim: Aim, files: Mapping[Path, int]) -> Damage:
    """Removes a file."""
    aim.path.unlink()
    sync(aim.path.parent)
    return Damage("missing")


def spoil(dice: Random, aim: Aim, files: Mapping[Path, int]) -> Damage:
    """Where the disk has to answer reads with EIO."""
    length = min(aim.page, aim.path.stat().st_size - aim.start)
    return Damage("error", offset=aim.start, length=length, around=(aim.start, b"?" * length))


DEEDS: Mapping[str, Callable[[Random, Aim, Mapping[Path, int]], Damage]] = {
    "bits": flip,
    "zeros": zero,
    "misdirect": misdirect,
    "swap": swap,
    "truncate": truncate,
    "missing": remove,
    "error": spoil,
}


def other_page(dice: Random, aim: Aim) -> int:
    """Where another page of the file begins that has something else."""
    here, pages = read_at(aim.path, aim.start, aim.page), pages_of(extents(aim.path), aim.page)
    for other in dice.sample(pages, len(pages)):
        there = read_at(aim.path, other, aim.page)
        if there != here and len(there) == len(here):
            return other
    raise Impossible


def read_at(path: Path, offset: int, length: int) -> bytes:
    with path.open("rb") as file:
        file.seek(offset)
        return file.read(length)


def overwritten(kind: str, path: Path, offset: int, new: bytes) -> Damage:
    """Overwrites what a file has at a place; it doesn't grow."""
    with path.open("r+b") as file:
        file.seek(offset)
        old = file.read(len(new))
        new = new[: len(old)]
        if new == old:
            raise Impossible
        file.seek(offset)
        file.write(new)
        file.flush()
        os.fsync(file.fileno())
    at = max(0, offset - NEAR)
    around = at, read_at(path, at, offset - at + len(new) + NEAR)
    return Damage(kind, offset=offset, length=len(new), was=old, now=new, around=around)


def rolled_back(dice: Random, folder: Path, copies: Sequence[Path]) -> Damage:
    """Puts an older copy in the place of what a folder has."""
    if not copies:
        raise Impossible
    copy = dice.choice(sorted(copies))
    for path in [*folder.iterdir()]:
        if path.is_dir() and not path.is_symlink():
            shutil.rmtree(path)
        else:
            path.unlink()
    # With owners, which some stores look at, and holes.
    subprocess.run(["cp", "-a", f"{copy}/.", folder], check=True)
    for path in [*folder.rglob("*"), folder]:
        if path.is_dir() or path.is_file():
            sync(path)
    return Damage("rollback", forgets=True, taken=float(copy.name))


def sync(path: Path) -> None:
    """Has a file, or the names of a folder, be durable."""
    opened = os.open(path, os.O_RDONLY)
    try:
        os.fsync(opened)
    finally:
        os.close(opened)
