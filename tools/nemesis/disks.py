"""The disks of the processes: a power cut loses what wasn't synced. Folder N of a run is one."""
import asyncio
import ctypes
import fcntl
import os
import re
import shutil
import signal
import struct
from abc import ABC, abstractmethod
from argparse import Namespace
from collections.abc import Coroutine, Iterable, Iterator, Sequence
from functools import partial
from pathlib import Path
from random import Random
from subprocess import DEVNULL, Popen
from typing import Any, NamedTuple

from keeper import PR_SET_PDEATHSIG, PRCTL, output

from . import TOOL, Fault
from .alone import lossy_program

KINDS = ("ext4", "xfs", "lossy")
IMAGE = 1 << 30  # bytes of a kernel's disk, of which only what is written takes room
MOUNTED = 10.0  # seconds for which a disk may be mounted
LIBC, MNT_DETACH = ctypes.CDLL(None, use_errno=True), 2


class Cut(NamedTuple):
    """How many unsynced items there were, and how many survived; a kernel doesn't tell."""

    survived: int | None = None
    unsynced: int | None = None

    def __add__(self, other: object) -> "Cut":
        if not isinstance(other, Cut) or self.survived is None or other.survived is None:
            return Cut()
        return Cut(self.survived + other.survived, (self.unsynced or 0) + (other.unsynced or 0))

    def __str__(self) -> str:
        if self.survived is None:
            return "what was unsynced is lost"
        return f"{self.survived} of {self.unsynced} unsynced items survive"


class Disks(ABC):
    """What is done to one disk ends before another deed begins, though who asked is cancelled."""

    def __init__(self, out: Path, count: int) -> None:
        self._out, self._count = out, count
        self._turns = [asyncio.Lock() for _ in range(count)]
        self._deeds = set[asyncio.Task[Cut]]()

    async def begin(self) -> None:
        """Mounts all of them, with nothing on them."""
        await asyncio.gather(*map(self.replace, range(self._count)))

    async def again(self, numbers: Iterable[int]) -> None:
        """Mounts those of a run that died, with what they have."""

        async def one(number: int) -> Cut:
            await self._insert(number)
            return Cut()

        await asyncio.gather(*(self._begun(number, one(number)) for number in numbers))

    async def cut(self, numbers: Sequence[int], tear: int) -> Cut:
        """Cuts the power of all at once, and mounts them again."""

        async def one(number: int) -> Cut:
            found = await self._cut(number, tear)
            await self._insert(number)
            return found

        done = [self._begun(number, one(number)) for number in numbers]
        return sum(await asyncio.gather(*done), Cut(0, 0))

    async def replace(self, number: int) -> None:
        """Puts a disk with nothing on it in the place of one."""

        async def one() -> Cut:
            await self._discard(number)
            self.folder(number).mkdir(exist_ok=True)
            await self._insert(number)
            return Cut()

        await self._begun(number, one())

    async def settle(self) -> None:
        """Waits for what is still being done, though who asked for it is cancelled.

        A command that is cancelled as it starts would hang Python 3.11.2, which Debian 12 has.
        """
        await asyncio.gather(*self._deeds, return_exceptions=True)

    async def end(self) -> None:
        """Takes all of them off in order, so that the run's folder has what is on them."""
        await asyncio.gather(*map(self._end, range(self._count)))

    def _begun(self, number: int, deed: Coroutine[None, None, Cut]) -> asyncio.Future[Cut]:
        """A deed that goes on though who asked for it is cancelled."""
        task = asyncio.create_task(self._alone(number, deed))
        self._deeds.add(task)
        task.add_done_callback(self._deeds.discard)
        return asyncio.shield(task)

    async def _alone(self, number: int, deed: Coroutine[None, None, Cut]) -> Cut:
        async with self._turns[number]:
            return await deed

    def folder(self, number: int) -> Path:
        return self._out / str(number)

    @abstractmethod
    async def _insert(self, number: int) -> None:
        """Mounts a disk."""

    @abstractmethod
    async def _cut(self, number: int, tear: int) -> Cut:
        """Cuts the power of a disk, which isn't mounted then."""

    @abstractmethod
    async def _end(self, number: int) -> None:
        """Takes a disk off once all is durable, if it is mounted."""

    @abstractmethod
    async def _discard(self, number: int) -> None:
        """Takes a disk away, with what is on it, if there is one."""

    async def spoil(self, number: int, file: str, place: int, length: int) -> None:
        """Has a part of a file be unreadable, on a disk of ours."""
        raise Fault(TOOL, "a disk of the kernel has no bad sectors")

    async def order(self, number: int, *words: object) -> None:
        """Has a disk of ours be slow, or full, or neither."""
        raise Fault(TOOL, "a disk of the kernel isn't slow or full by an order")

    def remove(self, number: int) -> None:
        """Takes away what the run's folder has of a disk."""
        kept = self.kept(number)
        if kept.is_dir():
            shutil.rmtree(kept, ignore_errors=True)
        else:
            kept.unlink(missing_ok=True)

    @abstractmethod
    def kept(self, number: int) -> Path:
        """Where the run keeps what the disk has."""


class Lossy(Disks):
    """Disks of faultyard-lossy, which loses exactly what wasn't synced, but for a tear."""

    def __init__(self, out: Path, count: int, program: str, is_deaf: bool) -> None:
        super().__init__(out, count)
        self._program, self._words = program, ["--deaf"] if is_deaf else []
        self._serving: dict[int, Popen[bytes]] = {}
        # What each was ordered to be last, by the order's name.
        self._ordered: list[dict[object, tuple[object, ...]]] = [{} for _ in range(count)]

    def kept(self, number: int) -> Path:
        return self._out / f"{number}.disk"

    async def spoil(self, number: int, file: str, place: int, length: int) -> None:
        await done(self._program, "fail", self.folder(number) / file, place, length)

    async def order(self, number: int, *words: object) -> None:
        """It is so behind a power cut too. A disk that takes its place is neither."""

        async def one() -> Cut:
            self._ordered[number][words[0]] = words
            await self._give(number, *words)
            return Cut()

        await self._begun(number, one())

    async def _give(self, number: int, name: object, *more: object) -> None:
        await done(self._program, name, self.folder(number), *more)

    async def _insert(self, number: int) -> None:
        folder, disk = self.folder(number), self.kept(number)
        disk.mkdir(exist_ok=True)
        words = [self._program, "mount", "--foreground", *self._words, str(disk), str(folder)]
        with (self._out / "disks.log").open("ab") as log:
            self._serving[number] = begun(words, stderr=log)
        try:
            async with asyncio.timeout(MOUNTED):
                while not os.path.ismount(folder) and self._serving[number].poll() is None:
                    await asyncio.sleep(0.005)
        except TimeoutError:
            pass
        if not os.path.ismount(folder):
            raise Fault(TOOL, f"no disk is mounted at {folder}; {log.name} may say why")
        for name, *more in self._ordered[number].values():
            await self._give(number, name, *more)

    async def _cut(self, number: int, tear: int) -> Cut:
        said = await done(self._program, "cut", self.folder(number), tear)
        await asyncio.to_thread(self._serving.pop(number).wait)
        counts = re.match(r"(\d+) of (\d+) ", said)
        return Cut(*map(int, counts.groups())) if counts else Cut()

    async def _end(self, number: int) -> None:
        if serving := self._serving.pop(number, None):
            await done(self._program, "unmount", self.folder(number))
            await asyncio.to_thread(serving.wait)

    async def _discard(self, number: int) -> None:
        if serving := self._serving.pop(number, None):
            serving.kill()
            await asyncio.to_thread(serving.wait)
            LIBC.umount2(bytes(self.folder(number)), MNT_DETACH)
        self._ordered[number].clear()
        self.remove(number)


class Kernel(Disks):
    """Images with a file system of the kernel, which shuts it down as a power cut would."""

    SHUTDOWN, LOG_FLUSHED, LOG_LOST = 0x8004587D, 1, 2  # FS_IOC_SHUTDOWN

    def __init__(self, out: Path, count: int, kind: str) -> None:
        super().__init__(out, count)
        self._kind, self._mounted = kind, set[int]()

    def kept(self, number: int) -> Path:
        return self._out / f"{number}.image"

    async def _insert(self, number: int) -> None:
        image = self.kept(number)
        if not image.exists():
            with image.open("xb") as file:
                file.truncate(IMAGE)
            await done(f"mkfs.{self._kind}", "-q", image)
        await done("mount", "-o", "loop", image, self.folder(number))  # the kernel frees the loop
        self._mounted.add(number)

    async def _cut(self, number: int, tear: int) -> Cut:
        flags = struct.pack("I", self.LOG_FLUSHED if tear & 1 else self.LOG_LOST)
        opened = os.open(self.folder(number), os.O_RDONLY)
        try:
            # Where nothing is mounted, this would shut down the machine's own file system.
            if os.fstat(opened).st_dev == self._out.stat().st_dev:
                raise Fault(TOOL, f"no disk is mounted at {self.folder(number)}")
            fcntl.ioctl(opened, self.SHUTDOWN, flags)
        finally:
            os.close(opened)
        await self._take_off(number)
        return Cut()

    async def _end(self, number: int) -> None:
        if number in self._mounted:
            await self._take_off(number)

    async def _discard(self, number: int) -> None:
        await self._end(number)
        self.remove(number)

    async def _take_off(self, number: int) -> None:
        await done("umount", self.folder(number))
        self._mounted.remove(number)


def tears_of(words: Namespace) -> Iterator[int]:
    """A tear for each order, drawn apart, so that a seed has the same orders without."""
    dice = Random(f"{words.seed}-tear")
    while True:
        drawn = dice.choice([0, 0, dice.getrandbits(64), 2**64 - 1])
        yield drawn if words.disks and words.tear == "draw" else 0


async def done(*words: object) -> str:
    """What a command prints, which may not fail."""
    status, text = await output(*words)
    if status:
        raise Fault(TOOL, f"{' '.join(map(str, words))} ended with status {status}")
    return text


def begun(words: Sequence[str], **more: Any) -> Popen[bytes]:
    """A process that serves the run, and dies with the thread that calls this: the tool's first."""
    die, more = partial(die_with, os.getpid()), {"stdin": DEVNULL} | more
    return Popen(words, start_new_session=True, preexec_fn=die, **more)


def die_with(parent: int) -> None:
    """Called in a child: it is killed once its parent has gone, and ends if that was earlier."""
    PRCTL(PR_SET_PDEATHSIG, signal.SIGKILL)
    if os.getppid() != parent:
        os._exit(1)


def disks_of(words: Namespace, count: int) -> Disks:
    """The disks of a run."""
    if words.disks == "lossy":
        return Lossy(words.out, count, lossy_program(), words.deaf_disks)
    return Kernel(words.out, count, words.disks)
