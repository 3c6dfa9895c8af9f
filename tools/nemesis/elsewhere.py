"""Hooks that act where this tool can't. Each is awaited, and asked again until it says yes."""
import asyncio
import subprocess
from argparse import Namespace
from asyncio.subprocess import Process
from collections import Counter
from collections.abc import AsyncIterator, Awaitable, Collection, Iterable, Sequence
from contextlib import asynccontextmanager, suppress

from faultyard import ClusterFile, FaultyardError, Kind
from faultyard_hooks import driver

from . import HOOK, Fault, clock
from .alone import OWN
from .hooks import Hooks, described
from .places import Place

AGAIN = 0.1  # seconds until a hook that said no is asked again
LOOKS = 1.0  # seconds between two questions whether a process lives whose `start` returned at once
SHARED = "units:here"  # by which processes have the folders that are here
DEAD = 5.0  # seconds of `ready` that says no, after which such a process counts as ended


def refused(words: Namespace, names: Collection[str], granted: Collection[Kind]) -> str | None:
    """What a run can't have with these hooks, and why."""
    away = "by the hook `kill` the processes are elsewhere"
    if words.on and "kill" not in names:
        return f"--on {words.on}: these hooks have no `kill`, so they run nothing there"
    if words.on and "here" in names and words.on != SHARED:
        return f"--on {words.on}: by `here` these hooks read files of what runs, so it runs here"
    if words.disks == OWN and "power" not in names:
        return f"--disks own needs a hook `power`{because(words.on, 'power')}"
    if words.disks == OWN and words.deaf_disks:
        return "--deaf-disks has no effect with --disks own"
    if words.net and "cut" in names and words.clog != "both":
        return f"--clog {words.clog} has no effect where the hooks `cut` and `mend` are the network"
    if words.attach is not None:
        if lack := unattached(words, names, granted):
            return lack
    if "kill" not in names:
        return None
    if words.damage:
        return f"--damage: {away}, where this tool has no disk that it damages"
    if words.disks not in (None, OWN):
        own = "--disks own has it cut" if "power" in names else "there is no hook `power`"
        return (
            f"--disks {words.disks}: {away}, where this tool has no disk whose power it cuts; {own}"
        )
    if words.net and "cut" not in names:
        text = f"--net: {away}, where this tool has no cable; there are no hooks `cut` and `mend`"
        return text + because(words.on, "cut")
    if Kind.CLOG in granted and "pause" not in names and not words.net:
        return f"Clog is granted, and {away}; there are no hooks `pause` and `resume`"
    if "plain" in names and "fetch" not in names:
        return f"`plain` is promised, and {away}; there is no hook `fetch`"
    return None


def unattached(words: Namespace, names: Collection[str], granted: Collection[Kind]) -> str | None:
    """What a run lacks that is to leave a cluster as it found it."""
    if words.on:
        on = words.on.replace(":", " ").split()[0]
        return f"--attach: what --on {on} starts ends with this tool; `start` has to leave it"
    if not (words.at or words.on):
        return "--attach needs --at, which says where the cluster is"
    needed = {"name": "says which cluster may be struck", "kill": "acts where that is"}
    if any(kind.empties_disk for kind in granted):
        needed["empty"] = "removes what a process has"
    for name, does in needed.items():
        if name not in names:
            return f"--attach needs a hook `{name}`, which {does}"
    return None


def because(on: str | None, name: str) -> str:
    """Why the driver of --on hasn't a hook, where it says that."""
    why = driver(on).cannot.get(name) if on else None
    return f": {why}" if why else ""


class Elsewhere:
    """What is done to processes by hooks, for as long as it takes."""

    def __init__(self, hooks: Hooks) -> None:
        self.hooks = hooks
        self.unfetched: set[int] = set()  # whose files could not be had
        self.running: set[int] = set()  # who may run elsewhere, and is to be killed in the end
        self.survivors: set[int] = set()  # who may run on, since no kill in the end was done

    def has(self, name: str) -> bool:
        return name in self.hooks.names

    def runs(self, process: Process) -> bool:
        """Whether a process may run, whose `start` may have returned at once."""
        return process.returncode is None or (process.returncode == 0 and self.has("kill"))

    def empties(self) -> bool:
        """Whether what was emptied is known to have nothing."""
        return self.has("empty") or not self.has("kill")

    async def done(self, name: str, *numbers: int) -> None:
        """Asks a hook until it says yes. What hangs for long ends the run."""
        if not self.has(name):
            return
        seconds = self.hooks.seconds("join")
        until = clock() + seconds
        while not await self.hooks.says(name, *numbers):
            if clock() > until:
                end = self.hooks.ends[numbers[0] if numbers else name]
                text = f"it was asked for {seconds:g} seconds, and may be done or not"
                raise Fault(HOOK, f"{end}; {text}")
            await asyncio.sleep(AGAIN)

    async def each(self, name: str, numbers: Iterable[int]) -> None:
        """Asks a hook for several processes at once."""
        await all_of(self.done(name, number) for number in numbers)

    async def struck(self, numbers: Sequence[int], is_cut: bool) -> None:
        """Has processes killed where they are, or their power cut."""
        await self.each("power" if is_cut and self.has("power") else "kill", numbers)

    async def silent(self, numbers: Iterable[int]) -> None:
        """After a kill each of them has to be unready, or what runs is not what was killed."""
        await all_of(map(self._silent, numbers))

    async def _silent(self, number: int) -> None:
        if not self.has("ready"):
            return
        until = clock() + self.hooks.limit
        while await self.hooks.says("ready", number):
            if clock() > until:
                raise Fault(HOOK, self._lives_on(number))
            await asyncio.sleep(AGAIN)
        self.hooks.ends.pop(number, None)  # which is told where it isn't back

    def _lives_on(self, number: int) -> str:
        killed = f"kill {number}" if self.has("kill") else "it"
        text = f"`ready {number}` went on to say yes for {self.hooks.limit:g} seconds after"
        if self.has("kill"):
            return f"{text} `{killed}` had said yes: one of them is wrong"
        runs = f"`start {number}` runs it where a kill doesn't reach, as by ssh"
        return f"{text} a kill: {runs}, and a hook `kill` has to; or `ready` asks another process"

    async def fetched(self, number: int) -> bool:
        """Has the files of a process, which doesn't run, copied into its folder here."""
        if number in self.survivors:
            return False
        self.unfetched.discard(number)
        try:
            await self.done("fetch", number)
        except Fault:
            self.unfetched.add(number)
        return number not in self.unfetched

    @asynccontextmanager
    async def ending(self, count: int) -> AsyncIterator[None]:
        """Whatever ends the block, what so many processes run elsewhere is killed."""
        self.running = set(range(count)) if self.has("kill") else set()
        try:
            yield
        finally:
            await self.end()

    async def end(self) -> None:
        """Kills what may run elsewhere."""
        await all_of(map(self._end, sorted(self.running)))
        self.survivors = set(self.running)

    async def _end(self, number: int) -> None:
        with suppress(Fault):
            await self.done("kill", number)
            self.running.discard(number)

    async def cleared(self, count: int) -> None:
        """At the end of all, nothing of the processes is left where they ran."""
        if self.has("kill") and self.has("empty"):
            ends = (self.hooks.call("empty", number, FY_END="1") for number in range(count))
            await asyncio.gather(*ends)


def listed(words: Namespace) -> set[str]:
    """The hooks that there are, before the run knows where it is; none where they aren't told."""
    try:
        file, limit = ClusterFile.read(words.config), words.hook_timeout * 6
        places = [Place("127.0.0.1", 0)] * len(file.places)
        env = described(file, places, words.on) | {"FY_DIR": ""}
        told = subprocess.run(
            [words.hooks, "hooks"],
            capture_output=True,
            check=False,
            env=env,
            stdin=subprocess.DEVNULL,
            text=True,
            timeout=limit,
        )
    except (FaultyardError, OSError, ValueError, subprocess.TimeoutExpired):
        return set()  # the run asks again, and says why
    return set(told.stdout.split())


class Life:
    """Whether a process runs: by its command, or by `ready` once that has returned at once."""

    def __init__(self, where: Elsewhere, number: int) -> None:
        self._where, self._number = where, number
        self._asked = self._yes = self._began = clock()

    async def goes_on(self, status: int | None, is_up: bool) -> bool:
        """Whether it may still run, by the status that `start` returned."""
        if status is None:
            return True
        if status or not self._where.has("kill"):
            return False
        now = clock()
        if not is_up:  # it is asked all the time
            self._yes = now
            return now < self._began + self._where.hooks.seconds("join")
        if now < self._asked + LOOKS:
            return True
        self._asked = now
        if await self._where.hooks.says("ready", self._number):
            self._yes = now
        return now < self._yes + DEAD


class Partitions:
    """A network whose pairs the hooks `cut` and `mend` part."""

    hosts: Sequence[str] = ()

    def __init__(self, where: Elsewhere, count: int) -> None:
        self._where, self._count = where, count
        self._lost: Counter[tuple[int, int]] = Counter()  # how often each pair is wanted
        self._turn = asyncio.Lock()

    async def begin(self) -> None:
        """Undoes what an aborted run left."""
        await self._where.done("mend")

    async def end(self) -> None:
        """Undoes what a run leaves that is broken off."""
        if any(count > 0 for count in self._lost.values()):
            await self._where.done("mend")

    def within(self, number: int) -> list[str]:
        return []

    async def clog(self, number: int, is_clogged: bool) -> None:
        """Pauses a process, or cuts it off from all others where there is no hook for that."""
        if self._where.has("pause"):
            await self._where.done("pause" if is_clogged else "resume", number)
            return
        others = [other for other in range(self._count) if other != number]
        pairs = [(number, other) for other in others] + [(other, number) for other in others]
        await self.cut(pairs, is_clogged)

    async def cut(self, pairs: Sequence[tuple[int, int]], is_cut: bool) -> None:
        """Cuts may overlap, and `mend` undoes all: those that go on are cut again."""
        async with self._turn:
            before = {it for it, count in self._lost.items() if count > 0}
            self._lost.update(dict.fromkeys(pairs, 1 if is_cut else -1))
            after = {it for it, count in self._lost.items() if count > 0}
            if before - after:
                await self._where.done("mend")
                before = set()
            await all_of(self._where.done("cut", *pair) for pair in sorted(after - before))


async def all_of(deeds: Iterable[Awaitable[None]]) -> None:
    """Does all at once; the first fault, once all have ended. Who is interrupted ends them, and is
    told by what: `gather` forgets that."""
    tasks = [asyncio.ensure_future(it) for it in deeds]
    try:
        if tasks:
            await asyncio.wait(tasks)
    except asyncio.CancelledError:
        for task in tasks:
            task.cancel()
        await asyncio.gather(*tasks, return_exceptions=True)
        raise
    for fault in await asyncio.gather(*tasks, return_exceptions=True):
        if isinstance(fault, BaseException):
            raise fault
