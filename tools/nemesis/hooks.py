"""The user's hooks: one executable, called as HOOKS NAME [N] .."""
import asyncio
import os
import shutil
from argparse import Namespace
from asyncio.subprocess import PIPE, Process
from collections.abc import AsyncIterator, Callable, Collection, Sequence
from contextlib import asynccontextmanager, suppress
from pathlib import Path
from typing import Any, NamedTuple

import faultyard
from faultyard import ClusterFile, Key
from faultyard.ledger import Ledger

from . import HOOK, USAGE, Fault
from .hook_log import HookLog
from .machine import Machine
from .places import Place

NEEDED = {"start", "whole", "write", "read"}
KNOWN = NEEDED | {"hooks", "setup", "ready", "join", "leave", "elect", "pause", "resume"}
KNOWN |= {"check", "get", "salvage", "files", "stop", "rescue"}
# These act where the tool can't.
KNOWN |= {"kill", "empty", "fetch", "power", "cut", "mend", "name"}
# These are no hooks, but promises: no answer of check lags; records stand in files as written.
KNOWN |= {"fresh", "plain"}
# And these read files of what runs: so that has to be on this machine.
KNOWN |= {"here"}
# Some copy: they have six times as long.
SLOW = {"hooks", "setup", "join", "elect", "read", "salvage", "fetch", "rescue"}
# One without the other is wrong.
NEEDS = {"pause": "resume", "resume": "pause", "fresh": "check", "plain": "salvage"}
NEEDS |= {"cut": "mend", "mend": "cut", "kill": "ready"}
SAID = 160  # characters of what a hook said that are told
SOURCES = str(Path(faultyard.__file__).parents[1])


class End(NamedTuple):
    """How a call of a hook ended."""

    call: str
    status: int | None  # None where it hung
    said: str = ""  # the last line of its standard error

    def __str__(self) -> str:
        how = "hung" if self.status is None else f"ended with status {self.status}"
        return f"{self.call} {how}{f' ({self.said[:SAID]})' if self.said else ''}"


class Hooks:
    def __init__(
        self,
        words: Namespace,
        file: ClusterFile,
        ledger: Ledger,
        machine: Machine,
        places: Sequence[Place],
    ) -> None:
        self.names = {"hooks"}  # which there are
        self.ends: dict[int | str, End] = {}  # of the last hook of each process, and of the others
        self.asked: dict[int | str, str] = {}  # the call that goes on of each, which may hang
        self._path, self._ledger, self._machine = words.hooks, ledger, machine
        self.before: Callable[[int], list[str]] = lambda number: []  # the words of start
        self.damaged: Collection[int] = ()  # whose disks are
        self.limit: float = words.hook_timeout
        self._is_attached = words.attach is not None
        self._zones = [place[Key.ZONE] for place in file.places]
        self._log = HookLog(words.out / "hooks.log", ledger.now)
        self._env = described(file, places, words.on) | {"FY_DIR": str(words.out)}
        if words.resume:
            self._env["FY_RESUMED"] = "1"
        if words.net:
            self._env["FY_NET"] = "1"

    def said_by_write(self) -> tuple[str, int]:
        """What `write` wrote most often to standard error, and how often."""
        said, count = self._log.said_by_write()
        return said[:SAID], count

    async def learn(self) -> None:
        """Asks which hooks there are."""
        try:
            text = await self.call("hooks")
        except OSError as fault:
            raise Fault(USAGE, f"{self._path} can't be run: {fault.strerror}") from None
        names = set((text or "").split())
        wrong = [f"hooks: there is no hook named {it}" for it in sorted(names - KNOWN)]
        wrong += [f"hooks: {it} is missing" for it in sorted(NEEDED - names)]
        for name, other in NEEDS.items():
            if name in names and other not in names:
                wrong.append(f"hooks: {name} is there without {other}")
        if text is None:
            wrong = [f"{self.ends['hooks']}; it has to print the names of all hooks that there are"]
        if wrong:
            raise Fault(USAGE, f"{self._path}: {wrong[0]}")
        self.names |= names

    @asynccontextmanager
    async def set_up(self) -> AsyncIterator[None]:
        """Has `setup` done. What it started for all lives until the block ends."""
        if "setup" not in self.names or self._is_attached:
            yield
            return
        shell = '"$0" setup < /dev/null >&2; echo $?; exec sleep infinity'
        with self._log.of("setup") as log:
            files = {"stdout": PIPE, "stderr": log, "env": self._variables()}
            async with self._machine.running("sh", "-c", shell, self._path, **files) as process:
                assert process.stdout
                status = None
                with suppress(TimeoutError):
                    async with asyncio.timeout(self.seconds("setup")):
                        status = int(await process.stdout.readline() or -1)
                if status != 0:
                    path = f"{self._env['FY_DIR']}/hooks.log"
                    end = End("setup", status, self._log.said("setup"))
                    raise Fault(HOOK, f"{end}; {path} may say why")
                yield

    def seconds(self, name: str) -> float:
        """How long a hook may take."""
        return self.limit * (6 if name in SLOW else 1)

    @asynccontextmanager
    async def running(self, name: str, *numbers: int, **files: Any) -> AsyncIterator[Process]:
        """A hook that runs until the block ends."""
        before = self.before(*numbers) if name == "start" else []
        with self._log.of(called(name, numbers)) as log:
            more = {"env": self._variables(*numbers), "stderr": log} | files
            async with self._machine.running(*before, self._path, name, *numbers, **more) as it:
                yield it

    async def call(self, name: str, *numbers: int, **variables: str) -> str | None:
        """What a hook prints; None if it says no or hangs. One that there isn't says yes."""
        if name not in self.names:
            return ""
        status, text, env = None, "", self._variables(*numbers) | variables
        call = called(name, numbers)
        asked: int | str = numbers[0] if numbers else name
        self.asked[asked] = call
        try:
            with suppress(TimeoutError), self._log.of(call) as log:
                async with asyncio.timeout(self.seconds(name)):
                    words = self._path, name, *numbers
                    status, text = await self._machine.output(*words, env=env, stderr=log)
        finally:
            self.asked.pop(asked, None)  # another of it may go on, as a pause
        self.ends[asked] = End(call, status, self._log.said(call))
        return text if status == 0 else None

    async def copy(self, number: int) -> Path:
        """A copy of a process's folder; the process doesn't run."""
        folder = Path(self._env["FY_DIR"])
        copy = folder / "salvage" / str(number)
        copy.parent.mkdir(exist_ok=True)
        shutil.rmtree(copy, ignore_errors=True)
        # Some stores look at the owner of their files, which shutil doesn't keep.
        with self._log.of(f"cp for salvage {number}") as log:
            await self._machine.output("cp", "-a", folder / str(number), copy, stderr=log)
        return copy

    async def salvage(self, number: int, copy: Path) -> str | None:
        """What a copy has, by the hook, which may change the copy. The whole store is down."""
        try:
            return await self.call("salvage", number, FY_COPY=str(copy))
        finally:
            shutil.rmtree(copy, ignore_errors=True)
            with suppress(OSError):  # there may be other copies
                copy.parent.rmdir()

    async def says(self, name: str, *numbers: int) -> bool:
        """Whether a hook says yes."""
        return await self.call(name, *numbers) is not None

    def _variables(self, *numbers: int) -> dict[str, str]:
        able, damaged = (" ".join(map(str, sorted(it))) for it in (self._ledger.able, self.damaged))
        env = self._env | {"FY_ABLE": able, "FY_DAMAGED": damaged}
        return env | {"FY_ZONE": self._zones[numbers[0]]} if numbers else env


def described(file: ClusterFile, places: Sequence[Place], on: str | None) -> dict[str, str]:
    """What each hook is told of the processes."""
    return os.environ | {
        "FY_COUNT": str(len(file.places)),
        "FY_NAMES": " ".join(place[Key.PROCESS] for place in file.places),
        "FY_ZONES": " ".join(place[Key.ZONE] for place in file.places),
        "FY_HOSTS": " ".join(place.host for place in places),
        "FY_ON": on or "",
        "FY_PORT": str(places[0].port),
        "FY_PORTS": " ".join(str(place.port) for place in places),
        # A hook in Python may import faultyard_hooks, and leaves nothing beside it.
        "PYTHONDONTWRITEBYTECODE": "1",
        "PYTHONPATH": ":".join(filter(None, [SOURCES, os.environ.get("PYTHONPATH")])),
    }


def called(name: str, numbers: Sequence[int]) -> str:
    """How a hook is called."""
    return " ".join([name, *map(str, numbers)])
