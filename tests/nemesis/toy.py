"""A store of a few members in the test's process, with its hooks: honest unless a mode says not.

    toy = Toy(7, Lags(0.5), listed="start ready whole write read check")

It is the machine of a run (tools/nemesis/machine.py): the hooks that the tool calls are coroutines
here, and what it kills is cancelled. Each record goes to two members, and is acknowledged by both.
What a member has stands in the log of its folder, as `KEY VALUE` lines, so the test reads the truth
there. `Toy` notes what was acknowledged, and what `check`, `read` and `salvage` told. Everything
takes some time of the loop, drawn from the seed; the same seed gives the same run.

**A new mode** is a subclass of `Mode` that overrides the points at which it differs. Each point
says when it is asked. Where none fits, add one: a method of `Mode` that does nothing, and the one
place of `Toy` or `Member` that asks all modes. A hook that doesn't fit is a coroutine of its own,
given by `hooks={"ready": hangs}`: it takes a `Call` and answers the status.
"""

from __future__ import annotations

import asyncio
import errno
import itertools
import os
import shutil
import signal
import zlib
from asyncio.subprocess import PIPE
from collections.abc import AsyncIterator, Awaitable, Callable, Iterable, Mapping, Sequence
from contextlib import asynccontextmanager, suppress
from dataclasses import dataclass
from functools import partial
from pathlib import Path
from random import Random
from typing import IO, Any, NamedTuple, TypeVar

from nemesis.machine import Machine

_T = TypeVar("_T")
COPIES = 2
HANGS = 1.0  # seconds after which a client gives up a member that doesn't answer
KILLED = 128 + signal.SIGTERM  # the status of what a keeper ended
LIMIT = 1 << 16  # bytes of a line, as asyncio has it for commands
PORT = 20000  # nobody listens there
MARK = "mark of a member\n"  # beside a log that has sums
Pair = tuple[str, str]


class Answer(NamedTuple):
    """What `check` told of a record."""

    began: float  # when it was asked
    number: int  # for which member
    key: str
    told: str


class Told(NamedTuple):
    """What `read` told."""

    began: float
    found: list[Pair]


@dataclass
class Outage:
    """A time in which a member didn't have what it should have."""

    number: int
    began: float  # when it was killed, whose folder was emptied then
    healed: float | None = None  # when `whole` said yes of it


class Mode:
    """What a store does otherwise than an honest one: here nothing."""

    def stores(self, member: Member, key: str, value: str) -> bool:
        """Whether a member keeps a record that it is given; it says yes all the same."""
        return True

    def own(self, member: Member, key: str, value: str) -> str | None:
        """What a member tells of a record that it has, where `check` asks it or another member."""
        return value

    def tells(self, member: Member, key: str, told: str) -> str:
        """What a member answers to `check`: a value, `none` or `?`."""
        return told

    def asks(self, number: int) -> int:
        """Whom `check` asks that was to ask this one."""
        return number

    def prints(self, found: list[Pair]) -> list[Pair]:
        """The records that `read` prints."""
        return found

    def reads(self, able: Sequence[int]) -> bool:
        """Whether `read` answers at all, where these aren't destroyed."""
        return True

    def answers(self, key: str, told: str) -> list[str]:
        """The lines that `write` prints for one that it read."""
        return [told]

    def line(self, text: str) -> str:
        """A line as it stands in a log, and back."""
        return text

    def opened(self, text: str) -> str | None:
        """What a line of a log says; nothing where the store sees that it is bad."""
        return self.line(text)

    async def begins(self, toy: Toy, call: Call) -> bool:
        """Whether a member starts on the disk that it has; it may mend that."""
        return True

    def begun(self, member: Member, is_damaged: bool) -> None:
        """A member runs, whose disk may be damaged."""

    def everywhere(self) -> bool:
        """Whether a record is given to all three, though two are enough."""
        return False

    def copies(self) -> bool:
        """Whether `whole` and `join` copy what a member lacks."""
        return True

    def is_whole(self) -> bool:
        """Whether `whole` says yes of a member that lacks records."""
        return False

    def unsynced(self) -> float:
        """For how many seconds a record may be acknowledged before it is in the log."""
        return 0.0

    def takes(self) -> float:
        """How many seconds longer an answer of `check` takes."""
        return 0.0

    def lives(self, number: int) -> float | None:
        """After how many seconds a member ends by itself."""
        return None


class Lags(Mode):
    """A member tells of a record only some seconds after it has it; all of them, without one."""

    def __init__(self, seconds: float, number: int | None = None) -> None:
        self.seconds, self.number = seconds, number

    def own(self, member: Member, key: str, value: str) -> str | None:
        if self.number in (None, member.number) and member.age(key) < self.seconds:
            return None
        return value

    def tells(self, member: Member, key: str, told: str) -> str:
        # One that lags alone doesn't ask the others.
        if self.number == member.number and member.age(key) < self.seconds:
            return "none"
        return told


class Old(Mode):
    """From a time on a member tells `check` of no new record, though its disk has all."""

    def __init__(self, number: int, since: float) -> None:
        self.number, self.since = number, since

    def tells(self, member: Member, key: str, told: str) -> str:
        is_old = member.came.get(key, 0.0) < member.toy.began + self.since
        return told if member.number != self.number or is_old else "none"


class Drops(Mode):
    """Each so-manyth record is kept nowhere, though it is acknowledged."""

    def __init__(self, every: int) -> None:
        self.every = every

    def stores(self, member: Member, key: str, value: str) -> bool:
        return not is_nth(key, self.every)


class DropsWhileEmpty(Mode):
    """What is acknowledged while a member is destroyed is kept nowhere."""

    def __init__(self, number: int) -> None:
        self.number = number

    def stores(self, member: Member, key: str, value: str) -> bool:
        return not member.toy.is_empty(self.number)


class Hole(Mode):
    """A member tells `check` that each so-manyth record isn't there; its disk has it."""

    def __init__(self, number: int, every: int) -> None:
        self.number, self.every = number, every

    def tells(self, member: Member, key: str, told: str) -> str:
        return "none" if member.number == self.number and is_nth(key, self.every) else told


class Slow(Mode):
    """A member takes its time to answer `check`."""

    def __init__(self, seconds: float = 0.2) -> None:
        self.seconds = seconds

    def takes(self) -> float:
        return self.seconds


class Shy(Slow):
    """A member takes its time, and tells of a record only where it is asked for it again."""

    def __init__(self, seconds: float = 0.2) -> None:
        super().__init__(seconds)
        self.asked = set[tuple[int, str]]()

    def tells(self, member: Member, key: str, told: str) -> str:
        is_first = (member.number, key) not in self.asked
        self.asked.add((member.number, key))
        return "none" if is_first else told


class Denies(Mode):
    """`check` tells of no record that it asks a member for."""

    def __init__(self, number: int) -> None:
        self.number = number

    def tells(self, member: Member, key: str, told: str) -> str:
        return "none" if member.number == self.number else told


class Elsewhere(Mode):
    """`check` asks the member after the one that it was to ask."""

    def asks(self, number: int) -> int:
        return number + 1


class Wrong(Mode):
    """Each so-manyth value is told backwards."""

    def __init__(self, every: int) -> None:
        self.every = every

    def own(self, member: Member, key: str, value: str) -> str | None:
        return value[::-1] if is_nth(key, self.every) else value

    def prints(self, found: list[Pair]) -> list[Pair]:
        return [(key, value[::-1] if is_nth(key, self.every) else value) for key, value in found]


class Twice(Mode):
    """`read` prints each so-manyth key twice: with its value, and with that or another one behind
    or before it."""

    def __init__(self, every: int, other: str | None = None, is_before: bool = False) -> None:
        self.every, self.other, self.is_before = every, other, is_before

    def prints(self, found: list[Pair]) -> list[Pair]:
        again = [(key, self.other or value) for key, value in found if is_nth(key, self.every)]
        return again + found if self.is_before else found + again


class Partial(Mode):
    """`read` leaves out each so-manyth record."""

    def __init__(self, every: int) -> None:
        self.every = every

    def prints(self, found: list[Pair]) -> list[Pair]:
        return [(key, value) for key, value in found if not is_nth(key, self.every)]


class Invents(Mode):
    """`read` tells of a record that nobody wrote."""

    def prints(self, found: list[Pair]) -> list[Pair]:
        return [*found, ("r/999999999", "abc")]


class Quorum(Mode):
    """`read` wants an answer of two members."""

    def reads(self, able: Sequence[int]) -> bool:
        return len(able) >= COPIES


class SaysMore(Mode):
    """`write` prints an `ok` too many behind each so-manyth."""

    def __init__(self, every: int) -> None:
        self.every = every

    def answers(self, key: str, told: str) -> list[str]:
        return [told, "ok 1"] if is_nth(key, self.every) else [told]


class Refuses(Mode):
    """`write` says no to each so-manyth record, and has done it all the same."""

    def __init__(self, every: int) -> None:
        self.every = every

    def answers(self, key: str, told: str) -> list[str]:
        return ["no"] if is_nth(key, self.every) else [told]


class Unsynced(Mode):
    """A record is acknowledged some time before it is in the log, where a kill loses it."""

    def __init__(self, seconds: float = 0.5) -> None:
        self.seconds = seconds

    def unsynced(self) -> float:
        return self.seconds


class Idle(Mode):
    """Nothing is copied to an emptied member."""

    def copies(self) -> bool:
        return False


class Forgetful(Idle):
    """An emptied member is said to be whole at once, and nothing is copied to it."""

    def is_whole(self) -> bool:
        return True


class Encoded(Mode):
    """The log doesn't have the records as they were written."""

    def line(self, text: str) -> str:
        return text.swapcase()


class Crashes(Mode):
    """A member ends by itself, some seconds after each start."""

    def __init__(self, number: int, seconds: float) -> None:
        self.number, self.seconds = number, seconds

    def lives(self, number: int) -> float | None:
        return self.seconds if number == self.number else None


class Alone(Mode):
    """All three get each record, and each tells what it has itself."""

    def everywhere(self) -> bool:
        return True

    def tells(self, member: Member, key: str, told: str) -> str:
        return member.own(key) or "none"


class Sums(Mode):
    """Each line has a sum, and a file beside the log says whose it is. A last line without an end
    is one that a crash cut off. What else is bad is refused, cut off with all behind it, or filled
    from the others."""

    def __init__(self, does: str = "refuse") -> None:
        self.does = does

    def line(self, text: str) -> str:
        return f"{text} {zlib.crc32(text.encode())}"

    def opened(self, text: str) -> str | None:
        said, _, _ = text.rpartition(" ")
        return said if self.line(said) == text else None

    async def begins(self, toy: Toy, call: Call) -> bool:
        log, mark = toy.log_of(call.number), toy.folder / str(call.number) / "mark"
        if not call.is_damaged and not mark.exists():
            mark.write_text(MARK)  # as `join` would, or the first start
        if call.is_damaged and not (mark.exists() and mark.read_text() == MARK and log.exists()):
            call.say("the mark or the log is gone")
            return False
        lines = log.read_text("utf-8", "replace").split("\n")[:-1] if log.exists() else []
        bad = [self.opened(line) is None for line in lines]
        if any(bad) and self.does == "refuse":
            call.say(f"line {bad.index(True)} of the log has a wrong sum")
            return False
        if any(bad) and self.does == "cut":
            lines = lines[: bad.index(True)]
            log.write_text("".join(f"{line}\n" for line in lines), "utf-8")
        if any(bad) and self.does == "fill":
            others = {n: it for n, it in toy.members.items() if n != call.number}
            found = {key: it for other in others.values() for key, it in other.all().items()}
            toy.rewrite(call.number, toy.disk(call.number) | found)
        return True


class Spreads(Mode):
    """Once a member with a damaged disk runs, the others take over all that it has."""

    def begun(self, member: Member, is_damaged: bool) -> None:
        for other in member.toy.members.values() if is_damaged else ():
            other.records.update(member.records)
            member.toy.rewrite(other.number, other.records)


class Leads(Mode):
    """Once a member with a damaged disk runs, the others throw away what it lacks."""

    def begun(self, member: Member, is_damaged: bool) -> None:
        for other in member.toy.members.values() if is_damaged else ():
            other.lose([*other.records.keys() - member.records.keys()])


def is_nth(key: str, every: int) -> bool:
    """Whether it is a so-manyth record."""
    return key.startswith("r/") and int(key[2:]) % every == 0


class Member:
    """A member that runs."""

    def __init__(self, toy: Toy, number: int, goes_on: asyncio.Event) -> None:
        self.toy, self.number, self._goes_on = toy, number, goes_on
        self.records = toy.disk(number)
        self.came = dict.fromkeys(self.records, 0.0)  # when each record came
        self._pending = list[str]()
        self._log = toy.log_of(number).open("a", encoding="utf-8")

    def age(self, key: str) -> float:
        """Seconds since it has a record."""
        return now() - self.came.get(key, 0.0)

    def own(self, key: str) -> str | None:
        """What it tells of a record that it has itself."""
        told = self.records.get(key)
        for mode in self.toy.modes:
            told = told and mode.own(self, key, told)
        return told

    def all(self) -> dict[str, str]:
        return dict(self.records)

    def lose(self, keys: Iterable[str]) -> None:
        """It had these, and has them nowhere any more."""
        for key in keys:
            self.records.pop(key, None)
        self.toy.rewrite(self.number, self.records)

    def put(self, records: Mapping[str, str]) -> None:
        for key, value in records.items():
            if all(mode.stores(self, key, value) for mode in self.toy.modes):
                self.records[key], self.came[key] = value, now()
                self._pending.append(self.toy.coded(f"{key} {value}"))
        seconds = max([mode.unsynced() for mode in self.toy.modes], default=0.0)
        if not seconds:
            self.sync()
        elif self._pending:
            asyncio.get_running_loop().call_later(seconds, self.sync)

    def sync(self) -> None:
        if not self._log.closed:
            self._log.writelines(f"{line}\n" for line in self._pending)
            self._log.flush()
            self._pending.clear()

    def close(self) -> None:
        """It was killed."""
        self._log.close()

    async def answers(self) -> None:
        """Waits while it is stopped; OSError where that takes too long."""
        if self._goes_on.is_set():
            return
        try:
            async with asyncio.timeout(HANGS):
                await self._goes_on.wait()
        except TimeoutError:
            raise OSError(errno.ETIMEDOUT, f"{self.number} hangs") from None


class Call:
    """A call of a hook: its words, and what it reads and prints."""

    def __init__(self, words: Sequence[str], env: Mapping[str, str]) -> None:
        self.name, *numbers = words
        self.numbers = [int(it) for it in numbers]
        self.env = env
        self.input = asyncio.StreamReader(LIMIT)
        self.goes_on = asyncio.Event()  # is clear while it is stopped by a signal
        self.goes_on.set()
        self.output = asyncio.StreamReader(LIMIT)
        self.files: dict[str, IO[bytes] | int] = {}

    @property
    def number(self) -> int:
        return self.numbers[0]

    @property
    def is_damaged(self) -> bool:
        """Whether the disk of the member is."""
        return str(self.number) in self.env.get("FY_DAMAGED", "").split()

    @property
    def able(self) -> list[int]:
        """The members that aren't destroyed."""
        return [int(it) for it in self.env["FY_ABLE"].split()]

    async def lines(self) -> AsyncIterator[str]:
        """The lines that it is given, until there are no more."""
        while line := await self.input.readline():
            yield line.decode().strip()

    def print(self, text: str) -> None:
        """To standard output, with the end of a line."""
        self._write("stdout", f"{text}\n".encode())

    def say(self, text: str) -> None:
        """To standard error, with the end of a line."""
        self._write("stderr", f"{text}\n".encode())

    def _write(self, name: str, data: bytes) -> None:
        file = self.files.get(name)
        if file is None:
            self.output.feed_data(data)
        elif isinstance(file, int):
            os.write(file, data)
        else:
            file.write(data)
            file.flush()


Hook = Callable[[Call], Awaitable[int]]


class Input:
    """The end of a pipe to a hook."""

    def __init__(self, reader: asyncio.StreamReader) -> None:
        self._reader = reader

    def write(self, data: bytes) -> None:
        self._reader.feed_data(data)


class Process:
    """A hook at work, as the tool sees one of asyncio's processes."""

    _numbers = itertools.count(1)

    def __init__(self, hook: Hook, call: Call) -> None:
        self.pid, self.call = next(self._numbers), call
        self.returncode: int | None = None
        self.stdin, self.stdout = Input(call.input), call.output
        self._task = asyncio.get_running_loop().create_task(self._run(hook))

    async def _run(self, hook: Hook) -> None:
        status = KILLED
        try:
            status = await hook(self.call)
        except asyncio.CancelledError:
            pass
        except OSError:
            status = 1
        except Exception as fault:  # as Python ends
            self.call.say(f"{type(fault).__name__}: {fault}")
            status = 1
        self.returncode = status
        self.stdout.feed_eof()

    async def wait(self) -> int:
        await asyncio.wait([self._task])
        assert self.returncode is not None
        return self.returncode

    async def end(self) -> None:
        """It is killed, if it hasn't ended."""
        self._task.cancel()
        await asyncio.wait([self._task])


class Toy(Machine):
    """The store, and the machine on which its hooks run."""

    def __init__(
        self,
        seed: int = 0,
        *modes: Mode,
        listed: str = "start ready whole write read",
        hooks: Mapping[str, Hook] = {},
        pace: float = 0.06,
        boots: float = 0.2,
    ) -> None:
        """`listed` is what `hooks` prints. A write takes about `pace` seconds, a start `boots`."""
        self.dice, self.modes, self.listed = Random(f"toy {seed}"), modes, listed
        self.pace, self.boots = pace, boots
        self.own = dict(hooks)  # hooks in the place of this class's
        self._processes: dict[int, Process] = {}
        self.folder = Path()  # of the run
        self.began = 0.0
        self.members: dict[int, Member] = {}  # those that run
        self.leaving: dict[int, asyncio.Event] = {}  # is set once a member is to end
        self.filling: set[int] = set()  # those that began empty, and aren't whole since
        self.acked: dict[str, str] = {}  # what `write` said ok of
        self.ok_at: dict[str, float] = {}  # when it did
        self.checked: list[Answer] = []  # what `check` told
        self.reads: list[Told] = []  # what `read` told
        self.wrote_until = 0.0  # when the last `write` was ended
        self.downs: dict[int, float] = {}  # when each member ended last
        self.outages: list[Outage] = []  # of members that were started again
        self.salvaged: dict[int, list[Pair]] = {}  # what `salvage` told of each member
        self.calls: list[str] = []  # each call of a hook, in order

    # What is so.

    @property
    def read_last(self) -> list[Pair] | None:
        """What `read` told last."""
        return self.reads[-1].found if self.reads else None

    def log_of(self, number: int) -> Path:
        return self.folder / str(number) / "log"

    def disk(self, number: int) -> dict[str, str]:
        """What a member's folder has; nothing where there is none."""
        return self.log(self.log_of(number))

    def log(self, path: Path) -> dict[str, str]:
        """The records of a log."""
        if not path.exists():
            return {}
        lines = map(self.opened, path.read_text("utf-8", "replace").split("\n"))
        found = (line.split() for line in lines if line)
        return {words[0]: words[1] for words in found if len(words) == 2}

    def rewrite(self, number: int, records: Mapping[str, str]) -> None:
        """Has a member's log hold these records, and nothing else."""
        lines = (self.coded(f"{key} {value}") for key, value in records.items())
        self.log_of(number).write_text("".join(f"{line}\n" for line in lines), "utf-8")

    def coded(self, text: str) -> str:
        """A line as it stands in a log."""
        for mode in self.modes:
            text = mode.line(text)
        return text

    def opened(self, text: str) -> str | None:
        """What a line of a log says, if it isn't bad."""
        said: str | None = text
        for mode in reversed(self.modes):
            said = said and mode.opened(said)
        return said

    def note_outage(self, number: int) -> None:
        """The folder of a member was emptied when it ended last."""
        began = self.downs.get(number, self.began)
        if not any(it.number == number and it.began == began for it in self.outages):
            self.outages.append(Outage(number, began))

    def is_empty(self, number: int) -> bool:
        """Whether a member was emptied, and isn't whole since."""
        return number in self.filling or not self.log_of(number).exists()

    # The machine.

    def free_ports(self, count: int) -> int:
        return PORT

    def signal_below(self, pid: int, number: int) -> None:
        goes_on = self._processes[pid].call.goes_on
        goes_on.set() if number == signal.SIGCONT else goes_on.clear()

    @asynccontextmanager
    async def running(self, *words: object, **more: Any) -> AsyncIterator[Any]:
        hook, call = self._called([str(it) for it in words], more["env"])
        call.files = {name: more[name] for name in ("stdout", "stderr") if more[name] != PIPE}
        process = Process(hook, call)
        self._processes[process.pid] = process
        try:
            yield process
        finally:
            await process.end()
            del self._processes[process.pid]

    async def output(self, *words: object, **more: Any) -> tuple[int, str]:
        if words[0] == "cp":
            await self.some_time()
            shutil.copytree(str(words[2]), str(words[3]), symlinks=True)
            return 0, ""
        async with self.running(*words, stdout=PIPE, **more) as process:
            printed = await process.stdout.read()
            return await process.wait(), printed.decode()

    def _called(self, words: list[str], env: Mapping[str, str]) -> tuple[Hook, Call]:
        """The hook that a command stands for, and how it is called."""
        is_setup = words[0] == "sh"  # which has a shell, that goes on for what it started
        words = ["setup"] if is_setup else words[1:]
        self.folder, self.began = Path(env["FY_DIR"]), self.began or now()
        self.calls.append(" ".join(words))
        return self._set_up if is_setup else self._hook(words[0]), Call(words, env)

    def _hook(self, name: str) -> Hook:
        return self.own.get(name) or getattr(self, name)

    async def _set_up(self, call: Call) -> int:
        call.print(str(await self._hook("setup")(call)))
        return await forever()

    async def some_time(self) -> None:
        """What each step takes."""
        await asyncio.sleep(self.dice.uniform(0.001, 0.004))

    # What members are asked.

    async def ask(self, number: int, what: Callable[[Member], _T]) -> _T:
        """What a member answers; OSError where it is down, or hangs."""
        await self.some_time()
        if (member := self.members.get(number)) is None:
            raise OSError(errno.ECONNREFUSED, f"{number} is down")
        await member.answers()
        if self.members.get(number) is not member:
            raise OSError(errno.ECONNRESET, f"{number} has ended")
        return what(member)

    async def put(self, number: int, records: Mapping[str, str]) -> None:
        """Has a member keep records; where it ends before it answers, it may have done so."""
        await self.ask(number, lambda member: member.put(records))
        await self.ask(number, lambda member: None)

    async def everything(self, able: Sequence[int]) -> dict[str, str]:
        found: dict[str, str] = {}
        for number in able:
            found |= await self.ask(number, Member.all)
        return found

    async def get(self, number: int, key: str) -> str:
        """What a member tells of a record. That there is none it knows if all were asked."""
        told = await self.ask(number, partial(Member.own, key=key))
        asked = 1
        for other in {0, 1, 2} - {number}:
            if told is None:
                with suppress(OSError):
                    told = await self.ask(other, partial(Member.own, key=key))
                    asked += 1
        found = told or ("none" if asked == 3 else "?")
        return (
            await self.ask(number, partial(self._told, key=key, told=found))
            if self.modes
            else found
        )

    def _told(self, member: Member, key: str, told: str) -> str:
        for mode in self.modes:
            told = mode.tells(member, key, told)
        return told

    # The hooks.

    async def hooks(self, call: Call) -> int:
        call.print(self.listed)
        return 0

    async def setup(self, call: Call) -> int:
        return 0

    async def start(self, call: Call) -> int:
        number, is_new = call.number, not self.log_of(call.number).exists()
        await asyncio.sleep(self.boots * self.dice.uniform(0.5, 1.0))
        for mode in self.modes:
            if not await mode.begins(self, call):
                return 1
        member = Member(self, number, call.goes_on)
        if is_new and number in self.downs:
            self.filling.add(number)
            self.note_outage(number)
        self.members[number] = member
        for mode in self.modes:
            mode.begun(member, call.is_damaged)
        try:
            lives = [it for mode in self.modes if (it := mode.lives(number)) is not None]
            self.leaving[number] = asyncio.Event()
            with suppress(TimeoutError):
                async with asyncio.timeout(min(lives, default=None)):
                    await self.leaving[number].wait()
                    return 0
        finally:
            del self.members[number]
            self.downs[number] = now()
            member.close()
        call.say("assertion failed: the sky is up")
        return 3

    async def stop(self, call: Call) -> int:
        """Has a member end by itself, after a moment."""
        asyncio.get_running_loop().call_later(0.3, self.leaving[call.number].set)
        return 0

    async def ready(self, call: Call) -> int:
        await self.ask(call.number, lambda member: None)
        return 0

    async def write(self, call: Call) -> int:
        try:
            async for line in call.lines():
                key, value = line.split()
                told = f"ok {int(key[2:])}" if await self.stored(key, value) else "no"
                answers = [told]
                for mode in self.modes:
                    answers = [it for answer in answers for it in mode.answers(key, answer)]
                if answers and answers[0].startswith("ok"):
                    self.acked[key], self.ok_at[key] = value, now()
                for answer in answers:
                    call.print(answer)
        finally:
            self.wrote_until = now()
        return 0

    async def stored(self, key: str, value: str) -> bool:
        """Whether a record got all its copies."""
        count, is_all = 0, any(mode.everywhere() for mode in self.modes)
        for number in self.dice.sample(range(3), 3):
            if count < COPIES or is_all:
                with suppress(OSError):
                    await self.put(number, {key: value})
                    count += 1
        await asyncio.sleep(self.dice.uniform(0, self.pace))
        return count >= COPIES

    async def check(self, call: Call) -> int:
        async for line in call.lines():
            number, key = line.split()
            asked, began = int(number), now()
            for mode in self.modes:
                asked = mode.asks(asked) % 3
            if seconds := sum(mode.takes() for mode in self.modes):
                await asyncio.sleep(seconds)
            told = "?"
            with suppress(OSError):
                told = await self.get(asked, key)
            self.checked.append(Answer(began, int(number), key, told))
            call.print(told)
        return 0

    async def read(self, call: Call) -> int:
        if not all(mode.reads(call.able) for mode in self.modes):
            return 1
        began, found = now(), [*(await self.everything(call.able)).items()]
        for mode in self.modes:
            found = mode.prints(found)
        self.reads.append(Told(began, found))
        for pair in found:
            call.print(" ".join(pair))
        return 0

    async def whole(self, call: Call) -> int:
        """Copies to a member what it lacks of all that is left."""
        have = await self.ask(call.number, Member.all)
        every = await self.everything(call.able)
        lacks = {key: value for key, value in every.items() if key not in have}
        if lacks and self._copies():
            await self.put(call.number, lacks)
            lacks = {}
        if lacks and not any(mode.is_whole() for mode in self.modes):
            return 1
        self.filling.discard(call.number)
        for outage in self.outages:
            if outage.number == call.number and outage.healed is None:
                outage.healed = now()
        return 0

    async def join(self, call: Call) -> int:
        """Copies all that is left into an empty folder."""
        self.note_outage(call.number)
        if self._copies():
            self.rewrite(call.number, await self.everything(call.able))
        return 0

    async def salvage(self, call: Call) -> int:
        found = [*self.log(Path(call.env["FY_COPY"], "log")).items()]
        self.salvaged[call.number] = found
        for key, value in found:
            call.print(f"{key} {value}")
        return 0

    def _copies(self) -> bool:
        return all(mode.copies() for mode in self.modes)


class Stands(Toy):
    """A store that stands once two of its members were down at once: who started since isn't ready,
    and nothing is written or read. It goes on once `rescue` is called, where all that aren't
    destroyed run."""

    stands = False
    ready_before: frozenset[int] = frozenset()

    async def start(self, call: Call) -> int:
        try:
            return await super().start(call)
        finally:
            if len(self.members) < COPIES and not self.stands:
                self.stands, self.ready_before = True, frozenset(self.members)

    async def ready(self, call: Call) -> int:
        if self.stands and call.number not in self.ready_before:
            return 1
        return await super().ready(call)

    async def stored(self, key: str, value: str) -> bool:
        return not self.stands and await super().stored(key, value)

    async def whole(self, call: Call) -> int:
        return 1 if self.stands else await super().whole(call)

    async def read(self, call: Call) -> int:
        return 1 if self.stands else await super().read(call)

    async def rescue(self, call: Call) -> int:
        if not self.stands or not {*call.able} <= self.members.keys():
            return 1
        self.stands = False
        return 0


def now() -> float:
    return asyncio.get_running_loop().time()


async def forever() -> int:
    """Until it is cancelled."""
    await asyncio.get_running_loop().create_future()
    return 0


# Hooks that do nothing but misbehave.


async def hangs(call: Call) -> int:
    """It never ends."""
    return await forever()


async def throws(call: Call) -> int:
    """It ends as Python does by a fault."""
    raise KeyError("revision")


def at_first(hook: Hook, times: int, later: Hook) -> Hook:
    """One hook so many times, and then another."""
    count = itertools.count()

    async def first(call: Call) -> int:
        return await (hook if next(count) < times else later)(call)

    return first


def ends(status: int, *said: str, prints: Sequence[str] = ()) -> Hook:
    """It says that, and ends with this status."""

    async def hook(call: Call) -> int:
        for line in prints:
            call.print(line)
        for line in said:
            call.say(line)
        return status

    return hook
