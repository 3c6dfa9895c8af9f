"""Tries each hook on a calm cluster, and says which one is wrong."""
import asyncio
import math
from collections import Counter
from collections.abc import Iterable, Iterator, Mapping, Sequence
from pathlib import Path
from typing import TYPE_CHECKING

from faultyard import Key, Kind
from faultyard.history import Operation
from faultyard.plans import PAUSES, Order

from . import HOOK, USAGE, Fault, alone, clock, links
from .clients import Told, pairs
from .orders import STOPS
from .traces import traces

if TYPE_CHECKING:
    from .run import Run

BEFORE = 1.0  # seconds of writes before each order
FEW, LONG = 20, 10.0  # so many records, or so many seconds more, before the first look
SOON = 0.02  # seconds until it is looked again whether a process was emptied
EARLY = 1.0  # seconds before it is whole, in which a process may have a record already
MOST = 200  # records for which a process is asked
NEVER = "r/999999999"  # a key that is never written
HEALS = 3  # so many a run should have time for
ORDERS, MINUTE = 10, 60.0  # so many orders a run should have time for, and so many seconds
CALM = "nothing was struck yet"
Records = Mapping[str, str]


class HookCheck:
    """Strikes each process in turn, and looks whether hooks said what is so."""

    def __init__(self, run: "Run") -> None:
        self.run, self.hooks, self.clients = run, run.hooks, run.clients
        self.first = 0  # how many starts there were before anything was struck
        self.looked_at: set[int] = set()  # whose `whole` was asked while it had nothing
        self.healed: list[int] = []  # whose `whole` was believed
        self.copies: dict[int, tuple[Path, Records]] = {}  # of folders, and what they have to have
        self.notes: list[str] = []  # what looks wrong, and may be right
        self.shaper: list[str] = []  # by what a network is slow and lossy

    async def whole(self) -> list[str]:
        """Calls each hook; what looks wrong, and may be right."""
        self.begin()
        await self.some_records()
        await self._calm()
        if alone.has_net(self.run.words):
            self.shaper = [await links.told()]
        granted = self.run.file.actors[self.run.fault].kinds
        clog = [Kind.CLOG] if "pause" in self.hooks.names and Kind.CLOG in granted else []
        for number, name in enumerate(self.run.names):
            for kind in clog:
                await self._order(kind, name)
            if "stop" in self.hooks.names and Kind.REBOOT_PROCESS in granted:
                await self._order(Kind.REBOOT_PROCESS, name, STOPS)
                self._has_stopped(number)
            await self._reboot(name, "setup")
            before = self._known()
            asked = self.run.tasks.create_task(self._ask_the_emptied(number, before))
            await self._order(Kind.REBOOT_AND_DELETE, name)
            self._note_passed_on(number, await asked)
            await self._healed(number, before)
            if self.run.disks:
                await self._reboot(name, "join")
        if "rescue" in self.hooks.names:
            await self._rescued(*self.run.names[:2])
        if "leave" in self.hooks.names and Kind.KILL_INSTANTLY in granted:
            await self._order(Kind.KILL_INSTANTLY, self.run.names[-1])
        return self.notes

    def begin(self) -> None:
        """From here on starts are those of a run. Before, processes may have waited for all."""
        self.first = len(self.run.starts)

    async def some_records(self) -> None:
        """Waits until some are acknowledged, as a store that writes a few a second needs."""
        await asyncio.sleep(BEFORE)
        until = clock() + LONG
        while len(self.run.ledger.records) < FEW and clock() < until:
            await asyncio.sleep(SOON)

    def _has_stopped(self, number: int) -> None:
        """A process has to end by `stop`, or each upgrade would be a kill."""
        name, (_, status) = self.run.names[number], self.run.stops[-1]
        if status is None and not self.run.elsewhere.has("kill"):
            text = f"`stop {number}` was asked, and {name} had to be killed"
            raise wrong(f"{text}; hooks.log may say why")

    async def _order(self, kind: Kind, name: str, tear: int = 0) -> None:
        """Has a process struck, and waits until it is back."""
        await asyncio.sleep(BEFORE)
        run = self.run
        order = Order(kind, Key.PROCESS, name, clogged=1.0, tear=tear)
        await run.obey(run.fault, order.act())
        if (done := run.orders[-1])["does"] != kind.value:
            raise Fault(USAGE, f"{kind.value} of {name} is barred by {done['rule']}")
        await run.clogs_ended()
        await run.calm()
        run.show(f"{name} is {'out' if kind.is_final else 'back'} after {kind.value}")

    async def _rescued(self, emptied: str, rebooted: str) -> None:
        """Has one emptied and another rebooted at once, as a guard allows, and all come back."""
        run, before, known = self.run, self.run.rescue.done, self._known()
        text = f"{emptied} was emptied while {rebooted} was rebooted"
        for kind, name in ((Kind.REBOOT_AND_DELETE, emptied), (Kind.REBOOT, rebooted)):
            await run.obey(run.fault, Order(kind, Key.PROCESS, name).act())
        try:
            await run.calm()
        except Fault as fault:
            end = self.hooks.ends.get("rescue", "`rescue` wasn't asked")
            raise wrong(f"{text}, and they don't come back: {end}; {fault.args[1]}") from None
        if lacks := await self._lacked_by_read(known):
            raise wrong(f"{text}, and `read` lacks {counted(lacks, known)}: `rescue` is wrong")
        if run.rescue.done == before:
            self.notes.append(f"{text}, and all came back: `rescue` wasn't needed, nor tried")

    async def _reboot(self, name: str, wrote: str) -> None:
        """With disks it is a power cut: what a hook wrote and didn't sync is gone."""
        before = self._known()
        try:
            await self._order(Kind.REBOOT, name)
        except Fault as fault:
            if not self.run.disks or fault.args[0] != HOOK:
                raise
            asked = f"does `{wrote}` or `start` sync all that it writes?{self._hint()}"
            text = f"{name} did not start again after a power cut: {asked} {fault.args[1]}"
            raise wrong(text) from None
        if self.run.disks and (lacks := await self._lacked_by_read(before)):
            text = f"after a power cut of {name} records are missing: `read` lacks"
            raise wrong(f"{text} {counted(lacks, before)}{self._hint()}")

    def _hint(self) -> str:
        """What a disk of ours never hears."""
        if self.run.words.disks != "lossy":
            return ""
        text = "lossy doesn't hear sync(2) and syncfs(2)"
        return f" ({text}: where --disks ext4 passes, they are used)"

    def _known(self) -> dict[str, str]:
        """The records that are acknowledged by now."""
        return {key: record.value for key, record in self.run.ledger.records.items()}

    # Before anything was struck.

    async def _calm(self) -> None:
        """Looks at what is read while all are up."""
        known = self._known()
        read = await self._lacked_by_read(known)
        told = {number: await self._told(number, known) for number in range(len(self.run.names))}
        answers = [value for found in told.values() for value in found.values()]
        if read:
            blamed = "`read`" if any(answers) else "`write`" if answers else "`write` or `read`"
            raise wrong(f"{CALM}, and `read` lacks {counted(read, known)}: {blamed} is wrong")
        for number, found in told.items():
            if lacks := lacking(found, {key: known[key] for key in found}):
                text = f"{CALM}, and {self.run.names[number]} lacks {counted(lacks, found)}"
                blamed = "`check` is wrong, or it gets no records"
                raise wrong(f"{text} by `check`, which `read` has: {blamed}")
        for number in told if "check" in self.hooks.names else ():
            wrote_nothing("check", await self.clients.ask_once(number, NEVER))
        if "get" in self.hooks.names:
            await self._get()

    async def _get(self) -> None:
        """Looks at the hook that reads registers, and whether `write` overwrites them."""
        wrote_nothing("get", await self.clients.get_once(NEVER))
        (key,) = self.clients.registers
        writes = Counter(it.error for it in self.run.history.writes.get(key, []))
        if writes["no"] > writes[None]:
            text = f"{CALM}, and `write` said no to a key that is there already"
            raise wrong(f"{text}: with a hook `get` it has to overwrite {key}")
        got = await self.clients.get_once(key)
        if got.error or got.value not in [it.value for it in self.run.history.writes[key]]:
            told = got.error or got.value or "none"
            raise wrong(f"{CALM}, and `get` told {told} for {key}: `get` is wrong")

    # After one was emptied.

    async def _healed(self, number: int, before: Records) -> None:
        """Looks whether a process has all records that were acknowledged before it was emptied."""
        name = self.run.names[number]
        if read := await self._lacked_by_read(before):
            healed = " ".join(f"`whole {it}`" for it in self.healed)
            blamed = f"{healed} said yes too early" if healed else "`write` said ok too early"
            text = f"after {name} was emptied `read` lacks {counted(read, before)}"
            raise wrong(f"{text}{self._idle(self.healed)}: {blamed}, or the policy is wrong")
        self.healed.append(number)
        told = await self._told(number, before)
        asked = {key: before[key] for key in told}
        if lacks := lacking(told, asked):
            raise self._wrong_whole(number, "check", lacks, asked)
        if "salvage" in self.hooks.names:
            async with self.run.held_down(number):
                if "check" in self.hooks.names and before:
                    await self._ask_the_dead(number, next(iter(before)))
                if not await self.run.elsewhere.fetched(number):
                    raise wrong(f"{self.hooks.ends[number]}; hooks.log may say why")
                self.copies[number] = (await self.hooks.copy(number), before)
            await self.run.calm()

    async def look_at_emptied(self, number: int) -> None:
        """One that has nothing yet, and doesn't run, isn't whole. It is asked once."""
        if number in self.looked_at:
            return
        self.looked_at.add(number)
        says_yes = await self.hooks.says("whole", number, self.run.ledger.mark)
        self.hooks.ends.pop(number, None)  # which is told where it isn't back
        if says_yes and not any((self.run.words.out / str(number)).iterdir()):
            text = f"`whole {number}` said yes, and {self.run.names[number]} was emptied"
            raise wrong(f"{text} and doesn't run: `whole` asks another process, or none")

    async def _ask_the_emptied(self, number: int, before: Records) -> Told | None:
        """What `check` tells first of a record's emptied process, before that is whole."""
        if "check" not in self.hooks.names or not before:
            return None
        while number in self.run.ledger.able:
            await asyncio.sleep(SOON)
        key = next(iter(before))
        return await self.clients.first_told(number, key, lambda: self.clients.is_whole(number))

    def _note_passed_on(self, number: int, told: Told | None) -> None:
        """A process that has a record long before it is whole may have asked another for it."""
        if (early := for_how_long(told, self.run.not_whole.get(number))) > EARLY:
            name = self.run.names[number]
            text = f"{name} was emptied, told a record, and `whole {number}` still said no"
            asks = f"does `check` of {name} ask another process?"
            self.notes.append(f"{text} for {early:.1f} s: {asks}")

    async def disks(self) -> None:
        """Looks at what each folder had after `whole` said yes, now that the store is down."""
        for number, (copy, before) in self.copies.items():
            if "plain" in self.hooks.names:
                await self._look_through(number, copy, before)
            if (text := await self.hooks.salvage(number, copy)) is None:
                raise wrong(f"{self.hooks.ends[number]}; hooks.log may say why")
            if lacks := lacking(dict(pairs(f"salvage {number}", text)), before):
                raise self._wrong_whole(number, "salvage", lacks, before)

    async def _look_through(self, number: int, copy: Path, before: Records) -> None:
        """Looks whether records stand in the files as they were written, as the hooks promise."""
        found = await asyncio.to_thread(traces, copy, before)
        if lacks := [key for key in before if key not in found]:
            text = f"nothing stands in the files of {self.run.names[number]}"
            raise wrong(f"`plain` is promised, and of {counted(lacks, before)} {text}")

    def _wrong_whole(self, number: int, by: str, lacks: list[str], before: Records) -> Fault:
        name, idle = self.run.names[number], self._idle([number])
        text = f"`whole {number}` said yes, and {name} lacks {counted(lacks, before)} by `{by}`"
        return wrong(f"{text}{idle}: `whole` or `{by}` is wrong")

    def _idle(self, numbers: Iterable[int]) -> str:
        """Of some processes those whose `join` left their folders empty."""
        found = [self.run.joined.get(it, "") for it in numbers if it in self.run.idle]
        return "".join(f"; {it}" for it in found if it)

    async def _ask_the_dead(self, number: int, key: str) -> None:
        """A process that doesn't run tells nothing."""
        asked = await self.clients.ask_once(number, key)
        if asked.type == "ok":
            text = f"`check` told {asked.value or 'none'} of {self.run.names[number]}"
            raise wrong(f"{text}, which doesn't run: `check` asks another process")

    # What is told.

    async def _lacked_by_read(self, known: Records) -> list[str]:
        """The records that `read` lacks."""
        if (found := await self.clients.read(is_noted=False)) is None:
            raise wrong(f"nothing could be read, though all is up: {self.hooks.ends['read']}")
        values: dict[str, str] = {}
        for key, value in found:
            if (other := values.setdefault(key, value)) != value:
                text = f"`read` told {key} twice, as {other} and as {value}"
                raise wrong(f"{text}: `read` is wrong, or the store is")
        return lacking(values, known)

    async def _told(self, number: int, known: Records) -> dict[str, str | None]:
        """What a process tells by `check` of the newest records, once it had time for all."""
        if "check" not in self.hooks.names:
            return {}
        return await self.clients.check_all(number, list(known)[-MOST:])

    def times(self) -> list[str]:
        """How long a start and a heal took, and which words leave a run the time for them."""
        words, heals = self.run.words, self.run.ledger.healed
        start, heal = max(self.run.starts[self.first :], default=0.0), max(heals, default=0.0)
        told = f"a start took up to {start:.1f} s, a heal up to {heal:.1f} s"
        return [told, *self.shaper, *fitting(start, heal, words.pauses or PAUSES, words.seconds)]


def fitting(start: float, heal: float, pauses: Sequence[float], seconds: float) -> Iterator[str]:
    """Which pauses and seconds a run should have, and why those that were given don't do.

    While a process is destroyed the guard lessens what would destroy another. So a pause should
    mostly be as long as a heal.
    """
    pause, least = round(sum(pauses) / len(pauses), 1), round(max(start, heal), 1)
    if pause < least:
        longer = "start" if heal < start else "heal"
        too_short = f"{pause} s on average, shorter than a {longer}"
        yield f"--pauses are {too_short}: orders would be lessened"
        pauses = [math.ceil(start), math.ceil(least), math.ceil(2 * least)]
    if seconds < HEALS * heal:
        yield f"--seconds {seconds:g} leaves no time for {HEALS} heals"
    long = max(MINUTE, ORDERS * sum(pauses) / len(pauses))
    seconds = max(seconds, 10 * math.ceil(long / 10))
    take = f"--pauses {','.join(f'{it:g}' for it in pauses)} --seconds {seconds:g}"
    yield f"for a guarded run, not for --unguarded, take {take}"


def for_how_long(told: Told | None, not_whole: tuple[float, float] | None) -> float:
    """How long `whole` went on to say no of a process that told a record already.

    `not_whole` is when the first and the last call began that said no. How long the last one took,
    and the one that said yes, doesn't count: on a busy machine that may be seconds.
    """
    if told is None or told[1] == "none" or not_whole is None:
        return 0.0
    first, last = not_whole
    return last - max(first, told[0])


def lacking(found: Mapping[str, str | None], before: Records) -> list[str]:
    """The records that aren't found as they were written."""
    return [key for key, value in before.items() if found.get(key) != value]


def counted(lacks: Iterable[str], known: Iterable[str]) -> str:
    """How many records of how many."""
    first, *more = sorted(lacks)
    return f"{1 + len(more)} of {len(list(known))} records ({first}{' ..' if more else ''})"


def wrote_nothing(hook: str, asked: Operation) -> None:
    """A hook may tell nothing of a key that nobody wrote."""
    if asked.value is not None:
        text = f"`{hook}` told {asked.value} for {asked.key}, which nobody wrote"
        raise wrong(f"{text}: `{hook}` is wrong")


def wrong(text: str) -> Fault:
    """A hook is wrong."""
    return Fault(HOOK, text)
