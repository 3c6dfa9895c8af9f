"""Processes whose disks are damaged: each runs on, is asked for all that was acknowledged, and is
emptied in the end. None is healed as it is."""
import asyncio
import signal
from asyncio.subprocess import Process
from collections import Counter
from collections.abc import Callable, Iterable, Iterator, Mapping, Sequence
from dataclasses import dataclass, field
from enum import StrEnum
from pathlib import Path
from random import Random
from shutil import rmtree
from typing import TYPE_CHECKING, Any

from . import HOOK, Fault
from .crashes import telling
from .damage import Damage, Pattern, damage, patterns_of

if TYPE_CHECKING:
    from .clients import Clients
    from .store import Store

ENDS = 2  # so often a process may end by itself until it is emptied
COPIED = 1.0  # seconds between two copies of folders, for a rollback
COPIES = 2  # that are kept of each
NEAR = 50  # records before and behind the damaged one that are asked for first
TOLD = 50  # wrong values that an event has


class Came(StrEnum):
    """What came of a damage."""

    WRONG = "served wrong"
    NEVER_UP = "never up"
    REFUSED = "refused"
    LACKED = "lacked"
    NOT_WHOLE = "not whole"  # it told all, and yet the hook `whole` said no
    REPAIRED = "repaired"
    RIGHT = "told rightly"  # and it is still on the disk
    UNASKED = "not asked"
    UNFINISHED = "not over"


@dataclass
class Observed:
    """A process with a damaged disk."""

    process: int
    entry: int
    damage: Damage
    t: float
    values: Mapping[str, str] = field(default_factory=dict)  # what was acknowledged until then
    until: float = 0.0  # by then it has to be up, and later: until then it is asked
    is_up: bool = False
    ends: int = 0  # how often it ended by itself
    log: str = ""  # what it said then
    asked: set[str] = field(default_factory=set)
    wrong: dict[str, str] = field(default_factory=dict)  # what it told wrongly first
    lacks: set[str] = field(default_factory=set)
    most: int = 0  # so many it lacked at once
    untold: set[str] = field(default_factory=set)
    whole: bool | None = None  # what the hook said in the end
    came: str = Came.UNFINISHED
    seconds: float = 0.0

    def hear(self, key: str, told: str) -> None:
        """What it told of a record: a value, `none` or `?`."""
        self.asked.add(key)
        self.untold.discard(key)
        self.lacks.discard(key)
        if told == "?":
            self.untold.add(key)
        elif told == "none":
            self.lacks.add(key)
            self.most = max(self.most, len(self.lacks))
        elif told != self.values[key]:
            self.wrong.setdefault(key, told)

    def questions(self) -> Iterator[str]:
        """All records, the damaged one first, and those near it; then any that weren't told."""
        keys, dice = [*self.values], Random(self.entry)
        at = keys.index(self.damage.record) if self.damage.record in self.values else 0
        first = keys[at : at + 1] + keys[max(0, at - NEAR) : at + NEAR] + keys[-NEAR:]
        yield from dict.fromkeys([*first, *dice.sample(keys, len(keys))])
        while True:
            yield from sorted(self.untold | self.lacks) or [dice.choice(keys)]

    def concluded(self, t: float, folder: Path) -> None:
        """Its time is over, or it was struck."""
        self.seconds, is_over = round(t - self.t, 3), t >= self.until
        self.came = self._came(is_over, lambda: self.damage.is_there(folder))

    def _came(self, is_over: bool, is_there: Callable[[], bool]) -> Came:
        if self.wrong:
            return Came.WRONG
        if self.ends >= ENDS:
            return Came.REFUSED
        if not is_over:
            return Came.UNFINISHED
        if not self.is_up:
            return Came.REFUSED if self.ends else Came.NEVER_UP
        if self.lacks:
            return Came.LACKED
        is_mute = self.untold == self.asked  # it told nothing: perhaps it can't be asked at all
        if self.untold and not (is_mute and self.whole):
            return Came.REFUSED
        if self.whole is False:
            return Came.NOT_WHOLE
        if is_mute:
            return Came.UNASKED
        return Came.RIGHT if is_there() else Came.REPAIRED

    def told(self) -> dict[str, Any]:
        """What came of it, as an event has it."""
        return {
            "process": self.process,
            "of": self.entry,
            "kind": self.damage.kind,
            "came": self.came,
            "seconds": self.seconds,
            "was_up": self.is_up,
            "ended": self.ends,
            "log": self.log,
            "acked": len(self.values),
            "asked": len(self.asked),
            "wrong": dict([*self.wrong.items()][:TOLD]),
            "wrong_count": len(self.wrong),
            "lacked": self.most,
            "lacks": len(self.lacks),
            "untold": len(self.untold),
            "whole": self.whole,
        }

    def __str__(self) -> str:
        counts = {
            "told wrongly": len(self.wrong),
            "lacked for a while": self.most if not self.lacks else 0,
            "lacked": len(self.lacks),
            "not told": len(self.untold),
        }
        told = [f"{count} {what}" for what, count in counts.items() if count]
        if self.came == Came.REFUSED and self.log:
            told.append(self.log[:120])
        elif self.asked and len(self.asked) < len(self.values):
            told.append(f"asked for {len(self.asked)} of {len(self.values)} records")
        elif told:
            told.append(f"of {len(self.values)} records")
        return f"{self.came}{': ' if told else ''}{', '.join(told)}"


class Damages:
    """Those of a run."""

    def __init__(self, store: "Store") -> None:
        self._store, self.words = store, store.words
        self.now: dict[int, Observed] = {}  # by process, until each is emptied
        self.past: list[Observed] = []
        self.clients: "Clients | None" = None  # by whom they are asked
        store.hooks.damaged = self.now

    # What is done to them.

    def awaits(self, processes: Iterable[int]) -> set[int]:
        """Who of these is damaged in place of being emptied: those that had all that they need."""
        return set(processes) & self._store.ledger.able if self.words.damage else set()

    async def strike(self, number: int) -> bool:
        """Damages the disk of a process that doesn't run, if it has something to damage."""
        store = self._store
        assert store.order
        entry, folder = store.orders[-1]["entry"], store.words.out / str(number)
        values = {key: it.value for key, it in store.ledger.records.items()}
        patterns, copies = await self._patterns(number), self._copies(number)
        kinds, word = self.words.damage, store.order.tear
        given = word, number, kinds, folder, patterns, values, copies
        done = await asyncio.to_thread(damage, *given)
        if done is None:
            store.show(f"no file of {store.names[number]} can be damaged: it is emptied")
            return False
        if done.kind == "error":
            await store.spoil(number, done)
        now = store.ledger.now()
        until = now + self.words.damage_seconds
        self.now[number] = Observed(number, entry, done, now, values, until)
        store.note("damage", process=number, of=entry, **done.told())
        store.show(f"damage of {store.names[number]}: {done}")
        return True

    async def _patterns(self, number: int) -> list[Pattern]:
        """Which files may be damaged, by the hook."""
        hooks = self._store.hooks
        text = await hooks.call("files", number)
        if text is None:
            raise Fault(HOOK, f"{hooks.ends[number]}; it may not fail")
        try:
            return patterns_of(text)
        except ValueError as fault:
            text = "it has to print 'PATTERN PAGE' lines"
            raise Fault(HOOK, f"files {number} printed {str(fault)[:80]!r}; {text}") from None

    # What they do.

    def started(self, number: int) -> None:
        """It has so long to be up, from its first start on."""
        if (it := self.now.get(number)) and not it.is_up and not it.ends:
            it.until = self._store.ledger.now() + self.words.damage_seconds

    def is_up(self, number: int) -> None:
        """It is asked from now on."""
        if (it := self.now.get(number)) and not it.is_up:
            it.is_up, it.until = True, self._store.ledger.now() + self.words.damage_seconds

    def ended(self, number: int, log: Sequence[str]) -> bool:
        """Whether a process that ended by itself has a damaged disk, so that it is no wonder."""
        if it := self.now.get(number):
            it.ends, it.log = it.ends + 1, telling(log)
        return it is not None

    def is_over(self, number: int) -> bool:
        """Whether a process with a damaged disk was observed for long enough."""
        it = self.now.get(number)
        return it is not None and (it.ends >= ENDS or self._store.ledger.now() >= it.until)

    async def ask(self, number: int, process: Process) -> None:
        """Asks a process for all that was acknowledged, until its time is over or it has ended."""
        it, hooks = self.now[number], self._store.hooks

        def is_over() -> bool:
            return process.returncode is not None or self.is_over(number)

        if self.clients and "check" in hooks.names and it.values:
            await self.clients.ask_for(number, it.questions(), len(it.values), it.hear, is_over)
        if process.returncode is None and self.is_over(number):
            it.whole = await hooks.says("whole", number, self._store.ledger.mark)

    def conclude(self, number: int) -> bool:
        """Says what came of a damage, if there is one; the process doesn't run, and is emptied."""
        if (it := self.now.pop(number, None)) is None:
            return False
        store = self._store
        it.concluded(store.ledger.now(), store.words.out / str(number))
        self.past.append(it)
        store.ledger.destroy_again(number)
        store.note("observed", **it.told())
        store.show(f"damage of {store.names[number]} by {it.damage.kind}: {it}")
        return True

    async def over(self) -> None:
        """Waits until all were observed."""
        while self.now:
            await asyncio.sleep(0.1)

    def spared(self) -> int:
        """Of how many losses no election has to know: a damaged primary stays what it was."""
        if not self.words.damaged_primary:
            return 0
        told = {(loss.process, loss.entry) for loss in self._store.ledger.losses}
        return sum((number, it.entry) in told for number, it in self.now.items())

    # Copies for a rollback.

    async def keep_copies(self) -> None:
        """Copies the folder of one after the other, stopped meanwhile, until it is cancelled."""
        number = -1
        while True:
            await asyncio.sleep(COPIED)
            number = (number + 1) % len(self._store.names)
            async with self._store.turn:
                await self._copy(number)

    async def _copy(self, number: int) -> None:
        store = self._store
        if number not in store.up & store.ledger.able - store.clogged:
            return
        if store.disturbances.of(number):  # a copy might take long, with the process stopped
            return
        to = self._room(number) / f"{store.ledger.now():.3f}"
        to.parent.mkdir(parents=True, exist_ok=True)
        store.signal(number, signal.SIGSTOP)
        try:
            await store.copied(number, to)
        finally:
            store.signal(number, signal.SIGCONT)
        for old in self._copies(number)[:-COPIES]:
            rmtree(old, ignore_errors=True)

    def _room(self, number: int) -> Path:
        return Path(self.words.out, "copies", str(number))

    def _copies(self, number: int) -> list[Path]:
        room = self._room(number)
        return sorted(room.iterdir(), key=lambda it: float(it.name)) if room.is_dir() else []

    def forget_copies(self, number: int) -> None:
        """A process that was emptied is another one, to which its copies say nothing."""
        rmtree(self._room(number), ignore_errors=True)

    # What it comes to.

    def recall(self, events: Iterable[Mapping[str, Any]]) -> None:
        """What the events of a run tell that died: what wasn't over then never will be."""
        found: dict[tuple[int, int], Observed] = {}
        for it in events:
            if it["what"] == "damage":
                names = ("kind", "file", "record", "other", "taken", "offset", "length")
                its = {name: it[name] for name in names if name in it}
                its["forgets"] = it["class"] == "forgetting"
                found[it["process"], it["of"]] = Observed(
                    it["process"], it["of"], Damage(**its), it["t"]
                )
            elif it["what"] == "observed":
                past = found[it["process"], it["of"]]
                past.came, past.wrong, past.most = it["came"], dict(it["wrong"]), it["lacked"]
                past.is_up = it["was_up"]
        self.past = [*found.values()]

    def summed(self) -> list[str]:
        """Lines of the summary."""
        if not self.past:
            return []
        lines = [f"{len(self.past)} disks damaged: {counted(it.damage.kind for it in self.past)}"]
        for came, count in Counter(it.came for it in self.past).items():
            kinds = counted(it.damage.kind for it in self.past if it.came == came)
            lines.append(f"  {came}: {count} ({kinds})")
        return lines


def counted(words: Iterable[str]) -> str:
    """How often each word is there."""
    return ", ".join(f"{count} {word}" for word, count in Counter(words).items())
