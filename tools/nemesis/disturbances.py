"""Faults that destroy nothing and end by themselves: plans draw them, and no guard is asked."""
import asyncio
import json
from argparse import ArgumentTypeError, Namespace
from collections.abc import Callable, Iterator, Mapping, Sequence
from functools import reduce
from pathlib import Path
from random import Random
from typing import TYPE_CHECKING, Any, NamedTuple

from faultyard import InvalidAct
from faultyard.plans import PARTITIONS

from . import clock
from .clocks import DRIFTS
from .links import CALM, PROGRAMS, Pair, Traffic

if TYPE_CHECKING:
    from .store import Store

LASTS = (1.0, 3.0, 8.0)  # seconds
# What is drawn, of which rates are bytes a second, rooms bytes, and losses shares of all packets;
# speeds are times as fast, and all else seconds.
CALLS, ROOMS, RATES = (0.005, 0.02, 0.1), (0, 4096, 65536), (10**6, 10**5)
DELAYS, OVERTAKES = (0.02, 0.1, 0.5), 0.005
LOSSES, DOUBLES = (0.01, 0.05, 0.2), (0.0, 0.01, 0.05)
JUMPS, SPEEDS = (0.5, 5.0, 60.0), (0.5, 0.9, 1.1, 2.0)
How = Mapping[str, Any]


class Disturbance(NamedTuple):
    """What to do to some processes, and for how long."""

    kind: str
    processes: tuple[int, ...]
    seconds: float
    how: How
    pairs: tuple[Pair, ...] = ()  # of a network: who sends, and to whom
    pause: float = 0.0  # seconds to wait before
    began: float = 0.0  # when, by the clock of the loop

    def told(self) -> dict[str, Any]:
        """As an event has it."""
        its = {"kind": self.kind, "processes": list(self.processes), "seconds": self.seconds}
        pairs = {"pairs": [list(it) for it in self.pairs]} if self.pairs else {}
        return its | dict(self.how) | pairs

    @classmethod
    def of(cls, event: Mapping[str, Any]) -> "Disturbance":
        """That of an event."""
        how = {name: event[name] for name in FORMS[event["kind"]].members}
        processes = (*map(int, event["processes"]),)
        pairs = tuple((int(a), int(b)) for a, b in event.get("pairs", ()))
        return cls(event["kind"], processes, float(event["seconds"]), how, pairs)

    def without(self, gone: set[int]) -> "Disturbance":
        """For those that aren't gone."""
        pairs = (it for it in self.pairs if not gone & {*it})
        processes = sorted({*self.processes} - gone)
        return self._replace(processes=(*processes,), pairs=(*pairs,))


class Form(NamedTuple):
    """A kind of disturbance."""

    draw: Callable[[Random], How]
    members: Sequence[str]  # of what it draws
    tell: Callable[[How], str]
    needs: str  # words without which it can't be done
    about: str  # what is drawn, for the page
    # What makes a disk be as all of these say; without it the network or a clock is meant.
    order: Callable[[Sequence[How]], tuple[object, ...]] | None = None


# Slow and full disks.


def draw_slow(dice: Random) -> How:
    """Seconds more for each call, and bytes a second, if that is bounded."""
    return {"delay": dice.choice(CALLS), "rate": dice.choice((None, *RATES))}


def tell_slow(how: How) -> str:
    rate = f", at most {how['rate']} bytes a second" if how["rate"] else ""
    return f"{1000 * how['delay']:g} ms more for each call{rate}"


def order_slow(its: Sequence[How]) -> tuple[object, ...]:
    rates = [how["rate"] for how in its if how["rate"]]
    return "slow", max((how["delay"] for how in its), default=0), *([min(rates)] if rates else [])


def draw_full(dice: Random) -> How:
    """Bytes that are left."""
    return {"room": dice.choice(ROOMS)}


def tell_full(how: How) -> str:
    return f"{how['room']} bytes are left"


def order_full(its: Sequence[How]) -> tuple[object, ...]:
    return "room", min((how["room"] for how in its), default="all")


# Slow and lossy networks.


def draw_slow_net(dice: Random) -> How:
    delay, rate = dice.choice(DELAYS), dice.choice((None, *RATES))
    return Traffic(delay, delay / 4, rate=rate)._asdict()


def draw_lossy_net(dice: Random) -> How:
    """Packets are as late as the jitter has it, and overtake each other."""
    loss, duplicates = dice.choice(LOSSES), dice.choice(DOUBLES)
    return Traffic(OVERTAKES, OVERTAKES, loss, duplicates, reorders=True)._asdict()


def tell_net(how: How) -> str:
    return str(Traffic(**how))


# Clocks that are off, or go wrong.


def draw_skew(dice: Random) -> How:
    """Seconds by which a clock jumps; or how fast it goes."""
    if dice.random() < 0.5:
        return {"offset": dice.choice((-1, 1)) * dice.choice(JUMPS), "speed": 1.0}
    return {"offset": 0.0, "speed": dice.choice(SPEEDS)}


def tell_skew(how: How) -> str:
    told = [f"{how['offset']:+g} s"] if how["offset"] else []
    return ", ".join(told + ([f"{how['speed']:g} times as fast"] if how["speed"] != 1 else []))


LOSSY, NET = "--disks lossy", "--net"
DISK, WAYS = ("delay", "rate"), Traffic._fields


def listed(values: Sequence[float], factor: float = 1) -> str:
    """Values of which one is drawn, in some unit."""
    *texts, last = [f"{factor * it:g}" for it in values]
    return f"{', '.join(texts)} or {last}"


SHAPED = f"By the kernel's netem, or else by {' and '.join(f'`{it}`' for it in PROGRAMS)} of vde2"
ABOUT = {
    "slow-disk": f"each call of a disk takes {listed(CALLS, 1000)} ms more",
    "full-disk": f"{listed(ROOMS)} bytes are left on a disk",
    "slow": f"packets take {listed(DELAYS, 1000)} ms, a quarter more or less, in order. {SHAPED}",
    "lossy-net": f"{listed(LOSSES, 100)} % of packets are lost, {listed(DOUBLES, 100)} % doubled, "
    f"and they overtake within {2000 * OVERTAKES:g} ms. {SHAPED}",
    "skew": f"a clock jumps by {listed(JUMPS)} s, or goes {listed(SPEEDS)} times as fast. By "
    "libfaketime (Debian's `faketime`), for programs that ask glibc, so none in Go or with "
    "jemalloc",
}
FORMS: Mapping[str, Form] = {
    "slow-disk": Form(draw_slow, DISK, tell_slow, LOSSY, ABOUT["slow-disk"], order_slow),
    "full-disk": Form(draw_full, ("room",), tell_full, LOSSY, ABOUT["full-disk"], order_full),
    "slow": Form(draw_slow_net, WAYS, tell_net, NET, ABOUT["slow"]),
    "lossy-net": Form(draw_lossy_net, WAYS, tell_net, NET, ABOUT["lossy-net"]),
    "skew": Form(draw_skew, ("offset", "speed"), tell_skew, "", ABOUT["skew"]),
}
SKEW = "skew"
OF_NET = [kind for kind, form in FORMS.items() if form.needs == NET]
BESIDE = ("partition", *FORMS)  # what may be drawn beside the orders of a plan


# How they are drawn.


def drawn(
    kind: str, dice: Random, count: int, pauses: Sequence[float] | None
) -> Iterator[Disturbance]:
    """Disturbances of one process, of a minority or of all, without an end."""
    while True:
        some = dice.choice((1, max(1, (count - 1) // 2), count))
        processes = (*sorted(dice.sample(range(count), some)),)
        how, seconds = FORMS[kind].draw(dice), dice.choice(LASTS)
        pairs = pairs_of(processes, count, dice.choice(("both", "out", "in")))
        pause = dice.choice(pauses or PARTITIONS)
        pairs = pairs if kind in OF_NET else ()
        yield Disturbance(kind, processes, seconds, how, pairs, pause)


def pairs_of(processes: Sequence[int], count: int, way: str) -> tuple[Pair, ...]:
    """The ways from some processes to all others, back, or both."""
    out = [(a, b) for a in processes for b in range(count) if a != b]
    back = [(b, a) for a, b in out]
    return (*dict.fromkeys((out if way != "in" else []) + (back if way != "out" else [])),)


def kinds_beside(text: str) -> list[str]:
    """The plans of a word of the command line, separated by commas."""
    if wrong := [it for it in text.split(",") if it not in BESIDE]:
        raise ArgumentTypeError(f"{wrong[0]!r} is none of {', '.join(BESIDE)}")
    return text.split(",")


def kinds_of(words: Namespace) -> list[str]:
    """What is drawn by dice of its own: the plan, if it is of this kind, and what is beside it."""
    return [it for it in dict.fromkeys([words.plan, *words.beside]) if it in FORMS]


def lacking(words: Namespace, kind: str) -> str | None:
    """What a kind needs and isn't given."""
    if not (needs := FORMS[kind].needs):
        return None
    name, _, value = needs.removeprefix("--").partition(" ")
    given = vars(words)[name.replace("-", "_")]
    return None if given == (value or True) else needs


def refused(words: Namespace) -> str | None:
    """Why the kinds of the command line can't be done, if they can't."""
    for kind in kinds_of(words):
        if needs := lacking(words, kind):
            return f"{'--plan' if kind == words.plan else '--beside'} {kind} needs {needs}"
    if words.latency and not words.net:
        return "--latency needs --net"
    return None


def skews(words: Namespace) -> str | None:
    """Which words have clocks be off, if any do."""
    return "--skew" if words.skew else wanted(words, [SKEW])


def shapes(words: Namespace) -> str | None:
    """Which words shape what goes between processes, if any do."""
    return "--latency" if words.latency else wanted(words, OF_NET)


def wanted(words: Namespace, kinds: Sequence[str]) -> str | None:
    """Which words want one of these kinds, if any do."""
    if words.replay:
        try:
            found = {it.kind for _, it in read_disturbances(words.replay)} & {*kinds}
        except InvalidAct:
            return None  # the run says so
        return f"{words.replay}: {min(found)}" if found else None
    its = [it for it in kinds_of(words) if it in kinds]
    return f"{'--plan' if its[0] == words.plan else '--beside'} {its[0]}" if its else None


def latency_of(text: str) -> Traffic:
    """Milliseconds of delay, and how many more or less: `20±5`, or `20+-5`."""
    delay, _, jitter = text.replace("+-", "±").partition("±")
    found = Traffic(float(delay) / 1000, float(jitter or 0) / 1000)
    if not 0 <= found.jitter <= found.delay < 10 or not found.delay:
        raise ArgumentTypeError(f"{text!r} isn't as 20±5, milliseconds below 10,000")
    return found


def read_disturbances(events: Path) -> Iterator[tuple[float, Disturbance]]:
    """Those of a file of events with their times, to do them again; or `InvalidAct`."""
    for number, line in enumerate(events.read_text("utf-8").splitlines(), 1):
        try:
            if (event := json.loads(line))["what"] == "disturbance":
                yield event["t"], Disturbance.of(event)
        except (ValueError, KeyError, TypeError) as fault:
            raise InvalidAct(f"{events}: line {number} is no event: {fault!r}") from None


# What is done.


class Disturbances:
    """Those of a run."""

    def __init__(self, store: "Store") -> None:
        self._store = store
        self.now: list[Disturbance] = []  # those that go on
        self.count = 0

    async def begin(self, it: Disturbance) -> None:
        """Begins one, which ends by itself, and with the orders of the run."""
        store = self._store
        fixed = store.clocks.own.keys() if it.kind == SKEW and store.clocks else set()
        it = it.without(store.gone | fixed)._replace(began=clock())
        if not (it.pairs if it.kind in OF_NET else it.processes):
            return
        self.count += 1
        async with store.turn:
            self.now.append(it)
            await self._change(it)
            store.note("disturbance", **it.told())
            names = " ".join(store.names[number] for number in it.processes)
            store.show(f"{it.kind} {names}: {FORMS[it.kind].tell(it.how)}, {it.seconds:g} s")
        store.lasting(it.seconds, lambda: self._end(it))
        if it.how.get("speed", 1) != 1:
            store.tasks.create_task(self._drift(it))

    async def _drift(self, it: Disturbance) -> None:
        """Has a clock that goes wrong be further off, until it ends."""
        while it in self.now:
            await self._change(it)
            await asyncio.sleep(DRIFTS)

    async def _end(self, it: Disturbance) -> None:
        self.now.remove(it)
        self._store.note("undisturbed", kind=it.kind, processes=list(it.processes))
        await self._change(it)

    async def _change(self, it: Disturbance) -> None:
        """Has all that it is about be as those say that go on."""
        if it.kind in OF_NET:
            await self._shape(it.pairs)
        elif it.kind == SKEW:
            for number in it.processes:
                self._skew(number)
        else:
            await asyncio.gather(*(self._order(it.kind, number) for number in it.processes))

    def _skew(self, number: int) -> None:
        clocks = self._store.clocks
        assert clocks
        its = [it for it in self.now if it.kind == SKEW and number in it.processes]
        off = (it.how["offset"] + (it.how["speed"] - 1) * (clock() - it.began) for it in its)
        clocks.set(number, sum(off, clocks.base[number]))

    async def _order(self, kind: str, number: int) -> None:
        order, disks = FORMS[kind].order, self._store.disks
        assert order and disks
        its = [it.how for it in self.now if it.kind == kind and number in it.processes]
        await disks.order(number, *order(its))

    async def _shape(self, pairs: Sequence[Pair]) -> None:
        links, ways = self._store.links(), {}
        for pair in pairs:
            its = [Traffic(**it.how) for it in self.now if pair in it.pairs]
            ways[pair] = reduce(Traffic.__and__, its, links.base.get(pair, CALM))
        await links.shape(ways)

    def of(self, number: int) -> set[str]:
        """The kinds of those of a process' disk that go on."""
        its = (it for it in self.now if number in it.processes)
        return {it.kind for it in its if FORMS[it.kind].order}

    async def spare(self, number: int) -> None:
        """Has the disk of a process be as none says, until the next begins or ends."""
        for kind in sorted(self.of(number)):
            order, disks = FORMS[kind].order, self._store.disks
            assert order and disks
            await disks.order(number, *order([]))
