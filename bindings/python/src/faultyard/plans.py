"""Orders to kill and clog, drawn from a seed."""

from __future__ import annotations

from itertools import cycle, islice
from random import Random
from typing import Any, Callable, Dict, Iterator, Mapping, NamedTuple, Optional, Sequence
from typing import Tuple

from .enums import Key, Kind, Plan

PLANS = ("mixed", "attrition", "swizzle", "rolling", "blackout", "partition")
"""The plans of `Draw`, each a call of it."""
PAUSES = (0.0, 0.2, 0.5, 1.0, 2.0, 4.0)
BLACKOUTS = (4.0, 6.0, 8.0)
PARTITIONS = (1.0, 2.0, 4.0)
ATTRITIONS = (0.1, 0.2, 0.5)
ROLLED, SWIZZLED, BETWEEN_SWIZZLES = 2.0, 0.3, 3.0
MOST_CLOGGED = 3600.0
MOST_IDLE = 10_000  # turns
WEIGHTS = dict(zip(Kind, (10.0, 35.0, 54.0, 1.0, 10.0)))


class Order(NamedTuple):
    """What to order next."""

    kind: Kind
    key: Key
    value: str
    pause: float = 0.0
    """How many seconds to wait before."""
    clogged: float = 0.0
    """How many seconds a clog lasts."""
    tear: int = 0
    """Which unsynced items a reboot keeps, by its bits."""
    cuts: Tuple[Tuple[int, int], ...] = ()
    """A partition, of which no guard is asked: what each first sends to the second is lost."""
    floor: Kind = Kind.REBOOT_PROCESS
    """The mildest kind that a kill may be answered with."""
    frees: bool = False
    """Whether it ends a clog."""

    def act(self) -> Dict[str, Dict[str, Any]]:
        """The act for `Guard.act`. A clog's ticks are milliseconds."""
        target = {"key": self.key.value, "value": self.value}
        if self.frees:
            return {"unclog": target}
        if self.kind is Kind.CLOG:
            return {"clog": {**target, "ticks": round(1000 * self.clogged)}}
        kinds = {"kind": self.kind.value, "floor": self.floor.value}
        return {"kill": {**target, **kinds, "tear": self.tear}}

    @classmethod
    def of(cls, act: Mapping[str, Mapping[str, Any]]) -> Optional[Order]:
        """What an act orders, as an entry has it; `None` for neither a kill nor a clog."""
        ((name, members),) = act.items()
        if name not in ("kill", "clog"):
            return None
        kind = Kind(members.get("kind", Kind.CLOG.value))
        clogged = members.get("ticks", 0) / 1000
        key, tear = Key(members["key"]), members.get("tear", 0)
        floor = Kind(members.get("floor", Kind.REBOOT_PROCESS.value))
        return cls(kind, key, members["value"], clogged=clogged, tear=tear, floor=floor)


def shared_place(places: Sequence[Mapping[Key, str]]) -> Optional[Tuple[Key, str]]:
    """A key and a value that all processes have, so that one order strikes them all."""
    for key in (Key.DATA_CENTER, Key.DATA_HALL, Key.ZONE, Key.MACHINE, Key.PROCESS):
        values = {place.get(key) for place in places}
        if len(values) == 1 and (value := values.pop()):
            return key, value
    return None


SHAPES = ("majority", "one-way", "bridge", "ring")


def cuts_of(shape: str, ring: Sequence[int], fewer: int) -> Tuple[Tuple[int, int], ...]:
    """The pairs that a partition cuts, among processes in this order.

    majority: the first few and the others. one-way: only what these few send is lost. bridge: two
    halves, and the last process sees both. ring: each sees the one before and the one after it.
    """
    count = len(ring)
    half = count // 2 if shape == "bridge" else fewer
    last = count - 1 if shape == "bridge" else count
    sides = [(a, b) for a in ring[:half] for b in ring[half:last]]
    if shape == "ring":
        apart = range(2, count - 1)
        return tuple((ring[a], ring[(a + far) % count]) for a in range(count) for far in apart)
    return tuple(sides if shape == "one-way" else sides + [(b, a) for a, b in sides])


class Draw(NamedTuple):
    """Draws orders without an end, for the processes at these places.

    for order in Draw(Random(7), ClusterFile.read("two.toml").places).mixed():
        time.sleep(order.pause)
        entry = guard.act(1, order.act())
    """

    dice: Random
    places: Sequence[Mapping[Key, str]]
    weights: Mapping[Kind, float] = WEIGHTS
    """How often each kind is drawn; leave out those that aren't granted."""
    pauses: Optional[Sequence[float]] = None
    """The pauses of a plan, one of which is drawn each time: of `swizzle` those between its rounds.
    Else each plan has its own, as `PAUSES`."""

    def mixed(self) -> Iterator[Order]:
        """Any kind of a random process, machine or zone, after a random pause."""
        keys = [Key.PROCESS, Key.PROCESS, Key.MACHINE, Key.ZONE]
        while True:
            yield self._any(list(Kind), keys, self.pauses or PAUSES)

    def attrition(self) -> Iterator[Order]:
        """Destroys a process or machine after the other, faster than they are filled again."""
        kinds = [kind for kind in Kind if kind.empties_disk]
        while True:
            yield self._any(kinds, [Key.PROCESS, Key.MACHINE], self.pauses or ATTRITIONS)

    def _any(self, kinds: Sequence[Kind], keys: Sequence[Key], pauses: Sequence[float]) -> Order:
        """One of those kinds, by their weights; the first where none has any."""
        weights = [self.weights.get(kind, 0) for kind in kinds]
        kind = self.dice.choices(kinds, weights)[0] if sum(weights) else kinds[0]
        key = self.dice.choice(keys)
        value = self.dice.choice(self.places)[key]
        clogged = self.dice.choice([0.5, 1.0, 2.0, 5.0])
        return Order(kind, key, value, self.dice.choice(pauses), clogged)

    def swizzle(self) -> Iterator[Order]:
        """Stops some of them one by one, and lets them go on in another order; then a pause."""
        kind = Kind.CLOG if self.weights.get(Kind.CLOG) else Kind.REBOOT
        while True:
            places = self.dice.sample(self.places, self.dice.randint(1, len(self.places)))
            ends = self.dice.sample(range(len(places)), len(places))
            between = self.dice.choice(self.pauses) if self.pauses else BETWEEN_SWIZZLES
            for turn, (place, end) in enumerate(zip(places, ends)):
                pause = SWIZZLED if turn else between
                clogged = SWIZZLED * (len(places) - turn + end)
                yield Order(kind, Key.PROCESS, place[Key.PROCESS], pause, clogged)

    def blackout(self) -> Iterator[Order]:
        """Reboots everything at once, now and then; all have to share a place."""
        key, value = shared_place(self.places) or (Key.DATA_CENTER, "")
        while value:
            yield Order(Kind.REBOOT, key, value, self.dice.choice(self.pauses or BLACKOUTS))

    def partition(self) -> Iterator[Order]:
        """Cuts processes off from each other, in one of the shapes of `cuts_of`."""
        while len(self.places) > 1:
            shape = self.dice.choice(SHAPES)
            ring = self.dice.sample(range(len(self.places)), len(self.places))
            fewer = self.dice.randint(1, max(1, (len(ring) - 1) // 2))
            pause = self.dice.choice(self.pauses or PARTITIONS)
            clogged = self.dice.choice([1.0, 3.0, 8.0])
            if cuts := cuts_of(shape, ring, fewer):
                yield Order(Kind.CLOG, Key.PROCESS, shape, pause, clogged, cuts=cuts)

    def rolling(self) -> Iterator[Order]:
        """Restarts each in turn; then all again, with a harder kind."""
        for kind in cycle([Kind.REBOOT_PROCESS, Kind.REBOOT, Kind.REBOOT_AND_DELETE]):
            for place in self.places:
                pause = self.dice.choice(self.pauses) if self.pauses else ROLLED
                yield Order(kind, Key.PROCESS, place[Key.PROCESS], pause)


Ask = Callable[[int], Sequence[Optional[Mapping[str, Mapping[str, Any]]]]]
"""Answers the acts of so many turns of a fault actor: `Guard.plan_orders`, all but the count."""


class Simulated(NamedTuple):
    """The orders that a fault actor of `faultyard simulate` makes, each after a pause.

    Left out are turns that order nothing, and what can't be ordered of a real store: kinds that
    aren't granted, targets that no process has, and clogs that last longer than the clock.
    """

    ask: Ask
    plan: Plan
    dice: Random
    """The pauses are drawn from it."""
    places: Sequence[Mapping[Key, str]]
    granted: Sequence[Kind]
    pauses: Optional[Sequence[float]] = None
    """The pauses that are drawn from; of `swizzle` those between its rounds. Else the plan's."""

    def orders(self) -> Iterator[Order]:
        """The orders, without an end if the actor has one that can be made in `MOST_IDLE` turns."""
        last, idle = None, 0
        for act in self._acts():
            order = self._order(act)
            if order is None:
                idle += 1
                if idle == MOST_IDLE:
                    return
                continue
            yield order._replace(pause=self._pause(order, last))
            last, idle = order, 0

    def _acts(self) -> Iterator[Optional[Mapping[str, Mapping[str, Any]]]]:
        """The acts of the actor's turns: twice as many are asked for each time."""
        done, count = 0, 64
        while True:
            yield from islice(self.ask(count), done, None)
            done, count = count, 2 * count

    def _order(self, act: Optional[Mapping[str, Mapping[str, Any]]]) -> Optional[Order]:
        """What an act orders, if it can be ordered here."""
        if act is None:
            return None
        ((name, members),) = act.items()
        key, value = Key(members["key"]), members["value"]
        order = Order.of(act) or Order(Kind.CLOG, key, value, frees=name == "unclog")
        is_there = any(place.get(key) == value for place in self.places)
        lasts = order.clogged < MOST_CLOGGED
        return order if is_there and lasts and order.kind in self.granted else None

    def _pause(self, order: Order, last: Optional[Order]) -> float:
        """How long to wait before an order: a round of a swizzle begins after a longer time."""
        if self.plan is Plan.MIXED:
            return self.dice.choice(self.pauses or PAUSES)
        if self.plan is Plan.ATTRITION:
            return self.dice.choice(self.pauses or ATTRITIONS)
        if self.plan is Plan.ROLLING:
            return self.dice.choice(self.pauses) if self.pauses else ROLLED
        if last is not None and not (last.frees and not order.frees):
            return SWIZZLED
        return self.dice.choice(self.pauses) if self.pauses else BETWEEN_SWIZZLES
