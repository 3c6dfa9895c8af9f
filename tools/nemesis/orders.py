"""Which orders a run makes, and when: those of another run, of a simulation, or of dice."""

from argparse import Namespace
from collections.abc import Iterator
from random import Random
from typing import TypeVar

from faultyard import ClusterFile, Guard, Kind, NotFound, Plan, ProtocolError
from faultyard.harness import read_orders
from faultyard.plans import Draw, Order, Simulated, shared_place

from . import USAGE, Fault
from .damage import words_of
from .disks import tears_of
from .disturbances import FORMS, Disturbance, drawn, kinds_of, lacking, read_disturbances

FIRST = 1.0  # seconds before the first order
KINDS = (10.0, 35.0, 54.0, 1.0, 10.0)  # how often each kind is drawn
SEEDS = range(2**64)  # those of a simulation
STOPS = 1  # the bit of a tear by which a RebootProcess is by the hook `stop`
Timed = tuple[float, Order | Disturbance]
Ordered = tuple[float, Order]
_It = TypeVar("_It", Order, Disturbance)


class Orders:
    """The orders of a run, and whose they are."""

    def __init__(
        self, words: Namespace, file: ClusterFile, fault: int, can_stop: bool = False
    ) -> None:
        self.words, self.file, self.fault = words, file, fault
        self.granted = file.actors[fault].kinds
        ordered, self.whose = self._planned()
        if words.damage and not words.replay:
            ordered = [*self._damaging(ordered)]
        if can_stop and not words.replay:
            ordered = [*self._stopping(ordered)]
        self.timed: list[Timed] = sorted([*ordered, *self._beside()], key=lambda it: it[0])
        self._refuse()

    def _planned(self) -> tuple[list[Ordered], str]:
        words = self.words
        if words.replay:
            return list(read_orders(words.replay)), f"those of {words.replay}"
        if words.check_hooks:
            return [], "none"
        if words.plan in FORMS:
            return [], "drawn by this tool's own dice"
        if words.plan == "blackout" and not shared_place(self.file.places):
            text = "--plan blackout needs a place that all processes share, as a dcid"
            raise Fault(USAGE, f"{words.config}: {text}")
        if "partition" in (words.plan, *words.beside) and Kind.CLOG not in self.granted:
            raise Fault(USAGE, f"{words.config}: --plan partition needs a grant of Clog")
        return self._simulated() or (list(self._diced()), "drawn by this tool's own dice")

    def _simulated(self) -> tuple[list[Ordered], str] | None:
        """The orders of `faultyard simulate`, where it has the plan and the library can be
        asked."""
        words = self.words
        if words.kinds or words.plan not in {it.value for it in Plan} or words.seed not in SEEDS:
            return None
        if words.plan == "swizzle" and Kind.CLOG not in self.granted:
            return None
        plan, dice, places = Plan(words.plan), Random(words.seed), self.file.places
        try:
            with Guard(words.config, transport="library") as guard:
                drawn = Simulated(
                    lambda count: guard.plan_orders(plan, words.seed, self.fault, count),
                    plan,
                    dice,
                    places,
                    tuple(self.granted),
                    words.pauses,
                )
                timed = list(self._until_the_end(drawn.orders()))
        except (NotFound, ProtocolError):
            return None
        if words.tear == "none":
            timed = [(at, order._replace(tear=0)) for at, order in timed]
        whose = f"faultyard simulate --plan {words.plan} --seed {words.seed}"
        return timed, f"those of actor {self.fault} in {whose}"

    def _damaging(self, timed: list[Ordered]) -> Iterator[Ordered]:
        """Each order that destroys has a word which says what it damages, in place of a tear."""
        drawn = words_of(self.words.seed)
        for at, order in timed:
            destroys = order.kind.empties_disk
            yield at, order._replace(tear=next(drawn)) if destroys else order

    def _stopping(self, timed: list[Ordered]) -> Iterator[Ordered]:
        """The tear of a RebootProcess says how it is done, drawn apart by the weights."""
        dice, weights = Random(f"{self.words.seed}-stop"), self.words.stops
        for at, order in timed:
            if order.kind is Kind.REBOOT_PROCESS:
                order = order._replace(tear=dice.choices([STOPS, 0], weights)[0])
            yield at, order

    def _diced(self) -> Iterator[Ordered]:
        """Orders that are drawn here."""
        words, its = self.words, zip(Kind, self.words.kinds or KINDS)
        weights = {kind: it for kind, it in its if kind in self.granted}
        draw = Draw(Random(words.seed), self.file.places, weights, words.pauses)
        tears = tears_of(words)
        for at, order in self._until_the_end(getattr(draw, words.plan)()):
            yield at, order._replace(tear=next(tears))

    def _beside(self) -> Iterator[Timed]:
        """What is drawn beside, each kind by dice of its own; or what a replay has of it."""
        words, places = self.words, self.file.places
        if words.replay:
            yield from read_disturbances(words.replay)
            return
        if words.check_hooks:
            return
        if "partition" in words.beside:
            draw = Draw(Random(f"{words.seed}-partition"), places, pauses=words.pauses)
            yield from self._until_the_end(draw.partition())
        for kind in kinds_of(words):
            dice = Random(f"{words.seed}-{kind}")
            yield from self._until_the_end(drawn(kind, dice, len(places), words.pauses))

    def _refuse(self) -> None:
        """Refuses orders of a replay that can't be done without words which aren't there."""
        for _, order in self.timed:
            if isinstance(order, Disturbance):
                kind, needs = order.kind, lacking(self.words, order.kind)
            else:
                kind, needs = "partition", "--net" if order.cuts and not self.words.net else None
            if needs:
                raise Fault(USAGE, f"{self.words.replay}: {kind} needs {needs}")

    def _until_the_end(self, orders: Iterator[_It]) -> Iterator[tuple[float, _It]]:
        """The orders with their times, each after its pause, as long as records are written."""
        at = FIRST
        for order in orders:
            if (at := round(at + order.pause, 3)) >= self.words.seconds:
                return
            yield at, order
