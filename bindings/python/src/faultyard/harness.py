"""A harness that asks a guard about each fault, does what it answers, and writes it down."""

from __future__ import annotations

import asyncio
import json
import statistics
import time
from abc import ABC, abstractmethod
from io import UnsupportedOperation
from pathlib import Path
from typing import (
    Any,
    Awaitable,
    Callable,
    Coroutine,
    Dict,
    Iterator,
    List,
    Mapping,
    Optional,
    Sequence,
    Set,
    Tuple,
)

from .cluster import ClusterFile
from .enums import Key, Kind, Role
from .errors import GuardEnded, InvalidAct
from .guard import Guard
from .history import History
from .ledger import Ledger, Lost
from .plans import Order
from .programs import StrPath
from .replies import Entry

Act = Mapping[str, Mapping[str, Any]]
Spawn = Callable[[Coroutine[Any, Any, None]], Awaitable[None]]
FOLLOWED = 0.05
"""How many seconds pass before a guard that is served is asked what others did."""


class Harness(ABC):
    """Carries out orders in asyncio. A subclass says how processes are struck and clogged.

    class Mine(Harness):
        async def strike(self, processes, kind): ...
        async def clog(self, processes, is_clogged): ...

    It tells `tell_up`, `tell_healed` and `tell_ended` once a process has come back or gone down.
    """

    def __init__(
        self,
        guard: Guard,
        file: ClusterFile,
        events: StrPath,
        *,
        unguarded: bool = False,
        show: Callable[[str], None] = print,
        clock: Callable[[], int] = time.monotonic_ns,
        goes_on: bool = False,
    ) -> None:
        """`events` is a file that gets a line of JSON for whatever happens.

        `unguarded`: what was ordered is done, whatever the guard says. `show` takes a line for each
        order. `clock` tells the time in nanoseconds. `goes_on`: what the file has of a test that
        died stays.
        """
        self.guard, self.file, self.ledger = guard, file, Ledger(guard, clock=clock)
        self.storage, self.fault = file.actor(Role.STORAGE), file.actor(Role.FAULT)
        self.unguarded = unguarded
        self.names = [place[Key.PROCESS] for place in file.places]
        self.up: Set[int] = set()
        """The processes that run, as was told."""
        self.gone: Set[int] = set()
        """The processes that were killed for good, with the guard's leave or without."""
        self.orders: List[Dict[str, Any]] = []
        """All kills and clogs, as the events have them."""
        self.order: Optional[Order] = None
        """The order at hand, whose tear says what a reboot keeps."""
        self.turn = asyncio.Lock()
        """Is held while somebody asks, and does what is answered."""
        self.spawn: Spawn = asyncio.ensure_future
        """Begins what goes on beside, as a task: the end of a clog."""
        self.history: Optional[History] = None
        """Is told each entry, where a test keeps one for `faultyard.verdicts`."""
        self.restarts: List[str] = []
        """When the guard had died and was started again, and how it had ended."""
        self._show = show
        self._events = Path(events)
        if not goes_on:
            self._events.write_text("")
        self._over = asyncio.Event()
        self._clogs: List[Awaitable[None]] = []
        self._due: List[Entry] = []  # what others were answered, and isn't carried out yet
        # The last clog of each target, until it is freed.
        self._lasting: Dict[Tuple[Key, str], Order] = {}

    @abstractmethod
    async def strike(self, processes: Sequence[int], kind: Kind) -> None:
        """Does to these processes what a kind says."""

    @abstractmethod
    async def clog(self, processes: Sequence[int], is_clogged: bool) -> None:
        """Holds the messages of these processes, or lets them go."""

    def answered(self, entry: Entry, does: Optional[Kind]) -> None:
        """An entry was made, and nothing is done yet; each entry is told once, and none behind a
        later one. `does` is what its targets get, which may be beyond what the guard said. The
        history has it, if there is one.
        """
        if self.history is not None:
            done = {"does": does.value if does else None}
            self.history.answered(entry.at, **({} if does is entry.struck else done))

    def show(self, text: str) -> None:
        """Shows a line, with its time."""
        self._show(f"{self.ledger.now():7.2f}  {text}")

    def note(self, what: str, **more: Any) -> None:
        """Writes an event."""
        event = {"t": self.ledger.now(), "what": what, **more, "up": sorted(self.up)}
        with self._events.open("a", encoding="utf-8") as file:
            print(json.dumps(event), file=file)

    # Orders.

    def targets(self, key: Key, value: str) -> List[int]:
        """The processes that have the value and aren't gone."""
        return sorted(self.file.having(key, value) - self.gone)

    async def obey(self, by: int, act: Act, *, ordered: bool = True) -> Entry:
        """Asks the guard, and does what it answers, or what was asked if unguarded.

        The end of a clog is `ordered` unless its time is up: then a replay has it by that clog.
        """
        async with self.turn:
            entry = self._ask(by, act)
            self._take(entry)
            await self._carry_out_others()
            await self._carry_out(entry, ordered)
        return entry

    def _ask(self, by: int, act: Act) -> Entry:
        """Asks the guard. One that has died is started again behind its audit, and asked again."""
        try:
            return self.guard.act(by, act)
        except GuardEnded as end:
            try:
                self.guard.begin_again()
            except UnsupportedOperation:
                raise end from None
            entry, why = self.guard.act(by, act), str(end)
        told = f"at {self.ledger.now():.2f} s before entry {entry.at}: {why}"
        self.restarts.append(told)
        self.note("guard", told=told)
        self.show(f"the guard was started again: {why}")
        return entry

    def catch_up(self, entry: Entry) -> None:
        """Takes note of what was answered as a test died, of whose processes none runs now."""
        order, does = Order.of(entry.act), self._does(entry)
        if self.history is not None and entry.at > self.history.last_entry:
            self.answered(entry, does)
        if order is None:
            ((name, members),) = entry.act.items()
            process = {"process": members["process"]} if "process" in members else {"by": entry.by}
            more = {"act": entry.act, "entry": entry.at, "reply": entry.told}
            self.note(name, **process, **more)
            if name == "heal" and members["process"] in self.ledger.destroyed:
                self.ledger.heal(members["process"], entry.at)
            return
        processes = self._note_order(order, entry)
        if does is not None and does.is_final:
            self.gone.update(processes)
        self.destroyed(processes if does is not None and does.empties_disk else [], entry.at)

    async def follow(self) -> None:
        """Does what others are answered by a guard that is served, until it is cancelled."""
        while True:
            async with self.turn:
                self._take()
                await self._carry_out_others()
            await asyncio.sleep(FOLLOWED)

    def _take(self, own: Optional[Entry] = None) -> None:
        """Takes note of what others were answered, before an entry of ours or until now."""
        others = self.guard.others(before=own.at if own else None)
        self._due += others
        for entry in others + ([own] if own else []):
            self.answered(entry, self._does(entry))

    def _does(self, entry: Entry) -> Optional[Kind]:
        order = Order.of(entry.act)
        return order.kind if order and self.unguarded else entry.struck

    async def _carry_out_others(self) -> None:
        while self._due:
            await self._carry_out(self._due.pop(0))

    async def _carry_out(self, entry: Entry, ordered: bool = False) -> None:
        order = Order.of(entry.act)
        if order is not None:
            await self._do(order, entry)
            return
        ((name, members),) = entry.act.items()
        more = {"ordered": True} if ordered else {}
        self.note(name, by=entry.by, act=entry.act, entry=entry.at, reply=entry.told, **more)
        if name == "unclog" and (self.unguarded or entry.barred is None):
            target = Key(members["key"]), members["value"]
            self._lasting.pop(target, None)
            await self.clog(self.targets(*target), False)

    def _note_order(self, order: Order, entry: Entry) -> List[int]:
        """Notes an order and what is done for it; whom it is about."""
        said, does = entry.struck, self._does(entry)
        processes = self.targets(order.key, order.value)
        event: Dict[str, Any] = {
            "t": self.ledger.now(),
            "by": entry.by,
            "entry": entry.at,
            "key": order.key.value,
            "value": order.value,
            "clogged": order.clogged,
            "tear": order.tear,
            "order": order.kind.value,
            "floor": order.floor.value,
            "verdict": said and said.value,
            "rule": entry.barred,
            "does": does and does.value,
            "acked": len(self.ledger.records),
            "targets": processes,
            "beyond": does is not said,
        }
        self.orders.append(event)
        self.note("order", **event)
        self.show(self._told(event))
        return processes

    async def _do(self, order: Order, entry: Entry) -> None:
        processes, does = self._note_order(order, entry), self._does(entry)
        self.order = order
        if does is Kind.CLOG:
            await self.clog(processes, True)
            self._lasting[order.key, order.value] = order
            self._clogs.append(self.spawn(self._unclog(order, entry.by)))
        elif does is not None:
            self.up.difference_update(processes)
            if does.is_final:
                self.gone.update(processes)
            await self.strike(processes, does)
            self.destroyed(processes if does.empties_disk else [], entry.at)

    def destroyed(self, processes: Sequence[int], entry: int) -> None:
        """They have nothing any more."""
        for process in processes:
            self.ledger.destroy(process, entry)
        if processes:
            self.note("destroyed", processes=list(processes), of=entry)

    def _told(self, event: Mapping[str, Any]) -> str:
        """An order and what was done, as a line."""
        done = "done" if event["does"] == event["order"] else event["does"] or "nothing"
        if event["beyond"]:
            done += f"; the guard said {event['verdict'] or 'no'}"
        if event["rule"]:
            done += f": {' '.join(map(str, event['rule']))}"
        names = " ".join(self.names[process] for process in event["targets"]) or "nobody"
        order = f"{event['order']} {event['value']} ({names})"
        return f"{order:<40}{done:<40} acked {event['acked']}"

    async def _unclog(self, order: Order, by: int) -> None:
        try:
            await asyncio.wait_for(self._over.wait(), order.clogged)
        except asyncio.TimeoutError:
            pass
        if self._lasting.get((order.key, order.value)) is order:
            await self.obey(by, order._replace(frees=True).act(), ordered=False)

    async def clogs_ended(self, at_once: bool = False) -> None:
        """Waits until all that was clogged is let go, or lets it go at once."""
        if at_once:
            self._over.set()
        await asyncio.gather(*self._clogs)

    # Reports.

    def tell_up(self, process: int) -> None:
        """A process runs again."""
        self.up.add(process)
        self._tell("up", process, self.storage, {"up": {"process": process}})

    def tell_healed(self, process: int) -> None:
        """A destroyed process has its records again, up to the mark of `Ledger.due`."""
        entry = self._tell("heal", process, self.storage, {"heal": {"process": process}})
        self.ledger.heal(process, entry)

    def tell_ended(self, process: int, why: str) -> None:
        """A process went down, and nobody ordered it: told as a reboot."""
        self.up.discard(process)
        order = Order(Kind.REBOOT, Key.PROCESS, self.names[process])
        self._tell(why, process, self.fault, order.act())

    def _tell(self, what: str, process: int, by: int, act: Act) -> Optional[int]:
        """Tells the guard, by which entry; not before the beginning, when it takes all for up."""
        if not self.ledger.has_begun():
            return None
        entry = self._ask(by, act)
        self._take(entry)
        self.note(what, process=process, entry=entry.at, reply=entry.told)
        return entry.at

    # What it comes to.

    def beyond(self) -> Optional[Mapping[str, Any]]:
        """The first order that went beyond what the guard said."""
        return next((order for order in self.orders if order["beyond"]), None)

    def summary(self, title: str) -> List[str]:
        """How many orders there were and what became of them, and the first beyond the guard."""
        healed, beyond = self.ledger.healed, self.beyond()
        barred = sum(order["verdict"] is None for order in self.orders)
        lessened = sum(order["verdict"] != order["order"] for order in self.orders) - barred
        destroying = len({loss.entry for loss in self.ledger.losses})
        median = f" (median {statistics.median(healed):.1f} s)" if healed else ""
        lines = [
            f"{'unguarded' if self.unguarded else 'guarded'}, {title}: "
            f"{len(self.orders)} orders, {lessened} lessened, {barred} barred; "
            f"{destroying} destroying; {len(healed)} healed{median}; "
            f"longest without a write {self.ledger.longest_pause():.1f} s"
        ]
        if beyond:
            said, done = beyond["verdict"] or "no", f"{beyond['does']} of {beyond['value']}"
            entry = f"beyond the guard first: entry {beyond['entry']}"
            lines.append(f"{entry}: the guard said {said}, {done} was done")
        return lines + [f"the guard was started again {it}" for it in self.restarts]

    def lost(self, found: Mapping[str, Optional[str]], *, is_all: bool) -> List[Dict[str, Any]]:
        """The records that are lost by `Ledger.lost`, with the names of who could hold each."""
        return [self.named(it) for it in self.ledger.lost(found, is_all=is_all)]

    def named(self, lost: Lost) -> Dict[str, Any]:
        """A lost record with the names of who could hold it."""
        return {**lost._asdict(), "able": [self.names[n] for n in lost.able]}


def lost_line(lost: Mapping[str, Any]) -> str:
    """What a lost record is told as."""
    entries = " ".join(map(str, lost["destroyed_by"]))
    taken = f"destroyed later by entries {entries}" if entries else "none of them was destroyed"
    when = f"acknowledged at {lost['t']:.2f} s before entry {lost['entry']}"
    return f"lost: {lost['key']}, {when}; could be held by {' '.join(lost['able'])}; {taken}"


def read_orders(events: StrPath) -> Iterator[Tuple[float, Order]]:
    """The orders of a file of events with their times, to do them again; or `InvalidAct`."""
    for number, line in enumerate(Path(events).read_text(encoding="utf-8").splitlines(), 1):
        try:
            event = json.loads(line)
            if event["what"] == "partition":
                cuts = tuple((int(a), int(b)) for a, b in event["cuts"])
                shape, clogged = event["shape"], event["clogged"]
                order = Order(Kind.CLOG, Key.PROCESS, shape, clogged=clogged, cuts=cuts)
                yield event["t"], order
            elif event["what"] == "order":
                order = Order(Kind(event["order"]), Key(event["key"]), event["value"])
                clogged, tear = event.get("clogged", 0.0), event.get("tear", 0)
                floor = Kind(event.get("floor", Kind.REBOOT_PROCESS.value))
                yield event["t"], order._replace(clogged=clogged, tear=tear, floor=floor)
            elif event["what"] == "unclog" and event.get("ordered"):
                members = event["act"]["unclog"]
                order = Order(Kind.CLOG, Key(members["key"]), members["value"], frees=True)
                yield event["t"], order
        except (ValueError, KeyError, TypeError) as fault:
            raise InvalidAct(f"{events}: line {number} is no event: {fault!r}") from None
