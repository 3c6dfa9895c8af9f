"""What a picture of a run shows, from the files of its folder.

Who was down when, which orders struck whom, when nothing was acknowledged, and where records that
are lost were acknowledged.
"""

from __future__ import annotations

import json
from collections.abc import Iterable, Iterator, Mapping, Sequence
from dataclasses import dataclass, field
from enum import StrEnum
from pathlib import Path
from typing import Any

from faultyard import ClusterFile, Key, Kind

from .disturbances import FORMS, Disturbance

QUIET = 1.0  # seconds without an acknowledgement that are shaded
Event = Mapping[str, Any]


class State(StrEnum):
    """What a process is at a time, as the guard was told."""

    UP = "up"
    DOWN = "down"  # it has its data
    EMPTIED = "emptied"  # destroyed, and not up again
    HEALING = "healing"  # up again, and not whole yet
    GONE = "gone"


@dataclass(frozen=True)
class Span:
    """A time in which something was so."""

    begin: float
    end: float
    state: State


@dataclass(frozen=True)
class Struck:
    """An order, and what was done."""

    t: float
    event: Event
    destroyed: tuple[int, ...]
    """The processes that counted as destroyed when it was asked."""
    gone: tuple[int, ...]
    """Those of them that were killed for good."""

    @property
    def does(self) -> Kind | None:
        return Kind(self.event["does"]) if self.event["does"] else None

    @property
    def is_lessened(self) -> bool:
        return self.event["verdict"] not in (None, self.event["order"])


@dataclass
class Lane:
    """What a process went through."""

    spans: list[Span] = field(default_factory=list)
    clogs: list[tuple[float, float]] = field(default_factory=list)
    orders: list[Struck] = field(default_factory=list)
    ends: list[tuple[float, str]] = field(default_factory=list)
    """When it ended by itself, and how."""
    cuts: list[float] = field(default_factory=list)
    """When the power of its disk was cut."""


@dataclass(frozen=True)
class Partition:
    """A time in which some didn't hear others: pairs of who wasn't heard, and by whom."""

    begin: float
    end: float
    shape: str
    cuts: tuple[tuple[int, int], ...]


@dataclass(frozen=True)
class Spell:
    """A time in which processes were disturbed, or the disk of one was damaged."""

    begin: float
    end: float
    kind: str
    processes: tuple[int, ...]
    told: str  # what was done to them; and what came of a damage, if that is known
    is_damage: bool = False


@dataclass(frozen=True)
class Record:
    """A record that isn't kept."""

    t: float
    """When it was acknowledged; or when a read told a value that was never written."""
    key: str
    verdict: str
    fault: str
    taken: frozenset[tuple[str, int]]
    """Those who could hold it, each with the entry that first destroyed it."""


@dataclass
class Timeline:
    """All that a picture shows."""

    seconds: float  # when something last changed
    written: float  # until when records were written, or the end of a run that was broken off
    lanes: list[Lane]
    orders: list[Struck]
    acks: list[float]
    records: list[Record]
    partitions: list[Partition]
    spells: list[Spell]


def timeline(folder: Path, file: ClusterFile) -> Timeline:
    """What the files of a run's folder tell, also of a run that was broken off."""
    events = [*lines_of(folder / "events.jsonl")]
    acks = [*acknowledged(lines_of(folder / "history.jsonl"))]
    records = [*not_kept(lines_of(folder / "records.jsonl"))]
    last = max(
        [1.0, *(event["t"] for event in events if event["what"] not in ("read", "over")), *acks]
    )
    states = _States(file, last)
    for event in events:
        states.take(event)
    until = next((event["t"] for event in events if event["what"] == "written"), last)
    cuts = [*partitions(events, until)]
    its = [*spells(events, until)]
    return Timeline(last, until, states.ended(), states.orders, acks, records, cuts, its)


def lines_of(path: Path) -> Iterator[Event]:
    """The objects of a file, if it is there. The last line may be cut off."""
    for line in path.read_text("utf-8").splitlines() if path.is_file() else ():
        try:
            yield json.loads(line)
        except ValueError:
            return


def partitions(events: Iterable[Event], until: float) -> Iterator[Partition]:
    """The partitions, all of which end with the writing."""
    for event in events:
        if event["what"] == "partition":
            cuts = tuple((sender, receiver) for sender, receiver in event["cuts"])
            end = min(event["t"] + event["clogged"], until)
            yield Partition(event["t"], end, event["shape"], cuts)


def spells(events: Sequence[Event], until: float) -> Iterator[Spell]:
    """The disturbances and damages. What no event ends has ended with the writing, or the tool."""
    ends: dict[tuple[Any, ...], Event] = {}  # the next event of each kind, seen from behind
    found: list[Spell] = []
    for event in reversed(events):
        match event["what"]:
            case "undisturbed":
                ends[event["kind"], *event["processes"]] = event
            case "resumed":
                ends[()] = event
            case "observed":
                ends["observed", event["process"], event["of"]] = event
            case "disturbance":
                resumed = ends.get((), {})
                end = ends.get((event["kind"], *event["processes"]), resumed)
                found.append(disturbed(event, end.get("t", until)))
            case "damage":
                end = ends.get(("observed", event["process"], event["of"]), {})
                found.append(damaged(event, end, until))
    yield from reversed(found)


def disturbed(event: Event, ended: float) -> Spell:
    it = Disturbance.of(event)
    return Spell(event["t"], ended, it.kind, it.processes, f": {FORMS[it.kind].tell(it.how)}")


def damaged(event: Event, observed: Event, until: float) -> Spell:
    """A damage, with what came of it if that is known."""
    where = f" in {event['file']}" if "file" in event else ""
    came = f": {observed['came']}" if observed else ""
    last = observed.get("t", max(event["t"], until))
    its = (event["process"],)
    return Spell(event["t"], last, event["kind"], its, f"{where}{came}", is_damage=True)


def acknowledged(history: Iterable[Event]) -> Iterator[float]:
    """When writes were acknowledged, in seconds."""
    for line in history:
        if line["f"] == "write" and line["type"] == "ok":
            yield line["time"] / 1e9


def not_kept(records: Iterable[Event]) -> Iterator[Record]:
    """The records that have another verdict than kept."""
    for line in records:
        destroyed, able = line.get("destroyed", {}), line.get("able", ())
        taken = frozenset((name, min(destroyed[name])) for name in able if destroyed.get(name))
        t = line["acked"] if "acked" in line else line["t"]
        yield Record(t, line["key"], line["verdict"], line["fault"], taken)


def gaps(acks: Sequence[float], until: float, least: float = QUIET) -> list[tuple[float, float]]:
    """The times without an acknowledgement, before the first and after the last too."""
    times = [0.0, *(t for t in sorted(acks) if t <= until), until]
    return [(a, b) for a, b in zip(times, times[1:]) if b - a >= least]


def rates(acks: Sequence[float], until: float, width: float) -> list[float]:
    """How many were acknowledged a second, in each part of the time of this width."""
    counts = [0] * max(1, -int(-until // width))
    for t in acks:
        if t < until:
            counts[int(t / width)] += 1
    rest = until - width * (len(counts) - 1)  # the last part is shorter
    return [count / (width if n < len(counts) - 1 else rest) for n, count in enumerate(counts)]


class _States:
    """Follows the events, and keeps what each process was from when to when."""

    def __init__(self, file: ClusterFile, last: float) -> None:
        self.file, self.last = file, last
        count = len(file.places)
        self.lanes = [Lane() for _ in range(count)]
        self.orders: list[Struck] = []
        self.now = [State.UP] * count
        self.since = [0.0] * count
        self.destroyed: set[int] = set()
        self.gone: set[int] = set()
        self.clogged: dict[tuple[str, str], tuple[float, list[int]]] = {}

    def become(self, process: int, state: State, t: float) -> None:
        if state is not self.now[process]:
            if t > self.since[process]:
                span = Span(self.since[process], t, self.now[process])
                self.lanes[process].spans.append(span)
            self.now[process], self.since[process] = state, t

    def down(self, process: int, t: float) -> None:
        is_gone, is_empty = process in self.gone, process in self.destroyed
        state = State.GONE if is_gone else State.EMPTIED if is_empty else State.DOWN
        self.become(process, state, t)

    def take(self, event: Event) -> None:
        t, what, process = event["t"], event["what"], event.get("process", -1)
        match what:
            case "order":
                self.order(event)
            case "unclog":
                members = event["act"]["unclog"]
                self.unclog((members["key"], members["value"]), t)
            case "up":
                is_empty = process in self.destroyed
                self.become(process, State.HEALING if is_empty else State.UP, t)
            case "heal":
                self.destroyed.discard(process)
                self.become(process, State.UP, t)
            case "ended by itself" | "restart":
                self.down(process, t)
            case "cut":
                for it in event["processes"]:
                    self.lanes[it].cuts.append(t)
            case "ended":
                self.lanes[process].ends.append((t, f"status {event['status']}"))

    def order(self, event: Event) -> None:
        t, targets = event["t"], event["targets"]
        struck = Struck(t, event, tuple(sorted(self.destroyed)), tuple(sorted(self.gone)))
        self.orders.append(struck)
        for process in targets:
            self.lanes[process].orders.append(struck)
        if struck.does is Kind.CLOG:
            self.clogged[event["key"], event["value"]] = (t, targets)
        elif struck.does is not None:
            if struck.does.empties_disk:
                self.destroyed.update(targets)
            if struck.does.is_final:
                self.gone.update(targets)
            for process in targets:
                self.down(process, t)

    def unclog(self, place: tuple[str, str], t: float) -> None:
        begin, targets = self.clogged.pop(place, (t, []))
        for process in targets:
            self.lanes[process].clogs.append((begin, t))

    def ended(self) -> list[Lane]:
        """What each process went through up to the end."""
        for place in [*self.clogged]:
            self.unclog(place, self.last)
        for process, lane in enumerate(self.lanes):
            lane.spans.append(Span(self.since[process], self.last, self.now[process]))
        return self.lanes


def zones(file: ClusterFile) -> list[tuple[str, list[int]]]:
    """The zones in the order of their first process, and the processes of each."""
    found: dict[str, list[int]] = {}
    for process, place in enumerate(file.places):
        found.setdefault(place[Key.ZONE], []).append(process)
    return [*found.items()]
