"""A run that died, and is gone on with by `--resume`: its words, and what its files tell of it."""
import fcntl
import json
import os
from collections.abc import Iterable, Iterator, Mapping, Sequence
from contextlib import suppress
from dataclasses import dataclass
from pathlib import Path
from typing import TYPE_CHECKING, Any, NamedTuple

from faultyard import Kind
from faultyard.history import whole_lines
from faultyard.ledger import Heal, Ledger, Loss, Record
from faultyard.plans import Order
from faultyard.replies import Entry, read_entry

from . import USAGE, Fault
from .attach import ready
from .clients import number_of
from .crashes import Crashes
from .disks import Cut
from .disturbances import Disturbance
from .orders import Timed

if TYPE_CHECKING:
    from .run import Run

WORDS, MARK = "run.json", "mark"  # files of a run
Event = Mapping[str, Any]


class Words(NamedTuple):
    """How a run was begun."""

    given: list[str]
    cwd: str
    port: int | None = None  # the first of its ports, if they were its to choose

    @classmethod
    def of(cls, folder: Path) -> "Words":
        """Those of the run in a folder."""
        try:
            return cls(**json.loads((folder / WORDS).read_text()))
        except (OSError, ValueError, TypeError):
            raise Fault(USAGE, f"{folder} has no run that can be gone on with") from None

    def keep(self, folder: Path) -> None:
        """Keeps them in the run's folder."""
        new = folder / f"{WORDS}.new"
        new.write_text(json.dumps(self._asdict()))
        os.replace(new, folder / WORDS)


class Mark:
    """The largest mark of the store that an acknowledgement told, in a file, whatever ends us."""

    def __init__(self, folder: Path) -> None:
        self._file = os.open(folder / MARK, os.O_RDWR | os.O_CREAT, 0o644)
        self._kept = self.kept()

    def kept(self) -> int:
        """What the file has."""
        return int(os.pread(self._file, 64, 0) or 0)

    def keep(self, mark: int) -> None:
        """Has the file have it."""
        if mark != self._kept:
            os.pwrite(self._file, b"%020d\n" % mark, 0)
            self._kept = mark


def events_of(folder: Path) -> list[dict[str, Any]]:
    """What the events of a run tell."""
    return [json.loads(line) for line in whole_lines(folder / "events.jsonl")]


def over(folder: Path) -> Event | None:
    """The last event of a run that has ended."""
    return next((it for it in events_of(folder) if it["what"] == "over"), None)


def is_alive(folder: Path) -> bool:
    """Whether the tool that began a run still has its audit."""
    with suppress(FileNotFoundError), (folder / "audit").open("rb") as audit:
        try:
            fcntl.flock(audit, fcntl.LOCK_EX | fcntl.LOCK_NB)
        except BlockingIOError:
            return True
    return False


@dataclass
class Past:
    """What a run had done when it died, by its events, its audit and its history."""

    events: Sequence[Event]
    lines: Sequence[Event]  # of the history
    mark: int

    @classmethod
    def of(cls, folder: Path) -> "Past | None":
        """That of the run in a folder; nothing where no record could be written yet."""
        events = events_of(folder)
        if not any(it["what"] == "ready" for it in events):
            return None
        whole_lines(folder / "audit")  # half a line was answered, and never done
        lines = [json.loads(line) for line in whole_lines(folder / "history.jsonl")]
        return cls(events, lines, Mark(folder).kept())

    def _told(self, *what: str) -> Iterator[Event]:
        """The events of these kinds."""
        return (event for event in self.events if event["what"] in what)

    # When.

    @property
    def ended_ns(self) -> int:
        """When the last thing happened."""
        last = round(1e9 * max(float(it["t"]) for it in self.events))
        return max(last, int(self.lines[-1]["time"]) if self.lines else 0)

    @property
    def late(self) -> float | None:
        """By how much its orders were later than planned, if that is known."""
        return next((it["late"] for it in reversed([*self._told("begun", "resumed")])), None)

    @property
    def written(self) -> float | None:
        """When writing had ended, if it had."""
        return next((it["t"] for it in self._told("written")), None)

    @property
    def resumed(self) -> list[float]:
        """When it was gone on with before."""
        return [it["t"] for it in self._told("resumed")]

    @property
    def base(self) -> int:
        """The number of the last key that was there before."""
        return next((int(it["base"]) for it in self._told("attached")), 0)

    # What was done.

    @property
    def orders(self) -> list[dict[str, Any]]:
        """The kills and clogs, as a harness has them."""
        without = ("what", "up")
        return [{name: it[name] for name in it if name not in without} for it in self.kills()]

    def kills(self) -> Iterator[Event]:
        """The same, as the events have them."""
        return self._told("order")

    @property
    def gone(self) -> set[int]:
        """Who was killed for good."""
        final = (it for it in self.kills() if it["does"] and Kind(it["does"]).is_final)
        return {number for event in final for number in event["targets"]}

    @property
    def out(self) -> set[int]:
        """Those of them who have left the membership."""
        return {it["process"] for it in self._told("leave")}

    @property
    def clogs(self) -> list[tuple[int, dict[str, str]]]:
        """Which clogs hadn't ended: by whom, and their targets."""
        found: dict[tuple[str, str], int] = {}
        for event in self._told("order", "unclog"):
            its = event["act"]["unclog"] if event["what"] == "unclog" else event
            found.pop((its["key"], its["value"]), None)
            if event.get("does") == Kind.CLOG.value:
                found[its["key"], its["value"]] = event["by"]
        return [(by, {"key": key, "value": value}) for (key, value), by in found.items()]

    def untold(self, audit: str) -> list[Entry]:
        """The entries of an audit of which no event tells."""
        told = {it["entry"] for it in self.events if "entry" in it}
        entries = map(read_entry, audit.encode().splitlines(keepends=True)[1:])
        return [entry for entry in entries if entry.at not in told]

    def unfinished(self) -> list[Event]:
        """The orders that destroy, and of which no event tells that they did."""
        done = {it["of"] for it in self._told("destroyed")}
        its = (it for it in self.kills() if it["does"] and Kind(it["does"]).empties_disk)
        return [it for it in its if it["entry"] not in done]

    def recall(self, ledger: Ledger, registers: Sequence[str]) -> None:
        """Has a ledger know what was acknowledged, destroyed and healed, and when."""
        steps, entry, sent = [*self._told("destroyed", "heal")], 0, len(registers)
        base = self.base
        for line in self.lines:
            t = round(line["time"] / 1e9, 3)
            while steps and steps[0]["t"] <= t:
                step(ledger, steps.pop(0))
            if line["f"] == "entry":
                entry = line["value"] + 1
            elif line["f"] == "write":
                key, value = line["value"]
                sent = max(sent, number_of(key) - base)
                if line["type"] == "ok" and key not in registers:
                    ledger.records[key] = Record(value, t, entry, tuple(sorted(ledger.able)))
        for event in steps:
            step(ledger, event)
        ledger.go_on(self.ended_ns, sent, self.mark)


def left_of(orders: Sequence[Timed], events: Iterable[Event], by: int) -> list[Timed] | None:
    """The orders that weren't done yet by an actor; nothing where the events don't tell.

    One that was due may not have been done: the one before it took its time. One that no event
    tells of, with a later one, was passed over, since its processes were gone.
    """
    done, left = [*deeds(events, by)], [*orders]
    done.reverse()
    while done and left:
        if deed_of(left.pop(0)[1]) == done[-1]:
            done.pop()
    return None if done else left


def deeds(events: Iterable[Event], by: int) -> Iterator[tuple[str, ...]]:
    """What an actor has ordered, in words."""
    for event in events:
        match event["what"]:
            case "partition":
                yield event["shape"], str(event["cuts"])
            case "disturbance":
                yield event["kind"], str(event["processes"])
            case "order" if event["by"] == by:
                yield event["order"], event["key"], event["value"]
            case "unclog" if event["by"] == by and event.get("ordered"):
                target = event["act"]["unclog"]
                yield "unclog", target["key"], target["value"]


def deed_of(order: Order | Disturbance) -> tuple[str, ...]:
    """An order in the same words."""
    if isinstance(order, Disturbance):
        return order.kind, str([*order.processes])
    if order.cuts:
        return order.value, str([[*it] for it in order.cuts])
    name = "unclog" if order.frees else order.kind.value
    return name, order.key.value, order.value


def recall(run: "Run", past: Past) -> None:
    """Has a run know what it had done when it died.

    What it was asked to destroy counts as destroyed from here on, and is emptied again.
    """
    past.recall(run.ledger, run.clients.registers)
    run.clients.recall()
    run.orders, run.gone = past.orders, past.gone
    recall_counts(run, past)
    for event in past.unfinished():
        run.destroyed(event["targets"], event["entry"])
    for entry in past.untold(run.guard.audit()):
        run.catch_up(entry)
    run.emptied = set(run.ledger.destroyed) - (run.gone & past.out)
    run.damages.recall(past.events)
    text = f"gone on with at {past.ended_ns / 1e9:.2f} s, where the tool had died"
    if run.words.disks == "lossy":  # what wasn't synced was in the memory of what served them
        cut, processes = Cut(), sorted(set(range(len(run.names))) - run.emptied)
        run.cuts.append(("all", cut))
        run.note("cut", processes=processes, tear=0, **cut._asdict())
        text += ", and with it the power of its disks"
    run.notes += [f"gone on with at {t:.2f} s" for t in past.resumed] + [text]
    run.show(text)


async def end_what_runs(run: "Run", past: Past) -> None:
    """Ends what may still run, and its clogs: all that aren't gone were rebooted."""
    for by, target in past.clogs:
        await run.obey(by, {"unclog": target}, ordered=False)
    down = set(range(len(run.names)))
    if run.words.attach:
        run.attached = await ready(run, down - run.emptied - run.gone)
        down -= run.attached
    await run.elsewhere.each("kill", sorted(down))
    for number in sorted(down - run.gone):
        run.tell_ended(number, "restart")


def recall_counts(run: "Run", past: Past) -> None:
    """What the summary has of it."""
    value = ""
    for event in past.events:
        match event["what"]:
            case "order":
                value = event["value"]
            case "partition":
                run.partitions += 1
            case "disturbance":
                run.disturbances.count += 1
            case "cut":
                run.cuts.append((value, Cut(event["survived"], event["unsynced"])))
            case "ended" if "damaged" not in event:
                crashes = run.crashes.setdefault(event["process"], Crashes())
                crashes.add(event["was_up"], event["status"], event["log"])
            case "guard":
                run.restarts.append(event["told"])


def step(ledger: Ledger, event: Event) -> None:
    """Has a ledger know that processes were destroyed, or that one was healed."""
    t = event["t"]
    if event["what"] == "destroyed":
        for process in event["processes"]:
            loss = ledger.destroyed[process] = Loss(process, t, event["of"], 0)
            ledger.losses.append(loss)
            ledger.able.discard(process)
        return
    process = event["process"]
    ledger.healed.append(t - ledger.destroyed.pop(process).t)
    ledger.heals.append(Heal(process, t, event["entry"]))
    ledger.able.add(process)
