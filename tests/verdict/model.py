"""What became of each record of a history, by the rules of docs/FORMATS.md, read as they stand.

It knows nothing of the crates that judge: each rule is a search through all reads of a key. Where
several reads show a verdict, each of them may be named, so a line has one or more right texts.
"""

from __future__ import annotations

import json
from collections.abc import Iterator
from dataclasses import dataclass, field
from typing import Any

MINUTE = 60_000_000_000
DESTROYING = ("RebootAndDelete", "KillInstantly")
# What is said to be done speaks of these acts alone.
ORDERS = ("kill", "clog")
VERDICTS = ("lost", "wrong", "missing", "unreadable", "stale", "kept")

Json = Any


def text_of(value: Json) -> str:
    """The one spelling of a line."""
    return json.dumps(value, sort_keys=True, separators=(",", ":"), ensure_ascii=False)


# ---- clusters and audits


@dataclass(frozen=True)
class Policy:
    """`One` without a count and parts, `Across` with a count, a key and a part, or `And`."""

    count: int = 0
    key: str = ""
    parts: tuple[Policy, ...] = ()

    def __str__(self) -> str:
        if self.key:
            return f"Across({self.count},{self.key},{self.parts[0]})"
        return f"And({','.join(map(str, self.parts))})" if self.parts else "One()"

    def is_satisfied(self, processes: list[dict[str, str]]) -> bool:
        """Whether a set of processes satisfies it."""
        if self.key:
            groups: dict[str, list[dict[str, str]]] = {}
            for it in processes:
                if self.key in it:
                    groups.setdefault(it[self.key], []).append(it)
            return sum(map(self.parts[0].is_satisfied, groups.values())) >= self.count
        return (
            all(it.is_satisfied(processes) for it in self.parts) if self.parts else processes != []
        )


@dataclass(frozen=True)
class Cluster:
    """The processes of a cluster file, and its policies."""

    processes: list[dict[str, str]]
    policies: list[Policy]

    def is_short(self, members: set[int]) -> bool:
        """Whether a set of processes satisfies no policy."""
        chosen = [self.processes[p] for p in sorted(members)]
        return not any(it.is_satisfied(chosen) for it in self.policies)


@dataclass
class Audit:
    """What an audit says: who is destroyed at each position, what struck, and who was healed.

    A position is how many entries stand before it.
    """

    destroyed: list[frozenset[int]]
    acts: list[str] = field(default_factory=list)
    struck: list[str | None] = field(default_factory=list)
    heals: list[tuple[int, int]] = field(default_factory=list)


def read_audit(cluster: Cluster, text: str) -> Audit:
    audit = Audit([frozenset()])
    for number, line in enumerate(text.splitlines()[1:]):
        entry = json.loads(line)
        ((name, act),) = entry["act"].items()
        now, struck = audit.destroyed[-1], None
        if name == "kill" and "verdict" in entry["reply"]:
            struck = entry["reply"]["verdict"]["struck"]
            if struck in DESTROYING:
                hit = (p for p, it in enumerate(cluster.processes) if is_hit(it, act))
                now = now.union(hit)
        elif name == "heal" and entry["reply"] == "done":
            now = now - {act["process"]}
            audit.heals.append((act["process"], number))
        audit.acts.append(name)
        audit.struck.append(struck)
        audit.destroyed.append(now)
    return audit


def is_hit(process: dict[str, str], act: Json) -> bool:
    return bool(process.get(act["key"]) == act["value"])


# ---- histories


@dataclass
class Operation:
    """A write or a read: the lines at which it began and ended, and their times."""

    is_write: bool
    key: str
    value: str | None
    node: int | None
    began: int
    began_at: int
    ended: int = -1
    ended_at: int = -1
    end: str = "open"
    times: int = 1

    @property
    def is_answered(self) -> bool:
        return not self.is_write and self.end == "ok"

    @property
    def is_lacking(self) -> bool:
        return self.is_answered and self.value is None


@dataclass
class History:
    """What a history has: operations, entry lines, and what was found on disks."""

    operations: list[Operation] = field(default_factory=list)
    entries: list[tuple[int, int, Json]] = field(default_factory=list)
    disks: list[Json] = field(default_factory=list)
    written: int | None = None

    def keys(self) -> list[str]:
        found = [it.key for it in self.operations]
        return list(dict.fromkeys(found))

    def writes(self, key: str) -> list[Operation]:
        return [it for it in self.operations if it.is_write and it.key == key]

    def reads(self, key: str) -> list[Operation]:
        return [it for it in self.operations if not it.is_write and it.key == key]

    def answers(self, key: str) -> list[Operation]:
        return [it for it in self.reads(key) if it.is_answered]

    def told(self, key: str, value: str) -> list[Operation]:
        return [it for it in self.answers(key) if it.value == value]

    def is_at_end(self, read: Operation) -> bool:
        return self.written is not None and read.began > self.written

    def position(self, line: int) -> int:
        before = [entry for at, entry, _ in self.entries if at < line]
        return before[-1] + 1 if before else 0

    def disks_with(self, key: str, value: str) -> list[int]:
        told = ("salvage", "told", [key, value])
        having = (it for it in self.disks if (it["f"], it["type"], it.get("value")) == told)
        return sorted({it["node"] for it in having})

    def is_looked_through(self, node: int, key: str) -> bool:
        own = [it for it in self.disks if it["node"] == node]
        is_salvaged = any((it["f"], it["type"]) == ("salvage", "all") for it in own)
        is_searched = any((it["f"], it["type"]) == ("plain", "all") for it in own)
        stands = any(it["f"] == "plain" and it.get("value") == [key, None] for it in own)
        return is_salvaged or (is_searched and not stands)


def read_history(text: str) -> History:
    history = History()
    running: dict[int, Operation] = {}
    for number, line in enumerate(filter(None, text.split("\n"))):
        it = json.loads(line)
        if it["f"] == "entry":
            history.entries.append((number, it["value"], it.get("does", ...)))
        elif it["f"] == "written":
            history.written = number
        elif it["f"] in ("salvage", "plain"):
            history.disks.append(it)
        elif it["type"] == "invoke":
            key, value = it["value"]
            is_write = it["f"] == "write"
            begun = Operation(is_write, key, value, it.get("node"), number, it["time"])
            running[it["process"]] = begun
            history.operations.append(begun)
        else:
            ended = running.pop(it["process"])
            ended.value = it["value"][1]
            ended.ended, ended.ended_at, ended.end = number, it["time"], it["type"]
            ended.times = it.get("times", 1)
            if ended.end == "info" and it.get("error") == "no":
                ended.end = "refused"
    return history


# ---- verdicts


def began(read: Operation) -> int:
    return read.began


@dataclass
class Judge:
    """A history with the cluster and the audit by which it is judged."""

    cluster: Cluster
    audit: Audit
    history: History

    def is_told_after(self, read: Operation, value: str) -> bool:
        return any(it.began > read.began for it in self.history.told(read.key, value))

    def store_reads(self, key: str, since: int) -> list[Operation]:
        return [it for it in self.history.answers(key) if it.node is None and it.began > since]

    def store_losses(self, key: str, value: str, since: int) -> list[Operation]:
        """(a): the last read of the store as a whole, where that shows a loss."""
        last = max(self.store_reads(key, since), key=began, default=None)
        if last is None or not last.is_lacking or self.is_told_after(last, value):
            return []
        return [last]

    def lacking_to_end(self, key: str) -> list[Operation]:
        """The last answer of each process that lacks the record to the end."""
        found = []
        for node in range(len(self.cluster.processes)):
            reads = [it for it in self.history.reads(key) if it.node == node]
            at_end = list(filter(self.history.is_at_end, reads))
            last = max((it for it in at_end if it.is_answered), key=began, default=None)
            if last is None or not last.is_lacking:
                continue
            if last.began_at >= min(at_end, key=began).began_at + MINUTE:
                found.append(last)
        return found

    def process_losses(self, key: str, value: str, since: int) -> list[Operation]:
        """(b): the last answers of processes that show a loss."""
        if self.store_reads(key, since):
            return []
        return [it for it in self.lacking_to_end(key) if not self.is_told_after(it, value)]

    def is_lost_on_disks(self, key: str, value: str) -> bool:
        """(c): no read at the end was answered, and no disk can have it."""
        if any(map(self.history.is_at_end, self.history.answers(key))):
            return False
        nodes = range(len(self.cluster.processes))
        looked = all(self.history.is_looked_through(it, key) for it in nodes)
        return looked and not self.history.disks_with(key, value)

    def wrong_reads(self, key: str) -> list[Operation]:
        written = {it.value for it in self.history.writes(key) if it.end != "fail"}
        return [it for it in self.history.answers(key) if it.value not in {None, *written}]

    def beyond(self) -> list[tuple[int, int]]:
        """The lines and the numbers of orders for which a kill beyond the guard was done."""
        return [
            (line, entry)
            for line, entry, does in self.history.entries
            if self.audit.acts[entry] in ORDERS
            if does in DESTROYING and does != self.audit.struck[entry]
        ]

    def is_whole_at(self, process: int, line: int) -> bool:
        if any(at < line for at, _ in self.beyond()):
            return False
        return process not in self.audit.destroyed[self.history.position(line)]

    def is_whole(self, read: Operation) -> bool:
        assert read.node is not None
        return self.is_whole_at(read.node, read.began) and self.is_whole_at(read.node, read.ended)

    def tellers(self, write: Operation) -> list[int]:
        told = self.history.told(write.key, write.value or "")
        at_end = filter(self.history.is_at_end, told)
        return sorted({it.node for it in at_end if it.node is not None})

    def is_told_at_end(self, write: Operation) -> bool:
        return any(map(self.history.is_at_end, self.history.told(write.key, write.value or "")))

    def known(self, write: Operation) -> tuple[int, int]:
        told = self.history.told(write.key, write.value or "")
        return min([(write.ended, write.ended_at)] + [(it.ended, it.ended_at) for it in told])

    def fault(self, write: Operation, is_by_process: bool) -> Json:
        position = self.history.position(write.ended)
        destroyed = self.destroyed_since(position)
        beyond = self.beyond()
        if beyond:
            return {"beyond": beyond[0][1]}
        disks = self.history.disks_with(write.key, write.value or "")
        if is_by_process or self.tellers(write) or disks:
            return "nobody"
        if self.cluster.is_short(destroyed):
            return "store"
        heals = [it for it in self.audit.heals if it[1] >= position and it[0] in destroyed]
        return {"store_or_whole": [list(it) for it in heals]}

    def destroyed_since(self, position: int) -> set[int]:
        return set().union(*self.audit.destroyed[position:])

    def lost(self, write: Operation, by: list[Operation], is_by_process: bool) -> Iterator[Json]:
        shared = {
            "destroyed": sorted(self.destroyed_since(self.history.position(write.ended))),
            "disks": self.history.disks_with(write.key, write.value or ""),
            "fault": self.fault(write, is_by_process),
            "tells": self.tellers(write),
            "verdict": "lost",
        }
        lines: list[int | None] = [it.ended for it in by]
        for line in lines or [None]:
            yield {"read": line, **shared}

    def findings(self, write: Operation) -> Iterator[Json]:
        """The members of what may be said of an acknowledged record, but those that all have."""
        key, value = write.key, write.value or ""
        by_store = self.store_losses(key, value, write.ended)
        by_process = self.process_losses(key, value, write.ended)
        wrong = self.wrong_reads(key)
        lacking = [it for it in self.lacking_to_end(key) if self.is_whole(it)]
        disks = self.history.disks_with(key, value)
        known, known_at = self.known(write)
        stale = [it for it in self.history.answers(key) if it.is_lacking and it.began > known]
        if by_store or by_process or self.is_lost_on_disks(key, value):
            yield from self.lost(write, by_store or by_process, not by_store and by_process != [])
        elif wrong:
            for it in wrong:
                yield {"read": it.ended, "told": it.value, "verdict": "wrong"}
        elif lacking:
            lacks = [[it.node, it.ended] for it in lacking]
            yield {"disks": disks, "lacks": lacks, "verdict": "missing"}
        elif not self.is_told_at_end(write) and not disks:
            yield {"verdict": "unreadable"}
        elif stale:
            last = max(stale, key=began)
            after = last.began_at - known_at
            yield {"after": after, "read": last.ended, "verdict": "stale"}
        else:
            yield {"verdict": "kept"}

    def records(self) -> list[Operation]:
        """The one write of each key that has one."""
        writes = [self.history.writes(key) for key in self.history.keys()]
        return [it[0] for it in writes if len(it) == 1]

    def lines(self) -> tuple[list[list[Json]], Json]:
        """What may be said of each acknowledged record, in their order, and the counts."""
        acknowledged = sorted(
            (it for it in self.records() if it.end == "ok"), key=lambda it: it.ended
        )
        said = []
        for write in acknowledged:
            shared = {
                "acked": write.ended,
                "at": write.ended_at,
                "entry": self.history.position(write.ended),
                "fault": None,
                "key": write.key,
                "value": write.value,
            }
            said.append([{**shared, **it} for it in self.findings(write)])
        return [it for it in said if it[0]["verdict"] != "kept"], self.counts(said)

    def counts(self, said: list[list[Json]]) -> Json:
        keys = self.history.keys()
        opened = [it for it in self.records() if it.end in ("open", "refused", "info")]
        acknowledged = {it.key for it in self.records() if it.end == "ok"}
        stale = sorted(it[0]["after"] for it in said if it[0]["verdict"] == "stale")
        return {
            "acknowledged": len(said),
            **{word: sum(it[0]["verdict"] == word for it in said) for word in VERDICTS},
            "gone": sum(map(self.is_gone, opened)),
            "recovered": sum(map(self.is_told_at_end, opened)),
            "refused": sum(it.end == "refused" and self.is_there(it) for it in opened),
            "registers": sum(len(self.history.writes(key)) > 1 for key in keys),
            "staleness": quantiles(stale) if stale else None,
            "twice": sum(any(it.times > 1 for it in self.history.answers(key)) for key in keys),
            "unwritten": sum(self.wrong_reads(it) != [] for it in keys if it not in acknowledged),
        }

    def is_there(self, write: Operation) -> bool:
        value = write.value or ""
        told = self.history.told(write.key, value)
        return told != [] or self.history.disks_with(write.key, value) != []

    def is_gone(self, write: Operation) -> bool:
        key, value = write.key, write.value or ""
        told = self.history.told(key, value)
        if not told:
            return False
        first = min(it.ended for it in told)
        by_store = self.store_losses(key, value, first)
        return by_store != [] or self.process_losses(key, value, first) != []


def quantiles(numbers: list[int]) -> list[int]:
    count = len(numbers)
    return [numbers[min(count - 1, count * q // 100)] for q in (0, 50, 95, 99, 100)]


def status_of(counts: Json, is_fresh: bool) -> int:
    """The status that the counts give, the first of the table that applies."""
    by = [
        (10, counts["lost"]),
        (8, counts["wrong"] + counts["unwritten"]),
        (9, counts["missing"]),
        (6, counts["unreadable"]),
        (7, counts["stale"] * is_fresh),
    ]
    return next((status for status, count in by if count), 0)
