"""What is told to a question, from the rules alone: who is up, clogged, destroyed and gone, what is
granted and protected, and the verdict on an order. The replies of acts are checked by it too."""

from __future__ import annotations

from collections.abc import Callable, Iterator
from dataclasses import dataclass, field
from typing import Any

Json = Any
# Whether the processes of a set, a number whose bits are its members, satisfy a policy.
Policy = Callable[[int], bool]

KINDS = ("RebootProcess", "Reboot", "RebootAndDelete", "KillInstantly")
DEEDS = (*KINDS, "Clog")
DESTROYING = ("RebootAndDelete", "KillInstantly")
CLOCK_END = 2**40
MOST_PAYLOAD = 256


@dataclass
class Message:
    """A message in flight: a store to a process, or its acknowledgement."""

    record: int
    process: int
    is_ack: bool


@dataclass
class Model:
    """A cluster: its processes, its policies, its roles and its first grants."""

    processes: list[dict[str, str]]
    policies: list[Policy]
    roles: list[str]
    grants: list[list[Json]]
    protected: list[set[str]] = field(default_factory=list)
    now: int = 0
    entries: int = 0
    destroyed: int = 0
    gone: int = 0
    down: int = 0
    until: list[int] = field(default_factory=list)
    teams: list[tuple[int, list[int]]] = field(default_factory=list)
    records: list[int] = field(default_factory=list)
    marks: list[set[int]] = field(default_factory=list)
    acked: list[bool] = field(default_factory=list)
    messages: dict[int, Message] = field(default_factory=dict)
    sent: int = 0
    unsynced: list[list[int]] = field(default_factory=list)
    synced: list[set[int]] = field(default_factory=list)

    def __post_init__(self) -> None:
        count = len(self.processes)
        self.protected = self.protected or [set() for _ in range(count)]
        self.until = [0] * count
        self.unsynced = [[] for _ in range(count)]
        self.synced = [set() for _ in range(count)]

    def everyone(self) -> int:
        return (1 << len(self.processes)) - 1

    def left(self) -> int:
        return self.everyone() & ~self.gone

    def named(self, key: str, value: str) -> int:
        """Those left that have the value of the key."""
        all_of = sum(1 << p for p, it in enumerate(self.processes) if it.get(key) == value)
        return all_of & self.left()

    def members(self, some: int) -> Iterator[int]:
        return (p for p in range(len(self.processes)) if some >> p & 1)

    # ---- the rules

    def covered(self, by: int, deed: str, p: int) -> bool:
        for grant in self.grants[by]:
            scope = grant["scope"]
            if deed in grant["kinds"] and (
                scope == "all" or self.processes[p].get(scope["key"]) == scope["value"]
            ):
                return True
        return False

    def bar(self, by: int, deed: str, some: int) -> list[Json] | None:
        """The first rule that bars the deed at these processes."""
        if not some:
            return ["NoTarget"]
        for p in self.members(some):
            if not self.covered(by, deed, p):
                return ["NoGrant", p]
        for p in self.members(some):
            if deed in self.protected[p]:
                return ["Protected", p]
        if deed in DESTROYING:
            for i, policy in enumerate(self.policies):
                if policy(self.destroyed | some):
                    return ["TooManyDestroyed", i]
        if deed == "KillInstantly":
            for i, policy in enumerate(self.policies):
                if not policy(self.left() & ~some):
                    return ["TooFewLeft", i]
        return None

    def verdict(self, by: int, kind: str, floor: str, some: int) -> Json:
        allowed = KINDS[KINDS.index(floor) : KINDS.index(kind) + 1]
        struck = [it for it in reversed(allowed) if self.bar(by, it, some) is None]
        return {"rule": self.bar(by, kind, some), "struck": struck[0] if struck else None}

    def judged(self, by: int, act: Json) -> Json:
        """The reply to a kill, a clog or the end of one."""
        if by >= len(self.roles):
            return {"no": ["Stranger"]}
        ((name, its),) = act.items()
        some = self.named(its["key"], its["value"])
        if name == "kill":
            return {"verdict": self.verdict(by, its["kind"], its["floor"], some)}
        return {"ruled": self.bar(by, "Clog", some)}

    # ---- what is told

    def clogged(self, p: int) -> bool:
        return self.until[p] > self.now

    def state(self, p: int) -> Json:
        up, gone = not self.down >> p & 1, bool(self.gone >> p & 1)
        return {
            "clogged": self.until[p] if self.clogged(p) else None,
            "destroyed": bool(self.destroyed >> p & 1),
            "down": not up and not gone,
            "gone": gone,
            "protected": [deed for deed in DEEDS if deed in self.protected[p]],
            "up": up,
        }

    def needed(self, p: int) -> int | None:
        """The least acknowledged record of its teams that a process hasn't synced."""
        for record, team in enumerate(self.records):
            lacks = record not in self.synced[p]
            if self.acked[record] and p in self.teams[team][1] and lacks:
                return record
        return None

    def record(self, number: int) -> Json:
        team = self.records[number]
        synced = [p for p in range(len(self.processes)) if number in self.synced[p]]
        keepers = [p for p in self.teams[team][1] if p in synced and not self.destroyed >> p & 1]
        acked = self.acked[number]
        keeper = min(keepers) if acked else None
        return {"acked": acked, "keeper": keeper, "synced": synced, "team": team}

    def is_deliverable(self, message: Message) -> bool:
        stopped = not message.is_ack and self.down >> message.process & 1
        return not self.clogged(message.process) and not stopped

    def sight(self) -> Json:
        everyone = range(len(self.processes))
        free = [n for n, it in self.messages.items() if self.is_deliverable(it)]
        dirty = [p for p in everyone if self.unsynced[p] and not self.down >> p & 1]
        asleep = [p for p in everyone if self.down >> p & 1 and not self.gone >> p & 1]
        return {
            "deliverable": min(free, default=None),
            "now": self.now,
            "sleeping": min(asleep, default=None),
            "unsynced": min(dirty, default=None),
        }

    def killable(self, by: int) -> list[str | None]:
        return [
            self.verdict(by, "KillInstantly", "RebootProcess", (1 << p) & self.left())["struck"]
            for p in range(len(self.processes))
        ]

    def told(self, question: Json) -> Json:
        """The answer to a question, but to `cluster` and `bears`."""
        ((name, its),) = question.items()
        if name == "judge":
            return self.judged(its["by"], its["act"])
        if name == "killable":
            known = its["actor"] < len(self.roles)
            return {"killable": self.killable(its["actor"])} if known else {"no": ["NoActor"]}
        if name == "targets":
            return {"targets": list(self.members(self.named(its["key"], its["value"])))}
        if name == "record":
            known = its["record"] < len(self.records)
            return {"record": self.record(its["record"])} if known else {"no": ["NoRecord"]}
        if name == "sight":
            return {"sight": self.sight()}
        if name == "state" and not its:
            states = [self.state(p) for p in range(len(self.processes))]
            return {"state": {"now": self.now, "processes": states}}
        if its["process"] >= len(self.processes):
            return {"no": ["NoProcess"]}
        if name == "state":
            return {"state": {"now": self.now, "process": self.state(its["process"])}}
        assert name == "needed", question
        return {"needed": self.needed(its["process"])}

    # ---- what an entry changes

    def send(self, record: int, process: int, is_ack: bool = False) -> None:
        self.messages[self.sent] = Message(record, process, is_ack)
        self.sent += 1

    def strike(self, act: Json, struck: str) -> None:
        some = self.named(act["key"], act["value"])
        self.down |= some
        if struck in DESTROYING:
            self.destroyed |= some
        if struck == "KillInstantly":
            self.gone |= some
        for p in self.members(some):
            if struck in DESTROYING:
                self.synced[p] = set()
            if struck == "Reboot":
                kept = enumerate(self.unsynced[p])
                self.synced[p] |= {rec for i, rec in kept if i < 64 and act["tear"] >> i & 1}
            if struck != "RebootProcess":
                self.unsynced[p] = []

    def take(self, entry: Json) -> None:
        """Takes an entry. The reply to a kill or a clog has to be what the rules give."""
        by, act, reply = entry["by"], entry["act"], entry["reply"]
        ((name, its),) = act.items()
        if name in ("kill", "clog", "unclog"):
            assert reply == self.judged(by, act), (entry, self.judged(by, act))
        self.entries += 1
        if isinstance(reply, dict) and "no" in reply:
            return
        getattr(self, f"take_{name}")(its, reply)

    def take_kill(self, act: Json, reply: Json) -> None:
        if reply["verdict"]["struck"]:
            self.strike(act, reply["verdict"]["struck"])

    def take_clog(self, act: Json, reply: Json) -> None:
        if reply["ruled"] is None:
            end = min(self.now + act["ticks"], CLOCK_END)
            for p in self.members(self.named(act["key"], act["value"])):
                self.until[p] = max(self.until[p], end)

    def take_unclog(self, act: Json, reply: Json) -> None:
        if reply["ruled"] is None:
            for p in self.members(self.named(act["key"], act["value"])):
                self.until[p] = min(self.until[p], self.now)

    def take_form(self, act: Json, _reply: Json) -> None:
        self.teams.append((act["policy"], list(act["members"])))

    def take_begin(self, act: Json, _reply: Json) -> None:
        for p in self.teams[act["team"]][1]:
            self.send(len(self.records), p)
        self.records.append(act["team"])
        self.marks.append(set())
        self.acked.append(False)

    def take_deliver(self, act: Json, _reply: Json) -> None:
        message = self.messages.pop(act["message"])
        if message.is_ack:
            self.mark(message)
        else:
            self.unsynced[message.process].append(message.record)

    def mark(self, message: Message) -> None:
        """A record is acknowledged once each member of its team has marked it."""
        self.marks[message.record].add(message.process)
        members = set(self.teams[self.records[message.record]][1])
        if members <= self.marks[message.record]:
            self.acked[message.record] = True

    def take_lose(self, act: Json, _reply: Json) -> None:
        del self.messages[act["message"]]

    def take_resend(self, act: Json, _reply: Json) -> None:
        self.send(act["record"], act["process"])

    def take_copy(self, act: Json, _reply: Json) -> None:
        self.send(act["record"], act["to"])

    def take_replace(self, act: Json, _reply: Json) -> None:
        policy, members = self.teams[act["team"]]
        swapped = [act["into"] if p == act["out"] else p for p in members]
        self.teams[act["team"]] = (policy, swapped)

    def take_sync(self, act: Json, _reply: Json) -> None:
        p = act["process"]
        for record in self.unsynced[p]:
            self.send(record, p, is_ack=True)
        self.synced[p] |= set(self.unsynced[p])
        self.unsynced[p] = []

    def take_up(self, act: Json, _reply: Json) -> None:
        self.down &= ~(1 << act["process"])

    def take_heal(self, act: Json, _reply: Json) -> None:
        self.destroyed &= ~(1 << act["process"])

    def take_tick(self, act: Json, _reply: Json) -> None:
        self.now += act["ticks"]

    def take_give(self, act: Json, _reply: Json) -> None:
        kinds = [deed for deed in DEEDS if deed in act["kinds"]]
        self.grants[act["actor"]].append({"kinds": kinds, "scope": act["scope"]})

    def take_take(self, act: Json, _reply: Json) -> None:
        del self.grants[act["actor"]][act["index"]]

    def take_protect(self, act: Json, _reply: Json) -> None:
        self.protected[act["process"]] |= set(act["kinds"])

    def take_unprotect(self, act: Json, _reply: Json) -> None:
        self.protected[act["process"]] -= set(act["kinds"])
