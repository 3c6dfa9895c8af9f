"""Random clusters, scripts and histories, as docs/FORMATS.md has them."""

from __future__ import annotations

import json
import random
from dataclasses import dataclass, field
from typing import Any

from model import DESTROYING, MINUTE, Audit, Cluster, Policy

Json = Any

SECOND = 1_000_000_000
KINDS = ("RebootProcess", "Reboot", *DESTROYING)
NAMES = ("a", "b", "c", "1", "2", "ключ", 'q"\\', "", "\t\x1f")
STORAGE, FAULT = 0, 1


# ---- clusters and scripts


def random_policy(chance: random.Random, depth: int) -> Policy:
    form = chance.random()
    if depth == 0 or form < 0.1:
        return Policy()
    if form < 0.3:
        parts = [random_policy(chance, depth - 1) for _ in range(chance.randint(1, 2))]
        return Policy(parts=tuple(parts))
    key = chance.choice(("processid", "processid", "zoneid", "machineid", "data_hall"))
    return Policy(chance.randint(1, 3), key, (random_policy(chance, depth - 1),))


def random_cluster(chance: random.Random) -> Cluster:
    """Three to six processes that satisfy one or two policies. A first one satisfies most of none,
    or no audit destroys anyone."""
    processes = []
    zones = chance.randint(2, 4)
    for p in range(chance.randint(3, 6)):
        names = {"processid": f"p{p}", "machineid": f"m{p // 2}", "zoneid": f"z{p % zones}"}
        if chance.random() < 0.8:
            names["data_hall"] = f"h{chance.randrange(3)}"
        processes.append(names)
    policies: list[Policy] = []
    wanted = chance.choice((1, 2))
    while len(policies) < wanted:
        policy = random_policy(chance, 2)
        is_weak = any(policy.is_satisfied([it]) for it in processes)
        if policy.is_satisfied(processes) and not (is_weak and chance.random() < 0.95):
            policies.append(policy)
    return Cluster(processes, policies)


def cluster_file(cluster: Cluster) -> str:
    kinds = json.dumps([*KINDS, "Clog"])
    tables = []
    for names in cluster.processes:
        members = ", ".join(f'{key} = "{name}"' for key, name in names.items())
        tables.append(f"  {{{members}}},\n")
    return (
        f"journal_limit = 1000\npolicies = {json.dumps(list(map(str, cluster.policies)))}\n"
        f"process = [\n{''.join(tables)}]\nactor = [\n"
        f'  {{role = "storage"}},\n  {{role = "fault", grants = [{{kinds = {kinds}}}]}},\n]\n'
    )


def random_script(chance: random.Random, cluster: Cluster) -> str:
    """Kills and heals, and what starts processes between them."""
    lines = []
    for _ in range(chance.randint(0, 60)):
        process = chance.randrange(len(cluster.processes))
        drawn = chance.random()
        if drawn < 0.35:
            names = cluster.processes[process]
            key = chance.choice(("processid", "processid", *names))
            kind = chance.choices(range(4), (1, 1, 8, 0.5))[0]
            floor = KINDS[chance.randint(0, kind)]
            target = {"key": key, "value": names[key]}
            order = {"kind": KINDS[kind], "floor": floor, "tear": 0, **target}
            lines.append({"by": FAULT, "act": {"kill": order}})
        elif drawn < 0.4:
            clog = {"key": "processid", "value": f"p{process}", "ticks": 5}
            lines.append({"by": FAULT, "act": {"clog": clog}})
        else:
            if chance.random() < 0.9:
                lines.append({"by": STORAGE, "act": {"up": {"process": process}}})
            if chance.random() < 0.9:
                lines.append({"by": STORAGE, "act": {"heal": {"process": process}}})
    return "".join(json.dumps(it) + "\n" for it in lines)


# ---- histories


@dataclass
class Key:
    """A key, what it is to be written, and how likely reads lack it or tell something else."""

    name: str
    values: list[str]
    unwritten: list[str]
    lacks: float
    lacks_at_end: float
    wrong: float
    answers_at_end: bool
    lackers: set[int | None]


@dataclass
class Author:
    """Writes a random history line by line."""

    chance: random.Random
    cluster: Cluster
    audit: Audit
    lines: list[str] = field(default_factory=list)
    time: int = 0
    keys: list[Key] = field(default_factory=list)
    free: list[int] = field(default_factory=list)
    clients: int = 0
    running: dict[int, tuple[Key, Json]] = field(default_factory=dict)
    entry: int = 0
    asked: list[int | None] = field(default_factory=list)
    is_written: bool = False
    is_beyond: bool = False

    def add(self, **members: Json) -> None:
        line = {"index": len(self.lines), "time": self.time, **members}
        self.lines.append(json.dumps(line, ensure_ascii=self.chance.random() < 0.5) + "\n")

    def wait(self, longest: int) -> None:
        self.time += self.chance.choice((0, 1, longest // 2, longest))

    def begin(self, key: Key, **members: Json) -> None:
        if self.free and self.chance.random() < 0.8:
            client = self.free.pop(self.chance.randrange(len(self.free)))
        else:
            client = self.clients
            self.clients += self.chance.randint(1, 3)
        self.running[client] = (key, members)
        self.add(process=client, type="invoke", **members)

    def begin_write(self, key: Key) -> None:
        if key.unwritten and not self.is_written:
            self.begin(key, f="write", value=[key.name, key.unwritten.pop()])

    def begin_read(self, key: Key, node: int | None) -> None:
        self.begin(key, f="read", node=node, value=[key.name, None])

    def any_node(self) -> int | None:
        return self.chance.choice((None, *range(len(self.cluster.processes))))

    def end_any(self) -> None:
        if self.running:
            self.end(self.chance.choice(list(self.running)))

    def end(self, client: int) -> None:
        key, members = self.running.pop(client)
        is_write = members["f"] == "write"
        word = self.chance.choices(("ok", "fail", "info"), (8, 1, 1 + is_write))[0]
        if not is_write and self.is_written and not key.answers_at_end:
            word = "fail"
        more: dict[str, Json] = {}
        if word == "ok" and not is_write:
            answer = self.answer(key, members["node"])
            more["value"] = [key.name, answer]
            if answer is not None and members["node"] is None and self.chance.random() < 0.1:
                more["times"] = self.chance.randint(2, 3)
        elif word != "ok" and self.chance.random() < 0.6:
            more["error"] = self.chance.choice(("no", "no", "late"))
        self.add(process=client, type=word, **{**members, **more})
        if word != "info":
            self.free.append(client)

    def answer(self, key: Key, node: int | None) -> str | None:
        if self.chance.random() < key.wrong:
            return self.chance.choice(("never", *NAMES))
        lacks = key.lacks_at_end if self.is_written else key.lacks
        begun = [it for it in key.values if it not in key.unwritten]
        if self.chance.random() < 0.02:
            begun = key.values
        if not begun or node in key.lackers or self.chance.random() < lacks:
            return None
        return self.chance.choice(begun)

    def answer_entry(self) -> None:
        number = self.entry + self.chance.choice((0, 0, 1, 3))
        if number >= len(self.audit.acts):
            return
        self.entry = number + 1
        more = {}
        drawn = self.chance.random()
        if drawn < 0.3:
            struck = self.audit.struck[number]
            more["does"] = self.chance.choice((None, "Clog", "Reboot", struck))
        if self.is_beyond:
            more["does"] = self.chance.choice(KINDS)
        self.add(f="entry", value=number, **more)

    def step(self, longest: int) -> None:
        """Does one thing at random."""
        self.wait(longest)
        key = self.chance.choice(self.keys)
        drawn = self.chance.random()
        if drawn < 0.3:
            self.begin_write(key)
        elif drawn < 0.5:
            self.begin_read(key, self.any_node())
        elif drawn < 0.85:
            self.end_any()
        else:
            self.answer_entry()

    def round(self) -> None:
        """Asks for the keys of some processes, or of the store."""
        for key in self.keys:
            for node in self.asked:
                if self.chance.random() < 0.8:
                    self.begin_read(key, node)
                while self.running and self.chance.random() < 0.6:
                    if self.chance.random() < 0.4:
                        self.answer_entry()
                    self.end_any()

    def tell_disks(self) -> None:
        """Says of each process, or of some, what its disk has."""
        is_whole = self.chance.random() < 0.4
        told = self.chance.choice((0, 0, 0.3))
        for node in range(len(self.cluster.processes)):
            for key in self.keys:
                if key.values and self.chance.random() < told:
                    value = self.chance.choice(key.values)
                    self.add(f="salvage", type="told", node=node, value=[key.name, value])
            word = self.chance.choice(("all", "all", "some"))
            if is_whole or self.chance.random() < 0.5:
                self.add(f="salvage", type=word, node=node)
            for key in self.keys:
                if self.chance.random() < told:
                    self.add(f="plain", type="told", node=node, value=[key.name, None])
            if is_whole or self.chance.random() < 0.5:
                self.add(f="plain", type="all", node=node)

    def begin_keys(self) -> None:
        chance = self.chance
        # A store that mostly keeps its records shows what is worse hidden otherwise.
        is_good = chance.random() < 0.5
        for name in chance.sample(NAMES, chance.randint(2, 6)):
            values = chance.sample(NAMES, chance.choice((0, 1, 1, 1, 1, 1, 1, 1, 2)))
            nodes = range(len(self.cluster.processes))
            self.keys.append(
                Key(
                    name,
                    values,
                    list(values),
                    lacks=chance.choice((0, 0, 0.3, 0.6)),
                    lacks_at_end=0 if is_good else chance.choice((0, 0, 0.2, 0.9, 1)),
                    wrong=0 if is_good else chance.choice((0, 0, 0, 0.15)),
                    answers_at_end=is_good or chance.random() < 0.8,
                    lackers=set(chance.sample(nodes, chance.choice((0, 0, 1, 1, 2)))),
                )
            )

    def write(self) -> str:
        chance = self.chance
        self.begin_keys()
        self.is_beyond = chance.random() < 0.25
        for _ in range(chance.randint(5, 50)):
            self.step(2 * SECOND)
        if chance.random() < 0.9:
            while chance.random() < 0.8:
                self.end_any()
            self.is_written = True
            self.add(f="written")
            nodes = range(len(self.cluster.processes))
            # One that is destroyed or healed later, if there is one.
            later = self.audit.destroyed[self.entry :]
            turning = [p for p in nodes if 0 < sum(p in it for it in later) < len(later)]
            self.asked = [chance.choice(turning or nodes), chance.choice(nodes)]
            self.asked += [None] * chance.randint(0, 1)
            chance.shuffle(self.asked)
            for _ in range(chance.choice((0, 1, 2, 2, 3, 3))):
                self.round()
                self.time += chance.choice((SECOND, MINUTE - 1, MINUTE, MINUTE, MINUTE + 1))
                if chance.random() < 0.3:
                    self.step(2 * SECOND)
            while self.running and chance.random() < 0.9:
                self.end_any()
            if chance.random() < 0.7:
                self.tell_disks()
            for _ in range(chance.choice((0, 0, 5))):
                self.step(MINUTE)
        text = "".join(self.lines)
        return text if chance.random() < 0.9 else text.removesuffix("\n")
