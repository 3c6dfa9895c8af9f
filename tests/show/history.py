"""What an audit says, read anew from its replies: who is up, destroyed and clogged after each
entry, who keeps which records, how many could be killed next, and what each order's title has to
say."""

from __future__ import annotations

from collections.abc import Callable, Iterable, Sequence
from typing import Any

Entry = dict[str, Any]
Config = dict[str, Any]
# Whether these processes satisfy a policy.
Policy = Callable[[set[int]], bool]

CLOCK_END = 2**40
MOST_KEPT = 1000
RULES = {
    "NoTarget": "nobody who is left has that value",
    "NoGrant": "no grant covers process {}",
    "Protected": "process {} is protected",
    "TooManyDestroyed": "the destroyed would satisfy policy {}",
    "TooFewLeft": "those left would be short of policy {}",
}
WEIGHTS = {"RebootProcess": 5, "Reboot": 6, "RebootAndDelete": 7, "KillInstantly": 8, None: 4}


def part(reply: Any, name: str) -> Any:
    return reply.get(name) if isinstance(reply, dict) else None


class History:
    """Who is what, entry by entry, from the replies."""

    def __init__(self, processes: list[dict[str, str]]) -> None:
        self.processes = processes
        count = len(processes)
        self.up, self.gone, self.destroyed = [True] * count, [False] * count, [False] * count
        self.now, self.until = 0, [0] * count
        self.teams: list[list[int]] = []
        self.records: list[int] = []
        self.messages: dict[int, tuple[int, int]] = {}
        self.acked: dict[int, int] = {}
        self.synced: list[set[int]] = [set() for _ in processes]
        self.unsynced: list[list[int]] = [[] for _ in processes]
        self.counted: dict[tuple[Policy, tuple[bool, ...], tuple[bool, ...]], int] = {}

    def named(self, act: Entry) -> list[int]:
        """Whom an act's target names: those left with its value."""
        order = act.get("kill") or act.get("clog") or act.get("unclog")
        if not order:
            return []
        key, value = order["key"], order["value"]
        those = enumerate(self.processes)
        return [p for p, process in those if not self.gone[p] and process.get(key) == value]

    def strike_disk(self, p: int, kind: str, tear: int) -> None:
        """What a strike leaves of a disk."""
        if kind in ("RebootAndDelete", "KillInstantly"):
            self.synced[p], self.unsynced[p] = set(), []
        if kind == "Reboot":
            kept = {rec for place, rec in enumerate(self.unsynced[p]) if tear >> place & 1}
            self.synced[p] |= kept
            self.unsynced[p] = []

    def take_records(self, at: int, act: Entry, reply: Any) -> None:
        """What an entry does to teams, records, messages and disks."""
        if part(reply, "formed") is not None:
            self.teams.append(list(act["form"]["members"]))
        if part(reply, "begun"):
            members = self.teams[act["begin"]["team"]]
            for place, p in enumerate(members):
                self.messages[reply["begun"]["first"] + place] = len(self.records), p
            self.records.append(act["begin"]["team"])
        if part(reply, "sent") is not None:
            to = act.get("resend", {}).get("process", act.get("copy", {}).get("to"))
            self.messages[reply["sent"]] = (act.get("resend") or act["copy"])["record"], to
        if reply == "stored":
            rec, p = self.messages[act["deliver"]["message"]]
            self.unsynced[p].append(rec)
        if part(reply, "synced"):
            p = act["sync"]["process"]
            for place, rec in enumerate(self.unsynced[p]):
                self.messages[reply["synced"]["first"] + place] = rec, p
            self.synced[p] |= set(self.unsynced[p])
            self.unsynced[p] = []
        if reply == {"marked": True}:
            self.acked.setdefault(self.messages[act["deliver"]["message"]][0], at)
        if "replace" in act and reply == "done":
            swap = act["replace"]
            team = self.teams[swap["team"]]
            self.teams[swap["team"]] = sorted({*team, swap["into"]} - {swap["out"]})

    def keepers(self) -> dict[int, list[int]]:
        """Which of the first records each process keeps: of an acknowledged one the least member
        that has it synced."""
        kept: dict[int, list[int]] = {}
        for rec in sorted(rec for rec in self.acked if rec < MOST_KEPT):
            members = self.teams[self.records[rec]]
            keepers = [p for p in members if not self.destroyed[p] and rec in self.synced[p]]
            kept.setdefault(min(keepers), []).append(rec)
        return kept

    def borne(self, policy: Policy) -> int:
        """How many of those left and not destroyed could each be killed for good next."""
        state = policy, tuple(self.destroyed), tuple(self.gone)
        if state not in self.counted:
            everyone = range(len(self.processes))
            destroyed = {p for p in everyone if self.destroyed[p]}
            left = {p for p in everyone if not self.gone[p]}
            whole = left - destroyed
            borne = (not policy(destroyed | {p}) and policy(left - {p}) for p in whole)
            self.counted[state] = sum(borne)
        return self.counted[state]

    def take(self, entry: Entry) -> list[int]:
        """Takes an entry, and gives whom it names."""
        act, reply = entry["act"], entry["reply"]
        named = self.named(act)
        self.take_records(entry["at"], act, reply)
        struck = (part(reply, "verdict") or {}).get("struck")
        for p in named:
            if struck:
                self.up[p] = False
                self.strike_disk(p, struck, act["kill"]["tear"])
            if struck in ("RebootAndDelete", "KillInstantly"):
                self.destroyed[p] = True
            if struck == "KillInstantly":
                self.gone[p] = True
            if "clog" in act and reply == {"ruled": None}:
                end = min(self.now + act["clog"]["ticks"], CLOCK_END)
                self.until[p] = max(self.until[p], end)
            if "unclog" in act and reply == {"ruled": None}:
                self.until[p] = min(self.until[p], self.now)
        if "up" in act and reply == "done":
            self.up[act["up"]["process"]] = True
        if "heal" in act and reply == "done":
            self.destroyed[act["heal"]["process"]] = False
        if part(reply, "time") is not None:
            self.now = reply["time"]
        return named

    def state(self, p: int) -> set[str]:
        """The classes of the bands that say so."""
        broad = "gone" if self.gone[p] else "up" if self.up[p] else "down"
        emptied = {"emptied"} if self.destroyed[p] and not self.gone[p] else set()
        return {broad} | emptied | ({"clogged"} if self.now < self.until[p] else set())


def policy_of(text: str, processes: list[dict[str, str]]) -> Policy:
    """What satisfies a policy, by its text."""

    def across(count: int, key: str, inner: Policy) -> Policy:
        def meets(given: set[int]) -> bool:
            groups: dict[str | None, set[int]] = {}
            for p in given:
                groups.setdefault(processes[p].get(key), set()).add(p)
            return sum(inner(it) for value, it in groups.items() if value is not None) >= count

        return meets

    keys = {key: key for key in ("zoneid", "dcid", "data_hall", "machineid", "processid")}
    forms = {
        "One": lambda: lambda given: bool(given),
        "Across": across,
        "And": lambda *parts: lambda given: all(it(given) for it in parts),
    }
    policy: Policy = eval(text, {"__builtins__": {}}, {**keys, **forms})
    return policy


# ---- orders in words


def hardness(entry: Entry) -> int:
    """How hard an order is; 0 of what is none."""
    if "kill" in entry["act"]:
        verdict = part(entry["reply"], "verdict")
        return WEIGHTS[verdict["struck"]] if verdict else 3
    return 2 if "clog" in entry["act"] else 1 if "unclog" in entry["act"] else 0


def rule_of(entry: Entry) -> Any:
    verdict = part(entry["reply"], "verdict")
    return verdict["rule"] if verdict else part(entry["reply"], "ruled")


def is_as_ordered(entry: Entry) -> bool:
    return rule_of(entry) is None and part(entry["reply"], "no") is None


def why(entry: Entry) -> str:
    """What an order's title says behind what was ordered."""
    act, reply = entry["act"], entry["reply"]
    refusal, rule = part(reply, "no"), rule_of(entry)
    if refusal:
        assert refusal == ["Stranger"], "an order is refused by nothing else"
        return ": refused as Stranger, since there is no such actor"
    if "kill" in act:
        struck = reply["verdict"]["struck"]
        done = f": struck by {struck}" if struck else ": struck nobody"
    else:
        done = ": barred" if rule else ": done"
    return done + (", since " + RULES[rule[0]].format(*rule[1:]) if rule else "")


def floor_of(entry: Entry) -> str:
    """What a kill's title ends with where a rule stood against its kind at a process: down to where
    milder kinds were tried."""
    order, rule = entry["act"].get("kill"), rule_of(entry)
    return f"; the floor is {order['floor']}" if order and rule and rule != ["NoTarget"] else ""


def title_of(entry: Entry, count: int = 1) -> str:
    """The title of an order's glyph, where it is the hardest of so many."""
    kind, order = next(iter(entry["act"].items()))
    what = {
        "kill": "{kind} of ",
        "clog": "clog for {ticks} ticks of ",
        "unclog": "end of the clogs of ",
    }[kind].format(**order)
    told = f"entry {entry['at']}, actor {entry['by']}: {what}"
    told += f"{order['key']} {order['value']}{why(entry)}"
    return told + (f"; the hardest of {count} orders here" if count > 1 else "") + floor_of(entry)


# ---- what a picture of an audit has to show


# Of a glyph, by its column and process: its entry, its shape and its title.
Glyphs = dict[tuple[int, int | None], tuple[int, str, str]]


class Wanted:
    """What a picture of these entries has to show, with columns that end so."""

    def __init__(self, config: Config, entries: Sequence[Entry], ends: Sequence[int]) -> None:
        processes = config["process"]
        self.history = History(processes)
        # At the end of each column: the bands of each process, and the number of each policy.
        self.states: list[list[set[str]]] = []
        policies = [policy_of(text, processes) for text in config["policies"]]
        self.lines: list[list[int]] = [[] for _ in policies]
        self.glyphs: Glyphs = {}
        for column, (start, end) in enumerate(zip([0, *ends], ends, strict=False)):
            self._take(column, entries[start:end])
            self.states.append([self.history.state(p) for p in range(len(processes))])
            for line, policy in zip(self.lines, policies, strict=True):
                line.append(self.history.borne(policy))

    def _take(self, column: int, entries: Iterable[Entry]) -> None:
        """Takes the entries of a column: at each process the hardest order has the glyph."""
        hits: dict[int | None, Entry] = {}
        counts: dict[int | None, int] = {}
        for entry in entries:
            weight = hardness(entry)
            named: Sequence[int | None] = self.history.take(entry)
            for p in named or [None]:
                counts[p] = counts.get(p, 0) + (weight > 0)
                if weight > (hardness(hits[p]) if p in hits else 0):
                    hits[p] = entry
        for at, hit in hits.items():
            shape = "filled" if is_as_ordered(hit) else "hollow"
            self.glyphs[column, at] = hit["at"], shape, title_of(hit, counts[at])


def lanes(processes: list[dict[str, str]]) -> list[int]:
    """The numbers of the processes in the order of the rows."""
    keys = ("dcid", "data_hall", "zoneid")
    first: dict[tuple[str, str | None], int] = {}
    for p, process in enumerate(processes):
        for key in keys:
            first.setdefault((key, process.get(key)), p)

    def place(p: int) -> list[int]:
        return [*(first[key, processes[p].get(key)] for key in keys), p]

    return sorted(range(len(processes)), key=place)
