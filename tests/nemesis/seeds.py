"""Verdicts on what a seed draws: a store with some fault or none, its hooks, and a plan.

What became of each record is judged once more, by `expected`, from the history and by the
definitions of docs/NEMESIS.md; the tool has to say the same. What the history says that processes
answered, the store has to have noted itself. NEMESIS_SEEDS in the environment says how many seeds
there are.
"""

import os
from collections import Counter
from collections.abc import Callable
from random import Random
from typing import Any, NamedTuple

from lab import Case, Ran, ran
from toy import Drops, DropsWhileEmpty, Forgetful, Hole, Invents, Lags, Mode, Old, Partial
from toy import Quorum, Refuses, Toy, Twice, Unsynced, Wrong, at_first, ends, hangs, throws

COUNT = int(os.environ.get("NEMESIS_SEEDS", 60))
BATCH = 10
BARE = "start ready whole write read"
PLANS = ("mixed", "mixed", "attrition", "swizzle", "rolling")
MODES: tuple[Callable[[Random], Mode], ...] = (
    lambda dice: Lags(dice.uniform(0.01, 1.0), dice.choice([None, 0, 1, 2])),
    lambda dice: Old(dice.randrange(3), dice.uniform(0, 4)),
    lambda dice: Drops(dice.randint(1, 20)),
    lambda dice: DropsWhileEmpty(dice.randrange(3)),
    lambda dice: Hole(dice.randrange(3), dice.randint(2, 20)),
    lambda dice: Wrong(dice.randint(2, 40)),
    lambda dice: Twice(dice.randint(1, 20), dice.choice([None, "f" * 16])),
    lambda dice: Partial(dice.randint(2, 20)),
    lambda dice: Invents(),
    lambda dice: Quorum(),
    lambda dice: Refuses(dice.randint(2, 10)),
    lambda dice: Unsynced(dice.uniform(0.1, 1.0)),
    lambda dice: Forgetful(),
)
HONEST = (Quorum, Refuses)  # these lose nothing, and tell nothing that isn't so
DESTROYING = ("RebootAndDelete", "KillInstantly")
Judged = dict[str, set[str]]  # the keys of each verdict


def drawn(seed: int) -> tuple[Toy, list[object]]:
    """A store, and the words of a run."""
    dice = Random(f"seeds {seed}")
    modes = [make(dice) for make in dice.sample(MODES, dice.choice([0, 1, 1, 2, 2]))]
    some = {"check": 0.8, "salvage": 0.6, "join": 0.5}
    listed = " ".join([BARE, *(name for name, part in some.items() if dice.random() < part)])
    toy = Toy(seed, *modes, listed=listed, pace=0.2, boots=dice.uniform(0.1, 1.0))
    for name in ("read", "whole", "ready", "check", "salvage"):
        if dice.random() < 0.1:
            wrong = dice.choice([ends(1), throws, hangs])
            times = 1000 if name == "read" else dice.randint(1, 2)  # it never answers, at the end
            toy.own[name] = at_first(wrong, times, getattr(toy, name))
    words = ["--seed", seed, "--plan", dice.choice(PLANS), "--seconds", dice.randint(3, 8)]
    words += ["--readers", dice.randint(0, 2), "--writers", dice.randint(1, 3), "--quiet"]
    return toy, words + (["--unguarded"] if dice.random() < 0.2 else [])


class Read(NamedTuple):
    """A read of a key; `told` is "?" where it wasn't answered."""

    began: int
    ended: int
    time: int
    node: int | None
    told: str | None


class Notes:
    """What a history has, by key."""

    def __init__(self, it: Ran) -> None:
        self.reads: dict[str, list[Read]] = {}
        self.writes: dict[str, list[tuple[str, int | None]]] = {}  # value, and where it said ok
        self.disks: dict[int, set[tuple[str, str]]] = {}  # those of which all was told
        self.told: set[tuple[str, str]] = set()  # by any disk
        self.written, self.entries, begun = 1 << 62, list[tuple[int, int]](), dict[int, Any]()
        on_disk: dict[int, set[tuple[str, str]]] = {}
        for at, line in enumerate(it.lines("history.jsonl")):
            match line["f"], line.get("type"):
                case "written", _:
                    self.written = at
                case "entry", _:
                    self.entries.append((at, line["value"]))
                case "salvage", "told":
                    on_disk.setdefault(line["node"], set()).add(tuple(line["value"]))
                    self.told.add(tuple(line["value"]))
                case "salvage", "all":
                    self.disks[line["node"]] = on_disk.get(line["node"], set())
                case _, "invoke":
                    begun[line["process"]] = at, line["time"]
                case "write", kind:
                    key, value = line["value"]
                    ok = at if kind == "ok" else None
                    self.writes.setdefault(key, []).append((value, ok))
                case "read", kind:
                    (key, told), (began, time) = line["value"], begun[line["process"]]
                    told = told if kind == "ok" else "?"
                    read = Read(began, at, time, line["node"], told)
                    self.reads.setdefault(key, []).append(read)
        self.orders, self.heals = it.orders(), it.events("heal")

    def at_end(self, key: str) -> list[Read]:
        return [read for read in self.reads.get(key, []) if read.began > self.written]

    def is_whole(self, read: Read, line: int) -> bool:
        """Whether who was asked isn't destroyed there by the audit, and the guard was obeyed."""
        position = max([entry + 1 for at, entry in self.entries if at < line], default=0)
        changes = [(order["entry"], order) for order in self.orders]
        changes += [(heal["entry"], heal) for heal in self.heals]
        is_there = True
        for entry, it in sorted(changes, key=lambda change: change[0]):
            if entry >= position:
                break
            if it["what"] == "heal":
                is_there |= it["process"] == read.node
                continue
            if it["does"] != it["verdict"] and it["does"] in DESTROYING:
                return False
            is_there &= it["verdict"] not in DESTROYING or read.node not in it["targets"]
        return is_there


def lackers(notes: Notes, key: str) -> list[Read]:
    """The last answers at the end of the processes that lack it then, a minute after the first."""
    found = []
    for number in range(3):
        asked = [read for read in notes.at_end(key) if read.node == number]
        answered = [read for read in asked if read.told != "?"]
        if answered and answered[-1].told is None:
            if answered[-1].time - asked[0].time >= 60_000_000_000:
                found.append(answered[-1])
    return found


def verdict(notes: Notes, key: str) -> str:
    """What became of a record, by the definitions of the page."""
    ((value, acked),) = notes.writes[key]
    assert acked is not None
    reads = [read for read in notes.reads.get(key, []) if read.told != "?"]
    end = [read for read in notes.at_end(key) if read.told != "?"]
    told = [read for read in reads if read.told == value]
    whole = [read for read in reads if read.node is None and read.began > acked]
    lacking = lackers(notes, key)
    is_off = len(notes.disks) == 3 and not any((key, value) in it for it in notes.disks.values())
    last = whole[-1:] if whole else lacking[:1]
    if any(it.told is None and not any(its.began > it.began for its in told) for it in last):
        return "lost"
    if not whole and any(not any(its.began > it.began for its in told) for it in lacking):
        return "lost"
    if not end and is_off:
        return "lost"
    if any(read.told not in (None, value) for read in reads):
        return "wrong"
    if any(notes.is_whole(it, it.began) and notes.is_whole(it, it.ended) for it in lacking):
        return "missing"
    if not any(read.told == value for read in end) and (key, value) not in notes.told:
        return "unreadable"
    known = min([acked, *(read.ended for read in told)])
    return "stale" if any(it.told is None and it.began > known for it in reads) else "kept"


def expected(it: Ran) -> Judged:
    """The keys of each verdict, and those that were read and never written so."""
    notes, found = Notes(it), Judged()
    records = {key for key, ((_, ok), *more) in notes.writes.items() if ok and not more}
    for key in records:
        found.setdefault(verdict(notes, key), set()).add(key)
    for key in notes.reads.keys() - records:
        values = {value for value, _ in notes.writes.get(key, ())} | {None, "?"}
        if any(read.told not in values for read in notes.reads[key]):
            found.setdefault("unwritten", set()).add(key)
    return found


def is_as_noted(it: Ran) -> bool:
    """Whether each answer in the history is one that the store noted itself."""
    noted = Counter((n, key, told) for _, n, key, told in it.toy.checked)
    reads = (line for line in it.operations("read", "ok") if line["node"] is not None)
    told = Counter((line["node"], line["value"][0], line["value"][1] or "none") for line in reads)
    return told <= noted


class Seeds(Case):
    def judged(self, seed: int) -> None:
        toy, words = drawn(seed)
        self.runs += 1
        it = ran(toy, self.room / str(self.runs), *words, "--keep", is_shown=seed % 10 == 0)
        if it.status == 3 and "no record was acknowledged" in it.told:
            return
        found = Judged()
        for line in it.lines("records.jsonl"):
            found.setdefault(line["verdict"], set()).add(line["key"])
        wanted = expected(it)
        kept = wanted.pop("kept", set())
        self.assertEqual(found, wanted, it.told)
        self.assertEqual(it.counts["kept"], len(kept), it.told)
        its = it.counts | {"unwritten": len(found.get("unwritten", ()))}
        self.assertEqual({name: its[name] for name in found}, counted(found))
        self.assertTrue(is_as_noted(it))
        is_honest = all(isinstance(mode, HONEST) for mode in toy.modes)
        if is_honest and toy.read_last is not None and "--unguarded" not in words:
            self.assertEqual((it.status, found), (0, {}), it.told)
        self.remove(it)


def counted(judged: Judged) -> dict[str, int]:
    return {verdict: len(keys) for verdict, keys in judged.items()}


def test_of(first: int) -> Callable[[Seeds], None]:
    def test(self: Seeds) -> None:
        for seed in range(first, min(first + BATCH, COUNT)):
            with self.subTest(seed=seed):
                self.judged(seed)

    return test


for number in range(0, COUNT, BATCH):
    setattr(Seeds, f"test_seeds_from_{number:04}", test_of(number))
