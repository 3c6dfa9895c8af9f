"""Each verdict and each fault, by two seeds guarded and one unguarded, against the store's own log.

`truth.py` says from that log what became of each record, and whose fault it is. Beyond the guard is
what an order did that isn't what the guard said.
"""

from __future__ import annotations

from collections.abc import Callable
from dataclasses import dataclass
from typing import Any

from lab import Case, Ran, ran
from toy import Drops, Forgetful, Hole, Lags, Mode, Partial, Toy, Wrong, ends
from truth import Truth

BARE = "start ready whole write read"
READERS = f"{BARE} check salvage"
MILD = ("--kinds", "1,1,0,0,1")  # nobody is destroyed
EMPTIED = tuple((2.0 * n + 1, f"p{n}", "RebootAndDelete") for n in range(3))


@dataclass(frozen=True)
class Class:
    """A verdict or a fault, and a store of which records have it."""

    name: str
    store: Callable[[int], Toy]
    unguarded: tuple[object, ...] = MILD
    """How the unguarded run is ordered; where there is nothing, three are emptied in turn."""
    occurs: tuple[bool, bool] = (True, True)
    """Whether it has to occur guarded and unguarded, or else may not."""
    seconds: int = 5


def slow(seed: int, *modes: Mode, **more: Any) -> Toy:
    """A store that writes few records, for all of which each process is asked."""
    return Toy(seed, *modes, pace=0.3, **more)


def unread(seed: int) -> Toy:
    return slow(seed, listed=BARE, hooks={"read": ends(1)})


CLASSES = (
    Class("kept", lambda seed: slow(seed, listed=READERS)),
    Class("lost", lambda seed: slow(seed, Drops(7), listed=READERS)),
    Class("wrong", lambda seed: slow(seed, Wrong(9), listed=READERS)),
    Class("missing", lambda seed: slow(seed, Hole(seed % 3, 7), listed=READERS)),
    Class("unreadable", unread),
    Class("stale", lambda seed: slow(seed, Lags(0.5, seed % 3), listed=READERS)),
    Class("store", lambda seed: slow(seed, Drops(7), listed=f"{BARE} check")),
    Class("store_or_whole", lambda seed: slow(seed, Forgetful(), listed=BARE), (), seconds=8),
    Class("beyond", lambda seed: slow(seed), ("--plan", "attrition"), (False, True)),
    Class("nobody", lambda seed: slow(seed, Partial(5), listed=READERS)),
)


def kind_of(fault: object) -> str:
    """The name of a fault."""
    return fault if isinstance(fault, str) else str(*fault)  # type: ignore[misc]


class Classes(Case):
    def tried(self, it: Class, seed: int, is_guarded: bool) -> None:
        words = ["--seed", seed, "--seconds", it.seconds, "--readers", 1, "--quiet"]
        if not is_guarded:
            words += ["--unguarded", *(it.unguarded or self.given(*EMPTIED))]
        elif it.name in ("beyond", "store_or_whole"):
            words += ["--plan", "attrition"]
        ended = ran(it.store(seed), self.room / "out", *words, "--keep", is_shown=False)
        self.held(ended, it, it.occurs[not is_guarded])

    def held(self, it: Ran, of: Class, occurs: bool) -> None:
        """Holds each record against the store's log."""
        truth, late = Truth(it.toy), set[str]()
        for line in it.operations("write", "info"):
            if line.get("error") == "late":
                late.add(line["value"][0])
        keys = it.toy.acked.keys() - late
        lines = {line["key"]: line for line in it.lines("verdict.jsonl")[:-1]}
        self.assertLessEqual(lines.keys(), keys)
        found = {key: lines.get(key, {}).get("verdict", "kept") for key in keys}
        self.assertEqual(found, {key: truth.verdict(key) for key in keys}, it.told)
        beyond = [order["entry"] for order in it.orders() if order["beyond"]]
        names = {*found.values()}
        for key in (key for key in keys if found[key] == "lost"):
            fault, right = lines[key]["fault"], truth.fault(key)
            if beyond:
                right = {"beyond": beyond[0]}
            elif isinstance(fault, dict):
                fault = {name: [number for number, _ in it] for name, it in fault.items()}
            self.assertEqual(fault, right, key)
            names.add(kind_of(fault))
        self.assertEqual(of.name in names, occurs, it.told)


def test_of(it: Class, seed: int, is_guarded: bool) -> Callable[[Classes], None]:
    return lambda self: self.tried(it, seed, is_guarded)


for each in CLASSES:
    for seed, is_guarded in ((1, True), (2, True), (3, False)):
        way = "guarded" if is_guarded else "unguarded"
        name = f"test_{each.name}_{way}_{seed}"
        setattr(Classes, name, test_of(each, seed, is_guarded))
