"""Clocks that are off or go wrong, and ways that take their time, in virtual time on the toy store:
what they are set to, and when, also in a run that died and is gone on with."""

from __future__ import annotations

import json
from collections.abc import Mapping, Sequence
from contextlib import ExitStack
from pathlib import Path
from unittest.mock import patch

from lab import Ran
from nemesis.clocks import Clocks
from nemesis.links import Pair, Traffic
from resumed import Dying, Mortal
from toy import Alone, Member, Mode, now

SKEW = {"what": "disturbance", "kind": "skew", "offset": 0.0, "speed": 1.0}
AGE = 30.0  # seconds after which a store that trusts its clocks throws a record away


class Dials(Clocks):
    """Clocks that only keep what they are set to, and when."""

    made: list[Dials] = []
    go: tuple[int, ...] = ()  # whose programs have the machine's clock

    def __init__(self, out: Path, base: Sequence[float]) -> None:
        super().__init__(out, base)
        self.sets = list[tuple[float, int, float]]()
        self.off = dict.fromkeys(range(len(base)), 0.0)
        Dials.made.append(self)

    def begin(self) -> None:
        for number, offset in enumerate(self.base):
            self.set(number, offset)

    def end(self) -> None:
        pass

    def set(self, number: int, offset: float) -> None:
        self.sets.append((now(), number, offset))
        self.off[number] = offset

    def words(self, number: int) -> list[str]:
        return []

    def look(self, number: int) -> str | None:
        if number not in self.go or number in self.own:
            return None
        self.own[number] = "/bin/store is a program in Go"
        return self.own[number]


class Wires:
    """A network that only keeps how its ways are in the beginning."""

    made: list[Wires] = []

    def __init__(self, out: Path, count: int, way: str) -> None:
        self.hosts = ["127.0.0.1"] * count
        self.links, self.base = self, dict[Pair, Traffic]()
        self.began: Mapping[Pair, Traffic] | None = None
        Wires.made.append(self)

    async def begin(self) -> None:
        self.began = dict(self.base)

    def within(self, number: int) -> list[str]:
        return []


class Trusts(Mode):
    """A member throws away what is too old by its own clock, of which it keeps when it came."""

    def __init__(self) -> None:
        self.came = dict[tuple[int, str], float]()

    def time(self, member: Member) -> float:
        return now() + Dials.made[-1].off[member.number]

    def stores(self, member: Member, key: str, value: str) -> bool:
        self.came[member.number, key] = self.time(member)
        return True

    def own(self, member: Member, key: str, value: str) -> str | None:
        if self.time(member) <= self.came.get((member.number, key), self.time(member)) + AGE:
            return value
        member.lose([key])
        return None


class Skewed(Dying):
    is_shown = False

    def setUp(self) -> None:
        super().setUp()
        Dials.made, Dials.go, Wires.made = [], (), []
        patched = self.enterContext(ExitStack())
        patched.enter_context(patch("nemesis.store.Clocks", Dials))
        patched.enter_context(patch("nemesis.store.Net", Wires))
        patched.enter_context(patch("nemesis.store.library", lambda: Path("/libfaketime")))

    def file_of(self, *events: Mapping[str, object]) -> tuple[str, Path]:
        path = self.room / "given.jsonl"
        path.write_text("".join(json.dumps(it) + "\n" for it in ({"what": "ready"}, *events)))
        return "--replay", path

    def sets(self, it: Ran, which: int = -1) -> list[tuple[float, int, float]]:
        """What clocks were set to by orders, with the times of the run to a tenth of a second."""
        dials = Dials.made[which]
        own = dials.sets[len(dials.base) :]
        began = own[0][0] - it.events("disturbance")[0]["t"] if own else 0.0
        return [(round(t - began, 1), number, round(off, 3)) for t, number, off in own]

    # What is set.

    def test_a_clock_jumps_and_jumps_back(self) -> None:
        jump = SKEW | {"t": 2, "processes": [0, 2], "seconds": 3.0, "offset": 5.0}
        it = self.ran("--seconds", 8, *self.file_of(jump), toy=Mortal(1), status=0)
        wanted = [(2.0, 0, 5.0), (2.0, 2, 5.0), (5.0, 0, 0.0), (5.0, 2, 0.0)]
        self.assertEqual(self.sets(it), wanted)
        self.assertIn("1 disturbances: 0 orders, ", it.told)

    def test_a_clock_that_goes_too_fast_is_further_off_all_the_time(self) -> None:
        fast = SKEW | {"t": 1, "processes": [1], "seconds": 2.0, "speed": 1.5}
        it = self.ran("--seconds", 6, *self.file_of(fast), toy=Mortal(1), status=0)
        sets = self.sets(it)
        *drifts, last = [it for it in sets if it != (1.0, 1, 0.0)]
        self.assertEqual(last, (3.0, 1, 0.0))
        self.assertGreater(len(drifts), 15)
        for t, number, off in drifts:
            self.assertEqual(number, 1)
            self.assertAlmostEqual(off, (t - 1) * 0.5, delta=0.06)

    def test_those_that_overlap_add_up_and_stand_on_what_a_clock_is_off_all_the_time(self) -> None:
        its = [(1, 4.0, 5.0), (2, 1.0, -60.0)]
        jumps = [
            SKEW | {"t": t, "processes": [0], "seconds": seconds, "offset": offset}
            for t, seconds, offset in its
        ]
        words = "--seconds", 7, "--skew", 2, "--seed", 3
        it = self.ran(*words, *self.file_of(*jumps), toy=Mortal(1), status=0)
        base = Dials.made[0].base[0]
        wanted = [(1.0, 5.0), (2.0, -55.0), (3.0, 5.0), (5.0, 0.0)]
        self.assertEqual(self.sets(it), [(t, 0, round(base + off, 3)) for t, off in wanted])

    def test_how_far_a_clock_is_off_is_the_seeds(self) -> None:
        for seed in (1, 1, 2):
            words = "--seconds", 1, "--skew", 2, "--seed", seed, *self.file_of()
            self.ran(*words, toy=Mortal(1), status=0)
        first, again, other = [it.base for it in Dials.made]
        self.assertEqual(first, again)
        self.assertNotEqual(first, other)
        self.assertTrue(all(0 < abs(off) <= 2 for off in (*first, *other)))
        self.assertEqual([it[1:] for it in Dials.made[0].sets], [*enumerate(first)])

    def test_whose_clock_cannot_be_off_is_said_and_left_alone(self) -> None:
        Dials.go = (1,)
        jump = SKEW | {"t": 2, "processes": [0, 1], "seconds": 1.0, "offset": 5.0}
        none = SKEW | {"t": 4, "processes": [1], "seconds": 1.0, "offset": 5.0}
        it = self.ran("--seconds", 6, *self.file_of(jump, none), toy=Mortal(1), status=0)
        self.assertEqual([e["processes"] for e in it.events("disturbance")], [[0]])
        self.assertEqual({number for _, number, _ in self.sets(it)}, {0})
        self.assertIn("\nthis machine's clock for p1: /bin/store is a program in Go\n", it.told)

    # What stores make of it.

    def test_a_store_that_trusts_its_clocks_is_found(self) -> None:
        """A jump of a minute lets what came before be too old: only with it anything is lost."""
        jump = SKEW | {"t": 3, "processes": [0, 1, 2], "seconds": 3.0, "offset": 60.0}
        words = "--seconds", 8, "--readers", 2
        calm = self.ran(*words, "--skew", 2, *self.file_of(), toy=self.trusting(), status=0)
        self.assertEqual(calm.counts["lost"], 0)
        it = self.ran(*words, *self.file_of(jump), toy=self.trusting(), status=1)
        (began,) = it.events("disturbance")
        lost = it.lines("lost.jsonl")
        self.assertEqual(len(lost), it.counts["lost"])
        self.assertGreater(len(lost), 0)
        later = [key for key, t in it.toy.ok_at.items() if t > it.toy.began + began["t"] + 1]
        self.assertGreater(len(later), 5)  # what came by the clock that had jumped isn't too old
        self.assertFalse({loss["key"] for loss in lost} & {*later})
        self.assertEqual(it.orders(), [])

    def trusting(self) -> Mortal:
        return Mortal(1, Trusts(), Alone(), listed="start ready whole write read check")

    # Runs that died.

    def test_a_run_goes_on_with_the_clocks_that_it_had(self) -> None:
        """What was going on has ended with the tool; what was to come comes."""
        its = [(1, 60.0, [0]), (6, 1.0, [2])]
        jumps = [
            SKEW | {"t": t, "processes": who, "seconds": seconds, "offset": 5.0}
            for t, seconds, who in its
        ]
        words = "--seconds", 9, "--skew", 2, "--seed", 4
        it = self.both(*words, *self.file_of(*jumps), at=4.0)
        before, after = Dials.made
        self.assertEqual(before.base, after.base)
        self.assertEqual([it[1:] for it in after.sets[:3]], [*enumerate(before.base)])
        offs = [(number, round(off - after.base[number], 3)) for _, number, off in after.sets[3:]]
        self.assertEqual(offs, [(2, 5.0), (2, 0.0)])
        self.assertEqual([e["processes"] for e in it.events("disturbance")], [[0], [2]])
        self.assertIn("2 disturbances: ", it.told)
        self.assert_true(it)

    def test_a_run_goes_on_with_the_latency_that_it_had(self) -> None:
        it = self.both("--seconds", 6, "--net", "--latency", "20±5", *self.given(), at=3.0)
        before, after = Wires.made
        every = {(a, b): Traffic(0.02, 0.005) for a in range(3) for b in range(3) if a != b}
        self.assertEqual((before.began, after.began), (every, every))
        self.assert_true(it)
