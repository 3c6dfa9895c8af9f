"""Disturbances, which destroy nothing and end by themselves: how they are drawn, done and done
again, in virtual time on the toy store, whose disks are slow and full as they are ordered to be."""

import errno
import io
import json
from contextlib import redirect_stderr
from pathlib import Path
from unittest.mock import patch

from faultyard import Key, Kind
from faultyard.plans import Order
from lab import CLUSTER, HOOKS, Case, Ran
from nemesis import damage, disturbances, main, resume, risks
from nemesis.disks import Cut, Disks
from nemesis.disturbances import Disturbance, latency_of, pairs_of
from nemesis.links import CALM, Traffic, between
from toy import Alone, Member, Mode, Toy, now

SLOW = {"what": "disturbance", "kind": "slow-disk", "delay": 0.1, "rate": None}
FULL = {"what": "disturbance", "kind": "full-disk", "room": 0}


class Ordered(Disks):
    """Disks that only keep what they are ordered to be, and when."""

    def __init__(self, out: Path, count: int) -> None:
        super().__init__(out, count)
        self.orders = list[tuple[float, int, tuple[object, ...]]]()
        self.room: dict[int, object] = {}

    async def order(self, number: int, *words: object) -> None:
        self.orders.append((now(), number, words))
        if words[0] == "room":
            self.room[number] = words[1]

    async def _insert(self, number: int) -> None:
        pass

    async def _cut(self, number: int, tear: int) -> Cut:
        return Cut(0, 0)

    async def _end(self, number: int) -> None:
        pass

    async def _discard(self, number: int) -> None:
        log = self.folder(number) / "log"
        log.unlink(missing_ok=True)

    def kept(self, number: int) -> Path:
        return self._out / f"{number}.none"


class Full(Mode):
    """A member's disk takes nothing while no byte is left; an honest one says so."""

    def __init__(self, lies: bool = False) -> None:
        self.lies, self.disks = lies, None

    def stores(self, member: Member, key: str, value: str) -> bool:
        if self.disks is None or self.disks.room.get(member.number, "all") == "all":
            return True
        if self.lies:
            return False
        raise OSError(errno.ENOSPC, "No space left on device")


class Disturbed(Case):
    """Runs on such disks."""

    is_shown = False

    def disturbed(
        self, *words: object, status: int = 0, full: Full | None = None, **more: object
    ) -> tuple[Ran, Ordered]:
        full, made = full or Full(), []

        def disks_of(words: object, count: int) -> Disks:
            made.append(Ordered(words.out, count))
            full.disks = made[-1]
            return made[-1]

        more = {"toy": Toy(1, full, Alone(), pace=0.1)} | more
        with patch("nemesis.store.disks_of", disks_of):
            it = self.ran("--disks", "lossy", *words, status=status, **more)
        return it, made[-1]

    def file_of(self, *events: dict) -> tuple[str, Path]:
        """Words for a run that has these events."""
        path = self.room / "given.jsonl"
        path.write_text("".join(json.dumps(it) + "\n" for it in ({"what": "ready"}, *events)))
        return "--replay", path

    def orders(self, it: Ran, disks: Ordered) -> list[tuple[float, int, tuple[object, ...]]]:
        """The orders of disks with the times of the run, to a tenth of a second."""
        began = it.events("ready")[0]["t"]
        first = disks.orders[0][0] - it.events("disturbance")[0]["t"]
        self.assertEqual(began, 0)
        return [(round(t - first, 1), number, words) for t, number, words in disks.orders]

    def test_each_begins_and_ends_at_its_time(self) -> None:
        slow = SLOW | {"t": 2, "processes": [0], "seconds": 3.0, "rate": 1000}
        full = FULL | {"t": 3, "processes": [1, 2], "seconds": 1.0, "room": 4096}
        it, disks = self.disturbed("--seconds", 8, *self.file_of(slow, full))
        self.assertEqual(
            self.orders(it, disks),
            [
                (2.0, 0, ("slow", 0.1, 1000)),
                (3.0, 1, ("room", 4096)),
                (3.0, 2, ("room", 4096)),
                (4.0, 1, ("room", "all")),
                (4.0, 2, ("room", "all")),
                (5.0, 0, ("slow", 0)),
            ],
        )
        told = [(round(e["t"], 1), e["kind"], e["processes"]) for e in it.events("undisturbed")]
        self.assertEqual(told, [(4.0, "full-disk", [1, 2]), (5.0, "slow-disk", [0])])
        self.assertIn("guarded, seed 1, 2 disturbances: 0 orders, ", it.told)
        self.assertNotIn("nothing was destroyed", it.told)

    def test_those_that_overlap_are_the_hardest_of_all(self) -> None:
        first = SLOW | {"t": 1, "processes": [0], "seconds": 4.0, "rate": 10**6}
        second = SLOW | {"t": 2, "processes": [0, 1], "seconds": 1.0, "delay": 0.5}
        it, disks = self.disturbed("--seconds", 7, *self.file_of(first, second))
        self.assertEqual(
            self.orders(it, disks),
            [
                (1.0, 0, ("slow", 0.1, 10**6)),
                (2.0, 0, ("slow", 0.5, 10**6)),
                (2.0, 1, ("slow", 0.5)),
                (3.0, 0, ("slow", 0.1, 10**6)),
                (3.0, 1, ("slow", 0)),
                (5.0, 0, ("slow", 0)),
            ],
        )

    def test_all_end_with_the_orders(self) -> None:
        """What is read at the end is read from disks that are neither slow nor full."""
        its = [it | {"t": 1, "processes": [0, 1, 2], "seconds": 600.0} for it in (SLOW, FULL)]
        it, disks = self.disturbed("--seconds", 5, *self.file_of(*its))
        last = {number: {} for number in range(3)}
        for t, number, words in disks.orders:
            last[number][words[0]] = words[1]
        self.assertEqual(last, dict.fromkeys(range(3), {"slow": 0, "room": "all"}))
        written, ended = it.events("written")[0]["t"], it.events("undisturbed")
        self.assertEqual({round(e["t"] - written, 1) for e in ended}, {0.0})

    def test_who_is_gone_is_left_alone(self) -> None:
        order = {"t": 2, "what": "order", "key": "processid", "value": "p1"}
        kill = order | {"order": "KillInstantly"}
        slow = SLOW | {"t": 4, "processes": [0, 1], "seconds": 1.0}
        none = FULL | {"t": 5, "processes": [1], "seconds": 1.0}
        it, disks = self.disturbed("--seconds", 8, *self.file_of(kill, slow, none))
        self.assertEqual([e["processes"] for e in it.events("disturbance")], [[0]])
        self.assertEqual({number for _, number, _ in disks.orders}, {0})

    def test_a_damaged_disk_has_room_and_time_for_its_damage(self) -> None:
        its = [it | {"t": 1, "processes": [1], "seconds": 9.0} for it in (SLOW, FULL)]
        order = {"t": 3, "what": "order", "key": "processid", "value": "p1", "tear": 5}
        kill = order | {"order": "RebootAndDelete"}
        words = "--damage", "bits", "--damage-seconds", 1, "--seconds", 12
        it, disks = self.disturbed(*words, *self.file_of(*its, kill))
        (damage,) = it.events("damage")
        calm = [words for t, _, words in self.orders(it, disks) if t == 3.0]
        self.assertEqual(calm, [("room", "all"), ("slow", 0)])
        self.assertEqual(round(damage["t"], 1), 3.0)

    # What stores make of them.

    def test_an_honest_store_loses_nothing_on_full_disks(self) -> None:
        its = [FULL | {"t": t, "processes": [0, 1, 2], "seconds": 1.0} for t in (1, 4)]
        it, _ = self.disturbed("--seconds", 8, *self.file_of(*its))
        ends = it.operations("write", "fail") + it.operations("write", "info")
        self.assertGreater(sum(e.get("error") == "no" for e in ends), 0)
        self.assertEqual(it.counts["lost"], 0)

    def test_one_that_acknowledges_what_it_does_not_have_is_found(self) -> None:
        full = FULL | {"t": 2, "processes": [0, 1, 2], "seconds": 2.0}
        it, _ = self.disturbed("--seconds", 8, *self.file_of(full), status=1, full=Full(lies=True))
        (began,), (ended,) = it.events("disturbance"), it.events("undisturbed")
        lost = it.lines("lost.jsonl")
        self.assertEqual(len(lost), it.counts["lost"])
        self.assertTrue(all(began["t"] <= loss["t"] <= ended["t"] + 0.1 for loss in lost), lost)
        kept = [key for key, at in it.toy.ok_at.items() if at > now_of(it, began["t"])]
        self.assertLess(len(lost), len(kept), "those behind it are kept")

    # How they are drawn.

    def test_a_seed_draws_the_same_and_a_replay_does_it_again(self) -> None:
        words = "--seconds", 40, "--quiet"
        for kind in ("slow-disk", "full-disk"):
            its = []
            for seed in (1, 1, 2):
                given = "--plan", kind, *words, "--pauses", "1,2", "--seed", seed
                its.append(self.disturbed(*given, toy=Toy(1, pace=2.0))[0])
            again = "--replay", its[0].out / "events.jsonl"
            its.append(self.disturbed(*again, *words, toy=Toy(1, pace=2.0))[0])
            drawn = [
                [{**e, "up": 0, "t": round(e["t"], 1)} for e in it.events("disturbance")]
                for it in its
            ]
            self.assertEqual(drawn[0], drawn[1])
            self.assertNotEqual(drawn[0], drawn[2])
            self.assertEqual(drawn[0], drawn[3])
            self.assertGreater(len(drawn[0]), 15)
            self.assertEqual({len(e["processes"]) for e in drawn[0]}, {1, 3})
            self.assertEqual({e["seconds"] for e in drawn[0]}, {1.0, 3.0, 8.0})

    def test_what_is_beside_leaves_the_orders_as_they_are(self) -> None:
        words = "--seconds", 20, "--seed", 3, "--pauses", "1,2", "--quiet"
        alone, _ = self.disturbed(*words)
        both, _ = self.disturbed(*words, "--beside", "slow-disk,full-disk")
        orders = [[(e["order"], e["value"]) for e in it.orders()] for it in (alone, both)]
        self.assertGreater(len(orders[0]), 5)
        self.assertEqual(orders[0], orders[1])
        kinds = {e["kind"] for e in both.events("disturbance")}
        self.assertEqual(kinds, {"slow-disk", "full-disk"})

    def test_those_that_were_done_are_not_done_again(self) -> None:
        slow = Disturbance("slow-disk", (0, 2), 3.0, {"delay": 0.1, "rate": None})
        full = Disturbance("full-disk", (1,), 3.0, {"room": 0})
        kill = Order(Kind.REBOOT, Key.PROCESS, "p1")
        timed = [(1.0, slow), (2.0, kill), (3.0, full), (4.0, slow)]
        done = [{"t": 1.0, **SLOW, "processes": [0, 2], "seconds": 3.0}]
        told = {"what": "order", "by": 1, "order": "Reboot", "key": "processid", "value": "p1"}
        self.assertEqual(resume.left_of(timed, done, 1), timed[1:])
        self.assertEqual(resume.left_of(timed, [*done, told], 1), timed[2:])

    # What is refused.

    def refused(self, *words: object) -> str:
        said = io.StringIO()
        with redirect_stderr(said), self.assertRaises(SystemExit) as end:
            main.parsed([str(CLUSTER), str(HOOKS), *map(str, words)])
        self.assertEqual(end.exception.code, 2)
        return said.getvalue().splitlines()[-1]

    def test_what_cannot_be_done_is_refused(self) -> None:
        lossy = "--disks", "lossy"
        for words, message in (
            (["--plan", "slow-disk"], "--plan slow-disk needs --disks lossy"),
            (["--plan", "full-disk", "--disks", "ext4"], "--plan full-disk needs --disks lossy"),
            (["--beside", "full-disk", "--disks", "xfs"], "--beside full-disk needs --disks lossy"),
            (["--beside", "partition"], "--plan partition needs --net"),
            (["--plan", "slow"], "--plan slow needs --net"),
            (["--beside", "lossy-net"], "--beside lossy-net needs --net"),
            (["--latency", "20"], "--latency needs --net"),
            (["--net", "--latency", "5±20"], "'5±20' isn't as 20±5"),
            (["--net", "--latency", "x"], "--latency"),
            (["--skew", 0], "--skew"),
            (["--uptime", 0], "--uptime"),
            (["--uptime", 0.5], "--uptime"),
            (
                ["--beside", "mixed"],
                "'mixed' is none of partition, slow-disk, full-disk, slow, los",
            ),
            ([*lossy, "--beside", "slow-disk", "--replay", HOOKS], "--beside has no effect with"),
            ([*lossy, "--kinds", "1,1,1,1,1", "--plan", "slow-disk"], "--kinds has no effect with"),
        ):
            with self.subTest(message):
                self.assertIn(message, self.refused(*words))

    def test_a_replay_that_cannot_be_done_is_refused(self) -> None:
        partition = {"what": "partition", "t": 1, "shape": "ring", "cuts": [[0, 1]], "clogged": 1}
        for event, message in (
            (FULL | {"t": 1, "processes": [0], "seconds": 1}, "full-disk needs --disks lossy"),
            (partition, "partition needs --net"),
            ({"what": "disturbance", "t": 1, "kind": "none"}, "line 2 is no event"),
            (SLOW | {"t": 1, "processes": ["x"], "seconds": 1}, "line 2 is no event"),
        ):
            it = self.ran(*self.file_of(event), toy=Toy(1), status=2)
            self.assertIn(message, it.told)


class Ways(Case):
    """What happens to packets, and which faults the guard is asked of."""

    def test_a_latency_is_in_milliseconds(self) -> None:
        for text in ("20±5", "20+-5"):
            self.assertEqual(latency_of(text), Traffic(0.02, 0.005))
        self.assertEqual(latency_of("7.5"), Traffic(0.0075))

    def test_data_centres_are_apart(self) -> None:
        slow = Traffic(0.02)
        three = between(["a", "a", "b"], slow)
        self.assertEqual(three, dict.fromkeys([(0, 2), (2, 0), (1, 2), (2, 1)], slow))
        every = {(a, b) for a in range(3) for b in range(3) if a != b}
        for centres in ([None] * 3, ["a"] * 3):
            self.assertEqual(between(centres, slow).keys(), every)

    def test_one_behind_the_other(self) -> None:
        both = Traffic(0.02, 0.01, 0.5, 0.1, 1000) & Traffic(0.01, 0, 0.5, 0.2, 500, True)
        self.assertEqual(both[:2], (0.03, 0.01))
        self.assertAlmostEqual(both.loss, 0.75)
        self.assertAlmostEqual(both.duplicates, 0.28)
        self.assertEqual(both[4:], (500, True))
        self.assertEqual(CALM & both, both)

    def test_some_processes_are_disturbed_each_way(self) -> None:
        out, back = ((0, 1), (0, 2)), ((1, 0), (2, 0))
        self.assertEqual(pairs_of([0], 3, "out"), out)
        self.assertEqual(pairs_of([0], 3, "in"), back)
        self.assertEqual(pairs_of([0], 3, "both"), out + back)
        its = pairs_of([0, 1, 2], 3, "both")
        self.assertEqual((len(its), len({*its})), (6, 6))

    def test_the_guard_is_asked_of_what_it_can_bar(self) -> None:
        """And what destroys is bounded by the policy, or is a control."""
        for kind in Kind:
            self.assertTrue(risks.is_asked(Order(kind, Key.PROCESS, "p0")))
        cut = Order(Kind.CLOG, Key.PROCESS, "ring", cuts=((0, 1),))
        others = [Disturbance(kind, (0,), 1.0, {}) for kind in disturbances.FORMS]
        self.assertFalse(any(map(risks.is_asked, [cut, *others])))
        bounded = risks.Guarded.POLICY, risks.Guarded.CONTROL
        destroys = ("RebootAndDelete", "KillInstantly", *damage.KINDS)
        for name, row in risks.FAULTS.items():
            self.assertEqual(row.guarded in bounded, name in destroys, name)
        controls = {name for name, row in risks.FAULTS.items() if row.guarded is bounded[1]}
        self.assertEqual(controls, {"truncate", "rollback"})


def now_of(it: Ran, t: float) -> float:
    """The time of the loop at a time of a run."""
    return it.toy.began + t
