"""What a harness of one's own takes from the Python binding: the cluster file, plans, the ledger,
the server."""

import asyncio
import json
import os
import signal
import subprocess
import sys
import unittest
from itertools import islice
from pathlib import Path
from random import Random
from unittest import mock

import common
import faultyard
from faultyard import ClusterFile, Guard, Key, Kind, Plan, Role, plans
from faultyard.harness import Harness, lost_line, read_orders
from faultyard.ledger import Ledger
from faultyard.plans import Draw, Order, Simulated

# Three processes, a grant of each kind for actor 1, and two copies of each record.
THREE = common.ROOT / "tests/nemesis/three.toml"
EMPTY = Order(Kind.REBOOT_AND_DELETE, Key.PROCESS, "p1")


class ClusterFileTest(unittest.TestCase):
    def test_places_and_actors_are_those_of_the_file(self):
        file = ClusterFile.read(THREE)
        self.assertEqual(file.places[1], {Key.PROCESS: "p1", Key.MACHINE: "m1", Key.ZONE: "z1"})
        self.assertEqual((file.actor(Role.STORAGE), file.actor(Role.FAULT)), (0, 1))
        self.assertEqual(file.actors[1].kinds, frozenset(Kind))
        self.assertEqual(file.actors[3].kinds, frozenset())
        self.assertEqual(file.having(Key.ZONE, "z2"), {2})
        self.assertEqual(file.having(Key.DATA_HALL, "z2"), frozenset())

    def test_a_role_that_nobody_has(self):
        text = THREE.read_bytes().replace(b'"operator"', b'"fault"')
        with self.assertRaises(faultyard.ConfigRefused) as caught:
            ClusterFile.parse(text).actor(Role.OPERATOR)
        self.assertIn("no actor with the role operator", str(caught.exception))

    def test_what_only_toml_1_1_has_is_read_as_the_program_reads_it(self):
        text = THREE.read_bytes().replace(b'"operator"}', b'"operator",}')
        self.assertEqual(ClusterFile.parse(text), ClusterFile.read(THREE))

    def test_a_file_that_is_refused_has_its_fault_line(self):
        with self.assertRaises(faultyard.ConfigRefused) as caught:
            ClusterFile.parse(b"policies = [")
        self.assertEqual(caught.exception.fault, "config: Toml")

    def test_what_a_guard_tells_has_the_grants_as_they_are_now(self):
        with Guard(THREE) as guard:
            file = ClusterFile.read(THREE)
            self.assertEqual(guard.cluster(), file)
            guard.act(3, {"give": {"actor": 3, "kinds": ["Reboot"], "scope": "all"}})
            told = guard.cluster()
            self.assertEqual(told.actors[3].kinds, {Kind.REBOOT})
            self.assertEqual(told.places, file.places)

    def test_without_a_program_the_library_reads_it(self):
        file = ClusterFile.read(THREE)
        with mock.patch.dict(os.environ, FAULTYARD="/none/faultyard"):
            if common.LIBRARY:
                self.assertEqual(ClusterFile.read(THREE), file)
            with mock.patch.dict(os.environ, FAULTYARD_LIB="/none/libfaultyard.so"):
                with self.assertRaisesRegex(faultyard.NotFound, "no program"):
                    ClusterFile.read(THREE)


class PlansTest(unittest.TestCase):
    PLACES = [{Key.PROCESS: f"p{i}", Key.MACHINE: f"m{i}", Key.ZONE: "z0"} for i in range(3)]

    def drawn(self, plan, count=200, **more):
        return list(islice(getattr(Draw(Random(7), self.PLACES, **more), plan)(), count))

    def test_a_seed_draws_the_same_again(self):
        for plan in plans.PLANS:
            self.assertEqual(self.drawn(plan), self.drawn(plan))

    def test_each_order_is_read_again_from_its_act(self):
        for order in self.drawn("mixed"):
            clogged = order.clogged if order.kind is Kind.CLOG else 0.0
            self.assertEqual(Order.of(order.act()), order._replace(pause=0.0, clogged=clogged))
        self.assertIsNone(Order.of({"up": {"process": 0}}))

    def test_mixed_draws_by_weights_and_pauses(self):
        self.assertEqual({order.kind for order in self.drawn("mixed", 2000)}, set(Kind))
        only = self.drawn("mixed", weights={Kind.REBOOT: 1.0}, pauses=[0.25])
        self.assertEqual({(order.kind, order.pause) for order in only}, {(Kind.REBOOT, 0.25)})

    def test_blackout_draws_its_own_pauses_or_those_given(self):
        for pauses in (None, [20.0, 25.0]):
            orders = self.drawn("blackout", pauses=pauses)
            self.assertEqual({order.pause for order in orders}, set(pauses or (4.0, 6.0, 8.0)))
            self.assertEqual(
                {(order.kind, order.key) for order in orders}, {(Kind.REBOOT, Key.ZONE)}
            )

    def test_partition_draws_its_own_pauses_or_those_given(self):
        for pauses in (None, [6.0, 10.0]):
            orders = self.drawn("partition", pauses=pauses)
            self.assertEqual({order.pause for order in orders}, set(pauses or (1.0, 2.0, 4.0)))

    def test_attrition_only_destroys(self):
        self.assertTrue(all(order.kind.empties_disk for order in self.drawn("attrition")))

    def test_swizzle_clogs_each_of_some_once_in_a_round(self):
        orders = self.drawn("swizzle")
        self.assertEqual({order.kind for order in orders}, {Kind.CLOG})
        rounds = [at for at, order in enumerate(orders) if order.pause == 3.0]
        for begin, end in zip(rounds, rounds[1:]):
            names = [order.value for order in orders[begin:end]]
            self.assertEqual(len(names), len(set(names)))
        self.assertEqual({order.kind for order in self.drawn("swizzle", weights={})}, {Kind.REBOOT})

    def test_rolling_takes_each_in_turn(self):
        told = [(order.kind, order.value) for order in self.drawn("rolling", 4)]
        kind = Kind.REBOOT_PROCESS
        self.assertEqual(told, [(kind, "p0"), (kind, "p1"), (kind, "p2"), (Kind.REBOOT, "p0")])


class SimulatedTest(unittest.TestCase):
    def orders(self, plan, acts, **more):
        """What a plan orders whose actor makes these acts, and then nothing."""
        its = Simulated(
            lambda count: (acts + count * [None])[:count],
            plan,
            Random(7),
            PlansTest.PLACES,
            more.pop("granted", tuple(Kind)),
            **more,
        )
        return list(its.orders())

    def clog(self, value, ticks=250):
        return {"clog": {"key": "processid", "value": value, "ticks": ticks}}

    def unclog(self, value):
        return {"unclog": {"key": "processid", "value": value}}

    def test_what_cannot_be_ordered_is_left_out(self):
        kill = {"key": "machineid", "value": "m1", "kind": "Reboot", "floor": "Reboot", "tear": 5}
        gone = {**kill, "kind": "KillInstantly"}
        acts = [None, {"kill": {**kill, "value": "nowhere"}}, self.clog("p0", 2**41)]
        acts += [{"kill": gone}, {"kill": kill}, *100 * [None], self.unclog("p2")]
        granted = Kind.REBOOT, Kind.CLOG
        orders = self.orders(Plan.MIXED, acts, granted=granted, pauses=[0.25])
        wanted = [
            Order(Kind.REBOOT, Key.MACHINE, "m1", 0.25, tear=5, floor=Kind.REBOOT),
            Order(Kind.CLOG, Key.PROCESS, "p2", 0.25, frees=True),
        ]
        self.assertEqual(orders, wanted)
        self.assertEqual([order.act() for order in orders], [{"kill": kill}, self.unclog("p2")])

    def test_a_round_of_a_swizzle_begins_after_a_longer_pause(self):
        turns = [self.clog("p0"), self.clog("p1"), self.unclog("p1"), self.unclog("p0")]
        orders = self.orders(Plan.SWIZZLE, 2 * turns)
        self.assertEqual([order.pause for order in orders], [3.0, 0.3, 0.3, 0.3] * 2)
        self.assertEqual([order.clogged for order in orders], [0.25, 0.25, 0.0, 0.0] * 2)


class LedgerTest(unittest.TestCase):
    def setUp(self):
        self.guard = Guard(THREE)
        self.addCleanup(self.guard.close)
        self.ledger = Ledger(self.guard)
        self.ledger.begin()

    def acknowledge(self, key, value="v", mark=0):
        self.ledger.acknowledge(self.ledger.send(), key, value, mark)

    def test_what_is_lost_and_who_took_it(self):
        self.acknowledge("a", mark=5)
        self.ledger.destroy(0, self.guard.act(1, EMPTY.act()).at)
        self.acknowledge("b", mark=3)
        self.ledger.destroy(1, self.guard.act(1, EMPTY.act()).at)
        self.ledger.destroy(1, self.guard.act(1, EMPTY.act()).at)
        self.assertEqual((self.ledger.mark, self.ledger.able), (5, {2}))
        first, second = self.ledger.lost({}, is_all=True)
        self.assertEqual(first[:1] + first[2:], ("a", 0, (0, 1, 2), (0, 1)))
        self.assertEqual(second[:1] + second[2:], ("b", 1, (1, 2), (1,)))
        self.assertEqual(self.ledger.lost({"a": "v", "b": "other"}, is_all=True), [second])
        self.assertEqual(self.ledger.lost({"a": "v", "b": "v", "c": "v"}, is_all=True), [])

    def test_an_answer_to_a_write_from_before_a_loss_comes_too_late(self):
        early = self.ledger.send()
        self.ledger.destroy(0, 0)
        between = self.ledger.send()
        self.acknowledge("a", mark=1)
        self.assertEqual(self.ledger.due(0), 1)
        self.ledger.acknowledge(early, "early", "v", 9)
        self.ledger.acknowledge(between, "between", "v", 2)
        self.assertEqual(list(self.ledger.records), ["a", "between"])
        self.assertEqual(self.ledger.mark, 2)
        self.assertFalse(self.ledger.acknowledge(early, "early", "v", 9))
        self.assertTrue(self.ledger.acknowledge(self.ledger.send(), "last", "v", 2))
        self.ledger.heal(0, 7)
        self.assertEqual((self.ledger.able, len(self.ledger.healed)), ({0, 1, 2}, 1))
        (heal,) = self.ledger.heals
        self.assertEqual((heal.process, heal.entry), (0, 7))

    def test_the_times_without_a_write_count_the_first_and_the_last(self):
        times = iter([0, 3_000_000_000, 3_500_000_000, 8_500_000_000])
        self.ledger = Ledger(self.guard, clock=lambda: next(times))
        self.ledger.begin()
        self.acknowledge("a")
        self.acknowledge("b")
        self.ledger.stop()
        self.assertEqual(self.ledger.pauses(), [3.0, 0.5, 5.0])
        self.assertEqual(self.ledger.longest_pause(), 5.0)

    def test_time_stands_until_the_beginning(self):
        ledger = Ledger(self.guard)
        self.assertEqual((ledger.now(), ledger.has_begun()), (0.0, False))
        self.assertEqual((ledger.pauses(), ledger.longest_pause()), ([0.0], 0.0))
        self.assertTrue(self.ledger.has_begun())


class EntryTest(common.Folder, unittest.TestCase):
    def test_an_entry_says_what_strikes_and_what_bars_it(self):
        with Guard(THREE) as guard:
            entries = [guard.act(1, EMPTY._replace(value=name).act()) for name in ("p1", "p2")]
            entries += [guard.act(by, Order(Kind.CLOG, Key.ZONE, "z0").act()) for by in (1, 2)]
            entries += [guard.act(1, {"unclog": {"key": "zoneid", "value": "z0"}})]
            entries += [guard.act(2, EMPTY._replace(value="p9").act())]
            audit = guard.audit().splitlines()[1:]
        self.assertEqual([entry.line for entry in entries], audit)
        kinds = [Kind.REBOOT_AND_DELETE, Kind.REBOOT, Kind.CLOG, None, None, None]
        self.assertEqual([entry.struck for entry in entries], kinds)
        bars = [None, ["TooManyDestroyed", 0], None, ["NoGrant", 0], None, ["NoTarget"]]
        self.assertEqual([entry.barred for entry in entries], bars)
        self.assertEqual(entries[4].told, {"ruled": None})

    def test_the_folder_has_all_that_the_guard_wrote_whatever_ends_the_test(self):
        text = (
            "import os, faultyard\n"
            f"guard = faultyard.Guard({str(THREE)!r}, folder={self.folder!r})\n"
            "guard.tick(1, by=0)\n"
            "os.kill(os.getpid(), 9)\n"
        )
        ran = subprocess.run([sys.executable, "-c", text], timeout=60)
        self.assertEqual(ran.returncode, -signal.SIGKILL)
        audit = Path(self.folder, "audit").read_text()
        self.assertEqual(faultyard.check(THREE, audit), 1)
        self.assertEqual(Path(self.folder, "guard.log").read_text(), "")

    def test_a_guard_that_refuses_the_file_says_why_in_the_folder(self):
        config = common.written(self.folder, "bad.toml", "policies = [")
        with self.assertRaises(faultyard.ConfigRefused):
            Guard(config, folder=self.folder)
        self.assertEqual(Path(self.folder, "guard.log").read_text(), "config: Toml\n")

    @unittest.skipUnless(common.LIBRARY, common.WITHOUT)
    def test_a_folder_asks_for_the_pipe(self):
        with self.assertRaises(ValueError):
            Guard(THREE, transport="library", folder=self.folder)

    def test_a_picture_and_what_was_done_beyond_the_guard(self):
        with Guard(THREE) as guard:
            for name in ("p0", "p1"):
                guard.act(1, EMPTY._replace(value=name).act())
            audit = guard.audit()
        plain = faultyard.show(THREE, audit)
        self.assertTrue(plain.startswith("<svg"))
        self.assertNotIn("beyond", plain)
        self.assertIn('beyond" data-entry="1"', faultyard.show(THREE, audit, beyond=1))
        with self.assertRaises(faultyard.AuditRefused):
            faultyard.show(THREE, audit[:-9])

    def test_a_picture_by_the_times_of_events(self):
        with Guard(THREE) as guard:
            for name in ("p0", "p1"):
                guard.act(1, EMPTY._replace(value=name).act())
            audit = guard.audit()
        events = Path(self.folder, "events.jsonl")
        first = {"t": 0.5, "entry": 0, "does": "RebootAndDelete"}
        last = {"t": 2.25, "entry": 1, "does": "KillInstantly"}
        events.write_text(f"{json.dumps(first)}\n{json.dumps(last)}\n")
        picture = faultyard.show(THREE, audit, beyond=1, times=events)
        self.assertIn('data-micros="100000" data-columns="23"', picture)
        self.assertIn('otherwise beyond" data-entry="1"', picture)
        self.assertNotIn('otherwise" data-entry="0"', picture)
        events.write_text("{}\n[]\n")
        with self.assertRaisesRegex(faultyard.AuditRefused, "events: line 2: Syntax"):
            faultyard.show(THREE, audit, times=events)


class Mine(Harness):
    """A harness whose processes only note what is done to them."""

    def __init__(self, guard, folder, **more):
        self.done, self.shown, self.answers = [], [], []
        events = Path(folder, "events.jsonl")
        super().__init__(guard, ClusterFile.read(THREE), events, show=self.shown.append, **more)

    def answered(self, entry, does):
        self.answers.append((entry.at, does, len(self.done)))

    async def strike(self, processes, kind):
        self.done.append((processes, kind))

    async def clog(self, processes, is_clogged):
        self.done.append((processes, is_clogged))


class HarnessTest(common.Folder, unittest.TestCase):
    def played(self, play, **more):
        """A harness that played, and its events."""

        async def playing():
            with Guard(THREE) as guard:
                harness = Mine(guard, self.folder, **more)
                harness.ledger.begin()
                await play(harness)
                harness.audit = guard.audit()
            return harness

        harness = asyncio.run(asyncio.wait_for(playing(), 60))
        faultyard.check(THREE, harness.audit)
        lines = Path(self.folder, "events.jsonl").read_text().splitlines()
        return harness, [json.loads(line) for line in lines]

    async def two_emptied(self, harness):
        for number in range(3):
            harness.tell_up(number)
        harness.ledger.acknowledge(harness.ledger.send(), "a", "v", 1)
        for name in ("p1", "p2"):
            await harness.obey(harness.fault, EMPTY._replace(value=name).act())

    def test_it_does_what_the_guard_answers(self):
        harness, events = self.played(self.two_emptied)
        kinds = [Kind.REBOOT_AND_DELETE, Kind.REBOOT]
        self.assertEqual(harness.done, [([1], kinds[0]), ([2], kinds[1])])
        self.assertEqual((harness.up, set(harness.ledger.destroyed)), ({0}, {1}))
        self.assertIsNone(harness.beyond())
        self.assertEqual(
            harness.summary("x")[0].split(";")[0], "guarded, x: 2 orders, 1 lessened, 0 barred"
        )
        orders = [it for it in events if it["what"] == "order"]
        self.assertEqual([it["does"] for it in orders], ["RebootAndDelete", "Reboot"])
        self.assertEqual([it["up"] for it in orders], [[0, 1, 2], [0, 2]])
        (destroyed,) = [it for it in events if it["what"] == "destroyed"]
        self.assertEqual((destroyed["processes"], destroyed["of"]), ([1], orders[0]["entry"]))
        self.assertEqual([it["reply"] for it in events[:3]], [{"no": ["IsUp"]}] * 3)
        told = "RebootAndDelete p2 (p2)                 Reboot; the guard said"
        self.assertNotIn(told, harness.shown[1])
        self.assertIn("(p2)                 Reboot: TooManyDestroyed 0", harness.shown[1])

    def test_unguarded_it_does_what_was_ordered(self):
        harness, _ = self.played(self.two_emptied, unguarded=True)
        self.assertEqual([kind for _, kind in harness.done], [Kind.REBOOT_AND_DELETE] * 2)
        self.assertEqual(harness.beyond()["entry"], 4)
        self.assertIn("done; the guard said Reboot: TooManyDestroyed 0", harness.shown[1])
        beyond = (
            "beyond the guard first: entry 4: the guard said Reboot, RebootAndDelete of p2 was done"
        )
        self.assertEqual(harness.summary("x")[1:], [beyond])
        (lost,) = harness.lost({}, is_all=True)
        self.assertEqual((lost["able"], list(lost["destroyed_by"])), (["p0", "p1", "p2"], [3, 4]))
        self.assertIn("could be held by p0 p1 p2; destroyed later by entries 3 4", lost_line(lost))

    def test_who_is_gone_is_no_target_any_more(self):
        async def play(harness):
            for kind in (Kind.KILL_INSTANTLY, Kind.REBOOT):
                await harness.obey(1, Order(kind, Key.ZONE, "z1").act())

        harness, _ = self.played(play)
        self.assertEqual(harness.done, [([1], Kind.KILL_INSTANTLY)])
        self.assertEqual((harness.gone, harness.orders[1]["rule"]), ({1}, ["NoTarget"]))
        self.assertIn("(nobody)", harness.shown[1])

    def test_a_clog_ends_when_it_is_due_or_at_once(self):
        async def play(harness):
            await harness.obey(1, Order(Kind.CLOG, Key.PROCESS, "p1", clogged=0.01).act())
            await harness.clogs_ended()
            await harness.obey(1, Order(Kind.CLOG, Key.PROCESS, "p2", clogged=1000.0).act())
            await harness.obey(2, Order(Kind.CLOG, Key.PROCESS, "p0", clogged=1000.0).act())
            await harness.clogs_ended(at_once=True)

        harness, events = self.played(play)
        self.assertEqual(harness.done, [([1], True), ([1], False), ([2], True), ([2], False)])
        whats = [it["what"] for it in events]
        self.assertEqual(whats, ["order", "unclog", "order", "order", "unclog"])
        self.assertEqual(events[3]["rule"], ["NoGrant", 0])

    def test_a_clog_that_was_freed_does_not_end_the_next_one(self):
        clog = Order(Kind.CLOG, Key.PROCESS, "p1", clogged=0.05)

        async def play(harness):
            await harness.obey(1, clog.act())
            await harness.obey(1, clog._replace(frees=True).act())
            await harness.obey(1, clog._replace(clogged=1000.0).act())
            await asyncio.sleep(0.1)
            self.assertEqual(harness.done[-1], ([1], True))
            await harness.clogs_ended(at_once=True)

        harness, events = self.played(play)
        self.assertEqual(harness.done, [([1], True), ([1], False)] * 2)
        self.assertEqual([it.get("ordered", False) for it in events], [False, True, False, False])
        times = [order for _, order in read_orders(Path(self.folder, "events.jsonl"))]
        self.assertEqual([it.frees for it in times], [False, True, False])

    def test_what_others_are_answered_is_done_in_its_order(self):
        async def play(harness):
            guard, untold = harness.guard, []
            guard.others = lambda before=None: [untold.pop(0) for _ in untold[:]]
            untold.append(guard.act(2, EMPTY.act()))
            untold.append(guard.act(3, {"protect": {"process": 0, "kinds": ["Reboot"]}}))
            await harness.obey(1, Order(Kind.REBOOT, Key.PROCESS, "p2").act())
            untold.append(guard.act(2, Order(Kind.REBOOT, Key.PROCESS, "p1").act()))
            following = asyncio.ensure_future(harness.follow())
            while untold:
                await asyncio.sleep(0.01)
            following.cancel()

        harness, events = self.played(play)
        wanted = [([1], Kind.REBOOT_AND_DELETE), ([2], Kind.REBOOT), ([1], Kind.REBOOT)]
        self.assertEqual(harness.done, wanted)
        events = [it for it in events if it["what"] != "destroyed"]
        self.assertEqual([it["entry"] for it in events], [0, 1, 2, 3])
        self.assertEqual(events[1]["reply"], "done")

    def test_each_entry_is_told_in_its_order_before_anything_is_done(self):
        async def play(harness):
            guard, untold = harness.guard, []
            guard.others = lambda before=None: [untold.pop(0) for _ in untold[:]]
            await harness.obey(1, EMPTY.act())
            untold.append(guard.act(2, EMPTY._replace(value="p2").act()))
            harness.tell_up(0)  # a report waits for nobody
            self.assertEqual(len(harness.done), 1)
            await harness.obey(1, Order(Kind.REBOOT, Key.PROCESS, "p0").act())

        emptied, reboot = Kind.REBOOT_AND_DELETE, Kind.REBOOT
        for unguarded, does in ((False, reboot), (True, emptied)):
            harness, _ = self.played(play, unguarded=unguarded)
            answers = [(0, emptied, 0), (1, does, 1), (2, None, 1), (3, reboot, 1)]
            self.assertEqual(harness.answers, answers)
            self.assertEqual(harness.done, [([1], emptied), ([2], does), ([0], reboot)])

    def test_reports(self):
        async def play(harness):
            await harness.obey(1, EMPTY.act())
            harness.tell_up(1)
            self.assertEqual(harness.ledger.due(1), 0)
            harness.tell_healed(1)
            harness.tell_ended(1, "crashed")

        harness, events = self.played(play)
        whats = ["order", "destroyed", "up", "heal", "crashed"]
        self.assertEqual([it["what"] for it in events], whats)
        self.assertEqual([it["reply"] for it in events[2:4]], ["done", "done"])
        self.assertEqual(events[4]["reply"]["verdict"]["struck"], "Reboot")
        self.assertEqual((harness.up, harness.ledger.able), (set(), {0, 1, 2}))
        self.assertEqual(len(harness.orders), 1)

    def test_orders_are_read_again_from_the_events(self):
        self.played(self.two_emptied)
        path = Path(self.folder, "events.jsonl")
        orders = [order for _, order in read_orders(path)]
        self.assertEqual(orders, [EMPTY, EMPTY._replace(value="p2")])
        for wrong in ("rubbish", "[]", '{"what":"order","order":"Reboot","key":"processid"}'):
            path.write_text('{"what":"ready"}\n' + wrong)
            with self.assertRaises(faultyard.InvalidAct) as caught:
                list(read_orders(path))
            self.assertIn("line 2 is no event", str(caught.exception))
