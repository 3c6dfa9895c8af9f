"""Words, plans and checks of the library through ctypes; tests/swarm/run has other words."""

import importlib.util
import json
import subprocess
import sys
import unittest
from argparse import Namespace
from importlib.machinery import SourceFileLoader

import common
import faultyard
from faultyard import Check, ClusterFile, Guard, Key, Kind, Plan, library

THREE = common.ROOT / "tests/nemesis/three.toml"


def swarm():
    """tests/swarm/run, which draws words and plans by a ChaCha of its own."""
    loader = SourceFileLoader("swarm", str(common.ROOT / "tests/swarm/run"))
    module = importlib.util.module_from_spec(importlib.util.spec_from_loader("swarm", loader))
    loader.exec_module(module)
    return module


@unittest.skipUnless(common.LIBRARY, common.WITHOUT)
class Plans(common.Folder, unittest.TestCase):
    def guard(self):
        return Guard(common.SIX, transport="library")

    @common.needs_toml("words and plans of a swarm")
    def test_words_and_plans_are_those_of_a_swarm(self):
        import tomllib

        its = swarm()
        processes = tomllib.loads(common.SIX.read_text())["process"]
        with self.guard() as guard:
            for seed in (*range(20), 2**64 - 1):
                drawn = library.words(seed, 2, 12)
                self.assertEqual(drawn, its.words(seed, 2, 12))
                self.assertEqual(guard.swizzle_plan(seed, 2), its.swizzle(drawn, processes))
                self.assertEqual(guard.attrition_plan(seed, 2), its.attrition(drawn, processes))
            self.assertEqual(guard.journal_len(), 0)
        self.assertEqual(library.words(0, 0, 0), [])

    def test_a_plan_is_made_by_its_acts(self):
        with self.guard() as guard:
            asked = {"kind": Kind.REBOOT_AND_DELETE, "floor": Kind.REBOOT_PROCESS, "tear": 5}
            plan = guard.attrition_plan(7, 1, to_kill=6, to_leave=0, **asked)
            for act in [*guard.swizzle_plan(7, 1, 3), *plan]:
                self.assertEqual(guard.act(1, act).act, act)
            self.assertEqual(len(plan), 6)
        count = guard.journal_len()
        self.assertGreater(count, 6)
        self.assertEqual(faultyard.check(common.SIX, guard.audit()), count)

    def test_a_plan_of_many_orders(self):
        processes = "".join(
            f'{{processid = "p{at}", machineid = "m{at}", zoneid = "z"}},' for at in range(200)
        )
        text = f'journal_limit = 9\npolicies = ["One()"]\nprocess = [{processes}]\n'
        text += 'actor = [{role = "fault"}]\n'
        config = common.written(self.folder, "many.toml", text)
        with Guard(config, transport="library") as guard:
            plan = guard.attrition_plan(1, 0, to_kill=150)
        self.assertEqual(len({act["kill"]["value"] for act in plan}), 150)

    def test_what_is_no_plan(self):
        with self.guard() as guard:
            asks = [
                lambda: guard.swizzle_plan(-1, 0),
                lambda: guard.swizzle_plan(0, 2**64),
                lambda: guard.swizzle_plan(0, 0, "1"),
                lambda: guard.attrition_plan(0, 0, to_kill=2**32),
                lambda: guard.attrition_plan(0, 0, kind=Kind.CLOG),
                lambda: guard.attrition_plan(0, 0, floor=Kind.KILL_INSTANTLY, kind=Kind.REBOOT),
                lambda: library.words(0, 0, -1),
            ]
            for ask in asks:
                self.assertRaises(faultyard.InvalidAct, ask)
        self.assertRaises(faultyard.GuardClosed, guard.swizzle_plan, 0, 0)
        self.assertRaises(faultyard.GuardClosed, guard.attrition_plan, 0, 0)

    def test_over_the_pipe_the_library_draws_the_same(self):
        asks = [
            lambda guard: guard.swizzle_plan(7, 1),
            lambda guard: guard.attrition_plan(7, 1),
            lambda guard: guard.plan_orders(Plan.MIXED, 7, 1, 9),
        ]
        with Guard(common.SIX) as pipe, self.guard() as guard:
            pipe.kill(Key.ZONE, "z0", Kind.KILL_INSTANTLY, by=1)
            for ask in asks:
                self.assertEqual(ask(pipe), ask(guard))
            self.assertEqual(pipe.journal_len(), 1)
        with Guard(common.SIX, library="/none/libfaultyard.so") as guard:
            for ask in asks:
                self.assertRaises(faultyard.NotFound, ask, guard)

    def alone(self):
        """A cluster whose one actor is a fault actor, which so takes each turn of a simulation."""
        text = common.SIX.read_text()
        actors = text[text.index("actor = [") :]
        actors = actors[: actors.index("\n]") + 2]
        return common.written(
            self.folder, "alone.toml", text.replace(actors, 'actor = [{role = "fault"}]')
        )

    def simulated(self, config, plan, seed):
        """The acts of a simulation, of which those of a plan are kills, clogs and their ends."""
        asked = ["simulate", config, "--plan", plan.value, "--seed", str(seed), "--acts", "300"]
        told = subprocess.run([common.PROGRAM, *asked], capture_output=True, check=True)
        acts = [json.loads(line)["act"] for line in told.stdout.splitlines()[1:]]
        return [act if {"kill", "clog", "unclog"} & set(act) else None for act in acts]

    def test_a_seed_has_the_same_orders_in_a_simulation(self):
        config = self.alone()
        with Guard(config, transport="library") as guard:
            for plan in Plan:
                for seed in (0, 7, 2**64 - 1):
                    orders = guard.plan_orders(plan, seed, 0, 300)
                    self.assertEqual(orders, self.simulated(config, plan, seed), (plan, seed))
                    self.assertEqual(guard.plan_orders(plan, seed, 0, 9), orders[:9])
            self.assertNotEqual(
                guard.plan_orders(Plan.MIXED, 7, 0, 9), guard.plan_orders(Plan.MIXED, 7, 1, 9)
            )
            self.assertEqual(guard.plan_orders(Plan.MIXED, 7, 0, 0), [])
            self.assertEqual(guard.journal_len(), 0)
            for asked in ((-1, 0, 1), (0, 2**32, 1), (0, 0, -1), (2**64, 0, 1)):
                with self.assertRaises(faultyard.InvalidAct):
                    guard.plan_orders(Plan.MIXED, *asked)
        self.assertRaises(faultyard.GuardClosed, guard.plan_orders, Plan.MIXED, 0, 0, 1)

    def can_be_done(self, act):
        """Whether an act orders what can be done to the three servers of THREE."""
        ((name, members),) = act.items()
        is_there = members.get("value", "nowhere")[1:] in ("0", "1", "2")
        return name in ("kill", "clog", "unclog") and is_there and members.get("ticks", 0) < 2**41

    @common.needs_toml("the orders of faultyard-nemesis")
    def test_the_nemesis_makes_the_orders_of_a_simulation(self):
        sys.path.append(str(common.ROOT / "tools"))
        self.addCleanup(sys.path.pop)
        from nemesis.orders import Orders

        file, fault = ClusterFile.read(THREE), 1
        given = {"config": THREE, "replay": None, "check_hooks": False, "pauses": None}
        given.update(seed=7, tear="draw", seconds=90.0, disks=None, damage=None, beside=[])
        for plan in Plan:
            orders = Orders(Namespace(plan=plan.value, kinds=None, **given), file, fault)
            self.assertEqual(
                orders.whose,
                f"those of actor 1 in faultyard simulate --plan {plan.value} --seed 7",
            )
            asked = ["simulate", THREE, "--plan", plan.value, "--seed", "7", "--acts", "20000"]
            told = subprocess.run([common.PROGRAM, *asked], capture_output=True, check=True)
            entries = [json.loads(line) for line in told.stdout.splitlines()[1:]]
            acts = [entry["act"] for entry in entries if entry["by"] == fault]
            wanted = [act for act in acts if self.can_be_done(act)]
            made = [order.act() for _, order in orders.timed]
            self.assertGreater(len(made), 30)
            self.assertEqual(made, wanted[: len(made)], plan)
            if plan is not Plan.ROLLING:
                diced = Orders(Namespace(plan=plan.value, kinds=[1.0] * 5, **given), file, fault)
                self.assertEqual(diced.whose, "drawn by this tool's own dice")

    def test_each_process_is_rolled_in_turn(self):
        with self.guard() as guard:
            orders = guard.plan_orders(Plan.ROLLING, 7, 1, 19)
        kinds = ["RebootProcess", "Reboot", "RebootAndDelete", "RebootProcess"]
        wanted = [(f"p{at % 6}", kinds[at // 6]) for at in range(19)]
        kills = [order["kill"] for order in orders]
        self.assertEqual([(kill["value"], kill["kind"]) for kill in kills], wanted)


@unittest.skipUnless(common.LIBRARY, common.WITHOUT)
class Checks(common.Folder, unittest.TestCase):
    def lines(self):
        """The lines of an audit whose second kill is lessened to a reboot."""
        with Guard(common.SIX) as guard:
            for zone in ("z0", "z1"):
                guard.kill(Key.ZONE, zone, Kind.KILL_INSTANTLY, by=1, floor=Kind.REBOOT)
        return guard.audit().splitlines(keepends=True)

    def fault(self, check, line):
        with self.assertRaises(faultyard.AuditRefused) as caught:
            check.line(line)
        return caught.exception.fault

    def test_the_audit_of_a_guard_is_legal(self):
        with Check(common.SIX) as check:
            for line in self.lines():
                self.assertIsNone(check.line(line))
            self.assertEqual(check.finding(), faultyard.Finding(2, None))
        self.assertRaises(faultyard.GuardClosed, check.line, common.HEADER)
        self.assertRaises(faultyard.GuardClosed, check.finding)
        check.close()

    def test_a_reply_that_goes_too_far_is_the_first_bad_one(self):
        header, first, second = self.lines()
        with Check(common.SIX) as check:
            self.assertIsNone(check.line(header.encode()))
            self.assertIsNone(check.line(first))
            bad = second.replace('"struck":"Reboot"', '"struck":"KillInstantly"')
            self.assertNotEqual(bad, second)
            self.assertEqual(check.line(bad), 1)
            self.assertEqual(check.finding(), faultyard.Finding(2, 1))

    def test_a_faulty_line_is_told_by_the_fault_line_of_check(self):
        header, first, second = self.lines()
        with Check(common.SIX) as check:
            self.assertEqual(self.fault(check, '{"audit":3}\n'), "audit: line 1: Header")
            with self.assertRaises(faultyard.AuditRefused) as caught:
                check.finding()
            self.assertEqual(caught.exception.fault, "audit: line 1: Header")
            self.assertIsNone(check.line(header))
            self.assertEqual(self.fault(check, second), "audit: line 2: Syntax")
            self.assertEqual(self.fault(check, b" " * 65_537), "audit: line 2: TooLong")
            self.assertIsNone(check.line(first))
            for line in ("", "\n", first, second.rstrip("\n"), second + first):
                self.assertEqual(self.fault(check, line), "audit: line 3: Syntax")
            self.assertIsNone(check.line(second))

    def test_too_many_bytes(self):
        front = '{"act":{"begin":{"payload":"' + "a" * 65_000
        with Check(common.SIX) as check:
            check.line(common.HEADER)
            length = len(common.HEADER)
            for at in range(5000):
                back = f'","team":0}}}},"at":{at},"by":9,"reply":{{"no":["NoTeam"]}}}}\n'
                line = (front + back).encode()
                length += len(line)
                if length > 268_435_456:
                    self.assertEqual(self.fault(check, line), "audit: TooLong")
                    self.assertEqual(check.finding(), faultyard.Finding(at, 0))
                    return
                self.assertEqual(check.line(line), 0)
            self.fail("there was no end")

    def test_a_refused_cluster_file_has_its_fault_line(self):
        for line, path in common.refused_files(self.folder).items():
            with self.assertRaises(faultyard.ConfigRefused) as caught:
                Check(path)
            self.assertEqual(caught.exception.fault, line)
