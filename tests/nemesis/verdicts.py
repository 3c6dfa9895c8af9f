"""What becomes of each record, and whose fault it is said to be: verdicts, cases and their words.

Runs of stores for each verdict, in virtual time, and verdicts that are written out by hand.
Expected are the definitions of docs/NEMESIS.md. All that a test says of a verdict's words stands
in this file.
"""

import asyncio
import unittest

from faultyard.history import Operation
from faultyard.ledger import Heal, Loss, Record
from lab import Case, Ran, ran
from nemesis.evidence import Case as Evidence
from nemesis.evidence import Course, Left, unwritten
from toy import Call, Denies, Drops, Forgetful, Hole, Invents, Lags, Partial, Quorum, Refuses
from toy import Shy, Toy, Twice, Unsynced, Wrong, ends, is_nth

READERS = "start ready whole write read check salvage"
KEY, VALUE = "r/000000001", "a"


class Stores(Case):
    """A store for each verdict."""

    CALM = ("--hook-timeout", 2, "--seconds", 2, "--quiet")
    is_shown = False

    def judged(
        self, toy: Toy, status: int, *words: object, **counts: int
    ) -> tuple[Ran, list[dict[str, object]]]:
        """A run of a store, and its cases; the counts that aren't given have to be 0."""
        it = self.ran(*self.CALM, *words, toy=toy, status=status)
        self.assertGreater(it.acked, 30)
        if counts:
            names = ("kept", "lost", "missing", "stale", "unreadable", "wrong")
            none = dict.fromkeys(names, 0)
            self.assertEqual(it.counts, none | counts)
        return it, it.lines("records.jsonl")

    def nth(self, toy: Toy, every: int) -> list[str]:
        """Keys of each so-manyth of the acknowledged records."""
        return sorted(key for key in toy.acked if is_nth(key, every))

    def test_kept(self):
        given = self.given((0.5, "p1", "RebootAndDelete"), (1, "p2", "Reboot"))
        toy = Toy(listed=f"{READERS} fresh")
        it, cases = self.judged(toy, 0, *given, "--seconds", 4)
        self.assertEqual(it.counts["kept"], len(toy.acked))
        self.assertEqual(sum(it.counts.values()), len(toy.acked))
        self.assertEqual(cases, [])
        reads = it.operations("read", "ok")
        self.assertEqual({line["node"] for line in reads}, {None, 0, 1, 2})
        for node in (0, 1, 2):  # each was asked for each record at the end
            told = {tuple(line["value"]) for line in reads if line["node"] == node}
            self.assertGreaterEqual(told, set(toy.acked.items()))

    def test_a_write_that_was_refused_and_done_is_never_wrong(self):
        toy = Toy(0, Refuses(3), listed=READERS)
        it, cases = self.judged(toy, 0, *self.given())
        self.assertEqual(it.counts["kept"], len(toy.acked))
        refused = [line for line in it.operations("write", "info") if line.get("error") == "no"]
        self.assertGreater(len(refused), 10)
        self.assertEqual(cases, [])

    def test_stale(self):
        listed = f"{READERS} fresh"
        it, cases = self.judged(Toy(0, Lags(0.5), listed=listed), 7, *self.given())
        self.assertGreater(it.counts["stale"], 0)
        self.assertEqual(it.counts["kept"] + it.counts["stale"], it.acked)
        self.assertEqual({case["verdict"] for case in cases}, {"stale"})
        self.assertTrue(all(0 <= case["stale"]["seconds"] <= 0.5 for case in cases))
        text = r"stale: \d+ records, the longest r/\d+: p\d lacked it after 0.\d+ s"
        self.assertRegex(it.told, f"{text}, though the hooks promise fresh\n")
        it, _ = self.judged(Toy(0, Lags(0.5), listed=READERS), 0, *self.given())
        self.assertRegex(it.told, f"{text}\n")

    def test_one_process_that_lags_makes_records_stale(self):
        toy = Toy(0, Lags(0.3, 1), listed=READERS)
        it, cases = self.judged(toy, 0, *self.given())
        self.assertGreater(it.counts["stale"], 0)
        self.assertEqual({case["stale"]["process"] for case in cases}, {"p1"})

    def test_a_process_that_lags_at_the_end_has_lost_nothing(self):
        """It is asked for more records than it can tell in time, and each that it lacked is asked
        for again."""
        toy = Toy(0, Shy(0.2), listed=READERS)
        it, _ = self.judged(toy, 0, *self.given(), "--seconds", 6, "--readers", 0)
        self.assertEqual((it.counts["lost"], it.counts["kept"] + it.counts["stale"]), (0, it.acked))
        self.assertGreater(it.counts["stale"], 10)
        text = r"answered for (\d+) of (\d+) records in at most [\d.]+ s, not for the others\n"
        self.assertRegex(it.told, rf"\nat the end `check` of p1 {text}")
        found = [line.split() for line in it.told.splitlines() if "answered for" in line]
        for *_, answered, _, asked in (line[: line.index("records")] for line in found):
            self.assertTrue(10 < int(answered) < int(asked) == it.acked)

    def test_missing_where_one_process_alone_lacks_it(self):
        toy = Toy(0, Hole(1, 7), listed=READERS)
        it, cases = self.judged(toy, 9, *self.given())
        self.assertEqual(it.counts["missing"], len(self.nth(toy, 7)))
        self.assertEqual(it.counts["kept"] + it.counts["missing"], len(toy.acked))
        self.assertEqual(sorted(case["key"] for case in cases), self.nth(toy, 7))
        self.assertEqual({case["verdict"] for case in cases}, {"missing"})
        for case in cases:
            self.assertIn("check", case["lacks"]["p1"])
            self.assertIn("check", case["holds"]["p0"])
        self.assertIn("p1 lacks it by `check`", it.told)
        self.assertIn("and p0 p2 has it: the store lost it there", it.told)

    def test_lost_where_no_disk_has_it(self):
        """The writes are answered, and never stored."""
        toy = Toy(0, Drops(1), listed=READERS)
        it, cases = self.judged(toy, 1, *self.given())
        self.assertEqual(it.counts["lost"], len(toy.acked))
        known = "one of p0 p1 p2 held it and was never destroyed since, and none has it"
        self.assertEqual({case["fault"] for case in cases}, {f"{known}: the store lost it"})
        lacks = {name: ["check", "salvage"] for name in ("p0", "p1", "p2")}
        self.assertEqual(cases[0]["lacks"], lacks)

    def test_unreadable_and_what_the_disks_settle(self):
        """Two of three are killed for good beyond the guard, so that `read` has no quorum."""
        given = self.given((1, "p0", "KillInstantly"), (1.2, "p1", "KillInstantly"))
        words = (*given, "--unguarded")
        it, cases = self.judged(Toy(0, Quorum()), 6, *words)
        self.assertEqual(it.counts["unreadable"], it.acked)
        self.assertEqual({case["verdict"] for case in cases}, {"unreadable"})
        self.assertEqual({case["fault"][:7] for case in cases}, {"unknown"})
        self.assertNotIn("lost:", it.told)
        toy = Toy(0, Quorum(), listed="start ready whole write read salvage")
        it, cases = self.judged(toy, 1, *words)
        self.assertNotIn("was healed", it.told)
        lost = toy.acked.keys() - toy.disk(2).keys()
        self.assertTrue(lost)
        self.assertEqual({case["key"] for case in cases}, lost)
        self.assertEqual(it.counts["lost"], len(lost))
        self.assertEqual(it.counts["kept"], len(toy.acked) - len(lost))
        self.assertFalse((it.out / "salvage").exists())

    def test_the_files_settle_what_salvage_does_not_tell(self):
        """Two of three are killed for good, and `salvage` of the third, which loses its first
        record, fails or tells some."""
        given = self.given((3, "p0", "KillInstantly"), (3.2, "p1", "KillInstantly"))
        words = (*given, "--unguarded", "--seconds", 4)
        for name in ("none", "plain", "some"):
            with self.subTest(name):
                listed = f"start ready whole write read salvage {'plain' * (name != 'none')}"
                toy = Toy(0, Quorum(), listed=listed)
                toy.own["salvage"] = self.salvage(toy, 3 if name == "some" else None)
                it, cases = self.judged(toy, 6 if name == "none" else 1, *words)
                if name == "none":
                    self.assertEqual(it.counts["unreadable"], it.acked)
                    continue
                disk = toy.disk(2)
                off = toy.acked.keys() - disk.keys()
                self.assertTrue(off)
                lost = [case for case in cases if case["verdict"] == "lost"]
                self.assertEqual({case["key"] for case in lost}, off)
                lacks = {"p0": ["salvage"], "p1": ["salvage"], "p2": ["files"]}
                for case in lost:
                    self.assertEqual(case["lacks"], lacks)
                kept = 3 if name == "some" else 0
                unreadable = len(toy.acked) - len(off) - kept
                counts = (it.counts["kept"], it.counts["lost"], it.counts["unreadable"])
                self.assertEqual(counts, (kept, len(off), unreadable))
                have = f"{len(toy.acked) - len(off)} of {len(toy.acked)} records"
                self.assertIn(f"\nthe files of p2 have something of {have}\n", it.told)

    def salvage(self, toy: Toy, most: int | None):
        """A hook that loses the first record, and then fails, or tells the next few and that there
        are more."""

        async def salvage(call: Call) -> int:
            for folder in (toy.folder / "2", call.env["FY_COPY"]):
                log = type(toy.folder)(folder, "log")
                _, *lines = log.read_text().splitlines(keepends=True)
                log.write_text("".join(lines))
            if most is None:
                return 1
            told = [line.strip() for line in lines if line.split()[0] in toy.acked][:most]
            for line in [*told, "? ?"]:
                call.print(line)
            return 0

        return salvage

    def test_wrong_values(self):
        toy = Toy(0, Wrong(9), listed=READERS)
        it, cases = self.judged(toy, 8, *self.given())
        found = {case["key"] for case in cases}
        sent = {line["value"][0] for line in it.operations("write", "invoke")}
        self.assertLessEqual({*self.nth(toy, 9)}, found)
        # the last of them may have been sent, and not acknowledged in time
        self.assertLessEqual(found, {key for key in sent if is_nth(key, 9)})
        for case in cases:
            if case["verdict"] == "wrong":
                self.assertEqual(case["told"], case["value"][::-1])
        verdicts = [case["verdict"] for case in cases]
        self.assertEqual(verdicts.count("wrong"), it.counts["wrong"])
        self.assertLessEqual({*verdicts}, {"wrong", "unwritten"})
        self.assertEqual(it.counts["lost"], 0)

    def test_a_record_that_nobody_wrote(self):
        toy = Toy(0, Invents(), listed=READERS)
        it, cases = self.judged(toy, 8, *self.given())
        self.assertEqual((it.counts["kept"], it.counts["wrong"]), (len(toy.acked), 0))
        self.assertIn("\n1 keys were read with a value that nobody wrote there\n", it.told)
        self.assertEqual(cases[0]["fault"], "`read` told abc, and nobody wrote that key")

    def test_a_key_that_is_told_twice_is_kept_where_its_values_are_one(self):
        toy = Toy(0, Twice(5), listed=READERS)
        it, _ = self.judged(toy, 0, *self.given())
        self.assertEqual(it.counts["kept"], len(toy.acked))
        toy = Toy(0, Twice(5, "f" * 16), listed=READERS)
        it, cases = self.judged(toy, 8, *self.given())
        wrong = [case for case in cases if case["verdict"] == "wrong"]
        self.assertEqual(it.counts["wrong"], len(wrong))
        self.assertLessEqual({*self.nth(toy, 5)}, {case["key"] for case in cases})

    def test_a_read_that_lies_is_not_blamed_on_the_store_alone(self):
        toy = Toy(0, Partial(5), listed=READERS)
        it, cases = self.judged(toy, 1, *self.given())
        self.assertEqual(sorted(case["key"] for case in cases), self.nth(toy, 5))
        fault = "`read` lacks it, and p0 p1 p2 told it by `check`: `read` or the store is wrong"
        self.assertEqual({case["fault"] for case in cases}, {fault})

    def test_a_check_that_lies_is_not_blamed_on_the_store_alone(self):
        toy = Toy(0, Denies(2), listed=READERS)
        it, cases = self.judged(toy, 9, *self.given())
        self.assertEqual(it.counts["missing"], len(toy.acked))
        end = "the store lost it there, or `check` is wrong"
        for case in cases:
            self.assertIn("check", case["lacks"]["p2"])
            self.assertTrue(case["fault"].endswith(end), case["fault"])

    def test_a_store_that_acknowledges_before_it_syncs(self):
        for seed in range(1, 9):
            it = self.tried(seed)
            if it.status:
                break
        lost = it.lines("lost.jsonl")
        self.assertIn(
            f" {len(lost)} lost, 0 missing, 0 stale, 0 unreadable, 0 wrong; audit legal", it.told
        )
        when = f"acknowledged at {lost[0]['t']:.2f} s before entry {lost[0]['entry']}: "
        self.assertRegex(it.told, f"lost: {lost[0]['key']}( and \\d+ more)?, {when}")

    def tried(self, seed: int) -> Ran:
        words = ("--seed", seed, "--seconds", 8, "--pauses", 0.2, "--quiet")
        return ran(Toy(seed, Unsynced(), pace=0.02), self.room / str(seed), *words)

    def test_emptied_servers_that_are_never_filled(self):
        given = self.given(
            (3, "p0", "RebootAndDelete"),
            (7, "p1", "RebootAndDelete"),
            (11, "p2", "RebootAndDelete"),
        )
        it = self.ran("--seconds", 13, *given, toy=Toy(0, Forgetful()), status=1)
        lost, healed = it.lines("lost.jsonl"), it.events("heal")
        names = " ".join(f"p{event['process']}" for event in healed)
        *first, last = (str(event["entry"]) for event in healed)
        blamed = f"{names} were healed by entries {', '.join(first)} and {last}: `whole` was wrong"
        self.assertIn(f"lost: {lost[0]['key']} and ", it.told)
        self.assertIn(f" before entry 0: {blamed}", it.told)

    def test_read_hangs_or_fails(self):
        """No record has a verdict, and nobody is blamed."""
        for hook, status, said in ((None, 3, "hung"), (ends(5), 6, "ended with status 5")):
            toy = Toy()

            async def hangs(call: Call) -> int:
                await asyncio.sleep(1e4)
                return 0

            toy.own["read"] = hook or hangs
            it = self.ran("--seconds", 3, "--hook-timeout", 2, toy=toy, status=status)
            self.assertIn(f"nothing could be read in 12 seconds: read {said}", it.told)
            counts = it.counts
            found = (counts["kept"], counts["lost"], counts["unreadable"])
            self.assertEqual(found, (0, 0, len(toy.acked)))
            self.assertNotIn("lost:", it.told)
            self.assertFalse((it.out / "lost.jsonl").exists())


def write(key=KEY, value=VALUE, began=0, ended=10, type="ok"):
    return Operation(0, "write", key, value, began, ended, type)


def read(value, began, key=KEY, node=0):
    return Operation(1, "read", key, value, began, began + 1, "ok", node=node)


class Unwritten(unittest.TestCase):
    def test_unwritten_are_keys_and_values_that_nobody_wrote(self):
        writes = {KEY: [write()], "r/000000002": [write("r/000000002", "b", type="info")]}
        right = [
            read(VALUE, 1),
            read(None, 2),
            read("b", 3, "r/000000002"),
            read("yes", 4, "ready"),
        ]
        self.assertEqual(unwritten(set(), writes, right), [])
        faulty = [
            read("b", 5),
            read("x", 6, "r/000000002"),
            read("y", 7, "r/9"),
            read("z", 8, "r/9"),
        ]
        self.assertEqual(unwritten(set(), writes, right + faulty), faulty[:3])
        self.assertEqual(unwritten({KEY}, writes, right + faulty), faulty[1:3])

    def test_writes_of_a_key_are_gone_through_once(self):
        """Some key may be written and read all the time."""

        class Counted(list):
            times = 0

            def __iter__(self):
                self.times += 1
                return super().__iter__()

        its = Counted([write()])
        self.assertEqual(unwritten(set(), {KEY: its}, [read(VALUE, n) for n in range(9)]), [])
        self.assertEqual(its.times, 1)


class Cases(unittest.TestCase):
    """Five processes, and a record that was acknowledged at second 5, before entry 6."""

    def case(
        self,
        verdict,
        left=Left(),
        losses=(),
        heals=(),
        orders=(),
        able=range(5),
        is_fresh=False,
        lines=(),
        **judged,
    ):
        course = Course(
            [f"k{number}" for number in range(5)],
            orders,
            [Loss(process, t, entry, 0) for process, t, entry in losses],
            [Heal(process, t, entry) for process, t, entry in heals],
            left,
            is_fresh,
            [{"node": node} for node in lines],
        )
        its = {"acked": 9, "at": 5_000_000_000, "entry": 6, "fault": None, "key": KEY}
        its |= {"value": VALUE, "verdict": verdict} | judged
        return Evidence(its, 4_900_000_000, Record(VALUE, 5.0, 6, tuple(able)), course)

    def lost(self, fault, *more, destroyed=(), disks=(), tells=(), read=20, **others):
        evidence = {"destroyed": [*destroyed], "disks": [*disks], "tells": [*tells]}
        return self.case("lost", *more, fault=fault, read=read, **evidence, **others)

    def disks(self, *having, unknown=()):
        return {n: None if n in unknown else {KEY: VALUE} if n in having else {} for n in range(5)}

    def test_the_store_lost_what_somebody_held_who_was_never_destroyed(self):
        case = self.lost("store", losses=[(2, 6.0, 18), (3, 7.0, 20)], destroyed=[2, 3])
        fault = "one of k0 k1 k4 held it and was never destroyed since: the store lost it"
        self.assertEqual(case.fault(), fault)
        line = case.line()
        self.assertEqual((line["sent"], line["acked"], line["entry"]), (4.9, 5.0, 6))
        self.assertEqual(line["never_destroyed"], ["k0", "k1", "k4"])
        self.assertEqual(line["destroyed"], {"k2": [18], "k3": [20]})
        self.assertEqual((line["holds"], line["lacks"]), ({}, {}))

    def test_none_of_those_who_were_never_destroyed_has_it(self):
        case = self.lost("store", Left(disks=self.disks()), destroyed=[2, 3])
        text = "one of k0 k1 k4 held it and was never destroyed since, and none has it"
        self.assertEqual(case.fault(), f"{text}: the store lost it")
        self.assertEqual(case.line()["lacks"], {f"k{n}": ["salvage"] for n in range(5)})
        alone = self.lost("store", Left(disks=self.disks(unknown=[4])), destroyed=range(4))
        self.assertEqual(
            alone.fault(), "k4 held it and was never destroyed since: the store lost it"
        )

    def test_one_was_healed_and_lacks_it(self):
        heals = {"store_or_whole": [[0, 9], [1, 11], [0, 14]]}
        fault = "k0 k1 were healed by entries 9, 11 and 14: `whole` was wrong, or the store lost it"
        self.assertEqual(self.lost(heals).fault(), fault)
        fault = "k3 was healed by entry 9: `whole` was wrong, or the store lost it"
        self.assertEqual(self.lost({"store_or_whole": [[3, 9]]}).fault(), fault)

    def test_beyond_the_guard(self):
        losses, fault = [(2, 6.0, 7), (3, 6.0, 7)], {"beyond": 7}
        text = "beyond the guard since entry 7, which destroyed"
        case = self.lost(fault, losses=losses)
        self.assertEqual(case.fault(), f"{text} k2 k3 who could hold it")
        case = self.lost(fault, losses=losses, able=(0, 3))
        self.assertEqual(case.fault(), f"{text} k3 who could hold it")
        case = self.lost(fault, Left(disks=self.disks(4)), losses=losses)
        self.assertTrue(case.fault().endswith("; k4 has it"))
        self.assertEqual(self.lost({"beyond": 2}).fault(), "beyond the guard since entry 2")

    def test_nobody_is_blamed_where_some_have_it(self):
        case = self.lost("nobody", tells=[0, 2], disks=[0])
        fault = "`read` lacks it, and k0 k2 told it by `check`: `read` or the store is wrong"
        self.assertEqual(case.fault(), fault)
        case = self.lost("nobody", disks=[4])
        fault = "`read` lacks it, and the disk of k4 has it: does the store serve it?"
        self.assertEqual(case.fault(), fault)
        left = Left({1: {KEY: None}, 2: {KEY: VALUE}})
        case = self.lost("nobody", left, read=None, tells=[2])
        fault = "k1 lacks it by `check`, and `read` had no answer; k2 told it"
        self.assertEqual(case.fault(), fault)
        case = self.lost("nobody", Left({1: {KEY: None}}), read=None)
        self.assertEqual(case.fault(), "k1 lacks it by `check`, and `read` had no answer")

    def test_a_process_alone_lacks_it(self):
        left = Left({0: {KEY: VALUE}, 2: {KEY: None}}, self.disks(0, 2))
        case = self.case("missing", left, lacks=[[2, 20]], disks=[0, 2])
        text = "k2 lacks it by `check`, though the disk of k2 has it, and k0 has it"
        self.assertEqual(case.fault(), f"{text}: the store lost it there, or `check` is wrong")
        line = case.line()
        self.assertEqual(line["holds"], {"k0": ["check", "salvage"], "k2": ["salvage"]})
        self.assertEqual(line["lacks"]["k2"], ["check"])
        heals = {"losses": [(2, 6.0, 7)], "heals": [(2, 7.0, 9)]}
        case = self.case("missing", Left(), lacks=[[2, 20]], disks=[], **heals)
        text = "k2 lacks it by `check`; k2 was healed by entry 9"
        self.assertEqual(case.fault(), f"{text}: `whole` was wrong, or the store lost it")

    def test_unknown_disks_are_said_to_be_unknown(self):
        text = "unknown: no read told it at the end, and whether the disk of"
        case = self.case("unreadable", Left(disks=self.disks(unknown=[3])))
        self.assertEqual(case.fault(), f"{text} k3 has it is unknown")
        left = Left({}, self.disks(unknown=[3]) | {4: {"?": "?"}}, {3: set(), 4: {KEY}})
        case = self.case("unreadable", left)
        self.assertEqual(case.fault(), f"{text} k4 has it is unknown")
        lacks = {f"k{n}": ["salvage" if n < 3 else "files"] for n in range(4)}
        self.assertEqual(case.line()["lacks"], lacks)
        self.assertEqual(
            self.case("unreadable", Left({1: {KEY: None}})).fault(),
            f"{text} k0 k1 k2 k3 k4 has it is unknown",
        )

    def test_wrong(self):
        for node, who in ((1, "k1"), (None, "`read`")):
            case = self.case("wrong", lines=[0, node], read=1, told="b")
            self.assertEqual(case.fault(), f"{who} told b, and a was written")
            self.assertEqual(case.line()["told"], "b")

    def test_stale(self):
        its = {"lines": [0, 1], "read": 1, "after": 300_000_000}
        case = self.case("stale", **its)
        self.assertEqual(case.fault(), "k1 lacked it after 0.300 s")
        self.assertEqual(case.line()["stale"], {"process": "k1", "seconds": 0.3})
        fault = "k1 lacked it after 0.300 s, though the hooks promise fresh"
        self.assertEqual(self.case("stale", is_fresh=True, **its).fault(), fault)

    def test_orders_since_it_was_sent_are_told(self):
        orders = [
            {"entry": 4, "does": "Reboot", "beyond": False, "t": 4.0, "targets": [0]},
            {"entry": 5, "does": "Reboot", "beyond": False, "t": 4.95, "targets": [0, 1]},
            {"entry": 8, "does": None, "beyond": False, "t": 6.0, "targets": [0]},
            {"entry": 9, "does": "Clog", "beyond": False, "t": 7.0, "targets": [3, 4]},
        ]
        case = self.lost("store", orders=orders, able=(0, 2, 3))
        struck = [(it["entry"], it["processes"]) for it in case.line()["struck"]]
        self.assertEqual(struck, [(5, ["k0"]), (9, ["k3"])])
