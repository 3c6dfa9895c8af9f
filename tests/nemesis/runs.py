"""What a run does, in virtual time on a toy store: orders, the guard, who ends, the history, and
what it says of itself. Verdicts are tested in verdicts.py."""

import asyncio
import json
import os
import re
import signal
import subprocess
import sys
from collections import Counter

from lab import CLUSTER, HERE, ROOT, Case
from toy import (
    Call,
    Crashes,
    Forgetful,
    Idle,
    Lags,
    Partial,
    Stands,
    Toy,
    Twice,
    Unsynced,
    ends,
    hangs,
)

READERS = "start ready whole write read check salvage"


class Stores(Case):
    def test_a_right_store_loses_nothing(self) -> None:
        for plan in ("mixed", "attrition", "swizzle", "rolling"):
            with self.subTest(plan):
                words = ("--seed", 5, "--seconds", 7, "--plan", plan)
                it = self.ran(*words, toy=Toy(), keep=False, status=0)
                self.assertIn("guarded, seed 5:", it.told)
                entries, orders = it.audit(), it.orders()
                self.assertIn(f"audit legal {len(entries)}", it.told)
                self.assertTrue(orders)
                for order in orders:
                    act, reply = entries[order["entry"]]["act"], entries[order["entry"]]["reply"]
                    struck = reply["verdict"]["struck"] if "kill" in act else "Clog"
                    self.assertEqual((order["verdict"], order["does"]), (struck, struck))
                self.assertEqual(it.events("read")[0]["acked"], len(it.toy.acked))
                self.assertGreater(len(it.toy.acked), 100)
                picture = (it.out / "audit.svg").read_text()
                self.assertIn('data-micros="100000"', picture.split("\n")[0])
                self.assertNotIn('class="otherwise" data-entry', picture)
                self.assertFalse((it.out / "0").exists(), "data is kept though nothing was lost")

    def test_a_store_that_acknowledges_before_it_syncs_is_found(self) -> None:
        words = ("--seconds", 8, "--pauses", 0.2, "--quiet", "--seed")
        found = (self.tried(words, seed) for seed in range(1, 9))
        it = next(it for it in found if it.status)
        lost = it.lines("lost.jsonl")
        # What was written last was told, and isn't on the disks either, as the run ended.
        self.assertLessEqual({record["key"] for record in lost}, self.lacked(it))
        self.assertTrue(lost)
        self.assertTrue((it.out / "0").exists(), "the data of a run that lost records is gone")

    def tried(self, words, seed):
        """A run of a store that syncs too late: it loses records, or nothing."""
        try:
            return self.ran(
                *words, seed, toy=Toy(seed, Unsynced(), pace=0.02), keep=False, status=1
            )
        except self.failureException:
            return self.ran(
                *words, seed, toy=Toy(seed, Unsynced(), pace=0.02), keep=False, status=0
            )

    def lacked(self, it):
        """The acknowledged records that no disk has in the end."""
        disks = [it.toy.disk(number) for number in range(3)]
        return {key for key in it.toy.acked if not any(key in disk for disk in disks)}

    def test_emptied_servers_that_are_never_filled_lose_records(self) -> None:
        given = self.given(
            (3, "p0", "RebootAndDelete"),
            (7, "p1", "RebootAndDelete"),
            (11, "p2", "RebootAndDelete"),
        )
        it = self.ran("--seconds", 13, *given, toy=Toy(0, Forgetful()), status=1)
        lost = it.lines("lost.jsonl")
        first = {
            "able": ["p0", "p1", "p2"],
            "destroyed_by": [order["entry"] for order in it.orders()],
            "entry": 0,
        }
        self.assertEqual({name: lost[0][name] for name in first}, first)
        self.assertLess(lost[0]["t"], 3)
        self.assertEqual({record["key"] for record in lost}, self.lacked(it))

    def test_an_answer_that_is_older_than_what_was_healed_does_not_count(self) -> None:
        """The first writes are answered after 6 seconds, and were never stored. Where a server was
        destroyed and healed in between, it may have lost what it had of them, and nobody could know
        that it had to get it back.
        """

        def late() -> Toy:
            async def write(call: Call) -> int:
                await call.input.readline()
                await asyncio.sleep(6)
                call.print("ok 1")
                return await store.write(call)

            store = Toy()
            store.own["write"] = write
            return store

        given = self.given((0.5, "p1", "RebootAndDelete"))
        it = self.ran("--seconds", 9, *given, toy=late(), status=0)
        self.assertLess(it.events("heal")[0]["t"], 6)
        late_ones = [line for line in it.operations("write", "info") if line.get("error") == "late"]
        self.assertEqual(len(late_ones), 3)
        it = self.ran("--seconds", 9, *self.given(), toy=late(), status=1)
        self.assertEqual(len(it.lines("lost.jsonl")), 3)
        self.assertIn("; audit legal 0;", it.told)

    def test_unguarded_loses_and_names_the_first_order_beyond(self) -> None:
        words = ("--seed", 3, "--seconds", 8, "--plan", "attrition", "--unguarded")
        it = self.ran(*words, toy=Toy(), status=1)
        first = next(order for order in it.orders() if order.get("beyond"))
        self.assertNotEqual(first["does"], first["verdict"])
        self.assertTrue(all(order["does"] == order["order"] for order in it.orders()))
        beyond = f"beyond the guard first: entry {first['entry']}: the guard said"
        self.assertIn(f"{beyond} {first['verdict']}, ", it.told)
        picture = (it.out / "audit.svg").read_text()
        self.assertIn('data-micros="100000"', picture)
        red = set(re.findall(r'beyond" data-entry="(\d+)"', picture))
        self.assertEqual(red, {str(first["entry"])})
        otherwise = {order["entry"] for order in it.orders() if order["does"] != order["verdict"]}
        rings = {
            int(at) for at in re.findall(r'class="otherwise[^"]*" data-entry="(\d+)"', picture)
        }
        self.assertLessEqual(rings, otherwise)
        self.assertIn(first["entry"], rings)

    def test_unguarded_says_that_nothing_was_lost(self) -> None:
        given = self.given((0.5, "p1", "Reboot"))
        it = self.ran("--seconds", 2, *given, "--unguarded", toy=Toy(), status=0)
        self.assertIn("\ntested little: unguarded, and nothing was lost", it.told)
        it = self.ran("--seconds", 2, *given, toy=Toy(), status=0)
        self.assertNotIn("unguarded", it.told)

    def test_who_was_killed_for_good_is_not_struck_again(self) -> None:
        given = self.given(
            (0.5, "p1", "KillInstantly"), (1, "p1", "Reboot"), (1.5, "p2", "RebootProcess")
        )
        it = self.ran("--seconds", 3, *given, "--unguarded", toy=Toy(), status=0)
        self.assertEqual([order["value"] for order in it.orders()], ["p1", "p2"])
        self.assertNotIn("nobody", it.told)

    def test_a_seed_orders_the_same_again(self) -> None:
        """On a store that answers otherwise, too."""
        words = ("--seed", 11, "--seconds", 4, "--pauses", "0.1,0.3")
        orders = [
            [
                (order["order"], order["key"], order["value"])
                for order in self.ran(*words, toy=Toy(seed), status=0).orders()
            ]
            for seed in range(2)
        ]
        self.assertEqual(orders[0], orders[1])
        self.assertGreater(len(orders[0]), 5)

    def test_the_same_seeds_give_the_same_bytes(self) -> None:
        """Else a test that fails once couldn't be had again."""
        words = ("--seed", 4, "--seconds", 6, "--plan", "attrition", "--quiet")
        runs = [self.ran(*words, toy=Toy(9, listed=READERS), status=0) for _ in range(2)]
        for name in ("history.jsonl", "events.jsonl", "audit", "hooks.log"):
            one, other = ((it.out / name).read_bytes() for it in runs)
            self.assertTrue(one == other, name)


class Ends(Case):
    """Processes that end by themselves, and runs that are broken off."""

    def test_a_process_that_ends_by_itself_is_told(self) -> None:
        it = self.ran("--seconds", 8, *self.given(), toy=Toy(0, Crashes(0, 2.0)), status=0)
        found = it.events("ended")
        self.assertGreaterEqual(len(found), 2)
        for end in found:
            self.assertEqual((end["process"], end["status"]), (0, 3))
            self.assertEqual(end["log"][-1], "assertion failed: the sky is up")
        text = r"\d  p0 ended by itself, with status 3: assertion failed: the sky is up\n"
        self.assertRegex(it.told, text)
        up = sum(end["was_up"] for end in found)
        self.assertGreater(up, 0)
        counts = f"{up} times while it was up, {len(found) - up} times before"
        text = f"p0 ended by itself {counts}; last with status 3: assertion failed: the sky is up"
        self.assertIn(f"\n{text}\n", it.told)

    def test_a_process_that_is_struck_did_not_end_by_itself(self) -> None:
        given = self.given((0.5, "p0", "Reboot"), (1.5, "p1", "RebootAndDelete"))
        it = self.ran("--seconds", 3, *given, toy=Toy(), status=0)
        self.assertNotIn("by itself", it.told)

    def test_a_run_that_is_broken_off_tells_what_it_has(self) -> None:
        for number in (signal.SIGINT, signal.SIGTERM, signal.SIGHUP):
            given = self.given((0.5, "p1", "RebootAndDelete"))

            def later() -> None:
                asyncio.get_running_loop().call_later(9, os.kill, os.getpid(), number)

            store = Toy(0, Lags(0.5), listed=f"{READERS} fresh")
            words = ("--seconds", 60, *given)
            it = self.ran(*words, toy=store, during=later, status=128 + number)
            orders = "1 orders, 0 lessened, 0 barred; 1 destroying; 1 healed"
            self.assertIn(f"guarded, seed 1: {orders}", it.told)
            text = r"^(\d+) acknowledged so far, not read; audit legal \d+; "
            found = re.search(text, it.told, re.M)
            assert found
            self.assertEqual(int(found[1]), len(it.operations("write", "ok")))
            self.assertGreater(int(found[1]), 100)
            for name in ("picture.svg", "audit.svg"):
                self.assertIn("<svg", (it.out / name).read_text())
            self.assertNotIn("tested little", it.told)


class Stops(Case):
    """A RebootProcess by the hook `stop`."""

    LISTED = "start ready whole write read stop"
    WORDS = ("--seconds", 9, "--kinds", "1,0,0,0,0", "--pauses", "0.5,1", "--readers", 0)

    def test_it_is_drawn_by_weights_and_a_replay_does_the_same(self) -> None:
        its = []
        for weights, least, most in (("1,1", 0.1, 0.9), ("1,0", 1, 1), ("0,1", 0, 0)):
            words = (*self.WORDS, "--stops", weights)
            it = self.ran(*words, toy=Toy(1, listed=self.LISTED, pace=0.3), status=0)
            orders = it.orders()
            part = sum(order["tear"] for order in orders) / len(orders)
            self.assertTrue(least <= part <= most, orders)
            its.append(it)
        words = ("--seconds", 9, "--readers", 0, "--replay", its[0].out / "events.jsonl")
        again = self.ran(*words, toy=Toy(1, listed=self.LISTED, pace=0.3), status=0)
        stopped = [[told["process"] for told in it.events("stopped")] for it in (its[0], again)]
        self.assertEqual(*stopped)
        self.assertEqual(
            len(stopped[0]), sum(len(order["targets"]) * order["tear"] for order in its[0].orders())
        )
        self.assertEqual({told["status"] for told in again.events("stopped")}, {0})
        self.assertNotIn("by itself", again.told)
        self.assertEqual(again.events("ended"), [])

    def test_what_runs_on_is_killed(self) -> None:
        for hook, text in (
            (ends(0), "said yes, and it runs on"),
            (ends(1, "no"), r"ended with status 1 \(no\)"),
            (hangs, "hung"),
        ):
            toy = Toy(1, listed=self.LISTED, hooks={"stop": hook}, pace=0.3)
            more = ("--seconds", 3, "--pauses", 1, "--stops", "1,0", "--hook-timeout", 1)
            it = self.ran(*self.WORDS, *more, toy=toy, status=0)
            self.assertEqual([told["status"] for told in it.events("stopped")], [None])
            self.assertRegex(it.told, rf"p\d is killed: stop \d {text}")
            self.assertEqual(it.counts["kept"], it.acked)

    def test_without_the_hook_nothing_is_drawn(self) -> None:
        it = self.ran(*self.WORDS, toy=Toy(1, pace=0.3), status=0)
        self.assertEqual({order["tear"] for order in it.orders()}, {0})
        self.assertEqual(it.events("stopped"), [])


class Little(Case):
    """Runs that say little, and say so."""

    def test_the_time_since_the_last_write_counts(self) -> None:
        store = Toy()

        async def write(call: Call) -> int:
            """Refuses one record, stores five, and then hangs."""
            await call.input.readline()
            call.say("no quorum of 2")
            call.print("no")
            for _ in range(5):
                key, value = (await call.input.readline()).decode().split()
                await store.stored(key, value)
                call.print("ok 1")
            return await hangs(call)

        store.own["write"] = write
        it = self.ran("--seconds", 6, "--kinds", "1,0,0,0,0", toy=store, status=0)
        acks = [line["time"] / 1e9 for line in it.operations("write", "ok")]
        self.assertEqual(len(acks), 15)
        found = re.search(r"longest without a write ([\d.]+) s", it.told)
        whole = re.search(r"tested little: for [\d.]+ of ([\d.]+) seconds", it.told)
        assert found and whole
        times = [0, *acks, 6.0]
        longest = max(b - a for a, b in zip(times, times[1:]))
        self.assertAlmostEqual(float(found[1]), longest, delta=0.06)
        self.assertEqual(whole[1], "6.0")
        self.assertIn("tested little: 15 writes were acknowledged, fewer than 100", it.told)
        idle = r"for [3-9]\.\d of 6\.0 seconds no write was acknowledged, in 1 gap of a second"
        self.assertRegex(it.told, rf"tested little: {idle} or more\n")
        said = r"\d+ writes weren't acknowledged \(3 no.*\); `write` said most often, 3 times: no"
        self.assertRegex(it.told, rf"tested little: {said} quorum of 2\n")
        self.assertIn("tested little: nothing was destroyed", it.told)

    def test_nothing_is_healed(self) -> None:
        given = self.given((1, "p1", "KillInstantly"))
        it = self.ran("--seconds", 2, *given, toy=Toy(), status=0)
        self.assertIn("tested little: nothing that was destroyed was healed", it.told)

    def test_a_run_that_tested_enough_says_nothing(self) -> None:
        given = self.given((0.5, "p1", "RebootAndDelete"))
        it = self.ran("--seconds", 4, *given, toy=Toy(), status=0)
        self.assertNotIn("tested little", it.told)


class Strict(Case):
    """What wasn't tested is the status, if that is asked; else the same run ends with 0."""

    is_shown = False

    def both(self, status, *words, **toy):
        """What a run tells, which ends so with --strict, and with 0 without."""
        its = [
            self.ran(*words, *more, toy=Toy(3, **toy), status=ends_with)
            for more, ends_with in ((("--strict",), status), ((), 0))
        ]
        told = [it.told.replace(str(it.out), "") for it in its]
        self.assertEqual(*told)
        return its[0]

    def test_a_run_that_tested_enough_ends_with_0(self) -> None:
        given = self.given((0.5, "p1", "RebootAndDelete"))
        self.both(0, "--seconds", 4, *given)

    def test_a_store_that_nothing_could_be_read_from(self) -> None:
        """Its disks have all, so all is kept; and nobody could have read that."""
        given = self.given((0.5, "p1", "RebootAndDelete"))
        hooks = {"read": ends(1, "no quorum")}
        words = ("--seconds", 4, "--hook-timeout", 1, *given)
        it = self.both(12, *words, listed="start ready whole write read salvage", hooks=hooks)
        self.assertIn("nothing could be read in 6 seconds: read ended with status 1 (no", it.told)
        self.assertIn("tested little: no `read` was answered at the end", it.told)
        self.assertEqual(it.counts["kept"], it.acked)

    def test_a_run_in_which_little_was_done(self) -> None:
        it = self.both(14, "--seconds", 4, *self.given((0.5, "p1", "Reboot")))
        self.assertIn("tested little: nothing was destroyed", it.told)

    def test_an_end_that_takes_long_is_told(self) -> None:
        async def read(call: Call) -> int:
            await asyncio.sleep(25)
            return await store.read(call)

        given = self.given((0.5, "p1", "RebootAndDelete"))
        for words, status in ((["--strict"], 15), ([], 0)):
            store = Toy()
            store.own["read"] = read
            it = self.ran("--seconds", 4, *given, *words, toy=store, status=status)
            line = (
                r"it took (\d+\.\d) s, and --seconds is 4: 4\.0 s of writing, (\d+\.\d) s reading"
            )
            found = re.search(line, it.told)
            assert found, it.told
            self.assertGreaterEqual(float(found[2]), 25)
            self.assertAlmostEqual(float(found[1]), 4 + float(found[2]), delta=2)

    def test_a_finding_is_the_status_all_the_same(self) -> None:
        given = self.given((0.5, "p1", "RebootAndDelete"))
        it = self.ran("--seconds", 1, "--strict", *given, toy=Toy(0, Partial(5)), status=1)
        self.assertIn("tested little", it.told)


class Paced(Case):
    """Plans whose orders wait, as a store that starts slowly needs."""

    is_shown = False
    SLOW = {"boots": 4.5, "pace": 0.9}
    WORDS = ("--plan", "rolling", "--seconds", 40)

    def whole_at(self, it):
        """Who was up and not destroyed when each order came, by the events before it."""
        up, destroyed = {0, 1, 2}, set[int]()
        for event in it.lines("events.jsonl"):
            struck = set[int]()
            match event["what"]:
                case "order":
                    yield up - destroyed
                    struck = {*event["targets"]}
                case "destroyed":
                    destroyed |= {*event["processes"]}
                case "heal":
                    destroyed.discard(event["process"])
            up = {*event["up"]} - struck

    def test_rolling_goes_faster_than_a_store_that_starts_slowly(self) -> None:
        it = self.ran(*self.WORDS, toy=Toy(1, **self.SLOW), status=0)
        early = sum(len(whole) < 3 for whole in self.whole_at(it))
        self.assertGreater(early, len(it.orders()) / 2)
        came = f"{early} of {len(it.orders())} orders came before all were up and whole again"
        self.assertIn(f"tested little: {came}: --when-whole waits", it.told)

    def test_when_whole_waits_until_all_are_up_and_whole(self) -> None:
        it = self.ran(*self.WORDS, "--when-whole", toy=Toy(1, **self.SLOW), status=0)
        self.assertEqual({len(whole) for whole in self.whole_at(it)}, {3})
        # Each is emptied in the third round, and none is lessened.
        self.assertGreater(len(it.orders()), 6)
        self.assertEqual([order["does"] for order in it.orders()][6], "RebootAndDelete")
        self.assertNotIn("orders came before", it.told)

    def test_when_whole_a_pause_comes_before_each_order(self) -> None:
        words = (*self.WORDS, "--when-whole", "--pauses", 5)
        it = self.ran(*words, toy=Toy(1, **self.SLOW), status=0)
        ups = [event["t"] for event in it.events("up")]
        times = [order["t"] for order in it.orders()]
        for one, other in zip(times, times[1:]):
            self.assertGreaterEqual(round(other - one, 3), 5)
        self.assertGreater(len(ups), 3)

    def test_when_one_is_never_whole_no_order_comes(self) -> None:
        """And the run ends when it says."""
        words = ("--seconds", 30, "--when-whole", "--kinds", "0,0,1,0,0", "--pauses", 1)
        it = self.ran(*words, toy=Toy(1, Idle(), pace=0.9), status=0)
        self.assertEqual(len(it.orders()), 1)
        self.assertAlmostEqual(it.events("written")[0]["t"], 30, delta=1)

    def test_any_plan_takes_its_pauses(self) -> None:
        for plan, least in (("rolling", 7), ("attrition", 7), ("mixed", 7)):
            words = ("--seconds", 30, "--plan", plan, "--pauses", 7)
            it = self.ran(*words, toy=Toy(1, pace=0.9), status=0)
            times = [order["t"] for order in it.orders()]
            self.assertGreater(len(times), 2, plan)
            for one, other in zip(times, times[1:]):
                self.assertGreaterEqual(round(other - one, 1), least)


class Rescued(Case):
    """A store that stands once two of three were down at once, until an operator rescues it."""

    is_shown = False
    LISTED = "start ready whole write read salvage rescue"
    TAKES = (3, "p0", "RebootAndDelete"), (3.1, "p1", "Reboot")

    def test_without_the_hook_it_stands_to_the_end(self) -> None:
        listed = self.LISTED.replace(" rescue", "")
        words = ("--seconds", 40, "--hook-timeout", 2, *self.given(*self.TAKES))
        it = self.ran(*words, toy=Stands(pace=0.5, listed=listed), status=0)
        self.assertIn("nothing could be read in 12 seconds", it.told)
        self.assertLess(max(it.toy.ok_at.values()) - it.toy.began, 5)

    def test_the_hook_has_it_go_on(self) -> None:
        words = ("--seconds", 40, *self.given(*self.TAKES))
        it = self.ran(*words, toy=Stands(pace=0.5, listed=self.LISTED), status=0)
        (rescued,) = it.events("rescue")
        last = max(event["t"] for event in it.events("order"))
        # It had 15 seconds to come back by itself.
        self.assertGreater(rescued["t"], last + 14)
        self.assertLess(rescued["t"], last + 20)
        self.assertIn("\nrescued 1 times by the hook\n", it.told)
        self.assertIn("1 destroying; 1 healed", it.told)
        acks = [line["time"] / 1e9 for line in it.operations("write", "ok")]
        self.assertGreater(sum(t > rescued["t"] for t in acks), 20)

    def test_it_is_asked_also_where_nothing_can_be_read_at_the_end(self) -> None:
        words = ("--seconds", 5, *self.given(*self.TAKES))
        it = self.ran(*words, toy=Stands(pace=0.5, listed=self.LISTED), status=0)
        (rescued,) = it.events("rescue")
        self.assertGreater(rescued["t"], it.events("written")[0]["t"])
        self.assertNotIn("nothing could be read", it.told)

    def test_what_it_prints_is_done(self) -> None:
        async def rescue(call: Call) -> int:
            call.print("restart 2")
            return await Stands.rescue(store, call)

        words = ("--seconds", 40, *self.given(*self.TAKES))
        store = Stands(pace=0.5, listed=self.LISTED, hooks={"rescue": rescue})
        it = self.ran(*words, toy=store, status=0)
        (rescued,) = it.events("rescue")
        self.assertEqual(rescued["says"], ["restart 2"])
        self.assertEqual([event["process"] for event in it.events("restart")], [2])
        store = Stands(pace=0.5, listed=self.LISTED, hooks={"rescue": ends(0, prints=["empty 2"])})
        it = self.ran(*words, toy=store, status=3)
        self.assertIn("rescue said 'empty 2', and p2 was not destroyed", it.told)

    def test_nobody_is_asked_while_one_is_cut_off(self) -> None:
        """Who is cut off might be the quorum."""
        path = self.given(*self.TAKES)[1]
        clog = {"t": 3.2, "what": "order", "key": "processid", "value": "p2", "order": "Clog"}
        path.write_text(path.read_text() + json.dumps(clog | {"clogged": 30.0}) + "\n")
        words = ("--seconds", 60, "--replay", path)
        it = self.ran(*words, toy=Stands(pace=0.5, listed=self.LISTED), status=0)
        (rescued,) = it.events("rescue")
        self.assertGreater(rescued["t"], 33.2 + 15)

    def test_a_store_that_goes_on_is_not_rescued(self) -> None:
        words = ("--seconds", 40, *self.given(*self.TAKES))
        it = self.ran(*words, toy=Toy(pace=0.5, listed=self.LISTED), status=0)
        self.assertNotIn("rescue", it.toy.calls)
        self.assertEqual(it.events("rescue"), [])

    def test_check_hooks_tries_it(self) -> None:
        words = ("--check-hooks",)
        it = self.ran(*words, toy=Stands(pace=0.5, listed=self.LISTED), status=0)
        self.assertEqual(len(it.events("rescue")), 1)
        it = self.ran(*words, toy=Toy(pace=0.5, listed=self.LISTED), status=0)
        text = "p0 was emptied while p1 was rebooted, and all came back: `rescue` wasn't needed"
        self.assertIn(text, it.told)
        store = Stands(pace=0.5, listed=self.LISTED, hooks={"rescue": ends(1, "not yet")})
        it = self.ran(*words, "--hook-timeout", 4, toy=store, status=3)
        text = "they don't come back: rescue ended with status 1 (not yet); after 24 seconds p0"
        self.assertIn(text, it.told)


class Late(Case):
    """When orders begin."""

    def test_orders_wait_for_a_first_record(self) -> None:
        """A store may take its time until it acknowledges, as one whose quorum has to form; orders
        keep their pauses."""
        words = ("--plan", "attrition", "--seconds", 5, "--quiet")
        planned = [order["t"] for order in self.ran(*words, toy=Toy(), status=0).orders()]
        slow = Toy()

        async def write(call: Call) -> int:
            await asyncio.sleep(3)
            return await slow.write(call)

        slow.own["write"] = write
        it = self.ran(*words, toy=slow, status=0)
        late = [order["t"] for order in it.orders()]
        self.assertLess(planned[0], 3)
        self.assertTrue(3 <= late[0] < 3.3, late)
        self.assertGreater(len(late), 3)
        self.assertTrue(all(order["acked"] for order in it.orders()))

    def test_they_do_not_wait_for_ever(self) -> None:
        store = Toy()

        async def write(call: Call) -> int:
            async for _ in call.lines():
                await store.some_time()
                call.print("no")
            return 0

        store.own["write"] = write
        it = self.ran("--plan", "attrition", "--seconds", 2, toy=store, status=3)
        self.assertIn("no record was acknowledged", it.told)
        self.assertTrue(10 <= it.orders()[0]["t"] < 10.2, it.orders())


class Histories(Case):
    """history.jsonl is what a checker of histories wants."""

    def test_each_process_does_one_thing_at_a_time_and_none_after_an_end_that_is_unknown(
        self,
    ) -> None:
        store = Toy(listed=READERS)

        async def write(call: Call) -> int:
            await call.input.readline()
            call.print("no")
            return await store.write(call)

        store.own["write"] = write
        it = self.ran("--seed", 5, "--seconds", 3, toy=store, status=0)
        lines = [line for line in it.lines("history.jsonl") if "process" in line]
        begun = {line["process"] for line in lines if line["type"] == "invoke"}
        ended = Counter(line["process"] for line in lines if line["type"] != "invoke")
        self.assertEqual(begun, set(ended))
        refused = [line for line in lines if line.get("error") == "no"]
        self.assertGreaterEqual(len(refused), 3)
        self.assertEqual({line["type"] for line in refused}, {"info"})
        writes = {tuple(line["value"]) for line in it.operations("write", "ok")}
        reads = {tuple(line["value"]) for line in it.operations("read", "ok")}
        self.assertGreater(len(writes), 30)
        self.assertEqual(writes, {*store.acked.items()})
        self.assertLessEqual(writes, reads)

    def test_it_has_each_entry_behind_what_was_acknowledged_before_it(self) -> None:
        for words in ((), ("--unguarded",)):
            with self.subTest(words):
                given = self.given(
                    *((0.3 + n / 4, f"p{n % 3}", "RebootAndDelete") for n in range(6)),
                    (1, "p1", "Clog"),
                )
                it = self.ran("--seconds", 3, *given, *words, toy=Toy(), status=len(words))
                acked, lines = 0, {}
                for line in it.lines("history.jsonl"):
                    acked += (line["f"], line.get("type")) == ("write", "ok")
                    if line["f"] == "entry":
                        lines[line["value"]] = (acked, line)
                self.assertEqual([*lines], [*range(len(it.audit()))])
                told = [(order["entry"], order["acked"]) for order in it.orders()]
                self.assertEqual(told, [(entry, lines[entry][0]) for entry, _ in told])
                does = {order["entry"]: order["does"] for order in it.orders() if order["beyond"]}
                self.assertEqual(bool(does), bool(words))
                has = {at: line["does"] for at, (_, line) in lines.items() if "does" in line}
                self.assertEqual(does, has)

    def test_the_reads_at_the_end_stand_behind_the_last_write(self) -> None:
        store = Toy(listed=f"{READERS} fresh")
        it = self.ran("--seconds", 2, *self.given(), toy=store, status=0)
        lines = it.lines("history.jsonl")
        written = [line["index"] for line in lines if line["f"] == "written"]
        last = {line["node"]: line["index"] for line in it.operations("read", "invoke")}
        self.assertEqual(set(last), {None, 0, 1, 2})
        self.assertGreater(min(last.values()), *written)
        ended = [*it.operations("write", "ok"), *it.operations("write", "info")]
        self.assertLess(max(line["index"] for line in ended), *written)

    def test_a_key_that_is_told_twice(self) -> None:
        """With one value it is told so often, with two it is read twice."""
        words, other = ("--seconds", 2, *self.given()), "fedcba9876543210"
        it = self.ran(*words, toy=Toy(0, Twice(1)), status=0)
        told = [line for line in it.operations("read", "ok") if line["value"][1] is not None]
        self.assertEqual({line["times"] for line in told}, {2})
        it = self.ran(*words, toy=Toy(0, Twice(50, other)), status=8)
        reads = it.operations("read", "ok")
        keys = {line["value"][0] for line in reads if line["value"][1] == other}
        self.assertLessEqual({"r/000000050", "r/000000100"}, keys)
        for key in keys & it.toy.acked.keys():
            values = {line["value"][1] for line in reads if line["value"][0] == key}
            self.assertEqual(values, {it.toy.acked[key], other})

    def test_a_reader_of_edn_reads_what_the_history_has(self) -> None:
        """Clojure's own reader, on a history of writes and reads, and on texts that have to be
        quoted."""
        needs = [ROOT / "tests/tools/needs", "the nemesis's history as EDN", "clojure"]
        if (lacks := subprocess.run(needs, stdout=subprocess.PIPE, text=True)).returncode:
            self.skipTest(lacks.stdout.strip().removeprefix("SKIPPED "))
        given = self.given((0.5, "p1", "RebootAndDelete"))
        store = Toy(0, Partial(5), listed=f"{READERS} fresh")
        it = self.ran("--seconds", 2, *given, toy=store, status=1)
        kinds = {line["f"] for line in it.lines("history.jsonl")}
        self.assertEqual(kinds, {"write", "read", "entry", "written", "salvage"})
        with (it.out / "history.jsonl").open("a") as file:
            odd = {
                "index": 0,
                "time": 1 << 40,
                "process": 9,
                "type": "ok",
                "f": "read",
                "value": ['"\\', "é😀\u0001"],
            }
            print(json.dumps(odd | {"node": None, "error": "\n"}), file=file)
        edn, program = self.room / "history.edn", self.room / "read.clj"
        tool = [sys.executable, "-I", "-S", ROOT / "tools/faultyard-nemesis"]
        with edn.open("w") as file:
            self.assertEqual(subprocess.run([*tool, "--edn", it.out], stdout=file).returncode, 0)
        program.write_text(
            """
            (require '[clojure.edn :as edn] '[clojure.string :as string])
            (defn number [text] (string/join " " (map int text)))
            (doseq [line (string/split-lines (slurp (first *command-line-args*)))
                    :let [it (edn/read-string line)]]
              (println (string/join "," [(:index it) (:time it) (:process it)
                (str (:type it)) (str (:f it))
                (if (vector? (:value it))
                  (string/join "|" (map #(if % (number %) "nil") (:value it))) (:value it))
                (contains? it :node) (:node it)
                (some-> (:error it) number) (some-> (:told it) number)])))"""
        )
        ran = subprocess.run(["clojure", program, edn], capture_output=True, text=True)
        self.assertEqual(ran.returncode, 0, ran.stderr)

        def number(text: str) -> str:
            units = text.encode("utf-16-le")
            return " ".join(str(units[at] + 256 * units[at + 1]) for at in range(0, len(units), 2))

        expected = []
        for line in it.lines("history.jsonl"):
            is_client = line["f"] in ("read", "write")
            who, kind = (line["process"], line["type"]) if is_client else (":nemesis", "info")
            value = line.get("value")
            if isinstance(value, list):
                value = "|".join("nil" if word is None else number(word) for word in value)
            node = "" if line.get("node") is None else line["node"]
            words = [line["index"], line["time"], who, f":{kind}", f":{line['f']}"]
            words += ["" if value is None else value, str("node" in line).lower(), node]
            told = "" if is_client else line.get("type", "")
            words += [number(line.get("error", "")), number(told)]
            expected.append(",".join(map(str, words)))
        self.assertGreater(len(expected), 200)
        read = ran.stdout.splitlines()
        self.assertEqual(len(read), len(expected))
        self.assertEqual(next(((a, b) for a, b in zip(read, expected) if a != b), None), None)


class Clogs(Case):
    """What a clog does to a process of the store."""

    def test_a_clog_stops_a_server_and_lets_it_go_on(self) -> None:
        sent = []

        class Seen(Toy):
            def signal_below(self, pid: int, number: int) -> None:
                sent.append((self._processes[pid].call.number, number))
                super().signal_below(pid, number)

        words = ("--seed", 2, "--seconds", 9, "--plan", "swizzle", "--quiet")
        it = self.ran(*words, toy=Seen(), status=0)
        orders = it.orders()
        self.assertEqual({order["does"] for order in orders}, {"Clog"})
        self.assertEqual(len(orders), len(it.events("unclog")))
        for sort in (signal.SIGSTOP, signal.SIGCONT):
            struck = sorted(number for order in orders for number in order["targets"])
            self.assertEqual(sorted(number for number, it in sent if it == sort), struck)
        self.assertEqual(it.events("ended") + it.events("up"), [])

    def test_pause_and_resume_are_asked_for_a_clog(self) -> None:
        own = {"pause": ends(0), "resume": ends(0)}
        store = Toy(listed="start ready whole write read pause resume", hooks=own)
        it = self.ran("--seed", 2, "--seconds", 6, "--plan", "swizzle", toy=store, status=0)
        said = [call.split()[0] for call in store.calls]
        self.assertGreater(len(it.orders()), 0)
        self.assertEqual(said.count("pause"), len(it.orders()))
        self.assertEqual(said.count("resume"), len(it.orders()))


class Shrinks(Case):
    """`faultyard-shrink --events` with runs in virtual time, each in a process of its own."""

    def shrunk(self, given, *command):
        words = [ROOT / "tools/shrink", "--events", CLUSTER, given, "--", *command]
        ran = subprocess.run(
            [sys.executable, *map(str, words)], capture_output=True, text=True, cwd=self.room
        )
        self.assertEqual(ran.returncode, 0, ran.stderr)
        return [json.loads(line) for line in ran.stdout.splitlines()]

    def test_a_replay_is_shrunk_to_what_loses_a_record(self) -> None:
        """Two servers that are emptied one after the other lose what only these had; all else is
        cut out."""
        soft, hard = "RebootProcess", "RebootAndDelete"
        _, given = self.given(
            (0.5, "p0", soft), (0.6, "p2", soft), (3, "p1", hard), (3, "p0", hard)
        )
        words = ("--unguarded", "--quiet", "--seconds", 5, "--replay")
        left = self.shrunk(given, sys.executable, HERE / "lab.py", *words)
        self.assertEqual([(it["value"], it["order"]) for it in left], [("p1", hard), ("p0", hard)])

    def test_what_is_left_by_shrink_ends_as_the_whole_did(self) -> None:
        """Two orders lose a record, and either alone only makes the store unreadable."""
        _, given = self.given(
            (1, "p0", "Reboot"), (2, "p1", "KillInstantly"), (3, "p2", "KillInstantly")
        )
        count = 'case $(grep -c KillInstantly "$1") in 0) exit 0 ;; 1) exit 6 ;; *) exit 1 ;; esac'
        left = self.shrunk(given, "bash", "-c", count, "bash")
        self.assertEqual([it["value"] for it in left], ["p1", "p2"])
