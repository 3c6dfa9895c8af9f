"""Parts of the tool, alone."""
import asyncio
import itertools
import json
import os
import signal
import subprocess
import tempfile
import time
import unittest
import unittest.mock
from pathlib import Path
from unittest.mock import patch

import clock
from faultyard.enums import Key, Kind
from faultyard.history import History, Operation
from faultyard.plans import Order
from faultyard.verdicts import Judged, Linear
from nemesis import HOOK, Fault, checks, resume, summary
from nemesis.clients import Clients
from nemesis.crashes import LOG_END, LOOKED_AT, Crashes, end_of_log
from nemesis.disks import Cut
from nemesis.elsewhere import Elsewhere, all_of
from nemesis.hook_log import HookLog
from nemesis.main import rising
from nemesis.stages import READY, WRITING, Stages
from nemesis.store import Store
from nemesis.traces import traces

KEY, VALUE = "r/000000001", "a"


class Traces(unittest.TestCase):
    """What stands in the files of a store."""

    VALUE = "0123456789abcdef"

    def found(self, *texts):
        """Whether a record is found in files with these texts."""
        with tempfile.TemporaryDirectory() as folder:
            for count, text in enumerate(texts):
                path = Path(folder, "below", str(count))
                path.parent.mkdir(exist_ok=True)
                path.write_bytes(text)
            Path(folder, "link").symlink_to("nowhere")
            return bool(
                traces(Path(folder), {KEY: self.VALUE, "r/000000002": "f" * 16}) - {"r/000000002"}
            )

    def test_a_key_or_a_value_is_enough(self):
        key, value = KEY.encode(), self.VALUE.encode()
        for text in (
            key,
            value,
            b"\xff" + key + b"#" + value,
            b"r/00000" + key + b"7",
            b"9a" + value + b"0",
        ):
            with self.subTest(text):
                self.assertTrue(self.found(b"", text))
        for text in (
            b"",
            b"\0" * 99,
            key[:-1],
            value[1:],
            b"r/00000\0" + key[7:],
            b"r/000000002",
            value.upper(),
        ):
            with self.subTest(text):
                self.assertFalse(self.found(b"", text))

    def test_it_is_found_wherever_a_file_is_read_in_steps(self):
        for text in (KEY.encode(), self.VALUE.encode()):
            for step in (1, 16, 99):
                for before in range(40):
                    for filler in (b"\0", b"0"):
                        with self.subTest(text, step=step, before=before, filler=filler), patch(
                            "nemesis.traces.STEP", step
                        ):
                            self.assertTrue(self.found(filler * before + text + filler * 20))

    def test_what_cannot_be_read_is_a_fault(self):
        with self.assertRaises(OSError):
            traces(Path("/none"), {KEY: self.VALUE})


class Summaries(unittest.TestCase):
    def status(self, is_fresh=False, is_unread=False, keys=0, **counts):
        linear = Linear([{"key": KEY}] * keys, {"keys": 9})
        return summary.status(Judged(counts=counts), linear, is_fresh, is_unread)

    def test_the_worst_that_was_found_is_the_status(self):
        self.assertEqual(self.status(kept=3), 0)
        self.assertEqual(self.status(kept=3, stale=1), 0)
        self.assertEqual(self.status(kept=3, stale=1, is_fresh=True), 7)
        self.assertEqual(self.status(stale=1, unreadable=1, is_fresh=True), 6)
        self.assertEqual(self.status(unreadable=1, keys=1), 10)
        self.assertEqual(self.status(missing=1, keys=1), 9)
        self.assertEqual(self.status(missing=1, wrong=1), 8)
        self.assertEqual(self.status(missing=1, unwritten=1), 8)
        self.assertEqual(self.status(unreadable=1, wrong=1, lost=1), 1)

    def test_a_read_that_hangs_is_a_fault_of_the_hook_unless_all_is_settled(self):
        self.assertEqual(self.status(unreadable=1, is_unread=True), 3)
        self.assertEqual(self.status(kept=1, is_unread=True), 0)
        self.assertEqual(self.status(lost=1, unreadable=1, is_unread=True), 1)

    def test_what_else_was_counted_is_told_if_it_was(self):
        counts = {"acknowledged": 3, "kept": 1, "stale": 2, "twice": 0, "gone": 4}
        second = 1_000_000_000
        found = Judged(counts=counts | {"staleness": [second, second, second, second, 2 * second]})
        self.assertEqual(
            summary.closing(found),
            "3 acknowledged: 1 kept, 0 lost, 0 missing, 2 stale, 0 unreadable, 0 wrong",
        )
        gone, stale = summary.besides(found)
        self.assertEqual(gone, "4 records that weren't acknowledged were read, and are lost")
        self.assertTrue(stale.startswith("stale for 1.000, 1.000, 1.000, 1.000, 2.000 s"))
        self.assertEqual([*summary.besides(Judged(counts={"kept": 1, "staleness": None}))], [])

    def test_keys_that_are_not_linearizable_are_named(self):
        counts = {"keys": 7, "linearizable": 5, "not": 2, "operations": 30}
        lines = [{"key": "r/1"}, {"key": "r/2"}]
        text = "2 of 7 keys aren't linearizable, in 30 operations"
        self.assertEqual(
            summary.told_keys(Linear(lines, counts), 2), [f"{text}: r/1, r/2, in linear.jsonl"]
        )
        self.assertEqual(
            summary.told_keys(Linear(lines, counts), 1), [f"{text}: r/1 .., in linear.jsonl"]
        )
        text = "0 of 7 keys aren't linearizable, in 30 operations"
        self.assertEqual(summary.told_keys(Linear([], counts), 1), [text])
        self.assertEqual(summary.told_keys(Linear(), 1), [])

    def test_a_run_says_why_it_tested_little(self):
        def told(*amount, is_control=False, **more):
            controls = [summary.MILD] if is_control else []
            return self.untested(*amount, controls=controls, is_lost=is_control, **more)

        self.assertEqual(told(100, [0.5, 0.5, 1.0], 1, 1), [])
        for acked in (7, 99):
            found = told(acked, [0.9, 1.0], 0, 0)
            self.assertEqual(
                [it.removeprefix("tested little: ").split()[0] for it in found],
                [str(acked), "for", "nothing"],
            )
        idle = "for 3.0 of 3.9 seconds no write was acknowledged, in 2 gaps of a second or more"
        self.assertEqual(told(100, [0.9, 1.0, 2.0], 1, 1), [f"tested little: {idle}"])
        self.assertTrue(told(100, [1.0], 1, 1)[0].endswith(" in 1 gap of a second or more"))
        self.assertEqual(
            told(100, [0.5], 1, 0), ["tested little: nothing that was destroyed was healed"]
        )
        self.assertEqual(told(100, [0.5], 1, 0, is_control=True), [])
        self.assertEqual(
            told(100, [0.5], 0, 0, is_control=True), ["tested little: nothing was destroyed"]
        )
        self.assertEqual(told(100, [0.5], 0, 0, partitions=1), [])

    def test_where_few_were_acknowledged_it_says_what_write_said(self):
        def told(acked, pauses, said=("no quorum", 5)):
            more = {"failed": {"no": 6, "ended": 1}, "said": said}
            return [it for it in self.untested(acked, pauses, 1, 1, **more) if "weren't" in it]

        text = "tested little: 7 writes weren't acknowledged (6 no, 1 ended)"
        self.assertEqual(told(99, [0.5]), [f"{text}; `write` said most often, 5 times: no quorum"])
        self.assertEqual(told(100, [1.0], ("", 0)), [text])
        self.assertEqual(told(100, [0.5]), [])
        self.assertEqual(self.untested(100, [1.0], 1, 1)[1:], [])

    def untested(self, *amount, controls=(), is_lost=False, **more):
        """The lines of what wasn't tested."""
        amount = summary.Amount(*amount, **more)
        return [*map(str, summary.untested(amount, controls, is_lost))]

    def more(self, status, controls=(), is_lost=False, **more):
        """What wasn't tested besides, in a run of which nothing else is to say."""
        found = [*summary.untested(summary.Amount(100, [0.5], 1, 1, **more), controls, is_lost)]
        self.assertEqual({it.status for it in found}, {status} if found else set())
        return [it.text for it in found]

    def test_power_cuts_that_took_nothing_are_told(self):
        kept = "2 power cuts kept all 7 unsynced items: with --tear none they keep none"
        none = "nothing was unsynced at any of 2 power cuts"
        for cuts, lines in (
            (None, []),
            ([], ["no power was cut"]),
            ([Cut(3, 3), Cut(4, 4)], [kept]),
            ([Cut(3, 3), Cut(3, 4)], []),
            ([Cut(0, 0), Cut(0, 0)], [none]),
            ([Cut(), Cut()], []),  # a kernel doesn't tell
            ([Cut(3, 3), Cut()], []),
        ):
            with self.subTest(cuts=cuts):
                self.assertEqual(self.more(13, cuts=cuts), lines)

    def test_a_store_that_could_not_be_read_is_told_unless_a_record_may_be_lost(self):
        (line,) = self.more(12, is_unread=True)
        self.assertIn("no `read` was answered at the end", line)
        self.assertEqual(self.more(12, is_unread=True, is_lost=True), [])

    def test_controls_that_lost_nothing_are_told(self):
        its = [summary.MILD, summary.DEAF]
        self.assertEqual(self.more(14, its), its)
        self.assertEqual(self.more(14, its, is_lost=True), [])
        self.assertEqual(self.more(14, damaged=0), ["no disk was damaged"])
        self.assertEqual(self.more(14, damaged=1), [])

    def test_orders_that_came_too_early_are_told_where_writes_stood(self):
        def told(orders, early, pauses=(1.0, 0.5)):
            amount = summary.Amount(100, [*pauses], 1, 1, orders=orders, early=early)
            return [it.text for it in summary.untested(amount, (), False)][1:]

        came = "6 of 10 orders came before all were up and whole again: --when-whole waits for that"
        self.assertEqual(told(10, 6), [f"{came}, and --pauses are longer"])
        self.assertEqual(told(10, 5), [])
        self.assertEqual(told(10, 10, pauses=(0.5, 0.5)), [])

    def test_strictly_the_first_of_what_was_not_tested_is_the_status(self):
        lacks = [summary.Untested("", status) for status in (14, 13, 12)]
        for first, status in enumerate((12, 12, 12)):
            self.assertEqual(summary.strictly(0, lacks[first:], is_long=True), status)
        self.assertEqual(summary.strictly(0, lacks[:2], is_long=False), 13)
        self.assertEqual(summary.strictly(0, lacks[:1], is_long=True), 14)
        self.assertEqual(summary.strictly(0, [], is_long=True), 15)
        self.assertEqual(summary.strictly(0, [], is_long=False), 0)
        for status in range(1, 12):
            self.assertEqual(summary.strictly(status, lacks, is_long=True), status)


class Lasting(unittest.TestCase):
    """How long a run took, and where that went."""

    async def told(self, seconds, *parts):
        stages = Stages()
        for name, took in parts:
            await asyncio.sleep(took)
            stages.end(name)
        return stages.told(seconds), stages.is_long(seconds)

    @clock.virtual
    async def test_a_run_that_lasts_longer_says_why(self):
        parts = (READY, 14.0), ("until a first record", 0.5), (WRITING, 60.0), ("reading", 21.5)
        line = "it took 96.0 s, and --seconds is 60: 14.0 s until all were ready, 60.0 s of writing"
        self.assertEqual(await self.told(60, *parts), ([f"{line}, 21.5 s reading"], True))

    @clock.virtual
    async def test_a_part_that_goes_on_counts_once(self):
        parts = ("reading", 6.0), ("asking", 8.0), ("reading", 6.0)
        line = "it took 20.0 s, and --seconds is 5: 12.0 s reading, 8.0 s asking"
        self.assertEqual(await self.told(5, *parts), ([line], True))

    @clock.virtual
    async def test_it_may_last_a_fifth_longer_and_at_least_ten_seconds(self):
        for seconds, allowed in ((0, 10), (5, 15), (50, 60), (60, 72), (100, 120)):
            lines, is_long = await self.told(seconds, (WRITING, allowed))
            self.assertEqual((lines, is_long), ([], False))
            lines, is_long = await self.told(seconds, (WRITING, allowed + 0.5))
            self.assertEqual((len(lines), is_long), (1, True))

    @clock.virtual
    async def test_until_all_are_ready_it_may_last_as_it_does(self):
        lines, is_long = await self.told(10, (READY, 50.0), (WRITING, 10.0))
        self.assertEqual((len(lines), is_long), (1, False))


class Whole(unittest.TestCase):
    def test_a_whole_that_takes_its_time_accuses_no_check(self):
        for told, not_whole, seconds in (
            ((5.0, "x"), None, 0.0),  # it said yes at once, whenever that was
            ((5.0, "x"), (6.0, 6.0), 0.0),
            ((5.0, "x"), (6.0, 7.5), 1.5),
            ((7.0, "x"), (6.0, 7.5), 0.5),
            ((5.0, "none"), (6.0, 7.5), 0.0),
            (None, (6.0, 7.5), 0.0),
            ((5.0, "x"), None, 0.0),  # another one was down meanwhile
        ):
            with self.subTest(told=told, not_whole=not_whole):
                self.assertEqual(checks.for_how_long(told, not_whole), seconds)

    def noes(self, *down, destroyed=(), clogged=()):
        """When process 2 was asked first and last, at 6, 7 and 8, where these were down at 7."""
        it = Store.__new__(Store)
        it.names, it.not_whole, it.ledger = (
            ["p0", "p1", "p2"],
            {},
            unittest.mock.Mock(destroyed={2: ""}),
        )
        it.up, it.clogged = {0, 1, 2}, set()
        it._note_no(2, 6.0)
        it.up, it.clogged, it.ledger.destroyed = (
            it.up - {*down},
            {*clogged},
            dict.fromkeys([2, *destroyed]),
        )
        it._note_no(2, 7.0)
        it.up, it.clogged, it.ledger.destroyed = {0, 1, 2}, set(), {2: ""}
        it._note_no(2, 8.0)
        return it.not_whole[2]

    def test_a_whole_that_says_no_while_another_is_down_accuses_no_check(self):
        self.assertEqual(self.noes(), (6.0, 8.0))
        self.assertEqual(self.noes(clogged=[2]), (6.0, 8.0))
        for more in ({"destroyed": [1]}, {"clogged": [0]}):
            self.assertIsNone(self.noes(**more))
        self.assertIsNone(self.noes(0))


class Histories(unittest.TestCase):
    def test_a_read_that_is_answered_after_all_has_no_error(self):
        operation = Operation(1, "read", KEY, None, 0, 1, "ok", node=0)
        operation.fail("?")
        operation.ok(VALUE)
        self.assertEqual((operation.type, operation.value, operation.error), ("ok", VALUE, None))

    def lines(self, happens):
        """The lines of what happens, a nanosecond for each look at the clock."""
        ledger = unittest.mock.Mock(now_ns=itertools.count().__next__)
        with tempfile.TemporaryDirectory() as folder:
            history = History(Path(folder, "history"), ledger)
            happens(history)
            history.flush()
            return [json.loads(line) for line in Path(folder, "history").read_text().splitlines()]

    def test_each_thing_that_happens_has_its_line(self):
        def happens(history):
            client = history.client()
            with history.write(client, KEY, VALUE) as operation:
                history.answered(0)
                history.answered(3, does="RebootAndDelete")
                operation.unknown("no")
            history.written()
            history.salvaged(2, [(KEY, VALUE), ("own", "b"), ("?", "?")], is_all=False)
            history.salvaged(1, [], is_all=True)
            history.looked_through(0, {KEY})

        write = {"process": 0, "f": "write", "value": [KEY, VALUE]}
        disk = {"f": "salvage", "type": "told", "node": 2, "value": [KEY, VALUE]}
        expected = [
            write | {"type": "invoke"},
            {"f": "entry", "value": 0},
            {"f": "entry", "value": 3, "does": "RebootAndDelete"},
            write | {"type": "info", "error": "no"},
            {"f": "written"},
            disk,
            {"f": "salvage", "type": "some", "node": 2},
            {"f": "salvage", "type": "all", "node": 1},
            {"f": "plain", "type": "told", "node": 0, "value": [KEY, None]},
            {"f": "plain", "type": "all", "node": 0},
        ]
        numbered = [{"index": n, "time": n} | line for n, line in enumerate(expected)]
        self.assertEqual(self.lines(happens), numbered)

    def test_a_read_of_all_begins_before_what_happens_meanwhile(self):
        keys = [f"r/00000000{number}" for number in range(1, 5)]

        def happens(history):
            for key in keys[:2]:
                with history.write(history.client(), key, VALUE) as operation:
                    operation.ok(VALUE)
            with history.reading():
                history.answered(0)  # and `read` says no
            with history.reading() as reading:
                history.answered(1)
                told = [(keys[2], "x"), (keys[2], "y"), (keys[3], "z"), (keys[3], "z"), ("own", "")]
                history.read_all(reading, [*told, (keys[1], VALUE)])

        lines = self.lines(happens)[4:]
        self.assertEqual([it["index"] for it in lines], [*range(4, 16)])
        self.assertEqual(lines[0]["value"], 0)
        begun, entry, ended = lines[1:6], lines[6], lines[7:]
        self.assertEqual((entry["f"], entry["value"]), ("entry", 1))
        self.assertEqual([it["value"] for it in begun], [[keys[n], None] for n in (0, 1, 2, 2, 3)])
        values = [[keys[0], None], [keys[1], VALUE], [keys[2], "x"], [keys[2], "y"], [keys[3], "z"]]
        self.assertEqual([it["value"] for it in ended], values)
        # Each value of a key has how often the answer told the key.
        self.assertEqual([it.get("times") for it in ended], [None, None, 2, 2, 2])
        self.assertEqual({it["node"] for it in begun + ended}, {None})
        self.assertEqual([it["process"] for it in begun], [it["process"] for it in ended])
        times = [it["time"] for it in lines]
        self.assertEqual(times, sorted(times))
        self.assertLess(begun[0]["time"], entry["time"])


class Lacking(unittest.TestCase):
    """What a process lacks at the end is asked for until a minute has passed since it was first
    asked for, whatever a hook may take."""

    async def checked(self, *answers, limit=2.0):
        """What is found of keys, each with the second from which on it is told; and when it was
        asked for. A negative second: it isn't answered for from then on."""
        loop, self.asked = asyncio.get_running_loop(), {f"r/{n}": [] for n in range(len(answers))}
        it, begin = Clients.__new__(Clients), loop.time()
        it.hooks = unittest.mock.Mock(limit=limit)
        it.history, it.is_whole = unittest.mock.Mock(), lambda number: True
        since = dict(zip(self.asked, answers))

        async def each(client, number, keys):
            found = {}
            for key in keys:
                await asyncio.sleep(0.25)
                now = loop.time() - begin
                self.asked[key].append(now)
                told, value = since[key], VALUE if 0 <= since[key] <= now else None
                found[key] = it = Operation(1, "read", key, value, int(now * 1e9), type="ok")
                if told < 0 and now >= -told:
                    it.fail("?")
            return found

        it._check_each = each
        return await it.check_all(1, list(self.asked))

    @clock.virtual
    async def test_it_is_asked_for_until_it_is_told(self):
        for limit in (0.1, 100.0):
            found = await self.checked(0, 50, limit=limit)
            self.assertEqual(found, {"r/0": VALUE, "r/1": VALUE})
            self.assertEqual(len(self.asked["r/0"]), 1)
            *before, last = self.asked["r/1"]
            self.assertLess(before[-1], 50)
            self.assertGreaterEqual(last, 50)

    @clock.virtual
    async def test_it_lacks_what_it_lacks_a_minute_later(self):
        found = await self.checked(0, 1e9, 1e9)
        self.assertEqual(found, {"r/0": VALUE, "r/1": None, "r/2": None})
        for key in ("r/1", "r/2"):
            first, *_, before, last = self.asked[key]
            self.assertLess(before - first, 60)
            self.assertGreaterEqual(last - first, 60)

    @clock.virtual
    async def test_it_does_not_lack_what_it_does_not_answer_for_in_the_end(self):
        self.assertEqual(await self.checked(0, -30), {"r/0": VALUE})
        self.assertEqual(await self.checked(0, -1), {"r/0": VALUE})


class Events(unittest.TestCase):
    def test_show_reads_events_whose_entries_rise(self):
        """Behind an entry that was asked for later, what others did has no time."""
        with tempfile.TemporaryDirectory() as folder:
            events = Path(folder, "events.jsonl")
            events.write_text("".join(f'{{"entry":{it}}}\n' for it in (0, 2, 1, 2, 3)))
            self.assertEqual([json.loads(it)["entry"] for it in rising(events)], [0, 2, 3])


class Left(unittest.TestCase):
    """Which orders are still to be done by a run that died: what was due needn't be done."""

    CUTS = ((0, 1), (1, 0))
    PLANNED = [
        (1.0, Order(Kind.REBOOT, Key.PROCESS, "p0")),
        (2.0, Order(Kind.REBOOT, Key.PROCESS, "p1")),
        (2.0, Order(Kind.CLOG, Key.PROCESS, "one", clogged=3, cuts=CUTS)),
        (3.0, Order(Kind.REBOOT, Key.PROCESS, "p0")),
        (4.0, Order(Kind.CLOG, Key.PROCESS, "p0", frees=True)),
        (5.0, Order(Kind.REBOOT, Key.PROCESS, "p2")),
    ]

    def ordered(self, who, by=1):
        base = {"t": 9.0, "what": "order", "by": by, "key": "processid"}
        return base | {"order": "Reboot", "value": who}

    def left(self, *events):
        return resume.left_of(self.PLANNED, events, 1)

    def test_what_no_event_tells_of_is_left(self):
        parted = {"t": 9.0, "what": "partition", "shape": "one", "cuts": [[0, 1], [1, 0]]}
        freed = {"key": "processid", "value": "p0"}
        told = [
            self.ordered("p0"),
            self.ordered("p1"),
            parted,
            self.ordered("p0"),
            {"t": 9.0, "what": "unclog", "by": 1, "act": {"unclog": freed}, "ordered": True},
            self.ordered("p2"),
        ]
        for count in range(len(told) + 1):
            self.assertEqual(self.left(*told[:count]), self.PLANNED[count:])
        its = {"t": 9.0, "what": "unclog", "by": 1, "act": {"unclog": freed}}
        self.assertEqual(self.left(told[0], its, self.ordered("p9", by=2)), self.PLANNED[1:])

    def test_one_that_was_passed_over_is_not_left(self):
        self.assertEqual(self.left(self.ordered("p1")), self.PLANNED[2:])

    def test_where_others_order_too_the_events_do_not_tell(self):
        self.assertIsNone(self.left(self.ordered("p0"), self.ordered("p9")))


class Clock(unittest.TestCase):
    """The loop of these tests."""

    @clock.virtual
    async def test_time_jumps_to_the_next_timer(self):
        loop, woken = asyncio.get_running_loop(), []

        async def sleeper(seconds):
            await asyncio.sleep(seconds)
            woken.append((seconds, round(loop.time() - clock.BEGIN, 6)))

        began = time.process_time()
        await asyncio.gather(*map(sleeper, (300, 0.5, 7000)))
        self.assertEqual(woken, [(0.5, 0.5), (300, 300), (7000, 7000)])
        self.assertLess(time.process_time() - began, 10)

    @clock.virtual
    async def test_what_takes_no_time_of_the_loop(self):
        """A thread, a process that is waited for, and a pipe that is read."""
        loop, (source, sink), read = asyncio.get_running_loop(), os.pipe(), []
        loop.add_reader(source, lambda: read.append((os.read(source, 9), loop.time())))
        with patch("time.sleep") as slept:
            await asyncio.to_thread(time.sleep, 5)
        slept.assert_called_once_with(5)
        subprocess.run(["true"], check=True)
        os.write(sink, b"x")
        await asyncio.sleep(3)
        self.assertEqual(read, [(b"x", clock.BEGIN)])
        self.assertAlmostEqual(loop.time(), clock.BEGIN + 3)
        with self.assertRaises(OSError):
            await asyncio.to_thread(os.close, -1)
        loop.remove_reader(source)
        os.close(source)
        os.close(sink)

    @clock.virtual
    async def test_a_signal_comes_when_it_is_sent(self):
        loop, came = asyncio.get_running_loop(), []
        loop.add_signal_handler(signal.SIGUSR1, lambda: came.append(loop.time()))
        loop.call_later(2, os.kill, os.getpid(), signal.SIGUSR1)
        await asyncio.sleep(5)
        self.assertEqual(came, [clock.BEGIN + 2])

    def test_what_never_ends_is_stuck(self):
        async def forever():
            await asyncio.get_running_loop().create_future()

        async def again():
            while True:
                await asyncio.sleep(clock.MOST / 10)

        for hangs in (forever, again):
            with self.assertRaises(clock.Stuck):
                clock.run(hangs())


def undamaged():
    """No disk is damaged."""
    none = {"spared.return_value": 0, "awaits.return_value": (), "conclude.return_value": False}
    return unittest.mock.Mock(**none)


class Waits(unittest.TestCase):
    """Two processes that don't come back."""

    def setUp(self):
        self.store = it = Store.__new__(Store)
        it.ledger = unittest.mock.Mock(losses=[], destroyed={}, now=self.now)
        it.hooks = unittest.mock.Mock(ends={}, asked={1: "ready 1"}, seconds=lambda name: 60.0)
        it.names, it.up, it.gone, it.emptied, it.joined = ["p0", "p1"], {0}, set(), set(), {}
        it.words, self.told = unittest.mock.Mock(out="OUT"), []
        it._show, it._elected, it._ended, it._joining = self.told.append, 0, {}, 0
        it.damages, it.clocks = undamaged(), None

    def now(self):
        return asyncio.get_running_loop().time() - clock.BEGIN

    @clock.virtual
    async def test_what_is_waited_for_is_said_once_before_the_end(self):
        with self.assertRaises(Fault) as raised:
            await self.store.calm()
        self.assertTrue(60 < self.now() < 60.2, self.now())
        waits = "p1 is not back: ready 1 has not answered yet; the logs in OUT may say why"
        ends = "it waits 60 seconds, six times --hook-timeout"
        (told,) = self.told
        self.assertRegex(told[:7], r"  20\.[01]\d")
        self.assertEqual(told[7:], f"  after 20 seconds {waits}; {ends}")
        self.assertEqual(raised.exception.args, (HOOK, f"after 60 seconds {waits}"))

    @clock.virtual
    async def test_what_is_back_soon_is_not_waited_for(self):
        self.store.up = {0, 1}
        await self.store.calm()
        self.assertEqual((self.told, self.now()), ([], 0.0))


class First(unittest.TestCase):
    """When --check-hooks looks first, of a store that acknowledges some records a second, or
    none."""

    async def count(self, a_second):
        loop, began = asyncio.get_running_loop(), asyncio.get_running_loop().time()

        class Records:
            def __len__(self):
                return round(a_second * (loop.time() - began))

        run = unittest.mock.Mock()
        run.ledger.records = Records()
        await checks.HookCheck(run).some_records()
        return len(run.ledger.records), loop.time() - began

    @clock.virtual
    async def test_there_are_some_records(self):
        count, waited = await self.count(5)
        self.assertEqual(count, 20)
        self.assertAlmostEqual(waited, 4, delta=0.1)

    @clock.virtual
    async def test_a_second_of_writes_comes_before(self):
        count, waited = await self.count(100)
        self.assertEqual((count, round(waited, 3)), (100, 1))

    @clock.virtual
    async def test_it_does_not_wait_for_ever(self):
        count, waited = await self.count(0)
        self.assertEqual((count, round(waited)), (0, 11))


class Words(unittest.TestCase):
    """What --check-hooks says that a run should have."""

    TAKE = "for a guarded run, not for --unguarded, take"

    def fitting(self, *measured, pauses=(0, 0.2, 0.5, 1, 2, 4), seconds=60.0):
        return [*checks.fitting(*measured, pauses, seconds)]

    def test_pauses_that_are_long_enough_are_kept(self):
        self.assertEqual(
            self.fitting(0.4, 1.3), [f"{self.TAKE} --pauses 0,0.2,0.5,1,2,4 --seconds 60"]
        )
        self.assertEqual(
            self.fitting(6.0, 8.0, pauses=[8], seconds=90), [f"{self.TAKE} --pauses 8 --seconds 90"]
        )

    def test_a_pause_is_as_long_as_a_heal_and_a_run_as_ten(self):
        short = "--pauses are 1.3 s on average, shorter than a heal: orders would be lessened"
        self.assertEqual(
            self.fitting(0.4, 4.0), [short, f"{self.TAKE} --pauses 1,4,8 --seconds 60"]
        )
        slow = self.fitting(15.2, 24.0)
        self.assertEqual(slow[0], short)
        self.assertEqual(
            slow[1:],
            [
                "--seconds 60 leaves no time for 3 heals",
                f"{self.TAKE} --pauses 16,24,48 --seconds 300",
            ],
        )

    def test_a_start_is_one_of_a_process_that_was_struck(self):
        words = unittest.mock.Mock(pauses=[8], seconds=90.0)
        run = unittest.mock.Mock(words=words, starts=[30.0, 31.0, 32.0])
        run.ledger.healed = [5.0]
        check = checks.HookCheck(run)
        check.begin()
        run.starts.append(4.0)
        self.assertEqual(check.times()[0], "a start took up to 4.0 s, a heal up to 5.0 s")

    def test_where_nothing_is_healed_a_pause_is_as_long_as_a_start(self):
        short = "--pauses are 1.3 s on average, shorter than a start: orders would be lessened"
        self.assertEqual(
            self.fitting(2.1, 0.0), [short, f"{self.TAKE} --pauses 3,3,5 --seconds 60"]
        )


class Pauses(unittest.TestCase):
    def test_what_never_comes_up_is_started_less_and_less_often(self):
        crashes = Crashes()
        pauses = [
            (crashes.add(was_up, 1, []), crashes.pause())[1]
            for was_up in [False] * 8 + [True, False]
        ]
        self.assertEqual(pauses, [0.1, 0.2, 0.4, 0.8, 1.6, 3.2, 5, 5, 0.1, 0.1])


class Ends(unittest.TestCase):
    """What is told of a process that ended by itself."""

    def last(self, status, *log):
        crashes = Crashes()
        crashes.add(True, status, [*log])
        return crashes.last

    def test_a_signal_is_named(self):
        self.assertEqual(self.last(134, "x"), "with status 134 (128 + SIGABRT): x")
        self.assertEqual(self.last(139, "x"), "with status 139 (128 + SIGSEGV): x")
        self.assertEqual(self.last(-9, "x"), "with status -9 (SIGKILL): x")
        for status in (0, 3, 128, 255, -99):
            self.assertEqual(self.last(status, "x"), f"with status {status}: x")
        self.assertEqual(self.last(1), "with status 1: its log says nothing")

    def test_the_first_error_is_why(self):
        """As logs of stores have them: their own lines, by each kind of level and by words."""
        error = "2026-11-30  0:32:10 0 [ERROR] WSREP: failed to open gcomm backend connection: 110"
        galera = [
            "2026-11-30  0:31:40 0 [Note] WSREP: view(view_id(NON_PRIM,exception,1))",
            "2026-11-30  0:31:50 0 [Warning] WSREP: no nodes coming from prim view: error 110",
            error,
            "\t at ./gcomm/src/pc.cpp:connect():160",
            "2026-11-30  0:32:10 0 [ERROR] Aborting",
            "2026-11-30  0:32:11 0 [Note] mariadbd: Shutdown complete",
        ]
        postgres = [
            "00:01 [7] FATAL:  the database system is starting up",
            "00:01 [8] PANIC:  could not locate a valid checkpoint record",
            "00:02 [1] LOG:  startup process (PID 8) was terminated by signal 6: Aborted",
        ]
        zap = [
            '{"level":"warn","msg":"prober detected unhealthy status","error":"refused"}',
            '{"level":"fatal","msg":"failed to recover v3 backend from snapshot"}',
            '{"level":"info","msg":"closed"}',
        ]
        for log, line in (
            (galera, error),
            (postgres, postgres[1]),
            (zap, zap[1]),
            (["2026 W | an error", "2026 E | etcdserver: no space", "c"], "2026 E | etcdserver"),
            (["[7] 00:01 [ERR] JetStream: disk is full", "[7] 00:02 [INF] Exiting"], "[7] 00:01"),
            (["00:01 [error] <0.1.0> boot failed", "00:02 [info] stopped"], "00:01 [error]"),
            (["ERROR [main] - Unexpected exception", "INFO [main] - Exiting"], "ERROR [main]"),
            (["00001|raft|ERR|no leader", "00002|x|INFO|Exiting"], "00001|raft|ERR"),
            (["error: no space", "at exit"], "error: no space"),
            (["mystore: error: no space", "at exit"], "mystore: error"),
            (["0 errors", "an error-free start", "bye"], "bye"),
            (["WARN - java.net.ConnectException: refused", "bye"], "bye"),
        ):
            with self.subTest(line=line):
                self.assertIn(f": {line}", self.last(3, *log))

    def test_the_first_error_is_kept_with_the_last_lines(self):
        with tempfile.TemporaryDirectory() as folder:
            path = Path(folder, "log")
            first, filler = "ERROR the first", "x" * 99
            for before, behind, is_told in (
                (0, LOG_END, True),
                (LOG_END, LOOKED_AT - 200, True),
                (0, LOOKED_AT + 200, False),
                (0, 200, True),
            ):
                lines = [filler] * (before // 100) + [first, "ERROR another"]
                lines += [filler] * (behind // 100)
                path.write_text("".join(f"{line}\n" for line in lines))
                with self.subTest(before=before, behind=behind):
                    log = end_of_log(path, 0)
                    self.assertEqual(log.count(first), is_told)
                    self.assertEqual(log[-1], filler)
                    self.assertLessEqual(len("".join(log)), LOG_END + len(first))
            path.write_text(f"{first}\nERROR another\n{filler}\n")
            begin = len(first) + 1
            self.assertEqual(end_of_log(path, begin), ["ERROR another", filler])

    def test_before_a_backtrace_is_why(self):
        frames = [
            "#0  0x59aad9 in print_backtrace+9",
            "#1  0x446a37 in _ZL12sig_fatal_cb",
            "#10 0x69262f in coro_init+3f",
        ]
        begun = [
            "ready",
            "Segmentation fault",
            "  code: SEGV_MAPERR",
            "  siginfo: 0x7f06",
            "the server has already crashed",
        ]
        java = [
            "Exception in thread main: no space",
            "\tat store.Main.run(Main.java:7)",
            "\tat store.Main.main(Main.java:3)",
        ]
        go = ["panic: no space", "goroutine 1 [running]:", "main.main()", "\t/src/main.go:5 +0x1d"]
        for log, line in (
            ([*begun, *frames], "Segmentation fault"),
            (java, java[0]),
            (go, go[0]),
            (["SIGBUS at 0x1", "registers", *frames], "SIGBUS at 0x1"),
            (["registers", *frames], "its log ends with a backtrace"),
            ([*begun, *frames, "restart me"], "Segmentation fault"),
            ([*frames, "restart me"], "restart me"),
        ):
            with self.subTest(log=log):
                self.assertEqual(self.last(3, *log), f"with status 3: {line}")


class Logs(unittest.TestCase):
    def test_what_write_said_most_often_is_known_whatever_its_figures(self):
        with tempfile.TemporaryDirectory() as folder:
            log = HookLog(Path(folder, "hooks.log"), lambda: 0.0)
            self.assertEqual(log.said_by_write(), ("", 0))
            for call, line in (
                ("write", "Traceback"),
                ("write", "key 7 has no quorum"),
                ("check", "refused"),
                ("check", "refused"),
                ("check", "refused"),
                ("write", "Traceback"),
                ("write", "  key 12 has no quorum"),
                ("write", "closed"),
                ("write", ""),
            ):
                log._write(call, line.encode())
            self.assertEqual(log.said_by_write(), ("key 7 has no quorum", 2))
            log._file.close()


class Elections(unittest.TestCase):
    """`join` and `leave` of what was destroyed wait for `elect`."""

    async def called(self, gone):
        it, called = Store.__new__(Store), []
        it.ledger, it._elected, it.emptied, it.gone = unittest.mock.Mock(losses=[0]), 0, {1}, gone
        it._joining, it._alone_until, it.up, it.names = 0, 0.0, {0}, ["p0", "p1"]
        it.damages = undamaged()
        it.hooks, it.note = unittest.mock.Mock(names={"join", "leave"}), unittest.mock.Mock()

        async def says(hook, number):
            called.append(hook)
            return True

        async def empty(number):
            pass

        it.hooks.says, it._empty, it._note_join = says, empty, unittest.mock.Mock()
        task = asyncio.create_task(it._join(1))
        await asyncio.sleep(50)
        before = [*called]
        it._elected = 1
        await task
        return before, called

    @clock.virtual
    async def test_both_are_called_once_elect_has_said_who_is_primary(self):
        self.assertEqual(await self.called(set()), ([], ["join"]))
        self.assertEqual(await self.called({1}), ([], ["leave"]))


class Deeds(unittest.TestCase):
    """What is done at once."""

    @clock.virtual
    async def test_who_is_interrupted_is_told_by_what(self):
        async def done():
            try:
                await asyncio.sleep(60)
            except asyncio.CancelledError:
                raise OSError("its command was ended") from None

        doing = asyncio.create_task(all_of([done(), done()]))
        await asyncio.sleep(1)
        doing.cancel(signal.SIGTERM)
        with self.assertRaises(asyncio.CancelledError) as end:
            await doing
        self.assertEqual(end.exception.args, (signal.SIGTERM,))


class Strikes(unittest.TestCase):
    """A strike on slow disks, as `--disks` has them."""

    async def begin(self):
        self.store = store = Store.__new__(Store)
        store.disks, store.emptied, store.joined, self.begun = None, set(), {}, []
        store.hooks, store.not_whole = unittest.mock.Mock(ends={}, names=set()), {}
        store.elsewhere, store.clogged = Elsewhere(store.hooks), set()
        store.words, store.damages = unittest.mock.Mock(disks=None), undamaged()
        store._stopping = set()
        store.tasks = asyncio.get_running_loop()
        store._keeping = {it: asyncio.create_task(asyncio.sleep(60)) for it in range(3)}

    async def keep(self, number):
        self.begun.append(number)

    async def empty(self, number):
        await asyncio.sleep(0.01)

    @clock.virtual
    async def test_nobody_comes_back_before_the_losses_of_all_are_told(self):
        await self.begin()
        with patch.multiple(self.store, _keep=self.keep, _empty=self.empty, create=True):
            await self.store.strike([0, 2], Kind.REBOOT_AND_DELETE)
            self.assertEqual(self.begun, [])  # the losses are told before the next await
            await asyncio.sleep(0)
            self.assertEqual(self.begun, [0, 2])
        self.store._keeping[1].cancel()
