"""Runs that die, and are gone on with; and guards that die: in virtual time, on a toy store.

A run dies as by SIGKILL: what its folder has at that moment is copied, and the copy is gone on with
by another store that has what the folders have.
"""

from __future__ import annotations

import asyncio
import io
import json
import os
import shutil
import signal
from collections import Counter
from contextlib import ExitStack, redirect_stderr, suppress
from pathlib import Path
from random import Random
from typing import Any, TypeVar
from unittest.mock import patch

import clock
from faultyard.guard import Guard
from faultyard.verdicts import Judged
from lab import CLUSTER, HOOKS, Case, Ran
from nemesis import main
from toy import Call, Drops, Mode, Toy, ends

_Store = TypeVar("_Store", bound=Toy)
READERS = "start ready whole write read check salvage"


class Died(KeyboardInterrupt):
    """The tool is no more; asyncio lets that through."""


class Mortal(Toy):
    """A store whose run may be gone on with: its ports are nobody's. It is slow, and few records
    are judged soon."""

    def __init__(self, seed: int, *modes: Mode, listed: str = READERS, **more: Any) -> None:
        super().__init__(seed, *modes, listed=listed, pace=0.3, **more)

    def hold_ports(self, first: int) -> None:
        pass

    def end_strays(self, folder: Path) -> None:
        pass


class Dying(Case):
    """Runs that die."""

    def died(self, out: Path, *words: object, toy: Toy, at: float) -> Path:
        """What the folder of a run has that died so many seconds after its beginning."""
        copy = out.parent / f"{out.name}-died"
        given = [str(CLUSTER), str(HOOKS), *map(str, words), "--out", str(out), "--quiet"]

        def die() -> None:
            shutil.copytree(out, copy, symlinks=True)
            raise Died

        async def chaos(whole: Any) -> int:
            asyncio.get_running_loop().call_later(at, die)
            return int(await whole)

        with self.unheard(), suppress(Died):
            main.ended(main.parsed(given), toy, lambda it: clock.run(chaos(it)))
        return copy

    def unheard(self) -> ExitStack:
        """What a run says doesn't count that has died, and nobody judges it."""
        found = ExitStack()
        found.enter_context(redirect_stderr(io.StringIO()))
        for name in ("main.say", "store.say", "main.report"):
            found.enter_context(patch(f"nemesis.{name}", return_value=0))
        found.enter_context(patch("nemesis.run.judge", return_value=Judged()))
        return found

    def resumed(self, folder: Path, toy: Toy, status: int, *words: object) -> Ran:
        """A run that is gone on with."""
        told, said = list[str](), io.StringIO()
        given = ["--resume", str(folder), "--keep", *map(str, words)]
        with redirect_stderr(said), ExitStack() as patched:
            for name in ("nemesis.main.say", "nemesis.store.say"):
                patched.enter_context(patch(name, told.append))
            for name in ("nemesis.main.draw", "faultyard.show"):
                patched.enter_context(patch(name, return_value="<svg/>"))
            ended = main.ended(main.parsed(given), toy, clock.run)
        it = Ran(ended, "".join(f"{line}\n" for line in told) + said.getvalue(), folder, toy)
        self.assertEqual(ended, status, it.told)
        return it

    def follow(self, first: Toy, second: _Store) -> _Store:
        """Another store, which knows of the one before what a store has on its disks."""
        second.acked, second.ok_at = first.acked, first.ok_at
        second.filling, second.downs = set(first.filling), dict(first.downs)
        return second

    def both(
        self,
        *words: object,
        at: float,
        status: int = 0,
        seed: int = 0,
        modes: tuple[Mode, ...] = (),
    ) -> Ran:
        """A run that dies at a time, and is gone on with."""
        first = Mortal(seed, *modes)
        folder = self.died(self.room / f"run-{at}-{seed}", *words, toy=first, at=at)
        second = self.follow(first, Mortal(seed + 1000, *modes))
        it = self.resumed(folder, second, status)
        self.assertIsNone(it.is_history())
        return it

    def assert_true(self, it: Ran) -> None:
        """All that was acknowledged counts, and was read."""
        acked = {tuple(line["value"]) for line in it.operations("write", "ok")}
        self.assertLessEqual(acked, set(it.toy.acked.items()))
        self.assertEqual(it.acked, len(acked))
        self.assert_kept(it)

    def assert_kept(self, it: Ran) -> None:
        self.assertGreater(it.acked, 3, it.told)
        self.assertEqual(it.counts["kept"] + it.counts["stale"], it.acked, it.told)


class Resumes(Dying):
    def test_a_run_goes_on_and_ends_with_its_verdict(self) -> None:
        words = ("--seed", 3, "--seconds", 9, "--pauses", "0.5,1")
        it = self.both(*words, at=4.0)
        self.assert_true(it)
        self.assertRegex(it.told, r"\ngone on with at \d+\.\d\d s, where the tool had died\n")
        (resumed,) = it.events("resumed")
        orders = [order["t"] for order in it.orders()]
        self.assertTrue(any(t < resumed["t"] for t in orders), orders)
        self.assertGreater(sum(t > resumed["t"] for t in orders), 5)
        restarts = [event["process"] for event in it.events("restart")]
        self.assertTrue({0, 1, 2} >= set(restarts) and restarts)
        (over,) = it.events("over")
        self.assertEqual(over["status"], 0)

    def test_the_orders_are_those_that_were_still_to_come(self) -> None:
        words = ("--seed", 3, "--seconds", 8, "--pauses", "0.5,1")
        whole = self.ran(*words, toy=Mortal(0), status=0)
        planned = [(it["order"], it["value"]) for it in whole.orders()]
        it = self.both(*words, at=4.0)
        done = [(order["order"], order["value"]) for order in it.orders()]
        self.assertLessEqual(abs(len(planned) - len(done)), 1)
        self.assertEqual(done[:4], planned[:4])
        self.assertEqual(done[-4:], planned[-4:])

    def test_at_any_moment(self) -> None:
        dice = Random("moments")
        words = ("--seconds", 4, "--plan", "attrition")
        for seed in range(6):
            with self.subTest(seed):
                at = dice.uniform(0.05, 5)
                it = self.both("--seed", seed, *words, at=at, seed=seed)
                self.assert_true(it)
                shutil.rmtree(it.out)

    def test_again_and_again(self) -> None:
        words = ("--seed", 4, "--seconds", 7, "--pauses", "0.5")
        first = Mortal(4)
        folder = self.died(self.room / "run", *words, toy=first, at=2.0)
        second = self.follow(first, Mortal(5))
        with self.unheard():
            again = self.room / "again"

            def die() -> None:
                shutil.copytree(folder, again)
                raise Died

            async def chaos(whole: Any) -> int:
                asyncio.get_running_loop().call_later(2.0, die)
                return int(await whole)

            with self.assertRaises(Died):
                given = main.parsed(["--resume", str(folder)])
                main.ended(given, second, lambda it: clock.run(chaos(it)))
        it = self.resumed(again, self.follow(second, Mortal(6)), 0)
        self.assertIsNone(it.is_history())
        self.assert_true(it)
        self.assertEqual(len(it.events("resumed")), 2)
        self.assertEqual(it.told.count("gone on with at"), 2)

    def test_what_is_lost_is_the_stores_fault_still(self) -> None:
        """A store that drops records is found out, whether they were written before or later."""
        it = self.both("--seed", 2, "--seconds", 7, at=3.5, status=1, modes=(Drops(7),))
        (resumed,) = it.events("resumed")
        lost = [line for line in it.lines("records.jsonl") if line["verdict"] == "lost"]
        self.assertTrue(any(line["acked"] < resumed["t"] for line in lost))
        self.assertTrue(any(line["acked"] > resumed["t"] for line in lost))
        for line in lost:
            self.assertIn("the store lost it", line["fault"])

    def test_unguarded_it_loses_what_it_destroyed(self) -> None:
        given = self.given(*((2.0 + n / 10, f"p{n}", "RebootAndDelete") for n in range(3)))
        first = Mortal(1, listed="start ready whole write read")
        words = ("--seconds", 4, "--unguarded", *given)
        folder = self.died(self.room / "run", *words, toy=first, at=2.6)
        second = self.follow(first, Mortal(2, listed="start ready whole write read"))
        it = self.resumed(folder, second, 1)
        self.assertIsNone(it.is_history())
        lost = {line["key"] for line in it.lines("lost.jsonl")}
        early = {key for key, at in first.ok_at.items() if at < first.began + 2.0}
        self.assertLess(len(early - lost), len(early))
        self.assertTrue(lost <= set(first.acked))

    def test_an_entry_that_was_answered_and_never_done(self) -> None:
        """The audit says that p1 was emptied: so it is, and it comes back as an emptied one."""
        words = ("--seconds", 6, *self.given((2.0, "p1", "RebootAndDelete")))
        first = Mortal(1)
        with patch("faultyard.harness.Harness._note_order", side_effect=Died):
            folder = self.room / "run"
            given = [str(CLUSTER), str(HOOKS), *map(str, words), "--out", str(folder), "--quiet"]
            kept: list[str] = []

            def whole(it: Any) -> int:
                async def chaos() -> int:
                    try:
                        return int(await it)
                    except BaseException:
                        kept.append("died")
                        raise

                return clock.run(chaos())

            with self.unheard(), self.assertRaises(BaseException):
                main.ended(main.parsed(given), first, whole)
        self.assertEqual(kept, ["died"])
        events = [json.loads(it) for it in (folder / "events.jsonl").read_text().splitlines()]
        self.assertEqual([it for it in events if it["what"] == "order"], [])
        it = self.resumed(folder, self.follow(first, Mortal(2)), 0)
        self.assertIsNone(it.is_history())
        self.assertEqual([order["targets"] for order in it.orders()], [[1]])
        self.assertEqual([event["processes"] for event in it.events("destroyed")], [[1]])
        self.assertEqual([event["process"] for event in it.events("heal")], [1])
        self.assertEqual(it.counts["lost"], 0)

    def test_a_damaged_disk_is_emptied(self) -> None:
        words = ("--seconds", 8, "--damage", "bits", "--damage-seconds", 3, "--readers", 0)
        it = self.both(*words, *self.given((2.0, "p1", "RebootAndDelete")), at=3.0)
        self.assertEqual([event["process"] for event in it.events("damage")], [1])
        self.assertEqual(it.events("observed"), [])
        self.assertIn("1 disks damaged: 1 bits\n  not over: 1 (1 bits)\n", it.told)
        self.assertEqual([event["process"] for event in it.events("heal")], [1])
        self.assert_true(it)

    def test_who_was_killed_for_good_stays_away(self) -> None:
        words = ("--seconds", 8, *self.given((1.0, "p2", "KillInstantly"), (6.0, "p0", "Reboot")))
        it = self.both(*words, at=4.0)
        (resumed,) = it.events("resumed")
        later = [e for e in it.events("up") if e["process"] == 2 and e["t"] > resumed["t"]]
        self.assertEqual(later, [])
        self.assertNotIn("start 2", it.toy.calls)
        self.assert_true(it)

    def test_what_was_clogged_is_let_go(self) -> None:
        given = self.room / "given.jsonl"
        order = {"t": 1, "what": "order", "key": "processid", "value": "p1", "order": "Clog"}
        given.write_text(json.dumps(order | {"clogged": 60}) + "\n")
        it = self.both("--seconds", 8, "--replay", given, at=4.0)
        (resumed,) = it.events("resumed")
        self.assertTrue(any(event["t"] <= resumed["t"] for event in it.events("unclog")))
        self.assert_true(it)

    def test_while_it_reads(self) -> None:
        """Nothing is written any more, and what was read before counts as well."""
        words = ("--seed", 1, "--seconds", 3)
        first = Mortal(1)
        first.own["read"] = ends(1)
        folder = self.died(self.room / "run", *words, toy=first, at=20.0)
        self.assertIn('"written"', (folder / "events.jsonl").read_text())
        it = self.resumed(folder, self.follow(first, Mortal(2)), 0)
        self.assertIsNone(it.is_history())
        self.assert_true(it)
        self.assertEqual(sum(line["f"] == "written" for line in it.lines("history.jsonl")), 1)
        self.assertNotIn("write", it.toy.calls)

    def test_before_anything_was_written_it_begins_anew(self) -> None:
        it = self.both("--seed", 1, "--seconds", 3, at=0.1)
        self.assertEqual(it.events("resumed"), [])
        self.assert_true(it)

    def test_a_last_line_that_is_cut_off_was_never_done(self) -> None:
        first = Mortal(1)
        words = ("--seed", 1, "--seconds", 6)
        folder = self.died(self.room / "run", *words, toy=first, at=4.0)
        for name in ("audit", "events.jsonl", "history.jsonl"):
            with (folder / name).open("a") as file:
                file.write('{"act":{"kil')
        it = self.resumed(folder, self.follow(first, Mortal(2)), 0)
        self.assertIsNone(it.is_history())
        self.assert_true(it)

    def test_registers_go_on(self) -> None:
        listed = f"{READERS} get"

        async def get(call: Call) -> int:
            async for line in call.lines():
                found = await toys[-1].everything(call.able)
                call.print(found.get(line, "none"))
            return 0

        toys = [Mortal(1, listed=listed, hooks={"get": get})]
        words = ("--seed", 1, "--seconds", 5, "--registers", 2, *self.given())
        folder = self.died(self.room / "run", *words, toy=toys[0], at=3.0)
        toys.append(Mortal(2, listed=listed, hooks={"get": get}))
        it = self.resumed(folder, self.follow(*toys), 10)  # it isn't linearizable
        self.assertIsNone(it.is_history())
        counts = Counter(line["value"][0] for line in it.operations("write", "invoke"))
        again = {key for key, count in counts.items() if count > 1}
        self.assertEqual(again, {"r/000000001", "r/000000002"})
        self.assert_kept(it)


class Refusals(Dying):
    def test_what_has_ended_says_what_it_came_to(self) -> None:
        it = self.ran("--seconds", 2, toy=Mortal(0), status=0)
        again = self.resumed(it.out, Mortal(0), 0)
        self.assertRegex(again.told, r"has ended with status 0: \d+ acknowledged: ")
        self.assertEqual(again.toy.calls, [])

    def test_a_run_that_lives_is_left_alone(self) -> None:
        first = Mortal(1)
        folder = self.died(self.room / "run", "--seconds", 4, toy=first, at=2.0)
        before = {path: path.read_bytes() for path in folder.iterdir() if path.is_file()}
        with Guard(CLUSTER, folder=folder, after=folder / "audit"):
            it = self.resumed(folder, Mortal(0), 2)
            self.assertIn("goes on: nothing has to be gone on with", it.told)
        after = {path: path.read_bytes() for path in folder.iterdir() if path.is_file()}
        self.assertEqual(
            {**after, folder / "guard.log": b""}, {**before, folder / "guard.log": b""}
        )

    def test_what_is_no_run_and_what_begins_anew(self) -> None:
        for words, text in (
            (["--resume", str(self.room)], "has no run that can be gone on with"),
            (["--resume", str(self.room / "none")], "has no run that can be gone on with"),
        ):
            said = io.StringIO()
            with redirect_stderr(said), self.assertRaises(SystemExit) as ended:
                main.parsed(words)
            self.assertEqual(ended.exception.code, 2)
            self.assertIn(text, said.getvalue())


class Guards(Case):
    """A guard that dies is started again behind its audit, and the run goes on."""

    def killer(self, *times: float) -> Any:
        """Kills the guard of a run at these times."""
        found: list[Guard] = []
        opened = Guard.__init__

        def noted(guard: Guard, *words: Any, **more: Any) -> None:
            opened(guard, *words, **more)
            if more.get("folder"):
                found.append(guard)

        def kill() -> None:
            transport: Any = found[-1]._transport
            os.kill(transport._process.pid, signal.SIGKILL)
            transport._process.wait()

        def during() -> None:
            for at in times:
                asyncio.get_running_loop().call_later(at, kill)

        patched = patch.object(Guard, "__init__", noted)
        patched.start()
        self.addCleanup(patched.stop)
        return during

    def test_it_goes_on_and_says_so(self) -> None:
        words = ("--seed", 3, "--seconds", 12, "--pauses", "0.5,1")
        toy = Mortal(0)
        it = self.ran(*words, toy=toy, status=0, during=self.killer(3.0, 6.0, 6.001))
        self.assertEqual(it.told.count("\nthe guard was started again at "), 2)
        self.assertIn("status -9", it.told)
        self.assertEqual(len(it.events("guard")), 2)
        self.assertRegex(it.told, rf"audit legal {len(it.audit())};")
        self.assertGreater(len(it.orders()), 8)

    def test_one_that_dies_after_its_last_answer_has_said_all(self) -> None:
        toy = Mortal(0)
        words = ("--seconds", 2, *self.given((0.5, "p1", "Reboot")))
        during = self.killer(*(2 + n / 2 for n in range(8)))
        it = self.ran(*words, toy=toy, status=0, during=during)
        self.assertRegex(it.told, rf"audit legal {len(it.audit())};")

    def test_one_that_dies_again_and_again_ends_the_run(self) -> None:
        toy = Mortal(0)
        with patch.object(Guard, "begin_again", side_effect=lambda: None):
            it = self.ran("--seed", 3, "--seconds", 9, toy=toy, status=4, during=self.killer(3.0))
        self.assertIn("status -9", it.told)
