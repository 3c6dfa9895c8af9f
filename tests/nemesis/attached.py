"""A cluster that is up already: in virtual time, on a toy store that runs before the tool does."""

from __future__ import annotations

import asyncio
import io
import json
from collections.abc import Awaitable, Callable, Collection, Iterator
from contextlib import contextmanager, redirect_stderr
from pathlib import Path
from typing import Any
from unittest.mock import patch

import clock
import lab
from lab import Case, Ran
from nemesis import main
from resumed import Dying
from toy import Call, Crashes, Mode, Process, Toy, ends, forever, hangs

LISTED = "start ready whole write read check kill empty join leave name pause resume"
AT = ("--at", "h0,h1,h2")
NAMED = ("--attach", "orders-test", *AT)


class Running(Toy):
    """Its members run beside the tool, which starts and kills them by hooks alone."""

    def __init__(self, seed: int = 0, *modes: Mode, listed: str = LISTED, **more: Any) -> None:
        super().__init__(seed, *modes, listed=listed, pace=0.3, **more)
        self.beside: dict[int, Process] = {}
        self.events: dict[int, asyncio.Event] = {}
        self.home = Path()  # of the members' folders
        self.emptied: list[int] = []

    def log_of(self, number: int) -> Path:
        return self.home / str(number) / "log"

    def up(self) -> set[int]:
        return set(self.members)

    async def run(self, number: int) -> None:
        """Has a member run."""
        self.log_of(number).parent.mkdir(exist_ok=True)
        call = Call(["start", str(number)], {})
        call.files = {"stderr": io.BytesIO()}
        self.beside[number] = Process(super().start, call)
        while number not in self.members and self.beside[number].returncode is None:
            await asyncio.sleep(0.01)

    async def begin(self, home: Path, count: int = 3) -> None:
        self.home, self.began = home, asyncio.get_running_loop().time()
        for number in range(count):
            await self.run(number)

    async def start(self, call: Call) -> int:
        if call.number not in self.members:
            await self.run(call.number)
        return 0

    async def kill(self, call: Call) -> int:
        if process := self.beside.pop(call.number, None):
            await process.end()
        return 0

    async def empty(self, call: Call) -> int:
        self.emptied.append(call.number)
        self.log_of(call.number).unlink(missing_ok=True)
        return 0

    async def leave(self, call: Call) -> int:
        return 0

    async def pause(self, call: Call) -> int:
        self.beside[call.number].call.goes_on.clear()
        return 0

    async def resume(self, call: Call) -> int:
        if call.number in self.beside:
            self.beside[call.number].call.goes_on.set()
        return 0

    async def name(self, call: Call) -> int:
        call.print("orders-test")
        return 0


class Attached(Case):
    is_shown = False

    def attached(self, toy: Running, *words: object, status: int, count: int = 3) -> Ran:
        """A run on a cluster of which so many members are up."""
        home = self.room / f"home-{self.runs}"
        home.mkdir()
        during: list[Callable[[], Awaitable[None]]] = [lambda: toy.begin(home, count)]

        async def whole(it: Any) -> int:
            await during[0]()
            self.before = dict(toy.members)
            try:
                return int(await it)
            finally:
                self.after = dict(toy.members)

        run = clock.run
        with patch.object(lab.clock, "run", lambda it: run(whole(it))):
            return self.ran(*words, toy=toy, status=status)


class Resumes(Attached, Dying):
    """A run died that had attached: the cluster is up when it is gone on with."""

    @contextmanager
    def beside(self, toy: Running, up: Collection[int]) -> Iterator[None]:
        """These members of a store run before the tool does."""
        toy.home, run = self.room / "home", clock.run

        async def whole(it: Any) -> int:
            for number in up:
                await toy.run(number)
            try:
                return int(await it)
            finally:
                self.after = set(toy.members)

        with patch.object(clock, "run", lambda it: run(whole(it))):
            yield

    def test_it_is_left_up_and_whole(self) -> None:
        """It dies as p1 has been emptied, and isn't whole: that is done again."""
        self.room.joinpath("home").mkdir()
        first, second = Running(), Running(1)
        given = self.given((1, "p1", "RebootAndDelete"), (5, "p0", "Reboot"))
        words = (*NAMED, "--seconds", 7, *given)
        with self.beside(first, range(3)):
            folder = self.died(self.room / "run", *words, toy=first, at=1.5)
        self.assertEqual(first.emptied, [1, 1])  # when it was struck, and before its `join`
        self.follow(first, second)
        with self.beside(second, (0, 2)):
            it = self.resumed(folder, second, 0)
        self.assertIsNone(it.is_history())
        self.assertIn("\norders-test is left as it was found: all are up and whole\n", it.told)
        self.assertEqual(self.after, {0, 1, 2})
        self.assertEqual(set(second.emptied), {1})
        calls = {call for call in second.calls if call.split()[0] in ("start", "kill", "setup")}
        self.assertEqual(calls, {"kill 1", "start 1", "kill 0", "start 0"})
        self.assertEqual([event["process"] for event in it.events("heal")], [1])
        self.assert_true(it)

    def test_another_cluster_is_not_touched(self) -> None:
        self.room.joinpath("home").mkdir()
        first, second = Running(), Running(1)
        with self.beside(first, range(3)):
            folder = self.died(
                self.room / "run", *NAMED, "--seconds", 7, *self.given(), toy=first, at=3.0
            )

        async def name(call: Call) -> int:
            call.print("orders")
            return 0

        second.own["name"] = name
        with self.beside(self.follow(first, second), range(3)):
            it = self.resumed(folder, second, 2)
        self.assertIn("the cluster is 'orders' by the hook `name`; nothing was touched", it.told)
        words = {call.split()[0] for call in second.calls}
        self.assertEqual(words, {"hooks", "name"})


class Attaches(Attached):
    def test_it_is_left_up_and_whole(self) -> None:
        toy = Running()
        given = self.given((1, "p1", "RebootAndDelete"), (4, "p0", "Reboot"))
        it = self.attached(toy, *NAMED, "--seconds", 7, *given, status=0)
        self.assertIn("\norders-test is left as it was found: all are up and whole\n", it.told)
        self.assertEqual(set(self.after), {0, 1, 2})
        self.assertEqual(self.before[2], self.after[2])
        self.assertNotEqual(self.before[1], self.after[1])
        self.assertEqual(set(toy.emptied), {1})
        self.assertEqual(
            {call for call in toy.calls if call.startswith("start")}, {"start 0", "start 1"}
        )
        self.assertNotIn("setup", toy.calls)
        have = [set(toy.disk(number)) for number in range(3)]
        acked = {line["value"][0] for line in it.operations("write", "ok")}
        self.assertGreater(len(acked), 10)
        self.assertTrue(acked <= have[0] | have[1] and acked <= have[1] | have[2])

    def test_nothing_is_started_emptied_or_cut_at_the_beginning(self) -> None:
        toy = Running()
        it = self.attached(toy, *NAMED, "--seconds", 2, *self.given(), status=0)
        words = {call.split()[0] for call in toy.calls}
        self.assertEqual(words & {"start", "empty", "kill", "join", "setup", "pause"}, set())
        self.assertEqual(self.before, self.after)
        self.assertEqual(it.orders(), [])

    def test_what_is_there_stays_and_is_nobodys(self) -> None:
        """Its keys go on behind those that were there, of which nothing is said."""
        toy, twice = Running(), Running(1)
        self.attached(toy, *NAMED, "--seconds", 2, *self.given(), status=0)
        before = toy.disk(0) | toy.disk(1) | toy.disk(2)

        async def begin(home: Path, count: int = 3) -> None:
            for number in range(3):
                (home / str(number)).mkdir()
                lines = "".join(f"{key} {value}\n" for key, value in before.items())
                (home / str(number) / "log").write_text(lines)
            await Running.begin(twice, home, count)

        twice.begin = begin  # type: ignore[method-assign]
        it = self.attached(twice, *NAMED, "--seconds", 2, *self.given(), status=0)
        first = min(int(line["value"][0][2:]) for line in it.operations("write", "invoke"))
        self.assertEqual(first, max(int(key[2:]) for key in before) + 1)
        told = {line["value"][0] for line in it.operations("read", "ok")}
        self.assertEqual(told & set(before), set())
        self.assertEqual(it.counts["wrong"], 0)
        for key, value in before.items():
            self.assertIn(value, {twice.disk(number).get(key) for number in range(3)})

    def test_who_is_killed_for_good_is_named(self) -> None:
        toy = Running()
        given = self.given((1, "p1", "KillInstantly"))
        it = self.attached(toy, *NAMED, "--seconds", 4, *given, status=0)
        self.assertIn("\nleft so: p1 was killed for good\n", it.told)
        self.assertNotIn("is left as it was found", it.told)
        self.assertEqual(set(self.after), {0, 2})

    def test_who_does_not_come_back_is_named_with_its_hook(self) -> None:
        toy = Running(hooks={"join": ends(1, "no room")})
        given = self.given((1, "p1", "RebootAndDelete"))
        words = (*NAMED, "--seconds", 3, "--hook-timeout", 2, *given)
        it = self.attached(toy, *words, status=0)
        why = r"\nleft so: p1 is not back: join 1 ended with status 1 \(no room\)"
        self.assertRegex(it.told, why)
        self.assertEqual(set(self.after), {0, 2})

    def test_a_run_that_is_broken_off_leaves_up_what_it_can(self) -> None:
        """A clog is let go, who is down is started, and who lacks records is named."""
        given = self.room / "given.jsonl"
        orders = [(1, "p0", "Clog"), (1.5, "p1", "RebootAndDelete"), (1.6, "p2", "Reboot")]
        lines = [
            {
                "t": t,
                "what": "order",
                "key": "processid",
                "value": who,
                "order": kind,
                "clogged": 90,
            }
            for t, who, kind in orders
        ]
        given.write_text("".join(json.dumps(line) + "\n" for line in lines))
        toy = Running()

        async def start(call: Call) -> int:
            await asyncio.sleep(1)
            return await Running.start(toy, call)

        async def write(call: Call) -> int:
            async for line in call.lines():
                if asyncio.get_running_loop().time() > toy.began + 3:
                    call.print("rubbish")
                    continue
                key, value = line.split()
                call.print(f"ok {int(key[2:])}" if await toy.stored(key, value) else "no")
            return 0

        toy.own |= {"start": start, "write": write, "join": ends(1)}
        it = self.attached(toy, *NAMED, "--seconds", 60, "--replay", given, status=3)
        self.assertIn("write printed 'rubbish'", it.told)
        self.assertIn("left so: p1 was emptied, and has not joined", it.told)
        self.assertEqual(set(self.after), {0, 2})
        self.assertTrue(toy.beside[0].call.goes_on.is_set())

    def test_a_start_that_stays_is_refused_as_it_would_end_with_the_tool(self) -> None:
        toy = Running()

        async def start(call: Call) -> int:
            await Running.start(toy, call)
            return await forever()

        toy.own["start"] = start
        given = self.given((1, "p1", "Reboot"))
        words = (*NAMED, "--seconds", 20, "--hook-timeout", 3, *given)
        it = self.attached(toy, *words, status=3)
        self.assertIn("`start 1` goes on, though `ready 1` says yes: with --attach", it.told)

    def test_what_dies_by_itself_is_started_again(self) -> None:
        toy = Running(0, Crashes(2, 2.0))
        it = self.attached(toy, *NAMED, "--seconds", 9, *self.given(), status=0)
        self.assertIn("start 2", toy.calls)
        self.assertIn("p2 ended by itself", it.told)


class Refusals(Attached):
    def refused(
        self, text: str, *words: object, toy: Running | None = None, count: int = 3
    ) -> None:
        """One line, and nothing is touched."""
        toy = toy or Running()
        it = self.attached(toy, *words, "--seconds", 2, status=2, count=count)
        self.assertIn(text, it.told)
        self.assertEqual(it.told.count("\n"), 1, it.told)
        words = {call.split()[0] for call in toy.calls}
        self.assertEqual(words - {"hooks", "name", "ready", "read"}, set())
        self.assertEqual(self.before, self.after)
        self.assertFalse(it.out.exists())

    def test_another_name(self) -> None:
        said = "the cluster is 'orders-test' by the hook `name`; nothing was touched"
        self.refused(f"--attach orders: {said}", "--attach", "orders", *AT)
        for name in ("", " "):
            with redirect_stderr(io.StringIO()), self.assertRaises(SystemExit) as ended:
                main.parsed([str(lab.CLUSTER), str(lab.HOOKS), "--attach", name, *AT])
            self.assertEqual(ended.exception.code, 2)
        toy = Running(hooks={"name": ends(1, "no route")})
        self.refused("name ended with status 1 (no route); nothing was touched", *NAMED, toy=toy)
        self.refused("name hung; nothing", *NAMED, toy=Running(hooks={"name": hangs}))

    def test_one_that_is_not_up(self) -> None:
        self.refused("--attach: p2 isn't up: ready 2 ended with status 1", *NAMED, count=2)
        toy = Running(hooks={"read": ends(1)})
        self.refused("--attach: read ended with status 1; nothing was touched", *NAMED, toy=toy)

    def test_hooks_that_it_needs(self) -> None:
        for name in ("name", "kill", "empty"):
            listed = " ".join(it for it in LISTED.split() if it != name)
            self.refused(f"--attach needs a hook `{name}`", *NAMED, toy=Running(listed=listed))

    def test_where_it_is(self) -> None:
        self.refused("--attach needs --at", "--attach", "orders-test")
        self.refused("starts ends with this tool", *NAMED, "--on", "ssh:h0,h1,h2")
