"""Hooks that hang, lie, fail, print rubbish and die, in virtual time on a toy store."""

import asyncio
import re

from lab import Case, Ran
from toy import Call, SaysMore, Toy, ends, hangs, throws

STARTS = "start whole write read"


class Hooks(Case):
    is_shown = False

    def wrong(self, toy: Toy, message: str, *words: object, status: int = 3, **more: object) -> Ran:
        """A run of a store with such hooks, which says that."""
        words = ("--seconds", 3, "--hook-timeout", 2, *words)
        it = self.ran(*words, toy=toy, status=status, **more)
        self.assertIn(message, it.told)
        return it

    def hooked(self, listed: str = f"{STARTS} ready", **hooks: object) -> Toy:
        """A store with these hooks."""
        return Toy(listed=listed, hooks=hooks)

    def test_setup_hangs(self):
        self.wrong(self.hooked(f"{STARTS} setup", setup=hangs), "setup hung")

    def test_setup_fails(self):
        self.wrong(self.hooked(f"{STARTS} setup", setup=ends(7)), "setup ended with status 7")

    def test_setup_is_called_once_before_the_first_start(self):
        toy = self.hooked(f"{STARTS} setup")
        self.ran("--seconds", 3, toy=toy, status=0)
        self.assertEqual(toy.calls.count("setup"), 1)
        self.assertLess(toy.calls.index("setup"), toy.calls.index("start 0"))

    def test_start_dies(self):
        message = "after 12 seconds p0 is not back: ready 0 ended with status 1"
        it = self.wrong(self.hooked(start=ends(4)), message)
        # Each lives until it is looked at after 0.1 s; the pauses of 0.1, 0.2, 0.4 .. 3.2 s and a
        # last one of 5 s take 12.
        ended = " ended by itself 0 times while it was up, 7 times before;"
        ended += " last with status 4: its log says nothing"
        last = it.told.splitlines()[-1]
        self.assertEqual(
            last.partition(" may say why; ")[2], "; ".join(f"p{n}{ended}" for n in range(3))
        )

    def test_start_dies_and_no_hook_says_ready(self):
        self.wrong(self.hooked(STARTS, start=ends(4)), "p0 is not back: start 0 ended")

    def test_ready_hangs(self):
        self.wrong(self.hooked(ready=hangs), "p0 is not back: ready 0 hung")

    def test_ready_throws(self):
        message = "p0 is not back: ready 0 ended with status 1 (KeyError: 'revision')"
        self.wrong(self.hooked(ready=throws), message)

    def prints(self, text: str):
        """A `write` that prints this to each line, and goes on."""

        async def write(call: Call) -> int:
            async for _ in call.lines():
                call.print(text)
            return 0

        return write

    def test_write_prints_rubbish(self):
        message = "write printed 'yes'; it has to be 'ok MARK' or 'no'"
        self.wrong(self.hooked(write=self.prints("yes")), message)

    def test_write_prints_no_number(self):
        self.wrong(self.hooked(write=self.prints("ok -1")), "write printed 'ok -1'")

    def test_write_answers_once_too_often(self):
        """All later answers would be to the question before."""
        toy = Toy()

        async def early(call: Call) -> int:
            call.print("ok 1")
            return await toy.write(call)

        toy.own["write"] = early
        self.wrong(toy, ", and nothing was asked\n", "--seconds", 20)
        for every in (1, 7, 50):
            toy = Toy(0, SaysMore(every))
            self.wrong(toy, "write printed 'ok 1\\n', and nothing was asked\n", "--seconds", 20)

    def test_check_answers_once_too_often(self):
        toy = Toy(listed=f"{STARTS} ready check")

        async def twice(call: Call) -> int:
            async for line in call.lines():
                number, key = line.split()
                told = await toy.get(int(number), key)
                call.print(told)
                call.print(told)
            return 0

        toy.own["check"] = twice
        it = self.wrong(toy, ", and nothing was asked\n", "--seconds", 20)
        self.assertIn("check printed '", it.told)

    def test_what_write_said_is_told_where_nothing_is_acknowledged(self):
        async def dies(call: Call) -> int:
            await call.input.readline()
            await asyncio.sleep(0.4)
            return 7

        for write, error in ((self.prints("no"), "no"), (hangs, "hung"), (dies, "ended")):
            words = (*self.given(), "--seconds", 8)
            it = self.wrong(self.hooked(write=write), "no record was acknowledged", *words)
            why = rf"(\d+) writes weren't acknowledged \(\1 {error}\)"
            self.assertRegex(it.told, f"so the run says nothing: {why}")

    def test_write_prints_without_end(self):
        message = "write printed 'a line that does not end'"
        self.wrong(self.hooked(write=self.prints("x" * (1 << 17))), message)

    def test_write_dies(self):
        message = "write ended with status 9, 20 times in a row"
        self.wrong(self.hooked(write=ends(9)), message, "--seconds", 30)

    def test_write_hangs(self):
        self.wrong(self.hooked(write=hangs), "write hung, 20 times in a row", "--seconds", 90)

    def test_a_write_that_dies_now_and_then_is_started_again(self):
        toy = Toy()

        async def write(call: Call) -> int:
            for _ in range(2):
                key, value = (await call.input.readline()).decode().split()
                await toy.stored(key, value)
                call.print("ok 1")
            return 9

        toy.own["write"] = write
        it = self.ran("--seconds", 6, "--kinds", "1,0,0,0,0", toy=toy, status=0)
        self.assertGreater(len(it.operations("write", "ok")), 100)
        self.assertGreater(len(it.operations("write", "info")), 40)

    def test_whole_fails(self):
        given = self.given((0.5, "p1", "RebootAndDelete"))
        toy = self.hooked(whole=ends(6, "first", "no such member"))
        message = "at the end p1 is up and not whole: whole 1 "
        it = self.wrong(toy, message, *given, status=0)
        self.assertIn(" ended with status 6 (no such member)\n", it.told)
        self.assertEqual(it.events("heal"), [])

    def test_read_prints_rubbish(self):
        message = "read printed 'no such table'; it has to print 'KEY VALUE' lines"
        toy = self.hooked(read=ends(0, prints=["no such table"]))
        it = self.wrong(toy, message, is_shown=True)
        self.assertRegex(it.told, r"\n\d+ acknowledged so far, not read; audit legal ")
        self.assertIn("acknowledged so far, not read", (it.out / "picture.svg").read_text())

    def test_elect_would_empty_what_was_not_destroyed(self):
        async def elect(call: Call) -> int:
            for number in call.able:
                call.print(f"empty {number}")
            return 0

        toy = self.hooked(f"{STARTS} ready elect", elect=elect)
        self.wrong(toy, "the guard counts on its records", "--plan", "attrition")

    def test_elect_prints_rubbish(self):
        toy = self.hooked(f"{STARTS} ready elect", elect=ends(0, prints=["primary 2"]))
        self.wrong(toy, "elect printed 'primary 2'", "--plan", "attrition")

    def test_elect_has_a_process_started_again(self):
        """It is asked after a loss, and what it restarts goes down once and comes back."""

        async def elect(call: Call) -> int:
            call.print("restart 2")
            return 0

        toy = self.hooked(f"{STARTS} ready elect", elect=elect)
        given = self.given((0.5, "p1", "RebootAndDelete"))
        it = self.ran("--seconds", 4, *given, toy=toy, status=0)
        self.assertEqual(toy.calls.count("elect"), 1)
        self.assertEqual(toy.calls.count("start 2"), 2)
        self.assertEqual([event["process"] for event in it.events("restart")], [2])
        self.assertIn(2, [event["process"] for event in it.events("up")])

    def test_hooks_are_not_named(self):
        message = "hooks ended with status 1; it has to print the names"
        self.wrong(self.hooked(hooks=ends(1)), message, status=2)
        self.wrong(self.hooked("start whole write"), "hooks: read is missing", status=2)
        self.wrong(self.hooked(f"{STARTS} jion"), "hooks: there is no hook named jion", status=2)

    def test_hooks_that_need_another(self):
        for name, other in (
            ("pause", "resume"),
            ("resume", "pause"),
            ("fresh", "check"),
            ("plain", "salvage"),
        ):
            message = f"hooks: {name} is there without {other}"
            self.wrong(self.hooked(f"{STARTS} {name}"), message, status=2)

    def test_a_pause_that_fails_ends_the_run(self):
        for hook in ("pause", "resume"):
            own = {"pause": ends(0), "resume": ends(0)} | {hook: ends(3)}
            toy = self.hooked(f"{STARTS} ready pause resume", **own)
            words = ("--plan", "swizzle", "--seconds", 8)
            it = self.wrong(toy, " ended with status 3; it may not fail", *words)
            self.assertRegex(it.told, rf"{hook} \d ended with status 3; it may not fail")

    def test_the_log_says_when_and_which_hook(self):
        toy = Toy()

        async def whole(call: Call) -> int:
            call.say(f"looks at {call.number}\nand again")
            return await toy.whole(call)

        async def write(call: Call) -> int:
            call.say("speaks")
            return await toy.write(call)

        toy.own |= {"whole": whole, "write": write}
        given = self.given((0.5, "p1", "RebootAndDelete"))
        it = self.ran("--seconds", 3, *given, toy=toy, status=0)
        lines = (it.out / "hooks.log").read_text().splitlines()
        self.assertEqual([line[7:] for line in lines[:3]], ["  write: speaks"] * 3)
        when = [it.events(what)[0]["t"] for what in ("up", "heal")]
        for line, said in zip(lines[3:], ("looks at 1", "and again")):
            found = re.fullmatch(rf" +([0-3]\.\d\d)  whole 1 \d+: {said}", line)
            assert found, line
            self.assertTrue(when[0] - 0.01 <= float(found[1]) <= when[1], (line, when))

    def test_a_hook_has_its_time(self):
        """A `join` may take six times as long as a `ready`, and both are asked again."""
        for seconds, status in ((11.0, 0), (12.1, 3)):
            toy = Toy(listed=f"{STARTS} ready join")

            async def join(call: Call) -> int:
                await asyncio.sleep(seconds)
                return await toy.join(call)

            toy.own["join"] = join
            words = ("--check-hooks", "--hook-timeout", 2, "--quiet")
            it = self.ran(*words, toy=toy, status=status)
            if status:
                self.assertIn("p0 is not back: ", it.told)
