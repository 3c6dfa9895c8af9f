"""What --check-hooks says of hooks, in virtual time on a toy store."""

import re

from lab import Case, Ran
from toy import (
    Call,
    Crashes,
    Denies,
    Elsewhere,
    Encoded,
    Forgetful,
    Idle,
    Mode,
    Partial,
    Toy,
    Twice,
)
from toy import ends, hangs, now

BARE = "start ready whole write read"
READERS = f"{BARE} check salvage"


def store(*modes: Mode, **more: object) -> Toy:
    """A store that writes few records, for which each process is asked again and again."""
    return Toy(0, *modes, pace=0.2, **more)


class Checks(Case):
    is_shown = False

    def checked(self, toy: Toy, *messages: str, status: int = 3, limit: float = 2.0) -> Ran:
        """What is said of a store, which each message is found in."""
        words = ("--check-hooks", "--hook-timeout", limit)
        it = self.ran(*words, toy=toy, status=status)
        for message in messages:
            self.assertRegex(it.told, message)
        return it

    def keeping(self, *modes: Mode, listed: str = BARE) -> Toy:
        """A store whose `read` tells what was acknowledged whatever the members have, so that only
        disks show what they lack."""
        toy = store(*modes, listed=listed)

        async def read(call: Call) -> int:
            for pair in toy.acked.items():
                call.print(" ".join(pair))
            return 0

        toy.own["read"] = read
        return toy

    def test_a_stop_that_stops_nothing(self):
        listed = f"{BARE} stop"
        self.checked(store(listed=listed), status=0)
        text = "`stop 0` was asked, and p0 had to be killed"
        self.checked(store(listed=listed, hooks={"stop": ends(1)}), text)

    def test_a_right_store_has_nothing_wrong(self):
        text = (
            r"; audit legal .*\na start took up to \d\.\d s, a heal up to \d\.\d s\n(?s:.*\n)?"
            r"for a guarded run, not for --unguarded, take --pauses \S+ --seconds \d+\n$"
        )
        for listed in (BARE, READERS, f"{READERS} join", f"{READERS} fresh plain"):
            with self.subTest(listed):
                it = self.checked(store(listed=listed), text, status=0)
                self.assertIn("p2 is back after RebootAndDelete", it.told)

    def test_each_hook_is_called(self):
        own = {"pause": ends(0), "resume": ends(0), "leave": ends(0)}
        toy = store(listed=f"{READERS} setup join pause resume leave", hooks=own)
        self.checked(toy, "p2 is out after KillInstantly", status=0)
        called = {call.split()[0] for call in toy.calls}
        self.assertEqual(called, {*toy.listed.split(), "hooks"})
        said = [it for it in toy.calls if it.split()[0] in own]
        each = [f"{hook} {number}" for number in range(3) for hook in ("pause", "resume")]
        self.assertEqual(said, [*each, "leave 2"])

    def test_pause_resume_and_leave_that_fail(self):
        for hook, message in (
            ("pause", "pause 0 ended with status 3; it may not fail"),
            ("resume", "resume 0 ended with status 3; it may not fail"),
            ("leave", "p2 is not out: leave 2 ended with status 3"),
        ):
            own = {"pause": ends(0), "resume": ends(0), "leave": ends(0)} | {hook: ends(3)}
            toy = store(listed=f"{BARE} pause resume leave", hooks=own)
            self.checked(toy, message)

    def slow_whole(self, *modes: Mode) -> Toy:
        """A store whose `whole` says no for three seconds after it was asked first."""
        toy, first = store(*modes, listed=READERS), dict[int, float]()

        async def whole(call: Call) -> int:
            if call.number in toy.members:
                since = first.setdefault(call.number, now())
                return await toy.whole(call) if now() > since + 3 else 1
            return 1

        toy.own["whole"] = whole
        return toy

    def test_a_check_that_is_passed_on(self):
        """A member that was emptied tells what another one has, long before it has a record
        itself."""
        text = (
            r"\np1 was emptied, told a record, and `whole 1` still said no for [23]\.\d s:"
            r" does `check` of p1 ask"
        )
        self.checked(self.slow_whole(), text, status=0)

    def test_a_check_that_tells_nothing_before_its_process_is_whole(self):
        class Modest(Mode):
            def tells(self, member, key, told):
                return "none" if member.number in member.toy.filling else told

        it = self.checked(self.slow_whole(Modest()), status=0)
        self.assertNotIn("told a record", it.told)

    def test_who_ended_by_itself_before_it_failed(self):
        crash = (
            r"; p0 ended by itself \d+ times while it was up, \d+ times before;"
            r" last with status 3: assertion failed: the sky is up\n$"
        )
        toy = store(Crashes(0, 2.0), hooks={"whole": ends(1)})
        self.checked(toy, crash)

    def test_a_whole_that_lies(self):
        text = (
            r"`whole [01]` said yes, and p[01] lacks (\d+) of (\d+) records \(r/\d+ ..\)"
            r" by `salvage`: `whole` or"
        )
        self.checked(self.keeping(Forgetful(), listed=f"{BARE} salvage"), text)
        text = (
            r"after p1 was emptied `read` lacks \d+ of \d+ records .*: `whole 0` said yes too early"
        )
        self.checked(store(Forgetful()), text)

    def test_a_whole_that_does_not_ask_the_process(self):
        """Neither one that asks nobody nor one that asks the next member says no while the process
        is down."""
        toy = store()

        async def elsewhere(call: Call) -> int:
            call.numbers[0] = (call.number + 1) % 3
            return await toy.whole(call)

        text = (
            r"`whole 0` said yes, and p0 was emptied and doesn't run:"
            r" `whole` asks another process, or none\n$"
        )
        for whole in (ends(0), elsewhere):
            toy = store(hooks={"whole": whole})
            self.checked(toy, text)

    def test_whether_files_are_plain(self):
        listed = f"{BARE} read salvage plain"
        self.checked(store(listed=listed), status=0)
        text = (
            r"`plain` is promised, and of (\d+) of \1 records \(r/\d+ ..\)"
            r" nothing stands in the files of p0"
        )
        self.checked(store(Encoded(), listed=listed), text)

    def test_a_join_that_does_nothing(self):
        empty = (
            r"join 0 had said yes and left its folder empty"
            r" \(right if the store fills it at its start\)"
        )
        text = rf"p0 is up and not whole: whole 0 \d+ ended with status 1; {empty}"
        self.checked(store(Idle(), listed=f"{READERS} join"), text)
        text = rf"after p1 was emptied `read` lacks .*; {empty}: `whole 0` said yes"
        self.checked(store(Forgetful(), listed=f"{BARE} join"), text)

    def test_a_read_that_lies(self):
        text = (
            r"nothing was struck yet, and `read` lacks \d+ of \d+ records \(r/\d+[05] ..\):"
            r" `read` is wrong"
        )
        self.checked(store(Partial(5), listed=READERS), text)

    def test_a_read_that_tells_two_values(self):
        other = "fedcba9876543210"
        text = rf"`read` told r/\d+ twice, as [0-9a-f]+ and as {other}: `read` is"
        self.checked(store(Twice(50, other)), text)
        self.checked(store(Twice(1)), status=0)

    def test_a_check_that_lies(self):
        text = (
            r"nothing was struck yet, and p2 lacks (\d+) of \1 records .* by `check`,"
            r" which `read` has: `check` is wrong"
        )
        self.checked(store(Denies(2), listed=READERS), text)
        text = r"`check` told [0-9a-f]+ of p0, which doesn't run: `check` asks another process"
        self.checked(store(Elsewhere(), listed=READERS), text)

    def test_a_check_that_tells_of_what_nobody_wrote(self):
        class Invented(Mode):
            def tells(self, member, key, told):
                return "abc" if told == "none" else told

        text = r"`check` told abc for r/999999999, which nobody wrote: `check` is wrong"
        self.checked(store(Invented(), listed=READERS), text)

    def test_pauses_that_are_too_short(self):
        words = ("--check-hooks", "--hook-timeout", 3, "--pauses", "0.5,1", "--seconds", 4)
        it = self.ran(*words, toy=store(boots=2.0), status=0)
        short = r"--pauses are 0\.8 s on average, shorter than a (start|heal)"
        self.assertRegex(it.told, rf"\n{short}: orders would be lessened\n")
        self.assertRegex(it.told, r"\n--seconds 4 leaves no time for 3 heals\n")
        take = r"for a guarded run, not for --unguarded, take --pauses \d+,\d+,\d+ --seconds \d+"
        self.assertRegex(it.told, rf"\n{take}\n$")

    def test_the_words_that_it_says_leave_time_for_heals(self):
        """A guarded run with them isn't lessened more than now and then."""
        it = self.checked(store(boots=2.0), status=0)
        found = re.search(r"take (--pauses \S+ --seconds \d+)\n$", it.told)
        assert found
        it = self.ran(*found[1].split(), toy=store(boots=2.0), status=0)
        struck = it.orders()
        lessened = [order for order in struck if order["verdict"] != order["order"]]
        self.assertGreater(len(struck), 10)
        self.assertLess(len(lessened), len(struck) / 2)

    def test_a_join_that_fails(self):
        toy = store(listed=f"{BARE} join", hooks={"join": ends(5)})
        self.checked(toy, "p0 is not back: join 0 ended with status 5")

    def test_a_whole_that_hangs(self):
        toy = store()

        async def whole(call: Call) -> int:
            return await hangs(call) if call.number in toy.members else 1

        toy.own["whole"] = whole
        self.checked(toy, r"p0 is up and not whole: whole 0 \d+ hung")
