"""Runs that were once judged wrong, one test each, by what the store notes itself."""

from __future__ import annotations

import asyncio
from collections.abc import Callable
from typing import Any
from unittest.mock import patch

from lab import Case, Ran
from toy import Call, Drops, DropsWhileEmpty, Hole, Lags, Mode, Old, Pair, Partial, Refuses
from toy import Toy, Twice, ends, hangs, is_nth, throws

BARE = "start ready whole write read"
READERS = f"{BARE} check salvage"
NAMES = ("kept", "lost", "missing", "stale", "unreadable", "wrong")
OTHER = "f" * 16


def slow(*modes: Mode, **more: Any) -> Toy:
    """A store that writes few records, for all of which each process is asked."""
    return Toy(0, *modes, **{"pace": 0.12} | more)


class Rows(Case):
    is_shown = False

    def judged(self, toy: Toy, status: int, *words: object, **more: Any) -> Ran:
        """A run of a store, whose verdicts sum up to the records that the store acknowledged."""
        words = ("--seconds", 2, "--readers", 1, "--quiet", *words)
        it = self.ran(*words, toy=toy, status=status, **more)
        self.assertEqual(it.acked, len(toy.acked))
        self.assertEqual(sum(it.counts.values()), it.acked)
        self.assertGreater(it.acked, 30)
        return it

    def of(self, it: Ran, verdict: str) -> set[str]:
        """The keys with a verdict, of which there are as many as was told."""
        lines = it.lines("verdict.jsonl")[:-1]
        found = {line["key"] for line in lines if line["verdict"] == verdict}
        self.assertEqual(len(found), it.counts[verdict], it.told)
        return found

    def faults(self, it: Ran) -> list[object]:
        """Whose fault it is, of each record that is lost."""
        lines = it.lines("verdict.jsonl")[:-1]
        return [line["fault"] for line in lines if line["verdict"] == "lost"]

    def on_no_disk(self, toy: Toy) -> set[str]:
        """What was acknowledged, and no member has."""
        return {key for key in toy.acked if not any(key in toy.disk(n) for n in range(3))}

    # Whose fault it is.

    def test_what_is_dropped_while_p0_was_destroyed_and_healed_later_the_store_lost(self) -> None:
        """p0 can't have been its holder."""
        toy = slow(DropsWhileEmpty(0), listed=READERS, boots=1.0)
        given = self.given((1, "p0", "RebootAndDelete"))
        it = self.judged(toy, 1, "--seconds", 6, *given)
        (heal,) = it.events("heal")
        lost = self.of(it, "lost")
        self.assertEqual(lost, self.on_no_disk(toy))
        early = [line for line in it.lines("records.jsonl") if line["acked"] < heal["t"]]
        self.assertGreater(len(early), 10)
        self.assertGreater(len(early), len(lost) - 4)  # three may be answered as it is healed
        for case in early:
            self.assertEqual(case["able"], ["p1", "p2"])
            self.assertTrue(case["fault"].startswith("one of p1 p2 held it"), case["fault"])
        self.assertEqual(self.faults(it)[: len(early)], ["store"] * len(early))

    def test_what_p0_and_p2_lack_who_were_never_destroyed_the_store_lost(self) -> None:
        """That p1 was healed, and lacks it too, is no reason to doubt its `whole`."""
        toy = slow(Drops(7), listed=READERS)
        it = self.judged(toy, 1, "--seconds", 4, *self.given((2, "p1", "RebootAndDelete")))
        (heal,) = it.events("heal")
        self.assertEqual(heal["process"], 1)
        lost = self.of(it, "lost")
        self.assertEqual(lost, self.on_no_disk(toy))
        before = {key for key in lost if toy.ok_at[key] < toy.began + 2}
        self.assertGreater(len(before), 3)
        self.assertEqual(self.faults(it), ["store"] * len(lost))
        fault = "one of p0 p2 held it and was never destroyed since, and none has it"
        told = {it["key"]: it["fault"] for it in it.lines("records.jsonl")}
        for key in before:
            self.assertEqual(told[key], f"{fault}: the store lost it")

    # What became of a record.

    def test_old_answers_for_ever_are_no_loss(self) -> None:
        """What p2 doesn't tell is missing there, though its disk has all; nobody is blamed."""
        toy = slow(Old(2, 1.5), listed=READERS)
        it = self.judged(toy, 9, "--seconds", 3, *self.given())
        last = {answer.key: answer.told for answer in toy.checked if answer.number == 2}
        untold = {key for key in toy.acked if last[key] == "none"}
        self.assertGreater(len(untold), 10)
        self.assertEqual(self.of(it, "missing"), untold)
        self.assertEqual(it.counts["kept"], len(toy.acked) - len(untold))
        self.assertEqual(self.on_no_disk(toy), set())
        for case in it.lines("records.jsonl"):
            self.assertIn("p2 lacks it by `check`", case["fault"])
            self.assertEqual("p2" in case["holds"], case["key"] in toy.disk(2))

    def test_a_lag_of_40_seconds_has_one_verdict_whatever_hooks_may_take(self) -> None:
        found = []
        for words in (("--hook-timeout", 2), ()):
            toy = slow(Lags(40, 1), listed=READERS)
            it = self.judged(toy, 0, *words, *self.given())
            lag = {answer.key for answer in toy.checked if answer.told == "none"}
            self.assertEqual(lag, toy.disk(1).keys() & toy.acked.keys())
            self.assertEqual(self.of(it, "stale"), lag)
            self.assertEqual(it.counts["kept"], len(toy.acked) - len(lag))
            found.append(it.counts)
        self.assertEqual(found[0], found[1])

    def test_five_that_are_wrong_and_lost_have_one_verdict_each(self) -> None:
        numbers = (10, 20, 30, 40, 50)

        class WrongAndLost(Mode):
            """`check` tells five values backwards, and `read` leaves these out."""

            def is_one(self, key: str) -> bool:
                return key.startswith("r/") and int(key[2:]) in numbers

            def own(self, member: object, key: str, value: str) -> str:
                return value[::-1] if self.is_one(key) else value

            def prints(self, found: list[Pair]) -> list[Pair]:
                return [pair for pair in found if not self.is_one(pair[0])]

        toy = slow(WrongAndLost(), listed=f"{BARE} check")
        it = self.judged(toy, 1, *self.given())
        five = {f"r/{number:09}" for number in numbers}
        wrong = {it.key for it in toy.checked if it.told == toy.acked[it.key][::-1]}
        self.assertEqual((wrong, five & toy.acked.keys()), (five, five))
        self.assertEqual(self.of(it, "lost"), five)
        counts = dict.fromkeys(NAMES, 0) | {"lost": 5, "kept": len(toy.acked) - 5}
        self.assertEqual(it.counts, counts)

    def test_a_key_told_twice_with_one_value_wrong_is_wrong_in_both_orders(self) -> None:
        for is_before in (False, True):
            with self.subTest(is_before=is_before):
                toy = slow(Twice(5, OTHER, is_before), listed=READERS)
                it = self.judged(toy, 8, *self.given())
                twice = {key for key in toy.acked if is_nth(key, 5)}
                told = [key for key, value in toy.read_last or () if key in twice]
                self.assertEqual(sorted(told), sorted([*twice, *twice]))
                self.assertEqual(self.of(it, "wrong"), twice)
                self.assertEqual(it.counts["kept"], len(toy.acked) - len(twice))
                every = {key for key, value in toy.read_last or () if is_nth(key, 5)}
                self.assertIn(f"\n{len(every)} keys were told twice by `read`\n", it.told)

    def test_hooks_that_tell_a_key_twice_with_two_values_are_named_in_both_orders(self) -> None:
        for is_before in (False, True):
            with self.subTest(is_before=is_before):
                toy = slow(Twice(5, OTHER, is_before), listed=READERS, pace=0.2)
                it = self.ran("--check-hooks", "--quiet", toy=toy, status=3)
                key = r"r/\d{8}[05]"
                values = rf"as {OTHER} and as [0-9a-f]+" if is_before else rf"as \w+ and as {OTHER}"
                self.assertRegex(it.told, rf"`read` told {key} twice, {values}: `read` is wrong")

    def test_what_the_last_answered_read_lacked_is_lost(self) -> None:
        """Earlier ones told it, and none told it later: by `read`, and by `check` without it."""
        for name in ("read", "check"):
            with self.subTest(name):
                toy = slow(listed=f"{BARE} check")
                if name == "check":
                    toy.own["read"] = ends(1)
                lost: set[str] = set()

                def lose() -> None:
                    lost.update(key for key in toy.acked if is_nth(key, 3))
                    for member in toy.members.values():
                        member.lose(lost)

                it = self.judged(toy, 1, *self.given(), during=later(1.5, lose))
                told = {it.key for it in toy.checked if it.told == toy.acked[it.key]}
                self.assertGreater(len(lost & told), 3)
                self.assertEqual(lost, self.on_no_disk(toy))
                self.assertEqual(self.of(it, "lost"), lost)
                fault = "store" if name == "read" else "nobody"
                self.assertEqual({*map(str, self.faults(it))}, {fault})

    def test_records_that_read_tells_and_disks_have_are_missing_at_one_process(self) -> None:
        toy = slow(Hole(2, 2), listed=READERS)
        it = self.judged(toy, 9, *self.given())
        hole = {key for key in toy.acked if is_nth(key, 2)}
        self.assertEqual(self.of(it, "missing"), hole)
        self.assertEqual(it.counts["kept"], len(toy.acked) - len(hole))
        self.assertLessEqual(toy.acked.items(), {*(toy.read_last or ())})
        self.assertNotIn(" is lost", it.told)
        self.assertFalse((it.out / "lost.jsonl").exists())

    # What else is said.

    def test_an_ok_too_many_is_an_answer_out_of_turn(self) -> None:
        """All later answers were to the question before, so that refused records would be lost."""
        for late in (0.0, 0.002):
            with self.subTest(late=late):
                toy, more = Toy(listed=BARE), ["ok 1"]

                async def write(call: Call) -> int:
                    async for line in call.lines():
                        key, value = line.split()
                        is_done = not is_nth(key, 3) and await toy.stored(key, value)
                        call.print("ok 1" if is_done else "no")
                        if more and is_nth(key, 37):
                            await asyncio.sleep(late)
                            call.print(more.pop())
                    return 0

                toy.own["write"] = write
                it = self.ran("--seconds", 20, "--quiet", toy=toy, status=3)
                self.assertEqual(more, [])
                self.assertRegex(it.told, "write printed '(ok 1|no).*', and nothing was asked\n")
                self.assertNotIn("kept", it.told)

    def test_what_became_of_writes_is_said_where_none_is_acknowledged(self) -> None:
        """That of the history, whatever the hook did."""

        async def refuses(call: Call) -> int:
            async for _ in call.lines():
                call.print("no")
            return 0

        async def dies(call: Call) -> int:
            await call.input.readline()
            return 7

        async def fails(call: Call) -> int:
            await call.input.readline()
            return await throws(call)

        for hook, error in ((refuses, "no"), (hangs, "hung"), (dies, "ended"), (fails, "ended")):
            with self.subTest(hook=hook.__name__):
                toy = Toy(hooks={"write": hook}, listed=BARE)
                words = (*self.given(), "--seconds", 5, "--hook-timeout", 2, "--quiet")
                with patch("nemesis.clients.MUTE", 1 << 30):
                    it = self.ran(*words, toy=toy, status=3)
                ended = [line.get("error") for line in it.operations("write", "info")]
                count = ended.count(error)
                self.assertGreater(count, 5)
                self.assertEqual({*ended} - {None}, {error})  # at the end some are under way
                why = f"{count} writes weren't acknowledged ({count} {error})"
                text = f"no record was acknowledged, so the run says nothing: {why}"
                self.assertIn(text, it.told)
                said = "KeyError: 'revision'"
                self.assertEqual(
                    f"said most often, {count} times: {said}" in it.told, hook is fails
                )

    def test_a_run_in_which_no_write_is_answered_says_so(self) -> None:
        toy = Toy(listed=BARE, hooks={"write": hangs})
        it = self.ran(*self.given(), "--seconds", 1, "--quiet", toy=toy, status=3)
        self.assertEqual(len(it.operations("write", "invoke")), 3)
        self.assertIn("the run says nothing: none of 3 writes was answered", it.told)

    def test_writes_that_were_refused_and_are_there_are_counted(self) -> None:
        toy = slow(Refuses(3), listed=READERS)
        it = self.judged(toy, 0, *self.given())
        every = {**toy.disk(0), **toy.disk(1), **toy.disk(2)}
        there = {key for key in every if is_nth(key, 3)}
        answered = {
            line["value"][0] for line in it.operations("write", "info") if line.get("error") == "no"
        }
        self.assertGreater(len(answered), 10)
        self.assertLessEqual(answered, there)
        text = f"{len(answered)} writes that `write` said no to were done"
        self.assertIn(f"\n{text}\n", it.told)
        self.assertEqual(it.counts["kept"], len(toy.acked))

    def test_what_was_read_and_never_acknowledged_and_is_gone_is_counted(self) -> None:
        """Refused writes are told by the first of two reads at the end, and lost since."""
        toy, told = slow(Refuses(3), Partial(5), listed=f"{BARE} check"), set[str]()

        async def read(call: Call) -> int:
            status = await toy.read(call)
            refused = {key for key, _ in toy.read_last or () if is_nth(key, 3)}
            told.update(refused)
            for member in toy.members.values():
                member.lose(refused)
            return status

        toy.own["read"] = read
        it = self.judged(toy, 1, *self.given())
        self.assertEqual(toy.calls.count("read"), 2)
        self.assertGreater(len(told), 10)
        text = "records that weren't acknowledged were read, and are lost"
        self.assertIn(f"\n{len(told)} {text}\n", it.told)


def later(seconds: float, what: Callable[[], None]) -> Callable[[], object]:
    """Has something done some seconds after a run has begun."""
    return lambda: asyncio.get_running_loop().call_later(seconds, what)
