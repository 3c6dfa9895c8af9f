"""Keys that are written again and again: what is asked of the store, and what is said of it.

Whether operations are linearizable is expected from a search through all orders (search.py), which
is held against histories by hand below.
"""

import unittest

from lab import Case
from search import NEVER, is_linearizable, operations
from toy import Call, Toy, now

COUNT = 3
KEYS = [f"r/00000000{number}" for number in range(1, COUNT + 1)]
LISTED = "start ready whole write read get"


class Registers(Toy):
    """The first keys are beside the members. A write is done at one moment before its answer, and a
    get tells what was there at one, or some seconds earlier. Each so-manyth write is said no to."""

    def __init__(self, lag: float = 0.0, refuses: int = 0, is_once: bool = False) -> None:
        super().__init__(5, listed=LISTED, hooks={"get": self.got})
        self.lag, self.refuses, self.is_once, self.count = lag, refuses, is_once, 0
        self.values: dict[str, list[tuple[float, str]]] = {}

    async def stored(self, key: str, value: str) -> bool:
        if key not in KEYS:
            return await super().stored(key, value)
        if self.is_once and key in self.values:
            return False
        await self.some_time()
        self.values.setdefault(key, []).append((now(), value))
        await self.some_time()
        self.count += 1
        return not self.refuses or self.count % self.refuses > 0

    async def got(self, call: Call) -> int:
        async for key in call.lines():
            await self.some_time()
            told = [it for at, it in self.values.get(key, ()) if at <= now() - self.lag]
            call.print(told[-1] if told else "none")
        return 0

    async def everything(self, able):
        last = {key: values[-1][1] for key, values in self.values.items()}
        return await super().everything(able) | last


class Runs(Case):
    WORDS = ("--registers", COUNT, "--seconds", 6, "--quiet")

    def tried(self, toy: Registers, status: int):
        """A run, and the keys that aren't linearizable by the search."""
        it = self.ran(
            *self.WORDS, *self.given((1, "p1", "RebootAndDelete")), toy=toy, status=status
        )
        those = operations(it.lines("history.jsonl"))
        for key in KEYS:
            for f in ("write", "read"):
                self.assertGreater(sum(op[2] == f for op in those[key]), 20)
        return it, sorted(key for key, its in those.items() if not is_linearizable(its))

    def test_a_store_that_is_linearizable(self):
        for refuses in (0, 4):
            with self.subTest(refuses=refuses):
                toy = Registers(refuses=refuses)
                it, wrong = self.tried(toy, 0)
                self.assertEqual(wrong, [])
                keys = {op["value"][0] for op in it.operations("write", "invoke")}
                self.assertLess({*KEYS}, keys)
                self.assertIn(f"\n0 of {len(keys)} keys aren't linearizable, in ", it.told)
                records = toy.acked.keys() - {*KEYS}
                self.assertEqual((it.acked, it.counts["kept"]), (len(records), len(records)))
                values = [tuple(op["value"]) for op in it.operations("write", "invoke")]
                self.assertEqual(len(values), len({*values}))

    def test_a_get_that_lags(self):
        it, wrong = self.tried(Registers(lag=0.5), 10)
        self.assertEqual(wrong, KEYS)
        self.assertEqual([line["key"] for line in it.lines("linear.jsonl")[:-1]], KEYS)
        self.assertRegex(it.told, rf"\n3 of \d+ keys aren't .*: {', '.join(KEYS)}, in linear")

    def test_without_a_get_there_are_none(self):
        it = self.ran(*self.WORDS, toy=Toy(), status=2)
        self.assertRegex(
            it.told, "^faultyard-nemesis: --registers needs a hook get, and .* none\n$"
        )


class Checks(Case):
    """What `--check-hooks` says of `get`, and of a `write` that has to overwrite."""

    def said(self, toy: Toy, status: int) -> str:
        return self.ran("--check-hooks", "--quiet", toy=toy, status=status).told

    def test_what_is_right(self):
        self.assertIn("; audit legal ", self.said(Registers(), 0))

    def test_a_write_that_does_not_overwrite(self):
        text = "`write` said no to a key that is there already: with a hook `get` it has to"
        self.assertIn(text, self.said(Registers(is_once=True), 3))

    def test_a_get_that_tells_what_nobody_wrote(self):
        toy = Registers()

        async def invents(call: Call) -> int:
            async for key in call.lines():
                call.print("abc")
            return 0

        toy.own["get"] = invents
        text = "`get` told abc for r/999999999, which nobody wrote: `get` is wrong"
        self.assertIn(text, self.said(toy, 3))

    def test_a_get_that_tells_nothing(self):
        toy = Registers()

        async def none(call: Call) -> int:
            async for key in call.lines():
                call.print("none")
            return 0

        toy.own["get"] = none
        self.assertIn("`get` told none for r/000000001: `get` is wrong", self.said(toy, 3))


class Searches(unittest.TestCase):
    def write(self, began, ended, value):
        return began, ended, "write", value

    def read(self, began, ended, value):
        return began, ended, "read", value

    def test_by_hand(self):
        write, read = self.write, self.read
        both = [write(0, 5, "a"), write(1, 6, "b")]
        for those, expected in (
            ([], True),
            ([read(0, 1, None)], True),
            ([read(0, 1, "a")], False),
            ([write(0, 1, "a"), read(2, 3, "a")], True),
            ([write(0, 1, "a"), read(2, 3, None)], False),
            ([write(0, 3, "a"), read(1, 2, None)], True),
            ([write(0, NEVER, "a"), read(1, 2, None), read(3, 4, "a")], True),
            ([write(0, NEVER, "a"), read(1, 2, "a"), read(3, 4, None)], False),
            ([*both, read(7, 8, "a"), read(9, 10, "a")], True),
            ([*both, read(7, 8, "a"), read(9, 10, "b")], False),
            ([*both, read(2, 3, "b"), read(7, 8, "a")], True),
            ([*both, read(2, 3, "b"), read(4, 8, "a"), read(9, 10, "b")], False),
        ):
            with self.subTest(those):
                self.assertEqual(is_linearizable(those), expected)
