"""Runs of faultyard-nemesis in this process, on a toy store and in the time of clock.py."""

from __future__ import annotations

import io
import json
import os
import re
import shutil
import sys
import tempfile
import unittest
from collections.abc import Callable
from contextlib import ExitStack, redirect_stderr
from dataclasses import dataclass
from pathlib import Path
from typing import Any
from unittest.mock import patch

HERE = Path(__file__).resolve().parent
ROOT = HERE.parent.parent
CLUSTER = HERE / "three.toml"
for place in (ROOT / "tools", ROOT / "bindings/python/src"):
    if str(place) not in sys.path:
        sys.path.append(str(place))

import clock  # noqa: E402
import histories  # noqa: E402
from nemesis import main  # noqa: E402
from toy import Toy  # noqa: E402

HOOKS = HERE / "mystore"  # some executable, which isn't called
# In memory, where no test waits for a disk that others keep busy.
MEMORY = "/dev/shm" if os.access("/dev/shm", os.W_OK) else None
COUNTS = re.compile(r"^(\d+) acknowledged: (.*); audit ", re.M)


@dataclass(frozen=True)
class Ran:
    """What a run came to."""

    status: int
    told: str  # on standard output, then on standard error
    out: Path
    toy: Toy

    def lines(self, name: str) -> list[Any]:
        """The JSON lines of a file, if it is there."""
        path = self.out / name
        return [json.loads(it) for it in path.read_text().splitlines()] if path.exists() else []

    def events(self, what: str) -> list[Any]:
        return [it for it in self.lines("events.jsonl") if it["what"] == what]

    def orders(self) -> list[Any]:
        return self.events("order")

    def operations(self, f: str, kind: str) -> list[Any]:
        """The lines of writes or reads that begin or end in some way."""
        lines = (it for it in self.lines("history.jsonl") if "process" in it)
        return [it for it in lines if (it["f"], it["type"]) == (f, kind)]

    def is_history(self) -> str | None:
        """What is wrong with the history, if anything."""
        texts = (self.out / "history.jsonl").read_text().splitlines()
        return histories.fault(texts, 3, len(self.audit()))

    def audit(self) -> list[Any]:
        return [json.loads(it) for it in (self.out / "audit").read_text().splitlines()[1:]]

    @property
    def acked(self) -> int:
        found = COUNTS.search(self.told)
        assert found, self.told
        return int(found[1])

    @property
    def counts(self) -> dict[str, int]:
        """How many records there are of each verdict, as was told."""
        found = COUNTS.search(self.told)
        assert found, self.told
        return {name: int(count) for count, name in (it.split() for it in found[2].split(", "))}


def ran(
    toy: Toy,
    out: Path,
    *words: object,
    during: Callable[[], object] | None = None,
    is_shown: bool = True,
) -> Ran:
    """A run with these words, and `during` called in its loop at the beginning.

    Where it isn't shown no picture is drawn, and no program checks the audit: both take their time.
    """
    told, said = list[str](), io.StringIO()

    async def chaos(whole: Any) -> int:
        if during:
            during()
        return int(await whole)

    given = [str(it) for it in (*words, "--out", out)]
    if not words or not str(words[0]).endswith(".toml"):
        given = [str(CLUSTER), str(HOOKS), *given]
    with ExitStack() as patched:
        for name in ("nemesis.main.say", "nemesis.store.say"):
            patched.enter_context(patch(name, told.append))
        for name in () if is_shown else ("nemesis.main.draw", "faultyard.show"):
            patched.enter_context(patch(name, return_value="<svg/>"))
        if not is_shown:
            patched.enter_context(patch("faultyard.check", lambda _, audit: audit.count('"at":')))
        patched.enter_context(redirect_stderr(said))
        status = main.ended(main.parsed(given), toy, lambda it: clock.run(chaos(it)))
    return Ran(status, "".join(f"{it}\n" for it in told) + said.getvalue(), out, toy)


class Case(unittest.TestCase):
    """A folder of its own, and runs in it."""

    maxDiff = None
    is_shown = True
    """Whether runs are shown, if they don't say so."""

    def setUp(self) -> None:
        room = tempfile.TemporaryDirectory(prefix="nemesis-test-", dir=MEMORY)
        self.room = Path(self.enterContext(room))
        self.runs = 0

    def ran(self, *words: object, toy: Toy, status: int, keep: bool = True, **more: Any) -> Ran:
        """A run that has to end with this status; what its processes had is kept."""
        self.runs += 1
        kept = ["--keep"] if keep else []
        more = {"is_shown": self.is_shown} | more
        it = ran(toy, self.room / str(self.runs), *words, *kept, **more)
        self.assertEqual(it.status, status, it.told)
        if (it.out / "audit").exists():
            self.assertIsNone(it.is_history())
        return it

    def given(self, *orders: tuple[float, str, str]) -> tuple[str, Path]:
        """Words for a run that has these orders: when, which process, and the kind."""
        path = self.room / "given.jsonl"
        lines = [
            {"t": at, "what": "order", "key": "processid", "value": who, "order": kind}
            for at, who, kind in orders
        ]
        text = "".join(json.dumps(line) + "\n" for line in [{"t": 0, "what": "ready"}, *lines])
        path.write_text(text)
        return "--replay", path

    def remove(self, it: Ran) -> None:
        """Takes a run's folder away, where there are many."""
        shutil.rmtree(it.out)


def main_of_a_run() -> int:
    """A run of an honest store by the words of the command line, for a tool that runs runs."""
    with tempfile.TemporaryDirectory(prefix="nemesis-test-", dir=MEMORY) as room:
        it = ran(Toy(), Path(room, "out"), *sys.argv[1:])
        print(it.told, end="")
    return it.status


if __name__ == "__main__":
    sys.dont_write_bytecode = True
    sys.exit(main_of_a_run())
