"""The clients of a store: hooks that run on, which write and read, and what they are told."""
import asyncio
from asyncio.subprocess import PIPE, Process
from collections.abc import Awaitable, Callable, Container, Iterator
from contextlib import suppress
from random import Random

from faultyard.harness import Harness
from faultyard.history import PREFIX, Client, History, Operation

from . import HOOK, Fault, clock
from .hook_log import MOST
from .hooks import Hooks

MUTE = 20  # so often in a row may a client end or hang without any answer
ENDLESS = ["a", "line", "that", "does", "not", "end"]
AGAIN = 0.1  # seconds until another client runs where one ended
REFUSED = 0.05  # seconds until a writer goes on that was told no
READ_PAUSE = 0.01  # seconds between two reads of a reader
LAGS = 0.5  # seconds until a process is asked again for what it lacks at the end; they double
MINUTE = 60_000_000_000  # nanoseconds after which it is asked for that for the last time
LISTENS = 100  # after each so manyth answer nothing is asked for a moment
MOMENT, SECOND = 0.005, 1.0  # seconds that this takes, at least and at most
EACH = 0.01  # seconds for each record of those that a process is asked for at the end
NEWEST = 10  # of the acknowledged records, one of which is read as often as one of all
OVER = ("hung", "ended")  # the errors after which a co-process isn't asked any more
Told = tuple[float, str]  # when, and what
Pairs = list[tuple[str, str]]  # keys, some of which may be told twice, and values
Once = Callable[[Process], Awaitable[str | None]]  # asks a co-process once; the error, if any


class Clients:
    def __init__(self, hooks: Hooks, harness: Harness, history: History) -> None:
        self.hooks, self.ledger, self.history = hooks, harness.ledger, history
        self._harness = harness
        self._acked: list[str] = []
        self.registers: list[str] = []  # keys that are written again and again
        self.base = 0  # the number of the last key that was there before
        self.apart: Container[int] = ()  # who is asked by `ask_for` alone
        self.marked: Callable[[int], None] = lambda mark: None  # is told the largest mark

    def begin_registers(self, count: int) -> None:
        """Before anything is written: the first keys are registers, the others records."""
        self.registers = [key_of(self.base + self.ledger.send()) for _ in range(count)]

    def recall(self) -> None:
        """Has in mind what a run had acknowledged that died."""
        self._acked = [*self.ledger.records]

    async def _talk(self, name: str, once: Once, is_over: Callable[[], bool] = bool) -> None:
        """Runs a co-process that is asked again and again, and another where it ends or hangs."""
        mute = 0
        while mute < MUTE:
            async with self.hooks.running(name, stdin=PIPE, stdout=PIPE) as process:
                mute, answers, began = mute + 1, 0, self.ledger.now()
                while not is_over() and (error := await once(process)) not in OVER:
                    mute, answers, took = 0, answers + 1, self.ledger.now() - began
                    is_long = answers % LISTENS == 0 or answers.bit_count() == 1
                    await self._hear_nothing(name, process, took if is_long else 0)
                    began = self.ledger.now()
                if is_over():
                    return
                end = error if error == "hung" else f"ended with status {await process.wait()}"
            await asyncio.sleep(AGAIN)
        raise Fault(HOOK, f"{name} {end}, {MUTE} times in a row")

    async def _hear_nothing(self, name: str, process: Process, took: float) -> None:
        """Nothing may come before the next question, or all later answers are to the one before.

        One too many may come at once, or just after the true answer to the last question. So it is
        listened for twice as long as that took, if `took` says how long.
        """
        assert process.stdout
        with suppress(TimeoutError):
            async with asyncio.timeout(took and min(2 * took + MOMENT, SECOND)):
                if said := await process.stdout.read(MOST):
                    text = said[:80].decode(errors="replace")
                    raise Fault(HOOK, f"{name} printed {text!r}, and nothing was asked")

    async def _ask(self, process: Process, text: str) -> tuple[list[str], str | None]:
        """The words that a co-process answers to a line, or why there are none."""
        assert process.stdin and process.stdout
        process.stdin.write(f"{text}\n".encode())
        try:
            async with asyncio.timeout(self.hooks.limit):
                line = await process.stdout.readline()
        except TimeoutError:
            return [], "hung"
        except ValueError:
            return ENDLESS, None
        return line.decode(errors="replace").split(), None if line.endswith(b"\n") else "ended"

    async def write(self, dice: Random) -> None:
        """Writes records, and as often registers, if there are any, until it is cancelled."""
        client = self.history.client()

        async def once(process: Process) -> str | None:
            error = await self._write_one(process, client, dice)
            if error == "no":
                await asyncio.sleep(REFUSED)
            return error

        await self._talk("write", once)

    async def _write_one(self, process: Process, client: Client, dice: Random) -> str | None:
        number, value = self.ledger.send(), f"{dice.getrandbits(64):016x}"
        is_register = bool(self.registers) and dice.random() < 0.5
        key = dice.choice(self.registers) if is_register else key_of(self.base + number)
        with self.history.write(client, key, value) as operation:
            match await self._ask(process, f"{key} {value}"):
                case _, str(error):
                    operation.unknown(error)
                case ["ok", mark], _ if mark.isdecimal():
                    if is_register and self.ledger.counts(number, int(mark)):
                        operation.ok(value)
                    elif not is_register and self.ledger.acknowledge(number, key, value, int(mark)):
                        operation.ok(value)
                        self._acked.append(key)
                    else:
                        operation.unknown("late")
                    self.marked(self.ledger.mark)
                case ["no"], _:
                    operation.unknown("no")
                case words, _:
                    raise unexpected("write", words, "'ok MARK' or 'no'")
        return operation.error

    async def check(self, dice: Random) -> None:
        """Asks random processes that are up for random records, until it is cancelled."""
        client = self.history.client()

        async def once(process: Process) -> str | None:
            await asyncio.sleep(READ_PAUSE)
            up = sorted(it for it in self._harness.up if it not in self.apart)
            if not up or not self._acked:
                return "?"
            last = len(self._acked) if dice.random() < 0.5 else min(NEWEST, len(self._acked))
            number, key = dice.choice(up), self._acked[-1 - dice.randrange(last)]
            return (await self._check_one(process, client, number, key)).error

        await self._talk("check", once)

    async def _check_one(self, asked: Process, client: Client, number: int, key: str) -> Operation:
        """Asks one process for one record."""
        with self.history.read(client, key, number, self.is_whole(number)) as operation:
            await self._read_one("check", asked, f"{number} {key}", operation)
            operation.is_whole &= self.is_whole(number)
        return operation

    async def _read_one(self, name: str, asked: Process, text: str, operation: Operation) -> None:
        match await self._ask(asked, text):
            case _, str(error):
                operation.fail(error)
            case ["?"], _:
                operation.fail("?")
            case ["none"], _:
                operation.ok(None)
            case [value], _:
                operation.ok(value)
            case words, _:
                raise unexpected(name, words, "a value, 'none' or '?'")

    async def get(self, dice: Random) -> None:
        """Asks the store for random registers, until it is cancelled."""
        client = self.history.client()

        async def once(process: Process) -> str | None:
            await asyncio.sleep(READ_PAUSE)
            return (await self._get_one(process, client, dice.choice(self.registers))).error

        await self._talk("get", once)

    async def _get_one(self, asked: Process, client: Client, key: str) -> Operation:
        """Asks the store as a whole for one key."""
        with self.history.read(client, key, None) as operation:
            await self._read_one("get", asked, key, operation)
        return operation

    async def get_once(self, key: str) -> Operation:
        """Asks the store as a whole for one key, whatever it is."""
        async with self.hooks.running("get", stdin=PIPE, stdout=PIPE) as process:
            return await self._get_one(process, self.history.client(), key)

    def is_whole(self, number: int) -> bool:
        """Whether a process counts as up, with all records."""
        return number in self._harness.up and number in self.ledger.able

    async def check_all(self, number: int, keys: list[str]) -> dict[str, str | None]:
        """What a process has of these records in the end, as long as it is up and whole.

        It may lag. So what it lacks is asked for again, and None is told only of a record that it
        still lacks a minute after it was first asked for that.
        """
        client, first, pause = self.history.client(), dict[str, int](), LAGS
        found, lacks = dict[str, str | None](), keys
        while lacks:
            asked, again = await self._check_each(client, number, lacks), []
            for key in lacks:
                it = asked.get(key)
                if it is None or not it.is_whole:
                    found.pop(key, None)  # nobody knows whether it lacks this still
                    continue
                is_last = it.began - first.setdefault(key, it.began) >= MINUTE
                if it.type == "ok":
                    found[key] = it.value
                elif is_last:
                    found.pop(key, None)
                if not is_last and found.get(key, "") is None:
                    again.append(key)
            if lacks := again:
                await asyncio.sleep(pause)
                pause *= 2
        return found

    async def _check_each(
        self, client: Client, number: int, keys: list[str]
    ) -> dict[str, Operation]:
        """Asks a process for each of these records, for as many as it answers for in time."""
        queue, asked = list(reversed(keys)), dict[str, Operation]()
        until = clock() + self.patience(len(keys))

        async def once(process: Process) -> str | None:
            operation = await self._check_one(process, client, number, queue[-1])
            if operation.error not in OVER:
                queue.pop()
            asked[operation.key] = operation
            return operation.error

        def is_over() -> bool:
            return not queue or not self.is_whole(number) or clock() > until

        await self._talk("check", once, is_over)
        return asked

    def patience(self, count: int) -> float:
        """For how many seconds a process is asked at the end for so many records."""
        return max(self.hooks.seconds("read"), count * EACH)

    async def first_told(self, number: int, key: str, is_over: Callable[[], bool]) -> Told | None:
        """What a process tells first of a record, if it does before that; not for the history."""
        told: list[Told] = []

        async def once(process: Process) -> str | None:
            words, error = await self._ask(process, f"{number} {key}")
            if error is None and words != ["?"]:
                told.append((self.ledger.now(), "".join(words)))
            await asyncio.sleep(READ_PAUSE)
            return error

        await self._talk("check", once, lambda: bool(told) or is_over())
        return told[0] if told else None

    async def ask_for(
        self,
        number: int,
        keys: Iterator[str],
        count: int,
        hear: Callable[[str, str], None],
        is_over: Callable[[], bool],
    ) -> None:
        """Asks a process for record after record, the first so many at once; not for the
        history."""
        asked = 0

        async def once(process: Process) -> str | None:
            nonlocal asked
            key, asked = next(keys), asked + 1
            words, error = await self._ask(process, f"{number} {key}")
            hear(key, "?" if error else " ".join(words))
            if asked > count or error or words == ["?"]:
                await asyncio.sleep(READ_PAUSE)
            return error

        await self._talk("check", once, is_over)

    async def ask_once(self, number: int, key: str) -> Operation:
        """Asks a process for one record, whatever it is."""
        async with self.hooks.running("check", stdin=PIPE, stdout=PIPE) as process:
            return await self._check_one(process, self.history.client(), number, key)

    async def read(self, is_noted: bool = True) -> Pairs | None:
        """What is left, which may need some tries; None if nothing could be read."""
        until = clock() + self.hooks.seconds("read")
        while True:
            with self.history.reading() as reading:
                if (text := await self.hooks.call("read")) is not None:
                    found = pairs("read", text)
                    if is_noted:
                        self.history.read_all(reading, found)
                    return found
            if clock() > until or not self.ledger.able:
                return None
            await asyncio.sleep(0.5)


def key_of(number: int) -> str:
    """The key of the record that is written so manyth."""
    return f"{PREFIX}{number:09d}"


def number_of(key: str) -> int:
    """The number of a key that is the tool's; 0 of any other."""
    digits = key[len(PREFIX) :]
    return int(digits) if key.startswith(PREFIX) and digits.isdecimal() else 0


def unexpected(hook: str, words: list[str], expected: str) -> Fault:
    """A hook printed what it may not."""
    return Fault(HOOK, f"{hook} printed {' '.join(words)[:80]!r}; it has to be {expected}")


def pairs(hook: str, text: str) -> Pairs:
    """The records that a hook printed."""
    found = []
    for line in text.splitlines():
        if len(pair := line.split()) != 2:
            raise Fault(HOOK, f"{hook} printed {line[:80]!r}; it has to print 'KEY VALUE' lines")
        found.append((pair[0], pair[1]))
    return found
