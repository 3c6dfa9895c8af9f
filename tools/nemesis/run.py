"""A run: orders are asked and done while records are written; then what is left is read."""
import asyncio
from argparse import Namespace
from collections import Counter
from collections.abc import AsyncIterator, Mapping, Set
from contextlib import asynccontextmanager, suppress
from dataclasses import replace
from itertools import chain
from random import Random
from typing import Any

from faultyard import AuditRefused, FaultyardError, Guard
from faultyard.history import History
from faultyard.ledger import Record
from faultyard.verdicts import Judged, Linear, Verdict, judge, judge_registers

from . import HOOK, USAGE, Fault
from .attach import attach, leave, leave_in_haste
from .checks import HookCheck
from .clients import Clients, Pairs, pairs
from .disturbances import FORMS, Disturbance
from .evidence import MORE, Case, Course, Disk, Left, told_alone, unwritten, unwritten_line
from .machine import Machine
from .orders import Orders, Timed
from .resume import Mark, Past, Words, end_what_runs, events_of, left_of, recall
from .risks import is_asked
from .stages import READY, WRITING, Stages
from .store import AGAIN, Store, cancelled
from .summary import Amount, failures
from .timeline import lines_of
from .traces import traces

PATIENT = 10.0  # seconds after which the first order is done though no record is acknowledged


def first_of(faults: ExceptionGroup[Exception]) -> Exception:
    """The first fault of a group that the tool has words for, or else the group.

    `except*` isn't used: what it raises is a group again in Python 3.11.2, which Debian 12 has.
    """
    known = faults.subgroup((Fault, FaultyardError, OSError))
    fault: Exception = known or faults
    while known and isinstance(fault, ExceptionGroup):
        fault = fault.exceptions[0]
    return fault


class Run(Store):
    judged = Judged()  # what became of each acknowledged record
    linear = Linear()  # what became of registers
    cases: list[dict[str, Any]] = []  # the evidence of each that isn't kept, as in records.jsonl
    told_alone: list[dict[str, Any]] = []  # of them what a process with a damaged disk told alone
    is_unread = False  # whether `read` hung, so that only disks and `check` can say what is left
    is_answered = True  # whether `read` told anything at the end

    def __init__(
        self, words: Namespace, guard: Guard, machine: Machine, past: Past | None = None
    ) -> None:
        """`past` is what it had done when it died."""
        super().__init__(words, guard, machine, goes_on=past is not None)
        self.past = past
        self.stages = Stages()
        self.is_timed = past is None and not words.check_hooks
        self.made = self.early = 0  # orders, and of them those before all were up and whole again
        self.is_left = False  # whether a cluster that others started is left as it was
        self.down: list[str] = []  # who did not run at the end
        self.notes: list[str] = []  # who was not back at the end, and why nothing could be read
        path = words.out / "history.jsonl"
        self.history: History = History(path, self.ledger, goes_on=past is not None)
        self.clients = Clients(self.hooks, self, self.history)
        self.clients.marked = Mark(words.out).keep
        self.clients.apart = self.damages.now
        self.damages.clients = self.clients
        if not words.resume:
            Words(words.given, words.cwd, words.port).keep(words.out)
        self.check = HookCheck(self)

    async def whole(self) -> None:
        """The run from its first process to what could be read."""
        await self.learn()
        if self.words.attach:
            await attach(self)
        self._have_registers()
        orders = Orders(self.words, self.file, self.fault, "stop" in self.hooks.names)
        try:
            if self.past:
                recall(self, self.past)
            await self.lay_out(goes_on=self.past is not None)
            async with self.hooks.set_up(), self._ending(), asyncio.TaskGroup() as tasks:
                await self._begin(tasks)
                self.stages.end(READY)
                self.show(f"orders: {orders.whose}")
                if not self.history.is_written:
                    await self._chaos(orders.timed)
                left = await self._read()
                if self.words.attach:
                    await leave(self)
                await self.end()
                self.stages.end("until all had ended")
                await self.check.disks()
                await self._judge(left)
                self.stages.end("looking at disks, and judging")
                if self.disks:
                    await self.disks.end()
        except ExceptionGroup as faults:
            raise first_of(faults) from None
        finally:
            if self.disks:
                await self.disks.settle()

    async def _begin(self, tasks: asyncio.TaskGroup) -> None:
        """Has the store run, all of it, or again what isn't destroyed."""
        if self.past:
            await end_what_runs(self, self.past)
            await self.begin(tasks)
            await self.back()
            return
        if self.words.resume and not self.words.attach:  # it died before anything was written
            await self.elsewhere.each("kill", range(len(self.names)))
            await self.elsewhere.each("empty", range(len(self.names)))
        await self.begin(tasks)
        await self.calm()
        self.ledger.begin()
        self.note("ready")

    @asynccontextmanager
    async def _ending(self) -> AsyncIterator[None]:
        """Whatever ends the block, nothing of the processes runs then, or it is said who may."""
        where = self.elsewhere
        try:
            async with where.ending(0 if self.words.attach else len(self.names)):
                yield
        finally:
            if self.clocks:
                self.clocks.end()
            with suppress(Fault):
                await self.mended()
            if self.words.attach and not self.is_left:
                await leave_in_haste(self)
            for number in sorted(where.survivors):
                end = self.hooks.ends.get(number, "no hook has answered")
                self.notes.append(f"{self.names[number]} may still run where it is: {end}")

    def _have_registers(self) -> None:
        words, can_get = self.words, "get" in self.hooks.names
        if words.registers and not can_get:
            raise Fault(USAGE, f"--registers needs a hook get, and {words.hooks} has none")
        self.clients.begin_registers(words.registers or (words.check_hooks and can_get))

    async def _chaos(self, orders: list[Timed]) -> None:
        """Writes and orders, until all that was clogged is let go again."""
        words, again = self.words, f"-{len(self.past.resumed)}" if self.past else ""
        dice = [Random(f"{words.seed}-{n}{again}") for n in range(words.writers + words.readers)]
        work = [self.clients.write(it) for it in dice[: words.writers]]
        if "check" in self.hooks.names:
            work += [self.clients.check(it) for it in dice[words.writers :]]
        if self.clients.registers:
            more = (Random(f"{words.seed}-get-{n}{again}") for n in range(max(words.readers, 1)))
            work += [self.clients.get(it) for it in more]
        if words.guard:
            work.append(self.follow())
        if "rollback" in (words.damage or ()):
            work.append(self.damages.keep_copies())
        behind = [self.tasks.create_task(it) for it in work]
        if words.check_hooks:
            self.notes += await self.check.whole()
        orders, late = await self._left_of(orders)
        self.stages.end("until a first record was acknowledged")
        await self._make(orders, late, until=words.seconds + late)
        if not words.check_hooks:
            await asyncio.sleep(words.seconds + late - self.ledger.now())
        async with self.turn:
            await cancelled(behind)
        self.ledger.stop()
        self.note("written")
        self.history.written()
        self.stages.end(WRITING)
        await self.clogs_ended(at_once=True)
        await self.damages.over()
        self.stages.end("until faults had ended")

    async def _make(self, orders: list[Timed], late: float, until: float) -> None:
        """Makes the orders, so many seconds later than planned; with --when-whole later still."""
        for at, order in orders:
            await asyncio.sleep(at + late - self.ledger.now())
            while self.words.when_whole and self.waiting() and self.ledger.now() < until:
                await asyncio.sleep(AGAIN)
            if self.words.when_whole:
                late = max(late, self.ledger.now() - at)
                if self.ledger.now() >= until:
                    return
            self.made, self.early = self.made + 1, self.early + bool(self.waiting())
            if isinstance(order, Disturbance):
                await self.disturbances.begin(order)
            elif not is_asked(order):
                await self.partition(order)
            elif self.targets(order.key, order.value):  # who is gone can't be struck again
                await self.obey(self.fault, order.act())

    async def _left_of(self, orders: list[Timed]) -> tuple[list[Timed], float]:
        """The orders that are still to be done, and how many seconds later than planned."""
        if self.past is None or self.past.late is None:
            late, what = await self._late(orders), "begun"
        else:
            died = self.past.ended_ns / 1e9
            left = left_of(orders, events_of(self.words.out), self.fault)
            if left is None:  # others have ordered in its name
                left = [(at, order) for at, order in orders if at + self.past.late > died]
            orders = left
            late, what = self.past.late + self.ledger.now() - died, "resumed"
        if self.past:
            what = "resumed"
        self.note(what, late=late)
        return orders, late

    async def _late(self, orders: list[Timed]) -> float:
        """How many seconds later than planned orders are done, which wait for a first record.

        A store whose quorum forms slowly might else be struck so often that there never is one.
        A replay keeps its times.
        """
        if self.words.replay or not orders:
            return 0.0
        while not self.ledger.records and self.ledger.now() < PATIENT:
            await asyncio.sleep(AGAIN)
        return max(0.0, self.ledger.now() - orders[0][0])

    async def look_at_emptied(self, number: int) -> None:
        if self.words.check_hooks:
            await self.check.look_at_emptied(number)

    async def _read(self) -> Left:
        """What the store tells at the end, all of it and each process alone."""
        self.show("reads what is left")
        found, acked = await self.clients.read(), list(self.ledger.records)
        self.stages.end("reading")
        self.rescue.end()
        self.notes += self.rescue.told()
        if not acked:
            amount, asked = self.amount(), len(self.history.writes)
            why = failures(amount) if amount.failed else f"none of {asked} writes was answered"
            raise Fault(HOOK, f"no record was acknowledged, so the run says nothing: {why}")
        if found is None:
            when = f"in {self.hooks.seconds('read'):g} seconds"
            when = when if self.ledger.able else "and every process is destroyed"
            end = self.hooks.ends["read"]
            self.notes.append(f"nothing could be read {when}: {end}")
            self.is_unread = end.status is None
        self.is_answered = found is not None
        checked = await self._check_all(acked) if "check" in self.hooks.names else {}
        if checked and set(acked) - dict(found or ()).keys():
            again = await self.clients.read()  # it has the last word, and may have lagged
            self.is_answered |= again is not None
            self.stages.end("reading")
        self.notes += [f"at the end {text}" for text in self.waiting()]
        runs = self.up | self.gone
        self.down = [name for number, name in enumerate(self.names) if number not in runs]
        return Left(checked)

    async def _check_all(self, keys: list[str]) -> dict[int, dict[str, str | None]]:
        """What each process that is up and whole tells, once those that come back had some time."""
        with suppress(TimeoutError):
            async with asyncio.timeout(self.hooks.limit):
                while self.waiting():
                    await asyncio.sleep(AGAIN)
        self.stages.end("until all were back")
        self.show(f"asks each process for {len(keys)} records")
        Random(self.words.seed).shuffle(keys)
        numbers = [number for number in range(len(self.names)) if self.clients.is_whole(number)]
        asked = (self.clients.check_all(number, keys) for number in numbers)
        checked = dict(zip(numbers, await asyncio.gather(*asked)))
        for number, found in checked.items():
            if len(found) < len(keys):
                text = f"answered for {len(found)} of {len(keys)} records"
                text += f" in at most {self.clients.patience(len(keys)):g} s, not for the others"
                self.notes.append(f"at the end `check` of {self.names[number]} {text}")
        self.stages.end("asking each process")
        return checked

    async def _judge(self, left: Left) -> None:
        """Says what became of each record; the disks are looked at where that isn't clear."""
        self._have_judged()
        is_down = not self.words.attach  # else the store runs on
        if "salvage" in self.hooks.names and self.judged.is_unclear and is_down:
            left = await self._looked_through(replace(left, disks=await self._salvaged()))
            self._have_judged()
        if self.words.registers:
            self.linear = judge_registers(self.words.out)
        self.cases = self._cases(left)
        verdicts = {it.value: self.judged[it] for it in Verdict}
        self.note("read", acked=self.judged["acknowledged"], **verdicts)

    def _have_judged(self) -> None:
        self.history.flush()
        self.judged = Judged()
        with suppress(AuditRefused):  # which is told beside
            self.judged = judge(self.words.config, self.words.out)

    async def _salvaged(self) -> dict[int, Disk]:
        """What the folder of each process has; those that the tool emptied have nothing.

        One after the other, since members of a store that run at once may find each other.
        """
        self.show("looks at the disks")
        found: dict[int, Disk] = {}
        for number in range(len(self.names)):
            told = await self._disk(number)
            if told is not None:
                self.history.salvaged(number, told, is_all=MORE not in dict(told))
            found[number] = told if told is None else dict(told)
        return found

    async def _looked_through(self, left: Left) -> Left:
        """With what stands in the files of those whose `salvage` gave nothing, if it would show."""
        written = {key: its[0].value or "" for key, its in self.history.writes.items()}
        acked, found = self.ledger.records.keys(), dict[int, Set[str]]()
        fetched = set(left.disks) - self.elsewhere.unfetched
        unknown = sorted(number for number in fetched if not left.is_told(number))
        for number in unknown if "plain" in self.hooks.names else ():
            try:
                folder = self.words.out / str(number)
                keys = found[number] = await asyncio.to_thread(traces, folder, written)
                self.history.looked_through(number, keys)
                text = f"have something of {len(keys & acked)} of {len(acked)} records"
            except OSError as fault:
                text = f"can't be read: {fault}"
            self.notes.append(f"the files of {self.names[number]} {text}")
        return replace(left, traces=found)

    async def _disk(self, number: int) -> Pairs | None:
        """What the folder of a process has, which doesn't run."""
        if number in self.gone | self.emptied and self.elsewhere.empties():
            return []
        if not await self.elsewhere.fetched(number):
            end = self.hooks.ends[number]
            self.notes.append(f"the disk of {self.names[number]} is unknown: {end}")
            return None
        text = await self.hooks.salvage(number, await self.hooks.copy(number))
        try:
            if text is not None:
                return pairs(f"salvage {number}", text)
            why = str(self.hooks.ends[number])
        except Fault as fault:
            why = fault.args[1]
        self.notes.append(f"the disk of {self.names[number]} is unknown: {why}")
        return None

    def unread(self) -> None:
        """Says what is known of the records where nothing was read in the end: which are wrong."""
        with suppress(FaultyardError):
            self._have_judged()
            wrong = [it for it in self.judged.lines if it["verdict"] == Verdict.WRONG]
            self.judged = replace(self.judged, lines=wrong)
            self.cases = self._cases(Left())

    def amount(self) -> Amount:
        """How much was done."""
        ledger, failed = self.ledger, ("no", "hung", "ended", "late")
        errors = Counter(it.error for it in chain(*self.history.writes.values()))
        return Amount(
            acked=len(ledger.records),
            pauses=ledger.pauses(),
            destroyed=len(ledger.losses),
            healed=len(ledger.healed),
            partitions=self.partitions + self.disturbances.count,
            failed={it: errors[it] for it in failed if errors[it]},
            said=self.hooks.said_by_write(),
            orders=self.made,
            early=self.early,
            is_unread=not self.is_answered,
            cuts=[cut for _, cut in self.cuts] if self._cuts_power() else None,
            damaged=len(self.damages.past) if self.words.damage else None,
        )

    def _cuts_power(self) -> bool:
        """Whether the run's orders may cut power."""
        return self.words.disks is not None and self.words.plan not in FORMS

    def _cases(self, left: Left) -> list[dict[str, Any]]:
        """The evidence of all records that aren't kept, and of all that was never written."""
        writes, records, names = self.history.writes, self.ledger.records, self.names
        is_fresh, lines = "fresh" in self.hooks.names, lines_of(self.words.out / "history.jsonl")
        losses, heals = self.ledger.losses, self.ledger.heals
        past = self.damages.past
        course = Course(names, self.orders, losses, heals, left, is_fresh, [*lines], past)

        def record(it: Mapping[str, Any]) -> Record:  # a register that was written once is one too
            known = Record(it["value"], round(it["at"] / 1e9, 3), it["entry"], ())
            return records.get(it["key"], known)

        cases = (
            Case(it, writes[it["key"]][0].began, record(it), course) for it in self.judged.lines
        )
        others = unwritten(records.keys(), writes, self.history.reads)
        told = [unwritten_line(it, it.key in writes, names) for it in others]
        wrong = {it["key"] for it in self.judged.lines if it["verdict"] == Verdict.WRONG}
        self.told_alone = [*told_alone(course, records, wrong)]
        return [case.line() for case in cases] + told + self.told_alone
