"""The processes of a store: started, struck and brought back by hooks, as a guard allows."""
import asyncio
import math
import os
import shutil
import signal
import sys
import tempfile
from argparse import Namespace
from asyncio.subprocess import DEVNULL, Process
from collections import deque
from collections.abc import AsyncIterator, Awaitable, Callable, Collection, Sequence
from contextlib import asynccontextmanager, suppress
from pathlib import Path
from typing import Any, cast

from faultyard import ClusterFile, Guard, Key, Kind
from faultyard.harness import Harness
from faultyard.plans import Order

from . import HOOK, USAGE, Fault, alone, clock, clock_ns, say
from .alone import OWN
from .clocks import Clocks, Uptimes, lacking_uptimes, library, offsets
from .crashes import ROUNDS, Crashes, end_of_log, in_words
from .damage import Damage
from .disks import Cut, disks_of
from .disturbances import Disturbances, shapes, skews
from .elsewhere import Elsewhere, Life, Partitions, refused
from .hooks import End, Hooks
from .links import Links, between
from .machine import Machine
from .net import Net
from .observed import Damages
from .orders import STOPS
from .places import PORTS, Place, addresses, in_a_row, reached
from .rescue import Rescue

DEAF = Path(__file__).with_name("deaf.py")
AGAIN = 0.1  # seconds until a hook that said no is asked again
SOON = 0.02  # seconds until it is looked again whether a process has ended
ALONE = 20.0  # seconds for which a process that joined has to be ready before another may join
CRASHES_SHOWN = 3  # of each process; the summary counts all
PATIENT = 20.0  # seconds until it is said what is waited for
FILLED = "right if the store fills it at its start"
UPTIME = "--uptime"
# What libfaketime prints below a library that asks for the time before it is there itself.
SAYS_CLASH = b"libfaketime: Cannot recover from unexpected recursive calls"
CLASH = "libfaketime clashes with a library of the store's, as with jemalloc"
LIVES = 0.5  # seconds after which a process counts as ready where no hook tells


class Store(Harness):
    def __init__(
        self, words: Namespace, guard: Guard, machine: Machine, goes_on: bool = False
    ) -> None:
        file, events = ClusterFile.read(words.config), words.out / "events.jsonl"
        show = (lambda text: None) if words.quiet else say
        more = {"unguarded": words.unguarded, "show": show, "clock": clock_ns}
        super().__init__(guard, file, events, goes_on=goes_on, **more)
        count = len(file.places)
        self.net: Net | Partitions | None = None
        if alone.has_net(words):
            self.net = Net(words.out, count, words.clog)
            if words.latency:
                centres = [place.get(Key.DATA_CENTER) for place in file.places]
                self.net.links.base = between(centres, words.latency)
        self.disks = disks_of(words, count) if words.disks not in (None, OWN) else None
        self.clocks = Clocks(words.out, offsets(words, count)) if skews(words) else None
        self.uptimes = Uptimes(words, count) if words.uptime else None
        self.cuts: list[tuple[str, Cut]] = []  # whose power was cut, and what that left
        self.words, self._machine = words, machine
        self.hooks = Hooks(words, file, self.ledger, machine, self._places())
        self.hooks.before = self._before
        self.elsewhere = Elsewhere(self.hooks)
        self.damages = Damages(self)
        self.disturbances = Disturbances(self)
        self._keeping: dict[int, asyncio.Task[None]] = {}  # each brings a process back
        self._started: dict[int, Process] = {}
        self._began: dict[int, float] = {}  # when each was started last
        self.starts: list[float] = []  # how many seconds each start took until it was up
        self.crashes: dict[int, Crashes] = {}  # of those that ended by themselves
        self.emptied: set[int] = set()  # until they have joined, or left
        self._ended: dict[int, str] = {}  # how each last ended by itself, until it is up
        self.partitions = self.apart = 0  # how many there were, and how many are now
        self.rescue = Rescue(self)
        # When the first and the last `whole` of each was called that said no since it was struck;
        # None once another one was down then, which may be why.
        self.not_whole: dict[int, tuple[float, float] | None] = {}
        self.clogged: set[int] = set()
        self._stopping: set[int] = set()  # who is asked to end
        self.stops: list[tuple[int, int | None]] = []  # how each ended; None if it was killed
        self.joined: dict[int, str] = {}  # what the last join of each has done, until it is struck
        self.attached: set[int] = set()  # who runs, and was started by others
        self.idle: set[int] = set()  # those whose last join left the folder empty
        self._elected = 0  # how many of the losses an election has seen
        self._joining, self._alone_until = 0, 0.0

    def _places(self) -> list[Place]:
        """Where each process is reached: at free ports, if that isn't given."""
        if self.words.at:
            return reached(self.words.at, self.names)
        if given := addresses(self.words.on):
            return reached(given, self.names, f"--on {self.words.on}")
        count = len(self.names)
        hosts = self.net.hosts if self.net else ["127.0.0.1"] * count
        if self.words.port is None:
            self.words.port = self._machine.free_ports(PORTS * count)
        else:
            self._machine.hold_ports(self.words.port)
        return in_a_row(hosts, self.words.port)

    async def learn(self) -> None:
        """Asks which hooks there are, and whether they do for the words of this run."""
        await self.hooks.learn()
        names = self.hooks.names
        if why := refused(self.words, names, self.file.actors[self.fault].kinds):
            raise Fault(USAGE, why)
        if (what := shapes(self.words)) and self.words.parts:
            raise Fault(USAGE, f"{what} is for a network of this tool's own: hooks only cut")
        for what in filter(None, (skews(self.words), UPTIME if self.uptimes else None)):
            if "kill" in names:
                raise Fault(USAGE, f"{what} is for processes that run below this tool")
        if (what := skews(self.words)) and library() is None:
            raise Fault(USAGE, f"{what} needs libfaketime, of Debian's faketime")
        if self.uptimes and (lacks := lacking_uptimes()):
            raise Fault(USAGE, f"{UPTIME} needs {lacks}")
        if self.words.net and "cut" in names:
            self.net = Partitions(self.elsewhere, len(self.names))

    async def lay_out(self, goes_on: bool) -> None:
        """Gives each process its host and its disk, where these were asked for."""
        if self.net:
            await self.net.begin()
        if self.clocks:
            self.clocks.begin()
        if self.disks and goes_on:
            await self.disks.again(set(range(len(self.names))) - self.emptied)
        elif self.disks:
            await self.disks.begin()

    async def mended(self) -> None:
        """No network that hooks cut stays so."""
        if isinstance(self.net, Partitions):
            await self.net.end()

    async def begin(self, tasks: asyncio.TaskGroup) -> None:
        """Starts the store."""
        self.tasks, self.spawn = tasks, tasks.create_task
        self._electing = tasks.create_task(self._elect())
        self._rescuing = tasks.create_task(self.rescue.watch())
        for number in range(len(self.names)):
            (self.words.out / str(number)).mkdir(exist_ok=True)
            self._keeping[number] = tasks.create_task(self._keep(number))

    async def back(self) -> None:
        """Waits until all are up that aren't destroyed, for as long as a join may take."""
        until = clock() + self.hooks.seconds("join")
        while not self.ledger.able <= self.up and clock() < until:
            await asyncio.sleep(AGAIN)

    async def calm(self) -> None:
        """Waits until all are up and whole."""
        began, seconds, is_told = clock(), self.hooks.seconds("join"), False
        while waiting := self.waiting():
            waited, logs = clock() - began, f"the logs in {self.words.out} may say why"
            if self.clocks and not self.starts and (name := self._clashing()):
                raise Fault(HOOK, f"{name}'s clock can't be off: {CLASH}, as {name}.log says")
            if waited > seconds:
                raise Fault(HOOK, f"after {seconds:g} seconds {waiting[0]}; {logs}")
            if waited > PATIENT and not is_told:
                is_told = True
                ends = f"it waits {seconds:g} seconds, six times --hook-timeout"
                self.show(f"after {PATIENT:g} seconds {waiting[0]}; {logs}; {ends}")
            await asyncio.sleep(AGAIN)

    def waiting(self) -> list[str]:
        """Who is not up or not whole, or has not left, and what each waits for."""
        if not self._is_elected():
            return [f"there is no election: {self.hooks.ends.get('elect', 'it was not asked for')}"]
        whole = self.up - self.ledger.destroyed.keys() | self.gone - self.emptied
        return [
            f"{name} is {self._state(number)}: {self._last(number)}{self._ended.get(number, '')}"
            for number, name in enumerate(self.names)
            if number not in whole
        ]

    def _state(self, number: int) -> str:
        """What a process is that isn't back."""
        if number in self.gone:
            return "not out"
        return "up and not whole" if number in self.up else "not back"

    def _last(self, number: int) -> str:
        """What its last hook said since it was struck."""
        end = self.hooks.ends.get(number)
        if end is None:
            waits = number in self.emptied and self._joining != number
            other = f"it waits until {self.names[self._joining]} has joined"
            if waits:
                return other
            if asked := self.hooks.asked.get(number):
                return f"{asked} has not answered yet"
            return "no hook has answered since it went down"
        if end.status == 0:
            return f"{end.call} said yes, and no hook has answered since"
        joined = self.joined.get(number)
        return f"{end}; {joined}" if joined and number not in self.emptied else str(end)

    async def end(self) -> None:
        """Ends all; nothing is told to the guard then."""
        async with self.turn:
            await cancelled([self._electing, self._rescuing, *self._keeping.values()])
            await self.elsewhere.end()

    async def strike(self, processes: Sequence[int], kind: Kind) -> None:
        is_cut = self.words.disks is not None and kind is Kind.REBOOT
        damaged = self.damages.awaits(processes) if kind is Kind.REBOOT_AND_DELETE else ()
        if kind is Kind.REBOOT_PROCESS and self.order and self.order.tear & STOPS:
            await self._stop(processes)
        await self._take_down(processes, kind.empties_disk, is_cut, damaged)
        self._stopping.difference_update(processes)

    async def _stop(self, processes: Sequence[int]) -> None:
        """Has them end by the hook, if there is one. What runs on is killed behind it."""
        if "stop" in self.hooks.names:
            self._stopping.update(processes)
            await asyncio.gather(*map(self._stop_one, processes))

    async def _stop_one(self, number: int) -> None:
        process, until = self._started.get(number), clock() + self.hooks.limit
        says = await self.hooks.says("stop", number)
        end = self.hooks.ends[number]
        while says and process and process.returncode is None and clock() < until:
            await asyncio.sleep(SOON)
        status = process.returncode if process and says else None
        self.stops.append((number, status))
        self.note("stopped", process=number, says=says, status=status)
        if status is None:
            text = f"{end.call} said yes, and it runs on" if says else str(end)
            self.show(f"{self.names[number]} is killed: {text}")

    async def _take_down(
        self,
        processes: Sequence[int],
        emptied: bool,
        is_cut: bool = False,
        damaged: Collection[int] = (),
    ) -> None:
        """Ends them all at once, with the hooks that work for them, to be brought back."""
        if is_cut and self.disks:
            self._freeze(processes)
        await cancelled([self._keeping[number] for number in processes])
        await self.elsewhere.struck(processes, is_cut)
        if is_cut:
            await self._cut(processes)
        await self.elsewhere.silent(set(processes) - self.clogged)
        self._note_killed(processes)
        for number in processes:
            self.hooks.ends.pop(number, None)
            self.joined.pop(number, None)
            self.not_whole.pop(number, None)
            is_over = self.damages.conclude(number)  # who was damaged before is emptied now
            if number in damaged and await self._is_damaged(number):
                continue
            if emptied or is_over:
                await self._empty(number)
        # Nobody waits from here until the losses are told, or one that is empty would join before
        # an election, perhaps as the primary that it was.
        for number in processes:
            self._keeping[number] = self.tasks.create_task(self._keep(number))

    async def _is_damaged(self, number: int) -> bool:
        """Damages a disk, which has the room for it, if that can be done."""
        await self.disturbances.spare(number)
        return await self.damages.strike(number)

    @asynccontextmanager
    async def held_down(self, number: int) -> AsyncIterator[None]:
        """Nothing of a process runs until the block ends."""
        async with self.turn:
            await cancelled([self._keeping[number]])
            await self.elsewhere.struck([number], False)
            self.hooks.ends.pop(number, None)
            self.tell_ended(number, "restart")
        try:
            yield
        finally:
            self._keeping[number] = self.tasks.create_task(self._keep(number))

    def _freeze(self, processes: Sequence[int]) -> None:
        """Stops them before any ends, since a power cut leaves nobody the time for one more
        sync."""
        for number in processes:
            self.signal(number, signal.SIGSTOP)

    def runs_for(self, number: int) -> float:
        """For how many seconds a process has run since its last start; none where it has ended."""
        process = self._started.get(number)
        runs = process is not None and self.elsewhere.runs(process)
        return clock() - self._began[number] if runs else 0.0

    def signal(self, number: int, sent: int) -> None:
        """Sends a signal to all that a process runs."""
        process = self._started.get(number)
        if process and process.returncode is None:
            self._machine.signal_below(process.pid, sent)

    async def copied(self, number: int, to: Path) -> None:
        """Copies the folder of a process."""
        await self._machine.output("cp", "-a", self.words.out / str(number), to)

    async def spoil(self, number: int, damage: Damage) -> None:
        """Has a part of a file be unreadable."""
        assert self.disks and damage.offset is not None and damage.length
        await self.disks.spoil(number, damage.file, damage.offset, damage.length)

    async def _cut(self, processes: Sequence[int]) -> None:
        """Cuts the power of their disks: what the order's tear doesn't keep is lost."""
        assert self.order
        # With --damage the word of an order that destroys is no tear.
        tear = self.order.tear if not self.words.damage or self.words.tear == "draw" else 0
        found = await self.disks.cut(processes, tear) if self.disks else Cut()
        self.cuts.append((self.order.value, found))
        self.note("cut", processes=list(processes), tear=tear, **found._asdict())
        self.show(f"power cut of {self.order.value}: {found}")

    def power(self) -> list[str]:
        """What power cuts left, as lines of the summary."""
        if not self.words.disks:
            return []
        lines = [f"{len(self.cuts)} power cuts: {sum((it for _, it in self.cuts), Cut(0, 0))}"]
        if self.words.deaf_disks:
            lines.append("the disks were deaf: a control, which has to lose records")
        return lines

    async def _empty(self, number: int) -> None:
        self.emptied.add(number)
        self.damages.forget_copies(number)
        if self.disks:
            await self.disks.replace(number)
        else:
            empty(self.words.out / str(number))
        await self.elsewhere.done("empty", number)

    def _note_killed(self, processes: Sequence[int]) -> None:
        """Until then what was struck may have run, and may have acknowledged."""
        if self.elsewhere.has("kill"):
            self.note("killed", processes=list(processes))

    def _before(self, number: int) -> list[str]:
        """The words before `start`: where it runs, and what its syncs do."""
        deaf = self.words.deaf_disks and self.words.disks != "lossy"  # which is deaf by itself
        within = self.net.within(number) if self.net else []
        within += self.clocks.words(number) if self.clocks else []
        within += self.uptimes.words(number) if self.uptimes else []
        return within + ([sys.executable, "-I", "-S", str(DEAF)] if deaf else [])

    async def clog(self, processes: Sequence[int], is_clogged: bool) -> None:
        """Stops or continues all that they run, or has a hook cut them off."""
        hook, sent = ("pause", signal.SIGSTOP) if is_clogged else ("resume", signal.SIGCONT)
        (self.clogged.update if is_clogged else self.clogged.difference_update)(processes)
        for number in processes:
            process = self._started.get(number)
            if self.net:
                await self.net.clog(number, is_clogged)
            elif self.elsewhere.has("kill"):
                await self.elsewhere.done(hook, number)
            elif process is None or process.returncode is not None:
                await self.hooks.call(hook, number)
            elif hook not in self.hooks.names:
                self._machine.signal_below(process.pid, sent)
            elif not await self.hooks.says(hook, number) and process.returncode is None:
                raise Fault(HOOK, f"{self.hooks.ends[number]}; it may not fail")

    async def partition(self, order: Order) -> None:
        """Loses what some processes send to others, until the order's time is over."""
        assert self.net
        self.partitions, self.apart = self.partitions + 1, self.apart + 1
        async with self.turn:
            self.note("partition", shape=order.value, cuts=order.cuts, clogged=order.clogged)
            self.show(f"partition {order.value}: {self._sides(order)}, {order.clogged:g} s")
            await self.net.cut(order.cuts, True)
        net = self.net

        async def mend() -> None:
            await net.cut(order.cuts, False)
            self.apart -= 1

        self.lasting(order.clogged, mend)

    def links(self) -> Links:
        """What shapes the network, which is the run's own."""
        assert isinstance(self.net, Net)
        return self.net.links

    def lasting(self, seconds: float, end: Callable[[], Awaitable[None]]) -> None:
        """Has what was begun end after so many seconds, and no later than the orders do."""
        self._clogs.append(self.spawn(self._end_later(seconds, end)))

    async def _end_later(self, seconds: float, end: Callable[[], Awaitable[None]]) -> None:
        with suppress(TimeoutError):
            async with asyncio.timeout(seconds):
                await self._over.wait()
        await end()

    def _sides(self, order: Order) -> str:
        """Who is unheard by whom."""
        to: dict[str, list[str]] = {}
        for sender, receiver in order.cuts:
            to.setdefault(self.names[sender], []).append(self.names[receiver])
        return "; ".join(f"{name} unheard by {' '.join(others)}" for name, others in to.items())

    async def _keep(self, number: int) -> None:
        """Brings a process back, and again each time that it ends by itself."""
        while number in self.emptied or number not in self.gone:
            if number in self.emptied:
                await self._join(number)
            elif self.damages.is_over(number):
                await self._give_up(number)
            elif number in self.damages.now and not self._is_elected():
                await asyncio.sleep(AGAIN)  # it may be emptied then, as the primary that it was
            else:
                await self._run(number)

    async def _run(self, number: int) -> None:
        """Runs a process until it ends by itself, or was observed with a damaged disk."""
        with (self.words.out / f"{self.names[number]}.log").open("ab") as log:
            begin, files = log.tell(), {"stdin": DEVNULL, "stdout": log, "stderr": log}
            recent = deque([begin], maxlen=ROUNDS)  # where its log ended at the last looks
            self._began[number] = clock()
            self.damages.started(number)
            async with self._running(number, files) as process:
                self._started[number] = process
                life = Life(self.elsewhere, number)
                while number in self._stopping or (
                    await life.goes_on(process.returncode, number in self.up)
                ):
                    if number in self._stopping:  # it is awaited, and killed, by who stops it
                        await asyncio.sleep(SOON)
                        continue
                    if self.damages.is_over(number):
                        return
                    await self._ask_after(number, process)
                    self._may_stay(number, process)
                    recent.append(os.fstat(log.fileno()).st_size)
                    await asyncio.sleep(AGAIN)
        assert process.returncode is not None  # or it would go on
        begin = recent[0] if number in self.up else begin
        self._end_by_itself(number, process.returncode, begin)
        await asyncio.sleep(self.crashes[number].pause())

    async def _give_up(self, number: int) -> None:
        """Empties a process whose disk was damaged, so that it joins as a new one."""
        self.damages.conclude(number)
        self.emptied.add(number)  # at once: a strike may cancel what follows
        if number in self.up:
            self.tell_ended(number, "restart")
        await self._empty(number)

    @asynccontextmanager
    async def _running(self, number: int, files: dict[str, Any]) -> AsyncIterator[Process]:
        """What `start` runs; or a process that others started, as if `start` had returned."""
        if number in self.attached:
            self.attached.discard(number)
            yield cast(Process, Namespace(returncode=0))
            return
        async with self.hooks.running("start", number, **files) as process:
            yield process

    def _may_stay(self, number: int, process: Process) -> None:
        """A process that is to be left where it runs may not end with its `start`."""
        is_held = process.returncode is None and number in self.up
        if self.words.attach and is_held and clock() > self._began[number] + self.hooks.limit:
            text = f"`start {number}` goes on, though `ready {number}` says yes: with --attach"
            raise Fault(HOOK, f"{text} it has to return, or what it runs ends with this tool")

    def _end_by_itself(self, number: int, status: int, begin: int) -> None:
        """Notes that a process ended which nobody struck, with the end of what it wrote."""
        name, is_up = self.names[number], number in self.up
        log = end_of_log(self.words.out / f"{name}.log", begin)
        self._ended[number] = f"; its last process ended with status {in_words(status)}"
        self.hooks.ends.setdefault(number, End(f"start {number}", status))
        is_damaged = self.damages.ended(number, log)
        more = {"damaged": True} if is_damaged else {}
        self.note("ended", process=number, status=status, was_up=is_up, log=log, **more)
        crashes = self.crashes.setdefault(number, Crashes())
        if not is_damaged and crashes.add(is_up, status, log) <= CRASHES_SHOWN:
            when = "" if is_up else " before it was up"
            self.show(f"{name} ended by itself{when}, {crashes.last}")
        if is_up:
            self.tell_ended(number, "ended by itself")

    async def _join(self, number: int) -> None:
        """Makes it a new member, one after the other; or has it leave for good."""
        hook = "leave" if number in self.gone else "join"
        while number in self.emptied:
            is_free = self._joining in self.up or self._alone_until < clock()
            if (is_free or self._joining == number) and self._is_elected():
                self._joining, self._alone_until = number, math.inf
                if hook == "join":
                    await self.look_at_emptied(number)
                await self._empty(number)
                if await self.hooks.says(hook, number):
                    self.emptied.discard(number)
                    if hook == "join":
                        self._note_join(number)
            await asyncio.sleep(AGAIN)
        self._alone_until = 0.0 if number in self.gone else clock() + ALONE
        self.note(hook, process=number)

    async def look_at_emptied(self, number: int) -> None:
        """Whether hooks say what is so of a process that has nothing, and doesn't run."""

    def _note_join(self, number: int) -> None:
        """Keeps what a `join` has done, in case the process doesn't come back."""
        self.idle.discard(number)
        if "join" in self.hooks.names:
            if not any((self.words.out / str(number)).iterdir()):
                self.idle.add(number)
            left = f" and left its folder empty ({FILLED})" if number in self.idle else ""
            self.joined[number] = f"join {number} had said yes{left}"

    async def _ask_after(self, number: int, process: Process) -> None:
        """Asks whether it is ready, and later whether it is whole, and tells the guard."""
        if number not in self.up:
            if "ready" not in self.hooks.names:
                await asyncio.sleep(LIVES)
            if await self.hooks.says("ready", number) and self.elsewhere.runs(process):
                self._ended.pop(number, None)
                self.starts.append(clock() - self._began[number])
                self.tell_up(number)
                self.damages.is_up(number)
                self._look_at_clock(number)
        elif number in self.damages.now:
            await self.damages.ask(number, process)
        elif number in self.ledger.destroyed and self._is_elected():
            now = self.ledger.now()
            whole = await self.hooks.says("whole", number, self.ledger.due(number))
            if whole and self.elsewhere.runs(process) and self._is_elected():
                self.tell_healed(number)
            elif not whole and self.hooks.ends[number].status is not None:  # it didn't hang
                self._note_no(number, now)

    def _look_at_clock(self, number: int) -> None:
        """Says whose clock can't be off, which runs now."""
        if self.clocks and (why := self.clocks.look(number)):
            self.show(f"{self.names[number]} has this machine's clock: {why}")

    def _clashing(self) -> str | None:
        """Whose log says that libfaketime can't be loaded with it."""
        for name in self.names:
            log = self.words.out / f"{name}.log"
            if log.exists() and SAYS_CLASH in log.read_bytes():
                return name
        return None

    def own_clocks(self) -> list[str]:
        """Whose clocks can't be off, as lines of the summary."""
        found: dict[str, list[str]] = {}
        for number, why in sorted(self.clocks.own.items() if self.clocks else ()):
            found.setdefault(why, []).append(self.names[number])
        return [f"this machine's clock for {' '.join(its)}: {why}" for why, its in found.items()]

    def _note_no(self, number: int, t: float) -> None:
        """Keeps that a `whole` said no which was called then."""
        others = set(range(len(self.names))) - {number}
        is_calm = others <= self.up - self.ledger.destroyed.keys() - self.clogged
        known = self.not_whole.get(number, (t, t))
        self.not_whole[number] = (known[0], t) if known and is_calm else None

    def ended_by_themselves(self) -> list[str]:
        """Who ended by itself, and how often."""
        its = {number: it for number, it in self.crashes.items() if it.last}
        return [f"{self.names[number]} {it}" for number, it in sorted(its.items())]

    def _is_elected(self) -> bool:
        """Whether no election is due."""
        return self._elected == self._losses()

    def _losses(self) -> int:
        """How many losses an election has to see."""
        return len(self.ledger.losses) - self.damages.spared()

    async def _elect(self) -> None:
        """After each destruction a hook may choose a primary, before any joins or is healed."""
        while True:
            await asyncio.sleep(AGAIN)
            seen = self._losses()
            if not self._is_elected() and (text := await self.hooks.call("elect")) is not None:
                for line in text.splitlines():
                    await self.do_as_said("elect", line)
                self._elected = seen

    async def do_as_said(self, hook: str, line: str) -> None:
        """Does what a line of the hook `elect` or `rescue` says."""
        match line.split():
            case ["empty" | "restart" as what, word] if word in map(str, self._keeping):
                number = int(word)
            case _:
                text = f"{hook} printed {line[:80]!r}; it may print 'empty N' and 'restart N'"
                raise Fault(HOOK, text)
        if what == "empty" and number in self.ledger.able:
            text = f"{hook} said {line!r}, and {self.names[number]} was not destroyed"
            raise Fault(HOOK, f"{text}: the guard counts on its records")
        async with self.turn:
            if number not in self.gone:
                await self._take_down([number], what == "empty")
                self.tell_ended(number, "restart")


def empty(folder: Path) -> None:
    """Empties a folder, also while something writes into it."""
    old = tempfile.mkdtemp(prefix=f".{folder.name}-", dir=folder.parent)
    with suppress(FileNotFoundError):  # a hook may have removed it
        os.replace(folder, old)
    folder.mkdir(exist_ok=True)
    shutil.rmtree(old, ignore_errors=True)


async def cancelled(tasks: Sequence[asyncio.Task[None]]) -> None:
    """Ends tasks, with the commands that run for them."""
    for task in tasks:
        task.cancel()
    await asyncio.gather(*tasks, return_exceptions=True)
