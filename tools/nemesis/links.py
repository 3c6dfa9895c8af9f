"""What happens to packets on their way from one process to another, by netem or by wirefilter.

Each pair that is disturbed has a link beside the bridge. What one sends to the other leaves the
cable of the sender for the near end of the link, and comes out at its far end, from where it goes
to the cable of the receiver. The ends are a veth pair with netem; where the kernel has no netem,
two TAP devices with wirefilter between them, which vde2 has.
"""
import asyncio
import os
import shutil
import socket
import subprocess
from abc import ABC, abstractmethod
from argparse import Namespace
from collections.abc import Callable, Iterable, Mapping, Sequence
from contextlib import suppress
from itertools import permutations
from pathlib import Path
from typing import Any, NamedTuple

from keeper import output

from . import TOOL, Fault
from .alone import missing_device, unshare
from .disks import begun, done

Pair = tuple[int, int]  # who sends, and to whom
NETEM, WIREFILTER = "netem", "wirefilter"
PROGRAMS = ("wirefilter", "vde_plug")
READY = 10.0  # seconds for which a link may be made
TRIED = "qdisc add dev lo root netem delay 1ms".split()
TUN = "/dev/net/tun"
PROMPT = b"VDEwf$ "
ORDERED = "10gbit"  # a rate has netem keep packets in order
DONE = b"1000 Success"

RULES = """
add table netdev fy
add set netdev fy lost { type ifname; }
"""


class Traffic(NamedTuple):
    """What happens to packets that go one way."""

    delay: float = 0.0  # seconds
    jitter: float = 0.0  # so many more or less
    loss: float = 0.0  # shares of all
    duplicates: float = 0.0
    rate: int | None = None  # bytes a second
    reorders: bool = False  # jitter has packets overtake each other

    def __and__(self, other: "Traffic") -> "Traffic":
        """One behind the other."""
        rates = [it for it in (self.rate, other.rate) if it]
        return Traffic(
            self.delay + other.delay,
            self.jitter + other.jitter,
            1 - (1 - self.loss) * (1 - other.loss),
            1 - (1 - self.duplicates) * (1 - other.duplicates),
            min(rates, default=None),
            self.reorders or other.reorders,
        )

    def netem(self) -> list[str]:
        """As words of tc."""
        words = ["delay", f"{1000 * self.delay:g}ms", f"{1000 * self.jitter:g}ms"]
        words += ["loss", f"{100 * self.loss:g}%", "duplicate", f"{100 * self.duplicates:g}%"]
        if self.rate:
            return [*words, "rate", f"{8 * self.rate}bit"]
        return words if self.reorders or not self.jitter else [*words, "rate", ORDERED]

    def wirefilter(self, way: str) -> list[str]:
        """As commands of wirefilter, for what goes `LR` or `RL`."""
        return [
            f"delay {way}{1000 * self.delay:g}+{1000 * self.jitter:g}U",
            f"loss {way}{100 * self.loss:g}",
            f"dup {way}{100 * self.duplicates:g}",
            f"bandwidth {way}{self.rate or 0}",
        ]

    def __str__(self) -> str:
        told = [f"{1000 * self.delay:g}±{1000 * self.jitter:g} ms"] if self.delay else []
        told += [f"{100 * self.loss:g} % lost"] if self.loss else []
        told += [f"{100 * self.duplicates:g} % doubled"] if self.duplicates else []
        told += ["reordered"] if self.reorders else []
        told += [f"at most {self.rate} bytes a second"] if self.rate else []
        return ", ".join(told) or "nothing"


CALM = Traffic()


def end_of(pair: Pair) -> str:
    """The near end of a way: what its first sends to its second goes in there."""
    return f"fy{pair[0]}-{pair[1]}"


class Link(ABC):
    """A way between two processes, and back."""

    def __init__(self, pair: Pair, folder: Path) -> None:
        self._pair, self._folder = (min(pair), max(pair)), folder
        self._ways: dict[Pair, Traffic] = {}

    @property
    def ends(self) -> tuple[str, str]:
        a, b = self._pair
        return end_of((a, b)), end_of((b, a))

    async def shape(self, pair: Pair, traffic: Traffic) -> None:
        self._ways[pair] = traffic
        await self._shape(pair, traffic)

    @abstractmethod
    async def begin(self) -> None:
        """Has both ends be there."""

    @abstractmethod
    async def _shape(self, pair: Pair, traffic: Traffic) -> None:
        """Has what goes one way be so."""


class Netem(Link):
    async def begin(self) -> None:
        near, far = self.ends
        await done("ip", "link", "add", near, "type", "veth", "peer", "name", far)

    async def _shape(self, pair: Pair, traffic: Traffic) -> None:
        words = "limit", "10000", *traffic.netem()
        await done("tc", "qdisc", "replace", "dev", end_of(pair), "root", "netem", *words)


class Wire(Link):
    """Two TAP devices, each with a plug, and wirefilter between the plugs."""

    async def begin(self) -> None:
        pipes = [os.pipe() for _ in range(4)]
        (left_in, left_out), (right_in, right_out) = pipes[:2], pipes[2:]
        self._plug(self.ends[0], left_in[0], left_out[1])
        self._plug(self.ends[1], right_in[0], right_out[1])
        env = os.environ | {
            "ALTERNATE_STDIN": str(right_out[0]),
            "ALTERNATE_STDOUT": str(right_in[1]),
        }
        more = {"pass_fds": (right_out[0], right_in[1]), "env": env, "cwd": self._folder}
        words = ["wirefilter", "-M", self._name]
        self._started(words, stdin=left_out[0], stdout=left_in[1], **more)
        for end in (it for pipe in pipes for it in pipe):
            os.close(end)
        async with asyncio.timeout(READY):
            while not self._is_there():
                await asyncio.sleep(0.005)

    @property
    def _name(self) -> str:
        return f"{self._pair[0]}-{self._pair[1]}"

    def _plug(self, end: str, given: int, gives: int) -> None:
        self._started(["vde_plug", f"tap://{end}"], stdin=given, stdout=gives)

    def _started(self, words: list[str], **more: Any) -> None:
        """It goes before other work, where it may: what waits for a processor is late."""
        with (self._folder / "links.log").open("ab") as log:
            process = begun(words, stderr=log, **more)
        with suppress(PermissionError):
            os.sched_setscheduler(process.pid, os.SCHED_RR, os.sched_param(1))

    def _is_there(self) -> bool:
        try:
            return (
                all(map(socket.if_nametoindex, self.ends))
                and (self._folder / self._name).is_socket()
            )
        except OSError:
            return False

    async def _shape(self, pair: Pair, traffic: Traffic) -> None:
        way = "LR" if pair == self._pair else "RL"
        is_mixed = any(it.reorders for it in self._ways.values())
        await self._command([*traffic.wirefilter(way), f"fifo {int(not is_mixed)}"])

    async def _command(self, lines: Iterable[str]) -> None:
        """Has wirefilter do what these say. Its socket's path may be too long to connect to."""
        folder = os.open(self._folder, os.O_PATH)
        try:
            path = f"/proc/self/fd/{folder}/{self._name}"
            reader, writer = await asyncio.open_unix_connection(path)
        finally:
            os.close(folder)
        try:
            await reader.readuntil(PROMPT)
            for line in lines:
                writer.write(f"{line}\n".encode())
                if DONE not in (told := await reader.readuntil(PROMPT)):
                    text = told.decode(errors="replace").strip()
                    raise Fault(TOOL, f"wirefilter said {text[:80]!r} to {line!r}")
        finally:
            writer.close()


KINDS: Mapping[str, type[Link]] = {NETEM: Netem, WIREFILTER: Wire}


class Links:
    """Those of a run, each made when it is first wanted."""

    def __init__(self, out: Path, hosts: Sequence[str], cable: Callable[[int], str]) -> None:
        self._out, self._hosts, self._cable = out, hosts, cable
        self._links: dict[Pair, Link] = {}
        self._shaped: dict[Pair, Traffic] = {}
        self._kind: type[Link] | None = None  # once all is there that links need
        self._turn = asyncio.Lock()
        self.base: Mapping[Pair, Traffic] = {}  # how ways are where nothing else is said
        self._lost: set[str] = set()  # far ends from which nothing comes

    async def begin(self) -> None:
        """Has all ways be as they are in the beginning."""
        await self.shape(self.base)

    async def shape(self, ways: Mapping[Pair, Traffic]) -> None:
        """Has some ways be so; one on which nothing happens goes over the bridge."""
        async with self._turn:
            for pair, traffic in ways.items():
                if traffic == CALM:
                    self._shaped.pop(pair, None)
                    continue
                await (await self._link(pair)).shape(pair, traffic)
                self._shaped[pair] = traffic
            if self._kind:
                await self._route()

    async def _lay(self) -> type[Link]:
        """What all links need."""
        (self._out / "links").mkdir(exist_ok=True)
        names = map(self._cable, range(len(self._hosts)))
        await self._rules([*RULES.splitlines(), *map(chain, names)])
        await self._lose("add", self._lost)
        return KINDS[await kind()]

    async def _link(self, pair: Pair) -> Link:
        key = min(pair), max(pair)
        if self._kind is None:
            self._kind = await self._lay()
        if key not in self._links:
            link = self._kind(pair, self._out / "links")
            await link.begin()
            for it in link.ends:
                await done("ip", "link", "set", it, "up")
            (near, far), (a, b) = link.ends, key
            rules = [chain(near), chain(far), comes(near, self._cable(a))]
            await self._rules([*rules, comes(far, self._cable(b))])
            self._links[key] = link
        return self._links[key]

    async def _route(self) -> None:
        """Has what goes a disturbed way go over its link, and all else over the bridge."""
        lines = []
        for number in range(len(self._hosts)):
            name = self._cable(number)
            lines.append(f"flush chain netdev fy {name}")
            for (a, b), _ in sorted(self._shaped.items()):
                if a == number:
                    to = f"ip daddr {self._hosts[b]} fwd to {end_of((a, b))}"
                    lines.append(f"add rule netdev fy {name} {to}")
        await self._rules(lines)

    async def lose(self, ways: Iterable[Pair]) -> None:
        """Has nothing come out of the links for these ways, and all for all others."""
        async with self._turn:
            before, self._lost = self._lost, {end_of((b, a)) for a, b in ways}
            if self._kind:
                await self._lose("add", self._lost - before)
                await self._lose("delete", before - self._lost)

    async def _lose(self, deed: str, ends: set[str]) -> None:
        if ends:
            await self._rules([f"{deed} element netdev fy lost {{ {', '.join(sorted(ends))} }}"])

    async def _rules(self, lines: Iterable[str]) -> None:
        path = self._out / "links.rules"
        path.write_text("".join(f"{line}\n" for line in lines))
        await done("nft", "-f", path)


def chain(name: str) -> str:
    """The rules for what comes in at a device."""
    hook = f'type filter hook ingress device "{name}" priority 0;'
    return f"add chain netdev fy {name} {{ {hook} }}"


def comes(end: str, cable: str) -> str:
    """What comes out at an end of a link goes to a cable, if it isn't lost."""
    return f"add rule netdev fy {end} iifname != @lost fwd to {cable}"


async def kind() -> str:
    """By what links are shaped in this network, which nobody else has."""
    if shutil.which("tc"):
        status, _ = await output("tc", *TRIED, stderr=subprocess.DEVNULL)
        if not status:
            await done("tc", "qdisc", "del", "dev", "lo", "root")
            return NETEM
    return WIREFILTER


async def told() -> str:
    """By what links are shaped here, if they can be, as a line."""
    found = await kind()
    if found == WIREFILTER and (lacks := [it for it in PROGRAMS if not shutil.which(it)]):
        return f"the network can't be slow or lossy: there is no netem, and no {' '.join(lacks)}"
    return f"the network is slow and lossy by {found}"


def missing(words: Namespace, what: str) -> str | None:
    """What the machine lacks for links, which these words want, if it does."""

    def works(*command: str) -> bool:
        tried = [*unshare(words), *command]
        return not subprocess.run(tried, capture_output=True, check=False).returncode

    if not works("nft", f"{RULES}{chain('lo')}; add rule netdev fy lo fwd to lo"):
        return f"{what} needs rules of nft that forward packets, which the kernel refuses"
    if works("tc", *TRIED):
        return None
    if lacks := [program for program in PROGRAMS if not shutil.which(program)]:
        return f"{what} needs netem, which the kernel refuses, or {' '.join(lacks)} of vde2"
    return missing_device(f"{what} needs netem, which the kernel refuses, or wirefilter;", TUN)


def between(centres: Sequence[str | None], traffic: Traffic) -> dict[Pair, Traffic]:
    """The ways from one data centre to another; all, where there is one or none."""
    pairs = [(a, b) for a, b in permutations(range(len(centres)), 2)]
    apart = [(a, b) for a, b in pairs if centres[a] != centres[b]]
    return dict.fromkeys(apart or pairs, traffic)
