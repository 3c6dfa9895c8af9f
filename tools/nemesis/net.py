"""A network of the run's own: each process in a namespace, with a cable to one bridge."""
import asyncio
import os
from collections import Counter
from collections.abc import Sequence
from itertools import permutations
from pathlib import Path

from .disks import begun, done
from .links import Links, Pair

WAYS = ("both", "out", "in")
GATEWAY = "10.77.255.254"  # where hooks and writers are
READY = 10.0  # seconds for which a namespace may be made

# What is lost on its way over the bridge: all that a process sends or gets, and pairs one way.
RULES = """
add table bridge fy
add set bridge fy mute { type ifname; }
add set bridge fy numb { type ifname; }
add set bridge fy cut { type ifname . ifname; }
add chain bridge fy forward { type filter hook forward priority 0; }
add chain bridge fy input { type filter hook input priority 0; }
add chain bridge fy output { type filter hook output priority 0; }
add rule bridge fy forward iifname @mute drop
add rule bridge fy forward oifname @numb drop
add rule bridge fy forward iifname . oifname @cut drop
add rule bridge fy input iifname @mute drop
add rule bridge fy output oifname @numb drop
"""


def cable(number: int) -> str:
    return f"fy{number}"


class Net:
    """The hosts of the processes. All of it goes with the namespaces, which go with the tool."""

    def __init__(self, out: Path, count: int, way: str) -> None:
        self.hosts = [f"10.77.{number // 250}.{number % 250 + 1}" for number in range(count)]
        self._out, self._way = out, way
        self._holders: list[int] = []  # processes that hold the namespaces
        self._lost: Counter[str] = Counter()  # how often each element of a set is wanted
        self.links = Links(out, self.hosts, cable)

    async def begin(self) -> None:
        """Lays all cables."""
        for _ in self.hosts:
            self._holders.append(await self._hold())
        lines = ["link set lo up", "link add fy type bridge", f"addr add {GATEWAY}/16 dev fy"]
        lines.append("link set fy up")
        for number, pid in enumerate(self._holders):
            name = cable(number)
            lines.append(f"link add {name} type veth peer name eth0 netns {pid}")
            lines.append(f"link set {name} master fy up")
        await self._batch([], lines)
        for number, host in enumerate(self.hosts):
            inside = ["link set lo up", f"addr add {host}/16 dev eth0", "link set eth0 up"]
            await self._batch(self.within(number), inside)
        rules = self._out / "net.rules"
        rules.write_text(RULES)
        await done("nft", "-f", rules)
        await self.links.begin()

    async def _hold(self) -> int:
        """A process in a network namespace of its own."""
        holder = begun(["unshare", "--net", "sleep", "infinity"])
        path, own = f"/proc/{holder.pid}/ns/net", os.readlink("/proc/self/ns/net")
        async with asyncio.timeout(READY):
            while os.readlink(path) == own:
                await asyncio.sleep(0.005)
        return holder.pid

    async def _batch(self, before: Sequence[str], lines: Sequence[str]) -> None:
        path = self._out / "net.batch"
        path.write_text("".join(f"{line}\n" for line in lines))
        await done(*before, "ip", "-batch", path)

    def within(self, number: int) -> list[str]:
        """The words before a command that is to run at a process's host."""
        return ["nsenter", f"--net=/proc/{self._holders[number]}/ns/net"]

    async def clog(self, number: int, is_clogged: bool) -> None:
        """Pulls the cable of a process, or loses what goes one way; or puts an end to it."""
        if self._way == "both":
            await done("ip", "link", "set", cable(number), "down" if is_clogged else "up")
        else:
            which = "mute" if self._way == "out" else "numb"
            await self._change(which, [cable(number)], is_clogged)

    async def cut(self, pairs: Sequence[tuple[int, int]], is_cut: bool) -> None:
        """Loses what the first of each pair sends to the second, or puts an end to it."""
        await self._change("cut", [f"{cable(a)} . {cable(b)}" for a, b in pairs], is_cut)

    async def _change(self, which: str, elements: Sequence[str], is_added: bool) -> None:
        """Faults may overlap: an element is there until all have ended that want it."""
        before = {it for it in elements if self._lost[it]}
        for it in elements:  # none ends that a run had begun which died
            self._lost[it] = max(0, self._lost[it] + (1 if is_added else -1))
        after = {it for it in elements if self._lost[it] > 0}
        if changed := sorted(after ^ before):
            deed = "add" if is_added else "delete"
            await done("nft", f"{deed} element bridge fy {which} {{ {', '.join(changed)} }}")
            ways = [(a, b) for a, b in permutations(range(len(self.hosts)), 2)]
            await self.links.lose(filter(self._is_lost, ways))

    def _is_lost(self, way: Pair) -> bool:
        """Whether what goes a way is lost by these sets."""
        sender, receiver = map(cable, way)
        quiet = sender if self._way == "out" else receiver
        return self._lost[f"{sender} . {receiver}"] > 0 or self._lost[quiet] > 0
