"""What becomes of packets on the ways between two processes of a run's network.

    unshare --net --mount tests/power/ways.py CHECK
    unshare --net --mount tests/power/ways.py --measure

A check prints what the test asserts of it, as JSON. To measure is to print, for ways on which
nothing happens, some delay and some loss, what ping says of 2,000 packets 10 ms apart.
"""

from __future__ import annotations

import asyncio
import json
import subprocess
import sys
import tempfile
import threading
import time
from collections.abc import Callable, Iterator, Sequence
from pathlib import Path
from typing import Any

ROOT = Path(__file__).resolve().parent.parent.parent
sys.dont_write_bytecode = True
sys.path[:0] = [str(ROOT / "tools"), str(ROOT / "bindings/python/src")]

from nemesis.links import CALM, Traffic, kind  # noqa: E402
from nemesis.net import Net, WAYS  # noqa: E402

PORT = 7000
THERE, BACK = (0, 1), (1, 0)
SAID = 5.0  # seconds without a packet after which none comes

# Prints the time and the first word of each datagram, until it is told to end.
LISTENS = f"""
import socket, sys, time
it = socket.socket(socket.AF_INET, socket.SOCK_DGRAM)
it.setsockopt(socket.SOL_SOCKET, socket.SO_RCVBUF, 1 << 22)
it.bind(("", {PORT}))
print("ready", flush=True)
while True:
    data = it.recv(2048)
    print(time.monotonic(), data.split()[0].decode(), flush=True)
"""
# Sends so many datagrams of so many bytes, so many seconds apart; prints when it sent each.
SENDS = f"""
import socket, sys, time
host, count, size, apart = sys.argv[1], *map(float, sys.argv[2:])
it = socket.socket(socket.AF_INET, socket.SOCK_DGRAM)
for number in range(int(count)):
    print(time.monotonic(), flush=True)
    it.sendto(f"{{number}} ".encode().ljust(int(size), b"x"), (host, {PORT}))
    time.sleep(apart)
"""


class Sent:
    """What was sent one way, and what came."""

    def __init__(self, net: Net, way: tuple[int, int], count: int, size: int, apart: float) -> None:
        a, b = way
        words = [*net.within(b), sys.executable, "-c", LISTENS]
        listens = subprocess.Popen(words, stdout=subprocess.PIPE, text=True)
        assert listens.stdout and listens.stdout.readline() == "ready\n"
        self.lines = list[str]()
        reads = threading.Thread(target=lambda: self.lines.extend(listens.stdout or ()))
        reads.start()
        given = net.hosts[b], str(count), str(size), str(apart)
        words = [*net.within(a), sys.executable, "-c", SENDS, *given]
        told = subprocess.run(words, capture_output=True, text=True, check=True).stdout
        self.sent = [float(it) for it in told.split()]
        before = -1
        while len(self.lines) != before:
            before = len(self.lines)
            time.sleep(SAID)
        listens.kill()
        reads.join()
        self.came = [(float(t), int(number)) for t, number in map(str.split, self.lines)]

    def told(self) -> dict[str, Any]:
        """How many came, which more than once, which behind a later one, and how soon."""
        numbers = [number for _, number in self.came]
        takes = [t - self.sent[number] for t, number in self.came]
        behind = sum(b < a for a, b in zip(numbers, numbers[1:]))
        first = {number: t for t, number in reversed(self.came)}
        seconds = max(first.values()) - min(first.values()) if first else 0
        return {
            "came": len(set(numbers)),
            "twice": len(numbers) - len(set(numbers)),
            "behind": behind,
            "least": min(takes, default=None),
            "most": max(takes, default=None),
            "seconds": seconds,
        }


def sent(net: Net, way: tuple[int, int], count: int, size: int = 64, apart: float = 0.002) -> Any:
    return Sent(net, way, count, size, apart).told()


# What the test asserts.


async def delay(net: Net) -> Any:
    """There as it says, and back as ever."""
    await net.links.shape({THERE: Traffic(0.2, 0.05)})
    shaped = [sent(net, way, 50) for way in (THERE, BACK)]
    await net.links.shape({THERE: CALM})
    return [*shaped, sent(net, THERE, 50)]


async def loss(net: Net) -> Any:
    await net.links.shape({THERE: Traffic(loss=0.2, duplicates=0.1)})
    return [sent(net, way, 2000) for way in (THERE, BACK)]


async def order(net: Net) -> Any:
    await net.links.shape({THERE: Traffic(0.05, 0.05, reorders=True)})
    reordered = sent(net, THERE, 200)
    await net.links.shape({THERE: Traffic(0.05, 0.05)})
    return [reordered, sent(net, THERE, 200)]


async def rate(net: Net) -> Any:
    await net.links.shape({THERE: Traffic(rate=50_000)})
    return [sent(net, THERE, 100, 1000)]


async def cuts(net: Net) -> Any:
    """Cut and uncut while shaped, and shaped while cut; by pairs, and by a clog of each way."""
    told = [sent(net, THERE, 50)]
    await net.cut([THERE], True)
    await net.links.shape({THERE: Traffic(0.01)})
    told.append(sent(net, THERE, 50))
    await net.cut([THERE], False)
    told.append(sent(net, THERE, 50))
    await net.clog(0, True)
    told.append(sent(net, THERE, 50))
    await net.clog(0, False)
    return [*told, sent(net, THERE, 50)]


CHECKS: Sequence[Callable[[Net], Any]] = (delay, loss, order, rate, cuts)


# The figures of the page.


def ping(net: Net) -> str:
    words = "ping", "-q", "-c", "2000", "-i", "0.01", net.hosts[1]
    told = subprocess.run([*net.within(0), *words], capture_output=True, text=True, check=False)
    return "; ".join(told.stdout.splitlines()[-2:])


async def measure(net: Net) -> Iterator[str]:
    ways = Traffic(0.02, 0.005, reorders=True), Traffic(loss=0.01), Traffic(0.02, rate=10**6)
    print(f"by {await kind()}\nnothing: {ping(net)}", flush=True)
    for traffic in ways:
        await net.links.shape({THERE: traffic, BACK: traffic})
        print(f"{traffic} each way: {ping(net)}", flush=True)
        await net.links.shape({THERE: CALM, BACK: CALM})


async def main() -> None:
    name, way = sys.argv[1], WAYS[0]
    if ":" in name:
        name, _, way = name.partition(":")
    with tempfile.TemporaryDirectory() as folder:
        net = Net(Path(folder), 2, way)
        await net.begin()
        if name == "--measure":
            await measure(net)
            return
        check = next(it for it in CHECKS if it.__name__ == name)
        print(json.dumps({"by": await kind(), "told": await check(net)}))


asyncio.run(main())
