#!/usr/bin/env python3
"""Times stores on a disk of faultyard-lossy beside the same on ext4: what a power cut costs while
there is none.

    bench/disks.py [--seconds N] [--rounds N] [--only NAME] LOSSY

LOSSY is bin/faultyard-lossy. ext4 is an image on a loop device, as the nemesis mounts it.
PostgreSQL (pgbench -N), etcd (puts by HTTP) and redis (redis-benchmark, appendfsync always) run on
each for some seconds (5), with one client and with several, in turn, for some rounds (5). A row has
the medians of operations a second, the least and the most, and their ratio. It needs to be root.
"""
import argparse
import base64
import glob
import http.client
import json
import multiprocessing
import os
import re
import shutil
import socket
import statistics
import subprocess
import sys
import tempfile
import time
from collections.abc import Callable, Iterator
from contextlib import contextmanager
from pathlib import Path

IMAGE = 2 << 30
AS_USER = "setpriv --reuid postgres --regid postgres --clear-groups".split()
POSTGRES = max(glob.glob("/usr/lib/postgresql/*/bin"), default="")
SETTINGS = "-c listen_addresses=127.0.0.1 -c unix_socket_directories= -c max_connections=100"


def said(*words: object) -> str:
    done = subprocess.run([str(it) for it in words], capture_output=True, text=True)
    if done.returncode:
        sys.exit(
            f"bench/disks.py: {words} ended with {done.returncode}: {done.stdout}{done.stderr}"
        )
    return done.stdout


@contextmanager
def disk(kind: str, room: Path, lossy: str) -> Iterator[Path]:
    """A new disk, as the nemesis mounts it."""
    top, kept = room / "top", room / "disk"
    top.mkdir()
    if kind == "ext4":
        with kept.open("xb") as image:
            image.truncate(IMAGE)
        said("mkfs.ext4", "-q", kept)
        said("mount", "-o", "loop", kept, top)
    else:
        kept.mkdir()
        said(lossy, "mount", kept, top)
    try:
        top.chmod(0o777)
        yield top
    finally:
        said(*(["umount"] if kind == "ext4" else [lossy, "unmount"]), top)
        shutil.rmtree(room)


def free_port() -> int:
    with socket.create_server(("127.0.0.1", 0)) as server:
        return int(server.getsockname()[1])


@contextmanager
def serving(words: list[object], port: int) -> Iterator[None]:
    """A server, once it answers at its port, until the block ends."""
    server = subprocess.Popen(
        [str(it) for it in words], stdout=subprocess.DEVNULL, stderr=subprocess.DEVNULL
    )
    try:
        for _ in range(600):
            try:
                socket.create_connection(("127.0.0.1", port), 1).close()
                break
            except OSError:
                time.sleep(0.05)
        time.sleep(1.0)
        yield
    finally:
        server.terminate()
        server.wait()


Rates = dict[str, float]


def postgres(top: Path, seconds: int) -> Rates:
    data, port = top / "data", free_port()
    said(*AS_USER, f"{POSTGRES}/initdb", "-D", data, "-A", "trust", "-U", "postgres")
    with serving(
        [*AS_USER, f"{POSTGRES}/postgres", "-D", data, "-p", port, *SETTINGS.split()], port
    ):
        at = ["-h", "127.0.0.1", "-p", port, "-U", "postgres"]
        said("pgbench", "-i", "-q", "-s", 10, *at, "postgres")
        rates = {}
        for clients in (1, 8):
            told = said("pgbench", "-N", "-n", "-c", clients, "-T", seconds, *at, "postgres")
            found = re.search(r"^tps = ([\d.]+)", told, re.MULTILINE)
            assert found, told
            rates[f"pgbench -N, {clients} clients"] = float(found[1])
        return rates


def put(port: int, seconds: float, counts: "multiprocessing.Queue[int]") -> None:
    """Puts one key after the other."""
    client, count, until = (
        http.client.HTTPConnection("127.0.0.1", port),
        0,
        time.monotonic() + seconds,
    )
    value = base64.b64encode(b"v" * 100).decode()
    while time.monotonic() < until:
        key = base64.b64encode(f"{os.getpid()}-{count}".encode()).decode()
        client.request("POST", "/v3/kv/put", json.dumps({"key": key, "value": value}))
        answer = client.getresponse()
        text = answer.read()
        assert answer.status == 200, text
        count += 1
    counts.put(count)


def etcd(top: Path, seconds: int) -> Rates:
    port, peer = free_port(), free_port()
    client, other = f"http://127.0.0.1:{port}", f"http://127.0.0.1:{peer}"
    urls = [
        "--listen-client-urls",
        client,
        "--advertise-client-urls",
        client,
        "--listen-peer-urls",
        other,
    ]
    urls += ["--initial-advertise-peer-urls", other, "--initial-cluster", f"default={other}"]
    with serving(["etcd", "--data-dir", top / "data", *urls], port):
        rates = {}
        for clients in (1, 16):
            counts: multiprocessing.Queue[int] = multiprocessing.Queue()
            work = [
                multiprocessing.Process(target=put, args=(port, seconds, counts))
                for _ in range(clients)
            ]
            for it in work:
                it.start()
            total = sum(counts.get() for _ in work)
            for it in work:
                it.join()
            rates[f"etcd puts, {clients} clients"] = total / seconds
        return rates


def redis(top: Path, seconds: int) -> Rates:
    port, rates = free_port(), {}
    rest = (
        f"--port {port} --bind 127.0.0.1 --appendonly yes --appendfsync always"
        " --auto-aof-rewrite-percentage 0"
    )
    with serving(["redis-server", "--save", "", "--dir", top, *rest.split()], port):
        for clients in (1, 16):
            words = [
                "redis-benchmark",
                "-p",
                str(port),
                "-q",
                "-t",
                "set",
                "-c",
                clients,
                "-d",
                100,
                "-r",
                100000,
                "-n",
            ]
            first = float(re.findall(r"([\d.]+) requests per second", said(*words, 2000))[-1])
            found = re.findall(
                r"([\d.]+) requests per second", said(*words, max(2000, int(first * seconds)))
            )
            rates[f"redis sets, {clients} clients"] = float(found[-1])
    return rates


STORES: dict[str, Callable[[Path, int], Rates]] = {
    "postgres": postgres,
    "etcd": etcd,
    "redis": redis,
}


def main() -> None:
    parser = argparse.ArgumentParser(
        usage="bench/disks.py [--seconds N] [--rounds N] [--only NAME] LOSSY"
    )
    parser.add_argument("--seconds", type=int, default=5)
    parser.add_argument("--rounds", type=int, default=5)
    parser.add_argument("--only", choices=STORES)
    parser.add_argument("lossy")
    words = parser.parse_args()
    lossy, found = os.path.abspath(words.lossy), dict[str, dict[str, list[float]]]()
    with tempfile.TemporaryDirectory(prefix="bench-disks-") as folder:
        os.chmod(folder, 0o755)
        for turn in range(words.rounds):
            for name in [words.only] if words.only else STORES:
                for kind in ("ext4", "lossy") if turn % 2 else ("lossy", "ext4"):
                    room = Path(folder) / kind
                    room.mkdir(mode=0o755)
                    with disk(kind, room, lossy) as top:
                        for what, rate in STORES[name](top, words.seconds).items():
                            found.setdefault(what, {"ext4": [], "lossy": []})[kind].append(rate)
    print("| | ext4 | lossy | ratio |\n|---|---|---|---|")
    for what, rates in found.items():
        medians = {kind: statistics.median(those) for kind, those in rates.items()}
        told = [
            f"{medians[kind]:,.0f} ({min(those):,.0f} to {max(those):,.0f})"
            for kind, those in rates.items()
        ]
        print(f"| {what} | {told[0]} | {told[1]} | {medians['lossy'] / medians['ext4']:.2f} |")


if __name__ == "__main__":
    main()
