#!/usr/bin/env python3
"""Times `verdict` and `linear` on histories of 20,000 to 1,000,000.

    bench/histories.py [--rounds N] [--growth] [--write records|registers COUNT] PROGRAM

The history of `verdict` has so many lines: two thirds are of writes, then come checks of single
processes and whole reads at the end, with disks. That of `linear` has so many operations, writes
and reads of 1,000 keys by 64 clients, which answer as registers do. A row of the table is the best
of N runs (3 if left out): seconds of processor time, and the most memory that the system gave the
program, of which up to some 30 MB are this script's own, from before the program was started in
its place. The goals stand behind the rows of a million: 3 s and 300 MB of `verdict`, and 5 s of
`linear`.

With --growth it counts instructions of both, below valgrind's callgrind, with 1,000 and with 8,000
and in place of the table says how many times as many those are. Where a cost is n log n, they are
at most 8 * 13 / 10 = 10.4 times as many. With --write it writes such a history, and runs nothing.
"""

import argparse
import json
import math
import os
import random
import re
import subprocess
import sys
import tempfile
from collections.abc import Callable, Iterator
from dataclasses import dataclass, field
from pathlib import Path
from typing import Any

ROOT = Path(__file__).resolve().parent.parent
CONFIG = ROOT / "examples" / "c6.toml"
PROCESSES = 6
CLIENTS = 64
KEYS = 1000
COUNTS = (20_000, 100_000, 350_000, 1_000_000)
FEW, MANY = 1_000, 8_000
# Seconds and MB, of the greatest count.
GOALS = {"verdict": (3.0, 300.0), "linear": (5.0, math.inf)}
NO_AUDIT = '{"audit":2}\n'
MINUTE = 60_000_000_000
MICROSECOND = 1_000

Line = dict[str, Any]


def records(count: int) -> Iterator[Line]:
    """The lines of a history of records: none is lost, and those that no read asked for are
    unreadable, so there is much to be said of them."""
    chance = random.Random(count)
    writes = count // 3
    disks = [{"f": "salvage", "type": "some", "node": node} for node in range(PROCESSES)]
    left = count - 2 * writes - 1 - len(disks)
    for number in range(writes):
        members = {"process": number % CLIENTS, "f": "write", "value": [f"k{number}", f"v{number}"]}
        yield {"type": "invoke", **members}
        yield {"type": "ok", **members}
    yield {"f": "written"}
    for place in range(left // 2):
        number = chance.randrange(writes)
        node = chance.choice((None, *range(PROCESSES)))
        members = {"process": place % CLIENTS, "f": "read", "node": node}
        yield {"type": "invoke", **members, "value": [f"k{number}", None]}
        yield {"type": "ok", **members, "value": [f"k{number}", f"v{number}"]}
    for _ in range(left % 2):
        yield disks[0]
    yield from disks


@dataclass
class Running:
    """An operation of a client that has begun, and its line without the type."""

    key: int
    line: Line = field(default_factory=dict)


def registers(count: int) -> Iterator[Line]:
    """The lines of so many operations of registers: each is linearizable."""
    chance = random.Random(count)
    held: list[str | None] = [None] * KEYS
    running: dict[int, Running] = {}
    begun = 0
    while begun < count or running:
        client = chance.randrange(CLIENTS)
        if client in running:
            yield ended(chance, client, running.pop(client), held)
        elif begun < count:
            running[client] = it = Running(chance.randrange(KEYS))
            if chance.random() < 0.5:
                it.line = {"f": "write", "value": [f"k{it.key}", f"v{begun}"]}
            else:
                it.line = {"f": "read", "node": None, "value": [f"k{it.key}", None]}
            begun += 1
            yield {"process": client, "type": "invoke", **it.line}


def ended(chance: random.Random, client: int, it: Running, held: list[str | None]) -> Line:
    """The line that ends an operation, which has its effect as it ends."""
    if it.line["f"] == "read":
        it.line["value"] = [f"k{it.key}", held[it.key]]
    elif chance.random() < 0.01:
        return {"process": client, "type": "fail", **it.line}
    else:
        held[it.key] = it.line["value"][1]
    return {"process": client, "type": "ok", **it.line}


MADE: dict[str, Callable[[int], Iterator[Line]]] = {"records": records, "registers": registers}


def write_history(path: Path, made: str, count: int) -> int:
    """Writes a history, and says how many lines it has."""
    number = 0
    with path.open("w") as file:
        for number, line in enumerate(MADE[made](count), 1):
            index = {"index": number - 1, "time": number * MICROSECOND}
            file.write(json.dumps({**index, **line}, separators=(",", ":")) + "\n")
    return number


@dataclass
class Job:
    """A command, and the history that it is given."""

    command: str
    words: list[str]
    history: Path

    def run(self) -> tuple[float, float]:
        """Seconds of processor time, and MB."""
        with self.history.open("rb") as given:
            child = subprocess.Popen(self.words, stdin=given, stdout=subprocess.DEVNULL)
            _, status, used = os.wait4(child.pid, 0)
            child.returncode = os.waitstatus_to_exitcode(status)
        # Status 6: some are unreadable.
        if child.returncode not in (0, 6):
            sys.exit(f"bench/histories.py: {self.command}: status {child.returncode}")
        return used.ru_utime + used.ru_stime, used.ru_maxrss * 1024 / 1e6


def jobs(program: str, room: Path, count: int) -> list[Job]:
    audit = room / "audit"
    audit.write_text(NO_AUDIT)
    verdict = [program, "verdict", str(CONFIG), "--audit", str(audit)]
    made = [
        Job("verdict", verdict, room / "records"),
        Job("linear", [program, "linear"], room / "registers"),
    ]
    for job in made:
        write_history(job.history, job.history.name, count)
    return made


def table(program: str, room: Path, rounds: int, most: int) -> None:
    print(f"{'command':<8} {'count':>9} {'seconds':>8} {'µs each':>8} {'MB':>7}  goal")
    for count in (it for it in COUNTS if it <= most):
        for job in jobs(program, room, count):
            runs = [job.run() for _ in range(rounds)]
            seconds, memory = min(it[0] for it in runs), max(it[1] for it in runs)
            goal = ""
            if count == COUNTS[-1]:
                most_seconds, most_memory = GOALS[job.command]
                is_met = seconds <= most_seconds and memory <= most_memory
                goal = f"{most_seconds} s, {most_memory} MB: {'met' if is_met else 'MISSED'}"
            each = seconds / count * 1e6
            print(
                f"{job.command:<8} {count:>9} {seconds:>8.2f} {each:>8.2f} {memory:>7.1f}  {goal}",
                flush=True,
            )


def instructions(job: Job, room: Path) -> int:
    before = ["valgrind", "--tool=callgrind", f"--callgrind-out-file={room / 'callgrind'}"]
    with job.history.open("rb") as given:
        ran = subprocess.run(
            [*before, *job.words], stdin=given, stdout=subprocess.DEVNULL, stderr=subprocess.PIPE
        )
    found = re.search(rb"Collected : (\d+)", ran.stderr)
    if found is None:
        sys.exit(f"bench/histories.py: callgrind collects nothing: {ran.stderr.decode()}")
    return int(found[1])


def growth(program: str, room: Path) -> bool:
    most = MANY * math.log2(MANY) / (FEW * math.log2(FEW))
    few, many = ([instructions(it, room) for it in jobs(program, room, n)] for n in (FEW, MANY))
    is_met = True
    for command, one, eight in zip(("verdict", "linear"), few, many):
        is_met = is_met and eight <= most * one
        print(f"{command}: {one:,} instructions with {FEW}, {eight:,} with {MANY}:", end=" ")
        print(f"{eight / one:.2f} times as many, and {most:.2f} are n log n")
    return is_met


def main() -> int:
    words = argparse.ArgumentParser(usage=(__doc__ or "").splitlines()[2].strip())
    words.add_argument("--rounds", type=int, default=3)
    words.add_argument("--most", type=int, default=COUNTS[-1])
    words.add_argument("--growth", action="store_true")
    words.add_argument("--write", nargs=2)
    words.add_argument("program", nargs="?")
    asked = words.parse_args()
    with tempfile.TemporaryDirectory() as folder:
        room = Path(folder)
        if asked.write:
            made, count = asked.write
            write_history(room / "history", made, int(count))
            sys.stdout.write((room / "history").read_text())
            return 0
        if not asked.program:
            words.error("a PROGRAM is missing")
        program = os.path.realpath(asked.program)
        if asked.growth:
            return 0 if growth(program, room) else 1
        table(program, room, asked.rounds, asked.most)
    return 0


if __name__ == "__main__":
    sys.exit(main())
