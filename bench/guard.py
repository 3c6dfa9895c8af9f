#!/usr/bin/env python3
"""Times talks with `guard` of a program: a line goes in, its answer comes out, and then the next.

    bench/guard.py [--acts N] [--rounds N] PROGRAM..

The clusters have 6, 100 and 1000 processes, two to a zone. Each talk has N acts (100,000 if left
out): orders to reboot one process after another, so that each answer is a verdict. A row has the
round trips a second, the best of the rounds (5) and the worst; the median, the 99th and the 99.9th
of a hundred of the seconds of one trip, in microseconds; and the resident memory at the end. The
last rows are a million acts, one talk, and a client that takes 10 milliseconds for each of its
first hundred lines. The programs take turns.
"""
import argparse
import json
import os
import subprocess
import sys
import tempfile
import time


def config(processes):
    """A cluster of `processes`, two to a zone, with two actors: one stores, the other may order
    every kill."""
    process = "".join(
        f'  {{processid = "p{p}", machineid = "m{p}", zoneid = "z{p // 2}"}},\n'
        for p in range(processes)
    )
    kinds = '["RebootProcess", "Reboot", "RebootAndDelete", "KillInstantly"]'
    return (
        f'journal_limit = 1048576\npolicies = ["Across(2,zoneid,One())"]\nprocess = [\n{process}]\n'
        'actor = [\n  {role = "storage"},\n'
        f'  {{role = "fault", grants = [{{kinds = {kinds}}}]}},\n]\n'
    )


def order(process):
    # As the product spells it, which is read fastest.
    kill = {
        "floor": "Reboot",
        "key": "processid",
        "kind": "Reboot",
        "tear": 0,
        "value": f"p{process}",
    }
    return json.dumps({"by": 1, "act": {"kill": kill}}, separators=(",", ":")).encode() + b"\n"


def memory(process):
    with open(f"/proc/{process}/status", encoding="ascii") as status:
        return next(int(line.split()[1]) for line in status if line.startswith("VmRSS"))


def talk(program, cluster, processes, acts, pause=0.0):
    """Round trips a second, the sorted seconds of each, and the guard's memory in KiB."""
    lines = [order(process) for process in range(processes)]
    guard = subprocess.Popen(
        [program, "guard", cluster], stdin=subprocess.PIPE, stdout=subprocess.PIPE, bufsize=0
    )
    told, heard = guard.stdin.fileno(), guard.stdout.fileno()
    os.read(heard, 4096)
    trips = []
    begun = time.perf_counter()
    for number in range(acts):
        line = lines[number % processes]
        at = time.perf_counter()
        if pause and number < 100:
            os.write(told, line[:20])
            time.sleep(pause)
            line = line[20:]
        os.write(told, line)
        answer = os.read(heard, 4096)
        trips.append(time.perf_counter() - at)
        if not answer.endswith(b"\n"):
            sys.exit(f"bench/guard.py: {answer!r} is no answer")
    took = time.perf_counter() - begun
    last = json.loads(answer)
    if last["at"] != acts - 1 or last["reply"] != {"verdict": {"rule": None, "struck": "Reboot"}}:
        sys.exit(f"bench/guard.py: the last answer is {answer!r}")
    kept = memory(guard.pid)
    guard.stdin.close()
    if guard.wait() != 0:
        sys.exit(f"bench/guard.py: the guard ended with status {guard.returncode}")
    return acts / took, sorted(trips), kept


def row(name, talks):
    best = max(talks, key=lambda told: told[0])
    trips = best[1]
    parts = [trips[len(trips) // 2], trips[len(trips) * 99 // 100], trips[len(trips) * 999 // 1000]]
    times = " ".join(f"{part * 1e6:8.1f}" for part in parts)
    worst = min(told[0] for told in talks)
    print(f"{name:36} {best[0]:12,.0f} {worst:12,.0f}   {times} {best[2]:10,} KiB", flush=True)


def main():
    parser = argparse.ArgumentParser()
    parser.add_argument("--acts", type=int, default=100_000)
    parser.add_argument("--rounds", type=int, default=5)
    parser.add_argument("programs", nargs="+", metavar="PROGRAM")
    words = parser.parse_args()
    print(
        f"{'':36} {'a second':>12} {'worst':>12}   {'median':>8} {'99 %':>8} {'99.9 %':>8}"
        f" {'memory':>14}"
    )
    with tempfile.TemporaryDirectory(prefix="bench-guard-") as folder:
        for processes in (6, 100, 1000):
            cluster = os.path.join(folder, f"{processes}.toml")
            with open(cluster, "w", encoding="ascii") as text:
                text.write(config(processes))
            talks = {program: [] for program in words.programs}
            for _ in range(words.rounds):
                for program in words.programs:
                    talks[program].append(talk(program, cluster, processes, words.acts))
            for program in words.programs:
                row(f"{processes} processes, {os.path.basename(program)}", talks[program])
        for program in words.programs:
            row(
                f"a million acts, {os.path.basename(program)}",
                [talk(program, cluster, 1000, 1_000_000)],
            )
            row(
                f"a slow client, {os.path.basename(program)}",
                [talk(program, cluster, 1000, 1000, 0.01)],
            )


if __name__ == "__main__":
    main()
