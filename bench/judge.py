#!/usr/bin/env python3
"""Times `judge` of one or more programs on generated inputs of 6, 100 and 1000 processes under
eight policies, whose counts are small or, as large clusters have them, in proportion to the
processes.

    bench/judge.py [--rounds N] PROGRAM..

Each input is filled with asks up to the limit of 1,048,576 bytes. The inputs are the same in each
run. The programs take turns, and have to write the same answers. A row of the table is the best of
N runs (10 if left out): asks per second over the whole run of the program, reading and writing
included, and the program's peak memory in a run of its own.
"""
import argparse
import os
import random
import re
import subprocess
import sys
import tempfile
import time

LIMIT = 1048576

# Each is met by all processes together, from six processes on three zones in two halls up.
POLICIES = [
    "Across(2,zoneid,One())",
    "Across(3,zoneid,One())",
    "Across(2,data_hall,Across(2,zoneid,One()))",
    "And(Across(2,data_hall,One()),Across(3,zoneid,One()))",
    "Across(5,processid,One())",
    "Across(4,machineid,One())",
    "And(One(),Across(2,dcid,Across(2,machineid,One())),Across(3,processid,One()))",
    "Across(2,zoneid,Across(2,processid,One()))",
]


def proportional(count):
    """Eight policies whose counts grow with the cluster; all processes together meet each."""
    zones = zone_count(count)
    return [
        f"Across({max(2, zones // 2)},zoneid,One())",
        f"Across({max(2, zones // 3)},zoneid,Across(2,machineid,One()))",
        f"Across({max(2, count // 4 + 1)},machineid,One())",
        f"And(Across(2,dcid,One()),Across({max(2, zones // 2)},zoneid,One()))",
        f"Across(2,dcid,Across({max(2, zones // 6)},zoneid,One()))",
        f"Across(2,dcid,Across({max(1, zones // 40)},zoneid,Across(2,machineid,One())))",
        f"Across({max(3, count // 2)},processid,One())",
        f"Across({max(2, zones // 3)},zoneid,One())",
    ]


def zone_count(count):
    return max(3, count // 8)


def cluster(count):
    """The lines of `count` processes: neighbours share a zone, of which there are at least three,
    and the first half stands in another hall and data centre than the second, so each holds two
    zones.
    """
    zones = zone_count(count)
    lines = []
    for place in range(count):
        zone = place // 2 % zones
        half = place // (count // 2) % 2
        lines.append(f"proc p{place} m{place} z{zone} h{half} d{half}")
    return lines


def judge_input(count, policies):
    """One input with as many asks as fit, and their number. One ask in eight is a `destroy`."""
    chosen = random.Random(count)
    text = "".join(f"policy {policy}\n" for policy in policies)
    text += "".join(f"{line}\n" for line in cluster(count))
    asks = []
    size = len(text)
    while True:
        kind = "destroy" if chosen.randrange(8) == 0 else "empty"
        ask = f"{kind} p{chosen.randrange(count)}\n"
        if size + len(ask) > LIMIT:
            return (text + "".join(asks)).encode(), len(asks)
        asks.append(ask)
        size += len(ask)


def timed(program, path):
    """Seconds of one run, its status, and what it wrote."""
    with open(path, "rb") as given, tempfile.TemporaryFile() as written:
        started = time.perf_counter()
        status = subprocess.call([program, "judge"], stdin=given, stdout=written)
        seconds = time.perf_counter() - started
        written.seek(0)
        return seconds, status, written.read()


def peak(program, path):
    """The peak memory of one run in KiB, as the system tells it last before the end. (What it tells
    a parent afterwards counts the parent's own memory before the program was started in its place.)
    """
    most = 0
    with open(path, "rb") as given:
        child = subprocess.Popen([program, "judge"], stdin=given, stdout=subprocess.DEVNULL)
        while child.poll() is None:
            try:
                with open(f"/proc/{child.pid}/status") as told:
                    found = re.search(r"VmHWM:\s+(\d+)", told.read())
            except OSError:
                found = None
            most = int(found[1]) if found else most
    return most


def main():
    words = argparse.ArgumentParser(usage="bench/judge.py [--rounds N] PROGRAM..")
    words.add_argument("--rounds", type=int, default=10)
    words.add_argument("programs", nargs="+")
    words = words.parse_args()
    width = max(len(program) for program in words.programs)
    print(
        f"{'program':<{width}} {'counts':>7} {'processes':>9} {'asks':>7} {'yes':>5} {'gone':>6}"
        f" {'seconds':>8} {'asks/s':>9} {'peak KiB':>9}"
    )
    for counts, policies_of in (("small", lambda _: POLICIES), ("large", proportional)):
        for count in (6, 100, 1000):
            compare(words, width, counts, count, *judge_input(count, policies_of(count)))


def compare(words, width, counts, count, data, asks):
    """Lets the programs take turns on one input, and prints a row for each."""
    with tempfile.NamedTemporaryFile(suffix=".judge") as file:
        file.write(data)
        file.flush()
        programs = [os.path.abspath(program) for program in words.programs]
        rounds = [[timed(program, file.name) for program in programs] for _ in range(words.rounds)]
        peaks = [peak(program, file.name) for program in programs]
    for program, memory, runs in zip(words.programs, peaks, zip(*rounds)):
        seconds, status, written = min(runs)
        answers = written.split(b"\n")[:-1]
        if status != 0 or len(answers) != asks or written != rounds[0][0][2]:
            sys.exit(
                f"{program}, {count} processes: status {status}, {len(answers)} answers to {asks}"
                f" asks, or other ones than {words.programs[0]}"
            )
        yes, gone = answers.count(b"yes"), answers.count(b"gone")
        print(
            f"{program:<{width}} {counts:>7} {count:>9} {asks:>7} {yes:>5} {gone:>6}"
            f" {seconds:>8.4f} {asks / seconds:>9.0f} {memory:>9}"
        )


main()
