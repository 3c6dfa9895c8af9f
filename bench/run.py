#!/usr/bin/env python3
"""Times `run` of a program, and of another program of this command line beside it.

    bench/run.py [--rounds N] [--acts N] [--inputs CONFIG SCRIPT] PROGRAM..

Each script has 100,000 mixed acts (if left out) on a cluster of 6, 100 and 1000 processes, once as
the product spells it (`by` first, members in byte order, no blanks) and once as Python's json.dumps
does (blanks, and here members in any order). The scripts are the same in each run. The programs
take turns, and have to write the same audit. A row is the best of N runs (10 if left out) of the
whole program: reading, deciding and writing; and its peak memory in a run of its own. With
--inputs a cluster file and a script of your own are timed instead.
"""
import argparse
import json
import os
import random
import re
import subprocess
import sys
import tempfile
import time

KINDS = ["RebootProcess", "Reboot", "RebootAndDelete", "KillInstantly"]


def config(count):
    """A cluster of `count` processes, two to a zone, under policies of two and three zones."""
    process = "".join(
        f'  {{processid = "p{p}", machineid = "m{p}", zoneid = "z{p // 2}", dcid = "d0"}},\n'
        for p in range(count)
    )
    kinds = json.dumps(KINDS + ["Clog"])
    return (
        "journal_limit = 1048576\n"
        'policies = ["Across(2,zoneid,One())", "Across(3,zoneid,One())"]\n'
        f"process = [\n{process}]\n"
        "actor = [\n"
        '  {role = "storage"},\n'
        f'  {{role = "fault", grants = [{{kinds = {kinds}}}]}},\n'
        '  {role = "operator"},\n'
        "]\n"
    )


def acts(count, most):
    """Mixed acts: stores, syncs and deliveries of the oldest messages, restarts, clogs, kills of
    one process and rights. Whether an act is accepted is no matter of the script's."""
    chosen = random.Random(count)
    made, sent = [], 0

    def some():
        return chosen.randrange(count)

    def target():
        return {"key": "processid", "value": f"p{some()}"}

    for place in range(most):
        if place % 500 == 0:
            members = sorted(chosen.sample(range(count), min(3, count)))
            made.append((0, {"form": {"members": members, "policy": 0}}))
            continue
        of = chosen.randrange(20)
        if of < 3:
            bytes_of = "%x" % chosen.getrandbits(63) if place % 2 else "6869"
            payload = bytes_of if len(bytes_of) % 2 == 0 else "0" + bytes_of
            made.append(
                (0, {"begin": {"team": chosen.randrange(place // 500 + 1), "payload": payload}})
            )
        elif of < 10:
            made.append((0, {"deliver": {"message": sent}}))
            sent += 1
        elif of < 13:
            made.append((0, {"sync": {"process": some()}}))
        elif of < 15:
            made.append((0, {"up": {"process": some()}}))
        elif of < 16:
            made.append((0, {"tick": {"ticks": chosen.randrange(4)}}))
        elif of < 17:
            made.append((1, {"clog": {"ticks": chosen.randrange(9), **target()}}))
        elif of < 19:
            order = {
                "kind": KINDS[chosen.randrange(3)],
                "floor": "RebootProcess",
                "tear": chosen.getrandbits(8),
            }
            made.append((1, {"kill": {**order, **target()}}))
        else:
            kinds = chosen.sample(KINDS, 2)
            made.append(
                (2, {chosen.choice(["protect", "unprotect"]): {"process": some(), "kinds": kinds}})
            )
    return made


def plain(by, act):
    """A line as the product spells it."""
    act = json.dumps(act, separators=(",", ":"), sort_keys=True)
    return f'{{"by":{by},"act":{act}}}\n'


def dumped(by, act):
    """A line as json.dumps spells it, its members as they came."""
    return json.dumps({"act": act, "by": by}) + "\n"


def timed(words, script):
    """Seconds of one run, its status, and what it wrote."""
    with open(script, "rb") as given, tempfile.TemporaryFile() as written:
        started = time.perf_counter()
        status = subprocess.call(words, stdin=given, stdout=written)
        seconds = time.perf_counter() - started
        written.seek(0)
        return seconds, status, written.read()


def peak(words, script):
    """The peak memory of one run in KiB, as the system tells it last before the end."""
    most = 0
    with open(script, "rb") as given:
        child = subprocess.Popen(words, stdin=given, stdout=subprocess.DEVNULL)
        while child.poll() is None:
            try:
                with open(f"/proc/{child.pid}/status") as told:
                    found = re.search(r"VmHWM:\s+(\d+)", told.read())
            except OSError:
                found = None
            most = int(found[1]) if found else most
    return most


def compare(words, width, name, cluster, script):
    """Lets the programs take turns on one script, and prints a row for each."""
    lines = sum(1 for _ in open(script, "rb"))
    calls = [[os.path.abspath(program), "run", cluster] for program in words.programs]
    rounds = [[timed(call, script) for call in calls] for _ in range(words.rounds)]
    peaks = [peak(call, script) for call in calls]
    for program, memory, runs in zip(words.programs, peaks, zip(*rounds)):
        seconds, status, written = min(runs)
        if status != 0 or written != rounds[0][0][2]:
            sys.exit(
                f"{program}, {name}: status {status}, or another audit than {words.programs[0]}"
            )
        print(
            f"{program:<{width}} {name:<16} {lines:>7} {seconds:>8.4f} {lines / seconds:>9.0f}"
            f" {memory:>9} {memory * 1024 / lines:>9.0f}"
        )


def main():
    words = argparse.ArgumentParser(
        usage="bench/run.py [--rounds N] [--acts N] [--inputs CONFIG SCRIPT] PROGRAM.."
    )
    words.add_argument("--rounds", type=int, default=10)
    words.add_argument("--acts", type=int, default=100000)
    words.add_argument("--inputs", nargs=2)
    words.add_argument("programs", nargs="+")
    words = words.parse_args()
    width = max(len(program) for program in words.programs)
    print(
        f"{'program':<{width}} {'script':<16} {'acts':>7} {'seconds':>8} {'acts/s':>9}"
        f" {'peak KiB':>9} {'bytes/act':>9}"
    )
    if words.inputs:
        compare(words, width, "given", *words.inputs)
        return
    with tempfile.TemporaryDirectory() as folder:
        for count in (6, 100, 1000):
            cluster = f"{folder}/cluster.toml"
            with open(cluster, "w") as file:
                file.write(config(count))
            made = acts(count, words.acts)
            for name, spell in (("plain", plain), ("dumped", dumped)):
                script = f"{folder}/script.jsonl"
                with open(script, "w") as file:
                    file.writelines(spell(by, act) for by, act in made)
                compare(words, width, f"{count} {name}", cluster, script)


if __name__ == "__main__":
    main()
