#!/usr/bin/env python3
"""Times `check` of a program, and of another program of this command line beside it.

    bench/check.py [--rounds N] [--acts N] [--largest] PROGRAM..

Each audit is what the first program's `run` writes for 100,000 mixed acts (if left out) on a
cluster of 6, 100 and 1000 processes: the scripts of bench/run.py. The programs take turns, and have
to find the audit legal. A row is the best of N runs (10 if left out) of the whole program, and its
peak memory in a run of its own. With --largest the audit is one near the limit of 268,435,456
bytes, written here from the rules: 65,536 records of 256 bytes, and then orders to kill.
"""
import argparse
import os
import subprocess
import sys
import tempfile

from run import acts, config, peak, plain, timed

MOST_BYTES = 268435456
MOST_ENTRIES = 1048576
# A name of 32 letters, the longest that there is.
NAME = "n" * 32


def largest(cluster, audit):
    """A cluster of one process, of which one copy is enough, and an audit of it near the limits.

    The process may never be destroyed, so that each order reboots it."""
    with open(cluster, "w") as file:
        file.write(
            f'journal_limit = {MOST_ENTRIES}\npolicies = ["One()"]\n'
            f'process = [{{processid = "{NAME}", machineid = "m0", zoneid = "z0"}}]\n'
            'actor = [{role = "storage"}, {role = "fault", grants = [{kinds = '
            '["RebootProcess", "Reboot", "RebootAndDelete", "KillInstantly"]}]}]\n'
        )
    size = count = 0
    with open(audit, "w") as file:

        def put(line):
            nonlocal size
            file.write(line)
            size += len(line)

        put('{"audit":2}\n')
        put('{"act":{"form":{"members":[0],"policy":0}},"at":0,"by":0,"reply":{"formed":0}}\n')
        count = 1
        for record in range(65536):
            put(
                f'{{"act":{{"begin":{{"payload":"{"5a" * 256}","team":0}}}},"at":{count},"by":0,'
                f'"reply":{{"begun":{{"first":{record},"record":{record}}}}}}}\n'
            )
            count += 1
        while count < MOST_ENTRIES and size < MOST_BYTES - 300:
            put(
                '{"act":{"kill":{"floor":"RebootProcess","key":"processid","kind":"KillInstantly",'
                f'"tear":18446744073709551615,"value":"{NAME}"}}}},"at":{count},"by":1,'
                '"reply":{"verdict":{"rule":["TooManyDestroyed",0],"struck":"Reboot"}}}\n'
            )
            count += 1
    return count, size


def compare(words, width, name, cluster, audit, entries):
    """Lets the programs take turns on one audit, and prints a row for each."""
    calls = [[os.path.abspath(program), "check", cluster] for program in words.programs]
    rounds = [[timed(call, audit) for call in calls] for _ in range(words.rounds)]
    peaks = [peak(call, audit) for call in calls]
    size = os.path.getsize(audit)
    for program, memory, runs in zip(words.programs, peaks, zip(*rounds)):
        seconds, status, said = min(runs)
        if status != 0 or said != f"legal {entries}\n".encode():
            sys.exit(f"{program}, {name}: status {status}, said {said}")
        print(
            f"{program:<{width}} {name:<10} {entries:>8} {size:>10} {seconds:>8.4f}"
            f" {entries / seconds:>10.0f} {memory:>9}"
        )


def main():
    words = argparse.ArgumentParser(
        usage="bench/check.py [--rounds N] [--acts N] [--largest] PROGRAM.."
    )
    words.add_argument("--rounds", type=int, default=10)
    words.add_argument("--acts", type=int, default=100000)
    words.add_argument("--largest", action="store_true")
    words.add_argument("programs", nargs="+")
    words = words.parse_args()
    width = max(len(program) for program in words.programs)
    print(
        f"{'program':<{width}} {'audit':<10} {'entries':>8} {'bytes':>10} {'seconds':>8}"
        f" {'entries/s':>10} {'peak KiB':>9}"
    )
    with tempfile.TemporaryDirectory() as folder:
        cluster, script, audit = (
            f"{folder}/{name}" for name in ("cluster.toml", "script.jsonl", "audit.jsonl")
        )
        if words.largest:
            entries, _ = largest(cluster, audit)
            compare(words, width, "largest", cluster, audit, entries)
            return
        for count in (6, 100, 1000):
            with open(cluster, "w") as file:
                file.write(config(count))
            with open(script, "w") as file:
                file.writelines(plain(by, act) for by, act in acts(count, words.acts))
            with open(script, "rb") as given, open(audit, "wb") as written:
                subprocess.run(
                    [words.programs[0], "run", cluster], stdin=given, stdout=written, check=True
                )
            compare(words, width, str(count), cluster, audit, words.acts)


if __name__ == "__main__":
    main()
