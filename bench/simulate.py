#!/usr/bin/env python3
"""Times `simulate` of a program, and of another program of this command line beside it.

    bench/simulate.py [--rounds N] [--acts A] [--plan PLAN] PROGRAM..

The clusters have 6, 100 and 1000 processes: those of bench/run.py, each with a storage actor, a
fault actor and an operator. Each run makes 100,000 acts (if left out) by the seed 7 and writes the
audit to a file. The programs take turns, and have to write the same audit. A row is the best of N
runs (10 if left out) of the whole program, its peak memory in a run of its own, and the same with a
tenth of the acts.
"""
import argparse
import hashlib
import os
import sys
import tempfile

from run import config, peak, timed

SIZES = (6, 100, 1000)


def compare(words, width, count, cluster):
    """Lets the programs take turns on one cluster, and prints a row for each."""

    def call(program, acts):
        chosen = ["--seed", "7", "--acts", str(acts), "--plan", words.plan]
        return [os.path.abspath(program), "simulate", cluster, *chosen]

    def run(program):
        """Seconds, and all that has to be the same in each run: the status, and of the audit its
        lines, bytes and sum."""
        seconds, status, written = timed(call(program, words.acts), os.devnull)
        return seconds, (
            status,
            written.count(b"\n") - 1,
            len(written),
            hashlib.sha256(written).digest(),
        )

    rounds = [[run(program) for program in words.programs] for _ in range(words.rounds)]
    wanted = rounds[0][0][1]
    for program, runs in zip(words.programs, zip(*rounds)):
        if wanted[:2] != (0, words.acts) or any(told != wanted for _, told in runs):
            sys.exit(
                f"{program}, {count}: a run failed, or wrote another audit: {wanted[:3]},"
                f" {[told[:3] for _, told in runs]}"
            )
        seconds, size = min(runs)[0], wanted[2]
        most, less = (
            peak(call(program, acts), os.devnull) for acts in (words.acts, words.acts // 10)
        )
        rate = words.acts / seconds
        print(
            f"{program:<{width}} {count:>9} {words.acts:>7} {size:>9} {seconds:>8.4f}"
            f" {rate:>8.0f} {most:>9} {less:>9}"
        )


def main():
    words = argparse.ArgumentParser(
        usage="bench/simulate.py [--rounds N] [--acts A] [--plan PLAN] PROGRAM.."
    )
    words.add_argument("--rounds", type=int, default=10)
    words.add_argument("--acts", type=int, default=100000)
    words.add_argument("--plan", default="mixed")
    words.add_argument("programs", nargs="+")
    words = words.parse_args()
    width = max(len(program) for program in words.programs)
    head = (
        f"{'processes':>9} {'acts':>7} {'bytes':>9} {'seconds':>8} {'acts/s':>8} {'peak KiB':>9}"
        f" {'of a 10th':>9}"
    )
    print(f"{'program':<{width}} {head}")
    with tempfile.TemporaryDirectory() as folder:
        cluster = f"{folder}/cluster.toml"
        for count in SIZES:
            with open(cluster, "w") as file:
                file.write(config(count))
            compare(words, width, count, cluster)


if __name__ == "__main__":
    main()
