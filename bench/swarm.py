#!/usr/bin/env python3
"""Times `swarm` of a program, and of another program of this command line beside it.

    bench/swarm.py [--rounds N] [--inputs CONFIG] PROGRAM..

The clusters have 6, 100 and 1000 processes, with 5 and with 64 actors: every fourth stores, the
last is an operator and the others order faults. The programs take turns, each round by a seed of
its own. Threads choose the order of the acts, so two runs of a seed may write different audits;
that each is legal is no matter of this. A row has the acts and the seconds of a run of the whole
program, each the mean of N (10 if left out), the least seconds of any, the acts a second, and the
peak memory of a run of its own. With --inputs a cluster file of your own is timed instead.
"""
import argparse
import importlib.machinery
import importlib.util
import os
import subprocess
import sys
import tempfile
import time

SIZES = [(6, 5), (6, 64), (100, 5), (100, 64), (1000, 5), (1000, 64)]


def of_run():
    """What the timing of `run` has for the peak memory of a program."""
    path = os.path.join(os.path.dirname(os.path.abspath(__file__)), "run.py")
    loader = importlib.machinery.SourceFileLoader("run", path)
    module = importlib.util.module_from_spec(importlib.util.spec_from_loader("run", loader))
    loader.exec_module(module)
    return module


def config(processes, actors):
    """A cluster of `processes`, two to a zone, with `actors`, of which every fourth stores."""
    process = "".join(
        f'  {{processid = "p{p}", machineid = "m{p}", zoneid = "z{p // 2}", dcid = "d0"}},\n'
        for p in range(processes)
    )
    kinds = '["RebootProcess", "Reboot", "RebootAndDelete", "KillInstantly", "Clog"]'
    fault = f'  {{role = "fault", grants = [{{kinds = {kinds}}}]}},\n'
    actor = "".join('  {role = "storage"},\n' if a % 4 == 0 else fault for a in range(actors - 1))
    return (
        "journal_limit = 1048576\n"
        'policies = ["Across(2,zoneid,One())", "Across(3,zoneid,One())"]\n'
        f"process = [\n{process}]\n"
        f'actor = [\n{actor}  {{role = "operator"}},\n]\n'
    )


def timed(program, cluster, seed):
    """Seconds of one run, its status, and how many acts its audit has."""
    with tempfile.TemporaryFile() as written:
        started = time.perf_counter()
        status = subprocess.call([program, "swarm", cluster, "--seed", str(seed)], stdout=written)
        seconds = time.perf_counter() - started
        written.seek(0)
        return seconds, status, sum(1 for _ in written) - 1


def compare(words, width, name, cluster, peak):
    """Lets the programs take turns, and prints a row for each."""
    programs = [os.path.abspath(program) for program in words.programs]
    rounds = [
        [timed(program, cluster, seed) for program in programs] for seed in range(words.rounds)
    ]
    for program, runs in zip(words.programs, zip(*rounds)):
        if any(status != 0 for _, status, _ in runs):
            sys.exit(f"{program}, {name}: status {max(status for _, status, _ in runs)}")
        seconds = sum(run[0] for run in runs) / len(runs)
        least = min(run[0] for run in runs)
        acts = sum(run[2] for run in runs) / len(runs)
        memory = peak([os.path.abspath(program), "swarm", cluster, "--seed", "0"], os.devnull)
        print(
            f"{program:<{width}} {name:<16} {acts:>7.0f} {seconds:>8.4f} {least:>8.4f}"
            f" {acts / seconds:>9.0f} {memory:>9}"
        )


def main():
    words = argparse.ArgumentParser(usage="bench/swarm.py [--rounds N] [--inputs CONFIG] PROGRAM..")
    words.add_argument("--rounds", type=int, default=10)
    words.add_argument("--inputs")
    words.add_argument("programs", nargs="+")
    words = words.parse_args()
    peak = of_run().peak
    width = max(len(program) for program in words.programs)
    print(
        f"{'program':<{width}} {'cluster':<16} {'acts':>7} {'seconds':>8} {'least':>8}"
        f" {'acts/s':>9} {'peak KiB':>9}"
    )
    if words.inputs:
        compare(words, width, "given", words.inputs, peak)
        return
    with tempfile.TemporaryDirectory() as folder:
        cluster = f"{folder}/cluster.toml"
        for processes, actors in SIZES:
            with open(cluster, "w") as file:
                file.write(config(processes, actors))
            compare(words, width, f"{processes}, {actors} actors", cluster, peak)


if __name__ == "__main__":
    main()
