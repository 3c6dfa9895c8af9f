#!/usr/bin/env python3
"""Times `judge`, `run` and `check` beside another program of this command line, a table each.

    bench/beside.py PROGRAM OTHER [--rounds N] [--acts N..]

The inputs are those that OTHER makes: `OTHER bench-gen judge PROCESSES SEED` an input of `judge`,
`OTHER bench-gen cluster PROCESSES SEED` a cluster file, and `OTHER bench-gen script ACTS SEED
CONFIG` a script for it; 20,000 acts, 100,000, 350,000 and 1,000,000 if left out. A script that is
too long for `run` is given to `guard` of PROGRAM for its audit, and `run` has no row for it.
`check` is given the audit of the script. Both programs have to write the same bytes. They take
turns, and a time is the best of N runs (20 if left out) of the whole program. Up to 100,000 acts,
instructions are counted by valgrind's callgrind where there is one: no other program on the machine
changes them.
"""
import argparse
import os
import re
import shutil
import subprocess
import tempfile
import time

SIZES = (6, 100, 1000)
ACTS = (20_000, 100_000, 350_000, 1_000_000)
MOST_COUNTED = 100_000
MOST_SCRIPT_BYTES = 16_777_216


def written(program, words, given):
    """What a program writes, and the seconds it took."""
    with open(given, "rb") as stdin:
        start = time.perf_counter()
        ran = subprocess.run([program, *words], stdin=stdin, stdout=subprocess.PIPE, check=True)
        return ran.stdout, time.perf_counter() - start


def instructions(program, words, given, folder):
    """How many instructions a program runs, or None where there is no valgrind."""
    if shutil.which("valgrind") is None:
        return None
    counts = os.path.join(folder, "counts")
    command = ["valgrind", "--tool=callgrind", f"--callgrind-out-file={counts}", program, *words]
    with open(given, "rb") as stdin:
        ran = subprocess.run(
            command, stdin=stdin, stdout=subprocess.DEVNULL, stderr=subprocess.PIPE, check=True
        )
    return int(re.search(rb"Collected : (\d+)", ran.stderr).group(1))


def made(other, words, path):
    """A file with what the other program makes."""
    with open(path, "wb") as out:
        subprocess.run(
            [other, "bench-gen", *words], stdout=out, stderr=subprocess.DEVNULL, check=True
        )
    return path


def row(name, programs, words, given, rounds, counted_in):
    """A row of a command's table. Instructions are counted where there is a folder for the
    counts."""
    best, told = [None, None], [None, None]
    for _ in range(rounds):
        for it, program in enumerate(programs):
            told[it], took = written(program, words, given)
            best[it] = took if best[it] is None else min(best[it], took)
    if told[0] != told[1]:
        raise SystemExit(f"{words[0]}, {name}: the two wrote different bytes")
    cells = [name, *(f"{took * 1e3:.1f} ms" for took in best), f"{best[0] / best[1]:.2f}"]
    counts = [instructions(program, words, given, counted_in) for program in programs if counted_in]
    if counts and None not in counts:
        cells += [*(f"{count / 1e6:.1f}" for count in counts), f"{counts[0] / counts[1]:.2f}"]
    return "| " + " | ".join(cells + [""] * (7 - len(cells))) + " |"


def main():
    words = argparse.ArgumentParser(
        description=__doc__, formatter_class=argparse.RawDescriptionHelpFormatter
    )
    words.add_argument("--rounds", type=int, default=20)
    words.add_argument("--acts", type=int, nargs="+", default=ACTS)
    words.add_argument("program")
    words.add_argument("other")
    asked = words.parse_args()
    programs = [os.path.abspath(asked.program), os.path.abspath(asked.other)]
    with tempfile.TemporaryDirectory(prefix="beside-") as folder:
        tables = {"judge": [], "run": [], "check": []}

        def add(command, acts, processes, given, *config):
            name = f"{processes:,}" if acts is None else f"{acts:,} acts, {processes:,}"
            counted_in = folder if acts is None or acts <= MOST_COUNTED else None
            words = [command, *config]
            tables[command].append(row(name, programs, words, given, asked.rounds, counted_in))

        def at(name):
            return os.path.join(folder, name)

        for processes in SIZES:
            asks = made(programs[1], ["judge", str(processes), "1"], at("asks"))
            add("judge", None, processes, asks)
        for acts in asked.acts:
            for processes in SIZES:
                config = made(programs[1], ["cluster", str(processes), "1"], at("cluster.toml"))
                script = made(programs[1], ["script", str(acts), "1", config], at("script"))
                is_run = os.path.getsize(script) <= MOST_SCRIPT_BYTES
                command = "run" if is_run else "guard"
                with open(at("audit"), "wb") as out:
                    out.write(written(programs[0], [command, config], script)[0])
                if is_run:
                    add("run", acts, processes, script, config)
                add("check", acts, processes, at("audit"), config)
    for command, rows in tables.items():
        print(f"\n`{command}`:\n")
        print(
            "| Acts and processes | `faultyard` | beside | times |"
            " million instructions | beside | times |"
        )
        print("|---|---|---|---|---|---|---|")
        print("\n".join(rows))


if __name__ == "__main__":
    main()
