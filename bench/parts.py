#!/usr/bin/env python3
"""Times parts of the program alone. Each is a crate of bench/crates, which is proved and built in a
folder of its own, beside copies of the crates that it calls.

    bench/parts.py acts [ACTS]        the acts of clusters, all together (the best of ten rounds),
                                      and each kind of act alone, in runs of 1,000 acts and in one
                                      of ACTS; with the peak of memory and the replies of that one
    bench/parts.py bodies [TREE..]    the calls of a disk and of teams, beside those of other trees
                                      of this repository
    bench/parts.py configs [ROUNDS]   how long cluster files take to read, the best of ROUNDS: right
                                      ones, and those of 1 MiB that mean harm
    bench/parts.py needs [RECORDS..]  a replacement in a team with so many records, each of which
                                      who comes has to have synced
    bench/parts.py orders [ORDERS]    orders of actors, each in a thread of its own, through a
                                      shared cluster beside acts under a mutex; then of one actor
                                      beside 63 seats that do nothing, and alone
    bench/parts.py turns [ACTS]       1,000 turns and ACTS of a storage driver, which stores on six
                                      processes, four payloads once and a thousand once
    bench/parts.py verdicts [ROUNDS]  `judge`, sixteen a round, over 1,024 processes, eight policies
                                      and 4,096 grants of one actor; and how long it takes to take a
                                      grant away and give it again

Clusters have 6, 100 and 1,000 processes where nothing else is said.
"""
import os
import shutil
import subprocess
import sys
import tempfile
from pathlib import Path

from run import peak

ROOT = Path(__file__).resolve().parent.parent
SIZES = (6, 100, 1000)
CLOGS = '{role = "fault", grants = [{kinds = ["Clog"]}]}'
MOST_BYTES = 1_048_576


class Part:
    """A crate of bench/crates, built beside the crates of a tree by a run with these words."""

    def __init__(self, name, *words, given="", tree=ROOT):
        self.folder = tempfile.TemporaryDirectory(prefix=f"bench-{name}-")
        crates = Path(self.folder.name, "crates")
        layout = [ROOT / "tests/tools/layout", self.folder.name, ROOT / "bench/crates"]
        subprocess.run(layout, check=True)
        for crate in Path(tree, "crates").glob("fy_*") if tree != ROOT else ():
            shutil.rmtree(crates / crate.name, ignore_errors=True)
            shutil.copytree(crate, crates / crate.name)
        self.program = crates / name / "out" / name
        command = ["rt", "run", "--", *map(str, words)]
        quiet = {"stdout": subprocess.DEVNULL, "check": True, "text": True}
        subprocess.run(command, cwd=crates / name, input=given, **quiet)

    def __call__(self, *words, given=""):
        """What it prints."""
        command = [self.program, *map(str, words)]
        ran = subprocess.run(command, input=given, stdout=subprocess.PIPE, text=True, check=True)
        return ran.stdout.rstrip("\n")


def cluster(processes, *actors):
    """A cluster of so many processes, two to a zone."""
    rows = "".join(
        f'  {{processid = "p{p}", machineid = "m{p}", zoneid = "z{p // 2}"}},\n'
        for p in range(processes)
    )
    return (
        f'journal_limit = 1048576\npolicies = ["Across(2,zoneid,One())"]\nprocess = [\n{rows}]\n'
        f'actor = [{", ".join(actors)}]\n'
    )


def acts(count=100_000):
    part = Part("acts", "list", 6, 0, 1)
    row = "{:<8} {:>12} {:>8} {:>12} {:>8}".format
    for processes in SIZES:
        many = ("kinds", processes, count, 1)
        highest = peak([part.program, *map(str, many)], os.devnull)
        print(f"{processes} processes: {part('whole', processes, count, 10)}, peak {highest} KiB")
        *of_few, _ = part("kinds", processes, 1000, 100).splitlines()
        *of_many, replies = part(*many).splitlines()
        print(replies)
        print(row("kind", "of 100*1000", "ns each", f"of {count}", "ns each"))
        for few, many in zip(of_few, of_many):
            print(row(*few.split()[:3], *many.split()[1:3]), flush=True)


def bodies(*trees):
    parts = [(tree, Part("bodies", 1, tree=tree)) for tree in (ROOT, *trees)]
    for tree, part in 3 * parts:
        print(f"{tree}\n{part(10)}", flush=True)


def with_grants(processes):
    """A cluster file with a grant of each zone for each of four actors, and as many protections."""
    every = range(processes)
    grant = '[[actor.grants]]\nkinds = ["Reboot", "Clog"]\nkey = "zoneid"\nvalue = "z{}"'.format
    parts = ['journal_limit = 1000\npolicies = ["Across(2,zoneid,One())"]']
    for p in every:
        places = f'machineid = "m{p}"\nzoneid = "z{p // 2}"\ndcid = "d0"'
        parts.append(f'[[process]]\nprocessid = "p{p}"\n{places}')
    parts += 4 * ['[[actor]]\nrole = "fault"', *map(grant, every)]
    parts += [f'[[protect]]\nprocess = "p{p}"\nkinds = ["KillInstantly"]' for p in every[::-1]]
    return "\n".join([*parts, ""])


def filled(part, before="", after="", most=MOST_BYTES):
    """The same text again and again, up to so many bytes."""
    left = most - len(before) - len(after)
    return before + (part * (left // len(part) + 1))[:left] + after


def many_keys():
    lines, size = [], 0
    while size < 1_048_000:
        lines.append(f"k{len(lines)} = 1\n")
        size += len(lines[-1])
    return "".join(lines)


def configs(rounds=10):
    files = {f"{n} processes": with_grants(n) for n in (128, 256, 512, 1024)}
    for part in ("[", "{a=", "a.", "[[a]]", "[[a]]\n", "a=1#\n", "#"):
        files[part.replace("\n", "_")] = filled(part)
    files["a = [[["] = filled("[", "a = ")
    files["a = {a={a="] = filled("{a=", "a = ")
    files["one text"] = filled("x", 'a = "', '"')
    files["keys that differ"] = many_keys()
    process = 'process = [{processid = "p", machineid = "m", zoneid = "z"}]'
    head = f'journal_limit = 1\n{process}\nactor = [{{role = "fault"}}]\npolicies = ["'
    files["one policy"] = head + filled("And(", most=1_048_000) + '"]\n'

    part = Part("configs", 1, given=(ROOT / "examples/c6.toml").read_text())
    for name, text in files.items():
        nanos, _, told = part(rounds, given=text).partition(" ")
        print(f"{name:<18} {len(text):8} bytes {int(nanos) // 1000:9} us  {told}", flush=True)


def needs(*records):
    part = Part("needs", 1)
    for it in records or (100, 1000, 4000):
        print(part(it), flush=True)


def orders(count=256_000):
    part = Part("orders", 1, 1, 1, given=cluster(6, CLOGS))

    def timed(threads, seats):
        return part(threads, count // threads, 3, given=cluster(6, *seats * [CLOGS]))

    for threads in (1, 2, 8, 64):
        print(timed(threads, threads), flush=True)
    print(f"64 seats open: {timed(1, 64)}")
    print(f"1 seat open: {timed(1, 1)}")


def turns(count=100_000):
    part = Part("turns", 6, 4, 8, 1, given=cluster(6, '{role = "storage"}'))
    for processes in SIZES:
        given = cluster(processes, '{role = "storage"}')
        for payloads in (4, 1000):
            for its in (1000, count):
                took = part(6, payloads, its, 5, given=given)
                print(f"{processes} processes, {payloads} payloads: {took}", flush=True)


def verdicts(rounds=1000):
    part = Part("verdicts", 1)
    print("\n".join(part(rounds).splitlines()[-2:]))


PARTS = {it.__name__: it for it in (acts, bodies, configs, needs, orders, turns, verdicts)}


def main():
    if len(sys.argv) < 2 or sys.argv[1] not in PARTS:
        sys.exit(__doc__)
    name, *words = sys.argv[1:]
    PARTS[name](*(words if name == "bodies" else map(int, words)))


if __name__ == "__main__":
    main()
