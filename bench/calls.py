#!/usr/bin/env python3
"""Times calls of the C library, on clusters of 6, 100 and 1,000 processes.

    bench/calls.py kills [BESIDE]
    bench/calls.py copies

- kills: judgements and kills where the kill strikes, is lessened and is barred. They are of a
  process, by its name and by its number, and of a zone of eight, by its name, in the cluster of
  1,000. Where BESIDE is the path of another program of this command line that tells with
  FY_TIMES=1 what its decisions took, the same kills by that.
- copies: copies of a guard beside one memcpy of as many bytes, with nothing in it, with 100,000
  entries, and with 1,000 and 65,536 records of 16 and of 256 bytes.
"""
import json
import os
import subprocess
import sys
import tempfile
from pathlib import Path

ROOT = Path(__file__).resolve().parent.parent
KINDS = ("RebootProcess", "Reboot", "RebootAndDelete", "KillInstantly")
KILLS = 100_000
# Processes, how many a zone has, the key of the targets, and how many these are.
TARGETS = ((6, 2, "processid", 6), (100, 34, "processid", 100))
TARGETS += ((1000, 334, "processid", 1000), (1000, 8, "zoneid", 125))
# The kind that is ordered and its floor.
CASES = {
    "strikes": ("RebootProcess", "RebootProcess"),
    "lessened": ("KillInstantly", "RebootProcess"),
    "barred": ("KillInstantly", "KillInstantly"),
}
# Records, entries, and bytes of a record.
STATES = (
    (0, 0, 0),
    (0, 100_000, 0),
    (1000, 0, 16),
    (1000, 0, 256),
    (65536, 0, 16),
    (65536, 0, 256),
)


def built(name, folder):
    """The path of the program of a file of C."""
    compiler = [os.environ.get("CC", "cc"), "-O2", f"-I{ROOT}/include", "-o", f"{folder}/{name}"]
    parts = [ROOT / f"bench/{name}.c", ROOT / "bin/libfaultyard.a"]
    subprocess.run([*compiler, *parts], check=True)
    return compiler[-1]


def cluster(processes, zone, fault):
    """A cluster file; `zone` gives the number of each process's."""
    rows = "".join(
        f'  {{processid = "p{p}", machineid = "m{p}", zoneid = "z{zone(p)}"}},\n'
        for p in range(processes)
    )
    return (
        'journal_limit = 1048576\npolicies = ["Across(2,machineid,One())"]\n'
        f'process = [\n{rows}]\nactor = [{{role = "storage"}}, {{{fault}}}]\n'
    )


def kill(kind, floor, key, target):
    value = f"{'z' if key == 'zoneid' else 'p'}{target}"
    order = {"floor": floor, "key": key, "kind": kind, "tear": 0, "value": value}
    return json.dumps({"by": 1, "act": {"kill": order}}, separators=(",", ":"))


def beside(program, file, key, targets):
    """Prints what another program tells of the same kills, in each case."""
    for case, (kind, floor) in CASES.items():
        lines = [kill("KillInstantly", "KillInstantly", "processid", 0)]
        lines += [kill(kind, floor, key, 1 + at % (targets - 1)) for at in range(KILLS)]
        ran = subprocess.run(
            [program, "run", file],
            input="\n".join([*lines, ""]),
            env={**os.environ, "FY_TIMES": "1"},
            stdout=subprocess.DEVNULL,
            stderr=subprocess.PIPE,
            text=True,
        )
        for line in ran.stderr.splitlines():
            print(f"  beside, {case}, {KILLS} kills: {line}", flush=True)


def kills(folder, *others):
    program, file = built("kills", folder), Path(folder, "cluster.toml")
    granted = ", ".join(f'"{it}"' for it in KINDS)
    for processes, a_zone, key, targets in TARGETS:
        fault = f'role = "fault", grants = [{{kinds = [{granted}]}}]'
        file.write_text(cluster(processes, lambda p: p // a_zone, fault))
        subprocess.run([program, file, str(KILLS), str(targets), key], check=True)
        for other in others:
            beside(other, file, key, targets)


def copies(folder):
    program, file = built("copies", folder), Path(folder, "cluster.toml")
    print("processes  records   entries bytes     as bytes   copied (us)  memcpy (us)  times")
    for processes in (6, 100, 1000):
        file.write_text(cluster(processes, lambda p: p % 3, 'role = "fault"'))
        for state in STATES:
            words = [program, file, *map(str, state)]
            told = subprocess.run(words, stdout=subprocess.PIPE, text=True, check=True)
            print(f"{processes:9} {told.stdout}", end="", flush=True)


def main():
    doing = {"kills": kills, "copies": copies}.get(sys.argv[1] if len(sys.argv) > 1 else "")
    if doing is None:
        sys.exit(__doc__)
    with tempfile.TemporaryDirectory(prefix="bench-calls-") as folder:
        doing(folder, *sys.argv[2:])


if __name__ == "__main__":
    main()
