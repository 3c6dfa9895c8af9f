#!/usr/bin/env python3
"""Times questions beside the calls and the act of their kind, by the C library and over a pipe.

    bench/asks.py PROGRAM LIBRARY.a

The clusters are those of `guard.py`. A row of the library has the nanoseconds of processor of a
question, and of the call with the same answer; a row of the pipe the microseconds of a line, where
100,000 of them are one input.
"""
import os
import resource
import subprocess
import sys
import tempfile
from pathlib import Path

from guard import config

HERE = Path(__file__).resolve().parent
LINES = 100_000
ORDER = '{"kill":{"floor":"Reboot","key":"processid","kind":"Reboot","tear":0,"value":"p0"}}'
ASKED = {
    "act": f'{{"by":1,"act":{ORDER}}}',
    "judge": f'{{"ask":{{"judge":{{"act":{ORDER},"by":1}}}}}}',
    "killable": '{"ask":{"killable":{"actor":1}}}',
    "state of one": '{"ask":{"state":{"process":0}}}',
    "state of all": '{"ask":{"state":{}}}',
}


def seconds(words, text):
    """The processor's seconds that a program takes for an input."""
    before = resource.getrusage(resource.RUSAGE_CHILDREN)
    subprocess.run(words, input=text, stdout=subprocess.DEVNULL, check=True)
    after = resource.getrusage(resource.RUSAGE_CHILDREN)
    return after.ru_utime + after.ru_stime - before.ru_utime - before.ru_stime


def main(program, library):
    with tempfile.TemporaryDirectory() as folder:
        calls, cluster = f"{folder}/asks", f"{folder}/cluster.toml"
        compiler = [os.environ.get("CC", "cc"), "-O2", f"-I{HERE.parent}/include"]
        subprocess.run([*compiler, "-o", calls, HERE / "asks.c", library], check=True)
        for processes in (6, 100, 1000):
            Path(cluster).write_text(config(processes), encoding="ascii")
            subprocess.run([calls, cluster, str(processes)], check=True)
            words = [program, "guard", cluster, "--questions"]
            for name, line in ASKED.items():
                its = LINES // processes if name in ("killable", "state of all") else LINES
                taken = seconds(words, f"{line}\n".encode() * its) - seconds(words, b"")
                print(f"{processes:5} {name:12} {taken * 1e6 / its:9.2f} us a line", flush=True)


if __name__ == "__main__":
    main(*sys.argv[1:])
