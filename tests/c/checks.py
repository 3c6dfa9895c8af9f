#!/usr/bin/env python3
"""Compares what the library finds of audits, line by line, with the line that `faultyard check`
writes of the same bytes.

    checks.py LIBRARY PROGRAM

The audits are that of a script, in both versions, and what comes of it by a change at random: a
byte, a line, the end.
"""
import ctypes as c
import random
import subprocess
import sys
from pathlib import Path

DONE, NO_HEADER, LINE_TOO_LONG, LINE_SYNTAX, NO_BAD_ENTRY = 0, 20, 10, 11, 2**32 - 1
FAULTS = {NO_HEADER: "Header", LINE_TOO_LONG: "TooLong", LINE_SYNTAX: "Syntax"}
CHANGES = 150

library, program = c.CDLL(sys.argv[1]), sys.argv[2]
examples = Path(__file__).resolve().parents[2] / "examples"


class Check(c.Structure):
    _fields_ = [("at", c.c_void_p)]


number, at = c.POINTER(c.c_uint32), c.POINTER(Check)
SHAPES = {
    "fy_begin_check": [c.c_char_p, c.c_size_t, at],
    "fy_read_line": [at, c.c_char_p, c.c_size_t, number],
    "fy_finding": [at, number, number],
}
for name, arguments in SHAPES.items():
    getattr(library, name).restype = c.c_uint32
    getattr(library, name).argtypes = arguments
library.fy_end_check.restype, library.fy_end_check.argtypes = None, [Check]


def found(config, audit):
    """What the library finds, as the program says it."""
    check, count, bad = Check(), c.c_uint32(), c.c_uint32()
    assert library.fy_begin_check(config, len(config), c.byref(check)) == DONE
    try:
        for place, line in enumerate(audit.split(b"\n")):
            # What is behind the last line feed is a line only where there are bytes.
            line += b"\n" if place < audit.count(b"\n") else b""
            if not line and place > 0:
                break
            status = library.fy_read_line(check, line, len(line), bad)
            if status != DONE:
                return f"audit: line {place + 1}: {FAULTS[status]}"
        assert library.fy_finding(check, count, bad) == DONE
        return f"legal {count.value}" if bad.value == NO_BAD_ENTRY else f"bad entry {bad.value}"
    finally:
        library.fy_end_check(check)


def said(path, audit):
    """What the program says."""
    check = subprocess.run([program, "check", path], input=audit, capture_output=True)
    return (check.stdout + check.stderr).decode().strip().removeprefix("faultyard: ")


def changed(audit, draw):
    """The audit with a change at random."""
    lines = audit.splitlines(keepends=True)
    line, place = draw.randrange(len(lines)), draw.randrange(len(audit))
    which = draw.randrange(6)
    if which == 0:
        return audit[:place] + bytes([draw.randrange(32, 127)]) + audit[place + 1 :]
    if which == 1:
        return audit[:place]
    if which == 2:
        return b"".join(lines[:line] + lines[line + 1 :])
    if which == 3:
        return b"".join(lines[:line] + [lines[draw.randrange(len(lines))]] + lines[line:])
    if which == 4:
        return audit.replace(b"KillInstantly", b"Reboot", draw.randrange(3))
    digits = [at for at, byte in enumerate(audit) if byte in b"0123456789"]
    place = draw.choice(digits)
    return audit[:place] + bytes([draw.choice(b"0123456789")]) + audit[place + 1 :]


draw, compared, answers = random.Random(20261126), 0, set()
config = examples / "c6.toml"
text = config.read_bytes()
for name in ("healed", "bad-day", "torn-reboot"):
    run = subprocess.run(
        [program, "run", config],
        input=(examples / f"{name}.jsonl").read_bytes(),
        capture_output=True,
    )
    assert run.returncode == 0 and run.stdout.count(b"\n") > 2, name
    audits = [run.stdout, run.stdout.replace(b'{"audit":2}', b'{"audit":1}'), b""]
    audits += [changed(run.stdout, draw) for _ in range(CHANGES)]
    for audit in audits:
        one, other = found(text, audit), said(config, audit)
        assert one == other, (name, one, other, audit)
        compared += 1
        answers.add(one.split(" ")[0] + one.rpartition(" ")[2] * one.startswith("audit"))
assert answers == {"legal", "bad", "audit:Header", "audit:Syntax"}, answers
print(f"checks.py: {compared} audits")
