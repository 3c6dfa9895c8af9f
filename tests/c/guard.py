#!/usr/bin/env python3
"""The library held by Python's ctypes, by its own calls: what a program without this header has to
see to itself.

    guard.py LIBRARY CONFIG
"""
import ctypes as c
import json
import sys


class Guard(c.Structure):
    _fields_ = [("at", c.c_void_p)]


library = c.CDLL(sys.argv[1])
at = c.POINTER(Guard)
number, numbers = c.c_uint32, c.POINTER(c.c_uint32)
size, sizes = c.c_size_t, c.POINTER(c.c_size_t)


class Seen(c.Structure):
    _fields_ = [
        ("now", c.c_uint64),
        ("deliverable", c.c_uint64),
        ("unsynced", number),
        ("sleeping", number),
    ]


words = c.POINTER(c.c_uint64)
SHAPES = {
    "fy_version": (number, []),
    "fy_open": (number, [c.c_char_p, size, at]),
    "fy_close": (None, [Guard]),
    "fy_try_copy": (number, [at, at]),
    "fy_kill": (
        number,
        [
            at,
            number,
            number,
            c.c_char_p,
            size,
            number,
            number,
            c.c_uint64,
            numbers,
            numbers,
            c.POINTER(c.c_uint64),
        ],
    ),
    "fy_up": (number, [at, number, number, numbers]),
    "fy_heal": (number, [at, number, number, numbers]),
    "fy_act": (number, [at, c.c_char_p, size, c.c_char_p, size, sizes]),
    "fy_ask": (number, [at, c.c_char_p, size, c.c_char_p, size, sizes]),
    "fy_process": (number, [at, c.c_char_p, size]),
    "fy_process_count": (number, [at]),
    "fy_targets": (number, [at, number, c.c_char_p, size, words, size]),
    "fy_is_destroyed": (number, [at, number]),
    "fy_left": (None, [at, words, size]),
    "fy_destroyed_set": (None, [at, words, size]),
    "fy_gone_set": (None, [at, words, size]),
    "fy_is_acked": (number, [at, number]),
    "fy_keeper": (number, [at, number]),
    "fy_sight": (None, [at, c.POINTER(Seen)]),
    "fy_journal_len": (size, [at]),
    "fy_audit": (number, [at, size, c.c_char_p, size, sizes]),
}
for name, (result, arguments) in SHAPES.items():
    getattr(library, name).restype = result
    getattr(library, name).argtypes = arguments

REFUSED, NOT_DESTROYED = 3, 24

with open(sys.argv[2], "rb") as file:
    config = file.read()
guard = Guard()
assert library.fy_open(b"=", 1, c.byref(guard)) == 13 and not guard.at
assert library.fy_open(config, len(config), c.byref(guard)) == 0 and guard.at


def kill(value):
    struck, rule, named = c.c_uint32(), c.c_uint32(), c.c_uint64()
    status = library.fy_kill(guard, 1, 3, value, len(value), 4, 2, 0, struck, rule, named)
    return status, struck.value, rule.value, named.value


def act(line):
    buffer, told = c.create_string_buffer(len(line) + 128), size()
    status = library.fy_act(guard, line, len(line), buffer, len(buffer), told)
    return status, buffer.raw[: told.value]


assert kill(b"z0") == (0, 4, 0, 0), "zone z0 may go"
assert kill(b"z1") == (0, 2, 4, 0), "zone z1 is rebooted, by policy 0"
status, line = act(b'{"by":0,"act":{"up":{"process":2}}}')
assert status == 0 and json.loads(line)["reply"] == "done", line
assert [library.fy_is_destroyed(guard, p) for p in range(6)] == [1, 1, 0, 0, 0, 0]
left = (c.c_uint64 * 16)(*[2**64 - 1] * 16)
library.fy_left(guard, left, 16)
assert list(left) == [0b111100] + [0] * 15
for call, wanted in (("fy_destroyed_set", 0b11), ("fy_gone_set", 0b11)):
    left[0] = 77
    getattr(library, call)(guard, left, 16)
    assert list(left) == [wanted] + [0] * 15, call
assert library.fy_targets(guard, 3, b"z1", 2, left, 16) == 0 and left[0] == 0b1100
assert library.fy_version() == 20000 and library.fy_process_count(guard) == 6
assert (library.fy_process(guard, b"p5", 2), library.fy_process(guard, b"p6", 2)) == (
    5,
    2**32 - 1,
)
assert (library.fy_is_acked(guard, 0), library.fy_keeper(guard, 0)) == (0, 2**32 - 1)
seen = Seen()
library.fy_sight(guard, seen)
assert (seen.now, seen.deliverable, seen.unsynced, seen.sleeping) == (
    0,
    2**64 - 1,
    2**32 - 1,
    3,
)
reason = number()
assert library.fy_up(guard, 0, 3, reason) == 0, "process 3 was rebooted with its zone"
assert library.fy_heal(guard, 0, 2, reason) == REFUSED and reason.value == NOT_DESTROYED
assert library.fy_journal_len(guard) == 5
buffer, told = c.create_string_buffer(512), size()
assert library.fy_audit(guard, 2, buffer, 512, told) == 0 and buffer.raw[: told.value] == line
other = Guard()
assert library.fy_try_copy(guard, other) == 0 and other.at not in (None, guard.at)
library.fy_close(guard)
assert library.fy_journal_len(other) == 5
assert library.fy_audit(other, 2, buffer, 512, told) == 0 and buffer.raw[: told.value] == line
library.fy_close(other)
print("guard.py: done")
