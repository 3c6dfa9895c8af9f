#!/usr/bin/env python3
"""Runs a command whose syncs do nothing, as on a disk that lies: `deaf.py COMMAND..`.

The kernel answers them with success, by a filter that all below the command inherits. What a
command opens with O_SYNC is synced all the same.
"""
import ctypes
import os
import platform
import struct
import sys

PR_SET_NO_NEW_PRIVS, PR_SET_SECCOMP, SECCOMP_MODE_FILTER = 38, 22, 2
LOAD, EQUAL, ANSWER = 0x20, 0x15, 0x06
ALLOW, DONE = 0x7FFF0000, 0x00050000  # SECCOMP_RET_ALLOW; SECCOMP_RET_ERRNO with no error

# The number that the kernel knows a machine by, and those of fsync, fdatasync, msync, sync, syncfs
# and sync_file_range.
MACHINES = {
    "x86_64": (0xC000003E, (74, 75, 26, 162, 306, 277)),
    "aarch64": (0xC00000B7, (82, 83, 227, 81, 267, 84)),
}


def program(machine: int, calls: tuple[int, ...]) -> list[bytes]:
    """A filter: each step is a code, two jumps and a value."""
    steps = [(LOAD, 0, 0, 4), (EQUAL, 1, 0, machine), (ANSWER, 0, 0, ALLOW), (LOAD, 0, 0, 0)]
    for count, call in enumerate(calls):
        steps.append((EQUAL, len(calls) - count, 0, call))
    steps += [(ANSWER, 0, 0, ALLOW), (ANSWER, 0, 0, DONE)]
    return [struct.pack("HBBI", *step) for step in steps]


def become_deaf() -> None:
    steps = program(*MACHINES[platform.machine()])
    text = ctypes.create_string_buffer(b"".join(steps))
    header = struct.pack("HxxxxxxP", len(steps), ctypes.addressof(text))
    prctl = ctypes.CDLL(None, use_errno=True).prctl
    if os.geteuid():
        prctl(PR_SET_NO_NEW_PRIVS, 1, 0, 0, 0)
    if prctl(PR_SET_SECCOMP, SECCOMP_MODE_FILTER, header, 0, 0):
        raise OSError(ctypes.get_errno(), "no filter can be set")


if __name__ == "__main__":
    become_deaf()
    os.execvp(sys.argv[1], sys.argv[1:])
