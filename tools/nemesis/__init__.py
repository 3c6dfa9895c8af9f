"""Draws faults for a real store, does those that a guard allows, and counts lost records."""
import asyncio
import os
from contextlib import suppress

# How the tool ends.
NONE_LOST, LOST, USAGE, HOOK, GUARD, TOOL, UNREADABLE, STALE, WRONG, MISSING = range(10)
NOT_LINEARIZABLE, DAMAGED = 10, 11
# With --strict, where nothing is wrong and something wasn't tested.
UNREAD, UNTORN, LITTLE, LONG = 12, 13, 14, 15


class Fault(Exception):
    """What ends a run before its time: how the tool ends, and why."""


def say(text: str) -> None:
    """Prints a text, as long as somebody reads."""
    with suppress(BrokenPipeError):
        os.write(1, f"{text}\n".encode())


def clock() -> float:
    """Seconds by the loop, by which it wakes whoever sleeps; the loop of a test has its own."""
    return asyncio.get_running_loop().time()


def clock_ns() -> int:
    """The same in nanoseconds."""
    return round(clock() * 1e9)
