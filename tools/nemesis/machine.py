"""What a run needs of its machine, but for files: commands, signals and ports.

A test has a machine of its own, whose commands are coroutines.
"""
import os
import signal
import socket
import time
from asyncio.subprocess import Process
from contextlib import AbstractAsyncContextManager, suppress
from pathlib import Path
from random import SystemRandom
from typing import Any

import keeper

from . import TOOL, Fault

AGAIN = 0.05  # seconds until it is looked again what still runs


class Machine:
    """This one: each command has a keeper, and ends with all that it has started."""

    def running(self, *words: object, **more: Any) -> AbstractAsyncContextManager[Process]:
        """A command that runs until the block ends."""
        return keeper.running(*words, **more)

    async def output(self, *words: object, **more: Any) -> tuple[int, str]:
        """The status of a command, and what it prints."""
        return await keeper.output(*words, **more)

    def signal_below(self, pid: int, number: int) -> None:
        """Sends a signal to all that a command has started."""
        keeper.signal_below(pid, number)

    def free_ports(self, count: int) -> int:
        """The first of a block of loopback ports, which is held against other runs."""
        for base in SystemRandom().sample(range(20000, 31000, 100), 100):
            with suppress(OSError):
                held = socket.socket(socket.AF_UNIX)
                held.bind(f"\0faultyard-nemesis-{base}")
                for port in range(base, base + count):
                    socket.create_server(("127.0.0.1", port)).close()
                held.detach()  # so it stays open until the tool ends
                return base
        raise Fault(TOOL, f"there are no {count} free ports in a row from 20000 to 31000")

    def hold_ports(self, first: int) -> None:
        """Holds a block of ports against other runs which a run had that died."""
        held = socket.socket(socket.AF_UNIX)
        try:
            held.bind(f"\0faultyard-nemesis-{first}")
        except OSError:
            text = f"the ports from {first} on are another run's, which has to end first"
            raise Fault(TOOL, text) from None
        held.detach()

    def end_strays(self, folder: Path) -> None:
        """Kills what still runs of a run that died; its environment names the run's folder."""
        mark = f"\0FY_DIR={folder}\0".encode()
        while strays := [pid for pid in processes() if mark in environment(pid)]:
            for pid in strays:
                with suppress(ProcessLookupError):
                    os.kill(pid, signal.SIGKILL)
            time.sleep(AGAIN)


def processes() -> list[int]:
    """All that there are."""
    return [int(entry.name) for entry in Path("/proc").iterdir() if entry.name.isdecimal()]


def environment(pid: int) -> bytes:
    """That of a process; nothing where it has ended, or isn't ours."""
    try:
        return b"\0" + Path(f"/proc/{pid}/environ").read_bytes()
    except OSError:
        return b""
