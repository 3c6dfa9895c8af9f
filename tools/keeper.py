#!/usr/bin/env python3
"""Runs a command, and kills all that it has started once it ends, or once its caller is gone.

    tools/keeper.py COMMAND..

The status is the command's. At SIGINT, SIGTERM and SIGHUP all of it ends too. The tools that run
commands of a user's call it: sweep and shrink as a command, and nemesis by `running` and `output`.
"""
import asyncio
import ctypes
import os
import signal
import sys
from asyncio.subprocess import DEVNULL, PIPE, Process
from collections.abc import AsyncIterator
from contextlib import asynccontextmanager, suppress
from functools import partial
from pathlib import Path
from typing import Any

PR_SET_PDEATHSIG, PR_SET_CHILD_SUBREAPER = 1, 36
PRCTL = ctypes.CDLL(None).prctl
MOST_PRINTED = 1 << 26
AWAITED = {signal.SIGCHLD, signal.SIGINT, signal.SIGTERM, signal.SIGHUP}


def signal_below(pid: int, number: int) -> None:
    """Sends a signal to all processes below one, parents first."""
    for path in Path("/proc").glob(f"{pid}/task/*/children"):
        with suppress(OSError):  # it may just have ended, as a child may
            for child in map(int, path.read_text().split()):
                with suppress(OSError):
                    os.kill(child, number)
                signal_below(child, number)


def adopt_orphans() -> None:
    """Makes this process the parent of all below it whose parents end."""
    PRCTL(PR_SET_CHILD_SUBREAPER, 1)


def end_children() -> None:
    """Kills all below this process, which adopts orphans, so that none escapes."""
    with suppress(ChildProcessError):
        while True:
            signal_below(os.getpid(), signal.SIGKILL)
            os.wait()


def keep(caller: int) -> None:
    """Called in a child of the caller, it forks, and returns in the new child, to run a command.

    The old child is its keeper: it kills all that the command has started once the command has
    ended, or at a signal, which the kernel sends once the caller is gone.
    """
    signal.pthread_sigmask(signal.SIG_BLOCK, AWAITED)
    adopt_orphans()
    PRCTL(PR_SET_PDEATHSIG, signal.SIGTERM)
    if os.getppid() != caller:
        os._exit(1)
    if (command := os.fork()) == 0:
        os.setsid()
        PRCTL(PR_SET_PDEATHSIG, signal.SIGKILL)
        signal.pthread_sigmask(signal.SIG_UNBLOCK, AWAITED)
        return
    with open("/proc/self/stat") as file:
        start, end = map(int, file.read().rpartition(")")[2].split()[45:47])
    ctypes.memset(start, 0, end - start)  # `pkill -f` of the caller's name is to spare the keeper
    os.closerange(0, max(map(int, os.listdir("/proc/self/fd"))) + 1)
    ended = status = 0
    while ended != command:
        # One SIGCHLD may stand for several children.
        if ended == 0 and (number := signal.sigwait(AWAITED)) != signal.SIGCHLD:
            status = int(number)
            break
        ended, status = os.waitpid(-1, os.WNOHANG)
    end_children()
    code = os.waitstatus_to_exitcode(status)
    os._exit(code if code >= 0 else 128 - code)


@asynccontextmanager
async def running(*words: object, **more: Any) -> AsyncIterator[Process]:
    """A command below a keeper. When the block ends, all that it has started is killed."""
    more |= {"start_new_session": True, "preexec_fn": partial(keep, os.getpid())}
    starting = asyncio.create_task(asyncio.create_subprocess_exec(*map(str, words), **more))
    try:
        yield await asyncio.shield(starting)
    finally:
        process = await starting
        with suppress(ProcessLookupError):
            if process.returncode is None:
                os.kill(process.pid, signal.SIGTERM)
        await process.communicate()  # its end waits until all that it said is read
        if process.returncode == -signal.SIGKILL:
            raise OSError("a process that keeps others was killed")


async def output(*words: object, **more: Any) -> tuple[int, str]:
    """The status of a command, and what it prints. It hangs where it prints too much."""
    async with running(*words, stdin=DEVNULL, stdout=PIPE, **more) as process:
        assert process.stdout
        try:
            printed = await process.stdout.readexactly(MOST_PRINTED)
        except asyncio.IncompleteReadError as whole:
            printed = whole.partial
        return await process.wait(), printed.decode(errors="replace")


def main() -> None:
    if len(sys.argv) < 2:
        sys.exit(f"usage: {sys.argv[0]} COMMAND..")
    keep(os.getppid())
    try:
        os.execvp(sys.argv[1], sys.argv[1:])
    except OSError as fault:
        sys.exit(f"{sys.argv[1]}: {fault.strerror}")


if __name__ == "__main__":
    main()
