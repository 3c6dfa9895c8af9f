"""Starts, kills and empties a process on a full disk, by what `fy.Ssh` has a place run, and prints
what came of each deed. It has /mnt and its processes to itself.
"""
import errno
import os
import subprocess
import time
from contextlib import suppress
from pathlib import Path

from faultyard_hooks import places
from faultyard_hooks.ssh import Ssh

PLACE = Ssh("here")
COMMAND = ("sleep", "4321")


def done(script, *words):
    """The status of a deed."""
    return subprocess.run(PLACE.words(0, script, *words), check=False).returncode


def running():
    """Who runs the command, and nothing else."""
    found = []
    for entry in Path("/proc").iterdir():
        with suppress(OSError):
            if entry.name.isdigit() and (entry / "cmdline").read_bytes() == b"sleep\x004321\x00":
                found.append(entry.name)
    return found


def started(began):
    """What holds a process that is started; its input lasts as long as this does."""
    return subprocess.Popen(
        PLACE.words(0, places.START, began, "", *COMMAND), stdin=subprocess.PIPE
    )


def fill():
    with open("/mnt/filled", "wb", buffering=0) as file:
        try:
            while True:
                file.write(bytes(4096))
        except OSError as fault:
            assert fault.errno == errno.ENOSPC


def wait_until(holds):
    while not holds():
        time.sleep(0.05)


held = started(10)
wait_until(running)
fill()
print("killed", done(places.KILL, 20), "running", running(), "ended", held.wait() != 0)
print("too late", started(15).wait(), "running", running())
held = started(25)
wait_until(running)
print("emptied", done(places.EMPTY, 30, ""), "running", running(), "ended", held.wait() != 0)
print("left", os.path.exists("/mnt/run/0"))
held = started(35)
wait_until(running)
held.stdin.close()
print("without input", held.wait() != 0)
wait_until(lambda: not running())
print("at the end", done(places.EMPTY, 40, "1"), os.listdir("/mnt"))
