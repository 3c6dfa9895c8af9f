"""Has commands run beside a process whose files are elsewhere, by what all drivers have in common,
and prints what came of each. It has /mnt and its processes to itself.
"""
import os
import subprocess
import time

import faultyard_hooks as fy
from faultyard_hooks import places

FAR = 'mount -t tmpfs far "$FY_DIR" && echo && exec sleep infinity'
LONG = ("sleep", "4321")


class Far(places.Places):
    """A place with the processes that are here, and folders of its own."""

    def __init__(self):
        super().__init__("far")
        holds = ["unshare", "--mount", "sh", "-c", FAR]
        self.holder = subprocess.Popen(holds, stdout=subprocess.PIPE)
        self.holder.stdout.readline()

    def reached(self, _, words):
        return ["nsenter", "--target", str(self.holder.pid), "--mount", *words]


def begun(*words):
    """What a place is asked at a time."""
    return subprocess.Popen(PLACE.words(0, *words), stdin=subprocess.DEVNULL)


def runs():
    found = ["pgrep", "--exact", "--full", " ".join(LONG)]
    return subprocess.run(found, stdout=subprocess.DEVNULL, check=False).returncode == 0


def start(n):  # what hooks have written here is there for what it runs there
    fy.keep(fy.folder(n, "sent"), "sent")
    print("sent", fy.run_at(n, "cat", fy.folder(n, "sent")))
    fy.run_at(n, "sh", "-c", 'echo made > "$1"', "sh", fy.folder(n, "made"))
    print("here", sorted(os.listdir(fy.folder(n))))
    return ("true",)


PLACE = Far()
fy._on.append(PLACE)
print("fails", not fy.works(fy.run_at, 0, "false"))
fy.keep(fy.folder(0, "early"), "")
print("before a start", fy.run_at(0, "ls", fy.folder(0)).split())
PLACE.hooks({"start": start})["start"](0)
print("there", fy.run_at(0, "ls", fy.folder(0)).split(), fy.text_of(fy.fetched(0, "made")), end="")
PLACE.user = "nobody"
print("as", fy.run_at(0, "id", "-un"), end="")
now = time.monotonic_ns()
running = begun(PLACE.ONCE, now, "", *LONG)
while not runs():
    time.sleep(0.05)
print("killed", begun(places.KILL, now + 2).wait(), running.wait() != 0, runs())
print("too late", begun(PLACE.ONCE, now + 1, "", "true").wait(), flush=True)
PLACE.holder.kill()
