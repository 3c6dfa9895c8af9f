"""Clocks of processes that are off, by libfaketime, which stands before the C library.

The wall clock of a process is what its machine's says and an offset, which stands in a file and is
read each time. What doesn't ask the C library has the machine's time: programs that are linked
statically, and those in Go. Monotonic clocks are off by namespaces of times, which all programs are
in; there a clock can't be set once anything runs.
"""
import ctypes
import mmap
import os
import shutil
import struct
import subprocess
from argparse import Namespace
from collections.abc import Sequence
from pathlib import Path
from random import Random
from subprocess import DEVNULL

from .machine import environment, processes

PLACES = ("/usr/lib", "/usr/local/lib", "/lib")
LIBRARY = "libfaketimeMT.so.1"
FILE = "FAKETIME_TIMESTAMP_FILE"
DRIFTS = 0.1  # seconds between two looks at a clock that goes too fast or too slow
GO = b"\xff Go buildinf:"  # stands in each program of Go
LOADER = b"/ld-linux"  # in the part of a program that says which loader it needs
MEMORY = Path("/dev/shm")
LIBC = ctypes.CDLL(None, use_errno=True)
LIBC.sem_open.restype = ctypes.c_void_p
FAR = 10**6  # seconds, by which it is tried whether monotonic clocks can be off


def library() -> Path | None:
    """Where libfaketime is."""
    found = (Path(place).glob(f"**/faketime/{LIBRARY}") for place in PLACES)
    return next((path for paths in found for path in paths), None)


def offsets(words: Namespace, count: int) -> list[float]:
    """By how many seconds each clock is off all the time, as the seed says."""
    dice, most = Random(f"{words.seed}-skew"), words.skew or 0.0
    return [round(dice.uniform(-most, most), 3) for _ in range(count)]


class Shared:
    """The semaphore and the memory that libfaketime wants. Each process would make its own, and
    leave them behind when it is killed; these are removed also if the tool is."""

    STATE = struct.pack("=QQ8q", 0, 0, *(0, -1) * 4)  # no time was asked for yet

    def __init__(self) -> None:
        self.name = f"faultyard-{os.getpid()}-{os.urandom(4).hex()}"
        self._paths = [MEMORY / self.name, MEMORY / f"sem.{self.name}"]
        given, self._open = os.pipe()
        script = ["sh", "-c", 'cat > /dev/null; rm -f "$@"', "-", *map(str, self._paths)]
        subprocess.Popen(
            script, stdin=given, stdout=DEVNULL, stderr=DEVNULL, start_new_session=True
        )
        os.close(given)
        self._paths[0].write_bytes(self.STATE.ljust(mmap.PAGESIZE, b"\0"))
        flags = os.O_CREAT | os.O_EXCL
        if not LIBC.sem_open(f"/{self.name}".encode(), flags, 0o666, 1):
            raise OSError(ctypes.get_errno(), "no semaphore can be made")
        for path in self._paths:  # for stores of other users
            path.chmod(0o666)

    def end(self) -> None:
        os.close(self._open)
        for path in self._paths:
            path.unlink(missing_ok=True)


class Clocks:
    """Those of a run's processes."""

    def __init__(self, out: Path, base: Sequence[float]) -> None:
        self._folder, self.base, self._library = out / "clocks", base, library()
        self.own: dict[int, str] = {}  # why some have the machine's clock
        self._shared: Shared | None = None

    def begin(self) -> None:
        self._folder.mkdir(exist_ok=True)
        self._shared = Shared()
        for number, offset in enumerate(self.base):
            self.set(number, offset)

    def end(self) -> None:
        if self._shared:
            self._shared.end()

    def _file(self, number: int) -> Path:
        return self._folder / str(number)

    def set(self, number: int, offset: float) -> None:
        """Has a process's clock be off by so many seconds."""
        new = self._folder / f"{number}.new"
        new.write_text(f"{offset:+.3f}\n")
        os.replace(new, self._file(number))

    def words(self, number: int) -> list[str]:
        """The words before a command that is to have the clock of a process."""
        assert self._shared
        its = {
            "LD_PRELOAD": self._library,
            "FAKETIME_SHARED": f"/{self._shared.name} /{self._shared.name}",
            FILE: self._file(number),
            "FAKETIME_NO_CACHE": 1,
            "FAKETIME_DONT_FAKE_MONOTONIC": 1,
        }
        return ["env", *(f"{name}={value}" for name, value in its.items())]

    def look(self, number: int) -> str | None:
        """Why a process that runs has the machine's clock, if that is found out now."""
        mark = f"\0{FILE}={self._file(number)}\0".encode()
        found = (reason(pid) for pid in processes() if mark in environment(pid))
        why = next(filter(None, found), None)
        if why is None or self.own.get(number) == why:
            return None
        self.own[number] = why
        return why


class Uptimes:
    """For how long each start of a process finds its machine up, as the seed says: its monotonic
    clock is ahead of the machine's, and goes back at a later start, as one does by a reboot."""

    def __init__(self, words: Namespace, count: int) -> None:
        self._most = words.uptime
        self._dice = [Random(f"{words.seed}-uptime-{number}") for number in range(count)]

    def words(self, number: int) -> list[str]:
        return ahead(self._dice[number].randint(0, self._most))


def ahead(seconds: int) -> list[str]:
    """The words before a command whose monotonic clock is so far ahead of the machine's."""
    user = ["--user", "--map-current-user", "--keep-caps"] if os.geteuid() else []
    return ["unshare", *user, "--time", f"--monotonic={seconds}", f"--boottime={seconds}"]


def lacking_uptimes() -> str | None:
    """What the machine lacks for monotonic clocks that are off, if it does."""
    if not shutil.which("unshare"):
        return "unshare"
    command = [*ahead(FAR), "cat", "/proc/uptime"]
    tried = subprocess.run(command, capture_output=True, text=True, check=False)
    if tried.returncode:
        return f"namespaces of times: {tried.stderr.strip().splitlines()[-1]}"
    if float(tried.stdout.split()[0]) < FAR:
        return "a kernel where a program enters its namespace of times"
    return None


def reason(pid: int) -> str | None:
    """Why a process has the machine's clock, if it does; a script has that of what runs it."""
    path = Path(f"/proc/{pid}/exe")
    try:
        name = os.readlink(path)
        with path.open("rb") as file, mmap.mmap(file.fileno(), 0, prot=mmap.PROT_READ) as text:
            if text.find(GO) >= 0:
                return f"{name} is a program in Go"
            if text.find(LOADER, 0, 4096) < 0:
                return f"{name} isn't linked dynamically to glibc"
    except (OSError, ValueError):
        pass  # it has ended
    return None
