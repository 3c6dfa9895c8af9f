"""Processes on hosts that OpenSSH's client reaches."""

from __future__ import annotations

import os
import shlex
import subprocess
import sys
import time
from contextlib import suppress
from typing import Any, Callable, Dict, List, Sequence

from . import COUNT, DIR
from .cuts import Cuts
from .places import Places

OPTIONS = "-o BatchMode=yes -o ConnectTimeout=4 -o ServerAliveInterval=2 -o ServerAliveCountMax=3"
HERE = "here"  # in place of hosts: beside the tool, and not by ssh
LONGEST = 80  # characters of a path at which a socket may stand
MASTER = 8.0  # seconds until a host is asked without a master
# A master, and another one whenever it has ended, unless the first makes no socket. The socket of
# one that was killed stays, and would be in the way of the next.
KEPT = """
"$@" &
until [ -S "$0" ]; do
    kill -0 $! 2> /dev/null || exit
    sleep 0.1
done
wait
while rm -f "$0"; do
    "$@"
    sleep 1
done
"""


class Ssh(Places):
    """The hosts of the processes, as ssh names them. `command` is the client, with words of yours.

    It can't cut the power of a host. Networks it cuts by nftables, where who logs in may do that.
    """

    cannot = {"power": "ssh can't cut the power of a host"}

    def __init__(self, *hosts: str, command: str = "ssh") -> None:
        self.is_here = hosts == (HERE,)
        super().__init__(*(hosts * COUNT if self.is_here else hosts))
        self.command = shlex.split(command)

    @classmethod
    def of(cls, text: str) -> Ssh:
        """`ssh:h0,h1,..` or `ssh -F FILE:h0,h1,..`."""
        command, _, hosts = text.rpartition(":")
        return cls(*hosts.split(","), command=command)

    def addresses(self) -> List[str]:
        """The address of each host, by ssh's configuration."""
        return [] if self.is_here else [self._configured(host) for host in self.hosts]

    def port(self, n: int) -> str:
        """That of a host's sshd."""
        return self._configured(self.hosts[n], "port")

    def _configured(self, host: str, what: str = "hostname") -> str:
        told = subprocess.run(
            [*self.command, "-T", "-G", host], stdout=subprocess.PIPE, text=True, check=True
        ).stdout
        names = (line.partition(" ") for line in told.splitlines())
        return next(name for key, _, name in names if key == what)

    def own(self) -> Dict[str, Callable[..., Any]]:
        return {**super().own(), **self._cuts()}

    def _cuts(self) -> Dict[str, Callable[..., Any]]:
        """The hooks that cut networks."""
        if self.is_here or "cut" in self.cannot:
            return {}
        cuts = Cuts(self, self.port)
        return {"cut": cuts.cut, "mend": cuts.mend}

    def begin(self) -> None:
        """A master connection for each host, over which all goes; it lives until the run ends."""
        if not self.is_here:
            self._begin_masters()
        super().begin()
        if os.environ.get("FY_NET") and self._cuts():
            Cuts(self, self.port).begin()

    def _begin_masters(self) -> None:
        for n in range(len(self.hosts)):
            with suppress(FileNotFoundError):
                os.unlink(self._socket(n))
        masters = [self._master(n) for n in range(len(self.hosts))]
        until = time.monotonic() + MASTER
        for n, master in enumerate(masters):
            while time.monotonic() < until and master and master.poll() is None:
                if os.path.exists(self._socket(n)):
                    break
                time.sleep(0.02)

    def _master(self, n: int) -> Any:
        if not self._socket(n):
            return None
        over = ["-M", "-T", "-N", "-S", self._socket(n)]
        words = [*self.command, *over, *OPTIONS.split(), self.hosts[n]]
        kept = ["sh", "-c", KEPT, self._socket(n), *words]
        return subprocess.Popen(kept, stdin=subprocess.DEVNULL, stdout=sys.stderr)

    def _socket(self, n: int) -> str:
        path = f"{DIR}/.ssh{n}"
        return path if len(path) < LONGEST else ""

    def reached(self, n: int, words: Sequence[str]) -> List[str]:
        if self.is_here:
            return list(words)
        over = ["-S", self._socket(n) or "none", "-o", "ControlMaster=no", "-T"]
        return [*self.command, *over, *OPTIONS.split(), self.hosts[n], shlex.join(words)]
