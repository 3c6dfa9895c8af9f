"""A store that is asked by its own client, a command that reads questions from its input."""

from __future__ import annotations

import socket
import subprocess
from abc import abstractmethod
from typing import Any, List, Optional, Sequence

from .client import Client


class Piped(Client):
    """Keeps the command running. `ask("SELECT 1;")` answers the lines that it prints.

    After each question another is put, `last`, whose answer is the line `end`. So the command has
    to end at an error, or what it hadn't done would look as done: with some that is an option.
    """

    last, end = "SELECT 'END';", "END"
    _process: Optional[subprocess.Popen[bytes]] = None

    @abstractmethod
    def command(self, host: str, port: str) -> Sequence[object]:
        """The words of the command that asks the process there."""

    def close(self) -> None:
        """Ends the command."""
        super().close()
        if self._process is not None:
            self._process.kill()
            self._process.wait()
            self._process = None

    def _opened(self) -> socket.socket:
        host, _, port = self._address.rpartition(":")
        words = [str(word) for word in self.command(host, port)]
        ours, theirs = socket.socketpair()
        ours.settimeout(self._seconds)
        with theirs:
            self._process = subprocess.Popen(words, stdin=theirs.fileno(), stdout=theirs.fileno())
        return ours

    def _asked(self, *words: Any) -> List[str]:
        self._send(f"{words[0]}\n{self.last}\n".encode())
        lines: List[str] = []
        while (line := self._line().decode()) != self.end:
            lines.append(line)
        return lines
