"""A connection to a process of a store."""

from __future__ import annotations

import random
import socket
from abc import ABC, abstractmethod
from typing import Any, BinaryIO, Callable, Generic, List, Optional, Sequence, Tuple, TypeVar

from . import ABLE, COUNT, at, connection, noes


class Client(ABC):
    """Connects when it is first asked, and again after a fault, which is an OSError."""

    def __init__(self, address: str, seconds: float = 4.0) -> None:
        """`HOST:PORT`, or the path of a Unix socket. The store may be silent for `seconds`."""
        self._address, self._seconds = address, seconds
        self._socket: Optional[socket.socket] = None
        self._file: Optional[BinaryIO] = None

    def ask(self, *words: Any) -> Any:
        """What the store answers."""
        try:
            if self._socket is None:
                self._connect()
            return self._asked(*words)
        except BaseException:
            self.close()
            raise

    def close(self) -> None:
        """Ends the connection."""
        if self._socket is not None:
            self._socket.close()
        if self._file is not None:
            self._file.close()
        self._socket = self._file = None

    def _connect(self) -> None:
        self._socket = self._opened()
        self._file = self._socket.makefile("rb")
        self._greet()

    def _opened(self) -> socket.socket:
        opened = connection(self._address, self._seconds)
        if opened.family != socket.AF_UNIX:
            opened.setsockopt(socket.IPPROTO_TCP, socket.TCP_NODELAY, 1)
        return opened

    def _greet(self) -> None:
        """What a protocol says first."""

    @abstractmethod
    def _asked(self, *words: Any) -> Any:
        """Sends a question, and reads its answer."""

    def _send(self, data: bytes) -> None:
        assert self._socket is not None
        self._socket.sendall(data)

    def _read(self, count: int) -> bytes:
        assert self._file is not None
        data = self._file.read(count)
        if len(data) < count:
            raise ConnectionResetError("the store closed the connection")
        return data

    def _line(self) -> bytes:
        assert self._file is not None
        line = self._file.readline()
        if not line.endswith(b"\n"):
            raise ConnectionResetError("the store closed the connection")
        return line.rstrip(b"\r\n")


AnyClient = TypeVar("AnyClient", bound=Client)


class OneOf(Generic[AnyClient]):
    """Asks one of several. After a fault the next question goes to another."""

    def __init__(self, clients: Sequence[AnyClient]) -> None:
        self._clients = clients
        self._chosen = random.randrange(len(clients) or 1)

    def __getattr__(self, name: str) -> Callable[..., Any]:
        """A call of the one, as `some.ask(..)`."""
        if name.startswith("_"):
            raise AttributeError(name)

        def call(*words: Any, **named: Any) -> Any:
            return self.of(lambda client: getattr(client, name)(*words, **named))

        return call

    def of(self, ask: Callable[[AnyClient], Any]) -> Any:
        """What comes of a function of the one."""
        if not self._clients:  # as where every process is destroyed
            raise ConnectionError("there is no process to ask")
        try:
            return ask(self._clients[self._chosen])
        except noes():
            self._chosen = random.randrange(len(self._clients))
            raise


def clients(
    kind: Callable[[str, float], AnyClient], seconds: float = 4.0, which: int = 0
) -> Tuple[List[AnyClient], OneOf[AnyClient], OneOf[AnyClient]]:
    """One of each process, one of any, and one of any that isn't destroyed."""
    each = [kind(at(n, which), seconds) for n in range(COUNT)]
    return each, OneOf(each), OneOf([each[n] for n in ABLE])
