"""A guard that others ask too: faultyard-serve, at a Unix socket or a URL."""

from __future__ import annotations

import http.client
import json
import socket
import ssl
import time
import uuid
from abc import ABC, abstractmethod
from contextlib import suppress
from io import UnsupportedOperation
from typing import Callable, List, Mapping, NoReturn, Optional, Set, TypeVar
from urllib.parse import urlencode, urlsplit

from .asked import Asked
from .errors import GuardEnded, InvalidAct, JournalFull, ProtocolError
from .kept import Kept
from .pipe import Pipe, behind
from .programs import StrPath
from .replies import Entry, read_entry
from .transport import HEADER

AGAIN = 0.05
"""How many seconds pass before a server that is gone is asked again."""
AWAY = 502, 503, 504
"""The statuses of a server that ends, and of a proxy whose server isn't there."""
SPEAKS_TLS = "the server speaks TLS there: ask by https"
ALERT = "\x15\x03"
"""What a server of TLS begins with that is asked without."""
Tokens = Mapping[int, str]
_Answer = TypeVar("_Answer")


class Gone(Exception):
    """The server didn't answer: it is asked again."""


class Served(Asked):
    """A server that may be killed and started again: an act is asked for until it is answered.

    Each act has a key of its own, by which the server makes it once. A question enters nothing, and
    is told what the server's guard sees then, so also of what others did meanwhile.
    """

    def __init__(
        self,
        config: StrPath,
        server: str,
        tokens: Optional[Tokens],
        timeout: Optional[float],
        folder: Optional[StrPath],
        program: Optional[StrPath],
        library: Optional[StrPath],
    ) -> None:
        super().__init__(config, library)
        self._server, self._timeout, self._program = server, timeout, program
        self._own: Set[int] = set()
        self._door: _Door = _Lines(server, timeout)
        if server.startswith(("http://", "https://")):
            self._door = _Web(server, tokens or {}, timeout)
        self._go_on(HEADER)
        try:
            self._fetch()
            if folder is not None:
                self._kept = Kept(folder, self.audit())
                self._kept.begin()
        except BaseException:
            self._door.close()
            raise
        self._told = self.journal_len()

    def exchange(self, text: bytes) -> bytes:
        key = uuid.uuid4().hex
        answer = self._asked(lambda: self._door.act(text, key))
        entry = read_entry(answer)
        self._own.add(entry.at)
        if entry.at >= self.journal_len():
            self._fetch()
        return answer

    def tell(self, text: bytes) -> bytes:
        return self._asked(lambda: self._door.tell(text))

    def try_copy(self) -> Pipe:
        made = self._program, self._timeout, self._library
        return behind(self._config, self.audit(), *made)

    def reset(self) -> None:
        raise UnsupportedOperation("the journal of a server has what others did, too")

    def begin_again(self) -> None:
        raise UnsupportedOperation("begin_again asks for the transport 'pipe'")

    def others(self, before: Optional[int]) -> List[Entry]:
        if before is None:
            self._fetch()
            before = self.journal_len()
        places = range(self._told, before)
        self._told = max(self._told, before)
        return [read_entry(self._audit[1 + at]) for at in places if at not in self._own]

    def close(self) -> None:
        self._door.close()
        if self._kept is not None:
            self._kept.close()

    def _fetch(self) -> None:
        """Reads the entries that aren't here yet."""
        for text in self._asked(lambda: self._door.entries(self.journal_len())):
            self._keep(text)

    def _asked(self, ask: Callable[[], _Answer]) -> _Answer:
        """What a call answers, once the server is there to answer it."""
        until = None if self._timeout is None else time.monotonic() + self._timeout
        while True:
            try:
                return ask()
            except Gone as gone:
                self._door.close()
                if until is not None and time.monotonic() > until:
                    why = f"no answer from {self._server} in {self._timeout} seconds"
                    raise GuardEnded(why, str(gone)) from None
                time.sleep(AGAIN)


class _Door(ABC):
    """A way to ask the server."""

    @abstractmethod
    def act(self, text: bytes, key: str) -> bytes:
        """The line of the entry of an act, which is made once for each key."""

    @abstractmethod
    def tell(self, text: bytes) -> bytes:
        """The line of what is told to a question."""

    @abstractmethod
    def entries(self, first: int) -> List[bytes]:
        """The lines of the entries from one on."""

    @abstractmethod
    def close(self) -> None:
        """Lets go of the server; the next question connects again."""


def _refused(why: str) -> NoReturn:
    if why == "script: JournalFull":
        raise JournalFull(why)
    raise InvalidAct(why)


class _Lines(_Door):
    """Lines over its Unix socket."""

    def __init__(self, path: str, timeout: Optional[float]) -> None:
        self._path, self._timeout = path, timeout
        self._socket: Optional[socket.socket] = None

    def act(self, text: bytes, key: str) -> bytes:
        return self.tell(text.rstrip()[:-1] + b',"once":"' + key.encode() + b'"}\n')

    def tell(self, text: bytes) -> bytes:
        answer = self._ask(text)
        if answer.startswith(b'{"refused":'):
            _refused(json.loads(answer)["refused"])
        return answer

    def entries(self, first: int) -> List[bytes]:
        told = json.loads(self._ask(b'{"from":%d}\n' % first))
        return [self._line() for _ in range(told["from"], told["to"])]

    def close(self) -> None:
        if self._socket is not None:
            self._heard.close()
            self._socket.close()
            self._socket = None

    def _ask(self, text: bytes) -> bytes:
        try:
            if self._socket is None:
                self._connect()
            assert self._socket is not None
            self._socket.sendall(text)
        except OSError as fault:
            raise Gone(str(fault)) from None
        return self._line()

    def _connect(self) -> None:
        made = socket.socket(socket.AF_UNIX)
        made.settimeout(self._timeout)
        try:
            made.connect(self._path)
        except OSError:
            made.close()
            raise
        self._socket, self._heard = made, made.makefile("rb")
        if self._line() != HEADER:
            raise ProtocolError(f"{self._path} is no socket of faultyard-serve")

    def _line(self) -> bytes:
        try:
            line = self._heard.readline()
        except OSError as fault:
            raise Gone(str(fault)) from None
        if not line.endswith(b"\n"):
            raise Gone("the server has gone")
        return line


class _Web(_Door):
    """HTTP."""

    def __init__(self, url: str, tokens: Tokens, timeout: Optional[float]) -> None:
        found = urlsplit(url)
        kind = http.client.HTTPSConnection
        if found.scheme == "http":
            kind = http.client.HTTPConnection  # type: ignore[assignment]
        self._connection = kind(found.netloc, timeout=timeout)
        self._tokens = tokens
        self._url, self._path = url, found.path.rstrip("/")

    def act(self, text: bytes, key: str) -> bytes:
        return self._post("/v1/acts", text, {"Idempotency-Key": key})

    def tell(self, text: bytes) -> bytes:
        ((name, members),) = json.loads(text)["ask"].items()
        if name == "judge":
            return self._post("/v1/judge", json.dumps(members).encode(), {})
        told = self._ask("GET", f"/v1/{name}?{urlencode(members)}", None, None, {})
        if name == "targets":
            numbers = [process["number"] for process in json.loads(told)["processes"]]
            told = json.dumps({"told": {name: numbers}}).encode()
        # What a cluster bears is told there as the command says it.
        return b'{"told":{"bears":%s}}' % told if name == "bears" else told

    def entries(self, first: int) -> List[bytes]:
        told = self._ask("GET", f"/v1/audit?from={first}", None, None, {})
        lines = told.splitlines(keepends=True)
        return lines[1:] if first == 0 else lines

    def close(self) -> None:
        self._connection.close()

    def _post(self, path: str, body: bytes, headers: Mapping[str, str]) -> bytes:
        """What is answered to a body, by the token of its actor."""
        named = {"Content-Type": "application/json", **headers}
        return self._ask("POST", path, json.loads(body)["by"], body, named)

    def _ask(
        self,
        method: str,
        path: str,
        by: Optional[int],
        body: Optional[bytes],
        headers: Mapping[str, str],
    ) -> bytes:
        token = self._tokens.get(by) if by is not None else next(iter(self._tokens.values()), None)
        named = dict(headers, **({"Authorization": f"Bearer {token}"} if token else {}))
        path = self._path + path
        try:
            self._connection.request(method, path, body, named)
            answer = self._connection.getresponse()
            text = answer.read()
        except (OSError, http.client.HTTPException) as fault:
            never = _never_else(fault)
            if never is not None:
                raise ProtocolError(f"{self._url}: {never}") from None
            raise Gone(str(fault)) from None
        if answer.status == 200:
            return text
        why = f"status {answer.status}"
        with suppress(ValueError, KeyError, TypeError):
            why = json.loads(text)["error"]
        if answer.status in AWAY:
            raise Gone(why)
        if answer.status in (400, 413, 422, 507) and why.startswith("script: "):
            _refused(why)
        if answer.status == 400 and (b"HTTPS" in text or b"TLS" in text):
            raise ProtocolError(f"{self._url}: {SPEAKS_TLS}")
        raise ProtocolError(f"{method} {path}: {why}")


def _never_else(fault: Exception) -> Optional[str]:
    """What is wrong, where the server would answer the same if it were asked again."""
    if isinstance(fault, ssl.SSLCertVerificationError):
        return f"{fault.verify_message}; SSL_CERT_FILE names what is trusted"
    if isinstance(fault, ssl.SSLError) and fault.reason == "WRONG_VERSION_NUMBER":
        return "the server speaks no TLS there: ask by http"
    if isinstance(fault, http.client.BadStatusLine) and str(fault).startswith(ALERT):
        return SPEAKS_TLS
    return None
