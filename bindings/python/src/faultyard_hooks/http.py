"""A store that is asked by HTTP, with JSON or texts."""

from __future__ import annotations

import json
from base64 import b64decode, b64encode
from typing import Any, Dict, Tuple

from . import Refused
from .client import Client


class Http(Client):
    """Keeps a connection. `ask("/health")` gets, and `ask("/v3/kv/put", {..})` posts.

    `ask("PUT /v1/kv/key", "text")` names the method, and a text is sent as it is. An answer is
    JSON, or a text where the server doesn't say so. None is where a GET finds nothing, by 404.
    """

    def _asked(self, *words: Any) -> Any:
        place, *body = words
        method, _, path = place.rpartition(" ")
        method = method or ("POST" if body else "GET")
        text = "".join(it if isinstance(it, str) else json.dumps(it) for it in body)
        self._send(self._question(method, path, text))
        status, kind, told = self._answer()
        if status == 404 and method == "GET":
            return None
        if not 200 <= status < 300:
            raise Refused(f"{path}: {status} {told.decode(errors='replace').strip()[:200]}")
        # A value of a record may look like a number.
        is_json = b"json" in kind or told[:1] in (b"{", b"[")
        return json.loads(told) if is_json else told.decode()

    def _question(self, method: str, path: str, body: str) -> bytes:
        host = "localhost" if "/" in self._address else self._address.rpartition(":")[0]
        head = f"{method} {path} HTTP/1.1\r\nHost: {host}\r\nContent-Type: application/json\r\n"
        return f"{head}Content-Length: {len(body.encode())}\r\n\r\n{body}".encode()

    def _answer(self) -> Tuple[int, bytes, bytes]:
        """The status, the type and the text."""
        status = int(self._line().split()[1])
        head: Dict[bytes, bytes] = {}
        while line := self._line():
            name, _, value = line.partition(b":")
            head[name.lower()] = value.strip().lower()
        told = self._body(head)
        if head.get(b"connection") == b"close":
            self.close()
        return status, head.get(b"content-type", b""), told

    def _body(self, head: Dict[bytes, bytes]) -> bytes:
        if head.get(b"transfer-encoding") != b"chunked":
            return self._read(int(head.get(b"content-length", b"0")))
        told = b""
        while size := int(self._line().partition(b";")[0], 16):
            told += self._read(size)
            self._line()
        self._line()
        return told


def base64(text: str) -> str:
    """A text as many stores have it in JSON."""
    return b64encode(text.encode()).decode()


def plain(text: str) -> str:
    """The text that such a one stands for."""
    return b64decode(text).decode()
