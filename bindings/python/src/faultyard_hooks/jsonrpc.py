"""A store that is asked by JSON-RPC 1.0 over a plain connection, as OVSDB is (RFC 7047)."""

from __future__ import annotations

import json
from typing import Any

from . import Refused
from .client import Client


class JsonRpc(Client):
    """Keeps a connection. `ask("transact", "db", {..})` answers the result."""

    def _asked(self, *words: Any) -> Any:
        method, *params = words
        self._send(json.dumps({"method": method, "params": params, "id": 0}).encode())
        while "method" in (told := self._object()):  # what the store asks goes unanswered
            pass
        if told["error"] is not None:
            raise Refused(f"{method}: {json.dumps(told['error'])[:200]}")
        return told["result"]

    def _object(self) -> Any:
        """The next object, of which nothing but its own braces says where it ends."""
        data, depth, is_text = bytearray(), 0, False
        while depth or not data.strip():
            byte = self._read(1)
            if byte == b"\\":  # it stands in texts alone
                byte += self._read(1)
            elif byte == b'"':
                is_text = not is_text
            elif not is_text:
                depth += (byte == b"{") - (byte == b"}")
            data += byte
        return json.loads(data)
