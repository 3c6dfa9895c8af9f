"""A store that speaks the protocol of PostgreSQL."""

from __future__ import annotations

import struct
from typing import Any, List, Optional, Union

from . import Refused
from .client import Client

VERSION = 3 << 16
# Types of columns, as the catalogue pg_type numbers them.
BOOL, NUMBERS = 16, {20, 21, 23, 26, 700, 701, 1700}


class Postgres(Client):
    """Keeps a connection. `ask("SELECT 1")` answers rows of texts; a warning counts as a fault."""

    _columns = b""  # as the last answer describes them

    def value(self, query: str) -> Union[bool, int, float, str]:
        """The one value that is asked for, in its type; `Refused` where there is none."""
        rows = self.ask(query)
        text: Optional[str] = rows[0][0] if rows else None
        if text is None:
            raise Refused(f"there is no value: {query}")
        # The first has a name, which ends with a zero, six bytes that say whence it is, and a type.
        (kind,) = struct.unpack_from(">i", self._columns, self._columns.index(b"\0", 2) + 7)
        if kind == BOOL:
            return text == "t"
        if kind in NUMBERS:
            return int(text) if text.lstrip("-").isdecimal() else float(text)
        return text

    def _greet(self) -> None:
        words = b"user\0postgres\0database\0postgres\0\0"
        self._send(struct.pack(">ii", len(words) + 8, VERSION) + words)
        self._rows()

    def _asked(self, *words: Any) -> List[List[Optional[str]]]:
        query = words[0].encode() + b"\0"
        self._send(b"Q" + struct.pack(">i", len(query) + 4) + query)
        return self._rows()

    def _rows(self) -> List[List[Optional[str]]]:
        rows: List[List[Optional[str]]] = []
        while True:
            kind, size = struct.unpack(">ci", self._read(5))
            body = self._read(size - 4)
            if kind == b"Z":  # it is ready for the next query
                return rows
            if kind == b"T":
                self._columns = body
            if kind == b"D":
                rows.append(_row(body))
            if kind == b"E" or kind == b"N" and b"\0VWARNING\0" in body:
                told = [it[1:].decode() for it in body.split(b"\0") if it[:1] in (b"S", b"M")]
                raise Refused(": ".join(told))
            if kind == b"R" and body[:4] != bytes(4):
                raise Refused("it asks for a password")


def _row(body: bytes) -> List[Optional[str]]:
    row: List[Optional[str]] = []
    at = 2
    for _ in range(struct.unpack_from(">h", body)[0]):
        (size,) = struct.unpack_from(">i", body, at)
        at += 4
        row.append(None if size < 0 else body[at : at + size].decode())
        at += max(size, 0)
    return row
