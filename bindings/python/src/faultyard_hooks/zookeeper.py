"""A store that speaks the protocol of ZooKeeper."""

from __future__ import annotations

import glob
import os
import struct
from typing import Any, Dict, List, Optional

from . import Refused, connection
from .client import Client

CREATE, GET, SET, CHILDREN, SYNC, RECONFIG = 1, 4, 5, 8, 9, 16
NO_NODE, NODE_EXISTS = -101, -110
ANYONE = struct.pack(">ii", 1, 31)  # one entry of an access list: whatever is to be done
AT_ONCE = 500  # questions that are sent before the first answer is read
SESSION = 30_000  # milliseconds for which a session outlives its silence


class ZooKeeper(Client):
    """Keeps a session with one server. `zxid` is the last transaction that it had at its answer."""

    zxid = 0
    _sent = 0

    def create(self, path: str, value: str) -> bool:
        """Whether a node was created; not where its parent is missing, or where it is there."""
        access = ANYONE + _text("world") + _text("anyone")
        (told,) = self.ask(CREATE, _text(path) + _text(value) + access + bytes(4))
        return bool(told)

    def add(self, path: str, value: str) -> int:
        """Creates a node, and its parent if that is missing. Answers the node's transaction."""
        if not self.create(path, value):
            self.create(path.rpartition("/")[0] or "/", "")
            if not self.create(path, value):
                raise Refused(f"{path} is there already")
        return self.zxid

    def put(self, path: str, value: str) -> int:
        """Creates a node as `add` does, or sets it where it is there. Answers the transaction."""
        if self.create(path, value):
            return self.zxid
        any_version = struct.pack(">i", -1)
        (told,) = self.ask(SET, _text(path) + _text(value) + any_version)
        return self.zxid if told else self.add(path, value)

    def records(self, path: str) -> Dict[str, str]:
        """The values of all nodes below a path, by their paths without the first slash."""
        found = self.values([f"{path}/{name}" for name in self.children(path)])
        return {path[1:]: value for path, value in found.items()}

    def values(self, paths: List[str]) -> Dict[str, str]:
        """What the server itself has at each of these paths that there is."""
        found = {}
        for at in range(0, len(paths), AT_ONCE):
            some = paths[at : at + AT_ONCE]
            told = self.ask(GET, *(_text(path) + b"\0" for path in some))
            found.update({path: _first(it) for path, it in zip(some, told) if it})
        return found

    def children(self, path: str) -> List[str]:
        """The names below a path, in order."""
        (told,) = self.ask(CHILDREN, _text(path) + b"\0")
        names, at = [], 4
        while told and at < len(told):
            names.append(_first(told, at))
            at += 4 + len(names[-1].encode())
        return sorted(names)

    def sync(self) -> None:
        """Has the server catch up with the leader."""
        self.ask(SYNC, _text("/"))

    def servers(self) -> Dict[str, str]:
        """The servers by their numbers: the configuration's lines, as the leader has them."""
        self.sync()
        told = self.values(["/zookeeper/config"])["/zookeeper/config"].splitlines()
        return {it[7:].partition("=")[0]: it for it in told if it.startswith("server.")}

    def reconfigure(self, joining: Optional[str] = None, leaving: Optional[str] = None) -> None:
        """Adds or changes a server, or removes one."""
        self.ask(RECONFIG, _text(joining) + _text(leaving) + _text(None) + struct.pack(">q", -1))

    def _greet(self) -> None:
        self._send(_framed(struct.pack(">iqiq", 0, 0, SESSION, 0) + _text("\0" * 16)))
        if not struct.unpack_from(">i", self._frame(), 4)[0]:
            raise Refused("the session has expired")

    def _asked(self, *words: Any) -> List[bytes]:
        """What is answered to each of some questions of one kind; nothing where no node is."""
        kind, *questions = words
        numbers = [self._sent + number for number in range(1, len(questions) + 1)]
        self._sent += len(questions)
        heads = [struct.pack(">ii", number, kind) for number in numbers]
        self._send(b"".join(_framed(head + it) for head, it in zip(heads, questions)))
        return [self._answer(number) for number in numbers]

    def _answer(self, number: int) -> bytes:
        told, zxid, fault = 0, 0, 0
        while told != number:  # another is a watch's
            frame = self._frame()
            told, zxid, fault = struct.unpack_from(">iqi", frame)
        self.zxid = zxid
        if fault not in (0, NO_NODE, NODE_EXISTS):
            raise Refused(f"error {fault}")
        return b"" if fault else frame[16:]

    def _frame(self) -> bytes:
        return self._read(*struct.unpack(">i", self._read(4)))


def mode(address: str) -> str:
    """What a server is, as the word `srvr` has it: leader, follower, observer or standalone."""
    with connection(address, 2.0) as asked:
        asked.sendall(b"srvr")
        told = b"".join(iter(lambda: asked.recv(65536), b"")).decode()
    found = dict(line.partition(": ")[::2] for line in told.splitlines())
    if "Mode" not in found:  # it serves nobody yet, and says so
        raise Refused(told.strip() or "it says nothing")
    return found["Mode"]


def last_synced(data: str) -> int:
    """The last transaction in the snapshots and logs of a data folder, which it syncs."""
    last = 0
    for path in glob.glob(f"{data}/version-2/*.*"):
        with open(path, "rb") as file:
            told = file.read()
            os.fsync(file.fileno())
        name, _, number = os.path.basename(path).partition(".")
        if name == "snapshot":
            last = max(last, int(number, 16))
        elif name == "log":
            last = max(last, _last_of(told))
    return last


def _last_of(log: bytes) -> int:
    """The last transaction of a log: after 16 bytes each has a checksum, a size and an end."""
    last, at = 0, 16
    while at + 12 < len(log):
        (size,) = struct.unpack_from(">i", log, at + 8)
        end = at + 12 + size
        if size <= 0 or log[end : end + 1] != b"B":
            break
        (last,) = struct.unpack_from(">q", log, at + 24)  # past the client and its count
        at = end + 1
    return last


def _text(text: Optional[str]) -> bytes:
    if text is None:
        return struct.pack(">i", -1)
    return struct.pack(">i", len(text.encode())) + text.encode()


def _first(told: bytes, at: int = 0) -> str:
    """The text that begins at a place."""
    (size,) = struct.unpack_from(">i", told, at)
    return told[at + 4 : at + 4 + max(size, 0)].decode()


def _framed(data: bytes) -> bytes:
    return struct.pack(">i", len(data)) + data
