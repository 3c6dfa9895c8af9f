"""A store that speaks the protocol of NATS: subjects of a server with JetStream."""

from __future__ import annotations

import glob
import json
import os
import struct
from base64 import b64decode
from typing import Any, Dict, List, Optional, Tuple

from . import Refused
from .client import Client
from .http import Http

NO_MESSAGE = 10037  # the error of a message that isn't there
DIRECT, NOT_FOUND = "$JS.API.DIRECT.GET", "404"
AT_ONCE = 500  # questions that are sent before the first answer is read
Question = Tuple[str, object]  # a subject, and a text or what is sent as JSON


class Nats(Client):
    """Keeps a connection, as the user who has the streams. `ask((SUBJECT, DATA))` answers JSON."""

    user = "u"
    _inbox = ""

    def own(self, stream: str, **which: object) -> Optional[str]:
        """The text of a message by its `seq`, or the last by `last_by_subj`, as this server has it.

        The stream allows direct gets, and the server `answers_itself`.
        """
        found = self.ask((f"{DIRECT}.{stream}", which))[0]
        return found and str(found["text"])

    def records(self, stream: str) -> Dict[str, str]:
        """All that the leader has: the texts by their subjects without the first word."""
        state = self.ask((f"$JS.API.STREAM.INFO.{stream}", {}))[0]["state"]
        asked = [
            (f"$JS.API.STREAM.MSG.GET.{stream}", {"seq": seq})
            for seq in range(state["first_seq"], state["last_seq"] + 1)
        ]
        found: Dict[str, str] = {}
        for at in range(0, len(asked), AT_ONCE):
            told = self.ask(*asked[at : at + AT_ONCE])
            found.update((_key(it["subject"]), text(it)) for it in told if it)
        return found

    def _greet(self) -> None:
        self._inbox = f"in.{os.urandom(8).hex()}"
        login = {"user": self.user, "pass": self.user, "verbose": False}
        login.update(headers=True, no_responders=True)
        self._send(f"CONNECT {json.dumps(login)}\r\nSUB {self._inbox} 1\r\n".encode())

    def _asked(self, *words: Question) -> List[Any]:
        for subject, data in words:
            told = data if isinstance(data, str) else json.dumps(data)
            self._send(f"PUB {subject} {self._inbox} {len(told)}\r\n{told}\r\n".encode())
        return [self._answer() for _ in words]

    def _answer(self) -> Any:
        while (words := self._line().split())[0] not in (b"MSG", b"HMSG"):
            if words[0] == b"PING":
                self._send(b"PONG\r\n")
        told = self._read(int(words[-1]) + 2)[:-2].decode()
        if words[0] == b"HMSG":
            return _direct(told[: int(words[-2])], told[int(words[-2]) :])
        answer = json.loads(told)
        fault = answer.get("error", {})
        if fault.get("err_code") == NO_MESSAGE:
            return None
        if fault:
            raise Refused(fault["description"])
        return answer.get("message", answer)


class System(Nats):
    """As the user of the system account."""

    user = "s"


def _direct(head: str, body: str) -> Optional[Dict[str, str]]:
    """The answer to a direct get; its head has a status where there is none."""
    status = head.splitlines()[0].split()[1:]
    if status and status[0] != NOT_FOUND:
        raise Refused(head.strip())
    return None if status else {"text": body}


def answers_itself(monitor: str, account: str, stream: str) -> bool:
    """Whether the server whose monitor that is answers direct gets itself.

    One that lags doesn't listen for them, and then another does. The list has its own alone.
    """
    told = Http(monitor).ask(f"/subsz?subs=1&acc={account}&test={DIRECT}.{stream}")
    return bool(told.get("subscriptions_list"))


def text(message: Dict[str, Any]) -> str:
    """What a message has."""
    return b64decode(message["data"]).decode()


def on_disk(stream: str) -> Dict[int, Tuple[str, str]]:
    """The messages in a stream's folder by their numbers: key and text. Its files are synced.

    Each has its size, its number, a time and the length of its subject, and ends with a hash.
    """
    found: Dict[int, Tuple[str, str]] = {}
    for path in glob.glob(f"{stream}/msgs/*.blk"):
        with open(path, "rb") as file:
            told, at = file.read(), 0
            os.fsync(file.fileno())
        while at + 30 <= len(told):
            size, number, _, length = struct.unpack_from("<IQqH", told, at)
            subject, end = at + 22 + length, at + size
            if size < 30 or end > len(told):
                break
            key = _key(told[at + 22 : subject].decode(errors="replace"))
            found[number] = key, told[subject : end - 8].decode(errors="replace")
            at = end
    return found


def _key(subject: str) -> str:
    return subject.partition(".")[2]
