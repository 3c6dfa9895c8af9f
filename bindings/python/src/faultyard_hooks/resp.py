"""A store that speaks the protocol of redis."""

from __future__ import annotations

from typing import Any, Tuple

from . import Refused
from .client import Client


class Resp(Client):
    """Keeps a connection. `ask("HGET", "r", "key")` answers a text, a number, None or a list."""

    def _asked(self, *words: Any) -> Any:
        commands = words if isinstance(words[0], tuple) else (words,)
        self._send(b"".join(map(_command, commands)))
        return [self._answer() for _ in commands][-1]

    def at_once(self, *commands: Tuple[object, ...]) -> Any:
        """What several commands answer that nothing comes between."""
        answers = self.ask(("MULTI",), *commands, ("EXEC",))
        if answers is None:
            raise Refused("the transaction was not done")
        return answers

    def _answer(self) -> Any:
        line = self._line()
        kind, rest = line[:1], line[1:].decode()
        if kind == b"-":
            raise Refused(rest)
        if kind == b":":
            return int(rest)
        if kind == b"$":
            return None if rest == "-1" else self._read(int(rest) + 2)[:-2].decode()
        if kind == b"*":
            return None if rest == "-1" else [self._answer() for _ in range(int(rest))]
        return rest


def _command(words: Tuple[object, ...]) -> bytes:
    parts = [str(word).encode() for word in words]
    return b"".join([b"*%d\r\n" % len(parts), *(b"$%d\r\n%b\r\n" % (len(it), it) for it in parts)])
