"""A store that speaks AMQP 0-9-1: messages of a queue of RabbitMQ."""

from __future__ import annotations

import os
import struct
from typing import Any, Dict, List, Tuple

from . import Refused
from .client import Client

# Classes and methods of the protocol.
START, START_OK, TUNE, TUNE_OK = (10, 10), (10, 11), (10, 30), (10, 31)
OPEN, OPEN_OK, CHANNEL, CHANNEL_OK = (10, 40), (10, 41), (20, 10), (20, 11)
DECLARE, DECLARE_OK, PUBLISH, RETURN = (50, 10), (50, 11), (60, 40), (60, 50)
QOS, QOS_OK, CONSUME, CONSUME_OK = (60, 10), (60, 11), (60, 20), (60, 21)
DELIVER, ACK, CONFIRM, CONFIRM_OK = (60, 60), (60, 80), (85, 10), (85, 11)
METHOD, HEADER, BODY, HEARTBEAT, END = 1, 2, 3, 8, b"\xce"
PASSIVE, DURABLE, PERSISTENT = 1, 2, 2
MOST_OUT = 65535  # messages that a consumer may have out; 0 would be 2,000 for a quorum queue

Method = Tuple[int, int]


class Amqp(Client):
    """Keeps a connection with a channel whose publishes are confirmed."""

    def publish(self, queue: str, text: str, **arguments: object) -> None:
        """Adds a durable message, and returns once the queue has confirmed it.

        Where the queue isn't there, that is refused, and with arguments it is declared.
        """
        try:
            self.ask("publish", queue, text)
        except Refused as fault:
            if arguments and "NO_ROUTE" in str(fault):
                self.declare(queue, **arguments)
            raise

    def declare(self, queue: str, **arguments: object) -> None:
        """Makes a queue, if it isn't there."""
        self.ask("counts", queue, arguments)

    def messages(self, queue: str) -> List[str]:
        """All of a queue, of at most 65,535. They go back into it, as the connection closes then.

        A new leader may count too few. So a last message is added: what was confirmed before stands
        before it, and is counted by a leader that has it.
        """
        last = f"last {os.urandom(8).hex()}"
        self.publish(queue, last)
        if self.ask("counts", queue, {})[1]:
            raise Refused("another consumer still has messages out")
        self.ask("consume", queue)
        told = [self.ask("delivered")]
        while told[-1] != last:
            told.append(self.ask("delivered"))
        self.close()
        return told[:-1]

    def _greet(self) -> None:
        self._send(b"AMQP\0\0\x09\x01")
        self._wait(START)
        answer = _long(b"\0guest\0guest")
        self._method(0, START_OK, _long(b"") + _short("PLAIN") + answer + _short("en_US"))
        self._wait(TUNE)
        self._method(0, TUNE_OK, struct.pack(">HIH", 1, 131072, 0))
        self._call(0, OPEN, _short("/") + b"\0\0", OPEN_OK)
        self._call(1, CHANNEL, b"\0", CHANNEL_OK)
        self._call(1, CONFIRM, b"\0", CONFIRM_OK)

    def _asked(self, *words: Any) -> Any:
        return getattr(self, f"_{words[0]}")(*words[1:])

    def _publish(self, queue: str, text: str) -> None:
        data = text.encode()
        head = struct.pack(">HHQHB", PUBLISH[0], 0, len(data), 1 << 12, PERSISTENT)
        self._method(1, PUBLISH, b"\0\0\0" + _short(queue) + b"\1")  # it has to reach a queue
        self._send(_frame(HEADER, 1, head) + _frame(BODY, 1, data))
        self._wait(ACK)

    def _counts(self, queue: str, declared: Dict[str, object]) -> Tuple[int, int]:
        """How many messages are ready, and how many consumers there are."""
        table = b"".join(_field(name.replace("_", "-"), it) for name, it in declared.items())
        flags = DURABLE if declared else DURABLE | PASSIVE
        words = b"\0\0" + _short(queue) + bytes([flags]) + _long(table)
        told = self._call(1, DECLARE, words, DECLARE_OK)
        messages, consumers = struct.unpack_from(">II", told, 1 + told[0])
        return messages, consumers

    def _consume(self, queue: str) -> None:
        self._call(1, QOS, struct.pack(">IHB", 0, MOST_OUT, 0), QOS_OK)
        self._call(1, CONSUME, b"\0\0" + _short(queue) + b"\0\0" + _long(b""), CONSUME_OK)

    def _delivered(self) -> str:
        self._wait(DELIVER)
        _, head = self._next()
        (size,) = struct.unpack_from(">Q", head, 4)
        text = b""
        while len(text) < size:
            text += self._next()[1]
        return text.decode()

    def _call(self, channel: int, method: Method, words: bytes, answer: Method) -> bytes:
        self._method(channel, method, words)
        return self._wait(answer)

    def _method(self, channel: int, method: Method, words: bytes) -> None:
        self._send(_frame(METHOD, channel, struct.pack(">HH", *method) + words))

    def _wait(self, wanted: Method) -> bytes:
        """The words of the method that is due; any other refuses."""
        kind, data = self._next()
        method = struct.unpack_from(">HH", data)
        if kind != METHOD or method != wanted:
            told = "".join(it if it.isprintable() else " " for it in data[4:].decode("latin-1"))
            raise Refused(f"method {method}: {told.strip()}")
        return data[4:]

    def _next(self) -> Tuple[int, bytes]:
        kind = HEARTBEAT
        while kind == HEARTBEAT:
            kind, _, size = struct.unpack(">BHI", self._read(7))
            data = self._read(size + 1)[:-1]
        return kind, data


def _frame(kind: int, channel: int, data: bytes) -> bytes:
    return struct.pack(">BHI", kind, channel, len(data)) + data + END


def _short(text: str) -> bytes:
    return bytes([len(text)]) + text.encode()


def _long(data: bytes) -> bytes:
    return struct.pack(">I", len(data)) + data


def _field(name: str, value: object) -> bytes:
    if isinstance(value, int):
        return _short(name) + b"I" + struct.pack(">i", value)
    return _short(name) + b"S" + _long(str(value).encode())
