"""A good client of tests/serve/hour, in a process of its own: what one does holds up no other.

    good.py KIND WORDS

KIND is one of KINDS, and WORDS is what that one needs, as JSON. It asks until SIGTERM. Then it
prints, as JSON, when it began to wait each time and when it was answered, the entries of its
answers, and what failed.
"""

from __future__ import annotations

import gc
import http.client
import json
import signal
import socket
import ssl
import sys
import threading
import time
from pathlib import Path
from random import Random
from typing import Callable

HERE = Path(__file__).resolve().parent
sys.path[:0] = [str(HERE.parents[1] / "bindings/python/src"), str(HERE)]
from faultyard import Guard, Kind, Role  # noqa: E402
from testers import Tester  # noqa: E402

HEADER = b'{"audit":2}\n'
OFTEN, SELDOM = (0.005, 0.035), (0.1, 0.3)  # seconds between two questions
# How much of its orders a tester gives for what isn't done to the store: members need time to come
# back.
UNDONE = 0.9975
TRIES = 100  # of one who is patient
ECHOED = b'{"by":1,"act":{"up":{"process":0}}}\n'


class Acts(Tester):
    """A tester that asks often, and mostly for what isn't done to the store."""

    def __init__(
        self, over: threading.Event, config: str, door: str, by: int, role: str, token: str
    ):
        super().__init__(Path(config), door, by, Role(role), over, {by: token})
        self.pauses = OFTEN
        self.waits: list[tuple[float, float]] = []

    def ask(self, guard: Guard, act: dict[str, dict[str, object]]) -> None:
        begun = time.monotonic()
        super().ask(guard, act)
        self.waits.append((begun, time.monotonic()))

    def act(self, dice: Random, count: int) -> dict[str, dict[str, object]]:
        if self.role is Role.FAULT and dice.random() < UNDONE:
            kind = Kind.KILL_INSTANTLY.value  # for which it has no grant
            return self.kill(dice.randrange(count), kind, kind)
        return super().act(dice, count)

    def failed(self) -> list[str]:
        return [repr(self.fault)] if self.fault else []


class Asks(threading.Thread):
    """Asks one question again and again."""

    pauses = OFTEN

    def __init__(self, over: threading.Event):
        super().__init__()
        self.over, self.entries, self.faults = over, list[object](), list[str]()
        self.waits: list[tuple[float, float]] = []

    def run(self) -> None:
        dice = Random(0)
        while not self.over.wait(dice.uniform(*self.pauses)):
            begun = time.monotonic()
            if fault := self.ask():
                self.faults.append(fault)
            self.waits.append((begun, time.monotonic()))

    def ask(self) -> str:
        """What went wrong with a question, or nothing."""
        raise NotImplementedError

    def failed(self) -> list[str]:
        return self.faults


class Health(Asks):
    """Asks for health, on a new connection each time. One who is patient asks again: on a busy
    machine a question may take longer than the server waits for it, or its disk."""

    def __init__(self, over: threading.Event, address: str, patient: bool):
        super().__init__(over)
        self.address, self.tries = address, TRIES if patient else 1
        self.context = ssl.create_default_context()

    def ask(self) -> str:
        fault = self.asked()
        for _ in range(self.tries - 1):
            if not fault:
                break
            time.sleep(0.1)
            fault = self.asked()
        return fault

    def asked(self) -> str:
        # No time is too long: what isn't answered is told by its wait, and the run doesn't end.
        connection = http.client.HTTPSConnection(self.address, context=self.context)
        try:
            connection.request("GET", "/healthz")
            answer = connection.getresponse()
            return "" if answer.status == 200 else f"{answer.status} {answer.read()!r}"
        except (OSError, http.client.HTTPException) as fault:
            return repr(fault)
        finally:
            connection.close()


class Echo(Asks):
    """Asks a server that echoes each line once it is on the disk: what the machine takes. It asks
    seldom, so that it isn't the load of the disk."""

    pauses = SELDOM

    def __init__(self, over: threading.Event, path: str):
        super().__init__(over)
        self.socket = socket.socket(socket.AF_UNIX)
        self.socket.connect(path)
        self.heard = self.socket.makefile("rb")
        if self.heard.readline() != HEADER:
            sys.exit(f"{path} is no socket of the echo")

    def ask(self) -> str:
        self.socket.sendall(ECHOED)
        return "" if self.heard.readline().endswith(b"\n") else "the echo is gone"


KINDS: dict[str, Callable[..., Acts | Asks]] = {"acts": Acts, "health": Health, "echo": Echo}


def main() -> None:
    signal.pthread_sigmask(signal.SIG_BLOCK, {signal.SIGTERM})
    over = threading.Event()
    client = KINDS[sys.argv[1]](over, **json.loads(sys.argv[2]))
    gc.disable()  # It keeps what it was answered, and to look at all of it takes time.
    client.start()
    signal.sigwait({signal.SIGTERM})
    over.set()
    client.join()
    told = {"waits": client.waits, "entries": client.entries, "failed": client.failed()}
    json.dump(told, sys.stdout)


if __name__ == "__main__":
    main()
