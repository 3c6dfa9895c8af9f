"""Clients of faultyard-serve who ask until they are answered, by both doors."""

from __future__ import annotations

import http.client
import json
import random
import threading
import time
import uuid
from unittest import TestCase

from common_serve import Server, Talk, kill, up


class Client(threading.Thread):
    """Asks for acts, each with a key of its own, again and again until each is answered."""

    def __init__(self, server: Server, number: int, is_over: threading.Event):
        super().__init__()
        self.server, self.is_over, self.random = server, is_over, random.Random(number)
        self.by_socket = number % 2 == 0
        self.answers: list[tuple[bytes, bytes]] = []
        self.fault: BaseException | None = None
        self.talk: Talk | None = None

    def run(self) -> None:
        try:
            while not self.is_over.is_set():
                self.act()
        except BaseException as fault:
            self.fault = fault

    def act(self) -> None:
        """One act, however often it has to be asked for."""
        process, key = self.random.randrange(6), str(uuid.UUID(int=self.random.getrandbits(128)))
        acts = kill(process), kill(process, "RebootAndDelete", by=2), up(process)
        act = self.random.choice(acts)
        while True:
            try:
                answer = self.ask(act, key)
            except OSError:
                answer = b""
            if answer.endswith(b"\n"):
                self.answers.append((act, answer))
                return
            self.talk = None
            time.sleep(0.01)

    def ask(self, act: bytes, key: str) -> bytes:
        if self.by_socket:
            self.talk = self.talk or self.server.talk()
            return self.talk.ask(act[:-2] + b',"once":"' + key.encode() + b'"}\n')
        try:
            status, answer = self.server.ask("POST", "/v1/acts", act, Idempotency_Key=key)
        except (AssertionError, ValueError, http.client.HTTPException):
            return b""
        return answer if status == 200 else b""


class Clients:
    """Several of them, half of which ask by each door."""

    def __init__(self, server: Server, count: int):
        self.server, self.is_over = server, threading.Event()
        self.all = [Client(server, number, self.is_over) for number in range(count)]
        for client in self.all:
            client.start()

    def go_on(self, dice: random.Random) -> None:
        """Returns at some moment once each has one more answer."""
        before = [len(client.answers) for client in self.all]
        while any(
            len(client.answers) == count and client.is_alive()
            for client, count in zip(self.all, before)
        ):
            time.sleep(0.001)
        time.sleep(dice.uniform(0, 0.3))

    def end(self, case: TestCase, least: int) -> None:
        """Ends them and the server. Each answer has to stand in the audit once, and nothing else:
        each act was asked for until it was answered."""
        self.is_over.set()
        for client in self.all:
            client.join()
            case.assertIsNone(client.fault)
        case.assertEqual(self.server.end(), 0)
        entries = self.server.lines()
        case.assertEqual(self.server.check(), f"legal {len(entries)}")
        places = []
        for client in self.all:
            case.assertGreaterEqual(len(client.answers), least)
            ats = [json.loads(answer)["at"] for _, answer in client.answers]
            case.assertEqual(ats, sorted(ats))
            places += ats
            for act, answer in client.answers:
                told, asked = json.loads(answer), json.loads(act)
                case.assertEqual(entries[told["at"]], answer)
                case.assertEqual((told["act"], told["by"]), (asked["act"], asked["by"]))
        case.assertEqual(sorted(places), list(range(len(entries))))
