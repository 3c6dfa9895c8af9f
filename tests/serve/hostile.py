"""Clients of faultyard-serve that mean ill, or are broken: each is of one of KINDS.

    hostile.py COUNT HOST:PORT SOCKET READER SEED

They come by TLS and by the Unix socket, from many addresses, once a line says so and until this
program is ended by SIGTERM. Then it prints how often each kind came. READER is a token that only
reads: of those of whom the server knows that they may.
"""

from __future__ import annotations

import collections
import json
import os
import random
import signal
import socket
import ssl
import struct
import sys
import threading
import time
from contextlib import suppress
from typing import Callable

LONG = 20.0  # seconds that a client stays that does nothing
NOWAIT = struct.pack("ii", 1, 0)  # of SO_LINGER: a close is a reset
HEAD = b"Host: 127.0.0.1\r\nContent-Type: application/json\r\n"
# The socket is asked without a token, so this is an act there, of an actor that isn't there.
ACT = (
    b'{"by":99,"act":{"kill":{"floor":"Reboot","key":"processid","kind":"Reboot","tear":0,'
    b'"value":"p0"}}}'
)


class Client:
    """One of them, with an address of its own."""

    def __init__(self, number: int, words: list[str]):
        host, _, port = words[0].rpartition(":")
        self.server, self.path, self.reader = (host, int(port)), words[1], words[2].encode()
        self.address = f"127.0.0.{2 + number % 250}"
        self.dice = random.Random(f"{words[3]} {number}")
        self.context = ssl.create_default_context()
        self.context.check_hostname, self.context.verify_mode = False, ssl.CERT_NONE

    def tcp(self) -> socket.socket:
        return socket.create_connection(self.server, LONG, (self.address, 0))

    def tls(self) -> ssl.SSLSocket:
        return self.context.wrap_socket(self.tcp())

    def lines(self) -> socket.socket:
        made = socket.socket(socket.AF_UNIX)
        made.settimeout(LONG)
        made.connect(self.path)
        return made

    def door(self) -> socket.socket:
        return self.dice.choice((self.tls, self.lines))()

    def noise(self, most: int) -> bytes:
        return self.dice.randbytes(self.dice.randrange(1, most))


def request(
    method: bytes, path: bytes, token: bytes, body: bytes = b"", more: bytes = b""
) -> bytes:
    head = b"%s %s HTTP/1.1\r\n%sAuthorization: Bearer %s\r\n%s" % (method, path, HEAD, token, more)
    return head + b"Content-Length: %d\r\n\r\n" % len(body) + body


def slow(its: Client) -> None:
    """A byte now and then: of a request, of its body, or of a line."""
    with its.door() as door:
        text = its.dice.choice((request(b"POST", b"/v1/acts", b"x" * 20, ACT), ACT))
        for byte in text:
            door.sendall(bytes((byte,)))
            time.sleep(its.dice.uniform(0.05, 0.5))


def idle(its: Client) -> None:
    """One question, and then nothing."""
    with its.tls() as door:
        door.sendall(request(b"GET", b"/healthz", b"none"))
        while door.recv(4096):
            pass


def half_open(its: Client) -> None:
    """A connection that nothing follows, or of which one half is closed, or that is reset."""
    with its.tcp() as door:
        if its.dice.random() < 0.5:
            door.sendall(b"\x16\x03\x01\x02\x00\x01\x00\x01\xfc\x03\x03"[: its.dice.randrange(11)])
        how = its.dice.randrange(3)
        if how == 0:
            door.shutdown(socket.SHUT_WR)
        elif how == 1:
            door.setsockopt(socket.SOL_SOCKET, socket.SO_LINGER, NOWAIT)
            return
        door.recv(4096)


def huge(its: Client) -> None:
    """Lines, headers and bodies without an end."""
    start = its.dice.choice(
        (
            b"",
            b'{"by":1,"act":"',
            b"[" * 60_000 + b"\n",
            b"GET /" + b"x" * 60_000,
            b"GET /healthz HTTP/1.1\r\nX: ",
            b"GET /healthz HTTP/1.1\r\n" + b"X: y\r\n" * 5_000,
            b"POST /v1/acts HTTP/1.1\r\n" + HEAD + b"Content-Length: %d\r\n\r\n" % (1 << 40),
            b"POST /v1/acts HTTP/1.1\r\n" + HEAD + b"Transfer-Encoding: chunked\r\n\r\nffffff\r\n",
        )
    )
    with its.door() as door:
        door.sendall(start)
        for _ in range(128):
            door.sendall(b"x" * 65_536)


def wrong_token(its: Client) -> None:
    """Orders and questions with whatever isn't a token that may."""
    reader, nul = its.reader, b"\0"
    tokens = (
        b"",
        b"none" * 5,
        reader[:-1],
        reader + b"x",
        reader.upper(),
        nul + reader,
        b"\xff" * 20,
    )
    with its.tls() as door:
        for token in its.dice.sample(tokens, 3):
            path = its.dice.choice((b"/v1/status", b"/v1/audit", b"/v1/events", b"/metrics"))
            door.sendall(request(b"GET", path, token))
            door.sendall(request(b"POST", b"/v1/acts", its.dice.choice((token, reader)), ACT))
        while door.recv(65_536):
            pass


def never_reads(its: Client) -> None:
    """All entries again and again, of which nothing is read, by one who may."""
    with its.tls() as door:
        events = request(b"GET", b"/v1/events?from=0", its.reader)
        door.sendall(its.dice.choice((events, request(b"GET", b"/v1/audit", its.reader) * 200)))
        time.sleep(its.dice.uniform(1, LONG))


def never_reads_lines(its: Client) -> None:
    with its.lines() as door:
        door.setblocking(False)
        with suppress(BlockingIOError):
            for _ in range(10_000):
                door.send(b'{"from":0}\n')
        time.sleep(its.dice.uniform(1, LONG))


TRICKS = (
    b"POST /v1/acts HTTP/1.1\r\n"
    + HEAD
    + b"Content-Length: 5\r\nTransfer-Encoding: chunked\r\n\r\n"
    b"0\r\n\r\nGET /v1/audit HTTP/1.1\r\nHost: x\r\n\r\n",
    b"POST /v1/acts HTTP/1.1\r\n" + HEAD + b"Content-Length: 5\r\nContent-Length: 6\r\n\r\n12345",
    b"POST /v1/acts HTTP/1.1\r\n" + HEAD + b"Content-Length: -1\r\n\r\n",
    b"POST /v1/acts HTTP/1.1\r\n" + HEAD + b"Content-Length: 1e3\r\n\r\n",
    b"POST /v1/acts HTTP/1.1\r\n" + HEAD + b"Transfer-Encoding: xchunked\r\n\r\n0\r\n\r\n",
    b"POST /v1/acts HTTP/1.1\r\n" + HEAD + b"Transfer-Encoding: chunked, identity\r\n\r\n0\r\n\r\n",
    b"POST /v1/acts HTTP/1.1\r\n"
    + HEAD
    + b"Transfer-Encoding: chunked\r\n\r\n-1\r\nx\r\n0\r\n\r\n",
    b"POST /v1/acts HTTP/1.1\r\n"
    + HEAD
    + b"Transfer-Encoding: chunked\r\n\r\nfffffffffffffffff\r\nx",
    b"POST /v1/acts HTTP/1.1\r\n" + HEAD + b"Transfer-Encoding: chunked\r\n\r\n1;" + b"x" * 70_000,
    b"POST /v1/acts HTTP/1.1\r\n" + HEAD + b"Expect: 100-continue\r\nContent-Length: 9\r\n\r\n",
    b"PRI * HTTP/2.0\r\n\r\nSM\r\n\r\n" + b"\0\0\xff\x04\0\0\0\0\0" * 100,
    b"GET http://elsewhere/v1/status HTTP/1.1\r\nHost: elsewhere\r\n\r\n",
    b"CONNECT 127.0.0.1:22 HTTP/1.1\r\nHost: 127.0.0.1:22\r\n\r\n",
    b"GET /healthz HTTP/1.0\r\nConnection: keep-alive\r\n\r\n" * 50,
    b"GET /../../etc/passwd HTTP/1.1\r\nHost: x\r\n\r\n",
    b"\r\n" * 5_000,
    b"GET /healthz HTTP/1.1\nHost: x\n\n",
    b"GET /healthz HTTP/1.1\r\n Host: x\r\n\r\n",
)


def tricks(its: Client) -> None:
    """Two lengths, odd chunks, and other forms that proxies and servers read in two ways."""
    with its.tls() as door:
        door.sendall(its.dice.choice(TRICKS))
        if its.dice.random() < 0.5:
            door.sendall(request(b"GET", b"/v1/status", b"x" * 20))
        while door.recv(65_536):
            pass


def tls_garbage(its: Client) -> None:
    """What isn't TLS, at once or behind a good beginning."""
    if its.dice.random() < 0.5:
        with its.tcp() as door:
            door.sendall(its.dice.choice((its.noise(4096), b"GET / HTTP/1.1\r\n\r\n", b"\x16\x03")))
            door.recv(4096)
        return
    with its.tls() as tls, socket.socket(fileno=os.dup(tls.fileno())) as door:
        door.settimeout(LONG)
        door.sendall(b"\x17\x03\x03\x40\x00" + its.noise(20_000))
        door.recv(4096)


def flood(its: Client) -> None:
    """Many connections at once, more than there are places, of which some are reset later."""
    doors = []
    for _ in range(60):
        with suppress(OSError):
            doors.append(its.tcp())
    time.sleep(its.dice.uniform(0, 5))
    for door in doors:
        if its.dice.random() < 0.5:
            door.setsockopt(socket.SOL_SOCKET, socket.SO_LINGER, NOWAIT)
        door.close()


def noise(its: Client) -> None:
    """Requests and lines with some bytes changed, cut off somewhere."""
    with its.door() as door:
        for _ in range(20):
            text = bytearray(
                request(b"POST", b"/v1/acts", its.reader, ACT) + b"\n" + ACT[:-9] + b"\n"
            )
            for _ in range(its.dice.randrange(5)):
                text[its.dice.randrange(len(text))] = its.dice.randrange(256)
            door.sendall(text[: its.dice.randrange(len(text))] + b"\n")
        door.settimeout(1)
        while door.recv(65_536):
            pass


KINDS: tuple[Callable[[Client], None], ...] = (
    slow,
    idle,
    half_open,
    huge,
    wrong_token,
    never_reads,
    never_reads_lines,
    tricks,
    tls_garbage,
    flood,
    noise,
)


def main() -> None:
    counts: collections.Counter[str] = collections.Counter()
    is_over = threading.Event()
    signal.signal(signal.SIGTERM, lambda *_: is_over.set())

    def visit(number: int) -> None:
        its, kind = Client(number, sys.argv[2:]), KINDS[number % len(KINDS)]
        while not is_over.is_set():
            with suppress(OSError):  # It may be turned away at any moment.
                kind(its)
            counts[kind.__name__] += 1
            time.sleep(its.dice.uniform(0.1, 1))

    print("ready", flush=True)
    for number in range(int(sys.argv[1])):
        threading.Thread(target=visit, args=(number,), daemon=True).start()
    is_over.wait()
    print(json.dumps(counts), flush=True)
    os._exit(0)


if __name__ == "__main__":
    main()
