"""What the tests of faultyard-serve share: a server that is started, asked and killed."""

from __future__ import annotations

import atexit
import functools
import http.client
import json
import os
import random
import shutil
import signal
import socket
import subprocess
import tempfile
import time
import unittest
from contextlib import suppress
from pathlib import Path
from typing import Any

ROOT = Path(__file__).resolve().parents[2]
SOURCE = ROOT / "tools/serve"
PROGRAM = os.environ["FAULTYARD"]
LIBRARY: Path | None = None
KILLS = CUTS = REQUESTS = 0
RACE = False
WITHOUT = "SKIPPED faultyard-serve: no library was given (make lib proves and builds it)"
# Seconds after which something hangs. Nothing else takes so long, however busy the machine is.
PATIENCE = 900.0
HEADER = b'{"audit":2}\n'
GO = dict(GOENV="off", GOPROXY="off", GOFLAGS="-mod=readonly -buildvcs=false")


@functools.cache
def workshop() -> Path:
    """A folder for what Go makes, which goes when the tests end."""
    folder = Path(tempfile.mkdtemp(prefix="tests-serve-"))
    atexit.register(shutil.rmtree, folder, True)
    return folder


@functools.cache
def go_environment() -> dict[str, str]:
    """What Go is called with. It keeps what it compiled where `make merged` has it kept too."""
    own = {"GOPATH": str(workshop() / "path"), **GO}
    if not {"GOCACHE", "XDG_CACHE_HOME", "HOME"} & set(os.environ):
        own["GOCACHE"] = str(workshop() / "cache")
    return {**os.environ, **own}


def run(*words: object, **more: Any) -> subprocess.CompletedProcess[str]:
    told = dict(stdout=subprocess.PIPE, stderr=subprocess.PIPE, text=True)
    return subprocess.run([str(it) for it in words], **{**told, **more})


@functools.cache
def built() -> Path:
    """The server, built with the library that is given."""
    if LIBRARY is None:
        raise unittest.SkipTest(WITHOUT)
    binary = workshop() / "faultyard-serve"
    flags = ["-race"] if RACE else []
    ran = run(SOURCE / "build", LIBRARY, binary, *flags, env=go_environment())
    if ran.returncode:
        raise AssertionError(ran.stdout + ran.stderr)
    return binary


def cluster(limit: int = 1_000_000, processes: int = 6) -> str:
    """A cluster file: two copies in different zones, two processes to a zone, four actors."""
    row = '{{processid="p{0}",machineid="m{0}",zoneid="z{1}"}},'
    rows = "".join(row.format(process, process // 2) for process in range(processes))
    kinds = '["RebootProcess","Reboot","RebootAndDelete","KillInstantly","Clog"]'
    fault = f'{{role="fault",grants=[{{kinds={kinds}}}]}}'
    return (
        f'journal_limit = {limit}\npolicies = ["Across(2,zoneid,One())"]\nprocess = [{rows}]\n'
        f'actor = [{{role="storage"}},{fault},{fault},{{role="operator"}}]\n'
    )


def kill(process: int, kind: str = "Reboot", by: int = 1, **more: str) -> bytes:
    """The line of an order."""
    order = {"floor": "RebootProcess", "key": "processid", "kind": kind, "tear": 0}
    return line({"by": by, "act": {"kill": {**order, "value": f"p{process}"}}, **more})


def up(process: int, **more: str) -> bytes:
    return line({"by": 0, "act": {"up": {"process": process}}, **more})


def line(value: object) -> bytes:
    return json.dumps(value, separators=(",", ":")).encode() + b"\n"


class Server:
    """A server in a folder, which is started, ended and killed."""

    def __init__(self, folder: Path, *words: str, config: str | None = None, http: bool = True):
        self.config, self.file = folder / "cluster.toml", folder / "audit"
        self.socket, self.said = folder / "audit.socket", folder / "said"
        self.config.write_text(config or cluster())
        self.words = [str(built()), str(self.config), "--audit", str(self.file), *words]
        if http:
            self.words += ["--listen", f"127.0.0.1:{free_port()}"]
        self.limit: Any = None
        self.process: subprocess.Popen[bytes] | None = None

    def start(self) -> Server:
        """Starts it, and waits until it says that everybody may ask."""
        with open(self.said, "ab") as said:
            before = said.tell()
            self.process = subprocess.Popen(self.words, stderr=said, preexec_fn=self.limit)
        while "entries; socket" not in self.said.read_text()[before:]:
            if self.process.poll() is not None:
                raise AssertionError(f"it isn't ready: {self.said.read_text()}")
            time.sleep(0.01)
        self.address = self.said.read_text().rpartition("; http")[2].partition("//")[2].strip("/\n")
        return self

    def kill(self) -> None:
        assert self.process
        self.process.send_signal(signal.SIGKILL)
        self.process.wait()

    def stop(self) -> None:
        """Kills it if it still runs."""
        if self.process and self.process.poll() is None:
            self.kill()

    def end(self) -> int:
        """Ends it by SIGTERM, and answers its status."""
        assert self.process
        if self.process.poll() is None:
            self.process.terminate()
        return self.process.wait(PATIENCE)

    def talk(self) -> Talk:
        return Talk(self.socket)

    def ask(
        self, method: str, path: str, body: bytes | None = None, **headers: str
    ) -> tuple[int, bytes]:
        """The status and the text of an answer by HTTP."""
        connection = http.client.HTTPConnection(self.address, timeout=PATIENCE)
        try:
            named = {name.replace("_", "-"): value for name, value in headers.items()}
            if body is not None:
                named.setdefault("Content-Type", "application/json")
            connection.request(method, path, body, named)
            answer = connection.getresponse()
            return answer.status, answer.read()
        finally:
            connection.close()

    def check(self) -> str:
        """What `faultyard check` says of its audit."""
        return checked(self.config, self.file)[1]

    def lines(self) -> list[bytes]:
        """The lines of its audit behind the header."""
        return self.file.read_bytes().splitlines(keepends=True)[1:]


class Talk:
    """A client of the socket."""

    def __init__(self, path: Path):
        self.socket = socket.socket(socket.AF_UNIX)
        self.socket.settimeout(PATIENCE)
        self.socket.connect(str(path))
        self.file = self.socket.makefile("rb")
        header = self.file.readline()
        if not header:
            raise ConnectionResetError("the server is gone")
        assert header == HEADER

    def ask(self, text: bytes) -> bytes:
        """The answer to a line; nothing where the server is gone."""
        self.socket.sendall(text)
        return self.file.readline()

    def close(self) -> None:
        self.file.close()
        self.socket.close()


def checked(config: Path, file: Path) -> tuple[int, str]:
    """The status of `faultyard check`, and what it says."""
    with open(file, "rb") as audit:
        ran = run(PROGRAM, "check", config, stdin=audit)
    return ran.returncode, (ran.stdout + ran.stderr).strip()


@functools.cache
def certifier() -> Path:
    """The program of Go's sources that makes certificates."""
    source = run("go", "env", "GOROOT").stdout.strip() + "/src/crypto/tls/generate_cert.go"
    program = workshop() / "generate_cert"
    made = run("go", "build", "-o", program, source, env=go_environment())
    if made.returncode:
        raise AssertionError(made.stderr)
    return program


def certificate(folder: Path) -> tuple[str, str]:
    """The files of a certificate of 127.0.0.1 that nobody has signed, and of its key."""
    words = "-host", "127.0.0.1", "-ecdsa-curve", "P256"
    run(certifier(), *words, cwd=folder, check=True)
    return str(folder / "cert.pem"), str(folder / "key.pem")


def free_port() -> int:
    """A port that nobody has, and that the system gives to nobody who connects to another."""
    given = int(Path("/proc/sys/net/ipv4/ip_local_port_range").read_text().split()[0])
    while True:
        port = random.randrange(given // 2, given)
        with socket.socket() as found, suppress(OSError):
            found.bind(("", port))
            return port


class Case(unittest.TestCase):
    """A test with a folder of its own, in which servers end with it."""

    def setUp(self) -> None:
        self.folder = Path(tempfile.mkdtemp(prefix="tests-serve-"))
        self.addCleanup(shutil.rmtree, self.folder, True)
        self.maxDiff = 2000

    def server(self, *words: str, **more: Any) -> Server:
        server = Server(self.folder, *words, **more)
        self.addCleanup(server.stop)
        return server

    def refuse(self, *words: object, limit: Any = None) -> tuple[int, str]:
        """The status of a server that can't begin, and what it said."""
        ran = run(built(), *words, timeout=PATIENCE, preexec_fn=limit)
        self.assertEqual(ran.stdout, "")
        return ran.returncode, ran.stderr
