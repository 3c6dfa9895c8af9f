"""The server on a disk whose power is cut: tools/lossy, which keeps what was synced and nothing
else."""

from __future__ import annotations

import functools
import json
import os
import random
import re
import signal
import subprocess
import threading
import time
from contextlib import suppress
from pathlib import Path
from typing import Iterator

from askers import Clients
from common_serve import CUTS, PATIENCE, ROOT, Case, Server, checked, free_port, kill, run, up
from common_serve import workshop

NEEDED = "cc", "pkg-config", "libfuse3-dev", "fusermount3", "/dev/fuse"
STARTS = 20
ANSWERS = 20  # before the power is cut


@functools.cache
def lossy() -> Path:
    """The program of the disk, built of its sources."""
    flags = run("pkg-config", "--cflags", "--libs", "fuse3").stdout.split()
    sources = sorted((ROOT / "tools/lossy").glob("*.c"))
    program = workshop() / "faultyard-lossy"
    words = [os.environ.get("CC", "cc"), "-std=gnu11", "-D_GNU_SOURCE", "-O2", *sources]
    made = run(*words, "-o", program, *flags)
    if made.returncode:
        raise AssertionError(made.stderr)
    return program


def is_over(process: int) -> bool:
    """Whether a process has ended, but for what waits for its disk."""
    states = ""
    for stat in Path(f"/proc/{process}/task").glob("*/stat"):
        with suppress(OSError):
            states += stat.read_text().rpartition(") ")[2][0]
    return not set(states) - set("DZX")


class Disk:
    """A disk whose power can be cut."""

    def __init__(self, folder: Path, *words: str):
        self.durable, self.mount, self.words = folder / "durable", folder / "mount", words
        self.durable.mkdir()
        self.mount.mkdir()

    def start(self) -> None:
        words: list[object] = [lossy(), "mount", "--foreground", "--writeback", "0", *self.words]
        words += [self.durable, self.mount]
        self.process = subprocess.Popen([str(it) for it in words])
        while not self.mount.is_mount():
            if self.process.poll() is not None:
                raise AssertionError("the disk ended")
            time.sleep(0.01)

    def cut(self) -> None:
        """What isn't synced is gone, and the mount with it."""
        self.process.kill()
        self.process.wait()
        run("fusermount3", "-uz", "--", self.mount)


class Client(threading.Thread):
    """Asks for acts with keys, until the server has gone."""

    def __init__(self, server: Server, number: int):
        super().__init__()
        self.talk, self.number, self.random = server.talk(), number, random.Random(number)
        self.answers: list[tuple[bytes, bytes]] = []

    def run(self) -> None:
        with suppress(OSError):
            for text in self.acts():
                answer = self.talk.ask(text)
                if not answer.endswith(b"\n"):
                    break
                self.answers.append((text, answer))
        self.talk.close()

    def acts(self) -> Iterator[bytes]:
        """Every other act has a key."""
        while True:
            key = f"{self.random.getrandbits(64):x}"
            process = self.random.randrange(6)
            yield kill(process, "RebootAndDelete", once=key)
            yield up(process)


class Power(Case):
    def begun(self, *words: str) -> tuple[Disk, Server]:
        lacks = run(ROOT / "tests/tools/needs", "the server on a disk that forgets", *NEEDED)
        if lacks.returncode == 1:
            self.skipTest(lacks.stdout.strip())
        lacks.check_returncode()
        disk = Disk(self.folder, *words)
        server = self.server("--socket", str(self.folder / "audit.socket"), http=False)
        server.file = disk.mount / "audit"
        server.words[3] = str(server.file)
        return disk, server

    def until_the_cut(self, disk: Disk, server: Server, seed: int) -> list[tuple[bytes, bytes]]:
        """The answers that clients got before the power was cut."""
        disk.start()
        self.addCleanup(run, "fusermount3", "-uz", "--", disk.mount)
        self.addCleanup(disk.process.kill)
        server.start()
        clients = [Client(server, 10 * seed + number) for number in range(4)]
        for client in clients:
            client.start()
        while sum(len(client.answers) for client in clients) < ANSWERS:
            time.sleep(0.01)
        time.sleep(random.Random(seed).uniform(0, 0.5))
        disk.cut()
        server.stop()
        for client in clients:
            client.join()
        return [it for client in clients for it in client.answers]

    def missing(self, disk: Disk, answers: list[tuple[bytes, bytes]]) -> int:
        """How many answers aren't what the disk has in their place."""
        durable = disk.durable / "audit"
        lines = durable.read_bytes().splitlines(keepends=True)[1:] if durable.exists() else []
        places = [json.loads(answer)["at"] for _, answer in answers]
        return sum(lines[at : at + 1] != [answer] for at, (_, answer) in zip(places, answers))

    def test_no_answer_is_lost_with_the_power(self) -> None:
        disk, server = self.begun()
        answers: list[tuple[bytes, bytes]] = []
        for seed in range(CUTS):
            answers += self.until_the_cut(disk, server, seed)
            self.assertEqual(self.missing(disk, answers), 0)
            copy = disk.durable / "audit.cluster"
            self.assertEqual(copy.read_bytes(), server.config.read_bytes())
        disk.start()
        server.start()
        talk = server.talk()
        for text, answer in answers:
            if b'"once"' in text:  # The key of an act outlives the power too.
                self.assertEqual(talk.ask(text), answer)
        self.assertEqual(server.end(), 0)
        count = len(server.lines())
        self.assertEqual(checked(server.config, server.file), (0, f"legal {count}"))
        disk.cut()

    def test_acts_with_keys_are_made_once_whenever_the_power_is_cut(self) -> None:
        disk, server = self.begun()
        server.words += ["--listen", f"127.0.0.1:{free_port()}"]
        self.addCleanup(run, "fusermount3", "-uz", "--", disk.mount)
        disk.start()
        clients, chance = Clients(server.start(), 8), random.Random(11)
        for _ in range(CUTS):
            clients.go_on(chance)
            disk.cut()
            server.stop()
            disk.start()
            server.start()
        clients.go_on(chance)
        clients.end(self, CUTS)
        disk.cut()

    def test_the_copy_of_the_cluster_file_is_whole_or_not_there(self) -> None:
        disk, server = self.begun()
        copy, there, pause = disk.durable / "audit.cluster", 0, 0.03
        for seed in range(STARTS):
            disk.start()
            self.addCleanup(run, "fusermount3", "-uz", "--", disk.mount)
            self.addCleanup(disk.process.kill)
            server.process = subprocess.Popen(server.words, stderr=subprocess.DEVNULL)
            time.sleep(random.Random(seed).uniform(0, 2 * pause))
            disk.cut()
            server.stop()
            pause *= 0.9 if copy.exists() else 1.5  # So about every other one comes so far.
            if copy.exists():
                there += 1
                self.assertEqual(copy.read_bytes(), server.config.read_bytes())
                copy.unlink()
        self.assertGreater(there, 0)
        disk.start()
        server.start()
        self.assertEqual(server.end(), 0)
        disk.cut()
        self.assertEqual(copy.read_bytes(), server.config.read_bytes())

    def test_it_can_be_ended_while_its_disk_hangs(self) -> None:
        disk, server = self.begun()
        server.words += ["--listen", f"127.0.0.1:{free_port()}"]
        disk.start()
        self.addCleanup(run, "fusermount3", "-uz", "--", disk.mount)
        self.addCleanup(disk.process.kill)
        talk = server.start().talk()
        first = talk.ask(kill(0))
        disk.process.send_signal(signal.SIGSTOP)
        talk.socket.sendall(kill(1))
        talk.socket.settimeout(0.5)
        with self.assertRaises(TimeoutError):
            talk.socket.recv(1)
        assert server.process
        server.process.terminate()
        while b"the server ends" not in server.ask("GET", "/healthz")[1]:
            time.sleep(0.01)
        server.process.terminate()
        while not is_over(server.process.pid):
            time.sleep(0.01)
        disk.process.send_signal(signal.SIGCONT)  # Else the system keeps what has ended.
        self.assertEqual(server.process.wait(PATIENCE), -signal.SIGTERM)
        server.start()
        self.assertEqual(server.lines()[0], first)
        self.assertEqual(server.end(), 0)
        disk.cut()

    def test_a_disk_that_hangs_is_told(self) -> None:
        disk, server = self.begun()
        server.words += ["--listen", f"127.0.0.1:{free_port()}"]
        disk.start()
        self.addCleanup(run, "fusermount3", "-uz", "--", disk.mount)
        self.addCleanup(disk.process.kill)
        server.start()
        talk = server.talk()
        self.waits_for(server, "/healthz", 200)
        disk.process.send_signal(signal.SIGSTOP)
        talk.socket.sendall(kill(0))
        for path in ("/healthz", "/v1/status"):
            text = self.waits_for(server, path, 503)
            self.assertRegex(text.decode(), "the disk has answered no sync for [0-9]+ seconds")
        status, text = server.ask("GET", "/metrics")
        age = re.search(r"^faultyard_sync_age_seconds (\S+)$", text.decode(), re.M)
        self.assertTrue(age and float(age[1]) > 4)
        disk.process.send_signal(signal.SIGCONT)
        self.assertTrue(talk.file.readline())
        self.waits_for(server, "/healthz", 200)
        self.assertEqual(server.end(), 0)
        disk.cut()

    def waits_for(self, server: Server, path: str, status: int) -> bytes:
        """Asks until the status is that: the last sync may be young, or slow."""
        while (answer := server.ask("GET", path))[0] != status:
            time.sleep(0.1)
        return answer[1]

    def test_a_disk_that_lies_loses_answers(self) -> None:
        """So the test above can fail."""
        disk, server = self.begun("--deaf")
        answers = self.until_the_cut(disk, server, 0)
        self.assertGreater(self.missing(disk, answers), 0)
