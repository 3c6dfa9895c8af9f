"""A store of three small servers, as hooks: each record goes to two of them, and is acknowledged by
both.

    store.py HOOK [N] ..

A server that is asked for a record by `check` asks the others where it lacks it, as one of them has
it.

STORE_FAULT in the environment plants a fault:

    unsynced    a record is acknowledged up to half a second before it is written
    lazy        a record is given to the kernel, and never synced: only a power cut loses it
    full        a record is acknowledged though the disk is full, and doesn't have it
    forgetful   an emptied server is said to be whole at once, and nothing is copied to it
    shy         a server takes its time, and tells of a record only where it is asked for it again
    late        a server tells of a record half a second after it has it
    hole        server 1 tells that each seventh record isn't there
    corrupt     each ninth value is told backwards
    invented    `read` tells of a record that nobody wrote
    partial     `read` leaves out each fifth record
    denied      `check` tells of no record that it asks server 2 for
    elsewhere   `check` asks the server after the one that it was to ask
    idle        `join` copies nothing
    careless    `whole` copies nothing, and says yes
    quorum      `read` wants an answer of two servers
    encoded     the log doesn't have the records as they were written
    crash       server 0 ends by itself, two seconds after each start
"""
import errno
import os
import random
import socket
import socketserver
import sys
import threading
import time
from pathlib import Path

FAULT = os.environ.get("STORE_FAULT", "")
COUNT, PORT = int(os.environ["FY_COUNT"]), int(os.environ["FY_PORT"])
JOINS = "STORE_JOINS" in os.environ  # `join` copies, so `whole` only looks
HOSTS = os.environ["FY_HOSTS"].split()
NET = os.environ.get("STORE_NET", "")  # a network in which each server has an address of its own
WAITS = float(os.environ.get("STORE_WAITS", 1))  # seconds until a server is given up
# Seconds that a write takes at least: with too many records hooks take too long.
PAUSE = float(os.environ.get("STORE_PAUSE", 0.004))
Records = dict[str, str]


def address(number: int) -> tuple[str, int]:
    return f"{NET}{number + 1}" if NET else HOSTS[number], PORT + 4 * number


class Server(socketserver.ThreadingTCPServer):
    """Answers `put KEY VALUE ..` with `ok`, once all is on the disk, and `all` with its records and
    a dot."""

    allow_reuse_address = daemon_threads = True

    def __init__(self, number: int) -> None:
        path = Path(os.environ["FY_DIR"], str(number), "log")
        self.lock, self.number = threading.Lock(), number
        self.records = read_log(path)
        self.came: dict[str, float] = {}  # when each record came
        self.asked: set[str] = set()  # the records that it was asked for
        self.log = path.open("a", 1 << 20)
        # What a power cut tore was never acknowledged; it may not be a part of what comes.
        self.log.truncate(sum(len(line) + 1 for line in lines_of(path)))
        super().__init__(address(number), Handler)
        if FAULT == "unsynced":
            threading.Thread(target=self.sync_late, daemon=True).start()
        if FAULT == "crash" and number == 0:
            threading.Timer(2, self.crash).start()

    def crash(self) -> None:
        with self.lock:  # no record may be told of behind it
            print("assertion failed: the sky is up", file=sys.stderr, flush=True)
            os._exit(3)

    def own(self, key: str) -> str | None:
        """What it tells of a record that it has itself."""
        value = self.records.get(key)
        if FAULT == "late" and time.monotonic() - self.came.get(key, 0) < 0.5:
            return None
        return value[::-1] if value and FAULT == "corrupt" and not int(key[2:]) % 9 else value

    def get(self, key: str) -> str:
        """What it tells of a record. That there is none it knows if all were asked: one may be
        empty."""
        if FAULT == "hole" and self.number == 1 and not int(key[2:]) % 7:
            return "none"
        if FAULT == "shy":
            time.sleep(0.2)
            if key not in self.asked:
                self.asked.add(key)
                return "none"
        told = [self.own(key)]
        for number in {0, 1, 2} - {self.number}:
            if told[-1] is None:
                try:
                    told.append(Link(number).word(f"own {key}"))
                except OSError:
                    pass
        return next(filter(None, told), "none" if len(told) == COUNT else "?")

    def put(self, records: Records) -> None:
        with self.lock:
            print("put", time.time(), flush=True)
            self.records |= records
            self.came |= dict.fromkeys(records, time.monotonic())
            self.log.writelines(stored(f"{key} {value}\n") for key, value in records.items())
            if FAULT != "unsynced":
                self.sync()

    def sync(self) -> None:
        try:
            self.log.flush()
            if FAULT != "lazy":
                os.fdatasync(self.log.fileno())
        except OSError as fault:
            if FAULT != "full" or fault.errno != errno.ENOSPC:
                raise

    def sync_late(self) -> None:
        while True:
            time.sleep(0.5)
            with self.lock:
                self.sync()


class Handler(socketserver.StreamRequestHandler):
    server: Server

    def handle(self) -> None:
        for line in self.rfile:
            words = line.decode().split()
            if words[0] == "put":
                self.server.put(dict(zip(words[1::2], words[2::2])))
                self.wfile.write(b"ok\n")
            elif words[0] in ("own", "get"):
                told = (
                    self.server.get(words[1])
                    if words[0] == "get"
                    else self.server.own(words[1]) or "none"
                )
                self.wfile.write(f"{told}\n.\n".encode())
            else:
                with self.server.lock:
                    told = "".join(f"{key} {value}\n" for key, value in self.server.records.items())
                self.wfile.write(told.encode() + b".\n")


def lines_of(path: Path) -> list[str]:
    """Its lines up to the first that is torn: a sector that a power cut lost is zeros."""
    text = path.read_text() if path.exists() else ""
    return text.partition("\0")[0].split("\n")[:-1]


def read_log(path: Path) -> Records:
    return dict(stored(line).split() for line in lines_of(path))  # type: ignore[misc]


def stored(line: str) -> str:
    """A line as it stands in the log, and back."""
    return line.swapcase() if FAULT == "encoded" else line


class Link:
    """A connection to a server, made when it is wanted."""

    def __init__(self, number: int) -> None:
        self.number = number
        self.link: socket.socket | None = None

    def ask(self, line: str) -> list[str]:
        """The lines of the answer; OSError where there is none."""
        try:
            if self.link is None:
                self.link = socket.create_connection(address(self.number), WAITS)
            self.link.sendall(line.encode() + b"\n")
            told = b""
            while not told.endswith((b"ok\n", b".\n")):
                if not (more := self.link.recv(1 << 16)):
                    raise ConnectionError("it ended")
                told += more
            return told.decode().splitlines()
        except OSError:
            if self.link:
                self.link.close()
            self.link = None
            raise

    def word(self, line: str) -> str | None:
        """The one word of an answer, if it isn't that there is none."""
        told = self.ask(line)[0]
        return None if told == "none" else told

    def records(self) -> Records:
        told = (line.split() for line in self.ask("all")[:-1])
        return {it[0]: it[1] for it in told if len(it) == 2}


def able() -> list[int]:
    return [int(number) for number in os.environ["FY_ABLE"].split()]


def write() -> None:
    links = [Link(number) for number in range(COUNT)]
    for line in sys.stdin:
        key, acknowledged = line.split()[0], 0
        for link in random.sample(links, COUNT):
            try:
                acknowledged += acknowledged < 2 and link.ask(f"put {line.strip()}") == ["ok"]
            except OSError:
                pass
        time.sleep(PAUSE)
        print(f"ok {int(key[2:])}" if acknowledged == 2 else "no", flush=True)


def everything() -> Records:
    found: Records = {}
    for number in able():
        found |= Link(number).records()
    return found


def whole(number: int) -> None:
    """Copies to it what it lacks of all that is left."""
    link = Link(number)
    have = link.records()
    lacks = {key: value for key, value in everything().items() if key not in have}
    if lacks and JOINS:
        sys.exit(0 if FAULT == "careless" else 1)
    if lacks and FAULT != "forgetful":
        link.ask(" ".join(["put", *(f"{key} {value}" for key, value in lacks.items())]))


def join(number: int) -> None:
    """Copies all that is left into an empty folder."""
    if FAULT not in ("idle", "careless"):
        lines = (f"{key} {value}\n" for key, value in everything().items())
        Path(os.environ["FY_DIR"], str(number), "log").write_text("".join(lines))


def check() -> None:
    """Tells what a server tells of a record."""
    links = [Link(number) for number in range(COUNT)]
    for line in sys.stdin:
        number, key = line.split()
        asked = (int(number) + (FAULT == "elsewhere")) % COUNT
        try:
            told = links[asked].ask(f"get {key}")[0]
        except OSError:
            told = "?"
        print("none" if FAULT == "denied" and number == "2" else told, flush=True)


def read() -> None:
    """Prints all records, of all servers that aren't destroyed."""
    if FAULT == "quorum" and len(able()) < 2:
        sys.exit(1)
    found = everything()
    for key, value in found.items():
        is_record, number = key.startswith("r/"), int(key[2:]) if key.startswith("r/") else 1
        if FAULT == "partial" and is_record and not number % 5:
            continue
        print(key, value[::-1] if FAULT == "corrupt" and not number % 9 else value)
    if FAULT == "invented":
        print("r/999999999", "abc")


def main() -> None:
    match sys.argv[1:]:
        case ["hooks"]:
            print("start ready whole write read")
        case ["start", number]:
            Server(int(number)).serve_forever()
        case ["ready", number]:
            Link(int(number)).ask("put ready yes")
        case ["whole", number, _]:
            whole(int(number))
        case ["write"]:
            write()
        case ["join", number]:
            join(int(number))
        case ["check"]:
            check()
        case ["salvage", _]:
            found = read_log(Path(os.environ["FY_COPY"], "log"))
            sys.stdout.writelines(f"{key} {value}\n" for key, value in found.items())
        case ["read"]:
            read()
        case _:
            sys.exit(64)


if __name__ == "__main__":
    try:
        main()
    except OSError as fault:
        if sys.argv[1] == "start":
            print(fault, file=sys.stderr)
        sys.exit(1)
