"""What happened in a test, a line each in the order in which it did: what each client asked of the
store and was answered, as Jepsen has it; what the guard answered; and what the disks told.

    history = History(folder / "history.jsonl", ledger)
    client = history.client()
    with history.write(client, key, value) as operation:
        ...  # ask the store, which may raise
        operation.ok(value)
    history.written()
    with history.reading() as reading:
        history.read_all(reading, store.everything().items())
    history.close()

`faultyard.verdicts.judge` has the program judge it. docs/FORMATS.md has the form of the lines.
"""

from __future__ import annotations

import itertools
import json
import os
from collections import Counter
from contextlib import contextmanager
from dataclasses import dataclass, field
from pathlib import Path
from typing import AbstractSet, Any, Callable, Dict, Iterable, Iterator, List, Mapping, Optional
from typing import Tuple

from .ledger import Ledger
from .programs import StrPath

PREFIX = "r/"
"""Of the keys that the nemesis writes; the store may have others of its own."""
ENDED = "ended"
"""The error of what was asked by a client that was killed."""


@dataclass
class Operation:
    """One write or read. As long as nothing is known of its end it may have been done: info."""

    process: int
    f: str
    key: str
    value: Optional[str]
    began: int
    ended: int = -1
    type: str = "info"
    error: Optional[str] = None
    node: Optional[int] = None
    is_whole: bool = True
    """Whether the process that was asked counted as up and whole."""
    times: int = 1
    """How often the answer told the key."""

    def ok(self, value: Optional[str]) -> None:
        """It was done; a read has found this, or nothing."""
        self.type, self.value, self.error = "ok", value, None

    def fail(self, error: str) -> None:
        """It was not done."""
        self.type, self.error = "fail", error

    def unknown(self, error: str) -> None:
        """It may or may not have been done."""
        self.type, self.error = "info", error


class Client:
    """One that asks the store, one thing after the other.

    After an end that isn't known its number is another one, since the old one may be at work.
    """

    def __init__(self, numbers: Iterator[int]) -> None:
        self._numbers = numbers
        self.process = next(numbers)

    def renew(self) -> None:
        """Becomes another one."""
        self.process = next(self._numbers)


@dataclass
class Reading:
    """A read of all keys at once, as by so many clients, which has begun."""

    began: int
    lines: List[Dict[str, Any]] = field(default_factory=list)
    """Those that came meanwhile."""
    reads: List[Operation] = field(default_factory=list)


class History:
    """Writes and reads in the order in which they began and ended, also as lines of a file.

    A line is in the file before what it tells goes on, so a test that is killed leaves a history.
    `goes_on`: the file has one, which is gone on with; what was being asked then may be done.
    """

    def __init__(self, path: StrPath, ledger: Ledger, *, goes_on: bool = False) -> None:
        self.writes: Dict[str, List[Operation]] = {}
        """By key."""
        self.reads: List[Operation] = []
        """Those that were answered."""
        self.is_own: Callable[[str], bool] = lambda key: key.startswith(PREFIX)
        """Whether nobody but the test writes a key. Of others only what it wrote is noted."""
        self.is_written = False
        self.last_entry = -1
        self._ledger = ledger
        self._reading: Optional[Reading] = None
        lines = [json.loads(line) for line in whole_lines(path)] if goes_on else []
        self._index, self._clients = itertools.count(len(lines)), itertools.count()
        self._file = open(path, "a" if goes_on else "w", encoding="utf-8", buffering=1)
        self.last_ns = lines[-1]["time"] if lines else 0
        """When the last line was written."""
        self._recall(lines)

    def client(self) -> Client:
        """A new one."""
        return Client(self._clients)

    def flush(self) -> None:
        """Has the file hold all that happened so far."""
        self._file.flush()

    def close(self) -> None:
        """Nothing happens any more."""
        self._file.close()

    # What clients ask.

    @contextmanager
    def write(self, client: Client, key: str, value: str) -> Iterator[Operation]:
        """A write, which has ended when the block ends."""
        operation = Operation(client.process, "write", key, value, self._ledger.now_ns())
        self.writes.setdefault(key, []).append(operation)
        with self._told(operation):
            yield operation
        if operation.type == "info":
            client.renew()

    @contextmanager
    def read(
        self, client: Client, key: str, node: Optional[int], is_whole: bool = True
    ) -> Iterator[Operation]:
        """A read that a process is asked for, or the store, which has failed unless the block says
        otherwise."""
        now = self._ledger.now_ns()
        operation = Operation(client.process, "read", key, None, now, node=node, is_whole=is_whole)
        operation.fail("?")
        with self._told(operation):
            yield operation
        if operation.type == "ok":
            self.reads.append(operation)

    @contextmanager
    def reading(self) -> Iterator[Reading]:
        """A read of all keys, of which `read_all` is told, unless there is no answer.

        Which keys it reads is only known then. So what happens meanwhile waits for its beginning.
        """
        reading = self._reading = Reading(self._ledger.now_ns())
        try:
            yield reading
        finally:
            self._reading = None
            for read in reading.reads:
                self._tell("invoke", reading.began, read)
            for line in reading.lines:
                self._write(line)
            for read in reading.reads:
                self._tell(read.type, read.ended, read)
            self.reads += reading.reads

    def read_all(self, reading: Reading, found: Iterable[Tuple[str, str]]) -> None:
        """A read of all keys is answered now: each value of a key is one read, which says how often
        the answer told the key."""
        ended, values = self._ledger.now_ns(), dict[str, Counter[Optional[str]]]()
        for key in self.writes:
            values[key] = Counter()
        for key, value in found:
            if self._is_ours(key):
                values.setdefault(key, Counter())[value] += 1
        for key, counts in values.items():
            times = sum(counts.values()) or 1
            for it in counts or (None,):
                client, began = next(self._clients), reading.began
                read = Operation(client, "read", key, it, began, ended, "ok", times=times)
                reading.reads.append(read)

    # What else happens.

    def answered(self, entry: int, **does: Optional[str]) -> None:
        """The guard has answered an entry, and nothing was struck yet.

        `does` is what is done where that isn't what the answer says.
        """
        self.last_entry = entry
        self._line(f="entry", value=entry, **does)

    def written(self) -> None:
        """No write begins from here on, and the reads at the end follow."""
        self.is_written = True
        self._line(f="written")

    def salvaged(self, node: int, records: Iterable[Tuple[str, str]], is_all: bool) -> None:
        """What the folder of a process has; there may be more."""
        for key, value in dict.fromkeys(records):
            if self._is_ours(key):
                self._line(f="salvage", type="told", node=node, value=[key, value])
        self._line(f="salvage", type="all" if is_all else "some", node=node)

    def looked_through(self, node: int, keys: AbstractSet[str]) -> None:
        """The keys of which something stands in the files of a process, and of no other does."""
        for key in sorted(keys):
            self._line(f="plain", type="told", node=node, value=[key, None])
        self._line(f="plain", type="all", node=node)

    # Lines.

    def _is_ours(self, key: str) -> bool:
        return key in self.writes or self.is_own(key)

    @contextmanager
    def _told(self, operation: Operation) -> Iterator[None]:
        self._tell("invoke", operation.began, operation)
        try:
            yield
        finally:
            operation.ended = self._ledger.now_ns()
            self._tell(operation.type, operation.ended, operation)

    def _tell(self, kind: str, time: int, operation: Operation) -> None:
        """A line of an operation that begins, or has ended in some way."""
        is_read, is_known = operation.f == "read", kind == "ok" or operation.f == "write"
        value = [operation.key, operation.value if is_known else None]
        more: Dict[str, Any] = {"node": operation.node} if is_read else {}
        if operation.error and kind != "invoke":
            more["error"] = operation.error
        if operation.times > 1 and kind == "ok":
            more["times"] = operation.times
        process, f = operation.process, operation.f
        line = {"time": time, "process": process, "type": kind, "f": f, "value": value}
        self._write({**line, **more})

    def _line(self, **line: Any) -> None:
        """A line of something that happens now, and isn't an operation."""
        self._write({"time": self._ledger.now_ns(), **line})

    def _write(self, line: Mapping[str, Any]) -> None:
        if self._reading:
            self._reading.lines.append({**line})
        else:
            print(json.dumps({"index": next(self._index), **line}), file=self._file)

    # A history that is gone on with.

    def _recall(self, lines: Iterable[Mapping[str, Any]]) -> None:
        """Has in mind what the lines tell, and ends what was being asked."""
        asked: Dict[int, Operation] = {}
        last = -1
        for line in lines:
            if "process" in line:
                last = max(last, line["process"])
                self._recall_operation(line, asked)
            elif line["f"] == "entry":
                self.last_entry = line["value"]
            elif line["f"] == "written":
                self.is_written = True
        self._clients = itertools.count(last + 1)
        for operation in asked.values():
            operation.type, operation.error, operation.ended = "info", ENDED, self.last_ns
            self._tell("info", self.last_ns, operation)

    def _recall_operation(self, line: Mapping[str, Any], asked: Dict[int, Operation]) -> None:
        f, kind, (key, value), time = line["f"], line["type"], line["value"], line["time"]
        if kind == "invoke":
            it = Operation(line["process"], f, key, value, time, node=line.get("node"))
            asked[it.process] = it
            if f == "write":
                self.writes.setdefault(key, []).append(it)
            return
        it = asked.pop(line["process"])
        it.type, it.value, it.ended, it.error = kind, value, time, line.get("error")
        it.times = line.get("times", 1)
        if f == "read" and kind == "ok":
            self.reads.append(it)


def whole_lines(path: StrPath) -> List[bytes]:
    """The lines of a file, if it is there. A last one that is cut off is taken away."""
    file = Path(path)
    if not file.exists():
        return []
    text = file.read_bytes()
    whole = text[: text.rfind(b"\n") + 1]
    if len(whole) < len(text):
        os.truncate(file, len(whole))
    return whole.splitlines(keepends=True)
