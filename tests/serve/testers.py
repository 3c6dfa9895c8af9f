"""Good clients of faultyard-serve, which keep what they were answered, and a server to ask."""

from __future__ import annotations

import json
import random
import subprocess
import sys
import threading
import time
from functools import cache
from pathlib import Path
from typing import Mapping, Optional, Protocol, Sequence

from faultyard import ClusterFile, Guard, Key, Kind, Role, check

# Seconds between two acts of a tester: members need time to come back.
PAUSES = {Role.FAULT: (5.0, 10.0), Role.OPERATOR: (0.2, 1.0)}
KINDS = ["RebootProcess", "Reboot", "Reboot", "RebootAndDelete"]


class Tester(threading.Thread):
    """Asks for acts as one actor, and keeps what it was answered."""

    def __init__(
        self,
        config: Path,
        door: str,
        by: int,
        role: Role,
        is_over: threading.Event,
        tokens: Optional[Mapping[int, str]] = None,
    ):
        super().__init__()
        self.config, self.door, self.by, self.role, self.is_over = config, door, by, role, is_over
        self.tokens, self.pauses = tokens, PAUSES[role]
        self.entries: list[dict[str, object]] = []
        self.fault: BaseException | None = None

    def run(self) -> None:
        try:
            with Guard(self.config, server=self.door, tokens=self.tokens) as guard:
                dice, count = random.Random(self.by), guard.process_count()
                while not self.is_over.wait(dice.uniform(*self.pauses)):
                    self.ask(guard, self.act(dice, count))
        except BaseException as fault:
            self.fault = fault

    def ask(self, guard: Guard, act: dict[str, dict[str, object]]) -> None:
        self.entries.append(json.loads(guard.act(self.by, act).line))

    def act(self, dice: random.Random, count: int) -> dict[str, dict[str, object]]:
        process = dice.randrange(count)
        if self.role is Role.OPERATOR:
            name = dice.choice(("protect", "unprotect"))
            return {name: {"process": process, "kinds": [Kind.REBOOT_AND_DELETE.value]}}
        return self.kill(process, dice.choice(KINDS), "RebootProcess")

    def kill(self, process: int, kind: str, floor: str) -> dict[str, dict[str, object]]:
        name = places_of(self.config)[process][Key.PROCESS]
        order = {"key": "processid", "value": name, "kind": kind, "floor": floor, "tear": 0}
        return {"kill": order}


@cache
def places_of(config: Path) -> tuple[Mapping[Key, str], ...]:
    """The places of the processes of a cluster file."""
    return ClusterFile.read(config).places


def configured(source: Path, folder: Path) -> tuple[Path, int, int]:
    """The cluster file with an actor more for each tester, and their numbers."""
    text, count = source.read_text(), len(ClusterFile.read(source).actors)
    head, _, tail = text.rpartition("]")
    kinds = '["RebootProcess", "Reboot", "RebootAndDelete"]'
    more = f'  {{role = "fault", grants = [{{kinds = {kinds}}}]}},\n  {{role = "operator"}},\n'
    path = folder / "cluster.toml"
    path.write_text(f"{head}{more}]{tail}")
    return path, count, count + 1


def start(words: list[str], said: Path) -> subprocess.Popen[bytes]:
    """A server that is ready, in a session of its own."""
    with said.open("ab") as file:
        before = file.tell()
        server = subprocess.Popen(words, stderr=file, start_new_session=True)
    while b"entries; socket" not in said.read_bytes()[before:]:
        if server.poll() is not None:
            sys.exit(f"{sys.argv[0]}: {said.read_text()}")
        time.sleep(0.01)
    return server


class Answered(Protocol):
    """A tester that has ended."""

    by: int
    entries: list[dict[str, object]]

    @property
    def fault(self) -> object:
        ...


def is_right(config: Path, file: Path, testers: Sequence[Answered], status: int) -> bool:
    """Prints what the audit comes to, and says whether each answer stands in it once, it is legal,
    and the nemesis found nothing lost."""
    audit = file.read_text()
    entries = [json.loads(line) for line in audit.splitlines()[1:]]
    legal, wrong = check(config, audit), 0
    for tester in testers:
        own = [it for it in entries if it["by"] == tester.by]
        wrong += own != tester.entries
        counts = f"{len(tester.entries)} answers, {len(own)} entries"
        print(f"actor {tester.by}: {counts}", tester.fault or "")
        wrong += tester.fault is not None
    print(f"the audit is legal, {legal} entries; the nemesis ended with status {status}")
    return not wrong and not status and legal == len(entries)
