"""The program that draws, the audits that several modules draw, and what a test of them is."""

from __future__ import annotations

import functools
import json
import subprocess
import tomllib
from collections.abc import Callable, Iterable
from dataclasses import dataclass
from pathlib import Path

from history import Config, Entry

ROOT = Path(__file__).resolve().parents[2]
EXAMPLES = ROOT / "examples"
SIX, REGIONS = EXAMPLES / "c6.toml", EXAMPLES / "regions.toml"
NOTHING = b'{"audit":2}\n'
# No command takes longer, even one built without proofs on a busy machine.
SECONDS = 600


@dataclass(frozen=True)
class Test:
    """A picture, or a refusal, by its name; what is wrong raises AssertionError."""

    name: str
    run: Callable[[], object]


@dataclass(frozen=True)
class Program:
    path: Path

    def ask(
        self, command: str, config: Path, given: bytes, *words: str | Path
    ) -> subprocess.CompletedProcess[bytes]:
        """What a command says of this input."""
        called = [str(it) for it in (self.path, command, config, *words)]
        return subprocess.run(called, input=given, capture_output=True, timeout=SECONDS)

    def drawn(self, config: Path, audit: bytes, status: int, *words: str | Path) -> str:
        """The picture of an audit."""
        ran = self.ask("show", config, audit, *words)
        assert (ran.returncode, ran.stderr) == (status, b""), (ran.returncode, ran.stderr)
        return ran.stdout.decode()

    def audit(self, config: Path, lines: Iterable[Entry]) -> bytes:
        """The audit of a script."""
        ran = self.ask("run", config, "".join(json.dumps(it) + "\n" for it in lines).encode())
        assert ran.returncode == 0, ran.stderr
        return ran.stdout


@functools.cache
def read_config(path: Path) -> Config:
    return tomllib.loads(path.read_text())


def entries_of(audit: bytes) -> list[Entry]:
    """What the lines of an audit behind the first say."""
    return [json.loads(line) for line in audit.splitlines()[1:]]


def bad_audit() -> bytes:
    """An audit of c6.toml whose second entry is bad."""
    audit = (EXAMPLES / "two-zones.audit").read_bytes()
    return audit.replace(b',"struck":"Reboot"', b',"struck":"KillInstantly"')


def bad_tick(at: int) -> bytes:
    """A line that is bad at each place: no time is 0 behind a tick."""
    entry = {"act": {"tick": {"ticks": 1}}, "at": at, "by": 0, "reply": {"time": 0}}
    return json.dumps(entry, separators=(",", ":")).encode() + b"\n"


def bad_at(audit: bytes, at: int) -> bytes:
    """The audit with a bad entry in place of one."""
    lines = audit.splitlines(keepends=True)
    lines[1 + at] = bad_tick(at)
    return b"".join(lines)


def tick(ticks: int, by: int = 0) -> Entry:
    return {"by": by, "act": {"tick": {"ticks": ticks}}}


def kill(by: int, key: str, value: str, kind: str, floor: str) -> Entry:
    order = {"key": key, "value": value, "kind": kind, "floor": floor, "tear": 0}
    return {"by": by, "act": {"kill": order}}


def clog(by: int, key: str, value: str, ticks: int) -> Entry:
    return {"by": by, "act": {"clog": {"key": key, "value": value, "ticks": ticks}}}


def long_script(acts: int, times: int) -> list[Entry]:
    """So many acts on the 27 processes of regions.toml: reboots, starts, clogs and ticks; orders
    that are lessened, are barred, or name nobody. Each stands so many times."""
    names = [it["processid"] for it in read_config(REGIONS)["process"]]
    wipe, gone, least = "RebootAndDelete", "KillInstantly", "RebootProcess"
    lines = []
    for place in range(acts):
        p = place * 7 % len(names)
        in_turn = (
            kill(1, "processid", names[p], "Reboot", least),
            {"by": 0, "act": {"up": {"process": p}}},
            clog(3, "zoneid", "north-z0", 1 + place % 5),
            tick(place % 3),
            kill(2, "machineid", "west-m1", wipe, least),
            kill(1, "machineid", "south-m0", gone, least),
            kill(1, "machineid", "west-m2", gone, wipe),
            kill(1, "machineid", "nowhere", gone, wipe),
            clog(1, "machineid", "west-m2", 1),
        )
        lines.append(in_turn[place // times % len(in_turn)])
    return lines
