"""What became of each acknowledged record: the program judges the history, by the audit.

    with Guard("two.toml", folder=folder) as guard:
        ...  # writes `history.jsonl` there by a `faultyard.history.History`
    judged = judge("two.toml", folder)
    print(judged[Verdict.LOST], judged.keys(Verdict.UNREADABLE))
"""

from __future__ import annotations

import json
import subprocess
from dataclasses import dataclass, field
from enum import Enum
from pathlib import Path
from typing import Any, Dict, List, Mapping, Optional, Sequence

from .errors import AuditRefused, HistoryRefused
from .programs import StrPath, find_program

NOT_LEGAL = 5
"""The status of `faultyard verdict` for an audit that isn't legal."""


class Verdict(str, Enum):
    """What became of a record; docs/FORMATS.md says which applies."""

    KEPT = "kept"
    LOST = "lost"
    MISSING = "missing"
    STALE = "stale"
    UNREADABLE = "unreadable"
    WRONG = "wrong"

    def __str__(self) -> str:
        return self.value


@dataclass(frozen=True)
class Judged:
    """What `faultyard verdict` said."""

    lines: Sequence[Mapping[str, Any]] = ()
    """One of each acknowledged record that isn't kept."""
    counts: Mapping[str, Any] = field(default_factory=dict)

    def __getitem__(self, name: str) -> int:
        """A count."""
        return int(self.counts.get(name, 0))

    def keys(self, verdict: Verdict) -> List[str]:
        """The keys of the records with a verdict."""
        return [line["key"] for line in self.lines if line["verdict"] == verdict.value]

    @property
    def is_unclear(self) -> bool:
        """Whether disks may say more of a record."""
        return any(self[it.value] for it in (Verdict.LOST, Verdict.MISSING, Verdict.UNREADABLE))


@dataclass(frozen=True)
class Linear:
    """What `faultyard linear` said."""

    lines: Sequence[Mapping[str, Any]] = ()
    """One of each key whose operations aren't those of a register."""
    counts: Mapping[str, int] = field(default_factory=dict)

    @property
    def keys(self) -> List[str]:
        """The keys that aren't linearizable."""
        return [line["key"] for line in self.lines]


def judge(config: StrPath, folder: StrPath, program: Optional[StrPath] = None) -> Judged:
    """Has the program judge `history.jsonl` of a folder by `audit` beside it.

    `verdict.jsonl` keeps what it says. An audit that isn't legal raises `AuditRefused`, and what is
    no history of it `HistoryRefused`.
    """
    words = [config, "--audit", Path(folder, "audit")]
    *lines, counts = _told("verdict", Path(folder), words, program)
    return Judged(lines, counts)


def judge_registers(folder: StrPath, program: Optional[StrPath] = None) -> Linear:
    """Has the program say which keys with several writes aren't linearizable, as `linear.jsonl`."""
    *lines, counts = _told("linear", Path(folder), [], program)
    return Linear(lines, counts)


def _told(
    command: str, folder: Path, words: Sequence[StrPath], program: Optional[StrPath]
) -> List[Dict[str, Any]]:
    """What a command says of a history, which is kept: lines, and then counts."""
    with (folder / "history.jsonl").open("rb") as history:
        call = [find_program(program), command, *map(str, words)]
        ran = subprocess.run(call, stdin=history, capture_output=True, text=True, check=False)
    why = ran.stderr.strip() or f"it ended with status {ran.returncode}"
    if ran.returncode == NOT_LEGAL:
        raise AuditRefused(why, NOT_LEGAL)
    if not ran.stdout:
        raise HistoryRefused(f"faultyard {command} of {folder}: {why}", ran.returncode)
    (folder / f"{command}.jsonl").write_text(ran.stdout)
    return [json.loads(line) for line in ran.stdout.splitlines()]
