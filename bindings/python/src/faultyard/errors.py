"""What a guard raises. Every class is a `FaultyardError`."""

from __future__ import annotations

import re
from typing import Optional

from .enums import Part, Refusal

_FAULT = re.compile(r"config: (\w+)(?: ([A-Za-z]+))?(?: (\d+))?")
"""The fault line of a cluster file: the fault, its part and its place."""


class FaultyardError(Exception):
    """The base of all that this package raises."""


class NotFound(FaultyardError, FileNotFoundError):
    """The program or the library isn't where it was looked for."""


class ConfigRefused(FaultyardError, ValueError):
    """The cluster file is refused. `fault` is the fault line, as `config: Name Process 1`.

    `part` is the part of the file that the fault is in, and `place` the number of the process,
    actor, protection or policy there. Each is `None` where the line names none.
    """

    def __init__(self, fault: str) -> None:
        super().__init__(fault)
        self.fault = fault
        self.part: Optional[Part] = None
        self.place: Optional[int] = None
        found = _FAULT.fullmatch(fault)
        if found is not None:
            word, part, place = found.groups()
            if word in ("Policy", "PolicyUnmet"):
                part = Part.POLICIES.value
            self.part = {it.value: it for it in Part}.get(part)
            self.place = None if place is None else int(place)


class InvalidAct(FaultyardError, ValueError):
    """An act that no guard reads: nothing was sent, and the journal has no entry of it."""


class ActRefused(FaultyardError):
    """The guard refused an act; the journal has its entry.

    `refusal` is the reason, `named` the policy of `TEAM_SHORT` or the record of `STILL_NEEDS`.
    """

    def __init__(self, act: str, refusal: Refusal, named: Optional[int]) -> None:
        about = "" if named is None else f" {named}"
        super().__init__(f"{act} is refused: {refusal.value}{about}")
        self.act = act
        self.refusal = refusal
        self.named = named


class GuardClosed(FaultyardError):
    """The guard was closed, or was opened by another process than this one."""


class GuardEnded(FaultyardError):
    """The program has ended by itself. `fault` is its fault line, `status` its exit status."""

    def __init__(self, why: str, fault: str = "", status: Optional[int] = None) -> None:
        told = [why] + ([fault] if fault else []) + ([f"status {status}"] if status else [])
        super().__init__(", ".join(told))
        self.why = why
        self.fault = fault
        self.status = status


class JournalFull(FaultyardError):
    """The journal has as many entries as `journal_limit` of the cluster file allows."""


class OutOfMemory(FaultyardError, MemoryError):
    """The guard was refused memory."""


class ProtocolError(FaultyardError):
    """What answers isn't a faultyard that this package knows."""


class AuditExists(FaultyardError, FileExistsError):
    """The `audit` of the folder isn't this guard's to write, and is left as it was.

    It has entries that the guard doesn't go on from, or another guard holds it.
    """


class AuditRefused(FaultyardError, ValueError):
    """`faultyard check` doesn't confirm an audit. `fault` is its line, `status` its exit status."""

    def __init__(self, fault: str, status: int) -> None:
        super().__init__(fault)
        self.fault = fault
        self.status = status


class HistoryRefused(FaultyardError, ValueError):
    """What is to be judged is no history of the audit. `status` is the program's exit status."""

    def __init__(self, fault: str, status: int) -> None:
        super().__init__(fault)
        self.fault = fault
        self.status = status
