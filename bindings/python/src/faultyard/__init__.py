"""Asks a faultyard guard before each kill of a chaos test, and keeps the audit.

    from faultyard import Guard, Key, Kind

    with Guard("two.toml") as guard:
        verdict = guard.kill(Key.PROCESS, "p0", Kind.REBOOT_AND_DELETE, by=1)
        if verdict.struck is not None:
            ...  # do this to p0, and then
            guard.up(0, by=0)
"""

from .checking import Check, Finding
from .cluster import Actor, ClusterFile
from .enums import Key, Kind, Part, Plan, Refusal, Role, Rule
from .errors import (
    ActRefused,
    AuditExists,
    AuditRefused,
    ConfigRefused,
    FaultyardError,
    GuardClosed,
    GuardEnded,
    HistoryRefused,
    InvalidAct,
    JournalFull,
    NotFound,
    OutOfMemory,
    ProtocolError,
)
from .guard import Guard
from .programs import bears, check, find_program, show
from .replies import (
    Begun,
    Done,
    Entry,
    Formed,
    Marked,
    Refused,
    Reply,
    Ruling,
    Sent,
    Stored,
    Synced,
    Time,
    Verdict,
)
from .told import Borne, Sight, State

__all__ = [
    "ActRefused",
    "Actor",
    "AuditExists",
    "AuditRefused",
    "Begun",
    "Borne",
    "Check",
    "ClusterFile",
    "ConfigRefused",
    "Done",
    "Entry",
    "FaultyardError",
    "Finding",
    "Formed",
    "Guard",
    "GuardClosed",
    "GuardEnded",
    "HistoryRefused",
    "InvalidAct",
    "JournalFull",
    "Key",
    "Kind",
    "Marked",
    "NotFound",
    "OutOfMemory",
    "Part",
    "Plan",
    "ProtocolError",
    "Refusal",
    "Refused",
    "Reply",
    "Role",
    "Rule",
    "Ruling",
    "Sent",
    "Sight",
    "State",
    "Stored",
    "Synced",
    "Time",
    "Verdict",
    "bears",
    "check",
    "find_program",
    "show",
]
