"""What is told to questions, as values."""

from __future__ import annotations

from dataclasses import dataclass
from typing import Any, Mapping, Optional


@dataclass(frozen=True)
class Sight:
    """The time, and what there is to do next in the simulated cluster."""

    now: int
    """The time, in ticks."""
    deliverable: Optional[int]
    """The least message that a `deliver` would accept now."""
    unsynced: Optional[int]
    """The least process that is up and has unsynced writes."""
    sleeping: Optional[int]
    """The least process that is neither up nor gone."""


@dataclass(frozen=True)
class State:
    """The state of a process of the simulated cluster."""

    up: bool
    """It runs."""
    clogged: bool
    """Its messages are held back."""
    destroyed: bool
    """It was emptied or killed for good, and not healed since."""
    gone: bool
    """It was killed for good."""


@dataclass(frozen=True)
class Borne:
    """How much of a cluster may still be lost: any so many processes together."""

    emptied: int
    """So many may be emptied, whichever they are."""
    gone: int
    """So many may be killed for good."""
    emptied_exact: bool
    """Some set of one more may not be emptied; where none was found, more may be borne."""
    gone_exact: bool
    """The same of those killed for good."""


def borne(told: Mapping[str, Any]) -> Borne:
    """How much may still be lost, from what `faultyard bears --json` says."""
    emptied, gone = told["losses"]
    return Borne(emptied["any"], gone["any"], _is_exact(emptied), _is_exact(gone))


def _is_exact(loss: Mapping[str, Any]) -> bool:
    """Whether a policy that bears the least number bears no more."""
    return any(it["any"] == loss["any"] and it["exact"] for it in loss["policies"])
