"""Replies of a guard as values, and the entry of the journal that each stands in."""

from __future__ import annotations

import json
from dataclasses import dataclass, field
from typing import Any, Callable, Dict, List, Mapping, Optional, Union

from .enums import Kind, Refusal, Rule
from .errors import ProtocolError


@dataclass(frozen=True)
class Verdict:
    """The reply to a kill."""

    struck: Optional[Kind]
    """Do this to every process of the target that isn't gone. `None`: do nothing."""
    rule: Optional[Rule]
    """The rule that bars the kind that was ordered. `None`: that kind struck."""
    named: Optional[int]
    """The number of the process or of the policy that the rule names."""


@dataclass(frozen=True)
class Ruling:
    """The reply to `clog` and `unclog`: the rule that bars it, or `None`."""

    rule: Optional[Rule]
    named: Optional[int]


@dataclass(frozen=True)
class Formed:
    """The number of the new team."""

    team: int


@dataclass(frozen=True)
class Begun:
    """The number of the new record, and the number of its first store message."""

    record: int
    first: int


@dataclass(frozen=True)
class Stored:
    """A store message was delivered."""


@dataclass(frozen=True)
class Marked:
    """An acknowledgement was delivered. `marked`: whether the record is acknowledged now."""

    marked: bool


@dataclass(frozen=True)
class Sent:
    """The number of the store message that was sent."""

    message: int


@dataclass(frozen=True)
class Synced:
    """How many writes were synced, and the number of their first acknowledgement message."""

    count: int
    first: int


@dataclass(frozen=True)
class Time:
    """The time of the simulated cluster."""

    now: int


@dataclass(frozen=True)
class Done:
    """The act was made, and has nothing to tell."""


@dataclass(frozen=True)
class Refused:
    """The act was not made. `named` is the policy of `TEAM_SHORT`, the record of `STILL_NEEDS`."""

    refusal: Refusal
    named: Optional[int]


Reply = Union[Verdict, Ruling, Formed, Begun, Stored, Marked, Sent, Synced, Time, Done, Refused]


@dataclass(frozen=True)
class Entry:
    """One entry of the journal: who made which act, and the reply."""

    at: int
    by: int
    act: Mapping[str, Any]
    reply: Reply
    line: str = field(default="", compare=False, repr=False)
    """As it stands in the audit, without its line feed."""

    @property
    def struck(self) -> Optional[Kind]:
        """What to do to the processes of a kill or of a clog; `None`: nothing."""
        if isinstance(self.reply, Verdict):
            return self.reply.struck
        clogs = isinstance(self.reply, Ruling) and self.reply.rule is None and "clog" in self.act
        return Kind.CLOG if clogs else None

    @property
    def barred(self) -> Optional[List[Any]]:
        """The rule that bars what a kill or a clog orders, as `["TooManyDestroyed", 0]`."""
        if not isinstance(self.reply, (Verdict, Ruling)) or self.reply.rule is None:
            return None
        return [self.reply.rule.value] + ([] if self.reply.named is None else [self.reply.named])

    @property
    def told(self) -> Any:
        """The reply as the audit has it."""
        return json.loads(self.line)["reply"]


def _rule(words: Optional[List[Any]]) -> Dict[str, Any]:
    if words is None:
        return {"rule": None, "named": None}
    return {"rule": Rule(words[0]), "named": words[1] if len(words) > 1 else None}


def _verdict(told: Dict[str, Any]) -> Verdict:
    struck = told["struck"]
    return Verdict(struck=None if struck is None else Kind(struck), **_rule(told["rule"]))


def _refused(words: List[Any]) -> Refused:
    return Refused(Refusal(words[0]), words[1] if len(words) > 1 else None)


_SHAPES: Dict[str, Callable[[Any], Reply]] = {
    "verdict": _verdict,
    "ruled": lambda told: Ruling(**_rule(told)),
    "formed": Formed,
    "begun": lambda told: Begun(**told),
    "marked": Marked,
    "sent": Sent,
    "synced": lambda told: Synced(**told),
    "time": Time,
    "no": _refused,
}


def read_reply(told: Any) -> Reply:
    """A reply as a value, from the words of an audit."""
    if told == "done":
        return Done()
    if told == "stored":
        return Stored()
    ((name, value),) = told.items()
    return _SHAPES[name](value)


def read_entry(line: bytes) -> Entry:
    """Reads the line of an entry."""
    try:
        told = json.loads(line)
        text = line.decode().rstrip("\n")
        return Entry(told["at"], told["by"], told["act"], read_reply(told["reply"]), text)
    except (ValueError, TypeError, KeyError, IndexError, AttributeError) as fault:
        raise ProtocolError(f"no entry of an audit: {line!r}") from fault


def read_told(line: bytes) -> Any:
    """Reads the line of what is told to a question."""
    try:
        return json.loads(line)["told"]
    except (ValueError, TypeError, KeyError) as fault:
        raise ProtocolError(f"no answer to a question: {line!r}") from fault
