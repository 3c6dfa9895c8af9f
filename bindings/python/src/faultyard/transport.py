"""What a guard asks of its transport: the pipe, or the library."""

from __future__ import annotations

from abc import ABC, abstractmethod
from typing import Any, Dict, List, Mapping, Optional

from .acts import asking, line
from .enums import Plan
from .replies import Entry, Reply, read_entry, read_told

HEADER = b'{"audit":2}\n'
"""The first line of an audit."""


class Transport(ABC):
    """One guard behind its pipe or its library. One call at a time is made with it."""

    @abstractmethod
    def exchange(self, text: bytes) -> bytes:
        """Makes the act of a line, and answers the line of its entry."""

    def reply(self, by: int, name: str, members: Mapping[str, Any]) -> Reply:
        """Makes an act whose members are checked, and answers its reply."""
        return read_entry(self.exchange(line(by, name, members))).reply

    @abstractmethod
    def tell(self, text: bytes) -> bytes:
        """Asks the question of a line, and answers the line of what is told."""

    def ask(self, question: Mapping[str, Any]) -> Any:
        """What is told to a question whose members are checked."""
        return read_told(self.tell(asking(question)))

    def others(self, before: Optional[int]) -> List[Entry]:
        """The entries that others made and that weren't told yet, before one or all; here none."""
        return []

    @abstractmethod
    def reset(self) -> None:
        """Puts the guard back to where nothing happened yet."""

    @abstractmethod
    def try_copy(self) -> Transport:
        """A second guard with the same journal."""

    @abstractmethod
    def swizzle_plan(self, seed: int, stream: int, ticks: int) -> List[Dict[str, Dict[str, Any]]]:
        """The acts of a swizzle that is drawn from a stream of a seed."""

    @abstractmethod
    def attrition_plan(
        self, seed: int, stream: int, to_kill: int, to_leave: int, order: Mapping[str, Any]
    ) -> List[Dict[str, Dict[str, Any]]]:
        """The acts of an attrition that is drawn from a stream of a seed."""

    @abstractmethod
    def plan_orders(
        self, plan: Plan, seed: int, actor: int, count: int
    ) -> List[Optional[Dict[str, Dict[str, Any]]]]:
        """The acts of a fault actor's first turns in a simulation."""

    @abstractmethod
    def journal_len(self) -> int:
        """How many entries the journal has."""

    @abstractmethod
    def audit(self) -> bytes:
        """The header and the line of each entry."""

    @abstractmethod
    def begin_again(self) -> None:
        """Starts the program again that has ended, behind all that it answered."""

    @abstractmethod
    def close(self) -> None:
        """Ends the guard. What `audit` and `journal_len` answer stays."""
