"""A guard in another process, which is asked by lines. Its entries are kept here."""

from __future__ import annotations

import io
from pathlib import Path
from typing import Any, Dict, List, Mapping, Optional

from .enums import Plan
from .kept import Kept
from .library import Library
from .programs import StrPath
from .transport import Transport


class Asked(Transport):
    """It is asked by lines, and what they are answered is kept."""

    def __init__(self, config: StrPath, library: Optional[StrPath]) -> None:
        self._config, self._library = Path(config).read_bytes(), library
        self._audit: List[bytes] = []
        self._kept: Optional[Kept] = None

    def _go_on(self, journal: bytes) -> None:
        """Begins with this journal."""
        self._audit = io.BytesIO(journal).readlines()
        if self._kept is not None:
            self._kept.begin()

    def _keep(self, text: bytes) -> None:
        self._audit.append(text)
        if self._kept is not None:
            self._kept.write(text)

    # Plans, which are drawn from the cluster file alone.

    def swizzle_plan(self, seed: int, stream: int, ticks: int) -> List[Dict[str, Dict[str, Any]]]:
        return self._drawing().swizzle_plan(seed, stream, ticks)

    def attrition_plan(
        self, seed: int, stream: int, to_kill: int, to_leave: int, order: Mapping[str, Any]
    ) -> List[Dict[str, Dict[str, Any]]]:
        return self._drawing().attrition_plan(seed, stream, to_kill, to_leave, order)

    def plan_orders(
        self, plan: Plan, seed: int, actor: int, count: int
    ) -> List[Optional[Dict[str, Dict[str, Any]]]]:
        return self._drawing().plan_orders(plan, seed, actor, count)

    def _drawing(self) -> Library:
        """A guard of the library, in which nothing happens."""
        return Library.open(self._config, self._library)

    # The journal.

    def journal_len(self) -> int:
        return len(self._audit) - 1

    def audit(self) -> bytes:
        return b"".join(self._audit)
