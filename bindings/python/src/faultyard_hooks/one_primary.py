"""A store with one primary, which the others follow. A file of the run says who it is."""

from __future__ import annotations

import time
from typing import Any, Callable

from . import ABLE, COUNT, DIR, keep, text_of

AGAIN = 0.3  # seconds after which each is asked for its position again


def primary() -> int:
    """The number of the primary, at first 0."""
    return int(text_of(f"{DIR}/primary") or 0)


def electing(position: Callable[[int], Any], promote: Callable[[int], Any]) -> Callable[[], Any]:
    """The hook `elect`, which promotes another process where the primary is destroyed.

    It is the one with the greatest position of all that aren't destroyed. Each of them has to
    answer, and the same twice. The others are restarted. What is destroyed is emptied first, since
    it may be ahead of the new primary.
    """

    def elect() -> Any:
        if primary() in ABLE:
            return ""
        positions = {n: position(n) for n in ABLE}
        time.sleep(AGAIN)
        if not positions or positions != {n: position(n) for n in ABLE}:
            return False
        best = max(ABLE, key=positions.__getitem__)
        if promote(best) is False:
            return False
        keep(f"{DIR}/primary", str(best))
        others = (n for n in range(COUNT) if n != best)
        return "".join(f"{'restart' if n in ABLE else 'empty'} {n}\n" for n in others)

    return elect
