"""Whether a short history of a register is linearizable, by a search through all orders.

It knows nothing of the rule by which `fy_registers` judges. Its time grows with the number of
orders, so a history has at most a dozen operations.
"""

from __future__ import annotations

import random
from collections.abc import Sequence
from dataclasses import dataclass


@dataclass(frozen=True)
class Operation:
    """An operation of a register, and the places in the history at which it began and ended.

    The value None is what was there before all writes. Where there is no end, the operation may
    have been done or not. A write that failed and a read that got no answer are none.
    """

    is_write: bool
    value: int | None
    began: int
    ended: int | None


def is_before(one: Operation, other: Operation) -> bool:
    """Whether one ended before the other began."""
    return one.ended is not None and one.ended < other.began


def is_linearizable(operations: Sequence[Operation]) -> bool:
    """Whether some order of the operations is a run of a register.

    Each operation that ended stands in it, and any of the others. None stands behind one that
    began after it ended. Each read answers what was written last before it.
    """
    return goes_on(None, frozenset(operations))


def goes_on(held: int | None, left: frozenset[Operation]) -> bool:
    """Whether a register that holds this value may go on with what is left."""
    if all(it.ended is None for it in left):
        return True
    for next_one in left:
        if any(is_before(other, next_one) for other in left):
            continue
        if not next_one.is_write and next_one.value != held:
            continue
        if goes_on(next_one.value, left - {next_one}):
            return True
    return False


def random_history(draw: random.Random, most: int = 8) -> list[Operation]:
    """At most so many operations in the order in which they began. Each value is written once."""
    count = draw.randint(1, most)
    values = range(draw.randint(1, min(count, 3)))
    unwritten = set(values)
    history = []
    place = 0
    for _ in range(count):
        place += draw.randint(1, 3)
        value = draw.choice(values)
        ended = None if draw.random() < 1 / 6 else place + draw.randint(0, 7)
        if value in unwritten and draw.random() < 1 / 2:
            unwritten.remove(value)
            history.append(Operation(True, value, place, ended))
        elif draw.random() < 1 / 8:
            history.append(Operation(False, None, place, ended))
        else:
            history.append(Operation(False, value, place, ended))
    return history
