"""Whether the operations of a key could have been those of a register, by trying all orders."""

from collections.abc import Mapping, Sequence
from typing import Any

Operation = tuple[int, float, str, str | None]  # where it began and ended, what it was, its value
NEVER = float("inf")


def operations(lines: Sequence[Mapping[str, Any]]) -> dict[str, list[Operation]]:
    """Those of each key of a history: all writes that may have been done, and the answered reads of
    the store as a whole."""
    begun: dict[int, int] = {}
    found: dict[str, list[Operation]] = {}
    for at, line in enumerate(lines):
        if "process" not in line or line.get("node") is not None:
            continue
        who, (key, value) = line["process"], line["value"]
        if line["type"] == "invoke":
            begun[who] = at
        elif line["type"] == "ok" or line["f"] == "write" and line["type"] == "info":
            ended = at if line["type"] == "ok" else NEVER
            found.setdefault(key, []).append((begun[who], ended, line["f"], value))
    return found


def is_linearizable(those: Sequence[Operation]) -> bool:
    """Whether there is an order, in which each comes that has ended, and each read tells the last
    write; what ended before another began comes before it. Each value is written once, so all reads
    of one come before the next write, and a write that may be undone, and isn't read, needs no
    place."""
    read = {value for _, _, f, value in those if f == "read"}
    needed = (it for it in those if it[1] != NEVER or it[3] in read)
    seen, ways = set(), [(frozenset(needed), None)]
    while ways:
        way = left, value = ways.pop()
        if way in seen:
            continue
        seen.add(way)
        if not left:
            return True
        first = min(ended for _, ended, _, _ in left)
        is_over = not any(f == "read" and its == value for _, _, f, its in left)
        for it in left:
            began, _, f, its = it
            if began <= first and (is_over if f == "write" else its == value):
                ways.append((left - {it}, its))
    return False
