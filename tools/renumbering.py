"""Scripts of some of the acts of an audit, in which each number still means what it meant.

Teams, records and messages are numbered as they are made. Where an act that made one is left out,
those behind it get other numbers, and the acts that name them are written with these. What isn't
made any more has the number NOBODY.
"""
from __future__ import annotations

import json
from collections.abc import Callable, Sequence
from typing import Any

Entry = dict[str, Any]
# What an act makes: its place, and the how manieth of them.
Made = tuple[int, int]
Numbers = dict[str, dict[Made, int]]
Making = dict[str, int]
NOBODY = 1_000_000
# The words of acts that name what another act made.
NAMES = {
    **{("deliver", "message"): "message", ("lose", "message"): "message"},
    **{("resend", "record"): "record", ("copy", "record"): "record"},
    **{("begin", "team"): "team", ("replace", "team"): "team"},
}
# How often a script is run before its numbers are taken as they are.
ROUNDS = 4


def line(by: int, act: dict[str, Any]) -> bytes:
    return json.dumps({"by": by, "act": act}, separators=(",", ":")).encode() + b"\n"


def makings(entries: Sequence[Entry]) -> list[Making]:
    """How many of each kind each entry made."""
    made: list[Making] = []
    sizes: list[int] = []
    for entry in entries:
        reply = entry["reply"] if isinstance(entry["reply"], dict) else {}
        making: Making = {}
        if "formed" in reply:
            sizes.append(len(entry["act"]["form"]["members"]))
            making = {"team": 1}
        elif "begun" in reply:
            making = {"record": 1, "message": sizes[entry["act"]["begin"]["team"]]}
        elif "synced" in reply:
            making = {"message": reply["synced"]["count"]}
        elif "sent" in reply:
            making = {"message": 1}
        made.append(making)
    return made


def numbers_of(made: Sequence[Making], places: Sequence[int]) -> Numbers:
    """The number of each thing that the acts at these places made."""
    numbers: Numbers = {"team": {}, "record": {}, "message": {}}
    for place, making in zip(places, made):
        for kind, count in making.items():
            for at in range(count):
                numbers[kind][place, at] = len(numbers[kind])
    return numbers


class Acts:
    """The acts of an audit. `run` gives the audit of a script."""

    def __init__(self, audit: bytes, run: Callable[[bytes], bytes]) -> None:
        self.entries = entries_of(audit)
        self.made = makings(self.entries)
        self.run = run
        numbers = numbers_of(self.made, range(len(self.made)))
        self.things = {
            kind: {number: made for made, number in those.items()}
            for kind, those in numbers.items()
        }

    def written(self, place: int, numbers: Numbers) -> bytes:
        """The act at a place, by the numbers that things have."""
        ((name, act),) = self.entries[place]["act"].items()
        act = dict(act)
        for word in act:
            kind = NAMES.get((name, word))
            if kind and act[word] in self.things[kind]:
                act[word] = numbers[kind].get(self.things[kind][act[word]], NOBODY)
        return line(self.entries[place]["by"], {name: act})

    def script(self, places: Sequence[int]) -> list[bytes]:
        """The acts at these places. Numbers are those that `run` gives, so it is run until they are
        the same."""
        lines: list[bytes] = []
        made = [self.made[place] for place in places]
        for _ in range(ROUNDS):
            numbers = numbers_of(made, places)
            before, lines = lines, [self.written(place, numbers) for place in places]
            if lines == before:
                break
            made = makings(entries_of(self.run(b"".join(lines))))
        return lines


def entries_of(audit: bytes) -> list[Entry]:
    return [json.loads(it) for it in audit.splitlines()[1:]]
