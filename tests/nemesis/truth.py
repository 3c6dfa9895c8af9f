"""What became of each record by what the store noted itself, with nothing of the tool's.

The definitions are those of docs/FORMATS.md. Each acknowledged record goes to two of three, so a
holder was never destroyed where at most one was without its data then or since.
"""

from __future__ import annotations

from collections.abc import Iterator

from toy import Answer, Outage, Toy

MINUTE = 60.0
NONE, UNKNOWN = "none", "?"


class Truth:
    """What a store knows once a run of it has ended."""

    def __init__(self, toy: Toy) -> None:
        self.toy, self.is_salvaged = toy, "salvage" in toy.listed.split()
        self.answers: dict[str, list[Answer]] = {}
        for answer in toy.checked:
            self.answers.setdefault(answer.key, []).append(answer)
        self.reads = [(told.began, by_key(told.found)) for told in toy.reads]
        self.outages = [*toy.outages, *self._for_good()]

    def _for_good(self) -> Iterator[Outage]:
        """Those who were destroyed, and didn't start again."""
        known = {(it.number, it.began) for it in self.toy.outages}
        for number, began in self.toy.downs.items():
            if not self.toy.log_of(number).exists() and (number, began) not in known:
                yield Outage(number, began)

    # What became of a record.

    def verdict(self, key: str) -> str:
        """The first that applies."""
        asked, value = self.answers.get(key, []), self.toy.acked[key]
        told = [answer.told for answer in asked]
        values = [it for _, found in self.reads for it in found.get(key, [NONE])]
        if self.is_lost(key):
            return "lost"
        if {*told, *values} - {value, NONE, UNKNOWN}:
            return "wrong"
        if any(self.is_there(n, answer.began) for n, answer in self.lackers(key)):
            return "missing"
        at_end = [answer.told for answer in asked if answer.began > self.toy.wrote_until]
        if value not in [*at_end, *values] and not (self.is_salvaged and self.holders(key)):
            return "unreadable"
        known = self.toy.ok_at[key]
        is_late = any(answer.told == NONE and answer.began > known for answer in asked)
        return "stale" if is_late or NONE in values else "kept"

    def is_lost(self, key: str) -> bool:
        """Whether the last read of all lacks it, or a process where none was answered, and nobody
        told it later; or nobody answered at the end, and no disk has it."""
        if self.reads:
            began, found = self.reads[-1]
            return key not in found and not self.is_told_after(key, began)
        lackers = [answer.began for _, answer in self.lackers(key)]
        if any(not self.is_told_after(key, began) for began in lackers):
            return True
        is_answered = any(
            answer.told != UNKNOWN and answer.began > self.toy.wrote_until
            for answer in self.answers.get(key, [])
        )
        return not is_answered and self.is_salvaged and not self.holders(key)

    def is_told_after(self, key: str, began: float) -> bool:
        value = self.toy.acked[key]
        return any(it.told == value and it.began > began for it in self.answers.get(key, []))

    def lackers(self, key: str) -> Iterator[tuple[int, Answer]]:
        """Who lacks it to the end, a minute after it was first asked there, by its last answer."""
        for number in range(3):
            asked = [
                answer
                for answer in self.answers.get(key, [])
                if answer.number == number and answer.began > self.toy.wrote_until
            ]
            answered = [answer for answer in asked if answer.told != UNKNOWN]
            if answered and answered[-1].told == NONE:
                if answered[-1].began - asked[0].began >= MINUTE:
                    yield number, answered[-1]

    def holders(self, key: str) -> set[int]:
        """Whose disk has it."""
        value = self.toy.acked[key]
        return {number for number in range(3) if self.toy.disk(number).get(key) == value}

    # Whose fault it is.

    def fault(self, key: str) -> object:
        """Whose it is that a record is lost, where no more was done than the guard said."""
        value, until = self.toy.acked[key], self.toy.wrote_until
        told = any(it.told == value and it.began > until for it in self.answers.get(key, []))
        if told or not self.reads or self.is_salvaged and self.holders(key):
            return "nobody"
        acked = self.toy.ok_at[key]
        since = [it for it in self.outages if it.healed is None or it.healed > acked]
        if len({it.number for it in since}) < 2:
            return "store"
        healed = sorted({(it.healed, it.number) for it in since if it.healed is not None})
        return {"store_or_whole": [number for _, number in healed]}

    def is_there(self, number: int, time: float) -> bool:
        """Whether a member has its data, by what it said itself."""
        return not any(
            it.number == number and it.began < time and (it.healed is None or it.healed > time)
            for it in self.outages
        )


def by_key(found: list[tuple[str, str]]) -> dict[str, list[str]]:
    """The values that each key was told with."""
    values: dict[str, list[str]] = {}
    for key, value in found:
        values.setdefault(key, []).append(value)
    return values
