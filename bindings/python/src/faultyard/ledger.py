"""Which acknowledged records are lost, and which entries took those who could hold them."""

from __future__ import annotations

import time
from typing import Callable, Dict, List, Mapping, NamedTuple, Optional, Set, Tuple

from .guard import Guard


class Record(NamedTuple):
    """A record that was acknowledged."""

    value: str
    t: float
    """When, in seconds."""
    entry: int
    """The entry of the audit that came next."""
    able: Tuple[int, ...]
    """Who could hold it: the processes that weren't destroyed then."""


class Lost(NamedTuple):
    """A record that was acknowledged, and isn't there any more."""

    key: str
    t: float
    entry: int
    able: Tuple[int, ...]
    destroyed_by: Tuple[int, ...]
    """The entries that destroyed those who could hold it, each for the first time since."""


class Loss(NamedTuple):
    """A process was destroyed, with all that it had."""

    process: int
    t: float
    entry: int
    """The entry that asked for it."""
    sent: int
    """How many writes were sent until then."""


class Heal(NamedTuple):
    """A destroyed process had its records again, as was told."""

    process: int
    t: float
    entry: Optional[int]
    """The entry that told it, if it is known."""


class Ledger:
    """What a test was told is stored, and what it has destroyed, guarded or not.

    It counts no answer that may be of a write from before a loss, once the process that was lost is
    asked whether it is whole: such a record may have been on that process alone, which can't know
    that it has to get it back.
    """

    def __init__(self, guard: Guard, *, clock: Callable[[], int] = time.monotonic_ns) -> None:
        """`clock` tells the time in nanoseconds, from any beginning."""
        self._guard, self._clock = guard, clock
        self._began: Optional[int] = None
        self._stopped: Optional[float] = None
        self._sent = self._late = 0
        self.able: Set[int] = set(range(guard.process_count()))
        """The processes that aren't destroyed."""
        self.destroyed: Dict[int, Loss] = {}
        """The others."""
        self.losses: List[Loss] = []
        self.healed: List[float] = []
        """How many seconds each process was destroyed that is healed."""
        self.heals: List[Heal] = []
        self.records: Dict[str, Record] = {}
        self.mark = 0
        """The largest that an acknowledgement told."""

    def begin(self) -> None:
        """Time goes on from 0."""
        self._began = self._clock()

    def go_on(self, at_ns: int, sent: int, mark: int) -> None:
        """Time goes on from there, behind a test that died.

        So many writes were sent, and no answer to them counts any more.
        """
        self._began = self._clock() - at_ns
        self._sent = self._late = sent
        self.mark = mark

    def stop(self) -> None:
        """No more is written."""
        self._stopped = self.now()

    def has_begun(self) -> bool:
        """Whether time goes on."""
        return self._began is not None

    def now(self) -> float:
        """Seconds since the beginning, 0 before."""
        return round(self.now_ns() / 1e9, 3)

    def now_ns(self) -> int:
        """Nanoseconds since the beginning, 0 before."""
        return 0 if self._began is None else self._clock() - self._began

    def send(self) -> int:
        """The number of a write that is sent now, from 1."""
        self._sent += 1
        return self._sent

    def acknowledge(self, write: int, key: str, value: str, mark: int) -> bool:
        """A write was acknowledged, with a number of the store that never falls: does it count?"""
        if not self.counts(write, mark):
            return False
        entry, able = self._guard.journal_len(), tuple(sorted(self.able))
        self.records[key] = Record(value, self.now(), entry, able)
        return True

    def counts(self, write: int, mark: int) -> bool:
        """The same for a write of what is no record, as it is written again."""
        if write <= self._late:
            return False
        self.mark = max(self.mark, mark)
        return True

    def destroy(self, process: int, entry: int) -> None:
        """A process was emptied or killed for good, as an entry asked."""
        loss = Loss(process, self.now(), entry, self._sent)
        self.losses.append(loss)
        self.destroyed[process] = loss
        self.able.discard(process)

    def destroy_again(self, process: int) -> None:
        """What a destroyed process got since then is gone too."""
        self.destroyed[process] = self.destroyed[process]._replace(sent=self._sent)

    def due(self, process: int) -> int:
        """The mark up to which a destroyed process needs all records again."""
        self._late = max(self._late, self.destroyed[process].sent)
        return self.mark

    def heal(self, process: int, entry: Optional[int] = None) -> None:
        """A destroyed process has them, as an entry told."""
        self.healed.append(self.now() - self.destroyed.pop(process).t)
        self.heals.append(Heal(process, self.now(), entry))
        self.able.add(process)

    def lost(self, found: Mapping[str, Optional[str]], *, is_all: bool) -> List[Lost]:
        """The records that are lost by an answer of the store: what each key has, or None.

        `is_all`: the store answered, by a read that can't lag, and these are all its keys. Else a
        key that it doesn't tell is none that is lost: `unknown` has it. A `faultyard.history` and
        `faultyard.verdicts.judge` say more: who told what when, and whose fault it is.
        """
        told = self.records.keys() if is_all else self.records.keys() & found.keys()
        its = ((key, record) for key, record in self.records.items() if key in told)
        return [self.loss_of(key) for key, record in its if found.get(key) != record.value]

    def unknown(self, found: Mapping[str, Optional[str]]) -> List[str]:
        """The records of which an answer that isn't all of the store tells nothing."""
        return [key for key in self.records if key not in found]

    def loss_of(self, key: str) -> Lost:
        """An acknowledged record that is lost."""
        record = self.records[key]
        return Lost(key, record.t, record.entry, record.able, self._takers(record))

    def _takers(self, record: Record) -> Tuple[int, ...]:
        first: Dict[int, int] = {}
        for loss in self.losses:
            if loss.t >= record.t and loss.process in record.able:
                first.setdefault(loss.process, loss.entry)
        return tuple(sorted(set(first.values())))

    def pauses(self) -> List[float]:
        """The times without an acknowledgement, before the first and since the last too."""
        end = self.now() if self._stopped is None else self._stopped
        times = [0.0, *(record.t for record in self.records.values()), end]
        return [max(later - t, 0.0) for t, later in zip(times, times[1:])]

    def longest_pause(self) -> float:
        """The longest of them."""
        return max(self.pauses())
