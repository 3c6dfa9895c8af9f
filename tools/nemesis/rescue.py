"""An operator's help: the hook `rescue` begins a quorum anew, where faults took it that the guard
allows, as a reboot beside an emptying does."""
import asyncio
from typing import TYPE_CHECKING

if TYPE_CHECKING:
    from .store import Store

STANDS = 15.0  # seconds without an acknowledgement after which an operator looks
LOOKS = 0.5  # seconds between two looks whether a store stands
SETTLED = 5.0  # seconds for which a process has to run, so that it may be asked how far it is


class Rescue:
    """Has the hook called, while nobody strikes, whenever the store stands for long."""

    def __init__(self, store: "Store") -> None:
        self._store = store
        self._since = 0.0  # when the hook was asked last, or somebody was cut off
        self._is_over = False
        self.done = 0  # how often it said yes

    async def watch(self) -> None:
        """Looks until it is cancelled, if there is such a hook."""
        while "rescue" in self._store.hooks.names and not self._is_over:
            await asyncio.sleep(LOOKS)
            if self.is_due():
                async with self._store.turn:
                    text = await self._asked()
                for line in text.splitlines():
                    await self._store.do_as_said("rescue", line)

    async def _asked(self) -> str:
        """What the hook prints, if it is due still, and says yes."""
        store, text = self._store, None
        if self.is_due():
            text = await store.hooks.call("rescue")
            self._since = store.ledger.now()
        if text is not None:
            self.done += 1
            store.note("rescue", says=text.splitlines())
            store.show(f"rescued by the hook{': ' if text else ''}{'; '.join(text.splitlines())}")
        return text or ""

    def is_due(self) -> bool:
        """Whether a store stands that has had the time to come back by itself: nobody is cut off,
        and all that aren't destroyed run."""
        store, now = self._store, self._store.ledger.now()
        if self._is_over or not store.ledger.has_begun():
            return False
        if store.clogged or store.apart:
            self._since = now  # who is cut off might be the quorum
            return False
        records = store.ledger.records
        acked = next(reversed(records.values())).t if records else 0.0
        is_long = now - max(acked, self._since) > STANDS
        return is_long and all(store.runs_for(number) > SETTLED for number in store.ledger.able)

    def end(self) -> None:
        """The store has been read: nothing is to be rescued any more."""
        self._is_over = True

    def told(self) -> list[str]:
        """A line of the summary."""
        return [f"rescued {self.done} times by the hook"] if self.done else []
