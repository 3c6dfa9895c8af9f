"""An event loop whose time is the test's: where nothing is ready it jumps to the next timer.

    clock.run(main())

    @clock.virtual
    async def test_something(self): ..

Nothing sleeps, whatever it awaits. What is asked of another process by a call that blocks, as the
guard is, takes no time, and neither does what goes to a thread. Files that are ready come before
any timer, so a pipe that was written to is read at the time at which it was written to.
"""

from __future__ import annotations

import asyncio
import functools
import selectors
from collections.abc import Callable, Coroutine
from typing import Any, TypeVar

_T = TypeVar("_T")
BEGIN = 1000.0
"""What the clock says first: no code may take it for 0."""
MOST = 100_000.0
"""So many seconds a test has, or it hangs: what waits for ever with a timeout never ends."""


class Stuck(Exception):
    """Nothing will ever happen, or the time of a test is over."""


class _Selector(selectors.DefaultSelector):
    """Answers at once, and lets time pass instead of waiting."""

    def __init__(self) -> None:
        super().__init__()
        self.now = BEGIN

    def select(self, timeout: float | None = None) -> list[tuple[selectors.SelectorKey, int]]:
        ready = super().select(0)
        if ready or timeout == 0:
            return ready
        if timeout is None:
            raise Stuck("nothing is ready, and there is no timer")
        self.now += timeout
        if self.now > BEGIN + MOST:
            raise Stuck(f"{MOST:g} seconds have passed")
        return ready


class Loop(asyncio.SelectorEventLoop):
    """A loop whose time passes by jumps."""

    def __init__(self) -> None:
        self._clock = _Selector()
        super().__init__(self._clock)

    def time(self) -> float:
        return self._clock.now

    def run_in_executor(self, executor: Any, func: Callable[..., _T], *words: Any) -> Any:
        """Calls it here and now: a thread would take a time that isn't this loop's."""
        done: asyncio.Future[_T] = self.create_future()
        try:
            done.set_result(func(*words))
        except Exception as fault:
            done.set_exception(fault)
        return done


def run(main: Coroutine[Any, Any, _T]) -> _T:
    """What a coroutine answers, in a loop of its own."""
    with asyncio.Runner(loop_factory=Loop) as runner:
        return runner.run(main)


def virtual(test: Callable[[_T], Coroutine[Any, Any, None]]) -> Callable[[_T], None]:
    """A test that is a coroutine, in a loop of its own."""

    @functools.wraps(test)
    def tested(self: _T) -> None:
        run(test(self))

    return tested
