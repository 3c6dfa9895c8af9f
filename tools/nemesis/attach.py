"""A cluster that is up already: nothing is started or emptied at first, and it is left whole, or
the run says who isn't, and why."""
import asyncio
from collections.abc import Collection
from contextlib import suppress
from typing import TYPE_CHECKING

from . import USAGE, Fault, clock
from .clients import number_of

if TYPE_CHECKING:
    from .run import Run

AGAIN = 0.1  # seconds until it is looked again who is back
UNTOUCHED = "nothing was touched"


async def attach(run: "Run") -> None:
    """Refuses a cluster that isn't the one which was named, or isn't up. What it has stays its."""
    words, end = run.words, run.hooks.ends
    name = await run.hooks.call("name")
    if name is None:
        raise Fault(USAGE, f"--attach {words.attach}: {end['name']}; {UNTOUCHED}")
    if (said := name.strip()) != words.attach:
        text = f"--attach {words.attach}: the cluster is {said!r} by the hook `name`"
        raise Fault(USAGE, f"{text}; {UNTOUCHED}")
    if run.past:
        own(run, run.past.base)
        return
    numbers = range(len(run.names))
    run.attached = await ready(run, numbers)
    for number in set(numbers) - run.attached:
        text = f"--attach: {run.names[number]} isn't up: {end.get(number, 'it is not ready')}"
        raise Fault(USAGE, f"{text}; {UNTOUCHED}")
    if (found := await run.clients.read(is_noted=False)) is None:
        raise Fault(USAGE, f"--attach: {end['read']}; {UNTOUCHED}")
    own(run, max((number_of(key) for key, _ in found), default=0))
    run.note("attached", base=run.clients.base)


def own(run: "Run", base: int) -> None:
    """The keys behind a number are this run's; those before were there."""
    run.clients.base = base
    run.history.is_own = lambda key: number_of(key) > base


async def ready(run: "Run", numbers: Collection[int]) -> set[int]:
    """Who of these is ready; each has the time of one hook."""

    async def one(number: int) -> bool:
        until = clock() + run.hooks.limit
        while not await run.hooks.says("ready", number):
            if clock() > until:
                return False
            await asyncio.sleep(AGAIN)
        return True

    found = await asyncio.gather(*map(one, numbers))
    return {number for number, is_ready in zip(numbers, found) if is_ready}


async def leave(run: "Run") -> None:
    """Waits until all are up and whole; or says who isn't, and why."""
    until = clock() + run.hooks.seconds("join")
    while run.waiting() and clock() < until:
        await asyncio.sleep(AGAIN)
    run.notes += [f"left so: {text}" for text in run.waiting()] + gone(run)
    if not run.waiting() and not run.gone:
        run.notes.append(f"{run.words.attach} is left as it was found: all are up and whole")
    run.is_left = True


async def leave_in_haste(run: "Run") -> None:
    """Where a run is broken off: lets go who is held up, starts who is down, and says who lacks."""
    for number in sorted(run.clogged):
        with suppress(Fault):
            await run.elsewhere.done("resume", number)
    for number in sorted(set(range(len(run.names))) - run.up - run.gone - run.emptied):
        await run.hooks.call("start", number)
    lacks = run.emptied | run.ledger.destroyed.keys()
    for number in sorted(lacks - run.gone):
        state = "was emptied, and has not joined" if number in run.emptied else "isn't whole yet"
        run.notes.append(f"left so: {run.names[number]} {state}")
    run.notes += gone(run)
    run.is_left = True


def gone(run: "Run") -> list[str]:
    """Who was killed for good."""
    return [f"left so: {run.names[number]} was killed for good" for number in sorted(run.gone)]
