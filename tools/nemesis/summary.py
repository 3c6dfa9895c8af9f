"""What a run comes to, in lines for people, and as the status of the tool."""
from collections.abc import Iterator, Mapping, Sequence
from dataclasses import dataclass, field
from typing import NamedTuple

from faultyard.verdicts import Judged, Linear, Verdict

from . import DAMAGED, HOOK, LITTLE, LONG, LOST, MISSING, NONE_LOST, NOT_LINEARIZABLE, STALE
from . import UNREAD, UNREADABLE, UNTORN, WRONG
from .disks import Cut

FEW = 100  # acknowledged writes: with fewer a run says little
# Controls that have to lose records.
MILD = "unguarded, and nothing was lost: --plan attrition destroys more"
DEAF = "the disks were deaf, and nothing was lost: only a power cut of all that have it takes it"
QUIET = 1.0  # seconds without an acknowledgement that count as a time without writes


@dataclass(frozen=True)
class Amount:
    """How much was done in a run."""

    acked: int
    pauses: Sequence[float]  # the times without an acknowledgement
    destroyed: int
    healed: int
    partitions: int = 0
    failed: Mapping[str, int] = field(default_factory=dict)  # writes that weren't acknowledged
    said: tuple[str, int] = ("", 0)  # what `write` said most often, and how often
    orders: int = 0
    early: int = 0  # of them, before all were up and whole again
    is_unread: bool = False  # whether `read` told nothing at the end
    cuts: Sequence[Cut] | None = None  # of power; None without disks
    damaged: int | None = None  # disks; None without --damage


class Untested(NamedTuple):
    """What a run didn't test, and how the tool ends for it with --strict."""

    text: str
    status: int = LITTLE

    def __str__(self) -> str:
        return f"tested little: {self.text}"


def untested(amount: Amount, controls: Sequence[str], is_lost: bool) -> Iterator[Untested]:
    """What a run didn't test.

    One of partitions needn't destroy anything. `controls` says of a run that has to lose records
    that it didn't, and `is_lost` whether some are lost, or may be; then none needs to be healed.
    """
    yield from map(Untested, idle(amount))
    if not amount.destroyed and not amount.partitions:
        yield Untested("nothing was destroyed")
    elif amount.destroyed and not amount.healed and not (controls and is_lost):
        yield Untested("nothing that was destroyed was healed")
    if amount.is_unread and not is_lost:
        told = "no `read` was answered at the end: `check` or disks alone say that all is kept"
        yield Untested(told, UNREAD)
    yield from (Untested(text, UNTORN) for text in untorn(amount.cuts))
    if amount.damaged == 0:
        yield Untested("no disk was damaged")
    yield from map(Untested, () if is_lost else controls)


def idle(amount: Amount) -> Iterator[str]:
    """Why too few writes were acknowledged, or too seldom."""
    quiet = [pause for pause in amount.pauses if pause >= QUIET]
    seconds, without = sum(amount.pauses), sum(quiet)
    if is_few := amount.acked < FEW:
        yield f"{amount.acked} writes were acknowledged, fewer than {FEW}"
    if is_idle := without > seconds / 2:
        gaps = f"in {len(quiet)} gap{'s' * (len(quiet) > 1)} of a second or more"
        yield f"for {without:.1f} of {seconds:.1f} seconds no write was acknowledged, {gaps}"
    if is_idle and amount.early > amount.orders / 2:
        came = f"{amount.early} of {amount.orders} orders came before all were up and whole again"
        yield f"{came}: --when-whole waits for that, and --pauses are longer"
    if amount.failed and (is_few or is_idle):
        yield failures(amount)


def untorn(cuts: Sequence[Cut] | None) -> Iterator[str]:
    """Why power cuts took nothing. The disks of the kernel don't tell."""
    total = sum(cuts or (), Cut(0, 0))
    if cuts is None:
        return
    if not cuts:
        yield "no power was cut"
    elif total.unsynced == 0:
        yield f"nothing was unsynced at any of {len(cuts)} power cuts"
    elif total.survived is not None and total.survived == total.unsynced:
        kept = f"{len(cuts)} power cuts kept all {total.unsynced} unsynced items"
        yield f"{kept}: with --tear none they keep none"


def strictly(status: int, found: Sequence[Untested], is_long: bool) -> int:
    """How the tool ends with --strict, where it would have ended so."""
    if status != NONE_LOST:
        return status
    return min((it.status for it in found), default=LONG if is_long else NONE_LOST)


def failures(amount: Amount) -> str:
    """How many writes had no acknowledgement, and what `write` wrote to standard error most
    often."""
    said, count = amount.said
    kinds = ", ".join(f"{number} {kind}" for kind, number in amount.failed.items())
    text = f"{sum(amount.failed.values())} writes weren't acknowledged ({kinds})"
    return f"{text}; `write` said most often, {count} times: {said}" if said else text


def closing(judged: Judged) -> str:
    """How many records there are of each verdict."""
    counts = ", ".join(f"{judged[it]} {it}" for it in Verdict)
    return f"{judged['acknowledged']} acknowledged: {counts}"


def besides(judged: Judged) -> Iterator[str]:
    """What else was counted, if it was."""
    texts = {
        "unwritten": "keys were read with a value that nobody wrote there",
        "gone": "records that weren't acknowledged were read, and are lost",
        "refused": "writes that `write` said no to were done",
        "recovered": "writes that weren't acknowledged were done",
        "twice": "keys were told twice by `read`",
    }
    yield from (f"{judged[name]} {text}" for name, text in texts.items() if judged[name])
    if seconds := judged.counts.get("staleness"):
        parts = ", ".join(f"{it / 1e9:.3f}" for it in seconds)
        yield f"stale for {parts} s: the least, half, 95 and 99 of 100, the most"


def told_keys(linear: Linear, shown: int) -> list[str]:
    """Which keys aren't linearizable, if that was asked."""
    if not linear.counts:
        return []
    keys, operations = linear.counts["keys"], linear.counts["operations"]
    text = f"{len(linear.lines)} of {keys} keys aren't linearizable, in {operations} operations"
    some = ", ".join(linear.keys[:shown]) + (" .." if len(linear.lines) > shown else "")
    return [f"{text}: {some}, in linear.jsonl" if linear.lines else text]


def status(
    judged: Judged, linear: Linear, is_fresh: bool, is_unread: bool, told_alone: int = 0
) -> int:
    """How the tool ends after a run that went on to its end.

    `is_fresh`: the store promises that no answer lags. `is_unread`: the hook `read` hung.
    `told_alone`: so many values a process with a damaged disk told wrongly, and no other.
    """
    findings = (
        (judged["lost"], LOST),
        (judged["wrong"] + judged["unwritten"], WRONG),
        (judged["missing"], MISSING),
        (linear.keys, NOT_LINEARIZABLE),
        (told_alone, DAMAGED),
        (judged["unreadable"], HOOK if is_unread else UNREADABLE),
        (is_fresh and judged["stale"], STALE),
    )
    return next((status for count, status in findings if count), NONE_LOST)
