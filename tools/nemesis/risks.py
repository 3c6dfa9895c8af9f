"""What each fault may take, and whether the guard is asked: by this plans ask it or don't, and the
page GUARD has it as a table."""
from collections.abc import Iterator, Mapping
from enum import StrEnum
from typing import NamedTuple

from faultyard import Kind
from faultyard.plans import Order

from .damage import FORGETS, NOTICED
from .disturbances import FORMS, Disturbance


class Risk(StrEnum):
    """What a fault may take."""

    NOTHING = "nothing that is synced"
    ALL = "all that the process has"
    VOTES = "what it promised, too"


class Guarded(StrEnum):
    """How the guard bounds a fault."""

    UNASKED = "it isn't asked"
    GRANTS = "it bars by grants and protections"
    POLICY = "it bars what the policy doesn't tolerate"
    CONTROL = "it bars nothing more: a control, by which nobody is blamed"


class Row(NamedTuple):
    """A fault."""

    risk: Risk
    guarded: Guarded
    by: str  # how it is ordered


def rows() -> Iterator[tuple[str, Row]]:
    """All faults."""
    for kind in Kind:
        risk, guarded = Risk.NOTHING, Guarded.GRANTS
        if kind.empties_disk:
            risk, guarded = Risk.ALL, Guarded.POLICY
        yield kind.value, Row(risk, guarded, "`--kinds`")
    yield "partition", Row(Risk.NOTHING, Guarded.UNASKED, "`--plan partition`, with `--net`")
    for name, form in FORMS.items():
        needs = f", with `{form.needs}`" if form.needs else ""
        by = f"`--plan {name}`{needs}: {form.about}"
        yield name, Row(Risk.NOTHING, Guarded.UNASKED, by)
    damage = "`--damage`, where `RebootAndDelete` is answered"
    for name in NOTICED:
        yield name, Row(Risk.ALL, Guarded.POLICY, damage)
    for name in FORGETS:
        yield name, Row(Risk.VOTES, Guarded.CONTROL, damage)


FAULTS: Mapping[str, Row] = dict(rows())
CONTROLS = {
    "--deaf-disks": Row(Risk.ALL, Guarded.CONTROL, "power cuts of all disks"),
    "--unguarded": Row(Risk.ALL, Guarded.CONTROL, "all that is ordered"),
}


def is_asked(order: Order | Disturbance) -> bool:
    """Whether the guard is asked about an order of a plan."""
    if isinstance(order, Disturbance):
        name = order.kind
    else:
        name = "partition" if order.cuts else order.kind.value
    return FAULTS[name].guarded is not Guarded.UNASKED


def table() -> Iterator[tuple[str, ...]]:
    """A line for the faults that are alike: their names, how they are ordered, what they may take,
    and what the guard does."""
    alike: dict[Row, list[str]] = {}
    for name, row in (FAULTS | CONTROLS).items():
        alike.setdefault(row, []).append(f"`{name}`")
    order = [*Guarded]
    for row, names in sorted(alike.items(), key=lambda it: order.index(it[0].guarded)):
        yield ", ".join(names), row.by, row.risk, row.guarded
