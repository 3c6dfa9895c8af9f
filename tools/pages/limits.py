"""The table of limits: each public constant that says how much there may be."""

from __future__ import annotations

import re
from collections.abc import Iterator

from source import Constant, Crate, crates
from tables import cell, table

LIMIT = re.compile(r"(?:MOST|LEAST|LAST)_")


def value_of(constant: Constant, others: dict[str, Constant]) -> int:
    """The number of a constant, which may be a product with the number of another."""
    number = 1
    for factor in constant.value.split(" * "):
        word = factor.removesuffix(" as usize").strip()
        named = others.get(word)
        number *= value_of(named, others) if named else int(word.replace("_", ""))
    return number


def limits() -> Iterator[tuple[Constant, int]]:
    for crate in map(Crate, crates()):
        own = {it.name: it for it in crate.constants()}
        for name, it in own.items():
            if LIMIT.match(name):
                yield it, value_of(it, own)


def made() -> str:
    rows = (
        (f"{number:,}", cell(it.says).rstrip("."), f"`{it.name}`", f"`{it.crate}`")
        for it, number in limits()
    )
    return table(("Number", "What it bounds", "Constant", "Crate"), rows)
