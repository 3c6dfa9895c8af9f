"""The table of make's targets, from the lines with two signs above each in the Makefile."""

from __future__ import annotations

import re
from collections.abc import Iterator

from source import ROOT
from tables import cell, table


def listed() -> Iterator[tuple[str, str]]:
    """Each target, with the variable that it takes, and what it does."""
    text = (ROOT / "Makefile").read_text()
    for says, name in re.findall(r"(?m)^((?:## .*\n)+)(?:# .*\n)*([a-z-]+):", text):
        words = " ".join(it.removeprefix("## ") for it in says.splitlines())
        taken = re.match(r"\w+=\S+ ", words)
        variable = taken.group() if taken else ""
        yield f"make {name} {variable}".strip(), words.removeprefix(variable)


def made() -> str:
    rows = ((f"`{command}`", cell(says)) for command, says in listed())
    return table(("Target", "What it does"), rows)
