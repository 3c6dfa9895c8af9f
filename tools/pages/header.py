"""The calls of a C program in docs/LIBRARY.md, and what is undefined: the header's own comments."""

from __future__ import annotations

import re
from collections.abc import Iterator

from source import ROOT, first_sentence
from tables import cell, table

HEADER = ROOT / "include/faultyard.h"
CALL = re.compile(r"(?m)^/\* ((?:(?!\*/)[\s\S])*?) \*/\nstatic inline \w+ \*?(\w+)\(")
# A sentence of more words ends at its first colon or semicolon.
MOST_WORDS = 30
CODE = re.compile(r"(?<!`)\b((?:fy|FY)_\w+|[A-Z]+_MAX)\b(?!`)")


def lines_of(comment: str) -> list[str]:
    return [re.sub(r"^ \* ?", "", it).rstrip() for it in comment.splitlines()]


def calls() -> Iterator[tuple[str, str]]:
    """Each inline call that has a comment, with its first sentence."""
    for comment, name in CALL.findall(HEADER.read_text()):
        says = first_sentence(lines_of(comment)).replace(" (a text that ends with a zero)", "")
        if len(says.split()) > MOST_WORDS:
            says = re.split("[:;] ", says, maxsplit=1)[0]
        linked = re.sub(r"docs/(\w+\.md)", r"[\1](\1)", says.rstrip("."))
        yield name, CODE.sub(r"`\1`", linked)


def made() -> str:
    return table(("Call", "What it does"), ((f"`{name}`", cell(says)) for name, says in calls()))


def undefined() -> str:
    """A list of what the head of the header calls undefined."""
    head = " ".join(lines_of(HEADER.read_text().partition("*/")[0]))
    listed = head.partition("is undefined: ")[2]
    items, _, rest = listed.partition(". In the child ")
    parts = [CODE.sub(r"`\1`", it.strip()) for it in re.split(r";(?![^(]*\))", items)]
    bullets = "\n".join(f"- {it}" for it in parts)
    return f"{bullets}\n\nIn the child {rest.strip()}"
