"""What is made of the source, and where it stands."""

from __future__ import annotations

import re
from collections.abc import Callable, Collection
from pathlib import Path

import acts
import contracts
import definitions
import faults
import header
import hook_lines
import layers
import limits
import questions
import recipes
import targets
import words
from source import ROOT, PagesError

BEGIN = "<!-- begin: {}, made from the source by make pages -->"
END = "<!-- end of what is made -->"

# Pages that the repository doesn't keep, since the source says nearly all of them, and where the
# rest of each stands. The site and the packages have them.
UNKEPT = {
    "docs/DEFINITIONS.md": "tools/pages/heads/DEFINITIONS",
    "docs/CONTRACTS.md": "tools/pages/heads/CONTRACTS",
}

# A page, the part of it that is made, and what makes it.
PARTS: tuple[tuple[str, str, Callable[[], str]], ...] = (
    ("docs/DEFINITIONS.md", "definitions", definitions.made),
    ("docs/CONTRACTS.md", "contracts", contracts.made),
    ("docs/ARCHITECTURE.md", "crates", layers.crate_table),
    ("docs/CONTRIBUTING.md", "targets", targets.made),
    ("docs/CONTRIBUTING.md", "recipes", recipes.made),
    ("docs/HOOKS.md", "hooks", hook_lines.made),
    ("docs/GUARD.md", "faults", faults.made),
    ("docs/FORMATS.md", "acts", acts.acts),
    ("docs/FORMATS.md", "replies", acts.replies),
    ("docs/FORMATS.md", "rules", acts.rules),
    ("docs/FORMATS.md", "refusals", acts.refusals),
    ("docs/FORMATS.md", "questions", questions.asked),
    ("docs/FORMATS.md", "answers", questions.answers),
    ("docs/FORMATS.md", "examples of questions", questions.asked_and_told),
    ("docs/FORMATS.md", "limits", limits.made),
    ("docs/LIBRARY.md", "calls", header.made),
    ("docs/LIBRARY.md", "undefined", header.undefined),
)


def with_part(page: str, name: str, part: str) -> str:
    """The page with this part between its marks."""
    before, begin, rest = page.partition(BEGIN.format(name))
    _, end, after = rest.partition(END)
    if not begin or not end:
        raise PagesError(f"a page has no marks for its {name}")
    return f"{before}{begin}\n\n{part}\n\n{end}{after}"


def by_hand(page: str) -> str:
    """What of a page is written by hand: all that stands outside such marks, those of
    release/pages, and those of tables that a run printed."""
    return re.sub(r"(?s)<!-- begin: .*?<!-- end of .*?-->", "", page)


def pages(names: Collection[str]) -> dict[Path, str]:
    """These pages as they should be."""
    found: dict[Path, str] = {}
    for name, part, make in PARTS:
        if name in names:
            path = ROOT / name
            page = found.get(path) or (ROOT / UNKEPT.get(name, name)).read_text()
            found[path] = with_part(page, part, make())
    return found


def kept() -> dict[Path, str]:
    """Each page of the repository that has a made part, the diagram, and the table of words, all
    as they should be."""
    whole = {
        ROOT / "docs/layers.svg": layers.diagram(),
        ROOT / "release/words.toml": words.made(),
    }
    return whole | pages({name for name, _, _ in PARTS} - set(UNKEPT))


def unkept() -> dict[Path, str]:
    """Each page that the repository doesn't keep."""
    return pages(UNKEPT)
