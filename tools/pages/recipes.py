"""The recipes of docs/CONTRIBUTING.md: which files a change touches by hand, and how many.

They stand in recipes.toml. Each file has to be there. Of an enum whose words are in
release/words.toml, a file that has all of them has to stand in the recipe, so that none is
forgotten where a new word of it comes.
"""

from __future__ import annotations

import re
import tomllib
from collections.abc import Iterator
from functools import cache
from itertools import product
from typing import Any

import acts
from names import files
from source import ROOT, PagesError
from tables import cell, table

Recipe = dict[str, Any]

# What stands before a word in the names of C and of the bindings, once they have no `_`.
BEFORE = "fy|rule|kinds|put"
IMPORTS = re.compile(r"(?m)^\s*(?:pub )?(?:ghost )?use .*$")


def recipes() -> list[Recipe]:
    return list(tomllib.loads((ROOT / "tools/pages/recipes.toml").read_text())["recipe"])


def spread(pattern: str) -> list[str]:
    """The paths of a pattern, in whose braces names are parted by commas."""
    return ["".join(it) for it in product(*(it.split(",") for it in re.split("[{}]", pattern)))]


def touched(recipe: Recipe) -> list[str]:
    """The files of a recipe, each once."""
    its = (path for step in recipe["step"] for it in step["files"] for path in spread(it))
    return list(dict.fromkeys(its))


@cache
def texts() -> dict[str, str]:
    """Each file that git knows, by its path."""
    return {str(it.relative_to(ROOT)): it.read_text(errors="replace") for it in files()}


def others(recipe: Recipe) -> list[str]:
    """The files that have the words for another reason: they are made, or show them."""
    return [path for it in recipe.get("others", ()) for path in spread(it)]


def has_all(text: str, words: list[str]) -> bool:
    """Whether each word stands in a text, as a word or as a constant of some language."""
    if words[-1].lower().replace("_", "") not in text.replace("_", "").lower():
        return False  # most files, without a look for imports
    plain = IMPORTS.sub("", text).replace("_", "").lower()
    spelled = {word: name.lower() for name, word in acts.NAMES.items()}
    for word in (it.lower().replace("_", "") for it in words):
        either = f"{word}|{spelled[word]}" if word in spelled else word
        if not re.search(rf"(?<![a-z])(?:{BEFORE})?(?:{either})(?![a-z])", plain):
            return False
    return True


def forgotten(recipe: Recipe) -> Iterator[str]:
    """The files that have all words of the recipe's enum, and don't stand in it."""
    if "words" not in recipe:
        return
    words = [*tomllib.loads((ROOT / "release/words.toml").read_text())[recipe["words"]]]
    there = {*touched(recipe), *others(recipe), "release/words.toml"}
    within = tuple(recipe.get("within", [""]))
    for name, text in texts().items():
        if name.startswith(within) and name not in there and has_all(text, words):
            yield f"{name} has all {recipe['words']}, and isn't in the recipe for {recipe['what']}"


def unlike(recipe: Recipe) -> Iterator[str]:
    """Where the recipe's example is none of its enum's words."""
    if "words" in recipe:
        words = tomllib.loads((ROOT / "release/words.toml").read_text())[recipe["words"]]
        if recipe["like"].lower() not in {it.lower() for it in words}:
            yield f"the recipe for {recipe['what']} is as {recipe['like']}, which is none"


def wrong() -> Iterator[str]:
    for recipe in recipes():
        yield from unlike(recipe)
        for name in (*touched(recipe), *others(recipe)):
            if not (ROOT / name).is_file():
                yield f"the recipe for {recipe['what']} names {name}, which isn't there"
        yield from forgotten(recipe)


def rows(recipe: Recipe) -> Iterator[tuple[str, str, str]]:
    for step in recipe["step"]:
        yield ", ".join(f"`{it}`" for it in step["files"]), cell(step["does"]), cell(step["told"])


def made() -> str:
    """A table for each recipe, below a heading that has its count."""
    for why in wrong():
        raise PagesError(why)
    parts = []
    for it in recipes():
        what, like, count = it["what"], it["like"], len(touched(it))
        heads = ("Files", "What", "A forgotten one is told by")
        parts += [f"### {what[0].upper()}{what[1:]}: {count} files, as `{like}`"]
        parts += [table(heads, rows(it))]
    return "\n\n".join(parts)
