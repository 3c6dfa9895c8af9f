#!/usr/bin/env python3
"""Counts the words that were written by hand in the two books, page by page.

    tests/pages/lengths.py

What a program makes or prints stands between marks, and isn't counted. In *Use* a word has a
letter: code within a line is one, a link is its text, and blocks of code have none. Of *Inside* all
counts that stands between blanks, code and the signs of tables too.
"""
import re
import sys
import unittest
from collections.abc import Callable, Iterator
from pathlib import Path

ROOT = Path(__file__).resolve().parents[2]
sys.path[:0] = [str(ROOT / "tools/pages")]

import made

USE = (
    "README.md CHANGELOG.md docs/GUARD.md docs/HOOKS.md docs/NEMESIS.md docs/POLICIES.md "
    "docs/FINDINGS.md docs/STORES.md docs/COMMANDS.md docs/COOKBOOK.md docs/FORMATS.md "
    "docs/LIBRARY.md docs/GLOSSARY.md docs/KUBERNETES.md bindings/*/README.md"
)
INSIDE = (
    "docs/ARCHITECTURE.md docs/CONTRIBUTING.md docs/DECISIONS.md docs/PERFORMANCE.md "
    "docs/PROVED.md tools/pages/heads/*"
)


def words(text: str) -> int:
    prose = re.sub(r"(?ms)^ *```.*?^ *```$|<!--.*?-->", "", made.by_hand(text))
    plain = re.sub(r"!?\[([^\]]*)\]\([^)]*\)", r"\1", re.sub(r"`[^`\n]*`", "code", prose))
    return len(re.findall(r"\S*[^\W\d_]\S*", plain))


def words_and_signs(text: str) -> int:
    return len(made.by_hand(text).split())


# The pages of each book, how much it may have, and what is counted.
BOOKS: dict[str, tuple[str, int, Callable[[str], int]]] = {
    "Use": (USE, 20_000, words),
    "Inside": (INSIDE, 12_000, words_and_signs),
}
# What a page alone may have, with all that stands between blanks.
PAGES = {"README.md": 1200, "docs/ARCHITECTURE.md": 2500}


def counts(book: str) -> dict[str, int]:
    places, _, count = BOOKS[book]
    found = sorted(path for place in places.split() for path in ROOT.glob(place))
    return {str(path.relative_to(ROOT)): count(path.read_text()) for path in found}


def of_the_site(book: str) -> set[str]:
    """The pages of a book's tab on the site."""
    tab = (ROOT / "mkdocs.yml").read_text().partition(f"\n  - {book}:\n")[2]
    return set(re.findall(r"(\S+\.md)$", re.split(r"(?m)^  - ", tab)[0], re.M))


def too_long() -> Iterator[str]:
    """Each page and each book that is over its limit."""
    for page, most in PAGES.items():
        if (found := words_and_signs((ROOT / page).read_text())) > most:
            yield f"{page} has {found} words by hand, of {most}"
    for book, its in BOOKS.items():
        if (found := sum(counts(book).values())) > its[1]:
            yield (
                f"{book} has {found} words by hand, of {its[1]}:"
                " tests/pages/lengths.py has each page"
            )


class Lengths(unittest.TestCase):
    def test_figures_and_signs_are_no_words(self) -> None:
        self.assertEqual(words("| a | 12 | - |\n|---|---|---|\n| 3.5, b | 0 | × |"), 2)

    def test_code_is_one_word_and_a_link_its_text(self) -> None:
        self.assertEqual(words("[so it is](a/b c.md) `a b c`\n```sh\na b c\n```"), 4)

    def test_what_is_made_or_printed_is_left_out(self) -> None:
        of_source = made.BEGIN.format("x"), made.END
        of_table = (
            "<!-- begin: this table is generated from x -->",
            "<!-- end of the generated table -->",
        )
        of_run = "<!-- begin: printed by x -->", "<!-- end of what was printed -->"
        for begin, end in (of_source, of_table, of_run):
            self.assertEqual(words(f"a\n{begin}\nb c\n{end}\nd"), 2)
            self.assertEqual(words_and_signs(f"a\n{begin}\nb c\n{end}\nd |"), 3)

    def test_every_page_of_a_book_is_there(self) -> None:
        for its in BOOKS.values():
            lacking = [it for it in its[0].split() if not [*ROOT.glob(it)]]
            self.assertEqual(lacking, [])

    def test_a_tab_of_the_site_has_the_pages_that_are_counted(self) -> None:
        for book in BOOKS:
            pages = {made.UNKEPT.get(page, page) for page in of_the_site(book)}
            self.assertEqual(pages, {*counts(book)})


if __name__ == "__main__":
    for name, its_book in BOOKS.items():
        its = counts(name)
        print(*(f"{count:6,} {page}" for page, count in its.items()), sep="\n")
        print(f"{sum(its.values()):6,} {name}, of {its_book[1]:,}")
