"""Finds long sentences in the pages for who has a store."""
import re
import unittest
from collections.abc import Iterator
from pathlib import Path

ROOT = Path(__file__).resolve().parents[2]
MOST = 30
USE = (
    "README.md CHANGELOG.md SECURITY.md docs/GUARD.md docs/HOOKS.md docs/NEMESIS.md "
    "docs/POLICIES.md docs/FINDINGS.md docs/STORES.md docs/COMMANDS.md docs/COOKBOOK.md "
    "docs/FORMATS.md docs/LIBRARY.md docs/GLOSSARY.md docs/KUBERNETES.md "
    "bindings/*/README.md examples/*/README.md"
)


def blocks(text: str) -> Iterator[str]:
    """Paragraphs, items of lists and cells of tables, without code and headings."""
    prose = re.sub(r"(?ms)^ *```.*?^ *```$|<!--.*?-->", "", text)
    prose = re.sub(r"(?m)^\s*#.*", "", prose)
    prose = re.sub(r"(?m)^\|.*", lambda row: re.sub(r"(?<!\\)\|", "\n\n", row.group()), prose)
    items = re.sub(r"(?m)^\s*([-*]|\d+\.) ", "\n\n", prose)
    yield from re.split(r"\n\s*\n", items)


def long_in(text: str) -> Iterator[str]:
    """Sentences of too many words. What is set as code is one word, and a link is its text."""
    for block in blocks(text):
        plain = re.sub(r"!?\[([^\]]*)\]\([^)]*\)", r"\1", re.sub(r"`[^`]*`", "code", block))
        for sentence in re.split(r"(?<=[.!?])[)*_]*\s+", plain):
            if len(re.findall(r"\S*\w\S*", sentence)) > MOST:
                yield " ".join(sentence.split())


def too_long() -> Iterator[str]:
    for path in sorted(it for place in USE.split() for it in ROOT.glob(place)):
        for sentence in long_in(path.read_text()):
            yield f"{path.relative_to(ROOT)}: over {MOST} words: {sentence}"


class Sentences(unittest.TestCase):
    def test_a_sentence_of_31_words(self) -> None:
        self.assertEqual([*long_in("it " * 30 + "is.")], ["it " * 30 + "is."])
        self.assertEqual([*long_in("it " * 30 + ".\n- it is")], [])

    def test_a_link_is_its_text_and_code_one_word(self) -> None:
        self.assertEqual([*long_in("it " * 28 + "[so](a/b.md) `a b c`.")], [])
        self.assertEqual(len([*long_in("it " * 29 + "[so is](a/b.md).")]), 1)

    def test_headings_and_blocks_of_code_have_none(self) -> None:
        words = "it " * 31
        self.assertEqual([*long_in(f"```\n{words}\n```\n\n# {words}")], [])

    def test_each_cell_of_a_table_stands_alone(self) -> None:
        words = "it " * 20
        self.assertEqual([*long_in(f"| {words}| {words}|\n| {words}| `|` |")], [])
        self.assertEqual(len([*long_in(f"| a | {words * 2}|")]), 1)
