"""Says which blocks of pages nobody runs: each command is run by a suite, or a table of shown.py
has the reason why none does."""

from __future__ import annotations

import sys
import unittest
from collections.abc import Iterator
from importlib.machinery import SourceFileLoader
from importlib.util import module_from_spec, spec_from_loader
from pathlib import Path
from types import ModuleType
from typing import Any
from unittest import mock

import shown

ROOT = Path(__file__).resolve().parents[2]
TABLES = {it: getattr(shown, it) for it in ("ELSEWHERE", "NOT_RUN", "NO_COMMANDS")}


def loaded(path: str) -> ModuleType:
    """A suite, whose file has no ending."""
    loader = SourceFileLoader(Path(path).name, str(ROOT / path))
    spec = spec_from_loader(loader.name, loader)
    assert spec
    module = module_from_spec(spec)
    sys.dont_write_bytecode = True
    loader.exec_module(module)
    return module


cookbook = loaded("tests/cookbook/run")


def those_who_run(name: str, page: str, block: shown.Block) -> Iterator[str]:
    """Who runs all commands of a block."""
    wanted = {it.text for it in block.commands()}
    if block.then_run():
        wanted.add(f"{block.then_run()}\n")
    of_cookbook = {text for text, _ in cookbook.cases(page)} if name in cookbook.PAGES else set()
    of_root = {it.text for it in shown.for_a_bare_root(name, page)}
    for suite, its in (("tests/cookbook/run", of_cookbook), ("tests/dist/commands", of_root)):
        if wanted and wanted <= its:
            yield suite
    yield from (shown.ELSEWHERE[it] for it in shown.rows_of(shown.ELSEWHERE, name, block))


def faults_of(name: str, page: str, block: shown.Block) -> Iterator[str]:
    if block.language not in shown.SHELLS | shown.SOURCES:
        yield f"`{block.language}` is no language of a block"
    running = [*those_who_run(name, page, block)]
    idle = [*shown.rows_of(shown.NOT_RUN, name, block)]
    idle += shown.rows_of(shown.NO_COMMANDS, name, block)
    if block.language in shown.SHELLS and not running and not idle:
        yield "no suite runs it, and shown.py has no reason why"
    if running and idle:
        yield f"{running[0]} runs it, and shown.py has a reason why nothing does"


def wrong_rows(pages: dict[str, str]) -> Iterator[str]:
    """Rows that name not exactly one block, or a suite that doesn't read the page."""
    for table, rows in TABLES.items():
        for (name, begin), told in rows.items():
            its = [it for it in shown.blocks(pages.get(name, "")) if it.text.startswith(begin)]
            if len(its) != 1:
                yield f"shown.py: {table}: {len(its)} blocks of {name} begin with {begin!r}"
            suite = ROOT / told
            if table == "ELSEWHERE" and not (suite.is_file() and reads(suite.read_text(), name)):
                yield f"shown.py: {told} doesn't read {name}"


def reads(suite: str, name: str) -> bool:
    """Whether the text of a suite names the folder and the file of a page."""
    return str(Path(name).parent) in suite and Path(name).name in suite


def run_by_nobody(pages: dict[str, str]) -> Iterator[str]:
    """What is wrong with the blocks of pages, each under the path of its page, and with the tables
    of shown.py."""
    yield from wrong_rows(pages)
    for name, page in pages.items():
        for block in shown.blocks(page):
            first = block.text.partition("\n")[0]
            yield from (f"{name}: {it}: {first}" for it in faults_of(name, page, block))


PAGE = """\
Save this as `two.toml`:

```toml
journal_limit = 9
```

Save it as `two.py`, and run `python3 two.py`:

```python
print(2)
```

It prints:

```
2
```

```text
$ cc two.c \\
    -o two
$ ./two
2
```

```sh
./two 1 \\
    2
./two
```
"""


class Shown(unittest.TestCase):
    def setUp(self) -> None:
        self.blocks = shown.blocks(PAGE)

    def test_a_command_goes_on_where_it_is_indented_and_prints_what_is_below(self) -> None:
        wanted = [shown.Command("cc two.c \\\n    -o two\n"), shown.Command("./two\n", "2\n")]
        self.assertEqual(self.blocks[3].commands(), wanted)
        wanted = [shown.Command("./two 1 \\\n    2\n"), shown.Command("./two\n")]
        self.assertEqual(self.blocks[4].commands(), wanted)

    def test_a_source_or_what_is_printed_has_no_commands(self) -> None:
        self.assertEqual([it.commands() for it in self.blocks[:3]], [[], [], []])

    def test_a_file_has_the_name_that_is_said_last(self) -> None:
        self.assertEqual([it.saved_as() for it in self.blocks], ["two.toml", "two.py", "", "", ""])
        above = "Save [that](there.md) as `a.toml`, and this as `b.py`:"
        self.assertEqual(shown.Block("python", "", above).saved_as(), "b.py")
        self.assertEqual(shown.Block("c", "", "This is `b.c`:").saved_as(), "b.c")

    def test_a_bare_root_runs_what_prose_says_and_what_isnt_run_elsewhere(self) -> None:
        with mock.patch.object(shown, "BARE", {"a.md": ""}):
            found = shown.for_a_bare_root("a.md", PAGE)
            self.assertEqual(found[0], shown.Command("python3 two.py\n", "2\n"))
            self.assertEqual(len(found), 5)
            self.assertEqual(shown.for_a_bare_root("b.md", PAGE), [])
            for table in (shown.ELSEWHERE, shown.NOT_RUN):
                with mock.patch.dict(table, {("a.md", "$ cc "): "why"}):
                    self.assertEqual(len(shown.for_a_bare_root("a.md", PAGE)), 3)


class RunByNobody(unittest.TestCase):
    def setUp(self) -> None:
        for name in TABLES:
            self.patch(name, {})
        self.patch("BARE", {"a.md": ""})
        self.rest = {"NO_COMMANDS": {("a.md", "2"): "printed"}}

    def patch(self, name: str, table: dict[Any, str]) -> None:
        patched = mock.patch.dict(getattr(shown, name), table, clear=True)
        patched.start()
        self.addCleanup(patched.stop)

    def found(self, page: str = PAGE, **tables: dict[tuple[str, str], str]) -> list[str]:
        for name, table in {**self.rest, **tables}.items():
            self.patch(name, table)
        return [*run_by_nobody({"a.md": page})]

    def test_nothing_is_wrong(self) -> None:
        self.assertEqual(self.found(), [])

    def test_a_block_that_is_in_no_table(self) -> None:
        told = "a.md: no suite runs it, and shown.py has no reason why: 2"
        self.assertEqual(self.found(NO_COMMANDS={}), [told])

    def test_a_block_that_nobody_runs(self) -> None:
        told = "a.md: no suite runs it, and shown.py has no reason why: "
        for language, text in (("bash", "ls"), ("text", "ls"), ("", "ls")):
            page = f"{PAGE}\n```{language}\n{text}\n```\n"
            self.assertEqual(self.found(page), [told + text])
        self.patch("BARE", {})
        lines = ["2", "$ cc two.c \\", "./two 1 \\"]
        self.assertEqual(self.found(NO_COMMANDS={}), [told + it for it in lines])

    def test_a_block_of_another_language(self) -> None:
        told = ["a.md: `console` is no language of a block: ls"]
        self.assertEqual(self.found(f"{PAGE}\n```console\nls\n```\n"), told)

    def test_a_row_without_a_block_and_one_of_two(self) -> None:
        begun = "shown.py: NOT_RUN: {} blocks of a.md begin with {!r}"
        self.assertEqual(self.found(NOT_RUN={("a.md", "ls"): "why"}), [begun.format(0, "ls")])
        twice = f"{PAGE}\n```\n2, 3\n```\n"
        told = begun.replace("NOT_RUN", "NO_COMMANDS").format(2, "2")
        self.assertEqual(self.found(twice, NOT_RUN={}), [told])

    def test_a_reason_for_what_is_run(self) -> None:
        with mock.patch.object(cookbook, "PAGES", {"a.md": 1}):
            page = "```\n$ ls\n```\n"
            told = "tests/cookbook/run runs it, and shown.py has a reason why nothing does"
            rows = {("a.md", "$ ls"): "why"}
            self.assertEqual(
                self.found(page, NOT_RUN=rows, NO_COMMANDS={}), [f"a.md: {told}: $ ls"]
            )

    def test_a_suite_that_doesnt_read_the_page_or_isnt_there(self) -> None:
        for suite in ("tests/etcd/run", "tests/none"):
            found = self.found(ELSEWHERE={("a.md", "$ cc "): suite})
            self.assertEqual(found, [f"shown.py: {suite} doesn't read a.md"])
