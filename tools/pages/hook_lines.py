"""How long the hooks of each store are, as docs/HOOKS.md has it.

A line counts if it has code: no blank line, no comment and no text that only documents. What a
guarded run needs is all but `check`, `get`, `salvage` and `files`, and what only these use.
"""

from __future__ import annotations

import ast
import io
import tokenize
from collections.abc import Iterator

import tables
from source import ROOT

HOOKS = "setup start ready join leave elect pause resume whole write check get read salvage".split()
HOOKS += ["rescue"]
OPTIONAL = {"check", "get", "salvage", "files"}
NO_CODE = {
    tokenize.COMMENT,
    tokenize.NL,
    tokenize.NEWLINE,
    tokenize.INDENT,
    tokenize.DEDENT,
    tokenize.ENDMARKER,
}


def code_lines(source: str) -> set[int]:
    """The numbers of the lines that have code."""
    found: set[int] = set()
    for token in tokenize.generate_tokens(io.StringIO(source).readline):
        if token.type not in NO_CODE:
            found.update(range(token.start[0], token.end[0] + 1))
    for node in ast.walk(ast.parse(source)):
        if isinstance(node, (ast.Module, ast.FunctionDef, ast.ClassDef)) and ast.get_docstring(
            node
        ):
            found.difference_update(lines_of(node.body[0]))
    texts = source.splitlines()
    return {number for number in found if texts[number - 1].strip()}


def lines_of(node: ast.stmt) -> range:
    decorators: list[ast.expr] = getattr(node, "decorator_list", [])
    first = min([node.lineno, *(it.lineno for it in decorators)])
    return range(first, (node.end_lineno or node.lineno) + 1)


def defined_by(statement: ast.stmt) -> set[str]:
    """The names that a statement defines."""
    if isinstance(statement, (ast.FunctionDef, ast.ClassDef)):
        return {statement.name}
    if isinstance(statement, (ast.Import, ast.ImportFrom)):
        return {it.asname or it.name for it in statement.names}
    stores = [it for it in ast.walk(statement) if isinstance(it, ast.Name)]
    return {it.id for it in stores if isinstance(it.ctx, ast.Store)}


def used_by(statement: ast.stmt) -> set[str]:
    return {it.id for it in ast.walk(statement) if isinstance(it, ast.Name)}


def needed(source: str) -> Iterator[ast.stmt]:
    """The statements that a guarded run needs."""
    body = ast.parse(source).body
    names = [defined_by(it) for it in body]
    wanted = {*HOOKS} - OPTIONAL
    while True:
        found = [it for it, its in zip(body, names) if not its or its & wanted]
        more = wanted.union(*map(used_by, found))
        if more == wanted:
            yield from found
            return
        wanted = more


def counted(source: str) -> tuple[int, int]:
    """How many lines a guarded run needs, and how many there are."""
    code = code_lines(source)
    within = {number for it in needed(source) for number in lines_of(it)}
    return len(code & within), len(code)


def stores() -> dict[str, tuple[int, int]]:
    """Of each store of examples/."""
    paths = sorted(ROOT.glob("examples/*/hooks"))
    return {path.parent.name: counted(path.read_text()) for path in paths}


def made() -> str:
    heads = ("Store", "Lines that a guarded run needs", "All, with `check`, `get` and `salvage`")
    rows = [
        (f"[{name}](../examples/{name}/README.md)", str(few), str(every))
        for name, (few, every) in stores().items()
    ]
    return tables.table(heads, rows)
