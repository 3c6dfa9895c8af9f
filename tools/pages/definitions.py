"""docs/DEFINITIONS.md: each definition of specs/ with its own comment."""

from __future__ import annotations

from collections.abc import Iterator

from source import Crate, Definition, Place, Specs, crates, files_of
from tables import cell, table


def cited_in_public(specs: Specs) -> set[Place]:
    """The definitions of public contracts, and of the values that public types are seen as; and
    those that these cite, and so on."""
    found: set[Place] = set()
    for crate in map(Crate, crates()):
        for function in crate.functions(specs):
            if function.is_public:
                found |= function.cites
        for _, value in crate.models(specs):
            found |= value
    return specs.reached_from(found)


def header(crate: str, file: str) -> str:
    """The comment at the top of a file of specs/."""
    path = next(it for it in files_of(crate, "specs", ".antt") if it.stem == file)
    lines = path.read_text().split("\n")
    count = next(at for at, it in enumerate(lines) if not it.startswith("--"))
    return " ".join(it.removeprefix("--").strip() for it in lines[:count])


def rows(found: list[Definition], public: set[Place]) -> Iterator[tuple[str, str]]:
    for it in found:
        mark = "" if it.place in public else "*private*: "
        yield f"`{it.name}`", mark + cell(it.comment)


def made() -> str:
    """All definitions: crate by crate, file by file, in the order of their files."""
    specs = Specs.read()
    public = cited_in_public(specs)
    parts: list[str] = []
    for crate in crates():
        own = [it for it in specs.found.values() if it.place[0] == crate]
        if own:
            parts += [f"## `{crate}`", cell(Crate(crate).says)]
        for file in dict.fromkeys(it.place[1] for it in own):
            told = header(crate, file)
            parts.append(f"### `{crate}/specs/{file}`" + (f"\n\n{cell(told)}" if told else ""))
            these = [it for it in own if it.place[1] == file]
            parts.append(table(("Name", "Says"), rows(these, public)))
    return "\n\n".join(parts)


def without_comment() -> Iterator[str]:
    """Each definition that has no comment of its own."""
    for it in Specs.read().found.values():
        if not it.comment:
            crate, file, name = it.place
            yield f"crates/{crate}/specs/{file}.antt:{it.line}: {name} has no comment"
