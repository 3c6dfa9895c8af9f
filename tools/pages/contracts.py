"""docs/CONTRACTS.md: each public function with the names of its clauses and what they cite."""

from __future__ import annotations

import re
from collections import Counter

from source import ROOT, Crate, Function, Place, Specs, crates
from tables import cell, table


def calls_of_the_header() -> dict[str, str]:
    """For each export of the C library the inline call of the header that is for C programs."""
    text = (ROOT / "include/faultyard.h").read_text()
    found: dict[str, str] = {}
    for name, body in re.findall(r"(?ms)^static inline \w+ \*?(\w+)\([^)]*\)\s*\{(.*?)^\}", text):
        for export in re.findall(r"\b(fy_\w+)\(", body):
            if re.search(rf"(?m)^\w+ \*?{export}\([^{{]*?;", text):
                found.setdefault(export, name)
    return found


def named_for_c(text: str, inline: dict[str, str]) -> str:
    """A text that names calls as the header has them for C programs."""
    return re.sub(r"\bfy_\w+", lambda found: inline.get(found[0], found[0]), text)


def clauses(function: Function) -> str:
    """The clauses by kind, each by its name if it has one."""
    parts = []
    for kind in ("requires", "ensures"):
        names = [name for its, name in function.clauses if its == kind]
        if names:
            parts.append(f"{kind} {', '.join(f'`{it}`' for it in names if it)}".strip())
    return "; ".join(parts)


def shown(place: Place, crate: str) -> str:
    """A definition by its name, and by its crate where that is another."""
    return f"`{place[2]}`" if place[0] == crate else f"`{place[2]}` ({place[0]})"


def row(function: Function, inline: dict[str, str]) -> tuple[str, ...]:
    name = inline.get(function.name, "")
    says = cell(named_for_c(function.says, inline))
    cited = sorted(function.cites, key=lambda it: (it[0] != function.crate, it[2]))
    return (
        f"`{name}` (export `{function.name}`)" if name else f"`{function.name}`",
        says,
        clauses(function) or "safe, and returns",
        ", ".join(shown(it, function.crate) for it in cited),
    )


def section(crate: Crate, specs: Specs, inline: dict[str, str]) -> str:
    functions = [it for it in crate.functions(specs) if it.is_public]
    laws = [it for it in functions if "laws" in it.path]
    calls = [it for it in functions if "laws" not in it.path]
    models = [
        (f"`{name}`", ", ".join(shown(it, crate.name) for it in sorted(value)))
        for name, value in sorted(crate.models(specs))
        if value
    ]
    parts = [f"## `{crate.name}`", cell(crate.says)]
    if models:
        parts.append(table(("Type", "Seen as"), models))
    for kind, found in (("Function", calls), ("Law", laws)):
        if found:
            heads = (kind, "Its comment", "Its clauses", "Cited")
            parts.append(table(heads, [row(it, inline) for it in found]))
    return "\n\n".join(parts)


def made() -> str:
    specs, inline = Specs.read(), calls_of_the_header()
    return "\n\n".join(
        section(it, specs, inline if it.name == "fy_c" else {})
        for it in map(Crate, crates())
        if any(function.is_public for function in it.functions(specs))
    )


def twice_named() -> list[str]:
    """Public functions of one crate that have one name: a row must tell which it is."""
    specs = Specs.read()
    found = []
    for crate in map(Crate, crates()):
        names = Counter(it.name for it in crate.functions(specs) if it.is_public)
        found += [f"{crate.name}: {name}" for name, count in names.items() if count > 1]
    return found
