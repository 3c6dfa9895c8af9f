"""What the source says of itself: definitions of specs/, public functions with their contracts,
constants, and the crates. It reads the layout that `rt fmt` leaves."""

from __future__ import annotations

import re
from collections.abc import Iterable, Iterator
from dataclasses import dataclass, field
from functools import cache, cached_property
from pathlib import Path

ROOT = Path(__file__).resolve().parents[2]


class PagesError(Exception):
    """A page can't be made."""


# A crate, a file of its specs/ without the suffix, and a name there.
Place = tuple[str, str, str]

# What a file of specs/ or src/ takes from another of specs/.
IMPORT = re.compile(
    r"(?m)^[ \t]*(?:pub )?(?:ghost )?use Rattle\.(\w+)\.specs\.(\w+)(?: as (\w+)|\.\{([^}]*)\})"
)
# A name of antt: letters, digits, and what stands between the words of an operator.
WORD = re.compile(r"[\w◌'-]+(?:\.[\w']+)?")


@dataclass(frozen=True)
class Definition:
    """A definition of specs/, with the comment above it."""

    place: Place
    comment: str
    text: str
    line: int

    @property
    def name(self) -> str:
        return self.place[2]


@dataclass(frozen=True)
class Function:
    """A function with the first sentence of its comment, and its clauses by kind and name."""

    crate: str
    path: str
    name: str
    says: str
    clauses: tuple[tuple[str, str], ...]
    cites: frozenset[Place]
    is_public: bool


@dataclass(frozen=True)
class Constant:
    """A public constant: its value as the code writes it, and its comment."""

    crate: str
    name: str
    value: str
    says: str


@dataclass
class Imports:
    """Which place a word of a file stands for: of a name, and of a short name for a module."""

    names: dict[str, Place] = field(default_factory=dict)
    modules: dict[str, tuple[str, str]] = field(default_factory=dict)

    @classmethod
    def of(cls, text: str) -> Imports:
        found = cls()
        for crate, module, short, names in IMPORT.findall(text):
            if short:
                found.modules[short] = (crate, module)
            for it in (it.strip() for it in names.split(",") if it.strip()):
                name, _, other = it.partition(" as ")
                found.names[other or name] = (crate, module, name)
        return found

    def cited_in(self, text: str) -> Iterator[Place]:
        for word in WORD.findall(text):
            head, _, tail = word.partition(".")
            if tail and head in self.modules:
                yield (*self.modules[head], tail)
            elif head in self.names:
                yield self.names[head]


def crates() -> list[str]:
    """The crates of crates.txt, from the bottom up."""
    return re.findall(r"^(\w+)[^:#\n]*:", (ROOT / "crates.txt").read_text(), re.M)


def dependencies() -> dict[str, list[str]]:
    """What each crate stands on by crates.txt, with the toolchain's crates."""
    lines = re.findall(r"^(\w+)[^:#\n]*:(.*)$", (ROOT / "crates.txt").read_text(), re.M)
    return {name: its.split() for name, its in lines}


# ---- specs/

ITEM = re.compile(
    r"(?P<indent> *)(?:(?P<how>abbrev|unfoldable) )?(?:pub )?(?:(?P<kind>record|data) )?"
    r"(?P<name>(?!pub\b|use\b|mod\b|unfolding\b|syntax\b|where\b)[^\s:({]+)(?P<rest> .*)?$"
)


def comment_above(lines: list[str], at: int) -> str:
    """The comment that ends in the line before this one, without the lines that part a file."""
    first = at
    while first and lines[first - 1].lstrip().startswith("--"):
        first -= 1
    texts = [it.strip().removeprefix("--").strip() for it in lines[first:at]]
    return " ".join(it for it in texts if not it.startswith("----"))


def defined_at(lines: list[str], at: int, in_mutual: bool) -> re.Match[str] | None:
    """The definition that begins in a line, if one does."""
    found = ITEM.match(lines[at])
    if not found or lines[at].lstrip().startswith(("--", "pub use", "pub mod", "use ")):
        return None
    if in_mutual and found["indent"] == "  ":
        is_one = bool(re.match(r"  (pub|record|data) |  [\w-]+ :", lines[at]))
    else:
        is_one = not found["indent"] and bool(found["how"] or found["kind"])
    return found if is_one and found["name"] != "mutual" else None


def definitions_of(crate: str, path: Path) -> Iterator[Definition]:
    """The definitions of a file of specs/. The comment above a block is that of its first."""
    lines = path.read_text().split("\n")
    starts: list[tuple[int, str, str]] = []
    in_mutual, block = False, ""
    for at, line in enumerate(lines):
        if re.match(r"(abbrev|unfoldable) mutual$", line):
            in_mutual, block = True, comment_above(lines, at)
            continue
        in_mutual = in_mutual and (not line or line.startswith(" "))
        if found := defined_at(lines, at, in_mutual):
            starts.append((at, found["name"], comment_above(lines, at) or block))
            block = ""
    ends = [*(at for at, _, _ in starts), len(lines)][1:]
    for (at, name, comment), end in zip(starts, ends, strict=bool(starts)):
        text = "\n".join(it for it in lines[at:end] if not it.lstrip().startswith("--"))
        yield Definition((crate, path.stem, name), comment, text, at + 1)


@cache
def files_of(crate: str, part: str, suffix: str) -> tuple[Path, ...]:
    return tuple(sorted((ROOT / "crates" / crate / part).rglob(f"*{suffix}")))


@dataclass
class Specs:
    """All definitions, and which of them each one cites."""

    found: dict[Place, Definition]
    handed_on: dict[tuple[str, str], tuple[str, str]]
    imports: dict[tuple[str, str], Imports]

    @classmethod
    def read(cls) -> Specs:
        found: dict[Place, Definition] = {}
        handed_on: dict[tuple[str, str], tuple[str, str]] = {}
        imports: dict[tuple[str, str], Imports] = {}
        for crate in crates():
            for path in files_of(crate, "specs", ".antt"):
                text = path.read_text()
                found |= {it.place: it for it in definitions_of(crate, path)}
                imports[crate, path.stem] = Imports.of(text)
                for low, module in re.findall(r"(?m)^pub use Rattle\.(\w+)\.specs\.(\w+)$", text):
                    handed_on[crate, module] = (low, module)
        specs = cls(found, handed_on, imports)
        for place in found:
            imports[place[0], place[1]].names.setdefault(place[2], place)
        return specs

    def resolved(self, place: Place) -> Place | None:
        """Where a name is defined, if it is a definition of this repository."""
        crate, module, name = place
        while (crate, module) in self.handed_on:
            crate, module = self.handed_on[crate, module]
        return (crate, module, name) if (crate, module, name) in self.found else None

    def all_resolved(self, places: Iterable[Place]) -> frozenset[Place]:
        return frozenset(it for place in places if (it := self.resolved(place)))

    def reached_from(self, places: Iterable[Place]) -> set[Place]:
        """These definitions, those that they cite, and so on."""
        reached: set[Place] = set()
        waiting = list(places)
        while waiting:
            place = waiting.pop()
            if place not in reached:
                reached.add(place)
                cited = self.imports[place[0], place[1]].cited_in(self.found[place].text)
                waiting += self.all_resolved(cited)
        return reached


# ---- src/

MODEL = re.compile(r"(?ms)^impl(?:<[^\n]*?>)? Model for (\w+).*?\{$(.*?)^\}")
FUNCTION = re.compile(
    r"(?P<indent> *)(?P<pub>pub (?:\((?:crate|super|in [\w:]+)\) )?|pub\([\w :]+\) )?"
    r"(?:const |unsafe )*(?P<c>extern \"C\" )?fn (?P<name>\w+)"
)
BLOCK = re.compile(r"(?:unsafe )?impl(?:<.*?>)? (?:(?P<of>[\w:]+)(?:<.*?>)? for )?(?P<type>\w+)")


def first_sentence(lines: list[str]) -> str:
    """The first sentence of a comment that stands in these lines without their marks."""
    text = " ".join(lines[: lines.index("")] if "" in lines else lines)
    linked = re.sub(r"\[(`[^`]+`)\]", r"\1", text)
    return re.split(r"(?<=[.!?]) (?=[A-Z`])", linked, maxsplit=1)[0].strip()


def docs_above(lines: list[str], at: int) -> list[str]:
    """The lines of the comment of an item, above its attributes."""
    found: list[str] = []
    for line in reversed(lines[:at]):
        it = line.strip()
        if it.startswith("///"):
            found.append(it.removeprefix("///").strip())
        elif not it.startswith(("#[", "#![")) or found:
            break
    return found[::-1]


def clauses_in(head: str) -> Iterator[tuple[str, str, str]]:
    """The clauses of a function's head: its kind, its name and its text."""
    for found in re.finditer(r"(?m)^\s*(requires|ensures) (?:(\w+) )?\{", head):
        depth, end = 1, found.end()
        while depth and end < len(head):
            depth += {"{": 1, "}": -1}.get(head[end], 0)
            end += 1
        yield found[1], found[2] or "", head[found.end() : end - 1]


def head_at(lines: list[str], at: int, indent: str) -> str:
    """A function's head, up to its body."""
    for end in range(at, len(lines)):
        line = lines[end]
        if (
            line == indent + "{"
            or line.endswith((" {", ";"))
            and line.startswith(indent)
            and (end == at or line[len(indent)] in ")}w")
        ):
            return "\n".join(lines[at : end + 1])
        if line.startswith(indent + "{"):
            return "\n".join(lines[at:end])
    return "\n".join(lines[at:])


@dataclass
class Crate:
    """The source of one crate."""

    name: str

    @cached_property
    def is_program(self) -> bool:
        return (ROOT / "crates" / self.name / "src/main.rt").exists()

    @cached_property
    def root(self) -> str:
        src = ROOT / "crates" / self.name / "src"
        return (src / ("main.rt" if self.is_program else "lib.rt")).read_text()

    @cached_property
    def says(self) -> str:
        """The first paragraph of the comment at the top of the crate."""
        lines = [it[3:].strip() for it in self.root.split("\n") if it.startswith("//!")]
        return " ".join(lines[: lines.index("")] if "" in lines else lines)

    def module_of(self, path: Path) -> tuple[str, ...]:
        inner = path.relative_to(ROOT / "crates" / self.name / "src").with_suffix("")
        parts = inner.parts
        return parts[:-1] if parts[-1] in ("lib", "main", "mod") else parts

    @cached_property
    def public_modules(self) -> set[tuple[str, ...]]:
        texts = {self.module_of(it): it.read_text() for it in files_of(self.name, "src", ".rt")}
        public: set[tuple[str, ...]] = {()}
        for module in sorted(texts, key=len):
            if module and module[:-1] in public:
                above = texts.get(module[:-1], "")
                if re.search(rf"(?m)^pub mod {module[-1]};", above):
                    public.add(module)
        return public

    @cached_property
    def handed_out(self) -> set[tuple[tuple[str, ...], str]]:
        """The modules and names that the crate's public modules hand out."""
        found: set[tuple[tuple[str, ...], str]] = set()
        for path in files_of(self.name, "src", ".rt"):
            here = self.module_of(path)
            if here in self.public_modules:
                lines = r"(?m)^pub use ((?:\w+::)+)(?:(\w+)|\{([^}]*)\});"
                for where, one, names in re.findall(lines, path.read_text()):
                    parts = tuple(where.split("::")[:-1])
                    module = parts[1:] if parts[0] == "crate" else (*here, *parts)
                    found.update((module, name) for name in re.findall(r"\w+", one or names))
        return found

    def is_reached(self, module: tuple[str, ...], item: str) -> bool:
        return module in self.public_modules or (module, item) in self.handed_out

    def functions(self, specs: Specs) -> Iterator[Function]:
        for path in files_of(self.name, "src", ".rt"):
            if "tests" not in path.parts and path.stem != "tests":
                yield from self.functions_in(path, specs)

    def functions_in(self, path: Path, specs: Specs) -> Iterator[Function]:
        text = path.read_text()
        lines, imports, module = text.split("\n"), Imports.of(text), self.module_of(path)
        block: re.Match[str] | None = None
        trait = ""
        for at, line in enumerate(lines):
            if line.startswith("}"):
                block, trait = None, ""
            elif found := BLOCK.match(line):
                block = found
            elif found := re.match(r"pub trait (\w+)", line):
                trait = found[1]
            found = FUNCTION.match(line)
            if not found or len(found["indent"]) > (4 if block or trait else 0):
                continue
            clauses = [*clauses_in(head_at(lines, at, found["indent"]))]
            of = trait or (block["type"] if block else "")
            if block and block["of"] and not clauses:
                continue  # its contract is the trait's
            is_of_trait = bool(trait or block and block["of"])
            is_public = bool(found["c"]) or (
                (found["pub"] == "pub " or is_of_trait)
                and self.is_reached(module, of or found["name"])
            )
            cited = [it for _, _, clause in clauses for it in imports.cited_in(clause)]
            yield Function(
                crate=self.name,
                path=str(path.relative_to(ROOT)),
                name=self.named(module, of, found["name"]),
                says=first_sentence(docs_above(lines, at)),
                clauses=tuple((kind, name) for kind, name, _ in clauses),
                cites=specs.all_resolved(cited),
                is_public=is_public or self.is_program and bool(clauses),
            )

    def named(self, module: tuple[str, ...], of: str, name: str) -> str:
        """A function by its type, if it has one, and the module through which callers name that."""
        is_apart = module in self.public_modules and (module, of or name) not in self.handed_out
        return "::".join([*(module if is_apart else ()), *([of] if of else ()), name])

    def models(self, specs: Specs) -> Iterator[tuple[str, frozenset[Place]]]:
        """Each public type that callers see as a value, with the definitions of that value."""
        for path in files_of(self.name, "src", ".rt"):
            text = path.read_text()
            imports = Imports.of(text)
            for name, body in MODEL.findall(text):
                value = re.search(r"ghost Value = \{(.*?)\};", body, re.S)
                if value and self.is_reached(self.module_of(path), name):
                    yield name, specs.all_resolved(imports.cited_in(value[1]))

    def constants(self) -> Iterator[Constant]:
        for path in files_of(self.name, "src", ".rt"):
            lines = path.read_text().split("\n")
            for at, line in enumerate(lines):
                if found := re.match(r"pub const (\w+): \w+ = ([^;]+);", line):
                    says = " ".join(docs_above(lines, at))
                    yield Constant(self.name, found[1], found[2], says)
