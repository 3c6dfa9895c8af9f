"""What pages show: blocks of code, files to save, commands for a shell, and who runs these.

A block of commands is one of `sh`, or one in which `$ ` begins each. A command goes on in the lines
that are indented; behind `$ ` the lines below it are what it prints. Prose that says as what to
save a block may say what to run then.

tests/pages/commands.py holds each block of each page against these tables, and tests/dist/commands
runs the commands of BARE. A row names a block by its page and by how the block begins.
"""

from __future__ import annotations

import re
import textwrap
from dataclasses import dataclass

# A block of these may be commands, or what they print. One of a source is none.
SHELLS = {"", "bash", "sh", "text"}
SOURCES = {"c", "cmake", "cpp", "go", "ini", "java", "python", "rust", "rust,no_run", "toml"}
SOURCES |= {"yaml"}

# The pages whose commands tests/dist/commands runs in a bare root, and the packages of Debian that
# these call. It runs those of the stores' pages too.
BARE = {
    "README.md": "etcd-server",
    "bindings/python/README.md": "python3-venv",
    "docs/COMMANDS.md": "parallel",
    "docs/COOKBOOK.md": "jq",
    "docs/GUARD.md": "curl",
    "docs/HOOKS.md": "",
    "docs/LIBRARY.md": "gcc libc6-dev pkg-config",
}
STORE = re.compile(r"examples/(\w+)/README\.md")

# What runs there the less: the file that runs it elsewhere.
ELSEWHERE = {
    ("bindings/cpp/README.md", "$ c++ "): "tests/bindings/python/test_cpp.py",
    ("bindings/go/README.md", "$ go mod edit "): "tests/bindings/python/test_go.py",
    ("bindings/go/README.md", "$ go run "): "tests/bindings/python/test_go.py",
    ("bindings/java/README.md", "$ javac "): "tests/bindings/python/test_package.py",
    ("bindings/rust/README.md", "$ FAULTYARD_LIB_DIR="): "tests/bindings/python/test_rust.py",
    ("docs/KUBERNETES.md", "zone() "): "tests/serve/test_kubernetes.py",
    ("docs/KUBERNETES.md", "set -eu\nask() "): "tests/serve/test_kubernetes.py",
    ("docs/LIBRARY.md", "$ cc -Iinclude "): "tests/c/run",
    ("examples/etcd/README.md", "able="): "tests/etcd/run",
}
# What nothing runs as it is written, and why.
NOT_RUN = {
    ("bindings/go/README.md", "$ export "): "PREFIX stands for the reader's own",
    ("docs/HOOKS.md", "for host in "): "it takes five hosts: tests/hosts/run has its own",
    ("docs/NEMESIS.md", "faultyard-nemesis "): "it takes a cluster that is up on three hosts",
    ("docs/NEMESIS.md", "faultyard-sweep "): "a hundred runs take an hour",
}
# What no shell is given, and what it is.
NO_COMMANDS = {
    ("docs/CONTRIBUTING.md", "mutant: "): "a mutant",
    ("docs/FORMATS.md", "policy = "): "a grammar",
    ("docs/FORMATS.md", '{"by":1,'): "a script",
    ("docs/FORMATS.md", '{"audit":2}'): "an audit",
    ("docs/FORMATS.md", '{"ask":'): "questions",
    ("docs/FORMATS.md", "text  "): "a grammar",
    ("docs/GUARD.md", "p0: RebootAndDelete"): "what guarded.py prints",
    ("docs/GUARD.md", "p0 dies"): "what guarded.sh prints",
    ("docs/LIBRARY.md", '0 {"form":'): "what an example of the library is told",
}

BLOCK = re.compile(r"^( *)```(\S*)\n(.*?)^\1```$", re.M | re.S)
SAVED = re.compile(
    r"\b(?:save|copy)\b[^`]* as `([\w./]+)`(?:, and this as `([\w./]+)`)?|^this is `([\w./]+)`:",
    re.I | re.M,
)
THEN_RUN = re.compile(r"\bsave\b[^`]*`[^`]+`, and run `([^`]+)`", re.I)


@dataclass(frozen=True)
class Command:
    """A command, and what its page says that it prints, or nothing."""

    text: str
    printed: str = ""


@dataclass(frozen=True)
class Block:
    """A block of code, with the prose between it and the block before."""

    language: str
    text: str
    above: str = ""

    def commands(self) -> list[Command]:
        if self.language == "sh":
            return [Command(it) for it in re.findall(r"^\S.*\n(?: .*\n)*", self.text, re.M)]
        if self.language not in SHELLS or not self.text.startswith("$ "):
            return []
        found = []
        for case in re.split(r"^\$ ", self.text, flags=re.M)[1:]:
            command = re.match(r".*\n(?:    .*\n)*", case)
            assert command
            found.append(Command(command[0], case[command.end() :]))
        return found

    def saved_as(self) -> str:
        """The name of the file that the reader is told to save it as, if any."""
        names = [str(name) for it in SAVED.findall(self.above) for name in it if name]
        return names[-1] if names and self.language not in SHELLS - {"bash"} else ""

    def then_run(self) -> str:
        """The command that the reader is told to run once it is saved, if any."""
        told = THEN_RUN.search(self.above)
        return str(told[1]) if told and self.saved_as() else ""


def blocks(page: str) -> list[Block]:
    found, end = [], 0
    for it in BLOCK.finditer(page):
        found.append(Block(it[2], textwrap.dedent(it[3]), page[end : it.start()]))
        end = it.end()
    return found


def rows_of(table: dict[tuple[str, str], str], name: str, block: Block) -> list[tuple[str, str]]:
    """The rows of a table that name a block of this page."""
    return [it for it in table if it[0] == name and block.text.startswith(it[1])]


def for_a_bare_root(name: str, page: str) -> list[Command]:
    """What tests/dist/commands runs of a page, in the page's order."""
    found: list[Command] = []
    if name not in BARE and not STORE.fullmatch(name):
        return found
    for block, after in zip(its := blocks(page), [*its[1:], Block("text", "")], strict=True):
        if not (rows_of(ELSEWHERE, name, block) or rows_of(NOT_RUN, name, block)):
            found += block.commands()
        if command := block.then_run():
            found.append(Command(f"{command}\n", "" if after.language else after.text))
    return found
