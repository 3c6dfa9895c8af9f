"""What the checks of a release share: where things are, and how programs are called."""

from __future__ import annotations

import functools
import importlib.machinery
import importlib.util
import re
import shutil
import subprocess
import sys
from collections.abc import Mapping
from pathlib import Path
from types import ModuleType

ROOT = Path(__file__).resolve().parent.parent.parent

_program = ROOT / "bin/faultyard"


def choose(path: Path) -> None:
    """Has the checks of pages run another program than bin/faultyard."""
    global _program
    _program = path.resolve()


def program() -> Path:
    return _program


class Skip(Exception):
    """A check can't be made, since one of these programs is missing."""


def need(*programs: str) -> None:
    if not all(map(shutil.which, programs)):
        raise Skip(*programs)


def said(*words: str | Path, cwd: Path = ROOT, env: Mapping[str, str] | None = None) -> str:
    """What a command writes to standard output; it has to end with status 0."""
    ran = subprocess.run(
        words, cwd=cwd, env=env, stdin=subprocess.DEVNULL, capture_output=True, text=True
    )
    assert ran.returncode == 0, f"{words} ended with {ran.returncode}: {ran.stdout}{ran.stderr}"
    return ran.stdout


@functools.cache
def generator() -> ModuleType:
    """The generator release/pages, as a module."""
    name = "release_pages"
    loader = importlib.machinery.SourceFileLoader(name, str(ROOT / "release/pages"))
    spec = importlib.util.spec_from_loader(name, loader)
    assert spec is not None
    module = importlib.util.module_from_spec(spec)
    sys.modules[name] = module  # its dataclasses look for their module by name
    loader.exec_module(module)
    return module


def version() -> str:
    return said("release/version").strip()


def commands() -> list[str]:
    """The commands that the program's help lists, `help` among them."""
    block = said(program(), "--help").partition("\nCommands:\n")[2].partition("\n\n")[0]
    return re.findall(r"^  ([a-z]+) ", block, re.MULTILINE)


def options(command: str | None = None) -> set[str]:
    """The options that the help of the program or of a command lists."""
    words = ["--help"] if command is None else [command, "--help"]
    block = said(program(), *words).partition("\nOptions:\n")[2].partition("\n\n")[0]
    return {
        found
        for line in block.splitlines()
        for found in re.findall(r"(?<![\w-])--?[a-zA-Z][a-z]*", line[:20])
    }


def tools() -> dict[str, Path]:
    """The programs of release/layout but faultyard itself, each with its source."""
    rows = [
        line.split()
        for line in (ROOT / "release/layout").read_text().splitlines()
        if line and line[0] != "#"
    ]
    places = {
        place + Path(source).name if place.endswith("/") else place: ROOT / source
        for source, place, _ in rows
    }
    found = {Path(place).name: it for place, it in places.items() if place.startswith("bin/")}
    return {name: it for name, it in found.items() if name != "faultyard"}


def programs() -> list[str]:
    return ["faultyard", *tools()]


def tells_its_version(name: str, path: Path, env: Mapping[str, str] | None = None) -> None:
    """A program tells its name and the version that `release/version` has, and nothing else."""
    ran = subprocess.run([path, "--version"], env=env, capture_output=True, text=True)
    told = ran.returncode, ran.stdout, ran.stderr
    assert told == (0, f"{name} {version()}\n", ""), f"{path} --version: {told}"


def options_of_tool(name: str) -> set[str]:
    """The options that the help of a tool lists; one that lists none has its help alone."""
    tool = tools()[name]
    if name == "faultyard-serve":  # Its help is a file of its sources; only a release is built.
        text = (ROOT / "tools/serve/help.txt").read_text()
    elif name == "faultyard-lossy":  # Its help is in its source.
        source = (ROOT / "tools/lossy/main.c").read_text().partition("HELP_TEXT[] =")[2]
        lines = re.findall(r'^    "(.*)\\n"', source.partition(";\n\n")[0], re.MULTILINE)
        text = "\n".join(lines) + "\n"
    else:
        text = said(tool, "--help")
    block = text.partition("\noptions:\n")[2]
    listed = re.findall(r"^  (?:(-[a-z]), )?(--[a-z-]+)", block, re.MULTILINE)
    return {it for pair in listed for it in pair if it} or {"-h", "--help"}
