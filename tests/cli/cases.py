"""The cases of command lines, as the files COMMAND.toml beside this one say them."""

from __future__ import annotations

import subprocess
import tomllib
from collections.abc import Iterator
from dataclasses import dataclass
from pathlib import Path

HERE = Path(__file__).resolve().parent
# Before each script that makes an input: the words that such scripts share.
INPUTS = (HERE / "inputs.sh").read_text()


@dataclass(frozen=True)
class Case:
    """A command line, what it is given, and what it must answer."""

    command: str
    name: str
    args: tuple[bytes, ...] = ()
    stdin: bytes = b""
    stdin_from: str = ""
    stdout: bytes = b""
    stdout_to: str = ""
    stderr: bytes = b""
    status: int = 0


def made_by(script: str) -> bytes:
    """What a shell script prints."""
    return subprocess.run(
        ["sh", "-c", f"{INPUTS}\n{script}"], check=True, capture_output=True
    ).stdout


def case_of(command: str, name: str, keys: dict, usual_args: list[str]) -> Case:
    """A case by its table of a file; each key is one of those that tests/cli/run names."""
    given = dict(keys)
    if "args_make" in given:
        args = made_by(given.pop("args_make")).splitlines()
    else:
        args = [it.encode() for it in given.pop("args", usual_args)]
    if "stdin_make" in given:
        stdin = made_by(given.pop("stdin_make"))
    else:
        stdin = given.pop("stdin", "").encode()
    texts = {key: given.pop(key).encode() for key in ("stdout", "stderr") if key in given}
    return Case(command, name, tuple(args), stdin, **texts, **given)


def cases() -> Iterator[Case]:
    """Each case, in the order of commands and names."""
    for path in sorted(HERE.glob("*.toml")):
        with path.open("rb") as file:
            tables = tomllib.load(file)
        usual_args = tables.pop("args", [])
        for name, keys in tables.items():
            yield case_of(path.stem, name, keys, usual_args)
