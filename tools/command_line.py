"""What the command lines of the tools have in common: their version, and what they say where they
are wrong or nobody reads."""

from __future__ import annotations

import argparse
import difflib
import os
import subprocess
import sys
from pathlib import Path
from typing import IO, Any, NoReturn

KEPT = Path(__file__).resolve().with_name("version")  # where the tools are installed
TELLS = Path(__file__).resolve().parent.parent / "release/version"  # of a checkout


def version() -> str:
    """The version of the release, which `release/version` tells."""
    if KEPT.is_file():
        return KEPT.read_text("utf-8").strip()
    return subprocess.run([TELLS], capture_output=True, check=True, text=True).stdout.strip()


def printed(text: str | bytes) -> None:
    """Prints a text, as long as somebody reads."""
    try:
        if isinstance(text, bytes):
            sys.stdout.buffer.write(text)
        else:
            sys.stdout.write(text)
        sys.stdout.flush()
    except BrokenPipeError:  # else Python would tell of it at the end
        os.dup2(os.open(os.devnull, os.O_WRONLY), sys.stdout.fileno())


class Parser(argparse.ArgumentParser):
    """Has `--version`. Of a wrong command line it says in one line how it is called, and in another
    what is wrong."""

    def __init__(self, tool: str, calls: str, prog: str | None = None, **more: Any) -> None:
        """`tool` is the name by which it is installed, and `prog` by which it was called, if that
        may be another; `calls` are the words behind it."""
        super().__init__(prog or tool, allow_abbrev=False, **more)
        self._calls = calls
        told = "print the version"
        self.add_argument("--version", action=_Version, const=tool, nargs=0, help=told)

    def parse_args(self, args: Any = None, namespace: Any = None) -> Any:
        words, unknown = self.parse_known_args(args, namespace)
        if unknown:
            self.error(self._wrong(unknown[0]))
        return words

    def error(self, message: str) -> NoReturn:
        self.exit(2, f"usage: {self.prog} {self._calls}\n{self.prog}: {message}\n")

    def _wrong(self, word: str) -> str:
        """What is wrong with a word, and what was probably meant by an option that there isn't."""
        if not word.startswith("-"):
            return f"{word} is a word too many"
        known = [it for it in self._option_string_actions if it.startswith("--")]
        close = difflib.get_close_matches(word.partition("=")[0], known, 1)
        return f"there is no option {word}{f': was {close[0]} meant?' if close else ''}"

    def _print_message(self, message: str, file: IO[str] | None = None) -> None:
        if file is sys.stdout or file is None and message:
            printed(message)
        else:
            super()._print_message(message, file)


class _Version(argparse.Action):
    def __call__(self, parser: argparse.ArgumentParser, *_: Any) -> None:
        printed(f"{self.const} {version()}\n")
        parser.exit()
