"""A history as EDN, which Jepsen and the checkers of its histories read."""
import argparse
import json
from collections.abc import Sequence
from pathlib import Path
from typing import Any

from . import say

KEYWORDS = {"type", "f", "process"}  # whose values are keywords, unless they are numbers
OF_ALL, OF_CLIENTS = {"index", "time", "f"}, {"process", "type", "value"}


def edn(value: Any) -> str:
    """A value of JSON as EDN. The texts of JSON are texts of EDN."""
    match value:
        case None:
            return "nil"
        case list():
            return "[" + " ".join(map(edn, value)) + "]"
        case _:
            return json.dumps(value)


def edn_line(line: dict[str, Any]) -> str:
    """A line of history.jsonl as a map. What no client did is the nemesis's, and its `type` is
    `told`, since Jepsen has others."""
    if "process" not in line:
        told = {"told": line["type"]} if "type" in line else {}
        own = {"process": "nemesis", "type": "info", "value": None}
        line = own | {key: it for key, it in line.items() if key != "type"} | told
    pairs = (f":{key} {keyword(it) if key in KEYWORDS else edn(it)}" for key, it in line.items())
    return "{" + ", ".join(pairs) + "}"


def keyword(value: Any) -> str:
    """What Jepsen has as a keyword."""
    return f":{value}" if isinstance(value, str) else edn(value)


class Convert(argparse.Action):
    """Prints the history of a run's folder, or of a file, as EDN, and ends the tool."""

    def __call__(self, parser: argparse.ArgumentParser, _: Any, place: Any, *more: Any) -> None:
        path = Path(place)
        path = path / "history.jsonl" if path.is_dir() else path
        try:
            say("\n".join(converted(path.read_text("utf-8").splitlines())))
        except OSError as fault:
            parser.error(f"{path}: {fault.strerror}")
        except ValueError as fault:
            parser.error(f"{path}: {fault}")
        parser.exit()


def converted(lines: Sequence[str]) -> list[str]:
    """The lines as EDN; a ValueError names the one that is no operation."""
    found = []
    for number, text in enumerate(lines, 1):
        try:
            line = json.loads(text)
            if (
                not OF_ALL | (OF_CLIENTS if line["f"] in ("read", "write") else set())
                <= line.keys()
            ):
                raise ValueError
        except (ValueError, AttributeError, KeyError, TypeError):
            raise ValueError(f"line {number} is no operation") from None
        found.append(edn_line(line))
    return found
