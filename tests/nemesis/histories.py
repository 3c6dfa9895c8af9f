"""Looks whether lines are a history, by the format of docs/NEMESIS.md, with nothing of the tool."""

import json
from collections.abc import Iterable
from typing import Any

Line = dict[str, Any]
ENDS = ("ok", "fail", "info")
KINDS = {"RebootProcess", "Reboot", "RebootAndDelete", "KillInstantly", "Clog", None}


class History:
    """Takes one line after the other, and says what is wrong with it."""

    def __init__(self, processes: int, entries: int) -> None:
        self.processes, self.entries = processes, entries
        self.lines, self.time, self.entry, self.written = 0, 0, -1, False
        self.at_work: dict[int, Line] = {}
        self.unknown: set[int] = set()
        self.values: set[tuple[str, str]] = set()

    def take(self, line: Line) -> str | None:
        index, time, f = line.pop("index"), line.pop("time"), line["f"]
        if index != self.lines or time < self.time:
            return "index or time"
        self.lines, self.time = index + 1, time
        if line.get("node") is not None and not 0 <= line["node"] < self.processes:
            return "node"
        match f:
            case "write" | "read":
                return self.operation(line)
            case "entry":
                return self.answered(line)
            case "written":
                again, self.written = self.written, True
                return "written" if again or set(line) != {"f"} else None
            case "salvage" | "plain":
                return None if self.written and self.is_disk(line) else "disk"
        return "f"

    def answered(self, line: Line) -> str | None:
        is_right = self.entry < line["value"] < self.entries and line.get("does") in KINDS
        self.entry = line["value"]
        return None if is_right and set(line) - {"does"} == {"f", "value"} else "entry"

    def is_disk(self, line: Line) -> bool:
        if line["type"] == "told":
            key, value = line["value"]
            is_right = isinstance(value, str) if line["f"] == "salvage" else value is None
            return is_right and isinstance(key, str) and set(line) == {"f", "type", "node", "value"}
        ends = ("all", "some") if line["f"] == "salvage" else ("all",)
        return line["type"] in ends and set(line) == {"f", "type", "node"}

    def operation(self, line: Line) -> str | None:
        members = {"process", "type", "f", "value"} | ({"node"} if line["f"] == "read" else set())
        more = set(line) - members
        if not members <= set(line) or not isinstance(line["value"][0], str):
            return "members"
        if line["type"] == "invoke":
            return "members" if more else self.begins(line)
        if line["type"] not in ENDS or more - {"error", "times"}:
            return "members"
        return self.ends(line, more)

    def begins(self, line: Line) -> str | None:
        who, (key, value), is_write = line["process"], line["value"], line["f"] == "write"
        if who in self.at_work or who in self.unknown:
            return "client"
        self.at_work[who] = line
        if not is_write:
            return None if value is None else "value"
        if self.written or (key, value) in self.values:
            return "a write"
        self.values.add((key, value))
        return None if isinstance(value, str) else "value"

    def ends(self, line: Line, more: set[str]) -> str | None:
        begun, is_ok, is_read = self.at_work.pop(line["process"], None), line["type"] == "ok", False
        if begun is None or any(begun[it] != line[it] for it in ("f", "process")):
            return "client"
        is_read = line["f"] == "read"
        if line["value"][0] != begun["value"][0] or is_read and line["node"] != begun["node"]:
            return "client"
        if not (is_ok and is_read) and line["value"] != begun["value"]:
            return "value"
        if "error" in more and (is_ok or not isinstance(line["error"], str)):
            return "error"
        if "times" in more:
            is_told = is_ok and is_read and line["node"] is None and line["value"][1] is not None
            if not is_told or line["times"] < 2:
                return "times"
        if line["type"] == "info":
            self.unknown.add(line["process"])
        return None


def fault(lines: Iterable[str], processes: int, entries: int) -> str | None:
    """The first line that is wrong, and what is."""
    history = History(processes, entries)
    for number, text in enumerate(lines, 1):
        if wrong := history.take(json.loads(text)):
            return f"line {number}: {wrong}: {text}"
    return None
