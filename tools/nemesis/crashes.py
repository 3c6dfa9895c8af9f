"""Processes of the store that end by themselves: nobody struck them, so that is a finding."""
import re
import signal
from collections.abc import Sequence
from pathlib import Path

LOG_END = 4000  # bytes of a log that are kept with an end
LOOKED_AT = 1 << 16  # bytes of it in which the first error is looked for
ROUNDS = 50  # looks at a process that is up, some 5 seconds, within which it tells why it ends
# A line of a backtrace, as of C, Java and Go.
FRAME = re.compile(r"\s*(#\d+\s|at \S+\(|\S+\.go:\d+)")
# What a line has that tells of an error: its level, as logs of many kinds have it, or its words.
LEVEL = re.compile(
    r"\b(ERROR|FATAL|PANIC|SEVERE|CRITICAL)\b|\[(ERR|error|fatal|crit|emerg)\]|\|(ERR|EMER)\|"
    r'|\blevel"?[=:] ?"?(error|fatal|panic|dpanic|critical)\b| [EFC] \| |^[EF]\d{4} '
)
WORDS = re.compile(
    r"(?i:segmentation fault|bus error|assert|panic|fatal|abort|exception)|\bSIG[A-Z]{3}"
    r"|^(?i:error|traceback)\b|: (?i:error): "
)
# What a line has that tells of none, whatever its words; the last is what PostgreSQL tells clients.
MILD = re.compile(
    r"\b(WARN|WARNING|INFO|NOTICE|DEBUG)\b|\[(Warning|Note|warn|warning|info|notice|debug)\]"
    r'|\blevel"?[=:] ?"?(warn|warning|info|debug)\b| [WNID] \| |^[WI]\d{4} '
    r"|FATAL:  the database system is "
)
SHORTEST, LONGEST = 0.1, 5.0  # seconds until a process that ended by itself is started again


class Crashes:
    """How often a process ended that nobody struck."""

    def __init__(self) -> None:
        self.up = self.before = 0  # while it was up, and before
        self._in_a_row = 0  # before, since it was up
        self.last = ""

    def add(self, was_up: bool, status: int, log: list[str]) -> int:
        """Another one; how many there are."""
        self.up += was_up
        self.before += not was_up
        self._in_a_row = 0 if was_up else self._in_a_row + 1
        self.last = f"with status {in_words(status)}: {telling(log)}"
        return self.up + self.before

    def pause(self) -> float:
        """How long to wait: twice as long each time that it has ended before it was up."""
        return min(SHORTEST * 2.0 ** max(self._in_a_row - 1, 0), LONGEST)

    def __str__(self) -> str:
        counts = f"{self.up} times while it was up, {self.before} times before"
        return f"ended by itself {counts}; last {self.last}"


def in_words(status: int) -> str:
    """A status, with the signal that it may stand for: a keeper and a shell add 128 to it."""
    try:
        if status < 0:
            return f"{status} ({signal.Signals(-status).name})"
        return f"{status} (128 + {signal.Signals(status - 128).name})"
    except ValueError:
        return str(status)


def tells_of_an_error(line: str) -> bool:
    """Whether a line of a log does, by its level or its words."""
    is_none = FRAME.match(line) or MILD.search(line)
    return not is_none and bool(LEVEL.search(line) or WORDS.search(line))


def telling(log: Sequence[str]) -> str:
    """The line that says why a process ended: the first of an error, else the last."""
    found = next(filter(tells_of_an_error, log), log[-1] if log else "its log says nothing")
    return "its log ends with a backtrace" if FRAME.match(found) else found.strip()


def end_of_log(path: Path, begin: int) -> list[str]:
    """The last lines of a log, from a place on; before them the first of an error."""
    last = lines_of(path, begin, LOG_END)
    first = next(filter(tells_of_an_error, lines_of(path, begin, LOOKED_AT)), None)
    return last if first is None or first in last else [first, *last]


def lines_of(path: Path, begin: int, most: int) -> list[str]:
    """The lines of a log from a place on, in at most its last so many bytes."""
    with path.open("rb") as log:
        log.seek(max(begin, path.stat().st_size - most))
        return log.read().decode(errors="replace").splitlines()
