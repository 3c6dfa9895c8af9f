"""What hooks write to standard error: a file of lines, each with its time and the hook."""
import asyncio
import os
import re
from collections import Counter
from collections.abc import Callable, Iterator
from contextlib import contextmanager, suppress
from pathlib import Path

MOST = 1 << 16  # bytes that are read at once


class HookLog:
    def __init__(self, path: Path, now: Callable[[], float]) -> None:
        self._file = path.open("ab", buffering=0)
        self._now = now
        self._last: dict[str, str] = {}  # line of each call, until it is asked for
        # How often each line of `write` came, whatever its figures, and the first of each.
        self._counts, self._first = Counter[str](), dict[str, str]()

    @contextmanager
    def of(self, call: str) -> Iterator[int]:
        """A descriptor for the standard error of a hook, which has ended when the block ends."""
        source, sink = os.pipe()
        os.set_blocking(source, False)
        lines = _Lines(lambda line: self._write(call, line))
        loop = asyncio.get_running_loop()
        loop.add_reader(source, lambda: lines.take(os.read(source, MOST)))
        try:
            yield sink
        finally:
            loop.remove_reader(source)
            os.close(sink)
            with suppress(BlockingIOError):  # where something escaped, and may still write
                while data := os.read(source, MOST):
                    lines.take(data)
            lines.end()
            os.close(source)

    def said(self, call: str) -> str:
        """The last line that a call wrote, which has ended."""
        return self._last.pop(call, "")

    def said_by_write(self) -> tuple[str, int]:
        """The line that `write` wrote most often, and how often; the last that came, of several."""
        like = max(reversed(self._counts), key=self._counts.__getitem__, default="")
        return self._first.get(like, ""), self._counts[like]

    def _write(self, call: str, line: bytes) -> None:
        if text := line.decode(errors="replace").strip():
            self._last[call] = text
            if call == "write":
                like = re.sub(r"\d+", "0", text)
                self._first.setdefault(like, text)
                self._counts[like] += 1
        self._file.write(f"{self._now():7.2f}  {call}: ".encode() + line + b"\n")


class _Lines:
    """Cuts what comes into lines."""

    def __init__(self, write: Callable[[bytes], None]) -> None:
        self._write, self._rest = write, b""

    def take(self, data: bytes) -> None:
        *lines, self._rest = (self._rest + data).split(b"\n")
        for line in lines:
            self._write(line)

    def end(self) -> None:
        if self._rest:
            self._write(self._rest)
