"""An audit that is checked line by line, in this process: the C library, called through ctypes."""

from __future__ import annotations

import ctypes as c
import os
import threading
import weakref
from types import TracebackType
from typing import NamedTuple, Optional, Type, Union

from .errors import AuditRefused, GuardClosed
from .library import AUDIT_TOO_LONG, CONFIG_FAULTS, DONE, LINE_FAULTS, NO_BAD_ENTRY, NO_HEADER
from .library import _Check, _config_error, _require, load
from .programs import StrPath


class Finding(NamedTuple):
    """What is found of an audit."""

    # A tuple's method has this name too; the number of entries hides it.
    count: int  # type: ignore[assignment]
    """How many entries were read."""
    first_bad: Optional[int]
    """The place of the first that isn't what the rules give, from 0."""


def _free(library: c.CDLL, check: _Check, opener: int) -> None:
    """Frees an open check. A forked child leaves its parent's check alone."""
    if check.at is not None and os.getpid() == opener:
        library.fy_end_check(check)
        check.at = None


class Check:
    """Checks an audit line by line, as `faultyard check` does.

        with Check("two.toml") as check:
            for line in audit.splitlines(keepends=True):
                check.line(line)
            print(check.finding())

    Threads may share a check: a lock puts their calls in order.
    """

    def __init__(self, config: StrPath, *, library: Optional[StrPath] = None) -> None:
        """Begins to check an audit of a cluster that began with the cluster file at this path.

        `library` is the path of libfaultyard.so (else FAULTYARD_LIB, else what the system's loader
        finds).
        """
        with open(config, "rb") as file:
            text = file.read()
        self._lock = threading.Lock()
        self._library = load(library)
        self._check = _Check()
        self._finalizer = weakref.finalize(self, _free, self._library, self._check, os.getpid())
        # At the end of the interpreter the memory goes with the process.
        self._finalizer.atexit = False
        status = self._library.fy_begin_check(text, len(text), self._check)
        if status in CONFIG_FAULTS:
            raise _config_error(self._library, text, status)
        _require(status)

    def close(self) -> None:
        """Frees what the check holds. Closing twice is closing once."""
        with self._lock:
            self._finalizer()

    def __enter__(self) -> Check:
        return self

    def __exit__(
        self,
        kind: Optional[Type[BaseException]],
        fault: Optional[BaseException],
        trace: Optional[TracebackType],
    ) -> None:
        self.close()

    def line(self, line: Union[str, bytes]) -> Optional[int]:
        """Reads the next line with its line feed: the header, and then an entry each time.

        The answer is the place of the first entry so far that isn't what the rules give. A faulty
        line raises `AuditRefused`, and counts as not read.
        """
        text = line.encode() if isinstance(line, str) else line
        bad = c.c_uint32()
        with self._lock:
            status = self._library.fy_read_line(self._opened(), text, len(text), bad)
            if status in LINE_FAULTS:
                word = LINE_FAULTS[status]
                raise AuditRefused(f"audit: line {self._next_line()}: {word}", 1)
        if status == AUDIT_TOO_LONG:
            raise AuditRefused("audit: TooLong", 1)
        _require(status)
        return None if bad.value == NO_BAD_ENTRY else bad.value

    def finding(self) -> Finding:
        """What is found of the lines that were read. Without a header it raises `AuditRefused`."""
        count, bad = c.c_uint32(), c.c_uint32()
        with self._lock:
            status = self._library.fy_finding(self._opened(), count, bad)
        if status == NO_HEADER:
            raise AuditRefused("audit: line 1: Header", 1)
        _require(status)
        return Finding(count.value, None if bad.value == NO_BAD_ENTRY else bad.value)

    # Below: how a call goes.

    def _opened(self) -> _Check:
        """The check, which the library asks to be open."""
        if self._check.at is None:
            raise GuardClosed("the check is closed")
        return self._check

    def _next_line(self) -> int:
        """The number of the line that comes next, from 1."""
        count = c.c_uint32()
        status = self._library.fy_finding(self._check, count, c.c_uint32())
        return count.value + 2 if status == DONE else 1
