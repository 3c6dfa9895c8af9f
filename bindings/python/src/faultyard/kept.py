"""The file of an audit in a folder: it is appended to, and never cut."""

from __future__ import annotations

import fcntl
import os
from contextlib import suppress

from .errors import AuditExists
from .programs import StrPath


class Kept:
    """Keeps the journal of one guard. An entry is there before its verdict is carried out."""

    def __init__(self, folder: StrPath, journal: bytes) -> None:
        """Opens `audit` of a folder for a guard whose journal begins so, and changes nothing of it.

        What stands there has to be a front of this journal, and no other guard may hold the file.
        """
        path = os.path.join(folder, "audit")
        self._file = open(path, "a+b", buffering=0)
        try:
            self._hold(path)
            with open(path, "rb") as file:
                stands = file.read(len(journal) + 1)
            if not journal.startswith(stands):
                raise AuditExists(f"{path} is the audit of another guard: `after` goes on from it")
        except BaseException:
            self.close()
            raise
        # Half a last line, which the guard refuses, goes into no other file.
        self._rest = journal[len(stands) : journal.rfind(b"\n") + 1]

    def _hold(self, path: str) -> None:
        """Locks the file as `faultyard-serve` locks its own, where the file system can."""
        try:
            fcntl.flock(self._file, fcntl.LOCK_EX | fcntl.LOCK_NB)
        except BlockingIOError:
            raise AuditExists(f"{path} is held by another guard") from None
        except OSError:
            pass

    def begin(self) -> None:
        """Appends what the journal begins with, as far as it doesn't stand there yet."""
        self.write(self._rest)
        self._rest = b""

    def write(self, text: bytes) -> None:
        """Appends whole lines. After a fault it takes no more: half a line may stand there."""
        left = memoryview(text)
        try:
            while left:
                left = left[self._file.write(left) :]
        except BaseException:
            self.close()
            raise

    def close(self) -> None:
        """Lets go of the file, also for what was forked meanwhile. It may be closed twice."""
        if not self._file.closed:
            with suppress(OSError):
                fcntl.flock(self._file, fcntl.LOCK_UN)
            self._file.close()
