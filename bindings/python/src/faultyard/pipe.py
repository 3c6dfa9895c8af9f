"""A guard in a process of its own, asked through two pipes."""

from __future__ import annotations

import os
import select
import subprocess
import tempfile
import time
import weakref
from contextlib import ExitStack
from pathlib import Path
from typing import IO, Optional

from .asked import Asked
from .errors import AuditExists, ConfigRefused, FaultyardError, GuardEnded, JournalFull
from .errors import OutOfMemory, ProtocolError
from .kept import Kept
from .programs import StrPath, find_program
from .transport import HEADER

PATIENCE = 10.0
"""How many seconds a guard may take to end once its input is closed."""
USAGE = 2
"""The status of a program that doesn't know an option."""
MOST_FAULT = 65_536
"""How much of what a program writes to standard error is read."""


def _kill(process: "subprocess.Popen[bytes]", opener: int) -> None:
    """Ends a guard that nobody closed; a forked child leaves its parent's guard alone."""
    if os.getpid() == opener and process.poll() is None:
        process.kill()
        process.wait()


def behind(
    config: bytes,
    journal: bytes,
    program: Optional[StrPath],
    timeout: Optional[float],
    library: Optional[StrPath],
) -> Pipe:
    """A guard of a journal by itself, whose entries are kept in no folder."""
    with ExitStack() as files:
        its, audit = (_file_of(text, files) for text in (config, journal))
        guard = Pipe(its, program, timeout, None, library, audit)
        guard.ask({"sight": {}})  # both files are read by now
    return guard


def _file_of(text: bytes, files: ExitStack) -> str:
    """The path of a file with this text, which goes with the others."""
    file = files.enter_context(tempfile.NamedTemporaryFile(prefix="faultyard-"))
    file.write(text)
    file.flush()
    return file.name


class Pipe(Asked):
    """`faultyard guard --questions` as a child process.

    A line is sent only once the line before is answered. So neither side waits for the other with
    a full pipe. Standard error goes to a file, which can't fill up.
    """

    def __init__(
        self,
        config: StrPath,
        program: Optional[StrPath],
        timeout: Optional[float],
        folder: Optional[StrPath],
        library: Optional[StrPath] = None,
        after: Optional[StrPath] = None,
    ):
        super().__init__(config, library)
        before = HEADER if after is None else Path(after).read_bytes()
        self._program, self._timeout, self._folder = find_program(program), timeout, folder
        self._files = ExitStack()
        try:
            self._open_files(folder, before)
            self._start(config, after)
        except BaseException:
            self._files.close()
            raise
        self._begin(before, after is None)

    def _start(self, config: StrPath, after: Optional[StrPath]) -> None:
        """Starts the program, behind an audit if there is one."""
        words = [self._program, "guard", os.fspath(config)]
        words += [] if after is None else ["--after", os.fspath(after)]
        self._pending = b""
        self._end: Optional[GuardEnded] = None
        self._said = self._errors.seek(0, os.SEEK_END)
        # In a session of its own, Ctrl-C at a terminal ends the test and not its guard.
        self._process = subprocess.Popen(
            [*words, "--questions"],
            stdin=subprocess.PIPE,
            stdout=subprocess.PIPE,
            stderr=self._errors,
            bufsize=0,
            start_new_session=True,
        )
        self._finalizer = weakref.finalize(self, _kill, self._process, os.getpid())
        assert self._process.stdin is not None and self._process.stdout is not None
        self._stdin, self._stdout = self._process.stdin, self._process.stdout
        os.set_blocking(self._stdin.fileno(), False)

    def begin_again(self) -> None:
        self._abandon("it is begun again")
        if self._folder is not None:
            self._kept = Kept(self._folder, self.audit())
            self._files.callback(self._kept.close)
        self._go_on_again()

    def _go_on_again(self) -> None:
        """Starts the program behind all that it answered."""
        journal = self.audit()
        # They are read by the time the first line is answered.
        self._start(*(_file_of(text, self._files) for text in (self._config, journal)))
        self._begin(journal, False)

    def reset(self) -> None:
        if self._folder is not None:
            raise AuditExists(f"{self._folder} keeps the audit, of which nothing is cut")
        self._abandon("it is reset")
        with ExitStack() as files:
            self._start(_file_of(self._config, files), None)
            self._begin(HEADER, True)

    def try_copy(self) -> Pipe:
        made = self._program, self._timeout, self._library
        return behind(self._config, self.audit(), *made)

    def _open_files(self, folder: Optional[StrPath], before: bytes) -> None:
        if folder is None:
            self._errors: IO[bytes] = self._files.enter_context(tempfile.TemporaryFile())
            return
        self._kept = Kept(folder, before)
        self._files.callback(self._kept.close)
        mode = "w+b" if before == HEADER else "a+b"
        self._errors = self._files.enter_context(open(os.path.join(folder, "guard.log"), mode))

    def _begin(self, before: bytes, has_header: bool) -> None:
        """Reads the header, which a new guard writes before anything is sent."""
        try:
            if has_header and (header := self._hear()) != HEADER:
                raise ProtocolError(f"{self._process.args!r} began with {header!r}")
            self._go_on(before)
        except BaseException:
            self._abandon("the guard didn't begin")
            self._files.close()
            raise

    def exchange(self, text: bytes) -> bytes:
        # An audit that grew before the program read it isn't the one that was read here.
        return self._answer(text, b',"at":%d,"by":' % self.journal_len(), True)

    def tell(self, text: bytes) -> bytes:
        if self._end is not None and isinstance(self._ended(self._end), JournalFull):
            self._go_on_again()  # by an act that is one too many the program has ended
        return self._answer(text, b'{"told":', False)

    def _answer(self, text: bytes, part: bytes, is_kept: bool) -> bytes:
        """What a line is answered, where it has this part."""
        if self._end is not None:
            raise self._ended(self._end)
        try:
            self._send(text)
            answer = self._hear()
            if part not in answer:
                self._abandon("an answer is none of its line")
                raise ProtocolError(f"{text!r} was answered {answer!r}")
            if is_kept:
                self._keep(answer)
        except FaultyardError:
            raise
        except BaseException:
            # The answer that was waited for would be taken for the next line's.
            self._abandon("a call was interrupted before its answer was kept")
            raise
        return answer

    def close(self) -> None:
        if self._end is None:
            self._stdin.close()
            ended = self._wait("the guard didn't end by itself")
            self._files.close()
            if ended.status != 0:
                raise self._ended(ended)
        self._files.close()

    def _send(self, text: bytes) -> None:
        left = memoryview(text)
        until = self._deadline()
        while left:
            try:
                left = left[os.write(self._stdin.fileno(), left) :]
            except BlockingIOError:
                self._await(self._stdin.fileno(), select.POLLOUT, until)
            except BrokenPipeError:
                raise self._ended(self._wait("the guard has ended")) from None

    def _hear(self) -> bytes:
        """The next line."""
        until = self._deadline()
        while b"\n" not in self._pending:
            self._await(self._stdout.fileno(), select.POLLIN, until)
            more = os.read(self._stdout.fileno(), 1 << 16)
            if not more:
                raise self._ended(self._wait("the guard has ended"))
            self._pending += more
        answer, self._pending = self._pending.split(b"\n", 1)
        return answer + b"\n"

    def _deadline(self) -> Optional[float]:
        return None if self._timeout is None else time.monotonic() + self._timeout

    def _await(self, descriptor: int, event: int, until: Optional[float]) -> None:
        """Waits until the descriptor is ready. At the deadline the guard is ended."""
        poll = select.poll()
        poll.register(descriptor, event)
        left = None if until is None else max(0.0, (until - time.monotonic()) * 1000)
        if not poll.poll(left):
            raise self._ended(self._abandon(f"no answer in {self._timeout} seconds"))

    def _abandon(self, why: str) -> GuardEnded:
        """Ends the process at once."""
        if self._end is None and self._process.poll() is None:
            self._process.kill()
        return self._wait(why)

    def _wait(self, why: str) -> GuardEnded:
        """Waits for the end of the process, and keeps what it told."""
        if self._end is not None:
            return self._end
        try:
            status = self._process.wait(PATIENCE)
        except subprocess.TimeoutExpired:
            self._process.kill()
            status = self._process.wait()
        finally:
            self._finalizer()
        self._stdin.close()
        self._stdout.close()
        if self._kept is not None:
            self._kept.close()
        self._errors.seek(self._said)
        # A second line says where an audit that is cut is whole.
        fault = self._errors.read(MOST_FAULT).decode(errors="replace").strip().partition("\n")[0]
        self._end = GuardEnded(why, fault, status)
        return self._end

    def _ended(self, end: GuardEnded) -> FaultyardError:
        """The error that tells how the guard ended."""
        if end.status == USAGE:
            older = "it takes no `guard --questions`, so it is older than this package"
            return ProtocolError(f"{self._program}: {older}")
        if end.status == 1 and end.fault.startswith("config: "):
            return ConfigRefused(end.fault)
        if end.status == 1 and end.fault == "script: JournalFull":
            return JournalFull(end.fault)
        if end.status == 4:
            return OutOfMemory(end.fault)
        return GuardEnded(end.why, end.fault, end.status)
