"""What only a guard in a process of its own can meet: its end, its silence, signals, forks."""

import fcntl
import gc
import os
import signal
import subprocess
import sys
import unittest
from pathlib import Path
from unittest import mock

import common
import faultyard
from faultyard import Guard

# Python names it from 3.10 on.
F_SETPIPE_SZ = 1031


def children():
    """The numbers of this process's children."""
    found = set()
    for stat in Path("/proc").glob("[0-9]*/stat"):
        try:
            state, parent = stat.read_text().rpartition(")")[2].split()[:2]
        except OSError:
            continue
        if int(parent) == os.getpid() and state != "Z":
            found.add(int(stat.parent.name))
    return found


class PipeTest(common.Folder, unittest.TestCase):
    def setUp(self):
        super().setUp()
        self.before = children()

    def started(self):
        """The one child that came since the test began."""
        (child,) = children() - self.before
        return child

    def assert_nothing_runs(self):
        self.assertEqual(children(), self.before)

    def script(self, name, text):
        path = common.written(self.folder, name, text)
        path.chmod(0o755)
        return path

    def test_the_end_of_the_context_ends_the_process(self):
        with Guard(common.SIX):
            self.started()
        self.assert_nothing_runs()

    def test_an_exception_ends_the_process(self):
        with self.assertRaises(KeyError):
            with Guard(common.SIX):
                raise KeyError
        self.assert_nothing_runs()

    def test_an_exception_is_told_before_the_end_of_a_guard_that_died(self):
        with self.assertRaises(KeyError):
            with Guard(common.SIX):
                os.kill(self.started(), signal.SIGKILL)
                raise KeyError
        self.assert_nothing_runs()

    def test_a_guard_that_nobody_closed_ends(self):
        guard = Guard(common.SIX)
        self.started()
        del guard
        gc.collect()
        self.assert_nothing_runs()

    def test_the_end_of_the_interpreter_ends_the_process(self):
        text = (
            "import sys, faultyard\n"
            f"guard = faultyard.Guard({str(common.SIX)!r})\n"
            "print(guard._transport._process.pid)\n"
        )
        ran = subprocess.run(
            [sys.executable, "-c", text], capture_output=True, text=True, timeout=60, check=True
        )
        self.assertFalse(Path(f"/proc/{int(ran.stdout)}").exists())

    def test_a_guard_that_was_killed_tells_its_status(self):
        guard = Guard(common.SIX)
        os.kill(self.started(), signal.SIGKILL)
        for _ in range(2):
            with self.assertRaises(faultyard.GuardEnded) as caught:
                guard.tick(1, by=0)
            self.assertEqual(caught.exception.status, -signal.SIGKILL)
        guard.close()
        self.assert_nothing_runs()

    def test_closing_tells_an_end_that_no_call_has_told(self):
        guard = Guard(common.SIX)
        os.kill(self.started(), signal.SIGKILL)
        with self.assertRaises(faultyard.GuardEnded):
            guard.close()
        guard.close()

    def test_a_guard_that_ends_with_a_fault_line_tells_it(self):
        program = self.script(
            "ends", '#!/bin/sh\necho \'{"audit":2}\'\nread line\necho "write fault" >&2\nexit 3\n'
        )
        guard = Guard(common.SIX, program=program)
        with self.assertRaises(faultyard.GuardEnded) as caught:
            guard.tick(1, by=0)
        self.assertEqual((caught.exception.fault, caught.exception.status), ("write fault", 3))
        self.assert_nothing_runs()

    def test_want_of_memory(self):
        program = self.script("poor", '#!/bin/sh\necho "no memory" >&2\nexit 4\n')
        with self.assertRaises(MemoryError) as caught:
            Guard(common.SIX, program=program)
        self.assertIsInstance(caught.exception, faultyard.OutOfMemory)

    def test_a_silent_guard_is_ended_after_the_timeout(self):
        guard = Guard(common.SIX, timeout=0.3)
        os.kill(self.started(), signal.SIGSTOP)
        with self.assertRaises(faultyard.GuardEnded) as caught:
            guard.tick(1, by=0)
        self.assertIn("no answer in 0.3 seconds", str(caught.exception))
        self.assert_nothing_runs()

    def test_a_silent_guard_with_a_full_pipe_too(self):
        guard = Guard(common.SIX, timeout=0.3)
        os.kill(self.started(), signal.SIGSTOP)
        fcntl.fcntl(guard._transport._stdin.fileno(), F_SETPIPE_SZ, 4096)
        with self.assertRaises(faultyard.GuardEnded):
            guard.begin(0, bytes(30_000), by=0)
        self.assert_nothing_runs()

    def test_an_interrupted_call_ends_the_guard_so_that_no_answer_goes_astray(self):
        class Interrupt(Exception):
            pass

        def interrupt(*_):
            raise Interrupt

        self.addCleanup(signal.signal, signal.SIGALRM, signal.signal(signal.SIGALRM, interrupt))
        guard = Guard(common.SIX)
        guard.tick(1, by=0)
        os.kill(self.started(), signal.SIGSTOP)
        signal.setitimer(signal.ITIMER_REAL, 0.2)
        with self.assertRaises(Interrupt):
            guard.tick(1, by=0)
        with self.assertRaises(faultyard.GuardEnded):
            guard.tick(1, by=0)
        self.assert_nothing_runs()
        self.assertEqual(faultyard.check(common.SIX, guard.audit()), 1)

    def test_a_signal_to_the_terminals_group_leaves_the_guard(self):
        with Guard(common.SIX):
            self.assertNotEqual(os.getpgid(self.started()), os.getpgid(0))

    def test_much_on_standard_error_blocks_nothing(self):
        text = f'#!/bin/sh\nhead -c 1000000 /dev/zero >&2\nexec {common.PROGRAM} "$@"\n'
        with Guard(common.SIX, program=self.script("loud", text)) as guard:
            self.assertEqual(guard.tick(1, by=0), 1)

    def test_a_forked_child_is_refused_and_leaves_its_parents_guard(self):
        with Guard(common.SIX) as guard:
            child = os.fork()
            if child == 0:
                try:
                    guard.tick(1, by=0)
                except faultyard.GuardClosed:
                    guard.close()
                    guard._transport._finalizer()
                    os._exit(7)
                os._exit(1)
            self.assertEqual(os.waitstatus_to_exitcode(os.waitpid(child, 0)[1]), 7)
            self.assertEqual(guard.tick(1, by=0), 1)

    def test_a_program_that_is_no_faultyard(self):
        with self.assertRaises(faultyard.ProtocolError):
            Guard(common.SIX, program="/bin/echo")
        with self.assertRaises(faultyard.GuardEnded) as caught:
            Guard(common.SIX, program="/bin/false")
        self.assertEqual(caught.exception.status, 1)
        odd = self.script(
            "odd", '#!/bin/sh\necho \'{"audit":2}\'\nread line\necho "[]"\nread line || exit 0\n'
        )
        with Guard(common.SIX, program=odd) as guard, self.assertRaises(faultyard.ProtocolError):
            guard.tick(1, by=0)
        self.assert_nothing_runs()

    def test_where_the_program_is_looked_for(self):
        with mock.patch.dict(os.environ):
            del os.environ["FAULTYARD"]
            os.environ["PATH"] = self.folder
            with self.assertRaises(FileNotFoundError) as caught:
                Guard(common.SIX)
            self.assertIsInstance(caught.exception, faultyard.NotFound)
            self.script("faultyard", f'#!/bin/sh\nexec {common.PROGRAM} "$@"\n')
            Guard(common.SIX).close()
            os.environ["FAULTYARD"] = f"{self.folder}/none"
            with self.assertRaises(faultyard.NotFound):
                Guard(common.SIX)
            Guard(common.SIX, program=common.PROGRAM).close()

    def test_a_program_without_questions_is_told_to_be_older(self):
        text = '#!/bin/sh\nfor word; do :; done\n[ "$word" = --questions ] && exit 2\nexit 1\n'
        older = self.script("older", text)
        with self.assertRaises(faultyard.ProtocolError) as caught:
            Guard(common.SIX, program=older)
        wanted = f"{older}: it takes no `guard --questions`, so it is older than this package"
        self.assertEqual(str(caught.exception), wanted)
        # Behind an audit the program tells nothing before it is asked.
        audit = common.written(self.folder, "audit", common.HEADER)
        guard = Guard(common.SIX, program=older, after=audit)
        for ask in (guard.sight, lambda: guard.tick(1, by=0), guard.left):
            with self.assertRaises(faultyard.ProtocolError) as caught:
                ask()
            self.assertEqual(str(caught.exception), wanted)

    def test_an_answer_that_is_none_of_its_question_ends_the_guard(self):
        text = "#!/bin/sh\necho '{\"audit\":2}'\nread line\necho '%s'\nread line\n"
        for answer in ('{"at":0}', "[]", '{"tell":{"sight":{}}}'):
            guard = Guard(common.SIX, program=self.script("odd", text % answer))
            with self.assertRaises(faultyard.ProtocolError):
                guard.sight()
            with self.assertRaises(faultyard.GuardEnded):
                guard.sight()
        self.assert_nothing_runs()

    def test_a_silent_guard_that_is_asked_is_ended_after_the_timeout(self):
        guard = Guard(common.SIX)
        guard._transport._timeout = 0.3
        os.kill(self.started(), signal.SIGSTOP)
        with self.assertRaises(faultyard.GuardEnded):
            guard.sight()
        self.assert_nothing_runs()

    def test_looking_ahead_from_a_full_journal(self):
        kind = faultyard.Kind.REBOOT
        with Guard(common.six_with(self.folder, 2)) as guard:
            for number in range(2):
                guard.tick(1, by=0)
            verdict = faultyard.Verdict(kind, None, None)
            self.assertEqual(guard.judge(faultyard.Key.PROCESS, "p0", kind, by=1), verdict)
            self.assertEqual(guard.judge_process(0, kind, by=1), verdict)
            self.assertEqual(guard.killable(by=1), [faultyard.Kind.KILL_INSTANTLY] * 6)
            self.assertEqual(guard.journal_len(), 2)

    def test_looking_ahead_leaves_nothing_behind(self):
        with Guard(common.SIX) as guard, mock.patch.dict(os.environ, TMPDIR=self.folder):
            with mock.patch("tempfile.tempdir", None):
                self.assertEqual(guard.killable(by=1), [faultyard.Kind.KILL_INSTANTLY] * 6)
                guard.try_copy().close()
                guard.reset()
            self.assertEqual(os.listdir(self.folder), [])
            self.assertEqual(children(), self.before | {self.started()})

    def test_looking_ahead_starts_no_program(self):
        with Guard(common.SIX) as guard, mock.patch("subprocess.Popen", side_effect=OSError):
            guard.killable(by=1)
            guard.judge(faultyard.Key.ZONE, "z0", faultyard.Kind.REBOOT, by=1)
            guard.bears()
            self.assertEqual(guard.kill_process(0, faultyard.Kind.REBOOT, by=1).rule, None)

    def test_a_reset_is_of_the_cluster_file_as_it_was_opened(self):
        config = common.six_with(self.folder, 2)
        with Guard(config) as guard:
            first = self.started()
            guard.tick(1, by=0)
            config.write_text("policies = [")
            guard.reset()
            self.assertEqual(guard.audit(), common.HEADER)
            self.assertEqual((guard.tick(1, by=0), guard.tick(1, by=0)), (1, 2))
            self.assertNotEqual(self.started(), first)
            with guard.try_copy() as other:
                self.assertEqual((other.sight().now, other.audit()), (2, guard.audit()))
            guard.begin_again()
            self.assertEqual(guard.sight().now, 2)
        self.assert_nothing_runs()

    def test_a_reset_cuts_no_audit_that_a_folder_keeps(self):
        with Guard(common.SIX, folder=self.folder) as guard:
            guard.tick(1, by=0)
            with self.assertRaises(faultyard.AuditExists):
                guard.reset()
            self.assertEqual(guard.tick(1, by=0), 2)
        self.assertEqual(Path(self.folder, "audit").read_text(), guard.audit())

    def test_how_much_may_still_be_lost(self):
        key, kind = faultyard.Key.ZONE, faultyard.Kind.KILL_INSTANTLY
        with Guard(common.SIX) as guard:
            self.assertEqual(guard.bears(), faultyard.Borne(1, 1, True, True))
            guard.kill(key, "z1", kind, by=1)
            self.assertEqual(guard.bears(), faultyard.Borne(0, 0, True, True))
            self.assertEqual(guard.journal_len(), 1)
        with self.assertRaises(faultyard.GuardClosed):
            guard.bears()
        crossed = common.ROOT / "tests/cli/bears/configs/crossed.toml"
        # Whether any three may be emptied isn't found, since its policy has an And.
        wanted = faultyard.Borne(2, 0, False, True)
        self.assertEqual(faultyard.bears(crossed, common.HEADER), wanted)
        with self.assertRaises(faultyard.AuditRefused) as caught:
            faultyard.bears(crossed, guard.audit())
        self.assertEqual(caught.exception.status, 5)

    def test_an_audit_that_check_does_not_confirm(self):
        with Guard(common.SIX) as guard:
            guard.tick(1, by=0)
        for audit, line, status in (
            (guard.audit().replace('"time":1', '"time":2'), "bad entry 0", 5),
            (guard.audit()[1:], "audit: line 1: Header", 1),
        ):
            with self.assertRaises(faultyard.AuditRefused) as caught:
                faultyard.check(common.SIX, audit)
            self.assertEqual((caught.exception.fault, caught.exception.status), (line, status))
