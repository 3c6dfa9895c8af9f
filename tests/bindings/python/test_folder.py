"""The audit that a guard keeps in a folder: it is appended to, and never cut."""

import os
import signal
import subprocess
import sys
import unittest
from pathlib import Path
from unittest import mock

import common
import faultyard
from faultyard import Guard, Key, Kind

TICKS = [
    f'{{"act":{{"tick":{{"ticks":1}}}},"at":{at},"by":0,"reply":{{"time":{at + 1}}}}}\n'
    for at in range(3)
]
"""The entries of a guard that was told `tick(1, by=0)` each time."""


def kill_zone(guard, zone):
    """What an order to kill a zone for good, or else to reboot it, is answered."""
    return guard.kill(Key.ZONE, zone, Kind.KILL_INSTANTLY, floor=Kind.REBOOT, by=1).struck


def played(words, before=""):
    """Runs a program of Python that has a guard, to its end by a signal or not."""
    text = (
        f"import os, resource, signal, faultyard.pipe\n{before}guard = faultyard.Guard({words})\n"
    )
    return lambda acts: subprocess.run([sys.executable, "-c", text + acts]).returncode


class FolderTest(common.Folder, unittest.TestCase):
    def setUp(self):
        super().setUp()
        self.run = Path(self.folder, "run")
        self.run.mkdir()
        self.audit, self.gate = self.run / "audit", Path(self.folder, "gate")
        os.mkfifo(self.gate)
        self.late = self.script(f'read line < {self.gate}\nexec {common.PROGRAM} "$@"\n')

    def script(self, text):
        path = Path(self.folder, f"script-{len(os.listdir(self.folder))}")
        path.write_text(f"#!/bin/sh\n{text}")
        path.chmod(0o755)
        return path

    def let_in(self):
        """Lets the late program begin, once it waits to."""
        with open(self.gate, "wb") as gate:
            gate.write(b"\n")

    def read_at_once(self, **words):
        """A guard whose program has read the audit before its client goes on."""
        read, start = f"{self.folder}/read", subprocess.Popen
        text = f'cp "$4" {read}\necho > {self.gate}\nexec {common.PROGRAM} "$1" "$2" "$3" {read}\n'

        def started(*command, **more):
            process = start(*command, **more)
            self.gate.read_bytes()
            return process

        with mock.patch("subprocess.Popen", started):
            return Guard(common.SIX, program=self.script(text), **words)

    def first_killed(self):
        """The audit of a first guard, which has destroyed zone z0."""
        with Guard(common.SIX, folder=self.run) as guard:
            self.assertIs(kill_zone(guard, "z0"), Kind.KILL_INSTANTLY)
        return self.audit.read_bytes()

    def assert_refused(self, **words):
        """A guard is refused for what stands in the folder, where nothing changes."""
        before = {path: path.read_bytes() for path in self.run.iterdir()}
        with self.assertRaises(faultyard.AuditExists) as caught:
            Guard(common.SIX, folder=self.run, **words)
        self.assertIsInstance(caught.exception, FileExistsError)
        self.assertIn(str(self.audit), str(caught.exception))
        self.assertEqual({path: path.read_bytes() for path in self.run.iterdir()}, before)

    def test_a_program_that_reads_late_reads_all(self):
        before = self.first_killed()
        words = {"folder": self.run, "after": self.audit}
        with Guard(common.SIX, program=self.late, **words) as guard:
            self.assertEqual(self.audit.read_bytes(), before)
            self.let_in()
            self.assertIs(kill_zone(guard, "z1"), Kind.REBOOT)
            self.assertEqual(self.audit.read_text(), guard.audit())
        self.assertEqual(faultyard.check(common.SIX, self.audit.read_text()), 2)

    def test_a_program_that_reads_at_once_reads_all(self):
        before = self.first_killed()
        with self.read_at_once(folder=self.run, after=self.audit) as guard:
            self.assertEqual(self.audit.read_bytes(), before)
            self.assertIs(kill_zone(guard, "z1"), Kind.REBOOT)
            self.assertEqual(self.audit.read_text(), guard.audit())
        self.assertEqual(faultyard.check(common.SIX, self.audit.read_text()), 2)

    def test_the_audit_is_whole_where_the_client_is_killed_before_an_answer(self):
        before = self.first_killed()
        words = f"{str(common.SIX)!r}, folder={str(self.run)!r}, after={str(self.audit)!r}"
        dies = "def dies(*_):\n    os.kill(os.getpid(), 9)\n"
        starts = (
            "start = faultyard.pipe.subprocess.Popen\n"
            "faultyard.pipe.subprocess.Popen = lambda *it, **more: dies(start(*it, **more))\n"
        )
        for before_it, after_it in (
            (dies + starts, ""),
            (dies, "dies()\n"),
            (f"{dies}faultyard.pipe.Pipe._hear = dies\n", "guard.tick(1, by=0)\n"),
        ):
            self.assertEqual(played(words, before_it)(after_it), -signal.SIGKILL)
            self.assertEqual(self.audit.read_bytes(), before)

    def test_a_guard_that_died_begins_again_behind_its_audit(self):
        """Also where it dies again and again, and in the middle of a call."""
        with Guard(common.SIX, folder=self.run) as guard:
            self.assertIs(kill_zone(guard, "z0"), Kind.KILL_INSTANTLY)
            for turn in range(3):
                os.kill(guard._transport._process.pid, signal.SIGKILL)
                with self.assertRaises(faultyard.GuardEnded) as caught:
                    guard.tick(1, by=0)
                self.assertEqual((caught.exception.status, caught.exception.fault), (-9, ""))
                with self.assertRaises(faultyard.GuardEnded):
                    guard.tick(1, by=0)
                guard.begin_again()
                self.assertEqual(guard.tick(1, by=0), turn + 1)
            self.assertIs(kill_zone(guard, "z1"), Kind.REBOOT)
            self.assertEqual(self.audit.read_text(), guard.audit())
        self.assertEqual(faultyard.check(common.SIX, self.audit.read_text()), 5)

    def test_a_guard_that_hung_begins_again(self):
        hangs = self.script(f'[ "$3" = --after ] || sleep 1000\nexec {common.PROGRAM} "$@"\n')
        with Guard(common.SIX, folder=self.run) as guard:
            guard._transport._program, guard._transport._timeout = str(hangs), 0.2
            os.kill(guard._transport._process.pid, signal.SIGSTOP)
            with self.assertRaises(faultyard.GuardEnded) as caught:
                guard.tick(1, by=0)
            self.assertIn("no answer in 0.2 seconds", str(caught.exception))
            guard._transport._timeout = 60
            guard.begin_again()
            self.assertEqual(guard.tick(1, by=0), 1)
        self.assertEqual(faultyard.check(common.SIX, self.audit.read_text()), 1)

    def test_only_a_program_of_its_own_begins_again(self):
        with Guard(common.SIX) as guard:
            guard.tick(1, by=0)
            guard.begin_again()  # though it lives
            self.assertEqual(guard.tick(1, by=0), 2)
        with self.assertRaises(faultyard.GuardClosed):
            guard.begin_again()

    def test_half_a_last_line_is_refused_as_the_program_refuses_it(self):
        text = (common.HEADER + TICKS[0] + TICKS[1][:-1]).encode()
        self.audit.write_bytes(text)
        command = [common.PROGRAM, "guard", common.SIX, "--after", self.audit]
        told = subprocess.run(command, input=b"", capture_output=True)
        fault, whole = told.stderr.decode().splitlines()
        self.assertEqual((told.returncode, fault), (1, "audit: line 3: Syntax"))
        with self.assertRaises(faultyard.GuardEnded) as caught:
            with self.read_at_once(folder=self.run, after=self.audit) as guard:
                guard.tick(1, by=0)
        self.assertEqual((caught.exception.fault, caught.exception.status), (fault, 1))
        self.assertEqual(self.audit.read_bytes(), text)
        self.assertEqual(Path(self.run, "guard.log").read_text(), f"{fault}\n{whole}\n")
        os.truncate(self.audit, int(whole.rpartition(" ")[2]))
        with Guard(common.SIX, folder=self.run, after=self.audit) as guard:
            self.assertEqual(guard.tick(1, by=0), 2)
        self.assertEqual(self.audit.read_text(), common.HEADER + TICKS[0] + TICKS[1])

    def test_an_audit_with_entries_is_gone_on_from_or_refused(self):
        self.first_killed()
        self.assert_refused()
        other = common.written(self.folder, "other", common.HEADER + TICKS[0])
        self.assert_refused(after=other)
        bad = common.written(self.folder, "bad.toml", "policies = [")
        with self.assertRaises(faultyard.AuditExists):
            Guard(bad, folder=self.run)
        for text in ("", '{"aud', common.HEADER):
            self.audit.write_text(text)
            with Guard(common.SIX, folder=self.run) as guard:
                guard.tick(1, by=0)
            self.assertEqual(self.audit.read_text(), common.HEADER + TICKS[0])
        for text in ("none", common.HEADER + TICKS[0][:9], common.HEADER + "\n", "\n"):
            self.audit.write_text(text)
            self.assert_refused()

    def test_behind_another_file_the_folder_has_all_of_the_journal(self):
        text = common.HEADER + TICKS[0] + TICKS[1]
        before = common.written(self.folder, "before", text)
        for stands in (None, common.HEADER, common.HEADER + TICKS[0] + TICKS[1][:9]):
            self.audit.unlink(missing_ok=True)
            if stands is not None:
                self.audit.write_text(stands)
            with Guard(common.SIX, folder=self.run, after=before) as guard:
                self.assertEqual(self.audit.read_text(), text)
                guard.tick(1, by=0)
            self.assertEqual(self.audit.read_text(), text + TICKS[2])
            self.assertEqual(before.read_text(), text)

    def test_an_audit_that_grew_before_it_was_read_is_told(self):
        self.audit.write_text(common.HEADER + TICKS[0])
        words = {"folder": self.run, "after": self.audit, "program": self.late}
        with Guard(common.SIX, **words) as guard:
            with self.audit.open("a") as audit:
                audit.write(TICKS[1])
            self.let_in()
            with self.assertRaises(faultyard.ProtocolError):
                guard.tick(1, by=0)
            with self.assertRaises(faultyard.GuardEnded):
                guard.tick(1, by=0)
        self.assertEqual(self.audit.read_text(), common.HEADER + TICKS[0] + TICKS[1])

    def test_one_guard_at_a_time_has_the_audit(self):
        with Guard(common.SIX, folder=self.run) as guard:
            self.assert_refused()
            guard.tick(1, by=0)
            self.assert_refused(after=self.audit)
        with Guard(common.SIX, folder=self.run, after=self.audit) as guard:
            guard._transport._process.kill()
            with self.assertRaises(faultyard.GuardEnded):
                guard.tick(1, by=0)
            with Guard(common.SIX, folder=self.run, after=self.audit) as other:
                other.tick(1, by=0)
        self.assertEqual(self.audit.read_text(), common.HEADER + TICKS[0] + TICKS[1])

    def test_a_file_that_takes_no_more_ends_the_guard(self):
        text = common.HEADER + TICKS[0]
        self.audit.write_text(text)
        limits = (
            "signal.signal(signal.SIGXFSZ, signal.SIG_IGN)\n"
            f"resource.setrlimit(resource.RLIMIT_FSIZE, ({len(text) + 9}, {len(text) + 9}))\n"
        )
        acts = (
            "faults = []\n"
            "for _ in range(2):\n"
            "    try:\n"
            "        guard.tick(1, by=0)\n"
            "    except Exception as fault:\n"
            "        faults.append(type(fault))\n"
            "assert faults == [OSError, faultyard.GuardEnded], faults\n"
        )
        words = f"{str(common.SIX)!r}, folder={str(self.run)!r}, after={str(self.audit)!r}"
        self.assertEqual(played(words, limits)(acts), 0)
        self.assertEqual(self.audit.read_text(), text + TICKS[1][:9])
