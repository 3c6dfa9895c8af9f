"""The command line, in this process."""

import io
import tempfile
from contextlib import redirect_stderr, redirect_stdout
from pathlib import Path
from unittest.mock import patch

import clock
from lab import CLUSTER, HOOKS, Case
from nemesis import main
from toy import Toy


class Words(Case):
    def told(self, *words: object) -> tuple[int, str, str]:
        """The status, and what the two outputs get."""
        said, told = io.StringIO(), io.StringIO()
        with redirect_stderr(said), redirect_stdout(told):
            try:
                status = main.ended(main.parsed([*map(str, words)]), Toy(), clock.run)
            except SystemExit as end:  # as argparse ends a program
                status = int(end.code or 0)
        return status, told.getvalue(), said.getvalue()

    def written(self, name: str, text: str) -> Path:
        path = self.room / name
        path.write_text(text)
        return path

    def test_wrong_words_are_refused(self):
        text, own = CLUSTER.read_text(), self.room / "TMPDIR"
        own.mkdir()
        bad = self.written("bad.toml", text.replace("processid,One", "processid,Two"))
        lone = self.written("lone.toml", text.replace('role = "storage"', 'role = "operator"'))
        torn = self.written("torn.toml", "policies = [")
        bare = 'journal_limit = 10\npolicies = ["One()"]\nactor = []\n'
        bare = self.written("bare.toml", bare)
        right = [CLUSTER, HOOKS]
        for words, message in (
            ([self.room / "none.toml", HOOKS], "there is no file"),
            ([CLUSTER, CLUSTER], "is no executable"),
            ([bad, HOOKS], "config: Policy 0"),
            ([lone, HOOKS], "has no actor with the role storage"),
            ([torn, HOOKS], "config: Toml"),
            ([bare, HOOKS], "config: Field Process"),
            ([*right, "--replay", torn], "line 1 is no event"),
            ([*right, "--seed", "x"], "--seed"),
            ([*right, "--seed", -1], "--seed has to be 0 or more"),
            ([*right, "--writers", 0], "--writers has to be 1 or more"),
            ([*right, "--hook-timeout", 0], "--hook-timeout has to be 0.1 or more"),
            ([*right, "--kinds", "0,0,0,0,0"], "--kinds"),
            ([*right, "--kinds", "1,2"], "5 weights are wanted, and 2 are given"),
            ([*right, "--plan", "none"], "--plan"),
            (
                [*right, "--kinds", "1,1,1,1,1", "--plan", "rolling"],
                "--kinds has no effect with --plan rolling: it goes with mixed, attrition, swizzle",
            ),
            ([*right, "--pauses", "1", "--replay", torn], "--pauses has no effect with --replay"),
            ([*right, "--when-whole", "--replay", torn], "--when-whole has no effect with"),
            ([*right, "--replay", self.room / "none"], "there is no file"),
            ([*right, "--plan", "partition"], "--plan partition needs --net"),
            ([*right, "--plan", "blackout"], "needs a place that all processes share"),
            ([*right, "--clog", "in"], "--clog needs --net"),
            ([*right, "--deaf-disks"], "--deaf-disks needs --disks"),
            ([*right, "--tokens", CLUSTER], "--tokens goes with --guard"),
            ([CLUSTER], "HOOKS"),
        ):
            with self.subTest(message=message), patch.object(tempfile, "tempdir", str(own)):
                status, told, said = self.told(*words)
                self.assertEqual((status, told), (2, ""), said)
                self.assertIn(message, said)
                self.assertEqual([*own.iterdir()], [])

    def test_a_folder_that_has_something_is_left_alone(self):
        mine = self.written("audit", "kept")
        status, told, said = self.told(CLUSTER, HOOKS, "--out", self.room)
        self.assertEqual((status, told), (2, ""))
        self.assertIn("is not empty", said)
        self.assertEqual(mine.read_text(), "kept")

    def test_an_audit_that_comes_into_the_folder_meanwhile_is_left(self):
        text = '{"audit":2}\n{"act":{"tick":{"ticks":1}},"at":0,"by":0,"reply":{"time":1}}\n'
        said, out = io.StringIO(), self.room / "out"
        words = main.parsed([str(CLUSTER), str(HOOKS), "--out", str(out)])
        out.mkdir()
        (out / "audit").write_text(text)
        with redirect_stderr(said):
            self.assertEqual(main.ended(words, Toy(), clock.run), 4)
        self.assertIn(f"{out}/audit is the audit of another guard", said.getvalue())
        self.assertEqual([it.name for it in out.iterdir()], ["audit"])
        self.assertEqual((out / "audit").read_text(), text)

    def test_what_is_no_history_is_refused(self):
        right = '{"index":0,"time":1,"process":0,"type":"invoke","f":"write","value":["a","b"]}'
        for text, message in (
            (f"{right}\n{right[:40]}", "line 2 is no operation"),
            ("[]", "line 1 is no operation"),
        ):
            status, told, said = self.told("--edn", self.written("torn.jsonl", text))
            self.assertEqual((status, told), (2, ""))
            self.assertIn(message, said)
        status, _, said = self.told("--edn", self.room / "none")
        self.assertEqual(status, 2)
        self.assertIn("No such file", said)
