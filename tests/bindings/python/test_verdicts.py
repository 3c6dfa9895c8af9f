"""A tester of one's own, from outside: it keeps a history and a ledger, and has the program judge.

Expected are the rules of docs/FORMATS.md.
"""

import json
import os
import signal
import subprocess
import sys
import unittest
from pathlib import Path

import common
import faultyard
from faultyard import Guard, Key, Kind
from faultyard.history import History
from faultyard.ledger import Ledger
from faultyard.verdicts import Verdict, judge, judge_registers

THREE = common.ROOT / "tests/nemesis/three.toml"
EMPTY = {"key": Key.PROCESS, "kind": Kind.REBOOT_AND_DELETE, "by": 1}
MINUTE = 60 * 10**9


class Tester:
    """A store of one dictionary, a guard, and a clock of its own."""

    def __init__(self, folder, **more):
        self.time = 0
        self.guard = Guard(THREE, folder=folder, program=common.PROGRAM, **more)
        self.ledger = Ledger(self.guard, clock=lambda: self.time)
        self.ledger.begin()
        self.history = History(Path(folder, "history.jsonl"), self.ledger)
        self.client = self.history.client()
        self.keys = [f"r/{number}" for number in range(1, 5)]

    def pass_time(self, seconds=1.0):
        self.time += int(seconds * 1e9)

    def write(self, *keys):
        for key in keys or self.keys:
            with self.history.write(self.client, key, f"v{key}") as operation:
                self.pass_time()
                number = self.ledger.send()
                assert self.ledger.acknowledge(number, key, f"v{key}", number)
                operation.ok(f"v{key}")

    def destroy(self, name, node):
        verdict = self.guard.kill(value=name, **EMPTY)
        assert verdict.struck is Kind.REBOOT_AND_DELETE
        entry = self.guard.journal_len() - 1
        self.history.answered(entry)
        self.ledger.destroy(node, entry)

    def read_all(self, found):
        with self.history.reading() as reading:
            self.pass_time()
            self.history.read_all(reading, found.items())

    def ask(self, key, node, told):
        with self.history.read(self.history.client(), key, node) as operation:
            operation.ok(told)

    def values(self, *without):
        return {key: f"v{key}" for key in self.keys if key not in without}


class VerdictsTest(common.Folder, unittest.TestCase):
    def setUp(self):
        super().setUp()
        self.tester = Tester(self.folder)
        self.addCleanup(self.tester.guard.close)

    def judged(self):
        return judge(THREE, self.folder, common.PROGRAM)

    def counts(self):
        judged = self.judged()
        return {it.value: judged[it] for it in Verdict if judged[it]}

    def test_what_the_last_read_has_is_kept(self):
        self.tester.write()
        self.tester.history.written()
        self.tester.read_all(self.tester.values())
        self.assertEqual(self.counts(), {"kept": 4})
        self.assertEqual(self.judged().lines, [])

    def test_what_an_answered_read_lacks_is_lost_and_the_store_lost_it(self):
        self.tester.write()
        self.tester.destroy("p1", 1)
        self.tester.history.written()
        self.tester.read_all(self.tester.values("r/2"))
        judged = self.judged()
        self.assertEqual(self.counts(), {"kept": 3, "lost": 1})
        self.assertEqual(judged.keys(Verdict.LOST), ["r/2"])
        self.assertEqual(judged.lines[0]["fault"], "store")
        self.assertEqual(judged.lines[0]["destroyed"], [1])
        self.assertTrue(judged.is_unclear)
        kept = Path(self.folder, "verdict.jsonl").read_text().splitlines()
        self.assertEqual(json.loads(kept[0]), judged.lines[0])

    def test_where_no_read_was_answered_nothing_is_lost(self):
        self.tester.write()
        self.tester.history.written()
        with self.tester.history.reading():
            pass  # the store said no
        self.assertEqual(self.counts(), {"unreadable": 4})

    def test_disks_settle_what_no_read_told(self):
        """Known not to have it is a disk that was told whole; one that was told in part isn't."""
        self.tester.write()
        history = self.tester.history
        history.written()
        history.salvaged(0, self.tester.values("r/1", "r/2").items(), is_all=True)
        history.salvaged(1, [], is_all=True)
        history.salvaged(2, [], is_all=False)
        self.assertEqual(self.counts(), {"kept": 2, "unreadable": 2})
        history.looked_through(2, {"r/2"})
        self.assertEqual(self.counts(), {"kept": 2, "lost": 1, "unreadable": 1})
        self.assertEqual(self.judged().keys(Verdict.LOST), ["r/1"])

    def test_what_was_known_and_lacked_meanwhile_is_stale(self):
        self.tester.write()
        self.tester.ask("r/3", 1, None)
        self.tester.history.written()
        self.tester.read_all(self.tester.values())
        self.assertEqual(self.counts(), {"kept": 3, "stale": 1})

    def test_what_nobody_wrote_is_wrong(self):
        self.tester.write()
        self.tester.history.written()
        self.tester.read_all(self.tester.values() | {"r/3": "other"})
        self.assertEqual(
            self.judged().keys(Verdict.WRONG) + self.judged().keys(Verdict.LOST), ["r/3"]
        )

    def test_what_one_process_lacks_for_a_minute_is_missing(self):
        self.tester.write()
        self.tester.history.written()
        self.tester.ask("r/4", 2, None)
        self.tester.pass_time(60)
        self.tester.ask("r/4", 2, None)
        self.tester.read_all(self.tester.values())
        self.assertEqual(self.counts(), {"kept": 3, "missing": 1})
        self.assertEqual([node for node, _ in self.judged().lines[0]["lacks"]], [2])

    def test_keys_that_are_written_again_are_registers(self):
        tester = self.tester
        for value in ("a", "b"):
            with tester.history.write(tester.client, "x", value) as operation:
                operation.ok(value)
        tester.ask("x", None, "a")
        self.assertEqual(judge_registers(self.folder, common.PROGRAM).keys, ["x"])

    def test_what_is_no_history_of_the_audit_is_refused(self):
        path = Path(self.folder, "history.jsonl")
        path.write_text('{"index":0,"time":0,"f":"entry","value":7}\n')
        with self.assertRaises(faultyard.HistoryRefused) as caught:
            self.judged()
        self.assertIn("line 1", str(caught.exception))
        Path(self.folder, "audit").write_text(common.HEADER + "{}\n")
        with self.assertRaises((faultyard.AuditRefused, faultyard.HistoryRefused)):
            self.judged()

    def test_a_history_is_gone_on_with(self):
        """What was being asked may be done; a last line that is cut off is taken away."""
        tester = self.tester
        tester.write("r/1", "r/2")
        unfinished = tester.history.write(tester.client, "r/3", "vr/3")
        unfinished.__enter__()
        tester.history.close()
        path = Path(self.folder, "history.jsonl")
        with path.open("a") as file:
            file.write('{"index": 5, "ti')
        history = tester.history = History(path, tester.ledger, goes_on=True)
        self.assertEqual([*history.writes], ["r/1", "r/2", "r/3"])
        self.assertEqual(history.writes["r/3"][0].type, "info")
        tester.client = history.client()
        self.assertGreater(tester.client.process, 0)
        tester.write("r/4")
        history.written()
        tester.read_all(tester.values())
        lines = [json.loads(line) for line in path.read_text().splitlines()]
        self.assertEqual([line["index"] for line in lines], list(range(len(lines))))
        self.assertEqual(self.counts(), {"kept": 3})
        self.assertEqual(self.judged()["recovered"], 1)
        again = History(path, tester.ledger, goes_on=True)
        self.assertEqual((again.is_written, len(again.reads)), (True, 4))

    def test_a_test_that_is_killed_leaves_its_history(self):
        text = (
            "import sys, os, test_verdicts as it\n"
            f"tester = it.Tester({str(Path(self.folder, 'killed'))!r})\n"
            "tester.write('r/1')\n"
            "asked = tester.history.write(tester.client, 'r/2', 'v')\n"
            "asked.__enter__()\n"
            "os.kill(os.getpid(), 9)\n"
        )
        Path(self.folder, "killed").mkdir()
        here = os.environ | {"PYTHONPATH": os.pathsep.join(sys.path)}
        ran = subprocess.run([sys.executable, "-c", text], env=here, check=False)
        self.assertEqual(ran.returncode, -signal.SIGKILL)
        lines = Path(self.folder, "killed", "history.jsonl").read_text().splitlines()
        types = [json.loads(line)["type"] for line in lines]
        self.assertEqual(types, ["invoke", "ok", "invoke"])


class LedgerTest(common.Folder, unittest.TestCase):
    def setUp(self):
        super().setUp()
        tester = Tester(self.folder)
        self.addCleanup(tester.guard.close)
        tester.write("r/1", "r/2", "r/3")
        self.ledger = tester.ledger

    def test_no_answer_and_a_part_of_one_call_nothing_lost(self):
        self.assertEqual(self.ledger.lost({}, is_all=False), [])
        self.assertEqual(self.ledger.unknown({}), ["r/1", "r/2", "r/3"])
        part = {"r/1": "vr/1", "r/2": None}
        self.assertEqual([it.key for it in self.ledger.lost(part, is_all=False)], ["r/2"])
        self.assertEqual(self.ledger.unknown(part), ["r/3"])

    def test_whether_an_answer_is_whole_has_to_be_said(self):
        with self.assertRaisesRegex(TypeError, "is_all"):
            self.ledger.lost({})
        whole = {"r/1": "vr/1"}
        self.assertEqual([it.key for it in self.ledger.lost(whole, is_all=True)], ["r/2", "r/3"])


if __name__ == "__main__":
    unittest.main()
