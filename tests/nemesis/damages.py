"""Damaged disks: what is done to files, and what runs say of stores whose disks were damaged, in
virtual time on the toy store, with sums in its log and without."""

import io
import os
import subprocess
from collections.abc import Callable, Mapping, Sequence
from contextlib import redirect_stderr
from importlib.util import find_spec
from pathlib import Path

from lab import CLUSTER, ROOT, Case, Ran, ran
from lab import HOOKS as HOOKS_OF_NONE
from nemesis import damage, main
from nemesis.damage import NOTICED, Damage, Pattern
from toy import Alone, Call, Hook, Leads, Mode, Partial, Slow, Spreads, Sums, Toy, ends, hangs

COUNT, BATCH = max(1, int(os.environ.get("NEMESIS_SEEDS", 60)) // 5), 4
HOOKS = "start ready whole write read check salvage"
VALUES = {f"r/{number:09}": f"{number * 7919 + 12345:016x}" for number in range(128)}
PLAIN = ("bits", "zeros", "swap", "misdirect", "missing", "truncate", "rollback")


class Folders(Case):
    """What is done to the files of a process."""

    def folder(self, name: str = "folder", values: Mapping[str, str] = VALUES) -> Path:
        """A folder with two logs, of which each has half of some records, and a plain file."""
        folder = self.room / name
        (folder / "logs").mkdir(parents=True)
        lines = [f"{key} {value}\n" for key, value in values.items()]
        for number in range(2):
            (folder / "logs" / f"{number}.log").write_text("".join(lines[number::2]))
        (folder / "config").write_text("a = 1\n")
        return folder

    def files(self, folder: Path) -> dict[str, bytes]:
        found = {}
        for path in sorted(folder.rglob("*")):
            if path.is_file():
                found[str(path.relative_to(folder))] = path.read_bytes()
        return found

    def done(
        self, kind: str, word: int, patterns: Sequence[Pattern] = (Pattern("logs/*.log", 64),)
    ) -> tuple[Damage, dict[str, bytes], dict[str, bytes], Path]:
        """A damage, and what the folder had and has."""
        self.runs += 1
        folder, copies = self.folder(f"{kind}-{word}-{self.runs}"), []
        if kind == "rollback":
            few = dict([*VALUES.items()][:20])
            copies = [self.folder(f"copies-{self.runs}/1.5", few)]
        old = self.files(folder)
        found = damage.damage(word, 0, [kind], folder, patterns, VALUES, copies)
        assert found
        return found, old, self.files(folder), folder

    def test_a_word_does_the_same_again(self) -> None:
        for kind in PLAIN:
            told = set()
            for word in (*range(1, 9), 1):
                found, _, new, folder = self.done(kind, word)
                told.add((word, str(found.told()), str(new)))
                self.assertEqual(found.is_there(folder), kind not in ("swap", "rollback"))
            self.assertEqual(len({word for word, _, _ in told}), len(told), kind)
            if kind != "rollback":
                self.assertGreater(len({it for _, it, _ in told}), 4, kind)

    def test_each_kind_does_what_it_says_and_nothing_else(self) -> None:
        for word in range(40):
            for kind in ("bits", "zeros", "misdirect"):
                found, old, new, _ = self.done(kind, word)
                changed = [name for name in old if old[name] != new[name]]
                self.assertEqual((found.kind, changed), (kind, [found.file]))
                at, was, now = found.offset, old[found.file], new[found.file]
                assert at is not None and found.length
                end = at + found.length
                self.assertEqual((was[:at], was[end:]), (now[:at], now[end:]))
                self.assertEqual((was[at:end], now[at:end]), (found.was, found.now))
                if kind == "bits":
                    self.assertEqual((found.was[0] ^ found.now[0]).bit_count(), 1)
                elif kind == "zeros":
                    self.assertEqual((at % 64, now[at:end].strip(b"\0")), (0, b""))
                else:
                    self.assertEqual(at % 64, 0)
                    self.assertIn(now[at:end], [was[it : it + 64] for it in range(0, len(was), 64)])
            found, old, new, _ = self.done("swap", word)
            logs = "logs/0.log", "logs/1.log"
            self.assertEqual([new[it] for it in logs], [old[it] for it in reversed(logs)])
            found, old, new, _ = self.done("truncate", word)
            self.assertEqual(new[found.file], old[found.file][: found.offset])
            found, old, new, _ = self.done("missing", word)
            self.assertEqual(old.keys() - new.keys(), {found.file})
            found, old, new, folder = self.done("rollback", word)
            self.assertEqual((len(new["logs/0.log"].splitlines()), found.taken), (10, 1.5))

    def test_most_of_them_strike_what_is_acknowledged(self) -> None:
        its = [self.done("bits", word) for word in range(100)]
        hit = [(found, old) for found, old, _, _ in its if found.record]
        self.assertTrue(65 <= len(hit) <= 95, len(hit))
        for found, old in hit:
            assert found.offset is not None
            line = old[found.file][: found.offset].rpartition(b"\n")[2]
            self.assertTrue(line.startswith(found.record.encode()), line)

    def test_a_few_records_more_strike_nearly_the_same(self) -> None:
        """As in a replay, which never has as many as the run that it does again."""
        fewer, hit = dict([*VALUES.items()][:120]), 0
        for word in range(60):
            found = []
            for values in (VALUES, fewer):
                self.runs += 1
                folder = self.folder(f"{word}-{self.runs}", values)
                given = word, 0, ["bits"], folder, [Pattern("logs/*.log", 64)], values
                done = damage.damage(*given)
                assert done
                found.append(done)
            more, less = (int(it.record[2:] or -1) for it in found)
            self.assertTrue(less <= more <= less + 8, (word, more, less))
            hit += more >= 0
        self.assertGreater(hit, 30)

    def test_a_word_says_in_which_file(self) -> None:
        """Where a record stands in two, as in a log and a table, that doesn't hang on which."""
        its = {word: set[str]() for word in range(20)}
        for count in (100, 110, 128):
            values = dict([*VALUES.items()][:count])
            for word, names in its.items():
                self.runs += 1
                folder = self.folder(f"{word}-{self.runs}", values)
                both = b"".join((folder / f"logs/{it}.log").read_bytes() for it in range(2))
                for number in range(2):
                    (folder / f"logs/{number}.log").write_bytes(both)
                patterns = [Pattern("logs/*.log", 64)]
                found = damage.damage(word, 0, ["bits"], folder, patterns, values)
                assert found
                names.add(found.file if found.record else "")
        self.assertEqual([names for names in its.values() if len(names) > 1], [])
        self.assertEqual(set().union(*its.values()), {"", "logs/0.log", "logs/1.log"})

    def test_two_pages_of_a_lone_file_are_swapped(self) -> None:
        patterns = [Pattern("logs/1.log", 64)]
        found, old, new, _ = self.done("swap", 5, patterns)
        name = "logs/1.log"
        pages = [[it[name][at : at + 64] for at in range(0, 1856, 64)] for it in (old, new)]
        self.assertEqual(sorted(pages[0]), sorted(pages[1]))
        self.assertEqual(sum(a != b for a, b in zip(*pages)), 2)
        self.assertEqual(
            found.offset, next(at * 64 for at, it in enumerate(pages[1]) if it == found.now)
        )

    def test_what_cannot_be_done_is_another_kind_or_nothing(self) -> None:
        folder = self.room / "lone"
        folder.mkdir()
        (folder / "log").write_text("a")
        given = folder, [Pattern("*")], {}, ()
        found = damage.damage(3, 0, ["rollback", "misdirect", "bits"], *given)
        assert found
        self.assertEqual(found.kind, "bits")
        self.assertIsNone(damage.damage(3, 0, ["rollback", "misdirect"], *given))
        (folder / "log").write_text("")
        self.assertIsNone(damage.damage(3, 0, ["bits", "missing"], *given))

    def test_a_file_that_was_all_is_forgotten_with_all(self) -> None:
        folder = self.room / "lone"
        folder.mkdir()
        (folder / "log").write_text("a")
        found = damage.damage(3, 0, ["missing"], folder, [damage.EVERY], {})
        assert found
        self.assertTrue(found.forgets)
        found, _, _, _ = self.done("missing", 3)
        self.assertFalse(found.forgets)

    def test_holes_are_no_aim(self) -> None:
        folder = self.room / "sparse"
        folder.mkdir()
        with (folder / "wal").open("wb") as file:
            file.truncate(1 << 24)
            file.seek(1 << 20)
            file.write(b"x" * 100)
        for word in range(20):
            found = damage.damage(word, 0, ["bits"], folder, [damage.EVERY], {})
            assert found and found.offset is not None
            self.assertTrue(1 << 20 <= found.offset < (1 << 20) + 4096, found)

    def test_patterns_are_lines(self) -> None:
        read = damage.patterns_of
        self.assertEqual(read("a/*.log 512\nb\n"), [Pattern("a/*.log", 512), Pattern("b", 4096)])
        self.assertEqual(read(""), [damage.EVERY])
        for text in ("/etc/passwd", "../1/log", "a/../../b 1", "a b", "a 1 2", "a 0"):
            with self.assertRaises(ValueError):
                read(text)


class Kinds(Case):
    """What comes of each kind on a store with sums, and on one without."""

    is_shown = False

    def damaged(self, kinds: str, *modes: Mode, status: int = 0, **more: object) -> Ran:
        """A run in which the disk of p1 is damaged once, after four seconds."""
        words, own = more.pop("words", ()), dict(more.pop("hooks", {}))
        orders = more.pop("orders", ((3, "p1", "RebootAndDelete"),))
        own["files"] = ends(0, prints=["log 64"])
        toy = Toy(1, *modes, listed=f"{HOOKS} files join", hooks=own, pace=0.3)
        given = "--damage", kinds, "--seconds", 7, "--readers", 0, "--damage-seconds", 2
        return self.ran(*given, *words, *self.given(*orders), toy=toy, status=status)

    def came(self, it: Ran) -> list[str]:
        return [told["came"] for told in it.events("observed")]

    def assert_nothing_is_blamed(self, it: Ran) -> None:
        counts = it.counts
        self.assertEqual(
            [counts[its] for its in ("lost", "wrong", "missing", "unreadable")], [0] * 4
        )
        self.assertEqual(it.lines("lost.jsonl"), [])

    def test_sums_refuse_what_they_see(self) -> None:
        for kind in NOTICED[:-1]:
            it = self.damaged(kind, Sums())
            (done,), (told,) = it.events("damage"), it.events("observed")
            self.assertEqual((done["kind"], done["process"]), (kind, 1))
            self.assertEqual((told["came"], told["ended"], told["was_up"]), ("refused", 2, False))
            self.assertRegex(told["log"], "wrong sum|is gone")
            self.assertIn(f"\n  refused: 1 (1 {kind})\n", it.told)
            self.assertNotIn("ended by itself 0 times", it.told)
            self.assertEqual(len(it.events("heal")), 1)
            self.assert_nothing_is_blamed(it)

    def test_what_is_filled_from_the_others_is_repaired(self) -> None:
        for kind in ("bits", "zeros", "misdirect"):
            it = self.damaged(kind, Sums("fill"), Alone())
            self.assertEqual(self.came(it), ["repaired"], kind)
            self.assert_nothing_is_blamed(it)

    def test_without_sums_a_wrong_value_is_told_by_one_alone(self) -> None:
        it = self.damaged("bits", Alone(), status=11)
        (done,), (told,) = it.events("damage"), it.events("observed")
        (line,) = it.lines("records.jsonl")
        key, value = done["record"], it.toy.acked[done["record"]]
        self.assertEqual((told["came"], [*told["wrong"]]), ("served wrong", [key]))
        self.assertEqual(value, line["value"])
        self.assertEqual((line["verdict"], line["process"], line["key"]), ("damaged", "p1", key))
        self.assertEqual(line["told"], told["wrong"][key])
        bits = [a for a, b in zip(line["told"], value) if a != b]
        self.assertEqual(len(bits), 1)
        reads = [its["value"] for its in it.operations("read", "ok") if its["value"][0] == key]
        self.assertEqual({it for _, it in reads}, {value})
        self.assertRegex(it.told, f"damaged: {key}: p1 alone told .* at the end (\\d) of \\1 reads")
        self.assert_nothing_is_blamed(it)

    def test_what_others_tell_too_is_wrong(self) -> None:
        it = self.damaged("bits", Alone(), Spreads(), status=8)
        (done,), (line,) = it.events("damage"), it.lines("records.jsonl")
        self.assertEqual((line["verdict"], line["key"]), ("wrong", done["record"]))
        self.assertRegex(line["fault"], "the disk of p1 was damaged by entry 0: bits in log")
        self.assertRegex(line["fault"], r"at the end 0 of [34] reads had it right$")

    def test_a_hole_is_lacked(self) -> None:
        """Zeros in a log without sums, and nothing is got from the others."""
        it = self.damaged("zeros", Alone())
        (told,) = it.events("observed")
        self.assertGreater(told["lacks"], 0)
        self.assertEqual(told["lacked"], told["lacks"])
        self.assert_nothing_is_blamed(it)

    def test_what_a_disk_forgot_is_lacked(self) -> None:
        for kind in ("truncate", "rollback"):
            it = self.damaged(kind, Sums(), Alone())
            (done,), (told,) = it.events("damage"), it.events("observed")
            self.assertEqual((done["class"], told["came"]), ("forgetting", "lacked"))
            self.assertGreater(told["lacks"], 0)
            self.assert_nothing_is_blamed(it)

    def test_one_that_forgets_and_leads_is_a_control(self) -> None:
        for kind in ("truncate", "rollback"):
            it = self.damaged(kind, Sums(), Alone(), Leads(), status=1)
            lines = [its for its in it.lines("records.jsonl") if its["verdict"] == "lost"]
            self.assertGreater(len(lines), 0)
            text = f"since entry 0 the disk of p1 had forgotten what it synced ({kind})"
            self.assertEqual(
                {its["fault"] for its in lines}, {f"{text}: a control, by which nobody is blamed"}
            )

    def test_a_log_that_is_cut_off_where_its_sum_is_wrong_is_the_fault_of_the_store(self) -> None:
        for kind in ("bits", "zeros"):
            it = self.damaged(kind, Sums("cut"), Alone(), Leads(), status=1)
            (told,), lost = it.events("observed"), it.lines("lost.jsonl")
            self.assertEqual(told["came"], "lacked")
            self.assertGreater(len(lost), 0)
            lines = [its for its in it.lines("records.jsonl") if its["verdict"] == "lost"]
            for line in lines:
                self.assertIn(
                    "the store lost it; the disk of p1 was damaged by entry 0", line["fault"]
                )
                self.assertTrue(line["fault"].endswith(f"and then it lacked {told['lacked']}"))

    def test_a_slow_one_is_asked_for_the_damaged_record_first(self) -> None:
        """It isn't said to have told all, where the time was over before it was asked for all."""
        it = self.damaged("bits", Alone(), Slow(0.4), status=11)
        (told,) = it.events("observed")
        self.assertEqual([*told["wrong"]], [it.events("damage")[0]["record"]])
        self.assertTrue(0 < told["asked"] < told["acked"], told)
        count = f"asked for {told['asked']} of {told['acked']} records"
        self.assertRegex(it.told, f"damage of p1 by bits: served wrong: .*{count}")

    def test_a_damage_is_told_of_where_it_is_unknown_who_is_wrong(self) -> None:
        """`read` lacks what `check` tells: as of a store that was split by what a disk forgot."""
        it = self.damaged("bits", Sums("cut"), Alone(), Partial(5), status=1)
        (told,) = it.events("observed")
        lines = [its for its in it.lines("records.jsonl") if its["verdict"] == "lost"]
        self.assertGreater(len(lines), 0)
        for line in lines:
            self.assertRegex(
                line["fault"], r"^`read` lacks it, and .* told it by `check`: .* wrong;"
            )
            self.assertTrue(line["fault"].endswith(f"and then it lacked {told['lacked']}"))

    def test_a_process_that_never_runs_is_told(self) -> None:
        async def start(call: Call) -> int:
            return await (hangs(call) if call.is_damaged else Toy.start(store, call))

        store: Toy = Toy(1, listed=f"{HOOKS} files", hooks={"files": ends(0, prints=["log 64"])})
        store.own["start"] = start
        given = "--damage", "bits", "--seconds", 12, "--damage-seconds", 3
        it = self.ran(*given, *self.given((4, "p1", "RebootAndDelete")), toy=store, status=0)
        (told,) = it.events("observed")
        self.assertEqual((told["came"], told["was_up"]), ("never up", False))
        self.assertTrue(3 <= told["seconds"] < 3.5, told)

    def test_it_is_emptied_and_joins_in_the_end(self) -> None:
        it = self.damaged("bits", Sums())
        self.assertEqual(it.toy.disk(1).keys() & it.toy.acked.keys(), it.toy.disk(1).keys())
        (end,), (heal,), (join,) = (it.events(name) for name in ("observed", "heal", "join"))
        self.assertTrue(end["t"] <= join["t"] <= heal["t"])
        self.assertEqual(it.toy.calls.count("join 1"), 1)
        self.assertEqual(it.toy.calls.count("start 1"), 4)  # at first, damaged twice, and joined

    def test_one_that_is_struck_again_is_emptied(self) -> None:
        for kind in ("RebootAndDelete", "Reboot"):
            orders = (3, "p1", "RebootAndDelete"), (4, "p1", kind)
            it = self.damaged("truncate", Sums(), orders=orders)
            self.assertEqual(self.came(it), ["not over"])
            self.assertEqual(len(it.events("damage")), 1)
            self.assertEqual(it.toy.calls.count("join 1"), 1)
            self.assert_nothing_is_blamed(it)

    def test_a_replay_does_the_same(self) -> None:
        words = "--damage", ",".join(PLAIN), "--seed", 3, "--seconds", 12, "--damage-seconds", 1
        words += "--readers", 0
        own = {"files": ends(0, prints=["log 64"])}
        more = {"listed": f"{HOOKS} files join", "hooks": own, "pace": 0.3}
        its = [self.ran(*words, toy=Toy(4, Sums(), **more), status=0)]
        for _ in range(2):
            again = "--replay", its[-1].out / "events.jsonl"
            its.append(self.ran(*words, *again, toy=Toy(4, Sums(), **more), status=0))
        first, second, third = [[{**told, "up": 0} for told in it.events("damage")] for it in its]
        self.assertGreater(len(first), 2)
        self.assertEqual([told["kind"] for told in first], [told["kind"] for told in second])
        self.assertEqual(second, third)


class Roles(Case):
    """A primary whose disk is damaged, hooks that fail, runs that die, and words."""

    is_shown = False

    def ran_by_two(self, *words: object, elect: Sequence[str]) -> tuple[Ran, list[str]]:
        """A run in which the disk of p0 is damaged, and what was called from then on."""

        async def asked(call: Call) -> int:
            if 0 not in call.able:
                for line in elect:
                    call.print(line)
            return 0

        own = {"elect": asked, "files": ends(0, prints=["log 64"])}
        toy = Toy(1, Sums("fill"), listed=f"{HOOKS} elect join files", hooks=own, pace=0.3)
        given = "--damage", "zeros", "--seconds", 7, "--readers", 0, "--damage-seconds", 2
        orders = self.given((3, "p0", "RebootAndDelete"))
        it = self.ran(*given, *words, *orders, toy=toy, status=0)
        calls = [call for call in toy.calls if call in ("elect", "start 0", "join 0")]
        return it, calls

    def test_a_damaged_primary_is_elected_away_and_emptied(self) -> None:
        it, calls = self.ran_by_two(elect=["empty 0"])
        self.assertEqual([told["came"] for told in it.events("observed")], ["not over"])
        self.assertEqual(calls, ["start 0", "elect", "join 0", "start 0"])

    def test_by_the_option_it_stays_what_it_was_until_it_is_emptied(self) -> None:
        it, calls = self.ran_by_two("--damaged-primary", elect=["empty 0"])
        self.assertEqual([told["came"] for told in it.events("observed")], ["repaired"])
        self.assertEqual(calls, ["start 0", "start 0", "elect", "join 0", "start 0"])

    def test_files_may_not_fail_or_print_what_is_no_pattern(self) -> None:
        for hook, text in (
            (ends(1, "no such thing"), r"files 1 ended with status 1 \(no such thing\)"),
            (ends(0, prints=["/etc/passwd"]), "files 1 printed '/etc/passwd'; it has to print"),
        ):
            toy = Toy(1, listed=f"{HOOKS} files", hooks={"files": hook}, pace=0.3)
            words = "--damage", "bits", "--seconds", 5, *self.given((2, "p1", "RebootAndDelete"))
            it = self.ran(*words, toy=toy, status=3)
            self.assertRegex(it.told, text)

    def test_nothing_is_asked_without_check(self) -> None:
        toy = Toy(1, listed="start ready whole write read", pace=0.3)
        words = "--damage", "bits", "--damage-seconds", 1, "--seconds", 6
        it = self.ran(*words, *self.given((2, "p1", "RebootAndDelete")), toy=toy, status=0)
        self.assertEqual([told["came"] for told in it.events("observed")], ["not asked"])

    def came_by(self, **hooks: Hook) -> list[str]:
        """What comes of a bit on the disk of p1, by hooks that do otherwise where it is damaged."""

        def choose(name: str, other: Hook) -> Hook:
            async def asked(call: Call) -> int:
                is_damaged = call.env.get("FY_DAMAGED") == "1" and call.numbers[:1] in ([], [1])
                return await (other(call) if is_damaged else getattr(Toy, name)(store, call))

            return asked

        own = {name: choose(name, other) for name, other in hooks.items()}
        own["files"] = ends(0, prints=["log 64"])
        store = Toy(1, Sums("fill"), listed=f"{HOOKS} files", hooks=own, pace=0.3)
        words = "--damage", "bits", "--damage-seconds", 1, "--seconds", 6
        it = self.ran(*words, *self.given((3, "p1", "RebootAndDelete")), toy=store, status=0)
        return [told["came"] for told in it.events("observed")]

    def test_what_may_not_be_asked_or_is_not_whole_is_not_said_to_refuse(self) -> None:
        async def mute(call: Call) -> int:
            async for _ in call.lines():
                call.print("?")
            return 0

        self.assertEqual(self.came_by(), ["repaired"])
        self.assertEqual(self.came_by(whole=ends(1)), ["not whole"])
        self.assertEqual(self.came_by(check=mute), ["not asked"])
        self.assertEqual(self.came_by(check=mute, whole=ends(1)), ["refused"])

    def test_wrong_words_are_refused(self) -> None:
        for words, message in (
            (["--damage", "bit"], "--damage"),
            (["--damage-seconds", "3"], "need --damage"),
            (["--damaged-primary"], "need --damage"),
            (["--damage", "error"], "--damage error needs --disks lossy"),
            (["--damage", "bits", "--check-hooks"], "--check-hooks damages no disk"),
            (["--damage", "bits", "--disks", "ext4", "--deaf-disks"], "isn't for --deaf-disks"),
        ):
            said = io.StringIO()
            with redirect_stderr(said), self.assertRaises(SystemExit) as end:
                main.parsed([str(CLUSTER), str(HOOKS_OF_NONE), *words])
            self.assertEqual(end.exception.code, 2)
            self.assertIn(message, said.getvalue())


class Examples(Case):
    """The hooks of real stores, none of which runs."""

    def called(self, store: str, *words: str, **env: str) -> str:
        """What a hook of a store prints."""
        hooks = ROOT / "examples" / store / "hooks"
        told = {"FY_COUNT": "5", "FY_NAMES": "s0 s1 s2 s3 s4", "FY_DIR": str(self.room), **env}
        path = [str(ROOT / "bindings/python/src"), os.environ.get("PYTHONPATH", "")]
        told["PYTHONPATH"] = os.pathsep.join(path).strip(os.pathsep)
        done = subprocess.run([hooks, *words], env={**os.environ, **told}, stdout=subprocess.PIPE)
        self.assertEqual(done.returncode, 0, (store, words))
        return done.stdout.decode()

    def test_files_are_named_below_the_folder_of_a_process(self) -> None:
        named = 0
        for hooks in sorted(ROOT.glob("examples/*/hooks")):
            store = hooks.parent.name
            is_there = store != "ceph" or find_spec("rados")  # which its hooks import
            if is_there and "files" in self.called(store, "hooks").split():
                named += 1
                self.assertNotIn(damage.EVERY, damage.patterns_of(self.called(store, "files", "1")))
        self.assertGreaterEqual(named, 7)

    def test_a_damaged_server_of_zookeeper_stays_a_voter(self) -> None:
        """One that was emptied comes back as an observer."""
        java, mine = self.room / "java", self.room / "1"
        java.write_text("#!/bin/sh\n")
        java.chmod(0o755)
        (mine / "data").mkdir(parents=True)
        more = {"FY_PORT": "1", "PATH": f"{self.room}{os.pathsep}{os.environ['PATH']}"}
        self.called("zookeeper", "start", "1", FY_ABLE="0 1 2 3 4", **more)
        first = {it.name: it.read_text() for it in mine.glob("zoo.cfg*")}
        self.assertIn("server.2=127.0.0.1:6:7:participant", first["zoo.cfg.dynamic"])
        self.called("zookeeper", "start", "1", FY_ABLE="0 2 3 4", FY_DAMAGED="1", **more)
        self.assertEqual({it.name: it.read_text() for it in mine.glob("zoo.cfg*")}, first)


class Honest(Case):
    """By what a store can see it loses nothing, and nobody is blamed."""

    is_shown = False

    def tried(self, seed: int) -> None:
        does = ("refuse", "fill")[seed % 2]
        own = {"files": ends(0, prints=["log 64"])}
        toy = Toy(seed, Sums(does), listed=f"{HOOKS} files join", hooks=own, pace=0.4)
        words = "--damage", "noticed", "--seed", seed, "--damage-seconds", 1, "--readers", 0
        self.runs += 1
        given = *words, "--plan", "mixed", "--kinds", "0,1,4,0,1", "--pauses", "1,2", "--seconds", 6
        it = ran(toy, self.room / str(self.runs), *given, "--quiet", is_shown=False)
        self.assertEqual((it.status, it.lines("lost.jsonl")), (0, []), it.told)
        came = {told["came"] for told in it.events("observed")}
        self.assertLessEqual(came, {"refused", "repaired", "told rightly", "not over"}, it.told)
        self.remove(it)


def test_of(first: int) -> Callable[[Honest], None]:
    def test(self: Honest) -> None:
        for seed in range(first, min(first + BATCH, COUNT)):
            with self.subTest(seed=seed):
                self.tried(seed)

    return test


for number in range(0, COUNT, BATCH):
    setattr(Honest, f"test_seeds_from_{number:04}", test_of(number))
