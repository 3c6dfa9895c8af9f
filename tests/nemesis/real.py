"""What needs processes, signals, folders and networks: tools/faultyard-nemesis as a command, on a
small store of ours and on those of the pages.

No test has a limit of wall time: most runs are of `--check-hooks`, which goes on once what it waits
for has happened, however busy the machine is. A process has CPU seconds of processor time.
"""
import asyncio
import json
import os
import random
import re
import resource
import shlex
import shutil
import signal
import socket
import subprocess
import sys
import tempfile
import time
import unittest
import unittest.mock
import uuid
from pathlib import Path

import histories
import keeper
import lab
import resumed
import toy
from nemesis import store

HERE = Path(__file__).resolve().parent
ROOT = HERE.parent.parent
TOOL = [sys.executable, "-I", "-S", str(ROOT / "tools/faultyard-nemesis")]
STORE = shlex.join([sys.executable, "-I", "-S", str(HERE / "store.py")])
CLUSTER = HERE / "three.toml"
CPU = 120  # seconds of processor time that each process of a run may take
SECONDS = 3600  # what hangs takes no processor time: after an hour a test gives up
POLLS = 5000  # so often is looked again; on a busy machine that takes the longer
PATIENT = ("--hook-timeout", 200)  # the tool's own limits are of wall time
FEW = ("--writers", 1, "--readers", 1)  # each takes all the processor time that it gets
# In memory the store's writes wait for no disk, which others may keep busy.
MEMORY = "/dev/shm" if os.access("/dev/shm", os.W_OK) else None


def wait_until(what, holds):
    for _ in range(POLLS):
        if holds():
            return
        time.sleep(0.02)
    raise AssertionError(f"{what} took over {POLLS} looks")


def limit_processor_time():
    resource.setrlimit(resource.RLIMIT_CPU, (CPU, CPU))


class Case(unittest.TestCase):
    """A folder of its own, and a mark in the environment of all that a run starts."""

    def setUp(self):
        room = tempfile.TemporaryDirectory(prefix="nemesis-test-", dir=MEMORY)
        self.room = Path(self.enterContext(room))
        self.out, self.mark = self.room / "out", uuid.uuid4().hex
        self.room.joinpath("cwd").mkdir()
        self.env = {**os.environ, "NEMESIS_TEST": self.mark, "TMPDIR": str(self.room / "cwd")}
        self.addCleanup(self.end_left)

    def left(self):
        """Processes that the run has started."""
        found = []
        for entry in Path("/proc").iterdir():
            try:
                if entry.name.isdigit() and self.mark.encode() in (entry / "environ").read_bytes():
                    found.append(int(entry.name))
            except OSError:
                pass
        return found

    def end_left(self):
        for pid in self.left():
            os.kill(pid, signal.SIGKILL)

    def hooks(self, cases=""):
        """The store's hooks, of which some are others."""
        path = self.room / "hooks"
        path.write_text(f'#!/bin/bash\ncase $1 in\n{cases}\nesac\nexec {STORE} "$@"\n')
        path.chmod(0o755)
        return path

    def start(self, *words, cases="", fault="", cluster=CLUSTER, hooks=None, around=()):
        command = [
            *around,
            *TOOL,
            str(cluster),
            str(hooks or self.hooks(cases)),
            "--out",
            str(self.out),
            *map(str, words),
        ]
        env = {**self.env, "STORE_FAULT": fault}
        pipe = subprocess.PIPE
        return subprocess.Popen(
            command,
            env=env,
            cwd=self.room / "cwd",
            stdout=pipe,
            stderr=pipe,
            text=True,
            preexec_fn=limit_processor_time,
        )

    def run_tool(self, *words, status, **more):
        """What a run prints, which has to end with a status and leave nothing running."""
        running = self.start(*words, **more)
        told, said = running.communicate(timeout=SECONDS)
        self.assertEqual(running.returncode, status, told + said)
        self.assertEqual(self.left(), [])
        self.assertEqual(list(self.room.joinpath("cwd").iterdir()), [])
        if (self.out / "audit").exists():
            texts = (self.out / "history.jsonl").read_text().splitlines()
            self.assertIsNone(histories.fault(texts, 3, len(self.audit())))
        return told + said

    def operations(self, f, kind):
        """The lines of writes or reads that begin or end in some way."""
        lines = map(json.loads, (self.out / "history.jsonl").open())
        lines = [it for it in lines if "process" in it]
        return [it for it in lines if (it["f"], it["type"]) == (f, kind)]

    def events_file(self, *orders):
        """A file of events with these orders: when, which process, and the kind."""
        path = self.room / "given.jsonl"
        lines = [
            {"t": at, "what": "order", "key": "processid", "value": who, "order": kind}
            for at, who, kind in orders
        ]
        path.write_text(
            "".join(json.dumps(line) + "\n" for line in [{"t": 0, "what": "ready"}, *lines])
        )
        return path

    def events(self, what=None):
        """The events so far, the last of which may be cut off."""
        path = self.out / "events.jsonl"
        *lines, _ = path.read_text().split("\n") if path.exists() else [""]
        found = [json.loads(line) for line in lines]
        return [event for event in found if what in (None, event["what"])]

    def audit(self):
        return [json.loads(line) for line in (self.out / "audit").read_text().splitlines()[1:]]


class Hooks(Case):
    """Hooks as processes, tried by --check-hooks."""

    def test_a_right_store_has_nothing_wrong(self):
        """What `setup` starts lives until the run ends; the log has what hooks say, also as they go
        on; a copy of a folder is salvaged."""
        cases = """
            hooks) echo setup start ready whole write read check salvage; exit;;
            setup) setsid sleep 3333 > /dev/null & echo $! > "$FY_DIR/shared"; exit;;
            read) kill -0 "$(cat "$FY_DIR/shared")" || exit 1;;
            whole) echo "looks at $2" >&2;;
            write) echo speaks >&2;;"""
        told = self.run_tool("--check-hooks", *FEW, *PATIENT, cases=cases, status=0)
        self.assertIn("p2 is back after RebootAndDelete", told)
        self.assertRegex(told, r"\d+ acknowledged: (\d+) kept, 0 lost, .*; audit legal \d+; ")
        self.assertRegex(told, r"\na start took up to \d+\.\d s, a heal up to \d+\.\d s\n")
        lines = [line[7:] for line in (self.out / "hooks.log").read_text().splitlines()]
        self.assertEqual(lines[0], "  write: speaks")
        self.assertRegex("\n".join(lines), r"\n  whole 0 \d+: looks at 0\n")

    def skeleton(self, which, *orders):
        """Tries one of the page's skeletons, which is short; the kinds of the orders."""
        page = (ROOT / "docs/HOOKS.md").read_text()
        skeleton = re.findall(r"^```python\n(#!.*?)^```$", page, re.M | re.S)[which]
        self.assertLess(len(skeleton.splitlines()), 50)
        cluster, hooks = self.room / "cluster.toml", self.room / "skeleton"
        cluster.write_text(re.search(r"^```toml\n(.*?)^```$", page, re.M | re.S)[1])
        hooks.write_text(skeleton)
        hooks.chmod(0o755)
        self.env["PATH"] = f"{HERE}:{self.env['PATH']}"
        words = ("--check-hooks", *FEW, *PATIENT)
        told = self.run_tool(*words, cluster=cluster, hooks=hooks, status=0)
        self.assertRegex(told, rf"guarded, seed 1: {len(orders)} orders, 0 lessened, 0 barred; ")
        self.assertEqual([event["does"] for event in self.events("order")], [*orders])
        self.assertEqual([event["process"] for event in self.events("heal")], [0, 1, 2])
        self.assertRegex(told, r"\n[1-9]\d* acknowledged: [1-9]\d* kept, 0 lost, ")
        self.assertEqual([event["process"] for event in self.events("join")], [0, 1, 2])

    def test_the_skeleton_of_the_page_is_short_and_works(self):
        self.skeleton(0, *3 * ("Reboot", "RebootAndDelete"), "KillInstantly")

    def test_the_skeleton_for_a_primary_is_short_and_works(self):
        """The primary is emptied, and comes back as a standby of another, which takes writes: what
        only the new one has isn't lost."""
        self.skeleton(1, *3 * ("Reboot", "RebootAndDelete"))
        heal = self.events("heal")[0]
        self.assertEqual(heal["process"], 0)
        self.assertIn((self.out / "primary").read_text(), ("0", "1", "2"))
        times = [it["time"] / 1e9 for it in self.operations("write", "ok")]
        self.assertTrue(any(time > heal["t"] for time in times))

    def test_an_executable_that_cannot_be_run(self):
        lost = self.room / "no-interpreter"
        lost.write_text("#!/nonexistent/sh\n")
        lost.chmod(0o755)
        told = self.run_tool(hooks=lost, status=2)
        self.assertIn("can't be run: No such file", told)
        self.assertFalse(self.out.exists())


class Commands(unittest.TestCase):
    """The keeper of a command."""

    def test_one_that_prints_without_end_hangs(self):
        async def main():
            printed = asyncio.create_task(keeper.output("yes"))
            done, _ = await asyncio.wait([printed], timeout=1)
            self.assertFalse(done)
            printed.cancel()
            await asyncio.wait([printed])
            self.assertTrue(printed.cancelled())

        with unittest.mock.patch.object(keeper, "MOST_PRINTED", 1 << 16):
            asyncio.run(main())

    def test_one_that_ends_is_told_with_all_that_it_printed(self):
        for script, status, printed in (
            ("printf 'a\\nb'; exit 7", 7, "a\nb"),
            ("kill -9 $$", 128 + 9, ""),
        ):
            told = asyncio.run(keeper.output("sh", "-c", script))
            self.assertEqual(told, (status, printed))


class Folders(Case):
    def test_a_folder_is_emptied_though_something_writes_into_it(self):
        """It makes files faster than they are removed."""
        folder = self.room / "folder"
        folder.mkdir()
        writer = """
import itertools, os, sys
for n in itertools.count():
    try: os.makedirs(sys.argv[1], exist_ok=True); open(sys.argv[1] + "/" + str(n), "w").close()
    except OSError: pass"""
        words = [sys.executable, "-I", "-S", "-c", writer, str(folder / "below")]
        writing = subprocess.Popen(words, preexec_fn=limit_processor_time)
        self.addCleanup(writing.wait)
        self.addCleanup(writing.kill)
        for _ in range(8):
            wait_until("a file", lambda: any(folder.glob("below/*")))
            store.empty(folder)
            self.assertTrue(folder.is_dir())
        writing.kill()
        writing.wait()
        store.empty(folder)
        self.assertEqual([*folder.iterdir()], [])


class Trees(Case):
    """What runs is ended with all that it started, and nothing else."""

    # Each server leaves a process in a session of its own, whose parent has ended.
    DAEMON = 'start) (setsid sleep 1234 > /dev/null 2>&1 & echo $! >> "$FY_DIR/daemons.$2");;'

    def test_a_kill_takes_the_whole_tree(self):
        cases = f"""{self.DAEMON}
            ready) kill -0 $(tail -n 1 "$FY_DIR/daemons.$2") || exit 1
                for pid in $(head -n -1 "$FY_DIR/daemons.$2"); do
                    kill -0 $pid && echo $pid >> "$FY_DIR/alive"
                done;;"""
        told = self.run_tool("--check-hooks", *PATIENT, cases=cases, status=0)
        self.assertIn(" 0 lost", told)
        started = sum(len(path.read_text().split()) for path in self.out.glob("daemons.*"))
        struck = sum(len(event["targets"]) for event in self.events("order"))
        self.assertEqual((started, struck), (3 + struck, 6))
        self.assertFalse((self.out / "alive").exists(), "one outlived the process that it served")

    def stopped(self):
        """The servers that are stopped by a signal."""
        found = set()
        for pid in self.left():
            try:
                state = Path(f"/proc/{pid}/stat").read_text().rpartition(")")[2].split()[0]
                words = Path(f"/proc/{pid}/cmdline").read_text().split("\0")[:-1]
            except OSError:
                continue
            if state == "T" and words[-2:-1] == ["start"]:
                found.add(int(words[-1]))
        return found

    def clogged(self, *orders):
        """A run that makes these clogs: when, of which process, and for how many seconds."""
        given = self.events_file(*((at, who, "Clog") for at, who, _ in orders))
        lines = [json.loads(line) for line in given.read_text().splitlines()]
        for line, (_, _, seconds) in zip(lines[1:], orders):
            line["clogged"] = seconds
        given.write_text("".join(f"{json.dumps(line)}\n" for line in lines))
        return self.start("--seconds", SECONDS, "--replay", given, *PATIENT)

    def test_a_clog_stops_a_server_and_lets_it_go_on(self):
        running = self.clogged((0.1, "p0", SECONDS), (0.2, "p1", 1))
        wait_until("a clog", lambda: len(self.events("order")) == 2)
        wait_until("a stop", lambda: 0 in self.stopped())
        wait_until("the end of the other", lambda: self.events("unclog"))
        wait_until("one that goes on", lambda: self.stopped() == {0})
        running.send_signal(signal.SIGINT)
        told, said = running.communicate(timeout=SECONDS)
        self.assertEqual(running.returncode, 128 + signal.SIGINT, told + said)
        self.assertEqual({event["does"] for event in self.events("order")}, {"Clog"})
        self.assertEqual([event for event in self.events() if event["what"] in ("ended", "up")], [])
        self.assertEqual(self.left(), [])

    def test_a_clog_may_cut_the_network(self):
        """In a network namespace of the run's own, each server has an address, which `pause` takes
        away. The hooks look themselves whether the server answers; it goes on running."""
        if os.geteuid() != 0 or not shutil.which("ip"):
            self.skipTest(
                "the nemesis cutting a network: there is no ip, or no root"
                " (Debian: apt-get install iproute2)"
            )
        cut = f"ip addr del 10.77.0.$(($2 + 1))/32 dev lo && ! {STORE} ready $2"
        cases = f"""
            hooks) echo setup start ready whole write read pause resume; exit;;
            setup) for n in 1 2 3; do ip addr add 10.77.0.$n/32 dev lo || exit 1; done; exit;;
            pause) {STORE} ready $2 && {cut}; exit;;
            resume) ip addr add 10.77.0.$(($2 + 1))/32 dev lo && {STORE} ready $2; exit;;"""
        self.env |= {"STORE_NET": "10.77.0.", "STORE_WAITS": str(SECONDS)}
        around = ["unshare", "--net", "sh", "-c", 'ip link set lo up && exec "$@"', "sh"]
        self.run_tool("--check-hooks", *PATIENT, cases=cases, around=around, status=0)
        clogs = [event for event in self.events("order") if event["does"] == "Clog"]
        self.assertEqual([event["targets"] for event in clogs], [[0], [1], [2]])
        self.assertEqual(len(clogs), len(self.events("unclog")))
        self.assertEqual(self.events("ended by itself"), [])

    def test_the_keeper_is_killed(self):
        running = self.start("--seconds", SECONDS, "--quiet", *PATIENT)
        wait_until("the start", lambda: self.events("ready"))
        below = [
            pid
            for pid in self.left()
            if Path(f"/proc/{pid}/stat").read_text().split()[3] == str(running.pid)
        ]
        words = {pid: Path(f"/proc/{pid}/cmdline").read_text() for pid in below}
        # A kill of all that bears the tool's name has to spare keepers, which bear none.
        os.kill(next(pid for pid in below if not words[pid].strip("\0")), signal.SIGKILL)
        said = running.communicate(timeout=SECONDS)[1]
        self.assertEqual(running.returncode, 5, said)
        wait_until("the end of all", lambda: not self.left())


class Aborts(Case):
    """Runs that are aborted at random moments leave no process, and no file outside their
    folders."""

    SIGNALS = (signal.SIGINT, signal.SIGTERM, signal.SIGKILL)

    def aborted(self, number):
        turns = range(int(os.environ.get("NEMESIS_ABORTS", 9)))
        for turn in turns[self.SIGNALS.index(number) :: len(self.SIGNALS)]:
            self.out = self.room / f"abort-{turn}"
            words = ("--seed", turn, "--seconds", 60, "--pauses", "0.1,0.3", "--quiet")
            running = self.start(*words, cases=Trees.DAEMON)
            time.sleep(random.Random(turn).uniform(0.02, 4))
            if number == signal.SIGINT:
                wait_until("the folder", self.out.exists)  # Python that only starts may swallow it
            running.send_signal(number)
            told, said = running.communicate(timeout=SECONDS)
            self.assertIn(running.returncode, (-number, 128 + number), told + said)
            wait_until(f"the end of all, after {number.name}", lambda: not self.left())
            self.assertEqual(list(self.room.joinpath("cwd").iterdir()), [])

    def test_by_an_interrupt(self):
        self.aborted(signal.SIGINT)

    def test_by_a_wish_to_end(self):
        self.aborted(signal.SIGTERM)

    def test_by_a_kill(self):
        self.aborted(signal.SIGKILL)


class Others(Case):
    ORDER = {"key": "processid", "value": "p1", "floor": "RebootProcess", "tear": 0}

    def served(self):
        """Starts a server with this cluster; the command starts it again once it was killed."""
        binary = os.environ.get("FAULTYARD_SERVE", ROOT / "bin/faultyard-serve")
        if not os.access(binary, os.X_OK):
            self.skipTest(
                "the nemesis on a served guard: there is no faultyard-serve (make lib builds it)"
            )
        words = [str(binary), str(CLUSTER), "--audit", str(self.room / "served")]
        door = self.room / "served.socket"

        def start():
            running = subprocess.Popen(words, stderr=subprocess.DEVNULL, cwd=self.room)
            self.addCleanup(running.wait)
            self.addCleanup(running.kill)
            wait_until("the server", lambda: self.answer(door, {"from": 0}))
            return running

        return start, door

    def answer(self, door, *lines):
        """What a server answers to the last of these lines; nothing where it is gone."""
        try:
            with socket.socket(socket.AF_UNIX) as link:
                link.connect(str(door))
                talk = link.makefile("rw")
                talk.readline()
                for line in lines:
                    print(json.dumps(line, separators=(",", ":")), file=talk, flush=True)
                    told = talk.readline()
                return json.loads(told)
        except (OSError, ValueError):
            return None

    def ask(self, door, line):
        """Asks for an act with a key, again and again until it is answered."""
        line, told = {**line, "once": uuid.uuid4().hex}, []
        wait_until("an answer", lambda: told.append(self.answer(door, line)) or told[-1])
        return told[-1]

    def test_others_order_by_a_server_that_is_killed(self):
        """A real server, and a run in virtual time: while it is asked or killed no time passes."""
        start, door = self.served()
        servers, asked = [start()], []
        order = self.ORDER | {"kind": "RebootAndDelete"}

        def order_by(by, act):
            servers[-1].kill()
            servers[-1].wait()  # until then it holds its audit
            servers.append(start())
            asked.append(self.ask(door, {"by": by, "act": act}))
            self.assertEqual((asked[-1]["by"], asked[-1]["act"]), (by, act))

        def later():
            loop = asyncio.get_running_loop()
            loop.call_later(3, order_by, 2, {"kill": order})
            loop.call_later(5, order_by, 3, {"protect": {"process": 0, "kinds": ["Reboot"]}})

        words = ("--seed", 4, "--seconds", 10, "--pauses", 1, "--guard", door)
        it = lab.ran(toy.Toy(), self.out, *words, during=later)
        self.assertEqual(it.status, 0, it.told)
        self.assertEqual(len(asked), 2)
        self.assertIn(" 0 lost", it.told)
        entries = it.audit()
        self.assertIn(f"audit legal {len(entries)}", it.told)
        self.assertEqual([entries[answer["at"]] for answer in asked], asked)
        done = next(order for order in it.orders() if order["by"] == 2)
        struck = asked[0]["reply"]["verdict"]["struck"]
        self.assertEqual((done["targets"], done["does"]), ([1], struck))
        self.assertGreater(sum(order["by"] == 1 for order in it.orders()), 3)
        again = lab.ran(toy.Toy(), self.room / "again", "--guard", door)
        self.assertEqual(again.status, 2)
        self.assertIn(f"{door} has entries: a run needs a new audit", again.told)


class Resumed(resumed.Dying):
    def test_what_others_ordered_meanwhile_is_done(self):
        """The server of a run that died answers on: it is gone on with behind its audit."""
        others = Others()
        others.setUp()
        self.addCleanup(others.doCleanups)
        start, door = others.served()
        start()
        first, second = resumed.Mortal(1), resumed.Mortal(2)
        words = ("--seconds", 8, *self.given((1.0, "p0", "Reboot"), (7.0, "p2", "Reboot")))
        folder = self.died(self.room / "run", "--guard", door, *words, toy=first, at=3.0)
        kill = {"kill": others.ORDER | {"kind": "RebootAndDelete"}}
        told = others.ask(door, {"by": 2, "act": kill})
        self.assertEqual(told["reply"]["verdict"]["struck"], "RebootAndDelete")
        it = self.resumed(folder, self.follow(first, second), 0)
        self.assertIsNone(it.is_history())
        done = [(order["by"], order["targets"], order["does"]) for order in it.orders()]
        wanted = [(1, [0], "Reboot"), (2, [1], "RebootAndDelete"), (1, [2], "Reboot")]
        self.assertEqual(done, wanted)
        self.assertEqual([event["process"] for event in it.events("heal")], [1])
        self.assertEqual(len(it.audit()), others.answer(door, {"from": 0})["to"])
        self.assertIn(f"audit legal {len(it.audit())}", it.told)
        self.assert_true(it)


def cases(suite):
    """Each case of a suite of suites."""
    for it in suite:
        yield from cases(it) if isinstance(it, unittest.TestSuite) else [it]


def tried(case):
    """A case, and what is wrong: nothing, most often."""
    result = unittest.TestResult()
    began = time.monotonic()
    case.run(result)
    wrong = [text for _, text in result.failures + result.errors]
    for _, why in result.skipped:
        print(f"SKIPPED {why}", flush=True)
    print(
        f"{case.id()} ... {'FAILED' if wrong else 'ok'} in {time.monotonic() - began:.1f} s\n",
        end="",
        flush=True,
    )
    return wrong
