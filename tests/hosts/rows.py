"""Hooks that act where the tool can't: a store of ours that runs on a machine of the test's own.

The machine is a thread of the test that starts servers, which no kill of the tool's reaches, and
keeps their files in a folder that the tool doesn't know.
"""
import json
import os
import shlex
import shutil
import signal
import socketserver
import subprocess
import sys
import tempfile
import threading
import time
import unittest
import unittest.mock
import uuid
from argparse import Namespace
from pathlib import Path

from faultyard_hooks import cuts, driver

HERE = Path(__file__).resolve().parent
ROOT = HERE.parent.parent
NEMESIS = ROOT / "tests/nemesis"
TOOL = [sys.executable, "-I", "-S", str(ROOT / "tools/faultyard-nemesis")]
STORE = [sys.executable, "-I", "-S", str(NEMESIS / "store.py")]
CLUSTER = NEMESIS / "three.toml"
SECONDS = 3600  # what hangs takes no processor time: after an hour a test gives up
MEMORY = "/dev/shm" if os.access("/dev/shm", os.W_OK) else None


class Machine(socketserver.ThreadingUnixStreamServer):
    """Does what it is asked: run N, kill N, pause N, resume N, empty N, fetch N, runs N."""

    daemon_threads = True

    def __init__(self, room):
        super().__init__(str(room / "machine"), Asked)
        self.far, self.running, self.said = room / "far", {}, []
        self.noes = {}  # how often a deed is refused before it is done
        threading.Thread(target=self.serve_forever, daemon=True).start()

    def do(self, words, env):
        deed, number, *command = words
        self.said.append((time.monotonic(), deed, int(number)))
        if self.noes.get(deed, 0) > 0:
            self.noes[deed] -= 1
            return 1
        return getattr(self, deed)(number, command, env) or 0

    def run(self, number, command, env, wait=True):
        self.kill(number)
        self.far.joinpath(number).mkdir(parents=True, exist_ok=True)
        env = os.environ | env | {"FY_DIR": str(self.far)}
        quiet = {"stdout": subprocess.DEVNULL, "stderr": subprocess.DEVNULL}
        process = self.running[number] = subprocess.Popen(command, env=env, **quiet)
        return process.wait() % 256 if wait else 0

    def launch(self, number, command, env):
        return self.run(number, command, env, wait=False)

    def runs(self, number, *_):
        process = self.running.get(number)
        return 0 if process and process.poll() is None else 1

    def kill(self, number, *_):
        if process := self.running.get(number):
            process.kill()
            process.wait()

    def pause(self, number, *_):
        if self.runs(number) == 0:
            self.running[number].send_signal(signal.SIGSTOP)

    def resume(self, number, *_):
        if self.runs(number) == 0:
            self.running[number].send_signal(signal.SIGCONT)

    def empty(self, number, *_):
        shutil.rmtree(self.far / number, ignore_errors=True)

    def fetch(self, number, command, env):
        if self.far.joinpath(number).exists():
            shutil.copytree(self.far / number, Path(env["FY_DIR"], number), dirs_exist_ok=True)

    def end(self):
        self.shutdown()
        for number in self.running:
            self.kill(number)
        self.server_close()


class Asked(socketserver.StreamRequestHandler):
    def handle(self):
        words, env = json.loads(self.rfile.readline())
        status = self.server.do(words, env)
        try:
            self.wfile.write(f"{status}\n".encode())
        except OSError:
            pass  # who asked was killed


class Case(unittest.TestCase):
    """A folder and a machine of its own, and a mark in the environment of all that a run starts."""

    def setUp(self):
        room = tempfile.TemporaryDirectory(prefix="hosts-test-", dir=MEMORY)
        self.room = Path(self.enterContext(room))
        self.out, self.mark = self.room / "out", uuid.uuid4().hex
        self.room.joinpath("cwd").mkdir()
        self.env = {**os.environ, "HOSTS_TEST": self.mark, "TMPDIR": str(self.room / "cwd")}
        self.machine = Machine(self.room)
        self.addCleanup(self.machine.end)
        self.rsh = shlex.join([sys.executable, "-I", "-S", str(HERE / "rsh.py")])
        self.rsh += f" {self.room}/machine"

    def hooks(self, names, cases):
        path, store = self.room / "hooks", shlex.join(STORE)
        listed = f"hooks) echo {names}; exit;;"
        deeds = "kill|empty|pause|resume|fetch) exec $RSH $1 $2;;"
        start = f"start) exec $RSH run $2 {store} start $2;;"
        script = (
            f"RSH={shlex.quote(self.rsh)}\ncase $1 in {listed}\n{cases}\n{start}\n{deeds}\nesac"
        )
        path.write_text(f'#!/bin/bash\n{script}\nexec {store} "$@"\n')
        path.chmod(0o755)
        return path

    def left(self):
        """Processes that the run has started, the machine's aside."""
        found = []
        for entry in Path("/proc").iterdir():
            try:
                if entry.name.isdigit() and self.mark.encode() in (entry / "environ").read_bytes():
                    found.append(int(entry.name))
            except OSError:
                pass
        return found

    NEEDED = "start ready whole write read"
    ALL = f"{NEEDED} kill empty pause resume fetch salvage"

    def start(self, *words, names=ALL, cases="", cluster=CLUSTER):
        command = [*TOOL, cluster, self.hooks(names, cases), "--out", self.out, *words]
        pipe, cwd = subprocess.PIPE, self.room / "cwd"
        words = list(map(str, command))
        return subprocess.Popen(words, env=self.env, cwd=cwd, stdout=pipe, stderr=pipe, text=True)

    def run_tool(self, *words, status, **more):
        """What a run prints, which ends with a status and leaves nothing running."""
        running = self.start(*words, **more)
        told, said = running.communicate(timeout=SECONDS)
        self.assertEqual(running.returncode, status, told + said)
        self.assertEqual(self.left(), [])
        return told + said

    def given(self, *orders):
        """A file of events with these orders: when, which process, and the kind."""
        path = self.room / "given.jsonl"
        lines = [
            {"t": at, "what": "order", "key": "processid", "value": who, "order": kind}
            for at, who, kind in orders
        ]
        path.write_text("".join(json.dumps(line) + "\n" for line in lines))
        return path

    def events(self, what):
        lines = (self.out / "events.jsonl").read_text().splitlines()
        return [event for event in map(json.loads, lines) if event["what"] == what]

    def assert_none_runs(self):
        self.assertEqual([it for it in self.machine.running if self.machine.runs(it) == 0], [])


class Kills(Case):
    def test_a_start_on_another_machine_outlives_a_kill_here(self):
        """`ssh HOST` put before the command in `start`, and no hook `kill`."""
        given = self.given((0.5, "p1", "Reboot"))
        words = ("--seconds", 20, "--replay", given, "--hook-timeout", 5)
        told = self.run_tool(*words, names=self.NEEDED, status=3)
        says = "`ready 1` went on to say yes for 5 seconds after a kill: `start 1` runs it where"
        self.assertIn(says, told)
        self.out = self.room / "checked"
        for number in self.machine.running:
            self.machine.kill(number)
        shutil.rmtree(self.machine.far)  # else its servers have what the last run wrote
        words = ("--check-hooks", "--hook-timeout", 5)
        self.assertIn("`ready 0` went on", self.run_tool(*words, names=self.NEEDED, status=3))

    def test_a_kill_that_says_yes_and_kills_nothing(self):
        given = self.given((0.5, "p1", "Reboot"))
        words = ("--seconds", 20, "--replay", given, "--hook-timeout", 5)
        cases = f"kill) exit 0;; ready) exec {shlex.join(STORE)} ready $2;;"
        told = self.run_tool(*words, cases=cases, status=3)
        self.assertIn("after `kill 1` had said yes: one of them is wrong", told)

    def test_kills_are_done_there(self):
        orders = [(1, "p1", "RebootAndDelete"), (1.5, "p2", "Reboot"), (2, "p0", "RebootProcess")]
        told = self.run_tool("--seconds", 4, "--replay", self.given(*orders), status=0)
        self.assertRegex(told, r"\n[1-9]\d* acknowledged: [1-9]\d* kept, 0 lost")
        self.assertEqual([it["processes"] for it in self.events("killed")], [[1], [2], [0]])
        deeds = [(deed, number) for _, deed, number in self.machine.said]
        for it in (("kill", 1), ("empty", 1), ("kill", 2), ("kill", 0)):
            self.assertIn(it, deeds)
        self.assertLess(deeds.index(("kill", 1)), deeds.index(("empty", 1)))
        self.assert_none_runs()
        self.assertEqual([it for it in self.machine.far.iterdir() if any(it.iterdir())], [])

    def test_a_kill_is_over_when_the_machine_says_so(self):
        """Until then what was struck may acknowledge, and counts as one who could hold records."""
        self.machine.noes["kill"] = 20
        self.run_tool("--check-hooks", status=0)
        orders = [it for it in self.events("order") if it["does"] != "Clog"]
        order, killed = orders[0]["t"], self.events("killed")[0]["t"]
        self.assertEqual((orders[0]["targets"], self.machine.noes["kill"]), ([0], 0))
        self.assertGreaterEqual(killed - order, 20 * 0.1)
        lines = map(json.loads, (self.out / "history.jsonl").read_text().splitlines())
        ends = [it["time"] / 1e9 for it in lines if it["f"] == "write" and it["type"] == "ok"]
        self.assertTrue(any(order < end < killed for end in ends))

    def test_a_kill_that_never_says_yes(self):
        self.machine.noes["kill"] = 10**6
        given = self.given((0.5, "p1", "Reboot"))
        words = ("--seconds", 9, "--replay", given, "--hook-timeout", 5)
        told = self.run_tool(*words, status=3)
        self.assertIn("kill 1 ended with status 1", told)
        self.assertIn("it was asked for 30 seconds, and may be done or not", told)
        self.assertIn("p0 may still run where it is: kill 0 ended with status 1", told)

    def test_emptied_when_it_is_struck(self):
        """Without a quorum no turn to join comes, and all have to have been emptied by then."""
        orders = [(1 + n / 2, f"p{n}", "RebootAndDelete") for n in range(3)]
        words = ("--seconds", 4, "--unguarded", "--hook-timeout", 5)
        cases = "join) exit 1;;"
        names = f"{self.ALL} join"
        given = self.given(*orders)
        told = self.run_tool(*words, "--replay", given, names=names, cases=cases, status=1)
        deeds = [(deed, number) for _, deed, number in self.machine.said]
        self.assertGreaterEqual(
            {it for it in deeds if it[0] == "empty"}, {("empty", n) for n in range(3)}
        )
        self.assertRegex(told, r"\n([1-9]\d*) acknowledged: 0 kept, \1 lost")

    def test_what_was_not_emptied_there_is_not_called_lost(self):
        """Without a hook `empty` its files may be left where it was: they are asked for."""
        orders = [(1 + n / 2, f"p{n}", "RebootAndDelete") for n in range(3)]
        words = ("--seconds", 4, "--unguarded", "--hook-timeout", 5)
        names = f"{self.NEEDED} kill pause resume fetch salvage join"
        given = self.given(*orders)
        self.env["STORE_FAULT"] = "quorum"  # `read` says no without one
        more = {"names": names, "cases": "join) exit 1;;"}
        told = self.run_tool(*words, "--replay", given, status=0, **more)
        self.assertRegex(told, r"\n([1-9]\d*) acknowledged: \1 kept, 0 lost")

    def test_files_that_cannot_be_fetched_are_unknown(self):
        cases = "read) exit 1;; fetch) [ $2 != 0 ] || exec $RSH fetch $2; exit 1;;"
        words = ("--seconds", 2, "--replay", self.given(), "--hook-timeout", 5)
        more = {"names": f"{self.ALL} plain", "cases": cases}
        told = self.run_tool(*words, status=6, **more)
        self.assertIn("the disk of p1 is unknown: fetch 1 ended with status 1", told)
        self.assertRegex(told, r" 0 lost, 0 missing, 0 stale, [1-9]\d* unreadable")
        self.assertNotIn("the files of p1", told)

    def test_a_start_that_returns_at_once(self):
        """`ready` tells life: what dies there is started again, and told as a reboot."""
        cases = f"start) exec $RSH launch $2 {shlex.join(STORE)} start $2;;"
        given = self.given((1, "p1", "Reboot"))
        running = self.start("--seconds", 14, "--replay", given, cases=cases)
        while not (self.out / "events.jsonl").exists() or not self.events("killed"):
            time.sleep(0.05)
        self.machine.running["2"].kill()
        told, said = running.communicate(timeout=SECONDS)
        self.assertEqual(running.returncode, 0, told + said)
        ended = self.events("ended")
        self.assertEqual([it["process"] for it in ended], [2])
        self.assertIn("ended by itself", told)
        self.assertIn(2, [it["process"] for it in self.events("up") if it["t"] > ended[0]["t"]])
        self.assert_none_runs()

    def test_a_pause_is_asked_until_it_is_done(self):
        self.machine.noes["pause"] = 3
        given = self.room / "given.jsonl"
        order = {"t": 1, "what": "order", "key": "processid", "value": "p1", "order": "Clog"}
        given.write_text(json.dumps(order | {"clogged": 1}) + "\n")
        self.run_tool("--seconds", 3, "--replay", given, status=0)
        deeds = [deed for _, deed, _ in self.machine.said if deed in ("pause", "resume")]
        self.assertEqual(deeds, ["pause"] * 4 + ["resume"])

    def test_an_interrupted_run_leaves_nothing_there(self):
        cases = f"start) exec $RSH launch $2 {shlex.join(STORE)} start $2;;"
        for number in (signal.SIGINT, signal.SIGTERM):
            self.out = self.room / number.name
            running = self.start("--seconds", 60, cases=cases)
            while not (self.out / "events.jsonl").exists() or not self.events("ready"):
                time.sleep(0.05)
            running.send_signal(number)
            told, said = running.communicate(timeout=SECONDS)
            self.assertEqual(running.returncode, 128 + number, told + said)
            self.assertEqual(self.left(), [])
            self.assert_none_runs()


class Words(unittest.TestCase):
    def test_what_on_says(self):
        units = driver("units -F file:h0,h1")
        self.assertEqual((units.command, units.hosts), (["ssh", "-F", "file"], ("h0", "h1")))
        self.assertEqual(driver("units:here").addresses(), [])
        boxes = driver("containers sudo docker:localhost:5000/redis:7 h0,h1")
        self.assertEqual((boxes.engine, boxes.image), ("sudo docker", "localhost:5000/redis:7"))
        self.assertEqual((boxes.command, boxes.hosts), (["ssh"], ("h0", "h1")))
        boxes = driver("containers:redis")
        self.assertEqual((boxes.engine, boxes.image, boxes.addresses()), ("podman", "redis", []))
        pods = driver("pods -n stores:p0,p1")
        self.assertEqual(pods.command, ["kubectl", "-n", "stores"])
        self.assertEqual(pods.reached(1, ["true"])[3:], ["exec", "-i", "p1", "--", "true"])


@unittest.skipIf(os.geteuid(), "namespaces of the test's own need root")
class Alone(unittest.TestCase):
    def told(self, script, mounts):
        """What a script prints that has /mnt, where something is mounted, and its processes."""
        alone = ["unshare", "--mount", "--pid", "--fork", "--kill-child", "--mount-proc"]
        disk = f'{mounts} && mkdir -p /mnt/run && exec "$@"'
        words = [*alone, "sh", "-c", disk, "sh", sys.executable, "-S", str(HERE / script)]
        env = {"FY_DIR": "/mnt/run", "FY_COUNT": "1", "PYTHONDONTWRITEBYTECODE": "1"}
        env |= {"PATH": os.environ["PATH"], "PYTHONPATH": str(ROOT / "bindings/python/src")}
        ran = subprocess.run(words, env=env, capture_output=True, text=True, timeout=SECONDS)
        self.assertEqual(ran.returncode, 0, ran.stderr)
        return ran.stdout.splitlines()

    def test_a_kill_needs_no_space(self):
        """It is done on a full disk, and what was asked for before doesn't start any more."""
        wanted = [
            "killed 0 running [] ended True",
            "too late 96 running []",
            "emptied 0 running [] ended True",
            "left False",
            "without input True",
            "at the end 0 ['filled']",
        ]
        disk = "mount -t tmpfs -o size=256k full /mnt && mkdir -p /mnt/run/0"
        self.assertEqual(self.told("full.py", disk), wanted)

    def test_a_command_beside_a_process(self):
        """It runs in the folder there, finds what `start` wrote here, and ends with a kill."""
        wanted = [
            "fails True",
            "before a start []",
            "sent sent",
            "here ['early', 'sent']",
            "there ['early', 'made', 'sent'] made",
            "as nobody",
            "killed 0 True False",
            "too late 96",
        ]
        self.assertEqual(self.told("once.py", "mount -t tmpfs here /mnt"), wanted)


class Mends(unittest.TestCase):
    def test_a_host_that_hangs_keeps_none_of_the_others_waiting(self):
        """One that says no is asked again, and the others are mended."""
        room = Path(self.enterContext(tempfile.TemporaryDirectory(prefix="hosts-test-")))
        more = {"DIR": str(room), "HOSTS": ["h0", "h1", "h2"]}
        self.enterContext(unittest.mock.patch.multiple(cuts, **more))
        others = threading.Barrier(3)  # the last that comes lets all go on

        def ask(n, *_):
            others.wait(SECONDS)
            if n == 1:
                raise OSError("h1 can't be reached")

        for n in range(3):
            room.joinpath(f".cut{n}").write_text(f"{(n + 1) % 3}")
        with self.assertRaises(OSError):
            cuts.Cuts(Namespace(ask=ask), str).mend()
        self.assertFalse(others.broken)
        unheard = [room.joinpath(f".cut{n}").read_text() for n in range(3)]
        self.assertEqual(unheard, ["", "2", ""])


class Refusals(Case):
    def refused(self, message, *words, names=Case.ALL, **more):
        self.out = self.room / str(len(list(self.room.iterdir())))
        told = self.run_tool(*words, names=names, status=2, **more)
        self.assertIn(message, told)
        self.assertFalse(self.out.exists())
        self.assertEqual(self.machine.said, [])

    @unittest.skipIf(os.geteuid(), "disks of a kernel need root")
    def test_disks_and_nets_of_the_tool_are_not_there(self):
        away = "by the hook `kill` the processes are elsewhere, where this tool has no"
        self.refused(f"--disks ext4: {away} disk", "--disks", "ext4")
        self.refused(f"--net: {away} cable", "--net")
        self.refused("--disks own needs a hook `power`", "--disks", "own")
        own = "own has it cut"
        self.refused(own, "--disks", "ext4", names=f"{self.ALL} power")

    def test_hooks_that_need_another(self):
        self.refused("hooks: kill is there without ready", names="start whole write read kill")
        self.refused("hooks: cut is there without mend", names=f"{self.NEEDED} cut")
        away = "by the hook `kill` the processes are elsewhere; there"
        self.refused(f"Clog is granted, and {away}", names=f"{self.NEEDED} kill empty")
        plain = f"{self.NEEDED} kill empty pause resume salvage plain"
        self.refused(f"`plain` is promised, and {away}", names=plain)

    def test_drivers_say_what_they_cannot(self):
        kinds = "ssh, units, containers, pods"
        self.refused(f"--on vans:h0: vans is none of {kinds}", "--on", "vans:h0")
        own = "--disks own needs a hook `power`: a unit has no power that could be cut"
        self.refused(own, "--on", "units:here", "--disks", "own")
        heeds = "--on units:here: these hooks have no `kill`, so they run nothing there"
        self.refused(heeds, "--on", "units:here", names=self.NEEDED)
        here = "--on ssh:h0,h1,h2: by `here` these hooks read files of what runs, so it runs here"
        self.refused(here, "--on", "ssh:h0,h1,h2", names=f"{self.ALL} here")

    def test_places(self):
        self.refused("--at has 2 places for 3 processes", "--at", "h0,h1")
        self.refused("--on ssh:h0,h1 has 2 places for 3 processes", "--on", "ssh:h0,h1")
        self.refused("are wanted: h0:x", "--at", "h0:x,h1,h2")
        path = self.room / "places"
        path.write_text("p0 h0\np1 h1:1\n")
        self.refused("--at: p2 has no line in the file", "--at", path)
        path.write_text("p0 h0\np1 h1:1\np2 h2\nq h3\n")
        self.refused("--at: q is no process", "--at", path)


class Faults(Case):
    def test_a_power_cut_by_a_hook(self):
        cases = "power) echo $2 >> $FY_DIR/cut; exec $RSH kill $2;;"
        given = self.given((0.5, "p1", "Reboot"), (1, "p2", "RebootProcess"))
        words = ("--seconds", 3, "--disks", "own", "--replay", given)
        told = self.run_tool(*words, names=f"{self.ALL} power", cases=cases, status=0)
        self.assertEqual((self.out / "cut").read_text(), "1\n")
        self.assertIn("1 power cuts: what was unsynced is lost", told)
        self.assertEqual([it["processes"] for it in self.events("cut")], [[1]])

    def test_partitions_by_hooks(self):
        cases = 'cut|mend) echo "$@" >> $FY_DIR/said; exit;;'
        given = self.room / "given.jsonl"
        parts = [(1, "a", 60, [[0, 1], [1, 0]]), (1.5, "b", 0.7, [[0, 1], [0, 2]])]
        lines = [
            {"t": at, "what": "partition", "shape": shape, "clogged": clogged, "cuts": cuts}
            for at, shape, clogged, cuts in parts
        ]
        given.write_text("".join(json.dumps(it) + "\n" for it in lines))
        words = ("--seconds", 4, "--net", "--replay", given)
        self.run_tool(*words, names=f"{self.ALL} cut mend", cases=cases, status=0)
        said = (self.out / "said").read_text().splitlines()
        first, again = ["cut 0 1", "cut 1 0"], ["cut 0 1", "cut 1 0"]
        self.assertEqual([said[0], sorted(said[1:3])], ["mend", first])
        self.assertEqual([said[3:5], sorted(said[5:7])], [["cut 0 2", "mend"], again])
        self.assertEqual(said[7:], ["mend"])

    def test_places_that_are_given(self):
        """No port is searched for, and `fy.at` tells what was given."""
        base = 20000 + 16 * (os.getpid() % 500)
        path = self.room / "places"
        path.write_text("".join(f"p{n} 127.0.0.{n + 2}:{base}  # its own\n" for n in range(3)))
        shown = (
            f"{sys.executable} -c 'import faultyard_hooks as fy, sys; print(fy.at(1), fy.at(2, 1))'"
        )
        cases = f'setup) {shown} > "$FY_DIR/at"; exit;;'
        cases += f" start) exec {shlex.join(STORE)} start $2;;"
        words = ("--seconds", 2, "--at", path, "--replay", self.given((0.5, "p1", "Reboot")))
        self.run_tool(*words, names=f"setup {self.NEEDED}", cases=cases, status=0)
        told = (self.out / "at").read_text()
        self.assertEqual(told, f"127.0.0.3:{base} 127.0.0.4:{base + 1}\n")
