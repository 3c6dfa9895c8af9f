"""etcd on five machines by ssh, with its hooks as they are. Runs beside tests/hosts/machines, whose
processes are all seen from here."""
import json
import os
import random
import re
import signal
import subprocess
import sys
import tempfile
import time
import unittest
from pathlib import Path

HERE = Path(__file__).resolve().parent
ROOT = HERE.parent.parent
TOOL = [sys.executable, "-I", "-S", str(ROOT / "tools/faultyard-nemesis")]
ETCD = [str(ROOT / "examples/etcd/cluster.toml"), str(ROOT / "examples/etcd/hooks")]
LAB = Path(os.environ.get("LAB", "/"))
HOSTS = [f"h{n}" for n in range(5)]
OVER = f"-F {LAB}/ssh_config:{','.join(HOSTS)}"
NEEDS = ROOT / "tests/tools/needs"
PATIENT = ("--hook-timeout", 60)  # the tool's own limits are of wall time
SECONDS = 3600
POLLS = 3000
ABORTS = int(os.environ.get("HOSTS_ABORTS", "3"))


def wait_until(what, holds):
    for _ in range(POLLS):
        if holds():
            return
        time.sleep(0.02)
    raise AssertionError(f"{what} took over {POLLS} looks")


def commands():
    """The command line of each process, by its number."""
    found = {}
    for entry in Path("/proc").iterdir():
        try:
            if entry.name.isdigit():
                found[int(entry.name)] = (entry / "cmdline").read_bytes().replace(b"\0", b" ")
        except OSError:
            pass
    return {pid: words.decode() for pid, words in found.items()}


def those(pattern):
    return [pid for pid, words in commands().items() if re.search(pattern, words)]


def killed(pids):
    for pid in pids:
        try:
            os.kill(pid, signal.SIGKILL)
        except ProcessLookupError:
            pass


def sshd_of(host, pattern=r"^sshd: "):
    """The servers of a machine, and their sessions: by its namespace of processes."""
    maker = (LAB / host / "pid").read_text().strip()
    init = Path(f"/proc/{maker}/task/{maker}/children").read_text().split()[0]
    space, found = os.readlink(f"/proc/{init}/ns/pid"), []
    for pid in those(pattern):
        try:
            if os.readlink(f"/proc/{pid}/ns/pid") == space:
                found.append(pid)
        except FileNotFoundError:
            pass  # it has ended
    return found


class Case(unittest.TestCase):
    on = f"ssh {OVER}"

    def setUp(self):
        room = tempfile.TemporaryDirectory(prefix="hosts-")
        self.room = Path(self.enterContext(room))
        self.out = self.room / "out"

    def given(self, *orders):
        path = self.room / "given.jsonl"
        base = {"what": "order", "key": "processid", "clogged": 2}
        lines = [base | {"t": at, "value": who, "order": kind} for at, who, kind in orders]
        path.write_text("".join(json.dumps(line) + "\n" for line in lines))
        return path

    def all_at_once(self):
        """All are emptied by one order, so that none comes back before the last is struck."""
        path = self.given((2, "d0", "RebootAndDelete"))
        path.write_text(path.read_text().replace('"processid"', '"dcid"'))
        return path

    def start(self, *words):
        return self.begun(*ETCD, "--on", self.on, "--out", self.out, *words)

    def begun(self, *words):
        """The tool, with these words."""
        pipe = subprocess.PIPE
        more = {"stdout": pipe, "stderr": pipe, "text": True, "cwd": self.room}
        running = subprocess.Popen([*TOOL, *map(str, words)], **more)
        self.addCleanup(running.kill)
        return running

    def ended(self, running, status):
        told, said = running.communicate(timeout=SECONDS)
        self.assertEqual(running.returncode, status, told + said)
        self.assert_nothing_left()
        return told + said

    def left(self):
        """What runs here or there of a run."""
        return those(rf"^(\S*/)?etcd |^ssh .*{self.room}|{self.out}/\d\b")

    def assert_nothing_left(self):
        wait_until("the end of all", lambda: not self.left())

    def of_store(self, store, *programs):
        """The cluster file and the hooks of a store that is here."""
        needs = subprocess.run([NEEDS, f"{store} elsewhere", *programs], check=False)
        if needs.returncode == 1:
            self.skipTest(f"{store} isn't there")
        self.assertEqual(needs.returncode, 0)
        return [ROOT / "examples" / store / name for name in ("cluster.toml", "hooks")]

    def kept(self, *words):
        """What a run tells that keeps all."""
        told = self.ended(self.begun(*words, "--out", self.out), 0)
        self.assertRegex(told, r"\n([1-9]\d*) acknowledged: \d+ kept, 0 lost, 0 missing")
        self.assertEqual([*self.out.glob(".seen*")], [])
        return told

    def emptied(self, store, on, seconds):
        """Runs a store whose second process is emptied, and whole again."""
        files = ROOT / "examples" / store
        names = [
            line.split('"')[1]
            for line in (files / "cluster.toml").open()
            if "= {" not in line and "processid = " in line
        ]
        self.out = self.room / "emptied"
        given = self.given((3, names[1], "RebootAndDelete"))
        words = [files / "cluster.toml", files / "hooks", "--on", on, *PATIENT]
        told = self.kept(*words, "--seconds", seconds, "--replay", given)
        self.assertEqual([it["process"] for it in self.events("heal")], [1], told)

    def events(self, what):
        if not (self.out / "events.jsonl").exists():
            return []
        lines = (self.out / "events.jsonl").read_text().splitlines(keepends=True)
        found = [json.loads(line) for line in lines if line.endswith("\n")]
        return [event for event in found if event["what"] == what]

    def files_there(self):
        """What the machines have of the run, seen through their processes."""
        found = []
        for host in HOSTS:
            ssh = ["ssh", "-F", LAB / "ssh_config", host, f"ls -A {self.out} 2> /dev/null || true"]
            found += subprocess.run(
                ssh, stdout=subprocess.PIPE, text=True, check=True
            ).stdout.split()
        return found


class Runs(Case):
    def test_guarded_by_ssh(self):
        orders = [(1, "e1", "RebootAndDelete"), (2, "e2", "Reboot"), (3, "e0", "Clog")]
        running = self.start("--seconds", 6, "--replay", self.given(*orders), *PATIENT)
        told = self.ended(running, 0)
        self.assertRegex(told, r"\n([1-9]\d*) acknowledged: \d+ kept, 0 lost")
        self.assertEqual([it["does"] for it in self.events("order")], [it[2] for it in orders])
        self.assertEqual([it["processes"] for it in self.events("killed")], [[1], [2]])
        self.assertEqual(self.files_there(), [])

    def test_unguarded_by_ssh(self):
        """All are emptied where they run, so nothing is left."""
        words = ("--seconds", 3, "--unguarded", "--replay", self.all_at_once())
        told = self.ended(self.start(*words, "--hook-timeout", 10), 1)
        self.assertRegex(told, r"\n([1-9]\d*) acknowledged: 0 kept, \1 lost")

    def test_a_host_with_another_key(self):
        known = (LAB / "known_hosts").read_text()
        lines = known.splitlines()
        lines[1], lines[2] = (f"10.77.0.1{n} {lines[3 - n].split(' ', 1)[1]}" for n in (1, 2))
        try:
            (LAB / "known_hosts").write_text("\n".join(lines) + "\n")
            told = self.ended(self.start("--seconds", 3, *PATIENT), 3)
        finally:
            (LAB / "known_hosts").write_text(known)
        self.assertRegex(told, r"setup ended with status 1 \(Refused: h[12]: Host key verification")


class Kills(Case):
    def struck(self, *words):
        """A run, at a random moment after its beginning."""
        running = self.start("--seconds", 60, "--pauses", "0.5,1", "--quiet", *words)
        wait_until("the beginning", lambda: self.events("ready") or running.poll() is not None)
        time.sleep(random.Random(str(words)).uniform(0, 8))
        return running

    def test_the_tool_is_killed(self):
        for turn in range(ABORTS):
            self.out = self.room / str(turn)
            running = self.struck("--seed", turn)
            running.kill()
            running.communicate(timeout=SECONDS)
            self.assert_nothing_left()

    def test_an_interrupted_run(self):
        running = self.struck()
        running.send_signal(signal.SIGINT)
        self.ended(running, 130)

    def test_ssh_and_sshd_are_killed(self):
        """What they held is started again, and told as a reboot; nothing is lost."""
        given = self.given((30, "e1", "Reboot"))
        running = self.start("--seconds", 30, "--replay", given, *PATIENT)
        wait_until("the beginning", lambda: self.events("ready"))
        victims = {  # a master that is gone is made again, over which the next start goes
            "masters": lambda: those(rf"^ssh .* -M .*{self.room}/"),
            "what holds e1": lambda: those(rf"^ssh .*{self.room}.* h1 "),
            "sessions": lambda: [pid for it in HOSTS for pid in sshd_of(it, r"^sshd: root")],
        }
        for name, found in victims.items():
            before = len(self.events("ended"))

            def is_over():  # what is found first may hold nothing
                killed(found())
                return len(self.events("ended")) > before

            wait_until(f"the end of {name}", is_over)
        told = self.ended(running, 0)
        self.assertRegex(told, r"\n([1-9]\d*) acknowledged: \d+ kept, 0 lost")

    def test_a_host_hangs(self):
        """Its sshd is stopped: a kill waits, and is over once the host says so."""
        sshd = those(r"^sshd: .*/h1/sshd_config")
        given = self.given((1, "e1", "RebootAndDelete"))
        running = self.start("--seconds", 8, "--replay", given, *PATIENT)
        wait_until("the beginning", lambda: self.events("ready"))
        stopped = [*sshd, *self.below(sshd)]
        for pid in stopped:
            os.kill(pid, signal.SIGSTOP)
        wait_until("the order", lambda: self.events("order"))
        time.sleep(3)
        self.assertEqual(self.events("killed"), [])
        self.assertTrue(those(r"^(\S*/)?etcd --name e1 "))
        for pid in stopped:
            try:
                os.kill(pid, signal.SIGCONT)
            except ProcessLookupError:
                pass
        told = self.ended(running, 0)
        self.assertEqual([it["processes"] for it in self.events("killed")], [[1]])
        self.assertIn(" 0 lost", told)

    def below(self, parents):
        """The sessions of a server."""
        found = []
        for parent in parents:
            for path in Path(f"/proc/{parent}/task").glob("*/children"):
                found += map(int, path.read_text().split())
        return [pid for pid in found if "sshd" in commands().get(pid, "")]
