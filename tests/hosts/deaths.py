"""A run by ssh whose tool, guard, ssh or sshd is killed at random moments, while hosts are cut off
and processes destroyed: it goes on, or `--resume` goes on with it, and it ends with its verdict.

HOSTS_DEATHS says how many moments there are, 5 without it, HOSTS_FIRST the first of them, and
HOSTS_AT_ONCE how many runs there are at once, each on three hosts of its own.
"""
import json
import os
import random
import re
import shutil
import subprocess
import time
import traceback
import unittest
from concurrent.futures import ThreadPoolExecutor
from queue import SimpleQueue

from by_ssh import HERE, LAB, Case, killed, sshd_of, those
from rows import NEMESIS

DEATHS, FIRST, AT_ONCE = (
    int(os.environ.get(f"HOSTS_{it}", n)) for it, n in (("DEATHS", 5), ("FIRST", 0), ("AT_ONCE", 1))
)
SECONDS = 8  # for which each run writes
FEW = ("--writers", 1, "--readers", 0)  # records, which are judged soon
VICTIMS = ("tool", "guard", "ssh", "sshd", "tool")


def wait_until(what, holds):
    """Waits for as long as that takes; the suite's own limit ends it."""
    while not holds():
        time.sleep(0.2)  # a look at all processes, or at tables of hosts, takes its time


def three(which):
    """The hosts of so manyth run."""
    return [f"h{3 * which + n}" for n in range(3)]


def tables(hosts):
    """The tables of nftables that hosts have, by their networks."""
    found = []
    for host in hosts:
        pid = (LAB / host / "pid").read_text().strip()
        words = ["nsenter", f"--net=/proc/{pid}/ns/net", "nft", "list", "tables"]
        ran = subprocess.run(words, capture_output=True, text=True, check=True)
        found += [f"{host} {line}" for line in ran.stdout.splitlines()]
    return found


def hears(receiver, sender):
    """Whether a host is answered by another: a port where nobody listens is refused at once."""
    pid = (LAB / sender / "pid").read_text().strip()
    at = f"10.77.0.{10 + int(receiver[1:])}"
    ask = ["timeout", "2", "bash", "-c", f"< /dev/tcp/{at}/9"]
    ran = subprocess.run(
        ["nsenter", f"--net=/proc/{pid}/ns/net", *ask], stderr=subprocess.DEVNULL, check=False
    )
    return ran.returncode == 1


class Lab(Case):
    """etcd on three machines."""

    hosts = three(0)

    def start(self, *words):
        config = shutil.copy(NEMESIS / "three.toml", self.room)  # by which its guard is known
        on = f"ssh -F {LAB}/ssh_config:{','.join(self.hosts)}"
        store = [config, HERE / "paced", "--on", on]
        return self.begun(*store, "--out", self.out, "--net", *words)

    def faults(self, dice, seconds):
        """A file of events: kills, clogs and partitions, drawn."""
        path, lines, t = self.room / f"{self.out.name}.jsonl", [], 1.0
        while t < seconds:
            number = dice.randrange(3)
            base = {"t": round(t, 3), "key": "processid", "value": f"p{number}"}
            kind = dice.choice(["RebootAndDelete", "Reboot", "RebootProcess", "cut", "cut"])
            clogged = dice.choice([1, 3])
            if kind == "cut":
                others = [it for it in range(3) if it != number]
                cuts = [[number, it] for it in others] + [[it, number] for it in others]
                more = {"what": "partition", "shape": "one", "cuts": cuts}
            else:
                more = {"what": "order", "order": kind}
            lines.append(base | more | {"clogged": clogged})
            t += dice.choice([0.5, 1, 2])
        path.write_text("".join(json.dumps(line) + "\n" for line in lines))
        return path

    def left(self):
        """What runs of a run, which isn't the only one."""
        return those(rf"^(\S*/)?etcd .*{self.room}/|^ssh .*{self.room}/|{self.out}/\d ")

    def assert_all_over(self):
        """Nothing runs that was started, and nothing is cut; for how long that was otherwise."""
        began = time.monotonic()
        wait_until("the end of all", lambda: not self.left() and not tables(self.hosts))
        return time.monotonic() - began


class Cuts(Lab):
    PATIENT = ("--hook-timeout", 60, "--quiet")

    def cut_off(self, seconds):
        """A run in which p0 is cut off for long, once that is so."""
        path = self.room / "given.jsonl"
        cuts = [[0, 1], [1, 0], [0, 2], [2, 0]]
        order = {"t": 1, "what": "partition", "shape": "one", "clogged": seconds, "cuts": cuts}
        path.write_text(json.dumps(order) + "\n")
        running = self.start("--seconds", seconds + 5, "--replay", path, *self.PATIENT)
        wait_until("the cut", lambda: running.poll() is not None or len(tables(self.hosts)) == 3)
        self.assertIsNone(running.poll(), "it ended before it was seen to cut")
        for pair in (("h0", "h1"), ("h2", "h0")):
            wait_until("all of it", lambda it=pair: running.poll() is not None or not hears(*it))
        self.assertIsNone(running.poll(), "it ended before it was seen to cut")
        self.assertTrue(hears("h1", "h2"))
        return running

    def test_a_cut_lasts_and_is_mended(self):
        """It is renewed for longer than a lease, and ssh goes through all the time."""
        running = self.cut_off(25)
        time.sleep(15)
        self.assertEqual((hears("h0", "h1"), len(tables(self.hosts))), (False, 3))
        told = self.ended(running, 0)
        self.assertRegex(told, r"1 partitions: .*\n(.*\n)*[1-9]\d* acknowledged: \d+ kept, 0 lost")
        self.assertEqual(tables(self.hosts), [])

    def test_a_cut_ends_by_itself_where_the_tool_is_killed(self):
        running = self.cut_off(60)
        running.kill()
        running.communicate()
        self.assert_all_over()
        self.assertTrue(hears("h0", "h1") and hears("h2", "h0"))

    def test_an_interrupt_mends_it(self):
        running = self.cut_off(60)
        running.terminate()
        self.assertEqual(running.wait(), 128 + 15)
        self.assertEqual(tables(self.hosts), [])
        self.assert_nothing_left()


class Cables(Lab):
    """A cable is pulled, and then its host is struck: that is done once the host says so."""

    def pulled(self, *words):
        """A run that has ordered p1 to be emptied, whose host can't be reached."""
        path = self.room / "given.jsonl"
        order = {"t": 1, "what": "order", "key": "processid", "value": "p1"}
        path.write_text(json.dumps(order | {"order": "RebootAndDelete"}) + "\n")
        running = self.start("--seconds", 6, "--replay", path, "--quiet", *FEW, *words)
        self.addCleanup(self.cable, "up")
        wait_until("the beginning", lambda: running.poll() is not None or self.events("ready"))
        self.cable("down")
        wait_until("the order", lambda: running.poll() is not None or self.events("order"))
        return running

    def cable(self, state):
        subprocess.run(["ip", "link", "set", "vh1", state], check=True)

    def assert_not_struck(self):
        self.assertEqual(self.events("killed") + self.events("destroyed"), [])
        self.assertTrue(those(r"^(\S*/)?etcd --name p1 "))

    def test_it_counts_as_struck_once_the_host_says_so(self):
        running = self.pulled("--hook-timeout", 60)
        time.sleep(5)
        self.assert_not_struck()
        self.cable("up")
        told = self.ended(running, 0)
        self.assertRegex(told, r"\n([1-9]\d*) acknowledged: \1 kept, 0 lost")
        self.assertEqual([it["processes"] for it in self.events("killed")], [[1]])
        (destroyed,), (order,) = self.events("destroyed"), self.events("order")
        self.assertEqual((destroyed["processes"], destroyed["of"]), ([1], order["entry"]))
        self.assertGreaterEqual(destroyed["t"], order["t"] + 5)

    def test_what_never_said_so_is_not_destroyed_and_nobody_is_blamed(self):
        running = self.pulled("--hook-timeout", 5)
        told, said = running.communicate()
        self.assertEqual(running.returncode, 3, told + said)
        self.assertIn("it was asked for 30 seconds, and may be done or not", told + said)
        self.assertIn("p1 may still run where it is", told)
        self.assert_not_struck()
        self.assertFalse((self.out / "lost.jsonl").exists())
        self.cable("up")
        again = self.begun("--resume", self.out, "--hook-timeout", 60)
        told, said = again.communicate()
        self.assertEqual(again.returncode, 0, told + said)
        self.assert_all_over()
        self.assertEqual([it["processes"] for it in self.events("destroyed")], [[1]])
        self.assertRegex(told, r"\n([1-9]\d*) acknowledged: \d+ kept, 0 lost, 0 missing")


class Death(Lab):
    """One of many runs at once, on hosts of its own. It is no test by itself."""

    def __init__(self, turn, room, hosts):
        super().__init__()
        self.turn, self.room, self.hosts, self.out = turn, room, hosts, room / f"death-{turn}"
        self.victim, self.dice = VICTIMS[turn % len(VICTIMS)], random.Random(f"death {turn}")

    def whole(self):
        """For how long anything of it was left at its ends."""
        faults = self.faults(self.dice, SECONDS)
        words = ("--seconds", SECONDS, "--replay", faults, "--hook-timeout", 30, "--quiet")
        running = self.start(*words, *FEW)
        try:
            return self.died(running)
        finally:
            running.kill()  # else it would go on beside the next

    def died(self, running):
        wait_until("the beginning", lambda: running.poll() is not None or self.events("ready"))
        time.sleep(self.dice.uniform(0, SECONDS))
        getattr(self, self.victim)(running)
        told, said = running.communicate()
        lasted = self.assert_all_over()
        status = running.returncode
        if self.victim == "guard" and "guard was started again" not in told:
            self.assertEqual(status, 0, told + said)  # it died after its last answer
        for _ in range(3):
            if status == 0:
                break
            again = self.begun("--resume", self.out, "--quiet")
            told, said = again.communicate()
            status = again.returncode
            lasted = max(lasted, self.assert_all_over())
        self.assertEqual(status, 0, told + said)
        self.assertRegex(told, r"[1-9]\d* acknowledged: \d+ kept, 0 lost, 0 missing")
        return lasted

    def tool(self, running):
        running.kill()

    def guard(self, running):
        killed(those(rf"faultyard guard {re.escape(str(self.room))}/"))

    def ssh(self, running):
        killed(those(rf"^ssh .*{self.room}/"))

    def sshd(self, running):
        killed([pid for host in self.hosts for pid in sshd_of(host)])


class Deaths(Case):
    def test_whatever_dies_the_run_ends_with_its_verdict(self):
        free, wrong, longest = SimpleQueue(), [], [0.0]
        for which in range(AT_ONCE):
            free.put(three(which))

        def one(turn):
            hosts, room = free.get(), self.room / str(turn)
            room.mkdir()
            it = Death(turn, room, hosts)
            try:
                longest.append(it.whole())
                end = f"all was over after {longest[-1]:.1f} s"
            except Exception:  # the others go on
                wrong.append(f"death {turn}, of {it.victim}: {traceback.format_exc()}")
                end = wrong[-1]
            finally:
                it.doCleanups()
                free.put(hosts)
            print(f"death {turn}, of {it.victim}: {end}", flush=True)

        with ThreadPoolExecutor(AT_ONCE) as pool:
            list(pool.map(one, range(FIRST, FIRST + DEATHS)))
        print(f"{DEATHS} deaths: all was over after {max(longest):.1f} s at most", flush=True)
        self.assertEqual(wrong, [])


if __name__ == "__main__":
    unittest.main()
