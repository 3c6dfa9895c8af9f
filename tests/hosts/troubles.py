"""Hosts in trouble under a run by ssh: what is told, and that nothing is called lost that one of
them has. Runs beside tests/hosts/machines."""
import re
import subprocess
from pathlib import Path

from by_ssh import LAB, PATIENT, Case, killed, those, wait_until

HALF = """table inet half {
    chain got { type filter hook input priority 0; numgen random mod 2 0 drop; }
}
"""
# A disk that has all that it can hold. What grows meanwhile has it tried again.
FULL = """
until mount -o "remount,size=$(df --output=used --block-size=1 /tmp | tail -n 1)" /tmp
do sleep 0.1; done 2> /dev/null
"""
ROOM = ("mount", "-o", "remount,size=50%", "/tmp")


def within(host, *words, **more):
    """Runs a command with the network, the mounts and the processes of a machine."""
    maker = (LAB / host / "pid").read_text().strip()
    init = Path(f"/proc/{maker}/task/{maker}/children").read_text().split()[0]
    command = ["nsenter", "--target", init, "--net", "--mount", "--pid", *words]
    subprocess.run(command, check=True, text=True, **more)


class Troubles(Case):
    def ready(self, *orders, seconds=8, limit=PATIENT):
        words = ("--seconds", seconds, "--replay", self.given(*orders))
        running = self.start(*words, *limit)
        wait_until("the beginning", lambda: self.events("ready") or running.poll() is not None)
        if running.poll() is not None:
            self.fail("".join(running.communicate()))
        return running

    def assert_kept(self, told):
        """All that was acknowledged stands on a host, and that is said."""
        self.assertRegex(told, r"\n([1-9]\d*) acknowledged: \d+ kept, 0 lost, 0 missing")
        self.assertRegex(told, r" 0 unreadable, 0 wrong; audit legal ")

    def test_a_host_loses_half_of_what_it_gets(self):
        running = self.ready((1, "e1", "RebootAndDelete"))
        within("h1", "nft", "--file", "-", input=HALF)
        wait_until("the kill", lambda: self.events("killed") or running.poll() is not None)
        within("h1", "nft", "delete", "table", "inet", "half")
        self.assertEqual([it["processes"] for it in self.events("killed")], [[1]])
        self.assert_kept(self.ended(running, 0))

    def full(self, host):
        """Fills the disk of a host."""
        within(host, "sh", "-c", FULL)
        self.addCleanup(within, host, *ROOM)

    def test_a_host_has_no_space(self):
        """What runs there ends, and counts as rebooted: it still has what it had."""
        running = self.ready(seconds=15, limit=("--hook-timeout", 20))
        self.full("h1")
        told = self.ended(running, 0)
        self.assert_kept(told)
        self.assertRegex(told, r"e1 ended by itself")
        self.assertRegex((self.out / "e1.log").read_text(), "no space left on device")
        self.assertEqual(self.events("destroyed"), [])

    def test_what_has_no_space_is_killed_and_emptied(self):
        """Once there is room again it comes back, and is whole."""
        running = self.ready((20, "e1", "RebootAndDelete"), seconds=25)
        self.full("h1")
        wait_until("the end of e1", lambda: self.events("ended") or running.poll() is not None)
        self.assertRegex((self.out / "e1.log").read_text(), "no space left on device")
        self.assertEqual(self.events("order"), [], "it ended too late")
        wait_until("all of it", lambda: self.events("destroyed") or running.poll() is not None)
        within("h1", *ROOM)
        told = self.ended(running, 0)
        self.assert_kept(told)
        self.assertEqual([it["processes"] for it in self.events("killed")], [[1]])
        (destroyed,), (order,) = self.events("destroyed"), self.events("order")
        self.assertEqual((destroyed["processes"], destroyed["of"]), ([1], order["entry"]))
        self.assertEqual([it["process"] for it in self.events("heal")], [1])

    def test_a_host_comes_back_with_another_key(self):
        """Nothing is done there from then on: the run ends, and says why and who may run."""
        running = self.ready((4, "e1", "RebootAndDelete"), seconds=60, limit=("--hook-timeout", 20))
        known = (LAB / "known_hosts").read_text()
        self.addCleanup((LAB / "known_hosts").write_text, known)
        keys = dict(line.split(" ", 1) for line in known.splitlines())
        other = known.replace(keys["10.77.0.11"], keys["10.77.0.12"])
        (LAB / "known_hosts").write_text(other)
        ways = rf"^ssh .*{self.room}.* (h1|-M .*h1)"
        killed(those(ways))
        told, said = running.communicate()
        self.assertEqual(running.returncode, 3, told + said)
        self.assertIn("h1: Host key verification failed.", told + said)
        self.assertRegex(told, r"\n\d+ acknowledged so far, not read")
        self.assertNotIn("lost", re.sub(r"0 lost", "", told))
        self.assertEqual(self.events("killed"), [])
        (LAB / "known_hosts").write_text(known)
        self.assert_nothing_left()
