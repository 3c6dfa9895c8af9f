"""etcd and OVSDB in containers of a podman without rights, with their hooks as they are. Runs
beside tests/hosts/engine."""
import os
import re
import subprocess

from by_ssh import PATIENT, SECONDS, Case, those, wait_until

ENGINE = os.environ.get("ENGINE", "").split()


def asked(*words):
    told = subprocess.run([*ENGINE, *words], stdout=subprocess.PIPE, text=True, check=True).stdout
    return told.split()


class Containers(Case):
    on = f"containers {' '.join(ENGINE)}:{os.environ.get('IMAGE')}"

    def left(self):
        """What runs, by its processes: podman takes for running what it was killed with."""
        return those(r"^(\S*/)?(etcd|ovsdb-server) |sh -c \nexec 3<&0 ")

    def test_guarded(self):
        orders = [(1, "e1", "RebootAndDelete"), (2, "e2", "Reboot"), (3, "e0", "Clog")]
        running = self.start("--seconds", 6, "--replay", self.given(*orders), *PATIENT)
        told = self.ended(running, 0)
        self.assertRegex(told, r"\n([1-9]\d*) acknowledged: \d+ kept, 0 lost")
        self.assertEqual([it["does"] for it in self.events("order")], [it[2] for it in orders])
        self.assertEqual([it["processes"] for it in self.events("killed")], [[1], [2]])
        self.assertEqual(asked("ps", "--all", "--quiet") + asked("volume", "ls", "--quiet"), [])

    def test_ovsdb(self):
        """Whose hooks have commands run where a server is, whether that runs or not."""
        self.of_store("ovsdb", "ovsdb-server")
        self.emptied("ovsdb", self.on, 15)
        self.assertEqual(asked("ps", "--all", "--quiet") + asked("volume", "ls", "--quiet"), [])

    def test_unguarded(self):
        words = ("--seconds", 3, "--unguarded", "--replay", self.all_at_once())
        told = self.ended(self.start(*words, "--hook-timeout", 10), 1)
        self.assertRegex(told, r"\n([1-9]\d*) acknowledged: 0 kept, \1 lost")

    def killed_while_one_is_paused(self):
        """The folder of a run whose tool is killed."""
        given = self.given((1, "e1", "Clog"))
        given.write_text(given.read_text().replace('"clogged": 2', '"clogged": 3000'))
        running = self.start("--seconds", 8, "--replay", given, *PATIENT)
        wait_until("the order", lambda: self.events("order") or running.poll() is not None)
        self.assertIsNone(running.poll())
        self.assertEqual(len(self.left()), 3 * 5)
        running.kill()
        running.communicate(timeout=SECONDS)
        self.assert_nothing_left()
        return self.out

    def test_the_tool_is_killed_and_gone_on_with(self):
        died = self.killed_while_one_is_paused()
        told = self.ended(self.begun("--resume", died), 0)
        self.assertRegex(told, r"\n([1-9]\d*) acknowledged: \d+ kept, 0 lost, 0 missing")
        self.assertEqual(asked("ps", "--all", "--quiet") + asked("volume", "ls", "--quiet"), [])

    def test_the_next_run_removes_what_a_killed_tool_left(self):
        """And nothing else: not its data, nor a container that runs, or isn't of the tool."""
        died = self.killed_while_one_is_paused()
        volumes, dead = asked("volume", "ls", "--quiet"), asked("ps", "--all", "--quiet")
        self.addCleanup(asked, "volume", "rm", *volumes)
        self.assertEqual(len(dead), 5)
        image = os.environ["IMAGE"]
        more = ["run", "--detach", "--interactive", "--network", "none", "--entrypoint", "sh"]
        (other,) = asked(*more, "--name", "faultyard-other", image)
        self.addCleanup(asked, "rm", "--force", "--time", "0", other)
        (lives,) = asked(*more, "--label", "faultyard-nemesis", image)
        self.addCleanup(asked, "rm", "--force", "--time", "0", lives)
        self.out = died.with_name("next")
        self.ended(self.start("--seconds", 2, "--replay", self.given(), *PATIENT), 0)
        left = asked("ps", "--all", "--quiet", "--no-trunc")
        self.assertEqual(sorted(left), sorted([other, lives]))
        self.assertEqual(sorted(asked("volume", "ls", "--quiet")), sorted(volumes))

    def test_an_image_that_is_not_there(self):
        self.on = re.sub(":.*", ":localhost/no-image", self.on)
        told = self.ended(self.start("--seconds", 3), 3)
        self.assertIn("no container of localhost/no-image runs sh, or it has no tar", told)
