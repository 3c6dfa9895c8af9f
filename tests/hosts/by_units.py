"""etcd and OVSDB as units of systemd on five machines, with their hooks as they are. Runs beside
`tests/hosts/machines --systemd`."""
import subprocess

from by_ssh import HOSTS, LAB, OVER, PATIENT, SECONDS, Case, wait_until


def units(host):
    """The units of a run on a machine."""
    asked = "systemctl list-units --all --plain --no-legend 'faultyard-*'"
    words = ["ssh", "-F", LAB / "ssh_config", host, asked]
    told = subprocess.run(words, stdout=subprocess.PIPE, text=True, check=True).stdout
    return [line.split()[0] for line in told.splitlines()]


class Units(Case):
    on = f"units {OVER}"

    def assert_nothing_left(self):
        super().assert_nothing_left()
        wait_until("the end of all units", lambda: not any(map(units, HOSTS)))

    def test_guarded(self):
        orders = [(1, "e1", "RebootAndDelete"), (2, "e2", "Reboot"), (3, "e0", "Clog")]
        running = self.start("--seconds", 6, "--replay", self.given(*orders), *PATIENT)
        told = self.ended(running, 0)
        self.assertRegex(told, r"\n([1-9]\d*) acknowledged: \d+ kept, 0 lost")
        self.assertEqual([it["does"] for it in self.events("order")], [it[2] for it in orders])
        self.assertEqual([it["processes"] for it in self.events("killed")], [[1], [2]])
        self.assertEqual(self.files_there(), [])

    def test_ovsdb(self):
        """Whose hooks have commands run where a server is."""
        self.of_store("ovsdb", "ovsdb-server")
        self.emptied("ovsdb", self.on, 15)

    def test_unguarded(self):
        words = ("--seconds", 3, "--unguarded", "--replay", self.all_at_once())
        told = self.ended(self.start(*words, "--hook-timeout", 10), 1)
        self.assertRegex(told, r"\n([1-9]\d*) acknowledged: 0 kept, \1 lost")

    def test_the_tool_is_killed_while_one_is_paused(self):
        given = self.given((1, "e1", "Clog"))
        lines = given.read_text().replace('"clogged": 2', '"clogged": 3000')
        given.write_text(lines)
        running = self.start("--seconds", 3600, "--replay", given, *PATIENT)
        wait_until("the order", lambda: self.events("order") or running.poll() is not None)
        self.assertTrue(all(map(units, HOSTS)))
        self.assertIsNone(running.poll())
        running.kill()
        running.communicate(timeout=SECONDS)
        self.assert_nothing_left()
