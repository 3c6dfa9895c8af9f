"""etcd and OVSDB in five pods, with their hooks as they are. The pods are those of the kubectl
beside this, and no cluster's: machines of tests/hosts/machines."""
import os
import signal

from by_ssh import HERE, HOSTS, PATIENT, SECONDS, Case, killed, those, wait_until

os.environ["PATH"] = f"{HERE}:{os.environ['PATH']}"


class Pods(Case):
    on = f"pods:{','.join(HOSTS)}"

    def left(self):
        return those(rf"^(\S*/)?etcd |{self.out}/\d\b")

    def test_guarded(self):
        orders = [(1, "e1", "RebootAndDelete"), (2, "e2", "Reboot"), (3, "e0", "Clog")]
        running = self.start("--seconds", 6, "--replay", self.given(*orders), *PATIENT)
        told = self.ended(running, 0)
        self.assertRegex(told, r"\n([1-9]\d*) acknowledged: \d+ kept, 0 lost")
        self.assertEqual([it["does"] for it in self.events("order")], [it[2] for it in orders])
        self.assertEqual([it["processes"] for it in self.events("killed")], [[1], [2]])
        self.assertEqual(self.files_there(), [])

    def test_ovsdb(self):
        """Whose hooks have commands run where a server is."""
        self.of_store("ovsdb", "ovsdb-server")
        self.emptied("ovsdb", self.on, 15)

    def test_unguarded(self):
        words = ("--seconds", 3, "--unguarded", "--replay", self.all_at_once())
        told = self.ended(self.start(*words, "--hook-timeout", 10), 1)
        self.assertRegex(told, r"\n([1-9]\d*) acknowledged: 0 kept, \1 lost")

    def test_kubectl_and_the_tool_are_killed(self):
        """What kubectl ran ends with it, and is started again; with the tool all ends."""
        running = self.start("--seconds", 3600, "--replay", self.given((3000, "e1", "Reboot")))
        wait_until("the beginning", lambda: self.events("ready"))
        ran = rf"(?s)kubectl exec -i h1 .*{self.out}/1 \d+ .*etcd "
        wait_until("what kubectl runs", lambda: those(ran))
        killed(those(ran))
        wait_until("the end of it", lambda: self.events("ended"))
        self.assertEqual([it["process"] for it in self.events("ended")], [1])
        running.send_signal(signal.SIGKILL)
        running.communicate(timeout=SECONDS)
        self.assert_nothing_left()

    def test_a_pod_that_is_not_there(self):
        self.on = "pods:h0,h1,h2,h3,h9"
        told = self.ended(self.start("--seconds", 3), 3)
        self.assertIn("h9", told)
