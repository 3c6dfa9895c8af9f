"""The other stores of examples/ by ssh, with their hooks as they are: they pass `--check-hooks`,
one that was emptied is whole again, and a guarded run loses nothing. Runs beside
tests/hosts/machines.
"""
from by_ssh import HOSTS, OVER, PATIENT, Case

SECONDS = 40  # of a guarded run


class Stores(Case):
    def runs(self, store, *programs, count=3, seconds=60, pauses="2,5,10"):
        """Each is killed and emptied once; one is emptied while all write; as the plan has it."""
        on = f"ssh {OVER.partition(':')[0]}:{','.join(HOSTS[:count])}"
        words = [*self.of_store(store, *programs), "--on", on, *PATIENT]
        self.out = self.room / "checked"
        self.ended(self.begun("--check-hooks", *words, "--out", self.out), 0)
        self.emptied(store, on, seconds)
        self.out = self.room / "guarded"
        more = ("--seconds", SECONDS, "--seed", 1, "--pauses", pauses)
        print(self.kept(*words, *more))

    def test_nats(self):
        self.runs("nats", "nats-server", seconds=15, pauses="1,2,4")

    def test_ovsdb(self):
        self.runs("ovsdb", "ovsdb-server", count=5, seconds=15, pauses="1,2,4")

    def test_rabbitmq(self):
        self.runs("rabbitmq", "rabbitmq-server")

    def test_zookeeper(self):
        self.runs("zookeeper", "zookeeper", count=5, seconds=30, pauses="0,1,2,4")

    def test_galera(self):
        self.runs("galera", "mariadbd", pauses="10,20,30")

    def test_ceph(self):
        self.runs("ceph", "ceph-mon", "python3-rados", pauses="2,9,17")
