"""`--attach` on real etcd: three machines run it before the tool comes, and after it has gone."""
import json
import os
import re
import subprocess
import sys
import unittest
import urllib.request
from base64 import b64decode, b64encode
from pathlib import Path

from by_ssh import ROOT, Case, wait_until
from deaths import Lab
from rows import HERE, NEMESIS

PLACES = [f"10.77.0.1{n}:{20000 + 4 * n}" for n in range(3)]
HOOKS = HERE / "standing"
ETCD = r"^(\S*/)?etcd --name p"


class Standing(Lab):
    def setUp(self):
        Case.setUp(self)
        hosts, ports = zip(*(place.split(":") for place in PLACES))
        self.env = os.environ | {
            "FY_COUNT": "3",
            "FY_NAMES": "p0 p1 p2",
            "FY_HOSTS": " ".join(hosts),
            "FY_PORTS": " ".join(ports),
            "FY_ABLE": "0 1 2",
            "FY_DIR": str(self.room / "before"),
            "PYTHONPATH": str(ROOT / "bindings/python/src"),
        }
        self.addCleanup(self.end)
        for number in range(3):
            (self.room / "before" / str(number)).mkdir(parents=True)
            self.hook("start", number)
        wait_until("etcd", lambda: all(self.hook("ready", n) is not None for n in range(3)))
        self.name = self.hook("name").strip()

    def end(self):
        for number in range(3):
            self.hook("kill", number)
            self.hook("empty", number)

    def hook(self, *words):
        """What a hook prints, or None where it says no."""
        command = [sys.executable, "-S", HOOKS, *map(str, words)]
        ran = subprocess.run(command, env=self.env, stdout=subprocess.PIPE, text=True, check=False)
        return ran.stdout if ran.returncode == 0 else None

    def ask(self, call, **members):
        """What etcd answers to a call with these texts."""
        coded = {name: b64encode(text.encode()).decode() for name, text in members.items()}
        data = json.dumps(coded).encode()
        with urllib.request.urlopen(f"http://{PLACES[0]}/v3/{call}", data) as answer:
            return json.load(answer)

    def get(self, key):
        return [b64decode(it["value"]).decode() for it in self.ask("kv/range", key=key)["kvs"]]

    def pids(self):
        """The etcd of each machine, by its name."""
        found = {}
        for entry in Path("/proc").iterdir():
            if entry.name.isdigit():
                try:
                    words = (entry / "cmdline").read_bytes().split(b"\0")
                except OSError:
                    continue
                if words[0].endswith(b"etcd") and b"--name" in words:
                    found[words[words.index(b"--name") + 1].decode()] = int(entry.name)
        return found

    def attach(self, name, *words):
        places = ["--at", ",".join(PLACES), "--attach", name]
        path, t = self.room / "given.jsonl", 1
        orders = []
        for who, kind in (("p1", "RebootAndDelete"), ("p2", "Reboot"), ("p0", "Clog")):
            order = {"t": t, "what": "order", "key": "processid", "value": who, "order": kind}
            orders.append(json.dumps(order | {"clogged": 1}) + "\n")
            t += 2
        path.write_text("".join(orders))
        more = ["--replay", path, "--hook-timeout", 60, "--writers", 1, "--quiet"]
        store = [NEMESIS / "three.toml", HOOKS, "--out", self.out]
        return self.begun(*store, *places, "--seconds", 8, *more, *words)

    def test_it_is_left_up_and_whole_with_what_it_had(self):
        for key, value in (("mine", "all"), ("r/000000005", "old")):
            self.ask("kv/put", key=key, value=value)
        before = self.pids()
        told, said = self.attach(self.name).communicate()
        self.assertIn(f"{self.name} is left as it was found: all are up and whole", told + said)
        self.assertRegex(told, r"\n([1-9]\d*) acknowledged: \d+ kept, 0 lost, 0 missing")
        after = self.pids()
        self.assertEqual(sorted(after), ["p0", "p1", "p2"])
        self.assertEqual(after["p0"], before["p0"])
        self.assertTrue({after["p1"], after["p2"]}.isdisjoint(before.values()))
        self.assertEqual((self.get("mine"), self.get("r/000000005")), (["all"], ["old"]))
        members = self.ask("cluster/member/list")["members"]
        self.assertEqual(sorted(it["name"] for it in members), ["p0", "p1", "p2"])

    def test_another_cluster_is_not_touched(self):
        before = self.pids()
        running = self.attach("orders-test")
        told, said = running.communicate()
        self.assertEqual((running.returncode, told), (2, ""), said)
        text = rf"--attach orders-test: the cluster is '{self.name}' by the hook `name`; nothing"
        self.assertTrue(re.search(text, said), said)
        self.assertEqual(said.count("\n"), 1)
        self.assertEqual(self.pids(), before)


if __name__ == "__main__":
    unittest.main()
