"""What the tests of the binding share: the clusters, random acts, and what `faultyard run` says of
them."""

import json
import os
import random
import re
import subprocess
import sys
import tempfile
import unittest
from pathlib import Path

ROOT = Path(__file__).resolve().parents[3]
PROGRAM = os.environ["FAULTYARD"]
LIBRARY = os.environ.get("FAULTYARD_LIB")
WITHOUT = (
    "SKIPPED the bindings on the C library: no library was given (make test proves and builds it)"
)
SIX = ROOT / "examples/c6.toml"
HEADER = '{"audit":2}\n'
KINDS = ["RebootProcess", "Reboot", "RebootAndDelete", "KillInstantly"]
KEYS = {"processid": "p", "machineid": "m", "zoneid": "z", "data_hall": "h", "dcid": "d"}


def need(what, *programs):
    """Skips a test, or a class of tests, where the machine lacks a program; tests/tools/needs says
    so."""
    told = subprocess.run(
        [ROOT / "tests/tools/needs", what, *programs], capture_output=True, text=True
    )
    if told.returncode == 1:
        raise unittest.SkipTest(told.stdout.strip())
    if told.returncode != 0:
        raise AssertionError(told.stderr)


def needs_toml(what):
    """Skips a test, or a class of tests, where Python has no reader of cluster files."""
    is_older = sys.version_info < (3, 11)
    return unittest.skipIf(is_older, f"SKIPPED {what}: this Python is older than 3.11")


def written(folder, name, text):
    """A file of this text in a folder."""
    path = Path(folder, name)
    path.write_text(text)
    return path


def six_with(folder, limit):
    """The cluster of examples/c6.toml with another limit of its journal."""
    text = SIX.read_text()
    assert "journal_limit = 1000\n" in text
    return written(
        folder, "six.toml", text.replace("journal_limit = 1000\n", f"journal_limit = {limit}\n")
    )


def version():
    """The version of the program and of the library, as text."""
    told = subprocess.run([ROOT / "release/version"], capture_output=True, text=True, check=True)
    return told.stdout.rstrip("\n")


def refused_configs():
    """Cluster files that are refused, by their fault lines: each fault, and each part."""
    six = SIX.read_text()

    def changed(old, new):
        assert six.count(old) == 1, old
        return six.replace(old, new)

    def emptied(part):
        return re.sub(rf"^{part} = \[.*?\]$", f"{part} = []", six, flags=re.M | re.S)

    limit, policies = "journal_limit = 1000\n", '"Across(2,zoneid,One())"'
    grant = '{kinds = ["KillInstantly", "Reboot"]}'
    protection = '{process = "p0", kinds = []}, '
    return {
        "config: TooLong": "#" * 1_048_577,
        "config: Toml": "=",
        "config: Field JournalLimit": changed(limit, "journal_limit = 1000.0\n"),
        "config: Field Policies": changed(policies, "1"),
        "config: Field Process": changed(' machineid = "m1",', ""),
        "config: Field Actor": changed('"operator"', '"reader"'),
        "config: Field Protect": six + 'protect = [{process = "p0"}]\n',
        "config: Field Unknown": six + 'name = "six"\n',
        "config: Limit JournalLimit": changed(limit, "journal_limit = 0\n"),
        "config: Limit Policies": emptied("policies"),
        "config: Limit Process": emptied("process"),
        "config: Limit Actor": emptied("actor"),
        "config: Limit Protect": six + f"protect = [{protection * 1025}]\n",
        "config: Name Process 1": changed('"p1"', '"p0"'),
        "config: Name Actor 2": changed(grant, '{kinds = [], key = "zoneid", value = "-"}'),
        "config: Name Protect 1": six + f"protect = [{protection * 2}]\n",
        "config: Policy 1": changed(policies, '"One()", "One( )"'),
        "config: PolicyUnmet 2": changed(policies, '"One()", "One()", "Across(4,zoneid,One())"'),
    }


def refused_files(folder):
    """These cluster files in a folder, by the fault lines that the program writes for them."""
    files = {}
    for number, (line, text) in enumerate(refused_configs().items()):
        file = written(folder, f"refused-{number}.toml", text)
        command = [PROGRAM, "run", file]
        ran = subprocess.run(command, input="", capture_output=True, text=True, timeout=60)
        assert (ran.returncode, ran.stderr) == (1, f"{line}\n"), (line, ran.stderr)
        files[line] = file
    return files


def eight_actors(folder):
    """A cluster of six processes with a storage actor, eight of role fault, and an operator."""
    places = "".join(
        f'  {{processid = "p{i}", machineid = "m{i}", zoneid = "z{i // 2}"}},\n' for i in range(6)
    )
    fault = (
        '  {role = "fault", grants = [{kinds = ["RebootProcess", "Reboot", "RebootAndDelete"]}]},\n'
        * 8
    )
    text = (
        'journal_limit = 100000\npolicies = ["Across(2,zoneid,One())"]\n'
        f"process = [\n{places}]\n"
        f'actor = [\n  {{role = "storage"}},\n{fault}  {{role = "operator"}},\n]\n'
    )
    return written(folder, "eight.toml", text)


def run_script(config, acts):
    """The audit that `faultyard run` gives of (by, act) pairs."""
    script = "".join(json.dumps({"by": by, "act": act}) + "\n" for by, act in acts)
    ran = subprocess.run(
        [PROGRAM, "run", str(config)], input=script.encode(), capture_output=True, check=True
    )
    return ran.stdout.decode()


class RandomActs:
    """Acts for the six processes and five actors of examples/c6.toml; some name what isn't
    there."""

    def __init__(self, seed):
        self.source = random.Random(seed)
        # A guess of how many messages were sent so far.
        self.messages = 0.0

    def pairs(self, count):
        """Pairs of an actor and an act, mostly of a role that may make it."""
        for _ in range(count):
            make, actors = self.source.choice(
                [
                    (self.storage, [0]),
                    (self.storage, [0]),
                    (self.fault, [1, 1, 2, 3]),
                    (self.operator, [4]),
                ]
            )
            stray = self.source.random() < 0.02
            yield self.source.randrange(6) if stray else self.source.choice(actors), make()

    def storage(self):
        process, record, team = self.below(7), self.below(60), self.below(9)
        self.messages += 0.4
        message = self.below(int(self.messages) + 1)
        return self.source.choice(
            [
                {"form": {"members": self.members(), "policy": self.below(40) // 39}},
                {"begin": {"payload": self.payload(), "team": team}},
                {"begin": {"payload": self.payload(), "team": team}},
                *[{"deliver": {"message": message}}] * 5,
                {"lose": {"message": message}},
                {"resend": {"process": process, "record": record}},
                *[{"sync": {"process": process}}] * 3,
                *[{"up": {"process": process}}] * 3,
                {"heal": {"process": process}},
                {"tick": {"ticks": self.source.choice([0, 1, 9, 2**63])}},
                {"copy": {"from": process, "record": record, "to": self.below(7)}},
                {"replace": {"into": process, "out": self.below(7), "team": team}},
            ]
        )

    def operator(self):
        actor, process = self.below(6), self.below(7)
        scope = self.source.choice(["all", self.target()])
        return self.source.choice(
            [
                {"give": {"actor": actor, "kinds": self.kinds(), "scope": scope}},
                {"take": {"actor": actor, "index": self.below(3)}},
                {"protect": {"kinds": self.kinds(), "process": process}},
                {"unprotect": {"kinds": KINDS + ["Clog"], "process": process}},
                {"unprotect": {"kinds": self.kinds(), "process": process}},
            ]
        )

    def fault(self):
        return self.source.choice(
            [
                self.kill(),
                self.kill(),
                {"clog": {"ticks": self.below(20), **self.target()}},
                {"unclog": self.target()},
            ]
        )

    def kill(self):
        """An order to kill. Few are for good, so that processes are left."""
        kind = self.source.choice(KINDS[:3] * 20 + KINDS)
        floor = self.source.choice(KINDS[: KINDS.index(kind) + 1])
        tear = self.source.randrange(1 << 64)
        return {"kill": {"floor": floor, "kind": kind, "tear": tear, **self.target()}}

    def target(self):
        key = self.source.choice(list(KEYS))
        return {"key": key, "value": f"{KEYS[key]}{self.below(7)}"}

    def kinds(self):
        """Some of the kinds, in the one order that an audit has."""
        return [kind for kind in KINDS + ["Clog"] if self.source.random() < 0.5]

    def members(self):
        return sorted(self.source.sample(range(7 if self.below(20) == 0 else 6), self.below(7)))

    def payload(self):
        return bytes(self.below(256) for _ in range(self.source.choice([0, 1, 3, 300]))).hex()

    def below(self, end):
        return self.source.randrange(end)


def random_acts(seed, count):
    """Pairs of an actor and an act."""
    return RandomActs(seed).pairs(count)


class Folder:
    """A folder for each test, as a mixin of a TestCase."""

    def setUp(self):
        made = tempfile.TemporaryDirectory(prefix="bindings-")
        self.addCleanup(made.cleanup)
        self.folder = made.name
