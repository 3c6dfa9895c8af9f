"""The Java binding, by the program of tests/bindings/java/GuardTest.java."""

import re
import subprocess
import tempfile
import unittest

import common
import faultyard
import played

SOURCES = [
    common.ROOT / "bindings/java/Guard.java",
    common.ROOT / "tests/bindings/java/GuardTest.java",
]
# Java 11 is the least that the binding asks for.
COMPILE = ["javac", "-Xlint:all", "-Werror", "--release", "11"]


def flat(by, act):
    """An act as GuardTest reads it: the actor, the name, and the members in the order of their
    names."""
    ((name, members),) = act.items()
    words = [str(by), name]
    for member in sorted(members):
        value = members[member]
        if member == "scope":
            words += ["all"] if value == "all" else [value["key"], value["value"]]
        else:
            words.append(",".join(map(str, value)) if isinstance(value, list) else str(value))
    return "\t".join(words) + "\n"


def asked(at):
    """The key and the value that GuardTest asks for after the act at a place."""
    key = list(common.KEYS)[at % 5]
    return key, f"{common.KEYS[key]}{at // 5 % 7}"


def written(states, key, value):
    """The line that GuardTest writes of the states of the six processes."""
    words = [
        ("up" if it.up else "down")
        + (", clogged" if it.clogged else "")
        + (", gone" if it.gone else ", destroyed" if it.destroyed else "")
        + ("!" if it.destroyed else "")
        for it in states
    ]
    line = f"[{', '.join([*words, 'none', 'none'])}]"
    places = faultyard.ClusterFile.read(common.SIX)
    left = [p for p, it in enumerate(states) if not it.gone]
    for found in (
        left,
        [p for p, it in enumerate(states) if it.destroyed],
        [p for p, it in enumerate(states) if it.gone],
        [p for p, it in enumerate(states) if it.up],
    ):
        line += f" {found}"
    targets = sorted(set(left) & places.having(faultyard.Key(key), value))
    return f"{line} {key} {value} {targets}\n"


class Java(common.Folder, unittest.TestCase):
    @classmethod
    def setUpClass(cls):
        common.need("the binding for Java", "javac")
        made = tempfile.TemporaryDirectory(prefix="bindings-java-")
        cls.addClassCleanup(made.cleanup)
        cls.classes = made.name
        subprocess.run([*COMPILE, "-d", cls.classes, *SOURCES], check=True)

    def java(self, *words, given=""):
        command = ["java", "-cp", self.classes, "GuardTest", *map(str, words)]
        ran = subprocess.run(command, input=given, capture_output=True, text=True, timeout=300)
        self.assertEqual((ran.stderr, ran.returncode), ("", 0))
        return ran.stdout

    def test_ten_thousand_random_acts_give_the_audit_that_run_gives(self):
        config = common.six_with(self.folder, 10_000)
        acts = list(common.random_acts(52, 10_000))
        given = "".join(flat(by, act) for by, act in acts)
        audit = self.java("play", common.PROGRAM, config, given=given)
        self.assertEqual(audit, common.run_script(config, acts))
        self.assertEqual(faultyard.check(config, audit), 10_000)

    def test_the_states_are_those_of_the_picture(self):
        config = common.six_with(self.folder, 1_000)
        acts = list(common.random_acts(65, 1_000))
        told = self.java("states", common.PROGRAM, config, given="".join(flat(*it) for it in acts))
        lines, audit = told.split(common.HEADER)
        drawn = played.states_drawn(config, common.HEADER + audit)
        wanted = [written(column, *asked(at)) for at, column in enumerate(drawn)]
        played.compare(self, lines, "".join(wanted))
        self.assertEqual(len({state for column in drawn for state in column}), 10)

    @unittest.skipUnless(common.LIBRARY, common.WITHOUT)
    def test_who_may_be_killed_is_what_the_library_says(self):
        config, met = common.six_with(self.folder, 1_000), set()
        for seed in range(4):
            acts, wanted = list(common.random_acts(80 + seed, 400)), ""
            with faultyard.Guard(config, transport="library") as guard:
                for at, it in enumerate(acts):
                    guard.act(*it)
                    for actor in range(4) if at % 20 == 0 else ():
                        kinds = guard.killable(by=actor)
                        wanted += " ".join(it.value if it else "-" for it in kinds) + "\n"
                        met.update(kinds)
            given = "".join(flat(*it) for it in acts)
            told = self.java("killable", common.PROGRAM, config, given=given)
            played.compare(self, told.split(common.HEADER)[0], wanted)
        self.assertEqual(met, {None, *list(faultyard.Kind)[:4]})

    @common.needs_toml("the places of processes in Java")
    def test_the_places_are_those_of_the_cluster_file(self):
        files, wanted = [common.SIX, common.ROOT / "examples/regions.toml"], ""
        values = [(key, f"{letter}{at}") for key, letter in common.KEYS.items() for at in range(8)]
        values += [("dcid", "north"), ("processid", "north-1a")]
        for file in files:
            read = faultyard.ClusterFile.read(file)
            wanted += f"{len(read.places)}\n"
            for key, value in values:
                found = sorted(read.having(faultyard.Key(key), value))
                named = sorted(read.having(faultyard.Key.PROCESS, value))
                wanted += f"{key}\t{value}\t{found}\t{named[0] if named else -1}\n"
        given = "".join(f"{key}\t{value}\n" for key, value in values)
        played.compare(self, self.java("places", common.PROGRAM, *files, given=given), wanted)

    def test_eight_threads_share_a_guard_and_each_gets_its_own_answers(self):
        config = common.eight_actors(self.folder)
        audit = self.java("threads", common.PROGRAM, config)
        self.assertEqual(faultyard.check(config, audit), 8 * 250)

    def test_each_error_and_each_reply(self):
        told = self.java("cases", common.PROGRAM, common.SIX, self.folder)
        self.assertRegex(told, r"\A\d+ passed\n\Z")

    def test_the_words_are_those_of_python(self):
        text = SOURCES[0].read_text()
        for enum in (faultyard.Kind, faultyard.Key, faultyard.Rule, faultyard.Refusal):
            body = re.search(rf"public enum {enum.__name__} {{(.*?\));\n", text, re.S)[1]
            self.assertEqual(
                re.findall(r'^ +([A-Z_]+)\("(\w+)"\)', body, re.M),
                [(it.name, it.value) for it in enum],
            )
