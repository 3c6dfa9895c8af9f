"""Tests tests/tools/needs where the machine lacks all programs, what tests/suites counts of it, and
that tests/suites names what it never runs."""

import os
import re
import shutil
import subprocess
import sys
import tempfile
import unittest
from contextlib import redirect_stdout
from importlib.machinery import SourceFileLoader
from importlib.util import module_from_spec, spec_from_loader
from io import StringIO
from pathlib import Path

ROOT = Path(__file__).resolve().parent.parent.parent
NEEDS = "tests/tools/needs"
BASH = shutil.which("bash")
SKIPPED = "SKIPPED a look: there is no jq c++ (Debian: apt-get install jq g++)"

sys.dont_write_bytecode = True
loader = SourceFileLoader("suites", str(ROOT / "tests/suites"))
suites = module_from_spec(spec_from_loader("suites", loader))
sys.modules["suites"] = suites
loader.exec_module(suites)


def bash(*words, root=ROOT):
    """Runs bash where no program is on the path."""
    told = {"capture_output": True, "text": True}
    return subprocess.run([BASH, *words], cwd=root, env={"PATH": ""}, **told)


def counted(command, root=ROOT):
    """What tests/suites counts of a suite that is this command."""
    ran = bash("-c", command, root=root)
    suite = suites.Suite("a look", command)
    return suites.counted(suite, ran.returncode, (ran.stdout + ran.stderr).splitlines())


class Needs(unittest.TestCase):
    def test_it_names_what_is_missing_where_no_program_is_there(self):
        told = bash(NEEDS, "a look", "jq", "c++")
        self.assertEqual((told.returncode, told.stdout, told.stderr), (1, f"{SKIPPED}\n", ""))

    def test_it_says_nothing_of_what_is_there(self):
        told = bash(NEEDS, "a look", "/dev/null")
        self.assertEqual((told.returncode, told.stdout, told.stderr), (0, "", ""))

    def test_it_lists_packages_where_no_program_is_there(self):
        told = bash(NEEDS, "--packages")
        self.assertEqual((told.returncode, told.stderr), (0, ""))
        self.assertLessEqual({"jq", "g++", "shellcheck"}, {*told.stdout.split()})

    def test_a_wrong_call_is_no_missing_program(self):
        for words in (["a look", "no-such-program"], ["a look"], []):
            told = bash(NEEDS, *words)
            self.assertEqual((told.returncode, told.stdout), (2, ""), words)
            self.assertIn(NEEDS, told.stderr)


class Counted(unittest.TestCase):
    """A suite that asks for a program, and tells no counts of its own."""

    def of(self, asked, root=ROOT):
        """What is counted where it ends without the program, and where it goes on."""
        ends = f"{BASH} {asked} || exit $(($? != 1))"
        goes_on = f"if {BASH} {asked}; then echo; fi; echo '3 passed, 0 failed'"
        return counted(ends, root), counted(goes_on, root)

    def test_a_missing_program_is_skipped(self):
        ends, goes_on = self.of(f"{NEEDS} 'a look' jq c++")
        self.assertEqual((ends.passed, ends.failed, ends.skipped), (0, 0, [SKIPPED]))
        self.assertEqual((goes_on.passed, goes_on.failed, goes_on.skipped), (3, 0, [SKIPPED]))

    def test_a_wrong_call_has_failed(self):
        for result in self.of(f"{NEEDS} 'a look' no-such-program"):
            self.assertEqual(result.failed, 1)

    def test_a_script_that_breaks_or_is_not_there_has_failed(self):
        with tempfile.TemporaryDirectory() as folder:
            os.makedirs(f"{folder}/tests/tools")
            for text in (None, "set -e\nno-such-command\n", "set -u\n: $unset\n"):
                if text:
                    Path(f"{folder}/{NEEDS}").write_text(text, "utf-8")
                for result in self.of(f"{NEEDS} 'a look' jq", folder):
                    self.assertEqual(result.failed, 1, text)

    def test_a_suite_that_takes_any_status_for_a_missing_program_has_failed(self):
        result = counted(f"{BASH} {NEEDS} 'a look' no-such-program || exit 0")
        self.assertEqual((result.passed, result.failed), (0, 1))


class Toolchain(unittest.TestCase):
    def test_a_target_says_in_a_line_that_there_is_no_toolchain(self):
        heading = "Building, testing, contributing"
        self.assertIn(f"## {heading}\n", (ROOT / "README.md").read_text("utf-8"))
        with tempfile.TemporaryDirectory() as folder:
            for name in ("make", "sh", "bash", "env", "sed", "find"):
                os.symlink(shutil.which(name), f"{folder}/{name}")
            for target in ("build", "run", "lib", "test", "mutants"):
                told = subprocess.run(
                    ["make", target], cwd=ROOT, env={"PATH": folder}, capture_output=True, text=True
                )
                said = f"make {target}: there is no rt, the command of the Rattle toolchain;"
                line = f"{said} see '{heading}' in README.md"
                # another line is make's own, on the target that failed
                self.assertIn(line, told.stderr.splitlines())
                self.assertEqual((told.returncode, told.stdout), (2, ""), target)


class Since(unittest.TestCase):
    """What `quick --since` runs for files that changed."""

    @staticmethod
    def of(*paths):
        stages = suites.concerned(suites.QUICK, list(paths))
        return {it.name: it.command for stage in stages for it in stage}

    def test_a_page_needs_what_looks_at_pages(self):
        found = self.of("docs/GUARD.md")
        self.assertLessEqual({"pages", "style", "site", "manual", "build without proofs"}, {*found})
        self.assertFalse({"unit tests", "nemesis", "show", "disk"} & {*found})

    def test_a_tool_needs_its_own_tests(self):
        found = self.of("tools/nemesis/run.py")
        self.assertLessEqual({"nemesis", "power", "hosts", "build without proofs"}, {*found})
        self.assertFalse({"unit tests", "show", "serve"} & {*found})

    def test_a_low_crate_needs_all_that_runs_the_program(self):
        found = self.of("crates/fy_locality/src/lib.rt")
        on_program = {it.name for it in suites.on_program(suites.UNPROVED, "")}
        self.assertLessEqual(on_program | {"unit tests", "nemesis", "bears"}, {*found})
        self.assertIn("fy_cluster_tests", found["unit tests"])
        self.assertNotIn("fy_registers_tests", found["unit tests"])

    def test_a_crate_of_one_command_needs_its_tests(self):
        found = self.of("crates/fy_registers/src/zones.rt")
        self.assertEqual(found["unit tests"], "tests/crates/run fy_keys_tests fy_registers_tests")
        self.assertLessEqual({"linear", "command lines"}, {*found})
        self.assertFalse({"show", "guard", "nemesis"} & {*found})

    def test_proofs_and_mutants_alone_run_no_program(self):
        found = self.of("crates/fy_disk/mutants.edits", "crates/fy_disk/proofs/Lib.antt")
        self.assertEqual({*found}, set(suites.ALWAYS))

    def test_each_suite_that_is_named_is_there(self):
        known = {it.name for stage in suites.QUICK for it in stage}
        named = {*suites.LOOKS_AT, *suites.BY_CRATES, *suites.ALWAYS}
        self.assertLessEqual(named, known)


def recipes():
    """What each target of the Makefile runs."""
    found, lines = {}, []
    for line in (ROOT / "Makefile").read_text().replace("\\\n", "").splitlines():
        if named := re.match(r"([a-z][a-z-]*):(?!.*=)", line):
            lines = found[f"make {named[1]}"] = []
        elif line.startswith("\t"):
            lines.append(line)
    return {target: "\n".join(lines) for target, lines in found.items()}


class ByHand(unittest.TestCase):
    """What tests/suites names as never run."""

    # Targets that call what is below tests/, and are no tests.
    OTHERS = {"make test", "make quick", "make format"}

    def test_the_end_names_each_before_it_counts(self):
        for may_skip in (True, False):
            told = StringIO()
            with redirect_stdout(told):
                suites.report([suites.Result(suites.Suite("a look", "true"), passed=2)], may_skip)
            *lines, last = told.getvalue().splitlines()
            for command, what in suites.BY_HAND.items():
                self.assertIn(f"BY HAND, by `{command}`: {what}", lines)
            self.assertEqual(last, "2 passed, 0 failed, 0 skipped")

    def test_each_target_that_tests_is_named(self):
        tests = {it for it, runs in recipes().items() if re.search(r"(^|\s)tests/(?!tools/)", runs)}
        named = {it for it in suites.BY_HAND if it.startswith("make ")}
        self.assertEqual(named, tests - self.OTHERS)

    def test_no_list_runs_what_is_named(self):
        listed = [
            it.command for stages in suites.LISTS.values() for stage in stages for it in stage
        ]
        for command in suites.BY_HAND:
            self.assertNotIn(command, listed)
            if not command.startswith("make "):
                self.assertTrue(os.access(ROOT / command.split()[0], os.X_OK), command)

    def test_each_module_of_hosts_is_run_whole_by_a_target_or_else_by_its_suite(self):
        here = ROOT / "tests/hosts"
        modules = {it.stem for it in here.glob("*.py") if "    def test_" in it.read_text()}
        suite = re.search(r'SHORT = """(.*?)"""', (here / "run").read_text(), re.S)[1].split()
        runs = re.findall(r"tests/hosts/run \S+ (.*)", "\n".join(recipes().values()))
        self.assertEqual({*suite, *" ".join(runs).split()} & modules, modules)
