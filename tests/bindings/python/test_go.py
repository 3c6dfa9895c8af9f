"""The binding for Go: its package, and the tests and programs of tests/bindings/go."""

import re
import tempfile
import unittest
from pathlib import Path

import common
import faultyard
import played
from native import example, installed, poor_library, run

PACKAGE = common.ROOT / "bindings/go"
TESTS = common.ROOT / "tests/bindings/go"
PAGE = PACKAGE / "README.md"
C_HEADER = common.ROOT / "include/faultyard.h"


ENVIRONMENT = {}


def setUpModule():
    """Go fetches nothing, and writes below one folder, so that it builds each package once."""
    common.need("the binding for Go", "go", "cc", "pkg-config")
    made = tempfile.TemporaryDirectory(prefix="bindings-go-")
    unittest.addModuleCleanup(made.cleanup)
    ENVIRONMENT.update(
        installed(made.name),
        HOME=made.name,
        GOCACHE=f"{made.name}/cache",
        GOPATH=f"{made.name}/path",
        GOTMPDIR=made.name,
        GOENV="off",
        GOPROXY="off",
        GOFLAGS="-mod=readonly -buildvcs=false",
    )


def go(*words, cwd=TESTS, **more):
    """What the go command writes."""
    return run("go", *words, cwd=cwd, env={**ENVIRONMENT, **more})


class Sources(unittest.TestCase):
    def test_gofmt_and_vet_find_nothing(self):
        for folder in (PACKAGE, TESTS):
            self.assertEqual(run("gofmt", "-l", folder), "")
            self.assertEqual(go("vet", "./...", cwd=folder), "")

    def test_each_value_is_the_c_headers(self):
        text = "".join((PACKAGE / it).read_text() for it in ("words.go", "errors.go"))
        found = re.findall(r"^\t(\w+) +(\w+) = C\.(FY_\w+)$", text, re.M)
        self.assertEqual(len(found), len({name for name, _, _ in found}))
        for name, enum, constant in found:
            bare = name.removeprefix({"Status": "Err", "Refusal": "Refusal"}.get(enum, ""))
            spelled = re.sub(r"(?<=.)([A-Z])", r"_\1", bare).upper()
            self.assertEqual(f"FY_{spelled}", constant)
        # What no call of the package answers is left out.
        wanted = re.findall(r"^    (FY_\w+) = \d+,", C_HEADER.read_text(), re.M)
        self.assertEqual(
            {constant for _, _, constant in found},
            set(wanted) - {"FY_DONE", "FY_SHORT", "FY_NOT_REFUSED"},
        )

    def test_each_call_is_made(self):
        declared = re.findall(r"^\w+ (fy_\w+)\(", C_HEADER.read_text(), re.M)
        text = "".join(it.read_text() for it in PACKAGE.glob("*.go"))
        self.assertEqual(set(re.findall(r"\bC\.(fy_\w+)\(", text)), set(declared))

    def test_each_kind_of_a_set_is_the_c_headers(self):
        text = (PACKAGE / "acts.go").read_text()
        found = re.findall(r"^\t(Kinds\w+) +Kinds = C\.(FY_\w+)$", text, re.M)
        wanted = re.findall(r"^#define (FY_KINDS_\w+) \d+u\b", C_HEADER.read_text(), re.M)
        self.assertEqual([constant for _, constant in found], wanted)
        for name, constant in found:
            spelled = re.sub(r"(?<=.)([A-Z])", r"_\1", name).upper()
            self.assertEqual(f"FY_{spelled}", constant)

    def test_each_word_is_that_of_audits_and_fault_lines(self):
        words, errors = ((PACKAGE / it).read_text() for it in ("words.go", "errors.go"))
        for rows, enum, none in (
            ("keyWords", faultyard.Key, ""),
            ("kindWords", faultyard.Kind, "None"),
            ("ruleWords", faultyard.Rule, "NoRule"),
            ("partWords", faultyard.Part, "WholeFile"),
        ):
            found = re.search(rf"{rows} += \[\]string{{(.*?)}}", words, re.S)[1]
            wanted = [it.value for it in enum if it is not faultyard.Kind.CLOG]
            self.assertEqual(re.findall(r'"(\w*)"', found), [none, *wanted])
        found = dict(re.findall(r'^\tRefusal(\w+): +"(\w+)",', errors, re.M))
        self.assertEqual(found, {it.value: it.value for it in faultyard.Refusal})


@unittest.skipUnless(common.LIBRARY, common.WITHOUT)
class Go(common.Folder, unittest.TestCase):
    """The tests and programs are linked with the library that is given."""

    def test_the_tests_of_the_package_under_the_race_detector(self):
        audit = Path(self.folder, "audit")
        told = go("test", "-race", "-count=1", "-v", ".", FAULTYARD_SHARED_AUDIT=str(audit))
        tests = "".join(it.read_text() for it in sorted(TESTS.glob("*_test.go")))
        wanted = re.findall(r"^func (Test\w+)\(", tests, re.M)
        self.assertEqual(re.findall(r"^--- PASS: (\w+) ", told, re.M), wanted)
        self.assertNotIn("--- SKIP", told)
        config = common.six_with(self.folder, 100_000)
        self.assertGreater(faultyard.check(config, audit.read_text()), 32 * (50 + 20))

    def test_ten_thousand_random_acts_give_the_audit_that_run_gives(self):
        config = common.six_with(self.folder, 10_000)
        acts = list(common.random_acts(54, 10_000))
        program, audit = Path(self.folder, "play"), Path(self.folder, "audit")
        go("build", "-race", "-o", program, "./play")
        lines = played.lines(acts)
        told = run(program, config, audit, given=lines, env=ENVIRONMENT)
        wanted = common.run_script(config, acts)
        self.assertTrue(audit.read_text() == wanted, "another audit")
        self.assertEqual(faultyard.check(config, audit.read_text()), 10_000)
        played.compare(self, told, played.answers(config, acts, wanted))

    def test_a_refused_cluster_file_is_told_by_the_fault_line_of_the_program(self):
        files = common.refused_files(self.folder)
        told = go("run", "./refused", *files.values()).splitlines()
        self.assertEqual(len(told), len(files))
        for line, error in zip(files, told):
            self.assertTrue(error.startswith(f"faultyard: {line}: "), (line, error))

    def test_want_of_memory_a_lost_line_and_the_thread_of_each_call(self):
        program, library = Path(self.folder, "poor"), Path(self.folder, "libfaultyard.so.1")
        go("build", "-o", program, "./poor")
        poor_library(library)
        told = run(program, env={**ENVIRONMENT, "LD_LIBRARY_PATH": self.folder})
        calls = ("Open", "Open, to say where the fault is")
        calls += ("Kill", "Reset", "TryCopy", "Up", "Heal", "Form", "Take", "Act", "Ask", "Entry")
        calls += ("Audit", "Bears")
        calls += ("Words", "SwizzlePlan", "AttritionPlan", "BeginCheck", "Line")
        wanted = dict.fromkeys(calls, "faultyard: there was no memory")
        wanted["Act"] = "faultyard: the act is made, but its line could not be written"
        no_key = "faultyard: there is no such key, kind or floor, or process to kill, "
        no_key += "members don't rise, a payload is too long, or a count is below 0"
        wanted |= dict.fromkeys(["Judge", "Targets"], no_key)
        asked = ["Killable", "IsDestroyed", "Left", "UpSet", "State", "Needed", "Destroyed", "Gone"]
        asked += ["Process", "ProcessCount", "IsAcked", "Keeper", "Sight", "Close"]
        wanted |= dict.fromkeys(asked, "<nil>")
        self.assertEqual(dict(line.split(": ", 1) for line in told.splitlines()), wanted)

    def test_the_example_of_its_page_prints_what_the_page_says(self):
        command, wanted = example(self.folder, PAGE, "go")
        (edit,) = re.findall(r"^\$ (go mod edit .*)$", PAGE.read_text(), re.M)
        edit = edit.replace("/usr/share/faultyard/bindings/go", str(PACKAGE))
        self.assertIn(str(PACKAGE), edit)
        script = f"set -e; go mod init guarded 2> said; {edit}; {command}"
        told = run("bash", "-c", script, cwd=self.folder, env=ENVIRONMENT)
        self.assertEqual(told, wanted)
        self.assertEqual(command, "go run guarded.go")
