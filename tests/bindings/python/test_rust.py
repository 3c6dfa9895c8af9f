"""The Rust binding: its numbers against the header, its own tests, random acts that the program of
tests/bindings/rust plays, and its simulator."""

import json
import os
import re
import subprocess
import tempfile
import unittest
from pathlib import Path

import common
import faultyard
import played
from native import run

HEADER = (common.ROOT / "include/faultyard.h").read_text()
CRATE = common.ROOT / "bindings/rust"
PLAYER = common.ROOT / "tests/bindings/rust"
# The types of the header in Rust.
TYPES = {
    "void": "",
    "uint32_t": "u32",
    "uint64_t": "u64",
    "size_t": "usize",
    "uint32_t *": "*mut u32",
    "uint64_t *": "*mut u64",
    "size_t *": "*mut usize",
    "uint8_t *": "*mut u8",
    "const uint8_t *": "*const u8",
    "fy_seen *": "*mut FySeen",
    "fy_borne *": "*mut FyBorne",
    "fy_reply *": "*mut FyReply",
    "const uint32_t *": "*const u32",
    "fy_order *": "*mut FyOrder",
    "fy_guard": "FyGuard",
    "fy_guard *": "*mut FyGuard",
    "const fy_guard *": "*const FyGuard",
    "fy_check": "FyCheck",
    "fy_check *": "*mut FyCheck",
    "const fy_check *": "*const FyCheck",
}
# Statuses that no error of the crate tells; `accepted` tells REFUSED with its refusal.
UNTOLD = {"Done": 0, "Refused": 3, "Short": 4, "Closed": 19, "Refuted": 22}
# Seeds in which the simulator has to find something.
SEEDS = 60


def source(name):
    return (CRATE / "src" / name).read_text()


def camel(name):
    """A name of the header as Rust writes it."""
    return "".join(word.capitalize() for word in name.split("_"))


def header_numbers(enum):
    """The names and numbers of an enum of the header."""
    body = re.search(rf"^typedef enum {enum} {{(.*?)^}}", HEADER, re.M | re.S)[1]
    found = re.findall(r"^    FY_(\w+) = (\d+),", body, re.M)
    return {camel(name): int(number) for name, number in found}


def numbered(enum):
    """The body of an enum of words.rs."""
    return re.search(rf"^    {enum} {{(.*?)^    }}", source("words.rs"), re.M | re.S)[1]


def argument(text):
    """The name of an argument and its type in Rust."""
    its, name = re.fullmatch(r"(.*?)(\w+)", text.strip()).groups()
    return name, TYPES[its.strip()]


def declared():
    """The header's calls: for each its arguments with their types, and the type of its answer."""
    found = re.findall(r"^(\w+) (fy_\w+)\(([^)]*)\);$", HEADER, re.M)
    return {
        name: ([argument(it) for it in takes.split(",") if it != "void"], TYPES[answer])
        for answer, name, takes in found
    }


class Table(unittest.TestCase):
    """What needs no compiler."""

    def test_each_call_is_declared_so(self):
        there = declared()
        calls = re.findall(r"pub fn (fy_\w+)\(([^)]*)\)(?: -> (\w+))?;", source("sys.rs"))
        self.assertEqual({name for name, _, _ in calls}, set(there))
        for name, takes, answer in calls:
            pairs = [tuple(it.strip().split(": ")) for it in takes.split(",") if it.strip()]
            self.assertEqual((pairs, answer), there[name], name)

    def test_each_number_is_the_headers(self):
        for enum in ("Key", "Kind", "Refusal"):
            found = re.findall(r"^ +(\w+) = (\d+), \"", numbered(enum), re.M)
            wanted = header_numbers(f"fy_{enum.lower()}")
            # What stands for none is no variant.
            numbers = {name: int(number) for name, number in found}
            self.assertEqual(numbers, {name: it for name, it in wanted.items() if it})
        found = re.findall(r"^ +(\w+) = (\d+), \"", numbered("Part"), re.M)
        parts = {f"Part{name}": int(number) for name, number in found}
        self.assertEqual(parts | {"WholeFile": 0}, header_numbers("fy_part"))
        found = re.findall(r"^ +(\d+) => Ok\(Some\(Rule::(\w+)", source("verdict.rs"), re.M)
        rules = {name: int(number) for number, name in found}
        self.assertEqual(rules | {"NoRule": 0}, header_numbers("fy_rule"))

    def test_each_constant_is_the_headers(self):
        wanted = dict(re.findall(r"^#define FY_(\w+) (\w+?)u?(?: +/\*.*)?$", HEADER, re.M))
        wanted["SHORT"] = str(header_numbers("fy_status")["Short"])
        wanted["REFUTED"] = str(header_numbers("fy_status")["Refuted"])
        wanted["EVERYONE"] = str(header_numbers("fy_key")["Everyone"])
        greatest = {"u32::MAX": "UINT32_MAX", "u64::MAX": "UINT64_MAX"}
        found = re.findall(r"^pub const (\w+): \w+ = (.*);$", source("sys.rs"), re.M)
        told = [(name, greatest.get(value, value)) for name, value in found]
        self.assertEqual(told, [(name, wanted[name]) for name, _ in found])
        self.assertEqual(len(found), 20)

    def test_each_field_is_the_headers(self):
        for struct, its, count in (
            ("fy_seen", "FySeen", 4),
            ("fy_borne", "FyBorne", 4),
            ("fy_reply", "FyReply", 10),
            ("fy_order", "FyOrder", 7),
        ):
            body = re.search(rf"^typedef struct {struct} {{(.*?)^}}", HEADER, re.M | re.S)[1]
            fields = re.findall(r"^    (\w+) (\w+)(?:\[FY_(\w+)\])?;", body, re.M)
            wanted = [
                (name, f"[u8; {room}]" if room else TYPES[kind]) for kind, name, room in fields
            ]
            body = re.search(rf"^pub struct {its} {{(.*?)^}}", source("sys.rs"), re.M | re.S)[1]
            self.assertEqual(re.findall(r"^    pub (\w+): (.*),$", body, re.M), wanted)
            self.assertEqual(len(wanted), count)

    def test_each_order_is_the_headers(self):
        found = re.findall(r"^ +(\d+) => Ok\(Order::(\w+) {", source("plan.rs"), re.M)
        orders = {f"Order{name}": int(number) for number, name in found}
        nothing = re.search(r"\(order\.act != (\d+)\)\.then", source("plan.rs"))
        orders["OrderNone"] = int(nothing[1])
        self.assertEqual(orders, header_numbers("fy_order_act"))

    def test_each_plan_is_the_headers(self):
        plans = source("plan.rs").partition("pub enum Plan {")[2].partition("\n}")[0]
        found = re.findall(r"^ +(\w+) = (\d+),$", plans, re.M)
        told = {f"Plan{name}": int(number) for name, number in found}
        self.assertEqual(told, header_numbers("fy_plan"))

    def test_each_status_is_the_headers(self):
        found = re.findall(r"^ +(\d+) => Error::(\w+),$", source("error.rs"), re.M)
        told = {name: int(number) for number, name in found}
        found = re.findall(r"^ +(\d+) => ConfigFault::(\w+)\b.*,$", source("error.rs"), re.M)
        faults = {f"Config{name}": int(number) for number, name in found}
        self.assertEqual(told | faults | UNTOLD, header_numbers("fy_status"))
        first, last = re.search(r" = (\d+)\.\.=(\d+);", source("error.rs")).groups()
        self.assertEqual(list(faults.values()), list(range(int(first), int(last) + 1)))

    def test_the_words_are_those_of_python(self):
        words = re.findall(r"^ +\w+ = \d+, \"(\w+)\";$", source("words.rs"), re.M)
        # Python's kinds have Clog too, which no kill may be of.
        enums = (faultyard.Key, faultyard.Part, faultyard.Refusal)
        others = [it.value for enum in enums for it in enum]
        self.assertEqual(words, common.KINDS + others)
        rule = r"^ +Rule::\w+(?: { \.\. })? => \"(\w+)\",$"
        rules = re.findall(rule, source("verdict.rs"), re.M)
        self.assertEqual(rules, [it.value for it in faultyard.Rule])

    def test_the_version_is_that_of_the_program(self):
        version = re.search(r'^version = "(.*)"$', (CRATE / "Cargo.toml").read_text(), re.M)[1]
        self.assertEqual(version, common.version())


class Cargo(common.Folder, unittest.TestCase):
    """Cargo, without a network, and with one target folder for all tests."""

    target = None

    @classmethod
    def setUpClass(cls):
        if common.LIBRARY is None:
            raise unittest.SkipTest(common.WITHOUT)
        common.need("the binding for Rust", "cargo", "rustc")
        if Cargo.target is None:
            made = tempfile.TemporaryDirectory(prefix="bindings-rust-")
            unittest.addModuleCleanup(made.cleanup)
            Cargo.target = Path(made.name)

    @classmethod
    def cargo(cls, *words, at=CRATE, status=0, locked=True, **more):
        environment = {
            **os.environ,
            "CARGO_TARGET_DIR": str(cls.target),
            "CARGO_TERM_COLOR": "never",
            "FAULTYARD_LIB_DIR": str(Path(common.LIBRARY).parent),
            **more,
        }
        flags = ["--offline", "--locked"] if locked else ["--offline"]
        ran = subprocess.run(
            ["cargo", words[0], *flags, *words[1:]],
            cwd=at,
            env={name: it for name, it in environment.items() if it is not None},
            capture_output=True,
            text=True,
            timeout=600,
        )
        if ran.returncode != status:
            raise AssertionError(f"cargo {' '.join(words)}:\n{ran.stdout}{ran.stderr}")
        return ran


class Crate(Cargo):
    def test_its_own_tests(self):
        ran = self.cargo("test")
        counts = re.findall(r"^test result: ok\. (\d+) passed; 0 failed", ran.stdout, re.M)
        # The unit tests, six files of tests, and the examples of the pages.
        self.assertEqual(sum(int(it) > 0 for it in counts), 8, ran.stdout)
        refused = re.findall(r"^test .* - compile fail \.\.\. ok$", ran.stdout, re.M)
        self.assertEqual(len(refused), 3, ran.stdout)

    def test_its_pages(self):
        self.cargo("doc", "--no-deps", RUSTDOCFLAGS="-D warnings")

    def test_clippy_finds_nothing(self):
        common.need("clippy on the binding for Rust", "cargo-clippy")
        for at in (CRATE, PLAYER):
            self.cargo("clippy", "--all-targets", "--", "-D", "warnings", at=at)

    def test_it_is_formatted(self):
        common.need("the format of the binding for Rust", "cargo-fmt")
        for at in (CRATE, PLAYER):
            subprocess.run(["cargo", "fmt", "--check"], cwd=at, check=True)

    def test_without_a_library_it_says_what_to_set(self):
        with tempfile.TemporaryDirectory() as empty:
            for folder in (empty, None):
                ran = self.cargo("check", status=101, FAULTYARD_LIB_DIR=folder, PKG_CONFIG="false")
                self.assertIn("set FAULTYARD_LIB_DIR to the folder of libfaultyard.a", ran.stderr)


class Page(Cargo):
    def test_a_project_of_its_reader_prints_what_the_page_says(self):
        page = (CRATE / "README.md").read_text()
        example = re.search(r"^```rust,no_run\n(.*?)^```$", page, re.M | re.S)[1]
        shown = r"^```text\n\$ FAULTYARD_LIB_DIR=bin cargo run --quiet\n(.*?)^```$"
        wanted = re.search(shown, page, re.M | re.S)[1]
        depends = re.search(r"^```toml\n(\[dependencies\]\nfaultyard = .*)\n```$", page, re.M)[1]
        manifest = '[package]\nname = "guarded"\nversion = "0.0.0"\nedition = "2021"\n\n' + depends
        manifest = manifest.replace("/usr/share/faultyard/bindings/rust", str(CRATE))
        guide = (common.ROOT / "docs/GUARD.md").read_text()
        two = re.search(r"^```toml\n(.*?)^```$", guide, re.M | re.S)[1]
        Path(self.folder, "src").mkdir()
        for name, text in (("Cargo.toml", manifest), ("src/main.rs", example), ("two.toml", two)):
            common.written(self.folder, name, text)
        self.assertIn(str(CRATE), manifest)
        self.cargo("generate-lockfile", at=self.folder, locked=False)
        ran = self.cargo("run", "--quiet", at=self.folder)
        self.assertEqual((ran.stdout, ran.stderr), (wanted, ""))


class Played(Cargo):
    """Random acts, by the program of tests/bindings/rust."""

    @classmethod
    def setUpClass(cls):
        super().setUpClass()
        cls.cargo("build", at=PLAYER)

    def play(self, mode, config, acts, under=(), **more):
        """The audit of acts, by calls of their own and by their lines."""
        given = "".join(asked(at, by, act) for at, (by, act) in enumerate(acts))
        ran = subprocess.run(
            [*under, self.target / "debug/play", mode, config],
            input=given,
            env={**os.environ, **more},
            capture_output=True,
            text=True,
            timeout=600,
        )
        self.assertEqual((ran.stderr, ran.returncode), ("", 0))
        return ran.stdout

    def same_as_run(self, mode, seed):
        config = common.six_with(self.folder, 10_000)
        acts = list(common.random_acts(seed, 10_000))
        audit = self.play(mode, config, acts)
        self.assertTrue(audit == common.run_script(config, acts), "`run` gives another audit")
        self.assertEqual(faultyard.check(config, audit), 10_000)

    def test_ten_thousand_random_acts_give_the_audit_that_run_gives(self):
        self.same_as_run("alone", 61)

    def test_so_they_do_while_the_guard_moves_between_threads(self):
        self.same_as_run("moved", 62)

    def test_so_do_eight_guards_in_eight_threads(self):
        self.same_as_run("apart", 63)

    def test_a_refused_cluster_file_is_told_by_the_fault_line_of_the_program(self):
        files = common.refused_files(self.folder)
        told = run(self.target / "debug/play", "refused", *files.values()).splitlines()
        self.assertEqual(len(told), len(files))
        for line, error in zip(files, told):
            self.assertTrue(error.startswith(f"{line}: "), (line, error))

    def test_eight_threads_share_a_guard(self):
        config = common.six_with(self.folder, 10_000)
        audit = self.play("shared", config, common.random_acts(64, 10_000))
        self.assertEqual(faultyard.check(config, audit), 10_000)

    def test_valgrind_finds_nothing(self):
        common.need("valgrind on the binding for Rust", "valgrind")
        under = ["valgrind", "--quiet", "--error-exitcode=9", "--leak-check=full"]
        # What std keeps of a thread is told as possibly lost.
        under += ["--show-leak-kinds=definite", "--errors-for-leak-kinds=definite"]
        config = common.six_with(self.folder, 10_000)
        acts = list(common.random_acts(65, 500))
        for mode in ("alone", "moved"):
            self.assertEqual(self.play(mode, config, acts, under), common.run_script(config, acts))

    def test_the_shared_library(self):
        there = Path(self.folder)
        for name in ("libfaultyard.so", "libfaultyard.so.1"):
            os.symlink(common.LIBRARY, there / name)
        self.cargo("build", at=PLAYER, FAULTYARD_LIB_DIR=self.folder)
        try:
            acts = list(common.random_acts(66, 500))
            audit = self.play("moved", common.SIX, acts, LD_LIBRARY_PATH=self.folder)
            self.assertEqual(audit, common.run_script(common.SIX, acts))
        finally:
            self.cargo("build", at=PLAYER)


def asked(at, by, act):
    """A line for the player: every other act is made by the binding's call for it."""
    return played.typed(by, act) if at % 2 == 0 else json.dumps({"by": by, "act": act}) + "\n"


class Simulator(Cargo):
    """The replicated log of examples/, over a few seeds."""

    @classmethod
    def setUpClass(cls):
        super().setUpClass()
        cls.cargo("build", "--release", "--example", "replicated_log")

    def simulate(self, *words, status):
        command = [self.target / "release/examples/replicated_log", "--seeds", str(SEEDS), *words]
        ran = subprocess.run(command, capture_output=True, text=True, timeout=600)
        self.assertEqual(ran.returncode, status, ran.stdout + ran.stderr)
        return ran.stdout

    def lost(self, told):
        """In how many seeds acknowledged writes were lost."""
        return int(re.search(r"^lost acknowledged writes: (\d+) seeds", told, re.M)[1])

    def test_guarded_no_acknowledged_write_is_lost(self):
        told = self.simulate(status=0)
        self.assertEqual(self.lost(told), 0)
        self.assertRegex(told, r"\n[1-9]\d{3,} writes acknowledged, 0 lost\n")
        self.assertRegex(told, r"\n\d+ kills ordered, [1-9]\d* lessened\n")

    def test_unguarded_some_are(self):
        self.assertGreater(self.lost(self.simulate("--unguarded", status=1)), SEEDS // 4)

    def test_planted_faults_are_found_under_the_guard(self):
        for bug in ("vote-blank", "ack-unsynced", "heal-early"):
            with self.subTest(bug):
                self.assertGreater(self.lost(self.simulate("--bug", bug, status=1)), 0)

    def test_a_seed_is_a_run(self):
        one, four = (self.simulate("--threads", it, status=0) for it in ("1", "4"))
        self.assertEqual(one, four)
        other = self.simulate("--first", "1001", status=0)
        self.assertNotEqual(one.splitlines()[-1], other.splitlines()[-1])

    def test_check_confirms_its_audit(self):
        audit = Path(self.folder, "audit")
        self.simulate("--audit", audit, status=0)
        config = CRATE / "examples/replicated_log/cluster.toml"
        self.assertGreater(faultyard.check(config, audit.read_text()), 40)

    def test_its_command_line(self):
        for words in (["--seeds", "0"], ["--bug", "none"], ["--first"], ["more"]):
            self.assertEqual(self.simulate(*words, status=2), "")
