"""The binding for C++: its header, and the programs of tests/bindings/cpp."""

import os
import re
import tempfile
import unittest
from pathlib import Path

import common
import faultyard
import played
from native import example, installed, run

HEADER = common.ROOT / "include/faultyard.hpp"
C_HEADER = common.ROOT / "include/faultyard.h"
SOURCES = common.ROOT / "tests/bindings/cpp"
PAGE = common.ROOT / "bindings/cpp/README.md"
CXX = os.environ.get("CXX", "c++")
INCLUDE = [f"-I{common.ROOT}/include", f"-I{common.ROOT}/tests/c"]
STRICT = ["-std=c++17", "-Wall", "-Wextra", "-Werror", "-pedantic"]
SANITIZED = ["-O1", "-g", "-fsanitize=address,undefined", "-fno-sanitize-recover=all"]
# cases.cpp refuses memory to the library.
WRAPPED = ["-Wl,--wrap=malloc,--wrap=realloc"]


def words(rows):
    """The first text of each row of a table of the header."""
    body = re.search(rf"{rows}\[\] = {{(.*?)^}};", HEADER.read_text(), re.M | re.S)[1]
    return re.findall(r'{"(\w*)"' if "{" in body else r'"(\w*)"', body)


class Header(unittest.TestCase):
    def test_each_compiler_takes_it_without_a_warning(self):
        for program, compiler in (("c++", CXX), ("clang++", "clang++")):
            common.need("the header in C++", program)
            for source in sorted(SOURCES.glob("*.cpp")):
                run(compiler, *STRICT, *INCLUDE, "-fsyntax-only", source)

    def test_it_stands_alone_and_twice(self):
        common.need("the header in C++", "c++")
        text = "#include <faultyard.hpp>\n#include <faultyard.hpp>\nint main() {}\n"
        more = ["-Wshadow", "-Wconversion", "-fsyntax-only", "-x", "c++", "-"]
        run(CXX, *STRICT, *INCLUDE, *more, given=text)

    def test_each_value_is_the_c_headers(self):
        text, declared = HEADER.read_text(), C_HEADER.read_text()
        none = {"Kind": "FY_NONE", "Rule": "FY_NO_RULE", "Refusal": "FY_NOT_REFUSED"}
        none["Key"] = "FY_EVERYONE"
        none["Part"] = "FY_WHOLE_FILE"
        for enum in ("Key", "Kind", "Rule", "Refusal", "Part", "Status"):
            body = re.search(rf"enum class {enum} : .*?{{(.*?)^}};", text, re.M | re.S)[1]
            values = re.findall(r"^    (\w+) = (FY_\w+),", body, re.M)
            there = re.search(rf"typedef enum fy_{enum.lower()} {{(.*?)}}", declared, re.S)[1]
            names = re.findall(r"^    (FY_\w+) = \d+,", there, re.M)
            wanted = [name for name in names if name != none.get(enum)]
            self.assertEqual([constant for _, constant in values], wanted)
            for name, constant in values:
                spelled = re.sub(r"(?<=.)([A-Z])", r"_\1", name).upper()
                self.assertEqual(f"FY_{'PART_' * (enum == 'Part')}{spelled}", constant)

    def test_each_kind_of_a_set_is_the_c_headers(self):
        body = re.search(r"enum class Kinds : .*?{(.*?)^};", HEADER.read_text(), re.M | re.S)[1]
        found = re.findall(r"^    (\w+) = (FY_\w+),", body, re.M)
        wanted = re.findall(r"^#define (FY_KINDS_\w+) \d+u\b", C_HEADER.read_text(), re.M)
        self.assertEqual([constant for _, constant in found], wanted)
        for name, constant in found:
            spelled = re.sub(r"(?<=.)([A-Z])", r"_\1", name).upper()
            self.assertEqual(f"FY_KINDS_{spelled}", constant)

    def test_each_call_is_made(self):
        declared = re.findall(r"^\w+ fy_(\w+)\(", C_HEADER.read_text(), re.M)
        made = re.findall(r"\bfy_(?:guard_)?(\w+)", HEADER.read_text())
        self.assertEqual([call for call in declared if call not in made], [])
        self.assertIn("config_fault", declared)

    def test_each_word_is_that_of_audits_and_fault_lines(self):
        enums = (faultyard.Key, faultyard.Kind, faultyard.Rule, faultyard.Refusal, faultyard.Part)
        for enum in enums:
            wanted = [it.value for it in enum if it is not faultyard.Kind.CLOG]
            self.assertEqual(words(f"{enum.__name__.upper()}S"), ["", *wanted])
        body = re.search(r"enum class Status : .*?{(.*?)^};", HEADER.read_text(), re.M | re.S)[1]
        self.assertEqual(words("STATUSES"), re.findall(r"^    (\w+) = FY_", body, re.M))


@unittest.skipUnless(common.LIBRARY, common.WITHOUT)
class Cpp(common.Folder, unittest.TestCase):
    """The programs are linked with the archive beside the library, under sanitizers."""

    @classmethod
    def setUpClass(cls):
        common.need("the binding for C++", "c++")
        made = tempfile.TemporaryDirectory(prefix="bindings-cpp-")
        cls.addClassCleanup(made.cleanup)
        cls.programs = Path(made.name)
        archive = Path(common.LIBRARY).with_suffix(".a")
        for name, more in (("cases", WRAPPED), ("play", []), ("refused", [])):
            command = [CXX, *STRICT, *SANITIZED, *more, *INCLUDE, SOURCES / f"{name}.cpp"]
            run(*command, archive, "-pthread", "-o", cls.programs / name)

    def test_each_call_and_each_error(self):
        self.assertRegex(run(self.programs / "cases"), r"\Acases: \d+ checks\n\Z")

    def test_a_refused_cluster_file_is_told_by_the_fault_line_of_the_program(self):
        files = common.refused_files(self.folder)
        told = run(self.programs / "refused", *files.values()).splitlines()
        self.assertEqual(len(told), len(files))
        for line, error in zip(files, told):
            self.assertTrue(error.startswith(f"{line}: "), (line, error))

    def test_ten_thousand_random_acts_give_the_audit_that_run_gives(self):
        config = common.six_with(self.folder, 10_000)
        acts = list(common.random_acts(53, 10_000))
        audit = Path(self.folder, "audit")
        told = run(self.programs / "play", config, audit, given=played.lines(acts))
        wanted = common.run_script(config, acts)
        self.assertTrue(audit.read_text() == wanted, "another audit")
        self.assertEqual(faultyard.check(config, audit.read_text()), 10_000)
        played.compare(self, told, played.answers(config, acts, wanted))

    def test_the_example_of_its_page_prints_what_the_page_says(self):
        common.need("the example for C++", "pkg-config")
        environment = installed(self.folder)
        command, wanted = example(self.folder, PAGE, "cpp")
        self.assertTrue(command.startswith("c++ "))
        self.assertEqual(run("bash", "-c", command, cwd=self.folder, env=environment), wanted)
