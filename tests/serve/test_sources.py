"""The sources of the server, and the tests of its packages."""

import functools
import re
import unittest

from common_serve import LIBRARY, RACE, ROOT, SOURCE, built, go_environment, run, workshop

# The header of the library is enough for what isn't linked.
HEADER = f"""Name: faultyard
Description: its header
Version: 0
Cflags: -I{ROOT / "include"}
"""


@functools.cache
def unlinked():
    folder = workshop() / "header"
    folder.mkdir()
    (folder / "faultyard.pc").write_text(HEADER)
    return {**go_environment(), "PKG_CONFIG_PATH": str(folder)}


def go(*words):
    ran = run("go", *words, cwd=SOURCE, env=unlinked())
    if ran.returncode:
        raise AssertionError(ran.stdout + ran.stderr)
    return ran.stdout


class Sources(unittest.TestCase):
    def test_gofmt_and_vet_find_nothing(self):
        self.assertEqual(run("gofmt", "-l", SOURCE).stdout, "")
        go("vet", "./...")

    def test_staticcheck_finds_nothing(self):
        lacks = run(ROOT / "tests/tools/needs", "the flaws of the server's Go", "go-staticcheck")
        if lacks.returncode == 1:
            self.skipTest(lacks.stdout.strip())
        lacks.check_returncode()
        told = run("go-staticcheck", "./...", cwd=SOURCE, env=unlinked())
        self.assertEqual((told.returncode, told.stdout + told.stderr), (0, ""))

    def test_the_packages_under_the_race_detector(self):
        told = go("test", "-race", "-count=1", "-timeout=1h", "-v", "./internal/...")
        tests = "".join(it.read_text() for it in SOURCE.glob("internal/*/*_test.go"))
        wanted = re.findall(r"^func (Test\w+)\(", tests, re.M)
        self.assertEqual(sorted(re.findall(r"^--- PASS: (\w+) ", told, re.M)), sorted(wanted))

    def test_nothing_but_the_standard_library_and_the_binding_is_used(self):
        told = (SOURCE / "go.mod").read_text()
        self.assertEqual(re.findall(r"^require (.*)$", told, re.M), ["faultyard v0.0.0"])
        self.assertFalse((SOURCE / "go.sum").exists())

    @unittest.skipIf(RACE, "what is built with the race detector isn't what is shipped")
    def test_it_is_one_static_binary_that_is_built_to_the_same_bytes(self):
        first = built()
        self.assertEqual(run("ldd", first).returncode, 1)
        again = first.with_name("again")
        ran = run(SOURCE / "build", LIBRARY, again, env=go_environment())
        self.assertEqual((ran.returncode, ran.stderr), (0, ""))
        self.assertTrue(first.read_bytes() == again.read_bytes(), "other bytes")
