"""The package as its users meet it: installed without a network, the examples of its page, the
pytest fixture."""

import os
import re
import subprocess
import sys
import tempfile
import unittest
from pathlib import Path

import common

PACKAGE = common.ROOT / "bindings/python"
# Whatever the user's settings are, and without an index to fetch anything from.
PIP = ["pip3", "install", "--quiet", "--isolated", "--no-index", "--disable-pip-version-check"]
PIP += ["--root-user-action", "ignore"]


def blocks(page):
    """The blocks of a page with their languages."""
    return re.findall(r"^```(\w*)\n(.*?)^```$", page.read_text(), re.M | re.S)


def two(folder):
    """The cluster file of docs/GUARD.md."""
    return common.written(folder, "two.toml", dict(blocks(common.ROOT / "docs/GUARD.md"))["toml"])


class TypesTest(unittest.TestCase):
    def test_mypy_finds_nothing(self):
        common.need("the types of the Python package", "mypy")
        words = [
            "mypy",
            "--strict",
            "--cache-dir=/dev/null",
            "src/faultyard",
            "src/faultyard_hooks",
        ]
        ran = subprocess.run(words, cwd=PACKAGE, capture_output=True, text=True)
        self.assertEqual(ran.returncode, 0, ran.stdout + ran.stderr)

    def test_mypy_finds_nothing_in_the_tools(self):
        common.need("the types of the tools", "mypy")
        words = [
            "mypy",
            "--strict",
            "--cache-dir=/dev/null",
            "keeper.py",
            "nemesis",
        ]
        env = os.environ | {"MYPYPATH": str(PACKAGE / "src")}
        tools = common.ROOT / "tools"
        ran = subprocess.run(words, cwd=tools, env=env, capture_output=True, text=True)
        self.assertEqual(ran.returncode, 0, ran.stdout + ran.stderr)


class PageTest(common.Folder, unittest.TestCase):
    def shown(self, page):
        """The first example of a page, and what it prints."""
        (at,) = [
            at
            for at, (_, text) in enumerate(blocks(page))
            if text.startswith("$ ") and "guarded" in text.lower()
        ]
        command, _, wanted = blocks(page)[at][1].partition("\n")
        return blocks(page)[at - 1][1], command, wanted

    def test_the_example_prints_what_the_page_says(self):
        example, command, wanted = self.shown(PACKAGE / "README.md")
        self.assertEqual(command, "$ python3 guarded.py")
        two(self.folder)
        common.written(self.folder, "guarded.py", example)
        ran = subprocess.run(
            [sys.executable, "guarded.py"],
            cwd=self.folder,
            capture_output=True,
            text=True,
            timeout=60,
        )
        self.assertEqual((ran.stdout, ran.stderr, ran.returncode), (wanted, "", 0))

    def test_the_example_for_java_prints_what_its_page_says(self):
        common.need("the example for Java", "javac")
        example, command, wanted = self.shown(common.ROOT / "bindings/java/README.md")
        self.assertEqual(command, "$ javac Guard.java Guarded.java && java Guarded")
        two(self.folder)
        common.written(self.folder, "Guarded.java", example)
        common.written(
            self.folder, "Guard.java", (common.ROOT / "bindings/java/Guard.java").read_text()
        )
        words = "javac Guard.java Guarded.java && java Guarded"
        ran = subprocess.run(
            words, shell=True, cwd=self.folder, capture_output=True, text=True, timeout=120
        )
        self.assertEqual((ran.stdout, ran.stderr, ran.returncode), (wanted, "", 0))


class Installed(common.Folder, unittest.TestCase):
    """What pip makes of the package, without an index and without setuptools."""

    @classmethod
    def setUpClass(cls):
        common.need("the install of the Python package", "pip3")
        made = tempfile.TemporaryDirectory(prefix="bindings-installed-")
        cls.addClassCleanup(made.cleanup)
        cls.site = Path(made.name)
        cls.install(cls.site)

    @staticmethod
    def install(target, *words):
        inherited = {name: value for name, value in os.environ.items() if name != "PYTHONPATH"}
        command = [*PIP, "--target", str(target), *words, str(PACKAGE)]
        subprocess.run(command, env=inherited, check=True, timeout=300)

    def ran(self, words, site=None, **more):
        environment = {**os.environ, "PYTHONPATH": str(site or self.site), **more}
        return subprocess.run(
            words, cwd=self.folder, env=environment, capture_output=True, text=True, timeout=120
        )

    def test_the_wheel_has_each_source_and_the_version_of_the_program(self):
        sources = {path.name for path in (PACKAGE / "src/faultyard").iterdir() if path.is_file()}
        self.assertIn("py.typed", sources)
        there = {path.name for path in (self.site / "faultyard").iterdir() if path.is_file()}
        self.assertEqual(there, sources)
        version = subprocess.run(
            [common.ROOT / "release/version"], capture_output=True, text=True, check=True
        )
        text = "from importlib.metadata import version; print(version('faultyard'), end='\\n')"
        self.assertEqual(self.ran([sys.executable, "-c", text]).stdout, version.stdout)

    def test_it_installs_without_build_isolation_too(self):
        site = Path(self.folder, "site")
        self.install(site, "--no-build-isolation")
        ran = self.ran([sys.executable, "-c", "import faultyard; print(faultyard.__file__)"], site)
        self.assertEqual(ran.stdout.strip(), str(site / "faultyard/__init__.py"))

    def test_two_builds_give_the_same_bytes(self):
        text = "import faultyard_build as it, sys; print(it.build_wheel(sys.argv[1]))"
        wheels = []
        for name in ("a", "b"):
            folder = Path(self.folder, name)
            folder.mkdir()
            ran = self.ran([sys.executable, "-c", text, folder], PACKAGE / "build_backend")
            wheels.append((folder / ran.stdout.strip()).read_bytes())
        self.assertEqual(*wheels)

    def test_the_source_archive_builds_the_package(self):
        text = "import faultyard_build as it, sys; print(it.build_sdist(sys.argv[1]))"
        ran = self.ran([sys.executable, "-c", text, self.folder], PACKAGE / "build_backend")
        site = Path(self.folder, "site")
        command = [*PIP, "--target", site, Path(self.folder, ran.stdout.strip())]
        self.assertEqual(self.ran(command).returncode, 0)
        self.assertTrue((site / "faultyard/pytest_plugin.py").exists())

    def pytest(self, text, ini="[pytest]\nfaultyard_cluster = two.toml\n", **more):
        """What pytest says of a test file, where only the installed package tells it of the
        fixture."""
        common.need("the pytest fixture", "pytest-3")
        two(self.folder)
        common.written(self.folder, "pytest.ini", ini)
        common.written(self.folder, "test_it.py", text)
        return self.ran(
            ["pytest-3", "-q", "-p", "no:cacheprovider", "--basetemp", f"{self.folder}/base"],
            **more,
        )

    def test_the_example_of_the_fixture_passes(self):
        (ini,) = [text for language, text in blocks(PACKAGE / "README.md") if language == "ini"]
        example = blocks(PACKAGE / "README.md")[-1][1]
        ran = self.pytest(example, ini)
        self.assertEqual(ran.returncode, 0, ran.stdout + ran.stderr)
        self.assertIn("1 passed", ran.stdout)
        (audit,) = Path(self.folder, "base").glob("test_a_kill0/faultyard.audit")
        self.assertEqual(len(audit.read_text().splitlines()), 2)

    def test_each_test_has_a_guard_of_its_own(self):
        text = "def test_{}(faultyard_guard):\n    assert faultyard_guard.tick(5, by=0) == 5\n"
        ran = self.pytest(text.format("one") + text.format("two"))
        self.assertIn("2 passed", ran.stdout)

    def test_a_failing_test_fails_alone_and_leaves_its_audit(self):
        ran = self.pytest(
            "def test_it(faultyard_guard):\n    faultyard_guard.tick(1, by=0)\n    assert False\n"
        )
        self.assertIn("1 failed in", ran.stdout)
        (audit,) = Path(self.folder, "base").glob("test_it0/faultyard.audit")
        self.assertEqual(len(audit.read_text().splitlines()), 2)

    def test_an_audit_that_check_does_not_confirm_fails_the_test(self):
        liar = common.written(
            self.folder,
            "liar",
            "#!/bin/sh\n"
            '[ "$1" = check ] && exec ' + common.PROGRAM + ' "$@"\n'
            "echo '{\"audit\":2}'\nread line\n"
            'echo \'{"act":{"tick":{"ticks":1}},"at":0,"by":0,"reply":{"time":2}}\'\n'
            "read line || exit 0\n",
        )
        liar.chmod(0o755)
        ran = self.pytest(
            "def test_it(faultyard_guard):\n    faultyard_guard.tick(1, by=0)\n",
            FAULTYARD=str(liar),
        )
        self.assertIn("1 passed, 1 error", ran.stdout)
        self.assertIn("faultyard check: bad entry 0", ran.stdout)

    def test_a_guard_that_died_fails_the_test(self):
        text = (
            "import os, signal\ndef test_it(faultyard_guard):\n"
            "    os.kill(faultyard_guard._transport._process.pid, signal.SIGKILL)\n"
        )
        ran = self.pytest(text)
        self.assertIn("1 passed, 1 error", ran.stdout)
        self.assertIn("status -9", ran.stdout)

    def test_without_a_cluster_file_the_fixture_says_what_to_set(self):
        ran = self.pytest("def test_it(faultyard_guard):\n    pass\n", "[pytest]\n")
        self.assertIn("set faultyard_cluster in pytest's settings", ran.stdout)

    def test_a_fixture_of_the_project_names_another_cluster_file(self):
        text = (
            "import pytest\n@pytest.fixture\ndef faultyard_cluster():\n    return 'six.toml'\n"
            "def test_it(faultyard_guard):\n"
            "    form = {'form': {'members': [5], 'policy': 0}}\n"
            "    assert len(faultyard_guard.act(0, form).act) == 1\n"
            "    assert faultyard_guard.act(0, {'sync': {'process': 5}}).reply.count == 0\n"
        )
        common.written(self.folder, "six.toml", common.SIX.read_text())
        self.assertIn("1 passed", self.pytest(text, "[pytest]\n").stdout)
