"""What the tests of bindings on the library share: those for C++, Go and Python by ctypes."""

import os
import subprocess
from pathlib import Path

import common
from test_package import blocks, two


def run(*command, given="", **more):
    """What a command writes; it has to end with status 0 and to write nothing to standard error."""
    words = [str(word) for word in command]
    ran = subprocess.run(words, input=given, capture_output=True, text=True, timeout=900, **more)
    if (ran.returncode, ran.stderr) != (0, ""):
        raise AssertionError(f"{words} ended with {ran.returncode}: {ran.stdout}{ran.stderr}")
    return ran.stdout


def poor_library(library, *flags):
    """Builds the library of tests/bindings/go/poor_library, which has hardly any memory."""
    source = common.ROOT / "tests/bindings/go/poor_library/poor.c"
    command = [os.environ.get("CC", "cc"), "-Wall", "-Werror", "-shared", "-fPIC", *flags]
    command += [f"-Wl,--version-script={common.ROOT}/release/libfaultyard.map", "-pthread"]
    run(*command, f"-I{common.ROOT}/include", "-o", library, source)


def installed(folder):
    """Variables by which pkg-config and the loader find what `make install` puts into place."""
    prefix = Path(folder, "prefix")
    prefix.mkdir()
    Path(prefix, "include").symlink_to(common.ROOT / "include")
    Path(prefix, "lib").symlink_to(Path(common.LIBRARY or "/none").parent)
    text = (common.ROOT / "include/faultyard.pc.in").read_text()
    text = text.replace("@PREFIX@", str(prefix)).replace("@VERSION@", "2.0.0")
    common.written(prefix, "faultyard.pc", text)
    return {**os.environ, "PKG_CONFIG_PATH": str(prefix), "LD_LIBRARY_PATH": f"{prefix}/lib"}


def example(folder, page, language):
    """Puts the example of a page into a folder; its command, and what the page says it prints."""
    found = blocks(page)
    at = [language for language, _ in found].index(language)
    command, _, wanted = found[at + 1][1].partition("\n")
    two(folder)
    common.written(folder, f"guarded.{language}", found[at][1])
    assert command.startswith("$ "), command
    return command[2:], wanted
