"""The doors of other languages: programs that are given lines of acts and questions, behind the
path of each cluster file, and write what each is answered. Over the pipe is Java; the others are
linked with the library."""

from __future__ import annotations

import json
import os
import unittest
from collections.abc import Callable
from pathlib import Path

import common
import test_cpp
import test_go
import test_java
import test_rust
from native import run

# What a door answers to lines.
Door = Callable[[str], str]
# No act of Java has a larger number.
LARGEST = "4294967295", "2147483647"


def asking(*command: object, **more: object) -> Door:
    return lambda given: run(*command, given=given, **more)


def cpp(folder: Path) -> Door:
    common.need("the header in C++", "c++")
    program, source = folder / "asked-cpp", test_cpp.SOURCES / "asked.cpp"
    archive = Path(common.LIBRARY).with_name("libfaultyard.a")
    run(test_cpp.CXX, *test_cpp.STRICT, *test_cpp.INCLUDE, source, archive, "-o", program)
    return asking(program)


def go(folder: Path) -> Door:
    test_go.setUpModule()
    test_go.go("build", "-o", folder / "asked-go", "./asked")
    return asking(folder / "asked-go", env=test_go.ENVIRONMENT)


def rust(folder: Path) -> Door:
    common.need("the binding for Rust", "cargo")
    words = ["build", "--quiet", "--offline", "--target-dir", folder / "target"]
    env = {**os.environ, "FAULTYARD_LIB_DIR": str(Path(common.LIBRARY).parent)}
    run("cargo", *words, cwd=test_rust.PLAYER, env=env)
    return asking(folder / "target/debug/play", "asked")


def java(folder: Path) -> Door:
    common.need("the binding for Java", "javac")
    run(*test_java.COMPILE, "-d", folder, *test_java.SOURCES)
    words = ["java", "-cp", folder, "GuardTest", "asked", common.PROGRAM]
    return lambda given: run(*words, given="".join(map(for_java, given.splitlines())))


def for_java(line: str) -> str:
    """A line as its program reads it, which has no JSON: an act by its words."""
    if not line.startswith('{"by"'):
        return f"{line}\n"
    act = json.loads(line.replace(*LARGEST))
    return str(test_java.flat(act["by"], act["act"]))


def in_java(answers: str) -> str:
    return answers.replace(*LARGEST)


def as_told(answers: str) -> str:
    return answers


# Each door: whether it needs the library, how it is built, and how its answers are told.
DOORS = {
    "C++": (True, cpp, as_told),
    "Go": (True, go, as_told),
    "Rust": (True, rust, as_told),
    "Java": (False, java, in_java),
}


def first_difference(told: str, wanted: str) -> str:
    """Where two texts part, or nothing."""
    if told == wanted:
        return ""
    pairs = zip(told.splitlines(), wanted.splitlines())
    parted = ((at, one, other) for at, (one, other) in enumerate(pairs, 1) if one != other)
    at, one, other = next(parted, (0, f"{told.count(chr(10))}", f"{wanted.count(chr(10))} answers"))
    return f"answer {at}: {one}, not {other}"


def failures(folder: Path, given: str, wanted: str) -> dict[str, str]:
    """Of each door that the machine has, what is wrong with its answers, or nothing."""
    found = {}
    for name, (needs_library, build, spelled) in DOORS.items():
        if needs_library and not common.LIBRARY:
            continue
        try:
            told = build(folder)(given)
        except unittest.SkipTest as lacks:
            print(lacks)
            continue
        except AssertionError as wrong:
            found[name] = str(wrong)
            continue
        found[name] = first_difference(told, spelled(wanted))
    unittest.doModuleCleanups()
    return found
