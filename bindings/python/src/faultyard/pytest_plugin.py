"""A guard for each test, whose audit `faultyard check` confirms at the test's end.

pytest finds this plugin by itself once the package is installed. A project names its cluster file
in its settings, as `faultyard_cluster = two.toml` below `[pytest]`, or has a fixture of its own
with the name `faultyard_cluster`.
"""

from __future__ import annotations

from pathlib import Path
from typing import Any, Iterator

import pytest

from .errors import AuditRefused, FaultyardError
from .guard import Guard
from .programs import check


def pytest_addoption(parser: Any) -> None:
    """Declares the settings."""
    parser.addini("faultyard_cluster", "the cluster file of the fixture faultyard_guard", "string")


@pytest.fixture
def faultyard_cluster(request: Any) -> Path:
    """The path of the cluster file, from the setting; override it for another one."""
    named = request.config.getini("faultyard_cluster")
    if not named:
        pytest.fail("set faultyard_cluster in pytest's settings, or write a fixture of this name")
    return Path(request.config.rootpath, named)


@pytest.fixture
def faultyard_guard(faultyard_cluster: Path, tmp_path: Path) -> Iterator[Guard]:
    """A guard of its own for each test, by the program of FAULTYARD or PATH.

    At the end its audit stands in `tmp_path / "faultyard.audit"`, and `faultyard check` has to
    confirm it.
    """
    guard = Guard(faultyard_cluster)
    try:
        yield guard
    finally:
        fault = ""
        try:
            guard.close()
        except FaultyardError as ended:
            fault = str(ended)
        audit = tmp_path / "faultyard.audit"
        audit.write_text(guard.audit())
    try:
        check(faultyard_cluster, guard.audit())
    except AuditRefused as refused:
        fault = f"faultyard check: {refused}"
    if fault:
        pytest.fail(f"{fault}; the audit stands in {audit}", pytrace=False)
