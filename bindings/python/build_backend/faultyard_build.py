"""Builds the package's wheel and source archive, as PEP 517 asks, with the standard library alone.

`pip install ./bindings/python` calls it. It reads the few lines of pyproject.toml that it needs by
their spelling, since Python has a reader of TOML only from 3.11 on.
"""

import base64
import hashlib
import io
import re
import tarfile
import zipfile
from pathlib import Path
from typing import Any, Dict, List, Optional, Tuple

HERE = Path(__file__).resolve().parent.parent
# The least time that an archive can hold, so that two builds of one text are the same bytes.
BEGINNING = (1980, 1, 1, 0, 0, 0)
WHEEL = "Wheel-Version: 1.0\nGenerator: faultyard_build\nRoot-Is-Purelib: true\nTag: py3-none-any\n"

Files = List[Tuple[str, bytes]]


def _table(name: str) -> Dict[str, str]:
    """The texts of a table of pyproject.toml, each on a line of its own."""
    text = (HERE / "pyproject.toml").read_text(encoding="utf-8")
    found = re.search(rf"^\[{re.escape(name)}\]\n((?:[^\[\n].*\n|\n)*)", text, re.M)
    if found is None:
        raise ValueError(f"pyproject.toml has no table {name}")
    return dict(re.findall(r'^([\w-]+) = "(.*)"$', found[1], re.M))


def _metadata() -> str:
    project = _table("project")
    return (
        "Metadata-Version: 2.1\n"
        f"Name: {project['name']}\n"
        f"Version: {project['version']}\n"
        f"Summary: {project['description']}\n"
        f"Requires-Python: {project['requires-python']}\n"
        "Description-Content-Type: text/markdown\n\n"
        + (HERE / project["readme"]).read_text(encoding="utf-8")
    )


def _full_name() -> str:
    project = _table("project")
    return f"{project['name']}-{project['version']}"


def _sources() -> Files:
    below = sorted(path for path in (HERE / "src").rglob("*") if path.suffix in (".py", ".typed"))
    return [(path.relative_to(HERE / "src").as_posix(), path.read_bytes()) for path in below]


def _write_wheel(folder: str, content: Files) -> str:
    full = _full_name()
    plugins = _table("project.entry-points.pytest11")
    points = "[pytest11]\n" + "".join(f"{name} = {at}\n" for name, at in plugins.items())
    files = content + [
        (f"{full}.dist-info/METADATA", _metadata().encode()),
        (f"{full}.dist-info/WHEEL", WHEEL.encode()),
        (f"{full}.dist-info/entry_points.txt", points.encode()),
    ]
    record = ""
    for name, data in files:
        digest = base64.urlsafe_b64encode(hashlib.sha256(data).digest()).rstrip(b"=").decode()
        record += f"{name},sha256={digest},{len(data)}\n"
    record += f"{full}.dist-info/RECORD,,\n"
    wheel = f"{full}-py3-none-any.whl"
    with zipfile.ZipFile(Path(folder, wheel), "w", zipfile.ZIP_DEFLATED) as archive:
        for name, data in files + [(f"{full}.dist-info/RECORD", record.encode())]:
            entry = zipfile.ZipInfo(name, BEGINNING)
            entry.external_attr = 0o644 << 16
            archive.writestr(entry, data, zipfile.ZIP_DEFLATED)
    return wheel


def build_wheel(
    wheel_directory: str,
    config_settings: Optional[Dict[str, Any]] = None,
    metadata_directory: Optional[str] = None,
) -> str:
    """Writes the wheel, and answers its name."""
    return _write_wheel(wheel_directory, _sources())


def build_editable(
    wheel_directory: str,
    config_settings: Optional[Dict[str, Any]] = None,
    metadata_directory: Optional[str] = None,
) -> str:
    """Writes a wheel that leads to the sources, for `pip install -e`."""
    return _write_wheel(wheel_directory, [("faultyard.pth", f"{HERE / 'src'}\n".encode())])


def build_sdist(sdist_directory: str, config_settings: Optional[Dict[str, Any]] = None) -> str:
    """Writes the source archive, and answers its name."""
    full = _full_name()
    kept = [HERE / "pyproject.toml", HERE / "README.md", Path(__file__).resolve()]
    files = [(path.relative_to(HERE).as_posix(), path.read_bytes()) for path in kept]
    files += [(f"src/{name}", data) for name, data in _sources()]
    files.append(("PKG-INFO", _metadata().encode()))
    with tarfile.open(Path(sdist_directory, f"{full}.tar.gz"), "w:gz") as archive:
        for name, data in files:
            entry = tarfile.TarInfo(f"{full}/{name}")
            entry.size = len(data)
            archive.addfile(entry, io.BytesIO(data))
    return f"{full}.tar.gz"
