"""Finds the program, and has it check or draw an audit, or say what may be lost after one."""

from __future__ import annotations

import json
import os
import re
import shutil
import subprocess
from typing import Optional, Sequence, Union

from .errors import AuditRefused, NotFound
from .told import Borne, borne

StrPath = Union[str, "os.PathLike[str]"]


def find_program(program: Optional[StrPath] = None) -> str:
    """The path of `faultyard`: the argument, else FAULTYARD, else the one on PATH."""
    named = os.fspath(program) if program is not None else os.environ.get("FAULTYARD")
    found = shutil.which(named or "faultyard")
    if found is None:
        where = f"{named!r} is no program" if named else "there is no program faultyard on PATH"
        raise NotFound(f"{where}: set FAULTYARD to its path, or give `program` in Python")
    return os.path.abspath(found)


def check(config: StrPath, audit: str, program: Optional[StrPath] = None) -> int:
    """Has `faultyard check` confirm an audit; how many entries it has, or `AuditRefused`."""
    told = _told("check", config, audit, program)
    if not told.startswith("legal "):
        raise AuditRefused(told, 0)
    return int(told[len("legal ") :])


def show(
    config: StrPath,
    audit: str,
    program: Optional[StrPath] = None,
    *,
    beyond: Optional[int] = None,
    times: Optional[StrPath] = None,
) -> str:
    """Has `faultyard show` draw an audit; the picture as SVG, or `AuditRefused`.

    `beyond` is the entry of an order that was done though the guard said less: it is drawn in red.
    `times` is a file of events, as a harness writes it: the picture is drawn by their times.
    """
    given = [] if times is None else ["--times", os.fspath(times)]
    picture = _told("show", config, audit, program, given)
    if beyond is None:
        return picture
    entry = re.compile(rf'class="(order [a-z]+|otherwise)" data-entry="{beyond}"')
    style = (
        ".order.beyond { stroke: #d00000; stroke-width: 4; }\n"
        ".otherwise.beyond { fill: #d00000; }\n</style>"
    )
    red = entry.sub(rf'class="\1 beyond" data-entry="{beyond}"', picture)
    return red.replace("</style>", style, 1)


def bears(config: StrPath, audit: str, program: Optional[StrPath] = None) -> Borne:
    """Has `faultyard bears` say how much may still be lost after an audit, or `AuditRefused`."""
    told = _told("bears", config, audit, program, ["--after", "/dev/stdin", "--json"])
    return borne(json.loads(told))


def _told(
    command: str,
    config: StrPath,
    text: str,
    program: Optional[StrPath],
    given: Sequence[str] = (),
) -> str:
    words = [find_program(program), command, os.fspath(config), *given]
    ran = subprocess.run(words, input=text.encode(), capture_output=True, check=False)
    told = (ran.stdout or ran.stderr).decode(errors="replace").strip()
    if ran.returncode != 0:
        raise AuditRefused(told, ran.returncode)
    return told
