"""Where each process is reached, if its place isn't this tool's to choose."""
import subprocess
from argparse import ArgumentTypeError
from collections.abc import Sequence
from pathlib import Path
from typing import NamedTuple

from faultyard_hooks import driver

from . import USAGE, Fault

BASE = 20000  # the first port of process 0, where none is given
PORTS = 4  # of each process, in a row


class Place(NamedTuple):
    """The host of a process, and the first of its ports if that is given."""

    host: str
    port: int | None = None


def place(text: str) -> Place:
    """`HOST` or `HOST:PORT`; a host with colons stands in brackets."""
    host, mark, port = text.rpartition(":")
    if not mark or text.endswith("]"):
        return Place(text.strip("[]"))
    if not host or not port.isdecimal() or not 0 < int(port) <= 65536 - PORTS:
        raise ValueError(text)
    return Place(host.strip("[]"), int(port))


def places(text: str) -> dict[str, Place] | list[Place]:
    """Those of a file, by names, or those of a list, in the order of the cluster file."""
    try:
        if Path(text).is_file():
            lines = (line.partition("#")[0].split() for line in Path(text).read_text().splitlines())
            return {name: place(at) for name, at in filter(None, lines)}
        return [place(word) for word in text.split(",")]
    except ValueError as fault:
        what = "lines NAME HOST:PORT of a file" if Path(text).is_file() else "HOST:PORT,.."
        raise ArgumentTypeError(f"{what} are wanted: {fault}") from None


def reached(
    given: dict[str, Place] | list[Place], names: Sequence[str], option: str = "--at"
) -> list[Place]:
    """The place of each process, with a port; `option` gave the places."""
    if isinstance(given, dict):
        for name in [*(set(given) - set(names)), *(set(names) - set(given))]:
            lacks = "has no line in the file" if name in names else "is no process"
            raise Fault(USAGE, f"--at: {name} {lacks}")
        given = [given[name] for name in names]
    if len(given) != len(names):
        raise Fault(USAGE, f"{option} has {len(given)} places for {len(names)} processes")
    row = in_a_row([it.host for it in given], BASE)
    return [Place(it.host, it.port or other.port) for it, other in zip(given, row)]


def addresses(on: str | None) -> list[Place]:
    """The addresses of the hosts of `--on`, by its driver."""
    if not on:
        return []
    try:
        return [Place(host) for host in driver(on).addresses()]
    except (OSError, ValueError, subprocess.CalledProcessError) as fault:
        raise Fault(USAGE, f"--on {on}: {fault}") from None


def in_a_row(hosts: Sequence[str], first: int) -> list[Place]:
    """Hosts whose ports follow each other."""
    return [Place(host, first + PORTS * number) for number, host in enumerate(hosts)]
