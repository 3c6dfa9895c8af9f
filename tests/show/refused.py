"""What `show` refuses: audits as `check` refuses them, and events that are faulty, each kind by its
line."""

from __future__ import annotations

from collections.abc import Iterator
from functools import partial
from pathlib import Path

from program import EXAMPLES, NOTHING, SIX, Program, Test, bad_audit

RIGHT = '{"entry": 0, "t": 1, "does": "Reboot"}\n'
FAULTY_EVENTS = {
    "Syntax": [
        "",
        "{",
        "[]",
        "null",
        '{"entry": 1, "t": 1}}',
        "{'entry': 1}",
        '{"entry": 1, "t": 01}',
        '{"entry": 1, "t": .5}',
    ],
    "Entry": [
        '{"entry": 2, "t": 1}',
        '{"entry": null, "t": 1}',
        '{"entry": 1.0, "t": 1}',
        '{"entry": -1, "t": 1}',
    ],
    "Time": [
        '{"entry": 1}',
        '{"entry": 1, "t": null}',
        '{"entry": 1, "t": "1"}',
        '{"entry": 1, "t": -1}',
        '{"entry": 1, "t": 1000000}',
        '{"entry": 1, "t": 1e6, "does": 1}',
        '{"entry": 1, "t": 1764169588.25}',
    ],
    "Does": [
        '{"entry": 1, "t": 1, "does": ""}',
        '{"entry": 1, "t": 0, "does": "Unclog"}',
        '{"entry": 1, "t": 1, "does": []}',
    ],
    "Order": [RIGHT.strip(), '{"entry": 1, "t": 0.999999}'],
}
FAULTY_AUDITS = (b"", NOTHING + b"{}\n", b'{"audit":3}\n')


def refuses_audit(program: Program, audit: bytes) -> None:
    """`show` refuses an audit as `check` does."""
    shown, checked = (program.ask(command, SIX, audit) for command in ("show", "check"))
    assert (shown.returncode, shown.stdout) == (1, b""), shown
    assert (shown.stderr, shown.returncode) == (checked.stderr, checked.returncode)


def refuses(program: Program, audit: bytes, events: Path, status: int, message: str) -> None:
    ran = program.ask("show", SIX, audit, "--times", events)
    assert (ran.returncode, ran.stdout, ran.stderr.decode()) == (status, b"", message), ran


def refuses_event(program: Program, folder: Path, audit: bytes, line: str, fault: str) -> None:
    """The third line of events is refused, and the fourth, which is faulty too, isn't named."""
    events = folder / "events"
    events.write_text(f"{RIGHT}{{}}\n{line}\n{{\n")
    refuses(program, audit, events, 1, f"events: line 3: {fault}\n")


def faulty_and_cut(program: Program, folder: Path, audit: bytes) -> None:
    """An audit is refused before its events."""
    events = folder / "events"
    events.write_text("{\n")
    refuses(program, audit[:-1], events, 1, "audit: line 3: Syntax\n")


def tests(program: Program, folder: Path) -> Iterator[Test]:
    audit = (EXAMPLES / "two-zones.audit").read_bytes()
    for fault, lines in FAULTY_EVENTS.items():
        for line in lines:
            run = partial(refuses_event, program, folder, audit, line, fault)
            yield Test(f"{fault}: {line!r}", run)
    bad = partial(refuses_event, program, folder, bad_audit(), "{", "Syntax")
    yield Test("a bad audit with faulty events", bad)
    yield Test("a cut audit with faulty events", partial(faulty_and_cut, program, folder, audit))
    for name, path in (("no events to read", folder / "none"), ("a folder for events", folder)):
        yield Test(name, partial(refuses, program, audit, path, 3, "read fault\n"))
    for given in FAULTY_AUDITS:
        yield Test(f"audit {given!r}", partial(refuses_audit, program, given))
