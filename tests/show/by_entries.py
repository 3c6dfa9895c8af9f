"""Pictures whose columns stand for entries: of each audit of `run` and the examples, of a long one
that is folded, of one whose records are acknowledged in folded columns, of one with a bad entry and
of none at all. The picture of docs/ has to be what the program draws."""

from __future__ import annotations

import itertools
import json
import sys
import xml.etree.ElementTree as xml
from collections.abc import Iterator
from functools import partial
from pathlib import Path

import picture
from history import Entry
from picture import number
from program import (
    EXAMPLES,
    NOTHING,
    REGIONS,
    ROOT,
    SIX,
    Program,
    Test,
    bad_audit,
    bad_tick,
    clog,
    entries_of,
    kill,
    long_script,
    read_config,
    tick,
)

sys.path.append(str(ROOT / "tests/cli"))

from cases import cases  # noqa: E402

MOST_COLUMNS = 4000
# What titles of the long audit say before and behind how many orders there were, by the grants of
# actor 1: a kill that was lessened, one that was barred down to its floor, one that names nobody, a
# clog that was barred.
TITLES = (
    (
        "of machineid south-m0: struck by Reboot, since no grant covers process 9",
        "; the floor is RebootProcess",
    ),
    (
        "of machineid west-m2: struck nobody, since no grant covers process 24",
        "; the floor is RebootAndDelete",
    ),
    ("of machineid nowhere: struck nobody, since nobody who is left has that value", ""),
    ("of machineid west-m2: barred, since no grant covers process 24", ""),
)


def ends_of(sheet: xml.Element, count: int) -> list[int]:
    """How many entries there are up to the end of each column: each stands for as many as fit."""
    width = number(sheet, "data-width")
    assert width == next(
        2**it for it in itertools.count() if count <= MOST_COLUMNS * 2**it
    ), width
    ends = [min(end + width, count) for end in range(0, count, width)]
    columns = number(sheet, "data-columns")
    assert columns == len(ends), f"{columns} columns, and not {len(ends)}"
    return ends


def drawn(program: Program, path: Path, audit: bytes, bad: int | None = None) -> str:
    """The picture of an audit whose bad entry is this, held against its own history."""
    text = program.drawn(path, audit, 0 if bad is None else 5)
    sheet, entries = xml.fromstring(text), entries_of(audit)[:bad]
    picture.check(sheet, read_config(path), entries, ends_of(sheet, len(entries)), bad)
    assert "otherwise" not in text and "data-micros" not in text
    return text


def recorded(program: Program) -> Iterator[Test]:
    """The audits of the examples, and those that `run` has to give for scripts."""

    def bad_day() -> None:
        text = drawn(program, SIX, (EXAMPLES / "bad-day.audit").read_bytes())
        committed = (ROOT / "docs/bad-day.svg").read_text()
        assert text == committed, "docs/bad-day.svg is another picture"

    yield Test("bad-day", bad_day)
    two_zones = EXAMPLES / "two-zones.audit"
    yield Test(two_zones.stem, partial(drawn, program, SIX, two_zones.read_bytes()))
    for case in cases():
        if case.command == "script" and case.stdin_from and case.stdout:
            yield Test(case.name, partial(drawn, program, SIX, case.stdout))


def long(program: Program) -> None:
    """An audit of four entries a column, so that each column has one act."""
    text = drawn(program, REGIONS, program.audit(REGIONS, long_script(9000, 4)))
    for ending, floor in TITLES:
        title = f"{ending}; the hardest of 4 orders here{floor}</title>"
        assert title in text, f"no title says {ending}"


def folded(program: Program) -> Iterator[Test]:
    """Fronts of one audit whose acts take turns, so that columns of other orders and ticks become
    one: where the width is about to double and where it has, and with a bad entry behind both."""
    lines = program.audit(REGIONS, long_script(10000, 1)).splitlines(keepends=True)
    for count in (3999, 4000, 4001, 4002, 8000, 8001, 10000):
        front = b"".join(lines[: 1 + count])
        one = front + bad_tick(count)
        for name, audit, place in (
            (f"{count} entries", front, None),
            (f"{count} entries and a bad one", one, count),
            (f"{count} entries, two bad ones", one + bad_tick(count + 1), count),
        ):
            yield Test(name, partial(drawn, program, REGIONS, audit, place))


def numbers(program: Program, folder: Path) -> None:
    """Kills of 12 of 1,001 processes, 1 to 4 columns apart. The number of one policy falls from
    1,001 by 1 each time; that of the other falls to 11, since from then on only others of the same
    small zone may be killed."""
    processes = [
        {"processid": f"p{p}", "machineid": f"m{p}", "zoneid": "small" if p < 12 else "large"}
        for p in range(1001)
    ]

    def table(given: dict[str, str]) -> str:
        return "{" + ", ".join(f"{key} = {json.dumps(it)}" for key, it in given.items()) + "}"

    config = folder / "numbers.toml"
    config.write_text(
        "journal_limit = 1000\n"
        'policies = ["Across(24,processid,One())", "Across(2,zoneid,One())"]\n'
        f"process = [{', '.join(map(table, processes))}]\n"
        'actor = [{role = "fault", grants = [{kinds = ["KillInstantly", "RebootAndDelete"]}]},'
        ' {role = "storage"}]\n'
    )
    lines = [tick(1, 1)] * 3
    for p in range(12):
        lines.append(kill(0, "processid", f"p{p}", "KillInstantly", "KillInstantly"))
        lines += [tick(1, 1)] * (p % 4)
    drawn(program, config, program.audit(config, lines))


def records_script() -> Iterator[Entry]:
    """Acts on regions.toml that begin 1,150 records in batches of 50, sync them and deliver the
    words but of every tenth, the last words one after another; then a copy whose word says once
    more that its record is acknowledged, orders of a stranger, and ticks."""
    members, sent = [0, 3, 9], 0
    zone = "zoneid", "west-z1"

    def deliver(message: int) -> Entry:
        return {"by": 0, "act": {"deliver": {"message": message}}}

    def sync(p: int) -> Entry:
        return {"by": 0, "act": {"sync": {"process": p}}}

    yield {"by": 0, "act": {"form": {"members": members, "policy": 0}}}
    for batch in range(23):
        for _ in range(50):
            yield {"by": 0, "act": {"begin": {"payload": "00", "team": 0}}}
        yield from map(deliver, range(sent, sent + 150))
        sent += 150
        yield from map(sync, members)
        words = (place for place in range(150) if place < 100 or place % 10)
        yield from (deliver(sent + place) for place in words)
        sent += 150
        yield {"by": 0, "act": {"copy": {"from": 0, "record": batch * 50 + 1, "to": 3}}}
        yield deliver(sent)
        yield sync(3)
        yield deliver(sent + 1)
        sent += 2
        yield kill(9, *zone, "Reboot", "Reboot")
        yield clog(9, *zone, 3)
        yield {"by": 9, "act": {"unclog": dict(zip(("key", "value"), zone, strict=True))}}
        yield from map(tick, range(5))


def records(program: Program) -> None:
    """The picture of these acts. Of the records behind the first thousand no mark tells."""
    audit = program.audit(REGIONS, records_script())
    assert audit.count(b'{"marked":true}') == 23 * 46, "other replies"
    assert b'"time":230}' in audit, "another time"
    drawn(program, REGIONS, audit)


def tests(program: Program, folder: Path) -> Iterator[Test]:
    yield from recorded(program)
    yield Test("long", partial(long, program))
    yield from folded(program)
    yield Test("numbers", partial(numbers, program, folder))
    yield Test("records", partial(records, program))
    yield Test("bad", partial(drawn, program, SIX, bad_audit(), 1))
    yield Test("nothing", partial(drawn, program, SIX, NOTHING))
