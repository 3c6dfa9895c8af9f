"""Pictures whose columns are laid by the times of events, with `--times`.

All that a picture by entries shows has to hold of them. The numbers along the head are seconds; a
line has at each column how many processes are up, with numbers as the policies' lines have; a ring
stands round each order for which something else was done than was answered, and its title says
both.
"""

from __future__ import annotations

import bisect
import itertools
import json
import xml.etree.ElementTree as xml
from collections.abc import Iterable, Iterator, Sequence
from decimal import Decimal
from functools import partial
from pathlib import Path

import picture
from history import Config, Entry, History, Wanted, lanes, part, title_of
from picture import (
    COLUMN,
    LEFT,
    ROW,
    STEPS,
    SVG,
    TOP,
    by_class,
    check_numbers,
    differ,
    heights_of,
    number,
    place_of,
    title,
)
from program import (
    EXAMPLES,
    NOTHING,
    REGIONS,
    SIX,
    Program,
    Test,
    bad_at,
    bad_audit,
    entries_of,
    long_script,
    read_config,
)

MOST_COLUMNS = 4000
TENTH, SECOND = 100_000, 1_000_000  # microseconds

# Of a ring, by its column and process: its entry and its title.
Rings = dict[tuple[int, int | None], tuple[int, str]]


class Times:
    """When each entry came, in microseconds, and what was done, by the rules of FORMATS.md on
    events."""

    def __init__(self, text: str, count: int) -> None:
        lines = [json.loads(line, parse_float=Decimal) for line in text.splitlines()]
        events = {it["entry"]: it for it in lines if it.get("entry", count) < count}
        self.done = {at: it["does"] for at, it in events.items() if "does" in it}
        times, now = [], 0
        for at in range(count):
            now = int(events[at]["t"] * SECOND) if at in events else now
            times.append(now)
        self.width = next(it for it in itertools.count(TENTH, TENTH) if now < MOST_COLUMNS * it)
        ends = range(self.width, now + self.width + 1, self.width)
        self.ends = [sum(time < end for time in times) for end in ends]


# ---- rings


def answered(entry: Entry) -> str | None:
    """What the reply to an order says is done."""
    if "clog" in entry["act"]:
        return "Clog" if entry["reply"] == {"ruled": None} else None
    struck: str | None = (part(entry["reply"], "verdict") or {}).get("struck")
    return struck


def wanted_rings(config: Config, entries: Iterable[Entry], times: Times) -> Rings:
    """The entry and the title of the ring at each process and column."""
    history = History(config["process"])
    found: dict[tuple[int, int | None], list[Entry]] = {}
    for entry in entries:
        named: Sequence[int | None] = history.take(entry)
        at, is_order = entry["at"], {"kill", "clog"} & entry["act"].keys()
        if is_order and times.done.get(at, answered(entry)) != answered(entry):
            for p in named or [None]:
                found.setdefault((bisect.bisect_right(times.ends, at), p), []).append(entry)
    words = {None: "; nothing was done", "Clog": "; a clog was done"}
    rings = {}
    for place, deeds in found.items():
        done = times.done[deeds[0]["at"]]
        told = title_of(deeds[0]) + words.get(done, f"; {done} was done")
        many = f"; the first of {len(deeds)} such orders here" if len(deeds) > 1 else ""
        rings[place] = deeds[0]["at"], told + many
    return rings


def drawn_rings(sheet: xml.Element, order: Sequence[int]) -> Rings:
    """The ring at each process and column."""
    found: Rings = {}
    for ring in by_class(sheet, "path", "otherwise"):
        if ring.get("data-entry"):
            place = place_of(ring, order)
            assert place not in found, f"two rings at {place}"
            found[place] = number(ring, "data-entry"), title(ring)
    return found


# ---- seconds, and how many are up


def check_ups(sheet: xml.Element, wanted: Wanted) -> None:
    """Below the policies' lines one that has at each column how many processes are up, with its
    numbers."""
    processes, policies = len(wanted.history.processes), len(wanted.lines)
    line = [sum("up" in it for it in column) for column in wanted.states]
    [path] = by_class(sheet, "path", "ups")
    texts = list(sheet.iter(SVG + "text"))
    [foot] = [number(it, "y") for it in texts if it.text == "how many are up"]
    assert foot == TOP + (processes + 2 * policies + 4) * ROW, foot
    heights, due = heights_of(path), [foot - it * STEPS // processes for it in line]
    assert heights == due, f"{heights} drawn for {line}"
    check_numbers(sheet, [line], [foot], processes, "ups-number")
    below = by_class(sheet, "text", "order-in-words")
    assert all(number(it, "y") >= foot + 2 * ROW for it in below), "words run into the line"


def check_seconds(sheet: xml.Element, times: Times) -> None:
    """At every tenth column a whole number of seconds."""
    texts = [it for it in sheet.iter(SVG + "text") if it.get("y") == "54"]
    found = {number(it, "x"): it.text for it in texts}
    assert times.width * 10 % SECOND == 0
    tenths = range(0, len(times.ends), 10)
    due = {LEFT + it * COLUMN: f"{it * times.width // SECOND} s" for it in tenths}
    assert found == due, found


def drawn(program: Program, path: Path, audit: bytes, events: Path, bad: int | None = None) -> str:
    """The picture of an audit by these events, held against both."""
    text = program.drawn(path, audit, 0 if bad is None else 5, "--times", events)
    sheet, config, entries = xml.fromstring(text), read_config(path), entries_of(audit)[:bad]
    times = Times(events.read_text(), len(entries))
    assert sheet.get("data-width") is None and number(sheet, "data-micros") == times.width
    columns = number(sheet, "data-columns")
    assert columns == len(times.ends), f"{columns} columns, and not {len(times.ends)}"
    wanted = picture.check(sheet, config, entries, times.ends, bad)
    rings, due = drawn_rings(sheet, lanes(config["process"])), wanted_rings(config, entries, times)
    assert rings == due, f"rings {differ(rings, due)}"
    check_ups(sheet, wanted)
    check_seconds(sheet, times)
    return text


# ---- the pictures


def bad_day(program: Program) -> None:
    """A bad day, of which one event says that something else was done."""
    audit = (EXAMPLES / "bad-day.audit").read_bytes()
    text = drawn(program, SIX, audit, EXAMPLES / "bad-day.events")
    # p3 is down from 2.95 to 8.95 seconds, and p1 from 2.612 to 3.049: 60 columns and 4.
    for band in ('data-from="29" data-to="89"', 'data-from="26" data-to="30"'):
        assert band in text, "no outage of six seconds"
    assert text.count('class="otherwise" data-entry="22"') == 2
    assert "; KillInstantly was done</title>" in text


def long_events() -> list[str]:
    """Events of 9,000 entries over an hour, so that columns stand for ninths of seconds and
    more."""
    kinds = ["Reboot", None, "RebootAndDelete", "Clog", "KillInstantly"]
    lines = []
    for at in range(0, 9000, 3):
        done = {"does": kinds[at // 5 % 5]} if at % 2 else {}
        lines.append(json.dumps({"entry": at, "t": at * at / 20000, **done}))
    return lines


def written(
    program: Program, folder: Path, path: Path, audit: bytes, lines: Iterable[str], bad: int | None
) -> None:
    """The picture by events that are written here."""
    events = folder / "events"
    events.write_text("".join(f"{line}\n" for line in lines))
    drawn(program, path, audit, events, bad)


def tests(program: Program, folder: Path) -> Iterator[Test]:
    yield Test("bad-day by times", partial(bad_day, program))
    audit = (EXAMPLES / "bad-day.audit").read_bytes()
    dense = [
        json.dumps({"entry": at, "t": 399.9 + at / 1e6, "does": None})
        for at in range(len(entries_of(audit)))
    ]
    far = [
        '{"entry": 3, "t": 0.1}',
        '{"entry": 20, "t": 99999.9999999999999999999}',
        '{"entry": 21, "t": 9.999999999e5, "does": "Clog"}',
    ]
    of_bad = ['{"entry": 0, "t": 1.25, "does": "Reboot"}', '{"entry": 1, "t": 7}']
    hour = program.audit(REGIONS, long_script(9000, 3))
    day = (EXAMPLES / "bad-day.events").read_text().splitlines()
    # Each of these bad entries has an event, which would make the columns reach further.
    later = [*long_events(), '{"entry": 8999, "t": 5000}']
    for name, path, its, lines, bad in (
        ("a day in one column", SIX, audit, dense, None),
        ("a second column", SIX, audit, ['{"entry": 44, "t": 400}', '{"t": "later"}'], None),
        ("no events", SIX, audit, [], None),
        ("far away", SIX, audit, far, None),
        ("nothing by times", SIX, NOTHING, ["{}"], None),
        ("bad by times", SIX, bad_audit(), of_bad, 1),
        ("long by times", REGIONS, hour, long_events(), None),
        *((f"bad-day, {at} is bad", SIX, bad_at(audit, at), day, at) for at in (0, 22, 44)),
        *((f"long, {at} is bad", REGIONS, bad_at(hour, at), later, at) for at in (0, 4500, 8999)),
    ):
        yield Test(name, partial(written, program, folder, path, its, lines, bad))
