"""Holds a picture against the entries that it has to show, whatever its columns stand for.

Of each process, at each column, the bands have to say whether it is up, killed for good, emptied
and clogged after the column's last entry. Each order has to have one glyph at each process that it
names (of a folded column the hardest, with how many there were), filled where it struck as ordered.
Its title says who ordered it, what came of it and by which rule or refusal, and of a kill that was
lessened or barred the floor. The words of those that a rule lessened or barred stand below.

A mark stands where records were acknowledged, of each at the entry that did it first, with their
numbers, and one where time passed. Behind each process stand the records that it keeps at the end.
The line of each policy has at each column how many could each be killed next, with a number where
it changes and there is room; no number runs into another, nor into the line. Each class that is
drawn stands in the legend, and no word of it runs into another.
"""

from __future__ import annotations

import bisect
import itertools
import re
import xml.etree.ElementTree as xml
from collections.abc import Callable, Iterable, Iterator, Mapping, Sequence
from typing import Any, TypeVar

import greys
from history import (
    MOST_KEPT,
    Config,
    Entry,
    Glyphs,
    History,
    Wanted,
    lanes,
    part,
    rule_of,
    title_of,
)

SVG = "{http://www.w3.org/2000/svg}"
LEFT, COLUMN, TOP, ROW, STEPS = 250, 12, 70, 18, 26
MOST_TOLD = 5
MOST_WORDS = 100

Value = TypeVar("Value")


def by_class(sheet: xml.Element, shape: str, name: str) -> list[xml.Element]:
    return [it for it in sheet.iter(SVG + shape) if it.get("class") == name]


def attribute(element: xml.Element, name: str) -> str:
    value = element.get(name)
    assert value is not None, f"{element.tag} lacks {name}"
    return value


def number(element: xml.Element, name: str) -> int:
    return int(attribute(element, name))


def title(element: xml.Element) -> str:
    return element.findtext(SVG + "title") or ""


def place_of(element: xml.Element, order: Sequence[int]) -> tuple[int, int | None]:
    """The column and the process at which a path begins; below the rows there is no process."""
    x, y = map(int, attribute(element, "d")[1:].split("m")[0].split())
    row = (y - TOP) // ROW
    return (x - LEFT) // COLUMN, order[row] if row < len(order) else None


def differ(one: Mapping[Any, Any], other: Mapping[Any, Any]) -> str:
    return str(set(one.items()) ^ set(other.items()))


# ---- bands and glyphs


def drawn_states(row: xml.Element, columns: int) -> list[set[str]]:
    """The classes of a row's bands at each column."""
    states: list[set[str]] = [set() for _ in range(columns)]
    for band in row.iter(SVG + "rect"):
        left, right = number(band, "data-from"), number(band, "data-to")
        assert number(band, "x") == LEFT + left * COLUMN
        assert number(band, "width") == (right - left) * COLUMN
        for column in range(left, right):
            name = attribute(band, "class")
            assert name not in states[column], "two bands of a kind at a place"
            states[column].add(name)
    return states


def check_rows(sheet: xml.Element, wanted: Wanted, order: Sequence[int]) -> None:
    """A row for each process, with its name and its bands."""
    rows = by_class(sheet, "g", "row")
    assert [number(row, "data-process") for row in rows] == order, "other rows"
    for row, p in zip(rows, order, strict=True):
        drawn, due = drawn_states(row, len(wanted.states)), [it[p] for it in wanted.states]
        assert drawn == due, f"process {p}: {drawn}, and not {due}"
        name = wanted.history.processes[p]["processid"]
        assert name in [it.text for it in row.iter(SVG + "text")]


def drawn_glyphs(sheet: xml.Element, order: Sequence[int]) -> Glyphs:
    """The glyph at each process and column; those that name nobody stand below the rows."""
    found: Glyphs = {}
    for glyph in sheet.iter(SVG + "path"):
        name = attribute(glyph, "class")
        if name.startswith("order") and glyph.get("data-entry") is not None:
            place = place_of(glyph, order)
            assert place not in found, f"two glyphs at {place}"
            found[place] = number(glyph, "data-entry"), name.split()[1], title(glyph)
    return found


# ---- marks and keepers


def wanted_marks(
    done: Iterable[tuple[int, Value]],
    ends: Sequence[int],
    one: Callable[[Value], str],
    several: Callable[[list[Value]], str],
) -> dict[int, tuple[int, str]]:
    """The entry and the title of the mark of each column, of these entries with what they did."""
    columns: dict[int, list[tuple[int, Value]]] = {}
    for at, value in sorted(done, key=lambda it: it[0]):
        columns.setdefault(bisect.bisect_right(ends, at), []).append((at, value))
    marks = {}
    for column, here in columns.items():
        at, value = here[-1]
        if len(here) == 1:
            marks[column] = at, f"entry {at}: {one(value)}"
        else:
            span = f"entries {[0, *ends][column]} to {ends[column] - 1}: "
            marks[column] = at, span + several([it for _, it in here])
    return marks


def check_marks(
    sheet: xml.Element, name: str, height: int, wanted: Mapping[int, tuple[int, str]]
) -> None:
    """At most one mark of this class a column, where one is wanted."""
    found = {}
    for mark in by_class(sheet, "path", name):
        if mark.get("data-entry"):
            begun = re.match(r"M(\d+) (\d+)", attribute(mark, "d"))
            assert begun, f"a mark {name} begins nowhere"
            x, y = map(int, begun.groups())
            column = (x - LEFT) // COLUMN
            assert column not in found, f"two marks {name} in column {column}"
            assert y == height, f"a mark {name} at {y}"
            found[column] = number(mark, "data-entry"), title(mark)
    assert found == wanted, f"marks {name}: {differ(found, wanted)}"


def check_acked(sheet: xml.Element, history: History, ends: Sequence[int]) -> None:
    """A mark for the records that were acknowledged, each once."""
    marks = wanted_marks(
        [(at, rec) for rec, at in history.acked.items() if rec < MOST_KEPT],
        ends,
        lambda rec: f"record {rec} is acknowledged",
        lambda recs: f"{len(recs)} records are acknowledged: {', '.join(map(str, recs))}",
    )
    height = TOP + (len(history.processes) + 1) * ROW + ROW // 2
    check_marks(sheet, "acked", height, marks)


def check_ticks(sheet: xml.Element, entries: Sequence[Entry], ends: Sequence[int]) -> None:
    """A mark for the time that passed."""
    told = [(it["at"], part(it["reply"], "time")) for it in entries]
    marks = wanted_marks(
        [(at, time) for at, time in told if time is not None],
        ends,
        lambda time: f"the time is {time}",
        lambda times: f"the time is {times[-1]} at the end; it passed {len(times)} times",
    )
    check_marks(sheet, "tick", TOP - 12, marks)


def check_keepers(sheet: xml.Element, order: Sequence[int], kept: Mapping[int, list[int]]) -> None:
    """Behind the row of each process the records that it keeps."""
    found = {}
    for text in by_class(sheet, "text", "keeps"):
        row = (number(text, "y") - TOP) // ROW
        numbers = title(text).removeprefix("keeps ")
        found[order[row]] = [int(it) for it in numbers.split(", ")]
        told = (text.text or "").removeprefix("keeps ").split(" and ")
        assert told[0] == ", ".join(numbers.split(", ")[:MOST_TOLD]), text.text
        more = len(found[order[row]]) - MOST_TOLD
        assert told[1:] == ([f"{more} more"] if more > 0 else []), text.text
    assert found == kept, f"{found} kept, and not {kept}"


# ---- lines of numbers


def stretches(line: Sequence[int]) -> Iterator[tuple[int, int, int]]:
    """The columns that follow one another with the same number: the first, the one behind the last,
    and the number."""
    at = 0
    for count, group in itertools.groupby(line):
        to = at + len(list(group))
        yield at, to, count
        at = to


def check_numbers(
    sheet: xml.Element,
    lines: Sequence[Sequence[int]],
    feet: Sequence[int],
    processes: int,
    kind: str = "policy-number",
) -> None:
    """A number at the first column of each stretch that has so many columns as it needs, clear of
    the line and of other texts."""
    found: dict[tuple[int, int], tuple[int, int, int]] = {}
    for text in by_class(sheet, "text", kind):
        place = int(text.get("data-policy", 0)), number(text, "data-from")
        assert place not in found, f"two numbers at {place}"
        found[place] = int(text.text or ""), number(text, "x"), number(text, "y")
    # One digit needs one column, two need two, three or four need three.
    room = {1: 1, 2: 2, 3: 3, 4: 3}
    wanted = {
        (policy, at): (count, to)
        for policy, line in enumerate(lines)
        for at, to, count in stretches(line)
        if to - at >= room[len(str(count))]
    }
    drawn = {place: it[0] for place, it in found.items()}
    due = {place: it[0] for place, it in wanted.items()}
    assert drawn == due, f"numbers {differ(drawn, due)}"
    for (policy, at), (count, x, y) in found.items():
        # A digit of 11 pixels' type is below 7 wide and 8 high in the usual sans-serifs.
        right, top = x + 7 * len(str(count)), y - 8
        assert LEFT + at * COLUMN < x < LEFT + (at + 1) * COLUMN, f"{count} isn't at its step"
        assert right < LEFT + wanted[policy, at][1] * COLUMN, f"{count} at {at} is too wide"
        foot = feet[policy]
        level = foot - count * STEPS // processes
        assert foot - STEPS <= top and y <= foot, f"{count} at {at} leaves its policy's place"
        assert y < level or level < top, f"the line runs through {count} at {at}"


def heights_of(path: xml.Element) -> list[int]:
    """How high a stepped line is at each column."""
    heights: list[int] = []
    x, y = LEFT, 0
    for word, first, height in re.findall(r"([MHV])(\d+)(?: (\d+))?", attribute(path, "d")):
        if word == "M":
            assert int(first) == LEFT
            y = int(height)
        elif word == "V":
            y = int(first)
        else:
            heights += [y] * ((int(first) - x) // COLUMN)
            x = int(first)
    return heights


def check_lines(sheet: xml.Element, wanted: Wanted) -> None:
    """The line of each policy has at each column the height of its number."""
    lines, processes = wanted.lines, len(wanted.history.processes)
    for label in by_class(sheet, "text", "policy-text"):
        # Where textLength isn't known: at 6.2 pixels a letter of 11 pixels' type, as much as 38
        # letters left of the first column.
        style = label.get("style") or "font-size: 11px"
        size = float(style.removeprefix("font-size: ").removesuffix("px"))
        right = number(label, "x") + len(label.text or "") * size * 6.2 / 11
        assert right < LEFT, f"{label.text} runs into its line"
    paths = by_class(sheet, "path", "policy")
    assert [number(it, "data-policy") for it in paths] == list(range(len(lines)))
    texts = [it for it in sheet.iter(SVG + "text") if (it.text or "").startswith("how many could")]
    feet = [number(it, "y") for it in texts]
    for path, foot, line in zip(paths, feet, lines, strict=True):
        heights, due = heights_of(path), [foot - it * STEPS // processes for it in line]
        assert heights == due, f"{heights} drawn for {line}"
    check_numbers(sheet, lines, feet, processes)


# ---- legend and words


def check_legend(sheet: xml.Element) -> None:
    """Each class that is drawn has its word, and no word begins before the one left of it ends, at
    six pixels a letter."""
    [legend] = by_class(sheet, "g", "legend")
    for y in ("16", "34"):
        texts = [it for it in legend.iter(SVG + "text") if it.get("y") == y]
        words = [(number(it, "x"), it.text or "") for it in texts]
        for (x, text), (after, _) in itertools.pairwise(words):
            assert x + 6 * len(text) < after - 10, f"{text} runs into what follows"
    shown = {
        shape.get("class"): word.text for shape, word in zip(legend[::2], legend[1::2], strict=True)
    }
    assert shown["acked"] == "a record is acknowledged", shown
    assert shown["tick"] == "time passed", shown
    rows = [it for it in sheet.iter(SVG + "g") if it is not legend]
    drawn = {it.get("class") for row in rows for it in row.iter(SVG + "rect")}
    drawn |= {it.get("class") for it in sheet.iter(SVG + "path") if it.get("data-entry")}
    lacking = drawn - {"bad"} - set(shown)
    assert not lacking, f"the legend lacks {lacking}"
    outlines = {attribute(it, "class"): it.get("d") or "" for it in legend[::2]}
    for name in ("acked", "tick"):
        for mark in by_class(sheet, "path", name):
            outline = re.sub(r"^M\d+ \d+", "", attribute(mark, "d"))
            assert outlines[name].endswith(outline), f"{outline} is another mark than the legend's"


def check_words(sheet: xml.Element, entries: Iterable[Entry], bad: int | None) -> None:
    """The words of what a rule lessened or barred, and the mark of a bad entry."""
    words = [it.text for it in by_class(sheet, "text", "order-in-words")]
    ruled = [title_of(it) for it in entries if rule_of(it) is not None][:MOST_WORDS]
    assert words == ruled, f"{words}, and not {ruled}"
    red = [it.get("data-entry") for it in by_class(sheet, "path", "bad")]
    assert red == ([] if bad is None else [str(bad)]), red


def check(
    sheet: xml.Element,
    config: Config,
    entries: Sequence[Entry],
    ends: Sequence[int],
    bad: int | None = None,
) -> Wanted:
    """Holds a picture with columns that end so against its entries, and gives what it has to
    show."""
    wanted, order = Wanted(config, entries, ends), lanes(config["process"])
    check_rows(sheet, wanted, order)
    drawn = drawn_glyphs(sheet, order)
    assert drawn == wanted.glyphs, f"glyphs {differ(drawn, wanted.glyphs)}"
    check_keepers(sheet, order, wanted.history.keepers())
    check_lines(sheet, wanted)
    check_legend(sheet)
    greys.check(sheet)
    check_acked(sheet, wanted.history, ends)
    check_ticks(sheet, entries, ends)
    check_words(sheet, entries, bad)
    return wanted
