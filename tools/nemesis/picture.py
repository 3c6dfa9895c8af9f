"""Draws a run as an SVG: the writes, the processes by zone, the orders, and what became of them."""

from __future__ import annotations

from collections.abc import Iterator, Sequence
from pathlib import Path
from typing import NamedTuple
from xml.sax.saxutils import escape

from faultyard import ClusterFile, Key, Kind

from .timeline import QUIET, Lane, Partition, Record, Spell, State, Struck, Timeline
from .timeline import gaps, rates, timeline, zones

WIDE = 1400  # pixels, however long the run was
LEFT, RIGHT, LETTER = 150, 24, 6.3  # of the plot, and of a letter
CHART = 84  # how high the curve of the writes is
MOST_LETTERS = 205  # of a line below
EVENTS = "events.jsonl"  # has all of them
LISTED = 12  # orders that are explained below; a picture is no log
KINDS = dict.fromkeys(("lost", "wrong", "unwritten", "damaged", "missing"), "lost")
KINDS |= {"stale": "stale"}
BOLT = "l-5 9h4l-2 7l7 -9h-4l3 -7z"
SHORT = {
    Kind.REBOOT_PROCESS: ("P", "Process"),
    Kind.REBOOT: ("R", "Reboot"),
    Kind.REBOOT_AND_DELETE: ("D", "Delete"),
    Kind.KILL_INSTANTLY: ("K", "Kill"),
    Kind.CLOG: ("C", "Clog"),
}
TEXTS = {
    State.UP: "up",
    State.DOWN: "down, with its data",
    State.EMPTIED: "down and emptied",
    State.HEALING: "up again, not whole yet",
    State.GONE: "gone",
}
MARKS = (
    ("lessened", "R", "less than was ordered"),
    ("barred", "D", "barred"),
    ("beyond", "D", "more than the guard said"),
    ("taker", "D", "destroyed a holder of a lost record"),
)
# The states have the hues of `faultyard show`, and orders its two glyphs: black with a white rim
# what struck as ordered, white with a black rim what struck with less or not at all.
STYLE = """
svg { background: var(--paper); font: 12px system-ui, "DejaVu Sans", sans-serif;
  --paper: #ffffff; --ink: #1a1a1a; --faint: #5c5c5c; --line: #c8c8c8; --lane: #f3f3f3;
  --up: #81ddb8; --down: #d99100; --gone: #7b7b7b; --emptied: #71104e;
  --cut: #005d9f; --write: #0072b2; --quiet: #d1495b; --lost: #d00000; --stale: #9b4dca; }
@media (prefers-color-scheme: dark) { svg {
  --paper: #161616; --ink: #e8e8e8; --faint: #a6a6a6; --line: #484848; --lane: #202020;
  --gone: #3b3b3b; --emptied: #c44f9a;
  --cut: #7cc4ee; --write: #7cc4ee; --quiet: #ef6376; --lost: #ff5a66; --stale: #c48be8; } }
text { fill: var(--ink); } .faint { fill: var(--faint); } .title { font-size: 15px; }
.end { text-anchor: end; } .mid { text-anchor: middle; } .zone { font-weight: 600; }
.lane { fill: var(--lane); } .grid { stroke: var(--line); } .rate { fill: var(--write); }
.quiet { fill: var(--quiet); fill-opacity: .13; } .quiet-text { fill: var(--quiet); }
.up { fill: var(--up); } .down { fill: var(--down); } .emptied { fill: var(--emptied); }
.healing { fill: var(--paper); stroke: var(--emptied); stroke-width: 2; }
.gone { fill: var(--gone); stroke: var(--faint); stroke-width: .6; }
.clog { fill: none; stroke: var(--cut); stroke-width: 2; stroke-dasharray: 3 2; }
.disturbed { fill: none; stroke: var(--cut); stroke-width: 2; }
.damaged { fill: none; stroke: var(--emptied); stroke-width: 2; }
.order circle { fill: #1a1a1a; stroke: #ffffff; stroke-width: 1.3; }
.order text { fill: #ffffff; font-size: 10px; font-weight: 600; text-anchor: middle; }
.lessened circle, .barred circle { fill: #ffffff; stroke: #1a1a1a; }
.lessened text, .barred text { fill: #1a1a1a; }
.lessened circle { stroke: var(--down); stroke-width: 2.6; }
.barred circle { stroke-dasharray: 2 2; }
.beyond circle { stroke: var(--lost); stroke-width: 3; } .taker circle { fill: var(--lost); }
.word { font-size: 11px; } .crash { fill: var(--down); stroke: var(--ink); stroke-width: 1.2; }
.lost { stroke: var(--lost); } .stale { stroke: var(--stale); } .other { stroke: var(--faint); }
.tick { stroke-width: 1.6; } .over { stroke: var(--faint); stroke-dasharray: 5 4; }
"""


def draw(folder: Path, file: ClusterFile, told: Sequence[str] = ()) -> str:
    """The picture of the run whose files are in a folder, with what is told of it above."""
    return "\n".join(_Picture(timeline(folder, file), file, told).lines())


def nice(least: float) -> float:
    """The least of 1, 2, 5, 10, .. and their tenths that is no less."""
    step = 0.01
    while True:
        for factor in (1, 2, 5):
            if step * factor >= least - 1e-9:
                return round(step * factor, 9)
        step *= 10


def number(value: float) -> str:
    """A number without needless zeros."""
    return f"{value:.1f}".removesuffix(".0")


class Rows(NamedTuple):
    """Times that stand in rows below the curve, as bars of some class."""

    label: str
    kind: str
    bars: Sequence[tuple[float, float, str, str]]  # from when to when, a word, and what is told

    def places(self) -> list[int]:
        """The row of each bar."""
        return rows_of([(begin, end) for begin, end, *_ in self.bars])


class _Picture:
    def __init__(self, run: Timeline, file: ClusterFile, told: Sequence[str]) -> None:
        self.run, self.file, self.told = run, file, told
        self.names = [place[Key.PROCESS] for place in file.places]
        self.high = 34 if len(self.names) <= 12 else 24 if len(self.names) <= 30 else 16
        lost = (it for it in run.records if it.verdict == "lost")
        self.takers = {taken for record in lost for taken in record.taken}
        self.top = 20 + 18 * len(told) + 48  # of the chart
        strips = {record.verdict for record in run.records}
        order = ("lost", "wrong", "unwritten", "damaged", "missing", "stale", "unreadable")
        self.strips = [it for it in order if it in strips]
        self.rows = [it for it in self.all_rows() if it.bars]
        rows = len(self.strips) + sum(max(it.places()) + 1 for it in self.rows)
        self.lanes_top = self.top + CHART + 18 + 16 * rows + 12
        self.zones = zones(file)
        self.bottom = self.lanes_top + len(self.names) * self.high + 6 * len(self.zones)

    def x(self, t: float) -> float:
        return round(LEFT + (WIDE - LEFT - RIGHT) * t / self.run.seconds, 1)

    def lines(self) -> Iterator[str]:
        """The lines of the file."""
        below = [*self.below()]
        high = self.bottom + 34 + 18 * len(below)
        yield f'<svg xmlns="http://www.w3.org/2000/svg" width="{WIDE}" height="{high}"'
        yield f'  viewBox="0 0 {WIDE} {high}">'
        yield f"<style>{STYLE}</style>"
        for row, text in enumerate(self.told):
            kind = "title" if row == 0 else "faint"
            yield f'<text x="16" y="{26 + 18 * row}" class="{kind}">{escape(text)}</text>'
        yield from self.legend(self.top - 38)
        yield from self.chart()
        yield from self.records()
        yield from self.faults_in_rows()
        yield from self.grid()
        yield from self.lanes()
        if self.run.seconds - self.run.written > 0.05 * self.run.seconds:
            x = self.x(self.run.written)
            told = "<title>writing is over</title>"
            yield f'<path d="M{x} {self.top}V{self.bottom}" class="over">{told}</path>'
            if WIDE - RIGHT - x > 100:
                place = f'x="{x + 5}" y="{self.top + 14}"'
                yield f'<text {place} class="faint">writing is over</text>'
        for row, text in enumerate(below):
            kind = "zone" if not text.startswith(" ") else "faint"
            text = text.strip()
            shown = escape(text if len(text) <= MOST_LETTERS else f"{text[:MOST_LETTERS]}\u2026")
            place = f'x="{16 if kind == "zone" else 28}" y="{self.bottom + 44 + 17 * row}"'
            yield f'<text {place} class="{kind}">{shown}</text>'
        yield "</svg>\n"

    # What stands around.

    def legend(self, y: float) -> Iterator[str]:
        """What a process is; and below, what an order is."""
        x = 16.0
        for state, text in TEXTS.items():
            yield self.bar(x, x + 22, y - 4, state)
            yield f'<text x="{x + 27}" y="{y}">{text}</text>'
            x += 44 + LETTER * len(text)
        for kind, text in (("clog", "clogged"), ("quiet", "no write was acknowledged")):
            yield f'<rect x="{x}" y="{y - 10}" width="22" height="12" class="{kind}"/>'
            yield f'<text x="{x + 27}" y="{y}">{text}</text>'
            x += 44 + LETTER * len(text)
        x, y = 16.0, y + 20
        for of, (letter, word) in SHORT.items():
            yield from self.circle(x + 8, y - 4, "order", letter, of.value)
            yield f'<text x="{x + 20}" y="{y}">{word}</text>'
            x += 36 + LETTER * len(word)
        for kind, letter, word in MARKS:
            yield from self.circle(x + 8, y - 4, f"order {kind}", letter)
            yield f'<text x="{x + 20}" y="{y}">{word}</text>'
            x += 36 + LETTER * len(word)
        yield self.diamond(x + 8, y - 4, "")
        yield f'<text x="{x + 20}" y="{y}">ended by itself</text>'
        if any(lane.cuts for lane in self.run.lanes):
            x += 40 + LETTER * len("ended by itself")
            yield f'<path d="M{x + 8} {y - 12}{BOLT}" class="crash"/>'
            yield f'<text x="{x + 20}" y="{y}">power cut</text>'

    def grid(self) -> Iterator[str]:
        step = nice(self.run.seconds / 14)
        for count in range(int(self.run.seconds / step + 1e-9) + 1):
            x = self.x(count * step)
            y = self.bottom + 16
            yield f'<path d="M{x} {self.top}V{self.bottom}" class="grid"/>'
            unit = " s" if count == 0 else ""
            yield f'<text x="{x}" y="{y}" class="faint mid">{number(count * step)}{unit}</text>'

    def chart(self) -> Iterator[str]:
        """How many writes were acknowledged a second."""
        run, base = self.run, self.top + CHART
        width = max(0.25, nice(run.written / 220))
        found = rates(run.acks, run.written, width)
        most = nice(max(1.0, *found))
        yield f'<text x="{LEFT - 8}" y="{self.top + 10}" class="end">{number(most)}</text>'
        yield f'<text x="{LEFT - 8}" y="{base}" class="end">0</text>'
        for row, text in enumerate(("writes", "acknowledged", "a second")):
            yield f'<text x="16" y="{self.top + 30 + 15 * row}">{text}</text>'
        path = f"M{self.x(0)} {base}"
        for part, rate in enumerate(found):
            end = min(run.written, width * (part + 1))
            path += f"V{round(base - CHART * rate / most, 1)}H{self.x(end)}"
        yield f'<path d="{path}V{base}Z" class="rate"/>'
        yield f'<path d="M{LEFT} {base}H{WIDE - RIGHT}" class="grid"/>'
        for begin, end in gaps(run.acks, run.written, max(QUIET, run.seconds / 200)):
            x, wide = self.x(begin), round(self.x(end) - self.x(begin), 1)
            place = f'x="{x}" y="{self.top}" width="{wide}" height="{self.bottom - self.top}"'
            long = f"no write from {begin:.1f} to {end:.1f} s"
            yield f'<rect {place} class="quiet"><title>{long}</title></rect>'
            text = f"no write {number(end - begin)} s"
            text = text if wide > LETTER * len(text) + 6 else f"{number(end - begin)} s"
            if wide > LETTER * len(text) + 6:
                place = f'x="{round(x + wide / 2, 1)}" y="{self.top + 14}"'
                yield f'<text {place} class="mid quiet-text">{text}</text>'

    def records(self) -> Iterator[str]:
        """Where each record that isn't kept was acknowledged."""
        for row, verdict in enumerate(self.strips):
            those = [it for it in self.run.records if it.verdict == verdict]
            y = self.top + CHART + 18 + 16 * row
            yield f'<text x="16" y="{y + 4}">{len(those)} {verdict}</text>'
            kind = KINDS.get(verdict, "other")
            for record in those:
                x = self.x(record.t)
                yield f'<path d="M{x} {y - 6}V{y + 6}" class="tick {kind}">'
                told = f"{record.key}, {record.t:.2f} s, {record.verdict}: {record.fault}"
                yield f"<title>{escape(told)}</title></path>"

    def all_rows(self) -> Iterator[Rows]:
        """When some didn't hear others, were disturbed, or had a damaged disk."""
        parts = [(it.begin, it.end, it.shape, self.sides(it)) for it in self.run.partitions]
        yield Rows("partitions", "clog", parts)
        for kind in ("disturbed", "damaged"):
            its = [it for it in self.run.spells if it.is_damage == (kind == "damaged")]
            yield Rows(kind, kind, [(it.begin, it.end, it.kind, self.spell(it)) for it in its])

    def faults_in_rows(self) -> Iterator[str]:
        top = self.top + CHART + 18 + 16 * len(self.strips)
        for its in self.rows:
            yield f'<text x="16" y="{top + 4}">{its.label}</text>'
            for (begin, end, word, told), row in zip(its.bars, its.places()):
                x, y = self.x(begin), top + 16 * row
                wide = round(self.x(end) - x, 1)
                place = f'x="{x}" y="{y - 7}" width="{wide}" height="14"'
                yield f'<rect {place} class="{its.kind}"><title>{escape(told)}</title></rect>'
                if wide > LETTER * len(word) + 8:
                    yield f'<text x="{x + 4}" y="{y + 4}" class="word">{escape(word)}</text>'
            top += 16 * (max(its.places()) + 1)

    def spell(self, it: Spell) -> str:
        """A disturbance or a damage, of whom, and what that was."""
        names = " ".join(self.names[number] for number in it.processes)
        return f"{it.begin:.1f} to {it.end:.1f} s, {it.kind} of {names}{it.told}"

    def sides(self, it: Partition) -> str:
        """A partition, and who is unheard by whom."""
        heard: dict[str, list[str]] = {}
        for sender, receiver in it.cuts:
            heard.setdefault(self.names[sender], []).append(self.names[receiver])
        sides = "; ".join(f"{name} unheard by {' '.join(to)}" for name, to in heard.items())
        return f"{it.begin:.1f} to {it.end:.1f} s, {it.shape}: {sides}"

    # The processes.

    def lanes(self) -> Iterator[str]:
        y = float(self.lanes_top)
        for zone, processes in self.zones:
            high = len(processes) * self.high
            place = f'x="16" y="{y}" width="{WIDE - RIGHT - 16}" height="{high}"'
            yield f'<rect {place} class="lane" fill-opacity=".45"/>'
            yield f'<text x="22" y="{y + self.high / 2 + 4}" class="zone">{escape(zone)}</text>'
            for process in processes:
                yield from self.lane(self.run.lanes[process], self.names[process], y)
                y += self.high
            y += 6

    def lane(self, lane: Lane, name: str, y: float) -> Iterator[str]:
        with_words = self.high >= 30
        middle = y + (self.high * 0.66 if with_words else self.high / 2)
        place = f'x="{LEFT - 8}" y="{middle + 4}"'
        yield f'<text {place} class="end">{escape(name)}</text>'
        for span in lane.spans:
            told = f"{name} {span.state} from {span.begin:.1f} to {span.end:.1f} s"
            yield self.bar(self.x(span.begin), self.x(span.end), middle, span.state, told)
        for begin, end in lane.clogs:
            x, wide = self.x(begin), round(self.x(end) - self.x(begin), 1)
            place = f'x="{x}" y="{middle - 7}" width="{wide}" height="14"'
            told = f"{escape(name)} clogged from {begin:.1f} to {end:.1f} s"
            yield f'<rect {place} class="clog"><title>{told}</title></rect>'
        xs = [self.x(it.t) for it in lane.orders] + [WIDE - RIGHT + 20.0]
        for place_of, order in enumerate(lane.orders):
            yield from self.order(order, name, xs[place_of], middle)
            word = word_of(order)
            if with_words and LETTER * len(word) < xs[place_of + 1] - xs[place_of]:
                where = f'x="{xs[place_of] - 6}" y="{y + 10}"'
                yield f'<text {where} class="word">{word}</text>'
        for t in lane.cuts:
            told = f"<title>the power of {escape(name)} was cut at {t:.2f} s</title>"
            yield f'<path d="M{self.x(t) + 12} {middle - 8}{BOLT}" class="crash">{told}</path>'
        for t, how in lane.ends:
            yield self.diamond(self.x(t), middle, f"{name} ended by itself at {t:.2f} s, {how}")

    def bar(self, x: float, end: float, middle: float, state: State, told: str = "") -> str:
        high = {State.UP: 10, State.HEALING: 10, State.GONE: 2}.get(state, 5)
        place = f'x="{x}" y="{middle - high / 2}" width="{round(max(end - x, 0.5), 1)}"'
        title = f"<title>{escape(told)}</title>"
        return f'<rect {place} height="{high}" class="{state}">{title if told else ""}</rect>'

    def order(self, order: Struck, name: str, x: float, y: float) -> Iterator[str]:
        kind = order.does or Kind(order.event["order"])
        words = ["order"]
        if order.event["beyond"]:
            words.append("beyond")
        elif order.does is None:
            words.append("barred")
        elif order.is_lessened:
            words.append("lessened")
        if (name, order.event["entry"]) in self.takers:
            words.append("taker")
        yield from self.circle(x, y, " ".join(words), SHORT[kind][0], self.told_by(order))

    def circle(self, x: float, y: float, kind: str, letter: str, told: str = "") -> Iterator[str]:
        radius = 7.5 if self.high > 16 else 6.5
        title = f"<title>{escape(told)}</title>" if told else ""
        yield f'<g class="{kind}">{title}<circle cx="{x}" cy="{y}" r="{radius}"/>'
        yield f'<text x="{x}" y="{y + 3.6}">{letter}</text></g>'

    def diamond(self, x: float, y: float, told: str) -> str:
        title = f"<title>{escape(told)}</title>" if told else ""
        return f'<path d="M{x} {y - 8}l7 8l-7 8l-7 -8z" class="crash">{title}</path>'

    # Why.

    def told_by(self, order: Struck) -> str:
        """An order, what was done, and why no more."""
        event = order.event
        targets = " ".join(self.names[it] for it in event["targets"]) or "nobody"
        what = f"{order.t:.1f} s, entry {event['entry']}: {event['order']} of {event['value']}"
        if event["value"] != targets:
            what += f" ({targets})"
        done = event["does"] or "nothing"
        if not event["rule"]:
            return f"{what}: {'done' if done == event['order'] else f'{done} was done'}"
        rule = " ".join(map(str, event["rule"]))
        for name, what_so, those in (
            ("TooManyDestroyed", "counted as destroyed", order.destroyed),
            ("TooFewLeft", "was gone", order.gone),
        ):
            if event["rule"][0] == name and those:
                rule += f", since {' '.join(self.names[it] for it in those)} {what_so}"
        said = event["verdict"] or "no"
        guard = f"; the guard said {said}" if event["beyond"] else ""
        return f"{what}: {done} was done{guard}: {rule}"

    def faults(self) -> Iterator[str]:
        """What became of records, each fault once."""
        by_fault: dict[tuple[str, str], list[Record]] = {}
        for record in self.run.records:
            by_fault.setdefault((record.verdict, record.fault), []).append(record)
        for (verdict, fault), (first, *more) in by_fault.items():
            others = f" and {len(more)} more" if more else ""
            yield f"{first.t:.2f} s: {first.key}{others}, {verdict}: {fault}"

    def below(self) -> Iterator[str]:
        """What became of records; which orders struck with less or with more, and why."""
        orders = self.run.orders
        beyond = [it for it in orders if it.event["beyond"]]
        less = [it for it in orders if it.event["rule"] and not it.event["beyond"]]
        for head, texts, name in (
            ("Records that are not kept", [*self.faults()], "records.jsonl"),
            ("Beyond the guard", [*map(self.told_by, beyond)], EVENTS),
            ("Why no harder", [*map(self.told_by, less)], EVENTS),
            *((it.label.capitalize(), [bar[-1] for bar in it.bars], EVENTS) for it in self.rows),
        ):
            if texts:
                yield head
                yield from (f" {text}" for text in texts[:LISTED])
                if len(texts) > LISTED:
                    yield f" and {len(texts) - LISTED} more, in {name}"


def rows_of(times: Sequence[tuple[float, float]]) -> list[int]:
    """The row of each, so that none covers another that isn't over yet."""
    ends: list[float] = []
    rows = []
    for begin, until in times:
        row = next((row for row, end in enumerate(ends) if end <= begin), len(ends))
        ends[row : row + 1] = [until]
        rows.append(row)
    return rows


def word_of(order: Struck) -> str:
    """What was ordered and done, in a word or two."""
    ordered = SHORT[Kind(order.event["order"])][1]
    if order.does is None:
        return f"no {ordered}"
    done = SHORT[order.does][1]
    return done if done == ordered else f"{ordered}\u2192{done}"
