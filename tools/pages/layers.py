"""The crates: the table of ARCHITECTURE, and docs/layers.svg, which draws what stands on what."""

from __future__ import annotations

from collections.abc import Iterator
from dataclasses import dataclass, field
from html import escape

from source import Crate, crates, dependencies
from tables import cell, table

# It stands on all others, so its lines would hide theirs.
UNDRAWN = "fy_examples"

WIDTH, HEIGHT, ROW, GAP, EDGE, LEGEND_WIDTH = 130, 28, 74, 14, 24, 260


@dataclass
class Ground:
    """What each crate of the repository stands on: all of it, and the edges that no others
    imply."""

    below: dict[str, set[str]] = field(default_factory=dict)
    edges: dict[str, set[str]] = field(default_factory=dict)
    toolchain: dict[str, list[str]] = field(default_factory=dict)

    @classmethod
    def read(cls) -> Ground:
        found = cls()
        all_of = dependencies()
        for name, its in all_of.items():
            own = [it for it in its if it in all_of]
            indirect = set[str]().union(*(found.below[it] for it in own))
            found.edges[name] = set(own) - indirect
            found.below[name] = set(own) | indirect
            found.toolchain[name] = [it for it in its if it not in all_of]
        return found

    def ships_in(self, name: str) -> str:
        """P where it is in the program, L where it is in the C library."""
        tops = (("P", "faultyard"), ("L", "fy_c"))
        found = [it for it, top in tops if name == top or name in self.below[top]]
        return ", ".join(found) or "neither"


def crate_table() -> str:
    ground = Ground.read()
    rows = (
        (f"`{it}`", ground.ships_in(it), ", ".join(ground.toolchain[it]), cell(Crate(it).says))
        for it in crates()
    )
    return table(("Crate", "Ships in", "From the toolchain", "What it is"), rows)


# ---- the diagram


@dataclass
class Grid:
    """Rows of crates, and of the bends of lines that pass through a row."""

    rows: list[list[str]]
    chains: list[tuple[str, str, list[str]]]
    above: dict[str, list[str]] = field(default_factory=dict)
    under: dict[str, list[str]] = field(default_factory=dict)

    @classmethod
    def of(cls, ground: Ground) -> Grid:
        drawn = [it for it in crates() if it != UNDRAWN]
        level: dict[str, int] = {}
        for name in drawn:
            level[name] = 1 + max((level[it] for it in ground.edges[name]), default=-1)
        grid = cls([[] for _ in range(max(level.values()) + 1)], [])
        for name in drawn:
            grid.rows[level[name]].append(name)
        for name in drawn:
            for low in sorted(ground.edges[name]):
                bends = [f"{name}>{low}@{it}" for it in range(level[name] - 1, level[low], -1)]
                for at, bend in zip(range(level[name] - 1, level[low], -1), bends, strict=True):
                    grid.rows[at].append(bend)
                grid.chains.append((name, low, bends))
                grid.join([name, *bends, low])
        return grid

    def join(self, chain: list[str]) -> None:
        for high, low in zip(chain, chain[1:], strict=False):
            self.under.setdefault(high, []).append(low)
            self.above.setdefault(low, []).append(high)

    def crossings(self) -> int:
        """How many pairs of lines cross between rows."""
        count = 0
        for low, high in zip(self.rows, self.rows[1:], strict=False):
            place = {it: at for at, it in enumerate(low)}
            beneath = (sorted(place[it] for it in self.under.get(name, [])) for name in high)
            ends = [it for places in beneath for it in places]
            count += sum(b < a for at, a in enumerate(ends) for b in ends[at + 1 :])
        return count

    def arranged(self) -> Grid:
        """Orders each row by the middle of its neighbours' places, up and down in turn, and keeps
        the order in which the fewest lines cross."""
        best, least = [[*it] for it in self.rows], self.crossings()
        for turn in range(24):
            upward = turn % 2 == 0
            for at in range(1, len(self.rows)) if upward else range(len(self.rows) - 2, -1, -1):
                beside = self.rows[at - 1] if upward else self.rows[at + 1]
                place = {it: float(where) for where, it in enumerate(beside)}
                next_to = self.under if upward else self.above
                own = {it: float(where) for where, it in enumerate(self.rows[at])}

                def middle(it: str) -> float:
                    places = [place[other] for other in next_to.get(it, [])]
                    return sum(places) / len(places) if places else own[it]

                self.rows[at].sort(key=middle)
            if self.crossings() < least:
                best, least = [[*it] for it in self.rows], self.crossings()
        self.rows = best
        return self

    def places(self) -> dict[str, float]:
        """The middle of each crate and bend from the left, without overlap, near its neighbours."""
        x: dict[str, float] = {}
        for row in self.rows:
            at = 0.0
            for it in row:
                x[it] = at + size(it) / 2
                at += size(it) + GAP
        for turn in range(60):
            for row in self.rows if turn % 2 else self.rows[::-1]:
                wanted = []
                for it in row:
                    beside = [x[other] for other in self.under.get(it, []) + self.above.get(it, [])]
                    wanted.append(sum(beside) / len(beside) if beside else x[it])
                for it, place in zip(row, spread(row, wanted), strict=True):
                    x[it] = place
        left = min(x[it] - size(it) / 2 for it in x)
        return {it: place - left + EDGE for it, place in x.items()}


def size(it: str) -> int:
    return 10 if "@" in it else WIDTH


def spread(row: list[str], wanted: list[float]) -> list[float]:
    """Places in this order without overlap, with the least sum of squares from those wanted."""
    offsets: list[float] = []
    at = 0.0
    for low, high in zip([row[0], *row], row, strict=False):
        at += (size(low) + size(high)) / 2 + GAP if offsets else 0
        offsets.append(at)
    blocks: list[tuple[float, int]] = []
    for place, offset in zip(wanted, offsets, strict=True):
        mean, count = place - offset, 1
        while blocks and blocks[-1][0] > mean:
            other, others = blocks.pop()
            mean = (mean * count + other * others) / (count + others)
            count += others
        blocks.append((mean, count))
    starts = [mean for mean, count in blocks for _ in range(count)]
    return [start + offset for start, offset in zip(starts, offsets, strict=True)]


def curve(points: list[tuple[float, float]]) -> str:
    """A line from the first point to the last, which goes straight down beside the boxes of each
    row between."""
    x, y = points[0][0], points[0][1] + HEIGHT / 2
    parts = [f"M {x:.0f} {y:.0f}"]
    for at, (to_x, to_y) in enumerate(points[1:], 2):
        end = to_y - HEIGHT / 2
        middle = (y + end) / 2
        parts.append(f"C {x:.0f} {middle:.0f} {to_x:.0f} {middle:.0f} {to_x:.0f} {end:.0f}")
        x, y = to_x, to_y + HEIGHT / 2
        if at < len(points):
            parts.append(f"V {y:.0f}")
    return " ".join(parts)


STYLE = """<style>
rect { stroke: #1f2937; }
.both { fill: #bfdbfe; } .program { fill: #dcfce7; } .library { fill: #fef3c7; }
.neither { fill: #ffffff; stroke-dasharray: 5 3; }
.edge { fill: none; stroke: #6b7280; stroke-width: 1.2; }
text { fill: #111827; text-anchor: middle; } .words { text-anchor: start; }
</style>"""
CLASSES = {"P, L": "both", "P": "program", "L": "library", "neither": "neither"}
LEGEND = {
    "both": "in the program and the C library",
    "program": "in the program",
    "library": "in the C library",
    "neither": "in neither: an oracle or laws",
}


def legend(y: float) -> Iterator[str]:
    for at, (kind, words) in enumerate(LEGEND.items()):
        x = EDGE + at * LEGEND_WIDTH
        yield f'<rect class="{kind}" x="{x}" y="{y:.0f}" width="22" height="14" rx="3"/>'
        yield f'<text class="words" x="{x + 30}" y="{y + 12:.0f}">{words}</text>'


def diagram() -> str:
    ground = Ground.read()
    grid = Grid.of(ground).arranged()
    x = grid.places()
    y = {
        it: EDGE + HEIGHT / 2 + (len(grid.rows) - 1 - at) * ROW
        for at, row in enumerate(grid.rows)
        for it in row
    }
    width = max(max(x[it] + size(it) / 2 for it in x) + EDGE, EDGE + LEGEND_WIDTH * len(LEGEND))
    foot = EDGE + len(grid.rows) * ROW
    title = "The crates of faultyard: a line leads from a crate down to one that it stands on"
    parts = [
        f'<svg xmlns="http://www.w3.org/2000/svg" viewBox="0 0 {width:.0f} {foot + 20:.0f}"'
        ' font-family="sans-serif" font-size="13">',
        f"<title>{title}</title>",
        STYLE,
        f'<rect x="0" y="0" width="{width:.0f}" height="{foot + 20:.0f}"'
        ' style="fill: #ffffff; stroke: none"/>',
    ]
    for high, low, bends in grid.chains:
        line = curve([(x[it], y[it]) for it in (high, *bends, low)])
        parts.append(f'<path class="edge" data-from="{high}" data-to="{low}" d="{line}"/>')
    for it in (it for row in grid.rows for it in row if "@" not in it):
        kind = CLASSES[ground.ships_in(it)]
        left, top = x[it] - WIDTH / 2, y[it] - HEIGHT / 2
        parts.append(
            f'<rect class="{kind}" data-crate="{it}" x="{left:.0f}" y="{top:.0f}"'
            f' width="{WIDTH}" height="{HEIGHT}" rx="4"/>'
        )
        parts.append(f'<text x="{x[it]:.0f}" y="{y[it] + 5:.0f}">{escape(it)}</text>')
    return "\n".join([*parts, *legend(foot - 10), "</svg>", ""])
