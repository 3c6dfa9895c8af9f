"""Whether a picture is readable in grey: in light and in dark the fills of every two states, and of
a state and the paper, differ, and each glyph stands out on each state and on the paper. A glyph is
the same in both: what is black in light isn't white in the dark."""

from __future__ import annotations

import itertools
import math
import re
import xml.etree.ElementTree as xml
from collections.abc import Iterator

SVG = "{http://www.w3.org/2000/svg}"
# What FORMATS says of the states, and what WCAG asks of graphics (success criterion 1.4.11).
LEAST_CONTRAST, GLYPH_CONTRAST = 1.6, 3
# WCAG's own: black on white, and the grey that is the darkest with 4.5 on white.
KNOWN_CONTRASTS = [("#000000", "#ffffff", 21.0), ("#767676", "#ffffff", 4.54)]

# What a style says of each selector: its properties.
Style = dict[str, dict[str, str]]


def schemes_of(text: str) -> Iterator[Style]:
    """What a style says of each selector, in light and in dark."""
    dark = re.search(r"@media \(prefers-color-scheme: dark\) \{(.*)\n\}", text, re.DOTALL)
    assert dark, "a style without a dark scheme"
    found: Style = {}
    for scheme in (text.replace(dark[0], ""), dark[1]):
        for selectors, said in re.findall(r"([^{}]+)\{([^{}]+)\}", scheme):
            for selector in map(str.strip, selectors.split(",")):
                told = dict(re.findall(r"([a-z-]+): ([^;]+);", said))
                found[selector] = found.get(selector, {}) | told
        yield dict(found)


def styles_of(sheet: xml.Element) -> Iterator[Style]:
    """What the styles of a picture say, in light and in dark."""
    styles = (schemes_of(it.text or "") for it in sheet.iter(SVG + "style"))
    for schemes in zip(*styles, strict=True):
        yield {selector: said for scheme in schemes for selector, said in scheme.items()}


def luminance(colour: str) -> float:
    """The relative luminance of a colour #rrggbb, by WCAG 2.2."""
    total = 0.0
    for at, weight in ((1, 0.2126), (3, 0.7152), (5, 0.0722)):
        it = int(colour[at : at + 2], 16) / 255
        total += weight * (it / 12.92 if it <= 0.04045 else math.pow((it + 0.055) / 1.055, 2.4))
    return total


def contrast(one: str, other: str) -> float:
    """The contrast of two colours, by WCAG 2.2."""
    dark, light = sorted((luminance(one), luminance(other)))
    return (light + 0.05) / (dark + 0.05)


def check_own() -> None:
    """Holds `contrast` against WCAG's own numbers."""
    for one, other, known in KNOWN_CONTRASTS:
        assert round(contrast(one, other), 2) == known, f"{one} and {other} have {known}"


def check(sheet: xml.Element) -> None:
    """Every two states and the paper differ in grey by LEAST_CONTRAST. The fill of a glyph or its
    rim stands out on each of them, and a glyph is the same in light and in dark."""
    [legend] = [it for it in sheet.iter(SVG + "g") if it.get("class") == "legend"]
    states = sorted(it.get("class") or "" for it in legend.iter(SVG + "rect"))
    assert states == ["clogged", "down", "emptied", "gone", "up"], states
    seen = []
    for style in styles_of(sheet):
        fills = {name: style["." + name]["fill"] for name in [*states, "paper"]}
        for one, other in itertools.combinations(fills, 2):
            told = contrast(fills[one], fills[other])
            assert told >= LEAST_CONTRAST, f"{one} and {other} differ by {told:.2f} in grey"
        glyphs = {f"{it} glyph": style[".order"] | style["." + it] for it in ("filled", "hollow")}
        seen.append(dict(glyphs))
        if ".otherwise" in style:
            glyphs["ring"] = style[".otherwise"]
        for (name, glyph), state in itertools.product(glyphs.items(), fills):
            told = max(contrast(glyph[it], fills[state]) for it in ("fill", "stroke"))
            assert told >= GLYPH_CONTRAST, f"a {name} on {state} has {told:.2f}"
    light, dark = seen
    assert light == dark, f"glyphs are {light} in light, and {dark} in the dark"
