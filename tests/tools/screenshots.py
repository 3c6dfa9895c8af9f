"""Screenshots of a picture, in light and in dark, by headless Chromium."""

from __future__ import annotations

import struct
import subprocess
import xml.etree.ElementTree as ElementTree
from pathlib import Path

CHROMIUM = ("chromium", "--headless", "--no-sandbox", "--disable-gpu", "--hide-scrollbars")
SCHEMES = {"light": (), "dark": ("--blink-settings=preferredColorScheme=0",)}
SECONDS = 60
# One of a single colour has fewer.
FEWEST_BYTES = 10_000


def take(picture: Path, folder: Path) -> None:
    """Leaves light.png and dark.png in the folder. Each has the size of the picture, an SVG, and is
    of several colours, and they differ; else a ValueError says so."""
    root = ElementTree.parse(picture).getroot()
    size = int(root.get("width", 0)), int(root.get("height", 0))
    shots = []
    for scheme, words in SCHEMES.items():
        path = folder / f"{scheme}.png"
        path.unlink(missing_ok=True)
        told = [f"--window-size={size[0]},{size[1]}", f"--screenshot={path.resolve()}", *words]
        subprocess.run(
            [*CHROMIUM, *told, picture.resolve().as_uri()],
            capture_output=True,
            check=True,
            timeout=SECONDS,
        )
        shots.append(path.read_bytes())
        # The size stands in the first chunk of a PNG.
        if struct.unpack(">II", shots[-1][16:24]) != size:
            raise ValueError(f"{path.name} isn't of the picture's size")
        if len(shots[-1]) < FEWEST_BYTES:
            raise ValueError(f"{path.name} is empty")
    if shots[0] == shots[1]:
        raise ValueError("light and dark are the same")
