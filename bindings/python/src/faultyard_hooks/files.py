"""Records that stand in a store's files as they were written."""

from __future__ import annotations

import glob
import os
import re
import time
from typing import Any, Callable, Dict, Optional, Tuple, Union

RECORD = re.compile(rb"(r/\d{9}) ([0-9a-f]{16})")
FRESH = 1.0  # seconds for which what was found is told again
Look = Callable[..., Dict[str, str]]
_looked: Dict[Tuple[Any, ...], Tuple[float, Dict[str, str]]] = {}


def records_in(place: str, *patterns: str) -> Dict[str, str]:
    """The records that stand as `KEY VALUE` in files below a folder, which patterns of `glob` name.

    Where a store moves them from one file to another, the latter is named later.
    """
    found: Dict[bytes, bytes] = {}
    for pattern in patterns:
        for path in glob.glob(os.path.join(glob.escape(place), pattern)):
            with open(path, "rb") as file:
                found.update(RECORD.findall(file.read()))
    return {key.decode(): value.decode() for key, value in found.items()}


def record_in(key: str, place: Union[str, Look], *words: Any) -> Optional[str]:
    """The value of one of them. A record that is found is told for a second without a new look.

    In place of a folder may stand a function that tells all records by the other words.
    """
    when, found = _looked.get((place, *words), (0.0, {}))
    if key not in found or time.monotonic() > when + FRESH:
        told = records_in(place, *words) if isinstance(place, str) else place(*words)
        when, found = time.monotonic(), told
        _looked[(place, *words)] = when, found
    return found.get(key)
