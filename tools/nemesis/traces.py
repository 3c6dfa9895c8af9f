"""Looks for records in the files of a store that can't be started on them."""
import os
import re
import stat
from collections.abc import Iterator, Mapping
from pathlib import Path

from faultyard.history import PREFIX

# A key or a value, also where other digits stand around it.
TEXT = re.compile(rf"(?=({PREFIX}\d{{9}}|[0-9a-f]{{16}}))".encode())
LONGEST = 16  # bytes of a text
STEP = 1 << 20  # bytes that are read at once


def traces(folder: Path, records: Mapping[str, str]) -> set[str]:
    """The keys of those records of which the key or the value stands in a file below a folder.

    Either is enough, since a store may put the header of a page between any two bytes.
    """
    found = set[bytes]()
    for path in files(folder):
        for block in blocks(path):
            found.update(TEXT.findall(block))
    texts = {it.decode() for it in found}
    return {key for key, value in records.items() if key in texts or value in texts}


def files(folder: Path) -> Iterator[Path]:
    """All files below a folder, each of which has to be readable."""

    def fail(fault: OSError) -> None:
        raise fault

    for place, _, names in os.walk(folder, onerror=fail):
        for path in (Path(place, name) for name in names):
            if stat.S_ISREG(path.lstat().st_mode):
                yield path


def blocks(path: Path) -> Iterator[bytes]:
    """What a file has but for long zeros, so that each text is in one of the blocks."""
    last = b""
    with path.open("rb") as file:
        while block := last + file.read(STEP):
            if len(block) == len(last):
                return
            if block.strip(b"\0"):
                yield block
            last = block[1 - LONGEST :]
