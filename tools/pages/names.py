"""Names that pages set as code: each has to stand in the source, or in the formats, and a path with
a file's suffix has to end one of the repository's."""

from __future__ import annotations

import re
import subprocess
from collections.abc import Iterable, Iterator
from pathlib import Path

from source import ROOT

# A name, or a path of names; the last may be a list of them.
NAME = re.compile(r"\w+(?:(?:::|\.|/)\w+)*(?:::\{[\w, ]+\})?(?:\(\))?")
# A path with a suffix, from wherever the page begins it.
PATH = re.compile(r"(?:\.\.?/)*([\w*-][\w.*-]*(?:/[\w.*-]+)*\.[A-Za-z]\w*)")
# What stands in a path for any name, and for any folders.
GAPS = {"NAME": "[^/]+", "WHAT": "[^/]+", "*": "[^/]+", "PATH": ".+"}
# Files that git doesn't know, and what makes them.
GENERATED = {
    "bin/libfaultyard.a": "make lib",
    "bin/libfaultyard.so": "make lib",
    "docs/CONTRACTS.md": "make pages",
    "docs/DEFINITIONS.md": "make pages",
}
FENCED = re.compile(r"(?ms)^ *```.*?^ *```$")
# What holds names that are gone, or that never were.
APART = ("CHANGELOG.md",)

# Names that others gave: stores, their settings and files, tools of the system.
OTHERS = {
    "bad_object": "Mnesia",
    "schema.DAT": "Mnesia",
    "PolicyOne": "FoundationDB",
    "PolicyAcross": "FoundationDB",
    "PolicyAnd": "FoundationDB",
    "triple": "FoundationDB",
    "topology.kubernetes.io/zone": "Kubernetes",
    "CMAKE_PREFIX_PATH": "CMake",
    "perf": "Linux",
    "min.insync.replicas": "Kafka",
    "min_size": "Ceph",
    "force_boot": "RabbitMQ",
    "QUORUM": "Cassandra",
    "LOCAL_QUORUM": "Cassandra",
    "limit_WHAT": "a name with a gap",
}


def files(*patterns: str) -> list[Path]:
    """The files that git knows, and those that it will."""
    words = ["git", "-C", str(ROOT), "ls-files", "-co", "--exclude-standard", *patterns]
    names = subprocess.run(words, check=True, stdout=subprocess.PIPE, text=True).stdout
    return [ROOT / it for it in names.split("\n") if it and (ROOT / it).is_file()]


def known() -> set[str]:
    """Each word of the source and of the formats, and each name of a file or a folder."""
    found: set[str] = set()
    for path in files():
        inside = path.relative_to(ROOT)
        found.update(re.findall(r"\w+", str(inside)))
        if not str(inside).startswith(APART) and (path.suffix != ".md" or path.stem == "FORMATS"):
            found.update(re.findall(r"\w+", path.read_text(errors="replace")))
    return found


def code_in(text: str) -> list[str]:
    """Each span of code once; code in blocks is tested elsewhere."""
    return [*dict.fromkeys(re.findall(r"`([^`\n]+)`", FENCED.sub("", text)))]


def ends_a_path(span: str, paths: str) -> bool:
    """The span is the end of one of the paths, each of which stands on a line behind a slash."""
    end = "".join(GAPS.get(it) or re.escape(it) for it in re.split(r"(\*|NAME|WHAT|PATH)", span))
    return re.search(rf"(?m)^.*/{end}$", paths) is not None


def unknown_in(text: str, words: set[str], paths: str) -> Iterator[tuple[str, str]]:
    """Each span that is a name or a path, with what the source lacks of it."""
    for span in code_in(text):
        if span in OTHERS or span[0].isdigit():
            continue
        if "/" in span and (path := PATH.fullmatch(span)):
            if not ends_a_path(path[1], paths):
                yield span, "such path"
        elif NAME.fullmatch(span):
            lacking = [it for it in re.findall(r"\w+", span) if it not in words]
            yield from ((span, it) for it in lacking[:1])


def unknown(pages: Iterable[Path]) -> Iterator[str]:
    words = known()
    there = [*(str(it.relative_to(ROOT)) for it in files()), *GENERATED]
    paths = "".join(f"/{it}\n" for it in there)
    for path in pages:
        name = path.relative_to(ROOT)
        if not str(name).startswith(APART):
            for span, lacking in unknown_in(path.read_text(), words, paths):
                yield f"{name}: the source has no {lacking}, which it names as `{span}`"
