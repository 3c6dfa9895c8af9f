"""The texts of crates, without what no proof depends on."""
import os, re

PARTS = ("src", "specs", "proofs")
# What a check of the largest crate takes.
BYTES_A_CHECK = 7 << 30
PROCESSORS = len(os.sched_getaffinity(0))
ROOMS_A_CRATE = max(
    1, min(PROCESSORS, os.sysconf("SC_PAGE_SIZE") * os.sysconf("SC_PHYS_PAGES") // BYTES_A_CHECK)
)


def read(file):
    with open(file, encoding="utf-8") as text:
        return text.read()


def files_of(folder, parts=PARTS):
    for part in parts:
        for at, folders, names in os.walk(f"{folder}/{part}"):
            folders.sort()
            yield from (f"{at}/{name}" for name in sorted(names) if name.endswith((".rt", ".antt")))


def without_comments(text, mark="//"):
    """A file of src/, or with the mark `--` one of specs/ or proofs/, without the lines that are
    comments."""
    return re.sub(rf"(?m)^[ \t]*{mark}.*\n?", "", text)


def without_tests(file, text):
    """A file without what only `rt check --test` reads."""
    is_of_tests = "/tests/" in file or file.endswith("/tests.rt")
    return (
        ""
        if is_of_tests
        else re.sub(r"(?ms)^#\[cfg\(test\)\]\n(?:[^\n]*;|mod \w+ \{$.*?^\})\n", "", text).rstrip(
            "\n"
        )
    )
