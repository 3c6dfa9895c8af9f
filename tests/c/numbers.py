#!/usr/bin/env python3
"""Holds each number of include/faultyard.h against the one by which crates/fy_c, which is proved,
knows it."""
import re
import subprocess
from pathlib import Path

# What only the header answers, and 'none'.
OWN = {
    "FY_CLOSED": 19,
    "FY_EVERYONE": 0,
    "FY_NONE": 0,
    "FY_NO_RULE": 0,
    "FY_NOT_REFUSED": 0,
    "FY_ORDER_NONE": 0,
    "FY_WHOLE_FILE": 0,
}

top = Path(__file__).resolve().parents[2]
header = dict(
    re.findall(r"^    (FY_\w+) = (\d+),", (top / "include/faultyard.h").read_text(), re.M)
)
sources = "".join(
    (top / "crates/fy_c/src" / f"{it}.rt").read_text()
    for it in ("status", "entering", "numbers", "faults")
)
known = re.findall(r"(?:Status|Refusal|Kind|Rule)::(\w+)(?: \{ \.\. \})?\)? => (\d+),", sources)
known += [
    (name, number) for number, name in re.findall(r"(\d+) => Some\((?:Key|Kind)::(\w+)\)", sources)
]
known += [
    (f"Part{name}", number) for name, number in re.findall(r" Part::(\w+) => (\d+),", sources)
]
planning = (top / "crates/fy_c/src/planning.rt").read_text()
known += re.findall(r"const (ORDER_\w+): u32 = (\d+);", planning)
known += [
    (f"Plan{name}", number)
    for number, name in re.findall(r"(\d+) => Some\(Plan::(\w+)\)", planning)
]
# A rule that names nothing is 0 in that sense alone.
wanted = {
    "FY_" + re.sub(r"(?<=[a-z])([A-Z])", r"_\1", it).upper(): int(n)
    for it, n in known
    if (it, n) != ("NoTarget", "0")
}
found = {name: int(number) for name, number in header.items()}
assert found == wanted | OWN, sorted(set(found.items()) ^ set((wanted | OWN).items()))

version = subprocess.run(
    [top / "release/version"], capture_output=True, check=True, text=True
).stdout.strip()
first, second, third = map(int, version.split("."))
defined = dict(
    re.findall(r"^#define (FAULTYARD_\w+) (\S+)$", (top / "include/faultyard.h").read_text(), re.M)
)
number = first * 10000 + second * 100 + third
assert defined == {
    "FAULTYARD_VERSION": str(number),
    "FAULTYARD_VERSION_TEXT": f'"{version}"',
}, defined

limit = re.search(
    r"MOST_REPLY_BYTES: usize = (\d+);", (top / "crates/fy_c/src/acting.rt").read_text()
)[1]
assert f"#define FY_MOST_REPLY {limit}\n" in (top / "include/faultyard.h").read_text()


def source(file):
    return (top / "crates" / file).read_text()


def limit_of(file, name):
    """The value of a constant of a crate."""
    return int(re.search(rf"pub const {name}: \w+ = ([\d_]+);", source(file))[1].replace("_", ""))


# Acts by numbers: limits, the number for every process, the bits of kinds and the fields of a
# reply.
text = (top / "include/faultyard.h").read_text()
bits = {name: int(bit) for name, bit in re.findall(r"^#define FY_KINDS_(\w+) (\d+)u\b", text, re.M)}
known = {
    name: int(bit)
    for name, bit in re.findall(
        r"const (\w+): MemberBits = MemberBits\((\d+)\);", source("fy_kinds/src/kind_set.rt")
    )
}
assert bits == known | {"ALL": sum(known.values())}, (bits, known)
assert limit_of("fy_c/src/rights.rt", "EVERYONE") == found["FY_EVERYONE"]
assert f"#define FY_MOST_PAYLOAD {limit_of('fy_c/src/storing.rt', 'MOST_PAYLOAD')}\n" in text
assert f"#define FY_MOST_MEMBERS {limit_of('fy_team/src/limits.rt', 'MOST_MEMBERS')}\n" in text
for rust, file, name in (("FyReply", "making", "fy_reply"), ("FyBorne", "bearing", "fy_borne")):
    struct = re.search(rf"pub struct {rust} \{{(.*?)\n\}}", source(f"fy_c/src/{file}.rt"), re.S)[1]
    fields = [
        ("record" if it == "rec" else it, bits)
        for it, bits in re.findall(r"pub (\w+): u(\d+),", struct)
    ]
    struct = re.search(rf"typedef struct {name} \{{(.*?)\n\}}", text, re.S)[1]
    assert [
        (it, bits) for bits, it in re.findall(r"^    uint(\d+)_t (\w+);", struct, re.M)
    ] == fields, fields
print(f"numbers.py: {len(found)} numbers")
