"""release/words.toml: words and numbers of the formats and of C, read off the source of the crates.

Every language has names of its own for them, so they stand again: tests/words holds each place.
"""

from __future__ import annotations

import re
import subprocess
from collections.abc import Iterable

import acts
import limits
from acts import read, variants
from source import ROOT, PagesError

Numbers = dict[str, int]
Members = dict[str, list[str]]

HEAD = """\
# Every word and number of the formats and of C, made from the crates' source by make pages.
# tests/words holds each place against it where one of them stands again.
"""
READING = ("fy_spelling/src/reading.rt", "fy_spelling/src/reading/replies.rt")
PARTS = ("fy_spelling/src/parts.rt", "fy_asking/src/parts.rt")


def functions(*paths: str) -> dict[str, str]:
    """The body of each function of these files."""
    head = r"(?ms)^(?:pub |pub\(\w+\) )?fn (\w+).*?^\{$\n(.*?)^\}$"
    return {name: body for path in paths for name, body in re.findall(head, read(path))}


def members_in(*paths: str) -> Members:
    """Of each word for which an object is read, the members that this has to have."""
    bodies = functions(*PARTS, *paths)
    arm = r'(?ms)^        "(\w+)" => (.*?)(?=^        (?:"|_ )|\Z)'
    found = {}
    for word, body in re.findall(arm, "\n".join(functions(*paths).values())):
        named = re.findall(r"(\w+)\((?:alloc, )?value\)", body)
        called = "".join(bodies[it] for it in named if it in bodies)
        taken = re.findall(r'\w+\(value, ((?:"\w+"(?:, )?)+)\)', body + called)
        found[word] = re.findall(r'"(\w+)"', " ".join(taken))
    return found


def spelled(path: str, enum: str) -> dict[str, str]:
    """The word of each variant, in order."""
    rows = rf'(?m)^ +(?:Some\()?{enum}::(\w+)(?: \{{ \.\. \}})?\)? => "(\w+)",$'
    return dict(re.findall(rows, read(path)))


def numbered(path: str, enum: str) -> Numbers:
    """The number by which C knows each variant."""
    text = read(path)
    rows = re.findall(rf"(?m)^ +(?:Some\()?{enum}::(\w+)(?: \{{ \.\. \}})?\)? => (\d+),$", text)
    rows += [(it, n) for n, it in re.findall(rf"(?m)^ +(\d+) => Some\({enum}::(\w+)\),$", text)]
    return {name: int(number) for name, number in rows}


def with_numbers(words: dict[str, str], numbers: Numbers, what: str) -> Numbers:
    """The number of each word. The source has to have both of each variant."""
    if not words or set(words) != set(numbers):
        raise PagesError(f"the crates have other words than numbers of {what}")
    return {word: numbers[name] for name, word in words.items()}


def constants(path: str, pattern: str) -> Numbers:
    return {name: int(number) for name, number in re.findall(pattern, read(path))}


def deeds() -> Numbers:
    """The bits of the kinds, and of clogging, in a set."""
    kinds = spelled("fy_kinds/src/kind.rt", "Kind")
    bits = constants("fy_kinds/src/kind_set.rt", r"const (\w+): MemberBits = MemberBits\((\d+)\);")
    (clog,) = re.findall(
        r'put_listed\(out, later, "(\w+)"\)', read("fy_spelling/src/writing/acts.rt")
    )
    return dict(zip([*kinds.values(), clog], bits.values(), strict=True))


def plans() -> Numbers:
    words = re.findall(r'Some\("(\w+)"\) => Some\(Plan::(\w+)\)', read("faultyard/src/task.rt"))
    numbers = numbered("fy_c/src/planning.rt", "Plan")
    return with_numbers({name: word for word, name in words}, numbers, "plans")


def rules() -> Numbers:
    names = [name for name, _, _ in variants("fy_kinds/src/verdict.rt", "Rule")]
    written = re.findall(r'\[\\"(\w+)\\"', read("fy_spelling/src/writing/replies.rt"))
    if names != written:
        raise PagesError("the crates have other rules than words of them")
    return with_numbers({it: it for it in names}, numbered("fy_c/src/numbers.rt", "Rule"), "rules")


def statuses() -> Numbers:
    """The statuses of C. That of a closed guard is the header's own."""
    names = {name: name for name, _, _ in variants("fy_c/src/status.rt", "Status")}
    return with_numbers(names, numbered("fy_c/src/status.rt", "Status"), "statuses")


def numbers() -> dict[str, Numbers]:
    refusals = spelled("fy_spelling/src/writing/replies.rt", "Refusal")
    if refusals != spelled("fy_asking/src/writing/replies.rt", "Refusal"):
        raise PagesError("two crates spell refusals otherwise")
    order = r"const ORDER_(\w+): u32 = (\d+);"
    orders = constants("fy_c/src/planning.rt", order)
    kinds, keys = spelled("fy_kinds/src/kind.rt", "Kind"), spelled("fy_locality/src/key.rt", "Key")
    parts = spelled("fy_streams/src/stop.rt", "Part")
    told = numbered("fy_c/src/entering.rt", "Refusal")
    return {
        "keys": with_numbers(keys, numbered("fy_c/src/numbers.rt", "Key"), "keys"),
        "kinds": with_numbers(kinds, numbered("fy_c/src/numbers.rt", "Kind"), "kinds"),
        "deeds": deeds(),
        "rules": rules(),
        "refusals": with_numbers(refusals, told, "refusals"),
        "parts": with_numbers(parts, numbered("fy_c/src/faults.rt", "Part"), "parts"),
        "plans": plans(),
        "orders": {word.lower(): number for word, number in orders.items()},
        "statuses": statuses(),
        "limits": {f"{it.crate}.{it.name}": number for it, number in limits.limits()},
    }


def roles() -> list[str]:
    return re.findall(r'"(\w+)" => Some\(Role::\w+\)', read("fy_config/src/tables.rt"))


def file_keys() -> Members:
    """The keys of a cluster file and of its tables."""
    text = read("fy_config/src/fields.rt") + read("fy_config/src/tables.rt")
    rows = re.findall(r"const (\w+)_KEYS: \[&str; \d+\] = \[(.*)\];", text)
    return {name.lower(): re.findall(r'"(\w+)"', its) for name, its in rows}


def of_acts() -> Members:
    """The members of each act."""
    found = members_in(READING[0])
    names = [acts.NAMES.get(it, it.lower()) for it, _, _ in variants("fy_acts/src/act.rt", "Act")]
    return {name: found[name] for name in names}


def of_replies() -> Members:
    """The members of each reply, which has none where it is a word, a number or a list."""
    found = members_in(READING[1])
    texts = (acts.REPLIES[name] for name, _, _ in variants("fy_acts/src/reply.rt", "Reply"))
    return {word: found.get(word, []) for text in texts for word in re.findall(r"\w+", text)[:1]}


def of_questions() -> Members:
    found = members_in("fy_asking/src/reading.rt")
    names = [it for it, _, _ in variants("fy_questions/src/question.rt", "Question")]
    words = [it.lower() if it.lower() in found else it.lower().removesuffix("s") for it in names]
    return {word: found[word] for word in words}


# What writes the object of each answer.
WRITERS = {
    "state": ("put_status", "put_state"),
    "record": ("put_record",),
    "cluster": ("put_cluster_front", "put_cluster"),
    "process": ("put_process",),
    "actor": ("put_actor",),
    "sight": ("put_sight",),
}


def of_answers() -> Members:
    """The members of the objects that answers consist of."""
    bodies = functions("fy_asking/src/told_line.rt")
    return {
        word: [
            it for name in writers for it in re.findall(r'\\"(\w+)\\":', bodies[name]) if it != word
        ]
        for word, writers in WRITERS.items()
    }


def version() -> str:
    told = subprocess.run([ROOT / "release/version"], capture_output=True, text=True, check=True)
    return told.stdout.strip()


def quoted(words: Iterable[str]) -> str:
    return f"[{', '.join(f'{chr(34)}{it}{chr(34)}' for it in words)}]"


def made() -> str:
    """The text of the table."""
    lines = [HEAD, f'version = "{version()}"', f"roles = {quoted(roles())}"]
    for name, its in numbers().items():
        lines += ["", f"[{name}]", *(f"{word} = {number}" for word, number in its.items())]
    lists = {"file": file_keys(), "acts": of_acts(), "replies": of_replies()}
    lists |= {"questions": of_questions(), "answers": of_answers()}
    for name, members in lists.items():
        lines += ["", f"[{name}]", *(f"{word} = {quoted(its)}" for word, its in members.items())]
    return "\n".join([*lines, ""])
