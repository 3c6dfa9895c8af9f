"""The tables of acts, replies, refusals and rules in docs/FORMATS.md.

What each of them is, is the comment of its variant. Who may make an act, and for what it is
refused, are two definitions. Examples are written here: the tests of the Python package make each
act by a call, and read each reply.
"""

from __future__ import annotations

import re

from source import ROOT, PagesError
from tables import cell, table

# A variant of an enum with its comment, and the names of its fields.
VARIANT = re.compile(r"(?m)((?:^    /// .*\n)+)    (\w+)(?: \{([^}]*)\}|\([^)]*\))?,$")

# The acts whose names in JSON aren't those of the variants.
NAMES = {"CopyTo": "copy"}
ROLES = {"true": "any", "is_storage role": "storage", "is_operator role": "operator"}
EXAMPLES = """
{"kill":{"floor":"Reboot","key":"zoneid","kind":"KillInstantly","tear":0,"value":"z0"}}
{"clog":{"key":"processid","ticks":10,"value":"p0"}}
{"unclog":{"key":"processid","value":"p0"}}
{"form":{"members":[0,2],"policy":0}}
{"begin":{"payload":"6869","team":0}}
{"deliver":{"message":0}}
{"lose":{"message":0}}
{"resend":{"process":0,"record":0}}
{"sync":{"process":0}}
{"up":{"process":0}}
{"tick":{"ticks":9}}
{"give":{"actor":3,"kinds":["Reboot"],"scope":"all"}}
{"give":{"actor":3,"kinds":["Clog"],"scope":{"key":"zoneid","value":"z0"}}}
{"take":{"actor":3,"index":0}}
{"protect":{"kinds":["Reboot"],"process":1}}
{"unprotect":{"kinds":["Reboot"],"process":1}}
{"copy":{"from":2,"record":0,"to":1}}
{"replace":{"into":1,"out":0,"team":0}}
{"heal":{"process":0}}
""".split()

REPLIES = {
    "Verdict": '{"verdict":{"rule":["Protected",1],"struck":"RebootProcess"}}',
    "Ruled": '{"ruled":null}',
    "Formed": '{"formed":0}',
    "Begun": '{"begun":{"first":0,"record":0}}',
    "Stored": '"stored"',
    "Marked": '{"marked":true}',
    "Sent": '{"sent":4}',
    "Synced": '{"synced":{"count":1,"first":2}}',
    "Time": '{"time":9}',
    "Done": '"done"',
    "No": '{"no":["Clogged"]}',
}


def read(name: str) -> str:
    return (ROOT / "crates" / name).read_text()


def told(comment: str) -> str:
    """A comment in a cell, where a single sentence has no full stop."""
    text = cell(comment)
    return text if ". " in text else text.rstrip(".")


def variants(path: str, enum: str) -> list[tuple[str, str, str]]:
    """Each variant of an enum, with its comment and its fields."""
    body = read(path).partition(f"pub enum {enum} {{\n")[2].partition("\n}\n")[0]
    return [
        (name, " ".join(it.strip().removeprefix("///") for it in says.splitlines()), fields)
        for says, name, fields in VARIANT.findall(body + "\n")
    ]


def roles() -> dict[str, str]:
    """Whose role may make an act, by the definition `may`."""
    rows = re.findall(r"(?m)^may role \((\w+).*\) = (.*)$", read("fy_cluster/specs/Replies.antt"))
    return {act: ROLES[who] for act, who in rows}


def refused_for() -> dict[str, list[str]]:
    """For what an act is refused, in order, by the definition `refusals`."""
    text = read("fy_cluster/specs/Replies.antt").replace("still_needs", ", StillNeeds")
    parts = re.split(r"(?m)^refusals c h \((\w+)", text)[1:]
    names = "|".join(name for name, _, _ in variants("fy_acts/src/reply.rt", "Refusal"))
    return {
        act: re.findall(rf",\s+({names})\b", body.partition("\n\n")[0])
        for act, body in zip(parts[::2], parts[1::2], strict=True)
    }


def acts() -> str:
    may, refused = roles(), refused_for()
    rows = []
    for name, says, _ in variants("fy_acts/src/act.rt", "Act"):
        act = NAMES.get(name, name.lower())
        if name not in may or name not in refused:
            raise PagesError(f"Replies.antt doesn't say who may make {name}, or its refusals")
        shown = [f"`{it}`" for it in EXAMPLES if it.startswith(f'{{"{act}":')]
        why = ", ".join(f"`{it}`" for it in refused[name])
        rows.append((f"`{act}`", may[name], told(says), why, ", ".join(shown)))
    return table(("Act", "Role", "What it does", "Refused for", "Example"), rows)


def replies() -> str:
    found = variants("fy_acts/src/reply.rt", "Reply")
    return table(
        ("Reply", "What it says"), ((f"`{REPLIES[it]}`", told(says)) for it, says, _ in found)
    )


def refusals() -> str:
    found = variants("fy_acts/src/reply.rt", "Refusal")
    return table(("Refusal", "Where"), ((f"`{name}`", told(says)) for name, says, _ in found))


def rules() -> str:
    rows = []
    for name, says, fields in variants("fy_kinds/src/verdict.rt", "Rule"):
        number = {"process": ",p", "policy": ",i"}.get(fields.strip().partition(":")[0], "")
        rows.append((f'`["{name}"{number}]`', told(says)))
    return table(("Rule", "It bars the order since"), rows)
