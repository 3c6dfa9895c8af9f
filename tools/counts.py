#!/usr/bin/env python3
"""Counts what occurs in audits; what `sweep` knows of them is from here.

    tools/counts.py audits CONFIG         reads paths of audits, a path a line, and writes what each
                                          holds, a JSON object a line
    tools/counts.py table RAN WANTED      reads the rows of a sweep, and writes the table of all
                                          seeds; status 1 where one is bad or missing

Struck, barred, refused and replied is what the replies say. A record is acknowledged once the
delivery of an acknowledgement was answered so. A holder of a record has synced it and isn't
destroyed. A record outlived the loss of a holder where one order or more destroyed holders of it
once it was acknowledged, and a holder was left each time; of all but one where one was left. What
the disks hold is read off the entries; where each process stands is asked of the program, which
FAULTYARD names. The audit of a nemesis has no records: what became of those that it wrote says its
`verdict.jsonl` beside the audit.
"""
from __future__ import annotations

import json
import os
import subprocess
import sys
from collections import Counter
from collections.abc import Iterable
from pathlib import Path
from typing import Any

sys.dont_write_bytecode = True
HERE = Path(__file__).resolve().parent
# The package of a checkout, or of an installation.
PACKAGES = (HERE.parent / "bindings", HERE.parent.parent / "share/faultyard/bindings")
sys.path[:0] = [str(it / "python/src") for it in PACKAGES]

from command_line import printed  # noqa: E402
from faultyard import Kind, Refusal, Rule  # noqa: E402

KINDS = tuple(it.value for it in Kind if it is not Kind.CLOG)[::-1]
DESTROYING = KINDS[:2]
RULES, REFUSALS = (tuple(it.value for it in words) for words in (Rule, Refusal))
REPLIES = ("formed", "begun", "stored", "marked", "sent", "synced", "time", "done", "ruled")
ROWS = (
    "entries",
    *(f"struck with {kind}" for kind in KINDS),
    "struck nobody",
    *(f"barred by {rule}" for rule in RULES),
    *(f"refused: {refusal}" for refusal in REFUSALS),
    *(f"replied: {reply}" for reply in REPLIES),
)
OF_CLUSTERS = (
    "records begun",
    "records acknowledged",
    "outlived the loss of a holder",
    "outlived the loss of all holders but one",
)
# What is said of a store's records, which its audit knows nothing of.
OF_STORES = tuple("acknowledged kept lost missing stale unreadable wrong".split())
Reply = dict[str, Any]


def named(reply: Any) -> Reply:
    """A reply as an object, also one that is a word alone."""
    return {reply: None} if isinstance(reply, str) else dict(reply)


class Disks:
    """Who holds which record, and which records are acknowledged, by the entries so far."""

    def __init__(self, processes: list[dict[str, str]]) -> None:
        self.processes = processes
        self.unsynced: list[list[int]] = [[] for _ in processes]
        self.synced: list[set[int]] = [set() for _ in processes]
        self.destroyed: set[int] = set()
        self.gone: set[int] = set()
        self.teams: list[list[int]] = []
        self.records = 0
        self.flying: dict[int, tuple[bool, int, int]] = {}
        self.acknowledged: set[int] = set()
        self.lost_one: set[int] = set()
        self.last_one: set[int] = set()

    def holders(self, record: int) -> set[int]:
        return {p for p, has in enumerate(self.synced) if record in has and p not in self.destroyed}

    def strike(self, order: Reply, kind: str) -> None:
        """Who is struck loses what isn't synced but for the torn, or all."""
        key, value = order["key"], order["value"]
        struck = {
            p for p, it in enumerate(self.processes) if it.get(key) == value and p not in self.gone
        }
        for p in struck:
            if kind == "Reboot":
                self.synced[p].update(
                    r
                    for at, r in enumerate(self.unsynced[p])
                    if at < 64 and order["tear"] >> at & 1
                )
            if kind != "RebootProcess":
                self.unsynced[p] = []
        if kind in DESTROYING:
            self.destroy(struck)
        if kind == "KillInstantly":
            self.gone |= struck

    def destroy(self, struck: set[int]) -> None:
        """The disks of these are empty."""
        held = {record for p in struck for record in self.synced[p] & self.acknowledged}
        before = {record: self.holders(record) for record in held}
        self.destroyed |= struck
        for p in struck:
            self.synced[p] = set()
        for record, had in before.items():
            left = self.holders(record)
            if left and left != had:
                self.lost_one.add(record)
                if len(left) == 1:
                    self.last_one.add(record)

    def send(self, first: int, bodies: Iterable[tuple[bool, int, int]]) -> None:
        self.flying.update(enumerate(bodies, first))

    def deliver(self, message: int, reply: Reply) -> None:
        """A store leaves a write; an acknowledgement may be the last one that its record needs."""
        is_store, record, p = self.flying.pop(message)
        if is_store:
            self.unsynced[p].append(record)
        elif reply["marked"]:
            self.acknowledged.add(record)

    def sync(self, p: int, first: int) -> None:
        self.send(first, [(False, record, p) for record in self.unsynced[p]])
        self.synced[p].update(self.unsynced[p])
        self.unsynced[p] = []

    def take(self, name: str, act: Reply, reply: Reply) -> None:
        """Goes on by an entry."""
        if "verdict" in reply and reply["verdict"]["struck"]:
            self.strike(act, reply["verdict"]["struck"])
        elif "formed" in reply:
            self.teams.append(act["members"])
        elif "begun" in reply:
            self.records += 1
            record, members = reply["begun"]["record"], self.teams[act["team"]]
            self.send(reply["begun"]["first"], [(True, record, p) for p in members])
        elif "stored" in reply or "marked" in reply:
            self.deliver(act["message"], reply)
        elif "sent" in reply:
            self.send(
                reply["sent"],
                [(True, act["record"], act["process"] if name == "resend" else act["to"])],
            )
        elif "synced" in reply:
            self.sync(act["process"], reply["synced"]["first"])
        elif name == "replace" and "done" in reply:
            self.teams[act["team"]] = sorted({*self.teams[act["team"]], act["into"]} - {act["out"]})
        elif name == "heal" and "done" in reply:
            self.destroyed.discard(act["process"])


def reply_counts(reply: Reply) -> list[str]:
    """The rows that count a reply."""
    if "verdict" in reply:
        struck, rule = reply["verdict"]["struck"], reply["verdict"]["rule"]
        return [
            f"struck with {struck}" if struck else "struck nobody",
            *([f"barred by {rule[0]}"] if rule else []),
        ]
    if "no" in reply:
        return [f"refused: {reply['no'][0]}"]
    (name,) = reply
    return (
        [f"barred by {reply[name][0]}"] if name == "ruled" and reply[name] else [f"replied: {name}"]
    )


def counted(processes: list[dict[str, str]], path: str) -> Counter[str]:
    """What an audit holds, up to the first line that is no entry."""
    disks, counts = Disks(processes), Counter[str]()
    with open(path, encoding="ascii", errors="replace") as audit:
        next(audit, None)
        for line in audit:
            try:
                entry = json.loads(line)
                reply = named(entry["reply"])
                ((name, act),) = entry["act"].items()
                disks.take(name, act, reply)
            except (ValueError, KeyError, TypeError, IndexError, AttributeError):
                break
            counts["entries"] += 1
            for row in reply_counts(reply):
                counts[row] += 1
    counts["records begun"] = disks.records
    counts["records acknowledged"] = len(disks.acknowledged)
    counts["outlived the loss of a holder"] = len(disks.lost_one)
    counts["outlived the loss of all holders but one"] = len(disks.last_one)
    counts.update(judged(Path(path).parent))
    return counts


def judged(folder: Path) -> Counter[str]:
    """How many records of a store had which verdict, if there was one."""
    path = folder / "verdict.jsonl"
    if not path.is_file():
        return Counter()
    told = json.loads(path.read_text().splitlines()[-1])
    return Counter({f"judged {it}": told[it] for it in OF_STORES})


def processes_of(config: str) -> list[dict[str, str]]:
    """The processes of a cluster file, as `guard` tells them; none of one that it refuses, of which
    no audit can be legal."""
    words = [os.environ.get("FAULTYARD", "faultyard"), "guard", config, "--questions"]
    told = subprocess.run(words, input=b'{"ask":{"cluster":{}}}\n', capture_output=True).stdout
    lines = told.splitlines()[1:]
    return [dict(it) for line in lines for it in json.loads(line)["told"]["cluster"]["process"]]


def audits(config: str) -> int:
    processes = processes_of(config)
    for line in sys.stdin:
        print(json.dumps(counted(processes, line.rstrip("\n"))), flush=True)
    return 0


def table(ran: str, wanted: str) -> int:
    """A row is a seed, whether it is ok, microseconds of its run and of `check`, and what its audit
    holds."""
    counts, seeds, bad = Counter[str](), 0, 0
    times: list[tuple[int, int]] = []
    for line in sys.stdin:
        _, verdict, run, check, held = line.rstrip("\n").split("\t")
        seeds, bad = seeds + 1, bad + (verdict == "bad")
        times.append((int(run), int(check)))
        counts.update(json.loads(held))
    rows = [(f"seeds done, of {wanted}", str(seeds)), ("bad", str(bad))]
    rows += [(row, str(counts[row])) for row in ROWS]
    if any(counts[f"judged {it}"] for it in OF_STORES):
        rows += [(f"records {it}", str(counts[f"judged {it}"])) for it in OF_STORES]
    else:
        rows += [(row, str(counts[row])) for row in OF_CLUSTERS]
    rows += [
        (f"seconds in {ran}, each alone", f"{sum(run for run, _ in times) / 1e6:.1f}"),
        ("seconds in check, each alone", f"{sum(check for _, check in times) / 1e6:.1f}"),
        (
            f"longest {ran}, in milliseconds",
            f"{max((run for run, _ in times), default=0) / 1e3:.1f}",
        ),
    ]
    told = "".join(f"| {what} | {number} |\n" for what, number in rows)
    printed(f"| Of all seeds | |\n|---|---|\n{told}")
    return 1 if bad or seeds != int(wanted) else 0


def main(words: list[str]) -> int:
    match words:
        case ["audits", config]:
            return audits(config)
        case ["table", ran, wanted]:
            return table(ran, wanted)
    sys.stderr.write("usage: tools/counts.py audits CONFIG, or table RAN WANTED\n")
    return 2


if __name__ == "__main__":
    sys.exit(main(sys.argv[1:]))
