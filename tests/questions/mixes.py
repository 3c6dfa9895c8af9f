"""Random mixes of acts and questions, and what is told to each by a model of the rules.

A mix is a random cluster of at most eight processes, and some forty random acts and questions; its
seed is its number. The suites of questions, doors and the server take them from here.
"""

from __future__ import annotations

import importlib.machinery
import importlib.util
import json
import random
import subprocess
import sys
from collections.abc import Iterator
from dataclasses import dataclass
from pathlib import Path
from typing import Any

from model import DEEDS, KINDS, Model

Json = Any
HERE = Path(__file__).resolve().parent
SECONDS = 600
TOLD = b'{"told":'
ROLES = ("storage", "fault", "fault", "operator")
BEARS = b'{"ask": {"bears": {}}}\n'


def load_bears() -> Any:
    """The random clusters of the suite of `bears`, which is a program."""
    path = str(HERE.parent / "bears/run")
    loader = importlib.machinery.SourceFileLoader("bears_suite", path)
    spec = importlib.util.spec_from_loader(loader.name, loader)
    assert spec
    module = importlib.util.module_from_spec(spec)
    sys.modules[loader.name] = module
    loader.exec_module(module)
    return module


bears = load_bears()


def spelled(value: Json) -> bytes:
    return json.dumps(value, sort_keys=True, separators=(",", ":")).encode()


def asked(question: Json) -> bytes:
    return json.dumps({"ask": question}).encode() + b"\n"


def ordered(by: int, act: Json) -> bytes:
    return json.dumps({"by": by, "act": act}).encode() + b"\n"


def check(what: str, got: Any, wanted: Any) -> None:
    if got != wanted:
        raise AssertionError(f"{what}: {got!r}, not {wanted!r}")


# ---- random mixes


@dataclass
class Mix:
    """A cluster with the grants of its actors, and lines for it."""

    cluster: Any
    grants: list[list[Json]]
    protected: list[set[str]]
    lines: list[bytes]

    def model(self) -> Model:
        policies = [policy.satisfied.__getitem__ for policy in self.cluster.policies]
        grants = [list(own) for own in self.grants]
        protected = [set(kinds) for kinds in self.protected]
        return Model(self.cluster.processes, policies, list(ROLES), grants, protected)


def random_scope(chance: random.Random, cluster: Any) -> Json:
    if chance.random() < 0.5:
        return "all"
    key = chance.choice(bears.KEYS)
    return {"key": key, "value": chance.choice(cluster.values(key) or ["nowhere"])}


def random_kinds(chance: random.Random) -> list[str]:
    return [deed for deed in DEEDS if chance.random() < 0.6]


def random_target(chance: random.Random, cluster: Any) -> dict[str, str]:
    key = chance.choice(bears.KEYS)
    values = [*cluster.values(key), "nowhere"] if chance.random() < 0.1 else cluster.values(key)
    return {"key": key, "value": chance.choice(values or ["nowhere"])}


def random_order(chance: random.Random, cluster: Any) -> Json:
    """A kill or a clog."""
    target = random_target(chance, cluster)
    if chance.random() < 0.25:
        return {"clog": {**target, "ticks": chance.choice((0, 1, 5, 2**63))}}
    kind = chance.choice(KINDS)
    floor = chance.choice(KINDS[: KINDS.index(kind) + 1])
    return {"kill": {**target, "floor": floor, "kind": kind, "tear": chance.getrandbits(64)}}


def number(chance: random.Random, count: int) -> int:
    """One of so many, or now and then one that isn't there."""
    return chance.choice((count, 4294967295)) if chance.random() < 0.05 else chance.randrange(count)


def storage_act(chance: random.Random, count: int) -> Json:
    p = number(chance, count)
    members = sorted(chance.sample(range(count), chance.randint(1, count)))
    return chance.choice(
        (
            {"up": {"process": p}},
            {"up": {"process": p}},
            {"heal": {"process": p}},
            {"tick": {"ticks": chance.randrange(4)}},
            {"form": {"members": members, "policy": 0}},
            {"begin": {"payload": "00", "team": number(chance, 2)}},
            {"deliver": {"message": chance.randrange(12)}},
            {"deliver": {"message": chance.randrange(12)}},
            {"lose": {"message": chance.randrange(12)}},
            {"sync": {"process": p}},
            {"sync": {"process": p}},
            {"resend": {"process": p, "record": number(chance, 2)}},
            {"copy": {"from": number(chance, count), "record": number(chance, 2), "to": p}},
            {"replace": {"into": p, "out": number(chance, count), "team": number(chance, 2)}},
        )
    )


def operator_act(chance: random.Random, cluster: Any) -> Json:
    p, actor = number(chance, len(cluster.processes)), number(chance, len(ROLES))
    kinds = random_kinds(chance)
    give = {"actor": actor, "kinds": kinds, "scope": random_scope(chance, cluster)}
    return chance.choice(
        (
            {"give": give},
            {"take": {"actor": actor, "index": number(chance, 2)}},
            {"protect": {"kinds": kinds, "process": p}},
            {"unprotect": {"kinds": kinds, "process": p}},
        )
    )


def random_act(chance: random.Random, cluster: Any) -> bytes:
    shape = chance.random()
    if shape < 0.4:
        order = random_order(chance, cluster)
        if "clog" in order and chance.random() < 0.4:
            target = {key: order["clog"][key] for key in ("key", "value")}
            order = {"unclog": target}
        return ordered(number(chance, len(ROLES)), order)
    if shape < 0.8:
        return ordered(0, storage_act(chance, len(cluster.processes)))
    return ordered(3, operator_act(chance, cluster))


def random_question(chance: random.Random, cluster: Any) -> Json:
    p = number(chance, len(cluster.processes))
    actor = number(chance, len(ROLES))
    return chance.choice(
        (
            {"judge": {"by": actor, "act": random_order(chance, cluster)}},
            {"judge": {"by": actor, "act": random_order(chance, cluster)}},
            {"killable": {"actor": actor}},
            {"state": {}},
            {"state": {"process": p}},
            {"targets": random_target(chance, cluster)},
            {"record": {"record": number(chance, 2)}},
            {"needed": {"process": p}},
            {"sight": {}},
            {"cluster": {}},
        )
    )


def random_lines(chance: random.Random, cluster: Any) -> Iterator[bytes]:
    for _ in range(chance.randint(1, 40)):
        if chance.random() < 0.5:
            yield random_act(chance, cluster)
            continue
        question = random_question(chance, cluster)
        yield asked(question)
        if "judge" in question and chance.random() < 0.5:
            yield ordered(question["judge"]["by"], question["judge"]["act"])


def random_mix(seed: int) -> Mix:
    chance = random.Random(seed)
    cluster = bears.random_cluster(chance)
    grants = [
        [
            {"kinds": random_kinds(chance), "scope": random_scope(chance, cluster)}
            for _ in range(chance.randrange(3))
        ]
        for _ in ROLES
    ]
    if chance.random() < 0.7:
        grants[1] = [{"kinds": list(DEEDS), "scope": "all"}]
    protected = [
        set(random_kinds(chance)) if chance.random() < 0.15 else set() for _ in cluster.processes
    ]
    return Mix(cluster, grants, protected, list(random_lines(chance, cluster)))


def cluster_file(mix: Mix) -> str:
    """The cluster file of a mix. JSON spells lists and texts as TOML does."""

    def grant_table(grant: Json) -> str:
        scope = grant["scope"]
        where = "" if scope == "all" else f', key = "{scope["key"]}", value = "{scope["value"]}"'
        return f"{{kinds = {json.dumps(grant['kinds'])}{where}}}"

    text: str = bears.cluster_file(mix.cluster)
    lines = [text[: text.index("actor = [")], "actor = ["]
    for role, own in zip(ROLES, mix.grants):
        tables = ", ".join(grant_table(grant) for grant in own)
        lines.append(f'{{role = "{role}", grants = [{tables}]}},')
    lines.append("]\nprotect = [")
    for p, kinds in enumerate(mix.protected):
        if kinds:
            listed = json.dumps(sorted(kinds))
            lines.append(f'{{process = "p{p}", kinds = {listed}}},')
    return "\n".join([*lines, "]", ""])


# ---- what is told


def cluster_told(mix: Mix, model: Model) -> Json:
    places = ("data_hall", "dcid", "machineid", "processid", "zoneid")
    return {
        "actor": [
            {"grants": own, "role": role} for role, own in zip(ROLES, model.grants, strict=True)
        ],
        "entries": model.entries,
        "journal_limit": 1000,
        "policies": [policy.text for policy in mix.cluster.policies],
        "process": [{key: it.get(key) for key in places} for it in mix.cluster.processes],
    }


def told(mix: Mix, model: Model, question: Json) -> Json:
    """What is told to a question, but to `bears`."""
    if "cluster" in question:
        return {"cluster": cluster_told(mix, model)}
    return model.told(question)


def run(words: list[str], lines: bytes) -> bytes:
    ran = subprocess.run(words, input=lines, capture_output=True, timeout=SECONDS)
    check("the end", (ran.stderr, ran.returncode), (b"", 0))
    return ran.stdout


def hold(mix: Mix, answers: list[bytes], model: Model) -> None:
    """Holds each answer against the model, in the order of the lines."""
    check("the number of answers", len(answers), len(mix.lines))
    judged: tuple[bytes, Json] | None = None
    for at, (line, answer) in enumerate(zip(mix.lines, answers, strict=True), 1):
        if not answer.startswith(TOLD):
            entry = json.loads(answer)
            if judged and judged[0] == line:
                check(f"line {at}, as judged before", entry["reply"], judged[1])
            model.take(entry)
            judged = None
            continue
        question = json.loads(line)["ask"]
        name = next(iter(question))
        wanted = told(mix, model, question)
        check(f"line {at}, {line!r}", answer, spelled({"told": wanted}) + b"\n")
        if name == "judge":
            judged = ordered(question["judge"]["by"], question["judge"]["act"]), wanted


@dataclass
class Talk:
    """A mix that was asked over the pipe: its cluster file, its lines, and the answers to them, as
    the model tells them. Behind these stands what the cluster bears, which no model tells."""

    mix: Mix
    config: Path
    lines: list[bytes]
    answers: list[bytes]

    def given(self) -> str:
        """The lines, behind the path of the cluster file."""
        return f"{self.config}\n" + b"".join(self.lines).decode()


def talk(program: str, folder: str | Path, seed: int) -> Talk:
    """Asks a mix over the pipe, and holds what is told against the model."""
    mix = random_mix(seed)
    config = Path(folder) / f"mix-{seed}.toml"
    config.write_text(cluster_file(mix), encoding="utf-8")
    lines = [*mix.lines, BEARS]
    words = [program, "guard", str(config), "--questions"]
    _, *answers = run(words, b"".join(lines)).splitlines(keepends=True)
    hold(mix, answers[:-1], mix.model())
    return Talk(mix, config, lines, answers)
