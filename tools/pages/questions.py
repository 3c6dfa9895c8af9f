"""The questions in docs/FORMATS.md: what each asks and tells, the members of answers, and examples.

What a question asks, and what is told, are the comments of their variants; the members of an answer
have those of the fields. The word and the members of a question are those that the reader of lines
takes, and what it names that isn't there is what its answer says. The examples are those of
docs/questions.toml, in which no question, and no member that is written, may be missing.
"""

from __future__ import annotations

import json
import re
import tomllib
from collections.abc import Iterator
from dataclasses import dataclass
from typing import Any

from acts import read, told, variants
from source import ROOT, PagesError, docs_above
from tables import table
from words import functions, of_questions

Json = Any

ANSWERING = ("fy_questions/src/answering.rt", "fy_questions/src/states.rt")
WRITING = "fy_asking/src/told_line.rt"
TOLD = "fy_questions/src/told.rt"
STATUS, SIGHT = "fy_cluster/src/status.rt", "fy_cluster/src/sight.rt"
# Of each answer the types whose fields it has. A field that isn't written as itself has a comment
# of its own below: what it is made of.
ANSWERS = {
    "state": ((TOLD, "ProcessState"), (STATUS, "Status")),
    "record": ((TOLD, "RecordState"),),
    "cluster": ((TOLD, "ClusterNow"),),
    "sight": ((SIGHT, "Sight"),),
}
# A field whose member has another name, and fields that are members by their parts.
NAMES = {"clogged_until": "clogged"}
PARTS = {("ProcessState", "status"), ("Status", "clogged"), ("ClusterNow", "config")}
# A member that is no field: the code writes it of two.
MADE = ("state", "down", "The process is neither up nor gone")


@dataclass(frozen=True)
class Question:
    """A question: its word, its members, and what it may name that isn't there."""

    word: str
    members: tuple[str, ...]
    asks: str
    tells: str
    missing: tuple[str, ...]


def examples() -> tuple[list[str], list[tuple[Json, str]]]:
    """The lines of the acts, and each question behind them with the text of what is told."""
    found = tomllib.loads((ROOT / "docs/questions.toml").read_text())
    asked = [(json.loads(it["ask"]), it.get("told", "")) for it in found["example"]]
    return found["acts"].split(), asked


def missing_of(answer: str) -> tuple[str, ...]:
    """What a question names that isn't there, as the refusal that says so."""
    rows = r"(?m)^missing_refusal missing\.(\w+) = (\w+)$"
    refusals = dict(re.findall(rows, read("fy_asking/specs/ToldTexts.antt")))
    bodies = functions(*ANSWERING)
    called = "".join(bodies[it] for it in re.findall(r"(\w+)\(", answer) if it in bodies)
    return tuple(refusals[it] for it in re.findall(r"Missing::(\w+)", called))


def structs() -> Iterator[tuple[str, str]]:
    """The answers that are types of their own, with the comments of these."""
    text = read(TOLD)
    for name, kind in re.findall(r"(?m)^    (\w+)\((\w+)(?:<'a>)?\),$", text):
        if found := re.search(rf"(?m)((?:^///.*\n)+)(?:#.*\n)?pub struct {kind}\b", text):
            yield name, told(found[1].replace("///", ""))


def questions() -> Iterator[Question]:
    """Each question that may be asked."""
    of, tells = of_questions(), {name: told(says) for name, says, _ in variants(TOLD, "Told<'a>")}
    tells |= dict(structs())
    arm = r"(?m)^        Question::(\w+).*? => (.*)$"
    answers = dict(re.findall(arm, functions(*ANSWERING)["answer"]))
    for name, says, fields in variants("fy_questions/src/question.rt", "Question"):
        word = name.lower() if name.lower() in of else name.lower().removesuffix("s")
        yield Question(
            word,
            tuple(of[word]) if fields else (),
            told(says),
            tells["Judged" if name == "Judge" else name],
            missing_of(answers[name]),
        )


def asked() -> str:
    """The table of questions."""
    rows = []
    for it in questions():
        members = ", ".join(f"`{member}`" for member in it.members)
        missing = ", ".join(f"`{name}`" for name in it.missing)
        rows.append((f"`{it.word}`", members, it.asks, it.tells, missing))
    return table(("Question", "Members", "What it asks", "What is told", "Not there"), rows)


# ---- members


def fields(path: str, name: str) -> Iterator[tuple[str, str]]:
    """The fields of a public type, with their comments."""
    lines = read(path).split("\n")
    at = next(at for at, line in enumerate(lines) if re.match(rf"pub struct {name}\b", line))
    for here in range(at + 1, lines.index("}", at)):
        if found := re.match(r"    pub (\w+): ", lines[here]):
            yield found[1], told(" ".join(docs_above(lines, here)))


def members() -> Iterator[tuple[str, str, str]]:
    """Each member of an answer that isn't one of a cluster file: its question, its name, what it
    is."""
    for word, types in ANSWERS.items():
        for path, name in types:
            for field, says in fields(path, name):
                if (name, field) not in PARTS:
                    yield word, NAMES.get(field, field), says
        if word == MADE[0]:
            yield MADE


def answers() -> str:
    """The table of the members of answers."""
    rows = sorted((f"`{word}`", f"`{name}`", says) for word, name, says in members())
    return table(("Answer", "Member", "Value"), rows)


# ---- examples


def shown(value: Json) -> Json:
    """A value as the page shows it: of objects in a list the first alone."""
    if isinstance(value, list):
        few = value[:1] if value and isinstance(value[0], dict) else value
        return [shown(it) for it in few] + [...] * (len(few) < len(value))
    return {key: shown(it) for key, it in value.items()} if isinstance(value, dict) else value


def spelled(value: Json) -> str:
    text = json.dumps(value, sort_keys=True, separators=(",", ":"), default=lambda _: "..")
    return text.replace('"..":"..",', "").replace('"..":".."', "..").replace('".."', "..")


def check(lines: list[tuple[Json, str]]) -> None:
    """The examples have each question with each of its members, and each member of an answer."""
    there = {(name, *sorted(its)) for question, _ in lines for name, its in question.items()}
    wanted = {(it.word, *sorted(it.members)) for it in questions()}
    if there != wanted:
        raise PagesError(
            f"docs/questions.toml has other questions than the source: {there ^ wanted}"
        )
    texts = "".join(text for _, text in lines)
    for name in sorted(set(re.findall(r'\\"(\w+)\\":', read(WRITING)))):
        if f'"{name}":' not in texts and name not in ("told", "bears"):
            raise PagesError(f"docs/questions.toml has no answer with the member {name}")
    for word, name, _ in members():
        if not any(re.match(rf'{{"{word}":.*"{name}":', text) for _, text in lines):
            raise PagesError(f"docs/questions.toml has no answer {word} with the member {name}")


def asked_and_told() -> str:
    """The examples, as a block of lines."""
    acts, lines = examples()
    check(lines)
    rows = []
    for question, text in lines:
        answer = shown(json.loads(text)) if text else {"bears": {"..": ...}}
        rows += [spelled({"ask": question}), spelled({"told": answer})]
    where = (
        f"the cluster of `examples/c6.toml`, behind the {len(acts)} acts of `docs/questions.toml`"
    )
    head = f"What `bears` tells is the object of `bears --json`. In {where}:"
    return "\n".join([head, "", "```", *rows, "```"])
