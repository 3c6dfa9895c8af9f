"""Where the words and numbers of release/words.toml stand again, and how each place is read.

A reader answers what a text has, in the form of the table; `wanted` is what the table says of it,
or of the plans of faultyard-nemesis its tool, and of orders the definition `may`.
"""

from __future__ import annotations

import json
import re
from collections.abc import Callable
from dataclasses import dataclass
from pathlib import Path
from typing import Any

Words = dict[str, Any]
ENUM = {"keys": "key", "kinds": "kind", "rules": "rule", "refusals": "refusal", "parts": "part"}
# Of each type of C its value for none.
NONE = {"EVERYONE", "NONE", "NO_RULE", "NOT_REFUSED", "WHOLE_FILE", "ORDER_NONE", "CLOSED"}


@dataclass(frozen=True)
class Place:
    """A part of a file that repeats words of the table."""

    path: str
    what: str
    read: Callable[[str], Any]
    wanted: Callable[[Words], Any]


def part_of(text: str, begin: str, end: str) -> str:
    """What stands between two patterns, the first of which has to stand there once."""
    (found,) = re.findall(rf"(?ms){begin}(.*?){end}", text)
    return str(found)


def listed(begin: str, end: str, word: str = r'"(\w+)"') -> Callable[[str], list[str]]:
    """The words between two patterns, in order."""
    return lambda text: re.findall(word, part_of(text, begin, end))


def paired(begin: str, end: str, pair: str) -> Callable[[str], dict[str, int]]:
    """Words with their numbers between two patterns; a pair is a word and then a number."""
    return lambda text: {it: int(n) for it, n in re.findall(pair, part_of(text, begin, end))}


def words_of(name: str) -> Callable[[Words], list[str]]:
    return lambda table: list(table[name])


def numbers_of(name: str) -> Callable[[Words], dict[str, int]]:
    return lambda table: dict(table[name])


def upper(word: str) -> str:
    """A word as a constant of C: KILL_INSTANTLY."""
    return re.sub(r"(?<=[a-z])([A-Z])", r"_\1", word).upper()


def camel(word: str) -> str:
    return "".join(it.capitalize() for it in word.split("_"))


# ---- the header


# What C calls a key, where its word says less.
KEYS = {
    "processid": "PROCESS",
    "machineid": "MACHINE",
    "zoneid": "ZONE",
    "data_hall": "DATA_HALL",
    "dcid": "DATA_CENTER",
}
PREFIX = {"parts": "PART_", "plans": "PLAN_", "orders": "ORDER_"}


def constant(name: str, word: str) -> str:
    """The name of a word in C, without FY_."""
    return PREFIX.get(name, "") + (KEYS[word] if name == "keys" else upper(word))


def in_c(name: str) -> Callable[[Words], dict[str, int]]:
    return lambda table: {constant(name, word): n for word, n in table[name].items()}


def enum_of_c(enum: str) -> Callable[[str], dict[str, int]]:
    read = paired(rf"^typedef enum fy_{enum} {{", rf"^}} fy_{enum};", r"FY_(\w+) = (\d+),")
    return lambda text: {it: n for it, n in read(text).items() if it not in NONE}


def defined(text: str) -> dict[str, str]:
    return dict(re.findall(r"^#define (\w+) (\S+)", text, re.M))


def limits_of_c(table: Words) -> dict[str, str]:
    """The limits of the header, from those of the crates."""
    its = table["limits"]
    processes = its["fy_locality"]["MOST_PROCESSES"]
    return {
        "FY_MOST_MEMBERS": str(its["fy_team"]["MOST_MEMBERS"]),
        "FY_MOST_PAYLOAD": str(its["fy_c"]["MOST_PAYLOAD"]),
        "FY_MOST_REPLY": str(its["fy_c"]["MOST_REPLY_BYTES"]),
        "FY_SET_WORDS": str(processes // 64),
        "FY_VALUE_BYTES": str(its["fy_locality"]["MOST_NAME_CHARACTERS"] + 1),
        "FY_MOST_ORDERS": str(2 * processes),
        **{f"FY_KINDS_{upper(it)}": f"{bit}u" for it, bit in table["deeds"].items()},
        "FY_KINDS_ALL": f"{sum(table['deeds'].values())}u",
        "FAULTYARD_VERSION": str(number_of(table["version"])),
        "FAULTYARD_VERSION_TEXT": f'"{table["version"]}"',
    }


def number_of(version: str) -> int:
    first, second, third = map(int, version.split("."))
    return first * 10_000 + second * 100 + third


def defined_limits(text: str) -> dict[str, str]:
    """All that the header defines but what stands for none, the bits of a state, and a text."""
    others = r"FY_(NO|STATE)\w+|FY_AUDIT_HEADER|FAULTYARD_H"
    return {it: value for it, value in defined(text).items() if not re.fullmatch(others, it)}


def comments_of_c(text: str) -> list[str]:
    """The words of keys that stand behind their numbers."""
    body = part_of(text, r"^typedef enum fy_key {", r"^} fy_key;")
    return re.findall(r"= [1-9]\d*, +/\* (\w+) \*/", body)


def calls_of(pattern: str, name: Callable[[str], str] = str) -> Callable[[str], set[str]]:
    return lambda text: set(re.findall(pattern, text, re.M))


def acts_as(name: Callable[[str], str]) -> Callable[[Words], set[str]]:
    return lambda table: {name(act) for act in table["acts"]}


def without(others: str, read: Callable[[str], set[str]]) -> Callable[[str], set[str]]:
    """What is read, without what no act is."""
    return lambda text: read(text) - set(others.split())


HEADER = "include/faultyard.h"
# The calls of C that change no guard's journal, or not by one act.
OTHERS_OF_C = (
    "version config_fault open open_after reset try_copy judge kill_process judge_process killable "
    "act ask process process_count targets is_destroyed state needed is_acked keeper bears audit "
    "words swizzle_plan attrition_plan plan_orders begin_check read_line finding"
)
WITHOUT_STATUS = "close left up_set destroyed_set gone_set sight journal_len end_check"
C = (
    *(Place(HEADER, name, enum_of_c(it), in_c(name)) for name, it in ENUM.items()),
    Place(HEADER, "plans", enum_of_c("plan"), in_c("plans")),
    Place(HEADER, "orders", enum_of_c("order_act"), in_c("orders")),
    Place(HEADER, "statuses", enum_of_c("status"), in_c("statuses")),
    Place(HEADER, "limits, bits, version", defined_limits, limits_of_c),
    Place(HEADER, "words of keys", comments_of_c, words_of("keys")),
    Place(
        HEADER,
        "acts",
        without(OTHERS_OF_C, calls_of(r"^uint32_t fy_(\w+)\(")),
        acts_as(str),
    ),
    Place(
        "release/libfaultyard.map",
        "acts",
        without(f"{OTHERS_OF_C} {WITHOUT_STATUS}", calls_of(r"\bfy_(\w+);")),
        acts_as(str),
    ),
)


# ---- C++


HPP = "include/faultyard.hpp"


def class_of(enum: str) -> Callable[[str], dict[str, str]]:
    """The names of an enum of C++, each with that of C."""

    def read(text: str) -> dict[str, str]:
        body = part_of(text, rf"^enum class {enum} : std::uint32_t {{", r"^};")
        pairs = re.findall(r"^    (\w+) = FY_(\w+),", body, re.M)
        return {name: its for name, its in pairs if its not in NONE - {"CLOSED"}}

    return read


def names_in(
    name: str, spelled: Callable[[str], str] = str, prefix: str = ""
) -> Callable[[Words], dict[str, str]]:
    """What a language calls each word, with the constant of C."""
    return lambda table: {
        prefix + (camel(KEYS[it].lower()) if name == "keys" else spelled(it)): constant(name, it)
        for it in table[name]
    }


def statuses_of_cpp(table: Words) -> dict[str, str]:
    return {**names_in("statuses")(table), "Closed": "CLOSED"}


def config_faults(table: Words) -> list[str]:
    """The words of the faults of cluster files, by the statuses for them."""
    faults = [it.removeprefix("Config") for it in table["statuses"] if it.startswith("Config")]
    return ["PolicyUnmet" if it == "Unmet" else it for it in faults]


CPP_ARRAY = r"inline constexpr \S+ {}\[\] = {{"
CPP = (
    *(
        Place(HPP, f"names of {name}", class_of(it.capitalize()), names_in(name))
        for name, it in ENUM.items()
    ),
    Place(HPP, "names of plans", class_of("Plan"), names_in("plans", str.capitalize)),
    Place(HPP, "names of orders", class_of("OrderAct"), names_in("orders", str.capitalize)),
    Place(HPP, "names of statuses", class_of("Status"), statuses_of_cpp),
    *(
        Place(HPP, name, listed(CPP_ARRAY.format(name.upper()), r"^};"), words_of(name))
        for name in ("keys", "kinds", "rules", "parts")
    ),
    *(
        Place(HPP, name, listed(CPP_ARRAY.format(name.upper()), r"^};", r'{"(\w+)"'), wanted)
        for name, wanted in (
            ("refusals", words_of("refusals")),
            ("statuses", lambda table: with_closed(table["statuses"])),
        )
    ),
    Place(HPP, "config faults", listed(CPP_ARRAY.format("CONFIG_FAULTS"), r"^};"), config_faults),
)


def with_closed(statuses: dict[str, int]) -> list[str]:
    """The statuses with the header's own, by their numbers."""
    return sorted([*statuses, "Closed"], key=lambda it: statuses.get(it, 19))


# ---- Go


WORDS_GO, ERRORS_GO, ASKS_GO = (f"bindings/go/{it}.go" for it in ("words", "errors", "asks"))


def constants_of_go(kind: str, prefix: str = "") -> Callable[[str], dict[str, str]]:
    """The constants of a type of Go, each with that of C."""

    def read(text: str) -> dict[str, str]:
        pairs = re.findall(rf"^\t({prefix}\w+) +{kind} = C\.FY_(\w+)$", text, re.M)
        return {name: its for name, its in pairs if its not in NONE - {"CLOSED"}}

    return read


def statuses_of_go(table: Words) -> dict[str, str]:
    """All but those that no call of Go answers."""
    its = statuses_of_cpp(table).items()
    return {f"Err{it}": c for it, c in its if it not in ("Done", "Short")}


def tags(struct: str) -> Callable[[str], list[str]]:
    """The names by which a struct of Go is read of JSON."""
    return listed(rf"^type {struct} struct {{", r"^}", r'`json:"(\w+)')


GO = (
    *(
        Place(
            WORDS_GO,
            f"names of {name}",
            constants_of_go(kind, prefix),
            names_in(name, spelled, prefix),
        )
        for name, kind, prefix, spelled in (
            ("keys", "Key", "", str),
            ("kinds", "Kind", "", str),
            ("rules", "Rule", "", str),
            ("parts", "Part", "Part", str),
            ("plans", "Plan", "Plan", str.capitalize),
            ("orders", "OrderAct", "Order", str.capitalize),
        )
    ),
    *(
        Place(WORDS_GO, name, listed(rf"^\t{its} += \[\]string{{", r"}"), wanted)
        for name, its, wanted in (
            ("keys", "keyWords", words_of("keys")),
            ("kinds", "kindWords", lambda table: ["None", *table["kinds"]]),
            ("rules", "ruleWords", lambda table: ["NoRule", *table["rules"]]),
            ("parts", "partWords", lambda table: ["WholeFile", *table["parts"]]),
            ("plans", "planWords", words_of("plans")),
            ("orders", "orderActs", lambda table: ["none", *table["orders"]]),
        )
    ),
    Place(
        ERRORS_GO,
        "names of refusals",
        constants_of_go("Refusal", "Refusal"),
        names_in("refusals", prefix="Refusal"),
    ),
    Place(ERRORS_GO, "names of statuses", constants_of_go("Status", "Err"), statuses_of_go),
    Place(
        ERRORS_GO,
        "refusals",
        listed(r"^var refusalWords = \[\]string{", r"^}"),
        words_of("refusals"),
    ),
    Place(
        ERRORS_GO, "config faults", listed(r"^var faultWords = \[\]string{", r"^}"), config_faults
    ),
    Place(ASKS_GO, "keys", tags("Place"), words_of("keys")),
    *(
        Place(ASKS_GO, f"answer {answer}", lambda text, it=struct: sorted(tags(it)(text)), wanted)
        for answer, struct, wanted in (
            ("state", "ProcessState", lambda table: table["answers"]["state"]),
            ("record", "Record", lambda table: table["answers"]["record"]),
            ("cluster", "Cluster", lambda table: table["answers"]["cluster"]),
        )
    ),
    Place(
        "tools/serve/internal/door/questions.go",
        "keys",
        lambda text: tags("process")(text)[1:6],
        words_of("keys"),
    ),
)


# ---- Rust


def numbered(name: str) -> Callable[[str], dict[str, int]]:
    """The words and numbers of an enum of Rust, whose variants have their names."""

    def read(text: str) -> dict[str, int]:
        body = part_of(text, rf"^    {name} {{", r"^    }")
        rows = re.findall(r'^        (\w+) = (\d+), "(\w+)";', body, re.M)
        return {f"{variant} {word}": int(number) for variant, number, word in rows}

    return read


def variants_of(name: str) -> Callable[[Words], dict[str, int]]:
    return lambda table: {
        f"{camel(KEYS[it].lower()) if name == 'keys' else it} {it}": number
        for it, number in table[name].items()
    }


WORDS_RS = "bindings/rust/src/words.rs"
RUST = (
    *(
        Place(WORDS_RS, name, numbered(it.capitalize()), variants_of(name))
        for name, it in ENUM.items()
        if name != "rules"
    ),
    Place(
        "bindings/rust/src/verdict.rs",
        "rules",
        lambda text: dict(re.findall(r'Rule::(\w+)(?: { \.\. })? => "(\w+)",', text)),
        lambda table: {it: it for it in table["rules"]},
    ),
    Place(
        "bindings/rust/src/verdict.rs",
        "numbers of rules",
        lambda text: {it: int(n) for n, it in re.findall(r"(\d+) => Ok\(Some\(Rule::(\w+)", text)},
        numbers_of("rules"),
    ),
    Place(
        "bindings/rust/src/plan.rs",
        "plans",
        paired(r"^pub enum Plan {", r"^}", r"(\w+) = (\d+),"),
        lambda table: {it.capitalize(): n for it, n in table["plans"].items()},
    ),
)


# ---- Python


ENUMS_PY, ACTS_PY = (f"bindings/python/src/faultyard/{it}.py" for it in ("enums", "acts"))
LIBRARY_PY = "bindings/python/src/faultyard/library.py"


def enum_of_python(name: str) -> Callable[[str], list[tuple[str, str]]]:
    """The names and the words of an enum, whose order stands for the numbers of C."""
    body = rf"^class {name}\(Enum\):"
    return lambda text: re.findall(
        r'^    (\w+) = "(\w+)"$', part_of(text, body, r"(?=^class |\Z)"), re.M
    )


def enum_in_python(name: str) -> Callable[[Words], list[tuple[str, str]]]:
    return lambda table: [
        (KEYS[it] if name == "keys" else upper(it), it) for it in list(table[name])
    ]


def members_of_python(table: str) -> Callable[[str], dict[str, list[str]]]:
    """The members of acts or questions, where shared ones are read where they stand."""

    def read(text: str) -> dict[str, list[str]]:
        shared = {
            name: re.findall(r'"(\w+)":', its)
            for name, its in re.findall(r"^(_[A-Z]+): .*? = {(.*?)}$", text, re.M)
        }
        found = {}
        rows = part_of(text, rf"^{table}: .*? = {{", r"^}")
        for name, its in re.findall(r'^    "(\w+)": (.*),$', rows, re.M):
            own = re.findall(r'"(\w+)":', its)
            of_others = [it for word in re.findall(r"_[A-Z]+\b", its) for it in shared[word]]
            found[name] = sorted([*own, *of_others])
        return found

    return read


def members_of(name: str, *but: str) -> Callable[[Words], dict[str, list[str]]]:
    return lambda table: {it: sorted(its) for it, its in table[name].items() if it not in but}


def statuses_of_python(text: str) -> dict[str, int]:
    """The statuses that the library's module names, by their numbers."""
    names = r"^((?:[A-Z_]+, )+[A-Z_]+) = ((?:\d+, )+\d+)$"
    pairs = re.findall(names, text, re.M)
    return {
        name: int(number)
        for left, right in pairs
        for name, number in zip(left.split(", "), right.split(", "), strict=True)
    }


def in_python(table: Words) -> dict[str, int]:
    named = "Done NoMemory JournalFull Short Unwritten LineTooLong LineSyntax NoHeader AuditTooLong"
    statuses = {upper(it): table["statuses"][it] for it in [*named.split(), "Refuted"]}
    orders = {f"ORDER_{it.upper()}": number for it, number in table["orders"].items()}
    return {**statuses, "ORDER_NONE": 0, **orders}


def shapes(text: str) -> set[str]:
    """The replies that are read: objects by their names, and words."""
    objects = set(re.findall(r'^    "(\w+)": ', part_of(text, r"^_SHAPES: .*? = {", r"^}"), re.M))
    return objects | set(re.findall(r'if told == "(\w+)":', text))


SIGHT = ["now", "deliverable", "unsynced", "sleeping"]
PYTHON = (
    *(
        Place(ENUMS_PY, name, enum_of_python(it), enum_in_python(name))
        for name, it in (
            ("keys", "Key"),
            ("deeds", "Kind"),
            ("rules", "Rule"),
            ("refusals", "Refusal"),
            ("parts", "Part"),
            ("plans", "Plan"),
        )
    ),
    Place(
        ENUMS_PY,
        "roles",
        lambda text: {word for _, word in enum_of_python("Role")(text)},
        lambda table: set(table["roles"]),
    ),
    Place(ACTS_PY, "acts", members_of_python("ACTS"), members_of("acts")),
    # A question to judge has an act as a member, so it is read by itself.
    Place(ACTS_PY, "questions", members_of_python("QUESTIONS"), members_of("questions", "judge")),
    Place(
        "bindings/python/src/faultyard/replies.py",
        "replies",
        shapes,
        lambda table: set(table["replies"]),
    ),
    Place(
        "bindings/python/src/faultyard/guard.py",
        "acts",
        calls_of(r'self\._(?:expect\(\w+, |make\()by, "(\w+)"'),
        acts_as(str),
    ),
    Place(
        "bindings/python/src/faultyard/told.py",
        "answer sight",
        listed(r"^class Sight:", r"^@dataclass", r"\n    (\w+): "),
        lambda table: sorted(table["answers"]["sight"], key=SIGHT.index),
    ),
    Place(LIBRARY_PY, "statuses", statuses_of_python, in_python),
)


# ---- Java


JAVA = "bindings/java/Guard.java"


def enum_of_java(name: str) -> Callable[[str], list[tuple[str, str]]]:
    """The names and the words of an enum, whose order is that of the kinds."""
    body = rf"^    public enum {name} {{"
    return lambda text: re.findall(
        r'^        ([A-Z_]+)\("(\w+)"\)[,;]', part_of(text, body, r"^    }"), re.M
    )


def told_of_java(name: str) -> Callable[[str], list[str]]:
    """The members that a class of Java reads of an answer, in order."""
    return listed(rf"^        private {name}\(Text told\) {{", r"^        }", r'\\"(\w+)\\":')


JAVA_PLACES = (
    *(
        Place(
            JAVA,
            f"answer {answer}",
            told_of_java(name),
            lambda table, it=answer: table["answers"][it],
        )
        for answer, name in (("state", "State"), ("record", "Kept"), ("sight", "Sight"))
    ),
    *(
        Place(JAVA, name, enum_of_java(it), enum_in_python(name))
        for name, it in (
            ("keys", "Key"),
            ("deeds", "Kind"),
            ("rules", "Rule"),
            ("refusals", "Refusal"),
        )
    ),
    Place(JAVA, "acts", calls_of(r'(?:make|done)\(by, "(\w+)"'), acts_as(str)),
    Place(
        JAVA,
        "questions",
        calls_of(r'(?:told|ask)\("(\w+)"'),
        lambda table: set(table["questions"]),
    ),
)


# ---- the server, completions, pages, version


API = "tools/serve/internal/door/assets/openapi.json"


def parameters(text: str) -> dict[str, list[str]]:
    """The members of each question that is asked by GET."""
    paths = json.loads(text)["paths"]
    its = {it.removeprefix("/v1/"): ways.get("get") for it, ways in paths.items() if "/v1/" in it}
    others = {"status", "audit", "events", "acts", "judge"}
    return {
        name: sorted(it["name"] for it in way.get("parameters", []) if it.get("in") == "query")
        for name, way in its.items()
        if name not in others
    }


def schema_keys(text: str) -> list[str]:
    """The keys of a cluster file that a process of the status has."""
    schemas = json.loads(text)["components"]["schemas"]
    return [*schemas["Status"]["properties"]["processes"]["items"]["properties"]][1:6]


def key_parameter(text: str) -> list[str]:
    key, *_ = json.loads(text)["paths"]["/v1/targets"]["get"]["parameters"]
    return list(key["schema"]["enum"])


def scribe_process(text: str) -> list[str]:
    """The keys of the processes that the server's tests know."""
    process = part_of(text, r"`\{\"cluster\":\{\}\}`: ", r"\]\}\}`")
    return re.findall(r'"(\w+)":', part_of(process, r"\"process\":\[", r"}"))


def grammar(text: str) -> list[str]:
    """The keys of the grammar of policies."""
    return re.findall(r'"(\w+)"', part_of(text, r"^key    = ", r"$"))


def ticked(begin: str, end: str) -> Callable[[str], list[str]]:
    return listed(begin, end, r"`(\w+)`")


PAGE = "tools/serve/internal/door/assets/page.js"
FORMATS = "docs/FORMATS.md"


def groups_of_page(text: str) -> list[str]:
    return re.findall(r"(\w+): \"(?:machines|zones|data halls|data centres)\"", text)


MAN = r"^\.BR? (\w+)"
AUDIT_5, CONFIG_5 = (f"release/man/faultyard-{it}.5" for it in ("audit", "config"))


def in_man(begin: str, end: str) -> Callable[[str], list[str]]:
    """The words of a list of a man page, each on a line of its own."""
    return lambda text: re.findall(MAN, part_of(text, begin, end), re.M)


def rows_in_man(text: str) -> dict[str, list[str]]:
    """The members of each act; several may share a row."""
    table = part_of(text, r"^kill\b", r"^\.TE")
    rows = re.findall(r"(?m)^([\w, ]+)\t([\w, ]+)$", f"kill{table}")
    return {act: sorted(its.split(", ")) for acts, its in rows for act in acts.split(", ")}


def replies_in_man(text: str) -> set[str]:
    table = part_of(text, r"^\.SS Replies\n\.TS\nlB l\.\n", r"^\.TE")
    return {word for it in re.findall(r'^{"(\w+)":|^"(\w+)"\t', table, re.M) for word in it if word}


def routes(text: str) -> dict[str, list[str]]:
    """The members of each question that a route of its own asks."""
    found = re.findall(r'{"GET", "/v1/(\w+)", question\(("[^)]*")\)', text)
    rows = {path: re.findall(r'"(\w+)"', its) for path, its in found}
    return {path: its for path, (name, *its) in rows.items() if path == name}


def asked_by_routes(table: Words) -> dict[str, list[str]]:
    """Those whose members are numbers, if they have any; of the others each has its own."""
    own = ("judge", "targets", "bears")
    return {it: its for it, its in table["questions"].items() if it not in own}


# Where the plans stand side by side, and in how many places.
PLANNED = {
    "release/completions/bash/faultyard": 1,
    "release/completions/bash/faultyard-nemesis": 1,
    "release/completions/bash/faultyard-shrink": 1,
    "release/completions/bash/faultyard-sweep": 1,
    "release/completions/fish/faultyard.fish": 2,
    "release/completions/fish/faultyard-nemesis.fish": 1,
    "release/completions/fish/faultyard-shrink.fish": 1,
    "release/completions/fish/faultyard-sweep.fish": 1,
    "release/completions/zsh/_faultyard": 5,
    "bindings/python/README.md": 1,
    "bindings/python/src/faultyard/plans.py": 1,
    "release/man/faultyard-sweep.1": 1,
    "tools/sweep": 1,
}


def plans_of(count: int) -> Callable[[str], list[tuple[str, ...]]]:
    """The lists of four words that begin as those of the plans do, however they are parted."""
    between = r"[, \"`]+(?:or[ \"`]+)?"
    four = between.join([r"(mixed|\w+)"] * 4)
    return lambda text: re.findall(rf"(?=\bmixed){four}", text)


def examples(name: str) -> Callable[[str], dict[str, list[str]]]:
    """The members of the acts that FORMATS shows as examples."""

    def read(text: str) -> dict[str, list[str]]:
        lines = part_of(text, rf'^{name} = """$', r'^"""').split()
        return {it: sorted(its) for line in lines for it, its in json.loads(line).items()}

    return read


OTHERS = (
    Place("tools/pages/acts.py", "acts", examples("EXAMPLES"), members_of("acts")),
    Place(
        FORMATS,
        "roles",
        listed(r"^\| an actor \| `role`: ", r"; `grants`"),
        lambda table: table["roles"],
    ),
    Place(API, "questions", parameters, members_of("questions", "judge")),
    Place(API, "keys of a process", schema_keys, words_of("keys")),
    Place(API, "keys of a target", key_parameter, words_of("keys")),
    Place(PAGE, "keys", groups_of_page, lambda table: list(table["keys"])[1:]),
    Place(
        "tools/serve/internal/scribe/scribe.go",
        "keys",
        scribe_process,
        lambda table: sorted(table["keys"]),
    ),
    Place(
        "tools/serve/internal/scribe/scribe.go",
        "questions",
        calls_of(r'^\t`{"(\w+)":{'),
        lambda table: set(table["questions"]),
    ),
    Place(FORMATS, "keys of the grammar", grammar, words_of("keys")),
    Place(CONFIG_5, "keys of the grammar", grammar, words_of("keys")),
    Place(
        CONFIG_5,
        "kinds",
        in_man(r"^is an array of the words\n", r"^No other key"),
        words_of("deeds"),
    ),
    Place(AUDIT_5, "kinds", in_man(r"^are, from the mildest,\n", r"^\(gone"), words_of("kinds")),
    Place(AUDIT_5, "keys", in_man(r"^\.B key\nis one of\n", r"^and\n\.B value"), words_of("keys")),
    Place(AUDIT_5, "acts", rows_in_man, members_of("acts")),
    Place(AUDIT_5, "replies", replies_in_man, lambda table: set(table["replies"])),
    Place(
        AUDIT_5,
        "rules",
        listed(r"^A rule is\n", r"^with the least", r'\["(\w+)"'),
        words_of("rules"),
    ),
    Place(AUDIT_5, "refusals", in_man(r"^A refusal is one of\n", r"^\.SH"), words_of("refusals")),
    Place("tools/serve/internal/door/web.go", "questions", routes, asked_by_routes),
    *(
        Place(
            path,
            "plans",
            plans_of(count),
            lambda table, it=count: [tuple(table["plans"])] * it,
        )
        for path, count in PLANNED.items()
    ),
    Place(
        FORMATS, "kinds in order", ticked(r"once each, in the order ", r"\.$"), words_of("deeds")
    ),
    Place(
        FORMATS,
        "kinds of a cluster file",
        ticked(r"^- `kinds` is an array of the words ", r"\. Their"),
        words_of("deeds"),
    ),
    Place(FORMATS, "parts", ticked(r"^- The parts are ", r", in this order"), words_of("parts")),
    Place(
        FORMATS,
        "keys of what is said of names",
        ticked(r"^A name has .*? A process has ", r"\.$"),
        words_of("keys"),
    ),
    Place(
        FORMATS,
        "keys of a process",
        ticked(r"^\| a process \| ", r": names that may be missing"),
        lambda table: [*list(table["keys"])[:3], "processid", *list(table["keys"])[3:]],
    ),
    Place(
        FORMATS,
        "keys at the top",
        lambda text: re.findall(
            r"^\| `(\w+)` \|", part_of(text, r"^\| Key at the top ", r"\n\n"), re.M
        ),
        lambda table: table["file"]["top"],
    ),
    Place(
        "docs/strikes.toml",
        "kinds",
        lambda text: set(re.findall(r'^kind = "(\w+)"$', text, re.M)) - {"null"},
        lambda table: set(table["kinds"]),
    ),
    # A verdict and a refusal are counted by what they say.
    Place(
        "tools/counts.py",
        "replies",
        lambda text: set(listed(r"^REPLIES = \(", r"\)")(text)),
        lambda table: set(table["replies"]) - {"verdict", "no"},
    ),
    Place(
        PAGE, "rules", listed(r"^const RULES = {", r"^};", r"(?m)^  (\w+): \("), words_of("rules")
    ),
)


ROOT = Path(__file__).resolve().parents[2]
PLANS_PY, FORMS_PY = "bindings/python/src/faultyard/plans.py", "tools/nemesis/disturbances.py"


def plans_of_nemesis(_: Words) -> set[str]:
    """What `--plan` of faultyard-nemesis takes, as its tool has it: orders and disturbances."""
    orders = listed(r"^PLANS = \(", r"\)$")((ROOT / PLANS_PY).read_text())
    forms = (ROOT / FORMS_PY).read_text()
    return {*orders, *listed(r"^FORMS: .* = {$", r"^}", r'(?m)^    "([\w-]+)": ')(forms)}


def beside_plans(table: Words) -> set[str]:
    """What `--beside` takes: disturbances, and partitions."""
    orders = listed(r"^PLANS = \(", r"\)$")((ROOT / PLANS_PY).read_text())
    return plans_of_nemesis(table) - {*orders} | {"partition"}


def plans_in(begin: str, end: str, word: str = r"[\w-]+") -> Callable[[str], set[str]]:
    """The plans between two patterns, which may stand there more than once."""

    def read(text: str) -> set[str]:
        parts = re.findall(rf"(?s){begin}(.*?){end}", text)
        return {it.replace("\\", "") for part in parts for it in re.findall(word, part)}

    return read


def plans_in_zsh(text: str) -> set[str]:
    """Those of `--plan`, which go on with those of `--beside`."""
    plans = plans_in(r'local plans="mixed', r' \$beside"')(text)
    return plans | plans_in("local beside='", "'")(text) | {"mixed"}


BASH, FISH, ZSH = (
    f"release/completions/{it}"
    for it in ("bash/faultyard-nemesis", "fish/faultyard-nemesis.fish", "zsh/_faultyard")
)
NEMESIS_1, IN_MAN = "release/man/faultyard-nemesis.1", r"(?m)^\.BR? ([a-z][\w\\-]+)(?: ,)?$"
NEMESIS = tuple(
    Place(path, what, read, plans_of_nemesis if what == "--plan" else beside_plans)
    for path, what, read in (
        (BASH, "--plan", plans_in('local plans="', '"')),
        (BASH, "--beside", plans_in('local beside="', '"')),
        (FISH, "--plan", plans_in(r'-l plan -x \\\n    -a "', '"')),
        (FISH, "--beside", plans_in('-l beside -x -a "', '"')),
        (ZSH, "--plan", plans_in_zsh),
        (ZSH, "--beside", plans_in("local beside='", "'")),
        (NEMESIS_1, "--plan", plans_in(r'\n\.BI \\-\\-plan " PLAN"\n', r"\n\.TP\n", IN_MAN)),
        (NEMESIS_1, "--beside", plans_in(r'\n\.BI \\-\\-beside " PLANS"\n', r"\n\.TP\n", IN_MAN)),
        (
            "docs/NEMESIS.md",
            "--plan",
            plans_in(r"\n\| `--plan ", r" \|", r"^[\w-]+|(?<=`)[a-z-]+(?=`)"),
        ),
    )
)

# An order is an act that every role may make. Where one is left out, it is drawn as another act.


def orders(_: Words) -> set[str]:
    text = (ROOT / "crates/fy_cluster/specs/Replies.antt").read_text()
    return set(re.findall(r"(?m)^may role \((\w+).*\) = true$", text))


def arms(function: str) -> Callable[[str], set[str]]:
    """The acts that have an arm of their own in a function of Rattle."""
    head = rf"^(?:pub )?fn {function}\("
    return lambda text: set(re.findall(r"\bAct::(\w+)", part_of(text, head, r"^}")))


ORDERS = (
    Place("crates/fy_picture/src/glyph.rt", "orders", arms("struck_as_ordered"), orders),
    Place("crates/fy_svg/src/glyphs.rt", "orders", arms("hardness"), orders),
    Place("crates/fy_svg/src/words.rt", "orders", arms("write_deed"), orders),
    Place(
        "tests/show/history.py",
        "orders",
        lambda text: set(re.findall(r'act\.get\("(\w+)"\)', part_of(text, r"^ +order = ", r"$"))),
        lambda table: {it.lower() for it in orders(table)},
    ),
)

# What pictures say of each kind.
LEGENDS = (
    Place(
        "crates/fy_svg/src/frame.rt",
        "kinds of the legend",
        lambda text: re.findall(
            r'"([A-Z]\w+)"', part_of(text, r"^const ORDERS: [^=]* = \[", r"^\];")
        ),
        words_of("kinds"),
    ),
    Place(
        "tools/nemesis/picture.py",
        "kinds",
        listed(r"^SHORT = {", r"^}", r"Kind\.(\w+): \("),
        lambda table: [upper(it) for it in table["deeds"]],
    ),
)

# What a test would leave out, and pass, if it didn't know the word.
TESTS = (
    Place(
        "tests/show/history.py",
        "rules",
        listed(r"^RULES = {", r"^}", r'(?m)^    "(\w+)":'),
        words_of("rules"),
    ),
    # Random journals, which two replayers have to find alike. A fixture makes each Form.
    Place(
        "tests/crates/fy_cluster_tests/src/replay/random.rt.in",
        "acts",
        lambda text: set(re.findall(r"\bAct::(\w+)", text.partition("match *act {")[0])),
        lambda table: {camel(it) for it in table["acts"]} - {"Form", "Copy"} | {"CopyTo"},
    ),
    Place(
        "tests/bindings/python/played.py",
        "acts",
        lambda text: set(listed(r"^TYPED = {", r"^}", r'(?m)^    "(\w+)":')(text)),
        acts_as(str),
    ),
    Place(
        "tests/bindings/python/test_guard.py",
        "acts",
        lambda text: set(listed(r"^CALLS = \[", r"^\]", r"lambda g: g\.(\w+)\(")(text)),
        acts_as(str),
    ),
    Place(
        "tests/bindings/python/common.py",
        "acts",
        lambda text: set(re.findall(r'{"(\w+)": (?:{|self\.target)', text)),
        acts_as(str),
    ),
)


def versions(pattern: str) -> Callable[[str], set[str]]:
    return lambda text: set(re.findall(pattern, text, re.M))


VERSIONS = tuple(
    Place(path, "version", versions(pattern), lambda table: {table["version"]})
    for path, pattern in (
        ("README.md", r"faultyard[_-](\d+\.\d+\.\d+)"),
        ("examples/kubernetes/serve.yaml", r"faultyard:(\d+\.\d+\.\d+)"),
        ("bindings/python/pyproject.toml", r'^version = "(.*)"$'),
        ("bindings/rust/Cargo.toml", r'^version = "(.*)"$'),
        ("bindings/rust/Cargo.lock", r'^name = "faultyard"\nversion = "(.*)"$'),
        ("tests/bindings/rust/Cargo.lock", r'^name = "faultyard"\nversion = "(.*)"$'),
        ("tests/cli/help.toml", r"^faultyard (\d+\.\d+\.\d+)$"),
    )
)
# Phrases with a number, or constants, that stand in several places, and the limit that each has.
PHRASES = {
    r"line has (?:more than|over) ([\d,]+) bytes": ("fy_spelling", "MOST_LINE_BYTES"),
    r"cluster file has more than ([\d,]+) bytes": ("fy_config", "MOST_FILE_BYTES"),
    r"lines of the audit have more than ([\d,]+) bytes": ("fy_audit", "MOST_AUDIT_BYTES"),
    r"payload has more than (\d\d\d) bytes": ("fy_team", "MOST_BYTES"),
}
LIMITED = (
    *((HEADER, phrase, limit) for phrase, limit in PHRASES.items()),
    *((HPP, phrase, limit) for phrase, limit in PHRASES.items()),
    *((ERRORS_GO, phrase, limit) for phrase, limit in [*PHRASES.items()][:3]),
    ("bindings/rust/src/error.rs", [*PHRASES][0], PHRASES[[*PHRASES][0]]),
    ("bindings/rust/src/error.rs", [*PHRASES][2], PHRASES[[*PHRASES][2]]),
    (WORDS_RS, [*PHRASES][3], PHRASES[[*PHRASES][3]]),
    (ENUMS_PY, [*PHRASES][3], PHRASES[[*PHRASES][3]]),
    (API, r"The body has over ([\d,]+) bytes", ("fy_spelling", "MOST_LINE_BYTES")),
    (ACTS_PY, r"^MOST_LINE = ([\d_]+)$", ("fy_spelling", "MOST_LINE_BYTES")),
    (ACTS_PY, r"^MOST_MEMBERS = (\d+)$", ("fy_team", "MOST_MEMBERS")),
    (LIBRARY_PY, r"^MOST_REPLY = (\d+)$", ("fy_c", "MOST_REPLY_BYTES")),
    (JAVA, r"int MOST_LINE = ([\d_]+);", ("fy_spelling", "MOST_LINE_BYTES")),
    (JAVA, r"int MOST_MEMBERS = (\d+);", ("fy_team", "MOST_MEMBERS")),
    (
        "tools/serve/internal/door/loop.go",
        r"mostLine = ([\d_]+)$",
        ("fy_spelling", "MOST_LINE_BYTES"),
    ),
    (
        "tools/serve/internal/book/open.go",
        r"mostLine = ([\d_]+) \+ 1$",
        ("fy_spelling", "MOST_LINE_BYTES"),
    ),
    (
        "tools/serve/internal/book/open.go",
        r"mostAudit = ([\d_]+)$",
        ("fy_audit", "MOST_AUDIT_BYTES"),
    ),
    (
        "tools/serve/internal/scribe/scribe.go",
        r"> ([\d_]{3,}) {",
        ("fy_spelling", "MOST_LINE_BYTES"),
    ),
)


def limit_at(path: str, pattern: str, limit: tuple[str, str]) -> Place:
    """A place of one limit, however its digits are parted."""
    crate, name = limit
    return Place(
        path,
        f"{crate}.{name}, {pattern}",
        lambda text: {re.sub("[,_]", "", it) for it in re.findall(pattern, text, re.M)},
        lambda table: {str(table["limits"][crate][name])},
    )


LIMITS = tuple(limit_at(*it) for it in LIMITED)
# What is beyond a limit, as pages of man and the fault lines say it, and the limit.
SAID = {
    "docs/faults.toml": {
        r"The input has more than ([\d,]+) bytes": "fy_judge.MOST_JUDGE_BYTES",
        r"cluster file has more than ([\d,]+) bytes": "fy_config.MOST_FILE_BYTES",
        r"The script has more than ([\d,]+) bytes": "fy_audit.MOST_SCRIPT_BYTES",
        r"and has more than ([\d,]+) bytes without": "fy_spelling.MOST_LINE_BYTES",
        r"The audit has more than ([\d,]+) bytes": "fy_audit.MOST_AUDIT_BYTES",
        r"file of events has more than ([\d,]+) bytes": "fy_events.MOST_EVENTS_BYTES",
        r"Or ([\d,]+) lines stand before it": "fy_history.MOST_HISTORY_LINES",
        r"`journal_limit` from 1 to ([\d,]+)": "fy_cluster.MOST_JOURNAL_ENTRIES",
        r"; 1 to ([\d,]+) policies": "fy_policy.MOST_POLICIES",
        r"; 1 to ([\d,]+) processes": "fy_locality.MOST_PROCESSES",
        r"; 1 to ([\d,]+) actors": "fy_cluster.MOST_ACTORS",
        r"at most ([\d,]+) grants": "fy_grants.MOST_GRANTS",
        r"at most ([\d,]+) protections": "fy_config.MOST_PROTECTIONS",
        r"a count outside 1 to ([\d,]+)": "fy_policy.MOST_COUNT",
        r"a text over the limits: ([\d,]+)": "fy_policy.MOST_READ_BYTES",
    },
    "release/man/faultyard-check.1": {
        r"An audit has at most ([\d,]+) bytes": "fy_audit.MOST_AUDIT_BYTES",
        r"a line at most ([\d,]+)": "fy_spelling.MOST_LINE_BYTES",
    },
    "release/man/faultyard-guard.1": {
        r"^and at most ([\d,]+) bytes": "fy_spelling.MOST_LINE_BYTES",
    },
    "release/man/faultyard-judge.1": {
        r"on at most ([\d,]+) lines": "fy_locality.MOST_PROCESSES",
        r"The input has at most ([\d,]+) bytes": "fy_judge.MOST_JUDGE_BYTES",
    },
    "release/man/faultyard-run.1": {
        r"A script has at most ([\d,]+) bytes": "fy_audit.MOST_SCRIPT_BYTES",
        r"a line at most ([\d,]+)": "fy_spelling.MOST_LINE_BYTES",
    },
    "release/man/faultyard-serve.1": {
        r"might get over ([\d,]+) bytes": "fy_audit.MOST_AUDIT_BYTES",
        r"A body has at most ([\d,]+) bytes": "fy_spelling.MOST_LINE_BYTES",
    },
    CONFIG_5: {
        r"in UTF-8 of at most ([\d,]+) bytes": "fy_config.MOST_FILE_BYTES",
        r"a whole number from 1 to ([\d,]+)": "fy_cluster.MOST_JOURNAL_ENTRIES",
        r"an array of at most ([\d,]+) tables": "fy_config.MOST_PROTECTIONS",
        r"have at most ([\d,]+) grants": "fy_grants.MOST_GRANTS",
        r"A policy has at most ([\d,]+) bytes": "fy_policy.MOST_READ_BYTES",
        r"bytes and ([\d,]+) nodes": "fy_policy.MOST_NODES",
        r"a depth of at most ([\d,]+)": "fy_policy.MOST_DEPTH",
        r"counts from 1 to ([\d,]+)": "fy_policy.MOST_COUNT",
    },
    "bindings/go/acts.go": {
        r"or are more than ([\d,]+)": "fy_team.MOST_MEMBERS",
        r"payload has more than ([\d,]+) bytes": "fy_c.MOST_PAYLOAD",
    },
    "bindings/rust/src/acts.rs": {
        r"or are more than ([\d,]+)": "fy_team.MOST_MEMBERS",
        r"payload has more than ([\d,]+) bytes": "fy_c.MOST_PAYLOAD",
    },
    "bindings/rust/src/error.rs": {
        r"or are more than ([\d,]+)": "fy_team.MOST_MEMBERS",
        r"payload has more than ([\d,]+) bytes": "fy_c.MOST_PAYLOAD",
    },
}
LIMITS += tuple(
    limit_at(path, phrase, (crate, name))
    for path, phrases in SAID.items()
    for phrase, (crate, _, name) in ((it, limit.partition(".")) for it, limit in phrases.items())
)


# ---- the words that a file's tables may have, of which `config` says what was expected

SHAPES = "crates/fy_where/src/shapes.rt"


def texts_of(name: str) -> Callable[[str], list[str]]:
    """The texts of a constant, on one line or on several."""
    return lambda text: re.findall(r'"(\w+)"', part_of(text, rf"const {name}: [^=]* = \[", r"\];$"))


def file_keys(name: str) -> Callable[[Words], list[str]]:
    return lambda table: table["file"][name]


EXPECTED = (
    *(
        Place(SHAPES, f"keys: {name}", texts_of(f"{name.upper()}_KEYS"), file_keys(name))
        for name in ("top", "process", "actor", "grant", "protection")
    ),
    Place(SHAPES, "kinds", texts_of("KINDS"), words_of("deeds")),
    Place(SHAPES, "roles", texts_of("ROLES"), lambda table: table["roles"]),
)

# What `bears` says of each loss begins with its kind: those that destroy are the last two.
LOSSES = tuple(
    Place(
        f"crates/fy_bears/{path}",
        "kinds that destroy",
        lambda text: re.findall(r'"\\n[a-z ]+\((\w+)\): "', text),
        lambda table: list(table["kinds"])[-2:],
    )
    for path in ("src/text.rt", "specs/Texts.antt")
)
NUMBER_OF_C = Place(
    "crates/fy_c/src/asking.rt",
    "version",
    versions(r"ensures { result ≡ (\d{5}) }"),
    lambda table: {str(number_of(table["version"]))},
)

# A library with another first number is refused.
MAJOR = Place(
    LIBRARY_PY,
    "first number of the version",
    versions(r"^MAJOR = (\d+)$"),
    lambda table: {table["version"].partition(".")[0]},
)

BINDINGS = (*C, *CPP, *GO, *RUST, *PYTHON, *JAVA_PLACES)
PLACES = (
    *BINDINGS,
    *OTHERS,
    *NEMESIS,
    *ORDERS,
    *LEGENDS,
    *TESTS,
    *VERSIONS,
    *LIMITS,
    *EXPECTED,
    *LOSSES,
    NUMBER_OF_C,
    MAJOR,
)
