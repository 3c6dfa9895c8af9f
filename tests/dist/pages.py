"""Checks of the table of faults, the man pages and the completions."""

from __future__ import annotations

import os
import re
import subprocess
import sys
import tempfile
from collections.abc import Iterator
from pathlib import Path

from checks import (
    ROOT,
    commands,
    generator,
    need,
    options,
    options_of_tool,
    program,
    programs,
    said,
    tells_its_version,
    tools,
    version,
)

sys.path.append(str(ROOT / "tests/cli"))

from cases import cases  # noqa: E402

# Faults that no case of tests/cli meets, and why.
UNMET = {
    "swarm: close": "no input is known that leads to it",
    "no memory": "tests/refused-memory meets it",
    "error: ..": "clap's text; its cases are those of status 2",
}


def rendered_pages() -> Iterator[tuple[str, Path]]:
    with tempfile.TemporaryDirectory() as folder:
        said("release/pages", "man", folder)
        for path in sorted(Path(folder).iterdir()):
            yield path.name, path


def tables_are_current() -> None:
    module = generator()
    said("release/pages", "tables", "--check")
    pages = {path.name: text for path, text in module.renewed().items()}
    assert f"| `{module.read_faults()[0].line}` |" in pages["FORMATS.md"]
    for source, page in (
        ("faults", "FORMATS.md"),
        ("strikes", "GUARD.md"),
        ("ends", "NEMESIS.md"),
    ):
        changed = module.with_table(pages[page], "| another |", f"docs/{source}.toml")
        assert changed != pages[page], f"a change of {page} isn't seen"


def guard_tells_each_strike() -> None:
    """GUARD and the man page have a row for each kind that can strike, for none, and no other."""
    module = generator()
    enums = (ROOT / "bindings/python/src/faultyard/enums.py").read_text()
    kinds = re.findall(r' = "(\w+)"', enums.partition("class Kind")[2].partition("class ")[0])
    wanted = [*(it for it in kinds if it != "Clog"), "null"]
    assert [kind for kind, _ in module.strikes()] == wanted, wanted
    with tempfile.TemporaryDirectory() as folder:
        said("release/pages", "man", folder)
        manual = (Path(folder) / "faultyard-guard.1").read_text()
    page = (ROOT / "docs/GUARD.md").read_text()
    for _, text in (*module.strikes(), *module.joins(), ("", f"**{module.rule()}**")):
        assert text in page, f"GUARD lacks {text}"
        assert module.in_man_filled(text) in manual, f"faultyard-guard.1 lacks {text}"


def nemesis_tells_each_end() -> None:
    """NEMESIS and the man page have a row for each status of the tool, and the same rule."""
    module = generator()
    code = (ROOT / "tools/nemesis/__init__.py").read_text()
    count = re.search(r"^NONE_LOST, .* = range\((\d+)\)$", code, re.MULTILINE)
    more = re.findall(r"^[A-Z_]+, .* = (\d+(?:, \d+)+)$", code, re.MULTILINE)
    assert count and more, "the statuses of faultyard-nemesis aren't found"
    wanted = [*map(str, range(int(count[1]))), *", ".join(more).split(", "), "128 + N"]
    assert [status for status, _ in module.ends()] == wanted, wanted
    with tempfile.TemporaryDirectory() as folder:
        said("release/pages", "man", folder)
        manual = (Path(folder) / "faultyard-nemesis.1").read_text()
    page = (ROOT / "docs/NEMESIS.md").read_text()
    for text in (module.rule(module.ENDS), *(means for _, means in module.ends())):
        assert text in page, f"NEMESIS lacks {text}"
        assert module.in_man_filled(text) in manual, f"faultyard-nemesis.1 lacks {text}"


def words_of(name: str, specs: str) -> list[str]:
    """The words of a function of specs/Stops.antt: `NAME VARIANT = codes "WORD"`."""
    return re.findall(rf'^{name} \S+ = codes "(\w+)"$', specs, re.MULTILINE)


def table_has_the_proved_lines() -> None:
    """specs/Stops.antt has the lines and statuses by which the prover holds the program."""
    specs = (ROOT / "crates/fy_streams/specs/Stops.antt").read_text()
    proved = {text: 1 for text in re.findall(r'codes "(\w+: \w+)\\n"', specs)}
    for head, name in (
        ("judge", "fault_word"),
        ("script", "line_word"),
        ("audit", "audit_line_word"),
        ("events", "event_word"),
    ):
        found = words_of(name, specs)
        assert len(found) >= 3, f"{name} isn't found in specs/Stops.antt"
        proved |= {f"{head}: line N: {word}": 1 for word in found}
    histories = (ROOT / "crates/fy_histories/specs/Stops.antt").read_text()
    found = re.findall(r'^fault_ending \S+ = codes ": (\w+)\\n"$', histories, re.MULTILINE)
    assert len(found) >= 3, "fault_ending isn't found in specs/Stops.antt"
    proved |= {f"history: line N: {word}": 1 for word in found}
    proved |= {
        f"config: {it}": 1
        for it in ("Field PART", "Limit PART", "Name PART I", "Policy I", "PolicyUnmet I")
    }
    for text, variant in (
        ("read fault", "Read"),
        ("write fault", "Write"),
        ("no memory", "NoMemory"),
    ):
        assert f'stop_text {variant} = codes "{text}\\n"' in specs, variant
        status = re.search(rf"^stop_status {variant} = (\d)$", specs, re.MULTILINE)
        assert status, variant
        proved[text] = int(status.group(1))
    table = {it.line: it.status for it in generator().read_faults()}
    no_stops = {"bad entry N": 5, "error: ..": 2}
    assert table == proved | no_stops, set(table.items()) ^ set((proved | no_stops).items())


def pattern_of(line: str) -> re.Pattern[str]:
    """The lines that a line of the table stands for."""
    stands_for = {"N": r"\d+", "I": r"\d+", "PART": r"[A-Z]\w+", "..": ".*"}
    parts = re.split(r"(\bN\b|\bI\b|\bPART\b|\.\.)", line)
    return re.compile("".join(stands_for.get(part) or re.escape(part) for part in parts))


def refusals() -> Iterator[tuple[str, str, str, int]]:
    """Each refusal of tests/cli: the name of the case, its command, its line and its status."""
    for case in cases():
        text = (case.stderr or case.stdout).decode()
        if case.status and not text.startswith(("<svg", "{")):  # an answer, and no refusal
            command = case.args[0].decode() if case.args else ""
            yield case.name, command, text.partition("\n")[0], case.status


def table_explains_each_case() -> None:
    """Each refusal of tests/cli is in the table, for its command; each line has a case."""
    faults = generator().read_faults()
    met = set()
    for name, command, line, status in refusals():
        rows = [it for it in faults if pattern_of(it.line).fullmatch(line) and it.status == status]
        assert rows, f"no row explains '{line}' of {name}, status {status}"
        assert (
            command not in commands()
            or command == "help"
            or any(command in it.commands for it in rows)
        ), (name, line)
        met |= {it.line for it in rows}
    missing = {it.line for it in faults} - met - set(UNMET)
    assert not missing, f"no case of tests/cli meets {missing}"


def man_pages_have_no_warning() -> None:
    need("man", "groff")
    env = os.environ | {"LC_ALL": "C.UTF-8"}
    renderers = [
        ["man", "--warnings", "-E", "UTF-8", "-l", "-Tutf8", "-Z"],
        ["groff", "-man", "-t", "-ww", "-z", "-Tutf8"],
    ]
    for name, path in rendered_pages():
        for words in renderers:
            ran = subprocess.run([*words, str(path)], capture_output=True, text=True, env=env)
            assert ran.returncode == 0 and not ran.stderr, f"{name}: {ran.stderr}"


def man_pages_pass_mandoc() -> None:
    need("mandoc")
    for _, path in rendered_pages():
        said("mandoc", "-T", "lint", "-W", "warning", path)


def each_program_has_a_page() -> None:
    found = {name for name, _ in rendered_pages()}
    wanted = {f"{it}.1" for it in programs()} | {
        f"faultyard-{it}.1" for it in commands() if it != "help"
    }
    assert wanted <= found, f"no page for {wanted - found}"
    assert all(
        name in wanted or name.endswith(".5") for name in found
    ), f"a page of nothing: {found - wanted}"


def man_pages_have_their_sections() -> None:
    wanted = [
        "NAME",
        "SYNOPSIS",
        "DESCRIPTION",
        "EXIT STATUS",
        "EXAMPLES",
        "DIAGNOSTICS",
        "SEE ALSO",
    ]
    for name, path in rendered_pages():
        sections = re.findall(r"^\.SH (.*)$", path.read_text(), re.MULTILINE)
        missing = [it for it in wanted if it not in sections and not name.endswith(".5")]
        assert not missing, f"{name} has no {missing}"


def man_pages_tell_each_option() -> None:
    for name, path in rendered_pages():
        if name.endswith(".5"):
            continue
        title = name.removesuffix(".1")
        command = title.partition("-")[2] or None
        wanted = options_of_tool(title) if title in tools() else options(command)
        block = (
            path.read_text()
            .partition("\n.SH OPTIONS\n")[2]
            .partition("\n.SH ")[0]
            .replace("\\-", "-")
        )
        heads = re.findall(r"^\.TP\n(.*)$", block, re.MULTILINE)
        told = {it for head in heads for it in re.findall(r"(?<![\w-])--?[a-zA-Z][a-z-]*", head)}
        assert told == wanted, f"{name} tells {told}, and the help {wanted}"


def man_pages_tell_each_fault() -> None:
    faults = generator().read_faults()
    for name, path in rendered_pages():
        command = name.removesuffix(".1").partition("-")[2]
        text = path.read_text().replace("\\-", "-")
        if command in commands() or name == "faultyard.1":
            for it in faults:
                there = f"\\fB{it.line}\\fR (status {it.status})" in text
                assert there == (not command or command in it.commands), f"{name}: {it.line}"


def examples_of(page: str) -> Iterator[tuple[str, str]]:
    """Each command behind a `$` of a page's blocks of code, and what stands under it."""
    for block in re.findall(r"^\.EX\n(.*?)^\.EE$", page, re.MULTILINE | re.DOTALL):
        text = block.replace("\\-", "-").replace("\\(aq", "'")
        text = text.replace("|\n    ", "| ")  # a command that is broken behind a pipe
        for part in re.split(r"^\$ ", text, flags=re.MULTILINE)[1:]:
            command, _, answer = part.partition("\n")
            # An entry that is broken for its length goes on with two blanks.
            yield command, re.sub(r"\n  ", "", answer)


def examples_are_true() -> None:
    """Commands of the man pages give what stands under them, on the files of examples/."""
    tried = 0
    with tempfile.TemporaryDirectory() as folder:
        os.symlink(program(), f"{folder}/faultyard")
        for path in (ROOT / "examples").iterdir():
            os.symlink(path, f"{folder}/{path.name}")
        env = os.environ | {"PATH": f"{folder}:{os.environ['PATH']}"}
        for name, path in rendered_pages():
            for command, answer in examples_of(path.read_text()):
                ran = subprocess.run(
                    ["bash", "-c", command], cwd=folder, env=env, capture_output=True, text=True
                )
                wanted = answer or ("" if ">" in command else None)
                assert (
                    wanted is None or ran.stdout == wanted
                ), f"{name}: {command}: {ran.stdout}{ran.stderr}"
                assert not ran.stderr, f"{name}: {command}: {ran.stderr}"
                tried += 1
    assert tried >= 6, f"only {tried} examples are found"


def same_version_everywhere() -> None:
    assert said(program(), "--version") == f"faultyard {version()}\n"
    headings = re.findall(
        r"^## \[(.*?)\] - \d{4}-\d\d-\d\d$", (ROOT / "CHANGELOG.md").read_text(), re.MULTILINE
    )
    assert headings[:1] == [version()], f"CHANGELOG.md begins with {headings[:1]}"
    for name, path in rendered_pages():
        assert (
            f'"faultyard {version()}"'
            in path.read_text().splitlines()[0 if name.endswith(".1") else 1]
        ), name


def each_program_tells_its_version() -> None:
    """Those of bin/ are built; without its compiler one isn't there, and packages ask all."""
    for name, path in {"faultyard": program(), **tools()}.items():
        if path.exists():
            tells_its_version(name, path)


def closed_pipes_are_no_fault() -> None:
    """Whoever reads only the first line of a help, or of a version, isn't told of that."""
    for name, path in tools().items():
        for word in ("--help", "--version"):
            if not path.exists():
                continue
            reading, writing = os.pipe()
            os.close(reading)
            ran = subprocess.run([path, word], stdout=writing, stderr=subprocess.PIPE, text=True)
            os.close(writing)
            assert not ran.stderr, f"{name} {word} says {ran.stderr}"


def wrong_words_are_told_in_two_lines() -> None:
    """Of a wrong option a tool says how it is called, and what is wrong, with a word that is near.

    The server's and the disk's own words are tested beside them.
    """
    near = {"nemesis": ("--second", "--seconds"), "shrink": ("--evens", "--events")}
    near |= {"config-check": ("--versoin", "--version"), "sweep": ("--simulat", "--simulat")}
    for name, (word, meant) in near.items():
        path = tools()[f"faultyard-{name}"]
        ran = subprocess.run([path, word, "a", "b", "c", "d"], capture_output=True, text=True)
        usage, wrong = ran.stderr.splitlines()
        assert (ran.returncode, ran.stdout) == (2, ""), (name, ran)
        assert usage.startswith("usage: ") and word in wrong and meant in wrong, (name, ran.stderr)


def completions_wanted() -> dict[str, set[str]]:
    """What has to be offered behind a command line."""
    wanted = {"faultyard ": set(commands()), "faultyard -": options()}
    wanted |= {f"faultyard {it} -": options(it) for it in commands() if it != "help"}
    wanted["faultyard help "] = set(commands())
    wanted |= {f"{it} -": options_of_tool(it) for it in tools()}
    return wanted


def completes_in_bash() -> None:
    for line, wanted in completions_wanted().items():
        name = line.split()[0]
        script = (
            f"source {ROOT}/release/completions/bash/{name}\n"
            f"COMP_WORDS=({line}); [[ '{line}' != *' ' ]] || COMP_WORDS+=('')\n"
            f"COMP_CWORD=$((${{#COMP_WORDS[@]}} - 1))\n"
            f"_{name.replace('-', '_')} 2> /dev/null; printf '%s\\n' \"${{COMPREPLY[@]}}\""
        )
        found = set(said("bash", "-c", script).split())
        if line == "faultyard ":
            wanted = wanted | options()
        assert found == wanted, f"bash offers {found} behind '{line}', not {wanted}"


def completes_in_zsh() -> None:
    need("zsh")
    for line, wanted in completions_wanted().items():
        told = said(
            "zsh", "-f", ROOT / "tests/dist/offered.zsh", ROOT / "release/completions/zsh", line
        )
        found = set(re.findall(r"OFFER:(\S+)", told))
        assert found == wanted, f"zsh offers {found} behind '{line}', not {wanted}"


def completes_in_fish() -> None:
    need("fish")
    with tempfile.TemporaryDirectory() as folder:
        for it in programs():
            os.symlink("/bin/true", f"{folder}/{it}")
        env = os.environ | {"PATH": f"{folder}:{os.environ['PATH']}", "HOME": folder}
        for line, wanted in completions_wanted().items():
            if line == "faultyard help ":
                wanted = wanted - {"help"}
            script = f"set fish_complete_path {ROOT}/release/completions/fish; complete -C '{line}'"
            found = {it.split("\t")[0] for it in said("fish", "-c", script, env=env).splitlines()}
            assert found == wanted, f"fish offers {found} behind '{line}', not {wanted}"


CHECKS = [
    tables_are_current,
    guard_tells_each_strike,
    nemesis_tells_each_end,
    table_has_the_proved_lines,
    table_explains_each_case,
    man_pages_have_no_warning,
    man_pages_pass_mandoc,
    each_program_has_a_page,
    man_pages_have_their_sections,
    man_pages_tell_each_option,
    man_pages_tell_each_fault,
    examples_are_true,
    same_version_everywhere,
    each_program_tells_its_version,
    closed_pipes_are_no_fault,
    wrong_words_are_told_in_two_lines,
    completes_in_bash,
    completes_in_zsh,
    completes_in_fish,
]
