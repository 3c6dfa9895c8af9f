#!/usr/bin/env python3
"""Times acts in a cluster with many records, and acts on many processes, an act or a cycle a row.

    bench/cycles.py [--rounds N] [--only TEXT] PROGRAM [OTHER]

Each figure is the difference of two scripts that `run` is given: one that prepares a state, and one
that goes on with so many cycles. So it has the reading of their lines and the writing of their
entries, and not the state's. It is the least of N (5 if left out) of the long script less the least
of the short one, of the time that the system says the program had of a processor. Both programs
have to write the same audits.

Records are of one team of two, or of 4,096 such teams in turn. Acknowledged ones are those that the
process that comes has, too. Acts on many processes are on 1,000 of them: eight to a zone, 64 to a
hall, 500 to a centre. With --only those rows are timed whose names hold TEXT.
"""
import argparse
import json
import os
import subprocess
import sys
import tempfile
from collections.abc import Iterator
from dataclasses import dataclass
from pathlib import Path

STORAGE, FAULT, OPERATOR = range(3)
KINDS = ["RebootProcess", "Reboot", "RebootAndDelete", "KillInstantly", "Clog"]
# The team's two members, who comes for the first, and a process of no team.
OUT, STAYS, INTO, ALONE = 0, 2, 1, 5
RECORDS = (1_000, 8_000, 32_000, 65_536)
MOST_ACKNOWLEDGED = 32_000
TARGETS = {1: "processid=p3", 8: "zoneid=z2", 64: "data_hall=h2", 500: "dcid=d1"}
MOST_SCRIPT_BYTES = 16_777_216
# How many records of a process are synced at once.
BATCH = 1_000
MANY_CYCLES, MOST_LOOKS = 5_000, 20_000_000

Members = dict[str, object]


def line(by: int, act: str, **members: object) -> str:
    text = json.dumps({act: members}, separators=(",", ":"), sort_keys=True)
    return f'{{"by":{by},"act":{text}}}\n'


def copied(record: int, source: int, to: int) -> str:
    return line(STORAGE, "copy", record=record, **{"from": source, "to": to})


def target(text: str) -> Members:
    key, value = text.split("=")
    return {"key": key, "value": value}


def killed(kind: str, aim: str) -> str:
    return line(FAULT, "kill", kind=kind, floor=kind, tear=0, **target(aim))


def cluster(processes: int) -> str:
    """A cluster file. Six processes stand two to a zone."""
    zone, hall, centre = (2, 6, 6) if processes == 6 else (8, 64, 500)
    rows = "".join(
        f'  {{processid = "p{p}", machineid = "m{p}", zoneid = "z{p // zone}", '
        f'data_hall = "h{p // hall}", dcid = "d{p // centre}"}},\n'
        for p in range(processes)
    )
    return (
        'journal_limit = 1048576\npolicies = ["Across(2,zoneid,One())"]\n'
        f'process = [\n{rows}]\nactor = [\n  {{role = "storage"}},\n'
        f'  {{role = "fault", grants = [{{kinds = {json.dumps(KINDS)}}}]}},\n'
        '  {role = "operator"},\n]\n'
    )


@dataclass(frozen=True)
class Case:
    """What a row times: so many cycles in a state."""

    name: str
    processes: int
    state: str
    cycle: str
    cycles: int


def records(count: int, teams: int, is_acked: bool) -> str:
    """A state with so many records of these teams in turn, each of two members."""
    lines = [line(STORAGE, "form", members=[OUT, STAYS], policy=0)] * teams
    message = 0
    copies = 0
    for record in range(count):
        lines.append(line(STORAGE, "begin", payload="6869", team=record % teams))
        act = "deliver" if is_acked else "lose"
        lines += [line(STORAGE, act, message=message + at) for at in range(2)]
        message += 2
        done = record % BATCH + 1
        if is_acked and (done == BATCH or record == count - 1):
            message = acknowledged(lines, message, done)
            for copy in range(record + 1 - done, record + 1):
                if copy % teams == 0:
                    lines += [copied(copy, OUT, INTO), line(STORAGE, "deliver", message=message)]
                    message += 1
                    copies += 1
    lines.append(line(STORAGE, "sync", process=INTO))
    lines += [line(STORAGE, "lose", message=message + at) for at in range(copies)]
    return "".join(lines)


def acknowledged(lines: list[str], message: int, count: int) -> int:
    """Syncs the last so many records of both members, and delivers that to the client: the number
    of the next message."""
    for process in (OUT, STAYS):
        lines.append(line(STORAGE, "sync", process=process))
    lines += [line(STORAGE, "deliver", message=message + at) for at in range(2 * count)]
    return message + 2 * count


def record_cases(count: int, teams: int, is_acked: bool) -> Iterator[Case]:
    kind = "acknowledged" if is_acked else "not acknowledged"
    name = f"{count:,} records {kind}, {teams:,} team{'s' if teams > 1 else ''}"
    state = records(count, teams, is_acked)
    aim = f"processid=p{ALONE}"
    cycles = min(MANY_CYCLES, MOST_LOOKS // count)
    healing = [killed("RebootAndDelete", aim)]
    healing += [line(STORAGE, act, process=ALONE) for act in ("up", "heal")]
    yield Case(f"{name}: kill, up, heal", 6, state, "".join(healing), cycles)
    there = line(STORAGE, "replace", into=INTO, out=OUT, team=0)
    back = line(STORAGE, "replace", into=OUT, out=INTO, team=0)
    yield Case(f"{name}: replace, and back", 6, state, there + back, cycles)


def process_cases() -> Iterator[Case]:
    for count, aim in TARGETS.items():
        clog = line(FAULT, "clog", ticks=5, **target(aim)) + line(FAULT, "unclog", **target(aim))
        yield Case(f"clog and unclog {count}", 1_000, "", clog, MANY_CYCLES)
        yield Case(f"reboot {count}", 1_000, "", killed("Reboot", aim), MANY_CYCLES)
    rights = [line(OPERATOR, act, kinds=["Reboot"], process=20) for act in ("protect", "unprotect")]
    yield Case("protect and unprotect", 1_000, "", "".join(rights), MANY_CYCLES)
    team = line(STORAGE, "form", members=[0, 8, 16], policy=0)
    yield Case("form of 3", 1_000, "", team, 2_000)
    begin = line(STORAGE, "begin", payload="6869", team=0)
    yield Case("begin of a team of 3", 1_000, team, begin, 2_000)


def cases() -> Iterator[Case]:
    for is_acked in (False, True):
        for teams in (1, 4_096):
            for count in RECORDS:
                if not is_acked or count <= MOST_ACKNOWLEDGED:
                    yield from record_cases(count, teams, is_acked)
    yield from process_cases()


def run(program: str, config: Path, script: Path) -> tuple[bytes, float]:
    """What a program writes, and the seconds of processor time that it took."""
    with script.open("rb") as given:
        ran = subprocess.Popen([program, "run", config], stdin=given, stdout=subprocess.PIPE)
    assert ran.stdout is not None
    written = ran.stdout.read()
    _, status, used = os.wait4(ran.pid, 0)
    ran.returncode = os.waitstatus_to_exitcode(status)
    if ran.returncode:
        raise SystemExit(f"cycles: {program} ended with status {ran.returncode}")
    return written, used.ru_utime + used.ru_stime


def microseconds(programs: list[str], case: Case, rounds: int, folder: Path) -> list[float]:
    """Of each program what a cycle takes."""
    config = folder / "cluster.toml"
    config.write_text(cluster(case.processes))
    least: dict[tuple[str, int], float] = {}
    for cycles in (0, case.cycles):
        script = folder / "script"
        script.write_text(case.state + case.cycle * cycles)
        if script.stat().st_size > MOST_SCRIPT_BYTES:
            raise SystemExit(f"cycles: the script of {case.name!r} is too long")
        for _ in range(rounds):
            told = set()
            for program in programs:
                written, took = run(program, config, script)
                told.add(written)
                refused = case.cycle and b'"no":' in b"".join(written.splitlines()[-3:])
                if cycles and refused:
                    raise SystemExit(f"cycles: {case.name!r} ends with a refusal")
                least[program, cycles] = min(took, least.get((program, cycles), took))
            if len(told) > 1:
                raise SystemExit(f"cycles: the two wrote different audits of {case.name!r}")
    return [(least[it, case.cycles] - least[it, 0]) / case.cycles * 1e6 for it in programs]


def main() -> int:
    usage = "bench/cycles.py [--rounds N] [--only TEXT] PROGRAM [OTHER]"
    words = argparse.ArgumentParser(usage=usage)
    words.add_argument("--rounds", type=int, default=5)
    words.add_argument("--only", default="")
    words.add_argument("programs", nargs="+")
    asked = words.parse_args()
    heads = ["Cycle", "microseconds", "the other", "ratio"][: 2 * len(asked.programs)]
    print(f"| {' | '.join(heads)} |\n|{'---|' * len(heads)}")
    with tempfile.TemporaryDirectory(prefix="bench-cycles-") as folder:
        for case in cases():
            if asked.only in case.name:
                took = microseconds(asked.programs, case, asked.rounds, Path(folder))
                cells = [case.name, *(f"{it:.2f}" for it in took)]
                if len(took) > 1:
                    cells.append(f"{took[0] / took[1]:.2f}" if took[1] > 0 else "")
                print("| " + " | ".join(cells) + " |", flush=True)
    return 0


if __name__ == "__main__":
    sys.exit(main())
