"""What the words of the tool are, and what a run comes to."""
import argparse
import asyncio
import json
import os
import shutil
import signal
import subprocess
import sys
import tempfile
from collections.abc import Callable, Coroutine, Iterator, Sequence
from contextlib import contextmanager
from pathlib import Path
from typing import Any

import faultyard
from faultyard import ConfigRefused, FaultyardError, Guard, GuardEnded, HistoryRefused
from faultyard import InvalidAct, Kind
from faultyard import NotFound
from faultyard.plans import PLANS
from faultyard.programs import find_program
from faultyard.verdicts import Verdict
from command_line import Parser
from keeper import adopt_orphans, end_children

from . import alone, disturbances, links
from . import GUARD, NONE_LOST, TOOL, USAGE, Fault, say, summary
from . import __doc__ as about
from .edn import Convert
from .evidence import told_cases
from .damage import kinds_of
from .disks import KINDS as KINDS_OF_DISKS
from .elsewhere import listed
from .machine import Machine
from .net import WAYS
from .orders import KINDS
from .places import places
from .picture import draw
from .resume import WORDS, Past, Words, is_alive, over
from .run import Run
from .summary import DEAF, MILD, Untested, besides, closing, strictly, untested

# The words that say how orders are drawn, each with the plans that it goes with.
EVERY = (*PLANS, *disturbances.FORMS)
DRAWN = {"kinds": ("mixed", "attrition", "swizzle"), "pauses": EVERY, "when_whole": EVERY}
DRAWN["beside"] = EVERY
LEAST = {"seed": 0, "seconds": 0, "writers": 1, "readers": 0, "registers": 0, "hook_timeout": 0.1}
LEAST |= {"damage_seconds": 0}
SHOWN = 5  # cases that are told on the terminal; records.jsonl has all


def numbers(text: str) -> list[float]:
    """Weights or seconds, separated by commas."""
    found = [float(word) for word in text.split(",")]
    if not all(0 <= number < 1e6 for number in found) or not sum(found):
        raise ValueError(text)
    return found


def weights(text: str) -> list[float]:
    """A weight for each kind."""
    found = numbers(text)
    if len(found) != len(Kind):
        text = f"{len(Kind)} weights are wanted, and {len(found)} are given"
        raise argparse.ArgumentTypeError(text)
    return found


def seconds(text: str) -> float:
    """More than none."""
    if not 0 < (found := float(text)) < 1e6:
        raise ValueError(text)
    return found


def whole_seconds(text: str) -> int:
    """More than none."""
    return int(seconds(str(int(text))))


def pair(text: str) -> list[float]:
    """Two weights."""
    if len(found := numbers(text)) != 2:
        raise ValueError(text)
    return found


def parsed(given: Sequence[str] | None = None) -> argparse.Namespace:
    """The words of the command line, which have to be right."""
    it = Parser("faultyard-nemesis", "CONFIG HOOKS [OPTION..]", description=about)
    add = it.add_argument
    add("config", type=Path, metavar="CONFIG", help="the cluster file")
    add("hooks", type=Path, metavar="HOOKS", help="an executable that knows the store")
    add("--seed", type=int, default=1, help="orders are drawn from it (1)")
    add(
        "--seconds",
        type=float,
        default=60.0,
        help="how long records are written, once all are ready (60)",
    )
    text = "how orders are drawn (mixed)"
    add("--plan", choices=EVERY, default="mixed", help=text)
    text = f"draw disturbances beside the orders of a plan: {', '.join(disturbances.BESIDE)}"
    add("--beside", type=disturbances.kinds_beside, default=[], metavar="PLANS", help=text)
    kinds = ",".join(f"{it:g}" for it in KINDS)
    text = f"how often each kind that is granted is drawn, from the mildest; Clog last ({kinds})"
    add("--kinds", type=weights, metavar="WEIGHTS", help=text)
    text = "between orders, one of these each time; each plan has its own"
    add("--pauses", type=numbers, metavar="SECONDS", help=text)
    text = "each order waits, after its pause, until all processes are up and whole"
    add("--when-whole", action="store_true", help=text)
    text = "how often a RebootProcess is by the hook stop, and by kill -9 (1,1)"
    add("--stops", type=pair, default=[1.0, 1.0], metavar="STOP,KILL", help=text)
    text = "a disk for each process, whose power a Reboot cuts"
    add("--disks", choices=(*KINDS_OF_DISKS, alone.OWN), help=text)
    text = "what a power cut keeps of what was unsynced: nothing, or what is drawn (draw)"
    add("--tear", choices=("none", "draw"), default="draw", help=text)
    add("--deaf-disks", action="store_true", help="syncs do nothing: a control that has to lose")
    text = "what RebootAndDelete does to disks: bits, zeros, swap, misdirect, missing, error, "
    text += "truncate, rollback; or noticed, the first five. Each is emptied later"
    add("--damage", type=kinds_of, metavar="KINDS", help=text)
    text = "how long a process with a damaged disk is asked for all, until it is emptied (10)"
    add("--damage-seconds", type=float, default=10.0, metavar="SECONDS", help=text)
    text = "no other is elected where the disk of a primary is damaged"
    add("--damaged-primary", action="store_true", help=text)
    text = "a host for each process, FY_HOSTS, whose cable a Clog pulls"
    add("--net", action="store_true", help=text)
    text = "how long each packet takes from one data centre (dcid) to another, as 20±5 ms; or from "
    text += "each process to each, where there is one or none"
    add("--latency", type=disturbances.latency_of, metavar="MS±MS", help=text)
    text = "each clock is off by up to so many seconds, as the seed says"
    add("--skew", type=seconds, metavar="SECONDS", help=text)
    text = "each start finds a machine that is up for up to so many seconds more, as the seed "
    text += "says: monotonic clocks, also of programs in Go"
    add("--uptime", type=whole_seconds, metavar="SECONDS", help=text)
    text = "what a Clog loses with --net: what the process sends, what it gets, or both (both)"
    add("--clog", choices=WAYS, default="both", help=text)
    text = "where each process is reached: HOST:PORT,.. or a file of lines NAME HOST:PORT"
    add("--at", type=places, metavar="PLACES", help=text)
    text = "strike a cluster that is up already, whose hook `name` says this, and leave it whole"
    add("--attach", metavar="NAME", help=text)
    text = "where hooks in Python run processes: ssh:HOST,.. units: containers:IMAGE or pods:POD,.."
    add("--on", metavar="WHERE", help=text)
    add("--replay", type=Path, metavar="EVENTS", help="do the orders of an events.jsonl again")
    add("--unguarded", action="store_true", help="do what was ordered, whatever the guard says")
    text = "go on with the run in a folder that died, by its own words"
    add("--resume", type=Path, metavar="FOLDER", help=text)
    add("--check-hooks", action="store_true", help="have each hook called on a calm cluster")
    add("--writers", type=int, default=3, help="how many write hooks run (3)")
    add("--readers", type=int, default=2, help="how many check hooks run, if there is one (2)")
    text = (
        "write N keys again and again, read them by the hook get, and ask if that is linearizable"
    )
    add("--registers", type=int, default=0, metavar="N", help=text)
    text = "how long a hook may take; setup, join, elect, read and salvage six times as long (10)"
    add("--hook-timeout", type=float, default=10.0, metavar="SECONDS", help=text)
    text = "ask a faultyard-serve by its socket or URL, and do what others are answered there too"
    add("--guard", metavar="SERVER", help=text)
    add(
        "--tokens",
        type=Path,
        metavar="FILE",
        help="tokens for --guard, as faultyard-serve has them",
    )
    add("--out", type=Path, metavar="FOLDER", help="empty or new; else a new one below TMPDIR")
    add("--keep", action="store_true", help="keep the data of the processes if nothing is lost")
    add("--quiet", action="store_true", help="print the summary alone")
    text = "end with 12 to 15 where nothing is wrong and something wasn't tested, as a line says"
    add("--strict", action="store_true", help=text)
    text = "print the history of a run that has ended as EDN, and do nothing else"
    add("--edn", action=Convert, metavar="FOLDER", help=text)
    words: argparse.Namespace = it.parse_args(given := with_those_of_a_run(it, given))
    words.given, words.cwd, words.port = given, os.getcwd(), None
    if words.resume:
        words.port = Words.of(words.resume).port
        words.out = words.resume
    for name, least in LEAST.items():
        if not least <= vars(words)[name] < 1e9:
            it.error(f"--{name.replace('_', '-')} has to be {least} or more")
    if words.deaf_disks and not words.disks:
        it.error("--deaf-disks needs --disks")
    if why := undamaged(words):
        it.error(why)
    if "partition" in (words.plan, *words.beside) and not words.net:
        it.error("--plan partition needs --net")
    if why := disturbances.refused(words):
        it.error(why)
    if words.clog != "both" and not words.net:
        it.error("--clog needs --net")
    for path in (words.config, words.hooks, words.replay, words.tokens):
        if path and not path.is_file():
            it.error(f"there is no file {path}")
    if not os.access(words.hooks, os.X_OK):
        it.error(f"{words.hooks} is no executable")
    if words.resume and words.check_hooks:
        it.error("--check-hooks isn't gone on with: it begins anew")
    if words.attach is not None and not words.attach.strip():
        it.error("--attach has to name the cluster that may be struck")
    if words.attach and words.check_hooks:
        it.error("--check-hooks empties each process: it isn't for a cluster of --attach")
    if words.tokens and not words.guard:
        it.error("--tokens goes with --guard")
    if words.out and not words.resume and words.out.is_dir() and any(words.out.iterdir()):
        it.error(f"{words.out} is not empty")
    if idle := without_effect(words):
        it.error(idle)
    words.hooks, words.parts = words.hooks.resolve(), False
    return words


def undamaged(words: argparse.Namespace) -> str | None:
    """Why disks can't be damaged as the words say, if they can't."""
    if not words.damage:
        is_more = words.damaged_primary or words.damage_seconds != 10.0
        return "--damage-seconds and --damaged-primary need --damage" if is_more else None
    if "error" in words.damage and words.disks != "lossy":
        return "--damage error needs --disks lossy, whose reads fail where it says"
    if words.deaf_disks:
        return "--damage isn't for --deaf-disks, which forget by themselves"
    if words.check_hooks:
        return "--check-hooks damages no disk: --damage has no effect"
    return None


def with_those_of_a_run(parser: argparse.ArgumentParser, given: Sequence[str] | None) -> list[str]:
    """The words that are given; behind those of the run's beginning, if one is gone on with."""
    given = [*(sys.argv[1:] if given is None else given)]
    first = argparse.ArgumentParser(add_help=False, allow_abbrev=False)
    first.add_argument("--resume", type=Path)
    known, rest = first.parse_known_args(given)
    if not known.resume:
        return given
    folder = known.resume.resolve()
    try:
        begun = Words.of(folder)
    except Fault as fault:
        parser.error(fault.args[1])
    os.chdir(begun.cwd)
    return [*begun.given, "--resume", str(folder), *rest]


def without_effect(words: argparse.Namespace) -> str | None:
    """Which word says how orders are drawn that aren't drawn so, if one does."""
    for name, plans in DRAWN.items():
        word = f"--{name.replace('_', '-')}"
        if vars(words)[name] and words.replay:
            return f"{word} has no effect with --replay, whose orders have their times and kinds"
        if vars(words)[name] and words.plan not in plans:
            text = f"{word} has no effect with --plan {words.plan}"
            return f"{text}: it goes with {', '.join(plans)}"
    return None


def read_tokens(path: Path) -> dict[int, str]:
    """The token of each actor, of a file as faultyard-serve reads it."""
    rows = [line.split() for line in path.read_text().splitlines() if not line.startswith("#")]
    return {int(row[1]): row[0] for row in rows if len(row) == 2 and row[1].isdigit()}


def past_of(words: argparse.Namespace, machine: Machine) -> Past | None:
    """What a run had done that died. Of one that had written nothing nothing is left."""
    machine.end_strays(words.out)
    if (past := Past.of(words.out)) is None:
        for path in words.out.iterdir():
            if path.name != WORDS:
                shutil.rmtree(path) if path.is_dir() else path.unlink()
    return past


@contextmanager
def guarded(words: argparse.Namespace, past: Past | None) -> Iterator[Guard]:
    """The guard of a run. One that was killed after its last answer has said all."""
    tokens = read_tokens(words.tokens) if words.tokens else {}
    after = words.out / "audit" if past and not words.guard else None
    more = {"folder": words.out, "server": words.guard, "tokens": tokens}
    is_over = False
    try:
        with Guard(words.config, after=after, **more) as guard:
            yield guard
            is_over = True
    except GuardEnded as end:
        if not is_over or end.status is None or end.status >= 0:
            raise


async def chaos(words: argparse.Namespace, machine: Machine) -> int:
    """A run, and how the tool ends."""
    loop, task = asyncio.get_running_loop(), asyncio.current_task()
    assert task
    for number in (signal.SIGINT, signal.SIGTERM, signal.SIGHUP):
        loop.add_signal_handler(number, task.cancel, int(number))
    past = past_of(words, machine) if words.resume else None
    with guarded(words, past) as guard:
        if guard.journal_len() and not past:
            raise Fault(USAGE, f"{words.guard} has entries: a run needs a new audit")
        run = Run(words, guard, machine, past)
        try:
            await run.whole()
        except (asyncio.CancelledError, Fault) as fault:
            run.unread()
            if run.ledger.has_begun() and not words.check_hooks:
                report(run, is_read=False)
            elif isinstance(fault, Fault):
                why = "; ".join([fault.args[1], *run.ended_by_themselves()])
                raise Fault(fault.args[0], why) from None
            raise
        finally:
            run.history.flush()
    for copy in words.out.glob(".seen*"):  # of files elsewhere, by hooks that were ended
        shutil.rmtree(copy)
    status = report(run)
    run.note("over", status=status, told=closing(run.judged))
    if status == NONE_LOST and not words.keep:
        if not words.attach:
            await run.elsewhere.cleared(len(run.names))
        for process in range(len(run.names)):
            shutil.rmtree(words.out / str(process), ignore_errors=True)
            run.damages.forget_copies(process)
            if run.disks:
                run.disks.remove(process)
    return status


def main() -> int:
    """Does what the words say; all that it started ends before this returns."""
    words = parsed()
    words.parts = words.net and "cut" in listed(words)
    if alone.is_wanted(words) and alone.MARK not in os.environ:
        if lack := alone.missing(words) or unshaped(words):
            print(f"faultyard-nemesis: {lack}", file=sys.stderr)
            return USAGE
        alone.move(words)
    adopt_orphans()
    if sys.version_info < (3, 12):  # later it is the default
        asyncio.set_child_watcher(asyncio.PidfdChildWatcher())
    try:
        return ended(words)
    finally:
        end_children()


def unshaped(words: argparse.Namespace) -> str | None:
    """Why the network can't be slow or lossy as the words say, if it can't."""
    what = disturbances.shapes(words)
    return links.missing(words, what) if what and alone.has_net(words) else None


def ended(
    words: argparse.Namespace,
    machine: Machine = Machine(),
    run: Callable[[Coroutine[Any, Any, int]], int] = asyncio.run,
) -> int:
    """How the tool ends, on a machine and in a loop; what ends it before its time is told."""
    try:
        if words.resume and (ended_with := as_it_ended(words.out)) is not None:
            return ended_with
        words.out = Path(words.out or tempfile.mkdtemp(prefix="faultyard-nemesis-")).resolve()
        words.out.mkdir(parents=True, exist_ok=True)
        return run(chaos(words, machine))
    except asyncio.CancelledError as interrupted:
        print(f"faultyard-nemesis: interrupted; {words.out}", file=sys.stderr)
        return 128 + int(interrupted.args[0])
    except (Fault, FaultyardError, OSError) as fault:
        refused = isinstance(fault, (ConfigRefused, InvalidAct, NotFound))
        is_guards = isinstance(fault, FaultyardError) and not isinstance(fault, HistoryRefused)
        status = USAGE if refused else GUARD if is_guards else TOOL
        status, why = fault.args if isinstance(fault, Fault) else (status, fault)
        if status == USAGE and not words.resume:
            shutil.rmtree(words.out)
        print(f"faultyard-nemesis: {why}", file=sys.stderr)
        if isinstance(fault, ConfigRefused) and (more := explained(words.config)):
            print(more, file=sys.stderr)
        return int(status)


def explained(config: Path) -> str:
    """Where a refused cluster file is at fault: what the program says below its fault line."""
    words = [find_program(), "config", str(config)]
    ran = subprocess.run(words, stdin=subprocess.DEVNULL, capture_output=True, check=False)
    return ran.stderr.decode(errors="replace").partition("\n")[2].rstrip("\n")


def as_it_ended(folder: Path) -> int | None:
    """The status of a run that has ended; nothing where it may be gone on with."""
    if is_alive(folder):
        raise Fault(USAGE, f"the run in {folder} goes on: nothing has to be gone on with")
    if (last := over(folder)) is None:
        return None
    say(f"the run in {folder} has ended with status {last['status']}: {last['told']}")
    return int(last["status"])


def rising(events: Path) -> Iterator[str]:
    """The events whose entries rise, for `show`: what others did may come behind a later entry."""
    last = -1
    for line in events.read_text("utf-8").splitlines(keepends=True):
        if (entry := json.loads(line).get("entry", -1)) > last:
            last = entry
            yield line


def write_files(run: Run) -> str:
    """Writes what a run leaves beside its events; whether its audit is legal, in words."""
    words, audit, beyond = run.words, run.guard.audit(), run.beyond()
    run.history.flush()
    lost = [run.named(run.ledger.loss_of(key)) for key in run.judged.keys(Verdict.LOST)]
    for name, found in (("lost.jsonl", lost), ("records.jsonl", run.cases)):
        if found:
            (words.out / name).write_text("".join(f"{json.dumps(it)}\n" for it in found))
    try:
        checked = f"legal {faultyard.check(words.config, audit)}"
        first = beyond["entry"] if beyond else None
        with tempfile.NamedTemporaryFile("w", encoding="utf-8") as times:
            times.writelines(rising(words.out / "events.jsonl"))
            times.flush()
            picture = faultyard.show(words.config, audit, beyond=first, times=times.name)
        (words.out / "audit.svg").write_text(picture, "utf-8")
    except faultyard.AuditRefused as fault:
        checked = fault.fault
    return checked


def after_cuts(run: Run) -> list[str]:
    """What may be the work of a power cut: records that are missing, and who did not start
    again."""
    lost = run.judged["lost"] + run.judged["missing"]
    if not run.cuts or not (lost or run.down):
        return []
    lines = [f"records missing after power cuts: {lost}"] if lost else []
    lines += [f"did not start again: {' '.join(run.down)}"] if run.down else []
    if run.words.disks == "lossy" and not run.words.deaf_disks:
        text = "a disk of lossy hears no sync(2); --disks ext4 confirms it, or not"
        lines.append(f"unconfirmed: {text}")
    return lines


def not_tested(run: Run) -> list[Untested]:
    """What a run didn't test."""
    its = {MILD: run.words.unguarded, DEAF: run.words.deaf_disks}
    controls = [text for text, is_so in its.items() if is_so]
    return [*untested(run.amount(), controls, is_lost=run.judged.is_unclear)]


def report(run: Run, is_read: bool = True) -> int:
    """Prints what a run comes to, and says how the tool ends."""
    words, judged, checked = run.words, run.judged, write_files(run)
    title = f"seed {words.seed}"
    title += f", {run.partitions} partitions" if run.partitions else ""
    title += f", {run.disturbances.count} disturbances" if run.disturbances.count else ""
    lines = run.summary(title) + run.damages.summed() + run.notes + run.power() + after_cuts(run)
    lines += run.ended_by_themselves() + run.own_clocks()
    lacks = not_tested(run) if is_read and not words.check_hooks else []
    lines += map(str, lacks)
    lines += run.stages.told(words.seconds) if is_read and run.is_timed else []
    lines += told_cases(run.cases, SHOWN)
    lines += [*besides(judged), *summary.told_keys(run.linear, SHOWN)] if is_read else []
    acked = len(run.ledger.records)
    ending = closing(judged) if is_read else f"{acked} acknowledged so far, not read"
    (words.out / "picture.svg").write_text(draw(words.out, run.file, [lines[0], ending]), "utf-8")
    lines.append(f"{ending}; audit {checked}; {words.out}")
    if words.check_hooks:
        lines += run.check.times()
    say("\n".join(lines))
    if checked != f"legal {run.guard.journal_len()}":
        return GUARD
    is_fresh, alone = "fresh" in run.hooks.names, len(run.told_alone)
    status = summary.status(judged, run.linear, is_fresh, run.is_unread, alone)
    is_long = run.is_timed and run.stages.is_long(words.seconds)
    return strictly(status, lacks, is_long) if words.strict else status
