"""The case of each record that isn't kept: what the program says of it, in words, and what was done
in the run to those who could hold it."""
from collections.abc import Callable, Iterable, Iterator, Mapping, Sequence, Set
from dataclasses import dataclass, field
from typing import Any

from faultyard.history import PREFIX, Operation
from faultyard.ledger import Heal, Loss, Record
from faultyard.verdicts import Verdict

from .observed import Came, Observed

Found = Mapping[str, str | None]  # by key; None where a read that was answered lacks it
Disk = Mapping[str, str] | None  # what the folder of a process has, if that is known
MORE = "?"  # the key by which a disk says that it may have more, which couldn't be read
Judged = Mapping[str, Any]  # a record, as the program says what became of it


@dataclass(frozen=True)
class Left:
    """What was found at the end of a run."""

    checked: Mapping[int, Found] = field(default_factory=dict)
    """What each process that is up and whole told last, by its number."""
    disks: Mapping[int, Disk] = field(default_factory=dict)
    """What the folder of each process has, by its number, if that was asked for."""
    traces: Mapping[int, Set[str]] = field(default_factory=dict)
    """The keys of which something stands in the files of a process whose disk isn't all known."""

    def is_told(self, number: int) -> bool:
        """Whether all that a process's folder has was told."""
        disk = self.disks.get(number)
        return disk is not None and MORE not in disk

    def has(self, key: str, value: str) -> dict[int, list[str]]:
        """Who told a record, and how."""
        return self._by(lambda told: told.get(key) == value, lambda n: self._tells(n, key, value))

    def lacks(self, key: str, value: str) -> dict[int, list[str]]:
        """Who told that it lacks a record, and how."""
        return self._by(
            lambda told: key in told and told[key] != value, lambda n: self._denies(n, key, value)
        )

    def _tells(self, number: int, key: str, value: str) -> str:
        return "salvage" if (self.disks.get(number) or {}).get(key) == value else ""

    def _denies(self, number: int, key: str, value: str) -> str:
        if number not in self.disks or self._tells(number, key, value):
            return ""
        if self.is_told(number):
            return "salvage"
        return "files" if key not in self.traces.get(number, {key}) else ""

    def _by(
        self, checked: Callable[[Found], bool], disk: Callable[[int], str]
    ) -> dict[int, list[str]]:
        found: dict[int, list[str]] = {}
        for number in sorted(self.checked.keys() | self.disks.keys()):
            how = ["check"] if checked(self.checked.get(number, {})) else []
            if how := how + [it for it in [disk(number)] if it]:
                found[number] = how
        return found


@dataclass(frozen=True)
class Course:
    """What was done in a run, and what is left of it."""

    names: Sequence[str]
    orders: Sequence[Mapping[str, Any]]  # as the events have them
    losses: Sequence[Loss]
    heals: Sequence[Heal]
    left: Left
    is_fresh: bool  # whether the store promises that no answer lags
    lines: Sequence[Mapping[str, Any]] = ()  # of the history
    damages: Sequence[Observed] = ()  # what was done to disks, and what came of it

    @property
    def control(self) -> str:
        """What is said where a disk forgot what it had synced, and its process went on."""
        for it in self.damages:
            if it.damage.forgets and it.is_up:
                name, what = self.names[it.process], it.damage.kind
                text = f"since entry {it.entry} the disk of {name} had forgotten what it synced"
                return f"{text} ({what}): a control, by which nobody is blamed"
        return ""

    def damaged(self, it: Observed) -> str:
        """A damage in words."""
        return f"the disk of {self.names[it.process]} was damaged by entry {it.entry}: {it.damage}"

    def right_at_end(self, key: str, value: str) -> str:
        """How many of the reads at the end told a record as it was written."""
        told, is_end = [], False
        for line in self.lines:
            is_end = is_end or line["f"] == "written"
            is_read = is_end and (line["f"], line.get("type")) == ("read", "ok")
            if is_read and line["value"][0] == key:
                told.append(line["value"][1] == value)
        return f"at the end {sum(told)} of {len(told)} reads had it right"

    def told(self, numbers: Iterable[int]) -> str:
        """The names of processes."""
        return " ".join(self.names[number] for number in sorted(set(numbers)))

    def who(self, line: int) -> str:
        """Who was asked by the read that ends in a line."""
        node: int | None = self.lines[line]["node"]
        return "`read`" if node is None else self.names[node]


class Case:
    """A record that isn't kept, and what is known of those who could hold it."""

    def __init__(self, judged: Judged, sent: int, record: Record, course: Course) -> None:
        self.judged, self.sent, self.record, self.course = judged, sent, record, course
        self.key, self.verdict = judged["key"], Verdict(judged["verdict"])
        self.destroyed, self.healed = self._since(course.losses), self._since(course.heals)
        self.never = set(record.able) - self.destroyed.keys()
        self.holds = course.left.has(self.key, record.value)
        self.lacks = course.left.lacks(self.key, record.value)

    def _since(self, what: Sequence[Loss] | Sequence[Heal]) -> dict[int, list[int | None]]:
        """The entries by which processes were destroyed or healed since the acknowledgement."""
        found: dict[int, list[int | None]] = {}
        for it in what:
            if it.t >= self.record.t:
                found.setdefault(it.process, []).append(it.entry)
        return found

    def fault(self) -> str:
        """Whose fault it is, in one sentence."""
        match self.verdict:
            case Verdict.LOST:
                return self._lost()
            case Verdict.MISSING:
                return (self.course.control or self._missing()) + self._after_damage()
            case Verdict.STALE:
                return self._stale()
            case Verdict.WRONG:
                return self._wrong()
        return f"unknown: no read told it at the end, and {self._unknown()}"

    def _lost(self) -> str:
        match self.judged["fault"]:
            case {"beyond": entry}:
                return self._beyond(entry)
            case _ if control := self.course.control:
                return control
            case "store":
                return self._by_store() + self._after_damage()
            case {"store_or_whole": heals}:
                return _too_early(self.course, [(number, entry) for number, entry in heals])
        return self._told_apart() + self._after_damage()

    def _beyond(self, entry: int) -> str:
        """Where the guarantee had ended."""
        text, told = f"beyond the guard since entry {entry}", self.course.told
        if took := [n for n in self.record.able if entry in self.destroyed.get(n, ())]:
            text += f", which destroyed {told(took)} who could hold it"
        return f"{text}; {told(self.holds)} has it" if self.holds else text

    def _by_store(self) -> str:
        """Where some holder was never destroyed, by the guarantee."""
        never = set(range(len(self.course.names))) - set(self.judged["destroyed"])
        one = "" if len(never) == 1 else "one of "
        none = ", and none has it" if never <= self.lacks.keys() - self.holds.keys() else ""
        text = f"{one}{self.course.told(never)} held it and was never destroyed since{none}"
        return f"{text}: the store lost it"

    def _after_damage(self) -> str:
        """Which damage may be why: after it a process went on with less than it had."""
        then = {Came.LACKED: "lacked {}", Came.NOT_WHOLE: "was not whole"}
        return "".join(
            f"; {self.course.damaged(it)}, and then it {then[Came(it.came)].format(it.most)}"
            for it in self.course.damages
            if it.came in then
        )

    def _wrong(self) -> str:
        read = self.judged["read"]
        who, told = self.course.who(read), self.judged["told"]
        text = f"{who} told {told}, and {self.record.value} was written"
        node, its = self.course.lines[read]["node"], self.course.damages
        here = [it for it in its if it.damage.record == self.key or it.process == node]
        if not here:
            return text
        right = self.course.right_at_end(self.key, self.record.value)
        return f"{text}; {self.course.damaged(here[0])}; {right}"

    def _told_apart(self) -> str:
        """Where some have it, or `read` didn't say."""
        tells, disks = (self.course.told(self.judged[it]) for it in ("tells", "disks"))
        if self.judged["read"] is None:
            lacks = self.course.told(n for n, how in self.lacks.items() if "check" in how)
            text = f"{lacks} lacks it by `check`, and `read` had no answer"
            return f"{text}; {tells} told it" if tells else text
        if tells:
            return f"`read` lacks it, and {tells} told it by `check`: `read` or the store is wrong"
        return f"`read` lacks it, and the disk of {disks} has it: does the store serve it?"

    def _missing(self) -> str:
        """Where some process alone lacks it."""
        lacks, told = {number for number, _ in self.judged["lacks"]}, self.course.told
        text = f"{told(lacks)} lacks it by `check`"
        if on_disk := lacks & set(self.judged["disks"]):
            text += f", though the disk of {told(on_disk)} has it"
        if has := self.holds.keys() - lacks:
            text += f", and {told(has)} has it"
        if heals := [(n, it) for n in sorted(lacks) for it in self.healed.get(n, ())]:
            return f"{text}; {_too_early(self.course, heals)}"
        return f"{text}: the store lost it there, or `check` is wrong"

    def _unknown(self) -> str:
        """What isn't known of the disks."""
        numbers = range(len(self.course.names))
        unknown = [n for n in numbers if not {"salvage", "files"} & {*self.lacks.get(n, ())}]
        return f"whether the disk of {self.course.told(unknown)} has it is unknown"

    def _stale(self) -> str:
        text = f"{self.course.who(self.judged['read'])} lacked it after {self._seconds():.3f} s"
        return f"{text}, though the hooks promise fresh" if self.course.is_fresh else text

    def _seconds(self) -> float:
        return round(int(self.judged["after"]) / 1e9, 3)

    def line(self) -> dict[str, Any]:
        """All of it, as a line of records.jsonl."""
        names, record, is_stale = self.course.names, self.record, self.verdict is Verdict.STALE
        line = {
            "key": self.key,
            "verdict": self.verdict.value,
            "value": record.value,
            "sent": round(self.sent / 1e9, 3),
            "acked": record.t,
            "entry": record.entry,
            "able": [names[number] for number in record.able],
            "never_destroyed": [names[number] for number in sorted(self.never)],
            "destroyed": {names[number]: it for number, it in self.destroyed.items()},
            "healed": {names[number]: it for number, it in self.healed.items()},
            "struck": self._struck(),
            "holds": {names[number]: it for number, it in self.holds.items()},
            "lacks": {names[number]: it for number, it in self.lacks.items()},
            "fault": self.fault(),
        }
        if is_stale:
            who = self.course.who(self.judged["read"])
            line["stale"] = {"process": who, "seconds": self._seconds()}
        return line | ({"told": self.judged["told"]} if self.verdict is Verdict.WRONG else {})

    def _struck(self) -> list[dict[str, Any]]:
        """The orders since it was sent that struck one who could hold it."""
        sent, able = self.sent / 1e9, set(self.record.able)
        return [
            {"entry": it["entry"], "t": it["t"], "kind": it["does"], "processes": struck}
            for it in self.course.orders
            if it["does"] and it["t"] >= sent
            if (struck := [self.course.names[n] for n in it["targets"] if n in able])
        ]


def _too_early(course: Course, heals: Sequence[tuple[int, int | None]]) -> str:
    """What is said of those who were healed, and perhaps too early."""
    numbers = {number for number, _ in heals}
    was = f"{course.told(numbers)} {'were' if len(numbers) > 1 else 'was'}"
    entries = numbered(entry for _, entry in heals)
    return f"{was} healed by {entries}: `whole` was wrong, or the store lost it"


def numbered(entries: Iterable[int | None]) -> str:
    """Entries in words."""
    known = sorted({entry for entry in entries if entry is not None})
    if not known:
        return "no entry"
    *first, last = map(str, known)
    return f"entries {', '.join(first)} and {last}" if first else f"entry {last}"


def unwritten(
    acked: Set[str], writes: Mapping[str, Sequence[Operation]], reads: Iterable[Operation]
) -> list[Operation]:
    """The first read of each key that isn't an acknowledged record's, and told what nobody wrote
    there. A key that the tool never writes is the store's own, unless it looks like the tool's."""
    found: dict[str, Operation] = {}
    written: dict[str, Set[str | None]] = {}  # of each key once: some are written all the time
    for read in reads:
        key = read.key
        if key in acked or not (key in writes or key.startswith(PREFIX)):
            continue
        if key not in written:
            written[key] = {None, *(write.value for write in writes.get(key, ()))}
        if read.value not in written[key]:
            found.setdefault(key, read)
    return list(found.values())


def unwritten_line(read: Operation, is_known: bool, names: Sequence[str]) -> dict[str, Any]:
    """A value that was never written, as a line of records.jsonl."""
    who = "`read`" if read.node is None else names[read.node]
    wrote = "nobody wrote that there" if is_known else "nobody wrote that key"
    return {
        "key": read.key,
        "verdict": "unwritten",
        "told": read.value,
        "process": read.node if read.node is None else names[read.node],
        "t": round(read.ended / 1e9, 3),
        "fault": f"{who} told {read.value}, and {wrote}",
    }


def told_alone(
    course: Course, records: Mapping[str, Record], wrong: Set[str]
) -> Iterator[dict[str, Any]]:
    """What a process with a damaged disk told wrongly, and no read of the history did, as lines of
    records.jsonl."""
    for it in course.damages:
        for key in sorted(it.wrong.keys() - wrong):
            value, name = records[key].value, course.names[it.process]
            right = course.right_at_end(key, value)
            text = f"{name} alone told {it.wrong[key]}, and {value} was written"
            yield {
                "key": key,
                "verdict": "damaged",
                "value": value,
                "told": it.wrong[key],
                "process": name,
                "t": it.t,
                "fault": f"{text}; {course.damaged(it)}; {right}",
            }


def told_cases(lines: Sequence[Mapping[str, Any]], shown: int) -> list[str]:
    """Cases for people: each fault once, and the stale ones as one."""
    by_fault: dict[tuple[str, str], list[Mapping[str, Any]]] = {}
    for line in lines:
        fault = "" if line["verdict"] == Verdict.STALE else line["fault"]
        by_fault.setdefault((line["verdict"], fault), []).append(line)
    told = [told_case(cases) for cases in list(by_fault.values())[:shown]]
    if len(by_fault) > shown:
        told.append(f"{len(by_fault) - shown} more cases, in records.jsonl")
    return told


def told_case(cases: Sequence[Mapping[str, Any]]) -> str:
    """Cases of one fault, as a line."""
    if (verdict := cases[0]["verdict"]) == Verdict.STALE:
        longest = max(cases, key=lambda it: float(it["stale"]["seconds"]))
        return f"stale: {len(cases)} records, the longest {longest['key']}: {longest['fault']}"
    first, *more = cases
    key = f"{first['key']} and {len(more)} more" if more else first["key"]
    if "acked" in first:
        key += f", acknowledged at {first['acked']:.2f} s before entry {first['entry']}"
    return f"{verdict}: {key}: {first['fault']}"
