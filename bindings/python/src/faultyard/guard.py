"""The guard: one API over the pipe and over the library."""

from __future__ import annotations

import os
import threading
from pathlib import Path
from types import TracebackType
from typing import Any, Dict, FrozenSet, Iterable, List, Literal, Mapping, Optional, Tuple, Type
from typing import TypeVar, Union

from . import acts
from .cluster import ClusterFile
from .enums import Key, Kind, Plan, Refusal
from .errors import ActRefused, FaultyardError, GuardClosed, InvalidAct, ProtocolError
from .library import Library
from .pipe import Pipe
from .programs import StrPath
from .replies import Begun, Done, Entry, Formed, Marked, Refused, Ruling, Sent, Stored, Synced
from .replies import Time, Verdict, read_entry, read_reply
from .served import Served
from .told import Borne, Sight, State, borne
from .transport import Transport

_Reply = TypeVar("_Reply")


def _open(
    config: StrPath,
    transport: str,
    program: Optional[StrPath],
    library: Optional[StrPath],
    timeout: Optional[float],
    folder: Optional[StrPath],
    server: Optional[str],
    tokens: Optional[Mapping[int, str]],
    after: Optional[StrPath],
) -> Transport:
    if server is not None:
        if after is not None:
            raise ValueError("a served guard goes on from its own audit")
        return Served(config, server, tokens, timeout, folder, program, library)
    if transport == "pipe":
        return Pipe(config, program, timeout, folder, library, after)
    if transport == "library":
        if folder is not None:
            raise ValueError("folder asks for the transport 'pipe'")
        audit = None if after is None else Path(after).read_bytes()
        return Library.open(Path(config).read_bytes(), library, audit)
    raise ValueError(f"transport is neither 'pipe' nor 'library': {transport!r}")


class Guard:
    """Answers each order to kill with the hardest kill that the policies tolerate.

        with Guard("two.toml") as guard:
            verdict = guard.kill(Key.PROCESS, "p0", Kind.REBOOT_AND_DELETE, by=1)

    `by` is the number of the actor in the cluster file, from 0. An act that the guard refuses
    raises `ActRefused`, since it wasn't made. A kill that a rule bars isn't refused: its verdict
    says what to do. `act` raises for neither.

    Threads may share a guard: a lock puts their calls in order, and each gets its own answer. No
    call may come from a signal handler, nor from a forked child.
    """

    _lock: threading.Lock
    _opener: int
    _closed: bool
    _transport: Transport

    def __init__(
        self,
        config: StrPath,
        *,
        transport: Literal["pipe", "library"] = "pipe",
        program: Optional[StrPath] = None,
        library: Optional[StrPath] = None,
        timeout: Optional[float] = 60.0,
        folder: Optional[StrPath] = None,
        server: Optional[str] = None,
        tokens: Optional[Mapping[int, str]] = None,
        after: Optional[StrPath] = None,
    ) -> None:
        """Opens a guard of a cluster in which nothing happened yet, or asks one that is served.

        `config` is the path of a cluster file. Over `"pipe"`, `program` is the path of `faultyard`
        (else FAULTYARD, else the one on PATH), and a guard that doesn't answer within `timeout`
        seconds is ended. What it writes goes into `folder` at once, into `audit` and `guard.log`,
        so that both are there whatever ends the test. An `audit` that stands there is appended to,
        and never cut. It has to be the beginning of the guard's journal, as with `after`, or to
        have no entry: else `AuditExists` is raised, and nothing changed. Over `"library"`,
        `library` is the path of libfaultyard.so (else FAULTYARD_LIB, else what the system's loader
        finds).

        `server` is the path of a socket, or the URL, of a `faultyard-serve` with this cluster file,
        and `tokens` are those of the actors by which it is asked, to act and to `judge`. Others may
        ask it too, and their entries stand in the journal. What is asked is sent again until it is
        answered, for `timeout` seconds, and an act is made once.

        `after` is the path of an audit, behind which the guard goes on: its journal is that of the
        audit. An audit that is refused raises `AuditRefused` over `"library"`; over `"pipe"` it
        ends the guard, which the first act raises as `GuardEnded`. The file isn't written to, but
        where it is the `audit` of `folder`.
        """
        made = _open(config, transport, program, library, timeout, folder, server, tokens, after)
        self._hold(made)

    # The end.

    def close(self) -> None:
        """Ends the guard. Closing twice is closing once; `audit` answers afterwards too.

        Raises `GuardEnded` where the program ended with another status than 0, unless a call has
        told that already.
        """
        with self._lock:
            if not self._closed and os.getpid() == self._opener:
                self._closed = True
                self._transport.close()

    def __enter__(self) -> Guard:
        return self

    def __exit__(
        self,
        kind: Optional[Type[BaseException]],
        fault: Optional[BaseException],
        trace: Optional[TracebackType],
    ) -> None:
        try:
            self.close()
        except FaultyardError:
            # What the body raised came first, and is what its caller has to see.
            if fault is None:
                raise

    # Orders of role fault.

    def kill(
        self,
        key: Key,
        value: str,
        kind: Kind,
        *,
        by: int,
        floor: Kind = Kind.REBOOT_PROCESS,
        tear: int = 0,
    ) -> Verdict:
        """Orders a kill of the processes whose key has the value.

        It strikes by `kind`, or where that is barred by the hardest kind down to `floor` that
        isn't. `tear` chooses the unsynced writes that a simulated disk keeps.
        """
        order = {"key": key, "value": value, "kind": kind, "floor": floor, "tear": tear}
        return self._expect(Verdict, by, "kill", order)

    def judge(
        self,
        key: Key,
        value: str,
        kind: Kind,
        *,
        by: int,
        floor: Kind = Kind.REBOOT_PROCESS,
    ) -> Verdict:
        """The verdict that `kill` would get now. It enters nothing.

        The journal may be full.
        """
        order = {"key": key, "value": value, "kind": kind, "floor": floor, "tear": 0}
        return self._judged(self.ask({"judge": {"act": {"kill": order}, "by": by}}))

    def kill_process(
        self,
        process: int,
        kind: Kind,
        *,
        by: int,
        floor: Kind = Kind.REBOOT_PROCESS,
        tear: int = 0,
    ) -> Verdict:
        """What `kill` does with the name of the process with this number.

        Raises `InvalidAct` where no process has the number.
        """
        name = self._name_of(process)
        return self.kill(Key.PROCESS, name, kind, by=by, floor=floor, tear=tear)

    def judge_process(
        self,
        process: int,
        kind: Kind,
        *,
        by: int,
        floor: Kind = Kind.REBOOT_PROCESS,
    ) -> Verdict:
        """The verdict that `kill_process` would get now. It enters nothing.

        Raises as `kill_process` does.
        """
        return self.judge(Key.PROCESS, self._name_of(process), kind, by=by, floor=floor)

    def killable(self, *, by: int) -> List[Optional[Kind]]:
        """Of each process, by its number, the kind by which a kill of it alone would strike now.

        The kill is ordered by `Kind.KILL_INSTANTLY`; `None` where nothing would strike. Once one
        is killed, fewer may be. It enters nothing.
        """
        kinds = self._found("killable", actor=by)
        if kinds is None:
            raise ActRefused("kill", Refusal.STRANGER, None)
        return [kind and Kind(kind) for kind in kinds]

    def clog(self, key: Key, value: str, ticks: int, *, by: int) -> Ruling:
        """Holds the messages of each process of the target for so many ticks."""
        return self._expect(Ruling, by, "clog", {"key": key, "value": value, "ticks": ticks})

    def unclog(self, key: Key, value: str, *, by: int) -> Ruling:
        """Ends the clogs of each process of the target."""
        return self._expect(Ruling, by, "unclog", {"key": key, "value": value})

    # Reports and acts of role storage.

    def up(self, process: int, *, by: int) -> None:
        """Reports that a process runs again."""
        self._expect(Done, by, "up", {"process": process})

    def heal(self, process: int, *, by: int) -> None:
        """Reports that a destroyed process has every acknowledged record on its disk again."""
        self._expect(Done, by, "heal", {"process": process})

    def form(self, members: Iterable[int], policy: int, *, by: int) -> int:
        """Forms a team of processes under a policy; the team's number."""
        return self._expect(Formed, by, "form", {"members": members, "policy": policy}).team

    def begin(self, team: int, payload: bytes, *, by: int) -> Begun:
        """Begins a record for a team, and sends a store message to each member."""
        return self._expect(Begun, by, "begin", {"payload": payload, "team": team})

    def deliver(self, message: int, *, by: int) -> Union[Stored, Marked]:
        """Delivers a message: `Stored` for a store message, `Marked` for an acknowledgement."""
        reply = self._make(by, "deliver", {"message": message})
        if isinstance(reply, (Stored, Marked)):
            return reply
        raise ProtocolError(f"deliver was answered {reply!r}")

    def lose(self, message: int, *, by: int) -> None:
        """Drops a message."""
        self._expect(Done, by, "lose", {"message": message})

    def resend(self, record: int, process: int, *, by: int) -> int:
        """Sends a member the store message of a record again; the message's number."""
        return self._expect(Sent, by, "resend", {"process": process, "record": record}).message

    def sync(self, process: int, *, by: int) -> Synced:
        """Syncs what a process has written, and sends an acknowledgement of each write."""
        return self._expect(Synced, by, "sync", {"process": process})

    def copy(self, record: int, source: int, target: int, *, by: int) -> int:
        """Sends a record from a process that has it synced to another; the message's number."""
        members = {"from": source, "record": record, "to": target}
        return self._expect(Sent, by, "copy", members).message

    def replace(self, team: int, out: int, into: int, *, by: int) -> None:
        """Puts the process `into` into a team, in place of its member `out`."""
        self._expect(Done, by, "replace", {"into": into, "out": out, "team": team})

    def tick(self, ticks: int, *, by: int) -> int:
        """Lets time pass; the time then."""
        return self._expect(Time, by, "tick", {"ticks": ticks}).now

    # Acts of role operator.

    def protect(self, process: int, kinds: Iterable[Kind], *, by: int) -> None:
        """Bars kinds on a process, for every actor."""
        self._expect(Done, by, "protect", {"kinds": kinds, "process": process})

    def unprotect(self, process: int, kinds: Iterable[Kind], *, by: int) -> None:
        """Ends the protection of a process from kinds."""
        self._expect(Done, by, "unprotect", {"kinds": kinds, "process": process})

    def give(
        self,
        actor: int,
        kinds: Iterable[Kind],
        scope: Optional[Tuple[Key, str]] = None,
        *,
        by: int,
    ) -> None:
        """Gives an actor a grant, for the processes of the scope; without one, for all."""
        self._expect(Done, by, "give", {"actor": actor, "kinds": kinds, "scope": scope})

    def take(self, actor: int, index: int, *, by: int) -> None:
        """Takes away an actor's grant, by its place."""
        self._expect(Done, by, "take", {"actor": actor, "index": index})

    # Any act.

    def act(self, by: int, act: Mapping[str, Mapping[str, Any]]) -> Entry:
        """Makes any act, given as a script has it; its entry, with a refusal as its reply.

        entry = guard.act(0, {"up": {"process": 1}})
        entry = guard.act(**json.loads(line_of_a_script))
        """
        name, members = acts.named(act)
        text = acts.line(acts.number(by), name, acts.checked(name, members))
        with self._lock:
            answer = self._at_work().exchange(text)
        return read_entry(answer)

    def others(self, before: Optional[int] = None) -> List[Entry]:
        """The entries that others made since the last call, of a guard that is served.

        With `before` only those that stand before this entry. Of any other guard there are none.
        """
        with self._lock:
            return self._at_work().others(before)

    def reset(self) -> None:
        """Puts the guard back to where nothing happened yet, by the cluster file as it was opened.

        Over the pipe the program is started again. With a `folder` it raises `AuditExists`, and of
        a server `io.UnsupportedOperation`.
        """
        with self._lock:
            self._at_work().reset()

    def begin_again(self) -> None:
        """After `GuardEnded` the program is started again, behind all that it answered.

        What it was asked as it ended has no entry. A `folder` goes on too. Only the pipe has it;
        else it raises `io.UnsupportedOperation`.
        """
        with self._lock:
            self._at_work().begin_again()

    def try_copy(self) -> Guard:
        """A second guard with the same journal, to look ahead; each is closed.

        What is done with one changes nothing of the other. The library copies the state; over the
        pipe, and of a server, a program is started behind the journal.
        """
        with self._lock:
            transport = self._at_work().try_copy()
        other = Guard.__new__(Guard)
        other._hold(transport)
        return other

    # Questions.

    def ask(self, question: Mapping[str, Mapping[str, Any]]) -> Any:
        """What is told to any question, as `{"record": {"record": 0}}`, which enters nothing.

        Questions and answers are those of `faultyard guard --questions`. What isn't there is told
        by `{"no": [..]}`.
        """
        read = acts.question(question)
        with self._lock:
            return self._at_work().ask(read)

    def cluster(self) -> ClusterFile:
        """The processes and the actors, with their grants as they are now."""
        return ClusterFile.of(self.ask({"cluster": {}})["cluster"])

    def process(self, name: str) -> Optional[int]:
        """The number of the process with this name."""
        _, name = acts.target(Key.PROCESS, name)
        return next(iter(self._file().having(Key.PROCESS, name)), None)

    def process_count(self) -> int:
        """How many processes there are, numbered from 0."""
        return len(self._file().places)

    def targets(self, key: Key, value: str) -> FrozenSet[int]:
        """Whom a kill is about: the processes that have the value and aren't gone for good.

        Ask before the kill, which may be for good.
        """
        return frozenset(self._found("targets", key=key, value=value))

    def is_destroyed(self, process: int) -> bool:
        """Whether a process was emptied or killed for good, and not healed since."""
        state = self.state(process)
        return state is not None and state.destroyed

    def left(self) -> FrozenSet[int]:
        """The processes that aren't gone for good."""
        return self._those("gone", False)

    def up_set(self) -> FrozenSet[int]:
        """The processes that are up."""
        return self._those("up")

    def state(self, process: int) -> Optional[State]:
        """The state of a process; `None` where there is no process with this number."""
        told = self._found("state", process=process)
        if told is None:
            return None
        its = told["process"]
        return State(its["up"], its["clogged"] is not None, its["destroyed"], its["gone"])

    def needed(self, process: int) -> Optional[int]:
        """The record that a process still needs before it may be healed, or `None`.

        `heal` is refused with `Refusal.STILL_NEEDS` for it.
        """
        record: Optional[int] = self._found("needed", process=process)
        return record

    def destroyed(self) -> FrozenSet[int]:
        """The processes that are destroyed, gone or not."""
        return self._those("destroyed")

    def gone(self) -> FrozenSet[int]:
        """The processes that are gone for good."""
        return self._those("gone")

    def is_acked(self, record: int) -> bool:
        """Whether a record is acknowledged."""
        told = self._found("record", record=record)
        return told is not None and bool(told["acked"])

    def keeper(self, record: int) -> Optional[int]:
        """Who keeps an acknowledged record; `None` for any other record.

        It is the least member of its team that isn't destroyed and has the record synced.
        """
        told = self._found("record", record=record)
        return None if told is None else told["keeper"]

    def sight(self) -> Sight:
        """The time, and what there is to do next."""
        return Sight(**self._found("sight"))

    def bears(self) -> Borne:
        """How much of the cluster may still be lost: what `faultyard bears` tells first."""
        return borne(self._found("bears"))

    # Plans that are drawn from a seed, over each transport by the library.

    def swizzle_plan(
        self, seed: int, stream: int, ticks: int = 10
    ) -> List[Dict[str, Dict[str, Any]]]:
        """The swizzle of a stream of a seed: acts `clog` and `unclog`, each for `act`.

        A swarm's first, third, .. fault actor makes it; the stream is its number. Nothing is
        entered.
        """
        seed, stream, ticks = acts.large(seed), acts.large(stream), acts.large(ticks)
        with self._lock:
            return self._at_work().swizzle_plan(seed, stream, ticks)

    def attrition_plan(
        self,
        seed: int,
        stream: int,
        *,
        to_kill: int = 2,
        to_leave: int = 1,
        kind: Kind = Kind.KILL_INSTANTLY,
        floor: Kind = Kind.REBOOT,
        tear: int = 0,
    ) -> List[Dict[str, Dict[str, Any]]]:
        """The attrition of a stream of a seed: an act `kill` for each machine, each for `act`.

        At most `to_kill` machines are killed, and at least `to_leave` are spared. A swarm's second,
        fourth, .. fault actor makes that of the values left out; the stream is its number. Nothing
        is entered.
        """
        order = {"key": Key.MACHINE, "value": "m", "kind": kind, "floor": floor, "tear": tear}
        seed, stream, order = acts.large(seed), acts.large(stream), acts.checked("kill", order)
        to_kill, to_leave = acts.number(to_kill), acts.number(to_leave)
        with self._lock:
            return self._at_work().attrition_plan(seed, stream, to_kill, to_leave, order)

    def plan_orders(
        self, plan: Plan, seed: int, actor: int, count: int
    ) -> List[Optional[Dict[str, Dict[str, Any]]]]:
        """The acts of the first turns of the fault actor `actor` in `faultyard simulate`.

        Each is a `kill`, a `clog` or an `unclog` for `act`, or `None` for a turn that orders none.
        The target may be one that no process has, and the ticks more than the clock has. A longer
        answer begins with the same acts. Nothing is entered.
        """
        seed, actor, count = acts.large(seed), acts.number(actor), acts.number(count)
        with self._lock:
            return self._at_work().plan_orders(Plan(plan), seed, actor, count)

    # The journal.

    def journal_len(self) -> int:
        """How many entries the journal has."""
        with self._lock:
            return self._transport.journal_len()

    def audit(self) -> str:
        """The audit so far, with its header: what `faultyard check` and `show` read."""
        with self._lock:
            return self._transport.audit().decode()

    # Below: how a call goes.

    def _hold(self, transport: Transport) -> None:
        self._lock = threading.Lock()
        self._opener = os.getpid()
        self._closed = False
        self._transport = transport
        self._places: Optional[ClusterFile] = None

    def _at_work(self) -> Transport:
        if self._closed:
            raise GuardClosed("the guard is closed")
        if os.getpid() != self._opener:
            raise GuardClosed("the guard was opened by another process")
        return self._transport

    def _found(self, name: str, **members: Any) -> Any:
        """What is told to a question; `None` for an actor, process or record that isn't there."""
        return self.ask({name: members}).get(name)

    def _those(self, what: str, holds: bool = True) -> FrozenSet[int]:
        """The processes of whose state this holds."""
        states = enumerate(self._found("state")["processes"])
        return frozenset(process for process, state in states if state[what] is holds)

    def _file(self) -> ClusterFile:
        """The cluster, whose processes have their places for good."""
        with self._lock:
            self._at_work()
        if self._places is None:
            self._places = self.cluster()
        return self._places

    def _name_of(self, process: int) -> str:
        """The name of the process with this number."""
        places = self._file().places
        if acts.number(process) >= len(places):
            raise InvalidAct(f"there is no process {process}")
        return places[process][Key.PROCESS]

    @staticmethod
    def _judged(told: Any) -> Verdict:
        """The verdict that was told, or the refusal."""
        reply = read_reply(told)
        if isinstance(reply, Refused):
            raise ActRefused("kill", reply.refusal, reply.named)
        if isinstance(reply, Verdict):
            return reply
        raise ProtocolError(f"judge was answered {reply!r}")

    def _make(self, by: int, name: str, members: Mapping[str, Any]) -> object:
        by = acts.number(by)
        read = acts.checked(name, members)
        with self._lock:
            reply = self._at_work().reply(by, name, read)
        if isinstance(reply, Refused):
            raise ActRefused(name, reply.refusal, reply.named)
        return reply

    def _expect(
        self, shape: Type[_Reply], by: int, name: str, members: Mapping[str, Any]
    ) -> _Reply:
        reply = self._make(by, name, members)
        if not isinstance(reply, shape):
            raise ProtocolError(f"{name} was answered {reply!r}")
        return reply
