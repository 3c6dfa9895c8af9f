"""A guard in this process: the C library, called through ctypes."""

from __future__ import annotations

import ctypes as c
import os
import re
import weakref
from io import UnsupportedOperation
from typing import Any, Dict, Iterable, List, Mapping, NamedTuple, Optional, Tuple

from .acts import large, number
from .enums import Key, Kind, Part, Plan
from .errors import AuditRefused, ConfigRefused, FaultyardError, GuardClosed, JournalFull
from .errors import NotFound, OutOfMemory, ProtocolError
from .programs import StrPath
from .transport import HEADER, Transport

NAMES = ("libfaultyard.so.1", "libfaultyard.so")
"""What the system's loader is asked for."""


class _Guard(c.Structure):
    """`fy_guard`."""

    _fields_ = [("at", c.c_void_p)]


VALUE_BYTES = 33
"""How many bytes the value of an order has."""


class _Order(c.Structure):
    """`fy_order`."""

    _fields_ = [
        ("ticks", c.c_uint64),
        ("tear", c.c_uint64),
        ("act", c.c_uint32),
        ("key", c.c_uint32),
        ("kind", c.c_uint32),
        ("floor", c.c_uint32),
        ("value", c.c_char * VALUE_BYTES),
    ]


class _Check(c.Structure):
    """`fy_check`."""

    _fields_ = [("at", c.c_void_p)]


_guard, _order, _check = c.POINTER(_Guard), c.POINTER(_Order), c.POINTER(_Check)
_u32, _u32_out = c.c_uint32, c.POINTER(c.c_uint32)
_u64, _u64_out = c.c_uint64, c.POINTER(c.c_uint64)
_size, _size_out = c.c_size_t, c.POINTER(c.c_size_t)
_bytes = c.c_char_p

CALLS: Dict[str, Tuple[Any, List[Any]]] = {
    "fy_version": (_u32, []),
    "fy_config_fault": (_u32, [_bytes, _size, _u32_out, _u64_out]),
    "fy_open": (_u32, [_bytes, _size, _guard]),
    "fy_open_after": (_u32, [_bytes, _size, _bytes, _size, _guard, _u32_out]),
    "fy_close": (None, [_Guard]),
    "fy_reset": (_u32, [_guard]),
    "fy_try_copy": (_u32, [_guard, _guard]),
    "fy_act": (_u32, [_guard, _bytes, _size, _bytes, _size, _size_out]),
    "fy_ask": (_u32, [_guard, _bytes, _size, _bytes, _size, _size_out]),
    "fy_journal_len": (_size, [_guard]),
    "fy_audit": (_u32, [_guard, _size, _bytes, _size, _size_out]),
    "fy_words": (_u32, [_u64, _u64, _u32_out, _size]),
    "fy_swizzle_plan": (_u32, [_guard, _u64, _u64, _u64, _order, _size, _size_out]),
    "fy_attrition_plan": (
        _u32,
        [_guard, _u64, _u64, _u32, _u32, _u32, _u32, _u64, _order, _size, _size_out],
    ),
    "fy_begin_check": (_u32, [_bytes, _size, _check]),
    "fy_end_check": (None, [_Check]),
    "fy_read_line": (_u32, [_check, _bytes, _size, _u32_out]),
    "fy_plan_orders": (_u32, [_guard, _u32, _u64, _u32, _order, _size]),
    "fy_finding": (_u32, [_check, _u32_out, _u32_out]),
}
"""The calls of include/faultyard.h by which all is asked: what each answers and takes."""

# From include/faultyard.h.
MAJOR = 2
DONE, NO_MEMORY, JOURNAL_FULL, SHORT, UNWRITTEN = 0, 1, 2, 4, 5
LINE_TOO_LONG, LINE_SYNTAX, NO_HEADER, AUDIT_TOO_LONG, REFUTED = 10, 11, 20, 21, 22
LINE_FAULTS = {LINE_TOO_LONG: "TooLong", LINE_SYNTAX: "Syntax", NO_HEADER: "Header"}
"""The word of each status of a faulty line in the fault lines of `faultyard check`."""
ORDER_NONE, ORDER_KILL, ORDER_CLOG, ORDER_UNCLOG = 0, 1, 2, 3
NO_BAD_ENTRY = 2**32 - 1
MOST_REPLY = 128
CONFIG_FAULTS = {
    12: "config: TooLong",
    13: "config: Toml",
    14: "config: Field {part}",
    15: "config: Limit {part}",
    16: "config: Name {part} {place}",
    17: "config: Policy {place}",
    18: "config: PolicyUnmet {place}",
}
"""The fault line of each status of a cluster file that is refused."""
PARTS = ["", *(part.value for part in Part)]
KEYS = {key.value: number for number, key in enumerate(Key, 1)}
KINDS = {kind.value: number for number, kind in enumerate(Kind, 1)}
PLANS = {plan: number for number, plan in enumerate(Plan, 1)}
USUAL_PLAN = 64
"""How many orders most plans have at most; a longer one is drawn again."""


class Version(NamedTuple):
    """A version of the library; as text `2.0.0`."""

    major: int
    minor: int
    patch: int

    def __str__(self) -> str:
        return f"{self.major}.{self.minor}.{self.patch}"


def version(library: Optional[StrPath] = None) -> Version:
    """The version of the library that `load` finds."""
    return _version(load(library))


def _version(library: c.CDLL) -> Version:
    number = int(library.fy_version())
    return Version(number // 10_000, number // 100 % 100, number % 100)


def _declare(library: c.CDLL, calls: Iterable[str]) -> None:
    """Says what calls answer and take. An `AttributeError` tells one that isn't there."""
    for call in calls:
        getattr(library, call).restype, getattr(library, call).argtypes = CALLS[call]


def load(library: Optional[StrPath] = None) -> c.CDLL:
    """The library: the argument, else FAULTYARD_LIB, else what the system's loader finds.

    One of another major version than `MAJOR` raises `ProtocolError`.
    """
    named = os.fspath(library) if library is not None else os.environ.get("FAULTYARD_LIB")
    for name in (named,) if named else NAMES:
        try:
            found = c.CDLL(name)
            break
        except OSError as fault:
            why = fault
    else:
        raise NotFound(f"{why}: give `library`, or set FAULTYARD_LIB to its path") from why
    try:
        _declare(found, ["fy_version"])
        its = _version(found)
        if its.major != MAJOR:
            raise ProtocolError(f"{name} is faultyard {its}, and this package calls {MAJOR}.x")
        _declare(found, CALLS)
    except AttributeError as fault:
        raise ProtocolError(f"{name} is no faultyard of this version: {fault}") from None
    return found


def words(seed: int, stream: int, count: int, library: Optional[StrPath] = None) -> List[int]:
    """The first words of a stream of a seed: pseudo-random words of ChaCha with eight rounds.

    A swarm's actor draws from the stream of its number. The library is the one that `load` finds.
    """
    seed, stream, count = large(seed), large(stream), number(count)
    drawn = (_u32 * max(count, 1))()
    _require(load(library).fy_words(seed, stream, drawn, count))
    return list(drawn)[:count]


def _act_or_none(order: _Order) -> Optional[Dict[str, Dict[str, Any]]]:
    """The act of an order, or `None` for a turn that orders nothing."""
    return None if order.act == ORDER_NONE else _act_of(order)


def _act_of(order: _Order) -> Dict[str, Dict[str, Any]]:
    """The act of an order, for `Guard.act`."""
    target = {"key": list(KEYS)[order.key - 1], "value": order.value.decode()}
    if order.act == ORDER_CLOG:
        return {"clog": {**target, "ticks": order.ticks}}
    if order.act == ORDER_UNCLOG:
        return {"unclog": target}
    if order.act != ORDER_KILL:
        raise ProtocolError(f"the library planned the act {order.act}")
    kind, floor = (list(KINDS)[it - 1] for it in (order.kind, order.floor))
    return {"kill": {**target, "kind": kind, "floor": floor, "tear": order.tear}}


def _error(status: int) -> FaultyardError:
    """What a status tells, where an act that is checked wasn't made."""
    if status == JOURNAL_FULL:
        return JournalFull("the journal is full")
    if status == NO_MEMORY:
        return OutOfMemory("no memory")
    return ProtocolError(f"the library answered status {status}")


def _require(status: int) -> None:
    if status != DONE:
        raise _error(status)


def _config_error(library: c.CDLL, text: bytes, refused: int) -> FaultyardError:
    """What a cluster file tells that is refused with this status: it is read again to say where."""
    part, place = _u32(), _u64()
    status = library.fy_config_fault(text, len(text), part, place)
    if status != refused:
        return _error(status)
    line = CONFIG_FAULTS[refused].format(part=PARTS[part.value], place=place.value)
    return ConfigRefused(line)


def _audit_error(
    library: c.CDLL, config: bytes, audit: bytes, status: int, bad: int
) -> AuditRefused:
    """Why an audit is refused, as `faultyard check` says it."""
    if status == REFUTED:
        return AuditRefused(f"bad entry {bad}", 5)
    if status == AUDIT_TOO_LONG:
        return AuditRefused("audit: TooLong", 1)
    check, place = _Check(), 1
    if status != NO_HEADER and library.fy_begin_check(config, len(config), check) == DONE:
        for place, entry in enumerate(re.findall(rb"[^\n]*\n|[^\n]+", audit), 1):
            if library.fy_read_line(check, entry, len(entry), c.c_uint32()) != DONE:
                break
        library.fy_end_check(check)
    return AuditRefused(f"audit: line {place}: {LINE_FAULTS[status]}", 1)


def _free(library: c.CDLL, guard: _Guard, opener: int) -> None:
    """Frees an open guard. A forked child leaves its parent's guard alone."""
    if guard.at is not None and os.getpid() == opener:
        library.fy_close(guard)
        guard.at = None


class Library(Transport):
    """A guard of libfaultyard, called by whichever thread has its turn."""

    def __init__(self, library: c.CDLL) -> None:
        """A guard that isn't opened yet."""
        self._library = library
        self._guard = _Guard()
        self._room = c.create_string_buffer(512)
        self._closed_with: Optional[bytes] = None
        self._finalizer = weakref.finalize(self, _free, library, self._guard, os.getpid())
        # At the end of the interpreter the memory goes with the process.
        self._finalizer.atexit = False

    @classmethod
    def open(
        cls, text: bytes, library: Optional[StrPath], audit: Optional[bytes] = None
    ) -> Library:
        """A guard by the text of a cluster file, and by that of an audit to go on from."""
        opened = cls(load(library))
        if audit is None:
            status = opened._library.fy_open(text, len(text), opened._guard)
        else:
            bad = c.c_uint32()
            status = opened._library.fy_open_after(
                text, len(text), audit, len(audit), opened._guard, bad
            )
            if status in (*LINE_FAULTS, AUDIT_TOO_LONG, REFUTED):
                raise _audit_error(opened._library, text, audit, status, bad.value)
        if status in CONFIG_FAULTS:
            raise _config_error(opened._library, text, status)
        _require(status)
        return opened

    def _opened(self) -> _Guard:
        """The guard, which the library asks to be open."""
        if self._guard.at is None:
            raise GuardClosed("the guard is closed")
        return self._guard

    def exchange(self, text: bytes) -> bytes:
        # Without its line feed, which the library would count as a byte of the line.
        text = text.rstrip(b"\n")
        buffer, told = c.create_string_buffer(len(text) + MOST_REPLY), _size()
        status = self._library.fy_act(self._opened(), text, len(text), buffer, len(buffer), told)
        if status == UNWRITTEN:
            return self._entry(self.journal_len() - 1)
        _require(status)
        return buffer.raw[: told.value]

    def tell(self, text: bytes) -> bytes:
        text = text.rstrip(b"\n")
        return self._text(self._library.fy_ask, text, len(text))

    def reset(self) -> None:
        _require(self._library.fy_reset(self._opened()))

    def begin_again(self) -> None:
        raise UnsupportedOperation("begin_again asks for the transport 'pipe'")

    def try_copy(self) -> Library:
        other = Library(self._library)
        _require(self._library.fy_try_copy(self._opened(), other._guard))
        return other

    def swizzle_plan(self, seed: int, stream: int, ticks: int) -> List[Dict[str, Dict[str, Any]]]:
        return self._plan(self._library.fy_swizzle_plan, seed, stream, ticks)

    def attrition_plan(
        self, seed: int, stream: int, to_kill: int, to_leave: int, order: Mapping[str, Any]
    ) -> List[Dict[str, Dict[str, Any]]]:
        kind, floor = KINDS[order["kind"]], KINDS[order["floor"]]
        asked = (seed, stream, to_kill, to_leave, kind, floor, order["tear"])
        return self._plan(self._library.fy_attrition_plan, *asked)

    def plan_orders(
        self, plan: Plan, seed: int, actor: int, count: int
    ) -> List[Optional[Dict[str, Dict[str, Any]]]]:
        orders = (_Order * max(count, 1))()
        asked = (PLANS[plan], seed, actor)
        _require(self._library.fy_plan_orders(self._opened(), *asked, orders, count))
        return [_act_or_none(order) for order in orders[:count]]

    def journal_len(self) -> int:
        if self._closed_with is not None:
            return self._closed_with.count(b"\n") - 1
        return int(self._library.fy_journal_len(self._opened()))

    def audit(self) -> bytes:
        if self._closed_with is not None:
            return self._closed_with
        return HEADER + b"".join(self._entry(at) for at in range(self.journal_len()))

    def close(self) -> None:
        try:
            self._closed_with = self.audit()
        finally:
            self._finalizer()

    # Below: the calls of the library that take a buffer or more than one answer.

    def _plan(self, call: Any, *asked: int) -> List[Dict[str, Dict[str, Any]]]:
        """The acts of the orders that a call of the library writes."""
        orders, told = (_Order * USUAL_PLAN)(), _size()
        status = call(self._opened(), *asked, orders, len(orders), told)
        if status == SHORT:
            orders = (_Order * told.value)()
            status = call(self._opened(), *asked, orders, len(orders), told)
        _require(status)
        return [_act_of(order) for order in orders[: told.value]]

    def _entry(self, at: int) -> bytes:
        """The line of an entry."""
        return self._text(self._library.fy_audit, at)

    def _text(self, call: Any, *asked: Any) -> bytes:
        """The text that a call of the library writes."""
        told = _size()
        status = call(self._opened(), *asked, self._room, len(self._room), told)
        if status == SHORT:
            # What is told to a question is worked out again, so the room stays as large.
            self._room = c.create_string_buffer(2 * told.value)
            status = call(self._opened(), *asked, self._room, len(self._room), told)
        _require(status)
        return c.string_at(self._room, told.value)
