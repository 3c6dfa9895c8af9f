"""Acts as lines of a script, checked before they are sent.

A guard over the pipe ends at a line that it can't read. So no such line leaves this module.
"""

from __future__ import annotations

import json
import operator
import re
from typing import Any, Callable, Dict, Iterable, List, Mapping, Tuple, Type, TypeVar, Union

from .enums import Key, Kind
from .errors import InvalidAct

MOST_LINE = 65_536
"""How many bytes a line may have without its line feed."""
MOST_MEMBERS = 1024
"""How many members a team may be formed with."""

_NAME = re.compile(r"[A-Za-z0-9_][A-Za-z0-9_-]{0,31}\Z")
_HEX = re.compile(r"(?:[0-9a-f]{2})*\Z")
_KINDS = list(Kind)
_ORDERED = {kind.value: rank for rank, kind in enumerate(_KINDS) if kind is not Kind.CLOG}

_Word = TypeVar("_Word", Key, Kind)


def _whole(bits: int) -> Callable[[Any], int]:
    def read(value: Any) -> int:
        try:
            number = int(operator.index(value))
        except TypeError:
            raise InvalidAct(f"no whole number: {value!r}") from None
        if not 0 <= number < 2**bits:
            raise InvalidAct(f"not from 0 to 2^{bits}-1: {number}")
        return number

    return read


number = _whole(32)
"""The number of an actor, process, team, record, policy or grant."""
large = _whole(64)
"""A number of 64 bits: of ticks, of a message, of a seed."""


def _word(kind: Type[_Word]) -> Callable[[Any], str]:
    def read(value: Any) -> str:
        try:
            return kind(value).value
        except ValueError:
            raise InvalidAct(f"no {kind.__name__}: {value!r}") from None

    return read


_key = _word(Key)


def _name(value: Any) -> str:
    if not isinstance(value, str) or not _NAME.match(value):
        raise InvalidAct(f"no name of 1 to 32 characters A-Z a-z 0-9 _ -: {value!r}")
    return value


def target(key: Any, value: Any) -> Tuple[str, str]:
    """The key and the value of a target as an audit writes them, or `InvalidAct`."""
    return _key(key), _name(value)


def _ordered(value: Any) -> str:
    word = _word(Kind)(value)
    if word not in _ORDERED:
        raise InvalidAct(f"no kind of kill: {word}")
    return word


def _items(value: Any) -> List[Any]:
    if isinstance(value, (str, bytes)) or not isinstance(value, Iterable):
        raise InvalidAct(f"one value where several belong: {value!r}")
    return list(value)


def _kinds(value: Any) -> List[str]:
    chosen = {_word(Kind)(item) for item in _items(value)}
    return [kind.value for kind in _KINDS if kind.value in chosen]


def _members(value: Any) -> List[int]:
    chosen = sorted({number(item) for item in _items(value)})
    if len(chosen) > MOST_MEMBERS:
        raise InvalidAct(f"over {MOST_MEMBERS} members")
    return chosen


def _payload(value: Any) -> str:
    if isinstance(value, (bytes, bytearray)):
        return value.hex()
    if not isinstance(value, str) or not _HEX.match(value):
        raise InvalidAct(f"no payload of bytes, nor of lower-case hexadecimal digits: {value!r}")
    return value


def _scope(value: Any) -> Union[str, Dict[str, str]]:
    if value is None or value == "all":
        return "all"
    if isinstance(value, Mapping) and set(value) == {"key", "value"}:
        key, name = value["key"], value["value"]
    elif isinstance(value, tuple) and len(value) == 2:
        key, name = value
    else:
        raise InvalidAct(f"no scope: {value!r}")
    return {"key": _key(key), "value": _name(name)}


_TARGET: Dict[str, Callable[[Any], Any]] = {"key": _key, "value": _name}
_PROCESS: Dict[str, Callable[[Any], Any]] = {"process": number}
_MESSAGE: Dict[str, Callable[[Any], Any]] = {"message": large}
_GUARDED: Dict[str, Callable[[Any], Any]] = {"kinds": _kinds, "process": number}

ACTS: Dict[str, Dict[str, Callable[[Any], Any]]] = {
    "kill": {"floor": _ordered, "key": _key, "kind": _ordered, "tear": large, "value": _name},
    "clog": {"ticks": large, **_TARGET},
    "unclog": _TARGET,
    "form": {"members": _members, "policy": number},
    "begin": {"payload": _payload, "team": number},
    "deliver": _MESSAGE,
    "lose": _MESSAGE,
    "resend": {"process": number, "record": number},
    "sync": _PROCESS,
    "up": _PROCESS,
    "heal": _PROCESS,
    "tick": {"ticks": large},
    "give": {"actor": number, "kinds": _kinds, "scope": _scope},
    "take": {"actor": number, "index": number},
    "protect": _GUARDED,
    "unprotect": _GUARDED,
    "copy": {"from": number, "record": number, "to": number},
    "replace": {"into": number, "out": number, "team": number},
}
"""The members of each act, and what reads each."""
QUESTIONS: Dict[str, Dict[str, Callable[[Any], Any]]] = {
    "killable": {"actor": number},
    "state": _PROCESS,
    "cluster": {},
    "targets": _TARGET,
    "record": {"record": number},
    "needed": _PROCESS,
    "sight": {},
    "bears": {},
}
"""The same of each question but `judge`; `state` is also asked of all processes."""


def checked(name: str, members: Mapping[str, Any]) -> Dict[str, Any]:
    """The members of an act as an audit writes them, or `InvalidAct`."""
    readers = ACTS.get(name)
    if readers is None:
        raise InvalidAct(f"no act: {name!r}")
    if members.keys() != readers.keys():
        raise InvalidAct(f"{name} has the members {', '.join(sorted(readers))}")
    read = {member: readers[member](value) for member, value in members.items()}
    return _with_floor(read) if name == "kill" else read


def _with_floor(order: Dict[str, Any]) -> Dict[str, Any]:
    """The order, whose floor must not be above its kind."""
    if _ORDERED[order["floor"]] > _ORDERED[order["kind"]]:
        raise InvalidAct(f"the floor {order['floor']} is above the kind {order['kind']}")
    return order


def question(asked: Any) -> Dict[str, Any]:
    """A question whose members are read, or `InvalidAct`."""
    name, members = named(asked)
    if name == "judge" and members.keys() == {"act", "by"}:
        act, order = named(members["act"])
        if act not in ("kill", "clog"):
            raise InvalidAct(f"neither a kill nor a clog: {act!r}")
        return {name: {"act": {act: checked(act, order)}, "by": number(members["by"])}}
    readers = QUESTIONS.get(name)
    if readers is None or (members.keys() != readers.keys() and (name, members) != ("state", {})):
        raise InvalidAct(f"no question: {asked!r}")
    return {name: {member: readers[member](value) for member, value in members.items()}}


def named(act: Any) -> Tuple[str, Mapping[str, Any]]:
    """The name and the members of an act as a script has it, or `InvalidAct`."""
    if not isinstance(act, Mapping) or len(act) != 1:
        raise InvalidAct(f"an act has one member, its name: {act!r}")
    ((name, members),) = act.items()
    if not isinstance(members, Mapping):
        raise InvalidAct(f"{name!r} has no members")
    return name, members


def read(text: bytes) -> Tuple[int, Dict[str, Dict[str, Any]]]:
    """The actor and the act of a line of a script, or `InvalidAct`."""
    try:
        told = json.loads(text)
    except (ValueError, RecursionError):
        raise InvalidAct("a line has to be JSON") from None
    if not isinstance(told, dict) or told.keys() != {"act", "by"}:
        raise InvalidAct("a line has the members act, by")
    name, members = named(told["act"])
    return number(told["by"]), {name: checked(name, members)}


def line(by: int, name: str, members: Mapping[str, Any]) -> bytes:
    """The line of an act whose members are `checked`, in the spelling that is read fastest."""
    act = json.dumps({name: members}, separators=(",", ":"), sort_keys=True)
    text = f'{{"by":{by},"act":{act}}}'.encode()
    if len(text) > MOST_LINE:
        raise InvalidAct(f"the line of this {name} would have over {MOST_LINE} bytes")
    return text + b"\n"


def asking(question: Mapping[str, Any]) -> bytes:
    """The line of a question whose members are checked."""
    text = json.dumps({"ask": question}, separators=(",", ":"), sort_keys=True)
    return text.encode() + b"\n"
