"""A store in Erlang: its nodes, what they answer to Erlang, and the daemon that they share.

Whatever a hook starts that imports this finds the daemon of the run, and no file of the user's.
"""

from __future__ import annotations

import os
import re
from typing import Dict, List, Tuple

from . import DIR, HOSTS, NAMES, Refused, port, run

COOKIE = "faultyard"
LOOPBACK = "127.0.0.1"
ANSWERED = "{ok, "
BRIEF = 70  # characters of a fault, and of what it came of
# What a node's own member of a quorum queue has applied beyond an index, as its own log tells it.
# In another order that reads one of its files alone.
HELD = """Own = {'%s', node()}, {ok, {_, Queue}, _} = ra:local_query(Own, fun(It) -> It end),
    Messages = lqueue:to_list(element(3, Queue)) ++ lqueue:to_list(element(5, Queue)),
    New = lists:reverse(lists:sort([Index || [Index | _] <- Messages, Index > %d])),
    {Log, _} = ra_log_reader:sparse_read(ra:register_external_log_reader(Own), New, []),
    Contents = [It || {_, _, {_, _, {enqueue, _, _, {_, _, _, It, _, _}}, _}} <- Log],
    Texts = [binary_to_list(iolist_to_binary(Text)) || {_, _, _, _, _, Text} <- Contents],
    {erlang:system_info(creation), lists:max([0 | New]), Texts}"""
RECORD = re.compile("(r/[0-9]{9}) ([0-9a-f]{16})")
_held: Dict[Tuple[int, str], Tuple[str, int, Dict[str, str]]] = {}  # and of which of its lives
_own = {"ERL_EPMD_PORT": str(port(0, 3)), "HOME": DIR or "/"}
os.environ.update(_own)


def node(n: int) -> str:
    """The name of a process as a node: `NAME@HOST`, a long one."""
    return f"{NAMES[n]}@{HOSTS[n]}"


def environment() -> List[str]:
    """The words for `env` by which a node finds them where it runs elsewhere."""
    return [f"{name}={text}" for name, text in _own.items()]


def options(n: int) -> str:
    """The words for `erl` by which a node is asked here, and listens to others at its host alone.

    The cookie says who may run code on it.
    """
    address = HOSTS[n].replace(".", ",")
    return f"-setcookie {COOKIE} -kernel inet_dist_use_interface {{{address}}}"


def evaluated(n: int, code: str) -> str:
    """What the last of some expressions comes to on a node; `Refused` where one fails."""
    try:
        # Of two who ask a node under one name it refuses the second.
        words = "-h", f"c{os.getpid()}", "-name", node(n), "-c", COOKIE, "-e"
        told = run("erl_call", *words, text=f"{code}.\n", seconds=9)
    except Refused as fault:
        raise Refused(f"{node(n)} doesn't answer: {fault}") from None
    if not told.startswith(ANSWERED):
        why = told.partition("'EXIT',")[2] or told
        raise Refused(f"{_brief(why)}: {_brief(code)}")
    return told.strip()[len(ANSWERED) : -1]


def held(n: int, queue: str) -> Dict[str, str]:
    """The records that a node's own member of a quorum queue of RabbitMQ 3.10 holds.

    As long as the node lives, only what is new is asked for.
    """
    life, last, found = _held.pop((n, queue), ("", 0, {}))
    now, to, texts = evaluated(n, HELD % (queue, last))[1:-1].split(", ", 2)
    if last and now != life:
        return held(n, queue)
    found.update(RECORD.findall(texts))
    _held[n, queue] = now, max(last, int(to)), found
    return found


def _brief(text: str) -> str:
    """The beginning of a text, in one line."""
    line = " ".join(text.replace("\\n", " ").split())
    return f"{line[:BRIEF]} .." if len(line) > BRIEF else line


def setup() -> None:
    """The hook `setup`: starts epmd, by which the nodes of a host find each other.

    Else the first node would start it, and it would fall with that node.
    """
    run("epmd", "-daemon", "-address", LOOPBACK)
