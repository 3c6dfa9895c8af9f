"""Acts for the programs that play them through a binding, and what these programs have to tell.

A line of acts is one of these, its words parted by tabs:

    kill ACTOR KEY VALUE KIND FLOOR TEAR
    up ACTOR PROCESS
    heal ACTOR PROCESS
    clog ACTOR KEY VALUE TICKS
    unclog ACTOR KEY VALUE
    form ACTOR MEMBERS POLICY        members parted by commas
    begin ACTOR TEAM PAYLOAD         two digits a byte
    deliver ACTOR MESSAGE
    lose ACTOR MESSAGE
    resend ACTOR RECORD PROCESS
    sync ACTOR PROCESS
    tick ACTOR TICKS
    give ACTOR TO KINDS KEY VALUE    kinds by their bits; - and - for every process
    take ACTOR FROM INDEX
    protect ACTOR PROCESS KINDS
    unprotect ACTOR PROCESS KINDS
    copy ACTOR FROM RECORD TO
    replace ACTOR TEAM OUT INTO
    act LINE

All but the last are made by the binding's call of that name, and LINE, which is a line of a script,
by its general call. A line of answers has three parts, parted by tabs:

1. what the call answered;
2. a digit for each of the processes 0 to 6: 1 where it is destroyed;
3. the set of the processes that aren't gone, as a number with a bit for each.

A call answers one of these:

    verdict STRUCK RULE NAMED    with - for each that isn't there
    ruled RULE NAMED
    formed TEAM
    begun RECORD FIRST
    stored
    marked ACKED                 true or false
    sent MESSAGE
    synced COUNT FIRST
    time NOW
    done
    refused REFUSAL              and what it names, but of up and heal
    an entry of the audit        of the general call
"""

import json
import re

import faultyard

TYPED = {
    "kill": ("key", "value", "kind", "floor", "tear"),
    "up": ("process",),
    "heal": ("process",),
    "clog": ("key", "value", "ticks"),
    "unclog": ("key", "value"),
    "form": ("members", "policy"),
    "begin": ("team", "payload"),
    "deliver": ("message",),
    "lose": ("message",),
    "resend": ("record", "process"),
    "sync": ("process",),
    "tick": ("ticks",),
    "give": ("actor", "kinds", "scope"),
    "take": ("actor", "index"),
    "protect": ("process", "kinds"),
    "unprotect": ("process", "kinds"),
    "copy": ("from", "record", "to"),
    "replace": ("team", "out", "into"),
}
BITS = {kind.value: 1 << number for number, kind in enumerate(faultyard.Kind)}


def word(member, value):
    """A member of an act as a word, or of a scope as two."""
    if member == "members":
        return ",".join(map(str, value))
    if member == "kinds":
        return sum(BITS[kind] for kind in value)
    if member == "scope":
        return "-\t-" if value == "all" else "\t".join((value["key"], value["value"]))
    return value


def typed(by, act):
    """The line of an act that is made by a call of its own."""
    ((name, members),) = act.items()
    words = [name, by, *(word(it, members[it]) for it in TYPED[name])]
    return "\t".join(map(str, words)) + "\n"


def is_typed(number, act):
    """Whether an act is made by a call of its own: so are two of three that have one."""
    return number % 3 != 0 and next(iter(act)) in TYPED


def lines(acts):
    """The lines of acts."""
    text = []
    for number, (by, act) in enumerate(acts):
        if is_typed(number, act):
            text.append(typed(by, act))
        else:
            text.append("act\t" + json.dumps({"by": by, "act": act}) + "\n")
    return "".join(text)


def told(act, reply):
    """What the call of an act answers for its reply of an audit."""
    if isinstance(reply, str):
        return reply
    ((shape, value),) = reply.items()
    if shape == "no":
        # The calls of up and heal don't tell the record.
        words = ["refused", *(value[:1] if next(iter(act)) in ("up", "heal") else value)]
    elif shape in ("verdict", "ruled"):
        struck = [value["struck"] or "-"] if shape == "verdict" else []
        rule, *named = (value["rule"] if shape == "verdict" else value) or ["-"]
        words = [shape, *struck, rule, *(named or "-")]
    elif shape == "begun":
        words = [shape, value["record"], value["first"]]
    elif shape == "synced":
        words = [shape, value["count"], value["first"]]
    else:
        words = [shape, json.dumps(value)]
    return " ".join(map(str, words))


def answers(config, acts, audit):
    """The lines of answers, by the audit of `faultyard run` and by a guard over the pipe."""
    text = []
    with faultyard.Guard(config) as guard:
        for number, ((by, act), line) in enumerate(zip(acts, audit.splitlines()[1:])):
            guard.act(by, act)
            answer = told(act, json.loads(line)["reply"]) if is_typed(number, act) else line
            destroyed = "".join(str(int(guard.is_destroyed(process))) for process in range(7))
            left = sum(1 << process for process in guard.left())
            text.append(f"{answer}\t{destroyed}\t{left}\n")
    return "".join(text)


def compare(test, found, wanted):
    """Compares two texts by the first line that differs: all differences would take a minute."""
    for number, (one, other) in enumerate(zip(found.splitlines(), wanted.splitlines())):
        test.assertEqual(one, other, f"line {number}")
    test.assertEqual(len(found), len(wanted))


def states_drawn(config, audit):
    """The states of all processes after each entry, as the picture of `faultyard show` has them."""
    picture = faultyard.show(config, audit)
    assert 'data-width="1"' in picture, "an entry has no column of its own"
    count = int(re.search(r'data-columns="(\d+)"', picture)[1])
    rows = re.findall(r'<g class="row" data-process="(\d+)">\n(.*?)^</g>', picture, re.S | re.M)
    drawn = {}
    for process, row in rows:
        marks = drawn[int(process)] = [set() for _ in range(count)]
        for name, start, end in re.findall(
            r'class="(\w+)".* data-from="(\d+)" data-to="(\d+)"', row
        ):
            for column in range(int(start), int(end)):
                marks[column].add(name)
    return [[state(drawn[it][column]) for it in sorted(drawn)] for column in range(count)]


def state(marks):
    """The state of a process by the marks of its row."""
    assert len(marks & {"up", "down", "gone"}) == 1, marks
    gone = "gone" in marks
    return faultyard.State("up" in marks, "clogged" in marks, gone or "emptied" in marks, gone)
