"""The guard of the Python binding, over the pipe and over the library."""

import collections
import json
import threading
import unittest
from pathlib import Path

import common
import faultyard
import played
from faultyard import Guard, Key, Kind, Part, Refusal, Rule

# The typed call of each act, and the act as docs/FORMATS.md writes it.
CALLS = [
    (
        lambda g: g.kill(Key.ZONE, "z0", Kind.KILL_INSTANTLY, floor=Kind.REBOOT, by=1),
        '{"kill":{"floor":"Reboot","key":"zoneid","kind":"KillInstantly","tear":0,"value":"z0"}}',
    ),
    (
        lambda g: g.clog(Key.PROCESS, "p0", 10, by=1),
        '{"clog":{"key":"processid","ticks":10,"value":"p0"}}',
    ),
    (lambda g: g.unclog(Key.PROCESS, "p0", by=1), '{"unclog":{"key":"processid","value":"p0"}}'),
    (lambda g: g.form([0, 2], 0, by=0), '{"form":{"members":[0,2],"policy":0}}'),
    (lambda g: g.begin(0, b"hi", by=0), '{"begin":{"payload":"6869","team":0}}'),
    (lambda g: g.deliver(0, by=0), '{"deliver":{"message":0}}'),
    (lambda g: g.lose(0, by=0), '{"lose":{"message":0}}'),
    (lambda g: g.resend(0, 0, by=0), '{"resend":{"process":0,"record":0}}'),
    (lambda g: g.sync(0, by=0), '{"sync":{"process":0}}'),
    (lambda g: g.up(0, by=0), '{"up":{"process":0}}'),
    (lambda g: g.heal(0, by=0), '{"heal":{"process":0}}'),
    (lambda g: g.tick(9, by=0), '{"tick":{"ticks":9}}'),
    (
        lambda g: g.give(3, [Kind.REBOOT], by=4),
        '{"give":{"actor":3,"kinds":["Reboot"],"scope":"all"}}',
    ),
    (
        lambda g: g.give(3, [Kind.CLOG], (Key.ZONE, "z0"), by=4),
        '{"give":{"actor":3,"kinds":["Clog"],"scope":{"key":"zoneid","value":"z0"}}}',
    ),
    (lambda g: g.take(3, 0, by=4), '{"take":{"actor":3,"index":0}}'),
    (lambda g: g.protect(1, [Kind.REBOOT], by=4), '{"protect":{"kinds":["Reboot"],"process":1}}'),
    (
        lambda g: g.unprotect(1, [Kind.REBOOT], by=4),
        '{"unprotect":{"kinds":["Reboot"],"process":1}}',
    ),
    (lambda g: g.copy(0, 2, 1, by=0), '{"copy":{"from":2,"record":0,"to":1}}'),
    (lambda g: g.replace(0, 0, 1, by=0), '{"replace":{"into":1,"out":0,"team":0}}'),
]

# What the typed call of an act takes, from the act's members as a script has them.
TYPED = {
    "kill": lambda m: (
        (Key(m["key"]), m["value"], Kind(m["kind"])),
        {"floor": Kind(m["floor"]), "tear": m["tear"]},
    ),
    "clog": lambda m: ((Key(m["key"]), m["value"], m["ticks"]), {}),
    "unclog": lambda m: ((Key(m["key"]), m["value"]), {}),
    "form": lambda m: ((m["members"], m["policy"]), {}),
    "begin": lambda m: ((m["team"], bytes.fromhex(m["payload"])), {}),
    "resend": lambda m: ((m["record"], m["process"]), {}),
    "give": lambda m: (
        (
            m["actor"],
            map(Kind, m["kinds"]),
            None if m["scope"] == "all" else (Key(m["scope"]["key"]), m["scope"]["value"]),
        ),
        {},
    ),
    "take": lambda m: ((m["actor"], m["index"]), {}),
    "protect": lambda m: ((m["process"], map(Kind, m["kinds"])), {}),
    "unprotect": lambda m: ((m["process"], map(Kind, m["kinds"])), {}),
    "copy": lambda m: ((m["record"], m["from"], m["to"]), {}),
    "replace": lambda m: ((m["team"], m["out"], m["into"]), {}),
}


def call(guard, by, act):
    """Makes an act by its typed call; what it answers, or the refusal that it raises."""
    ((name, members),) = act.items()
    words, named = TYPED.get(name, lambda m: (tuple(m.values()), {}))(members)
    try:
        return getattr(guard, name)(*words, by=by, **named)
    except faultyard.ActRefused as refused:
        return refused


def told(answer, reply):
    """What a typed call has to answer where the entry has this reply."""
    if isinstance(reply, faultyard.Refused):
        return isinstance(answer, faultyard.ActRefused) and (answer.refusal, answer.named) == (
            reply.refusal,
            reply.named,
        )
    if isinstance(reply, (faultyard.Formed, faultyard.Sent, faultyard.Time)):
        (reply,) = vars(reply).values()
    return answer == (None if isinstance(reply, faultyard.Done) else reply)


class GuardTests(common.Folder):
    """Each test runs over the pipe, and over the library where one is given."""

    transport = ""

    def guard(self, config=common.SIX):
        made = Guard(config, transport=self.transport)
        self.addCleanup(made.close)
        return made

    def test_verdicts_say_what_struck_and_why(self):
        guard = self.guard()
        first = guard.kill(Key.ZONE, "z0", Kind.KILL_INSTANTLY, floor=Kind.REBOOT, by=1)
        second = guard.kill(Key.ZONE, "z1", Kind.KILL_INSTANTLY, floor=Kind.REBOOT, by=1)
        third = guard.kill(Key.ZONE, "z2", Kind.KILL_INSTANTLY, floor=Kind.KILL_INSTANTLY, by=1)
        self.assertEqual(first, faultyard.Verdict(Kind.KILL_INSTANTLY, None, None))
        self.assertEqual(second, faultyard.Verdict(Kind.REBOOT, Rule.TOO_MANY_DESTROYED, 0))
        self.assertEqual(third, faultyard.Verdict(None, Rule.TOO_MANY_DESTROYED, 0))
        nobody = guard.kill(Key.DATA_HALL, "h0", Kind.REBOOT, by=1)
        self.assertEqual(nobody, faultyard.Verdict(None, Rule.NO_TARGET, None))
        stranger = guard.kill(Key.PROCESS, "p4", Kind.REBOOT, by=3)
        self.assertEqual(stranger, faultyard.Verdict(None, Rule.NO_GRANT, 4))
        guard.protect(5, [Kind.REBOOT], by=4)
        self.assertEqual(
            guard.kill(Key.PROCESS, "p5", Kind.REBOOT, by=1),
            faultyard.Verdict(Kind.REBOOT_PROCESS, Rule.PROTECTED, 5),
        )

    def test_a_guard_goes_on_where_an_audit_ends(self):
        one, audit = self.guard(), Path(self.folder, "audit")
        one.kill(Key.ZONE, "z0", Kind.KILL_INSTANTLY, floor=Kind.REBOOT, by=1)
        audit.write_text(one.audit())
        other = Guard(common.SIX, transport=self.transport, after=audit)
        self.addCleanup(other.close)
        self.assertEqual(other.audit(), one.audit())
        self.assertEqual(other.journal_len(), 1)
        self.assertTrue(other.is_destroyed(0))
        for guard in (one, other):
            guard.kill(Key.ZONE, "z1", Kind.KILL_INSTANTLY, floor=Kind.REBOOT, by=1)
        self.assertEqual(other.audit(), one.audit())

    def test_a_refused_audit_opens_no_guard(self):
        tick = b'{"act":{"tick":{"ticks":1}},"at":0,"by":0,"reply":{"time":%d}}\n'
        header, audit = b'{"audit":2}\n', Path(self.folder, "audit")
        cases = [
            (header + tick % 2, "bad entry 0", 5),
            (header + (tick % 1)[:-1], "audit: line 2: Syntax", 1),
            (header + tick % 1 + b"\n", "audit: line 3: Syntax", 1),
            (b'{"audit":1}\n', "audit: line 1: Header", 1),
            (b"", "audit: line 1: Header", 1),
        ]
        for text, fault, status in cases:
            audit.write_bytes(text)
            with self.assertRaises((faultyard.AuditRefused, faultyard.GuardEnded)) as raised:
                with Guard(common.SIX, transport=self.transport, after=audit) as guard:
                    guard.tick(1, by=0)
            self.assertEqual((raised.exception.fault, raised.exception.status), (fault, status))

    def test_each_typed_call_makes_the_act_of_the_page(self):
        page = (common.ROOT / "docs/FORMATS.md").read_text()
        self.assertEqual(len({json.loads(act).popitem()[0] for _, act in CALLS}), 18)
        guard = self.guard()
        for make, act in CALLS:
            name = json.loads(act).popitem()[0]
            self.assertIn(f"`{act}`", page)
            try:
                make(guard)
            except faultyard.ActRefused as refused:
                self.assertEqual(refused.act, name)
            last = guard.audit().splitlines()[-1]
            self.assertTrue(last.startswith(f'{{"act":{act},"at":'), last)

    def test_ten_thousand_random_acts_give_the_audit_that_run_gives(self):
        config = common.six_with(self.folder, 10_000)
        acts = list(common.random_acts(51, 10_000))
        wanted = common.run_script(config, acts)
        self.assertEqual(faultyard.check(config, wanted), 10_000)
        met = collections.Counter()
        guard = self.guard(config)
        for number, (by, act) in enumerate(acts):
            # Every third act is made by the general call.
            answer = guard.act(by, act).reply if number % 3 == 0 else call(guard, by, act)
            met[type(answer).__name__] += 1
        self.assertEqual(guard.audit(), wanted)
        self.assertEqual(guard.journal_len(), 10_000)
        for shape in (
            "Verdict",
            "Ruling",
            "Begun",
            "Stored",
            "Marked",
            "Synced",
            "ActRefused",
            "Refused",
        ):
            self.assertGreater(met[shape], 10, met)

    def test_answers_are_the_replies_of_the_entries(self):
        config = common.six_with(self.folder, 2_000)
        typed, plain = self.guard(config), self.guard(config)
        acts = list(common.random_acts(7, 2_000))
        for (by, act), line in zip(acts, common.run_script(config, acts).splitlines()[1:]):
            entry, wanted = plain.act(by, act), json.loads(line)
            self.assertEqual((entry.at, entry.by, entry.act), (wanted["at"], by, act))
            self.assertEqual(words(entry.reply), wanted["reply"])
            self.assertTrue(told(call(typed, by, act), entry.reply), (entry, act))

    def test_refusals_raise_and_stand_in_the_journal(self):
        guard = self.guard()
        with self.assertRaises(faultyard.ActRefused) as caught:
            guard.up(2, by=0)
        self.assertEqual((caught.exception.refusal, caught.exception.named), (Refusal.IS_UP, None))
        with self.assertRaises(faultyard.ActRefused) as caught:
            guard.form([0, 1], 0, by=0)
        self.assertEqual(
            (caught.exception.refusal, caught.exception.named), (Refusal.TEAM_SHORT, 0)
        )
        for make, refusal in (
            (lambda: guard.kill(Key.ZONE, "z0", Kind.REBOOT, by=9), Refusal.STRANGER),
            (lambda: guard.heal(0, by=1), Refusal.WRONG_ROLE),
            (lambda: guard.heal(0, by=0), Refusal.NOT_DESTROYED),
            (lambda: guard.begin(0, bytes(3), by=0), Refusal.NO_TEAM),
        ):
            with self.assertRaises(faultyard.ActRefused) as caught:
                make()
            self.assertIs(caught.exception.refusal, refusal)
        self.assertEqual(
            guard.act(0, {"up": {"process": 2}}).reply, faultyard.Refused(Refusal.IS_UP, None)
        )
        self.assertEqual(guard.journal_len(), 7)

    def test_an_act_that_cannot_be_read_is_told_before_it_is_sent(self):
        bad = [
            lambda g: g.kill(Key.ZONE, "no name", Kind.REBOOT, by=1),
            lambda g: g.kill(Key.ZONE, "-z", Kind.REBOOT, by=1),
            lambda g: g.kill(Key.ZONE, "z" * 33, Kind.REBOOT, by=1),
            lambda g: g.kill(Key.ZONE, "z0\n", Kind.REBOOT, by=1),
            lambda g: g.kill("rack", "z0", Kind.REBOOT, by=1),
            lambda g: g.kill(Key.ZONE, "z0", Kind.CLOG, by=1),
            lambda g: g.kill(Key.ZONE, "z0", Kind.REBOOT, floor=Kind.KILL_INSTANTLY, by=1),
            lambda g: g.kill(Key.ZONE, "z0", Kind.REBOOT, tear=2**64, by=1),
            lambda g: g.up(-1, by=0),
            lambda g: g.up(2**32, by=0),
            lambda g: g.up(1.0, by=0),
            lambda g: g.up(0, by="storage"),
            lambda g: g.form(range(1025), 0, by=0),
            lambda g: g.form(3, 0, by=0),
            lambda g: g.begin(0, bytes(32_768), by=0),
            lambda g: g.begin(0, "6A", by=0),
            lambda g: g.protect(0, "Reboot", by=4),
            lambda g: g.protect(0, ["Rebot"], by=4),
            lambda g: g.give(3, [], "zone", by=4),
            lambda g: g.act(0, {"destroy": {"process": 0}}),
            lambda g: g.act(0, {"up": {}}),
            lambda g: g.act(0, {"up": {"process": 0, "force": 1}}),
            lambda g: g.act(0, {}),
            lambda g: g.is_destroyed(-1),
            lambda g: g.targets(Key.ZONE, "no name"),
            lambda g: g.targets("rack", "z0"),
            lambda g: g.process(""),
            lambda g: g.process(0),
        ]
        guard = self.guard()
        for number, make in enumerate(bad):
            with self.subTest(number=number), self.assertRaises(faultyard.InvalidAct):
                make(guard)
        self.assertEqual(guard.audit(), common.HEADER)
        self.assertEqual(guard.tick(1, by=0), 1)

    def test_the_longest_line_and_its_longer_answer(self):
        guard = self.guard()
        # The line has exactly 65,536 bytes: 58 beside the digits. One more byte of payload is too
        # long.
        begin = {"payload": "6b" * 32_739, "team": 1000000000}
        self.assertEqual(
            len(json.dumps({"by": 10, "act": {"begin": begin}}, separators=(",", ":"))), 65_536
        )
        self.assertIs(guard.act(10, {"begin": begin}).reply.refusal, Refusal.STRANGER)
        with self.assertRaises(faultyard.InvalidAct):
            guard.begin(1000000000, bytes(32_740), by=10)
        self.assertEqual(guard.tick(2, by=0), 2)

    def test_the_largest_team(self):
        guard = self.guard()
        entry = guard.act(0, {"form": {"members": range(1023, -1, -1), "policy": 0}})
        self.assertIs(entry.reply.refusal, Refusal.NO_PROCESS)
        self.assertEqual(entry.act["form"]["members"], list(range(1024)))

    def test_a_full_journal_is_told_each_time_and_keeps_its_audit(self):
        config = common.six_with(self.folder, 3)
        with Guard(config, transport=self.transport) as guard:
            for _ in range(3):
                guard.tick(1, by=0)
            before = guard.audit()
            for make in (
                lambda: guard.tick(1, by=0),
                lambda: guard.kill(Key.ZONE, "z0", Kind.REBOOT, by=1),
                lambda: guard.up(0, by=0),
                lambda: guard.act(0, {"heal": {"process": 0}}),
            ):
                with self.assertRaises(faultyard.JournalFull):
                    make()
            self.assertFalse(guard.is_destroyed(0))
        self.assertEqual(guard.audit(), before)
        self.assertEqual(faultyard.check(config, before), 3)

    def test_a_refused_cluster_file_is_told_with_its_fault(self):
        places = {
            "config: TooLong": (None, None),
            "config: Toml": (None, None),
            "config: Name Process 1": (Part.PROCESS, 1),
            "config: Name Actor 2": (Part.ACTOR, 2),
            "config: Name Protect 1": (Part.PROTECT, 1),
            "config: Policy 1": (Part.POLICIES, 1),
            "config: PolicyUnmet 2": (Part.POLICIES, 2),
        }
        met = set()
        for line, file in common.refused_files(self.folder).items():
            with self.subTest(line), self.assertRaises(faultyard.ConfigRefused) as caught:
                Guard(file, transport=self.transport)
            told = caught.exception
            self.assertEqual((told.fault, str(told)), (line, line))
            # All others are a Field or a Limit, and name a part alone.
            place = places.get(line) or (Part(line.split()[2]), None)
            self.assertEqual((told.part, told.place), place, line)
            met.add(told.part)
        self.assertEqual(met, {None, *Part})

    def test_a_cluster_file_that_cannot_be_opened(self):
        with self.assertRaises(FileNotFoundError):
            Guard(f"{self.folder}/none.toml", transport=self.transport)
        with self.assertRaises(IsADirectoryError):
            Guard(self.folder, transport=self.transport)

    def test_who_is_destroyed_and_who_is_left(self):
        guard = self.guard()
        self.assertEqual(guard.left(), frozenset(range(6)))
        guard.kill(Key.PROCESS, "p0", Kind.KILL_INSTANTLY, by=1)
        guard.kill(Key.PROCESS, "p1", Kind.REBOOT_AND_DELETE, by=1)
        guard.kill(
            Key.PROCESS, "p2", Kind.KILL_INSTANTLY, by=1
        )  # a reboot, since zone z0 is destroyed
        guard.kill(Key.PROCESS, "p3", Kind.KILL_INSTANTLY, floor=Kind.KILL_INSTANTLY, by=1)
        self.assertEqual([guard.is_destroyed(p) for p in range(7)], [True, True] + [False] * 5)
        self.assertEqual(guard.left(), frozenset(range(1, 6)))
        guard.up(1, by=0)
        self.assertTrue(guard.is_destroyed(1))
        guard.heal(1, by=0)
        with self.assertRaises(faultyard.ActRefused):
            guard.heal(0, by=0)
        self.assertEqual([guard.is_destroyed(p) for p in range(3)], [True, False, False])
        # A kill of a zone passes by who is gone already.
        guard.kill(Key.ZONE, "z0", Kind.REBOOT_AND_DELETE, by=1)
        self.assertEqual([guard.is_destroyed(p) for p in range(3)], [True, True, False])
        self.assertEqual(guard.left(), frozenset(range(1, 6)))

    def test_whom_a_kill_is_about(self):
        guard = self.guard()
        places = {
            (Key.PROCESS, "p3"): {3},
            (Key.MACHINE, "m5"): {5},
            (Key.ZONE, "z0"): {0, 1},
            (Key.DATA_CENTER, "d0"): set(range(6)),
            (Key.DATA_HALL, "d0"): set(),
            (Key.ZONE, "z3"): set(),
        }
        for (key, value), wanted in places.items():
            self.assertEqual(guard.targets(key, value), wanted)
        self.assertEqual((guard.destroyed(), guard.gone()), (set(), set()))
        guard.kill(Key.PROCESS, "p1", Kind.KILL_INSTANTLY, by=1)
        guard.kill(Key.PROCESS, "p0", Kind.REBOOT_AND_DELETE, by=1)
        self.assertEqual(guard.targets(Key.ZONE, "z0"), {0})
        self.assertEqual((guard.destroyed(), guard.gone()), ({0, 1}, {1}))
        guard.up(0, by=0)
        guard.heal(0, by=0)
        self.assertEqual((guard.destroyed(), guard.gone()), ({1}, {1}))

    def test_the_state_of_each_process(self):
        states = faultyard.State
        up, down = states(True, False, False, False), states(False, False, False, False)
        guard = self.guard()
        self.assertEqual([guard.state(it) for it in range(7)], [up] * 6 + [None])
        self.assertEqual(guard.up_set(), set(range(6)))
        guard.clog(Key.ZONE, "z0", 3, by=1)
        guard.clog(Key.PROCESS, "p1", 2, by=1)  # it shortens no other
        guard.kill(Key.PROCESS, "p0", Kind.KILL_INSTANTLY, by=1)
        guard.kill(Key.PROCESS, "p1", Kind.REBOOT_AND_DELETE, by=1)
        guard.kill(Key.PROCESS, "p2", Kind.REBOOT, by=1)
        gone, emptied = states(False, True, True, True), states(False, True, True, False)
        self.assertEqual([guard.state(it) for it in range(4)], [gone, emptied, down, up])
        guard.unclog(Key.ZONE, "z0", by=1)  # who is gone is no target
        for process in (1, 2):
            guard.up(process, by=0)
        emptied = states(True, False, True, False)
        self.assertEqual([guard.state(it) for it in range(3)], [gone, emptied, up])
        guard.tick(3, by=0)
        guard.heal(1, by=0)
        gone = states(False, False, True, True)
        self.assertEqual([guard.state(it) for it in range(3)], [gone, up, up])
        self.assertEqual(guard.up_set(), {1, 2, 3, 4, 5})
        guard.tick(2**40 - 13, by=0)
        guard.clog(Key.PROCESS, "p4", 2**64 - 1, by=1)  # at most up to the clock's end
        for ticks, clogged in ((9, True), (1, False)):
            guard.tick(ticks, by=0)
            self.assertEqual(guard.state(4), states(True, clogged, False, False))
        with self.assertRaises(faultyard.InvalidAct):
            guard.state(-1)

    def test_what_is_judged_is_what_the_kill_gets(self):
        key, kinds = Key.ZONE, list(Kind)[1:4]
        with Guard(common.SIX, transport=self.transport) as guard:
            for zone in ("z0", "z1", "z2", "z9"):
                for kind in reversed(kinds):
                    count = guard.journal_len()
                    verdict = guard.judge(key, zone, kind, by=1, floor=kinds[0])
                    self.assertEqual(guard.journal_len(), count)
                    self.assertEqual(guard.kill(key, zone, kind, by=1, floor=kinds[0]), verdict)
            with self.assertRaises(faultyard.ActRefused) as caught:
                guard.judge(key, "z0", kinds[0], by=9)
            self.assertEqual(caught.exception.refusal, Refusal.STRANGER)
            for value, floor in (("-", kinds[0]), ("z0", kinds[1])):
                with self.assertRaises(faultyard.InvalidAct):
                    guard.judge(key, value, kinds[0], by=1, floor=floor)
            self.assertEqual(guard.journal_len(), 12)

    def test_by_number_as_by_name(self):
        key, kinds = Key.PROCESS, list(Kind)[1:4]
        named = self.guard()
        with Guard(common.SIX, transport=self.transport) as numbered:
            for process in range(6):
                for kind in reversed(kinds):
                    verdict = named.kill(key, f"p{process}", kind, by=1, floor=kinds[0], tear=5)
                    judged = numbered.judge_process(process, kind, by=1, floor=kinds[0])
                    self.assertEqual(judged, verdict)
                    killed = numbered.kill_process(process, kind, by=1, floor=kinds[0], tear=5)
                    self.assertEqual(killed, verdict)
            self.assertEqual(numbered.audit(), named.audit())
            for call in (numbered.judge_process, numbered.kill_process):
                with self.assertRaises(faultyard.ActRefused) as caught:
                    call(0, kinds[0], by=9)
                self.assertEqual(caught.exception.refusal, Refusal.STRANGER)
                for process, floor in ((6, kinds[0]), (-1, kinds[0]), (0, kinds[1])):
                    with self.assertRaises(faultyard.InvalidAct):
                        call(process, kinds[0], by=1, floor=floor)
            # The kill by a stranger stands in the journal.
            self.assertEqual(numbered.journal_len(), named.journal_len() + 1)
        for call in (numbered.judge_process, numbered.kill_process):
            with self.assertRaises(faultyard.GuardClosed):
                call(0, kinds[0], by=1)

    def test_each_process_has_the_kind_of_its_own_judgement(self):
        kinds = Kind
        hard, mild, none = kinds.KILL_INSTANTLY, kinds.REBOOT, None
        with Guard(common.SIX, transport=self.transport) as guard:
            guard.protect(5, [kinds.REBOOT, hard], by=4)
            self.assertEqual(guard.killable(by=1), [hard] * 5 + [kinds.REBOOT_AND_DELETE])
            self.assertEqual(guard.killable(by=3), [none] * 6)
            guard.kill_process(0, hard, by=1)
            wanted = [none, hard, mild, mild, mild, kinds.REBOOT_PROCESS]
            self.assertEqual(guard.killable(by=1), wanted)
            judged = [guard.judge_process(it, hard, by=2).struck for it in range(6)]
            self.assertEqual(guard.killable(by=2), judged)
            with self.assertRaises(faultyard.ActRefused) as caught:
                guard.killable(by=9)
            self.assertEqual(caught.exception.refusal, Refusal.STRANGER)
            with self.assertRaises(faultyard.InvalidAct):
                guard.killable(by=-1)
            self.assertEqual(guard.journal_len(), 2)
        with self.assertRaises(faultyard.GuardClosed):
            guard.killable(by=1)

    def test_what_there_is_to_do_until_a_record_is_acknowledged(self):
        with Guard(common.SIX, transport=self.transport) as guard:
            self.assertEqual(guard.sight(), faultyard.Sight(0, None, None, None))
            guard.form([0, 2], 0, by=0)
            guard.begin(0, b"hi", by=0)
            # Messages 0 and 1 store the record at p0 and p2; 2 and 3 answer that it is synced.
            self.assertEqual(guard.sight(), faultyard.Sight(0, 0, None, None))
            guard.deliver(0, by=0)
            guard.deliver(1, by=0)
            self.assertEqual(guard.sight(), faultyard.Sight(0, None, 0, None))
            guard.sync(0, by=0)
            self.assertEqual(guard.sight(), faultyard.Sight(0, 2, 2, None))
            guard.sync(2, by=0)
            guard.deliver(2, by=0)
            self.assertEqual((guard.is_acked(0), guard.keeper(0)), (False, None))
            guard.deliver(3, by=0)
            self.assertEqual((guard.is_acked(0), guard.keeper(0)), (True, 0))
            self.assertEqual((guard.is_acked(1), guard.keeper(2**32 - 1)), (False, None))
            guard.tick(5, by=0)
            guard.kill(Key.PROCESS, "p0", Kind.REBOOT_AND_DELETE, by=1)
            self.assertEqual((guard.is_acked(0), guard.keeper(0)), (True, 2))
            self.assertEqual(guard.sight(), faultyard.Sight(5, None, None, 0))
            for ask in (guard.is_acked, guard.keeper):
                with self.assertRaises(faultyard.InvalidAct):
                    ask(-1)
        asked = [guard.sight, lambda: guard.is_acked(0), lambda: guard.keeper(0), guard.up_set]
        asked += [lambda: guard.state(0), lambda: guard.needed(0), guard.reset, guard.try_copy]
        for ask in asked:
            with self.assertRaises(faultyard.GuardClosed):
                ask()

    def test_what_it_bears_is_what_the_program_says(self):
        crossed = common.ROOT / "tests/cli/bears/configs/crossed.toml"
        with Guard(crossed, transport=self.transport) as guard:
            self.assertEqual(guard.bears(), faultyard.Borne(2, 0, False, True))
            self.assertEqual(guard.bears(), faultyard.bears(crossed, guard.audit()))
        with Guard(common.SIX, transport=self.transport) as guard:
            for at, (by, act) in enumerate(common.random_acts(60, 200)):
                guard.act(by, act)
                if at % 20 == 0:
                    self.assertEqual(guard.bears(), faultyard.bears(common.SIX, guard.audit()))
            self.assertEqual(guard.journal_len(), 200)
        with self.assertRaises(faultyard.GuardClosed):
            guard.bears()

    def test_states_and_what_is_needed_and_a_reset(self):
        up = faultyard.State(up=True, clogged=False, destroyed=False, gone=False)
        with Guard(common.SIX, transport=self.transport) as guard:
            audits = []
            for _ in range(2):
                self.assertEqual([guard.state(it) for it in range(7)], [up] * 6 + [None])
                self.assertEqual(guard.up_set(), frozenset(range(6)))
                guard.form([0, 2], 0, by=0)
                guard.begin(0, b"hi", by=0)
                guard.deliver(0, by=0)
                guard.deliver(1, by=0)
                guard.sync(0, by=0)
                guard.sync(2, by=0)
                guard.deliver(2, by=0)
                guard.deliver(3, by=0)
                key, kinds = Key.PROCESS, Kind
                guard.kill(key, "p1", kinds.KILL_INSTANTLY, by=1)
                guard.kill(key, "p0", kinds.REBOOT_AND_DELETE, by=1)
                guard.clog(key, "p2", 3, by=1)
                emptied = faultyard.State(up=False, clogged=False, destroyed=True, gone=False)
                gone = faultyard.State(up=False, clogged=False, destroyed=True, gone=True)
                clogged = faultyard.State(up=True, clogged=True, destroyed=False, gone=False)
                wanted = [emptied, gone, clogged, up]
                self.assertEqual([guard.state(it) for it in range(4)], wanted)
                self.assertEqual(guard.up_set(), {2, 3, 4, 5})
                needed = [guard.needed(it) for it in (0, 1, 2, 6)]
                self.assertEqual(needed, [0, None, None, None])
                audits.append(guard.audit())
                guard.reset()
                self.assertEqual(guard.audit(), common.HEADER)
            self.assertEqual(audits[0], audits[1])

    def test_a_copy_has_the_journal_and_goes_its_own_way(self):
        key, kinds = Key, Kind
        with Guard(common.SIX, transport=self.transport) as guard:
            guard.tick(5, by=0)
            guard.kill(key.ZONE, "z0", kinds.KILL_INSTANTLY, by=1)
            before = guard.audit()
            other = guard.try_copy()
            self.assertEqual(other.audit(), before)
            self.assertEqual((other.left(), other.sight().now), ({2, 3, 4, 5}, 5))
            other.kill(key.PROCESS, "p4", kinds.REBOOT, by=1)
            self.assertEqual((other.up_set(), guard.up_set()), ({2, 3, 5}, {2, 3, 4, 5}))
            self.assertEqual(guard.audit(), before)
            ahead = other.audit()
        self.assertEqual(other.audit(), ahead)
        other.close()
        self.assertEqual((other.audit(), other.journal_len()), (ahead, 3))
        with self.assertRaises(faultyard.GuardClosed):
            other.try_copy()
        self.assertEqual(faultyard.check(common.SIX, ahead), 3)

    def test_processes_by_their_names(self):
        guard = self.guard()
        self.assertEqual(guard.process_count(), 6)
        self.assertEqual([guard.process(f"p{number}") for number in range(6)], list(range(6)))
        self.assertEqual([guard.process(name) for name in ("p6", "z0", "p")], [None] * 3)

    def test_eight_threads_share_a_guard_and_each_gets_its_own_answers(self):
        config = common.eight_actors(self.folder)
        guard = self.guard(config)
        heard = [self.heard_by(guard, actor) for actor in range(1, 9)]
        threads = [thread for thread, _ in heard]
        for thread in threads:
            thread.start()
        for thread in threads:
            thread.join(60)
            self.assertFalse(thread.is_alive())
        audit = guard.audit()
        self.assertEqual(faultyard.check(config, audit), 8 * 250)
        entries = [json.loads(line) for line in audit.splitlines()[1:]]
        told = {entry.at: (entry.by, entry.act) for _, mine in heard for entry in mine}
        self.assertEqual(told, {entry["at"]: (entry["by"], entry["act"]) for entry in entries})
        for actor, (_, mine) in enumerate(heard, 1):
            self.assertEqual([entry.by for entry in mine], [actor] * 250)
            self.assertEqual([entry.at for entry in mine], sorted(entry.at for entry in mine))
            replies = [entry["reply"] for entry in entries if entry["by"] == actor]
            self.assertEqual([words(entry.reply) for entry in mine], replies)

    def heard_by(self, guard, actor):
        """A thread that kills as this actor, and the entries that it gets."""
        mine = []

        def play():
            for number in range(250):
                order = {
                    "key": "processid",
                    "value": f"p{number % 6}",
                    "kind": "RebootAndDelete",
                    "floor": "Reboot",
                    "tear": actor * 1000 + number,
                }
                mine.append(guard.act(actor, {"kill": order}))

        return threading.Thread(target=play), mine

    def test_after_its_end_a_guard_answers_nothing_but_its_audit(self):
        with Guard(common.SIX, transport=self.transport) as guard:
            guard.tick(1, by=0)
        guard.close()
        asked = [guard.left, guard.destroyed, guard.gone, guard.process_count, guard.up_set]
        asked += [lambda: guard.is_destroyed(0), lambda: guard.process("p0")]
        asked += [lambda: guard.state(0), lambda: guard.killable(by=1)]
        asked += [lambda: guard.targets(Key.ZONE, "z0"), lambda: guard.tick(1, by=0)]
        for make in asked:
            with self.assertRaises(faultyard.GuardClosed):
                make()
        self.assertEqual(guard.journal_len(), 1)
        self.assertEqual(faultyard.check(common.SIX, guard.audit()), 1)

    def test_what_the_body_raises_flies_on(self):
        with self.assertRaises(ZeroDivisionError):
            with Guard(common.SIX, transport=self.transport) as guard:
                guard.tick(1 // 0, by=0)
        with self.assertRaises(faultyard.GuardClosed):
            guard.tick(1, by=0)


def words(reply):
    """A reply as an audit writes it."""
    shape, members = type(reply), dict(vars(reply))
    if shape in (faultyard.Done, faultyard.Stored):
        return shape.__name__.lower()
    if shape is faultyard.Refused:
        return {"no": listed(members["refusal"], members["named"])}
    if shape in (faultyard.Verdict, faultyard.Ruling):
        rule = members["rule"] and listed(members["rule"], members["named"])
        struck = members.get("struck")
        return (
            {"ruled": rule}
            if shape is faultyard.Ruling
            else {"verdict": {"rule": rule, "struck": struck and struck.value}}
        )
    if len(members) == 1:
        (members,) = members.values()
    return {shape.__name__.lower(): members}


def listed(word, number):
    """A rule or a refusal as an audit writes it."""
    return [word.value] if number is None else [word.value, number]


class OverThePipe(GuardTests, unittest.TestCase):
    transport = "pipe"

    def test_the_states_are_those_of_the_picture(self):
        config = common.six_with(self.folder, 1_000)
        guard, states = self.guard(config), []
        for by, act in common.random_acts(65, 1_000):
            guard.act(by, act)
            states.append([guard.state(process) for process in range(6)])
        drawn = played.states_drawn(config, guard.audit())
        self.assertEqual(len(drawn), 1_000)
        self.assertEqual(states, drawn)
        # All states that there are: who is gone is down and destroyed.
        self.assertEqual(len({state for column in states for state in column}), 10)

    def test_a_server_goes_on_by_itself(self):
        with self.assertRaises(ValueError):
            Guard(common.SIX, after="audit", server="http://127.0.0.1:1")


@unittest.skipUnless(common.LIBRARY, common.WITHOUT)
class OverTheLibrary(GuardTests, unittest.TestCase):
    transport = "library"


@unittest.skipUnless(common.LIBRARY, common.WITHOUT)
class BothTransports(common.Folder, unittest.TestCase):
    """What is told over the pipe is what the library's calls answer."""

    def test_who_is_destroyed_and_left_after_each_random_act(self):
        config = common.six_with(self.folder, 4_000)
        for seed in range(4):
            with Guard(config) as pipe, Guard(config, transport="library") as library:
                for by, act in common.random_acts(seed, 200):
                    self.assertEqual(pipe.act(by, act), library.act(by, act))
                    self.assertEqual(
                        [pipe.is_destroyed(p) for p in range(7)],
                        [library.is_destroyed(p) for p in range(7)],
                    )
                    self.assertEqual(pipe.left(), library.left())
                    self.assertEqual(
                        [pipe.state(p) for p in range(7)], [library.state(p) for p in range(7)]
                    )
                    self.assertEqual(pipe.up_set(), library.up_set())
                    self.assertEqual(pipe.targets(Key.ZONE, "z0"), library.targets(Key.ZONE, "z0"))

    def test_who_may_be_killed_after_random_acts(self):
        config, met = common.six_with(self.folder, 1_000), collections.Counter()
        for seed in range(4):
            with Guard(config) as pipe, Guard(config, transport="library") as library:
                for at, (by, act) in enumerate(common.random_acts(70 + seed, 400)):
                    self.assertEqual(pipe.act(by, act), library.act(by, act))
                    if at % 20 == 0:
                        for actor in (1, 2, 3, 0):
                            kinds = library.killable(by=actor)
                            self.assertEqual(pipe.killable(by=actor), kinds)
                            met.update(kinds)
                self.assertEqual(pipe.audit(), library.audit())
        self.assertEqual(set(met), {None, *list(Kind)[:4]})


class FaultLines(unittest.TestCase):
    def test_a_fault_that_is_none_of_the_pages(self):
        for line, place in (("no actor has the role", None), ("config: Name Rack 1", 1)):
            told = faultyard.ConfigRefused(line)
            self.assertEqual((told.fault, str(told)), (line, line))
            self.assertEqual((told.part, told.place), (None, place))


class NoTransport(unittest.TestCase):
    def test_a_transport_that_is_none(self):
        with self.assertRaises(ValueError):
            Guard(common.SIX, transport="socket")
