"""The library through ctypes: its table of calls against the header, and what only a guard in this
process can meet."""

import ctypes
import gc
import os
import re
import subprocess
import sys
import threading
import unittest
from unittest import mock

import common
import faultyard
from faultyard import Guard, acts, library
from native import poor_library

HEADER = (common.ROOT / "include/faultyard.h").read_text()
# The types of the header, as ctypes has them.
TYPES = {
    "void": None,
    "uint32_t": ctypes.c_uint32,
    "uint64_t": ctypes.c_uint64,
    "size_t": ctypes.c_size_t,
    "uint32_t *": ctypes.POINTER(ctypes.c_uint32),
    "uint64_t *": ctypes.POINTER(ctypes.c_uint64),
    "size_t *": ctypes.POINTER(ctypes.c_size_t),
    "uint8_t *": ctypes.c_char_p,
    "const uint8_t *": ctypes.c_char_p,
    "fy_guard": library._Guard,
    "fy_guard *": ctypes.POINTER(library._Guard),
    "const fy_guard *": ctypes.POINTER(library._Guard),
    "fy_order *": ctypes.POINTER(library._Order),
    "fy_check": library._Check,
    "fy_check *": ctypes.POINTER(library._Check),
    "const fy_check *": ctypes.POINTER(library._Check),
}


# What `fy_act` and `fy_ask` answer by lines, each of which has a call of its own for C.
BY_LINES = {f"fy_{act}" for act in acts.ACTS} | {
    f"fy_{name}"
    for name in (
        "judge kill_process judge_process killable process process_count targets is_destroyed left "
        "up_set state needed destroyed_set gone_set is_acked keeper sight bears"
    ).split()
}


class MemoryCounts(ctypes.Structure):
    """`mallinfo2` of glibc."""

    _names = "arena ordblks smblks hblks hblkhd usmblks fsmblks uordblks fordblks keepcost"
    _fields_ = [(name, ctypes.c_size_t) for name in _names.split()]


def in_use():
    """How many bytes that were asked of malloc aren't given back."""
    count = ctypes.CDLL(None).mallinfo2
    count.restype = MemoryCounts
    told = count()
    return told.uordblks + told.hblkhd


def types(words):
    """The types of a list of arguments, without their names."""
    if words == "void":
        return []
    return [TYPES[re.sub(r"\w+$", "", word.strip()).strip()] for word in words.split(",")]


def declared():
    """The library's own calls: of each the type that it answers, and its arguments."""
    found = re.findall(r"^(\w+) (fy_\w+)\(([^)]*)\);$", HEADER, re.M)
    return {name: (answer, takes) for answer, name, takes in found}


class Table(unittest.TestCase):
    def test_each_call_is_declared_so(self):
        there = declared()
        self.assertEqual(set(there) - set(library.CALLS), BY_LINES)
        for name, call in library.CALLS.items():
            answer, takes = there[name]
            self.assertEqual(call, (TYPES[answer], types(takes)), name)

    def test_each_field_is_the_headers(self):
        body = re.search(r"^typedef struct fy_order {(.*?)^}", HEADER, re.M | re.S)[1]
        found = re.findall(r"^    (\w+) (\w+)(\[FY_VALUE_BYTES\])?;", body, re.M)
        value = ctypes.c_char * library.VALUE_BYTES
        wanted = [(name, value if room else TYPES[its]) for its, name, room in found]
        self.assertEqual(library._Order._fields_, wanted)
        self.assertEqual(len(found), 7)

    def test_each_number_is_the_headers(self):
        statuses = dict(re.findall(r"^    FY_(\w+) = (\d+),", HEADER, re.M))
        names = ["DONE", "NO_MEMORY", "JOURNAL_FULL", "SHORT", "UNWRITTEN"]
        names += ["LINE_TOO_LONG", "LINE_SYNTAX", "NO_HEADER", "AUDIT_TOO_LONG", "REFUTED"]
        names += ["ORDER_KILL", "ORDER_CLOG", "ORDER_UNCLOG"]
        for name in names:
            self.assertEqual(getattr(library, name), int(statuses[name]))
        faults = {
            "TOO_LONG": "TooLong",
            "TOML": "Toml",
            "FIELD": "Field {part}",
            "LIMIT": "Limit {part}",
            "NAME": "Name {part} {place}",
            "POLICY": "Policy {place}",
            "UNMET": "PolicyUnmet {place}",
        }
        wanted = {int(statuses[f"CONFIG_{it}"]): f"config: {word}" for it, word in faults.items()}
        self.assertEqual(library.CONFIG_FAULTS, wanted)
        version = int(re.search(r"^#define FAULTYARD_VERSION (\d+)$", HEADER, re.M)[1])
        self.assertEqual(library.MAJOR, version // 10_000)
        defined = dict(re.findall(r"^#define FY_(\w+) (\d+)$", HEADER, re.M))
        self.assertEqual(library.MOST_REPLY, int(defined["MOST_REPLY"]))
        self.assertEqual(library.VALUE_BYTES, int(defined["VALUE_BYTES"]))
        greatest = dict(re.findall(r"^#define FY_(\w+) UINT(\d+)_MAX$", HEADER, re.M))
        self.assertEqual(library.NO_BAD_ENTRY, 2 ** int(greatest["NO_BAD_ENTRY"]) - 1)

    def test_a_library_that_is_none(self):
        with self.assertRaises(FileNotFoundError) as caught:
            Guard(common.SIX, transport="library", library="/none/libfaultyard.so")
        self.assertIsInstance(caught.exception, faultyard.NotFound)
        with self.assertRaises(faultyard.ProtocolError):
            Guard(common.SIX, transport="library", library="libc.so.6")


class Poor(common.Folder, unittest.TestCase):
    """Libraries that the tests build."""

    def guard(self, **more):
        return Guard(common.SIX, transport="library", **more)

    def library(self, *flags):
        common.need("the libraries of other versions", "cc")
        # What was loaded from a path stays what is loaded from it.
        path = f"{self.folder}/poor{len(os.listdir(self.folder))}.so"
        poor_library(path, *flags)
        return path

    def test_a_library_of_another_major_version_is_refused(self):
        for number, told in ((30_000, "3.0.0"), (19_912, "1.99.12")):
            path = self.library(f"-DVERSION={number}")
            for ask in (library.version, lambda it: self.guard(library=it)):
                with self.assertRaises(faultyard.ProtocolError) as caught:
                    ask(path)
                wanted = f"{path} is faultyard {told}, and this package calls 2.x"
                self.assertEqual(str(caught.exception), wanted)

    def test_a_library_of_a_later_minor_version_is_none(self):
        its = library.version(self.library("-DVERSION=29907"))
        self.assertEqual((its, str(its)), ((2, 99, 7), "2.99.7"))

    def test_want_of_memory_to_say_where_the_fault_is(self):
        with self.assertRaises(faultyard.OutOfMemory):
            self.guard(library=self.library())

    def test_want_of_memory_for_words_and_for_a_check(self):
        poor = self.library()
        with self.assertRaises(faultyard.OutOfMemory):
            library.words(0, 0, 9, library=poor)
        with self.assertRaises(faultyard.OutOfMemory):
            faultyard.Check(common.SIX, library=poor)
        nothing = common.written(self.folder, "nothing.toml", "")
        with faultyard.Check(nothing, library=poor) as check:
            with self.assertRaises(faultyard.OutOfMemory):
                check.line(common.HEADER)


@unittest.skipUnless(common.LIBRARY, common.WITHOUT)
class InThisProcess(common.Folder, unittest.TestCase):
    def guard(self, config=common.SIX):
        return Guard(config, transport="library")

    def test_where_the_library_is_looked_for(self):
        with mock.patch.dict(os.environ):
            os.environ["FAULTYARD_LIB"] = f"{self.folder}/none.so"
            with self.assertRaises(faultyard.NotFound):
                self.guard()
            Guard(common.SIX, transport="library", library=common.LIBRARY).close()

    def test_the_systems_loader_finds_it(self):
        os.symlink(common.LIBRARY, f"{self.folder}/libfaultyard.so.1")
        text = (
            f"import faultyard; faultyard.Guard({str(common.SIX)!r}, transport='library').close()"
        )
        environment = {name: it for name, it in os.environ.items() if name != "FAULTYARD_LIB"}
        for where, status in ((self.folder, 0), ("/none", 1)):
            environment["LD_LIBRARY_PATH"] = where
            ran = subprocess.run(
                [sys.executable, "-c", text], env=environment, capture_output=True, timeout=60
            )
            self.assertEqual(ran.returncode, status, ran.stderr)

    def test_its_version_is_that_of_the_program(self):
        for its in (library.version(), library.version(common.LIBRARY)):
            self.assertEqual((str(its), its), (common.version(), (its.major, its.minor, its.patch)))

    def test_it_starts_no_thread(self):
        before = threading.active_count()
        with self.guard() as guard:
            guard.tick(1, by=0)
            self.assertEqual(threading.active_count(), before)

    def test_a_guard_moves_between_threads(self):
        made = []
        calls = [
            lambda: made.append(self.guard()),
            lambda: made[0].tick(1, by=0),
            lambda: made[0].close(),
        ]
        for call in calls:
            thread = threading.Thread(target=call)
            thread.start()
            thread.join(60)
        self.assertEqual(made[0].journal_len(), 1)
        self.assertEqual(faultyard.check(common.SIX, made[0].audit()), 1)

    def test_a_guard_is_freed_closed_or_not(self):
        config = common.six_with(self.folder, 2_000)

        def play(closes):
            guard = self.guard(config)
            for _ in range(2_000):
                guard.tick(1, by=0)
            if closes:
                guard.close()

        for closes in (True, False):
            play(closes)
            gc.collect()
            before = in_use()
            for _ in range(5):
                play(closes)
                gc.collect()
                self.assertLess(in_use() - before, 100_000)

    def test_the_end_of_the_interpreter_waits_for_nothing(self):
        text = (
            "import faultyard\n"
            f"guard = faultyard.Guard({str(common.SIX)!r}, transport='library')\n"
            "print(guard.tick(1, by=0))\n"
        )
        ran = subprocess.run(
            [sys.executable, "-c", text], capture_output=True, text=True, timeout=60, check=True
        )
        self.assertEqual((ran.stdout, ran.stderr), ("1\n", ""))

    def test_a_forked_child_is_refused(self):
        with self.guard() as guard:
            child = os.fork()
            if child == 0:
                try:
                    guard.tick(1, by=0)
                except faultyard.GuardClosed:
                    guard.close()
                    guard._transport._finalizer()
                    os._exit(7)
                os._exit(1)
            self.assertEqual(os.waitstatus_to_exitcode(os.waitpid(child, 0)[1]), 7)
            self.assertEqual(guard.tick(1, by=0), 1)

    def test_an_entry_that_is_longer_than_the_first_buffer(self):
        with self.guard() as guard:
            guard.form(range(6), 0, by=0)
            guard.begin(0, bytes(256), by=0)
            entry = guard.act(0, {"begin": {"payload": bytes(256), "team": 0}})
            self.assertGreater(len(guard.audit().splitlines()[2]), 512)
            self.assertEqual(entry.act["begin"]["payload"], "00" * 256)
        self.assertEqual(faultyard.check(common.SIX, guard.audit()), 3)

    def test_two_guards_have_nothing_in_common(self):
        with self.guard() as one, self.guard() as other:
            one.tick(5, by=0)
            self.assertEqual(other.tick(1, by=0), 1)
            self.assertEqual((one.journal_len(), other.journal_len()), (1, 1))
