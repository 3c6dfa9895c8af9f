"""What hooks have in common, and the protocols by which they ask stores.

Expected are the bytes that the protocols' own documents have.
"""

import json
import os
import pwd
import socket
import struct
import subprocess
import sys
import tempfile
import textwrap
import threading
import unittest
from pathlib import Path
from unittest import mock

import faultyard_hooks as fy
from faultyard_hooks import Refused, answered, keep, paged, wait
from faultyard_hooks.amqp import Amqp
from faultyard_hooks.client import OneOf
from faultyard_hooks.http import Http, base64, plain
from faultyard_hooks.jsonrpc import JsonRpc
from faultyard_hooks.nats import Nats, answers_itself, on_disk, text
from faultyard_hooks.ovsdb import Ovsdb
from faultyard_hooks.piped import Piped
from faultyard_hooks.postgres import Postgres
from faultyard_hooks.resp import Resp
from faultyard_hooks.zookeeper import ZooKeeper, last_synced, mode

HOOKS = """
import faultyard_hooks as fy

def ready(n):
    return n in fy.ABLE

def join(n):
    raise fy.Refused("not now")

def read():
    return f"{fy.folder(1, 'data')} {fy.port(2, 1)} {fy.at(2)} {fy.others(0)} {fy.another(2)}\\n"

def start(n):
    return "sh", "-c", "pwd; exit 7"

def write(key, value):
    if value == "bad":
        raise ConnectionError("it fell")
    return {"no": False, "own": None}.get(value, len(key))

def check(n, key):
    if n == 2:
        raise TimeoutError("it is silent")
    return {"a": "x"}.get(key)

def get(key):
    return check(2 if key == "silent" else 0, key)

def helper(n):
    pass

fy.main("fresh")
"""
# A client of a module, whose faults are none of Python's own.
FOREIGN = """
import faultyard_hooks as fy

class Error(Exception):
    pass

def ask(*words):
    raise Error("no quorum")

fy.says_no(Error)
join = leave = write = check = ask
servers, some, able = fy.clients(lambda address, seconds: type("", (), {"ask": ask}))

def read():
    waited = f"{fy.wait(ask, 0)} {fy.works(fy.answered, ask, -1)}"
    return f"{fy.works(ask)} {waited} {fy.works(some.ask)}"

def start(n):
    raise ValueError("a fault of the hooks")

fy.main()
"""
# A store with one primary, whose positions are in a file, a line for each time that all are asked.
ELECTS = """
import faultyard_hooks as fy

asked = []

def position(n):
    asked.append(n)
    line = fy.text_of(f"{fy.DIR}/positions").splitlines()[asked.count(n) - 1]
    return int(line.split()[n])

elect = fy.electing(position, lambda n: print("promoted", n) or n != 3)

def read():
    servers, some, able = fy.clients(fy.Resp)
    return {"servers": len(servers), "primary": fy.primary()}

fy.main()
"""
# A store that refuses to run as root.
SERVED = """
import faultyard_hooks as fy

def setup():
    for n in range(fy.COUNT):
        fy.run("touch", fy.folder(n, "made"))

def start(n):
    return "sh", "-c", "touch made; echo $PWD $(id -u) $(id -g) $(id -G)"

def whole(n, mark):
    return fy.run("id", "-un") == "nobody\\n"

fy.main(user="nobody")
"""


def address(server):
    return "%s:%d" % server.getsockname()


class Talk:
    """A server that hears what is due on each of its connections, and says what is written here."""

    def __init__(self, case, *connections):
        self._socket = socket.create_server(("127.0.0.1", 0))
        self._heard = []
        self._connections = connections
        self._thread = threading.Thread(target=self._run, daemon=True)
        self._thread.start()
        self._case = case
        case.addCleanup(self._end, case)

    def client(self, kind):
        """A client of this server."""
        made = kind(address(self._socket))
        self._case.addCleanup(made.close)
        return made

    def _run(self):
        for talk in self._connections:
            connection, _ = self._socket.accept()
            with connection:
                for due, said in talk:
                    heard = connection.recv(len(due), socket.MSG_WAITALL)
                    self._heard.append((due, heard))
                    connection.sendall(said)

    def _end(self, case):
        self._thread.join(10)
        self._socket.close()
        for due, heard in self._heard:
            case.assertEqual(heard, due)
        case.assertEqual(len(self._heard), sum(map(len, self._connections)))


class Dispatch(unittest.TestCase):
    def setUp(self):
        folder = tempfile.TemporaryDirectory()
        self.addCleanup(folder.cleanup)
        self.path = Path(folder.name, "hooks.py")
        self.path.write_text(HOOKS)

    def call(self, *words, told="", **variables):
        more = {"FY_DIR": "/run", "FY_PORT": "20000", "FY_COUNT": "3", "FY_ABLE": "0 2"}
        more.update(variables)
        command = [sys.executable, str(self.path), *words]
        ran = subprocess.run(
            command, input=told, env={**os.environ, **more}, capture_output=True, text=True
        )
        return ran.returncode, ran.stdout, ran.stderr

    def test_the_names_of_hooks_are_printed_with_what_is_promised(self):
        told = "start ready join write check get read fresh\n"
        self.assertEqual(self.call("hooks"), (0, told, ""))

    def test_a_hook_says_yes_or_no(self):
        self.assertEqual(self.call("ready", "2"), (0, "", ""))
        self.assertEqual(self.call("ready", "1"), (1, "", ""))

    def test_a_fault_of_the_store_says_no_in_one_line(self):
        self.assertEqual(self.call("join", "1"), (1, "", "Refused: not now\n"))

    def test_a_fault_of_a_module_says_no_once_it_is_named(self):
        self.path.write_text(FOREIGN)
        self.assertEqual(self.call("join", "1"), (1, "", "Error: no quorum\n"))
        self.assertEqual(self.call("write", told="r/1 a\n"), (0, "no\n", "Error: no quorum\n"))
        self.assertEqual(self.call("check", told="0 r/1\n"), (0, "?\n", "Error: no quorum\n"))
        self.assertEqual(self.call("read"), (0, "False False False False", ""))
        self.assertIn("Traceback", self.call("start", "1")[2])

    def test_a_text_is_printed_as_it_is(self):
        told = "/run/1/data 20009 127.0.0.1:20008 [2] 0\n"
        self.assertEqual(self.call("read"), (0, told, ""))

    def test_there_may_be_no_other_process(self):
        status, _, said = self.call("read", FY_ABLE="2")
        self.assertEqual((status, said), (1, "ConnectionError: there is no other process to ask\n"))

    def test_start_becomes_its_command_in_the_folder_of_the_process(self):
        place = self.path.parent.resolve()
        place.joinpath("1").mkdir()
        self.assertEqual(self.call("start", "1", FY_DIR=str(place)), (7, f"{place}/1\n", ""))

    def test_records_are_printed_as_lines(self):
        self.path.write_text(ELECTS)
        self.assertEqual(self.call("read"), (0, "servers 3\nprimary 0\n", ""))

    def test_without_a_hook_ready_the_first_port_is_tried(self):
        self.path.write_text(ELECTS)
        self.assertIn("ready", self.call("hooks")[1].split())
        with socket.create_server(("127.0.0.1", 0)) as server:
            port = server.getsockname()[1]
            self.assertEqual(self.call("ready", "1", FY_PORT=str(port - 4)), (0, "", ""))
        status, told, said = self.call("ready", "1", FY_PORT=str(port - 4))
        self.assertEqual((status, told), (1, ""))
        self.assertIn("ConnectionRefusedError", said)

    def elected(self, positions, able, first="0"):
        self.path.write_text(ELECTS)
        folder = self.path.parent
        Path(folder, "positions").write_text(positions)
        Path(folder, "primary").write_text(first)
        called = self.call("elect", FY_DIR=str(folder), FY_ABLE=able, FY_COUNT="4")
        return called[:2], Path(folder, "primary").read_text()

    def test_the_one_with_most_is_elected_where_the_primary_is_destroyed(self):
        same = "9 4 7 1\n9 4 7 1\n"
        self.assertEqual(self.elected(same, "0 1"), ((0, ""), "0"))
        printed = "promoted 2\nempty 0\nrestart 1\nempty 3\n"
        self.assertEqual(self.elected(same, "1 2"), ((0, printed), "2"))

    def test_none_is_elected_who_is_not_sure(self):
        self.assertEqual(self.elected("9 4 7 1\n9 4 8 1\n", "1 2"), ((1, ""), "0"))
        self.assertEqual(self.elected("0 0 0 1\n0 0 0 1\n", "3"), ((1, "promoted 3\n"), "0"))
        self.assertEqual(self.elected("", ""), ((1, ""), "0"))

    @unittest.skipIf(os.geteuid(), "SKIPPED hooks whose store refuses root: this is not root")
    def test_as_root_commands_run_as_the_user_of_the_store_who_gets_the_folders(self):
        self.path.write_text(SERVED)
        nobody = pwd.getpwnam("nobody")
        run = Path(self.enterContext(tempfile.TemporaryDirectory()))  # which is its owner's alone
        self.assertEqual(self.call("setup", FY_DIR=str(run))[0], 0)
        for n in range(3):
            self.assertEqual(Path(run, str(n), "made").stat().st_uid, nobody.pw_uid)
        Path(run, "1/made").unlink()
        os.chown(Path(run, "1"), 0, 0)
        answer = f"{run}/1 {nobody.pw_uid} {nobody.pw_gid} {nobody.pw_gid}\n"
        self.assertEqual(self.call("start", "1", FY_DIR=str(run)), (0, answer, ""))
        self.assertEqual(Path(run, "1/made").stat().st_uid, nobody.pw_uid)
        self.assertEqual(run.stat().st_mode & 0o777, 0o710)
        self.assertEqual(self.call("whole", "1", "99", FY_DIR=str(run)), (0, "", ""))

    def test_a_hook_that_there_is_not_ends_with_64(self):
        self.assertEqual(self.call("leave", "1")[0], 64)
        self.assertEqual(self.call()[0], 64)

    def test_a_writer_goes_on_after_a_fault(self):
        told = "r/1 good\nr/22 bad\nr/333 good\n"
        status, answers, _ = self.call("write", told=told)
        self.assertEqual((status, answers), (0, "ok 3\nno\nok 5\n"))

    def test_a_writer_that_returns_no_mark_has_the_number_of_the_record(self):
        told = "r/000000041 own\nr/000000042 no\n"
        self.assertEqual(self.call("write", told=told), (0, "ok 41\nno\n", ""))

    def test_a_check_tells_a_value_none_and_a_process_that_was_not_asked(self):
        status, answers, _ = self.call("check", told="0 a\n0 b\n2 a\n0 a\n")
        self.assertEqual((status, answers), (0, "x\nnone\n?\nx\n"))

    def test_a_get_tells_a_value_none_and_what_could_not_be_asked(self):
        status, answers, said = self.call("get", told="a\nb\nsilent\na\n")
        self.assertEqual((status, answers), (0, "x\nnone\n?\nx\n"))
        self.assertEqual(said, "TimeoutError: it is silent\n")


class Helpers(unittest.TestCase):
    def test_a_file_that_is_kept_replaces_the_old_one_whole(self):
        with tempfile.TemporaryDirectory() as folder:
            path = f"{folder}/primary"
            keep(path, "first")
            self.assertEqual(keep(path, "2"), path)
            self.assertEqual(Path(path).read_text(), "2")
            self.assertEqual(os.listdir(folder), ["primary"])
            keep(f"{folder}/a/b", "in a new folder")
            self.assertEqual(os.listdir(f"{folder}/a"), ["b"])

    def test_what_is_made_is_there_whole_or_not_at_all(self):
        with tempfile.TemporaryDirectory() as folder:
            path = f"{folder}/data"

            def half(new):
                os.mkdir(new)
                Path(new, "half").touch()
                raise KeyboardInterrupt

            self.assertRaises(KeyboardInterrupt, fy.made, path, half)
            self.assertFalse(os.path.exists(path))
            self.assertEqual(fy.made(path, os.mkdir), path)
            self.assertEqual((os.listdir(folder), os.listdir(path)), (["data"], []))
            self.assertEqual(fy.made(path, half), path)

    def test_waiting_ends_with_the_answer_or_without(self):
        answers = iter([None, 0, "yes"])
        self.assertEqual(wait(lambda: next(answers)), "yes")
        self.assertIs(wait(lambda: None, 0.0), False)

    def test_asking_ends_with_the_first_answer_or_the_last_fault(self):
        answers = [0, Refused("one"), Refused("two")]

        def ask():
            answer = answers.pop()
            if isinstance(answer, OSError):
                raise answer
            return answer

        self.assertEqual(answered(ask), 0)
        answers[:] = [Refused("last")]
        with self.assertRaisesRegex(Refused, "last"):
            answered(ask, -1.0)

    def test_pages_are_asked_until_one_is_empty(self):
        pages = {"": {"b": "1", "a": "2"}, "b": {"c": "3"}, "c": {}}
        self.assertEqual(paged(pages.__getitem__), {"a": "2", "b": "1", "c": "3"})

    def test_a_call_works_or_not(self):
        self.assertTrue(fy.works(fy.run, "true"))
        self.assertFalse(fy.works(fy.run, "false"))
        self.assertFalse(fy.works(os.remove, "/none"))

    def test_what_there_is_not_is_named(self):
        with self.assertRaisesRegex(AttributeError, "there is no Cassandra"):
            fy.Cassandra

    def test_records_are_found_in_files(self):
        one, other = "r/000000001 0123456789abcdef", "r/000000002 fedcba9876543210"
        with tempfile.TemporaryDirectory(prefix="[a]") as folder:
            Path(folder, "a.log").write_bytes(f"\0{one}\1{one[:-1]}x".encode())
            Path(folder, "b.old").write_text(other)
            found = fy.records_in(folder, "*.log")
            self.assertEqual(found, dict([one.split()]))
            self.assertEqual(
                fy.records_in(folder, "*.old", "*.log"), dict([other.split(), one.split()])
            )
            self.assertEqual(fy.record_in("r/000000001", folder, "*"), "0123456789abcdef")
            self.assertIsNone(fy.record_in("r/000000003", folder, "*"))
            Path(folder, "c").write_text(one.replace("1 ", "3 "))
            self.assertEqual(fy.record_in("r/000000003", folder, "*"), "0123456789abcdef")
        asked = []

        def told(number):
            asked.append(number)
            return {"r/000000001": f"{number}"}

        for number in (3, 3, 4):
            self.assertEqual(fy.record_in("r/000000001", told, number), f"{number}")
            self.assertIsNone(fy.record_in("r/000000002", told, number))
        self.assertEqual(asked, [3, 3, 3, 4, 4], "what isn't found is looked for again")

    def test_waiting_goes_on_after_a_fault(self):
        def ask():
            if not failed:
                failed.append(True)
                raise ConnectionRefusedError
            return 7

        failed = []
        self.assertEqual(wait(ask), 7)


PING, PONG = b"*1\r\n$4\r\nPING\r\n", b"+PONG\r\n"


def answer(connection, _):
    """Says what it is asked to on a connection, once it is asked."""
    with connection:
        if connection.recv(len(PING), socket.MSG_WAITALL) == PING:
            connection.sendall(PONG)


class Clients(unittest.TestCase):
    def test_a_connection_is_kept(self):
        client = Talk(self, [(PING, PONG), (PING, PONG)]).client(Resp)
        self.assertEqual([client.ask("PING"), client.ask("PING")], ["PONG", "PONG"])

    def test_a_connection_is_made_again_after_a_fault(self):
        client = Talk(self, [(PING, b"")], [(PING, PONG)]).client(Resp)
        with self.assertRaises(OSError):
            client.ask("PING")
        self.assertEqual(client.ask("PING"), "PONG")

    def test_a_unix_socket_is_asked_by_its_path(self):
        folder = self.enterContext(tempfile.TemporaryDirectory())
        with socket.socket(socket.AF_UNIX) as server:
            server.bind(f"{folder}/control")
            client = Resp(f"{folder}/control", 0.1)
            self.addCleanup(client.close)
            with self.assertRaises(ConnectionRefusedError):
                client.ask("PING")
            server.listen()
            with self.assertRaises(socket.timeout):
                client.ask("PING")
            server.accept()[0].close()
            asked = threading.Thread(target=lambda: answer(*server.accept()))
            asked.start()
            self.assertEqual(client.ask("PING"), "PONG")
            asked.join(10)

    def test_silence_is_a_fault(self):
        with socket.create_server(("127.0.0.1", 0)) as silent, self.assertRaises(socket.timeout):
            Resp(address(silent), 0.1).ask("PING")

    def test_one_of_several_is_asked_until_it_fails(self):
        talk = Talk(self, [(PING, PONG), (PING, b"-ERR no\r\n")], [(PING, PONG)])
        one = OneOf([talk.client(Resp)])
        self.assertEqual(one.ask("PING"), "PONG")
        with self.assertRaises(Refused):
            one.ask("PING")
        self.assertEqual(one.ask("PING"), "PONG")

    def test_any_call_of_a_client_is_one_of_several(self):
        class Queue(Resp):
            def added(self, text, times=1):
                return [self.ask(text) for _ in range(times)]

        talk = Talk(self, [(PING, PONG), (PING, PONG), (PING, b"")], [(PING, PONG)])
        one = OneOf([talk.client(Queue)])
        self.assertEqual(one.added("PING", times=2), ["PONG", "PONG"])
        with self.assertRaises(ConnectionError):
            one.added("PING")
        self.assertEqual(one.added("PING"), ["PONG"])
        with self.assertRaises(AttributeError):
            one.removed("PING")

    def test_where_there_is_none_to_ask_it_is_a_fault(self):
        for call in (OneOf([]).ask, OneOf([]).added):
            with self.assertRaises(OSError):
                call("PING")


class Shell(Piped):
    """A shell is a client whose questions are commands."""

    last, end = "echo END", "END"

    def command(self, host, port):
        return "env", f"host={host}", f"port={port}", "sh"


class Commands(unittest.TestCase):
    def client(self, seconds=5):
        made = Shell("db:7", seconds)
        self.addCleanup(made.close)
        return made

    def test_a_command_is_kept_running(self):
        client = self.client()
        self.assertEqual(client.ask("a=1; echo $host; echo $port"), ["db", "7"])
        self.assertEqual(client.ask("echo $a"), ["1"])
        self.assertEqual(client.ask(":"), [])

    def test_a_command_that_ends_is_a_fault_and_is_started_again(self):
        client = self.client()
        with self.assertRaises(ConnectionError):
            client.ask("a=1; echo half; exit 1")
        self.assertEqual(client.ask("echo a is $a"), ["a is"])

    def test_silence_of_a_command_is_a_fault(self):
        client = self.client(0.2)
        with self.assertRaises(socket.timeout):
            client.ask("exec sleep 30")
        self.assertIsNone(client._process)


class RespAnswers(unittest.TestCase):
    def asked(self, answer, *words):
        command = b"*%d\r\n" % len(words)
        command += b"".join(b"$%d\r\n%b\r\n" % (len(it), it.encode()) for it in words)
        return Talk(self, [(command, answer)]).client(Resp).ask(*words)

    def test_each_kind_of_answer_is_read(self):
        self.assertEqual(self.asked(b":1000\r\n", "HLEN", "r"), 1000)
        self.assertEqual(self.asked(b"$5\r\nhe\r\no\r\n", "HGET", "r", "k"), "he\r\no")
        self.assertIsNone(self.asked(b"$-1\r\n", "HGET", "r", "k"))
        self.assertEqual(self.asked(b"*2\r\n$1\r\na\r\n:3\r\n", "HGETALL", "r"), ["a", 3])

    def test_an_error_is_refused_with_its_text(self):
        with self.assertRaisesRegex(Refused, "LOADING it loads"):
            self.asked(b"-LOADING it loads\r\n", "HLEN", "r")

    def test_a_transaction_answers_for_each_command(self):
        sent = b"*1\r\n$5\r\nMULTI\r\n*2\r\n$4\r\nHLEN\r\n$1\r\nr\r\n*1\r\n$4\r\nEXEC\r\n"
        said = b"+OK\r\n+QUEUED\r\n*1\r\n:4\r\n"
        self.assertEqual(Talk(self, [(sent, said)]).client(Resp).at_once(("HLEN", "r")), [4])
        said = b"+OK\r\n+QUEUED\r\n*-1\r\n"
        with self.assertRaises(Refused):
            Talk(self, [(sent, said)]).client(Resp).at_once(("HLEN", "r"))


class HttpAnswers(unittest.TestCase):
    SENT = (
        b"POST /put HTTP/1.1\r\nHost: 127.0.0.1\r\nContent-Type: application/json\r\n"
        b'Content-Length: 8\r\n\r\n{"a": 1}'
    )

    def asked(self, *answers):
        client = Talk(self, [(self.SENT, answer) for answer in answers]).client(Http)
        return [client.ask("/put", {"a": 1}) for _ in answers]

    def test_an_answer_has_its_length_or_comes_in_chunks(self):
        sized = b'HTTP/1.1 200 OK\r\nContent-Length: 7\r\n\r\n{"b":2}'
        head = b"HTTP/1.1 200 OK\r\nTransfer-Encoding: chunked\r\n\r\n"
        chunked = head + b'3\r\n{"b\r\n4;x=y\r\n":3}\r\n0\r\n\r\n'
        self.assertEqual(self.asked(sized, chunked, sized), [{"b": 2}, {"b": 3}, {"b": 2}])

    def told(self, sent, said, *asked):
        """What comes of an answer to a question that is sent so."""
        head = b" HTTP/1.1\r\nHost: 127.0.0.1\r\nContent-Type: application/json\r\nContent-Length: "
        line, _, body = sent.partition(b"\r\n")
        talk = [(line + head + b"%d\r\n\r\n" % len(body) + body, b"HTTP/1.1 " + said)]
        return Talk(self, talk).client(Http).ask(*asked)

    def test_a_method_may_be_named_and_a_text_is_sent_as_it_is(self):
        done = b"200 OK\r\nContent-Type: application/json\r\nContent-Length: 4\r\n\r\ntrue"
        self.assertIs(self.told(b"PUT /kv/a\r\n12", done, "PUT /kv/a", "12"), True)
        gone = b"204 No Content\r\n\r\n"
        self.assertEqual(self.told(b"DELETE /kv/a\r\n", gone, "DELETE /kv/a"), "")

    def test_a_text_is_a_text_though_it_looks_like_a_number(self):
        said = b"200 OK\r\nContent-Type: text/plain\r\nContent-Length: 3\r\n\r\n1e2"
        self.assertEqual(self.told(b"GET /kv/a\r\n", said, "/kv/a"), "1e2")

    def test_nothing_is_found_where_a_get_has_none(self):
        none = b"404 Not Found\r\nContent-Length: 0\r\n\r\n"
        self.assertIsNone(self.told(b"GET /kv/a\r\n", none, "/kv/a"))
        with self.assertRaisesRegex(Refused, "404"):
            self.told(b"DELETE /kv/a\r\n", none, "DELETE /kv/a")

    def test_a_connection_that_the_server_closes_is_made_again(self):
        said = b"HTTP/1.1 200 OK\r\nConnection: close\r\nContent-Length: 2\r\n\r\n{}"
        client = Talk(self, [(self.SENT, said)], [(self.SENT, said)]).client(Http)
        self.assertEqual([client.ask("/put", {"a": 1}) for _ in range(2)], [{}, {}])

    def test_texts_in_base64(self):
        self.assertEqual((base64("r/1"), plain("ci8x")), ("ci8x", "r/1"))

    def test_a_refusal_has_its_status_and_text(self):
        with self.assertRaisesRegex(Refused, "503 no leader"):
            self.asked(b"HTTP/1.1 503 Unavailable\r\nContent-Length: 9\r\n\r\nno leader")


class JsonRpcAnswers(unittest.TestCase):
    SENT = b'{"method": "transact", "params": ["R", {"op": "select"}], "id": 0}'

    def asked(self, *answers):
        client = Talk(self, [(self.SENT, answer) for answer in answers]).client(JsonRpc)
        return [client.ask("transact", "R", {"op": "select"}) for _ in answers]

    def test_an_answer_ends_with_its_own_brace_and_not_with_one_in_a_text(self):
        one = b'{"id":0,"result":[{"rows":[]},{}],"error":null}'
        two = rb'{"id":0,"result":"a \"{\\","error":null}'
        rows = [{"rows": []}, {}]
        self.assertEqual(self.asked(one, two, one), [rows, 'a "{\\', rows])

    def test_what_the_store_asks_is_passed_over(self):
        echo = b'{"method":"echo","params":[],"id":"echo"}'
        answer = b'{"id":0,"result":[],"error":null}'
        self.assertEqual(self.asked(echo + b"\n" + answer, answer + b"\n"), [[], []])

    def test_an_error_is_refused_with_its_text(self):
        with self.assertRaisesRegex(Refused, "transact: .*unknown database"):
            self.asked(b'{"id":0,"result":null,"error":{"error":"unknown database"}}')

    def test_an_operation_of_ovsdb_that_fails_is_refused(self):
        fault = b'{"error":"constraint violation","details":"it is there"}'
        for result in (b"[{}," + fault + b"]", b"[{},null," + fault + b"]"):
            answer = b'{"id":0,"result":' + result + b',"error":null}'
            with self.assertRaisesRegex(Refused, "it is there"):
                Talk(self, [(self.SENT, answer)]).client(Ovsdb).ask("R", {"op": "select"})
        answer = b'{"id":0,"result":[{"rows":[]},null],"error":null}'
        client = Talk(self, [(self.SENT, answer)]).client(Ovsdb)
        self.assertEqual(client.ask("R", {"op": "select"}), [{"rows": []}, None])


def message(kind, body):
    """A message of PostgreSQL's protocol: a letter, and a size that counts itself."""
    return kind + struct.pack(">i", len(body) + 4) + body


HELLO = struct.pack(">ii", 41, 196608) + b"user\0postgres\0database\0postgres\0\0"
WELCOME = message(b"R", bytes(4)) + message(b"S", b"a\0b\0") + message(b"Z", b"I")
DONE = message(b"C", b"SELECT 1\0") + message(b"Z", b"I")


class PostgresAnswers(unittest.TestCase):
    def asked(self, answer):
        talk = Talk(self, [(HELLO, WELCOME), (message(b"Q", b"SELECT 1\0"), answer)])
        return talk.client(Postgres).ask("SELECT 1")

    def test_rows_have_texts_and_nulls(self):
        row = message(b"D", struct.pack(">hi1sii2s", 3, 1, b"x", -1, 2, b"yz"))
        self.assertEqual(self.asked(message(b"T", b"\0\0") + row + DONE), [["x", None, "yz"]])

    def test_an_error_and_a_warning_are_refused(self):
        fault = b"SERROR\0VERROR\0Mit is full\0\0"
        with self.assertRaisesRegex(Refused, "ERROR: it is full"):
            self.asked(message(b"E", fault) + message(b"Z", b"I"))
        warning = b"SWARNUNG\0VWARNING\0Mno standby has it\0\0"
        with self.assertRaisesRegex(Refused, "no standby has it"):
            self.asked(message(b"N", warning) + DONE)

    def value(self, kind, *texts):
        """The value of answers whose one column has a type, by the number that PostgreSQL has."""
        column = b"c\0" + struct.pack(">ihihih", 0, 0, kind, 8, -1, 0)
        row = [message(b"D", struct.pack(">hi", 1, len(it)) + it) for it in texts]
        rows = message(b"T", struct.pack(">h", 1) + column) + b"".join(row)
        talk = [(HELLO, WELCOME), (message(b"Q", b"SELECT 1\0"), rows + DONE)]
        return Talk(self, talk).client(Postgres).value("SELECT 1")

    def test_a_value_has_its_type(self):
        self.assertIs(self.value(16, b"t"), True)
        self.assertIs(self.value(16, b"f"), False)
        self.assertEqual(self.value(20, b"-12"), -12)
        self.assertEqual(self.value(1700, b"90000000000000000001"), 90000000000000000001)
        self.assertEqual(self.value(1700, b"0.5"), 0.5)
        self.assertEqual(self.value(25, b"12"), "12")

    def test_where_there_is_no_value_it_is_a_fault(self):
        with self.assertRaisesRegex(Refused, "SELECT 1"):
            self.value(16)
        null = message(b"D", struct.pack(">hi", 1, -1))
        talk = [(HELLO, WELCOME), (message(b"Q", b"SELECT 1\0"), null + DONE)]
        with self.assertRaises(Refused):
            Talk(self, talk).client(Postgres).value("SELECT 1")

    def test_a_notice_is_no_fault(self):
        self.assertEqual(self.asked(message(b"N", b"SNOTICE\0VNOTICE\0Mby the way\0\0") + DONE), [])


def frame(data):
    return struct.pack(">i", len(data)) + data


SESSION = frame(struct.pack(">iqiqi", 0, 0, 30000, 0, 16) + bytes(16))
BEGUN = frame(struct.pack(">iiqi", 0, 10000, 5, 16) + bytes(16))


class ZooKeeperAnswers(unittest.TestCase):
    def test_a_node_is_created_read_and_missed(self):
        anyone = frame(b"world") + frame(b"anyone")
        create = struct.pack(">ii", 1, 1) + frame(b"/a") + frame(b"v")
        create = frame(create + struct.pack(">ii", 1, 31) + anyone + bytes(4))
        created = frame(struct.pack(">iqi", 1, 70, 0) + frame(b"/a"))
        gets = [frame(struct.pack(">ii", 2, 4) + frame(b"/a") + b"\0")]
        gets += [frame(struct.pack(">ii", 3, 4) + frame(b"/b") + b"\0")]
        got = frame(struct.pack(">iqi", 2, 70, 0) + frame(b"v") + bytes(68))
        none = frame(struct.pack(">iqi", 3, 71, -101))
        watch = frame(struct.pack(">iqi", -1, -1, 0) + b"event")
        talk = [(SESSION, BEGUN), (create, created), (b"".join(gets), watch + got + none)]
        client = Talk(self, talk).client(ZooKeeper)
        self.assertTrue(client.create("/a", "v"))
        self.assertEqual(client.zxid, 70)
        self.assertEqual(client.values(["/a", "/b"]), {"/a": "v"})
        self.assertEqual(client.zxid, 71)

    def creates(self, number, path, answer):
        """A node is asked for, and created by a transaction or not."""
        anyone = struct.pack(">ii", 1, 31) + frame(b"world") + frame(b"anyone") + bytes(4)
        value = b"v" if path == b"/r/1" else b""
        asked = frame(struct.pack(">ii", number, 1) + frame(path) + frame(value) + anyone)
        zxid, fault = answer
        told = struct.pack(">iqi", number, zxid, fault) + (b"" if fault else frame(path))
        return asked, frame(told)

    def test_a_node_is_added_with_its_parent(self):
        talk = [
            (SESSION, BEGUN),
            self.creates(1, b"/r/1", (70, -101)),
            self.creates(2, b"/r", (71, 0)),
            self.creates(3, b"/r/1", (72, 0)),
        ]
        self.assertEqual(Talk(self, talk).client(ZooKeeper).add("/r/1", "v"), 72)
        talk = [(SESSION, BEGUN), self.creates(1, b"/r/1", (73, 0))]
        self.assertEqual(Talk(self, talk).client(ZooKeeper).add("/r/1", "v"), 73)

    def test_a_node_that_is_there_is_not_added(self):
        calls = [(b"/r/1", (70, -110)), (b"/r", (70, -110)), (b"/r/1", (70, -110))]
        talk = [self.creates(number, *it) for number, it in enumerate(calls, 1)]
        with self.assertRaisesRegex(Refused, "/r/1 is there already"):
            Talk(self, [(SESSION, BEGUN), *talk]).client(ZooKeeper).add("/r/1", "v")

    def test_a_node_that_is_there_is_put_otherwise(self):
        asked = frame(struct.pack(">ii", 2, 5) + frame(b"/r/1") + frame(b"v") + b"\xff" * 4)
        told = frame(struct.pack(">iqi", 2, 71, 0) + bytes(68))
        talk = [(SESSION, BEGUN), self.creates(1, b"/r/1", (70, -110)), (asked, told)]
        self.assertEqual(Talk(self, talk).client(ZooKeeper).put("/r/1", "v"), 71)
        talk = [(SESSION, BEGUN), self.creates(1, b"/r/1", (72, 0))]
        self.assertEqual(Talk(self, talk).client(ZooKeeper).put("/r/1", "v"), 72)
        gone = frame(struct.pack(">iqi", 2, 73, -101))
        talk = [(SESSION, BEGUN), self.creates(1, b"/r/1", (72, -101)), (asked, gone)]
        talk += [self.creates(3, b"/r/1", (74, 0))]
        self.assertEqual(Talk(self, talk).client(ZooKeeper).put("/r/1", "v"), 74)

    def test_records_are_the_values_below_a_path(self):
        children = frame(struct.pack(">ii", 1, 8) + frame(b"/r") + b"\0")
        names = frame(struct.pack(">iqii", 1, 70, 0, 2) + frame(b"2") + frame(b"1"))
        gets = b"".join(
            frame(struct.pack(">ii", number, 4) + frame(path) + b"\0")
            for number, path in ((2, b"/r/1"), (3, b"/r/2"))
        )
        values = frame(struct.pack(">iqi", 2, 70, 0) + frame(b"a") + bytes(68))
        values += frame(struct.pack(">iqi", 3, 70, 0) + frame(b"b") + bytes(68))
        client = Talk(self, [(SESSION, BEGUN), (children, names), (gets, values)]).client(ZooKeeper)
        self.assertEqual(client.records("/r"), {"r/1": "a", "r/2": "b"})

    def test_servers_are_those_that_the_leader_has(self):
        lines = b"server.1=a:1:2:participant;a:3\nserver.2=b:1:2:observer;b:3\nversion=7"
        synced = frame(struct.pack(">ii", 1, 9) + frame(b"/"))
        get = frame(struct.pack(">ii", 2, 4) + frame(b"/zookeeper/config") + b"\0")
        talk = [
            (SESSION, BEGUN),
            (synced, frame(struct.pack(">iqi", 1, 70, 0) + frame(b"/"))),
            (get, frame(struct.pack(">iqi", 2, 70, 0) + frame(lines) + bytes(68))),
        ]
        one, two, _ = lines.decode().splitlines()
        self.assertEqual(Talk(self, talk).client(ZooKeeper).servers(), {"1": one, "2": two})

    def test_the_mode_of_a_server_is_told_once_it_serves(self):
        told = b"Zookeeper version: 3.8.0\nMode: follower\nNode count: 5\n"
        no = b"This ZooKeeper instance is not currently serving requests\n"
        server = Talk(self, [(b"srvr", told)], [(b"srvr", no)])
        self.assertEqual(mode(address(server._socket)), "follower")
        with self.assertRaisesRegex(Refused, "^This ZooKeeper instance is not currently serving"):
            mode(address(server._socket))

    def test_another_fault_is_refused(self):
        get = frame(struct.pack(">ii", 1, 4) + frame(b"/a") + b"\0")
        talk = [(SESSION, BEGUN), (get, frame(struct.pack(">iqi", 1, 70, -4)))]
        with self.assertRaisesRegex(Refused, "-4"):
            Talk(self, talk).client(ZooKeeper).values(["/a"])

    def test_the_last_synced_transaction_is_that_of_the_last_whole_entry(self):
        def entry(zxid):
            data = struct.pack(">qiqqi", 1, 2, zxid, 3, 4)
            return bytes(8) + frame(data) + b"B"

        with tempfile.TemporaryDirectory() as folder:
            self.assertEqual(last_synced(folder), 0)
            logs = Path(folder, "version-2")
            logs.mkdir()
            Path(logs, "acceptedEpoch").write_text("1")
            Path(logs, "snapshot.1f").write_bytes(b"")
            self.assertEqual(last_synced(folder), 0x1F)
            log = Path(logs, "log.20")
            log.write_bytes(bytes(16) + entry(0x20) + entry(0x21) + bytes(64))
            self.assertEqual(last_synced(folder), 0x21)
            log.write_bytes(bytes(16) + entry(0x20) + entry(0x21)[:-1])
            self.assertEqual(last_synced(folder), 0x20)


def method(channel, number, words):
    data = struct.pack(">HH", *number) + words
    return struct.pack(">BHI", 1, channel, len(data)) + data + b"\xce"


def told(data):
    """A message of NATS, as a server hands it to a subscriber."""
    return b"MSG in.x 1 %d\r\n%s\r\n" % (len(data), data)


class NatsAnswers(unittest.TestCase):
    """Each question goes to an inbox that the client chose."""

    def asked(self, *said):
        """What a client of a server is told that says these, one after the other."""
        with socket.create_server(("127.0.0.1", 0)) as server:
            told = b"".join(said)
            thread = threading.Thread(target=self.serve, args=(server, told), daemon=True)
            thread.start()
            client = Nats(address(server), 5)
            try:
                return client.ask(("r.k", "v"), ("$JS.API", {"seq": 7}))
            finally:
                client.close()
                thread.join(5)

    def serve(self, server, told):
        connection, _ = server.accept()
        with connection, connection.makefile("rb") as lines:
            connection.sendall(b"INFO {}\r\n" + told)
            self.heard = lines.readlines()

    def test_answers_come_in_the_order_of_the_questions(self):
        stored, found = told(b'{"seq":17}'), told(b'{"message":{"seq":7,"data":"dg"}}')
        answers = self.asked(stored, b"PING\r\n", found)
        self.assertEqual(answers, [{"seq": 17}, {"seq": 7, "data": "dg"}])
        login, subscribed, *rest = self.heard
        self.assertTrue(login.startswith(b"CONNECT {"))
        inbox = subscribed.split()[1]
        self.assertEqual(rest[:2], [b"PUB r.k %s 1\r\n" % inbox, b"v\r\n"])
        self.assertEqual(rest[2:4], [b"PUB $JS.API %s 10\r\n" % inbox, b'{"seq": 7}\r\n'])
        self.assertEqual(rest[4:], [b"PONG\r\n"])

    def test_a_message_that_is_not_there_is_none_and_other_errors_refuse(self):
        none = told(b'{"error":{"code":404,"err_code":10037,"description":"no message found"}}')
        self.assertEqual(self.asked(none, none), [None, None])
        with self.assertRaisesRegex(Refused, "no leader"):
            self.asked(told(b'{"error":{"code":503,"err_code":10008,"description":"no leader"}}'))
        with self.assertRaisesRegex(Refused, "503"):
            self.asked(b"HMSG in.x 1 16 16\r\nNATS/1.0 503\r\n\r\n\r\n")

    def test_a_text_is_in_base64(self):
        self.assertEqual(text({"data": "dg=="}), "v")

    def test_a_server_tells_what_it_has_itself(self):
        """By a head and the text; a server that has none says so by the head's status."""
        head = b"NATS/1.0\r\nNats-Stream: R\r\nNats-Sequence: 4\r\n\r\n"
        found = b"HMSG in.x 1 %d %d\r\n%sv3\r\n" % (len(head), len(head) + 2, head)
        none = b"NATS/1.0 404 Message Not Found\r\n\r\n"
        lacks = b"HMSG in.x 1 %d %d\r\n%s\r\n" % (len(none), len(none), none)
        self.assertEqual(self.asked(found, lacks), [{"text": "v3"}, None])

    def test_a_server_that_does_not_listen_is_told_by_its_own_subscriptions(self):
        """Those of others, who would answer in its place, aren't among them."""
        listed = {"subject": "$JS.API.DIRECT.GET.R", "qgroup": "_sys_", "cid": 14}
        for subscriptions, says in (([listed], True), ([], False), (None, False)):
            its = {} if subscriptions is None else {"subscriptions_list": subscriptions}
            with mock.patch("faultyard_hooks.http.Http.ask", return_value=its) as asked:
                self.assertEqual(answers_itself("h0:8222", "U", "R"), says)
            asked.assert_called_once_with("/subsz?subs=1&acc=U&test=$JS.API.DIRECT.GET.R")

    def test_the_files_of_a_stream_have_its_messages(self):
        def entry(number, subject, value):
            size = 30 + len(subject) + len(value)
            head = struct.pack("<IQqH", size, number, 1, len(subject))
            return head + subject + value + bytes(8)

        with tempfile.TemporaryDirectory() as folder:
            self.assertEqual(on_disk(folder), {})
            Path(folder, "msgs").mkdir()
            Path(folder, "msgs/1.blk").write_bytes(entry(1, b"r.a", b"x") + entry(2, b"r.b", b"yz"))
            torn = entry(4, b"r.d", b"v")[:-1]
            Path(folder, "msgs/2.blk").write_bytes(entry(3, b"r.c", b"w") + torn)
            self.assertEqual(on_disk(folder), {1: ("a", "x"), 2: ("b", "yz"), 3: ("c", "w")})


class AmqpAnswers(unittest.TestCase):
    def client(self, *talk):
        """One that has logged in to a server that goes on so."""
        return Talk(self, [*self.login(), *talk]).client(Amqp)

    def login(self):
        login = bytes(4) + b"\x05PLAIN" + frame(b"\0guest\0guest") + b"\x05en_US"
        begun = [
            (b"AMQP\0\0\x09\x01", method(0, (10, 10), b"..")),
            (method(0, (10, 11), login), method(0, (10, 30), b"..")),
            (method(0, (10, 31), struct.pack(">HIH", 1, 131072, 0)), b""),
            (method(0, (10, 40), b"\1/\0\0"), method(0, (10, 41), b"\0")),
            (method(1, (20, 10), b"\0"), method(1, (20, 11), bytes(4))),
            (method(1, (85, 10), b"\0"), method(1, (85, 11), b"")),
        ]
        return begun

    def asked(self, answer):
        content = struct.pack(">HHQHB", 60, 0, 2, 4096, 2)
        publish = method(1, (60, 40), b"\0\0\0\1q\1") + b"\2\0\1" + frame(content) + b"\xce"
        self.client((publish + b"\3\0\1" + frame(b"hi") + b"\xce", answer)).publish("q", "hi")

    COUNTS = method(1, (50, 10), b"\0\0\1q\3" + bytes(4))  # passive and durable

    def messages(self, *told, consumers=0):
        """What a queue tells of which these are delivered, and then the last one."""
        last = b"last 61" + b"61" * 7

        def delivered(text):
            head = struct.pack(">HHQH", 60, 0, len(text), 0)
            words = method(1, (60, 60), b"\1c" + bytes(9) + b"\0\1q")
            return words + b"\2\0\1" + frame(head) + b"\xce\3\0\1" + frame(text) + b"\xce"

        head = struct.pack(">HHQHB", 60, 0, len(last), 4096, 2)
        publish = method(1, (60, 40), b"\0\0\0\1q\1") + b"\2\0\1" + frame(head) + b"\xce"
        publish += b"\3\0\1" + frame(last) + b"\xce"
        counted = method(1, (50, 11), b"\1q" + struct.pack(">II", 9, consumers))
        talk = [(publish, method(1, (60, 80), struct.pack(">QB", 1, 0))), (self.COUNTS, counted)]
        if not consumers:
            qos = method(1, (60, 10), struct.pack(">IHB", 0, 65535, 0))
            consume = method(1, (60, 20), b"\0\0\1q\0\0" + bytes(4))
            said = method(1, (60, 21), b"\1c") + b"".join(map(delivered, (*told, last)))
            talk += [(qos, method(1, (60, 11), b"")), (consume, said)]
        with mock.patch("os.urandom", lambda count: b"a" * count):
            return self.client(*talk).messages("q")

    def test_all_messages_are_told_up_to_one_that_is_published_last(self):
        self.assertEqual(self.messages(b"hi", b"there"), ["hi", "there"])
        self.assertEqual(self.messages(), [])

    def test_a_queue_of_which_another_has_messages_is_not_read(self):
        with self.assertRaisesRegex(Refused, "messages out"):
            self.messages(consumers=1)

    def test_a_publish_ends_once_it_is_confirmed(self):
        heartbeat = b"\x08\0\0" + bytes(4) + b"\xce"
        self.asked(heartbeat + method(1, (60, 80), struct.pack(">QB", 1, 0)))

    def test_a_queue_that_is_missing_is_declared_and_the_message_refused(self):
        content = frame(struct.pack(">HHQHB", 60, 0, 2, 4096, 2)) + b"\xce"
        publish = method(1, (60, 40), b"\0\0\0\1q\1") + b"\2\0\1" + content
        publish += b"\3\0\1" + frame(b"hi") + b"\xce"
        returned = method(1, (60, 50), b"\x01\x38\x08NO_ROUTE\0\1q")
        table = frame(b"\x06x-typeS" + frame(b"quorum") + b"\x06x-sizeI" + struct.pack(">i", 3))
        declare = method(1, (50, 10), b"\0\0\1q\2" + table)
        declared = method(1, (50, 11), b"\1q" + bytes(8))
        first, second = [*self.login(), (publish, returned)], [*self.login(), (declare, declared)]
        with self.assertRaisesRegex(Refused, "NO_ROUTE"):
            Talk(self, first, second).client(Amqp).publish("q", "hi", x_type="quorum", x_size=3)

    def test_a_publish_that_is_refused_or_returned_is_no_write(self):
        with self.assertRaises(Refused):
            self.asked(method(1, (60, 120), struct.pack(">QB", 1, 0)))
        with self.assertRaisesRegex(Refused, "NO_ROUTE"):
            self.asked(method(1, (60, 50), b"\x01\x38\x08NO_ROUTE\0\1q"))


# What stands in for the programs of Erlang: it tells its words, its input and where epmd is.
ERL_CALL = """#!/bin/sh
echo "$0 $*" >> heard
read -r code
echo "$code epmd at $ERL_EPMD_PORT" >> heard
echo "$TOLD"
exit "$STATUS"
"""
ASKS = """
import faultyard_hooks as fy
from faultyard_hooks.erlang import evaluated, node, options, setup

def start(n):
    return "echo", node(n), options(n)

def read():
    return evaluated(1, "1 + 1")

fy.main()
"""


class ErlangNodes(unittest.TestCase):
    def call(self, *words, told="", status="0"):
        """A hook of a store in Erlang, which is in a folder of its own."""
        folder = Path(self.enterContext(tempfile.TemporaryDirectory()))
        for name in ("erl_call", "epmd"):
            Path(folder, name).write_text(ERL_CALL)
            Path(folder, name).chmod(0o755)
        Path(folder, "hooks.py").write_text(ASKS)
        Path(folder, "1").mkdir()
        env = {"FY_DIR": str(folder), "FY_PORT": "20000", "FY_COUNT": "2", "FY_NAMES": "a b"}
        env |= {"FY_HOSTS": "10.0.0.1 10.0.0.2", "TOLD": told, "STATUS": status}
        env["PATH"] = f"{folder}:{os.environ['PATH']}"
        ran = subprocess.run(
            [sys.executable, "hooks.py", *words],
            env=os.environ | env,
            cwd=folder,
            capture_output=True,
            text=True,
            stdin=subprocess.DEVNULL,
        )
        heard = Path(folder, "heard")
        lines = heard.read_text().replace(f"{folder}/", "").splitlines() if heard.exists() else []
        return ran.returncode, ran.stdout, ran.stderr, lines

    def test_a_node_has_a_name_a_cookie_and_its_host_alone(self):
        options = "-setcookie faultyard -kernel inet_dist_use_interface {10,0,0,2}"
        self.assertEqual(self.call("start", "1"), (0, f"b@10.0.0.2 {options}\n", "", []))

    def test_what_expressions_come_to_is_told(self):
        status, told, said, heard = self.call("read", told="{ok, {[a, 1], <<>>}}")
        self.assertEqual((status, told, said), (0, "{[a, 1], <<>>}", ""))
        self.assertRegex(heard[0], r"^erl_call -h c\d+ -name b@10\.0\.0\.2 -c faultyard -e$")
        self.assertEqual(heard[1:], ["1 + 1. epmd at 20003"])
        again = self.call("read", told="{ok, 1}")[3]
        self.assertNotEqual(again[0], heard[0], "who asks has a name of its own")

    def test_an_expression_that_fails_is_refused(self):
        why = '{{badmatch,false},\\\\n  [{erl_eval,expr}]}}"}'
        fault = f"{{error, \"*** eval: {{'EXIT',\\\\n   {why}"
        status, _, said, _ = self.call("read", told=fault)
        told = 'Refused: {{badmatch,false}, [{erl_eval,expr}]}}"}: 1 + 1\n'
        self.assertEqual((status, said), (1, told))
        self.assertEqual(self.call("read", told="{error, x}")[2], "Refused: {error, x}: 1 + 1\n")
        long = self.call("read", told=f"{{error, {'x' * 99}}}")[2]
        self.assertEqual(long, f"Refused: {{error, {'x' * 62} ..: 1 + 1\n")

    def test_a_node_that_does_not_answer_is_named(self):
        status, _, said, _ = self.call("read", told="", status="1")
        why = "b@10.0.0.2 doesn't answer: erl_call ended with status 1"
        self.assertEqual((status, said), (1, f"Refused: {why}\n"))

    def test_a_node_is_asked_for_what_is_new_as_long_as_it_lives(self):
        """A second life begins with what it has then, of which the first may have had more."""
        env = {"FY_HOSTS": "h0", "FY_NAMES": "a", "FY_COUNT": "1", "FY_PORT": "20000"}
        script = """
            from faultyard_hooks import erlang
            told, asked = __import__("json").loads(input()), []

            def evaluated(n, code):
                asked.append(code.partition("Index > ")[2].partition("]")[0])
                return told.pop(0)

            erlang.evaluated = evaluated
            for _ in range(4):
                print(erlang.held(0, "q"), asked)
        """
        one, two, three = (f'"r/00000000{n} {n:016x}"' for n in (1, 2, 3))
        told = [f"{{5, 8, [{one}, {two}]}}", "{5, 0, []}", f"{{5, 9, [{three}]}}"]
        told += ["{6, 9, []}", f"{{6, 9, [{one}, {three}]}}"]
        words = [sys.executable, "-c", textwrap.dedent(script)]
        more = {"env": os.environ | env, "text": True, "input": json.dumps(told)}
        ran = subprocess.run(words, stdout=subprocess.PIPE, check=True, **more)
        has = {n: (f"r/00000000{n}", f"{n:016x}") for n in (1, 2, 3)}
        wanted = [
            ((1, 2), ["0"]),
            ((1, 2), ["0", "8"]),
            ((1, 2, 3), ["0", "8", "8"]),
            ((1, 3), ["0", "8", "8", "9", "0"]),
        ]
        lines = [f"{dict(has[n] for n in those)} {asked}" for those, asked in wanted]
        self.assertEqual(ran.stdout.splitlines(), lines)

    def test_the_daemon_is_started_before_any_node(self):
        self.assertIn("setup", self.call("hooks")[1].split())
        status, _, said, heard = self.call("setup")
        self.assertEqual((status, said), (0, ""))
        self.assertEqual(heard, ["epmd -daemon -address 127.0.0.1", " epmd at 20003"])


if __name__ == "__main__":
    unittest.main()
