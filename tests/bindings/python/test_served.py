"""A guard that is served: it asks a server whatever it is asked, again where that is killed, and by
the token of the actor. The server here is a stand-in, which has the program answer each line behind
its journal, and which others may ask too; that of tests/serve is the one that ships."""

import http.server
import io
import json
import socketserver
import subprocess
import threading
import unittest
from pathlib import Path
from urllib.parse import parse_qs, urlsplit

import common
import faultyard
from faultyard import Guard, Key, Kind

TOKENS = {0: "zero", 1: "one"}
TICK = '{"by":0,"act":{"tick":{"ticks":1}}}\n'
NUMBERS = {"actor", "process", "record"}


class Book:
    """The journal of a server, and the lines that it was asked."""

    def __init__(self):
        self.acts, self.asked, self.dies = [], [], False

    def answer(self, line):
        """What the guard answers to an act or a question. Where it dies, half of that goes out."""
        self.asked.append(line)
        words = [common.PROGRAM, "guard", str(common.SIX), "--questions"]
        text = "".join([*self.acts, line])
        ran = subprocess.run(words, input=text, capture_output=True, text=True, check=True)
        if '"act"' in line and '"ask"' not in line:
            self.acts.append(line)
        return ran.stdout.splitlines(keepends=True)[-1]

    def entries(self, first):
        words = [common.PROGRAM, "guard", str(common.SIX)]
        ran = subprocess.run(words, input="".join(self.acts), capture_output=True, text=True)
        return ran.stdout.splitlines(keepends=True)[1 + first :]

    def cut(self, answer):
        """The answer, or where the server dies half of it, once."""
        dies, self.dies = self.dies, False
        return (answer[: len(answer) // 2], True) if dies else (answer, False)


class Lines(socketserver.StreamRequestHandler):
    """Its Unix socket."""

    def handle(self):
        self.wfile.write(common.HEADER.encode())
        for line in self.rfile:
            answer, dies = self.server.book.cut(self.told(json.loads(line)))
            self.wfile.write(answer.encode())
            if dies:
                return

    def told(self, asked):
        if "from" in asked:
            lines = self.server.book.entries(asked["from"])
            to = asked["from"] + len(lines)
            return "".join([json.dumps({"from": asked["from"], "to": to}), "\n", *lines])
        if asked.get("ask") == {"targets": {"key": "zoneid", "value": "older"}}:
            return '{"refused":"script: line 1: Syntax"}\n'
        asked.pop("once", None)
        return self.server.book.answer(json.dumps(asked) + "\n")


class Web(http.server.BaseHTTPRequestHandler):
    """Its HTTP, by tokens."""

    protocol_version = "HTTP/1.1"

    def do_POST(self):
        body = json.loads(self.rfile.read(int(self.headers["Content-Length"])))
        if self.headers["Authorization"] != f"Bearer {TOKENS.get(body['by'])}":
            return self.send(403, '{"error":"the token is of another actor"}')
        asked = body if self.path == "/v1/acts" else {"ask": {"judge": body}}
        return self.send(200, self.server.book.answer(json.dumps(asked) + "\n"))

    def do_GET(self):
        if self.headers["Authorization"] not in {f"Bearer {it}" for it in TOKENS.values()}:
            return self.send(401, '{"error":"no token that is known"}')
        found, book = urlsplit(self.path), self.server.book
        name, query = found.path.removeprefix("/v1/"), parse_qs(found.query)
        if name == "audit":
            first = int(query["from"][0])
            header = [] if first else [common.HEADER]
            return self.send(200, "".join([*header, *book.entries(first)]))
        members = {key: int(it) if key in NUMBERS else it for key, (it,) in query.items()}
        told = book.answer(json.dumps({"ask": {name: members}}) + "\n")
        if name == "targets":
            processes = [{"number": it} for it in json.loads(told)["told"]["targets"]]
            told = json.dumps({"processes": processes})
        return self.send(
            200, json.dumps(json.loads(told)["told"][name]) if name == "bears" else told
        )

    def send(self, status, text):
        answer, dies = self.server.book.cut(text)
        self.send_response(status)
        self.send_header("Content-Length", str(len(text)))
        self.end_headers()
        self.wfile.write(answer.encode())
        self.close_connection = self.close_connection or dies

    def log_message(self, *_):
        pass


class Sockets(socketserver.ThreadingMixIn, socketserver.UnixStreamServer):
    daemon_threads = True


class Served(common.Folder, unittest.TestCase):
    def setUp(self):
        super().setUp()
        self.book = Book()

    def serve(self, server):
        server.book = self.book
        self.enterContext(server)
        threading.Thread(target=server.serve_forever).start()
        self.addCleanup(server.shutdown)
        return server

    def doors(self):
        """The words by which a guard asks each door of a server."""
        path = f"{self.folder}/socket"
        self.serve(Sockets(path, Lines))
        web = self.serve(http.server.ThreadingHTTPServer(("127.0.0.1", 0), Web))
        url = f"http://127.0.0.1:{web.server_port}"
        return {"server": path}, {"server": url, "tokens": TOKENS}

    def test_what_is_asked_is_told_by_the_server(self):
        for words in self.doors():
            self.book.acts = [TICK]
            with Guard(common.SIX, **words) as guard:
                self.assertEqual(guard.sight(), faultyard.Sight(1, None, None, None))
                guard.tick(1, by=0)
                # Another's, of which the guard has no entry yet.
                self.book.acts.append(TICK)
                self.assertEqual((guard.sight().now, guard.journal_len()), (3, 2))
                self.assertEqual(guard.left(), frozenset(range(6)))
                self.assertEqual(guard.targets(Key.ZONE, "z1"), {2, 3})
                self.assertEqual(guard.bears(), faultyard.Borne(1, 1, True, True))
                self.assertEqual(guard.killable(by=1), [Kind.KILL_INSTANTLY] * 6)
                verdict = guard.judge(Key.ZONE, "z0", Kind.REBOOT, by=1)
                self.assertEqual(verdict, faultyard.Verdict(Kind.REBOOT, None, None))
                self.assertIsNone(guard.needed(0))
                self.assertEqual(guard.process("p4"), 4)
                (other,) = guard.others()
                self.assertEqual((other.at, guard.journal_len()), (2, 3))
                asked = len(self.book.asked)
                with guard.try_copy() as copy:
                    self.assertEqual((copy.tick(1, by=0), copy.journal_len()), (4, 4))
                self.assertEqual(len(self.book.asked), asked)
                for ask in (guard.reset, guard.begin_again):
                    with self.assertRaises(io.UnsupportedOperation):
                        ask()

    def test_a_question_is_asked_again_of_a_server_that_was_killed(self):
        for words in self.doors():
            with Guard(common.SIX, **words) as guard:
                for ask, wanted in (
                    (lambda: guard.sight().now, 0),
                    (lambda: guard.targets(Key.ZONE, "z1"), {2, 3}),
                    (lambda: guard.judge(Key.ZONE, "z0", Kind.REBOOT, by=1).struck, Kind.REBOOT),
                ):
                    before, self.book.dies = len(self.book.asked), True
                    self.assertEqual(ask(), wanted)
                    self.assertEqual(len(self.book.asked) - before, 2)
                self.assertEqual(guard.journal_len(), 0)

    def test_what_is_judged_is_asked_by_the_token_of_its_actor(self):
        _, web = self.doors()
        with Guard(common.SIX, **web) as guard:
            self.assertEqual(guard.judge(Key.ZONE, "z0", Kind.REBOOT, by=1).struck, Kind.REBOOT)
            with self.assertRaisesRegex(faultyard.ProtocolError, "of another actor"):
                guard.judge(Key.ZONE, "z0", Kind.REBOOT, by=2)
            # Any token reads.
            self.assertEqual(guard.killable(by=2)[0], Kind.KILL_INSTANTLY)
        with self.assertRaisesRegex(faultyard.ProtocolError, "no token that is known"):
            Guard(common.SIX, server=web["server"], tokens={1: "none"})

    def test_a_server_that_knows_no_question_is_told_of(self):
        lines, _ = self.doors()
        with Guard(common.SIX, **lines) as guard:
            with self.assertRaisesRegex(faultyard.InvalidAct, "script: line 1: Syntax"):
                guard.targets(Key.ZONE, "older")

    def test_the_audit_of_a_server_is_gone_on_with(self):
        (lines, _), audit = self.doors(), Path(self.folder, "audit")
        self.book.acts = [TICK]
        audit.write_text(common.HEADER + self.book.entries(0)[0])
        for count in (2, 3):
            with Guard(common.SIX, **lines, folder=self.folder) as guard:
                guard.tick(1, by=0)
            entries = self.book.entries(0)
            self.assertEqual(len(entries), count)
            self.assertEqual(audit.read_text(), common.HEADER + "".join(entries))
        other = common.HEADER + entries[0] + "another\n"
        audit.write_text(other)
        with self.assertRaises(faultyard.AuditExists):
            Guard(common.SIX, **lines, folder=self.folder)
        self.assertEqual(audit.read_text(), other)
