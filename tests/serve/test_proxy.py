"""The server behind nginx, as Debian has it, with and without tokens."""

import http.client
import json
import time
from threading import Thread

import faultyard
from common_serve import PATIENCE, Case, kill
from faultyard import Guard, Key, Kind
from proxying import KEPT, PLAIN, TOLD, nginx
from test_http import ONE, tokens


class Proxy(Case):
    def ask(self, address, method, path, body=None, **headers):
        connection = http.client.HTTPConnection(address, timeout=PATIENCE)
        self.addCleanup(connection.close)
        named = {name.replace("_", "-"): value for name, value in headers.items()}
        connection.request(method, path, body, {"Content-Type": "application/json", **named})
        return connection.getresponse()

    def test_without_tokens_nobody_orders_through_it(self):
        server = self.server().start()
        for more, host in ((PLAIN, ""), (TOLD, ""), (KEPT, "example.org")):
            with self.subTest(more):
                address = nginx(self, server.address, more)
                named = {"Host": host} if host else {}
                for method, path in (("POST", "/v1/acts"), ("GET", "/v1/status")):
                    answer = self.ask(address, method, path, kill(0), **named)
                    self.assertEqual(answer.status, 403)
                    self.assertEqual(answer.headers["Content-Type"], "application/problem+json")
        self.assertEqual(server.lines(), [])
        self.assertEqual(server.ask("POST", "/v1/acts", kill(0))[0], 200)

    def test_events_come_through_it_as_they_are_made(self):
        server = self.server(*tokens(self.folder)).start()
        address = nginx(self, server.address)
        events = self.ask(address, "GET", "/v1/events", Authorization=ONE)
        self.assertEqual(events.readline(), b"event: audit\n")
        told = json.loads(events.readline()[len(b"data: ") :])
        status = json.loads(self.ask(address, "GET", "/v1/status", Authorization=ONE).read())
        self.assertEqual(told["audit"], status["audit"])
        self.assertEqual(
            self.ask(address, "POST", "/v1/acts", kill(0), Authorization=ONE).status, 200
        )
        while not (line := events.readline()).startswith(b"id: "):
            self.assertTrue(line)
        self.assertEqual(events.readline(), b"data: " + server.lines()[0])

    def test_a_client_goes_on_while_it_answers_502(self):
        server = self.server(*tokens(self.folder)).start()
        url = f"http://{nginx(self, server.address, path='/guard/')}/guard"
        known = {0: "zero-zero-zero-zero", 1: "one-one-one-one-one"}
        with Guard(server.config, server=url, tokens=known) as guard:
            guard.kill(Key.PROCESS, "p0", Kind.REBOOT, by=1)
            server.kill()
            starts = Thread(target=self.start_once_it_was_missed, args=(server, url))
            starts.start()
            guard.up(0, by=0)
            starts.join()
            self.assertEqual(guard.journal_len(), 2)
        self.assertEqual(server.check(), "legal 2")
        with self.assertRaisesRegex(faultyard.ProtocolError, "GET /guard/nowhere/v1/audit"):
            Guard(server.config, server=f"{url}/nowhere", tokens=known)

    def start_once_it_was_missed(self, server, url):
        """Starts the server once the proxy has answered that it isn't there."""
        address = url.split("/")[2]
        while self.ask(address, "GET", "/guard/healthz").status != 502:
            time.sleep(0.05)
        server.start()
