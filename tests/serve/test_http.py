"""The server by HTTP: acts, pictures, tokens, TLS, and whatever else may come over a network."""

import http.client
import json
import random
import re
import signal
import socket
import ssl
import subprocess
import threading
import time
import xml.etree.ElementTree
from pathlib import Path

import common
from common_serve import HEADER, PATIENCE, PROGRAM, REQUESTS
from common_serve import Case, certificate, cluster, kill, run, up


class Answers(Case):
    def test_acts_by_http_and_by_the_socket_stand_in_one_audit(self):
        server = self.server().start()
        status, first = server.ask("POST", "/v1/acts", kill(0, "RebootAndDelete"))
        self.assertEqual(status, 200)
        second = server.talk().ask(kill(2, "RebootAndDelete", by=2))
        status, third = server.ask("POST", "/v1/acts", up(0), Idempotency_Key="a")
        status, again = server.ask("POST", "/v1/acts", up(0), Idempotency_Key="a")
        self.assertEqual((status, again), (200, third))
        self.assertEqual(server.ask("POST", "/v1/acts", up(1), Idempotency_Key="a")[0], 422)
        audit = HEADER + first + second + third
        self.assertEqual(server.ask("GET", "/v1/audit"), (200, audit))
        self.assertEqual(server.ask("GET", "/v1/audit?from=1"), (200, second + third))
        self.assertEqual(server.file.read_bytes(), audit)
        self.assertEqual(server.check(), "legal 3")

    def test_who_is_up_down_destroyed_and_gone(self):
        server = self.server().start()
        for order in (kill(0), kill(1, "KillInstantly"), kill(2, "Reboot")):
            server.ask("POST", "/v1/acts", order)
        server.ask("POST", "/v1/acts", up(2))
        status, text = server.ask("GET", "/v1/status")
        told = json.loads(text)
        self.assertEqual((status, told["entries"], told["version"]), (200, 4, common.version()))
        words = "up", "clogged", "destroyed", "gone"
        states = [[it[word] for word in words] for it in told["processes"]]
        well, down, gone = [[True] + [False] * 3, [False] * 4, [False, False, True, True]]
        self.assertEqual(states, [down, gone, well, well, well, well])
        self.assertEqual(told["processes"][3]["zoneid"], "z1")
        status, text = server.ask("GET", "/v1/targets?key=zoneid&value=z0")
        self.assertEqual(json.loads(text), {"processes": [{"number": 0, "processid": "p0"}]})
        for query in ("key=zone&value=z0", "key=zoneid&value=-", "key=zoneid", ""):
            self.assertEqual(server.ask("GET", f"/v1/targets?{query}")[0], 400)

    def test_names_stay_when_a_process_is_gone_and_however_they_are_written(self):
        config = cluster().replace('"p1"', '"\\u00701"').replace('"m1"', '"""\\\n  m1"""')
        config = config.replace('"p3"', "'p3'").replace(
            'zoneid="z1"', '"zone\\u0069d"="\\U0000007a1"'
        )
        server = self.server(config=config).start()
        names = [(f"p{number}", f"m{number}", f"z{number // 2}") for number in range(6)]

        def told():
            processes = json.loads(server.ask("GET", "/v1/status")[1])["processes"]
            return [(it["processid"], it["machineid"], it["zoneid"]) for it in processes]

        self.assertEqual(told(), names)
        for number in (1, 2):
            server.ask("POST", "/v1/acts", kill(number, "KillInstantly"))
        self.assertEqual(server.end(), 0)
        server.start()
        self.assertEqual(told(), names)
        gone = [it["gone"] for it in json.loads(server.ask("GET", "/v1/status")[1])["processes"]]
        self.assertIn(True, gone)

    def test_the_picture_and_what_may_be_lost_are_the_programs(self):
        server = self.server().start()
        for number in range(40):
            server.ask("POST", "/v1/acts", kill(number % 6, "RebootAndDelete"))
            if number % 5 == 0:
                wanted = run(PROGRAM, "bears", server.config, "--json", "--after", server.file)
                told = server.ask("GET", "/v1/bears")
                self.assertEqual(told, (200, wanted.stdout.encode()))
        status, picture = server.ask("GET", "/picture.svg")
        self.assertEqual(status, 200)
        root = xml.etree.ElementTree.fromstring(picture)
        self.assertTrue(int(root.get("data-columns")) > 0 and root.get("data-micros"))
        with open(server.file, "rb") as audit:
            words = [PROGRAM, "show", server.config, "--times", f"{server.file}.events"]
            drawn = subprocess.run(words, stdin=audit, capture_output=True, check=True).stdout
        self.assertTrue(picture == drawn, "another picture")

    def test_times_go_on_over_a_crash(self):
        server = self.server().start()
        server.ask("POST", "/v1/acts", kill(0))
        events = Path(f"{server.file}.events")
        while events.read_bytes().count(b"\n") < 2:  # Times are written once a second.
            time.sleep(0.05)
        server.kill()
        server.start()
        server.ask("POST", "/v1/acts", kill(1))
        self.assertEqual(server.ask("GET", "/picture.svg")[0], 200)
        lines = [json.loads(it) for it in events.read_text().splitlines()]
        self.assertEqual([it.get("entry") for it in lines], [None, 0, 1])
        self.assertGreater(lines[2]["t"], lines[1]["t"] + 0.9)

    def test_every_entry_comes_as_an_event_also_after_a_crash(self):
        server = self.server().start()
        seen: list[tuple[int, bytes]] = []
        wanted = 30
        reader = threading.Thread(target=self.follow, args=(server, seen, wanted), daemon=True)
        reader.start()
        for number in range(wanted):
            if number == 15:
                server.kill()
                server.start()
            server.ask("POST", "/v1/acts", kill(number % 6))
        reader.join(PATIENCE)
        self.assertEqual([data + b"\n" for _, data in seen], server.lines())
        self.assertEqual([at for at, _ in seen], list(range(wanted)))

    def follow(self, server, seen, wanted):
        """Reads events until there are enough, from the last one on whenever the server is gone."""
        while len(seen) < wanted:
            connection = http.client.HTTPConnection(server.address, timeout=PATIENCE)
            last = {"Last-Event-ID": str(seen[-1][0])} if seen else {}
            try:
                connection.request("GET", "/v1/events", headers=last)
                answer = connection.getresponse()
                while len(seen) < wanted and (line := answer.readline()):
                    if line.startswith(b"id: "):
                        at, data = int(line[4:]), answer.readline()
                        if data.endswith(b"\n"):
                            seen.append((at, data[len(b"data: ") : -1]))
            except (OSError, http.client.HTTPException):
                time.sleep(0.02)
            finally:
                connection.close()

    def test_counts_for_prometheus(self):
        server = self.server().start()
        server.ask("POST", "/v1/acts", kill(1, "KillInstantly"))
        server.ask("POST", "/v1/acts", b"x")
        status, text = server.ask("GET", "/metrics")
        rows = dict(re.findall(r"^(faultyard_\S+) (\S+)$", text.decode(), re.M))
        self.assertEqual(rows["faultyard_entries"], "1")
        self.assertEqual(rows["faultyard_journal_limit"], "1000000")
        self.assertEqual(rows['faultyard_processes{state="gone"}'], "1")
        self.assertEqual(rows['faultyard_http_requests_total{status="400"}'], "1")
        self.assertEqual(server.ask("GET", "/healthz"), (200, b'{"status":"ok"}\n'))


def tokens(folder):
    """Words for a server with tokens of the actors 0 and 1, and one that reads."""
    path = common.written(folder, "tokens", "")
    path.chmod(0o600)
    path.write_text("zero-zero-zero-zero 0\none-one-one-one-one 1\nread-read-read-read -\n")
    return "--tokens", str(path)


class Doors(Case):
    def test_a_token_orders_for_its_actor_and_the_grants_of_the_file_hold(self):
        server = self.server(*tokens(self.folder)).start()
        zero, one = "Bearer zero-zero-zero-zero", "Bearer one-one-one-one-one"
        act = kill(0)[len(b'{"by":1,') :]
        status, text = server.ask("POST", "/v1/acts", b"{" + act, Authorization=one)
        self.assertEqual((status, json.loads(text)["by"]), (200, 1))
        status, text = server.ask("POST", "/v1/acts", b"{" + act, Authorization=zero)
        verdict = {"rule": ["NoGrant", 0], "struck": None}
        self.assertEqual((status, json.loads(text)["reply"]), (200, {"verdict": verdict}))
        for header, status in (
            ({"Authorization": zero}, 403),
            ({"Authorization": "Bearer read-read-read-read"}, 403),
            ({"Authorization": "Bearer none-none-none-none"}, 401),
            ({}, 401),
        ):
            self.assertEqual(server.ask("POST", "/v1/acts", kill(0), **header)[0], status)
        self.assertEqual(server.check(), "legal 2")
        self.assertEqual(server.ask("GET", "/v1/status")[0], 401)
        reads = {"Authorization": "Bearer read-read-read-read"}
        self.assertEqual(server.ask("GET", "/v1/status", **reads)[0], 200)

    def test_an_address_of_ipv4_takes_nobody_by_ipv6(self):
        server = self.server(*tokens(self.folder))
        server.words[-1] = server.words[-1].replace("127.0.0.1", "0.0.0.0")
        server.start()
        port = int(server.address.removeprefix("0.0.0.0:"))
        socket.create_connection(("127.0.0.1", port)).close()
        with self.assertRaises(OSError):
            socket.create_connection(("::1", port)).close()

    def test_a_file_of_tokens_that_others_may_read_is_refused(self):
        config = common.written(self.folder, "c.toml", "")
        config.write_text(common.SIX.read_text())
        path = common.written(self.folder, "tokens", "zero-zero-zero-zero 0\n")
        path.chmod(0o644)
        words = "--listen", "127.0.0.1:0", "--tokens", path
        told = self.refuse(config, "--audit", self.folder / "audit", *words)
        wanted = f"faultyard-serve: {path}: its mode is 0644, and has to be 0600\n"
        self.assertEqual(told, (1, wanted))
        self.assertFalse((self.folder / "audit").exists())

    def test_tls(self):
        files = certificate(self.folder)
        server = self.server("--tls-cert", files[0], "--tls-key", files[1]).start()
        context = ssl.create_default_context(cafile=files[0])
        connection = http.client.HTTPSConnection(server.address, timeout=PATIENCE, context=context)
        connection.request("POST", "/v1/acts", kill(0), {"Content-Type": "application/json"})
        self.assertEqual(connection.getresponse().read(), server.file.read_bytes()[len(HEADER) :])
        connection.close()
        self.assertEqual(server.ask("GET", "/healthz")[0], 400)  # without TLS
        config = server.config
        wrong = self.refuse(
            config, "--audit", self.folder / "b", "--listen", "127.0.0.1:0",
            "--tls-cert", files[0], "--tls-key", files[0],
        )  # fmt: skip
        self.assertEqual(wrong[0], 1)
        self.assertFalse((self.folder / "b").exists())

    def test_tls_speaks_http_2(self):
        files = certificate(self.folder)
        server = self.server("--tls-cert", files[0], "--tls-key", files[1]).start()
        url = f"https://{server.address}"
        words = "curl", "-sS", "--http2", "--cacert", files[0], "-w", "%{http_version} %{http_code}"
        act = "-H", "Content-Type: application/json", "-d", kill(0).decode(), f"{url}/v1/acts"
        told = run(*words, *act)
        self.assertEqual(told.stdout, server.file.read_text()[len(HEADER) :] + "2 200")
        told = run(*words, "--http1.1", f"{url}/healthz")
        self.assertEqual(told.stdout, '{"status":"ok"}\n1.1 200')

    def test_a_request_without_tls_is_told_of_it(self):
        files = certificate(self.folder)
        server = self.server("--tls-cert", files[0], "--tls-key", files[1]).start()
        for method, body in (("GET", None), ("POST", kill(0))):
            status, text = server.ask(method, "/v1/acts", body)
            self.assertEqual(status, 400)
            self.assertEqual(json.loads(text)["error"], "the server speaks TLS here: ask by https")

    def test_hangup_reads_tokens_and_certificates_again(self):
        words = tokens(self.folder)
        first = certificate(self.folder)
        server = self.server(*words, "--tls-cert", first[0], "--tls-key", first[1]).start()
        host, _, port = server.address.rpartition(":")

        def served():
            return ssl.get_server_certificate((host, int(port)))

        def status(token):
            context = ssl._create_unverified_context()
            connection = http.client.HTTPSConnection(
                server.address, timeout=PATIENCE, context=context
            )
            connection.request("GET", "/v1/status", headers={"Authorization": f"Bearer {token}"})
            answer = connection.getresponse().status
            connection.close()
            return answer

        def hang_up(said):
            before = len(server.said.read_text())
            server.process.send_signal(signal.SIGHUP)
            while said not in server.said.read_text()[before:]:
                self.assertIsNone(server.process.poll(), server.said.read_text())
                time.sleep(0.01)

        old = served()
        certificate(self.folder)
        other, file = "new-new-new-new-new", Path(words[1])
        file.write_text(f"{other} 1\n")
        self.assertEqual((status(other), status("one-one-one-one-one")), (401, 200))
        hang_up("tokens and certificate are read again")
        self.assertEqual((status(other), status("one-one-one-one-one")), (200, 401))
        self.assertNotEqual(served(), old)
        file.write_text("short 1\n")
        hang_up("line 1: a token has 16 to 512 bytes; tokens and certificate stay as they were")
        self.assertEqual(status(other), 200)
        self.assertEqual(server.end(), 0)

    def test_a_token_of_an_actor_that_isnt_there_is_told(self):
        path = common.written(self.folder, "tokens", "one-one-one-one-one 3\n")
        path.chmod(0o600)
        server = self.server("--tokens", str(path)).start()
        self.assertNotIn("a token is of", server.said.read_text())
        path.write_text("one-one-one-one-one 1\nnobody-nobody-nobody 4\nnobody-nobody-none 4\n")
        server.process.send_signal(signal.SIGHUP)
        while "are read again" not in server.said.read_text():
            time.sleep(0.01)
        self.assertEqual(server.end(), 0)
        server.start()
        why = f"{path}: a token is of actor 4; {server.config} has 4 actors, from 0, "
        told = server.said.read_text().count(f"{why}so its acts are refused\n")
        self.assertEqual(told, 2)
        token = "Bearer nobody-nobody-nobody"
        status, entry = server.ask("POST", "/v1/acts", kill(0, by=4), Authorization=token)
        self.assertEqual((status, json.loads(entry)["reply"]), (200, {"no": ["Stranger"]}))

    def test_the_idle_go_for_those_who_ask(self):
        server = self.server().start()
        idle = []
        for _ in range(256):
            client = http.client.HTTPConnection(server.address, timeout=PATIENCE)
            client.request("GET", "/healthz")
            self.assertTrue(client.getresponse().read())
            idle.append(client)
        for number in range(50):
            self.assertEqual(server.ask("POST", "/v1/acts", kill(number % 6))[0], 200)
        for client in idle:
            client.close()

    def test_a_port_that_is_taken_is_told(self):
        server = self.server().start()
        words = "--audit", self.folder / "b", "--listen", server.address
        status, said = self.refuse(server.config, *words)
        self.assertEqual((status, "address already in use" in said), (3, True))
        self.assertFalse((self.folder / "b.socket").exists())


WORDS = (
    b"GET POST HEAD PUT PATCH DELETE OPTIONS TRACE CONNECT / /v1/acts /v1/status /v1/audit"
    b" /v1/events /v1/targets /v1/bears /picture.svg /metrics /healthz /../etc/passwd //v1//acts"
    b" HTTP/1.1"
    b" HTTP/1.0 HTTP/9.9 Host: Content-Length: Transfer-Encoding: chunked Content-Type: Expect:"
    b" 100-continue Connection: close Upgrade: Authorization: Bearer Idempotency-Key:"
    b" Last-Event-ID: application/json 127.0.0.1 0 1 -1 99999999999999999999 \r\n \r\n\r\n \n \0"
    b" \xff {} [] null"
    b' {"by":1,"act": {"kill": "once" "x" ?from= ?key=processid&value=p0'
).split(b" ")


ONE = "Bearer one-one-one-one-one"


class Wrong(Case):
    """What comes from those who err or mean ill. The server answers on, and enters legal acts."""

    def request(self, chance):
        """A request that is right but for a few changes, or something else altogether."""
        bodies = kill(chance.randrange(6)), kill(1)[:-2], up(chance.randrange(9)), b"\0\xff"
        body = chance.choice((*bodies, b"null", b"[]", b'{"act":null}'))
        if chance.random() < 0.2:
            return b" ".join(chance.choices(WORDS, k=chance.randrange(30)))
        path = chance.choice(WORDS[9:19] + [b"/v1/acts"] * 9)
        head = [
            b"%s %s HTTP/1.1" % (chance.choice((b"POST", b"POST", b"GET", b"PUT")), path),
            b"Host: 127.0.0.1",
            b"Content-Type: application/json",
            b"Authorization: " + ONE.encode(),
            b"Content-Length: %d" % (len(body) + chance.choice((0, 0, 0, 1, -1, 1 << 40))),
        ]
        if chance.random() < 0.5:
            head.insert(chance.randrange(1, 6), b" ".join(chance.choices(WORDS, k=3)))
        if chance.random() < 0.05:
            head.append(b"X: " + b"x" * chance.randrange(40_000))
        text = bytearray(b"\r\n".join(head) + b"\r\n\r\n" + body)
        for _ in range(chance.choice((0, 0, 1, 3))):
            text[chance.randrange(len(text))] = chance.randrange(256)
        return bytes(text[: chance.choice((None, None, chance.randrange(len(text))))])

    def send(self, server, chance, text):
        """Sends it at once or in parts, and closes half, or all, or waits for an answer."""
        path = chance.choice((server.address, server.address, str(server.socket)))
        family = socket.AF_INET if path == server.address else socket.AF_UNIX
        with socket.socket(family) as client:
            client.settimeout(0.3)
            host, _, port = path.rpartition(":")
            client.connect((host, int(port)) if family == socket.AF_INET else path)
            try:
                parts = chance.choice((1, 1, 1, 4))
                for part in range(parts):
                    size = -(-len(text) // parts)
                    client.sendall(text[part * size : (part + 1) * size])
                if chance.random() < 0.5:
                    client.shutdown(socket.SHUT_WR)
                if chance.random() < 0.7:
                    client.recv(65_536)
            except OSError:
                pass  # It may have been turned away.

    def test_wrong_requests_leave_it_answering(self):
        self.wrong(self.server().start())

    def test_wrong_requests_with_a_token_leave_it_answering(self):
        self.wrong(self.server(*tokens(self.folder)).start())

    def wrong(self, server):
        """Half of the wrong requests."""
        slow = [self.slow(server) for _ in range(20)]
        failed = []

        def ask(number):
            chance = random.Random(number)
            try:
                for _ in range(REQUESTS // 16):
                    self.send(server, chance, self.request(chance))
            except BaseException as fault:
                failed.append(fault)

        threads = [threading.Thread(target=ask, args=(number,)) for number in range(8)]
        for thread in threads:
            thread.start()
        for thread in threads:
            thread.join()
        self.assertEqual(failed, [])
        self.assertIsNone(server.process.poll())
        status, text = server.ask("POST", "/v1/acts", kill(0), Authorization=ONE)
        self.assertEqual(status, 200)
        count = json.loads(text)["at"] + 1
        # Some were right. How many were made goes by who waited for an answer.
        self.assertGreater(count, REQUESTS // 100)
        self.assertEqual(json.loads(server.talk().ask(kill(0)))["at"], count)
        for client in slow:
            client.close()
        self.assertEqual(server.end(), 0)
        self.assertEqual(server.check(), f"legal {count + 1}")
        self.assertNotIn("panic", server.said.read_text())

    def slow(self, server):
        """A client that begins a request, and never ends it."""
        client = socket.socket()
        client.connect(("127.0.0.1", int(server.address.rpartition(":")[2])))
        client.sendall(b"POST /v1/acts HTTP/1.1\r\nHost: 127.0.0.1\r\nContent-Le")
        return client

    def test_a_slow_request_is_turned_away(self):
        server = self.server().start()
        client = self.slow(server)
        client.settimeout(PATIENCE)
        while client.recv(65_536):  # Until it is closed.
            pass
        client.close()

    def test_large_bodies_and_headers_are_turned_away(self):
        server = self.server().start()
        self.assertEqual(server.ask("POST", "/v1/acts", b" " * 65_537)[0], 413)
        with socket.create_connection(server.address.split(":")) as client:
            client.sendall(b"GET /healthz HTTP/1.1\r\nX: " + b"x" * 40_000)
            self.assertTrue(client.recv(100).startswith(b"HTTP/1.1 431 "))
        self.assertEqual(server.ask("POST", "/v1/acts", b" " * 60_000 + kill(0))[0], 200)
