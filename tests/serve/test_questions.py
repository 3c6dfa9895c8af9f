"""Questions at the doors of the server: each is told what the pipe of `guard --questions` tells,
along random journals, and enters nothing."""

import json
from pathlib import Path
from urllib.parse import urlencode

from common_serve import HEADER, PROGRAM, Case, Server, kill, line
from mixes import TOLD, talk

COUNT = 12
ASSETS = Path(__file__).resolve().parents[2] / "tools/serve/internal/door/assets"
PLACE = {"processid": "p0", "machineid": "m0", "zoneid": "z0", "data_hall": "h0", "dcid": "d0"}
# The answers of these have members of their own by HTTP.
OWN = ("targets", "bears")


def by_http(server: Server, asked: bytes) -> bytes:
    """What is told by HTTP to the line of a question or of an act."""
    its = json.loads(asked)
    if "ask" not in its:
        return server.ask("POST", "/v1/acts", asked)[1]
    ((name, members),) = its["ask"].items()
    if name == "judge":
        return server.ask("POST", "/v1/judge", line(members))[1]
    return server.ask("GET", f"/v1/{name}?{urlencode(members)}")[1]


class Questions(Case):
    def test_each_is_told_what_the_pipe_tells(self):
        for seed in range(COUNT):
            mix = talk(PROGRAM, self.folder, seed)
            entries = [answer for answer in mix.answers if not answer.startswith(TOLD)]
            for door in (self.lines_of, self.requests_of):
                server = self.server(config=mix.config.read_text()).start()
                door(server, mix)
                self.assertEqual(server.file.read_bytes(), b"".join([HEADER, *entries]))
                self.assertEqual(server.end(), 0)
                for path in self.folder.glob("audit*"):
                    path.unlink()

    def lines_of(self, server, mix):
        client = server.talk()
        client.socket.sendall(b"".join(mix.lines))
        for asked, answer in zip(mix.lines, mix.answers, strict=True):
            self.assertEqual(client.file.readline(), answer, asked)
        client.close()

    def requests_of(self, server, mix):
        for asked, answer in zip(mix.lines, mix.answers, strict=True):
            found = by_http(server, asked)
            name = next(iter(json.loads(asked).get("ask", "-")))
            if name not in OWN:
                self.assertEqual(found, answer, asked)
                continue
            found, told = json.loads(found), json.loads(answer)["told"]
            if name == "targets":
                found = {"targets": [it["number"] for it in found["processes"]]}
            self.assertEqual(found, told.get("bears", told), asked)

    def test_a_place_has_each_key_of_the_cluster_file(self):
        place = ", ".join(f'{key} = "{name}"' for key, name in PLACE.items())
        head = 'journal_limit = 9\npolicies = ["One()"]\nactor = [{role = "operator"}]\n'
        server = self.server(config=f"{head}process = [{{{place}}}]\n").start()
        (process,) = json.loads(server.ask("GET", "/v1/status")[1])["processes"]
        self.assertEqual({key: process.get(key) for key in PLACE}, PLACE)
        cluster = json.loads(server.ask("GET", "/v1/cluster")[1])["told"]["cluster"]
        self.assertEqual(cluster["process"], [PLACE])
        api = json.loads((ASSETS / "openapi.json").read_text())
        key, *_ = api["paths"]["/v1/targets"]["get"]["parameters"]
        self.assertEqual(key["schema"]["enum"], [*PLACE])

    def test_a_faulty_question_is_told_its_fault_and_ends_nothing(self):
        server = self.server().start()
        client, order = server.talk(), json.loads(kill(0, "Reboot"))["act"]
        order["kill"]["floor"] = "KillInstantly"
        sight = line({"ask": {"sight": {}}})
        for number, (asked, fault) in enumerate(
            (
                (line({"once": "a", "ask": {"sight": {}}}), "Syntax"),
                (line({"ask": {"sight": {}}, "once": "a"}), "Syntax"),
                (line({"ask": {"sights": {}}}), "Syntax"),
                (line({"ask": {"judge": {"by": 1, "act": order}}}), "Floor"),
                (b" " * 65_537 + sight, "TooLong"),
            ),
            1,
        ):
            refused = line({"refused": f"script: line {number}: {fault}"})
            self.assertEqual(client.ask(asked), refused)
        self.assertIn(b'"told"', client.ask(b" " + sight))
        judge = line({"act": order})
        self.assertEqual(server.ask("POST", "/v1/judge", judge)[0], 400)
        self.assertEqual(server.ask("GET", "/v1/needed?process=4294967296")[0], 400)
        self.assertEqual(server.check(), "legal 0")

    def test_a_question_is_answered_where_the_journal_is_full_and_behind_a_restart(self):
        server = self.server().start()
        sight = line({"ask": {"sight": {}}})
        server.talk().ask(kill(3))
        told = server.talk().ask(sight)
        self.assertEqual(json.loads(told)["told"]["sight"]["sleeping"], 3)
        self.assertEqual(server.end(), 0)
        server.start()
        self.assertEqual(server.talk().ask(sight), told)
        self.assertEqual(server.ask("GET", "/v1/sight"), (200, told))
        self.assertEqual(server.check(), "legal 1")
