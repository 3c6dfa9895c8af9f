"""The examples for Jepsen, by Debian's Clojure."""

from __future__ import annotations

import json
import subprocess
from http.server import BaseHTTPRequestHandler, HTTPServer

from common_serve import PROGRAM, ROOT, Case, built, run

GUARDED = ROOT / "examples/jepsen/guarded.clj"
HISTORY = ROOT / "examples/jepsen/history.clj"


# Three registers of jepsen.independent: 7 is read as it was before its second write, 8 isn't known
# to be written, and 9 has what its write gave it.
OF_MANY = """
{:type :invoke, :process 0, :f :write, :value [7 1], :time 10, :index 0}
{:type :ok, :process 0, :f :write, :value [7 1], :time 20, :index 1}
{:type :info, :process :nemesis, :f :kill, :value :p0, :time 25, :index 2}
#jepsen.history.Op{:type :invoke, :process 0, :f :write, :value [7 2], :time 30, :index 3}
{:type :ok, :process 0, :f :write, :value [7 2], :time 40, :index 4}
{:type :invoke, :process 1, :f :read, :value [7 nil], :time 39, :index 5}
{:type :ok, :process 1, :f :read, :value [7 1], :time 60, :index 6}
{:type :invoke, :process 0, :f :write, :value [8 3], :time 70, :index 7}
{:type :invoke, :process 1, :f :read, :value [8 nil], :time 72, :index 8}
{:type :fail, :process 1, :f :read, :value [8 nil], :error :timeout, :time 75, :index 9}
{:type :info, :process 0, :f :write, :value [8 3], :error :timeout, :time 80, :index 10}
{:type :invoke, :process 2, :f :write, :value ["9" "a \\"b\\""], :time 90, :index 11}
{:type :ok, :process 2, :f :write, :value ["9" "a \\"b\\""], :time 95, :index 12}
{:type :invoke, :process 1, :f :read, :value ["9" nil], :time 96, :index 13}
{:type :ok, :process 1, :f :read, :value ["9" "a \\"b\\""], :time 97, :index 14}
"""
# One register, which is empty and then has what was written.
OF_ONE = """[{:type :invoke, :process 0, :f :read, :value nil, :time 1}
 {:type :ok, :process 0, :f :read, :value nil, :time 2}
 {:type :invoke, :process 0, :f :write, :value 5, :time 3}
 {:type :ok, :process 0, :f :write, :value 5, :time 4}
 {:type :invoke, :process 1, :f :read, :value nil, :time 5}
 {:type :ok, :process 1, :f :read, :value 5, :time 6}]"""


class Away(BaseHTTPRequestHandler):
    """What a proxy answers whose server isn't there."""

    def do_POST(self) -> None:
        self.send_error(502)

    def log_message(self, *_: object) -> None:
        pass


class Jepsen(Case):
    def setUp(self) -> None:
        super().setUp()
        if run(ROOT / "tests/tools/needs", "the examples for Jepsen", "clojure").returncode:
            self.skipTest("SKIPPED the examples for Jepsen: there is no clojure")

    def converted(self, text: str) -> subprocess.CompletedProcess[str]:
        """What the example for histories makes of one."""
        history = self.folder / "history.edn"
        history.write_text(text)
        return run("clojure", HISTORY, history)

    def judged(self, text: str) -> list[dict[str, object]]:
        """What `linear` tells of a history of Jepsen's."""
        made = self.converted(text)
        self.assertEqual((made.returncode, made.stderr), (0, ""))
        ran = run(PROGRAM, "linear", input=made.stdout)
        self.assertEqual(ran.stderr, "")
        return [json.loads(line) for line in ran.stdout.splitlines()]

    def test_its_histories_are_judged(self) -> None:
        counts = {"keys": 3, "linearizable": 2, "not": 1, "operations": 6}
        (wrong, counted) = self.judged(OF_MANY)
        self.assertEqual((wrong["key"], wrong["why"], counted), ("7", "Conflict", counts))
        counts = {"keys": 1, "linearizable": 1, "not": 0, "operations": 3}
        self.assertEqual(self.judged(OF_ONE), [counts])

    def test_a_history_with_other_operations_is_refused(self) -> None:
        made = self.converted(OF_ONE.replace(":f :write, :value 5", ":f :cas, :value [1 5]"))
        told = (made.returncode, made.stdout, made.stderr)
        self.assertEqual(told, (1, "", "history.clj: it has :cas\n"))

    def test_it_asks_before_each_kill_and_again_without_an_answer(self) -> None:
        built()
        server = self.server().start()
        url = f'"http://{server.address}"'
        program = self.folder / "asks.clj"
        calls = (
            f'(guarded/struck {url} "p0" :RebootAndDelete)',
            f'(guarded/struck {url} "p2" :RebootAndDelete)',
            f'(guarded/struck {url} "nobody" :Reboot)',
            f'(re-find #"reply.*" (guarded/up {url} 0))',
            f'(try (guarded/act {url} "x") (catch clojure.lang.ExceptionInfo it (ex-data it)))',
            "(do (println :kill) (flush) (read-line))",
            f'(re-find #"reply.*" (guarded/up {url} 2))',
        )
        asks = "".join(f"(println {it})(flush)\n" for it in calls)
        program.write_text(f'(load-file "{GUARDED}")\n{asks}(System/exit 0)\n')
        pipe = subprocess.PIPE
        with subprocess.Popen(["clojure", program], stdin=pipe, stdout=pipe, text=True) as running:
            self.addCleanup(running.kill)
            assert running.stdin and running.stdout
            told = [running.stdout.readline().strip() for _ in range(6)]
            server.kill()
            host, _, port = server.address.rpartition(":")
            with HTTPServer((host, int(port)), Away) as proxy:
                print(file=running.stdin, flush=True)
                proxy.handle_request()
            server.start()
            told += running.stdout.read().split("\n")
        done = 'reply":"done"}'
        wanted = [":RebootAndDelete", ":Reboot", "nil", done, "{:status 400}", ":kill", "", done]
        self.assertEqual([it for it in told if it != ""], [it for it in wanted if it != ""])
        acts = [next(iter(json.loads(it)["act"])) for it in server.lines()]
        self.assertEqual(acts, ["kill", "kill", "kill", "up", "up"])
        self.assertEqual(server.check(), "legal 5")
