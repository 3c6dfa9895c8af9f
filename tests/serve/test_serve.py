"""The server as its users meet it: its words, its socket, its files, and what a crash leaves."""

import http.client
import json
import os
import random
import resource
import signal
import socket
import subprocess
import threading
import time
from contextlib import suppress

import common
from askers import Clients
from common_serve import HEADER, KILLS, PATIENCE, PROGRAM, SOURCE, Case
from common_serve import built, checked, cluster, kill, line, run, up


class Words(Case):
    def test_help_and_version(self):
        for word in ("-h", "--help"):
            told = run(built(), word)
            self.assertEqual((told.returncode, told.stderr), (0, ""))
            self.assertEqual(told.stdout, (SOURCE / "help.txt").read_text())
        told = run(built(), "--version")
        wanted = f"faultyard-serve {common.version()}\n"
        self.assertEqual((told.returncode, told.stdout), (0, wanted))

    def test_wrong_words_are_refused_before_anything_is_touched(self):
        mode = "--socket-mode takes three octal digits, as 0660"
        loopback = "without --tokens, --listen takes an address of the loopback, as 127.0.0.1:7077"
        for words, why in (
            ([], "one cluster file is needed"),
            (["a", "b", "--audit", "x"], "one cluster file is needed"),
            (["a"], "--audit FILE is needed"),
            (["a", "--audit"], "flag needs an argument: --audit"),
            (["a", "--audit", "x", "--tls-cert", "y"], "--tls-cert and --tls-key go together"),
            (["a", "--audit", "x", "--tokens", "y"], "--tokens and --tls-cert go with --listen"),
            (["a", "--audit", "x", "--listen", "7077"], "--listen takes HOST:PORT"),
            (["a", "--audit", "x", "--listen", "0.0.0.0:0"], loopback),
            (["a", "--audit", "x", "--listen", ":0"], loopback),
            (["a", "--audit", "x", "--listen", "localhost:0"], loopback),
            (["a", "--audit", "x", "--socket-mode", "0888"], mode),
            (["a", "--audit", "x", "--socket-mode", "1777"], mode),
            (["a", "--audit", "x", "--nothing"], "flag provided but not defined: --nothing"),
        ):
            ran = run(built(), *words, cwd=self.folder)
            wanted = f"faultyard-serve: {why}; --help says more\n"
            self.assertEqual((ran.returncode, ran.stdout, ran.stderr), (2, "", wanted))
        self.assertEqual(os.listdir(self.folder), [])

    def test_a_refused_cluster_file_is_told_as_the_program_tells_it(self):
        for fault, file in common.refused_files(str(self.folder)).items():
            status, said = self.refuse(file, "--audit", self.folder / "audit")
            self.assertEqual(status, 1)
            self.assertTrue(said.startswith(f"faultyard-serve: {fault}: "), said)
        self.assertFalse((self.folder / "audit").exists())
        status, said = self.refuse(self.folder / "none", "--audit", self.folder / "audit")
        self.assertEqual((status, "no such file" in said), (3, True))


class Answers(Case):
    def test_random_acts_are_answered_as_run_answers_them(self):
        config = common.six_with(str(self.folder), 5_000)
        acts = list(common.random_acts(63, 3_000))
        wanted = common.run_script(config, acts).encode()
        server = self.server(config=config.read_text()).start()
        talk = server.talk()
        lines = [line({"by": by, "act": act}) for by, act in acts]
        told = [talk.ask(it) for it in lines[:500]]
        # The rest at once: many share a sync, and the answers keep their order.
        rest = threading.Thread(target=talk.socket.sendall, args=(b"".join(lines[500:]),))
        rest.start()
        told += [talk.file.readline() for _ in lines[500:]]
        rest.join()
        self.assertTrue(HEADER + b"".join(told) == wanted, "other answers")
        self.assertTrue(server.file.read_bytes() == wanted, "another audit")
        self.assertEqual(server.end(), 0)
        self.assertEqual(server.check(), "legal 3000")
        self.assertFalse(server.socket.exists())

    def test_it_goes_on_with_its_audit(self):
        server = self.server().start()
        first = server.talk().ask(kill(0, "RebootAndDelete"))
        self.assertEqual(server.end(), 0)
        server.start()
        answer = json.loads(server.talk().ask(kill(2, "RebootAndDelete")))
        self.assertEqual(answer["at"], 1)
        wanted = {"rule": ["TooManyDestroyed", 0], "struck": "Reboot"}
        self.assertEqual(answer["reply"], {"verdict": wanted})
        self.assertEqual(server.lines()[0], first)
        self.assertEqual(server.check(), "legal 2")

    def test_a_line_is_as_long_as_a_guards_may_be(self):
        server = self.server().start()
        talk = server.talk()
        for count, wanted in ((65_536, '"reply":{"no":["IsUp"]}'), (65_537, "line 2: TooLong")):
            text = b" " * (count + 1 - len(up(0))) + up(0)
            by_pipe = run(PROGRAM, "guard", server.config, input=text.decode())
            self.assertIn(wanted.rpartition(": ")[2], by_pipe.stdout + by_pipe.stderr)
            self.assertIn(wanted, talk.ask(text).decode())

    def test_no_line_makes_an_audit_that_it_cant_go_on_with(self):
        server = self.server().start()
        talk, told = server.talk(), []
        for by in (0, 1):
            for length in range(65_400, 65_537, 8):
                shell = line({"by": by, "act": {"begin": {"payload": "", "team": 0}}})
                payload = b'"' + b"0" * ((length + 1 - len(shell)) // 2 * 2) + b'"'
                told.append(json.loads(talk.ask(shell.replace(b'""', payload))))
        status, text = server.ask("POST", "/v1/acts", shell.replace(b'""', payload))
        self.assertEqual((status, "TooLong" in text.decode()), (413, True))
        made = [it for it in told if "act" in it]
        refused = [it["refused"].rpartition(": ")[2] for it in told if "refused" in it]
        self.assertEqual((set(refused), len(made) + len(refused)), ({"TooLong"}, len(told)))
        self.assertGreater(len(made), 1)
        self.assertEqual(server.end(), 0)
        self.assertEqual(json.loads(server.start().talk().ask(kill(0)))["at"], len(made))

    def test_a_faulty_line_ends_nobody(self):
        server = self.server(config=cluster(limit=2)).start()
        talk = server.talk()
        for text, why in (
            (b"x\n", "script: line 1: Syntax"),
            (b"\n", "script: line 2: Syntax"),
            (kill(0).replace(b"RebootProcess", b"KillInstantly"), "script: line 3: Floor"),
            (b"x" * 65_537 + b"\n", "script: line 4: TooLong"),
            (up(0, once="a b"), "script: line 5: OnceName"),
        ):
            self.assertEqual(json.loads(talk.ask(text)), {"refused": why})
        self.assertEqual(json.loads(talk.ask(up(0, once="a")))["reply"], {"no": ["IsUp"]})
        wanted = {"refused": "script: line 7: OnceOther"}
        self.assertEqual(json.loads(talk.ask(up(1, once="a"))), wanted)
        self.assertEqual(json.loads(talk.ask(up(0)))["at"], 1)
        self.assertEqual(json.loads(talk.ask(up(0))), {"refused": "script: JournalFull"})
        self.assertEqual(json.loads(talk.ask(up(0, once="a")))["at"], 0)
        self.assertEqual(server.check(), "legal 2")


class Files(Case):
    def test_the_file_of_another_configuration_is_refused(self):
        server = self.server(http=False).start()
        # What a guard of each of the others would answer too, so its entries alone tell nothing.
        server.talk().ask(kill(0))
        self.assertEqual(server.end(), 0)
        before = server.file.read_bytes()
        kept = self.folder / "audit.cluster"
        self.assertEqual(kept.read_text(), cluster())
        self.assertEqual(kept.stat().st_mode, server.file.stat().st_mode)
        for text in (
            cluster().replace("2,zoneid", "1,zoneid"),
            cluster(processes=8),
            cluster(limit=999),
            cluster() + "# a comment\n",
        ):
            other = common.written(self.folder, "other.toml", text)
            self.assertEqual(checked(other, server.file), (0, "legal 1"))
            status, said = self.refuse(other, "--audit", server.file)
            why = f"{other} isn't the cluster file that it was begun under, which is {kept}"
            self.assertEqual((status, said), (1, f"faultyard-serve: {server.file}: {why}\n"))
            self.assertEqual(server.file.read_bytes(), before)
            self.assertEqual(kept.read_text(), cluster())
        server.words[1] = str(kept)  # The copy is the cluster file.
        self.assertEqual(json.loads(server.start().talk().ask(kill(0)))["at"], 1)

    def test_the_audit_of_a_guard_is_gone_on_with(self):
        server = self.server(http=False)
        told = run(PROGRAM, "guard", server.config, input=kill(0, "RebootAndDelete").decode())
        server.file.write_text(told.stdout)
        other = common.written(self.folder, "other.toml", cluster().replace("2,zoneid", "1,zoneid"))
        bad = self.refuse(other, "--audit", server.file)
        self.assertEqual(bad, (5, f"faultyard-serve: {server.file}: bad entry 0\n"))
        self.assertEqual(server.file.read_text(), told.stdout)
        self.assertEqual(json.loads(server.start().talk().ask(kill(0)))["at"], 1)
        self.assertEqual((self.folder / "audit.cluster").read_text(), cluster())

    def test_a_faulty_audit_is_refused_as_check_refuses_it(self):
        config, file = common.written(self.folder, "c.toml", cluster()), self.folder / "audit"
        script = (kill(0) + kill(1) + up(0)).decode()
        told = run(PROGRAM, "guard", config, input=script).stdout.encode()
        header, *entries = told.splitlines(keepends=True)
        bad = entries[1].replace(b'"Reboot"}}', b"null}}")
        for text in (
            b'{"audit":3}\n',
            b"\n",
            header + b"\n",
            header + entries[1],
            header + entries[0].replace(b"{", b" {", 1),
            header + entries[0] + bad,
            header + entries[0] + bad + entries[2] + b"x\n",
            header + b"x" * 70_000 + b"\n",
            header + entries[0] + entries[0],
        ):
            file.write_bytes(text)
            wanted, why = checked(config, file)
            told = self.refuse(config, "--audit", file)
            self.assertEqual(told, (wanted, f"faultyard-serve: {file}: {why}\n"))
            self.assertEqual(file.read_bytes(), text)
        file.write_bytes(b'{"audit":1}\n' + entries[0])  # It can't be gone on with.
        told = self.refuse(config, "--audit", file)
        self.assertEqual(told, (1, f"faultyard-serve: {file}: audit: line 1: Header\n"))

    def test_half_a_last_line_is_cut_and_told(self):
        server = self.server(http=False).start()
        first = server.talk().ask(kill(0))
        self.assertEqual(server.end(), 0)
        whole = HEADER + first
        for more in (b"{", first[:-1].replace(b'"at":0', b'"at":1')):
            server.file.write_bytes(whole + more)
            server.start()
            wanted = f"{server.file}: its last line is half; cut to the {len(whole)} bytes"
            self.assertIn(wanted, server.said.read_text())
            self.assertEqual(server.file.read_bytes(), whole)
            self.assertEqual(server.end(), 0)

    def test_no_key_is_forgotten_with_its_file(self):
        """A server either knows the key of an act, or is refused."""
        server = self.server(http=False).start()
        talk = server.talk()
        answers = [talk.ask(kill(it, once=f"key-{it}")) for it in range(3)]
        self.assertEqual(server.end(), 0)
        events = self.folder / "audit.events"
        before = events.read_bytes()
        lines = before.splitlines(keepends=True)
        changed = "it isn't as it was written, so keys of acts may be lost"
        gone = "it is gone or empty, and with it the keys of 3 entries: an act that is sent again"
        for what, text, why in (
            ("another digit", before.replace(b"key-1", b"key-7"), f"line 3: {changed}"),
            ("a byte less", before[:100] + before[101:], f"line 2: {changed}"),
            ("a line less", b"".join(lines[:2] + lines[3:]), f"line 3: {changed}"),
            ("half a line", before[:-9], "its last line is half, and isn't as it was written"),
            ("empty", b"", gone),
            ("none", None, gone),
        ):
            with self.subTest(what):
                events.unlink(missing_ok=True)
                if text is not None:
                    events.write_bytes(text)
                status, said = self.refuse(server.config, "--audit", server.file)
                self.assertEqual(status, 1)
                self.assertIn(f"faultyard-serve: {events}: {why}", said)
                self.assertEqual(events.read_bytes() if text is not None else b"", text or b"")
        events.write_bytes(b"".join(lines[:2]))
        talk = server.start().talk()
        self.assertIn("lacks the lines of the entries 1 to 2", server.said.read_text())
        self.assertEqual(talk.ask(kill(0, once="key-0")), answers[0])
        self.assertEqual(server.end(), 0)
        events.write_bytes(before)
        talk = server.start().talk()
        again = [talk.ask(kill(it, once=f"key-{it}")) for it in range(3)]
        self.assertEqual(again, answers)
        self.assertEqual(server.end(), 0)
        self.assertEqual(server.check(), "legal 3")

    def test_a_file_that_is_gone_ends_it(self):
        for end in ("", ".events"):
            with self.subTest(end):
                server = self.server(http=False).start()
                talk, file = server.talk(), self.folder / f"audit{end}"
                first = talk.ask(kill(0))
                file.rename(self.folder / "old")
                self.assertEqual(talk.ask(kill(1)), b"")
                self.assertEqual(server.process.wait(PATIENCE), 3)
                why = f"{file} was removed or replaced while the server ran"
                self.assertIn(f"faultyard-serve: {why}\n", server.said.read_text())
                (self.folder / "old").rename(file)
                server.file.write_bytes(HEADER + first)  # What was never answered goes.
                server.start()
                self.assertEqual(server.end(), 0)
                for path in self.folder.glob("audit*"):
                    path.unlink()

    def test_its_socket_has_the_mode_that_is_given(self):
        for words, mode in ((), 0o600), (("--socket-mode", "0660"), 0o660):
            server = self.server(*words, http=False).start()
            self.assertEqual(server.socket.stat().st_mode & 0o777, mode)
            self.assertEqual(server.end(), 0)

    def test_one_server_at_a_time_holds_a_file(self):
        server = self.server(http=False).start()
        other = self.folder / "other"
        told = self.refuse(server.config, "--audit", server.file, "--socket", other)
        self.assertEqual(told, (3, f"faultyard-serve: {server.file} is held by another process\n"))
        told = self.refuse(server.config, "--audit", other, "--socket", server.socket)
        wanted = f"faultyard-serve: {server.socket}: another server listens there\n"
        self.assertEqual(told, (3, wanted))
        self.assertTrue(server.talk().ask(kill(0)))

    def test_a_full_disk_ends_it_and_nobody_is_answered(self):
        def limit(size):
            return lambda: resource.setrlimit(resource.RLIMIT_FSIZE, (size, size))

        server = self.server(http=False)
        server.limit = limit(100_000)
        server.start()
        answers = []
        talk = server.talk()
        while answer := talk.ask(kill(len(answers) % 6)):
            answers.append(answer)
        self.assertEqual(server.end(), 3)
        self.assertIn("file too large", server.said.read_text())
        self.assertEqual(server.file.read_bytes(), HEADER + b"".join(answers))
        self.assertGreater(len(answers), 500)
        new = self.folder / "new"
        status, said = self.refuse(server.config, "--audit", new, limit=limit(5))
        self.assertEqual((status, "file too large" in said), (3, True))
        self.assertEqual(new.read_bytes(), b"")
        self.assertEqual(list(self.folder.glob("new.*")), [])
        server.limit = None
        server.start()
        self.assertTrue(server.talk().ask(kill(0)))
        self.assertEqual(server.end(), 0)
        self.assertEqual(server.check(), f"legal {len(answers) + 1}")

    def test_it_ends_with_its_status_also_where_nobody_reads_what_it_says(self):
        server = self.server(http=False)
        server.start()
        self.assertEqual(server.end(), 0)
        limit = resource.RLIMIT_FSIZE, (server.file.stat().st_size + 1,) * 2
        words = dict(stderr=subprocess.PIPE, preexec_fn=lambda: resource.setrlimit(*limit))
        server.process = subprocess.Popen(server.words, **words)
        self.assertIn(b"0 entries; socket", server.process.stderr.readline())
        server.process.stderr.close()
        self.assertEqual(server.talk().ask(kill(0)), b"")
        self.assertEqual(server.process.wait(PATIENCE), 3)

    def test_a_full_disk_answers_nobody_of_those_who_ask_together(self):
        server = self.server()
        server.limit = lambda: resource.setrlimit(resource.RLIMIT_FSIZE, (300_000, 300_000))
        server.start()
        answers, ended = [], []

        def ask(number):
            """Ten acts at once, by the socket, or one by HTTP, until the server is gone."""
            act, own = kill(number % 6), []
            with suppress(OSError, AssertionError, ValueError, http.client.HTTPException):
                talk = server.talk()
                while len(own) % 10 == 0:
                    if number % 4 == 0:
                        status, text = server.ask("POST", "/v1/acts", act)
                        own += [text] * (10 if status == 200 else 1)
                        continue
                    talk.socket.sendall(act * 10)
                    own += [it for it in (talk.file.readline() for _ in range(10)) if it]
            answers.extend(it for it in own if it.startswith(b'{"act":'))
            ended.append(number)

        threads = [threading.Thread(target=ask, args=(it,), daemon=True) for it in range(24)]
        for thread in threads:
            thread.start()
        for thread in threads:
            thread.join(PATIENCE)
        self.assertEqual(sorted(ended), list(range(24)))
        self.assertEqual(server.process.wait(PATIENCE), 3)
        self.assertIn("file too large", server.said.read_text())
        entries = server.lines()
        self.assertGreater(len(entries), 1000)
        for answer in answers:
            self.assertEqual(entries[json.loads(answer)["at"]], answer)
        self.assertEqual(server.check(), f"legal {len(entries)}")

    def test_too_few_descriptors_end_nobody(self):
        server = self.server(http=False)
        server.limit = lambda: resource.setrlimit(resource.RLIMIT_NOFILE, (30, 30))
        server.start()
        first = server.talk()
        others = [socket.socket(socket.AF_UNIX) for _ in range(60)]
        for other in others:
            other.connect(str(server.socket))
        self.assertEqual(json.loads(first.ask(kill(0)))["at"], 0)
        for other in others:
            other.close()
        answer = b""
        while not answer:
            with suppress(AssertionError, OSError):  # Somebody may still be there.
                answer = server.talk().ask(kill(0))
        self.assertEqual(json.loads(answer)["at"], 1)
        self.assertEqual(server.end(), 0)

    def test_a_file_that_cannot_be_made_is_told(self):
        config = common.written(self.folder, "c.toml", cluster())
        status, said = self.refuse(config, "--audit", self.folder / "none/audit")
        self.assertEqual((status, "no such file or directory" in said), (3, True))


class Crashes(Case):
    def test_no_answer_is_lost_and_none_is_there_twice_whenever_it_is_killed(self):
        server = self.server().start()
        clients, chance = Clients(server, 8), random.Random(9)
        for number in range(KILLS):
            if number % 4:
                clients.go_on(chance)
            else:
                time.sleep(chance.uniform(0, 0.02))  # It may not be asked before it is killed.
            server.kill()
            server.start()
        clients.go_on(chance)
        clients.end(self, KILLS * 3 // 4)

    def test_signals_end_it_with_status_0(self):
        for number in (signal.SIGTERM, signal.SIGINT):
            server = self.server().start()
            talk = server.talk()
            answer = talk.ask(kill(0))
            server.process.send_signal(number)
            self.assertEqual(server.process.wait(PATIENCE), 0)
            self.assertTrue(server.file.read_bytes().endswith(answer))
            self.assertFalse(server.socket.exists())
            self.assertEqual(talk.file.readline(), b"")
