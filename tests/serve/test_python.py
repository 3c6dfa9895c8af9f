"""The Python package as a client of the server: over its socket and by HTTP."""

import threading

import common
import faultyard
from common_serve import PATIENCE, Case, certificate, up
from faultyard import Guard, Key, Kind

TOKENS = {0: "zero-zero-zero-zero", 1: "one-one-one-one-one"}


class Guards(Case):
    def test_acts_questions_and_what_others_did(self):
        server = self.server().start()
        for door in (str(server.socket), f"http://{server.address}"):
            with Guard(server.config, server=door) as guard:
                before = guard.journal_len()
                verdict = guard.kill(Key.PROCESS, "p0", Kind.REBOOT_AND_DELETE, by=1)
                self.assertEqual(verdict.struck, Kind.REBOOT_AND_DELETE)
                self.assertTrue(guard.is_destroyed(0))
                self.assertEqual(guard.targets(Key.ZONE, "z0"), {0, 1})
                self.assertEqual((guard.bears().emptied, guard.state(0).up), (0, False))
                server.talk().ask(up(0))
                # The guard has no entry of it yet, and is told of it all the same.
                self.assertEqual((guard.state(0).up, guard.journal_len()), (True, before + 1))
                with self.assertRaises(faultyard.ActRefused):
                    guard.up(0, by=0)
                (other,) = guard.others()
                self.assertEqual((other.at, other.by), (before + 1, 0))
                self.assertEqual(guard.others(), [])
                guard.heal(0, by=0)
                self.assertEqual(guard.journal_len(), before + 4)
                self.assertEqual(guard.audit().encode(), server.file.read_bytes())
            self.assertEqual(guard.audit().encode(), server.file.read_bytes())

    def test_acts_are_made_once_while_the_server_is_killed(self):
        server = self.server().start()
        for door in (str(server.socket), f"http://{server.address}"):
            with Guard(server.config, server=door) as guard:
                before = guard.journal_len()
                for number in range(30):
                    starts = threading.Thread(target=server.start)
                    if number % 6 == 3:
                        server.kill()
                        starts.start()
                    if number % 12 == 3:
                        guard.kill(Key.PROCESS, f"p{number % 6}", Kind.REBOOT, by=1)
                        self.assertFalse(guard.state(number % 6).up)
                    else:
                        judged = guard.judge(Key.PROCESS, f"p{number % 6}", Kind.REBOOT, by=1)
                        verdict = guard.kill(Key.PROCESS, f"p{number % 6}", Kind.REBOOT, by=1)
                        self.assertEqual(verdict, judged)
                    if number % 6 == 3:
                        starts.join()
                self.assertEqual(guard.journal_len() - before, 30)
                self.assertEqual(guard.others(), [])
        self.assertEqual(server.check(), f"legal {len(server.lines())}")

    def test_the_audit_of_the_server_is_left_to_it(self):
        server = self.server().start()
        server.talk().ask(up(0))
        before = server.file.read_bytes()
        with self.assertRaisesRegex(faultyard.AuditExists, "held by another guard"):
            Guard(server.config, server=str(server.socket), folder=server.file.parent)
        self.assertEqual(server.file.read_bytes(), before)

    def test_a_port_is_asked_as_it_speaks(self):
        files = certificate(self.folder)
        words = "--tls-cert", files[0], "--tls-key", files[1]
        for words, scheme, why in (
            (words, "http", "the server speaks TLS there: ask by https"),
            ((), "https", "the server speaks no TLS there: ask by http"),
        ):
            server = self.server(*words).start()
            with self.assertRaisesRegex(faultyard.ProtocolError, f"{server.address}.*: {why}"):
                Guard(server.config, server=f"{scheme}://{server.address}", timeout=PATIENCE)
            self.assertEqual(server.end(), 0)

    def test_a_full_journal_a_wrong_token_and_no_server(self):
        path = common.written(self.folder, "tokens", "")
        path.chmod(0o600)
        path.write_text("".join(f"{token} {actor}\n" for actor, token in TOKENS.items()))
        config = "journal_limit = 1\n" + common.SIX.read_text().partition("\n")[2]
        server = self.server("--tokens", str(path), config=config).start()
        url = f"http://{server.address}"
        with Guard(server.config, server=url, tokens=TOKENS) as guard:
            guard.kill(Key.ZONE, "z0", Kind.REBOOT, by=1)
            with self.assertRaises(faultyard.JournalFull):
                guard.up(0, by=0)
            self.assertEqual(guard.judge(Key.ZONE, "z0", Kind.REBOOT, by=1).struck, Kind.REBOOT)
            self.assertEqual(guard.sight().sleeping, 0)
            with self.assertRaises(faultyard.ProtocolError):
                guard.judge(Key.ZONE, "z0", Kind.REBOOT, by=2)
        with self.assertRaisesRegex(faultyard.ProtocolError, "no token that is known"):
            Guard(server.config, server=url, tokens={0: "none-none-none-none"})
        server.kill()
        for door in (str(server.socket), url):
            with self.assertRaisesRegex(faultyard.GuardEnded, "no answer from .* in 0.2 seconds"):
                Guard(server.config, server=door, timeout=0.2)
