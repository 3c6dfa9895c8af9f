"""faultyard-nemesis as a client of the server: over TCP, by TLS, with the tokens of its actors."""

from __future__ import annotations

import os
import socket
import ssl
import sys
import threading
from contextlib import suppress
from pathlib import Path

from common_serve import PATIENCE, PROGRAM, ROOT, Case, Server, certificate, run

STORE = ROOT / "tests/nemesis"
RIGHT = {0: "zero-zero-zero-zero", 1: "one-one-one-one-one"}
UNKNOWN = "the request has no token that is known"


class Nemesis(Case):
    def tokens(self, name: str, tokens: dict[int, str]) -> Path:
        path = self.folder / name
        path.touch(0o600)
        path.write_text("".join(f"{token} {actor}\n" for actor, token in tokens.items()))
        return path

    def start_server(self) -> Server:
        self.certificate, self.key = certificate(self.folder)
        words = ["--tls-cert", self.certificate, "--tls-key", self.key]
        words += ["--tokens", str(self.tokens("tokens", RIGHT))]
        server = self.server(*words, config=(STORE / "three.toml").read_text())
        return server.start()

    def run_nemesis(self, server: Server, tokens: Path, trusted: str) -> tuple[int, str]:
        """The status of a run of a few seconds, and what it printed."""
        hooks = self.folder / "hooks"
        hooks.write_text(f'#!/bin/sh\nexec {sys.executable} -S {STORE}/store.py "$@"\n')
        hooks.chmod(0o755)
        out = self.folder / f"out-{tokens.name}-{len(trusted)}"
        words = [ROOT / "tools/faultyard-nemesis", server.config, hooks, "--out", out]
        words += ["--guard", f"https://{server.address}", "--tokens", tokens]
        words += ["--seconds", 5, "--pauses", 1, "--hook-timeout", PATIENCE, "--quiet"]
        env = {**os.environ, "FAULTYARD": PROGRAM, "SSL_CERT_FILE": trusted}
        ran = run(*words, env=env)
        return ran.returncode, ran.stdout + ran.stderr

    def test_it_orders_by_tls_with_the_tokens_of_its_actors(self) -> None:
        server = self.start_server()
        status, told = self.run_nemesis(server, self.folder / "tokens", self.certificate)
        self.assertEqual(status, 0, told)
        self.assertIn(" 0 lost", told)
        entries = server.lines()
        orders = [it for it in entries if b'"by":1,' in it]
        self.assertGreater(len(orders), 0, told)
        self.assertIn(f"audit legal {len(entries)};", told)
        self.assertEqual(server.check(), f"legal {len(entries)}")
        audit = self.folder / f"out-tokens-{len(self.certificate)}/audit"
        self.assertEqual(audit.read_bytes(), server.file.read_bytes())

    def test_wrong_tokens_end_it(self) -> None:
        server = self.start_server()
        zero, one = RIGHT[0], RIGHT[1]
        for name, tokens, why in (
            ("wrong", {0: zero[:-1] + "x", 1: one[:-1] + "x"}, UNKNOWN),
            ("missing", {0: zero}, UNKNOWN),
            ("swapped", {0: one, 1: zero}, "the token is of another actor"),
        ):
            told = self.run_nemesis(server, self.tokens(name, tokens), self.certificate)
            self.assertEqual(told[0], 4, told[1])
            self.assertRegex(told[1], rf"^faultyard-nemesis: \w+ /v1/\S+: {why}\n\Z")
        self.assertEqual(server.lines(), [])

    def test_a_certificate_that_is_not_trusted_ends_it_at_once(self) -> None:
        server, came = self.start_server(), 0
        context = ssl.SSLContext(ssl.PROTOCOL_TLS_SERVER)
        context.load_cert_chain(self.certificate, self.key)
        listener = socket.create_server(("127.0.0.1", 0))
        self.addCleanup(listener.close)

        def greet() -> None:
            nonlocal came
            with suppress(OSError):
                while True:
                    connection, _ = listener.accept()
                    came += 1
                    with suppress(OSError), context.wrap_socket(connection, server_side=True):
                        pass

        threading.Thread(target=greet, daemon=True).start()
        server.address = f"127.0.0.1:{listener.getsockname()[1]}"
        status, said = self.run_nemesis(server, self.folder / "tokens", "/dev/null")
        self.assertEqual(status, 4, said)
        self.assertIn("self-signed certificate; SSL_CERT_FILE names what is trusted\n", said)
        self.assertEqual(came, 1)
