"""A short form of tests/serve/hour: hostile clients of all kinds beside good ones."""

from __future__ import annotations

import sys

from common_serve import PROGRAM, RACE, ROOT, Case, built, run


class Hostile(Case):
    def test_hostile_clients_cost_the_good_ones_no_answer(self) -> None:
        words = [sys.executable, ROOT / "tests/serve/hour", "--minutes", 0.1, "--phases", 2]
        if RACE:
            words += ["--spare", 64]  # The detector notes who touched what.
        ran = run(*words, "--untimed", PROGRAM, built())
        self.assertEqual(ran.returncode, 0, ran.stdout + ran.stderr)
