"""Drawn histories: on the disk by commands, and in memory with the server's prints."""

from __future__ import annotations

import os
import unittest

import folders
import histories
from support import PROGRAM, Case

LONG = bool(os.environ.get("PJ_LONG"))


class Drawn(Case):
    def test_folders(self) -> None:
        for seed in range(12 if LONG else 3):
            with self.subTest(seed=seed):
                count = folders.play(seed, 200 if LONG else 50, self.server)
                self.assertGreater(count["records"], 5)

    def test_prints(self) -> None:
        for seed in range(16 if LONG else 2):
            with self.subTest(seed=seed):
                rounds = 200 if LONG else 50
                trial = histories.Trial([PROGRAM, "one"], seed, rounds, **histories.mode(seed))
                self.assertGreater(trial.count["records"], 5)
                self.assertEqual(trial.count["whole"], 0)


if __name__ == "__main__":
    unittest.main()
