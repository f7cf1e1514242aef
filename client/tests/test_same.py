"""A record is made of the folder, the set that it shows, and what was told, and of nothing else.

The order in which a disk lists files, that in which a channel lists changes, and
the seed of Python's hashes leave its text, and so its name, as it is.
"""

from __future__ import annotations

import os
import subprocess
import sys
import unittest
from random import Random
from typing import Any, Callable, List, Mapping, Sequence
from unittest import mock

import histories
from support import MODEL
from pj.paths import Node
from pj.record import Recorded, record
from pj.text import Change
from pj.view import View

SEEDS, ROUNDS = (1, 2, 3), 40  # of the drawn histories
HASHES = ("0", "1", "12345")


def another_order(changes: Sequence[Change], draw: Random) -> List[Change]:
    """The changes in a drawn order in which each stands behind its needs."""
    left, found, have = list(changes), [], set()
    while left:
        ready = [change for change in left if have.issuperset(change.needs)]
        chosen = draw.choice(ready)
        left.remove(chosen)
        found.append(chosen)
        have.add(chosen.name)
    return found


class Watched:
    """Makes each record some more times, of the same in other orders; keeps the names."""

    def __init__(self, seed: int, times: int):
        self.draw, self.times = Random(seed), times
        self.names: List[str] = []

    def record(
        self, make_view: Callable[[], View], folder: Mapping[bytes, Node], *more: Any
    ) -> Recorded:
        """As `record`, which has to make the same changes each time."""
        changes = list(make_view().graph.changes.values())
        done = record(make_view, folder, *more)
        names = [change.name for change in done.changes]
        for _ in range(self.times):
            rows = list(folder.items())
            self.draw.shuffle(rows)
            order = another_order(changes, self.draw)
            again = record(lambda o=order: View(o), dict(rows), *more)  # type: ignore[misc]
            assert [change.name for change in again.changes] == names, "another record"
        self.names += names
        return done


def play(seed: int, times: int) -> List[str]:
    """The names of all changes that a drawn history records, each of them so many times more."""
    watched = Watched(seed, times)
    with mock.patch.object(histories, "record", watched.record):
        histories.Trial([MODEL, "one"], seed, ROUNDS, **histories.mode(seed))
    return watched.names


class Same(unittest.TestCase):
    def test_whatever_the_order_and_the_hashes(self) -> None:
        wanted = [play(seed, 3) for seed in SEEDS]
        for names in wanted:
            self.assertGreater(len(names), 15)
        for number in HASHES:
            done = subprocess.run(
                [sys.executable, os.path.abspath(__file__), "names"], stdout=subprocess.PIPE,
                env={**os.environ, "PYTHONHASHSEED": number}, check=True, encoding="ascii",
            )
            self.assertEqual([row.split() for row in done.stdout.splitlines()], wanted, number)


if __name__ == "__main__":
    if sys.argv[1:] == ["names"]:
        for one in SEEDS:
            print(*play(one, 0))
    else:
        unittest.main()
