#!/usr/bin/env python3
"""Drawn pairs of edits of one file, merged by the client's rules and by git.

    pairs.py [COUNT]

It counts which of the two finds a conflict, and sees that the texts are equal
where neither does. It needs git.
"""

from __future__ import annotations

import os
import subprocess
import sys
import tempfile
from random import Random
from typing import Dict, List, Optional

import support  # noqa: F401  (finds the package)
from pj.lines import split
from pj.paths import Node
from pj.record import record
from pj.text import About
from pj.view import View

LINES = 8


def drawn_edit(draw: Random, base: bytes, who: bytes) -> bytes:
    """One to three places at which lines are inserted, deleted or replaced."""
    lines = split(base)
    for number in range(draw.randrange(1, 4)):
        at = draw.randrange(len(lines) + 1)
        end = min(len(lines), at + draw.randrange(3))
        fresh = [b"%s %d %d\n" % (who, number, k) for k in range(draw.randrange(3))]
        lines[at:end] = fresh
    return b"".join(lines)


def by_git(place: str, base: bytes, one: bytes, other: bytes) -> Optional[bytes]:
    """The text that git merges; None for a conflict."""
    paths = [os.path.join(place, name) for name in ("one", "base", "other")]
    for path, data in zip(paths, (one, base, other)):
        with open(path, "wb") as file:
            file.write(data)
    done = subprocess.run(["git", "merge-file", "-p", *paths], stdout=subprocess.PIPE, check=False,
                          stderr=subprocess.DEVNULL)
    return done.stdout if done.returncode == 0 else None


def by_client(base: bytes, one: bytes, other: bytes) -> Optional[bytes]:
    """The text that the client records and merges; None for a conflict."""

    def about(who: bytes) -> About:
        return About(b"m", who, 1)

    first = record(View, {b"f": Node("file", False, base)}, about(b"base")).changes
    sets = [list(first), list(first)]
    for names, who, data in zip(sets, (b"ann", b"bob"), (one, other)):
        folder = {b"f": Node("file", False, data)}
        names += record(lambda: View(first), folder, about(who)).changes
    view = View([*sets[0], *sets[1][len(first) :]])
    (entry,) = view.entries
    return view.text(entry.inode) if view.is_clean(entry.inode) else None


def compare(count: int, seed: int = 1) -> Dict[str, int]:
    """How many pairs are in conflict for whom; the texts of the others have to be equal."""
    draw = Random(seed)
    found = {"pairs": 0, "git": 0, "client": 0, "client alone": 0}
    base = b"".join(b"line %d\n" % number for number in range(LINES))
    with tempfile.TemporaryDirectory() as place:
        for _ in range(count):
            one, other = drawn_edit(draw, base, b"ann"), drawn_edit(draw, base, b"bob")
            git, client = by_git(place, base, one, other), by_client(base, one, other)
            found["pairs"] += 1
            found["git"] += git is None
            found["client"] += client is None
            found["client alone"] += client is None and git is not None
            if git is not None and client is not None:
                assert git == client, (one, other, git, client)
    return found


def main(words: List[str]) -> int:
    """Compares as many pairs as are asked for."""
    print(compare(int(words[0]) if words else 2000))
    return 0


if __name__ == "__main__":
    sys.exit(main(sys.argv[1:]))
