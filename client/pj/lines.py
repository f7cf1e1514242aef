"""The difference of two texts by lines, in bounded time.

Equal ends are taken off; lines that both have once are matched in order; what
lies between is matched by `difflib` where it is small, and else not at all.
"""

from __future__ import annotations

from bisect import bisect_left
from collections import Counter
from difflib import SequenceMatcher
from typing import List, Sequence, Tuple

Match = Tuple[int, int, int]  # place in the old, place in the new, how many

DEEPEST = 64  # how often the lines between matched ones are taken for texts of their own
SMALL = 4_000_000  # the most steps that a part may take by difflib


def split(data: bytes) -> List[bytes]:
    """The lines, each with its newline; the last one may have none."""
    if b"\r" not in data:  # at which `splitlines` would split too
        return data.splitlines(keepends=True)
    found = [line + b"\n" for line in data.split(b"\n")]
    last = found.pop()[:-1]
    return found + [last] if last else found


def matches(old: Sequence[bytes], new: Sequence[bytes]) -> List[Match]:
    """Runs of equal lines, rising in both; no two of them touch in both."""
    matching = _Matching(old, new)
    matching.part(0, len(old), 0, len(new), 0)
    joined: List[Match] = []
    for a, c, count in matching.found:
        if joined:
            x, y, before = joined[-1]
            if (x + before, y + before) == (a, c):
                joined[-1] = (x, y, before + count)
                continue
        joined.append((a, c, count))
    return joined


class Lines:
    """The lines of a text, whatever their order: how often each stands there."""

    def __init__(self, text: bytes):
        rows = split(text)
        self.count, self.total = Counter(rows), len(rows)

    def common(self, other: "Lines") -> int:
        """How many lines two texts have in common."""
        few, many = sorted((self.count, other.count), key=len)
        return sum(min(number, many[line]) for line, number in few.items() if line in many)


class _Matching:
    """Two texts, of which parts are matched: the old lines from a up to b, the new ones c to d."""

    def __init__(self, old: Sequence[bytes], new: Sequence[bytes]):
        self.old, self.new = old, new
        self.found: List[Match] = []

    def part(self, a: int, b: int, c: int, d: int, depth: int) -> None:
        """Appends the matches of two parts."""
        old, new = self.old, self.new
        start = 0
        while a + start < b and c + start < d and old[a + start] == new[c + start]:
            start += 1
        if start:
            self.found.append((a, c, start))
            a, c = a + start, c + start
        end = 0
        while a < b - end and c < d - end and old[b - 1 - end] == new[d - 1 - end]:
            end += 1
        b, d = b - end, d - end
        if a < b and c < d:
            self._middle(a, b, c, d, depth)
        if end:
            self.found.append((b, d, end))

    def _middle(self, a: int, b: int, c: int, d: int, depth: int) -> None:
        """The matches of two parts whose ends differ."""
        anchors = self._unique(a, b, c, d) if depth < DEEPEST else []
        if anchors:
            for x, y in anchors:
                self.part(a, x, c, y, depth + 1)
                self.found.append((x, y, 1))
                a, c = x + 1, y + 1
            self.part(a, b, c, d, depth + 1)
        elif self._steps(a, b, c, d) <= SMALL:
            matcher = SequenceMatcher(None, self.old[a:b], self.new[c:d], autojunk=False)
            for x, y, count in matcher.get_matching_blocks():
                if count:
                    self.found.append((a + x, c + y, count))

    def _unique(self, a: int, b: int, c: int, d: int) -> List[Tuple[int, int]]:
        """The longest rising row of lines that both parts have just once."""
        old, new = self.old, self.new
        here, there = Counter(old[a:b]), Counter(new[c:d])
        at = {new[y]: y for y in range(c, d) if there[new[y]] == 1}
        rows = [(x, at[old[x]]) for x in range(a, b) if here[old[x]] == 1 and old[x] in at]
        tops: List[int] = []  # the least end of a rising row of each length
        ends: List[int] = []  # and the number of the pair that ends it
        back = [-1] * len(rows)
        for number, (_, y) in enumerate(rows):
            k = bisect_left(tops, y)
            back[number] = ends[k - 1] if k else -1
            if k == len(tops):
                tops.append(y)
                ends.append(number)
            else:
                tops[k], ends[k] = y, number
        found, number = [], ends[-1] if ends else -1
        while number >= 0:
            found.append(rows[number])
            number = back[number]
        return found[::-1]

    def _steps(self, a: int, b: int, c: int, d: int) -> int:
        """At most about so many steps difflib takes for two parts."""
        there = Counter(self.new[c:d])
        equal = sum(there[line] for line in self.old[a:b])
        return equal * min(b - a, d - c) + (b - a) + (d - c)
