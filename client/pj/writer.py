"""Packs hunks into changes: needs, knows, limits, several changes where one is not enough.

Who writes a hunk gives it with points; what else it must list is found here:

  - `needs`: the changes to whose positions the hunk refers, and those under `by`;
  - a deletion of text lists who has an up in the range;
  - a deletion of a name lists who has used its child as file or parent;
  - a hunk that has an inode as file or parent lists who has deleted a name of it;
  - an `insert` lists who has deleted (or revived) a byte that is an up of it.

These are the changes that contest a deletion, or whose deletion is contested,
unless one of the two lists the other. All that the graph holds was seen by the
author, so all of them are listed, under `knows` where they are no needs.
"""

from __future__ import annotations

from hashlib import sha256
from typing import Dict, List, NamedTuple, Optional, Sequence, Set, Tuple

from .graph import Graph, Version
from .text import (
    BYTES, HUNKS, KNOWS, MESSAGE, NEEDS, REFERENCES, About, Change, Hunk, Insert, Make, Name,
    Order, Point, Range, owners, positions, room, short, spell, with_owners,
)
from .view import View

LINE = len("needs ") + 65  # the bytes of a line of needs or knows


class Limits(NamedTuple):
    """What one change may have at most; tests set less."""

    size: int = BYTES[2]
    needs: int = NEEDS
    knows: int = KNOWS
    hunks: int = HUNKS


class Unattainable(Exception):
    """What the user wants cannot be said by any change."""


class Writer:
    """Makes changes on top of a view, to which each finished one is added."""

    def __init__(self, view: View, about: About, limits: Limits = Limits()):
        self.view, self.graph, self.about, self.limits = view, view.graph, about, limits
        self.parts: List[Change] = []
        self._names: Dict[str, str] = {}  # what stood for a part while it was made -> its name
        self._begin()

    def _begin(self) -> None:
        """Begins the next change."""
        self.own = f"part {len(self.parts)}"
        self.hunks: List[Hunk] = []
        self.needs: Set[str] = set()
        self.knows: Set[str] = set()
        self.size = 0  # positions
        self.room = 128 + len(self.about.message) + len(self.about.author) + 16  # bytes

    def flush(self) -> None:
        """Finishes the change in the making, if it has a hunk."""
        if not self.hunks:
            return
        over = sorted(self.knows)[self.limits.knows :]
        needs, knows = self.needs | set(over), self.knows - set(over)
        about = self.about
        if self.parts:
            tail = b" (part %d)" % (len(self.parts) + 1)
            about = About(about.message[: MESSAGE - len(tail)] + tail, about.author, about.time)
        while True:
            text = spell(about, self.own, sorted(needs), sorted(knows), self.hunks)
            if sha256(text).hexdigest() not in self.graph.changes:
                break
            # The very text is in the set: the later one gets a later second.
            about = About(about.message, about.author, about.time + 1)
        if len(text) > self.limits.size:
            raise Unattainable("a change would have %d bytes" % len(text))
        change = Change(text)
        self._names[self.own] = change.name
        self.view.add(change)
        self.parts.append(change)
        self._begin()

    def _real_name(self, name: str) -> str:
        return self._names.get(name, name)

    def real(self, point: Point) -> Point:
        """A point, by the name of its change where that is finished."""
        name = self._names.get(point[0])
        return point if name is None else (name, point[1])

    # One hunk.

    def _listed(self, hunk: Hunk) -> Set[str]:
        """What a hunk must list besides its needs."""
        graph: Graph = self.graph
        found: Set[str] = set()

        def used(inode: Point) -> Set[str]:
            return graph.unnamers.get(inode, set())

        if isinstance(hunk, (Make, Name)):
            return used(hunk.parent)
        if isinstance(hunk, Order):
            return used(hunk.file)
        if isinstance(hunk, Insert):
            found |= used(hunk.file)
            for up in hunk.ups:
                if up != hunk.file and up[0] in graph.changes:
                    found |= {row.change for row in graph.deletions(up)}
            return found
        if hunk.word == "delete":
            return graph.rivals(hunk.owner, hunk.start, hunk.end)
        return found

    def _fits(self, hunk: Hunk) -> Optional[Tuple[Hunk, Set[str], Set[str], int]]:
        """The hunk by real names, with what the change has then; None where there is no room."""
        hunk = with_owners(hunk, self._real_name)
        needs = self.needs | (set(owners(hunk)) - {"", self.own})
        knows = (self.knows | self._listed(hunk)) - needs - {self.own}
        lines = len(needs) + len(knows) - len(self.needs) - len(self.knows)
        room_ = self.room + room(hunk) + LINE * lines
        if (
            len(needs) <= self.limits.needs
            and len(needs) + len(knows) <= self.limits.needs + self.limits.knows
            and len(self.hunks) < self.limits.hunks
            and room_ <= self.limits.size
        ):
            return hunk, needs, knows, room_
        return None

    def add(self, hunk: Hunk) -> Point:
        """Adds a hunk, to a further change where this one has no room; its first position."""
        fit = self._fits(hunk)
        if fit is None and self.hunks:
            self.flush()
            fit = self._fits(hunk)
        if fit is None:
            raise Unattainable(_why(hunk))
        hunk, self.needs, self.knows, self.room = fit
        at = (self.own, self.size)
        self.hunks.append(hunk)
        self.size += positions(hunk)
        return at

    # What a client says.

    def make(self, word: str, parent: Point, name: bytes) -> Tuple[Point, Point]:
        """A new file or directory: its name and its inode."""
        own, at = self.add(Make(word, parent, name))
        return (own, at), (own, at + 1)

    def name(self, parent: Point, child: Point, name: bytes, executable: bool) -> Point:
        """A further name of an inode."""
        return self.add(Name("name+x" if executable else "name", parent, child, name))

    def insert(
        self, file: Point, ups: Sequence[Point], downs: Sequence[Point], data: bytes
    ) -> Tuple[Point, Point]:
        """New text, in pieces where a change has not the room: its first and last byte."""
        first: Optional[Point] = None
        last: Point = file
        downs = list(dict.fromkeys(downs))[:REFERENCES]
        ups = list(dict.fromkeys(ups))
        more, ups = ups[REFERENCES:], ups[:REFERENCES]
        while data:
            empty = with_owners(Insert(file, tuple(ups), tuple(downs), b""), self._real_name)
            listed = len(self._listed(empty)) + len(owners(empty))
            spare = self.limits.size - self.room - room(empty) - 64 - LINE * listed
            # A change of its own, unless the text takes several and this one has room.
            alone = len(data) <= self.limits.size // 2 or spare < self.limits.size // 16
            if len(data) > spare and self.hunks and alone:
                self.flush()
                continue
            piece, data = data[:spare], data[spare:]
            own, at = self.add(Insert(file, tuple(ups), tuple(downs), piece))
            first = first or (own, at)
            last = (own, at + len(piece) - 1)
            ups = [last]
        assert first
        for up in more:
            self.order(file, up, first)
        return first, last

    def order(self, file: Point, source: Point, target: Point) -> None:
        """One byte of a file before another one."""
        self.add(Order(file, source, target))

    def overrule(
        self, word: str, owner: str, start: int, end: int, versions: Sequence[Version]
    ) -> None:
        """Deletes or revives a range whose bytes have these surviving versions."""
        by = list(dict.fromkeys(version.change for version in versions))
        while len(by) > REFERENCES:
            self.flush()
            self.add(Range(word, owner, start, end, tuple(by[:REFERENCES])))
            self.flush()
            by = [self.parts[-1].name, *by[REFERENCES:]]
        hunk = Range(word, owner, start, end, tuple(by))
        try:
            self.add(hunk)
        except Unattainable:
            if end - start < 2:
                raise
            middle = (start + end) // 2
            self.overrule(word, owner, start, middle, versions)
            self.overrule(word, owner, middle, end, versions)


def _why(hunk: Hunk) -> str:
    if isinstance(hunk, Range):
        what = "text" if hunk.end - hunk.start > 1 else "a name, or a byte,"
        return (
            f"{what} of change {short(hunk.owner)} was worked on by more changes than one change "
            "can list (1,280)"
        )
    return f"a hunk `{hunk.word}` must list more changes than one change can list (1,280)"
