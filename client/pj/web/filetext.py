"""The text of a file as a person reads it: lines with their changes, and conflicts set apart.

The marked text is read by its tokens: a marker line is known by its place, and
becomes the edge of a conflict or of a side. Each line keeps the number that it
has in the file that `pj` writes, where the marker lines count.
"""

from __future__ import annotations

from typing import Dict, Iterator, List, NamedTuple, Sequence, Union

from ..conflicts import zombie_sides
from ..lines import split
from ..marked import Mark, Marked, Piece


class Line(NamedTuple):
    """A line, without its newline, and the latest change that has a byte in it."""

    number: int
    data: bytes
    change: str


class Side(NamedTuple):
    """One side of a conflict: the changes that speak for it, and its text."""

    changes: List[str]
    items: "List[Item]"
    more: int = 0  # lines that are left out


class Conflict(NamedTuple):
    """A conflict: "sides", "zombie", "cycle" or "tangle"; of a zombie one side deletes, the other
    keeps."""

    kind: str
    id: int  # from 1, in the order of the file
    number: int  # of the line that begins it in the file that `pj` writes
    sides: List[Side]
    instead: bool = False  # whether its sides stand for lines that all of them replaced


Item = Union[Line, Conflict]


class _Open(NamedTuple):
    """A conflict of which not all was read, and the vertices of its text."""

    conflict: Conflict
    vertices: List[int]


class _Reader:
    """Reads the tokens of a marked text."""

    def __init__(self, marked: Marked, place: Dict[str, int]):
        self.marked, self.place = marked, place
        self.top: List[Item] = []
        self.items = self.top  # to which the next line goes
        self.open: List[_Open] = []
        self.number, self.count = 1, 0  # of the next line; conflicts so far
        self.data, self.change = b"", ""  # of the line that is read

    def read(self) -> List[Item]:
        """The items of the file."""
        for block in self.marked.blocks:
            for token in block.tokens:
                if isinstance(token, Mark):
                    self._line()
                    self._mark(token.data.split())
                    self.number += 1
                else:
                    self._piece(token)
        self._line()
        return self.top

    def _piece(self, piece: Piece) -> None:
        name = self.marked.order.vertices[piece.vertex].change
        for held in self.open:
            held.vertices.append(piece.vertex)
            side = held.conflict.sides[-1]
            if name not in side.changes:
                side.changes.append(name)
        for text in split(piece.data):
            self.data += text
            if self.place.get(name, -1) >= self.place.get(self.change, -1):
                self.change = name
            if text.endswith(b"\n"):
                self._line()

    def _line(self) -> None:
        """Ends the line that is read, if there is one."""
        if self.data:
            text = self.data[:-1] if self.data.endswith(b"\n") else self.data
            self.items.append(Line(self.number, text, self.change))
            self.number += 1
        self.data, self.change = b"", ""

    def _mark(self, words: List[bytes]) -> None:
        """A marker line: it begins a conflict, or its next side, or ends it."""
        if words[0].startswith(b">"):
            self.count += 1
            kind = words[2].decode() if len(words) > 2 else "sides"
            conflict = Conflict(kind, self.count, self.number, [Side([], [])])
            self.items.append(conflict)
            self.open.append(_Open(conflict, []))
        elif words[0].startswith(b"="):
            self.open[-1].conflict.sides.append(Side([], []))
        else:
            self._close(self.open.pop())
        self.items = self.open[-1].conflict.sides[-1].items if self.open else self.top

    def _close(self, done: _Open) -> None:
        if done.conflict.kind != "zombie":
            return
        points = [self.marked.order.vertices[vertex].first for vertex in done.vertices]
        deleted, kept = zombie_sides(self.marked.graph, b"", points)
        (text,) = done.conflict.sides
        done.conflict.sides[:] = [Side(deleted.changes, []), Side(kept.changes, text.items)]


def read(marked: Marked, place: Dict[str, int]) -> List[Item]:
    """The lines and conflicts of a file; `place` orders the changes of the set."""
    items = _Reader(marked, place).read()
    for k, (one, other) in enumerate(zip(items, items[1:]), 1):
        if isinstance(one, Conflict) and isinstance(other, Conflict) and _replaces(one, other):
            items[k] = other._replace(instead=True)
    return items


def _replaces(one: Conflict, other: Conflict) -> bool:
    """Whether the one has the lines that the sides of the other replaced."""
    if (one.kind, other.kind) != ("zombie", "sides"):
        return False
    deleters, keepers = ({*side.changes} for side in one.sides)
    writers = {name for side in other.sides for name in side.changes}
    return len(deleters) > 1 and deleters == keepers == writers


def lines(items: Sequence[Item]) -> Iterator[Line]:
    """The lines in their order, those in conflicts too."""
    for item in items:
        if isinstance(item, Line):
            yield item
        else:
            for side in item.sides:
                yield from lines(side.items)


def conflicts(items: Sequence[Item]) -> Iterator[Conflict]:
    """The conflicts in their order, each before those within it."""
    for item in items:
        if isinstance(item, Conflict):
            yield item
            for side in item.sides:
                yield from conflicts(side.items)


def shortened(conflict: Conflict, most: int) -> Conflict:
    """A conflict with no more than the first lines of each side; those within it stay whole."""
    sides = []
    for side in conflict.sides:
        rest = sum(1 for _ in lines(side.items[most:]))
        sides.append(Side(side.changes, side.items[:most], rest))
    return conflict._replace(sides=sides)
