"""The marked text of a file: the text that a print shows (docs/FORMATS.md).

It is made of blocks, each alive text or one conflict, and a block of pieces and
marker lines. So each byte of it is known as a byte of a change, or as part of a
marker line, by its place and never by its look.
"""

from __future__ import annotations

from typing import Callable, List, NamedTuple, Optional, Sequence, Tuple, Union

from .graph import ZOMBIE, Graph
from .layout import FileOrder, Layout, One, Series, Sides, lay_out
from .text import Point


class Piece(NamedTuple):
    """The bytes of a live vertex."""

    vertex: int
    data: bytes


class Mark(NamedTuple):
    """A marker line; `data` has the newline before it where one was needed."""

    data: bytes
    broke: bool  # whether one was needed


Token = Union[Piece, Mark]


class Block(NamedTuple):
    """What stands by itself in the series of a file: alive text, or one conflict."""

    kind: str  # "plain", "zombie", "sides", "cycle" or "tangle"
    layout: Layout  # of a run of zombies the series of its vertices
    tokens: List[Token]

    @property
    def data(self) -> bytes:
        """The bytes of the block, marker lines too."""
        return b"".join(token.data for token in self.tokens)

    @property
    def vertices(self) -> List[int]:
        """The vertices of its pieces, as they stand."""
        return [token.vertex for token in self.tokens if isinstance(token, Piece)]


class Marked:
    """The marked text of a file, by blocks."""

    def __init__(self, graph: Graph, inode: Point):
        self.order = FileOrder(graph, inode)
        self.graph, self.inode = graph, inode
        self.blocks: List[Block] = []
        self._count, self._run = 0, 0  # markers so far; the number of the zombie run that is open
        self._ends = True  # nothing was written, or its last byte is a newline
        layout = lay_out(self.order)
        for part in layout.parts if isinstance(layout, Series) else [layout]:
            self._block(part)
        self._close_last()
        self.text = b"".join(block.data for block in self.blocks)

    def data(self, vertex: int) -> bytes:
        """The bytes of a vertex, given its number."""
        return self.graph.data(self.order.vertices[vertex])

    @property
    def clean(self) -> bool:
        """Whether nothing of the file is in conflict."""
        return all(block.kind == "plain" for block in self.blocks)

    def line_of(self, number: int) -> int:
        """The line, counted from 1, at which a block begins."""
        before = b"".join(block.data for block in self.blocks[:number])
        first = self.blocks[number].tokens[0]
        return 1 + before.count(b"\n") + (isinstance(first, Mark) and first.broke)

    def _block(self, part: Layout) -> None:
        if isinstance(part, One) and not part.cyclic:
            self._one(part)
            return
        self._close_last()
        kind = "cycle" if isinstance(part, One) else "sides"
        if isinstance(part, Sides) and part.tangle:
            kind = "tangle"
        self.blocks.append(Block(kind, part, []))
        self._draw(part, self.blocks[-1].tokens)

    def _one(self, part: One) -> None:
        """A vertex that stands by itself: a block of its own, or more of the zombie run."""
        (vertex,) = part.vertices
        if self.order.status[vertex] != ZOMBIE:
            self._close_last()
            self.blocks.append(Block("plain", part, []))
        elif self._run:
            run = self.blocks[-1].layout
            assert isinstance(run, Series)
            run.parts.append(part)
        else:
            self.blocks.append(Block("zombie", Series([part]), []))
        self._vertex(vertex, self.blocks[-1].tokens)

    def _draw(self, part: Layout, out: List[Token]) -> None:
        if isinstance(part, One) and not part.cyclic:
            self._vertex(part.vertices[0], out)
        elif isinstance(part, Series):
            for inner in part.parts:
                self._draw(inner, out)
        elif isinstance(part, One):
            self._between_marks(" cycle", [One([vertex], False) for vertex in part.vertices], out)
        else:
            self._between_marks(" tangle" if part.tangle else "", part.parts, out)

    def _between_marks(self, word: str, parts: Sequence[Layout], out: List[Token]) -> None:
        self._close(out)
        self._count += 1
        number = self._count
        self._mark(f">>>>>>> {number}{word}", out)
        for place, inner in enumerate(parts):
            if place:
                self._close(out)
                self._mark(f"======= {number}", out)
            self._draw(inner, out)
        self._close(out)
        self._mark(f"<<<<<<< {number}", out)

    def _vertex(self, vertex: int, out: List[Token]) -> None:
        if self.order.status[vertex] != ZOMBIE:
            self._close(out)
        elif not self._run:
            self._count += 1
            self._run = self._count
            self._mark(f">>>>>>> {self._run} zombie", out)
        data = self.data(vertex)
        out.append(Piece(vertex, data))
        self._ends = data.endswith(b"\n")

    def _close(self, out: List[Token]) -> None:
        """Closes the zombie run that is open, if one is."""
        if self._run:
            self._mark(f"<<<<<<< {self._run}", out)
            self._run = 0

    def _close_last(self) -> None:
        if self.blocks:
            self._close(self.blocks[-1].tokens)

    def _mark(self, line: str, out: List[Token]) -> None:
        broke = not self._ends
        out.append(Mark((b"\n" if broke else b"") + line.encode() + b"\n", broke))
        self._ends = True


Row = Tuple[int, bool]  # a vertex, and whether it is in a cycle


def pieces_of(layout: Layout, place: Optional[Callable[[List[Row]], int]] = None) -> List[Row]:
    """The vertices of a layout in an order that it allows.

    `place` says where a part of sides is wanted, given its vertices; the sides
    come in that order.
    """
    if isinstance(layout, One):
        return [(vertex, layout.cyclic) for vertex in layout.vertices]
    parts = [pieces_of(part, place) for part in layout.parts]
    if isinstance(layout, Sides) and not layout.tangle and place:
        parts.sort(key=place)
    return [row for part in parts for row in part]
