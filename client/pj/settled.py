"""Which conflicts are settled in the files, so that the next record says so."""

from __future__ import annotations

from collections import Counter
from typing import Container, Dict, List, Mapping, Sequence, Set, Tuple

from .conflicts import Conflict
from .match import Matcher
from .paths import Node
from .standing import HalfResolved, standing
from .text import Point
from .view import View

Parted = Tuple[List[Conflict], List[Conflict]]


def part(
    view: View,
    rows: Sequence[Conflict],
    now: Mapping[bytes, Node],
    moves: Mapping[bytes, bytes],
    keeps: Container[bytes],
) -> Parted:
    """The conflicts of a set that still stand in a folder, and those that are settled there."""
    found = _Settled(view, rows, now, moves, keeps)
    stand: List[Conflict] = []
    done: List[Conflict] = []
    for row in rows:
        (done if found.is_settled(row) else stand).append(row)
    return stand, done


class _Settled:
    """A folder, beside the set that it was made of."""

    def __init__(
        self,
        view: View,
        rows: Sequence[Conflict],
        now: Mapping[bytes, Node],
        moves: Mapping[bytes, bytes],
        keeps: Container[bytes],
    ):
        self.view, self.now, self.keeps = view, now, keeps
        self.where: Dict[Point, bytes] = {}
        if rows:
            entries = Matcher(view.entries, now, view.text, moves).found
            for path, entry in entries.items():
                if entry is not None and not entry.again:
                    self.where[entry.inode] = path
        stay = (row for row in rows if row.kind == "twin" and self._stays(row))
        self.names = Counter(map(self._name, stay))
        self._blocks: Dict[Point, Set[int]] = {}

    def _stays(self, row: Conflict) -> bool:
        return self.where.get(row.inode) == row.path

    def _name(self, row: Conflict) -> Tuple[object, ...]:
        """The parent and the name that a twin shares with others."""
        entry = self.view.entry_at(row.path)
        return (entry.parent, entry.name) if entry else ()

    def is_settled(self, row: Conflict) -> bool:
        """Whether the files say how a conflict ends."""
        path = self.where.get(row.inode)
        if row.line:
            return path is None or row.line not in self._lines(row.inode, path)
        if row.kind == "twin":
            return not self._stays(row) or self.names[self._name(row)] < 2
        if row.kind == "name" and path is not None:
            edited = self.now[path].kind == "file" and (
                self.now[path].data != self.view.text(row.inode)
            )
            return edited or path in self.keeps or row.path in self.keeps
        return row.path not in self.now

    def _lines(self, inode: Point, path: bytes) -> Set[int]:
        """The lines, in the printed text, of the conflicts that still stand in a file."""
        if inode not in self._blocks:
            marked = self.view.marked(inode)
            all_ = [n for n, block in enumerate(marked.blocks) if block.kind != "plain"]
            try:
                left = [stop.block for stop in standing(marked, self.now[path].data)]
            except HalfResolved:
                left = all_
            self._blocks[inode] = {marked.line_of(number) for number in left}
        return self._blocks[inode]
