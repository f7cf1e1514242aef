"""What of a set of changes is in conflict, with who is in it and what can be done."""

from __future__ import annotations

from typing import Dict, List, NamedTuple, Optional, Tuple

from .graph import DEAD, Graph
from .layout import Layout, Sides
from .marked import Block, Marked, pieces_of
from .notice import emptied
from .paths import base_of
from .text import Point
from .tree import Entry
from .view import View


class Side(NamedTuple):
    """One side of a conflict: its text, and the changes that speak for it."""

    text: bytes
    changes: List[str]


class Conflict(NamedTuple):
    """One conflict of a path."""

    path: bytes
    kind: str  # of text "sides", "zombie", "cycle", "tangle"; else one of the kinds of `HINTS`
    line: int  # where it begins in the text of a file, from 1; 0 where it is none of text
    inode: Point
    sides: List[Side]

    @property
    def key(self) -> Tuple[object, ...]:
        """What tells it from another conflict, whatever has moved meanwhile."""
        sides = tuple((side.text, tuple(side.changes)) for side in self.sides)
        return (self.inode, self.kind, sides)


# What is said of a conflict of a name, and what can be done; `{}` is the path.
HINTS: Dict[str, Tuple[str, str]] = {
    "name": (
        "deleted by the one, worked on by the other",
        "pj keep {} keeps it; delete it to let it go",
    ),
    "twin": (
        "another one has the same name",
        "rename one (pj move), or pj resolve --take NAME keeps one; folders are put together",
    ),
    "again": ("one file with two names, by two moves", "delete it under one of its names"),
    "orphan": ("all its names are deleted, and it was worked on", "pj move {} NEW, or delete it"),
    "adrift": ("no folder leads to it: it was moved into itself", "pj move {} NEW, or delete it"),
    "emptied": (
        "empty: deleted by the one, moved by the other",
        "pj restore {} brings back what was in it; delete it to let it go",
    ),
}
WORDS = {
    "sides": "sides, of which none is before another",
    "zombie": "deleted by the one, worked on by the other",
    "cycle": "pieces that are before each other",
    "tangle": "pieces with an order that cannot be drawn",
}


def conflicts(view: View) -> List[Conflict]:
    """All conflicts of a set, by path and line."""
    found: List[Conflict] = []
    for entry in view.entries:
        found += _of_entry(view.graph, entry)
        if entry.kind == "file" and not entry.again and not view.is_clean(entry.inode):
            found += _of_text(view, entry)
    for row in emptied(view):
        sides = [Side(b"", [row.deleter]), Side(b"", [row.mover])]
        found.append(Conflict(row.path, "emptied", 0, row.inode, sides))
    return sorted(found, key=lambda conflict: (conflict.path, conflict.line))


def _of_entry(graph: Graph, entry: Entry) -> List[Conflict]:
    kinds = []
    if entry.again:
        kinds.append("again")
    if entry.word in ("orphan", "adrift"):
        kinds.append(entry.word)
    elif entry.word == "zombie":
        kinds.append("name")
    if entry.parent is not None and base_of(entry.path) != entry.name:
        kinds.append("twin")
    sides = [] if kinds != ["name"] else zombie_sides(graph, b"", [row.at for row in entry.rows])
    owners = _owners(graph, entry)
    return [
        Conflict(entry.path, kind, 0, entry.inode, sides or [Side(b"", owners)]) for kind in kinds
    ]


def _owners(graph: Graph, entry: Entry) -> List[str]:
    """Who gave an entry its name; of an orphan who deleted them, of what is adrift who gave any."""
    if entry.word == "orphan":
        return sorted(graph.unnamers.get(entry.inode, ()))
    rows = graph.names_of.get(entry.inode, []) if entry.word == "adrift" else entry.rows
    return sorted({row.at[0] for row in rows if graph.name_status(row) != DEAD})


def _of_text(view: View, entry: Entry) -> List[Conflict]:
    """The conflicts of the text of a file, worked out once while no change works on it."""
    rows: Optional[List[Conflict]] = view.text_conflicts.get(entry.inode)
    if rows is None:
        rows = text_conflicts(view.graph, entry.path, view.marked(entry.inode), entry.inode)
        view.text_conflicts[entry.inode] = rows
    return [row._replace(path=entry.path) for row in rows]


def text_conflicts(graph: Graph, path: bytes, marked: Marked, inode: Point) -> List[Conflict]:
    """The conflicts of the text of one file."""
    found = []
    for number, block in enumerate(marked.blocks):
        if block.kind != "plain":
            sides = sides_of(graph, marked, block)
            found.append(Conflict(path, block.kind, marked.line_of(number), inode, sides))
    return found


def sides_of(graph: Graph, marked: Marked, block: Block) -> List[Side]:
    """The sides of a block in conflict, in the order in which they stand.

    Of a run of zombies the first side is to delete it, the second to keep it.
    """
    if block.kind == "zombie":
        points = [marked.order.vertices[vertex].first for vertex in block.vertices]
        text = b"".join(marked.data(vertex) for vertex in block.vertices)
        return zombie_sides(graph, text, points)
    if isinstance(block.layout, Sides):
        return [_side(marked, part) for part in block.layout.parts]
    rows = pieces_of(block.layout)
    return [_side_of(marked, [vertex]) for vertex, _ in rows]


def _side(marked: Marked, part: Layout) -> Side:
    return _side_of(marked, [vertex for vertex, _ in pieces_of(part)])


def _side_of(marked: Marked, vertices: List[int]) -> Side:
    owners = dict.fromkeys(marked.order.vertices[vertex].change for vertex in vertices)
    return Side(b"".join(marked.data(vertex) for vertex in vertices), list(owners))


def zombie_sides(graph: Graph, text: bytes, points: List[Point]) -> List[Side]:
    """Who deletes what stands at these points, and who keeps it."""
    deleters: Dict[str, None] = {}
    keepers: Dict[str, None] = {}
    for point in points:
        for version in graph.surviving(point):
            if version.alive:
                keepers[version.change] = None
                continue
            deleters[version.change] = None
            assert version.deletion
            hunk, own = version.deletion.hunk, graph.changes[version.change]
            for name in sorted(graph.rivals(hunk.owner, hunk.start, hunk.end)):
                other = graph.changes[name]
                if name != own.name and name not in own.listed and own.name not in other.listed:
                    keepers[name] = None
    return [Side(b"", list(deleters)), Side(text, list(keepers))]
