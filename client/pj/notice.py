"""What no print shows: a file or directory that one change moved and another one deleted.

Nothing contests such a deletion, since a name is no use of what it names. The
moved file then stands there without its text, the moved directory without what
was in it, and no marker line says so. A client has to look for it.
"""

from __future__ import annotations

from typing import List, NamedTuple, Set

from .graph import ALIVE, DEAD, Graph
from .text import Insert, Point, Range
from .view import View
from .writer import Writer


class Emptied(NamedTuple):
    """A path that is empty, and the two changes that did not know of each other."""

    path: bytes
    inode: Point
    mover: str
    deleter: str


def emptied(view: View) -> List[Emptied]:
    """What is empty because a deleter did not know of a mover, nor the mover of it."""
    graph, found = view.graph, []
    for entry in view.entries:
        inode = entry.inode
        if entry.again or entry.word != "alive" or inode not in graph.unnamers:
            continue
        if _has_something(graph, inode):
            continue
        named = {row.at[0] for row in graph.names_of[inode]}
        for row in entry.rows:
            for name in sorted(graph.unnamers[inode] - named):
                mover, deleter = graph.changes[row.at[0]], graph.changes[name]
                known = name in mover.listed or mover.name in deleter.listed
                if graph.status(row.at) == ALIVE and not known and inside(graph, inode, name):
                    found.append(Emptied(entry.path, inode, mover.name, name))
    return found


def _has_something(graph: Graph, inode: Point) -> bool:
    """Whether a file has live text, or a directory a name in it."""
    if graph.inodes[inode] == "file":
        return bool(graph.live(inode))
    return any(graph.status(row.at) != DEAD for row in graph.names_in.get(inode, ()))


def inside(graph: Graph, inode: Point, deleter: str) -> List[Range]:
    """What a change deleted of the text of a file, or of the names in a directory."""
    found = []
    for hunk in graph.changes[deleter].hunks:
        if isinstance(hunk, Range) and hunk.word == "delete":
            row = graph.names.get((hunk.owner, hunk.start))
            owner = graph.changes[hunk.owner]
            into = owner.hunks[owner.hunk_at(hunk.start)]
            if row.parent == inode if row else isinstance(into, Insert) and into.file == inode:
                found.append(hunk)
    return found


def restore(writer: Writer, row: Emptied) -> None:
    """Revives what the deleter took out of a file, or of a directory and all that is in it."""
    graph = writer.graph
    todo: List[Point] = [row.inode]
    done: Set[Point] = set()
    while todo:
        inode = todo.pop()
        done.add(inode)
        for hunk in inside(graph, inode, row.deleter):
            name = graph.names.get((hunk.owner, hunk.start))
            if name is not None and name.child not in done:
                todo.append(name.child)
            cuts = graph.cuts.get(graph.block((hunk.owner, hunk.start)), set())
            ends = [hunk.start, *sorted(x for x in cuts if hunk.start < x < hunk.end), hunk.end]
            for start, end in zip(ends, ends[1:]):
                versions = graph.surviving((hunk.owner, start))
                if any(version.change == row.deleter for version in versions):
                    writer.overrule("revive", hunk.owner, start, end, versions)
