"""What a set of changes says: versions, contests, statuses, vertices and names.

The rules are those of docs/MODEL.md. Changes are added one by one, each into
indexes by block, by file and by inode, so that a question about one file costs
what that file has; what is asked is worked out when it is asked for.
"""

from __future__ import annotations

from bisect import bisect_left, bisect_right, insort
from collections import defaultdict
from typing import Dict, Iterable, List, NamedTuple, Optional, Sequence, Set, Tuple

from .text import Change, Insert, Make, Name, Order, Point, Range

ALIVE, DEAD, ZOMBIE = "alive", "dead", "zombie"


class Deletion(NamedTuple):
    """A `delete` or `revive` hunk of the set, with its change and its number there."""

    change: str
    number: int
    hunk: Range


class Version(NamedTuple):
    """A version of a byte or name that survives."""

    change: str
    deletion: Optional[Deletion]  # None for the owner's version

    @property
    def alive(self) -> bool:
        """Whether this version says that the byte or name is alive."""
        return self.deletion is None or self.deletion.hunk.word == "revive"


class NameRow(NamedTuple):
    """A name that a hunk gives; `at` is its point."""

    at: Point
    parent: Point
    name: bytes
    child: Point
    executable: bool


class Vertex(NamedTuple):
    """A run of a block between cuts: positions of a change from `start` up to `end`."""

    change: str
    start: int
    end: int

    @property
    def first(self) -> Point:
        """Its first point."""
        return (self.change, self.start)

    @property
    def last(self) -> Point:
        """Its last point."""
        return (self.change, self.end - 1)


class Graph:
    """A set of changes, with an index for each thing that is asked of it."""

    def __init__(self, changes: Iterable[Change] = ()):
        self.changes: Dict[str, Change] = {}
        self.inodes: Dict[Point, str] = {}  # "file" or "dir"
        self.names: Dict[Point, NameRow] = {}
        self.names_of: Dict[Point, List[NameRow]] = defaultdict(list)
        self.names_in: Dict[Point, List[NameRow]] = defaultdict(list)
        self.inserts: Dict[Point, List[Tuple[str, int]]] = defaultdict(list)  # by file
        self.orders: Dict[Point, List[Order]] = defaultdict(list)  # by file
        # By block, which is known by its owner and the first position of its insert or name.
        self.ranges: Dict[Point, List[Deletion]] = defaultdict(list)
        self.ups: Dict[Point, List[Tuple[int, str]]] = defaultdict(list)
        self.cuts: Dict[Point, Set[int]] = defaultdict(set)
        # By inode: who has it as file or parent, and who has deleted a name of it.
        self.users: Dict[Point, Set[str]] = defaultdict(set)
        self.unnamers: Dict[Point, Set[str]] = defaultdict(set)
        # Answers given before, until a change comes on which they may depend.
        self._contested: Dict[Tuple[str, int], bool] = {}
        self._name_statuses: Dict[Point, str] = {}
        self._altered: Dict[Point, NameRow] = {}  # names whose status is to be asked again
        self._covers: Dict[Point, Tuple[List[int], List[List[Deletion]]]] = {}
        for change in changes:
            self.add(change)

    def add(self, change: Change) -> None:
        """Adds a change whose needs are there."""
        self.changes[change.name] = change
        self._contested.clear()
        for number, hunk in enumerate(change.hunks):
            at = (change.name, change.places[number])
            if isinstance(hunk, Make):
                inode = (change.name, at[1] + 1)
                self.inodes[inode] = "dir" if hunk.word == "dir" else "file"
                self._add_name(NameRow(at, hunk.parent, hunk.name, inode, hunk.word == "file+x"))
            elif isinstance(hunk, Name):
                executable = hunk.word == "name+x"
                self._add_name(NameRow(at, hunk.parent, hunk.name, hunk.child, executable))
            elif isinstance(hunk, Insert):
                self.inserts[hunk.file].append((change.name, number))
                self._use(hunk.file, change.name)
                for up in hunk.ups:
                    if up != hunk.file:
                        insort(self.ups[self.block(up)], (up[1], change.name))
                        self._cut(up, 1)
                for down in hunk.downs:
                    self._cut(down, 0)
            elif isinstance(hunk, Order):
                self.orders[hunk.file].append(hunk)
                self._use(hunk.file, change.name)
                self._cut(hunk.source, 1)
                self._cut(hunk.target, 0)
            else:
                block = self.block((hunk.owner, hunk.start))
                self.ranges[block].append(Deletion(change.name, number, hunk))
                self._covers.pop(block, None)
                row = self.names.get(block)
                if row is None:
                    self.cuts[block] |= {hunk.start, hunk.end}
                    continue
                self._alter(row)
                if hunk.word == "delete":
                    self.unnamers[row.child].add(change.name)

    def _add_name(self, row: NameRow) -> None:
        self.names[row.at] = row
        self.names_of[row.child].append(row)
        self.names_in[row.parent].append(row)
        self._alter(row)
        self._use(row.parent, row.at[0])

    def _use(self, inode: Point, change: str) -> None:
        """A change has an inode as file or parent, and so may contest deletions of its names."""
        self.users[inode].add(change)
        for row in self.names_of.get(inode, ()):
            if self.ranges.get(row.at):  # else it is alive, whoever uses its child
                self._alter(row)

    def _alter(self, row: NameRow) -> None:
        """The status of a name may be another one from now on."""
        self._name_statuses.pop(row.at, None)
        self._altered[row.at] = row

    def _cut(self, point: Point, shift: int) -> None:
        self.cuts[self.block(point)].add(point[1] + shift)

    def block(self, point: Point) -> Point:
        """The block that has a byte; of a name it is the name itself."""
        return (point[0], self.changes[point[0]].block_at(point[1]))

    # Versions, contests and statuses.

    def deletions(self, point: Point) -> List[Deletion]:
        """The `delete` and `revive` hunks that cover a byte or name."""
        block = self.block(point)
        if block not in self._covers:
            self._covers[block] = _covers(sorted(self.ranges.get(block, ())))
        starts, rows = self._covers[block]
        return rows[bisect_right(starts, point[1])]

    def surviving(self, point: Point) -> List[Version]:
        """The versions of a byte or name that no hunk overrules."""
        rows = self.deletions(point)
        gone = {name for row in rows for name in row.hunk.by}
        found = [] if point[0] in gone else [Version(point[0], None)]
        return found + [Version(row.change, row) for row in rows if row.change not in gone]

    def rivals(self, owner: str, start: int, end: int) -> Set[str]:
        """The changes that contest a deletion of this range unless one lists the other."""
        block = self.block((owner, start))
        row = self.names.get(block)
        if row is not None:
            return self.users.get(row.child, set())
        rows = self.ups.get(block, [])
        first, last = (bisect_left(rows, (at, "")) for at in (start, end))
        return {name for _, name in rows[first:last]}

    def contested(self, deletion: Deletion) -> bool:
        """Whether a change works on what is deleted, and neither of the two lists the other."""
        key = (deletion.change, deletion.number)
        if key not in self._contested:
            hunk, own = deletion.hunk, self.changes[deletion.change]
            self._contested[key] = any(
                name != own.name
                and name not in own.listed
                and own.name not in self.changes[name].listed
                for name in self.rivals(hunk.owner, hunk.start, hunk.end)
            )
        return self._contested[key]

    def status(self, point: Point) -> str:
        """The status of a byte or name: alive, dead or zombie."""
        versions = self.surviving(point)
        if all(version.alive for version in versions):
            return ALIVE
        if any(version.alive for version in versions):
            return ZOMBIE
        rows = [version.deletion for version in versions if version.deletion]
        return ZOMBIE if any(self.contested(row) for row in rows) else DEAD

    # Names.

    def take_altered(self) -> List[NameRow]:
        """The names that are new, or whose status may be another one, since this was last asked."""
        found, self._altered = list(self._altered.values()), {}
        return found

    def name_status(self, row: NameRow) -> str:
        """The status of a name."""
        if row.at not in self._name_statuses:
            self._name_statuses[row.at] = self.status(row.at)
        return self._name_statuses[row.at]

    # Text.

    def vertices(self, inode: Point) -> List[Vertex]:
        """The text vertices of a file, dead ones too, by their first points."""
        found = []
        for name, number in self.inserts.get(inode, ()):
            start, end = self.changes[name].places[number : number + 2]
            inner = sorted(x for x in self.cuts.get((name, start), ()) if start < x < end)
            found += [Vertex(name, a, b) for a, b in zip([start, *inner], [*inner, end])]
        return sorted(found)

    def pairs(self, inode: Point) -> List[Tuple[Point, Point]]:
        """The block and order edges between text vertices of a file, as pairs of points."""
        found = []
        for name, number in self.inserts.get(inode, ()):
            hunk = self.changes[name].hunks[number]
            start, end = self.changes[name].places[number : number + 2]
            found += [(up, (name, start)) for up in hunk.ups if up != inode]
            inner = [x for x in self.cuts.get((name, start), ()) if start < x < end]
            found += [((name, x - 1), (name, x)) for x in inner]
            found += [((name, end - 1), down) for down in hunk.downs]
        found += [(hunk.source, hunk.target) for hunk in self.orders.get(inode, ())]
        return found

    def data(self, vertex: Vertex) -> bytes:
        """The bytes of a vertex."""
        return self.changes[vertex.change].data(vertex.start, vertex.end)

    def live(self, inode: Point) -> List[Vertex]:
        """The vertices of a file that are not dead."""
        return [vertex for vertex in self.vertices(inode) if self.status(vertex.first) != DEAD]


def _covers(rows: Sequence[Deletion]) -> Tuple[List[int], List[List[Deletion]]]:
    """The places where the rows over a position change; the rows before and from each of them."""
    opens: Dict[int, List[Deletion]] = defaultdict(list)
    ends: Dict[int, List[Deletion]] = defaultdict(list)
    for row in rows:
        opens[row.hunk.start].append(row)
        ends[row.hunk.end].append(row)
    starts = sorted({*opens, *ends})
    found: List[List[Deletion]] = [[]]
    for at in starts:
        gone = ends.get(at, ())
        found.append([row for row in found[-1] if row not in gone] + opens.get(at, []))
    return starts, found
