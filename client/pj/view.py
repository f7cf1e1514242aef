"""A set of changes with what its print says: paths, inodes and texts, each worked out once."""

from __future__ import annotations

from typing import Any, Container, Dict, Iterable, List, Optional, Set, Tuple

from .graph import Graph
from .marked import Marked
from .paths import Folder, Node
from .text import Change, Insert, Order, Point, Range
from .tree import Entry, Tree, Triple


class Unshowable(Exception):
    """The print of a set cannot be the files of a folder; the message says why."""


class View:
    """A set of changes that may grow, and its print as the files of a folder."""

    def __init__(self, changes: Iterable[Change] = ()):
        self.graph = Graph(changes)
        self._texts: Dict[Point, Tuple[bytes, bool]] = {}  # with whether nothing is in conflict
        self._nodes: Dict[Tuple[Point, bool], Node] = {}  # by inode, and whether it is executable
        self.text_conflicts: Dict[Point, List[Any]] = {}  # kept for the module `conflicts`
        self._tree: Optional[Tree] = None
        self._earlier: Optional[Tree] = None  # the walk before the last changes came
        self._printed: Optional[Tuple[Folder, List[Entry]]] = None

    def add(self, change: Change) -> None:
        """Adds a change whose needs are there."""
        self.graph.add(change)
        self._earlier = self._tree or self._earlier
        self._tree = self._printed = None
        for inode in self.files_of(change):
            self._texts.pop(inode, None)
            self.text_conflicts.pop(inode, None)
            self._nodes.pop((inode, False), None)
            self._nodes.pop((inode, True), None)

    def files_of(self, change: Change) -> Set[Point]:
        """The files on whose text a change of the set works."""
        found = set()
        for hunk in change.hunks:
            if isinstance(hunk, (Insert, Order)):
                found.add(hunk.file)
            elif isinstance(hunk, Range):
                owner = self.graph.changes[hunk.owner]
                block = owner.hunks[owner.hunk_at(hunk.start)]
                if isinstance(block, Insert):
                    found.add(block.file)
        return found

    def marked(self, inode: Point) -> Marked:
        """The marked text of a file, by blocks."""
        return Marked(self.graph, inode)

    def text(self, inode: Point) -> bytes:
        """The marked text of a file."""
        found = self._texts.get(inode)
        return self._read(inode)[0] if found is None else found[0]

    def is_clean(self, inode: Point) -> bool:
        """Whether nothing of the text of a file is in conflict."""
        return self._read(inode)[1]

    def _read(self, inode: Point) -> Tuple[bytes, bool]:
        if inode not in self._texts:
            whole = self._untouched(inode)
            if whole is None:
                marked = self.marked(inode)
                self._texts[inode] = (marked.text, marked.clean)
            else:
                self._texts[inode] = (whole, True)
        return self._texts[inode]

    def _untouched(self, inode: Point) -> Optional[bytes]:
        """The text of a file that no change has edited since it was written in one piece."""
        inserts = self.graph.inserts.get(inode, [])
        if not inserts:
            return b""
        name, number = inserts[0]
        change = self.graph.changes[name]
        hunk = change.hunks[number]
        ranges = self.graph.ranges.get((name, change.places[number]))
        if len(inserts) > 1 or ranges or self.graph.orders.get(inode):
            return None
        return hunk.data if isinstance(hunk, Insert) else None

    @property
    def tree(self) -> Tree:
        """The walk of the print."""
        if self._tree is None:
            if self._earlier is None:
                self.graph.take_altered()  # a first walk looks at all names
            self._tree, self._earlier = Tree(self.graph, self._earlier), None
        return self._tree

    @property
    def entries(self) -> List[Entry]:
        """The entries of the print, without the names that were moved away."""
        return self._print()[1]

    @property
    def folder(self) -> Folder:
        """The print as files.

        An inode that has a second path stands there too: a file with its text,
        a directory as an empty one.
        """
        return self._print()[0]

    def _print(self) -> Tuple[Folder, List[Entry]]:
        if self._printed is None:
            self._printed = self.printed()
        return self._printed

    def printed(self, showing: Container[Triple] = ()) -> Tuple[Folder, List[Entry]]:
        """The print as files and its entries; the names in `showing` are shown in any case."""
        if showing and not self.tree.away:
            return self._print()  # all is shown
        entries = self.tree.tidy(showing)
        folder: Folder = {}
        for entry in entries:
            if entry.path in folder:
                raise Unshowable(f"two things have the path {entry.path!r}")
            folder[entry.path] = self._node(entry)
        return folder, entries

    def _node(self, entry: Entry) -> Node:
        """What stands at the path of an entry."""
        key = (entry.inode, entry.executable)
        found = self._nodes.get(key)
        if found is None:
            text = self.text(entry.inode) if entry.kind == "file" else b""
            found = self._nodes[key] = Node(entry.kind, entry.executable, text)
        return found

    def entry_at(self, path: bytes) -> Optional[Entry]:
        """The entry with a path."""
        return next((entry for entry in self.entries if entry.path == path), None)
