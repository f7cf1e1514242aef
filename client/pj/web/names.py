"""How the things of a channel are called: paths of inodes, also of those that are gone."""

from __future__ import annotations

from typing import Dict

from ..paths import join
from ..text import ROOT, Point
from ..tree import Entry, spell_point
from ..view import View

DEEPEST = 64  # directories above what is gone


class Names:
    """The paths of a set, by inode."""

    def __init__(self, view: View):
        self.graph = view.graph
        self.entries: Dict[Point, Entry] = {}
        for entry in view.entries:
            self.entries.setdefault(entry.inode, entry)

    def is_there(self, inode: Point) -> bool:
        """Whether the print has an entry of an inode."""
        return inode in self.entries

    def path(self, inode: Point, deep: int = 0) -> bytes:
        """The path in the print; of what is not there, that which its last name gives it."""
        if inode == ROOT:
            return b""
        if inode in self.entries:
            return self.entries[inode].path
        rows = self.graph.names_of.get(inode)
        if not rows or deep > DEEPEST:
            return b"~" + spell_point(inode)
        return join(self.path(rows[-1].parent, deep + 1), rows[-1].name)
