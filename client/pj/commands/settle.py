"""The command that lists conflicts, and settles those that need no editor: resolve."""

from __future__ import annotations

from argparse import Namespace
from typing import Dict, List, Sequence, Set, Tuple

from .. import resolve, update
from ..conflicts import HINTS, WORDS, Conflict, Side, conflicts
from ..edit import is_binary
from ..lines import split
from ..paths import Node, is_under, join, parent_of
from ..say import Stop, line, many, raw
from ..standing import HalfResolved
from ..text import Point
from ..twins import are_folders, equal_files, is_file, join_folders
from ..workspace import Workspace, refuse_edited
from .common import part_conflicts, who

SHOWN = 8  # lines of a side that are listed


def run_resolve(workspace: Workspace, given: Namespace) -> int:
    """Lists the conflicts with their sides; or takes a side, or settles equal ones."""
    paths = [workspace.path_of(word) for word in given.paths]
    rows = [
        row for row in conflicts(workspace.shown)
        if not paths or any(_is_at(workspace, row, path) for path in paths)
    ]
    if not rows:
        if given.take or given.same:
            raise Stop("nothing is in conflict there", "pj status tells how the folder stands")
        line("nothing is in conflict")
        return 0
    if not given.take and not given.same:
        stand, done = part_conflicts(workspace, rows)
        for row in stand:
            _list(workspace, row)
        if done:
            line(f"settled in the files: {many(len(done), 'conflict')}")
        if not stand:
            line("pj record -m MESSAGE records it")
            return 0
        line(
            "edit the files, or take a side (pj resolve --take NAME PATH);"
            " then pj record -m MESSAGE"
        )
        return 0
    taken = workspace.named(given.take) if given.take else ""
    return _settle(workspace, rows, resolve.take(taken) if taken else resolve.same, taken)


def _is_at(workspace: Workspace, row: Conflict, path: bytes) -> bool:
    """Whether a conflict is at a path, or within it; a twin is also at the name that it shares."""
    if is_under(row.path, path):
        return True
    entry = workspace.shown.entry_at(row.path) if row.kind == "twin" else None
    return entry is not None and is_under(join(parent_of(row.path), entry.name), path)


def _list(workspace: Workspace, row: Conflict) -> None:
    path = workspace.relative(row.path)
    if row.kind in HINTS:
        what, hint = HINTS[row.kind]
        line(f"{path}: {what}")
        words = ("deleted by", "kept by") if row.kind in ("name", "emptied") else ("by", "by")
        for word, side in zip(words, row.sides):
            if side.changes:
                line(f"    {word} {who(workspace, side.changes)}")
        line(f"    {hint.format(path)}")
        return
    line(f"{path}:{row.line}: {WORDS[row.kind]}")
    for number, side in enumerate(row.sides):
        if row.kind == "zombie":
            word = ("delete it:", "keep it:")[number]
        else:
            word = f"{number + 1}:"
        line(f"    {word} {who(workspace, side.changes)}")
        _excerpt(side)


def _excerpt(side: Side) -> None:
    if is_binary(side.text):
        line(f"        ({len(side.text):,} bytes that are no text)")
        return
    rows = split(side.text)
    for text in rows[:SHOWN]:
        raw(b"        | " + text.rstrip(b"\n") + b"\n")
    if len(rows) > SHOWN:
        line(f"        and {many(len(rows) - SHOWN, 'line')} more")


class _Settled:
    """What settling came to: the files before and after, the names kept, and what is left."""

    def __init__(self, workspace: Workspace):
        self.workspace = workspace
        self.old: Dict[bytes, Node] = {}
        self.new: Dict[bytes, Node] = {}
        self.moves: Dict[bytes, bytes] = {}
        self.keeps: Set[bytes] = set()
        self.lines: List[str] = []
        self.left = 0

    def name(self, row: Conflict, taken: str) -> None:
        """The name of a file or folder is kept, or the file goes; a folder is not taken away."""
        path, node = row.path, self.workspace.scan.folder.get(row.path)
        deleters, keepers = (side.changes for side in row.sides)
        if taken in deleters and node is not None and node.kind == "file":
            self._remove(path, node)
        elif taken in keepers and taken not in deleters:
            self.keeps.add(path)
            self.lines.append(f"kept     {self.workspace.relative(path)}")
        else:
            self.left += 1

    def twins(self, paths: Sequence[bytes], taken: Set[bytes]) -> None:
        """Files or folders with one name become one: the one of `taken`, or any of equals.

        Of files the others go; what is in the other folders comes into the one that stays.
        """
        nodes = [self.workspace.scan.folder.get(path) for path in paths]
        stays = min(taken or paths)
        if are_folders(nodes) and self._join(stays, paths):
            self.lines.append(f"joined   {self.workspace.relative(stays)}")
        elif (len(taken) == 1 and all(map(is_file, nodes))) or equal_files(nodes):
            for path, node in zip(paths, nodes):
                if path != stays and node is not None:
                    self._remove(path, node)
            self.lines.append(f"stays    {self.workspace.relative(stays)}")
        else:
            self.left += len(paths)

    def _join(self, stays: bytes, paths: Sequence[bytes]) -> bool:
        """Puts folders together; whether that can be done by rule."""
        told = self.workspace.folder.moves
        if any(is_under(path, start) for start in paths for row in told.items() for path in row):
            return False  # moves that are not recorded begin or end there
        scan = self.workspace.scan
        joined = join_folders(scan.folder, scan.others, stays, paths)
        if joined is None:
            return False
        self.old.update(joined.old)
        self.new.update(joined.new)
        self.moves.update(joined.moves)
        return True

    def _remove(self, path: bytes, node: Node) -> None:
        """A file goes, unless somebody has edited it."""
        if node != self.workspace.shown.folder.get(path):
            raise refuse_edited(
                self.workspace, [path], "delete it yourself, or take them back (pj restore)"
            )
        self.old[path] = node
        self.new.pop(path, None)
        self.lines.append(f"removed  {self.workspace.relative(path)}")

    def text(self, inode: Point, path: bytes, choice: resolve.Choice) -> None:
        """The text of a file with the conflicts resolved for which there is a choice."""
        node = self.workspace.scan.folder.get(path)
        if node is None or node.kind != "file" or path in self.old:
            return
        marked = self.workspace.shown.marked(inode)
        try:
            done = resolve.resolve(self.workspace.shown.graph, marked, node.data, choice)
        except HalfResolved as half:
            raise Stop(
                f"{self.workspace.relative(path)}, {half}",
                "resolve it by hand, or pj restore the file",
            ) from None
        self.left += done.left
        if done.settled:
            self.old[path], self.new[path] = node, node._replace(data=done.text)
            count = many(done.settled, "conflict")
            self.lines.append(f"settled  {self.workspace.relative(path)}: {count}")

    def write(self) -> None:
        """Writes the files, and tells the next record of names and moves."""
        folder = self.workspace.folder
        moves = {**folder.moves, **self.moves}
        goal = update.Goal(folder.shown, folder.config, moves, folder.keeps | self.keeps)
        update.write(folder, self.workspace.scan, self.old, self.new, goal)


def _settle(
    workspace: Workspace, rows: Sequence[Conflict], choice: resolve.Choice, taken: str
) -> int:
    """Settles those conflicts of names and texts for which there is a choice."""
    settled = _Settled(workspace)
    texts: Dict[Point, bytes] = {}
    twins: Dict[Tuple[bytes, bytes], List[Conflict]] = {}
    for row in rows:
        entry = workspace.shown.entry_at(row.path)
        if row.kind == "name" and taken:
            settled.name(row, taken)
        elif row.kind == "twin" and entry is not None:
            twins.setdefault((parent_of(row.path), entry.name), []).append(row)
        elif row.line:
            texts.setdefault(row.inode, row.path)
    for group in twins.values():
        chosen = {row.path for row in group if any(taken in side.changes for side in row.sides)}
        if chosen or not taken:
            settled.twins([row.path for row in group], chosen)
        else:
            settled.left += len(group)
    for inode, path in texts.items():
        settled.text(inode, path, choice)
    if not settled.lines:
        raise Stop("no conflict there is settled so", "pj resolve lists the sides")
    settled.write()
    line(*settled.lines, "pj record -m MESSAGE records it")
    if settled.left:
        line(f"{many(settled.left, 'conflict')} left: pj resolve lists them")
    return 1 if settled.left else 0
