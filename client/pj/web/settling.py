"""Conflicts of names of a working folder, settled by what a person chose for each of them.

A choice becomes what `pj keep`, `pj move`, `pj restore` or a deletion does to the
files, and these paths are recorded as `pj record` does: no other way leads into
the channel.
"""

from __future__ import annotations

import os
from dataclasses import dataclass, field
from hashlib import sha256
from typing import Dict, List, NamedTuple, Optional, Sequence, Set, Tuple

from .. import disk, update
from ..cli import go_on
from ..commands.change import catch_up, record_paths
from ..commands.files import revive_emptied
from ..conflicts import Conflict
from ..folder import WorkingFolder, digest
from ..notice import Emptied, emptied
from ..paths import Node, is_under, parent_of, spoken
from ..say import Stop
from ..settled import part
from ..text import Point, is_file_name
from ..tree import Entry
from ..twins import join_folders
from ..view import View
from ..workspace import Workspace
from .resolving import Recorded, Stale

KEEP, DELETE, MOVE, JOIN, RESTORE = "keep", "delete", "move", "join", "restore"
ONLY = "only-"  # and the number of a path of the thing, from 0


class Option(NamedTuple):
    """One way to settle a conflict of a name: its word, what a person reads, and paths in that."""

    word: str
    title: str
    paths: List[bytes]


@dataclass
class Deed:
    """What settling does to the files, and what the next record has to know."""

    moves: Dict[bytes, bytes]  # all that were told
    keeps: Set[bytes]
    old: Dict[bytes, Node] = field(default_factory=dict)  # what is taken from its place
    new: Dict[bytes, Node] = field(default_factory=dict)  # what comes to another one
    paths: List[bytes] = field(default_factory=list)  # those that are recorded
    emptied: Optional[Emptied] = None  # what is brought back
    said: List[Tuple[str, bytes, bytes]] = field(default_factory=list)  # a word, from where, to

    @property
    def mark(self) -> str:
        """A word for what is done, which is another one where the files have changed."""
        rows = [(path, disk.mark_of(node)) for path, node in sorted(self.old.items())]
        return sha256(repr((rows, sorted(self.new), self.paths)).encode()).hexdigest()


class Settling:
    """A file or directory of a working folder that has a conflict of its names."""

    def __init__(self, folder: WorkingFolder, scan: disk.Scan, view: View, inode: Point):
        self.folder, self.scan, self.view = folder, scan, view
        self.entries = [entry for entry in view.entries if entry.inode == inode]
        if not self.entries:
            raise Stale
        self.entry: Entry = self.entries[0]

    def standing(self, conflicts: Sequence[Conflict]) -> List[Conflict]:
        """The conflicts of its names that the files do not settle."""
        mine = [row for row in conflicts if row.inode == self.entry.inode]
        twins = {entry.inode for entry in self._twins()}
        near = [row for row in conflicts if row.kind == "twin" and row.inode in twins]
        rows = list({id(row): row for row in (*mine, *near)}.values())
        stand, _ = part(self.view, rows, self.scan.folder, self.folder.moves, self.folder.keeps)
        return [row for row in stand if row in mine and is_of_names(row, self.entry.kind)]

    def _twins(self) -> List[Entry]:
        """The entries that have its name in its directory, itself among them."""
        pair = (self.entry.parent, self.entry.name)
        if self.entry.parent is None:
            return [self.entry]
        return [entry for entry in self.view.entries if (entry.parent, entry.name) == pair]

    def options(self, conflicts: Sequence[Conflict]) -> List[Option]:
        """The ways to settle those of its conflicts that stand."""
        kinds = {row.kind for row in self.standing(conflicts)}
        path, is_dir = self.entry.path, self.entry.kind == "dir"
        found: List[Option] = []
        if "name" in kinds:
            found.append(Option(KEEP, "Keep it", []))
        if "emptied" in kinds:
            found.append(Option(RESTORE, "Bring back what was in it", []))
        if kinds & {"twin", "orphan", "adrift"}:
            found.append(Option(MOVE, "Move it to the path", []))
        if "twin" in kinds and is_dir:
            others = [entry.path for entry in self._twins() if entry.path != path]
            found.append(Option(JOIN, "Put into it what is in", others))
        if "again" in kinds and not is_dir:
            for number, entry in enumerate(self.entries):
                found.append(Option(f"{ONLY}{number}", "Let it have one name alone:", [entry.path]))
        elif kinds:
            found.append(Option(DELETE, "Delete it" + (", with all that is in it" * is_dir), []))
        return found

    def deed(self, word: str, target: str) -> Deed:
        """What a choice does; `Stop` where that cannot be done."""
        done = Deed(dict(self.folder.moves), set(self.folder.keeps))
        path = self.entry.path
        there = self.scan.folder.get(path)
        if there is None or there.kind != self.entry.kind:
            raise Stop("it is not at its path in the folder", "pj status tells what became of it")
        if word == KEEP:
            done.keeps.add(path)
            done.paths, done.said = [path], [("kept", path, b"")]
        elif word == DELETE:
            self._delete(done, path)
        elif word == MOVE:
            self._move(done, self._target(target))
        elif word == JOIN:
            self._join(done)
        elif word == RESTORE:
            rows = [row for row in emptied(self.view) if row.inode == self.entry.inode]
            if not rows:
                raise Stale
            done.emptied, done.said = rows[0], [("brought back", path, b"")]
        elif word.startswith(ONLY):
            stays = self.entries[int(word[len(ONLY) :])].path
            for other in sorted({entry.path for entry in self.entries} - {stays}):
                self._delete(done, other)
        return done

    def _under(self, path: bytes) -> Dict[bytes, Node]:
        """What stands at a path and within it."""
        if any(is_under(other, path) for other in self.scan.others):
            raise Stop(
                f"{spoken(path)} has links in it, or what is no file",
                "move them away in a terminal, and come again",
            )
        return {at: node for at, node in self.scan.folder.items() if is_under(at, path)}

    def _delete(self, done: Deed, path: bytes) -> None:
        rows, shown = self._under(path), self.view.folder
        edited = [at for at, node in rows.items() if shown.get(at) != node]
        if edited:
            raise Stop(
                f"{spoken(min(edited))} has edits that are not recorded",
                "record them, or take them back: pj restore",
            )
        done.old.update(rows)
        done.paths.append(path)
        done.said.append(("deleted", path, b""))

    def _move(self, done: Deed, target: bytes) -> None:
        path = self.entry.path
        if is_under(target, path):
            raise Stop(f"{spoken(path)} cannot go into itself", "give another path")
        for at, node in self._under(path).items():
            done.old[at] = node
            done.new[target + at[len(path) :]] = node
        for start, end in self.folder.moves.items():
            if is_under(end, path):
                done.moves[start] = target + end[len(path) :]
        done.moves[path] = target
        done.paths, done.said = [path, target], [("moved", path, target)]

    def _target(self, word: str) -> bytes:
        """The path that a person typed, at which nothing stands."""
        path = word.strip().strip("/").encode("utf-8", "surrogateescape")
        names = path.split(b"/")
        if not all(map(is_file_name, names)) or any(map(disk.is_reserved, names)):
            raise Stop("a path is names with / between them", "type where it is to be")
        above = parent_of(path)
        if above and self.scan.folder.get(above) != Node("dir"):
            raise Stop(f"there is no directory {spoken(above)}", "give a path in one that is there")
        if os.path.lexists(os.path.join(self.folder.root, path)):
            raise Stop(f"something is at {spoken(path)} already", "give another path")
        return path

    def _join(self, done: Deed) -> None:
        path, paths = self.entry.path, [entry.path for entry in self._twins()]
        told = [end for row in self.folder.moves.items() for end in row]
        joined = join_folders(self.scan.folder, self.scan.others, path, paths)
        if joined is None or any(is_under(end, start) for start in paths for end in told):
            raise Stop(
                "the directories cannot be put together here: two of their files differ, or"
                " something in them was moved and is not recorded",
                "move or delete one of these files, or record the moves",
            )
        done.old, done.new = joined.old, joined.new
        done.moves.update(joined.moves)
        done.paths = paths
        done.said = [("put into", other, path) for other in paths if other != path]


def is_of_names(row: Conflict, kind: str) -> bool:
    """Whether a conflict is settled by its name; that of a file's name is, beside its text."""
    return not row.line and not (row.kind == "name" and kind == "file")


class NameWish(NamedTuple):
    """What is to be recorded of the names of one thing, and what the person had seen of it."""

    inode: Point
    base: str  # the digest of the set that was shown
    mark: str  # the word for what was to be done
    how: str  # the word of an option
    target: str  # the path that was typed
    message: str
    author: str


def settle(root: bytes, wish: NameWish) -> Recorded:
    """Does to the files what was chosen, and records these paths."""
    with WorkingFolder(root).lock():
        folder = WorkingFolder(root)
        with Workspace(folder) as workspace:
            go_on(workspace, "record")
            if digest(folder.shown) != wish.base:
                raise Stale
            work = Settling(folder, workspace.scan, workspace.shown, wish.inode)
            done = work.deed(wish.how, wish.target)
            if done.mark != wish.mark:
                raise Stale
            about = workspace.about(wish.message, wish.author)
            if done.emptied is not None:
                changes, _ = revive_emptied(workspace, [done.emptied], about)
            else:
                goal = update.Goal(folder.shown, folder.config, done.moves, done.keeps)
                update.write(folder, workspace.scan, done.old, done.new, goal)
                workspace.now_shows(workspace.shown)  # the files are read again
                changes, _ = record_paths(workspace, done.paths, about, leave=True)
            _, came = catch_up(workspace)
            return Recorded(changes, came)
