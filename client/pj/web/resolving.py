"""Conflicts of a working folder, resolved by what a person chose for each of them.

A choice becomes bytes in the file, and the file is recorded as `pj record` does:
no other way leads into the channel.
"""

from __future__ import annotations

import os
from dataclasses import dataclass, field
from typing import Dict, List, Mapping, NamedTuple, Optional, Sequence, Set, Tuple

from .. import disk, update
from ..cli import go_on
from ..commands.change import catch_up, record_paths
from ..conflicts import Side, sides_of
from ..folder import WorkingFolder, digest
from ..marked import Block, Marked
from ..paths import Node
from ..resolve import Segment, segments
from ..say import Stop
from ..standing import standing
from ..text import Change, Point
from ..tree import Entry
from ..view import View
from ..workspace import Workspace

LEAVE, ORDER, TYPED = "leave", "order", "type"
TAKE = "side-"  # and the number of a side, from 0


@dataclass
class Choice:
    """What a person wants of one conflict."""

    how: str = LEAVE  # LEAVE, TAKE with a number, ORDER or TYPED
    order: List[int] = field(default_factory=list)  # the places of the sides, 0 for left out
    typed: str = ""

    def text(self, sides: Sequence[Side]) -> Optional[bytes]:
        """What the conflict becomes; None where it is left."""
        texts = [side.text for side in sides]
        if self.how == TYPED:
            return ended(self.typed.encode("utf-8", "replace"), texts)
        if self.how == ORDER:
            places = sorted((place, k) for k, place in enumerate(self.order) if place > 0)
            return joined([texts[k] for _, k in places])
        if self.how.startswith(TAKE):
            return texts[int(self.how[len(TAKE) :])]
        return None


def joined(texts: Sequence[bytes]) -> bytes:
    """Texts one after the other, each of which but the last ends with a newline."""
    rows = [text for text in texts if text]
    return b"".join(
        text if text.endswith(b"\n") or k == len(rows) - 1 else text + b"\n"
        for k, text in enumerate(rows)
    )


def ended(typed: bytes, texts: Sequence[bytes]) -> bytes:
    """What was typed, with a newline behind it if the sides have one."""
    if typed and not typed.endswith(b"\n") and any(text.endswith(b"\n") for text in texts):
        return typed + b"\n"
    return typed


def typable(sides: Sequence[Side]) -> Optional[str]:
    """The texts of the sides as a person may edit them; None where a form would change them."""
    try:
        text = joined([side.text for side in sides]).decode()
    except UnicodeDecodeError:
        return None
    return text if all(letter.isprintable() or letter in "\n\t" for letter in text) else None


class Open(NamedTuple):
    """A conflict of a file that is to be resolved: its block, by number, and its sides."""

    number: int  # from 0, among the conflicts of the file
    block: Block
    sides: List[Side]
    typable: Optional[str]


class Work:
    """A file of a working folder whose conflicts are resolved."""

    def __init__(self, root: bytes, view: View, entry: Entry):
        self.root, self.view, self.entry = root, view, entry
        self.marked: Marked = view.marked(entry.inode)
        self.blocks = [block for block in self.marked.blocks if block.kind != "plain"]
        self.node: Optional[Node] = disk.node_at(os.path.join(root, entry.path))

    @property
    def mark(self) -> str:
        """A word for what stands in the file, which is another one where that changes."""
        return disk.mark_of(self.node)

    @property
    def data(self) -> bytes:
        """The bytes of the file; `Stop` where it is not there."""
        if self.node is None or self.node.kind != "file":
            raise Stop("the file is not at its path in the folder", "pj status tells what became")
        return self.node.data

    def open(self) -> List[Open]:
        """The conflicts that stand in the file; `HalfResolved` where some lines of one are gone."""
        stand = {id(self.marked.blocks[stop.block]) for stop in standing(self.marked, self.data)}
        found = []
        for number, block in enumerate(self.blocks):
            if id(block) in stand:
                sides = sides_of(self.view.graph, self.marked, block)
                found.append(Open(number, block, sides, typable(sides)))
        return found

    def segments(self, choices: Mapping[int, Choice]) -> List[Segment]:
        """The parts of the file as the choices make it."""
        chosen = {id(self.blocks[k]): choice for k, choice in choices.items()}

        def choose(block: Block, sides: List[Side]) -> Optional[bytes]:
            return chosen[id(block)].text(sides) if id(block) in chosen else None

        return segments(self.view.graph, self.marked, self.data, choose)


class Wish(NamedTuple):
    """What is to be recorded of one file, and what the person had seen of it."""

    inode: Point
    base: str  # the digest of the set that was shown
    mark: str  # the word for the file that was shown
    choices: Dict[int, Choice]
    name: str  # of a name in conflict: "keep", "delete", or nothing
    message: str
    author: str


class Recorded(NamedTuple):
    """The changes that were made, and how many of others came meanwhile."""

    changes: List[Change]
    came: int


class Stale(Exception):
    """The folder is not as it was when the person chose."""


def record(root: bytes, wish: Wish) -> Recorded:
    """Writes what was chosen into a file, and records that file."""
    with WorkingFolder(root).lock():
        folder = WorkingFolder(root)
        with Workspace(folder) as workspace:
            go_on(workspace, "record")
            entry = _entry(workspace, wish)
            work = Work(folder.root, workspace.shown, entry)
            if work.mark != wish.mark:
                raise Stale
            left = _write(workspace, work, wish)
            about = workspace.about(wish.message, wish.author)
            changes, _ = record_paths(workspace, [entry.path], about, leave=left)
            _, came = catch_up(workspace)
            return Recorded(changes, came)


def _entry(workspace: Workspace, wish: Wish) -> Entry:
    if digest(workspace.folder.shown) != wish.base:
        raise Stale
    for entry in workspace.shown.entries:
        if entry.inode == wish.inode:
            return entry
    raise Stale


def _write(workspace: Workspace, work: Work, wish: Wish) -> bool:
    """Writes the file, or takes it away; whether a conflict is left in it."""
    path, folder = work.entry.path, workspace.folder
    old: Dict[bytes, Node] = {}
    new: Dict[bytes, Node] = {}
    keeps: Set[bytes] = set(folder.keeps)
    left = False
    data = work.data
    assert work.node is not None
    if wish.name == "delete":
        old[path] = work.node
    else:
        parts = work.segments(wish.choices)
        left = any(part.block is not None and not part.settled for part in parts)
        text = b"".join(part.data for part in parts)
        if text != data:
            old[path], new[path] = work.node, work.node._replace(data=text)
        if wish.name == "keep":
            keeps.add(path)
    goal = update.Goal(folder.shown, folder.config, folder.moves, keeps)
    update.write(folder, workspace.scan, old, new, goal)
    workspace.now_shows(workspace.shown)  # the files are read again
    return left


def plain_lines(parts: Sequence[Segment]) -> List[Tuple[str, bytes, Optional[Block]]]:
    """The lines of a file as it will be: "text", "chosen", or "left" for a conflict."""
    found: List[Tuple[str, bytes, Optional[Block]]] = []
    for part in parts:
        if part.block is not None and not part.settled:
            found.append(("left", b"", part.block))
            continue
        kind = "chosen" if part.settled else "text"
        rows = part.data.split(b"\n")
        if rows[-1] == b"":
            rows.pop()
        found += [(kind, row, None) for row in rows]
    return found
