"""One change as differences that a person reads, each at its place in the channel.

All text of a file stands in one order, the dead too. What the change inserted,
deleted and revived is marked in it, and the live text about it is shown as the
channel has it now. So a difference is told by the bytes themselves, and not by
their look: equal lines beside each other are never mistaken.
"""

from __future__ import annotations

from typing import Dict, Iterable, Iterator, List, NamedTuple, Optional, Set, Tuple

from ..edit import is_binary
from ..graph import DEAD, ZOMBIE, NameRow
from ..layout import FileOrder
from ..lines import split
from ..paths import join
from ..text import Change, Make, Name, Order, Point, Range
from ..view import View
from .names import Names

CONTEXT = 3  # lines of live text about a difference
MOST = 2000  # lines of one file that a page shows

SAME, OLD, NEW = " ", "-", "+"


class Row(NamedTuple):
    """A line of a difference, without its newline: `SAME`, `OLD` or `NEW`."""

    sign: str
    data: bytes
    live: bool  # whether the channel has it now
    note: str = ""  # of a line that was inserted: what else is known of it


class Hunk(NamedTuple):
    """Lines that stand together; `line` is that of the first one in the live text, from 1."""

    line: int
    rows: List[Row]


class FileDifference(NamedTuple):
    """What a change made of one file or directory."""

    inode: Point
    is_dir: bool
    path: bytes  # as the channel calls it now
    words: List[Tuple[str, bytes, bytes]]  # what was done to its names: a word, and paths or b""
    hunks: List[Hunk]
    inserted: int  # lines
    deleted: int
    ordered: int  # orders between pieces of text, by which a conflict was settled
    binary: bool
    left_out: int  # lines that are not shown, since there are too many
    is_there: bool  # whether the channel still has it


def differences(view: View, names: Names, change: Change) -> List[FileDifference]:
    """All that a change of the set did, by path."""
    texts: Set[Point] = view.files_of(change)
    named = _named(view, names, change)
    found = [
        _difference(view, names, change, inode, named.get(inode, []), inode in texts)
        for inode in {*texts, *named}
    ]
    return sorted(found, key=lambda row: (row.path, row.inode))


def _difference(
    view: View,
    names: Names,
    change: Change,
    inode: Point,
    words: List[Tuple[str, bytes, bytes]],
    edited: bool,
) -> FileDifference:
    rows = list(rows_of(view, inode, change)) if edited else []
    binary = any(is_binary(row.data) for row in rows if row.sign != SAME)
    hunks, left = _cut([] if binary else list(_hunks(rows)))
    return FileDifference(
        inode,
        view.graph.inodes[inode] == "dir",
        names.path(inode),
        words,
        hunks,
        sum(row.sign == NEW for row in rows),
        sum(row.sign == OLD for row in rows),
        sum(isinstance(hunk, Order) and hunk.file == inode for hunk in change.hunks),
        binary,
        left,
        names.is_there(inode),
    )


# Names.


def _named(
    view: View, names: Names, change: Change
) -> Dict[Point, List[Tuple[str, bytes, bytes]]]:
    """What was done to the names of each inode."""
    given: Dict[Point, List[NameRow]] = {}
    taken: Dict[Point, List[NameRow]] = {}
    revived: Dict[Point, List[NameRow]] = {}
    made: Set[Point] = set()
    for number, hunk in enumerate(change.hunks):
        at = (change.name, change.places[number])
        if isinstance(hunk, (Make, Name)):
            row = view.graph.names[at]
            given.setdefault(row.child, []).append(row)
            if isinstance(hunk, Make):
                made.add(row.child)
        elif isinstance(hunk, Range):
            old = view.graph.names.get((hunk.owner, hunk.start))
            if old is not None:
                rows = taken if hunk.word == "delete" else revived
                rows.setdefault(old.child, []).append(old)
    found = {}
    for inode in dict.fromkeys([*given, *taken, *revived]):
        found[inode] = list(
            _words(
                names,
                given.get(inode, []),
                taken.get(inode, []),
                revived.get(inode, []),
                inode in made,
            )
        )
    return found


def _words(
    names: Names,
    given: List[NameRow],
    taken: List[NameRow],
    revived: List[NameRow],
    made: bool,
) -> Iterator[Tuple[str, bytes, bytes]]:
    def path(row: NameRow) -> bytes:
        return join(names.path(row.parent), row.name)

    old = {path(row): row for row in taken}
    new = {path(row): row for row in given}
    for place in sorted(new.keys() & old.keys()):
        if new[place].executable != old[place].executable:
            yield ("executable" if new[place].executable else "no longer executable"), place, b""
    gone, come = sorted(old.keys() - new.keys()), sorted(new.keys() - old.keys())
    if made:
        for place in come:
            yield ("made, executable" if new[place].executable else "made"), place, b""
    elif gone and come:
        yield "moved", gone.pop(0), come.pop(0)
    if not made:
        for place in come:
            yield "named", place, b""
    for place in gone:
        yield "deleted", place, b""
    for place in sorted({path(row) for row in revived}):
        yield "revived", place, b""


# Text.


class _Piece(NamedTuple):
    """Bytes of one vertex, and what the change did with them."""

    sign: str
    data: bytes
    live: bool
    note: str


def rows_of(view: View, inode: Point, change: Change) -> Iterator[Row]:
    """The lines of a file with what a change did: the live text, and all that it touched."""
    told = _Lines()
    for piece in _pieces(view, inode, change):
        for text in split(piece.data):
            told.take(piece, text)
            if text.endswith(b"\n") and (piece.sign == SAME or not told.old or not told.new):
                yield from told.end()
    yield from told.end()


class _Lines:
    """Lines that are read: their bytes before the change, and with it."""

    def __init__(self) -> None:
        self._begin()

    def _begin(self) -> None:
        self.old, self.new, self.note = b"", b"", ""
        self.old_live = self.new_live = False

    def take(self, piece: _Piece, text: bytes) -> None:
        """Takes bytes of a piece."""
        if piece.sign != NEW:
            self.old += text
            self.old_live = piece.live
        if piece.sign != OLD:
            self.new += text
            self.new_live = piece.live
        self.note = self.note or piece.note

    def end(self) -> Iterator[Row]:
        """The lines; equal ones where the change made nothing of them."""
        if self.old == self.new and not self.note:
            parts = [(SAME, self.old, True, "")]
        else:
            parts = [(OLD, self.old, self.old_live, ""), (NEW, self.new, self.new_live, self.note)]
        for sign, data, live, note in parts:
            for text in split(data):
                yield Row(sign, text[:-1] if text.endswith(b"\n") else text, live, note)
        self._begin()


def _pieces(view: View, inode: Point, change: Change) -> Iterator[_Piece]:
    """The vertices of a file that are live, or that the change inserted, deleted or revived."""
    order = FileOrder(view.graph, inode)
    for part in reversed(order.parts):
        for k in part:
            vertex, live = order.vertices[k], order.status[k] != DEAD
            word = _word(view, change, vertex.first)
            sign = {"insert": NEW, "revive": NEW, "delete": OLD}.get(word, SAME)
            if sign == SAME and not live:
                continue
            yield _Piece(sign, view.graph.data(vertex), live, _note(word, order.status[k]))


def _word(view: View, change: Change, point: Point) -> str:
    """What a change did with a byte: "insert", "delete", "revive", or nothing."""
    for row in view.graph.deletions(point):
        if row.change == change.name:
            return row.hunk.word
    return "insert" if point[0] == change.name else ""


def _note(word: str, status: str) -> str:
    """What is said of text that the change made: whether it was revived, and what is of it now."""
    if word not in ("insert", "revive"):
        return ""
    now = {DEAD: "deleted since", ZOMBIE: "in conflict now"}.get(status, "")
    return ", ".join(part for part in ("revived" if word == "revive" else "", now) if part)


def _hunks(rows: List[Row]) -> Iterator[Hunk]:
    """The rows that differ, each with up to `CONTEXT` lines about it."""
    near: Set[int] = set()
    for number, row in enumerate(rows):
        if row.sign != SAME:
            near.update(range(number - CONTEXT, number + CONTEXT + 1))
    hunk: Optional[Hunk] = None
    line = 1
    for number, row in enumerate(rows):
        if number in near:
            hunk = hunk or Hunk(line, [])
            hunk.rows.append(row)
        elif hunk is not None:
            yield hunk
            hunk = None
        line += row.live
    if hunk is not None:
        yield hunk


def _cut(hunks: Iterable[Hunk]) -> Tuple[List[Hunk], int]:
    """The first hunks, of at most `MOST` lines, and how many lines are left out."""
    found: List[Hunk] = []
    room, left = MOST, 0
    for hunk in hunks:
        shown = hunk.rows[:room]
        room -= len(shown)
        left += len(hunk.rows) - len(shown)
        if shown:
            found.append(Hunk(hunk.line, shown))
    return found, left
