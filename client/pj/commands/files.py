"""Commands on files and their names: move, keep, restore."""

from __future__ import annotations

import os
import time
from argparse import Namespace
from typing import Dict, Iterable, List, Sequence, Set, Tuple

from .. import disk, update
from ..differences import Difference, compare
from ..match import Matcher
from ..notice import Emptied, emptied
from ..notice import restore as revive
from ..paths import Node, above, base_of, is_under, join, parent_of
from ..record import Told
from ..say import Stop, line
from ..text import About, Change, short
from ..workspace import Workspace, refuse_edited
from ..writer import Unattainable, Writer
from .change import send


def run_move(workspace: Workspace, given: Namespace) -> int:
    """Moves a file or folder, and tells the next record so."""
    old, new = workspace.path_of(given.old), workspace.path_of(given.new)
    now = workspace.scan.folder
    if new != old and (not new or (new in now and now[new].kind == "dir" and old in now)):
        new = join(new, base_of(old))
    view = workspace.shown
    found = Matcher(view.entries, now, view.text, workspace.folder.moves).found
    if old in now:
        _check_move(workspace, old, new)
        entry = found[old]
    elif new in now:  # it was moved by other means; only the record is told
        entry = view.entry_at(old)
    else:
        raise Stop(f"nothing is at {workspace.relative(old)}", "pj ls lists the paths")
    moves = {
        start: new + end[len(old) :] if is_under(end, old) else end
        for start, end in workspace.folder.moves.items()
    }
    if entry is not None:
        moves[entry.path] = new
    workspace.folder.save_told(
        {start: end for start, end in moves.items() if start != end}, workspace.folder.keeps
    )
    if old in now:
        root = workspace.folder.root
        disk.replace(os.path.join(root, old), os.path.join(root, new))
    line(f"moved {workspace.relative(old)} -> {workspace.relative(new)}")
    return 0


def _check_move(workspace: Workspace, old: bytes, new: bytes) -> None:
    now = workspace.scan.folder
    if is_under(new, old):
        raise Stop(f"{workspace.relative(old)} cannot go into itself", "give another place")
    if os.path.lexists(os.path.join(workspace.folder.root, new)):
        raise Stop(
            f"{workspace.relative(new)} is there already", "move or delete it first"
        )
    into = parent_of(new)
    if into and (into not in now or now[into].kind != "dir"):
        raise Stop(f"there is no folder {workspace.relative(into)}", "make it first (mkdir)")


def run_keep(workspace: Workspace, given: Namespace) -> int:
    """Says that names in conflict are to stay: the next record makes them alive."""
    view, now = workspace.shown, workspace.scan.folder
    found = Matcher(view.entries, now, view.text, workspace.folder.moves).found
    keeps: Set[bytes] = set(workspace.folder.keeps)
    for word in given.paths:
        path = workspace.path_of(word)
        entry = found.get(path)
        if entry is None or entry.word != "zombie":
            raise Stop(
                f"the name {workspace.relative(path)} is not in conflict",
                "pj resolve lists what is",
            )
        keeps.add(path)
    workspace.folder.save_told(workspace.folder.moves, keeps)
    line("the next record keeps " + ", ".join(map(workspace.relative, sorted(keeps))))
    return 0


def run_restore(workspace: Workspace, given: Namespace) -> int:
    """Takes back edits that are not recorded, or a deletion that met a move."""
    rows = compare(workspace.shown, workspace.scan.folder, workspace.folder.moves)
    chosen: List[Difference] = []
    empty: List[Emptied] = []
    for word in given.paths:
        path = workspace.path_of(word)
        here = [row for row in rows if _touches(row, path) and row.word != "made"]
        there = [row for row in emptied(workspace.shown) if is_under(row.path, path)]
        if not here and not there:
            made = any(_touches(row, path) for row in rows)
            raise Stop(
                f"there is nothing to restore in {workspace.relative(path)}",
                "it is new; delete it if you do not want it" if made
                else "pj status lists what differs",
            )
        chosen += here
        empty += [] if here else there
    if chosen:
        _take_back(workspace, rows, chosen)
    if empty:
        _revive(workspace, empty)
    return 0


def _touches(row: Difference, path: bytes) -> bool:
    sides = (row.old_path, row.new_path)
    return any(side is not None and is_under(side, path) for side in sides)


def _take_back(
    workspace: Workspace, rows: Sequence[Difference], chosen: Sequence[Difference]
) -> None:
    """Writes the shown nodes over the edited ones, of which copies are kept."""
    by_old = {row.old_path: row for row in rows if row.old_path is not None}
    wanted = {row.old_path: row for row in chosen if row.old_path is not None}
    for path in list(wanted):
        for parent in above(path):
            if parent in by_old and by_old[parent].word in ("deleted", "moved"):
                wanted[parent] = by_old[parent]
    here: Dict[bytes, Node] = {}
    there: Dict[bytes, Node] = {}
    for row in wanted.values():
        if row.new_path is not None and row.new is not None:
            here[row.new_path] = row.new
    for path, row in wanted.items():
        assert row.old is not None
        there[path] = row.old
    folder = workspace.folder
    moves = {old: new for old, new in folder.moves.items() if old not in wanted}
    goal = update.Goal(folder.shown, folder.config, moves, folder.keeps)
    blocked = update.blocked(workspace.scan, here, there)
    if blocked:
        raise refuse_edited(workspace, blocked, "nothing was restored; move them away first")
    copies = _copy(workspace, wanted.values())
    for path in update.write(folder, workspace.scan, here, there, goal):
        word = "restored" if path in there else "removed"
        line(f"{word} {workspace.relative(path)}")
    if copies:
        line(f"what stood there is kept in {os.path.relpath(os.fsdecode(copies))}")


def _copy(workspace: Workspace, rows: Iterable[Difference]) -> bytes:
    """Copies of the edited files, kept in `.pj/restored`; empty where there is none."""
    edited = [
        row for row in rows
        if row.new and row.new.kind == "file" and row.old and row.new.data != row.old.data
    ]
    if not edited:
        return b""
    stamp = time.strftime("%Y%m%d-%H%M%S").encode()
    top, count = workspace.folder.path(b"restored", stamp), 0
    while os.path.exists(top):
        count += 1
        top = workspace.folder.path(b"restored", b"%s-%d" % (stamp, count))
    for row in edited:
        assert row.new_path is not None and row.new is not None
        full = os.path.join(top, row.new_path)
        disk.make_dir(os.path.dirname(full))
        disk.write_file(full, row.new.data, row.new.executable)
    return top


def _revive(workspace: Workspace, empty: Sequence[Emptied]) -> None:
    paths = ", ".join(workspace.relative(row.path) for row in empty)
    about = workspace.about(f"restore {paths}"[:200], None)
    changes, written = revive_emptied(workspace, empty, about)
    for path in written:
        line(f"restored {workspace.relative(path)}")
    for change in changes:
        line(f"recorded {short(change.name)}  {change.title}")


def revive_emptied(
    workspace: Workspace, empty: Sequence[Emptied], about: About
) -> Tuple[List[Change], List[bytes]]:
    """Records that what a deletion took out of something that was moved is alive again.

    The changes, and the paths that were written.
    """
    view = workspace.view(workspace.folder.shown)
    writer = Writer(view, about)
    try:
        for row in empty:
            revive(writer, row)
        writer.flush()
    except Unattainable as limit:
        raise Stop(f"not restored: {limit}", "write the files anew, and record them") from None
    blocked = workspace.blocked(view.folder)
    if blocked:
        raise refuse_edited(workspace, blocked, "nothing was restored; record them first")
    told = Told(workspace.folder.moves, workspace.folder.keeps)
    written = send(workspace, writer.parts, view, workspace.shown.folder, told)
    return writer.parts, written
