"""Commands that look: status, diff, log, show, ls."""

from __future__ import annotations

import time
from argparse import Namespace
from typing import Iterator, List, Sequence, Set, Tuple

from ..conflicts import conflicts
from ..differences import Difference, compare, plain, said, unified
from ..paths import is_under, spoken
from ..say import Stop, line, many, one_line, raw
from ..text import Change, Point, short
from ..view import View
from ..wire import Refused
from ..workspace import Workspace
from .common import part_conflicts, say_conflicts


def run_status(workspace: Workspace, given: Namespace) -> int:
    """Says what is not recorded, what is in conflict, and how the folder stands to its channel."""
    folder = workspace.folder
    line(f"on channel {workspace.channel} of {workspace.where}")
    if folder.config.origin:
        channel = folder.config.origin_channel or workspace.channel
        line(f"origin is channel {channel} of {folder.config.origin}")
    known = folder.known
    if known is not None:
        behind = len(set(known) - set(folder.shown))
        if behind:
            line(f"{many(behind, 'change')} came that the files do not show yet: pj pull")
    rows = compare(workspace.shown, workspace.scan.folder, folder.moves)
    found = conflicts(workspace.shown)
    if rows:
        line("", "not recorded (pj diff shows it, pj record -m MESSAGE records it):")
        for row in rows:
            line("  " + said(row, workspace.relative))
    for path in sorted(folder.keeps):
        line(f"  kept     {workspace.relative(path)}")
    if workspace.scan.others:
        line("", "left out (links, and what is no file):")
        for path in workspace.scan.others:
            line(f"  {workspace.relative(path)}")
    stand, done = part_conflicts(workspace, found)
    if stand:
        line("", "in conflict (pj resolve lists the sides; edit, then pj record -m MESSAGE):")
        say_conflicts(workspace, stand)
    if done:
        line("", "settled in the files (pj record -m MESSAGE records it):")
        for row in done:
            line(f"  {workspace.relative(row.path)}{f':{row.line}' if row.line else ''}")
    if not rows and not found:
        line("nothing to record, nothing in conflict")
    return 0


def run_diff(workspace: Workspace, given: Namespace) -> int:
    """Writes what is not recorded as unified diffs."""
    paths = [workspace.path_of(word) for word in given.paths]
    rows = compare(workspace.shown, workspace.scan.folder, workspace.folder.moves)
    scan = workspace.scan
    there = {*scan.folder, *scan.others, *workspace.shown.folder, b""}
    for path in paths:
        if path not in there:
            raise Stop(f"nothing is at {workspace.relative(path)}", "pj ls lists the paths")
    for row in rows:
        if not paths or any(_touches(row, path) for path in paths):
            raw(b"".join(unified(row)))
    return 0


def _touches(row: Difference, path: bytes) -> bool:
    sides = (row.old_path, row.new_path)
    return any(side is not None and is_under(side, path) for side in sides)


def run_log(workspace: Workspace, given: Namespace) -> int:
    """Lists the changes of the channel, the one that was applied last first."""
    names = workspace.log()
    shown = set(workspace.folder.shown)
    wanted: Iterator[str] = reversed(names)
    if given.path is not None:
        view = workspace.view(names)
        working = working_on(view, workspace.path_of(given.path))
        wanted = (name for name in reversed(names) if name in working)
    count = 0
    for name in wanted:
        if given.number is not None and count == given.number:
            break
        (change,) = workspace.changes([name])
        behind = "" if name in shown else "  (not in the files yet: pj pull)"
        line(f"{short(name)}  {date(change)}  {change.by}  {one_line(change.title)}{behind}")
        count += 1
    if not count:
        line(f"the channel {workspace.channel} has no change yet: pj record -m MESSAGE makes one")
    return 0


def working_on(view: View, path: bytes) -> Set[str]:
    """The changes that made, named, moved or edited what stands at a path, or is within it."""
    entries = [entry for entry in view.entries if is_under(entry.path, path)]
    if not entries:
        raise Stop(f"nothing is at {spoken(path)}", "pj ls lists the paths of the channel")
    graph = view.graph
    inodes: Set[Point] = {entry.inode for entry in entries}
    found: Set[str] = set()
    for inode in inodes:
        found |= {row.at[0] for row in graph.names_of[inode]}
        found |= graph.users.get(inode, set()) | graph.unnamers.get(inode, set())
        for name, number in graph.inserts.get(inode, ()):
            place = graph.changes[name].places[number]
            found |= {row.change for row in graph.ranges.get((name, place), ())}
    return found


def date(change: Change) -> str:
    """When a change was made, by its author's clock and this machine's zone."""
    return time.strftime("%Y-%m-%d %H:%M", time.localtime(change.time))


def run_show(workspace: Workspace, given: Namespace) -> int:
    """Shows one change: what it says of itself, and what it makes of what it stands on."""
    name = workspace.named(given.name)
    try:
        (change,) = workspace.changes([name])
    except Refused:
        raise Stop(f"the repository does not have {short(name)}") from None
    if given.text:
        raw(change.text)
        return 0
    line(f"change {change.name}", f"author {change.by}", f"date   {date(change)}", "")
    line(f"    {change.title}", "")
    rows = compare_views(*context(workspace, change))
    for row in rows:
        raw(b"".join(unified(row)))
    if not rows:
        line("(it changes no file of what it stands on)")
    return 0


def context(workspace: Workspace, change: Change) -> Tuple[View, View]:
    """What a change stands on, all that it lists and what that needs, without it and with it."""
    found: List[Change] = []
    seen: Set[str] = set()
    have: Set[str] = set()
    todo = [(name, False) for name in sorted(change.listed)]
    while todo:
        name, done = todo.pop()
        if done:
            (other,) = workspace.changes([name])
            if have.issuperset(other.needs):
                found.append(other)
                have.add(name)
            continue
        if name in seen:
            continue
        seen.add(name)
        try:
            (other,) = workspace.changes([name])
        except Refused:
            continue  # known to the author, and not to this repository
        todo.append((name, True))
        todo += [(need, False) for need in other.needs]
    return View(found), View([*found, change])


def compare_views(before: View, after: View) -> List[Difference]:
    """What differs between two views, by inode where it moved, else path by path."""
    there = {entry.inode: entry for entry in before.entries if not entry.again}
    old, new = dict(before.folder), dict(after.folder)
    rows: List[Difference] = []
    for entry in after.entries:
        was = there.get(entry.inode)
        moved = was is not None and was.path != entry.path and not entry.again
        if moved and was is not None and was.path not in new:
            rows.append(
                Difference("moved", was.path, entry.path, old.pop(was.path), new.pop(entry.path))
            )
    rows += plain(old, new)
    return sorted(rows, key=lambda row: row.path)


def run_ls(workspace: Workspace, given: Namespace) -> int:
    """Lists the paths of the set that is shown, each with its status."""
    paths: Sequence[bytes] = [workspace.path_of(word) for word in given.paths]
    view = workspace.shown
    marked = {row.path for row in conflicts(view)}
    for entry in view.entries:
        if paths and not any(is_under(entry.path, path) for path in paths):
            continue
        kind = "dir" if entry.kind == "dir" else "exec" if entry.executable else "file"
        word = "same" if entry.again else entry.word
        if word == "alive" and entry.path in marked:
            word = "conflict"
        line(f"{kind:<4} {word:<8} {spoken(entry.path)}")
    return 0
