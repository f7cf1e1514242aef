"""Commands that make changes and take them back: record, unrecord, uproot, undo."""

from __future__ import annotations

from argparse import Namespace
from typing import FrozenSet, List, Mapping, NamedTuple, Optional, Sequence, Set, Tuple

from .. import update
from ..conflicts import conflicts
from ..differences import Difference, compare
from ..folder import Pending, digest
from ..paths import Folder, above, is_under
from ..record import Mismatch, Recorded, Refusal, Told, record
from ..say import Stop, ask, line, many, note, one_line
from ..text import About, Change, short
from ..view import Unshowable, View
from ..wire import Refused
from ..workspace import Workspace, Written, refuse_edited, told_line
from ..writer import Unattainable
from .common import check_within, say_written


class Selection(NamedTuple):
    """The part of a folder that is to be recorded, and what was told of it and of the rest."""

    folder: Folder
    moves: Mapping[bytes, bytes]
    keeps: FrozenSet[bytes]
    other_moves: Mapping[bytes, bytes]
    other_keeps: FrozenSet[bytes]


def run_record(workspace: Workspace, given: Namespace) -> int:
    """Makes changes of what differs, and applies them to the channel."""
    about = workspace.about(given.message, given.author)
    paths = [workspace.path_of(word) for word in given.paths]
    for path in workspace.scan.others:
        note(f"left out: {workspace.relative(path)} (a link, or no file)")
    before = {conflict.key for conflict in conflicts(workspace.shown)}
    changes, written = record_paths(workspace, paths, about, given.leave, given.with_markers)
    for change in changes:
        line(f"recorded {short(change.name)}  {one_line(change.title)}")
    more, came = catch_up(workspace)
    if came:
        line(f"{many(came, 'change')} of others came to the channel meanwhile")
    fresh = [row for row in conflicts(workspace.shown) if row.key not in before]
    return say_written(workspace, Written(sorted({*written, *more}), fresh))


def record_paths(
    workspace: Workspace,
    paths: Sequence[bytes],
    about: About,
    leave: bool = False,
    with_markers: bool = False,
) -> Tuple[List[Change], List[bytes]]:
    """Records what differs at some paths, or at all: the changes, and what they wrote besides."""
    selection = select(workspace, paths)
    told = Told(selection.moves, selection.keeps, leave, with_markers)
    done = make(workspace, workspace.folder.shown, selection.folder, about, told)
    if not done.changes:
        raise Stop("nothing to record: the files are as this folder's set of changes has them")
    told = Told(selection.other_moves, selection.other_keeps)
    return done.changes, send(workspace, done.changes, done.view, selection.folder, told)


def make(
    workspace: Workspace, names: Sequence[str], folder: Folder, about: About, told: Told
) -> Recorded:
    """The changes that make the print of a set the folder."""
    try:
        return record(lambda: workspace.view(names), folder, about, told)
    except (Refusal, Unshowable) as refusal:
        raise Stop(f"not recorded: {refusal}") from None
    except Unattainable as limit:
        raise Stop(
            f"not recorded: {limit}",
            "record fewer files at once (pj record -m MESSAGE PATH ..), or leave this one as it is",
        ) from None
    except Mismatch as found:
        raise Stop(
            f"not recorded, since the channel would not print the folder: {found}",
            "nothing was sent; record the other paths alone (pj record -m MESSAGE PATH ..)",
        ) from None


def send(
    workspace: Workspace, changes: Sequence[Change], view: View, recorded: Folder, told: Told
) -> List[bytes]:
    """Puts and applies changes made on what is shown; then the folder shows them.

    `view` is of the set with them, `recorded` the folder that it was made from,
    `told` what remains told. The paths that the record itself changed: a name
    that is bare again, marker lines with other numbers, copies of an edited file.
    """
    check_within(workspace, workspace.log())
    for change in changes:
        workspace.keep(change)
    folder = workspace.folder
    names = [change.name for change in changes]
    goal = update.Goal([*folder.shown, *names], folder.config, told.moves, told.keep)
    plan = update.stage(folder, workspace.scan, recorded, view.folder, goal)
    folder.save_pending(Pending(workspace.channel, digest(folder.shown), names, plan))
    workspace.take_record()
    workspace.now_shows(view)
    return update.paths_of(plan)


def catch_up(workspace: Workspace) -> Tuple[List[bytes], int]:
    """Writes what came to the channel meanwhile into the files: the paths, and how much came."""
    names, shown = workspace.log(), workspace.folder.shown
    came = len(names) - len(shown)
    if set(names) == set(shown):
        return [], 0
    try:
        paths = workspace.write(names).paths
    except update.Edited as edited:
        raise refuse_edited(
            workspace,
            edited.paths,
            f"recorded; but {many(came, 'change')} of others came to the channel meanwhile, which"
            " the files do not show yet",
            "record the edits too, and then pj pull",
        ) from None
    return paths, came


def select(workspace: Workspace, paths: Sequence[bytes]) -> Selection:
    """The folder as it stands, or only what is at or within some paths."""
    moves, keeps = workspace.folder.moves, workspace.folder.keeps
    now = workspace.scan.folder
    if not paths:
        return Selection(now, moves, keeps, {}, frozenset())
    rows = compare(workspace.shown, now, moves)
    for path in paths:
        kept = any(is_under(keep, path) for keep in keeps)
        if not kept and not any(_touches(row, path) for row in rows):
            raise Stop(
                f"nothing to record in {workspace.relative(path)}", "pj status lists what differs"
            )
    touched = {n for n, row in enumerate(rows) if any(_touches(row, path) for path in paths)}
    chosen = _closure(rows, touched)
    folder = dict(workspace.shown.folder)
    for number in chosen:
        old = rows[number].old_path
        if old is not None:
            folder.pop(old, None)
    for number in chosen:
        path_, node = rows[number].new_path, rows[number].new
        if path_ is not None and node is not None:
            folder[path_] = node
    taken = {
        row.old_path: row.new_path
        for row in (rows[number] for number in chosen)
        if row.word == "moved" and row.old_path is not None and row.new_path is not None
    }
    mine = frozenset(k for k in keeps if any(is_under(k, path) for path in paths))
    others = {old: new for old, new in moves.items() if old not in taken}
    return Selection(folder, taken, mine, others, keeps - mine)


def _touches(row: Difference, path: bytes) -> bool:
    """Whether a difference is at or within a path."""
    return any(side is not None and is_under(side, path) for side in (row.old_path, row.new_path))


def _closure(rows: Sequence[Difference], chosen: Set[int]) -> Set[int]:
    """With each row the new directories above it, and with a moved directory all within it."""
    by_new = {row.new_path: number for number, row in enumerate(rows) if row.new_path is not None}
    todo = list(chosen)
    while todo:
        row = rows[todo.pop()]
        more: List[int] = []
        if row.new_path is not None:
            more += [by_new[path] for path in above(row.new_path) if path in by_new]
        node = row.old or row.new
        if node and node.kind == "dir" and row.word in ("moved", "deleted"):
            assert row.old_path is not None
            more += [n for n, other in enumerate(rows) if _touches(other, row.old_path)]
        fresh = [number for number in more if number not in chosen]
        chosen.update(fresh)
        todo += fresh
    return chosen


# Taking changes out.


def run_unrecord(workspace: Workspace, given: Namespace) -> int:
    """Takes one change out of the channel, and its work out of the files."""
    name = workspace.named(given.name)
    names = _held(workspace, name)
    for change in workspace.changes(names):
        if name in change.needs:
            raise Stop(
                f"{short(name)} cannot be taken out alone: {told_line(change)} needs it",
                f"pj uproot {short(name)} takes it out with all that need it;"
                f" pj undo {short(name)} records the opposite",
            )
    return _take_out(workspace, "unrecord", name, [other for other in names if other != name])


def run_uproot(workspace: Workspace, given: Namespace) -> int:
    """Takes a change out of the channel with all that need it."""
    name = workspace.named(given.name)
    names = _held(workspace, name)
    gone = needing(workspace.changes(names), name)
    line(f"pj uproot takes {many(len(gone), 'change')} out of {workspace.channel}:")
    for change in workspace.changes([other for other in names if other in gone]):
        line("  " + told_line(change))
    if not given.yes and not ask("take them out?"):
        raise Stop("nothing was taken out", "pj uproot --yes does it without asking")
    return _take_out(workspace, "uproot", name, [other for other in names if other not in gone])


def needing(changes: Sequence[Change], name: str) -> Set[str]:
    """A change, and all that reach it by needs; needs stand before what needs them."""
    found = {name}
    for change in changes:
        if not found.isdisjoint(change.needs):
            found.add(change.name)
    return found


def _held(workspace: Workspace, name: str) -> List[str]:
    """The names of the channel, of which this has to be one."""
    names = workspace.log()
    check_within(workspace, names)
    if name not in names:
        raise Stop(
            f"the channel {workspace.channel} does not have {short(name)}",
            "pj log lists what it has",
        )
    return names


def _take_out(workspace: Workspace, word: str, name: str, names: Sequence[str]) -> int:
    view = workspace.view(names)
    blocked = workspace.blocked(view.folder)
    if blocked:
        raise refuse_edited(
            workspace,
            blocked,
            "nothing was taken out; record them first (pj record), or take them back (pj restore)",
        )
    workspace.session.ask(word, workspace.channel, name)
    written = workspace.write_view(view, list(names))
    line(f"taken out of {workspace.channel}: {short(name)}")
    return say_written(workspace, written)


def run_undo(workspace: Workspace, given: Namespace) -> int:
    """Applies the inverse of a change, or records the folder of the set without it."""
    name = workspace.named(given.name)
    names = _held(workspace, name)
    (change,) = workspace.changes([name])
    inverse = _inverse(workspace, change)
    if inverse is not None:
        if inverse.name in names:
            raise Stop(f"{short(name)} is undone already, by {short(inverse.name)}")
        changes = [inverse]
        view = View([*workspace.changes(names), inverse])
    else:
        done = _opposite(workspace, names, change, given)
        changes, view = done.changes, done.view
    if not changes:
        raise Stop(f"there is nothing to undo of {short(name)}")
    blocked = workspace.blocked(view.folder)
    if blocked:
        raise refuse_edited(
            workspace,
            blocked,
            "nothing was undone; record them first (pj record), or take them back (pj restore)",
        )
    for made in changes:
        workspace.keep(made)
    texts = [(made.name, made.text) for made in changes]
    workspace.session.put_and_apply(workspace.channel, texts)
    written = workspace.write_view(view, [*names, *(made.name for made in changes)])
    for made in changes:
        line(f"undone {short(name)} by {short(made.name)}")
    return say_written(workspace, written)


def _inverse(workspace: Workspace, change: Change) -> Optional[Change]:
    """The inverse that the server gives, if the change has one."""
    try:
        return Change(workspace.session.ask("inverse", change.name).body)
    except Refused as refusal:
        if refusal.reason == "inverse":
            return None
        raise


def _opposite(
    workspace: Workspace, names: Sequence[str], change: Change, given: Namespace
) -> Recorded:
    """The changes that make of the set what it prints without a change."""
    needed = needing(workspace.changes(names), change.name) - {change.name}
    if needed:
        raise Stop(
            f"{short(change.name)} has no inverse, and {many(len(needed), 'change')} need it",
            f"undo those first: {', '.join(short(other) for other in sorted(needed)[:6])}",
        )
    without = workspace.view([other for other in names if other != change.name])
    about = workspace.about(f"undo {short(change.name)}: {change.title}"[:200], given.author)
    told = Told(leave=True)
    return make(workspace, names, without.folder, about, told)

