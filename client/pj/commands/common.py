"""What several commands do."""

from __future__ import annotations

from typing import List, Sequence

from .. import settled
from ..conflicts import HINTS, WORDS, Conflict
from ..say import Stop, line, listed, many
from ..text import short
from ..workspace import Workspace, Written


def check_within(workspace: Workspace, names: Sequence[str]) -> None:
    """Stops where the folder shows changes that the channel does not have."""
    held = set(names)
    lacking = [name for name in workspace.folder.shown if name not in held]
    if lacking:
        raise Stop(
            f"the channel {workspace.channel} of {workspace.where} lacks"
            f" {many(len(lacking), 'change')} that this folder shows"
            f" ({', '.join(map(short, lacking[:4]))}{' ..' if len(lacking) > 4 else ''}):",
            "someone took them out, or the server began anew",
            "pj push puts them back; pj pull --drop takes them out of the files",
        )


def say_written(workspace: Workspace, written: Written) -> int:
    """Says which files were written, and which are in conflict since; 1 where some are."""
    for path in written.paths[:100]:
        gone = path not in workspace.shown.folder
        line(f"{'removed' if gone else 'written':<8} {workspace.relative(path)}")
    if len(written.paths) > 100:
        line(f"and {len(written.paths) - 100:,} more")
    if not written.conflicts:
        return 0
    line("in conflict now:")
    say_conflicts(workspace, written.conflicts)
    line("pj resolve lists the sides; edit the files, then pj record -m MESSAGE")
    return 1


def say_conflicts(workspace: Workspace, rows: Sequence[Conflict]) -> None:
    """A line on each conflict, and on what can be done about one that no marker line shows."""
    for row in rows:
        path = workspace.relative(row.path)
        if row.kind in HINTS:
            what, hint = HINTS[row.kind]
            line(f"  {path}: {what}", f"      {hint.format(path)}")
        else:
            count = f"{len(row.sides)} " if row.kind != "zombie" else ""
            line(f"  {path}:{row.line}: {count}{WORDS[row.kind]}")


def part_conflicts(workspace: Workspace, rows: Sequence[Conflict]) -> settled.Parted:
    """Of conflicts of the set that is shown those that stand in the files, and those settled."""
    folder, now = workspace.folder, workspace.scan.folder
    return settled.part(workspace.shown, rows, now, folder.moves, folder.keeps)


def who(workspace: Workspace, names: Sequence[str]) -> str:
    """Changes by their short names and authors."""
    said: List[str] = []
    for change in workspace.changes(names[:4]):
        said.append(f"{short(change.name)} ({change.by}: {change.title[:40]})")
    if len(names) > 4:
        said.append(f"{len(names) - 4} more")
    return listed(said)
