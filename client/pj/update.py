"""Writes the files of a folder from one set of changes to another: all of them, or none.

The new files are written beside, into `.pj/new`. Then a plan is kept that says
what is to stand where. From then on the update goes forward: a command that was
stopped is taken up by the next one. A file that a person has edited is never
written over: before the plan is kept that is found for all paths, and once more
for each path before it is changed.
"""

from __future__ import annotations

import json
import os
import shutil
from typing import Any, Dict, Iterable, List, Mapping, NamedTuple, Optional, Sequence, Tuple

from . import disk
from .folder import Config, WorkingFolder, decode, encode, spell_told
from .paths import Node, above, base_of, depth, differing, spoken

LONGEST = 4095  # bytes of a path that the system takes


class Edited(Exception):
    """Edits that are not recorded stand where others are to be written; nothing was written."""

    def __init__(self, paths: Iterable[bytes]):
        self.paths = sorted(set(paths))
        super().__init__(", ".join(map(spoken, self.paths)))


class Unwritable(Exception):
    """A path that this disk, or this client, cannot have; the message says which."""


class Halted(Exception):
    """An update that was stopped cannot go on, since files were edited meanwhile."""

    def __init__(self, paths: Iterable[bytes]):
        self.paths = sorted(set(paths))
        super().__init__(", ".join(map(spoken, self.paths)))


Plan = Dict[str, Any]  # as it is kept: what is to be shown, and the steps to it


class Goal(NamedTuple):
    """What a folder is to show."""

    shown: Sequence[str]
    config: Config
    moves: Mapping[bytes, bytes] = {}
    keeps: Iterable[bytes] = ()


class Step(NamedTuple):
    """One path of a plan, with marks of what stands there before and after."""

    path: bytes
    old: str
    new: str
    file: int  # its number in `.pj/new`, where a file is to stand there


def blocked(
    now: disk.Scan, old: Mapping[bytes, Node], new: Mapping[bytes, Node]
) -> List[bytes]:
    """The paths with edits that are not recorded where a folder that shows `old` would change."""
    changed = differing(old, new)
    found = [path for path in changed if now.folder.get(path) not in (old.get(path), new.get(path))]
    found += [path for path in changed if path in now.others]
    going = {path for path in changed if path not in new or new[path].kind != "dir"}
    # What a person has put into a directory that is to go.
    for path in (*now.folder, *now.others):
        if path not in going and any(p in going and p in old for p in above(path)):
            found.append(path)
    # A directory that a person has taken away, or in whose place something else stands.
    for path in changed:
        if path in new:
            stays = (p for p in above(path) if p in old and old[p] == new.get(p))
            found += [p for p in stays if now.folder.get(p) != Node("dir")]
            found += [p for p in above(path) if p in now.others]
    return sorted(set(found))


def write(
    folder: WorkingFolder,
    now: disk.Scan,
    old: Mapping[bytes, Node],
    new: Mapping[bytes, Node],
    goal: Goal,
) -> List[bytes]:
    """Makes a folder that shows `old` show `new`; the paths that were written."""
    plan = stage(folder, now, old, new, goal)
    begin(folder, plan)
    _carry_out(folder, plan)
    return paths_of(plan)


def stage(
    folder: WorkingFolder,
    now: disk.Scan,
    old: Mapping[bytes, Node],
    new: Mapping[bytes, Node],
    goal: Goal,
) -> Plan:
    """Writes the new files beside, and gives the plan by which they come to their places."""
    edited = blocked(now, old, new)
    if edited:
        raise Edited(edited)
    changed = [path for path in differing(old, new) if now.folder.get(path) != new.get(path)]
    for path in changed:
        _writable(folder.root, path, path in new)
    steps = []
    clear(folder)
    if changed:
        disk.make_dir(folder.path(b"new"))
    for number, path in enumerate(changed):
        before, after = now.folder.get(path), new.get(path)
        if after is not None and after.kind == "file":
            disk.write_file(_staged(folder, number), after.data, after.executable)
            _keep_mode(os.path.join(folder.root, path), _staged(folder, number), before, after)
        steps.append(Step(path, disk.mark_of(before), disk.mark_of(after), number))
    return {
        "shown": list(goal.shown),
        "config": list(goal.config),
        "told": spell_told(goal.moves, goal.keeps),
        "steps": [[decode(step.path), *step[1:]] for step in steps],
    }


def begin(folder: WorkingFolder, plan: Plan) -> None:
    """Keeps a plan; from now on the update goes forward."""
    disk.save(folder.path(b"plan"), json.dumps(plan).encode())


def paths_of(plan: Plan) -> List[bytes]:
    """The paths that a plan changes."""
    return [step.path for step in _steps_of(plan)]


def _steps_of(plan: Plan) -> List[Step]:
    return [Step(encode(path), *rest) for path, *rest in plan["steps"]]


def go_on(folder: WorkingFolder) -> bool:
    """Ends an update that was stopped, if there is one; whether there was."""
    try:
        with open(folder.path(b"plan"), "rb") as file:
            plan = json.loads(file.read())
    except FileNotFoundError:
        return False
    due = [step for step in _steps_of(plan) if _is_due(folder, step)]
    edited = [step.path for step in due if not _may_change(folder, step)]
    if edited:
        raise Halted(edited)
    _carry_out(folder, plan)
    return True


def clear(folder: WorkingFolder) -> None:
    """Takes away files that were written beside for a plan that was never kept."""
    shutil.rmtree(folder.path(b"new"), ignore_errors=True)


def _carry_out(folder: WorkingFolder, plan: Plan) -> None:
    steps = _steps_of(plan)
    for step in sorted(steps, key=lambda step: -depth(step.path)):
        if _kind(step.old) != "absent" and _kind(step.old) != _kind(step.new):
            _take_away(folder, step)
    for step in sorted(steps, key=lambda step: (depth(step.path), step.path)):
        full = os.path.join(folder.root, step.path)
        if step.new == "dir":
            if not os.path.isdir(full):
                disk.make_dir(full)
        elif step.new != "absent" and os.path.exists(_staged(folder, step.file)):
            if not _may_change(folder, step):
                raise Halted([step.path])
            if not os.path.isdir(os.path.dirname(full)):
                disk.make_dir(os.path.dirname(full))
            disk.replace(_staged(folder, step.file), full)
    told = plan["told"]
    moves = {encode(old): encode(new) for old, new in told["moves"].items()}
    folder.save_told(moves, list(map(encode, told["keeps"])), plan["shown"])
    folder.save_shown(plan["shown"])
    folder.save_config(Config(*plan["config"]))
    disk.remove(folder.path(b"plan"))
    clear(folder)


def _take_away(folder: WorkingFolder, step: Step) -> None:
    full = os.path.join(folder.root, step.path)
    there = disk.node_at(full)
    if there is None or disk.mark_of(there) == step.new:
        return
    if disk.mark_of(there) != step.old:
        if step.new == "absent":
            return  # a person's, which stays there as something new
        raise Halted([step.path])
    if there.kind != "dir":
        disk.remove(full)
    elif not disk.remove_dir(full) and step.new != "absent":
        raise Halted([step.path])  # a file is to stand there, and something came into the directory


def _is_due(folder: WorkingFolder, step: Step) -> bool:
    """Whether something may still have to be written over at a path."""
    if _kind(step.new) == "file":
        return os.path.exists(_staged(folder, step.file))
    return step.new == "dir" and _kind(step.old) == "file"


def _may_change(folder: WorkingFolder, step: Step) -> bool:
    """Whether nothing of a person's stands at a path: what was there, what is to be, or nothing."""
    there = disk.node_at(os.path.join(folder.root, step.path))
    return there is None or disk.mark_of(there) in (step.old, step.new)


def _kind(mark: str) -> str:
    """The kind of what a mark stands for."""
    return mark if mark in ("absent", "dir", "other") else "file"


def _staged(folder: WorkingFolder, number: int) -> bytes:
    return folder.path(b"new", b"%d" % number)


def _keep_mode(full: bytes, staged: bytes, before: Optional[Node], after: Node) -> None:
    """A file that is written anew keeps its mode, unless the executable bit changes."""
    if before is not None and before.kind == "file" and before.executable == after.executable:
        os.chmod(staged, os.stat(full).st_mode & 0o777)


def _writable(root: bytes, path: bytes, comes: bool) -> None:
    if not comes:
        return
    parts: Tuple[bytes, ...] = (base_of(path), *map(base_of, above(path)))
    if any(map(disk.is_reserved, parts)):
        raise Unwritable(f"{spoken(path)} has a name that is reserved for pj or git")
    if len(os.path.join(root, path)) > LONGEST:
        raise Unwritable(f"{spoken(path)} is too long a path for this disk")
