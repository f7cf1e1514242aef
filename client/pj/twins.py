"""Files or folders that have one name become one: one file stays, folders are put together."""

from __future__ import annotations

from typing import Dict, Iterable, List, NamedTuple, Optional, Sequence

from .paths import Folder, Node, is_under


class Joined(NamedTuple):
    """What becomes of the paths of a folder."""

    old: Dict[bytes, Node]  # what is taken from its place
    new: Dict[bytes, Node]  # what comes to another one
    moves: Dict[bytes, bytes]  # from where to where


def join_folders(
    now: Folder, others: Iterable[bytes], stays: bytes, paths: Sequence[bytes]
) -> Optional[Joined]:
    """What is in the folders at `paths` comes into the one that stays.

    None where two files would meet that differ, or where something lies in a
    folder that no change can have (`others`).
    """
    old: Dict[bytes, Node] = {}
    new: Dict[bytes, Node] = {}
    moves: Dict[bytes, bytes] = {}
    there = {path: node for path, node in now.items() if is_under(path, stays)}
    for start in (path for path in paths if path != stays):
        if any(is_under(path, start) for path in others):
            return None
        for path in sorted(path for path in now if is_under(path, start)):
            target = stays + path[len(start) :]
            node, meets = now[path], there.get(target)
            old[path] = node
            if meets is None:
                there[target] = new[target] = node
                moves[path] = target
            elif meets != node:
                return None
    return Joined(old, new, moves)


def equal_files(nodes: Sequence[Optional[Node]]) -> bool:
    """Whether these are files with the same bytes and the same executable bit."""
    return len(set(nodes)) == 1 and all(is_file(node) for node in nodes)


def is_file(node: Optional[Node]) -> bool:
    """Whether a file stands there."""
    return node is not None and node.kind == "file"


def are_folders(nodes: List[Optional[Node]]) -> bool:
    """Whether these are folders."""
    return all(node is not None and node.kind == "dir" for node in nodes)
