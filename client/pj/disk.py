"""Files of a disk: read as a folder, and each way in which this client changes the disk."""

from __future__ import annotations

import os
import stat
from hashlib import sha256
from typing import BinaryIO, List, NamedTuple, Optional

from .paths import Folder, Node, join
from .stops import step

OWN = b".pj"  # the directory of a working folder in which the client keeps its own files


class Scan(NamedTuple):
    """What stands in a folder: its files, and what no change can have (links, pipes, devices)."""

    folder: Folder
    others: List[bytes]


def scan(root: bytes) -> Scan:
    """Reads a folder; what has a reserved name is not looked at, at any depth."""
    found: Folder = {}
    others: List[bytes] = []
    todo = [b""]
    while todo:
        path = todo.pop()
        for entry in sorted(os.scandir(os.path.join(root, path)), key=lambda entry: entry.name):
            here = join(path, entry.name)
            if is_reserved(entry.name):
                continue
            if entry.is_dir(follow_symlinks=False):
                found[here] = Node("dir")
                todo.append(here)
            elif entry.is_file(follow_symlinks=False):
                found[here] = read_node(entry.path)
            else:
                others.append(here)
    return Scan(found, sorted(others))


def is_reserved(name: bytes) -> bool:
    """Whether a name belongs to this client or to git, on disks of any kind.

    Both run what stands in their own directories, as hooks, so that nothing
    that came from others may be written there, and nothing there is recorded.
    """
    return name.lower() in (OWN, b".git")


def read_node(full: bytes) -> Node:
    """A file of the disk."""
    with open(full, "rb") as file:
        executable = bool(os.fstat(file.fileno()).st_mode & stat.S_IXUSR)
        return Node("file", executable, file.read())


def node_at(full: bytes) -> Optional[Node]:
    """What stands at a full path; of a link or the like a node that equals none."""
    try:
        mode = os.lstat(full).st_mode
    except (FileNotFoundError, NotADirectoryError):
        return None
    if stat.S_ISDIR(mode):
        return Node("dir")
    return read_node(full) if stat.S_ISREG(mode) else Node("other")


def mark_of(node: Optional[Node]) -> str:
    """A short word for what stands at a path: equal words for equal nodes alone."""
    if node is None:
        return "absent"
    if node.kind != "file":
        return node.kind
    return ("exec:" if node.executable else "file:") + sha256(node.data).hexdigest()


# Every write of the client to a disk is one of these.


def write_file(full: bytes, data: bytes, executable: bool = False) -> None:
    """Writes a file that is not there yet, or is the client's own and may be half written."""
    step()
    flags = os.O_WRONLY | os.O_CREAT | os.O_TRUNC | getattr(os, "O_NOFOLLOW", 0)
    with open(os.open(full, flags, 0o777 if executable else 0o666), "wb") as file:
        file.write(data)


def make_file(full: bytes, mode: int) -> BinaryIO:
    """Opens a new file for writing; `FileExistsError` where something stands there."""
    step()
    return open(os.open(full, os.O_WRONLY | os.O_CREAT | os.O_EXCL, mode), "wb")


def link(full: bytes, place: bytes) -> None:
    """Gives a file a further path, at which nothing may stand, and sees that it is on the disk."""
    step()
    os.link(full, place)
    folder = os.open(os.path.dirname(place) or b".", os.O_RDONLY)
    try:
        os.fsync(folder)
    finally:
        os.close(folder)


def save(full: bytes, data: bytes) -> None:
    """Writes a file whole or not at all: beside its place, and then renamed."""
    write_file(full + b".new", data)
    replace(full + b".new", full)


def replace(old: bytes, new: bytes) -> None:
    """Renames a file over another one."""
    step()
    os.replace(old, new)


def remove(full: bytes) -> None:
    """Takes a file away."""
    step()
    os.unlink(full)


def make_dir(full: bytes) -> None:
    """Makes a directory; that it is there already is no fault."""
    step()
    os.makedirs(full, exist_ok=True)


def remove_dir(full: bytes) -> bool:
    """Takes a directory away, if it is empty; whether it was."""
    step()
    try:
        os.rmdir(full)
    except OSError:
        return False
    return True
