"""Paths of a folder, as bytes with `/` between the names, and what stands at them."""

from __future__ import annotations

from typing import Dict, Iterable, List, Mapping, NamedTuple


class Node(NamedTuple):
    """What stands at a path: a directory, or a file with its bytes."""

    kind: str  # "dir" or "file"
    executable: bool = False
    data: bytes = b""


Folder = Dict[bytes, Node]


def parent_of(path: bytes) -> bytes:
    """The path of the directory that a path is in; empty for the top."""
    return path.rpartition(b"/")[0]


def base_of(path: bytes) -> bytes:
    """The last name of a path."""
    return path.rpartition(b"/")[2]


def join(parent: bytes, name: bytes) -> bytes:
    """The path of a name in a directory."""
    return parent + b"/" + name if parent else name


def depth(path: bytes) -> int:
    """How many directories stand above a path."""
    return path.count(b"/")


def is_under(path: bytes, above: bytes) -> bool:
    """Whether a path is another one, or within it; all paths are within the empty one."""
    return not above or path == above or path.startswith(above + b"/")


def differing(old: Mapping[bytes, Node], new: Mapping[bytes, Node]) -> List[bytes]:
    """The paths at which two folders differ."""
    return sorted(path for path in {*old, *new} if old.get(path) != new.get(path))


def above(path: bytes) -> Iterable[bytes]:
    """The directories above a path, the nearest first."""
    while b"/" in path:
        path = parent_of(path)
        yield path


def spoken(path: bytes) -> str:
    """A path as people read it: as it is, or quoted where it has bytes that would not show."""
    text = path.decode("utf-8", "surrogateescape")
    if text.isprintable() and text == text.strip() and not text.startswith('"'):
        return text
    shown = []
    for letter in text:
        if letter in '"\\':
            shown.append("\\" + letter)
        elif letter.isprintable():
            shown.append(letter)
        else:
            raw = letter.encode("utf-8", "surrogateescape")
            shown.append("".join("\\x%02x" % byte for byte in raw))
    return '"' + "".join(shown) + '"'
