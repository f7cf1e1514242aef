"""Differences that a person reads: unified diffs, and which files came, went and moved."""

from __future__ import annotations

from typing import Callable, Iterator, List, Mapping, NamedTuple, Optional, Sequence, Tuple

from .edit import is_binary
from .lines import matches, split
from .match import Matcher
from .paths import Node, spoken
from .view import View

CONTEXT = 3  # lines of equal text shown about a difference


class Difference(NamedTuple):
    """What became of one thing: `old` and `new` are None where it came or went."""

    word: str  # "made", "deleted", "moved", "changed" or "mode"
    old_path: Optional[bytes]
    new_path: Optional[bytes]
    old: Optional[Node]
    new: Optional[Node]

    @property
    def path(self) -> bytes:
        """The path by which it is sorted: the new one, if there is one."""
        path = self.new_path if self.new_path is not None else self.old_path
        assert path is not None
        return path


def compare(
    view: View, new: Mapping[bytes, Node], moves: Mapping[bytes, bytes]
) -> List[Difference]:
    """What differs in a folder from what a set prints, moves found as a record finds them."""
    old = view.folder
    found = Matcher(view.entries, new, view.text, moves).found
    rows: List[Difference] = []
    placed = set()
    for path, entry in found.items():
        if entry is None:
            rows.append(Difference("made", None, path, None, new[path]))
            continue
        placed.add(entry.path)
        before, after = old[entry.path], new[path]
        if entry.path != path:
            rows.append(Difference("moved", entry.path, path, before, after))
        elif before.data != after.data:
            rows.append(Difference("changed", path, path, before, after))
        elif before.executable != after.executable:
            rows.append(Difference("mode", path, path, before, after))
    for path, node in old.items():
        if path not in placed:
            rows.append(Difference("deleted", path, None, node, None))
    return sorted(rows, key=lambda row: row.path)


def plain(old: Mapping[bytes, Node], new: Mapping[bytes, Node]) -> List[Difference]:
    """What differs between two folders, path by path."""
    rows = []
    for path in sorted({*old, *new}):
        before, after = old.get(path), new.get(path)
        if before == after:
            continue
        word = "made" if before is None else "deleted" if after is None else "changed"
        if before and after and before.data == after.data and before.kind == after.kind:
            word = "mode"
        rows.append(Difference(word, path, path, before, after))
    return rows


def said(row: Difference, name: Callable[[bytes], str]) -> str:
    """One line on a difference; `name` says a path."""
    note = ""
    if row.old and row.new and row.old.executable != row.new.executable:
        note = " (executable)" if row.new.executable else " (no longer executable)"
    if row.word == "moved":
        assert row.old_path is not None and row.new_path is not None and row.old and row.new
        edited = ", and changed" if row.old.data != row.new.data else ""
        return f"moved    {name(row.old_path)} -> {name(row.new_path)}{edited}{note}"
    node = row.new or row.old
    slash = "/" if node and node.kind == "dir" else ""
    return f"{row.word:<8} {name(row.path)}{slash}{note}"


def unified(row: Difference) -> Iterator[bytes]:
    """The lines of a difference as a unified diff, each with its newline."""
    before, after = _text_of(row.old), _text_of(row.new)
    here = b"/dev/null" if row.old is None else b"a/" + _quoted(row.old_path)
    there = b"/dev/null" if row.new is None else b"b/" + _quoted(row.new_path)
    if row.word == "moved":
        yield b"moved from %s\nmoved to %s\n" % (_quoted(row.old_path), _quoted(row.new_path))
    if row.old and row.new and row.old.executable != row.new.executable:
        yield b"%s %s\n" % (
            b"executable" if row.new.executable else b"no longer executable",
            _quoted(row.new_path),
        )
    for node, path, word in ((row.old, row.old_path, b"deleted"), (row.new, row.new_path, b"made")):
        if node and node.kind == "dir" and row.word in ("made", "deleted"):
            yield b"%s folder %s\n" % (word, _quoted(path))
        elif node and not node.data and row.word in ("made", "deleted"):
            yield b"%s empty file %s\n" % (word, _quoted(path))
    if before == after:
        return
    if is_binary(before) or is_binary(after):
        yield b"binary files %s (%d bytes) and %s (%d bytes) differ\n" % (
            here, len(before), there, len(after),
        )
        return
    yield b"--- %s\n+++ %s\n" % (here, there)
    yield from hunks(split(before), split(after))


def _text_of(node: Optional[Node]) -> bytes:
    return node.data if node and node.kind == "file" else b""


def _quoted(path: Optional[bytes]) -> bytes:
    return spoken(path or b"").encode("utf-8", "surrogateescape")


Part = Tuple[str, int, int, int, int]  # "=" or "!", and the lines from a up to b, and c up to d


def hunks(old: Sequence[bytes], new: Sequence[bytes]) -> Iterator[bytes]:
    """The hunks of a unified diff of two lists of lines."""
    for group in _groups(_parts(old, new)):
        a, c = group[0][1], group[0][3]
        b, d = group[-1][2], group[-1][4]
        yield b"@@ -%s +%s @@\n" % (_span(a, b), _span(c, d))
        for word, x, y, z, w in group:
            if word == "=":
                yield from _signed(b" ", old[x:y])
            else:
                yield from _signed(b"-", old[x:y])
                yield from _signed(b"+", new[z:w])


def _span(start: int, end: int) -> bytes:
    if end - start == 1:
        return b"%d" % (start + 1)
    return b"%d,%d" % (start + (end > start), end - start)


def _signed(sign: bytes, lines: Sequence[bytes]) -> Iterator[bytes]:
    for text in lines:
        yield sign + text if text.endswith(b"\n") else sign + text + b"\n\\ No newline at end\n"


def _parts(old: Sequence[bytes], new: Sequence[bytes]) -> List[Part]:
    found: List[Part] = []
    a = c = 0
    for x, y, count in [*matches(old, new), (len(old), len(new), 0)]:
        if (a, c) != (x, y):
            found.append(("!", a, x, c, y))
        if count:
            found.append(("=", x, x + count, y, y + count))
        a, c = x + count, y + count
    return found


def _groups(parts: Sequence[Part]) -> Iterator[List[Part]]:
    """The parts by hunks, with `CONTEXT` lines of equal text before and behind each."""
    group: List[Part] = []
    for place, (word, a, b, c, d) in enumerate(parts):
        if word == "!":
            group.append((word, a, b, c, d))
            continue
        first, last = place == 0, place == len(parts) - 1
        if not first and (last or b - a > 2 * CONTEXT):
            cut = min(CONTEXT, b - a)
            group.append((word, a, a + cut, c, c + cut))
            yield group
            group = []
        if not last:
            cut = 0 if group else max(0, b - a - CONTEXT)
            group.append((word, a + cut, b, c + cut, d))
    if any(part[0] == "!" for part in group):
        yield group
