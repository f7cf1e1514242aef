"""The paths of a set of changes: the walk of its print, each entry with its inode."""

from __future__ import annotations

from collections import Counter
from typing import Container, Dict, Iterable, Iterator, List, NamedTuple, Optional, Set, Tuple

from .graph import ALIVE, DEAD, Graph, NameRow, Version
from .text import ROOT, Point

Triple = Tuple[Optional[Point], bytes, Point]  # parent, name and child
Children = Dict[Point, Dict[Tuple[bytes, Point], List[NameRow]]]  # by parent, by name and child


class Entry(NamedTuple):
    """An entry of a print, with its inode and the names that it was reached by."""

    kind: str  # "dir" or "file"
    word: str  # "alive", "zombie", "orphan" or "adrift"
    again: bool  # the inode had an entry before: `same`
    path: bytes
    inode: Point
    executable: bool
    parent: Optional[Point]  # None for an orphan and what is adrift
    name: bytes
    rows: Tuple[NameRow, ...]  # the names, none of them dead, with this parent, name and child


def spell_point(point: Point) -> bytes:
    """A point as a path has it, behind a `~`."""
    return b"%s.%d" % (point[0].encode(), point[1])


class Tree:
    """The walk of the print of a set, and the same without the names that were moved away.

    A change that moves a file deletes one name and gives another. Where someone
    else worked on the file meanwhile, the deletion is contested, and the old
    name is a zombie beside the new one. `tidy` does not show such a name, so
    that nobody sees it, and the next record deletes it again.

    `before` is the walk of the same set with fewer changes, if there is one, since
    which the graph noted what may be altered. It is consumed: what it has of
    directories that stayed as they were is used again.
    """

    def __init__(self, graph: Graph, before: "Optional[Tree]" = None):
        self.graph = graph
        self.status: Dict[Point, str] = before.status if before else {}
        self.children: Children = before.children if before else {}
        self._steps_of: Dict[Tuple[Point, bytes], List[Entry]] = before._steps_of if before else {}
        self._renew(graph.take_altered() if before else graph.names.values())
        self.entries: List[Entry] = list(self._walk(self.children, self._steps_of))
        self._away: Optional[Set[Triple]] = None

    def _renew(self, altered: Iterable[NameRow]) -> None:
        """Puts in place the names that are new, or whose status may be another one now."""
        rows = list(altered)
        for row in rows:
            self.status[row.at] = self.graph.name_status(row)
        parents = {row.parent for row in rows}
        for parent in parents:
            pairs: Dict[Tuple[bytes, Point], List[NameRow]] = {}
            for row in self.graph.names_in[parent]:
                if self.status[row.at] != DEAD:
                    pairs.setdefault((row.name, row.child), []).append(row)
            self.children[parent] = pairs
        for parent, start in [key for key in self._steps_of if key[0] in parents]:
            del self._steps_of[parent, start]

    def tidy(self, showing: Container[Triple] = ()) -> List[Entry]:
        """The entries without the names that were moved away; what is `showing` stays shown."""
        away = {name for name in self.away if name not in showing}
        if not away:
            return self.entries
        children = {
            parent: {pair: rows for pair, rows in pairs.items() if (parent, *pair) not in away}
            for parent, pairs in self.children.items()
        }
        found = list(self._walk(children, {}))
        return found if len(_adrift(found)) <= len(_adrift(self.entries)) else self.entries

    @property
    def away(self) -> Set[Triple]:
        """The names that were moved away: their inodes have names that are alive."""
        if self._away is None:
            self._away = self._find_away()
        return self._away

    def _find_away(self) -> Set[Triple]:
        alive = {entry.inode for entry in self.entries if entry.word == "alive"}
        return {
            (entry.parent, entry.name, entry.inode)
            for entry in self.entries
            if entry.parent is not None
            and entry.word == "zombie"
            and entry.inode in alive
            and self._moved_away(entry)
        }

    def _moved_away(self, entry: Entry) -> bool:
        versions = (version for row in entry.rows for version in self.graph.surviving(row.at))
        return all(self._moves(version, entry.inode) for version in versions)

    def _moves(self, version: Version, inode: Point) -> bool:
        """Whether it is a deletion by a change that gave the inode an alive name, or knew one.

        Who deletes the old name once more gives no new one, but lists who did.
        """
        known = {version.change} | self.graph.changes[version.change].listed
        rows = [row for row in self.graph.names_of[inode] if self.status[row.at] == ALIVE]
        return not version.alive and any(row.at[0] in known for row in rows)

    def _walk(
        self, children: Children, steps_of: Dict[Tuple[Point, bytes], List[Entry]]
    ) -> Iterator[Entry]:
        """The walk over these names; `steps_of` has the steps that were worked out."""
        seen: Set[Point] = set()
        named = {child for pairs in children.values() for _, child in pairs}

        def steps(parent: Point, start: bytes) -> List[Entry]:
            key = (parent, start)
            if key not in steps_of:
                steps_of[key] = self._steps(children, parent, start)
            return steps_of[key]

        def below(parent: Point, path: bytes) -> Iterator[Entry]:
            stack = [iter(steps(parent, path))]
            while stack:
                entry = next(stack[-1], None)
                if entry is None:
                    stack.pop()
                    continue
                if entry.inode in seen:
                    yield entry._replace(again=True)
                    continue
                seen.add(entry.inode)
                yield entry
                if entry.kind == "dir":
                    stack.append(iter(steps(entry.inode, entry.path + b"/")))

        def alone(word: str, inode: Point) -> Iterator[Entry]:
            seen.add(inode)
            kind, path = self.graph.inodes[inode], b"~" + spell_point(inode)
            yield Entry(kind, word, False, path, inode, False, None, b"", ())
            if kind == "dir":
                yield from below(inode, path + b"/")

        yield from below(ROOT, b"")
        for inode in sorted(self.graph.inodes):
            if inode not in seen and inode not in named:
                if children.get(inode) or self.graph.live(inode):
                    yield from alone("orphan", inode)
        for inode in sorted(named):
            if inode not in seen:
                yield from alone("adrift", inode)

    def _steps(self, children: Children, parent: Point, start: bytes) -> List[Entry]:
        """The entries of the children of a parent; which of them come again is not known here."""
        pairs = children.get(parent, {})
        count = Counter(name for name, _ in pairs)
        found = []
        for pair in sorted(pairs):
            name, child = pair
            rows = sorted(pairs[pair])
            alive = [row for row in rows if self.status[row.at] == ALIVE] or rows
            executable = alive[0].executable or any(row.executable for row in alive[1:])
            word = "alive" if self.status[alive[0].at] == ALIVE else "zombie"
            tail = b"~" + spell_point(child) if count[name] > 1 else b""
            found.append(
                Entry(self.graph.inodes[child], word, False, start + name + tail, child,
                      executable, parent, name, tuple(rows))
            )
        return found


def _adrift(entries: List[Entry]) -> List[Entry]:
    return [entry for entry in entries if entry.word == "adrift"]


class Printed(NamedTuple):
    """An entry of a print, as its bytes say it."""

    kind: str  # "dir", "file", "exec" or "same"
    word: str
    path: bytes
    text: bytes


def read_print(body: bytes) -> Iterator[Printed]:
    """The entries of a print."""
    at = 0
    while at < len(body):
        end = body.index(b"\n", at)
        kind, word, rest = body[at:end].split(b" ", 2)
        at = end + 1
        text = b""
        if kind in (b"file", b"exec"):
            count, rest = rest.split(b" ", 1)
            text = body[at : at + int(count)]
            at += int(count) + 1
        yield Printed(kind.decode(), word.decode(), rest, text)
