"""Which paths of a folder are which inodes: what stayed, what moved, what is new."""

from __future__ import annotations

from collections import Counter, defaultdict
from typing import Callable, Dict, List, Mapping, Optional, Sequence, Set, Tuple

from .lines import Lines
from .paths import Node, base_of, join, parent_of
from .text import Point
from .tree import Entry


COMMON = 100  # a line that more files than this have tells nothing of a move
NEAREST = 8  # so many files that are gone are compared with a new one
ALIKE = 2  # of so many lines one must be common to two files that are alike
Pair = Tuple[Entry, bytes]  # an entry that is gone, and the new path that it is taken for

class Matcher:
    """Says for each path of a folder which entry it continues.

    What was told to be moved is taken so; then what stands where it stood; then
    files with equal bytes, then those with half of their lines in common; and
    directories go with what was in them.
    """

    def __init__(
        self,
        entries: Sequence[Entry],
        folder: Mapping[bytes, Node],
        text_of: Callable[[Point], bytes],
        told: Mapping[bytes, bytes],
    ):
        self.entries, self.folder, self.text_of = entries, folder, text_of
        self.moves = dict(told)
        self.found: Dict[bytes, Optional[Entry]] = {}  # None for what is new
        self._lines: Dict[bytes, Lines] = {}
        while True:
            self._place()
            pairs = self._pairs()
            move = self._folder_move(pairs)
            if move is None:
                break
            self.moves[move[0]] = move[1]
        for entry, path in pairs:
            self.found[path] = entry

    def _place(self) -> None:
        """Each entry where it stood, or where what is above it was moved."""
        self.found = dict.fromkeys(self.folder)
        held: Set[Point] = set()
        moved = self._moved()
        entries = self.entries
        if moved:  # what was moved comes first: its new path may be one that another entry had
            entries = sorted(entries, key=lambda entry: entry.path not in moved)
        for entry in entries:
            path = moved.get(entry.path, entry.path)
            node = self.folder.get(path)
            if node is not None and node.kind == entry.kind and self.found[path] is None:
                self.found[path] = entry
                held.add(entry.inode)
        self.gone = [e for e in self.entries if e.inode not in held and not e.again]
        self.fresh = [path for path, entry in self.found.items() if entry is None]

    def _moved(self) -> Dict[bytes, bytes]:
        """The new paths of entries that were moved, or that are in what was."""
        found: Dict[bytes, bytes] = {}
        for entry in self.entries if self.moves else ():
            above = parent_of(entry.path)
            path = self.moves.get(entry.path)
            if path not in self.folder:
                path = join(found.get(above, above), base_of(entry.path))
            if path != entry.path:
                found[entry.path] = path
        return found

    def _pairs(self) -> List[Pair]:
        """Files that are gone, each with a new one that is equal, or alike."""
        gone = [entry for entry in self.gone if entry.kind == "file"]
        fresh = [path for path in self.fresh if self.folder[path].kind == "file"]
        if not gone or not fresh:
            return []
        found: List[Pair] = []
        texts = {entry.inode: self.text_of(entry.inode) for entry in gone}
        by_text: Dict[bytes, List[bytes]] = defaultdict(list)
        for path in sorted(fresh):
            by_text[self.folder[path].data].append(path)
        for entry in gone:
            same = by_text.get(texts[entry.inode]) if texts[entry.inode] else None
            if same:
                name, above = base_of(entry.path), parent_of(entry.path)
                best = max(same, key=lambda p: (base_of(p) == name, parent_of(p) == above))
                same.remove(best)
                found.append((entry, best))
        done = {entry.inode for entry, _ in found} | {path for _, path in found}
        left = [entry for entry in gone if entry.inode not in done]
        paths = [path for path in fresh if path not in done]
        return found + self._alike(left, paths, texts)

    def _alike(
        self, gone: Sequence[Entry], fresh: Sequence[bytes], texts: Mapping[Point, bytes]
    ) -> List[Pair]:
        """Files that are gone, each with a new one that has half of its lines, the best first."""
        having: Dict[bytes, List[int]] = defaultdict(list)
        lines = [self._lines_of(texts[entry.inode]) for entry in gone]
        for number, row in enumerate(lines):
            for line in row.count:
                having[line].append(number)
        scores = []
        for path in fresh:
            row = self._lines_of(self.folder[path].data)
            shared_by: Dict[int, int] = defaultdict(int)  # how many different lines are shared
            for line in row.count:
                numbers = having.get(line, ())
                if len(numbers) <= COMMON:
                    for number in numbers:
                        shared_by[number] += 1
            for number in sorted(shared_by, key=lambda n: (-shared_by[n], n))[:NEAREST]:
                shared, most = row.common(lines[number]), max(lines[number].total, row.total)
                if ALIKE * shared >= most:
                    same = base_of(path) == base_of(gone[number].path)
                    scores.append((-shared / most, not same, gone[number].path, path, number))
        found: List[Pair] = []
        used: Set[object] = set()
        for _, _, _, path, number in sorted(scores):
            if path not in used and number not in used:
                used |= {path, number}
                found.append((gone[number], path))
        return found

    def _lines_of(self, text: bytes) -> Lines:
        """The lines of a text, counted once."""
        if text not in self._lines:
            self._lines[text] = Lines(text)
        return self._lines[text]

    def _folder_move(self, pairs: Sequence[Pair]) -> Optional[Tuple[bytes, bytes]]:
        """A directory that is gone and a new one that has at least half of what was in it."""
        fresh = {path for path in self.fresh if self.folder[path].kind == "dir"}
        into = {entry.inode: parent_of(path) for entry, path in pairs}
        into.update({e.inode: parent_of(p) for p, e in self.found.items() if e is not None})
        for entry in sorted(self.gone, key=lambda e: (-e.path.count(b"/"), e.path)):
            if entry.kind == "dir" and entry.path not in self.moves:
                inside = [e for e in self.entries if e.parent == entry.inode and not e.again]
                votes = Counter(into[e.inode] for e in inside if into.get(e.inode) in fresh)
                if votes:
                    best, count = max(votes.items(), key=lambda row: (row[1], row[0]))
                    if 2 * count >= len(inside):
                        return entry.path, best
        return None
