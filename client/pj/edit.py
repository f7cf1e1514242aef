"""One file's text made another text: conflicts resolved as they were left, lines edited.

What is kept stays as it is, what is gone is deleted, what is new is inserted
where it stands. What a conflict became is told from its marker lines (module
`standing`). docs/CLIENT.md says which hunks come of what, and why.
"""

from __future__ import annotations

from typing import Dict, List, NamedTuple, Optional, Sequence, Tuple, Union

from .graph import ZOMBIE, Version
from .lines import matches, split
from .marked import Block, Mark, Marked, Row, pieces_of
from .standing import HalfResolved, Standing, standing
from .text import REFERENCES, Point
from .writer import Writer


class Run(NamedTuple):
    """Bytes of a live vertex: from `start` up to `end`, as positions of its change."""

    vertex: int
    start: int
    end: int


class Left(NamedTuple):
    """A conflict that is left: the vertices by which it begins and ends."""

    sources: List[int]
    sinks: List[int]


class New(NamedTuple):
    """Text that was inserted: its first and last byte."""

    first: Point
    last: Point


Unit = Union[Run, Left, New]


def is_binary(data: bytes) -> bool:
    """Whether bytes are no text; then they are not edited by lines, but replaced whole."""
    return b"\0" in data


class FileEdit:
    """The hunks by which the text of one file becomes another text."""

    def __init__(self, writer: Writer, inode: Point):
        self.writer, self.graph, self.inode = writer, writer.graph, inode
        self.marked = Marked(self.graph, inode)
        self.order = self.marked.order
        self.units: List[Unit] = []  # what the new text has, in its order
        self.fates: List[Tuple[str, Run]] = []  # what is to be deleted or revived

    def become(self, new: bytes, leave: bool = False, with_markers: bool = False) -> None:
        """Writes the hunks that make the text `new`.

        With `leave` conflicts may stand in it as they were; with `with_markers`
        lines that look like marker lines are taken as text.
        """
        if is_binary(new) or is_binary(self.marked.text):
            self.replace(new)
            return
        left = [] if with_markers else standing(self.marked, new)
        if left and not leave:
            raise HalfResolved(1 + new.count(b"\n", 0, left[0].start), whole=True)
        blocks = self.marked.blocks
        at, number = 0, 0
        for stop in [*left, Standing(len(blocks), len(new), len(new))]:
            text = new[at : stop.start]
            following: Optional[Left] = None
            if stop.block < len(blocks):
                following = self._left_unit(blocks[stop.block])
                mark = blocks[stop.block].tokens[0]
                if isinstance(mark, Mark) and mark.broke and text.endswith(b"\n"):
                    text = text[:-1]  # this newline belongs to the marker line
            self._segment(blocks[number : stop.block], text, following)
            if following is not None:
                self.units.append(following)
            at, number = stop.end, stop.block + 1
        self._settle()

    def replace(self, new: bytes) -> None:
        """Deletes all that is live, and inserts the new text in one piece."""
        self.units, self.fates = [], [("delete", self._whole(k)) for k in self.order.live]
        if new:
            self.writer.insert(self.inode, [self.inode], [], new)
        self._settle()

    def delete(self) -> None:
        """Deletes all that is live."""
        self.replace(b"")

    def _left_unit(self, block: Block) -> Left:
        parts = {self.order.part_of[k]: k for k in block.vertices}  # a cycle stands for one
        lead = sorted(parts.values())
        sinks = [u for u in lead if not any(u != v and self.order.before(u, v) for v in lead)]
        sources = [v for v in lead if not any(u != v and self.order.before(u, v) for u in lead)]
        return Left(sources, sinks)

    # Text between conflicts that are left.

    def _segment(self, blocks: Sequence[Block], new: bytes, following: Optional[Left]) -> None:
        """Makes the text of these blocks the text `new`."""
        runs = self._runs(blocks, split(new))
        old = b"".join(self._bytes(run) for run in runs)
        cutter = _Cutter(runs)
        kept = [*_byte_matches(split(old), split(new)), (len(old), len(old), len(new), len(new))]
        written = 0
        for a, b, c, d in kept:
            gone = cutter.take(a)
            text, written = new[written:c], d
            stay = cutter.take(b)
            if text and gone and (a == len(old) or c == len(new)):
                text, gone = self._same_prefix(text, gone)
            self.fates += [("delete", run) for run in gone]
            if text:
                after: Optional[Unit] = stay[0] if stay else following
                self._insert(text, gone, after)
            self.units += stay

    def _runs(self, blocks: Sequence[Block], lines: Sequence[bytes]) -> List[Run]:
        """The live text of blocks in an order that the graph allows.

        Sides come in the order in which the new lines have theirs. What is in a
        cycle stays in it as long as it lives, since no hunk takes an edge away:
        it is deleted, and what is left of it comes as new text.
        """
        where: Dict[bytes, int] = {}
        for number, line in enumerate(lines):
            where.setdefault(line, number)

        def place(rows: List[Row]) -> int:
            data = b"".join(self.marked.data(k) for k, _ in rows)
            return min((where[line] for line in split(data) if line in where), default=len(lines))

        runs: List[Run] = []
        for block in blocks:
            for k, cyclic in pieces_of(block.layout, place):
                if cyclic:
                    self.fates.append(("delete", self._whole(k)))
                else:
                    runs.append(self._whole(k))
        return runs

    def _same_prefix(self, text: bytes, gone: List[Run]) -> Tuple[bytes, List[Run]]:
        """Keeps the bytes with which both last lines begin, where one has no newline."""
        old = b"".join(self._bytes(run) for run in gone)
        if old.endswith(b"\n") and text.endswith(b"\n"):
            return text, gone
        less, more = sorted((old, text), key=len)
        if not more.startswith(less):
            return text, gone
        cutter = _Cutter(gone)
        self.units += cutter.take(len(less))
        return text[len(less) :], cutter.take(len(old))

    def _insert(self, text: bytes, gone: List[Run], after: Optional[Unit]) -> None:
        """Text behind what it replaces, or the last unit; before the next unit that stays.

        The ends of the first and of the last line that it replaces are ups. So
        it stands between its neighbours even where they are replaced as well,
        and who deletes some of these lines without knowing of it is in conflict.
        """
        ups: List[Point] = []
        behind: Optional[int] = None
        if gone:
            behind = gone[-1].vertex
            ups += [self._line_end(gone[0]), self._last(gone[-1])]
        before = self.units[-1] if self.units else None
        if isinstance(before, New):
            ups.append(before.last)
        elif isinstance(before, Run):
            if behind is None or not self._ordered(before.vertex, behind):
                ups.append(self._last(before))
        elif isinstance(before, Left):
            for k in before.sinks:
                if behind is None or not self._ordered(k, behind):
                    ups.append(self.order.vertices[k].last)
        downs: List[Point] = []
        if isinstance(after, Run):
            downs = [self._first(after)]
        elif isinstance(after, Left):
            downs = [self.order.vertices[k].first for k in after.sources]
        first, last = self.writer.insert(self.inode, ups or [self.inode], downs, text)
        for down in downs[REFERENCES:]:
            self.writer.order(self.inode, last, down)
        self.units.append(New(first, last))

    def _ordered(self, u: int, v: int) -> bool:
        return u == v or self.order.before(u, v)

    # Order, revivals and deletions.

    def _settle(self) -> None:
        """Joins what follows each other without an order; revives and deletes."""
        for x, y in zip(self.units, self.units[1:]):
            if not isinstance(x, New) and not isinstance(y, New):
                self._join(x, y)
        for unit in self.units:
            if isinstance(unit, Run) and self.order.status[unit.vertex] == ZOMBIE:
                self.fates.append(("revive", unit))
        for word, owner, start, end, versions in self._spans():
            self.writer.overrule(word, owner, start, end, versions)

    def _join(self, x: Union[Run, Left], y: Union[Run, Left]) -> None:
        for u in x.sinks if isinstance(x, Left) else [x.vertex]:
            for v in y.sources if isinstance(y, Left) else [y.vertex]:
                if not self._ordered(u, v):
                    source = self._last(x) if isinstance(x, Run) else self.order.vertices[u].last
                    target = self._first(y) if isinstance(y, Run) else self.order.vertices[v].first
                    self.writer.order(self.inode, source, target)

    def _spans(self) -> List[Tuple[str, str, int, int, List[Version]]]:
        """The fates as ranges of one block each, whose bytes have the same survivors."""
        rows = [(word, self.order.vertices[run.vertex].change, run) for word, run in self.fates]
        rows.sort(key=lambda row: (row[1], row[2].start))
        spans: List[Tuple[str, str, int, int, List[Version]]] = []
        for word, owner, run in rows:
            versions = self.graph.surviving((owner, run.start))
            block_at = self.graph.changes[owner].block_at
            if spans:
                last_word, last_owner, start, end, there = spans[-1]
                joins = (last_word, last_owner, end) == (word, owner, run.start)
                same = {v.change for v in there} == {v.change for v in versions}
                if joins and same and block_at(start) == block_at(run.start):
                    spans[-1] = (word, owner, start, run.end, there)
                    continue
            spans.append((word, owner, run.start, run.end, versions))
        return spans

    # Runs.

    def _whole(self, k: int) -> Run:
        vertex = self.order.vertices[k]
        return Run(k, vertex.start, vertex.end)

    def _bytes(self, run: Run) -> bytes:
        change = self.graph.changes[self.order.vertices[run.vertex].change]
        return change.data(run.start, run.end)

    def _first(self, run: Run) -> Point:
        return (self.order.vertices[run.vertex].change, run.start)

    def _last(self, run: Run) -> Point:
        return (self.order.vertices[run.vertex].change, run.end - 1)

    def _line_end(self, run: Run) -> Point:
        """The end of the first line of a run."""
        at = self._bytes(run).find(b"\n")
        return self._last(run) if at < 0 else (self._first(run)[0], run.start + at)


class _Cutter:
    """Gives a row of runs in pieces, from its beginning to its end."""

    def __init__(self, runs: Sequence[Run]):
        self.runs, self.at = list(runs), 0
        self.runs.reverse()

    def take(self, to: int) -> List[Run]:
        """The runs of the bytes up to this place."""
        found = []
        while self.at < to:
            run = self.runs.pop()
            count = min(run.end - run.start, to - self.at)
            found.append(run._replace(end=run.start + count))
            if run.start + count < run.end:
                self.runs.append(run._replace(start=run.start + count))
            self.at += count
        return found


def _byte_matches(old: Sequence[bytes], new: Sequence[bytes]) -> List[Tuple[int, int, int, int]]:
    """The bytes that stay: from a up to b in the old text, from c up to d in the new one."""
    starts: List[List[int]] = []
    for lines in (old, new):
        row = [0]
        for line in lines:
            row.append(row[-1] + len(line))
        starts.append(row)
    return [
        (starts[0][x], starts[0][x + n], starts[1][y], starts[1][y + n])
        for x, y, n in matches(old, new)
    ]
