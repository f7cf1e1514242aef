"""The order of a file's live text, and its layout (docs/MODEL.md).

A vertex is known by its number in the order of the first points, and a set of
vertices is an integer with a bit for each of its numbers.
"""

from __future__ import annotations

from typing import Callable, Dict, Iterator, List, NamedTuple, Sequence, Union

from .graph import DEAD, Graph, Vertex
from .text import Point

DEEPEST = 64  # the depth at which what is left is a tangle


def members(bits: int) -> Iterator[int]:
    """The numbers in a set, rising."""
    while bits:
        low = bits & -bits
        yield low.bit_length() - 1
        bits ^= low


def size(bits: int) -> int:
    """How many numbers a set has."""
    return bin(bits).count("1")


class FileOrder:
    """The vertices of a file, dead ones too, and which are before which."""

    def __init__(self, graph: Graph, inode: Point):
        self.vertices: List[Vertex] = graph.vertices(inode)
        self.status: List[str] = [graph.status(vertex.first) for vertex in self.vertices]
        enters = {vertex.first: k for k, vertex in enumerate(self.vertices)}
        leaves = {vertex.last: k for k, vertex in enumerate(self.vertices)}
        nexts: List[List[int]] = [[] for _ in self.vertices]
        for source, target in graph.pairs(inode):
            nexts[leaves[source]].append(enters[target])
        self.parts = strong_parts(nexts)  # those that are reached come first
        self.part_of = [0] * len(nexts)
        self.cyclic: List[bool] = []
        inside = [0] * len(self.parts)
        reached = [0] * len(self.parts)
        for number, part in enumerate(self.parts):
            for k in part:
                self.part_of[k] = number
                inside[number] |= 1 << k
        for number, part in enumerate(self.parts):
            total, loops = 0, len(part) > 1
            for k in part:
                for other in nexts[k]:
                    there = self.part_of[other]
                    if there == number:
                        loops = True
                    elif not total >> other & 1:
                        total |= inside[there] | reached[there]
            reached[number] = total | (inside[number] if loops else 0)
            self.cyclic.append(loops)
        self.after: List[int] = [reached[part] for part in self.part_of]
        self.live = [k for k, status in enumerate(self.status) if status != DEAD]

    def before(self, u: int, v: int) -> bool:
        """Whether vertex u is before vertex v."""
        return bool(self.after[u] >> v & 1)

    def is_cyclic(self, k: int) -> bool:
        """Whether a vertex is before itself."""
        return self.cyclic[self.part_of[k]]


def strong_parts(nexts: Sequence[Sequence[int]]) -> List[List[int]]:
    """The strongly connected parts, each behind all that it reaches."""
    found: List[List[int]] = []
    number: Dict[int, int] = {}
    low: Dict[int, int] = {}
    stack: List[int] = []
    held = set()
    for root in range(len(nexts)):
        if root in number:
            continue
        walk = [(root, iter(nexts[root]))]
        number[root] = low[root] = len(number)
        stack.append(root)
        held.add(root)
        while walk:
            here, rest = walk[-1]
            for other in rest:
                if other not in number:
                    number[other] = low[other] = len(number)
                    stack.append(other)
                    held.add(other)
                    walk.append((other, iter(nexts[other])))
                    break
                if other in held:
                    low[here] = min(low[here], number[other])
            else:
                walk.pop()
                if walk:
                    low[walk[-1][0]] = min(low[walk[-1][0]], low[here])
                if low[here] == number[here]:
                    part = []
                    while not part or part[-1] != here:
                        part.append(stack.pop())
                        held.discard(part[-1])
                    found.append(sorted(part))
    return found


class One(NamedTuple):
    """A class: its live vertices, and whether they are before themselves."""

    vertices: List[int]
    cyclic: bool


class Series(NamedTuple):
    """Parts that stand one after the other."""

    parts: List["Layout"]


class Sides(NamedTuple):
    """Parts without an order between them; of a tangle its classes, one by one."""

    parts: List["Layout"]
    tangle: bool


Layout = Union[One, Series, Sides]


def lay_out(order: FileOrder) -> Layout:
    """The layout of a file's live vertices."""
    alive = sum(1 << k for k in order.live)
    row = sorted(order.live, key=lambda k: -size(order.after[k] & alive))
    if not any(map(order.is_cyclic, row)) and all(map(order.before, row, row[1:])):
        return Series([One([k], False) for k in row])  # one row, as most files are
    classes = _Classes(order)
    return classes.lay(sum(1 << k for k in classes.vertices), 0)


class _Classes:
    """The classes of live vertices, each known by its least vertex, and which are before which."""

    def __init__(self, order: FileOrder):
        self.order = order
        self.vertices: Dict[int, List[int]] = {}
        least: Dict[int, int] = {}  # the least live vertex of a strong part
        for k in order.live:
            key = least.setdefault(order.part_of[k], k) if order.is_cyclic(k) else k
            self.vertices.setdefault(key, []).append(k)
        whole = sum(1 << k for k in self.vertices)
        self.after = {k: order.after[k] & whole & ~(1 << k) for k in self.vertices}
        self.before = dict.fromkeys(self.vertices, 0)
        for k in self.vertices:
            for other in members(self.after[k]):
                self.before[other] |= 1 << k

    def lay(self, bits: int, depth: int) -> Layout:
        """The layout of a set of classes: the first of the rules that applies."""
        if not bits:
            return Series([])
        if not bits & (bits - 1):
            return self._one(bits.bit_length() - 1)
        if depth == DEEPEST:
            return self._tangle(bits)
        row = sorted(members(bits), key=lambda k: size(self.before[k] & bits))
        parts = _series(row, bits, self.before)
        if len(parts) > 1:
            return Series([self.lay(part, depth + 1) for part in parts])
        sides = _linked(bits, lambda k: self.after[k] | self.before[k])
        if len(sides) > 1:
            return Sides([self.lay(part, depth + 1) for part in sides], False)
        return self._tangle(bits)

    def _one(self, k: int) -> One:
        return One(self.vertices[k], self.order.is_cyclic(k))

    def _tangle(self, bits: int) -> Sides:
        """The classes of a set, each the least of those that have none of the others before."""
        row: List[Layout] = []
        while bits:
            k = next(k for k in members(bits) if not self.before[k] & bits)
            row.append(self._one(k))
            bits ^= 1 << k
        return Sides(row, True)


def _series(row: Sequence[int], bits: int, before: Dict[int, int]) -> List[int]:
    """The parts of a series: cut where all that came is before all that comes.

    `row` is sorted by how many are before each. A cut stands behind a prefix
    of it exactly where each later one has the whole prefix before it.
    """
    common, parts = bits, []
    suffix = []
    for k in reversed(row):
        common &= before[k]
        suffix.append(common)
    suffix.reverse()  # what is before all from here on
    prefix = part = 0
    for place, k in enumerate(row):
        if part and not prefix & ~suffix[place]:
            parts.append(part)
            part = 0
        prefix |= 1 << k
        part |= 1 << k
    return [*parts, part]


def _linked(bits: int, links: Callable[[int], int]) -> List[int]:
    """The connected parts, by their least members."""
    parts = []
    while bits:
        part = fresh = bits & -bits
        bits ^= fresh
        while fresh:
            near = 0
            for k in members(fresh):
                near |= links(k)
            fresh = near & bits
            part |= fresh
            bits ^= fresh
        parts.append(part)
    return parts
