#!/usr/bin/env python3
"""Writes the requests that the program `test_tables` plays as `dead`, or the replies that the definition of pseudo-edges gives to them.

    python3 tests/pseudo_rows.py requests >crates/test_tables/data/dead
    python3 tests/pseudo_rows.py replies

It was written from the definition alone and shares no code with the program. A view is a list of vertices, each the
letter of its change, its first and last position and whether it is dead, and a set of edges between their first points.
The rows are worked out without looking at what was touched.
"""

import random
import sys


class View:
    def __init__(self, vertices, edges):
        self.vertices = sorted((c, f, l, dead) for c, f, l, dead in vertices)
        firsts = {(c, f) for c, f, _, _ in self.vertices}
        self.edges = {(u, v) for u, v in edges if u in firsts and v in firsts}

    def rows(self):
        dead = {(c, f) for c, f, _, d in self.vertices if d}
        live = {(c, f): (c, l) for c, f, l, d in self.vertices if not d}
        joined = {v: {v} for v in dead}
        ahead = {v: {v} for v in dead}
        for u, v in self.edges:
            if u in dead and v in dead:
                joined[u].add(v)
                joined[v].add(u)
                ahead[u].add(v)
        for closure in (joined, ahead):
            for middle in dead:
                for u in dead:
                    if middle in closure[u]:
                        closure[u] |= closure[middle]
        rows = set()
        for u, first in self.edges:
            if u not in live or first not in dead:
                continue
            for last, v in self.edges:
                if last in dead and v in live and last in ahead[first]:
                    rows.add((live[u], v, min(joined[first])))
        return sorted(rows)

    def seen(self, vertex):
        """What counts of a dead vertex: its last position, its dead neighbours, and the live ones by what rows tell of them."""
        dead = {(c, f): l for c, f, l, d in self.vertices if d}
        live = {(c, f): (c, l) for c, f, l, d in self.vertices if not d}
        if vertex not in dead:
            return None
        ahead = {v for u, v in self.edges if u == vertex}
        back = {u for u, v in self.edges if v == vertex}
        return dead[vertex], ahead & set(dead), back & set(dead), {live[u] for u in back & set(live)}, ahead & set(live)

    def differing(self, other):
        return [(c, f, l) for c, f, l, dead in self.vertices if dead and self.seen((c, f)) != other.seen((c, f))]


def differing(before, after):
    """The dead vertices of either view that differ in the other."""
    return before.differing(after) + after.differing(before)


def missed(before, after, touched):
    """Those of them that have none of the points."""
    return [(c, f, l) for c, f, l in differing(before, after) if not any(c == t and f <= n <= l for t, n in touched)]


def worked():
    """Cases worked by hand: a title, and steps of a view and the points that are touched."""
    text = [("A", 1, 1, False), ("A", 2, 3, True), ("A", 4, 7, True), ("M", 0, 2, False)]
    edges = [(("A", 1), ("A", 2)), (("A", 2), ("A", 4)), (("A", 2), ("M", 0))]
    back = [(c, f, l, False) for c, f, l, _ in text]
    whole = [("A", 1, 1, False), ("A", 2, 7, False)]
    first = [("A", f) for f in (1, 2, 4)] + [("M", 0)]
    yield "the inode of a file leads across dead text, until a deletion is taken back", [
        (View(text, edges), first),
        (View(text, edges), []),
        (View(back, edges), [("A", 3), ("A", 7)]),
        (View(back, edges), []),
        (View(whole, [(("A", 1), ("A", 2))]), [("A", 2), ("A", 5), ("M", 1)]),
        (View(text, edges), [("A", 1), ("A", 3), ("A", 6), ("M", 0)]),
    ]
    yield "a view without vertices", [(View([], []), []), (View([], []), [("A", 1)])]
    circle = [("A", 1, 1, False), ("A", 2, 4, False), ("B", 0, 5, True)]
    yield "a source is its own target", [
        (View(circle, [(("A", 2), ("B", 0)), (("B", 0), ("A", 2))]), [("A", 1), ("A", 4), ("B", 5)]),
    ]
    chain = [("A", 1, 1, False), ("A", 2, 2, True), ("A", 3, 3, False), ("A", 4, 4, True), ("A", 5, 9, False)]
    links = [(("A", n), ("A", n + 1)) for n in range(1, 5)]
    joined = [(c, f, l, d or f == 3) for c, f, l, d in chain]
    yield "two sets are joined by a death and parted by a revival", [
        (View(chain, links), [("A", n) for n in range(1, 6)]),
        (View(joined, links), [("A", 2), ("A", 3), ("A", 4)]),
        (View(chain, links), [("A", 2), ("A", 3), ("A", 4)]),
    ]
    yield "a live vertex dies, and a dead neighbour is not touched", [
        (View(chain, links), [("A", n) for n in range(1, 6)]),
        (View(joined, links), [("A", 3), ("A", 4)]),
        (View(joined, links), [("A", 2), ("A", 3)]),
        (View(joined, links), [("A", 2), ("A", 4)]),
        (View(joined, links), [("A", 2), ("A", 3), ("A", 4)]),
    ]
    higher = [(c, f, l, d and f != 2) for c, f, l, d in joined]
    yield "the least point of a set changes", [
        (View(joined, links), [("A", n) for n in range(1, 6)]),
        (View(higher, links), [("A", 2), ("A", 3)]),
        (View(joined, links), [("A", 2), ("A", 3)]),
    ]
    gone = [v for v in joined if v[1] != 3]
    bridge = [l for l in links if 3 not in (l[0][1], l[1][1])]
    yield "a vertex goes, and the sets beside it are parted", [
        (View(joined, links), [("A", n) for n in range(1, 6)]),
        (View(gone, bridge), [("A", 2), ("A", 3), ("A", 4)]),
        (View(joined, links), [("A", 2), ("A", 3), ("A", 4)]),
    ]
    two = [("A", 1, 1, False), ("A", 2, 2, True), ("B", 0, 3, True), ("C", 0, 0, False)]
    fork = [(("A", 1), ("A", 2)), (("A", 1), ("B", 0)), (("A", 2), ("C", 0)), (("B", 0), ("C", 0))]
    yield "two sets lead from one source to one target", [(View(two, fork), [("A", 1), ("A", 2), ("B", 2), ("C", 0)])]
    beside = [("A", 1, 1, False), ("A", 2, 2, True), ("A", 3, 3, False), ("B", 1, 1, False), ("B", 2, 2, True), ("B", 3, 3, False)]
    rails = [((c, n), (c, n + 1)) for c in "AB" for n in (1, 2)]
    cut = [v for v in beside if v != ("B", 3, 3, False)]
    yield "a set that is not touched keeps its rows", [
        (View(beside, rails), [(c, n) for c in "AB" for n in (1, 2, 3)]),
        (View(cut, [r for r in rails if r[1] != ("B", 3)]), [("B", 2), ("B", 3)]),
        (View(beside, rails), [("B", 3), ("B", 2)]),
    ]
    yield "a difference that is not touched", [
        (View(beside, rails), [(c, n) for c in "AB" for n in (1, 2, 3)]),
        (View(cut, [r for r in rails if r[1] != ("B", 3)]), [("B", 3)]),
    ]
    many = [("A", 1, 1, False), ("A", 2, 2, False), ("A", 3, 3, False), ("B", 0, 4, True), ("B", 5, 6, True), ("C", 0, 0, False)]
    three = [("A", n) for n in (1, 2, 3)]
    comes = [(three[0], ("B", 0)), (three[1], ("B", 0)), (three[1], ("B", 5)), (three[2], ("B", 5)), (("B", 0), ("B", 5))]
    yield "many come into a set, and one goes out", [(View(many, comes + [(("B", 5), ("C", 0))]), three + [("B", 1), ("B", 6), ("C", 0)])]
    goes = [(v, u) for u, v in comes]
    yield "one comes into a set, and many go out", [(View(many, goes + [(("C", 0), ("B", 5))]), three + [("B", 4), ("B", 5), ("C", 0)])]
    ways = [("A", 1, 2, False), ("B", 0, 0, True), ("B", 1, 1, True), ("B", 2, 2, True), ("C", 0, 5, False)]
    both = [(("A", 1), ("B", n)) for n in (0, 1)] + [(("B", n), ("C", 0)) for n in (1, 2)] + [(("B", 0), ("B", 1)), (("B", 1), ("B", 2))]
    yield "one source comes in twice, and one target is led to twice", [
        (View(ways, both), [("A", 1), ("B", 0), ("B", 1), ("B", 2), ("C", 3)]),
        (View(ways, both[1:]), [("A", 2), ("B", 0)]),
    ]
    round = [(("B", 0), ("B", 1)), (("B", 1), ("B", 2)), (("B", 2), ("B", 0)), (("B", 1), ("B", 1)), (("A", 1), ("B", 2)), (("B", 1), ("C", 0)), (("C", 0), ("B", 0))]
    yield "a dead circle, and a vertex that leads to itself", [
        (View(ways, round), [("A", 1), ("B", 0), ("B", 1), ("B", 2), ("C", 5)]),
        (View(ways, round[1:]), [("B", 0), ("B", 1)]),
    ]
    against = [(("A", 1), ("B", 2)), (("B", 0), ("C", 0)), (("B", 0), ("B", 1)), (("B", 1), ("B", 2))]
    yield "what comes in leads to nothing that goes out", [(View(ways, against), [("A", 1), ("B", 0), ("B", 1), ("B", 2), ("C", 0)])]
    halves = [v for v in ways if v[:2] != ("B", 1)]
    split = [(("A", 1), ("B", 0)), (("B", 0), ("C", 0)), (("B", 2), ("C", 0))]
    yield "a dead vertex between two that are joined through it alone goes, and comes back live", [
        (View(ways, split + [(("B", 0), ("B", 1)), (("B", 2), ("B", 1))]), [("A", 1), ("B", 0), ("B", 1), ("B", 2), ("C", 0)]),
        (View(halves, split), [("B", 0), ("B", 1), ("B", 2)]),
        (View(halves + [("B", 1, 1, False)], split + [(("B", 0), ("B", 1)), (("B", 2), ("B", 1))]), [("B", 0), ("B", 1), ("B", 2)]),
    ]
    ends = [("A", 1, 3, False), ("A", 4, 4, True), ("A", 5, 5, False)]
    shorter = [("A", 1, 2, False), ("A", 3, 3, False)] + ends[1:]
    over = [(("A", 1), ("A", 4)), (("A", 4), ("A", 5))]
    yield "a source is cut, and nothing is touched", [
        (View(ends, over), [("A", 2), ("A", 4), ("A", 5)]),
        (View(shorter, [(("A", 1), ("A", 3)), (("A", 3), ("A", 4)), (("A", 4), ("A", 5))]), []),
        (View(ends, over), []),
    ]
    yield "the end of a source goes", [
        (View(ends, over), [("A", 2), ("A", 4), ("A", 5)]),
        (View([("A", 1, 2, False)] + ends[1:], over), [("A", 1)]),
        (View([("A", 1, 2, False)] + ends[1:], over), [("A", 4)]),
    ]
    yield "a target is cut, and nothing is touched", [
        (View(chain, links), [("A", n) for n in range(1, 6)]),
        (View(chain[:4] + [("A", 5, 7, False), ("A", 8, 9, False)], links + [(("A", 5), ("A", 8))]), []),
        (View(chain, links), []),
    ]
    yield "the start of a target goes", [
        (View(ends, over), [("A", 2), ("A", 4), ("A", 5)]),
        (View(ends[:2] + [("A", 6, 6, False)], [over[0], (("A", 4), ("A", 6))]), [("A", 5), ("A", 6)]),
        (View(ends[:2] + [("A", 6, 6, False)], [over[0], (("A", 4), ("A", 6))]), [("A", 4)]),
    ]
    yield "an edge between live vertices comes, and nothing is touched", [
        (View(chain, links), [("A", n) for n in range(1, 6)]),
        (View(chain, links + [(("A", 1), ("A", 3)), (("A", 5), ("A", 1))]), []),
        (View(chain, links), []),
    ]
    cut_dead = [("A", 1, 1, False), ("A", 2, 2, True), ("A", 3, 5, True), ("A", 6, 6, False)]
    whole_dead = [("A", 1, 1, False), ("A", 2, 5, True), ("A", 6, 6, False)]
    through = [(("A", 1), ("A", 2)), (("A", 2), ("A", 3)), (("A", 3), ("A", 6))]
    yield "a dead vertex is cut, and both parts are touched", [
        (View(whole_dead, [(("A", 1), ("A", 2)), (("A", 2), ("A", 6))]), [("A", 4)]),
        (View(cut_dead, through), [("A", 4)]),
        (View(cut_dead, through), [("A", 2)]),
        (View(cut_dead, through), [("A", 2), ("A", 4)]),
    ]
    yield "an edge from a live vertex comes to a dead one that is not touched", [
        (View(beside, rails), [("A", 2), ("B", 2)]),
        (View(beside, rails + [(("A", 3), ("B", 2))]), [("A", 3), ("A", 2)]),
        (View(beside, rails + [(("A", 3), ("B", 2))]), [("B", 2)]),
        (View(beside, rails + [(("A", 3), ("B", 2)), (("B", 2), ("A", 1))]), [("A", 1)]),
        (View(beside, rails + [(("A", 3), ("B", 2)), (("B", 2), ("A", 1))]), [("B", 2)]),
    ]


def random_view(source, before):
    """A view of 40 vertices, or the earlier one with some changes."""
    if before is None:
        vertices = []
        for change in "ABCDE":
            start = source.randrange(3)
            for _ in range(8):
                end = start + source.randrange(4)
                vertices.append((change, start, end, source.random() < 0.6))
                start = end + 1 + source.randrange(2)
        firsts = [v[:2] for v in vertices]
        edges = [(source.choice(firsts), source.choice(firsts)) for _ in range(source.randrange(30, 70))]
        return View(vertices, edges)
    vertices, edges = list(before.vertices), set(before.edges)
    for _ in range(source.randrange(1, 4)):
        kind = source.randrange(4)
        number = source.randrange(len(vertices))
        change, first, last, dead = vertices[number]
        if kind == 0:
            vertices[number] = (change, first, last, not dead)
        elif kind == 1 and first < last:
            vertices[number : number + 1] = [(change, first, first, dead), (change, first + 1, last, dead)]
            edges = {((change, first + 1) if u == (change, first) else u, v) for u, v in edges}
            edges.add(((change, first), (change, first + 1)))
        elif kind == 2:
            del vertices[number]
        else:
            firsts = [v[:2] for v in vertices]
            edges.add((source.choice(firsts), source.choice(firsts)))
    return View(vertices, edges)


def random_touched(source, before, after):
    """A point of each vertex that differs, but at times of all but one, and some points more."""
    owed = differing(before, after)
    source.shuffle(owed)
    if source.random() < 0.2:
        owed = owed[1:]
    more = source.sample(before.vertices + after.vertices, min(3, len(before.vertices)))
    return sorted({(v[0], source.randint(v[1], v[2])) for v in owed + more})


def cases():
    yield from worked()
    source = random.Random(13)
    for number in range(10):
        steps, before, start = [], View([], []), None
        for _ in range(6):
            view = random_view(source, start)
            touched = random_touched(source, before, view)
            steps.append((view, touched))
            if not missed(before, view, touched):
                before = start = view
        yield f"a view of 40 vertices and its changes, {number}", steps


def point(p):
    return f"{p[0]}.{p[1]}"


def main():
    wanted = sys.argv[1]
    lines = []
    for title, steps in cases():
        lines.append(f"row {title}")
        before = View([], [])
        for view, touched in steps:
            if wanted == "requests":
                lines += [f"vertex {c} {f} {l} {'dead' if d else 'live'}" for c, f, l, d in view.vertices]
                lines += [f"edge {u[0]} {u[1]} {v[0]} {v[1]}" for u, v in sorted(view.edges)]
                lines += [f"touch {c} {n}" for c, n in touched]
                lines.append("refresh")
                continue
            if missed(before, view, touched):
                lines.append("untouched difference")
                continue
            before = view
            rows = view.rows()
            lines.append("rows")
            lines += [f"across {point(s)} {point(t)} {point(m)}" for s, t, m in rows]
            for c, _, l, _ in view.vertices:
                targets = sorted({t for s, t, _ in rows if s == (c, l)})
                if targets:
                    lines.append(" ".join(["from", point((c, l))] + [point(t) for t in targets]))
    print("\n".join(lines))


main()
