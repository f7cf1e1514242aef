"""The smallest case of each rule by which a folder becomes changes.

Sets of changes grow by records alone here, and are read by the client itself:
that a server prints the same of them is what `histories` compares.
"""

from __future__ import annotations

import os
import shutil
import unittest
from unittest import mock

import pairs
import support  # noqa: F401  (finds the package)
from pj import record as record_module
from pj.graph import Graph
from pj.notice import emptied, restore
from pj.paths import Folder, Node
from pj.record import Recorded, Refusal, Told, record
from pj.text import About
from pj.tree import Tree
from pj.view import View
from pj.writer import Writer


def file(data: bytes, executable: bool = False) -> Node:
    return Node("file", executable, data)


def shown(changes) -> Folder:
    return dict(View(changes).folder)


class Line:
    """A set of changes that grows by records."""

    def __init__(self, author: bytes, changes=()):
        self.author, self.changes = author, list(changes)

    def rec(self, folder: Folder, moves=None, keep=(), leave=False) -> Recorded:
        about = About(b"m", self.author, 7)
        told = Told(moves or {}, frozenset(keep), leave)
        done = record(lambda: View(self.changes), folder, about, told)
        self.changes += done.changes
        assert done.whole == 0, "a file was replaced whole"
        return done

    def fork(self, author: bytes) -> "Line":
        return Line(author, self.changes)

    def take(self, other: "Line") -> "Line":
        held = {c.name for c in self.changes}
        self.changes += [c for c in other.changes if c.name not in held]
        return self

    @property
    def text(self) -> bytes:
        return next(n.data for n in shown(self.changes).values() if n.kind == "file")


def two(base: bytes, ann: bytes, bob: bytes):
    """Ann's line with Bob's: both edited a file `f`."""
    a = Line(b"ann")
    a.rec({b"f": file(base)})
    b = a.fork(b"bob")
    a.rec({b"f": file(ann)})
    b.rec({b"f": file(bob)})
    return a.take(b)


class Texts(unittest.TestCase):
    def test_neighbours_are_no_conflict(self):
        line = two(b"1\n2\n3\n4\n", b"1\na\n3\n4\n", b"1\n2\nb\n4\n")
        self.assertEqual(line.text, b"1\na\nb\n4\n")

    def test_same_line_is_one(self):
        line = two(b"1\n2\n3\n", b"1\na\n3\n", b"1\nb\n3\n")
        self.assertIn(b">>>>>>> 1 zombie\n2\n<<<<<<< 1\n>>>>>>> 2\n", line.text)

    def test_deleted_and_replaced_is_one(self):
        line = two(b"1\n2\n3\n4\n", b"1\n4\n", b"1\n2\nb\n4\n")
        self.assertIn(b" zombie\n", line.text)

    def test_resolved_in_each_way(self):
        for left in (b"1 a 3", b"1 b a 3", b"1 a b 3", b"1 2 a b 3", b"", b"new"):
            left = b"".join(word + b"\n" for word in left.split())
            line = two(b"1\n2\n3\n", b"1\na\n3\n", b"1\nb\n3\n")
            line.rec({b"f": file(left)})
            self.assertEqual(line.text, left)

    def test_swapped_sides_are_kept(self):
        line = two(b"1\n3\n", b"1\na\n3\n", b"1\nb\n3\n")
        for left in (b"1\na\nb\n3\n", b"1\nb\na\n3\n"):
            other = line.fork(b"eve")
            done = other.rec({b"f": file(left)})
            self.assertEqual([h.word for h in done.changes[0].hunks], ["order"])

    def test_cycle(self):
        line = two(b"1\n3\n", b"1\na\n3\n", b"1\nb\n3\n")
        other = line.fork(b"eve")
        line.rec({b"f": file(b"1\na\nb\n3\n")})
        other.rec({b"f": file(b"1\nb\na\n3\n")})
        line.take(other)
        self.assertIn(b">>>>>>> 1 cycle\n", line.text)
        line.rec({b"f": file(b"1\na\nb\n3\n")})
        self.assertEqual(line.text, b"1\na\nb\n3\n")

    def test_half_resolved(self):
        line = two(b"1\n3\n", b"1\na\n3\n", b"1\nb\n3\n")
        text = line.text.replace(b"<<<<<<< 1\n", b"")
        with self.assertRaisesRegex(Refusal, "line 2"):
            line.rec({b"f": file(text)})

    def test_left(self):
        a = Line(b"ann")
        base = b"".join(b"%d\n" % k for k in range(9))
        a.rec({b"f": file(base)})
        b = a.fork(b"bob")
        a.rec({b"f": file(base.replace(b"2\n", b"2\na\n").replace(b"6\n", b"6\na\n"))})
        b.rec({b"f": file(base.replace(b"2\n", b"2\nb\n").replace(b"6\n", b"6\nb\n"))})
        a.take(b)
        first = a.text.index(b">>>>>>> 1")
        text = a.text[:first] + b"a\nb\n" + a.text[a.text.index(b"<<<<<<< 1\n") + 10 :]
        text = text.replace(b"4\n", b"four\n") + b"end\n"
        with self.assertRaises(Refusal):
            a.rec({b"f": file(text)})
        a.rec({b"f": file(text)}, leave=True)
        self.assertEqual(a.text, text.replace(b" 2\n", b" 1\n"))

    def test_marker_lines_in_plain_text(self):
        line = Line(b"ann")
        text = b">>>>>>> 1\na\n======= 1\nb\n<<<<<<< 1\n"
        line.rec({b"f": file(text)})
        line.rec({b"f": file(text + b"x\n")})
        self.assertEqual(line.text, text + b"x\n")

    def test_last_newline(self):
        line = Line(b"ann")
        line.rec({b"f": file(b"1\n2")})
        done = line.rec({b"f": file(b"1\n2\n3\n")})
        self.assertEqual([h.word for h in done.changes[0].hunks], ["insert"])
        done = line.rec({b"f": file(b"1\n2\n3")})
        self.assertEqual([h.word for h in done.changes[0].hunks], ["delete"])

    def test_an_up_lists_who_deleted_it(self):
        line = Line(b"ann")
        line.rec({b"f": file(b"1\n2\n3\n4\n")})
        line.rec({b"f": file(b"1\n4\n")})
        view = View(line.changes)  # another client makes one of the two lines alive again
        graph, writer = view.graph, Writer(view, About(b"", b"", 0))
        owner = line.changes[0].name
        writer.overrule("revive", owner, 6, 8, graph.surviving((owner, 6)))
        writer.flush()
        line.changes += writer.parts
        self.assertEqual(line.text, b"1\n3\n4\n")
        line.rec({b"f": file(b"1\n3\nx\n4\n")})  # an up in what the deletion covers
        self.assertEqual(line.text, b"1\n3\nx\n4\n")

    def test_a_deletion_lists_who_worked_there(self):
        line = Line(b"ann")
        line.rec({b"f": file(b"1\n2\n3\n")})
        line.rec({b"f": file(b"1\n2\nx\n3\n")})
        line.rec({b"f": file(b"1\n2\n3\n")})
        line.rec({b"f": file(b"1\n3\n")})  # no need has the up that the dead `x` has in `2`
        self.assertEqual(line.text, b"1\n3\n")
        line.rec({})
        self.assertEqual(shown(line.changes), {})

    def test_a_use_lists_who_deleted_a_name(self):
        line = Line(b"ann")
        line.rec({b"f": file(b"1\n2\n3\n")})
        line.rec({b"g": file(b"1\n2\n3\n")})
        line.rec({b"g": file(b"1\n2\n3\n4\n")})
        graph = Graph(line.changes)
        self.assertEqual([e.path for e in Tree(graph).entries], [b"g"])

    def test_the_very_text_again(self):
        line = Line(b"ann")
        line.rec({b"f": file(b"")})
        line.rec({})
        line.rec({b"f": file(b"")})
        self.assertEqual(shown(line.changes), {b"f": file(b"")})


@unittest.skipUnless(shutil.which("git"), "there is no git")
class Pairs(unittest.TestCase):
    def test_texts_are_those_that_git_merges(self):
        found = pairs.compare(100)
        self.assertEqual(found["client alone"], 0)
        self.assertTrue(0 < found["client"] < found["git"], found)


class Names(unittest.TestCase):
    def test_move_beside_an_edit(self):
        a = Line(b"ann")
        a.rec({b"f": file(b"1\n2\n")})
        b = a.fork(b"bob")
        a.rec({b"g": file(b"1\n2\n")})
        b.rec({b"f": file(b"1\n2\n3\n")})
        a.take(b)
        self.assertEqual(shown(a.changes), {b"g": file(b"1\n2\n3\n")})

    def test_move_beside_two_edits(self):
        a = Line(b"ann")
        a.rec({b"f": file(b"1\n2\n")})
        b, e = a.fork(b"bob"), a.fork(b"eve")
        a.rec({b"g": file(b"1\n2\n")})
        b.rec({b"f": file(b"1\n2\n3\n")})
        e.rec({b"f": file(b"0\n1\n2\n")})
        a.take(b).rec({b"g": file(b"1\n2\n3\n"), b"x": file(b"")})  # deletes `f` once more
        self.assertEqual([x.path for x in Tree(Graph(a.changes)).entries], [b"g", b"x"])
        a.take(e)
        self.assertEqual([x.path for x in Tree(Graph(a.changes)).entries], [b"f", b"g", b"x"])
        self.assertEqual(set(shown(a.changes)), {b"g", b"x"})

    def test_two_moves(self):
        a = Line(b"ann")
        a.rec({b"f": file(b"1\n2\n")})
        b = a.fork(b"bob")
        a.rec({b"g": file(b"1\n2\n")})
        b.rec({b"h": file(b"1\n2\n")})
        a.take(b)
        self.assertEqual(set(shown(a.changes)), {b"g", b"h"})
        with self.assertRaisesRegex(Refusal, "one file"):
            a.fork(b"eve").rec({b"g": file(b"x\n"), b"h": file(b"y\n")})
        a.rec({b"h": file(b"1\n2\n3\n")})
        self.assertEqual(shown(a.changes), {b"h": file(b"1\n2\n3\n")})

    def test_twins(self):
        a, b = Line(b"ann"), Line(b"bob")
        a.rec({b"f": file(b"a\n")})
        b.rec({b"f": file(b"b\n")})
        a.take(b)
        first, second = sorted(shown(a.changes))
        self.assertTrue(first.startswith(b"f~"))
        have = shown(a.changes)
        with self.assertRaisesRegex(Refusal, "would have one name"):
            a.fork(b"eve").rec({**have, b"f": file(b"c\n")})
        a.rec({first: have[first]})  # the other one is deleted, and the name is free
        self.assertEqual(shown(a.changes), {b"f": have[first]})

    def test_deleted_directory_beside_a_new_file(self):
        a = Line(b"ann")
        a.rec({b"d": Node("dir")})
        b = a.fork(b"bob")
        a.rec({})
        b.rec({b"d": Node("dir"), b"d/f": file(b"x\n")})
        a.take(b)
        both = shown(a.changes)
        self.assertEqual(set(both), {b"d", b"d/f"})
        keeps, goes = a.fork(b"ann"), a.fork(b"ann")
        keeps.rec(both, keep=[b"d"])
        goes.rec({})
        self.assertEqual(set(shown(keeps.changes)), {b"d", b"d/f"})
        self.assertEqual(shown(goes.changes), {})

    def test_orphan(self):
        a = Line(b"ann")
        a.rec({b"d": Node("dir"), b"d/f": file(b"x\n")})
        b = a.fork(b"bob")
        a.rec({})
        b.rec({b"d": Node("dir"), b"d/f": file(b"x\ny\n")})
        a.take(b)
        there = shown(a.changes)
        loose = min(there)
        self.assertTrue(loose.startswith(b"~"))
        a.rec({b"e": Node("dir"), b"e/f": file(b"x\ny\n")}, moves={loose: b"e"}, keep=[b"e/f"])
        self.assertEqual(shown(a.changes), {b"e": Node("dir"), b"e/f": file(b"x\ny\n")})

    def test_a_deletion_beside_a_move_is_noticed(self):
        for before, moved in (
            ({b"f": file(b"1\n2\n")}, {b"g": file(b"1\n2\n")}),
            ({b"d": Node("dir"), b"d/f": file(b"1\n")}, {b"e": Node("dir"), b"e/f": file(b"1\n")}),
        ):
            a = Line(b"ann")
            a.rec(before)
            b = a.fork(b"bob")
            a.rec({})
            b.rec(moved)
            a.take(b)
            view = View(a.changes)
            (found,) = emptied(view)
            self.assertEqual(found.path, min(moved))
            writer = Writer(view, About(b"restored", b"ann", 8))
            restore(writer, found)
            writer.flush()
            a.changes += writer.parts
            self.assertEqual(shown(a.changes), moved)
            self.assertEqual(emptied(View(a.changes)), [])

    def test_moves_found(self):
        a = Line(b"ann")
        text = b"".join(b"%d\n" % k for k in range(10))
        before = {b"d": Node("dir"), b"d/a": file(text), b"d/b": file(b"x\n")}
        a.rec({**before, b"d/s": Node("dir"), b"d/s/c": file(b"c\n")})
        moved = {b"e": Node("dir"), b"e/a": file(text + b"more\n"), b"e/b": file(b"x\n")}
        done = a.rec({**moved, b"e/s": Node("dir"), b"e/s/c": file(b"c\n")})
        words = [h.word for h in done.changes[0].hunks]
        self.assertEqual(sorted(words), ["delete", "insert", "name"])


class Limits(unittest.TestCase):
    def test_a_file_of_many_users_becomes_a_new_one(self):
        with mock.patch.object(record_module, "RENEW", 6):
            line = Line(b"ann")
            for number in range(14):
                line.rec({b"f": file(b"".join(b"%d\n" % k for k in range(number + 1)))})
            self.assertEqual(line.text, b"".join(b"%d\n" % k for k in range(14)))
            graph = Graph(line.changes)
            self.assertEqual(len(graph.inodes), 3)
            self.assertLess(max(map(len, graph.users.values())), 13)

    def test_large_file(self):
        line = Line(b"ann")
        data = os.urandom(20 << 20)
        done = line.rec({b"f": file(data)})
        self.assertEqual(len(done.changes), 2)
        self.assertEqual(line.text, data)

    def test_many_files(self):
        line = Line(b"ann")
        many = {b"f%d" % k: file(b"%d\n" % k) for k in range(5000)}
        self.assertEqual(len(line.rec(many).changes), 3)
        self.assertEqual(shown(line.changes), many)

    def test_many_needs(self):
        line = Line(b"ann")
        many = {}
        for k in range(300):
            many[b"f%d" % k] = file(b"%d\n" % k)
            line.rec(many)
        done = line.rec({path: file(b"x\n" + node.data) for path, node in many.items()})
        self.assertEqual([len(c.needs) for c in done.changes], [256, 44])

    def test_many_versions(self):
        base = Line(b"ann")
        base.rec({b"f": file(b"1\n2\n")})
        for k in range(70):  # so many delete a line without knowing of each other; one works on it
            other = Line(b"p%d" % k, base.changes[:1])
            other.rec({b"f": file(b"1\n")})
            base.take(other)
        other = Line(b"bob", base.changes[:1])
        other.rec({b"f": file(b"1\n2\n3\n")})
        base.take(other)
        self.assertIn(b"zombie", base.text)
        done = base.rec({b"f": file(b"1\n2\n3\n")})
        self.assertEqual(base.text, b"1\n2\n3\n")
        self.assertEqual(len(done.changes), 2)


if __name__ == "__main__":
    unittest.main()
