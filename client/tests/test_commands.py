"""The commands, one after the other, over a server."""

from __future__ import annotations

import io
import os
import re
import tarfile
import unittest

from support import TOP, Case, Person, run

POEM = "one\ntwo\nthree\nfour\nfive\n"


def name_in(text: str) -> str:
    """The first short name of a change that a command wrote."""
    found = re.search(r"\b[0-9a-f]{12}\b", text)
    assert found, text
    return found.group()


class Records(Case):
    def test_what_is_recorded_is_what_another_folder_gets(self) -> None:
        ann = self.person("ann")
        ann.write("a", "")
        ann.write("run", "#!/bin/sh\n", executable=True)
        ann.write("with space/and more", "x\r\ny\r\nno end")
        ann.write("n\udcff\udcfe", "\udcff\n")
        ann.write("long", "x" * (1 << 20))
        ann.write("~b", "\n\n\n")
        os.makedirs(ann.path("empty/inner"))
        with open(ann.path("large"), "wb") as file:
            file.write(os.urandom(20 << 20))
        os.symlink("a", ann.path("link"))
        self.assertIn("left out: link", ann.pj("record", "-m", "all"))
        bob = self.person("bob")
        self.assertEqual(bob.files(), ann.files())
        self.assertEqual(ann.pj("diff"), "")
        self.assertIn("nothing to record", ann.pj("record", "-m", "again", status=1))

    def test_status_and_diff_say_what_differs(self) -> None:
        ann = self.person("ann")
        ann.write("f", POEM)
        ann.write("g", "g\n" * 20)
        ann.write("h", "h\n")
        ann.pj("record", "-m", "first")
        ann.write("f", POEM.replace("three", "3"))
        os.rename(ann.path("g"), ann.path("moved"))
        os.unlink(ann.path("h"))
        ann.write("i", "i\n", executable=True)
        status = ann.pj("status")
        for row in ("changed  f", "moved    g -> moved", "deleted  h", "made     i"):
            self.assertIn(row, status)
        self.assertEqual(
            ann.pj("diff", "f"),
            "--- a/f\n+++ b/f\n@@ -1,5 +1,5 @@\n one\n two\n-three\n+3\n four\n five\n",
        )
        ann.pj("record", "-m", "second")
        log = ann.pj("log")
        self.assertRegex(log, r"^[0-9a-f]{12}  \S+ \S+  ann  second\n[0-9a-f]{12}  .*  first\n$")
        self.assertEqual(ann.pj("log", "-n", "1").count("\n"), 1)
        shown = ann.pj("show", name_in(log))
        self.assertIn("-three\n+3\n", shown)
        self.assertIn("moved from g\nmoved to moved\n", shown)
        self.assertTrue(ann.pj("show", "--text", name_in(log)).startswith("pijul change "))

    def test_some_paths_alone_are_recorded(self) -> None:
        ann = self.person("ann")
        ann.write("f", POEM)
        ann.write("d/g", "g\n")
        ann.pj("record", "-m", "first")
        ann.write("f", POEM + "six\n")
        ann.write("d/g", "g\nmore\n")
        ann.write("new/deep/h", "h\n")
        ann.pj("move", "d", "e")
        ann.pj("record", "-m", "one", "new/deep/h")
        self.assertEqual(sorted(self.person("eve").files()), [
            b"d", b"d/g", b"f", b"new", b"new/deep", b"new/deep/h"])
        ann.pj("record", "-m", "two", "e")
        bob = self.person("bob")
        self.assertEqual(bob.read("e/g"), "g\nmore\n")
        self.assertEqual(bob.read("f"), POEM)
        self.assertIn("changed  f", ann.pj("status"))
        self.assertIn("nothing to record", ann.pj("record", "-m", "no", "e", status=1))

    def test_words_and_reasons(self) -> None:
        ann = self.person("ann")
        self.assertIn("required", ann.pj("record", status=2))
        self.assertIn("do you mean pj record?", ann.pj("recrod", status=2))
        self.assertIn("pj --help", ann.pj("xyzzy", "-m", "x", status=2))
        self.assertIn("at least 6", ann.pj("show", "abc", status=1))
        self.assertIn("no change", ann.pj("show", "abcdef0", status=1))
        self.assertIn("no working folder", run("ann", self.place, "status").error)
        self.assertIn("is a working folder already", ann.pj("init", status=1))
        gone = run("ann", self.place, "clone", "--thin", self.server.address, "none", "x")
        self.assertEqual((gone.status, os.path.exists(os.path.join(self.place, "x"))), (1, False))
        bad = run("ann", self.place, "clone", "--thin", "nowhere", "main", "x")
        self.assertEqual(bad.status, 2)


class Raw(Case):
    def test_requests_as_they_are_typed(self) -> None:
        ann = self.person("ann")
        change = os.path.join(TOP, "examples", "file.change")
        told = ann.start(self.server.address, "put", change)
        self.assertEqual(told.status, 0, told)
        name = told.out.split()[-1].decode()
        self.assertEqual(ann.start(self.server.address, "apply", self.channel, name).status, 0)
        told = ann.start(self.server.address, "print", self.channel)
        self.assertIn(b"file alive 59 recipe.txt\nBring water", told.out)
        told = ann.start(self.server.address, "apply", self.channel, "0" * 64)
        self.assertEqual((told.status, told.out.split()[2]), (1, b"change"))
        self.assertEqual(ann.start(self.server.address, "put").status, 2)
        self.assertEqual(ann.start("127.0.0.1:99999", "channels").status, 2)
        ann.pj("pull")
        self.assertTrue(ann.read("recipe.txt").startswith("Bring water"))
        self.assertEqual(ann.start("status").status, 0)
        self.assertEqual(ann.start().status, 2)


class Meetings(Case):
    def both(self, ann_text: str, bob_text: str) -> "tuple[Person, Person]":
        """Ann and Bob who edited one file without knowing of each other."""
        ann = self.person("ann")
        ann.write("f", POEM)
        ann.pj("record", "-m", "a poem")
        bob = self.person("bob")
        ann.write("f", ann_text)
        bob.write("f", bob_text)
        bob.pj("record", "-m", "by bob")
        return ann, bob

    def test_edits_of_different_lines_meet(self) -> None:
        ann, bob = self.both(POEM.replace("two", "2"), POEM.replace("three", "3"))
        ann.pj("record", "-m", "by ann")
        self.assertEqual(ann.read("f"), "one\n2\n3\nfour\nfive\n")
        bob.pj("pull")
        self.assertEqual(bob.files(), ann.files())

    def test_a_conflict_is_listed_and_resolved(self) -> None:
        ann, bob = self.both(POEM.replace("two", "two\nA"), POEM.replace("two", "two\nB"))
        self.assertIn("in conflict now", ann.pj("record", "-m", "by ann", status=1))
        self.assertIn("f:3: 2 sides", ann.pj("status"))
        listed = ann.pj("resolve")
        self.assertIn("(ann: by ann)\n        | A\n", listed)
        self.assertIn("(bob: by bob)\n        | B\n", listed)
        self.assertIn("nothing to record", ann.pj("record", "-m", "no", status=1))
        whole = ann.read("f")
        ann.write("f", whole.replace("<<<<<<< 1\n", ""))
        self.assertIn("f, line 3", ann.pj("record", "-m", "half", status=1))
        ann.write("f", whole + "six\n")
        self.assertIn("--leave", ann.pj("record", "-m", "more", status=1))
        ann.pj("record", "--leave", "-m", "more")
        self.assertEqual(ann.read("f"), whole + "six\n")
        self.assertIn("f:3: 2 sides", ann.pj("status"))
        ann.write("f", "one\ntwo\nB\nA\nthree\nfour\nfive\nsix\n")
        self.assertIn("settled in the files (pj record -m MESSAGE records it):\n  f:3\n",
                      ann.pj("status"))
        self.assertIn("settled in the files: 1 conflict", ann.pj("resolve"))
        ann.pj("record", "-m", "resolved")
        bob.pj("pull")
        self.assertEqual(bob.read("f"), ann.read("f"))
        self.assertIn("nothing in conflict", bob.pj("status"))
        self.assertEqual(bob.pj("resolve"), "nothing is in conflict\n")

    def test_a_side_is_taken(self) -> None:
        ann, bob = self.both(POEM.replace("two", "A"), POEM.replace("two", "B"))
        name = name_in(ann.pj("record", "-m", "by ann", status=1))
        ann.pj("resolve", "--take", name)
        self.assertEqual(ann.read("f"), POEM.replace("two", "A"))
        ann.pj("record", "-m", "resolved")
        bob.pj("pull")
        self.assertEqual(bob.read("f"), POEM.replace("two", "A"))

    def test_equal_sides_are_settled(self) -> None:
        ann, _ = self.both(POEM + "six\n", POEM + "six\n")
        ann.pj("record", "-m", "by ann", status=1)
        ann.pj("resolve", "--same")
        self.assertEqual(ann.read("f"), POEM + "six\n")
        ann.pj("record", "-m", "settled")
        self.assertIn("nothing in conflict", ann.pj("status"))

    def test_binary_files_take_a_side(self) -> None:
        ann = self.person("ann")
        ann.write("b", "\0" * 10)
        ann.pj("record", "-m", "binary")
        bob = self.person("bob")
        ann.write("b", "\0ann\n")
        bob.write("b", "\0bob\n")
        name = name_in(bob.pj("record", "-m", "by bob"))
        ann.pj("record", "-m", "by ann", status=1)
        ann.pj("resolve", "--take", name, "b")
        self.assertEqual(ann.read("b"), "\0bob\n")
        ann.pj("record", "-m", "bob's")
        self.assertIn("nothing in conflict", ann.pj("status"))

    def test_of_two_files_with_one_name_one_is_taken(self) -> None:
        ann, bob = self.person("ann"), self.person("bob")
        ann.write("img", "\0ann")
        bob.write("img", "\0bob")
        bob.pj("record", "-m", "by bob")
        name = name_in(ann.pj("record", "-m", "by ann", status=1))
        self.assertEqual(len(ann.files()), 2)
        self.assertIn("no conflict there is settled so", ann.pj("resolve", "--same", status=1))
        (other,) = [path for path in ann.files() if name.encode() not in path]
        ann.write(other.decode(), "\0edited")
        self.assertIn("not recorded", ann.pj("resolve", "--take", name, status=1))
        self.assertEqual(ann.read(other.decode()), "\0edited")
        ann.pj("restore", other.decode())
        self.assertIn("stays    img~", ann.pj("resolve", "--take", name, "img"))
        told = ann.pj("status")
        self.assertNotIn("in conflict", told)
        self.assertEqual(told.split("settled")[1].count("  img~"), 2)
        ann.pj("record", "-m", "ann's")
        self.assertIn("nothing in conflict", ann.pj("status"))
        bob.pj("pull")
        self.assertEqual({**bob.files()}, {b"img": ann.files()[b"img"]})
        self.assertEqual(bob.read("img"), "\0ann")

    def test_equal_files_with_one_name_become_one(self) -> None:
        ann, bob = self.person("ann"), self.person("bob")
        for person in (ann, bob):
            person.write("f", POEM)
        bob.pj("record", "-m", "by bob")
        ann.pj("record", "-m", "by ann", status=1)
        ann.pj("resolve", "--same")
        ann.pj("record", "-m", "one of them")
        self.assertIn("nothing in conflict", ann.pj("status"))
        self.assertEqual(ann.read("f"), POEM)

    def test_folders_with_one_name_become_one(self) -> None:
        ann, bob = self.person("ann"), self.person("bob")
        for person in (ann, bob):
            person.write("d/same", POEM)
            person.write(f"d/in/{person.name}", POEM + person.name)
        os.makedirs(bob.path("d/empty"))
        bob.pj("record", "-m", "by bob")
        ann.pj("record", "-m", "by ann", status=1)
        (other,) = {path.split(b"/")[0] for path in ann.files() if path.endswith(b"/bob")}
        ann.write(f"{other.decode()}/same", "edited\n")
        self.assertIn("is settled so", ann.pj("resolve", "--same", status=1))
        ann.write(f"{other.decode()}/same", POEM)
        ann.write(f"{other.decode()}/in/bob", "edited\n")
        self.assertIn("joined   d~", ann.pj("resolve", "--same"))
        ann.pj("record", "-m", "put together")
        self.assertIn("nothing in conflict", ann.pj("status"))
        bob.pj("pull")
        self.assertEqual(bob.files(), ann.files())
        files = {path: node.data for path, node in ann.files().items() if node.kind == "file"}
        mine = (POEM + "ann").encode()
        both = {b"d/same": POEM.encode(), b"d/in/ann": mine, b"d/in/bob": b"edited\n"}
        self.assertEqual(files, both)
        self.assertIn(b"d/empty", bob.files())
        self.assertIn("bob  by bob", ann.pj("log", "d/in/bob"))

    def test_marker_lines_as_text(self) -> None:
        ann = self.person("ann")
        text = ">>>>>>> 1\na\n======= 1\nb\n<<<<<<< 1\n"
        ann.write("f", text)
        ann.pj("record", "-m", "looks like a conflict")
        ann.write("f", text + "x\n")
        ann.pj("record", "-m", "more")
        self.assertEqual(self.person("bob").read("f"), text + "x\n")

    def test_a_move_beside_an_edit(self) -> None:
        ann, _ = self.both(POEM, POEM.replace("one", "ONE"))
        ann.pj("move", "f", "g")
        ann.pj("record", "-m", "moved")
        self.assertEqual(sorted(ann.files()), [b"g"])
        self.assertEqual(ann.read("g"), POEM.replace("one", "ONE"))

    def test_a_deletion_beside_an_edit(self) -> None:
        ann, bob = self.both(POEM, POEM.replace("one", "ONE"))
        os.unlink(ann.path("f"))
        deleted = name_in(ann.pj("record", "-m", "deleted", status=1))
        edited = name_in(bob.pj("log").splitlines()[1])
        bob.pj("pull", status=1)
        self.assertIn("pj keep f", ann.pj("status"))
        ann.pj("resolve", "--take", deleted)
        self.assertEqual(ann.files(), {})
        ann.pj("restore", "f")
        ann.pj("resolve", "--take", edited)
        self.assertIn("ONE\n", ann.read("f"))
        ann.pj("record", "-m", "kept")
        self.assertIn("nothing in conflict", ann.pj("status"))
        self.assertIn("is not in conflict", ann.pj("keep", "f", status=1))
        self.assertNotIn("settled", bob.pj("status"))
        bob.pj("keep", "f")
        self.assertIn("kept     f", bob.pj("status"))
        self.assertIn("records it):\n  f\n", bob.pj("status"))
        bob.pj("resolve", "--take", deleted)
        self.assertEqual(bob.files(), {})

    def test_a_deletion_beside_a_move_is_restored(self) -> None:
        ann, bob = self.both(POEM, POEM + "six\n")
        ann.pj("pull")
        os.rename(ann.path("f"), ann.path("g"))
        os.unlink(bob.path("f"))
        bob.pj("record", "-m", "deleted")
        self.assertIn("pj restore g", ann.pj("record", "-m", "moved", status=1))
        self.assertEqual(ann.read("g"), "")
        ann.pj("restore", "g")
        self.assertEqual(ann.read("g"), POEM + "six\n")
        self.assertIn("nothing in conflict", ann.pj("status"))


class TakenBack(Case):
    def test_unrecord_uproot_and_undo(self) -> None:
        ann = self.person("ann")
        ann.write("f", POEM)
        first = name_in(ann.pj("record", "-m", "first"))
        ann.write("f", POEM + "six\n")
        second = name_in(ann.pj("record", "-m", "second"))
        ann.write("f", POEM + "six\nseven\n")
        third = name_in(ann.pj("record", "-m", "third"))
        self.assertIn("pj uproot", ann.pj("unrecord", second, status=1))
        ann.pj("unrecord", third)
        self.assertEqual(ann.read("f"), POEM + "six\n")
        ann.pj("undo", second)
        self.assertEqual(ann.read("f"), POEM)
        self.assertIn("undone already", ann.pj("undo", second, status=1))
        self.assertIn("--yes", ann.pj("uproot", first, status=1))
        self.assertIn("3 changes", ann.pj("uproot", "--yes", first))
        self.assertEqual(ann.files(), {})
        self.assertIn("does not have", ann.pj("unrecord", first, status=1))

    def test_what_has_no_inverse_is_undone(self) -> None:
        ann = self.person("ann")
        ann.write("f", "1\n3\n")
        ann.pj("record", "-m", "first")
        bob = self.person("bob")
        ann.write("f", "1\na\n3\n")
        bob.write("f", "1\nb\n3\n")
        bob.pj("record", "-m", "by bob")
        ann.pj("record", "-m", "by ann", status=1)
        ann.write("f", "1\na\nb\n3\n")
        order = name_in(ann.pj("record", "-m", "in order"))
        ann.pj("undo", order, status=None)
        self.assertIn(">>>>>>> 1\n", ann.read("f"))

    def test_a_change_that_was_taken_out_elsewhere(self) -> None:
        ann = self.person("ann")
        ann.write("f", POEM)
        ann.pj("record", "-m", "first")
        ann.write("g", POEM)
        second = name_in(ann.pj("record", "-m", "second"))
        bob = self.person("bob")
        bob.pj("unrecord", second)
        ann.write("f", POEM + "six\n")
        self.assertIn("lacks 1 change", ann.pj("record", "-m", "third", status=1))
        self.assertIn("lacks 1 change", ann.pj("pull", status=1))
        ann.pj("pull", "--drop")
        self.assertEqual(sorted(ann.files()), [b"f"])
        ann.pj("record", "-m", "third")
        bob.pj("pull")
        bob.write("h", "h\n")
        fourth = name_in(bob.pj("record", "-m", "fourth"))
        ann.pj("pull")
        bob.pj("unrecord", fourth)
        ann.pj("push")
        bob.pj("pull")
        self.assertEqual(bob.files(), ann.files())

    def test_restore(self) -> None:
        ann = self.person("ann")
        ann.write("f", POEM)
        ann.write("d/g", "g\n" * 9)
        ann.pj("record", "-m", "first")
        before = ann.files()
        ann.write("f", "lost\n")
        os.unlink(ann.path("d/g"))
        os.rmdir(ann.path("d"))
        told = ann.pj("restore", ".")
        self.assertEqual(ann.files(), before)
        kept = re.search(r"kept in (\S+)", told)
        assert kept
        self.assertEqual(ann.read(os.path.join(kept.group(1), "f")), "lost\n")
        ann.pj("move", "d", "e")
        ann.pj("restore", "e")
        self.assertEqual(ann.files(), before)
        self.assertIn("nothing to restore", ann.pj("restore", "f", status=1))


class Channels(Case):
    def test_fork_switch_and_merge(self) -> None:
        ann = self.person("ann")
        ann.write("f", POEM)
        ann.pj("record", "-m", "first")
        side = self.channel + "-s"
        ann.pj("fork", side)
        self.assertIn("already", ann.pj("fork", side, status=1))
        ann.pj("switch", side)
        ann.write("f", POEM + "six\n")
        ann.pj("record", "-m", "aside")
        ann.pj("switch", self.channel)
        self.assertEqual(ann.read("f"), POEM)
        listed = ann.pj("channels")
        self.assertIn(f"* {self.channel}  1 change\n", listed)
        self.assertIn(f"  {side}  2 changes\n", listed)
        ann.write("f", "zero\n" + POEM)
        self.assertIn("still on channel", ann.pj("switch", side, status=1))
        ann.pj("record", "-m", "on the channel")
        ann.pj("merge", side)
        self.assertEqual(ann.read("f"), "zero\n" + POEM + "six\n")
        self.assertIn("no channel", ann.pj("merge", "none", status=1))
        self.assertEqual(ann.tell("fork", "a/b").status, 2)

    def test_pull_push_and_sync_with_another_channel(self) -> None:
        ann = self.person("ann")
        ann.write("f", POEM)
        ann.pj("record", "-m", "first")
        other = self.channel + "-o"
        ann.pj("push", self.server.address, "--channel", other)
        bob = self.person("bob", other)
        self.assertEqual(bob.files(), ann.files())
        bob.write("f", POEM + "six\n")
        bob.pj("record", "-m", "by bob")
        ann.write("f", "zero\n" + POEM)
        ann.pj("record", "-m", "by ann")
        ann.pj("pull", self.server.address, "--channel", other)
        self.assertEqual(ann.read("f"), "zero\n" + POEM + "six\n")
        self.assertNotEqual(bob.files(), ann.files())
        bob.pj("sync", self.server.address, "--channel", self.channel)
        self.assertEqual(bob.files(), ann.files())
        bob.write("f", POEM)
        bob.pj("record", "-m", "back")
        ann.pj("sync", self.server.address, "--channel", other)
        self.assertEqual(bob.files(), ann.files())


class Readings(Case):
    def test_credit_ls_archive_and_graph(self) -> None:
        ann = self.person("ann")
        ann.write("f", POEM)
        ann.write("d/run", "x\n", executable=True)
        first = name_in(ann.pj("record", "-m", "first"))
        bob = self.person("bob")
        bob.write("f", POEM.replace("three", "3"))
        second = name_in(bob.pj("record", "-m", "second"))
        rows = bob.pj("credit", "f").splitlines()
        self.assertEqual([row[:12] for row in rows], [first, first, second, first, first])
        self.assertTrue(rows[2].endswith("bob | 3"))
        self.assertEqual(bob.pj("ls"), "dir  alive    d\nexec alive    d/run\nfile alive    f\n")
        bob.pj("archive", "-o", "../out.tar")
        with tarfile.open(os.path.join(self.place, "out.tar")) as tar:
            rows_ = {row.name: (row.mode & 0o111, row.isdir()) for row in tar}
            self.assertEqual(rows_, {"d": (0o111, True), "d/run": (0o111, False), "f": (0, False)})
        body = bob.tell("archive").out
        with tarfile.open(fileobj=io.BytesIO(body)) as tar:
            inner = tar.extractfile("f")
            assert inner
            self.assertEqual(inner.read(), POEM.replace("three", "3").encode())
        graph = bob.pj("graph", "f")
        self.assertIn(f"dead   {first}", graph)
        self.assertIn(f"alive  {second}", graph)
        dot = bob.pj("graph", "--dot", "f")
        self.assertTrue(dot.startswith("digraph") and dot.endswith("}\n"))
        self.assertIn("is a folder", bob.pj("credit", "d", status=1))

    def test_paths_are_seen_from_where_one_stands(self) -> None:
        ann = self.person("ann")
        ann.write("d/f", POEM)
        ann.pj("record", "-m", "first")
        ann.write("d/f", POEM + "six\n")
        within = Person("ann", ann.path("d"))
        self.assertIn("changed  f\n", within.pj("status"))
        self.assertIn("+six", within.pj("diff", "f"))
        self.assertIn("nothing is at no", within.pj("diff", "no", status=1))
        within.pj("record", "-m", "second", "f")
        self.assertIn("is not in the folder", within.pj("diff", "../../x", status=2))
        first = ann.pj("log").splitlines()[-1][:12]
        self.assertIn("removed", within.pj("uproot", "--yes", first))


if __name__ == "__main__":
    unittest.main()
