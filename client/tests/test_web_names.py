"""Conflicts of names that are settled on the pages of `pj web --edit`, and kept repositories."""

from __future__ import annotations

import os
import unittest
from typing import Dict, List, Tuple
from unittest import mock
from urllib.parse import urljoin

from sites import LACKING, WHY
from support import Person, keeping_program, run
from test_web_edit import POEM, Edit, fields

from pj.folder import WorkingFolder
from pj.graph import ZOMBIE
from pj.text import ROOT, About
from pj.workspace import Workspace
from pj.writer import Writer


@unittest.skipIf(LACKING, WHY)
class Names(Edit):
    def meet(self) -> None:
        """Both record what their folders have, not knowing of each other; Ann's shows both."""
        self.ann.pj("record", "-m", "ann's")
        self.bob.pj("record", "-m", "bob's", status=None)
        self.ann.pj("pull", status=None)
        self.browse(self.ann)

    def both(self, *paths: str) -> None:
        """Bob has what Ann records of these."""
        for path in paths:
            self.ann.write(path, POEM)
        self.ann.pj("record", "-m", "more")
        self.bob.pj("pull")

    def named(self) -> Dict[str, str]:
        """The pages of names by the paths on the list."""
        found: Dict[str, str] = {}
        for section in self.get(self.editor.path).all(".file"):
            for link in section.all(".button"):
                address = urljoin(self.editor.path, link.words["href"] or "")
                if "/name/" in address:
                    found[section.one("h2").text] = address
        return found

    def page(self, start: str = "") -> Tuple[str, Dict[str, str]]:
        """The page of the first path that begins so, with its form."""
        rows = self.named()
        path = rows[min(name for name in rows if name.startswith(start))]
        return path, fields(self.get(path).one(".resolve"))

    def words(self, path: str) -> List[str]:
        """What can be chosen on a page."""
        return [row.words["value"] or "" for row in self.get(path).all("input")
                if row.words.get("type") == "radio"]

    def choose(self, how: str, start: str = "", **more: str) -> str:
        """Chooses, looks at what will be done, and records; what the page said of it."""
        path, form = self.page(start)
        self.assertIn(how, self.words(path))
        before = self.ann.files()
        preview = self.send(path, {**form, "how": how, **more}, "preview")
        self.assertEqual(self.ann.files(), before)
        last = {**fields(preview.one(".ask")), "message": "settled"}
        response = self.client.post(path, data={**last, "do": "record"})
        self.assertEqual(response.status_code, 303, response.text)
        self.assertIn("Recorded", self.get(urljoin(path, response.headers["Location"])).text)
        self.assertIn("settled", self.ann.pj("log", "-n", "1"))
        self.assertEqual(self.printed().folder, self.ann.files())
        return preview.one(".preview").text

    def refused(self, how: str, start: str = "", **more: str) -> str:
        """What is said where a choice cannot be done; nothing is."""
        path, form = self.page(start)
        before = self.ann.files()
        page = self.send(path, {**form, "how": how, **more}, "preview")
        self.assertEqual(self.ann.files(), before)
        return page.one(".notice").text


class Folders(Names):
    def setUp(self) -> None:
        super().setUp()
        self.both("d/x")
        os.unlink(self.ann.path("d/x"))
        os.rmdir(self.ann.path("d"))
        self.bob.write("d/y", "new\n")
        self.meet()

    def test_one_is_kept(self) -> None:
        self.assertEqual(self.words(self.page("d")[0]), ["keep", "delete"])
        self.assertIn("d will be kept", self.choose("keep", "d"))
        self.assertEqual(sorted(self.ann.files()), [b"d", b"d/y", b"f"])
        self.nothing_is_left()

    def test_one_is_deleted_with_all_in_it(self) -> None:
        self.choose("delete", "d")
        self.assertEqual(sorted(self.ann.files()), [b"f"])
        self.nothing_is_left()

    def test_edits_that_are_not_recorded_are_not_deleted(self) -> None:
        self.ann.write("d/y", "edited\n")
        self.assertIn("d/y has edits that are not recorded", self.refused("delete", "d"))
        self.ann.write("d/y", "new\n")
        os.symlink("nowhere", self.ann.path("d/link"))
        self.assertIn("has links in it", self.refused("delete", "d"))

    def test_what_came_since_the_preview_is_not_deleted(self) -> None:
        path, form = self.page("d")
        preview = self.send(path, {**form, "how": "delete"}, "preview")
        last = {**fields(preview.one(".ask")), "message": "m"}
        self.bob.write("e", "x\n")
        self.bob.pj("record", "-m", "another", "e")
        self.ann.pj("pull", status=None)
        self.assertIn("not as it was", self.send(path, last, "record", 409).text)
        self.assertIn(b"d/y", self.ann.files())

    def test_a_choice_and_a_message_are_asked_for(self) -> None:
        self.assertIn("Choose what becomes of it", self.refused("", "d"))
        self.assertIn("Choose what becomes of it", self.refused("join", "d"))
        path, form = self.page("d")
        last = fields(self.send(path, {**form, "how": "keep"}, "preview").one(".ask"))
        page = self.send(path, {**last, "message": " "}, "record")
        self.assertIn("Say in a few words", page.text)
        self.assertNotIn("kept", self.ann.pj("status"))

    def test_what_the_files_settle_is_said(self) -> None:
        path, _ = self.page("d")
        self.ann.pj("keep", "d")
        self.assertIn("The files settle it already", self.get(path).text)

    def test_without_the_token_nothing_is_there(self) -> None:
        path, form = self.page("d")
        wrong = path.replace(self.editor.token, "x")
        self.assertEqual(self.client.get(wrong).status_code, 404)
        data = {**form, "how": "delete", "do": "record"}
        self.assertEqual(self.client.post(wrong, data=data).status_code, 404)


class Twins(Names):
    def test_one_is_moved(self) -> None:
        self.ann.write("t", "ann\n")
        self.bob.write("t", "bob\n")
        self.meet()
        for target, told in (
            ("", "a path is names"), ("../t", "a path is names"), (".git/t", "a path is names"),
            ("a//b", "a path is names"), ("f", "something is at f already"),
            ("no/t", "there is no directory no"),
        ):
            self.assertIn(told, self.refused("move", "t~", target=target), target)
        before = {node.data for node in self.ann.files().values()}
        self.assertIn("will be moved to u", self.choose("move", "t~", target="u"))
        self.assertEqual(sorted(self.ann.files()), [b"f", b"t", b"u"])
        self.assertEqual({node.data for node in self.ann.files().values()}, before)
        self.nothing_is_left()

    def test_one_is_deleted(self) -> None:
        self.ann.write("t", "ann\n")
        self.bob.write("t", "bob\n")
        self.meet()
        first = min(path for path in self.ann.files() if path.startswith(b"t~"))
        goes = self.ann.files()[first].data
        self.choose("delete", first.decode())
        stays = {b"ann\n", b"bob\n"} - {goes}
        self.assertEqual({self.ann.files()[b"t"].data}, stays)
        self.nothing_is_left()

    def test_folders_are_put_together(self) -> None:
        for who in (self.ann, self.bob):
            who.write(f"d/{who.name}", who.name)
            who.write("d/same", POEM)
        self.meet()
        first = min(path for path in self.ann.files() if path.startswith(b"d~")).decode()
        self.assertIn(f"put into {first}", self.choose("join", first))
        self.assertEqual(sorted(self.ann.files()), [b"d", b"d/ann", b"d/bob", b"d/same", b"f"])
        self.nothing_is_left()

    def test_folders_whose_files_differ_are_not_put_together(self) -> None:
        for who in (self.ann, self.bob):
            who.write("d/x", who.name)
        self.meet()
        self.assertIn("two of their files differ", self.refused("join", "d~"))

    def test_the_change_is_the_one_that_the_commands_make(self) -> None:
        self.ann.write("t", "ann\n")
        self.bob.write("t", "bob\n")
        self.meet()
        session = self.server.session()
        session.ask("fork", self.channel, f"{self.channel}-copy")
        session.close()
        other = Person("ann", self.person("copy", f"{self.channel}-copy").folder)
        first = min(path for path in self.ann.files() if path.startswith(b"t~")).decode()
        with mock.patch.dict(os.environ, {"SOURCE_DATE_EPOCH": "77"}):
            self.choose("move", first, target="u")
            other.pj("move", first, "u")
            other.pj("record", "-m", "settled", "u")
        self.assertEqual(self.ann.pj("log", "-n", "1"), other.pj("log", "-n", "1"))
        self.assertEqual(self.ann.files(), other.files())


class Others(Names):
    def test_two_names_for_one_file(self) -> None:
        for word, stays in (("only-0", b"a-name"), ("only-1", b"other")):
            with self.subTest(word):
                self.ann.write("g", "text of this file\n" + word)
                self.ann.pj("record", "-m", "a file")
                self.bob.pj("pull")
                os.rename(self.ann.path("g"), self.ann.path("a-name"))
                os.rename(self.bob.path("g"), self.bob.path("other"))
                self.meet()
                self.choose(word)
                self.assertEqual(sorted(self.ann.files()), sorted([b"f", stays]))
                self.nothing_is_left()
                os.unlink(self.ann.path(stays.decode()))
                self.ann.pj("record", "-m", "away")
                self.bob.pj("pull")

    def test_a_deletion_beside_a_move(self) -> None:
        self.both("g")
        os.unlink(self.ann.path("g"))
        os.rename(self.bob.path("g"), self.bob.path("h"))
        self.meet()
        self.assertEqual(self.words(self.page()[0]), ["restore", "delete"])
        self.assertEqual(self.ann.read("h"), "")
        self.assertIn("h will be brought back", self.choose("restore"))
        self.assertEqual(self.ann.read("h"), POEM)
        self.nothing_is_left()

    def test_a_deletion_beside_a_move_is_let_go(self) -> None:
        self.both("g")
        os.unlink(self.ann.path("g"))
        os.rename(self.bob.path("g"), self.bob.path("h"))
        self.meet()
        self.choose("delete")
        self.assertEqual(sorted(self.ann.files()), [b"f"])
        self.nothing_is_left()

    def orphan(self) -> None:
        self.both("d/x")
        os.unlink(self.ann.path("d/x"))
        os.rmdir(self.ann.path("d"))
        self.bob.write("d/x", POEM + "more\n")
        self.meet()

    def test_an_orphan_is_moved(self) -> None:
        self.orphan()
        self.assertEqual(self.words(self.page("~")[0]), ["move", "delete"])
        self.choose("move", "~", target="e")
        self.assertEqual(sorted(self.ann.files()), [b"e", b"e/x", b"f"])

    def test_an_orphan_is_deleted(self) -> None:
        self.orphan()
        self.choose("delete", "~")
        self.assertEqual(sorted(self.ann.files()), [b"f"])
        self.nothing_is_left()

    def test_what_is_adrift_is_moved(self) -> None:
        self.both("a/x", "b/y")
        os.rename(self.ann.path("a"), self.ann.path("b/a"))
        os.rename(self.bob.path("b"), self.bob.path("a/b"))
        self.meet()
        self.cut_off()
        self.assertEqual(self.words(self.page("~")[0]), ["move", "delete"])
        self.choose("move", "~", target="c")
        names = {path.rpartition(b"/")[2] for path in self.ann.files()}
        self.assertTrue({b"c", b"x", b"y"} <= names, names)
        self.assertFalse([path for path in self.ann.files() if path.startswith(b"~")])

    def cut_off(self) -> None:
        """Another client deletes the names by which the root still leads to the directories."""
        folder = WorkingFolder(os.fsencode(self.ann.folder))
        with Workspace(folder) as workspace:
            view = workspace.view(workspace.log())
            writer = Writer(view, About(b"cut off", b"eve", 7))
            for row in [row for entry in view.entries for row in entry.rows]:
                if row.parent == ROOT and view.graph.name_status(row) == ZOMBIE:
                    owner, at = row.at
                    writer.overrule("delete", owner, at, at + 1, view.graph.surviving(row.at))
            writer.flush()
            for change in writer.parts:
                workspace.session.ask("put", str(len(change.text)), text=change.text)
                workspace.session.ask("apply", self.channel, change.name)
        self.ann.pj("pull", status=1)


class Kept(Names):
    """A folder whose repository is its own."""

    def setUp(self) -> None:
        program = mock.patch.dict(os.environ, {"PIJULD": keeping_program()})
        program.start()
        self.addCleanup(program.stop)
        super().setUp()
        self.ann = Person("ann", os.path.join(self.place, "kept"))
        told = run("ann", self.place, "clone", self.server.address, self.channel, self.ann.folder)
        self.assertEqual(told.status, 0, told)

    def test_texts_and_names_are_settled_in_it(self) -> None:
        for who in (self.ann, self.bob):
            who.write("f", POEM.replace("4\n", f"4\n{who.name}\n"))
            who.write("t", who.name)
        self.meet()
        number = self.sides()["bob"]
        self.settle(how_0=f"side-{number}")
        self.assertEqual(self.ann.read("f"), POEM.replace("4\n", "4\nbob\n"))
        path, form = self.page("t~")
        preview = self.send(path, {**form, "how": "move", "target": "u"}, "preview")
        last = {**fields(preview.one(".ask")), "message": "moved"}
        response = self.client.post(path, data={**last, "do": "record"})
        self.assertEqual(response.status_code, 303, response.text)
        self.nothing_is_left()
        self.ann.pj("push")
        self.assertEqual(self.printed().folder, self.ann.files())


if __name__ == "__main__":
    unittest.main()
