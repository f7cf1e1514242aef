"""Conflicts that are resolved on the pages of `pj web --edit`, and what is recorded then."""

from __future__ import annotations

import os
import unittest
from typing import Dict, Optional, Tuple
from unittest import mock
from urllib.parse import urljoin

from sites import LACKING, WHY, Node as Element, read
from support import Case, Person

from pj.folder import WorkingFolder
from pj.view import View
from pj.workspace import Workspace

POEM = "1\n2\n3\n4\n5\n6\n7\n8\n9\n"


def fields(form: Element) -> Dict[str, str]:
    """What a browser sends of a form that nobody has touched."""
    found = {}
    for node in form.all("input"):
        if node.words.get("type") == "radio" and "checked" not in node.words:
            continue
        found[node.words["name"] or ""] = node.words.get("value") or ""
    for node in form.all("select"):
        options = node.all("option")
        chosen = [row for row in options if "selected" in row.words] or options[:1]
        found[node.words["name"] or ""] = chosen[0].words.get("value") or ""
    for node in form.all("textarea"):
        # The first newline is no part of the text, and a browser sends each as two bytes.
        text = node.letters
        assert text.startswith("\n")
        found[node.words["name"] or ""] = text[1:].replace("\n", "\r\n")
    return found


@unittest.skipIf(LACKING, WHY)
class Edit(Case):
    def setUp(self) -> None:
        super().setUp()
        cache = mock.patch.dict(os.environ, {"XDG_CACHE_HOME": os.path.join(self.place, "cache")})
        cache.start()
        self.addCleanup(cache.stop)
        self.ann = self.person("ann")
        self.ann.write("f", POEM)
        self.ann.pj("record", "-m", "base")
        self.bob = self.person("bob")

    def browse(self, who: Person) -> None:
        """Opens the pages of somebody's folder."""
        from pj.web.app import make_app
        from pj.web.editing import Editor, add_editing
        from pj.web.naming import add_naming
        from pj.web.pages import Site
        from pj.web.source import of_folder

        site = Site(of_folder(WorkingFolder(os.fsencode(who.folder))))
        app = make_app(site)
        self.editor = Editor(site, os.fsencode(who.folder), who.name)
        add_editing(app, site, self.editor)
        add_naming(app, self.editor)
        self.client = app.test_client()

    def clash(self, ann: Optional[str], bob: str, path: str = "f") -> None:
        """Both make a text of the file, not knowing of each other; Ann's folder shows both."""
        if ann is None:
            os.remove(self.ann.path(path))
        else:
            self.ann.write(path, ann)
        self.ann.pj("record", "-m", "ann's")
        self.bob.write(path, bob)
        self.bob.pj("record", "-m", "bob's", status=1)
        self.ann.pj("pull", status=1)
        self.browse(self.ann)

    def get(self, path: str, status: int = 200) -> Element:
        response = self.client.get(path)
        self.assertEqual(response.status_code, status, response.text)
        return read(response.text)

    def open(self, number: int = 0) -> Tuple[str, Dict[str, str]]:
        """The page of a file with its form, by the list of conflicts."""
        links = self.get(self.editor.path).all(".button")
        path = urljoin(self.editor.path, links[number].words["href"] or "")
        return path, fields(self.get(path).one(".resolve"))

    def send(self, path: str, form: Dict[str, str], do: str, status: int = 200) -> Element:
        response = self.client.post(path, data={**form, "do": do})
        self.assertEqual(response.status_code, status, response.text)
        return read(response.text)

    def settle(self, message: str = "settled", **chosen: str) -> None:
        """Chooses, looks at the preview, and records."""
        path, form = self.open()
        chosen = {key.replace("_", "-"): value for key, value in chosen.items()}
        preview = self.send(path, {**form, **chosen}, "preview")
        last = fields(preview.one(".ask"))
        response = self.client.post(path, data={**last, "message": message, "do": "record"})
        self.assertEqual(response.status_code, 303, response.text)
        told = self.get(urljoin(path, response.headers["Location"]))
        self.assertIn("Recorded", told.text)

    def printed(self) -> View:
        """What the channel prints now, as a folder of a third person has it."""
        eve = self.person(f"eve{len(os.listdir(self.place))}")
        folder = WorkingFolder(os.fsencode(eve.folder))
        with Workspace(folder) as workspace:
            return workspace.view(workspace.log())

    def text(self) -> str:
        """The text of the file in the channel and in Ann's folder, which are equal."""
        view = self.printed()
        text = view.folder[b"f"].data.decode()
        self.assertEqual(self.ann.read("f"), text)
        return text

    def nothing_is_left(self) -> None:
        self.assertIn("nothing to record, nothing in conflict", self.ann.pj("status"))

    def sides(self) -> Dict[str, int]:
        """The number of the side of each text of the first conflict of two sides."""
        path, _ = self.open()
        conflict = next(
            row for row in self.get(path).all("fieldset") if not row.text.startswith("Conflict 0")
        )
        return {
            side.one("code").text: number for number, side in enumerate(conflict.all(".side"))
        }


class Sides(Edit):
    def setUp(self) -> None:
        super().setUp()
        self.clash(POEM.replace("4\n", "4\nann\n"), POEM.replace("4\n", "4\nbob\n"))

    def test_one_is_taken(self) -> None:
        number = self.sides()["bob"]
        self.settle(how_0=f"side-{number}")
        self.assertEqual(self.text(), POEM.replace("4\n", "4\nbob\n"))
        self.nothing_is_left()
        about = self.ann.pj("log", "-n", "1")
        self.assertIn("ann  settled", about)

    def test_both_in_either_order(self) -> None:
        sides = self.sides()
        order = {f"place_0_{sides['ann']}": "2", f"place_0_{sides['bob']}": "1"}
        self.settle(how_0="order", **order)
        self.assertEqual(self.text(), POEM.replace("4\n", "4\nbob\nann\n"))
        self.nothing_is_left()

    def test_a_text_is_typed(self) -> None:
        self.settle(how_0="type", typed_0="ann & bob\r\n<together>")
        self.assertEqual(self.text(), POEM.replace("4\n", "4\nann & bob\n<together>\n"))
        self.nothing_is_left()

    def test_the_change_is_the_one_that_pj_record_makes_of_that_file(self) -> None:
        session = self.server.session()
        session.ask("fork", self.channel, "copy")
        session.close()
        other = Person("ann", self.person("copy", "copy").folder)
        with mock.patch.dict(os.environ, {"SOURCE_DATE_EPOCH": "77"}):
            self.settle("done", how_0="type", typed_0="both\r\n")
            other.write("f", POEM.replace("4\n", "4\nboth\n"))
            other.pj("record", "-m", "done", "f")
        self.assertEqual(self.ann.pj("log", "-n", "1"), other.pj("log", "-n", "1"))

    def test_the_typed_text_begins_with_all_sides(self) -> None:
        _, form = self.open()
        self.assertEqual(sorted(form["typed-0"].split()), ["ann", "bob"])

    def test_nothing_is_chosen_at_first_and_nothing_is_written_by_a_preview(self) -> None:
        before = self.ann.read("f")
        path, form = self.open()
        self.assertEqual(form["how-0"], "leave")
        preview = self.send(path, form, "preview")
        self.assertIn("1 conflict will be left as it is", preview.text)
        number = self.sides()["ann"]
        preview = self.send(path, {**form, "how-0": f"side-{number}"}, "preview")
        rows = [row.one("code").text for row in preview.one(".preview").all(".line")]
        self.assertEqual(rows, POEM.replace("4\n", "4\nann\n").split())
        self.assertEqual([row.one("code").text for row in preview.all(".chosen")], ["ann"])
        self.assertEqual(self.ann.read("f"), before)

    def test_back_to_the_choices_keeps_them(self) -> None:
        path, form = self.open()
        form = {**form, "how-0": "type", "typed-0": "x\r\n"}
        kept = fields(self.send(path, form, "preview").one(".ask"))
        again = fields(self.send(path, kept, "choose").one(".resolve"))
        self.assertEqual((again["how-0"], again["typed-0"]), ("type", "x\r\n"))

    def test_other_files_and_their_edits_stay_as_they_are(self) -> None:
        self.ann.write("g", "not recorded\n")
        number = self.sides()["ann"]
        self.settle(how_0=f"side-{number}")
        self.assertIn("made     g", self.ann.pj("status"))
        self.assertNotIn(b"g", self.printed().folder)

    def test_a_message_is_asked_for(self) -> None:
        path, form = self.open()
        number = self.sides()["ann"]
        page = self.send(path, {**form, "how-0": f"side-{number}", "message": " "}, "record")
        self.assertIn("Say in a few words", page.text)
        self.assertIn("1 conflict", self.get(self.editor.path).one("h1").text)

    def test_nothing_is_recorded_where_nothing_was_chosen(self) -> None:
        path, form = self.open()
        page = self.send(path, {**form, "message": "m", "author": "ann"}, "record", 409)
        self.assertIn("It was not recorded", page.text)
        self.assertIn("1 conflict", self.get(self.editor.path).one("h1").text)

    def test_a_file_that_was_edited_meanwhile(self) -> None:
        path, form = self.open()
        number = self.sides()["ann"]
        form = {**form, "how-0": f"side-{number}", "message": "m", "author": "ann"}
        edited = self.ann.read("f") + "more\n"
        self.ann.write("f", edited)
        for do in ("preview", "record"):
            page = self.send(path, form, do, 409)
            self.assertIn("The folder is not as it was", page.text)
        self.assertEqual(self.ann.read("f"), edited)
        # Looked at again, the edit is recorded with the choice, as pj record does.
        number = self.sides()["ann"]
        self.settle(how_0=f"side-{number}")
        self.assertEqual(self.text(), POEM.replace("4\n", "4\nann\n") + "more\n")

    def test_a_folder_that_shows_another_set_meanwhile(self) -> None:
        path, form = self.open()
        self.bob.write("g", "x\n")
        self.bob.pj("record", "-m", "another", "g")
        self.ann.pj("pull", status=None)
        form = {**form, "how-0": "side-0", "message": "m", "author": "ann"}
        self.assertIn("not as it was", self.send(path, form, "record", 409).text)

    def test_a_file_of_which_half_a_conflict_is_gone(self) -> None:
        self.ann.write("f", self.ann.read("f").replace("<<<<<<< 1\n", ""))
        links = self.get(self.editor.path).all(".button")
        page = self.get(urljoin(self.editor.path, links[0].words["href"] or ""), 409)
        self.assertIn("a marker line of a conflict is left", page.text)

    def test_without_the_token_nothing_is_there(self) -> None:
        path, form = self.open()
        before = self.ann.read("f")
        token = self.editor.token
        form = {**form, "how-0": "side-0", "message": "m", "author": "ann", "do": "record"}
        for other in ("x", token[:-1], token + "x", token.swapcase(), "%00"):
            for there in (self.editor.path, path):
                wrong = there.replace(token, other)
                self.assertEqual(self.client.get(wrong).status_code, 404, wrong)
            response = self.client.post(path.replace(token, other), data=form)
            self.assertEqual(response.status_code, 404, other)
        self.assertEqual(self.ann.read("f"), before)
        for there in ("/", f"/channel/{self.channel}/", f"/channel/{self.channel}/conflicts/"):
            self.assertNotIn(token, self.client.get(there).text)


class Several(Edit):
    def test_one_is_settled_and_one_is_left(self) -> None:
        ann = POEM.replace("2\n", "2\nann\n").replace("7\n", "7\nann\n")
        bob = POEM.replace("2\n", "2\nbob\n").replace("7\n", "7\nbob\n")
        self.clash(ann, bob)
        number = self.sides()["bob"]
        self.settle(how_0=f"side-{number}")
        self.assertEqual(self.text().count("<<<<<<< 1\n"), 1)
        self.assertTrue(self.text().startswith("1\n2\nbob\n3\n"))
        self.assertIn("1 conflict", self.get(self.editor.path).one("h1").text)
        self.settle(how_0="order")
        self.assertNotIn("<<<<<<<", self.text())
        self.nothing_is_left()

    def test_three_sides_of_which_one_is_left_out(self) -> None:
        eve = self.person("eve")
        eve.write("f", POEM.replace("4\n", "4\neve\n"))
        self.ann.write("f", POEM.replace("4\n", "4\nann\n"))
        self.bob.write("f", POEM.replace("4\n", "4\nbob\n"))
        self.ann.pj("record", "-m", "a")
        self.bob.pj("record", "-m", "b", status=1)
        eve.pj("record", "-m", "e", status=1)
        self.ann.pj("pull", status=1)
        self.browse(self.ann)
        sides = self.sides()
        places = {"eve": "1", "ann": "2", "bob": "0"}
        self.settle(
            how_0="order", **{f"place_0_{sides[who]}": place for who, place in places.items()}
        )
        self.assertEqual(self.text(), POEM.replace("4\n", "4\neve\nann\n"))
        self.nothing_is_left()


class Deletions(Edit):
    def test_lines_are_deleted_or_kept(self) -> None:
        for how, wanted in (("side-0", "1\n2\nbob\n6\n7\n8\n9\n"), ("side-1", None)):
            with self.subTest(how):
                self.clash(POEM.replace("3\n4\n5\n", ""), POEM.replace("4\n", "4\nbob\n"))
                path, form = self.open()
                chosen = {key: how for key in form if key.startswith("how-")}
                page = self.send(path, {**form, **chosen}, "preview")
                rows = [row.one("code").text for row in page.one(".preview").all(".line")]
                whole = POEM.replace("4\n", "4\nbob\n").split()
                self.assertEqual(rows, wanted.split() if wanted else whole)
                last = {**fields(page.one(".ask")), "message": "m"}
                response = self.client.post(path, data={**last, "do": "record"})
                self.assertEqual(response.status_code, 303, response.text)
                self.assertEqual(self.text().split(), rows)
                self.nothing_is_left()
                self.ann.write("f", POEM)
                self.ann.pj("record", "-m", "as it was")
                self.bob.pj("pull")

    def test_a_file_is_kept(self) -> None:
        self.clash(None, POEM + "10\n")
        path, form = self.open()
        chosen = {key: "side-1" for key in form if key.startswith("how-")}
        form = {**form, **chosen, "name": "keep", "message": "m", "author": "ann"}
        self.assertEqual(self.client.post(path, data={**form, "do": "record"}).status_code, 303)
        self.assertEqual(self.text(), POEM + "10\n")
        self.nothing_is_left()

    def test_a_file_is_deleted(self) -> None:
        self.clash(None, POEM + "10\n")
        path, form = self.open()
        form = {**form, "name": "delete"}
        preview = self.send(path, form, "preview")
        self.assertIn("The file will be deleted", preview.text)
        self.assertTrue(os.path.exists(self.ann.path("f")))
        last = {**fields(preview.one(".ask")), "message": "m"}
        self.assertEqual(self.client.post(path, data={**last, "do": "record"}).status_code, 303)
        self.assertFalse(os.path.exists(self.ann.path("f")))
        self.assertEqual(self.printed().folder, {})
        self.nothing_is_left()


class Hostile(Edit):
    def test_texts_of_others_stay_texts_in_a_form(self) -> None:
        evil = "</textarea><script>alert(1)</script>\" onfocus=\"x\n"
        self.clash(POEM.replace("4\n", "4\n" + evil), POEM.replace("4\n", "4\nbob\n"))
        path, form = self.open()
        page = self.get(path)
        self.assertEqual(page.all("script"), [])
        self.assertIn(evil.strip(), page.one("textarea").letters)
        preview = self.send(path, {**form, "how-0": "type"}, "preview")
        self.assertEqual(preview.all("script"), [])
        last = {**fields(preview.one(".ask")), "message": evil, "author": evil}
        self.assertEqual(self.client.post(path, data={**last, "do": "record"}).status_code, 303)
        self.assertIn(evil, self.text())

    def test_bytes_that_a_form_would_change_cannot_be_typed(self) -> None:
        for ann in ("\x1b[1m\n", "a\r\n", "\udcff\n", "\u202e\n"):
            with self.subTest(ann):
                self.clash(POEM.replace("4\n", "4\n" + ann), POEM.replace("4\n", "4\nbob\n"))
                path, form = self.open()
                self.assertEqual(self.get(path).all("textarea"), [])
                # A choice that the page does not offer is none.
                page = self.send(path, {**form, "how-0": "type", "typed-0": "x"}, "preview")
                self.assertIn("left as it is", page.text)
                self.settle(how_0="order")
                self.assertIn(ann.encode("utf-8", "surrogateescape"), self.ann.files()[b"f"].data)
                self.ann.write("f", POEM)
                self.ann.pj("record", "-m", "as it was")
                self.bob.pj("pull")


if __name__ == "__main__":
    unittest.main()
