"""More pages of `pj web`: graphs, two channels beside each other, search, pages as files."""

from __future__ import annotations

import os
import shutil
import unittest
from typing import Dict, List
from unittest import mock

from sites import LACKING, WHY, Node as Element, Reader, Repository, change, read
from support import Case, run
from test_rules import Line, file, shown, two
from test_web import DIR, file_page, lines_of, reader_of

from pj.text import ROOT, Insert, Make

DOT = shutil.which("dot")


def headings(page: Element, tag: str) -> List[str]:
    """The headings of a page."""
    return [row.text for row in page.all(tag)]


@unittest.skipIf(LACKING, WHY)
class Graphs(unittest.TestCase):
    def path(self, line: Line, conflict: str = "") -> str:
        return f"/channel/main/file/{line.changes[0].name}.1/graph/{conflict}"

    def line(self) -> Line:
        """Ann replaced a line, Bob another one; a third was deleted by both."""
        return two(b"1\n2\n3\n4\n5\n", b"1\na\n3\n5\n", b"1\nb\n3\n5\n")

    def statuses(self, picture: Element) -> Dict[str, List[str]]:
        """The texts of the nodes by their statuses."""
        return {
            word: sorted(
                " ".join(row.text for row in node.all("text")[1:])
                for node in picture.all("." + word)
            )
            for word in ("alive", "zombie", "dead")
        }

    @unittest.skipUnless(DOT, "dot is not installed (tests/setup installs graphviz)")
    def test_pieces_by_their_statuses_each_with_a_link_to_its_change(self) -> None:
        line = self.line()
        picture = reader_of(main=line).get(self.path(line)).one("svg")
        self.assertEqual(
            self.statuses(picture),
            {"alive": ["1", "3", "5", "a", "b"], "zombie": ["2"], "dead": ["4"]},
        )
        for word, shape in (("alive", "polygon"), ("zombie", "polygon"), ("dead", "ellipse")):
            for node in picture.all("." + word):
                self.assertEqual([row.tag for row in node.all(shape)], [shape])
                name = node.all("text")[0].text.split()[1]
                self.assertIn(f"/change/{name}", node.one("a").words["href"] or "")
        # Up to the first of two changes of one line it is the line, and behind it both.
        self.assertEqual(len(picture.all(".edge")), 10 - 2)

    @unittest.skipUnless(DOT, "dot is not installed (tests/setup installs graphviz)")
    def test_one_conflict_with_what_is_next_to_it(self) -> None:
        line = self.line()
        page = file_page(reader_of(main=line), line)
        sides = [row for row in page.all(".conflict") if "kind-sides" in row.classes]
        number = (sides[0].words["id"] or "").rpartition("-")[2]
        picture = reader_of(main=line).get(self.path(line, number + "/")).one("svg")
        found = self.statuses(picture)
        self.assertEqual((found["zombie"], found["dead"]), (["2"], []))
        self.assertLessEqual({"a", "b", "3"}, set(found["alive"]))
        self.assertNotIn("5", found["alive"])
        reader_of(main=line).get(self.path(line, "7/"), 404)

    def test_the_list_says_the_same_where_nothing_can_be_drawn(self) -> None:
        line = self.line()
        with mock.patch("pj.web.drawing.has_dot", lambda: False):
            page = reader_of(main=line).get(self.path(line))
        self.assertIn("Graphviz (dot) is not installed", page.one(".notice").text)
        self.assertEqual(page.all("svg"), [])
        rows = [row.text for row in page.one(".nodes").all("li")]
        self.assertEqual(len(rows), 7)
        self.assertEqual(sum(row.startswith("in conflict, by ann") for row in rows), 1)
        self.assertEqual(sum(row.startswith("deleted, by ann") for row in rows), 1)

    def test_a_cycle_of_pieces_of_one_change(self) -> None:
        line = two(b"1\n3\n", b"1\na\n3\n", b"1\nb\n3\n")
        other = line.fork(b"eve")
        line.rec({b"f": file(b"1\na\nb\n3\n")})
        other.rec({b"f": file(b"1\nb\na\n3\n")})
        line.take(other)
        page = reader_of(main=line).get(self.path(line))
        self.assertEqual(len(page.one(".nodes").all("li")), 4)

    def test_a_graph_that_is_too_large_to_draw(self) -> None:
        line = Line(b"ann")
        text = [b"%d\n" % k for k in range(600)]
        line.rec({b"f": file(b"".join(text))})
        line.rec({b"f": file(b"".join(b"x" + row if k % 2 else row for k, row in enumerate(text)))})
        page = reader_of(main=line).get(self.path(line))
        self.assertIn("too many to draw", page.one(".notice").text)


@unittest.skipIf(LACKING, WHY)
class Beside(unittest.TestCase):
    def sets(self) -> Dict[str, Line]:
        """Ann and Bob replaced one line, and each made a file; they were in one conflict before."""
        base = two(b"1\n2\n3\n4\n5\n6\n", b"1\na\n2\n3\n4\n5\n6\n", b"1\nb\n2\n3\n4\n5\n6\n")
        ann, bob = base.fork(b"ann"), base.fork(b"bob")
        text = base.text
        ann.rec({b"f": file(text.replace(b"4\n", b"ann\n"))}, leave=True)
        bob.rec({b"f": file(text.replace(b"4\n", b"bob\n")), b"g": file(b"new\n")}, leave=True)
        return {"ann": ann, "bob": bob}

    def test_what_either_has_alone_and_the_new_conflicts_alone(self) -> None:
        sets = self.sets()
        reader = reader_of(**sets)
        page = reader.get("/compare/ann/bob/")
        self.assertIn("They have 3 changes in common", page.text)
        self.assertIn("2 new conflicts", page.text)
        # The lines that both replaced, and what they wrote there; the old conflict is none of them.
        texts = [sorted(row[1] for row in lines_of(each)) for each in page.all(".conflict")]
        self.assertEqual(texts, [["4"], ["ann", "bob"]])
        found = headings(page, "h2")
        self.assertIn("Only in ann: 1 change", found)
        self.assertIn("Only in bob: 1 change", found)
        self.assertIn("In the files of ann: 2 paths", found)
        self.assertIn("In the files of bob: 1 path", found)
        paths = [[row.text for row in part.all("li")] for part in page.all(".paths")]
        self.assertEqual(paths, [["changed f in conflict", "made g"], ["changed f in conflict"]])

    def test_the_union_has_pages_of_its_own(self) -> None:
        sets = self.sets()
        both = sets["ann"].fork(b"").take(sets["bob"])
        reader = reader_of(**sets)
        there = file_page(reader_of(main=both), both)
        union = reader.get(f"/channel/ann+bob/file/{both.changes[0].name}.1/")
        self.assertEqual(lines_of(union), lines_of(there))
        self.assertEqual(len(reader.get("/channel/ann+bob/").all("article")), 5)

    def test_channels_that_are_equal(self) -> None:
        line = Line(b"ann")
        line.rec({b"f": file(b"1\n")})
        page = reader_of(one=line, other=line).get("/compare/one/other/")
        self.assertIn("1 change in common", page.text)
        self.assertIn("no new conflict", page.text)
        self.assertEqual(page.all(".conflict"), [])

    def test_a_form_asks_for_the_two(self) -> None:
        reader = reader_of(**self.sets())
        page = reader.get("/compare/?one=bob")
        chosen = [
            [row.text for row in choice.all("option") if "selected" in row.words]
            for choice in page.all("select")
        ]
        self.assertEqual(chosen, [["bob"], ["ann"]])
        response = reader.client.get("/compare/?one=ann&other=bob")
        self.assertEqual(response.status_code, 302)
        self.assertEqual(response.headers["Location"], "../compare/ann/bob/")
        for hostile in ("//evil.example", "http://evil.example/", "\\\\evil.example"):
            response = reader.client.get("/compare/", query_string={"one": hostile, "other": "x"})
            self.assertEqual(response.status_code, 404, hostile)
        reader.get("/compare/ann/none/", 404)


@unittest.skipIf(LACKING, WHY)
class Search(unittest.TestCase):
    def reader(self) -> Reader:
        held = []
        for message, author, name in (
            (b"Cook the pasta", b"Ann", b"pasta.txt"),
            (b"Salt the WATER", b"Ann", b"salt.txt"),
            (b"Stir", b"Bea <bea@pasta.example>", b"\xc3\x96l.txt"),
        ):
            inode = ("own", 1)
            hunks = [Make("file", ROOT, name), Insert(inode, (inode,), (), b"x\n")]
            held.append(change(hunks, message=message, author=author))
        return Reader(Repository({"main": held}))

    def found(self, query: str) -> List[str]:
        page = self.reader().get(f"/channel/main/search/?q={query}")
        paths = [row.text for part in page.all(".paths") for row in part.all("li")]
        return [*paths, *(row.one("h2").text for row in page.all("article"))]

    def test_all_words_in_messages_authors_and_names(self) -> None:
        cook, salt, stir = "Cook the pasta", "Salt the WATER", "Stir"
        for query, wanted in (
            ("pasta", ["pasta.txt", stir, cook]),
            ("the+water", [salt]),
            ("ANN", [salt, cook]),
            ("ann+pasta", [cook]),
            ("%C3%B6l", ["\u00d6l.txt"]),
            ("nothing", []),
            ("+", []),
        ):
            self.assertEqual(self.found(query), wanted, query)

    def test_the_name_of_a_change(self) -> None:
        reader = self.reader()
        name = reader.repository.held["main"][1].name
        self.assertEqual(self.found(name[:8]), ["Salt the WATER"])

    def test_fifty_a_page(self) -> None:
        held = [change([Make("dir", ROOT, b"%d" % k)], message=b"no. %d" % k) for k in range(60)]
        reader = Reader(Repository({"main": held}))
        first, second = (reader.get(f"/channel/main/search/?q=no.&page={k}") for k in (1, 2))
        self.assertEqual([len(page.all("article")) for page in (first, second)], [50, 10])
        self.assertEqual(first.one("h1").text, "60 changes and 0 paths with no.")


@unittest.skipIf(LACKING, WHY)
class Export(unittest.TestCase):
    def export(self, line: Line) -> str:
        """The folder with the pages of a channel."""
        from pj.web.export import export

        reader = reader_of(main=line, other=line)
        folder = os.path.join(reader.place, "site")
        self.count = export(reader.site.source, "main", folder)
        return folder

    def test_each_link_leads_to_a_page_and_each_page_is_led_to(self) -> None:
        line = two(b"1\n2\n3\n", b"1\na\n3\n", b"1\nb\n3\n")
        line.rec({**shown(line.changes), b"d": DIR, b"d/<g>": file(b"x\n" * 4500)}, leave=True)
        folder = self.export(line)
        there = {
            os.path.relpath(os.path.join(place, name), folder)
            for place, _, names in os.walk(folder)
            for name in names
        }
        self.assertEqual(len(there), self.count)
        linked = {"index.html"}
        for path in there:
            if not path.endswith(".html"):
                continue
            with open(os.path.join(folder, path), encoding="utf-8") as text:
                page = read(text.read())
            for node in [*page.all("a"), *page.all("link")]:
                link = (node.words["href"] or "").partition("#")[0]
                if link:
                    linked.add(os.path.normpath(os.path.join(os.path.dirname(path), link)))
            self.assertEqual(page.all("form"), [])
        self.assertEqual(linked, there)

    def test_a_page_shows_what_it_shows_when_it_is_asked_for(self) -> None:
        line = two(b"1\n2\n3\n", b"1\na\n3\n", b"1\nb\n3\n")
        folder = self.export(line)
        reader = reader_of(main=line)
        name = line.changes[0].name
        for path in (f"channel/main/file/{name}.1/", "channel/main/", "channel/main/conflicts/"):
            with open(os.path.join(folder, path, "index.html"), encoding="utf-8") as text:
                page = read(text.read())
            self.assertEqual(page.one("main").text, reader.get("/" + path).one("main").text)

    def test_a_folder_with_something_in_it_is_left_alone(self) -> None:
        from pj.say import Stop
        from pj.web.export import export

        line = Line(b"ann")
        line.rec({b"f": file(b"1\n")})
        reader = reader_of(main=line)
        kept = os.path.join(reader.place, "kept")
        os.makedirs(kept)
        with open(os.path.join(kept, "index.html"), "w", encoding="utf-8") as text:
            text.write("mine")
        with self.assertRaises(Stop):
            export(reader.site.source, "main", kept)
        self.assertEqual(os.listdir(kept), ["index.html"])


@unittest.skipIf(LACKING, WHY)
class Command(Case):
    def test_the_pages_of_the_channel_of_a_folder(self) -> None:
        ann = self.person("ann")
        ann.write("a", "1\n")
        ann.pj("record", "-m", "first")
        with mock.patch.dict(os.environ, {"XDG_CACHE_HOME": os.path.join(self.place, "cache")}):
            site = os.path.join(self.place, "site")
            self.assertIn(f"of channel {self.channel}", ann.pj("web", "--export", site))
            told = run("ann", self.place, "web", "--export", "other", self.server.address,
                       "--channel", "none")
        self.assertEqual((told.status, "has no channel none" in told.error), (1, True), told)
        path = os.path.join(site, "channel", self.channel, "index.html")
        with open(path, encoding="utf-8") as page:
            self.assertIn("first", page.read())


if __name__ == "__main__":
    unittest.main()
