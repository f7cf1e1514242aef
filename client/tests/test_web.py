"""The pages of `pj web`, by what a reader sees on them."""

from __future__ import annotations

import os
import re
import subprocess
import sys
import unittest
import urllib.request
from urllib.parse import quote
from typing import TYPE_CHECKING, Dict, List, Tuple
from unittest import mock

from sites import LACKING, WHY, Node as Element, Reader, Repository, change, read
from support import PJ, TOP, Case, Person, keeping_program, run
from test_rules import Line, file, shown, two

from pj.commands import web
from pj.paths import Node
from pj.text import ROOT, Insert, Make

if TYPE_CHECKING:
    from flask.testing import FlaskClient

STYLE = os.path.join(TOP, "client", "pj", "web", "style.css")
DIR = Node("dir")


def reader_of(**channels: Line) -> Reader:
    """Somebody who reads channels with these sets."""
    return Reader(Repository({name: line.changes for name, line in channels.items()}))


def lines_of(element: Element) -> List[Tuple[str, str]]:
    """The numbers and letters of the lines of a text."""
    return [
        (row.one(".number").letters, row.one("code").letters) for row in element.all(".line")
    ]


def file_page(reader: Reader, line: Line, number: int = 0) -> Element:
    """The page of the file that the first change made."""
    return reader.get(f"/channel/main/file/{line.changes[number].name}.1/")


@unittest.skipIf(LACKING, WHY)
class Lists(unittest.TestCase):
    def test_channels_with_changes_conflicts_and_the_last_change(self) -> None:
        conflict = two(b"1\n2\n", b"1\na\n2\n", b"1\nb\n2\n")
        reader = reader_of(main=conflict, other=Line(b"eve", conflict.changes[:1]), none=Line(b""))
        rows = [
            [cell.text for cell in row.all("th") + row.all("td")]
            for row in reader.get("/").one("tbody").all("tr")
        ]
        told = "1970-01-01 00:00 UTC"
        self.assertEqual(rows, [
            ["main", "3", "1", f"m bob, {told}"],
            ["other", "1", "none", f"m ann, {told}"],
            ["none", "0", "none", "none yet"],
        ])

    def test_changes_are_fifty_a_page_and_the_last_one_comes_first(self) -> None:
        held = [change([Make("dir", ROOT, b"%d" % k)], message=b"no. %d" % k) for k in range(103)]
        reader = Reader(Repository({"main": held}))
        for page, first, last in ((1, 102, 53), (2, 52, 3), (3, 2, 0)):
            path = "/channel/main/" + (f"page/{page}/" if page > 1 else "")
            titles = [row.one("h2").text for row in reader.get(path).all("article")]
            wanted = [f"no. {k}" for k in range(first, last - 1, -1)]
            self.assertEqual(titles, wanted)
        for page in (0, 4):
            reader.get(f"/channel/main/page/{page}/", 404)

    def test_a_change_is_listed_with_what_it_needs_and_what_needs_it(self) -> None:
        line = Line(b"ann")
        line.rec({b"f": file(b"1\n")})
        line.rec({b"f": file(b"1\n2\n")})
        line.rec({b"f": file(b"1\n2\n"), b"g": file(b"x\n")})
        rows = reader_of(main=line).get("/channel/main/").all(".needs")
        one, two_ = (change.name[:12] for change in line.changes[:2])
        self.assertEqual([row.text for row in rows], [
            "needs nothing · needed by nothing",
            f"needs {one} · needed by nothing",
            f"needs nothing · needed by {two_}",
        ])

    def test_files_are_a_tree(self) -> None:
        line = Line(b"ann")
        line.rec({
            b"a": DIR, b"a/b": DIR, b"a/b/c": file(b"x\n"), b"a/d": file(b"y\n", True), b"e": DIR,
            b"f": file(b""),
        })
        tree = reader_of(main=line).get("/channel/main/files/").one(".tree")
        self.assertEqual(tree.text, "a/ b/ c d executable e/ empty f")
        inner = tree.all("details")[0]
        self.assertEqual(inner.text, "a/ b/ c d executable")

    def test_what_is_not_there(self) -> None:
        line = Line(b"ann")
        line.rec({b"f": file(b"1\n")})
        reader = reader_of(main=line)
        name = line.changes[0].name
        for path in (
            "/channel/none/", "/channel/main/change/123456/", "/channel/main/file/x/",
            f"/channel/main/file/{name}.0/", f"/channel/main/file/{name}.99999999999999/",
            "/x", f"/channel/main/change/{name[:5]}/",
        ):
            self.assertTrue(reader.get(path, 404).one("h1").text, path)
        self.assertEqual(reader.get(f"/channel/main/change/{name[:6]}/").one(".hash").text, name)


@unittest.skipIf(LACKING, WHY)
class Changes(unittest.TestCase):
    def page(self, line: Line, number: int = -1) -> Element:
        name = line.changes[number].name
        return reader_of(main=line).get(f"/channel/main/change/{name}/")

    def rows(self, element: Element) -> List[str]:
        return [
            row.one(".sign").letters + row.one("code").letters
            + "".join(f" ({note.text})" for note in row.all(".note"))
            for row in element.all(".line")
        ]

    def test_hunks_in_their_places_with_three_lines_about_each(self) -> None:
        text = [b"%d\n" % k for k in range(1, 21)]
        line = Line(b"ann")
        line.rec({b"f": file(b"".join(text))})
        line.rec({b"f": file(b"".join([*text[:4], b"new\n", *text[5:14], *text[15:]]))})
        page = self.page(line)
        first, second = page.all(".hunk")
        self.assertEqual(self.rows(first), [" 2", " 3", " 4", "−5", "+new", " 6", " 7", " 8"])
        self.assertEqual(self.rows(second), [" 12", " 13", " 14", "−15", " 16", " 17", " 18"])
        self.assertEqual([row.text for row in page.all(".at")], ["line 2", "line 12"])
        self.assertEqual(page.one(".plus").text + page.one(".minus").text, "+1−2")

    def test_the_lines_about_a_hunk_are_those_of_the_channel_now(self) -> None:
        line = Line(b"ann")
        line.rec({b"f": file(b"1\n2\n3\n")})
        line.rec({b"f": file(b"1\nold\n2\n3\n")})
        line.rec({b"f": file(b"0\n1\nnew\n3\n")})
        rows = self.rows(self.page(line, 1))
        self.assertEqual(rows, [" 0", " 1", "+old (deleted since)", " new", " 3"])

    def test_lines_that_change_within(self) -> None:
        line = Line(b"ann")
        line.rec({b"f": file(b"1\n2")})
        line.rec({b"f": file(b"1\n2 and more\nlast\n")})
        self.assertEqual(self.rows(self.page(line)), [" 1", "−2", "+2 and more", "+last"])

    def test_names_that_are_made_moved_deleted_and_revived(self) -> None:
        line = Line(b"ann")
        text = b"".join(b"%d\n" % k for k in range(9))
        line.rec({b"d": DIR, b"d/f": file(text), b"g": file(b"x\n")})
        line.rec({b"d": DIR, b"d/h": file(text), b"run": file(b"#!\n", True)})
        line.rec({b"d": DIR, b"d/h": file(text, True), b"run": file(b"#!\n", True)})
        deeds = [sorted(row.text for row in self.page(line, k).all(".deed")) for k in range(3)]
        self.assertEqual(deeds, [
            ["made d/", "made d/f", "made g"],
            ["deleted g", "made, executable run", "moved d/f → d/h"],
            ["executable d/h"],
        ])
        ann = Line(b"ann")
        ann.rec({b"f": file(b"1\n")})
        bob = ann.fork(b"bob")
        ann.rec({})
        bob.rec({b"f": file(b"1\n2\n")})
        ann.take(bob).rec({b"f": file(b"1\n2\n")}, keep=[b"f"])
        page = self.page(ann)
        self.assertEqual([row.text for row in page.all(".deed")], ["revived f"])
        self.assertEqual(self.rows(page), ["+1 (revived)", " 2"])

    def test_bytes_that_are_no_text(self) -> None:
        line = Line(b"ann")
        line.rec({b"f": file(b"\0\n")})
        told = [row.text for row in self.page(line).all(".empty")]
        self.assertEqual(told, ["These bytes are no text."])

    def test_its_text_is_what_is_named(self) -> None:
        line = Line(b"ann")
        line.rec({b"f": file(b"<b>\n")})
        made = line.changes[0]
        response = reader_of(main=line).client.get(f"/channel/main/change/{made.name}/text")
        self.assertEqual(response.data, made.text)
        self.assertIn("attachment", response.headers["Content-Disposition"])


@unittest.skipIf(LACKING, WHY)
class Files(unittest.TestCase):
    def owners(self, page: Element) -> List[Tuple[str, str, List[str]]]:
        """Who wrote which lines: author, change and numbers."""
        return [
            (
                run.one(".by-author").text,
                run.one(".by").one(".name").text,
                [row.one(".number").text for row in run.all(".line")],
            )
            for run in page.all(".run")
        ]

    def test_each_line_has_its_number_its_change_and_its_author(self) -> None:
        line = Line(b"ann")
        line.rec({b"f": file(b"1\n2\n3\n4\n")})
        bob = Line(b"Bob B. <b@example.org>", line.changes)
        bob.rec({b"f": file(b"1\nx\ny\n3\n4 and more\n")})
        page = file_page(reader_of(main=bob), bob)
        one, other = (change.name[:12] for change in bob.changes)
        texts = ["1", "x", "y", "3", "4 and more"]
        self.assertEqual(lines_of(page), [(str(k), text) for k, text in enumerate(texts, 1)])
        self.assertEqual(self.owners(page), [
            ("ann", one, ["1"]), ("Bob B.", other, ["2", "3"]), ("ann", one, ["4"]),
            ("Bob B.", other, ["5"]),
        ])

    def test_two_sides_with_their_authors(self) -> None:
        line = two(b"1\n2\n", b"1\na\n2\n", b"1\nb\nc\n2\n")
        page = file_page(reader_of(main=line), line)
        conflict = page.one(".conflict")
        sides = [
            (side.one("strong").text, [row[1] for row in lines_of(side)])
            for side in conflict.all(".side")
        ]
        self.assertEqual(sorted(sides), [("ann", ["a"]), ("bob", ["b", "c"])])
        about = conflict.one("h2")
        self.assertIn("wrote at one place; neither knew of the other", about.text)
        self.assertEqual({person.text for person in about.all("strong")}, {"ann", "bob"})
        for marker in (">>>>>>>", "=======", "<<<<<<<"):
            self.assertNotIn(marker, page.letters)
        # The numbers are those of the file that `pj` writes, in which marker lines count.
        rows = line.text.decode().split("\n")
        for number, text in lines_of(page):
            self.assertEqual(rows[int(number) - 1], text)

    def test_a_deletion_against_an_edit(self) -> None:
        line = two(b"1\n2\n3\n4\n", b"1\n4\n", b"1\n2\nb\n3\n4\n")
        page = file_page(reader_of(main=line), line)
        conflict = page.all(".conflict")[0]
        self.assertEqual(
            conflict.one("h2").text,
            "Conflict ann deleted these lines, and bob worked on them; neither knew of the other.",
        )
        sides = [
            (side.one("h3").text, side.one("strong").text, [row[1] for row in lines_of(side)])
            for side in conflict.all(".side")
        ]
        self.assertEqual(sides, [("Deleted by", "ann", []), ("Kept by", "bob", ["2"])])

    def test_lines_that_both_replaced(self) -> None:
        line = two(b"1\n2\n3\n", b"1\na\n3\n", b"1\nb\n3\n")
        page = file_page(reader_of(main=line), line)
        old, new = page.all(".conflict")
        self.assertIn("each replaced these lines", old.one("h2").text)
        self.assertIn("Instead of them", new.one("h2").text)
        self.assertEqual([row[1] for row in lines_of(old)], ["2"])
        self.assertEqual(sorted(row[1] for row in lines_of(new)), ["a", "b"])

    def test_a_cycle(self) -> None:
        line = two(b"1\n3\n", b"1\na\n3\n", b"1\nb\n3\n")
        other = line.fork(b"eve")
        line.rec({b"f": file(b"1\na\nb\n3\n")})
        other.rec({b"f": file(b"1\nb\na\n3\n")})
        line.take(other)
        page = file_page(reader_of(main=line), line)
        conflict = page.one(".conflict")
        self.assertIn("put these 2 pieces before each other", conflict.one("h2").text)
        self.assertEqual(sorted(row[1] for row in lines_of(conflict)), ["a", "b"])

    def test_a_conflict_within_a_side(self) -> None:
        line = two(b"1\n2\n", b"1\na1\na2\n2\n", b"1\nb\n2\n")
        other = Line(b"eve", line.changes[:2])
        other.rec({b"f": file(b"1\na1\nx\na2\n2\n")})
        third = Line(b"fay", line.changes[:2])
        third.rec({b"f": file(b"1\na1\ny\na2\n2\n")})
        line.take(other).take(third)
        page = file_page(reader_of(main=line), line)
        outer, inner = page.all(".conflict")
        self.assertIn(inner, outer.all(".conflict"))
        self.assertEqual(sorted(row[1] for row in lines_of(inner)), ["x", "y"])
        self.assertEqual(sorted(row[1] for row in lines_of(outer)), ["a1", "a2", "b", "x", "y"])

    def test_lines_that_look_like_marker_lines_are_text(self) -> None:
        text = b">>>>>>> 1\na\n======= 1\nb\n<<<<<<< 1\n"
        line = Line(b"ann")
        line.rec({b"f": file(text)})
        page = file_page(reader_of(main=line), line)
        self.assertEqual(page.all(".conflict"), [])
        self.assertEqual([row[1].encode() + b"\n" for row in lines_of(page)], text.splitlines(True))

    def test_long_files_come_in_parts(self) -> None:
        line = Line(b"ann")
        text = b"".join(b"%d\n" % k for k in range(1, 101))
        line.rec({b"f": file(text * 50)})
        reader = reader_of(main=line)
        path = f"/channel/main/file/{line.changes[0].name}.1/"
        rows = [
            text
            for part in ("", "part/2/", "part/3/")
            for _, text in lines_of(reader.get(path + part))
        ]
        # One piece of text is one item of the file, and is parted between its lines.
        self.assertEqual("".join(row + "\n" for row in rows).encode(), text * 50)
        reader.get(path + "part/4/", 404)


@unittest.skipIf(LACKING, WHY)
class Conflicts(unittest.TestCase):
    def headings(self, line: Line) -> List[Tuple[str, str]]:
        """The conflicts of a channel, by path."""
        page = reader_of(main=line).get("/channel/main/conflicts/")
        return [
            (group.one(".path").text, conflict.one("h3").text.replace("Conflict ", "", 1))
            for group in page.all(".file")
            for conflict in group.all(".conflict")
        ]

    def test_those_of_names(self) -> None:
        ann, bob = Line(b"ann"), Line(b"bob")
        ann.rec({b"f": file(b"a\n")})
        bob.rec({b"f": file(b"b\n")})
        ann.take(bob)
        self.assertEqual(sorted(said for _, said in self.headings(ann)), [
            "Another file or directory has the same name; this one is by ann.",
            "Another file or directory has the same name; this one is by bob.",
        ])
        ann = Line(b"ann")
        ann.rec({b"f": file(b"1\n2\n")})
        bob = ann.fork(b"bob")
        ann.rec({})
        bob.rec({b"g": file(b"1\n2\n")})
        ann.take(bob)
        told = "ann deleted it, and bob moved it; neither knew of the other."
        self.assertEqual(self.headings(ann), [("g", told)])
        ann = Line(b"ann")
        ann.rec({b"d": DIR})
        bob = ann.fork(b"bob")
        ann.rec({})
        bob.rec({b"d": DIR, b"d/f": file(b"x\n")})
        ann.take(bob)
        told = "ann deleted it, and bob worked on it; neither knew of the other."
        self.assertEqual(self.headings(ann), [("d", told)])

    def test_an_orphan_and_two_names(self) -> None:
        ann = Line(b"ann")
        ann.rec({b"d": DIR, b"d/f": file(b"x\n")})
        bob = ann.fork(b"bob")
        ann.rec({})
        bob.rec({b"d": DIR, b"d/f": file(b"x\ny\n")})
        ann.take(bob)
        told = [said for path, said in self.headings(ann) if path.startswith("~")]
        self.assertEqual(
            told[0], "All its names are deleted, and there was work on it: deleted by ann."
        )
        ann = Line(b"ann")
        ann.rec({b"f": file(b"1\n2\n")})
        bob = ann.fork(b"bob")
        ann.rec({b"g": file(b"1\n2\n")})
        bob.rec({b"h": file(b"1\n2\n")})
        ann.take(bob)
        self.assertIn("Two moves gave one file two names", self.headings(ann)[0][1])

    def test_each_of_a_text_leads_to_its_place(self) -> None:
        base = b"".join(b"%d\n" % k for k in range(9))
        ann = Line(b"ann")
        ann.rec({b"f": file(base)})
        bob = ann.fork(b"bob")
        ann.rec({b"f": file(base.replace(b"2\n", b"2\na\n").replace(b"6\n", b"6\na\n"))})
        bob.rec({b"f": file(base.replace(b"2\n", b"2\nb\n").replace(b"6\n", b"6\nb\n"))})
        ann.take(bob)
        reader = reader_of(main=ann)
        page = reader.get("/channel/main/conflicts/")
        self.assertEqual([row.text for row in page.all("h1")], ["2 conflicts"])
        places = [row.text for row in page.all(".about") if row.text.startswith("at")]
        self.assertEqual(places, ["at line 4 · its graph", "at line 13 · its graph"])
        rows = ann.text.split(b"\n")
        self.assertTrue(rows[3].startswith(b">>>>>>>") and rows[12].startswith(b">>>>>>>"))

    def test_none(self) -> None:
        line = Line(b"ann")
        line.rec({b"f": file(b"1\n")})
        page = reader_of(main=line).get("/channel/main/conflicts/")
        self.assertEqual(page.one("h1").text, "Nothing is in conflict")


@unittest.skipIf(LACKING, WHY)
class Asking(unittest.TestCase):
    def test_the_log_is_asked_each_time_and_a_text_once(self) -> None:
        line = Line(b"ann")
        for k in range(5):
            line.rec({b"f": file(b"x\n" * (k + 1))})
        repository = Repository({"main": line.changes})
        reader = Reader(repository)
        reader.get("/channel/main/")
        line.rec({b"f": file(b"y\n")})
        repository.held["main"] = list(line.changes)
        reader.get("/channel/main/")
        reader.get("/channel/main/files/")
        gets = [words[1] for words in repository.asked if words[0] == "get"]
        self.assertEqual(gets, [change.name for change in line.changes])
        self.assertEqual(repository.asked.count(("log", "main")), 3)
        # A second reader finds the texts in the cache.
        again = Repository({"main": line.changes})
        other = Reader(again)
        other.site.source._cache.place = reader.place
        other.get("/channel/main/")
        self.assertEqual([words for words in again.asked if words[0] == "get"], [])

    def test_conflicts_are_worked_out_once_while_a_channel_stays_as_it_is(self) -> None:
        from pj import conflicts
        from pj.web import shelf

        line = Line(b"ann")
        line.rec({b"f": file(b"1\n2\n"), b"g": file(b"1\n2\n")})
        other = line.fork(b"bob")
        line.rec({b"f": file(b"1\na\n2\n"), b"g": file(b"1\na\n2\n")})
        other.rec({b"f": file(b"1\nb\n2\n"), b"g": file(b"1\nb\n2\n")})
        line.take(other)
        reader = Reader(Repository({"main": line.changes}))
        whole = mock.patch.object(shelf, "conflicts", wraps=conflicts.conflicts)
        text = mock.patch.object(conflicts, "text_conflicts", wraps=conflicts.text_conflicts)
        with whole as all_, text as of_file:
            for path in ("/", "/", "/channel/main/", "/channel/main/conflicts/", "/"):
                reader.get(path)
            self.assertEqual((all_.call_count, of_file.call_count), (1, 2))
            line.rec({**shown(line.changes), b"f": file(b"1\n2\n3\n")}, leave=True)
            reader.repository.held["main"] = list(line.changes)
            heading = reader.get("/channel/main/conflicts/").one("h1").text
        self.assertEqual(heading, "1 conflict")
        self.assertEqual((all_.call_count, of_file.call_count), (2, 2))  # g stays as it was

    def test_each_session_is_closed(self) -> None:
        line = Line(b"ann")
        line.rec({b"f": file(b"1\n")})
        repository = Repository({"main": line.changes})
        Reader(repository).get("/channel/main/files/")
        self.assertEqual(repository.asked[-1], ("close",))

    def test_a_channel_from_which_a_change_was_taken(self) -> None:
        line = Line(b"ann")
        line.rec({b"f": file(b"1\n")})
        line.rec({b"f": file(b"1\n2\n")})
        repository = Repository({"main": line.changes})
        reader = Reader(repository)
        self.assertEqual(len(lines_of(file_page(reader, line))), 2)
        repository.held["main"].pop()
        self.assertEqual(lines_of(file_page(reader, line)), [("1", "1")])

    def test_a_log_in_which_a_need_comes_later(self) -> None:
        line = Line(b"ann")
        line.rec({b"f": file(b"1\n")})
        line.rec({b"f": file(b"1\n2\n")})
        page = Reader(Repository({"main": line.changes[::-1]})).get("/channel/main/", 503)
        self.assertIn("lists a change before its need", page.text)


@unittest.skipIf(LACKING, WHY)
class Servers(Case):
    def setUp(self) -> None:
        super().setUp()
        cache = mock.patch.dict(os.environ, {"XDG_CACHE_HOME": os.path.join(self.place, "cache")})
        cache.start()
        self.addCleanup(cache.stop)

    def client(self, word: str) -> "FlaskClient":
        """A browser at the pages of what a person calls so."""
        from pj.web.app import make_app
        from pj.web.pages import Site
        from pj.web.source import find

        return make_app(Site(find(word))).test_client()

    def page(self, word: str, channel: str) -> str:
        """What the page of a channel has within."""
        return read(self.client(word).get(f"/channel/{channel}/").text).one("main").text

    def test_an_address_and_a_folder_show_the_same(self) -> None:
        ann = self.person("ann")
        ann.write("a", "1\n")
        ann.pj("record", "-m", "first")
        pages = [self.page(word, self.channel) for word in (self.server.address, ann.folder)]
        self.assertIn("first", pages[0])
        self.assertEqual(pages[0], pages[1])

    def test_a_kept_repository(self) -> None:
        program = mock.patch.dict(os.environ, {"PIJULD": keeping_program()})
        program.start()
        self.addCleanup(program.stop)
        run("ann", self.place, "init", "own")
        ann = Person("ann", os.path.join(self.place, "own"))
        ann.write("a", "1\n")
        ann.pj("record", "-m", "first")
        clients = [
            self.client(word) for word in (ann.folder, ann.path(os.path.join(".pj", "repository")))
        ]
        for client in clients:
            self.assertIn("first", client.get("/channel/main/").text)
        ann.write("a", "1\n2\n")
        ann.pj("record", "-m", "second")  # no lock is held
        for client in clients:
            self.assertIn("second", client.get("/channel/main/").text)


class Command(Case):
    def test_without_its_packages_it_says_which_to_install(self) -> None:
        packages = {"flask": "python3-flask", "nowhere": "python3-no"}
        with mock.patch.object(web, "PACKAGES", packages):
            with mock.patch.object(web, "missing", lambda names: ["nowhere"]):
                told = run("ann", self.place, "web", self.server.address)
        self.assertEqual(told.status, 1)
        self.assertIn("apt install python3-no", told.error)

    @unittest.skipIf(web.missing(list(web.PACKAGES)), "not all packages of pj web are installed")
    def test_it_listens_on_this_machine_and_says_where(self) -> None:
        words = [sys.executable, PJ, "web", "--port", "0", self.server.address]
        child = subprocess.Popen(words, stdout=subprocess.PIPE, cwd=self.place)
        self.addCleanup(child.wait)
        self.addCleanup(child.kill)
        assert child.stdout
        self.addCleanup(child.stdout.close)
        said = child.stdout.readline().decode()
        address = said.split()[0]
        self.assertRegex(said, r"^http://127\.0\.0\.1:\d+/ shows ")
        with urllib.request.urlopen(address) as page:
            self.assertIn(">main</a>", page.read().decode())

    def test_what_is_no_repository(self) -> None:
        if web.missing(["flask", "jinja2", "pygments", "waitress"]):
            self.skipTest("not all packages of pj web are installed")
        told = run("ann", self.place, "web")
        self.assertEqual((told.status, "no working folder" in told.error), (1, True), told)
        told = run("ann", self.place, "web", "nowhere")
        self.assertEqual((told.status, "no address" in told.error), (1, True), told)


@unittest.skipIf(LACKING, WHY)
class Safe(unittest.TestCase):
    HOSTILE = (
        b"<script>alert(1)</script>", b"\"><img src=x onerror=alert(1)>", b"' onclick='x",
        b"{{ 7 * 7 }}{% raw %}", b"&lt;b&gt;&#x202e;", b"\xe2\x80\xaetxt.exe",
        b"\xe2\x81\xa6x\xe2\x81\xa9",
        b"\x1b[31mred\x07", b"\xff\xfe\x80", b"\xed\xa0\x80", b"a\xcc\x81\xe2\x80\x8bb",
        b"\xf0\x9f\x98\x80", b"x" * 200,
    )

    WORDS = {  # attributes
        "action", "aria-current", "aria-hidden", "aria-label", "aria-labelledby", "charset",
        "class", "content", "data-label", "datetime", "for", "href", "id", "lang", "name", "open",
        "placeholder", "rel", "role", "scope", "selected", "tabindex", "title", "type", "value",
    }
    SHAPES = {  # attributes within a picture
        "class", "cx", "cy", "d", "href", "points", "role", "rx", "ry", "text-anchor", "transform",
        "viewbox", "width", "x", "y",
    }

    def hostile(self) -> Line:
        """A line in which each text, name, message and author is hostile."""
        line = Line(b"ann")
        for k, text in enumerate(self.HOSTILE):
            name = text.replace(b"/", b"|")[:200]
            inode = ("own", 1)
            hunks = [
                Make("file", ROOT, name + b".py"),
                Insert(inode, (inode,), (), text + b"\n" + text),
            ]
            line.changes.append(change(hunks, message=text, author=text, time=k))
        long_line = b"<b>" * (1 << 18) + b"\n"
        inode = ("own", 1)
        hunks = [Make("file", ROOT, b"long.html"), Insert(inode, (inode,), (), long_line * 2)]
        line.changes.append(change(hunks, message=b"x" * 1000, author=b"<i>" * 300))
        return line

    def test_no_byte_of_others_is_markup_or_unseen(self) -> None:
        reader = reader_of(main=self.hostile())
        pages = reader.everything()
        self.assertGreater(len(pages), 3 * len(self.HOSTILE))
        for text in self.HOSTILE:
            path = "/channel/main/search/?q=" + quote(text)
            pages[path] = reader.get(path)
        for path, page in pages.items():
            drawn = {id(node) for picture in page.all("svg") for node in every(picture)}
            for node in every(page):
                self.assertNotIn(node.tag, ("script", "img", "b", "i", "style"), path)
                words = self.SHAPES if id(node) in drawn else self.WORDS
                self.assertLessEqual(set(node.words), words, path)
                for link in ("href", "action"):
                    self.assertNotIn(":", node.words.get(link) or "", path)
            for letter in page.letters:
                self.assertTrue(letter.isprintable() or letter in "\n\t", (path, letter))

    def test_what_is_not_seen_is_spelled(self) -> None:
        reader = reader_of(main=self.hostile())
        titles = {row.one("h2").text for row in reader.get("/channel/main/").all("article")}
        for wanted in (
            "<script>alert(1)</script>", "{{ 7 * 7 }}{% raw %}", "&lt;b&gt;&#x202e;",
            "U+202Etxt.exe", "U+2066xU+2069", "\\x1b[31mred\\x07", "\\xff\\xfe\\x80",
            "\\xed\\xa0\\x80", "a\u0301U+200Bb", "\U0001f600",
        ):
            self.assertIn(wanted, titles)

    def test_a_line_of_a_mebibyte_is_cut(self) -> None:
        line = self.hostile()
        page = file_page(reader_of(main=line), line, -1)
        shown = 2000 + len(" and 784,432 more letters")
        self.assertEqual([len(row[1]) for row in lines_of(page)], [shown, shown])

    def test_headers_keep_scripts_and_other_sites_away(self) -> None:
        reader = reader_of(main=self.hostile())
        for path in ("/", "/style.css", "/channel/main/", "/none"):
            headers = reader.client.get(path).headers
            self.assertIn("default-src 'none'", headers["Content-Security-Policy"], path)
            self.assertNotIn("script-src", headers["Content-Security-Policy"], path)
            self.assertNotIn("unsafe", headers["Content-Security-Policy"], path)
            self.assertEqual(headers["X-Content-Type-Options"], "nosniff", path)

    def test_another_host_is_shown_nothing(self) -> None:
        reader = reader_of(main=self.hostile())
        reader.app.config["hosts"] = frozenset(["127.0.0.1:8700"])
        for host, status in (("evil.example", 421), ("127.0.0.1:8700", 200)):
            response = reader.client.get("/", headers={"Host": host})
            self.assertEqual(response.status_code, status, host)

    def test_channels_that_are_called_as_folders_above(self) -> None:
        line = Line(b"ann")
        line.rec({b"f": file(b"1\n")})
        reader = Reader(Repository({"..": line.changes, ".": line.changes, "a.b": line.changes}))
        pages = reader.everything()
        for word in ("~..", "~.", "a.b"):
            self.assertIn(f"/channel/{word}/files/", pages)


def every(element: Element) -> List[Element]:
    """An element and all within it."""
    inner = [part for part in element.parts if isinstance(part, Element)]
    return [element, *(node for part in inner for node in every(part))]


class Style(unittest.TestCase):
    """The colours of the style sheet, light and dark."""

    # Each colour of letters, and the backgrounds on which it stands.
    GROUNDS = {
        "text": "back panel warn-back plus-back minus-back",
        "quiet": "back panel warn-back plus-back minus-back",
        "link": "back panel warn-back", "warn": "back warn-back plus-back",
        "plus": "back plus-back", "minus": "back minus-back", "odd": "odd-back", "back": "link",
        "side-0": "panel", "side-1": "panel", "side-2": "panel", "side-3": "panel",
        "code-c": "back warn-back", "code-k": "back warn-back", "code-s": "back warn-back",
        "code-n": "back warn-back", "code-f": "back warn-back",
    }

    @staticmethod
    def palettes() -> List[Dict[str, str]]:
        with open(STYLE, encoding="utf-8") as sheet:
            parts = re.findall(r":root \{(.*?)\}", sheet.read(), re.DOTALL)
        return [dict(re.findall(r"--([\w-]+): (#[0-9a-f]{6});", part)) for part in parts]

    @staticmethod
    def light(colour: str) -> float:
        """The relative luminance of WCAG 2.1."""
        parts = [int(colour[k : k + 2], 16) / 255 for k in (1, 3, 5)]
        red, green, blue = (
            part / 12.92 if part <= 0.04045 else ((part + 0.055) / 1.055) ** 2.4 for part in parts
        )
        return 0.2126 * red + 0.7152 * green + 0.0722 * blue

    def test_letters_have_a_contrast_of_4_5(self) -> None:
        palettes = self.palettes()
        self.assertEqual(len(palettes), 2)
        for palette in palettes:
            for letters, grounds in self.GROUNDS.items():
                for ground in grounds.split():
                    pair = sorted((self.light(palette[letters]), self.light(palette[ground])))
                    contrast = (pair[1] + 0.05) / (pair[0] + 0.05)
                    self.assertGreaterEqual(contrast, 4.5, (letters, ground, palette["back"]))

    def test_nothing_comes_from_elsewhere(self) -> None:
        with open(STYLE, encoding="utf-8") as sheet:
            text = sheet.read()
        self.assertNotIn("url(", text)
        self.assertNotIn("@import", text)


if __name__ == "__main__":
    unittest.main()
