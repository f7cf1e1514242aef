"""The pages of `pj web` in a real browser: what a reader sees, and what clicks and keys do."""

from __future__ import annotations

import os
import shutil
import tempfile
import unittest
from typing import Any, Dict, List
from unittest import mock
from urllib.parse import urljoin

from browser import LACKING, NARROW, WHY, WIDE, Browser, Pages
from kitchen import Kitchen
from support import Person, Server, keeping_program, run

# The contrast of each piece of text with what is behind it, where it is below 4.5 (WCAG 2.1).
FAINT = """
const channel = v => { v /= 255; return v <= .04045 ? v / 12.92 : ((v + .055) / 1.055) ** 2.4 };
const light = c => .2126 * channel(c[0]) + .7152 * channel(c[1]) + .0722 * channel(c[2]);
const parse = s => (s.match(/[0-9.]+/g) || []).map(Number);
const ground = e => {
  for (; e; e = e.parentElement) {
    const c = parse(getComputedStyle(e).backgroundColor);
    if (c.length == 3 || c[3] == 1) return c;
  }
  return parse(getComputedStyle(document.body).backgroundColor);
};
const found = [];
for (const e of document.querySelectorAll('body *')) {
  const own = [...e.childNodes].some(n => n.nodeType == 3 && n.textContent.trim());
  const box = e.getBoundingClientRect();
  if (!own || !box.width || box.left < 0 || e.closest('svg')) continue;
  const a = light(parse(getComputedStyle(e).color)), b = light(ground(e));
  const contrast = (Math.max(a, b) + .05) / (Math.min(a, b) + .05);
  if (contrast < 4.5) found.push(e.tagName + ' ' + e.className + ' ' + contrast.toFixed(2));
}
return found;
"""


@unittest.skipIf(LACKING, WHY)
class InBrowser(unittest.TestCase):
    """Tests with one browser, and a kitchen of their own."""

    browser: Browser
    server: Server

    @classmethod
    def setUpClass(cls) -> None:
        cls.server, cls.browser = Server(), Browser()

    @classmethod
    def tearDownClass(cls) -> None:
        cls.browser.end()
        cls.server.end()

    def pages(self, who: Person, *words: str) -> Pages:
        found = Pages(who, *words)
        self.addCleanup(found.end)
        return found

    def place(self) -> str:
        found = tempfile.mkdtemp(prefix="pj-test-")
        self.addCleanup(shutil.rmtree, found, ignore_errors=True)
        return found


class Reading(InBrowser):
    """Pages that are only read: one kitchen for all."""

    kitchen: Kitchen
    shared: Pages

    @classmethod
    def setUpClass(cls) -> None:
        super().setUpClass()
        cls.home = tempfile.mkdtemp(prefix="pj-test-")
        cls.kitchen = Kitchen(cls.server, cls.home)
        cls.shared = Pages(cls.kitchen.ann, "--edit")

    @classmethod
    def tearDownClass(cls) -> None:
        cls.shared.end()
        shutil.rmtree(cls.home, ignore_errors=True)
        super().tearDownClass()

    def go(self, *words: str) -> None:
        """Opens the first page, and follows links by their words."""
        self.browser.size(WIDE)
        self.browser.go(self.shared.address)
        for word in words:
            self.browser.follow(self.browser.link(word))

    def test_the_channels(self) -> None:
        self.go()
        rows = [row.text.replace("\n", " ") for row in self.browser.all("tbody tr")]
        self.assertEqual([row.split()[:3] for row in rows], [
            ["bea", "4", "none"], ["cyril", "4", "none"], ["main", "7", "7"],
        ])
        self.assertIn("Say what is in it Bea Lund, 2026-09-22", rows[0])

    def test_changes_and_one_of_them(self) -> None:
        self.go("cyril")
        titles = [row.text for row in self.browser.all("article h2")]
        self.assertEqual(titles, [
            "Stop at the first fault", "Stir it; ten minutes are enough", "Cook it al dente",
            "A program that cooks pasta",
        ])
        self.browser.follow(self.browser.link("Stir it; ten minutes are enough"))
        text = self.browser.text()
        self.assertIn("moved README.md → doc/README.md", text)
        rows = [row.text.replace("\n", "") for row in self.browser.all(".line.ins, .line.del")]
        self.assertTrue(any("water.stir()" in row and row.startswith("+") for row in rows), rows)
        self.assertIn("−MINUTES = 8  # al dente", rows)
        self.assertIn("+MINUTES = 10", rows)

    def test_files_and_the_author_of_a_line(self) -> None:
        self.go("cyril", "Files")
        self.assertIn("menu.txt", self.browser.text(".tree"))
        self.browser.follow(self.browser.link("pasta.py"))
        for run_ in self.browser.all(".run"):
            if "MINUTES = 10" in run_.text:
                self.assertIn("Cyril Ito", run_.text)
                break
        else:
            self.fail("no such line")
        self.assertGreater(len(self.browser.all("code .k")), 2)  # it has colours

    def test_who_disagrees_with_whom_about_what(self) -> None:
        self.go("main", "Files", "pasta.py")
        found = [row.text for row in self.browser.all(".conflict h2")]
        sides = self.browser.all(".conflict.kind-sides .side")
        softer = ["MINUTES = 11" in side.text for side in sides]
        self.assertEqual(sorted(softer), [False, True])
        bea, cyril, ending = "Bea Lund", "Cyril Ito", "; neither knew of the other."
        # Sides stand in the order of the names of their changes.
        both = f"{bea} and {cyril}" if softer[0] else f"{cyril} and {bea}"
        each, *others = [row.replace("Conflict ", "") for row in found]
        self.assertIn(each, [
            f"{one} and {other} each replaced these lines{ending}"
            for one, other in ((bea, cyril), (cyril, bea))
        ])
        self.assertEqual(others, [
            f"Instead of them {both} wrote these.",
            f"{bea} deleted these lines, and {cyril} worked on them{ending}",
        ])
        self.assertNotIn("<<<<<<<", self.browser.text())
        left, right = (side.rect for side in sides)
        self.assertEqual(left["y"], right["y"])
        self.assertLess(left["x"] + left["width"] - 1, right["x"])
        self.browser.size(NARROW)
        above, below = (side.rect for side in self.browser.all(".conflict.kind-sides .side"))
        self.assertLess(above["y"] + above["height"] - 1, below["y"])
        self.assertEqual(above["x"], below["x"])

    def test_conflicts_and_a_graph(self) -> None:
        self.go("main", "Conflicts 7")
        self.assertEqual(self.browser.text("h1"), "7 conflicts")
        self.assertIn("Ann Keller deleted it, and Cyril Ito worked on it", self.browser.text())
        self.browser.follow(self.browser.link("its graph"))
        if self.browser.all("svg"):  # where Graphviz is installed
            self.assertGreater(len(self.browser.all("svg .node")), 3)
            picture, frame = self.browser.one("svg").rect, self.browser.one(".picture").rect
            self.assertLessEqual(picture["width"], frame["width"])
        self.browser.one("summary").click()
        self.assertIn("Tagliatelle", self.browser.text(".nodes"))

    def test_two_channels(self) -> None:
        from selenium.webdriver.support.ui import Select

        self.go("Compare")
        Select(self.browser.one("#one")).select_by_visible_text("bea")
        Select(self.browser.one("#other")).select_by_visible_text("cyril")
        self.browser.follow(self.browser.one(".ask button"))
        told = "They have 2 changes in common. Together they would have 4 new conflicts"
        self.assertIn(told, self.browser.text())
        self.browser.follow(self.browser.link("files"))
        self.assertIn("allergies.txt", self.browser.text(".tree"))

    def test_search(self) -> None:
        self.go("main")
        field = self.browser.one("input[type=search]")
        field.send_keys("salt")
        self.browser.leave(field.submit)
        self.assertIn("Softer, and without salt, for children", self.browser.text())
        self.assertIn("1 change and 0 paths with", self.browser.text("h1"))

    def addresses(self) -> List[str]:
        """A page of each kind."""
        self.go("main", "Files", "pasta.py")
        file = self.browser.driver.current_url
        self.go("main")
        change = self.browser.one("article a").get_attribute("href")
        self.browser.go(self.shared.edit)
        resolve = [row.get_attribute("href") for row in self.browser.all(".button")]
        paths = ("", "channel/main/", "channel/main/files/", "channel/main/conflicts/", "compare/",
                 "compare/bea/cyril/", "channel/main/search/?q=pasta", "nowhere")
        here = [urljoin(self.shared.address, path) for path in paths]
        return [*here, file, file + "graph/", change, self.shared.edit, *resolve]

    def test_each_page_fits_both_widths_and_can_be_read(self) -> None:
        for address in self.addresses():
            for width in (WIDE, NARROW):
                for dark in (False, True):
                    self.browser.size(width)
                    self.browser.dark(dark)
                    self.browser.go(address)
                    where = f"{address} at {width}{', dark' if dark else ''}"
                    wide = self.browser.run("return document.documentElement.scrollWidth")
                    self.assertLessEqual(wide, width, where)
                    self.assertEqual(self.browser.run(FAINT), [], where)
        self.browser.dark(False)

    def test_each_page_has_its_landmarks_and_names(self) -> None:
        for address in self.addresses():
            self.browser.go(address)
            self.browser.run("document.querySelectorAll('details').forEach(d => d.open = true)")
            for selector in ("main", "h1", "header.top"):
                self.assertEqual(len(self.browser.all(selector)), 1, f"{selector} of {address}")
            self.assertEqual(self.browser.one("html").get_attribute("lang"), "en")
            named = "a, button, input:not([type=hidden]), select, textarea, nav, section"
            for node in self.browser.all(named):
                if node.is_displayed():
                    spelled = node.get_attribute("outerHTML")
                    self.assertTrue(node.accessible_name.strip(), (address, spelled))
            ids = self.browser.run("return [...document.querySelectorAll('[id]')].map(e => e.id)")
            self.assertEqual(len(ids), len(set(ids)), address)

    def test_the_browser_complains_of_nothing(self) -> None:
        self.browser.complaints()
        for address in self.addresses():
            if not address.endswith("nowhere"):
                self.browser.go(address)
        self.assertEqual(self.browser.complaints(), [])


class Hostile(InBrowser):
    def test_nothing_of_others_runs_or_looks_like_the_page(self) -> None:
        place = self.place()
        evil = "<script>alert(1)</script><img src=x onerror=alert(2)>"
        eve = Person(evil, f"{place}/eve")
        session = self.server.session()
        session.ask("new", "hostile")
        session.close()
        run(evil, place, "clone", "--thin", self.server.address, "hostile", eve.folder)
        eve.write("<b onmouseover=alert(3)>.html", evil + "\n\u202eevil\n" + "x" * 100_000 + "\n")
        eve.pj("record", "-m", evil + "\u202e")
        pages = self.pages(eve)
        self.browser.go(pages.address, "channel/hostile/")
        for step in ("article h2 a", "nav a[href*=files]", ".tree a", ".about a[href*=graph]"):
            self.assertIn("alert(", self.browser.run("return document.body.innerText"), step)
            self.assertEqual(self.browser.all("script, img, b"), [], step)
            wide = self.browser.run("return document.documentElement.scrollWidth")
            self.assertLessEqual(wide, WIDE, step)
            self.browser.follow(self.browser.one(step))
        self.assertEqual(self.browser.complaints(), [])


class Resolving(InBrowser):
    def kitchen(self) -> Kitchen:
        """A history of the test's own: a server for each, since channels have names."""
        server = Server()
        self.addCleanup(server.end)
        return Kitchen(server, self.place())

    def printed(self, kitchen: Kitchen, path: str) -> str:
        """What another folder of the channel shows at a path."""
        return self.printed_of(kitchen.server).read(path)

    def printed_of(self, server: Server) -> Person:
        """Another folder of the channel."""
        place = self.place()
        told = run("eve", place, "clone", "--thin", server.address, "main", f"{place}/eve")
        self.assertIn(told.status, (0, 1), told)
        return Person("eve", f"{place}/eve")

    def test_by_clicking(self) -> None:
        kitchen = self.kitchen()
        pages = self.pages(kitchen.ann, "--edit")
        self.browser.size(WIDE)
        self.browser.go(pages.edit)
        section = self.section("src/pasta.py")
        self.browser.follow(section.find_element("css selector", ".button"))
        first, second, third = self.browser.all("fieldset")
        self.click(first, "Delete these lines")
        self.click(second, "Both, in this order:")
        ten_first = "MINUTES = 10" in second.find_element("css selector", ".side").text
        for number, place in enumerate(("1", "2") if ten_first else ("2", "1")):
            self.browser.one(f"select[name=place-1-{number}] option[value='{place}']").click()
        self.click(third, "Keep these lines")
        self.browser.follow(self.browser.one("button.main"))
        shown = [row.text for row in self.browser.all(".preview .chosen code")]
        soft = "MINUTES = 11  # soft, for children"
        self.assertEqual(shown, ["MINUTES = 10", soft, "    water.salt()"])
        self.browser.one("#message").send_keys("Ten, or eleven")
        self.browser.follow(self.browser.one("button.main"))
        self.assertIn("Recorded", self.browser.text("[role=status]"))
        self.assertEqual(self.browser.text("h1"), "4 conflicts in this folder")
        text = self.printed(kitchen, "src/pasta.py")
        self.assertIn("MINUTES = 10\nMINUTES = 11  # soft, for children\n\n", text)
        self.assertIn("    water.heat()\n    water.salt()\n    water.stir()\n", text)
        self.assertNotIn("al dente", text)
        self.assertEqual(kitchen.ann.read("src/pasta.py"), text)

    def section(self, path: str) -> Any:
        """The part of the page that is about a path."""
        return next(row for row in self.browser.all("section.file") if path in row.text)

    def click(self, within: Any, label: str) -> None:
        """Clicks on a choice by its words."""
        labels = within.find_elements("css selector", "label")
        next(row for row in labels if row.text.strip() == label).click()

    def test_by_keyboard_alone(self) -> None:
        from selenium.webdriver.common.keys import Keys

        kitchen = self.kitchen()
        pages = self.pages(kitchen.ann, "--edit")
        self.browser.size(WIDE)
        self.browser.go(pages.edit)
        self.tab_to(lambda node: node.accessible_name == "Resolve doc/menu.txt")
        self.browser.leave(lambda: self.press(Keys.ENTER))
        sides = [row.text for row in self.browser.all(".side code")]
        self.tab_to(lambda node: node.get_attribute("name") == "how-0")
        # The arrows go through the choices: three sides, the order, a text, and leave it.
        for _ in range(5):
            self.press(Keys.ARROW_DOWN)
            if self.active().get_attribute("value") == "order":
                break
        places: Dict[str, str] = {}
        for number, key in enumerate("302"):
            self.tab_to(lambda node, n=number: node.get_attribute("name") == f"place-0-{n}")
            self.press("l" if key == "0" else key)  # begins `left out`
            places[str(number)] = self.active().get_attribute("value")
        self.assertEqual(places, {"0": "3", "1": "0", "2": "2"})
        self.tab_to(lambda node: node.text == "Preview the file")
        self.browser.leave(lambda: self.press(Keys.ENTER))
        self.tab_to(lambda node: node.get_attribute("id") == "message")
        self.press("Two kinds are enough")
        self.tab_to(lambda node: node.text == "Record")
        self.browser.leave(lambda: self.press(Keys.ENTER))
        self.assertIn("Recorded", self.browser.text("[role=status]"))
        log = kitchen.ann.pj("log", "-n", "1")
        self.assertIn("Two kinds are enough", log)
        wanted = ["Spaghetti", "Penne", sides[2], sides[0], "Fusilli"]
        self.assertEqual(self.printed(kitchen, "doc/menu.txt").split(), wanted)

    def test_a_name_by_clicking_in_a_folder_with_a_repository_of_its_own(self) -> None:
        server, place = Server(), self.place()
        self.addCleanup(server.end)
        program = mock.patch.dict(os.environ, {"PIJULD": keeping_program()})
        program.start()
        self.addCleanup(program.stop)
        people = [Person(name, f"{place}/{name}") for name in ("ann", "bob")]
        for who in people:
            run(who.name, place, "clone", server.address, "main", who.folder)
        for who in people:
            who.write("notes.txt", f"by {who.name}\n")
            who.pj("record", "-m", f"Notes of {who.name}")
            who.pj("sync", status=None)
        (ann, _), paths = people, sorted(people[1].files())
        ann.pj("pull", status=None)
        pages = self.pages(ann, "--edit")
        self.browser.go(pages.edit)
        first = os.fsdecode(paths[0])
        button = self.section(first).find_element("css selector", ".button")
        self.assertEqual(button.accessible_name, f"Settle the name {first}")
        self.browser.follow(button)
        self.is_fit()
        self.click(self.browser.one("fieldset"), "Move it to the path")
        field = self.browser.one("input[name=target]")
        field.clear()
        field.send_keys("notes-2.txt")
        self.browser.follow(self.browser.one("button.main"))
        self.assertEqual(self.browser.text(".preview"), f"{first} will be moved to notes-2.txt")
        self.is_fit()
        self.browser.one("#message").send_keys("Both are kept")
        self.browser.follow(self.browser.one("button.main"))
        self.assertIn("Recorded", self.browser.text("[role=status]"))
        self.assertEqual(self.browser.text("h1"), "Nothing is in conflict in this folder")
        self.assertEqual(sorted(ann.files()), [b"notes-2.txt", b"notes.txt"])
        ann.pj("push")
        self.assertEqual(self.printed_of(server).files(), ann.files())
        self.assertEqual(self.browser.complaints(), [])

    def is_fit(self) -> None:
        """The page fits both widths, can be read, and each thing in it has a name."""
        for width in (NARROW, WIDE):
            self.browser.size(width)
            wide = self.browser.run("return document.documentElement.scrollWidth")
            self.assertLessEqual(wide, width)
            self.assertEqual(self.browser.run(FAINT), [])
            for field in self.browser.all("fieldset input"):
                box, outer = field.rect, self.browser.one("fieldset").rect
                self.assertLessEqual(box["x"] + box["width"], outer["x"] + outer["width"])
        for node in self.browser.all("a, button, input:not([type=hidden]), section"):
            self.assertTrue(node.accessible_name.strip(), node.get_attribute("outerHTML"))

    def active(self) -> Any:
        return self.browser.driver.switch_to.active_element

    def press(self, keys: str) -> None:
        self.active().send_keys(keys)

    def tab_to(self, wanted: Any) -> None:
        """Presses the tabulator until what is wanted has the focus, which has to be seen."""
        from selenium.webdriver.common.keys import Keys

        for _ in range(60):
            node = self.active()
            if wanted(node):
                width = self.browser.run(
                    "return getComputedStyle(document.activeElement).outlineWidth"
                )
                self.assertNotEqual(width, "0px", node.get_attribute("outerHTML"))
                return
            node.send_keys(Keys.TAB)
        self.fail("the keyboard does not lead there")


if __name__ == "__main__":
    unittest.main()
