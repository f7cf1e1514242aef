"""A command that is stopped, at any write; and folders with edits in every file."""

from __future__ import annotations

import os
import shutil
import unittest
from contextlib import contextmanager
from typing import Callable, Dict, Iterator, List
from unittest import mock

from support import Case, Person, Told
from pj import stops, wire
from pj.paths import Folder


class Stopped(BaseException):
    """Stands for the end of the process."""


@contextmanager
def stopping(at: int) -> Iterator[None]:
    """Stops what is done within at its write of this number, from 0 on."""

    def end(status: int) -> None:
        raise Stopped

    with mock.patch.object(stops, "_left", at), mock.patch.object(wire, "ARMED", True):
        with mock.patch.object(os, "_exit", end):
            yield


def text(word: str, lines: int = 6) -> str:
    """A text of some lines."""
    return "".join(f"{word} {number}\n" for number in range(lines))


class Scene(Case):
    """Two channels, the second with other files, and a folder that shows the first."""

    def setUp(self) -> None:
        super().setUp()
        ann = self.first = self.person("ann")
        for name in ("a", "b", "c", "d/e", "d/f", "g/h"):
            ann.write(name, text(name))
        os.makedirs(ann.path("empty"))
        ann.pj("record", "-m", "first")
        self.second = self.channel + "-2"
        ann.pj("fork", self.second)
        eve = self.person("eve", self.second)
        eve.write("a", text("a") + "more\n")
        os.unlink(eve.path("b"))
        os.rename(eve.path("d"), eve.path("moved"))
        shutil.rmtree(eve.path("g"))
        eve.write("g", "now a file\n", executable=True)
        os.rmdir(eve.path("empty"))
        eve.write("new/deep/x", text("x"))
        eve.write("c", text("c").replace("c 3", "C 3"))
        eve.pj("record", "-m", "other files")
        self.other = eve

    def copy(self, of: Person, name: str) -> Person:
        """The folder once more, on a channel of its own that holds the same."""
        channel = f"{self.channel}-{name}"
        session = self.server.session()
        here = of.pj("status").split("on channel ")[1].split(" ")[0]
        session.ask("fork", here, channel)
        session.close()
        found = Person(of.name, os.path.join(self.place, name))
        shutil.copytree(of.folder, found.folder)
        with open(found.path(".pj/config"), encoding="utf-8") as file:
            config = file.read()
        found.write(".pj/config", config.replace(f"channel = {here}\n", f"channel = {channel}\n"))
        return found


class Stops(Scene):
    def each_stop(self, of: Person, work: Callable[[Person], Told], status: int = 0) -> int:
        """Stops a command at each of its writes; the folder is as before or as after."""
        before = of.files()
        whole = self.copy(of, "whole")
        done = work(whole)
        self.assertEqual(done.status, status, done)
        after = whole.files()
        count = 0
        while True:
            person = self.copy(of, f"stop{count}")
            try:
                with stopping(count):
                    told = work(person)
            except Stopped:
                person.pj("status")
                self.assertIn(person.files(), (before, after), f"stopped at write {count}")
                again = work(person)
                if again.status != status:
                    self.assertEqual(again.status, 1, again)
                    person.pj("push", status=None)  # where the channel lost what the folder shows
                    person.pj("pull", status=None)
                    person.pj("status")
                self.settled(person, before, after)
                shutil.rmtree(person.folder)
                count += 1
                continue
            self.assertEqual(told.status, status, told)
            self.assertEqual(person.files(), after)
            return count

    def settled(self, person: Person, before: Folder, after: Folder) -> None:
        """After it was done once more, nothing is left that a stopped command began."""
        self.assertIn(person.files(), (before, after))
        for name in ("plan", "pending", "new"):
            self.assertFalse(os.path.exists(person.path(f".pj/{name}")), name)

    def test_a_merge(self) -> None:
        count = self.each_stop(self.first, lambda p: p.tell("merge", self.second))
        self.assertGreater(count, 15)

    def test_a_switch(self) -> None:
        back = self.channel
        count = self.each_stop(self.other, lambda p: p.tell("switch", back))
        self.assertGreater(count, 15)

    def test_a_record(self) -> None:
        ann = self.first
        ann.write("a", text("a") + "edited\n")
        os.rename(ann.path("d"), ann.path("e"))
        ann.pj("move", "b", "bb")
        count = self.each_stop(ann, lambda p: p.tell("record", "-m", "edits"), status=0)
        self.assertGreater(count, 8)

    def test_a_record_of_some_paths(self) -> None:
        ann = self.first
        ann.write("a", text("a") + "edited\n")
        ann.write("c", text("c") + "edited\n")
        self.each_stop(ann, lambda p: p.tell("record", "-m", "edits", "c"))

    def test_restore(self) -> None:
        ann = self.first
        for name in ("a", "b", "d/e"):
            ann.write(name, "lost\n")
        os.unlink(ann.path("g/h"))
        os.rmdir(ann.path("g"))
        self.each_stop(ann, lambda p: p.tell("restore", "."))

    def test_an_unrecord(self) -> None:
        name = self.other.pj("log", "-n", "1")[:12]
        self.each_stop(self.other, lambda p: p.tell("unrecord", name))

    def test_a_clone(self) -> None:
        done: List[int] = []
        for count in range(1000):
            folder = os.path.join(self.place, f"clone{count}")
            words = ("clone", "--thin", self.server.address, self.second, folder)
            try:
                with stopping(count):
                    told = self.first.tell(*words)
                done.append(told.status)
                break
            except Stopped:
                person = Person("ann", folder)
                if not os.path.exists(person.path(".pj/config")):
                    shutil.rmtree(folder, ignore_errors=True)
                    self.first.pj(*words)
                else:
                    person.pj("pull")
                self.assertEqual(person.files(), self.other.files())
                shutil.rmtree(folder)
        self.assertEqual(done, [0])
        self.assertGreater(count, 10)

    def test_a_process_that_ends(self) -> None:
        person = self.copy(self.first, "process")
        told = person.start("merge", self.second, PJ_STOP="12")
        self.assertEqual(told.status, stops.STATUS)
        person.pj("status")
        self.assertIn(person.files(), (self.first.files(), self.other.files()))

    def test_edits_after_a_stop_are_kept(self) -> None:
        for count in range(4, 40):
            person = self.copy(self.first, f"edit{count}")
            try:
                with stopping(count):
                    person.tell("merge", self.second)
                break
            except Stopped:
                person.write("a", "edited meanwhile\n")
                told = person.tell("status")
                self.assertEqual(person.read("a"), "edited meanwhile\n")
                if told.status:
                    os.rename(person.path("a"), person.path("a.mine"))
                    person.pj("status")
                    self.assertEqual(person.read("a"), text("a") + "more\n")
                    self.assertEqual(person.read("a.mine"), "edited meanwhile\n")
                shutil.rmtree(person.folder)


class Edits(Scene):
    def edited(self, of: Person, name: str) -> "tuple[Person, Dict[bytes, bytes]]":
        """A copy of a folder with an edit in every file, and one more file."""
        person = self.copy(of, name)
        for path, node in person.files().items():
            if node.kind == "file":
                with open(os.path.join(os.fsencode(person.folder), path), "ab") as file:
                    file.write(b"mine, not recorded\n")
        person.write("mine", "not recorded\n")
        return person, {p: n.data for p, n in person.files().items() if n.kind == "file"}

    def kept(self, person: Person, files: Dict[bytes, bytes]) -> None:
        """All the edits are there."""
        there = person.files()
        for path, data in files.items():
            self.assertEqual(there[path].data, data, path)

    def test_no_command_loses_an_edit(self) -> None:
        name = self.other.pj("log", "-n", "1")[:12]
        first = self.first.pj("log", "-n", "1")[:12]
        for number, (of, words) in enumerate((
            (self.first, ("merge", self.second)),
            (self.first, ("pull", self.server.address, "--channel", self.second)),
            (self.first, ("sync", self.server.address, "--channel", self.second)),
            (self.first, ("switch", self.second)),
            (self.other, ("switch", self.channel)),
            (self.other, ("unrecord", name)),
            (self.other, ("uproot", "--yes", first)),
            (self.other, ("undo", name)),
            (self.first, ("resolve",)),
            (self.first, ("clone", "--thin", self.server.address, self.second, ".")),
            (self.first, ("record", "-m", "one alone", "a")),
        )):
            with self.subTest(words=words):
                person, files = self.edited(of, f"edits{number}")
                told = person.tell(*words)
                self.kept(person, files)
                if words[0] not in ("resolve", "record"):
                    self.assertEqual(told.status, 1, told)
                shutil.rmtree(person.folder)

    def test_edits_elsewhere_do_not_hinder(self) -> None:
        person = self.copy(self.first, "elsewhere")
        person.write("d/z", "mine\n")
        told = person.tell("merge", self.second)
        self.assertEqual((told.status, "d/z" in told.error), (1, True))
        os.unlink(person.path("d/z"))
        person.write("z", "mine\n")
        person.pj("pull")
        self.assertEqual(person.read("z"), "mine\n")
        self.assertEqual(person.read("a"), text("a") + "more\n")

    def test_no_file_is_written_through_a_link(self) -> None:
        person = self.copy(self.first, "links")
        outside = os.path.join(self.place, "outside")
        os.makedirs(outside)
        shutil.rmtree(person.path("d"))
        os.symlink(outside, person.path("d"))
        os.symlink(outside, person.path("new"))
        self.assertEqual(person.tell("merge", self.second).status, 1)
        self.assertEqual(os.listdir(outside), [])

    def test_two_commands_at_once(self) -> None:
        from pj.folder import WorkingFolder

        with WorkingFolder(os.fsencode(self.first.folder)).lock():
            self.assertIn("another pj", self.first.pj("status", status=1))


if __name__ == "__main__":
    unittest.main()
