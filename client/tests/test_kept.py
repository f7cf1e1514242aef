"""Folders with a repository of their own, which exchange over a server."""

from __future__ import annotations

import os
import shutil
import unittest
from unittest import mock

from support import MODEL, PROGRAM, Case, Person, keeping_program, run
from pj import workspace
from pj.workspace import open_kept
from test_safety import Stopped, stopping

POEM = "one\ntwo\nthree\nfour\nfive\n"


class Kept(Case):
    def setUp(self) -> None:
        super().setUp()
        patch = mock.patch.dict(os.environ, {"PIJULD": keeping_program()})
        patch.start()
        self.addCleanup(patch.stop)

    def kept(self, name: str) -> Person:
        """A folder with a repository of its own, cloned from the channel of the test."""
        found = Person(name, os.path.join(self.place, name))
        told = run(name, self.place, "clone", self.server.address, self.channel, found.folder)
        self.assertIn(told.status, (0, 1), told)
        return found

    def test_a_repository_of_its_own(self) -> None:
        ann = Person("ann", os.path.join(self.place, "ann"))
        os.makedirs(ann.folder)
        ann.write("f", POEM)
        ann.pj("init")
        self.assertIn("made     f", ann.pj("status"))
        ann.pj("record", "-m", "first")
        ann.write("f", POEM + "six\n")
        name = ann.pj("record", "-m", "second")[9:21]
        ann.pj("fork", "side")
        ann.pj("unrecord", name)
        self.assertEqual(ann.read("f"), POEM)
        ann.pj("merge", "side")
        self.assertEqual(ann.read("f"), POEM + "six\n")
        self.assertIn("no origin", ann.pj("pull", status=1))
        ann.pj("push", self.server.address, "--channel", self.channel)
        self.assertEqual(self.person("bob").files(), ann.files())

    def test_two_repositories_exchange(self) -> None:
        eve = self.person("eve")
        eve.write("f", POEM)
        eve.pj("record", "-m", "first")
        ann, bob = self.kept("ann"), self.kept("bob")
        self.assertEqual(ann.files(), bob.files())
        ann.write("f", POEM.replace("two", "2"))
        ann.pj("record", "-m", "by ann")
        bob.write("f", POEM.replace("four", "4"))
        bob.pj("record", "-m", "by bob")
        self.assertIn("1 change given", ann.pj("push"))
        self.assertIn("1 change taken", bob.pj("sync"))
        self.assertIn("1 change taken", ann.pj("pull"))
        self.assertEqual(ann.read("f"), "one\n2\nthree\n4\nfive\n")
        self.assertEqual(ann.files(), bob.files())
        eve.pj("pull")
        self.assertEqual(ann.files(), eve.files())
        bob.write("f", "mine\n")
        ann.write("f", "")
        ann.pj("record", "-m", "emptied")
        ann.pj("push")
        self.assertIn("came to the channel", bob.pj("pull", status=1))
        self.assertEqual(bob.read("f"), "mine\n")
        self.assertIn("do not show yet", bob.pj("status"))

    def test_an_exchange_that_is_stopped_goes_on(self) -> None:
        eve = self.person("eve")
        for number in range(5):
            eve.write(f"f{number}", POEM)
            eve.pj("record", "-m", f"file {number}")
        ann = self.kept("ann")
        for number in range(5):
            eve.write(f"g{number}", POEM)
            eve.pj("record", "-m", f"file {number}")
        for count in (0, 3, 8, 15, 30):
            bob = Person("ann", os.path.join(self.place, f"bob{count}"))
            shutil.copytree(ann.folder, bob.folder)
            try:
                with stopping(count):
                    bob.tell("pull")
            except Stopped:
                bob.pj("pull")
            self.assertEqual(bob.files(), eve.files())

    @unittest.skipIf(PROGRAM == MODEL, "the program is not built, and the model locks no file")
    def test_a_file_that_another_process_has_is_waited_for(self) -> None:
        ann = Person("ann", os.path.join(self.place, "ann"))
        os.makedirs(ann.folder)
        ann.pj("init")
        pauses = 0

        def pause() -> None:
            nonlocal pauses
            pauses += 1
            if pauses == 3:
                held.close()

        held = open_kept(os.fsencode(ann.path(".pj/repository")))
        with mock.patch.object(workspace, "_pause", pause):
            ann.write("f", POEM)
            ann.pj("record", "-m", "first")
            self.assertEqual(pauses, 3)
            held = open_kept(os.fsencode(ann.path(".pj/repository")))
            pauses = 3
            ann.write("f", "more\n" + POEM)
            told = ann.pj("record", "-m", "second", status=1)
        self.assertIn("status 8", told)
        self.assertEqual(pauses, 3 + workspace.TRIES - 1)
        held.close()

    def test_a_program_without_keep_is_told(self) -> None:
        with mock.patch.dict(os.environ, {"PIJULD": shutil.which("false") or "/bin/false"}):
            told = run("ann", self.place, "init", "x")
        self.assertEqual(told.status, 1)
        self.assertFalse(os.path.exists(os.path.join(self.place, "x")), told)
        with open(os.path.join(self.place, "old"), "w", encoding="utf-8") as file:
            file.write("#!/bin/sh\nexit 2\n")
        os.chmod(file.name, 0o755)
        with mock.patch.dict(os.environ, {"PIJULD": file.name}):
            told = run("ann", self.place, "init", "x")
        self.assertIn("no command `keep`", told.error)

    def test_a_file_that_is_no_repository_is_told(self) -> None:
        ann = Person("ann", os.path.join(self.place, "ann"))
        os.makedirs(ann.folder)
        ann.pj("init")
        with open(os.path.join(self.place, "broken"), "w", encoding="utf-8") as file:
            file.write("#!/bin/sh\necho 'pijuld: journal' >&2\nexit 7\n")
        os.chmod(file.name, 0o755)
        with mock.patch.dict(os.environ, {"PIJULD": file.name}):
            told = ann.pj("log", status=1)
        self.assertIn("pijuld: journal (status 7)\nits file is no repository", told)


if __name__ == "__main__":
    unittest.main()
