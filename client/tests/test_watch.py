"""`pj watch`: how a server is, for people and for Prometheus."""

from __future__ import annotations

import os
import re
import subprocess
import sys
import tempfile
import unittest
import urllib.request
from importlib.util import find_spec

from support import PJ, Case, Server, run
from pj.watch import File, State, Watch, look, told

CHANGE = (
    b"pijul change 1\nmessage A\nauthor ann\ntime 1\nfile root a.txt\n"
    b"insert 0.1 after 0.1 before - 6\none\ntw\nend\n"
)
NAME = "4fdb5ea24421e6566f44e8d89fdde3a1c382dbec6da2808f7c88bcaf8b62d12e"
NOWHERE = "unix:/nonexistent/pijuld.sock"


class Watching(Case):
    def setUp(self) -> None:
        super().setUp()
        self.own = Server()
        self.addCleanup(self.own.end)
        session = self.own.session()
        session.ask("new", "a")
        session.put_and_apply("a", [(NAME, CHANGE)])
        session.close()

    def test_what_is_found(self) -> None:
        with tempfile.NamedTemporaryFile() as file:
            file.write(b"x" * 123)
            file.flush()
            state = look(self.own.address, "a", file.name)
        self.assertEqual((state.why, state.place), (None, 3))
        self.assertEqual(state.channels, {"main": 0, "a": 1})
        self.assertEqual(set(state.seconds), {"log", "print"})
        assert state.file
        self.assertEqual(state.file.size, 123)
        self.assertGreater(state.file.room, 0)
        self.assertEqual(look(self.own.address, "none").seconds, {})

    def test_once(self) -> None:
        done = run("ann", "/", "watch", self.own.address, "--once", "--channel", "a")
        text = done.out.decode()
        self.assertEqual(done.status, 0)
        self.assertIn(f"{self.own.address} answers: 3 accepted requests, 2 channels\n", text)
        self.assertIn("\n  a: 1 change\n", text)
        self.assertRegex(text, r"\nprint of a took [0-9.]+ seconds\n")
        done = run("ann", "/", "watch", NOWHERE, "--once")
        self.assertEqual((done.status, done.out), (1, b""))
        self.assertIn("does not answer", done.error)
        self.assertEqual(run("ann", "/", "watch", "nowhere", "--once").status, 2)

    @unittest.skipUnless(find_spec("prometheus_client"), "prometheus_client is not installed")
    def test_metrics(self) -> None:
        words = [sys.executable, PJ, "watch", self.own.address, "--listen", "127.0.0.1:0"]
        words += ["--channel", "a", "--every", "0"]
        watch = subprocess.Popen(words, stderr=subprocess.PIPE, text=True)
        try:
            assert watch.stderr
            found = re.search(r"http://127\.0\.0\.1:\d+/metrics", watch.stderr.readline())
            assert found
            rows = self.metrics(found[0])
            self.assertEqual(rows["pijuld_up"], 1)
            self.assertEqual(rows["pijuld_journal_entries"], 3)
            self.assertEqual(rows["pijuld_channels"], 2)
            self.assertEqual(rows['pijuld_changes{channel="a"}'], 1)
            self.assertIn('pijuld_request_seconds{channel="a",request="print"}', rows)
            self.own.end()
            rows = self.metrics(found[0])
            self.assertEqual(rows, {"pijuld_up": 0})
        finally:
            watch.kill()
            watch.wait()
            assert watch.stderr
            watch.stderr.close()

    def metrics(self, where: str) -> "dict[str, float]":
        """What stands at an address, by names with their labels."""
        with urllib.request.urlopen(where) as page:
            lines = page.read().decode().splitlines()
        rows = (line.rsplit(" ", 1) for line in lines if not line.startswith("#"))
        return {name: float(value) for name, value in rows}


class Asking(unittest.TestCase):
    def test_a_server_is_asked_at_most_so_often(self) -> None:
        asked = []

        def ask() -> State:
            asked.append(None)
            return State("h:1", "main", place=len(asked))

        seldom = Watch(ask, 1e9)
        self.assertEqual([seldom.state().place for _ in range(3)], [1, 1, 1])
        always = Watch(ask, 0)
        self.assertEqual([always.state().place for _ in range(2)], [2, 3])

    def test_what_people_are_told(self) -> None:
        state = State("h:1", "main", place=1, channels={"main": 1}, file=File(1000, 2000))
        lines = ["h:1 answers: 1 accepted request, 1 channel", "  main: 1 change"]
        file = "the file has 1,000 bytes, with room for 2,000"
        self.assertEqual(told(state), [*lines, file])
        off = told(state._replace(why="it is off"))
        self.assertEqual(off, ["h:1 does not answer: it is off", file])


if __name__ == "__main__":
    os.environ.setdefault("PJ_AUTHOR", "ann")
    unittest.main()
