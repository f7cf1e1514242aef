"""`pj mirror`: what comes to another server, what stays, and what happens at faults."""

from __future__ import annotations

import subprocess
import sys
import unittest
from hashlib import sha256
from typing import List, Optional, Set
from unittest import mock

from support import PJ, Case, Server, run
from pj import sockets
from pj.commands import mirror as command
from pj.mirror import LONGEST, behind, pause
from pj.watch import look, told

NOWHERE = "unix:/nonexistent/pijuld.sock"


def change(text: str, after: Optional[str] = None) -> bytes:
    """The text of a change that makes a file, or of one that needs another and makes a second."""
    rows = ["pijul change 1", f"message {text}", "author ann", "time 1"]
    rows += [f"needs {after}"] if after else []
    rows += [f"file root {text}"]
    rows += [f"insert 0.1 after 0.1 before - {len(text)}", text, "end"]
    return ("\n".join(rows) + "\n").encode()


class Mirroring(Case):
    def setUp(self) -> None:
        super().setUp()
        self.one, self.two = Server(), Server()
        self.addCleanup(self.one.end)
        self.addCleanup(self.two.end)

    def put(self, server: Server, channel: str, *texts: bytes) -> List[str]:
        """Puts changes into a channel, which is made where it is not there; their names."""
        session = server.session()
        if channel not in session.channels():
            session.ask("new", channel)
        names = [sha256(text).hexdigest() for text in texts]
        session.put_and_apply(channel, list(zip(names, texts)))
        session.close()
        return names

    def held(self, server: Server, channel: str) -> Set[str]:
        """The changes of a channel."""
        session = server.session()
        try:
            return set(session.log(channel))
        finally:
            session.close()

    def journal(self, server: Server) -> bytes:
        """The journal of a server."""
        session = server.session()
        try:
            return session.ask("journal").body
        finally:
            session.close()

    def test_it_takes_what_the_source_has(self) -> None:
        (first,) = self.put(self.one, "main", change("a"))
        (second,) = self.put(self.one, "main", change("b", first))
        (other,) = self.put(self.one, "side", change("c"))
        (own,) = self.put(self.two, "main", change("d"))
        self.put(self.two, "own", change("e"))
        before = self.journal(self.one)
        words = ("mirror", self.one.address, self.two.address, "--once", "--take")
        self.assertEqual(self.behind(), {"main": 2, "side": 1})
        done = run("ann", "/", *words)
        self.assertEqual((done.status, done.out), (0, b""))
        self.assertIn(f"2 changes came to main of {self.two.address}\n", done.error)
        self.assertEqual(self.held(self.two, "main"), {first, second, own})
        self.assertEqual(self.held(self.two, "side"), {other})
        self.assertEqual(self.journal(self.one), before)
        self.assertEqual(self.behind(), {"main": 0, "side": 0})
        after = self.journal(self.two)
        self.assertEqual(run("ann", "/", *words).error, "")
        self.assertEqual(self.journal(self.two), after)

    def test_both_ways(self) -> None:
        (first,) = self.put(self.one, "main", change("a"))
        (own,) = self.put(self.two, "main", change("b"))
        (other,) = self.put(self.two, "own", change("c"))
        words = ("mirror", self.one.address, self.two.address, "--once")
        done = run("ann", "/", *words)
        self.assertEqual(done.status, 0)
        for server in (self.one, self.two):
            self.assertEqual(self.held(server, "main"), {first, own})
            self.assertEqual(self.held(server, "own"), {other})

    def test_what_is_taken_out_stays_in_the_mirror(self) -> None:
        (first,) = self.put(self.one, "main", change("a"))
        words = ("mirror", self.one.address, self.two.address, "--once", "--take")
        run("ann", "/", *words)
        session = self.one.session()
        session.ask("unrecord", "main", first)
        session.close()
        self.assertEqual(run("ann", "/", *words).status, 0)
        self.assertEqual(self.held(self.two, "main"), {first})

    def test_a_fault_is_told(self) -> None:
        with mock.patch.object(sockets, "PATIENCE", 0.0):
            for words in ((self.one.address, NOWHERE), (NOWHERE, self.two.address)):
                done = run("ann", "/", "mirror", *words, "--once")
                self.assertEqual((done.status, done.out), (1, b""))
                self.assertIn(f"{NOWHERE} cannot be reached", done.error)
        self.assertEqual(run("ann", "/", "mirror", "nowhere", NOWHERE, "--once").status, 2)

    def test_pauses_grow_with_faults_and_end_with_them(self) -> None:
        slept: List[float] = []

        def sleep(seconds: float) -> None:
            slept.append(seconds)
            if len(slept) == 5:
                raise KeyboardInterrupt

        went = iter([True, False, False, False, True])
        with mock.patch.object(command.time, "sleep", sleep), mock.patch.object(
            command, "_round", lambda given: next(went)
        ):
            words = ("mirror", self.one.address, self.two.address, "--every", "3")
            self.assertEqual(run("ann", "/", *words).status, 1)
        self.assertEqual(slept, [3, 6, 12, 24, 3])

    def test_it_goes_on(self) -> None:
        words = [sys.executable, PJ, "mirror", self.one.address, self.two.address]
        process = subprocess.Popen([*words, "--take", "--every", "0.1"], stderr=subprocess.PIPE)
        try:
            assert process.stderr
            for text in ("a", "b"):
                (name,) = self.put(self.one, "main", change(text))
                self.assertIn(b"1 change came to main", process.stderr.readline())
                self.assertIn(name, self.held(self.two, "main"))
        finally:
            process.kill()
            process.wait()
            assert process.stderr
            process.stderr.close()

    def test_watch_tells_how_far_it_is_behind(self) -> None:
        self.put(self.one, "main", change("a"), change("b"))
        state = look(self.two.address, "main", of=self.one.address)
        self.assertEqual(state.behind, {"main": 2})
        self.assertIn(f"  main lacks 2 changes of {self.one.address}", told(state))
        with mock.patch.object(sockets, "PATIENCE", 0.0):
            state = look(self.two.address, "main", of=NOWHERE)
        self.assertEqual((state.why, state.behind), (None, None))
        self.assertIn(f"{NOWHERE} does not answer, so nobody knows what is lacking", told(state))

    def behind(self) -> "dict[str, int]":
        """What the second server lacks of the first."""
        one, two = self.one.session(), self.two.session()
        try:
            return behind(one, two)
        finally:
            one.close()
            two.close()


class Pauses(unittest.TestCase):
    def test_no_pause_is_longer_than_the_longest(self) -> None:
        self.assertEqual(pause(60, 0), 60)
        self.assertEqual(pause(60, 1), 120)
        self.assertEqual(pause(60, 10_000), LONGEST)
        self.assertEqual(pause(2 * LONGEST, 3), 2 * LONGEST)


if __name__ == "__main__":
    unittest.main()
