"""What comes from outside: texts of changes, replies of servers, names that would be paths."""

from __future__ import annotations

import glob
import io
import os
import socket
import unittest
from hashlib import sha256
from typing import List
from unittest import mock

from support import TOP, Case, run
from pj.addresses import is_address
from pj.exchange import Place, exchange
from pj.paths import Node, spoken
from pj.say import one_line
from pj.text import About, Change, Malformed, printable, spell
from pj.update import Unwritable, _writable
from pj.wire import Connection, Lost, Refused, Session

TEXT = (
    b"pijul change 1\nmessage A\nauthor ann\ntime 1\nfile root a.txt\n"
    b"insert 0.1 after 0.1 before - 6\none\ntw\nend\n"
)
NAME = "4fdb5ea24421e6566f44e8d89fdde3a1c382dbec6da2808f7c88bcaf8b62d12e"


class Silence(unittest.TestCase):
    def test_a_server_that_says_nothing_is_given_up(self) -> None:
        with socket.create_server(("127.0.0.1", 0)) as server:
            with mock.patch("pj.wire.SILENCE", 0.2):
                session = Connection("127.0.0.1:%d" % server.getsockname()[1])
            self.addCleanup(session.close)
            with self.assertRaises(Lost):
                session.ask("channels")


class Texts(unittest.TestCase):
    def test_the_example_of_the_formats(self) -> None:
        change = Change(TEXT)
        self.assertEqual((change.name, change.places), (NAME, [0, 2, 8]))
        self.assertEqual(change.data(3, 6), b"ne\n")

    def test_each_example_is_spelled_as_it_is_read(self) -> None:
        paths = [path for path in glob.glob(os.path.join(TOP, "examples", "*.change"))
                 if not path.endswith("malformed.change")]
        self.assertGreater(len(paths), 5)
        for path in paths:
            with open(path, "rb") as file:
                text = file.read()
            change = Change(text)
            about = About(change.message, change.author, change.time)
            again = spell(about, change.name, change.needs, change.knows, change.hunks)
            self.assertEqual(again, text, path)

    def test_what_is_no_text_is_refused(self) -> None:
        for text in (
            b"", b"pijul change 1\n", TEXT[:-1], TEXT[:60], TEXT.replace(b"change 1", b"change 3"),
            TEXT.replace(b"time 1", b"time x"), TEXT.replace(b"insert 0.1", b"insert 7.1"),
            TEXT.replace(b"insert", b"inzert"), TEXT.replace(b" 6\n", b" 600\n"),
        ):
            with self.assertRaises(Malformed, msg=text):
                Change(text)

    def test_names_that_would_leave_the_folder_are_refused(self) -> None:
        for name in (b"..", b".", b"a/b", b"/etc", b"a\0b", b"", b"x" * 256):
            with self.assertRaises(Malformed, msg=name):
                Change(TEXT.replace(b"a.txt", name))
        for path in (b".pj", b".PJ/config", b"a/.pj/config", b"a/.Git/hooks/x", b"x" * 5000):
            with self.assertRaises(Unwritable, msg=path):
                _writable(b"/here", path, True)
        _writable(b"/here", b"a/b~c", True)


class Replies(unittest.TestCase):
    def session(self, replies: bytes) -> Session:
        """A session with a server that says this."""
        return Session(io.BytesIO(), io.BytesIO(replies))  # type: ignore[arg-type]

    def test_what_is_no_reply(self) -> None:
        for replies in (
            b"", b"ok", b"hello\n", b"ok x 3\nabc\n", b"ok 1\n", b"ok 1 5\nab\n", b"\xff\n", b"\n",
            b"ok 1 99999999999999999\nab", b"ok 1 -5\nab", b"ok -1 2\nab\n",
        ):
            with self.assertRaises(Lost, msg=replies):
                self.session(replies).log("main")

    def test_refusals_have_their_words(self) -> None:
        with self.assertRaises(Refused) as caught:
            self.session(b"no 7 needs " + NAME.encode() + b"\n").ask("apply", "main", NAME)
        self.assertEqual(caught.exception.words, ["needs", NAME])
        with self.assertRaises(Refused) as caught:
            self.session(b"no memory\n").ask("log", "main")
        self.assertEqual(caught.exception.reason, "memory")

    def test_a_text_of_another_name_is_not_taken(self) -> None:
        good = b"ok 1 %d\n%s\n" % (len(TEXT), TEXT)
        self.assertEqual(self.session(good).get([NAME])[0].text, TEXT)
        for text in (TEXT.replace(b"one", b"two"), b"no change at all"):
            with self.assertRaises(Lost):
                self.session(b"ok 1 %d\n%s\n" % (len(text), text)).get([NAME])

    def test_addresses(self) -> None:
        for word, known in (("127.0.0.1:7777", True), ("[::1]:80", True), ("unix:/tmp/x", True),
                            ("host", False), ("host:", False), (":80", False), ("h:99999", False),
                            ("unix:", False), ("h:8x", False), ("[]:80", False),
                            ("ssh://h/run/x.sock", True), ("ssh://ann@h.example:22/x", True),
                            ("ssh://[::1]:2222/x", True), ("ssh://h:99999/x", False),
                            ("ssh://-oProxyCommand=x/x", False), ("ssh://h/a b", False),
                            ("ssh://h/$HOME/x", False), ("ssh://h", False), ("ssh://h/", False),
                            ("tls://h:7778", True), ("tls://[::1]:7778", True),
                            ("tls://h", False), ("tls://:1", False), ("tls://h/x:1", False)):
            self.assertEqual(is_address(word), known, word)

    def test_what_people_read_holds_no_control_bytes(self) -> None:
        self.assertEqual(spoken(b"a b"), "a b")
        self.assertEqual(spoken(b"a\x1b[31m"), '"a\\x1b[31m"')
        self.assertEqual(spoken(b"n\xff"), '"n\\xff"')
        self.assertEqual(printable(b"a\x1b[31m\xff"), "a?[31m\ufffd")
        self.assertEqual(one_line("x" * 99), "x" * 69 + "...")
        self.assertEqual(Node("dir"), Node("dir", False, b""))


class Hostile(Case):
    def change(self, needs: List[str], hunks: List[bytes]) -> bytes:
        """The text of a change by hand."""
        rows = [b"pijul change 1", b"message m", b"author eve", b"time 1"]
        rows += [b"needs " + need.encode() for need in sorted(needs)]
        return b"\n".join([*rows, *hunks, b"end"]) + b"\n"

    def put(self, text: bytes) -> str:
        """Stores a change, and applies it to the channel of the test."""
        session = self.server.session()
        name = sha256(text).hexdigest()
        session.put_and_apply(self.channel, [(name, text)])
        session.close()
        return name

    def test_a_channel_with_a_path_of_the_client(self) -> None:
        ann = self.person("ann")
        ann.write("f", "f\n")
        ann.pj("record", "-m", "first")
        name = self.put(self.change([], [b"dir root .pj", b"file 0.1 config"]))
        told = ann.pj("pull", status=1)
        self.assertIn("reserved for pj", told)
        self.assertIn(name[:12], told)
        self.assertEqual(sorted(ann.files()), [b"f"])
        ann.pj("unrecord", name[:12])
        ann.write("f", "g\n")
        ann.pj("record", "-m", "second")

    def test_an_exchange_reads_each_text(self) -> None:
        text = self.change([], [b"file root x"])
        self.put(text)
        name = sha256(text).hexdigest()
        false = b"ok 1 65\n" + name.encode() + b"\n\nok 1 3\nabc\n"
        other = Session(io.BytesIO(), io.BytesIO(false))  # type: ignore[arg-type]
        session = self.server.session()
        session.ask("new", self.channel + "-e")
        with self.assertRaises(Lost):
            exchange(Place(session, self.channel + "-e"), Place(other, "main"))
        self.assertEqual(session.log(self.channel + "-e"), [])
        session.close()

    def test_no_server_is_there(self) -> None:
        ann = self.person("ann")
        ann.write("f", "f\n")
        ann.pj("record", "-m", "first")
        with open(ann.path(".pj/config"), encoding="utf-8") as file:
            config = file.read()
        ann.write(".pj/config", config.replace(self.server.address, "unix:/nonexistent/socket"))
        ann.write("f", "g\n")
        self.assertIn("changed  f", ann.pj("status"))
        told = ann.pj("record", "-m", "second", status=1)
        self.assertIn("cannot be reached", told)
        self.assertEqual(ann.read("f"), "g\n")
        self.assertEqual(run("ann", self.place, "clone", "--thin", "unix:/x", "main", "y").status, 1)


if __name__ == "__main__":
    unittest.main()
