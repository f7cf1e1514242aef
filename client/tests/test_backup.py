"""The file of a kept repository: read to where it breaks, and copied while it is in use."""

from __future__ import annotations

import os
import subprocess
import threading
import unittest
from hashlib import sha256
from io import BytesIO
from typing import List
from unittest import mock

from support import MODEL, PROGRAM, Case, Person, run
from pj.kept import Broken, entries, word_of
from pj.workspace import open_kept

# The example of docs/FORMATS.md, spelled out: a change, and its application.
TEXT = (
    b"pijul change 1\nmessage A\nauthor ann\ntime 1\nfile root a.txt\n"
    b"insert 0.1 after 0.1 before - 6\none\ntw\nend\n"
)
NAME = b"4fdb5ea24421e6566f44e8d89fdde3a1c382dbec6da2808f7c88bcaf8b62d12e"
PUT, APPLY = b"put 102\n" + TEXT + b"\n", b"apply main " + NAME + b"\n"
SECOND, END = 128, 213  # where its second entry begins, and its closed gate
COPIES = 8  # of a file in use


def stored(*strings: bytes) -> bytes:
    """A file that stores these strings."""
    rows = [b"\1" + len(data).to_bytes(8, "big") + data for data in strings]
    return b"pijulj1\n" + b"".join(rows) + b"\0"


EXAMPLE = stored(PUT, APPLY)


class Files(Case):
    def file(self, data: bytes, name: str = "repository") -> str:
        """A file with these bytes."""
        path = os.path.join(self.place, name)
        with open(path, "wb") as file:
            file.write(data)
        return path

    def bytes_of(self, name: str) -> bytes:
        """The bytes of a file."""
        with open(os.path.join(self.place, name), "rb") as file:
            return file.read()

    def tell(self, *words: str, status: int = 0) -> str:
        """What a command says, which has to have this status."""
        told = run("ann", self.place, *words)
        self.assertEqual(told.status, status, told)
        return told.out.decode() + told.error


class Check(Files):
    def check(self, data: bytes, status: int = 0) -> str:
        """What `pj check` says of a file with these bytes, which stays as it is."""
        self.file(data)
        told = self.tell("check", "repository", status=status)
        self.assertEqual(self.bytes_of("repository"), data)
        return told

    def test_the_example_of_the_formats(self) -> None:
        self.assertEqual((len(TEXT), len(EXAMPLE)), (102, 214))
        told = self.check(EXAMPLE)
        self.assertEqual(told, "repository: 2 requests, each whole (1 apply, 1 put)\n")

    def test_a_file_that_is_cut_breaks_where_it_is_cut(self) -> None:
        for length in range(10, len(EXAMPLE)):
            number, at = (1, 8) if length < SECOND else (2, SECOND) if length < END else (3, END)
            with self.assertRaises(Broken) as broken:
                list(entries(BytesIO(EXAMPLE[:length])))
            self.assertIn(f"entry {number}, at byte {at}: the file ends", str(broken.exception))
        told = self.check(EXAMPLE[:-9], status=1)
        self.assertIn("breaks at entry 2, at byte 128: the file ends within it", told)
        self.assertIn("1 request before it is whole", told)

    def test_a_file_of_at_most_nine_bytes_stores_nothing(self) -> None:
        for data in (*(EXAMPLE[:length] for length in range(10)), b"no header"):
            self.assertIn("no request yet", self.check(data))

    def test_what_stands_behind_the_closed_gate_does_not_count(self) -> None:
        told = self.check(stored(PUT) + b"\0\0\0rest")
        self.assertIn("1 request, each whole", told)
        self.assertIn("7 bytes behind them", told)

    def test_any_other_gate_is_open(self) -> None:
        other = EXAMPLE[:SECOND] + b"\x80" + EXAMPLE[SECOND + 1 :]
        self.assertIn("2 requests", self.check(other))

    def test_another_header(self) -> None:
        told = self.check(b"pijulj2\n" + EXAMPLE[8:], status=1)
        self.assertIn("does not begin with the header", told)

    def test_a_length_out_of_bounds(self) -> None:
        for count in (0, 16_777_231, (1 << 64) - 1):
            data = EXAMPLE[:SECOND] + b"\1" + count.to_bytes(8, "big") + APPLY + b"\0"
            self.assertIn("entry 2, at byte 128: its length is", self.check(data, status=1))

    def test_a_string_that_enters_nothing(self) -> None:
        for string in (
            b"get " + NAME + b"\n", b"print main\n", b"log main\n", b"graph main\n", b"channels\n",
            b"journal\n", b"quit\n", b"inverse " + NAME + b"\n", b"new\n", b"new a b\n",
            b"new a", b"new a\nnew b\n", b"new  a\n", b"new a/b\n", b"new " + b"a" * 65 + b"\n",
            APPLY.upper(), APPLY[:-2] + b"\n", b"put 103\n" + TEXT + b"\n",
            b"put 0102\n" + TEXT + b"\n", PUT[:-1] + b"x", b"put 16777217\n", b"\0",
        ):
            told = self.check(stored(PUT, string, APPLY), status=1)
            self.assertIn("entry 2, at byte 128: it is no whole request", told, string)

    def test_each_request_that_enters(self) -> None:
        for string, word in (
            (b"put 0\n\n", "put"), (b"put 3\n\n\0\xff\n", "put"), (b"new a.b-C_9\n", "new"),
            (b"new " + b"a" * 64 + b"\n", "new"), (b"fork main side\n", "fork"),
            (b"drop side\n", "drop"), (APPLY, "apply"), (b"pull side main\n", "pull"),
            (b"unrecord side " + NAME + b"\n", "unrecord"),
            (b"uproot side " + NAME + b"\n", "uproot"),
        ):
            self.assertEqual(word_of(string), word)

    def test_no_file_a_pipe_and_a_folder(self) -> None:
        self.assertIn("nothing: No such file", self.tell("check", "nothing", status=1))
        os.mkfifo(os.path.join(self.place, "pipe"))
        self.assertIn("no regular file", self.tell("check", "pipe", status=1))
        self.assertIn("no working folder", self.tell("check", ".", status=2))
        self.person("bob")
        self.assertIn(f"is at {self.server.address}", self.tell("check", "bob", status=1))


class Backup(Files):
    def test_a_copy_is_the_whole_entries(self) -> None:
        os.chmod(self.file(EXAMPLE + b"unfinished"), 0o640)
        self.assertIn("copy: 2 requests, 214 bytes", self.tell("backup", "repository", "copy"))
        self.assertEqual(self.bytes_of("copy"), EXAMPLE)
        self.assertEqual(os.stat(os.path.join(self.place, "copy")).st_mode & 0o027, 0)
        self.assertEqual(sorted(os.listdir(self.place)), ["copy", "repository"])

    def test_a_copy_of_nothing_is_an_empty_repository(self) -> None:
        self.file(b"")
        self.tell("backup", "repository", "copy")
        self.assertEqual(self.bytes_of("copy"), b"pijulj1\n\0")

    def test_nothing_is_written_over(self) -> None:
        self.file(EXAMPLE)
        for name in ("copy", "copy.new"):
            path = self.file(b"mine", name)
            told = self.tell("backup", "repository", "copy", status=1)
            self.assertIn(f"{name} is there already", told)
            self.assertEqual(self.bytes_of(name), b"mine")
            os.unlink(path)
        self.assertIn("is there already", self.tell("backup", "repository", "repository", status=1))
        self.assertIn("is a folder", self.tell("backup", "repository", ".", status=2))
        self.assertEqual(os.listdir(self.place), ["repository"])
        self.assertEqual(self.bytes_of("repository"), EXAMPLE)

    def test_a_file_that_breaks_is_copied_only_where_that_was_asked(self) -> None:
        broken = EXAMPLE[:-30]
        self.file(broken)
        told = self.tell("backup", "repository", "copy", status=1)
        self.assertIn("breaks at entry 2, at byte 128", told)
        self.assertEqual(os.listdir(self.place), ["repository"])
        told = self.tell("backup", "--whole", "repository", "copy", status=1)
        self.assertIn("copy: 1 request, 129 bytes", told)
        self.assertIn("breaks at entry 2, at byte 128", told)
        self.assertEqual(self.bytes_of("copy"), stored(PUT))
        self.assertEqual(self.bytes_of("repository"), broken)


@unittest.skipIf(PROGRAM == MODEL, "the program is not built, and the model keeps files of its own")
class Opened(Files):
    """What the program says of the same files."""

    def setUp(self) -> None:
        super().setUp()
        patch = mock.patch.dict(os.environ, {"PIJULD": PROGRAM})
        patch.start()
        self.addCleanup(patch.stop)

    def log(self, name: str) -> List[str]:
        """What the channel `main` of a kept file holds."""
        session = open_kept(os.fsencode(os.path.join(self.place, name)))
        try:
            return session.log("main")
        finally:
            session.close()

    def test_it_breaks_for_the_program_where_it_breaks_here(self) -> None:
        cuts = [EXAMPLE[:length] for length in (0, 8, 9, 10, 100, 127, 128, 129, 212, 213, 214)]
        others = [stored(), stored(PUT, b"quit\n"), stored(b"channels\n"), stored(b"new a")]
        for data in (*cuts, *others, EXAMPLE + b"rest", b"pijulj2\n" + EXAMPLE[8:]):
            path = self.file(data)
            here = run("ann", self.place, "check", "repository").status
            done = subprocess.run(
                [PROGRAM, "keep", path], input=b"quit\n", check=False,
                stdout=subprocess.DEVNULL, stderr=subprocess.DEVNULL,
            )
            self.assertEqual(done.returncode, 7 if here else 0, data)

    def test_the_copy_of_a_folder_opens(self) -> None:
        ann = Person("ann", os.path.join(self.place, "ann"))
        os.makedirs(ann.folder)
        ann.pj("init")
        for number in range(3):
            ann.write("f", f"{number}\n" * 9)
            ann.pj("record", "-m", f"text {number}")
        told = self.tell("check", "ann")
        self.assertIn("6 requests, each whole (3 apply, 3 put)", told)
        self.tell("backup", "ann", "copy")
        self.assertEqual(self.log("copy"), self.log("ann/.pj/repository"))
        self.assertEqual(len(self.log("copy")), 3)

    def test_copies_of_a_file_in_use_open(self) -> None:
        session = open_kept(os.fsencode(os.path.join(self.place, "repository")))
        names: List[str] = []

        def work() -> None:
            for number in range(100):
                text = TEXT.replace(b"time 1\n", b"time %d\n" % number)
                session.ask("put", str(len(text)), text=text)
                names.append(sha256(text).hexdigest())
                session.ask("apply", "main", names[-1])

        worker = threading.Thread(target=work)
        worker.start()
        for number in range(COPIES):
            self.tell("backup", "repository", f"copy{number}")
        worker.join()
        session.close()
        self.tell("backup", "repository", "last")
        counts = []
        for number in range(COPIES):
            log = self.log(f"copy{number}")
            self.assertEqual(log, names[: len(log)])
            counts.append(len(log))
        self.assertEqual(counts, sorted(counts))
        self.assertEqual((self.log("last"), len(names)), (names, 100))


if __name__ == "__main__":
    unittest.main()
