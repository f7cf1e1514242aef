"""What the tests share: where the package is, servers, and people with folders."""

from __future__ import annotations

import io
import os
import shutil
import socket
import subprocess
import sys
import tempfile
import unittest
from typing import Dict, List, NamedTuple, Optional

TOP = os.path.dirname(os.path.dirname(os.path.dirname(os.path.abspath(__file__))))
sys.path.insert(0, os.path.join(TOP, "client"))

from pj import cli, disk  # noqa: E402
from pj.paths import Folder  # noqa: E402
from pj.wire import Connection, Lost  # noqa: E402

BUILT = os.path.join(TOP, "crates", "pijuld", "out", "pijuld")
MODEL = os.path.join(os.path.dirname(os.path.abspath(__file__)), "model.py")
PROGRAM = os.environ.get("PIJULD") or (BUILT if os.access(BUILT, os.X_OK) else MODEL)
PJ = os.path.join(TOP, "tools", "pj")
SESSIONS = 60000  # more than any test has
PORTS = 3  # so many are tried for a server


def keeping_program() -> str:
    """The program, if it has `keep`; else the model."""
    with tempfile.TemporaryDirectory() as place:
        done = subprocess.run(
            [PROGRAM, "keep", os.path.join(place, "repository")], input=b"quit\n",
            stdout=subprocess.DEVNULL, stderr=subprocess.DEVNULL, check=False,
        )
    return MODEL if done.returncode == 2 else PROGRAM


class Server:
    """A server of the program at a port of its own."""

    def __init__(self, program: str = PROGRAM):
        for _ in range(PORTS):
            self._start(program)
            if self._listens():
                return
            self.end()
        raise RuntimeError("the server does not listen")

    def _start(self, program: str) -> None:
        """Starts it at a port that was free a moment ago; somebody may take that meanwhile."""
        with socket.socket() as probe:
            probe.bind(("127.0.0.1", 0))
            self.address = "127.0.0.1:%d" % probe.getsockname()[1]
        self.process = subprocess.Popen(
            [program, "serve", self.address, "--sessions", str(SESSIONS), "--workers", "4"],
            stdin=subprocess.DEVNULL, stdout=subprocess.DEVNULL, stderr=subprocess.DEVNULL,
        )

    def _listens(self) -> bool:
        """Waits until it listens; whether it does."""
        for _ in range(24):
            try:
                self.session().close()
                return self.process.poll() is None
            except Lost:  # after five seconds
                if self.process.poll() is not None:
                    return False
        return False

    def session(self) -> Connection:
        """A session of the test's own."""
        return Connection(self.address)

    def end(self) -> None:
        """Ends the server."""
        self.process.kill()
        self.process.wait()


class Told(NamedTuple):
    """What a command came to."""

    status: int
    out: bytes
    error: str


class Person:
    """A person with a folder, who types commands."""

    def __init__(self, name: str, folder: str):
        self.name, self.folder = name, folder

    def path(self, name: str) -> str:
        """The full path of a file of the folder."""
        return os.path.join(self.folder, name)

    def write(self, name: str, text: str, executable: bool = False) -> None:
        """Writes a file, with the directories above it."""
        os.makedirs(os.path.dirname(self.path(name)), exist_ok=True)
        with open(self.path(name), "w", encoding="utf-8", errors="surrogateescape") as file:
            file.write(text)
        os.chmod(self.path(name), 0o755 if executable else 0o644)

    def read(self, name: str) -> str:
        """The text of a file."""
        with open(self.path(name), encoding="utf-8", errors="surrogateescape") as file:
            return file.read()

    def files(self) -> Folder:
        """The folder as it stands on the disk."""
        return disk.scan(os.fsencode(self.folder)).folder

    def pj(self, *words: str, status: Optional[int] = 0) -> str:
        """Runs a command in the folder, which has to have this status; what it wrote."""
        told = self.tell(*words)
        shown = f"pj {' '.join(words)}: status {told.status}\n{told.out!r}\n{told.error}"
        assert status is None or told.status == status, shown
        return told.out.decode("utf-8", "surrogateescape") + told.error

    def tell(self, *words: str) -> Told:
        """Runs a command in the folder, within this process."""
        return run(self.name, self.folder, *words)

    def start(self, *words: str, **environment: str) -> Told:
        """Runs a command in the folder as a process of its own."""
        done = subprocess.run(
            [sys.executable, PJ, *words], cwd=self.folder, stdin=subprocess.DEVNULL,
            stdout=subprocess.PIPE, stderr=subprocess.PIPE, check=False,
            env={**os.environ, "PJ_AUTHOR": self.name, **environment},
        )
        return Told(done.returncode, done.stdout, done.stderr.decode(errors="replace"))


def run(author: str, folder: str, *words: str) -> Told:
    """Runs a command of the client within this process."""
    before, streams = os.getcwd(), (sys.stdout, sys.stderr, sys.stdin)
    out, error = io.TextIOWrapper(io.BytesIO()), io.TextIOWrapper(io.BytesIO())
    os.environ["PJ_AUTHOR"] = author
    os.chdir(folder)
    with open(os.devnull, encoding="utf-8") as nothing:
        sys.stdout, sys.stderr, sys.stdin = out, error, nothing
        try:
            status = cli.main(list(words))
        except SystemExit as ended:  # words that argparse refuses
            status = int(str(ended.code))
        finally:
            out.flush()
            error.flush()
            sys.stdout, sys.stderr, sys.stdin = streams
            os.chdir(before)
    return Told(status, out.buffer.getvalue(), error.buffer.getvalue().decode())  # type: ignore


class Case(unittest.TestCase):
    """A test with a server and a place on the disk of its own."""

    server: Server
    _servers: List[Server] = []

    @classmethod
    def setUpClass(cls) -> None:
        cls.server = Server()

    @classmethod
    def tearDownClass(cls) -> None:
        cls.server.end()

    def setUp(self) -> None:
        self.place = tempfile.mkdtemp(prefix="pj-test-")
        self.addCleanup(shutil.rmtree, self.place, ignore_errors=True)
        self.channel = f"t{self.id().rsplit('.', 1)[-1]}"[:60].replace("_", "-")
        session = self.server.session()
        if self.channel not in session.channels():
            session.ask("new", self.channel)
        session.close()
        self.people: Dict[str, Person] = {}

    def person(self, name: str, channel: Optional[str] = None) -> Person:
        """A person with a thin folder of the channel of the test, or of another one."""
        found = Person(name, os.path.join(self.place, name))
        told = run(name, self.place, "clone", "--thin", self.server.address,
                   channel or self.channel, found.folder)
        self.assertIn(told.status, (0, 1), told)
        return found
