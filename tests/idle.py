#!/usr/bin/env python3
"""Silent clients of a real server, sockets of this machine, and the line that says where a server listens.

    idle.py PROGRAM

It starts servers of its own with `PROGRAM serve`, over TCP and at paths of a folder of its own. Nothing is asserted of how
long anything takes but that it comes to an end. The last line is 'N passed, N failed'.
"""
from __future__ import annotations

import contextlib
import os
import socket
import stat
import subprocess
import sys
import tempfile
from pathlib import Path
from typing import Callable, Iterator, List, Tuple

PATIENCE = 60.0  # seconds for anything that has to come to an end
IDLE = "1"  # seconds of silence that the servers of these cases allow
ASKED = b"channels\nquit\n"
ANSWERED = b"ok 0 7\nmain 0\n\n"
LINE = "pijuld: listening at "
TOP = Path(__file__).resolve().parent.parent


class Server:
    """A server of the program, and the address that it said it listens at."""

    def __init__(self, program: str, address: str, sessions: int, workers: int, *options: str) -> None:
        words = [program, "serve", address, "--sessions", str(sessions), "--workers", str(workers), *options]
        self.process = subprocess.Popen(
            words, bufsize=0, stdin=subprocess.DEVNULL, stdout=subprocess.PIPE, stderr=subprocess.PIPE)
        assert self.process.stderr
        line = self.process.stderr.readline().decode()
        self.address = line[len(LINE):-1] if line.startswith(LINE) and line.endswith("\n") else None
        self.first = line

    def connect(self) -> socket.socket:
        """A connection whose calls do not wait for ever."""
        assert self.address, f"it said {self.first!r}"
        if self.address.startswith("unix:"):
            connection = socket.socket(socket.AF_UNIX)
            connection.settimeout(PATIENCE)
            connection.connect(self.address[len("unix:"):])
            return connection
        host, _, port = self.address.rpartition(":")
        return socket.create_connection((host.strip("[]"), int(port)), PATIENCE)

    def answers(self, requests: bytes = ASKED) -> bytes:
        """What a client that ends its session gets."""
        with self.connect() as connection:
            connection.sendall(requests)
            return received(connection)

    def status(self) -> Tuple[int, bytes]:
        """The exit status once all sessions have ended, and what it said behind the first line."""
        _, said = self.process.communicate(timeout=PATIENCE)
        return self.process.returncode, said


@contextlib.contextmanager
def served(program: str, address: str, sessions: int, workers: int, *options: str) -> Iterator[Server]:
    """A server that is ended at the end."""
    server = Server(program, address, sessions, workers, *options)
    try:
        yield server
    finally:
        if server.process.poll() is None:
            server.process.kill()
        server.process.communicate()


def received(connection: socket.socket) -> bytes:
    """All that comes until the connection ends or is reset."""
    got: List[bytes] = []
    with contextlib.suppress(ConnectionResetError):
        while True:
            piece = connection.recv(65536)
            if not piece:
                break
            got.append(piece)
    return b"".join(got)


def put_of(size: int) -> bytes:
    """A request that stores a text with so many bytes of a file."""
    text = b"pijul change 1\nmessage m\nauthor ann\ntime 1\nfile root a\ninsert 0.1 after 0.1 before - %d\n" % size
    text += b"x" * size + b"\nend\n"
    return b"put %d\n%s\n" % (len(text), text)


# ---- silence, over TCP and at a path


def each_kind(program: str, address: str) -> None:
    """A client that sends nothing, one that sends half a request, and one that never reads: each session is ended for it."""
    for sent in (b"", b"chan", b"put 1000\npijul change 1\n", b"channels\n"):
        with served(program, address, 2, 1, "--idle", IDLE) as server:
            with server.connect() as silent:
                silent.sendall(sent)
                wanted = ANSWERED if sent == b"channels\n" else b""
                assert received(silent) == wanted, sent
            assert server.answers() == ANSWERED, sent
            assert server.status() == (3, b"pijuld: read fault\n"), sent


def never_read(program: str, address: str) -> None:
    """A client that asks for much and reads nothing ends by a fault of its sink."""
    with served(program, address, 2, 1, "--idle", IDLE) as server:
        with server.connect() as deaf:
            name = stored_name(deaf, put_of(1_000_000))
            with contextlib.suppress(OSError):
                deaf.sendall((b"get %s\n" % name) * 64)
            assert server.answers().startswith(b"ok 1 "), "the next client"
        assert server.status() == (4, b"pijuld: write fault\n")


def stored_name(connection: socket.socket, request: bytes) -> bytes:
    """Stores a change, and gives its name."""
    connection.sendall(request)
    line = b""
    while not line.endswith(b"\n"):
        piece = connection.recv(1)
        assert piece, line
        line += piece
    words = line.split()
    assert words[:2] == [b"ok", b"1"], line
    return words[2]


def case_silence_over_tcp(program: str, room: Path) -> None:
    """Silent clients over TCP."""
    each_kind(program, "127.0.0.1:0")
    never_read(program, "127.0.0.1:0")


def case_silence_at_a_path(program: str, room: Path) -> None:
    """Silent clients of a socket of this machine."""
    each_kind(program, f"unix:{room}/s")
    never_read(program, f"unix:{room}/s")


def case_more_silent_clients_than_workers(program: str, room: Path) -> None:
    """Six silent clients of two workers: those behind them are answered, and each silent one is let go."""
    silent, others = 6, 4
    with served(program, "127.0.0.1:0", silent + others, 2, "--idle", IDLE) as server:
        with contextlib.ExitStack() as stack:
            held = [stack.enter_context(server.connect()) for _ in range(silent)]
            for _ in range(others):
                assert server.answers() == ANSWERED
            assert [received(connection) for connection in held] == [b""] * silent
        assert server.status() == (3, b"pijuld: read fault\n")


def case_no_limit(program: str, room: Path) -> None:
    """With `--idle 0`, and where nothing is said, a client that is silent for longer than another server's limit goes on."""
    for options in (["--idle", "0"], []):
        with served(program, "127.0.0.1:0", 1, 1, *options) as server, server.connect() as slow:
            with served(program, "127.0.0.1:0", 1, 1, "--idle", IDLE) as other, other.connect() as silent:
                slow.sendall(b"chan")
                assert received(silent) == b""
                assert other.status() == (3, b"pijuld: read fault\n")
            slow.sendall(b"nels\nquit\n")
            assert received(slow) == ANSWERED
            assert server.status() == (0, b"")


def case_words(program: str, room: Path) -> None:
    """Which seconds and which modes are words of the command; nothing listens for others."""
    for options in (["--idle", "86401"], ["--idle", "01"], ["--idle", "-1"], ["--idle", "x"], ["--idle"],
                    ["--mode", "0600"], ["--mode", "60"], ["--mode", "608"], ["--mode", "+77"], ["--mode", ""],
                    ["--idle", "1", "--idle", "1"]):
        done = refused(program, f"unix:{room}/s", *options)
        assert done == (2, b"", b"pijuld: words\n"), (options, done)
        assert not (room / "s").exists(), options
    for options in (["--idle", "86400"], ["--idle=0"], ["--mode=777"], ["--idle", "7", "--mode", "600"]):
        with served(program, f"unix:{room}/s", 1, 1, *options) as server:
            assert server.answers() == ANSWERED, options
            assert server.status() == (0, b""), options


def refused(program: str, address: str, *options: str) -> Tuple[int, bytes, bytes]:
    """How a server that has to end at once ended."""
    words = [program, "serve", address, "--sessions", "1", "--workers", "1", *options]
    done = subprocess.run(words, stdin=subprocess.DEVNULL, stdout=subprocess.PIPE, stderr=subprocess.PIPE,
                          timeout=PATIENCE, check=False)
    return done.returncode, done.stdout, done.stderr


# ---- where a server listens


def case_the_line(program: str, room: Path) -> None:
    """The line has the port that port 0 got, or the path; the client of tools/ takes what it says."""
    for address in ("127.0.0.1:0", "localhost:0", f"unix:{room}/s"):
        with served(program, address, 2, 1) as server:
            assert server.address and not server.address.endswith(":0"), server.first
            if address.startswith("unix:"):
                assert server.address == address
            assert server.answers() == ANSWERED
            words = [sys.executable, str(TOP / "tools" / "pj"), server.address, "channels"]
            done = subprocess.run(words, stdout=subprocess.PIPE, stderr=subprocess.PIPE, timeout=PATIENCE, check=False)
            assert (done.returncode, done.stdout, done.stderr) == (0, ANSWERED, b""), done
            assert server.status() == (0, b"")


def case_no_standard_error(program: str, room: Path) -> None:
    """A standard error that is closed keeps nobody from being served."""
    words = [program, "serve", f"unix:{room}/s", "--sessions", "1", "--workers", "1"]
    process = subprocess.Popen(["sh", "-c", 'exec "$@" 2>&-', "sh", *words],
                               stdin=subprocess.DEVNULL, stdout=subprocess.DEVNULL)
    try:
        words = [sys.executable, str(TOP / "tools" / "pj"), f"unix:{room}/s", "channels"]
        done = subprocess.run(words, stdout=subprocess.PIPE, stderr=subprocess.PIPE, timeout=PATIENCE, check=False)
        assert (done.returncode, done.stdout) == (0, ANSWERED), done
        assert process.wait(PATIENCE) == 0
    finally:
        process.kill()
        process.wait()


def mode_of(path: Path) -> int:
    """The mode of a file."""
    return stat.S_IMODE(path.stat().st_mode)


def case_mode(program: str, room: Path) -> None:
    """The file of a socket has the mode 0600, or the one that is said, whatever the umask is, and is removed at the end."""
    for umask in (0o000, 0o077):
        before = os.umask(umask)
        try:
            for options, wanted in (([], 0o600), (["--mode", "660"], 0o660), (["--mode", "777"], 0o777)):
                with served(program, f"unix:{room}/s", 1, 1, *options) as server:
                    assert server.address, server.first
                    assert stat.S_ISSOCK((room / "s").stat().st_mode)
                    assert mode_of(room / "s") == wanted, (options, oct(mode_of(room / "s")))
                    assert mode_of(room / "s.lock") & 0o077 == 0
                    assert server.answers() == ANSWERED
                    assert server.status() == (0, b"")
                assert list(room.iterdir()) == [], "what is left"
        finally:
            os.umask(before)


def case_one_that_nobody_listens_at_is_replaced(program: str, room: Path) -> None:
    """The socket of a server that was killed, and one that another program left."""
    with served(program, f"unix:{room}/s", 1, 1) as killed:
        assert killed.address
        killed.process.kill()
        killed.process.wait()
        assert (room / "s").exists()
        with served(program, f"unix:{room}/s", 1, 1) as server:
            assert server.answers() == ANSWERED
            assert server.status() == (0, b"")
    with socket.socket(socket.AF_UNIX) as left:
        left.bind(f"{room}/s")
    with served(program, f"unix:{room}/s", 1, 1) as server:
        assert server.answers() == ANSWERED
        assert server.status() == (0, b"")
    assert list(room.iterdir()) == []


def case_two_servers(program: str, room: Path) -> None:
    """A second server at a path is refused, and takes none of the sessions of the first one."""
    with served(program, f"unix:{room}/s", 1, 1) as server:
        assert server.address
        for _ in range(3):
            assert refused(program, f"unix:{room}/s") == (3, b"", b"pijuld: read fault\n")
        assert server.answers() == ANSWERED
        assert server.status() == (0, b"")
    assert list(room.iterdir()) == []


def case_what_is_not_its_own_stays(program: str, room: Path) -> None:
    """A socket at which another program listens, a file, a folder and a link: refused, and as they were."""
    with socket.socket(socket.AF_UNIX) as other:
        other.bind(f"{room}/s")
        other.listen(8)
        assert refused(program, f"unix:{room}/s") == (3, b"", b"pijuld: read fault\n")
        with socket.socket(socket.AF_UNIX) as client:
            client.connect(f"{room}/s")
    (room / "s").unlink()
    (room / "file").write_bytes(b"text\n")
    (room / "folder").mkdir()
    (room / "link").symlink_to(room / "file")
    for name in ("file", "folder", "link"):
        assert refused(program, f"unix:{room}/{name}") == (3, b"", b"pijuld: read fault\n"), name
    assert sorted(it.name for it in room.iterdir()) == ["file", "folder", "link"]
    assert (room / "file").read_bytes() == b"text\n"
    assert (room / "folder").is_dir() and (room / "link").is_symlink()


def case_paths_that_are_none(program: str, room: Path) -> None:
    """No path, one that is longer than the system takes, and one in a folder that is not there."""
    for path in ("", f"{room}/" + "x" * 200, f"{room}/none/s"):
        assert refused(program, f"unix:{path}") == (3, b"", b"pijuld: read fault\n"), path
    assert list(room.iterdir()) == []


def main(program: str) -> int:
    """Runs all cases, each in a folder of its own."""
    cases: List[Tuple[str, Callable[[str, Path], None]]] = [
        (name, case) for name, case in sorted(globals().items()) if name.startswith("case_")]
    failed = 0
    for name, case in cases:
        with tempfile.TemporaryDirectory(prefix="pj-") as room:
            try:
                case(program, Path(room))
            except Exception as fault:  # each case is told, whatever went wrong in it
                failed += 1
                print(f"FAILED {name}: {type(fault).__name__}: {fault}")
    print(f"{len(cases) - failed} passed, {failed} failed")
    return int(failed != 0)


if __name__ == "__main__":
    if len(sys.argv) != 2:
        sys.exit(__doc__)
    sys.exit(main(sys.argv[1]))
