#!/usr/bin/env python3
"""A small server that stands in for the program where it is not built.

    model.py one | keep PATH | serve ADDRESS --sessions N --workers W

It answers the requests of docs/FORMATS.md from a journal in memory, with `keep`
also in a file, which it does not sync. It trusts contexts, has no limits and no
`graph`, and it prints as the client reads; so it shows that the client agrees
with itself, and the program alone shows that it agrees with a server.
"""

from __future__ import annotations

import socketserver
import sys
import threading
from typing import BinaryIO, Callable, Dict, List, Optional

import support  # noqa: F401  (finds the package)
from pj.text import About, Change, Insert, Make, Malformed, Name, Range, positions, spell
from pj.view import View

WRITES = ("put", "new", "fork", "drop", "apply", "unrecord", "uproot", "pull")


class No(Exception):
    """A refusal, with its reason."""


class Repository:
    """Changes, channels and how many writes were entered."""

    def __init__(self) -> None:
        self.store: Dict[str, Change] = {}
        self.channels: Dict[str, List[str]] = {"main": []}
        self.place = 0
        self.lock = threading.Lock()

    def answer(self, words: List[str], text: bytes) -> bytes:
        """The reply to one request."""
        with self.lock:
            try:
                told = getattr(self, words[0])(*words[1:], **({"text": text} if text else {}))
            except No as why:
                return f"no {self.place} {why}\n".encode()
            if isinstance(told, bytes):
                return b"ok %d %d\n%s\n" % (self.place, len(told), told)
            if "already" not in told:
                self.place += 1
            return f"ok {self.place}{' ' if told else ''}{told}\n".encode()

    def _channel(self, name: str) -> List[str]:
        if name not in self.channels:
            raise No("channel")
        return self.channels[name]

    def _change(self, name: str) -> Change:
        if name not in self.store:
            raise No("change")
        return self.store[name]

    def put(self, count: str, text: bytes = b"") -> str:
        try:
            change = Change(text)
        except Malformed:
            raise No("malformed") from None
        if change.name in self.store:
            return "already " + change.name
        self.store[change.name] = change
        return change.name

    def get(self, name: str) -> bytes:
        return self._change(name).text

    def new(self, name: str) -> str:
        if name in self.channels:
            raise No("taken")
        self.channels[name] = []
        return ""

    def fork(self, source: str, name: str) -> str:
        there = self._channel(source)
        self.new(name)
        self.channels[name] = list(there)
        return ""

    def drop(self, name: str) -> str:
        self._channel(name)
        del self.channels[name]
        return ""

    def apply(self, channel: str, name: str) -> str:
        names, change = self._channel(channel), self._change(name)
        if name in names:
            return "already"
        for need in change.needs:
            if need not in names:
                raise No(f"needs {need}")
        names.append(name)
        return ""

    def unrecord(self, channel: str, name: str) -> str:
        names = self._channel(channel)
        self._change(name)
        if name not in names:
            raise No("absent")
        for other in sorted(names):
            if name in self.store[other].needs:
                raise No(f"held {other}")
        names.remove(name)
        return ""

    def uproot(self, channel: str, name: str) -> str:
        names, gone = self._channel(channel), {name}
        if name not in names:
            raise No("absent")
        for other in names:
            if gone & set(self.store[other].needs):
                gone.add(other)
        self.channels[channel] = [other for other in names if other not in gone]
        return ""

    def pull(self, channel: str, other: str) -> str:
        names, there = self._channel(channel), self._channel(other)
        names += [name for name in there if name not in set(names)]
        return ""

    def log(self, channel: str) -> bytes:
        return "".join(name + "\n" for name in self._channel(channel)).encode()

    def print(self, channel: str) -> bytes:
        view = View(self.store[name] for name in self._channel(channel))
        out: List[bytes] = []
        for entry in view.tree.entries:
            word, path = entry.word.encode(), entry.path
            if entry.again or entry.kind == "dir":
                out.append(b"%s %s %s\n" % (b"same" if entry.again else b"dir", word, path))
                continue
            kind, data = b"exec" if entry.executable else b"file", view.text(entry.inode)
            out.append(b"%s %s %d %s\n%s\n" % (kind, word, len(data), path, data))
        return b"".join(out)

    def inverse(self, name: str) -> bytes:
        change = self._change(name)
        hunks: List[Range] = []
        for number, (hunk, place) in enumerate(zip(change.hunks, change.places)):
            if isinstance(hunk, (Make, Name, Insert)):
                count = positions(hunk) if isinstance(hunk, Insert) else 1
                hunks.append(Range("delete", name, place, place + count, (name,)))
            elif isinstance(hunk, Range) and hunk.word == "delete" and hunk.by == (hunk.owner,):
                hunks.append(Range("revive", hunk.owner, hunk.start, hunk.end, (name,)))
            else:
                raise No(f"inverse {number}")
        needs = {name} | {hunk.owner for hunk in hunks}
        about = About(b"inverse " + name.encode(), change.author, change.time)
        text = spell(about, "", sorted(needs), [], hunks)
        return text.replace(b"pijul change 1\n", b"pijul change 2\n", 1)


def read_request(stream: BinaryIO) -> "tuple[List[str], bytes, bytes]":
    """The next request: its words, the text of a `put`, and all its bytes."""
    line = stream.readline()
    words = line.decode("ascii", "replace").split()
    if words and words[0] == "put":
        text = stream.read(int(words[1]) + 1)
        return words, text[:-1], line + text
    return words, b"", line


def speak(
    repository: Repository,
    stream: BinaryIO,
    sink: BinaryIO,
    entered: Optional[Callable[[bytes], None]] = None,
) -> None:
    """One session."""
    while True:
        words, text, raw = read_request(stream)
        if not words or words[0] == "quit":
            return
        if words[0] == "channels":
            rows = (f"{name} {len(held)}\n" for name, held in sorted(repository.channels.items()))
            body = "".join(rows).encode()
            told = b"ok %d %d\n%s\n" % (repository.place, len(body), body)
        else:
            told = repository.answer(words, text)
        if entered and words[0] in WRITES and told.startswith(b"ok") and b" already" not in told:
            entered(raw)
        sink.write(told)
        sink.flush()


def keep(path: str) -> None:
    """A session on standard streams over a journal in a file."""
    repository = Repository()
    with open(path, "ab+") as file:
        file.seek(0)
        words, text, _ = read_request(file)
        while words:
            repository.answer(words, text)
            words, text, _ = read_request(file)

        def entered(raw: bytes) -> None:
            file.write(raw)
            file.flush()

        speak(repository, sys.stdin.buffer, sys.stdout.buffer, entered)


def serve(address: str) -> None:
    """Sessions over a socket."""
    repository = Repository()

    class Handler(socketserver.StreamRequestHandler):
        wbufsize = 1 << 16

        def handle(self) -> None:
            try:
                speak(repository, self.rfile, self.wfile)  # type: ignore[arg-type]
            except OSError:
                pass

    class Server(socketserver.ThreadingTCPServer):
        allow_reuse_address = daemon_threads = True
        request_queue_size = 128

    host, _, port = address.rpartition(":")
    with Server((host, int(port)), Handler) as server:
        print(f"pijuld: listening at {host}:{server.server_address[1]}", file=sys.stderr, flush=True)
        server.serve_forever()


def main(words: List[str]) -> int:
    """Does what the words of the program ask for."""
    if words == ["one"]:
        speak(Repository(), sys.stdin.buffer, sys.stdout.buffer)
    elif len(words) == 2 and words[0] == "keep":
        keep(words[1])
    elif len(words) > 1 and words[0] == "serve":
        serve(words[1])
    else:
        print("pijuld: words", file=sys.stderr)
        return 2
    return 0


if __name__ == "__main__":
    sys.exit(main(sys.argv[1:]))
