"""The raw form of `pj`: requests to a server as they are typed.

  pj ADDRESS put FILE       stores the change whose text FILE has (`-`: standard input)
  pj ADDRESS REQUEST ..     sends one request, as `apply main HEX` or `print main`
  pj ADDRESS                sends standard input, as it is

ADDRESS is HOST:PORT, unix:PATH, tls://HOST:PORT or ssh://[USER@]HOST[:PORT]/PATH,
as docs/CLIENT.md says. Where the connection is refused, as before a server that
was just started listens, it tries again for up to 5 seconds. The replies are written as they come. The exit status is 0
where the connection ended behind a whole reply; 1 where there was none, where
one was cut, or where a refusal came to a request of the command line; and 2 for
other words, and where FILE could not be read or ADDRESS not be reached.
"""

from __future__ import annotations

import socket
import sys
import threading
from typing import BinaryIO, Iterable, List, Optional, Sequence

from .addresses import FORMS, Lost, connect, is_address

PIECE = 65536


def is_raw(words: Sequence[str]) -> bool:
    """Whether these are words of the raw form."""
    return bool(words) and (":" in words[0] or words[0].startswith("unix:"))


def request(words: Sequence[str]) -> bytes:
    """The bytes of the request that these words ask for."""
    if words[0] == "put":
        if len(words) != 2:
            raise ValueError("put wants one FILE, as in: pj ADDRESS put FILE")
        if words[1] == "-":
            change = sys.stdin.buffer.read()
        else:
            with open(words[1], "rb") as text:
                change = text.read()
        return b"put %d\n%s\n" % (len(change), change)
    return " ".join(words).encode() + b"\n"


def send(connection: socket.socket, pieces: Iterable[bytes]) -> None:
    """Sends pieces as they come, and then no more."""
    try:
        for piece in pieces:
            connection.sendall(piece)
        connection.shutdown(socket.SHUT_WR)
    except OSError:
        pass  # the server has ended the session, which the replies show


def write(piece: bytes) -> None:
    """Writes a piece of a reply at once."""
    sys.stdout.buffer.write(piece)
    sys.stdout.buffer.flush()


def body_length(words: Sequence[bytes]) -> int:
    """How many bytes stand behind the line of a reply, the newline behind a body among them."""
    # the name of a change has 64 digits, which may be decimal, and a length has fewer
    if words[0] == b"ok" and len(words) == 3 and words[2].isdigit() and len(words[2]) < 64:
        return int(words[2]) + 1
    return 0


def reply(stream: BinaryIO) -> Optional[bytes]:
    """Writes the next reply as it comes, and gives its first word; none where no reply comes."""
    line = stream.readline()
    if not line:
        return None
    write(line)
    if not line.endswith(b"\n"):
        raise ValueError("the connection ended within a reply")
    words = line[:-1].split(b" ")
    if words[0] not in (b"ok", b"no"):
        raise ValueError("what came is no reply")
    last, left = line, body_length(words)
    while left:
        last = stream.read1(min(left, PIECE))  # type: ignore[attr-defined]
        if not last:
            raise ValueError("the connection ended within a reply")
        write(last)
        left -= len(last)
    if not last.endswith(b"\n"):
        raise ValueError("no newline ends the body of a reply")
    return words[0]


def main(words: Sequence[str]) -> int:
    """Speaks with a server, and gives the exit status."""
    if not is_raw(words) or words[1:] in (["--help"], ["-h"]):
        print(__doc__, end="", file=sys.stderr)
        return 2
    if not is_address(words[0]):
        print(f"pj: {words[0]} is no address: give {FORMS}", file=sys.stderr)
        return 2
    try:
        asked = request(words[1:]) if words[1:] else None
        connection = connect(words[0])
    except (ValueError, OSError, Lost) as fault:
        print(f"pj: {fault}", file=sys.stderr)
        return 2
    if asked is None:
        pieces = iter(lambda: sys.stdin.buffer.read1(PIECE), b"")  # type: ignore[attr-defined]
        threading.Thread(target=send, args=(connection, pieces), daemon=True).start()
    else:
        send(connection, [asked + b"quit\n"])
    stream = connection.makefile("rb")
    firsts: List[bytes] = []
    try:
        while True:
            first = reply(stream)
            if first is None:
                break
            firsts.append(first)
    except (ValueError, OSError) as fault:
        print(f"pj: {fault}", file=sys.stderr)
        return 1
    if not firsts:
        print(
            "pj: the session ended without a reply, as it does behind bytes that are no request",
            file=sys.stderr,
        )
    return 0 if set(firsts) == {b"ok"} or (asked is None and firsts) else 1
