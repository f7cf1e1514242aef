"""Connections over TCP and over sockets of this machine, and those that something else carries."""

from __future__ import annotations

import socket
import time
import weakref
from typing import Callable

PATIENCE = 5.0  # seconds for a server that was just started to listen


def open_unix(path: str) -> socket.socket:
    """A connection to a socket of this machine."""
    return patiently(lambda: reach(socket.socket(socket.AF_UNIX), path))


def open_tcp(host: str, port: int) -> socket.socket:
    """A connection over TCP."""
    found = patiently(lambda: socket.create_connection((host, port)))
    found.setsockopt(socket.IPPROTO_TCP, socket.TCP_NODELAY, 1)
    return found


def reach(found: socket.socket, path: str) -> socket.socket:
    """This socket, connected to the one at a path; it is closed where that fails."""
    try:
        found.connect(path)
    except BaseException:
        found.close()
        raise
    return found


def patiently(attempt: Callable[[], socket.socket]) -> socket.socket:
    """What an attempt gives, which is made again for `PATIENCE` where nobody listens yet."""
    end = time.monotonic() + PATIENCE
    while True:
        try:
            return attempt()
        except (ConnectionRefusedError, FileNotFoundError):
            if time.monotonic() > end:
                raise
            time.sleep(0.05)


class Carried(socket.socket):
    """A connection whose bytes something else carries, which ends once this is closed."""

    _end: Callable[[], object] = staticmethod(lambda: None)

    def ends_with(self, end: Callable[[], object]) -> None:
        """What is to be done behind the close, or at the end of this program."""
        self._end = weakref.finalize(self, end)

    def close(self) -> None:
        """Closes it, and ends what carries its bytes."""
        super().close()
        self._end()
