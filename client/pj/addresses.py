"""Addresses of servers: the forms that they have, and a connection to each.

    HOST:PORT                          TCP
    unix:PATH                          a socket of this machine
    tls://HOST:PORT                    TCP under TLS, with certificates (tls.py)
    ssh://[USER@]HOST[:PORT]/PATH      a socket of another machine, through ssh (ssh.py)

A connection is a plain socket, whatever the address is.
"""

from __future__ import annotations

import socket
from typing import Callable, Optional, Tuple

from . import ssh, tls
from .sockets import open_tcp, open_unix

FORMS = "HOST:PORT, unix:PATH, tls://HOST:PORT or ssh://HOST/PATH"


class Lost(Exception):
    """A server cannot be reached, or a session ended where a reply was due, or broke the rules."""

    def __init__(self, why: str, hint: str = "see that the server runs, and try again"):
        super().__init__(why)
        self.hint = hint


def is_address(word: str) -> bool:
    """Whether a word is the address of a server."""
    return _opener(word) is not None


def connect(address: str) -> socket.socket:
    """A connection to an address."""
    opener = _opener(address)
    if opener is None:
        raise Lost(f"{address} is no address", f"give {FORMS}")
    try:
        return opener()
    except OSError as fault:
        raise Lost(f"{address} cannot be reached: {fault}") from None


def _opener(word: str) -> Optional[Callable[[], socket.socket]]:
    """What opens a connection to this address; None where it is none."""
    if word.startswith("unix:"):
        path = word[len("unix:") :]
        return (lambda: open_unix(path)) if path else None
    if word.startswith("ssh://"):
        target = ssh.read(word)
        return (lambda: ssh.open_ssh(target)) if target else None
    if word.startswith("tls://"):
        place = host_and_port(word[len("tls://") :])
        return (lambda: tls.open_tls(*place)) if place else None
    place = host_and_port(word)
    return (lambda: open_tcp(*place)) if place else None


def host_and_port(word: str) -> Optional[Tuple[str, int]]:
    """HOST:PORT, where an address of the sixth version of IP stands in brackets."""
    host, _, port = word.rpartition(":")
    host = host.strip("[]")
    if not host or "/" in host or not (port.isascii() and port.isdigit()) or int(port) > 65535:
        return None
    return host, int(port)
