"""Addresses `tls://HOST:PORT`: TCP under TLS 1.3, where both sides show certificates.

The folder that `PJ_TLS` names, else `pj/tls` of the user's configuration, has files in PEM:

    authority.pem      who signs the certificates of servers; without it, whom the system trusts
    certificate.pem    what is shown to a server that asks, with all up to its authority
    key.pem            its key, where the certificate's file has none
"""

from __future__ import annotations

import os
import socket
import ssl
import sys
import threading
from typing import Tuple

from .sockets import Carried, open_tcp

PIECE = 1 << 16
LAST = 2.0  # seconds for the last bytes of a session to go out


def folder() -> str:
    """Where the certificates are."""
    own = os.environ.get("XDG_CONFIG_HOME") or os.path.expanduser("~/.config")
    return os.environ.get("PJ_TLS") or os.path.join(own, "pj", "tls")


def context() -> ssl.SSLContext:
    """Whom to trust, and what to show."""
    authority, certificate, key = (
        os.path.join(folder(), f"{name}.pem") for name in ("authority", "certificate", "key")
    )
    found = ssl.create_default_context(cafile=authority if os.path.exists(authority) else None)
    found.minimum_version = ssl.TLSVersion.TLSv1_3
    if os.path.exists(certificate):
        found.load_cert_chain(certificate, key if os.path.exists(key) else None)
    return found


def open_tls(host: str, port: int) -> socket.socket:
    """A connection to a server whose certificate is in order; what the server thinks of ours it
    says later."""
    trust = context()
    far = open_tcp(host, port)
    try:
        layer = Layer(trust, host)
        layer.greet(far)
    except BaseException:
        far.close()
        raise
    near, own = _pair()
    threads = [
        threading.Thread(target=work, args=(layer, own, far), daemon=True) for work in (_out, _back)
    ]
    for thread in threads:
        thread.start()

    def end() -> None:
        threads[0].join(LAST)
        far.close()

    near.ends_with(end)
    return near


def _pair() -> Tuple[Carried, socket.socket]:
    one, other = socket.socketpair()
    return Carried(fileno=one.detach()), other


class Layer:
    """A session of TLS apart from its socket, for two threads: one sends, one receives."""

    def __init__(self, trust: ssl.SSLContext, host: str):
        self.came, self.goes = ssl.MemoryBIO(), ssl.MemoryBIO()
        self.session = trust.wrap_bio(self.came, self.goes, server_hostname=host)
        self.lock = threading.Lock()

    def greet(self, far: socket.socket) -> None:
        """The handshake."""
        while True:
            try:
                self.session.do_handshake()
                done = True
            except ssl.SSLWantReadError:
                done = False
            finally:
                far.sendall(self.goes.read())
            if done:
                return
            self._take(far.recv(PIECE))

    def sealed(self, data: bytes) -> bytes:
        """What to send for these bytes; for none, what says that no more come."""
        with self.lock:
            if data:
                self.session.write(data)
            else:
                try:
                    self.session.unwrap()
                except ssl.SSLError:
                    pass  # the server goes on: its own end has not come
            return self.goes.read()

    def opened(self, data: bytes) -> Tuple[bytes, bool]:
        """The bytes that stand in what came, and whether more may come."""
        with self.lock:
            self._take(data)
            found = bytearray()
            while True:
                try:
                    piece = self.session.read(PIECE)
                except ssl.SSLWantReadError:
                    return bytes(found), True
                except ssl.SSLZeroReturnError:
                    piece = b""
                if not piece:
                    return bytes(found), False
                found += piece

    def _take(self, data: bytes) -> None:
        if data:
            self.came.write(data)
        else:
            self.came.write_eof()


def _out(layer: Layer, own: socket.socket, far: socket.socket) -> None:
    """Sends what the client says, until it ends."""
    try:
        while True:
            data = own.recv(PIECE)
            far.sendall(layer.sealed(data))
            if not data:
                return
    except OSError:
        pass  # the server has ended the session, which the replies show


def _back(layer: Layer, own: socket.socket, far: socket.socket) -> None:
    """Hands the client what comes, until that ends."""
    try:
        more = True
        while more:
            data, more = layer.opened(far.recv(PIECE))
            own.sendall(data)
    except ssl.SSLError as fault:
        print(f"pj: the session ended: {fault.reason or fault}", file=sys.stderr, flush=True)
    except OSError:
        pass  # the client has ended the session, or the server broke it off
    try:
        own.shutdown(socket.SHUT_WR)
    except OSError:
        pass
