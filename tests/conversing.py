#!/usr/bin/env python3
"""Sessions over sockets whose bytes come in pieces, and what came back of each.

A session may end before all was sent, as behind a `quit`. What is sent then makes the system reset
the connection, and what the server wrote and the client had not yet got is lost.
"""
from __future__ import annotations

import random
import select
import socket
import struct
import time
from typing import Iterable, List, NamedTuple, Optional

PATIENCE = 120  # seconds
STARTING = 20  # seconds until a server listens


class Session(NamedTuple):
    """What was sent over a connection, and what came back."""

    sent: bytes
    came: bytes
    # whether all that was sent came to the server, and all that came back was read
    whole: bool


def connect(port: int) -> socket.socket:
    """A connection that sends each piece by itself, to a server that may just have been started."""
    end = time.monotonic() + STARTING
    while True:
        try:
            connection = socket.create_connection(("127.0.0.1", port), timeout=PATIENCE)
        except ConnectionRefusedError:
            if time.monotonic() > end:
                raise
            time.sleep(0.05)
            continue
        connection.setsockopt(socket.IPPROTO_TCP, socket.TCP_NODELAY, 1)
        return connection


def reset(connection: socket.socket) -> None:
    """Ends a connection so that the server's next call on it fails."""
    connection.setsockopt(socket.SOL_SOCKET, socket.SO_LINGER, struct.pack("ii", 1, 0))
    connection.close()


def received(connection: socket.socket, came: List[bytes]) -> Optional[bool]:
    """Reads once; tells whether more may come, or None where the connection was reset."""
    try:
        came.append(connection.recv(1 << 16))
    except ConnectionResetError:
        return None
    return came[-1] != b""


def sent(connection: socket.socket, piece: bytes) -> bytes:
    """What is left of a piece after one call; nothing where the server has closed the connection."""
    try:
        return piece[connection.send(piece):]
    except (BrokenPipeError, ConnectionResetError):
        return b""


def converse(port: int, pieces: Iterable[bytes], pause: float = 0.0) -> Session:
    """Sends the pieces with a pause behind each, reads meanwhile, and then reads to the end."""
    came: List[bytes] = []
    told = []
    with connect(port) as connection:
        connection.setblocking(False)
        poll = select.poll()
        poll.register(connection, select.POLLIN | select.POLLOUT)
        more: Optional[bool] = True
        for piece in pieces:
            told.append(piece)
            while piece and more:
                events = poll.poll(PATIENCE * 1000)
                assert events, "a piece cannot be sent"
                if events[0][1] & ~select.POLLOUT:
                    more = received(connection, came)
                if events[0][1] & select.POLLOUT:
                    piece = sent(connection, piece)
            if pause:
                time.sleep(pause)
        whole = is_read(connection, more, came)
    return Session(b"".join(told), b"".join(came), whole)


def is_read(connection: socket.socket, more: Optional[bool], came: List[bytes]) -> bool:
    """Says that nothing more is sent, and reads; tells whether the end was reached and not a reset."""
    connection.settimeout(PATIENCE)
    try:
        connection.shutdown(socket.SHUT_WR)
    except OSError:
        pass  # the server has closed it
    while more:
        more = received(connection, came)
    return more is not None


def cut(data: bytes, places: Iterable[int]) -> List[bytes]:
    """The data in pieces that end at these places."""
    at = [0, *sorted(set(places)), len(data)]
    return [data[begin:end] for begin, end in zip(at, at[1:]) if begin < end]


def drawn_pieces(draw: random.Random, data: bytes) -> List[bytes]:
    """The data in one piece, in some, or, where it is short, in pieces of one byte."""
    kind = draw.randrange(8)
    if kind == 0 and len(data) < 2000:
        return cut(data, range(len(data)))
    if kind < 4 and data:
        return cut(data, (draw.randrange(len(data)) for _ in range(draw.randrange(1, 20))))
    return [data]
