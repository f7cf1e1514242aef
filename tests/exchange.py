#!/usr/bin/env python3
"""Exchanges drawn channels between two real servers, by a client of its own.

`exchange.py PROGRAM COUNT` starts PROGRAM twice as a server and draws COUNT
channels, each with other changes in another lawful order on the two. A client
asks for both logs, takes what the first server lacks and gives what the second
lacks, in the order of the logs. In most cases it stops before that, once, behind
a drawn number of replies. Afterwards each log has to be its old one with what
was lacking behind it, and print and graph have to be those that the set of
changes has by `judged.py`. Replies are read by `replies.py`. The exit status is
0 where all of it is so.
"""
from __future__ import annotations

import random
import sys
from typing import Dict, List, NamedTuple, Optional, Tuple

import judged
import replies
from replay import change_name
from serve import Client, Server, put

SESSIONS = 4  # of a channel on each server: it is filled, exchanged in part, exchanged, and looked at


class Stopped(Exception):
    """The client has read as many replies as it was to."""


class Peer:
    """A session with a server, whose replies an independent reader reads."""

    def __init__(self, server: Server, replies_left: List[int]) -> None:
        self.connection = server.connect()
        self.replies_left = replies_left

    def ask(self, request: bytes, due: replies.Due) -> bytes:
        """The reply to a request, behind which nothing comes."""
        if self.replies_left[0] == 0:
            raise Stopped
        self.replies_left[0] -= 1
        self.connection.sendall(request)
        came = b""
        while True:
            piece = self.connection.recv(1 << 16)
            assert piece, f"the session ended at {came!r}"
            came += piece
            kind, count = replies.first(due, came)
            assert kind != "strange", (request, came)
            if kind == "whole":
                assert count == len(came), "bytes behind a reply"
                return came

    def body(self, request: bytes, due: replies.Due) -> bytes:
        line, _, behind = self.ask(request, due).partition(b"\n")
        assert line.startswith(b"ok "), (request, line)
        return behind[:-1]

    def log(self, channel: bytes) -> List[bytes]:
        return self.body(b"log %s\n" % channel, replies.LOG).splitlines()

    def text(self, name: bytes) -> bytes:
        text = self.body(b"get %s\n" % name, replies.GET)
        assert change_name(text) == name, "a text of another name"
        return text

    def add(self, channel: bytes, name: bytes, text: bytes) -> None:
        """Stores a change, where it is not stored, and applies it to a channel that lacks it."""
        stored = self.ask(put(text), replies.Due("put", name))
        assert stored.startswith(b"ok "), stored
        applied = self.ask(b"apply %s %s\n" % (channel, name), replies.APPLY).split()
        assert applied[0] == b"ok" and len(applied) == 2, applied

    def quit(self) -> None:
        self.connection.sendall(b"quit\n")
        assert self.connection.recv(1) == b"", "bytes behind the last reply"


def lacked(mine: List[bytes], theirs: List[bytes]) -> List[bytes]:
    """What the second list has and the first has not, in the order of the second."""
    return [name for name in theirs if name not in mine]


def exchange(here: Server, there: Server, channel: bytes, most: int) -> Optional[Tuple[int, int]]:
    """How many changes were taken and given; None where it stopped behind so many replies."""
    left = [most]
    own, other = Peer(here, left), Peer(there, left)
    try:
        mine, theirs = own.log(channel), other.log(channel)
        take, give = lacked(mine, theirs), lacked(theirs, mine)
        for name in take:
            own.add(channel, name, other.text(name))
        for name in give:
            other.add(channel, name, own.text(name))
        own.quit()
        other.quit()
        return len(take), len(give)
    except Stopped:
        return None
    finally:
        own.connection.close()
        other.connection.close()


# ---- channels


class Channel(NamedTuple):
    """A channel with the lists of both servers."""

    name: bytes
    mine: List[bytes]
    theirs: List[bytes]


def applicable(changes: List[judged.Known]) -> Dict[bytes, judged.Known]:
    """The changes that hold wherever their needs do, and whose needs are among them."""
    known: Dict[bytes, judged.Known] = {}
    for one in changes:
        if one.holds and all(need in known for need in one.needs):
            known[one.name] = one
    return known


def lawful(draw: random.Random, known: Dict[bytes, judged.Known], count: int) -> List[bytes]:
    """So many changes and their needs, each behind those, in a drawn order."""
    wanted, found = list(draw.sample(sorted(known), count)), []
    while wanted:
        name = wanted[-1]
        needs = [need for need in known[name].needs if need not in found]
        if needs:
            wanted.append(draw.choice(needs))
        else:
            wanted.pop()
            if name not in found:
                found.append(name)
    return found


def drawn(draw: random.Random, known: Dict[bytes, judged.Known], number: int) -> Channel:
    """A channel; of the first four one list or both are empty, or both are the same."""
    most = min(20, len(known))
    mine = lawful(draw, known, draw.randrange(1, most))
    theirs = lawful(draw, known, draw.randrange(1, most))
    lists = {0: ([], []), 1: ([], theirs), 2: (mine, []), 3: (mine, mine)}.get(number, (mine, theirs))
    return Channel(b"c%d" % number, *lists)


def fill(server: Server, known: Dict[bytes, judged.Known], channel: bytes, names: List[bytes]) -> None:
    client = Client(server.connect())
    client.entered(b"new %s\n" % channel)
    for name in names:
        client.send(put(known[name].text))
        words = client.line()
        assert words[0] == b"ok" and words[-1] == name, words
        client.entered(b"apply %s %s\n" % (channel, name))
    client.send(b"quit\n")
    client.close()


def look(server: Server, channel: bytes) -> Tuple[List[bytes], bytes, bytes]:
    """The log, the print and the graph."""
    client = Client(server.connect())
    log, printed, graph = (client.body(b"%s %s\n" % (verb, channel))[1] for verb in (b"log", b"print", b"graph"))
    client.send(b"quit\n")
    client.close()
    return log.splitlines(), printed, graph


def case(here: Server, there: Server, known: Dict[bytes, judged.Known], channel: Channel, most: int) -> bool:
    """Exchanges a channel, and looks at it; tells whether it stopped before. `most` is behind how many replies."""
    name, mine, theirs = channel
    fill(here, known, name, mine)
    fill(there, known, name, theirs)
    first = exchange(here, there, name, most)
    again = exchange(here, there, name, sys.maxsize)
    take, give = lacked(mine, theirs), lacked(theirs, mine)
    if first is not None:
        assert (first, again) == ((len(take), len(give)), (0, 0)), (first, again)
    changes = [known[change] for change in mine + take]
    for server, log in (here, mine + take), (there, theirs + give):
        assert look(server, name) == (log, judged.printed(changes), judged.graph(changes)), f"the channel {name!r}"
    return first is None


def main(program: str, count: int) -> int:
    draw = random.Random(20261202)
    known = applicable(judged.pool(57, 90))
    channels = [drawn(draw, known, number) for number in range(count)]
    here, there = (Server(program, SESSIONS * count, 2) for _ in range(2))
    stopped = 0
    try:
        for channel in channels:
            replies_due = 2 + 3 * len(lacked(channel.mine, channel.theirs) + lacked(channel.theirs, channel.mine))
            most = draw.randrange(replies_due) if draw.randrange(4) else replies_due
            stopped += case(here, there, known, channel, most)
        assert here.status() == there.status() == (0, b""), "the status of a server"
    finally:
        here.end()
        there.end()
    assert 0 < stopped < count, "all exchanges stopped, or none did"
    print(f"{count} channels are equal, {stopped} of them after an exchange that stopped")
    return 0


if __name__ == "__main__":
    sys.exit(main(sys.argv[1], int(sys.argv[2])))
