#!/usr/bin/env python3
"""Clients that note the clock, and whether their replies keep its order.

No contract orders calls of different sessions by the clock, so this is tested:
where one reply had been read before another request was sent, its place is not
above that one's, and where that one is an entry of the journal, it is below.
Each reply is also what the journal says at its place. Together this is
linearizability, as Herlihy and Wing define it: entries stand by their places,
and every other reply behind the entry of its place, by the clock.

`real_time.py` alone tries the judge on histories that were made by hand.
"""
import concurrent.futures
import multiprocessing
import random
import socket
import sys
import threading
import time
from typing import Dict, List, NamedTuple, Optional, Tuple

import replay

PATIENCE = 60  # seconds
PROCESSES = 4  # of clients, so that they wait for each other less


class Told(NamedTuple):
    """A request, its whole reply, and the nanoseconds before the one was sent and after the other had been read."""

    client: int
    call: int
    sent: int
    read: int
    request: bytes
    reply: bytes

    @property
    def place(self) -> int:
        """The place that the reply numbers."""
        return int(self.reply.split(None, 2)[1])

    @property
    def entered(self) -> bool:
        """Whether the reply says that the request was entered."""
        words = self.reply.partition(b"\n")[0].split(b" ")
        if words[0] != b"ok" or b"already" in words:
            return False
        return len(words) == 2 or self.request.startswith(b"put ")


# ---- the judge


def breach(told: List[Told]) -> "Optional[Tuple[Told, Told]]":
    """Two replies of which the earlier has a place that it cannot have, if there are such."""
    by_read = sorted(told, key=lambda one: one.read)
    highest: Optional[Told] = None
    passed = 0
    for later in sorted(told, key=lambda one: one.sent):
        while passed < len(by_read) and by_read[passed].read < later.sent:
            if highest is None or highest.place < by_read[passed].place:
                highest = by_read[passed]
            passed += 1
        if highest is not None and highest.place + later.entered > later.place:
            return highest, later
    return None


def ordered_pairs(told: List[Told]) -> int:
    """How many pairs of different clients the clock orders."""
    moments = sorted([(one.read, 0, one.client) for one in told] + [(one.sent, -1, one.client) for one in told])
    read: Dict[int, int] = {}
    all_read = pairs = 0
    for _, kind, client in moments:
        if kind == 0:
            read[client] = read.get(client, 0) + 1
            all_read += 1
        else:
            pairs += all_read - read.get(client, 0)
    return pairs


def overlapping(told: List[Told]) -> int:
    """How many requests were sent while another client waited for its reply."""
    moments = sorted([(one.sent, 1) for one in told] + [(one.read, 0) for one in told])
    waiting = count = 0
    for _, begins in moments:
        count += begins and waiting > 0
        waiting += 1 if begins else -1
    return count


def answer(history: replay.Replay, place: int, request: bytes) -> bytes:
    """The reply at a place to a request that is not entered there."""
    store, channels = history.states[place]
    line, _, text = request.partition(b"\n")
    words = line.split(b" ")
    if words[0] == b"put":
        name = replay.change_name(text[:-1])
        assert name in store, "a text that is not stored is answered without an entry"
        return b"ok %d already %s\n" % (place, name)
    if words[0] == b"channels":
        body = b"".join(b"%s %d\n" % (name, len(changes)) for name, changes in sorted(channels.items()))
    elif words[1] not in channels:
        return b"no %d channel\n" % place
    elif words[0] == b"print":
        body = history.printed(place, words[1])
    elif words[0] == b"log":
        body = history.log(place, words[1])
    elif words[2] not in store:
        return b"no %d change\n" % place
    elif words[0] == b"apply":
        assert words[2] in channels[words[1]], "a change that can be applied is not entered"
        return b"ok %d already\n" % place
    else:
        assert words[0] == b"unrecord" and words[2] not in channels[words[1]], "a change that can be taken out is not"
        return b"no %d absent\n" % place
    return b"ok %d %d\n%s\n" % (place, len(body), body)


def judge(history: replay.Replay, told: List[Told]) -> None:
    """Sees that each reply is what the journal says at its place, and that the clock is kept."""
    passes: Dict[int, int] = {}
    for one in told:
        if one.entered:
            number, call, write = history.entry(one.place)
            assert passes.setdefault(one.client, number) == number, f"client {one.client} has two passes"
            line, _, text = one.request.partition(b"\n")
            name = replay.change_name(text[:-1]) if line.startswith(b"put ") else b""
            assert (call, write) == (one.call, b"put " + name if name else line), (one, write)
            assert one.reply == (b"ok %d %s\n" % (one.place, name) if name else b"ok %d\n" % one.place), one
        else:
            assert one.reply == answer(history, one.place, one.request), one
    assert len(set(passes.values())) == len(passes), "two clients have one pass"
    assert sum(one.entered for one in told) == len(history.entries), "an entry of nobody"
    broken = breach(told)
    assert broken is None, f"read before the other was sent, and has a place that is too high: {broken}"


# ---- the clients


def requests(client: int, seed: int, count: int) -> List[bytes]:
    """What a client asks: it stores changes of its own, brings them to channels and takes them out, and reads `main`."""
    draw = random.Random(seed * 1_000 + client)
    own = b"c%d" % client
    texts = [replay.change_text(b"%03d-%d.txt" % (client, number), b"text %d\n" % number) for number in range(4)]
    names = [replay.change_name(text) for text in texts]
    asked = [b"new %s\n" % own]
    while len(asked) < count:
        number = draw.randrange(len(texts))
        asked.append(draw.choice([
            b"put %d\n%s\n" % (len(texts[number]), texts[number]),
            b"apply main %s\n" % names[number],
            b"apply main %s\n" % names[number],
            b"unrecord main %s\n" % names[number],
            b"apply %s %s\n" % (own, names[number]),
            b"pull main %s\n" % own,
            b"log main\n",
            b"log main\n",
            b"print main\n",
            b"channels\n",
        ]))
    return asked


def ask(connection: socket.socket, stream, client: int, call: int, request: bytes) -> Told:
    """Sends a request, and reads the whole reply."""
    sent = time.monotonic_ns()
    connection.sendall(request)
    line = stream.readline()
    words = line.split()
    # the name of a change has 64 digits, which may be decimal, and a length has fewer
    if words[0] == b"ok" and len(words) == 3 and words[2].isdigit() and len(words[2]) < 64:
        line += stream.read(int(words[2]) + 1)
    assert line.endswith(b"\n"), line
    return Told(client, call, sent, time.monotonic_ns(), request, line)


def one_client(port: int, client: int, seed: int, count: int, start: threading.Barrier) -> List[Told]:
    """The session of one client."""
    with socket.create_connection(("127.0.0.1", port), timeout=PATIENCE) as connection:
        connection.setsockopt(socket.IPPROTO_TCP, socket.TCP_NODELAY, 1)
        stream = connection.makefile("rb")
        start.wait(PATIENCE)
        told = [ask(connection, stream, client, call, request)
                for call, request in enumerate(requests(client, seed, count), 1)]
        connection.sendall(b"quit\n")
        assert stream.read() == b"", "bytes behind the last reply"
    return told


def some_clients(port: int, clients: range, seed: int, count: int) -> List[Told]:
    """The sessions of some clients at once."""
    start = threading.Barrier(len(clients))
    with concurrent.futures.ThreadPoolExecutor(len(clients)) as pool:
        sessions = [pool.submit(one_client, port, client, seed, count, start) for client in clients]
        return [one for session in sessions for one in session.result()]


def all_clients(port: int, clients: int, seed: int, count: int) -> List[Told]:
    """The sessions of so many clients at once, from processes that share the clock of the system."""
    spawn = multiprocessing.get_context("spawn")
    with concurrent.futures.ProcessPoolExecutor(PROCESSES, mp_context=spawn) as pool:
        shares = [pool.submit(some_clients, port, range(number, clients, PROCESSES), seed, count) for number in range(PROCESSES)]
        return [one for share in shares for one in share.result()]


def changed_files(clients: int) -> Dict[bytes, Tuple[bytes, bytes]]:
    """The file that each change of the clients adds, by the name of the change."""
    files = {}
    for client in range(clients):
        for number in range(4):
            file = (b"%03d-%d.txt" % (client, number), b"text %d\n" % number)
            files[replay.change_name(replay.change_text(*file))] = file
    return files


# ---- histories that were made by hand


def try_judge() -> None:
    """The judge lets histories through that keep the clock, and no others."""
    def made(client, call, sent, read, request, reply):
        return Told(client, call, sent, read, request, reply)

    entry = made(0, 1, 0, 10, b"new a\n", b"ok 1\n")
    overlaps = made(1, 1, 5, 15, b"log main\n", b"ok 0 0\n\n")
    assert breach([entry, overlaps]) is None, "a read at once with a write may be before it"
    assert breach([entry, overlaps._replace(sent=11)]) is not None, "a read behind a write sees it"
    assert breach([entry, overlaps._replace(sent=11, reply=b"ok 1 0\n\n")]) is None
    read = made(1, 1, 0, 10, b"log main\n", b"ok 1 0\n\n")
    assert breach([read, entry._replace(sent=11, read=20)]) is not None, "a read does not see a write that comes later"
    assert breach([read, entry._replace(sent=9, read=20)]) is None
    assert breach([read, made(2, 1, 11, 12, b"log main\n", b"ok 1 0\n\n")]) is None, "two reads may have one place"
    assert breach([made(2, 1, 20, 30, b"log main\n", b"ok 0 0\n\n"), entry, read]) is not None, "the order of a list decides nothing"
    assert ordered_pairs([entry, overlaps]) == 0 and ordered_pairs([entry, overlaps._replace(sent=11)]) == 1
    assert overlapping([entry, overlaps]) == 1 and overlapping([entry, overlaps._replace(sent=11)]) == 0
    history = replay.Replay(b"1 1 1 new a\n", {})
    judge(history, [entry, overlaps])
    for wrong in (overlaps._replace(reply=b"ok 1 0\n\n", request=b"log b\n"), overlaps._replace(reply=b"ok 0 1\n\n\n"),
                  overlaps._replace(request=b"channels\n"), overlaps._replace(sent=11)):
        try:
            judge(history, [entry, wrong])
        except AssertionError:
            continue
        raise AssertionError(f"a wrong reply was let through: {wrong}")
    for wrong in ([overlaps], [entry, entry._replace(client=2)], [entry._replace(call=2)], [entry._replace(request=b"new b\n")]):
        try:
            judge(history, wrong)
        except AssertionError:
            continue
        raise AssertionError(f"wrong entries were let through: {wrong}")


if __name__ == "__main__":
    try_judge()
    print("the judge tells histories that keep the clock")
    sys.exit(0)
