#!/usr/bin/env python3
"""Attacks a real server over sockets while honest clients work, and judges what all were told as one history.

    hostile.py PROGRAM [--long] [SEED]

It attacks servers of its own on 127.0.0.1, which `PROGRAM serve` starts. Sessions are drawn from SEED and half of them are
mutated byte by byte; others send nothing, a byte each second, half a request before they reset the connection, or requests
whose replies they never read; bodies come slowly, look like requests, or are cut at each byte. Each reply has to be what the
journal says at its place, and the clock is kept. Then many connections come at once for 4 workers, and one worker has
sessions of every kind, of which the first that ends badly decides the status. It takes some twenty seconds; `--long`, of
which more than a million requests are answered and which opens 10,000 connections at once, takes two minutes.
"""
from __future__ import annotations

import concurrent.futures
import multiprocessing
import random
import resource
import selectors
import socket
import sys
import threading
import time
from typing import Callable, List, NamedTuple, Tuple

import judged
import real_time
from conversing import PATIENCE, Session, connect, converse, cut, drawn_pieces, received, reset
from judged import Known
from serve import Client, Server, put

WORKERS = 32  # more than connections that are open at once, so that honest clients work while others attack
HONEST = 10  # clients
PROCESSES = 2  # of drawn sessions
AT_ONCE = 4  # drawn sessions of a process
CHANNELS = [b"main", b"main", b"c0", b"c1", b"c2", b"c3", b"c4", b"c5"]


class Size(NamedTuple):
    """How much is sent."""

    drawn: int  # sessions that are drawn
    requests: int  # of each of them
    honest: int  # requests of each honest client
    crowd: int  # connections at once


SHORT = Size(drawn=1_000, requests=100, honest=1_000, crowd=1_000)
LONG = Size(drawn=3_000, requests=500, honest=10_000, crowd=10_000)


# ---- what is sent


def drawn_request(draw: random.Random, known: List[Known]) -> bytes:
    """A request for some change and some channels."""
    one, channel, other = draw.choice(known), draw.choice(CHANNELS), draw.choice(CHANNELS)
    kind = draw.randrange(40)
    if kind < 8:
        return put(one.text)
    if kind < 18:
        return b"apply %s %s\n" % (channel, one.name)
    if kind < 26:
        verb = draw.choice([b"unrecord", b"uproot", b"unrecord"])
        return b"%s %s %s\n" % (verb, channel, one.name)
    if kind < 28:
        return b"%s %s\n" % (draw.choice([b"get", b"inverse"]), one.name)
    if kind < 32:
        return b"%s %s %s\n" % (draw.choice([b"pull", b"fork"]), channel, other)
    if kind < 34:
        return b"%s %s\n" % (draw.choice([b"new", b"new", b"drop"]), draw.choice(CHANNELS[2:]))
    if kind < 39:
        return b"%s %s\n" % (draw.choice([b"print", b"log", b"log", b"graph"]), channel)
    return b"channels\n"


def mutated(draw: random.Random, data: bytes) -> bytes:
    """The data with one to three changes: a byte, a part that is gone, stands twice or was put elsewhere, or new bytes."""
    for _ in range(draw.randrange(1, 4)):
        at = draw.randrange(len(data) + 1)
        end = min(len(data), at + draw.choice([1, 1, 1, 2, 5, 70, 300]))
        to = draw.randrange(len(data) + 1)
        new = bytes(draw.choice(b"\n\n  01789abefkput.-_\x00\xff") for _ in range(end - at))
        data = draw.choice([
            data[:at] + new[:1] + data[at + 1:],
            data[:at] + new + data[end:],
            data[:at] + data[end:],
            data[:end] + data[at:],
            data[:at] + new + data[at:],
            data[:to] + data[at:end] + data[to:],
        ])
    return data


def drawn_session(seed: int, number: int, requests: int, known: List[Known]) -> Tuple[random.Random, bytes]:
    """The bytes of a session; every second one is mutated, and every third has no `quit`."""
    draw = random.Random(seed * 1_000_003 + number)
    data = b"".join(drawn_request(draw, known) for _ in range(requests))
    if number % 3:
        data += b"quit\n"
    return draw, mutated(draw, data) if number % 2 else data


DISGUISED = b"quit\nput 3\nabc\ndrop main\nok 7\nno memory\n"


def disguised() -> bytes:
    """Bodies that look like requests and replies, among them a text whose file is a session."""
    inner, told = DISGUISED, judged.made(b"session", DISGUISED, None)
    bodies = put(inner) + put(put(inner)) + put(told.text)
    return bodies + b"apply main %s\nprint main\n" % told.name + put(b"quit") + put(b"") + b"quit\n"


def all_known(seed: int) -> List[Known]:
    """The changes that are asked for."""
    return judged.pool(seed, 60) + [judged.made(b"session", DISGUISED, None)]


# ---- sessions that are read to their end


def drawn_sessions(port: int, seed: int, numbers: range, requests: int) -> List[Session]:
    """Drawn sessions, some at once."""
    known = all_known(seed)

    def one(number: int) -> Session:
        draw, data = drawn_session(seed, number, requests, known)
        return converse(port, drawn_pieces(draw, data))

    with concurrent.futures.ThreadPoolExecutor(AT_ONCE) as pool:
        return list(pool.map(one, numbers))


def cut_sessions(port: int, seed: int) -> List[Session]:
    """One session in two pieces that end at each byte, and in pieces of one byte; and bodies that come slowly."""
    known = all_known(seed)
    data = put(known[0].text) + b"log main\nget %s\nquit\n" % known[0].name
    found = [converse(port, cut(data, [at]), 0.002) for at in range(1, len(data))]
    found.append(converse(port, cut(data, range(len(data))), 0.002))
    slow = disguised()
    found.append(converse(port, cut(slow, range(0, len(slow), 7)), 0.02))
    found.append(converse(port, [disguised()]))
    return found


def honest_sessions(port: int, seed: int, clients: int, count: int) -> Tuple[List[Session], List[real_time.Told]]:
    """Clients that send a request when they have read the reply before it, and what the clock said of each."""
    known = all_known(seed)

    def one(client: int) -> List[real_time.Told]:
        draw = random.Random(seed * 1_000_003 - 1 - client)
        with connect(port) as connection:
            stream = connection.makefile("rb")
            told = [real_time.ask(connection, stream, client, call, drawn_request(draw, known)) for call in range(1, count + 1)]
            connection.sendall(b"quit\n")
            assert stream.read() == b"", "bytes behind the last reply"
        return told

    with concurrent.futures.ThreadPoolExecutor(clients) as pool:
        told = list(pool.map(one, range(clients)))
    sessions = [Session(b"".join(it.request for it in one), b"".join(it.reply for it in one), True) for one in told]
    return sessions, [it for one in told for it in one]


# ---- sessions that are rude, until they are told to stop


def silent(port: int, stop: threading.Event, number: int) -> List[Session]:
    """Sends nothing."""
    with connect(port):
        stop.wait()
    return [Session(b"", b"", False)]


def dripping(port: int, stop: threading.Event, number: int) -> List[Session]:
    """Sends a byte each second."""
    def pieces():
        for byte in b"new drip%d\nchannels\n" % number * 1_000:
            if stop.wait(1):
                return
            yield bytes([byte])

    return [converse(port, pieces())]


def deaf(port: int, stop: threading.Event, number: int) -> List[Session]:
    """Sends requests as long as the server takes them, and reads no reply."""
    data, at = b"new deaf%d\n" % number + b"channels\nprint main\n" * 20_000, 0
    with connect(port) as connection:
        connection.setsockopt(socket.SOL_SOCKET, socket.SO_RCVBUF, 4096)
        connection.settimeout(1)
        while at < len(data) and not stop.is_set():
            try:
                at += connection.send(data[at:at + 4096])
            except socket.timeout:
                pass
        stop.wait()
        reset(connection)
    return [Session(data[:at], b"", False)]


def vanishing(port: int, stop: threading.Event, number: int) -> List[Session]:
    """Sends a request and half another one, and resets the connection; again and again."""
    found = []
    while not stop.wait(0.05):
        name = b"gone%d.%d" % (number, len(found))
        data = b"new %s\ndrop %s\nput 1000\npijul change 1\n" % (name, name)
        with connect(port) as connection:
            connection.sendall(data)
            if len(found) % 2:
                time.sleep(0.01)
            reset(connection)
        found.append(Session(data, b"", False))
    return found


Rude = Callable[[int, threading.Event, int], List[Session]]
RUDE: List[Rude] = [silent, silent, dripping, dripping, deaf, deaf, vanishing, vanishing]


# ---- the attacks


def last_session(server: Server) -> Tuple[Session, bytes]:
    """All channels, as they are when all others have ended, and the body of `journal`."""
    client = Client(server.connect())
    _, channels = client.body(b"channels\n")
    client.send(b"quit\n")
    client.close()
    requests = b"channels\n"
    for line in channels.splitlines():
        name = line.split(b" ")[0]
        requests += b"log %s\nprint %s\ngraph %s\n" % (name, name, name)
    session = converse(server.port, [requests + b"journal\n"])
    return session, list(judged.calls_of(0, session))[-1].reply.partition(b"\n")[2][:-1]


def attacked(server: Server, seed: int, size: Size) -> Tuple[List[Session], List[Session], List[real_time.Told]]:
    """The sessions of an attack that were read to their end, the rude ones, and what the honest clients noted."""
    stop = threading.Event()
    spawn = multiprocessing.get_context("spawn")
    with concurrent.futures.ThreadPoolExecutor(len(RUDE)) as threads, \
            concurrent.futures.ProcessPoolExecutor(PROCESSES + 2, mp_context=spawn) as pool:
        rude = [threads.submit(kind, server.port, stop, number) for number, kind in enumerate(RUDE)]
        try:
            drawn = [pool.submit(drawn_sessions, server.port, seed, range(number, size.drawn, PROCESSES), size.requests)
                     for number in range(PROCESSES)]
            drawn.append(pool.submit(cut_sessions, server.port, seed))
            honest, told = pool.submit(honest_sessions, server.port, seed, HONEST, size.honest).result()
            sessions = honest + [one for share in drawn for one in share.result()]
        finally:
            stop.set()
        return sessions, [one for share in rude for one in share.result()], told


def case_attack(program: str, seed: int, size: Size) -> str:
    """Everything at once, and one history of it."""
    judged.try_judge()
    server = Server(program, 65_536, WORKERS)
    try:
        read, rude, told = attacked(server, seed, size)
        sessions = read + rude
        last, journal = last_session(server)
        assert server.process.poll() is None, "the server has ended"
        count = judged.judge(all_known(seed), sessions + [last], journal)
        early = real_time.breach(told)
        assert early is None, f"read before the other was sent, and has a place that is too high: {early}"
        assert count > size.drawn * size.requests / 4, f"{count} requests were answered, of so many that were sent"
        reset_ones = [one for one in read if not one.whole]
        assert all(judged.bytes_behind(one.sent) for one in reset_ones), "a connection was reset whose bytes were all read"
        ends = [judged.asked(session.sent)[1] for session in sessions]
        assert all(ends.count(end) > size.drawn / 30 for end in ("quit", "idle", "bad")), "an end hardly came"
    finally:
        server.end()
    return f"{count} requests answered over {len(sessions)} connections, {len(reset_ones)} of them cut short, {journal.count(10)} entered"


def crowd(port: int, count: int) -> List[Session]:
    """So many connections at once, each with a session of its own; none is closed before all are made."""
    selector, ends = selectors.DefaultSelector(), {}
    for number in range(count):
        one = socket.socket()
        one.setblocking(False)
        one.connect_ex(("127.0.0.1", port))
        ends[one] = (b"new n%d\nlog n%d\ndrop n%d\nquit\n" % (number, number, number), [])
        selector.register(one, selectors.EVENT_WRITE)
    sessions, until = [], time.monotonic() + PATIENCE
    while len(sessions) < count:
        assert time.monotonic() < until, f"only {len(sessions)} of {count} were answered"
        for key, events in selector.select(1):
            one: socket.socket = key.fileobj  # type: ignore[assignment]
            data, came = ends[one]
            if events & selectors.EVENT_WRITE:
                assert one.send(data) == len(data)
                selector.modify(one, selectors.EVENT_READ)
            elif not received(one, came):
                selector.unregister(one)
                one.close()
                sessions.append(Session(data, b"".join(came), True))
    return sessions


def case_crowd(program: str, seed: int, size: Size) -> str:
    """Many connections at once for 4 workers; all are answered, and the server ends well."""
    soft, hard = resource.getrlimit(resource.RLIMIT_NOFILE)
    resource.setrlimit(resource.RLIMIT_NOFILE, (min(hard, max(soft, size.crowd + 200)), hard))
    server = Server(program, size.crowd + 2, 4)
    try:
        server.connect().close()  # it listens
        sessions = crowd(server.port, size.crowd)
        client = Client(server.connect())
        _, journal = client.body(b"journal\n")
        client.send(b"quit\n")
        client.close()
        assert judged.judge([], sessions, journal) == 3 * size.crowd
        assert journal.count(10) == 2 * size.crowd
        assert server.status() == (0, b""), "the status of the server"
    finally:
        server.end()
    return f"{size.crowd} connections at once"


BEHIND = {"quit": b"quit\nmore", "idle": b"", "bad": b"quiet\n", "part": b"put 9\n12345", "reset": b"put 9\n1"}
ENDED = {"quit": (0, b""), "idle": (0, b""), "part": (6, b"pijuld: session\n"), "bad": (6, b"pijuld: session\n")}


def case_statuses(program: str, seed: int, size: Size) -> str:
    """One worker has drawn sessions one after the other; the first that ended badly decides the status."""
    known, told, wanted = all_known(seed), [], set()
    for number in range(12):
        draw = random.Random(seed * 1_000 + number)
        kinds = [draw.choice(["quit", "idle", "idle", "reset", "bad", "part"]) for _ in range(12)]
        kinds = kinds if number else ["quit", "idle"] * 6
        server = Server(program, len(kinds) + 1, 1)
        try:
            sessions = []
            for kind in kinds:
                requests = b"".join(drawn_request(draw, known) for _ in range(draw.randrange(5)))
                behind = BEHIND[kind]
                if kind == "reset":
                    with connect(server.port) as connection:
                        connection.sendall(behind)
                        time.sleep(0.3)
                        reset(connection)
                else:
                    sessions.append(converse(server.port, drawn_pieces(draw, requests + behind)))
                    assert judged.asked(sessions[-1].sent)[1] == kind
            client = Client(server.connect())
            _, journal = client.body(b"journal\n")
            client.send(b"quit\n")
            client.close()
            judged.judge(known, sessions, journal)
            worst = next((kind for kind in kinds if kind not in ("quit", "idle")), "quit")
            status = ENDED.get(worst, (3, b"pijuld: read fault\n"))
            assert server.status() == status, (kinds, status)
            wanted.add(status[0])
            told.append(worst)
        finally:
            server.end()
    assert wanted == {0, 3, 6}, f"the seed draws no sessions for some status: {told}"
    return f"statuses by the first of {', '.join(told)}"


def main(words: List[str]) -> int:
    size = LONG if "--long" in words else SHORT
    words = [word for word in words if word != "--long"]
    program, seed = words[0], int(words[1]) if len(words) > 1 else 61
    failed = 0
    print(f"the seed is {seed}")
    for case in (case_attack, case_crowd, case_statuses):
        began = time.monotonic()
        try:
            print(f"{case.__name__}: {case(program, seed, size)}, {time.monotonic() - began:.0f} seconds", flush=True)
        except Exception as fault:  # each case is told, whatever went wrong in it
            failed += 1
            print(f"FAILED {case.__name__}: {type(fault).__name__}: {str(fault)[:2000]}", flush=True)
    return failed != 0


if __name__ == "__main__":
    sys.exit(main(sys.argv[1:]))
