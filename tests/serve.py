#!/usr/bin/env python3
"""Runs a real server, and clients over real sockets.

`serve.py PROGRAM` starts PROGRAM as a server on a port of its own for each
case. The last line is 'N passed, N failed'. Each wait is bounded, and each
server is ended by its process.
"""
import concurrent.futures
import os
import socket
import struct
import subprocess
import sys
import time

import real_time
import replay

PATIENCE = 60


class Server:
    """A server, and the number of its port."""

    def __init__(self, program, sessions, workers):
        self.process = subprocess.Popen(
            [program, "serve", "127.0.0.1:0", "--sessions", str(sessions), "--workers", str(workers)],
            bufsize=0, stdin=subprocess.DEVNULL, stdout=subprocess.DEVNULL, stderr=subprocess.PIPE)
        line = self.process.stderr.readline()
        assert line.startswith(b"pijuld: listening at 127.0.0.1:"), line
        self.port = int(line.rpartition(b":")[2])

    def connect(self):
        return socket.create_connection(("127.0.0.1", self.port), timeout=PATIENCE)

    def status(self):
        """The exit status, and what it said behind the line where it listens, once all sessions have ended."""
        _, line = self.process.communicate(timeout=PATIENCE)
        return self.process.returncode, line

    def end(self):
        if self.process.poll() is None:
            self.process.kill()
        self.process.communicate()


class Client:
    """A session over a connection, which reads replies one by one."""

    def __init__(self, connection):
        self.connection = connection
        self.stream = connection.makefile("rb")

    def send(self, data):
        self.connection.sendall(data)

    def line(self):
        line = self.stream.readline()
        assert line.endswith(b"\n"), f"the session ended at {line!r}"
        return line.rstrip(b"\n").split(b" ")

    def entered(self, request):
        """The place of what was entered."""
        self.send(request)
        words = self.line()
        assert words[0] == b"ok" and len(words) <= 3, words
        return int(words[1]), words[2:]

    def body(self, request):
        """The place of a body, and its bytes."""
        self.send(request)
        words = self.line()
        assert words[0] == b"ok" and len(words) == 3, words
        body = self.stream.read(int(words[2]) + 1)
        assert len(body) == int(words[2]) + 1 and body.endswith(b"\n")
        return int(words[1]), body[:-1]

    def close(self):
        self.stream.close()
        self.connection.close()


def put(text):
    return b"put %d\n%s\n" % (len(text), text)


def one_history(server, number, files):
    """A client that stores a change, applies it, prints and reads back. What it was told is kept."""
    name = b"%03d.txt" % number
    content = b"text of %d\n" % number * (number % 5 + 1)
    text = replay.change_text(name, content)
    hex_name = replay.change_name(text)
    files[hex_name] = (name, content)
    client = Client(server.connect())
    stored, words = client.entered(put(text))
    assert words == [hex_name], words
    applied, words = client.entered(b"apply main %s\n" % hex_name)
    assert words == [], words
    printed, files_printed = client.body(b"print main\n")
    read, back = client.body(b"get %s\n" % hex_name)
    assert back == text
    assert stored < applied <= printed <= read, "the places of a session fall"
    client.send(b"quit\n")
    assert client.stream.read() == b"", "bytes behind the last reply"
    client.close()
    return hex_name, stored, applied, printed, files_printed


def case_one_history(program):
    """200 clients at once, whose replies are one history."""
    clients, workers = 200, 8
    server = Server(program, clients + 1, workers)
    try:
        files = {}
        with concurrent.futures.ThreadPoolExecutor(clients) as pool:
            told = list(pool.map(lambda n: one_history(server, n, files), range(clients)))
        last = Client(server.connect())
        place, journal = last.body(b"journal\n")
        history = replay.Replay(journal, files)
        assert len(history.entries) == place == 2 * clients
        passes = set()
        for name, stored, applied, printed, files_printed in told:
            assert history.entry(stored)[2] == b"put " + name
            assert history.entry(applied)[2] == b"apply main " + name
            assert history.entry(stored)[:2] == (history.entry(applied)[0], 1)
            assert history.entry(applied)[1] == 2
            passes.add(history.entry(stored)[0])
            assert files_printed == history.printed(printed, b"main"), "a print is not that of its place"
        assert len(passes) == clients and min(passes) > workers and max(passes) <= workers + clients + 1
        assert last.body(b"log main\n")[1] == history.log(place, b"main")
        assert last.body(b"print main\n")[1] == history.printed(place, b"main")
        last.send(b"quit\n")
        last.close()
        assert server.status() == (0, b""), "the status of the server"
    finally:
        server.end()


def case_real_time(program):
    """Three runs of 60 clients at once, whose replies keep the order of the clock."""
    clients, requests = 60, 40
    real_time.try_judge()
    files = real_time.changed_files(clients)
    for seed in range(3):
        server = Server(program, clients + 1, clients)
        try:
            told = real_time.all_clients(server.port, clients, seed, requests)
            last = Client(server.connect())
            place, journal = last.body(b"journal\n")
            last.send(b"quit\n")
            last.close()
            assert len(told) == clients * requests
            real_time.judge(replay.Replay(journal, files), told)
            # most requests were at once with others, and most pairs of requests were not
            assert real_time.overlapping(told) * 2 > len(told), "the clients were not at work at once"
            assert real_time.ordered_pairs(told) * 4 > len(told) ** 2, "the clock orders few requests"
            assert server.status() == (0, b""), "the status of the server"
        finally:
            server.end()


def case_rude_clients(program):
    """A slow client, one that reads no reply, one with garbage and one that resets: the others are answered."""
    rude, others = 4, 12
    server = Server(program, (rude + 1) * (others + 1), rude + 1)
    kept = []
    try:
        first = Client(server.connect())
        big = replay.change_text(b"big.txt", b"x" * 1_000_000)
        # the larger text needs version 2 only above 1,048,576 bytes
        _, (big_name,) = first.entered(put(big))
        first.send(b"quit\n")
        first.close()

        slow = server.connect()
        kept.append(slow)
        deaf = server.connect()
        kept.append(deaf)
        deaf.setsockopt(socket.SOL_SOCKET, socket.SO_RCVBUF, 4096)
        deaf.settimeout(2)
        try:
            deaf.sendall(b"get %s\n" % big_name * 200)
        except OSError:
            pass
        garbage = server.connect()
        kept.append(garbage)
        try:
            garbage.sendall(bytes(range(256)) * 256)
        except OSError:
            pass
        broken = server.connect()
        broken.sendall(b"put 1000\npijul change 1\n")
        broken.setsockopt(socket.SOL_SOCKET, socket.SO_LINGER, struct.pack("ii", 1, 0))
        broken.close()

        slow_text = b"channels\nquit\n"
        began = time.monotonic()
        for number in range(others):
            slow.sendall(slow_text[number:number + 1])
            client = Client(server.connect())
            client.connection.settimeout(PATIENCE)
            _, body = client.body(b"channels\n")
            assert body == b"main 0\n", body
            text = replay.change_text(b"%d" % number, b"of %d\n" % number)
            _, (name,) = client.entered(put(text))
            assert client.body(b"get %s\n" % name)[1] == text
            client.send(b"quit\n")
            client.close()
            time.sleep(0.2)
        assert time.monotonic() - began < PATIENCE
        assert server.process.poll() is None, "the server has ended"

        slow.sendall(slow_text[others:])
        line, _, body = slow.makefile("rb").read().partition(b"\n")
        ok, place, length = line.split(b" ")
        assert (ok, length, body) == (b"ok", b"7", b"main 0\n\n"), (line, body)
        # the big text is stored, and that of each client before the newline of the request was sent
        assert 1 + slow_text.index(b"\n") <= int(place) <= 1 + others, place
    finally:
        for connection in kept:
            connection.close()
        server.end()


def case_statuses(program):
    """The ends of sessions decide the status, by the number of their passes."""
    for requests, wanted in ((b"channels\nquit\n", (0, b"")), (b"channels\n", (0, b"")),
                             (b"channels\nxyz\n", (6, b"pijuld: session\n")), (b"chan", (6, b"pijuld: session\n"))):
        server = Server(program, 1, 1)
        try:
            connection = server.connect()
            connection.sendall(requests)
            connection.shutdown(socket.SHUT_WR)
            replies = connection.makefile("rb").read()
            assert replies == (b"ok 0 7\nmain 0\n\n" if requests.startswith(b"channels") else b""), replies
            connection.close()
            assert server.status() == wanted, (requests, wanted)
        finally:
            server.end()


def case_reset(program):
    """A connection that is reset while a change is sent ends its own session by a fault of its source."""
    server = Server(program, 2, 1)
    try:
        broken = server.connect()
        broken.sendall(b"put 1000\npijul change 1\n")
        time.sleep(0.5)
        broken.setsockopt(socket.SOL_SOCKET, socket.SO_LINGER, struct.pack("ii", 1, 0))
        broken.close()
        client = Client(server.connect())
        assert client.body(b"journal\n") == (0, b"")
        client.send(b"quit\n")
        client.close()
        assert server.status() == (3, b"pijuld: read fault\n")
    finally:
        server.end()


def case_address(program):
    """An address that cannot be opened is a failed opening."""
    for address in ("nowhere", "127.0.0.1:99999", "256.0.0.1:1"):
        done = subprocess.run([program, "serve", address, "--sessions", "1", "--workers", "1"],
                              stdin=subprocess.DEVNULL, capture_output=True, timeout=PATIENCE)
        assert (done.returncode, done.stdout, done.stderr) == (3, b"", b"pijuld: read fault\n"), (address, done)


def pj(address, words, data=b""):
    """What the client of tools/ does with these words and this standard input."""
    tool = os.path.join(os.path.dirname(os.path.abspath(__file__)), "..", "tools", "pj")
    return subprocess.run([sys.executable, tool, address, *words], input=data, capture_output=True, timeout=PATIENCE)


def case_client(program):
    """The client of tools/ waits for a server that was just started, sends its words, and prints the replies."""
    text = replay.change_text(b"a", b"of a\n")
    name = replay.change_name(text)
    server = Server(program, 4, 1)
    try:
        for words, data, wanted, status in (
                (["put", "-"], text, b"ok 1 %s\n" % name, 0),
                (["apply", "main", name.decode()], b"", b"ok 2\n", 0),
                (["print", "other"], b"", b"no 2 channel\n", 1),
                ([], b"print main\nchannels\n", b"ok 2 21\nfile alive 5 a\nof a\n\n\nok 2 7\nmain 1\n\n", 0)):
            done = pj(f"127.0.0.1:{server.port}", words, data)
            assert (done.stdout, done.stderr, done.returncode) == (wanted, b"", status), (words, done)
        assert server.status() == (0, b"")
    finally:
        server.end()


def case_client_without_reply(program):
    """What is no request has no reply, which the client tells; nor has a put that is longer than any text."""
    server = Server(program, 2, 1)
    try:
        for words in (["appply", "main"], ["put", "-"]):
            done = pj(f"127.0.0.1:{server.port}", words, b"x" * 20_000_000)
            assert (done.stdout, done.returncode) == (b"", 1), (words, done)
            assert done.stderr.startswith(b"pj: ") and done.stderr.count(b"\n") == 1, (words, done)
        assert server.status() == (6, b"pijuld: session\n")
    finally:
        server.end()


def answered(replies):
    """What the client does where a server that is none reads its request, gives these bytes and ends."""
    with socket.create_server(("127.0.0.1", 0)) as listener, concurrent.futures.ThreadPoolExecutor(1) as pool:
        told = pool.submit(pj, f"127.0.0.1:{listener.getsockname()[1]}", ["print", "main"])
        listener.settimeout(PATIENCE)
        connection, _ = listener.accept()
        with connection:
            connection.settimeout(PATIENCE)
            asked = connection.makefile("rb").read()
            assert asked == b"print main\nquit\n", asked
            connection.sendall(replies)
        return told.result()


def case_client_of_cut_replies(program):
    """The client demands the whole of a reply, whatever the server is."""
    name = b"1" * 64
    for replies in (b"ok 2\n", b"ok 2 already\n", b"ok 1 %s\n" % name, b"ok 1 already %s\n" % name, b"ok 2 0\n\n", b"ok 2 3\na\nb\n"):
        done = answered(replies)
        assert (done.stdout, done.stderr, done.returncode) == (replies, b"", 0), (replies, done)
    for replies in (b"no 2 channel\n", b"no memory\n"):
        done = answered(replies)
        assert (done.stdout, done.stderr, done.returncode) == (replies, b"", 1), (replies, done)
    for replies in (b"", b"o", b"ok 2", b"ok 2 3\n", b"ok 2 3\na\nb", b"ok 2 3\na\nbc", b"yes\n"):
        done = answered(replies)
        assert (done.stdout, done.returncode) == (replies, 1) and done.stderr.startswith(b"pj: "), (replies, done)


def main(program):
    passed = failed = 0
    for name, case in sorted(globals().items()):
        if not name.startswith("case_"):
            continue
        try:
            case(program)
            passed += 1
        except Exception as fault:  # each case is told, whatever went wrong in it
            failed += 1
            print(f"FAILED {name}: {type(fault).__name__}: {fault}")
    print(f"{passed} passed, {failed} failed")
    return failed != 0


if __name__ == "__main__":
    sys.exit(main(sys.argv[1]))
